//! The proved library, through its C interface (include/flockdrift.h).

use crate::desk::{Answer, Counts, Desk, Lent};
use crate::flockdrift::*;

pub const PROVED: Desk = Desk { name: "proved", open, ask, take, list, release, mark, load, save, whole, sheet };

// Each pointer below comes from a slice, with that slice's length, from a reference, or from the counts, all of them; the
// library keeps none of them.

fn open(lent: Lent, networks: &[u32], lengths: &[u8], term: u32, default_length: u32, start: u32) -> Answer {
    unsafe {
        flockdrift_open(
            lent.image.as_mut_ptr(),
            lent.image.len(),
            lent.bytes,
            lent.figures.as_mut_ptr(),
            lent.figures.len(),
            lent.counts.as_flattened_mut().as_mut_ptr(),
            networks.as_ptr(),
            networks.len(),
            lengths.as_ptr(),
            lengths.len(),
            term,
            default_length,
            start,
        )
    }
}

/// An option 118 as its truth value, its first byte and its size; null where there is none.
fn selected(selection: Option<&[u8]>) -> (u32, *const u8, usize) {
    selection.map_or((0, std::ptr::null(), 0), |option| (1, option.as_ptr(), option.len()))
}

fn ask(lent: Lent, client: u32, now: u32, option: &[u8], selection: Option<&[u8]>, reply: &mut [u8]) -> Answer {
    let (selected, selection, selection_bytes) = selected(selection);
    unsafe {
        flockdrift_ask(
            lent.image.as_mut_ptr(),
            lent.image.len(),
            lent.bytes,
            lent.figures.as_mut_ptr(),
            lent.figures.len(),
            lent.counts.as_flattened_mut().as_mut_ptr(),
            client,
            now,
            option.as_ptr(),
            option.len(),
            selected,
            selection,
            selection_bytes,
            reply.as_mut_ptr(),
            reply.len(),
        )
    }
}

fn take(lent: Lent, client: u32, now: u32, option: &[u8], selection: Option<&[u8]>, reply: &mut [u8]) -> Answer {
    let (selected, selection, selection_bytes) = selected(selection);
    unsafe {
        flockdrift_take(
            lent.image.as_mut_ptr(),
            lent.image.len(),
            lent.bytes,
            lent.figures.as_mut_ptr(),
            lent.figures.len(),
            lent.counts.as_flattened_mut().as_mut_ptr(),
            client,
            now,
            option.as_ptr(),
            option.len(),
            selected,
            selection,
            selection_bytes,
            reply.as_mut_ptr(),
            reply.len(),
        )
    }
}

fn list(image: &[u8], bytes: usize, counts: &Counts, client: u32, now: u32, option: &[u8], reply: &mut [u8]) -> Answer {
    unsafe {
        flockdrift_list(
            image.as_ptr(),
            image.len(),
            bytes,
            counts.as_flattened().as_ptr(),
            client,
            now,
            option.as_ptr(),
            option.len(),
            reply.as_mut_ptr(),
            reply.len(),
        )
    }
}

fn release(lent: Lent, client: u32, now: u32, option: &[u8]) -> Answer {
    unsafe {
        flockdrift_release(
            lent.image.as_mut_ptr(),
            lent.image.len(),
            lent.bytes,
            lent.figures.as_mut_ptr(),
            lent.figures.len(),
            lent.counts.as_flattened_mut().as_mut_ptr(),
            client,
            now,
            option.as_ptr(),
            option.len(),
        )
    }
}

fn mark(lent: Lent, network: u32, length: u32, deprecated: u32, now: u32) -> Answer {
    unsafe {
        flockdrift_mark(
            lent.image.as_mut_ptr(),
            lent.image.len(),
            lent.bytes,
            lent.figures.as_mut_ptr(),
            lent.figures.len(),
            lent.counts.as_flattened_mut().as_mut_ptr(),
            network,
            length,
            deprecated,
            now,
        )
    }
}

fn load(lent: Lent, saved: &[u8]) -> Answer {
    unsafe {
        flockdrift_load(
            lent.image.as_mut_ptr(),
            lent.image.len(),
            lent.bytes,
            lent.figures.as_mut_ptr(),
            lent.figures.len(),
            lent.counts.as_flattened_mut().as_mut_ptr(),
            saved.as_ptr(),
            saved.len(),
        )
    }
}

fn save(image: &[u8], bytes: usize, counts: &Counts, form: u32, older: u32, buffer: &mut [u8]) -> Answer {
    let counts = counts.as_flattened().as_ptr();
    unsafe {
        flockdrift_save(image.as_ptr(), image.len(), bytes, counts, form, older, buffer.as_mut_ptr(), buffer.len())
    }
}

fn whole(image: &[u8], bytes: usize, counts: &Counts, length: u32) -> Answer {
    unsafe { flockdrift_whole(image.as_ptr(), image.len(), bytes, counts.as_flattened().as_ptr(), length) }
}

fn sheet(image: &[u8], text: &mut [u8]) -> Answer {
    unsafe { flockdrift_sheet(image.as_ptr(), image.len(), text.as_mut_ptr(), text.len()) }
}
