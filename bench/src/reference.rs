//! The independent reference behind the same interface: load, the call on its table, save.

use ::reference::calls;
use ::reference::counts;
use ::reference::image::{self, Desk as For, Form};
use ::reference::prefix::Prefix;
use ::reference::refusal::{Refusal, refusal};
use ::reference::sheet::sheet as rows_of;
use ::reference::table::Table;

use crate::desk::{Answer, Counts, Desk, FIRST_FORM, FULL, Lent};

pub const REFERENCE: Desk = Desk { name: "reference", open, ask, take, list, release, mark, load, save, whole, sheet };

fn refused(refusal: Refusal) -> Answer {
    Answer { place: refusal.place.into(), ..Answer::refusal(refusal.number.into()) }
}

fn answer(result: Result<calls::Answer, Refusal>) -> Answer {
    match result {
        Ok(answer) => Answer::accepted(answer.bytes, answer.count),
        Err(refusal) => refused(refusal),
    }
}

/// A length that a byte does not hold is the length of no prefix; 0 is neither.
fn length_of(number: u32) -> u8 {
    u8::try_from(number).unwrap_or(0)
}

/// The table of an image; where it does not load, the zero table, which is not sound either.
fn table_of(image: &[u8]) -> Table {
    image::loaded(image).unwrap_or_else(|_| Table::zero())
}

/// The table of the image in a buffer, with these counts, whatever they say; one that is too small for every image, or for
/// this one, has none. "The calls work on the second form only": an image of the first, told by its head, is none here.
fn table_in(image: &[u8], bytes: usize, counts: &Counts) -> Table {
    let image = if image.len() < FULL { &[] } else { image.get(..bytes).unwrap_or(&[]) };
    let second = image.get(2..4) == Some(&Form::Second.head().to_le_bytes());
    Table { counts: *counts, ..table_of(if second { image } else { &[] }) }
}

/// Saves the table over an image of `old` bytes, and zeroes what is left of that.
fn store(table: &Table, image: &mut [u8], old: usize) -> usize {
    let bytes = image::save(table, Form::Second, For::Own, image)
        .expect("an accepted call leaves a sound table, and a full one fits");
    if bytes < old {
        image[bytes..old].fill(0);
    }
    bytes
}

/// A call on the table of the image in a buffer, and on the figures sheet.
fn settle(lent: Lent, call: impl FnOnce(&mut Table, &mut [u8]) -> Result<calls::Answer, Refusal>) -> Answer {
    let mut table = table_in(lent.image, *lent.bytes, lent.counts);
    let result = call(&mut table, lent.figures);
    if result.is_ok() {
        *lent.bytes = store(&table, lent.image, *lent.bytes);
        *lent.counts = table.counts;
    }
    answer(result)
}

/// A table for a buffer, whatever that held before, by a call that fills the figures sheet. Row 14 is the last: where the
/// buffer is too small the call gets no sheet either, which is that row of its own.
fn fill(lent: Lent, table: impl FnOnce(&mut [u8]) -> Result<Table, Refusal>) -> Answer {
    let figures = if lent.image.len() < FULL { &mut [] } else { lent.figures };
    let filled = table(figures).map(|table| {
        *lent.bytes = store(&table, lent.image, FULL);
        *lent.counts = table.counts;
        calls::Answer::default()
    });
    answer(filled)
}

fn open(lent: Lent, networks: &[u32], lengths: &[u8], term: u32, default_length: u32, start: u32) -> Answer {
    let pools: Vec<Prefix> =
        networks.iter().zip(lengths).map(|(&network, &length)| Prefix { network, length }).collect();
    fill(lent, |figures| {
        if networks.len() != lengths.len() {
            return Err(refusal(12));
        }
        calls::open(&pools, term, length_of(default_length), start, figures)
    })
}

fn ask(lent: Lent, client: u32, now: u32, option: &[u8], selection: Option<&[u8]>, reply: &mut [u8]) -> Answer {
    settle(lent, |table, figures| calls::ask(table, figures, client, now, option, selection, reply))
}

fn take(lent: Lent, client: u32, now: u32, option: &[u8], selection: Option<&[u8]>, reply: &mut [u8]) -> Answer {
    settle(lent, |table, figures| calls::take(table, figures, client, now, option, selection, reply))
}

fn list(image: &[u8], bytes: usize, counts: &Counts, client: u32, now: u32, option: &[u8], reply: &mut [u8]) -> Answer {
    answer(calls::list(&table_in(image, bytes, counts), client, now, option, reply))
}

fn release(lent: Lent, client: u32, now: u32, option: &[u8]) -> Answer {
    settle(lent, |table, figures| calls::release(table, figures, client, now, option))
}

fn mark(lent: Lent, network: u32, length: u32, deprecated: u32, now: u32) -> Answer {
    let prefix = Prefix { network, length: length_of(length) };
    settle(lent, |table, figures| calls::mark(table, figures, now, prefix, deprecated != 0))
}

fn load(lent: Lent, saved: &[u8]) -> Answer {
    fill(lent, |figures| {
        let mut table = Table::zero();
        image::load(&mut table, figures, saved)?;
        Ok(table)
    })
}

fn whole(image: &[u8], bytes: usize, counts: &Counts, length: u32) -> Answer {
    match counts::whole(&table_in(image, bytes, counts), length) {
        Ok(count) => Answer::accepted(0, count),
        Err(refusal) => refused(refusal),
    }
}

fn save(image: &[u8], bytes: usize, counts: &Counts, form: u32, older: u32, buffer: &mut [u8]) -> Answer {
    let form = if form == FIRST_FORM { Form::First } else { Form::Second };
    let desk = if older == 0 { For::Own } else { For::Older };
    match image::save(&table_in(image, bytes, counts), form, desk, buffer) {
        Ok(written) => Answer::accepted(written, 0),
        Err(refusal) => refused(refusal),
    }
}

fn sheet(image: &[u8], text: &mut [u8]) -> Answer {
    match rows_of(&table_of(image)) {
        Err(refusal) => refused(refusal),
        Ok(rows) if rows.len() > text.len() => Answer::refusal(14),
        Ok(rows) => {
            text[..rows.len()].copy_from_slice(rows.as_bytes());
            Answer::accepted(rows.len(), 0)
        }
    }
}
