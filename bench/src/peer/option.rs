//! Option 220: read once, without a copy, and the replies.

use crate::desk::Answer;

const CODE: u8 = 220;
const REQUEST: u8 = 1;
const INFORMATION: u8 = 2;
const NAME: u8 = 3;

pub const REQUEST_H: u8 = 1;
pub const REQUEST_I: u8 = 2;
pub const INFORMATION_S: u8 = 1;
pub const INFORMATION_C: u8 = 2;
const ENTRY_D: u8 = 1;
const ENTRY_H: u8 = 2;

/// An option holds at most this many entries.
pub const ENTRIES: usize = 35;

/// A suboption's framing is bad, or a field of it is outside the rules.
const FRAMING: u32 = 7;
const FIELD: u32 = 16;

/// What a call looks at while the option is read.
pub trait Pieces {
    fn request(&mut self, flags: u8, length: u8);
    /// An entry, and the flags of its information.
    fn entry(&mut self, information: u8, network: u32, length: u8, figures: &[u8]);
    /// Only an ask looks at names.
    fn name(&mut self, _: &[u8]) {}
}

/// Reads the option; a refusal is 6, or 7 or 16 with the place of the first bad suboption.
#[inline(always)]
pub fn read(option: &[u8], pieces: &mut impl Pieces) -> Result<(), Answer> {
    if option.len() < 4 || option[0] != CODE || usize::from(option[1]) != option.len() - 2 {
        return Err(Answer::refusal(6));
    }
    let mut place = 3;
    while place < option.len() {
        match suboption(&option[place..], pieces) {
            Ok(size) => place += size,
            Err(number) => return Err(Answer { place: place as u32, ..Answer::refusal(number) }),
        }
    }
    Ok(())
}

/// The address of an option 118.
pub fn selection(option: &[u8]) -> Option<u32> {
    match *option {
        [118, 4, a, b, c, d] => Some(u32::from_be_bytes([a, b, c, d])),
        _ => None,
    }
}

/// Puts an option 118 after an option 220 of so many bytes, where there is one; answers the bytes of both.
pub fn put_selection(reply: &mut [u8], bytes: usize, option: Option<&[u8]>) -> usize {
    let option = option.unwrap_or(&[]);
    reply[bytes..bytes + option.len()].copy_from_slice(option);
    bytes + option.len()
}

/// The suboption at the front of the bytes; answers its size, or the number of a bad one.
fn suboption(bytes: &[u8], pieces: &mut impl Pieces) -> Result<usize, u32> {
    let (&[number, len], rest) = bytes.split_first_chunk().ok_or(FRAMING)?;
    let body = rest.get(..usize::from(len)).ok_or(FRAMING)?;
    match number {
        REQUEST => match *body {
            [flags, length @ 0..=30] => pieces.request(flags, length),
            [_, _] => return Err(FIELD),
            _ => return Err(FRAMING),
        },
        INFORMATION => {
            let (&flags, mut entries) = body.split_first().ok_or(FRAMING)?;
            if entries.is_empty() {
                return Err(FRAMING);
            }
            // The framing of all entries comes before a field of any, so the walk goes on after a bad one.
            let mut outside = false;
            while !entries.is_empty() {
                let (&[a, b, c, d, length, _, size], rest) = entries.split_first_chunk().ok_or(FRAMING)?;
                if size % 2 != 0 {
                    return Err(FRAMING);
                }
                let (figures, rest) = rest.split_at_checked(size.into()).ok_or(FRAMING)?;
                let network = u32::from_be_bytes([a, b, c, d]);
                if matches!(length, 1..=30) && network << length == 0 {
                    pieces.entry(flags, network, length, figures);
                } else {
                    outside = true;
                }
                entries = rest;
            }
            if outside {
                return Err(FIELD);
            }
        }
        NAME => match body.last() {
            Some(0) => return Err(FIELD),
            Some(_) => pieces.name(body),
            None => return Err(FRAMING),
        },
        _ => {}
    }
    Ok(2 + body.len())
}

fn put_entry(entry: &mut [u8; 7], network: u32, length: u8, h: bool, d: bool) {
    entry[..4].copy_from_slice(&network.to_be_bytes());
    entry[4] = length;
    entry[5] = if h { ENTRY_H } else { 0 } | if d { ENTRY_D } else { 0 };
    entry[6] = 0;
}

/// The offer number `index` of an ask's reply: an information of its own.
pub fn put_offer(reply: &mut [u8], index: usize, network: u32, length: u8, h: bool, d: bool) {
    let (head, entry) = reply[3 + 10 * index..13 + 10 * index].split_first_chunk_mut::<3>().unwrap();
    *head = [INFORMATION, 8, 0];
    put_entry(entry.first_chunk_mut().unwrap(), network, length, h, d);
}

/// The head of an ask's reply; answers its size.
pub fn put_offers_head(reply: &mut [u8], count: usize) -> usize {
    reply[..3].copy_from_slice(&[CODE, (1 + 10 * count) as u8, 0]);
    3 + 10 * count
}

/// Entry number `index` of a reply that is one information.
pub fn put_shown(reply: &mut [u8], index: usize, network: u32, length: u8, h: bool, d: bool) {
    let at = 6 + 7 * index;
    put_entry(reply[at..at + 7].first_chunk_mut().unwrap(), network, length, h, d);
}

/// The head of a reply that is one information; answers its size.
pub fn put_shown_head(reply: &mut [u8], count: usize, flags: u8) -> usize {
    let bytes = 7 * count;
    reply[..6].copy_from_slice(&[CODE, (4 + bytes) as u8, 0, INFORMATION, (1 + bytes) as u8, flags]);
    6 + bytes
}
