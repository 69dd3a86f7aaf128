//! Options 220 (RFC 6656) and 118 (RFC 3011) as bytes.

use crate::prefix::{prefix, LONGEST, SHORTEST};
use crate::refusal::{bad_suboption, refusal, Refusal};

pub const SUBNET_ALLOCATION: u8 = 220;
pub const SUBNET_SELECTION: u8 = 118;

const REQUEST: u8 = 1;
const INFORMATION: u8 = 2;
const NAME: u8 = 3;

// "(h is bit value 1, i is 2)".
const REQUEST_H: u8 = 1;
const REQUEST_I: u8 = 2;
// RFC 6656, section 3.2: `:c:s|`, s is the lowest bit.
const INFORMATION_S: u8 = 1;
const INFORMATION_C: u8 = 2;
// RFC 6656, section 3.2.1: `:h:d|`, d is the lowest bit.
const ENTRY_D: u8 = 1;
const ENTRY_H: u8 = 2;

/// "Each suboption read is a request, an information, a name or an unknown one".
#[derive(Clone, Debug, PartialEq, Eq)]
pub enum Suboption {
    Request(Request),
    Information(Information),
    Name(Vec<u8>),
    Unknown,
}

#[derive(Clone, Copy, Debug, PartialEq, Eq)]
pub struct Request {
    pub h: bool,
    pub i: bool,
    /// "0 means that no length is suggested."
    pub prefix: u8,
}

#[derive(Clone, Debug, PartialEq, Eq)]
pub struct Information {
    pub c: bool,
    pub s: bool,
    pub entries: Vec<Entry>,
}

#[derive(Clone, Debug, PartialEq, Eq)]
pub struct Entry {
    pub network: u32,
    pub prefix: u8,
    pub h: bool,
    pub d: bool,
    /// High water, in use, unusable: as many as were told. Reading gives at most three,
    /// and writing takes no more.
    pub figures: Vec<u16>,
}

/// Reads option 220.
pub fn read220(option: &[u8]) -> Result<Vec<Suboption>, Refusal> {
    // Row 6: "input not exactly the option: under 2 bytes, other code, Len wrong,
    // or (220) Len 0 or 1".
    if option.len() < 2 || option[0] != SUBNET_ALLOCATION {
        return Err(refusal(6));
    }
    // "its length is Len + 2".
    if option.len() != usize::from(option[1]) + 2 || option[1] < 2 {
        return Err(refusal(6));
    }
    // Byte 2, the option's own flags, is ignored: none is defined.
    let mut list = Vec::new();
    let mut place = 3;
    while place < option.len() {
        let (suboption, end) = read_suboption(option, place)?;
        list.push(suboption);
        // "between suboptions the first still wins".
        place = end;
    }
    Ok(list)
}

/// The suboption at a place, and the place after it.
fn read_suboption(option: &[u8], place: usize) -> Result<(Suboption, usize), Refusal> {
    // Document 02, M-104: "7 for framing (no Len byte, Len past the end, a Len that the
    // suboption can't have, an entry cut short, a figure length odd or past the end)".
    let framing = bad_suboption(7, place);
    // "Each suboption is a number, a Len without those two bytes, and a body."
    if place + 2 > option.len() {
        return Err(framing);
    }
    let (number, end) = (option[place], place + 2 + usize::from(option[place + 1]));
    if end > option.len() {
        return Err(framing);
    }
    let body = &option[place + 2..end];
    // "Within one suboption framing is checked first, over the whole of it".
    let Some(suboption) = framed(number, body) else {
        return Err(framing);
    };
    // Row 16: "field outside the rules, in 7's row, with the same place".
    if !fields_within_rules(&suboption) {
        return Err(bad_suboption(16, place));
    }
    Ok((suboption, end))
}

/// A suboption's parts, whatever its fields say; nothing if its framing is bad.
fn framed(number: u8, body: &[u8]) -> Option<Suboption> {
    match number {
        REQUEST => {
            // "Request (1): Len 2, flags ..., prefix length 0 to 30".
            if body.len() != 2 {
                return None;
            }
            Some(Suboption::Request(Request {
                h: body[0] & REQUEST_H != 0,
                i: body[0] & REQUEST_I != 0,
                prefix: body[1],
            }))
        }
        INFORMATION => {
            // "Information (2): flags ..., then one or more entries".
            let flags = *body.first()?;
            let mut entries = Vec::new();
            let mut rest = &body[1..];
            while !rest.is_empty() {
                let (entry, after) = framed_entry(rest)?;
                entries.push(entry);
                rest = after;
            }
            if entries.is_empty() {
                return None;
            }
            Some(Suboption::Information(Information {
                c: flags & INFORMATION_C != 0,
                s: flags & INFORMATION_S != 0,
                entries,
            }))
        }
        NAME => {
            // "Name (3): Len at least 1".
            if body.is_empty() {
                return None;
            }
            Some(Suboption::Name(body.to_vec()))
        }
        // "unknown ones are stepped over".
        _ => Some(Suboption::Unknown),
    }
}

/// The entry at the start of `bytes`, and the bytes after it; nothing if its framing is
/// bad.
fn framed_entry(bytes: &[u8]) -> Option<(Entry, &[u8])> {
    // "network (4 bytes, high byte first), prefix, flags ..., stat-len".
    if bytes.len() < 7 {
        return None;
    }
    let flags = bytes[5];
    let stat_len = usize::from(bytes[6]);
    // "Stat-len is even and within the suboption."
    if stat_len % 2 != 0 || stat_len > bytes.len() - 7 {
        return None;
    }
    let (stats, after) = bytes[7..].split_at(stat_len);
    // "Figures are 16-bit, high byte first ...; those past the third are stepped
    // over."
    let figures = stats
        .chunks(2)
        .take(3)
        .map(|pair| u16::from_be_bytes([pair[0], pair[1]]))
        .collect();
    let entry = Entry {
        network: u32::from_be_bytes([bytes[0], bytes[1], bytes[2], bytes[3]]),
        prefix: bytes[4],
        h: flags & ENTRY_H != 0,
        d: flags & ENTRY_D != 0,
        figures,
    };
    Some((entry, after))
}

/// Document 02, M-104: "a field outside the rules (prefix, network bits past it, a
/// name's final zero)". Of a framed suboption.
fn fields_within_rules(suboption: &Suboption) -> bool {
    match suboption {
        // "prefix length 0 to 30".
        Suboption::Request(request) => request.prefix <= LONGEST,
        Suboption::Information(information) => {
            let mut entries = information.entries.iter();
            entries.all(|entry| good_entry_prefix(entry.network, entry.prefix))
        }
        // "not ended by a zero byte."
        Suboption::Name(name) => name.last() != Some(&0),
        Suboption::Unknown => true,
    }
}

/// "An entry's prefix is 1 to 30, and network bits past the prefix are 0."
fn good_entry_prefix(network: u32, length: u8) -> bool {
    (SHORTEST..=LONGEST).contains(&length) && prefix(network, length).aligned()
}

/// Writes option 220 into the front of `buffer` and returns the bytes written. The
/// bytes after them keep their content.
pub fn write220(list: &[Suboption], buffer: &mut [u8]) -> Result<usize, Refusal> {
    // Row 13: "a suboption outside the rules above, or none at all".
    if list.is_empty() || !list.iter().all(writable) {
        return Err(refusal(13));
    }
    // The body: flags, written as 0, and the suboptions.
    let mut body = vec![0];
    for suboption in list {
        let (number, bytes) = suboption_body(suboption);
        // Row 14: "Len above 255".
        let Ok(len) = u8::try_from(bytes.len()) else {
            return Err(refusal(14));
        };
        body.push(number);
        body.push(len);
        body.extend(bytes);
    }
    let Ok(len) = u8::try_from(body.len()) else {
        return Err(refusal(14));
    };
    // Row 14: "more than the buffer holds".
    if buffer.len() < body.len() + 2 {
        return Err(refusal(14));
    }
    buffer[0] = SUBNET_ALLOCATION;
    buffer[1] = len;
    buffer[2..body.len() + 2].copy_from_slice(&body);
    Ok(body.len() + 2)
}

/// The rules above, Len aside. An unknown suboption has lost its number and body,
/// and a fourth figure would not read back, so neither can be written.
fn writable(suboption: &Suboption) -> bool {
    match suboption {
        Suboption::Request(request) => request.prefix <= LONGEST,
        Suboption::Information(information) => {
            !information.entries.is_empty()
                && information.entries.iter().all(|entry| {
                    good_entry_prefix(entry.network, entry.prefix) && entry.figures.len() <= 3
                })
        }
        Suboption::Name(name) => !name.is_empty() && name[name.len() - 1] != 0,
        Suboption::Unknown => false,
    }
}

fn bit(set: bool, value: u8) -> u8 {
    if set {
        value
    } else {
        0
    }
}

/// The number and the body of a writable suboption.
fn suboption_body(suboption: &Suboption) -> (u8, Vec<u8>) {
    match suboption {
        Suboption::Request(request) => {
            let flags = bit(request.h, REQUEST_H) + bit(request.i, REQUEST_I);
            (REQUEST, vec![flags, request.prefix])
        }
        Suboption::Information(information) => {
            let flags = bit(information.c, INFORMATION_C) + bit(information.s, INFORMATION_S);
            let mut body = vec![flags];
            for entry in &information.entries {
                body.extend(entry.network.to_be_bytes());
                body.push(entry.prefix);
                body.push(bit(entry.h, ENTRY_H) + bit(entry.d, ENTRY_D));
                body.push(2 * entry.figures.len() as u8);
                for figure in &entry.figures {
                    body.extend(figure.to_be_bytes());
                }
            }
            (INFORMATION, body)
        }
        Suboption::Name(name) => (NAME, name.clone()),
        Suboption::Unknown => (0, Vec::new()),
    }
}

/// Reads option 118: "code 118, Len 4, four address bytes".
pub fn read118(option: &[u8]) -> Result<u32, Refusal> {
    match *option {
        [SUBNET_SELECTION, 4, a, b, c, d] => Ok(u32::from_be_bytes([a, b, c, d])),
        _ => Err(refusal(6)),
    }
}

/// Writes option 118 into the front of `buffer` and returns the bytes written.
pub fn write118(address: u32, buffer: &mut [u8]) -> Result<usize, Refusal> {
    if buffer.len() < 6 {
        return Err(refusal(14));
    }
    buffer[0] = SUBNET_SELECTION;
    buffer[1] = 4;
    buffer[2..6].copy_from_slice(&address.to_be_bytes());
    Ok(6)
}
