//! The image: document 01's saved book, and the second form of M-105 in document 02. M-107
//! in document 02 makes a full book longer, and has the choice to save for an older desk.
//!
//! "Records: a 2-byte length counting kind and body, a 2-byte kind, the body; all
//! little-endian."

use crate::figures::fill;
use crate::prefix::Prefix;
use crate::refusal::{refusal, Refusal};
use crate::table::{Lease, Name, State, Table, LEASES, NAME, OLDER_LEASES, POOLS};

const POOL: u16 = 2;

/// The two saved forms. M-105: "The second saved form has head kind 5 (body as kind 1) and
/// line kind 4 ...; kind 2 is unchanged."
#[derive(Clone, Copy, Debug, PartialEq, Eq)]
pub enum Form {
    First,
    Second,
}

impl Form {
    pub const BOTH: [Form; 2] = [Form::First, Form::Second];

    /// The kind of the head, which tells the form.
    pub fn head(self) -> u16 {
        match self {
            Form::First => 1,
            Form::Second => 5,
        }
    }

    /// The kind of a lease.
    pub fn lease(self) -> u16 {
        match self {
            Form::First => 3,
            Form::Second => 4,
        }
    }

    /// The body of a lease: "kind 3's body, a name length (1), 24 octets".
    pub fn lease_body(self) -> usize {
        match self {
            Form::First => 15,
            Form::Second => 15 + 1 + NAME,
        }
    }

    /// M-107: "Full books are 19,541 bytes in the first form and 45,141 in the second."
    pub fn full(self) -> usize {
        match self {
            Form::First => 19_541,
            Form::Second => 45_141,
        }
    }
}

const FLAG_H: u8 = 1;
const FLAG_D: u8 = 2;

/// Which desk a book is saved for. M-107: "saving for one", an older desk, "is a separate
/// choice", in either form.
#[derive(Clone, Copy, Debug, PartialEq, Eq)]
pub enum Desk {
    Own,
    Older,
}

impl Desk {
    pub const BOTH: [Desk; 2] = [Desk::Own, Desk::Older];

    /// The lines that it reads.
    pub fn lines(self) -> usize {
        match self {
            Desk::Own => LEASES,
            Desk::Older => OLDER_LEASES,
        }
    }
}

/// Saves the table in a form, for a desk, into the front of `buffer` and returns the bytes
/// written. The bytes after them keep their content.
pub fn save(table: &Table, form: Form, desk: Desk, buffer: &mut [u8]) -> Result<usize, Refusal> {
    if !table.sound() {
        return Err(refusal(5));
    }
    // Row 20, before 18: "too many lines for the older desk", "refused exactly if more lines
    // are in the book", whether they have ended by now or not: save has no time.
    if table.used_leases().len() > desk.lines() {
        return Err(refusal(20));
    }
    // Row 18, before 14: "names would be lost", "refused exactly if a line has a name".
    let named = |lease: &Lease| lease.name != Name::default();
    if form == Form::First && table.used_leases().iter().any(named) {
        return Err(refusal(18));
    }
    let image = image_of(table, form);
    // Row 14: "more than the buffer holds".
    if buffer.len() < image.len() {
        return Err(refusal(14));
    }
    buffer[..image.len()].copy_from_slice(&image);
    Ok(image.len())
}

/// The image of a sound table in a form; the first leaves names out.
fn image_of(table: &Table, form: Form) -> Vec<u8> {
    let mut image = Vec::new();
    // "Kind 1, head, once and first: term (4), default length (1), last time (4)."
    let mut head = Vec::new();
    head.extend(table.term.to_le_bytes());
    head.push(table.default_length);
    head.extend(table.last_time.to_le_bytes());
    put_record(&mut image, form.head(), &head);
    // "Kind 2, root: network (4), length (1)."
    for pool in table.used_pools() {
        let mut body = Vec::new();
        body.extend(pool.network.to_le_bytes());
        body.push(pool.length);
        put_record(&mut image, POOL, &body);
    }
    // "Kind 3, line: network (4), length (1), 1 held or 2 leased (1), flags h 1 + d 2
    // (1), station (4), end (4)."
    for lease in table.used_leases() {
        let mut body = Vec::new();
        body.extend(lease.prefix.network.to_le_bytes());
        body.push(lease.prefix.length);
        body.push(match lease.state {
            State::None => 0,
            State::Offered => 1,
            State::Leased => 2,
        });
        body.push(if lease.h { FLAG_H } else { 0 } + if lease.d { FLAG_D } else { 0 });
        body.extend(lease.client.to_le_bytes());
        body.extend(lease.expires.to_le_bytes());
        // "kind 3's body, a name length (1), 24 octets, zero after the name".
        if form == Form::Second {
            body.push(lease.name.length);
            body.extend(lease.name.octets);
        }
        put_record(&mut image, form.lease(), &body);
    }
    image
}

fn put_record(image: &mut Vec<u8>, kind: u16, body: &[u8]) {
    let length = body.len() as u16 + 2;
    image.extend(length.to_le_bytes());
    image.extend(kind.to_le_bytes());
    image.extend(body);
}

/// Loads an image into the table and makes the figures sheet its own, nothing told:
/// figures are not saved. What table and sheet were does not matter, and a refusal leaves
/// them as they were.
pub fn load(table: &mut Table, figures: &mut [u8], image: &[u8]) -> Result<(), Refusal> {
    let loaded = loaded(image)?;
    fill(&loaded, figures)?;
    *table = loaded;
    Ok(())
}

/// The table that an image is of. Row 5 is about "the saved bytes only". M-102: "Load works
/// the counts out."
pub fn loaded(image: &[u8]) -> Result<Table, Refusal> {
    match table_of(image) {
        Some(table) if table.sound_but_counts() => Ok(table.counted()),
        _ => Err(refusal(5)),
    }
}

/// The table that the records make, nothing if they are not the records of one. M-105:
/// "Load accepts both forms, never a mixture".
fn table_of(image: &[u8]) -> Option<Table> {
    let records = records(image)?;
    // "head, once and first".
    let (&(kind, head), rest) = records.split_first()?;
    let form = Form::BOTH.into_iter().find(|form| form.head() == kind)?;
    if head.len() != 9 {
        return None;
    }
    let mut table = Table::zero();
    table.term = u32_at(head, 0);
    table.default_length = head[4];
    table.last_time = u32_at(head, 5);
    let mut pools = 0;
    let mut leases = 0;
    for &(kind, body) in rest {
        if kind == POOL && body.len() == 5 {
            let pool = prefix_at(body);
            // "Roots then lines, ascending, nothing after." That they ascend is part of
            // sound. An unused place has no record: "one book, one image".
            if leases > 0 || pools == POOLS || pool == Prefix::default() {
                return None;
            }
            table.pools[pools] = pool;
            pools += 1;
        } else if kind == form.lease() && body.len() == form.lease_body() {
            if leases == LEASES {
                return None;
            }
            table.leases[leases] = lease_of(body)?;
            leases += 1;
        } else {
            return None;
        }
    }
    Some(table)
}

fn prefix_at(body: &[u8]) -> Prefix {
    Prefix {
        network: u32_at(body, 0),
        length: body[4],
    }
}

/// The lease of a body of either form, that of the first without a name.
fn lease_of(body: &[u8]) -> Option<Lease> {
    let state = match body[5] {
        1 => State::Offered,
        2 => State::Leased,
        _ => return None,
    };
    let flags = body[6];
    if flags > FLAG_H + FLAG_D {
        return None;
    }
    let mut name = Name::default();
    // Whether the name is in the rules is part of sound.
    if let Some((length, octets)) = body[15..].split_first() {
        name.length = *length;
        name.octets.copy_from_slice(octets);
    }
    Some(Lease {
        prefix: prefix_at(body),
        client: u32_at(body, 7),
        state,
        h: flags & FLAG_H != 0,
        d: flags & FLAG_D != 0,
        expires: u32_at(body, 11),
        name,
    })
}

/// Kind and body of each record, nothing if the bytes do not end with a record.
fn records(image: &[u8]) -> Option<Vec<(u16, &[u8])>> {
    let mut records = Vec::new();
    let mut rest = image;
    while !rest.is_empty() {
        if rest.len() < 4 {
            return None;
        }
        let length = usize::from(u16::from_le_bytes([rest[0], rest[1]]));
        let kind = u16::from_le_bytes([rest[2], rest[3]]);
        if length < 2 || rest.len() < 2 + length {
            return None;
        }
        records.push((kind, &rest[4..2 + length]));
        rest = &rest[2 + length..];
    }
    Some(records)
}

fn u32_at(body: &[u8], at: usize) -> u32 {
    u32::from_le_bytes([body[at], body[at + 1], body[at + 2], body[at + 3]])
}
