//! The figures sheet in place: a row for each lease, in the order of the records, then the rows of places without one.

use super::image::{LEASES, Record};
use crate::desk::FIGURES;

/// Network 4, length 1, then two bytes for each figure, low byte first.
const ROW: usize = 11;
pub type Row = [u8; ROW];

const UNTOLD: u16 = 0xffff;
const EMPTY: Row = [0, 0, 0, 0, 0, 0xff, 0xff, 0xff, 0xff, 0xff, 0xff];
/// The sheet of a table without leases.
static NONE: [Row; LEASES] = [EMPTY; LEASES];

/// High water, in use and unusable, as an entry tells them.
pub type Told = [u16; 3];
pub const NOTHING: Told = [UNTOLD; 3];

/// The figures of an entry, high byte first; those past the third are stepped over.
#[inline(always)]
pub fn told(figures: &[u8]) -> Told {
    let mut told = NOTHING;
    for (told, figure) in told.iter_mut().zip(figures.as_chunks().0) {
        *told = u16::from_be_bytes(*figure);
    }
    told
}

/// The sheet's rows; nothing if it is of another size.
pub fn rows(sheet: &mut [u8]) -> Option<&mut [Row]> {
    (sheet.len() == FIGURES).then(|| sheet.as_chunks_mut().0)
}

/// Network and length, which stand in the same order in a row and in a record, and three bytes after them.
fn eight(bytes: &[u8]) -> u64 {
    u64::from_le_bytes(*bytes.first_chunk().unwrap())
}

/// Whether the rows are those of these leases.
pub fn matches(rows: &[Row], leases: &[Record]) -> bool {
    let (used, empty) = rows.split_at(leases.len());
    // No short cuts: in a sheet that matches every row has to be looked at.
    let mut other = 0;
    for (row, lease) in used.iter().zip(leases) {
        other |= eight(row) ^ eight(&lease[4..]);
    }
    other << 24 == 0 && empty.as_flattened() == NONE[leases.len()..].as_flattened()
}

/// The row of a new lease.
#[inline(always)]
pub fn untold(lease: &Record) -> Row {
    let mut row = [0xff; ROW];
    *row.first_chunk_mut().unwrap() = (eight(&lease[4..]) | !0 << 40).to_le_bytes();
    row
}

/// The sheet of these leases, with nothing told.
pub fn fill(rows: &mut [Row], leases: &[Record]) {
    let (used, empty) = rows.split_at_mut(leases.len());
    for (row, lease) in used.iter_mut().zip(leases) {
        *row = untold(lease);
    }
    empty.copy_from_slice(&NONE[leases.len()..]);
}

/// What an entry tells; "0xffff or a missing figure keeps what was told before".
#[inline(always)]
pub fn file(row: &mut Row, told: &Told) {
    if *told == NOTHING {
        return;
    }
    for (kept, told) in row[5..].as_chunks_mut().0.iter_mut().zip(told) {
        if *told != UNTOLD {
            *kept = told.to_le_bytes();
        }
    }
}

/// Clears the rows of places that have a lease no more.
pub fn clear(rows: &mut [Row]) {
    rows.fill(EMPTY);
}
