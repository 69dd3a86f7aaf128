//! The figures sheet: a row of usage figures for each place of the table's leases, as
//! bytes beside the table. Sentences in quotation marks are those of M-100 in document 02.

use crate::prefix::Prefix;
use crate::refusal::{refusal, Refusal};
use crate::table::{Lease, Table, LEASES};

/// "untold (0xffff)".
pub const UNTOLD: u16 = 0xffff;
/// A row's bytes, little-endian: network (4), length (1), high water (2), in use (2),
/// unusable (2).
pub const ROW: usize = 11;
/// A sheet's bytes: a row for every place, empty ones too.
pub const SHEET: usize = ROW * LEASES;

/// "one row of three for each line ...; a row also holds its line's network and length."
#[derive(Clone, Copy, Debug, PartialEq, Eq)]
pub struct Row {
    pub prefix: Prefix,
    pub high_water: u16,
    pub in_use: u16,
    pub unusable: u16,
}

impl Row {
    /// "A new or loaded line starts with all three untold". Of the all-zero prefix it is
    /// an empty line's row.
    pub fn untold(prefix: Prefix) -> Row {
        Row {
            prefix,
            high_water: UNTOLD,
            in_use: UNTOLD,
            unusable: UNTOLD,
        }
    }

    /// Files an entry's figures, of which the last may be missing: "0xffff or a missing
    /// figure keeps what was told before."
    pub fn tell(&mut self, figures: &[u16]) {
        // Document 01: "high water, in use, unusable".
        let kept = [&mut self.high_water, &mut self.in_use, &mut self.unusable];
        for (kept, &told) in kept.into_iter().zip(figures) {
            if told != UNTOLD {
                *kept = told;
            }
        }
    }
}

/// The rows of a sheet; nothing if it has not exactly a sheet's bytes.
pub fn rows_of(sheet: &[u8]) -> Option<Vec<Row>> {
    if sheet.len() != SHEET {
        return None;
    }
    let row = |bytes: &[u8]| Row {
        prefix: Prefix {
            network: u32::from_le_bytes([bytes[0], bytes[1], bytes[2], bytes[3]]),
            length: bytes[4],
        },
        high_water: u16_at(bytes, 5),
        in_use: u16_at(bytes, 7),
        unusable: u16_at(bytes, 9),
    };
    Some(sheet.chunks(ROW).map(row).collect())
}

fn u16_at(bytes: &[u8], at: usize) -> u16 {
    u16::from_le_bytes([bytes[at], bytes[at + 1]])
}

/// Writes the rows of all places over a sheet.
pub fn put_rows(rows: &[Row], sheet: &mut [u8]) {
    for (bytes, row) in sheet.chunks_mut(ROW).zip(rows) {
        bytes[..4].copy_from_slice(&row.prefix.network.to_le_bytes());
        bytes[4] = row.prefix.length;
        bytes[5..7].copy_from_slice(&row.high_water.to_le_bytes());
        bytes[7..9].copy_from_slice(&row.in_use.to_le_bytes());
        bytes[9..].copy_from_slice(&row.unusable.to_le_bytes());
    }
}

/// The sheet of a table of which nothing was told.
pub fn untold_sheet(table: &Table) -> Vec<u8> {
    let mut sheet = vec![0; SHEET];
    put_rows(&rows_after(table, &[]), &mut sheet);
    sheet
}

/// "open and load fill it". Row 14, their last: the buffer is no sheet.
pub fn fill(table: &Table, sheet: &mut [u8]) -> Result<(), Refusal> {
    if sheet.len() != SHEET {
        return Err(refusal(14));
    }
    sheet.copy_from_slice(&untold_sheet(table));
    Ok(())
}

/// "Rows match lines, place for place". Figures of a lease may be any.
pub fn matches(rows: &[Row], table: &Table) -> bool {
    rows.iter().zip(&table.leases).all(|(row, lease)| {
        // "(an empty line's row is network and length 0, untold)".
        let empty = *lease == Lease::default();
        row.prefix == lease.prefix && (!empty || *row == Row::untold(row.prefix))
    })
}

/// The rows of the leases that have not ended: "When a line is struck its row is cleared".
pub fn present_rows(rows: &[Row], table: &Table, now: u32) -> Vec<Row> {
    let places = rows.iter().zip(&table.leases);
    let present = places.filter(|(_, lease)| lease.expires > now);
    present.map(|(row, _)| *row).collect()
}

/// A row for every place of a table: that of the same lease among the rows kept, which
/// has the same prefix, since no new lease lies where one is present; otherwise untold.
pub fn rows_after(table: &Table, kept: &[Row]) -> Vec<Row> {
    let row = |lease: &Lease| {
        let same = kept.iter().find(|row| row.prefix == lease.prefix);
        same.copied().unwrap_or(Row::untold(lease.prefix))
    };
    table.leases.iter().map(row).collect()
}
