//! The counts of whole free blocks, in the open book. Sentences in quotation marks are those
//! of M-102 in document 02.

use crate::prefix::Prefix;
use crate::refusal::{refusal, Refusal};
use crate::table::{find_whole, Table, LONGEST_POOL, POOLS, SHORTEST_POOL};

/// "each length 8 to 30".
pub const LENGTHS: usize = 23;
/// The bytes of all counts, two for each.
pub const BYTES: usize = 2 * LENGTHS * POOLS;

/// "eight rows of twenty-three", one for each place of a pool.
pub type Counts = [[u16; LENGTHS]; POOLS];

/// Which count of a row is that of a length; nothing "outside 8 to 30".
pub fn column(length: u32) -> Option<usize> {
    let lengths = u32::from(SHORTEST_POOL)..=u32::from(LONGEST_POOL);
    let column = length.checked_sub(*lengths.start())?;
    lengths.contains(&length).then_some(column as usize)
}

/// "what a fresh walk would find": "whole free blocks for each root and each length", of the
/// book as it is written, every line of it present. The row of an unused root is all zero.
pub fn fresh(table: &Table) -> Counts {
    let leases: Vec<Prefix> = table
        .used_leases()
        .iter()
        .map(|lease| lease.prefix)
        .collect();
    let mut counts = [[0; LENGTHS]; POOLS];
    for (row, pool) in counts.iter_mut().zip(table.used_pools()) {
        let mut found = Vec::new();
        find_whole(*pool, &leases, &mut found);
        for block in found {
            if let Some(column) = column(block.length.into()) {
                row[column] += 1;
            }
        }
    }
    counts
}

/// "A query for a length sums over the roots, strikes nothing, speaks of the book as last
/// written, and answers 0 outside 8 to 30; its only refusal is 5", which comes before every
/// answer.
pub fn whole(table: &Table, length: u32) -> Result<usize, Refusal> {
    if !table.sound() {
        return Err(refusal(5));
    }
    Ok(match column(length) {
        None => 0,
        Some(column) => table
            .counts
            .iter()
            .map(|row| usize::from(row[column]))
            .sum(),
    })
}

/// Row by row, each count little-endian.
pub fn bytes_of(counts: &Counts) -> Vec<u8> {
    let all = counts.iter().flatten();
    all.flat_map(|count| count.to_le_bytes()).collect()
}

/// The counts that these bytes are; nothing if they are not exactly as many.
pub fn of_bytes(bytes: &[u8]) -> Option<Counts> {
    if bytes.len() != BYTES {
        return None;
    }
    let mut counts = [[0; LENGTHS]; POOLS];
    for (count, pair) in counts.iter_mut().flatten().zip(bytes.chunks(2)) {
        *count = u16::from_le_bytes([pair[0], pair[1]]);
    }
    Some(counts)
}
