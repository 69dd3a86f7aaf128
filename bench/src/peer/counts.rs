//! The counts of whole free prefixes, for each pool and each length, by levels and without a walk.
//!
//! In a pool every prefix of a length is split, leased, whole and free, or inside one that is not split. So with 2 for each
//! one that is split a length above, and 1 for the pool itself, what is neither split nor leased is free. The prefixes around
//! a lease that are not around the lease before it begin at the length after their common bits, and end before its own.

use super::image::{self, POOLS, Pools, Record};
use crate::desk::{Counts, LENGTHS, SHORTEST};

/// A place for every length, so that no test is needed.
const ANY: usize = 32;

/// For each length of each pool, how many runs of split prefixes begin there, and how many leases have it: there they end.
pub struct Levels {
    begin: [[u16; ANY]; POOLS],
    end: [[u16; ANY]; POOLS],
    /// The pool of the last lease, and its network.
    pool: usize,
    network: u32,
}

impl Levels {
    pub fn new() -> Levels {
        Levels { begin: [[0; ANY]; POOLS], end: [[0; ANY]; POOLS], pool: usize::MAX, network: 0 }
    }

    /// The next lease, in ascending order.
    #[inline(always)]
    pub fn lease(&mut self, pools: &Pools, pool: usize, network: u32, length: u32) {
        let common = (self.network ^ network).leading_zeros();
        let begin = if pool == self.pool { common + 1 } else { pools.length[pool].into() };
        self.begin[pool][begin as usize % ANY] += 1;
        self.end[pool][length as usize % ANY] += 1;
        (self.pool, self.network) = (pool, network);
    }

    /// As many as are split at the length above, twice, less those that are split or leased here: since what begins and
    /// does not end is split, that is the split ones above less those that begin.
    pub fn counts(&self, pools: &Pools) -> Counts {
        let mut counts = [[0; LENGTHS]; POOLS];
        for (pool, row) in counts.iter_mut().enumerate().take(pools.count) {
            let (begin, end) = (&self.begin[pool][SHORTEST..], &self.end[pool][SHORTEST..]);
            let mut split = 0u16;
            for ((count, begin), end) in row.iter_mut().zip(begin).zip(end) {
                *count = split.wrapping_sub(*begin);
                split = split.wrapping_add(*begin).wrapping_sub(*end);
            }
            let own = &mut row[usize::from(pools.length[pool]) - SHORTEST];
            *own = own.wrapping_add(1);
        }
        counts
    }
}

/// Those of the leases as they now are, which keep the rules.
pub fn count(pools: &Pools, leases: &[Record]) -> Counts {
    let mut levels = Levels::new();
    let (mut pool, mut to) = (0, pools.to[0]);
    for lease in leases {
        let network = image::network(lease);
        while u64::from(network) >= to {
            pool += 1;
            to = pools.to[pool];
        }
        levels.lease(pools, pool, network, image::length(lease).into());
    }
    levels.counts(pools)
}
