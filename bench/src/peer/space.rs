//! Free space: the gaps between the leases, and the best fit among them.
//!
//! Addresses are counted in fours: no prefix is longer than 30, so every boundary is a multiple of four, and 2^32 fits.

use super::image::{Met, Pools};

/// The free ranges, ascending; each lies inside one pool. An empty one is harmless. There is room for `N` of them: one for
/// each lease, those to come included, and one for each pool.
pub struct Gaps<const N: usize> {
    ranges: [(u32, u32); N],
    count: usize,
    /// The pool that the last lease lies in, and where that lease ends.
    pool: usize,
    free_from: u64,
}

impl<const N: usize> Gaps<N> {
    pub fn new() -> Gaps<N> {
        Gaps { ranges: [(0, 0); N], count: 0, pool: usize::MAX, free_from: 0 }
    }

    fn push(&mut self, from: u64, to: u64) {
        if from < to {
            self.ranges[self.count] = ((from / 4) as u32, (to / 4) as u32);
            self.count += 1;
        }
    }

    /// What is left of the pools before this one, from the last lease on.
    fn enter(&mut self, pools: &Pools, pool: usize) {
        while self.pool != pool {
            if self.pool != usize::MAX {
                self.push(self.free_from, pools.to[self.pool]);
            }
            self.pool = self.pool.wrapping_add(1);
            if self.pool < pools.count {
                self.free_from = pools.from[self.pool];
            }
        }
    }

    /// The next lease, in ascending order.
    #[inline(always)]
    pub fn lease(&mut self, pools: &Pools, lease: &Met) {
        if self.pool != lease.pool {
            self.enter(pools, lease.pool);
        }
        self.push(self.free_from, lease.from);
        self.free_from = lease.to;
    }

    /// No lease is left.
    pub fn finish(&mut self, pools: &Pools) {
        self.enter(pools, pools.count);
    }

    /// Begins in one pool, whose leases alone are met.
    pub fn enter_only(&mut self, pools: &Pools, pool: usize) {
        (self.pool, self.free_from) = (pool, pools.from[pool]);
    }

    /// No lease of that pool is left.
    pub fn finish_only(&mut self, pools: &Pools) {
        self.push(self.free_from, pools.to[self.pool]);
    }

    /// Takes the best fit for a length and answers its network.
    ///
    /// The whole free prefixes of at least this size in a gap are those of the gap cut to multiples of the size. Their
    /// sizes rise from the lower end and fall to the upper end, so the smallest stands at an end; its size is the lowest
    /// bit set in either end.
    pub fn take(&mut self, length: u8) -> Option<u32> {
        // No pool is larger than a prefix of length 8.
        if length < 8 {
            return None;
        }
        let size = 1u32 << (30 - length);
        let (mut best, mut at, mut index) = (u32::MAX, 0, 0);
        for (i, &(from, to)) in self.ranges[..self.count].iter().enumerate() {
            let (from, to) = ((from + size - 1) & size.wrapping_neg(), to & size.wrapping_neg());
            let ends = from | to;
            let smallest = ends & ends.wrapping_neg();
            if from < to && smallest < best {
                (best, index) = (smallest, i);
                at = if from & smallest != 0 { from } else { to - smallest };
                if smallest == size {
                    break;
                }
            }
        }
        if best == u32::MAX {
            return None;
        }
        let (from, to) = self.ranges[index];
        let after = at + size;
        if from == at {
            self.ranges[index].0 = after;
        } else {
            self.ranges[index].1 = at;
            if after < to {
                self.ranges.copy_within(index + 1..self.count, index + 2);
                self.ranges[index + 1] = (after, to);
                self.count += 1;
            }
        }
        Some(at * 4)
    }
}
