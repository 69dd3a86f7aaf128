//! Pools and tables, good and bad.

use reference::prefix::{prefix, Prefix};
use reference::table::{Lease, Name, State, Table, LATEST, LEASES, LONGEST_TERM};

use super::{Author, Profile};
use crate::bytes::hex;

pub(super) const TEN: u32 = 0x0a00_0000;

impl Author {
    pub(super) fn leases(&self) -> Vec<Lease> {
        self.script.table().used_leases().to_vec()
    }

    /// Where pools and other prefixes lie: beside each other, and at both ends.
    pub(super) fn somewhere(&mut self) -> u32 {
        match self.numbers.below(8) {
            0 => 0,
            1 => u32::MAX,
            2 => 0x7fff_ffff,
            3 => 0x8000_0000,
            4 => self.number(),
            _ => TEN + 256 * self.numbers.below(16) as u32,
        }
    }

    /// The other half of the prefix twice as large, or the prefix that follows.
    pub(super) fn neighbour(&mut self, of: Prefix) -> Prefix {
        let size = of.size() as u32;
        if self.numbers.once_in(3) {
            prefix(of.network.wrapping_add(size), of.length)
        } else {
            prefix(of.network ^ size, of.length)
        }
    }

    /// Pools that open accepts, in any order.
    pub fn good_pools(&mut self, profile: &Profile) -> Vec<Prefix> {
        let mut pools: Vec<Prefix> = Vec::new();
        let count = self.numbers.between(1, profile.pools);
        for _ in 0..4 * count {
            let beside = pools.last().copied();
            let pool = match beside {
                Some(last) if self.numbers.once_in(2) => self.neighbour(last),
                _ => {
                    let length = self.length(profile.pool_lengths);
                    aligned(self.somewhere(), length)
                }
            };
            if pools.len() < count && !pools.iter().any(|other| other.shares_address_with(pool)) {
                pools.push(pool);
            }
        }
        pools
    }

    /// Pools of which open refuses most: one damaged, nested, twice, too many, none.
    pub fn any_pools(&mut self, profile: &Profile) -> Vec<Prefix> {
        let mut pools = self.good_pools(profile);
        let index = self.numbers.below(pools.len());
        let pool = pools[index];
        match self.numbers.below(10) {
            0 => pools[index].length = self.one_of(&[0, 1, 7, 8, 30, 31, 32, 33, 255]),
            1 => pools[index].network ^= 1 << self.numbers.below(32),
            2 => pools.push(pool),
            3 => pools.push(prefix(pool.network, (pool.length + 1).min(30))),
            4 => pools.push(aligned(pool.network, pool.length.saturating_sub(1))),
            5 => pools.clear(),
            6 => {
                for _ in 0..self.numbers.between(1, 16) {
                    let next = self.neighbour(pools[pools.len() - 1]);
                    pools.push(next);
                }
            }
            _ => {}
        }
        self.numbers.shuffle(&mut pools);
        pools
    }

    pub fn open_line(&mut self, pools: &[Prefix], profile: &Profile, start: u32) -> String {
        let term = self.one_of(&[60, 61, 119, 120, 121, 600, 600, 3_600, 86_400, LONGEST_TERM]);
        let default = if self.numbers.once_in(8) {
            self.length((1, 30))
        } else {
            self.length(profile.lengths)
        };
        let mut line = format!("open {term} {default} {start}");
        for pool in pools {
            line.push_str(&format!(" {pool}"));
        }
        line
    }

    /// A sound table with leases of all kinds; every other one has no names.
    pub fn any_table(&mut self, profile: &Profile) -> Table {
        let mut table = Table::zero();
        table.term = self.one_of(&[60, 600, 3_600, LONGEST_TERM]);
        table.default_length = self.length(profile.lengths);
        table.last_time = self.start_time();
        let mut pools = self.good_pools(profile);
        pools.sort_by_key(|pool| pool.network);
        table.pools[..pools.len()].copy_from_slice(&pools);
        let count = self.numbers.between(0, profile.leases);
        let mut leases: Vec<Lease> = Vec::new();
        for _ in 0..3 * count {
            let pool = self.one_of(&pools);
            let at = self.inside(pool, profile.lengths);
            if leases.len() < count
                && !leases
                    .iter()
                    .any(|lease| lease.prefix.shares_address_with(at))
            {
                leases.push(self.any_lease(at, table.last_time, profile));
            }
        }
        table.set_leases(leases);
        if self.numbers.once_in(2) {
            table = self.without_names(&table);
        }
        table.counted()
    }

    pub(super) fn any_lease(&mut self, at: Prefix, last_time: u32, profile: &Profile) -> Lease {
        let state = self.one_of(&[State::Offered, State::Leased, State::Leased]);
        let left = self.one_of(&[1, 2, 60, 120, 120, 600, 3_600, LONGEST_TERM]);
        Lease {
            prefix: at,
            client: 1 + self.numbers.below(profile.clients) as u32,
            state,
            h: self.numbers.once_in(2),
            d: self.numbers.once_in(4),
            expires: if self.numbers.once_in(20) {
                u32::MAX
            } else {
                last_time + left
            },
            name: if self.numbers.once_in(3) {
                Name::default()
            } else {
                self.lease_name()
            },
        }
    }

    /// A prefix inside a pool, of one of the lengths or the pool's own.
    pub(super) fn inside(&mut self, pool: Prefix, lengths: (u8, u8)) -> Prefix {
        let length = self.length(lengths).max(pool.length);
        let offset = u64::from(self.number()) % pool.size();
        aligned(pool.network + offset as u32, length)
    }

    /// How many lines a table has that is full, or nearly so.
    pub fn few_empty(&mut self) -> usize {
        LEASES - self.one_of(&[0, 0, 0, 1, 2, 5])
    }

    pub fn start_time(&mut self) -> u32 {
        match self.numbers.below(6) {
            0 => 0,
            1 => self.numbers.below(LATEST as usize) as u32,
            _ => 1_000,
        }
    }

    /// Opens or loads a table, so that the calls after it have one.
    pub fn start(&mut self, profile: &Profile) {
        if self.numbers.once_in(3) {
            self.select(true);
        }
        if self.numbers.below(profile.leases + 20) < 20 {
            let pools = self.good_pools(profile);
            let start = self.start_time();
            let line = self.open_line(&pools, profile, start);
            self.call(line);
        } else {
            let table = self.any_table(profile);
            let bytes = self.image_of(&table);
            self.call(format!("load {}", hex(&bytes)));
        }
    }
}

/// The prefix of this length around an address; the address itself from 32 on.
pub fn aligned(address: u32, length: u8) -> Prefix {
    let past = 32 - u32::from(length.min(32));
    let mask = u32::MAX.checked_shl(past).unwrap_or(0);
    prefix(address & mask, length)
}
