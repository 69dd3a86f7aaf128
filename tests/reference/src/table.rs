//! The table of leases: document 01's book.

use crate::counts::{fresh, Counts, LENGTHS};
use crate::prefix::{Prefix, LONGEST, SHORTEST};

/// "A book holds 1 to 8 roots".
pub const POOLS: usize = 8;
/// "A fresh book has 256 empty lines, all zero." M-107 in document 02: "Raise the limit to
/// 1,024."
pub const LEASES: usize = 1_024;
/// M-107: "Older desks read only 256 lines".
pub const OLDER_LEASES: usize = 256;
/// "now above 4,292,375,295", and the same for a start time.
pub const LATEST: u32 = 4_292_375_295;
/// "a term (60 to 2,592,000 s)".
pub const SHORTEST_TERM: u32 = 60;
pub const LONGEST_TERM: u32 = 2_592_000;
/// "A root has length 8 to 30".
pub const SHORTEST_POOL: u8 = 8;
pub const LONGEST_POOL: u8 = 30;

/// Held or leased; an empty line is neither.
#[derive(Clone, Copy, Debug, Default, PartialEq, Eq)]
pub enum State {
    #[default]
    None,
    Offered,
    Leased,
}

/// M-105 in document 02: "A line gets a name of 0 to 24 octets".
pub const NAME: usize = 24;

/// A line's name, as its record of the second form has it: "a name length (1), 24 octets,
/// zero after the name". The default is the empty name.
#[derive(Clone, Copy, Debug, Default, PartialEq, Eq)]
pub struct Name {
    pub length: u8,
    pub octets: [u8; NAME],
}

impl Name {
    /// The name of these octets; nothing if they are above 24.
    pub fn of(octets: &[u8]) -> Option<Name> {
        let mut name = Name::default();
        name.octets.get_mut(..octets.len())?.copy_from_slice(octets);
        name.length = octets.len() as u8;
        Some(name)
    }

    /// The octets of a name in the rules, without the zeros after it.
    pub fn octets(&self) -> &[u8] {
        &self.octets[..usize::from(self.length)]
    }

    /// "0 to 24 octets, the last not zero", "zero after the name".
    pub fn in_rules(&self) -> bool {
        usize::from(self.length) <= NAME
            && self.octets().last() != Some(&0)
            && self.octets[usize::from(self.length)..]
                .iter()
                .all(|octet| *octet == 0)
    }
}

/// "A line is a block inside one root, a station (not 0), held or leased, the bits h
/// and d, and an end." M-105 adds a name. The default is the empty line, all zero.
#[derive(Clone, Copy, Debug, Default, PartialEq, Eq)]
pub struct Lease {
    pub prefix: Prefix,
    pub client: u32,
    pub state: State,
    pub h: bool,
    pub d: bool,
    pub expires: u32,
    pub name: Name,
}

/// The table, with a place for every pool and every lease; unused places are all
/// zero. The counts are M-102's of document 02, "in the open book". Nothing keeps it sound
/// but the calls.
#[derive(Clone, Debug, PartialEq, Eq)]
pub struct Table {
    pub term: u32,
    pub default_length: u8,
    pub last_time: u32,
    pub pools: [Prefix; POOLS],
    pub leases: [Lease; LEASES],
    pub counts: Counts,
}

impl Table {
    /// All zero, which is not sound.
    pub fn zero() -> Table {
        Table {
            term: 0,
            default_length: 0,
            last_time: 0,
            pools: [Prefix::default(); POOLS],
            leases: [Lease::default(); LEASES],
            counts: [[0; LENGTHS]; POOLS],
        }
    }

    /// The same table, its counts worked out.
    pub fn counted(mut self) -> Table {
        self.counts = fresh(&self);
        self
    }

    /// The pools before the first unused place.
    pub fn used_pools(&self) -> &[Prefix] {
        let unused = Prefix::default();
        let count = self
            .pools
            .iter()
            .take_while(|&&pool| pool != unused)
            .count();
        &self.pools[..count]
    }

    /// The leases before the first empty place.
    pub fn used_leases(&self) -> &[Lease] {
        let empty = Lease::default();
        let count = self
            .leases
            .iter()
            .take_while(|&&lease| lease != empty)
            .count();
        &self.leases[..count]
    }

    /// Replaces the leases, ascending by network, empty places after them. Those
    /// past the last place are dropped; the calls never give that many.
    pub fn set_leases(&mut self, mut leases: Vec<Lease>) {
        leases.sort_by_key(|lease| lease.prefix.network);
        self.leases = [Lease::default(); LEASES];
        for (place, lease) in self.leases.iter_mut().zip(leases) {
            *place = lease;
        }
    }

    /// "At time now, lines with end at or before now count as absent".
    pub fn present_leases(&self, now: u32) -> Vec<Lease> {
        let used = self.used_leases().iter();
        used.filter(|lease| lease.expires > now).copied().collect()
    }

    /// The open book: M-102 adds that "a book whose counts differ is unsound".
    pub fn sound(&self) -> bool {
        self.sound_but_counts() && self.counts == fresh(self)
    }

    /// "Sound means: ..."
    pub fn sound_but_counts(&self) -> bool {
        let pools = self.used_pools();
        let leases = self.used_leases();
        // "head and roots keep open's rules (row 12)".
        head_in_rules(self.term, self.default_length, self.last_time)
            && pools_in_rules(pools)
            // "each line is as just said and aligned".
            && leases.iter().all(|lease| lease_in_rules(lease, pools))
            // "roots and lines each ascend by network without overlap".
            && pools.windows(2).all(|pair| ascend(pair[0], pair[1]))
            && leases.windows(2).all(|pair| ascend(pair[0].prefix, pair[1].prefix))
            // "every line's end is after the last time".
            && leases.iter().all(|lease| lease.expires > self.last_time)
            // "empty lines and unused roots follow and are all zero".
            && self.pools[pools.len()..].iter().all(|pool| *pool == Prefix::default())
            && self.leases[leases.len()..].iter().all(|lease| *lease == Lease::default())
    }

    /// "A free block is whole if it is a root or the block twice its size around it
    /// isn't free." All of them at time now, in ascending order.
    pub fn whole_free_prefixes(&self, now: u32) -> Vec<Prefix> {
        self.whole_free_in(self.used_pools(), now)
    }

    /// Those of some of the pools (M-106 in document 02: "the ground the ask may use").
    pub fn whole_free_in(&self, ground: &[Prefix], now: u32) -> Vec<Prefix> {
        let leases: Vec<Prefix> = self
            .present_leases(now)
            .iter()
            .map(|lease| lease.prefix)
            .collect();
        let mut found = Vec::new();
        for &pool in ground {
            find_whole(pool, &leases, &mut found);
        }
        found
    }

    /// "An ask of length p takes, among whole free blocks of length at most p, the
    /// smallest, the lowest network among equals, and of that the lowest part of
    /// length p." Of the pools that the ask may use.
    pub fn choose(&self, ground: &[Prefix], now: u32, length: u8) -> Option<Prefix> {
        let mut best: Option<Prefix> = None;
        for candidate in self.whole_free_in(ground, now) {
            if candidate.length > length {
                continue;
            }
            let better = match best {
                None => true,
                Some(best) => {
                    candidate.size() < best.size()
                        || (candidate.size() == best.size() && candidate.network < best.network)
                }
            };
            if better {
                best = Some(candidate);
            }
        }
        best.map(|best| Prefix {
            network: best.network,
            length,
        })
    }
}

/// `block` is a pool, or the block around it is known not to be free: so it is whole
/// if it is free, and otherwise its halves are looked at.
pub fn find_whole(block: Prefix, leases: &[Prefix], found: &mut Vec<Prefix>) {
    // Leases ascend, so those that share an address with the block are a run.
    let shares = |lease: &&Prefix| lease.shares_address_with(block);
    let before = leases.iter().take_while(|lease| !shares(lease)).count();
    let count = leases[before..].iter().take_while(shares).count();
    let inside = &leases[before..before + count];
    if inside.is_empty() {
        found.push(block);
    } else if block.length < LONGEST && !inside[0].contains(block) {
        for half in block.halves() {
            find_whole(half, inside, found);
        }
    }
}

/// The second follows the first and shares no address with it.
fn ascend(first: Prefix, second: Prefix) -> bool {
    first.network < second.network && !first.shares_address_with(second)
}

/// Row 12 for term, default length and start time, which becomes the last time.
pub fn head_in_rules(term: u32, default_length: u8, time: u32) -> bool {
    (SHORTEST_TERM..=LONGEST_TERM).contains(&term)
        && (SHORTEST..=LONGEST).contains(&default_length)
        && time <= LATEST
}

/// Row 12 for the pools, in any order: "1 to 8 roots"; "A root has length 8 to 30, is
/// aligned ..., and shares no address with another root."
pub fn pools_in_rules(pools: &[Prefix]) -> bool {
    let mut good = !pools.is_empty() && pools.len() <= POOLS;
    for (index, pool) in pools.iter().enumerate() {
        good &= (SHORTEST_POOL..=LONGEST_POOL).contains(&pool.length) && pool.aligned();
        for other in &pools[..index] {
            good &= !pool.shares_address_with(*other);
        }
    }
    good
}

/// What document 01 says of one line, its end aside.
fn lease_in_rules(lease: &Lease, pools: &[Prefix]) -> bool {
    (SHORTEST..=LONGEST).contains(&lease.prefix.length)
        && lease.prefix.aligned()
        && pools.iter().any(|pool| pool.contains(lease.prefix))
        && lease.client != 0
        && lease.state != State::None
        && lease.name.in_rules()
}
