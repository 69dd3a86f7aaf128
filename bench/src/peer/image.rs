//! The image in place: checked in one pass, and changed by moving records.
//!
//! A sound image is one head, 1 to 8 pools and up to 1,024 leases, records of fixed sizes, so the place of each is known. The
//! calls work on the second form; the first is checked where it lies and widened record by record, or narrowed when saved.

use super::counts::Levels;
use super::figures::{self, Row};
use crate::desk::{Counts, FULL, NAME};
pub use crate::desk::{LEASES, OLDER_LEASES};

const HEAD: usize = 13;
const POOL: usize = 9;
/// A lease's record in the first form, which the second's begins with but for length and kind.
pub const FIRST: usize = 19;
/// The length of a name and its octets.
pub const NAMED: usize = 1 + NAME;
pub const LEASE: usize = FIRST + NAMED;

pub const POOLS: usize = 8;

// The first four bytes of each record: its length and its kind, both 16 bits, low byte first.
const FIRST_HEAD_START: u32 = 0x0001_000b;
const HEAD_START: u32 = 0x0005_000b;
const POOL_START: u32 = 0x0002_0007;
const FIRST_LEASE_START: u32 = 0x0003_0011;
const LEASE_START: u32 = 0x0004_002a;

pub const OFFERED: u8 = 1;
pub const LEASED: u8 = 2;
/// The flags of a lease record (those of an option's entry are the other way round).
pub const H: u8 = 1;
pub const D: u8 = 2;

/// Row 4, and row 12 for the start time.
pub const LATEST: u32 = 4_292_375_295;

/// A lease record of the second form.
pub type Record = [u8; LEASE];
/// The length of a name, its octets, and zeros.
pub type Name = [u8; NAMED];

fn read32(bytes: &[u8], at: usize) -> u32 {
    u32::from_le_bytes(bytes[at..at + 4].try_into().unwrap())
}

pub fn network<const N: usize>(lease: &[u8; N]) -> u32 {
    read32(lease, 4)
}

pub fn length<const N: usize>(lease: &[u8; N]) -> u8 {
    lease[8]
}

pub fn state<const N: usize>(lease: &[u8; N]) -> u8 {
    lease[9]
}

pub fn flags<const N: usize>(lease: &[u8; N]) -> u8 {
    lease[10]
}

pub fn client<const N: usize>(lease: &[u8; N]) -> u32 {
    read32(lease, 11)
}

pub fn expires<const N: usize>(lease: &[u8; N]) -> u32 {
    read32(lease, 15)
}

pub fn set_flags(lease: &mut Record, flags: u8) {
    lease[10] = flags;
}

pub fn set_expires(lease: &mut Record, expires: u32) {
    lease[15..FIRST].copy_from_slice(&expires.to_le_bytes());
}

/// The octets of a sound record's name; one of the first form has none.
pub fn name<const N: usize>(lease: &[u8; N]) -> &[u8] {
    lease[FIRST..].split_first().map_or(&[], |(length, octets)| &octets[..usize::from(*length)])
}

/// Whether the length of a name is that of its octets up to the last that is not zero: then it is at most 24, the last is
/// not zero, and zeros follow. In words, without a branch.
#[inline(always)]
fn name_ok(record: &Record) -> bool {
    let word = |at: usize| u64::from_le_bytes(record[at..at + 8].try_into().unwrap());
    let (first, second, third) = (word(FIRST + 1), word(FIRST + 9), word(FIRST + 17));
    let (mut word, mut before) = (first, 0);
    if second != 0 {
        (word, before) = (second, 8);
    }
    if third != 0 {
        (word, before) = (third, 16);
    }
    let length = before + (63 ^ (word | 1).leading_zeros()) / 8 + u32::from(word != 0);
    u32::from(record[FIRST]) == length
}

/// Leased until `expires`.
pub fn renew(lease: &mut Record, expires: u32) {
    lease[9] = LEASED;
    set_expires(lease, expires);
}

/// A new lease, offered until `expires`.
pub fn offer(network: u32, length: u8, h: bool, client: u32, expires: u32, name: &Name) -> Record {
    let mut lease = [0; LEASE];
    lease[..4].copy_from_slice(&LEASE_START.to_le_bytes());
    lease[4..8].copy_from_slice(&network.to_le_bytes());
    lease[8] = length;
    lease[9] = OFFERED;
    lease[10] = if h { H } else { 0 };
    lease[11..15].copy_from_slice(&client.to_le_bytes());
    lease[15..FIRST].copy_from_slice(&expires.to_le_bytes());
    lease[FIRST..].copy_from_slice(name);
    lease
}

/// The pools as address ranges, in 64 bits, since the last one can end at 2^32, and their lengths.
#[derive(Clone, Copy, Default)]
pub struct Pools {
    pub count: usize,
    pub from: [u64; POOLS],
    pub to: [u64; POOLS],
    pub length: [u8; POOLS],
}

impl Pools {
    /// The pool that an address lies in; none of the unused ones.
    pub fn of(&self, address: u32) -> Option<usize> {
        let address = u64::from(address);
        (0..self.count).find(|&pool| (self.from[pool]..self.to[pool]).contains(&address))
    }
}

/// What the pass over a sound image found.
pub struct Summary {
    pub term: u32,
    pub default_length: u8,
    pub last: u32,
    pub pools: Pools,
    pub leases: usize,
    /// A lease has a name.
    pub named: bool,
    /// The whole free prefixes of each length in each pool, expired leases included.
    pub counts: Counts,
}

impl Summary {
    pub fn leases_at(&self) -> usize {
        HEAD + POOL * self.pools.count
    }

    /// The image's size in the second form, and in the first.
    pub fn bytes(&self) -> usize {
        self.leases_at() + LEASE * self.leases
    }

    pub fn first_bytes(&self) -> usize {
        self.leases_at() + FIRST * self.leases
    }
}

/// A set of lease places.
pub type Places = [u64; LEASES / 64];

pub fn add(places: &mut Places, place: usize) {
    places[place / 64] |= 1 << (place % 64);
}

pub fn count(places: &Places) -> usize {
    places.iter().map(|word| word.count_ones() as usize).sum()
}

/// Row 12 for term, default length and start time.
pub fn head_ok(term: u32, default_length: u32, start: u32) -> bool {
    (60..=2_592_000).contains(&term) && (1..=30).contains(&default_length) && start <= LATEST
}

/// Row 12 for one pool; its size.
pub fn pool_size(network: u32, length: u8) -> Option<u64> {
    let size = 1u64 << (32 - u32::from(length).min(32));
    ((8..=30).contains(&length) && u64::from(network) & (size - 1) == 0).then_some(size)
}

/// A lease as the pass over an image meets it: its client, its state and its place, the number of its pool, where it begins
/// and ends, and when it expires.
pub struct Met {
    pub client: u32,
    pub state: u8,
    pub place: usize,
    pub pool: usize,
    pub from: u64,
    pub to: u64,
    pub expires: u32,
}

/// What a call notes in the pass over an image. (No closure: those are not always inlined.)
pub trait Notes {
    /// All pools were read, and no lease.
    #[inline(always)]
    fn begin(&mut self, _: &Pools) {}

    fn lease(&mut self, lease: Met, pools: &Pools);

    /// All leases were met.
    fn end(&mut self, _: &Pools) {}
}

/// Nothing.
impl Notes for () {
    #[inline(always)]
    fn lease(&mut self, _: Met, _: &Pools) {}
}

/// The places of the leases that have expired.
pub struct Expired {
    now: u32,
    pub places: Places,
}

impl Expired {
    pub fn at(now: u32) -> Expired {
        Expired { now, places: Places::default() }
    }
}

impl Notes for Expired {
    #[inline(always)]
    fn lease(&mut self, lease: Met, _: &Pools) {
        if lease.expires <= self.now {
            add(&mut self.places, lease.place);
        }
    }
}

/// Whether the head is that of the first form; what follows may be anything.
pub fn is_first(image: &[u8]) -> bool {
    image.first_chunk() == Some(&FIRST_HEAD_START.to_le_bytes())
}

/// One pass over an image whose leases have so many bytes, those of the second form or of the first: nothing if it is not
/// the image of a sound table in that form. Not inlined, so that the loop has the registers for itself.
#[inline(never)]
pub fn check<const N: usize>(image: &[u8], notes: &mut impl Notes) -> Option<Summary> {
    let (head_start, lease_start) =
        if N == LEASE { (HEAD_START, LEASE_START) } else { (FIRST_HEAD_START, FIRST_LEASE_START) };
    let (head, mut rest) = image.split_first_chunk::<HEAD>()?;
    let (term, default_length, last) = (read32(head, 4), head[8], read32(head, 9));
    if read32(head, 0) != head_start || !head_ok(term, default_length.into(), last) {
        return None;
    }
    let mut pools = Pools::default();
    let mut free_from = 0;
    while let Some((record, after)) = rest.split_first_chunk::<POOL>() {
        if read32(record, 0) != POOL_START {
            break;
        }
        let (network, n) = (read32(record, 4), pools.count);
        let size = pool_size(network, record[8])?;
        let from = u64::from(network);
        if n == POOLS || from < free_from {
            return None;
        }
        free_from = from + size;
        (pools.from[n], pools.to[n], pools.length[n]) = (from, free_from, record[8]);
        pools.count += 1;
        rest = after;
    }
    let (leases, left) = rest.as_chunks::<N>();
    if pools.count == 0 || !left.is_empty() || leases.len() > LEASES {
        return None;
    }
    notes.begin(&pools);
    // Pools and leases both ascend, so the pool that a lease lies in moves only forward.
    let (mut pool, mut pool_from, mut pool_to) = (0, pools.from[0], pools.to[0]);
    let mut levels = Levels::new();
    let mut free_from = 0;
    let mut named = 0;
    for (place, record) in leases.iter().enumerate() {
        let from = u64::from(network(record));
        let (length, expires) = (u32::from(length(record)), expires(record));
        let size = 1u64 << (32u32.wrapping_sub(length) & 63);
        let to = from.wrapping_add(size);
        while from >= pool_to {
            pool += 1;
            if pool == pools.count {
                return None;
            }
            (pool_from, pool_to) = (pools.from[pool], pools.to[pool]);
        }
        // No short cuts: in a sound image every one of these has to be looked at.
        let mut bad = (read32(record, 0) != lease_start)
            | (length.wrapping_sub(1) >= 30)
            | (from & (size - 1) != 0)
            | (from < free_from)
            | (from < pool_from)
            | (to > pool_to)
            | (state(record).wrapping_sub(1) >= 2)
            | (flags(record) > 3)
            | (client(record) == 0)
            | (expires <= last);
        if let Ok(record) = <&Record>::try_from(&record[..]) {
            bad |= !name_ok(record);
            named |= record[FIRST];
        }
        if bad {
            return None;
        }
        free_from = to;
        levels.lease(&pools, pool, from as u32, length);
        notes.lease(Met { client: client(record), state: state(record), place, pool, from, to, expires }, &pools);
    }
    notes.end(&pools);
    let counts = levels.counts(&pools);
    Some(Summary { term, default_length, last, pools, leases: leases.len(), named: named != 0, counts })
}

/// The lease records of a sound image.
pub fn leases<'a>(image: &'a [u8], summary: &Summary) -> &'a [Record] {
    image[summary.leases_at()..summary.bytes()].as_chunks().0
}

pub fn leases_mut<'a>(image: &'a mut [u8], summary: &Summary) -> &'a mut [Record] {
    image[summary.leases_at()..summary.bytes()].as_chunks_mut().0
}

/// The lease records of a sound image of the first form.
pub fn first_leases<'a>(image: &'a [u8], summary: &Summary) -> &'a [[u8; FIRST]] {
    image[summary.leases_at()..summary.first_bytes()].as_chunks().0
}

/// Writes a sound image of the first form as one of the second, record by record.
pub fn widen(first: &[u8], summary: &Summary, image: &mut [u8]) {
    let (front, leases) = image[..summary.bytes()].split_at_mut(summary.leases_at());
    front.copy_from_slice(&first[..front.len()]);
    front[..4].copy_from_slice(&HEAD_START.to_le_bytes());
    for (record, from) in leases.as_chunks_mut::<LEASE>().0.iter_mut().zip(first_leases(first, summary)) {
        record[..FIRST].copy_from_slice(from);
        record[..4].copy_from_slice(&LEASE_START.to_le_bytes());
        record[FIRST..].fill(0);
    }
}

/// Writes a sound image without names in the first form.
pub fn narrow(image: &[u8], summary: &Summary, first: &mut [u8]) {
    let (front, records) = first[..summary.first_bytes()].split_at_mut(summary.leases_at());
    front.copy_from_slice(&image[..front.len()]);
    front[..4].copy_from_slice(&FIRST_HEAD_START.to_le_bytes());
    for (record, from) in records.as_chunks_mut::<FIRST>().0.iter_mut().zip(leases(image, summary)) {
        record.copy_from_slice(&from[..FIRST]);
        record[..4].copy_from_slice(&FIRST_LEASE_START.to_le_bytes());
    }
}

/// The place of the lease with this network and length.
pub fn find(leases: &[Record], wanted: u32, wanted_length: u32) -> Option<usize> {
    let place = leases.binary_search_by_key(&wanted, |lease| network(lease)).ok()?;
    (u32::from(length(&leases[place])) == wanted_length).then_some(place)
}

pub fn set_last(image: &mut [u8], now: u32) {
    image[9..13].copy_from_slice(&now.to_le_bytes());
}

/// Removes what stands at some places, leases or their rows: each run between two of them moves once. Answers how many
/// are left.
pub fn remove<T: Copy>(items: &mut [T], places: &Places) -> usize {
    let (mut kept, mut next) = (0, 0);
    for (index, word) in places.iter().enumerate() {
        let mut word = *word;
        while word != 0 {
            let place = 64 * index + word.trailing_zeros() as usize;
            word &= word - 1;
            if kept != next {
                items.copy_within(next..place, kept);
            }
            kept += place - next;
            next = place + 1;
        }
    }
    if kept != next {
        items.copy_within(next.., kept);
    }
    kept + items.len() - next
}

/// Puts new leases, in ascending order, into the first `used` records, and their rows beside them, from the back: each
/// record and each row moves at most once.
pub fn insert(leases: &mut [Record], rows: &mut [Row], used: usize, new: &[Record]) {
    let mut end = used;
    for (before, lease) in new.iter().enumerate().rev() {
        let place = leases[..end].partition_point(|other| network(other) < network(lease));
        let after = place + before;
        leases.copy_within(place..end, after + 1);
        leases[after] = *lease;
        rows.copy_within(place..end, after + 1);
        rows[after] = figures::untold(lease);
        end = place;
    }
}

/// A new image with these pools, ascending, and no lease; its size.
pub fn write_new(image: &mut [u8], pools: &[(u32, u8)], term: u32, default_length: u8, start: u32) -> usize {
    image[..4].copy_from_slice(&HEAD_START.to_le_bytes());
    image[4..8].copy_from_slice(&term.to_le_bytes());
    image[8] = default_length;
    set_last(image, start);
    let (records, _) = image[HEAD..FULL].as_chunks_mut::<POOL>();
    for (record, (network, length)) in records.iter_mut().zip(pools) {
        record[..4].copy_from_slice(&POOL_START.to_le_bytes());
        record[4..8].copy_from_slice(&network.to_le_bytes());
        record[8] = *length;
    }
    HEAD + POOL * pools.len()
}
