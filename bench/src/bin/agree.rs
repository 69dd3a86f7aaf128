//! Runs the same random and damaged calls through the peer, the reference and, if it was linked, the proved library, and
//! compares every field of every answer, every byte of the image's buffer, the image's length, every byte of the figures
//! sheet, every count and every byte of the buffer that a call writes to.
//!
//!     agree [CALLS [SEED]]
//!
//! Prints the seed; the same seed makes the same calls.

use std::collections::BTreeMap;
use std::process::exit;

use bench::desk::{
    Answer, Counts, Desk, FIGURES, FIRST_FULL, FULL, LENGTHS, Lent, NAME, OLDER_LEASES, REPLY, SELECTED_REPLY,
    SELECTION, SHEET,
};
use bench::images::{EMPTY_ROW, FIRST_LEASE, LEASE, Lease, NO_NAME, Name, ROW, ROWS, Table, name};
use bench::options::{self, information, option, request};
use bench::peer::PEER;
use bench::random::Random;
use bench::reference::REFERENCE;
use reference::option::{Suboption, read220};

const CALLS: u64 = 200_000;
const SEED: u64 = 6656;
/// Calls from one table to the next.
const HISTORY: u64 = 60;
const LATEST: u32 = 4_292_375_295;
const UNTOLD: u16 = 0xffff;

#[derive(Clone, Debug)]
enum Call {
    Open { networks: Vec<u32>, lengths: Vec<u8>, term: u32, default_length: u32, start: u32 },
    Ask { client: u32, now: u32, option: Vec<u8>, selection: Option<Vec<u8>> },
    Take { client: u32, now: u32, option: Vec<u8>, selection: Option<Vec<u8>> },
    List { client: u32, now: u32, option: Vec<u8> },
    Release { client: u32, now: u32, option: Vec<u8> },
    Mark { network: u32, length: u32, deprecated: u32, now: u32 },
    Load { saved: Vec<u8> },
    Save { form: u32, older: u32 },
    Whole { length: u32 },
    Sheet,
}

impl Call {
    fn name(&self) -> &'static str {
        match self {
            Call::Open { .. } => "open",
            Call::Ask { .. } => "ask",
            Call::Take { .. } => "take",
            Call::List { .. } => "list",
            Call::Release { .. } => "return",
            Call::Mark { .. } => "mark",
            Call::Load { .. } => "load",
            Call::Save { .. } => "save",
            Call::Whole { .. } => "whole",
            Call::Sheet => "sheet",
        }
    }

    fn run(&self, desk: &Desk, buffers: &mut Buffers) -> Answer {
        let Buffers { image, bytes, figures, counts, out } = buffers;
        let size = *bytes;
        match self {
            Call::List { client, now, option } => return (desk.list)(image, size, counts, *client, *now, option, out),
            Call::Save { form, older } => return (desk.save)(image, size, counts, *form, *older, out),
            Call::Whole { length } => return (desk.whole)(image, size, counts, *length),
            // The sheet has no capacity of the image: what is lent is the image.
            Call::Sheet => return (desk.sheet)(image.get(..size).unwrap_or(image), out),
            _ => {}
        }
        let lent = Lent { image, bytes, figures, counts };
        match self {
            Call::Open { networks, lengths, term, default_length, start } => {
                (desk.open)(lent, networks, lengths, *term, *default_length, *start)
            }
            Call::Ask { client, now, option, selection } => {
                (desk.ask)(lent, *client, *now, option, selection.as_deref(), out)
            }
            Call::Take { client, now, option, selection } => {
                (desk.take)(lent, *client, *now, option, selection.as_deref(), out)
            }
            Call::Release { client, now, option } => (desk.release)(lent, *client, *now, option),
            Call::Mark { network, length, deprecated, now } => (desk.mark)(lent, *network, *length, *deprecated, *now),
            Call::Load { saved } => (desk.load)(lent, saved),
            Call::List { .. } | Call::Save { .. } | Call::Whole { .. } | Call::Sheet => unreachable!("they are above"),
        }
    }

    /// The option that it was given.
    fn option(&self) -> Option<&[u8]> {
        match self {
            Call::Ask { option, .. }
            | Call::Take { option, .. }
            | Call::List { option, .. }
            | Call::Release { option, .. } => Some(option),
            _ => None,
        }
    }

    /// The option 118 that it carries.
    fn selection(&self) -> Option<&[u8]> {
        match self {
            Call::Ask { selection, .. } | Call::Take { selection, .. } => selection.as_deref(),
            _ => None,
        }
    }

    /// It changes nothing of the table.
    fn only_reads(&self) -> bool {
        matches!(self, Call::List { .. } | Call::Save { .. } | Call::Whole { .. } | Call::Sheet)
    }
}

/// What a call may change: the image's buffer, the image's length, the figures sheet, the counts, and the buffer for a
/// reply, an image or a text.
#[derive(Clone, PartialEq, Eq)]
struct Buffers {
    image: Vec<u8>,
    bytes: usize,
    figures: Vec<u8>,
    counts: Counts,
    out: Vec<u8>,
}

fn hex(bytes: &[u8]) -> String {
    bytes.iter().map(|byte| format!("{byte:02x}")).collect()
}

/// Runs a call through every desk; answers what all of them left, or says where they differ.
fn agreed(desks: &[Desk], call: &Call, given: &Buffers) -> Result<(Answer, Buffers), String> {
    let mut first: Option<(Answer, Buffers)> = None;
    for desk in desks {
        let mut left = given.clone();
        let answer = call.run(desk, &mut left);
        let Some((first_answer, first_left)) = &first else {
            first = Some((answer, left));
            continue;
        };
        let names = format!("{} and {}", desks[0].name, desk.name);
        if *first_answer != answer {
            return Err(format!("{names}: answers {first_answer:?} and {answer:?}"));
        }
        if first_left.bytes != left.bytes {
            return Err(format!("{names}: images of {} and {} bytes", first_left.bytes, left.bytes));
        }
        if first_left.counts != left.counts {
            return Err(format!("{names}: counts {:?} and {:?}", first_left.counts, left.counts));
        }
        for (what, one, other) in [
            ("image", &first_left.image, &left.image),
            ("figures", &first_left.figures, &left.figures),
            ("output", &first_left.out, &left.out),
        ] {
            if let Some(at) = (0..one.len()).find(|&at| one[at] != other[at]) {
                return Err(format!("{names}: {what} byte {at} is {} and {}", one[at], other[at]));
            }
        }
    }
    Ok(first.expect("there is a desk"))
}

/// The entries of an ask's reply, one in each information: network, length, flags.
fn offers(reply: &[u8]) -> Vec<(u32, u8, u8)> {
    let entry = |offer: &[u8]| (u32::from_be_bytes(offer[3..7].try_into().unwrap()), offer[7], offer[8]);
    // An option 118 may follow.
    reply[3..usize::from(reply[1]) + 2].chunks(10).map(entry).collect()
}

/// The octets of the first name of an option that is read.
fn first_name(option: &[u8]) -> Name {
    let list = read220(option).unwrap_or_default();
    let mut names = list.iter().filter_map(|suboption| match suboption {
        Suboption::Name(octets) => Some(name(octets)),
        _ => None,
    });
    names.next().unwrap_or(NO_NAME)
}

/// What an accepted ask offers is the client's in the table after it, until then, and each only once; with the name that it
/// had before, or where it is new the option's.
fn offers_are_there(
    client: u32,
    now: u32,
    option: &[u8],
    reply: &[u8],
    before: &Table,
    table: &Table,
) -> Result<(), String> {
    let mut offers = offers(reply);
    let asked = first_name(option);
    for &(network, length, flags) in &offers {
        // h and d are the other way round in a record.
        let flags = flags >> 1 | flags << 1 & 2;
        let held = before.leases.iter().find(|lease| lease.network == network && lease.expires > now);
        let name = held.map_or(asked, |lease| lease.name);
        let offer = Lease { network, length, state: 1, flags, client, expires: now + 120, name };
        if !table.leases.contains(&offer) {
            return Err(format!("what is offered is not in the table: {offer:?}"));
        }
    }
    let count = offers.len();
    offers.sort_unstable();
    offers.dedup();
    if offers.len() < count { Err("something is offered twice".into()) } else { Ok(()) }
}

/// The pool of the table that contains the address of an option 118.
fn named_pool(table: &Table, selection: &[u8]) -> Option<(u32, u8)> {
    let [118, 4, a, b, c, d] = *selection else { return None };
    let address = u32::from_be_bytes([a, b, c, d]);
    table.pools.iter().copied().find(|pool| lies_in(*pool, address))
}

fn lies_in((network, length): (u32, u8), address: u32) -> bool {
    (address ^ network) >> (32 - length) == 0
}

/// An accepted call with an option 118 returns it after option 220, and every entry of the reply lies in the named root.
fn selection_is_kept(table: &Table, selection: &[u8], reply: &[u8]) -> Result<(), String> {
    let end = usize::from(reply[1]) + 2;
    if reply.len() != end + SELECTION || reply[end..] != *selection {
        return Err("option 118 does not follow in the reply".into());
    }
    let Some(pool) = named_pool(table, selection) else {
        return Err("it was accepted and names no root".into());
    };
    let entries = entries(&reply[..end]);
    if entries.iter().any(|&(network, length)| length < pool.1 || !lies_in(pool, network)) {
        return Err("an entry of the reply lies outside the named root".into());
    }
    Ok(())
}

/// The entries of an option that is read: network and length.
fn entries(option: &[u8]) -> Vec<(u32, u8)> {
    let mut entries = Vec::new();
    for suboption in read220(option).unwrap_or_default() {
        if let Suboption::Information(information) = suboption {
            entries.extend(information.entries.iter().map(|entry| (entry.network, entry.prefix)));
        }
    }
    entries
}

/// Whether a take names a lease of the client that lies outside the named root.
fn names_outside(client: u32, now: u32, option: &[u8], selection: &[u8], table: &Table) -> bool {
    let Some(pool) = named_pool(table, selection) else { return false };
    entries(option).iter().any(|&(network, length)| {
        let own = |lease: &Lease| {
            (lease.network, lease.length, lease.client) == (network, length, client) && lease.expires > now
        };
        !lies_in(pool, network) && table.leases.iter().any(own)
    })
}

/// Whether an accepted ask has given something again: an offer that was there before, as no new one lies where a lease is
/// present.
fn gave_again(now: u32, before: &Table, reply: &[u8]) -> bool {
    let is_there = |&(network, length, _): &(u32, u8, u8)| {
        before.leases.iter().any(|lease| (lease.network, lease.length) == (network, length) && lease.expires > now)
    };
    offers(reply).iter().any(is_there)
}

/// What every answer has to be, whoever gave it.
fn plausible(call: &Call, given: &Buffers, answer: &Answer, left: &Buffers) -> Result<(), String> {
    if answer.number != 0 {
        if left != given {
            return Err("a refusal changed what was lent".into());
        }
        // The first suboption is at 3.
        let has_place = matches!(answer.number, 7 | 16);
        if (answer.bytes, answer.count) != (0, 0) || (answer.place != 0) != has_place || (1..3).contains(&answer.place)
        {
            return Err(format!("a refusal has counts, or a place or none: {answer:?}"));
        }
        return Ok(());
    }
    if left.out[answer.bytes as usize..] != given.out[answer.bytes as usize..] {
        return Err("bytes after those written have changed".into());
    }
    if let Call::Save { form, older } = call {
        // Load and save undo each other in each form.
        let table = Table::of_image(&given.image[..given.bytes]);
        if *older != 0 && table.leases.len() > OLDER_LEASES {
            return Err("it is saved for an older desk, which has no room for it".into());
        }
        if left.out[..answer.bytes as usize] != table.image_in(*form == 1) || (*form == 1 && table.has_names()) {
            return Err("what is saved is not the table in that form".into());
        }
    }
    if call.only_reads() {
        let same = left.counts == given.counts && left.figures == given.figures;
        return if same && (left.bytes, &left.image) == (given.bytes, &given.image) {
            Ok(())
        } else {
            Err("a call that only reads changed the image, the figures or the counts".into())
        };
    }
    let zeroed = match call {
        Call::Open { .. } | Call::Load { .. } => FULL,
        _ => given.bytes.max(left.bytes),
    };
    if left.image[left.bytes..zeroed].iter().any(|&byte| byte != 0) {
        return Err("something is left behind the image".into());
    }
    if left.image[zeroed..] != given.image[zeroed..] {
        return Err("bytes past the image have changed".into());
    }
    let table = Table::of_image(&left.image[..left.bytes]);
    if let Some(selection) = call.selection() {
        selection_is_kept(&table, selection, &left.out[..answer.bytes as usize])?;
    }
    if let Call::Ask { client, now, option, .. } = call {
        let before = Table::of_image(&given.image[..given.bytes]);
        offers_are_there(*client, *now, option, &left.out[..answer.bytes as usize], &before, &table)?;
    }
    // "Every call that changes lines keeps it equal to what a fresh walk would find".
    if left.counts != table.counts() {
        return Err("the counts are not those of the table".into());
    }
    // "Rows match lines, place for place, after every accepted call that has the sheet".
    for (place, row) in left.figures.chunks(ROW).enumerate() {
        let matches = match table.leases.get(place) {
            Some(lease) => row[..4] == lease.network.to_le_bytes() && row[4] == lease.length,
            None => row == EMPTY_ROW,
        };
        if !matches {
            return Err(format!("row {place} of the figures does not match"));
        }
    }
    Ok(())
}

/// Whether an accepted take has filed something: a row is other than it was, in its figures only.
fn filed(given: &Buffers, left: &Buffers) -> bool {
    let mut before = given.figures.chunks(ROW);
    // Rows go and the others stay in their order, so each is found after the one before it.
    left.figures.chunks(ROW).filter(|row| *row != EMPTY_ROW).any(|row| {
        let old = before.by_ref().find(|old| old[..5] == row[..5]);
        old.is_some_and(|old| old != row)
    })
}

/// A length of at least `shortest`, mostly not much longer.
fn length_from(random: &mut Random, shortest: u8) -> u8 {
    let shortest = shortest.min(30);
    let room = u64::from(30 - shortest) + 1;
    let some = if random.once_in(3) { room } else { room.min(6) };
    shortest + random.below(some) as u8
}

/// 1 to 8 pools, ascending and apart: small ones that fill up, large ones, the first and the last addresses.
fn random_pools(random: &mut Random, wide: bool) -> Vec<(u32, u8)> {
    let count = if random.once_in(2) { 1 } else { 1 + random.below(8) };
    let shortest = if wide { random.pick(&[8, 12, 16, 17]) } else { random.pick(&[8, 8, 16, 18, 20, 22, 24, 26]) };
    let mut pools: Vec<(u32, u8)> = Vec::new();
    let mut free_from: u64 = random.pick(&[0, 0x0a00_0000, 0x0a00_0000, 0xc0a8_0000, 0xfe00_0000]);
    for _ in 0..count {
        let length = length_from(random, shortest);
        let size = 1u64 << (32 - length);
        let mut from = free_from.div_ceil(size) * size;
        if random.once_in(3) {
            from += size * random.below(4);
        }
        if from + size > 1 << 32 {
            break;
        }
        pools.push((from as u32, length));
        free_from = from + size;
    }
    if random.once_in(10) && free_from < 0xff00_0000 && pools.len() < 8 {
        pools.push(random.pick(&[(0xff00_0000, 8), (0xffff_ff00, 24), (0xffff_fffc, 30)]));
    }
    if pools.is_empty() {
        pools.push((0xffff_fffc, 30));
    }
    pools
}

/// After the last time: mostly soon, or for a table that `stays` mostly late.
fn random_expires(random: &mut Random, last: u32, stays: bool) -> u32 {
    let after = match random.below(if stays { 200 } else { 8 }) {
        0 => 1,
        1 => u64::from(u32::MAX),
        2 => random.below(1 << 32),
        _ if stays => 10_000,
        _ => 1 + random.below(300),
    };
    (u64::from(last) + after).clamp(u64::from(last) + 1, u64::from(u32::MAX)) as u32
}

/// Octets of a name, of a length at which a rule or a word turns, the last not zero.
fn random_octets(random: &mut Random, most: u64) -> Vec<u8> {
    let any = 1 + random.below(most);
    let length = random.pick(&[1, 2, 7, 8, 9, 15, 16, 17, 23, 24, 25, any, any]).min(most);
    let mut octets = vec![0; length as usize];
    if random.once_in(2) {
        random.fill(&mut octets);
    } else {
        octets.iter_mut().for_each(|octet| *octet = random.pick(&[0, 0, b'a', b'z', 0xff]));
    }
    *octets.last_mut().unwrap() |= random.pick(&[1, 0x20, 0x80]);
    octets
}

/// That of a lease: none once in three times.
fn random_name(random: &mut Random) -> Name {
    if random.once_in(3) { NO_NAME } else { name(&random_octets(random, NAME as u64)) }
}

fn random_client(random: &mut Random) -> u32 {
    if random.once_in(40) { random.pick(&[0, u32::MAX]) } else { 1 + random.below(4) as u32 }
}

/// A sound table: none, few, many, about 256 or about 1,024 leases, with and without holes between them.
fn random_table(random: &mut Random) -> Table {
    let last = match random.below(8) {
        0 => 0,
        1 if random.once_in(3) => LATEST - random.below(3) as u32,
        _ => random.below(1 << 31) as u32,
    };
    let mut table = Table {
        term: random.pick(&[60, 61, 3600, 2_592_000]),
        default_length: 1 + random.below(30) as u8,
        last,
        pools: Vec::new(),
        leases: Vec::new(),
    };
    let few = random.pick(&[0, 3, 20, 64, 200, 240, 255, 256, 257, 258]);
    let most = if random.once_in(3) { random.pick(&[300, 800, 1_000, 1_023, 1_024, 1_024, 1_024]) } else { few };
    table.pools = random_pools(random, most > 258);
    let holes = random.pick(&[0, 0, 1, 3, 8]);
    let one_client = random.once_in(3);
    let stays = random.once_in(2);
    let names = random.once_in(2);
    let pools = table.pools.clone();
    for (index, (network, length)) in pools.iter().enumerate() {
        // Leases of this many sizes, such that the last pools have some too.
        let share = most * (index + 1) / pools.len();
        let long = random.once_in(2) || most > 258;
        let to = u64::from(*network) + (1 << (32 - length));
        let mut at = u64::from(*network);
        while table.leases.len() < share {
            let length = if long { 28 + random.below(3) as u8 } else { length_from(random, *length) };
            let length = length.max(pools[index].1);
            let size = 1u64 << (32 - length);
            at = at.div_ceil(size) * size;
            if holes != 0 && random.once_in(2) {
                at += size * random.below(holes);
            }
            if at + size > to {
                break;
            }
            table.leases.push(Lease {
                network: at as u32,
                length,
                state: 1 + random.below(2) as u8,
                flags: random.below(4) as u8,
                client: if one_client { 1 } else { 1 + random.below(4) as u32 },
                expires: random_expires(random, last, stays),
                name: if names { random_name(random) } else { NO_NAME },
            });
            at += size;
        }
    }
    table
}

fn random_time(random: &mut Random, last: u32) -> u32 {
    match random.below(40) {
        0 => last.wrapping_sub(1),
        1 if random.once_in(10) => LATEST,
        2 => random.pick(&[LATEST + 1, u32::MAX]),
        3 => last.saturating_add(119),
        4 => last.saturating_add(120),
        5..=8 => last.saturating_add(random.below(400) as u32),
        9..=20 => last.saturating_add(random.below(20) as u32),
        _ => last,
    }
}

/// The prefix of a lease of the table, or one near it, or any.
fn random_prefix(random: &mut Random, table: &Table) -> (u32, u8) {
    let any = (random.word() as u32, 1 + random.below(30) as u8);
    let (network, length) = match random.below(10) {
        0 => any,
        1 => random.pick(&table.pools),
        _ if table.leases.is_empty() => any,
        2 => {
            let lease = random.pick(&table.leases);
            (lease.network, 1 + random.below(30) as u8)
        }
        _ => {
            let lease = random.pick(&table.leases);
            (lease.network, lease.length)
        }
    };
    if random.once_in(60) { (network, length) } else { (network & (u32::MAX << (32 - length)), length) }
}

/// A figure that is told, or none.
fn random_figure(random: &mut Random) -> u16 {
    match random.below(8) {
        0..=2 => UNTOLD,
        3 => random.pick(&[0, 1, 255, 256, UNTOLD - 1]),
        _ => random.word() as u16,
    }
}

/// An information of some entries, some of them with figures.
fn random_information(random: &mut Random, table: &Table, flags: u8, most: u64) -> Vec<u8> {
    let mut body = vec![flags];
    for _ in 0..1 + random.below(most) {
        let (network, length) = random_prefix(random, table);
        let figures = if random.once_in(3) { random.pick(&[0, 1, 2, 3, 3, 3, 4, 5]) } else { 0 };
        if body.len() + 7 + 2 * figures > 249 {
            break;
        }
        body.extend(network.to_be_bytes());
        let entry_flags = if random.once_in(4) { random.word() as u8 } else { random.below(4) as u8 };
        body.extend([length, entry_flags, 2 * figures as u8]);
        for _ in 0..figures {
            body.extend(random_figure(random).to_be_bytes());
        }
    }
    let mut bytes = vec![2, body.len() as u8];
    bytes.extend(body);
    bytes
}

/// A name, of which an ask's first counts and one above 24 octets is too long.
fn random_named(random: &mut Random) -> Vec<u8> {
    let most = random.pick(&[24, 24, 24, 30, 30, 240]);
    let octets = random_octets(random, most);
    let mut bytes = vec![3, octets.len() as u8];
    bytes.extend(octets);
    bytes
}

/// Pieces that a call does not name.
fn random_other(random: &mut Random) -> Vec<u8> {
    let number = if random.once_in(3) { 3 } else { random.pick(&[0, 4, 5, 118, 220, 255]) };
    let len = random.below(6) as u8 + u8::from(number == 3);
    let mut bytes = vec![number, len];
    for _ in 0..len {
        bytes.push(random.word() as u8);
    }
    if number == 3 && !random.once_in(20) {
        *bytes.last_mut().unwrap() |= 1;
    }
    bytes
}

/// A suboption that is bad in its framing, in a field, or in both.
fn random_bad(random: &mut Random, table: &Table) -> Vec<u8> {
    let outside = random.pick(&[0, 31, 31, 32, 33, 255]);
    let mut bytes = match random.below(8) {
        0 => vec![1, 2, random.below(4) as u8, outside.max(31)],
        1 => [vec![1, 3, 0, outside, 0], vec![1, 1, outside], vec![1, 0]][random.below(3) as usize].clone(),
        2 => [vec![3, 0], vec![3, 1, 0], vec![3, 3, 0, 97, 0]][random.below(3) as usize].clone(),
        // Without a Len byte, or with one past the end where it is the last.
        3 => random.pick(&[&[1][..], &[2], &[3], &[9], &[1, 2, 0], &[2, 8, 0, 10], &[3, 2, 0]]).to_vec(),
        _ => random_information(random, table, 0, 4),
    };
    if bytes[0] != 2 || bytes.len() < 10 {
        return bytes;
    }
    let mut entries = vec![3];
    while let Some(next) = entries.last().map(|at| at + 7 + usize::from(bytes[at + 6])).filter(|at| *at < bytes.len()) {
        entries.push(next);
    }
    let both = random.once_in(2);
    if both || random.once_in(2) {
        let at = random.pick(&entries);
        if random.once_in(2) {
            bytes[at + 4] = outside
        } else {
            bytes[at + 3] |= 1
        };
    }
    if both || random.once_in(2) {
        let at = random.pick(&entries);
        match random.below(4) {
            // Odd, with as many bytes.
            0 | 1 => {
                bytes[at + 6] += 1;
                bytes.insert(at + 7, 0);
            }
            2 => bytes[at + 6] = random.pick(&[253, 254, 255]),
            _ => bytes.truncate(bytes.len() - 1 - random.below(6) as usize),
        }
    }
    bytes[1] = (bytes.len() - 2) as u8;
    bytes
}

/// What the suboption at this place would be refused with alone, if it were.
fn refused_alone(suboption: &[u8]) -> Option<u8> {
    read220(&option(suboption)).err().map(|refusal| refusal.number)
}

/// Whether an option that was refused with 7 or 16 also has a suboption of the other number after the bad one.
fn both_in_two(option: &[u8], number: u8, mut place: usize) -> bool {
    let mut first = true;
    while place < option.len() {
        let end = option.get(place + 1).map_or(option.len(), |len| option.len().min(place + 2 + usize::from(*len)));
        if !first && refused_alone(&option[place..end]) == Some(23 - number) {
            return true;
        }
        (first, place) = (false, end);
    }
    false
}

/// Whether the information at this place, refused with 7, has an entry with a field outside the rules.
fn both_in_one(option: &[u8], place: usize) -> bool {
    let Some((&[2, len], rest)) = option[place..].split_first_chunk() else { return false };
    let mut entries = rest.get(1..usize::from(len)).unwrap_or(&[]);
    while let Some((&[a, b, c, d, length, _, size], after)) = entries.split_first_chunk() {
        if refused_alone(&[2, 8, 0, a, b, c, d, length, 0, 0]).is_some() {
            return true;
        }
        entries = after.get(usize::from(size)..).unwrap_or(&[]);
    }
    false
}

fn random_request(random: &mut Random, table: &Table, listing: bool) -> [u8; 4] {
    let pool = random.pick(&table.pools).1;
    let length = match random.below(12) {
        0 => 0,
        1 => random.below(31) as u8,
        _ => length_from(random, pool),
    };
    let mut flags = random.below(2) as u8 | if listing { 2 } else { 0 };
    if random.once_in(10) {
        flags |= random.word() as u8 & 0xfc;
    }
    request(flags, length)
}

/// Suboptions as a call of this kind wants them, with others between them.
fn random_pieces(random: &mut Random, table: &Table, kind: u64) -> Vec<u8> {
    let mut pieces: Vec<Vec<u8>> = Vec::new();
    match kind {
        // Ask.
        0 => {
            let count = random.pick(&[1, 1, 1, 2, 3, 8, 24, 25, 25, 26]);
            let same = random.once_in(3).then(|| random_request(random, table, false));
            for _ in 0..count {
                pieces.push(same.unwrap_or_else(|| random_request(random, table, false)).to_vec());
            }
            if random.once_in(8) {
                let flags = random.below(4) as u8;
                pieces.push(random_information(random, table, flags, 2));
            }
            while random.once_in(3) {
                let at = random.below(pieces.len() as u64 + 1) as usize;
                pieces.insert(at, random_named(random));
            }
        }
        // Take and return.
        1 => {
            for _ in 0..random.pick(&[1, 1, 1, 2, 3]) {
                let flags = if random.once_in(4) { random.word() as u8 } else { 0 };
                let most = random.pick(&[1, 3, 35]);
                pieces.push(random_information(random, table, flags, most));
            }
            if random.once_in(25) {
                let listing = random.once_in(2);
                pieces.push(random_request(random, table, listing).to_vec());
            }
        }
        // List.
        _ => {
            for _ in 0..random.pick(&[1, 1, 1, 2, 5]) {
                let listing = !random.once_in(20);
                pieces.push(random_request(random, table, listing).to_vec());
            }
            for _ in 0..random.pick(&[0, 0, 1, 1, 2]) {
                let flags = random.pick(&[3, 3, 3, 0, 1, 2, 255]);
                pieces.push(random_information(random, table, flags, 3));
            }
            if random.once_in(40) {
                pieces.push(information(3, &[(0, 1 + random.below(30) as u8, 0)]));
            }
        }
    }
    while random.once_in(4) {
        let at = random.below(pieces.len() as u64 + 1) as usize;
        pieces.insert(at, random_other(random));
    }
    if random.once_in(4) {
        let at = random.below(pieces.len() as u64) as usize;
        pieces.swap(0, at);
    }
    if random.once_in(10) {
        for _ in 0..1 + random.below(2) {
            let at = random.below(pieces.len() as u64 + 1) as usize;
            pieces.insert(at, random_bad(random, table));
        }
        if random.once_in(6) {
            // One that ends with the longest option.
            let bad = random_bad(random, table);
            let len = 252 - bad.len();
            let mut unknown = vec![0; 2 + len];
            (unknown[0], unknown[1]) = (9, len as u8);
            pieces = vec![unknown, bad];
        }
    }
    let mut bytes = Vec::new();
    for piece in pieces {
        if bytes.len() + piece.len() <= 254 {
            bytes.extend(piece);
        }
    }
    bytes
}

/// A client that has offers, and an ask for some of them, in any order and now and then more than once; with other requests
/// among them.
fn random_again(random: &mut Random, table: &Table) -> Option<(u32, Vec<u8>)> {
    let mut offers: Vec<Lease> = table.leases.iter().filter(|lease| lease.state == 1).copied().collect();
    if offers.is_empty() {
        return None;
    }
    let client = random.pick(&offers).client;
    offers.retain(|offer| offer.client == client);
    let mut pieces = Vec::new();
    for _ in 0..random.pick(&[1, 1, 2, 3, 8, 25, 25]) {
        let offer = random.pick(&offers);
        let default = offer.length == table.default_length && random.once_in(2);
        let h = offer.flags & 1 ^ u8::from(random.once_in(8));
        pieces.extend(match random.below(6) {
            0 => random_request(random, table, false),
            _ => request(h, if default { 0 } else { offer.length }),
        });
    }
    if random.once_in(2) {
        let name = random_named(random);
        if pieces.len() + name.len() <= 254 {
            pieces.extend(name);
        }
    }
    Some((client, option(&pieces)))
}

fn random_option(random: &mut Random, table: &Table, kind: u64) -> Vec<u8> {
    // Now and then the pieces of another call.
    let kind = if random.once_in(20) { random.below(3) } else { kind };
    let pieces = random_pieces(random, table, kind);
    let mut option = option(&pieces);
    if random.once_in(10) {
        option[2] = random.word() as u8;
    }
    if random.once_in(8) {
        damage_option(random, &mut option);
    }
    option
}

fn damage_option(random: &mut Random, option: &mut Vec<u8>) {
    let at = random.below(option.len() as u64) as usize;
    match random.below(7) {
        0 => option[at] ^= 1 << random.below(8),
        1 => option[at] = random.word() as u8,
        // Cut, with and without a Len that fits.
        2 => option.truncate(at),
        3 => {
            option.truncate(at.max(2));
            option[1] = (option.len() - 2) as u8;
        }
        4 => option.push(random.word() as u8),
        5 => {
            if option.len() < 257 {
                option.push(random.word() as u8);
                option[1] = (option.len() - 2) as u8;
            }
        }
        _ => {
            let len = random.below(12) as usize;
            *option = vec![0; len];
            random.fill(option);
            if len > 1 {
                (option[0], option[1]) = (220, (len - 2) as u8);
            }
        }
    }
}

/// A name outside the rules, or a lease of the other form among the rest, or the other form's head.
fn damage_form(random: &mut Random, table: &Table, image: &mut Vec<u8>) {
    let first = image[2] == 1;
    let leases = table.leases.len() as u64;
    if leases == 0 || random.once_in(4) {
        image[2] = if first { 5 } else { 1 };
        return;
    }
    let place = random.below(leases) as usize;
    let at = image.len() - if first { FIRST_LEASE } else { LEASE } * (table.leases.len() - place);
    if first || random.once_in(3) {
        // The same lease in the other form, or with the other's kind or length.
        let (size, other) = if first { (FIRST_LEASE, LEASE) } else { (LEASE, FIRST_LEASE) };
        let mut record = image[at..at + size].to_vec();
        if !random.once_in(4) {
            record.resize(other, 0);
            record[0] = other as u8 - 2;
        }
        record[2] = if random.once_in(8) { record[2] } else { 7 - record[2] };
        image.splice(at..at + size, record);
        return;
    }
    let at = at + FIRST_LEASE;
    let length = usize::from(image[at]);
    match random.below(8) {
        0 => image[at] = random.pick(&[25, 26, 32, 128, 255]),
        1 => image[at] = image[at].wrapping_add(1),
        2 => image[at] = image[at].wrapping_sub(1),
        3 if length > 0 => image[at + length] = 0,
        4 if length < NAME => image[at + length + 1] = 1,
        5 => image[at + NAME] = random.pick(&[0, 1, 0x80]),
        6 => image[at + 1..at + 1 + NAME].fill(0),
        _ => image[at + 1 + random.below(NAME as u64) as usize] ^= 1 << random.below(8),
    }
}

/// One change to the bytes of an image, which is of either form.
fn damage_image(random: &mut Random, image: &mut Vec<u8>) {
    let at = random.below(image.len() as u64) as usize;
    let first = image[2] == 1;
    let table = Table::of_image(image);
    match random.below(14) {
        11.. => damage_form(random, &table, image),
        0..=2 => image[at] ^= 1 << random.below(8),
        3 => image[at] = random.word() as u8,
        4 => image.truncate(at),
        5 => image.extend([random.word() as u8]),
        6 => {
            // A field of a lease at its limits.
            let mut table = table;
            if let Some(last) = (table.leases.len() as u64).checked_sub(1) {
                let at = random.below(last + 1) as usize;
                let other = random.pick(&table.leases);
                let lease = &mut table.leases[at];
                match random.below(7) {
                    0 => lease.length = random.pick(&[0, 1, 7, 30, 31, 32, 33, 255]),
                    1 => lease.state = random.pick(&[0, 3, 255]),
                    2 => lease.flags = random.pick(&[4, 128]),
                    3 => lease.client = 0,
                    4 => lease.expires = table.last,
                    5 => lease.network = other.network,
                    _ => lease.network = random.word() as u32 & !3,
                }
            }
            *image = table.image_in(first);
        }
        7 => {
            let mut table = table;
            match random.below(6) {
                0 => table.term = random.pick(&[0, 59, 2_592_001]),
                1 => table.default_length = random.pick(&[0, 31, 255]),
                2 => table.last = random.pick(&[0, LATEST + 1, u32::MAX]),
                3 => table.pools.clear(),
                4 => {
                    let pool = random.pick(&table.pools);
                    let at = random.below(table.pools.len() as u64 + 1) as usize;
                    table.pools.insert(at, (pool.0, random.pick(&[0, 7, 8, pool.1, 30, 31])));
                }
                _ => {
                    let at = random.below(table.pools.len() as u64) as usize;
                    table.pools.remove(at);
                }
            }
            *image = table.image_in(first);
        }
        8 => {
            // Leases in another order, or twice.
            let mut table = table;
            if !table.leases.is_empty() {
                let at = random.below(table.leases.len() as u64) as usize;
                let lease = random.pick(&table.leases);
                match random.below(3) {
                    0 => table.leases[at] = lease,
                    1 => table.leases.insert(at, lease),
                    _ => table.leases.reverse(),
                }
            }
            *image = table.image_in(first);
        }
        9 => {
            // Pools after the last one: sound but for their number, where that is above 8.
            let mut table = table;
            while table.pools.len() < 9 {
                let (network, length) = table.pools[table.pools.len() - 1];
                let Some(next) = network.checked_add(1 << (32 - length)) else { break };
                table.pools.push((next, 30));
            }
            *image = table.image_in(first);
        }
        _ => {
            // Leases after the last one: sound but for their number, where that is above 1,024.
            let mut table = table;
            while table.leases.len() <= ROWS {
                let (pool, size) = table.pools[table.pools.len() - 1];
                let to = u64::from(pool) + (1 << (32 - size));
                let last = table.leases.last().map_or(0, |lease| u64::from(lease.network) + (1 << (32 - lease.length)));
                let from = last.max(pool.into());
                if from == to {
                    break;
                }
                table.leases.push(Lease {
                    network: from as u32,
                    length: 30,
                    state: 2,
                    flags: 0,
                    client: 1,
                    expires: u32::MAX,
                    name: NO_NAME,
                });
            }
            *image = table.image_in(first);
        }
    }
}

fn random_open(random: &mut Random) -> Call {
    let mut pools = random_pools(random, false);
    for _ in 0..random.below(4) {
        let (one, other) = (random.below(pools.len() as u64), random.below(pools.len() as u64));
        pools.swap(one as usize, other as usize);
    }
    if random.once_in(4) {
        let at = random.below(pools.len() as u64) as usize;
        match random.below(5) {
            0 => pools[at].1 = random.pick(&[0, 7, 8, 31, 32, 255]),
            1 => pools[at].0 = random.word() as u32,
            2 => pools.push(pools[at]),
            3 => pools.clear(),
            _ => pools.extend([(0x1400_0000, 24); 8].iter().enumerate().map(|(i, p)| (p.0 + 256 * i as u32, p.1))),
        }
    }
    let mut networks: Vec<u32> = pools.iter().map(|pool| pool.0).collect();
    let mut lengths: Vec<u8> = pools.iter().map(|pool| pool.1).collect();
    match random.below(20) {
        0 => networks.push(0x2000_0000),
        1 => lengths.push(24),
        _ => {}
    }
    let rarely = |random: &mut Random, values: &[u32], usual: u32| {
        if random.once_in(8) { random.pick(values) } else { usual }
    };
    Call::Open {
        networks,
        lengths,
        term: rarely(random, &[0, 59, 60, 2_592_000, 2_592_001, u32::MAX], 3600),
        default_length: rarely(random, &[0, 1, 30, 31, 255, 256, 257, 284, u32::MAX], 28),
        start: rarely(random, &[0, LATEST, LATEST + 1, u32::MAX], 1000),
    }
}

/// An option 118, or none: an address in a root, at its ends, one past them, or any; now and then a bad option.
fn random_selection(random: &mut Random, table: &Table) -> Option<Vec<u8>> {
    if random.once_in(2) {
        return None;
    }
    let (network, length) = random.pick(&table.pools);
    let size = 1u64 << (32 - length);
    let last = (u64::from(network) + size - 1) as u32;
    let word = random.word() as u32;
    let any = random.pick(&[0, 0, 1, u32::MAX, word]);
    let address = match random.below(16) {
        0 => network.wrapping_sub(1),
        1 => last.wrapping_add(1),
        2 | 3 => last,
        4 | 5 => network,
        6 => any,
        _ => network + random.below(size) as u32,
    };
    let mut bytes = options::selection(address);
    if random.once_in(12) {
        let at = random.below(6) as usize;
        match random.below(6) {
            0 => bytes.truncate(at),
            1 => bytes.push(random.word() as u8),
            2 => bytes[1] = random.pick(&[0, 3, 5, 255]),
            3 => bytes[0] = random.pick(&[0, 117, 119, 220]),
            4 => bytes.extend(options::selection(address)),
            _ => bytes.clear(),
        }
    }
    Some(bytes)
}

fn random_call(random: &mut Random, table: &Table) -> Call {
    let client = random_client(random);
    let now = random_time(random, table.last);
    match random.below(100) {
        0..=31 => {
            let again = if random.once_in(3) { random_again(random, table) } else { None };
            let (client, option) = again.unwrap_or_else(|| (client, random_option(random, table, 0)));
            Call::Ask { client, now, option, selection: random_selection(random, table) }
        }
        32..=49 => {
            let option = random_option(random, table, 1);
            Call::Take { client, now, option, selection: random_selection(random, table) }
        }
        50..=63 => Call::List { client, now, option: random_option(random, table, 2) },
        64..=76 => Call::Release { client, now, option: random_option(random, table, 1) },
        77..=87 => {
            let (network, length) = random_prefix(random, table);
            let length = u32::from(length) + if random.once_in(20) { 256 } else { 0 };
            Call::Mark { network, length, deprecated: random.pick(&[0, 1, 1, 2, 256, u32::MAX]), now }
        }
        88 => Call::Sheet,
        89..=90 => Call::Whole { length: random_length(random) },
        91..=93 => Call::Save {
            form: random.pick(&[1, 1, 1, 1, 2, 2, 0, 3, 257, u32::MAX]),
            older: random.pick(&[0, 0, 0, 1, 1, 1, 2, 256, u32::MAX]),
        },
        94..=96 => random_load(random, table),
        _ => random_open(random),
    }
}

/// One that is counted, one near it, one whose low bits are such a length's, or any.
fn random_length(random: &mut Random) -> u32 {
    match random.below(8) {
        0 => random.word() as u32,
        1 => random.below(40) as u32,
        2 => (random.word() as u32) << 8 | 8 + random.below(23) as u32,
        _ => 8 + random.below(23) as u32,
    }
}

/// The bytes of this table or of another, as they are or damaged.
fn random_load(random: &mut Random, table: &Table) -> Call {
    let table = if random.once_in(2) { table.clone() } else { random_table(random) };
    // In the first form names are lost; it is an image all the same.
    let mut saved = table.image_in(random.once_in(2));
    match random.below(16) {
        0..=3 => damage_image(random, &mut saved),
        // Longer than every image of a form.
        4 => saved.resize(random.pick(&[FIRST_FULL, FULL]) + random.below(40) as usize, 0),
        5 => saved.clear(),
        _ => {}
    }
    Call::Load { saved }
}

/// One change to a figures sheet; some leave it one that matches.
fn damage_figures(random: &mut Random, table: &Table, figures: &mut Vec<u8>) {
    let leases = table.leases.len();
    let row = random.below(ROWS as u64) as usize;
    // Rows of leases and the first that is none are few in most tables.
    let near = random.below(leases.min(ROWS - 1) as u64 + 1) as usize;
    let row = ROW * if random.once_in(3) { row } else { near };
    let byte = row + random.below(ROW as u64) as usize;
    match random.below(12) {
        0 | 1 => figures[byte] ^= 1 << random.below(8),
        2 => figures[byte] = random.word() as u8,
        3 => figures[row + 4] = random.pick(&[0, 1, 8, 30, 31, 255]),
        4 => figures[row..row + 5].fill(0),
        5 => figures[row..row + ROW].fill(0),
        6 => figures[row..row + ROW].copy_from_slice(&EMPTY_ROW),
        // A row gone, and those after it moved; or a row that stands there twice.
        7 => {
            figures.drain(row..row + ROW);
            figures.extend(EMPTY_ROW);
        }
        8 => {
            let twice = figures[row..row + ROW].to_vec();
            figures.splice(row..row, twice);
            figures.truncate(FIGURES);
        }
        // Without those that end next: the sheet of another time.
        9 => {
            let end = table.leases.iter().map(|lease| lease.expires).min();
            let present = table.leases.iter().filter(|lease| Some(lease.expires) != end).copied().collect();
            *figures = Table { leases: present, ..table.clone() }.figures(|| random_figure(random));
        }
        10 => random.fill(figures),
        _ => {
            let size = random.pick(&[0, 1, ROW, ROW * leases, FIGURES - ROW, FIGURES - 1, FIGURES + 1, FIGURES + ROW]);
            figures.resize(size, 0xff);
        }
    }
}

/// One change to counts; some leave them as they are.
fn damage_counts(random: &mut Random, table: &Table, counts: &mut Counts) {
    let row = |random: &mut Random| {
        let pools = table.pools.len() as u64;
        if random.once_in(2) { random.below(8) as usize } else { random.below(pools) as usize }
    };
    let (one, other) = (row(random), row(random));
    let column = random.below(LENGTHS as u64) as usize;
    let count = counts[one][column];
    match random.below(10) {
        0..=2 => counts[one][column] = count.wrapping_add(1),
        3 => counts[one][column] = count.wrapping_sub(1),
        4 => counts[one][column] ^= 1 << random.below(16),
        5 => counts.swap(one, other),
        6 => {
            counts[one][column] = 0;
            counts[other][column] = counts[other][column].wrapping_add(count);
        }
        // Without those that end next: the counts of another time.
        7 | 8 => {
            let end = table.leases.iter().map(|lease| lease.expires).min();
            let present = table.leases.iter().filter(|lease| Some(lease.expires) != end).copied().collect();
            *counts = Table { leases: present, ..table.clone() }.counts();
        }
        _ => *counts = [[0; LENGTHS]; 8],
    }
}

/// Whether a call was refused because of the counts alone: the image loads, with others.
fn by_counts(call: &Call, given: &Buffers, answer: &Answer) -> bool {
    let saves = matches!(call, Call::Open { .. } | Call::Load { .. } | Call::Sheet);
    let first = given.image.get(2) == Some(&1);
    if answer.number != 5 || saves || first || given.image.len() < FULL || given.bytes > given.image.len() {
        return false;
    }
    let mut right = given.clone();
    right.figures.resize(FIGURES, 0);
    let loaded = Call::Load { saved: given.image[..given.bytes].to_vec() }.run(&REFERENCE, &mut right);
    loaded.number == 0 && right.counts != given.counts
}

fn random_given(random: &mut Random, image: &[u8], figures: &[u8]) -> (Call, Buffers) {
    let mut table = Table::of_image(image);
    let call = random_call(random, &table);
    // Saved at the number of leases that an older desk has room for, or beside it.
    if matches!(call, Call::Save { .. }) && random.once_in(2) {
        table.leases.truncate(OLDER_LEASES - 1 + random.below(3) as usize);
    }
    let mut image = table.image();
    let mut figures = figures.to_vec();
    if random.once_in(10) {
        damage_figures(random, &table, &mut figures);
    }
    let mut counts = table.counts();
    if random.once_in(12) {
        damage_counts(random, &table, &mut counts);
    }
    if random.once_in(8) {
        damage_image(random, &mut image);
    }
    // A book of the first form, which only load and the sheet take.
    if random.once_in(40) {
        image = table.first_image();
    }
    let mut bytes = image.len();
    let mut capacity = match random.below(30) {
        0 => random.pick(&[0, 13, bytes, FULL - 1]),
        1..=4 => FULL + random.below(30) as usize,
        _ => FULL.max(bytes),
    };
    if random.once_in(40) {
        bytes = random.pick(&[
            0,
            bytes.saturating_sub(1),
            bytes + 1,
            bytes.saturating_sub(LEASE),
            FULL,
            FULL + 1,
            usize::MAX,
        ]);
    }
    let mut buffer = vec![0; FULL + 64];
    random.fill(&mut buffer);
    let end = image.len().min(buffer.len());
    buffer[..end].copy_from_slice(&image[..end]);
    let room = match &call {
        Call::Save { form, .. } => {
            let size = if *form == 1 { table.first_image().len() } else { end };
            random.pick(&[size, size, size + 1, FULL, size.saturating_sub(1), 0])
        }
        Call::Sheet => {
            // The sheet is of these bytes, whatever holds them.
            bytes = bytes.min(end);
            capacity = capacity.max(bytes);
            let mut text = vec![0; SHEET];
            let size = (REFERENCE.sheet)(&buffer[..bytes], &mut text).bytes as usize;
            random.pick(&[size, size, size + 1, size + 40, size.saturating_sub(1), 0])
        }
        _ => {
            let least = if call.selection().is_some() { SELECTED_REPLY } else { REPLY };
            match random.below(30) {
                0 => random.below(least as u64) as usize,
                1 => random.pick(&[REPLY - 1, REPLY, SELECTED_REPLY - 1, SELECTED_REPLY]),
                2..=4 => least + random.below(60) as usize,
                _ => least,
            }
        }
    };
    buffer.truncate(capacity);
    let mut out = vec![0; room];
    random.fill(&mut out);
    (call, Buffers { image: buffer, bytes, figures, counts, out })
}

fn desks() -> Vec<Desk> {
    [REFERENCE, PEER].into_iter().chain(bench::proved_desk()).collect()
}

fn number(argument: Option<String>, default: u64) -> u64 {
    match argument {
        None => default,
        Some(text) => text.parse().unwrap_or_else(|_| {
            eprintln!("agree [CALLS [SEED]]");
            exit(2)
        }),
    }
}

fn main() {
    let mut arguments = std::env::args().skip(1);
    let calls = number(arguments.next(), CALLS);
    let seed = number(arguments.next(), SEED);
    let desks = desks();
    let names: Vec<&str> = desks.iter().map(|desk| desk.name).collect();
    println!("agree: {}; {calls} calls, seed {seed}", names.join(", "));
    if names.len() < 3 {
        println!("agree: the proved library is not linked: target/staticlib/libflockdrift.a was not there");
    }
    let mut random = Random(seed);
    let mut answers: BTreeMap<(&str, u32), u64> = BTreeMap::new();
    let (mut most, mut full, mut filing, mut again, mut again_full) = (0, 0, 0, 0, 0);
    let (mut differing, mut counted, mut at_limit) = (0u64, 0u64, [0u64; 2]);
    let (mut in_one, mut in_two, mut last_place) = (0u64, 0u64, 0u64);
    let (mut named, mut kept, mut first_loads, mut first_saves) = (0u64, 0u64, 0u64, 0u64);
    let (mut in_place, mut lost_and_short, mut too_many) = (0u64, 0u64, [0u64; 6]);
    let (mut bad_selections, mut below_263, mut in_a_root, mut left_out) = (0u64, 0u64, 0u64, 0u64);
    let (mut image, mut figures) = (Vec::new(), Vec::new());
    for index in 0..calls {
        if index % HISTORY == 0 {
            let table = random_table(&mut random);
            image = table.image();
            figures = table.figures(|| random_figure(&mut random));
        }
        let (call, given) = random_given(&mut random, &image, &figures);
        let result = agreed(&desks, &call, &given).and_then(|(answer, left)| {
            plausible(&call, &given, &answer, &left)?;
            Ok((answer, left))
        });
        match result {
            Ok((answer, left)) => {
                *answers.entry((call.name(), answer.number)).or_default() += 1;
                if !matches!(call, Call::Whole { .. }) {
                    most = most.max(answer.count);
                }
                differing += u64::from(by_counts(&call, &given, &answer));
                if let (Some(option), 7 | 16) = (call.option(), answer.number) {
                    let (number, place) = (answer.number as u8, answer.place as usize);
                    in_one += u64::from(number == 7 && both_in_one(option, place));
                    in_two += u64::from(both_in_two(option, number, place));
                    last_place += u64::from(place == 256);
                }
                if let Call::Save { form: 1, .. } = call {
                    first_saves += u64::from(answer.number == 0);
                    lost_and_short += u64::from(answer.number == 18 && given.out.is_empty());
                }
                if let (Call::Save { form, older: 1.. }, 0 | 20) = (&call, answer.number) {
                    let table = Table::of_image(&given.image[..given.bytes]);
                    too_many[0] += u64::from(answer.number == 20 && *form == 1);
                    too_many[1] += u64::from(answer.number == 20 && *form == 1 && table.has_names());
                    too_many[2] += u64::from(answer.number == 20 && given.out.is_empty());
                    too_many[3] += u64::from(answer.number == 20 && table.leases.len() == OLDER_LEASES + 1);
                    too_many[4] += u64::from(answer.number == 0);
                    too_many[5] += u64::from(answer.number == 0 && table.leases.len() == OLDER_LEASES);
                }
                if !matches!(call, Call::Open { .. } | Call::Load { .. } | Call::Sheet) {
                    in_place += u64::from(answer.number == 5 && given.image.get(2) == Some(&1));
                }
                if let Some(selection) = call.selection() {
                    let well_framed = call
                        .option()
                        .is_some_and(|option| read220(option).map_or_else(|refusal| refusal.number != 6, |_| true));
                    bad_selections += u64::from(answer.number == 6 && well_framed);
                    below_263 += u64::from(answer.number == 1 && given.out.len() >= REPLY);
                    let accepted = answer.number == 0;
                    in_a_root += u64::from(accepted && matches!(call, Call::Ask { .. }));
                    if let (Call::Take { client, now, option, .. }, true) = (&call, accepted) {
                        let before = Table::of_image(&given.image[..given.bytes]);
                        left_out += u64::from(names_outside(*client, *now, option, selection, &before));
                    }
                }
                if answer.number == 0 {
                    full += u64::from(left.bytes == FULL);
                    let leases = Table::of_image(&left.image[..left.bytes]).leases.len();
                    at_limit[0] += u64::from(leases > OLDER_LEASES);
                    at_limit[1] += u64::from(leases == ROWS);
                    if let Call::Load { saved } = &call {
                        first_loads += u64::from(saved[2] == 1);
                    }
                    filing += u64::from(matches!(call, Call::Take { .. }) && filed(&given, &left));
                    if let Call::Ask { now, .. } = call {
                        let before = Table::of_image(&given.image[..given.bytes]);
                        let gave = gave_again(now, &before, &left.out[..answer.bytes as usize]);
                        let after = Table::of_image(&left.image[..left.bytes]);
                        for lease in after.leases.iter().filter(|lease| lease.name != NO_NAME) {
                            let mut there = before.leases.iter();
                            let old = there.any(|old| old.network == lease.network && old.expires > now);
                            named += u64::from(!old);
                            kept += u64::from(old);
                        }
                        again += u64::from(gave);
                        again_full += u64::from(gave && before.leases.len() == ROWS);
                    }
                    // A call that only reads may have been given the image of another sound table, or another's figures.
                    if !call.only_reads() {
                        counted += u64::from(left.counts != given.counts);
                        image = left.image[..left.bytes].to_vec();
                        figures = left.figures;
                    }
                }
            }
            Err(difference) => {
                println!("call {index} of seed {seed}: {difference}");
                println!("{call:?}");
                println!("image of {} bytes in {}: {}", given.bytes, given.image.len(), hex(&given.image));
                println!("figures of {} bytes: {}", given.figures.len(), hex(&given.figures));
                println!("counts: {:?}", given.counts);
                println!("output buffer of {}", given.out.len());
                exit(1);
            }
        }
    }
    let mut call = "";
    for ((name, number), count) in &answers {
        if *name != call {
            print!("{}{name}:", if call.is_empty() { "" } else { "\n" });
            call = name;
        }
        print!(" {number} x{count}");
    }
    let refused = |with: u32| -> u64 {
        let of_number = answers.iter().filter(|((_, number), _)| *number == with);
        of_number.map(|(_, count)| count).sum()
    };
    println!("\nmost entries in an answer: {most}; full images: {full}");
    println!("figures sheets refused with 15: {}; takes that filed a figure: {filing}", refused(15));
    println!("asks that gave an offer again: {again}, on a table of 1,024: {again_full}");
    println!("calls refused because of counts: {differing}; calls that changed counts: {counted}");
    println!(
        "options refused with 7: {}, with 16: {}; both in one suboption: {in_one}, in two: {in_two}; at 256: {last_place}",
        refused(7),
        refused(16)
    );
    println!(
        "asks refused with 17: {}, leases made with a name: {named}, that kept theirs in an ask: {kept}; saves refused with \
         18: {}, without room too: {lost_and_short}, accepted in the first form: {first_saves}; loads of the first form \
         accepted: {first_loads}; calls refused on a book of the first form: {in_place}",
        refused(17),
        refused(18)
    );
    println!(
        "calls refused with 19: {}, with 6 because of option 118: {bad_selections}, with 1 because of 263: {below_263}; asks \
         granted in a named root: {in_a_root}; takes that left entries outside: {left_out}",
        refused(19)
    );
    println!(
        "saves for an older desk refused with 20: {}, in the first form: {}, with names too: {}, without room too: {}, of 257 \
         leases: {}; accepted: {}, of 256 leases: {}; calls that left more than 256 leases: {}, 1,024: {}",
        refused(20),
        too_many[0],
        too_many[1],
        too_many[2],
        too_many[3],
        too_many[4],
        too_many[5],
        at_limit[0],
        at_limit[1]
    );
    println!("agree: {calls} calls, the same answer, image, figures, counts and output by all {}", names.len());
}
