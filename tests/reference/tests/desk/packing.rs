//! Demand 3 against a brute-force packing on small pools: if the asks can be packed
//! at all, all are granted, in any order; one is refused exactly for want of lines or
//! of a free block. M-101: this "speaks of the rest", and the list is one "whose stations
//! hold nothing at the start, and where each station's asks come in one message".

use reference::option::{read220, Information, Suboption};
use reference::prefix::{prefix, Prefix};
use reference::table::{Lease, State, Table, LEASES};

use crate::common::*;

const NOW: u32 = 1000;

/// Literal: inside a pool, and no address shared with a present line.
fn free(table: &Table, block: Prefix) -> bool {
    let inside = |pool: &Prefix| {
        let first = u64::from(pool.network);
        (first..first + pool.size()).contains(&u64::from(block.network))
            && block.end() <= first + pool.size()
    };
    table.used_pools().iter().any(inside)
        && table
            .used_leases()
            .iter()
            .filter(|lease| lease.expires > NOW)
            .all(|lease| {
                let taken = u64::from(lease.prefix.network)..lease.prefix.end();
                (u64::from(block.network)..block.end()).all(|address| !taken.contains(&address))
            })
}

/// Every aligned block of the length inside a pool, free or not.
fn blocks(table: &Table, length: u8) -> Vec<Prefix> {
    let mut blocks = Vec::new();
    for pool in table.used_pools() {
        let size = prefix(0, length).size();
        let mut network = u64::from(pool.network);
        while network < pool.end() {
            if network + size <= pool.end() {
                blocks.push(prefix(network as u32, length));
            }
            network += size;
        }
    }
    blocks
}

fn free_blocks(table: &Table, length: u8) -> Vec<Prefix> {
    blocks(table, length)
        .into_iter()
        .filter(|block| free(table, *block))
        .collect()
}

/// Literal: "whole if it is a root or the block twice its size around it isn't free".
fn whole(table: &Table, block: Prefix) -> bool {
    let length = block.length - 1;
    let around = prefix(block.network & (u32::MAX << (32 - length)), length);
    table.used_pools().contains(&block) || !free(table, around)
}

/// The asks, longest first, fit into disjoint free blocks: every choice is tried.
fn packable(free: &[Vec<Prefix>; 31], asks: &[u8], taken: &mut Vec<Prefix>) -> bool {
    let Some((&length, rest)) = asks.split_first() else {
        return true;
    };
    for &block in &free[usize::from(length)] {
        // Two asks of one length may swap places, so only ascending ones are tried.
        let descends = taken
            .iter()
            .any(|other| other.length == length && other.network >= block.network);
        if descends || taken.iter().any(|other| other.shares_address_with(block)) {
            continue;
        }
        taken.push(block);
        if packable(free, rest, taken) {
            return true;
        }
        taken.pop();
    }
    false
}

fn can_pack(table: &Table, asks: &[u8]) -> bool {
    let mut sorted = asks.to_vec();
    sorted.sort();
    let free: [Vec<Prefix>; 31] = std::array::from_fn(|length| match length {
        0..=7 => Vec::new(),
        _ => free_blocks(table, length as u8),
    });
    packable(&free, &sorted, &mut Vec::new())
}

/// Small pools, some lines on them, some of them ended at NOW, and (for some) a third
/// pool that is wholly taken by so many lines that few empty ones are left.
fn random_table(numbers: &mut Numbers) -> Table {
    let choices: [&[&str]; 8] = [
        &["10.0.0.0/26"],
        &["10.0.0.0/27", "10.0.0.32/27"],
        &["10.0.0.0/28", "10.0.0.16/28", "10.0.0.64/27"],
        &["0.0.0.0/27", "255.255.255.224/27"],
        &["10.0.0.0/30", "10.0.0.4/30", "10.0.0.8/29", "10.0.0.32/27"],
        &["10.0.0.0/29", "10.0.0.64/26"],
        &["255.255.255.192/26"],
        &["10.0.0.0/30"],
    ];
    let mut texts = choices[numbers.below(choices.len())].to_vec();
    let small = pools(&texts);
    let mut leases: Vec<Lease> = Vec::new();
    let crowded = numbers.once_in(5);
    if crowded {
        texts.push("172.16.0.0/20");
    }
    for _ in 0..numbers.below(7) {
        let pool = small[numbers.below(small.len())];
        let length = numbers.between(usize::from(pool.length), 30) as u8;
        let size = prefix(0, length).size() as u32;
        let at = prefix(
            pool.network + size * numbers.below((pool.size() as u32 / size) as usize) as u32,
            length,
        );
        if leases
            .iter()
            .all(|lease| !lease.prefix.shares_address_with(at))
        {
            let expires = NOW + [0, 1, 100][numbers.below(3)];
            let state = if numbers.once_in(2) {
                State::Offered
            } else {
                State::Leased
            };
            let mut lease = lease(at, numbers.between(1, 9) as u32, state, expires);
            lease.h = numbers.once_in(2);
            leases.push(lease);
        }
    }
    if crowded {
        // `twos` /29s and then /30s fill the third pool with the wanted count.
        let count = 1_024 - leases.len() as u32 - numbers.below(7) as u32;
        let twos = 1_024 - count;
        for index in 0..count {
            let (units, length) = if index < twos {
                (2 * index, 29)
            } else {
                (twos + index, 30)
            };
            leases.push(lease(
                prefix(0xac10_0000 + 4 * units, length),
                77,
                State::Leased,
                u32::MAX,
            ));
        }
    }
    table_with(&texts, NOW - 1, &leases)
}

/// Empty lines at NOW.
fn empty_lines(table: &Table) -> usize {
    LEASES
        - table
            .used_leases()
            .iter()
            .filter(|lease| lease.expires > NOW)
            .count()
}

/// The present lines that a station holds.
fn held_by(table: &Table, client: u32) -> Vec<Lease> {
    let present = table.present_leases(NOW).into_iter();
    let held = present.filter(|lease| (lease.client, lease.state) == (client, State::Offered));
    held.collect()
}

/// Stations that hold nothing, each once, in any order; some of them have leased lines.
fn stations(numbers: &mut Numbers, table: &Table) -> Vec<u32> {
    let all = (1..=9).chain(101..=106);
    let mut stations: Vec<u32> = all
        .filter(|client| held_by(table, *client).is_empty())
        .collect();
    numbers.shuffle(&mut stations);
    stations
}

/// One call of these lengths by a station that holds nothing. Pairs the entries with the
/// asks as document 01 says and returns which are granted.
fn granted(table: &mut Table, client: u32, asks: &[(u8, bool)]) -> Vec<bool> {
    let pieces: Vec<Suboption> = asks
        .iter()
        .map(|&(length, h)| {
            if h {
                request_h(length)
            } else {
                request(length)
            }
        })
        .collect();
    let before = table.clone();
    assert_eq!(held_by(table, client), []);
    let mut granted = vec![false; asks.len()];
    let reply = match ask(table, client, NOW, &option(&pieces)) {
        Ok((count, reply)) => {
            let list = read220(&reply).unwrap();
            assert_eq!(list.len(), count);
            list
        }
        Err(refusal) => {
            assert_eq!(*table, before);
            let expected = if empty_lines(&before) == 0 { 9 } else { 10 };
            assert_eq!(refusal, no(expected, 0));
            return granted;
        }
    };
    let mut next = 0;
    for suboption in reply {
        let Suboption::Information(Information {
            c: false,
            s: false,
            entries,
        }) = suboption
        else {
            panic!("{suboption:?}");
        };
        let [entry] = &entries[..] else {
            panic!("{entries:?}")
        };
        let length_of = |length: u8| {
            if length == 0 {
                before.default_length
            } else {
                length
            }
        };
        while (length_of(asks[next].0), asks[next].1) != (entry.prefix, entry.h) {
            next += 1;
        }
        granted[next] = true;
        next += 1;
        let mut expected = lease(
            prefix(entry.network, entry.prefix),
            client,
            State::Offered,
            NOW + 120,
        );
        expected.h = entry.h;
        assert!(!entry.d && entry.figures.is_empty());
        assert!(table.used_leases().contains(&expected));
    }
    // The lines present are the old ones and the new ones.
    let new = granted.iter().filter(|granted| **granted).count();
    let old: Vec<_> = before
        .used_leases()
        .iter()
        .filter(|lease| lease.expires > NOW)
        .collect();
    assert_eq!(table.used_leases().len(), old.len() + new);
    assert!(old.iter().all(|lease| table.used_leases().contains(lease)));
    assert!(table.sound());
    granted
}

#[test]
fn whole_free_blocks_are_those_of_the_definition() {
    let mut numbers = Numbers::new(5);
    for _ in 0..600 {
        let table = random_table(&mut numbers);
        let mut literal = Vec::new();
        for length in 20..=30 {
            for block in free_blocks(&table, length) {
                if whole(&table, block) {
                    literal.push(block);
                }
            }
        }
        literal.sort_by_key(|block| block.network);
        assert_eq!(table.whole_free_prefixes(NOW), literal);
        for length in 1..=30 {
            let mut fitting: Vec<Prefix> = literal
                .iter()
                .copied()
                .filter(|block| block.length <= length)
                .collect();
            fitting.sort_by_key(|block| (block.size(), block.network));
            let chosen = fitting.first().map(|block| prefix(block.network, length));
            assert_eq!(table.choose(table.used_pools(), NOW, length), chosen);
        }
    }
}

#[test]
fn one_ask_is_refused_exactly_for_want_of_lines_or_of_a_free_block() {
    let mut numbers = Numbers::new(6);
    let (mut nine, mut ten, mut given, mut again) = (0, 0, 0, 0);
    for _ in 0..3_000 {
        let mut table = random_table(&mut numbers);
        let before = table.clone();
        let length = if numbers.once_in(6) {
            0
        } else {
            numbers.between(22, 30) as u8
        };
        // Now and then for what a station has already.
        let (client, length) = match table.used_leases() {
            [first, ..] if numbers.once_in(4) => (first.client, first.prefix.length),
            _ => (5, length),
        };
        let meant = if length == 0 { 28 } else { length };
        let (lines, ground) = (empty_lines(&table), free_blocks(&table, meant));
        let held = held_by(&table, client).into_iter();
        let held = held.filter(|lease| lease.prefix.length == meant && !lease.h);
        let held = held.min_by_key(|lease| lease.prefix.network);
        let answer = ask(&mut table, client, NOW, &asking(&[length]));
        let Ok((count, reply)) = answer else {
            let number = if lines == 0 { 9 } else { 10 };
            assert!(held.is_none() && (lines == 0 || ground.is_empty()));
            assert_eq!(answer, Err(no(number, 0)));
            assert_eq!(table, before);
            *(if number == 9 { &mut nine } else { &mut ten }) += 1;
            continue;
        };
        assert_eq!(count, 1);
        let network = u32::from_be_bytes([reply[6], reply[7], reply[8], reply[9]]);
        // "Demand 3's first sentence now speaks of the rest": a held line is given again,
        // whatever lines and ground there are.
        if let Some(held) = held {
            again += 1;
            assert_eq!(held.prefix, prefix(network, meant));
        } else {
            given += 1;
            assert!(lines > 0 && ground.contains(&prefix(network, meant)));
        }
    }
    assert!(
        nine > 40 && ten > 300 && given > 1_000 && again > 50,
        "{nine} {ten} {given} {again}"
    );
}

#[test]
fn packable_asks_are_all_granted_in_any_order() {
    let mut numbers = Numbers::new(7);
    let (mut all, mut not_all) = (0, 0);
    for _ in 0..1_500 {
        let table = random_table(&mut numbers);
        let shortest = numbers.between(25, 29);
        let mut asks: Vec<(u8, bool)> = (0..numbers.between(1, 6))
            .map(|_| {
                let length = if numbers.once_in(8) {
                    0
                } else {
                    numbers.between(shortest, 30) as u8
                };
                (length, numbers.once_in(2))
            })
            .collect();
        let lengths: Vec<u8> = asks
            .iter()
            .map(|ask| if ask.0 == 0 { 28 } else { ask.0 })
            .collect();
        let premise = asks.len() <= empty_lines(&table) && can_pack(&table, &lengths);
        if premise {
            all += 1;
        } else {
            not_all += 1;
        }
        for _ in 0..12 {
            numbers.shuffle(&mut asks);
            let mut book = table.clone();
            let mut every = true;
            let mut rest = &asks[..];
            for client in stations(&mut numbers, &table) {
                if rest.is_empty() {
                    break;
                }
                // A call with some of them; malformed calls between do no harm.
                let (call, after) = rest.split_at(numbers.between(1, rest.len()));
                rest = after;
                every &= granted(&mut book, client, call)
                    .iter()
                    .all(|granted| *granted);
                if numbers.once_in(4) {
                    let kept = book.clone();
                    assert!(ask(&mut book, 0, NOW, &asking(&[30])).is_err());
                    assert!(ask(&mut book, client, NOW, &asking(&[30; 26])).is_err());
                    assert_eq!(book, kept);
                }
            }
            assert!(rest.is_empty());
            assert_eq!(every, premise, "{asks:?}");
        }
    }
    assert!(all > 300 && not_all > 300, "{all} {not_all}");
}

#[test]
fn every_order_of_five_asks() {
    let mut numbers = Numbers::new(8);
    for _ in 0..60 {
        let table = random_table(&mut numbers);
        let mut asks: Vec<u8> = (0..5).map(|_| numbers.between(26, 30) as u8).collect();
        let premise = asks.len() <= empty_lines(&table) && can_pack(&table, &asks);
        every_order(&mut asks, 0, &mut |order| {
            let mut book = table.clone();
            let served = (101..).zip(order).filter(|(client, length)| {
                ask(&mut book, *client, NOW, &asking(&[**length])).is_ok()
            });
            assert_eq!(served.count() == 5, premise);
        });
    }
}

fn every_order(items: &mut [u8], from: usize, check: &mut dyn FnMut(&[u8])) {
    if from == items.len() {
        return check(items);
    }
    for index in from..items.len() {
        items.swap(from, index);
        every_order(items, from + 1, check);
        items.swap(from, index);
    }
}

/// Each of these calls is one ask, and all are granted; how many lines were newly made.
fn made_by(table: &mut Table, asks: &[(u32, u8)]) -> usize {
    let before = table.used_leases().len();
    for (client, length) in asks {
        assert_eq!(ask(table, *client, NOW, &asking(&[*length])).unwrap().0, 1);
    }
    table.used_leases().len() - before
}

#[test]
fn the_list_needs_both_of_its_premises() {
    // Two asks that can be packed, of two stations that hold nothing: a line for each.
    let fresh = table_with(&["10.0.0.0/26"], NOW, &[]);
    assert!(can_pack(&fresh, &[27, 27]));
    assert_eq!(made_by(&mut fresh.clone(), &[(7, 27), (8, 27)]), 2);
    // Leased lines do no harm.
    let leased = [lease(p("10.0.0.0/28"), 7, State::Leased, u32::MAX)];
    let with_leased = table_with(&["10.0.0.0/26"], NOW, &leased);
    assert_eq!(made_by(&mut with_leased.clone(), &[(7, 28), (8, 28)]), 2);
    // A station's asks in two messages: the second gets the line of the first.
    assert_eq!(made_by(&mut fresh.clone(), &[(7, 27), (7, 27)]), 1);
    // A station that holds: what can be packed makes no line, what can't is granted.
    let held = [lease(p("10.0.0.0/27"), 7, State::Offered, u32::MAX)];
    let mut held = table_with(&["10.0.0.0/26"], NOW, &held);
    assert!(can_pack(&held, &[27]) && !can_pack(&held, &[27, 27]));
    assert_eq!(made_by(&mut held.clone(), &[(7, 27)]), 0);
    assert_eq!(made_by(&mut held, &[(8, 27), (7, 27)]), 1);
}

#[test]
fn asks_of_length_below_8_are_refused_with_10() {
    let mut table = open(&pools(&["10.0.0.0/8"]), 3600, 7, NOW).unwrap();
    for length in 0..8 {
        assert_eq!(ask(&mut table, 1, NOW, &asking(&[length])), Err(no(10, 0)));
    }
    assert_eq!(ask(&mut table, 1, NOW, &asking(&[7, 8])).unwrap().0, 1);
}
