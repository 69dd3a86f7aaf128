//! Random histories: soundness, the ledger, and what a list depends on.

use reference::calls::{self, Answer};
use reference::option::{read220, Suboption};
use reference::prefix::{prefix, Prefix};
use reference::refusal::Refusal;
use reference::table::{Lease, State, Table};

use crate::common::*;

fn addresses<'a>(leases: impl Iterator<Item = &'a Lease>) -> u64 {
    leases.map(|lease| lease.prefix.size()).sum()
}

/// The prefixes of an ask's reply, in order.
fn entries_of(reply: &[u8]) -> Vec<Prefix> {
    let mut prefixes = Vec::new();
    for suboption in read220(reply).unwrap() {
        let Suboption::Information(information) = suboption else {
            panic!("{suboption:?}")
        };
        let entries = information.entries.iter();
        prefixes.extend(entries.map(|entry| prefix(entry.network, entry.prefix)));
    }
    prefixes
}

fn some_prefixes(numbers: &mut Numbers, table: &Table) -> Vec<Prefix> {
    let used = table.used_leases();
    let mut some = Vec::new();
    for _ in 0..numbers.between(1, 4) {
        if used.is_empty() || numbers.once_in(8) {
            some.push(p("10.0.0.0/28"));
        } else {
            some.push(used[numbers.below(used.len())].prefix);
        }
    }
    some
}

#[test]
fn the_ledger_balances_over_random_histories() {
    let mut numbers = Numbers::new(9);
    let (mut accepted, mut re_given) = ([0; 5], 0);
    for _ in 0..30 {
        let texts = [
            &["10.0.0.0/24"][..],
            &["10.0.0.0/22", "10.1.0.0/20", "192.168.0.0/24"],
            &["10.0.0.0/8", "0.0.0.0/8", "255.0.0.0/8"],
        ][numbers.below(3)];
        let mut table = open(&pools(texts), 300, 29, 1000).unwrap();
        // Newly made less returned less struck as ended, from open.
        let mut ledger: u64 = 0;
        let mut now = 1000;
        for _ in 0..300 {
            now += [0, 0, 1, 10, 60][numbers.below(5)];
            let before = table.clone();
            let mut buffer = [0x5a; 257];
            let kind = numbers.below(5);
            let prefixes = some_prefixes(&mut numbers, &table);
            // Mostly the station whose line is named first.
            let owner = table
                .used_leases()
                .iter()
                .find(|lease| lease.prefix == prefixes[0]);
            let client = match owner {
                Some(owner) if !numbers.once_in(4) => owner.client,
                _ => numbers.below(6) as u32,
            };
            let answer: Result<Answer, Refusal> = match kind {
                0 => {
                    let asks: Vec<u8> = (0..numbers.between(1, 25))
                        .map(|_| numbers.between(18, 30) as u8)
                        .collect();
                    ask_into(&mut table, client, now, &asking(&asks), &mut buffer)
                }
                1 => take_into(&mut table, client, now, &entries(&prefixes), &mut buffer),
                2 => release(&mut table, client, now, &entries(&prefixes)),
                3 => mark(&mut table, now, prefixes[0], numbers.once_in(2)),
                _ => calls::list(&table, client, now, &option(&[request_i()]), &mut buffer),
            };
            assert!(table.sound());
            let bytes = answer.map_or(0, |answer| answer.bytes);
            assert!(buffer[bytes..].iter().all(|byte| *byte == 0x5a));
            let Ok(answer) = answer else {
                assert_eq!(table, before);
                continue;
            };
            accepted[kind] += 1;
            if kind == 4 {
                assert_eq!(table, before);
                continue;
            }
            assert_eq!(table.last_time, now);
            let ended = before
                .used_leases()
                .iter()
                .filter(|lease| lease.expires <= now);
            ledger -= addresses(ended);
            // M-101: "The conservation count speaks of lines newly made."
            if kind == 0 {
                let entries = entries_of(&buffer[..bytes]);
                let again = |at: &Prefix| {
                    let present = before.used_leases().iter();
                    let mut present = present.filter(|lease| lease.expires > now);
                    present.any(|lease| lease.prefix == *at)
                };
                re_given += entries.iter().filter(|at| again(at)).count();
                let made = entries.into_iter().filter(|at| !again(at));
                ledger += made.map(Prefix::size).sum::<u64>();
            }
            if kind == 2 {
                let present = before
                    .used_leases()
                    .iter()
                    .filter(|lease| lease.expires > now);
                let struck: Vec<&Lease> = present
                    .filter(|lease| lease.client == client && prefixes.contains(&lease.prefix))
                    .collect();
                assert_eq!(answer.count, struck.len());
                ledger -= addresses(struck.into_iter());
            }
            assert_eq!(addresses(table.used_leases().iter()), ledger);
            if numbers.once_in(20) {
                let bytes = image(&table);
                let mut loaded = Table::zero();
                load(&mut loaded, &bytes).unwrap();
                assert_eq!(loaded, table);
            }
        }
    }
    assert!(accepted.iter().all(|count| *count > 200), "{accepted:?}");
    assert!(re_given > 500, "{re_given}");
}

#[test]
fn a_list_depends_only_on_what_document_01_names() {
    let mut numbers = Numbers::new(10);
    for _ in 0..300 {
        let mut leases = row_of_leases(numbers.between(1, 120) as u32, 5000);
        for lease in &mut leases {
            lease.client = numbers.between(7, 8) as u32;
            lease.state = if numbers.once_in(5) {
                State::Offered
            } else {
                State::Leased
            };
            lease.expires = 1001 + numbers.below(40) as u32;
            lease.h = numbers.once_in(2);
            lease.d = numbers.once_in(2);
        }
        let table = table_with(&["10.0.0.0/16"], 1000, &leases);
        // The same station's lines on other ground, under another head.
        let own: Vec<Lease> = leases
            .iter()
            .copied()
            .filter(|lease| lease.client == 7)
            .collect();
        let mut other = table_with(&["10.0.0.0/8", "99.0.0.0/24"], 1000, &own);
        (other.term, other.default_length) = (60, 1);
        let now = 1000 + numbers.below(45) as u32;
        let mut pieces = vec![request_i()];
        if numbers.once_in(2) {
            let position = leases[numbers.below(leases.len())].prefix;
            pieces.push(information(numbers.once_in(2), true, &[position]));
        }
        let bytes = option(&pieces);
        assert_eq!(list(&table, 7, now, &bytes), list(&other, 7, now, &bytes));
    }
}

#[test]
fn pages_of_a_list_give_every_line_once() {
    let mut leases = row_of_leases(1_024, 5000);
    for (index, lease) in leases.iter_mut().enumerate() {
        lease.client = 7 + (index % 3 == 0) as u32;
    }
    let table = table_with(&["10.0.0.0/16"], 1000, &leases);
    let mut seen = Vec::new();
    let mut bytes = option(&[request_i()]);
    loop {
        let (_, reply) = list(&table, 7, 1000, &bytes).unwrap();
        let Suboption::Information(page) = &read220(&reply).unwrap()[0] else {
            panic!()
        };
        seen.extend(page.entries.iter().map(|entry| entry.network));
        if !page.s {
            break;
        }
        bytes = reply;
        bytes[1] += 4;
        bytes.extend([1, 2, 2, 0]);
    }
    let own: Vec<u32> = leases
        .iter()
        .filter(|lease| lease.client == 7)
        .map(|lease| lease.prefix.network)
        .collect();
    assert_eq!(seen, own);
}
