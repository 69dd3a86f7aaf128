//! M-106: a segment by option 118.

use reference::calls::{self, Answer, REPLY, SELECTED_REPLY};
use reference::figures::{rows_of, untold_sheet, Row, UNTOLD};
use reference::prefix::{prefix, Prefix};
use reference::refusal::Refusal;
use reference::samples::{named, selecting, telling};
use reference::table::{Lease, State, Table, LATEST, LEASES};

use crate::common::*;

const NOW: u32 = 1000;

/// Three pools, the first two neighbours.
fn book() -> Table {
    let three = pools(&["10.0.0.0/25", "10.0.0.128/25", "10.0.8.0/24"]);
    open(&three, 3600, 28, NOW).unwrap()
}

fn address(text: &str) -> Vec<u8> {
    selecting(p(&format!("{text}/32")).network)
}

fn held(at: &str, client: u32) -> Lease {
    lease(p(at), client, State::Offered, NOW + 120)
}

fn leased(at: &str, client: u32) -> Lease {
    lease(p(at), client, State::Leased, NOW + 3600)
}

fn with(mut table: Table, leases: &[Lease]) -> Table {
    table.set_leases(leases.to_vec());
    table.counted()
}

type Called = Result<(usize, Vec<u8>), Refusal>;
type Call =
    fn(&mut Table, &mut [u8], u32, u32, &[u8], Option<&[u8]>, &mut [u8]) -> Result<Answer, Refusal>;

/// A call with a buffer of this size and an untold sheet. A refusal leaves all three, and the
/// buffer after the bytes written keeps its content.
fn call_into(
    call: Call,
    size: usize,
    table: &mut Table,
    client: u32,
    option: &[u8],
    selection: Option<&[u8]>,
) -> Called {
    let (before, mut sheet) = (table.clone(), untold_sheet(table));
    let mut buffer = vec![0xa5; size];
    let answer = call(
        table,
        &mut sheet,
        client,
        NOW,
        option,
        selection,
        &mut buffer,
    );
    let bytes = answer.map_or(0, |answer| answer.bytes);
    assert!(buffer[bytes..].iter().all(|byte| *byte == 0xa5));
    if answer.is_err() {
        assert_eq!(*table, before);
        assert_eq!(sheet, untold_sheet(&before));
    } else {
        assert!(table.sound());
    }
    answer.map(|answer| (answer.count, buffer[..bytes].to_vec()))
}

fn ask118(table: &mut Table, client: u32, lengths: &[u8], selection: &[u8]) -> Called {
    let option = asking(lengths);
    let size = SELECTED_REPLY;
    call_into(calls::ask, size, table, client, &option, Some(selection))
}

fn take118(table: &mut Table, client: u32, at: &[Prefix], selection: &[u8]) -> Called {
    let option = entries(at);
    let size = SELECTED_REPLY;
    call_into(calls::take, size, table, client, &option, Some(selection))
}

/// An information for each of these, as an ask's reply has them, then the option 118.
fn granted(at: &[&str], selection: &[u8]) -> Called {
    let list: Vec<_> = at
        .iter()
        .map(|at| information(false, false, &[p(at)]))
        .collect();
    let mut bytes = option(&list);
    bytes.extend(selection);
    Ok((at.len(), bytes))
}

#[test]
fn the_root_that_contains_the_address() {
    // Both ends of each pool, and one past them.
    for (at, pool) in [
        ("9.255.255.255", None),
        ("10.0.0.0", Some("10.0.0.0/28")),
        ("10.0.0.1", Some("10.0.0.0/28")),
        ("10.0.0.127", Some("10.0.0.0/28")),
        ("10.0.0.128", Some("10.0.0.128/28")),
        ("10.0.0.255", Some("10.0.0.128/28")),
        ("10.0.1.0", None),
        ("10.0.7.255", None),
        ("10.0.8.0", Some("10.0.8.0/28")),
        ("10.0.8.255", Some("10.0.8.0/28")),
        ("10.0.9.0", None),
        ("255.255.255.255", None),
        // An unused place of a pool is 0.0.0.0/0, and contains nothing.
        ("0.0.0.0", None),
        ("0.0.0.1", None),
    ] {
        let selection = address(at);
        let answer = ask118(&mut book(), 7, &[28], &selection);
        match pool {
            Some(pool) => assert_eq!(answer, granted(&[pool], &selection), "{at}"),
            None => assert_eq!(answer, Err(no(19, 0)), "{at}"),
        }
        let one = [
            leased("10.0.0.0/28", 7),
            leased("10.0.0.128/28", 7),
            leased("10.0.8.0/28", 7),
        ];
        let all: Vec<Prefix> = one.iter().map(|lease| lease.prefix).collect();
        let answer = take118(&mut with(book(), &one), 7, &all, &selection);
        match pool {
            Some(pool) => assert_eq!(answer, granted(&[pool], &selection), "{at}"),
            None => assert_eq!(answer, Err(no(19, 0)), "{at}"),
        }
    }
    // All eight places used, both ends of the address space among them.
    let eight: Vec<Prefix> = (0..8).map(|index| prefix(index << 29, 8)).collect();
    let mut ends = eight.clone();
    ends[7] = p("255.255.255.252/30");
    for pools in [eight, ends] {
        let table = open(&pools, 3600, 30, NOW).unwrap();
        for pool in pools {
            let last = (pool.end() - 1) as u32;
            for inside in [pool.network, last] {
                let answer = ask118(&mut table.clone(), 7, &[0], &selecting(inside)).unwrap();
                assert_eq!(answer.1[6..11], entry_bytes(prefix(pool.network, 30)));
            }
            for outside in [pool.network.checked_sub(1), last.checked_add(1)] {
                let Some(outside) = outside else { continue };
                let answer = ask118(&mut table.clone(), 7, &[0], &selecting(outside));
                assert_eq!(answer, Err(no(19, 0)));
            }
        }
    }
}

fn entry_bytes(at: Prefix) -> [u8; 5] {
    let [a, b, c, d] = at.network.to_be_bytes();
    [a, b, c, d, at.length]
}

#[test]
fn not_carried_is_as_without_the_feature() {
    // 257 bytes are enough, all pools are used, nothing follows option 220.
    let mut table = book();
    let option = asking(&[25, 25, 25]);
    let answer = call_into(calls::ask, REPLY, &mut table, 7, &option, None);
    assert_eq!(
        answer,
        granted(&["10.0.0.0/25", "10.0.0.128/25", "10.0.8.0/25"], &[])
    );
}

#[test]
fn malformed_options() {
    let good = address("10.0.8.0");
    let mut bad: Vec<Vec<u8>> = vec![
        vec![],
        hex("76"),
        hex("76 00"),
        hex("76 03 0A 00 08"),
        hex("76 03 0A 00 08 00"),
        hex("76 05 0A 00 08 00"),
        hex("76 05 0A 00 08 00 00"),
        hex("77 04 0A 00 08 00"),
        hex("DC 04 0A 00 08 00"),
        hex("00 04 0A 00 08 00"),
        hex("76 04 0A 00 08 00 00"),
        [&good[..], &good].concat(),
        vec![0x76; 300],
    ];
    bad.extend((1..6).map(|cut| good[..cut].to_vec()));
    let table = with(book(), &[leased("10.0.8.0/28", 7)]);
    for bad in bad {
        let mut after = table.clone();
        assert_eq!(ask118(&mut after, 7, &[28], &bad), Err(no(6, 0)));
        let at = [p("10.0.8.0/28")];
        assert_eq!(take118(&mut after, 7, &at, &bad), Err(no(6, 0)));
        // Row 1 is first, and reads 263 also here.
        for size in [0, 256, 257, 262] {
            let asked = call_into(calls::ask, size, &mut after, 7, &asking(&[28]), Some(&bad));
            assert_eq!(asked, Err(no(1, 0)));
        }
    }
}

#[test]
fn buffers() {
    let good = address("10.0.8.0");
    let at = entries(&[p("10.0.8.0/28")]);
    for size in [0, 1, 255, 256, 257, 258, 261, 262, 263, 264, 1024] {
        let table = with(book(), &[leased("10.0.8.0/28", 7)]);
        for selection in [None, Some(&good[..])] {
            let least = if selection.is_some() { 263 } else { 257 };
            for (call, option) in [
                (calls::ask as Call, &asking(&[30])),
                (calls::take as Call, &at),
            ] {
                let answer = call_into(call, size, &mut table.clone(), 7, option, selection);
                if size < least {
                    assert_eq!(answer, Err(no(1, 0)));
                } else {
                    assert_eq!(answer.unwrap().0, 1);
                }
            }
        }
        // A list never carries it.
        let mut buffer = vec![0; size];
        let listed = calls::list(&table, 7, NOW, &option(&[request_i()]), &mut buffer);
        assert_eq!(listed.is_ok(), size >= 257);
    }
    // The longest replies: 25 granted, 35 taken.
    let mut table = open(&pools(&["10.0.0.0/24", "10.0.8.0/22"]), 3600, 28, NOW).unwrap();
    let (count, bytes) = ask118(&mut table, 7, &[30; 25], &good).unwrap();
    assert_eq!((count, bytes.len(), bytes[1]), (25, 259, 251));
    assert_eq!(bytes[253..], good);
    ask118(&mut table, 7, &[29; 10], &good).unwrap();
    let all: Vec<Prefix> = table
        .used_leases()
        .iter()
        .map(|lease| lease.prefix)
        .collect();
    let (count, bytes) = take118(&mut table, 7, &all, &good).unwrap();
    assert_eq!((count, bytes.len()), (35, 257));
    assert_eq!(bytes[251..], good);
}

#[test]
fn every_block_of_the_ask_lies_there() {
    // 10.0.0.0/25 is the better fit for each, and has no say.
    let mut table = with(book(), &[leased("10.0.0.0/26", 9)]);
    let selection = address("10.0.8.77");
    assert_eq!(
        ask118(&mut table, 7, &[26, 27, 25], &selection),
        granted(
            &["10.0.8.0/26", "10.0.8.64/27", "10.0.8.128/25"],
            &selection
        )
    );
    // 10 is about that pool's ground, the others are free.
    let before = table.clone();
    assert_eq!(ask118(&mut table, 8, &[26], &selection), Err(no(10, 0)));
    assert_eq!(table, before);
    // Partly granted; the first refusal if none is.
    assert_eq!(
        ask118(&mut table, 8, &[24, 27, 27], &selection),
        granted(&["10.0.8.96/27"], &selection)
    );
    // The leases before and after the pool are no obstacle.
    let mut table = with(
        book(),
        &[leased("10.0.0.0/25", 9), leased("10.0.8.0/24", 9)],
    );
    let selection = address("10.0.0.200");
    assert_eq!(
        ask118(&mut table, 7, &[25], &selection),
        granted(&["10.0.0.128/25"], &selection)
    );
}

#[test]
fn nine_is_about_the_whole_table() {
    // 1,024 leases in another pool.
    let mut table = table_with(
        &["10.0.0.0/16", "10.8.0.0/24"],
        NOW,
        &row_of_leases(1_024, 5000),
    );
    let selection = address("10.8.0.1");
    assert_eq!(ask118(&mut table, 8, &[30], &selection), Err(no(9, 0)));
    // 9 before 10, 19 before 9.
    assert_eq!(ask118(&mut table, 8, &[8], &selection), Err(no(9, 0)));
    let nowhere = address("10.9.0.0");
    assert_eq!(ask118(&mut table, 8, &[30], &nowhere), Err(no(19, 0)));
    // One is left: it is for the named pool's ground.
    let mut table = table_with(
        &["10.0.0.0/16", "10.8.0.0/24"],
        NOW,
        &row_of_leases(1_023, 5000),
    );
    assert_eq!(
        ask118(&mut table, 8, &[30, 30], &selection),
        granted(&["10.8.0.0/30"], &selection)
    );
    assert_eq!(table.used_leases().len(), LEASES);
    // Re-given lines of the named pool need none; those of another pool are not re-given.
    assert_eq!(
        ask118(&mut table, 8, &[30], &selection),
        granted(&["10.8.0.0/30"], &selection)
    );
    let other = address("10.0.0.0");
    assert_eq!(ask118(&mut table, 8, &[30], &other), Err(no(9, 0)));
}

#[test]
fn held_lines_of_another_root_are_not_re_given() {
    let mut marked = named(held("10.0.0.0/28", 7), b"west");
    marked.d = true;
    let start = with(book(), &[marked, held("10.0.8.16/28", 7)]);
    // In the second pool none is held: new ground, and the held line stays as it is.
    let selection = address("10.0.0.130");
    let mut table = start.clone();
    assert_eq!(
        ask118(&mut table, 7, &[28], &selection),
        granted(&["10.0.0.128/28"], &selection)
    );
    assert_eq!(table.used_leases()[0], marked);
    // In the third the higher one is held there, so the lower does not go first.
    let selection = address("10.0.8.255");
    let mut table = start.clone();
    assert_eq!(
        ask118(&mut table, 7, &[28, 28, 0], &selection),
        granted(&["10.0.8.16/28", "10.0.8.0/28", "10.0.8.32/28"], &selection)
    );
    assert_eq!(table.used_leases()[0], marked);
    // In the first it is re-given, with its d, its name kept.
    let selection = address("10.0.0.127");
    let mut table = start.clone();
    let (count, bytes) = ask118(&mut table, 7, &[28], &selection).unwrap();
    assert_eq!((count, bytes[11]), (1, 1));
    assert_eq!(table, start);
    // Without the option both are, lowest first.
    let mut table = start.clone();
    let (_, bytes) = ask(&mut table, 7, NOW, &asking(&[28, 28])).unwrap();
    assert_eq!(bytes[6..11], entry_bytes(p("10.0.0.0/28")));
    assert_eq!(bytes[16..21], entry_bytes(p("10.0.8.16/28")));
}

#[test]
fn takes_with_entries_in_and_outside() {
    let all = ["10.0.0.0/28", "10.0.0.128/28", "10.0.8.0/28"];
    let start = with(book(), &all.map(|at| held(at, 7)));
    let selection = address("10.0.0.128");
    // Only the one inside is found; the others keep their ends.
    let mut table = start.clone();
    let named = all.map(p);
    assert_eq!(
        take118(&mut table, 7, &named, &selection),
        granted(&["10.0.0.128/28"], &selection)
    );
    let states: Vec<State> = table
        .used_leases()
        .iter()
        .map(|lease| lease.state)
        .collect();
    assert_eq!(states, [State::Offered, State::Leased, State::Offered]);
    // None inside: 11. Ended lines go only with an accepted take.
    let outside = [named[0], named[2]];
    let mut table = start.clone();
    assert_eq!(take118(&mut table, 7, &outside, &selection), Err(no(11, 0)));
    // An entry that reaches over the pool's ends, or equals no line, is not found either.
    for other in ["10.0.0.0/24", "10.0.0.128/27", "10.0.0.144/28", "0.0.0.0/1"] {
        let answer = take118(&mut table, 7, &[p(other)], &selection);
        assert_eq!(answer, Err(no(11, 0)));
    }
    // Another client's.
    assert_eq!(take118(&mut table, 8, &named, &selection), Err(no(11, 0)));
    assert_eq!(take(&mut table, 7, NOW, &entries(&named)).unwrap().0, 3);
}

#[test]
fn figures_of_an_entry_outside_are_not_filed() {
    let all = ["10.0.0.0/28", "10.0.0.128/28", "10.0.8.0/28"];
    let mut table = with(book(), &all.map(|at| leased(at, 7)));
    let mut sheet = untold_sheet(&table);
    let told: Vec<(Prefix, &[u16])> = all.map(|at| (p(at), &[9, 8, 7][..])).to_vec();
    let selection = address("10.0.0.255");
    let answer = calls::take(
        &mut table,
        &mut sheet,
        7,
        NOW,
        &telling(&told),
        Some(&selection),
        &mut [0; SELECTED_REPLY],
    );
    assert_eq!(
        answer,
        Ok(Answer {
            bytes: 19,
            count: 1
        })
    );
    let rows = rows_of(&sheet).unwrap();
    for (row, at) in rows.iter().zip(all) {
        let figure = |told| if at == all[1] { told } else { UNTOLD };
        let expected = Row {
            prefix: p(at),
            high_water: figure(9),
            in_use: figure(8),
            unusable: figure(7),
        };
        assert_eq!(*row, expected);
    }
}

/// All rows that ask and take can answer with, in the order that they now have.
const ROWS: [u8; 16] = [1, 5, 15, 2, 3, 4, 6, 7, 16, 8, 17, 19, 9, 10, 11, 12];

#[test]
fn rows_in_every_combination() {
    let mut met = [0; 20];
    let nowhere = address("10.0.9.0");
    let selections = [
        (None, 0),
        (Some(address("10.0.8.0")), 0),
        (Some(hex("76 03 0A 00 08")), 6),
        (Some(nowhere), 19),
    ];
    for bits in 0..8 {
        let [unsound, wrong_sheet, no_client] = [4, 2, 1].map(|bit| bits & bit != 0);
        for (size, time) in [256, 257, 262, 263]
            .into_iter()
            .flat_map(|size| [0, 3, 4].map(|time| (size, time)))
        {
            for (selection, row118) in &selections {
                let least = if selection.is_some() { 263 } else { 257 };
                for row220 in [0, 6, 7, 16, 8, 17] {
                    for outcome in [0, 9, 10, 11] {
                        let is_take = outcome == 11;
                        if is_take && row220 == 17 {
                            continue;
                        }
                        let mut rows = vec![time, *row118, row220, outcome];
                        rows.extend([
                            if size < least { 1 } else { 0 },
                            if unsound { 5 } else { 0 },
                            if wrong_sheet { 15 } else { 0 },
                            if no_client { 2 } else { 0 },
                        ]);
                        let first = ROWS.into_iter().find(|row| rows.contains(row));
                        let mut pools = vec!["10.0.0.0/21", "10.0.8.0/24"];
                        let leases = match outcome {
                            9 => row_of_leases(1_024, u32::MAX),
                            10 => vec![lease(p("10.0.0.0/21"), 9, State::Leased, u32::MAX)],
                            _ => vec![],
                        };
                        let mut leases = leases;
                        if outcome == 9 {
                            pools.push("10.16.0.0/20");
                            for lease in &mut leases {
                                lease.prefix.network += 16 << 16;
                            }
                        }
                        if outcome == 10 {
                            leases.push(lease(p("10.0.8.0/24"), 9, State::Leased, u32::MAX));
                        }
                        let mut table = table_with(&pools, NOW, &leases);
                        if unsound {
                            table.term = 59;
                        }
                        let before = table.clone();
                        let mut sheet = untold_sheet(&table);
                        if wrong_sheet {
                            sheet[4] ^= 1;
                        }
                        let (mut bytes, piece) = if is_take {
                            (entries(&[p("10.0.8.0/28")]), "01 02 00 18")
                        } else {
                            (asking(&[30]), "01 02 02 00")
                        };
                        bytes.extend(match row220 {
                            6 => vec![9, 9],
                            7 => [hex(piece), hex("01 03 00 1f 00")].concat(),
                            16 => [hex(piece), hex("01 02 00 1f")].concat(),
                            8 => [hex(piece), vec![3, 25], vec![0x61; 25]].concat(),
                            17 => [vec![3, 25], vec![0x61; 25]].concat(),
                            _ => vec![],
                        });
                        if row220 != 6 {
                            bytes[1] = (bytes.len() - 2) as u8;
                        }
                        let now = [NOW, NOW - 1, LATEST + 1][usize::from(time.max(2) - 2)];
                        let call = if is_take {
                            calls::take as Call
                        } else {
                            calls::ask
                        };
                        let mut buffer = vec![0x5a; size];
                        let kept = sheet.clone();
                        let answer = call(
                            &mut table,
                            &mut sheet,
                            if no_client { 0 } else { 7 },
                            now,
                            &bytes,
                            selection.as_deref(),
                            &mut buffer,
                        );
                        let number = answer.map_or_else(|refusal| refusal.number, |_| 0);
                        assert_eq!(number, first.unwrap_or(0));
                        if let Err(refusal) = answer {
                            assert_eq!(refusal.place != 0, number == 7 || number == 16);
                            assert_eq!(table, before);
                            assert_eq!(sheet, kept);
                            assert!(buffer.iter().all(|byte| *byte == 0x5a));
                        }
                        met[usize::from(number)] += 1;
                    }
                }
            }
        }
    }
    for number in [0, 1, 2, 3, 4, 5, 6, 7, 8, 9, 10, 11, 15, 16, 17, 19] {
        assert!(met[number] > 0, "{number}");
    }
}

/// What a call with the option does is what it would do without on a table of that pool alone,
/// beside the leases of the others.
#[test]
fn as_on_a_table_of_that_root_alone() {
    let mut numbers = Numbers::new(118);
    let (mut granted, mut refused, mut left_out) = (0, 0, 0);
    for _ in 0..400 {
        let count = numbers.between(1, 8) as u32;
        let pools: Vec<Prefix> = (0..count)
            .map(|index| prefix(0x0a00_0000 + (index << 8), numbers.between(24, 27) as u8))
            .collect();
        let mut table = open(&pools, 3600, 28, NOW).unwrap();
        for client in 1..numbers.between(2, 30) as u32 {
            let lengths: Vec<u8> = (0..numbers.between(1, 4))
                .map(|_| numbers.between(25, 30) as u8)
                .collect();
            let _ = ask(&mut table, 1 + client % 5, NOW, &asking(&lengths));
        }
        let pool = pools[numbers.below(pools.len())];
        let last = pool.size() as usize - 1;
        let at = pool.network + numbers.between(0, last) as u32;
        let selection = selecting(at);
        let client = numbers.between(1, 6) as u32;
        let leases = table.used_leases().to_vec();
        let (inside, outside): (Vec<Lease>, Vec<Lease>) =
            leases.iter().partition(|lease| pool.contains(lease.prefix));
        let mut alone = open(&[pool], 3600, 28, NOW).unwrap();
        alone.set_leases(inside);
        let mut alone = alone.counted();
        let is_take = numbers.once_in(2) && !leases.is_empty();
        let option = if is_take {
            let named: Vec<Prefix> = (0..numbers.between(1, 12))
                .map(|_| leases[numbers.below(leases.len())].prefix)
                .collect();
            left_out += usize::from(named.iter().any(|at| !pool.contains(*at)));
            entries(&named)
        } else {
            let lengths: Vec<u8> = (0..numbers.between(1, 25))
                .map(|_| numbers.between(25, 30) as u8)
                .collect();
            asking(&lengths)
        };
        let call = if is_take {
            calls::take as Call
        } else {
            calls::ask
        };
        let expected = call_into(call, REPLY, &mut alone, client, &option, None);
        let expected = expected.map(|(count, bytes)| (count, [bytes, selection.clone()].concat()));
        let size = SELECTED_REPLY;
        let answer = call_into(call, size, &mut table, client, &option, Some(&selection));
        assert_eq!(answer, expected);
        granted += usize::from(answer.is_ok());
        refused += usize::from(answer.is_err());
        let mut all = outside;
        all.extend(alone.used_leases());
        let mut joined = table.clone();
        joined.set_leases(all);
        assert_eq!(table, joined);
    }
    assert!(granted > 50 && refused > 20 && left_out > 50);
}

/// Demand 3's first sentence: refused for want of ground exactly if no free aligned block of the
/// length lies in the named root. The blocks are tried one by one.
#[test]
fn want_of_ground_is_want_of_ground_in_the_named_root() {
    let mut numbers = Numbers::new(3011);
    let (mut granted, mut refused, mut elsewhere) = (0, 0, 0);
    for _ in 0..150 {
        let three = pools(&["10.0.0.0/26", "10.0.0.64/27", "10.0.1.0/25"]);
        let mut table = open(&three, 3600, 28, NOW).unwrap();
        for client in 1..numbers.between(2, 20) as u32 {
            let length = numbers.between(25, 30) as u8;
            let _ = ask(&mut table, 100 + client, NOW, &asking(&[length]));
        }
        for client in 1..numbers.between(1, 8) as u32 {
            let leases = table.used_leases().iter();
            let own = leases.filter(|lease| lease.client == 100 + client);
            let own: Vec<Prefix> = own.map(|lease| lease.prefix).collect();
            if !own.is_empty() {
                release(&mut table, 100 + client, NOW, &entries(&own)).unwrap();
            }
        }
        let free = |pool: Prefix, length: u8| {
            let leases = table.used_leases();
            let size = prefix(0, length).size();
            let mut networks = (u64::from(pool.network)..pool.end()).step_by(size as usize);
            networks.any(|network| {
                let block = prefix(network as u32, length);
                let shares = |lease: &Lease| lease.prefix.shares_address_with(block);
                block.aligned() && pool.contains(block) && !leases.iter().any(shares)
            })
        };
        for pool in &three {
            for length in 24..=30 {
                let selection = selecting(pool.network + 3);
                let answer = ask118(&mut table.clone(), 7, &[length], &selection);
                if free(*pool, length) {
                    let (count, bytes) = answer.unwrap();
                    let network = u32::from_be_bytes(bytes[6..10].try_into().unwrap());
                    assert!(count == 1 && pool.contains(prefix(network, length)));
                    granted += 1;
                } else {
                    assert_eq!(answer, Err(no(10, 0)));
                    refused += 1;
                    elsewhere += usize::from(three.iter().any(|pool| free(*pool, length)));
                }
            }
        }
    }
    assert!(granted > 500 && refused > 500 && elsewhere > 100);
}

/// The rest of demand 3, "for lists that all name the same root, over that root's ground": what
/// can be packed into it is granted, in any order and message by message.
#[test]
fn what_can_be_packed_into_the_named_root_is_granted() {
    let mut numbers = Numbers::new(3012);
    for _ in 0..200 {
        let three = pools(&["10.0.0.0/25", "10.0.0.128/25", "10.0.1.0/24"]);
        let pool = three[numbers.below(3)];
        // The root cut into blocks, some of them already leased, some left out.
        let mut blocks = vec![pool];
        for _ in 0..numbers.between(1, 30) {
            let at = numbers.below(blocks.len());
            if blocks[at].length < 30 {
                let block = blocks.swap_remove(at);
                blocks.extend(block.halves());
            }
        }
        numbers.shuffle(&mut blocks);
        let taken = numbers.below(blocks.len());
        let mut leases: Vec<Lease> = blocks[..taken]
            .iter()
            .map(|at| lease(*at, 9, State::Leased, NOW + 3600))
            .collect();
        // The other roots full, empty, or in part.
        for other in three.iter().filter(|other| **other != pool) {
            match numbers.below(3) {
                0 => leases.push(lease(*other, 9, State::Leased, NOW + 3600)),
                1 => leases.push(lease(other.halves()[0], 9, State::Leased, NOW + 3600)),
                _ => {}
            }
        }
        let mut table = with(open(&three, 3600, 28, NOW).unwrap(), &leases);
        let mut lengths: Vec<u8> = blocks[taken..].iter().map(|at| at.length).collect();
        numbers.shuffle(&mut lengths);
        let mut client = 20;
        while !lengths.is_empty() {
            let some: Vec<u8> = lengths
                .drain(..numbers.between(1, lengths.len().min(25)))
                .collect();
            let address = pool.network + numbers.below(pool.size() as usize) as u32;
            let (count, _) = ask118(&mut table, client, &some, &selecting(address)).unwrap();
            assert_eq!(count, some.len());
            client += 1;
        }
        assert!(table.whole_free_in(&[pool], NOW).is_empty());
    }
}
