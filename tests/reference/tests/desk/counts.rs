//! M-102, how much is left: each sentence of the request, and how it is read.

use reference::calls;
use reference::counts::{bytes_of, column, of_bytes, whole, Counts, BYTES, LENGTHS};
use reference::figures::untold_sheet;
use reference::image::{save, Desk, Form};
use reference::prefix::{prefix, Prefix};
use reference::samples::full_table;
use reference::sheet::sheet;
use reference::table::{Lease, State, Table, POOLS};

use crate::common::*;

fn leased(at: &str, client: u32, expires: u32) -> Lease {
    lease(p(at), client, State::Leased, expires)
}

fn held(at: &str, client: u32, expires: u32) -> Lease {
    lease(p(at), client, State::Offered, expires)
}

/// Every count that is not 0, as place of the root, length, count.
fn some(table: &Table) -> Vec<(usize, u32, u16)> {
    let mut some = Vec::new();
    for (place, row) in table.counts.iter().enumerate() {
        let columns = (8..).zip(row).filter(|(_, count)| **count != 0);
        some.extend(columns.map(|(length, count)| (place, length, *count)));
    }
    some
}

/// Whole free blocks of a length in a root, each block tried: "A block is free if it lies
/// inside a root and shares no address with a present line. A free block is whole if it is a
/// root or the block twice its size around it isn't free."
fn tried(root: Prefix, leases: &[Lease], length: u8) -> u16 {
    let free = |at: Prefix| {
        let inside = root.network <= at.network && at.end() <= root.end();
        let apart = |lease: &Lease| {
            let (from, to) = (u64::from(lease.prefix.network), lease.prefix.end());
            to <= u64::from(at.network) || at.end() <= from
        };
        inside && leases.iter().all(apart)
    };
    let around = |at: Prefix| {
        let size = 1u64 << (33 - at.length);
        prefix((u64::from(at.network) / size * size) as u32, at.length - 1)
    };
    if length < root.length {
        return 0;
    }
    let blocks = 0..1u32 << (length - root.length);
    let block = |index| prefix(root.network + (index << (32 - length)), length);
    let is_whole = |at: &Prefix| free(*at) && (*at == root || !free(around(*at)));
    blocks.map(block).filter(is_whole).count() as u16
}

/// All counts of a table whose blocks are few: up to `longest`, which no lease is beyond.
fn all_tried(table: &Table, longest: u8) -> Counts {
    let mut counts = [[0; LENGTHS]; POOLS];
    for (row, root) in counts.iter_mut().zip(table.used_pools()) {
        for length in 8..=longest {
            row[usize::from(length) - 8] = tried(*root, table.used_leases(), length);
        }
    }
    counts
}

/// The number that each call answers with that takes the book, which must leave it alone
/// where it is refused.
fn every_call(table: &Table, now: u32, at: Prefix) -> [u8; 8] {
    let mut buffer = [0x5a; 45_141];
    let ask = ask(&mut table.clone(), 77, now, &asking(&[30]));
    let take = take(&mut table.clone(), 7, now, &entries(&[at]));
    let list = list(table, 7, now, &option(&[request_i()]));
    let release = release(&mut table.clone(), 7, now, &entries(&[at]));
    let mark = mark(&mut table.clone(), now, at, true);
    let saved = save(table, Form::Second, Desk::Own, &mut buffer);
    if saved.is_err() {
        assert_eq!(buffer, [0x5a; 45_141]);
    }
    [
        ask.map(|_| ()),
        take.map(|_| ()),
        list.map(|_| ()),
        release.map(|_| ()),
        mark.map(|_| ()),
        saved.map(|_| ()),
        sheet(table).map(|_| ()),
        whole(table, 26).map(|_| ()),
    ]
    .map(|answer| answer.map_or_else(|refusal| refusal.number, |_| 0))
}

const NO_CALL: [u8; 8] = [0; 8];
const ALL_5: [u8; 8] = [5; 8];

/// Eight roots, or fewer, each with a lease of client 7 and whole blocks of its own lengths.
fn roots(count: u32) -> Table {
    let pools: Vec<String> = (0..count)
        .map(|index| format!("10.{index}.0.0/{}", 16 + index))
        .collect();
    let pools: Vec<&str> = pools.iter().map(String::as_str).collect();
    let leases: Vec<Lease> = (0..count)
        .map(|index| leased(&format!("10.{index}.0.0/{}", 20 + index), 7, 5000))
        .collect();
    table_with(&pools, 1000, &leases)
}

#[test]
fn one_row_for_each_root_and_one_count_for_each_length() {
    let table = open(&pools(&["10.0.8.0/26", "10.0.0.0/24"]), 3600, 28, 1000).unwrap();
    assert_eq!(some(&table), [(0, 24, 1), (1, 26, 1)]);
    let mut table = table;
    assert!(ask(&mut table, 7, 1000, &asking(&[27])).is_ok());
    assert_eq!(some(&table), [(0, 24, 1), (1, 27, 1)]);
    assert!(ask(&mut table, 7, 1000, &asking(&[30, 26])).is_ok());
    let left = [(0, 25, 1), (0, 26, 1), (1, 28, 1), (1, 29, 1), (1, 30, 1)];
    assert_eq!(some(&table), left);
    let sums = [25, 26, 27, 28].map(|length| whole(&table, length).unwrap());
    assert_eq!(sums, [1, 1, 0, 1]);
}

#[test]
fn roots_are_never_joined() {
    // Two neighbours of length 25 are two /25, and no /24.
    let table = table_with(&["10.0.0.0/25", "10.0.0.128/25"], 1000, &[]);
    assert_eq!(some(&table), [(0, 25, 1), (1, 25, 1)]);
    assert_eq!(whole(&table, 24), Ok(0));
    assert_eq!(whole(&table, 25), Ok(2));
}

#[test]
fn roots_of_length_8_and_of_length_30() {
    let table = table_with(&["0.0.0.0/8", "10.0.0.0/30", "255.0.0.0/8"], 1000, &[]);
    assert_eq!(some(&table), [(0, 8, 1), (1, 30, 1), (2, 8, 1)]);
    assert_eq!((whole(&table, 8), whole(&table, 30)), (Ok(2), Ok(1)));
    // The last /30 of a /8: one whole block of every length from 9 to 30.
    let leases = [
        leased("10.0.0.0/30", 7, 5000),
        leased("255.255.255.252/30", 7, 5000),
    ];
    let table = table_with(&["0.0.0.0/8", "10.0.0.0/30", "255.0.0.0/8"], 1000, &leases);
    let mut expected = vec![(0, 8, 1)];
    expected.extend((9..=30).map(|length| (2, length, 1)));
    assert_eq!(some(&table), expected);
    assert_eq!(whole(&table, 8), Ok(1));
    assert_eq!(whole(&table, 30), Ok(1));
    // A lease in the middle of a /8, length 9 and length 30.
    for (at, expected) in [
        ("10.0.0.0/9", vec![(0, 9, 1)]),
        ("10.128.0.0/9", vec![(0, 9, 1)]),
        ("10.128.0.0/30", (9..=30).map(|l| (0, l, 1)).collect()),
    ] {
        let table = table_with(&["10.0.0.0/8"], 1000, &[leased(at, 7, 5000)]);
        assert_eq!(some(&table), expected);
    }
}

#[test]
fn a_full_root_and_an_empty_root() {
    let full = [
        leased("10.0.1.0/25", 7, 5000),
        held("10.0.1.128/25", 8, 5000),
    ];
    let table = table_with(&["10.0.1.0/24", "10.0.4.0/24"], 1000, &full);
    assert_eq!(some(&table), [(1, 24, 1)]);
    let table = table_with(&["10.0.1.0/24"], 1000, &[leased("10.0.1.0/24", 7, 5000)]);
    assert_eq!(some(&table), []);
    assert_eq!(table.counts, [[0; LENGTHS]; POOLS]);
    let mut table = table;
    assert!(release(&mut table, 7, 1000, &entries(&[p("10.0.1.0/24")])).is_ok());
    assert_eq!(some(&table), [(0, 24, 1)]);
    // 1,024 leases in a root that they fill.
    let table = table_with(&["10.0.0.0/20"], 1000, &row_of_leases(1_024, 5000));
    assert_eq!(some(&table), []);
    // Every other /30: as many whole blocks as leases.
    let apart: Vec<Lease> = row_of_leases(1_024, 5000)
        .into_iter()
        .map(|lease| Lease {
            prefix: prefix(0x0a00_0000 + 2 * (lease.prefix.network - 0x0a00_0000), 30),
            ..lease
        })
        .collect();
    let table = table_with(&["10.0.0.0/19"], 1000, &apart);
    assert_eq!(some(&table), [(0, 30, 1_024)]);
    assert_eq!(whole(&table, 30), Ok(1_024));
}

#[test]
fn counts_are_those_of_a_count_that_tries_every_block() {
    let mut numbers = Numbers::new(102);
    for round in 0..400 {
        let longest = if round % 4 == 0 { 15 } else { 30 };
        let shortest = if round % 4 == 0 { 8 } else { 24 };
        let mut leases = Vec::new();
        let mut texts = Vec::new();
        for root in 0..numbers.between(1, 8) as u32 {
            let length = numbers.between(shortest, longest) as u8;
            let network = (10 + root) << 24;
            texts.push(prefix(network, length).to_string());
            let mut at = u64::from(network);
            // Some blocks one after another, each aligned, with ground between them.
            while numbers.below(8) != 0 {
                let size = numbers.between(length.into(), longest) as u8;
                let step = 1u64 << (32 - size);
                at = at.div_ceil(step) * step + step * numbers.below(3) as u64;
                let block = prefix(at as u32, size);
                if block.end() > prefix(network, length).end() {
                    break;
                }
                let state = [State::Leased, State::Offered][numbers.below(2)];
                leases.push(lease(block, 7, state, 5000));
                at = block.end();
            }
        }
        let texts: Vec<&str> = texts.iter().map(String::as_str).collect();
        let table = table_with(&texts, 1000, &leases);
        assert_eq!(table.counts, all_tried(&table, longest as u8), "{texts:?}");
        for length in 0..40 {
            let sum: u16 = table
                .counts
                .iter()
                .map(|row| column(length).map_or(0, |column| row[column]))
                .sum();
            assert_eq!(whole(&table, length), Ok(sum.into()));
        }
        let free = table.counts.iter().flatten();
        let rows = sheet(&table).unwrap();
        let first = format!(
            " free={}\n",
            free.map(|count| u32::from(*count)).sum::<u32>()
        );
        assert!(rows.contains(&first));
    }
}

#[test]
fn the_counts_of_a_full_book() {
    let table = full_table();
    let free = table.whole_free_prefixes(table.last_time);
    for length in 8..=30 {
        let expected = free
            .iter()
            .filter(|block| u32::from(block.length) == length);
        assert_eq!(whole(&table, length), Ok(expected.count()));
    }
}

#[test]
fn a_count_wrong_by_one_is_unsound_wherever_it_stands() {
    for count in [1, 3, 7, 8] {
        let good = roots(count);
        assert_eq!(every_call(&good, 1000, p("10.0.0.0/20")), NO_CALL);
        for place in 0..POOLS {
            for column in 0..LENGTHS {
                for wrong in [1, u16::MAX, 0x100] {
                    let mut table = good.clone();
                    let count = &mut table.counts[place][column];
                    *count = count.wrapping_add(wrong);
                    assert!(table.sound_but_counts() && !table.sound());
                    let numbers = every_call(&table, 1000, p("10.0.0.0/20"));
                    assert_eq!(numbers, ALL_5, "{place} {column} {wrong}");
                }
            }
        }
    }
}

#[test]
fn other_counts_that_differ() {
    let good = roots(5);
    let spoils: [fn(&mut Counts); 9] = [
        |counts| counts.swap(0, 1),
        |counts| counts.swap(3, 4),
        |counts| counts.swap(4, 5),
        |counts| counts.rotate_left(1),
        |counts| counts[7] = counts[0],
        |counts| counts[2].rotate_right(1),
        |counts| *counts = [[0; LENGTHS]; POOLS],
        |counts| *counts = [[u16::MAX; LENGTHS]; POOLS],
        // The same sum for every length, in another root's row.
        |counts| {
            let moved = counts[0];
            counts[0] = [0; LENGTHS];
            for (count, moved) in counts[1].iter_mut().zip(moved) {
                *count += moved;
            }
        },
    ];
    for (index, spoil) in spoils.iter().enumerate() {
        let mut table = good.clone();
        spoil(&mut table.counts);
        assert_eq!(every_call(&table, 1000, p("10.0.0.0/20")), ALL_5, "{index}");
    }
    // Rows of roots that have the same whole blocks are the same.
    let mut table = table_with(
        &["10.0.0.0/24", "10.0.1.0/24"],
        1000,
        &[
            leased("10.0.0.0/26", 7, 5000),
            leased("10.0.1.64/26", 7, 5000),
        ],
    );
    table.counts.swap(0, 1);
    assert_eq!(every_call(&table, 1000, p("10.0.0.0/26")), NO_CALL);
}

#[test]
fn counts_of_another_time_are_unsound() {
    // As if the line that has ended at 1010 were struck already: it is in the book still.
    let leases = [
        leased("10.0.1.0/26", 7, 1010),
        leased("10.0.1.64/26", 7, 5000),
    ];
    let mut table = table_with(&["10.0.1.0/24"], 1000, &leases);
    table.counts = table_with(&["10.0.1.0/24"], 1000, &leases[1..]).counts;
    for now in [1000, 1009, 1010, 2000] {
        assert_eq!(every_call(&table, now, p("10.0.1.64/26")), ALL_5);
    }
    // And the other way round: the count after the line was struck.
    let mut table = table_with(&["10.0.1.0/24"], 1010, &leases[1..]);
    table.counts = table_with(&["10.0.1.0/24"], 1000, &leases).counts;
    assert_eq!(every_call(&table, 1010, p("10.0.1.64/26")), ALL_5);
}

#[test]
fn each_of_four_calls_counts_after_the_ended_lines_are_struck() {
    type Call = fn(&mut Table, u32) -> bool;
    let calls: [Call; 4] = [
        // Given again, so that nothing changes but what has ended.
        |t, now| ask(t, 9, now, &asking(&[28])).is_ok(),
        |t, now| take(t, 7, now, &entries(&[p("10.0.1.128/26")])).is_ok(),
        |t, now| release(t, 7, now, &entries(&[p("10.0.1.128/26")])).is_ok(),
        |t, now| mark(t, now, p("10.0.1.128/26"), true).is_ok(),
    ];
    let leases = [
        leased("10.0.1.0/26", 7, 1010),
        held("10.0.1.64/26", 8, 1011),
        leased("10.0.1.128/26", 7, 5000),
        held("10.0.1.192/28", 9, 5000),
    ];
    let before = [(0, 27, 1), (0, 28, 1)];
    for (index, call) in calls.iter().enumerate() {
        let returned = index == 2;
        let at = |now: u32| {
            let mut table = table_with(&["10.0.1.0/24"], 1000, &leases);
            assert_eq!(some(&table), before);
            assert!(call(&mut table, now));
            assert!(table.sound());
            some(&table)
        };
        let (mut at_1009, mut at_1010, mut at_1011) = (
            vec![(0, 27, 1), (0, 28, 1)],
            vec![(0, 26, 1), (0, 27, 1), (0, 28, 1)],
            vec![(0, 25, 1), (0, 27, 1), (0, 28, 1)],
        );
        if returned {
            at_1009 = vec![(0, 26, 1), (0, 27, 1), (0, 28, 1)];
            at_1010 = vec![(0, 26, 2), (0, 27, 1), (0, 28, 1)];
            at_1011 = vec![(0, 25, 1), (0, 26, 1), (0, 27, 1), (0, 28, 1)];
        }
        assert_eq!(at(1009), at_1009, "{index}");
        assert_eq!(at(1010), at_1010, "{index}");
        assert_eq!(at(1011), at_1011, "{index}");
    }
    // New ground in the place of a line that has ended.
    let mut table = table_with(&["10.0.1.0/24"], 1000, &leases);
    assert!(ask(&mut table, 3, 1010, &asking(&[26])).is_ok());
    assert_eq!(some(&table), before);
}

#[test]
fn a_refused_call_and_a_list_leave_the_counts() {
    let leases = [
        leased("10.0.1.0/26", 7, 1010),
        leased("10.0.1.64/26", 7, 5000),
    ];
    let good = table_with(&["10.0.1.0/24"], 1000, &leases);
    let mut table = good.clone();
    // 10, 11, 11 and 11, at a time when a line has ended.
    assert!(ask(&mut table, 7, 1010, &asking(&[24])).is_err());
    assert!(take(&mut table, 8, 1010, &entries(&[p("10.0.1.64/26")])).is_err());
    assert!(release(&mut table, 8, 1010, &entries(&[p("10.0.1.64/26")])).is_err());
    assert!(mark(&mut table, 1010, p("10.0.1.0/26"), true).is_err());
    assert!(list(&table, 7, 1010, &option(&[request_i()])).is_ok());
    assert_eq!(table, good);
    // "strikes nothing, speaks of the book as last written".
    assert_eq!(whole(&table, 26), Ok(0));
    assert_eq!(whole(&table, 25), Ok(1));
    assert_eq!(table, good);
}

#[test]
fn the_query_answers_0_outside_8_to_30() {
    let table = table_with(&["10.0.0.0/8", "11.0.0.0/30"], 1000, &[]);
    for length in (0..8).chain(31..300).chain([
        0x108,
        0x11a,
        0x1_0008,
        0x100_0008,
        0x8000_0008,
        u32::MAX - 1,
        u32::MAX,
    ]) {
        assert_eq!(whole(&table, length), Ok(0), "{length}");
        // A refusal wins over an answer.
        let mut wrong = table.clone();
        wrong.counts[7][22] = 1;
        assert_eq!(whole(&wrong, length), Err(no(5, 0)));
        assert_eq!(whole(&Table::zero(), length), Err(no(5, 0)));
    }
    assert_eq!((whole(&table, 8), whole(&table, 30)), (Ok(1), Ok(1)));
    assert_eq!((column(7), column(8)), (None, Some(0)));
    assert_eq!((column(30), column(31)), (Some(22), None));
}

#[test]
fn the_query_sums_over_the_roots() {
    let leases: Vec<Lease> = (0..8)
        .map(|index| leased(&format!("10.0.{index}.0/26"), 7, 5000))
        .collect();
    let texts: Vec<String> = (0..8).map(|index| format!("10.0.{index}.0/24")).collect();
    let texts: Vec<&str> = texts.iter().map(String::as_str).collect();
    let table = table_with(&texts, 1000, &leases);
    assert_eq!((whole(&table, 25), whole(&table, 26)), (Ok(8), Ok(8)));
    assert_eq!((whole(&table, 24), whole(&table, 27)), (Ok(0), Ok(0)));
}

#[test]
fn open_and_load_work_the_counts_out() {
    let good = roots(8);
    let bytes = image(&good);
    for counts in [
        [[0; LENGTHS]; POOLS],
        [[9; LENGTHS]; POOLS],
        roots(2).counts,
    ] {
        // What the counts were does not matter.
        let mut table = Table::zero();
        table.counts = counts;
        assert_eq!(load(&mut table, &bytes), Ok(()));
        assert_eq!(table, good);
        let mut table = roots(2);
        table.counts = counts;
        let before = table.clone();
        assert_eq!(load(&mut table, &bytes[..41]), Err(no(5, 0)));
        assert_eq!(table, before);
        assert_eq!(load(&mut table, &bytes), Ok(()));
        assert_eq!(table, good);
    }
    // The image has no counts: those of a loaded book are worked out from its lines.
    let table = open(&pools(&["10.0.1.0/24"]), 3600, 28, 1000).unwrap();
    assert_eq!(image(&table).len(), 13 + 9);
    assert_eq!(some(&table), [(0, 24, 1)]);
}

#[test]
fn the_row_of_5_is_before_15_and_after_1() {
    let mut table = roots(2);
    table.counts[0][0] = 1;
    let (mut buffer, mut sheet) = ([0; 257], untold_sheet(&table));
    let bad_sheet = &mut [0; 3][..];
    let option = asking(&[30]);
    let short = &mut [0; 256][..];
    let mut number = |sheet: &mut [u8], client, now, option: &[u8], buffer: &mut [u8]| {
        let answer = calls::ask(&mut table, sheet, client, now, option, None, buffer);
        answer.unwrap_err().number
    };
    assert_eq!(number(bad_sheet, 0, 999, &[], short), 1);
    assert_eq!(number(bad_sheet, 0, 999, &[], &mut buffer), 5);
    assert_eq!(number(&mut sheet, 0, u32::MAX, &[], &mut buffer), 5);
    assert_eq!(number(&mut sheet, 7, 1000, &option, &mut buffer), 5);
}

#[test]
fn an_unsound_book_stays_unsound_whatever_its_counts() {
    let zero = Table::zero();
    assert!(!zero.sound() && !zero.clone().counted().sound());
    let mut table = roots(2);
    table.leases[1].client = 0;
    assert_eq!(table.clone().counted().counts, table.counts);
    assert_eq!(every_call(&table, 1000, p("10.0.0.0/20")), ALL_5);
}

#[test]
fn counts_as_bytes() {
    let mut counts = [[0; LENGTHS]; POOLS];
    (counts[0][0], counts[0][1], counts[1][0], counts[7][22]) = (1, 0x203, 4, 0xfffe);
    let bytes = bytes_of(&counts);
    assert_eq!((bytes.len(), BYTES), (368, 368));
    assert_eq!(bytes[..4], [1, 0, 3, 2]);
    assert_eq!(bytes[46..48], [4, 0]);
    assert_eq!(bytes[366..], [0xfe, 0xff]);
    assert_eq!(of_bytes(&bytes), Some(counts));
    assert_eq!(of_bytes(&bytes[..367]), None);
    assert_eq!(of_bytes(&[0; 369]), None);
    assert_eq!(of_bytes(&[]), None);
}

#[test]
fn counts_over_random_histories() {
    let mut numbers = Numbers::new(1020);
    for _ in 0..40 {
        let roots = pools(&[
            "10.0.0.0/26",
            "10.0.0.128/25",
            "10.0.1.0/30",
            "10.0.1.64/27",
        ]);
        let roots = &roots[..numbers.between(1, 4)];
        let mut table = open(roots, 60, 28, 1000).unwrap();
        let mut now = 1000;
        for _ in 0..60 {
            now += [0, 0, 1, 59, 60, 119, 120][numbers.below(7)];
            let client = numbers.between(1, 3) as u32;
            let leases = table.used_leases();
            let at = match leases.len() {
                0 => p("10.0.0.0/28"),
                count => leases[numbers.below(count)].prefix,
            };
            let before = table.clone();
            let lengths: Vec<u8> = (0..numbers.between(1, 4))
                .map(|_| numbers.between(25, 30) as u8)
                .collect();
            let accepted = match numbers.below(6) {
                0..=2 => ask(&mut table, client, now, &asking(&lengths)).is_ok(),
                3 => take(&mut table, client, now, &entries(&[at])).is_ok(),
                4 => release(&mut table, client, now, &entries(&[at])).is_ok(),
                _ => mark(&mut table, now, at, true).is_ok(),
            };
            if accepted {
                assert_eq!(table.counts, all_tried(&table, 30));
            } else {
                assert_eq!(table, before);
            }
        }
    }
}
