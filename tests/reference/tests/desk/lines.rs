//! M-107: 1,024 lines, and saving for an older desk.

use reference::image::{save, Desk, Form};
use reference::option::{read220, Suboption};
use reference::prefix::{prefix, Prefix};
use reference::samples::{full_table, image_in, named, TEN};
use reference::sheet::sheet;
use reference::table::{Lease, State, Table, LEASES, OLDER_LEASES};

use crate::common::*;

/// Leased /30s from 10.0.0.0 on, a free /30 beside each.
fn apart(count: u32) -> Vec<Lease> {
    (0..count)
        .map(|index| lease(prefix(TEN + 8 * index, 30), 7, State::Leased, 5000))
        .collect()
}

fn book(leases: &[Lease]) -> Table {
    table_with(&["10.0.0.0/18"], 1000, leases)
}

/// The bytes saved, or the number; a refusal leaves the buffer.
fn saved(table: &Table, form: Form, desk: Desk, room: usize) -> Result<Vec<u8>, u8> {
    let mut buffer = vec![0x5a; room];
    match save(table, form, desk, &mut buffer) {
        Ok(bytes) => {
            assert!(buffer[bytes..].iter().all(|byte| *byte == 0x5a));
            Ok(buffer[..bytes].to_vec())
        }
        Err(refusal) => {
            assert!(buffer.iter().all(|byte| *byte == 0x5a));
            Err(refusal.number)
        }
    }
}

#[test]
fn the_sizes() {
    // "Full books are 19,541 bytes in the first form and 45,141 in the second."
    assert_eq!((LEASES, OLDER_LEASES), (1_024, 256));
    for (form, bytes) in [(Form::First, 19_541), (Form::Second, 45_141)] {
        assert_eq!(form.full(), bytes);
        assert_eq!(image_in(form, &full_table()).len(), bytes);
    }
    assert_eq!(13 + 8 * 9 + 1_024 * 19, 19_541);
    assert_eq!(13 + 8 * 9 + 1_024 * 44, 45_141);
    // "Figures rows follow."
    assert_eq!(reference::figures::SHEET, 11_264);
    // The longest sheet there could be: a first row, a row for each line, and free rows of which
    // each line makes at most 22 and each root one.
    assert_eq!(28 + 1_024 * 90 + 24 * (22 * 1_024 + 8), 633_052);
}

#[test]
fn nine_is_given_at_1024() {
    for count in [255, 256, 257, 1_022, 1_023, 1_024] {
        let mut table = book(&apart(count));
        let answer = ask(&mut table, 9, 1000, &asking(&[30, 30]));
        let room = (1_024 - count as usize).min(2);
        match room {
            0 => assert_eq!(answer, Err(no(9, 0))),
            _ => assert_eq!(answer.map(|answer| answer.0), Ok(room)),
        }
        assert_eq!(table.used_leases().len(), count as usize + room);
    }
}

#[test]
fn asks_up_to_1024_lines_are_granted() {
    // Demand 3 "reads with that number of lines": exactly 1,024 asks.
    let mut table = open(&pools(&["10.0.0.0/20"]), 3600, 28, 1000).unwrap();
    for index in 0..1_024 {
        let answer = ask(&mut table, 1 + index, 1000, &asking(&[30]));
        assert_eq!(answer.map(|answer| answer.0), Ok(1));
    }
    assert!(table.sound());
    assert_eq!(ask(&mut table, 2_000, 1000, &asking(&[30])), Err(no(9, 0)));
    // One that asks again gets its line.
    assert_eq!(ask(&mut table, 1_024, 1000, &asking(&[30])).unwrap().0, 1);
}

#[test]
fn thirty_pages() {
    let table = book(&apart(1_024));
    let (mut pages, mut seen) = (Vec::new(), 0);
    let mut bytes = option(&[request_i()]);
    loop {
        let (count, reply) = list(&table, 7, 1000, &bytes).unwrap();
        let Suboption::Information(page) = &read220(&reply).unwrap()[0] else {
            panic!()
        };
        seen += count;
        pages.push(count);
        if !page.s {
            break;
        }
        bytes = option(&[
            request_i(),
            information(
                true,
                true,
                &[prefix(page.entries[34].network, page.entries[34].prefix)],
            ),
        ]);
    }
    assert_eq!((pages.len(), pages[29], seen), (30, 9, 1_024));
    assert!(pages[..29].iter().all(|count| *count == 35));
}

#[test]
fn twenty_exactly_above_256_lines_in_both_forms() {
    for count in [0, 1, 255, 256, 257, 258, 512, 1_023, 1_024] {
        let table = book(&apart(count));
        for form in Form::BOTH {
            let own = saved(&table, form, Desk::Own, form.full()).unwrap();
            let older = saved(&table, form, Desk::Older, form.full());
            match count {
                0..=256 => assert_eq!(older, Ok(own)),
                _ => assert_eq!(older, Err(20)),
            }
        }
    }
}

#[test]
fn five_twenty_eighteen_fourteen() {
    // Every combination of what can apply; the first in this order is given.
    for bits in 0..32 {
        let [unsound, many, a_name, short, first] = [16, 8, 4, 2, 1].map(|bit| bits & bit != 0);
        let mut leases = apart(if many { 257 } else { 256 });
        if a_name {
            let last = leases.len() - 1;
            leases[last] = named(leases[last], b"x");
        }
        let mut table = book(&leases);
        if unsound {
            table.counts[0][0] += 1;
        }
        let form = if first { Form::First } else { Form::Second };
        let bytes = 22 + leases.len() * if first { 19 } else { 44 };
        let room = if short { bytes - 1 } else { bytes };
        for desk in Desk::BOTH {
            let number = if unsound {
                5
            } else if many && desk == Desk::Older {
                20
            } else if a_name && first {
                18
            } else if short {
                14
            } else {
                0
            };
            let answer = saved(&table, form, desk, room);
            match number {
                0 => assert_eq!(answer.map(|image| image.len()), Ok(bytes)),
                _ => assert_eq!(answer, Err(number)),
            }
        }
    }
}

#[test]
fn ended_lines_are_in_the_book_until_they_are_struck() {
    let mut leases = apart(257);
    leases[100].expires = 1500;
    let mut table = book(&leases);
    assert_eq!(saved(&table, Form::First, Desk::Older, 19_541), Err(20));
    // A list strikes nothing, and neither does what is refused.
    list(&table, 7, 1500, &option(&[request_i()])).unwrap();
    assert!(take(&mut table, 7, 1500, &entries(&[p("10.0.0.0/29")])).is_err());
    assert_eq!(saved(&table, Form::First, Desk::Older, 19_541), Err(20));
    mark(&mut table, 1500, p("10.0.0.0/30"), true).unwrap();
    assert_eq!(
        saved(&table, Form::First, Desk::Older, 19_541).map(|image| image.len()),
        Ok(22 + 256 * 19)
    );
}

#[test]
fn what_an_older_desk_gets_loads_here_too() {
    let table = book(&apart(256));
    for form in Form::BOTH {
        let image = saved(&table, form, Desk::Older, form.full()).unwrap();
        let mut loaded = Table::zero();
        load(&mut loaded, &image).unwrap();
        assert_eq!(loaded, table);
    }
}

#[test]
fn the_first_and_the_last_of_1024() {
    let ends: Vec<Prefix> = [0, 1_023].map(|index| prefix(TEN + 8 * index, 30)).to_vec();
    let mut table = book(&apart(1_024));
    assert_eq!(take(&mut table, 7, 1001, &entries(&ends)).unwrap().0, 2);
    for at in &ends {
        mark(&mut table, 1001, *at, true).unwrap();
    }
    assert!(table.leases[0].d && table.leases[1_023].d);
    assert_eq!(
        release(&mut table, 7, 1001, &entries(&ends)).unwrap().count,
        2
    );
    assert_eq!(table.used_leases().len(), 1_022);
    assert!(sheet(&table).unwrap().starts_with("sheet lines=1022 free="));
}
