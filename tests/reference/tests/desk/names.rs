//! M-105: names on the leases, and the second saved form.

use reference::image::{save, Desk, Form};
use reference::option::Suboption;
use reference::samples::{full_table, image_in, named};
use reference::sheet::{sheet, sheet_of_image};
use reference::table::{Lease, Name, State, Table, LEASES, NAME};

use crate::common::*;

const A: &str = "10.0.1.0/26";
const B: &str = "10.0.1.64/26";

fn name(octets: &[u8]) -> Suboption {
    Suboption::Name(octets.to_vec())
}

/// An ask for these lengths after these names.
fn asking_as(names: &[&[u8]], lengths: &[u8]) -> Vec<u8> {
    let mut list: Vec<Suboption> = names.iter().map(|octets| name(octets)).collect();
    list.extend(lengths.iter().map(|length| request(*length)));
    option(&list)
}

fn held(at: &str, octets: &[u8]) -> Lease {
    named(lease(p(at), 7, State::Offered, 1120), octets)
}

fn book() -> Table {
    open(&pools(&["10.0.1.0/24"]), 3600, 28, 1000).unwrap()
}

fn names_of(table: &Table) -> Vec<(String, Vec<u8>)> {
    let leases = table.used_leases().iter();
    leases
        .map(|lease| (lease.prefix.to_string(), lease.name.octets().to_vec()))
        .collect()
}

fn pair(at: &str, octets: &[u8]) -> (String, Vec<u8>) {
    (at.to_string(), octets.to_vec())
}

/// A full table in which every other lease has a name, of every length.
pub fn named_table() -> Table {
    let mut table = full_table();
    for (index, lease) in table.leases.iter_mut().enumerate().step_by(2) {
        let octets: Vec<u8> = (0..index / 2 % (NAME + 1))
            .map(|at| (index + 7 * at) as u8 | 1)
            .collect();
        *lease = named(*lease, &octets);
    }
    assert!(table.sound());
    table
}

fn saved(table: &Table, form: Form) -> Result<Vec<u8>, u8> {
    let mut buffer = vec![0x5a; form.full() + 1];
    match save(table, form, Desk::Own, &mut buffer) {
        Ok(bytes) => {
            assert!(buffer[bytes..].iter().all(|byte| *byte == 0x5a));
            Ok(buffer[..bytes].to_vec())
        }
        Err(refusal) => {
            assert!(buffer.iter().all(|byte| *byte == 0x5a));
            Err(refusal.number)
        }
    }
}

#[test]
fn names_of_every_length() {
    // The longest that an option holds beside a request.
    for length in 0..=248usize {
        let octets = vec![0x61; length];
        let mut table = book();
        let before = table.clone();
        let asked = match length {
            0 => asking(&[26]),
            _ => asking_as(&[&octets], &[26]),
        };
        let answer = ask(&mut table, 7, 1000, &asked);
        if length > NAME {
            assert_eq!(answer, Err(no(17, 0)), "{length}");
            assert_eq!(table, before);
        } else {
            // Names do not show in replies.
            assert_eq!(answer, Ok((1, entries(&[p(A)]))));
            assert_eq!(names_of(&table), [pair(A, &octets)]);
            assert!(table.sound());
        }
    }
}

#[test]
fn octets_of_a_name() {
    // Zeros inside, none at the end; not ASCII.
    for octets in [
        &[0, 0x61][..],
        &[0x61, 0, 0, 0x62],
        &[0; 23],
        &[0xff; 24],
        &[0x80, 0x1f, 0x7f, 0x0a],
        b" ",
    ] {
        let mut octets = octets.to_vec();
        if octets.last() == Some(&0) {
            octets.push(1);
        }
        let mut table = book();
        ask(&mut table, 7, 1000, &asking_as(&[&octets], &[26])).unwrap();
        assert_eq!(names_of(&table), [pair(A, &octets)]);
        let mut loaded = Table::zero();
        load(&mut loaded, &image_in(Form::Second, &table)).unwrap();
        assert_eq!(loaded, table);
    }
    // A name that ends in zero is the reader's matter.
    let mut table = book();
    let ended = hex("DC 0A 00 03 03 61 62 00 01 02 00 1A");
    assert_eq!(ask(&mut table, 7, 1000, &ended).unwrap_err().number, 16);
}

#[test]
fn the_first_name_counts() {
    let long = [0x62; 40];
    let mut table = book();
    ask(
        &mut table,
        7,
        1000,
        &asking_as(&[b"west hall", &long, b"x"], &[26]),
    )
    .unwrap();
    assert_eq!(names_of(&table), [pair(A, b"west hall")]);
    let before = table.clone();
    let refused = ask(&mut table, 8, 1000, &asking_as(&[&long, b"x"], &[26]));
    assert_eq!(refused, Err(no(17, 0)));
    assert_eq!(table, before);
    // After the requests, and between them; the same name for all of the message.
    let list = [
        request(28),
        name(b"a"),
        request(29),
        name(b"b"),
        request(30),
    ];
    ask(&mut table, 8, 1000, &option(&list)).unwrap();
    let (west, a) = (&b"west hall"[..], &b"a"[..]);
    assert_eq!(
        names_of(&table),
        [
            pair(A, west),
            pair("10.0.1.64/28", a),
            pair("10.0.1.80/29", a),
            pair("10.0.1.88/30", a)
        ]
    );
}

#[test]
fn row_17_among_the_others() {
    let long = [0x62; 25];
    let too_long = asking_as(&[&long], &[26]);
    // Before 9 and 10, and where all would be re-given; after 8 and everything before it.
    let none = table_with(&["10.0.0.0/16"], 1000, &row_of_leases(1_024, 5000));
    let full = table_with(
        &["10.0.1.0/24"],
        1000,
        &[lease(p("10.0.1.0/24"), 9, State::Leased, 5000)],
    );
    let again = table_with(&["10.0.1.0/24"], 1000, &[held(A, b"")]);
    for table in [&none, &full, &again, &book()] {
        let mut after = table.clone();
        assert_eq!(ask(&mut after, 7, 1000, &too_long), Err(no(17, 0)));
        assert_eq!(after, *table);
    }
    let mut list = vec![name(&long)];
    list.extend(vec![request(30); 26]);
    for (pieces, number) in [
        (vec![name(&long)], 8),
        (vec![name(&long), request_i()], 8),
        (list, 8),
        (vec![name(&long), request(30), request_i()], 8),
    ] {
        let answer = ask(&mut book(), 7, 1000, &option(&pieces));
        assert_eq!(answer, Err(no(number, 0)));
    }
    assert_eq!(ask(&mut book(), 0, 1000, &too_long), Err(no(2, 0)));
    assert_eq!(ask(&mut book(), 7, 999, &too_long), Err(no(3, 0)));
    // The other calls do not look at names.
    let mut table = again.clone();
    let list = [name(&long), information(false, false, &[p(A)])];
    assert_eq!(take(&mut table, 7, 1000, &option(&list)).unwrap().0, 1);
    let list = [name(&long), request_i()];
    assert_eq!(
        super::common::list(&table, 7, 1000, &option(&list))
            .unwrap()
            .0,
        1
    );
    let list = [name(&long), information(false, false, &[p(A)])];
    assert_eq!(
        release(&mut table, 7, 1000, &option(&list)).unwrap().count,
        1
    );
}

#[test]
fn a_name_stays_with_its_lease() {
    let mut table = book();
    ask(&mut table, 7, 1000, &asking_as(&[b"west"], &[26])).unwrap();
    // Re-given, with another name, without one; the new one beside it gets the message's.
    ask(&mut table, 7, 1001, &asking_as(&[b"east"], &[26])).unwrap();
    ask(&mut table, 7, 1002, &asking(&[26])).unwrap();
    assert_eq!(names_of(&table), [pair(A, b"west")]);
    ask(&mut table, 7, 1003, &asking_as(&[b"east"], &[26, 26])).unwrap();
    let both = [pair(A, b"west"), pair(B, b"east")];
    assert_eq!(names_of(&table), both);
    take(&mut table, 7, 1004, &entries(&[p(A), p(B)])).unwrap();
    mark(&mut table, 1005, p(A), true).unwrap();
    mark(&mut table, 1006, p(A), false).unwrap();
    take(&mut table, 7, 1007, &entries(&[p(A)])).unwrap();
    assert_eq!(names_of(&table), both);
    // A Name in a take, a return or a list has no effect.
    let list = [name(b"north"), information(false, false, &[p(A)])];
    take(&mut table, 7, 1008, &option(&list)).unwrap();
    assert_eq!(names_of(&table), both);
    release(&mut table, 7, 1009, &entries(&[p(A)])).unwrap();
    assert_eq!(names_of(&table), both[1..]);
    // It leaves nothing behind.
    ask(&mut table, 9, 1010, &asking(&[26])).unwrap();
    assert_eq!(names_of(&table), [pair(A, b""), both[1].clone()]);
    // Struck as ended: the same.
    let ended = 1010 + 3600;
    ask(&mut table, 9, ended, &asking(&[26])).unwrap();
    assert_eq!(names_of(&table), [pair(A, b"")]);
}

#[test]
fn a_record_of_the_second_form() {
    let table = table_with(&["10.0.1.0/24"], 1000, &[held(A, b"west hall")]);
    let bytes = hex("0b00 0500 100e0000 1c e8030000 / 0700 0200 0001000a 18 / \
                     2a00 0400 0001000a 1a 01 00 07000000 60040000 \
                     09 77657374 2068616c 6c000000 00000000 00000000 00000000");
    assert_eq!(saved(&table, Form::Second), Ok(bytes.clone()));
    let mut loaded = Table::zero();
    load(&mut loaded, &bytes).unwrap();
    assert_eq!(loaded, table);
    let rows = "sheet lines=1 free=2\nused 10.0.1.0/26 station 7 until 1120 name west hall\n\
                free 10.0.1.64/26\nfree 10.0.1.128/25\n";
    assert_eq!(sheet_of_image(&bytes), rows);
    assert_eq!(sheet(&table).unwrap(), rows);
    // Full books of both forms.
    assert_eq!(image_in(Form::Second, &full_table()).len(), 45_141);
    assert_eq!(image_in(Form::Second, &named_table()).len(), 45_141);
    let mut more = image_in(Form::Second, &named_table());
    more.extend(hex("2a00 0400 0000080a 1e 01 00 01000000 ffffffff"));
    more.extend([0; 25]);
    assert_eq!(load(&mut loaded, &more), Err(no(5, 0)));
    assert_eq!(load(&mut loaded, &more[..45_142]), Err(no(5, 0)));
    assert_eq!(load(&mut loaded, &more[..45_141]), Ok(()));
    assert_eq!(loaded, named_table());
}

#[test]
fn forward_and_back() {
    for table in [book(), full_table()] {
        let first = saved(&table, Form::First).unwrap();
        let second = saved(&table, Form::Second).unwrap();
        assert_ne!(first, second);
        for bytes in [&first, &second] {
            let mut loaded = Table::zero();
            load(&mut loaded, bytes).unwrap();
            assert_eq!(loaded, table);
            assert_eq!(saved(&loaded, Form::First).as_ref(), Ok(&first));
            assert_eq!(saved(&loaded, Form::Second).as_ref(), Ok(&second));
        }
    }
}

#[test]
fn going_back_is_refused_exactly_if_a_line_has_a_name() {
    for count in [1, 2, 255, 256, 1_024] {
        let leases = row_of_leases(count, 5000);
        let table = table_with(&["10.0.0.0/16"], 1000, &leases);
        assert!(saved(&table, Form::First).is_ok());
        for at in [0, count as usize / 2, count as usize - 1] {
            for octets in [&b"x"[..], &[0, 1], &[0xff; 24]] {
                let mut table = table.clone();
                table.leases[at] = named(table.leases[at], octets);
                assert_eq!(saved(&table, Form::First), Err(18));
                assert!(saved(&table, Form::Second).is_ok());
                // 18 before 14, 5 before 18.
                assert_eq!(
                    save(&table, Form::First, Desk::Own, &mut []),
                    Err(no(18, 0))
                );
                assert_eq!(
                    save(&table, Form::Second, Desk::Own, &mut []),
                    Err(no(14, 0))
                );
                table.counts[7][0] += 1;
                assert_eq!(save(&table, Form::First, Desk::Own, &mut []), Err(no(5, 0)));
            }
        }
    }
}

#[test]
fn names_outside_the_rules_are_unsound() {
    let good = table_with(&["10.0.1.0/24"], 1000, &[held(A, b"ab"), held(B, b"")]);
    let wrong: [(u8, &[u8]); 10] = [
        (25, &[0x61; 24]),
        (255, &[0x61; 24]),
        (24, &[0x61; 23]),
        (1, b""),
        (3, b"ab"),
        (1, b"ab"),
        (0, b"a"),
        (
            0,
            &[
                0, 0, 0, 0, 0, 0, 0, 0, 0, 0, 0, 0, 0, 0, 0, 0, 0, 0, 0, 0, 0, 0, 0, 1,
            ],
        ),
        (23, &[0x61; 24]),
        (2, &[0x61, 0]),
    ];
    for place in 0..2 {
        for (length, octets) in wrong {
            let mut table = good.clone();
            let name = &mut table.leases[place].name;
            *name = Name::of(octets).unwrap();
            name.length = length;
            assert!(!table.sound(), "{length} {octets:?}");
            assert_eq!(saved(&table, Form::First), Err(5));
            assert_eq!(saved(&table, Form::Second), Err(5));
            assert_eq!(sheet(&table), Err(no(5, 0)));
            let mut bytes = image_in(Form::Second, &good);
            let at = 13 + 9 + 44 * place + 19;
            bytes[at] = length;
            bytes[at + 1..at + 25].fill(0);
            bytes[at + 1..at + 1 + octets.len()].copy_from_slice(octets);
            let mut after = good.clone();
            assert_eq!(load(&mut after, &bytes), Err(no(5, 0)));
            assert_eq!(after, good);
            assert_eq!(sheet_of_image(&bytes), "refused 5\n");
        }
    }
}

#[test]
fn mixtures() {
    let tables = [
        book(),
        table_with(&["10.0.1.0/24"], 1000, &[held(A, b""), held(B, b"")]),
    ];
    for table in tables {
        let forms = Form::BOTH.map(|form| image_in(form, &table));
        let lines = |bytes: &[u8]| bytes[22..].to_vec();
        let line = [19, 44];
        for (head, tail) in [(0, 1), (1, 0)] {
            let mut bytes = forms[head][..22].to_vec();
            bytes.extend(lines(&forms[tail]));
            let without = table.used_leases().is_empty();
            assert_eq!(load(&mut Table::zero(), &bytes).is_ok(), without);
            if without {
                continue;
            }
            // One line of each form.
            for (first, second) in [(head, tail), (tail, head)] {
                let mut bytes = forms[head][..22].to_vec();
                bytes.extend(&lines(&forms[first])[..line[first]]);
                bytes.extend(&lines(&forms[second])[line[second]..]);
                assert_eq!(load(&mut Table::zero(), &bytes), Err(no(5, 0)));
            }
            // A head of one form, the other form's after it.
            let mut bytes = forms[head].clone();
            bytes.splice(13..13, forms[tail][..13].to_vec());
            assert_eq!(load(&mut Table::zero(), &bytes), Err(no(5, 0)));
        }
        // Kinds that are no head's.
        for kind in [0, 2, 3, 4, 6, 7, 255] {
            for form in &forms {
                let mut bytes = form.clone();
                bytes[2] = kind;
                assert_eq!(load(&mut Table::zero(), &bytes), Err(no(5, 0)));
                bytes = form.clone();
                bytes[3] = 1;
                assert_eq!(load(&mut Table::zero(), &bytes), Err(no(5, 0)));
            }
        }
    }
}

#[test]
fn rows_of_the_sheet() {
    for octet in 0..=255u8 {
        for octets in [vec![octet, 0x21], vec![0x21, octet]] {
            if octets[1] == 0 {
                continue;
            }
            let table = table_with(&["10.0.1.0/26"], 1000, &[held(A, &octets)]);
            let shown = |octet: u8| match octet {
                b' '..=b'~' => char::from(octet),
                _ => '?',
            };
            let row = format!(
                "used 10.0.1.0/26 station 7 until 1120 name {}{}",
                shown(octets[0]),
                shown(octets[1])
            );
            let text = format!("sheet lines=1 free=0\n{row}\n");
            assert_eq!(sheet(&table), Ok(text));
        }
    }
    let longest = table_with(&["10.0.1.0/26"], 1000, &[held(A, &[0xc3; 24])]);
    let row = format!("until 1120 name {}\n", "?".repeat(24));
    assert!(sheet(&longest).unwrap().ends_with(&row));
}

#[test]
fn the_same_name_for_25_new_leases() {
    let mut table = open(&pools(&["10.0.0.0/16"]), 3600, 28, 1000).unwrap();
    let octets = [0xfe; 24];
    ask(&mut table, 7, 1000, &asking_as(&[&octets], &[30; 25])).unwrap();
    assert!(table
        .used_leases()
        .iter()
        .all(|lease| lease.name.octets() == octets));
    assert_eq!(table.used_leases().len(), 25);
    let full = (2..).map_while(|client| {
        ask(
            &mut table,
            client + 10,
            1000,
            &asking_as(&[b"z"], &[30; 25]),
        )
        .ok()
    });
    assert_eq!(full.count(), 40);
    assert_eq!(table.used_leases().len(), LEASES);
}
