//! Images and sheets.

use reference::image::{save, Desk, Form};
use reference::samples::{full_table, image_in};
use reference::sheet::{sheet, sheet_of_image};
use reference::table::{State, Table};

use crate::common::*;
use crate::names::named_table;

pub const EXAMPLE: &str = "0b00 0100 100e0000 1c e8030000 0700 0200 0001000a 18 \
                           1100 0300 0001000a 1a 01 00 07000000 60040000";

const EXAMPLE_SHEET: &str = "sheet lines=1 free=2\n\
                             used 10.0.1.0/26 station 7 until 1120\n\
                             free 10.0.1.64/26\n\
                             free 10.0.1.128/25\n";

#[test]
fn the_sheet_example() {
    let bytes = hex(EXAMPLE);
    assert_eq!(bytes.len(), 41);
    assert_eq!(sheet_of_image(&bytes), EXAMPLE_SHEET);
    // The same book made by calls has this image.
    let mut table = open(&pools(&["10.0.1.0/24"]), 3600, 28, 1000).unwrap();
    ask(&mut table, 7, 1000, &asking(&[26])).unwrap();
    assert_eq!(image(&table), bytes);
    assert_eq!(sheet(&table).unwrap(), EXAMPLE_SHEET);
}

#[test]
fn a_full_book_is_19541_bytes() {
    let table = full_table();
    let bytes = image(&table);
    assert_eq!(bytes.len(), 19_541);
    let mut loaded = Table::zero();
    load(&mut loaded, &bytes).unwrap();
    assert_eq!(loaded, table);
    let text = sheet_of_image(&bytes);
    assert!(text.starts_with("sheet lines=1024 free="));
    // A 1,025th line or any byte after it is too much.
    let mut more = bytes.clone();
    more.extend(hex("1100 0300 0000080a 1e 01 00 01000000 ffffffff"));
    assert_eq!(load(&mut loaded, &more), Err(no(5, 0)));
    assert_eq!(sheet_of_image(&more), "refused 5\n");
    more.truncate(19_542);
    assert_eq!(load(&mut loaded, &more), Err(no(5, 0)));
    assert_eq!(loaded, table);
}

#[test]
fn flags_of_a_saved_lease() {
    // "flags h 1 + d 2": the reverse of an entry's.
    for (h, d, flags) in [
        (false, false, 0),
        (true, false, 1),
        (false, true, 2),
        (true, true, 3),
    ] {
        let mut one = lease(p("10.0.1.0/26"), 7, State::Offered, 1120);
        (one.h, one.d) = (h, d);
        let table = table_with(&["10.0.1.0/24"], 1000, &[one]);
        let mut bytes = hex(EXAMPLE);
        bytes[32] = flags;
        assert_eq!(image(&table), bytes);
        let mut loaded = Table::zero();
        load(&mut loaded, &bytes).unwrap();
        assert_eq!(loaded, table);
    }
}

#[test]
fn save_needs_room_and_leaves_the_rest() {
    let table = full_table();
    for form in Form::BOTH {
        let full = form.full();
        let mut buffer = vec![0x5a; full + 3];
        assert_eq!(save(&table, form, Desk::Own, &mut buffer), Ok(full));
        assert_eq!(buffer[full..], [0x5a; 3]);
        let mut small = vec![0x5a; full - 1];
        assert_eq!(save(&table, form, Desk::Own, &mut small), Err(no(14, 0)));
        assert!(small.iter().all(|byte| *byte == 0x5a));
        // 5 comes before 14.
        assert_eq!(
            save(&Table::zero(), form, Desk::Own, &mut []),
            Err(no(5, 0))
        );
        assert_eq!(
            save(&Table::zero(), form, Desk::Own, &mut buffer),
            Err(no(5, 0))
        );
    }
}

#[test]
fn load_and_save_undo_each_other_on_random_changes() {
    let mut numbers = Numbers::new(4);
    let mut example = Table::zero();
    load(&mut example, &hex(EXAMPLE)).unwrap();
    let originals = [
        hex(EXAMPLE),
        image(&full_table()),
        image_in(Form::Second, &example),
        image_in(Form::Second, &named_table()),
    ];
    let (mut accepted, mut refused) = ([0; 2], 0);
    for round in 0..40_000 {
        let form = Form::BOTH[round % 2];
        let mut bytes = originals[2 * (round % 2) + usize::from(round % 10 > 7)].clone();
        for _ in 0..numbers.between(1, 2) {
            let at = numbers.below(bytes.len());
            match numbers.below(4) {
                0 => bytes[at] = numbers.draw() as u8,
                1 => bytes[at] ^= 1 << numbers.below(8),
                2 => {
                    bytes.remove(at);
                }
                _ => bytes.insert(at, numbers.below(4) as u8),
            }
        }
        let mut table = Table::zero();
        match load(&mut table, &bytes) {
            Ok(()) => {
                accepted[round % 2] += 1;
                assert!(table.sound());
                // "one image per book now holds per form"
                assert_eq!(image_in(form, &table), bytes);
            }
            Err(refusal) => {
                refused += 1;
                assert_eq!(refusal, no(5, 0));
                assert_eq!(table, Table::zero());
            }
        }
    }
    assert!(accepted.iter().all(|count| *count > 1_000) && refused > 3_000);
}

#[test]
fn damaged_images() {
    let good = "0b00 0100 100e0000 1c e8030000 / 0700 0200 0001000a 18 / 0700 0200 0008000a 1a / \
                1100 0300 0001000a 1a 01 00 07000000 60040000 / \
                1100 0300 8001000a 1a 02 03 08000000 60040000";
    let mut table = Table::zero();
    load(&mut table, &hex(good)).unwrap();
    let before = table.clone();
    // Each pair: what is written, and what takes its first place.
    for (old, new) in [
        ("0b00 0100", "0a00 0100"),
        ("0b00 0100", "0b00 0000"),
        ("0b00 0100", "0b00 0200"),
        ("0b00 0100", "0b00 0101"),
        ("100e0000 1c", "3b000000 1c"),
        ("100e0000 1c", "018d2700 1c"),
        ("100e0000 1c", "100e0000 00"),
        ("100e0000 1c", "100e0000 1f"),
        ("e8030000", "60040000"),
        ("e8030000", "0073d8ff"),
        ("0700 0200 0001000a 18 / ", ""),
        ("0700 0200", "0800 0200"),
        ("0700 0200", "0700 0300"),
        ("0700 0200", "0600 0200"),
        ("0001000a 18 /", "0001000a 07 /"),
        ("0001000a 18 /", "0001000a 1f /"),
        ("0001000a 18 /", "8001000a 18 /"),
        ("0001000a 18 /", "0008000a 1a /"),
        ("0001000a 18 /", "0009000a 18 /"),
        ("0001000a 18 /", "0000000a 08 /"),
        ("0008000a 1a /", "0000000a 1a /"),
        ("0700 0200 0001000a 18 /", "0700 0200 00000000 00 /"),
        ("0008000a 1a /", "0008000a 1a / 0700 0200 00000000 00 /"),
        ("1100 0300", "1000 0300"),
        ("1100 0300", "1200 0300"),
        ("1100 0300", "1100 0200"),
        ("1100 0300", "1100 0400"),
        ("1100 0300", "ffff 0300"),
        ("1100 0300", "0000 0300"),
        ("0001000a 1a 01 00", "0001000a 1f 01 00"),
        ("0001000a 1a 01 00", "0001000a 07 01 00"),
        ("0001000a 1a 01 00", "0001000a 18 01 00"),
        ("0001000a 1a 01 00", "2001000a 1a 01 00"),
        ("0001000a 1a 01 00", "0001000b 1a 01 00"),
        ("0001000a 1a 01 00", "8001000a 1a 01 00"),
        ("0001000a 1a 01 00", "c001000a 1a 01 00"),
        ("0001000a 1a 01 00", "0001000a 1a 00 00"),
        ("0001000a 1a 01 00", "0001000a 1a 03 00"),
        ("0001000a 1a 01 00", "0001000a 1a 01 04"),
        ("0001000a 1a 01 00", "0001000a 1a 01 80"),
        ("07000000 60040000", "00000000 60040000"),
        ("07000000 60040000", "07000000 e8030000"),
        ("07000000 60040000", "07000000 00000000"),
        ("08000000 60040000", "08000000 60040000 / 00"),
        (
            "08000000 60040000",
            "08000000 60040000 / 0700 0200 0010000a 18",
        ),
        ("08000000 60040000", "08000000 60040000 / 0200 0400"),
        (
            "08000000 60040000",
            "08000000 60040000 / 0b00 0100 100e0000 1c e8030000",
        ),
        ("08000000 60040000", "08000000 600400"),
    ] {
        assert!(good.contains(old), "{old}");
        let bad = good.replacen(old, new, 1);
        assert_eq!(
            load(&mut table, &hex(&bad)),
            Err(no(5, 0)),
            "{old} -> {new}"
        );
        assert_eq!(table, before);
        assert_eq!(sheet_of_image(&hex(&bad)), "refused 5\n");
    }
    let bytes = hex(good);
    for cut in 0..bytes.len() {
        // Cut between two records after a pool, it is a smaller book.
        let whole = [22, 31, 50].contains(&cut);
        assert_eq!(
            load(&mut Table::zero(), &bytes[..cut]).is_ok(),
            whole,
            "{cut}"
        );
    }
    // The head and the roots at their limits.
    for (old, new) in [
        ("100e0000 1c", "3c000000 01"),
        ("100e0000 1c", "008d2700 1e"),
        ("e8030000", "5f040000"),
        ("60040000", "e9030000"),
        ("60040000", "ffffffff"),
    ] {
        assert_eq!(
            load(&mut table, &hex(&good.replacen(old, new, 1))),
            Ok(()),
            "{new}"
        );
    }
}

#[test]
fn sheets_at_both_ends() {
    let empty = open(&pools(&["0.0.0.0/8", "255.255.255.252/30"]), 60, 1, 0).unwrap();
    let text = "sheet lines=0 free=2\nfree 0.0.0.0/8\nfree 255.255.255.252/30\n";
    assert_eq!(sheet(&empty).unwrap(), text);
    let mut table = empty;
    ask(&mut table, 9, 0, &asking(&[30, 10])).unwrap();
    let text = "sheet lines=2 free=2\nused 0.0.0.0/10 station 9 until 120\nfree 0.64.0.0/10\n\
                free 0.128.0.0/9\nused 255.255.255.252/30 station 9 until 120\n";
    assert_eq!(sheet(&table).unwrap(), text);
    assert_eq!(
        sheet(&Table::zero()).map_err(|refusal| refusal.number),
        Err(5)
    );
    assert_eq!(sheet_of_image(&[]), "refused 5\n");
}
