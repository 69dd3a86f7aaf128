//! M-104 of document 02: 7 for a suboption's framing, 16 for a field outside the rules.

use reference::faults::{bad_pieces, option_of, GOOD, PAST_THE_END};
use reference::option::read220;

use crate::common::*;

/// Those that can only be last, too.
fn bad_at_the_end() -> Vec<(&'static str, u8)> {
    let mut pieces = bad_pieces();
    pieces.extend(PAST_THE_END.map(|piece| (piece, 7)));
    pieces
}

#[test]
fn each_fault_alone_first_and_last() {
    for (piece, number) in bad_at_the_end() {
        assert_eq!(read220(&option_of(&[piece])), Err(no(number, 3)), "{piece}");
        for good in GOOD {
            let place = 3 + hex(good).len() as u16;
            let bytes = option_of(&[good, piece]);
            assert_eq!(read220(&bytes), Err(no(number, place)), "{good} {piece}");
        }
    }
    for (piece, number) in bad_pieces() {
        for good in GOOD {
            let bytes = option_of(&[piece, good]);
            assert_eq!(read220(&bytes), Err(no(number, 3)), "{piece} {good}");
        }
    }
    assert!(read220(&option_of(&GOOD)).is_ok());
}

#[test]
fn between_suboptions_the_first_wins_whatever_its_number() {
    let last = bad_at_the_end();
    let mut met = [0; 4];
    for (first, number) in bad_pieces() {
        for (second, other) in &last {
            met[usize::from(number == 16) + 2 * usize::from(*other == 16)] += 1;
            let bytes = option_of(&[first, second]);
            assert_eq!(read220(&bytes), Err(no(number, 3)), "{first} {second}");
            let bytes = option_of(&["09 01 00", first, "01 02 00 18", second]);
            assert_eq!(read220(&bytes), Err(no(number, 6)), "{first} {second}");
        }
    }
    assert!(met.iter().all(|count| *count > 400), "{met:?}");
}

/// What is wrong with the first bad suboption, and where, said once more and otherwise: by
/// places of bytes in the whole option, framing in a pass of its own.
fn fault(option: &[u8]) -> Option<(u8, usize)> {
    let mut place = 3;
    while place < option.len() {
        let Some(&len) = option.get(place + 1) else {
            return Some((7, place));
        };
        let end = place + 2 + usize::from(len);
        let number = option[place];
        let mut entries = Vec::new();
        let mut framed = end <= option.len();
        if framed && number == 2 {
            let mut at = place + 3;
            while at + 7 <= end {
                entries.push(at);
                framed &= option[at + 6] & 1 == 0;
                at += 7 + usize::from(option[at + 6]);
            }
            framed &= at == end && len > 1;
        }
        framed &= (number != 1 || len == 2) && (number != 3 || len != 0);
        if !framed {
            return Some((7, place));
        }
        let zeros = |at: usize| {
            let network = [0, 1, 2, 3].map(|byte| option[at + byte]);
            u32::from_be_bytes(network).trailing_zeros()
        };
        let outside = |at: &usize| {
            let length = option[at + 4];
            length == 0 || length > 30 || zeros(*at) + u32::from(length) < 32
        };
        let bad = match number {
            1 => option[place + 3] > 30,
            2 => entries.iter().any(outside),
            3 => option[end - 1] == 0,
            _ => false,
        };
        if bad {
            return Some((16, place));
        }
        place = end;
    }
    None
}

#[test]
fn any_option_gets_what_its_first_bad_suboption_deserves() {
    let mut numbers = Numbers::new(104);
    let mut met = [0; 3];
    for round in 0..300_000 {
        let mut bytes = vec![220, 0, 0];
        if round % 3 == 0 {
            // Small bytes, so that numbers, Lens and stat-lens mean something.
            bytes.extend((0..numbers.between(1, 30)).map(|_| numbers.below(10) as u8));
        } else {
            let all = bad_pieces();
            for _ in 0..numbers.between(1, 4) {
                let piece = if numbers.once_in(3) {
                    all[numbers.below(all.len())].0
                } else {
                    GOOD[numbers.below(GOOD.len())]
                };
                bytes.extend(hex(piece));
            }
            for _ in 0..numbers.below(2) {
                let at = numbers.between(3, bytes.len() - 1);
                bytes[at] = [0, 1, 2, 3, 7, 8, 9, 24, 30, 31, 255][numbers.below(11)];
            }
        }
        bytes[1] = (bytes.len() - 2) as u8;
        let expected = fault(&bytes);
        match (read220(&bytes), expected) {
            (Ok(_), None) => met[0] += 1,
            (Err(refusal), Some((number, place))) => {
                assert_eq!(refusal, no(number, place as u16), "{bytes:02x?}");
                met[1 + usize::from(number == 16)] += 1;
            }
            (answer, _) => panic!("{bytes:02x?}: {answer:?} {expected:?}"),
        }
    }
    assert!(met.iter().all(|count| *count > 40_000), "{met:?}");
}

#[test]
fn the_last_places() {
    // 7 at 256, the last byte of the longest option; 16 at 254 (a name of a zero) and 253.
    for (skipped, piece, number, place) in [
        (251, "01", 7, 256),
        (251, "03", 7, 256),
        (250, "03 00", 7, 255),
        (249, "03 01 00", 16, 254),
        (248, "01 02 00 1F", 16, 253),
        (248, "01 02 00", 7, 253),
        (242, "02 08 00 0A 00 01 01 18 00 00", 16, 247),
    ] {
        let mut bytes = vec![220, 255, 0, 9, skipped];
        bytes.extend(vec![0; usize::from(skipped)]);
        bytes.extend(hex(piece));
        bytes[1] = (bytes.len() - 2) as u8;
        assert_eq!(read220(&bytes), Err(no(number, place)), "{skipped} {piece}");
    }
}

#[test]
fn every_call_that_reads_the_option_has_both_and_changes_nothing() {
    let at = p("10.0.0.0/25");
    let leases = [lease(at, 7, reference::table::State::Leased, 5000)];
    let before = table_with(&["10.0.0.0/22"], 1000, &leases);
    for (piece, number) in bad_pieces() {
        // Beside a request and an entry each call would otherwise give 8.
        for (pieces, place) in [
            (vec![piece], 3),
            (vec!["01 02 02 00", piece], 7),
            (vec!["02 08 00 0A 00 00 00 19 00 00", piece], 13),
            (vec![piece, "01 02 02 00", "01 02 00 18"], 3),
        ] {
            let bytes = option_of(&pieces);
            let mut table = before.clone();
            let refused = no(number, place);
            assert_eq!(ask(&mut table, 7, 1000, &bytes), Err(refused));
            assert_eq!(take(&mut table, 7, 1000, &bytes), Err(refused));
            assert_eq!(list(&table, 7, 1000, &bytes), Err(refused));
            assert_eq!(release(&mut table, 7, 1000, &bytes).err(), Some(refused));
            assert_eq!(table, before);
        }
    }
}
