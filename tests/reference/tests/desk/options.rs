//! Options 220 and 118: round trips, every rule of the reader and of the writer.

use reference::option::{
    read118, read220, write118, write220, Entry, Information, Request, Suboption,
};
use reference::prefix::prefix;

use crate::common::*;

#[test]
fn a_written_option_reads_back_as_the_same_list() {
    let mut numbers = Numbers::new(1);
    let mut written = 0;
    for _ in 0..20_000 {
        let list = random_list(&mut numbers, 7);
        let mut buffer = [0xa5; 257];
        match write220(&list, &mut buffer) {
            Ok(bytes) => {
                written += 1;
                assert_eq!(read220(&buffer[..bytes]), Ok(list.clone()));
                assert!(buffer[bytes..].iter().all(|byte| *byte == 0xa5));
                // Exactly Len + 2 bytes suffice, one less does not.
                let mut exact = vec![0; bytes];
                assert_eq!(write220(&list, &mut exact), Ok(bytes));
                assert_eq!(exact[..], buffer[..bytes]);
                let mut short = vec![0x5a; bytes - 1];
                assert_eq!(write220(&list, &mut short), Err(no(14, 0)));
                assert!(short.iter().all(|byte| *byte == 0x5a));
            }
            Err(refusal) => {
                assert_eq!(refusal, no(14, 0));
                assert!(buffer.iter().all(|byte| *byte == 0xa5));
            }
        }
    }
    assert!(written > 15_000, "{written}");
}

#[test]
fn an_accepted_option_is_written_back_as_the_same_bytes() {
    // Options with a byte or two changed at random; those accepted with no unknown
    // suboption, ignored bit or fourth figure come back unchanged.
    let mut numbers = Numbers::new(2);
    let (mut same, mut refused, mut other) = (0, 0, 0);
    for _ in 0..60_000 {
        let list = random_list(&mut numbers, 4);
        let mut buffer = [0; 257];
        let Ok(bytes) = write220(&list, &mut buffer) else {
            continue;
        };
        let mut option = buffer[..bytes].to_vec();
        for _ in 0..numbers.below(3) {
            let at = numbers.below(bytes);
            option[at] = if numbers.once_in(2) {
                numbers.below(8) as u8
            } else {
                numbers.draw() as u8
            };
        }
        let Ok(read) = read220(&option) else {
            refused += 1;
            continue;
        };
        let mut back = [0; 257];
        if has_ignored_bytes(&option) {
            other += 1;
            if read.contains(&Suboption::Unknown) {
                assert_eq!(write220(&read, &mut back), Err(no(13, 0)));
            } else {
                let bytes = write220(&read, &mut back).unwrap();
                assert_eq!(read220(&back[..bytes]), Ok(read));
            }
        } else {
            same += 1;
            assert_eq!(write220(&read, &mut back), Ok(option.len()));
            assert_eq!(back[..option.len()], option[..]);
        }
    }
    assert!(
        same > 5_000 && refused > 5_000 && other > 1_000,
        "{same} {refused} {other}"
    );
}

/// An accepted option has an unknown suboption, an ignored bit set, or a figure past
/// the third. Walks the bytes on its own.
fn has_ignored_bytes(option: &[u8]) -> bool {
    let mut ignored = option[2] != 0;
    let mut place = 3;
    while place < option.len() {
        let end = place + 2 + usize::from(option[place + 1]);
        match option[place] {
            1 => ignored |= option[place + 2] > 3,
            2 => {
                ignored |= option[place + 2] > 3;
                let mut at = place + 3;
                while at < end {
                    ignored |= option[at + 5] > 3 || option[at + 6] > 6;
                    at += 7 + usize::from(option[at + 6]);
                }
            }
            3 => {}
            _ => ignored = true,
        }
        place = end;
    }
    ignored
}

#[test]
fn any_bytes_are_read_without_harm() {
    let mut numbers = Numbers::new(3);
    for _ in 0..100_000 {
        let length = numbers.below(40);
        let mut bytes: Vec<u8> = (0..length).map(|_| numbers.below(12) as u8).collect();
        if length > 1 {
            bytes[0] = if numbers.once_in(4) { 118 } else { 220 };
            bytes[1] = (length - 2) as u8;
        }
        if let Err(refusal) = read220(&bytes) {
            assert!([6, 7, 16].contains(&refusal.number));
            let inside = (3..length).contains(&usize::from(refusal.place));
            assert!(if refusal.number == 6 {
                refusal.place == 0
            } else {
                inside
            });
        }
        let _ = read118(&bytes);
    }
}

#[test]
fn input_that_is_not_exactly_the_option() {
    let good = hex("DC 05 00 01 02 00 18");
    assert!(read220(&good).is_ok());
    for cut in 0..good.len() {
        assert_eq!(read220(&good[..cut]), Err(no(6, 0)));
    }
    for text in [
        "",
        "DC",
        "DC 00",
        "DC 00 00",
        "DC 01 00",
        "DD 05 00 01 02 00 18",
        "76 05 00 01 02 00 18",
        "DC 04 00 01 02 00 18",
        "DC 06 00 01 02 00 18",
        "DC 07 00 01 02 00 18",
        "DC 05 00 01 02 00 18 00",
    ] {
        assert_eq!(read220(&hex(text)), Err(no(6, 0)), "{text}");
    }
    assert_eq!(read220(&vec![220; 258]), Err(no(6, 0)));
    for text in [
        "",
        "76",
        "76 04",
        "76 04 0A 00 01",
        "76 04 0A 00 01 00 00",
        "76 03 0A 00 01",
        "76 03 0A 00 01 00",
        "76 05 0A 00 01 00 00",
        "76 00",
        "DC 04 0A 00 01 00",
    ] {
        assert_eq!(read118(&hex(text)), Err(no(6, 0)), "{text}");
    }
}

#[test]
fn bad_suboptions_and_their_places() {
    for (text, number, place) in [
        // No Len byte, Len past the end.
        ("DC 02 00 01", 7, 3),
        ("DC 02 00 09", 7, 3),
        ("DC 03 00 09 01", 7, 3),
        ("DC 05 00 01 03 00 18", 7, 3),
        ("DC 06 00 01 02 00 18 01", 7, 7),
        ("DC 05 00 09 00 01 00", 7, 5),
        ("DC 07 00 09 02 00 00 03 00", 7, 7),
        // Request: its Len, its prefix.
        ("DC 04 00 01 01 00", 7, 3),
        ("DC 06 00 01 03 00 18 00", 7, 3),
        ("DC 05 00 01 02 00 1F", 16, 3),
        ("DC 05 00 01 02 02 1F", 16, 3),
        ("DC 05 00 01 02 00 FF", 16, 3),
        // Information: without flags, without entry, a cut entry, a cut second one.
        ("DC 03 00 02 00", 7, 3),
        ("DC 04 00 02 01 00", 7, 3),
        ("DC 0A 00 02 07 00 0A 00 01 00 18 00", 7, 3),
        ("DC 0C 00 02 09 00 0A 00 01 00 18 00 00 0A", 7, 3),
        // Prefix 0 and 31, network bits past the prefix, also in the second entry.
        ("DC 0B 00 02 08 00 00 00 00 00 00 00 00", 16, 3),
        ("DC 0B 00 02 08 00 0A 00 01 00 1F 00 00", 16, 3),
        ("DC 0B 00 02 08 00 0A 00 01 00 17 00 00", 16, 3),
        ("DC 0B 00 02 08 00 0A 00 01 01 1E 00 00", 16, 3),
        (
            "DC 12 00 02 0F 00 0A 00 01 00 18 00 00 0A 00 02 01 18 00 00",
            16,
            3,
        ),
        // Stat-len odd, and past the suboption.
        ("DC 0C 00 02 09 00 0A 00 01 00 18 00 01 00", 7, 3),
        ("DC 0B 00 02 08 00 0A 00 01 00 18 00 02", 7, 3),
        ("DC 0C 00 02 09 00 0A 00 01 00 18 00 02 00", 7, 3),
        ("DC 0F 00 02 08 00 0A 00 01 00 18 00 04 01 02 03 04", 7, 3),
        // Name: empty, ended by a zero byte.
        ("DC 03 00 03 00", 7, 3),
        ("DC 04 00 03 01 00", 16, 3),
        ("DC 05 00 03 02 77 00", 16, 3),
        // The first bad one is told, whatever its number.
        ("DC 07 00 03 00 01 02 00 1F", 7, 3),
        ("DC 07 00 01 02 00 1F 03 00", 16, 3),
        ("DC 09 00 01 02 00 18 01 02 00 1F", 16, 7),
    ] {
        assert_eq!(read220(&hex(text)), Err(no(number, place)), "{text}");
    }
    // A lone number byte as the last byte of the longest option: place 256.
    let mut longest = vec![220, 255, 0, 9, 251];
    longest.extend([0; 251]);
    longest.push(1);
    assert_eq!(longest.len(), 257);
    assert_eq!(read220(&longest), Err(no(7, 256)));
}

#[test]
fn what_the_reader_accepts() {
    // Undefined bits, unknown suboptions (4, 0 and 255 too, of any Len), figures past
    // the third, a name with a zero byte inside.
    let first = Entry {
        network: 0x0a00_0100,
        prefix: 24,
        h: true,
        d: false,
        figures: vec![10, 65535, 2],
    };
    let second = Entry {
        network: 0x8000_0000,
        prefix: 1,
        h: false,
        d: true,
        figures: vec![],
    };
    let list = read220(&hex("DC 2D FF 01 02 FF 18 04 00 00 01 07 FF 00 \
         02 10 FC 0A 00 01 00 18 FE 08 00 0A FF FF 00 02 12 34 \
         03 03 61 00 62 02 08 FD 80 00 00 00 01 FD 00"))
    .unwrap();
    assert_eq!(
        list,
        [
            Suboption::Request(Request {
                h: true,
                i: true,
                prefix: 24
            }),
            Suboption::Unknown,
            Suboption::Unknown,
            Suboption::Unknown,
            Suboption::Information(Information {
                c: false,
                s: false,
                entries: vec![first]
            }),
            Suboption::Name(vec![0x61, 0, 0x62]),
            Suboption::Information(Information {
                c: false,
                s: true,
                entries: vec![second]
            }),
        ]
    );
}

#[test]
fn flag_bits() {
    // Request: i 2, h 1. Information: c 2, s 1. Entry: h 2, d 1.
    for flags in 0..4u8 {
        let (high, low) = (flags & 2 != 0, flags & 1 != 0);
        let bytes = [220, 5, 0, 1, 2, flags, 0];
        let list = [Suboption::Request(Request {
            i: high,
            h: low,
            prefix: 0,
        })];
        assert_eq!(read220(&bytes).as_deref(), Ok(&list[..]));
        let bytes = [220, 11, 0, 2, 8, flags, 10, 0, 1, 0, 24, 3 - flags, 0];
        let mut one = entry(p("10.0.1.0/24"));
        (one.h, one.d) = (!high, !low);
        let list = [Suboption::Information(Information {
            c: high,
            s: low,
            entries: vec![one],
        })];
        assert_eq!(read220(&bytes).as_deref(), Ok(&list[..]));
        assert_eq!(option(&list), bytes);
    }
}

#[test]
fn what_the_writer_refuses() {
    let mut buffer = [0x5a; 600];
    let good = request(24);
    let mut four = entry(p("10.0.1.0/24"));
    four.figures = vec![1, 2, 3, 4];
    let bad = [
        request(31),
        information(false, false, &[]),
        information(false, false, &[prefix(0, 0)]),
        information(false, false, &[prefix(0, 31)]),
        information(false, false, &[p("10.0.1.1/24")]),
        information(false, false, &[p("10.0.1.0/24"), p("10.0.1.4/29")]),
        Suboption::Information(Information {
            c: false,
            s: false,
            entries: vec![four],
        }),
        Suboption::Name(vec![]),
        Suboption::Name(vec![0x77, 0]),
        Suboption::Unknown,
    ];
    assert_eq!(write220(&[], &mut buffer), Err(no(13, 0)));
    for one in &bad {
        assert_eq!(
            write220(std::slice::from_ref(one), &mut buffer),
            Err(no(13, 0)),
            "{one:?}"
        );
        assert_eq!(
            write220(&[good.clone(), one.clone()], &mut buffer),
            Err(no(13, 0))
        );
        // 13 comes before 14, wherever the bad one is.
        assert_eq!(
            write220(&[good.clone(), one.clone()], &mut []),
            Err(no(13, 0))
        );
        let long = Suboption::Name(vec![0x61; 300]);
        assert_eq!(write220(&[long, one.clone()], &mut buffer), Err(no(13, 0)));
    }
    // Len 255 is written, 256 is not; a suboption's own Len above 255 neither.
    assert_eq!(
        write220(&[Suboption::Name(vec![0x61; 252])], &mut buffer),
        Ok(257)
    );
    assert!(buffer[257..].iter().all(|byte| *byte == 0x5a));
    let mut buffer = [0x5a; 600];
    for length in [253, 255, 256, 300, 70_000] {
        assert_eq!(
            write220(&[Suboption::Name(vec![0x61; length])], &mut buffer),
            Err(no(14, 0))
        );
    }
    let many = information(false, false, &[p("10.0.1.0/24"); 36]);
    assert_eq!(write220(&[many], &mut buffer), Err(no(14, 0)));
    assert_eq!(
        write220(&vec![request(24); 64], &mut buffer),
        Err(no(14, 0))
    );
    assert!(buffer.iter().all(|byte| *byte == 0x5a));
    assert_eq!(write220(&vec![request(24); 63], &mut buffer), Ok(255));
    let mut small = [0x5a; 5];
    assert_eq!(write118(1, &mut small), Err(no(14, 0)));
    assert_eq!(small, [0x5a; 5]);
    let mut large = [0x5a; 8];
    assert_eq!(write118(1, &mut large), Ok(6));
    assert_eq!(large, [118, 4, 0, 0, 0, 1, 0x5a, 0x5a]);
}
