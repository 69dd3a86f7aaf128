//! Scripts for M-104: 7 for a suboption's framing, 16 for a field outside the rules. The answer
//! to each piece is known beforehand, and held to here.

use reference::faults::{bad_pieces, option_of, BOTH, FIELDS, FRAMING, GOOD, PAST_THE_END};
use reference::numbers::Numbers;
use reference::prefix::{prefix, Prefix};
use reference::samples::{lease, table, TEN};
use reference::table::State;

use crate::{bytes_of, hex, image, Script};

const REQUEST: &str = "0102001a";
const LISTING: &str = "01020200";
const CALLS: [&str; 4] = ["ask", "take", "list", "return"];

fn answer(number: u8, place: usize) -> String {
    format!("refused {number} place={place}\n")
}

fn read(script: &mut Script, bytes: &[u8], number: u8, place: usize) {
    let got = script.say(&format!("read {}", hex(bytes)));
    assert_eq!(got, answer(number, place));
}

/// Each fault of each kind of suboption, alone and among good ones.
pub fn reading() -> String {
    let mut script = Script::new(
        "M-104: 7 for framing, 16 for a field outside the rules; each alone, after and before \
         good suboptions.",
    );
    for (about, pieces, number) in [
        ("No Len byte, Len past the end.", &PAST_THE_END[..], 7),
        (
            "A Len that the suboption can't have, an entry cut short, a figure length odd or past the end.",
            &FRAMING,
            7,
        ),
        (
            "A field: a prefix, network bits past it, a name's final zero.",
            &FIELDS,
            16,
        ),
        (
            "Both in one suboption, in either order: framing first, over the whole of it.",
            &BOTH,
            7,
        ),
    ] {
        script.remark(about);
        for piece in pieces {
            read(&mut script, &option_of(&[piece]), number, 3);
            let last = option_of(&["0102001a", piece]);
            read(&mut script, &last, number, 7);
        }
        if about.starts_with("No Len") {
            continue;
        }
        for (index, piece) in pieces.iter().enumerate() {
            let good = GOOD[index % GOOD.len()];
            let first = option_of(&[piece, good]);
            read(&mut script, &first, number, 3);
            let place = 3 + bytes_of(&good.replace(' ', "")).len();
            let between = option_of(&[good, piece, "0900", good]);
            read(&mut script, &between, number, place);
        }
    }
    script.remark("All good, and each of them alone.");
    let all = option_of(&GOOD);
    script.say(&format!("read {}", hex(&all)));
    for good in GOOD {
        script.say(&format!("read {}", hex(&option_of(&[good]))));
    }
    script.remark("Every prefix of a request and of an entry: 30 is the last that is not 16.");
    for length in [0, 1, 8, 29, 30, 31, 32, 33, 63, 64, 127, 128, 254, 255] {
        for piece in [
            format!("010200{length:02x}"),
            format!("020800000000{:02x}{length:02x}0000", 0),
            format!("020800{:08x}{length:02x}0000", 1),
            format!("020900{:08x}{length:02x}000000", 0),
        ] {
            script.say(&format!("read {}", hex(&option_of(&[&piece]))));
        }
    }
    script.text
}

/// Two bad suboptions: the first wins, whatever its number.
pub fn two() -> String {
    let mut script = Script::new(
        "M-104: two bad suboptions; the first wins, whatever its number, also where the second \
         is cut.",
    );
    let some = |pieces: &[&'static str], step: usize| -> Vec<&'static str> {
        pieces.iter().step_by(step).copied().collect()
    };
    let framing: Vec<&str> = [some(&FRAMING, 3), some(&BOTH, 3)].concat();
    let fields = some(&FIELDS, 3);
    script.remark("A field, then framing.");
    for first in &fields {
        for second in framing.iter().chain(&some(&PAST_THE_END, 4)) {
            read(&mut script, &option_of(&[first, second]), 16, 3);
        }
    }
    script.remark("Framing, then a field.");
    for first in &framing {
        for second in &fields {
            read(&mut script, &option_of(&[first, second]), 7, 3);
        }
    }
    script.remark("Good ones before and between; three bad ones.");
    for (first, number) in bad_pieces() {
        for (second, third) in [("03020000", "0100"), ("0300", "0102001f")] {
            let pieces = ["09021f00", first, REQUEST, second, third];
            read(&mut script, &option_of(&pieces), number, 7);
        }
    }
    script.text
}

/// Places up to 256.
pub fn places() -> String {
    let mut script = Script::new(
        "M-104: the place is the suboption's number byte, for 16 as for 7; up to 256 and 254.",
    );
    for (piece, number) in [
        ("01", 7),
        ("0300", 7),
        ("0102001f", 16),
        ("030100", 16),
        ("0208000a000101180000", 16),
    ] {
        let size = piece.len() / 2;
        script.remark(piece);
        for skipped in (0..=252 - size).filter(|skipped| skipped % 32 == 0 || *skipped > 248 - size)
        {
            let first = format!("09{skipped:02x}{}", "00".repeat(skipped));
            let bytes = option_of(&[&first, piece]);
            read(&mut script, &bytes, number, 5 + skipped);
        }
    }
    script.remark("An entry deep inside: the place is the suboption's.");
    let good = "0a000000180000".repeat(34);
    for (entry, number) in [
        ("0a0000001f0000", 16),
        ("0a000001180000", 16),
        ("0a000000180001", 7),
        ("0a000001180002", 7),
        ("0a0000011800", 7),
    ] {
        let len = 1 + 34 * 7 + entry.len() / 2;
        let piece = format!("02{len:02x}00{good}{entry}");
        read(&mut script, &option_of(&[&piece]), number, 3);
        read(&mut script, &option_of(&["0900", &piece]), number, 5);
    }
    script.remark("The first of 35 entries bad, the last one cut, or its figure length odd.");
    for (entry, number) in [
        ("0a000000180000", 16),
        ("0a0000001800", 7),
        ("0a000000180001", 7),
    ] {
        let middle = &good[14..];
        let len = 1 + 34 * 7 + entry.len() / 2;
        let piece = format!("02{len:02x}000a000001180000{middle}{entry}");
        read(&mut script, &option_of(&[&piece]), number, 3);
    }
    script.text
}

fn one_lease(script: &mut Script) -> (Prefix, String) {
    let at = prefix(TEN, 25);
    let leases = vec![lease(at, 7, State::Leased, u32::MAX)];
    let book = image(&table(&[prefix(TEN, 22)], 1000, leases));
    script.say(&format!("load {book}"));
    (at, format!("0208000a000000{:02x}0000", at.length))
}

/// What a call demands, as a piece.
fn demanded(call: &str, entry: &str) -> String {
    match call {
        "ask" => REQUEST.to_string(),
        "list" => LISTING.to_string(),
        _ => entry.to_string(),
    }
}

/// Every call that reads the option, beside what it demands and beside what gets 8.
pub fn calls() -> String {
    let mut script = Script::new(
        "M-104: ask, take, list and return refuse with 16 as with 7: with the place, before 8, \
         and nothing changes.",
    );
    let (_, entry) = one_lease(&mut script);
    for name in CALLS {
        script.remark(name);
        let good = demanded(name, &entry);
        let wrong = if name == "ask" { LISTING } else { REQUEST };
        let place = 3 + good.len() / 2;
        let bad = |script: &mut Script, pieces: &[&str], number: u8, place: usize| {
            let line = format!("{name} 7 1000 {}", hex(&option_of(pieces)));
            assert_eq!(script.say(&line), answer(number, place));
        };
        for (index, (piece, number)) in bad_pieces().into_iter().enumerate() {
            match index % 4 {
                0 => bad(&mut script, &[piece], number, 3),
                1 => bad(&mut script, &[&good, piece], number, place),
                2 => bad(&mut script, &[piece, &good], number, 3),
                _ => bad(&mut script, &[&good, piece, wrong], number, place),
            }
        }
        for piece in PAST_THE_END {
            bad(&mut script, &[&good, piece], 7, place);
        }
        script.remark("Two bad ones, in either order.");
        for (first, second, number) in [
            ("0102001f", "0100", 16),
            ("0100", "0102001f", 7),
            ("030100", "0208000a0001001800ff", 16),
            ("0208000a000101180002", "030100", 7),
        ] {
            bad(
                &mut script,
                &[&good, wrong, first, second],
                number,
                place + wrong.len() / 2,
            );
        }
        script.remark("The last places: 256 for 7, 254 and 253 for 16.");
        for (piece, number, place) in [("01", 7, 256), ("030100", 16, 254), ("0102001f", 16, 253)] {
            let skipped = place - 3 - good.len() / 2 - 2;
            let unknown = format!("09{skipped:02x}{}", "00".repeat(skipped));
            bad(&mut script, &[&good, &unknown, piece], number, place);
        }
        script.remark("Rows before: 6 for a Len that is wrong, 1, 2, 3 and 4; after: 8.");
        let bytes = hex(&option_of(&[&good, "0102001f"]));
        script.say(&format!("{name} 7 1000 {bytes}00"));
        script.say(&format!("{name} 7 1000 {}", hex(&option_of(&[wrong]))));
        script.say(&format!("{name} 0 1000 {bytes}"));
        script.say(&format!("{name} 7 999 {bytes}"));
        script.say(&format!("{name} 7 {} {bytes}", u32::MAX));
        script.say("buffer 256");
        script.say(&format!("{name} 7 1000 {bytes}"));
        script.say("buffer 257");
        script.say("save");
        script.say("figures");
        script.say("counts");
    }
    script.remark("Without the bad suboption.");
    for name in CALLS {
        let good = demanded(name, &entry);
        script.say(&format!("{name} 7 1000 {}", hex(&option_of(&[&good]))));
    }
    script.say("save");
    script.text
}

/// Random calls whose options have bad suboptions among good ones.
pub fn random() -> String {
    let mut numbers = Numbers::new(104);
    let mut script = Script::new(
        "M-104: random calls and reads, many with a bad suboption or two, some with a byte changed.",
    );
    let (_, entry) = one_lease(&mut script);
    let bad = bad_pieces();
    for step in 0..900 {
        let name = ["ask", "take", "list", "return", "read", "read"][numbers.below(6)];
        let mut pieces = Vec::new();
        for _ in 0..numbers.between(1, 4) {
            pieces.push(match numbers.below(6) {
                0 => bad[numbers.below(bad.len())].0.to_string(),
                1 | 2 => GOOD[numbers.below(GOOD.len())].to_string(),
                _ => demanded(name, &entry),
            });
        }
        let pieces: Vec<&str> = pieces.iter().map(String::as_str).collect();
        let mut bytes = option_of(&pieces);
        if numbers.once_in(4) {
            let at = numbers.between(3, bytes.len() - 1);
            bytes[at] = [0, 1, 2, 3, 8, 24, 30, 31, 255][numbers.below(9)];
        }
        if name == "read" {
            script.say(&format!("read {}", hex(&bytes)));
        } else {
            script.say(&format!("{name} 7 {} {}", 1000 + step / 4, hex(&bytes)));
        }
        if step % 60 == 59 {
            script.say("save");
            one_lease(&mut script);
        }
    }
    script.text
}
