//! Scripts for M-105, names on the leases and the second saved form; what can be known of an
//! answer beforehand is held to here.

use reference::image::Form;
use reference::numbers::Numbers;
use reference::option::Suboption;
use reference::prefix::{prefix, Prefix};
use reference::samples::{
    full_table, image_in, information, lease, named, option, request, request_i, row_of_leases,
    table, TEN,
};
use reference::table::{Lease, State, Table, LEASES, NAME};

use crate::{
    asking, bytes_of, combinations, echo_page, entries, hex, image, option_for, second, try_image,
    Script,
};

fn name(octets: &[u8]) -> Suboption {
    Suboption::Name(octets.to_vec())
}

/// An ask for these lengths after these names.
fn asking_as(names: &[&[u8]], lengths: &[u8]) -> String {
    let mut list: Vec<Suboption> = names.iter().map(|octets| name(octets)).collect();
    list.extend(lengths.iter().map(|length| request(*length, false)));
    let bytes = option(&list);
    assert!(!bytes.is_empty());
    hex(&bytes)
}

/// So many octets, of which none is zero and not all are letters.
fn octets(length: usize) -> Vec<u8> {
    (0..length).map(|at| (0x61 + 5 * at) as u8 | 1).collect()
}

fn at(offset: u32, length: u8) -> Prefix {
    prefix(TEN + 256 + offset, length)
}

fn held(at: Prefix, client: u32, octets: &[u8]) -> Lease {
    named(lease(at, client, State::Offered, 1120), octets)
}

/// Names of every length that matters, and what may be in one.
pub fn lengths() -> String {
    let mut script = Script::new(
        "Names (M-105): 0 to 24 octets, 25 and more get 17; zeros inside, octets that are not \
         ASCII. They do not show in replies.",
    );
    script.say("open 3600 28 1000 10.0.1.0/24");
    script.remark("No Name, and Names of each length; 244 is the longest beside two requests.");
    for length in [
        0, 1, 2, 7, 8, 9, 15, 16, 17, 22, 23, 24, 25, 26, 31, 32, 48, 244,
    ] {
        let octets = octets(length);
        let names: &[&[u8]] = if length == 0 { &[] } else { &[&octets] };
        let answer = script.say(&format!("ask 7 1000 {}", asking_as(names, &[26, 28])));
        assert_eq!(answer == "refused 17\n", length > NAME, "{length}");
        script.say("save");
        script.say("sheet");
        if length <= NAME {
            let both = entries(&[at(0, 26), at(64, 28)]);
            assert_eq!(script.say(&format!("return 7 1000 {both}")), "ok count=2\n");
        }
    }
    script.remark("248, the longest beside one request.");
    let longest = asking_as(&[&octets(248)], &[26]);
    assert_eq!(script.say(&format!("ask 7 1000 {longest}")), "refused 17\n");
    script.remark("252, the longest of all: no request beside it, so 8.");
    let longest = hex(&option(&[name(&octets(252))]));
    assert_eq!(script.say(&format!("ask 7 1000 {longest}")), "refused 8\n");
    script.remark("Zeros inside, at the front, all but the last; 0xff; a space; a newline.");
    for octets in [
        &[0, 0x61][..],
        &[0x61, 0, 0x62],
        &[0x61, 0, 0, 0, 0, 0, 0, 0, 0x62],
        &[
            0, 0, 0, 0, 0, 0, 0, 0, 0, 0, 0, 0, 0, 0, 0, 0, 0, 0, 0, 0, 0, 0, 0, 1,
        ],
        &[0, 0, 0, 0, 0, 0, 0, 1],
        &[0, 0, 0, 0, 0, 0, 0, 0, 1],
        &[0xff; 24],
        &[0xff],
        b" ",
        b"a ",
        &[0x0a, 0x0d],
        &[0xc3, 0xa9, 0xe2, 0x82, 0xac],
        &[0x1f, 0x20, 0x7e, 0x7f, 0x80],
        b"name name",
    ] {
        script.say(&format!("ask 7 1000 {}", asking_as(&[octets], &[26])));
        let answer = script.say("save");
        assert!(answer.contains(&hex(octets)));
        script.say("sheet");
        script.say("save 1");
        script.say(&format!("load {}", second(&script.console.table)));
        script.say("sheet");
        script.say(&format!("return 7 1000 {}", entries(&[at(0, 26)])));
    }
    script.remark("One that ends in zero is the reader's matter, whatever its length.");
    for bad in ["0302610001020018", "03010001020018"] {
        let body = format!("00{bad}");
        let bytes = format!("dc{:02x}{body}", body.len() / 2);
        script.say(&format!("ask 7 1000 {bytes}"));
    }
    let mut long = option(&[name(&octets(25)), request(26, false)]);
    long[29] = 0;
    let answer = script.say(&format!("ask 7 1000 {}", hex(&long)));
    assert_eq!(answer, "refused 16 place=3\n");
    script.say("save");
    script.text
}

/// Several Names in an ask: the first one counts.
pub fn two() -> String {
    let mut script = Script::new(
        "Names (M-105): the first Name of an ask counts, a later one may be of any length; the \
         same name for all leases newly made by the message.",
    );
    let long = octets(40);
    script.say("open 3600 28 1000 10.0.1.0/24");
    for (names, refused) in [
        (vec![&b"first"[..], b"second"], false),
        (vec![b"first", &long], false),
        (vec![b"f", &long, &long, b"last"], false),
        (vec![&long[..24], &long[..25]], false),
        (vec![&long[..25], &long[..24]], true),
        (vec![&long[..], b"short"], true),
        (vec![&long, &long], true),
    ] {
        let answer = script.say(&format!("ask 7 1000 {}", asking_as(&names, &[26, 27])));
        assert_eq!(answer == "refused 17\n", refused);
        script.say("save");
        if !refused {
            script.say(&format!(
                "return 7 1000 {}",
                entries(&[at(0, 26), at(64, 27)])
            ));
        }
    }
    script.remark("Before, between and after the requests; among other pieces.");
    for list in [
        vec![request(28, false), name(b"one"), request(28, true)],
        vec![
            request(29, false),
            request(29, true),
            name(b"two"),
            name(&long),
        ],
        vec![
            information(true, true, &[at(0, 26)]),
            request(30, false),
            name(b"three"),
            request(30, true),
            name(b"four"),
        ],
        vec![
            name(&long[..24]),
            request(0, false),
            request(27, false),
            name(b"x"),
        ],
    ] {
        script.say(&format!("ask 8 1001 {}", hex(&option(&list))));
        script.say("sheet");
    }
    script.say("save");
    script.remark("Unknown suboptions are no names, whatever they hold.");
    let list = format!("00{}{}{}", "0402616101020018", "0902ffff", "03017a");
    let list = list.replace("01020018", "0102001e");
    script.say(&format!("ask 9 1002 dc{:02x}{list}", list.len() / 2));
    script.say("sheet");
    script.remark("25 new leases of one message.");
    script.say("open 3600 28 1000 10.0.0.0/16");
    script.say(&format!(
        "ask 7 1000 {}",
        asking_as(&[b"west hall"], &[30; 25])
    ));
    script.say("sheet");
    script.say("save");
    script.remark("Partly granted: those that are granted have it.");
    script.say("open 3600 28 1000 10.0.1.0/24");
    script.say(&format!(
        "ask 7 1000 {}",
        asking_as(&[b"some"], &[23, 25, 24, 26, 8])
    ));
    script.say("sheet");
    script.text
}

/// 17 among the other numbers.
pub fn numbers() -> String {
    let mut script = Script::new(
        "Names (M-105): every combination of rows with 17; it is after 8 and before 9 and 10, also \
         where all would be re-given. Options for 6, 7, 16 and 8 have the long name as well.",
    );
    let good = asking_as(&[&octets(24), &octets(30)], &[30]);
    let long = asking_as(&[&octets(25), b"x"], &[30]);
    let mut options: Vec<(u8, String)> = [6, 7, 16, 8]
        .into_iter()
        .map(|row| (row, option_for(row, &long, "01020200")))
        .collect();
    options.extend([(0, good), (17, long)]);
    let call = |client: u32, now: u32, option: &str| format!("ask {client} {now} {option}");
    script.remark("No table yet: all zero, not sound.");
    combinations(&mut script, &options, 0, &call);
    script.remark("A table with ground and empty lines.");
    script.say("open 3600 28 1000 10.0.0.0/22");
    combinations(&mut script, &options, 0, &call);
    let full = |leases| table(&[prefix(TEN, 20)], 1000, leases);
    script.remark("No free block: 10.");
    let taken = vec![named(
        lease(prefix(TEN, 20), 7, State::Leased, u32::MAX),
        b"all of it",
    )];
    script.say(&format!("load {}", second(&full(taken))));
    combinations(&mut script, &options, 10, &call);
    script.remark("Neither an empty line nor a free block: 9.");
    let leases = row_of_leases(1_024, 7, u32::MAX);
    script.say(&format!("load {}", image(&full(leases.clone()))));
    combinations(&mut script, &options, 9, &call);
    script.remark("The same, but the client holds a line of that length: it is given again.");
    let mut held = leases;
    held[900] = named(held[900], b"held");
    held[900].state = State::Offered;
    script.say(&format!("load {}", second(&full(held))));
    combinations(&mut script, &options, 0, &call);
    script.remark("A sheet of figures that does not match: 15 before it.");
    script.say("open 3600 28 1000 10.0.0.0/22");
    script.say(&format!(
        "figures {}",
        "00".repeat(reference::figures::SHEET)
    ));
    combinations(&mut script, &options, 0, &call);
    script.remark("Take, return and list do not look at the length of a name.");
    let book = table(
        &[at(0, 24)],
        1000,
        vec![lease(at(0, 26), 7, State::Leased, 5000)],
    );
    script.say(&format!("load {}", image(&book)));
    for (call, list) in [
        ("list", vec![name(&octets(200)), request_i()]),
        (
            "take",
            vec![name(&octets(25)), information(false, false, &[at(0, 26)])],
        ),
        ("list", vec![request_i(), name(&octets(25)), name(b"x")]),
        (
            "return",
            vec![information(false, false, &[at(0, 26)]), name(&octets(25))],
        ),
    ] {
        let answer = script.say(&format!("{call} 7 1000 {}", hex(&option(&list))));
        assert!(answer.starts_with("ok"));
        script.say("sheet");
    }
    script.text
}

/// What keeps a name.
pub fn kept() -> String {
    let mut script = Script::new(
        "Names (M-105): a re-given lease keeps its own; take, mark, list and the calls of others \
         keep it.",
    );
    script.say("open 3600 28 1000 10.0.1.0/24");
    script.say(&format!("ask 7 1000 {}", asking_as(&[b"west hall"], &[26])));
    script.remark("Re-given: with another name, without one, with one that is as long.");
    for names in [&[&b"east"[..]][..], &[], &[b"east hall"], &[&[1; 24]]] {
        let answer = script.say(&format!("ask 7 1001 {}", asking_as(names, &[26])));
        assert_eq!(
            answer,
            format!("ok bytes=13 count=1 {}\n", entries(&[at(0, 26)]))
        );
        script.say("save");
    }
    script.remark("Where all would be re-given, 25 octets are 17 all the same.");
    let long = asking_as(&[&octets(25)], &[26]);
    assert_eq!(script.say(&format!("ask 7 1001 {long}")), "refused 17\n");
    script.remark("One re-given and two new in one message: the new ones have the message's.");
    script.say(&format!(
        "ask 7 1002 {}",
        asking_as(&[b"east"], &[28, 26, 27])
    ));
    script.say("sheet");
    script.say("save");
    script.remark("One without a name, re-given with one: it keeps none.");
    script.say(&format!("ask 8 1002 {}", asking(&[29])));
    script.say(&format!("ask 8 1003 {}", asking_as(&[b"late"], &[29])));
    script.say("sheet");
    script.remark("Taken, marked, renewed, listed; a Name in these has no effect.");
    let all = [at(0, 26), at(64, 27), at(96, 28)];
    script.say(&format!("take 7 1004 {}", entries(&all)));
    script.say("save");
    for d in [1, 0] {
        script.say(&format!("mark 1005 {} {d}", at(0, 26)));
        script.say("save");
    }
    let list = option(&[name(b"north"), information(false, false, &all[..2])]);
    script.say(&format!("take 7 1006 {}", hex(&list)));
    script.say(&format!(
        "list 7 1006 {}",
        hex(&option(&[name(b"x"), request_i()]))
    ));
    script.say("save");
    script.remark("Leased now, so an ask makes new ones, before and after them.");
    script.say(&format!(
        "ask 7 1007 {}",
        asking_as(&[b"more"], &[26, 27, 28, 30])
    ));
    script.say("sheet");
    script.say("save");
    script.remark("Figures go their own way.");
    script.say("figures");
    script.say("counts");
    script.text
}

/// A name goes with its lease, and leaves nothing behind.
pub fn struck() -> String {
    let mut script = Script::new(
        "Names (M-105): a name goes with a struck lease; what is granted there next has the name \
         of its own ask, or none.",
    );
    script.say("open 3600 28 1000 10.0.1.0/24");
    let longest = [0xee; 24];
    for (first, next) in [
        (&longest[..], None),
        (&longest, Some(&b"x"[..])),
        (b"x", Some(&longest)),
        (b"west hall", Some(b"east")),
        (b"east", Some(b"west hall")),
    ] {
        for how in ["return", "ended"] {
            script.remark(how);
            script.say(&format!("ask 7 1000 {}", asking_as(&[first], &[26])));
            let now = match how {
                "return" => {
                    script.say(&format!("return 7 1000 {}", entries(&[at(0, 26)])));
                    1000
                }
                _ => 1120,
            };
            script.say("save");
            let names: Vec<&[u8]> = next.into_iter().collect();
            script.say(&format!("ask 8 {now} {}", asking_as(&names, &[26])));
            let answer = script.say("save");
            assert!(!answer.contains(&hex(first)));
            script.say("sheet");
            script.say("open 3600 28 1000 10.0.1.0/24");
        }
    }
    script.remark("Leases with and without a name around one that goes, by each call.");
    let book = table(
        &[at(0, 24)],
        1000,
        vec![
            held(at(0, 28), 7, b"first"),
            held(at(16, 28), 7, b""),
            named(lease(at(32, 28), 7, State::Leased, 1010), &longest),
            held(at(48, 28), 8, b"fourth"),
            named(lease(at(64, 28), 8, State::Leased, 1010), b"fifth"),
            held(at(80, 28), 8, &longest),
        ],
    );
    for call in [
        format!("return 7 1000 {}", entries(&[at(0, 28)])),
        format!("return 7 1000 {}", entries(&[at(16, 28), at(32, 28)])),
        format!("return 8 1010 {}", entries(&[at(80, 28)])),
        format!("take 7 1010 {}", entries(&[at(16, 28)])),
        format!("mark 1010 {} 1", at(48, 28)),
        format!("ask 9 1010 {}", asking(&[28, 28, 28])),
        format!("ask 9 1010 {}", asking_as(&[b"new"], &[28, 28, 28])),
        format!("ask 7 1010 {}", asking_as(&[b"new"], &[28, 28, 28])),
        format!("ask 9 1120 {}", asking(&[24])),
    ] {
        script.say(&format!("load {}", second(&book)));
        script.say(&call);
        script.say("save");
        script.say("sheet");
        script.say("save 1");
    }
    script.remark("Refused: nothing is struck, every name stays.");
    script.say(&format!("load {}", second(&book)));
    for call in [
        format!("ask 9 1010 {}", asking_as(&[b"new"], &[24])),
        format!("ask 9 1010 {}", asking_as(&[&octets(25)], &[28])),
        format!("take 9 1010 {}", entries(&[at(16, 28)])),
        format!("return 7 1010 {}", entries(&[at(32, 28)])),
        format!("mark 1010 {} 1", at(64, 28)),
    ] {
        assert!(script.say(&call).starts_with("refused"));
        assert_eq!(
            script.say("save 2"),
            format!("ok bytes={} {}\n", 13 + 9 + 6 * 44, second(&book))
        );
    }
    script.text
}

/// Loads, saves and loads again, in both forms.
pub fn forms() -> String {
    let mut script = Script::new(
        "The two forms (M-105): a book without names has two images, one in each form; load and \
         save undo each other in each, and from the first to the second and back.",
    );
    let empty = table(&[at(0, 24)], 1000, Vec::new());
    let eight = table(
        &(0..8)
            .map(|index| prefix(TEN + (index << 16), 16))
            .collect::<Vec<_>>(),
        0,
        Vec::new(),
    );
    let one = table(&[at(0, 24)], 1000, vec![held(at(0, 26), 7, b"")]);
    for (about, book) in [
        ("no lease", empty),
        ("no lease, eight pools", eight),
        ("one lease", one),
        ("1,024 leases", full_table()),
    ] {
        script.remark(about);
        let (first, second) = (image(&book), second(&book));
        for start in [&first, &second] {
            assert_eq!(script.say(&format!("load {start}")), "ok\n");
            assert!(script.say("save 2").ends_with(&format!(" {second}\n")));
            assert!(script.say("save 1").ends_with(&format!(" {first}\n")));
            assert!(script.say("save").ends_with(&format!(" {second}\n")));
            script.say(&format!("load {second}"));
            assert!(script.say("save 1").ends_with(&format!(" {first}\n")));
            script.say(&format!("load {first}"));
            assert!(script.say("save 2").ends_with(&format!(" {second}\n")));
        }
        script.say("sheet");
        script.say("counts");
    }
    script.remark("What was loaded in the first form gets names like any other book.");
    let one = table(&[at(0, 24)], 1000, vec![held(at(0, 26), 7, b"")]);
    script.say(&format!("load {}", image(&one)));
    script.say(&format!("ask 8 1000 {}", asking_as(&[b"kiosk"], &[26])));
    script.say("save 1");
    script.say("save 2");
    script.say(&format!("load {}", second(&script.console.table)));
    script.say("sheet");
    script.text
}

/// Going back is refused exactly if a line has a name.
pub fn going_back() -> String {
    let mut script = Script::new(
        "Going back to the first form (M-105): 18 exactly if a lease has a name; 5 before it.",
    );
    script.remark("No book: 5 in both forms.");
    for line in ["save", "save 1", "save 2"] {
        assert_eq!(script.say(line), "refused 5\n");
    }
    for count in [1, 2, 255, 256, 1_023, 1_024] {
        let leases = row_of_leases(count, 7, 5000);
        let plain = table(&[prefix(TEN, 16)], 1000, leases.clone());
        for place in [0, count as usize / 2, count as usize - 1] {
            let names: [&[u8]; 3] = [b"x", &[0, 1], &[0xff; 24]];
            for octets in &names[..if count > 256 { 1 } else { 3 }] {
                let mut leases = leases.clone();
                leases[place] = named(leases[place], octets);
                let book = table(&[prefix(TEN, 16)], 1000, leases);
                script.say(&format!("load {}", second(&book)));
                assert_eq!(script.say("save 1"), "refused 18\n");
                if count < 3 {
                    script.say("save 2");
                }
                let gone = prefix(TEN + 4 * place as u32, 30);
                script.say(&format!("return 7 1000 {}", entries(&[gone])));
                assert!(script.say("save 1").starts_with("ok"));
            }
        }
        script.say(&format!("load {}", image(&plain)));
        script.say("save 1");
    }
    script.remark("Counts that differ: 5 before 18.");
    let book = table(&[at(0, 24)], 1000, vec![held(at(0, 26), 7, b"x")]);
    script.say(&format!("load {}", second(&book)));
    assert_eq!(script.say("save 1"), "refused 18\n");
    script.say(&format!("counts {}", "00".repeat(368)));
    for line in ["save", "save 1", "save 2", "sheet"] {
        assert_eq!(script.say(line), "refused 5\n");
    }
    script.remark("The named lease ends: it has its name until a call strikes it.");
    script.say(&format!("load {}", second(&book)));
    assert_eq!(script.say("save 1"), "refused 18\n");
    assert_eq!(script.say("list 8 2000 dc050001020200"), "refused 11\n");
    assert_eq!(script.say("save 1"), "refused 18\n");
    script.say(&format!("ask 8 2000 {}", asking(&[26])));
    assert!(script.say("save 1").starts_with("ok"));
    script.text
}

/// Two pools and two leases, one named; 119 bytes in the second form.
fn small_table() -> Table {
    let mut leases = vec![
        held(at(0, 26), 7, b"west hall"),
        lease(at(128, 26), 8, State::Leased, 1120),
    ];
    (leases[1].h, leases[1].d) = (true, true);
    table(&[at(0, 24), prefix(TEN + 2048, 26)], 1000, leases)
}

/// The second form with each field at, before and past its limits.
pub fn image_fields() -> String {
    let mut script = Script::new(
        "An image of the second form (M-105) with each field at, before and past its limits.",
    );
    let start = second(&small_table());
    let good = bytes_of(&start);
    script.say(&format!("load {start}"));
    for (place, about) in [
        (2, "head: kind"),
        (3, "head: high byte of the kind"),
        (15, "first pool: kind"),
        (31, "first lease: length of the record"),
        (32, "first lease: high byte of the length"),
        (33, "first lease: kind"),
        (34, "first lease: high byte of the kind"),
        (39, "first lease: length"),
        (40, "first lease: state"),
        (41, "first lease: flags"),
        (50, "first lease: length of the name"),
        (94, "second lease: length of the name"),
    ] {
        script.remark(about);
        for value in (0..=46).chain([64, 127, 128, 191, 192, 254, 255]) {
            let mut bytes = good.clone();
            bytes[place] = value;
            try_image(&mut script, &bytes, &start);
        }
    }
    script.remark("Each octet of the two names, and after them, zero and not.");
    for place in (51..75).chain(95..119) {
        for value in [0, 1, 0x20, 0x7f, 0x80, 0xff] {
            let mut bytes = good.clone();
            bytes[place] = value;
            try_image(&mut script, &bytes, &start);
        }
    }
    script.remark("Each length with octets up to each place: sound only if they are the same.");
    for length in 0..=26u8 {
        for written in [0, 1, 7, 8, 9, 15, 16, 17, 23, 24] {
            let mut bytes = good.clone();
            bytes[94] = length;
            bytes[95..95 + written].fill(0x61);
            let answer = script.say(&format!("load {}", hex(&bytes)));
            assert_eq!(answer == "ok\n", usize::from(length) == written);
        }
    }
    script.remark("A single octet at each place, with each length: sound only where it is last.");
    for place in 0..24u8 {
        for length in [0, place, place + 1, place + 2, 24, 25] {
            let mut bytes = good.clone();
            bytes[94] = length;
            bytes[95 + usize::from(place)] = 0x80;
            let answer = script.say(&format!("load {}", hex(&bytes)));
            assert_eq!(answer == "ok\n", length == place + 1);
        }
    }
    script.say("save");
    script.text
}

/// The second form with each of its bits flipped.
pub fn image_bit_flips() -> String {
    let mut script =
        Script::new("An image of the second form (M-105) with each of its bits flipped.");
    let start = second(&small_table());
    let good = bytes_of(&start);
    script.say(&format!("load {start}"));
    for at in 0..8 * good.len() {
        let mut bytes = good.clone();
        bytes[at / 8] ^= 1 << (at % 8);
        try_image(&mut script, &bytes, &start);
    }
    script.say("sheet");
    script.text
}

/// The second form cut, lengthened, with records in another order.
pub fn image_cuts_and_additions() -> String {
    let mut script = Script::new(
        "Images of the second form (M-105) cut, lengthened, with records left out, repeated and \
         in another order.",
    );
    let start = second(&small_table());
    let good = bytes_of(&start);
    assert_eq!(good.len(), 119);
    script.say(&format!("load {start}"));
    script.remark("Cut after each byte.");
    for cut in 0..good.len() {
        try_image(&mut script, &good[..cut], &start);
    }
    script.remark("Bytes after the last record.");
    for rest in [
        "00",
        "0000",
        "00000000",
        "02000400",
        "02000500",
        "02000000",
        "070002000010000a18",
    ] {
        let mut bytes = good.clone();
        bytes.extend(bytes_of(rest));
        try_image(&mut script, &bytes, &start);
    }
    let records = [
        &good[..13],
        &good[13..22],
        &good[22..31],
        &good[31..75],
        &good[75..],
    ];
    script.remark("Each record left out, each one twice, each two swapped.");
    for first in 0..5 {
        let mut without = records.to_vec();
        without.remove(first);
        try_image(&mut script, &without.concat(), &start);
        let mut twice = records.to_vec();
        twice.insert(first, records[first]);
        try_image(&mut script, &twice.concat(), &start);
        for second in 0..first {
            let mut swapped = records.to_vec();
            swapped.swap(first, second);
            try_image(&mut script, &swapped.concat(), &start);
        }
    }
    script.remark("Leases of zeros at each place, and one of zeros with a name.");
    for place in [31, 75, 119] {
        for octet in [0, 1] {
            let mut zero = vec![0x2a, 0, 4, 0];
            zero.extend([0; 15]);
            zero.push(octet);
            zero.push(octet);
            zero.extend([0; 23]);
            let mut bytes = good[..place].to_vec();
            bytes.extend(zero);
            bytes.extend(&good[place..]);
            try_image(&mut script, &bytes, &start);
        }
    }
    script.remark("A full table, one with a 1,025th lease, and with one byte more.");
    let full = bytes_of(&second(&full_of_names()));
    assert_eq!(full.len(), 45_141);
    try_image(&mut script, &full, &start);
    let mut more = full.clone();
    more.extend(&full[full.len() - 44..]);
    try_image(&mut script, &more, &start);
    more.truncate(full.len() + 1);
    try_image(&mut script, &more, &start);
    script.say("save");
    script.text
}

/// Records of both forms in one image.
pub fn mixtures() -> String {
    let mut script = Script::new(
        "Mixtures (M-105): a head of one form with leases of the other, leases of both forms, two \
         heads; the kinds and lengths of one form in the other.",
    );
    let book = table(
        &[at(0, 24)],
        1000,
        vec![
            held(at(0, 26), 7, b""),
            held(at(64, 26), 8, b""),
            held(at(128, 26), 9, b""),
        ],
    );
    let start = second(&book);
    script.say(&format!("load {start}"));
    let forms = Form::BOTH.map(|form| image_in(form, &book));
    let size = [19, 44];
    let line = |form: usize, place: usize| {
        let from = 22 + size[form] * place;
        &forms[form][from..from + size[form]]
    };
    for head in 0..2 {
        script.remark(["a head of kind 1", "a head of kind 5"][head]);
        for lines in 0..8 {
            let mut bytes = forms[head][..22].to_vec();
            for place in 0..3 {
                bytes.extend(line(lines >> place & 1, place));
            }
            let answer = script.say(&format!("load {}", hex(&bytes)));
            assert_eq!(answer == "ok\n", lines == 7 * head);
        }
        script.remark("Fewer lines, of one form each; none at all is a book of the head's form.");
        for count in 0..3 {
            for form in 0..2 {
                let mut bytes = forms[head][..22].to_vec();
                for place in 0..count {
                    bytes.extend(line(form, place));
                }
                let answer = script.say(&format!("load {}", hex(&bytes)));
                assert_eq!(answer == "ok\n", count == 0 || form == head);
                script.say("save 1");
            }
        }
        script.remark("Both heads, in each order.");
        for second in 0..2 {
            let mut bytes = forms[head][..13].to_vec();
            bytes.extend(&forms[second][..13]);
            bytes.extend(&forms[head][13..]);
            let answer = script.say(&format!("load {}", hex(&bytes)));
            assert_eq!(answer, "refused 5\n");
        }
        let mut bytes = forms[head].clone();
        bytes.extend(&forms[1 - head][..13]);
        assert_eq!(script.say(&format!("load {}", hex(&bytes))), "refused 5\n");
        let mut bytes = forms[head].clone();
        bytes.extend(&forms[1 - head]);
        assert_eq!(script.say(&format!("load {}", hex(&bytes))), "refused 5\n");
    }
    script.say(&format!("load {start}"));
    script.remark("Each kind in the head, in a pool, in a lease.");
    for (form, image) in forms.iter().enumerate() {
        for place in [2, 15, 24, 24 + size[form]] {
            for kind in 0..9 {
                let mut bytes = image.clone();
                bytes[place] = kind;
                try_image(&mut script, &bytes, &start);
            }
        }
    }
    script.remark("A lease of kind 3 as long as one of kind 4, and the reverse.");
    for (form, image) in forms.iter().enumerate() {
        for (kind, length) in [(3, 42), (4, 17), (3, 17), (4, 42)] {
            let mut bytes = image[..22].to_vec();
            for place in 0..3 {
                let mut record = line(1, place)[..usize::from(length) + 2].to_vec();
                (record[0], record[2]) = (length, kind);
                bytes.extend(record);
            }
            let answer = script.say(&format!("load {}", hex(&bytes)));
            let own = (kind, length) == [(3, 17), (4, 42)][form];
            assert_eq!(answer == "ok\n", own);
        }
    }
    script.say(&format!("load {start}"));
    script.say("sheet");
    script.text
}

/// 1,024 leases, every other one with a name, of every length.
fn full_of_names() -> Table {
    let mut book = full_table();
    for (index, lease) in book.leases.iter_mut().enumerate().step_by(2) {
        *lease = named(*lease, &octets(index / 2 % (NAME + 1)));
    }
    assert!(book.sound());
    book
}

/// A full table of names, through the calls.
pub fn full() -> String {
    let mut script = Script::new(
        "Names (M-105): 1,024 leases, by asks with names of every length; pages, returns in the \
         middle, a save of 45,141 bytes.",
    );
    script.say("open 3600 30 1000 10.0.0.0/16");
    for call in 0..40 {
        let octets = octets(1 + 2 * call % NAME);
        let asked = asking_as(&[&octets], &[30; 25]);
        script.say(&format!("ask {} 1000 {asked}", 11 + call));
    }
    script.say(&format!(
        "ask 7 1000 {}",
        asking_as(&[b"the last 24"], &[30; 25])
    ));
    let answer = script.say(&format!("ask 8 1000 {}", asking_as(&[b"none"], &[30])));
    assert_eq!(answer, "refused 9\n");
    script.say("sheet");
    script.say("save");
    script.say("save 1");
    script.remark("Returned in the middle, granted again: without a name, and with one.");
    for (client, place) in [(11, 3), (15, 110), (50, 999)] {
        let gone = prefix(TEN + 4 * place, 30);
        script.say(&format!("return {client} 1001 {}", entries(&[gone])));
        script.say(&format!("ask 9 1001 {}", asking(&[30])));
        script.say(&format!("take 9 1001 {}", entries(&[gone])));
    }
    script.say("save");
    script.remark("Taken and listed: names do not show.");
    let all: Vec<Prefix> = (25..50).map(|place| prefix(TEN + 4 * place, 30)).collect();
    script.say(&format!("take 12 1002 {}", entries(&all)));
    script.say("list 12 1002 dc050001020200");
    script.remark("Offers end at 1120; what is left keeps its names.");
    script.say(&format!("ask 8 1120 {}", asking_as(&[b"new"], &[24, 25])));
    script.say("sheet");
    script.say("save");
    script.remark("A full book of 8 pools, loaded, and its pages.");
    script.say(&format!("load {}", second(&full_of_names())));
    script.say("save");
    script.say("figures");
    let mut leases = row_of_leases(1_024, 7, 5000);
    for (index, lease) in leases.iter_mut().enumerate() {
        *lease = named(*lease, &octets(index % 25));
    }
    let book = table(&[prefix(TEN, 20)], 1000, leases);
    script.say(&format!("load {}", second(&book)));
    let mut page = script.say("list 7 1000 dc050001020200");
    for _ in 0..30 {
        match echo_page(&mut script, &page, 1000) {
            Some(next) => page = next,
            None => break,
        }
    }
    script.text
}

/// Random calls with names, saved and loaded in both forms.
pub fn random_calls() -> String {
    let mut numbers = Numbers::new(105);
    let mut script =
        Script::new("Names (M-105): random calls with names, saves and loads of both forms.");
    let (mut now, mut refused, mut going_back, mut first) = (1000, 0, 0, 0);
    for step in 0..600 {
        if step % 150 == 0 {
            let pools = [
                "10.0.1.0/24 10.0.4.0/27",
                "10.0.0.0/26 10.0.0.64/27 10.0.0.128/28 0.0.0.0/28",
                "10.0.0.0/8 0.0.0.0/30 255.255.255.252/30 11.0.0.0/16",
                "10.0.1.0/24",
            ][step / 150];
            script.say(&format!("open 300 28 {now} {pools}"));
        }
        now += [0, 0, 0, 1, 5, 40, 119, 120][numbers.below(8)];
        let leases = script.console.table.used_leases().to_vec();
        let some: Vec<Prefix> = (0..numbers.between(1, 3))
            .map(|_| match leases.len() {
                0 => at(0, 28),
                count => leases[numbers.below(count)].prefix,
            })
            .collect();
        let owner = leases.iter().find(|lease| lease.prefix == some[0]);
        let client = owner.map_or(1, |lease| lease.client);
        match numbers.below(16) {
            0..=5 => {
                let mut list: Vec<Suboption> = (0..numbers.between(1, 4))
                    .map(|_| {
                        let length = numbers.between(8, 30).max(numbers.between(22, 30));
                        request(length as u8, numbers.once_in(3))
                    })
                    .collect();
                for _ in 0..[0, 1, 1, 2][numbers.below(4)] {
                    let length = [1, 2, 8, 9, 16, 23, 24, 24, 25, 60][numbers.below(10)];
                    let mut octets: Vec<u8> = (0..length)
                        .map(|_| match numbers.below(4) {
                            0 => 0,
                            1 => numbers.draw() as u8,
                            _ => numbers.between(0x61, 0x7a) as u8,
                        })
                        .collect();
                    octets[length - 1] |= 1;
                    list.insert(numbers.below(list.len() + 1), name(&octets));
                }
                let client = numbers.between(1, 4);
                let answer = script.say(&format!("ask {client} {now} {}", hex(&option(&list))));
                refused += usize::from(answer == "refused 17\n");
            }
            6..=8 => {
                script.say(&format!("take {client} {now} {}", entries(&some)));
            }
            9 | 10 => {
                script.say(&format!("return {client} {now} {}", entries(&some)));
            }
            11 => {
                script.say(&format!("mark {now} {} {}", some[0], numbers.below(2)));
            }
            12 => {
                script.say(&format!("list {client} {now} dc050001020200"));
            }
            13 => {
                script.say("sheet");
            }
            _ => {
                let form = if numbers.once_in(2) {
                    Form::First
                } else {
                    Form::Second
                };
                let answer = script.say(["save 1", "save 2"][usize::from(form == Form::Second)]);
                going_back += usize::from(answer == "refused 18\n");
                let mut bytes = image_in(form, &script.console.table);
                if bytes.is_empty() {
                    continue;
                }
                if numbers.once_in(2) {
                    let place = numbers.below(bytes.len());
                    bytes[place] ^= 1 << numbers.below(8);
                }
                let answer = script.say(&format!("load {}", hex(&bytes)));
                first += usize::from(answer == "ok\n" && form == Form::First);
            }
        }
    }
    let reached = (refused, going_back, first);
    assert!(refused > 9 && going_back > 9 && first > 1, "{reached:?}");
    script.say("sheet");
    script.say("save");
    assert!(script.console.table.used_leases().len() < LEASES);
    script.text
}

/// The words of `save`.
pub fn console() -> String {
    let mut script = Script::new("`save`, `save 1` and `save 2`: words, spaces, what is written.");
    for sound in [false, true] {
        if sound {
            script.say("open 3600 28 1000 10.0.1.0/24");
        }
        for line in [
            "save",
            "save 1",
            "save 2",
            "  save   2  ",
            "save 1\r",
            "save \r",
        ] {
            assert_eq!(script.say(line).starts_with("ok"), sound);
        }
        for line in [
            "save 0",
            "save 3",
            "save 5",
            "save 01",
            "save 02",
            "save 001",
            "save 12",
            "save 1 1",
            "save 2 1",
            "save 1 newer",
            "save older",
            "save first",
            "save -",
            "save -1",
            "save +1",
            "save 1.",
            "save 0x1",
            "save #",
            "save 1 #",
            "save\t1",
            "save 1\t",
            "save 1\r\r",
            "save 00",
            "save 4294967297",
            "Save 1",
            "SAVE",
            "save1",
            "saves",
        ] {
            assert!(script.say(line).starts_with("error"), "{line}");
        }
    }
    script.remark("`sheet`, `load` and `save` of a name with spaces, at its ends too.");
    script.say(&format!(
        "ask 7 1000 {}",
        asking_as(&[b"  two  spaces  "], &[26])
    ));
    script.say("sheet");
    script.say("save");
    script.say("save 1");
    script.say(&format!(
        "load {}",
        second(&script.console.table).to_uppercase()
    ));
    script.say("sheet");
    script.remark("`read` and `write` of names are as they were.");
    script.say("read dc0e00030a2020776573742068616c6c");
    script.say("write name 7765737420");
    script.text
}

// Sheets: two lines each, `load IMAGE` and `sheet`.

fn sheet_script(image: &str) -> String {
    format!("load {image}\nsheet\n")
}

pub fn sheet_names() -> String {
    let leases = vec![
        held(at(0, 26), 7, b"west hall"),
        held(at(64, 27), 8, b""),
        named(lease(at(96, 28), u32::MAX, State::Leased, u32::MAX), b"a"),
        named(lease(at(128, 26), 9, State::Leased, 4600), &[b'n'; 24]),
        named(lease(at(192, 30), 9, State::Leased, 4600), b" name "),
        named(
            lease(prefix(TEN + 2048, 26), 1, State::Leased, 4600),
            &[0, 0, 1],
        ),
    ];
    let book = table(&[at(0, 24), prefix(TEN + 2048, 26)], 1000, leases);
    sheet_script(&second(&book))
}

/// Every octet that can be in a name, at its end where it is not zero.
pub fn sheet_every_octet() -> String {
    let leases = (0..256u32).map(|octet| {
        let octets: &[u8] = match octet {
            0 => &[0x61, 0, 0x62],
            _ => &[0x61, octet as u8],
        };
        held(prefix(TEN + 4 * octet, 30), 7, octets)
    });
    sheet_script(&second(&table(&[prefix(TEN, 22)], 1000, leases.collect())))
}

/// The most that a row can hold, in every lease.
pub fn sheet_full() -> String {
    let mut book = full_table();
    for lease in &mut book.leases {
        lease.client = u32::MAX;
        lease.expires = u32::MAX;
        *lease = named(*lease, &[b'M'; 24]);
    }
    assert!(book.sound());
    sheet_script(&second(&book))
}

pub fn sheet_over_long() -> String {
    sheet_script(&format!("{}00", second(&full_of_names())))
}

pub fn sheet_mixture() -> String {
    let book = table(&[at(0, 24)], 1000, vec![held(at(0, 26), 7, b"")]);
    sheet_script(&image(&book).replacen("0b000100", "0b000500", 1))
}

pub fn sheet_no_leases() -> String {
    sheet_script(&second(&table(&[at(0, 24)], 1000, Vec::new())))
}

/// The same rows as in the first form.
pub fn sheet_no_names() -> String {
    sheet_script(&second(&full_table()))
}
