//! Scripts for M-106, a segment by option 118; what can be known of an answer beforehand is
//! held to here.

use reference::figures::UNTOLD;
use reference::numbers::Numbers;
use reference::option::Suboption;
use reference::prefix::{dotted, prefix, Prefix};
use reference::samples::{
    lease, named, option, request, row_of_leases, selecting, table, telling, TEN,
};
use reference::table::{Lease, State, Table, LATEST, LEASES};

use crate::{asking, entries, hex, image, option_for, second, Script};

/// The option 118 of an address of 10.0.0.0/8.
fn at118(offset: u32) -> String {
    hex(&selecting(TEN + offset))
}

fn held(at: Prefix, client: u32) -> Lease {
    lease(at, client, State::Offered, 1120)
}

fn leased(at: Prefix, client: u32) -> Lease {
    lease(at, client, State::Leased, 5000)
}

/// Three pools, the first two neighbours: 10.0.0.0/25, 10.0.0.128/25 and 10.0.8.0/24.
fn three() -> [Prefix; 3] {
    [
        prefix(TEN, 25),
        prefix(TEN + 128, 25),
        prefix(TEN + 2048, 24),
    ]
}

/// A script with option 118 enabled and a buffer that is large enough.
fn enabled(about: &str) -> Script {
    let mut script = Script::new(about);
    script.say("buffer 263");
    script.say("selection on");
    script
}

/// A call, then all that it may have changed.
fn shown(script: &mut Script, line: &str) -> String {
    let answer = script.say(line);
    script.say("save");
    script.say("figures");
    answer
}

/// Addresses at both ends of each pool and one past them.
pub fn ends() -> String {
    let mut script = enabled(
        "Option 118 (M-106): addresses at both ends of each root and one past them, for ask and \
         take; 19 where no root contains the address. An unused root is 0.0.0.0, and contains \
         nothing.",
    );
    for (pools, remark) in [
        (three().to_vec(), "Three roots, five unused."),
        (vec![prefix(TEN + 256, 24)], "One root."),
        (
            vec![prefix(0, 30), prefix(u32::MAX - 3, 30)],
            "Both ends of the address space.",
        ),
        (
            (0..8).map(|index| prefix(index << 29, 8)).collect(),
            "Eight /8, none unused.",
        ),
        (
            (0..8).map(|index| prefix(TEN + 4 * index, 30)).collect(),
            "Eight neighbours of four addresses.",
        ),
    ] {
        script.remark(remark);
        let words: Vec<String> = pools.iter().map(Prefix::to_string).collect();
        let mut addresses = vec![0, 1, u32::MAX];
        for pool in &pools {
            let last = (pool.end() - 1) as u32;
            let middle = pool.network + (pool.size() / 2) as u32;
            addresses.extend([pool.network, pool.network + 1, middle, last]);
            addresses.extend(pool.network.checked_sub(1));
            addresses.extend(last.checked_add(1));
        }
        addresses.sort_unstable();
        addresses.dedup();
        for address in addresses {
            script.remark(&dotted(address));
            script.say(&format!("open 3600 30 1000 {}", words.join(" ")));
            let selection = hex(&selecting(address));
            let answer = script.say(&format!("ask 7 1000 {} {selection}", asking(&[0])));
            let pool = pools.iter().find(|pool| pool.has_address(address));
            match pool {
                Some(pool) => {
                    let reply = entries(&[prefix(pool.network, 30)]);
                    assert_eq!(answer, format!("ok bytes=19 count=1 {reply}{selection}\n"));
                }
                None => assert_eq!(answer, "refused 19\n"),
            }
            let all: Vec<Prefix> = pools.iter().map(|pool| prefix(pool.network, 30)).collect();
            let line = format!("take 7 1000 {} {selection}", entries(&all));
            assert_eq!(script.say(&line), answer);
        }
        script.say("save");
    }
    script.text
}

/// What is no option 118, enabled and not.
pub fn malformed() -> String {
    let mut script = Script::new(
        "Option 118 (M-106): malformed ones get 6 where it is enabled, before 7, 16 and 8 of \
         option 220; where it is not, any bytes are passed over and not returned.",
    );
    let good = at118(2048);
    let mut bad: Vec<String> = [
        "-",
        "76",
        "7600",
        "76030a0008",
        "76030a000800",
        "76050a000800",
        "76050a00080000",
        "76ff0a000800",
        "77040a000800",
        "75040a000800",
        "dc040a000800",
        "00040a000800",
        "0a000800",
        "040a000800",
        "76040a000800ff",
        "76040a00080000000000",
        "dc05000102001a",
    ]
    .map(String::from)
    .to_vec();
    bad.push(good.repeat(2));
    bad.push("76".repeat(300));
    bad.extend([3, 4, 5].map(|bytes| good[..2 * bytes].to_string()));
    let book = table(&three(), 1000, vec![leased(prefix(TEN + 2048, 28), 7)]);
    let found = entries(&[prefix(TEN + 2048, 28)]);
    let start = image(&book);
    script.say("buffer 263");
    for (word, on) in [("on", true), ("off", false)] {
        script.say(&format!("selection {word}"));
        script.say(&format!("load {start}"));
        for bad in bad.iter().chain([&good]) {
            let is_good = *bad == good;
            for (line, reply) in [
                (format!("ask 7 1000 {}", asking(&[28])), (2064, 28)),
                (format!("take 7 1000 {found}"), (2048, 28)),
            ] {
                let answer = script.say(&format!("{line} {bad}"));
                let reply = entries(&[prefix(TEN + reply.0, reply.1)]);
                match (on, is_good) {
                    (true, false) => assert_eq!(answer, "refused 6\n"),
                    (true, true) => assert!(answer.ends_with(&format!("{good}\n"))),
                    _ => assert_eq!(answer, format!("ok bytes=13 count=1 {reply}\n")),
                }
            }
            script.say(&format!("load {start}"));
        }
        script.remark("With an option 220 that is bad in every way: one row for both options.");
        for bad in [&bad[0], &bad[3], &good] {
            for row in [6, 7, 16, 8] {
                let option = option_for(row, &asking(&[28]), "01020200");
                let answer = script.say(&format!("ask 7 1000 {option} {bad}"));
                let row = if on && *bad != good { 6 } else { row };
                assert!(answer.starts_with(&format!("refused {row}")));
                let option = option_for(row, &found, "01020018");
                script.say(&format!("take 7 1000 {option} {bad}"));
            }
        }
        script.remark("Not carried: as without the feature.");
        script.say(&format!("ask 7 1000 {}", asking(&[28])));
        script.say(&format!("take 7 1000 {found}"));
    }
    script.say("save");
    script.text
}

/// Row 1: 257, or 263 where an enabled option is carried.
pub fn buffers() -> String {
    let mut script = Script::new(
        "Option 118 (M-106): 1 reads 263 for a call that carries an enabled option, also a bad \
         one or one in no root; 257 otherwise, and for list.",
    );
    let book = table(&three(), 1000, vec![leased(prefix(TEN + 2048, 28), 7)]);
    let start = image(&book);
    let found = entries(&[prefix(TEN + 2048, 28)]);
    script.say(&format!("load {start}"));
    for size in [0, 6, 255, 256, 257, 258, 261, 262, 263, 264, 1024] {
        script.say(&format!("buffer {size}"));
        for on in [true, false] {
            script.say(&format!("selection {}", if on { "on" } else { "off" }));
            for selection in ["", " 76040a000800", " 76040a0009", " -", " 76040a000900"] {
                let least = if on && !selection.is_empty() {
                    263
                } else {
                    257
                };
                for line in [
                    format!("ask 7 1000 {}", asking(&[28])),
                    format!("take 7 1000 {found}"),
                ] {
                    let answer = script.say(&format!("{line}{selection}"));
                    assert_eq!(answer == "refused 1\n", size < least);
                    if answer.starts_with("ok") {
                        script.say("save");
                        script.say(&format!("load {start}"));
                    }
                }
            }
            script.say("list 7 1000 dc050001020200");
        }
    }
    script.remark("The longest replies: 25 granted make 253 and 6, 35 taken 251 and 6.");
    for size in [262, 263] {
        script.say(&format!("buffer {size}"));
        script.say("selection on");
        script.say("open 3600 30 1000 10.0.0.0/24 10.0.8.0/22");
        let selection = at118(2048 + 77);
        script.say(&format!("ask 7 1000 {} {selection}", asking(&[30; 25])));
        script.say(&format!("ask 7 1000 {} {selection}", asking(&[29; 10])));
        let leases = script.console.table.used_leases().to_vec();
        let all: Vec<Prefix> = leases.iter().map(|lease| lease.prefix).collect();
        if size == 263 {
            let answer = script.say(&format!("take 7 1001 {} {selection}", entries(&all)));
            assert!(answer.starts_with("ok bytes=257 count=35"));
        }
        script.say("save");
    }
    script.text
}

/// Which ground an ask may use.
pub fn ground() -> String {
    let mut script = enabled(
        "Option 118 (M-106): every block of an ask lies in the root that contains the address; 10 \
         is about that root alone, 9 about the whole table. Ended leases of all roots are struck.",
    );
    let [first, second, third] = three();
    script.remark("The best fit of all is in the first root, and is not taken.");
    let book = table(
        &three(),
        1000,
        vec![
            leased(prefix(TEN, 26), 9),
            lease(prefix(TEN + 64, 27), 9, State::Leased, 1500),
        ],
    );
    script.say(&format!("load {}", image(&book)));
    for (client, lengths) in [
        (7, &[26, 27, 25][..]),
        (8, &[26]),
        (8, &[25, 24, 8, 1]),
        (8, &[24, 27, 27]),
        (8, &[0, 28, 29, 30]),
        (9, &[30; 25]),
    ] {
        let asked = asking(lengths);
        script.say(&format!("ask {client} 1000 {asked} {}", at118(2048 + 77)));
        script.say("save");
    }
    script.say("sheet");
    script.remark("The same for each root in turn, others full or empty around it.");
    for pool in three() {
        for full in [&[][..], &[first], &[second], &[third], &[first, third]] {
            let leases = full.iter().map(|at| leased(*at, 9)).collect();
            script.say(&format!("load {}", image(&table(&three(), 1000, leases))));
            let selection = hex(&selecting(pool.network + 5));
            let asked = asking(&[25, 24, 26]);
            let answer = script.say(&format!("ask 7 1000 {asked} {selection}"));
            let refused = full.contains(&pool);
            assert_eq!(answer == "refused 10\n", refused);
            script.say("counts");
            let answer = script.say(&format!("ask 8 1000 {asked}"));
            assert!(answer.starts_with("ok") || answer == "refused 10\n");
            script.say("save");
        }
    }
    script.remark("A lease that reaches up to the root, and one that begins behind it.");
    let around = [
        prefix(TEN + 64, 26),
        prefix(TEN + 256, 26),
        prefix(TEN + 192, 27),
    ];
    let pools = [
        prefix(TEN, 25),
        prefix(TEN + 128, 25),
        prefix(TEN + 256, 25),
    ];
    let leases = around.map(|at| leased(at, 9)).to_vec();
    script.say(&format!("load {}", image(&table(&pools, 1000, leases))));
    for lengths in [&[27, 26, 30][..], &[25], &[26], &[27]] {
        let asked = asking(lengths);
        script.say(&format!("ask 7 1000 {asked} {}", at118(128)));
        script.say("save");
    }
    script.remark("What ended in another root is struck with an accepted ask, and only then.");
    let ended = vec![
        lease(prefix(TEN, 26), 9, State::Leased, 1001),
        lease(prefix(TEN + 128, 25), 9, State::Leased, 1001),
        lease(prefix(TEN + 2048, 24), 9, State::Leased, 5000),
    ];
    script.say(&format!("load {}", image(&table(&three(), 1000, ended))));
    script.say(&format!("ask 7 1001 {} {}", asking(&[30]), at118(2048)));
    script.say("save");
    script.say(&format!("ask 7 1001 {} {}", asking(&[25]), at118(128)));
    script.say("save");
    script.say("counts");
    script.remark("Names go with what is newly made there.");
    let asked = hex(&option(&[
        Suboption::Name(b"west hall".to_vec()),
        request(28, false),
        request(27, true),
    ]));
    script.say("open 3600 28 1000 10.0.0.0/25 10.0.0.128/25 10.0.8.0/24");
    script.say(&format!("ask 7 1000 {asked} {}", at118(2303)));
    script.say("sheet");
    script.text
}

/// The answer, and then the book in the first form, which is shorter.
fn shown_short(script: &mut Script, line: &str) -> String {
    let answer = script.say(line);
    script.say("save 1");
    answer
}

/// 1,024 leases.
pub fn full() -> String {
    let mut script = enabled(
        "Option 118 (M-106): a table full at 1,024 leases. 9 is about the whole table, after 19; \
         lines that are held in the named root are given again, those of another root are not.",
    );
    let pools = [prefix(TEN, 16), prefix(TEN + (8 << 16), 24)];
    let (here, other, nowhere) = (at118(8 << 16), at118(65_535), at118(65_536));
    let mut leases = row_of_leases(1_023, 5, 5000);
    leases[100] = held(leases[100].prefix, 8);
    leases.push(held(prefix(TEN + (8 << 16) + 16, 28), 8));
    script.say(&format!("load {}", image(&table(&pools, 1000, leases))));
    for (lengths, selection, number) in [
        (&[30][..], &here, "refused 9"),
        (&[8], &here, "refused 9"),
        (&[30], &nowhere, "refused 19"),
        (&[28], &here, "ok bytes=19 count=1"),
        (&[28, 28], &here, "ok bytes=19 count=1"),
        (&[28], &other, "refused 9"),
        (&[30], &other, "ok bytes=19 count=1"),
        (&[30, 28], &other, "ok bytes=19 count=1"),
    ] {
        let asked = asking(lengths);
        let answer = shown_short(&mut script, &format!("ask 8 1000 {asked} {selection}"));
        assert!(answer.starts_with(number), "{answer}");
    }
    script.remark("One is returned: there is one empty line, for the ground of the named root.");
    script.say(&format!("return 5 1000 {}", entries(&[prefix(TEN, 30)])));
    let answer = script.say(&format!("ask 9 1000 {} {here}", asking(&[30, 30, 8])));
    assert!(answer.starts_with("ok bytes=19 count=1"));
    assert_eq!(script.console.table.used_leases().len(), LEASES);
    shown_short(&mut script, &format!("ask 6 1000 {} {here}", asking(&[30])));
    script.remark("The held lines end at 1120, those of 5 at 5000.");
    shown_short(
        &mut script,
        &format!("ask 6 1120 {} {other}", asking(&[30])),
    );
    shown_short(&mut script, &format!("ask 6 5000 {} {here}", asking(&[24])));
    script.say("figures");
    script.say("sheet");
    script.text
}

/// Lines that the station holds in another root.
pub fn held_elsewhere() -> String {
    let mut script = enabled(
        "Option 118 (M-106): lines that a station holds in another root are not given again and \
         stay as they are; it gets those of the named root, and new ground there.",
    );
    let mut west = named(held(prefix(TEN, 28), 7), b"west");
    west.d = true;
    let mut east = held(prefix(TEN + 2048 + 64, 28), 7);
    east.h = true;
    let book = table(
        &three(),
        1000,
        vec![
            west,
            held(prefix(TEN + 32, 28), 7),
            held(prefix(TEN + 128 + 16, 28), 8),
            held(prefix(TEN + 2048 + 16, 28), 7),
            east,
            leased(prefix(TEN + 2048 + 128, 28), 7),
        ],
    );
    let start = second(&book);
    for offset in [0, 127, 128, 255, 2048, 2048 + 255] {
        for lengths in [&[28][..], &[28, 28], &[28, 28, 28], &[0, 0, 28, 29], &[29]] {
            script.say(&format!("load {start}"));
            let asked = asking(lengths);
            let line = format!("ask 7 1010 {asked} {}", at118(offset));
            let answer = shown(&mut script, &line);
            assert!(answer.starts_with(&format!(
                "ok bytes={} count={}",
                9 + 10 * lengths.len(),
                lengths.len()
            )));
        }
    }
    script.remark("With h, and with a name that a line given again does not get.");
    for offset in [64, 200, 2100] {
        script.say(&format!("load {start}"));
        let list = [
            Suboption::Name(b"north".to_vec()),
            request(28, true),
            request(28, false),
            request(28, true),
        ];
        let asked = hex(&option(&list));
        shown(
            &mut script,
            &format!("ask 7 1010 {asked} {}", at118(offset)),
        );
    }
    script.remark("Without the option, or not enabled, all of them are given again.");
    script.say(&format!("load {start}"));
    script.say(&format!("ask 7 1010 {}", asking(&[28; 4])));
    script.say(&format!("load {start}"));
    script.say("selection off");
    shown(
        &mut script,
        &format!("ask 7 1010 {} {}", asking(&[28; 4]), at118(128)),
    );
    script.remark("Named roots in turn: one line is held in each at the end.");
    script.say("selection on");
    script.say("open 3600 28 1000 10.0.0.0/25 10.0.0.128/25 10.0.8.0/24");
    for now in [1000, 1001, 1119, 1120, 1239] {
        for offset in [2050, 130, 5] {
            script.say(&format!("ask 7 {now} {} {}", asking(&[26]), at118(offset)));
        }
        script.say("save");
    }
    script.text
}

/// Takes with entries in and outside the named root.
pub fn takes() -> String {
    let mut script = enabled(
        "Option 118 (M-106): a take's entries outside the named root count as not found: they are \
         not in the reply, stay held, and their figures are not filed; 11 where none is left.",
    );
    let all = [
        prefix(TEN, 28),
        prefix(TEN + 112, 28),
        prefix(TEN + 128, 28),
        prefix(TEN + 240, 28),
        prefix(TEN + 2048, 28),
        prefix(TEN + 2048 + 240, 28),
    ];
    let book = table(&three(), 1000, all.map(|at| held(at, 7)).to_vec());
    let start = image(&book);
    let figures: Vec<[u16; 3]> = (0..6).map(|at| [100 + at, 50 + at, at]).collect();
    for offset in [0, 127, 128, 255, 2048, 2303] {
        script.remark(&format!("Named: {}", dotted(TEN + offset)));
        for named in [
            &all[..],
            &all[..1],
            &all[1..3],
            &all[3..5],
            &all[5..],
            &[all[5], all[0], all[3], all[0]],
            &[prefix(TEN, 25), prefix(TEN + 128, 25), prefix(TEN, 27)],
        ] {
            script.say(&format!("load {start}"));
            let told: Vec<(Prefix, &[u16])> = named
                .iter()
                .zip(&figures)
                .map(|(at, figures)| (*at, &figures[..]))
                .collect();
            let line = format!("take 7 1010 {} {}", hex(&telling(&told)), at118(offset));
            let pool = three()
                .into_iter()
                .find(|pool| pool.has_address(TEN + offset));
            let inside: Vec<&Prefix> = named
                .iter()
                .filter(|at| all.contains(at) && pool.is_some_and(|pool| pool.contains(**at)))
                .collect();
            let answer = shown(&mut script, &line);
            if inside.is_empty() {
                assert_eq!(answer, "refused 11\n");
            } else {
                assert!(answer.contains(&format!("count={} ", inside.len())));
                assert!(answer.ends_with(&format!("{}\n", at118(offset))));
            }
        }
    }
    script.remark("Figures told before stay; two takes of one entry, one of them outside.");
    script.say(&format!("load {start}"));
    for (offset, figures) in [
        (0, [10, 7, 2]),
        (128, [11, 8, 3]),
        (5, [12, UNTOLD, UNTOLD]),
    ] {
        let told = telling(&[(all[0], &figures), (all[2], &figures)]);
        shown(
            &mut script,
            &format!("take 7 1011 {} {}", hex(&told), at118(offset)),
        );
    }
    script.remark("Renewed from the wrong root until it ends; then the right one is too late.");
    script.say("open 60 28 1000 10.0.0.0/25 10.0.0.128/25");
    script.say(&format!("ask 7 1000 {} {}", asking(&[28]), at118(128)));
    for now in [1010, 1119, 1120] {
        for offset in [0, 128] {
            if (now, offset) == (1010, 128) {
                continue;
            }
            let line = format!("take 7 {now} {} {}", entries(&all[2..3]), at118(offset));
            shown(&mut script, &line);
        }
    }
    script.remark("Return, list and mark do not carry it.");
    script.say(&format!("load {start}"));
    script.say(&format!("take 7 1010 {}", entries(&all)));
    script.say("list 7 1010 dc050001020200");
    script.say(&format!("return 7 1010 {}", entries(&all[1..4])));
    script.say(&format!("mark 1010 {} 1", all[4]));
    script.say("sheet");
    script.text
}

/// 19, 6 of option 118 and 1 of 263 among the other numbers.
pub fn numbers() -> String {
    let mut script = Script::new(
        "Option 118 (M-106): combinations of rows; 1 reads 263 where it is carried, 6 also for a \
         bad option 118, 19 is after 8 and 17 and before 9, 10 and 11.",
    );
    const ROWS: [u8; 15] = [1, 5, 15, 2, 3, 4, 6, 7, 16, 8, 17, 19, 9, 10, 11];
    let (here, there) = (prefix(TEN, 24), prefix(TEN + 2048, 24));
    let book = |leases: Vec<Lease>| table(&[here, there], 1000, leases);
    let name: Vec<u8> = vec![0x61; 25];
    let long = |good: &[Suboption]| {
        let mut list = vec![Suboption::Name(name.clone())];
        list.extend(good.to_vec());
        hex(&option(&list))
    };
    let asks = |length: u8| {
        let named = long(&[request(length, false)]);
        let mut options: Vec<(u8, String)> = [6, 7, 16, 8]
            .into_iter()
            .map(|row| (row, option_for(row, &named, "01020200")))
            .collect();
        options.extend([(0, asking(&[length])), (17, named)]);
        options
    };
    let taking = |at: Prefix| {
        let options = [0, 6, 7, 16, 8].into_iter();
        options
            .map(|row| (row, option_for(row, &entries(&[at]), "01020018")))
            .collect()
    };
    let held_here = vec![held(prefix(TEN, 28), 7)];
    let elsewhere = prefix(TEN + (1 << 16), 20);
    let mut no_line_left = row_of_leases(1_024, 9, 5000);
    for lease in &mut no_line_left {
        lease.prefix.network += 1 << 16;
    }
    // The outcome where the second root is named, and where none is.
    type Case<'a> = (&'a str, &'a str, Table, Vec<(u8, String)>, u8, u8);
    let cases: [Case; 6] = [
        ("Ground in both roots.", "ask", book(vec![]), asks(30), 0, 0),
        (
            "None in the second root: 10 there.",
            "ask",
            book(vec![leased(there, 9)]),
            asks(30),
            10,
            0,
        ),
        (
            "No empty line: 9.",
            "ask",
            table(&[there, elsewhere], 1000, no_line_left),
            asks(30),
            9,
            9,
        ),
        (
            "The entry is in the first root: 11 in the second.",
            "take",
            book(held_here.clone()),
            taking(prefix(TEN, 28)),
            11,
            0,
        ),
        (
            "The entry is in the second root.",
            "take",
            book(vec![held(prefix(TEN + 2048, 28), 7)]),
            taking(prefix(TEN + 2048, 28)),
            0,
            0,
        ),
        (
            "It is held in the first root, all of the second is leased: 10, not given again.",
            "ask",
            book(vec![held(prefix(TEN, 28), 7), leased(there, 9)]),
            asks(28),
            10,
            0,
        ),
    ];
    for (remark, call, table, options, outcome, without) in cases {
        script.remark(remark);
        let start = second(&table);
        script.say(&format!("load {start}"));
        for on in [true, false] {
            script.say(&format!("selection {}", if on { "on" } else { "off" }));
            for size in [256, 257, 262, 263] {
                script.say(&format!("buffer {size}"));
                for (client, time, now) in
                    [(7, 0, 1000), (0, 0, 1000), (7, 3, 999), (7, 4, LATEST + 1)]
                {
                    // The other faults where it is not row 1 that answers.
                    if (size == 256 || size == 262 || !on) && (client, time) != (7, 0) {
                        continue;
                    }
                    for (selection, row118) in [
                        ("", 0),
                        (" 76040a000877", 0),
                        (" 76030a0008", 6),
                        (" 76040a000900", 19),
                    ] {
                        let carried = on && !selection.is_empty();
                        let named = if carried { outcome } else { without };
                        for (row, option) in &options {
                            let mut rows = vec![time, *row, named];
                            if carried {
                                rows.push(row118);
                            }
                            if client == 0 {
                                rows.push(2);
                            }
                            if size < if carried { 263 } else { 257 } {
                                rows.push(1);
                            }
                            let applying: Vec<u8> =
                                ROWS.into_iter().filter(|row| rows.contains(row)).collect();
                            let line = format!("{call} {client} {now} {option}{selection}");
                            if applying.is_empty() {
                                script.remark("rows that apply: none");
                                assert!(script.say(&line).starts_with("ok"));
                                script.say("save");
                                script.say(&format!("load {start}"));
                                continue;
                            }
                            let text: Vec<String> = applying.iter().map(u8::to_string).collect();
                            script.remark(&format!("rows that apply: {}", text.join(" ")));
                            let answer = script.say(&line);
                            let number = answer.trim_end().split(' ').nth(1);
                            assert_eq!(number, Some(&text[0][..]), "{line}");
                        }
                    }
                }
            }
        }
        script.say("save");
    }
    script.remark("A sheet of figures that does not match, and counts that differ: 15 and 5.");
    script.say("selection on");
    script.say("open 3600 28 1000 10.0.0.0/24 10.0.8.0/24");
    script.say(&format!(
        "figures {}",
        "00".repeat(reference::figures::SHEET)
    ));
    for selection in ["76040a000800", "76040a0008", "76040a000900", "-"] {
        let answer = script.say(&format!("ask 7 1000 {} {selection}", asking(&[28])));
        assert_eq!(answer, "refused 15\n");
    }
    script.say(&format!("counts {}", "00".repeat(reference::counts::BYTES)));
    for selection in ["76040a000800", "76040a0008", "76040a000900", "-"] {
        let answer = script.say(&format!("ask 0 999 {} {selection}", asking(&[28])));
        assert_eq!(answer, "refused 5\n");
    }
    script.text
}

/// Random calls, most of them with an option 118.
pub fn random_calls() -> String {
    let mut numbers = Numbers::new(106);
    let mut script = enabled("Option 118 (M-106): random calls, most of them with one.");
    let (mut now, mut nowhere, mut bad, mut granted, mut outside) = (1000, 0, 0, 0, 0);
    for step in 0..640 {
        if step % 160 == 0 {
            let pools = [
                "10.0.1.0/24 10.0.4.0/27 10.0.2.0/25",
                "10.0.0.0/26 10.0.0.64/27 10.0.0.128/28 0.0.0.0/28",
                "10.0.0.0/8 0.0.0.0/30 255.255.255.252/30 11.0.0.0/16",
                "10.0.0.0/24 10.0.1.0/24 10.0.2.0/24 10.0.3.0/24 10.0.4.0/24 10.0.5.0/24 \
                 10.0.6.0/24 10.0.7.0/24",
            ][step / 160];
            script.say(&format!("open 2000 28 {now} {pools}"));
        }
        now += [0, 0, 0, 0, 1, 5, 20, 60][numbers.below(8)];
        if numbers.once_in(30) {
            script.say(["selection on", "selection off"][usize::from(numbers.once_in(4))]);
        }
        if numbers.once_in(25) {
            let size = [257, 262, 263, 263, 300][numbers.below(5)];
            script.say(&format!("buffer {size}"));
        } else if script.console.buffer.len() < 263 && numbers.once_in(4) {
            script.say("buffer 263");
        }
        let pools = script.console.table.used_pools().to_vec();
        let pool = pools[numbers.below(pools.len())];
        let last = (pool.end() - 1) as u32;
        let address = match numbers.below(10) {
            0 => pool.network.wrapping_sub(1),
            1 => last.wrapping_add(1),
            2 => last,
            3 => [0, 1, u32::MAX][numbers.below(3)],
            4 => pool.network,
            _ => pool.network + numbers.draw() as u32 % pool.size() as u32,
        };
        let mut bytes = selecting(address);
        if numbers.once_in(7) {
            match numbers.below(3) {
                0 => bytes.truncate(numbers.below(6)),
                1 => bytes.push(numbers.draw() as u8),
                _ => bytes[numbers.below(2)] ^= 1 << numbers.below(8),
            }
        }
        let selection = match numbers.below(6) {
            0 => String::new(),
            _ => format!(" {}", hex(&bytes)),
        };
        let leases = script.console.table.used_leases().to_vec();
        let some: Vec<Prefix> = (0..numbers.between(1, 5))
            .map(|_| match leases.len() {
                0 => prefix(TEN, 28),
                count => leases[numbers.below(count)].prefix,
            })
            .collect();
        let owner = leases.iter().find(|lease| lease.prefix == some[0]);
        let client = owner.map_or(1, |lease| lease.client);
        // All that the client has, so that takes reach over the roots.
        let own = leases.iter().filter(|lease| lease.client == client);
        let own: Vec<Prefix> = own.map(|lease| lease.prefix).take(12).collect();
        let answer = match numbers.below(14) {
            0..=6 => {
                let list: Vec<Suboption> = (0..numbers.between(1, 4))
                    .map(|_| {
                        let length = numbers.between(8, 30).max(numbers.between(24, 30));
                        request(length as u8, numbers.once_in(3))
                    })
                    .collect();
                let client = numbers.between(1, 3);
                let line = format!("ask {client} {now} {}{selection}", hex(&option(&list)));
                let answer = script.say(&line);
                granted += usize::from(answer.contains(" 76") || answer.contains("7604"));
                answer
            }
            7..=10 => {
                let some = if own.len() > 1 { &own } else { &some };
                let told: Vec<(Prefix, &[u16])> =
                    some.iter().map(|at| (*at, &[9, 8, 7][..])).collect();
                let option = hex(&telling(&told));
                let answer = script.say(&format!("take {client} {now} {option}{selection}"));
                let found = some.iter().filter(|at| {
                    let same = |lease: &&Lease| lease.prefix == **at && lease.client == client;
                    let present = leases.iter().find(same);
                    present.is_some_and(|lease| lease.expires > now)
                });
                let all = format!("count={} ", found.count());
                outside += usize::from(answer.starts_with("ok") && !answer.contains(&all));
                script.say("figures");
                answer
            }
            11 => script.say(&format!("return {client} {now} {}", entries(&some))),
            12 => script.say(&format!("mark {now} {} {}", some[0], numbers.below(2))),
            _ => script.say("save"),
        };
        nowhere += usize::from(answer == "refused 19\n");
        bad += usize::from(answer == "refused 6\n");
    }
    let reached = (nowhere, bad, granted, outside);
    assert!(
        nowhere > 20 && bad > 10 && granted > 50 && outside > 10,
        "{reached:?}"
    );
    script.say("sheet");
    script.say("save");
    script.text
}

/// The words of `selection`, and the fourth word of `ask` and `take`.
pub fn console() -> String {
    let mut script = Script::new(
        "`selection on` and `selection off`; the fourth word of `ask` and `take`, which must be \
         hexadecimal also where option 118 is not enabled; no such word for the others.",
    );
    script.say("buffer 263");
    let asked = asking(&[28]);
    for open in [false, true] {
        if open {
            script.say("open 3600 28 1000 10.0.0.0/25 10.0.8.0/24");
        }
        for line in ["selection off", "  selection   on  ", "selection on\r"] {
            assert_eq!(script.say(line), "ok\n");
        }
        for line in [
            "selection",
            "selection 1",
            "selection 0",
            "selection ON",
            "selection On",
            "selection yes",
            "selection -",
            "selection on on",
            "selection on off",
            "selection off #",
            "selection\ton",
            "selection on\t",
            "selection on\r\r",
            "selection of",
            "selection offf",
            "Selection on",
            "select on",
            "selection 76040a000800",
        ] {
            assert!(script.say(line).starts_with("error"), "{line}");
        }
    }
    script.remark("An error line left it on.");
    let answer = script.say(&format!("ask 7 1000 {asked} 76040a000800"));
    assert!(answer.ends_with("76040a000800\n"));
    for (word, on) in [("off", false), ("on", true)] {
        script.say(&format!("selection {word}"));
        for bad in [
            "7",
            "76040a00080",
            "7g",
            "0x76",
            "10.0.8.0",
            "--",
            "+",
            "76 04",
            "76040a000800 76040a000800",
            "76040a000800 -",
            "76040a000800\t",
            "#",
        ] {
            for call in ["ask", "take"] {
                let answer = script.say(&format!("{call} 7 1000 {asked} {bad}"));
                assert!(answer.starts_with("error"), "{bad}");
            }
        }
        for line in [
            format!("list 7 1000 {asked} 76040a000800"),
            format!("list 7 1000 {asked} -"),
            format!("return 7 1000 {asked} 76040a000800"),
            format!("return 7 1000 {asked} -"),
            "mark 1000 10.0.8.0/28 1 76040a000800".to_string(),
            "ask 7 1000".to_string(),
            "take 7 1000".to_string(),
        ] {
            assert!(script.say(&line).starts_with("error"), "{line}");
        }
        script.remark("Upper case, spaces, `-` for no bytes.");
        for good in ["76040A000877", "   76040a000877  ", "-", "76040a000877\r"] {
            let answer = script.say(&format!("ask 7 1000 {asked} {good}"));
            let expected = match (on, good) {
                (true, "-") => "refused 6\n".to_string(),
                (true, _) => {
                    "ok bytes=19 count=1 dc0b000208000a0008001c000076040a000877\n".to_string()
                }
                _ => answer.clone(),
            };
            assert_eq!(answer, expected);
        }
    }
    script.remark("It stays over open and load, refused ones too.");
    script.say("open 0 0 0");
    script.say("load -");
    script.say("open 3600 28 1000 10.0.0.0/25 10.0.8.0/24");
    script.say(&format!("load {}", second(&script.console.table)));
    script.say("buffer 300");
    script.say(&format!("ask 7 1000 {asked} 76040a000877"));
    script.remark("`read` and `write` of option 118 are as they were.");
    script.say("read 76040a000877");
    script.say("read 76030a0008");
    script.say("write address 10.0.8.119");
    script.say("sheet");
    script.text
}
