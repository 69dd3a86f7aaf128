//! Scripts for the figures sheet of M-100. Sheets are long, so they are made here; what
//! can be known of an answer beforehand is held to here.

use reference::figures::{put_rows, rows_of, untold_sheet, Row, SHEET, UNTOLD};
use reference::numbers::Numbers;
use reference::prefix::{prefix, Prefix};
use reference::samples::{lease, row_of_leases, table, telling, TEN};
use reference::table::{State, Table, LEASES};

use crate::{asking, combinations, entries, hex, image, option_for, Script};

/// The rows as they now are.
pub fn rows(script: &Script) -> Vec<Row> {
    rows_of(&script.console.figures).unwrap_or_default()
}

/// The line that makes these the rows.
pub fn line_of(rows: &[Row]) -> String {
    let mut sheet = vec![0; SHEET];
    put_rows(rows, &mut sheet);
    format!("figures {}", hex(&sheet))
}

/// Each call that has the sheet, on a lease that is there: the option tells figures.
fn four_calls(script: &mut Script, client: u32, now: u32, at: Prefix) -> [String; 4] {
    let told = hex(&telling(&[(at, &[90, 91, 92])]));
    [
        format!("ask {client} {now} {}", asking(&[28])),
        format!("take {client} {now} {told}"),
        format!("return {client} {now} {told}"),
        format!("mark {now} {at} 1"),
    ]
    .map(|line| script.say(&line))
}

const FIRST: Prefix = Prefix {
    network: 0,
    length: 30,
};

/// Four leases, one of them at 0.0.0.0; 10.0.1.64/26 ends at 1500.
fn four_leases() -> Table {
    let leases = [
        (FIRST, 7, 5000),
        (prefix(TEN + 256, 26), 7, 5000),
        (prefix(TEN + 320, 26), 8, 1500),
        (prefix(TEN + 384, 26), 7, 5000),
    ];
    let leases = leases.map(|(at, client, end)| lease(at, client, State::Leased, end));
    let pools = [prefix(0, 29), prefix(TEN + 256, 24)];
    table(&pools, 1000, leases.to_vec())
}

/// What is wrong with a sheet, and what makes it so.
type Change = (&'static str, fn(&mut Vec<Row>));

/// Sheets that match the leases and sheets that do not, in one row each.
pub fn matching() -> String {
    let mut script = Script::new(
        "Figures (M-100): rows match lines, place for place, or the four calls give 15.",
    );
    let load = format!("load {}", image(&four_leases()));
    script.say(&load);
    script.say("figures");
    let good = rows(&script);
    let refused = |script: &mut Script, about: &str, rows: &[Row]| {
        script.remark(about);
        assert_eq!(script.say(&line_of(rows)), "ok\n");
        let answers = four_calls(script, 7, 1001, FIRST);
        assert!(answers.iter().all(|answer| answer == "refused 15\n"));
        script.say("figures");
    };
    let changes: [Change; 17] = [
        ("The first row is an empty line's.", |rows| {
            rows[0].prefix.length = 0;
        }),
        ("Another length.", |rows| rows[1].prefix.length = 27),
        ("Another network, by its lowest bit.", |rows| {
            rows[1].prefix.network += 1;
        }),
        ("Another network, by its highest bit.", |rows| {
            rows[3].prefix.network ^= 1 << 31;
        }),
        ("Two rows exchanged.", |rows| rows.swap(1, 2)),
        ("A row said twice, in place of another.", |rows| {
            rows[2] = rows[1];
        }),
        ("A row missing, those after it moved up.", |rows| {
            rows.remove(1);
            rows.push(Row::untold(Prefix::default()));
        }),
        ("The last row missing.", |rows| {
            rows[3] = Row::untold(Prefix::default());
        }),
        ("An empty line's row before them.", |rows| {
            rows.rotate_right(1);
        }),
        ("A row too many.", |rows| {
            rows[4] = Row::untold(prefix(TEN + 448, 26));
        }),
        ("A row too many, in the last place.", |rows| {
            rows[LEASES - 1] = Row::untold(prefix(TEN + 448, 26));
        }),
        ("An empty line's row with a length.", |rows| {
            rows[4].prefix.length = 1;
        }),
        ("An empty line's row with a network.", |rows| {
            rows[LEASES - 1].prefix.network = 1 << 31;
        }),
        ("An empty line's row with high water told.", |rows| {
            rows[4].high_water = 0;
        }),
        ("An empty line's row with in use told.", |rows| {
            rows[100].in_use = 0xfffe;
        }),
        ("An empty line's row with unusable told.", |rows| {
            rows[LEASES - 1].unusable = 0x7fff;
        }),
        ("Zeros alone.", |rows| {
            rows.fill(Row {
                prefix: Prefix::default(),
                high_water: 0,
                in_use: 0,
                unusable: 0,
            });
        }),
    ];
    for (about, change) in changes {
        let mut rows = good.clone();
        change(&mut rows);
        refused(&mut script, about, &rows);
    }
    script.remark("15 is given for the sheet alone: list, save and sheet answer.");
    script.say("list 7 1001 dc050001020200");
    script.say("save");
    script.say("sheet");
    script.remark("The figures of a line are free.");
    let mut told = good.clone();
    for (index, row) in told.iter_mut().take(4).enumerate() {
        let index = index as u16;
        (row.high_water, row.in_use, row.unusable) = (index, 256 * index, 0xfffe - index);
    }
    for row in 0..4 {
        let mut rows = told.clone();
        rows[row] = Row::untold(rows[row].prefix);
        rows[row].in_use = 1000;
        script.say(&line_of(&rows));
        script.say(&format!("mark 1001 {FIRST} 1"));
        script.say("figures");
    }
    script.remark("Each of the four calls with them.");
    for call in 0..4 {
        script.say(&load);
        script.say(&line_of(&told));
        let calls = [
            format!("ask 7 1001 {}", asking(&[27, 30])),
            format!("take 7 1001 {}", entries(&[FIRST])),
            format!("return 7 1001 {}", entries(&[prefix(TEN + 256, 26)])),
            format!("mark 1001 {} 1", prefix(TEN + 320, 26)),
        ];
        assert!(script.say(&calls[call]).starts_with("ok"));
        script.say("figures");
    }
    script.remark("10.0.1.64/26 ends at 1500. Its row belongs to the sheet at every time,");
    let mut without = told.clone();
    without.remove(2);
    without.push(Row::untold(Prefix::default()));
    for now in [1001, 1499, 1500, 1501, 4999] {
        script.say(&load);
        script.say(&line_of(&told));
        script.say(&format!("mark {now} {FIRST} 1"));
        script.say("figures");
    }
    script.remark("and a sheet without it is refused at every time.");
    script.say(&load);
    script.say(&line_of(&without));
    for now in [0, 999, 1000, 1499, 1500, 4999, 5000, u32::MAX] {
        let answers = four_calls(&mut script, 7, now, FIRST);
        assert!(answers.iter().all(|answer| answer == "refused 15\n"));
    }
    script.say("figures");
    script.remark("Struck, it is no line any more: now the sheet without it is the one.");
    script.say(&line_of(&told));
    script.say(&format!("mark 1500 {FIRST} 0"));
    script.say(&line_of(&without));
    script.say(&format!("mark 1500 {FIRST} 1"));
    script.say("figures");
    script.say(&line_of(&told));
    script.say(&format!("mark 1500 {FIRST} 1"));
    script.say("figures");
    script.text
}

/// Every combination of the rows that can apply to a call whose sheet does not match.
pub fn numbers() -> String {
    let mut script = Script::new(
        "Figures (M-100): with a sheet that does not match, every combination of rows; 15 is \
         after 5 and before 2.",
    );
    let at = prefix(TEN, 25);
    let leases = vec![lease(at, 7, State::Leased, u32::MAX)];
    let book = table(&[prefix(TEN, 22)], 1000, leases);
    let wrong = {
        let mut rows = rows_of(&untold_sheet(&book)).unwrap_or_default();
        rows[1].in_use = 7;
        line_of(&rows)
    };
    let options = |good: &str, wrong_piece: &str| -> Vec<(u8, String)> {
        [0, 6, 7, 16, 8]
            .into_iter()
            .map(|row| (row, option_for(row, good, wrong_piece)))
            .collect()
    };
    let asks = options(&asking(&[30]), "01020200");
    let found = options(&entries(&[at]), "01020018");
    let lists = options("dc050001020200", "01020018");
    for sound in [false, true] {
        if sound {
            script.remark("A sound book.");
            script.say(&format!("load {}", image(&book)));
        } else {
            script.remark("No book yet: all zero, not sound.");
        }
        script.say(&wrong);
        for (name, options) in [
            ("ask", &asks),
            ("take", &found),
            ("return", &found),
            ("list", &lists),
        ] {
            script.remark(name);
            let call = |client: u32, now: u32, option: &str| -> String {
                format!("{name} {client} {now} {option}")
            };
            combinations(&mut script, options, 0, &call);
        }
        script.remark("mark");
        for now in [1000, 999, u32::MAX] {
            for at in [at, prefix(TEN, 26)] {
                let answer = script.say(&format!("mark {now} {at} 1"));
                assert_eq!(answer == "refused 15\n", sound);
            }
        }
        script.say("figures");
    }
    script.text
}

/// A row that tells its place.
fn told(at: Prefix, place: usize) -> Row {
    Row {
        prefix: at,
        high_water: place as u16,
        in_use: 1_000 + place as u16,
        unusable: 2_000 + place as u16,
    }
}

/// The rows with figures that tell their places, empty lines' rows as they are.
pub fn with_places(rows: &[Row]) -> Vec<Row> {
    let empty = Row::untold(Prefix::default());
    let rows = rows.iter().enumerate();
    rows.map(|(place, row)| {
        if *row == empty {
            empty
        } else {
            told(row.prefix, place)
        }
    })
    .collect()
}

/// 1,024 leases and their figures: rows move up and down at every place.
pub fn full() -> String {
    let mut script = Script::new(
        "Figures (M-100): 1,024 lines, each with its own figures; they go along wherever the \
         line goes.",
    );
    let mut leases = row_of_leases(LEASES as u32, 7, 5000);
    for (index, lease) in leases.iter_mut().enumerate() {
        lease.expires = 1500 + 500 * (index % 3) as u32;
    }
    script.say(&format!(
        "load {}",
        image(&table(&[prefix(TEN, 19)], 1000, leases))
    ));
    script.say(&line_of(&with_places(&rows(&script))));
    script.say("figures");
    script.remark("Full: 9, and the sheet stays.");
    script.say(&format!("ask 8 1499 {}", asking(&[30; 25])));
    script.say("figures");
    script.remark("A third has ended: 25 new lines, each where one of them was, untold.");
    script.say(&format!("ask 8 1500 {}", asking(&[30; 25])));
    script.say("figures");
    script.remark("Ground before, between and after the others, and the last of the ended.");
    script.say(&format!("ask 9 1501 {}", asking(&[29, 26, 30, 20, 30])));
    script.say("figures");
    script.remark("The first line, the last and one between are returned.");
    let used = script.console.table.used_leases().to_vec();
    let station = used.iter().filter(|lease| lease.client == 7);
    let own: Vec<Prefix> = station.map(|lease| lease.prefix).collect();
    let some = [own[0], own[own.len() / 2], own[own.len() - 1]];
    script.say(&format!("return 7 1502 {}", entries(&some)));
    script.say("figures");
    script.remark("The next third ends: struck by a take that tells figures of the last line, of");
    script.remark("one that has ended and is not found, and of another.");
    let left = script.console.table.present_leases(2000);
    let last = left[left.len() - 1].prefix;
    let tells = hex(&telling(&[
        (last, &[UNTOLD, 7]),
        (own[2], &[6, 6, 6]),
        (own[1], &[5]),
    ]));
    script.say(&format!("take 7 2000 {tells}"));
    script.say("figures");
    script.remark("The rest ends but for the two that were renewed.");
    script.say(&format!("mark 2500 {last} 1"));
    script.say("figures");
    script.say("save");
    script.text
}

/// Random calls, half of the takes with figures; the sheet at intervals, and now and then
/// set to other figures or to one that does not match.
pub fn random_calls() -> String {
    let mut numbers = Numbers::new(26);
    let mut script = Script::new("Figures (M-100): random calls on 10.0.1.0/24 10.0.4.0/25.");
    script.say("open 300 29 1000 10.0.1.0/24 10.0.4.0/25");
    let mut now: u32 = 1000;
    for step in 0..400 {
        now += [0, 0, 0, 1, 5, 40, 120][numbers.below(7)];
        let leases = script.console.table.used_leases().to_vec();
        let some = |numbers: &mut Numbers| match leases.len() {
            0 => prefix(TEN + 256, 29),
            count => leases[numbers.below(count)].prefix,
        };
        let named: Vec<(Prefix, Vec<u16>)> = (0..numbers.between(1, 5))
            .map(|_| {
                let figures = (0..numbers.below(5)).map(|_| {
                    let any = numbers.draw() as u16;
                    [UNTOLD, UNTOLD, 0, 0xfffe, 0x0102, any, any][numbers.below(7)]
                });
                let figures: Vec<u16> = figures.take(3).collect();
                (some(&mut numbers), figures)
            })
            .collect();
        let borrowed: Vec<(Prefix, &[u16])> = named
            .iter()
            .map(|(at, figures)| (*at, &figures[..]))
            .collect();
        let option = hex(&telling(&borrowed));
        let owner = leases.iter().find(|lease| lease.prefix == named[0].0);
        let client = owner.map_or(1, |lease| lease.client);
        match numbers.below(16) {
            0..=4 => {
                let lengths: Vec<u8> = (0..numbers.between(1, 4))
                    .map(|_| numbers.between(26, 30) as u8)
                    .collect();
                let client = numbers.between(1, 3);
                script.say(&format!("ask {client} {now} {}", asking(&lengths)))
            }
            5..=9 => script.say(&format!("take {client} {now} {option}")),
            10..=12 => script.say(&format!("return {client} {now} {option}")),
            13 | 14 => script.say(&format!("mark {now} {} {}", named[0].0, numbers.below(2))),
            _ if step % 3 == 0 => {
                let mut other = rows(&script);
                let place = numbers.below(leases.len() + 1);
                (other[place].high_water, other[place].in_use) = (numbers.below(50) as u16, 77);
                script.say(&line_of(&other));
                // Past the last lease it does not match: a call, and the old rows again.
                if place == leases.len() {
                    script.say(&format!("take {client} {now} {option}"));
                    other[place] = Row::untold(Prefix::default());
                    script.say(&line_of(&other));
                }
                String::new()
            }
            _ => script.say(&format!("load {}", image(&script.console.table))),
        };
        if step % 5 == 0 {
            script.say("figures");
        }
        if step % 40 == 0 {
            script.say("save");
        }
    }
    script.say("figures");
    script.say("save");
    script.text
}

/// The words of `figures`.
pub fn console() -> String {
    let mut script = Script::new("`figures` and `figures HEX`: sizes, digits, what is written.");
    let mut rows = rows(&script);
    script.say("figures");
    script.remark("Without a book: these bytes become the sheet, whatever they say.");
    rows[0] = told(prefix(TEN + 256, 26), 10);
    rows[1].high_water = 1;
    rows[2] = told(prefix(0, 255), 0);
    rows[3] = told(prefix(1, 0), 4);
    rows[3].high_water = UNTOLD;
    rows[4] = Row::untold(prefix(u32::MAX, 33));
    rows[LEASES - 1] = told(prefix(TEN, 8), 3);
    let good = line_of(&rows);
    let (_, digits) = good.split_once(' ').unwrap_or_default();
    script.say(&good);
    script.remark("Rows of network and length 0 are empty lines', also with a figure told.");
    script.say("figures");
    script.say("save");
    script.say("sheet");
    script.remark("An error if they are not exactly as many: the sheet stays.");
    for line in [
        "figures -".to_string(),
        "figures 00".to_string(),
        format!("figures {}", &digits[..22]),
        format!("figures {}", &digits[..digits.len() - 22]),
        format!("figures {}", &digits[..digits.len() - 2]),
        format!("figures {}", &digits[..digits.len() - 1]),
        format!("{good}0"),
        format!("{good}00"),
        format!("{good}{}", &digits[..22]),
        format!("figures {}", digits.repeat(4)),
        "figures figures".to_string(),
        "figures 10.0.1.0/26".to_string(),
        "figures 10.0.1.0/26 high-water=10 in-use=7 unusable=-".to_string(),
        format!("figures 0x{}", &digits[2..]),
        format!("figures {}g", &digits[1..]),
        format!("{good} -"),
        format!("{good} {digits}"),
        good.replacen("figures", "FIGURES", 1),
        good.replacen("figures ", "figures\t", 1),
        "figures\t".to_string(),
        "figure".to_string(),
    ] {
        assert!(script.say(&line).starts_with("error"), "{line}");
    }
    script.say("figures");
    script.remark("Upper case, spaces and a carriage return mean the same.");
    script.say(&format!("  figures   {}  ", digits.to_uppercase()));
    script.say("  figures  ");
    script.say(&format!("{good}\r"));
    script.say("figures\r");
    script.remark("An accepted open makes the sheet anew, a refused one does not.");
    script.say("open 3600 28 1000");
    script.say("figures");
    script.say("open 3600 28 1000 10.0.1.0/24");
    script.say("figures");
    script.say(&good);
    script.say("load -");
    script.say("figures");
    script.say("load 0b000100100e00001ce8030000070002000001000a18");
    script.say("figures");
    script.text
}
