//! Scripts for the counts of M-102. Counts are long, so they are made here; what can be known
//! of an answer beforehand is held to here.

use reference::counts::{bytes_of, Counts, LENGTHS};
use reference::numbers::Numbers;
use reference::prefix::{prefix, Prefix};
use reference::samples::{full_table, lease, row_of_leases, table, TEN};
use reference::table::{Lease, State, Table, POOLS};

use crate::{asking, combinations, entries, hex, image, option_for, Script};

/// The line that makes these the counts.
fn line_of(counts: &Counts) -> String {
    format!("counts {}", hex(&bytes_of(counts)))
}

/// The counts as they now are.
fn counts(script: &Script) -> Counts {
    script.console.table.counts
}

/// Each call that takes the book, on a lease that is there.
fn every_call(script: &mut Script, client: u32, now: u32, at: Prefix) -> Vec<String> {
    let named = entries(&[at]);
    [
        "whole 26".to_string(),
        "whole 7".to_string(),
        "counts".to_string(),
        "save".to_string(),
        "sheet".to_string(),
        format!("list {client} {now} dc050001020200"),
        format!("mark {now} {at} 1"),
        format!("take {client} {now} {named}"),
        format!("ask {client} {now} {}", asking(&[28])),
        format!("return {client} {now} {named}"),
    ]
    .map(|line| script.say(&line))
    .to_vec()
}

fn refused_by_all(script: &mut Script, client: u32, now: u32, at: Prefix) {
    for answer in every_call(script, client, now, at) {
        assert_eq!(answer, "refused 5\n");
    }
}

/// Roots of lengths 16, 17, .., one lease in each.
fn roots(count: u32) -> Table {
    let pools: Vec<Prefix> = (0..count)
        .map(|index| prefix(TEN + (index << 16), 16 + index as u8))
        .collect();
    let leases = (0..count)
        .map(|index| prefix(TEN + (index << 16), 20 + index as u8))
        .map(|at| lease(at, 7, State::Leased, 5000));
    table(&pools, 1000, leases.collect())
}

/// Counts wrong by one in each row and length, an unused root's too, and rows exchanged.
pub fn wrong() -> String {
    let mut script = Script::new(
        "Counts (M-102): wrong by one in each row and length, of unused roots too, the book is \
         not sound; so with rows exchanged.",
    );
    let at = prefix(TEN, 20);
    script.say(&format!("load {}", image(&roots(5))));
    let good = counts(&script);
    script.say("counts");
    for place in 0..POOLS {
        script.remark(&format!("row {place}"));
        for column in 0..LENGTHS {
            let mut wrong = good;
            // One too few where there is one, else one too many.
            wrong[place][column] ^= 1;
            script.say(&line_of(&wrong));
            let length = 8 + column;
            assert_eq!(script.say(&format!("whole {length}")), "refused 5\n");
        }
        let mut wrong = good;
        wrong[place][3 * place] += 1;
        script.say(&line_of(&wrong));
        refused_by_all(&mut script, 7, 1000, at);
    }
    script.remark("Two rows exchanged, of used roots, and of a used and an unused one.");
    for (one, other) in [(0, 1), (3, 4), (4, 5), (0, 7)] {
        let mut wrong = good;
        wrong.swap(one, other);
        script.say(&line_of(&wrong));
        refused_by_all(&mut script, 7, 1000, at);
    }
    script
        .remark("The same sums, in another row; all 0; all the most; bytes of a count exchanged.");
    let mut moved = good;
    for column in 0..LENGTHS {
        (moved[0][column], moved[1][column]) = (0, good[0][column] + good[1][column]);
    }
    let exchanged = good.map(|row| row.map(u16::swap_bytes));
    let (none, most) = ([[0; LENGTHS]; POOLS], [[u16::MAX; LENGTHS]; POOLS]);
    for wrong in [moved, none, most, exchanged] {
        script.say(&line_of(&wrong));
        refused_by_all(&mut script, 7, 1000, at);
    }
    script.remark("The right ones again: nothing was changed.");
    script.say(&line_of(&good));
    script.say("figures");
    for answer in every_call(&mut script, 7, 1000, at) {
        assert!(!answer.starts_with("refused"));
    }
    script.say("counts");
    script.text
}

/// Roots at the limits of their length, full and empty ones, each length asked for.
pub fn roots_and_lengths() -> String {
    let mut script = Script::new(
        "Counts (M-102): roots of length 8 and of length 30, full and empty ones, at both ends; \
         whole of every length, and of lengths that none has.",
    );
    let ask_all = |script: &mut Script| {
        script.say("counts");
        for length in 0..=33 {
            script.say(&format!("whole {length}"));
        }
    };
    for (pools, asks) in [
        ("10.0.0.0/8", &[30, 8][..]),
        ("10.0.0.0/8", &[8]),
        ("10.0.0.0/8", &[9]),
        ("0.0.0.0/8 255.0.0.0/8", &[30, 29, 28, 9, 8, 10]),
        ("10.0.0.0/30", &[30]),
        ("10.0.0.0/30", &[29]),
        ("255.255.255.252/30 0.0.0.0/30 0.0.0.4/30", &[30, 30]),
        ("10.0.0.0/25 10.0.0.128/25", &[26]),
        ("10.0.1.0/24", &[26, 25, 27, 28, 29, 30, 30]),
        (
            "10.0.0.0/8 11.0.0.0/9 12.0.0.0/10 13.0.0.0/11 14.0.0.0/30 15.0.0.0/29 16.0.0.0/28 17.0.0.0/27",
            &[30, 29, 28, 27, 26, 25, 24, 23, 22, 21, 20, 19, 18, 17, 16, 15, 14, 13, 12, 11, 10, 9, 8],
        ),
    ] {
        script.remark(pools);
        script.say(&format!("open 3600 30 1000 {pools}"));
        ask_all(&mut script);
        script.say(&format!("ask 7 1000 {}", asking(asks)));
        ask_all(&mut script);
        script.say("sheet");
    }
    script.remark("Lengths whose low bits are a length's.");
    for length in [
        255u32,
        256,
        264,
        280,
        286,
        65_544,
        16_777_240,
        2_147_483_672,
        u32::MAX - 1,
        u32::MAX,
    ] {
        assert_eq!(script.say(&format!("whole {length}")), "ok count=0\n");
    }
    script.remark("1,024 leases: a root that they fill, and one where a whole /30 is beside each.");
    script.say(&format!(
        "load {}",
        image(&table(
            &[prefix(TEN, 20)],
            1000,
            row_of_leases(1_024, 7, 5000)
        ))
    ));
    ask_all(&mut script);
    let apart = row_of_leases(1_024, 7, 5000)
        .into_iter()
        .map(|lease| Lease {
            prefix: prefix(2 * lease.prefix.network - TEN, 30),
            ..lease
        });
    let apart = table(&[prefix(TEN, 19)], 1000, apart.collect());
    script.say(&format!("load {}", image(&apart)));
    ask_all(&mut script);
    script.say(&format!("load {}", image(&full_table())));
    ask_all(&mut script);
    script.text
}

/// What has ended is struck, and then counted, by each of the four calls.
pub fn struck() -> String {
    let mut script = Script::new(
        "Counts (M-102): ask, take, return and mark count after the ended lines are struck; a \
         refused call, a list and the query strike nothing.",
    );
    let at = |offset: u32, length: u8| prefix(TEN + 256 + offset, length);
    let book = table(
        &[prefix(TEN + 256, 24), prefix(TEN + 1024, 25)],
        1000,
        vec![
            lease(at(0, 26), 7, State::Leased, 1010),
            lease(at(64, 26), 8, State::Offered, 1011),
            lease(at(128, 26), 7, State::Leased, 5000),
            lease(at(192, 28), 9, State::Offered, 5000),
            lease(prefix(TEN + 1024, 26), 8, State::Leased, 1010),
        ],
    );
    let named = entries(&[at(128, 26)]);
    for now in [1009, 1010, 1011] {
        for call in [
            format!("ask 9 {now} {}", asking(&[28])),
            format!("ask 6 {now} {}", asking(&[26])),
            format!("ask 6 {now} {}", asking(&[30, 27, 25, 24])),
            format!("take 7 {now} {named}"),
            format!("return 7 {now} {named}"),
            format!("mark {now} {} 1", at(128, 26)),
        ] {
            script.say(&format!("load {}", image(&book)));
            script.remark("The query speaks of the book as last written.");
            script.say("whole 26");
            script.say(&format!("list 7 {now} dc050001020200"));
            script.say("counts");
            let answer = script.say(&call);
            assert!(answer.starts_with("ok"));
            script.say("counts");
            script.say("whole 25");
            script.say("whole 26");
            script.say("sheet");
        }
    }
    script.remark(
        "Refused at a time when lines have ended: nothing struck, the counts as they were.",
    );
    script.say(&format!("load {}", image(&book)));
    for call in [
        format!("ask 6 1010 {}", asking(&[24])),
        format!("take 6 1010 {named}"),
        format!("return 6 1010 {named}"),
        format!("mark 1010 {} 1", at(0, 26)),
        "list 6 1010 dc050001020200".to_string(),
    ] {
        assert!(script.say(&call).starts_with("refused"));
        script.say("counts");
    }
    script.remark("Counts of another time: as if what ends first were struck already.");
    let mut later = book.clone();
    later.set_leases(book.present_leases(1010));
    script.say(&line_of(&later.counted().counts));
    for now in [1000, 1010, 2000] {
        refused_by_all(&mut script, 7, now, at(128, 26));
    }
    script.remark("And those from before it was struck.");
    script.say(&line_of(&book.counts));
    script.say(&format!("mark 1010 {} 1", at(128, 26)));
    script.say("counts");
    script.say(&line_of(&book.counts));
    refused_by_all(&mut script, 7, 1010, at(128, 26));
    script.text
}

/// Number 5 by counts among the other numbers.
pub fn numbers() -> String {
    let mut script = Script::new(
        "Counts (M-102): with counts that differ, every combination of rows; 5 is after 1 and \
         before 15.",
    );
    let at = prefix(TEN, 25);
    let leases = vec![lease(at, 7, State::Leased, u32::MAX)];
    let book = table(&[prefix(TEN, 22)], 1000, leases);
    let mut wrong = book.counts;
    wrong[1][0] = 1;
    let options = |good: &str, wrong_piece: &str| -> Vec<(u8, String)> {
        [0, 6, 7, 16, 8]
            .into_iter()
            .map(|row| (row, option_for(row, good, wrong_piece)))
            .collect()
    };
    script.say(&format!("load {}", image(&book)));
    script.say(&line_of(&wrong));
    script.say(&format!(
        "figures {}",
        "00".repeat(reference::figures::SHEET)
    ));
    let found = options(&entries(&[at]), "01020018");
    for (name, options) in [
        ("ask", &options(&asking(&[30]), "01020200")),
        ("take", &found),
        ("return", &found),
        ("list", &options("dc050001020200", "01020018")),
    ] {
        script.remark(name);
        let call = |client: u32, now: u32, option: &str| -> String {
            format!("{name} {client} {now} {option}")
        };
        combinations(&mut script, options, 0, &call);
    }
    script.remark("mark, and those that have no time");
    for now in [1000, 999, u32::MAX] {
        for at in [at, prefix(TEN, 26)] {
            assert_eq!(script.say(&format!("mark {now} {at} 1")), "refused 5\n");
        }
    }
    for line in ["save", "sheet", "counts", "whole 25", "whole 31", "whole 0"] {
        assert_eq!(script.say(line), "refused 5\n");
    }
    script
        .remark("Open and load do not look at them, and work them out; refused, they leave them.");
    script.say("open 3600 28 1000");
    script.say("load -");
    script.say("counts");
    script.say("open 3600 28 1000 10.0.1.0/24");
    script.say("counts");
    script.say(&line_of(&wrong));
    script.say(&format!("load {}", image(&book)));
    script.say("counts");
    script.say("save");
    script.text
}

/// Random calls, the counts after each, and counts that differ now and then.
pub fn random_calls() -> String {
    let mut numbers = Numbers::new(28);
    let mut script = Script::new("Counts (M-102): random calls, with the counts after each.");
    let (mut now, mut refused, mut old) = (1000, 0, Vec::new());
    for step in 0..420 {
        if step % 140 == 0 {
            let pools = [
                "10.0.1.0/24 10.0.4.0/27",
                "10.0.0.0/8 0.0.0.0/30 255.255.255.252/30 11.0.0.0/16",
                "10.0.0.0/26 10.0.0.64/26 10.0.0.128/26 10.0.0.192/26 10.0.1.0/28 10.0.1.16/28 10.0.1.32/28 10.0.1.48/28",
            ][step / 140];
            script.say(&format!("open 300 28 {now} {pools}"));
        }
        now += [0, 0, 0, 1, 5, 40, 119, 120, 299][numbers.below(9)];
        let leases = script.console.table.used_leases().to_vec();
        let named: Vec<Prefix> = (0..numbers.between(1, 3))
            .map(|_| match leases.len() {
                0 => prefix(TEN + 256, 28),
                count => leases[numbers.below(count)].prefix,
            })
            .collect();
        let owner = leases.iter().find(|lease| lease.prefix == named[0]);
        let client = owner.map_or(1, |lease| lease.client);
        let right = counts(&script);
        let differs = numbers.once_in(9);
        if differs {
            let mut wrong = right;
            match numbers.below(4) {
                0 => wrong[numbers.below(POOLS)][numbers.below(LENGTHS)] ^= 1,
                1 => wrong.swap(numbers.below(POOLS), numbers.below(POOLS)),
                2 => wrong = *old.last().unwrap_or(&wrong),
                _ => {
                    let mut later = script.console.table.clone();
                    later.set_leases(later.present_leases(now));
                    wrong = later.counted().counts;
                }
            }
            script.say(&line_of(&wrong));
        }
        let answer = match numbers.below(12) {
            0..=4 => {
                let lengths: Vec<u8> = (0..numbers.between(1, 5))
                    .map(|_| numbers.between(8, 30).max(numbers.between(20, 30)) as u8)
                    .collect();
                let client = numbers.between(1, 4);
                script.say(&format!("ask {client} {now} {}", asking(&lengths)))
            }
            5 | 6 => script.say(&format!("take {client} {now} {}", entries(&named))),
            7 | 8 => script.say(&format!("return {client} {now} {}", entries(&named))),
            9 => script.say(&format!("mark {now} {} 1", named[0])),
            10 => script.say(&format!("list {client} {now} dc050001020200")),
            _ => script.say("save"),
        };
        script.say(&format!("whole {}", numbers.between(6, 32)));
        if differs && answer == "refused 5\n" {
            refused += 1;
            script.say(&line_of(&right));
        }
        script.say("counts");
        if answer.starts_with("ok") {
            old.push(right);
        }
    }
    assert!(refused > 15, "{refused}");
    script.say("sheet");
    script.say("save");
    script.text
}

/// The words of `whole` and `counts`.
pub fn console() -> String {
    let mut script =
        Script::new("`whole`, `counts` and `counts HEX`: sizes, digits, what is written.");
    script.remark("Without a book: refused; and the book is all zero, whatever the counts.");
    script.say("counts");
    script.say("whole 26");
    let mut given = [[0; LENGTHS]; POOLS];
    given[0][16] = 1;
    let good = line_of(&given);
    let (_, digits) = good.split_once(' ').unwrap_or_default();
    script.say(&good);
    script.say("counts");
    script.say("whole 24");
    script.say("whole 99");
    script.remark("The counts of a /24 without leases; the book's own are the same.");
    script.say("open 3600 28 1000 10.0.1.0/24");
    script.say(&good);
    script.say("counts");
    script.remark("An error if they are not exactly as many: the counts stay.");
    for line in [
        "counts -".to_string(),
        "counts 00".to_string(),
        format!("counts {}", &digits[..46]),
        format!("counts {}", &digits[..734]),
        format!("counts {}", &digits[..735]),
        format!("{good}0"),
        format!("{good}00"),
        format!("counts {}", digits.repeat(2)),
        "counts counts".to_string(),
        "counts 10.0.1.0/24".to_string(),
        "counts 10.0.1.0/24 24=1".to_string(),
        format!("counts 0x{}", &digits[2..]),
        format!("counts {}g", &digits[1..]),
        format!("{good} -"),
        format!("{good} {digits}"),
        good.replacen("counts", "COUNTS", 1),
        good.replacen("counts ", "counts\t", 1),
        "counts\t".to_string(),
        "count".to_string(),
        "whole".to_string(),
        "whole 24 24".to_string(),
        "whole -".to_string(),
        "whole -1".to_string(),
        "whole +24".to_string(),
        "whole 24.0".to_string(),
        "whole /24".to_string(),
        "whole 0x18".to_string(),
        "whole 4294967296".to_string(),
        "whole 42949672960".to_string(),
        "whole 10.0.1.0/24".to_string(),
        "Whole 24".to_string(),
        "whole\t24".to_string(),
    ] {
        assert!(script.say(&line).starts_with("error"), "{line}");
    }
    script.say("counts");
    script.remark(
        "Upper case, spaces and a carriage return mean the same; leading zeros do no harm.",
    );
    script.say(&format!("  counts   {}  ", digits.to_uppercase()));
    script.say("  counts  ");
    script.say(&format!("{good}\r"));
    script.say("counts\r");
    script.say("  whole   24  \r");
    script.say("whole 000000000000000000024");
    script.say("whole 00");
    script.say("whole 4294967295");
    script.remark("Counts that differ: refused, until they are the right ones again.");
    given[7][22] = 0x0100;
    script.say(&line_of(&given));
    script.say("counts");
    script.say("whole 24");
    script.say("figures");
    script.say(&good);
    script.say("counts");
    script.remark("A root without a whole free block has no line.");
    script.say("open 3600 28 1000 10.0.1.0/24 10.0.2.0/24 10.0.3.0/24");
    script.say(&format!("ask 7 1000 {}", asking(&[24, 26])));
    script.say("counts");
    script.say(&format!("ask 8 1000 {}", asking(&[24, 25, 26])));
    script.say("counts");
    script.say("whole 24");
    script.text
}
