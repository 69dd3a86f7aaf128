//! Scripts for M-101, a box that asks twice, where tables or messages are long; what can be
//! known of an answer beforehand is held to here.

use reference::numbers::Numbers;
use reference::option::{read220, Suboption};
use reference::prefix::{prefix, Prefix};
use reference::samples::{lease, option, request, row_of_leases, table, TEN};
use reference::table::{Lease, State, Table, LEASES};

use crate::figures::{line_of, rows, with_places};
use crate::{asking, bytes_of, entries, hex, image, Script};

/// An ask for these lengths with h.
fn asking_h(lengths: &[u8]) -> String {
    let requests: Vec<Suboption> = lengths.iter().map(|at| request(*at, true)).collect();
    hex(&option(&requests))
}

/// 1,024 /30s in 10.0.0.0/20, so neither an empty line nor a free block. Client 7 holds the
/// first `held`: every second with h, every third with d, the first ten until 1050.
fn full_table(held: usize) -> Table {
    let mut leases = row_of_leases(LEASES as u32, 9, 5000);
    for (index, lease) in leases[..held].iter_mut().enumerate() {
        (lease.client, lease.state) = (7, State::Offered);
        (lease.h, lease.d) = (index % 2 == 1, index % 3 == 0);
        lease.expires = if index < 10 { 1050 } else { 1110 };
    }
    table(&[prefix(TEN, 20)], 1000, leases)
}

/// A full table: re-given lines need no empty line and no ground.
pub fn full() -> String {
    let mut script = Script::new(
        "A box that asks twice (M-101), on a full table: re-given lines need no empty line and no \
         ground, the rest get 9 or 10.",
    );
    let load = format!("load {}", image(&full_table(52)));
    script.say(&load);
    let told = line_of(&with_places(&rows(&script)));
    script.say(&told);
    script.remark(
        "52 are held, 26 of them without h. One again, then 25 of the 26; the last keeps its end.",
    );
    let all = asking(&[30; 25]);
    for (option, count) in [(asking(&[30]), 1), (all.clone(), 25)] {
        let answer = script.say(&format!("ask 7 1001 {option}"));
        assert!(answer.contains(&format!(" count={count} ")));
        script.say("save 1");
    }
    script.remark("The other 26, with h.");
    script.say(&format!("ask 7 1002 {}", asking_h(&[30; 25])));
    script.say("save 1");
    script.say("figures");
    script.remark("Who holds nothing of that length gets 9, whatever others hold; so does 7 for another length.");
    for (client, lengths) in [(8, &[30][..]), (9, &[30]), (7, &[29]), (7, &[28, 0, 8, 1])] {
        let answer = script.say(&format!("ask {client} 1003 {}", asking(lengths)));
        assert_eq!(answer, "refused 9\n");
    }
    script.say("save 1");
    script.remark("Re-given and refused in one message, the refused first, last and between.");
    for lengths in [&[30, 29][..], &[29, 30], &[0, 30, 28, 30, 8, 1, 30]] {
        script.say(&format!("ask 7 1003 {}", asking(lengths)));
    }
    script.say("save 1");
    script.remark("26 requests: 8, and nothing is given again.");
    script.say(&format!("ask 7 1004 {}", asking(&[30; 26])));
    script.say("save 1");
    script.remark("A line of 9 is returned. Re-given lines leave the empty line alone, the first of the rest takes it.");
    script.say(&format!(
        "return 9 1005 {}",
        entries(&[prefix(TEN + 4 * 200, 30)])
    ));
    script.say(&format!("ask 7 1005 {all}"));
    script.say("save 1");
    script.say(&format!("load {}", image(&full_table(3))));
    script.say(&format!(
        "return 9 1005 {}",
        entries(&[prefix(TEN + 4 * 200, 30)])
    ));
    let answer = script.say(&format!("ask 7 1005 {all}"));
    assert!(answer.contains(" count=3 "));
    script.say("save 1");
    script.say(&format!("ask 7 1006 {}", asking(&[29, 30, 30, 30, 30])));
    script.say("save 1");
    script.remark("At 1050 ten have ended, five of them without h: 21 again, and the ended blocks for the rest.");
    script.say(&load);
    script.say(&told);
    script.say(&format!("ask 7 1050 {all}"));
    script.say("figures");
    script.say("save 1");
    script.remark("Only ended ones: all new, with d 0 and untold.");
    script.say(&load);
    script.say(&told);
    script.say(&format!("ask 7 1110 {all}"));
    script.say("figures");
    script.say("save 1");
    script.remark("Half a message again, half of it new ground.");
    let mut few = full_table(24);
    few.set_leases(few.used_leases()[..200].to_vec());
    script.say(&format!("load {}", image(&few.counted())));
    script.say(&format!("ask 7 1001 {all}"));
    script.say("save 1");
    script.say("sheet");
    script.text
}

/// A station that asks, and is offered all kinds of lines before it takes one.
fn some_requests(numbers: &mut Numbers) -> Vec<Suboption> {
    let many = if numbers.once_in(8) { 25 } else { 4 };
    (0..numbers.between(1, many))
        .map(|_| {
            let length = [0, 27, 28, 28, 29, 29, 30, 30][numbers.below(8)];
            request(length, numbers.once_in(3))
        })
        .collect()
}

/// Leases of three stations, most of them held, that fill the table or leave a few lines.
fn crowded_table(numbers: &mut Numbers, last_time: u32) -> Table {
    let count = LEASES - numbers.below(4);
    let leases = (0..count as u32).map(|index| Lease {
        h: numbers.once_in(3),
        d: numbers.once_in(4),
        ..lease(
            prefix(TEN + 8 * index, [29, 30][numbers.below(2)]),
            numbers.between(1, 3) as u32,
            [State::Offered, State::Offered, State::Leased][numbers.below(3)],
            last_time + [40, 600, 600, 600, 600, 3_600, 3_600, 3_600][numbers.below(8)],
        )
    });
    Table {
        default_length: 30,
        ..table(&[prefix(TEN, 19)], last_time, leases.collect())
    }
}

/// The prefixes in the reply of an ask; none if it was refused.
fn granted(answer: &str) -> Vec<Prefix> {
    let mut granted = Vec::new();
    let reply = answer
        .strip_prefix("ok bytes=")
        .and_then(|rest| rest.trim_end().rsplit(' ').next());
    let Some(reply) = reply else {
        return granted;
    };
    for suboption in read220(&bytes_of(reply)).expect("a reply is an option") {
        if let Suboption::Information(information) = suboption {
            let entries = information.entries.iter();
            granted.extend(entries.map(|entry| prefix(entry.network, entry.prefix)));
        }
    }
    granted
}

/// How often an ask gave something again: all that it asked for, or some of it beside new
/// ground, or some of it beside what was refused.
#[derive(Debug, Default)]
struct Met {
    all: usize,
    beside_new: usize,
    beside_refused: usize,
}

impl Met {
    fn add(&mut self, before: &[Lease], now: u32, requests: usize, answer: &str) {
        let granted = granted(answer);
        let present = before.iter().filter(|lease| lease.expires > now);
        let again = present
            .filter(|lease| granted.contains(&lease.prefix))
            .count();
        self.all += usize::from(again == requests);
        self.beside_new += usize::from(again > 0 && again < granted.len());
        self.beside_refused += usize::from(again > 0 && granted.len() < requests);
    }
}

/// Random calls of stations that ask again and again; now and then the table is full.
pub fn random_calls() -> String {
    let mut numbers = Numbers::new(27);
    let mut script = Script::new("A box that asks twice (M-101): random calls of four stations.");
    let (mut now, mut met) = (1000, Met::default());
    for step in 0..500 {
        now += [0, 0, 0, 0, 1, 5, 40, 119, 120][numbers.below(9)];
        if step % 100 == 50 {
            let full = crowded_table(&mut numbers, now);
            script.say(&format!("load {}", image(&full)));
        } else if step % 100 == 0 {
            script.say(&format!("open 300 28 {now} 10.0.1.0/25 10.0.4.0/27"));
        }
        let leases = script.console.table.used_leases().to_vec();
        let client = numbers.between(1, 4) as u32;
        let own = leases.iter().filter(|lease| lease.client == client);
        let mut own: Vec<Prefix> = own.map(|lease| lease.prefix).collect();
        numbers.shuffle(&mut own);
        own.truncate(numbers.between(1, 3));
        own.push(prefix(TEN + 256, 28));
        let answer = match numbers.below(20) {
            0..=12 => {
                let requests = some_requests(&mut numbers);
                let answer = script.say(&format!("ask {client} {now} {}", hex(&option(&requests))));
                met.add(&leases, now, requests.len(), &answer);
                answer
            }
            13 | 14 => script.say(&format!("take {client} {now} {}", entries(&own))),
            15 => script.say(&format!("return {client} {now} {}", entries(&own))),
            _ => script.say(&format!(
                "mark {now} {} {}",
                own[0],
                numbers.below(3).min(1)
            )),
        };
        if answer.starts_with("ok") && step % 8 == 0 {
            script.say("save 1");
        }
    }
    let enough = [met.all, met.beside_new, met.beside_refused];
    assert!(enough.iter().all(|count| *count > 25), "{met:?}");
    script.say("sheet");
    script.say("save");
    script.text
}
