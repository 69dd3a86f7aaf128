//! M-101, a box that asks twice: each sentence of the request, and how it is read.

use reference::calls;
use reference::figures::{matches, put_rows, rows_of, untold_sheet, Row, UNTOLD};
use reference::option::{read220, Suboption};
use reference::prefix::{prefix, Prefix};
use reference::refusal::Refusal;
use reference::samples;
use reference::table::{Lease, State, Table, LATEST, LEASES};

use crate::common::*;

const A: &str = "10.0.1.0/26";
const B: &str = "10.0.1.64/26";
const C: &str = "10.0.1.128/26";
const D: &str = "10.0.1.192/26";

/// An option of these lengths and h.
fn asking_with(requests: &[(u8, bool)]) -> Vec<u8> {
    let requests = requests.iter();
    let requests: Vec<_> = requests.map(|(at, h)| samples::request(*at, *h)).collect();
    option(&requests)
}

/// A line or an entry as text: its prefix, and `h` and `d` where they are set.
fn text(at: Prefix, h: bool, d: bool) -> String {
    let bit = |name: &'static str, set: bool| if set { name } else { "" };
    format!("{at}{}{}", bit(" h", h), bit(" d", d))
}

fn text_of(lease: &Lease) -> String {
    text(lease.prefix, lease.h, lease.d)
}

/// The entries of a reply, in order, each in an information of its own.
fn shown(reply: &[u8]) -> Vec<String> {
    let mut shown = Vec::new();
    for suboption in read220(reply).unwrap() {
        let Suboption::Information(information) = suboption else {
            panic!("{suboption:?}")
        };
        let [entry] = &information.entries[..] else {
            panic!("{information:?}")
        };
        assert!(!information.c && !information.s && entry.figures.is_empty());
        shown.push(text(prefix(entry.network, entry.prefix), entry.h, entry.d));
    }
    shown
}

/// What a station's ask for these lengths and h gets, or its refusal's number; refused, it
/// leaves the table.
fn gets_with(
    table: &mut Table,
    client: u32,
    now: u32,
    requests: &[(u8, bool)],
) -> Result<Vec<String>, u8> {
    let before = table.clone();
    match ask(table, client, now, &asking_with(requests)) {
        Ok((count, reply)) => {
            let shown = shown(&reply);
            assert_eq!(shown.len(), count);
            assert_eq!(table.last_time, now);
            assert!(table.sound());
            Ok(shown)
        }
        Err(Refusal { number, .. }) => {
            assert_eq!(*table, before);
            Err(number)
        }
    }
}

fn gets(table: &mut Table, client: u32, now: u32, lengths: &[u8]) -> Result<Vec<String>, u8> {
    let requests: Vec<(u8, bool)> = lengths.iter().map(|length| (*length, false)).collect();
    gets_with(table, client, now, &requests)
}

fn some(texts: &[&str]) -> Result<Vec<String>, u8> {
    Ok(texts.iter().map(|text| text.to_string()).collect())
}

fn held(at: &str, client: u32, expires: u32) -> Lease {
    lease(p(at), client, State::Offered, expires)
}

fn leased(at: &str, client: u32, expires: u32) -> Lease {
    lease(p(at), client, State::Leased, expires)
}

/// 10.0.1.0/24 at 1000, default length 28, with these leases.
fn table_of(leases: &[Lease]) -> Table {
    table_with(&["10.0.1.0/24"], 1000, leases)
}

/// The lines, each with its end.
fn ends(table: &Table) -> Vec<(String, u32)> {
    let leases = table.used_leases().iter();
    leases
        .map(|lease| (lease.prefix.to_string(), lease.expires))
        .collect()
}

fn end(at: &str, expires: u32) -> (String, u32) {
    (at.to_string(), expires)
}

/// 1,024 leased /30s from 10.0.0.0 on, the first ones held by client 7 instead.
fn full_with_held(count: usize) -> Table {
    let mut leases = samples::row_of_leases(LEASES as u32, 9, 5000);
    for lease in &mut leases[..count] {
        (lease.client, lease.state) = (7, State::Offered);
    }
    table_with(&["10.0.0.0/20"], 1000, &leases)
}

#[test]
fn a_box_that_asks_again_gets_the_same_block() {
    // "A box that loses our offer asks again and gets a second block; one held nine."
    let mut table = table_of(&[]);
    let mut first = None;
    for time in 0..9 {
        let now = 1000 + 100 * time;
        let (count, reply) = ask(&mut table, 7, now, &asking(&[26])).unwrap();
        assert_eq!(count, 1);
        assert_eq!(*first.get_or_insert(reply.clone()), reply);
        // "held until now + 120".
        assert_eq!(ends(&table), [end(A, now + 120)]);
        assert_eq!(table.last_time, now);
    }
    // It can be taken all the time, and then it is no offer any more.
    assert!(take(&mut table, 7, 1900, &entries(&[p(A)])).is_ok());
    assert_eq!(gets(&mut table, 7, 1900, &[26]), some(&[B]));
}

#[test]
fn more_held_lines_than_requests() {
    // "lowest network first"; the others keep their end.
    let start = [held(A, 7, 1050), held(B, 7, 1060), held(C, 7, 1070)];
    let mut table = table_of(&start);
    assert_eq!(gets(&mut table, 7, 1001, &[26]), some(&[A]));
    assert_eq!(
        ends(&table),
        [end(A, 1121), end(B, 1060), end(C, 1070)],
        "one"
    );
    // The lowest again, though it is now the one that ends last.
    assert_eq!(gets(&mut table, 7, 1002, &[26, 26]), some(&[A, B]));
    assert_eq!(ends(&table), [end(A, 1122), end(B, 1122), end(C, 1070)]);
    assert_eq!(gets(&mut table, 7, 1002, &[26, 26, 26]), some(&[A, B, C]));
    assert_eq!(ends(&table), [end(A, 1122), end(B, 1122), end(C, 1122)]);
}

#[test]
fn fewer_held_lines_than_requests() {
    // "each line at most once in a message"; "Only the rest take new ground."
    let mut table = table_of(&[held(B, 7, 1050)]);
    assert_eq!(gets(&mut table, 7, 1001, &[26, 26, 26]), some(&[B, A, C]));
    assert_eq!(ends(&table), [end(A, 1121), end(B, 1121), end(C, 1121)]);
    // The reply has the order of the requests, new ones between those that are re-given.
    let mut table = table_of(&[held(A, 7, 1050), held("10.0.1.64/27", 7, 1050)]);
    assert_eq!(
        gets(&mut table, 7, 1001, &[27, 28, 26, 27, 26]),
        some(&[
            "10.0.1.64/27",
            "10.0.1.96/28",
            A,
            "10.0.1.128/27",
            "10.0.1.192/26"
        ])
    );
}

#[test]
fn a_line_made_by_the_message_is_not_re_given_in_it() {
    // "before the message": each of these is a request of its own.
    let mut table = table_of(&[]);
    assert_eq!(gets(&mut table, 7, 1000, &[26, 26, 26]), some(&[A, B, C]));
    assert_eq!(gets(&mut table, 7, 1000, &[26; 5]), some(&[A, B, C, D]));
    assert_eq!(gets(&mut table, 7, 1000, &[26; 25]), some(&[A, B, C, D]));
}

#[test]
fn both_h() {
    // "a present line of the same length and h".
    let mut with_h = held(B, 7, 1050);
    with_h.h = true;
    let start = table_of(&[held(A, 7, 1050), with_h]);
    for (requests, entries) in [
        (&[(26, false)][..], &[A][..]),
        (&[(26, true)], &["10.0.1.64/26 h"]),
        (&[(26, true), (26, false)], &["10.0.1.64/26 h", A]),
        (
            &[(26, true), (26, true)],
            &["10.0.1.64/26 h", "10.0.1.128/26 h"],
        ),
        (&[(26, false), (26, false)], &[A, C]),
        (
            &[(26, false), (26, true), (26, false), (26, true)],
            &[A, "10.0.1.64/26 h", C, "10.0.1.192/26 h"],
        ),
    ] {
        let mut table = start.clone();
        let answer = gets_with(&mut table, 7, 1001, requests);
        assert_eq!(answer, some(entries), "{requests:?}");
        // h of a line stays what it was.
        assert!(!table.leases[0].h && table.leases[1].h);
    }
}

#[test]
fn d_stays_and_shows_in_the_reply() {
    // "(its d stays and shows in the reply)"; d does not matter for the choice.
    let mut table = table_of(&[]);
    assert_eq!(gets(&mut table, 7, 1000, &[26, 26]), some(&[A, B]));
    assert!(mark(&mut table, 1001, p(A), true).is_ok());
    for now in [1002, 1003] {
        assert_eq!(
            gets(&mut table, 7, now, &[26, 26, 26]),
            some(&["10.0.1.0/26 d", B, C])
        );
        assert!(table.leases[0].d && !table.leases[1].d && !table.leases[2].d);
        assert!(release(&mut table, 7, now, &entries(&[p(C)])).is_ok());
    }
    assert!(mark(&mut table, 1004, p(A), false).is_ok());
    assert_eq!(gets(&mut table, 7, 1004, &[26]), some(&[A]));
    // With h: the entry has both bits.
    let mut both = held(C, 7, 1050);
    (both.h, both.d) = (true, true);
    let mut table = table_of(&[both]);
    let (_, reply) = ask(&mut table, 7, 1001, &asking_with(&[(26, true)])).unwrap();
    assert_eq!(reply, hex("DC 0B 00 02 08 00 0A 00 01 80 1A 03 00"));
    assert_eq!(table.leases[0].expires, 1121);
}

#[test]
fn an_ended_held_line_is_new_ground() {
    // "a present line": one whose end has come is none, at its own second too.
    let mut marked = held(B, 7, 1100);
    marked.d = true;
    let start = table_of(&[leased(A, 8, 5000), marked]);
    let mut table = start.clone();
    assert_eq!(
        gets(&mut table, 7, 1099, &[26]),
        some(&["10.0.1.64/26 d"]),
        "a second before"
    );
    for now in [1100, 1101, 4999] {
        let mut table = start.clone();
        // The same block, for it is the best fit: but a new line, "d 0".
        assert_eq!(gets(&mut table, 7, now, &[26]), some(&[B]));
        assert_eq!(table.leases[1], held(B, 7, now + 120));
        // Another station gets it just so.
        let mut table = start.clone();
        assert_eq!(gets(&mut table, 9, now, &[26]), some(&[B]));
        assert_eq!(table.leases[1], held(B, 9, now + 120));
    }
}

#[test]
fn a_full_book_with_only_re_given_lines_is_accepted() {
    // "A re-given line needs no empty line, so 9 and 10 apply only to the rest."
    let start = full_with_held(3);
    for count in 1..=3 {
        let mut table = start.clone();
        let reply = gets(&mut table, 7, 1001, &vec![30; count]).unwrap();
        assert_eq!(reply.len(), count);
        assert_eq!(table.used_leases().len(), LEASES);
        let held = table.leases.iter().filter(|lease| lease.expires == 1121);
        assert_eq!(held.count(), count);
    }
    // Who holds nothing gets 9, also where the lengths are those of others' lines.
    for client in [8, 9, 10] {
        assert_eq!(gets(&mut start.clone(), client, 1001, &[30]), Err(9));
    }
}

#[test]
fn no_ground_and_only_re_given_lines() {
    // The whole root is held: no free block of any length.
    let mut table = table_of(&[held("10.0.1.0/24", 7, 1050)]);
    assert_eq!(gets(&mut table, 7, 1001, &[24]), some(&["10.0.1.0/24"]));
    assert_eq!(gets(&mut table, 7, 1001, &[25]), Err(10));
    assert_eq!(gets_with(&mut table, 7, 1001, &[(24, true)]), Err(10));
    assert_eq!(gets(&mut table, 8, 1001, &[24]), Err(10));
}

#[test]
fn re_given_and_refused_in_one_message() {
    // For want of lines: the rest have no entry, wherever they stand.
    for requests in [&[30, 30][..], &[28, 30], &[30, 28, 28], &[8, 1, 0, 30, 30]] {
        let mut table = full_with_held(1);
        assert_eq!(gets(&mut table, 7, 1001, requests), some(&["10.0.0.0/30"]));
        assert_eq!(table.leases[0].expires, 1121);
        assert_eq!(table.used_leases().len(), LEASES);
    }
    // For want of ground.
    let taken = [held(A, 7, 1050), leased(B, 8, 5000), leased(C, 8, 5000)];
    let start = table_of(&taken);
    for (requests, entries) in [
        (&[25, 26][..], &[A][..]),
        (&[26, 25], &[A]),
        (&[25, 26, 24, 26, 25, 26], &[A, D]),
    ] {
        let mut table = start.clone();
        assert_eq!(gets(&mut table, 7, 1001, requests), some(entries));
    }
    // Both: one empty line, which the first of the rest takes.
    let mut table = full_with_held(2);
    assert!(release(&mut table, 9, 1001, &entries(&[p("10.0.3.252/30")])).is_ok());
    assert_eq!(
        gets(&mut table, 7, 1001, &[29, 30, 30, 30, 30]),
        some(&["10.0.0.0/30", "10.0.0.4/30", "10.0.3.252/30"])
    );
}

#[test]
fn nothing_granted_or_re_given_is_refused_and_nothing_is_struck() {
    // The station holds, but nothing of the length and h asked for.
    let mut full = full_with_held(3);
    full.leases[0].h = true;
    full.leases[LEASES - 1].expires = 1001;
    for requests in [&[(29, false)][..], &[(29, true), (8, false)]] {
        assert_eq!(gets_with(&mut full.clone(), 7, 1000, requests), Err(9));
        // At 1001 the last line is an empty one: no ground for these.
        assert_eq!(gets_with(&mut full.clone(), 7, 1001, requests), Err(10));
    }
    assert_eq!(
        gets_with(&mut full.clone(), 7, 1001, &[(29, true), (30, true)]),
        some(&["10.0.0.0/30 h"])
    );
    // A message of re-given lines alone strikes what has ended and sets the last time.
    let mut table = table_of(&[held(A, 7, 1050), leased(B, 8, 1001), held(C, 7, 1001)]);
    assert_eq!(gets(&mut table, 7, 1001, &[26]), some(&[A]));
    assert_eq!(ends(&table), [end(A, 1121)]);
    assert_eq!(table.last_time, 1001);
}

#[test]
fn re_given_25_of_26_lines() {
    let leases: Vec<Lease> = (0..26)
        .map(|index| Lease {
            state: State::Offered,
            d: index % 2 == 0,
            expires: 1100 - index,
            ..row_of_leases(26, 5000)[index as usize]
        })
        .collect();
    let mut table = table_with(&["10.0.0.0/16"], 1000, &leases);
    let (count, reply) = ask(&mut table, 7, 1001, &asking(&[30; 25])).unwrap();
    assert_eq!((count, reply.len(), reply[1]), (25, 253, 251));
    for (index, entry) in shown(&reply).iter().enumerate() {
        let d = if index % 2 == 0 { " d" } else { "" };
        assert_eq!(*entry, format!("10.0.0.{}/30{d}", 4 * index));
        assert_eq!(table.leases[index].expires, 1121);
    }
    // The 26th is left as it was, and nothing is new.
    assert_eq!(table.leases[25], leases[25]);
    assert_eq!(table.used_leases().len(), 26);
    // 26 requests are none of an ask.
    assert_eq!(
        ask(&mut table, 7, 1001, &asking(&[30; 26])),
        Err(no(8, 0)),
        "26 requests"
    );
}

#[test]
fn prefix_0_means_the_default_length_here_too() {
    // The default is 28.
    let mut table = table_of(&[held("10.0.1.16/28", 7, 1050)]);
    assert_eq!(gets(&mut table, 7, 1001, &[0]), some(&["10.0.1.16/28"]));
    assert_eq!(gets(&mut table, 7, 1002, &[28]), some(&["10.0.1.16/28"]));
    assert_eq!(
        gets(&mut table, 7, 1003, &[0, 28, 0]),
        some(&["10.0.1.16/28", "10.0.1.0/28", "10.0.1.32/28"])
    );
    assert_eq!(
        gets_with(&mut table, 7, 1003, &[(0, true)]).unwrap().len(),
        1
    );
    // Offered for prefix 0, asked for by its length, and the other way round.
    let mut table = table_of(&[]);
    assert_eq!(gets(&mut table, 7, 1000, &[0]), some(&["10.0.1.0/28"]));
    assert_eq!(gets(&mut table, 7, 1000, &[28]), some(&["10.0.1.0/28"]));
    assert_eq!(gets(&mut table, 7, 1000, &[0]), some(&["10.0.1.0/28"]));
    // A default that no block can have: no line has it, and 10.
    table.default_length = 7;
    assert_eq!(gets(&mut table, 7, 1000, &[0]), Err(10));
}

#[test]
fn a_leased_line_is_not_re_given() {
    // "held (not leased)".
    let mut table = table_of(&[leased(A, 7, 5000), held(B, 7, 1050)]);
    assert_eq!(gets(&mut table, 7, 1001, &[26, 26]), some(&[B, C]));
    assert_eq!(ends(&table), [end(A, 5000), end(B, 1121), end(C, 1121)]);
    assert_eq!(table.leases[0].state, State::Leased);
    // Taken, the others are not either.
    let both = entries(&[p(B), p(C)]);
    assert!(take(&mut table, 7, 1001, &both).is_ok());
    assert_eq!(gets(&mut table, 7, 1001, &[26]), some(&[D]));
    assert!(take(&mut table, 7, 1001, &entries(&[p(D)])).is_ok());
    assert_eq!(gets(&mut table, 7, 1001, &[26]), Err(10));
}

#[test]
fn lines_of_another_station_are_not_re_given() {
    let mut table = table_of(&[held(A, 8, 1050), held(B, 7, 1050), held(C, 9, 1050)]);
    assert_eq!(gets(&mut table, 7, 1001, &[26, 26, 26]), some(&[B, D]));
    assert_eq!(
        ends(&table),
        [end(A, 1050), end(B, 1121), end(C, 1050), end(D, 1121)]
    );
    assert_eq!(gets(&mut table, 8, 1002, &[26]), some(&[A]));
    assert_eq!(table.leases[0].client, 8);
    assert_eq!(gets(&mut table, 10, 1002, &[26]), Err(10));
}

#[test]
fn the_end_becomes_now_and_120_even_if_it_was_later() {
    for old in [1002, 1121, 1122, 5000, u32::MAX] {
        let mut table = table_of(&[held(A, 7, old)]);
        assert_eq!(gets(&mut table, 7, 1001, &[26]), some(&[A]), "{old}");
        assert_eq!(ends(&table), [end(A, 1121)]);
    }
    // At the latest second.
    let mut table = table_of(&[held(A, 7, u32::MAX)]);
    assert_eq!(gets(&mut table, 7, LATEST, &[26]), some(&[A]));
    assert_eq!(ends(&table), [end(A, LATEST + 120)]);
    assert_eq!(gets(&mut table, 7, LATEST, &[26]), some(&[A]));
}

#[test]
fn another_length_is_new_ground() {
    let mut table = table_of(&[held(A, 7, 1050)]);
    assert_eq!(gets(&mut table, 7, 1001, &[25]), some(&["10.0.1.128/25"]));
    assert_eq!(gets(&mut table, 7, 1001, &[27]), some(&["10.0.1.64/27"]));
    assert_eq!(table.leases[0].expires, 1050);
    // A returned line is ordinary ground, and held no more.
    assert!(release(&mut table, 7, 1001, &entries(&[p("10.0.1.64/27")])).is_ok());
    assert_eq!(
        gets(&mut table, 7, 1001, &[28, 27]),
        some(&["10.0.1.64/28", "10.0.1.96/27"])
    );
}

#[test]
fn other_pieces_have_no_effect() {
    // An Information with a held line does not choose it, a leased one does not either.
    let mut table = table_of(&[held(A, 7, 1050), held(B, 7, 1050), leased(C, 7, 5000)]);
    let pieces = [
        information(false, false, &[p(B), p(C)]),
        Suboption::Name(b"west".to_vec()),
        request(26),
        information(true, true, &[p(B)]),
    ];
    let (_, reply) = ask(&mut table, 7, 1001, &option(&pieces)).unwrap();
    assert_eq!(shown(&reply), [A]);
}

#[test]
fn rows_1_to_8_come_before() {
    // Refused, a held line's end stays, whatever the call would re-give.
    let start = full_with_held(1);
    let good = asking(&[30]);
    let mut unsound = start.clone();
    unsound.leases[LEASES - 1].client = 0;
    let long = asking(&[30; 26]);
    let listing = option(&[request_i()]);
    for (table, client, now, bytes, size, number) in [
        (&start, 7, 1001, &good[..], 256, 1),
        (&unsound, 7, 1001, &good, 257, 5),
        (&start, 0, 1001, &good, 257, 2),
        (&start, 7, 999, &good, 257, 3),
        (&start, 7, LATEST + 1, &good, 257, 4),
        (&start, 7, 1001, &good[1..], 257, 6),
        (&start, 7, 1001, &hex("DC 05 00 01 03 00 1E"), 257, 7),
        (&start, 7, 1001, &hex("DC 05 00 01 02 00 1F"), 257, 16),
        (&start, 7, 1001, &long, 257, 8),
        (&start, 7, 1001, &listing, 257, 8),
    ] {
        let mut table = table.clone();
        let before = table.clone();
        let answer = ask_into(&mut table, client, now, bytes, &mut vec![0; size]);
        assert_eq!(answer.unwrap_err().number, number);
        assert_eq!(table, before);
    }
    // 15: a sheet that does not match.
    let mut table = start.clone();
    let mut sheet = untold_sheet(&Table::zero());
    let answer = calls::ask(&mut table, &mut sheet, 7, 1001, &good, None, &mut [0; 257]);
    assert_eq!(answer, Err(no(15, 0)));
    assert_eq!(table, start);
}

#[test]
fn figures_and_place_of_a_re_given_line_stay() {
    // M-100: "nothing else changes a line's figures".
    let told = |at: &str, by: u16| Row {
        prefix: p(at),
        high_water: by,
        in_use: by + 1,
        unusable: by + 2,
    };
    let mut table = table_of(&[held(A, 7, 1050), held(B, 8, 1001), held(C, 7, 1060)]);
    let mut sheet = untold_sheet(&table);
    put_rows(&[told(A, 10), told(B, 20), told(C, 30)], &mut sheet);
    let mut call = |table: &mut Table, client: u32, now: u32, lengths: &[u8]| {
        let bytes = asking(lengths);
        let answer = calls::ask(table, &mut sheet, client, now, &bytes, None, &mut [0; 257]);
        let rows = rows_of(&sheet).unwrap();
        assert!(answer.is_ok() && matches(&rows, table));
        rows.into_iter().take(4).collect::<Vec<Row>>()
    };
    let empty = Row::untold(Prefix::default());
    assert_eq!(
        call(&mut table, 7, 1000, &[26]),
        [told(A, 10), told(B, 20), told(C, 30), empty]
    );
    // B ends: its row goes, and those of the held lines stay theirs.
    assert_eq!(
        call(&mut table, 7, 1001, &[26, 26]),
        [told(A, 10), told(C, 30), empty, empty]
    );
    assert_eq!(ends(&table), [end(A, 1121), end(C, 1121)]);
    // New ones between them are untold, B's old ground too.
    let between = call(&mut table, 7, 1002, &[26, 26, 26]);
    assert_eq!(
        between,
        [told(A, 10), Row::untold(p(B)), told(C, 30), empty]
    );
    // Ended, A is a new line, and nothing of what was told is left.
    let anew = call(&mut table, 7, 2000, &[26]);
    assert_eq!(anew, [Row::untold(p(A)), empty, empty, empty]);
    assert_eq!(anew[0].high_water, UNTOLD);
}

/// Small pools, many held lines of two stations, both h, d, ends about 1000; now and then
/// with at most two empty lines.
fn random_table(numbers: &mut Numbers) -> Table {
    let mut texts =
        [&["10.0.0.0/25"][..], &["10.0.0.0/26", "10.0.0.64/27"]][numbers.below(2)].to_vec();
    let mut leases: Vec<Lease> = Vec::new();
    for _ in 0..numbers.below(30) {
        let length = numbers.between(27, 30) as u8;
        let size = 1 << (32 - length);
        let at = prefix(
            samples::TEN + size * numbers.below(96 / size as usize) as u32,
            length,
        );
        let state = [
            State::Offered,
            State::Offered,
            State::Offered,
            State::Leased,
        ][numbers.below(4)];
        let end = [999, 1000, 1001, 1100, 1121, 5000, u32::MAX][numbers.below(7)];
        let client = [7, 7, 7, 8][numbers.below(4)];
        let mut lease = lease(at, client, state, end);
        (lease.h, lease.d) = (numbers.once_in(2), numbers.once_in(2));
        if !leases
            .iter()
            .any(|other| other.prefix.shares_address_with(at))
        {
            leases.push(lease);
        }
    }
    if numbers.once_in(5) {
        texts.push("172.16.0.0/20");
        let room = LEASES - leases.len() - numbers.below(3);
        let first = p("172.16.0.0/30").network;
        let fillers = (0..room as u32).map(|index| prefix(first + 4 * index, 30));
        leases.extend(fillers.map(|at| lease(at, 9, State::Leased, u32::MAX)));
    }
    table_with(&texts, 998, &leases)
}

/// The length that is meant, and h.
fn meant(request: (u8, bool)) -> (u8, bool) {
    (if request.0 == 0 { 28 } else { request.0 }, request.1)
}

/// Which line each request of client 7 gets again, by the request's own words; nothing for
/// the rest.
fn expected_again(table: &Table, now: u32, requests: &[(u8, bool)]) -> Vec<Option<Lease>> {
    let mut used: Vec<Prefix> = Vec::new();
    let mut again = Vec::new();
    for request in requests {
        let fitting = table.leases.iter().filter(|lease| {
            (lease.client, lease.state) == (7, State::Offered)
                && lease.expires > now
                && (lease.prefix.length, lease.h) == meant(*request)
                && !used.contains(&lease.prefix)
        });
        let lowest = fitting.min_by_key(|lease| lease.prefix.network).copied();
        used.extend(lowest.map(|lease| lease.prefix));
        again.push(lowest);
    }
    again
}

/// What an ask of client 7 has to get and to leave: the rest get what a station gets that
/// holds nothing and asks for them alone.
fn expected(table: &Table, now: u32, requests: &[(u8, bool)]) -> Result<(Vec<String>, Table), u8> {
    let again = expected_again(table, now, requests);
    let both = || requests.iter().copied().zip(&again);
    let rest: Vec<(u8, bool)> = both()
        .filter(|pair| pair.1.is_none())
        .map(|pair| pair.0)
        .collect();
    let mut after = table.clone();
    let made = match &rest[..] {
        [] => Vec::new(),
        rest => match gets_with(&mut after, 77, now, rest) {
            Err(number) if rest.len() == requests.len() => return Err(number),
            made => made.unwrap_or_default(),
        },
    };
    // Where nothing is made, what has ended is struck all the same.
    after.set_leases(after.present_leases(now));
    after.last_time = now;
    for lease in &mut after.leases {
        if lease.client == 77 {
            lease.client = 7;
        } else if again.contains(&Some(*lease)) {
            lease.expires = now + 120;
        }
    }
    let mut made = made.into_iter().peekable();
    let mut reply = Vec::new();
    for (request, again) in both() {
        let (length, h) = meant(request);
        let is_its = |entry: &String| {
            let end = format!("/{length}{}", if h { " h" } else { "" });
            entry.ends_with(&end)
        };
        reply.extend(
            again
                .map(|lease| text_of(&lease))
                .or_else(|| made.next_if(is_its)),
        );
    }
    assert_eq!(made.next(), None);
    Ok((reply, after.counted()))
}

#[test]
fn only_the_rest_take_new_ground_over_random_tables() {
    let mut numbers = Numbers::new(101);
    let (mut only, mut some, mut none, mut cut, mut refused) = (0, 0, 0, 0, 0);
    for _ in 0..8_000 {
        let mut table = random_table(&mut numbers);
        let before = table.clone();
        let most = [1, 3, 8][numbers.below(3)];
        let requests: Vec<(u8, bool)> = (0..numbers.between(1, most))
            .map(|_| ([0, 27, 28, 29, 30][numbers.below(5)], numbers.once_in(2)))
            .collect();
        let now = numbers.between(998, 1001) as u32;
        let expected = expected(&before, now, &requests);
        let answer = gets_with(&mut table, 7, now, &requests);
        let Ok((reply, after)) = expected else {
            assert_eq!(answer.err(), expected.err());
            refused += 1;
            continue;
        };
        let again = expected_again(&before, now, &requests)
            .iter()
            .flatten()
            .count();
        match (again, requests.len() - again) {
            (0, _) => none += 1,
            (_, 0) => only += 1,
            _ if reply.len() < requests.len() => cut += 1,
            _ => some += 1,
        }
        assert_eq!(answer, Ok(reply));
        assert_eq!(table, after);
    }
    let counts = [only, some, none, cut, refused];
    assert!(counts.iter().all(|count| *count > 400), "{counts:?}");
}
