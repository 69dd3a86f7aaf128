//! Every refusal number in every call that has it, the row order, and that a refusal
//! changes nothing.

use reference::calls::{self, Answer};
use reference::figures::untold_sheet;
use reference::image::{save, Desk, Form};
use reference::prefix::{prefix, Prefix};
use reference::refusal::Refusal;
use reference::table::{State, Table, LATEST};

use crate::common::*;

/// "The first that applies, in this row order"; 15 is "after 5", 16 "in 7's row".
const ROWS: [u8; 16] = [1, 5, 15, 2, 3, 4, 6, 7, 16, 8, 9, 10, 11, 12, 13, 14];

fn first_row(applying: &[u8]) -> Option<u8> {
    ROWS.into_iter().find(|row| applying.contains(row))
}

/// One way for each row to apply, or for none to.
#[derive(Clone, Copy)]
struct Case {
    short_buffer: bool,
    unsound: bool,
    wrong_sheet: bool,
    client: u32,
    /// 0, 3 or 4.
    time: u8,
    /// 0, 6, 7, 16 or 8.
    option: u8,
    /// 0, 9, 10 or 11.
    outcome: u8,
}

impl Case {
    fn rows(self) -> Vec<u8> {
        let mut rows = vec![self.time, self.option, self.outcome];
        if self.short_buffer {
            rows.push(1);
        }
        if self.unsound {
            rows.push(5);
        }
        if self.wrong_sheet {
            rows.push(15);
        }
        if self.client == 0 {
            rows.push(2);
        }
        rows
    }

    fn now(self) -> u32 {
        match self.time {
            3 => 999,
            4 => LATEST + 1,
            _ => 1000,
        }
    }

    fn spoil(self, mut table: Table) -> Table {
        if self.unsound {
            table.term = 59;
        }
        table
    }

    /// The table's sheet, or one whose first row has another length than its line.
    fn sheet(self, table: &Table) -> Vec<u8> {
        let mut sheet = untold_sheet(table);
        if self.wrong_sheet {
            sheet[4] ^= 1;
        }
        sheet
    }

    /// A table with a lease of client 7 at 10.0.0.0/25.
    fn one_lease(self, state: State) -> Table {
        let leases = [lease(p("10.0.0.0/25"), 7, state, u32::MAX)];
        self.spoil(table_with(&["10.0.0.0/22"], 1000, &leases))
    }

    /// That lease's prefix, or where 11 is the outcome another.
    fn named(self, other: &str) -> Prefix {
        p(if self.outcome == 11 {
            other
        } else {
            "10.0.0.0/25"
        })
    }
}

fn cases(outcomes: &[u8]) -> Vec<Case> {
    let mut cases = Vec::new();
    for [short_buffer, unsound, wrong_sheet, no_client] in yes_and_no() {
        for time in [0, 3, 4] {
            for option in [0, 6, 7, 16, 8] {
                for &outcome in outcomes {
                    cases.push(Case {
                        short_buffer,
                        unsound,
                        wrong_sheet,
                        client: if no_client { 0 } else { 7 },
                        time,
                        option,
                        outcome,
                    });
                }
            }
        }
    }
    cases
}

/// All sixteen.
fn yes_and_no() -> impl Iterator<Item = [bool; 4]> {
    (0..16).map(|bits| [8, 4, 2, 1].map(|bit| bits & bit != 0))
}

/// Bytes that rows 6, 7, 16 and 8 apply to; those for 7 and 16 have the wrong piece of 8 as
/// well, so that they are tried before 8, and a suboption after the bad one that is bad in
/// the other way.
fn bad_option(row: u8, good: &[u8], wrong_piece: &[u8]) -> Vec<u8> {
    let mut bytes = good.to_vec();
    match row {
        6 => {
            bytes.extend([9, 9, 0]);
        }
        7 => {
            bytes.extend(wrong_piece);
            bytes.extend([1, 3, 0, 31, 0, 1, 2, 0, 31]);
            bytes[1] = (bytes.len() - 2) as u8;
        }
        16 => {
            bytes.extend(wrong_piece);
            bytes.extend([1, 2, 0, 31, 1, 3, 0, 31, 0]);
            bytes[1] = (bytes.len() - 2) as u8;
        }
        8 => {
            bytes.extend(wrong_piece);
            bytes[1] = (bytes.len() - 2) as u8;
        }
        _ => {}
    }
    bytes
}

fn expect(case: Case, answer: Result<Answer, Refusal>) -> bool {
    match first_row(&case.rows()) {
        Some(number) => {
            let refusal = answer.unwrap_err();
            assert_eq!(refusal.number, number);
            assert_eq!(refusal.place != 0, number == 7 || number == 16);
            false
        }
        None => {
            answer.unwrap();
            true
        }
    }
}

/// The call of a case, with a reply buffer: a refusal leaves table, sheet and buffer.
fn try_case(
    case: Case,
    before: &Table,
    bytes: &[u8],
    call: impl Fn(&mut Table, &mut [u8], u32, u32, &[u8], &mut [u8]) -> Result<Answer, Refusal>,
) {
    let mut table = before.clone();
    let mut sheet = case.sheet(before);
    let mut buffer = vec![0x5a; if case.short_buffer { 256 } else { 257 }];
    let (client, now) = (case.client, case.now());
    let answer = call(&mut table, &mut sheet, client, now, bytes, &mut buffer);
    if !expect(case, answer) {
        assert_eq!(table, *before);
        assert_eq!(sheet, case.sheet(before));
        assert!(buffer.iter().all(|byte| *byte == 0x5a));
    }
}

#[test]
fn ask_rows_in_every_combination() {
    let good = asking(&[30]);
    for case in cases(&[0, 9, 10]) {
        let leases = match case.outcome {
            // Full, and no ground either: 9 comes first.
            9 => row_of_leases(1_024, u32::MAX),
            10 => vec![lease(p("10.0.0.0/20"), 7, State::Leased, u32::MAX)],
            _ => vec![],
        };
        let before = case.spoil(table_with(&["10.0.0.0/20"], 1000, &leases));
        let bytes = bad_option(case.option, &good, &hex("01 02 02 00"));
        try_case(
            case,
            &before,
            &bytes,
            |t, sheet, client, now, bytes, buffer| {
                calls::ask(t, sheet, client, now, bytes, None, buffer)
            },
        );
    }
}

#[test]
fn take_rows_in_every_combination() {
    for case in cases(&[0, 11]) {
        let at = case.named("10.0.0.128/25");
        let before = case.one_lease(State::Offered);
        let bytes = bad_option(case.option, &entries(&[at]), &hex("01 02 00 18"));
        try_case(
            case,
            &before,
            &bytes,
            |t, sheet, client, now, bytes, buffer| {
                calls::take(t, sheet, client, now, bytes, None, buffer)
            },
        );
    }
}

#[test]
fn list_rows_in_every_combination() {
    // It does not have the sheet, so no row 15.
    for case in cases(&[0, 11]).into_iter().filter(|case| !case.wrong_sheet) {
        let state = if case.outcome == 11 {
            State::Offered
        } else {
            State::Leased
        };
        let before = case.one_lease(state);
        let bytes = bad_option(case.option, &option(&[request_i()]), &hex("01 02 00 18"));
        try_case(
            case,
            &before,
            &bytes,
            |table, _, client, now, bytes, buffer| calls::list(table, client, now, bytes, buffer),
        );
    }
}

#[test]
fn return_rows_in_every_combination() {
    // "no reply buffer", so no row 1.
    for case in cases(&[0, 11])
        .into_iter()
        .filter(|case| !case.short_buffer)
    {
        let at = case.named("10.0.0.0/26");
        let before = case.one_lease(State::Offered);
        let bytes = bad_option(case.option, &entries(&[at]), &hex("01 02 00 18"));
        try_case(
            case,
            &before,
            &bytes,
            |table, sheet, client, now, bytes, _| calls::release(table, sheet, client, now, bytes),
        );
    }
}

#[test]
fn mark_rows_in_every_combination() {
    // "Mark has no station"; its rows are 5, 15, 3, 4 and 11.
    let all = cases(&[0, 11]).into_iter();
    for case in all.filter(|case| !case.short_buffer && case.client != 0 && case.option == 0) {
        let at = case.named("10.0.0.0/26");
        let before = case.one_lease(State::Offered);
        try_case(case, &before, &[], |table, sheet, _, now, _, _| {
            calls::mark(table, sheet, now, at, true)
        });
    }
}

#[test]
fn open_has_only_12() {
    let one = pools(&["10.0.0.0/8"]);
    for (term, default, start, good) in [
        (60, 1, 0, true),
        (2_592_000, 30, LATEST, true),
        (59, 1, 0, false),
        (0, 1, 0, false),
        (2_592_001, 1, 0, false),
        (u32::MAX, 1, 0, false),
        (60, 0, 0, false),
        (60, 31, 0, false),
        (60, 255, 0, false),
        (60, 1, LATEST + 1, false),
        (60, 1, u32::MAX, false),
    ] {
        let opened = open(&one, term, default, start);
        assert_eq!(
            opened.as_ref().err().copied(),
            if good { None } else { Some(no(12, 0)) }
        );
        if let Ok(table) = opened {
            assert!(table.sound());
            assert_eq!(
                (table.term, table.default_length, table.last_time),
                (term, default, start)
            );
        }
    }
    let nine: Vec<Prefix> = (0..9).map(|index| prefix(index << 24, 8)).collect();
    for bad in [
        vec![],
        nine.clone(),
        pools(&["10.0.0.0/7"]),
        pools(&["10.0.0.0/31"]),
        pools(&["10.0.0.0/32"]),
        pools(&["0.0.0.0/0"]),
        vec![prefix(0, 33)],
        vec![prefix(0, 255)],
        pools(&["10.0.1.0/23"]),
        pools(&["10.0.0.1/30"]),
        pools(&["10.0.0.0/24", "10.0.0.0/24"]),
        pools(&["10.0.0.0/24", "10.0.0.128/25"]),
        pools(&["10.0.0.128/25", "10.0.0.0/24"]),
    ] {
        assert_eq!(open(&bad, 3600, 28, 0), Err(no(12, 0)), "{bad:?}");
    }
    assert!(open(&nine[..8], 3600, 28, 0).unwrap().sound());
    // "roots (any order given)", stored ascending; neighbours stay two.
    let table = open(
        &pools(&["10.0.0.128/25", "0.0.0.0/8", "10.0.0.0/25"]),
        3600,
        28,
        0,
    )
    .unwrap();
    assert_eq!(
        table.used_pools(),
        pools(&["0.0.0.0/8", "10.0.0.0/25", "10.0.0.128/25"])
    );
}

#[test]
fn every_way_to_be_unsound() {
    let good = table_with(
        &["10.0.0.0/22", "10.0.8.0/24"],
        1000,
        &[
            lease(p("10.0.0.0/25"), 7, State::Offered, 1001),
            lease(p("10.0.0.128/26"), 8, State::Leased, u32::MAX),
        ],
    );
    let spoils: [fn(&mut Table); 27] = [
        |t| *t = Table::zero(),
        |t| t.term = 59,
        |t| t.term = 2_592_001,
        |t| t.default_length = 0,
        |t| t.default_length = 31,
        |t| t.last_time = 1001,
        |t| {
            t.last_time = LATEST + 1;
            t.leases[0].expires = u32::MAX;
        },
        |t| t.pools = Default::default(),
        |t| t.pools.swap(0, 1),
        |t| t.pools.swap(1, 2),
        |t| t.pools[1].length = 31,
        |t| t.pools[1].length = 0,
        |t| t.pools[1].network += 1,
        |t| t.pools[1] = t.pools[0],
        |t| t.pools[1] = p("10.0.2.0/24"),
        |t| t.pools[7] = p("10.9.0.0/24"),
        |t| t.leases.swap(0, 1),
        |t| t.leases.swap(1, 2),
        |t| t.leases[1].prefix.length = 31,
        |t| t.leases[1].prefix = p("10.0.0.0/26"),
        |t| t.leases[1].prefix = p("10.0.4.0/26"),
        |t| t.leases[1].prefix.network += 4,
        |t| t.leases[1].client = 0,
        |t| t.leases[1].state = State::None,
        |t| t.leases[1].expires = 1000,
        |t| t.leases[1_023].d = true,
        |t| t.leases[2].expires = 1,
    ];
    for (index, spoil) in spoils.iter().enumerate() {
        let mut table = good.clone();
        spoil(&mut table);
        // It is not the counts alone.
        assert!(!table.sound_but_counts() && !table.sound(), "{index}");
        let before = table.clone();
        let mut buffer = [0x5a; 5000];
        let found = entries(&[p("10.0.0.0/25")]);
        let i = option(&[request_i()]);
        assert_eq!(
            ask_into(&mut table, 7, 1000, &asking(&[30]), &mut buffer),
            Err(no(5, 0))
        );
        assert_eq!(
            take_into(&mut table, 7, 1000, &found, &mut buffer),
            Err(no(5, 0))
        );
        assert_eq!(calls::list(&table, 8, 1000, &i, &mut buffer), Err(no(5, 0)));
        assert_eq!(release(&mut table, 7, 1000, &found), Err(no(5, 0)));
        assert_eq!(
            mark(&mut table, 1000, p("10.0.0.0/25"), true),
            Err(no(5, 0))
        );
        for form in Form::BOTH {
            assert_eq!(save(&table, form, Desk::Own, &mut buffer), Err(no(5, 0)));
        }
        assert_eq!(table, before);
        assert!(buffer.iter().all(|byte| *byte == 0x5a));
        // A refused load leaves even an unsound table as it was; an accepted one does
        // not look at it.
        assert_eq!(load(&mut table, &[]), Err(no(5, 0)));
        assert_eq!(table, before);
        assert_eq!(load(&mut table, &image(&good)), Ok(()));
        assert_eq!(table, good);
    }
}

#[test]
fn pieces_not_as_the_call_demands() {
    let at = p("10.0.0.0/25");
    let mut table = table_with(&["10.0.0.0/22"], 1000, &[lease(at, 7, State::Leased, 5000)]);
    let before = table.clone();
    let (name, info, ask_24, i) = (
        reference::option::Suboption::Name(vec![0x61]),
        information(true, true, &[at]),
        request(24),
        request_i(),
    );
    for list_of_pieces in [
        vec![name.clone()],
        vec![info.clone()],
        vec![i.clone()],
        vec![ask_24.clone(), i.clone()],
    ] {
        assert_eq!(
            ask(&mut table, 7, 1000, &option(&list_of_pieces)),
            Err(no(8, 0))
        );
    }
    for list_of_pieces in [
        vec![name.clone()],
        vec![ask_24.clone()],
        vec![i.clone()],
        vec![info.clone(), i.clone()],
        vec![ask_24.clone(), info.clone()],
    ] {
        assert_eq!(
            take(&mut table, 7, 1000, &option(&list_of_pieces)),
            Err(no(8, 0))
        );
        assert_eq!(
            release(&mut table, 7, 1000, &option(&list_of_pieces)),
            Err(no(8, 0))
        );
    }
    for list_of_pieces in [
        vec![name],
        vec![info],
        vec![ask_24.clone()],
        vec![i, ask_24],
    ] {
        assert_eq!(
            list(&table, 7, 1000, &option(&list_of_pieces)),
            Err(no(8, 0))
        );
    }
    // An unknown suboption alone.
    for answer in [
        ask(&mut table, 7, 1000, &hex("DC 03 00 09 00")),
        list(&table, 7, 1000, &hex("DC 03 00 09 00")),
    ] {
        assert_eq!(answer, Err(no(8, 0)));
    }
    assert_eq!(table, before);
}

#[test]
fn ended_lines_count_as_empty_and_stay_after_a_refusal() {
    // 1,024 lines, one ends at 1500.
    let mut leases = row_of_leases(1_024, u32::MAX);
    leases[100].expires = 1500;
    let mut table = table_with(&["10.0.0.0/16"], 1000, &leases);
    let before = table.clone();
    assert_eq!(ask(&mut table, 9, 1499, &asking(&[24])), Err(no(9, 0)));
    assert_eq!(table, before);
    // At its end it is absent; a refusal for want of ground strikes nothing.
    assert_eq!(ask(&mut table, 9, 1500, &asking(&[16])), Err(no(10, 0)));
    assert_eq!(table, before);
    assert_eq!(ask(&mut table, 9, 1500, &asking(&[24, 24])).unwrap().0, 1);
    assert_eq!(table.last_time, 1500);
    assert_eq!(table.used_leases().len(), 1_024);
    assert!(!table.leases.iter().any(|lease| lease.expires == 1500));
}

#[test]
fn times_at_their_limits() {
    let mut table = open(&pools(&["10.0.0.0/24"]), 2_592_000, 28, 0).unwrap();
    assert_eq!(
        ask(&mut table, 7, LATEST + 1, &asking(&[30])),
        Err(no(4, 0))
    );
    assert_eq!(ask(&mut table, 7, LATEST, &asking(&[30])).unwrap().0, 1);
    assert_eq!(table.leases[0].expires, LATEST + 120);
    assert_eq!(
        ask(&mut table, 7, LATEST - 1, &asking(&[30])),
        Err(no(3, 0))
    );
    take(&mut table, 7, LATEST, &entries(&[p("10.0.0.0/30")])).unwrap();
    assert_eq!(table.leases[0].expires, u32::MAX);
    assert!(table.sound());
}

#[test]
fn take_and_return_as_the_readings_say() {
    let (a, b, c) = (p("10.0.0.0/25"), p("10.0.1.0/25"), p("10.0.2.0/25"));
    let mut first = lease(a, 7, State::Offered, 1100);
    (first.h, first.d) = (true, true);
    let leases = [
        first,
        lease(b, 7, State::Leased, 1050),
        lease(c, 8, State::Leased, 9000),
    ];
    let table = table_with(&["10.0.0.0/22"], 1000, &leases);
    // Order, repetition and other stations' lines; flags and figures are the book's.
    let mut wanted = entry(b);
    (wanted.h, wanted.figures) = (true, vec![1, 2, 3]);
    let pieces = [
        reference::option::Suboption::Information(reference::option::Information {
            c: true,
            s: true,
            entries: vec![wanted, entry(c), entry(a)],
        }),
        information(false, false, &[a, prefix(a.network, 26)]),
    ];
    let mut taken = table.clone();
    let (count, reply) = take(&mut taken, 7, 1049, &option(&pieces)).unwrap();
    assert_eq!(count, 3);
    assert_eq!(
        reply,
        hex("DC 19 00 02 16 00 0A 00 01 00 19 00 00 0A 00 00 00 19 03 00 0A 00 00 00 19 03 00")
    );
    assert_eq!(taken.leases[0].expires, 4649);
    assert_eq!(taken.leases[1].expires, 4649);
    assert_eq!(taken.leases[2], leases[2]);
    assert_eq!(taken.last_time, 1049);
    // A repeated entry strikes one line, an ended one is struck and not counted.
    let mut returned = table.clone();
    let answer = release(&mut returned, 7, 1050, &option(&pieces)).unwrap();
    assert_eq!((answer.bytes, answer.count), (0, 1));
    assert_eq!(returned.used_leases(), &leases[2..]);
    assert_eq!(
        release(&mut returned, 7, 1050, &entries(&[c])),
        Err(no(11, 0))
    );
}

#[test]
fn list_positions() {
    let leases: Vec<_> = (0..4)
        .map(|index| lease(prefix(index << 2, 30), 7, State::Leased, 5000))
        .collect();
    let table = table_with(&["0.0.0.0/8"], 1000, &leases);
    let networks = |pieces: &[reference::option::Suboption]| -> Vec<u8> {
        match list(&table, 7, 1000, &option(pieces)) {
            Ok((_, reply)) => reply[6..].chunks(7).map(|entry| entry[3]).collect(),
            Err(refusal) => vec![refusal.number],
        }
    };
    let at = |network: u32| prefix(network, 30);
    // Without a position the line at 0.0.0.0 is meant too, with 0.0.0.0 it isn't.
    assert_eq!(networks(&[request_i()]), [0, 4, 8, 12]);
    assert_eq!(
        networks(&[request_i(), information(true, true, &[at(0)])]),
        [4, 8, 12]
    );
    assert_eq!(
        networks(&[request_i(), information(true, false, &[at(8)])]),
        [0, 4, 8, 12]
    );
    assert_eq!(
        networks(&[request_i(), information(false, true, &[at(8)])]),
        [0, 4, 8, 12]
    );
    // The last entry of the last with both, wherever it stands.
    let earlier = information(true, true, &[at(8), at(4)]);
    let later = information(true, false, &[at(12)]);
    assert_eq!(networks(&[earlier.clone(), request_i(), later]), [8, 12]);
    assert_eq!(
        networks(&[earlier, request_i(), information(true, true, &[at(8)])]),
        [12]
    );
    assert_eq!(
        networks(&[request_i(), information(true, true, &[at(12)])]),
        [11]
    );
    assert_eq!(
        networks(&[request_i(), information(true, true, &[p("128.0.0.0/1")])]),
        [11]
    );
}

#[test]
fn list_changes_nothing_and_passes_ended_and_held_lines() {
    let leases = [
        lease(p("10.0.0.0/30"), 7, State::Leased, 1500),
        lease(p("10.0.0.4/30"), 7, State::Offered, 5000),
        lease(p("10.0.0.8/30"), 7, State::Leased, 5000),
        lease(p("10.0.0.12/30"), 8, State::Leased, 5000),
    ];
    let table = table_with(&["10.0.0.0/24"], 1000, &leases);
    let i = option(&[request_i()]);
    assert_eq!(list(&table, 7, 1499, &i).unwrap().0, 2);
    assert_eq!(
        list(&table, 7, 1500, &i),
        Ok((1, hex("DC 0B 00 02 08 02 0A 00 00 08 1E 00 00")))
    );
    assert_eq!(list(&table, 9, 1500, &i), Err(no(11, 0)));
}

#[test]
fn mark_sets_and_clears_d() {
    let at = p("10.0.0.0/30");
    let leases = [
        lease(at, 7, State::Offered, 1500),
        lease(p("10.0.0.4/30"), 7, State::Leased, 1200),
    ];
    let mut table = table_with(&["10.0.0.0/24"], 1000, &leases);
    for (d, now) in [(true, 1100), (true, 1200), (false, 1300)] {
        let answer = mark(&mut table, now, at, d).unwrap();
        assert_eq!((answer.bytes, answer.count), (0, 0));
        assert_eq!((table.leases[0].d, table.last_time), (d, now));
    }
    assert_eq!(table.used_leases().len(), 1);
    let before = table.clone();
    // An empty place is no line.
    for other in [
        prefix(0, 0),
        prefix(at.network, 29),
        prefix(at.network + 1, 30),
        prefix(0, 255),
    ] {
        assert_eq!(mark(&mut table, 1300, other, true), Err(no(11, 0)));
    }
    assert_eq!(mark(&mut table, 1500, at, true), Err(no(11, 0)));
    assert_eq!(table, before);
}

#[test]
fn pieces_without_effect() {
    let at = p("10.0.0.0/25");
    let mut table = table_with(&["10.0.0.0/24"], 1000, &[]);
    let mut other = table.clone();
    let plain = ask(&mut table, 7, 1000, &option(&[request_h(25), request(26)])).unwrap();
    let bytes =
        hex("DC 19 FF 01 02 FD 19 02 08 03 0A 00 00 80 19 03 00 04 02 00 00 01 02 00 1A 09 00");
    assert_eq!(ask(&mut other, 7, 1000, &bytes).unwrap(), plain);
    assert_eq!(other, table);
    assert_eq!(plain.0, 2);
    assert_eq!(table.leases[0].prefix, at);
    assert!(table.leases[0].h && !table.leases[1].h);
    assert_eq!(
        plain.1[..13],
        hex("DC 15 00 02 08 00 0A 00 00 00 19 02 00")[..]
    );
}
