//! M-100, usage figures: each sentence of the request, and how it is read.

use reference::calls::{self, Answer};
use reference::figures::{matches, put_rows, rows_of, untold_sheet, Row, SHEET, UNTOLD};
use reference::image;
use reference::option::{read220, Suboption};
use reference::prefix::Prefix;
use reference::refusal::Refusal;
use reference::samples::{full_table, telling};
use reference::table::{State, Table};

use crate::common::*;

const A: &str = "10.0.1.0/26";
const B: &str = "10.0.1.64/26";
const C: &str = "10.0.1.128/25";
const NEVER: [u16; 3] = [UNTOLD; 3];

/// The table and the sheet beside it.
#[derive(Clone)]
struct Desk {
    table: Table,
    sheet: Vec<u8>,
}

impl Desk {
    /// A table with these leases, of which nothing was told.
    fn with(texts: &[&str], leases: &[reference::table::Lease]) -> Desk {
        let table = table_with(texts, 1000, leases);
        let sheet = untold_sheet(&table);
        Desk { table, sheet }
    }

    /// Leases A and B of client 7 and C of client 8, all until 4600, with figures.
    fn three() -> Desk {
        let leases =
            [(A, 7), (B, 7), (C, 8)].map(|(at, client)| lease(p(at), client, State::Leased, 5000));
        let mut desk = Desk::with(&["10.0.1.0/24"], &leases);
        for (client, at, figures) in [(7, A, [1, 2, 3]), (7, B, [4, 5, 6]), (8, C, [7, 8, 9])] {
            assert_eq!(desk.take(client, 1000, &[(at, &figures)]), Ok(1));
        }
        desk
    }

    /// What holds of every call: accepted, the rows match; refused, all is as it was.
    fn call(
        &mut self,
        call: impl FnOnce(&mut Table, &mut [u8]) -> Result<Answer, Refusal>,
    ) -> Result<usize, u8> {
        let before = self.clone();
        let answer = call(&mut self.table, &mut self.sheet);
        if answer.is_ok() {
            assert!(matches(&rows_of(&self.sheet).unwrap(), &self.table));
        } else {
            assert_eq!(self.table, before.table);
            assert_eq!(self.sheet, before.sheet);
        }
        answer
            .map(|answer| answer.count)
            .map_err(|refusal| refusal.number)
    }

    fn ask(&mut self, client: u32, now: u32, lengths: &[u8]) -> Result<usize, u8> {
        let bytes = asking(lengths);
        self.call(|table, sheet| calls::ask(table, sheet, client, now, &bytes, None, &mut [0; 257]))
    }

    fn take(&mut self, client: u32, now: u32, told: &[(&str, &[u16])]) -> Result<usize, u8> {
        let bytes = option_telling(told);
        self.call(|table, sheet| {
            calls::take(table, sheet, client, now, &bytes, None, &mut [0; 257])
        })
    }

    fn release(&mut self, client: u32, now: u32, told: &[(&str, &[u16])]) -> Result<usize, u8> {
        let bytes = option_telling(told);
        self.call(|table, sheet| calls::release(table, sheet, client, now, &bytes))
    }

    fn mark(&mut self, now: u32, at: &str, d: bool) -> Result<usize, u8> {
        self.call(|table, sheet| calls::mark(table, sheet, now, p(at), d))
    }

    /// The rows before the first empty line's.
    fn rows(&self) -> Vec<(String, [u16; 3])> {
        let rows = rows_of(&self.sheet).unwrap().into_iter();
        rows.take_while(|row| row.prefix != Prefix::default())
            .map(|row| {
                let figures = [row.high_water, row.in_use, row.unusable];
                (row.prefix.to_string(), figures)
            })
            .collect()
    }

    /// The figures in the row of a prefix.
    fn figures(&self, at: &str) -> [u16; 3] {
        let rows = self.rows();
        rows.into_iter().find(|row| row.0 == at).unwrap().1
    }
}

fn option_telling(told: &[(&str, &[u16])]) -> Vec<u8> {
    let told: Vec<(Prefix, &[u16])> = told.iter().map(|(at, told)| (p(at), *told)).collect();
    telling(&told)
}

#[test]
fn a_row_holds_network_length_and_three_figures() {
    // "one row of three for each line"; "a row also holds its line's network and length".
    let mut desk = Desk::with(&["10.0.1.0/24"], &[]);
    assert_eq!(desk.ask(7, 1000, &[26]), Ok(1));
    assert_eq!(desk.take(7, 1000, &[(A, &[0x0102, 0x0304, 0x0506])]), Ok(1));
    assert_eq!(desk.sheet.len(), 11_264);
    assert_eq!(desk.sheet[..11], hex("0001000a 1a 0201 0403 0605")[..]);
    // "(an empty line's row is network and length 0, untold)".
    for row in desk.sheet[11..].chunks(11) {
        assert_eq!(row, hex("00000000 00 ffff ffff ffff"));
    }
}

#[test]
fn each_figure_is_filed_in_its_own_place() {
    // "A high water figure must never end up filed as an in-use one."
    for (told, filed) in [
        (&[10][..], [10, UNTOLD, UNTOLD]),
        (&[UNTOLD, 7], [UNTOLD, 7, UNTOLD]),
        (&[UNTOLD, UNTOLD, 2], [UNTOLD, UNTOLD, 2]),
        (&[10, 7], [10, 7, UNTOLD]),
        (&[10, UNTOLD, 2], [10, UNTOLD, 2]),
        (&[10, 7, 2], [10, 7, 2]),
        (&[0, 0, 0], [0, 0, 0]),
        (&[0xfffe, 0xff00, 0x00ff], [0xfffe, 0xff00, 0x00ff]),
        (&[], NEVER),
        (&[UNTOLD, UNTOLD, UNTOLD], NEVER),
    ] {
        let mut desk = Desk::with(&["10.0.1.0/24"], &[]);
        assert_eq!(desk.ask(7, 1000, &[26]), Ok(1));
        assert_eq!(desk.take(7, 1000, &[(A, told)]), Ok(1));
        assert_eq!(desk.figures(A), filed, "{told:?}");
    }
}

#[test]
fn untold_and_missing_figures_keep_what_was_told() {
    // "0xffff or a missing figure keeps what was told before."
    for (told, kept) in [
        (&[][..], [1, 2, 3]),
        (&[10], [10, 2, 3]),
        (&[10, 7], [10, 7, 3]),
        (&[UNTOLD], [1, 2, 3]),
        (&[UNTOLD, 7], [1, 7, 3]),
        (&[UNTOLD, UNTOLD, 0], [1, 2, 0]),
        (&[0, UNTOLD, 9], [0, 2, 9]),
        (&NEVER, [1, 2, 3]),
        (&[10, 7, 2], [10, 7, 2]),
    ] {
        let mut desk = Desk::three();
        assert_eq!(desk.take(7, 1001, &[(A, told)]), Ok(1));
        assert_eq!(desk.figures(A), kept, "{told:?}");
        // "nothing else changes a line's figures".
        assert_eq!(desk.figures(B), [4, 5, 6]);
        assert_eq!(desk.figures(C), [7, 8, 9]);
    }
}

#[test]
fn figures_past_the_third_are_stepped_over() {
    let mut desk = Desk::three();
    let bytes = hex("DC 13 00 02 10 00 0A 00 01 00 1A 00 08 00 0A FF FF 00 02 00 63");
    let answer = desk.call(|t, sheet| calls::take(t, sheet, 7, 1001, &bytes, None, &mut [0; 257]));
    assert_eq!(answer, Ok(1));
    assert_eq!(desk.figures(A), [10, 2, 2]);
}

#[test]
fn a_later_entry_wins_figure_by_figure() {
    // "in entry order".
    let mut desk = Desk::three();
    let told: [(&str, &[u16]); 4] = [
        (A, &[10, 20, 30]),
        (B, &[50]),
        (A, &[11, UNTOLD]),
        (A, &[UNTOLD, 22]),
    ];
    assert_eq!(desk.take(7, 1001, &told), Ok(4));
    assert_eq!(desk.figures(A), [11, 22, 30]);
    assert_eq!(desk.figures(B), [50, 5, 6]);
    // Across informations, whatever their flags.
    let mut bytes = option_telling(&[(A, &[100]), (B, &[200])]);
    let other = option_telling(&[(B, &[201, 202]), (A, &[UNTOLD, 102])]);
    bytes[5] = 3;
    bytes.extend(&other[3..]);
    bytes[1] = (bytes.len() - 2) as u8;
    let answer = desk.call(|t, sheet| calls::take(t, sheet, 7, 1001, &bytes, None, &mut [0; 257]));
    assert_eq!(answer, Ok(4));
    assert_eq!(desk.figures(A), [100, 102, 30]);
    assert_eq!(desk.figures(B), [201, 202, 6]);
}

#[test]
fn entries_that_are_not_found_tell_nothing() {
    let mut desk = Desk::three();
    let before = desk.rows();
    // Another client's, another length, another network, and one that has nothing.
    let others: [(&str, &[u16]); 4] = [
        (C, &[90, 90, 90]),
        ("10.0.1.0/27", &[91]),
        ("10.0.1.128/26", &[92]),
        ("10.0.9.0/24", &[93]),
    ];
    assert_eq!(desk.take(7, 1001, &others), Err(11));
    let mut with_one = others.to_vec();
    with_one.push((B, &[]));
    assert_eq!(desk.take(7, 1001, &with_one), Ok(1));
    assert_eq!(desk.rows(), before);
    // One that has ended is not found either, and its row goes.
    let renewed: [(&str, &[u16]); 1] = [(A, &[])];
    assert_eq!(desk.take(7, 4000, &renewed), Ok(1));
    assert_eq!(desk.take(7, 5000, &[(B, &[1]), (A, &[60])]), Ok(1));
    assert_eq!(desk.rows(), [(A.to_string(), [60, 2, 3])]);
}

#[test]
fn a_new_line_starts_untold() {
    let mut desk = Desk::with(&["10.0.1.0/24"], &[]);
    assert_eq!(desk.ask(7, 1000, &[26, 26, 25]), Ok(3));
    let untold = [A, B, C].map(|at| (at.to_string(), NEVER));
    assert_eq!(desk.rows(), untold);
    // An entry's figures in an ask have no effect.
    let mut bytes = asking(&[27]);
    bytes.extend(&option_telling(&[(A, &[1, 2, 3])])[3..]);
    bytes[1] = (bytes.len() - 2) as u8;
    assert_eq!(desk.release(7, 1000, &[(A, &[])]), Ok(1));
    let answer = desk.call(|t, sheet| calls::ask(t, sheet, 7, 1000, &bytes, None, &mut [0; 257]));
    assert_eq!(answer, Ok(1));
    assert_eq!(desk.figures("10.0.1.0/27"), NEVER);
}

#[test]
fn open_and_load_fill_the_sheet() {
    let desk = Desk::three();
    let saved = image(&desk.table);
    // Whatever the sheet was: a used one, zeros, any bytes.
    for old in [desk.sheet.clone(), vec![0; SHEET], vec![0xa5; SHEET]] {
        let mut sheet = old.clone();
        let opened = calls::open(&pools(&["10.0.1.0/24"]), 3600, 28, 0, &mut sheet).unwrap();
        assert_eq!(sheet, hex("00000000 00 ffff ffff ffff").repeat(1_024));
        assert_eq!(sheet, untold_sheet(&opened));
        // "A new or loaded line starts with all three untold": figures are not saved.
        let (mut table, mut sheet) = (Table::zero(), old.clone());
        assert_eq!(image::load(&mut table, &mut sheet, &saved), Ok(()));
        assert_eq!(table, desk.table);
        let loaded = Desk { table, sheet };
        assert_eq!(loaded.rows(), [A, B, C].map(|at| (at.to_string(), NEVER)));
        assert_eq!(loaded.sheet, untold_sheet(&loaded.table));
        // Refused, they leave it.
        let mut sheet = old.clone();
        let opened = calls::open(&[], 3600, 28, 0, &mut sheet);
        assert_eq!(opened, Err(no(12, 0)));
        let mut table = desk.table.clone();
        let answer = image::load(&mut table, &mut sheet, &saved[1..]);
        assert_eq!(answer, Err(no(5, 0)));
        assert_eq!((table, sheet), (desk.table.clone(), old));
    }
}

#[test]
fn a_sheet_of_another_size() {
    let desk = Desk::three();
    let root = pools(&["10.0.1.0/24"]);
    for size in [
        0,
        1,
        11,
        SHEET - 11,
        SHEET - 1,
        SHEET + 1,
        SHEET + 11,
        // 256 rows.
        2_816,
    ] {
        let mut other = desk.clone();
        other.sheet.resize(size, 0xff);
        // "a sheet that doesn't match is refused".
        assert_eq!(other.ask(0, 999, &[30]), Err(15), "{size}");
        assert_eq!(other.take(0, 999, &[(A, &[1])]), Err(15));
        assert_eq!(other.release(0, 999, &[(A, &[1])]), Err(15));
        assert_eq!(other.mark(999, A, true), Err(15));
        // Open and load fill a buffer: 14, last.
        let before = other.sheet.clone();
        for (pools, number) in [(&root[..], 14), (&[], 12)] {
            let opened = calls::open(pools, 3600, 28, 0, &mut other.sheet);
            assert_eq!(opened, Err(no(number, 0)));
        }
        let saved = image(&desk.table);
        for (bytes, number) in [(&saved[..], 14), (&saved[1..], 5)] {
            let loaded = image::load(&mut other.table, &mut other.sheet, bytes);
            assert_eq!(loaded, Err(no(number, 0)));
        }
        assert_eq!((other.table, other.sheet), (desk.table.clone(), before));
    }
}

#[test]
fn the_row_of_a_struck_line_is_cleared() {
    let told = |rows: &[(&str, [u16; 3])]| -> Vec<(String, [u16; 3])> {
        let rows = rows.iter();
        rows.map(|(at, figures)| (at.to_string(), *figures))
            .collect()
    };
    // Returned: the rows after it move up.
    let mut desk = Desk::three();
    assert_eq!(desk.release(7, 1001, &[(A, &[])]), Ok(1));
    assert_eq!(desk.rows(), told(&[(B, [4, 5, 6]), (C, [7, 8, 9])]));
    // Asked for again, it is a new line.
    assert_eq!(desk.ask(7, 1001, &[26]), Ok(1));
    assert_eq!(
        desk.rows(),
        told(&[(A, NEVER), (B, [4, 5, 6]), (C, [7, 8, 9])])
    );
    // Ended, and struck by each call that strikes; B is renewed before.
    let mut before = Desk::three();
    assert_eq!(before.take(7, 4599, &[(B, &[40])]), Ok(1));
    let kept = told(&[(B, [40, 5, 6])]);
    let mut desk = before.clone();
    assert_eq!(desk.mark(4600, B, true), Ok(0));
    assert_eq!(desk.rows(), kept);
    let mut desk = before.clone();
    assert_eq!(desk.take(7, 4600, &[(B, &[])]), Ok(1));
    assert_eq!(desk.rows(), kept);
    let mut desk = before.clone();
    assert_eq!(desk.release(7, 4600, &[(B, &[])]), Ok(1));
    assert_eq!(desk.rows(), told(&[]));
    assert_eq!(desk.sheet, untold_sheet(&Table::zero()));
    // An ask that grants the very blocks of the ended lines: new lines.
    let mut desk = before.clone();
    assert_eq!(desk.ask(7, 4600, &[26, 25]), Ok(2));
    assert_eq!(
        desk.rows(),
        told(&[(A, NEVER), (B, [40, 5, 6]), (C, NEVER)])
    );
    // A second before their end there is no ground, and nothing is struck.
    let mut desk = before.clone();
    assert_eq!(desk.ask(7, 4599, &[26]), Err(10));
    assert_eq!(desk.rows(), before.rows());
}

#[test]
fn rows_move_with_their_lines() {
    // A new line between and before others; "place for place".
    let leases = [("10.0.1.64/26", 7), ("10.0.1.192/26", 7)]
        .map(|(at, client)| lease(p(at), client, State::Leased, 5000));
    let mut desk = Desk::with(&["10.0.1.0/24"], &leases);
    let told: [(&str, &[u16]); 2] = [("10.0.1.64/26", &[1, 2, 3]), ("10.0.1.192/26", &[4, 5])];
    assert_eq!(desk.take(7, 1000, &told), Ok(2));
    assert_eq!(desk.ask(9, 1000, &[26, 27]), Ok(2));
    let rows = [
        ("10.0.1.0/26", NEVER),
        ("10.0.1.64/26", [1, 2, 3]),
        ("10.0.1.128/27", NEVER),
        ("10.0.1.192/26", [4, 5, UNTOLD]),
    ];
    assert_eq!(desk.rows(), rows.map(|(at, told)| (at.to_string(), told)));
}

#[test]
fn nothing_else_changes_figures() {
    let mut desk = Desk::three();
    let before = desk.rows();
    for d in [true, true, false] {
        assert_eq!(desk.mark(1001, A, d), Ok(0));
        assert_eq!(desk.rows(), before);
    }
    // A renewal without figures, of one line and of all.
    assert_eq!(desk.take(7, 1002, &[(A, &[]), (B, &[])]), Ok(2));
    assert_eq!(desk.take(8, 1002, &[(C, &NEVER)]), Ok(1));
    assert_eq!(desk.rows(), before);
    // Figures in a return, of the line that it strikes and of another's.
    let told: [(&str, &[u16]); 2] = [(A, &[70, 71, 72]), (C, &[80, 81, 82])];
    assert_eq!(desk.release(7, 1003, &told), Ok(1));
    assert_eq!(desk.rows(), before[1..]);
    // Refused: `call` holds all to what it was.
    assert_eq!(desk.take(7, 1002, &[(B, &[1])]), Err(3));
    assert_eq!(desk.take(0, 1003, &[(B, &[1])]), Err(2));
    assert_eq!(desk.take(9, 1003, &[(B, &[1])]), Err(11));
    assert_eq!(desk.take(9, 4700, &[(B, &[1])]), Err(11));
    assert_eq!(desk.release(9, 4700, &[(B, &[1])]), Err(11));
    assert_eq!(desk.mark(4700, B, true), Err(11));
    assert_eq!(desk.ask(9, 1003, &[24]), Err(10));
}

#[test]
fn the_reply_of_a_take_has_no_figures() {
    let desk = Desk::three();
    let mut buffer = [0x5a; 257];
    let (mut table, mut sheet) = (desk.table.clone(), desk.sheet.clone());
    let bytes = option_telling(&[(A, &[1, 2, 3])]);
    let answer = calls::take(&mut table, &mut sheet, 7, 1001, &bytes, None, &mut buffer).unwrap();
    assert_eq!((answer.bytes, answer.count), (13, 1));
    assert_eq!(
        buffer[..13],
        hex("DC 0B 00 02 08 00 0A 00 01 00 1A 00 00")[..]
    );
}

/// Each of the four calls on this table and sheet, at this time; the numbers that they
/// are refused with, 0 if accepted.
fn four_calls(desk: &Desk, now: u32) -> [u8; 4] {
    let number = |answer: Result<usize, u8>| answer.err().unwrap_or(0);
    [
        number(desk.clone().ask(7, now, &[28])),
        number(desk.clone().take(7, now, &[(A, &[1])])),
        number(desk.clone().release(7, now, &[(A, &[1])])),
        number(desk.clone().mark(now, A, true)),
    ]
}

#[test]
fn every_place_must_match() {
    // "a sheet that doesn't match is refused"; every bit of the first rows and of the last of
    // a sheet with two used ones, and some of each row between.
    let leases = [A, B].map(|at| lease(p(at), 7, State::Leased, 5000));
    let desk = Desk::with(&["10.0.1.0/24"], &leases);
    assert_eq!(four_calls(&desk, 1000), [0; 4]);
    let ends =
        |bit: &usize| *bit < 88 * 40 || *bit >= 8 * SHEET - 88 * 40 || bit.is_multiple_of(13);
    for bit in (0..8 * SHEET).filter(ends) {
        let mut other = desk.clone();
        other.sheet[bit / 8] ^= 1 << (bit % 8);
        // Figures of used rows are free; all else is not.
        let (row, byte) = (bit / 8 / 11, bit / 8 % 11);
        let number = if row < 2 && byte >= 5 { 0 } else { 15 };
        assert_eq!(four_calls(&other, 1000), [number; 4], "{row} {byte}");
    }
}

#[test]
fn rows_that_match_no_line() {
    let desk = Desk::three();
    let rows = rows_of(&desk.sheet).unwrap();
    let changes: [fn(&mut Vec<Row>); 9] = [
        // Exchanged, said twice, left out, one more, one at another place.
        |rows| rows.swap(0, 1),
        |rows| rows[1] = rows[0],
        |rows| {
            rows.remove(1);
            rows.push(Row::untold(Prefix::default()));
        },
        |rows| rows[3] = Row::untold(p("10.0.1.0/26")),
        |rows| rows.swap(2, 200),
        |rows| rows[1_023] = Row::untold(Prefix::default().halves()[0]),
        // An empty line's row is untold, each figure of it.
        |rows| rows[3].high_water = 0,
        |rows| rows[1_023].in_use = 1,
        |rows| rows[100].unusable = 0xfffe,
    ];
    for (index, change) in changes.iter().enumerate() {
        let mut other = desk.clone();
        let mut rows = rows.clone();
        change(&mut rows);
        put_rows(&rows, &mut other.sheet);
        assert_eq!(four_calls(&other, 1001), [15; 4], "{index}");
        // A full book has no empty line: each of its rows has its own prefix.
        let full = full_table();
        let mut rows = rows_of(&untold_sheet(&full)).unwrap();
        assert!(matches(&rows, &full));
        rows[index].prefix.length += 1;
        assert!(!matches(&rows, &full));
    }
}

#[test]
fn the_match_is_with_the_lines_as_passed_at_no_time() {
    // A ends at 1500: its row belongs to the sheet then and after, until it is struck.
    let leases = [(A, 1500), (B, 5000)].map(|(at, end)| lease(p(at), 7, State::Leased, end));
    let with = Desk::with(&["10.0.1.0/24"], &leases);
    let mut without = with.clone();
    let rows = [Row::untold(p(B)), Row::untold(Prefix::default())];
    put_rows(&rows, &mut without.sheet);
    for now in [1000, 1499, 1500, 4999] {
        let mut desk = with.clone();
        assert_eq!(desk.mark(now, B, true), Ok(0), "{now}");
        assert_eq!(desk.rows().len(), if now < 1500 { 2 } else { 1 });
        for call in four_calls(&without, now) {
            assert_eq!(call, 15, "{now}");
        }
    }
    // 15 before 2, 3 and 4; 1 and 5 before 15 are in refusals.rs.
    for now in [0, 999, u32::MAX] {
        assert_eq!(four_calls(&without, now), [15; 4]);
    }
}

#[test]
fn a_list_has_no_sheet_and_takes_no_figures() {
    // Its position's entry may have figures, which have no effect.
    let desk = Desk::three();
    let mut bytes = option_telling(&[(A, &[1, 2, 3])]);
    bytes[5] = 3;
    bytes.extend([1, 2, 2, 0]);
    bytes[1] += 4;
    let (count, reply) = list(&desk.table, 7, 1001, &bytes).unwrap();
    assert_eq!(
        (count, reply),
        (1, hex("DC 0B 00 02 08 02 0A 00 01 40 1A 00 00"))
    );
}

/// What the sentences say, told line by line: figures by prefix, for the lines that are
/// in the table.
type Model = Vec<(Prefix, [u16; 3])>;

#[test]
fn figures_over_random_histories() {
    let mut numbers = Numbers::new(100);
    let (mut accepted, mut filed, mut again) = ([0; 4], 0, 0);
    for _ in 0..40 {
        let mut desk = Desk::with(&["10.0.0.0/25", "10.1.0.0/26"], &[]);
        desk.table.term = 100;
        // The same calls with nothing ever told: answers and tables are the same.
        let mut silent = desk.clone();
        let mut model: Model = Vec::new();
        let mut gone: Vec<Prefix> = Vec::new();
        let mut now = 1000;
        for _ in 0..200 {
            now += [0, 0, 1, 10, 60][numbers.below(5)];
            let before = desk.table.clone();
            let used = before.used_leases();
            let mut told = Vec::new();
            for _ in 0..numbers.between(1, 4) {
                let at = match used.len() {
                    0 => p("10.0.0.0/28"),
                    count => used[numbers.below(count)].prefix,
                };
                let figures: Vec<u16> = (0..numbers.below(4))
                    .map(|_| {
                        [UNTOLD, 0, 1, 0x0102, 0xff00, numbers.draw() as u16][numbers.below(6)]
                    })
                    .collect();
                told.push((at, figures));
            }
            let named: Vec<(Prefix, &[u16])> =
                told.iter().map(|(at, told)| (*at, &told[..])).collect();
            let bytes = telling(&named);
            let owner = used.iter().find(|lease| lease.prefix == told[0].0);
            let client = owner.map_or(7, |lease| lease.client);
            let kind = numbers.below(4);
            let lengths: Vec<u8> = (0..numbers.between(1, 4))
                .map(|_| numbers.between(26, 30) as u8)
                .collect();
            let d = numbers.once_in(2);
            let call = |table: &mut Table, sheet: &mut [u8]| {
                let buffer = &mut [0; 257];
                match kind {
                    0 => calls::ask(
                        table,
                        sheet,
                        1 + now % 3,
                        now,
                        &asking(&lengths),
                        None,
                        buffer,
                    ),
                    1 => calls::take(table, sheet, client, now, &bytes, None, buffer),
                    2 => calls::release(table, sheet, client, now, &bytes),
                    _ => calls::mark(table, sheet, now, told[0].0, d),
                }
            };
            let answer = desk.call(call);
            silent.sheet = untold_sheet(&silent.table);
            assert_eq!(silent.call(call), answer);
            assert_eq!(silent.table, desk.table);
            if answer.is_err() {
                continue;
            }
            accepted[kind] += 1;
            // "When a line is struck its row is cleared": ended ones first.
            let ended = |at: &Prefix| {
                let lease = used.iter().find(|lease| lease.prefix == *at);
                lease.is_some_and(|lease| lease.expires <= now)
            };
            gone.extend(model.iter().map(|(at, _)| *at).filter(ended));
            model.retain(|(at, _)| !ended(at));
            let own = |at: &Prefix| {
                let present = used.iter().filter(|lease| lease.expires > now);
                let mut of_client = present.filter(|lease| lease.client == client);
                of_client.any(|lease| lease.prefix == *at)
            };
            match kind {
                // "A new ... line starts with all three untold".
                0 => {
                    for lease in desk.table.used_leases() {
                        if !model.iter().any(|(at, _)| *at == lease.prefix) {
                            again += usize::from(gone.contains(&lease.prefix));
                            model.push((lease.prefix, NEVER));
                        }
                    }
                }
                // "a take with figures updates the rows of its lines, in entry order".
                1 => {
                    for (at, figures) in told.iter().filter(|(at, _)| own(at)) {
                        let row = model.iter_mut().find(|row| row.0 == *at).unwrap();
                        for (index, figure) in figures.iter().enumerate() {
                            if *figure != UNTOLD {
                                row.1[index] = *figure;
                                filed += 1;
                            }
                        }
                    }
                }
                2 => {
                    let returned = |at: &Prefix| own(at) && told.iter().any(|(told, _)| told == at);
                    gone.extend(model.iter().map(|(at, _)| *at).filter(returned));
                    model.retain(|(at, _)| !returned(at));
                }
                _ => {}
            }
            model.sort_by_key(|(at, _)| at.network);
            let expected: Vec<(String, [u16; 3])> = model
                .iter()
                .map(|(at, figures)| (at.to_string(), *figures))
                .collect();
            assert_eq!(desk.rows(), expected);
        }
    }
    assert!(accepted.iter().all(|count| *count > 300), "{accepted:?}");
    assert!(filed > 500 && again > 300, "{filed} {again}");
}

#[test]
fn the_sheet_goes_from_call_to_call() {
    // "in demand 3's list the sheet goes from call to call with the book": 1,024 asks that
    // fit, each with the sheet that the one before left.
    let mut desk = Desk::with(&["10.0.0.0/20"], &[]);
    for index in 0..1_024 {
        assert_eq!(desk.ask(1 + index, 1000, &[30]), Ok(1));
    }
    assert_eq!(desk.ask(2_000, 1000, &[30]), Err(9));
    let told: [(&str, &[u16]); 1] = [("10.0.0.0/30", &[1, 2, 3])];
    assert_eq!(desk.take(1, 1000, &told), Ok(1));
    let told: [(&str, &[u16]); 1] = [("10.0.15.252/30", &[4, 5, 6])];
    assert_eq!(desk.take(1_024, 1000, &told), Ok(1));
    let rows = desk.rows();
    assert_eq!(
        (rows.len(), rows[0].1, rows[1_023].1),
        (1_024, [1, 2, 3], [4, 5, 6])
    );
    assert!(rows[1..1_023].iter().all(|row| row.1 == NEVER));
    // The offers end, and new lines take all their places.
    assert_eq!(desk.ask(2_000, 1120, &[30; 25]), Ok(25));
    let rows = desk.rows();
    assert_eq!(
        (rows.len(), rows[0].1, rows[26].1),
        (27, [1, 2, 3], [4, 5, 6])
    );
    assert!(rows[1..26].iter().all(|row| row.1 == NEVER));
}

#[test]
fn the_renewal_of_rfc_6656() {
    // Section 8, example 2: "10, 7 and 2".
    let leases = [lease(p("10.0.2.0/24"), 7, State::Leased, 5000)];
    let mut desk = Desk::with(&["10.0.2.0/24"], &leases);
    let renewal = hex("DC 11 00 02 0E 00 0A 00 02 00 18 00 06 00 0A 00 07 00 02");
    let Suboption::Information(information) = &read220(&renewal).unwrap()[0] else {
        panic!()
    };
    assert_eq!(information.entries[0].figures, [10, 7, 2]);
    let answer =
        desk.call(|t, sheet| calls::take(t, sheet, 7, 2000, &renewal, None, &mut [0; 257]));
    assert_eq!(answer, Ok(1));
    assert_eq!(desk.figures("10.0.2.0/24"), [10, 7, 2]);
}
