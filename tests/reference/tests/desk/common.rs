//! What the tests share: bytes from text, options from pieces, calls with a buffer.

use reference::calls::{self, Answer};
use reference::figures::{matches, rows_of, untold_sheet};
use reference::image;
pub use reference::numbers::Numbers;
use reference::option::{Entry, Information, Request, Suboption};
use reference::prefix::{prefix, Prefix};
use reference::refusal::Refusal;
use reference::samples;
pub use reference::samples::{asking, entries, entry, image, information, lease, request_i};
use reference::table::{Lease, Table};

/// `10.0.1.0/24`.
pub fn p(text: &str) -> Prefix {
    let (address, length) = text.split_once('/').unwrap();
    let address: std::net::Ipv4Addr = address.parse().unwrap();
    prefix(u32::from(address), length.parse().unwrap())
}

pub fn pools(texts: &[&str]) -> Vec<Prefix> {
    texts.iter().map(|text| p(text)).collect()
}

/// Bytes from hexadecimal digits, spaces aside.
pub fn hex(text: &str) -> Vec<u8> {
    let digits: Vec<u32> = text.chars().filter_map(|c| c.to_digit(16)).collect();
    assert_eq!(digits.len() % 2, 0, "{text}");
    digits
        .chunks(2)
        .map(|pair| (16 * pair[0] + pair[1]) as u8)
        .collect()
}

pub fn request(length: u8) -> Suboption {
    samples::request(length, false)
}

pub fn request_h(length: u8) -> Suboption {
    samples::request(length, true)
}

/// The option that the writer makes of these pieces, which it must not refuse.
pub fn option(list: &[Suboption]) -> Vec<u8> {
    let bytes = samples::option(list);
    assert!(!bytes.is_empty());
    bytes
}

fn random_entry(numbers: &mut Numbers) -> Entry {
    let length = numbers.between(1, 30) as u8;
    let network = (numbers.draw() as u32) & (u32::MAX << (32 - length));
    let figures = (0..numbers.below(4))
        .map(|_| numbers.draw() as u16)
        .collect();
    Entry {
        network,
        prefix: length,
        h: numbers.once_in(2),
        d: numbers.once_in(2),
        figures,
    }
}

fn random_suboption(numbers: &mut Numbers) -> Suboption {
    match numbers.below(3) {
        0 => Suboption::Request(Request {
            h: numbers.once_in(2),
            i: numbers.once_in(2),
            prefix: numbers.between(0, 30) as u8,
        }),
        1 => Suboption::Information(Information {
            c: numbers.once_in(2),
            s: numbers.once_in(2),
            entries: (0..numbers.between(1, 6))
                .map(|_| random_entry(numbers))
                .collect(),
        }),
        _ => {
            let mut name: Vec<u8> = (0..numbers.between(0, 9))
                .map(|_| numbers.draw() as u8)
                .collect();
            name.push(numbers.between(1, 255) as u8);
            Suboption::Name(name)
        }
    }
}

/// One to `most` suboptions that keep the rules; together they may be too long.
pub fn random_list(numbers: &mut Numbers, most: usize) -> Vec<Suboption> {
    (0..numbers.between(1, most))
        .map(|_| random_suboption(numbers))
        .collect()
}

/// The count of an accepted answer and the bytes written, or the refusal.
pub type Reply = Result<(usize, Vec<u8>), Refusal>;

/// Open, with a sheet of its own.
pub fn open(pools: &[Prefix], term: u32, default: u8, start: u32) -> Result<Table, Refusal> {
    let mut sheet = untold_sheet(&Table::zero());
    calls::open(pools, term, default, start, &mut sheet)
}

/// Load, with a sheet of its own.
pub fn load(table: &mut Table, bytes: &[u8]) -> Result<(), Refusal> {
    let mut sheet = untold_sheet(table);
    let answer = image::load(table, &mut sheet, bytes);
    assert_eq!(sheet, untold_sheet(table));
    answer
}

pub fn ask(table: &mut Table, client: u32, now: u32, option: &[u8]) -> Reply {
    replied(|buffer| ask_into(table, client, now, option, buffer))
}

pub fn take(table: &mut Table, client: u32, now: u32, option: &[u8]) -> Reply {
    replied(|buffer| take_into(table, client, now, option, buffer))
}

pub fn list(table: &Table, client: u32, now: u32, option: &[u8]) -> Reply {
    replied(|buffer| calls::list(table, client, now, option, buffer))
}

type Answered = Result<Answer, Refusal>;

pub fn ask_into(
    t: &mut Table,
    client: u32,
    now: u32,
    option: &[u8],
    buffer: &mut [u8],
) -> Answered {
    with_sheet(t, |t, sheet| {
        calls::ask(t, sheet, client, now, option, None, buffer)
    })
}

pub fn take_into(
    t: &mut Table,
    client: u32,
    now: u32,
    option: &[u8],
    buffer: &mut [u8],
) -> Answered {
    with_sheet(t, |t, sheet| {
        calls::take(t, sheet, client, now, option, None, buffer)
    })
}

pub fn release(t: &mut Table, client: u32, now: u32, option: &[u8]) -> Answered {
    with_sheet(t, |t, sheet| calls::release(t, sheet, client, now, option))
}

pub fn mark(t: &mut Table, now: u32, at: Prefix, d: bool) -> Answered {
    with_sheet(t, |t, sheet| calls::mark(t, sheet, now, at, d))
}

/// A call with a sheet of which nothing was told. Accepted, its rows match the leases
/// after it; refused, it is as it was.
fn with_sheet(table: &mut Table, call: impl FnOnce(&mut Table, &mut [u8]) -> Answered) -> Answered {
    let before = untold_sheet(table);
    let mut sheet = before.clone();
    let answer = call(table, &mut sheet);
    match answer {
        Ok(_) => assert!(matches(&rows_of(&sheet).unwrap(), table)),
        Err(_) => assert_eq!(sheet, before),
    }
    answer
}

/// A call with a fresh buffer, of which the rest keeps its content.
fn replied(call: impl FnOnce(&mut [u8]) -> Result<Answer, Refusal>) -> Reply {
    let mut buffer = [0xa5; 300];
    let answer = call(&mut buffer);
    let bytes = answer.map_or(0, |answer| answer.bytes);
    assert!(buffer[bytes..].iter().all(|byte| *byte == 0xa5));
    answer.map(|answer| (answer.count, buffer[..bytes].to_vec()))
}

/// A table with these leases, in ascending order.
pub fn table_with(texts: &[&str], last: u32, leases: &[Lease]) -> Table {
    let mut table = open(&pools(texts), 3600, 28, last).unwrap();
    table.set_leases(leases.to_vec());
    let table = table.counted();
    assert!(table.sound());
    table
}

/// `count` leased /30s from the start of 10.0.0.0/16, all of client 7.
pub fn row_of_leases(count: u32, expires: u32) -> Vec<Lease> {
    samples::row_of_leases(count, 7, expires)
}

/// Number and place of a refusal.
pub fn no(number: u8, place: u16) -> Refusal {
    Refusal { number, place }
}
