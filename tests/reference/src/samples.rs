//! What the tests and the scripts are made of: plain pieces, leases and tables.

use crate::image::{save, Desk, Form};
use crate::option::{write118, write220, Entry, Information, Request, Suboption};
use crate::prefix::{prefix, Prefix};
use crate::table::{Lease, Name, State, Table, LATEST, LEASES};

/// 10.0.0.0.
pub const TEN: u32 = 0x0a00_0000;

pub fn request(length: u8, h: bool) -> Suboption {
    Suboption::Request(Request {
        h,
        i: false,
        prefix: length,
    })
}

pub fn request_i() -> Suboption {
    Suboption::Request(Request {
        h: false,
        i: true,
        prefix: 0,
    })
}

pub fn entry(at: Prefix) -> Entry {
    Entry {
        network: at.network,
        prefix: at.length,
        h: false,
        d: false,
        figures: Vec::new(),
    }
}

pub fn information(c: bool, s: bool, prefixes: &[Prefix]) -> Suboption {
    let entries = prefixes.iter().map(|at| entry(*at)).collect();
    Suboption::Information(Information { c, s, entries })
}

/// The option that these pieces make; no bytes if the writer refuses them.
pub fn option(list: &[Suboption]) -> Vec<u8> {
    let mut buffer = vec![0; 257];
    let bytes = write220(list, &mut buffer).unwrap_or(0);
    buffer.truncate(bytes);
    buffer
}

pub fn entries(prefixes: &[Prefix]) -> Vec<u8> {
    option(&[information(false, false, prefixes)])
}

/// The option 118 of an address.
pub fn selecting(address: u32) -> Vec<u8> {
    let mut buffer = vec![0; 6];
    let bytes = write118(address, &mut buffer).unwrap_or(0);
    buffer.truncate(bytes);
    buffer
}

/// An information of entries with these figures.
pub fn telling(told: &[(Prefix, &[u16])]) -> Vec<u8> {
    let entries = told.iter().map(|(at, figures)| Entry {
        figures: figures.to_vec(),
        ..entry(*at)
    });
    option(&[Suboption::Information(Information {
        c: false,
        s: false,
        entries: entries.collect(),
    })])
}

pub fn asking(lengths: &[u8]) -> Vec<u8> {
    let requests: Vec<Suboption> = lengths.iter().map(|at| request(*at, false)).collect();
    option(&requests)
}

pub fn lease(at: Prefix, client: u32, state: State, expires: u32) -> Lease {
    Lease {
        prefix: at,
        client,
        state,
        h: false,
        d: false,
        expires,
        name: Name::default(),
    }
}

/// The same lease with this name, of at most 24 octets.
pub fn named(lease: Lease, octets: &[u8]) -> Lease {
    let name = Name::of(octets).expect("at most 24 octets");
    Lease { name, ..lease }
}

/// So many leased /30s from 10.0.0.0 on.
pub fn row_of_leases(count: u32, client: u32, expires: u32) -> Vec<Lease> {
    (0..count)
        .map(|index| lease(prefix(TEN + 4 * index, 30), client, State::Leased, expires))
        .collect()
}

/// A sound table of these pools, which ascend, and these leases.
pub fn table(pools: &[Prefix], last_time: u32, leases: Vec<Lease>) -> Table {
    let mut table = Table::zero();
    (table.term, table.default_length, table.last_time) = (3600, 28, last_time);
    table.pools[..pools.len()].copy_from_slice(pools);
    table.set_leases(leases);
    let table = table.counted();
    assert!(table.sound());
    table
}

/// Eight pools and 1,024 leases of different lengths.
pub fn full_table() -> Table {
    let pools: Vec<Prefix> = (0..8)
        .map(|index| prefix(TEN + (index << 16), 16))
        .collect();
    let leases = (0..LEASES as u32)
        .map(|index| Lease {
            prefix: prefix(TEN + (index << 9), 23 + (index % 8) as u8),
            client: 1 + index,
            state: if index % 2 == 0 {
                State::Leased
            } else {
                State::Offered
            },
            h: index % 3 == 0,
            d: index % 5 == 0,
            expires: u32::MAX - index,
            name: Name::default(),
        })
        .collect();
    table(&pools, LATEST, leases)
}

/// The image of a table in a form; no bytes if save refuses it.
pub fn image_in(form: Form, table: &Table) -> Vec<u8> {
    let mut buffer = vec![0; form.full()];
    let bytes = save(table, form, Desk::Own, &mut buffer).unwrap_or(0);
    buffer.truncate(bytes);
    buffer
}

/// The image of a table in the first form.
pub fn image(table: &Table) -> Vec<u8> {
    image_in(Form::First, table)
}
