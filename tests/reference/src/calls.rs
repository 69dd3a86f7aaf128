//! The calls: open, ask, take, list, return (here `release`) and mark. "Ask, take, return
//! and mark take the sheet; open and load fill it" (M-100 in document 02): it is lent as
//! its bytes, which is what `figures` is in each of them. Ask re-gives what is held already
//! (M-101 in document 02). "Every call that changes lines keeps" the counts "equal to what a
//! fresh walk would find" (M-102 in document 02): so each that is accepted works them out.
//! A lease's name (M-105 in document 02) is part of it, so it stays with the lease and goes
//! with it. Ask and take may come with option 118 (M-106 in document 02): `selection` is the
//! option where "the caller says with the call that it is enabled" and the message carried it,
//! and otherwise nothing.

use crate::figures::{fill, matches, present_rows, put_rows, rows_after, rows_of, Row};
use crate::option::{read118, read220, write220, Entry, Information, Request, Suboption};
use crate::prefix::Prefix;
use crate::refusal::{refusal, Refusal};
use crate::table::{head_in_rules, pools_in_rules, Lease, Name, State, Table, LATEST, LEASES};

/// Row 1: "reply buffer below 257 bytes (ask, take, list)".
pub const REPLY: usize = 257;
/// M-106: "1 reads 263 for calls that carry an enabled option", 257 and the six of option 118.
pub const SELECTED_REPLY: usize = 263;
/// "a line held until now + 120".
pub const OFFER_TIME: u32 = 120;
/// "the option has 1 to 25 requests".
pub const MOST_REQUESTS: usize = 25;
/// "ascending, at most 35".
pub const MOST_LISTED: usize = 35;

/// "An accepted answer gives the bytes written and the count of entries (for return,
/// of lines it struck by its entries). A count that a call has none of is 0."
#[derive(Clone, Copy, Debug, Default, PartialEq, Eq)]
pub struct Answer {
    pub bytes: usize,
    pub count: usize,
}

/// "Open: roots (any order given), term, default length and a start time make a
/// book." The lent sheet is the new one's.
pub fn open(
    pools: &[Prefix],
    term: u32,
    default_length: u8,
    start: u32,
    figures: &mut [u8],
) -> Result<Table, Refusal> {
    if !pools_in_rules(pools) || !head_in_rules(term, default_length, start) {
        return Err(refusal(12));
    }
    let mut sorted = pools.to_vec();
    sorted.sort_by_key(|pool| pool.network);
    let mut table = Table::zero();
    table.term = term;
    table.default_length = default_length;
    table.last_time = start;
    table.pools[..sorted.len()].copy_from_slice(&sorted);
    fill(&table, figures)?;
    Ok(table.counted())
}

/// Row 1. What the option says does not matter here, a bad one counts as carried too.
fn check_buffer(buffer: &[u8], selection: Option<&[u8]>) -> Result<(), Refusal> {
    let least = match selection {
        Some(_) => SELECTED_REPLY,
        None => REPLY,
    };
    if buffer.len() < least {
        return Err(refusal(1));
    }
    Ok(())
}

/// Row 6 of option 118: "A bad enabled option 118 gets 6". Its address, where it is carried.
fn read_selection(selection: Option<&[u8]>) -> Result<Option<u32>, Refusal> {
    match selection {
        Some(option) => Ok(Some(read118(option)?)),
        None => Ok(None),
    }
}

/// The pools that a call may use: "the root that contains its address", or all of them where
/// no address is named. Row 19: "address in no root". An unused place is no root.
fn ground(table: &Table, address: Option<u32>) -> Result<Vec<Prefix>, Refusal> {
    let Some(address) = address else {
        return Ok(table.used_pools().to_vec());
    };
    for pool in table.used_pools() {
        if pool.has_address(address) {
            return Ok(vec![*pool]);
        }
    }
    Err(refusal(19))
}

/// Whether a lease or an entry lies in the ground that a call may use.
fn lies_in(ground: &[Prefix], prefix: Prefix) -> bool {
    ground.iter().any(|pool| pool.contains(prefix))
}

/// "The option follows, unaltered, after option 220 in the reply": the bytes written, with
/// its own. The buffer has room for both, by row 1.
fn append_selection(buffer: &mut [u8], bytes: usize, selection: Option<&[u8]>) -> usize {
    let option = selection.unwrap_or_default();
    buffer[bytes..bytes + option.len()].copy_from_slice(option);
    bytes + option.len()
}

/// Row 5: the book, its counts included.
fn check_sound(table: &Table) -> Result<(), Refusal> {
    if !table.sound() {
        return Err(refusal(5));
    }
    Ok(())
}

/// Rows 5 and 15: the rows of the sheet, which must match the table as it is lent, ended
/// leases included. A sheet of another size does not match either.
fn check_figures(table: &Table, figures: &[u8]) -> Result<Vec<Row>, Refusal> {
    check_sound(table)?;
    match rows_of(figures) {
        Some(rows) if matches(&rows, table) => Ok(rows),
        _ => Err(refusal(15)),
    }
}

/// Rows 2, 3 and 4.
fn check_call(table: &Table, client: u32, now: u32) -> Result<(), Refusal> {
    if client == 0 {
        return Err(refusal(2));
    }
    check_time(table, now)
}

/// Rows 3 and 4.
fn check_time(table: &Table, now: u32) -> Result<(), Refusal> {
    if now < table.last_time {
        return Err(refusal(3));
    }
    if now > LATEST {
        return Err(refusal(4));
    }
    Ok(())
}

fn requests(list: &[Suboption]) -> Vec<Request> {
    let mut requests = Vec::new();
    for suboption in list {
        if let Suboption::Request(request) = suboption {
            requests.push(*request);
        }
    }
    requests
}

fn informations(list: &[Suboption]) -> Vec<&Information> {
    let mut informations = Vec::new();
    for suboption in list {
        if let Suboption::Information(information) = suboption {
            informations.push(information);
        }
    }
    informations
}

/// M-105: "from the first Name suboption of the ask", and row 17: "an ask's first name above
/// 24 octets". Without a Name the name is empty; later ones do not matter.
fn name_for_new(list: &[Suboption]) -> Result<Name, Refusal> {
    for suboption in list {
        if let Suboption::Name(octets) = suboption {
            return Name::of(octets).ok_or(refusal(17));
        }
    }
    Ok(Name::default())
}

/// The entries of all informations, in order.
fn all_entries(list: &[Suboption]) -> Vec<Entry> {
    let mut entries = Vec::new();
    for information in informations(list) {
        entries.extend(information.entries.iter().cloned());
    }
    entries
}

/// What an entry and a lease must equal each other in: "network and length".
fn prefix_of(entry: &Entry) -> Prefix {
    Prefix {
        network: entry.network,
        length: entry.prefix,
    }
}

/// A lease as an entry: "flags and figures from the book: h, d, no figures".
fn entry_of(lease: &Lease) -> Entry {
    Entry {
        network: lease.prefix.network,
        prefix: lease.prefix.length,
        h: lease.h,
        d: lease.d,
        figures: Vec::new(),
    }
}

/// "An accepted ask, take, return or mark strikes them" (the lines that have ended)
/// "and sets the last time to now."
fn struck_at(table: &Table, now: u32) -> Table {
    let mut next = table.clone();
    next.set_leases(table.present_leases(now));
    next.last_time = now;
    next
}

/// Ask: a request for which the client holds a lease already gets that one again, the
/// rest get new ones. Every request not granted has no entry; "If none is granted, the
/// answer is the refusal of the first."
pub fn ask(
    table: &mut Table,
    figures: &mut [u8],
    client: u32,
    now: u32,
    option: &[u8],
    selection: Option<&[u8]>,
    buffer: &mut [u8],
) -> Result<Answer, Refusal> {
    check_buffer(buffer, selection)?;
    let rows = check_figures(table, figures)?;
    check_call(table, client, now)?;
    // Row 6 is one row for both options, so this one's comes before the other's 7.
    let address = read_selection(selection)?;
    let list = read220(option)?;
    let requests = requests(&list);
    // "the option has 1 to 25 requests, none with i".
    if requests.is_empty() || requests.len() > MOST_REQUESTS || requests.iter().any(|r| r.i) {
        return Err(refusal(8));
    }
    // "17 ... after 8", whatever would be granted.
    let name = name_for_new(&list)?;
    // "19, address in no root, after 8 and 17".
    let ground = ground(table, address)?;
    // "They are served in order, each on the book that the one before left."
    let mut next = struck_at(table, now);
    let mut held = held_by(&next, client, &ground);
    let mut reply = Vec::new();
    let mut first_refusal = None;
    for request in requests {
        let served = match give_again(&mut next, &mut held, now, request) {
            Some(lease) => Ok(lease),
            // M-101: "Only the rest take new ground."
            None => serve(&mut next, client, now, request, name, &ground),
        };
        match served {
            Ok(lease) => reply.push(Suboption::Information(Information {
                c: false,
                s: false,
                entries: vec![entry_of(&lease)],
            })),
            Err(refusal) => {
                first_refusal.get_or_insert(refusal);
            }
        }
    }
    if let (true, Some(refusal)) = (reply.is_empty(), first_refusal) {
        return Err(refusal);
    }
    let bytes = write220(&reply, buffer)?;
    let bytes = append_selection(buffer, bytes, selection);
    let kept = present_rows(&rows, table, now);
    put_rows(&rows_after(&next, &kept), figures);
    *table = next.counted();
    Ok(Answer {
        bytes,
        count: reply.len(),
    })
}

/// "An ask's length is the prefix asked for, or the default length for 0." M-101: "prefix
/// 0 means the default length here too."
fn length_of(request: Request, table: &Table) -> u8 {
    if request.prefix == 0 {
        table.default_length
    } else {
        request.prefix
    }
}

/// M-101: what "the station, before the message, already held (not leased)", of a table
/// whose ended leases are struck; ascending. M-106: "Re-given lines (M-101) must lie in that
/// root as well."
fn held_by(table: &Table, client: u32, ground: &[Prefix]) -> Vec<Lease> {
    let mut held = Vec::new();
    for lease in table.used_leases() {
        if lease.client == client && lease.state == State::Offered {
            held.push(*lease);
        }
    }
    held.retain(|lease| lies_in(ground, lease.prefix));
    held
}

/// M-101: one request, if a lease "of the same length and h" is left in `held`: it "gets
/// that line again, held until now + 120 (its d stays ...), lowest network first, each line
/// at most once in a message". M-105: "a re-given line keeps its own" name.
fn give_again(
    table: &mut Table,
    held: &mut Vec<Lease>,
    now: u32,
    request: Request,
) -> Option<Lease> {
    let length = length_of(request, table);
    let same = |lease: &Lease| lease.prefix.length == length && lease.h == request.h;
    let lowest = held.iter().position(same)?;
    let mut again = held.remove(lowest);
    again.expires = now + OFFER_TIME;
    for lease in &mut table.leases {
        if lease.state != State::None && lease.prefix == again.prefix {
            *lease = again;
        }
    }
    Some(again)
}

/// One request of the rest: a new lease in the table, or 9 or 10. The name is "the same for
/// all lines newly made by that message". M-106: "every block of that ask comes from the root
/// that contains its address"; empty lines are those of the whole table.
fn serve(
    table: &mut Table,
    client: u32,
    now: u32,
    request: Request,
    name: Name,
    ground: &[Prefix],
) -> Result<Lease, Refusal> {
    // Row 9: "ask: no empty line".
    let mut leases = table.used_leases().to_vec();
    if leases.len() == LEASES {
        return Err(refusal(9));
    }
    // Row 10: "ask: no free block of the length".
    let Some(chosen) = table.choose(ground, now, length_of(request, table)) else {
        return Err(refusal(10));
    };
    // "in line and entry h is the request's and d 0".
    let lease = Lease {
        prefix: chosen,
        client,
        state: State::Offered,
        h: request.h,
        d: false,
        expires: now + OFFER_TIME,
        name,
    };
    leases.push(lease);
    table.set_leases(leases);
    Ok(lease)
}

/// The rows that take and return share after those of the client and the time, 6 to 8: the
/// entries of the option, "no requests, at least one entry".
fn entries_only(option: &[u8]) -> Result<Vec<Entry>, Refusal> {
    let list = read220(option)?;
    let entries = all_entries(&list);
    if !requests(&list).is_empty() || entries.is_empty() {
        return Err(refusal(8));
    }
    Ok(entries)
}

/// Take (confirm or renew): "Each entry that equals a present line of this station in
/// network and length makes it leased until now + term. The reply is one Information
/// with those entries in order". "a take with figures updates the rows of its lines, in
/// entry order"; the reply has none of them. M-106: "entries outside that root count as not
/// found".
pub fn take(
    table: &mut Table,
    figures: &mut [u8],
    client: u32,
    now: u32,
    option: &[u8],
    selection: Option<&[u8]>,
    buffer: &mut [u8],
) -> Result<Answer, Refusal> {
    check_buffer(buffer, selection)?;
    let rows = check_figures(table, figures)?;
    check_call(table, client, now)?;
    let address = read_selection(selection)?;
    let named = entries_only(option)?;
    let ground = ground(table, address)?;
    let mut next = struck_at(table, now);
    let mut rows = rows_after(&next, &present_rows(&rows, table, now));
    let term = next.term;
    let mut entries = Vec::new();
    for entry in named {
        let prefix = prefix_of(&entry);
        if !lies_in(&ground, prefix) {
            continue;
        }
        for (lease, row) in next.leases.iter_mut().zip(&mut rows) {
            if lease.state != State::None && lease.client == client && lease.prefix == prefix {
                lease.state = State::Leased;
                lease.expires = now + term;
                row.tell(&entry.figures);
                entries.push(entry_of(lease));
            }
        }
    }
    // Row 11: "nothing found".
    if entries.is_empty() {
        return Err(refusal(11));
    }
    let count = entries.len();
    let reply = Suboption::Information(Information {
        c: false,
        s: false,
        entries,
    });
    let bytes = write220(&[reply], buffer)?;
    let bytes = append_selection(buffer, bytes, selection);
    put_rows(&rows, figures);
    *table = next.counted();
    Ok(Answer { bytes, count })
}

/// List: "the station's present leased lines with network above the position,
/// ascending, at most 35, in one Information with c set, and s set exactly if more
/// remain." "List changes nothing."
pub fn list(
    table: &Table,
    client: u32,
    now: u32,
    option: &[u8],
    buffer: &mut [u8],
) -> Result<Answer, Refusal> {
    check_buffer(buffer, None)?;
    check_sound(table)?;
    check_call(table, client, now)?;
    let pieces = read220(option)?;
    // "at least one request, all with i".
    let requests = requests(&pieces);
    if requests.is_empty() || !requests.iter().all(|request| request.i) {
        return Err(refusal(8));
    }
    // "The position is the network of the last entry of the last Information with c
    // and s set; without one, all lines are meant."
    let mut position: Option<u32> = None;
    for information in informations(&pieces) {
        if information.c && information.s {
            position = information.entries.last().map(|entry| entry.network);
        }
    }
    let mut found = Vec::new();
    for lease in table.present_leases(now) {
        let above = match position {
            None => true,
            Some(position) => lease.prefix.network > position,
        };
        if lease.client == client && lease.state == State::Leased && above {
            found.push(entry_of(&lease));
        }
    }
    if found.is_empty() {
        return Err(refusal(11));
    }
    let more = found.len() > MOST_LISTED;
    found.truncate(MOST_LISTED);
    let count = found.len();
    let reply = Suboption::Information(Information {
        c: true,
        s: more,
        entries: found,
    });
    let bytes = write220(&[reply], buffer)?;
    Ok(Answer { bytes, count })
}

/// Return: "as take, but strikes the lines; no reply buffer. Held lines may be
/// returned." Figures of its entries have no effect: only a take files them.
pub fn release(
    table: &mut Table,
    figures: &mut [u8],
    client: u32,
    now: u32,
    option: &[u8],
) -> Result<Answer, Refusal> {
    let rows = check_figures(table, figures)?;
    check_call(table, client, now)?;
    let named = entries_only(option)?;
    let prefixes: Vec<Prefix> = named.iter().map(prefix_of).collect();
    let mut next = struck_at(table, now);
    let present = next.used_leases().to_vec();
    let mut kept = Vec::new();
    for lease in &present {
        if !(lease.client == client && prefixes.contains(&lease.prefix)) {
            kept.push(*lease);
        }
    }
    let count = present.len() - kept.len();
    if count == 0 {
        return Err(refusal(11));
    }
    next.set_leases(kept);
    let kept = present_rows(&rows, table, now);
    put_rows(&rows_after(&next, &kept), figures);
    *table = next.counted();
    Ok(Answer { bytes: 0, count })
}

/// Mark: "sets or clears d on the present line with a given network and length."
/// "Mark has no station".
pub fn mark(
    table: &mut Table,
    figures: &mut [u8],
    now: u32,
    prefix: Prefix,
    d: bool,
) -> Result<Answer, Refusal> {
    let rows = check_figures(table, figures)?;
    check_time(table, now)?;
    let mut next = struck_at(table, now);
    let mut found = false;
    for lease in &mut next.leases {
        if lease.state != State::None && lease.prefix == prefix {
            lease.d = d;
            found = true;
        }
    }
    if !found {
        return Err(refusal(11));
    }
    let kept = present_rows(&rows, table, now);
    put_rows(&rows_after(&next, &kept), figures);
    *table = next.counted();
    Ok(Answer::default())
}
