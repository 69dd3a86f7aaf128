//! What option 118 (M-106) did in a run, seen from the table before a call and its answer.

use std::fmt::{self, Display, Formatter};

use reference::calls::{REPLY, SELECTED_REPLY};
use reference::figures::UNTOLD;
use reference::option::{read118, read220, Request, Suboption};
use reference::prefix::{prefix, Prefix};
use reference::table::{Lease, State, Table};
use reference::words::{hex, number};

use crate::bytes::{entries_of, reply_of};

/// What was counted, in the order of `NAMES`.
const COUNTED: usize = 15;

const NAMES: [&str; COUNTED] = [
    "calls refused with 19",
    "of them beside a root",
    "refused with 6 because of option 118",
    "of them with a bad suboption",
    "refused with 1 because of 263",
    "asks granted in a named root",
    "of them with a line given again",
    "of them with such a line held in another root",
    "asks refused with 10 there and not elsewhere",
    "refused with 9 for a free root",
    "takes left entries outside",
    "of them with figures",
    "takes refused with 11 for entries outside",
    "options 118 not enabled passed over",
    "of them malformed",
];

/// How often each of these came.
#[derive(Clone, Debug, Default, PartialEq, Eq)]
pub struct Selection([usize; COUNTED]);

/// What the caller says with a call, and the buffer that it lends.
#[derive(Clone, Copy)]
pub struct Lent {
    pub enabled: bool,
    pub buffer: usize,
}

/// What a line did that is said to this table and answered so.
pub fn selection(before: &Table, lent: Lent, words: &[&[u8]], answer: &str) -> Selection {
    counted(before, lent, words, answer).unwrap_or_default()
}

fn counted(before: &Table, lent: Lent, words: &[&[u8]], answer: &str) -> Option<Selection> {
    let [command @ (b"ask" | b"take"), client, now, option, carried] = words else {
        return None;
    };
    if answer.starts_with("error") {
        return None;
    }
    let (client, now) = (number(client)?, number(now)?);
    let (option, carried) = (hex(option)?, hex(carried)?);
    let accepted = answer.starts_with("ok");
    let address = read118(&carried);
    let mut met = [false; COUNTED];
    if !lent.enabled {
        met[13] = accepted;
        met[14] = accepted && address.is_err();
        return Some(Selection::of(met));
    }
    let short = (REPLY..SELECTED_REPLY).contains(&lent.buffer);
    met[4] = short && answer == "refused 1\n";
    let Ok(address) = address else {
        // Option 220 alone would not have been refused with 6.
        let read = read220(&option).map_err(|refusal| refusal.number);
        met[2] = answer == "refused 6\n" && read != Err(6);
        met[3] = met[2] && read.is_err();
        return Some(Selection::of(met));
    };
    if answer == "refused 19\n" {
        met[0] = true;
        let beside = |pool: &Prefix| {
            pool.end() == u64::from(address) || pool.network.checked_sub(1) == Some(address)
        };
        met[1] = before.used_pools().iter().any(beside);
        return Some(Selection::of(met));
    }
    let mut pools = before.used_pools().iter();
    let pool = *pools.find(|pool| pool.has_address(address))?;
    let present = before.present_leases(now);
    if *command == b"ask" {
        asked(before, now, client, &option, pool, answer, &mut met);
        return Some(Selection::of(met));
    }
    // Entries that are lines of the client, outside the named root.
    let mut outside = entries_of(&option);
    outside.retain(|entry| {
        let at = prefix(entry.network, entry.prefix);
        let own = |lease: &Lease| lease.client == client && lease.prefix == at;
        present.iter().any(own) && !pool.contains(at)
    });
    let told = outside
        .iter()
        .any(|entry| entry.figures.iter().any(|told| *told != UNTOLD));
    met[10] = accepted && !outside.is_empty();
    met[11] = met[10] && told;
    met[12] = answer == "refused 11\n" && !outside.is_empty();
    Some(Selection::of(met))
}

fn asked(
    before: &Table,
    now: u32,
    client: u32,
    option: &[u8],
    pool: Prefix,
    answer: &str,
    met: &mut [bool; COUNTED],
) {
    let present = before.present_leases(now);
    let requests: Vec<Request> = read220(option)
        .unwrap_or_default()
        .into_iter()
        .filter_map(|piece| match piece {
            Suboption::Request(request) => Some(request),
            _ => None,
        })
        .collect();
    let length = |request: &Request| match request.prefix {
        0 => before.default_length,
        length => length,
    };
    let wanted = |lease: &Lease| {
        let fits =
            |request: &Request| length(request) == lease.prefix.length && request.h == lease.h;
        let held = (lease.client, lease.state) == (client, State::Offered);
        held && requests.iter().any(fits)
    };
    if let Some(reply) = reply_of(answer) {
        met[5] = true;
        let again = |at: Prefix| present.iter().any(|lease| lease.prefix == at);
        met[6] = entries_of(&reply)
            .iter()
            .any(|entry| again(prefix(entry.network, entry.prefix)));
        let elsewhere = |lease: &Lease| wanted(lease) && !pool.contains(lease.prefix);
        met[7] = present.iter().any(elsewhere);
    }
    let fits = |ground: &[Prefix]| {
        let chosen = |request: &Request| before.choose(ground, now, length(request));
        requests.iter().any(|request| chosen(request).is_some())
    };
    met[8] = answer == "refused 10\n" && fits(before.used_pools());
    met[9] = answer == "refused 9\n" && fits(&[pool]);
}

impl Selection {
    fn of(met: [bool; COUNTED]) -> Selection {
        Selection(met.map(usize::from))
    }

    pub fn add(&mut self, other: &Selection) {
        for (count, more) in self.0.iter_mut().zip(other.0) {
            *count += more;
        }
    }

    /// What never came.
    pub fn missing(&self) -> Vec<String> {
        let all = NAMES.iter().zip(self.0);
        let never = all.filter(|(_, count)| *count == 0);
        never.map(|(name, _)| name.to_string()).collect()
    }
}

impl Display for Selection {
    fn fmt(&self, out: &mut Formatter<'_>) -> fmt::Result {
        let all = NAMES.iter().zip(self.0);
        let all: Vec<String> = all.map(|(name, count)| format!("{count} {name}")).collect();
        write!(out, "{}", all.join(", "))
    }
}

#[cfg(test)]
mod tests {
    use super::*;
    use crate::script::{lines_of, Script};

    #[test]
    fn what_option_118_did_is_counted() {
        let full: String = (0..1_024)
            .map(|index| {
                format!(
                    "110003{:08x}1e020009000000ff000000",
                    (4 * index as u32).swap_bytes()
                )
            })
            .map(|line| line.replacen("110003", "11000300", 1))
            .collect();
        let text = format!(
            "open 60 28 0 10.0.0.0/28 10.0.0.32/28\nbuffer 263\n\
             ask 1 0 dc05000102001d 76\nask 2 0 dc05000102001e 76040a000020\nselection on\n\
             buffer 262\nask 1 0 dc05000102001d 76040a000020\nbuffer 263\n\
             ask 1 0 dc05000102001d 76040a000010\nask 1 0 dc05000102001d 76040a0000\n\
             ask 1 0 dc05000102001f -\nask 1 0 dc0500010200 -\n\
             ask 1 0 dc05000102001d 76040a00002f\nask 1 0 dc05000102001d 76040a000020\n\
             take 1 0 dc14000211000a0000001d0002000a0a0000201d0000 76040a000021\n\
             take 1 0 dc0b000208000a0000001d0000 76040a000021\n\
             take 1 0 dc0b000208000a0000001d0000\n\
             ask 3 0 dc05000102001d 76040a00002f\nask 4 0 dc05000102001e 76040a00002f\n\
             ask 4 0 dc05000102001f 76040a00002f\n\
             load 0b0001003c0000001c00000000070002000000000014070002000000000a18{full}\n\
             ask 4 0 dc05000102001d 76040a00002f\n"
        );
        let mut all = Selection::default();
        for step in Script::of_lines(&lines_of(text.as_bytes())).steps {
            all.add(&step.selection);
        }
        assert_eq!(all.0, [1, 1, 2, 1, 1, 3, 1, 2, 1, 1, 1, 1, 1, 2, 1]);
        assert!(all.missing().is_empty());
        assert_eq!(Selection::default().missing().len(), COUNTED);
        assert!(all.to_string().starts_with("1 calls refused with 19, 1 of"));
    }
}
