//! What an ask gives again (M-101), seen from the lines before it and its reply alone.

use std::fmt::{self, Display, Formatter};

use reference::option::{read220, Suboption};
use reference::prefix::prefix;
use reference::table::{State, Table, LEASES};
use reference::words::number;

use crate::bytes::{entries_of, from_hex, reply_of};

/// At least one call in so many is an ask that gives a line again.
const ONE_IN: usize = 30;

/// How the requests of an accepted ask fared.
#[derive(Clone, Copy, Debug, Default, PartialEq, Eq)]
pub struct Given {
    /// Entries that are lines given again, and those of them with d.
    pub again: usize,
    pub with_d: usize,
    /// Entries that are new lines.
    pub new: usize,
    /// Requests without an entry.
    pub refused: usize,
    /// There was no empty line.
    pub full: bool,
    /// The station held a line that has ended.
    pub ended: bool,
}

/// How those of a line fared that is said to this table and answered so; nothing if it is no
/// accepted ask. New ground shares no address with a present line, so an entry that equals
/// one is that line again.
pub fn given(before: &Table, words: &[&[u8]], answer: &str) -> Option<Given> {
    let [b"ask", client, now, option, ..] = words else {
        return None;
    };
    let (option, reply) = (from_hex(option)?, reply_of(answer)?);
    let (client, now) = (number(client)?, number(now)?);
    let present = before.present_leases(now);
    let mut given = Given {
        full: present.len() == LEASES,
        ..Given::default()
    };
    for lease in before.used_leases() {
        let held = (lease.client, lease.state) == (client, State::Offered);
        given.ended |= held && lease.expires <= now;
    }
    for entry in entries_of(&reply) {
        let at = prefix(entry.network, entry.prefix);
        if present.iter().any(|lease| lease.prefix == at) {
            given.again += 1;
            given.with_d += usize::from(entry.d);
        } else {
            given.new += 1;
        }
    }
    given.refused = requests(&option) - given.again - given.new;
    Some(given)
}

fn requests(option: &[u8]) -> usize {
    let list = read220(option).unwrap_or_default();
    let requests = list.iter();
    requests
        .filter(|piece| matches!(piece, Suboption::Request(_)))
        .count()
}

/// Accepted asks by what they gave again.
#[derive(Default)]
pub struct Again {
    /// Some line, and of these: nothing else, new ground beside it, a request that was
    /// refused beside it; on a full table; a line with d.
    asks: usize,
    alone: usize,
    beside_new: usize,
    beside_refused: usize,
    full: usize,
    with_d: usize,
    /// New ground for a station one of whose held lines has ended.
    ended: usize,
}

impl Again {
    pub fn add(&mut self, given: &Given) {
        let some = given.again > 0;
        for (count, is_one) in [
            (&mut self.asks, some),
            (&mut self.alone, some && given.new + given.refused == 0),
            (&mut self.beside_new, some && given.new > 0),
            (&mut self.beside_refused, some && given.refused > 0),
            (&mut self.full, some && given.full),
            (&mut self.with_d, given.with_d > 0),
            (&mut self.ended, given.ended && given.new > 0),
        ] {
            *count += usize::from(is_one);
        }
    }

    /// What never came, or too seldom among so many calls.
    pub fn missing(&self, calls: usize) -> Vec<String> {
        let seldom = self.asks * ONE_IN < calls.max(1);
        let kinds = [
            ("again", !seldom),
            ("again alone", self.alone > 0),
            ("again beside new ground", self.beside_new > 0),
            ("again beside a refused one", self.beside_refused > 0),
            ("again on a full table", self.full > 0),
            ("again with d", self.with_d > 0),
            ("after a held line's end", self.ended > 0),
        ];
        let missing = kinds.into_iter().filter(|(_, came)| !came);
        missing.map(|(kind, _)| format!("ask {kind}")).collect()
    }
}

impl Display for Again {
    fn fmt(&self, out: &mut Formatter<'_>) -> fmt::Result {
        write!(
            out,
            "{} asks gave a line again ({} nothing else, {} new ground beside it, {} with a request \
             refused, {} on a full table, {} with d), {} asks after a held line's end",
            self.asks, self.alone, self.beside_new, self.beside_refused, self.full, self.with_d, self.ended
        )
    }
}

#[cfg(test)]
mod tests {
    use super::*;
    use crate::script::{lines_of, Script};

    #[test]
    fn asks_that_give_again_are_counted() {
        // Both again; one with d beside new ground; both beside one that is refused; new
        // ground where all have ended.
        let text = "open 60 28 0 10.0.0.0/28\nask 1 0 dc09000102001e0102001e\n\
                    ask 1 1 dc09000102001e0102001e\nmark 2 10.0.0.0/30 1\n\
                    ask 1 2 dc09000102001e0102001d\n\
                    ask 1 3 dc0d000102001e0102001e0102001e\nask 2 3 dc05000102001e\n\
                    ask 1 123 dc05000102001e\n";
        let mut again = Again::default();
        for step in Script::of_lines(&lines_of(text.as_bytes())).steps {
            step.given.iter().for_each(|given| again.add(given));
        }
        let text = again.to_string();
        let all = "3 asks gave a line again (1 nothing else, 1 new ground beside it, 1 with a \
                   request refused, 0 on a full table, 2 with d), 1 asks after a held line's end";
        assert_eq!(text, all);
        // Three are enough for so many calls, and not for one more.
        assert_eq!(again.missing(3 * ONE_IN), ["ask again on a full table"]);
        let missing = again.missing(3 * ONE_IN + 1);
        assert_eq!(missing, ["ask again", "ask again on a full table"]);
        assert_eq!(Again::default().missing(0).len(), 7);
    }
}
