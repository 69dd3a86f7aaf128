//! Writes scripts of random calls. It looks at the reference's table, so that many
//! calls name real leases and are accepted.

use reference::calls::{REPLY, SELECTED_REPLY};
use reference::numbers::Numbers;
use reference::prefix::{prefix, Prefix};
use reference::table::LATEST;

use crate::bytes::{hex, option, reply_of, request};
use crate::damage::{damage_image, damage_line};
use crate::script::Script;
use options::REQUEST_I;
use tables::aligned;

mod again;
mod counts;
mod faults;
mod figures;
mod names;
mod options;
mod selection;
mod tables;
mod writing;

/// What the calls of a script are like.
#[derive(Clone, Copy)]
pub struct Profile {
    pub calls: (usize, usize),
    /// How many pools at most, and their lengths.
    pub pools: usize,
    pub pool_lengths: (u8, u8),
    /// Lengths asked for, and how many requests in an ask at most.
    pub lengths: (u8, u8),
    pub requests: usize,
    pub clients: usize,
    /// Seconds from one call to the next, one of these.
    pub pace: &'static [u32],
    /// Once in so many times the time is at or beside the end of a lease.
    pub ends: usize,
    /// Once in so many times a part of a call is at fault.
    pub faults: usize,
    /// Once in so many times an option has bad suboptions among its own.
    pub bad: usize,
    /// How many leases there are at most at the start.
    pub leases: usize,
}

pub struct Author {
    pub script: Script,
    pub numbers: Numbers,
    /// The entries of the last page that a list answered, to resume from.
    page: Vec<Prefix>,
    page_client: u32,
}

impl Author {
    pub fn new(start: u64) -> Author {
        Author {
            script: Script::new(),
            numbers: Numbers::new(start),
            page: Vec::new(),
            page_client: 1,
        }
    }

    pub fn one_of<T: Copy>(&mut self, items: &[T]) -> T {
        items[self.numbers.below(items.len())]
    }

    fn byte(&mut self) -> u8 {
        self.numbers.draw() as u8
    }

    fn number(&mut self) -> u32 {
        self.numbers.draw() as u32
    }

    fn length(&mut self, (shortest, longest): (u8, u8)) -> u8 {
        self.numbers
            .between(usize::from(shortest), usize::from(longest)) as u8
    }

    // Lines.

    /// Says a line, now and then in other letters or spaces, most of which mean the same.
    pub fn say(&mut self, line: String) -> String {
        let mut line = line.into_bytes();
        let first = line.iter().position(|byte| *byte == b' ');
        if let (true, Some(first)) = (self.numbers.once_in(80), first) {
            match self.numbers.below(5) {
                0 => line.push(b'\r'),
                1 => line.insert(0, b' '),
                2 => line.extend(b"  "),
                // A leading zero of a number; of an option, a digit too many.
                3 => line.insert(first + 1, b'0'),
                _ => {
                    line[first..].make_ascii_uppercase();
                    line.insert(first, b' ');
                }
            }
        }
        self.script.say(line).to_string()
    }

    /// Says a call, and then `save`, `figures` and `counts`: every byte of the image, the rows
    /// of the sheet and the counts are compared after it.
    pub fn call(&mut self, line: String) -> String {
        let answer = self.say(line);
        self.see_all();
        answer
    }

    fn see_all(&mut self) {
        self.script.say("save");
        self.script.say("figures");
        self.script.say("counts");
        if self.numbers.once_in(8) {
            self.save_in_a_form();
        }
    }

    /// A line that is often no command, and image, figures and counts after it.
    pub fn damaged_line(&mut self, mut line: Vec<u8>) {
        for _ in 0..self.numbers.between(1, 2) {
            damage_line(&mut self.numbers, &mut line);
        }
        self.script.say(line);
        self.see_all();
    }

    // What calls name.

    fn fault(&mut self, profile: &Profile) -> bool {
        self.numbers.once_in(profile.faults)
    }

    /// On from the last time, at or beside an end, or a time that is refused.
    pub fn time(&mut self, profile: &Profile) -> u32 {
        let last = self.script.table().last_time;
        if self.fault(profile) {
            let back = self.numbers.between(1, 50) as u32;
            let times = [0, last.saturating_sub(back), last.saturating_sub(1)];
            let late = [LATEST + 1, u32::MAX, LATEST + 600];
            return if self.numbers.once_in(2) {
                self.one_of(&times)
            } else {
                self.one_of(&late)
            };
        }
        let leases = self.leases();
        if !leases.is_empty() && self.numbers.once_in(profile.ends) {
            let earliest = leases.iter().map(|lease| lease.expires).min().unwrap_or(0);
            let end = if self.numbers.once_in(10) {
                self.one_of(&leases).expires
            } else {
                earliest
            };
            return self.one_of(&[end - 1, end, end, end.saturating_add(1)]);
        }
        last.saturating_add(self.one_of(profile.pace))
    }

    pub fn client(&mut self, profile: &Profile) -> u32 {
        if self.fault(profile) {
            return self.one_of(&[0, 0, 0, u32::MAX, 256]);
        }
        1 + self.numbers.below(profile.clients) as u32
    }

    /// A lease's prefix, one close to it, or one anywhere; always one that an entry
    /// may have.
    fn some_prefix(&mut self, profile: &Profile) -> Prefix {
        let leases = self.leases();
        let pools = self.script.table().used_pools().to_vec();
        if leases.is_empty() || self.numbers.once_in(20) {
            let length = self.length((1, 30));
            return aligned(self.somewhere(), length);
        }
        let near = self.one_of(&leases).prefix;
        match self.numbers.below(12) {
            0 => aligned(near.network, near.length - 1),
            1 => prefix(near.network, (near.length + 1).min(30)),
            2 => self.neighbour(near),
            3 => {
                let pool = self.one_of(&pools);
                self.inside(pool, profile.lengths)
            }
            _ => near,
        }
    }

    /// A client, and prefixes most of which are leases of its.
    fn named(&mut self, profile: &Profile) -> (u32, Vec<Prefix>) {
        let leases = self.leases();
        let client = if leases.is_empty() || self.numbers.once_in(8) {
            self.client(profile)
        } else {
            self.one_of(&leases).client
        };
        let own: Vec<Prefix> = leases
            .iter()
            .filter(|lease| lease.client == client)
            .map(|lease| lease.prefix)
            .collect();
        let most = if self.numbers.once_in(6) { 35 } else { 4 };
        let mut named = Vec::new();
        for _ in 0..self.numbers.between(1, most) {
            if own.is_empty() || self.numbers.once_in(4) {
                named.push(self.some_prefix(profile));
            } else {
                named.push(self.one_of(&own));
            }
        }
        if self.fault(profile) {
            return (0, named);
        }
        (client, named)
    }

    // Calls.

    /// One call of any kind, with a reply buffer that is now and then too short.
    pub fn any_call(&mut self, profile: &Profile) {
        if self.numbers.once_in(60) {
            let on = self.numbers.once_in(2);
            self.select(on);
        }
        self.any_buffer(profile);
        if !self.sheet_matches() && self.numbers.once_in(3) {
            self.good_sheet();
        }
        if self.counts_differ() && self.numbers.once_in(3) {
            self.good_counts();
        }
        match self.numbers.below(100) {
            0..=20 => self.ask(profile),
            21..=23 => self.whole(profile),
            24..=31 => self.ask_again(profile),
            32..=52 => self.take(profile),
            53..=65 => self.release(profile),
            66..=78 => self.list(profile),
            79..=87 => self.mark(profile),
            88..=90 => {
                self.say("sheet".to_string());
            }
            91 => self.write_one(),
            92..=94 => self.read_one(profile),
            95 | 96 => self.load_again(),
            97 if self.fault(profile) => {
                let pools = self.any_pools(profile);
                let start = self.time(profile);
                let line = self.open_line(&pools, profile, start);
                self.call(line);
            }
            98 | 99 => self.any_sheet(profile),
            _ => self.any_counts(profile),
        }
    }

    fn any_buffer(&mut self, profile: &Profile) {
        let least = if self.script.selection() {
            SELECTED_REPLY
        } else {
            REPLY
        };
        let short = self.script.buffer() < least;
        if self.fault(profile) {
            let any = self.numbers.below(1_025);
            let lengths = [
                0, 1, 256, 256, 257, 258, 262, 262, 263, 512, 1_024, 1_025, any,
            ];
            let length = self.one_of(&lengths);
            self.say(format!("buffer {length}"));
        } else if short && self.numbers.once_in(2) {
            self.say(format!("buffer {least}"));
        }
    }

    pub fn ask(&mut self, profile: &Profile) {
        let (client, now) = (self.client(profile), self.time(profile));
        let (option, carried) = (self.ask_option(profile), self.carried());
        self.call(format!("ask {client} {now} {}{carried}", hex(&option)));
    }

    pub fn take(&mut self, profile: &Profile) {
        let (client, named) = self.named(profile);
        let now = self.time(profile);
        let (option, carried) = (self.entries_option(&named, profile), self.carried());
        self.call(format!("take {client} {now} {}{carried}", hex(&option)));
    }

    pub fn release(&mut self, profile: &Profile) {
        let (client, named) = self.named(profile);
        let now = self.time(profile);
        let option = self.entries_option(&named, profile);
        self.call(format!("return {client} {now} {}", hex(&option)));
    }

    pub fn mark(&mut self, profile: &Profile) {
        let mut at = self.some_prefix(profile);
        if self.fault(profile) {
            match self.numbers.below(3) {
                0 => at.length = self.one_of(&[0, 31, 32, 255]),
                1 => at.network |= 1,
                _ => at = prefix(0, 0),
            }
        }
        let (now, d) = (self.time(profile), self.numbers.below(2));
        self.call(format!("mark {now} {at} {d}"));
    }

    pub fn list(&mut self, profile: &Profile) {
        let resume = !self.page.is_empty() && self.numbers.once_in(2);
        let client = if resume && !self.fault(profile) {
            self.page_client
        } else {
            self.named(profile).0
        };
        let now = self.time(profile);
        let option = self.list_option(profile);
        let answer = self.call(format!("list {client} {now} {}", hex(&option)));
        self.keep_page(client, &answer);
    }

    pub fn list_from_the_start(&mut self, profile: &Profile) {
        let (client, _) = self.named(profile);
        let now = self.time(profile);
        let option = option(0, &[request(REQUEST_I, 0)]);
        let answer = self.call(format!("list {client} {now} {}", hex(&option)));
        self.keep_page(client, &answer);
    }

    /// Keeps the entries that an accepted list answered: 7 bytes each from byte 6 on.
    fn keep_page(&mut self, client: u32, answer: &str) {
        if let Some(reply) = reply_of(answer) {
            self.page_client = client;
            self.page = reply[6..]
                .chunks_exact(7)
                .map(|e| prefix(u32::from_be_bytes([e[0], e[1], e[2], e[3]]), e[4]))
                .collect();
        }
    }

    fn read_one(&mut self, profile: &Profile) {
        let named = [self.some_prefix(profile), self.some_prefix(profile)];
        let bytes = match self.numbers.below(3) {
            0 => self.ask_option(profile),
            1 => self.entries_option(&named, profile),
            _ => self.list_option(profile),
        };
        self.say(format!("read {}", hex(&bytes)));
    }

    /// The table's own image, or a damaged one.
    fn load_again(&mut self) {
        let table = self.script.table().clone();
        let mut bytes = self.image_of(&table);
        if !self.numbers.once_in(3) {
            damage_image(&mut self.numbers, &mut bytes);
        }
        self.call(format!("load {}", hex(&bytes)));
    }
}

#[cfg(test)]
mod tests {
    use super::*;
    use reference::table::pools_in_rules;

    const PROFILE: Profile = Profile {
        calls: (1, 1),
        pools: 8,
        pool_lengths: (8, 30),
        lengths: (8, 30),
        requests: 25,
        clients: 4,
        pace: &[0, 1],
        ends: 10,
        faults: 10,
        bad: 10,
        leases: 256,
    };

    #[test]
    fn good_pools_are_in_the_rules_and_tables_sound() {
        let mut author = Author::new(3);
        for _ in 0..300 {
            let pools = author.good_pools(&PROFILE);
            assert!(pools_in_rules(&pools), "{pools:?}");
        }
        for _ in 0..40 {
            assert!(author.any_table(&PROFILE).sound());
            let count = author.few_empty();
            assert!(author.table_of_held(count, &PROFILE).sound());
        }
    }

    #[test]
    fn a_page_is_kept_to_resume_from() {
        let mut author = Author::new(4);
        author.keep_page(7, "ok bytes=13 count=1 dc0b000208020a0001001a0000\n");
        assert_eq!(author.page, [prefix(0x0a00_0100, 26)]);
        assert_eq!(author.page_client, 7);
        author.keep_page(8, "refused 11\n");
        assert_eq!(author.page_client, 7);
    }
}
