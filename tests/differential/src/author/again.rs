//! Asks for what a station holds already (M-101), and tables full of what is held.

use reference::calls::MOST_REQUESTS;
use reference::prefix::prefix;
use reference::table::{Lease, State, Table};

use super::options::REQUEST_H;
use super::tables::TEN;
use super::{Author, Profile};
use crate::bytes::{hex, request};

impl Author {
    /// The lines that a station holds, ended ones too; none if no station holds any.
    fn held(&mut self) -> Vec<Lease> {
        let mut held = self.leases();
        held.retain(|lease| lease.state == State::Offered);
        if !held.is_empty() {
            let client = self.one_of(&held).client;
            held.retain(|lease| lease.client == client);
        }
        held
    }

    /// A request that a line fits, but for h now and then; prefix 0 where that is meant.
    fn request_for(&mut self, lease: &Lease) -> Vec<u8> {
        let default = self.script.table().default_length;
        let length = match lease.prefix.length {
            length if length == default && self.numbers.once_in(2) => 0,
            length => length,
        };
        let h = lease.h != self.numbers.once_in(8);
        let flags = self.with_other_bits(if h { REQUEST_H } else { 0 });
        request(flags, length)
    }

    /// An option for each of these lines once, or for some of them and others, often more
    /// than once.
    fn again_option(&mut self, held: &[Lease], profile: &Profile) -> Vec<u8> {
        let mut pieces: Vec<Vec<u8>> = Vec::new();
        if self.numbers.once_in(3) {
            let mut held = held.to_vec();
            self.numbers.shuffle(&mut held);
            held.truncate(MOST_REQUESTS);
            pieces.extend(held.iter().map(|lease| self.request_for(lease)));
        } else {
            let most = self.one_of(&[1, 4, 4, MOST_REQUESTS]);
            for _ in 0..self.numbers.between(1, most) {
                let lease = self.one_of(held);
                pieces.push(match self.numbers.below(6) {
                    0 => self.request(profile),
                    _ => self.request_for(&lease),
                });
            }
        }
        self.option_of(pieces, profile, true)
    }

    /// A station asks for what it holds; where none holds anything, any ask.
    pub fn ask_again(&mut self, profile: &Profile) {
        let held = self.held();
        let Some(first) = held.first() else {
            return self.ask(profile);
        };
        let now = self.time(profile);
        let (option, carried) = (self.again_option(&held, profile), self.carried());
        let client = first.client;
        self.call(format!("ask {client} {now} {}{carried}", hex(&option)));
    }

    /// Marks one of the lines that are held, or takes the mark away.
    pub fn mark_held(&mut self, profile: &Profile) {
        let held = self.held();
        if held.is_empty() {
            return self.mark(profile);
        }
        let (at, now) = (self.one_of(&held).prefix, self.time(profile));
        let d = self.one_of(&[1, 1, 0]);
        self.call(format!("mark {now} {at} {d}"));
    }

    /// A sound table of so many lines, most of them held.
    pub fn table_of_held(&mut self, count: usize, profile: &Profile) -> Table {
        let last_time = self.start_time();
        // Some end soon, or it stays full for a while.
        let ends: &[u32] = self.one_of(&[&[1, 60, 600, 3_600], &[600, 3_600]]);
        let mut leases = Vec::new();
        for index in 0..count as u32 {
            let at = prefix(TEN + 8 * index, self.one_of(&[29, 30]));
            let left = self.one_of(ends);
            leases.push(Lease {
                state: self.one_of(&[State::Offered, State::Offered, State::Leased]),
                expires: last_time + left,
                ..self.any_lease(at, last_time, profile)
            });
        }
        let mut table = Table::zero();
        (table.term, table.default_length) = (600, self.one_of(&[28, 29, 30]));
        table.last_time = last_time;
        table.pools[0] = prefix(TEN, 19);
        table.set_leases(leases);
        table.counted()
    }
}
