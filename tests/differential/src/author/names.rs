//! Names on the leases, and the two forms.

use reference::image::Form;
use reference::option::{Request, Suboption};
use reference::samples;
use reference::table::{Lease, Name, State, Table, NAME};

use super::{Author, Profile};
use crate::bytes::{hex, image, image_in, option, suboption};

impl Author {
    /// Lengths at which a rule or a word of eight octets turns.
    pub(super) fn name_length(&mut self) -> usize {
        let any = self.numbers.between(1, NAME);
        let long = self.numbers.between(NAME + 1, 240);
        self.one_of(&[
            1, 2, 7, 8, 9, 15, 16, 17, 23, 24, 24, 25, 25, any, any, any, long,
        ])
    }

    /// Octets of which the last is not zero: letters, zeros inside, or any.
    pub(super) fn name_octets(&mut self, length: usize) -> Vec<u8> {
        let kind = self.numbers.below(3);
        let mut octets: Vec<u8> = (0..length)
            .map(|_| match (kind, self.numbers.below(3)) {
                (0, _) => b'a' + self.numbers.below(26) as u8,
                (1, 0) => 0,
                (1, _) => 0x1e + self.numbers.below(4) as u8,
                _ => self.byte(),
            })
            .collect();
        if let Some(last) = octets.last_mut() {
            *last = self.one_of(&[*last | 1, *last | 0x80, 0x20, 0x7e, 0x7f, 0xff]);
        }
        octets
    }

    /// A name that a lease can have.
    pub(super) fn lease_name(&mut self) -> Name {
        let length = self.name_length().min(NAME);
        let octets = self.name_octets(length);
        Name::of(&octets).unwrap_or_default()
    }

    /// A Name, and seldom a second one, among the pieces of an ask.
    pub(super) fn put_names(&mut self, pieces: &mut Vec<Vec<u8>>) {
        for _ in 0..self.one_of(&[1, 1, 1, 2]) {
            let length = self.name_length();
            let octets = self.name_octets(length);
            let at = self.numbers.below(pieces.len() + 1);
            pieces.insert(at, suboption(3, &octets));
        }
    }

    /// The table in either form; in the first only if it has no name to lose.
    pub fn image_of(&mut self, table: &Table) -> Vec<u8> {
        let first = image_in(Form::First, table);
        if first.is_empty() || self.numbers.once_in(2) {
            image(table)
        } else {
            first
        }
    }

    /// Leaves the names out, so that the first form can be had.
    pub fn without_names(&mut self, table: &Table) -> Table {
        let mut table = table.clone();
        let leases = table.used_leases().iter();
        let unnamed = leases.map(|lease| Lease {
            name: Name::default(),
            ..*lease
        });
        let unnamed = unnamed.collect();
        table.set_leases(unnamed);
        table
    }

    /// `save` in either form, seldom in one that there is not.
    pub fn save_in_a_form(&mut self) {
        let word = self.one_of(&["1", "1", "1", "1", "2", "2", "1 older", "2 older"]);
        let others = [
            "0",
            "3",
            "01",
            "-",
            "1 2",
            "older",
            "older 1",
            "3 older",
            "1 newer",
            "2 older older",
            "first",
        ];
        let other = self.one_of(&others);
        let word = if self.numbers.once_in(20) {
            other
        } else {
            word
        };
        self.script.say(format!("save {word}"));
    }

    /// `save` for an older desk, in either form.
    pub fn save_for_older(&mut self) {
        let word = self.one_of(&["1", "1", "2"]);
        self.script.say(format!("save {word} older"));
    }

    /// An ask with a name of what the client already holds, of nothing that there is, or of
    /// new ground; the name is now and then too long.
    pub fn ask_with_name(&mut self, profile: &Profile) {
        let leases = self.leases();
        let held: Vec<Lease> = leases
            .into_iter()
            .filter(|lease| lease.state == State::Offered)
            .collect();
        let mut client = self.client(profile);
        let mut pieces = Vec::new();
        if !held.is_empty() && self.numbers.once_in(2) {
            let one = self.one_of(&held);
            client = one.client;
            let request = Suboption::Request(Request {
                h: one.h,
                i: false,
                prefix: one.prefix.length,
            });
            pieces.push(samples::option(&[request])[3..].to_vec());
        }
        if pieces.is_empty() || self.numbers.once_in(2) {
            pieces.push(self.request(profile));
        }
        if self.numbers.once_in(6) {
            pieces = vec![crate::bytes::request(0, self.one_of(&[1, 7, 8]))];
        }
        self.put_names(&mut pieces);
        let (now, carried) = (self.time(profile), self.carried());
        let option = hex(&option(0, &pieces));
        self.call(format!("ask {client} {now} {option}{carried}"));
    }
}
