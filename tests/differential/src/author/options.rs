//! Options: those that calls are given, and any for the reader.

use reference::figures::UNTOLD;
use reference::prefix::Prefix;

use super::tables::aligned;
use super::{Author, Profile};
use crate::bytes::{entry, information, option, request, suboption, LONGEST_OPTION};
use crate::damage::damage_option;

pub const REQUEST_H: u8 = 1;
pub const REQUEST_I: u8 = 2;
const INFORMATION_CS: u8 = 3;

impl Author {
    /// Bits that are not defined, now and then; they have no effect.
    pub(super) fn with_other_bits(&mut self, flags: u8) -> u8 {
        if self.numbers.once_in(8) {
            flags | (self.byte() & 0xfc)
        } else {
            flags
        }
    }

    /// A figure, often untold, now and then with bytes that show if they are exchanged.
    pub(super) fn figure(&mut self) -> u16 {
        let any = self.number() as u16;
        self.one_of(&[any, any, UNTOLD, UNTOLD, 0, 1, 0xfffe, 0x00ff, 0xff00])
    }

    /// None to nine figures; once in a while half a figure too many.
    pub(super) fn figures(&mut self) -> Vec<u8> {
        let count = self.one_of(&[0, 0, 0, 0, 1, 2, 3, 3, 3, 4, 9]);
        let figures = (0..count).flat_map(|_| self.figure().to_be_bytes());
        let mut bytes: Vec<u8> = figures.collect();
        if self.numbers.once_in(80) {
            bytes.push(self.byte());
        }
        bytes
    }

    pub(super) fn entry(&mut self, at: Prefix, plain: bool) -> Vec<u8> {
        let flags = self.numbers.below(4) as u8;
        let flags = self.with_other_bits(flags);
        let figures = if plain { Vec::new() } else { self.figures() };
        entry(at, flags, &figures)
    }

    /// Seldom empty or ended by a zero, which is bad; zeros inside are not.
    pub(super) fn name(&mut self) -> Vec<u8> {
        let length = match self.numbers.below(40) {
            0 => 0,
            1 | 2 => self.numbers.between(20, 250),
            3..=9 => self.name_length(),
            _ => self.numbers.between(1, 8),
        };
        let mut octets: Vec<u8> = (0..length).map(|_| self.byte() & 0x7f).collect();
        let zero = self.numbers.once_in(30);
        if let Some(last) = octets.last_mut() {
            *last = if zero { 0 } else { *last | 0x80 };
        }
        suboption(3, &octets)
    }

    pub(super) fn unknown(&mut self) -> Vec<u8> {
        let any = self.byte().max(4);
        let number = self.one_of(&[0, 4, 4, 5, 82, 220, 255, any]);
        let length = self.one_of(&[0, 1, 2, 4, 9]);
        let body: Vec<u8> = (0..length).map(|_| self.byte()).collect();
        suboption(number, &body)
    }

    /// A piece that the call does not look at.
    pub(super) fn other_piece(&mut self, profile: &Profile, informations: bool) -> Vec<u8> {
        match self.numbers.below(3) {
            0 => self.name(),
            1 if informations => {
                let flags = self.numbers.below(3) as u8;
                let at = self.some_prefix(profile);
                let entry = self.entry(at, false);
                information(flags, &[entry])
            }
            _ => self.unknown(),
        }
    }

    /// The pieces with others among them, as an option; then damaged at times.
    pub(super) fn option_of(
        &mut self,
        mut pieces: Vec<Vec<u8>>,
        profile: &Profile,
        informations: bool,
    ) -> Vec<u8> {
        if self.numbers.once_in(4) {
            for _ in 0..self.numbers.between(1, 2) {
                let at = self.numbers.below(pieces.len() + 1);
                let piece = self.other_piece(profile, informations);
                pieces.insert(at, piece);
            }
        }
        let flags = self.with_other_bits(0);
        let mut bytes = option(flags, &pieces);
        // What is good but too long loses pieces; now and then it stays too long.
        while bytes.len() > LONGEST_OPTION && pieces.len() > 1 && !self.numbers.once_in(50) {
            pieces.pop();
            bytes = option(flags, &pieces);
        }
        if self.numbers.once_in(profile.bad) {
            bytes = self.bad_option(flags, pieces);
        }
        if self.fault(profile) {
            for _ in 0..self.numbers.between(1, 2) {
                damage_option(&mut self.numbers, &mut bytes);
            }
        }
        bytes
    }

    pub(super) fn request(&mut self, profile: &Profile) -> Vec<u8> {
        let length = match self.numbers.below(20) {
            0 | 1 => 0,
            2 => self.length((1, 30)),
            3 if self.fault(profile) => self.one_of(&[31, 32, 33, 128, 255]),
            _ => self.length(profile.lengths),
        };
        let mut flags = self.numbers.below(2) as u8;
        if self.numbers.once_in(20) && self.fault(profile) {
            flags |= REQUEST_I;
        }
        let flags = self.with_other_bits(flags);
        request(flags, length)
    }

    pub fn ask_option(&mut self, profile: &Profile) -> Vec<u8> {
        let count = match self.numbers.below(8) {
            0 | 1 => self.numbers.between(1, profile.requests),
            2 if self.fault(profile) => self.one_of(&[0, 24, 25, 26, 27, 62, 63]),
            _ => self.numbers.between(1, 3),
        };
        let mut pieces = (0..count).map(|_| self.request(profile)).collect();
        if self.numbers.once_in(4) {
            self.put_names(&mut pieces);
        }
        self.option_of(pieces, profile, true)
    }

    /// The entries in one information or several, with a request at times (8).
    pub(super) fn entries_option(&mut self, named: &[Prefix], profile: &Profile) -> Vec<u8> {
        let plain = named.len() > 20;
        let each = match self.numbers.below(3) {
            0 if !plain => self.numbers.between(1, named.len()),
            _ => named.len(),
        };
        let mut pieces = Vec::new();
        for group in named.chunks(each) {
            let flags = self.numbers.below(4) as u8;
            let flags = self.with_other_bits(flags);
            let entries: Vec<Vec<u8>> = group.iter().map(|at| self.entry(*at, plain)).collect();
            pieces.push(information(flags, &entries));
        }
        if self.fault(profile) {
            if self.numbers.once_in(2) {
                pieces.push(request(self.numbers.below(4) as u8, 0));
            } else {
                pieces = vec![self.name()];
            }
        }
        self.option_of(pieces, profile, false)
    }

    /// A position: the last page's, or one that no page ended with.
    pub(super) fn position(&mut self, profile: &Profile) -> Vec<u8> {
        let resumed = !self.page.is_empty() && !self.numbers.once_in(3);
        let named = if !resumed {
            (0..self.numbers.between(1, 3))
                .map(|_| self.some_prefix(profile))
                .collect()
        } else if self.numbers.once_in(2) {
            self.page.clone()
        } else {
            vec![self.page[self.page.len() - 1]]
        };
        let flags = if self.numbers.once_in(5) {
            self.numbers.below(4) as u8
        } else {
            INFORMATION_CS
        };
        let flags = self.with_other_bits(flags);
        let entries: Vec<Vec<u8>> = named.iter().map(|at| self.entry(*at, true)).collect();
        information(flags, &entries)
    }

    pub(super) fn list_option(&mut self, profile: &Profile) -> Vec<u8> {
        let count = match self.numbers.below(12) {
            0 => self.numbers.between(1, 63),
            1 if self.fault(profile) => 0,
            _ => 1,
        };
        let mut pieces: Vec<Vec<u8>> = (0..count)
            .map(|_| {
                let flags = REQUEST_I | (self.numbers.below(2) as u8);
                let length = self.one_of(&[0, 0, 0, 24, 30]);
                request(flags, length)
            })
            .collect();
        if self.fault(profile) {
            pieces.push(request(0, 0));
        }
        for _ in 0..self.one_of(&[0, 0, 1, 1, 1, 2]) {
            let at = self.numbers.below(pieces.len() + 1);
            let position = self.position(profile);
            pieces.insert(at, position);
        }
        self.option_of(pieces, profile, true)
    }

    /// An option of any pieces, most of them good.
    pub fn any_option(&mut self, profile: &Profile) -> Vec<u8> {
        let mut pieces = Vec::new();
        for _ in 0..self.numbers.between(1, 5) {
            pieces.push(match self.numbers.below(5) {
                0 => request(self.byte(), self.numbers.below(31) as u8),
                1 => self.request(profile),
                2 => {
                    let count = self.one_of(&[1, 1, 2, 3, 12]);
                    let entries: Vec<Vec<u8>> = (0..count)
                        .map(|_| {
                            let length = match self.numbers.below(12) {
                                0 => self.one_of(&[0, 1, 30, 31, 32, 33]),
                                _ => self.length((1, 30)),
                            };
                            let at = aligned(self.somewhere(), length);
                            self.entry(at, count == 12)
                        })
                        .collect();
                    information(self.byte(), &entries)
                }
                3 => self.name(),
                _ => self.unknown(),
            });
        }
        let flags = self.byte();
        option(flags, &pieces)
    }
}
