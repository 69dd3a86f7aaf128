//! Suboptions that are bad in their framing, in a field, or in both (M-104).

use super::tables::aligned;
use super::Author;
use crate::bytes::{entry, option, request, suboption, LONGEST_OPTION};

/// Lengths that no request and no entry may have; 0 is one for an entry only.
const OUTSIDE: [u8; 6] = [31, 31, 32, 33, 128, 255];

impl Author {
    /// A piece that is bad, whatever follows it.
    pub fn bad_piece(&mut self) -> Vec<u8> {
        match self.numbers.below(10) {
            0 => {
                let flags = self.numbers.below(4) as u8;
                request(flags, self.one_of(&OUTSIDE))
            }
            1 => {
                let length = self.one_of(&[0, 1, 3, 3, 4, 9]);
                let values = [0, 1, 24, 30, 31, 31, 255];
                let body: Vec<u8> = (0..length).map(|_| self.one_of(&values)).collect();
                suboption(1, &body)
            }
            2 => suboption(3, &[]),
            3 => {
                let mut octets: Vec<u8> = (0..self.numbers.below(5)).map(|_| self.byte()).collect();
                octets.push(0);
                suboption(3, &octets)
            }
            4 => {
                let flags = [self.byte()];
                suboption(2, &flags[..self.numbers.below(2)])
            }
            _ => self.bad_information(),
        }
    }

    /// A field of one of its entries is outside the rules, or its framing is bad, or both, in
    /// the same entry or in two.
    fn bad_information(&mut self) -> Vec<u8> {
        let count = self.one_of(&[1, 1, 2, 2, 3, 5]);
        let both = [(true, false), (false, true), (true, true), (true, true)];
        let (field, framing) = self.one_of(&both);
        let (outside, broken) = (self.numbers.below(count), self.numbers.below(count));
        let mut body = vec![self.byte()];
        for index in 0..count {
            let length = self.length((1, 30));
            let mut at = aligned(self.somewhere(), length);
            if field && index == outside {
                if self.numbers.once_in(2) {
                    at.length = self.one_of(&[0, 0, 31, 31, 32, 255]);
                } else {
                    at.network |= 1 << self.numbers.below(32 - usize::from(length));
                }
            }
            let figures = [0; 8];
            let told = self.one_of(&[0, 0, 2, 6, 8]);
            let flags = self.numbers.below(4) as u8;
            let mut bytes = entry(at, flags, &figures[..told]);
            if framing && index == broken {
                match self.numbers.below(6) {
                    // Odd, with as many bytes.
                    0..=2 => bytes = entry(at, flags, &figures[..self.one_of(&[1, 3, 5, 7])]),
                    // Past the end, odd or even, whatever follows.
                    3 => bytes[6] = self.one_of(&[253, 254, 255]),
                    // Past the end by a little, where it is the last.
                    4 => bytes[6] += self.one_of(&[1, 2]),
                    // Cut, where it is the last.
                    _ => bytes.truncate(self.numbers.between(1, 6)),
                }
            }
            body.extend(bytes);
        }
        suboption(2, &body)
    }

    /// A piece that is bad because the option ends too soon for it.
    fn cut_piece(&mut self) -> Vec<u8> {
        let number = self.one_of(&[1, 1, 2, 2, 3, 9]);
        let good = match number {
            1 => request(0, self.one_of(&[24, 31])),
            2 => {
                let at = aligned(self.somewhere(), 24);
                suboption(2, &[vec![0], entry(at, 0, &[])].concat())
            }
            _ => suboption(number, &[0x61, 0]),
        };
        let end = self.numbers.between(1, good.len() - 1);
        good[..end].to_vec()
    }

    /// These pieces with one or two bad ones among them, now and then one that is cut after them;
    /// or a bad one at the last places.
    pub(super) fn bad_option(&mut self, flags: u8, mut pieces: Vec<Vec<u8>>) -> Vec<u8> {
        if self.numbers.once_in(12) {
            return self.late_option(flags);
        }
        for _ in 0..self.one_of(&[1, 1, 2]) {
            let at = self.numbers.below(pieces.len() + 1);
            let piece = self.bad_piece();
            pieces.insert(at, piece);
        }
        if self.numbers.once_in(4) {
            let piece = self.cut_piece();
            pieces.push(piece);
        }
        option(flags, &pieces)
    }

    /// A long unknown piece, and a bad one that ends with the longest option or a little before.
    fn late_option(&mut self, flags: u8) -> Vec<u8> {
        let bad = if self.numbers.once_in(2) {
            self.cut_piece()
        } else {
            self.bad_piece()
        };
        let skipped = LONGEST_OPTION - 5 - bad.len() - self.one_of(&[0, 0, 1, 2]);
        option(flags, &[suboption(9, &vec![0; skipped]), bad])
    }
}
