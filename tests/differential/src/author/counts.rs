//! Counts (M-102): those that are the table's, damaged ones, those of another time; and the
//! query.

use reference::counts::{bytes_of, Counts, BYTES};

use super::{Author, Profile};
use crate::bytes::hex;
use crate::damage::damage_counts;

impl Author {
    /// What a fresh walk over the table finds.
    fn right_counts(&self) -> Counts {
        self.script.table().clone().counted().counts
    }

    /// Whether counts alone make the table unsound.
    pub(super) fn counts_differ(&self) -> bool {
        let table = self.script.table();
        table.sound_but_counts() && !table.sound()
    }

    fn say_counts(&mut self, counts: &Counts) {
        self.say(format!("counts {}", hex(&bytes_of(counts))));
        self.script.say("counts");
    }

    pub fn good_counts(&mut self) {
        let counts = self.right_counts();
        self.say_counts(&counts);
    }

    /// The counts as they are, ones that differ and calls that meet them, or bytes of
    /// another size.
    pub fn any_counts(&mut self, profile: &Profile) {
        match self.numbers.below(12) {
            0 | 1 => self.good_counts(),
            2 => self.counts_of_another_size(),
            3..=5 => self.counts_of_another_time(profile),
            6 => {
                let old = self.script.counts_before();
                self.calls_that_meet_counts(&old, profile);
            }
            _ => {
                let mut counts = self.right_counts();
                let pools = self.script.table().used_pools().len();
                for _ in 0..self.one_of(&[1, 1, 1, 2]) {
                    damage_counts(&mut self.numbers, &mut counts, pools);
                }
                self.calls_that_meet_counts(&counts, profile);
            }
        }
    }

    /// Counts as if the leases that end first were struck already, and calls at their end:
    /// they are in the table still.
    fn counts_of_another_time(&mut self, profile: &Profile) {
        let mut later = self.script.table().clone();
        let first = self.leases().iter().map(|lease| lease.expires).min();
        later.set_leases(later.present_leases(first.unwrap_or(0)));
        let counts = later.counted().counts;
        let at_the_end = Profile {
            ends: 1,
            ..*profile
        };
        self.calls_that_meet_counts(&counts, &at_the_end);
    }

    fn calls_that_meet_counts(&mut self, counts: &Counts, profile: &Profile) {
        self.say_counts(counts);
        for _ in 0..self.numbers.between(1, 4) {
            match self.numbers.below(8) {
                0 => self.ask(profile),
                1 => self.take(profile),
                2 => self.release(profile),
                3 => self.mark(profile),
                4 => self.list(profile),
                5 => {
                    self.say("sheet".to_string());
                }
                _ => self.whole(profile),
            }
        }
        // Otherwise load or open mends them, or a later call does.
        if !self.numbers.once_in(6) {
            self.good_counts();
        }
    }

    /// An error line: too few or too many bytes, or digits that are none.
    fn counts_of_another_size(&mut self) {
        let mut digits = hex(&bytes_of(&self.right_counts()));
        let row = digits[..92].to_string();
        match self.numbers.below(8) {
            0 => digits.truncate(2 * (BYTES - 1)),
            1 => digits.truncate(2 * BYTES - 1),
            2 => digits.truncate(2 * self.numbers.between(1, BYTES - 1)),
            3 => digits.push_str("00"),
            4 => digits.push_str(&row),
            5 => digits = digits.repeat(2),
            6 => digits = "-".to_string(),
            _ => digits.replace_range(..1, "g"),
        }
        self.script.say(format!("counts {digits}"));
        self.script.say("counts");
    }

    /// The query: of a length that is asked for here, of any, or of one that none has.
    pub fn whole(&mut self, profile: &Profile) {
        let any = self.number();
        let length: u32 = match self.numbers.below(8) {
            0 => self.one_of(&[0, 1, 7, 8, 30, 31, 32, 33]),
            1 => self.numbers.below(64) as u32,
            2 => any,
            // The low bits are a length's.
            3 => (any & !0xff) | self.numbers.between(8, 30) as u32,
            4 => self.numbers.between(8, 30) as u32,
            _ => self.length(profile.lengths).into(),
        };
        self.say(format!("whole {length}"));
    }
}
