//! Figures sheets: those that match the table, with any figures, and those that do not.

use reference::figures::{matches, put_rows, rows_of, untold_sheet, Row, SHEET};
use reference::prefix::Prefix;
use reference::table::LEASES;

use super::{Author, Profile};
use crate::bytes::hex;
use crate::damage::damage_rows;

impl Author {
    /// Whether the sheet matches the table, so that 15 applies to no call.
    pub(super) fn sheet_matches(&self) -> bool {
        let rows = rows_of(self.script.figures());
        rows.is_some_and(|rows| matches(&rows, self.script.table()))
    }

    /// Says that these are the rows, and what they became.
    fn say_rows(&mut self, rows: &[Row]) {
        let mut sheet = vec![0; SHEET];
        put_rows(rows, &mut sheet);
        self.say(format!("figures {}", hex(&sheet)));
        self.script.say("figures");
    }

    /// Rows that match: as they are if they do, otherwise untold ones; with other figures
    /// for some leases.
    fn good_rows(&mut self) -> Vec<Row> {
        let untold = untold_sheet(self.script.table());
        let sheet = if self.sheet_matches() {
            self.script.figures()
        } else {
            &untold
        };
        let mut rows = rows_of(sheet).unwrap_or_default();
        let leases = self.leases().len();
        for row in &mut rows[..leases] {
            if self.numbers.once_in(2) {
                row.high_water = self.figure();
                row.in_use = self.figure();
                row.unusable = self.figure();
            }
        }
        rows
    }

    pub fn good_sheet(&mut self) {
        let rows = self.good_rows();
        self.say_rows(&rows);
    }

    /// A sheet with other figures, one that does not match and calls that meet it, or one
    /// of another size.
    pub fn any_sheet(&mut self, profile: &Profile) {
        match self.numbers.below(10) {
            0..=2 => self.good_sheet(),
            3 => self.sheet_of_another_size(),
            4 | 5 => self.sheet_struck_too_soon(profile),
            _ => {
                let mut rows = self.good_rows();
                let leases = self.leases().len();
                for _ in 0..self.one_of(&[1, 1, 1, 2]) {
                    damage_rows(&mut self.numbers, &mut rows, leases);
                }
                self.calls_that_meet(&rows, profile);
            }
        }
    }

    /// A sheet as if the leases that end first were struck already, and calls at their end:
    /// they are in the table still.
    fn sheet_struck_too_soon(&mut self, profile: &Profile) {
        let leases = self.leases();
        let first = leases.iter().map(|lease| lease.expires).min().unwrap_or(0);
        let mut rows = self.good_rows();
        let mut places = leases.iter();
        rows.retain(|_| places.next().is_none_or(|lease| lease.expires > first));
        rows.resize(LEASES, Row::untold(Prefix::default()));
        let at_the_end = Profile {
            ends: 1,
            ..*profile
        };
        self.calls_that_meet(&rows, &at_the_end);
    }

    fn calls_that_meet(&mut self, rows: &[Row], profile: &Profile) {
        self.say_rows(rows);
        for _ in 0..self.numbers.between(1, 3) {
            self.call_with_sheet(profile);
        }
        // Otherwise a later call mends it, or load or open.
        if !self.numbers.once_in(4) {
            self.good_sheet();
        }
    }

    fn call_with_sheet(&mut self, profile: &Profile) {
        match self.numbers.below(4) {
            0 => self.ask(profile),
            1 => self.take(profile),
            2 => self.release(profile),
            _ => self.mark(profile),
        }
    }

    /// An error line: too few or too many bytes, or digits that are none.
    fn sheet_of_another_size(&mut self) {
        let mut digits = hex(self.script.figures());
        let row = digits[..22].to_string();
        match self.numbers.below(8) {
            0 => digits.truncate(2 * (SHEET - 1)),
            1 => digits.truncate(2 * SHEET - 1),
            2 => digits.truncate(2 * self.numbers.below(SHEET)),
            3 => digits.push_str("00"),
            4 => digits.push_str(&row),
            5 => digits = digits.repeat(4),
            6 => digits = "-".to_string(),
            _ => digits.replace_range(..1, "g"),
        }
        self.script.say(format!("figures {digits}"));
        self.script.say("figures");
    }
}
