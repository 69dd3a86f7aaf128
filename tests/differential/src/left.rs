//! What the counts (M-102) did in a run: calls refused because of them, queries, and calls that
//! struck ended lines and had to count after that.

use std::collections::BTreeMap;
use std::fmt::{self, Display, Formatter};

use reference::counts::column;
use reference::table::Table;
use reference::words::number;

/// The commands that take the book, so that counts that differ refuse each of them.
const TAKES_BOOK: [&str; 9] = [
    "ask", "take", "list", "return", "mark", "save", "sheet", "whole", "counts",
];
/// Those that strike what has ended.
const STRIKES: [&str; 4] = ["ask", "take", "return", "mark"];

/// What a line met.
#[derive(Clone, Copy, Debug, PartialEq, Eq)]
pub enum Met {
    /// Refused, and the counts are the only reason.
    Differing(&'static str),
    /// Accepted, and a line was struck because it had ended.
    Struck(&'static str),
    /// A query that counted some, none, or none because no block has the length.
    Some,
    None,
    Outside,
    /// Counts that were given and are the table's, or are not.
    Given(bool),
}

/// What a line met that is said to this table and answered so.
pub fn met(before: &Table, after: &Table, words: &[&[u8]], answer: &str) -> Option<Met> {
    let (command, rest) = words.split_first()?;
    let named = |names: &[&'static str]| {
        let mut names = names.iter();
        names.find(|name| name.as_bytes() == *command).copied()
    };
    if answer == "refused 5\n" {
        let differing = before.sound_but_counts() && !before.sound();
        return named(&TAKES_BOOK).filter(|_| differing).map(Met::Differing);
    }
    match (*command, rest) {
        (b"whole", [length]) if answer.starts_with("ok") => Some(match column(number(length)?) {
            None => Met::Outside,
            Some(_) if answer == "ok count=0\n" => Met::None,
            Some(_) => Met::Some,
        }),
        (b"counts", [_]) if answer == "ok\n" => Some(Met::Given(after.sound())),
        _ if answer.starts_with("ok") => {
            let name = named(&STRIKES)?;
            let ended = before.used_leases().len() - before.present_leases(after.last_time).len();
            (ended > 0).then_some(Met::Struck(name))
        }
        _ => None,
    }
}

#[derive(Default)]
pub struct Left {
    differing: BTreeMap<&'static str, usize>,
    struck: BTreeMap<&'static str, usize>,
    some: usize,
    none: usize,
    outside: usize,
    right: usize,
    wrong: usize,
}

impl Left {
    pub fn add(&mut self, met: Met) {
        let count = match met {
            Met::Differing(name) => self.differing.entry(name).or_default(),
            Met::Struck(name) => self.struck.entry(name).or_default(),
            Met::Some => &mut self.some,
            Met::None => &mut self.none,
            Met::Outside => &mut self.outside,
            Met::Given(true) => &mut self.right,
            Met::Given(false) => &mut self.wrong,
        };
        *count += 1;
    }

    /// What never came.
    pub fn missing(&self) -> Vec<String> {
        let mut missing = Vec::new();
        for name in TAKES_BOOK {
            if !self.differing.contains_key(name) {
                missing.push(format!("{name} refused because of counts"));
            }
        }
        for name in STRIKES {
            if !self.struck.contains_key(name) {
                missing.push(format!("{name} that struck and counted"));
            }
        }
        for (name, count) in [
            ("whole of some", self.some),
            ("whole of none", self.none),
            ("whole outside 8 to 30", self.outside),
            ("counts given that are the table's", self.right),
            ("counts given that are not", self.wrong),
        ] {
            if count == 0 {
                missing.push(name.to_string());
            }
        }
        missing
    }
}

fn each(counts: &BTreeMap<&'static str, usize>) -> String {
    let each: Vec<String> = counts
        .iter()
        .map(|(name, count)| format!("{name} {count}"))
        .collect();
    each.join(", ")
}

impl Display for Left {
    fn fmt(&self, out: &mut Formatter<'_>) -> fmt::Result {
        write!(
            out,
            "{} counts given ({} right), {} calls refused because of counts ({}), {} calls struck \
             ended lines and counted ({}), {} queries of some, {} of none, {} outside 8 to 30",
            self.right + self.wrong,
            self.right,
            self.differing.values().sum::<usize>(),
            each(&self.differing),
            self.struck.values().sum::<usize>(),
            each(&self.struck),
            self.some,
            self.none,
            self.outside
        )
    }
}

#[cfg(test)]
mod tests {
    use super::*;
    use crate::script::{lines_of, Script};

    #[test]
    fn calls_that_meet_counts_are_counted() {
        let (mut right, wrong) = ("00".repeat(368), "01".repeat(368));
        // A /24 without leases, from its place in the first row.
        right.replace_range(64..66, "01");
        let text = format!(
            "counts {wrong}\nwhole 24\nopen 60 28 0 10.0.0.0/24\nwhole 24\nwhole 25\nwhole 7\nwhole x\n\
             counts {right}\ncounts {wrong}\nwhole 7\nsave\nload -\ncounts\ncounts {right}\n\
             ask 1 0 dc05000102001c0102001c\nask 1 0 dc05000102001c\nask 2 120 dc05000102001b\n"
        );
        let mut left = Left::default();
        for step in Script::of_lines(&lines_of(text.as_bytes())).steps {
            step.met.into_iter().for_each(|met| left.add(met));
        }
        assert_eq!(
            left.to_string(),
            "4 counts given (2 right), 3 calls refused because of counts (counts 1, save 1, whole 1), \
             1 calls struck ended lines and counted (ask 1), 1 queries of some, 1 of none, \
             1 outside 8 to 30"
        );
        assert_eq!(left.missing().len(), 6 + 3);
        assert_eq!(Left::default().missing().len(), 9 + 4 + 5);
    }
}
