//! What names and the two saved forms (M-105) did in a run.

use std::fmt::{self, Display, Formatter};

use reference::image::Form;
use reference::table::{Lease, Name, State, Table};

use crate::bytes::{first_name, from_hex, record_places};

/// How often each of these came.
#[derive(Clone, Debug, Default, PartialEq, Eq)]
pub struct Names {
    /// Asks refused with 17; of these, those that would have made no new lease.
    too_long: usize,
    nothing_new: usize,
    /// Saves refused with 18, and saves accepted in the first form.
    lost: usize,
    saved_first: usize,
    /// Leases newly made with a name, and leases with a name that were struck.
    made: usize,
    struck: usize,
    /// Leases with a name that were given again to a message with another.
    kept: usize,
    /// Ground of a lease with a name, granted again in the call that struck it.
    granted_again: usize,
    /// Loads accepted, by form, and refused because of a lease of the other form.
    first: usize,
    second: usize,
    mixed: usize,
}

/// What a line did that is said to this table and answered so.
pub fn names(before: &Table, after: &Table, words: &[&[u8]], answer: &str) -> Names {
    let mut names = Names::default();
    match *words {
        [b"ask", _, now, option, ..] => {
            let Some(option) = from_hex(option) else {
                return names;
            };
            if answer == "refused 17\n" {
                names.too_long = 1;
                let now = reference::words::number(now).unwrap_or(0);
                names.nothing_new = usize::from(before.whole_free_prefixes(now).is_empty());
            } else if answer.starts_with("ok") {
                asked(before, after, first_name(&option), &mut names);
            }
        }
        [b"take" | b"return", ..] | [b"mark", ..] if answer.starts_with("ok") => {
            names.struck = gone(before, after).len();
        }
        [b"save", b"1", ..] => {
            names.lost = usize::from(answer == "refused 18\n");
            names.saved_first = usize::from(answer.starts_with("ok"));
        }
        [b"load", image] => {
            if let Some(image) = from_hex(image) {
                loaded(&image, answer == "ok\n", &mut names);
            }
        }
        _ => {}
    }
    names
}

/// The leases with a name that are no longer there.
fn gone(before: &Table, after: &Table) -> Vec<Lease> {
    let leases = before.used_leases().iter();
    let named = leases.filter(|lease| lease.name != Name::default());
    let there = |lease: &Lease| {
        let now = after.last_time;
        let mut left = after.used_leases().iter();
        lease.expires > now && left.any(|left| left.prefix == lease.prefix)
    };
    named.filter(|lease| !there(lease)).copied().collect()
}

fn asked(before: &Table, after: &Table, name: Option<Vec<u8>>, names: &mut Names) {
    let present = before.present_leases(after.last_time);
    let old = |lease: &&Lease| present.iter().any(|old| old.prefix == lease.prefix);
    let (kept, made): (Vec<&Lease>, Vec<&Lease>) = after.used_leases().iter().partition(old);
    let named = |lease: &&&Lease| lease.name != Name::default();
    names.made = made.iter().filter(named).count();
    let gone = gone(before, after);
    let again = |lease: &&Lease| made.iter().any(|new| new.prefix == lease.prefix);
    names.granted_again = gone.iter().filter(again).count();
    names.struck = gone.len();
    // Given again: its end is new, and the message had another name.
    let again = kept.iter().filter(named).filter(|lease| {
        let same_end = |old: &&Lease| old.prefix == lease.prefix && old.expires == lease.expires;
        lease.state == State::Offered && !present.iter().any(|old| same_end(&old))
    });
    names.kept = again
        .filter(|lease| name.as_deref() != Some(lease.name.octets()))
        .count();
}

fn loaded(image: &[u8], accepted: bool, names: &mut Names) {
    let places = record_places(image);
    let kinds: Vec<u16> = places
        .windows(2)
        .map(|ends| u16::from_le_bytes([image[ends[0] + 2], image[ends[0] + 3]]))
        .collect();
    let Some(form) = Form::BOTH
        .into_iter()
        .find(|form| kinds.first() == Some(&form.head()))
    else {
        return;
    };
    let other = match form {
        Form::First => Form::Second,
        Form::Second => Form::First,
    };
    match (form, accepted) {
        (Form::First, true) => names.first = 1,
        (Form::Second, true) => names.second = 1,
        (_, false) => names.mixed = usize::from(kinds.contains(&other.lease())),
    }
}

impl Names {
    fn all(&self) -> [(&'static str, usize); 11] {
        [
            ("calls refused with 17", self.too_long),
            ("of them without free ground", self.nothing_new),
            ("saves refused with 18", self.lost),
            ("saves in the first form", self.saved_first),
            ("leases got a name", self.made),
            ("leases with a name struck", self.struck),
            ("leases kept another name when given again", self.kept),
            (
                "blocks of a struck name granted at once",
                self.granted_again,
            ),
            ("loads of the first form accepted", self.first),
            ("of the second", self.second),
            ("mixtures refused", self.mixed),
        ]
    }

    pub fn add(&mut self, other: &Names) {
        self.too_long += other.too_long;
        self.nothing_new += other.nothing_new;
        self.lost += other.lost;
        self.saved_first += other.saved_first;
        self.made += other.made;
        self.struck += other.struck;
        self.kept += other.kept;
        self.granted_again += other.granted_again;
        self.first += other.first;
        self.second += other.second;
        self.mixed += other.mixed;
    }

    /// What never came.
    pub fn missing(&self) -> Vec<String> {
        let never = self.all().into_iter().filter(|(_, count)| *count == 0);
        never.map(|(name, _)| name.to_string()).collect()
    }
}

impl Display for Names {
    fn fmt(&self, out: &mut Formatter<'_>) -> fmt::Result {
        let all = self.all().map(|(name, count)| format!("{count} {name}"));
        write!(out, "{}", all.join(", "))
    }
}

#[cfg(test)]
mod tests {
    use super::*;
    use crate::script::{lines_of, Script};

    #[test]
    fn names_and_forms_are_counted() {
        let long = "61".repeat(25);
        let head = "3c0000001c00000000070002000000000a1e";
        let text = format!(
            "open 60 28 0 10.0.0.0/30\nask 1 0 dc08000301610102001e\nask 1 1 dc08000301620102001e\n\
             ask 1 2 dc20000319{long}0102001e\nsave 1\nsave 2\n\
             ask 2 121 dc05000102001e\nsave 1\nload 0b000100{head}\nload 0b000500{head}\n\
             load 0b000500{head}110003000000000a1e020001000000ff000000\nload -\n"
        );
        let mut names = Names::default();
        for step in Script::of_lines(&lines_of(text.as_bytes())).steps {
            names.add(&step.names);
        }
        let counts = names.all().map(|(_, count)| count);
        assert_eq!(counts, [1, 1, 1, 1, 1, 1, 1, 1, 1, 1, 1]);
        assert_eq!(Names::default().missing().len(), 11);
        assert!(names.missing().is_empty());
        assert!(names
            .to_string()
            .starts_with("1 calls refused with 17, 1 of"));
    }
}
