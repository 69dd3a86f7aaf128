//! Books of many lines, and saving for an older desk (M-107), in a run.

use std::fmt::{self, Display, Formatter};

use reference::table::{Name, Table, LEASES, OLDER_LEASES};

/// How often each of these came.
#[derive(Clone, Debug, Default, PartialEq, Eq)]
pub struct Older {
    /// Saves refused with 20, by form; of those in the first, the ones that names would refuse too.
    first: usize,
    second: usize,
    names: usize,
    /// Of them, those of one line too many.
    just_above: usize,
    /// Saves for an older desk accepted, and those of exactly as many lines as it reads.
    accepted: usize,
    exact: usize,
    /// Calls on books of more lines than an older desk reads, and on full ones.
    above: usize,
    full: usize,
    /// Asks refused with 9.
    no_line: usize,
}

/// What a line did that is said to this table and answered so.
pub fn older(before: &Table, words: &[&[u8]], answer: &str) -> Older {
    let lines = before.used_leases().len();
    let named = || {
        let mut leases = before.used_leases().iter();
        leases.any(|lease| lease.name != Name::default())
    };
    let count = |is: bool| usize::from(is);
    match *words {
        [b"save", form, b"older"] => {
            let refused = answer == "refused 20\n";
            let accepted = answer.starts_with("ok");
            Older {
                first: count(refused && form == b"1"),
                second: count(refused && form == b"2"),
                names: count(refused && form == b"1" && named()),
                just_above: count(refused && lines == OLDER_LEASES + 1),
                accepted: count(accepted),
                exact: count(accepted && lines == OLDER_LEASES),
                ..Older::default()
            }
        }
        [b"ask" | b"take" | b"list" | b"return" | b"mark", ..] if !answer.starts_with("error") => {
            Older {
                above: count(lines > OLDER_LEASES),
                full: count(lines == LEASES),
                no_line: count(answer == "refused 9\n"),
                ..Older::default()
            }
        }
        _ => Older::default(),
    }
}

impl Older {
    fn all(&self) -> [(&'static str, usize); 9] {
        [
            ("saves refused with 20 in the first form", self.first),
            ("in the second", self.second),
            ("with names to lose", self.names),
            ("of 257 lines", self.just_above),
            ("saves for an older desk accepted", self.accepted),
            ("of 256 lines", self.exact),
            ("calls on more than 256 lines", self.above),
            ("on 1024", self.full),
            ("asks refused with 9", self.no_line),
        ]
    }

    pub fn add(&mut self, other: &Older) {
        self.first += other.first;
        self.second += other.second;
        self.names += other.names;
        self.just_above += other.just_above;
        self.accepted += other.accepted;
        self.exact += other.exact;
        self.above += other.above;
        self.full += other.full;
        self.no_line += other.no_line;
    }

    /// What never came.
    pub fn missing(&self) -> Vec<String> {
        let never = self.all().into_iter().filter(|(_, count)| *count == 0);
        never.map(|(name, _)| name.to_string()).collect()
    }
}

impl Display for Older {
    fn fmt(&self, out: &mut Formatter<'_>) -> fmt::Result {
        let all = self.all().map(|(name, count)| format!("{count} {name}"));
        write!(out, "{}", all.join(", "))
    }
}

#[cfg(test)]
mod tests {
    use super::*;
    use crate::bytes::{hex, image};
    use crate::script::{lines_of, Script};
    use reference::prefix::prefix;
    use reference::samples::{named, row_of_leases, table, TEN};

    #[test]
    fn saves_for_an_older_desk_are_counted() {
        let book = |count, name: &[u8]| {
            let mut leases = row_of_leases(count, 7, 5000);
            leases[0] = named(leases[0], name);
            hex(&image(&table(&[prefix(TEN, 16)], 1000, leases)))
        };
        let text = format!(
            "load {}\nsave 1 older\nload {}\nsave 1 older\nsave 2 older\nsave 1\n\
             load {}\nask 8 1000 dc05000102001e\n",
            book(256, b""),
            book(257, b"x"),
            book(1_024, b"")
        );
        let mut older = Older::default();
        for step in Script::of_lines(&lines_of(text.as_bytes())).steps {
            older.add(&step.older);
        }
        let counts = older.all().map(|(_, count)| count);
        assert_eq!(counts, [1, 1, 1, 2, 1, 1, 1, 1, 1]);
        assert!(older.missing().is_empty());
        assert_eq!(Older::default().missing().len(), 9);
    }
}
