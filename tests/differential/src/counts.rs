//! What was called and what was answered, so that a reader sees what a run covers.

use std::collections::BTreeMap;
use std::fmt::{self, Display, Formatter};

use reference::figures::UNTOLD;
use reference::option::Entry;

use crate::again::Again;
use crate::bytes::{entries_of, from_hex, reply_of};
use crate::faults::{fault, Faults};
use crate::left::Left;
use crate::names::Names;
use crate::older::Older;
use crate::rounds::Rounds;
use crate::script::{Script, Step};
use crate::selection::Selection;

/// Each command with the numbers that it can be refused with, in the papers' row order.
/// The buffer that `save` is given holds a full book of the form, so it has no 14.
const COMMANDS: [(&str, &[u8]); 16] = [
    ("open", &[12]),
    ("ask", &[1, 5, 15, 2, 3, 4, 6, 7, 16, 8, 17, 19, 9, 10]),
    ("take", &[1, 5, 15, 2, 3, 4, 6, 7, 16, 8, 19, 11]),
    ("list", &[1, 5, 2, 3, 4, 6, 7, 16, 8, 11]),
    ("return", &[5, 15, 2, 3, 4, 6, 7, 16, 8, 11]),
    ("mark", &[5, 15, 3, 4, 11]),
    ("load", &[5]),
    ("sheet", &[5]),
    ("read", &[6, 7, 16]),
    ("write", &[13, 14]),
    ("whole", &[5]),
    ("save", &[5, 20, 18]),
    ("figures", &[]),
    ("counts", &[5]),
    ("buffer", &[]),
    ("selection", &[]),
];

/// `save`, `figures`, `counts`, `buffer` and `selection` stand between the calls and are not
/// counted as calls.
const CALLS: usize = 11;
/// The figures sheet does not match.
const NO_MATCH: u8 = 15;
/// In place of a refusal's number.
const ACCEPTED: u8 = 0;
const ERROR: u8 = u8::MAX;

#[derive(Default)]
pub struct Counts {
    pub scripts: usize,
    rounds: Rounds,
    /// Answers by command and number.
    answers: BTreeMap<(usize, u8), usize>,
    /// Error lines, also those whose first word is no command.
    errors: usize,
    /// Accepted takes that told a figure of a lease.
    filed: usize,
    /// Sheets that were given, `figures HEX`.
    sheets: usize,
    /// Asks that gave a line again.
    again: Again,
    /// What met the counts of whole free blocks.
    left: Left,
    /// What was wrong with suboptions.
    faults: Faults,
    /// Names, and loads of both forms.
    names: Names,
    /// Option 118, enabled and not.
    selection: Selection,
    /// Books of many lines, and saves for an older desk.
    older: Older,
}

impl Counts {
    /// The error is a step of the reference that does not undo the one before it.
    pub fn add(&mut self, script: &Script) -> Result<(), usize> {
        self.scripts += 1;
        for step in &script.steps {
            self.add_step(step);
        }
        self.rounds.add(script)
    }

    fn add_step(&mut self, step: &Step) {
        let error = step.answer.starts_with("error line");
        self.errors += usize::from(error);
        self.filed += usize::from(files_figures(step));
        self.sheets += usize::from(gives_sheet(step));
        if let Some(given) = &step.given {
            self.again.add(given);
        }
        if let Some(met) = step.met {
            self.left.add(met);
        }
        self.names.add(&step.names);
        self.selection.add(&step.selection);
        self.older.add(&step.older);
        if let Some(fault) = fault(&step.words(), &step.answer) {
            self.faults.add(&fault);
        }
        if let Some(command) = command(step) {
            let number = match refused_with(&step.answer) {
                _ if error => ERROR,
                Some(number) => number,
                None => ACCEPTED,
            };
            *self.answers.entry((command, number)).or_default() += 1;
        }
    }

    fn count(&self, command: usize, number: u8) -> usize {
        self.answers.get(&(command, number)).copied().unwrap_or(0)
    }

    /// Error lines aside.
    fn answered(&self, command: usize) -> usize {
        let of_command = self.answers.range((command, 0)..(command, ERROR));
        of_command.map(|(_, count)| count).sum()
    }

    /// How many calls reached row 15.
    fn not_matching(&self) -> usize {
        let calls = 0..CALLS;
        calls.map(|command| self.count(command, NO_MATCH)).sum()
    }

    pub fn calls(&self) -> usize {
        (0..CALLS).map(|command| self.answered(command)).sum()
    }

    /// The answers that a command can give and that never came, such as `ask 9`.
    pub fn missing(&self) -> Vec<String> {
        let mut missing = self.rounds.missing();
        missing.extend(self.again.missing(self.calls()));
        missing.extend(self.left.missing());
        missing.extend(self.faults.missing());
        missing.extend(self.names.missing());
        missing.extend(self.selection.missing());
        missing.extend(self.older.missing());
        if self.filed == 0 {
            missing.push("take with figures".to_string());
        }
        for (command, (name, numbers)) in COMMANDS.iter().enumerate() {
            if self.count(command, ACCEPTED) == 0 {
                missing.push(format!("{name} ok"));
            }
            for number in *numbers {
                if self.count(command, *number) == 0 {
                    missing.push(format!("{name} {number}"));
                }
            }
            if self.count(command, ERROR) == 0 {
                missing.push(format!("{name} error"));
            }
        }
        missing
    }
}

/// Which command a line has as its first word, if it has one.
fn command(step: &Step) -> Option<usize> {
    let first = *step.words().first()?;
    COMMANDS
        .iter()
        .position(|(name, _)| name.as_bytes() == first)
}

/// An accepted `figures HEX`.
fn gives_sheet(step: &Step) -> bool {
    matches!(step.words()[..], [b"figures", _]) && step.answer == "ok\n"
}

/// An accepted take, and one of the entries that it found tells a figure.
fn files_figures(step: &Step) -> bool {
    let [b"take", _, _, option, ..] = step.words()[..] else {
        return false;
    };
    let (Some(option), Some(reply)) = (from_hex(option), reply_of(&step.answer)) else {
        return false;
    };
    let found = entries_of(&reply);
    let is_found = |entry: &Entry| {
        let same = |found: &Entry| (found.network, found.prefix) == (entry.network, entry.prefix);
        found.iter().any(same)
    };
    entries_of(&option)
        .iter()
        .any(|entry| entry.figures.iter().any(|figure| *figure != UNTOLD) && is_found(entry))
}

fn refused_with(answer: &str) -> Option<u8> {
    let rest = answer.strip_prefix("refused ")?;
    rest.split_whitespace().next()?.parse().ok()
}

/// `ask 5 (2 ok, 1 x 9, 1 x 10, 1 error), ..`
impl Display for Counts {
    fn fmt(&self, out: &mut Formatter<'_>) -> fmt::Result {
        for (command, (name, numbers)) in COMMANDS.iter().enumerate() {
            let (accepted, errors) = (self.count(command, ACCEPTED), self.count(command, ERROR));
            let lines = self.answered(command) + errors;
            write!(out, "{name} {lines} ({accepted} ok")?;
            for number in *numbers {
                write!(out, ", {} x {number}", self.count(command, *number))?;
            }
            write!(out, ", {errors} error), ")?;
        }
        write!(
            out,
            "error lines {}, {}, {} sheets given, {} calls refused with 15, {} takes filed figures, {}, {}, {}, {}, {}, {}",
            self.errors,
            self.rounds,
            self.sheets,
            self.not_matching(),
            self.filed,
            self.again,
            self.left,
            self.faults,
            self.names,
            self.selection,
            self.older
        )
    }
}

#[cfg(test)]
mod tests {
    use super::*;
    use crate::script::lines_of;

    #[test]
    fn answers_are_counted_by_command_and_number() {
        let mut counts = Counts::default();
        let script = Script::of_lines(&lines_of(
            b"save\nopen 60 28 0 10.0.0.0/30\n ask 1 0 dc05000102001e\r\nask 2 0 dc05000102001e\n\
              # ask\nask\nsheet\nbuffer 3\nread dc05000102001f\nread dc03000300\nsave\nx\n\
              write\nwrite name 61\nwrite x\nbuffer 6\nwrite name 61\n",
        ));
        assert_eq!(counts.add(&script), Ok(()));
        assert_eq!(counts.calls(), 9);
        let text = counts.to_string();
        assert!(text.contains("open 1 (1 ok, 0 x 12, 0 error)"), "{text}");
        assert!(text.contains("ask 3 (1 ok, 0 x 1,"), "{text}");
        assert!(text.contains("1 x 10, 1 error)"), "{text}");
        assert!(
            text.contains("read 2 (0 ok, 0 x 6, 1 x 7, 1 x 16, 0 error)"),
            "{text}"
        );
        assert!(
            text.contains("write 4 (1 ok, 1 x 13, 1 x 14, 1 error)"),
            "{text}"
        );
        assert!(
            text.contains("save 2 (1 ok, 1 x 5, 0 x 20, 0 x 18, 0 error)"),
            "{text}"
        );
        assert!(text.contains("error lines 3,"), "{text}");
        assert!(counts.missing().contains(&"ask 9".to_string()));
        assert!(!counts.missing().contains(&"ask 10".to_string()));
    }

    #[test]
    fn sheets_15_and_filed_figures_are_counted() {
        let wrong = "00".repeat(reference::figures::SHEET);
        let text = format!(
            "open 60 28 0 10.0.0.0/29\nask 1 0 dc05000102001e\nfigures\n\
             take 1 0 dc0b000208000a0000001e0000\n\
             take 1 0 dc0d00020a000a0000001e0002ffff\n\
             take 1 0 dc0f00020c000a0000001e0004ffff0007\n\
             take 1 0 dc14000211000a0000001e00000a0000041e00020007\n\
             take 2 0 dc0d00020a000a0000001e00020007\n\
             take 1 0 dc14000211000a0000041e00000a0000001e00020007\n\
             figures {wrong}\nmark 0 10.0.0.0/30 1\ntake 1 0 -\nlist 1 0 -\nfigures 00\n"
        );
        let mut counts = Counts::default();
        let script = Script::of_lines(&lines_of(text.as_bytes()));
        assert_eq!(counts.add(&script), Ok(()));
        let text = counts.to_string();
        let part = "1 sheets given, 2 calls refused with 15, 2 takes filed figures, 0 asks gave";
        assert!(text.contains(part), "{text}");
        assert!(text.contains("figures 3 (2 ok, 1 error)"), "{text}");
        assert!(text.contains("mark 1 (0 ok, 0 x 5, 1 x 15,"), "{text}");
        assert!(Counts::default()
            .missing()
            .contains(&"take with figures".to_string()));
    }
}
