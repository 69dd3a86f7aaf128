//! A script, and the reference's answer to each of its lines.

use reference::console::Console;
use reference::counts::Counts;
use reference::table::Table;

use crate::again::{given, Given};
use crate::left::{met, Met};
use crate::names::{names, Names};
use crate::older::{older, Older};
use crate::selection::{selection, Lent, Selection};

pub struct Step {
    /// With its newline, which only the last line of a script may lack.
    pub line: Vec<u8>,
    /// What the reference answers: no line, one, or several, each with its newline.
    pub answer: String,
    /// Of an accepted ask, how its requests fared.
    pub given: Option<Given>,
    /// What it has to do with the counts.
    pub met: Option<Met>,
    /// What it has to do with names and with the two forms.
    pub names: Names,
    /// What it has to do with option 118.
    pub selection: Selection,
    /// What it has to do with books of many lines and an older desk.
    pub older: Older,
}

impl Step {
    /// The words of the line, as the console parts them.
    pub fn words(&self) -> Vec<&[u8]> {
        words_of(&self.line)
    }
}

fn words_of(line: &[u8]) -> Vec<&[u8]> {
    let line = line.strip_suffix(b"\n").unwrap_or(line);
    let line = line.strip_suffix(b"\r").unwrap_or(line);
    let words = line.split(|byte| *byte == b' ');
    words.filter(|word| !word.is_empty()).collect()
}

/// The reference answers each line as it is added, so that the next one can be chosen
/// by what the table then is.
pub struct Script {
    pub steps: Vec<Step>,
    console: Console,
    /// The table's counts before the last call that changed them.
    counts: Counts,
}

impl Script {
    pub fn new() -> Script {
        Script {
            steps: Vec::new(),
            console: Console::new(),
            counts: Table::zero().counts,
        }
    }

    pub fn of_lines(lines: &[Vec<u8>]) -> Script {
        let mut script = Script::new();
        for line in lines {
            script.add(line.clone());
        }
        script
    }

    /// Adds a line as it is and returns its answer.
    pub fn add(&mut self, line: Vec<u8>) -> &str {
        let before = self.console.table.clone();
        let lent = Lent {
            enabled: self.console.selection,
            buffer: self.console.buffer.len(),
        };
        let answer = self.console.line(&line);
        let (after, words) = (&self.console.table, words_of(&line));
        let given = given(&before, &words, &answer);
        let met = met(&before, after, &words, &answer);
        let names = names(&before, after, &words, &answer);
        let selection = selection(&before, lent, &words, &answer);
        let older = older(&before, &words, &answer);
        if before.leases != after.leases {
            self.counts = before.counts;
        }
        self.steps.push(Step {
            line,
            answer,
            given,
            met,
            names,
            selection,
            older,
        });
        &self.steps[self.steps.len() - 1].answer
    }

    /// Adds a line and its newline.
    pub fn say(&mut self, line: impl Into<Vec<u8>>) -> &str {
        let mut line = line.into();
        line.push(b'\n');
        self.add(line)
    }

    /// The reference's table as it now is.
    pub fn table(&self) -> &Table {
        &self.console.table
    }

    /// The bytes of the reference's figures sheet as they now are.
    pub fn figures(&self) -> &[u8] {
        &self.console.figures
    }

    /// The counts before the last call that changed lines.
    pub fn counts_before(&self) -> Counts {
        self.counts
    }

    /// Whether option 118 is enabled.
    pub fn selection(&self) -> bool {
        self.console.selection
    }

    /// The length of the reply buffer as it now is.
    pub fn buffer(&self) -> usize {
        self.console.buffer.len()
    }

    pub fn lines(&self) -> Vec<Vec<u8>> {
        self.steps.iter().map(|step| step.line.clone()).collect()
    }

    pub fn text(&self) -> Vec<u8> {
        self.lines().concat()
    }
}

/// The lines of a text, each with its newline.
pub fn lines_of(text: &[u8]) -> Vec<Vec<u8>> {
    text.split_inclusive(|byte| *byte == b'\n')
        .map(<[u8]>::to_vec)
        .collect()
}

#[cfg(test)]
mod tests {
    use super::*;

    #[test]
    fn a_script_has_the_answers_of_the_console() {
        let text = b"open 3600 28 1000 10.0.1.0/24\n# remark\nask 7 1000 dc05000102001a\nsave";
        let script = Script::of_lines(&lines_of(text));
        let mut answers = Vec::new();
        reference::console::run(&text[..], &mut answers).unwrap();
        let joined: String = script.steps.iter().map(|step| &step.answer[..]).collect();
        assert_eq!(joined.as_bytes(), answers);
        assert_eq!(script.text(), text);
        assert_eq!(script.steps[1].answer, "");
        let script = Script::of_lines(&[b"  ask  7 \r\n".to_vec(), b" \n".to_vec()]);
        assert_eq!(script.steps[0].words(), [&b"ask"[..], b"7"]);
        assert!(script.steps[1].words().is_empty());
    }
}
