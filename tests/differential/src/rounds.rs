//! "A written option reads back as the same list ... An accepted option with no unknown
//! suboption, no ignored bit set and no figure past the third is written back as the
//! same bytes." Held to in the reference's answers; the program's are compared with them.

use std::fmt::{self, Display, Formatter};

use reference::calls::REPLY;
use reference::suboptions::list_of;
use reference::words::address_of;

use crate::bytes::{from_hex, nothing_ignored};
use crate::script::{Script, Step};

/// How many options went both ways, one line after the other.
#[derive(Default)]
pub struct Rounds {
    /// `write`, and `read` of its bytes.
    read_back: usize,
    /// `read`, and `write` of its words.
    written_back: usize,
}

impl Rounds {
    /// Adds those of a script. The error is the first step that should undo the one
    /// before it and does not.
    pub fn add(&mut self, script: &Script) -> Result<(), usize> {
        let mut buffer = REPLY;
        for (index, pair) in script.steps.windows(2).enumerate() {
            let (first, second) = (&pair[0], &pair[1]);
            if let Some(length) = set_buffer(first) {
                buffer = length;
            }
            for (count, undone) in [
                (&mut self.read_back, read_back(first, second)),
                (&mut self.written_back, written_back(first, second, buffer)),
            ] {
                match undone {
                    Some(true) => *count += 1,
                    Some(false) => return Err(index + 1),
                    None => {}
                }
            }
        }
        Ok(())
    }

    /// Nothing, if both ways came.
    pub fn missing(&self) -> Vec<String> {
        let ways = [
            ("read back", self.read_back),
            ("written back", self.written_back),
        ];
        let never = ways.into_iter().filter(|(_, count)| *count == 0);
        never.map(|(name, _)| name.to_string()).collect()
    }
}

impl Display for Rounds {
    fn fmt(&self, out: &mut Formatter<'_>) -> fmt::Result {
        write!(
            out,
            "{} options written and read back, {} read and written back",
            self.read_back, self.written_back
        )
    }
}

/// The length that an accepted `buffer` sets.
fn set_buffer(step: &Step) -> Option<usize> {
    match step.words()[..] {
        [b"buffer", length] if step.answer == "ok\n" => {
            std::str::from_utf8(length).ok()?.parse().ok()
        }
        _ => None,
    }
}

/// Whether `read` of the bytes that were just written gives the list that was written;
/// nothing if the steps are no such ones.
fn read_back(write: &Step, read: &Step) -> Option<bool> {
    let [b"write", ref words @ ..] = write.words()[..] else {
        return None;
    };
    let [b"read", option] = read.words()[..] else {
        return None;
    };
    let option = from_hex(option)?;
    if from_hex(written(&write.answer)?)? != option {
        return None;
    }
    let Some(printed) = printed(&read.answer) else {
        return Some(false);
    };
    Some(match (words, &printed[..]) {
        ([b"address", one], [b"address", other]) => address_of(one) == address_of(other),
        (words, printed) => list_of(words) == list_of(printed),
    })
}

/// Whether `write` of the words that were just printed gives the bytes that were read;
/// nothing if the steps are no such ones, or the bytes need not be the same.
fn written_back(read: &Step, write: &Step, buffer: usize) -> Option<bool> {
    let [b"read", option] = read.words()[..] else {
        return None;
    };
    let [b"write", ref words @ ..] = write.words()[..] else {
        return None;
    };
    let option = from_hex(option)?;
    if printed(&read.answer)? != words || (option[0] != 118 && !nothing_ignored(&option)) {
        return None;
    }
    Some(if option.len() > buffer {
        write.answer == "refused 14\n"
    } else {
        written(&write.answer).and_then(from_hex) == Some(option)
    })
}

/// The hexadecimal digits of an accepted `write`.
fn written(answer: &str) -> Option<&[u8]> {
    let (_, digits) = answer.strip_prefix("ok bytes=")?.split_once(' ')?;
    Some(digits.trim_end().as_bytes())
}

/// The words that an accepted `read` prints before its `ok`.
fn printed(answer: &str) -> Option<Vec<&[u8]>> {
    let text = answer.strip_suffix("ok\n")?;
    Some(text.split_whitespace().map(str::as_bytes).collect())
}

#[cfg(test)]
mod tests {
    use super::*;
    use crate::script::lines_of;

    /// How many went both ways, or the step that was not undone.
    fn rounds(script: &Script) -> Result<(usize, usize), usize> {
        let mut rounds = Rounds::default();
        rounds.add(script)?;
        Ok((rounds.read_back, rounds.written_back))
    }

    #[test]
    fn both_ways_are_counted() {
        for (text, counts) in [
            ("write name 61\nread DC0400030161\nwrite name 61\n", (1, 1)),
            (
                "write address 010.0.1.0\nread 76040a000100\nwrite address 10.0.1.0\n",
                (1, 1),
            ),
            ("write name 61\n# remark\nread dc0400030161\n", (0, 0)),
            ("write name 61\nread dc0400030162\nwrite name 61\n", (0, 0)),
            ("read dc0400030161\nbuffer 5\nwrite name 61\n", (0, 0)),
            ("buffer 5\nread dc0400030161\nwrite name 61\n", (0, 1)),
            ("read dc0401030161\nwrite name 61\n", (0, 0)),
            ("read dc03000900\nwrite unknown\n", (0, 0)),
            ("read dc02\nwrite\nread -\nwrite\n", (0, 0)),
        ] {
            let script = Script::of_lines(&lines_of(text.as_bytes()));
            assert_eq!(rounds(&script), Ok(counts), "{text}");
        }
    }

    #[test]
    fn what_is_not_undone_is_found() {
        let text = "# remark\nwrite name 61\nread dc0400030161\nwrite name 61\n";
        for (step, answer) in [
            (2, "name 62\nok\n"),
            (2, "refused 6\n"),
            (3, "ok bytes=6 dc0400030162\n"),
            (3, "refused 14\n"),
        ] {
            let mut script = Script::of_lines(&lines_of(text.as_bytes()));
            script.steps[step].answer = answer.to_string();
            assert_eq!(rounds(&script), Err(step), "{answer}");
        }
    }
}
