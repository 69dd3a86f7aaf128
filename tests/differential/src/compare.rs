//! Both programs' answers, line by line.

use std::io;

use crate::program::{Output, Program};
use crate::script::{Script, Step};

/// The first place where the program answers otherwise.
pub struct Difference {
    /// The step, or their number if the difference is after the last answer.
    pub step: usize,
    pub reference: String,
    pub program: String,
}

/// Runs the script and compares every byte of output, and the status.
pub fn difference(script: &Script, program: &Program) -> io::Result<Option<Difference>> {
    Ok(first_difference(
        &script.steps,
        &program.run(&script.text())?,
    ))
}

pub fn first_difference(steps: &[Step], output: &Output) -> Option<Difference> {
    let mut rest = &output.text[..];
    for (step, Step { answer, .. }) in steps.iter().enumerate() {
        match rest.strip_prefix(answer.as_bytes()) {
            Some(after) => rest = after,
            None => {
                return Some(Difference {
                    step,
                    reference: answer.clone(),
                    program: told(output, first_lines(rest, answer.lines().count())),
                })
            }
        }
    }
    if rest.is_empty() && output.failure.is_none() {
        return None;
    }
    Some(Difference {
        step: steps.len(),
        reference: String::new(),
        program: told(output, first_lines(rest, 1)),
    })
}

/// At most so many lines, and at least one.
fn first_lines(text: &[u8], count: usize) -> &[u8] {
    let lines = text.split_inclusive(|byte| *byte == b'\n');
    let length = lines.take(count.max(1)).map(<[u8]>::len).sum();
    &text[..length]
}

fn told(output: &Output, lines: &[u8]) -> String {
    let mut text = String::from_utf8_lossy(lines).into_owned();
    if lines.is_empty() {
        text.push_str("(nothing)\n");
    }
    if let Some(failure) = &output.failure {
        text.push_str(&format!("(the program ended with {failure})\n"));
    }
    text
}

#[cfg(test)]
mod tests {
    use super::*;
    use crate::script::lines_of;

    fn found(text: &str, failure: Option<&str>) -> Option<(usize, String)> {
        let script = Script::of_lines(&lines_of(b"read 760400000000\n# remark\nsave\nsheet\n"));
        let output = Output {
            text: text.as_bytes().to_vec(),
            failure: failure.map(str::to_string),
        };
        first_difference(&script.steps, &output).map(|found| (found.step, found.program))
    }

    #[test]
    fn the_first_difference_is_found() {
        let good = "address 0.0.0.0\nok\nrefused 5\nrefused 5\n";
        assert_eq!(found(good, None), None);
        let other = "address 0.0.0.0\nok\nrefused 5\nrefused 6\n";
        assert_eq!(found(other, None), Some((3, "refused 6\n".to_string())));
        let inside = "address 0.0.0.1\nok\nrefused 5\nrefused 5\n";
        let shown = "address 0.0.0.1\nok\n".to_string();
        assert_eq!(found(inside, None), Some((0, shown)));
        let short = "address 0.0.0.0\nok\nrefused 5\n";
        assert_eq!(found(short, None), Some((3, "(nothing)\n".to_string())));
        let long = "address 0.0.0.0\nok\nrefused 5\nrefused 5\nmore\n";
        assert_eq!(found(long, None), Some((4, "more\n".to_string())));
        assert!(found(good, Some("status 1")).is_some());
        let unended = "address 0.0.0.0\nok\nrefused 5\nrefused 5";
        assert_eq!(found(unended, None), Some((3, "refused 5".to_string())));
    }
}
