//! The program under test: a script on its standard input, its answers on its
//! standard output.

use std::io::{self, Read, Write};
use std::path::{Path, PathBuf};
use std::process::{Command, Stdio};
use std::sync::{mpsc, Mutex};
use std::thread;
use std::time::Duration;

/// A program that takes longer for one script is ended; the longest takes well under
/// a second.
const TIME_LIMIT: Duration = Duration::from_secs(20);

pub struct Program {
    path: PathBuf,
}

/// What a program did with a script.
pub struct Output {
    pub text: Vec<u8>,
    /// How it ended, if not with status 0.
    pub failure: Option<String>,
}

impl Program {
    pub fn new(path: &Path) -> Program {
        // A program in this folder; other names are looked for in the path.
        let path = path.canonicalize().unwrap_or_else(|_| path.to_path_buf());
        Program { path }
    }

    pub fn run(&self, script: &[u8]) -> io::Result<Output> {
        let mut child = Command::new(&self.path)
            .stdin(Stdio::piped())
            .stdout(Stdio::piped())
            .stderr(Stdio::null())
            .spawn()
            .map_err(|error| io::Error::other(format!("{}: {error}", self.path.display())))?;
        let (input, output) = (child.stdin.take(), child.stdout.take());
        let (Some(mut input), Some(mut output)) = (input, output) else {
            return Err(io::Error::other("no pipes"));
        };
        let child = Mutex::new(child);
        let (done, finished) = mpsc::channel();
        let mut text = Vec::new();
        let in_time = thread::scope(|scope| {
            // A program that ends early closes the pipe; its output tells.
            scope.spawn(move || input.write_all(script));
            let child = &child;
            let watch = scope.spawn(move || {
                let in_time = finished.recv_timeout(TIME_LIMIT).is_ok();
                if !in_time {
                    let _ = child.lock().map(|mut child| child.kill());
                }
                in_time
            });
            let read = output.read_to_end(&mut text);
            let _ = done.send(());
            let in_time = watch.join().unwrap_or(false);
            read.map(|_| in_time)
        })?;
        let child = child.into_inner();
        let status = child.map_err(|_| io::Error::other("lost"))?.wait()?;
        let failure = if !in_time {
            Some(format!("no end within {} s", TIME_LIMIT.as_secs()))
        } else if status.success() {
            None
        } else {
            Some(status.to_string())
        };
        Ok(Output { text, failure })
    }
}

#[cfg(test)]
mod tests {
    use super::*;

    #[test]
    fn output_and_status() {
        let cat = Program::new(Path::new("cat"));
        let long = vec![b'x'; 1_000_000];
        let output = cat.run(&long).unwrap();
        assert!(output.text == long && output.failure.is_none());
        let no = Program::new(Path::new("false"));
        assert!(no.run(&long).unwrap().failure.is_some());
        assert!(Program::new(Path::new("no/such/program")).run(b"").is_err());
    }
}
