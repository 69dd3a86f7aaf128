//! The loop of a DHCP server in small, with Flockdrift embedded: the same as embed.c, from Rust. Build it with
//!
//!     cargo build --example embed --manifest-path rust/flockdrift/Cargo.toml
//!     rust/flockdrift/target/debug/examples/embed DIRECTORY [STOP-AFTER] < messages
//!
//! embed.c says what the messages are, why a client gets its answer only after the new image is on the disk, what the
//! server does where that fails, and that figures are not saved.
#![deny(unsafe_code)]

use std::env;
use std::error::Error;
use std::ffi::OsString;
use std::fs::{self, File, OpenOptions};
use std::io::{self, BufRead, Write};
use std::os::unix::fs::OpenOptionsExt;
use std::path::{Path, PathBuf};
use std::process::{self, ExitCode};

use flockdrift::{Book, Form, Refusal, Reply};

/// Bytes for one write: few, so that a kill can leave half an image in the new file.
const PIECE: usize = 32;

/// Ends the server after so many steps, as a kill would: nothing is flushed and no destructor runs.
struct Steps(Option<u32>);

impl Steps {
    /// Stands between any two steps after which the world may look different.
    fn step(&mut self) {
        if let Some(left) = &mut self.0 {
            *left -= 1;
            if *left == 0 {
                process::abort();
            }
        }
    }
}

// THE IMAGE FILE

/// The directory where the book is kept.
struct Directory(PathBuf);

impl Directory {
    fn leases(&self) -> PathBuf {
        self.0.join("leases")
    }

    fn new_leases(&self) -> PathBuf {
        self.0.join("leases.new")
    }

    /// The book, or none yet. A file that is no image is an error, and stays for the operator.
    fn read(&self) -> Result<Book, Box<dyn Error>> {
        match fs::read(self.leases()) {
            Ok(saved) => Ok(Book::load(&saved).map_err(|e| named(&self.leases(), e))?),
            Err(e) if e.kind() == io::ErrorKind::NotFound => Ok(Book::none()),
            Err(e) => Err(named(&self.leases(), e).into()),
        }
    }

    /// Writes the bytes to the new file, all of them on the disk. A file that was left there loses its name first: it
    /// may be the image itself, which open links.
    fn write_new(&self, saved: &[u8], steps: &mut Steps) -> io::Result<()> {
        match fs::remove_file(self.new_leases()) {
            Err(e) if e.kind() != io::ErrorKind::NotFound => return Err(e),
            _ => steps.step(),
        }
        let mut file = OpenOptions::new()
            .write(true)
            .create_new(true)
            .mode(0o600)
            .open(self.new_leases())?;
        steps.step();
        for piece in saved.chunks(PIECE) {
            file.write_all(piece)?;
            steps.step();
        }
        file.sync_all()?;
        steps.step();
        drop(file);
        steps.step();
        Ok(())
    }

    /// Puts the new file in the place of the old one; where there is to be none yet, only if there is none.
    fn put_in_place(&self, first: bool, steps: &mut Steps) -> io::Result<()> {
        if first {
            fs::hard_link(self.new_leases(), self.leases())?;
        } else {
            fs::rename(self.new_leases(), self.leases())?;
        }
        steps.step();
        File::open(&self.0)?.sync_all()?;
        steps.step();
        Ok(())
    }

    /// Puts the book's image in the place of the old one: after a crash or a failure it is one of the two.
    fn write(&self, book: &Book, first: bool, steps: &mut Steps) -> Result<(), String> {
        let saved = book
            .save(Form::Second)
            .map_err(|e| named(&self.leases(), e))?;
        self.write_new(&saved, steps)
            .map_err(|e| named(&self.new_leases(), e))?;
        self.put_in_place(first, steps)
            .map_err(|e| named(&self.leases(), e))
    }
}

/// What is wrong with a file.
fn named(file: &Path, e: impl Error) -> String {
    format!("{}: {e}", file.display())
}

// MESSAGES AS LINES

/// What a message asks for.
enum Message {
    Open {
        networks: Vec<u32>,
        lengths: Vec<u8>,
        term: u32,
        default_length: u32,
        start: u32,
    },
    Ask(u32, u32, Vec<u8>, Option<Vec<u8>>),
    Take(u32, u32, Vec<u8>, Option<Vec<u8>>),
    List(u32, u32, Vec<u8>),
    Return(u32, u32, Vec<u8>),
    Mark(u32, (u32, u8), bool),
    Sheet,
}

/// Decimal digits and nothing else.
fn number(word: &str) -> Option<u32> {
    word.bytes()
        .all(|b| b.is_ascii_digit())
        .then(|| word.parse().ok())?
}

/// A.B.C.D/L
fn prefix(word: &str) -> Option<(u32, u8)> {
    let (address, length) = word.split_once('/')?;
    let parts: Vec<u8> = address
        .split('.')
        .map(|part| number(part)?.try_into().ok())
        .collect::<Option<_>>()?;
    let network = u32::from_be_bytes(parts.try_into().ok()?);
    Some((network, number(length)?.try_into().ok()?))
}

/// Bytes in hexadecimal; `-` stands for none.
fn octets(word: &str) -> Option<Vec<u8>> {
    let digits: Vec<u32> = match word {
        "-" => Vec::new(),
        _ => word
            .chars()
            .map(|c| c.to_digit(16))
            .collect::<Option<_>>()?,
    };
    (digits.len() % 2 == 0).then(|| digits.chunks(2).map(|d| (d[0] * 16 + d[1]) as u8).collect())
}

fn message(words: &[&str]) -> Option<Message> {
    match words {
        ["open", term, default_length, start, prefixes @ ..] => {
            let pools: Vec<_> = prefixes.iter().map(|p| prefix(p)).collect::<Option<_>>()?;
            let (networks, lengths) = pools.into_iter().unzip();
            Some(Message::Open {
                networks,
                lengths,
                term: number(term)?,
                default_length: number(default_length)?,
                start: number(start)?,
            })
        }
        ["mark", now, lease, flag @ ("0" | "1")] => {
            Some(Message::Mark(number(now)?, prefix(lease)?, *flag == "1"))
        }
        ["sheet"] => Some(Message::Sheet),
        [verb @ ("ask" | "take"), client, now, option, selection @ ..] => {
            let selection = match selection {
                [] => None,
                [selection] => Some(octets(selection)?),
                _ => return None,
            };
            let (client, now, option) = (number(client)?, number(now)?, octets(option)?);
            Some(match *verb {
                "ask" => Message::Ask(client, now, option, selection),
                _ => Message::Take(client, now, option, selection),
            })
        }
        [verb, client, now, option] => {
            let make = match *verb {
                "list" => Message::List,
                "return" => Message::Return,
                _ => return None,
            };
            Some(make(number(client)?, number(now)?, octets(option)?))
        }
        _ => None,
    }
}

// THE LOOP

/// The words of a reply.
fn shown(reply: Reply) -> String {
    let octets: String = reply.bytes().iter().map(|b| format!("{b:02x}")).collect();
    format!(
        "ok bytes={} count={} {octets}",
        reply.bytes().len(),
        reply.count()
    )
}

/// Makes the call; the words of its answer.
fn call(book: &mut Book, message: &Message) -> Result<String, Refusal> {
    match message {
        Message::Open {
            networks,
            lengths,
            term,
            default_length,
            start,
        } => {
            *book = Book::open(networks, lengths, *term, *default_length, *start)?;
            Ok("ok".into())
        }
        Message::Ask(client, now, option, selection) => Ok(shown(book.ask(
            *client,
            *now,
            option,
            selection.as_deref(),
        )?)),
        Message::Take(client, now, option, selection) => Ok(shown(book.take(
            *client,
            *now,
            option,
            selection.as_deref(),
        )?)),
        Message::List(client, now, option) => Ok(shown(book.list(*client, *now, option)?)),
        Message::Return(client, now, option) => {
            Ok(format!("ok count={}", book.release(*client, *now, option)?))
        }
        Message::Mark(now, (network, length), deprecated) => {
            book.mark(*network, *length, *deprecated, *now)?;
            Ok("ok".into())
        }
        Message::Sheet => Ok(book.sheet()?.trim_end().into()),
    }
}

/// The server: where its book is kept, and the book.
struct Server {
    directory: Directory,
    steps: Steps,
    book: Book,
}

impl Server {
    /// The answer to a message; none where its image could not be written, and then the book is the one from before.
    fn answer(&mut self, message: &Message) -> Option<String> {
        let before = self.book.clone();
        let answer = call(&mut self.book, message);
        self.steps.step();
        let words = match answer {
            Ok(words) => words,
            Err(Refusal {
                number: number @ (7 | 16),
                place,
            }) => return Some(format!("refused {number} place={place}")),
            Err(Refusal { number, .. }) => return Some(format!("refused {number}")),
        };
        if !matches!(message, Message::List(..) | Message::Sheet) {
            let first = matches!(message, Message::Open { .. });
            if let Err(e) = self.directory.write(&self.book, first, &mut self.steps) {
                eprintln!("embed: {e}");
                self.book = before;
                return None;
            }
        }
        Some(words)
    }

    /// What a line means; none where it is no message. Open is none where there is a book, which it would lose.
    fn message(&self, words: &[&str]) -> Option<Message> {
        let message = message(words)?;
        if matches!(message, Message::Open { .. }) && self.book.check().is_ok() {
            let leases = self.directory.leases();
            eprintln!(
                "embed: {}: there is a book, which open would lose",
                leases.display()
            );
            return None;
        }
        Some(message)
    }

    fn serve(&mut self) -> io::Result<()> {
        let mut out = io::stdout().lock();
        for (count, line) in io::stdin().lock().lines().enumerate() {
            let line = line?;
            let words: Vec<&str> = line.split_ascii_whitespace().collect();
            if words.first().is_none_or(|word| word.starts_with('#')) {
                continue;
            }
            let Some(message) = self.message(&words) else {
                writeln!(out, "error line {}", count + 1)?;
                out.flush()?;
                continue;
            };
            if let Some(answer) = self.answer(&message) {
                writeln!(out, "{answer}")?;
                out.flush()?;
                self.steps.step();
            }
        }
        Ok(())
    }
}

fn start(directory: &OsString, steps: Steps) -> Result<(), Box<dyn Error>> {
    let directory = Directory(directory.into());
    let book = directory.read()?;
    let mut server = Server {
        directory,
        steps,
        book,
    };
    Ok(server.serve()?)
}

fn main() -> ExitCode {
    let arguments: Vec<_> = env::args_os().skip(1).collect();
    let stop_after = match &arguments[..] {
        [_] => Some(None),
        [_, steps] => steps
            .to_str()
            .and_then(number)
            .map(|n| (n != 0).then_some(n)),
        _ => None,
    };
    let Some(stop_after) = stop_after else {
        eprintln!("usage: embed DIRECTORY [STOP-AFTER] < messages");
        return ExitCode::FAILURE;
    };
    match start(&arguments[0], Steps(stop_after)) {
        Ok(()) => ExitCode::SUCCESS,
        Err(e) => {
            eprintln!("embed: {e}");
            ExitCode::FAILURE
        }
    }
}
