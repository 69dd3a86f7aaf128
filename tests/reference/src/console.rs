//! The console: a script of calls in, an answer for each out. What the text of the
//! console leaves open is decided in README.md.

use std::io::{self, BufRead, Write};

use crate::calls::{self, Answer};
use crate::counts;
use crate::figures::{rows_of, untold_sheet, SHEET, UNTOLD};
use crate::image::{self, Desk, Form};
use crate::option::{read118, read220, write118, write220, SUBNET_SELECTION};
use crate::prefix::{dotted, Prefix};
use crate::refusal::{refusal, Refusal};
use crate::sheet::sheet;
use crate::suboptions::{list_of, text_of};
use crate::table::{Table, SHORTEST_POOL};
use crate::words::{address_of, bit, byte, hex, hex_text, number, prefix_of};

/// "Longest line: 100,000 bytes."
pub const LONGEST_LINE: usize = 100_000;
/// "the reply buffer's length from now on, 0 to 1,024; 257 at first".
pub const LONGEST_BUFFER: u32 = 1_024;
/// "`open` takes 0 to 16 prefixes as arguments".
pub const MOST_PREFIXES: usize = 16;

/// Reads the script line by line and writes the answer to each.
pub fn run(mut script: impl BufRead, mut out: impl Write) -> io::Result<()> {
    let mut console = Console::new();
    let mut line = Vec::new();
    loop {
        line.clear();
        if script.read_until(b'\n', &mut line)? == 0 {
            return out.flush();
        }
        out.write_all(console.line(&line).as_bytes())?;
    }
}

/// One open table with its figures sheet, a reply buffer, whether option 118 is enabled, and
/// the count of lines so far.
pub struct Console {
    pub table: Table,
    pub figures: Vec<u8>,
    pub buffer: Vec<u8>,
    pub selection: bool,
    pub lines: u64,
}

impl Default for Console {
    fn default() -> Console {
        Console::new()
    }
}

impl Console {
    /// "Until the first accepted open or load the book is all zero", "the sheet is all empty
    /// lines' rows" and "the counts are all 0".
    pub fn new() -> Console {
        Console {
            table: Table::zero(),
            figures: untold_sheet(&Table::zero()),
            buffer: vec![0; calls::REPLY],
            // "(at first: off)".
            selection: false,
            lines: 0,
        }
    }

    /// The answer to one line, given with or without its newline.
    pub fn line(&mut self, line: &[u8]) -> String {
        self.lines += 1;
        let line = line.strip_suffix(b"\n").unwrap_or(line);
        let line = line.strip_suffix(b"\r").unwrap_or(line);
        let answer = if line.len() > LONGEST_LINE {
            None
        } else {
            self.words(line)
        };
        // "a line that is no command: it changes nothing".
        answer.unwrap_or_else(|| format!("error line {}\n", self.lines))
    }

    /// The answer to a line that is not too long; nothing if it is no command.
    fn words(&mut self, line: &[u8]) -> Option<String> {
        // "Words are separated by one or more spaces."
        let words: Vec<&[u8]> = line
            .split(|&byte| byte == b' ')
            .filter(|word| !word.is_empty())
            .collect();
        // "A line with no word, or whose first word begins with `#`, is passed over".
        let Some((&command, arguments)) = words.split_first() else {
            return Some(String::new());
        };
        if command[0] == b'#' {
            return Some(String::new());
        }
        match (command, arguments) {
            (b"open", [term, default, start, prefixes @ ..]) => {
                self.open(number(term)?, byte(default)?, number(start)?, prefixes)
            }
            // "HEX, where given, is the option 118 that came with the message".
            (b"ask" | b"take", [client, now, option, selection @ ..]) if selection.len() <= 1 => {
                let (client, now, option) = (number(client)?, number(now)?, hex(option)?);
                // "HEX must be well-formed hexadecimal also where it is not enabled."
                let carried = match selection {
                    [bytes] => Some(hex(bytes)?),
                    _ => None,
                };
                let selection = carried.as_deref().filter(|_| self.selection);
                let (table, figures) = (&mut self.table, &mut self.figures[..]);
                let call = match command {
                    b"ask" => calls::ask,
                    _ => calls::take,
                };
                let buffer = &mut self.buffer[..];
                let answer = call(table, figures, client, now, &option, selection, buffer);
                Some(self.replied(answer))
            }
            (b"list", [client, now, option]) => {
                let (client, now, option) = (number(client)?, number(now)?, hex(option)?);
                let answer = calls::list(&self.table, client, now, &option, &mut self.buffer);
                Some(self.replied(answer))
            }
            (b"selection", [b"on"]) => {
                self.selection = true;
                Some("ok\n".to_string())
            }
            (b"selection", [b"off"]) => {
                self.selection = false;
                Some("ok\n".to_string())
            }
            (b"return", [client, now, option]) => {
                let (client, now, option) = (number(client)?, number(now)?, hex(option)?);
                let (table, figures) = (&mut self.table, &mut self.figures[..]);
                Some(match calls::release(table, figures, client, now, &option) {
                    Ok(answer) => format!("ok count={}\n", answer.count),
                    Err(refusal) => refused(refusal),
                })
            }
            (b"mark", [now, prefix, d]) => {
                let (now, prefix, d) = (number(now)?, prefix_of(prefix)?, bit(d)?);
                let (table, figures) = (&mut self.table, &mut self.figures[..]);
                Some(ok_or_refused(calls::mark(table, figures, now, prefix, d)))
            }
            // "`save` and `save 2` write the second form, `save 1` the first".
            (b"save", []) => Some(self.save(Form::Second, Desk::Own)),
            // "`save 1 older`, `save 2 older`: saved for an older desk (`save older` is an error)."
            (b"save", [form, desk @ ..]) => {
                let form = match *form {
                    b"1" => Form::First,
                    b"2" => Form::Second,
                    _ => return None,
                };
                let desk = match desk {
                    [] => Desk::Own,
                    [b"older"] => Desk::Older,
                    _ => return None,
                };
                Some(self.save(form, desk))
            }
            (b"load", [image]) => {
                let image = hex(image)?;
                let (table, figures) = (&mut self.table, &mut self.figures[..]);
                Some(ok_or_refused(image::load(table, figures, &image)))
            }
            (b"figures", []) => Some(figures_text(&self.figures)),
            (b"figures", [sheet]) => {
                let sheet = hex(sheet)?;
                // "an error if they are not exactly as many as the sheet has".
                if sheet.len() != SHEET {
                    return None;
                }
                self.figures = sheet;
                Some("ok\n".to_string())
            }
            (b"whole", [length]) => Some(match counts::whole(&self.table, number(length)?) {
                Ok(count) => format!("ok count={count}\n"),
                Err(refusal) => refused(refusal),
            }),
            (b"counts", []) => Some(counts_text(&self.table)),
            (b"counts", [bytes]) => {
                // "an error if they are not 368".
                self.table.counts = counts::of_bytes(&hex(bytes)?)?;
                Some("ok\n".to_string())
            }
            (b"sheet", []) => Some(match sheet(&self.table) {
                Ok(rows) => rows,
                Err(refusal) => refused(refusal),
            }),
            (b"read", [option]) => Some(read(&hex(option)?)),
            // "`write address` writes option 118 and takes nothing else."
            (b"write", [b"address", address]) => {
                let bytes = write118(address_of(address)?, &mut self.buffer);
                Some(written(bytes, &self.buffer))
            }
            (b"write", words) => {
                let bytes = write220(&list_of(words)?, &mut self.buffer);
                Some(written(bytes, &self.buffer))
            }
            (b"buffer", [length]) => {
                let length = number(length)?;
                if length > LONGEST_BUFFER {
                    return None;
                }
                self.buffer = vec![0; length as usize];
                Some("ok\n".to_string())
            }
            _ => None,
        }
    }

    /// The answer of a call that has the reply buffer.
    fn replied(&self, answer: Result<Answer, Refusal>) -> String {
        match answer {
            Ok(Answer { bytes, count }) => {
                let reply = hex_text(&self.buffer[..bytes]);
                format!("ok bytes={bytes} count={count} {reply}\n")
            }
            Err(refusal) => refused(refusal),
        }
    }

    /// "The buffer holds every book of the form."
    fn save(&self, form: Form, desk: Desk) -> String {
        let mut buffer = vec![0; form.full()];
        let saved = image::save(&self.table, form, desk, &mut buffer);
        written(saved, &buffer)
    }

    fn open(&mut self, term: u32, default: u8, start: u32, words: &[&[u8]]) -> Option<String> {
        if words.len() > MOST_PREFIXES {
            return None;
        }
        let mut pools = Vec::new();
        for word in words {
            pools.push(prefix_of(word)?);
        }
        let opened = calls::open(&pools, term, default, start, &mut self.figures);
        Some(ok_or_refused(opened.map(|table| self.table = table)))
    }
}

/// "a line for each row that is not an empty line's, in order, then `ok`"; "A row is an
/// empty line's if its network and length are 0".
fn figures_text(sheet: &[u8]) -> String {
    // "`-` for a figure that is untold".
    let figure = |figure: u16| match figure {
        UNTOLD => "-".to_string(),
        told => told.to_string(),
    };
    let mut text = String::new();
    for row in rows_of(sheet).unwrap_or_default() {
        if row.prefix != Prefix::default() {
            text.push_str(&format!(
                "figures {} high-water={} in-use={} unusable={}\n",
                row.prefix,
                figure(row.high_water),
                figure(row.in_use),
                figure(row.unusable)
            ));
        }
    }
    text.push_str("ok\n");
    text
}

/// "a line for each root that has a whole free block, in order, then `ok`: ... the lengths
/// ascending, those that are 0 left out"; "`refused 5` for an unsound book, and nothing else".
fn counts_text(table: &Table) -> String {
    if !table.sound() {
        return refused(refusal(5));
    }
    let mut text = String::new();
    for (pool, row) in table.used_pools().iter().zip(&table.counts) {
        let mut line = format!("counts {pool}");
        for (length, count) in (SHORTEST_POOL..).zip(row) {
            if *count != 0 {
                line.push_str(&format!(" {length}={count}"));
            }
        }
        if row.iter().any(|count| *count != 0) {
            text.push_str(&format!("{line}\n"));
        }
    }
    text.push_str("ok\n");
    text
}

/// "what the reader finds: option 118 if the first byte is 118, otherwise option 220".
fn read(option: &[u8]) -> String {
    if option.first() == Some(&SUBNET_SELECTION) {
        return match read118(option) {
            Ok(address) => format!("address {}\nok\n", dotted(address)),
            Err(refusal) => refused(refusal),
        };
    }
    let list = match read220(option) {
        Ok(list) => list,
        Err(refusal) => return refused(refusal),
    };
    format!("{}ok\n", text_of(&list))
}

/// The bytes written to the front of a buffer.
fn written(bytes: Result<usize, Refusal>, buffer: &[u8]) -> String {
    match bytes {
        Ok(bytes) => format!("ok bytes={bytes} {}\n", hex_text(&buffer[..bytes])),
        Err(refusal) => refused(refusal),
    }
}

fn ok_or_refused<T>(answer: Result<T, Refusal>) -> String {
    match answer {
        Ok(_) => "ok\n".to_string(),
        Err(refusal) => refused(refusal),
    }
}

fn refused(refusal: Refusal) -> String {
    let Refusal { number, place } = refusal;
    if number == 7 || number == 16 {
        format!("refused {number} place={place}\n")
    } else {
        format!("refused {number}\n")
    }
}
