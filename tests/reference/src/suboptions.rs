//! A list of suboptions as words: what `read` prints and `write` takes.

use crate::option::{Entry, Information, Request, Suboption};
use crate::prefix::dotted;
use crate::words::{bit, byte, hex, hex_text, number, prefix_of};

/// "Up to 96 suboptions, 64 entries and 256 octets of names", each in the whole line.
pub const MOST_SUBOPTIONS: usize = 96;
pub const MOST_ENTRIES: usize = 64;
pub const MOST_OCTETS: usize = 256;
/// "figures are up to four numbers below 65,536".
pub const MOST_FIGURES: usize = 4;

/// "a line for each suboption, entries after their information".
pub fn text_of(list: &[Suboption]) -> String {
    let mut text = String::new();
    for suboption in list {
        match suboption {
            Suboption::Request(request) => text.push_str(&format!(
                "request h={} i={} prefix={}\n",
                u8::from(request.h),
                u8::from(request.i),
                request.prefix
            )),
            Suboption::Information(information) => {
                text.push_str(&format!(
                    "information c={} s={}\n",
                    u8::from(information.c),
                    u8::from(information.s)
                ));
                for entry in &information.entries {
                    text.push_str(&format!(
                        "entry {}/{} h={} d={} figures={}\n",
                        dotted(entry.network),
                        entry.prefix,
                        u8::from(entry.h),
                        u8::from(entry.d),
                        figures_text(&entry.figures)
                    ));
                }
            }
            Suboption::Name(name) => text.push_str(&format!("name {}\n", hex_text(name))),
            Suboption::Unknown => text.push_str("unknown\n"),
        }
    }
    text
}

/// "figures=- where there are none".
fn figures_text(figures: &[u16]) -> String {
    if figures.is_empty() {
        return "-".to_string();
    }
    let figures: Vec<String> = figures.iter().map(u16::to_string).collect();
    figures.join(",")
}

/// The list that these words make; nothing if they are not such words, or too many.
/// Whether it can be written is the writer's matter.
pub fn list_of(mut words: &[&[u8]]) -> Option<Vec<Suboption>> {
    let mut list = Vec::new();
    while !words.is_empty() {
        words = match words {
            [b"request", h, i, prefix, rest @ ..] => {
                list.push(Suboption::Request(Request {
                    h: bit(h.strip_prefix(b"h=")?)?,
                    i: bit(i.strip_prefix(b"i=")?)?,
                    prefix: byte(prefix.strip_prefix(b"prefix=")?)?,
                }));
                rest
            }
            [b"information", c, s, rest @ ..] => {
                list.push(Suboption::Information(Information {
                    c: bit(c.strip_prefix(b"c=")?)?,
                    s: bit(s.strip_prefix(b"s=")?)?,
                    entries: Vec::new(),
                }));
                rest
            }
            [b"entry", prefix, h, d, figures, rest @ ..] => {
                // "`entry` follows `information` or another `entry`."
                let Some(Suboption::Information(information)) = list.last_mut() else {
                    return None;
                };
                let prefix = prefix_of(prefix)?;
                information.entries.push(Entry {
                    network: prefix.network,
                    prefix: prefix.length,
                    h: bit(h.strip_prefix(b"h=")?)?,
                    d: bit(d.strip_prefix(b"d=")?)?,
                    figures: figures_of(figures.strip_prefix(b"figures=")?)?,
                });
                rest
            }
            [b"name", octets, rest @ ..] => {
                list.push(Suboption::Name(hex(octets)?));
                rest
            }
            [b"unknown", rest @ ..] => {
                list.push(Suboption::Unknown);
                rest
            }
            _ => return None,
        };
    }
    within_limits(&list).then_some(list)
}

/// "up to four numbers below 65,536, separated by commas, or `-`".
fn figures_of(word: &[u8]) -> Option<Vec<u16>> {
    if word == b"-" {
        return Some(Vec::new());
    }
    let mut figures = Vec::new();
    for figure in word.split(|&byte| byte == b',') {
        figures.push(u16::try_from(number(figure)?).ok()?);
    }
    (figures.len() <= MOST_FIGURES).then_some(figures)
}

fn within_limits(list: &[Suboption]) -> bool {
    let mut entries = 0;
    let mut octets = 0;
    for suboption in list {
        match suboption {
            Suboption::Information(information) => entries += information.entries.len(),
            Suboption::Name(name) => octets += name.len(),
            Suboption::Request(_) | Suboption::Unknown => {}
        }
    }
    list.len() <= MOST_SUBOPTIONS && entries <= MOST_ENTRIES && octets <= MOST_OCTETS
}
