//! What was wrong with the suboptions that calls and reads were refused for (M-104), seen from
//! the bytes alone.

use std::collections::BTreeMap;
use std::fmt::{self, Display, Formatter};

use reference::option::read220;

use crate::bytes::{entry_places, from_hex, option, suboption_places, LONGEST_OPTION};

/// The commands that read option 220.
const READERS: [&str; 5] = ["ask", "take", "list", "return", "read"];

/// What can be wrong first in the first bad suboption, in document 02's words.
const FRAMING: [&str; 8] = [
    "no Len byte",
    "Len past the end",
    "a request's Len",
    "an information's Len",
    "a name's Len",
    "an entry cut short",
    "a figure length odd",
    "a figure length past the end",
];
const FIELDS: [&str; 4] = [
    "a request's prefix",
    "an entry's prefix",
    "network bits",
    "a name's zero",
];

/// What tells the orders apart.
const ORDERS: [&str; 4] = [
    "a field before framing in one suboption",
    "framing before a field in one suboption",
    "a field and framing in two suboptions",
    "framing and a field in two suboptions",
];

/// The first bad suboption of an option that was refused.
#[derive(Clone, Debug, PartialEq, Eq)]
pub struct Fault {
    command: &'static str,
    number: u8,
    place: usize,
    what: &'static str,
    orders: Vec<&'static str>,
}

/// What a line was refused for; nothing if it was not refused with 7 or 16.
pub fn fault(words: &[&[u8]], answer: &str) -> Option<Fault> {
    let (command, rest) = words.split_first()?;
    let mut readers = READERS.into_iter();
    let command = readers.find(|name| name.as_bytes() == *command)?;
    let refusal = answer.strip_prefix("refused ")?.trim_end();
    let (number, place) = refusal.split_once(" place=")?;
    let (number, place) = (number.parse().ok()?, place.parse().ok()?);
    // The option is the third word of a call, and the only one of `read`.
    let bytes = from_hex(rest.get(2).or(rest.first())?)?;
    let mut orders = Vec::new();
    if number == 7 && field_before(&bytes, place) {
        orders.push(ORDERS[0]);
    } else if number == 7 && field_after(&bytes, place) {
        orders.push(ORDERS[1]);
    }
    let later = later_numbers(&bytes, place);
    if number == 16 && later.contains(&7) {
        orders.push(ORDERS[2]);
    }
    if number == 7 && later.contains(&16) {
        orders.push(ORDERS[3]);
    }
    Some(Fault {
        command,
        number,
        place,
        what: what(&bytes, place, number)?,
        orders,
    })
}

/// The numbers that the suboptions after this one would get, each alone.
fn later_numbers(bytes: &[u8], place: usize) -> Vec<u8> {
    let mut places = suboption_places(bytes);
    if places
        .last()
        .is_none_or(|last| last + 2 + usize::from(bytes[last + 1]) < bytes.len())
    {
        // A lone number byte.
        places.push(bytes.len() - 1);
    }
    let after = places.iter().filter(|after| **after > place);
    let number = |after: &usize| {
        let end = bytes
            .get(after + 1)
            .map_or(bytes.len(), |len| after + 2 + usize::from(*len));
        let piece = bytes[*after..end.min(bytes.len())].to_vec();
        read220(&option(0, &[piece]))
            .err()
            .map(|refusal| refusal.number)
    };
    after.filter_map(number).collect()
}

/// The entry at this place has a prefix that no entry may have.
fn outside(bytes: &[u8], entry: usize) -> bool {
    !matches!(bytes[entry + 4], 1..=30)
}

/// A field of the entry at this place is outside the rules.
fn bad_field(bytes: &[u8], entry: usize) -> bool {
    outside(bytes, entry) || {
        let network = [0, 1, 2, 3].map(|byte| bytes[entry + byte]);
        u32::from_be_bytes(network) << bytes[entry + 4] != 0
    }
}

/// The entries of the information at this place, and which of them is the first whose figure
/// length is odd or past the end; as many as there are if it is the one cut short after them.
fn entries(bytes: &[u8], place: usize) -> (Vec<usize>, usize) {
    let end = place + 2 + usize::from(bytes[place + 1]);
    let entries = entry_places(bytes, place);
    let broken = |entry: &usize| {
        let size = usize::from(bytes[entry + 6]);
        size % 2 != 0 || entry + 7 + size > end
    };
    let first = entries.iter().position(broken).unwrap_or(entries.len());
    (entries, first)
}

fn is_whole(bytes: &[u8], place: usize) -> bool {
    bytes
        .get(place + 1)
        .is_some_and(|len| place + 2 + usize::from(*len) <= bytes.len())
}

/// A reader that looked at fields on its way would have met a bad one before the framing.
fn field_before(bytes: &[u8], place: usize) -> bool {
    is_whole(bytes, place)
        && match bytes[place] {
            1 => bytes[place + 1] > 1 && bytes[place + 3] > 30,
            2 => {
                let (entries, first) = entries(bytes, place);
                entries
                    .iter()
                    .take(first + 1)
                    .any(|entry| bad_field(bytes, *entry))
            }
            _ => false,
        }
}

/// A bad field stands after the bad framing, by the lengths as they are.
fn field_after(bytes: &[u8], place: usize) -> bool {
    is_whole(bytes, place) && bytes[place] == 2 && {
        let (entries, first) = entries(bytes, place);
        entries
            .iter()
            .skip(first + 1)
            .any(|entry| bad_field(bytes, *entry))
    }
}

fn what(bytes: &[u8], place: usize, number: u8) -> Option<&'static str> {
    let kind = *bytes.get(place)?;
    if number == 16 {
        return Some(match kind {
            1 => FIELDS[0],
            2 => {
                let (entries, _) = entries(bytes, place);
                let bad = entries.into_iter().find(|entry| bad_field(bytes, *entry))?;
                FIELDS[if outside(bytes, bad) { 1 } else { 2 }]
            }
            _ => FIELDS[3],
        });
    }
    let Some(len) = bytes.get(place + 1) else {
        return Some(FRAMING[0]);
    };
    if !is_whole(bytes, place) {
        return Some(FRAMING[1]);
    }
    Some(match kind {
        1 => FRAMING[2],
        2 if *len < 2 => FRAMING[3],
        2 => {
            let (entries, first) = entries(bytes, place);
            match entries.get(first) {
                None => FRAMING[5],
                Some(entry) => {
                    FRAMING[if bytes[entry + 6].is_multiple_of(2) {
                        7
                    } else {
                        6
                    }]
                }
            }
        }
        _ => FRAMING[4],
    })
}

#[derive(Default)]
pub struct Faults {
    /// How many were refused with 16, by command, and with 7 or 16, by what was wrong.
    with_16: BTreeMap<&'static str, usize>,
    what: BTreeMap<&'static str, usize>,
    /// By command and order.
    orders: BTreeMap<(&'static str, &'static str), usize>,
    /// At the longest option's last byte.
    last_place: usize,
}

impl Faults {
    pub fn add(&mut self, fault: &Fault) {
        if fault.number == 16 {
            *self.with_16.entry(fault.command).or_default() += 1;
        }
        *self.what.entry(fault.what).or_default() += 1;
        for order in &fault.orders {
            *self.orders.entry((fault.command, order)).or_default() += 1;
        }
        self.last_place += usize::from(fault.place == LONGEST_OPTION - 1);
    }

    fn ordered(&self, order: &str) -> usize {
        let all = self.orders.iter();
        all.filter(|((_, name), _)| *name == order)
            .map(|(_, count)| count)
            .sum()
    }

    /// What never came.
    pub fn missing(&self) -> Vec<String> {
        let mut missing = Vec::new();
        for what in FRAMING.iter().chain(&FIELDS) {
            if !self.what.contains_key(what) {
                missing.push(what.to_string());
            }
        }
        for command in READERS {
            for order in ORDERS {
                if !self.orders.contains_key(&(command, order)) {
                    missing.push(format!("{command} of {order}"));
                }
            }
        }
        if self.last_place == 0 {
            missing.push("place 256".to_string());
        }
        missing
    }
}

impl Display for Faults {
    fn fmt(&self, out: &mut Formatter<'_>) -> fmt::Result {
        let listed = |names: &[&str], count: &dyn Fn(&str) -> usize| -> String {
            let each = names.iter().map(|name| format!("{name} {}", count(name)));
            each.collect::<Vec<_>>().join(", ")
        };
        let of_what = |name: &str| self.what.get(name).copied().unwrap_or(0);
        write!(
            out,
            "{} calls refused with 16 ({}), for {}; 7 for {}; {}; place 256 {}",
            self.with_16.values().sum::<usize>(),
            listed(&READERS, &|name| self
                .with_16
                .get(name)
                .copied()
                .unwrap_or(0)),
            listed(&FIELDS, &of_what),
            listed(&FRAMING, &of_what),
            listed(&ORDERS, &|name| self.ordered(name)),
            self.last_place
        )
    }
}

#[cfg(test)]
mod tests {
    use super::*;
    use crate::script::{lines_of, Script};
    use reference::faults::{bad_pieces, option_of, BOTH, FIELDS as BAD_FIELDS, PAST_THE_END};
    use reference::words::hex_text;

    fn faults_of(pieces: &[&str]) -> Fault {
        let line = format!("read {}\n", hex_text(&option_of(pieces)));
        let step = &Script::of_lines(&lines_of(line.as_bytes())).steps[0];
        fault(&step.words(), &step.answer).expect("a refusal with a place")
    }

    #[test]
    fn faults_are_told_from_the_bytes() {
        for (piece, number) in bad_pieces() {
            let fault = faults_of(&[piece]);
            let names: &[&str] = if number == 16 { &FIELDS } else { &FRAMING };
            assert!(names.contains(&fault.what), "{piece}: {fault:?}");
            let both = fault.orders.len() == 1 && number == 7;
            assert_eq!(
                both,
                BOTH.contains(&piece) && piece != "01 01 1F",
                "{piece}"
            );
        }
        for piece in PAST_THE_END {
            assert!(FRAMING[..2].contains(&faults_of(&[piece]).what));
        }
        for (pieces, order) in [
            (["02 09 00 0A 00 01 01 18 00 00 0A", ""], Some(ORDERS[0])),
            (["01 03 00 1F 00", ""], Some(ORDERS[0])),
            (
                ["02 10 00 0A 00 01 00 18 00 01 00 0A 00 02 01 18 00 00", ""],
                Some(ORDERS[1]),
            ),
            (["01 02 00 1F", "03 00"], Some(ORDERS[2])),
            (["01 02 00 1F", "01"], Some(ORDERS[2])),
            (["01 02 00 1F", "01 02"], Some(ORDERS[2])),
            (["03 00", "01 02 00 1F"], Some(ORDERS[3])),
            (["03 00", "01 00"], None),
            ([BAD_FIELDS[0], BAD_FIELDS[4]], None),
        ] {
            let orders = faults_of(&pieces).orders;
            assert_eq!(orders.first().copied(), order, "{pieces:?}");
        }
    }

    #[test]
    fn faults_are_counted() {
        let mut bytes = vec![220, 255, 0, 9, 251];
        bytes.extend([0; 251]);
        bytes.push(1);
        let text = format!(
            "read dc05000102001f\nask 1 0 dc05000102001f\nopen 60 28 0 10.0.0.0/29\n\
             ask 1 0 dc07000102001f0100\nread {}\nread dc050001020018\nread dc0100\n",
            hex_text(&bytes)
        );
        let mut faults = Faults::default();
        for step in Script::of_lines(&lines_of(text.as_bytes())).steps {
            fault(&step.words(), &step.answer)
                .iter()
                .for_each(|fault| faults.add(fault));
        }
        let text = faults.to_string();
        let start = "2 calls refused with 16 (ask 1, take 0, list 0, return 0, read 1), \
                     for a request's prefix 2, an entry's prefix 0,";
        assert!(text.starts_with(start), "{text}");
        assert!(text.contains("7 for no Len byte 1, Len past"), "{text}");
        let part = "a field and framing in two suboptions 1, framing and a field in two \
                    suboptions 0; place 256 1";
        assert!(text.ends_with(part), "{text}");
        assert_eq!(faults.missing().len(), 12 - 2 + 20 - 1);
    }
}
