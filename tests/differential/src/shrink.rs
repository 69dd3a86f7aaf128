//! A failing script made short: lines left out, then what is left of them shortened,
//! as long as the two programs still differ.

use reference::counts::{bytes_of, of_bytes, Counts};
use reference::figures::{put_rows, rows_of, Row, SHEET, UNTOLD};
use reference::prefix::Prefix;

use crate::bytes::{entry_places, from_hex, hex, record_places, suboption_places};

/// At most so many scripts are tried.
const MOST_TRIES: usize = 5_000;

/// Numbers that a smaller one is looked for among, beside half of it.
const SMALL: [u32; 5] = [0, 1, 7, 60, 1_000];

type Lines = Vec<Vec<u8>>;

struct Shrinking<'a> {
    lines: Lines,
    differs: &'a mut dyn FnMut(&[Vec<u8>]) -> bool,
    tries: usize,
}

/// The script must differ as it is given.
pub fn shrink(lines: Lines, differs: &mut dyn FnMut(&[Vec<u8>]) -> bool) -> Lines {
    let mut shrinking = Shrinking {
        lines,
        differs,
        tries: 0,
    };
    loop {
        let before = shrinking.lines.clone();
        shrinking.leave_out_lines();
        shrinking.shorten_lines();
        if shrinking.lines == before || shrinking.tries >= MOST_TRIES {
            return shrinking.lines;
        }
    }
}

impl Shrinking<'_> {
    /// Keeps the shorter script if it still differs.
    fn keep(&mut self, shorter: Lines) -> bool {
        if self.tries >= MOST_TRIES {
            return false;
        }
        self.tries += 1;
        let differs = (self.differs)(&shorter);
        if differs {
            self.lines = shorter;
        }
        differs
    }

    /// Half of the lines at once, then a quarter, and so on to each line by itself.
    fn leave_out_lines(&mut self) {
        let mut count = self.lines.len().div_ceil(2);
        while count > 0 {
            let mut end = self.lines.len();
            while end > 0 {
                let start = end.saturating_sub(count);
                let mut shorter = self.lines.clone();
                shorter.drain(start..end);
                self.keep(shorter);
                end = start.min(self.lines.len());
            }
            count = if count == 1 { 0 } else { count.div_ceil(2) };
        }
    }

    fn shorten_lines(&mut self) {
        for index in 0..self.lines.len() {
            while self.shorten_line(index) {}
        }
    }

    fn shorten_line(&mut self, index: usize) -> bool {
        simpler(&self.lines[index]).into_iter().any(|line| {
            let mut shorter = self.lines.clone();
            shorter[index] = line;
            self.keep(shorter)
        })
    }
}

/// Lines that are shorter or have a smaller number, so that shrinking ends.
fn simpler(line: &[u8]) -> Vec<Vec<u8>> {
    let text = line.strip_suffix(b"\n").unwrap_or(line);
    let newline = &line[text.len()..];
    let words: Vec<&[u8]> = text.split(|byte| *byte == b' ').collect();
    let mut found = Vec::new();
    for (start, end) in word_cuts(words.len()) {
        found.push([&words[..start], &words[end..]].concat().join(&b' '));
    }
    for index in 0..words.len() {
        for word in simpler_words(words[index]) {
            let mut words = words.clone();
            words[index] = &word;
            found.push(words.join(&b' '));
        }
    }
    let found = found.into_iter().map(|text| [&text, newline].concat());
    found.filter(|simpler| simpler != line).collect()
}

/// Which words are left out: stretches of many, and of a few at every place, since the
/// suboptions that `write` takes have up to five words.
fn word_cuts(words: usize) -> Vec<(usize, usize)> {
    let places: Vec<usize> = (0..=words).collect();
    let many = stretches(&places).into_iter();
    let mut cuts: Vec<(usize, usize)> = many.filter(|(start, end)| end - start > 5).collect();
    for count in (1..=5).rev() {
        cuts.extend((count..=words).map(|end| (end - count, end)));
    }
    cuts
}

fn simpler_words(word: &[u8]) -> Vec<Vec<u8>> {
    let text = String::from_utf8_lossy(word);
    if let (true, Ok(number)) = (word.len() <= 10, text.parse::<u32>()) {
        let smaller = SMALL.into_iter().chain([number / 2]);
        return smaller
            .filter(|small| *small < number)
            .map(|small| small.to_string().into_bytes())
            .collect();
    }
    // `prefix=24`, `figures=10,7,2`.
    if let Some((name, value)) = text.split_once('=') {
        let values = simpler_words(value.as_bytes()).into_iter();
        let fewer = value
            .rsplit_once(',')
            .map(|(fewer, _)| fewer.as_bytes().to_vec());
        let lines = values.chain(fewer);
        return lines
            .map(|value| [name.as_bytes(), b"=", &value].concat())
            .collect();
    }
    let Some(bytes) = from_hex(word) else {
        return Vec::new();
    };
    let shorter = match (rows_of(&bytes), of_bytes(&bytes)) {
        (Some(rows), _) => emptier_sheets(&rows),
        (_, Some(counts)) => fewer_counts(&counts),
        _ => shorter_bytes(&bytes),
    };
    let shorter = shorter.into_iter();
    shorter.map(|bytes| hex(&bytes).into_bytes()).collect()
}

/// A figures sheet keeps its size: fewer rows are leases', and fewer figures are told.
fn emptier_sheets(rows: &[Row]) -> Vec<Vec<u8>> {
    let empty = Row::untold(Prefix::default());
    let used: Vec<usize> = (0..rows.len()).filter(|at| rows[*at] != empty).collect();
    let mut found = Vec::new();
    let places: Vec<usize> = (0..=used.len()).collect();
    for (start, end) in stretches(&places) {
        let mut fewer = rows.to_vec();
        for at in &used[start..end] {
            fewer[*at] = empty;
        }
        found.push(fewer);
    }
    for at in used {
        for untell in [
            (|row| row.high_water = UNTOLD) as fn(&mut Row),
            |row| row.in_use = UNTOLD,
            |row| row.unusable = UNTOLD,
        ] {
            let mut fewer = rows.to_vec();
            untell(&mut fewer[at]);
            found.push(fewer);
        }
    }
    let bytes = |rows: Vec<Row>| {
        let mut sheet = vec![0; SHEET];
        put_rows(&rows, &mut sheet);
        sheet
    };
    found.into_iter().map(bytes).collect()
}

/// Counts keep their size: fewer of them are not 0, or one is 1.
fn fewer_counts(counts: &Counts) -> Vec<Vec<u8>> {
    let lengths = counts[0].len();
    let used: Vec<usize> = (0..counts.len() * lengths)
        .filter(|at| counts[at / lengths][at % lengths] != 0)
        .collect();
    let mut found = Vec::new();
    let places: Vec<usize> = (0..=used.len()).collect();
    for (start, end) in stretches(&places) {
        let mut fewer = *counts;
        for at in &used[start..end] {
            fewer[at / lengths][at % lengths] = 0;
        }
        found.push(fewer);
    }
    for at in used {
        let mut fewer = *counts;
        fewer[at / lengths][at % lengths] = 1;
        found.push(fewer);
    }
    found.iter().map(bytes_of).collect()
}

/// An option with fewer suboptions or entries, an image with fewer records, or any
/// bytes cut.
fn shorter_bytes(bytes: &[u8]) -> Vec<Vec<u8>> {
    let mut found = Vec::new();
    if bytes.starts_with(&[11, 0, 1, 0]) {
        for (start, end) in stretches(&record_places(bytes)) {
            found.push(without(bytes, start, end.min(bytes.len())));
        }
    } else if bytes.len() > 3 {
        found.extend(shorter_options(bytes));
    }
    found.push(bytes[..bytes.len() / 2].to_vec());
    found.push(bytes[..bytes.len() - 1].to_vec());
    found
}

fn without(bytes: &[u8], start: usize, end: usize) -> Vec<u8> {
    [&bytes[..start], &bytes[end..]].concat()
}

/// From one of these places to another: half of them at once, a quarter, down to each
/// by itself.
fn stretches(places: &[usize]) -> Vec<(usize, usize)> {
    let pieces = places.len().saturating_sub(1);
    let mut found = Vec::new();
    let mut count = pieces.div_ceil(2);
    while count > 0 {
        for first in (0..pieces).step_by(count) {
            found.push((places[first], places[(first + count).min(pieces)]));
        }
        count /= 2;
    }
    found
}

/// Len falls with what is left out, so it stays as right or wrong as it was.
fn shorter_options(option: &[u8]) -> Vec<Vec<u8>> {
    let mut found = Vec::new();
    let mut places = suboption_places(option);
    places.push(option.len());
    for (start, end) in stretches(&places) {
        let end = end.min(option.len());
        let mut shorter = without(option, start, end);
        shorter[1] = shorter[1].wrapping_sub((end - start) as u8);
        found.push(shorter);
    }
    for ends in places.windows(2).filter(|ends| option[ends[0]] == 2) {
        let (start, end) = (ends[0], ends[1].min(option.len()));
        for (first, after) in entry_cuts(option, start, end) {
            let mut shorter = without(option, first, after);
            let less = (after - first) as u8;
            shorter[1] = shorter[1].wrapping_sub(less);
            shorter[start + 1] = shorter[start + 1].wrapping_sub(less);
            found.push(shorter);
        }
    }
    found
}

/// What can be left out of an information: stretches of its entries.
fn entry_cuts(option: &[u8], start: usize, end: usize) -> Vec<(usize, usize)> {
    let mut places = entry_places(option, start);
    places.push(end);
    stretches(&places)
        .into_iter()
        .filter(|(first, after)| first < after)
        .collect()
}

#[cfg(test)]
mod tests {
    use super::*;
    use crate::bytes::{entry, information, option, request, suboption};
    use crate::script::{lines_of, Script, Step};
    use reference::option::{read220, Suboption};
    use reference::prefix::prefix;

    #[test]
    fn lines_are_left_out() {
        let text: String = (100..400).map(|line| format!("line {line} x\n")).collect();
        let has = |lines: &[Vec<u8>], part: &str| {
            let text = String::from_utf8_lossy(&lines.concat()).into_owned();
            text.lines().any(|line| line.starts_with(part))
        };
        let short = shrink(lines_of(text.as_bytes()), &mut |lines| {
            has(lines, "line 117") && has(lines, "line 250")
        });
        assert_eq!(short.concat(), b"line 117\nline 250\n");
    }

    #[test]
    fn options_and_numbers_are_shortened() {
        let entries = [24, 25, 26].map(|length| entry(prefix(0x0a00_0000, length), 0, &[]));
        let long = option(
            0,
            &[
                request(0, 24),
                suboption(9, &[1, 2]),
                information(3, &entries),
            ],
        );
        let script = format!("open 3600 28\nask 4000 {}\n", hex(&long));
        let short = shrink(lines_of(script.as_bytes()), &mut |lines| {
            lines.iter().any(|line| {
                let word = line.strip_suffix(b"\n").unwrap_or(line);
                let bytes = from_hex(word.rsplit(|byte| *byte == b' ').next().unwrap());
                let Ok(list) = read220(&bytes.unwrap_or_default()) else {
                    return false;
                };
                list.iter().any(|suboption| match suboption {
                    Suboption::Information(found) => found.entries.iter().any(|e| e.prefix == 25),
                    _ => false,
                })
            })
        });
        assert_eq!(short.concat(), b"dc0b000208030a000000190000\n");
    }

    #[test]
    fn written_lists_are_shortened() {
        let line = "write request h=0 i=0 prefix=24 information c=1 s=1 \
                    entry 10.0.0.0/24 h=1 d=0 figures=4 entry 10.0.1.0/24 h=1 d=1 figures=7,8,9 \
                    name 616263 request h=1 i=1 prefix=30\n";
        let short = shrink(lines_of(line.as_bytes()), &mut |lines| {
            let script = Script::of_lines(lines);
            let accepted = |step: &Step| step.answer.starts_with("ok bytes=");
            let told = |step: &Step| !String::from_utf8_lossy(&step.line).contains("figures=-");
            script
                .steps
                .iter()
                .any(|step| accepted(step) && told(step) && step.words().contains(&&b"entry"[..]))
        });
        assert_eq!(
            String::from_utf8_lossy(&short.concat()),
            "write information c=0 s=0 entry 10.0.1.0/24 h=0 d=0 figures=0\n"
        );
    }

    #[test]
    fn a_simpler_line_is_another_line() {
        for line in [
            "\n",
            "",
            " \n",
            "save\n",
            "ask 0 0 -\n",
            "read dc\n",
            "read 00\n",
            "write request h=1 i=0 prefix=24\n",
            "write a= =b = figures=1,2 ,\n",
        ] {
            for simpler in simpler(line.as_bytes()) {
                assert_ne!(simpler, line.as_bytes());
            }
        }
    }

    #[test]
    fn sheets_are_emptied() {
        let mut rows = vec![Row::untold(Prefix::default()); 1_024];
        for (place, row) in rows.iter_mut().enumerate().take(9) {
            row.prefix = prefix(0x0a00_0000 + 4 * place as u32, 30);
            (row.high_water, row.in_use) = (place as u16, 7);
        }
        let mut sheet = vec![0; SHEET];
        put_rows(&rows, &mut sheet);
        let line = format!("figures {}\n", hex(&sheet));
        let short = shrink(lines_of(line.as_bytes()), &mut |lines| {
            let bytes = lines.concat();
            let words: Vec<&[u8]> = bytes.trim_ascii_end().split(|b| *b == b' ').collect();
            let sheet = words.get(1).and_then(|word| from_hex(word));
            let rows = sheet.and_then(|sheet| rows_of(&sheet)).unwrap_or_default();
            rows.iter().any(|row| row.high_water == 3)
        });
        let mut one = vec![Row::untold(Prefix::default()); 1_024];
        one[3] = Row {
            high_water: 3,
            ..Row::untold(prefix(0x0a00_000c, 30))
        };
        put_rows(&one, &mut sheet);
        assert_eq!(
            short.concat(),
            format!("figures {}\n", hex(&sheet)).as_bytes()
        );
    }

    #[test]
    fn counts_become_fewer() {
        let mut counts = [[7; 23]; 8];
        counts[3][4] = 9;
        let line = format!("counts {}\n", hex(&bytes_of(&counts)));
        let short = shrink(lines_of(line.as_bytes()), &mut |lines| {
            let bytes = lines.concat();
            let words: Vec<&[u8]> = bytes.trim_ascii_end().split(|b| *b == b' ').collect();
            let given = words.get(1).and_then(|word| from_hex(word));
            let counts = given.and_then(|given| of_bytes(&given));
            counts.is_some_and(|counts| counts[3][4] != 0)
        });
        let mut one = [[0; 23]; 8];
        one[3][4] = 1;
        let line = format!("counts {}\n", hex(&bytes_of(&one)));
        assert_eq!(short.concat(), line.as_bytes());
    }

    #[test]
    fn records_are_left_out_of_images() {
        let image = [
            &[11, 0, 1, 0, 1, 1, 1, 1, 1, 1, 1, 1, 1][..],
            &[7, 0, 2, 0, 2, 2, 2, 2, 2],
            &[7, 0, 2, 0, 3, 3, 3, 3, 3],
        ]
        .concat();
        let shorter = shorter_bytes(&image);
        assert!(shorter.contains(&without(&image, 13, 22)));
        assert!(shorter.contains(&without(&image, 22, 31)));
    }
}
