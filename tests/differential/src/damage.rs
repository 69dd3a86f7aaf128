//! Damage to good options, images, figures sheets, counts and lines.

use reference::counts::{Counts, LENGTHS};
use reference::figures::Row;
use reference::numbers::Numbers;
use reference::prefix::Prefix;
use reference::table::{LATEST, LONGEST_TERM, SHORTEST_TERM};

use crate::bytes::{fit_len, record_places, suboption_places};

/// Bytes at which some rule turns.
const EDGES: [u8; 17] = [0, 1, 2, 3, 4, 6, 7, 8, 9, 29, 30, 31, 32, 33, 127, 254, 255];

/// One change of any kind.
pub fn damage(numbers: &mut Numbers, bytes: &mut Vec<u8>) {
    if bytes.is_empty() {
        bytes.push(numbers.draw() as u8);
        return;
    }
    let at = numbers.below(bytes.len());
    match numbers.below(10) {
        0 | 1 => bytes[at] ^= 1 << numbers.below(8),
        2 | 3 => bytes[at] = EDGES[numbers.below(EDGES.len())],
        4 => bytes[at] = bytes[at].wrapping_add(if numbers.once_in(2) { 1 } else { 255 }),
        5 => bytes.truncate(at),
        6 => bytes.extend((0..numbers.between(1, 8)).map(|_| numbers.draw() as u8)),
        7 => {
            bytes.remove(at);
        }
        8 => bytes.insert(at, EDGES[numbers.below(EDGES.len())]),
        _ => {
            let other = numbers.below(bytes.len());
            bytes.swap(at, other);
        }
    }
}

/// An option: half the time Len is made to fit afterwards, so that the damage is
/// inside.
pub fn damage_option(numbers: &mut Numbers, option: &mut Vec<u8>) {
    let fit = match numbers.below(16) {
        0 => return damage_head(numbers, option),
        1 => return lengthen(numbers, option),
        2 | 3 => {
            damage_suboption_len(numbers, option);
            false
        }
        4 => {
            repeat_suboption(numbers, option);
            true
        }
        _ => {
            damage(numbers, option);
            numbers.once_in(2)
        }
    };
    if fit {
        fit_len(option);
    }
}

/// Code, Len, or everything but the first bytes.
fn damage_head(numbers: &mut Numbers, option: &mut Vec<u8>) {
    match numbers.below(4) {
        0 => option.truncate(numbers.below(5)),
        1 => {
            option.truncate(numbers.between(2, 5));
            fit_len(option);
        }
        2 if !option.is_empty() => option[0] = [118, 219, 221, 0, 82][numbers.below(5)],
        _ if option.len() > 1 => {
            option[1] = option[1].wrapping_add([1, 2, 3, 253, 254, 255][numbers.below(6)]);
        }
        _ => option.clear(),
    }
}

/// Up to 600 bytes, now and then just at the longest that Len can tell.
fn lengthen(numbers: &mut Numbers, option: &mut Vec<u8>) {
    let length = [255, 256, 257, 258, 259, 513, numbers.between(200, 600)][numbers.below(7)];
    let filler = numbers.below(3) as u8;
    while option.len() < length {
        option.push(if filler == 0 {
            numbers.draw() as u8
        } else {
            filler - 1
        });
    }
    fit_len(option);
}

fn damage_suboption_len(numbers: &mut Numbers, option: &mut [u8]) {
    let places = suboption_places(option);
    if !places.is_empty() {
        let len = places[numbers.below(places.len())] + 1;
        option[len] = match numbers.below(3) {
            0 => option[len].wrapping_add(1),
            1 => option[len].wrapping_sub(1),
            _ => EDGES[numbers.below(EDGES.len())],
        };
    }
}

/// A suboption once more, at the end.
fn repeat_suboption(numbers: &mut Numbers, option: &mut Vec<u8>) {
    let mut places = suboption_places(option);
    places.push(option.len());
    let index = numbers.below(places.len());
    if index + 1 < places.len() && places[index + 1] <= option.len() {
        option.extend_from_within(places[index]..places[index + 1]);
    }
}

/// An image: anywhere, in a field, whole records, or records of the other form.
pub fn damage_image(numbers: &mut Numbers, image: &mut Vec<u8>) {
    match numbers.below(12) {
        0..=2 => damage(numbers, image),
        3..=6 => damage_field(numbers, image),
        7 => damage_name(numbers, image),
        8 => mix_forms(numbers, image),
        _ => damage_records(numbers, image),
    }
}

/// A name of a lease of the second form: its length, its last octet, one after it. Now and
/// then it is still a good one.
fn damage_name(numbers: &mut Numbers, image: &mut [u8]) {
    let places = record_places(image);
    let named: Vec<usize> = places
        .into_iter()
        .filter(|place| *place + 44 <= image.len() && image[*place + 2] == 4)
        .collect();
    if named.is_empty() {
        return;
    }
    let name = named[numbers.below(named.len())] + 19;
    let length = usize::from(image[name]).min(24);
    match numbers.below(8) {
        0 => image[name] = 25,
        1 => image[name] = EDGES[numbers.below(EDGES.len())],
        2 => image[name] = image[name].wrapping_add(1),
        3 => image[name] = image[name].wrapping_sub(1),
        4 if length > 0 => image[name + length] = 0,
        5 if length < 24 => image[name + 1 + length] = 1,
        6 => image[name + 1 + numbers.below(24)] ^= 1 << numbers.below(8),
        _ => image[name + 24] = [0, 1, 0x80][numbers.below(3)],
    }
}

/// A head of one form with leases of the other, or a lease of the other form among the rest.
fn mix_forms(numbers: &mut Numbers, image: &mut Vec<u8>) {
    let places = record_places(image);
    let leases: Vec<usize> = places
        .windows(2)
        .map(|ends| ends[0])
        .filter(|place| [3, 4].contains(&image[*place + 2]))
        .collect();
    if leases.is_empty() || numbers.once_in(3) {
        if image.len() > 2 {
            image[2] = if image[2] == 1 { 5 } else { 1 };
        }
        return;
    }
    // From one lease on to another; all of them with the head untouched now and then.
    let first = if numbers.once_in(2) {
        0
    } else {
        numbers.below(leases.len())
    };
    let count = [1, leases.len()][numbers.below(2)];
    for place in leases[first..].iter().take(count).rev() {
        let length = 2 + usize::from(image[*place]);
        let end = (*place + length).min(image.len());
        if end < *place + 4 {
            continue;
        }
        let mut record = image[*place..end].to_vec();
        let (kind, size) = if record[2] == 3 { (4, 44) } else { (3, 19) };
        record.resize(size, 0);
        (record[0], record[1], record[2]) = (size as u8 - 2, 0, kind);
        image.splice(*place..end, record);
    }
}

/// A field of some record becomes a value at which a rule turns, or another record's.
fn damage_field(numbers: &mut Numbers, image: &mut [u8]) {
    let places = record_places(image);
    let record = places[numbers.below(places.len())];
    if record + 4 > image.len() {
        return;
    }
    let (at, width) = field(numbers, image[record + 2]);
    let at = record + at;
    if at + width > image.len() {
        return;
    }
    if width < 4 {
        image[at] = match numbers.below(3) {
            0 => image[at].wrapping_add(1),
            1 => image[at].wrapping_sub(1),
            _ => EDGES[numbers.below(EDGES.len())],
        };
        return;
    }
    let number = |at: usize| {
        let bytes = image.get(at..at + 4);
        bytes.map_or(0, |b| u32::from_le_bytes([b[0], b[1], b[2], b[3]]))
    };
    let other = number(places[numbers.below(places.len())] + 4);
    let last_time = number(9);
    let values = [
        0,
        1,
        number(at).wrapping_add(1),
        number(at).wrapping_sub(1),
        number(at) ^ (1 << numbers.below(32)),
        other,
        last_time,
        last_time.wrapping_add(1),
        SHORTEST_TERM,
        LONGEST_TERM,
        LATEST,
        LATEST + 1,
        u32::MAX,
    ];
    let value = values[numbers.below(values.len())];
    image[at..at + 4].copy_from_slice(&value.to_le_bytes());
}

/// Place and width of a field of a record of this kind.
fn field(numbers: &mut Numbers, kind: u8) -> (usize, usize) {
    let fields: &[(usize, usize)] = match kind {
        1 | 5 => &[(4, 4), (8, 1), (9, 4)],
        2 => &[(4, 4), (8, 1)],
        4 => &[
            (4, 4),
            (8, 1),
            (9, 1),
            (10, 1),
            (11, 4),
            (15, 4),
            (19, 1),
            (20, 1),
            (43, 1),
        ],
        _ => &[(4, 4), (8, 1), (9, 1), (10, 1), (11, 4), (15, 4)],
    };
    match numbers.below(10) {
        0 => (numbers.below(2), 1),
        1 => (2 + numbers.below(2), 1),
        _ => fields[numbers.below(fields.len())],
    }
}

/// Records exchanged, moved, left out, said twice, resized, cut off.
fn damage_records(numbers: &mut Numbers, image: &mut Vec<u8>) {
    let places = record_places(image);
    let mut records: Vec<Vec<u8>> = places
        .windows(2)
        .map(|ends| image[ends[0].min(image.len())..ends[1].min(image.len())].to_vec())
        .collect();
    if records.is_empty() {
        return;
    }
    let one = numbers.below(records.len());
    match numbers.below(9) {
        0..=4 => damage_order(numbers, &mut records),
        5 => records.push(records[one].clone()),
        6 | 7 => resize_record(numbers, &mut records[one]),
        _ => records.truncate(one),
    }
    *image = records.concat();
}

/// A body longer or shorter by a few bytes, with the record's length to fit.
fn resize_record(numbers: &mut Numbers, record: &mut Vec<u8>) {
    if record.len() < 4 {
        return;
    }
    let length = numbers.between(record.len() - 4, record.len() + 2).max(4);
    record.resize(length, 0);
    record[..2].copy_from_slice(&(length as u16 - 2).to_le_bytes());
}

/// Rows of a figures sheet, of which the first so many are leases': a field of one, or
/// whole rows. Now and then they still match.
pub fn damage_rows(numbers: &mut Numbers, rows: &mut [Row], leases: usize) {
    // Mostly among the leases, at the first empty line or at the last.
    let place = |numbers: &mut Numbers| match numbers.below(6) {
        0 => leases.min(rows.len() - 1),
        1 => rows.len() - 1,
        2 => numbers.below(rows.len()),
        _ => numbers.below(leases.max(1)),
    };
    let (one, other) = (place(numbers), place(numbers));
    let figure = [0, 1, 0x7fff, 0xfffe, 0x00ff][numbers.below(5)];
    match numbers.below(12) {
        0 | 1 => rows[one].prefix.network ^= 1 << numbers.below(32),
        2 | 3 => rows[one].prefix.length ^= 1 << numbers.below(8),
        4 => rows[one].high_water = figure,
        5 => rows[one].in_use = figure,
        6 => rows[one].unusable = figure,
        7 => rows.swap(one, other),
        8 => rows[one] = rows[other],
        9 => rows[one] = Row::untold(Prefix::default()),
        // A row left out, or one too many.
        10 => rows[one..].rotate_left(1),
        _ => rows[one..].rotate_right(1),
    }
}

/// Counts of which the first so many rows are pools': one by one too many or too few, a row or
/// a count in another place, or any. Now and then they are still the right ones.
pub fn damage_counts(numbers: &mut Numbers, counts: &mut Counts, pools: usize) {
    let place = |numbers: &mut Numbers| match numbers.below(4) {
        0 => numbers.below(counts.len()),
        1 => pools.min(counts.len() - 1),
        _ => numbers.below(pools.max(1)),
    };
    let (one, other) = (place(numbers), place(numbers));
    let (column, next) = (numbers.below(LENGTHS), numbers.below(LENGTHS));
    let count = counts[one][column];
    match numbers.below(14) {
        0..=3 => counts[one][column] = count.wrapping_add(1),
        4 | 5 => counts[one][column] = count.wrapping_sub(1),
        6 => counts[one][column] = count ^ (1 << numbers.below(16)),
        7 | 8 => counts.swap(one, other),
        9 => counts[one] = counts[other],
        10 => counts[one].swap(column, next),
        11 => counts[one].rotate_right(1),
        // The same sum, in another row.
        12 => {
            counts[one][column] = 0;
            counts[other][column] = counts[other][column].wrapping_add(count);
        }
        _ => counts[one] = [0; LENGTHS],
    }
}

/// A line of a script: words, spaces, or any byte, but never a newline.
pub fn damage_line(numbers: &mut Numbers, line: &mut Vec<u8>) {
    let at = numbers.below(line.len() + 1);
    match numbers.below(8) {
        0 => line.insert(at, b' '),
        1 => line.push(b'\r'),
        2 => line.insert(at, b'0'),
        3 => line.truncate(at),
        4 => line.extend([b" 0", b" -", b" #", b" 1"][numbers.below(4)]),
        5 if at < line.len() => line[at] = line[at].to_ascii_uppercase(),
        6 => line.insert(at, b"\t\r.-/#xg9"[numbers.below(9)]),
        _ => damage(numbers, line),
    }
    for byte in line {
        if *byte == b'\n' {
            *byte = b'\x0b';
        }
    }
}

/// Words at which some rule of a `write` line turns; those with `=` are put in place of
/// others with the same name.
const WORDS: &str = "request information entry name unknown address ok - 61 00 6 DC 6g h=0 h=1 \
    h=2 h=01 h= i=0 i=1 i=2 c=0 c=1 c=- s=0 s=1 s=10 d=0 d=1 d= prefix=0 prefix=030 prefix=31 \
    prefix=255 prefix=256 prefix= 10.0.1.0/24 10.0.1.0/24/24 10.0.1.0/031 10.0.1.0/256 10.0.1.0 \
    10.0.1.1/24 10.0.1/24 0.0.0.0/0 figures=- figures= figures=0 figures=1,2,3 figures=1,2,3,4 \
    figures=0,0,0,0 figures=1,2,3,4,5 figures=65535 figures=65536 figures=007,1 figures=1, \
    figures=,1 figures=1,,2 figures=-,1";

/// The words that begin a suboption or an entry.
const FIRST_WORDS: [&[u8]; 6] = [
    b"request",
    b"information",
    b"entry",
    b"name",
    b"unknown",
    b"address",
];

/// A `write` line: words or whole pieces left out, said twice, exchanged, or words in
/// place of others.
pub fn damage_words(numbers: &mut Numbers, line: &mut Vec<u8>) {
    let mut words: Vec<&[u8]> = line.split(|byte| *byte == b' ').collect();
    let at = numbers.below(words.len());
    let mut edges: Vec<&[u8]> = WORDS.split_whitespace().map(str::as_bytes).collect();
    match numbers.below(8) {
        0 => {
            words.remove(at);
        }
        1 => words.insert(at, edges[numbers.below(edges.len())]),
        2 => words.truncate(at + 1),
        3 => damage_order(numbers, &mut words),
        4 | 5 => {
            let is_first = |word: &&[u8]| FIRST_WORDS.contains(word);
            let mut pieces: Vec<Vec<&[u8]>> = Vec::new();
            for word in words {
                match pieces.last_mut() {
                    Some(piece) if !is_first(&word) => piece.push(word),
                    _ => pieces.push(vec![word]),
                }
            }
            damage_order(numbers, &mut pieces);
            words = pieces.concat();
        }
        _ => {
            let name = |word: &[u8]| word.iter().position(|byte| *byte == b'=');
            let named = name(words[at]).map(|end| words[at][..=end].to_vec());
            if let Some(named) = named {
                edges.retain(|edge| edge.starts_with(&named));
            }
            if !edges.is_empty() {
                words[at] = edges[numbers.below(edges.len())];
            }
        }
    }
    *line = words.join(&b' ');
}

/// One item left out, said again elsewhere, moved, or exchanged with another.
fn damage_order<T: Clone>(numbers: &mut Numbers, items: &mut Vec<T>) {
    let (one, other) = (numbers.below(items.len()), numbers.below(items.len()));
    match numbers.below(4) {
        0 => {
            items.remove(one);
        }
        1 => items.insert(other, items[one].clone()),
        2 => {
            let moved = items.remove(one);
            items.insert(other, moved);
        }
        _ => items.swap(one, other),
    }
}

#[cfg(test)]
mod tests {
    use super::*;
    use crate::bytes::{option, request};

    #[test]
    fn options_are_damaged_in_many_ways() {
        let mut numbers = Numbers::new(1);
        let good = option(0, &[request(0, 24), request(1, 25)]);
        let mut seen = std::collections::BTreeSet::new();
        for _ in 0..2_000 {
            let mut bytes = good.clone();
            damage_option(&mut numbers, &mut bytes);
            assert!(bytes.len() <= 610);
            seen.insert(bytes);
        }
        assert!(seen.len() > 500, "{}", seen.len());
    }

    #[test]
    fn write_lines_are_damaged_in_many_ways() {
        let mut numbers = Numbers::new(3);
        let good = b"write information c=0 s=0 entry 10.0.1.0/24 h=0 d=1 figures=1,2 name 61";
        let mut seen = std::collections::BTreeSet::new();
        for _ in 0..5_000 {
            let mut line = good.to_vec();
            damage_words(&mut numbers, &mut line);
            seen.insert(String::from_utf8_lossy(&line).into_owned());
        }
        assert!(seen.len() > 500, "{}", seen.len());
        for line in [
            "write information c=0 s=0 entry 10.0.1.0/24 h=0 d=1 figures= name 61",
            "write information c=0 s=0 entry 10.0.1.0/24 h=0 d=1 figures=1,2,3,4 name 61",
            "write information c=0 s=0 name 61 entry 10.0.1.0/24 h=0 d=1 figures=1,2",
            "write entry 10.0.1.0/24 h=0 d=1 figures=1,2 name 61",
            "write information c=0 s=0 name 61",
        ] {
            assert!(seen.contains(line), "{line}");
        }
    }

    #[test]
    fn rows_are_damaged_in_many_ways() {
        let mut numbers = Numbers::new(4);
        for leases in [0, 1, 7, 256] {
            let mut seen = std::collections::BTreeSet::new();
            for _ in 0..2_000 {
                let mut rows: Vec<Row> = (0..256)
                    .map(|place| Prefix {
                        network: if place < leases { 1 + place } else { 0 },
                        length: 0,
                    })
                    .map(Row::untold)
                    .collect();
                damage_rows(&mut numbers, &mut rows, leases as usize);
                assert_eq!(rows.len(), 256);
                seen.insert(format!("{rows:?}"));
            }
            assert!(seen.len() > 100, "{leases}: {}", seen.len());
        }
    }

    #[test]
    fn counts_are_damaged_in_many_ways() {
        let mut numbers = Numbers::new(5);
        for pools in [0, 1, 5, 8] {
            let mut good = [[0; LENGTHS]; 8];
            for (index, row) in good.iter_mut().enumerate().take(pools) {
                row[index] = 2;
            }
            let mut seen = std::collections::BTreeSet::new();
            for _ in 0..40_000 {
                let mut counts = good;
                damage_counts(&mut numbers, &mut counts, pools);
                seen.insert(counts);
            }
            for place in 0..8 {
                for column in 0..LENGTHS {
                    let mut wrong = good;
                    wrong[place][column] += 1;
                    assert!(seen.contains(&wrong), "{pools}: {place} {column}");
                }
            }
        }
    }

    #[test]
    fn damage_to_anything_ends() {
        let mut numbers = Numbers::new(2);
        for length in 0..60 {
            for _ in 0..200 {
                let mut bytes: Vec<u8> = (0..length).map(|_| numbers.below(6) as u8).collect();
                damage_image(&mut numbers, &mut bytes);
                damage_option(&mut numbers, &mut bytes);
                damage_line(&mut numbers, &mut bytes);
                damage_words(&mut numbers, &mut bytes);
                assert!(!bytes.contains(&b'\n'));
            }
        }
    }
}
