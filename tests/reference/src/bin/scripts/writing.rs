//! Scripts for the writer. What can be known of an answer beforehand is held to here.

use reference::numbers::Numbers;
use reference::option::Suboption;
use reference::prefix::prefix;
use reference::samples::{information, option, request, request_i, TEN};
use reference::suboptions::text_of;

use crate::{random_option, random_suboption, rich_option, Script};

/// A list as the words of one line.
fn words(list: &[Suboption]) -> String {
    text_of(list).trim_end().replace('\n', " ")
}

/// The hexadecimal digits of an accepted answer.
fn digits(answer: &str) -> Option<&str> {
    Some(
        answer
            .strip_prefix("ok bytes=")?
            .trim_end()
            .split_once(' ')?
            .1,
    )
}

/// Writes a list and reads what was written: it must be the same list.
fn write(script: &mut Script, list: &[Suboption]) -> String {
    let answer = script.say(&format!("write {}", words(list)));
    if let Some(digits) = digits(&answer) {
        let read = script.say(&format!("read {digits}"));
        assert_eq!(read, format!("{}ok\n", text_of(list)));
    }
    answer
}

/// Reads an option and, if it is accepted, writes what was printed.
fn read_and_write(script: &mut Script, digits: &str) -> Option<String> {
    let read = script.say(&format!("read {digits}"));
    let text = read.strip_suffix("ok\n")?;
    Some(script.say(&format!("write {}", text.trim_end().replace('\n', " "))))
}

/// The options of a file of them, a `#` line above each.
pub fn rfc6656_options(options: &str) -> String {
    let mut script = Script::new(
        "Every option of RFC 6656, section 8, read, and written from what was printed: the same bytes.",
    );
    for line in options.lines().filter(|line| !line.starts_with('#')) {
        let hex = line.replace(' ', "");
        let answer = read_and_write(&mut script, &hex);
        let same = format!("ok bytes={} {hex}\n", hex.len() / 2);
        assert_eq!(answer, Some(same));
    }
    script.text
}

fn name(octets: usize) -> Suboption {
    Suboption::Name(vec![0x61; octets])
}

/// An information of so many entries, with so many figures in all.
fn entries(count: usize, mut figures: usize) -> Suboption {
    let mut suboption = information(false, false, &vec![prefix(TEN, 30); count]);
    if let Suboption::Information(information) = &mut suboption {
        for (index, entry) in information.entries.iter_mut().enumerate() {
            entry.network += 4 * index as u32;
            let told = figures.min(3);
            entry.figures = (0..told).map(|figure| 1_000 * figure as u16).collect();
            figures -= told;
        }
    }
    suboption
}

pub fn lengths() -> String {
    let mut script = Script::new("The writer and Len: 255 is written, 256 and more get 14.");
    script.say("buffer 1024");
    script.remark(
        "A name of 1 octet, and of 249 to 257: Len 252 to 259, and past the limit of a line.",
    );
    for octets in [1, 2].into_iter().chain(249..=257) {
        write(&mut script, &[name(octets)]);
    }
    script.remark("62 to 64 requests: Len 249, 253, 257; 96, and past the limit of a line.");
    for count in [62, 63, 64, 95, 96, 97, 98] {
        write(&mut script, &vec![request(24, false); count]);
    }
    script.remark("34 to 37 entries in one information: 35 have Len 249, 36 have 256; 64, and past the limit.");
    for count in [34, 35, 36, 37, 63, 64, 65, 66] {
        write(&mut script, &[entries(count, 0)]);
    }
    script.remark(
        "One entry in each information: 25 have Len 251, 26 have 261; 64, and past the limit.",
    );
    for count in [24, 25, 26, 63, 64, 65] {
        write(&mut script, &vec![entries(1, 0); count]);
    }
    script.remark("35 entries and 1 to 4 figures: Len 251, 253, 255, 257. 18 entries with all figures: Len 238.");
    for figures in 1..=4 {
        write(&mut script, &[entries(35, figures)]);
    }
    for count in [18, 19, 20] {
        write(&mut script, &[entries(count, 3 * count)]);
    }
    script.remark("Pieces of every kind that make Len 254 to 257 together.");
    for count in [0, 1, 7, 20, 61] {
        let requests = vec![request_i(); count];
        for len in 254..=257 {
            let mut list = requests.clone();
            list.push(name(len - 3 - 4 * count));
            write(&mut script, &list);
        }
    }
    for len in 254..=257 {
        let before = 1 + 4 + 10 + (3 + 10 * 7);
        let list = [
            request(30, true),
            entries(1, 0),
            entries(10, 0),
            name(len - before - 2),
        ];
        write(&mut script, &list);
    }
    script
        .remark("Names together: 256 octets are read as a line, 257 are not; names of one octet.");
    for pair in [
        [1, 255],
        [128, 128],
        [128, 129],
        [256, 1],
        [124, 126],
        [125, 126],
    ] {
        write(&mut script, &pair.map(name));
    }
    for count in [83, 84, 85, 96, 97] {
        write(&mut script, &vec![name(1); count]);
    }
    script.remark("Entries together: 64 in three informations, and 65.");
    for last in [3, 4, 5] {
        write(
            &mut script,
            &[entries(30, 0), entries(30, 0), entries(last, 0)],
        );
    }
    script
        .remark("13 before 14, up to the limits of a line; past them it is an error all the same.");
    for bad in [
        Suboption::Unknown,
        request(31, false),
        name(0),
        entries(0, 0),
    ] {
        for long in [
            vec![request(24, false); 64],
            vec![request(24, false); 95],
            vec![request(24, false); 96],
            vec![name(256)],
            vec![name(257)],
            vec![entries(64, 0)],
            vec![entries(65, 0)],
        ] {
            let bad = std::slice::from_ref(&bad);
            write(&mut script, &[&long[..], bad].concat());
            write(&mut script, &[bad, &long[..]].concat());
        }
    }
    script.remark("A line past a limit that has a bad word too.");
    for (list, count) in [(name(1), 97), (entries(65, 0), 1), (name(257), 1)] {
        let line = words(&vec![list; count]);
        script.say(&format!("write {line} x"));
        script.say(&format!("write x {line}"));
    }
    script.say("write request h=0 i=0 prefix=24");
    script.text
}

pub fn buffers() -> String {
    let mut script = Script::new("The writer and its buffer: exactly Len + 2 bytes suffice.");
    let rich = [
        request(24, true),
        entries(3, 5),
        Suboption::Name(b"west".to_vec()),
        request_i(),
    ];
    for list in [
        &[request(24, false)][..],
        &[name(1)],
        &[entries(1, 0)],
        &[entries(1, 3)],
        &rich,
        &[entries(35, 0)],
        &vec![request(30, true); 63],
        &[name(251)],
        &[name(252)],
        &[name(253)],
    ] {
        let bytes = option(list).len();
        script.remark(&format!("{bytes} bytes (0: Len is above 255)"));
        let mut lengths = vec![0, 1, 2, 3, 256, 257, 258, 1_024];
        lengths.extend([bytes.max(1) - 1, bytes, bytes + 1]);
        lengths.sort();
        lengths.dedup();
        for length in lengths {
            script.say(&format!("buffer {length}"));
            let answer = write(&mut script, list);
            assert_eq!(answer != "refused 14\n", bytes > 0 && length >= bytes);
        }
    }
    script.remark(
        "A short buffer is no matter of the other commands, and stays short for the calls.",
    );
    script.say("buffer 13");
    script.say("open 3600 28 1000 10.0.1.0/24");
    write(&mut script, &[entries(1, 0)]);
    script.say("ask 7 1000 dc05000102001a");
    script.say("buffer 257");
    script.say("ask 7 1000 dc05000102001a");
    write(&mut script, &[name(252)]);
    script.say("ask 8 1000 dc05000102001a");
    script.say("save");
    script.text
}

pub fn random_options() -> String {
    let mut script = Script::new("Random lists written and read back.");
    let mut numbers = Numbers::new(51);
    for _ in 0..400 {
        let mut list: Vec<Suboption> = (0..numbers.between(1, 6))
            .map(|_| random_suboption(&mut numbers))
            .collect();
        if numbers.once_in(8) {
            let at = numbers.below(list.len());
            list[at] = match numbers.below(4) {
                0 => Suboption::Unknown,
                1 => request(numbers.between(31, 255) as u8, false),
                2 => Suboption::Name(vec![0x61, 0]),
                _ => information(
                    false,
                    true,
                    &[prefix(TEN + 4, numbers.between(0, 40) as u8)],
                ),
            };
        }
        if numbers.once_in(8) {
            let bytes = option(&list).len();
            let length = (bytes + 1).saturating_sub(numbers.below(3));
            script.say(&format!("buffer {length}"));
            write(&mut script, &list);
            script.say("buffer 257");
        } else {
            write(&mut script, &list);
        }
    }
    script.text
}

pub fn what_is_read() -> String {
    let mut script = Script::new(
        "Options read, and written from what was printed: not the same where a suboption is unknown, a bit ignored or a figure past the third.",
    );
    read_and_write(&mut script, &crate::hex(&rich_option()));
    for digits in [
        // Ignored bits, a fourth figure, unknown ones, and none of these.
        "dc05ff01020018",
        "dc05000102fc18",
        "dc0b000208fc0a000100180000",
        "dc0b000208000a00010018fc00",
        "dc1300021000 0a000100180008 0001000200030004",
        "dc1100020e00 0a000100180006 000100020003",
        "dc03000900",
        "dc0700090001020018",
        "dc0700010200180900",
        "dc050001020318",
        "dc0b000208030a000100180300",
    ] {
        read_and_write(&mut script, &digits.replace(' ', ""));
    }
    let mut numbers = Numbers::new(52);
    for _ in 0..500 {
        let bytes = random_option(&mut numbers);
        read_and_write(&mut script, &crate::hex(&bytes));
    }
    script.text
}

/// Words of `write` in any order, and lines with a byte or a word changed.
pub fn any_words() -> Vec<u8> {
    const WORDS: &str = "request h=0 i=0 prefix=24 information c=0 s=0 entry 10.0.1.0/24 \
                         h=0 d=0 figures=- name 61 unknown address 10.0.1.0 h=1 i=1 c=1 s=1 \
                         d=1 prefix=31 prefix=256 figures=1,2,3 figures=1,2,3,4 - h=2 0 figures=";
    let any: Vec<&str> = WORDS.split_whitespace().collect();
    let mut numbers = Numbers::new(53);
    let mut script = Vec::new();
    for _ in 0..1_200 {
        let list: Vec<Suboption> = (0..numbers.between(1, 3))
            .map(|_| random_suboption(&mut numbers))
            .collect();
        let line = format!("write {}", words(&list));
        let mut line: Vec<&str> = line.split(' ').collect();
        let (at, other) = (numbers.below(line.len()), numbers.below(line.len()));
        let word = any[numbers.below(any.len())];
        match numbers.below(7) {
            0 => line[at] = word,
            1 => line.insert(at, word),
            2 => {
                line.remove(at);
            }
            3 => line.swap(at, other),
            4 => {
                line.truncate(1);
                line.extend((0..numbers.below(8)).map(|_| any[numbers.below(any.len())]));
            }
            _ => {}
        }
        let mut line = line.join(" ").into_bytes();
        if numbers.once_in(3) {
            let at = numbers.below(line.len());
            match numbers.below(3) {
                0 => line[at] = numbers.draw() as u8,
                1 => line.insert(at, b"0=,-/. 19af"[numbers.below(11)]),
                _ => {
                    line.remove(at);
                }
            }
        }
        script.extend(line);
        script.push(b'\n');
    }
    script
}
