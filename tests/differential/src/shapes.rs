//! The shapes of the scripts: what each is out for.

use reference::console::LONGEST_LINE;
use reference::image::Form;
use reference::prefix::prefix;
use reference::table::{Lease, State, Table, LATEST, LEASES};

use crate::author::{Author, Profile};
use crate::bytes::{entry, hex, information, option, request, suboption};
use crate::damage::{damage, damage_image, damage_option};
use crate::script::Script;

/// Its name, and what writes a script of it.
type Shape = (&'static str, fn(&mut Author));

/// Taken in turn, so that every run has all of them.
const SHAPES: [Shape; 25] = [
    ("one pool", |author| walk(author, &ONE_POOL)),
    ("small pools", |author| walk(author, &SMALL_POOLS)),
    ("many pools", |author| walk(author, &MANY_POOLS)),
    ("wide pools", |author| walk(author, &WIDE_POOLS)),
    ("fragmented", |author| walk(author, &FRAGMENTED)),
    ("crowded", |author| walk(author, &CROWDED)),
    ("filled up", filled_up),
    ("ends", |author| walk(author, &ENDS)),
    ("latest time", latest_time),
    ("pages", pages),
    ("figures", figures),
    ("asks again", asks_again),
    ("counts", counts),
    ("names", names),
    ("selection", selection),
    ("older desk", older_desk),
    ("faults", |author| walk(author, &FAULTS)),
    ("short", short),
    ("openings", openings),
    ("images", images),
    ("options", options),
    ("writes", writes),
    ("damaged options", |author| walk(author, &DAMAGED)),
    ("bad suboptions", |author| walk(author, &BAD)),
    ("lines", lines),
];

/// The script of this number in a seed's run, and the name of its shape.
pub fn script(seed: u64, number: usize) -> (Script, &'static str) {
    let (shape, write) = SHAPES[number % SHAPES.len()];
    let start = seed.wrapping_mul(0x9e37_79b9_7f4a_7c15) ^ number as u64;
    let mut author = Author::new(start);
    write(&mut author);
    (author.script, shape)
}

const ONE_POOL: Profile = Profile {
    calls: (40, 160),
    pools: 1,
    pool_lengths: (22, 26),
    lengths: (24, 30),
    requests: 8,
    clients: 5,
    pace: &[0, 0, 0, 1, 5, 40],
    ends: 20,
    faults: 60,
    bad: 60,
    leases: 12,
};

const SMALL_POOLS: Profile = Profile {
    pools: 5,
    pool_lengths: (24, 30),
    lengths: (23, 30),
    ..ONE_POOL
};

const MANY_POOLS: Profile = Profile {
    pools: 8,
    pool_lengths: (8, 30),
    lengths: (8, 30),
    requests: 25,
    leases: 30,
    ..ONE_POOL
};

const WIDE_POOLS: Profile = Profile {
    pools: 3,
    pool_lengths: (8, 11),
    lengths: (8, 16),
    ..ONE_POOL
};

/// Much is returned and little ends, so that free prefixes of all lengths lie about.
const FRAGMENTED: Profile = Profile {
    pools: 2,
    pool_lengths: (21, 24),
    lengths: (23, 30),
    requests: 12,
    pace: &[0, 0, 0, 0, 1],
    ends: 60,
    faults: 120,
    leases: 60,
    ..ONE_POOL
};

const CROWDED: Profile = Profile {
    calls: (20, 60),
    pools: 2,
    pool_lengths: (18, 20),
    lengths: (26, 30),
    requests: 25,
    pace: &[0, 0, 0, 1, 2],
    ends: 12,
    leases: 300,
    ..ONE_POOL
};

const ENDS: Profile = Profile {
    calls: (30, 100),
    pace: &[0, 1, 59, 60, 119, 120, 121, 600],
    ends: 2,
    faults: 100,
    ..SMALL_POOLS
};

const FAULTS: Profile = Profile {
    faults: 5,
    ..SMALL_POOLS
};

const DAMAGED: Profile = Profile {
    faults: 8,
    leases: 40,
    ..MANY_POOLS
};

/// Half the options have suboptions that are bad in framing, in a field or in both.
const BAD: Profile = Profile {
    calls: (60, 200),
    faults: 100,
    bad: 2,
    ..SMALL_POOLS
};

fn walk(author: &mut Author, profile: &Profile) {
    author.start(profile);
    let (few, many) = profile.calls;
    // A long one now and then.
    let times = if author.numbers.once_in(40) { 10 } else { 1 };
    for _ in 0..times * author.numbers.between(few, many) {
        author.any_call(profile);
    }
    author.say("sheet".to_string());
}

/// Asks until no slot is empty, and calls on the full table. Its texts are long, so the calls are few.
fn filled_up(author: &mut Author) {
    let count = LEASES - author.numbers.between(10, 60);
    let mut table = author.table_of_held(count, &CROWDED);
    table.pools[1] = prefix(0xffff_f000, 20);
    let bytes = author.image_of(&table.counted());
    author.call(format!("load {}", hex(&bytes)));
    for _ in 0..3 {
        let now = author.script.table().last_time;
        let lengths = [28, 29, 30, 30, 30];
        let pieces: Vec<Vec<u8>> = (0..25)
            .map(|_| request(author.numbers.below(2) as u8, author.one_of(&lengths)))
            .collect();
        // Many stations: one that asks again gets what it holds.
        let client = 1 + author.numbers.below(40);
        author.call(format!("ask {client} {now} {}", hex(&option(0, &pieces))));
    }
    for _ in 0..author.numbers.between(4, 10) {
        author.any_call(&CROWDED);
    }
}

/// Books of about as many lines as an older desk reads, or of many more: asks and returns, and saves for it.
fn older_desk(author: &mut Author) {
    let profile = Profile {
        pools: 1,
        lengths: (28, 30),
        requests: 3,
        clients: 3,
        ends: 30,
        faults: 60,
        ..ONE_POOL
    };
    let many = author.numbers.once_in(8);
    let count = if many {
        author.one_of(&[300, 1_000, 1_023, 1_024])
    } else {
        author.one_of(&[254, 255, 256, 256, 257, 257, 258])
    };
    let mut table = author.table_of_held(count, &profile);
    if author.numbers.once_in(2) {
        table = author.without_names(&table).counted();
    }
    let bytes = author.image_of(&table);
    author.call(format!("load {}", hex(&bytes)));
    for _ in 0..author.numbers.between(4, if many { 8 } else { 16 }) {
        author.save_for_older();
        match author.numbers.below(8) {
            0 | 1 => author.ask(&profile),
            2 => author.release(&profile),
            3 => author.mark(&profile),
            4 => author.any_counts(&profile),
            _ => author.any_call(&profile),
        }
    }
    author.save_for_older();
}

/// Time goes on to the latest that is accepted, and stands there.
fn latest_time(author: &mut Author) {
    let profile = Profile {
        calls: (10, 50),
        pace: &[0, 1, 60, 120, 600, 1_000_000],
        ..SMALL_POOLS
    };
    let pools = author.good_pools(&profile);
    let start = author.one_of(&[LATEST, LATEST - 1, LATEST - 120, LATEST - 3_000, 1_000]);
    let line = author.open_line(&pools, &profile, start);
    author.call(line);
    for _ in 0..author.numbers.between(10, 60) {
        if author.numbers.once_in(5) {
            let option = author.ask_option(&profile);
            let now = author.one_of(&[LATEST, LATEST, LATEST, LATEST + 1, LATEST - 1]);
            author.call(format!("ask 3 {now} {}", hex(&option)));
        } else {
            author.any_call(&profile);
        }
    }
}

/// A client with more leases than a page holds: lists that go on after returns, takes
/// and asks in between.
fn pages(author: &mut Author) {
    let profile = Profile {
        pools: 2,
        pool_lengths: (18, 22),
        lengths: (27, 30),
        clients: 2,
        pace: &[0, 0, 1],
        ends: 40,
        faults: 80,
        leases: 256,
        ..ONE_POOL
    };
    let mut table = author.any_table(&profile);
    let thirty = author.numbers.once_in(8);
    if thirty {
        table = author.table_of_held(LEASES, &profile);
        let all = table.used_leases().to_vec();
        let leased = all.into_iter().map(|lease| Lease {
            client: 1,
            state: State::Leased,
            ..lease
        });
        table.set_leases(leased.collect());
    } else if author.numbers.once_in(2) {
        whole_pages(author, &mut table);
    }
    let bytes = author.image_of(&table.counted());
    author.call(format!("load {}", hex(&bytes)));
    let (few, many) = if thirty { (4, 10) } else { (15, 45) };
    for _ in 0..author.numbers.between(few, many) {
        match author.numbers.below(7) {
            0 => author.list_from_the_start(&profile),
            1..=3 => author.list(&profile),
            4 => author.release(&profile),
            5 => author.take(&profile),
            _ => author.any_call(&profile),
        }
    }
}

/// All leases for one client to list, and about as many as one or two pages hold.
fn whole_pages(author: &mut Author, table: &mut Table) {
    let most = author.one_of(&[34, 35, 36, 37, 69, 70, 71, 72]);
    let mut leases = table.used_leases().to_vec();
    leases.truncate(most);
    for lease in &mut leases {
        lease.client = 1;
        lease.state = State::Leased;
        lease.expires = u32::MAX;
    }
    table.set_leases(leases);
}

/// Takes that tell figures, ended leases whose ground is asked for again, and sheets that
/// match and that do not.
fn figures(author: &mut Author) {
    let profile = Profile {
        pools: 2,
        pool_lengths: (24, 27),
        lengths: (26, 30),
        requests: 4,
        clients: 3,
        ends: 4,
        faults: author.one_of(&[8, 40]),
        leases: 10,
        ..ONE_POOL
    };
    author.start(&profile);
    for _ in 0..author.numbers.between(20, 100) {
        match author.numbers.below(12) {
            0..=3 => author.take(&profile),
            4 | 5 => author.ask(&profile),
            6 => author.mark(&profile),
            7 => author.any_sheet(&profile),
            _ => author.any_call(&profile),
        }
    }
}

/// Stations that ask again before they take: for what they hold, for less and for more than
/// that, after marks, at the ends of what is held, on full tables too.
fn asks_again(author: &mut Author) {
    let profile = Profile {
        pools: 2,
        pool_lengths: (23, 26),
        lengths: (26, 30),
        requests: 25,
        clients: 3,
        ends: 6,
        faults: author.one_of(&[10, 60]),
        leases: 16,
        ..ONE_POOL
    };
    // Full, and then few calls, since its texts are long; or of some lines.
    let kind = author.numbers.below(4);
    let most = match kind {
        0 => {
            let count = author.few_empty();
            let table = author.table_of_held(count, &profile);
            let bytes = author.image_of(&table);
            author.call(format!("load {}", hex(&bytes)));
            14
        }
        1 => {
            let table = author.table_of_held(60, &profile);
            let bytes = author.image_of(&table);
            author.call(format!("load {}", hex(&bytes)));
            80
        }
        _ => {
            author.start(&profile);
            80
        }
    };
    for _ in 0..author.numbers.between(most / 4, most) {
        match author.numbers.below(12) {
            0..=5 => author.ask_again(&profile),
            6 => author.ask(&profile),
            7 | 8 => author.mark_held(&profile),
            _ => author.any_call(&profile),
        }
    }
}

/// Counts that are the table's and that are not, queries, and calls that strike ended lines.
fn counts(author: &mut Author) {
    let wide = author.numbers.once_in(3);
    let profile = Profile {
        pools: author.one_of(&[1, 3, 8]),
        pool_lengths: if wide { (8, 30) } else { (23, 30) },
        lengths: if wide { (8, 30) } else { (25, 30) },
        requests: 6,
        clients: 3,
        ends: 4,
        faults: author.one_of(&[12, 60]),
        leases: author.one_of(&[4, 30, 120]),
        ..ONE_POOL
    };
    author.start(&profile);
    for _ in 0..author.numbers.between(20, 80) {
        match author.numbers.below(8) {
            0 | 1 => author.any_counts(&profile),
            2 | 3 => author.whole(&profile),
            _ => author.any_call(&profile),
        }
    }
}

/// Asks with names of all lengths, for what is held too; takes, marks and ends in between;
/// saves and loads in both forms.
fn names(author: &mut Author) {
    let profile = Profile {
        pools: 2,
        pool_lengths: (23, 26),
        lengths: (25, 30),
        requests: 6,
        clients: 3,
        ends: 6,
        faults: author.one_of(&[12, 60]),
        leases: author.one_of(&[6, 30]),
        ..ONE_POOL
    };
    author.start(&profile);
    for _ in 0..author.numbers.between(20, 80) {
        match author.numbers.below(12) {
            0..=4 => author.ask_with_name(&profile),
            5 => {
                author.save_in_a_form();
                author.say("sheet".to_string());
            }
            6 => {
                let table = author.script.table().clone();
                let table = author.without_names(&table);
                let bytes = author.image_of(&table);
                author.call(format!("load {}", hex(&bytes)));
            }
            _ => author.any_call(&profile),
        }
    }
    author.say("sheet".to_string());
}

/// Option 118 enabled: several pools, held and leased in all of them by few stations, full
/// tables too.
fn selection(author: &mut Author) {
    let profile = Profile {
        pools: author.one_of(&[2, 3, 8]),
        pool_lengths: (23, 28),
        lengths: (26, 30),
        requests: 6,
        clients: 2,
        ends: 12,
        faults: author.one_of(&[10, 60]),
        leases: author.one_of(&[10, 40]),
        ..ONE_POOL
    };
    author.select(true);
    let full = author.numbers.once_in(3);
    if full {
        let table = author.full_table_and_a_pool(&profile);
        let bytes = author.image_of(&table);
        author.call(format!("load {}", hex(&bytes)));
    } else {
        author.start(&profile);
    }
    let (few, many) = if full { (4, 14) } else { (20, 80) };
    for _ in 0..author.numbers.between(few, many) {
        match author.numbers.below(12) {
            0..=2 => author.ask(&profile),
            3 | 4 => author.ask_again(&profile),
            5..=7 => author.take(&profile),
            8 => author.ask_with_name(&profile),
            _ => author.any_call(&profile),
        }
    }
    author.say("sheet".to_string());
}

/// A few calls and no more, often without a table.
fn short(author: &mut Author) {
    let profile = Profile {
        faults: author.one_of(&[2, 6]),
        ..SMALL_POOLS
    };
    if author.numbers.once_in(2) {
        author.start(&profile);
    }
    for _ in 0..author.numbers.between(1, 8) {
        author.any_call(&profile);
    }
}

/// Opens of all kinds, with a call or two on what was opened.
fn openings(author: &mut Author) {
    for _ in 0..author.numbers.between(10, 40) {
        let profile = author.one_of(&[ONE_POOL, SMALL_POOLS, MANY_POOLS, MANY_POOLS]);
        let pools = author.any_pools(&profile);
        let start = match author.numbers.below(8) {
            0 => author.one_of(&[LATEST, LATEST + 1, u32::MAX]),
            _ => author.start_time(),
        };
        let mut line = author.open_line(&pools, &profile, start);
        if author.numbers.once_in(3) {
            let terms = [0, 59, 60, 2_592_000, 2_592_001, u32::MAX];
            let lengths = [0, 1, 30, 31, 32, 255];
            let mut words: Vec<String> = line.split(' ').map(str::to_string).collect();
            if author.numbers.once_in(2) {
                words[1] = author.one_of(&terms).to_string();
            } else {
                words[2] = author.one_of(&lengths).to_string();
            }
            line = words.join(" ");
        }
        author.call(line);
        for _ in 0..author.numbers.below(4) {
            author.any_call(&profile);
        }
        if author.numbers.once_in(3) {
            author.say("sheet".to_string());
        }
    }
}

/// Images, most of them damaged; those that load are saved, shown and used.
fn images(author: &mut Author) {
    let few = Profile {
        leases: 8,
        ..MANY_POOLS
    };
    let profile = if author.numbers.once_in(12) {
        CROWDED
    } else {
        few
    };
    let mut bytes = Vec::new();
    for _ in 0..author.numbers.between(30, 90) {
        if bytes.is_empty() || author.numbers.once_in(10) {
            let table = author.any_table(&profile);
            bytes = author.image_of(&table);
        }
        let mut damaged = bytes.clone();
        for _ in 0..author.one_of(&[0, 1, 1, 1, 1, 1, 2]) {
            damage_image(&mut author.numbers, &mut damaged);
        }
        if author.numbers.once_in(60) {
            let full = author.one_of(&[Form::First.full(), Form::Second.full()]);
            damaged.resize(author.one_of(&[full, full + 1, 3 * full]), 0);
        }
        let answer = author.call(format!("load {}", hex(&damaged)));
        if answer == "ok\n" && author.numbers.once_in(2) {
            author.say("sheet".to_string());
            author.any_call(&profile);
            let table = author.script.table().clone();
            bytes = author.image_of(&table);
        }
    }
}

/// Options for the reader: good, damaged, and any bytes.
fn options(author: &mut Author) {
    for _ in 0..author.numbers.between(60, 180) {
        let mut bytes = match author.numbers.below(12) {
            0 => any_bytes(author),
            1 => subnet_selection(author),
            2 => late_place(author),
            3 => author.ask_option(&FAULTS),
            4 | 5 => author.ask_option(&BAD),
            _ => author.any_option(&MANY_POOLS),
        };
        for _ in 0..author.one_of(&[0, 0, 1, 1, 1, 2]) {
            damage_option(&mut author.numbers, &mut bytes);
        }
        author.say(format!("read {}", hex(&bytes)));
    }
}

/// Options written from words, and from what the reader printed.
fn writes(author: &mut Author) {
    for _ in 0..author.numbers.between(60, 180) {
        if author.numbers.once_in(8) {
            let mut bytes = author.any_option(&MANY_POOLS);
            if author.numbers.once_in(4) {
                damage_option(&mut author.numbers, &mut bytes);
            }
            author.read_and_write(&bytes);
        } else {
            author.write_one();
        }
    }
}

/// Bytes of no meaning with the right code, and mostly a fitting Len.
fn any_bytes(author: &mut Author) -> Vec<u8> {
    let length = author.one_of(&[0, 1, 2, 3, 6, 20, 120, 255, 300]);
    let small = author.numbers.once_in(2);
    let body: Vec<u8> = (0..length)
        .map(|_| {
            if small {
                author.numbers.below(8) as u8
            } else {
                author.numbers.draw() as u8
            }
        })
        .collect();
    let mut bytes = vec![220, length as u8];
    bytes.extend(body);
    bytes
}

/// Option 118.
fn subnet_selection(author: &mut Author) -> Vec<u8> {
    let mut bytes = vec![118, 4];
    bytes.extend((author.numbers.draw() as u32).to_be_bytes());
    if author.numbers.once_in(2) {
        damage(&mut author.numbers, &mut bytes);
    }
    bytes
}

/// A long good piece and a bad one after it, so that the place is far on; or many
/// pieces.
fn late_place(author: &mut Author) -> Vec<u8> {
    let skipped = author.one_of(&[230, 240, 247, 248, 249, 250, 251]);
    let first = suboption(author.one_of(&[3, 9]), &vec![1; skipped]);
    let last = match author.numbers.below(5) {
        0 => vec![1],
        1 => request(0, 31),
        2 => suboption(2, &[0]),
        3 => {
            return option(0, &vec![request(2, 30); author.one_of(&[61, 62, 63, 64])]);
        }
        _ => {
            let last = entry(prefix(0x0a00_0000, author.one_of(&[30, 31, 0])), 0, &[]);
            let mut entries = vec![entry(prefix(0x0a00_0000, 30), 0, &[]); 34];
            entries.push(last);
            return option(0, &[information(3, &entries)]);
        }
    };
    option(0, &[first, last])
}

/// Damaged lines, and lines of words in no order; a table stands behind them.
fn lines(author: &mut Author) {
    const COMMANDS: &str =
        "open ask take list return mark save load sheet figures whole counts read write buffer \
         selection";
    const WORDS: &str = "0 1 2 7 1000 3600 28 257 10.0.0.0/8 10.0.0.0/28 dc05000102001c \
                         dc0b000208000a0000001c0000 76040a000000 on off older - # 4294967296 unknown name \
                         address";
    let commands: Vec<&str> = COMMANDS.split_whitespace().collect();
    let any: Vec<&str> = WORDS.split_whitespace().chain(commands.clone()).collect();
    let mut source = Author::new(author.numbers.draw());
    source.start(&SMALL_POOLS);
    for _ in 0..author.numbers.between(10, 40) {
        source.any_call(&SMALL_POOLS);
    }
    for line in source.script.lines() {
        let line = &line[..line.len() - 1];
        // Nothing comes between a call, its image, its figures and its counts.
        let between = ![&b"save"[..], b"figures", b"counts"].contains(&line);
        if between && author.numbers.once_in(2) && line.len() < 2_000 {
            author.damaged_line(line.to_vec());
        }
        if between && author.numbers.once_in(6) {
            let mut words: Vec<&str> = (0..author.numbers.below(6))
                .map(|_| author.one_of(&any))
                .collect();
            if author.numbers.once_in(2) {
                words.insert(0, author.one_of(&commands));
            }
            author.call(words.join(" "));
        }
        author.script.say(line);
    }
    if author.numbers.once_in(10) {
        long_line(author);
    }
    if author.numbers.once_in(2) {
        author.script.add(b"save".to_vec());
    }
}

/// A line at the longest that is read, or a byte past it.
fn long_line(author: &mut Author) {
    let length = LONGEST_LINE + author.numbers.below(2);
    let mut line = author
        .one_of(&["read ", "read dc", "# ", "save"])
        .to_string();
    let filler = if line == "save" { ' ' } else { '0' };
    while line.len() < length {
        line.push(filler);
    }
    author.call(line);
}

#[cfg(test)]
mod tests {
    use super::*;
    use crate::counts::Counts;

    #[test]
    fn the_same_seed_makes_the_same_scripts() {
        for number in 0..SHAPES.len() {
            let (one, shape) = script(5, number);
            assert!(one.text() == script(5, number).0.text(), "{shape}");
            assert!(one.text() != script(6, number).0.text(), "{shape}");
        }
    }

    #[test]
    fn only_the_last_line_may_lack_its_newline() {
        for number in 0..2 * SHAPES.len() {
            let lines = script(7, number).0.lines();
            for (index, line) in lines.iter().enumerate() {
                let newlines = line.iter().filter(|byte| **byte == b'\n').count();
                assert!(newlines == 1 || (newlines == 0 && index + 1 == lines.len()));
                assert!(newlines == 0 || line.ends_with(b"\n"));
            }
        }
    }

    #[test]
    fn all_is_seen_after_every_call_that_could_change_it() {
        for number in 0..3 * SHAPES.len() {
            let (script, shape) = script(8, number);
            for steps in script.steps.windows(4) {
                let line = String::from_utf8_lossy(&steps[0].line);
                let command = line.split_whitespace().next().unwrap_or("");
                let same = [
                    "save",
                    "sheet",
                    "figures",
                    "whole",
                    "counts",
                    "read",
                    "write",
                    "buffer",
                    "selection",
                ];
                let same = same.contains(&command);
                let answered = !steps[0].answer.is_empty();
                if answered && !same && !steps[0].answer.starts_with("error") {
                    assert!(steps[1].line.starts_with(b"save"), "{shape}: {line}");
                    assert_eq!(steps[2].line, b"figures\n", "{shape}: {line}");
                    assert_eq!(steps[3].line, b"counts\n", "{shape}: {line}");
                }
                // A sheet that is given is shown as well, and so are counts.
                let given = steps[0].words().len() == 2 && steps[0].answer == "ok\n";
                if given && ["figures", "counts"].contains(&command) {
                    let shown = format!("{command}\n").into_bytes();
                    assert!(steps[1..].iter().any(|step| step.line == shown), "{shape}");
                }
            }
        }
    }

    #[test]
    fn every_answer_comes_soon() {
        let mut counts = Counts::default();
        for number in 0..12 * SHAPES.len() {
            assert_eq!(counts.add(&script(1, number).0), Ok(()));
        }
        assert_eq!(counts.missing(), Vec::<String>::new());
    }
}
