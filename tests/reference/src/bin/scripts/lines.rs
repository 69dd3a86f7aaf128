//! Scripts for M-107: books at and around 256 and 1,024 lines in every call, and books that are
//! saved for an older desk. What can be known of an answer beforehand is held to here.

use reference::image::Form;
use reference::numbers::Numbers;
use reference::option::Suboption;
use reference::prefix::{prefix, Prefix};
use reference::samples::{
    image_in, information, lease, named, option, request, request_i, row_of_leases, table, telling,
    TEN,
};
use reference::table::{Lease, State, Table, LEASES, OLDER_LEASES};

use crate::{asking, echo_page, entries, hex, image, second, Script};

/// The numbers of lines that matter: about an older desk's limit and the desk's own.
const COUNTS: [u32; 5] = [255, 256, 257, 1_023, 1_024];

/// The place of a line in these books: a free /30 is beside each.
fn place(index: u32) -> Prefix {
    prefix(TEN + 8 * index, 30)
}

/// So many lines, of 7 and 8 in turn. Every fourth is held, the others leased; every third ends
/// at 1500, the rest at 5000. The first and the last are leased by 7.
fn book(count: u32) -> Table {
    let leases = (0..count).map(|index| {
        let ends = index == 0 || index == count - 1;
        let client = if index % 2 == 0 || ends { 7 } else { 8 };
        let state = match index % 8 {
            4 | 5 if !ends => State::Offered,
            _ => State::Leased,
        };
        let expires = if index % 3 == 1 { 1500 } else { 5000 };
        lease(place(index), client, state, expires)
    });
    table(&[prefix(TEN, 19)], 1000, leases.collect())
}

/// Each call on a book of each number of lines.
pub fn every_call() -> String {
    let mut script = Script::new(
        "Books of 255, 256, 257, 1,023 and 1,024 lines (M-107) in every call; 9 is given at 1,024.",
    );
    for count in COUNTS {
        script.remark(&format!("{count} lines"));
        let book = book(count);
        let load = format!("load {}", image(&book));
        let (first, last) = (place(0), place(count - 1));
        let held = book.used_leases().iter();
        let held = held.filter(|lease| lease.client == 7 && lease.state == State::Offered);
        assert!(held.count() >= 25);
        let full = count as usize == LEASES;
        script.say(&load);
        script.say("whole 30");
        script.say("counts");
        script.remark("One more, and 25 more.");
        let one = script.say(&format!("ask 9 1001 {}", asking(&[30])));
        assert_eq!(one == "refused 9\n", full);
        let many = script.say(&format!("ask 10 1001 {}", asking(&[30; 25])));
        let room = LEASES - count as usize;
        match room {
            0 | 1 => assert_eq!(many, "refused 9\n"),
            _ => assert!(many.contains(" count=25 ")),
        }
        script.say("save 1");
        script.say(&load);
        let many = script.say(&format!("ask 10 1001 {}", asking(&[30; 25])));
        match room {
            0 => assert_eq!(many, "refused 9\n"),
            _ => assert!(many.contains(&format!(" count={} ", room.min(25)))),
        }
        script.say("save 1");
        script.remark("What 7 holds is given again, whatever lines are left.");
        script.say(&load);
        let again = script.say(&format!("ask 7 1001 {}", asking(&[30; 25])));
        assert!(again.contains(" count=25 "));
        script.say(&format!("ask 7 1001 {}", asking(&[29, 30])));
        script.say(&format!("ask 7 1001 {}", asking(&[29])));
        script.remark("Takes of the first line and the last, with figures.");
        script.say(&load);
        let told = hex(&telling(&[(first, &[1, 2, 3]), (last, &[4, 5, 6])]));
        let taken = script.say(&format!("take 7 1001 {told}"));
        assert!(taken.contains(" count=2 "));
        script.say("figures");
        script.remark("The first page and the last, and what is after the last line.");
        script.say("list 7 1001 dc050001020200");
        for position in [place(count - 71), place(count - 72), last] {
            let asked = option(&[request_i(), information(true, true, &[position])]);
            script.say(&format!("list 7 1001 {}", hex(&asked)));
        }
        script.remark("Marks of both.");
        for at in [first, last] {
            assert_eq!(script.say(&format!("mark 1001 {at} 1")), "ok\n");
        }
        script.say("save 1");
        script.remark("Returns of both, and an ask after that.");
        let returned = script.say(&format!("return 7 1002 {}", entries(&[first, last])));
        assert_eq!(returned, "ok count=2\n");
        let two = script.say(&format!("ask 9 1002 {}", asking(&[30; 2])));
        assert!(two.contains(" count=2 "));
        script.say("figures");
        script.remark("A third has ended: struck by a mark.");
        assert_eq!(script.say(&format!("mark 1500 {} 1", place(2))), "ok\n");
        script.say("counts");
        script.say("save 1");
    }
    script.remark("1,025 lines are no book, in either form.");
    let full = book(LEASES as u32);
    for (form, size) in [(Form::First, 19), (Form::Second, 44)] {
        let mut bytes = image_in(form, &full);
        let mut more = bytes[bytes.len() - size..].to_vec();
        // The network in the record, little-endian: eight addresses on.
        let network = TEN + 8 * LEASES as u32;
        more[4..8].copy_from_slice(&network.to_le_bytes());
        bytes.extend(more);
        // The root is longer by one bit, so that the line is inside it.
        assert_eq!(bytes[21], 19);
        bytes[21] = 18;
        assert_eq!(script.say(&format!("load {}", hex(&bytes))), "refused 5\n");
        bytes.truncate(bytes.len() - size);
        assert_eq!(script.say(&format!("load {}", hex(&bytes))), "ok\n");
    }
    script.text
}

/// Names on many lines: kept, struck, moved along.
pub fn with_names() -> String {
    let mut script = Script::new(
        "Books of 257 and of 1,024 lines with names (M-107 and M-105): names go along in both \
         directions, and the second form has 45,141 bytes at most.",
    );
    for count in [257, 1_024] {
        let plain = book(count);
        let leases = plain.used_leases().iter().enumerate();
        let leases = leases.map(|(index, lease)| match index % 2 {
            0 => named(*lease, format!("line {index}").as_bytes()),
            _ => *lease,
        });
        let book = table(&[prefix(TEN, 19)], 1000, leases.collect());
        script.say(&format!("load {}", second(&book)));
        script.say("save 1");
        script.say("save 1 older");
        script.say("save 2 older");
        let gone = [place(0), place(count / 2 / 2 * 2), place(count - 1)];
        let mine = script.console.table.used_leases().to_vec();
        let mine = mine.iter().filter(|lease| lease.client == 7);
        let mine: Vec<Prefix> = mine.map(|lease| lease.prefix).collect();
        let gone: Vec<Prefix> = gone.into_iter().filter(|at| mine.contains(at)).collect();
        script.say(&format!("return 7 1001 {}", entries(&gone)));
        let mut list = vec![Suboption::Name(b"new here".to_vec())];
        list.extend(vec![request(30, false); 25]);
        script.say(&format!("ask 9 1001 {}", hex(&option(&list))));
        script.say("save");
        script.say(&format!("mark 1500 {} 1", place(2)));
        script.say("save 2");
        script.say("sheet");
    }
    let full = book(LEASES as u32);
    let leases = full.used_leases().iter();
    let leases = leases.map(|lease| named(*lease, &[b'z'; 24]));
    let full = table(
        &(0..8)
            .map(|index| prefix(TEN + (index << 16), 16))
            .collect::<Vec<_>>(),
        1000,
        leases.collect(),
    );
    script.say(&format!("load {}", second(&full)));
    let saved = script.say("save 2");
    assert!(saved.starts_with("ok bytes=45141 "));
    script.text
}

/// 1,024 lines of one station: 30 pages of leases, and a full book that is asked again.
pub fn one_station() -> String {
    let mut script = Script::new(
        "1,024 lines of one station (M-107): its leases in 30 pages, a return between two of them; \
         then a full book of lines that it holds, and asks for again.",
    );
    let pool = [prefix(TEN, 19)];
    let leases: Vec<Lease> = (0..LEASES as u32)
        .map(|index| lease(place(index), 7, State::Leased, 5000))
        .collect();
    script.say(&format!(
        "load {}",
        image(&table(&pool, 1000, leases.clone()))
    ));
    let mut page = script.say("list 7 1000 dc050001020200");
    for number in 2..=30 {
        page = echo_page(&mut script, &page, 1000).unwrap_or_default();
        // 1,024 are 29 pages of 35 and one of 9; s is clear in the last alone.
        let (count, flags) = if number < 30 { (35, "03") } else { (9, "02") };
        assert!(page.contains(&format!(" count={count} ")), "{page}");
        let digits = page.trim_end().rsplit(' ').next().unwrap_or_default();
        assert_eq!(&digits[10..12], flags);
    }
    script.remark("With returns: the page after them has what is left above the position.");
    let mut page = script.say("list 7 1001 dc050001020200");
    for round in 0..29 {
        let gone = [
            place(35 * round),
            place(35 * round + 34),
            place(35 * round + 35),
        ];
        script.say(&format!("return 7 1001 {}", entries(&gone)));
        match echo_page(&mut script, &page, 1001) {
            Some(next) => page = next,
            None => break,
        }
    }
    script.remark("Another station has nothing to list, and no line for what it asks.");
    script.say(&format!("load {}", image(&table(&pool, 1000, leases))));
    script.say("list 8 1001 dc050001020200");
    script.say(&format!("ask 8 1001 {}", asking(&[30])));
    script
        .remark("All held: 25 of them again, by each message, the lowest; then the rest by take.");
    let held: Vec<Lease> = (0..LEASES as u32)
        .map(|index| lease(place(index), 7, State::Offered, 1100))
        .collect();
    script.say(&format!("load {}", image(&table(&pool, 1000, held))));
    for now in [1000, 1001] {
        let again = script.say(&format!("ask 7 {now} {}", asking(&[30; 25])));
        assert!(again.contains(" count=25 "));
    }
    for lengths in [&[29][..], &[28, 0]] {
        let refused = script.say(&format!("ask 7 1001 {}", asking(lengths)));
        assert_eq!(refused, "refused 9\n");
    }
    let last: Vec<Prefix> = (LEASES as u32 - 35..LEASES as u32).map(place).collect();
    let taken = script.say(&format!("take 7 1002 {}", entries(&last)));
    assert!(taken.contains(" count=35 "));
    script.say("save 1");
    script.remark("At 1100 only those are left that were given again or taken.");
    script.say(&format!("ask 7 1100 {}", asking(&[30; 25])));
    script.say("save 1");
    script.text
}

/// The answer that the papers give to a save.
fn expected(book: &Table, form: usize, older: bool) -> &'static str {
    let leases = book.used_leases();
    if older && leases.len() > OLDER_LEASES {
        "refused 20\n"
    } else if form == 1 && leases.iter().any(|lease| lease.name.length > 0) {
        "refused 18\n"
    } else {
        "ok bytes="
    }
}

/// Every number of lines that matters, both forms, both desks, with and without a name.
pub fn older() -> String {
    let mut script = Script::new(
        "Saving for an older desk (M-107): refused with 20 exactly if more than 256 lines are in \
         the book, in either form, before 18; and 5 before it.",
    );
    script.remark("No book: 5 in both forms, for both desks.");
    for line in ["save 1", "save 2", "save 1 older", "save 2 older"] {
        assert_eq!(script.say(line), "refused 5\n");
    }
    for count in [0, 1, 2, 255, 256, 257, 258, 1_023, 1_024] {
        let plain = row_of_leases(count, 7, 5000);
        let mut books = vec![("no name", plain.clone())];
        if count > 0 {
            let last = count as usize - 1;
            for (about, place) in [("a name in the first line", 0), ("in the last", last)] {
                let mut leases = plain.clone();
                leases[place] = named(leases[place], b"hall");
                books.push((about, leases));
            }
        }
        if count == 257 {
            let mut leases = plain.clone();
            leases[256] = named(leases[256], &[0xff; 24]);
            leases[255] = named(leases[255], &[0, 1]);
            books.push(("names in the 256th and the 257th", leases));
        }
        for (about, leases) in books {
            script.remark(&format!("{count} lines, {about}"));
            let book = table(&[prefix(TEN, 16)], 1000, leases);
            script.say(&format!("load {}", second(&book)));
            for (line, form, older) in [
                ("save 1", 1, false),
                ("save 2", 2, false),
                ("save 1 older", 1, true),
                ("save 2 older", 2, true),
            ] {
                // What is long is shown once.
                if count > 258 && !older && (about != "no name" || form == 2) {
                    continue;
                }
                let answer = script.say(line);
                assert!(answer.starts_with(expected(&book, form, older)), "{line}");
                if older && answer.starts_with("ok") {
                    let form = [Form::First, Form::Second][form - 1];
                    assert!(answer.ends_with(&format!(" {}\n", hex(&image_in(form, &book)))));
                }
            }
        }
    }
    script.remark("Counts that differ: 5 before 20 and 18.");
    script.say(&format!("counts {}", "00".repeat(reference::counts::BYTES)));
    for line in ["save 1", "save 1 older", "save 2 older"] {
        assert_eq!(script.say(line), "refused 5\n");
    }
    script.remark("A sheet of figures that does not match has no say.");
    let book = table(&[prefix(TEN, 16)], 1000, row_of_leases(257, 7, 5000));
    script.say(&format!("load {}", image(&book)));
    script.say(&format!(
        "figures {}",
        "00".repeat(reference::figures::SHEET)
    ));
    assert_eq!(script.say("save 1 older"), "refused 20\n");
    assert!(script.say("save 1").starts_with("ok bytes=4905 "));
    script.text
}

/// Lines that have ended are in the book until an accepted call strikes them.
pub fn older_ended() -> String {
    let mut script = Script::new(
        "Saving for an older desk (M-107): lines that have ended are in the book until a call \
         strikes them; what is refused, and a list, strike nothing.",
    );
    for (count, ended) in [(257, 1), (300, 44), (300, 43), (1_024, 768), (1_024, 767)] {
        script.remark(&format!("{count} lines, {ended} of them end at 1500"));
        let mut leases = row_of_leases(count, 7, 5000);
        for lease in leases.iter_mut().rev().take(ended) {
            lease.expires = 1500;
        }
        script.say(&format!(
            "load {}",
            image(&table(&[prefix(TEN, 16)], 1000, leases))
        ));
        assert_eq!(script.say("save 1 older"), "refused 20\n");
        script.say("list 7 1500 dc050001020200");
        script.say(&format!("take 7 1500 {}", entries(&[prefix(TEN, 29)])));
        script.say(&format!("mark 1499 {} 1", prefix(TEN, 30)));
        assert_eq!(script.say("save 2 older"), "refused 20\n");
        script.say(&format!("mark 1500 {} 0", prefix(TEN, 30)));
        let left = count as usize - ended;
        let answer = script.say("save 1 older");
        assert_eq!(answer == "refused 20\n", left > OLDER_LEASES);
        if left <= OLDER_LEASES {
            let own = script.say("save 1");
            assert_eq!(own, answer);
        }
    }
    script.text
}

/// Up to 256 lines by asks, one more, one less.
pub fn older_by_calls() -> String {
    let mut script = Script::new(
        "Saving for an older desk (M-107): up to 256 lines by asks, one more, one returned; what \
         is saved for it loads here too, and the book stays as it is.",
    );
    script.say("open 3600 30 1000 10.0.0.0/16 10.4.0.0/24");
    for call in 0..10 {
        script.say(&format!("ask {} 1000 {}", 11 + call, asking(&[30; 25])));
    }
    script.say(&format!("ask 8 1000 {}", asking(&[29; 6])));
    let older = script.say("save 1 older");
    assert!(older.starts_with("ok bytes=4895 "));
    assert_eq!(script.say("save 1"), older);
    let older = script.say("save 2 older");
    assert!(older.starts_with("ok bytes=11295 "));
    assert_eq!(script.say("save"), older);
    script.remark("One more, with a name: 20 in both forms, and 18 for the desk's own.");
    let named = option(&[Suboption::Name(b"west hall".to_vec()), request(28, false)]);
    script.say(&format!("ask 9 1001 {}", hex(&named)));
    assert_eq!(script.say("save 1 older"), "refused 20\n");
    assert_eq!(script.say("save 2 older"), "refused 20\n");
    assert_eq!(script.say("save 1"), "refused 18\n");
    assert!(script.say("save 2").starts_with("ok bytes=11339 "));
    script.remark("Another is returned: 256 with a name, so 18 in the first form.");
    let gone = prefix(TEN + (4 << 16), 30);
    script.say(&format!("return 11 1002 {}", entries(&[gone])));
    assert_eq!(script.say("save 1 older"), "refused 18\n");
    let older = script.say("save 2 older");
    assert!(older.starts_with("ok bytes=11295 "));
    script.remark("Loaded again: the same book.");
    let digits = older.trim_end().rsplit(' ').next().unwrap_or_default();
    assert_eq!(script.say(&format!("load {digits}")), "ok\n");
    assert_eq!(script.say("save 2"), older);
    script.say("sheet");
    script.text
}

/// How often a save was refused with 20 and with 18, and how often a book of exactly 256 lines
/// was saved for an older desk.
#[derive(Default)]
struct Saves {
    too_many: usize,
    names: usize,
    exact: usize,
}

impl Saves {
    fn say(&mut self, script: &mut Script, form: usize, older: bool) {
        let line = format!("save {form}{}", if older { " older" } else { "" });
        let answer = script.say(&line);
        let book = &script.console.table;
        let wanted = expected(book, form, older);
        assert!(answer.starts_with(wanted), "{line}");
        let exact = book.used_leases().len() == OLDER_LEASES;
        self.too_many += usize::from(answer == "refused 20\n");
        self.names += usize::from(answer == "refused 18\n");
        self.exact += usize::from(older && exact && answer.starts_with("ok"));
    }
}

/// Random calls on books about 256 and about 1,024 lines, saved for both desks.
pub fn random_calls() -> String {
    let mut numbers = Numbers::new(107);
    let mut script = Script::new(
        "Books about 256 and about 1,024 lines (M-107): random calls, saves for both desks.",
    );
    let (mut now, mut full, mut saves) = (1000, 0, Saves::default());
    for step in 0..480 {
        if step % 40 == 0 {
            let about = [256, 1_024, 256, 1_020][step / 40 % 4];
            let count = about - numbers.below(4) as u32;
            let leases = (0..count).map(|index| {
                let client = numbers.between(1, 3) as u32;
                let state = [State::Offered, State::Leased][numbers.below(2)];
                let expires = now + if numbers.once_in(60) { 30 } else { 900 };
                let lease = Lease {
                    h: numbers.once_in(3),
                    d: numbers.once_in(4),
                    ..lease(
                        prefix(TEN + 8 * index, 29 + index as u8 % 2),
                        client,
                        state,
                        expires,
                    )
                };
                match step / 40 % 2 {
                    0 if numbers.once_in(200) => named(lease, b"west"),
                    _ => lease,
                }
            });
            let book = table(
                &[prefix(TEN, 19), prefix(TEN + (1 << 16), 24)],
                now,
                leases.collect(),
            );
            script.say(&format!("load {}", second(&book)));
        }
        now += [0, 0, 0, 0, 1, 5][numbers.below(6)];
        let leases = script.console.table.used_leases().to_vec();
        let mut some: Vec<Prefix> = (0..numbers.between(1, 3))
            .map(|_| leases[numbers.below(leases.len())].prefix)
            .collect();
        // The ends of the book oftener than the rest.
        match numbers.below(4) {
            0 => some[0] = leases[0].prefix,
            1 => some[0] = leases[leases.len() - 1].prefix,
            _ => {}
        }
        let owner = leases.iter().find(|lease| lease.prefix == some[0]);
        let client = owner.map_or(1, |lease| lease.client);
        match numbers.below(20) {
            0..=5 => {
                let many = if numbers.once_in(4) { 8 } else { 2 };
                let mut list: Vec<Suboption> = (0..numbers.between(1, many))
                    .map(|_| request([0, 28, 29, 30, 30][numbers.below(5)], numbers.once_in(3)))
                    .collect();
                if numbers.once_in(8) {
                    list.push(Suboption::Name(b"hall".to_vec()));
                }
                let client = numbers.between(1, 5);
                let answer = script.say(&format!("ask {client} {now} {}", hex(&option(&list))));
                full += usize::from(answer == "refused 9\n");
            }
            6 | 7 => {
                script.say(&format!("take {client} {now} {}", entries(&some)));
            }
            8..=11 => {
                script.say(&format!("return {client} {now} {}", entries(&some)));
            }
            12 => {
                script.say(&format!("mark {now} {} {}", some[0], numbers.below(2)));
            }
            13 => {
                let position = information(true, true, &some[..1]);
                let asked = hex(&option(&[request_i(), position]));
                script.say(&format!("list {client} {now} {asked}"));
            }
            14 => {
                script.say(&format!("whole {}", numbers.between(20, 30)));
            }
            _ => {
                let form = numbers.between(1, 2);
                // Long ones now and then only, for the desk itself.
                let older = leases.len() <= 300 || !numbers.once_in(6);
                saves.say(&mut script, form, older);
            }
        }
        let lines = script.console.table.used_leases().len();
        if (256..=257).contains(&lines) && numbers.once_in(3) {
            saves.say(&mut script, numbers.between(1, 2), true);
        }
    }
    let Saves {
        too_many,
        names,
        exact,
    } = saves;
    let reached = (full, too_many, names, exact);
    assert!(
        full > 3 && too_many > 9 && names > 9 && exact > 2,
        "{reached:?}"
    );
    script.say("save 2");
    script.text
}

/// The words of `save` for an older desk.
pub fn console() -> String {
    let mut script = Script::new("`save 1 older` and `save 2 older`: words, spaces.");
    for sound in [false, true] {
        if sound {
            script.say("open 3600 28 1000 10.0.1.0/24");
            script.say(&format!("ask 7 1000 {}", asking(&[26])));
        }
        for line in [
            "save 1 older",
            "save 2 older",
            "  save   1   older  ",
            "save 2 older\r",
        ] {
            assert_eq!(script.say(line).starts_with("ok"), sound);
        }
        for line in [
            "save older",
            "save older 1",
            "save older 2",
            "save older older",
            "save 0 older",
            "save 3 older",
            "save 01 older",
            "save 1 newer",
            "save 1 old",
            "save 1 olde",
            "save 1 olders",
            "save 1 Older",
            "save 1 OLDER",
            "save 1 older older",
            "save 1 older 1",
            "save 1 2 older",
            "save 2 older #",
            "save 1 #",
            "save 1 1",
            "save 1 256",
            "save 1 -",
            "save 1older",
            "save 1\tolder",
            "save 1 older\t",
            "save 1 older\r\r",
            "saveolder",
            "SAVE 1 older",
            "load 1 older",
            "sheet older",
            "older",
        ] {
            assert!(script.say(line).starts_with("error"), "{line}");
        }
    }
    script.text
}

/// A long sheet: 1,024 leases far apart in eight roots of /8, every row as long as it can be but
/// for its address.
pub fn sheet_apart() -> String {
    let pools: Vec<Prefix> = (0..8).map(|index| prefix((100 + index) << 24, 8)).collect();
    let leases = (0..LEASES as u32).map(|index| {
        // 128 in a root, each with its own /15, near the middle of it.
        let network = ((100 + index / 128) << 24) + ((index % 128) << 17) + (1 << 16) + 60_100;
        let at = prefix(network & !3, 30);
        named(lease(at, u32::MAX, State::Leased, u32::MAX), &[b'M'; 24])
    });
    let book = table(&pools, 1000, leases.collect());
    format!("load {}\nsheet\n", second(&book))
}
