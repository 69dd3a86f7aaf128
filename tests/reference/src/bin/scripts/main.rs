//! Writes the long scripts of tests/vectors, and then the expected output of every
//! script there: `cargo run --release --bin scripts -- FOLDER`. The other scripts are
//! left as they are.

mod again;
mod counts;
mod faults;
mod figures;
mod lines;
mod names;
mod selection;
mod writing;

use std::fs;
use std::io;
use std::path::{Path, PathBuf};

use reference::console::{self, Console};
use reference::figures::{matches, rows_of};
use reference::image::Form;
use reference::numbers::Numbers;
use reference::option::{Entry, Information, Request, Suboption};
use reference::prefix::{prefix, Prefix};
use reference::samples::{
    self, full_table, information, lease, option, request, request_i, row_of_leases, table, TEN,
};
use reference::table::{State, Table, LATEST};
use reference::words::hex_text as hex;

fn main() -> io::Result<()> {
    let Some(folder) = std::env::args_os().nth(1).map(PathBuf::from) else {
        eprintln!("scripts FOLDER");
        std::process::exit(2);
    };
    for (name, script) in [
        ("ask-25-and-26-requests", ask_25_and_26_requests()),
        ("list-35-and-36-leases", list_35_and_36_leases()),
        ("list-pages-of-256-leases", list_pages(256)),
        ("list-pages-of-1024-leases", list_pages(1_024)),
        ("table-full-at-1024", table_full_at_1024()),
        ("pools-at-both-ends", pools_at_both_ends()),
        ("numbers-ask", numbers_ask()),
        ("numbers-take", numbers_with_entries("take")),
        ("numbers-return", numbers_with_entries("return")),
        ("numbers-list", numbers_list()),
        ("image-fields", image_fields()),
        ("image-bit-flips", image_bit_flips()),
        ("image-cuts-and-additions", image_cuts_and_additions()),
        ("read-every-cut", read_every_cut()),
        ("read-places-up-to-256", read_places_up_to_256()),
        ("read-random-options", read_random_options()),
        ("sheet-full-1024-leases", sheet_script(&full_table())),
        ("sheet-1024-leases-in-one-pool", sheet_script(&one_full_pool())),
        ("sheet-eight-pools", sheet_script(&eight_pools())),
        ("sheet-over-long-input", sheet_over_long()),
        ("random-calls-one-pool", random_calls(21, "10.0.1.0/24", 25, false)),
        ("random-calls-small-pools", random_calls(22, "10.0.0.0/26 10.0.0.64/27 10.0.0.128/28 0.0.0.0/28", 24, false)),
        ("random-calls-eight-pools", random_calls(23, "10.0.0.0/24 10.0.1.0/24 10.0.2.0/23 10.2.0.0/16 0.0.0.0/30 255.255.255.0/24 128.0.0.0/9 127.255.255.252/30", 20, false)),
        ("random-calls-wide-pool", random_calls(24, "10.0.0.0/8", 8, false)),
        ("random-calls-crowded-table", random_calls(25, "10.0.0.0/17 10.0.128.0/22", 26, true)),
        ("figures-match", figures::matching()),
        ("figures-numbers", figures::numbers()),
        ("figures-full-1024-leases", figures::full()),
        ("random-calls-figures", figures::random_calls()),
        ("console-figures", figures::console()),
        ("again-full-1024-leases", again::full()),
        ("random-calls-again", again::random_calls()),
        ("counts-wrong", counts::wrong()),
        ("counts-roots-and-lengths", counts::roots_and_lengths()),
        ("counts-struck", counts::struck()),
        ("counts-numbers", counts::numbers()),
        ("random-calls-counts", counts::random_calls()),
        ("console-counts", counts::console()),
        ("faults-read", faults::reading()),
        ("faults-two-suboptions", faults::two()),
        ("faults-places-up-to-256", faults::places()),
        ("faults-calls", faults::calls()),
        ("random-calls-faults", faults::random()),
        ("names-lengths", names::lengths()),
        ("names-two-in-an-ask", names::two()),
        ("names-numbers", names::numbers()),
        ("names-kept", names::kept()),
        ("names-struck", names::struck()),
        ("names-forms", names::forms()),
        ("names-going-back", names::going_back()),
        ("names-image-fields", names::image_fields()),
        ("names-image-bit-flips", names::image_bit_flips()),
        ("names-image-cuts-and-additions", names::image_cuts_and_additions()),
        ("names-mixtures", names::mixtures()),
        ("names-full-1024-leases", names::full()),
        ("random-calls-names", names::random_calls()),
        ("console-names", names::console()),
        ("selection-ends-of-roots", selection::ends()),
        ("selection-malformed", selection::malformed()),
        ("selection-buffers", selection::buffers()),
        ("selection-ground", selection::ground()),
        ("selection-full-1024-leases", selection::full()),
        ("selection-held-elsewhere", selection::held_elsewhere()),
        ("selection-takes", selection::takes()),
        ("selection-numbers", selection::numbers()),
        ("random-calls-selection", selection::random_calls()),
        ("lines-in-every-call", lines::every_call()),
        ("lines-with-names", lines::with_names()),
        ("lines-of-one-station", lines::one_station()),
        ("older-lines-and-forms", lines::older()),
        ("older-ended-lines", lines::older_ended()),
        ("older-by-calls", lines::older_by_calls()),
        ("random-calls-lines", lines::random_calls()),
        ("console-older", lines::console()),
        ("console-selection", selection::console()),
        ("sheet-names", names::sheet_names()),
        ("sheet-names-every-octet", names::sheet_every_octet()),
        ("sheet-names-full-1024-leases", names::sheet_full()),
        ("sheet-names-1024-leases-apart", lines::sheet_apart()),
        ("sheet-names-over-long-input", names::sheet_over_long()),
        ("sheet-names-mixture", names::sheet_mixture()),
        ("sheet-second-form-no-leases", names::sheet_no_leases()),
        ("sheet-second-form-no-names", names::sheet_no_names()),
        ("rfc6656-options-written", writing::rfc6656_options(&fs::read_to_string(folder.join("rfc6656.options"))?)),
        ("write-lengths", writing::lengths()),
        ("write-buffer", writing::buffers()),
        ("write-random-options", writing::random_options()),
        ("write-what-is-read", writing::what_is_read()),
    ] {
        fs::write(folder.join(format!("{name}.script")), script)?;
    }
    fs::write(
        folder.join("console-long-lines.script"),
        console_long_lines(),
    )?;
    fs::write(folder.join("console-any-bytes.script"), console_any_bytes())?;
    fs::write(folder.join("write-any-words.script"), writing::any_words())?;
    let mut count = 0;
    for path in scripts_in(&folder)? {
        let script = fs::read(&path)?;
        let mut out = Vec::new();
        console::run(&script[..], &mut out)?;
        fs::write(path.with_extension("expected"), out)?;
        count += 1;
    }
    println!("{count} scripts");
    Ok(())
}

fn scripts_in(folder: &Path) -> io::Result<Vec<PathBuf>> {
    let mut paths = Vec::new();
    for file in fs::read_dir(folder)? {
        let path = file?.path();
        if path
            .extension()
            .is_some_and(|extension| extension == "script")
        {
            paths.push(path);
        }
    }
    paths.sort();
    Ok(paths)
}

// Pieces of scripts.

fn asking(lengths: &[u8]) -> String {
    hex(&samples::asking(lengths))
}

fn entries(prefixes: &[Prefix]) -> String {
    hex(&samples::entries(prefixes))
}

/// The image in the first form.
fn image(table: &Table) -> String {
    hex(&samples::image(table))
}

/// The image in the second form.
fn second(table: &Table) -> String {
    hex(&samples::image_in(Form::Second, table))
}

/// A script that is tried on a console as it is written.
struct Script {
    text: String,
    console: Console,
}

impl Script {
    fn new(about: &str) -> Script {
        Script {
            text: format!("# {about}\n"),
            console: Console::new(),
        }
    }

    fn say(&mut self, line: &str) -> String {
        self.text.push_str(line);
        self.text.push('\n');
        self.console.line(line.as_bytes())
    }

    fn remark(&mut self, text: &str) {
        self.say(&format!("# {text}"));
    }
}

// Document 01's examples that are long.

fn ask_25_and_26_requests() -> String {
    let mut script = Script::new("25 requests in an ask are served (Len 251), 26 get 8.");
    script.say("open 3600 28 1000 10.0.0.0/16");
    script.say(&format!("ask 7 1000 {}", asking(&[30; 26])));
    script.say("save");
    script.say(&format!("ask 7 1000 {}", asking(&[30; 25])));
    script.say("sheet");
    script.remark("Names, informations and unknown suboptions do not count towards the 25.");
    let mut list = vec![
        Suboption::Name(vec![0x61]),
        information(true, true, &[prefix(TEN, 16)]),
    ];
    list.extend((0..25).map(|index| request(26 + index % 5, index % 2 == 0)));
    let mut bytes = option(&list);
    bytes[1] += 2;
    bytes.extend([9, 0]);
    script.say(&format!("ask 8 1001 {}", hex(&bytes)));
    script.remark("63 requests, the most an option holds.");
    script.say(&format!("ask 7 1001 {}", asking(&[30; 63])));
    script.say("sheet");
    script.text
}

fn list_35_and_36_leases() -> String {
    let mut script = Script::new("A list of 35 leases has Len 249 and s clear; of 36, s set.");
    for count in [34, 35, 36, 37] {
        script.remark(&format!("{count} leases"));
        script.say(&format!(
            "load {}",
            image(&table(
                &[prefix(TEN, 16)],
                1000,
                row_of_leases(count, 7, 5000)
            ))
        ));
        let page = script.say("list 7 1000 dc050001020200");
        echo_page(&mut script, &page, 1000);
        script.remark("At 5000 they have ended.");
        script.say("list 7 4999 dc050001020200");
        script.say("list 7 5000 dc050001020200");
    }
    script.text
}

/// Sends a page back with a request, as a client does that wants the rest.
fn echo_page(script: &mut Script, page: &str, now: u32) -> Option<String> {
    let digits = page.trim_end().rsplit(' ').next()?;
    let len = u8::from_str_radix(digits.get(2..4)?, 16)
        .ok()?
        .checked_add(4)?;
    Some(script.say(&format!(
        "list 7 {now} dc{len:02x}{}01020200",
        digits.get(4..)?
    )))
}

fn list_pages(count: u32) -> String {
    let mut script = Script::new(&format!(
        "Pages of {count} leases of two clients, with a return between two pages."
    ));
    let mut leases = row_of_leases(count, 7, 5000);
    for (index, lease) in leases.iter_mut().enumerate() {
        if index % 4 == 0 {
            lease.client = 8;
        }
        if index % 9 == 0 {
            lease.state = State::Offered;
        }
        (lease.h, lease.d) = (index % 3 == 0, index % 5 == 0);
    }
    script.say(&format!(
        "load {}",
        image(&table(&[prefix(TEN, 16)], 1000, leases))
    ));
    let mut page = script.say("list 7 1000 dc050001020200");
    for round in 0..count / 35 + 1 {
        if round == 1 {
            script.say(&format!(
                "return 7 1001 {}",
                entries(&[prefix(TEN + 4, 30), prefix(TEN + 8, 30)])
            ));
        }
        match echo_page(&mut script, &page, 1001) {
            Some(next) => page = next,
            None => break,
        }
    }
    script.text
}

// Tables at their limits.

fn table_full_at_1024() -> String {
    let mut script = Script::new(
        "A table full at 1,024 leases: an ask is refused with 9; ended ones count as empty.",
    );
    script.say("open 3600 30 1000 10.0.0.0/16");
    for call in 0..40 {
        script.say(&format!(
            "ask {} {} {}",
            11 + call,
            1000 + call,
            asking(&[30; 25])
        ));
    }
    script.remark("1,000 now; 25 more asks, 24 are granted.");
    script.say(&format!("ask 8 1040 {}", asking(&[29; 25])));
    script.say("sheet");
    script.remark("Full: 9, also where there is no ground either.");
    for option in [
        asking(&[30]),
        asking(&[16]),
        asking(&[8]),
        asking(&[1]),
        asking(&[0, 0]),
    ] {
        script.say(&format!("ask 9 1040 {option}"));
    }
    script.say("save");
    script.remark("At 1119 nothing has ended yet, at 1120 the first 25 have.");
    script.say(&format!("ask 9 1119 {}", asking(&[30])));
    script.remark("Refused for want of ground now, and nothing is struck.");
    script.say(&format!("ask 9 1120 {}", asking(&[16])));
    script.say("save");
    script.say(&format!("ask 9 1120 {}", asking(&[24; 25])));
    script.say(&format!("ask 9 1120 {}", asking(&[30])));
    script.say("sheet");
    script.remark(
        "A lease returned makes an empty line, and its ground is ordinary ground again at once.",
    );
    script.say(&format!(
        "return 13 1120 {}",
        entries(&[prefix(TEN + 4 * 60, 30), prefix(TEN + 4 * 61, 30)])
    ));
    script.say(&format!("ask 7 1120 {}", asking(&[29, 30, 30])));
    script.say(&format!(
        "take 7 1120 {}",
        entries(&[prefix(TEN + 4 * 60, 29)])
    ));
    script.say("save");
    script.remark("All the offers have ended, the lease has not: no /16, and nothing is struck.");
    script.say(&format!("ask 7 1300 {}", asking(&[16])));
    script.say("save");
    script.say(&format!("ask 7 1300 {}", asking(&[17])));
    script.say("sheet");
    script.remark("All have ended.");
    script.say(&format!("ask 7 4720 {}", asking(&[16])));
    script.say("sheet");
    script.say("save");
    script.text
}

fn pools_at_both_ends() -> String {
    let mut script = Script::new("Pools at both ends of the address space.");
    for pools in [
        "0.0.0.0/8 255.0.0.0/8",
        "255.255.255.252/30 0.0.0.0/30",
        "0.0.0.0/30 0.0.0.4/30 255.255.255.248/30 255.255.255.252/30",
        "255.255.255.0/24",
        "0.0.0.0/24",
        "127.255.255.0/24 128.0.0.0/24",
    ] {
        script.say(&format!("open 3600 30 0 {pools}"));
        script.say("sheet");
        let lengths = [8, 9, 29, 30, 24, 25, 30, 30, 30, 8, 0];
        script.say(&format!("ask 4294967295 0 {}", asking(&lengths)));
        for length in [8, 30] {
            script.say(&format!("ask 1 0 {}", asking(&[length])));
        }
        script.say("sheet");
        script.say("save");
        let leases = script.console.table.used_leases().to_vec();
        let own = leases.iter().filter(|lease| lease.client == u32::MAX);
        let prefixes: Vec<Prefix> = own.map(|lease| lease.prefix).collect();
        script.say(&format!("take 4294967295 119 {}", entries(&prefixes)));
        script.say("list 4294967295 119 dc050001020200");
        script.remark("Position 0.0.0.0 passes over a lease at 0.0.0.0, no position does not.");
        for position in [
            prefix(0, 30),
            prefix(0, 1),
            prefix(0xffff_fffc, 30),
            prefix(0xffff_fff8, 30),
        ] {
            let pieces = option(&[request_i(), information(true, true, &[position])]);
            script.say(&format!("list 4294967295 119 {}", hex(&pieces)));
        }
        script.say(&format!("mark 119 {} 1", prefixes[0]));
        script.say(&format!("mark 119 {} 1", prefixes[prefixes.len() - 1]));
        script.say("save");
        script.say(&format!(
            "return 4294967295 120 {}",
            entries(&prefixes[..1])
        ));
        script.say("sheet");
    }
    script.text
}

// Every number in every call, and the row order.

/// Rows in the order of the table of numbers.
const ROWS: [u8; 14] = [1, 5, 15, 2, 3, 4, 6, 7, 16, 8, 17, 9, 10, 11];

/// The option for row 6, 7, 16 or 8, or the good one. Those for 7 and 16 have the wrong
/// piece of 8 as well.
fn option_for(row: u8, good: &str, wrong_piece: &str) -> String {
    let with_len = |body: String| format!("dc{:02x}{}", body.len() / 2, body);
    let body = &good[4..];
    match row {
        6 => format!("{good}090900"),
        7 => with_len(format!("{body}{wrong_piece}0103001f00")),
        16 => with_len(format!("{body}{wrong_piece}0102001f")),
        8 => with_len(format!("{body}{wrong_piece}")),
        _ => good.to_string(),
    }
}

/// Every combination of the rows that can apply to a call on the table as it is.
/// `call` makes the line of a client, a time and an option.
fn combinations(
    script: &mut Script,
    options: &[(u8, String)],
    outcome: u8,
    call: &dyn Fn(u32, u32, &str) -> String,
) {
    let sound = script.console.table.sound();
    // Counts alone can be wrong, and the last time then still says which times are before it.
    let has_time = script.console.table.sound_but_counts();
    // The first form where it can say all.
    let start = match image(&script.console.table).as_str() {
        "-" => second(&script.console.table),
        first => first.to_string(),
    };
    // Return has no reply buffer, so row 1 never applies to it; list has no sheet.
    let has_buffer = !call(0, 0, "-").starts_with("return");
    let has_sheet = !call(0, 0, "-").starts_with("list");
    let sheet = script.console.figures.clone();
    let matches = rows_of(&sheet).is_some_and(|rows| matches(&rows, &script.console.table));
    for buffer in [257, 256] {
        script.say(&format!("buffer {buffer}"));
        for client in [7, 0] {
            for (time, now) in [(0, 1000), (3, 999), (4, LATEST + 1)] {
                for (row, option) in options {
                    let mut rows = vec![time, *row, outcome];
                    if client == 0 {
                        rows.push(2);
                    }
                    if buffer == 256 && has_buffer {
                        rows.push(1);
                    }
                    if !matches && has_sheet {
                        rows.push(15);
                    }
                    if !has_time {
                        rows.retain(|row| *row != 3 && *row != outcome);
                    }
                    if !sound {
                        rows.push(5);
                    }
                    let applying: Vec<String> = ROWS
                        .iter()
                        .filter(|row| rows.contains(row))
                        .map(u8::to_string)
                        .collect();
                    let applying = if applying.is_empty() {
                        "none".to_string()
                    } else {
                        applying.join(" ")
                    };
                    script.remark(&format!("rows that apply: {applying}"));
                    let answer = script.say(&call(client, now, option));
                    if answer.starts_with("ok") {
                        script.say("save");
                        script.say(&format!("load {start}"));
                        if !matches {
                            script.say(&format!("figures {}", hex(&sheet)));
                        }
                    }
                }
            }
        }
    }
    script.say("buffer 257");
    script.say("save");
}

fn numbers_ask() -> String {
    let mut script = Script::new(
        "ask: every number, every combination of rows; the first that applies is given.",
    );
    let good = asking(&[30]);
    let options: Vec<(u8, String)> = [0, 6, 7, 16, 8]
        .into_iter()
        .map(|row| (row, option_for(row, &good, "01020200")))
        .collect();
    let call = |client: u32, now: u32, option: &str| format!("ask {client} {now} {option}");
    script.remark("No table yet: all zero, not sound.");
    combinations(&mut script, &options, 0, &call);
    script.remark("A table with ground and empty lines.");
    script.say("open 3600 28 1000 10.0.0.0/22");
    combinations(&mut script, &options, 0, &call);
    script.remark("No free block: 10.");
    let taken = vec![lease(prefix(TEN, 22), 7, State::Leased, u32::MAX)];
    script.say(&format!(
        "load {}",
        image(&table(&[prefix(TEN, 22)], 1000, taken))
    ));
    combinations(&mut script, &options, 10, &call);
    script.remark("Neither an empty line nor a free block: 9.");
    script.say(&format!(
        "load {}",
        image(&table(
            &[prefix(TEN, 20)],
            1000,
            row_of_leases(1_024, 7, u32::MAX)
        ))
    ));
    combinations(&mut script, &options, 9, &call);
    script.remark("The same, but the client holds a line of that length: it is given again.");
    let mut held = row_of_leases(1_024, 7, u32::MAX);
    held[900].state = State::Offered;
    script.say(&format!(
        "load {}",
        image(&table(&[prefix(TEN, 20)], 1000, held))
    ));
    combinations(&mut script, &options, 0, &call);
    script.text
}

fn numbers_with_entries(name: &str) -> String {
    let mut script = Script::new(&format!(
        "{name}: every number, every combination of rows; the first that applies is given."
    ));
    let call = |client: u32, now: u32, option: &str| format!("{name} {client} {now} {option}");
    let options = |at: Prefix| -> Vec<(u8, String)> {
        [0, 6, 7, 16, 8]
            .into_iter()
            .map(|row| (row, option_for(row, &entries(&[at]), "01020018")))
            .collect()
    };
    let held = prefix(TEN, 25);
    script.remark("No table yet: all zero, not sound.");
    combinations(&mut script, &options(held), 0, &call);
    let leases = vec![
        lease(held, 7, State::Offered, u32::MAX),
        lease(prefix(TEN + 128, 26), 8, State::Leased, 5000),
    ];
    script.say(&format!(
        "load {}",
        image(&table(&[prefix(TEN, 22)], 1000, leases))
    ));
    script.remark("The entry is found.");
    combinations(&mut script, &options(held), 0, &call);
    script.remark("Nothing found: 11. Another length, another client's lease, nothing there.");
    for at in [
        prefix(TEN, 26),
        prefix(TEN + 128, 26),
        prefix(TEN + 512, 24),
    ] {
        combinations(&mut script, &options(at), 11, &call);
    }
    script.text
}

fn numbers_list() -> String {
    let mut script = Script::new(
        "list: every number, every combination of rows; the first that applies is given.",
    );
    let good = "dc050001020200";
    let options: Vec<(u8, String)> = [0, 6, 7, 16, 8]
        .into_iter()
        .map(|row| (row, option_for(row, good, "01020018")))
        .collect();
    let call = |client: u32, now: u32, option: &str| format!("list {client} {now} {option}");
    script.remark("No table yet: all zero, not sound.");
    combinations(&mut script, &options, 0, &call);
    script.remark("One lease to list.");
    let leases = |state| vec![lease(prefix(TEN, 25), 7, state, u32::MAX)];
    script.say(&format!(
        "load {}",
        image(&table(&[prefix(TEN, 22)], 1000, leases(State::Leased)))
    ));
    combinations(&mut script, &options, 0, &call);
    script.remark("An offer only: 11.");
    script.say(&format!(
        "load {}",
        image(&table(&[prefix(TEN, 22)], 1000, leases(State::Offered)))
    ));
    combinations(&mut script, &options, 11, &call);
    script.text
}

// Images.

/// Two pools and two leases, 69 bytes.
fn small_table() -> Table {
    let mut leases = vec![
        lease(prefix(TEN + 256, 26), 7, State::Offered, 1120),
        lease(prefix(TEN + 384, 26), 8, State::Leased, 1120),
    ];
    (leases[1].h, leases[1].d) = (true, true);
    table(
        &[prefix(TEN + 256, 24), prefix(TEN + 2048, 26)],
        1000,
        leases,
    )
}

/// Loads these bytes; an accepted image is shown and taken back.
fn try_image(script: &mut Script, bytes: &[u8], start: &str) {
    if script.say(&format!("load {}", hex(bytes))) == "ok\n" {
        script.say("save");
        script.say(&format!("load {start}"));
    }
}

fn bytes_of(digits: &str) -> Vec<u8> {
    reference::words::hex(digits.as_bytes()).expect("hexadecimal digits")
}

fn image_fields() -> String {
    let mut script = Script::new("An image with each field at, before and past its limits.");
    let start = image(&small_table());
    let good = bytes_of(&start);
    script.say(&format!("load {start}"));
    // Place, width and name of each field.
    let fields = [
        (0, 2, "head: length"),
        (2, 2, "head: kind"),
        (4, 4, "head: term"),
        (8, 1, "head: default length"),
        (9, 4, "head: last time"),
        (13, 2, "first pool: length of the record"),
        (15, 2, "first pool: kind"),
        (17, 4, "first pool: network"),
        (21, 1, "first pool: length"),
        (26, 4, "second pool: network"),
        (30, 1, "second pool: length"),
        (31, 2, "first lease: length of the record"),
        (33, 2, "first lease: kind"),
        (35, 4, "first lease: network"),
        (39, 1, "first lease: length"),
        (40, 1, "first lease: state"),
        (41, 1, "first lease: flags"),
        (42, 4, "first lease: station"),
        (46, 4, "first lease: end"),
        (54, 4, "second lease: network"),
        (58, 1, "second lease: length"),
        (59, 1, "second lease: state"),
        (60, 1, "second lease: flags"),
        (61, 4, "second lease: station"),
        (65, 4, "second lease: end"),
    ];
    for (at, width, name) in fields {
        script.remark(name);
        let values: Vec<u32> = match width {
            1 => (0..=33).chain([64, 127, 128, 254, 255]).collect(),
            2 => (0..=20)
                .chain([255, 256, 257, 258, 259, 512, 65535])
                .collect(),
            _ => vec![
                0,
                1,
                7,
                59,
                60,
                61,
                999,
                1000,
                1001,
                1119,
                1120,
                1121,
                3600,
                2_591_999,
                2_592_000,
                2_592_001,
                LATEST - 1,
                LATEST,
                LATEST + 1,
                u32::MAX,
                TEN,
                TEN + 1,
                TEN + 255,
                TEN + 256,
                TEN + 260,
                TEN + 320,
                TEN + 352,
                TEN + 384,
                TEN + 388,
                TEN + 448,
                TEN + 512,
                TEN + 1024,
                TEN + 2047,
                TEN + 2048,
                TEN + 2112,
                0x0b00_0100,
                0xffff_ff00,
                0xffff_ffc0,
            ],
        };
        for value in values {
            let mut bytes = good.clone();
            bytes[at..at + width].copy_from_slice(&value.to_le_bytes()[..width]);
            try_image(&mut script, &bytes, &start);
        }
    }
    script.say("save");
    script.text
}

fn image_bit_flips() -> String {
    let mut script = Script::new("An image with each of its bits flipped.");
    let start = image(&small_table());
    let good = bytes_of(&start);
    script.say(&format!("load {start}"));
    for at in 0..8 * good.len() {
        let mut bytes = good.clone();
        bytes[at / 8] ^= 1 << (at % 8);
        try_image(&mut script, &bytes, &start);
    }
    script.say("sheet");
    script.text
}

fn image_cuts_and_additions() -> String {
    let mut script = Script::new(
        "Images cut, lengthened, with records left out, repeated and in another order.",
    );
    let start = image(&small_table());
    let good = bytes_of(&start);
    script.say(&format!("load {start}"));
    script.remark("Cut after each byte.");
    for cut in 0..good.len() {
        try_image(&mut script, &good[..cut], &start);
    }
    script.remark("Bytes after the last record.");
    for rest in [
        "00",
        "0000",
        "000000",
        "00000000",
        "02000400",
        "02000300",
        "02000000",
        "01000300",
        "070002000010000a18",
    ] {
        let mut bytes = good.clone();
        bytes.extend(bytes_of(rest));
        try_image(&mut script, &bytes, &start);
    }
    let records = [
        &good[..13],
        &good[13..22],
        &good[22..31],
        &good[31..50],
        &good[50..],
    ];
    script.remark("Each record left out, each one twice, each two swapped.");
    for first in 0..5 {
        let mut without = records.to_vec();
        without.remove(first);
        try_image(&mut script, &without.concat(), &start);
        let mut twice = records.to_vec();
        twice.insert(first, records[first]);
        try_image(&mut script, &twice.concat(), &start);
        for second in 0..first {
            let mut swapped = records.to_vec();
            swapped.swap(first, second);
            try_image(&mut script, &swapped.concat(), &start);
        }
    }
    script.remark("A ninth pool; pools and leases of zeros at each place.");
    for (at, zero) in [
        (13, "070002000000000000"),
        (22, "070002000000000000"),
        (31, "070002000000000000"),
        (31, "11000300000000000000000000000000000000"),
        (50, "11000300000000000000000000000000000000"),
        (69, "11000300000000000000000000000000000000"),
    ] {
        let mut bytes = good[..at].to_vec();
        bytes.extend(bytes_of(zero));
        bytes.extend(&good[at..]);
        try_image(&mut script, &bytes, &start);
    }
    let head = &good[..13];
    for count in [8, 9] {
        let mut bytes = head.to_vec();
        for index in 0..count {
            bytes.extend([7, 0, 2, 0, 0, 0, index, 10, 24]);
        }
        try_image(&mut script, &bytes, &start);
    }
    script.remark("A full table, one with a 1,025th lease, and with one byte more.");
    let full = bytes_of(&image(&full_table()));
    try_image(&mut script, &full, &start);
    let mut more = full.clone();
    more.extend(&full[full.len() - 19..]);
    try_image(&mut script, &more, &start);
    more.truncate(full.len() + 1);
    try_image(&mut script, &more, &start);
    script.say("save");
    script.text
}

// Options for the reader.

/// A long good option with every kind of piece.
fn rich_option() -> Vec<u8> {
    let told = Entry {
        network: TEN + 256,
        prefix: 24,
        h: true,
        d: false,
        figures: vec![10, 7, 2],
    };
    let skipped = Entry {
        network: TEN + 512,
        prefix: 23,
        h: false,
        d: true,
        figures: vec![0xffff],
    };
    let mut bytes = option(&[
        request(24, true),
        Suboption::Information(Information {
            c: true,
            s: false,
            entries: vec![told, skipped],
        }),
        Suboption::Name(b"west".to_vec()),
        request_i(),
    ]);
    bytes.extend([4, 4, 0, 0, 14, 16]);
    bytes[1] += 6;
    bytes
}

fn read_every_cut() -> String {
    let mut script = Script::new(
        "A good option cut after each byte (with Len as it was, and with Len made to fit).",
    );
    let good = rich_option();
    script.say(&format!("read {}", hex(&good)));
    for cut in 1..good.len() {
        script.say(&format!("read {}", hex(&good[..cut])));
    }
    for cut in 2..good.len() {
        let mut bytes = good[..cut].to_vec();
        bytes[1] = (cut - 2) as u8;
        script.say(&format!("read {}", hex(&bytes)));
    }
    script.remark("Each byte set to 0, 1, 2, 3, 31, 255.");
    for at in 0..good.len() {
        for value in [0, 1, 2, 3, 31, 255] {
            let mut bytes = good.clone();
            bytes[at] = value;
            script.say(&format!("read {}", hex(&bytes)));
        }
    }
    script.text
}

fn read_places_up_to_256() -> String {
    let mut script =
        Script::new("A bad suboption after an unknown one of each length: places 5 to 256.");
    for skipped in (0..=251u8).filter(|skipped| skipped % 16 == 0 || *skipped > 240 || *skipped < 4)
    {
        let mut bytes = vec![220, 0, 0, 9, skipped];
        bytes.extend(vec![1; usize::from(skipped)]);
        bytes.push(1);
        bytes[1] = (bytes.len() - 2) as u8;
        script.say(&format!("read {}", hex(&bytes)));
    }
    script.remark("63 requests, the last of them bad, and all good.");
    let mut bytes = option(&vec![request(30, false); 63]);
    script.say(&format!("read {}", hex(&bytes)));
    let last = bytes.len() - 1;
    bytes[last] = 31;
    script.say(&format!("read {}", hex(&bytes)));
    script.remark("35 entries, the last of them bad: the place is the suboption's.");
    let mut bytes = option(&[information(true, true, &[prefix(TEN, 30); 35])]);
    script.say(&format!("read {}", hex(&bytes)));
    let last = bytes.len() - 3;
    bytes[last] = 31;
    script.say(&format!("read {}", hex(&bytes)));
    script.remark("The longest option, and one byte more.");
    let mut bytes = option(&[Suboption::Name(vec![0x61; 252])]);
    script.say(&format!("read {}", hex(&bytes)));
    bytes.push(0x61);
    script.say(&format!("read {}", hex(&bytes)));
    script.text
}

fn random_suboption(numbers: &mut Numbers) -> Suboption {
    match numbers.below(4) {
        0 | 1 => Suboption::Request(Request {
            h: numbers.once_in(2),
            i: numbers.once_in(2),
            prefix: numbers.between(0, 30) as u8,
        }),
        2 => {
            let entries = (0..numbers.between(1, 3))
                .map(|_| {
                    let length = numbers.between(1, 30) as u8;
                    Entry {
                        network: (numbers.draw() as u32) & (u32::MAX << (32 - length)),
                        prefix: length,
                        h: numbers.once_in(2),
                        d: numbers.once_in(2),
                        figures: (0..numbers.below(4))
                            .map(|_| numbers.draw() as u16)
                            .collect(),
                    }
                })
                .collect();
            Suboption::Information(Information {
                c: numbers.once_in(2),
                s: numbers.once_in(2),
                entries,
            })
        }
        _ => Suboption::Name(
            (0..numbers.between(1, 5))
                .map(|_| numbers.between(1, 255) as u8)
                .collect(),
        ),
    }
}

/// An option of random suboptions, most with a byte or two changed; seldom too long,
/// and then it has no bytes.
fn random_option(numbers: &mut Numbers) -> Vec<u8> {
    let list: Vec<Suboption> = (0..numbers.between(1, 4))
        .map(|_| random_suboption(numbers))
        .collect();
    let mut bytes = option(&list);
    if bytes.is_empty() {
        return bytes;
    }
    for _ in 0..numbers.below(3) {
        let at = numbers.below(bytes.len());
        bytes[at] = if numbers.once_in(2) {
            numbers.below(10) as u8
        } else {
            numbers.draw() as u8
        };
    }
    bytes
}

fn read_random_options() -> String {
    let mut script = Script::new("Random options, most with a byte or two changed.");
    let mut numbers = Numbers::new(31);
    for _ in 0..1_200 {
        let bytes = random_option(&mut numbers);
        if !bytes.is_empty() {
            script.say(&format!("read {}", hex(&bytes)));
        }
    }
    script.text
}

// Sheets: two lines each, `load IMAGE` and `sheet`.

fn sheet_script(table: &Table) -> String {
    format!("load {}\nsheet\n", image(table))
}

fn one_full_pool() -> Table {
    table(
        &[prefix(TEN, 20)],
        1000,
        row_of_leases(1_024, u32::MAX, 1001),
    )
}

fn eight_pools() -> Table {
    let pools = [
        prefix(0, 8),
        prefix(TEN, 25),
        prefix(TEN + 128, 25),
        prefix(TEN + 512, 24),
        prefix(0x7fff_ff00, 24),
        prefix(0x8000_0000, 9),
        prefix(0xc0a8_0000, 16),
        prefix(0xffff_fffc, 30),
    ];
    let leases = vec![
        lease(prefix(0, 30), 1, State::Leased, 1120),
        lease(prefix(TEN + 64, 27), 2, State::Offered, 1120),
        lease(prefix(TEN + 512, 24), 3, State::Leased, 4600),
        lease(prefix(0x7fff_fffc, 30), 4, State::Leased, 4600),
        lease(prefix(0x8000_0000, 10), 5, State::Leased, 4600),
        lease(
            prefix(0xffff_fffc, 30),
            4_294_967_295,
            State::Leased,
            u32::MAX,
        ),
    ];
    table(&pools, 1000, leases)
}

fn sheet_over_long() -> String {
    let full = image(&full_table());
    format!("load {full}00\nsheet\n")
}

// Random calls.

/// A crowded table has long asks of many clients and little time between the calls, so
/// that it is full at times.
fn random_calls(start: u64, pools: &str, shortest: usize, crowded: bool) -> String {
    let mut numbers = Numbers::new(start);
    let mut script = Script::new(&format!("Random calls on {pools}"));
    let (calls, between_saves) = if crowded { (400, 50) } else { (500, 25) };
    let clients = if crowded { 60 } else { 6 };
    script.say(&format!(
        "open 600 {} 1000 {pools}",
        numbers.between(shortest, 30)
    ));
    let mut now: u32 = 1000;
    for step in 0..calls {
        now += if crowded {
            [0, 0, 0, 1, 2][numbers.below(5)]
        } else {
            [0, 0, 0, 1, 5, 40][numbers.below(6)]
        };
        let leases = script.console.table.used_leases().to_vec();
        let mut named = Vec::new();
        for _ in 0..numbers.between(1, 5) {
            if leases.is_empty() || numbers.once_in(10) {
                named.push(prefix(TEN + 4 * numbers.below(64) as u32, 30));
            } else {
                named.push(leases[numbers.below(leases.len())].prefix);
            }
        }
        let owner = leases
            .iter()
            .find(|lease| lease.prefix == named[0])
            .map(|lease| lease.client);
        let client = match owner {
            Some(owner) if !numbers.once_in(5) => owner,
            _ => numbers.between(1, clients) as u32,
        };
        if numbers.once_in(2) {
            named.retain(|at| {
                leases
                    .iter()
                    .any(|lease| lease.prefix == *at && lease.client == client)
            });
        }
        if named.is_empty() {
            named.push(prefix(TEN, 30));
        }
        // A little before the last time now and then.
        let time = if numbers.once_in(40) {
            now.saturating_sub(50)
        } else {
            now
        };
        match numbers.below(20) {
            0..=5 => {
                let many = if crowded || numbers.once_in(6) { 25 } else { 5 };
                let list: Vec<Suboption> = (0..numbers.between(1, many))
                    .map(|_| match numbers.below(12) {
                        0 => request(0, false),
                        1 => Suboption::Name(b"pool".to_vec()),
                        _ => request(numbers.between(shortest, 30) as u8, numbers.once_in(2)),
                    })
                    .collect();
                script.say(&format!(
                    "ask {} {time} {}",
                    numbers.between(1, clients),
                    hex(&option(&list))
                ));
            }
            6..=10 => {
                script.say(&format!("take {client} {time} {}", entries(&named)));
            }
            11..=13 => {
                script.say(&format!("return {client} {time} {}", entries(&named)));
            }
            14 | 15 => {
                let mut list = vec![request_i()];
                if numbers.once_in(2) {
                    list.push(information(true, !numbers.once_in(4), &named));
                }
                script.say(&format!("list {client} {time} {}", hex(&option(&list))));
            }
            16 | 17 => {
                script.say(&format!("mark {time} {} {}", named[0], numbers.below(2)));
            }
            18 => {
                let mut bytes = option(&[information(false, false, &named), request_i()]);
                let at = numbers.below(bytes.len());
                bytes[at] = numbers.below(10) as u8;
                script.say(&format!("take {client} {time} {}", hex(&bytes)));
            }
            _ if crowded => {
                script.say(&format!("ask {client} {time} {}", asking(&[30])));
            }
            _ => {
                script.say("sheet");
            }
        }
        if step % between_saves == between_saves - 1 {
            script.say("save");
        }
    }
    script.say("sheet");
    script.text
}

// The console's text.

fn console_long_lines() -> Vec<u8> {
    let mut script =
        b"# Lines of 100,000 bytes are read, longer ones are errors, comments too.\n".to_vec();
    script.extend(b"read ");
    script.extend(vec![b'0'; 99_994]);
    script.extend(b" \nread  ");
    script.extend(vec![b'0'; 99_994]);
    script.extend(b" \n#");
    script.extend(vec![b'x'; 99_999]);
    script.extend(b"\r\n#");
    script.extend(vec![b'x'; 100_000]);
    script.extend(b"\n");
    script.extend(vec![b' '; 100_001]);
    script.extend(b"\nsave\n");
    // A number with as many leading zeros as fit, and as many words as fit.
    script.extend(b"write request h=0 i=0 prefix=");
    script.extend(vec![b'0'; 99_969]);
    script.extend(b"24\nwrite");
    script.extend(b" unknown".repeat(12_499));
    script.extend(b"\nsave\n");
    script
}

fn console_any_bytes() -> Vec<u8> {
    let mut numbers = Numbers::new(41);
    let words = "open ask take list return mark save load sheet whole counts read buffer 0 7 1000 1001 3600 28 \
                 257 10.0.0.0/8 10.0.0.0/28 dc05000102001c dc050001020200 \
                 dc0b000208000a0000001c0000 - # 1 07 4294967296 \t -1";
    let words: Vec<&[u8]> = words.split(' ').map(str::as_bytes).collect();
    let good: [&[u8]; 7] = [
        b"open 3600 28 1000 10.0.0.0/8",
        b"ask 7 1000 dc05000102001c",
        b"take 7 1000 dc0b000208000a0000001c0000",
        b"list 7 1000 dc050001020200",
        b"mark 1000 10.0.0.0/28 1",
        b"save",
        b"sheet",
    ];
    let mut script = Vec::new();
    for _ in 0..1_500 {
        match numbers.below(4) {
            0 => {
                for _ in 0..numbers.between(0, 20) {
                    script.push(numbers.draw() as u8);
                }
            }
            1 => {
                let mut line = good[numbers.below(good.len())].to_vec();
                let at = numbers.below(line.len());
                line[at] = numbers.draw() as u8;
                script.extend(line);
            }
            2 => script.extend(good[numbers.below(good.len())]),
            _ => {
                for _ in 0..numbers.between(0, 5) {
                    script.extend(vec![b' '; numbers.below(3)]);
                    script.extend(words[numbers.below(words.len())]);
                    script.push(b' ');
                }
            }
        }
        script.extend(if numbers.once_in(6) {
            &b"\r\n"[..]
        } else {
            b"\n"
        });
    }
    script
}
