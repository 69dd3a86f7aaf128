//! The console's `write`: its words and limits, and that it undoes `read`.

use reference::console::Console;
use reference::suboptions::{list_of, text_of};

use crate::common::*;

const REQUEST: &str = "request h=0 i=0 prefix=24";
const INFORMATION: &str = "information c=0 s=0";
const ENTRY: &str = "entry 10.0.1.0/24 h=0 d=0 figures=-";

/// The answer to `write` and these words, with a buffer of this length.
fn write_into(buffer: usize, words: &str) -> String {
    let mut console = Console::new();
    console.line(format!("buffer {buffer}").as_bytes());
    console.line(format!("write {words}").as_bytes())
}

fn write(words: &str) -> String {
    write_into(257, words)
}

const ERROR: &str = "error line 2\n";

fn repeated(words: &str, count: usize) -> String {
    vec![words; count].join(" ")
}

/// An information of so many entries.
fn entries_words(count: usize) -> String {
    format!("{INFORMATION} {}", repeated(ENTRY, count))
}

fn name(octets: usize) -> String {
    format!("name {}", "61".repeat(octets))
}

#[test]
fn the_examples() {
    assert_eq!(write(REQUEST), "ok bytes=7 dc050001020018\n");
    assert_eq!(
        write(
            "information c=0 s=0 entry 10.0.1.0/24 h=0 d=1 figures=10,7,2 \
             entry 10.0.2.0/24 h=0 d=0 figures=-"
        ),
        "ok bytes=26 dc18000215000a000100180106000a000700020a000200180000\n"
    );
    assert_eq!(write("name 77657374 unknown"), "refused 13\n");
    assert_eq!(write("name 77657374"), "ok bytes=9 dc0700030477657374\n");
    assert_eq!(write("address 10.0.1.0"), "ok bytes=6 76040a000100\n");
    assert_eq!(write(""), "refused 13\n");
}

#[test]
fn every_bit_has_its_place() {
    for (words, digits) in [
        ("request h=1 i=0 prefix=0", "dc050001020100"),
        ("request h=0 i=1 prefix=30", "dc05000102021e"),
        ("request h=1 i=1 prefix=1", "dc050001020301"),
        (
            "information c=1 s=0 entry 128.0.0.0/1 h=0 d=0 figures=-",
            "dc0b00020802800000000100 00",
        ),
        (
            "information c=0 s=1 entry 255.255.255.252/30 h=1 d=0 figures=65535",
            "dc0d00020a01fffffffc1e0202ffff",
        ),
        (
            "information c=1 s=1 entry 0.0.0.0/30 h=0 d=1 figures=1,256",
            "dc0f00020c03000000001e010400010100",
        ),
    ] {
        let digits = digits.replace(' ', "");
        let answer = format!("ok bytes={} {digits}\n", digits.len() / 2);
        assert_eq!(write(words), answer, "{words}");
    }
}

#[test]
fn suboptions_outside_the_rules_get_13() {
    for words in [
        "request h=0 i=0 prefix=31",
        "request h=0 i=1 prefix=255",
        "information c=0 s=0",
        "information c=0 s=0 entry 0.0.0.0/0 h=0 d=0 figures=-",
        "information c=0 s=0 entry 0.0.0.0/31 h=0 d=0 figures=-",
        "information c=0 s=0 entry 0.0.0.0/255 h=0 d=0 figures=-",
        "information c=0 s=0 entry 10.0.1.1/24 h=0 d=0 figures=-",
        "information c=0 s=0 entry 10.0.1.0/23 h=0 d=0 figures=-",
        "information c=0 s=0 entry 10.0.1.0/24 h=0 d=0 figures=1,2,3,4",
        "name -",
        "name 00",
        "name 616200",
        "unknown",
    ] {
        assert_eq!(write(words), "refused 13\n", "{words}");
        // Wherever it stands, and before 14.
        for line in [
            format!("{REQUEST} {words}"),
            format!("{words} {REQUEST}"),
            format!("{} {words}", name(253)),
            format!("{words} {}", name(253)),
            format!("{} {words}", repeated(REQUEST, 64)),
        ] {
            assert_eq!(write(&line), "refused 13\n", "{line}");
        }
        assert_eq!(write_into(0, words), "refused 13\n", "{words}");
    }
    assert_eq!(write_into(0, ""), "refused 13\n");
}

#[test]
fn more_than_len_or_the_buffer_holds_gets_14() {
    for (words, bytes) in [
        (REQUEST.to_string(), 7),
        (name(1), 6),
        (name(252), 257),
        (repeated(REQUEST, 63), 255),
        (entries_words(1), 13),
        (entries_words(35), 251),
        (
            format!("{} {INFORMATION} {ENTRY}", name(1)).replace("figures=-", "figures=1,2,3"),
            22,
        ),
        ("address 255.255.255.255".to_string(), 6),
    ] {
        for buffer in [bytes, bytes + 1, 1_024] {
            let answer = write_into(buffer, &words);
            assert!(answer.starts_with(&format!("ok bytes={bytes} ")), "{words}");
        }
        for buffer in [0, bytes - 1] {
            assert_eq!(write_into(buffer, &words), "refused 14\n", "{words}");
        }
    }
    // Len 256 and more: of the option alone, and of a name or information too.
    for words in [
        name(253),
        name(255),
        name(256),
        entries_words(36),
        entries_words(37),
        entries_words(64),
        repeated(REQUEST, 64),
        format!("{} {}", name(128), name(128)),
        format!("{} {}", name(249), REQUEST),
        entries_words(35).replace("figures=-", "figures=1"),
    ] {
        assert_eq!(write_into(1_024, &words), "refused 14\n", "{words}");
    }
}

#[test]
fn limits_of_a_line() {
    // Not above the limit: what the writer says. Above it: an error.
    for (good, answer, bad) in [
        (repeated(REQUEST, 96), "refused 14\n", repeated(REQUEST, 97)),
        (
            repeated("unknown", 96),
            "refused 13\n",
            repeated("unknown", 97),
        ),
        (
            repeated("name -", 96),
            "refused 13\n",
            repeated("name -", 97),
        ),
        (
            repeated(INFORMATION, 96),
            "refused 13\n",
            repeated(INFORMATION, 97),
        ),
        (entries_words(64), "refused 14\n", entries_words(65)),
        (
            repeated(&entries_words(1), 64),
            "refused 14\n",
            repeated(&entries_words(1), 65),
        ),
        (
            format!("{} {}", entries_words(60), entries_words(4)),
            "refused 14\n",
            format!("{} {}", entries_words(60), entries_words(5)),
        ),
        (name(256), "refused 14\n", name(257)),
        (
            repeated(&name(4), 64),
            "refused 14\n",
            format!("{} {}", repeated(&name(4), 64), name(1)),
        ),
        (
            format!("unknown {}", name(256)),
            "refused 13\n",
            format!("unknown {}", name(257)),
        ),
    ] {
        assert_eq!(write(&good), answer, "{good}");
        assert_eq!(write(&bad), ERROR, "{bad}");
        assert_eq!(write_into(0, &bad), ERROR, "{bad}");
    }
    // 32 suboptions without entry beside 64 with one each are 96.
    let words = format!(
        "{} {}",
        repeated(&entries_words(1), 64),
        repeated("unknown", 32)
    );
    assert_eq!(write(&words), "refused 13\n");
    assert_eq!(write(&format!("{words} unknown")), ERROR);
}

#[test]
fn words_that_mean_the_same() {
    let plain = write("information c=0 s=0 entry 10.0.1.0/24 h=0 d=0 figures=7,0");
    for words in [
        "  information   c=0 s=0 entry  10.0.1.0/24 h=0 d=0 figures=7,0  ",
        "information c=0 s=0 entry 010.000.1.00/0024 h=0 d=0 figures=007,00000000000",
        "information c=0 s=0 entry 10.0.1.0/24 h=0 d=0 figures=7,0\r",
    ] {
        assert_eq!(write(words), plain, "{words}");
    }
    assert_eq!(write("request h=0 i=0 prefix=024"), write(REQUEST));
    assert_eq!(write("name AbcD"), write("name abcd"));
    assert_eq!(write("address 010.0.01.000"), write("address 10.0.1.0"));
}

#[test]
fn words_that_are_not_these() {
    for words in [
        // Each piece has all its words, in their order.
        "request",
        "request h=0",
        "request h=0 i=0",
        "request h=0 prefix=24",
        "request i=0 h=0 prefix=24",
        "request h=0 i=0 24",
        "request h=0 i=0 prefix=24 prefix=24",
        "request h=0 i=0 c=0 prefix=24",
        "request h =0 i=0 prefix=24",
        "request h= 0 i=0 prefix=24",
        "request h:0 i=0 prefix=24",
        "information",
        "information c=0",
        "information s=0 c=0 entry 10.0.1.0/24 h=0 d=0 figures=-",
        "information c=0 s=0 entry",
        "information c=0 s=0 entry 10.0.1.0/24",
        "information c=0 s=0 entry 10.0.1.0/24 h=0 d=0",
        "information c=0 s=0 entry 10.0.1.0/24 d=0 h=0 figures=-",
        "information c=0 s=0 entry 10.0.1.0/24 figures=- h=0 d=0",
        "information c=0 s=0 10.0.1.0/24 h=0 d=0 figures=-",
        "name",
        "name name 61",
        "unknown 4",
        "h=0",
        "-",
        "#",
        "ok",
        "request h=0 i=0 prefix=24 ok",
        "dc050001020018",
        // Lower case.
        "Request h=0 i=0 prefix=24",
        "request H=0 i=0 prefix=24",
        "REQUEST H=0 I=0 PREFIX=24",
        "NAME 61",
        // Bits.
        "request h=2 i=0 prefix=24",
        "request h=01 i=0 prefix=24",
        "request h= i=0 prefix=24",
        "request h=0 i=- prefix=24",
        "information c=2 s=0 entry 10.0.1.0/24 h=0 d=0 figures=-",
        "information c=0 s=0 entry 10.0.1.0/24 h=0 d=x figures=-",
        // Lengths.
        "request h=0 i=0 prefix=256",
        "request h=0 i=0 prefix=",
        "request h=0 i=0 prefix=-",
        "request h=0 i=0 prefix=-1",
        "request h=0 i=0 prefix=+1",
        "request h=0 i=0 prefix=0x18",
        "request h=0 i=0 prefix=4294967320",
        "information c=0 s=0 entry 10.0.1.0/256 h=0 d=0 figures=-",
        "information c=0 s=0 entry 10.0.1.0 h=0 d=0 figures=-",
        "information c=0 s=0 entry 10.0.1/24 h=0 d=0 figures=-",
        "information c=0 s=0 entry 10.0.256.0/24 h=0 d=0 figures=-",
        // Figures.
        "information c=0 s=0 entry 10.0.1.0/24 h=0 d=0 figures=",
        "information c=0 s=0 entry 10.0.1.0/24 h=0 d=0 figures=,",
        "information c=0 s=0 entry 10.0.1.0/24 h=0 d=0 figures=1,",
        "information c=0 s=0 entry 10.0.1.0/24 h=0 d=0 figures=,1",
        "information c=0 s=0 entry 10.0.1.0/24 h=0 d=0 figures=1,,2",
        "information c=0 s=0 entry 10.0.1.0/24 h=0 d=0 figures=-,1",
        "information c=0 s=0 entry 10.0.1.0/24 h=0 d=0 figures=--",
        "information c=0 s=0 entry 10.0.1.0/24 h=0 d=0 figures=1, 2",
        "information c=0 s=0 entry 10.0.1.0/24 h=0 d=0 figures=65536",
        "information c=0 s=0 entry 10.0.1.0/24 h=0 d=0 figures=1,2,4294967296",
        "information c=0 s=0 entry 10.0.1.0/24 h=0 d=0 figures=1,2,3,4,5",
        // Octets.
        "name 6",
        "name 616",
        "name 6g",
        "name 0x61",
        "name --",
        "name west",
        // An entry belongs to an information.
        "entry 10.0.1.0/24 h=0 d=0 figures=-",
        "request h=0 i=0 prefix=24 entry 10.0.1.0/24 h=0 d=0 figures=-",
        "information c=0 s=0 entry 10.0.1.0/24 h=0 d=0 figures=- name 61 \
         entry 10.0.1.0/24 h=0 d=0 figures=-",
        "information c=0 s=0 unknown entry 10.0.1.0/24 h=0 d=0 figures=-",
        // An address stands alone.
        "address",
        "address -",
        "address 10.0.1.0/24",
        "address 10.0.1",
        "address 10.0.1.0.0",
        "address 10.0.1.256",
        "address 10.0.1.0 address 10.0.1.0",
        "address 10.0.1.0 unknown",
        "unknown address 10.0.1.0",
        "Address 10.0.1.0",
    ] {
        assert_eq!(write(words), ERROR, "{words}");
        // 13, 14 and a limit passed make no difference.
        for line in [
            format!("unknown {words}"),
            format!("{} {words}", name(257)),
            format!("{words} {}", repeated("unknown", 97)),
        ] {
            assert_eq!(write_into(0, &line), ERROR, "{line}");
        }
    }
    assert_eq!(Console::new().line(b"Write"), "error line 1\n");
    assert_eq!(Console::new().line(b"write\t"), "error line 1\n");
}

#[test]
fn a_refused_or_accepted_write_leaves_the_table() {
    let mut console = Console::new();
    console.line(b"open 3600 28 1000 10.0.1.0/24");
    console.line(b"ask 7 1000 dc05000102001a");
    let image = console.line(b"save");
    for words in [REQUEST, "unknown", "entry", "address 10.0.1.0"] {
        console.line(format!("write {words}").as_bytes());
        assert_eq!(console.line(b"save"), image);
    }
    // The buffer is that of the calls, before and after.
    assert_eq!(console.buffer.len(), 257);
    let again = console.line(b"ask 8 1000 dc05000102001a");
    assert_eq!(again, "ok bytes=13 count=1 dc0b000208000a0001401a0000\n");
}

#[test]
fn words_and_lists_undo_each_other() {
    let mut numbers = Numbers::new(5);
    let (mut written, mut long) = (0, 0);
    for _ in 0..5_000 {
        let list = random_list(&mut numbers, 14);
        let text = text_of(&list);
        let words: Vec<&[u8]> = text.split_whitespace().map(str::as_bytes).collect();
        assert_eq!(list_of(&words), Some(list));
        // Written, read, and written again from what `read` prints.
        let line = text.replace('\n', " ");
        let answer = write(&line);
        let Some(digits) = answer.strip_prefix("ok bytes=") else {
            assert_eq!(answer, "refused 14\n");
            long += 1;
            continue;
        };
        let (bytes, digits) = digits.trim_end().split_once(' ').unwrap();
        assert_eq!(digits.len(), 2 * bytes.parse::<usize>().unwrap());
        let read = Console::new().line(format!("read {digits}").as_bytes());
        assert_eq!(read, format!("{text}ok\n"));
        assert_eq!(write(&read.replace("ok\n", "").replace('\n', " ")), answer);
        written += 1;
    }
    assert!(written > 3_000 && long > 300, "{written} {long}");
}
