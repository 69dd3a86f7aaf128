//! The console's text.

use reference::console::run;

use crate::common::Numbers;

fn answers(script: &[u8]) -> String {
    let mut out = Vec::new();
    run(script, &mut out).unwrap();
    String::from_utf8(out).unwrap()
}

#[test]
fn the_example() {
    let script = b"open 3600 28 1000 10.0.1.0/24\nask 7 1000 dc05000102001a\nask 8 1000 dc050001020019\nsheet\n";
    assert_eq!(
        answers(script),
        "ok\n\
         ok bytes=13 count=1 dc0b000208000a0001001a0000\n\
         ok bytes=13 count=1 dc0b000208000a000180190000\n\
         sheet lines=2 free=1\n\
         used 10.0.1.0/26 station 7 until 1120\n\
         free 10.0.1.64/26\n\
         used 10.0.1.128/25 station 8 until 1120\n"
    );
}

#[test]
fn read_writes_a_line_for_each_piece() {
    let script = b"read DC1D0001020200020e020A000100180106000a000700020304776573740900\n\
                   read dc0b000208010a000100180200\n\
                   read 76040a000100\n\
                   read 760300000000\n\
                   read dc05000102001f\n\
                   read dc050001030018\n\
                   read dc0500010200 18\n\
                   read -\n";
    assert_eq!(
        answers(script),
        "request h=0 i=1 prefix=0\n\
         information c=1 s=0\n\
         entry 10.0.1.0/24 h=0 d=1 figures=10,7,2\n\
         name 77657374\n\
         unknown\n\
         ok\n\
         information c=0 s=1\n\
         entry 10.0.1.0/24 h=1 d=0 figures=-\n\
         ok\n\
         address 10.0.1.0\n\
         ok\n\
         refused 6\n\
         refused 16 place=3\n\
         refused 7 place=3\n\
         error line 7\n\
         refused 6\n"
    );
}

#[test]
fn words_lines_and_errors() {
    for (line, answer) in [
        (&b""[..], ""),
        (b"   ", ""),
        (b"\r\n", ""),
        (b"# anything \xff\t", ""),
        (b"  #x", ""),
        (b"figures", "ok\n"),
        (b"  figures  \r\n", "ok\n"),
        (b"figures -", "error line 1\n"),
        (b"figures 00", "error line 1\n"),
        (b"figures 0", "error line 1\n"),
        (b"figures #", "error line 1\n"),
        (b"Figures", "error line 1\n"),
        (b"figures\t", "error line 1\n"),
        (b"figure", "error line 1\n"),
        (b"whole 26", "refused 5\n"),
        (b"whole 4294967295", "refused 5\n"),
        (b"whole 4294967296", "error line 1\n"),
        (b"whole", "error line 1\n"),
        (b"whole 26 27", "error line 1\n"),
        (b"whole -1", "error line 1\n"),
        (b"whole /26", "error line 1\n"),
        (b"counts", "refused 5\n"),
        (b"counts -", "error line 1\n"),
        (b"counts 00", "error line 1\n"),
        (b"counts 0 0", "error line 1\n"),
        (b"count", "error line 1\n"),
        (b"buffer 0", "ok\n"),
        (b"  buffer   1024  ", "ok\n"),
        (b"buffer 0000000000000000257\r\n", "ok\n"),
        (b"buffer 257\r", "ok\n"),
        (b"buffer 257\r\r\n", "error line 1\n"),
        (b"buffer 1025", "error line 1\n"),
        (b"buffer 4294967296", "error line 1\n"),
        (b"buffer", "error line 1\n"),
        (b"buffer 1 2", "error line 1\n"),
        (b"buffer +1", "error line 1\n"),
        (b"buffer -1", "error line 1\n"),
        (b"buffer\t1", "error line 1\n"),
        (b"Buffer 1", "error line 1\n"),
        (b"buffer\0 1", "error line 1\n"),
        (b"\xff\xfe", "error line 1\n"),
        (b"save", "refused 5\n"),
        (b"save 1", "refused 5\n"),
        (b"save 2", "refused 5\n"),
        (b"  save   2  \r", "refused 5\n"),
        (b"save 0", "error line 1\n"),
        (b"save 3", "error line 1\n"),
        (b"save 01", "error line 1\n"),
        (b"save 12", "error line 1\n"),
        (b"save 1 2", "error line 1\n"),
        (b"save 1 older", "refused 5\n"),
        (b" save  2   older \r", "refused 5\n"),
        (b"save older", "error line 1\n"),
        (b"save older 1", "error line 1\n"),
        (b"save 3 older", "error line 1\n"),
        (b"save 1 newer", "error line 1\n"),
        (b"save 1 Older", "error line 1\n"),
        (b"save 1 older 2", "error line 1\n"),
        (b"save second", "error line 1\n"),
        (b"save -", "error line 1\n"),
        (b"save +1", "error line 1\n"),
        (b"save\t1", "error line 1\n"),
        (b"Save 1", "error line 1\n"),
        (b"sheet", "refused 5\n"),
        (b"sheet #", "error line 1\n"),
        (b"load -", "refused 5\n"),
        (b"load 0", "error line 1\n"),
        (b"load 0x00", "error line 1\n"),
        (b"load --", "error line 1\n"),
        (b"read -", "refused 6\n"),
        (b"read", "error line 1\n"),
        (b"open 3600 28 0", "refused 12\n"),
        (b"open 3600 256 0", "error line 1\n"),
        (b"open 3600 255 0 10.0.0.0/8", "refused 12\n"),
        (b"open 3600 28 0 10.0.0.0/8", "ok\n"),
        (b"open 3600 28 0 010.000.0.0/08", "ok\n"),
        (b"open 3600 28 0 10.0.0/8", "error line 1\n"),
        (b"open 3600 28 0 10.0.0.0.0/8", "error line 1\n"),
        (b"open 3600 28 0 10.0.0.0", "error line 1\n"),
        (b"open 3600 28 0 10.0.0.0/8/8", "error line 1\n"),
        (b"open 3600 28 0 10.0.0.256/8", "error line 1\n"),
        (b"open 3600 28 0 10.0.0.0/256", "error line 1\n"),
        (b"open 3600 28 0 10.0.0.0/255", "refused 12\n"),
        (b"open 3600 28 0 10.0..0/8", "error line 1\n"),
        (b"open 3600 28 0 10.0.0.0/", "error line 1\n"),
        (b"mark 0 10.0.0.0/8 1", "refused 5\n"),
        (b"mark 0 10.0.0.0/8 2", "error line 1\n"),
        (b"mark 0 10.0.0.0/8 01", "error line 1\n"),
        (b"mark 0 10.0.0.0/8", "error line 1\n"),
        (b"return 7 0 -", "refused 5\n"),
        (b"ask 7 0 -", "refused 5\n"),
        (b"take 7 4294967295 -", "refused 5\n"),
        (b"list 7 4294967296 -", "error line 1\n"),
        (b"list 7 0 DcFf", "refused 5\n"),
        (b"list 7 0 gg", "error line 1\n"),
        (b"selection on", "ok\n"),
        (b"  selection   off \r\n", "ok\n"),
        (b"selection", "error line 1\n"),
        (b"selection 1", "error line 1\n"),
        (b"selection On", "error line 1\n"),
        (b"selection on on", "error line 1\n"),
        (b"selection on off", "error line 1\n"),
        (b"selections on", "error line 1\n"),
        (b"ask 7 0 - -", "refused 5\n"),
        (b"ask 7 0 - 76040a000100", "refused 5\n"),
        (b"ask 7 0 - 7", "error line 1\n"),
        (b"ask 7 0 - 10.0.1.0", "error line 1\n"),
        (b"ask 7 0 - - -", "error line 1\n"),
        (b"ask 7 0", "error line 1\n"),
        (b"take 7 0 - 76", "refused 5\n"),
        (b"take 7 0 - 0x76", "error line 1\n"),
        (b"take 7 0 - 76 04", "error line 1\n"),
        (b"list 7 0 - -", "error line 1\n"),
        (b"list 7 0 - 76040a000100", "error line 1\n"),
        (b"return 7 0 - 76040a000100", "error line 1\n"),
        (b"mark 0 10.0.0.0/8 1 76040a000100", "error line 1\n"),
    ] {
        assert_eq!(answers(line), answer, "{:?}", String::from_utf8_lossy(line));
    }
    let mut sixteen = b"open 3600 28 0".to_vec();
    sixteen.extend(b" 10.0.0.0/8".repeat(16));
    assert_eq!(answers(&sixteen), "refused 12\n");
    sixteen.extend(b" 10.0.0.0/8");
    assert_eq!(answers(&sixteen), "error line 1\n");
    assert_eq!(answers(b"\n# x\n\nx\nsave"), "error line 4\nrefused 5\n");
}

/// 1,024 rows: these, and empty lines' rows after them.
fn sheet(rows: &str) -> String {
    let empty = "00000000 00 ffff ffff ffff ".repeat(1_024);
    let rows: String = rows.split_whitespace().collect();
    let empty: String = empty.split_whitespace().collect();
    format!("{rows}{}", &empty[rows.len()..])
}

#[test]
fn figures_are_written_row_by_row() {
    let script = "figures\n\
                  open 3600 28 1000 10.0.1.0/24\n\
                  ask 7 1000 dc0900010200190102001a\n\
                  figures\n\
                  take 7 1000 dc0f00020c000a000180 1a0004 000a0007\n\
                  take 7 1000 dc0f00020c000a0001801a0004000a0007\n\
                  figures\n\
                  load -\n\
                  open 0 0 0\n\
                  figures\n\
                  return 7 1001 dc0b000208000a000100190000\n\
                  figures\n\
                  open 3600 28 1000 10.0.1.0/24\n\
                  figures\n";
    assert_eq!(
        answers(script.as_bytes()),
        "ok\nok\n\
         ok bytes=23 count=2 dc15000208000a0001001900000208000a0001801a0000\n\
         figures 10.0.1.0/25 high-water=- in-use=- unusable=-\n\
         figures 10.0.1.128/26 high-water=- in-use=- unusable=-\n\
         ok\n\
         error line 5\n\
         ok bytes=13 count=1 dc0b000208000a0001801a0000\n\
         figures 10.0.1.0/25 high-water=- in-use=- unusable=-\n\
         figures 10.0.1.128/26 high-water=10 in-use=7 unusable=-\n\
         ok\n\
         refused 5\n\
         refused 12\n\
         figures 10.0.1.0/25 high-water=- in-use=- unusable=-\n\
         figures 10.0.1.128/26 high-water=10 in-use=7 unusable=-\n\
         ok\n\
         ok count=1\n\
         figures 10.0.1.128/26 high-water=10 in-use=7 unusable=-\n\
         ok\n\
         ok\n\
         ok\n"
    );
}

#[test]
fn figures_become_what_is_given() {
    // Whatever the bytes say, and as they stand; a row of 0.0.0.0/0 is an empty line's.
    let rows =
        "0001000a 1a 0a00 0700 ffff  00000000 00 0100 0200 0300  00000000 ff 0000 feff ffff \
                01000000 00 ffff ffff 0002";
    let script = format!("figures {}\nfigures\n", sheet(rows));
    let written = "ok\n\
                   figures 10.0.1.0/26 high-water=10 in-use=7 unusable=-\n\
                   figures 0.0.0.0/255 high-water=0 in-use=65534 unusable=-\n\
                   figures 0.0.0.1/0 high-water=- in-use=- unusable=512\n\
                   ok\n";
    assert_eq!(answers(script.as_bytes()), written);
    assert_eq!(answers(script.replace('a', "A").as_bytes()), written);
    // "an error if they are not exactly as many as the sheet has": the sheet stays.
    let good = sheet(rows);
    for bad in [
        good[..5630].to_string(),
        good[..5631].to_string(),
        format!("{good}0"),
        format!("{good}00"),
        format!("{good}{}", &good[..22]),
        good.replacen('f', "g", 1),
        format!("{good} {good}"),
        format!("{good} -"),
        good.repeat(4),
    ] {
        let script = format!("figures {good}\nfigures {bad}\nfigures\n");
        let (ok, rows) = written.split_at(3);
        assert_eq!(
            answers(script.as_bytes()),
            format!("{ok}error line 2\n{rows}")
        );
    }
}

#[test]
fn a_sheet_that_does_not_match_is_refused_by_four_commands() {
    let wrong = sheet("0001000a 1b ffff ffff ffff");
    let script = format!(
        "figures {wrong}\nask 7 1000 dc05000102001a\n\
         open 3600 28 1000 10.0.1.0/24\nask 7 1000 dc05000102001a\n\
         take 7 1000 dc0b000208000a0001001a0000\nsave\nsheet\nlist 7 1000 dc050001020200\n\
         figures {wrong}\nsave\nsheet\nlist 7 1000 dc050001020200\n\
         ask 0 0 -\ntake 0 0 -\nreturn 0 0 -\nmark 0 0.0.0.0/0 0\n\
         buffer 256\nask 0 0 -\ntake 0 0 -\nreturn 0 0 -\n\
         load 00\nfigures\n"
    );
    let text = answers(script.as_bytes());
    let lines: Vec<&str> = text.lines().collect();
    // The book is looked at first, and open makes the sheet anew.
    assert_eq!(lines[..3], ["ok", "refused 5", "ok"]);
    assert!(lines[3].starts_with("ok bytes=13"));
    // save, sheet and list answer as they did.
    assert_eq!(lines[5..11], lines[12..18]);
    assert_eq!(lines[11], "ok");
    let rest = "refused 15\nrefused 15\nrefused 15\nrefused 15\n\
                ok\nrefused 1\nrefused 1\nrefused 15\nrefused 5\n\
                figures 10.0.1.0/27 high-water=- in-use=- unusable=-\nok";
    assert_eq!(lines[18..].join("\n"), rest);
}

/// So many bytes of counts, all 0 but those given by place.
fn counts(bytes: usize, given: &[(usize, u8)]) -> String {
    let mut digits = vec!["00".to_string(); bytes];
    for (place, byte) in given {
        digits[*place] = format!("{byte:02X}");
    }
    format!("counts {}\n", digits.concat())
}

#[test]
fn counts_are_written_root_by_root() {
    let script = "open 3600 28 1000 10.0.1.0/24 10.0.0.0/30 10.2.0.0/16\n\
                  ask 7 1000 dc09000102001e0102001a\ncounts\nwhole 25\nwhole 26\nwhole 030\nwhole 0\n\
                  whole 4294967295\nask 8 1000 dc05000102001a\ncounts\n";
    assert_eq!(
        answers(script.as_bytes()),
        "ok\n\
         ok bytes=23 count=2 dc15000208000a0000001e0000020800\
0a0001001a0000\n\
         counts 10.0.1.0/24 25=1 26=1\n\
         counts 10.2.0.0/16 16=1\n\
         ok\n\
         ok count=1\nok count=1\nok count=0\nok count=0\nok count=0\n\
         ok bytes=13 count=1 dc0b000208000a0001401a0000\n\
         counts 10.0.1.0/24 25=1\n\
         counts 10.2.0.0/16 16=1\n\
         ok\n"
    );
}

#[test]
fn counts_become_what_is_given() {
    // A /24 has its count at the place of length 24 of the first row.
    let (right, wrong) = (counts(368, &[(32, 1)]), counts(368, &[(32, 1), (367, 1)]));
    let every =
        "ask 7 1000 dc05000102001a\nlist 7 1000 dc050001020200\nsave\nsheet\ncounts\nwhole 24\n\
                 whole 99\ntake 7 1000 -\nreturn 7 1000 -\nmark 1000 10.0.1.0/26 1\n";
    let script = format!(
        "{right}open 3600 28 1000 10.0.1.0/24\n{right}whole 24\n{wrong}{every}{}{}whole 24\n{right}counts\n\
         {wrong}open 3600 28 1000 10.0.1.0/24\nwhole 24\n{wrong}load {}\nwhole 24\n",
        counts(367, &[(32, 1)]),
        counts(369, &[(32, 1)]),
        "0b000100100e00001ce8030000070002000001000a18"
    );
    let refused = "refused 5\n".repeat(10);
    assert_eq!(
        answers(script.as_bytes()),
        format!(
            "ok\nok\nok\nok count=1\nok\n{refused}error line 16\nerror line 17\nrefused 5\nok\n\
             counts 10.0.1.0/24 24=1\nok\nok\nok\nok count=1\nok\nok\nok count=1\n"
        )
    );
}

#[test]
fn selection_is_the_consoles_own() {
    let script = "selection on\n\
                  open 3600 28 1000 10.0.1.0/24 10.0.2.0/24\n\
                  ask 7 1000 dc05000102001a 76040a0002ff\n\
                  buffer 263\n\
                  ask 7 1000 dc05000102001a 76040a0002ff\n\
                  ask 7 1000 dc05000102001a -\n\
                  ask 7 1000 dc05000102001a 76040a000300\n\
                  ask 7 1000 dc05000102001a\n\
                  selection bad\n\
                  take 7 1000 dc0b000208000a0002001a0000 76040A000100\n\
                  take 7 1000 dc0b000208000a0002001a0000 76040A000200\n\
                  selection off\n\
                  ask 7 1000 dc05000102001a 7\n\
                  ask 8 1000 dc05000102001a -\n\
                  take 7 1000 dc0b000208000a0002001a0000 76040a000100\n\
                  open 0 0 0\n\
                  selection on\n\
                  load -\n\
                  ask 9 1000 dc05000102001a 76040a000200\n\
                  open 3600 28 1000 10.0.1.0/24 10.0.2.0/24\n\
                  ask 9 1000 dc05000102001a 76040a000200\n";
    assert_eq!(
        answers(script.as_bytes()),
        "ok\nok\n\
         refused 1\n\
         ok\n\
         ok bytes=19 count=1 dc0b000208000a0002001a000076040a0002ff\n\
         refused 6\n\
         refused 19\n\
         ok bytes=13 count=1 dc0b000208000a0002001a0000\n\
         error line 9\n\
         refused 11\n\
         ok bytes=19 count=1 dc0b000208000a0002001a000076040a000200\n\
         ok\n\
         error line 13\n\
         ok bytes=13 count=1 dc0b000208000a0002401a0000\n\
         ok bytes=13 count=1 dc0b000208000a0002001a0000\n\
         refused 12\n\
         ok\n\
         refused 5\n\
         ok bytes=19 count=1 dc0b000208000a0002801a000076040a000200\n\
         ok\n\
         ok bytes=19 count=1 dc0b000208000a0002001a000076040a000200\n"
    );
}

#[test]
fn long_lines() {
    let mut script = b"read ".to_vec();
    script.extend(vec![b'0'; 99_994]);
    script.extend(b"\nread 0");
    script.extend(vec![b'0'; 99_995]);
    script.extend(b"\n#");
    script.extend(vec![b' '; 99_999]);
    script.extend(b"\r\n#");
    script.extend(vec![b' '; 100_000]);
    script.extend(b"\n");
    script.extend(vec![b' '; 100_001]);
    script.extend(b"\nsave\n");
    assert_eq!(
        answers(&script),
        "refused 6\nerror line 2\nerror line 4\nerror line 5\nrefused 5\n"
    );
}

#[test]
fn any_bytes_do_no_harm() {
    let mut numbers = Numbers::new(11);
    let words =
        "open ask take list return mark save load sheet figures read write buffer 0 7 1000 3600 28 \
                 10.0.0.0/8 dc05000102001a dc05000102021a - unknown name address 10.0.0.0";
    let words: Vec<&[u8]> = words.split_whitespace().map(str::as_bytes).collect();
    let mut script = Vec::new();
    for _ in 0..60_000 {
        match numbers.below(12) {
            0 => script.push(numbers.draw() as u8),
            1 | 2 => script.push(b'\n'),
            _ => {
                script.extend(words[numbers.below(words.len())]);
                script.push(b' ');
            }
        }
    }
    let out = answers(&script);
    assert!(out.contains("error line") && out.contains("refused"));
}
