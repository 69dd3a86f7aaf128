//! `write` lines: lists of suboptions good and bad, at their limits, with damaged words.

use reference::option::{write220, Entry, Information, Request, Suboption};
use reference::suboptions::{text_of, MOST_ENTRIES, MOST_OCTETS, MOST_SUBOPTIONS};

use super::tables::aligned;
use super::Author;
use crate::bytes::{entry, hex, information, option, request, suboption, LONGEST_OPTION};
use crate::damage::{damage_line, damage_words};

/// The words of a list on one line.
fn words(list: &[Suboption]) -> String {
    text_of(list).trim_end().replace('\n', " ")
}

/// The bytes of the option that a list makes, the longest if it makes none.
fn written_length(list: &[Suboption]) -> usize {
    write220(list, &mut [0; LONGEST_OPTION]).unwrap_or(LONGEST_OPTION)
}

fn name(octets: usize) -> Suboption {
    Suboption::Name(vec![0x61; octets])
}

impl Author {
    /// A list good or bad or at a limit, an address, or damaged words; or an option is
    /// read and its words are written.
    pub fn write_one(&mut self) {
        match self.numbers.below(24) {
            0 | 1 => self.write_address(),
            2 => {
                self.say("write".to_string());
            }
            3..=6 => {
                let list = self.list_at_limits();
                self.write_list(&list);
            }
            7..=12 => self.write_damaged(),
            13..=17 => {
                let option = self.plain_option();
                self.read_and_write(&option);
            }
            _ => {
                let mut list = self.good_list();
                if self.numbers.once_in(5) {
                    self.spoil(&mut list);
                }
                self.write_list(&list);
            }
        }
    }

    /// Reads an option and, if it is accepted, writes the words that were printed.
    pub fn read_and_write(&mut self, option: &[u8]) {
        let answer = self.script.say(format!("read {}", hex(option)));
        if let Some(text) = answer.strip_suffix("ok\n") {
            let line = format!("write {}", text.trim_end().replace('\n', " "));
            self.script.say(line);
        }
    }

    /// With a buffer that is now and then close to what the list needs.
    fn write_list(&mut self, list: &[Suboption]) {
        if self.numbers.once_in(5) {
            let bytes = written_length(list);
            let length = self.one_of(&[0, 1, bytes - 1, bytes - 1, bytes, bytes, bytes + 1, 1_024]);
            self.script.say(format!("buffer {length}"));
        } else if self.script.buffer() < LONGEST_OPTION && !self.numbers.once_in(3) {
            self.script.say("buffer 257");
        }
        self.write_and_read(format!("write {}", words(list)));
    }

    fn write_address(&mut self) {
        let address = self.number().to_be_bytes().map(|byte| byte.to_string());
        if self.numbers.once_in(3) {
            let length = self.one_of(&[0, 5, 6, 7]);
            self.script.say(format!("buffer {length}"));
        }
        self.write_and_read(format!("write address {}", address.join(".")));
    }

    /// What was written is read every other time.
    fn write_and_read(&mut self, line: String) {
        let answer = self.say(line);
        let digits = answer.trim_end().rsplit_once(' ');
        if let (true, Some((_, digits))) = (self.numbers.once_in(2), digits) {
            if answer.starts_with("ok bytes=") {
                self.script.say(format!("read {digits}"));
            }
        }
    }

    /// A line of which words or single bytes were changed; some stay good.
    fn write_damaged(&mut self) {
        let mut line = if self.numbers.once_in(8) {
            b"write address 10.0.1.0".to_vec()
        } else {
            format!("write {}", words(&self.good_list())).into_bytes()
        };
        for _ in 0..self.numbers.between(1, 2) {
            if self.numbers.once_in(3) {
                damage_line(&mut self.numbers, &mut line);
            } else {
                damage_words(&mut self.numbers, &mut line);
            }
        }
        self.script.say(line);
    }

    /// Suboptions that keep the rules; together they are seldom too long.
    fn good_list(&mut self) -> Vec<Suboption> {
        let count = self.one_of(&[1, 1, 1, 2, 2, 3, 5, 8]);
        (0..count).map(|_| self.good_suboption()).collect()
    }

    fn good_suboption(&mut self) -> Suboption {
        match self.numbers.below(4) {
            0 | 1 => {
                let [h, i] = [(); 2].map(|()| self.numbers.once_in(2));
                let prefix = self.length((0, 30));
                Suboption::Request(Request { h, i, prefix })
            }
            2 => {
                let [c, s] = [(); 2].map(|()| self.numbers.once_in(2));
                let count = self.one_of(&[1, 1, 1, 2, 3, 9]);
                let entries = (0..count).map(|_| self.good_entry()).collect();
                Suboption::Information(Information { c, s, entries })
            }
            _ => {
                let count = self.one_of(&[1, 2, 4, 9, 40]);
                let mut octets: Vec<u8> = (0..count).map(|_| self.byte()).collect();
                octets[count - 1] |= 1;
                Suboption::Name(octets)
            }
        }
    }

    fn good_entry(&mut self) -> Entry {
        let length = self.length((1, 30));
        let at = aligned(self.somewhere(), length);
        let [h, d] = [(); 2].map(|()| self.numbers.once_in(2));
        let figures = (0..self.one_of(&[0, 0, 1, 2, 3]))
            .map(|_| self.number() as u16)
            .collect();
        Entry {
            network: at.network,
            prefix: at.length,
            h,
            d,
            figures,
        }
    }

    /// One suboption of the list becomes one outside the rules, mostly.
    fn spoil(&mut self, list: &mut [Suboption]) {
        let mut entry = self.good_entry();
        let bad = match self.numbers.below(8) {
            0 => Suboption::Unknown,
            1 => name(0),
            2 => Suboption::Name(vec![0x61, 0]),
            3 => Suboption::Request(Request {
                h: false,
                i: self.numbers.once_in(2),
                prefix: self.one_of(&[30, 31, 32, 255]),
            }),
            kind => {
                match kind {
                    4 => entry.prefix = self.one_of(&[0, 31, 32, 33, 255]),
                    5 => entry.network |= 1 << self.numbers.below(32),
                    _ => entry.figures = vec![7; self.one_of(&[3, 4])],
                }
                let entries = match kind {
                    7 => Vec::new(),
                    _ => vec![self.good_entry(), entry],
                };
                Suboption::Information(Information {
                    c: false,
                    s: true,
                    entries,
                })
            }
        };
        let at = self.numbers.below(list.len());
        list[at] = bad;
    }

    /// About as many suboptions, entries or octets as a line or an option holds.
    fn list_at_limits(&mut self) -> Vec<Suboption> {
        let around = |author: &mut Author, limit: usize| limit - 1 + author.numbers.below(3);
        let mut list = match self.numbers.below(6) {
            // 63 requests are the most that an option holds, 96 suboptions a line.
            0 => {
                let limit = self.one_of(&[63, 64, MOST_SUBOPTIONS]);
                let count = around(self, limit);
                let one = match self.numbers.below(4) {
                    0 => Suboption::Unknown,
                    1 => name(1),
                    _ => Suboption::Request(Request {
                        h: true,
                        i: false,
                        prefix: 30,
                    }),
                };
                vec![one; count]
            }
            // 35 entries are the most that an option holds.
            1 => {
                let limit = self.one_of(&[35, 36, MOST_ENTRIES]);
                let count = around(self, limit);
                let each = self.one_of(&[count, count, 30, 1]);
                self.entries_in_informations(count, each)
            }
            2 => {
                let limit = self.one_of(&[252, 255, MOST_OCTETS]);
                let count = around(self, limit);
                let first = self.one_of(&[0, 0, 1, count / 2]);
                let names = [count - first, first];
                names
                    .into_iter()
                    .filter(|octets| *octets > 0)
                    .map(name)
                    .collect()
            }
            // A list that is filled up with a name to about the longest.
            _ => {
                let mut list = self.good_list();
                let room = LONGEST_OPTION.saturating_sub(written_length(&list) + 2);
                let octets = around(self, room.max(1));
                list.push(name(octets));
                list
            }
        };
        if self.numbers.once_in(6) {
            self.spoil(&mut list);
        }
        list
    }

    fn entries_in_informations(&mut self, mut count: usize, each: usize) -> Vec<Suboption> {
        let mut list = Vec::new();
        let mut entry = self.good_entry();
        entry.figures.clear();
        while count > 0 {
            let entries = vec![entry.clone(); count.min(each)];
            count -= entries.len();
            list.push(Suboption::Information(Information {
                c: true,
                s: false,
                entries,
            }));
        }
        list
    }

    /// An option of which reading loses nothing, made of raw pieces.
    pub fn plain_option(&mut self) -> Vec<u8> {
        let mut pieces = Vec::new();
        for _ in 0..self.one_of(&[1, 1, 2, 3, 5, 20]) {
            let flags = self.numbers.below(4) as u8;
            pieces.push(match self.numbers.below(4) {
                0 | 1 => request(flags, self.length((0, 30))),
                2 => {
                    let count = self.one_of(&[1, 1, 2, 3, 12]);
                    let entries: Vec<Vec<u8>> = (0..count)
                        .map(|_| {
                            let length = self.length((1, 30));
                            let at = aligned(self.somewhere(), length);
                            let figures = 2 * self.numbers.below(4);
                            let figures: Vec<u8> = (0..figures).map(|_| self.byte()).collect();
                            entry(at, self.numbers.below(4) as u8, &figures)
                        })
                        .collect();
                    information(flags, &entries)
                }
                _ => {
                    let count = self.one_of(&[1, 3, 8, 30]);
                    let mut octets: Vec<u8> = (0..count).map(|_| self.byte()).collect();
                    octets[count - 1] |= 0x80;
                    suboption(3, &octets)
                }
            });
        }
        while pieces.concat().len() + 3 > LONGEST_OPTION {
            pieces.pop();
        }
        option(0, &pieces)
    }
}
