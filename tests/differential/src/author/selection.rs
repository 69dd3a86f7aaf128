//! Option 118 with asks and takes (M-106), enabled and not.

use reference::prefix::prefix;
use reference::samples::selecting;
use reference::table::Table;

use super::tables::TEN;
use super::{Author, Profile};
use crate::bytes::hex;
use crate::damage::damage;

impl Author {
    /// `selection on` or `selection off`, seldom with another word; a buffer that fits with it.
    pub fn select(&mut self, on: bool) {
        let other = self.one_of(&["ON", "1", "", "-", "on off", "of", "76040a000000"]);
        if self.numbers.once_in(20) {
            self.say(format!("selection {other}"));
        }
        let word = if on { "on" } else { "off" };
        self.say(format!("selection {word}"));
        if on && !self.numbers.once_in(8) {
            self.say("buffer 263".to_string());
        }
    }

    /// An address in a pool, at both ends of one, one past them, or anywhere; that of an unused
    /// pool too.
    fn address(&mut self) -> u32 {
        let pools = self.script.table().used_pools().to_vec();
        if pools.is_empty() || self.numbers.once_in(20) {
            let any = self.somewhere();
            return self.one_of(&[0, 0, 1, u32::MAX, any, any]);
        }
        let pool = self.one_of(&pools);
        let last = (pool.end() - 1) as u32;
        let inside = pool.network + self.number() % pool.size() as u32;
        match self.numbers.below(16) {
            0 => pool.network.wrapping_sub(1),
            1 => last.wrapping_add(1),
            2 | 3 => pool.network,
            4 | 5 => last,
            _ => inside,
        }
    }

    /// An option 118, of which the address is good or bad; now and then it is damaged.
    fn selection(&mut self, bad: usize) -> Vec<u8> {
        let address = self.address();
        let mut bytes = selecting(address);
        if !self.numbers.once_in(bad) {
            return bytes;
        }
        match self.numbers.below(7) {
            0 => bytes.truncate(self.numbers.below(6)),
            1 => bytes.push(self.byte()),
            2 => bytes[1] = self.one_of(&[0, 3, 5, 6, 255]),
            3 => bytes[0] = self.one_of(&[0, 117, 119, 220, 255]),
            4 => bytes.extend(selecting(address)),
            5 => bytes.clear(),
            _ => damage(&mut self.numbers, &mut bytes),
        }
        bytes
    }

    /// The fourth word of an ask or a take, with the space before it; often none.
    pub(super) fn carried(&mut self) -> String {
        let on = self.script.selection();
        let none = if on { 4 } else { 10 };
        if self.numbers.below(12) < none {
            return String::new();
        }
        let bytes = self.selection(if on { 12 } else { 2 });
        format!(" {}", hex(&bytes))
    }

    /// A full table, or one with few empty slots, with a pool that has no lease beside it.
    pub fn full_table_and_a_pool(&mut self, profile: &Profile) -> Table {
        let count = self.few_empty();
        let mut table = self.table_of_held(count, profile);
        let beside = [prefix(TEN + 8_192, 24), prefix(TEN + 16_384, 28)];
        table.pools[1] = self.one_of(&beside);
        table.counted()
    }
}
