//! The sheet: every pool as used and free rows. One walk counts, a second one writes, so that text that does not fit
//! leaves the buffer as it was.

use super::image::{self, FIRST, LEASE, Met, Notes, Pools};
use crate::desk::{Answer, NAME};

/// Where the rows go: counted, or written.
trait Rows {
    fn text(&mut self, text: &[u8]);

    fn number(&mut self, number: u32) {
        let mut digits = [0; 10];
        let (mut from, mut left) = (digits.len(), number);
        loop {
            from -= 1;
            digits[from] = b'0' + (left % 10) as u8;
            left /= 10;
            if left == 0 {
                break;
            }
        }
        self.text(&digits[from..]);
    }

    /// The octets of a name, `?` for each that is no printing character.
    fn name(&mut self, octets: &[u8]) {
        if octets.is_empty() {
            return;
        }
        let mut shown = [0; NAME];
        for (shown, octet) in shown.iter_mut().zip(octets) {
            *shown = if matches!(octet, 0x20..=0x7e) { *octet } else { b'?' };
        }
        self.text(b" name ");
        self.text(&shown[..octets.len()]);
    }

    fn prefix(&mut self, network: u32, length: u32) {
        for (index, byte) in network.to_be_bytes().into_iter().enumerate() {
            if index != 0 {
                self.text(b".");
            }
            self.number(byte.into());
        }
        self.text(b"/");
        self.number(length);
    }
}

struct Count {
    bytes: usize,
}

impl Rows for Count {
    fn text(&mut self, text: &[u8]) {
        self.bytes += text.len();
    }
}

struct Write<'a> {
    out: &'a mut [u8],
    at: usize,
}

impl Rows for Write<'_> {
    fn text(&mut self, text: &[u8]) {
        self.out[self.at..self.at + text.len()].copy_from_slice(text);
        self.at += text.len();
    }
}

/// The free rows of a range, lowest first; how many there are.
fn free(rows: &mut impl Rows, mut from: u64, to: u64) -> u32 {
    let mut count = 0;
    while from < to {
        // The largest prefix that begins here and does not end past the range.
        let order = from.trailing_zeros().min((to - from).ilog2());
        rows.text(b"free ");
        rows.prefix(from as u32, 32 - order);
        rows.text(b"\n");
        from += 1 << order;
        count += 1;
    }
    count
}

/// The sheet notes the pools.
impl Notes for Pools {
    #[inline(always)]
    fn lease(&mut self, _: Met, _: &Pools) {}

    fn end(&mut self, pools: &Pools) {
        *self = *pools;
    }
}

/// The rows of all pools; how many of them are free.
fn walk<const N: usize>(rows: &mut impl Rows, pools: &Pools, leases: &[[u8; N]]) -> u32 {
    let mut count = 0;
    let mut leases = leases.iter().peekable();
    for (&from, &to) in pools.from.iter().zip(&pools.to).take(pools.count) {
        let mut at = from;
        while let Some(lease) = leases.next_if(|lease| u64::from(image::network(lease)) < to) {
            let (network, length) = (image::network(lease), u32::from(image::length(lease)));
            count += free(rows, at, network.into());
            rows.text(b"used ");
            rows.prefix(network, length);
            rows.text(b" station ");
            rows.number(image::client(lease));
            rows.text(b" until ");
            rows.number(image::expires(lease));
            rows.name(image::name(lease));
            rows.text(b"\n");
            at = u64::from(network) + (1 << (32 - length));
        }
        count += free(rows, at, to);
    }
    count
}

fn head(rows: &mut impl Rows, leases: usize, free: u32) {
    rows.text(b"sheet lines=");
    rows.number(leases as u32);
    rows.text(b" free=");
    rows.number(free);
    rows.text(b"\n");
}

/// Of saved bytes of either form.
pub fn sheet(image: &[u8], text: &mut [u8]) -> Answer {
    let mut pools = Pools::default();
    if image::is_first(image) {
        let summary = image::check::<FIRST>(image, &mut pools);
        summary.map(|summary| write(&pools, image::first_leases(image, &summary), text))
    } else {
        let summary = image::check::<LEASE>(image, &mut pools);
        summary.map(|summary| write(&pools, image::leases(image, &summary), text))
    }
    .unwrap_or(Answer::refusal(5))
}

fn write<const N: usize>(pools: &Pools, leases: &[[u8; N]], text: &mut [u8]) -> Answer {
    let mut size = Count { bytes: 0 };
    let free = walk(&mut size, pools, leases);
    head(&mut size, leases.len(), free);
    if size.bytes > text.len() {
        return Answer::refusal(14);
    }
    let mut rows = Write { out: text, at: 0 };
    head(&mut rows, leases.len(), free);
    walk(&mut rows, pools, leases);
    Answer::accepted(size.bytes, 0)
}
