//! Images, figures sheets and counts made by hand, sound or not.

use crate::desk::{Counts, LEASES, LENGTHS, NAME, SHORTEST};

/// A lease's record in the first form, and in the second.
pub const FIRST_LEASE: usize = 19;
pub const LEASE: usize = FIRST_LEASE + 1 + NAME;
/// A row of a figures sheet.
pub const ROW: usize = 11;
pub const ROWS: usize = LEASES;
/// The row of a place without a lease.
pub const EMPTY_ROW: [u8; ROW] = [0, 0, 0, 0, 0, 0xff, 0xff, 0xff, 0xff, 0xff, 0xff];

#[derive(Clone, Copy, Debug, PartialEq, Eq)]
pub struct Lease {
    pub network: u32,
    pub length: u8,
    /// 1 offered, 2 leased.
    pub state: u8,
    /// h 1 + d 2.
    pub flags: u8,
    pub client: u32,
    pub expires: u32,
    /// Length and octets as the record has them, which may be outside the rules.
    pub name: Name,
}

pub type Name = [u8; 1 + NAME];

/// A name of these octets, of which there are at most 24.
pub fn name(octets: &[u8]) -> Name {
    let mut name = [0; 1 + NAME];
    name[0] = octets.len() as u8;
    name[1..=octets.len()].copy_from_slice(octets);
    name
}

/// A name of none.
pub const NO_NAME: Name = [0; 1 + NAME];

#[derive(Clone, Debug)]
pub struct Table {
    pub term: u32,
    pub default_length: u8,
    pub last: u32,
    pub pools: Vec<(u32, u8)>,
    pub leases: Vec<Lease>,
}

impl Table {
    /// The image in the second form; nothing is checked or sorted.
    pub fn image(&self) -> Vec<u8> {
        self.image_in(false)
    }

    /// The image in the first form, which leaves names out.
    pub fn first_image(&self) -> Vec<u8> {
        self.image_in(true)
    }

    pub fn image_in(&self, first: bool) -> Vec<u8> {
        let mut image = Vec::new();
        image.extend([11, 0, if first { 1 } else { 5 }, 0]);
        image.extend(self.term.to_le_bytes());
        image.push(self.default_length);
        image.extend(self.last.to_le_bytes());
        for (network, length) in &self.pools {
            image.extend([7, 0, 2, 0]);
            image.extend(network.to_le_bytes());
            image.push(*length);
        }
        for lease in &self.leases {
            image.extend(if first { [17, 0, 3, 0] } else { [42, 0, 4, 0] });
            image.extend(lease.network.to_le_bytes());
            image.extend([lease.length, lease.state, lease.flags]);
            image.extend(lease.client.to_le_bytes());
            image.extend(lease.expires.to_le_bytes());
            if !first {
                image.extend(lease.name);
            }
        }
        image
    }

    /// A figures sheet with the rows of these leases, and of places without one up to the sheet's end. Each figure is the
    /// next that is told.
    pub fn figures(&self, mut told: impl FnMut() -> u16) -> Vec<u8> {
        let mut sheet = Vec::new();
        for lease in &self.leases {
            sheet.extend(lease.network.to_le_bytes());
            sheet.push(lease.length);
            for _ in 0..3 {
                sheet.extend(told().to_le_bytes());
            }
        }
        for _ in self.leases.len()..ROWS {
            sheet.extend(EMPTY_ROW);
        }
        sheet
    }

    /// The whole free prefixes of a sound table: what is free between two leases, or beside one, cut from below into the
    /// largest prefixes that there are.
    pub fn counts(&self) -> Counts {
        let mut counts = [[0; LENGTHS]; 8];
        for (row, &(network, length)) in counts.iter_mut().zip(&self.pools) {
            let to = u64::from(network) + (1 << (32 - length));
            let inside = self.leases.iter().filter(|lease| (network.into()..to).contains(&lease.network.into()));
            let mut at = u64::from(network);
            for lease in inside {
                cut(row, at, lease.network.into());
                at = u64::from(lease.network) + (1 << (32 - lease.length));
            }
            cut(row, at, to);
        }
        counts
    }

    pub fn has_names(&self) -> bool {
        self.leases.iter().any(|lease| lease.name != NO_NAME)
    }

    /// Reads a sound image of either form back; what is not sound makes no sense here.
    pub fn of_image(image: &[u8]) -> Table {
        let word = |at: usize| u32::from_le_bytes(image[at..at + 4].try_into().unwrap());
        let mut table =
            Table { term: word(4), default_length: image[8], last: word(9), pools: Vec::new(), leases: Vec::new() };
        let mut at = 13;
        while at < image.len() {
            if image[at] == 7 {
                table.pools.push((word(at + 4), image[at + 8]));
                at += 9;
            } else {
                table.leases.push(Lease {
                    network: word(at + 4),
                    length: image[at + 8],
                    state: image[at + 9],
                    flags: image[at + 10],
                    client: word(at + 11),
                    expires: word(at + 15),
                    name: match image[at] {
                        17 => NO_NAME,
                        _ => image[at + FIRST_LEASE..at + LEASE].try_into().unwrap(),
                    },
                });
                at += 2 + usize::from(image[at]);
            }
        }
        table
    }
}

/// Counts the prefixes that a free range is made of.
fn cut(row: &mut [u16; LENGTHS], mut at: u64, to: u64) {
    while at < to {
        let order = at.trailing_zeros().min((to - at).ilog2());
        row[32 - order as usize - SHORTEST] += 1;
        at += 1 << order;
    }
}
