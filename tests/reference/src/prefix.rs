//! Prefixes: aligned blocks of addresses.

/// "A block length runs from 1 to 30".
pub const SHORTEST: u8 = 1;
pub const LONGEST: u8 = 30;

/// A network and a length. Any values can be written down; the rules say which
/// of them are blocks.
#[derive(Clone, Copy, Debug, Default, PartialEq, Eq)]
pub struct Prefix {
    pub network: u32,
    pub length: u8,
}

pub fn prefix(network: u32, length: u8) -> Prefix {
    Prefix { network, length }
}

impl Prefix {
    /// "2^(32 - length)" addresses; none for a length above 32. Up to 2^32, so 64
    /// bits.
    pub fn size(self) -> u64 {
        if self.length > 32 {
            0
        } else {
            1 << (32 - self.length)
        }
    }

    /// The address after the last one. Up to 2^32, so 64 bits.
    pub fn end(self) -> u64 {
        u64::from(self.network) + self.size()
    }

    /// "aligned (its network is a multiple of its size)".
    pub fn aligned(self) -> bool {
        self.length <= 32 && u64::from(self.network) % self.size() == 0
    }

    /// Every address of `inner` is one of these.
    pub fn contains(self, inner: Prefix) -> bool {
        self.network <= inner.network && inner.end() <= self.end()
    }

    /// The address is one of these.
    pub fn has_address(self, address: u32) -> bool {
        self.network <= address && u64::from(address) < self.end()
    }

    /// Some address is in both.
    pub fn shares_address_with(self, other: Prefix) -> bool {
        u64::from(self.network) < other.end() && u64::from(other.network) < self.end()
    }

    /// The two halves, the lower first. Only asked for lengths below 32.
    pub fn halves(self) -> [Prefix; 2] {
        let length = self.length + 1;
        let lower = prefix(self.network, length);
        [lower, prefix(lower.end() as u32, length)]
    }
}

/// `A.B.C.D`.
pub fn dotted(address: u32) -> String {
    let [a, b, c, d] = address.to_be_bytes();
    format!("{a}.{b}.{c}.{d}")
}

impl std::fmt::Display for Prefix {
    fn fmt(&self, out: &mut std::fmt::Formatter<'_>) -> std::fmt::Result {
        write!(out, "{}/{}", dotted(self.network), self.length)
    }
}
