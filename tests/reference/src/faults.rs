//! Pieces of options by what is wrong with them, as document 02, M-104, says it; for the
//! tests and for the scripts of `tests/vectors`. A piece is a suboption in hexadecimal digits.

use crate::option::SUBNET_ALLOCATION;
use crate::words::hex;

/// "no Len byte, Len past the end": of any suboption. What follows is in it, so these can only
/// be last.
pub const PAST_THE_END: [&str; 12] = [
    "01",
    "02",
    "03",
    "09",
    "01 02 00",
    "01 02",
    "01 03 00 18",
    "02 08 00 0A 00 01 00 18 00",
    "03 02 61",
    "03 01",
    "09 01",
    "FF FF 00",
];

/// "a Len that the suboption can't have, an entry cut short, a figure length odd or past
/// the end".
pub const FRAMING: [&str; 20] = [
    "01 00",
    "01 01 00",
    "01 03 00 18 00",
    "02 00",
    "02 01 00",
    "02 02 00 0A",
    "02 07 00 0A 00 01 00 18 00",
    "02 09 00 0A 00 01 00 18 00 00 0A",
    "02 0E 00 0A 00 01 00 18 00 00 0A 00 02 00 18 00",
    "02 09 00 0A 00 01 00 18 00 01 00",
    "02 0B 00 0A 00 01 00 18 00 03 00 01 00",
    "02 08 00 0A 00 01 00 18 00 02",
    "02 08 00 0A 00 01 00 18 00 01",
    "02 08 00 0A 00 01 00 18 00 FF",
    "02 09 00 0A 00 01 00 18 00 02 00",
    "02 0F 00 0A 00 01 00 18 00 00 0A 00 02 00 18 00 01",
    "02 0F 00 0A 00 01 00 18 00 00 0A 00 02 00 18 00 02",
    "02 10 00 0A 00 01 00 18 00 01 00 0A 00 02 00 18 00 00",
    "02 0F 00 0A 00 01 00 18 00 08 0A 00 02 00 18 00 00",
    "03 00",
];

/// "prefix, network bits past it, a name's final zero".
pub const FIELDS: [&str; 22] = [
    "01 02 00 1F",
    "01 02 01 20",
    "01 02 02 1F",
    "01 02 00 FF",
    "02 08 00 00 00 00 00 00 00 00",
    "02 08 00 0A 00 01 00 1F 00 00",
    "02 08 00 00 00 00 00 20 00 00",
    "02 08 03 00 00 00 00 FF 00 00",
    "02 08 00 0A 00 01 01 18 00 00",
    "02 08 00 0A 00 01 02 1E 00 00",
    "02 08 00 40 00 00 00 01 00 00",
    "02 0A 00 0A 00 01 00 17 00 02 00 01",
    "02 0F 00 0A 00 01 00 18 00 00 0A 00 02 01 18 00 00",
    "02 0F 00 0A 00 01 00 18 00 00 0A 00 02 00 00 00 00",
    "02 0F 00 0A 00 01 00 1F 00 00 0A 00 02 00 18 00 00",
    "02 0F 00 0A 00 01 01 18 00 00 0A 00 02 00 1F 00 00",
    "02 0F 00 0A 00 01 01 18 00 00 0A 00 02 01 18 00 00",
    "03 01 00",
    "03 02 61 00",
    "03 02 00 00",
    "03 03 00 61 00",
    "02 08 00 FF FF FF FF 1E 00 00",
];

/// Both in one suboption: "framing is checked first, over the whole of it".
pub const BOTH: [&str; 13] = [
    // A request of another Len whose prefix would be 31.
    "01 03 00 1F 00",
    "01 04 00 1F 00 1F",
    "01 01 1F",
    // A bad network or prefix in the first entry, the second cut.
    "02 09 00 0A 00 01 01 18 00 00 0A",
    "02 0E 00 0A 00 01 01 18 00 00 0A 00 02 00 18 00",
    "02 0E 00 0A 00 01 00 1F 00 00 0A 00 02 00 18 00",
    // A figure length odd or past the end, in the same entry and in the next one.
    "02 08 00 0A 00 01 01 18 00 02",
    "02 09 00 0A 00 01 00 00 00 01 00",
    "02 0F 00 0A 00 01 01 18 00 00 0A 00 02 00 18 00 01",
    "02 0F 00 0A 00 01 00 1F 00 00 0A 00 02 00 18 00 02",
    // And the other way round: the framing of the first entry, a field of the second.
    "02 10 00 0A 00 01 00 18 00 01 00 0A 00 02 01 18 00 00",
    "02 12 00 0A 00 01 00 18 00 03 00 01 00 0A 00 02 00 1F 00 00",
    "02 10 00 0A 00 01 00 18 00 00 0A 00 02 01 18 00 00 00",
];

/// Good pieces to stand before a bad one.
pub const GOOD: [&str; 6] = [
    "01 02 00 18",
    "01 02 02 00",
    "02 08 00 0A 00 01 00 18 00 00",
    "02 0A 00 0A 00 01 00 18 00 02 00 01",
    "03 02 00 61",
    "09 02 1F 00",
];

/// Each bad piece that others may follow, and its number.
pub fn bad_pieces() -> Vec<(&'static str, u8)> {
    let framing = FRAMING.iter().chain(&BOTH).map(|piece| (*piece, 7));
    framing.chain(FIELDS.map(|piece| (piece, 16))).collect()
}

/// An option of these pieces, with the Len that it must have if they fit.
pub fn option_of(pieces: &[&str]) -> Vec<u8> {
    let digits = pieces.concat().replace(' ', "");
    let mut bytes = vec![SUBNET_ALLOCATION, 0, 0];
    bytes.extend(hex(digits.as_bytes()).unwrap_or_default());
    bytes[1] = (bytes.len() - 2) as u8;
    bytes
}
