//! Words of the console's lines: numbers, bits, addresses, prefixes, octets. Nothing is
//! answered for a word that is none.

use crate::prefix::{prefix, Prefix};

/// "decimal digits with a value below 2^32"; leading zeros do no harm.
pub fn number(word: &[u8]) -> Option<u32> {
    if word.is_empty() {
        return None;
    }
    let mut value: u32 = 0;
    for digit in word {
        if !digit.is_ascii_digit() {
            return None;
        }
        value = value
            .checked_mul(10)?
            .checked_add(u32::from(digit - b'0'))?;
    }
    Some(value)
}

/// A number below 256.
pub fn byte(word: &[u8]) -> Option<u8> {
    u8::try_from(number(word)?).ok()
}

/// "D is 0 or 1".
pub fn bit(word: &[u8]) -> Option<bool> {
    match word {
        b"0" => Some(false),
        b"1" => Some(true),
        _ => None,
    }
}

/// `A.B.C.D`, "A to D 0 to 255".
pub fn address_of(word: &[u8]) -> Option<u32> {
    let parts: Vec<&[u8]> = word.split(|&byte| byte == b'.').collect();
    let [a, b, c, d] = parts[..] else {
        return None;
    };
    Some(u32::from_be_bytes([byte(a)?, byte(b)?, byte(c)?, byte(d)?]))
}

/// "`A.B.C.D/L`, A to D 0 to 255 and L below 256, in decimal, whatever its alignment".
pub fn prefix_of(word: &[u8]) -> Option<Prefix> {
    let parts: Vec<&[u8]> = word.split(|&byte| byte == b'/').collect();
    let [address, length] = parts[..] else {
        return None;
    };
    Some(prefix(address_of(address)?, byte(length)?))
}

/// "hexadecimal digits, upper or lower case, an even number of them; `-` stands for no
/// bytes".
pub fn hex(word: &[u8]) -> Option<Vec<u8>> {
    if word == b"-" {
        return Some(Vec::new());
    }
    if !word.len().is_multiple_of(2) {
        return None;
    }
    let mut bytes = Vec::new();
    for pair in word.chunks(2) {
        let high = (pair[0] as char).to_digit(16)?;
        let low = (pair[1] as char).to_digit(16)?;
        bytes.push((16 * high + low) as u8);
    }
    Some(bytes)
}

/// In lower case; `-` for no bytes.
pub fn hex_text(bytes: &[u8]) -> String {
    const DIGITS: &[u8; 16] = b"0123456789abcdef";
    if bytes.is_empty() {
        return "-".to_string();
    }
    let mut text = String::with_capacity(2 * bytes.len());
    for byte in bytes {
        text.push(char::from(DIGITS[usize::from(byte >> 4)]));
        text.push(char::from(DIGITS[usize::from(byte & 15)]));
    }
    text
}
