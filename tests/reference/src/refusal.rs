//! The numbers the desk refuses with.

/// "A refusal returns its number (7 also its place), all counts 0, and the old
/// bytes everywhere." Document 02, M-104, of 16: "with the same place". The place is 0
/// for every other number.
#[derive(Clone, Copy, Debug, PartialEq, Eq)]
pub struct Refusal {
    pub number: u8,
    pub place: u16,
}

/// A refusal without a place.
pub fn refusal(number: u8) -> Refusal {
    Refusal { number, place: 0 }
}

/// "bad suboption; with the place of the first one's number byte, the code byte
/// being place 0". From M-104 on the number is 7 for framing and 16 for a field outside
/// the rules. The place can be 256, so it needs more than a byte.
pub fn bad_suboption(number: u8, place: usize) -> Refusal {
    Refusal {
        number,
        place: place as u16,
    }
}
