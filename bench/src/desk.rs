//! The interface that the proved library, the peer and the reference share: what include/flockdrift.h says, with slices.

pub use crate::flockdrift::{
    Answer, FIGURES_CAPACITY as FIGURES, FIRST_FORM, FIRST_FORM_CAPACITY as FIRST_FULL, IMAGE_CAPACITY as FULL, LEASES,
    NAME_CAPACITY as NAME, OLDER_LEASES, REPLY_CAPACITY as REPLY, SECOND_FORM,
    SELECTED_REPLY_CAPACITY as SELECTED_REPLY, SELECTION_CAPACITY as SELECTION, TEXT_CAPACITY as SHEET,
};

impl Answer {
    /// A refusal: its number, all counts 0.
    pub const fn refusal(number: u32) -> Answer {
        Answer { number, place: 0, bytes: 0, count: 0 }
    }

    /// An accepted call: the bytes written, and how many entries or leases.
    pub const fn accepted(bytes: usize, count: usize) -> Answer {
        Answer { number: 0, place: 0, bytes: bytes as u32, count: count as u32 }
    }
}

/// The lengths of prefixes that are counted, 8 to 30.
pub const SHORTEST: usize = 8;
pub const LENGTHS: usize = 23;

/// How many whole free prefixes there are: a row for each place of a pool, in it a count for each length.
pub type Counts = [[u16; LENGTHS]; 8];

/// What is lent to a call that changes the table: the buffer with the image at its front, the image's length, the figures
/// sheet, and the counts.
pub struct Lent<'a> {
    pub image: &'a mut [u8],
    pub bytes: &'a mut usize,
    pub figures: &'a mut [u8],
    pub counts: &'a mut Counts,
}

/// What is lent, networks, lengths, term, default length, start.
pub type Open = fn(Lent, &[u32], &[u8], u32, u32, u32) -> Answer;
/// What is lent, client, now, option, option 118 where it is enabled and was carried, reply.
pub type CallWithReply = fn(Lent, u32, u32, &[u8], Option<&[u8]>, &mut [u8]) -> Answer;
/// Image, image bytes, counts, client, now, option, reply.
pub type List = fn(&[u8], usize, &Counts, u32, u32, &[u8], &mut [u8]) -> Answer;
/// What is lent, client, now, option.
pub type Call = fn(Lent, u32, u32, &[u8]) -> Answer;
/// What is lent, network, length, deprecated, now.
pub type Mark = fn(Lent, u32, u32, u32, u32) -> Answer;
/// What is lent, saved.
pub type Load = fn(Lent, &[u8]) -> Answer;
/// Image, image bytes, counts, form, whether it is for an older desk, buffer.
pub type Save = fn(&[u8], usize, &Counts, u32, u32, &mut [u8]) -> Answer;
/// Image, image bytes, counts, length.
pub type Whole = fn(&[u8], usize, &Counts, u32) -> Answer;
/// Saved bytes, which have no counts, text.
pub type Sheet = fn(&[u8], &mut [u8]) -> Answer;

/// The calls of one implementation. An image is the front of its buffer; sheet is given the image alone.
pub struct Desk {
    pub name: &'static str,
    pub open: Open,
    pub ask: CallWithReply,
    pub take: CallWithReply,
    pub list: List,
    pub release: Call,
    pub mark: Mark,
    pub load: Load,
    pub save: Save,
    pub whole: Whole,
    pub sheet: Sheet,
}
