//! include/flockdrift.h for Rust, as it is: raw pointers with their sizes. What each function does, and what it needs of
//! its caller, is in the header. The crate rust/flockdrift is a safe wrapper.

/// The image of a full table, in the second form.
pub const IMAGE_CAPACITY: usize = 45141;
/// The image of a full table in the first form.
pub const FIRST_FORM_CAPACITY: usize = 19541;
/// A table has at most so many leases.
pub const LEASES: usize = 1024;
/// One that is saved for an older desk has at most so many.
pub const OLDER_LEASES: usize = 256;
/// The forms that `flockdrift_save` writes: every number but that of the first is the second.
pub const FIRST_FORM: u32 = 1;
pub const SECOND_FORM: u32 = 2;
/// A name has at most so many octets.
pub const NAME_CAPACITY: usize = 24;
/// A figures sheet has exactly this size.
pub const FIGURES_CAPACITY: usize = 11264;
/// The counts have a row for each of so many pools.
pub const COUNTS_ROWS: usize = 8;
/// A row of the counts has so many lengths, from 8 on.
pub const COUNTS_LENGTHS: usize = 23;
/// What the smallest reply buffer has.
pub const REPLY_CAPACITY: usize = 257;
/// What it has for an ask or a take that carries an option 118.
pub const SELECTED_REPLY_CAPACITY: usize = 263;
/// An option 118 has this size.
pub const SELECTION_CAPACITY: usize = 6;
/// A text buffer of this size holds every sheet.
pub const TEXT_CAPACITY: usize = 633052;

/// The answer of every call: number and place of a refusal, or the counts of an accepted call.
#[repr(C)]
#[derive(Clone, Copy, Debug, Default, PartialEq, Eq)]
pub struct Answer {
    pub number: u32,
    pub place: u32,
    pub bytes: u32,
    pub count: u32,
}

/// The head of a table. After a refusal all but the number is 0, here and below.
#[repr(C)]
#[derive(Clone, Copy, Debug, Default, PartialEq, Eq)]
pub struct HeadAnswer {
    pub number: u32,
    pub term: u32,
    pub default_length: u32,
    pub last_time: u32,
    pub pools: u32,
    pub leases: u32,
}

/// A pool of a table.
#[repr(C)]
#[derive(Clone, Copy, Debug, Default, PartialEq, Eq)]
pub struct PoolAnswer {
    pub number: u32,
    pub network: u32,
    pub length: u32,
}

/// A lease of a table: its state is 1 for held and 2 for leased, h and d are 0 or 1, its name is the first `name_bytes`
/// of `name`, and zeros follow.
#[repr(C)]
#[derive(Clone, Copy, Debug, Default, PartialEq, Eq)]
pub struct LeaseAnswer {
    pub number: u32,
    pub network: u32,
    pub length: u32,
    pub client: u32,
    pub state: u32,
    pub h: u32,
    pub d: u32,
    pub expires: u32,
    pub name_bytes: u32,
    pub name: [u8; NAME_CAPACITY],
}

/// The address of an option 118.
#[repr(C)]
#[derive(Clone, Copy, Debug, Default, PartialEq, Eq)]
pub struct SelectionAnswer {
    pub number: u32,
    pub address: u32,
}

unsafe extern "C" {
    pub fn flockdrift_open(
        image: *mut u8,
        capacity: usize,
        image_bytes: *mut usize,
        figures: *mut u8,
        figures_capacity: usize,
        counts: *mut u16,
        networks: *const u32,
        n: usize,
        lengths: *const u8,
        m: usize,
        term: u32,
        default_length: u32,
        start: u32,
    ) -> Answer;
    pub fn flockdrift_ask(
        image: *mut u8,
        capacity: usize,
        image_bytes: *mut usize,
        figures: *mut u8,
        figures_capacity: usize,
        counts: *mut u16,
        client: u32,
        now: u32,
        option: *const u8,
        option_bytes: usize,
        selected: u32,
        selection: *const u8,
        selection_bytes: usize,
        reply: *mut u8,
        reply_capacity: usize,
    ) -> Answer;
    pub fn flockdrift_take(
        image: *mut u8,
        capacity: usize,
        image_bytes: *mut usize,
        figures: *mut u8,
        figures_capacity: usize,
        counts: *mut u16,
        client: u32,
        now: u32,
        option: *const u8,
        option_bytes: usize,
        selected: u32,
        selection: *const u8,
        selection_bytes: usize,
        reply: *mut u8,
        reply_capacity: usize,
    ) -> Answer;
    pub fn flockdrift_list(
        image: *const u8,
        capacity: usize,
        image_bytes: usize,
        counts: *const u16,
        client: u32,
        now: u32,
        option: *const u8,
        option_bytes: usize,
        reply: *mut u8,
        reply_capacity: usize,
    ) -> Answer;
    pub fn flockdrift_release(
        image: *mut u8,
        capacity: usize,
        image_bytes: *mut usize,
        figures: *mut u8,
        figures_capacity: usize,
        counts: *mut u16,
        client: u32,
        now: u32,
        option: *const u8,
        option_bytes: usize,
    ) -> Answer;
    pub fn flockdrift_mark(
        image: *mut u8,
        capacity: usize,
        image_bytes: *mut usize,
        figures: *mut u8,
        figures_capacity: usize,
        counts: *mut u16,
        network: u32,
        length: u32,
        deprecated: u32,
        now: u32,
    ) -> Answer;
    pub fn flockdrift_load(
        image: *mut u8,
        capacity: usize,
        image_bytes: *mut usize,
        figures: *mut u8,
        figures_capacity: usize,
        counts: *mut u16,
        saved: *const u8,
        saved_bytes: usize,
    ) -> Answer;
    pub fn flockdrift_save(
        image: *const u8,
        capacity: usize,
        image_bytes: usize,
        counts: *const u16,
        form: u32,
        older: u32,
        buffer: *mut u8,
        buffer_capacity: usize,
    ) -> Answer;
    pub fn flockdrift_sheet(
        image: *const u8,
        image_bytes: usize,
        text: *mut u8,
        text_capacity: usize,
    ) -> Answer;
    pub fn flockdrift_check(
        image: *const u8,
        capacity: usize,
        image_bytes: usize,
        counts: *const u16,
    ) -> Answer;
    pub fn flockdrift_whole(
        image: *const u8,
        capacity: usize,
        image_bytes: usize,
        counts: *const u16,
        length: u32,
    ) -> Answer;
    pub fn flockdrift_head(
        image: *const u8,
        capacity: usize,
        image_bytes: usize,
        counts: *const u16,
    ) -> HeadAnswer;
    pub fn flockdrift_pool(
        image: *const u8,
        capacity: usize,
        image_bytes: usize,
        counts: *const u16,
        index: usize,
    ) -> PoolAnswer;
    pub fn flockdrift_lease(
        image: *const u8,
        capacity: usize,
        image_bytes: usize,
        counts: *const u16,
        index: usize,
    ) -> LeaseAnswer;
    pub fn flockdrift_check_option(option: *const u8, option_bytes: usize) -> Answer;
    pub fn flockdrift_read_selection(option: *const u8, option_bytes: usize) -> SelectionAnswer;
    pub fn flockdrift_write_selection(
        address: u32,
        buffer: *mut u8,
        buffer_capacity: usize,
    ) -> Answer;
}
