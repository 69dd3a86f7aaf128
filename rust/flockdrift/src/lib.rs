//! Flockdrift: leases of subnets over DHCP option 220 (RFC 6656), embedded in a server. A safe wrapper of the proved
//! static library: what each call does is in `include/flockdrift.h`.
//!
//! A server holds a [`Book`] and makes its calls on it. A call that accepts changes the book, one that refuses has
//! changed nothing. Networks are IPv4 addresses as numbers, 10.0.1.0 being `0x0a000100`; times are seconds of the
//! server's clock; a client is a number that the server gives it, not 0.
//!
//! Buffers have the sizes that the library asks for and slices carry their lengths. The borrow checker sees to the
//! rest: no two arguments overlap, and no two threads work on one book.
#![deny(missing_docs)]

use std::error::Error;
use std::fmt;

#[path = "../../../include/flockdrift.rs"]
mod raw;

pub use raw::{
    COUNTS_LENGTHS, COUNTS_ROWS, FIGURES_CAPACITY, FIRST_FORM_CAPACITY, IMAGE_CAPACITY, LEASES,
    NAME_CAPACITY, OLDER_LEASES, REPLY_CAPACITY, SELECTED_REPLY_CAPACITY, SELECTION_CAPACITY,
    TEXT_CAPACITY,
};

use raw::Answer;

/// The version of this crate and of the library that belongs to it.
pub const VERSION: &str = env!("CARGO_PKG_VERSION");

// REFUSALS

/// Why a call was refused. It displays as its number and what that says.
#[derive(Clone, Copy, Debug, PartialEq, Eq)]
pub struct Refusal {
    /// The number that document 01 and the header have for it.
    pub number: u32,
    /// Where in the option the bad suboption begins (numbers 7 and 16), the code byte being at 0; 0 of every other.
    pub place: u32,
}

impl Refusal {
    /// What the number says; the header's `flockdrift_text` has the same words.
    pub fn text(&self) -> &'static str {
        match self.number {
            0 => "accepted",
            1 => "the reply buffer is too small",
            2 => "there is no client 0",
            3 => "the time is before the last time of the table",
            4 => "the time is too late",
            5 => "not the image of a sound table, or not its counts",
            6 => "not exactly the option",
            7 => "bad framing in the suboption",
            8 => "the suboptions are not those that the call takes",
            9 => "the table is full",
            10 => "no free prefix of the length",
            11 => "nothing found",
            12 => "pools, term, default length or start are outside the rules",
            14 => "the buffer is too small",
            15 => "the figures sheet does not match the table",
            16 => "a field outside the rules in the suboption",
            17 => "the name is too long",
            18 => "names would be lost in the first form",
            19 => "no pool contains the address of option 118",
            20 => "too many leases for an older desk",
            _ => "no number of this library",
        }
    }
}

impl fmt::Display for Refusal {
    fn fmt(&self, f: &mut fmt::Formatter<'_>) -> fmt::Result {
        write!(f, "refused {}: {}", self.number, self.text())?;
        if matches!(self.number, 7 | 16) {
            write!(f, " at {}", self.place)?;
        }
        Ok(())
    }
}

impl Error for Refusal {}

/// What is answered, where the number is that of no refusal.
fn unless<T>(number: u32, place: u32, answer: T) -> Result<T, Refusal> {
    match number {
        0 => Ok(answer),
        _ => Err(Refusal { number, place }),
    }
}

fn accepted(a: Answer) -> Result<Answer, Refusal> {
    unless(a.number, a.place, a)
}

// WHAT CALLS ANSWER

/// What answers a client: an option 220, how many entries it has, and the option 118 that the call carried.
#[derive(Clone, Debug)]
pub struct Reply {
    buffer: [u8; SELECTED_REPLY_CAPACITY],
    bytes: usize,
    count: u32,
}

impl Reply {
    /// What a call writes.
    fn of(call: impl FnOnce(&mut [u8]) -> Answer) -> Result<Reply, Refusal> {
        let mut buffer = [0; SELECTED_REPLY_CAPACITY];
        let a = accepted(call(&mut buffer))?;
        Ok(Reply {
            buffer,
            bytes: a.bytes as usize,
            count: a.count,
        })
    }

    /// All bytes, as they go into the message: option 220, and after it option 118 where the call carried one.
    pub fn bytes(&self) -> &[u8] {
        &self.buffer[..self.bytes]
    }

    /// The bytes of option 220 alone.
    pub fn option(&self) -> &[u8] {
        self.split().0
    }

    /// The option 118 that the call carried, as it was.
    pub fn selection(&self) -> Option<&[u8]> {
        Some(self.split().1).filter(|option| !option.is_empty())
    }

    /// Option 220, whose second byte counts those after it, and what follows it.
    fn split(&self) -> (&[u8], &[u8]) {
        self.bytes()
            .split_at(self.bytes.min(usize::from(self.buffer[1]) + 2))
    }

    /// How many entries it has.
    pub fn count(&self) -> u32 {
        self.count
    }
}

/// The head of a book, and how many pools and leases it has.
#[derive(Clone, Copy, Debug, PartialEq, Eq)]
pub struct Head {
    /// Seconds of a lease.
    pub term: u32,
    /// The length for requests that suggest none.
    pub default_length: u8,
    /// The time of the last accepted call that changed the book.
    pub last_time: u32,
    /// How many pools there are.
    pub pools: usize,
    /// How many leases there are.
    pub leases: usize,
}

/// A pool of a book.
#[derive(Clone, Copy, Debug, PartialEq, Eq)]
pub struct Pool {
    /// Its first address.
    pub network: u32,
    /// Its prefix length.
    pub length: u8,
}

/// Whether a lease is only offered or confirmed.
#[derive(Clone, Copy, Debug, PartialEq, Eq)]
pub enum State {
    /// Offered, until it is taken or 120 seconds have passed.
    Held,
    /// Confirmed by a take.
    Leased,
}

/// The name of a lease: up to 24 octets of any kind, the last not zero. It derefs to them.
#[derive(Clone, Copy, Default, PartialEq, Eq)]
pub struct Name {
    octets: [u8; NAME_CAPACITY],
    bytes: usize,
}

impl Name {
    /// The octets, none where the ask that made the lease had no name.
    pub fn octets(&self) -> &[u8] {
        &self.octets[..self.bytes]
    }
}

impl std::ops::Deref for Name {
    type Target = [u8];

    fn deref(&self) -> &[u8] {
        self.octets()
    }
}

impl fmt::Debug for Name {
    fn fmt(&self, f: &mut fmt::Formatter<'_>) -> fmt::Result {
        write!(f, "\"{}\"", self.octets().escape_ascii())
    }
}

/// A lease of a book, as it stands there: there is no time here, so it may have ended.
#[derive(Clone, Copy, Debug, PartialEq, Eq)]
pub struct Lease {
    /// Its first address.
    pub network: u32,
    /// Its prefix length.
    pub length: u8,
    /// Whose it is.
    pub client: u32,
    /// Held or leased.
    pub state: State,
    /// Whether its request had h set.
    pub h: bool,
    /// Whether it is deprecated.
    pub d: bool,
    /// The time of its end: from then on it is none.
    pub expires: u32,
    /// That of the ask that made it.
    pub name: Name,
}

/// The form in which a book is saved. Load takes both.
#[derive(Clone, Copy, Debug, PartialEq, Eq)]
pub enum Form {
    /// That of versions before 0.14, which has no names.
    First,
    /// That which holds every book.
    Second,
}

/// What a client told of the use of a lease; `None` where it told no such figure.
#[derive(Clone, Copy, Debug, PartialEq, Eq)]
pub struct Figures {
    /// The lease's first address.
    pub network: u32,
    /// The lease's prefix length.
    pub length: u8,
    /// The most addresses that were ever in use at one time.
    pub high_water: Option<u16>,
    /// The addresses in use.
    pub in_use: Option<u16>,
    /// The addresses that cannot be used.
    pub unusable: Option<u16>,
}

/// The bytes of a row of the figures sheet: network 4, length 1, and 2 for each figure, all little-endian.
const ROW: usize = 11;

impl Figures {
    /// Those of a row; none where it is that of a place without a lease.
    fn of(row: &[u8; ROW]) -> Option<Figures> {
        const UNTOLD: u16 = 0xffff;
        let [a, b, c, d, length, figures @ ..] = *row;
        let told = |at: usize| {
            let figure = u16::from_le_bytes([figures[at], figures[at + 1]]);
            (figure != UNTOLD).then_some(figure)
        };
        (length != 0).then(|| Figures {
            network: u32::from_le_bytes([a, b, c, d]),
            length,
            high_water: told(0),
            in_use: told(2),
            unusable: told(4),
        })
    }
}

// THE BOOK

/// An option 118 as the library takes it: whether there is one, its bytes and how many; null where there is none.
fn parts(selection: Option<&[u8]>) -> (u32, *const u8, usize) {
    match selection {
        Some(option) => (1, option.as_ptr(), option.len()),
        None => (0, std::ptr::null(), 0),
    }
}

/// A lease table, held as its image, and beside it the figures sheet and the counts, which are not saved. A copy of it
/// is a book to which a server can go back.
#[derive(Clone)]
pub struct Book {
    image: [u8; IMAGE_CAPACITY],
    bytes: usize,
    figures: [u8; FIGURES_CAPACITY],
    counts: [u16; COUNTS_ROWS * COUNTS_LENGTHS],
}

// SAFETY of every call below: each pointer with a size is that of a live slice, with its length, or null with 0; those
// without are that of the image's length and that of all counts; and the library keeps none of them.
impl Book {
    /// No book yet: every call is refused with 5.
    pub const fn none() -> Book {
        Book {
            image: [0; IMAGE_CAPACITY],
            bytes: 0,
            figures: [0; FIGURES_CAPACITY],
            counts: [0; COUNTS_ROWS * COUNTS_LENGTHS],
        }
    }

    /// A book without leases: pools in any order, `networks[i]` with `lengths[i]`.
    pub fn open(
        networks: &[u32],
        lengths: &[u8],
        term: u32,
        default_length: u32,
        start: u32,
    ) -> Result<Book, Refusal> {
        let mut book = Book::none();
        accepted(unsafe {
            raw::flockdrift_open(
                book.image.as_mut_ptr(),
                book.image.len(),
                &mut book.bytes,
                book.figures.as_mut_ptr(),
                book.figures.len(),
                book.counts.as_mut_ptr(),
                networks.as_ptr(),
                networks.len(),
                lengths.as_ptr(),
                lengths.len(),
                term,
                default_length,
                start,
            )
        })?;
        Ok(book)
    }

    /// The book that was saved, in either form, with no figure told; bytes that are no image are refused with 5.
    pub fn load(saved: &[u8]) -> Result<Book, Refusal> {
        let mut book = Book::none();
        accepted(unsafe {
            raw::flockdrift_load(
                book.image.as_mut_ptr(),
                book.image.len(),
                &mut book.bytes,
                book.figures.as_mut_ptr(),
                book.figures.len(),
                book.counts.as_mut_ptr(),
                saved.as_ptr(),
                saved.len(),
            )
        })?;
        Ok(book)
    }

    /// The bytes that load takes. The first form is refused with 18 exactly if a lease has a name.
    pub fn save(&self, form: Form) -> Result<Vec<u8>, Refusal> {
        self.save_for(form, false)
    }

    /// The same bytes, for an older desk, one of a version before 0.16: it loads no more than [`OLDER_LEASES`]. Refused
    /// with 20 exactly if the book has more, those that have ended too, and otherwise as [`Book::save`] is.
    pub fn save_for_older(&self, form: Form) -> Result<Vec<u8>, Refusal> {
        self.save_for(form, true)
    }

    fn save_for(&self, form: Form, older: bool) -> Result<Vec<u8>, Refusal> {
        let (form, capacity) = match form {
            Form::First => (raw::FIRST_FORM, FIRST_FORM_CAPACITY),
            Form::Second => (raw::SECOND_FORM, IMAGE_CAPACITY),
        };
        let mut saved = vec![0; capacity];
        let a = accepted(unsafe {
            raw::flockdrift_save(
                self.image.as_ptr(),
                self.image.len(),
                self.bytes,
                self.counts.as_ptr(),
                form,
                older.into(),
                saved.as_mut_ptr(),
                saved.len(),
            )
        })?;
        saved.truncate(a.bytes as usize);
        Ok(saved)
    }

    /// Offers prefixes for the option's requests, and holds them for 120 seconds. What the client holds already it is
    /// offered again, where length and h are those of a request, and keeps its name; only the other requests get free
    /// prefixes, which get the option's first name. One above 24 octets is refused with 17.
    ///
    /// `selection` is the option 118 of the message, whatever its bytes are, where the server has enabled it and the
    /// message carried one: then all that is offered lies in the pool that contains its address, 19 where none does.
    pub fn ask(
        &mut self,
        client: u32,
        now: u32,
        option: &[u8],
        selection: Option<&[u8]>,
    ) -> Result<Reply, Refusal> {
        let (selected, selection, selection_bytes) = parts(selection);
        Reply::of(|reply| unsafe {
            raw::flockdrift_ask(
                self.image.as_mut_ptr(),
                self.image.len(),
                &mut self.bytes,
                self.figures.as_mut_ptr(),
                self.figures.len(),
                self.counts.as_mut_ptr(),
                client,
                now,
                option.as_ptr(),
                option.len(),
                selected,
                selection,
                selection_bytes,
                reply.as_mut_ptr(),
                reply.len(),
            )
        })
    }

    /// Confirms or renews the client's leases that the option's entries name, and files the entries' figures. With an
    /// option 118, as in [`Book::ask`], what lies in another pool is not found.
    pub fn take(
        &mut self,
        client: u32,
        now: u32,
        option: &[u8],
        selection: Option<&[u8]>,
    ) -> Result<Reply, Refusal> {
        let (selected, selection, selection_bytes) = parts(selection);
        Reply::of(|reply| unsafe {
            raw::flockdrift_take(
                self.image.as_mut_ptr(),
                self.image.len(),
                &mut self.bytes,
                self.figures.as_mut_ptr(),
                self.figures.len(),
                self.counts.as_mut_ptr(),
                client,
                now,
                option.as_ptr(),
                option.len(),
                selected,
                selection,
                selection_bytes,
                reply.as_mut_ptr(),
                reply.len(),
            )
        })
    }

    /// Lists the client's leases, at most 35 in a reply.
    pub fn list(&self, client: u32, now: u32, option: &[u8]) -> Result<Reply, Refusal> {
        Reply::of(|reply| unsafe {
            raw::flockdrift_list(
                self.image.as_ptr(),
                self.image.len(),
                self.bytes,
                self.counts.as_ptr(),
                client,
                now,
                option.as_ptr(),
                option.len(),
                reply.as_mut_ptr(),
                reply.len(),
            )
        })
    }

    /// Removes the client's leases that the option's entries name; how many.
    pub fn release(&mut self, client: u32, now: u32, option: &[u8]) -> Result<u32, Refusal> {
        let a = accepted(unsafe {
            raw::flockdrift_release(
                self.image.as_mut_ptr(),
                self.image.len(),
                &mut self.bytes,
                self.figures.as_mut_ptr(),
                self.figures.len(),
                self.counts.as_mut_ptr(),
                client,
                now,
                option.as_ptr(),
                option.len(),
            )
        })?;
        Ok(a.count)
    }

    /// Marks the lease with this network and length as deprecated, or as not.
    pub fn mark(
        &mut self,
        network: u32,
        length: u8,
        deprecated: bool,
        now: u32,
    ) -> Result<(), Refusal> {
        accepted(unsafe {
            raw::flockdrift_mark(
                self.image.as_mut_ptr(),
                self.image.len(),
                &mut self.bytes,
                self.figures.as_mut_ptr(),
                self.figures.len(),
                self.counts.as_mut_ptr(),
                network,
                length.into(),
                deprecated.into(),
                now,
            )
        })?;
        Ok(())
    }

    /// The book as text for an operator.
    pub fn sheet(&self) -> Result<String, Refusal> {
        self.check()?;
        let mut text = vec![0; TEXT_CAPACITY];
        let image = &self.image[..self.bytes];
        let a = accepted(unsafe {
            raw::flockdrift_sheet(image.as_ptr(), image.len(), text.as_mut_ptr(), text.len())
        })?;
        text.truncate(a.bytes as usize);
        Ok(String::from_utf8(text).expect("a sheet is ASCII"))
    }

    /// Whether there is a book; 5 otherwise.
    pub fn check(&self) -> Result<(), Refusal> {
        let counts = self.counts.as_ptr();
        accepted(unsafe {
            raw::flockdrift_check(self.image.as_ptr(), self.image.len(), self.bytes, counts)
        })?;
        Ok(())
    }

    /// How many whole free prefixes of this length there are, summed over the pools, as the book stands; 0 for every
    /// length outside 8 to 30.
    pub fn whole(&self, length: u32) -> Result<u32, Refusal> {
        let (image, counts) = (&self.image, self.counts.as_ptr());
        let a = accepted(unsafe {
            raw::flockdrift_whole(image.as_ptr(), image.len(), self.bytes, counts, length)
        })?;
        Ok(a.count)
    }

    /// The head of the book.
    pub fn head(&self) -> Result<Head, Refusal> {
        let (image, counts) = (&self.image, self.counts.as_ptr());
        let a = unsafe { raw::flockdrift_head(image.as_ptr(), image.len(), self.bytes, counts) };
        let head = Head {
            term: a.term,
            default_length: a.default_length as u8,
            last_time: a.last_time,
            pools: a.pools as usize,
            leases: a.leases as usize,
        };
        unless(a.number, 0, head)
    }

    /// The pool with this index, which counts from 0; 11 where there is none.
    pub fn pool(&self, index: usize) -> Result<Pool, Refusal> {
        let (image, counts) = (&self.image, self.counts.as_ptr());
        let a =
            unsafe { raw::flockdrift_pool(image.as_ptr(), image.len(), self.bytes, counts, index) };
        let pool = Pool {
            network: a.network,
            length: a.length as u8,
        };
        unless(a.number, 0, pool)
    }

    /// The lease with this index, which counts from 0; 11 where there is none.
    pub fn lease(&self, index: usize) -> Result<Lease, Refusal> {
        let (image, counts) = (&self.image, self.counts.as_ptr());
        let a = unsafe {
            raw::flockdrift_lease(image.as_ptr(), image.len(), self.bytes, counts, index)
        };
        let lease = Lease {
            network: a.network,
            length: a.length as u8,
            client: a.client,
            state: if a.state == 2 {
                State::Leased
            } else {
                State::Held
            },
            h: a.h != 0,
            d: a.d != 0,
            expires: a.expires,
            name: Name {
                octets: a.name,
                bytes: (a.name_bytes as usize).min(NAME_CAPACITY),
            },
        };
        unless(a.number, 0, lease)
    }

    /// The figures of the lease with this index; none where there is no such lease.
    pub fn figures(&self, index: usize) -> Option<Figures> {
        let row = self.figures.chunks_exact(ROW).nth(index)?;
        Figures::of(row.try_into().ok()?)
    }

    /// The pools, ascending; none where there is no book.
    pub fn pools(&self) -> impl Iterator<Item = Pool> + '_ {
        (0..).map_while(|index| self.pool(index).ok())
    }

    /// The leases, ascending; none where there is no book.
    pub fn leases(&self) -> impl Iterator<Item = Lease> + '_ {
        (0..).map_while(|index| self.lease(index).ok())
    }
}

impl Default for Book {
    fn default() -> Book {
        Book::none()
    }
}

/// Books are equal where their images and the figures are: in the form that a book has, one table has one image.
impl PartialEq for Book {
    fn eq(&self, other: &Book) -> bool {
        self.image[..self.bytes] == other.image[..other.bytes] && self.figures == other.figures
    }
}

impl Eq for Book {}

impl fmt::Debug for Book {
    fn fmt(&self, f: &mut fmt::Formatter<'_>) -> fmt::Result {
        f.debug_struct("Book")
            .field("head", &self.head())
            .finish_non_exhaustive()
    }
}

// OPTIONS

/// Checks an option 220: 6 where it is none; with the place of the first bad suboption, 7 where its framing is bad and
/// 16 where only a field of it is outside the rules.
pub fn check_option(option: &[u8]) -> Result<(), Refusal> {
    accepted(unsafe { raw::flockdrift_check_option(option.as_ptr(), option.len()) })?;
    Ok(())
}

/// The address of an option 118 (RFC 3011); 6 where it is none.
pub fn read_selection(option: &[u8]) -> Result<u32, Refusal> {
    let a = unsafe { raw::flockdrift_read_selection(option.as_ptr(), option.len()) };
    unless(a.number, 0, a.address)
}

/// The option 118 with this address.
pub fn write_selection(address: u32) -> [u8; SELECTION_CAPACITY] {
    let mut option = [0; SELECTION_CAPACITY];
    let a = unsafe { raw::flockdrift_write_selection(address, option.as_mut_ptr(), option.len()) };
    debug_assert_eq!(a.bytes as usize, option.len());
    option
}
