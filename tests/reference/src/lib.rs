//! An independent reference for the option 220 lease desk.
//!
//! Written by the sentences of documents 01 and 02 and the source documents alone,
//! as plainly as possible; sentences in quotation marks are document 01's, or
//! document 02's where a module says so. Names are those of the field: a pool is
//! document 01's root, a prefix its block, a lease its line, a client its station,
//! the table its book, an image its saved book; offered is held, and `expires` is
//! a line's end.

#![forbid(unsafe_code)]

pub mod calls;
pub mod console;
pub mod counts;
pub mod faults;
pub mod figures;
pub mod image;
pub mod numbers;
pub mod option;
pub mod prefix;
pub mod refusal;
pub mod samples;
pub mod sheet;
pub mod suboptions;
pub mod table;
pub mod words;
