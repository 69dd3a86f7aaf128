//! Tests of the reference program, one module for each part of document 01, and one for
//! each request of document 02.

mod again;
mod common;
mod console;
mod counts;
mod examples;
mod faults;
mod figures;
mod images;
mod ledger;
mod lines;
mod names;
mod options;
mod packing;
mod refusals;
mod rfc6656;
mod selection;
mod writing;
