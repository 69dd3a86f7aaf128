//! The proved lease desk (through its C interface), a hand-written peer with the same interface and the same duties,
//! and the independent reference behind the same interface.

pub mod desk;
#[path = "../../include/flockdrift.rs"]
#[rustfmt::skip] // formatted with the examples, which have lines of another width
pub mod flockdrift;
pub mod images;
pub mod options;
pub mod peer;
#[cfg(proved)]
pub mod proved;
pub mod random;
pub mod reference;
pub mod rows;
pub mod stack;

use desk::Desk;

/// The proved library, if it was there when this was built.
#[cfg(proved)]
pub fn proved_desk() -> Option<Desk> {
    Some(proved::PROVED)
}

#[cfg(not(proved))]
pub fn proved_desk() -> Option<Desk> {
    None
}
