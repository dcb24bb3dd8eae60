//! The crate dhcproto and the library beside each other, in one process. `paper` is what document 01 says, and the tickets of document 02;
//! `theirs` is what the crate answers, `sindovaleph::calls` the proved side; `cases` holds them against each other, one call at a time.

pub mod agreement;
pub mod capture;
pub mod carried;
pub mod cases;
pub mod differences;
pub mod findings;
pub mod known;
pub mod lent;
pub mod listing;
pub mod modes;
#[cfg(test)]
mod name_tests;
pub mod paper;
pub mod progress;
pub mod random;
pub mod recorded;
pub mod senders;
pub mod speed;
pub mod stored;
pub mod streamed;
pub mod sweeps;
pub mod table;
pub mod theirs;
pub mod typed;
