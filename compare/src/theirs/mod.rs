//! What the crate dhcproto answers, as plain data. A panic of the crate is caught and is an answer too.

mod messages;
mod options;
mod quiet;
mod reading;
mod writing;

pub use messages::{chaddr, fields, place_of};
pub use quiet::caught;
pub use reading::{Content, Reading, content_of, read};
pub use writing::{routes, write_bytes, write_routes, write_typed};
