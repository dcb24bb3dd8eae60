//! The rules of document 01, and those of tickets 1, 3, 4, 5 and 6 of document 02, written plainly: what each call has to answer, and what
//! it leaves in lent memory. Nothing here calls the library or the crate; only the shapes of the answers are the boundary's.

mod aggregate;
mod header;
mod kinds;
mod listing;
mod moves;
mod rows;
mod stream;
mod text;
mod values;
mod walk;
mod writing;

pub use aggregate::{entries, entry, find_code, overload};
pub use header::{AREA, CHADDR, CHADDR_END, FILE, FILE_END, SNAME, area, header, xid};
pub use kinds::{element_size, kind_of};
pub use listing::{listed_address, listed_option, listed_stop, no_listing};
pub use moves::{count_routes, move_back, move_out, route_at, route_from, width_for};
pub use rows::{list, read_list, write_list};
pub use stream::{Uncut, receive, uncut};
pub use text::is_utf8;
pub use values::{element, read};
pub use walk::{Found, find, step};
pub use writing::{close, routes_value, typed_bytes, write_bytes, write_listing, write_routes, write_typed};

/// The fewest bytes of a message.
pub const LEAST_MESSAGE: usize = 240;

/// The most bytes of a message, an area, a room or a value to be read.
pub const MOST_BYTES: usize = 65_535;

/// The most bytes of a value to be written.
pub const MOST_VALUE: usize = 4_080;

/// The code that has no length and fills.
pub const PAD: u8 = 0;

/// The code that has no length and ends.
pub const END: u8 = 255;

/// The number of the first check that holds, 0 where none does.
fn first_refusal(checks: &[(bool, u8)]) -> u8 {
    checks.iter().find(|check| check.0).map_or(0, |check| check.1)
}

/// The number that bytes are, the first the highest.
fn big_endian(bytes: &[u8]) -> u32 {
    bytes.iter().fold(0, |number, &byte| number << 8 | u32::from(byte))
}
