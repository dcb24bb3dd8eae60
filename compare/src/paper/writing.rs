//! How values are written, and what a write answers and leaves (document 01, "Writing").

use super::{END, MOST_BYTES, MOST_VALUE, PAD, element_size, first_refusal, is_utf8, kind_of};
use sindovaleph::calls::{Route, Written};

/// The most bytes of one part.
pub(super) const MOST_PART: usize = 255;

const ROUTES_CODE: u8 = 121;

/// A value in parts of so many bytes, the last one shorter. An empty value is no part.
pub(super) fn in_parts(size: usize, code: u8, value: &[u8]) -> Vec<u8> {
    let mut bytes = Vec::with_capacity(value.len() + 2 * value.len().div_ceil(size));
    for piece in value.chunks(size) {
        bytes.extend([code, piece.len() as u8]);
        bytes.extend_from_slice(piece);
    }
    bytes
}

/// The bytes that a typed value is written as, by its kind and its own bytes.
pub fn typed_bytes(kind: u8, code: u8, value: &[u8]) -> Vec<u8> {
    if kind == 15 {
        return vec![code, 0];
    }
    let size = element_size(kind);
    in_parts(MOST_PART / size * size, code, value)
}

/// The refusal of every write by its room and its place: 2, then 4.
pub(super) fn room_refusal(room: &[u8], place: usize) -> u8 {
    first_refusal(&[(room.len() > MOST_BYTES, 2), (place > room.len(), 4)])
}

/// Puts bytes at a place, unless a refusal stands or they don't fit.
pub(super) fn put(room: &mut [u8], place: usize, refused: u8, bytes: &[u8]) -> Written {
    if refused > 0 {
        return Written { refused, place };
    }
    if place + bytes.len() > room.len() {
        return Written { refused: 8, place };
    }
    room[place..place + bytes.len()].copy_from_slice(bytes);
    Written { refused, place: place + bytes.len() }
}

/// A byte value, to any code from 1 to 254.
pub fn write_bytes(room: &mut [u8], place: usize, code: u8, value: &[u8]) -> Written {
    let refused = first_refusal(&[
        (room_refusal(room, place) > 0, room_refusal(room, place)),
        (code == PAD || code == END, 6),
        (value.len() > MOST_VALUE, 7),
    ]);
    put(room, place, refused, &in_parts(MOST_PART, code, value))
}

/// A value of a kind, given by its bytes, to a code of that kind.
pub fn write_typed(room: &mut [u8], place: usize, kind: u8, code: u8, value: &[u8]) -> Written {
    let refused = first_refusal(&[
        (room_refusal(room, place) > 0, room_refusal(room, place)),
        (code == PAD || code == END, 6),
        (kind_of(code) != kind, 9),
        (kind == 3 && !value.len().is_multiple_of(8), 13),
        (kind == 10 && !is_utf8(value), 11),
        (value.len() > MOST_VALUE, 7),
    ]);
    put(room, place, refused, &typed_bytes(kind, code, value))
}

/// Routes one behind the other (RFC 3442): the width, the significant bytes of the destination, the gateway.
pub fn routes_value(routes: &[Route]) -> Vec<u8> {
    let mut value = Vec::new();
    for route in routes {
        let significant = usize::from(route.width).div_ceil(8).min(4);
        value.push(route.width);
        value.extend_from_slice(&route.destination.to_be_bytes()[..significant]);
        value.extend(route.gateway.to_be_bytes());
    }
    value
}

/// A table of routes, to code 121.
pub fn write_routes(room: &mut [u8], place: usize, routes: &[Route]) -> Written {
    let value = routes_value(routes);
    let refused = first_refusal(&[
        (room_refusal(room, place) > 0, room_refusal(room, place)),
        (routes.iter().any(|route| route.width > 32), 12),
        (value.len() > MOST_VALUE, 7),
    ]);
    put(room, place, refused, &in_parts(MOST_PART, ROUTES_CODE, &value))
}

/// One End.
pub fn close(room: &mut [u8], place: usize) -> Written {
    put(room, place, room_refusal(room, place), &[END])
}

/// The text of a listing.
pub fn write_listing(room: &mut [u8], place: usize, text: &str) -> Written {
    put(room, place, room_refusal(room, place), text.as_bytes())
}
