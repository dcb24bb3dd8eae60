//! What a value reads as, plain and strict, and the elements of a list (document 01, "Kinds of value"; document 02,
//! ticket 3).

use super::{END, MOST_BYTES, PAD, big_endian, element_size, first_refusal, is_utf8, kind_of};
use sindovaleph::calls::{Element, Value};

/// "Option 68 alone may be empty, for "no home agents"."
const HOME_AGENTS: u8 = 68;

/// Whether a value's length is wrong for its code: "kinds 2, 3, 7, 10 and 11 with no element are refused in strict mode,
/// code 68 excepted".
fn wrong_length(code: u8, len: usize, strict: bool) -> bool {
    let kind = kind_of(code);
    let size = element_size(kind);
    match kind {
        2 | 3 | 7 | 10 | 11 if strict && len == 0 => code != HOME_AGENTS,
        1 => len != size,
        2 | 3 | 7 => !len.is_multiple_of(size),
        4..=6 | 8 | 9 | 12..=15 if strict => len != size,
        4..=6 | 8 | 9 | 12..=15 => len < size,
        _ => false,
    }
}

/// The first refusal of a reading, 0 for none.
fn refusal(code: u8, value: &[u8], strict: bool) -> u8 {
    if value.len() > MOST_BYTES {
        return 2;
    }
    let kind = kind_of(code);
    if code == PAD || code == END {
        return 6;
    }
    if wrong_length(code, value.len(), strict) {
        return 10;
    }
    first_refusal(&[(kind == 10 && !is_utf8(value), 11), (strict && kind == 5 && value[0] > 1, 14)])
}

/// Whether a kind is a list.
fn is_list(kind: u8) -> bool {
    matches!(kind, 2 | 3 | 7 | 11)
}

/// What the value of an option with this code reads as.
pub fn read(code: u8, value: &[u8], strict: bool) -> Value {
    let refused = refusal(code, value, strict);
    if refused > 0 {
        return Value { refused, kind: 0, number: 0, count: 0 };
    }
    let kind = kind_of(code);
    let size = element_size(kind);
    let number = match kind {
        5 => u32::from(value[0] == 1),
        1 | 4 | 6 | 8 | 9 | 12 | 13 | 14 => big_endian(&value[..size]),
        _ => 0,
    };
    let count = if is_list(kind) { value.len() / size } else { 0 };
    Value { refused, kind, number, count }
}

/// The element at an index of a list.
pub fn element(code: u8, value: &[u8], index: usize) -> Element {
    let reading = read(code, value, false);
    let refused = first_refusal(&[(reading.refused > 0, reading.refused), (index >= reading.count, 4)]);
    if refused > 0 {
        return Element { refused, first: 0, second: 0 };
    }
    let size = element_size(reading.kind);
    let bytes = &value[index * size..(index + 1) * size];
    let (first, second) = if reading.kind == 3 { bytes.split_at(4) } else { (bytes, &[][..]) };
    Element { refused, first: big_endian(first), second: big_endian(second) }
}
