//! The messages and areas that are measured.

use crate::paper::MOST_BYTES;

/// Twelve usual options of an acknowledgement, each by its code and its value.
pub const USUAL: [(u8, &[u8]); 12] = [
    (53, &[5]),
    (54, &[192, 0, 2, 1]),
    (51, &[0, 0, 14, 16]),
    (58, &[0, 0, 7, 8]),
    (59, &[0, 0, 12, 78]),
    (1, &[255, 255, 255, 0]),
    (3, &[192, 0, 2, 1]),
    (6, &[192, 0, 2, 2, 192, 0, 2, 3]),
    (15, b"example.org"),
    (28, &[192, 0, 2, 255]),
    (12, b"client42"),
    (42, &[192, 0, 2, 9]),
];

/// The most bytes of one part.
const PART: usize = 255;

/// The length of the last part of an option that is joined.
const LAST_PART: usize = 180;

/// A code of bytes.
const CODE: u8 = 43;

/// The header of an acknowledgement, with the magic.
fn header() -> Vec<u8> {
    let mut header = vec![0; 240];
    header[..3].copy_from_slice(&[2, 1, 6]);
    header[4..8].copy_from_slice(&[0x12, 0x34, 0x56, 0x78]);
    header[16..20].copy_from_slice(&[192, 0, 2, 50]);
    header[20..24].copy_from_slice(&[192, 0, 2, 1]);
    header[28..34].copy_from_slice(&[2, 0, 0, 0, 0, 1]);
    header[44..48].copy_from_slice(b"srv1");
    header[108..118].copy_from_slice(b"pxelinux.0");
    header[236..].copy_from_slice(&[99, 130, 83, 99]);
    header
}

/// The twelve options one behind the other, again and again, as long as the next one fits in so many bytes.
fn usual_options(len: usize) -> Vec<u8> {
    let mut options = Vec::with_capacity(len);
    for (code, value) in USUAL.iter().cycle() {
        if options.len() + 2 + value.len() > len {
            break;
        }
        options.extend([*code, value.len() as u8]);
        options.extend_from_slice(value);
    }
    options
}

/// The area of the twelve options and End: 85 bytes.
pub fn usual_area() -> Vec<u8> {
    [usual_options(84), vec![255]].concat()
}

/// A message with this area.
pub fn message_of(area: &[u8]) -> Vec<u8> {
    [&header(), area].concat()
}

/// The message of the twelve options: 325 bytes.
pub fn usual_message() -> Vec<u8> {
    message_of(&usual_area())
}

/// Parts of one code, all of 255 bytes but the last.
fn parts(count: usize, last: usize) -> Vec<u8> {
    let part = |at: usize| {
        let len = if at + 1 == count { last } else { PART };
        [vec![CODE, len as u8], vec![7 + at as u8; len]].concat()
    };
    (0..count).flat_map(part).collect()
}

/// Parts of one code, of 255 bytes as long as they fit, in so many bytes.
fn filled_with_parts(len: usize) -> Vec<u8> {
    let (whole, rest) = (len / (PART + 2), len % (PART + 2));
    let last = if rest > 2 { [vec![CODE, rest as u8 - 2], vec![7; rest - 2]].concat() } else { Vec::new() };
    [parts(1, PART).repeat(whole), last].concat()
}

/// A message with an option of so many parts: 1,200 bytes where it has four.
pub fn message_in_parts(count: usize) -> Vec<u8> {
    [header(), vec![53, 1, 5], parts(count, LAST_PART), vec![255, 0, 0, 0]].concat()
}

/// An area with one option of so many parts of 255 bytes.
pub fn area_in_parts(count: usize) -> Vec<u8> {
    [parts(count, PART), vec![255]].concat()
}

/// Two options that are empty.
const EMPTY: [u8; 4] = [100, 0, 101, 0];

/// What an area is full of.
#[derive(Clone, Copy)]
pub enum Shape {
    Usual,
    OneByte,
    Empty,
    EmptyParts,
    EmptyPartsCut,
    Pads,
    Joined,
}

impl Shape {
    pub const ALL: [Shape; 7] = [
        Shape::Usual,
        Shape::OneByte,
        Shape::Empty,
        Shape::EmptyParts,
        Shape::EmptyPartsCut,
        Shape::Pads,
        Shape::Joined,
    ];

    pub fn name(self) -> &'static str {
        match self {
            Shape::Usual => "usual options",
            Shape::OneByte => "options of one byte",
            Shape::Empty => "empty options",
            Shape::EmptyParts => "empty parts",
            Shape::EmptyPartsCut => "empty parts, cut",
            Shape::Pads => "Pads",
            Shape::Joined => "parts of 255",
        }
    }

    /// How many options an area of so many bytes has, where they are empty.
    pub fn empty_options(self, len: usize) -> Option<usize> {
        matches!(self, Shape::Empty).then_some(2 * (len / EMPTY.len()))
    }

    /// An area of so many bytes: the shape again and again, and Pads behind it where it does not fill the area.
    pub fn area(self, len: usize) -> Vec<u8> {
        let unit = match self {
            Shape::Usual => usual_options(len),
            Shape::OneByte => vec![100, 1, 7, 101, 1, 8],
            Shape::Empty => EMPTY.into(),
            Shape::EmptyParts | Shape::EmptyPartsCut => vec![100, 0],
            Shape::Pads => vec![0],
            Shape::Joined => filled_with_parts(len),
        };
        let mut area = unit.repeat(len / unit.len());
        area.resize(len, 0);
        if matches!(self, Shape::EmptyPartsCut) {
            // The last part says one byte more than is there, or has no length.
            area[len - 1] = if len.is_multiple_of(2) { 1 } else { 100 };
        }
        area
    }
}

/// The lengths of the areas that show how the cost grows.
pub const LENGTHS: [usize; 6] = [64, 576, 1_500, 4_096, 16_384, MOST_BYTES];

#[cfg(test)]
mod tests {
    use super::*;
    use crate::paper::{Found, find};

    #[test]
    fn the_messages_have_the_lengths_that_the_page_names() {
        assert_eq!(usual_area().len(), 85);
        assert_eq!(usual_message().len(), 325);
        assert_eq!(message_in_parts(4).len(), 1_200);
    }

    #[test]
    fn shapes_are_what_they_are_called() {
        for len in LENGTHS {
            assert!(Shape::ALL.iter().all(|shape| shape.area(len).len() == len));
            assert!(matches!(find(&Shape::EmptyPartsCut.area(len), 0), Found::Stop(5, 2)));
            assert!(matches!(find(&Shape::Pads.area(len), 0), Found::Stop(1, place) if place == len));
            let whole =
                |shape: Shape| matches!(find(&shape.area(len), 0), Found::Option { parts, .. } if parts >= len / 257);
            assert!(whole(Shape::EmptyParts) && whole(Shape::Joined));
            let area = Shape::Empty.area(len);
            let next = |place: usize| match find(&area, place) {
                Found::Option { place, .. } => Some(place),
                Found::Stop(..) => None,
            };
            assert_eq!(Shape::Empty.empty_options(len), Some(std::iter::successors(next(0), |&at| next(at)).count()));
            assert_eq!(Shape::OneByte.empty_options(len), None);
        }
    }
}
