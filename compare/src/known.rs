//! The known differences between the crate and document 01: each by name, and when it is expected.
//! docs/DIFFERENCES.md has the smallest input of each, and why.

use crate::agreement::is_read_as;
use crate::paper;
use crate::theirs::Reading;
use dhcproto::v4::DhcpOption;

/// A kind of difference.
#[derive(Clone, Copy, Debug, PartialEq, Eq, PartialOrd, Ord)]
pub enum Known {
    AddressPastTheEnd,
    LongMessage,
    OtherMagic,
    LongArea,
    LongValueRead,
    OddLengthOf25,
    TypeOf37,
    TypesLeft,
    DebugAssertion,
    BitsBehindWidth,
    WideRoute,
    PadOrEndWritten,
    LongValueWritten,
}

impl Known {
    /// All kinds, in the order of their numbers.
    pub const ALL: [Known; 13] = [
        Known::AddressPastTheEnd,
        Known::LongMessage,
        Known::OtherMagic,
        Known::LongArea,
        Known::LongValueRead,
        Known::OddLengthOf25,
        Known::TypeOf37,
        Known::TypesLeft,
        Known::DebugAssertion,
        Known::BitsBehindWidth,
        Known::WideRoute,
        Known::PadOrEndWritten,
        Known::LongValueWritten,
    ];

    /// Its short name.
    pub fn name(self) -> &'static str {
        match self {
            Known::AddressPastTheEnd => "chaddr past the end",
            Known::LongMessage => "a message of more than 65,535 bytes",
            Known::OtherMagic => "another magic",
            Known::LongArea => "an area of more than 65,535 bytes",
            Known::LongValueRead => "a value of more than 65,535 bytes, read",
            Known::OddLengthOf25 => "odd length of code 25",
            Known::TypeOf37 => "the type of code 37",
            Known::TypesLeft => "types left in the crate",
            Known::DebugAssertion => "a debug build's assertion",
            Known::BitsBehindWidth => "bits behind a route's width, read",
            Known::WideRoute => "a route's width above 32, read",
            Known::PadOrEndWritten => "codes 0 and 255, written",
            Known::LongValueWritten => "a value of more than 4,080 bytes",
        }
    }

    /// What the crate does, and what document 01 says.
    pub fn sentence(self) -> &'static str {
        match self {
            Known::AddressPastTheEnd => "the crate panics, document 01 refuses by 3",
            Known::LongMessage => "the crate reads it, document 01 refuses by 2",
            Known::OtherMagic => "the crate lists no options, document 01 says that the magic is wrong",
            Known::LongArea => "the crate walks it, document 01 refuses by 2",
            Known::LongValueRead => "the crate reads it, document 01 refuses by 2",
            Known::OddLengthOf25 => "the crate drops the last byte, document 01 refuses by 10",
            Known::TypeOf37 => "the crate answers the type of code 23, document 01 a byte of code 37",
            Known::TypesLeft => {
                "codes 81 82 88 116 119 121 151 156 157: the crate has a type of its own or an error, document 01 raw bytes"
            }
            Known::DebugAssertion => {
                "codes 80 81 94 152-155 of another length: the crate panics, document 01 reads or refuses by 10"
            }
            Known::BitsBehindWidth => "the crate shows them, ticket 6 masks the destination",
            Known::WideRoute => "the crate answers the routes in front of it, ticket 6 refuses by 12",
            Known::PadOrEndWritten => "the crate writes code, length and value, document 01 refuses by 6",
            Known::LongValueWritten => "the crate writes it, document 01 refuses by 7",
        }
    }
}

/// The kind of a difference in typed reading, where it is a known one.
pub fn reading(code: u8, value: &[u8], theirs: &Reading) -> Option<Known> {
    let panics = matches!(theirs, Reading::Panics);
    match code {
        80 | 81 | 94 | 152..=155 if panics && cfg!(debug_assertions) => Some(Known::DebugAssertion),
        _ if panics => None,
        81 | 82 | 88 | 116 | 119 | 121 | 151 | 156 | 157 => Some(Known::TypesLeft),
        _ if value.len() > paper::MOST_BYTES => Some(Known::LongValueRead),
        25 if value.len() % 2 == 1 && is_read_as(25, 25, &value[..value.len() - 1], theirs) => {
            Some(Known::OddLengthOf25)
        }
        37 if is_read_as(23, 37, value, theirs) => Some(Known::TypeOf37),
        _ => None,
    }
}

/// The kinds of difference in the reading of option 121's routes, where it is else the same.
pub fn routes(value: &[u8], theirs: &Reading) -> impl Iterator<Item = Known> {
    let shows_bits = match theirs {
        Reading::Is(DhcpOption::ClasslessStaticRoute(table)) => {
            table.iter().any(|(net, _)| net.addr() != net.network())
        }
        _ => false,
    };
    let bits = shows_bits.then_some(Known::BitsBehindWidth);
    let wide = (paper::count_routes(value).refused == 12).then_some(Known::WideRoute);
    bits.into_iter().chain(wide)
}

/// The kind of difference where document 01 refuses what the crate writes.
pub fn writing(refused: u8) -> Option<Known> {
    match refused {
        6 => Some(Known::PadOrEndWritten),
        7 => Some(Known::LongValueWritten),
        _ => None,
    }
}
