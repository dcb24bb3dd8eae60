//! The crate's typed reading.

use super::caught;
use super::options::*;
use dhcproto::v4::{DecodeError, DhcpOption, OptionCode, borrowed};
use std::net::Ipv4Addr;

/// What `into_option` answers.
#[derive(Debug)]
pub enum Reading {
    Is(DhcpOption),
    NotEnoughBytes,
    NotUtf8,
    OtherError,
    Panics,
}

/// What an option holds: its kind by document 01, and the content.
#[derive(Debug)]
pub enum Content<'a> {
    Number(u8, u32),
    Bytes(u8, &'a [u8]),
    Addresses(&'a [Ipv4Addr]),
    Pairs(&'a [(Ipv4Addr, Ipv4Addr)]),
    U16s(&'a [u16]),
    Codes(&'a [OptionCode]),
    Flag,
    /// A type that document 01 leaves in the crate.
    LeftInTheCrate,
}

/// The typed reading of an option that the crate's walk found.
pub fn read(option: borrowed::DhcpOption<'_>) -> Reading {
    match caught(|| option.into_option()) {
        None => Reading::Panics,
        Some(Ok(option)) => Reading::Is(option),
        Some(Err(DecodeError::NotEnoughBytes)) => Reading::NotEnoughBytes,
        Some(Err(DecodeError::Utf8Error(_))) => Reading::NotUtf8,
        Some(Err(_)) => Reading::OtherError,
    }
}

/// The one number of an option that holds one.
fn number_of(option: &DhcpOption) -> Option<Content<'_>> {
    let number = |kind: u8, number: u32| Content::Number(kind, number);
    as_address(option)
        .map(|&held| number(1, held.into()))
        .or_else(|| as_byte(option).map(|&held| number(4, held.into())))
        .or_else(|| as_yes_no(option).map(|&held| number(5, held.into())))
        .or_else(|| as_u16(option).map(|&held| number(6, held.into())))
        .or_else(|| as_architecture(option).map(|&held| number(6, u16::from(held).into())))
        .or_else(|| as_u32(option).map(|&held| number(8, held)))
        .or_else(|| as_i32(option).map(|&held| number(9, held as u32)))
        .or_else(|| as_node_type(option).map(|&held| number(12, u8::from(held).into())))
        .or_else(|| as_message_type(option).map(|&held| number(13, u8::from(held).into())))
}

/// The list or the bytes of an option that holds them.
fn list_of(option: &DhcpOption) -> Option<Content<'_>> {
    as_addresses(option)
        .map(|held| Content::Addresses(held))
        .or_else(|| as_pairs(option).map(|held| Content::Pairs(held)))
        .or_else(|| as_u16s(option).map(|held| Content::U16s(held)))
        .or_else(|| as_codes(option).map(|held| Content::Codes(held)))
        .or_else(|| as_text(option).map(|held| Content::Bytes(10, held.as_bytes())))
        .or_else(|| as_bytes(option).map(|held| Content::Bytes(0, held)))
}

/// What an option holds.
pub fn content_of(option: &DhcpOption) -> Content<'_> {
    match option {
        DhcpOption::ClientNetworkInterface(a, b, c) => Content::Number(14, u32::from_be_bytes([0, *a, *b, *c])),
        DhcpOption::RapidCommit => Content::Flag,
        DhcpOption::Unknown(held) => Content::Bytes(0, held.data()),
        _ => number_of(option).or_else(|| list_of(option)).unwrap_or(Content::LeftInTheCrate),
    }
}
