//! The crate's writing, into a fresh buffer. Nothing is answered where the crate has no way to say it.

use super::options::*;
use crate::typed::Typed;
use dhcproto::v4::{DhcpOption, MessageType, NodeType, OptionCode, encode_long_opt_bytes};
use dhcproto::{Encodable, Encoder};
use sindovaleph::calls::Route;
use std::net::Ipv4Addr;

/// The option that holds this typed value under this code.
fn option_of(code: u8, value: &Typed<'_>) -> Option<DhcpOption> {
    let list = |numbers: &[u32]| numbers.iter().map(|&number| Ipv4Addr::from(number)).collect::<Vec<_>>();
    match *value {
        Typed::Address(number) => address(code, number.into()),
        Typed::Addresses(numbers) => addresses(code, list(numbers)),
        Typed::Pairs(numbers) if numbers.len() % 2 == 1 => None,
        Typed::Pairs(numbers) => pairs(code, list(numbers).chunks(2).map(|pair| (pair[0], pair[1])).collect()),
        Typed::Byte(number) => byte(code, number),
        Typed::YesNo(yes) => yes_no(code, yes),
        Typed::U16(number) => u16_number(code, number).or_else(|| architecture(code, number.into())),
        Typed::U16s(numbers) => u16s(code, numbers.to_vec()),
        Typed::U32(number) => u32_number(code, number),
        Typed::I32(number) => i32_number(code, number),
        Typed::Text(bytes) => text(code, String::from_utf8(bytes.to_vec()).ok()?),
        Typed::Codes(bytes) => codes(code, bytes.iter().map(|&byte| OptionCode::from(byte)).collect()),
        Typed::NodeType(byte) => node_type(code, NodeType::from(byte)),
        Typed::MessageType(byte) => message_type(code, MessageType::from(byte)),
        Typed::ThreeBytes([a, b, c]) => (code == 94).then_some(DhcpOption::ClientNetworkInterface(a, b, c)),
        Typed::Flag => (code == 80).then_some(DhcpOption::RapidCommit),
    }
}

/// A typed value under a code.
pub fn write_typed(code: u8, value: &Typed<'_>) -> Option<Vec<u8>> {
    option_of(code, value)?.to_vec().ok()
}

/// A byte value under any code: the option of that code where it holds bytes, else what the crate's options are written by.
pub fn write_bytes(code: u8, value: &[u8]) -> Option<Vec<u8>> {
    if let Some(option) = bytes(code, value.to_vec()) {
        return option.to_vec().ok();
    }
    let mut written = Vec::new();
    encode_long_opt_bytes(code.into(), value, &mut Encoder::new(&mut written)).ok()?;
    Some(written)
}

/// The option of a table of routes. The crate's type of a destination is built from its text.
pub fn routes(routes: &[Route]) -> Option<DhcpOption> {
    let mut table = Vec::with_capacity(routes.len());
    for route in routes {
        let destination = format!("{}/{}", Ipv4Addr::from(route.destination), route.width);
        table.push((destination.parse().ok()?, route.gateway.into()));
    }
    Some(DhcpOption::ClasslessStaticRoute(table))
}

/// A table of routes.
pub fn write_routes(table: &[Route]) -> Option<Vec<u8>> {
    routes(table)?.to_vec().ok()
}
