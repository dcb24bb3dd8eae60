//! A value for each of the typed writers.

use sindovaleph::calls::{self, Written};

/// What is to be written, by its writer. A list of pairs is its addresses one behind the other.
#[derive(Clone, Copy, Debug)]
pub enum Typed<'a> {
    Address(u32),
    Addresses(&'a [u32]),
    Pairs(&'a [u32]),
    Byte(u8),
    YesNo(bool),
    U16(u16),
    U16s(&'a [u16]),
    U32(u32),
    I32(i32),
    Text(&'a [u8]),
    Codes(&'a [u8]),
    NodeType(u8),
    MessageType(u8),
    ThreeBytes([u8; 3]),
    Flag,
}

impl Typed<'_> {
    /// The number of the kind, as document 01 has it.
    pub fn kind(&self) -> u8 {
        match self {
            Typed::Address(_) => 1,
            Typed::Addresses(_) => 2,
            Typed::Pairs(_) => 3,
            Typed::Byte(_) => 4,
            Typed::YesNo(_) => 5,
            Typed::U16(_) => 6,
            Typed::U16s(_) => 7,
            Typed::U32(_) => 8,
            Typed::I32(_) => 9,
            Typed::Text(_) => 10,
            Typed::Codes(_) => 11,
            Typed::NodeType(_) => 12,
            Typed::MessageType(_) => 13,
            Typed::ThreeBytes(_) => 14,
            Typed::Flag => 15,
        }
    }

    /// The bytes of the value, before it is cut in parts.
    pub fn bytes(&self) -> Vec<u8> {
        match self {
            Typed::Address(number) | Typed::U32(number) => number.to_be_bytes().to_vec(),
            Typed::Addresses(list) | Typed::Pairs(list) => list.iter().flat_map(|n| n.to_be_bytes()).collect(),
            Typed::Byte(byte) | Typed::NodeType(byte) | Typed::MessageType(byte) => vec![*byte],
            Typed::YesNo(yes) => vec![u8::from(*yes)],
            Typed::U16(number) => number.to_be_bytes().to_vec(),
            Typed::U16s(list) => list.iter().flat_map(|n| n.to_be_bytes()).collect(),
            Typed::I32(number) => number.to_be_bytes().to_vec(),
            Typed::Text(bytes) | Typed::Codes(bytes) => bytes.to_vec(),
            Typed::ThreeBytes(bytes) => bytes.to_vec(),
            Typed::Flag => Vec::new(),
        }
    }

    /// The library's writer for it.
    pub fn write(&self, room: &mut [u8], place: usize, code: u8) -> Written {
        match *self {
            Typed::Address(address) => calls::write_address(room, place, code, address),
            Typed::Addresses(list) => calls::write_addresses(room, place, code, list),
            Typed::Pairs(list) => calls::write_pairs(room, place, code, list),
            Typed::Byte(byte) => calls::write_byte(room, place, code, byte),
            Typed::YesNo(yes) => calls::write_yes_no(room, place, code, yes),
            Typed::U16(number) => calls::write_u16(room, place, code, number),
            Typed::U16s(list) => calls::write_u16s(room, place, code, list),
            Typed::U32(number) => calls::write_u32(room, place, code, number),
            Typed::I32(number) => calls::write_i32(room, place, code, number),
            Typed::Text(bytes) => calls::write_text(room, place, code, bytes),
            Typed::Codes(codes) => calls::write_codes(room, place, code, codes),
            Typed::NodeType(byte) => calls::write_node_type(room, place, code, byte),
            Typed::MessageType(byte) => calls::write_message_type(room, place, code, byte),
            Typed::ThreeBytes(bytes) => calls::write_three_bytes(room, place, code, bytes),
            Typed::Flag => calls::write_flag(room, place, code),
        }
    }
}
