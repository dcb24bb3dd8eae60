//! The fixed header (RFC 2131, section 2).

use super::{LEAST_MESSAGE, MOST_BYTES, big_endian, first_refusal};
use sindovaleph::calls::{Field, Fields};

const MAGIC: [u8; 4] = [99, 130, 83, 99];

/// Where the fields stand that are no numbers; the magic stands behind file, and then the area of options.
pub const CHADDR: usize = 28;
pub const CHADDR_END: usize = 44;
pub const SNAME: usize = CHADDR_END;
pub const FILE: usize = 108;
pub const FILE_END: usize = 236;
pub const AREA: usize = 240;

/// The refusal of every reader of a message: 2, then 1.
pub(super) fn refusal(message: &[u8]) -> u8 {
    first_refusal(&[(message.len() > MOST_BYTES, 2), (message.len() < LEAST_MESSAGE, 1)])
}

/// A header that is refused: all else is 0.
fn refused_header(refused: u8) -> Fields {
    Fields {
        refused,
        op: 0,
        htype: 0,
        hlen: 0,
        hops: 0,
        xid: 0,
        secs: 0,
        flags: 0,
        ciaddr: 0,
        yiaddr: 0,
        siaddr: 0,
        giaddr: 0,
        chaddr_refused: 0,
        chaddr_own: 0,
        chaddr_spills: false,
        sname: 0,
        file: 0,
        wrong_magic: false,
    }
}

/// All fields of the header.
pub fn header(message: &[u8]) -> Fields {
    let refused = refusal(message);
    if refused > 0 {
        return refused_header(refused);
    }
    let number = |start: usize, end: usize| big_endian(&message[start..=end]);
    let address = address(message);
    Fields {
        refused,
        op: message[0],
        htype: message[1],
        hlen: message[2],
        hops: message[3],
        xid: number(4, 7),
        secs: number(8, 9) as u16,
        flags: number(10, 11) as u16,
        ciaddr: number(12, 15),
        yiaddr: number(16, 19),
        siaddr: number(20, 23),
        giaddr: number(24, 27),
        chaddr_refused: address.refused,
        chaddr_own: address.own,
        chaddr_spills: address.spills,
        sname: up_to_zero(&message[SNAME..FILE]),
        file: up_to_zero(&message[FILE..FILE_END]),
        wrong_magic: message[FILE_END..AREA] != MAGIC,
    }
}

/// What is said of the address: its refusal, and where it has none, how many of its bytes lie in the field proper and whether hlen is above
/// 16 (document 02, ticket 4).
struct Address {
    refused: u8,
    own: u16,
    spills: bool,
}

fn address(message: &[u8]) -> Address {
    let end = CHADDR + usize::from(message[2]);
    let refused = first_refusal(&[(end > message.len(), 3)]);
    if refused > 0 {
        return Address { refused, own: 0, spills: false };
    }
    let own = (CHADDR..end).filter(|place| (CHADDR..CHADDR_END).contains(place)).count();
    Address { refused, own: own as u16, spills: message[2] > 16 }
}

/// How many bytes of a field stand before its first zero byte: all where it has none.
fn up_to_zero(field: &[u8]) -> u16 {
    field.iter().position(|&byte| byte == 0).unwrap_or(field.len()) as u16
}

/// The field xid alone.
pub fn xid(message: &[u8]) -> Field {
    let fields = header(message);
    Field { refused: fields.refused.into(), number: fields.xid as usize }
}

/// The area of options: the bytes from 240 on, where the magic stands before them.
pub fn area(message: &[u8]) -> Option<&[u8]> {
    let fields = header(message);
    (fields.refused == 0 && !fields.wrong_magic).then(|| &message[AREA..])
}
