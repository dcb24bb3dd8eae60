//! The header and the places of what the crate shows of a message.

use super::caught;
use dhcproto::v4::borrowed::Message;
use sindovaleph::calls::Fields;

/// All fields of the header. The crate has no word for an address past the end, nor for one that spills, nor for another magic.
pub fn fields(message: &Message<'_>) -> Fields {
    Fields {
        refused: 0,
        op: message.opcode().into(),
        htype: message.htype().into(),
        hlen: message.hlen(),
        hops: message.hops(),
        xid: message.xid(),
        secs: message.secs(),
        flags: message.flags().into(),
        ciaddr: message.ciaddr().into(),
        yiaddr: message.yiaddr().into(),
        siaddr: message.siaddr().into(),
        giaddr: message.giaddr().into(),
        chaddr_refused: 0,
        chaddr_own: 0,
        chaddr_spills: false,
        sname: message.sname().len() as u16,
        file: message.fname().len() as u16,
        wrong_magic: false,
    }
}

/// Where a part of some bytes begins, or nothing where it is no part of them.
pub fn place_of(bytes: &[u8], part: &[u8]) -> Option<usize> {
    let start = (part.as_ptr() as usize).checked_sub(bytes.as_ptr() as usize)?;
    (start + part.len() <= bytes.len()).then_some(start)
}

/// The address, or nothing where the crate panics.
pub fn chaddr<'a>(message: &Message<'a>) -> Option<&'a [u8]> {
    caught(|| message.chaddr())
}
