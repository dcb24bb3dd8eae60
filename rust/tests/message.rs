//! The header, and where the options stand.

mod common;

use common::{message, message_with};
use sindovaleph::{Message, Refusal, xid};
use std::net::Ipv4Addr;

/// A message of 300 bytes in which the first 28 and chaddr's 16 count up.
fn counted() -> Vec<u8> {
    let mut bytes = message(300, &[12, 1, 97, 255]);
    for (i, byte) in bytes.iter_mut().enumerate().take(44) {
        *byte = i as u8 + 1;
    }
    bytes
}

#[test]
fn every_field_is_where_rfc_2131_has_it() {
    let bytes = counted();
    let message = Message::new(&bytes).unwrap();
    assert_eq!((message.opcode(), message.htype(), message.hlen(), message.hops()), (1, 2, 3, 4));
    assert_eq!((message.xid(), message.secs(), message.flags()), (0x0506_0708, 0x090A, 0x0B0C));
    assert_eq!(message.ciaddr(), Ipv4Addr::new(13, 14, 15, 16));
    assert_eq!(message.yiaddr(), Ipv4Addr::new(17, 18, 19, 20));
    assert_eq!(message.siaddr(), Ipv4Addr::new(21, 22, 23, 24));
    assert_eq!(message.giaddr(), Ipv4Addr::new(25, 26, 27, 28));
    assert_eq!(message.chaddr().map(|chaddr| chaddr.bytes()), Ok(&[29, 30, 31][..]));
    assert_eq!(message.bytes(), bytes);
    assert_eq!(xid(&bytes), Ok(0x0506_0708));
}

#[test]
fn names_end_at_their_first_zero_or_with_their_field() {
    let mut bytes = counted();
    assert_eq!(Message::new(&bytes).map(|message| (message.sname(), message.fname())), Ok((&[][..], &[][..])));
    bytes[44..108].fill(b's');
    bytes[108..236].fill(b'f');
    let message = Message::new(&bytes).unwrap();
    assert_eq!((message.sname(), message.fname()), (&[b's'; 64][..], &[b'f'; 128][..]));
    bytes[50] = 0;
    bytes[110] = 0;
    let message = Message::new(&bytes).unwrap();
    assert_eq!((message.sname(), message.fname()), (&b"ssssss"[..], &b"ff"[..]));
}

#[test]
fn the_area_is_all_behind_the_magic() {
    let mut bytes = message_with(&[12, 1, 97, 255, 7]);
    let shown = Message::new(&bytes).unwrap();
    assert_eq!((shown.has_magic(), shown.area()), (true, &[12, 1, 97, 255, 7][..]));
    for i in 236..240 {
        bytes[i] ^= 1;
        let shown = Message::new(&bytes).unwrap();
        assert_eq!((shown.has_magic(), shown.area()), (false, &[][..]));
        assert_eq!(shown.opts(&mut []).next(), None);
        bytes[i] ^= 1;
    }
    bytes.truncate(240);
    let shown = Message::new(&bytes).unwrap();
    assert_eq!((shown.has_magic(), shown.area()), (true, &[][..]));
}

#[test]
fn lengths_that_are_refused() {
    let bytes = vec![0; 65_536];
    assert_eq!(Message::new(&bytes).err(), Some(Refusal::TooLong));
    assert_eq!(Message::new(&bytes[1..]).err(), None);
    assert_eq!(Message::new(&bytes[..239]).err(), Some(Refusal::MessageTooShort));
    assert_eq!(Message::new(&[]).err(), Some(Refusal::MessageTooShort));
    assert_eq!((xid(&bytes), xid(&bytes[..239])), (Err(Refusal::TooLong), Err(Refusal::MessageTooShort)));
}

/// A message of so many bytes that count up, of which the address has `hlen`.
fn counted_address(len: usize, hlen: u8) -> Vec<u8> {
    let mut bytes: Vec<u8> = (0..len).map(|at| at as u8).collect();
    bytes[2] = hlen;
    bytes
}

#[test]
fn chaddr_tells_its_own_bytes_from_those_behind_its_field() {
    let cases = [(240, 0), (240, 6), (240, 15), (240, 16), (240, 17), (240, 18), (240, 212), (283, 255), (300, 255)];
    for (len, hlen) in cases {
        let bytes = counted_address(len, hlen);
        let chaddr = Message::new(&bytes).unwrap().chaddr().unwrap();
        let end = 28 + usize::from(hlen);
        assert_eq!(chaddr.bytes(), &bytes[28..end], "hlen {hlen}");
        assert_eq!(chaddr.own(), &bytes[28..end.min(44)], "hlen {hlen}");
        assert_eq!(chaddr.spilled(), &bytes[end.min(44)..end], "hlen {hlen}");
        assert_eq!(chaddr.spills(), hlen > 16, "hlen {hlen}");
    }
}

#[test]
fn chaddr_past_the_end_is_refused() {
    for (len, hlen) in [(240, 213), (240, 255), (244, 255), (282, 255)] {
        let bytes = counted_address(len, hlen);
        assert_eq!(Message::new(&bytes).unwrap().chaddr(), Err(Refusal::ChaddrPastEnd), "{len} bytes, hlen {hlen}");
    }
}

#[test]
fn text_of_sname_is_no_part_of_an_address() {
    let mut bytes = message(240, &[]);
    bytes[44..48].copy_from_slice(b"boot");
    bytes[2] = 20;
    let chaddr = Message::new(&bytes).unwrap().chaddr().unwrap();
    assert_eq!(chaddr.to_string(), "02:00:00:00:00:01:00:00:00:00:00:00:00:00:00:00");
    assert_eq!((chaddr.spilled(), chaddr.bytes().ends_with(b"boot")), (&b"boot"[..], true));
    bytes[2] = 6;
    assert_eq!(Message::new(&bytes).unwrap().chaddr().unwrap().to_string(), "02:00:00:00:00:01");
}

#[test]
fn what_is_shown_outlives_the_message() {
    let bytes = counted();
    let (sname, area, own) = {
        let message = Message::new(&bytes).unwrap();
        let copy = message;
        (copy.sname(), message.area(), message.chaddr().unwrap().own())
    };
    assert!(sname.is_empty() && area.len() == 60 && own == [29, 30, 31]);
}
