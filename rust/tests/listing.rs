//! The listing as text: byte for byte what `./list` prints. A room of 65,535 bytes takes every listing, which is proved; where one
//! does not fit, nothing is written.

use sindovaleph::{Message, Refusal, listing};

const ACK: &[u8] = include_bytes!("../../samples/ack");
const INCIDENT: &[u8] = include_bytes!("../../samples/incident");
const SPILL: &[u8] = include_bytes!("../../samples/spill");

#[test]
fn a_message_is_listed() {
    let mut room = [0xEE; 4096];
    let text = listing(ACK, &mut room).unwrap();
    let page = include_str!("../../README.md");
    assert!(text.starts_with("message 285 op 2 htype 1 hlen 6 xid 3735928559\n") && page.contains(text), "{text}");
    let len = text.len();
    assert!(room[len..].iter().all(|&byte| byte == 0xEE));
    assert!(listing(INCIDENT, &mut room).unwrap().contains("\nchaddr refused 3\n"));
}

#[test]
fn an_address_that_spills_is_listed_with_a_word() {
    let mut room = [0; 4096];
    let lines = "message 244 op 2 htype 1 hlen 17 xid 42\n\
                 chaddr 2 0 0 0 0 1 0 0 0 0 0 0 0 0 0 0 98 spill\n\
                 option 53 kind 13 parts 1 value 5\n\
                 stop end 4\n";
    assert_eq!(listing(SPILL, &mut room), Ok(lines));
    let page = include_str!("../../README.md");
    assert!(lines.lines().nth(1).is_some_and(|line| page.contains(&format!("\n{line}\n"))));
    let mut bytes = SPILL.to_vec();
    for (hlen, second) in [(16, "chaddr 2 0 0 0 0 1 0 0 0 0 0 0 0 0 0 0"), (255, "chaddr refused 3")] {
        bytes[2] = hlen;
        assert_eq!(listing(&bytes, &mut room).unwrap().lines().nth(1), Some(second));
    }
}

#[test]
fn any_bytes_are_listed() {
    let mut room = [0; 200];
    assert_eq!(listing(&[], &mut room), Ok("refused 1\n"));
    assert_eq!(listing(&[7; 239], &mut room), Ok("refused 1\n"));
    assert_eq!(listing(&[7; 4097], &mut room), Ok("too long\n"));
    assert!(Message::new(&[7; 4097]).is_ok());
}

#[test]
fn a_room_that_is_too_short_is_left_as_it_is() {
    let mut room = [0xEE; 4096];
    let len = listing(ACK, &mut room).unwrap().len();
    room.fill(0xEE);
    assert_eq!(listing(ACK, &mut room[..len - 1]), Err(Refusal::NoRoom));
    assert!(room.iter().all(|&byte| byte == 0xEE));
    assert_eq!(listing(ACK, &mut room[..len]).map(str::len), Ok(len));
    assert_eq!(listing(ACK, &mut vec![0; 65_536]), Err(Refusal::TooLong));
}

/// A message of 4,096 bytes with a very long listing: the numbers of the header and nearly all bytes of the address have
/// three digits or more, and the area has nothing but empty options of codes 100 and 101, whose lines are the longest
/// for the bytes that they take.
fn long_listed() -> Vec<u8> {
    let mut message = vec![255; 240];
    message[236..].copy_from_slice(&[99, 130, 83, 99]);
    message.extend([100, 0, 101, 0].repeat((4096 - 240) / 4));
    message
}

#[test]
fn a_very_long_listing_fits() {
    let message = long_listed();
    assert_eq!(message.len(), 4096);
    let mut room = vec![0; 65_535];
    let text = listing(&message, &mut room).unwrap();
    assert_eq!(text.len(), 64_680);
    let lines: Vec<&str> = text.lines().collect();
    assert_eq!(lines.len(), 2 + 1928 + 1);
    assert_eq!(lines[0], "message 4096 op 255 htype 255 hlen 255 xid 4294967295");
    assert_eq!(lines[2], "option 100 kind 10 parts 1 value");
    assert_eq!(lines.last(), Some(&"stop out 3856"));
    assert_eq!(listing(&message, &mut room[..64_679]), Err(Refusal::NoRoom));
}
