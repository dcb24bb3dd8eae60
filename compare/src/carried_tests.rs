//! Packets that are built byte by byte.

use super::*;

pub(crate) const PAYLOAD: [u8; 5] = [1, 2, 3, 4, 5];

/// An IPv4 packet from 192.0.2.7 with these flags and ports.
fn ip(flags: [u8; 2], ports: [u8; 4]) -> Vec<u8> {
    let mut packet = vec![0x45, 0, 0, 33, 0, 1, flags[0], flags[1], 64, 17, 0, 0, 192, 0, 2, 7, 255, 255, 255, 255];
    packet.extend(ports);
    packet.extend([0, 13, 0, 0]);
    packet.extend(PAYLOAD);
    packet
}

/// A packet with the one payload.
pub(crate) fn dhcp() -> Vec<u8> {
    ip([0, 0], [0, 68, 0, 67])
}

/// The same with another byte at a place.
pub(crate) fn changed(at: usize, byte: u8) -> Vec<u8> {
    let mut packet = dhcp();
    packet[at] = byte;
    packet
}

/// Where the lengths stand: of the IP packet, whose second byte it is, and of the UDP packet.
pub(crate) const IP_LENGTH: usize = 3;
pub(crate) const UDP_LENGTH: usize = 25;

/// A packet in an Ethernet frame, behind so many VLAN tags, with bytes behind it that fill.
pub(crate) fn ethernet(packet: &[u8], tags: usize) -> Vec<u8> {
    let mut frame = vec![2; 12];
    frame.extend([0x81, 0, 0, 9].repeat(tags));
    frame.extend([8, 0]);
    frame.extend(packet);
    frame.extend([0; 6]);
    frame
}

/// Whether a packet carries the one payload.
pub(crate) fn is_message(packet: &Packet) -> bool {
    carried(packet) == Carried::Message(Ipv4Addr::new(192, 0, 2, 7), &PAYLOAD)
}

/// Why bytes on a link are not read; nothing where they are a message or something else.
fn unread(link: u32, bytes: &[u8], whole: bool) -> Option<Unread> {
    match carried(&Packet { link: Some(link), bytes: bytes.to_vec(), whole }) {
        Carried::Unread(why) => Some(why),
        _ => None,
    }
}

fn is_other(link: u32, bytes: &[u8], whole: bool) -> bool {
    carried(&Packet { link: Some(link), bytes: bytes.to_vec(), whole }) == Carried::Other
}

#[test]
fn links() {
    let cooked = [&[0; 14][..], &[8, 0], &dhcp()].concat();
    let cooked_2 = [&[8, 0][..], &[0; 18], &dhcp()].concat();
    let snap = [&[2; 12][..], &[0, 41, 0xAA, 0xAA, 3, 0, 0, 0, 8, 0], &dhcp()].concat();
    let [frame, tag, tags] = [0, 1, 2].map(|tags| (1, ethernet(&dhcp(), tags)));
    let ip = [12, 14, 101, 228].map(|link| (link, dhcp()));
    for (link, bytes) in [frame, tag, tags, (1, snap), (113, cooked), (276, cooked_2)].into_iter().chain(ip) {
        assert!(is_message(&Packet { link: Some(link), bytes, whole: true }), "link {link}");
    }
    assert_eq!(unread(105, &dhcp(), true), Some(Unread::OtherLink));
    let undeclared = Packet { link: None, bytes: dhcp(), whole: true };
    assert_eq!(carried(&undeclared), Carried::Unread(Unread::NoInterface));
}

#[test]
fn options_of_ip_are_passed() {
    let mut packet = changed(0, 0x46);
    packet[IP_LENGTH] += 4;
    packet.splice(20..20, [1; 4]);
    assert!(is_message(&Packet { link: Some(101), bytes: packet, whole: true }));
}

#[test]
fn what_is_no_message() {
    assert!(is_other(101, &ip([0, 9], [0, 67, 0, 68]), true));
    assert!(is_other(101, &ip([0, 0], [0, 53, 0, 53]), true));
    assert!(is_other(101, &changed(9, 6), true));
    assert!(is_other(101, &changed(0, 0x65), true));
    assert!(is_other(1, &[2; 60], true));
}

#[test]
fn fragments_are_named() {
    assert_eq!(unread(101, &ip([0x20, 0], [0, 67, 0, 68]), true), Some(Unread::Fragment));
}

/// Whether each begin of some bytes that is shorter than this is called captured in part.
fn each_begin_is_cut(link: u32, bytes: &[u8], len: usize) -> bool {
    (0..len).all(|len| unread(link, &bytes[..len], false) == Some(Unread::Cut))
}

#[test]
fn what_was_captured_in_part_is_named() {
    assert!(each_begin_is_cut(101, &dhcp(), 33));
    assert!(each_begin_is_cut(1, &ethernet(&dhcp(), 2), 14 + 8 + 33));
    assert!(each_begin_is_cut(113, &[&[0; 14][..], &[8, 0], &dhcp()].concat(), 16 + 33));
    assert!(each_begin_is_cut(276, &[&[8, 0][..], &[0; 18], &dhcp()].concat(), 20 + 33));
    assert!(is_other(101, &changed(9, 6)[..10], false));
    assert!(is_other(101, &ip([0, 0], [0, 53, 0, 53])[..24], false));
}

#[test]
fn what_ends_too_early_was_not_captured_in_part() {
    assert!((0..20).all(|len| is_other(101, &dhcp()[..len], true)));
    assert!((20..33).all(|len| unread(101, &dhcp()[..len], true) == Some(Unread::PastEnd)));
}

#[test]
fn lengths_that_cannot_be_are_named() {
    for whole in [false, true] {
        assert!((0..8).all(|len| unread(101, &changed(UDP_LENGTH, len), whole) == Some(Unread::UdpLength)));
        assert!((0..28).all(|len| unread(101, &changed(IP_LENGTH, len), whole) == Some(Unread::IpLength)));
        assert!((0x40..0x45).all(|first| unread(101, &changed(0, first), whole) == Some(Unread::HeaderLength)));
    }
}

#[test]
fn bytes_behind_the_ip_packet_are_none_of_its_message() {
    assert_eq!(unread(1, &ethernet(&changed(UDP_LENGTH, 14), 0), true), Some(Unread::PastEnd));
    assert_eq!(unread(1, &ethernet(&changed(IP_LENGTH, 32), 0), true), Some(Unread::PastEnd));
}

#[test]
fn an_empty_message_is_one() {
    let packet = Packet { link: Some(101), bytes: changed(UDP_LENGTH, 8), whole: true };
    assert!(matches!(carried(&packet), Carried::Message(_, [])));
}
