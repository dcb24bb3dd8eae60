//! Captures that are built byte by byte.

use super::*;
use crate::carried::tests::{dhcp, ethernet, is_message};

fn number(order: Order, number: u32) -> [u8; 4] {
    if order == Order::Big { number.to_be_bytes() } else { number.to_le_bytes() }
}

/// Two numbers of two bytes.
fn two_numbers(order: Order, first: u16, second: u16) -> [u8; 4] {
    let bytes = |number: u16| if order == Order::Big { number.to_be_bytes() } else { number.to_le_bytes() };
    let ([a, b], [c, d]) = (bytes(first), bytes(second));
    [a, b, c, d]
}

fn pcap(order: Order, magic: u32, link: u32, packets: &[Vec<u8>]) -> Vec<u8> {
    let mut file = Vec::new();
    for word in [magic, 0x0002_0004, 0, 0, 65_535, link] {
        file.extend(number(order, word));
    }
    for packet in packets {
        for word in [5, 6, packet.len() as u32, packet.len() as u32] {
            file.extend(number(order, word));
        }
        file.extend(packet);
    }
    file
}

/// A block of a pcapng file.
fn block(order: Order, kind: u32, body: &[u8]) -> Vec<u8> {
    let mut padded = body.to_vec();
    padded.resize(body.len().div_ceil(4) * 4, 0);
    let len = number(order, padded.len() as u32 + 12);
    [&number(order, kind)[..], &len, &padded, &len].concat()
}

/// The begin of a section, with an interface of this link that captures so many bytes at most.
fn section_begin(order: Order, link: u16, most: u32) -> Vec<u8> {
    let link = two_numbers(order, link, 0);
    [
        block(order, SECTION_HEADER, &[&number(order, 0x1A2B_3C4D)[..], &[0; 12]].concat()),
        block(order, INTERFACE, &[link, number(order, most)].concat()),
    ]
    .concat()
}

/// A packet that says its interface: enhanced, or of the old type, which has the count of lost packets beside it.
fn long_packet(order: Order, kind: u32, interface: u16, packet: &[u8]) -> Vec<u8> {
    let interface = if kind == OLD_PACKET { two_numbers(order, interface, 7) } else { number(order, interface.into()) };
    let len = number(order, packet.len() as u32);
    block(order, kind, &[&interface[..], &[0; 8], &len, &len, packet].concat())
}

/// A section with an unknown block, and the packet as enhanced, of the old type and simple.
fn section(order: Order, link: u16, packet: &[u8]) -> Vec<u8> {
    [
        section_begin(order, link, 0),
        block(order, 5, &[1, 2, 3]),
        long_packet(order, ENHANCED_PACKET, 0, packet),
        long_packet(order, OLD_PACKET, 0, packet),
        block(order, SIMPLE_PACKET, &[&number(order, packet.len() as u32)[..], packet].concat()),
    ]
    .concat()
}

/// A section with packets over IP as they are given, between a packet of each type whose interface is not declared.
pub(crate) fn section_of(packets: &[Vec<u8>]) -> Vec<u8> {
    let order = Order::Little;
    let mut file = section_begin(order, 101, 0);
    file.extend(long_packet(order, OLD_PACKET, 1, &dhcp()));
    file.extend(packets.iter().flat_map(|packet| long_packet(order, OLD_PACKET, 0, packet)));
    file.extend(long_packet(order, ENHANCED_PACKET, 7, &dhcp()));
    file
}

/// All packets of a capture.
fn packets(bytes: &[u8]) -> Result<Vec<Packet>, Trouble> {
    let mut capture = Capture::open(bytes)?;
    let mut all = Vec::new();
    while let Some(packet) = capture.next_packet()? {
        all.push(packet);
    }
    Ok(all)
}

/// How many DHCP messages a capture has, all with the one payload.
fn messages(bytes: &[u8]) -> usize {
    packets(bytes).unwrap().iter().filter(|packet| is_message(packet)).count()
}

#[test]
fn pcap_in_both_orders() {
    for order in [Order::Big, Order::Little] {
        for magic in [0xA1B2_C3D4, 0xA1B2_3C4D] {
            let file = pcap(order, magic, 1, &[ethernet(&dhcp(), 0), ethernet(&dhcp(), 1), ethernet(&dhcp(), 2)]);
            assert!(is_capture([file[0], file[1], file[2], file[3]]));
            assert_eq!(messages(&file), 3);
        }
    }
}

#[test]
fn pcapng_in_both_orders() {
    let file = [section(Order::Big, 1, &ethernet(&dhcp(), 0)), section(Order::Little, 101, &dhcp())].concat();
    assert!(is_capture([file[0], file[1], file[2], file[3]]));
    assert_eq!(messages(&file), 6);
}

#[test]
fn packets_of_interfaces_that_are_not_declared_are_told() {
    let links = |file: &[u8]| packets(file).unwrap().iter().map(|packet| packet.link).collect::<Vec<_>>();
    assert_eq!(links(&section_of(&[dhcp(), dhcp()])), [None, Some(101), Some(101), None]);
    let next_section = section(Order::Big, 101, &dhcp());
    let without = [&next_section[..28], &next_section[48..]].concat();
    assert_eq!(links(&without), [None; 3]);
    assert_eq!(links(&[next_section, without].concat()), [Some(101), Some(101), Some(101), None, None, None]);
}

#[test]
fn what_was_captured_in_part_is_told() {
    let cut = |file: &[u8]| {
        packets(file).unwrap().iter().map(|packet| (packet.bytes.len(), packet.whole)).collect::<Vec<_>>()
    };
    let mut file = pcap(Order::Little, 0xA1B2_C3D4, 101, &[dhcp(), dhcp()]);
    file[24 + 12] += 1;
    assert_eq!(cut(&file), [(33, false), (33, true)]);
    let mut enhanced = long_packet(Order::Little, ENHANCED_PACKET, 0, &dhcp());
    enhanced[8 + 16] += 1;
    assert_eq!(cut(&[section_begin(Order::Little, 101, 0), enhanced].concat()), [(33, false)]);
}

#[test]
fn what_fills_a_simple_packet_is_none_of_its_bytes() {
    let packet = &dhcp()[..30];
    let simple = block(Order::Big, SIMPLE_PACKET, &[&[0, 0, 0, 33][..], packet].concat());
    let file = [section_begin(Order::Big, 101, 30), simple].concat();
    assert_eq!(packets(&file).unwrap(), [Packet { link: Some(101), bytes: packet.to_vec(), whole: false }]);
}

#[test]
fn cut_captures_say_so() {
    for file in [pcap(Order::Big, 0xA1B2_C3D4, 101, &[dhcp()]), section(Order::Little, 101, &dhcp())] {
        for len in 4..file.len() {
            let read = packets(&file[..len]);
            assert!(read.is_ok() || read == Err(Trouble::Cut), "{len} bytes: {read:?}");
        }
        assert_eq!(packets(&file[..file.len() - 1]), Err(Trouble::Cut));
    }
}

#[test]
fn damaged_captures_say_so() {
    let mut record = pcap(Order::Big, 0xA1B2_C3D4, 101, &[dhcp()]);
    record[32] = 0x7F;
    assert_eq!(packets(&record), Err(Trouble::Damaged));
    let mut section = section(Order::Big, 101, &dhcp());
    section[8] = 0;
    assert_eq!(packets(&section), Err(Trouble::Damaged));
}
