//! What a packet carries: a DHCP message over IPv4 and UDP, or what is or may be one and cannot be read, and why, or anything else.

use crate::capture::Packet;
use std::net::Ipv4Addr;

/// What a packet carries.
#[derive(Debug, PartialEq, Eq)]
pub enum Carried<'a> {
    /// A DHCP message, and the address that it came from.
    Message(Ipv4Addr, &'a [u8]),
    /// What is or may be one, and is not read.
    Unread(Unread),
    /// Anything else.
    Other,
}

/// Why a packet is not read.
#[derive(Clone, Copy, Debug, PartialEq, Eq, PartialOrd, Ord)]
pub enum Unread {
    /// It is the first fragment of a message.
    Fragment,
    /// Not all of its bytes were captured.
    Cut,
    /// Its IP header says that it is shorter than an IP header can be.
    HeaderLength,
    /// Its IP packet says that it is shorter than its headers. That is also what 0 says: it stands in what a sender leaves to its
    /// network card to cut, which is not done to a message.
    IpLength,
    /// Its UDP packet says that it is shorter than its header.
    UdpLength,
    /// Its UDP packet says that it is longer than the IP packet that it is in.
    PastEnd,
    /// Its link is of a type that is not known here.
    OtherLink,
    /// Its interface is not declared, so that nothing says the type of its link.
    NoInterface,
}

impl Unread {
    /// What such packets are called.
    pub fn words(self) -> &'static str {
        match self {
            Unread::Fragment => "DHCP messages in fragments, which were not compared",
            Unread::Cut => "packets that were captured in part, which were not compared",
            Unread::HeaderLength => "UDP packets whose IP header length is below 20, which were not compared",
            Unread::IpLength => "UDP packets whose IP length is shorter than their headers, which were not compared",
            Unread::UdpLength => "UDP packets whose length is below 8, which were not compared",
            Unread::PastEnd => "UDP packets whose length goes past the end of their IP packet, which were not compared",
            Unread::OtherLink => "packets on links of another type, which were not looked at",
            Unread::NoInterface => "packets of an interface that is not declared, which were not looked at",
        }
    }
}

fn u16_at(bytes: &[u8], at: usize) -> Option<u16> {
    Some(u16::from_be_bytes([*bytes.get(at)?, *bytes.get(at + 1)?]))
}

/// What a packet carries.
pub fn carried(packet: &Packet) -> Carried<'_> {
    let bytes = packet.bytes.as_slice();
    match packet.link {
        Some(1) => over_link(u16_at(bytes, 12), bytes.get(14..), packet.whole),
        Some(113) => over_link(u16_at(bytes, 14), bytes.get(16..), packet.whole),
        Some(276) => over_link(u16_at(bytes, 0), bytes.get(20..), packet.whole),
        Some(12 | 14 | 101 | 228) => over_ip(bytes, packet.whole),
        Some(_) => Carried::Unread(Unread::OtherLink),
        None => Carried::Unread(Unread::NoInterface),
    }
}

/// What stands behind a link's header, by its protocol. VLAN tags and the header of SNAP, which stands behind a length, are passed.
fn over_link(protocol: Option<u16>, rest: Option<&[u8]>, whole: bool) -> Carried<'_> {
    match (protocol, rest) {
        (Some(0x0800), Some(rest)) => over_ip(rest, whole),
        (Some(0x8100 | 0x88A8 | 0x9100), Some(rest)) => over_link(u16_at(rest, 2), rest.get(4..), whole),
        (Some(..=1500), Some([0xAA, 0xAA, 3, 0, 0, 0, rest @ ..])) => over_link(u16_at(rest, 0), rest.get(2..), whole),
        (None, _) | (_, None) if !whole => Carried::Unread(Unread::Cut),
        _ => Carried::Other,
    }
}

/// What an IPv4 packet carries. Of one that ends inside its header all is looked at that is there.
fn over_ip(bytes: &[u8], whole: bool) -> Carried<'_> {
    const UDP: u8 = 17;
    let version = bytes.first().map_or(4, |first| first >> 4);
    let protocol = bytes.get(9).copied().unwrap_or(UDP);
    let behind_first = u16_at(bytes, 6).is_some_and(|fragment| fragment & 0x1FFF != 0);
    if version != 4 || protocol != UDP || behind_first {
        return Carried::Other;
    }
    match bytes.first_chunk::<20>() {
        Some(header) => over_udp(header, bytes, whole),
        None if whole => Carried::Other,
        None => Carried::Unread(Unread::Cut),
    }
}

/// What a UDP packet carries, or its first fragment, by the header of the IPv4 packet and by all of its bytes.
fn over_udp<'a>(header: &[u8; 20], bytes: &'a [u8], whole: bool) -> Carried<'a> {
    let begin = usize::from(header[0] & 15) * 4;
    let ip_len = usize::from(u16::from_be_bytes([header[2], header[3]]));
    let ends_early = Carried::Unread(if whole { Unread::PastEnd } else { Unread::Cut });
    if begin < 20 {
        return Carried::Unread(Unread::HeaderLength);
    }
    let udp = bytes.get(begin..).unwrap_or_default();
    if let (Some(from), Some(to)) = (u16_at(udp, 0), u16_at(udp, 2))
        && ![from, to].iter().any(|port| [67, 68].contains(port))
    {
        return Carried::Other;
    }
    if ip_len < begin + 8 {
        return Carried::Unread(Unread::IpLength);
    }
    let Some(udp_len) = u16_at(udp, 4).map(usize::from) else {
        return ends_early;
    };
    if header[6] & 0x20 != 0 {
        return Carried::Unread(Unread::Fragment);
    }
    if udp_len < 8 {
        return Carried::Unread(Unread::UdpLength);
    }
    if udp_len > ip_len - begin {
        return Carried::Unread(Unread::PastEnd);
    }
    let source = Ipv4Addr::new(header[12], header[13], header[14], header[15]);
    udp.get(8..udp_len).map_or(ends_early, |payload| Carried::Message(source, payload))
}

#[cfg(test)]
#[path = "carried_tests.rs"]
pub(crate) mod tests;
