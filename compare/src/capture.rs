//! Captures of packets: pcap and pcapng, each in both byte orders. What a packet carries is told in `carried`.

use std::io::{self, Read};

/// No packet and no block of a capture is larger.
const MOST_BLOCK: usize = 1 << 26;

const SECTION_HEADER: u32 = 0x0A0D_0D0A;
const INTERFACE: u32 = 1;
const OLD_PACKET: u32 = 2;
const SIMPLE_PACKET: u32 = 3;
const ENHANCED_PACKET: u32 = 6;

/// Why a capture could not be read to its end.
#[derive(Debug, PartialEq, Eq)]
pub enum Trouble {
    /// It ends inside a packet or a block.
    Cut,
    /// What stands there is no packet and no block.
    Damaged,
    /// The file could not be read.
    Unreadable(String),
}

impl From<io::Error> for Trouble {
    fn from(error: io::Error) -> Trouble {
        match error.kind() {
            io::ErrorKind::UnexpectedEof => Trouble::Cut,
            _ => Trouble::Unreadable(error.to_string()),
        }
    }
}

/// The byte order of a capture.
#[derive(Clone, Copy, Debug, PartialEq, Eq)]
enum Order {
    Big,
    Little,
}

impl Order {
    fn u32_at(self, bytes: &[u8], at: usize) -> Result<u32, Trouble> {
        let four = bytes.get(at..at + 4).ok_or(Trouble::Damaged)?;
        let four = [four[0], four[1], four[2], four[3]];
        Ok(if self == Order::Big { u32::from_be_bytes(four) } else { u32::from_le_bytes(four) })
    }

    fn u16_at(self, bytes: &[u8], at: usize) -> Result<u32, Trouble> {
        let two = bytes.get(at..at + 2).ok_or(Trouble::Damaged)?;
        Ok(u32::from(if self == Order::Big {
            u16::from_be_bytes([two[0], two[1]])
        } else {
            u16::from_le_bytes([two[0], two[1]])
        }))
    }
}

/// One packet.
#[derive(Debug, PartialEq, Eq)]
pub struct Packet {
    /// The type of its link, where its interface is declared.
    pub link: Option<u32>,
    /// Its bytes, as far as they were captured.
    pub bytes: Vec<u8>,
    /// Whether all of them were captured.
    pub whole: bool,
}

/// An interface: the type of its link, and how many bytes of a packet are captured at most.
struct Interface {
    link: u32,
    most: usize,
}

/// A capture that is being read.
pub struct Capture<R> {
    input: R,
    order: Order,
    /// The one interface of a pcap file, or each that the pcapng section has declared so far.
    interfaces: Vec<Interface>,
    blocks: bool,
}

/// Exactly so many bytes.
fn take<R: Read>(input: &mut R, len: usize) -> Result<Vec<u8>, Trouble> {
    let mut bytes = Vec::new();
    input.take(len as u64).read_to_end(&mut bytes)?;
    if bytes.len() < len { Err(Trouble::Cut) } else { Ok(bytes) }
}

/// Exactly so many bytes, or nothing at the input's end.
fn take_or_end<R: Read>(input: &mut R, len: usize) -> Result<Option<Vec<u8>>, Trouble> {
    let mut bytes = Vec::new();
    input.take(len as u64).read_to_end(&mut bytes)?;
    match bytes.len() {
        0 => Ok(None),
        read if read < len => Err(Trouble::Cut),
        _ => Ok(Some(bytes)),
    }
}

/// The byte order of a pcap file by its magic, for times in microseconds and in nanoseconds.
fn pcap_order(magic: [u8; 4]) -> Option<Order> {
    match magic {
        [0xA1, 0xB2, 0xC3, 0xD4] | [0xA1, 0xB2, 0x3C, 0x4D] => Some(Order::Big),
        [0xD4, 0xC3, 0xB2, 0xA1] | [0x4D, 0x3C, 0xB2, 0xA1] => Some(Order::Little),
        _ => None,
    }
}

/// Whether a file that begins so is a capture.
pub fn is_capture(magic: [u8; 4]) -> bool {
    pcap_order(magic).is_some() || magic == SECTION_HEADER.to_be_bytes()
}

impl<R: Read> Capture<R> {
    /// Begins to read a capture, from its first byte on.
    pub fn open(mut input: R) -> Result<Capture<R>, Trouble> {
        let first = take(&mut input, 4)?;
        let Some(order) = pcap_order([first[0], first[1], first[2], first[3]]) else {
            let mut capture = Capture { input, order: Order::Big, interfaces: Vec::new(), blocks: true };
            capture.begin_section()?;
            return Ok(capture);
        };
        let header = take(&mut input, 20)?;
        let link = order.u32_at(&header, 16)? & 0xFFFF;
        Ok(Capture { input, order, interfaces: vec![Interface { link, most: usize::MAX }], blocks: false })
    }

    /// The next packet, or nothing at the end.
    pub fn next_packet(&mut self) -> Result<Option<Packet>, Trouble> {
        if self.blocks { self.next_in_blocks() } else { self.next_record() }
    }

    /// A record of a pcap file: times, captured length, original length, bytes.
    fn next_record(&mut self) -> Result<Option<Packet>, Trouble> {
        let Some(header) = take_or_end(&mut self.input, 16)? else {
            return Ok(None);
        };
        let len = self.order.u32_at(&header, 8)? as usize;
        if len > MOST_BLOCK {
            return Err(Trouble::Damaged);
        }
        let bytes = take(&mut self.input, len)?;
        Ok(Some(self.packet(0, bytes, self.order.u32_at(&header, 12)?)))
    }

    /// A packet of an interface, of which so many bytes were on the wire.
    fn packet(&self, interface: u32, bytes: Vec<u8>, on_wire: u32) -> Packet {
        let link = self.interfaces.get(interface as usize).map(|interface| interface.link);
        Packet { link, whole: bytes.len() >= on_wire as usize, bytes }
    }

    /// A section header whose type has been read: it says the byte order, and its interfaces are yet to come.
    fn begin_section(&mut self) -> Result<(), Trouble> {
        let header = take(&mut self.input, 8)?;
        self.order = match header[4..] {
            [0x1A, 0x2B, 0x3C, 0x4D] => Order::Big,
            [0x4D, 0x3C, 0x2B, 0x1A] => Order::Little,
            _ => return Err(Trouble::Damaged),
        };
        self.interfaces.clear();
        let len = self.order.u32_at(&header, 0)? as usize;
        if !(28..=MOST_BLOCK).contains(&len) {
            return Err(Trouble::Damaged);
        }
        take(&mut self.input, len - 12).map(|_| ())
    }

    /// The next block that is a packet.
    fn next_in_blocks(&mut self) -> Result<Option<Packet>, Trouble> {
        loop {
            let Some(kind) = take_or_end(&mut self.input, 4)? else {
                return Ok(None);
            };
            let kind = self.order.u32_at(&kind, 0)?;
            if kind == SECTION_HEADER {
                self.begin_section()?;
                continue;
            }
            let body = self.block_body()?;
            match kind {
                INTERFACE => self.declare(&body)?,
                OLD_PACKET => return self.long_packet(self.order.u16_at(&body, 0)?, &body).map(Some),
                ENHANCED_PACKET => return self.long_packet(self.order.u32_at(&body, 0)?, &body).map(Some),
                SIMPLE_PACKET => return self.simple_packet(&body).map(Some),
                _ => (),
            }
        }
    }

    /// The body of a block whose type has been read.
    fn block_body(&mut self) -> Result<Vec<u8>, Trouble> {
        let len = take(&mut self.input, 4)?;
        let len = self.order.u32_at(&len, 0)? as usize;
        if !(12..=MOST_BLOCK).contains(&len) || !len.is_multiple_of(4) {
            return Err(Trouble::Damaged);
        }
        let mut body = take(&mut self.input, len - 8)?;
        body.truncate(len - 12);
        Ok(body)
    }

    /// An interface of the section; where it says 0 bytes at most there is no limit.
    fn declare(&mut self, body: &[u8]) -> Result<(), Trouble> {
        let link = self.order.u16_at(body, 0)?;
        let most = self.order.u32_at(body, 4)? as usize;
        self.interfaces.push(Interface { link, most: if most == 0 { usize::MAX } else { most } });
        Ok(())
    }

    /// An enhanced packet, or one of the old type: these differ before their times, in how the interface is said.
    fn long_packet(&self, interface: u32, body: &[u8]) -> Result<Packet, Trouble> {
        let len = self.order.u32_at(body, 12)? as usize;
        let on_wire = self.order.u32_at(body, 16)?;
        let bytes = body[20..].get(..len).ok_or(Trouble::Damaged)?;
        Ok(self.packet(interface, bytes.to_vec(), on_wire))
    }

    /// A packet of the first interface, of which only the length on the wire is said. What fills the block is none of its bytes.
    fn simple_packet(&self, body: &[u8]) -> Result<Packet, Trouble> {
        let on_wire = self.order.u32_at(body, 0)?;
        let most = self.interfaces.first().map_or(usize::MAX, |interface| interface.most);
        let bytes = body[4..].iter().take(most.min(on_wire as usize)).copied().collect();
        Ok(self.packet(0, bytes, on_wire))
    }
}

#[cfg(test)]
#[path = "capture_tests.rs"]
pub(crate) mod tests;
