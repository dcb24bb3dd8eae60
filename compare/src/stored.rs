//! Stored messages: captures, framed messages, single messages; and what could not be read of a file, in words.

use crate::capture::{self, Capture, Trouble};
use crate::carried::{Carried, Unread, carried};
use std::collections::BTreeMap;
use std::fs::File;
use std::io::{self, BufReader, Read, Seek};
use std::net::Ipv4Addr;
use std::path::Path;

/// A message, its number in its file, and the address that it came from where a capture says it. Packets of a capture are counted from 1,
/// as capture programs do; framed messages from 0.
pub struct Stored<'a> {
    pub number: u64,
    pub source: Option<Ipv4Addr>,
    pub bytes: &'a [u8],
}

/// What takes the messages of a file, one by one.
pub type Taker<'a> = dyn FnMut(Stored<'_>) + 'a;

/// Whether a file holds framed messages, where it is no capture.
pub fn is_framed(path: &Path) -> bool {
    path.extension().is_some_and(|end| end == "bin")
}

/// Hands over each message of a file. The answer says what went wrong, a sentence each.
pub fn each_message(path: &Path, taker: &mut Taker<'_>) -> Vec<String> {
    match open(path) {
        Err(sentence) => vec![sentence],
        Ok((magic, file)) if capture::is_capture(magic) => from_capture(file, taker),
        Ok((_, file)) if is_framed(path) => from_frames(file, taker).into_iter().collect(),
        Ok((_, file)) => from_whole(file, taker).into_iter().collect(),
    }
}

/// A file from its begin on, and its first four bytes; zeros stand for those that are missing.
fn open(path: &Path) -> Result<([u8; 4], BufReader<File>), String> {
    let unreadable = |error: io::Error| format!("cannot be read: {error}");
    if path.is_dir() {
        return Err("is a directory, and no file of messages".to_string());
    }
    let mut file = File::open(path).map_err(unreadable)?;
    let mut first = Vec::new();
    (&mut file).take(4).read_to_end(&mut first).map_err(unreadable)?;
    if let Some(sentence) = no_messages(&first) {
        return Err(sentence.to_string());
    }
    file.rewind().map_err(unreadable)?;
    first.resize(4, 0);
    Ok(([first[0], first[1], first[2], first[3]], BufReader::new(file)))
}

/// What a file is that begins so, where that is known to hold no messages: empty; packed by gzip, zstd, xz, bzip2 or lz4; a capture
/// of another kind, patched pcap or snoop.
fn no_messages(first: &[u8]) -> Option<&'static str> {
    match first {
        [] => Some("is empty"),
        [0x1F, 0x8B, ..]
        | [0x28, 0xB5, 0x2F, 0xFD]
        | [0xFD, b'7', b'z', b'X']
        | [b'B', b'Z', b'h', _]
        | [4, 0x22, 0x4D, 0x18] => Some("is compressed: unpack it first"),
        [0xA1, 0xB2, 0xCD, 0x34] | [0x34, 0xCD, 0xB2, 0xA1] | b"snoo" => {
            Some("is a capture of a kind that is not read: save it as pcap or pcapng first")
        }
        _ => None,
    }
}

/// The whole file is one message.
fn from_whole(mut file: impl Read, taker: &mut Taker<'_>) -> Option<String> {
    let mut bytes = Vec::new();
    if let Err(error) = file.read_to_end(&mut bytes) {
        return Some(format!("cannot be read: {error}"));
    }
    taker(Stored { number: 0, source: None, bytes: &bytes });
    None
}

/// Messages that are each framed by a four-byte big-endian length.
fn from_frames(mut file: impl Read, taker: &mut Taker<'_>) -> Option<String> {
    let mut bytes = Vec::new();
    for number in 0.. {
        bytes.clear();
        match read_frame(&mut file, &mut bytes) {
            Err(error) => return Some(format!("cannot be read behind message {number}: {error}")),
            Ok(Frame::End) => return None,
            Ok(Frame::Whole) => taker(Stored { number, source: None, bytes: &bytes }),
            Ok(Frame::Cut(said)) => {
                let there = bytes.len();
                return Some(format!(
                    "is cut: {said} are said and {there} are there; the {number} whole messages before were compared"
                ));
            }
        }
    }
    None
}

/// What was found at a frame's begin.
enum Frame {
    End,
    Whole,
    /// What should have come, in words.
    Cut(String),
}

fn read_frame(file: &mut impl Read, bytes: &mut Vec<u8>) -> io::Result<Frame> {
    file.take(4).read_to_end(bytes)?;
    let Ok(length) = <[u8; 4]>::try_from(bytes.as_slice()) else {
        return Ok(if bytes.is_empty() { Frame::End } else { Frame::Cut("4 bytes of a length".to_string()) });
    };
    let length = u64::from(u32::from_be_bytes(length));
    bytes.clear();
    file.take(length).read_to_end(bytes)?;
    Ok(if bytes.len() as u64 == length { Frame::Whole } else { Frame::Cut(format!("{length} bytes of a message")) })
}

/// How many packets of a capture were what.
#[derive(Default)]
struct Packets {
    all: u64,
    messages: u64,
    unread: BTreeMap<Unread, u64>,
}

/// The DHCP messages of a capture.
fn from_capture(file: impl Read, taker: &mut Taker<'_>) -> Vec<String> {
    let mut packets = Packets::default();
    let trouble = read_packets(file, taker, &mut packets).err();
    let end = trouble.map(|trouble| match trouble {
        Trouble::Cut => "is cut".to_string(),
        Trouble::Damaged => "is damaged: no packet begins".to_string(),
        Trouble::Unreadable(error) => format!("cannot be read on ({error})"),
    });
    let end = end.map(|what| {
        format!("{what} behind packet {}; the {} messages before were compared", packets.all, packets.messages)
    });
    let none = packets.messages == 0 && end.is_none();
    let none = none.then(|| format!("has no DHCP message among its {} packets", packets.all));
    let unread = packets.unread.iter().map(|(why, count)| format!("has {count} {}", why.words()));
    end.into_iter().chain(unread).chain(none).collect()
}

fn read_packets(file: impl Read, taker: &mut Taker<'_>, packets: &mut Packets) -> Result<(), Trouble> {
    let mut capture = Capture::open(file)?;
    while let Some(packet) = capture.next_packet()? {
        packets.all += 1;
        match carried(&packet) {
            Carried::Message(source, bytes) => {
                packets.messages += 1;
                taker(Stored { number: packets.all, source: Some(source), bytes });
            }
            Carried::Unread(why) => *packets.unread.entry(why).or_default() += 1,
            Carried::Other => (),
        }
    }
    Ok(())
}

#[cfg(test)]
mod tests {
    use super::*;
    use crate::capture::tests::section_of;
    use crate::carried::tests::{IP_LENGTH, UDP_LENGTH, changed, dhcp};

    /// The messages of framed bytes, and what went wrong.
    fn framed(bytes: &[u8]) -> (Vec<Vec<u8>>, Option<String>) {
        let mut messages = Vec::new();
        let trouble = from_frames(bytes, &mut |message| messages.push(message.bytes.to_vec()));
        (messages, trouble)
    }

    #[test]
    fn whole_frames_are_read() {
        assert_eq!(framed(&[0, 0, 0, 2, 7, 8, 0, 0, 0, 0, 0, 0, 0, 1, 9]), (vec![vec![7, 8], vec![], vec![9]], None));
    }

    #[test]
    fn what_stands_before_a_cut_frame_is_read() {
        for cut in [&[0, 0, 0, 1, 7, 0, 0][..], &[0, 0, 0, 1, 7, 0, 0, 0, 3, 1, 2]] {
            let (messages, trouble) = framed(cut);
            assert_eq!(messages, vec![vec![7]]);
            assert!(trouble.unwrap().contains("the 1 whole messages before were compared"));
        }
    }

    #[test]
    fn a_whole_file_is_one_message() {
        let mut lengths = Vec::new();
        assert_eq!(from_whole(&[1u8; 300][..], &mut |message| lengths.push(message.bytes.len())), None);
        assert_eq!(lengths, [300]);
    }

    #[test]
    fn what_is_not_read_of_a_capture_is_said_and_the_rest_is_read() {
        let lengths = [changed(UDP_LENGTH, 0), changed(UDP_LENGTH, 7), changed(UDP_LENGTH, 14), changed(IP_LENGTH, 27)];
        let mut numbers = Vec::new();
        let file = section_of(&[&[dhcp()][..], &lengths, &[dhcp()]].concat());
        let said = from_capture(&file[..], &mut |message| numbers.push(message.number));
        assert_eq!(numbers, [2, 7]);
        let should = [
            "has 1 UDP packets whose IP length is shorter than their headers, which were not compared",
            "has 2 UDP packets whose length is below 8, which were not compared",
            "has 1 UDP packets whose length goes past the end of their IP packet, which were not compared",
            "has 2 packets of an interface that is not declared, which were not looked at",
        ];
        assert_eq!(said, should);
    }

    #[test]
    fn files_that_hold_no_messages_are_known() {
        assert_eq!(no_messages(&[]), Some("is empty"));
        for first in [&[0x1F, 0x8B, 8, 0][..], &[0x1F, 0x8B], b"BZh9", &[4, 0x22, 0x4D, 0x18]] {
            assert!(no_messages(first).unwrap().contains("is compressed"));
        }
        for first in [&0xA1B2_CD34_u32.to_be_bytes(), &0xA1B2_CD34_u32.to_le_bytes(), b"snoo"] {
            assert!(no_messages(first).unwrap().contains("of a kind that is not read"));
        }
        assert_eq!(no_messages(&[2, 1, 6, 0]), None);
    }

    #[test]
    fn bad_paths_are_said() {
        let none = |path: &str| each_message(Path::new(path), &mut |_| panic!("there is no message"));
        assert!(none("no such file")[0].contains("cannot be read"));
        assert!(none(".")[0].contains("is a directory"));
    }
}
