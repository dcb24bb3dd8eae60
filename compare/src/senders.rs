//! Who sent a message: by the list beside its file, by an address, or by the message itself.

use crate::paper::{CHADDR, CHADDR_END};
use crate::stored::{Stored, is_framed};
use std::fs;
use std::net::Ipv4Addr;
use std::path::Path;

/// How many bytes of a message that has no header stand for its sender.
const FIRST_BYTES: usize = 8;

/// The senders of a file's messages, from a table beside it: the length and the sender of each.
#[derive(Default)]
pub struct Index(Vec<(u64, String)>);

impl Index {
    /// The table index.tsv beside a file of framed messages: a line of names, then a line for each message, in order. A file without one
    /// has an empty index.
    pub fn beside(path: &Path) -> Result<Index, String> {
        let table = path.with_file_name("index.tsv");
        if !is_framed(path) || !table.is_file() {
            return Ok(Index::default());
        }
        let unusable = |what: &str| format!("{} {what}; the senders are told by the messages", table.display());
        let text = fs::read_to_string(&table).map_err(|error| unusable(&format!("cannot be read: {error}")))?;
        let mut lines = text.lines();
        let names: Vec<&str> = lines.next().unwrap_or("").split('\t').collect();
        let column = |name: &str| names.iter().position(|&other| other == name);
        let (Some(length), Some(sender)) = (column("length"), column("sender")) else {
            return Err(unusable("has no columns length and sender"));
        };
        let row = |line: &str| {
            let cells: Vec<&str> = line.split('\t').collect();
            Some((cells.get(length)?.parse().ok()?, cells.get(sender)?.to_string()))
        };
        let rows: Option<Vec<(u64, String)>> = lines.map(row).collect();
        rows.map(Index).ok_or_else(|| unusable("has a line without a length and a sender"))
    }

    /// The sender of a message, where its line is there and its length is the line's.
    fn sender_of(&self, message: &Stored<'_>) -> Option<String> {
        let (length, sender) = self.0.get(message.number as usize)?;
        (*length == message.bytes.len() as u64).then(|| sender.clone())
    }
}

/// The sender of a message.
pub fn sender(index: &Index, message: &Stored<'_>) -> String {
    index.sender_of(message).unwrap_or_else(|| by_address(message).unwrap_or_else(|| by_message(message.bytes)))
}

/// The packet's source address, or the relay's.
fn by_address(message: &Stored<'_>) -> Option<String> {
    let some = |address: Ipv4Addr| (!address.is_unspecified()).then(|| address.to_string());
    let relay = |bytes: &[u8]| Some(Ipv4Addr::new(*bytes.get(24)?, bytes[25], *bytes.get(26)?, *bytes.get(27)?));
    message.source.and_then(some).or_else(|| relay(message.bytes).and_then(some).map(|relay| format!("relay {relay}")))
}

/// The op and the hardware address, or the first bytes.
fn by_message(bytes: &[u8]) -> String {
    let numbers = |bytes: &[u8]| bytes.iter().map(|byte| format!(" {byte}")).collect::<String>();
    if bytes.len() < CHADDR_END {
        return format!("first bytes{}", numbers(&bytes[..bytes.len().min(FIRST_BYTES)]));
    }
    let end = CHADDR_END.min(CHADDR + usize::from(bytes[2]));
    format!("op {} chaddr{}", bytes[0], numbers(&bytes[CHADDR..end]))
}
