//! The listing of a message, made of the crate's own answers: its header, its codes and its values. Parts, kinds, stops and places, of
//! which the crate has no word, are document 01's.

use crate::paper::{self, Found};
use crate::theirs;
use dhcproto::v4::borrowed::{DhcpOptionIterator, Message};
use std::fmt::Write;

/// The whole text.
pub fn text(message: &[u8]) -> String {
    let mut text = String::new();
    match (paper::no_listing(message), Message::new(message)) {
        (None, Ok(theirs)) => list(&mut text, message, &theirs),
        (sentence, _) => text.push_str(sentence.unwrap_or("refused 1\n")),
    }
    text
}

fn list(text: &mut String, message: &[u8], theirs: &Message<'_>) {
    let fields = theirs::fields(theirs);
    let (op, htype, hlen, xid) = (fields.op, fields.htype, fields.hlen, fields.xid);
    let _ = writeln!(text, "message {} op {op} htype {htype} hlen {hlen} xid {xid}", message.len());
    match theirs::chaddr(theirs) {
        Some(bytes) => paper::listed_address(text, hlen, bytes),
        None => text.push_str("chaddr refused 3\n"),
    }
    match paper::area(message) {
        Some(area) => list_options(text, area, theirs.opts()),
        None => text.push_str("magic wrong\n"),
    }
}

/// A line for each option until the first stop, and the stop's.
fn list_options(text: &mut String, area: &[u8], options: DhcpOptionIterator<'_>) {
    let mut at = 0;
    for option in options {
        let Found::Option { parts, place, .. } = paper::find(area, at) else { break };
        paper::listed_option(text, option.code().into(), parts, option.data());
        at = place;
    }
    if let Found::Stop(stop, place) = paper::find(area, at) {
        paper::listed_stop(text, stop, place);
    }
}

#[cfg(test)]
mod tests {
    use super::*;

    /// The message of document 01's worked example.
    fn example() -> Vec<u8> {
        let mut message = vec![0; 240];
        message[..8].copy_from_slice(&[2, 1, 6, 0, 0, 0, 0, 42]);
        message[28..34].copy_from_slice(&[2, 0, 0, 0, 0, 1]);
        message[236..].copy_from_slice(&[99, 130, 83, 99]);
        message.extend([53, 1, 5, 255]);
        message
    }

    #[test]
    fn the_worked_example() {
        let lines = "message 244 op 2 htype 1 hlen 6 xid 42\nchaddr 2 0 0 0 0 1\noption 53 kind 13 parts 1 value 5\nstop end 4\n";
        assert_eq!(text(&example()), lines);
    }

    /// The example of ticket 4: an address of 17 bytes, the last of which is sname's.
    #[test]
    fn an_address_that_spills() {
        let mut message = example();
        message[44] = b'b';
        message[2] = 17;
        let line = "\nchaddr 2 0 0 0 0 1 0 0 0 0 0 0 0 0 0 0 98 spill\noption 53 ";
        assert!(text(&message).contains(line));
        message[2] = 16;
        assert!(text(&message).contains("\nchaddr 2 0 0 0 0 1 0 0 0 0 0 0 0 0 0 0\noption 53 "));
    }

    #[test]
    fn what_is_not_listed() {
        assert_eq!(text(&[0; 239]), "refused 1\n");
        assert_eq!(text(&[0; 4_097]), "too long\n");
        let mut message = example();
        message[2] = 255;
        message[236] = 0;
        assert_eq!(text(&message), "message 244 op 2 htype 1 hlen 255 xid 42\nchaddr refused 3\nmagic wrong\n");
    }
}
