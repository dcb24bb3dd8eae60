//! The lines of the listing (document 01, "Worked examples").

use super::{LEAST_MESSAGE, kind_of};
use std::fmt::Write;

/// A longer message is not listed.
const MOST_LISTED: usize = 4_096;

/// The five stops by their names; the first is number 1.
const STOP_NAMES: [&str; 5] = ["out", "end", "cut length", "cut value", "cut continuation"];

/// What is said of a message that is too long or too short to be listed.
pub fn no_listing(message: &[u8]) -> Option<&'static str> {
    match message.len() {
        0..LEAST_MESSAGE => Some("refused 1\n"),
        LEAST_MESSAGE..=MOST_LISTED => None,
        _ => Some("too long\n"),
    }
}

/// Bytes behind a word, each behind a space.
fn spaced(text: &mut String, word: &str, bytes: &[u8]) {
    text.push_str(word);
    for byte in bytes {
        let _ = write!(text, " {byte}");
    }
}

/// The line of an address that is shown: its bytes, and ` spill` where hlen is above 16 (document 02, ticket 4).
pub fn listed_address(text: &mut String, hlen: u8, bytes: &[u8]) {
    spaced(text, "chaddr", bytes);
    text.push_str(if hlen > 16 { " spill\n" } else { "\n" });
}

/// The line of an option.
pub fn listed_option(text: &mut String, code: u8, parts: usize, value: &[u8]) {
    let _ = write!(text, "option {code} kind {} parts {parts} ", kind_of(code));
    spaced(text, "value", value);
    text.push('\n');
}

/// The line of a stop.
pub fn listed_stop(text: &mut String, stop: u8, place: usize) {
    let _ = writeln!(text, "stop {} {place}", STOP_NAMES[usize::from(stop) - 1]);
}
