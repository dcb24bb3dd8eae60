//! UTF-8 by the grammar of RFC 3629, section 4.

/// The bytes of the character that begins here, 0 where none does.
fn character(bytes: &[u8]) -> usize {
    let tail = |at: usize| matches!(bytes.get(at), Some(0x80..=0xBF));
    match (bytes[0], bytes.get(1)) {
        (0x00..=0x7F, _) => 1,
        (0xC2..=0xDF, Some(0x80..=0xBF)) => 2,
        (0xE0, Some(0xA0..=0xBF)) if tail(2) => 3,
        (0xE1..=0xEC, Some(0x80..=0xBF)) if tail(2) => 3,
        (0xED, Some(0x80..=0x9F)) if tail(2) => 3,
        (0xEE..=0xEF, Some(0x80..=0xBF)) if tail(2) => 3,
        (0xF0, Some(0x90..=0xBF)) if tail(2) && tail(3) => 4,
        (0xF1..=0xF3, Some(0x80..=0xBF)) if tail(2) && tail(3) => 4,
        (0xF4, Some(0x80..=0x8F)) if tail(2) && tail(3) => 4,
        _ => 0,
    }
}

/// Whether bytes are whole characters.
pub fn is_utf8(bytes: &[u8]) -> bool {
    let mut at = 0;
    while at < bytes.len() {
        match character(&bytes[at..]) {
            0 => return false,
            width => at += width,
        }
    }
    true
}
