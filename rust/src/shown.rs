//! What `Debug` shows, for people to read.

use crate::names::codes;
use core::fmt;

/// A code and its name, as `12 (HOSTNAME)`.
pub(crate) struct Code(pub u8);

impl fmt::Debug for Code {
    fn fmt(&self, f: &mut fmt::Formatter<'_>) -> fmt::Result {
        match codes::name(self.0) {
            Some(name) => write!(f, "{} ({name})", self.0),
            None => write!(f, "{}", self.0),
        }
    }
}

/// Bytes of a hardware address, as `02:00:00:00:00:11`.
pub(crate) struct Hardware<'a>(pub &'a [u8]);

impl fmt::Debug for Hardware<'_> {
    fn fmt(&self, f: &mut fmt::Formatter<'_>) -> fmt::Result {
        self.0.iter().enumerate().try_for_each(|(i, byte)| {
            let colon = if i > 0 { ":" } else { "" };
            write!(f, "{colon}{byte:02x}")
        })
    }
}

/// Bytes that should be text, as `"host\xff"`.
pub(crate) struct Text<'a>(pub &'a [u8]);

impl fmt::Debug for Text<'_> {
    fn fmt(&self, f: &mut fmt::Formatter<'_>) -> fmt::Result {
        write!(f, "\"{}\"", self.0.escape_ascii())
    }
}

/// How many bytes there are, as `64 bytes`.
pub(crate) struct Bytes(pub usize);

impl fmt::Debug for Bytes {
    fn fmt(&self, f: &mut fmt::Formatter<'_>) -> fmt::Result {
        write!(f, "{} bytes", self.0)
    }
}
