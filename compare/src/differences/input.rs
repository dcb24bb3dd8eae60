//! What both sides are asked, and how it is shown.

use std::fmt::{self, Display};
use std::net::Ipv4Addr;

/// The first bytes of the options of a message (RFC 2131, section 3).
const MAGIC: [u8; 4] = [99, 130, 83, 99];

/// The code of classless routes.
pub const ROUTES_CODE: u8 = 121;

/// How many bytes are shown whole.
const MOST_SHOWN: usize = 12;

/// A join buffer that no option of an area is too long for.
pub const ENOUGH: usize = 65_535;

/// A part of a message.
pub enum Part {
    Op,
    Chaddr,
    Sname,
    Options,
}

/// A way of the crate to write a byte value.
pub enum Path {
    /// `encode_long_opt_bytes`, which document 01 takes.
    Long,
    /// `UnknownOption::encode`, which it does not.
    Unknown,
}

/// One question to both sides.
pub enum Input {
    /// So many calls of the walk, over so many Pads and these bytes, with a join buffer of this size.
    Walk { pads: usize, area: &'static [u8], calls: usize, join: usize },
    /// A part of a message of so many bytes, all zero but the magic and what is set at places.
    Message { len: usize, set: &'static [(usize, &'static [u8])], part: Part },
    /// A code of such a message, by RFC 3396's reading.
    Find { len: usize, set: &'static [(usize, &'static [u8])], code: u8 },
    /// A value, read by its code.
    Read { code: u8, value: &'static [u8] },
    /// So many bytes of 7, read by their code.
    ReadLong { code: u8, len: usize },
    /// A value, read by its code and written again.
    Again { code: u8, value: &'static [u8] },
    /// So many bytes of 7, written to a code.
    Bytes { code: u8, len: usize, path: Path },
    /// So many addresses, written to code 3.
    Addresses { count: usize },
    /// The address 1.2.3.4, written to code 1 over so many old bytes of 9.
    Over { old: usize },
    /// An address, written by `encode_long_opt_chunks` with so many bytes an element.
    Chunks { factor: usize },
    /// A route through 192.0.2.1, so many times.
    Routes { destination: [u8; 4], width: u8, count: usize },
    /// A value of code 121, read as routes.
    ReadRoutes { value: &'static [u8] },
    /// Part of a message, by the crate's owned type.
    OwnedMessage { len: usize, set: &'static [(usize, &'static [u8])], part: Part },
    /// An area, by the crate's owned list of options.
    OwnedOptions { area: &'static [u8] },
    /// An empty list of options, written by the crate's owned type.
    NoOptions,
    /// The name a, without the E bit, written to code 81.
    Name,
    /// A status text of so many bytes, written to code 151.
    Status { len: usize },
}

/// A message of `len` bytes.
pub fn message(len: usize, set: &[(usize, &[u8])]) -> Vec<u8> {
    let mut bytes = vec![0; len];
    if len >= 240 {
        bytes[236..240].copy_from_slice(&MAGIC);
    }
    for (place, part) in set {
        bytes[*place..place + part.len()].copy_from_slice(part);
    }
    bytes
}

/// An area that begins with Pads.
pub fn padded(pads: usize, area: &[u8]) -> Vec<u8> {
    let mut bytes = vec![0; pads];
    bytes.extend(area);
    bytes
}

/// Bytes in decimal, cut where they are many.
pub fn shown(bytes: &[u8]) -> String {
    let many = bytes.len() > MOST_SHOWN;
    let first = if many { &bytes[..2] } else { bytes };
    let text = first.iter().map(u8::to_string).collect::<Vec<_>>().join(" ");
    match (many, bytes.is_empty()) {
        (true, _) => format!("{text} .. of {} bytes", bytes.len()),
        (false, true) => "nothing".into(),
        (false, false) => text,
    }
}

/// So many bytes.
pub fn count(len: usize) -> String {
    if len == 1 { "1 byte".into() } else { format!("{len} bytes") }
}

/// A code, a length and a value.
fn option(code: u8, value: &[u8]) -> String {
    shown(&[&[code, value.len() as u8], value].concat())
}

/// What is set in a message of zero bytes.
fn described(len: usize, set: &[(usize, &[u8])]) -> String {
    let parts = set.iter().map(|(place, bytes)| format!(", at {place}: {}", shown(bytes)));
    count(len) + &parts.collect::<String>()
}

/// An area to be walked.
fn walked(pads: usize, area: &[u8], join: usize) -> String {
    match (pads, join) {
        (0, ENOUGH) => shown(area),
        (0, _) => format!("{}, a join buffer of {join}", shown(area)),
        (_, _) => format!("{pads} Pads and {}", shown(area)),
    }
}

/// Routes to be written.
fn table(destination: [u8; 4], width: u8, count: usize) -> String {
    let times = if count == 1 { String::new() } else { format!("{count} times ") };
    format!("{times}{}/{width}", Ipv4Addr::from(destination))
}

impl Display for Input {
    fn fmt(&self, out: &mut fmt::Formatter<'_>) -> fmt::Result {
        let text = match *self {
            Input::Walk { pads, area, join, .. } => walked(pads, area, join),
            Input::Message { len, set, .. } | Input::OwnedMessage { len, set, .. } => described(len, set),
            Input::Find { len, set, code } => format!("{}, find {code}", described(len, set)),
            Input::Read { code, value } => option(code, value),
            Input::ReadLong { code, len } => format!("{} of code {code}", count(len)),
            Input::Again { code, value } => option(code, value) + ", read and written",
            Input::Bytes { code, len, .. } => format!("{} to code {code}", count(len)),
            Input::Addresses { count } => format!("{count} addresses to code 3"),
            Input::Over { old } => format!("1.2.3.4 to code 1, over {} of 9", count(old)),
            Input::Chunks { factor } => format!("0.0.0.1 to code 3, {} an element", count(factor)),
            Input::Routes { destination, width, count } => table(destination, width, count),
            Input::ReadRoutes { value } => option(ROUTES_CODE, value) + ", as routes",
            Input::OwnedOptions { area } => shown(area),
            Input::NoOptions => "no options, written".into(),
            Input::Name => "the name a to code 81, no E bit".into(),
            Input::Status { len } => format!("{} of text to code 151", count(len)),
        };
        out.write_str(&text)
    }
}
