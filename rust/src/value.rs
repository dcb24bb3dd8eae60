//! Typed values: what the bytes of an option read as.

use crate::calls;
use crate::refusal::{Refusal, checked};
use core::fmt;
use core::marker::PhantomData;
use core::net::Ipv4Addr;
use core::ops::Range;

numbered! {
    /// The kind of value that a code has. Each but `Raw` is the kind of a few codes, which stand in its line.
    pub enum Kind {
        /// Bytes as they stand: every code that is in no other line.
        Raw = 0,
        /// An address: 1 16 28 32 50 54 118 150.
        Address = 1,
        /// Addresses: 3-11 41 42 44 45 48 49 65 68-76 89 92.
        Addresses = 2,
        /// Pairs of addresses: 21 33.
        Pairs = 3,
        /// A byte: 23 37 52.
        Byte = 4,
        /// Yes or no: 19 20 27 29 30 31 34 36 39.
        YesNo = 5,
        /// A number of two bytes: 13 22 26 57 93.
        U16 = 6,
        /// Numbers of two bytes: 25.
        U16s = 7,
        /// A number of four bytes: 24 35 38 51 58 59 91 106 152-155.
        U32 = 8,
        /// A number of four bytes in two's complement: 2.
        I32 = 9,
        /// Text in UTF-8: 12 14 15 17 18 40 47 56 62 64 100 101 114.
        Text = 10,
        /// Codes of options: 55.
        Codes = 11,
        /// A node type: 46.
        NodeType = 12,
        /// A message type: 53.
        MessageType = 13,
        /// Three bytes: 94.
        ThreeBytes = 14,
        /// A flag, which has no value: 80.
        Flag = 15,
    }
}

/// The kind of a code.
#[inline]
#[must_use]
pub fn kind_of(code: u8) -> Kind {
    // No number above 15 is answered.
    Kind::from_number(calls::kind_of(code)).unwrap_or(Kind::Raw)
}

/// What a value reads as, a case for each [`Kind`].
#[derive(Clone, Copy, Debug, PartialEq, Eq)]
#[non_exhaustive]
pub enum Value<'a> {
    /// Bytes as they stand.
    Raw(&'a [u8]),
    /// An address.
    Address(Ipv4Addr),
    /// Addresses.
    Addresses(List<'a, Ipv4Addr>),
    /// Pairs of addresses: an address and its mask, or a destination and its router.
    Pairs(List<'a, (Ipv4Addr, Ipv4Addr)>),
    /// A byte.
    Byte(u8),
    /// Yes or no.
    YesNo(bool),
    /// A number of two bytes.
    U16(u16),
    /// Numbers of two bytes.
    U16s(List<'a, u16>),
    /// A number of four bytes.
    U32(u32),
    /// A number of four bytes in two's complement.
    I32(i32),
    /// Text.
    Text(&'a str),
    /// Codes of options.
    Codes(&'a [u8]),
    /// A node type.
    NodeType(NodeType),
    /// A message type: [`message_types`](crate::message_types) has their names.
    MessageType(u8),
    /// Three bytes.
    ThreeBytes([u8; 3]),
    /// A flag: that the option stands there says all.
    Flag,
}

/// The node types of NetBIOS over TCP/IP (option 46).
#[derive(Clone, Copy, Debug, PartialEq, Eq)]
pub enum NodeType {
    /// 1.
    B,
    /// 2.
    P,
    /// 4.
    M,
    /// 8.
    H,
    /// Any other byte.
    Unknown(u8),
}

impl From<u8> for NodeType {
    #[inline]
    fn from(byte: u8) -> NodeType {
        match byte {
            1 => NodeType::B,
            2 => NodeType::P,
            4 => NodeType::M,
            8 => NodeType::H,
            _ => NodeType::Unknown(byte),
        }
    }
}

impl From<NodeType> for u8 {
    #[inline]
    fn from(node: NodeType) -> u8 {
        match node {
            NodeType::B => 1,
            NodeType::P => 2,
            NodeType::M => 4,
            NodeType::H => 8,
            NodeType::Unknown(byte) => byte,
        }
    }
}

/// Reads a value by its code, plainly, as dhcproto does: bytes behind a number are ignored, and yes is 1 alone.
///
/// Refused are the codes 0 and 255, a wrong length, text that is not UTF-8, and more than 65,535 bytes.
#[inline]
pub fn read(code: u8, value: &[u8]) -> Result<Value<'_>, Refusal> {
    read_as(code, value, false)
}

/// Reads a value by its code, and asks for more than [`read`] does:
///
/// - A number, a yes/no byte, a node type, a message type, three bytes and a flag have exactly their length
///   ([`Refusal::WrongLength`]). An address has it in [`read`] too.
/// - A list or a text has one element at least ([`Refusal::WrongLength`]). Only the mobile IP home agents (code 68) may
///   be none.
/// - A yes/no byte is 0 or 1 ([`Refusal::UnclearYesNo`]).
///
/// It asks no more than that, and what it accepts it reads as [`read`] does. So it is no check of all that RFCs say: it
/// takes a client identifier of no bytes and a time-to-live of 0, which RFC 2132 does not allow, and it refuses two
/// architectures in code 93, which RFC 4578 allows.
///
/// ```
/// use sindovaleph::{Refusal, Value, codes, read, read_strict};
///
/// assert!(matches!(read(codes::ROUTER, &[]), Ok(Value::Addresses(routers)) if routers.is_empty()));
/// assert_eq!(read_strict(codes::ROUTER, &[]), Err(Refusal::WrongLength));
/// assert!(read_strict(codes::MOBILE_IP_HOME_AGENT, &[]).is_ok());
/// ```
#[inline]
pub fn read_strict(code: u8, value: &[u8]) -> Result<Value<'_>, Refusal> {
    read_as(code, value, true)
}

/// Reads a value, plainly or strictly.
#[inline]
fn read_as(code: u8, value: &[u8], strict: bool) -> Result<Value<'_>, Refusal> {
    let reading = calls::reading(code, value, strict);
    shown(code, value, reading.answer(), || reading.text())
}

/// What was answered about a value, with the value's bytes. `text` gives the value as text, where it is text; it is
/// asked for no other kind.
#[inline]
pub(crate) fn shown<'a>(
    code: u8,
    value: &'a [u8],
    answer: calls::Value,
    text: impl FnOnce() -> Option<&'a str>,
) -> Result<Value<'a>, Refusal> {
    checked(answer.refused)?;
    let number = answer.number;
    let kind = Kind::from_number(answer.kind).unwrap_or(Kind::Raw);
    let count = answer.count;
    Ok(match kind {
        Kind::Raw => Value::Raw(value),
        Kind::Address => Value::Address(Ipv4Addr::from_bits(number)),
        Kind::Addresses => Value::Addresses(List::new(code, value, count)),
        Kind::Pairs => Value::Pairs(List::new(code, value, count)),
        Kind::Byte => Value::Byte(number as u8),
        Kind::YesNo => Value::YesNo(number != 0),
        Kind::U16 => Value::U16(number as u16),
        Kind::U16s => Value::U16s(List::new(code, value, count)),
        Kind::U32 => Value::U32(number),
        Kind::I32 => Value::I32(number.cast_signed()),
        Kind::Text => Value::Text(text().ok_or(Refusal::NotUtf8)?),
        Kind::Codes => Value::Codes(value),
        Kind::NodeType => Value::NodeType(NodeType::from(number as u8)),
        Kind::MessageType => Value::MessageType(number as u8),
        Kind::ThreeBytes => {
            let [_, first, second, third] = number.to_be_bytes();
            Value::ThreeBytes([first, second, third])
        }
        Kind::Flag => Value::Flag,
    })
}

mod element {
    use crate::calls;
    use core::net::Ipv4Addr;

    /// What an answer about an element is, by its type.
    pub trait FromAnswer: Copy {
        fn of(answer: calls::Element) -> Self;
    }

    impl FromAnswer for Ipv4Addr {
        #[inline]
        fn of(answer: calls::Element) -> Ipv4Addr {
            Ipv4Addr::from_bits(answer.first)
        }
    }

    impl FromAnswer for (Ipv4Addr, Ipv4Addr) {
        #[inline]
        fn of(answer: calls::Element) -> (Ipv4Addr, Ipv4Addr) {
            (Ipv4Addr::from_bits(answer.first), Ipv4Addr::from_bits(answer.second))
        }
    }

    impl FromAnswer for u16 {
        #[inline]
        fn of(answer: calls::Element) -> u16 {
            answer.first as u16
        }
    }
}

/// The type of a list's elements: an address, a pair of them, or a number of two bytes.
pub trait Element: element::FromAnswer {}

impl Element for Ipv4Addr {}

impl Element for (Ipv4Addr, Ipv4Addr) {}

impl Element for u16 {}

/// A list, whose elements stand in the value. It can only be had by reading one.
///
/// ```
/// use sindovaleph::{Refusal, Value, codes, read};
/// use std::net::Ipv4Addr;
///
/// let Value::Addresses(servers) = read(codes::DOMAIN_NAME_SERVER, &[192, 0, 2, 1, 192, 0, 2, 2])? else { panic!() };
/// let all: Vec<Ipv4Addr> = servers.iter().collect();
/// assert_eq!(all, [Ipv4Addr::new(192, 0, 2, 1), Ipv4Addr::new(192, 0, 2, 2)]);
/// assert_eq!((servers.get(1), servers.get(2)), (Ok(all[1]), Err(Refusal::PastEnd)));
/// # Ok::<(), Refusal>(())
/// ```
#[derive(Clone, Copy)]
pub struct List<'a, E> {
    value: &'a [u8],
    count: usize,
    code: u8,
    of: PhantomData<E>,
}

impl<'a, E: Element> List<'a, E> {
    /// A value of a code whose kind has such elements, and how many it has.
    #[inline]
    fn new(code: u8, value: &'a [u8], count: usize) -> List<'a, E> {
        List { value, count, code, of: PhantomData }
    }

    /// How many elements it has.
    #[inline]
    #[must_use]
    pub fn len(&self) -> usize {
        self.count
    }

    /// Whether it has none.
    #[inline]
    #[must_use]
    pub fn is_empty(&self) -> bool {
        self.count == 0
    }

    /// The element at an index; [`Refusal::PastEnd`] where there is none.
    #[inline]
    pub fn get(&self, index: usize) -> Result<E, Refusal> {
        let answer = calls::element(self.code, self.value, index);
        checked(answer.refused)?;
        Ok(E::of(answer))
    }

    /// The elements, one after the other.
    #[inline]
    pub fn iter(&self) -> Elements<'a, E> {
        Elements { list: *self, indices: 0..self.count }
    }
}

/// Lists are alike where their elements are, whatever their codes.
impl<E> PartialEq for List<'_, E> {
    fn eq(&self, other: &Self) -> bool {
        self.value == other.value
    }
}

impl<E> Eq for List<'_, E> {}

impl<E: Element + fmt::Debug> fmt::Debug for List<'_, E> {
    fn fmt(&self, f: &mut fmt::Formatter<'_>) -> fmt::Result {
        f.debug_list().entries(self.iter()).finish()
    }
}

impl<'a, E: Element> IntoIterator for List<'a, E> {
    type Item = E;
    type IntoIter = Elements<'a, E>;

    #[inline]
    fn into_iter(self) -> Elements<'a, E> {
        self.iter()
    }
}

impl<'a, E: Element> IntoIterator for &List<'a, E> {
    type Item = E;
    type IntoIter = Elements<'a, E>;

    #[inline]
    fn into_iter(self) -> Elements<'a, E> {
        self.iter()
    }
}

/// The elements of a list, one after the other.
#[derive(Clone)]
#[must_use = "elements are read as they are asked for"]
pub struct Elements<'a, E> {
    list: List<'a, E>,
    indices: Range<usize>,
}

impl<E: Element> Iterator for Elements<'_, E> {
    type Item = E;

    #[inline]
    fn next(&mut self) -> Option<E> {
        // No index below the count is refused.
        self.list.get(self.indices.next()?).ok()
    }

    #[inline]
    fn size_hint(&self) -> (usize, Option<usize>) {
        self.indices.size_hint()
    }
}

impl<E: Element> ExactSizeIterator for Elements<'_, E> {}

impl<E: Element + fmt::Debug> fmt::Debug for Elements<'_, E> {
    fn fmt(&self, f: &mut fmt::Formatter<'_>) -> fmt::Result {
        f.debug_list().entries(self.clone()).finish()
    }
}
