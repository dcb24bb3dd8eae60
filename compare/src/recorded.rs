//! What the crate answers, in plain bytes, and the records of it that the program `replay` goes over.
//!
//! A record is one byte of kind (1 an area, 2 a reading, 3 a write), the input's length (2 bytes, the highest first), the input, the
//! answer's length (2 bytes) and the answer. docs/RECORDED.md has what input and answer are.
use crate::paper::element_size;
use crate::theirs::{self, Content, Reading};
use dhcproto::Encodable;
use dhcproto::v4::borrowed::Message;
use dhcproto::v4::{DhcpOption, MAGIC, OptionCode};
use sindovaleph::calls::Route;

/// The bytes of a message before its magic.
const HEADER: usize = 236;

/// The number that stands for an error, where else the number of a kind stands.
const ERROR: u8 = 255;

/// The number of a table of routes, where else the number of a kind stands.
const ROUTES: u8 = 16;

/// What was asked.
#[derive(Clone, Copy, PartialEq, Eq)]
pub enum Asked {
    Area = 1,
    Reading = 2,
    Write = 3,
}

/// One answer of the crate.
pub struct Record {
    pub asked: Asked,
    pub input: Vec<u8>,
    pub answer: Vec<u8>,
}

impl Record {
    fn new(asked: Asked, input: Vec<u8>, answer: Vec<u8>) -> Self {
        Record { asked, input, answer }
    }

    /// The record's bytes. A length of more than two bytes is an error.
    pub fn bytes(&self) -> Result<Vec<u8>, String> {
        let mut bytes = vec![self.asked as u8];
        bytes.extend(counted(&self.input)?);
        bytes.extend(counted(&self.answer)?);
        Ok(bytes)
    }
}

/// The walk over an area: as many calls of the crate's iterator as the area has bytes, and one more.
pub fn walk(area: &[u8]) -> Result<Record, String> {
    let message = message(area);
    let message = Message::new(&message).map_err(|e| e.to_string())?;
    let mut options = message.opts();
    let mut answer = Vec::new();
    for _ in 0..=area.len() {
        match options.next() {
            None => answer.push(0),
            Some(option) => {
                answer.extend([1, option.code().into()]);
                answer.extend(counted(option.data())?);
            }
        }
    }
    Ok(Record::new(Asked::Area, area.to_vec(), answer))
}

/// How the crate reads a value, or nothing where it reads a type that the library leaves out, or another code's.
pub fn reading(code: u8, value: &[u8]) -> Result<Option<Record>, String> {
    let answer = match read(code, value)? {
        Reading::Is(option) if OptionCode::from(&option) == code.into() => normal(&option),
        Reading::NotEnoughBytes => Some(vec![ERROR, 10]),
        Reading::NotUtf8 => Some(vec![ERROR, 11]),
        _ => None,
    };
    Ok(answer.map(|answer| Record::new(Asked::Reading, prefixed(code, value), answer)))
}

/// What the crate writes of the option that it reads from a value, or nothing where it reads none.
pub fn rewriting(code: u8, value: &[u8]) -> Result<Option<Record>, String> {
    match read(code, value)? {
        Reading::Is(option) => writing(code, &option),
        _ => Ok(None),
    }
}

/// What the crate writes of an option, or nothing where it is of another code or of a type that the library leaves out.
pub fn writing(code: u8, option: &DhcpOption) -> Result<Option<Record>, String> {
    if OptionCode::from(option) != code.into() {
        return Ok(None);
    }
    let Some(content) = normal(option) else { return Ok(None) };
    let answer = option.to_vec().map_err(|e| e.to_string())?;
    Ok(Some(Record::new(Asked::Write, prefixed(code, &content), answer)))
}

/// What the crate writes of a byte value to any code.
pub fn writing_bytes(code: u8, value: &[u8]) -> Result<Record, String> {
    let answer = laid_out(code, value)?;
    Ok(Record::new(Asked::Write, prefixed(code, &prefixed(0, value)), answer))
}

/// What the crate writes of a table of one route.
pub fn writing_route(route: Route) -> Result<Record, String> {
    let mut input = vec![OptionCode::ClasslessStaticRoute.into(), ROUTES, route.width];
    input.extend(route.destination.to_be_bytes());
    input.extend(route.gateway.to_be_bytes());
    let answer = theirs::write_routes(&[route]).ok_or("no route")?;
    Ok(Record::new(Asked::Write, input, answer))
}

/// The kind of a code by what the crate reads, or nothing where the library leaves its type out.
pub fn kind(code: u8) -> Option<u8> {
    let values: [&[u8]; 2] = [b"1111", b"11111111"];
    values.iter().find_map(|value| {
        let Reading::Is(option) = read(code, value).ok()? else { return None };
        normal(&option)?.first().copied()
    })
}

/// A message with this area.
fn message(area: &[u8]) -> Vec<u8> {
    let mut message = vec![0; HEADER];
    message.extend(MAGIC);
    message.extend(area);
    message
}

/// The crate's typed reading of a value, which comes to it as an option of an area.
fn read(code: u8, value: &[u8]) -> Result<Reading, String> {
    let area = if value.is_empty() { vec![code, 0] } else { laid_out(code, value)? };
    let message = message(&area);
    let message = Message::new(&message).map_err(|e| e.to_string())?;
    let option = message.opts().next().ok_or("no option of this code")?;
    Ok(theirs::read(option))
}

/// A byte value in parts of 255, by the crate.
fn laid_out(code: u8, value: &[u8]) -> Result<Vec<u8>, String> {
    theirs::write_bytes(code, value).ok_or("no byte value".to_string())
}

/// Bytes with their length before them.
fn counted(bytes: &[u8]) -> Result<Vec<u8>, String> {
    let length = u16::try_from(bytes.len()).map_err(|_| "more than 65535 bytes")?;
    Ok([&length.to_be_bytes(), bytes].concat())
}

/// Bytes with a number before them.
fn prefixed(number: u8, bytes: &[u8]) -> Vec<u8> {
    [&[number], bytes].concat()
}

/// A list in the normal form: its kind, its count, its elements.
fn listed(kind: u8, count: usize, elements: impl Iterator<Item = u8>) -> Option<Vec<u8>> {
    let mut bytes = vec![kind];
    bytes.extend(u16::try_from(count).ok()?.to_be_bytes());
    bytes.extend(elements);
    Some(bytes)
}

/// An option in the normal form: the number of its kind and its content. The types that the library leaves out have none.
fn normal(option: &DhcpOption) -> Option<Vec<u8>> {
    match theirs::content_of(option) {
        Content::Number(kind, number) => Some(prefixed(kind, &number.to_be_bytes()[4 - element_size(kind)..])),
        Content::Bytes(kind, bytes) => Some(prefixed(kind, bytes)),
        Content::Addresses(list) => listed(2, list.len(), list.iter().flat_map(|address| address.octets())),
        Content::Pairs(list) => listed(3, list.len(), list.iter().flat_map(|(a, b)| [a.octets(), b.octets()].concat())),
        Content::U16s(list) => listed(7, list.len(), list.iter().flat_map(|number| number.to_be_bytes())),
        Content::Codes(list) => listed(11, list.len(), list.iter().map(|code| (*code).into())),
        Content::Flag => Some(vec![15]),
        Content::LeftInTheCrate => None,
    }
}
