//! What the crate answers, in its own words.

use super::input::{Input, Part, Path, ROUTES_CODE, count, message, padded, shown};
use crate::theirs::caught;
use dhcproto::v4::borrowed::{DhcpOption as Raw, DhcpOptionIterator, Message};
use dhcproto::v4::fqdn::{ClientFQDN, FqdnFlags};
use dhcproto::v4::{self, DhcpOption, DhcpOptions, OptionCode, UnknownOption, bulk_query};
use dhcproto::{Decodable, Encodable, Encoder};
use std::fmt::Debug;
use std::net::Ipv4Addr;

/// How much of an answer's text is kept.
const MOST_TEXT: usize = 60;

/// The crate's word where the walk finds nothing.
const NONE: &str = "None";

/// What the crate answers; a panic is an answer too.
pub fn answer(input: &Input) -> String {
    caught(|| asked(input)).unwrap_or("panics".into())
}

fn asked(input: &Input) -> String {
    match *input {
        Input::Walk { pads, area, calls, .. } => walk(&padded(pads, area), calls),
        Input::Message { len, set, ref part } => part_of(&message(len, set), part),
        Input::Find { len, set, code } => find(&message(len, set), code),
        Input::Read { code, value } => told(typed(code, value)),
        Input::ReadLong { code, len } => told(typed(code, &vec![7; len])),
        Input::Again { code, value } => again(code, value),
        Input::Bytes { code, len, path: Path::Long } => {
            written(|e| v4::encode_long_opt_bytes(code.into(), &vec![7; len], e))
        }
        Input::Bytes { code, len, path: Path::Unknown } => {
            written(|e| UnknownOption::new(code.into(), vec![7; len]).encode(e))
        }
        Input::Addresses { count } => written(|e| DhcpOption::Router(vec![Ipv4Addr::LOCALHOST; count]).encode(e)),
        Input::Over { old } => over(old),
        Input::Chunks { factor } => chunks(factor),
        Input::Routes { destination, width, count } => routes(destination, width, count),
        Input::ReadRoutes { value } => told(typed(ROUTES_CODE, value)),
        Input::OwnedMessage { len, set, ref part } => owned_part_of(&message(len, set), part),
        Input::OwnedOptions { area } => owned_options(area),
        Input::NoOptions => written(|e| DhcpOptions::new().encode(e)),
        Input::Name => name(),
        Input::Status { len } => written(|e| status(len).encode(e)),
    }
}

/// An error, by its name.
fn error(error: impl Debug) -> String {
    let text = format!("{error:?}");
    format!("Err({})", text.split('(').next().unwrap_or(&text))
}

/// What was answered, cut where it is long, or the error.
fn told<T: Debug>(answer: v4::DecodeResult<T>) -> String {
    match answer.map(|answer| format!("{answer:?}")) {
        Ok(text) if text.len() > MOST_TEXT => format!("{} ..", &text[..MOST_TEXT / 2]),
        Ok(text) => text,
        Err(what) => error(what),
    }
}

fn option(found: Option<Raw<'_>>) -> String {
    found.map_or(NONE.into(), |option| format!("{}: {}", u8::from(option.code()), shown(option.data())))
}

fn walk(area: &[u8], calls: usize) -> String {
    let mut options = DhcpOptionIterator::new(area);
    (0..calls).map(|_| option(options.next())).collect::<Vec<_>>().join("; ")
}

fn part_of(bytes: &[u8], part: &Part) -> String {
    let message = match Message::new(bytes) {
        Ok(message) => message,
        Err(what) => return error(what),
    };
    match part {
        Part::Op => format!("{:?}", message.opcode()),
        Part::Chaddr => shown(message.chaddr()),
        Part::Sname => shown(message.sname()),
        Part::Options => message.opts().map(|found| option(Some(found)) + "; ").collect::<String>() + NONE,
    }
}

/// What the walk gives of a code, as the crate has no other reading.
fn find(bytes: &[u8], code: u8) -> String {
    let message = match Message::new(bytes) {
        Ok(message) => message,
        Err(what) => return error(what),
    };
    let found = message.opts().filter(|option| u8::from(option.code()) == code).map(|found| option(Some(found)));
    let found: Vec<String> = found.collect();
    if found.is_empty() { NONE.into() } else { found.join("; ") }
}

/// The only option of an area, in parts of 255.
fn typed(code: u8, value: &[u8]) -> v4::DecodeResult<DhcpOption> {
    let parts = if value.is_empty() { vec![value] } else { value.chunks(255).collect() };
    let area: Vec<u8> = parts.iter().flat_map(|part| [&[code, part.len() as u8], *part].concat()).collect();
    DhcpOptionIterator::new(&area).next().ok_or(v4::DecodeError::NotEnoughBytes)?.into_option()
}

/// The first option of an area, by its code and length.
fn first(area: &[u8]) -> String {
    let found = DhcpOptionIterator::new(area).next();
    found.map_or(NONE.into(), |option| format!("{} with {}", u8::from(option.code()), count(option.len())))
}

/// What a write leaves in an empty buffer, and what the walk finds first in it.
fn written(write: impl FnOnce(&mut Encoder<'_>) -> v4::EncodeResult<()>) -> String {
    let mut bytes = Vec::new();
    match write(&mut Encoder::new(&mut bytes)) {
        Ok(()) if bytes.is_empty() => shown(&bytes),
        Ok(()) => format!("{}, walked: {}", shown(&bytes), first(&bytes)),
        Err(what) => error(what),
    }
}

fn again(code: u8, value: &[u8]) -> String {
    typed(code, value).map_or_else(error, |option| written(|e| option.encode(e)))
}

fn over(old: usize) -> String {
    let mut buffer = vec![9; old];
    let mut encoder = Encoder::new(&mut buffer);
    let done = DhcpOption::SubnetMask(Ipv4Addr::new(1, 2, 3, 4)).encode(&mut encoder);
    done.map_or_else(error, |()| shown(encoder.buffer_filled()))
}

fn chunks(factor: usize) -> String {
    let address = |address: &Ipv4Addr, e: &mut Encoder<'_>| e.write_u32((*address).into());
    let mut bytes = Vec::new();
    let mut encoder = Encoder::new(&mut bytes);
    let done =
        v4::encode_long_opt_chunks(OptionCode::Router, factor, &[Ipv4Addr::new(0, 0, 0, 1)], address, &mut encoder);
    done.map_or_else(error, |()| shown(&bytes))
}

fn routes(destination: [u8; 4], width: u8, count: usize) -> String {
    match format!("{}/{width}", Ipv4Addr::from(destination)).parse() {
        Ok(net) => {
            let table = vec![(net, Ipv4Addr::new(192, 0, 2, 1)); count];
            written(|e| DhcpOption::ClasslessStaticRoute(table).encode(e))
        }
        Err(what) => error(what),
    }
}

fn owned_part_of(bytes: &[u8], part: &Part) -> String {
    let message = match v4::Message::from_bytes(bytes) {
        Ok(message) => message,
        Err(what) => return error(what),
    };
    match part {
        Part::Op => format!("{:?}", message.opcode()),
        Part::Chaddr => shown(message.chaddr()),
        Part::Sname => format!("{:?}", message.sname()),
        Part::Options => format!("{} options", message.opts().len()),
    }
}

fn owned_options(area: &[u8]) -> String {
    told(DhcpOptions::from_bytes(area).map(|options| options.into_iter().map(|(_, option)| option).collect::<Vec<_>>()))
}

/// What is written of a name, and how that reads.
fn name() -> String {
    let option = "a.".parse().map(|name| DhcpOption::ClientFQDN(ClientFQDN::new(FqdnFlags::default(), name)));
    match option.map(|option| option.to_vec()) {
        Ok(Ok(bytes)) => format!("{}, read: {}", shown(&bytes), told(typed(bytes[0], &bytes[2..]))),
        Ok(Err(what)) => error(what),
        Err(what) => error(what),
    }
}

fn status(len: usize) -> DhcpOption {
    DhcpOption::BulkLeaseQueryStatusCode(bulk_query::Code::Success, "a".repeat(len))
}
