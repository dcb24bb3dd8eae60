//! What the port answers, in document 01's words.

use super::input::{ENOUGH, Input, Part, count, message, padded, shown};
use crate::paper::{AREA, CHADDR, SNAME};
use sindovaleph::calls::{self, Fields, ReadRoute, Route, RouteCount, Step, Value, Written};
use std::net::Ipv4Addr;

/// The port's word where it has no such function.
const NOT_PORTED: &str = "not ported";

/// The stops, by their numbers.
const STOPS: [&str; 6] = ["", "out", "end", "cut length", "cut value", "cut continuation"];

/// The kinds of value, by their numbers.
const KINDS: [&str; 16] = [
    "raw",
    "address",
    "addresses",
    "pairs",
    "byte",
    "yes/no",
    "u16",
    "u16 list",
    "u32",
    "i32",
    "text",
    "codes",
    "node type",
    "message type",
    "three bytes",
    "flag",
];

/// What the port answers.
pub fn answer(input: &Input) -> String {
    match *input {
        Input::Walk { pads, area, calls, join } => walk(&padded(pads, area), calls, &mut vec![0; join]),
        Input::Message { len, set, ref part } => part_of(&message(len, set), part),
        Input::Find { len, set, code } => find(&message(len, set), code),
        Input::Read { code, value } => read(code, value),
        Input::ReadLong { code, len } => read(code, &vec![7; len]),
        Input::Again { code, value } => written(|room| calls::write_bytes(room, 0, code, value)),
        Input::Bytes { code, len, .. } => written(|room| calls::write_bytes(room, 0, code, &vec![7; len])),
        Input::Addresses { count: many } => {
            written(|room| calls::write_addresses(room, 0, 3, &vec![0x7f00_0001; many]))
        }
        Input::Over { old } => over(old),
        Input::Routes { destination, width, count } => routes(destination, width, count),
        Input::ReadRoutes { value } => read_routes(value),
        Input::NoOptions => written(|room| calls::close(room, 0)),
        Input::OwnedMessage { .. } | Input::OwnedOptions { .. } => NOT_PORTED.into(),
        Input::Chunks { .. } | Input::Name | Input::Status { .. } => NOT_PORTED.into(),
    }
}

/// The answer of a call, in words.
fn step(step: Step, area: &[u8], join: &[u8]) -> String {
    match step {
        Step { refused: 5, len, .. } => format!("refused 5, needs {len}"),
        Step { refused, .. } if refused != 0 => format!("refused {refused}"),
        Step { stop: 0, code, parts, len, place, .. } => {
            let value = if parts == 1 { &area[place - len..place] } else { &join[..len] };
            format!("{code}: {}", shown(value))
        }
        Step { stop, place, .. } => format!("{} {place}", STOPS[stop as usize]),
    }
}

fn walk(area: &[u8], calls: usize, join: &mut [u8]) -> String {
    let mut place = 0;
    let mut call = || {
        let answer = calls::step(area, place, join);
        place = answer.place;
        step(answer, area, join)
    };
    (0..calls).map(|_| call()).collect::<Vec<_>>().join("; ")
}

fn part_of(bytes: &[u8], part: &Part) -> String {
    let fields = calls::header(bytes);
    match part {
        _ if fields.refused != 0 => format!("refused {}", fields.refused),
        Part::Op => fields.op.to_string(),
        Part::Chaddr if fields.chaddr_refused != 0 => format!("refused {}", fields.chaddr_refused),
        Part::Chaddr => address(bytes, &fields),
        Part::Sname => shown(&bytes[SNAME..SNAME + usize::from(fields.sname)]),
        Part::Options if fields.wrong_magic => "wrong magic".into(),
        Part::Options => options(&bytes[AREA..]),
    }
}

/// The address that is shown, and of one that spills how many bytes lie in the field.
fn address(bytes: &[u8], fields: &Fields) -> String {
    let all = shown(&bytes[CHADDR..CHADDR + usize::from(fields.hlen)]);
    if fields.chaddr_spills { format!("{all}, {} in the field, spills", fields.chaddr_own) } else { all }
}

/// All options up to the first stop.
fn options(area: &[u8]) -> String {
    let mut join = vec![0; ENOUGH];
    let mut answers = Vec::new();
    let mut place = 0;
    loop {
        let answer = calls::step(area, place, &mut join);
        answers.push(step(answer, area, &join));
        place = answer.place;
        if answer.stop != 0 || answer.refused != 0 {
            return answers.join("; ");
        }
    }
}

/// The option of a code, by RFC 3396's reading: its places are those of the message.
fn find(bytes: &[u8], code: u8) -> String {
    let mut join = vec![0; ENOUGH];
    let answer = calls::find(bytes, code, &mut join);
    step(answer, bytes, &join)
}

/// What a value reads as, in words.
fn value(value: Value) -> String {
    let kind = KINDS[value.kind as usize];
    match value {
        Value { refused, .. } if refused != 0 => format!("refused {refused}"),
        Value { kind: 0 | 1 | 10 | 15, .. } => kind.into(),
        Value { kind: 2 | 3 | 7 | 11, count, .. } => format!("{kind}, {count} of them"),
        Value { kind: 5, number, .. } => if number == 1 { "yes" } else { "no" }.into(),
        Value { kind: 9, number, .. } => format!("{kind} {}", number as i32),
        Value { kind: 14, number, .. } => format!("{kind} {}", shown(&number.to_be_bytes()[1..])),
        Value { number, .. } => format!("{kind} {number}"),
    }
}

/// The plain reading, and the strict one where it is another.
fn read(code: u8, bytes: &[u8]) -> String {
    let plain = calls::read(code, bytes, false);
    let strict = calls::read(code, bytes, true);
    if plain == strict { value(plain) } else { format!("{}, strict: {}", value(plain), value(strict)) }
}

/// The first option of an area, by its code and length; or the stop.
fn first(area: &[u8]) -> String {
    let mut join = vec![0; ENOUGH];
    match calls::step(area, 0, &mut join) {
        Step { refused: 0, stop: 0, code, len, .. } => format!("{code} with {}", count(len)),
        answer => step(answer, area, &join),
    }
}

/// What a write leaves in a large room, and what the walk finds first in it.
fn written(write: impl FnOnce(&mut [u8]) -> Written) -> String {
    let mut room = vec![0; ENOUGH];
    match write(&mut room) {
        Written { refused: 0, place: 0 } => shown(&[]),
        Written { refused: 0, place } => format!("{}, walked: {}", shown(&room[..place]), first(&room[..place])),
        Written { refused, .. } => format!("refused {refused}"),
    }
}

/// A table of one route, so many times, through 192.0.2.1.
fn routes(destination: [u8; 4], width: u8, times: usize) -> String {
    let route = Route { width, destination: u32::from_be_bytes(destination), gateway: 0xc000_0201 };
    written(|room| calls::write_routes(room, 0, &vec![route; times]))
}

/// A route that was read, in words.
fn route(ReadRoute { width, destination, gateway, .. }: ReadRoute) -> String {
    let [destination, gateway] = [destination, gateway].map(Ipv4Addr::from);
    format!("{destination}/{width} through {gateway}")
}

/// All routes of a value of code 121.
fn read_routes(value: &[u8]) -> String {
    match calls::count_routes(value) {
        RouteCount { refused: 0, count: 0 } => "no routes".into(),
        RouteCount { refused: 0, count } => {
            (0..count).map(|index| route(calls::route_at(value, index))).collect::<Vec<_>>().join("; ")
        }
        RouteCount { refused, .. } => format!("refused {refused}"),
    }
}

/// An address written into a room of old bytes.
fn over(old: usize) -> String {
    let mut room = vec![9; old];
    match calls::write_address(&mut room, 0, 1, 0x0102_0304) {
        Written { refused: 0, place } => shown(&room[..place]),
        Written { refused, .. } => format!("refused {refused}, room: {}", shown(&room)),
    }
}
