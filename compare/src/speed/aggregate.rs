//! RFC 3396's reading of a message: one code by `find`, and all codes in one call of `entries`. The crate has no such reading: what its walk
//! gives is gathered by hand.

use super::case::{Case, Side, Sink, Unit};
use super::inputs::{Shape, USUAL, message_of, usual_area, usual_message};
#[cfg(limit)]
use super::limit;
use super::walk::{Stepping, area_of};
use crate::paper::{AREA, FILE_END, MOST_BYTES, SNAME};
use dhcproto::v4::borrowed::Message;
use sindovaleph::calls::{self, Row};
use std::hint::black_box;

/// The code of the last of the twelve options.
const TWELFTH: u8 = USUAL[11].0;

/// The two cases that the others are held against: the message of the twelve options.
const BY_FIND: &str = "12 options, 85 bytes, by find";
const BY_ENTRIES: &str = "12 options, 85 bytes, by entries";

/// The most that a byte of the longest messages may cost, against a byte of the twelve options.
const MOST_GROWTH: f64 = 3.0;

/// How many codes there can be, and the one that names file and sname.
const CODES: usize = 254;
const OVERLOAD: u8 = 52;

/// The code of the empty parts.
const EMPTY_CODE: u8 = 100;

/// The most options of a message.
const ROOM: usize = MOST_BYTES - AREA;

/// A code, by one call.
struct Find {
    message: Vec<u8>,
    code: u8,
    join: Vec<u8>,
}

impl Side for Find {
    fn run(&mut self, sink: &mut impl Sink) {
        let message = black_box(self.message.as_slice());
        let step = calls::find(message, self.code, &mut self.join);
        if step.refused == 0 && step.stop == 0 {
            let (len, place) = (step.len, step.place);
            sink.bytes(if step.parts == 1 { &message[place - len..place] } else { &self.join[..len] });
        }
    }
}

/// What a service calls: the safe crate's message and its `find`.
struct Safe {
    message: Vec<u8>,
    code: u8,
    join: Vec<u8>,
}

impl Side for Safe {
    fn run(&mut self, sink: &mut impl Sink) {
        let Ok(message) = sindovaleph::Message::new(black_box(&self.message)) else { return };
        if let Ok(Some(option)) = message.find(self.code, &mut self.join) {
            sink.bytes(option.data());
        }
    }
}

/// The values that the crate's walk gives of a code, one behind the other.
struct CrateFind {
    message: Vec<u8>,
    code: u8,
    value: Vec<u8>,
}

impl Side for CrateFind {
    fn run(&mut self, sink: &mut impl Sink) {
        let Ok(message) = Message::new(black_box(&self.message)) else { return };
        self.value.clear();
        for option in message.opts() {
            if u8::from(option.code()) == self.code {
                self.value.extend_from_slice(option.data());
            }
        }
        sink.bytes(&self.value);
    }
}

/// A code by the walk, which stops at its first option.
struct WalkTo<S> {
    step: S,
    message: Vec<u8>,
    code: u8,
    join: Vec<u8>,
}

impl<S: Stepping> Side for WalkTo<S> {
    fn run(&mut self, sink: &mut impl Sink) {
        let area = area_of(black_box(&self.message));
        let mut step = (self.step)(area, 0, &mut self.join);
        while step.refused == 0 && step.stop == 0 && step.code != self.code {
            step = (self.step)(area, step.place, &mut self.join);
        }
        let (len, place) = (step.len, step.place);
        sink.bytes(if step.parts == 1 { &area[place - len..place] } else { &self.join[..len] });
    }
}

/// The same by the crate.
struct CrateWalkTo {
    message: Vec<u8>,
    code: u8,
}

impl Side for CrateWalkTo {
    fn run(&mut self, sink: &mut impl Sink) {
        let Ok(message) = Message::new(black_box(&self.message)) else { return };
        if let Some(option) = message.opts().find(|option| u8::from(option.code()) == self.code) {
            sink.bytes(option.data());
        }
    }
}

/// All codes by one call, rows read.
struct Entries {
    message: Vec<u8>,
    rows: Vec<Row>,
}

impl Side for Entries {
    fn run(&mut self, sink: &mut impl Sink) {
        let told = calls::entries(black_box(&self.message), &mut self.rows);
        for row in self.rows.iter().take(told.codes) {
            sink.number(row.code as u64);
            sink.number(row.len as u64);
        }
    }
}

/// What the crate's walk gives, gathered by code in a table, in the order in which codes first appear.
struct CrateEntries(Vec<u8>);

impl Side for CrateEntries {
    fn run(&mut self, sink: &mut impl Sink) {
        let Ok(message) = Message::new(black_box(&self.0)) else { return };
        let mut lengths = [None; 256];
        let (mut codes, mut count) = ([0; CODES], 0);
        for option in message.opts() {
            let code = u8::from(option.code());
            let length = &mut lengths[usize::from(code)];
            if length.is_none() {
                codes[count] = code;
                count += 1;
            }
            *length = Some(length.unwrap_or(0) + option.len() as u64);
        }
        for &code in &codes[..count] {
            sink.number(code);
            sink.number(lengths[usize::from(code)].unwrap_or(0));
        }
    }
}

/// The crate's side of a code.
fn crate_find(message: &[u8], code: u8) -> CrateFind {
    CrateFind { message: message.to_vec(), code, value: Vec::with_capacity(message.len()) }
}

/// A code of a message, of whose fields so many bytes are read.
fn by_find(name: String, message: &[u8], code: u8, bytes: usize) -> Case {
    let find = Find { message: message.to_vec(), code, join: vec![0; message.len()] };
    Case::new(name, bytes, find, crate_find(message, code))
}

/// All codes of a message, of whose fields so many bytes are read.
fn by_entries(name: String, message: &[u8], bytes: usize) -> Case {
    let entries = Entries { message: message.to_vec(), rows: vec![Row::default(); CODES] };
    Case::new(name, bytes, entries, CrateEntries(message.to_vec()))
}

/// The twelve options: the walk to the last of them, and RFC 3396's reading beside it.
pub fn cases() -> Vec<Case> {
    let message = usual_message();
    fn walk_to<S: Stepping>(step: S, message: &[u8]) -> WalkTo<S> {
        WalkTo { step, message: message.to_vec(), code: TWELFTH, join: vec![0; message.len()] }
    }
    let safe = Safe { message: message.clone(), code: TWELFTH, join: vec![0; message.len()] };
    let crates = CrateWalkTo { message: message.clone(), code: TWELFTH };
    let walk = Case::new("walk to the 12th code", message.len(), walk_to(calls::step, &message), crates);
    #[cfg(limit)]
    let walk = walk.limited_by(walk_to(limit::step, &message));
    vec![
        walk,
        by_find("find the 12th code".into(), &message, TWELFTH, message.len()),
        Case::new("find the 12th code, the safe crate", message.len(), safe, crate_find(&message, TWELFTH)),
        by_entries("entries of 12, one call".into(), &message, message.len()),
    ]
}

/// One part of each code, of so many bytes; that of option 52 names file and sname.
fn all_codes(len: u8) -> Vec<u8> {
    let part = |code: u8| [&[code, len], vec![7; len.into()].as_slice()].concat();
    (1..=CODES as u8).flat_map(|code| if code == OVERLOAD { vec![OVERLOAD, 1, 3] } else { part(code) }).collect()
}

/// The longest message with these options, and with zeros in file and sname.
fn longest(mut options: Vec<u8>) -> Vec<u8> {
    options.resize(ROOM, 0);
    let mut message = message_of(&options);
    message[SNAME..FILE_END].fill(0);
    message
}

/// A message by `find`, of which a code is asked for, and by `entries`.
fn grown(name: &str, message: &[u8], code: u8, bytes: usize) -> [Case; 2] {
    let find = by_find(format!("{name}, {bytes} bytes, by find"), message, code, bytes).grown_from(BY_FIND, Unit::Byte);
    let entries = by_entries(format!("{name}, {bytes} bytes, by entries"), message, bytes);
    [find, entries.grown_from(BY_ENTRIES, Unit::Byte)]
}

/// How the cost grows: the twelve options, and the longest messages with empty parts of one code, with a part of 255 bytes of each code, and
/// with empty parts of all codes in turn.
pub fn growth() -> Vec<Case> {
    let again: Vec<u8> = (1..=CODES as u8).filter(|&code| code != OVERLOAD).flat_map(|code| [code, 0]).collect();
    let in_turn = [all_codes(0), again.repeat(ROOM / again.len() - 1)].concat();
    let (last, all) = (CODES as u8, ROOM + FILE_END - SNAME);
    let growing = [
        grown("empty parts of one code", &longest(Shape::EmptyParts.area(ROOM)), EMPTY_CODE, ROOM),
        grown("a part of 255 of each code", &longest(all_codes(255)), last, all),
        grown("empty parts of all codes in turn", &longest(in_turn), last, all),
    ];
    let bounded = |case: Case| case.aims_at(MOST_GROWTH).counts_at_most(MOST_GROWTH);
    let bases = grown("12 options", &usual_message(), TWELFTH, usual_area().len());
    bases.into_iter().chain(growing.into_iter().flatten().map(bounded)).collect()
}
