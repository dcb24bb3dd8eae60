//! Typed reading: the twelve usual options.

use super::case::{Case, Side, Sink};
use super::inputs::usual_message;
#[cfg(limit)]
use super::limit;
use super::walk::{Stepping, area_of};
use crate::theirs::{Content, content_of};
use dhcproto::v4::DhcpOption;
use dhcproto::v4::borrowed::Message;
use sindovaleph::calls::{self, Listed, ReadRow, Value};
use std::hint::black_box;

/// What a value holds: its kind, and a number, bytes or elements.
fn words(kind: u8, held: impl std::fmt::Debug) -> String {
    format!("kind {kind}: {held:?}")
}

/// What the library reads, in words. It is asked for the elements of a list.
fn library_words(code: u8, value: &[u8], reading: Value) -> String {
    let elements = |count: usize| (0..count).map(|at| calls::element(code, value, at)).map(|e| (e.first, e.second));
    match reading {
        Value { refused: 1.., .. } => "refused".into(),
        Value { kind: kind @ (2 | 3 | 7 | 11), count, .. } => words(kind, elements(count).collect::<Vec<_>>()),
        Value { kind: kind @ (0 | 10), .. } => words(kind, value),
        Value { kind, number, .. } => words(kind, number),
    }
}

/// What the crate reads, in the same words.
fn crate_words(option: Option<&DhcpOption>) -> String {
    let Some(option) = option else { return "refused".into() };
    let numbers = |list: &mut dyn Iterator<Item = (u32, u32)>| list.collect::<Vec<_>>();
    match content_of(option) {
        Content::Number(kind, number) => words(kind, number),
        Content::Bytes(kind, bytes) => words(kind, bytes),
        Content::Addresses(list) => words(2, numbers(&mut list.iter().map(|&address| (address.into(), 0)))),
        Content::Pairs(list) => words(3, numbers(&mut list.iter().map(|&(a, b)| (a.into(), b.into())))),
        Content::U16s(list) => words(7, numbers(&mut list.iter().map(|&number| (number.into(), 0)))),
        Content::Codes(list) => words(11, numbers(&mut list.iter().map(|&code| (u8::from(code).into(), 0)))),
        Content::Flag => words(15, 0),
        Content::LeftInTheCrate => "left in the crate".into(),
    }
}

/// What reads a value, and a listing that reads each, by whoever has it.
trait Reading: Fn(u8, &[u8], bool) -> Value + 'static {}

impl<R: Fn(u8, &[u8], bool) -> Value + 'static> Reading for R {}

trait ReadListing: Fn(&[u8], usize, &mut [ReadRow], bool) -> Listed + 'static {}

impl<L: Fn(&[u8], usize, &mut [ReadRow], bool) -> Listed + 'static> ReadListing for L {}

/// A call for the option, and one for its value.
struct Steps<S, R> {
    step: S,
    read: R,
    message: Vec<u8>,
    join: Vec<u8>,
    strict: bool,
}

impl<S: Stepping, R: Reading> Side for Steps<S, R> {
    fn run(&mut self, sink: &mut impl Sink) {
        let area = area_of(black_box(&self.message));
        let mut place = 0;
        loop {
            let step = (self.step)(area, place, &mut self.join);
            if step.stop != 0 || step.refused != 0 {
                return;
            }
            place = step.place;
            let value = if step.parts == 1 { &area[place - step.len..place] } else { &self.join[..step.len] };
            let reading = (self.read)(step.code, value, self.strict);
            sink.number(step.code);
            sink.looked(u64::from(reading.kind) + u64::from(reading.number) + reading.count as u64);
            sink.number(u64::from(reading.refused == 0));
            sink.told(|| library_words(step.code, value, reading));
        }
    }
}

/// One call for all.
struct List<L> {
    list: L,
    message: Vec<u8>,
    rows: Vec<ReadRow>,
    strict: bool,
}

impl<L: ReadListing> Side for List<L> {
    fn run(&mut self, sink: &mut impl Sink) {
        let area = area_of(black_box(&self.message));
        let listed = (self.list)(area, 0, &mut self.rows, self.strict);
        for row in &self.rows[..listed.rows] {
            sink.number(row.code as u64);
            sink.looked((row.kind + row.number + row.count) as u64);
            sink.number(u64::from(row.refused == 0));
            sink.told(|| {
                let (refused, kind, number) = (row.refused as u8, row.kind as u8, row.number as u32);
                let reading = Value { refused, kind, number, count: row.count };
                library_words(row.code as u8, &area[row.place - row.len..row.place], reading)
            });
        }
    }
}

/// What a service calls: the safe crate's walk, and its typed values.
struct Safe {
    message: Vec<u8>,
    join: Vec<u8>,
}

impl Side for Safe {
    fn run(&mut self, sink: &mut impl Sink) {
        let Ok(message) = sindovaleph::Message::new(black_box(&self.message)) else { return };
        for option in message.opts(&mut self.join) {
            let Ok(option) = option else { return };
            let (code, value) = (option.code(), option.data());
            sink.number(code);
            let reading = black_box(option.read());
            sink.number(u64::from(reading.is_ok()));
            sink.told(|| library_words(code, value, calls::read(code, value, false)));
        }
    }
}

/// The crate's types, which allocate.
struct Crate(Vec<u8>);

impl Side for Crate {
    fn run(&mut self, sink: &mut impl Sink) {
        let Ok(message) = Message::new(black_box(&self.0)) else { return };
        for option in message.opts() {
            sink.number(u8::from(option.code()));
            let reading = black_box(option.into_option().ok());
            sink.number(u64::from(reading.is_some()));
            sink.told(|| crate_words(reading.as_ref()));
        }
    }
}

/// By two calls for each option.
fn two_calls(name: &str, strict: bool) -> Case {
    let message = usual_message();
    fn steps<S: Stepping, R: Reading>(step: S, read: R, message: &[u8], strict: bool) -> Steps<S, R> {
        Steps { step, read, message: message.to_vec(), join: vec![0; message.len()], strict }
    }
    let ours = steps(calls::step, calls::read, &message, strict);
    let case = Case::new(name, message.len(), ours, Crate(message.clone()));
    #[cfg(limit)]
    let case = case.limited_by(steps(limit::step, limit::read, &message, strict));
    case
}

/// By one call for all.
fn one_call(name: &str, strict: bool) -> Case {
    let message = usual_message();
    fn all<L: ReadListing>(list: L, message: &[u8], strict: bool) -> List<L> {
        List { list, message: message.to_vec(), rows: vec![ReadRow::default(); message.len() / 2], strict }
    }
    let case = Case::new(name, message.len(), all(calls::read_list, &message, strict), Crate(message.clone()));
    #[cfg(limit)]
    let case = case.limited_by(all(limit::read_list, &message, strict));
    case
}

/// All of them. The crate has only the plain reading.
pub fn cases() -> Vec<Case> {
    let message = usual_message();
    let safe = Safe { message: message.clone(), join: vec![0; message.len()] };
    vec![
        two_calls("read 12, two calls each", false).aims_at(0.45).counts_at_most(0.36),
        one_call("read 12, one call", false).aims_at(0.25).counts_at_most(0.24),
        Case::new("read 12, the safe crate", message.len(), safe, Crate(message)).counts_at_most(0.50),
        two_calls("read 12 strictly, two calls each", true),
        one_call("read 12 strictly, one call", true),
    ]
}
