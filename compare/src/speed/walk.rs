//! The walk over the options of a message, and options that are joined.

use super::case::{Case, Side, Sink};
use super::inputs::{Shape, message_in_parts, message_of, usual_message};
#[cfg(limit)]
use super::limit;
use dhcproto::v4::borrowed::{DhcpOptionIterator, Message};
use sindovaleph::calls::{self, Listed, Row, Step};
use std::hint::black_box;

/// The bytes before the area: up to here, the magic, the area.
const BEFORE_MAGIC: usize = 236;
const MAGIC: [u8; 4] = [99, 130, 83, 99];

/// The area of a message, by the two looks that the crate's `new` and `opts` take: at its length, and at the magic.
pub fn area_of(message: &[u8]) -> &[u8] {
    match message.get(BEFORE_MAGIC..).and_then(|rest| rest.split_at_checked(MAGIC.len())) {
        Some((magic, area)) if magic == MAGIC => area,
        _ => &[],
    }
}

/// One call of the walk, by whoever has it.
pub trait Stepping: Fn(&[u8], usize, &mut [u8]) -> Step + 'static {}

impl<S: Fn(&[u8], usize, &mut [u8]) -> Step + 'static> Stepping for S {}

/// A listing in one call, by whoever has it.
trait Listing: Fn(&[u8], usize, &mut [Row]) -> Listed + 'static {}

impl<L: Fn(&[u8], usize, &mut [Row]) -> Listed + 'static> Listing for L {}

/// The options up to the first stop, by a call for each: code and value.
pub fn by_step(step: impl Stepping, area: &[u8], join: &mut [u8], sink: &mut impl Sink) {
    let mut place = 0;
    loop {
        let step = step(area, place, join);
        if step.stop != 0 || step.refused != 0 {
            return;
        }
        place = step.place;
        sink.number(step.code);
        sink.bytes(if step.parts == 1 { &area[place - step.len..place] } else { &join[..step.len] });
    }
}

/// The value of a row: in the area, or joined by a call of its own.
fn value_of<'a>(step: &impl Stepping, row: &Row, area: &'a [u8], join: &'a mut [u8]) -> &'a [u8] {
    if row.parts == 1 {
        return &area[row.place - row.len..row.place];
    }
    step(area, row.place - row.len - 2 * row.parts, join);
    &join[..row.len]
}

/// The same by the crate.
pub fn by_crate(options: DhcpOptionIterator<'_>, sink: &mut impl Sink) {
    for option in options {
        sink.number(u8::from(option.code()));
        sink.bytes(option.data());
    }
}

/// A call for each option.
struct Steps<S> {
    step: S,
    message: Vec<u8>,
    join: Vec<u8>,
}

impl<S: Stepping + Copy> Side for Steps<S> {
    fn run(&mut self, sink: &mut impl Sink) {
        by_step(self.step, area_of(black_box(&self.message)), &mut self.join, sink);
    }
}

/// One call for all, rows read.
struct List<L, S> {
    list: L,
    step: S,
    message: Vec<u8>,
    rows: Vec<Row>,
    join: Vec<u8>,
}

impl<L: Listing, S: Stepping> Side for List<L, S> {
    fn run(&mut self, sink: &mut impl Sink) {
        let area = area_of(black_box(&self.message));
        let listed = (self.list)(area, 0, &mut self.rows);
        for row in &self.rows[..listed.rows] {
            sink.number(row.code as u64);
            sink.bytes(value_of(&self.step, row, area, &mut self.join));
        }
    }
}

/// What a service calls: the safe crate's message and its walk.
struct Safe {
    message: Vec<u8>,
    join: Vec<u8>,
}

impl Side for Safe {
    fn run(&mut self, sink: &mut impl Sink) {
        if let Ok(message) = sindovaleph::Message::new(black_box(&self.message)) {
            for option in message.opts(&mut self.join) {
                let Ok(option) = option else { return };
                sink.number(option.code());
                sink.bytes(option.data());
            }
        }
    }
}

struct Crate(Vec<u8>);

impl Side for Crate {
    fn run(&mut self, sink: &mut impl Sink) {
        if let Ok(message) = Message::new(black_box(&self.0)) {
            by_crate(message.opts(), sink);
        }
    }
}

/// The walk of a message by a call an option.
pub fn call_each(name: String, message: &[u8]) -> Case {
    fn steps<S: Stepping>(step: S, message: &[u8]) -> Steps<S> {
        Steps { step, message: message.to_vec(), join: vec![0; message.len()] }
    }
    let case = Case::new(name, message.len(), steps(calls::step, message), Crate(message.to_vec()));
    #[cfg(limit)]
    let case = case.limited_by(steps(limit::step, message));
    case
}

/// The walk of a message by one call.
pub fn one_call(name: String, message: &[u8]) -> Case {
    fn all<L: Listing, S: Stepping>(list: L, step: S, message: &[u8]) -> List<L, S> {
        let (rows, join) = (vec![Row::default(); message.len() / 2], vec![0; message.len()]);
        List { list, step, message: message.to_vec(), rows, join }
    }
    let case = Case::new(name, message.len(), all(calls::list, calls::step, message), Crate(message.to_vec()));
    #[cfg(limit)]
    let case = case.limited_by(all(limit::list, limit::step, message));
    case
}

/// The walk of the twelve usual options.
pub fn usual() -> Vec<Case> {
    let message = usual_message();
    let safe = Safe { message: message.clone(), join: vec![0; message.len()] };
    vec![
        call_each("walk 12, a call each".into(), &message).aims_at(0.35).counts_at_most(0.55),
        one_call("walk 12, one call".into(), &message).aims_at(0.20).counts_at_most(0.45),
        Case::new("walk 12, the safe crate", message.len(), safe, Crate(message.clone())).counts_at_most(0.60),
    ]
}

/// An option that is joined, and one of very many parts that are empty.
pub fn joins() -> Vec<Case> {
    let case = |parts: usize| call_each(format!("join {parts} parts"), &message_in_parts(parts));
    let empty = call_each("2,048 empty parts".into(), &message_of(&Shape::EmptyParts.area(4_096)));
    vec![case(2), case(4).aims_at(0.50).counts_at_most(0.48), case(16), empty.counts_at_most(0.50)]
}
