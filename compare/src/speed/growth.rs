//! How the cost grows: areas from small to the largest, full of one thing each; RFC 3396's reading of the longest messages; and the longest
//! profiles of routes.

use super::aggregate;
use super::case::{Case, Side, Sink, Unit};
use super::inputs::{LENGTHS, Shape, USUAL, area_in_parts, usual_area};
use super::moves;
use super::walk::{by_crate, by_step};
use crate::paper::MOST_BYTES;
use dhcproto::v4::borrowed::DhcpOptionIterator;
use sindovaleph::calls::{self, Row};
use std::hint::black_box;

/// The two cases that all others are held against: the area of the twelve options.
const BY_STEP: &str = "12 options, 85 bytes, by step";
const BY_LIST: &str = "12 options, 85 bytes, by list";

/// The most that a byte of the largest area may cost, against a byte of the twelve options; of empty options an option, against one of the
/// twelve.
const MOST_GROWTH: f64 = 3.0;

/// Options of so many parts of 255 bytes.
const PARTS: [usize; 5] = [1, 2, 4, 8, 16];

struct Steps {
    area: Vec<u8>,
    join: Vec<u8>,
}

impl Side for Steps {
    fn run(&mut self, sink: &mut impl Sink) {
        by_step(calls::step, black_box(&self.area), &mut self.join, sink);
    }
}

struct CrateSteps(Vec<u8>);

impl Side for CrateSteps {
    fn run(&mut self, sink: &mut impl Sink) {
        by_crate(DhcpOptionIterator::new(black_box(&self.0)), sink);
    }
}

/// Rows read, nothing joined.
struct List {
    area: Vec<u8>,
    rows: Vec<Row>,
}

impl Side for List {
    fn run(&mut self, sink: &mut impl Sink) {
        let listed = calls::list(black_box(&self.area), 0, &mut self.rows);
        for row in &self.rows[..listed.rows] {
            sink.number(row.code as u64);
            sink.number(row.len as u64);
        }
    }
}

struct CrateList(Vec<u8>);

impl Side for CrateList {
    fn run(&mut self, sink: &mut impl Sink) {
        for option in DhcpOptionIterator::new(black_box(&self.0)) {
            sink.number(u8::from(option.code()));
            sink.number(option.len() as u64);
        }
    }
}

fn by_steps(name: impl Into<String>, area: &[u8]) -> Case {
    let steps = Steps { area: area.to_vec(), join: vec![0; MOST_BYTES] };
    Case::new(name, area.len(), steps, CrateSteps(area.to_vec())).grown_from(BY_STEP, Unit::Byte)
}

fn by_list(name: impl Into<String>, area: &[u8]) -> Case {
    let rows = vec![Row::default(); area.len() / 2 + 1];
    let list = List { area: area.to_vec(), rows };
    Case::new(name, area.len(), list, CrateList(area.to_vec())).grown_from(BY_LIST, Unit::Byte)
}

/// A shape at a length, by step and by list. Empty options cost what options cost, so they are counted by option.
fn grown(shape: Shape, len: usize) -> [Case; 2] {
    let (name, area) = (format!("{}, {len} bytes", shape.name()), shape.area(len));
    let mut cases = [by_steps(format!("{name}, by step"), &area), by_list(format!("{name}, by list"), &area)];
    if let Some(options) = shape.empty_options(len) {
        let [steps, list] = cases;
        cases = [steps.grown_from(BY_STEP, Unit::Option), list.grown_from(BY_LIST, Unit::Option)];
        cases = cases.map(|case| case.finds(options));
    }
    if len == MOST_BYTES { cases.map(|case| case.aims_at(MOST_GROWTH).counts_at_most(MOST_GROWTH)) } else { cases }
}

/// All of them.
pub fn cases() -> Vec<Case> {
    let bases = [by_steps(BY_STEP, &usual_area()), by_list(BY_LIST, &usual_area())];
    let mut cases: Vec<Case> = bases.map(|case| case.finds(USUAL.len())).into();
    cases.extend(Shape::ALL.into_iter().flat_map(|shape| LENGTHS.into_iter().flat_map(move |len| grown(shape, len))));
    cases.extend(PARTS.map(|count| {
        let parts = if count == 1 { "part" } else { "parts" };
        by_steps(format!("{count} {parts} of 255, by step"), &area_in_parts(count))
    }));
    cases.extend(aggregate::growth());
    cases.extend(moves::growth());
    cases
}
