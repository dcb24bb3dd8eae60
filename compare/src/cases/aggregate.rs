//! RFC 3396's reading of a message: all parts of one code, over the fields that option 52 names. The crate has no such mode; the library's
//! own walk of each field is held against it.

use super::Bench;
use crate::findings::Bytes;
use crate::modes;
use crate::paper::{self, AREA, FILE, FILE_END, SNAME};
use sindovaleph::calls::{self, Row, Step};
use std::fmt::{self, Arguments, Display};

/// The most codes that a message can have: all but Pad and End.
const MOST_CODES: usize = 254;

/// About how many codes and indexes of a message are asked for: of more, some in between are left out.
const ASKED: usize = 4;

/// A message by its fields that can hold options.
struct Fields<'a>(&'a [u8]);

impl Display for Fields<'_> {
    fn fmt(&self, out: &mut fmt::Formatter<'_>) -> fmt::Result {
        let Fields(message) = self;
        if message.len() < AREA {
            return write!(out, "a message of {} bytes", message.len());
        }
        let [options, file, sname] = [AREA..message.len(), FILE..FILE_END, SNAME..FILE].map(|at| Bytes(&message[at]));
        write!(out, "options {options}, file {file}, sname {sname}")
    }
}

/// Join buffers for an option: none; where it is joined also one that lacks a byte, the one that is needed and a larger one. A small one
/// where there is no option.
fn joins(row: Option<&Row>) -> Vec<usize> {
    let mut sizes = match row {
        Some(&Row { parts: 2.., len, .. }) => vec![0, len.saturating_sub(1), len, len + 9],
        Some(_) => vec![0],
        None => vec![5],
    };
    sizes.dedup();
    sizes
}

impl Bench {
    /// What option 52 says, rows, some of the codes that are there and some others, and the indexes of these.
    pub fn aggregate(&mut self, message: &[u8]) {
        let rows = self.overload_and_rows(message);
        let every = rows.len() / ASKED + 1;
        let there: Vec<u8> = rows.iter().step_by(every).map(|row| row.code as u8).collect();
        self.codes(message, &rows, there.into_iter().chain([0, 12, 52, 255]));
        self.indexes(message, &rows, (0..rows.len()).step_by(every).chain([rows.len(), usize::MAX]));
    }

    /// The same with every code, and every index that can be and some more.
    pub fn whole_aggregate(&mut self, message: &[u8]) {
        let rows = self.overload_and_rows(message);
        self.codes(message, &rows, 0..=255);
        self.indexes(message, &rows, (0..=256).chain([usize::MAX]));
    }

    /// What option 52 says, and all codes in rows: with no row, one row short, as many rows as there are codes, and one more. The rows that
    /// the paper says are answered.
    fn overload_and_rows(&mut self, message: &[u8]) -> Vec<Row> {
        let call = format_args!("overload of {}", Fields(message));
        self.same(call, &calls::overload(message), &paper::overload(message));
        let mut rows = vec![Row::default(); MOST_CODES];
        let told = paper::entries(message, &mut rows);
        rows.truncate(told.codes);
        let mut sizes = vec![0, rows.len().saturating_sub(1), rows.len(), rows.len() + 1];
        sizes.dedup();
        sizes.into_iter().for_each(|size| self.entries(message, size));
        rows
    }

    fn entries(&mut self, message: &[u8], size: usize) {
        let ours = calls::entries(message, self.rows.library(size));
        let said = paper::entries(message, self.rows.paper(size));
        let call = format_args!("entries of {}, {size} rows lent", Fields(message));
        self.same(call, &ours, &said);
        let same = self.rows.settle(0..said.codes.min(size), size);
        self.same_rows(call, same);
    }

    /// These codes, by `find` and by the walk.
    fn codes(&mut self, message: &[u8], rows: &[Row], codes: impl Iterator<Item = u8>) {
        let listed = match calls::overload(message) {
            told if told.refused == 0 => modes::walked(message, told.number),
            _ => Vec::new(),
        };
        for code in codes {
            let row = rows.iter().find(|row| row.code == usize::from(code));
            for join in joins(row) {
                let call = format_args!("find {code} in {}, to join in {join}", Fields(message));
                let library = |join: &mut [u8]| calls::find(message, code, join);
                self.option(call, join, library, |join| paper::find_code(message, code, join));
            }
            if row.is_some() {
                self.as_walked(message, code, listed.iter().filter(|option| option.code == code));
            }
        }
    }

    /// The options at these indexes.
    fn indexes(&mut self, message: &[u8], rows: &[Row], indexes: impl Iterator<Item = usize>) {
        for index in indexes {
            for join in joins(rows.get(index)) {
                let call = format_args!("entry {index} of {}, to join in {join}", Fields(message));
                let library = |join: &mut [u8]| calls::entry(message, index, join);
                self.option(call, join, library, |join| paper::entry(message, index, join));
            }
        }
    }

    /// One option, by the library and by the paper, with a join buffer of this size.
    fn option(
        &mut self,
        call: Arguments<'_>,
        join: usize,
        library: impl Fn(&mut [u8]) -> Step,
        paper: impl Fn(&mut [u8]) -> Step,
    ) {
        let ours = library(self.join.library(join));
        let said = paper(self.join.paper(join));
        self.same(call, &ours, &said);
        let joined = if said.refused == 0 && said.parts > 1 { said.len } else { 0 };
        self.same_join(call, joined, join);
    }

    /// What the walk lists of a code has to be what `find` answers: the parts, the value and the last place.
    fn as_walked<'a>(&mut self, message: &[u8], code: u8, listed: impl Iterator<Item = &'a modes::Listed>) {
        let (mut parts, mut value, mut place) = (0, Vec::new(), 0);
        for option in listed {
            parts += option.parts;
            value.extend_from_slice(&option.value);
            place = option.place;
        }
        let mut join = vec![0; value.len()];
        let step = calls::find(message, code, &mut join);
        let shown = match step.parts {
            1 => message.get(step.place.wrapping_sub(step.len)..step.place),
            _ => join.get(..step.len),
        };
        let call = format_args!("find {code} in {}, beside the walk", Fields(message));
        self.same(call, &(step.parts, step.place, shown.map(Bytes)), &(parts, place, Some(Bytes(&value))));
    }
}
