//! All options of an area in one call, and options written in one call.

use super::Bench;
use super::writes::rooms;
use crate::findings::Bytes;
use crate::paper::{self, Found, MOST_BYTES};
use sindovaleph::calls::{self, ReadRow, Row, WriteRow, WrittenRows};
use std::fmt::Arguments;

/// The most rows that any call here is lent.
pub(super) const MOST_ROWS: usize = MOST_BYTES / 2 + 2;

/// A room that two of the longest values fit in, and a place in it.
const LARGE_ROOM: (usize, usize) = (10_000, 3);

/// Rows that no call answers, different at every place.
pub(super) fn row_pattern(at: usize) -> Row {
    let number = usize::MAX / 3 - 7 * at;
    Row { code: number, parts: number - 1, len: number - 2, place: number - 3 }
}

/// The same for a typed listing.
pub(super) fn read_row_pattern(at: usize) -> ReadRow {
    let Row { code, parts, len, place } = row_pattern(at);
    ReadRow { code, parts, len, place, refused: code - 4, kind: code - 5, number: code - 6, count: code - 7 }
}

/// How many options stand before the first stop.
fn options_from(area: &[u8], mut place: usize) -> usize {
    let mut count = 0;
    while let Found::Option { place: next, .. } = paper::find(area, place) {
        place = next;
        count += 1;
    }
    count
}

impl Bench {
    /// A listing from a place, plain and typed: with no row, one row short, as many rows as there are options, and one more.
    pub fn lists(&mut self, area: &[u8], place: usize) {
        let refused = area.len() > MOST_BYTES || place > area.len();
        let count = if refused { 1 } else { options_from(area, place) };
        let mut sizes = vec![0, count.saturating_sub(1), count, count + 1];
        sizes.dedup();
        for size in sizes {
            self.list(area, place, size);
            self.read_list(area, place, size, false);
            self.read_list(area, place, size, true);
        }
    }

    /// A typed listing of an area of one option.
    pub fn read_in_list(&mut self, area: &[u8]) {
        self.read_list(area, 0, 2, false);
        self.read_list(area, 0, 2, true);
    }

    fn list(&mut self, area: &[u8], place: usize, size: usize) {
        let ours = calls::list(area, place, self.rows.library(size));
        let said = paper::list(area, place, self.rows.paper(size));
        let call = format_args!("list in area {} at {place}, {size} rows lent", Bytes(area));
        self.same(call, &ours, &said);
        let same = self.rows.settle(0..said.rows, size);
        self.same_rows(call, same);
    }

    fn read_list(&mut self, area: &[u8], place: usize, size: usize, strict: bool) {
        let ours = calls::read_list(area, place, self.read_rows.library(size), strict);
        let said = paper::read_list(area, place, self.read_rows.paper(size), strict);
        let call = format_args!("read_list in area {} at {place}, {size} rows lent, strict {strict}", Bytes(area));
        self.same(call, &ours, &said);
        let same = self.read_rows.settle(0..said.rows, size);
        self.same_rows(call, same);
    }

    pub(super) fn same_rows(&mut self, call: Arguments<'_>, same: bool) {
        if !same {
            self.findings.unexplained(call, format_args!("the rows hold other numbers than the paper says"));
        }
    }

    /// Rows written into one room.
    pub fn write_list_into(&mut self, rows: &[WriteRow], values: &[u8], (room, place): (usize, usize)) -> WrittenRows {
        let ours = calls::write_list(self.room.library(room), place, rows, values);
        let said = paper::write_list(self.room.paper(room), place, rows, values);
        let call = format_args!("write_list of {rows:?} of {} at {place} of a room of {room}", Bytes(values));
        self.same(call, &ours, &said);
        let written = if said.refused == 0 { place..said.place } else { 0..0 };
        if !self.room.settle(written, room) {
            self.findings.unexplained(call, format_args!("the room holds other bytes than document 01 says"));
        }
        said
    }

    /// Rows written: into a large room, and into several around what they take, or what those take that stand before a
    /// refused one.
    pub fn write_list(&mut self, rows: &[WriteRow], values: &[u8]) {
        let mut said = self.write_list_into(rows, values, LARGE_ROOM);
        if said.refused > 0 {
            said = self.write_list_into(&rows[..said.rows], values, LARGE_ROOM);
        }
        for room in rooms(said.place - LARGE_ROOM.1) {
            self.write_list_into(rows, values, room);
        }
    }
}
