//! Writing into lent rooms.

use super::Bench;
use crate::findings::Bytes;
use crate::known;
use crate::paper;
use crate::theirs;
use crate::typed::Typed;
use sindovaleph::calls::{self, Route, Written};
use std::fmt::Arguments;

/// Rooms and places for a write of so many bytes: exact ones, ones that lack a byte, larger ones, places at and past the end.
pub(super) fn rooms(bytes: usize) -> [(usize, usize); 8] {
    let one_short = bytes.saturating_sub(1);
    [(bytes, 0), (one_short, 0), (bytes + 17, 17), (one_short + 17, 17), (5, 5), (5, 6), (0, 0), (bytes + 40, 17)]
}

impl Bench {
    /// One write, by the library and by the paper.
    pub(super) fn write(
        &mut self,
        call: Arguments<'_>,
        (room, place): (usize, usize),
        library: impl Fn(&mut [u8], usize) -> Written,
        paper: impl Fn(&mut [u8], usize) -> Written,
    ) -> Written {
        let ours = library(self.room.library(room), place);
        let said = paper(self.room.paper(room), place);
        self.wrote(call, (room, place), ours, said);
        said
    }

    /// What a write answered has to be what the paper says, and so has what it left in the room.
    pub(super) fn wrote(&mut self, call: Arguments<'_>, (room, place): (usize, usize), ours: Written, said: Written) {
        let call = format_args!("{call} at {place} of a room of {room}");
        self.same(call, &ours, &said);
        let written = if said.refused == 0 { place..said.place } else { 0..0 };
        if !self.room.settle(written, room) {
            self.findings.unexplained(call, format_args!("the room holds other bytes than the paper says"));
        }
    }

    /// What the crate writes has to be what document 01 says; where document 01 refuses it, that is a known difference or the crate
    /// cannot say it either.
    fn same_written(&mut self, call: Arguments<'_>, theirs: Option<Vec<u8>>, refused: u8, bytes: &[u8]) {
        match (theirs, refused) {
            (Some(theirs), 0) => self.findings.same_crate(call, &Bytes(&theirs), &Bytes(bytes)),
            (None, 6 | 9 | 11 | 12 | 13) => (),
            (Some(theirs), _) if theirs == bytes && known::writing(refused).is_some() => {
                known::writing(refused).into_iter().for_each(|kind| self.findings.known(kind));
            }
            (theirs, _) => {
                let (wrote, len) = (theirs.is_some(), theirs.map_or(0, |bytes| bytes.len()));
                let answers = format_args!("the crate writes {wrote} ({len} bytes), document 01 refuses by {refused}");
                self.findings.unexplained(call, answers);
            }
        }
    }

    /// A typed value to a code, into one room.
    pub fn write_typed_into(&mut self, code: u8, value: &Typed<'_>, room: (usize, usize)) -> u8 {
        let (kind, bytes) = (value.kind(), value.bytes());
        let library = |room: &mut [u8], place: usize| value.write(room, place, code);
        let paper = |room: &mut [u8], place: usize| paper::write_typed(room, place, kind, code, &bytes);
        self.write(format_args!("write to code {code} of kind {kind} {}", Bytes(&bytes)), room, library, paper).refused
    }

    /// A typed value to a code: several rooms, and the crate.
    pub fn write_typed(&mut self, code: u8, value: &Typed<'_>) {
        let (kind, bytes) = (value.kind(), value.bytes());
        let said = paper::typed_bytes(kind, code, &bytes);
        let refused = rooms(said.len()).map(|room| self.write_typed_into(code, value, room));
        let call = format_args!("encode of code {code}, kind {kind} {}", Bytes(&bytes));
        self.same_written(call, theirs::write_typed(code, value), refused[7], &said);
    }

    /// A byte value to a code, into one room.
    pub fn write_bytes_into(&mut self, code: u8, value: &[u8], room: (usize, usize)) -> u8 {
        let library = |room: &mut [u8], place: usize| calls::write_bytes(room, place, code, value);
        let paper = |room: &mut [u8], place: usize| paper::write_bytes(room, place, code, value);
        self.write(format_args!("write to code {code} of bytes {}", Bytes(value)), room, library, paper).refused
    }

    /// A byte value to a code: several rooms, and the crate.
    pub fn write_bytes(&mut self, code: u8, value: &[u8]) {
        let said = paper::typed_bytes(0, code, value);
        let refused = rooms(said.len()).map(|room| self.write_bytes_into(code, value, room));
        let call = format_args!("encode of code {code}, bytes {}", Bytes(value));
        self.same_written(call, theirs::write_bytes(code, value), refused[7], &said);
    }

    /// A table of routes, into one room.
    pub fn write_routes_into(&mut self, routes: &[Route], room: (usize, usize)) -> u8 {
        let library = |room: &mut [u8], place: usize| calls::write_routes(room, place, routes);
        let paper = |room: &mut [u8], place: usize| paper::write_routes(room, place, routes);
        let table = paper::routes_value(routes);
        self.write(format_args!("write of {} routes {}", routes.len(), Bytes(&table)), room, library, paper).refused
    }

    /// A table of routes: several rooms, and the crate.
    pub fn write_routes(&mut self, routes: &[Route]) {
        let value = paper::routes_value(routes);
        let said = paper::typed_bytes(0, 121, &value);
        let refused = rooms(said.len()).map(|room| self.write_routes_into(routes, room));
        let call = format_args!("encode of {} routes {}", routes.len(), Bytes(&value));
        self.same_written(call, theirs::write_routes(routes), refused[7], &said);
    }

    /// End, into one room.
    pub fn close(&mut self, room: (usize, usize)) {
        self.write(format_args!("close"), room, calls::close, paper::close);
    }
}
