//! The reader of option 121, and the moves between it and option 33. The crate reads option 121 too; it has no moves.

use super::Bench;
use super::writes::rooms;
use crate::agreement::same_routes;
use crate::findings::Bytes;
use crate::known::{self, Known};
use crate::paper::{self, MOST_BYTES, MOST_VALUE};
use crate::theirs;
use dhcproto::v4::borrowed::DhcpOptionIterator;
use sindovaleph::calls::{self, Step, Written};
use std::fmt::{self, Display};
use std::iter;

/// The code of classless routes.
const CODE: u8 = 121;

/// The refusal of a value that is too long to be written.
const TOO_LONG: u8 = 7;

/// A longer value is read from the places of its rows only, and of more routes than a few only the first and the last are asked for by
/// their indexes.
const SHORT: usize = 300;
const FEW: usize = 8;

/// A room that every move fits in.
const LARGE_ROOM: usize = 5_000;

/// The two ways of a move.
#[derive(Clone, Copy, Debug, PartialEq)]
pub enum Way {
    Out,
    Back,
}

impl Way {
    /// The other one.
    fn other(self) -> Way {
        if self == Way::Out { Way::Back } else { Way::Out }
    }

    fn by_library(self, room: &mut [u8], place: usize, value: &[u8]) -> Written {
        match self {
            Way::Out => calls::move_out(room, place, value),
            Way::Back => calls::move_back(room, place, value),
        }
    }

    fn by_paper(self, room: &mut [u8], place: usize, value: &[u8]) -> Written {
        match self {
            Way::Out => paper::move_out(room, place, value),
            Way::Back => paper::move_back(room, place, value),
        }
    }

    /// The value that the library writes in a large room, as its walk finds it there; or the refusal.
    fn value_made(self, value: &[u8]) -> Result<Vec<u8>, u8> {
        let (mut room, mut join) = ([0; LARGE_ROOM], [0; MOST_VALUE]);
        match self.by_library(&mut room, 0, value) {
            Written { refused: 0, place } => {
                let Step { parts, len, place, .. } = calls::step(&room[..place], 0, &mut join);
                Ok(if parts == 1 { &room[place - len..place] } else { &join[..len] }.to_vec())
            }
            Written { refused, .. } => Err(refused),
        }
    }
}

impl Display for Way {
    fn fmt(&self, out: &mut fmt::Formatter<'_>) -> fmt::Result {
        out.write_str(if *self == Way::Out { "move_out" } else { "move_back" })
    }
}

/// The places of a value that are read from: of a short one all, of a longer one those of its rows and its end; and past the end.
fn places(value: &[u8]) -> Vec<usize> {
    let next = |&place: &usize| match value.len() {
        ..=SHORT => Some(place + 1).filter(|&place| place <= value.len()),
        _ => Some(paper::route_from(value, place)).filter(|route| route.found).map(|route| route.place),
    };
    iter::successors(Some(0), next).chain([value.len(), value.len() + 1, usize::MAX]).collect()
}

/// The indexes that are asked for where there are so many routes: the first ones, and those around the last.
fn indexes(count: usize) -> impl Iterator<Item = usize> {
    (0..count.min(FEW)).chain([count.saturating_sub(1), count, count + 1, usize::MAX])
}

impl Bench {
    /// A value of option 121 through the reader: its count, from places, by indexes; and the crate's reading of it.
    pub fn read_routes(&mut self, value: &[u8]) {
        let len = self.give(value);
        let call = format_args!("routes of {}", Bytes(value));
        let (ours, count) = (calls::count_routes(self.given.library(len)), paper::count_routes(value));
        self.same(call, &ours, &count);
        for place in places(value) {
            let ours = calls::route_from(self.given.library(len), place);
            let call = format_args!("route_from {place} of {}", Bytes(value));
            self.same(call, &ours, &paper::route_from(value, place));
        }
        for index in indexes(count.count) {
            let ours = calls::route_at(self.given.library(len), index);
            self.same(format_args!("route_at {index} of {}", Bytes(value)), &ours, &paper::route_at(value, index));
        }
        self.is_as_given(call, len);
        self.read_routes_by_crate(value);
    }

    /// The crate's reading has to be the paper's, but for known differences.
    fn read_routes_by_crate(&mut self, value: &[u8]) {
        let area = if value.is_empty() { vec![CODE, 0] } else { paper::typed_bytes(0, CODE, value) };
        let theirs = DhcpOptionIterator::new(&area).next().map(theirs::read);
        match &theirs {
            Some(_) if value.len() > MOST_BYTES => self.findings.known(Known::LongValueRead),
            Some(theirs) if same_routes(value, theirs) => {
                known::routes(value, theirs).for_each(|kind| self.findings.known(kind));
            }
            _ => {
                let call = format_args!("into_option of code {CODE}, value {}", Bytes(value));
                let paper = paper::count_routes(value);
                self.findings.unexplained(call, format_args!("the crate says {theirs:?}, ticket 6 {paper:?}"));
            }
        }
    }

    /// A move into one room.
    pub fn move_into(&mut self, way: Way, value: &[u8], (room, place): (usize, usize)) -> Written {
        let len = self.give(value);
        let ours = way.by_library(self.room.library(room), place, self.given.library(len));
        let said = way.by_paper(self.room.paper(room), place, self.given.paper(len));
        let call = format_args!("{way} of {}", Bytes(value));
        self.wrote(call, (room, place), ours, said);
        self.is_as_given(call, len);
        said
    }

    /// A move into several rooms; and the other way what it writes, which comes back the same or is too long to.
    pub fn move_value(&mut self, way: Way, value: &[u8]) {
        let said = self.move_into(way, value, (LARGE_ROOM, 0));
        for room in rooms(said.place) {
            self.move_into(way, value, room);
        }
        if said.refused == 0 {
            let again = way.value_made(value).and_then(|made| way.other().value_made(&made));
            let should = if value.len() > MOST_VALUE { Err(&TOO_LONG) } else { Ok(Bytes(value)) };
            self.same(format_args!("{way} and again of {}", Bytes(value)), &again.as_deref().map(Bytes), &should);
        }
    }
}
