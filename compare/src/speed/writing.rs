//! Writing: the twelve usual options, one long value, and routes.

use super::case::{Case, Side, Sink};
use super::inputs::USUAL;
use crate::theirs;
use dhcproto::v4::{DhcpOption, OptionCode, encode_long_opt_bytes};
use dhcproto::{Encodable, Encoder};
use sindovaleph::calls::{self, Route, WriteRow};
use std::hint::black_box;

/// The bytes of a room, and of the crate's vector.
const ROOM: usize = 5_000;

/// The bytes of a page of memory.
pub const PAGE: usize = 4_096;

/// A code and its value.
type Options = Vec<(u8, Vec<u8>)>;

/// A call an option.
struct CallEach {
    options: Options,
    room: Vec<u8>,
}

impl Side for CallEach {
    fn run(&mut self, sink: &mut impl Sink) {
        let mut place = 0;
        for (code, value) in black_box(&self.options) {
            let written = calls::write_bytes(&mut self.room, place, *code, value);
            if written.refused != 0 {
                return;
            }
            place = written.place;
        }
        sink.bytes(&self.room[..place]);
    }
}

/// One call for all rows.
struct OneCall {
    rows: Vec<WriteRow>,
    values: Vec<u8>,
    room: Vec<u8>,
}

impl Side for OneCall {
    fn run(&mut self, sink: &mut impl Sink) {
        let written = calls::write_list(&mut self.room, 0, black_box(&self.rows), black_box(&self.values));
        if written.rows == self.rows.len() {
            sink.bytes(&self.room[..written.place]);
        }
    }
}

/// The crate's writing of bytes, into a cleared vector that has its capacity.
struct Crate {
    options: Options,
    buffer: Vec<u8>,
}

impl Side for Crate {
    fn run(&mut self, sink: &mut impl Sink) {
        self.buffer.clear();
        let mut encoder = Encoder::new(&mut self.buffer);
        for (code, value) in black_box(&self.options) {
            if encode_long_opt_bytes(OptionCode::from(*code), value, &mut encoder).is_err() {
                return;
            }
        }
        sink.bytes(&self.buffer);
    }
}

struct Routes {
    routes: Vec<Route>,
    room: Vec<u8>,
}

impl Side for Routes {
    fn run(&mut self, sink: &mut impl Sink) {
        let written = calls::write_routes(&mut self.room, 0, black_box(&self.routes));
        if written.refused == 0 {
            sink.bytes(&self.room[..written.place]);
        }
    }
}

/// The crate's option of routes, made before and written.
struct CrateRoutes {
    option: DhcpOption,
    buffer: Vec<u8>,
}

impl Side for CrateRoutes {
    fn run(&mut self, sink: &mut impl Sink) {
        self.buffer.clear();
        if black_box(&self.option).encode(&mut Encoder::new(&mut self.buffer)).is_ok() {
            sink.bytes(&self.buffer);
        }
    }
}

/// Rows for options, and their values one behind the other.
fn rows(options: &Options) -> (Vec<WriteRow>, Vec<u8>) {
    let mut values = Vec::new();
    let mut row = |(code, value): &(u8, Vec<u8>)| {
        let start = values.len();
        values.extend_from_slice(value);
        WriteRow { code: usize::from(*code), start, len: value.len() }
    };
    (options.iter().map(&mut row).collect(), values)
}

/// Options whose long values stand a quarter of a page or more from where they are written, by their places in a page.
/// Where these places are about the same, a copy takes up to five times as long at some distances between the pages: by
/// the luck of an allocation, and for one side alone.
fn apart_from(written: &[u8], options: &Options) -> Options {
    let place = |bytes: &[u8]| bytes.as_ptr().addr() % PAGE;
    let apart = |(_, value): &(u8, Vec<u8>)| {
        let from = (PAGE + place(value) - place(written)) % PAGE;
        value.len() < PAGE / 4 || (PAGE / 4..=3 * PAGE / 4).contains(&from)
    };
    let mut close = Vec::new();
    loop {
        let tried = options.clone();
        if tried.iter().all(apart) {
            return tried;
        }
        close.push((tried, black_box(vec![0_u8; 1_000])));
    }
}

/// Options that a call each writes.
fn call_each(name: &str, options: &Options) -> Case {
    let bytes = options.iter().map(|(_, value)| value.len() + 2).sum();
    let (room, mut buffer) = (vec![0; ROOM], vec![0; ROOM]);
    let ours = CallEach { options: apart_from(&room, options), room };
    let options = apart_from(&buffer, options);
    buffer.clear();
    Case::new(name, bytes, ours, Crate { options, buffer })
}

/// The same by one call.
fn one_call(name: &str, options: &Options) -> Case {
    let (rows, values) = rows(options);
    let theirs = Crate { options: options.clone(), buffer: Vec::with_capacity(ROOM) };
    Case::new(name, values.len() + 2 * rows.len(), OneCall { rows, values, room: vec![0; ROOM] }, theirs)
}

/// Byte values.
pub fn cases() -> Vec<Case> {
    let usual = USUAL.map(|(code, value)| (code, value.to_vec())).to_vec();
    vec![
        call_each("write 12, a call each", &usual).aims_at(0.40),
        one_call("write 12, one call", &usual).aims_at(0.30),
        call_each("write 4,080 bytes", &vec![(43, vec![9; 4_080])]).aims_at(0.80),
    ]
}

/// Eight routes of different widths.
pub fn routes() -> Vec<Case> {
    let route = |at: u8| {
        let destination = u32::from_be_bytes([10, at, 16 * at, 0]);
        Route { width: 4 * at + 4, destination, gateway: 0xC000_0201 + u32::from(at) }
    };
    let routes: Vec<Route> = (0..8).map(route).collect();
    let option = theirs::routes(&routes).expect("no width is above 32");
    let bytes = 9 * routes.len();
    let ours = Routes { routes, room: vec![0; ROOM] };
    vec![Case::new("write 8 routes", bytes, ours, CrateRoutes { option, buffer: Vec::with_capacity(ROOM) })]
}
