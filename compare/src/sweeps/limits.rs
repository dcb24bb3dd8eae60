//! The limits of 65,535 bytes: messages, areas, rooms, values; and that of listings.

use super::made;
use crate::cases::Bench;
use crate::paper::MOST_BYTES;
use crate::typed::Typed;
use dhcproto::v4::borrowed::DhcpOptionIterator;
use sindovaleph::calls::Route;

/// Lengths at the limit, below it and above it.
const LENGTHS: [usize; 4] = [MOST_BYTES - 1, MOST_BYTES, MOST_BYTES + 1, MOST_BYTES + 300];

/// A long area of parts of one code, so that its value is joined.
fn joined_area(len: usize) -> Vec<u8> {
    let mut area = Vec::with_capacity(len);
    while area.len() + 257 <= len {
        area.extend([43, 255]);
        area.extend((0..255).map(|at: u8| at ^ 0x5A));
    }
    area.resize(len, 0);
    area
}

fn messages_and_areas(bench: &mut Bench) {
    for len in LENGTHS {
        for mut area in [joined_area(len), vec![0; len], vec![255; len / 20 * 20]] {
            for place in [0, 1, 257, area.len() - 1, area.len(), area.len() + 1] {
                bench.call_at(&area, place, &[0, MOST_BYTES, MOST_BYTES + 1]);
            }
            area.truncate(len - 240);
            let message = [made::header(), area].concat();
            bench.message(&message, &[0, 257, message.len() - 240]);
        }
    }
    let ends = vec![12, 255, 255, 0, 12];
    bench.walk(&ends, DhcpOptionIterator::new(&ends));
}

/// Areas listed in rows: with one long option, with as many options as can be, and with none.
fn rows(bench: &mut Bench) {
    for len in LENGTHS {
        let many = [43, 0, 80, 0].repeat(len / 4 + 1);
        for area in [joined_area(len), many[..len].to_vec(), vec![0; len]] {
            for place in [0, 1, 257, len - 1, len, len + 1] {
                bench.lists(&area, place);
            }
        }
    }
}

/// Messages around the most bytes that are listed: with the longest of texts, and with one long value.
fn listings(bench: &mut Bench) {
    for len in 4_090..=4_100 {
        for area in [[100, 0, 101, 0].repeat(1_000), joined_area(4_000)] {
            let mut message = [made::header(), area].concat();
            message[2] = 255;
            message.resize(len, 0);
            bench.message(&message, &[]);
        }
    }
}

fn values(bench: &mut Bench) {
    for code in [0, 1, 2, 3, 12, 19, 21, 23, 25, 26, 43, 46, 51, 53, 55, 80, 94, 121, 200, 255] {
        for len in LENGTHS {
            for value in made::contents(len) {
                bench.read_value(code, &value);
            }
        }
    }
    for len in LENGTHS {
        made::contents(len).iter().for_each(|text| bench.utf8(text));
    }
}

/// Values that are far too long to be written, to codes of every sort.
fn long_writes(bench: &mut Bench) {
    let bytes = made::contents(MOST_BYTES + 1);
    let numbers = made::numbers(20_000);
    for code in [0, 3, 12, 21, 43, 55, 255] {
        bench.write_bytes_into(code, &bytes[4], (100, 7));
        bench.write_typed_into(code, &Typed::Text(&bytes[5]), (100, 7));
        bench.write_typed_into(code, &Typed::Text(&bytes[3]), (100, 7));
        bench.write_typed_into(code, &Typed::Codes(&bytes[4]), (100, 7));
        bench.write_typed_into(code, &Typed::Addresses(&numbers), (100, 7));
        bench.write_typed_into(code, &Typed::Pairs(&numbers), (100, 7));
        bench.write_typed_into(code, &Typed::Pairs(&numbers[1..]), (100, 7));
    }
}

/// Rooms at the limit, with places at their ends, and every refusal that could come before.
fn rooms(bench: &mut Bench) {
    let wide = Route { width: 33, destination: 1, gateway: 2 };
    let narrow = Route { width: 9, ..wide };
    for room in [MOST_BYTES - 1, MOST_BYTES, MOST_BYTES + 1] {
        for place in [0, room - 6, room - 5, room - 2, room - 1, room, room + 1, usize::MAX] {
            bench.close((room, place));
            for code in [0, 1, 12, 21, 255] {
                bench.write_bytes_into(code, &[1, 2, 3, 4], (room, place));
                bench.write_bytes_into(code, &[0; 4_081], (room, place));
                bench.write_typed_into(code, &Typed::Address(5), (room, place));
                bench.write_typed_into(code, &Typed::Text(&[255; 4_081]), (room, place));
                bench.write_typed_into(code, &Typed::Pairs(&[9; 1_021]), (room, place));
            }
            bench.write_routes_into(&[narrow], (room, place));
            bench.write_routes_into(&[narrow, wide], (room, place));
        }
    }
}

/// All of them.
pub fn sweep(bench: &mut Bench) {
    messages_and_areas(bench);
    rows(bench);
    listings(bench);
    values(bench);
    long_writes(bench);
    rooms(bench);
}
