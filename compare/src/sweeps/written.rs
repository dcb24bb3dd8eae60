//! Random writes.

use crate::cases::Bench;
use crate::paper::kind_of;
use crate::random::Random;
use crate::typed::Typed;
use sindovaleph::calls::{Route, WriteRow};

/// A length of a list: mostly short, now and then around the most bytes of a value.
fn length(random: &mut Random, most: usize) -> usize {
    match random.below(20) {
        0 => random.below(most + most / 40 + 2),
        1..=4 => random.below(300),
        _ => random.below(12),
    }
}

fn bytes(random: &mut Random, len: usize) -> Vec<u8> {
    (0..len).map(|_| random.byte()).collect()
}

/// Letters, and now and then any byte.
fn text(random: &mut Random) -> Vec<u8> {
    let len = length(random, 4_080);
    let mut text: Vec<u8> = (0..len).map(|_| b'a' + random.below(26) as u8).collect();
    if random.once_in(3) && len > 0 {
        text[random.below(len)] = random.byte();
    }
    text
}

fn list(random: &mut Random, bench: &mut Bench, code: u8, kind: u8) {
    let most = if kind == 7 { 2_040 } else { 1_020 };
    let numbers: Vec<u32> = (0..length(random, most)).map(|_| random.bits() as u32).collect();
    match kind {
        2 => bench.write_typed(code, &Typed::Addresses(&numbers)),
        3 => bench.write_typed(code, &Typed::Pairs(&numbers)),
        _ => {
            let halves: Vec<u16> = numbers.iter().map(|&number| number as u16).collect();
            bench.write_typed(code, &Typed::U16s(&halves));
        }
    }
}

fn routes(random: &mut Random, bench: &mut Bench) {
    let widest = if random.once_in(10) { 40 } else { 33 };
    let route = |random: &mut Random| {
        let (destination, gateway) = (random.bits() as u32, random.bits() as u32);
        Route { width: random.below(widest) as u8, destination, gateway }
    };
    let table: Vec<Route> = (0..length(random, 500)).map(|_| route(random)).collect();
    bench.write_routes(&table);
}

/// Rows of options, most of them right: a wrong one stands at any index.
pub fn rows(random: &mut Random, bench: &mut Bench) {
    let most = length(random, 4_080) + 40;
    let values = bytes(random, most);
    let row = |random: &mut Random| {
        let start = random.below(values.len());
        let len = random.below(values.len() - start + 1).min(length(random, 900));
        match random.below(40) {
            0 => WriteRow { code: random.one_of(&[0, 255, 256, usize::MAX]), start, len },
            1 => WriteRow { code: 12, start, len: values.len() - start + random.below(2) },
            2 => WriteRow { code: 12, start: 0, len: values.len() },
            _ => WriteRow { code: 1 + random.below(254), start, len },
        }
    };
    let table: Vec<WriteRow> = (0..random.below(20)).map(|_| row(random)).collect();
    bench.write_list(&table, &values);
}

/// One random value to one random code, mostly of its kind.
pub fn one(random: &mut Random, bench: &mut Bench) {
    let code = random.byte();
    let kind = if random.once_in(6) { random.below(16) as u8 } else { kind_of(code) };
    let number = random.bits() as u32;
    let typed = match kind {
        0 if random.once_in(8) => return routes(random, bench),
        0 => {
            let len = length(random, 4_080);
            return bench.write_bytes(code, &bytes(random, len));
        }
        2 | 3 | 7 => return list(random, bench, code, kind),
        10 => return bench.write_typed(code, &Typed::Text(&text(random))),
        11 => {
            let len = length(random, 4_080);
            return bench.write_typed(code, &Typed::Codes(&bytes(random, len)));
        }
        1 => Typed::Address(number),
        4 => Typed::Byte(number as u8),
        5 => Typed::YesNo(number % 2 == 1),
        6 => Typed::U16(number as u16),
        8 => Typed::U32(number),
        9 => Typed::I32(number as i32),
        12 => Typed::NodeType(number as u8),
        13 => Typed::MessageType(number as u8),
        14 => Typed::ThreeBytes([number as u8, (number >> 8) as u8, (number >> 16) as u8]),
        _ => Typed::Flag,
    };
    bench.write_typed(code, &typed);
}
