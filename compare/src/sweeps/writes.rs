//! Writing: every code with every writer, lists around each cut, byte values around each cut.

use super::made;
use crate::cases::Bench;
use crate::paper::kind_of;
use crate::typed::Typed;

/// The numbers that scalars are tried with.
const NUMBERS: [u32; 9] = [0, 1, 255, 256, 65_535, 65_536, 0x7FFF_FFFF, 0x8000_0000, 0xFFFF_FFFF];

/// The lengths of lists that a writer of the code's own kind gets, as numbers of four, of two and of one byte.
const LENGTHS_OF_FOUR: [usize; 20] =
    [0, 1, 2, 3, 4, 60, 61, 62, 63, 64, 65, 125, 126, 127, 128, 189, 190, 1_019, 1_020, 1_021];
const LENGTHS_OF_TWO: [usize; 13] = [0, 1, 2, 126, 127, 128, 253, 254, 255, 256, 2_039, 2_040, 2_041];
const LENGTHS_OF_ONE: [usize; 13] = [0, 1, 2, 254, 255, 256, 509, 510, 511, 512, 4_079, 4_080, 4_081];

/// Where the code is of another kind, a few lengths are enough.
const FEW: [usize; 3] = [0, 1, 1_500];

fn scalars(bench: &mut Bench, code: u8) {
    for byte in 0..=255 {
        bench.write_typed(code, &Typed::Byte(byte));
        bench.write_typed(code, &Typed::NodeType(byte));
        bench.write_typed(code, &Typed::MessageType(byte));
        bench.write_typed(code, &Typed::ThreeBytes([byte, 7, !byte]));
    }
    for number in NUMBERS {
        bench.write_typed(code, &Typed::Address(number));
        bench.write_typed(code, &Typed::U16(number as u16));
        bench.write_typed(code, &Typed::U32(number));
        bench.write_typed(code, &Typed::I32(number as i32));
    }
    bench.write_typed(code, &Typed::YesNo(false));
    bench.write_typed(code, &Typed::YesNo(true));
    bench.write_typed(code, &Typed::Flag);
}

fn lists(bench: &mut Bench, code: u8) {
    let lengths = |kind: u8, all: &'static [usize]| if kind_of(code) == kind { all } else { &FEW };
    for &count in lengths(2, &LENGTHS_OF_FOUR) {
        bench.write_typed(code, &Typed::Addresses(&made::numbers(count)));
    }
    for &count in lengths(3, &LENGTHS_OF_FOUR) {
        bench.write_typed(code, &Typed::Pairs(&made::numbers(count)));
    }
    for &count in lengths(7, &LENGTHS_OF_TWO) {
        let numbers: Vec<u16> = made::numbers(count).iter().map(|&number| (number >> 9) as u16).collect();
        bench.write_typed(code, &Typed::U16s(&numbers));
    }
    for &count in lengths(11, &LENGTHS_OF_ONE) {
        bench.write_typed(code, &Typed::Codes(&made::contents(count)[4]));
    }
    for &count in lengths(10, &LENGTHS_OF_ONE) {
        bench.write_typed(code, &Typed::Text(&made::contents(count)[5]));
        bench.write_typed(code, &Typed::Text(&made::contents(count)[3]));
    }
}

fn byte_values(bench: &mut Bench, code: u8) {
    for len in made::lengths().chain([509, 510, 511, 4_079, 4_080, 4_081]) {
        bench.write_bytes(code, &made::contents(len)[4]);
    }
}

/// All of them.
pub fn sweep(bench: &mut Bench) {
    for code in 0..=255 {
        scalars(bench, code);
        lists(bench, code);
        byte_values(bench, code);
    }
    for room in 0..=8 {
        for place in 0..=9 {
            bench.close((room, place));
        }
    }
}
