//! Tables of routes.

use super::made;
use crate::cases::Bench;
use sindovaleph::calls::Route;

/// So many routes of the same width.
fn table(count: usize, width: u8) -> Vec<Route> {
    let numbers = made::numbers(count + 1);
    (0..count).map(|at| Route { width, destination: numbers[at], gateway: numbers[at + 1] }).collect()
}

/// Every width alone, and between others.
fn widths(bench: &mut Bench) {
    for width in 0..=255 {
        bench.write_routes(&table(1, width));
        let mut mixed = table(3, 24);
        mixed[1].width = width;
        bench.write_routes(&mixed);
        mixed[0].width = 33;
        bench.write_routes(&mixed);
    }
}

/// Tables around each cut of a part and around 4,080 bytes.
fn lengths(bench: &mut Bench) {
    for width in [0, 1, 8, 9, 16, 17, 24, 25, 32] {
        let bytes = 5 + usize::from(width).div_ceil(8);
        for len in [255, 510, 765, 1_020, 4_080] {
            for count in (len / bytes).saturating_sub(2)..=len / bytes + 3 {
                bench.write_routes(&table(count, width));
            }
        }
    }
}

/// A route that is too wide in a table that is too long: which refusal comes first.
fn order(bench: &mut Bench) {
    for wide in [0, 500, 999] {
        let mut long = table(1_000, 32);
        long[wide].width = 33;
        bench.write_routes(&long);
    }
    bench.write_routes(&[]);
    for count in 0..60 {
        let mixed: Vec<Route> = (0..count).flat_map(|at| table(1, (at * 5 % 33) as u8)).collect();
        bench.write_routes(&mixed);
    }
}

/// All of them.
pub fn sweep(bench: &mut Bench) {
    widths(bench);
    lengths(bench);
    order(bench);
}
