//! Kinds and typed reading: every code, every length that matters.

use super::made;
use crate::cases::Bench;

/// All of them.
pub fn sweep(bench: &mut Bench) {
    for code in 0..=255 {
        bench.kind(code);
        for byte in 0..=255 {
            bench.read_value(code, &[byte]);
            bench.read_value(code, &[byte, !byte, byte, 7]);
        }
        for len in made::lengths().chain([4_079, 4_080]) {
            for value in made::contents(len) {
                bench.read_value(code, &value);
            }
        }
        bench.read_in_list(&[code, 0, code, 0]);
    }
}
