//! UTF-8: the library against Rust's own look at a text.

use super::case::{Case, Side, Sink};
#[cfg(limit)]
use super::limit;
use sindovaleph::calls;
use std::hint::black_box;

/// By a call that looks at a text, the library's or the limit's.
struct Call<L>(L, String);

impl<L: Fn(&[u8]) -> bool> Side for Call<L> {
    fn run(&mut self, sink: &mut impl Sink) {
        sink.number((self.0)(black_box(self.1.as_bytes())));
    }
}

struct Rust(String);

impl Side for Rust {
    fn run(&mut self, sink: &mut impl Sink) {
        sink.number(core::str::from_utf8(black_box(self.0.as_bytes())).is_ok());
    }
}

/// Texts of ASCII, and of characters of one to four bytes in turn.
pub fn cases() -> Vec<Case> {
    let mixed = "aé€😀";
    let texts = [
        ("ASCII 12", "hostname-012".to_string(), 0.8, 0.80),
        ("ASCII 64", "a".repeat(64), 0.8, 0.80),
        ("ASCII 4,080", "a".repeat(4_080), 0.5, 0.50),
        ("mixed 12", mixed.to_string() + "zz", 0.95, 0.80),
        ("mixed 64", mixed.repeat(6) + "zzzz", 0.95, 0.82),
        ("mixed 4,080", mixed.repeat(408), 0.95, 0.80),
    ];
    let case = |(name, text, target, counts): (&str, String, f64, f64)| {
        let case = Case::new(name, text.len(), Call(calls::is_utf8, text.clone()), Rust(text.clone())).aims_at(target);
        #[cfg(limit)]
        let case = case.limited_by(Call(limit::is_utf8, text));
        case.counts_at_most(counts)
    };
    texts.map(case).into()
}
