//! What a comparison has found so far.

use crate::known::Known;
use std::fmt::{self, Debug, Display};
use std::mem;

/// How many unexplained differences are kept in words.
const MOST_KEPT: usize = 20;

/// How many bytes of an input are shown.
const MOST_SHOWN: usize = 64;

/// Bytes in decimal, cut where they are many.
#[derive(PartialEq)]
pub struct Bytes<'a>(pub &'a [u8]);

impl Display for Bytes<'_> {
    fn fmt(&self, out: &mut fmt::Formatter<'_>) -> fmt::Result {
        write!(out, "[")?;
        for (index, byte) in self.0.iter().take(MOST_SHOWN).enumerate() {
            write!(out, "{}{byte}", if index == 0 { "" } else { " " })?;
        }
        if self.0.len() > MOST_SHOWN {
            write!(out, " .. of {} bytes", self.0.len())?;
        }
        write!(out, "]")
    }
}

impl Debug for Bytes<'_> {
    fn fmt(&self, out: &mut fmt::Formatter<'_>) -> fmt::Result {
        Display::fmt(self, out)
    }
}

/// Counts of cases and differences, and the first unexplained ones in words.
#[derive(Default)]
pub struct Findings {
    /// How many calls were compared.
    pub cases: u64,
    /// How many differences nothing explains.
    pub unexplained: u64,
    /// The first of them, in words.
    pub first: Vec<String>,
    /// The number of the random message that is being compared, where there is one.
    pub random: Option<u64>,
    known: [u64; Known::ALL.len()],
}

impl Findings {
    /// How often a known difference was met.
    pub fn count_of(&self, kind: Known) -> u64 {
        self.known[kind as usize]
    }

    /// A known difference was met.
    pub fn known(&mut self, kind: Known) {
        self.known[kind as usize] += 1;
    }

    /// A difference that nothing explains.
    pub fn unexplained(&mut self, call: fmt::Arguments<'_>, answers: fmt::Arguments<'_>) {
        self.unexplained += 1;
        if self.first.len() < MOST_KEPT {
            let random = self.random.map_or(String::new(), |number| format!("random message {number}, "));
            self.first.push(format!("{random}{call}: {answers}"));
        }
    }

    /// The crate's answer has to be the paper's.
    pub fn same_crate<T: PartialEq + Debug>(&mut self, call: fmt::Arguments<'_>, theirs: &T, paper: &T) {
        if theirs != paper {
            self.unexplained(call, format_args!("the crate says {theirs:?}, document 01 {paper:?}"));
        }
    }

    /// Hands over what was found, and begins anew.
    pub fn take(&mut self) -> Findings {
        mem::take(self)
    }

    /// Adds what was found elsewhere, with a word about where.
    pub fn add(&mut self, place: &str, found: &Findings) {
        self.cases += found.cases;
        self.unexplained += found.unexplained;
        for (count, more) in self.known.iter_mut().zip(found.known) {
            *count += more;
        }
        let free = MOST_KEPT - self.first.len();
        self.first.extend(found.first.iter().take(free).map(|difference| format!("{place}: {difference}")));
    }

    /// The known differences by kind, and the first unexplained ones in words: a line each.
    pub fn lines(&self) -> String {
        let mut text = String::new();
        for kind in Known::ALL {
            let count = self.count_of(kind);
            if count > 0 {
                text += &format!("known: {}, {count} times: {}\n", kind.name(), kind.sentence());
            }
        }
        for difference in &self.first {
            text += &format!("unexplained: {difference}\n");
        }
        if self.unexplained > self.first.len() as u64 {
            text += &format!("and {} unexplained differences more\n", self.unexplained - self.first.len() as u64);
        }
        text
    }
}
