//! One call, three ways: the library has to answer what the paper says, in everything, and so has the crate wherever it answers.

mod aggregate;
mod listing;
mod message;
mod moves;
mod rows;
mod stream;
mod values;
mod walk;
mod writes;

use crate::findings::Findings;
use crate::lent::{Twins, byte_pattern};
use crate::paper::MOST_BYTES;
use crate::progress::Progress;
use rows::{MOST_ROWS, read_row_pattern, row_pattern};
use sindovaleph::calls::{ReadRow, Row};
use std::fmt::{Arguments, Debug};

pub use moves::Way;
pub use stream::{Cut, Refused, Streams};

/// The most bytes of a stream that is lent.
pub const MOST_STREAM: usize = 4 * MOST_BYTES;

/// How many cases pass between two looks at the clock.
const CASES_BETWEEN: u64 = 1024;

/// The memory that is lent, and what was found. One bench serves all cases.
pub struct Bench {
    /// What was found so far.
    pub findings: Findings,
    /// How far the work is.
    pub progress: Progress,
    /// How much of streams was compared.
    pub streams: Streams,
    join: Twins<u8>,
    room: Twins<u8>,
    buffer: Twins<u8>,
    given: Twins<u8>,
    rows: Twins<Row>,
    read_rows: Twins<ReadRow>,
    /// The value of the option that was found last.
    value: Vec<u8>,
}

impl Bench {
    /// A bench with nothing found yet.
    pub fn new() -> Bench {
        Bench {
            findings: Findings::default(),
            progress: Progress::new(),
            streams: Streams::default(),
            join: Twins::new(2 * MOST_BYTES, byte_pattern),
            room: Twins::new(MOST_BYTES + 1, byte_pattern),
            buffer: Twins::new(2 * MOST_BYTES, byte_pattern),
            given: Twins::new(MOST_STREAM, byte_pattern),
            rows: Twins::new(MOST_ROWS, row_pattern),
            read_rows: Twins::new(MOST_ROWS, read_row_pattern),
            value: Vec::new(),
        }
    }

    /// One more case: the library's answer has to be the paper's.
    fn same<T: PartialEq + Debug>(&mut self, call: Arguments<'_>, library: &T, paper: &T) {
        self.findings.cases += 1;
        if library != paper {
            self.findings.unexplained(call, format_args!("the library says {library:?}, the paper {paper:?}"));
        }
        if self.findings.cases.is_multiple_of(CASES_BETWEEN) {
            self.progress.tell(self.findings.cases, "cases");
        }
    }

    /// Lends bytes that are only to be read, and says how many.
    fn give(&mut self, bytes: &[u8]) -> usize {
        self.given.library(bytes.len()).copy_from_slice(bytes);
        self.given.paper(bytes.len()).copy_from_slice(bytes);
        bytes.len()
    }

    /// So many bytes that were lent to be read have to be as they were.
    fn is_as_given(&mut self, call: Arguments<'_>, len: usize) {
        if !self.given.settle(0..len, len) {
            self.findings.unexplained(call, format_args!("what was lent to be read is not as it was"));
        }
    }
}

impl Default for Bench {
    fn default() -> Bench {
        Bench::new()
    }
}
