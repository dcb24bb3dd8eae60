//! Where the crate, document 01, the RFCs and the port part: a row for each difference, with its smallest input.
//! The rows are what docs/DIFFERENCES.md shows. A run asks both sides and holds the answers against the rows.

mod aggregate;
mod header;
mod input;
mod ours;
mod outside;
mod reading;
mod routes;
mod theirs;
mod walk;
mod writing;

pub use input::{Input, Part, Path};

/// What the crate answers. Debug assertions make a debug build panic where a release build goes on.
pub struct Crate {
    pub debug: &'static str,
    pub release: &'static str,
}

/// The crate answers the same in both builds.
const fn always(answer: &'static str) -> Crate {
    Crate { debug: answer, release: answer }
}

/// A debug build panics.
const fn panics_in_debug(release: &'static str) -> Crate {
    Crate { debug: "panics", release }
}

/// A difference: its name, its smallest input, and what each side says.
pub struct Row {
    pub name: &'static str,
    pub input: Input,
    pub theirs: Crate,
    /// What document 01 says, which the port answers.
    pub ours: &'static str,
    /// What an RFC says, with its number and section.
    pub rfc: &'static str,
    /// Why the crate's behaviour is a fault; empty where it is none.
    pub fault: &'static str,
}

/// The rows of one matter.
pub struct Matter {
    pub title: &'static str,
    pub rows: &'static [Row],
}

/// All rows.
pub const MATTERS: [Matter; 7] = [
    Matter { title: "The walk", rows: walk::ROWS },
    Matter { title: "The header", rows: header::ROWS },
    Matter { title: "RFC 3396's reading", rows: aggregate::ROWS },
    Matter { title: "Typed reading", rows: reading::ROWS },
    Matter { title: "Writing", rows: writing::ROWS },
    Matter { title: "Routes", rows: routes::ROWS },
    Matter { title: "Beside the port", rows: outside::ROWS },
];

impl Row {
    /// The row as a line of a table in docs/DIFFERENCES.md.
    pub fn line(&self) -> String {
        let Row { name, input, ours, rfc, fault, .. } = self;
        format!("| {name} | {input} | {} | {ours} | {rfc} | {fault} |", self.theirs.line())
    }

    /// What is wrong with the row, after asking the crate and the port.
    pub fn wrong(&self) -> Vec<String> {
        let theirs = theirs::answer(&self.input);
        let ours = ours::answer(&self.input);
        let mut wrong = Vec::new();
        if theirs != self.theirs.here() {
            wrong.push(format!("the crate says `{theirs}` and the row `{}`", self.theirs.here()));
        }
        if ours != self.ours {
            wrong.push(format!("the port says `{ours}` and the row `{}`", self.ours));
        }
        wrong
    }
}

impl Crate {
    /// What is expected of the build that runs.
    fn here(&self) -> &'static str {
        if cfg!(debug_assertions) { self.debug } else { self.release }
    }

    /// Both builds' answers; one where they are the same.
    fn line(&self) -> String {
        if self.debug == self.release {
            self.debug.into()
        } else {
            format!("debug: {}; release: {}", self.debug, self.release)
        }
    }
}
