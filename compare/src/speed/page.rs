//! The page docs/SPEED.md.

use super::machine::Machine;
use super::measuring::Before;
use super::table::{self, Row};

/// What the page shows.
pub struct Page<'a> {
    pub machine: &'a Machine,
    /// What counted the instructions.
    pub counter: Option<&'a str>,
    pub plain: &'a [Row],
    pub lto: &'a [Row],
    pub growth: &'a [Row],
    pub before: Option<&'a Before>,
    /// What could not be measured, a sentence each.
    pub missing: &'a [String],
}

/// How the page begins.
const BEGIN: &str = "\
# How fast the library is, beside the crate

`compare/bench` measures this page and writes it. The library (the calls of `rust/src/calls.rs`) and the crate dhcproto 0.15.0 run
in one process on the same inputs; their answers are compared first. Where the work has a limit, it stands beside them: the same
checks and answers by hand-written C, `compare/limit/limit.c`. The sides take turns, 34 rounds each in each of three visits: `ns` is
the time of one repetition in the best round, `median` that of the round in the middle. The ratio is the library's best by the
crate's, so below 1 the library is faster. Instructions are counted by another program that runs each side alone.
";

/// The state of the memory that is used.
const BUFFERS: &str = "\
Memory: what is lent to the library (the join, the rows, the room) is lent again and again, so it is warm; so are the inputs. The
crate's vector, into which it writes, is cleared and has its capacity already; where the crate joins parts or reads a list or a text it
allocates, as it always does. Rows to be written and the crate's routes are made before. A long value and what it is written into stand a
quarter of a page or more from each other, by their places in a page.

Inputs: the message of twelve options has 325 bytes, 85 of them its area: 53 54 51 58 59 1 3 6 15 28 12 42 and End, with usual
values. The option that is joined has parts of 255 bytes and a last one of 180; with four parts its message has 1,200 bytes. The
empty parts are one option, in an area of 4,096 bytes. Before a walk the library's side looks at the length and at the magic as the
crate's `new` and `opts` do, and so does the limit's. \"Find\" and \"entries\" are RFC 3396's reading, the mode beside the walk: the
option of a code, and rows of all codes, over all fields that hold options; \"walk to\" is what the walk takes to the same option. The
crate has no such reading: its side goes over all that its walk gives, and gathers the values of the code, or the lengths by code.
Texts are ASCII, or characters of one, two, three and four bytes in turn; Rust's own `from_utf8` is held against the library there,
and a static table behind a call for the kinds. \"The safe crate\" is what a service calls: `Message::new` and its fields, `opts`, `find`
and `read` of the crate `sindovaleph`, over those calls; of the hardware address it takes the bytes that lie in its field.

\"Stream\" is what one message out of a stream over TCP costs (RFC 6926). It stands in one chunk, in which others follow, and takes one
call of `receive`; \"cut\" it comes in two chunks of about the same length, and takes two calls. The safe crate's `Stream` also reads
the header of what it hands out. The crate has no such reader: its columns are a plain `copy_from_slice` of the same bytes into such a
buffer, in one piece or in two, by one who knows where the message begins and how long it is. So the ratio says how many such copies a
message costs, and there is no target. The stream has about 20,000 bytes, or two messages of 65,535; it begins at a page, and the buffer
in the middle of one. A long copy can be one instruction that is repeated: it is counted for each byte.

A profile is 450 pairs of option 33, 3,600 bytes: networks of the three classes in turn, which are 3,150 bytes as routes of option 121;
or hosts, which are 4,050. To read it is to join option 121, to count its routes and to read each by a call of `route_from`; the crate's
side is its walk and its own type of the option, whose destinations have no bits to mask here. To move it is one call of `move_out` or
of `move_back`, or one of each: all rows are checked, and the other option is written. The crate has no moves: its columns are the
library's own writing of the same bytes as values, by `write_bytes` of the routes to code 121, of the pairs to code 33, or of both. Such
a value is copied many bytes at a time, while a move looks at each row; the ratio says how many such writes a move costs, and there is no
target. A profile begins at a page, and the room in the middle of one.
";

/// What stands before the table of what was before.
const BEFORE: &str = "\
What `compare/bench --tsv` said of an earlier commit, on the same machine, beside what is measured now. In the second table ratios are
against the area of the twelve options. The earlier commit is ";

/// What stands before the table of the other build.
const LTO: &str = "\
## The crate with fat LTO

The same with another build of the same program, in which the crate's functions can be inlined into it (`lto = \"fat\"`, the profile
`lto` of `compare/Cargo.toml`). The library's archives are machine code and stay as they are. There are no targets here.
";

/// What stands before the table of growth.
const GROWTH: &str = "\
## How the cost grows

Areas of 64 to 65,535 bytes, each full of one thing, walked from the begin to the first stop: by a call of `step` for each option, or by
one call of `list` with rows that are then read. The numbers are the library's, a unit of the area; the ratio is that cost against the
cost a unit of the area of the twelve options, walked the same way. The unit is a byte; of empty options, which cost what options cost
and are shorter, it is an option. These, and options of one byte, are of two codes in turn, \"empty parts\" are one option of very many parts,
\"cut\" is the same with a last part that is not whole, and \"parts of 255\" are one option that `step` joins. The crate stands beside it
for who wants to know; there is no target between them here.

Behind them stands RFC 3396's reading of whole messages, by one call of `find` for the last code or by one call of `entries`. The
ratio is against the message of the twelve options, read the same way, and the unit is a byte of the fields that are read. The
others have 65,535 bytes: 32,647 empty parts of one code; a part of 255 bytes of each code; and empty parts of all 254 codes in turn,
32,638 of them. In the latter two, option 52 names file and sname too, which are Pads. The crate's side is gathered by hand, as above.

The last rows are profiles of networks: 51 pairs, and 510, the most that go both ways. The ratio is against the former, moved or read
the same way, and the unit is a byte of the pairs, or of the routes that are read. The crate's columns are as above.
";

/// How to read it.
const READING: &str = "\
## How to read this

Look at the ratio and at the target beside it: a case is as fast as was aimed at where the ratio is not above the target. Times and
instructions have targets of their own. Times of the same run can be held against each other; those of two runs, or of two machines,
hardly: where the linker puts a loop moves it by a tenth or two, on any side, and what takes less than 5 ns by more. Instructions
hardly change from run to run, so they tell whether a change of the code made a difference. A ratio of instructions is no ratio of
times: instructions that wait for each other or for memory take longer than others. What copies and allocates memory for the crate is
the C library's, which chooses it by the processor. In the last table the numbers of a shape should stay about the same as the area
gets longer: then the work grows as the area does, and no message costs more than its length.
";

impl Page<'_> {
    /// The day, the machine and the compilers.
    fn made_on(&self) -> String {
        let Machine { kind, processor, cores, date, rustc, rattle } = self.machine;
        let limit =
            option_env!("LIMIT_COMPILER").map_or(String::new(), |compiler| format!("- The limit: {compiler}.\n"));
        let counter = self.counter.map_or(String::new(), |name| format!("- Instructions: counted by {name}.\n"));
        format!(
            "Measured on {date}.\n\n- The machine: {processor} ({kind}), {cores} cores.\n\
             - The crate, and the program that measures: {rustc}.\n\
             - Their build: release, one codegen unit, no LTO.\n- The library: {rattle}.\n{limit}{counter}"
        )
    }

    /// What an earlier measurement says, where there is one.
    fn beside_before(&self) -> String {
        let Some(Before { name, rows }) = self.before else { return String::new() };
        let all: Vec<String> = [self.plain, self.growth].map(|now| table::before(now, rows)).into();
        format!("## Before and now\n\n{}{name}.\n\n{}\n", BEFORE, all.join("\n"))
    }

    /// The whole text.
    pub fn text(&self) -> String {
        let missing: String = self.missing.iter().map(|sentence| format!("\n**{sentence}**\n")).collect();
        let plain = table::readable(self.plain);
        let growth = table::growth(self.growth);
        let lto = if self.lto.is_empty() { String::new() } else { format!("{LTO}\n{}\n", table::readable(self.lto)) };
        let (made_on, before) = (self.made_on(), self.beside_before());
        let first =
            format!("{BEGIN}\n{made_on}{missing}\n{BUFFERS}\n## The library, the crate and the limit\n\n{plain}\n");
        format!("{first}{before}{lto}{GROWTH}\n{growth}\n{READING}")
    }
}

#[cfg(test)]
mod tests {
    use super::*;

    #[test]
    fn a_page_says_all_that_it_is_made_of() {
        let word = |word: &str| word.to_string();
        let (kind, processor, date) = (word("x86_64"), word("Some Xeon"), word("2026-11-15"));
        let machine = Machine { kind, processor, cores: 4, date, rustc: word("rustc 9"), rattle: word("kit 1") };
        let missing = [word("Nothing was counted.")];
        let before = Before { name: word("commit"), rows: Vec::new() };
        let page = Page {
            machine: &machine,
            counter: Some("hand"),
            plain: &[],
            lto: &[],
            growth: &[],
            before: Some(&before),
            missing: &missing,
        };
        let text = page.text();
        for part in [
            "2026-11-15",
            "Some Xeon (x86_64), 4 cores",
            "rustc 9",
            "kit 1",
            "counted by hand.",
            "is commit.",
            "**Nothing was counted.**",
            READING,
        ] {
            assert!(text.contains(part), "{part}");
        }
        assert!(!text.contains("## The crate with fat LTO"));
        assert!(text.lines().all(|line| line.starts_with('|') || line.len() <= 140));
    }
}
