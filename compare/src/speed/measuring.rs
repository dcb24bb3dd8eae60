//! The program `compare/bench`: measures all cases, and says and writes what it found.

use super::arguments::TIMES;
use super::case::{Case, Who};
use super::clock::{self, Times};
use super::count::Counter;
use super::machine::Machine;
use super::page::Page;
use super::table::{self, Earlier, Row};
use super::{cases, growth};
use crate::progress::{Progress, say};
use std::collections::HashMap;
use std::env;
use std::fs;
use std::iter;
use std::path::{Path, PathBuf};
use std::process::{Command, Stdio};

/// The repository's root, and in it the page, the other build of this program, and the real messages.
const ROOT: &str = concat!(env!("CARGO_MANIFEST_DIR"), "/..");
const PAGE: &str = "docs/SPEED.md";
const LTO: &str = "target/compare/x86_64-unknown-linux-gnu/lto/bench";
const REAL: &str = "../shared/real";

/// The times of the sides, by the names of the cases.
type TimesByName = HashMap<String, [Option<Times>; 3]>;

/// What is measured by.
struct Bench {
    machine: Machine,
    counter: Option<Counter>,
    files: Vec<PathBuf>,
    progress: Progress,
    /// What cannot be measured, a sentence each.
    missing: Vec<String>,
}

/// The files of messages in the folder of real ones.
fn real_messages() -> Vec<PathBuf> {
    let Ok(folder) = fs::read_dir(Path::new(ROOT).join(REAL)) else { return Vec::new() };
    let mut files: Vec<PathBuf> = folder.flatten().map(|entry| entry.path()).collect();
    files.retain(|path| crate::stored::is_framed(path));
    files.sort();
    files
}

/// This program.
fn this_program() -> Result<PathBuf, String> {
    env::current_exe().map_err(|error| format!("the program does not know where it stands: {error}"))
}

impl Bench {
    /// What is at hand here. What is not is said.
    fn new(files: Vec<PathBuf>) -> Result<Bench, String> {
        let files = if files.is_empty() { real_messages() } else { files };
        let (machine, progress) = (Machine::here(), Progress::new());
        let counter = Counter::chosen(machine.emulates());
        let mut bench = Bench { machine, counter: None, files, progress, missing: Vec::new() };
        if bench.machine.emulates() {
            let kind = &bench.machine.kind;
            let what = "emulates the code, which is for x86-64: times would say nothing and are left out.";
            bench.lacks(format!("This machine ({kind}) {what}"));
        }
        if bench.files.is_empty() {
            bench.lacks(format!("There is no folder {REAL} with messages: no real message was measured."));
        }
        if let Some(why) = option_env!("NO_LIMIT") {
            bench.lacks(format!("There is no limit in C beside the crate: {why}."));
        }
        bench.take_counter(counter)?;
        Ok(bench)
    }

    /// Something cannot be measured.
    fn lacks(&mut self, sentence: String) {
        eprintln!("compare/bench: {sentence}");
        self.missing.push(sentence);
    }

    /// Takes the counter, if it counts.
    fn take_counter(&mut self, counter: Result<Counter, String>) -> Result<(), String> {
        let (program, cases) = (this_program()?, growth::cases());
        let tried = counter.and_then(|counter| {
            cases.first().map_or(Ok(0.0), |case| counter.count(&program, case, Who::Library, &[])).map(|_| counter)
        });
        match tried {
            Ok(counter) => self.counter = Some(counter),
            Err(why) => self.lacks(format!("Instructions could not be counted: {why}.")),
        }
        Ok(())
    }

    /// The instructions of each side of a case, by a build of this program.
    fn counts(&self, program: &Path, case: &Case) -> Result<[Option<f64>; 3], String> {
        let mut counts = [None; 3];
        let Some(counter) = &self.counter else { return Ok(counts) };
        for who in Who::ALL.into_iter().filter(|&who| case.has(who)) {
            counts[who as usize] = Some(counter.count(program, case, who, &self.files)?);
        }
        Ok(counts)
    }

    /// The rows of some cases by this build.
    fn rows(&mut self, work: &str, cases: &mut [Case]) -> Result<Vec<Row>, String> {
        let program = this_program()?;
        cases.iter_mut().try_for_each(Case::agree)?;
        let all = cases.len();
        let times = if self.machine.emulates() {
            vec![[None; 3]; all]
        } else {
            clock::times(cases, |over| self.tell(&format!("{work}, times"), over, clock::VISITS * all, "visits"))
        };
        let mut rows = Vec::new();
        for (case, times) in cases.iter().zip(times) {
            self.tell(work, rows.len(), all, "cases");
            rows.push(Row::new(case, times, self.counts(&program, case)?));
        }
        Ok(rows)
    }

    /// The rows of some cases by the other build, which has no targets. Where it is not there, there are none.
    fn rows_with_lto(&mut self, cases: &[Case]) -> Result<Vec<Row>, String> {
        let program = Path::new(ROOT).join(LTO);
        if !program.is_file() {
            self.lacks(format!("There is no program {LTO}: the crate with fat LTO was not measured."));
            return Ok(Vec::new());
        }
        let times = if self.machine.emulates() { TimesByName::new() } else { asked_for_times(&program, &self.files)? };
        let mut rows = Vec::new();
        for case in cases {
            self.tell("with fat LTO", rows.len(), cases.len(), "cases");
            let row = Row::new(case, times.get(&case.name).copied().unwrap_or_default(), self.counts(&program, case)?);
            rows.push(row.without_targets());
        }
        Ok(rows)
    }

    fn tell(&mut self, work: &str, done: usize, all: usize, what: &str) {
        self.progress.begin(work);
        self.progress.tell(done as u64, &format!("of {all} {what}"));
    }
}

/// A table for programs of an earlier measurement, and what it is called: its file's name.
pub struct Before {
    pub name: String,
    pub rows: Vec<Earlier>,
}

impl Before {
    fn read(path: &Path) -> Result<Before, String> {
        let text = fs::read_to_string(path).map_err(|error| format!("{} cannot be read: {error}", path.display()))?;
        let rows = table::earlier(&text).map_err(|why| format!("{}: {why}", path.display()))?;
        Ok(Before { name: path.file_stem().unwrap_or_default().to_string_lossy().into_owned(), rows })
    }
}

/// Another build's times.
fn asked_for_times(program: &Path, files: &[PathBuf]) -> Result<TimesByName, String> {
    let failed = |why: String| format!("{} gave no times: {why}", program.display());
    let output = Command::new(program).arg(TIMES).args(files).stderr(Stdio::inherit()).output();
    let output = output.map_err(|error| failed(error.to_string()))?;
    if !output.status.success() {
        return Err(failed(output.status.to_string()));
    }
    let text = String::from_utf8_lossy(&output.stdout);
    text.lines().map(|line| told(line).ok_or_else(|| failed(format!("`{line}`")))).collect()
}

/// The times of a case as a line, and such a line read again. A side that is not there has empty cells.
fn line(name: &str, times: [Option<Times>; 3]) -> String {
    let numbers = times.map(|times| times.map_or("\t".into(), |times| format!("{}\t{}", times.best, times.median)));
    format!("{name}\t{}\n", numbers.join("\t"))
}

fn told(line: &str) -> Option<(String, [Option<Times>; 3])> {
    let cells: Vec<&str> = line.split('\t').collect();
    let [name, numbers @ ..] = cells.as_slice() else { return None };
    let pair = |best: &str, median: &str| match (best, median) {
        ("", "") => Some(None),
        _ => Some(Some(Times { best: best.parse().ok()?, median: median.parse().ok()? })),
    };
    match numbers {
        [a, b, c, d, e, f] => Some((name.to_string(), [pair(a, b)?, pair(c, d)?, pair(e, f)?])),
        _ => None,
    }
}

/// Rows for programs: all cases.
pub fn tsv(files: Vec<PathBuf>) -> Result<(), String> {
    let mut bench = Bench::new(files)?;
    let plain = bench.rows("library and crate", &mut cases(&bench.files)?)?;
    let growth = bench.rows("growth", &mut growth::cases())?;
    bench.progress.end();
    let rows: Vec<Row> = plain.into_iter().chain(growth).collect();
    say(&table::tsv(&rows));
    Ok(())
}

/// The tables for readers, on standard output and as the page.
pub fn page(files: Vec<PathBuf>, before: Option<&Path>) -> Result<(), String> {
    let before = before.map(Before::read).transpose()?;
    let mut bench = Bench::new(files)?;
    let mut cases = cases(&bench.files)?;
    let plain = bench.rows("library and crate", &mut cases)?;
    let lto = bench.rows_with_lto(&cases)?;
    let growth = bench.rows("growth", &mut growth::cases())?;
    bench.progress.end();
    let Bench { machine, missing, .. } = &bench;
    let (counter, before) = (bench.counter.as_ref().map(|counter| counter.name), before.as_ref());
    let page = Page { machine, counter, plain: &plain, lto: &lto, growth: &growth, before, missing };
    let path = Path::new(ROOT).join(PAGE);
    fs::write(&path, page.text()).map_err(|error| format!("{} cannot be written: {error}", path.display()))?;
    say(&page.text());
    say(&format!("\n{}\n{PAGE} is written\n", verdict(&plain, &growth)));
    Ok(())
}

/// How many cases have a target, and which are above it, by their times and by their instructions.
fn verdict(plain: &[Row], growth: &[Row]) -> String {
    let all = || [plain, growth].into_iter().flat_map(|rows| rows.iter().map(move |row| (row, rows)));
    let judged = |by: &str, ratio: fn(&Row, &[Row]) -> Option<f64>, target: fn(&Row) -> Option<f64>| {
        let judged: Vec<(&str, bool)> =
            all().filter_map(|(row, rows)| Some((row.name.as_str(), ratio(row, rows)? > target(row)?))).collect();
        let above: Vec<&str> = judged.iter().filter(|(_, above)| *above).map(|(name, _)| *name).collect();
        let names = if above.is_empty() { String::new() } else { format!(": {}", above.join("; ")) };
        format!("by {by} {} have a target, {} above it{names}", judged.len(), above.len())
    };
    let times = judged("time", table::ratio_of_times, |row| row.target);
    let counts = judged("instructions", table::ratio_of_counts, |row| row.count_target);
    format!("{} cases; {times}; {counts}", all().count())
}

/// The times alone, a line a case.
pub fn times(files: Vec<PathBuf>) -> Result<(), String> {
    let mut progress = Progress::new();
    progress.begin("with fat LTO, times");
    let mut cases = cases(&files)?;
    cases.iter_mut().try_for_each(Case::agree)?;
    let all = clock::VISITS * cases.len();
    let times = clock::times(&mut cases, |over| progress.tell(over as u64, &format!("of {all} visits")));
    cases.iter().zip(times).for_each(|(case, times)| say(&line(&case.name, times)));
    progress.end();
    Ok(())
}

/// One side of a case, so many times.
pub fn repeat(case: &str, who: Who, times: u64, files: &[PathBuf]) -> Result<(), String> {
    let mut all = cases(files)?.into_iter().chain(iter::once_with(growth::cases).flatten());
    let mut case = all.find(|other| other.name == case).ok_or(format!("there is no case `{case}`"))?;
    case.repeat(who, times);
    Ok(())
}

#[cfg(test)]
mod tests {
    use super::*;

    #[test]
    fn a_line_of_times_is_read_again() {
        let times = [Some(Times { best: 1.25, median: 2.5 }), Some(Times { best: 0.5, median: 1e6 }), None];
        assert_eq!(told(line("two words", times).trim_end_matches('\n')), Some(("two words".into(), times)));
        assert_eq!(told("name\t1\t2\t3\t4"), None);
        assert_eq!(told("name\t1\t2\t3\tx\t\t"), None);
        assert_eq!(told("name\t1\t2\t3\t\t\t"), None);
    }

    #[test]
    fn an_earlier_table_that_is_not_there_is_said() {
        assert!(
            Before::read(Path::new("/no/such.tsv")).is_err_and(|why| why.starts_with("/no/such.tsv cannot be read"))
        );
    }
}
