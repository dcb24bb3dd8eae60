//! Runs the smallest input of every known difference through the crate and the port, and prints a row for each.
//! It fails where an answer is not the row's, and where docs/DIFFERENCES.md lacks a row or has one that was not run.

use compare::differences::{MATTERS, Row};
use std::process::ExitCode;

/// The document that shows the rows.
const DOCUMENT: &str = include_str!("../../../docs/DIFFERENCES.md");

/// The head of each table.
const HEAD: &str = "\
| difference | smallest input | the crate | document 01 and the port | RFC, section | fault |
|---|---|---|---|---|---|";

fn main() -> ExitCode {
    if std::env::args().len() > 1 {
        eprintln!("differences takes no arguments: it runs the smallest input of every known difference");
        return ExitCode::from(2);
    }
    let mut lines = Vec::new();
    let mut wrong = 0;
    for matter in &MATTERS {
        println!("## {}\n\n{HEAD}", matter.title);
        for row in matter.rows {
            wrong += usize::from(!holds(row));
            lines.push(row.line());
        }
        println!();
    }
    wrong += not_run(&lines);
    println!("{} differences in a {} build, {wrong} not as they are told", lines.len(), build());
    if wrong == 0 { ExitCode::SUCCESS } else { ExitCode::FAILURE }
}

/// Prints a row, and what is wrong with it.
fn holds(row: &Row) -> bool {
    let line = row.line();
    let mut wrong = row.wrong();
    if !DOCUMENT.lines().any(|told| told == line) {
        wrong.push("docs/DIFFERENCES.md lacks this row".into());
    }
    println!("{line}");
    for what in &wrong {
        println!("wrong: {}: {what}", row.name);
    }
    wrong.is_empty()
}

/// How many rows of the document are not among these.
fn not_run(lines: &[String]) -> usize {
    let rows = DOCUMENT.lines().filter(|told| told.starts_with("| ") && !HEAD.starts_with(told));
    let unknown = rows.filter(|told| !lines.iter().any(|line| line == told));
    unknown.map(|told| println!("wrong: docs/DIFFERENCES.md has a row that was not run: {told}")).count()
}

fn build() -> &'static str {
    if cfg!(debug_assertions) { "debug" } else { "release" }
}
