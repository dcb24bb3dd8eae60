//! `compare/bench [--tsv | --before=TABLE] [FILE..]`: how fast the library and the crate are.

use compare::speed::arguments::{self, Wanted};
use compare::speed::measuring;
use std::process::ExitCode;

fn main() -> ExitCode {
    if cfg!(debug_assertions) {
        eprintln!("compare/bench: a debug build says nothing about speed: build with --release");
        return ExitCode::FAILURE;
    }
    let words: Vec<String> = std::env::args().skip(1).collect();
    let asked = arguments::parsed(&words);
    let (wanted, files) = match asked.and_then(|asked| arguments::all_there(&asked.1).map(|()| asked)) {
        Ok(asked) => asked,
        Err(sentence) => {
            eprintln!("compare/bench: {sentence}; see compare/bench --help");
            return ExitCode::from(2);
        }
    };
    let done = match wanted {
        Wanted::Page { before } => measuring::page(files, before.as_deref()),
        Wanted::Tsv => measuring::tsv(files),
        Wanted::Times => measuring::times(files),
        Wanted::Repeat { case, who, times } => measuring::repeat(&case, who, times, &files),
    };
    match done {
        Ok(()) => ExitCode::SUCCESS,
        Err(sentence) => {
            eprintln!("compare/bench: {sentence}");
            ExitCode::FAILURE
        }
    }
}
