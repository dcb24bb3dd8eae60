//! `compare/run [COUNT] [SEED]`: made inputs through the library, document 01's rules and the crate.

use compare::cases::Bench;
use compare::progress::say;
use compare::sweeps;
use std::process::ExitCode;

const DEFAULT_COUNT: u64 = 100_000;
const DEFAULT_SEED: u64 = 1;

/// The count and the seed, or a sentence about what is wrong.
fn arguments() -> Result<(u64, u64), String> {
    let given: Vec<String> = std::env::args().skip(1).collect();
    if given.len() > 2 {
        return Err(format!("at most a count and a seed are taken, {} arguments were given", given.len()));
    }
    let number = |at: usize, name: &str, usual: u64| match given.get(at) {
        None => Ok(usual),
        Some(word) => word.parse().map_err(|_| format!("the {name} has to be a number from 0 on, not `{word}`")),
    };
    Ok((number(0, "count", DEFAULT_COUNT)?, number(1, "seed", DEFAULT_SEED)?))
}

fn main() -> ExitCode {
    let (count, seed) = match arguments() {
        Ok(numbers) => numbers,
        Err(sentence) => {
            eprintln!("compare/run: {sentence}; see compare/run --help");
            return ExitCode::from(2);
        }
    };
    let mut bench = Bench::new();
    sweeps::whole(&mut bench);
    sweeps::random(&mut bench, count, seed);
    bench.progress.end();
    let found = &bench.findings;
    let verdict = format!("{} cases, {} unexplained differences\n", found.cases, found.unexplained);
    say(&(found.lines() + &bench.streams.line() + &verdict));
    ExitCode::from(u8::from(found.unexplained > 0))
}
