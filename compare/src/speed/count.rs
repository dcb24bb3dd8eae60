//! The instructions of a side: a command runs this program and says how many instructions that took.

use super::case::{Case, Who};
use std::env;
use std::path::{Path, PathBuf};
use std::process::Command;

/// The variable that names another command.
const VARIABLE: &str = "COUNTER";

/// The usual command.
const VALGRIND: &str = "valgrind --tool=callgrind --callgrind-out-file=/dev/null";

/// The variable that names the command which runs programs for x86-64 elsewhere, the same that cargo looks at, and the usual one.
const RUNNER: &str = "CARGO_TARGET_X86_64_UNKNOWN_LINUX_GNU_RUNNER";
const EMULATOR: &str = "qemu-x86_64";

/// What stands before the number.
const MARK: &str = "Collected :";

/// The argument of this program that asks for repetitions and nothing else.
pub const REPEAT: &str = "--repeat";

/// About how many bytes all repetitions go over, and the most repetitions.
const BYTES: usize = 200_000;
const MOST: usize = 2_000;

/// A command that runs a program and prints `Collected : N`.
pub struct Counter {
    /// What it is, in words.
    pub name: &'static str,
    words: Vec<String>,
}

impl Counter {
    /// The command that the variable names, or the usual one; where the code is emulated that is the emulator with our counter in it.
    pub fn chosen(emulated: bool) -> Result<Counter, String> {
        match env::var(VARIABLE) {
            Ok(command) => Ok(Counter::new("the command that COUNTER names", &command)),
            Err(_) if emulated => emulator(),
            Err(_) => Ok(Counter::new("valgrind's callgrind", VALGRIND)),
        }
    }

    fn new(name: &'static str, command: &str) -> Counter {
        Counter { name, words: command.split_whitespace().map(String::from).collect() }
    }

    /// The instructions of a program that repeats one side of a case.
    fn run(&self, program: &Path, case: &str, who: Who, times: usize, files: &[PathBuf]) -> Result<u64, String> {
        let (first, rest) = self.words.split_first().ok_or(format!("{VARIABLE} is empty"))?;
        let mut command = Command::new(first);
        command.args(rest).arg(program).args([REPEAT, case, who.name(), &times.to_string()]).args(files);
        let output = command.output().map_err(|error| format!("{first} cannot be run: {error}"))?;
        let text = [output.stdout, output.stderr].map(|bytes| String::from_utf8_lossy(&bytes).into_owned()).concat();
        collected(&text).ok_or_else(|| {
            let last = text.lines().last().map_or("nothing".into(), |line| format!("`{line}`"));
            format!("{first} says no `{MARK} N`; its last word is {last}")
        })
    }

    /// The instructions of one repetition: what three times as many take more, so that the program's begin and end fall out.
    pub fn count(&self, program: &Path, case: &Case, who: Who, files: &[PathBuf]) -> Result<f64, String> {
        let times = (BYTES / case.size.bytes.max(1)).clamp(1, MOST);
        let few = self.run(program, &case.name, who, times, files)?;
        let many = self.run(program, &case.name, who, 3 * times, files)?;
        Ok((many as f64 - few as f64) / (2 * times) as f64)
    }
}

/// The emulator with our counter in it, where that was built. The counter's path is one word, whatever stands in it.
fn emulator() -> Result<Counter, String> {
    let runner = env::var(RUNNER).unwrap_or(EMULATOR.into());
    let plugin = option_env!("COUNTER_PLUGIN").ok_or(option_env!("NO_COUNTER").unwrap_or("no counter was built"))?;
    let mut counter = Counter::new("QEMU, which emulates, with compare/counter in it", &runner);
    counter.words.extend(["-plugin", plugin].map(String::from));
    Ok(counter)
}

/// The number behind the last mark in a text.
fn collected(text: &str) -> Option<u64> {
    let marked = |line: &'_ str| line.split_once(MARK).map(|(_, number)| number.to_string());
    text.lines().rev().find_map(marked)?.trim().replace(',', "").parse().ok()
}

#[cfg(test)]
mod tests {
    use super::*;
    use crate::speed::case::{Side, Sink};

    struct Nothing;

    impl Side for Nothing {
        fn run(&mut self, _: &mut impl Sink) {}
    }

    /// A command of the shell; the program's path is its first argument, `--repeat`, the case, the side and the count follow.
    fn stub(script: &str) -> Counter {
        Counter { name: "the shell", words: ["sh", "-c", script].map(String::from).into() }
    }

    fn counted(script: &str) -> Result<f64, String> {
        let case = Case::new("two words", 1_000, Nothing, Nothing);
        stub(script).count(Path::new("program"), &case, Who::Crate, &[PathBuf::from("file")])
    }

    #[test]
    fn what_a_stub_says_is_counted() {
        assert_eq!(counted("echo \"==7== Collected : $((1000 + 7 * $4))\" >&2"), Ok(7.0));
        let all = "test \"$0 $1 $2 $3 $5\" = 'program --repeat two words crate file' && echo \"Collected : $4\"";
        assert_eq!(counted(all), Ok(1.0));
    }

    #[test]
    fn a_command_that_does_not_count_is_said() {
        assert!(counted("echo hello").is_err_and(|sentence| sentence.contains("its last word is `hello`")));
        let case = Case::new("name", 1, Nothing, Nothing);
        let missing =
            Counter::new("nobody", "no-such-command --at all").count(Path::new("x"), &case, Who::Library, &[]);
        assert!(missing.is_err_and(|sentence| sentence.starts_with("no-such-command ")));
    }

    #[test]
    fn the_number_is_found() {
        assert_eq!(collected("==1== Events    : Ir\n==1== Collected : 1234567\n==1==\n"), Some(1_234_567));
        assert_eq!(collected("Collected : many"), None);
    }
}
