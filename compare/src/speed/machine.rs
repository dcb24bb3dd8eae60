//! What a measurement was made on, and by which compilers.

use std::fs;
use std::process::Command;
use std::thread;

/// The processor that the code is made for.
const MADE_FOR: &str = "x86_64";

/// The machine, the day and the compilers.
pub struct Machine {
    /// The processor's kind.
    pub kind: String,
    pub processor: String,
    pub cores: usize,
    pub date: String,
    /// The compiler of the crate and of this program, and that of the library.
    pub rustc: String,
    pub rattle: String,
}

/// What a command says, where it is there and well.
fn said(command: &str, words: &[&str]) -> Option<String> {
    let output = Command::new(command).args(words).output().ok().filter(|output| output.status.success())?;
    Some(String::from_utf8_lossy(&output.stdout).trim().to_string())
}

/// What stands behind a name and a colon, where that is anything.
fn behind(text: &str, name: &str) -> Option<String> {
    let value = |line: &str| Some(line.split_once(':').filter(|(key, _)| key.trim() == name)?.1.trim().to_string());
    text.lines().find_map(value).filter(|value| !value.is_empty() && value != "-")
}

impl Machine {
    /// This one. An emulated program asks by a command, which is the machine's own.
    pub fn here() -> Machine {
        let unknown = || "unknown".to_string();
        let kind = said("uname", &["-m"]).unwrap_or(MADE_FOR.into());
        let cpuinfo = fs::read_to_string("/proc/cpuinfo").unwrap_or_default();
        let lscpu = || said("lscpu", &[]).and_then(|text| behind(&text, "Model name"));
        let rustc = std::env::var("RUSTC").unwrap_or("rustc".into());
        Machine {
            processor: behind(&cpuinfo, "model name").or_else(lscpu).unwrap_or_else(unknown),
            kind,
            cores: thread::available_parallelism().map_or(1, usize::from),
            date: said("date", &["+%Y-%m-%d"]).unwrap_or_else(unknown),
            rustc: said(&rustc, &["--version"]).unwrap_or_else(unknown),
            rattle: said("rt", &["version"]).unwrap_or_else(unknown),
        }
    }

    /// Whether the code that is measured is emulated here, so that times say nothing.
    pub fn emulates(&self) -> bool {
        self.kind != MADE_FOR
    }
}

#[cfg(test)]
mod tests {
    use super::*;

    #[test]
    fn names_are_found() {
        let text = "processor\t: 0\nmodel name\t: Some Xeon: fast\n";
        assert_eq!(behind(text, "model name"), Some("Some Xeon: fast".into()));
        assert_eq!(behind("Model name:   Neoverse-N1\n", "Model name"), Some("Neoverse-N1".into()));
        assert_eq!(behind("Model name:   -\n", "Model name"), None);
        assert_eq!(behind(text, "model"), None);
    }

    #[test]
    fn a_command_that_is_missing_says_nothing() {
        assert_eq!(said("no-such-command", &[]), None);
        assert_eq!(said("false", &[]), None);
        assert_eq!(said("echo", &["a", "b"]), Some("a b".into()));
    }
}
