//! `compare/replay PATH..`: stored messages through the library, document 01's rules and the crate.

use compare::cases::Bench;
use compare::findings::Findings;
use compare::modes;
use compare::progress::say;
use compare::senders::{self, Index};
use compare::stored::{self, Stored};
use compare::streamed::Streamed;
use compare::table::Table;
use std::path::{Path, PathBuf};
use std::process::ExitCode;

/// What the replay has done so far.
#[derive(Default)]
struct Replay {
    bench: Bench,
    table: Table,
    found: Findings,
    streamed: Streamed,
}

impl Replay {
    /// One message: compared, entered in the table, and kept for the stream.
    fn message(&mut self, file: &str, index: &Index, message: &Stored<'_>) {
        self.bench.message(message.bytes, &[0, 1, message.bytes.len() / 2]);
        self.bench.whole_aggregate(message.bytes);
        let found = self.bench.findings.take();
        self.found.add(&format!("{file} {}", message.number), &found);
        self.table.add(senders::sender(index, message), message.number, &found, &modes::ways(message.bytes));
        self.streamed.add(message.bytes);
        self.bench.progress.tell(self.table.messages, "messages");
    }

    /// One file; false where something of it could not be compared, which is said.
    fn file(&mut self, path: &Path) -> bool {
        let name = path.display().to_string();
        let say = |sentence: &str| eprintln!("compare/replay: {name} {sentence}");
        self.bench.progress.begin(&name);
        self.table.begin_file(path.file_name().map_or(name.clone(), |last| last.to_string_lossy().into_owned()));
        let index = Index::beside(path).unwrap_or_else(|sentence| {
            eprintln!("compare/replay: {sentence}");
            Index::default()
        });
        let troubles = stored::each_message(path, &mut |message| self.message(&name, &index, &message));
        self.bench.progress.end();
        troubles.iter().for_each(|sentence| say(sentence));
        troubles.is_empty()
    }

    /// The tables, the differences, what came of the stream, and the verdict, with how many files could not be compared whole.
    fn report(&mut self, troubled: usize) -> String {
        let stream = self.streamed.line(&mut self.found);
        let (messages, unexplained) = (self.table.messages, self.found.unexplained);
        let not_whole = if troubled > 0 { format!(", {troubled} files not compared whole") } else { String::new() };
        let verdict = format!("{messages} messages, {unexplained} unexplained differences{not_whole}\n");
        self.table.lines() + &self.found.lines() + &self.table.ways() + &stream + &verdict
    }
}

fn main() -> ExitCode {
    let paths: Vec<PathBuf> = std::env::args_os().skip(1).map(PathBuf::from).collect();
    if paths.is_empty() {
        eprintln!("compare/replay: no file is named; see compare/replay --help");
        return ExitCode::from(2);
    }
    let mut replay = Replay::default();
    let troubled = paths.iter().filter(|path| !replay.file(path)).count();
    say(&replay.report(troubled));
    ExitCode::from(u8::from(troubled > 0 || replay.found.unexplained > 0))
}
