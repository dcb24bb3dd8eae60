//! What `compare/bench` is asked.

use super::case::Who;
use super::count::REPEAT;
use std::path::PathBuf;

/// The argument by which the program asks another build of itself for its times.
pub const TIMES: &str = "--times";

/// The argument that names an earlier table for programs.
const BEFORE: &str = "--before=";

/// What is wanted.
#[derive(Debug, PartialEq)]
pub enum Wanted {
    /// The readable tables, and the page, beside an earlier table where one is named.
    Page { before: Option<PathBuf> },
    /// Rows for programs.
    Tsv,
    /// The times alone, for the program itself.
    Times,
    /// Repetitions of one side of a case and nothing else, for what counts instructions.
    Repeat { case: String, who: Who, times: u64 },
}

/// What is wanted, and the files of messages that are named.
pub fn parsed(words: &[String]) -> Result<(Wanted, Vec<PathBuf>), String> {
    if let [first, case, side, times, files @ ..] = words
        && first == REPEAT
    {
        let who = Who::ALL.into_iter().find(|who| who.name() == side).ok_or(format!("`{side}` is no side"))?;
        let times = times.parse().map_err(|_| format!("`{times}` is no number of repetitions"))?;
        return Ok((Wanted::Repeat { case: case.clone(), who, times }, files.iter().map(PathBuf::from).collect()));
    }
    let mut wanted = None;
    let mut before = None;
    let mut files = Vec::new();
    for word in words {
        match word.as_str() {
            "--tsv" => wanted = Some(Wanted::Tsv),
            TIMES => wanted = Some(Wanted::Times),
            option if option.starts_with(BEFORE) => before = Some(PathBuf::from(&option[BEFORE.len()..])),
            option if option.starts_with('-') => {
                return Err(format!("`{option}` is no option; there are --tsv and {BEFORE}FILE"));
            }
            file => files.push(PathBuf::from(file)),
        }
    }
    match (wanted, before) {
        (Some(_), Some(_)) => Err(format!("{BEFORE}FILE is for the page, and not for --tsv")),
        (Some(wanted), None) => Ok((wanted, files)),
        (None, before) => Ok((Wanted::Page { before }, files)),
    }
}

/// The files have to be there.
pub fn all_there(files: &[PathBuf]) -> Result<(), String> {
    match files.iter().find(|path| !path.is_file()) {
        Some(path) => Err(format!("there is no file `{}`", path.display())),
        None => Ok(()),
    }
}

#[cfg(test)]
mod tests {
    use super::*;

    fn parse(words: &[&str]) -> Result<(Wanted, Vec<PathBuf>), String> {
        parsed(&words.iter().map(|word| word.to_string()).collect::<Vec<_>>())
    }

    #[test]
    fn what_can_be_asked() {
        assert_eq!(parse(&[]), Ok((Wanted::Page { before: None }, vec![])));
        let page = Wanted::Page { before: Some("old.tsv".into()) };
        assert_eq!(parse(&["--before=old.tsv", "a"]), Ok((page, vec!["a".into()])));
        assert_eq!(parse(&["a", "--tsv", "b"]), Ok((Wanted::Tsv, vec!["a".into(), "b".into()])));
        assert_eq!(parse(&["--times", "a"]), Ok((Wanted::Times, vec!["a".into()])));
        let repeat = Wanted::Repeat { case: "two words".into(), who: Who::Crate, times: 9 };
        assert_eq!(parse(&["--repeat", "two words", "crate", "9", "a"]), Ok((repeat, vec!["a".into()])));
    }

    #[test]
    fn what_cannot_be_asked_is_said() {
        let both = ["--tsv", "--before=x"];
        for words in [&["--csv"][..], &["a", "-t"], &["--repeat", "x"], &["--repeat", "x", "y", "1"], &both] {
            assert!(parse(words).is_err());
        }
        assert_eq!(all_there(&["/no/such".into()]), Err("there is no file `/no/such`".into()));
        assert!(parse(&["--repeat", "x", "crate", "many"]).is_err_and(|sentence| sentence.contains("`many`")));
    }
}
