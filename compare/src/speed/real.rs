//! The walk of real messages: three of usual lengths, and the largest.

use super::case::Case;
use super::walk::{call_each, one_call};
use crate::paper;
use crate::stored;
use std::path::{Path, PathBuf};

/// A message, its file and its number in it.
struct Message {
    file: String,
    number: u64,
    bytes: Vec<u8>,
}

/// Adds the messages of a file that have options.
fn read(path: &Path, messages: &mut Vec<Message>) -> Result<(), String> {
    let file = path.file_name().unwrap_or_default().to_string_lossy().into_owned();
    let troubles = stored::each_message(path, &mut |message| {
        if paper::area(message.bytes).is_some() {
            messages.push(Message { file: file.clone(), number: message.number, bytes: message.bytes.to_vec() });
        }
    });
    match troubles.first() {
        None => Ok(()),
        Some(trouble) => Err(format!("{} {trouble}", path.display())),
    }
}

/// Those in the middle of each half and of all, by their lengths, and the longest: each once.
fn chosen(mut messages: Vec<Message>) -> Vec<Message> {
    messages.sort_by_key(|message| message.bytes.len());
    let last = messages.len().saturating_sub(1);
    let mut places = vec![last / 4, last / 2, 3 * last / 4, last];
    places.dedup();
    let keep = |(at, message)| places.contains(&at).then_some(message);
    messages.into_iter().enumerate().filter_map(keep).collect()
}

/// The cases of these files.
pub fn cases(files: &[PathBuf]) -> Result<Vec<Case>, String> {
    let mut messages = Vec::new();
    for path in files {
        read(path, &mut messages)?;
    }
    let named = |message: &Message| {
        let file = if files.len() > 1 { format!(" of {}", message.file) } else { String::new() };
        format!("real {}{file}, {} bytes", message.number, message.bytes.len())
    };
    let pair = |message: &Message| {
        let name = named(message);
        [
            call_each(format!("{name}, a call each"), &message.bytes),
            one_call(format!("{name}, one call"), &message.bytes),
        ]
    };
    Ok(chosen(messages).iter().flat_map(pair).collect())
}

#[cfg(test)]
mod tests {
    use super::*;

    fn message(number: u64, len: usize) -> Message {
        Message { file: String::new(), number, bytes: vec![0; len] }
    }

    #[test]
    fn three_and_the_longest_are_chosen() {
        let numbers =
            |messages: Vec<Message>| chosen(messages).iter().map(|message| message.number).collect::<Vec<_>>();
        assert_eq!(numbers((0..9).map(|at| message(at, 300 - 10 * at as usize)).collect()), [6, 4, 2, 0]);
        assert_eq!(numbers(vec![message(7, 300)]), [7]);
        assert_eq!(numbers(Vec::new()), [0; 0]);
    }

    #[test]
    fn a_file_that_is_not_there_is_said() {
        assert!(cases(&[PathBuf::from("/no/such/file")]).is_err_and(|sentence| sentence.contains("cannot be read")));
    }
}
