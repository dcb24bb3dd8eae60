//! Stored messages sent as one stream over TCP, and read by the safe crate: uncut, and cut at random.

use crate::findings::{Bytes, Findings};
use crate::paper::{LEAST_MESSAGE, MOST_BYTES};
use crate::random::Random;
use sindovaleph::Stream;

/// How many messages are sent; no more are kept of those that are stored.
const SENT: usize = 10_000;

/// What chooses the messages and the cuts.
const SEED: u64 = 6926;

/// The messages that can be sent, and how many cannot: they have no size of a message.
#[derive(Default)]
pub struct Streamed {
    kept: Vec<Vec<u8>>,
    left_out: u64,
}

impl Streamed {
    /// One more stored message.
    pub fn add(&mut self, message: &[u8]) {
        if !(LEAST_MESSAGE..=MOST_BYTES).contains(&message.len()) {
            self.left_out += 1;
        } else if self.kept.len() < SENT {
            self.kept.push(message.to_vec());
        }
    }

    /// Sends the messages in a random order, reads the stream uncut and cut, and says in a line what came of it. Where no message can be
    /// sent, nothing is said.
    pub fn line(&self, found: &mut Findings) -> String {
        if self.kept.is_empty() {
            return String::new();
        }
        let mut random = Random::new(SEED);
        let sent: Vec<&[u8]> = (0..SENT).map(|_| self.kept[random.below(self.kept.len())].as_slice()).collect();
        let stream: Vec<u8> = sent.iter().flat_map(|message| framed(message)).collect();
        let cut = cut(&mut random, &stream);
        let parted = [&[&stream[..]][..], &cut].map(|chunks| {
            let parted = parted(&sent, chunks);
            if let Some(words) = &parted {
                found.unexplained(format_args!("a stream in {} chunks", chunks.len()), format_args!("{words}"));
            }
            parted.is_some()
        });
        let verdict = if parted == [false; 2] { "as uncut" } else { "NOT as they were sent" };
        let left_out =
            if self.left_out > 0 { format!("; {} stored ones left out", self.left_out) } else { String::new() };
        let (bytes, chunks) = (stream.len(), cut.len());
        format!("stream: {SENT} messages, {bytes} bytes in {chunks} chunks, {verdict}{left_out}\n")
    }
}

/// A message behind its size.
fn framed(message: &[u8]) -> impl Iterator<Item = u8> {
    (message.len() as u16).to_be_bytes().into_iter().chain(message.iter().copied())
}

/// A stream cut at random: none, one, some or thousands of bytes.
fn cut<'a>(random: &mut Random, stream: &'a [u8]) -> Vec<&'a [u8]> {
    let (mut chunks, mut rest) = (Vec::new(), stream);
    while !rest.is_empty() {
        let len = match random.below(20) {
            0..=1 => 0,
            2..=11 => 1,
            12..=15 => random.below(20),
            16..=18 => random.below(600),
            _ => random.below(4_000),
        };
        let (chunk, behind) = rest.split_at(len.min(rest.len()));
        chunks.push(chunk);
        rest = behind;
    }
    chunks
}

/// Where what is handed out of these chunks is not what was sent: the first such place, in words.
fn parted(sent: &[&[u8]], chunks: &[&[u8]]) -> Option<String> {
    let mut buffer = vec![0; MOST_BYTES];
    let mut stream = Stream::new(&mut buffer);
    let mut sent = sent.iter().enumerate();
    for chunk in chunks {
        let mut frames = stream.read(chunk);
        while let Some(frame) = frames.next() {
            let handed_out = frame.map(|message| message.bytes());
            match sent.next() {
                Some((_, &message)) if handed_out == Ok(message) => (),
                should => {
                    let should = should.map(|(at, &message)| (at, Bytes(message)));
                    return Some(format!("{:?} is handed out, {should:?} was sent", handed_out.map(Bytes)));
                }
            }
        }
    }
    if let Some((at, _)) = sent.next() {
        return Some(format!("message {at} is not handed out"));
    }
    (!stream.is_between()).then(|| format!("{stream:?} stands behind the last message"))
}

#[cfg(test)]
mod tests {
    use super::*;

    /// Messages that differ, of lengths around the least and at the most.
    fn messages() -> Vec<Vec<u8>> {
        [240, 241, 300, MOST_BYTES].into_iter().map(|len| vec![len as u8; len]).collect()
    }

    #[test]
    fn stored_messages_come_as_they_were_sent() {
        let mut streamed = Streamed::default();
        let mut found = Findings::default();
        assert_eq!(streamed.line(&mut found), "");
        messages()[..3].iter().for_each(|message| streamed.add(message));
        streamed.add(&[0; 239]);
        streamed.add(&vec![0; MOST_BYTES + 1]);
        let line = streamed.line(&mut found);
        assert!(line.starts_with("stream: 10000 messages, "), "{line}");
        assert!(line.ends_with(" chunks, as uncut; 2 stored ones left out\n"), "{line}");
        assert_eq!(found.unexplained, 0);
    }

    #[test]
    fn every_difference_is_said() {
        let messages = messages();
        let sent: Vec<&[u8]> = messages.iter().map(Vec::as_slice).collect();
        let stream: Vec<u8> = sent.iter().flat_map(|message| framed(message)).collect();
        let says = |sent: &[&[u8]], stream: &[u8]| parted(sent, &stream.chunks(100).collect::<Vec<_>>());
        let holds = |said: Option<String>, words: &str| {
            assert!(said.as_ref().is_some_and(|said| said.contains(words)), "{said:?}")
        };
        assert_eq!(says(&sent, &stream), None);
        holds(says(&sent[1..], &stream), "was sent");
        holds(says(&sent[..3], &stream), "None was sent");
        holds(says(&sent, &stream[..800]), "message 3 is not handed out");
        holds(says(&sent[..3], &stream[..800]), "stands behind the last message");
        holds(says(&sent, &[&[0, 1, 7], &stream[..]].concat()), "MessageTooShort");
    }

    #[test]
    fn cuts_leave_nothing_out() {
        let stream: Vec<u8> = (0..50_000).map(|at: u32| at as u8).collect();
        let chunks = cut(&mut Random::new(1), &stream);
        assert_eq!(chunks.concat(), stream);
        let of = |len: usize| chunks.iter().filter(|chunk| chunk.len() == len).count();
        assert!(of(0) > 10 && of(1) > 50 && chunks.iter().any(|chunk| chunk.len() > 1_000));
    }
}
