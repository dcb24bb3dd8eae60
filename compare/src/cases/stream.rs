//! A stream of messages in chunks: each call, and then all that came of it beside the uncut stream. The crate has no such reader.

use super::Bench;
use crate::findings::Bytes;
use crate::paper::{self, Uncut};
use sindovaleph::calls::{self, Received, Stream};
use std::fmt::{self, Display};

/// The refusals of a stream: a frame is too short, and a size is more than the buffer has, which shuts it.
const TOO_SHORT: u8 = 1;
const SIZE_ABOVE_BUFFER: u8 = 17;

/// How many chunks are shown by their lengths.
const MOST_SHOWN: usize = 64;

/// How much of streams was compared: ways of cutting them, calls, and answers of each kind.
#[derive(Default)]
pub struct Streams {
    cut: u64,
    calls: u64,
    messages: u64,
    too_short: u64,
    above_buffer: u64,
}

impl Streams {
    /// One more call.
    fn count(&mut self, told: &Received) {
        self.calls += 1;
        self.messages += u64::from(told.len > 0);
        self.too_short += u64::from(told.refused == TOO_SHORT);
        self.above_buffer += u64::from(told.refused == SIZE_ABOVE_BUFFER);
    }

    /// A line about it.
    pub fn line(&self) -> String {
        let Streams { cut, calls, messages, too_short, above_buffer } = self;
        let answers = format!("{messages} messages, {too_short} times refused by 1 and {above_buffer} by 17");
        format!("streams: {cut} ways of cutting, {calls} calls: {answers}\n")
    }
}

/// What a caller does with a stream that is refused.
#[derive(Clone, Copy, Debug, PartialEq)]
pub enum Refused {
    /// It goes on calling with what comes.
    Stays,
    /// It resets the stream, and goes on behind what was used.
    IsReset,
}

/// A stream in chunks, the length of the buffer, and what is done where it is refused.
pub struct Cut<'a> {
    pub chunks: &'a [&'a [u8]],
    pub room: usize,
    pub refused: Refused,
}

impl Cut<'_> {
    /// The uncut stream up to a size that is refused; behind a reset it begins anew.
    fn uncut<'s>(&self, sent: &'s [u8]) -> Vec<Uncut<'s>> {
        let mut all = vec![paper::uncut(sent, self.room)];
        while let Some(&Uncut { refused: true, rest, .. }) = all.last()
            && self.refused == Refused::IsReset
        {
            all.push(paper::uncut(rest, self.room));
        }
        all
    }
}

impl Display for Cut<'_> {
    fn fmt(&self, out: &mut fmt::Formatter<'_>) -> fmt::Result {
        write!(out, "stream {} in chunks of", Bytes(&self.chunks.concat()))?;
        self.chunks.iter().take(MOST_SHOWN).try_for_each(|chunk| write!(out, " {}", chunk.len()))?;
        let more = if self.chunks.len() > MOST_SHOWN { " .." } else { "" };
        write!(out, "{more}, a buffer of {}, where it is refused it {:?}", self.room, self.refused)
    }
}

/// What came of a stream: where it stands, how many frames were handed out, how many of them are as in the uncut one, and whether the
/// buffer is.
#[derive(Debug, Default, PartialEq)]
struct Came {
    stands: Stream,
    handed_out: usize,
    as_uncut: usize,
    buffer_as_uncut: bool,
}

impl Bench {
    /// One call over a chunk, with so many bytes of the buffer, in which all is left for the next one.
    fn receive_on(&mut self, stream: Stream, room: usize, chunk: &[u8]) -> Received {
        let len = self.give(chunk);
        let ours = calls::receive(stream, self.buffer.library(room), self.given.library(len));
        let said = paper::receive(stream, self.buffer.paper(room), self.given.paper(len));
        let call = format_args!("receive from {stream:?}, a buffer of {room}, chunk {}", Bytes(chunk));
        self.same(call, &ours, &said);
        self.streams.count(&said);
        if !self.buffer.are_same(room) {
            self.findings.unexplained(call, format_args!("the buffer holds other bytes than the paper says"));
        }
        self.is_as_given(call, len);
        said
    }

    /// One call, from any state.
    pub fn receive(&mut self, stream: Stream, room: usize, chunk: &[u8]) {
        self.receive_on(stream, room, chunk);
        let begin = if stream.state == Stream::FILLING { usize::from(stream.filled) } else { 0 };
        self.buffer.settle(begin.min(room)..(begin + chunk.len()).min(room), room);
    }

    /// A stream in chunks.
    pub fn stream(&mut self, cut: &Cut<'_>) {
        let sent = cut.chunks.concat();
        let uncut = cut.uncut(&sent);
        let mut left = self.buffer.library(cut.room).to_vec();
        uncut.iter().for_each(|stream| stream.leave_in(&mut left));
        let frames: Vec<_> = uncut.iter().flat_map(Uncut::handed_out).collect();
        let stands = uncut.last().map_or(Stream::default(), Uncut::stands);
        let should = Came { stands, handed_out: frames.len(), as_uncut: frames.len(), buffer_as_uncut: true };
        let mut came = self.read_chunks(cut, &frames);
        came.buffer_as_uncut = self.buffer.library(cut.room) == left;
        self.streams.cut += 1;
        self.same(format_args!("{cut}"), &came, &should);
        self.buffer.settle(0..cut.room.min(sent.len()), cut.room);
    }

    /// Reads a stream chunk by chunk, beside the frames of the uncut one. That it is refused is handed out once.
    fn read_chunks(&mut self, cut: &Cut<'_>, uncut: &[Result<&[u8], u8>]) -> Came {
        let mut came = Came::default();
        for &chunk in cut.chunks {
            let mut rest = chunk;
            loop {
                let was_refused = came.stands.state > Stream::FILLING;
                let told = self.receive_on(came.stands, cut.room, rest);
                (came.stands, rest) = (told.stream, &rest[told.used..]);
                if was_refused || (told.refused, told.len) == (0, 0) {
                    break;
                }
                let frame = match told.refused {
                    0 => Ok(&self.buffer.library(cut.room)[..told.len]),
                    number => Err(number),
                };
                came.as_uncut += usize::from(uncut.get(came.handed_out) == Some(&frame));
                came.handed_out += 1;
                if told.refused == SIZE_ABOVE_BUFFER && cut.refused == Refused::IsReset {
                    came.stands = Stream::default();
                }
                if rest.is_empty() || came.stands.state > Stream::FILLING {
                    break;
                }
            }
        }
        came
    }
}
