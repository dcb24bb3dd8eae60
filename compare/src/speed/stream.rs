//! Messages out of a stream over TCP, one a repetition, beside a plain copy of the same bytes into such a buffer.

use super::case::{Case, Side, Sink};
use super::inputs::{Shape, message_of, usual_message};
use super::writing::PAGE;
use crate::paper::{AREA, MOST_BYTES};
use sindovaleph::calls::{self, Stream};
use std::hint::black_box;

/// About how many bytes a stream has; it has two messages at least.
const BYTES: usize = 20_000;

/// How many bytes a size has.
const SIZE: usize = 2;

/// The chunks that bring a message: one, in which others follow and behind which the second is empty; or two, where it is cut.
type Chunks = [&'static [u8]; 2];

/// The chunks of a stream's messages, the next one's number, and the buffer. They are lent for as long as the program runs.
struct Lent {
    chunks: Vec<Chunks>,
    next: usize,
    buffer: &'static mut [u8],
}

/// Bytes at a place of a page, so that what a copy takes is no luck of an allocation.
pub fn placed(bytes: &[u8], place: usize) -> &'static mut [u8] {
    let memory = vec![0; bytes.len() + PAGE].leak();
    let begin = (PAGE + place - memory.as_ptr().addr() % PAGE) % PAGE;
    let placed = &mut memory[begin..begin + bytes.len()];
    placed.copy_from_slice(bytes);
    placed
}

impl Lent {
    /// A stream of one message again and again, uncut or cut in the middle of each, and a buffer of its length.
    fn new(message: &[u8], is_cut: bool) -> Lent {
        let framed = [&(message.len() as u16).to_be_bytes(), message].concat();
        let count = (BYTES / framed.len()).max(2);
        let stream: &[u8] = placed(&framed.repeat(count), 0);
        let chunks = |at: usize| -> Chunks {
            let rest = &stream[at * framed.len()..];
            if is_cut { rest[..framed.len()].split_at(framed.len() / 2).into() } else { [rest, &[]] }
        };
        let buffer = placed(&vec![0; message.len()], PAGE / 2);
        Lent { chunks: (0..count).map(chunks).collect(), next: 0, buffer }
    }

    /// The chunks of the next message; behind the last one comes the first.
    fn next(&mut self) -> Chunks {
        let chunks = self.chunks[self.next];
        self.next = if self.next + 1 == self.chunks.len() { 0 } else { self.next + 1 };
        black_box(chunks)
    }
}

/// The plain call.
struct Calls(Lent);

impl Side for Calls {
    fn run(&mut self, sink: &mut impl Sink) {
        let [first, second] = self.0.next();
        let mut told = calls::receive(Stream::default(), self.0.buffer, first);
        if !second.is_empty() {
            told = calls::receive(told.stream, self.0.buffer, second);
        }
        if told.refused == 0 {
            sink.bytes(&self.0.buffer[..told.len]);
        }
    }
}

/// What a collector calls: the safe crate's reader, which hands out a message whose header it has read.
struct Safe(Lent);

impl Side for Safe {
    fn run(&mut self, sink: &mut impl Sink) {
        let chunks = self.0.next();
        let mut stream = sindovaleph::Stream::new(self.0.buffer);
        for chunk in chunks {
            if let Some(Ok(message)) = stream.read(chunk).next() {
                return sink.bytes(message.bytes());
            }
        }
    }
}

/// A copy of the same bytes, as they come, by one who knows their length.
struct Copy(Lent);

impl Side for Copy {
    fn run(&mut self, sink: &mut impl Sink) {
        let [first, second] = self.0.next();
        let (front, behind) = self.0.buffer.split_at_mut(self.0.buffer.len() - second.len());
        front.copy_from_slice(&first[SIZE..SIZE + front.len()]);
        if !second.is_empty() {
            behind.copy_from_slice(second);
        }
        sink.bytes(self.0.buffer);
    }
}

/// A message by the plain call.
fn by_call(name: &str, message: &[u8], is_cut: bool) -> Case {
    Case::new(name, message.len(), Calls(Lent::new(message, is_cut)), Copy(Lent::new(message, is_cut)))
}

/// A message by the safe crate.
fn by_safe(name: &str, message: &[u8], is_cut: bool) -> Case {
    Case::new(name, message.len(), Safe(Lent::new(message, is_cut)), Copy(Lent::new(message, is_cut)))
}

/// All of them.
pub fn cases() -> Vec<Case> {
    let usual = usual_message();
    let of = |len: usize| message_of(&Shape::Usual.area(len - AREA));
    vec![
        by_call("stream, 325 bytes", &usual, false),
        by_call("stream, 325 bytes, cut", &usual, true),
        by_safe("stream, 325 bytes, the safe crate", &usual, false),
        by_safe("stream, 325 bytes, cut, the safe crate", &usual, true),
        by_call("stream, 1,500 bytes", &of(1_500), false),
        by_call("stream, 65,535 bytes", &of(MOST_BYTES), false),
    ]
}
