//! Streams of messages: short ones in every way of cutting them, ones with messages cut at every place, every size, calls from every kind
//! of state, and random ones.

use super::made;
use crate::cases::{Bench, Cut, MOST_STREAM, Refused};
use crate::paper::{LEAST_MESSAGE, MOST_BYTES};
use crate::random::Random;
use sindovaleph::calls::Stream;

/// Bytes that are sizes of short frames, their high bytes, and what stands in frames.
const ALPHABET: [u8; 4] = [0, 1, 2, 3];

/// The longest streams and the longest buffer that are gone over whole.
const LONGEST: usize = 6;
const LONGEST_BUFFER: usize = 3;

/// A random stream of more bytes is a long one.
const LONG: usize = 10_000;

/// A stream cut at these places, which count up.
fn cut_at<'a>(stream: &'a [u8], places: &[usize]) -> Vec<&'a [u8]> {
    let begins = [&[0], places].concat();
    let ends = places.iter().copied().chain([stream.len()]);
    begins.iter().zip(ends).map(|(&begin, end)| &stream[begin..end]).collect()
}

/// A stream in every way of cutting it.
fn ways(stream: &[u8]) -> impl Iterator<Item = Vec<&[u8]>> {
    (0..1 << stream.len().saturating_sub(1)).map(|cuts: usize| {
        let places: Vec<usize> = (1..stream.len()).filter(|at| cuts >> (at - 1) & 1 == 1).collect();
        cut_at(stream, &places)
    })
}

/// Chunks with an empty one before each and behind the last.
fn with_pauses<'a>(chunks: &[&'a [u8]]) -> Vec<&'a [u8]> {
    chunks.iter().flat_map(|&chunk| [&[], chunk]).chain([&[][..]]).collect()
}

/// Chunks: read on where the stream is refused, with pauses too, and reset there.
fn in_three_ways(bench: &mut Bench, chunks: &[&[u8]], room: usize) {
    bench.stream(&Cut { chunks, room, refused: Refused::Stays });
    bench.stream(&Cut { chunks, room, refused: Refused::IsReset });
    bench.stream(&Cut { chunks: &with_pauses(chunks), room, refused: Refused::Stays });
}

/// Short streams in every way of cutting them.
fn short(bench: &mut Bench) {
    for stream in (0..=LONGEST).flat_map(|len| made::strings(&ALPHABET, len)) {
        for chunks in ways(&stream) {
            (0..=LONGEST_BUFFER).for_each(|room| in_three_ways(bench, &chunks, room));
        }
    }
}

/// A frame of so many bytes, behind its size.
fn frame(size: usize) -> Vec<u8> {
    let bytes = (0..size).map(|at| (at * 37 + size) as u8);
    (size as u16).to_be_bytes().into_iter().chain(bytes).collect()
}

/// Frames around the least message: cut at every place, and a shorter stream at every two.
fn around_the_least(bench: &mut Bench) {
    let stream = [frame(LEAST_MESSAGE), frame(0), frame(LEAST_MESSAGE - 1), frame(LEAST_MESSAGE + 1), vec![1]].concat();
    for at in 0..=stream.len() {
        for room in LEAST_MESSAGE - 1..=LEAST_MESSAGE + 2 {
            in_three_ways(bench, &cut_at(&stream, &[at]), room);
        }
    }
    let stream = [frame(LEAST_MESSAGE), frame(1), vec![0]].concat();
    for first in 0..=stream.len() {
        for second in first..=stream.len() {
            let chunks = &cut_at(&stream, &[first, second]);
            bench.stream(&Cut { chunks, room: LEAST_MESSAGE, refused: Refused::Stays });
        }
    }
}

/// Every size, with a buffer that it fills and with one that lacks a byte; the size is read whole, or its second byte alone.
fn sizes(bench: &mut Bench) {
    for size in 0..=u16::MAX {
        let [high, low] = size.to_be_bytes();
        let sizing = Stream { state: Stream::SIZING, high, ..Stream::default() };
        for room in usize::from(size).saturating_sub(1)..=size.into() {
            bench.receive(Stream::default(), room, &[high, low, 7]);
            bench.receive(sizing, room, &[low, 7]);
        }
    }
}

/// Every number of a state, with other numbers that it may not name, and short chunks.
fn states(bench: &mut Bench) {
    let chunks: [&[u8]; 9] =
        [&[], &[0], &[0, 0], &[0, 1], &[0, 1, 7], &[0, 2, 7], &[1, 0], &[1, 44, 7, 8], &[0, 3, 7, 8, 9, 0, 0]];
    for state in 0..=255 {
        for (size, filled) in [(0, 0), (5, 2), (240, 240), (2, 9), (65_535, 65_534), (65_535, 65_535)] {
            for high in [0, 1, 255] {
                let stream = Stream { state, high, size, filled };
                for room in [0, 1, 2, 3, 5, 300] {
                    chunks.iter().for_each(|chunk| bench.receive(stream, room, chunk));
                }
            }
        }
    }
}

/// In a frame: as many bytes as are missing, fewer and more; with buffers that are too short, just long enough, and longer; and where the
/// frame is said to be full, or more than full.
fn within(bench: &mut Bench) {
    for size in [0_u16, 1, 2, 5, 239, 240, 241, 300, 65_534, 65_535] {
        let around = [0, 1, size / 2, size.saturating_sub(1), size, size.saturating_add(1), u16::MAX];
        for filled in around {
            let stream = Stream { state: Stream::FILLING, high: 0, size, filled };
            let (size, missing) = (usize::from(size), usize::from(size.saturating_sub(filled)));
            let bytes = &made::contents(missing + 300)[4];
            for room in [0, 1, size / 2, size.saturating_sub(1), size, size + 1, size + 4_000] {
                for len in [0, 1, missing / 2, missing.saturating_sub(1), missing, missing + 1, missing + 300] {
                    bench.receive(stream, room, &bytes[..len]);
                }
            }
        }
    }
}

/// All of them.
pub fn sweep(bench: &mut Bench) {
    short(bench);
    around_the_least(bench);
    sizes(bench);
    states(bench);
    within(bench);
}

/// The length of a buffer: mostly one that takes most frames.
fn room(random: &mut Random) -> usize {
    match random.below(24) {
        0 => random.below(LEAST_MESSAGE),
        1 => random.one_of(&[0, 1, 2, 65_534, 65_535, 65_536, 70_000]),
        2..=5 => random.one_of(&[239, 240, 241, 255, 256, 257]),
        6..=9 => random.below(601),
        _ => 600 + random.below(1_000),
    }
}

/// The size of a frame: up to 600 bytes, around the least message and around the buffer's length, and now and then the largest; mostly one
/// that the buffer takes.
fn size(random: &mut Random, room: usize) -> usize {
    match random.below(40) {
        0..=7 => LEAST_MESSAGE - 1 + random.below(3),
        8..=11 => random.below(4),
        12..=14 => (room + random.below(3)).saturating_sub(1).min(MOST_BYTES),
        15 if random.once_in(12) => MOST_BYTES,
        15..=17 => random.below(601),
        _ => random.below(room.min(600) + 1),
    }
}

/// A stream of some frames, of which the last may be cut.
fn composed(random: &mut Random, room: usize) -> Vec<u8> {
    let mut stream = Vec::new();
    for _ in 0..random.below(8) {
        let size = size(random, room);
        if stream.len() + 2 + size <= MOST_STREAM {
            stream.extend((size as u16).to_be_bytes());
            stream.extend((0..size).map(|_| random.byte()));
        }
    }
    if random.once_in(3) {
        stream.truncate(random.below(stream.len() + 1));
    }
    stream
}

/// A stream cut at random: single bytes, or chunks up to a length, with empty ones now and then. A long one is cut in long chunks.
fn cut<'a>(random: &mut Random, stream: &'a [u8]) -> Vec<&'a [u8]> {
    let most = if stream.len() > LONG { 5_000 } else { random.one_of(&[1, 2, 7, 100, 700, 5_000]) };
    let (mut chunks, mut rest) = (Vec::new(), stream);
    while !rest.is_empty() {
        let len = if random.once_in(8) { 0 } else { 1 + random.below(most) };
        let (chunk, behind) = rest.split_at(len.min(rest.len()));
        chunks.push(chunk);
        rest = behind;
    }
    chunks
}

/// A random stream, uncut and cut. A long one is not reset, since a size then stands in every two bytes behind one that is refused.
pub fn one(random: &mut Random, bench: &mut Bench) {
    let room = room(random);
    let stream = composed(random, room);
    let is_reset = stream.len() <= LONG && random.once_in(2);
    let refused = if is_reset { Refused::IsReset } else { Refused::Stays };
    bench.stream(&Cut { chunks: &[&stream], room, refused });
    bench.stream(&Cut { chunks: &cut(random, &stream), room, refused });
}

#[cfg(test)]
mod tests {
    use super::*;
    use std::collections::HashSet;

    #[test]
    fn every_way_of_cutting_is_another_and_leaves_nothing_out() {
        let stream = [1, 2, 3, 4, 5, 6];
        for (len, count) in [(0, 1), (1, 1), (2, 2), (6, 32)] {
            let all: HashSet<Vec<&[u8]>> = ways(&stream[..len]).collect();
            assert_eq!((ways(&stream[..len]).count(), all.len()), (count, count));
            assert!(all.iter().all(|chunks| chunks.concat() == stream[..len]));
            assert!(all.iter().all(|chunks| with_pauses(chunks).len() == 2 * chunks.len() + 1));
            assert!(all.iter().all(|chunks| with_pauses(chunks).concat() == stream[..len]));
        }
    }

    #[test]
    fn random_cuts_leave_nothing_out() {
        let mut random = Random::new(1);
        for _ in 0..100 {
            let room = room(&mut random);
            let stream = composed(&mut random, room);
            assert_eq!(cut(&mut random, &stream).concat(), stream);
        }
    }
}
