//! A stream of messages over TCP (document 02, ticket 5; RFC 6926, section 6.1). A reader takes one byte after the other, and a call is
//! what it comes to over a chunk. Beside it stands the uncut stream, which is split by its sizes alone.

use super::{LEAST_MESSAGE, big_endian};
use sindovaleph::calls::{Received, Stream};

/// The refusals of a stream: a frame is no message, and a size is more than the lent buffer has.
const TOO_SHORT: u8 = 1;
const TOO_LARGE: u8 = 17;

/// Where a stream stands: between two frames, behind the first byte of a size, in a frame, refused.
const BETWEEN: u8 = 0;
const SIZING: u8 = 1;
const FILLING: u8 = 2;
const SHUT: u8 = 3;

/// A reader: the bytes of the size that came, how many bytes of the frame stand in the buffer, and whether it is refused.
#[derive(Clone, Copy, Default)]
struct Reader {
    first: Option<u8>,
    second: Option<u8>,
    filled: usize,
    refused: bool,
}

impl Reader {
    /// The reader that stands so.
    fn at(stream: Stream) -> Reader {
        let [first, second] = stream.size.to_be_bytes().map(Some);
        match stream.state {
            BETWEEN => Reader::default(),
            SIZING => Reader { first: Some(stream.high), ..Reader::default() },
            FILLING => Reader { first, second, filled: stream.filled.into(), refused: false },
            _ => Reader { refused: true, ..Reader::default() },
        }
    }

    /// Where it stands.
    fn stands(&self) -> Stream {
        match *self {
            Reader { refused: true, .. } => Stream { state: SHUT, ..Stream::default() },
            Reader { first: None, .. } => Stream::default(),
            Reader { first: Some(high), second: None, .. } => Stream { state: SIZING, high, ..Stream::default() },
            Reader { first: Some(first), second: Some(second), filled, .. } => {
                let size = u16::from_be_bytes([first, second]);
                Stream { state: FILLING, high: 0, size, filled: filled as u16 }
            }
        }
    }

    /// The size, where both of its bytes came.
    fn size(&self) -> Option<usize> {
        Some(usize::from(self.first?) * 256 + usize::from(self.second?))
    }

    /// What is handed out before a further byte is taken, if anything: a refusal, or a message by its length.
    fn due(&self, room: usize) -> Option<Result<usize, u8>> {
        if self.refused || self.size().is_some_and(|size| size > room) {
            return Some(Err(TOO_LARGE));
        }
        self.size().filter(|&size| self.filled >= size).map(|size| at_least_a_message(size).map(|()| size))
    }

    /// Takes a byte: the size's first, its second, or one of the frame.
    fn take(&mut self, byte: u8, buffer: &mut [u8]) {
        if self.first.is_none() {
            self.first = Some(byte);
        } else if self.second.is_none() {
            self.second = Some(byte);
        } else {
            buffer[self.filled] = byte;
            self.filled += 1;
        }
    }
}

/// A frame of so many bytes is a message, or is refused.
fn at_least_a_message(size: usize) -> Result<(), u8> {
    if size < LEAST_MESSAGE { Err(TOO_SHORT) } else { Ok(()) }
}

/// One call: up to the first that is handed out, or to the chunk's end.
pub fn receive(stream: Stream, buffer: &mut [u8], chunk: &[u8]) -> Received {
    let mut reader = Reader::at(stream);
    let mut used = 0;
    loop {
        if let Some(handed_out) = reader.due(buffer.len()) {
            let (refused, len) = handed_out.map_or_else(|refused| (refused, 0), |len| (0, len));
            let next = Reader { refused: refused == TOO_LARGE, ..Reader::default() };
            return Received { refused, len, used, stream: next.stands() };
        }
        let Some(&byte) = chunk.get(used) else {
            return Received { refused: 0, len: 0, used, stream: reader.stands() };
        };
        reader.take(byte, buffer);
        used += 1;
    }
}

/// An uncut stream: its whole frames, then a size that is refused, or what stands behind the last frame.
#[derive(Debug, PartialEq)]
pub struct Uncut<'a> {
    pub frames: Vec<&'a [u8]>,
    pub refused: bool,
    /// Behind the size that is refused, or behind the last frame.
    pub rest: &'a [u8],
}

/// A stream for a buffer of so many bytes, split by its sizes.
pub fn uncut(stream: &[u8], room: usize) -> Uncut<'_> {
    let (mut frames, mut rest) = (Vec::new(), stream);
    while let Some((size, behind)) = rest.split_at_checked(2) {
        let size = big_endian(size) as usize;
        if size > room {
            return Uncut { frames, refused: true, rest: behind };
        }
        let Some((frame, behind)) = behind.split_at_checked(size) else { break };
        frames.push(frame);
        rest = behind;
    }
    Uncut { frames, refused: false, rest }
}

impl<'a> Uncut<'a> {
    /// What is handed out, in order: messages and refusals.
    pub fn handed_out(&self) -> impl Iterator<Item = Result<&'a [u8], u8>> {
        let frames = self.frames.iter().map(|&frame| at_least_a_message(frame.len()).map(|()| frame));
        frames.chain(self.refused.then_some(Err(TOO_LARGE)))
    }

    /// Where the stream stands behind its last byte.
    pub fn stands(&self) -> Stream {
        match *self.rest {
            _ if self.refused => Stream { state: SHUT, ..Stream::default() },
            [] => Stream::default(),
            [high] => Stream { state: SIZING, high, ..Stream::default() },
            [first, second, ref begun @ ..] => {
                let size = u16::from_be_bytes([first, second]);
                Stream { state: FILLING, high: 0, size, filled: begun.len() as u16 }
            }
        }
    }

    /// What it leaves in the buffer: each frame over the one before it, then one that was begun.
    pub fn leave_in(&self, buffer: &mut [u8]) {
        let begun = if self.refused { None } else { self.rest.get(2..) };
        for frame in self.frames.iter().copied().chain(begun) {
            buffer[..frame.len()].copy_from_slice(frame);
        }
    }
}

#[cfg(test)]
mod tests {
    use super::*;

    const REFUSED: Stream = Stream { state: 3, high: 0, size: 0, filled: 0 };

    fn half(high: u8) -> Stream {
        Stream { state: 1, high, size: 0, filled: 0 }
    }

    fn within(size: u16, filled: u16) -> Stream {
        Stream { state: 2, high: 0, size, filled }
    }

    /// A row of the worked examples: the buffer, the reads, what is handed out, the state, and the buffer afterwards.
    struct Row {
        buffer: Vec<u8>,
        reads: Vec<Vec<u8>>,
        handed_out: Vec<Result<Vec<u8>, u8>>,
        stands: Stream,
        left: Vec<u8>,
    }

    /// All that is handed out of some reads; a refused stream is read no further.
    fn read(mut stands: Stream, buffer: &mut [u8], reads: &[Vec<u8>]) -> (Vec<Result<Vec<u8>, u8>>, Stream) {
        let mut handed_out = Vec::new();
        for chunk in reads {
            let mut rest = &chunk[..];
            loop {
                let told = receive(stands, buffer, rest);
                (stands, rest) = (told.stream, &rest[told.used..]);
                match told {
                    Received { refused: 0, len: 0, .. } => break,
                    Received { refused: 0, len, .. } => handed_out.push(Ok(buffer[..len].to_vec())),
                    Received { refused, .. } => handed_out.push(Err(refused)),
                }
                if told.refused == TOO_LARGE {
                    return (handed_out, stands);
                }
            }
        }
        (handed_out, stands)
    }

    /// Bytes that count up from one.
    fn counting(from: u8, count: usize) -> Vec<u8> {
        (0..count).map(|at| from.wrapping_add(at as u8)).collect()
    }

    fn row(buffer: Vec<u8>, reads: &[&[u8]], refused: &[u8], stands: Stream, left: &[&[u8]]) -> Row {
        let reads = reads.iter().map(|read| read.to_vec()).collect();
        Row {
            buffer,
            reads,
            handed_out: refused.iter().map(|&number| Err(number)).collect(),
            stands,
            left: left.concat(),
        }
    }

    /// The rows without a reset.
    fn rows() -> Vec<Row> {
        let begin = Stream::default();
        let cut: [&[u8]; 6] = [&[0], &[2, 5, 6], &[], &[0], &[1, 7, 0], &[4, 5]];
        let message = [&[0, 0xF0][..], &counting(1, 100)].concat();
        let message_end = [&counting(0x65, 140)[..], &[0]].concat();
        let longer = [&[1, 0][..], &[7; 255]].concat();
        let largest = [&[0xFF, 0xFF][..], &[0; 10]].concat();
        let mut rows = vec![
            row(vec![9; 4], &[&[0, 3, 1, 2, 3, 4]], &[1], half(4), &[&[1, 2, 3, 9]]),
            row(vec![], &[&[0, 0]], &[1], begin, &[]),
            row(vec![9], &[&[0, 2, 1]], &[17], REFUSED, &[&[9]]),
            row(vec![0xEE; 3], &cut, &[1, 1, 17], REFUSED, &[&[7, 6, 0xEE]]),
            row(vec![0xEE; 240], &[&[0, 0xF1]], &[17], REFUSED, &[&[0xEE; 240]]),
            row(vec![0xEE; 70_000], &[&largest], &[], within(65_535, 10), &[&[0; 10], &[0xEE; 69_990]]),
            row(vec![0xEE; 241], &[&message, &message_end], &[], half(0), &[&counting(1, 240), &[0xEE]]),
            row(vec![0xEE; 300], &[&longer, &[], &[7, 0, 1, 8]], &[1], begin, &[&[8], &[7; 255], &[0xEE; 44]]),
        ];
        rows[6].handed_out = vec![Ok(counting(1, 240))];
        rows[7].handed_out.insert(0, Ok(vec![7; 256]));
        rows
    }

    #[test]
    fn the_worked_examples() {
        for Row { mut buffer, reads, handed_out, stands, left } in rows() {
            let sent = reads.concat();
            let split = uncut(&sent, buffer.len());
            let mut left_uncut = buffer.clone();
            split.leave_in(&mut left_uncut);
            let frames: Vec<_> = split.handed_out().map(|frame| frame.map(<[u8]>::to_vec)).collect();
            assert_eq!((&frames, split.stands(), &left_uncut), (&handed_out, stands, &left), "{reads:?}");
            assert_eq!(read(Stream::default(), &mut buffer, &reads), (handed_out, stands), "{reads:?}");
            assert_eq!(buffer, left, "{reads:?}");
        }
    }

    /// The row with a reset, behind which the next byte begins a size.
    #[test]
    fn a_refused_stream_stays_so_until_it_is_reset() {
        let mut buffer = vec![0xEE; 240];
        let reads = [vec![0], vec![0xF1]];
        assert_eq!(read(Stream::default(), &mut buffer, &reads), (vec![Err(17)], REFUSED));
        for chunk in [&[0, 0][..], &[]] {
            let again = Received { refused: 17, len: 0, used: 0, stream: REFUSED };
            assert_eq!(receive(REFUSED, &mut buffer, chunk), again);
        }
        assert_eq!(buffer, [0xEE; 240]);
        assert_eq!(read(Stream::default(), &mut buffer, &[vec![0, 1, 7]]), (vec![Err(1)], Stream::default()));
        assert_eq!(buffer, [&[7][..], &[0xEE; 239]].concat());
    }

    #[test]
    fn single_calls() {
        let told = |refused, len, used, stream| Received { refused, len, used, stream };
        let mut buffer = [0xEE; 5];
        assert_eq!(receive(within(5, 2), &mut buffer, &[3, 4]), told(0, 0, 2, within(5, 4)));
        assert_eq!(buffer, [0xEE, 0xEE, 3, 4, 0xEE]);
        assert_eq!(receive(within(5, 2), &mut buffer[..4], &[]), told(17, 0, 0, REFUSED));
        assert_eq!(receive(half(1), &mut [0xEE; 300], &[0]), told(0, 0, 1, within(256, 0)));
        assert_eq!(receive(REFUSED, &mut buffer, &[0, 0]), told(17, 0, 0, REFUSED));
    }

    #[test]
    fn states_that_no_call_answers() {
        let told = |refused, len| Received { refused, len, used: 0, stream: Stream::default() };
        let mut buffer = [7; 300];
        for filled in [240, 241, 65_535] {
            assert_eq!(receive(within(240, filled), &mut buffer, &[1]), told(0, 240));
            assert_eq!(receive(within(239, filled), &mut buffer, &[1]), told(1, 0));
        }
        assert_eq!(receive(within(0, 0), &mut [], &[]), told(1, 0));
        assert_eq!(buffer, [7; 300]);
        for state in 3..=255 {
            let any = Stream { state, high: 1, size: 2, filled: 3 };
            assert_eq!(receive(any, &mut buffer, &[0, 0]), Received { refused: 17, len: 0, used: 0, stream: REFUSED });
        }
        let sizing = Stream { size: 9, filled: 9, ..half(3) };
        assert_eq!(receive(sizing, &mut buffer, &[]), Received { refused: 0, len: 0, used: 0, stream: half(3) });
    }
}
