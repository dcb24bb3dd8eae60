//! Messages out of a stream: however it is cut, what is handed out is what the uncut stream has.

mod common;

use common::message_with;
use sindovaleph::Refusal::{self, MessageTooShort, SizeAboveBuffer};
use sindovaleph::{Message, Stream, calls};

/// What is handed out, with the bytes of messages.
type Handed = Vec<Result<Vec<u8>, Refusal>>;

/// The bytes of a message behind their size.
fn framed(bytes: &[u8]) -> Vec<u8> {
    let size = u16::try_from(bytes.len()).expect("a size has two bytes");
    [&size.to_be_bytes()[..], bytes].concat()
}

/// All that chunks hand out.
fn handed<'c>(stream: &mut Stream<'_>, chunks: impl IntoIterator<Item = &'c [u8]>) -> Handed {
    let mut all = Vec::new();
    for chunk in chunks {
        let mut frames = stream.read(chunk);
        while let Some(frame) = frames.next() {
            all.push(frame.map(|message| message.bytes().to_vec()));
        }
    }
    all
}

/// What is handed out over a fresh stream, where it then stands by its two tests, and the buffer.
fn read(buffer: &[u8], chunks: &[&[u8]]) -> (Handed, (bool, bool), Vec<u8>) {
    let mut held = buffer.to_vec();
    let mut stream = Stream::new(&mut held);
    let all = handed(&mut stream, chunks.iter().copied());
    let stands = (stream.is_between(), stream.is_refused());
    (all, stands, held)
}

const BETWEEN: (bool, bool) = (true, false);
const WITHIN: (bool, bool) = (false, false);
const REFUSED: (bool, bool) = (false, true);

/// Bytes that count up from one.
fn counted(from: u8, count: usize) -> Vec<u8> {
    (0..count).map(|i| from.wrapping_add(i as u8)).collect()
}

#[test]
fn frames_below_240_bytes() {
    let first = read(&[9; 4], &[&[0, 3, 1, 2, 3, 4]]);
    assert_eq!(first, (vec![Err(MessageTooShort)], WITHIN, vec![1, 2, 3, 9]));
    assert_eq!(read(&[], &[&[0, 0]]), (vec![Err(MessageTooShort)], BETWEEN, vec![]));
    let frame = framed(&[7; 239]);
    assert_eq!(read(&[9; 240], &[&frame[..240]]), (vec![], WITHIN, [vec![7; 238], vec![9, 9]].concat()));
    let whole = read(&[9; 240], &[&frame]);
    assert_eq!(whole, (vec![Err(MessageTooShort)], BETWEEN, [vec![7; 239], vec![9]].concat()));
}

#[test]
fn sizes_above_the_buffer() {
    assert_eq!(read(&[9], &[&[0, 2, 1]]), (vec![Err(SizeAboveBuffer)], REFUSED, vec![9]));
    assert_eq!(read(&[9; 240], &[&[0, 241]]), (vec![Err(SizeAboveBuffer)], REFUSED, vec![9; 240]));
    let cut: [&[u8]; 6] = [&[0], &[2, 5, 6], &[], &[0], &[1, 7, 0], &[4, 5]];
    let all = vec![Err(MessageTooShort), Err(MessageTooShort), Err(SizeAboveBuffer)];
    assert_eq!(read(&[0xEE; 3], &cut), (all, REFUSED, vec![7, 6, 0xEE]));
}

#[test]
fn messages_that_are_cut() {
    let bytes = counted(1, 240);
    let (size, first, second) = ([0, 240], &bytes[..100], [&bytes[100..], &[0]].concat());
    let expected = (vec![Ok(bytes.clone())], WITHIN, [&bytes[..], &[0xEE]].concat());
    assert_eq!(read(&[0xEE; 241], &[&[&size, first].concat(), &second]), expected);
    let (first, second) = ([&[1, 0][..], &[7; 255]].concat(), [7, 0, 1, 8]);
    let held = [&[8][..], &[7; 255], &[0xEE; 44]].concat();
    let expected = (vec![Ok(vec![7; 256]), Err(MessageTooShort)], BETWEEN, held);
    assert_eq!(read(&[0xEE; 300], &[&first, &[], &second]), expected);
}

#[test]
fn buffers_of_any_length() {
    let largest = framed(&vec![7; 65535]);
    for len in [65535, 70000] {
        let (all, stands, held) = read(&vec![0xEE; len], &[&largest]);
        assert_eq!((all, stands), (vec![Ok(vec![7; 65535])], BETWEEN));
        assert_eq!(held[65535..], vec![0xEE; len - 65535]);
    }
    assert_eq!(read(&[0xEE; 65534], &[&largest]), (vec![Err(SizeAboveBuffer)], REFUSED, vec![0xEE; 65534]));
    let begun = read(&[0xEE; 70000], &[&[255, 255], &[0; 10]]);
    assert_eq!(begun, (vec![], WITHIN, [vec![0; 10], vec![0xEE; 69990]].concat()));
}

#[test]
fn a_refused_stream_stays_so_until_it_is_reset() {
    let mut buffer = [0xEE; 240];
    let mut stream = Stream::new(&mut buffer);
    let chunk = [0, 241, 0, 1, 7];
    let mut frames = stream.read(&chunk);
    assert_eq!(frames.next().map(|frame| frame.err()), Some(Some(SizeAboveBuffer)));
    // It is told once a chunk, so that no loop runs forever; what was not read is there for who goes on.
    assert!(frames.next().is_none() && frames.next().is_none());
    assert_eq!(frames.rest(), [0, 1, 7]);
    let rest = frames.rest();
    assert!(stream.is_refused() && !stream.is_between());
    for chunk in [rest, &[]] {
        assert_eq!(handed(&mut stream, [chunk]), [Err(SizeAboveBuffer)]);
    }
    stream.reset();
    assert!(!stream.is_refused() && stream.is_between());
    assert_eq!(handed(&mut stream, [rest]), [Err(MessageTooShort)]);
    // A reset drops what was gathered, and clears no buffer.
    assert_eq!(handed(&mut stream, [&[0, 240, 5, 5][..]]), []);
    stream.reset();
    assert_eq!(handed(&mut stream, [&[0, 1, 6, 0, 0][..]]), [Err(MessageTooShort), Err(MessageTooShort)]);
    assert_eq!(buffer[..3], [6, 5, 0xEE]);
}

#[test]
fn what_comes_behind_a_reset_is_read_as_sizes() {
    let mut buffer = [0xEE; 240];
    let mut stream = Stream::new(&mut buffer);
    let all = handed(&mut stream, [&[0][..], &[0xF1]]);
    assert_eq!((all, stream.is_refused()), (vec![Err(SizeAboveBuffer)], true));
    assert_eq!(handed(&mut stream, [&[0, 0][..]]), [Err(SizeAboveBuffer)]);
    stream.reset();
    assert_eq!(handed(&mut stream, [&[0, 1, 7][..]]), [Err(MessageTooShort)]);
    assert!(stream.is_between());
    assert_eq!((buffer[0], &buffer[1..]), (7, &[0xEE; 239][..]));
}

/// Some frames: a message, one of 3 bytes, one of none, a message, and the beginning of a third.
fn some_frames() -> (Vec<u8>, Handed) {
    let messages = [message_with(&[53, 1, 13, 255]), message_with(&[53, 1, 14, 12, 2, 104, 111, 255])];
    let [first, second] = &messages;
    let frames = [&framed(first)[..], &[0, 3, 1, 2, 3], &[0, 0], &framed(second), &[1, 4, 2, 1]];
    let all = vec![Ok(first.clone()), Err(MessageTooShort), Err(MessageTooShort), Ok(second.clone())];
    (frames.concat(), all)
}

#[test]
fn every_cut_is_as_none() {
    let (bytes, all) = some_frames();
    let uncut = read(&[0xEE; 300], &[&bytes]);
    assert_eq!((&uncut.0, uncut.1), (&all, WITHIN));
    for at in 0..=bytes.len() {
        let (first, second) = bytes.split_at(at);
        assert_eq!(read(&[0xEE; 300], &[first, second]), uncut, "cut at {at}");
        for further in (0..=second.len()).step_by(13) {
            let (second, third) = second.split_at(further);
            assert_eq!(read(&[0xEE; 300], &[first, &[], second, third]), uncut, "cut at {at} and {further} behind it");
        }
    }
    for size in 1..bytes.len() {
        assert_eq!(read(&[0xEE; 300], &bytes.chunks(size).collect::<Vec<_>>()), uncut, "in chunks of {size}");
    }
}

#[test]
fn an_end_is_clean_between_two_frames_alone() {
    let (bytes, _) = some_frames();
    let ends: Vec<usize> = (0..=bytes.len()).filter(|&at| read(&[0xEE; 300], &[&bytes[..at]]).1 == BETWEEN).collect();
    assert_eq!(ends, [0, 246, 251, 253, 503]);
}

/// A number that looks random, of those below another.
fn random(state: &mut u64, below: usize) -> usize {
    *state = state.wrapping_mul(6364136223846793005).wrapping_add(1442695040888963407);
    (*state >> 33) as usize % below
}

#[test]
fn many_messages_come_as_they_were_sent() {
    let mut state = 5;
    let sent: Vec<Vec<u8>> = (0..10_000).map(|i| counted(i as u8, 240 + random(&mut state, 400))).collect();
    let bytes: Vec<u8> = sent.iter().flat_map(|message| framed(message)).collect();
    let mut chunks = Vec::new();
    let mut rest = &bytes[..];
    while !rest.is_empty() {
        let most = [1, 3, 40, 1500][random(&mut state, 4)];
        let (chunk, behind) = rest.split_at(random(&mut state, most + 1).min(rest.len()));
        chunks.push(chunk);
        rest = behind;
    }
    let (all, stands, _) = read(&[0; 640], &chunks);
    assert!(chunks.len() > 10_000 && stands == BETWEEN);
    assert!(all == sent.into_iter().map(Ok).collect::<Vec<_>>());
}

#[test]
fn a_message_is_read_where_it_stands() {
    let bytes = message_with(&[53, 1, 13, 255]);
    let mut buffer = [0; 300];
    let mut stream = Stream::new(&mut buffer);
    let chunk = framed(&bytes);
    let mut frames = stream.read(&chunk);
    let message: Message<'_> = frames.next().expect("a frame is whole").expect("it is a message");
    assert_eq!((message.bytes(), message.opcode()), (&bytes[..], 2));
    let mut join = [0; 8];
    assert_eq!(message.opts(&mut join).map(|opt| opt.map(|opt| opt.code())).collect::<Vec<_>>(), [Ok(53)]);
}

#[test]
fn single_calls() {
    let filling = |size, filled| calls::Stream { state: calls::Stream::FILLING, high: 0, size, filled };
    let more = |used, stream| calls::Received { refused: 0, len: 0, used, stream };
    let mut buffer = [0xEE; 5];
    assert_eq!(calls::receive(filling(5, 2), &mut buffer, &[3, 4]), more(2, filling(5, 4)));
    assert_eq!(buffer, [0xEE, 0xEE, 3, 4, 0xEE]);
    let shut = calls::Stream { state: calls::Stream::SHUT, ..calls::Stream::default() };
    let refused = calls::Received { refused: 17, len: 0, used: 0, stream: shut };
    assert_eq!(calls::receive(filling(5, 2), &mut [0xEE; 4], &[]), refused);
    assert_eq!(calls::receive(shut, &mut [0xEE; 4], &[0, 0]), refused);
    let sizing = calls::Stream { state: calls::Stream::SIZING, high: 1, ..calls::Stream::default() };
    assert_eq!(calls::receive(sizing, &mut [0xEE; 300], &[0]), more(1, filling(256, 0)));
    // A frame of which nothing is missing, as no call leaves it.
    let whole = calls::Received { refused: 0, len: 240, used: 0, stream: calls::Stream::default() };
    for filled in [240, 241, u16::MAX] {
        assert_eq!(calls::receive(filling(240, filled), &mut [0xEE; 240], &[7]), whole);
    }
}

#[test]
fn what_it_says_of_itself() {
    let mut buffer = [0; 300];
    let mut stream = Stream::new(&mut buffer);
    let stands = "Stream { state: 0, high: 0, size: 0, filled: 0 }";
    assert_eq!(format!("{stream:?}"), format!("Stream {{ stands: {stands}, buffer: 300 }}"));
    let frames = stream.read(&[1, 2, 3]);
    assert_eq!(
        format!("{frames:?}"),
        format!("Frames {{ stream: Stream {{ stands: {stands}, buffer: 300 }}, rest: 3 }}")
    );
}
