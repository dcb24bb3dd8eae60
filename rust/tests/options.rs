//! The walk, with document 01's worked examples.

mod common;

use common::message_with;
use sindovaleph::{Ending, Message, Opt, Options, Refusal, Stop, Value};

/// What calls of the walk give until the place no longer moves: an option as its code, value, parts and place, or a
/// stop and its place.
#[derive(Debug, PartialEq)]
enum Call {
    Found(u8, Vec<u8>, usize, usize),
    Stopped(Stop, usize),
}

use Call::{Found, Stopped};

fn calls(area: &[u8]) -> Vec<Call> {
    let mut join = vec![0; area.len()];
    let mut options = Options::new(area, &mut join);
    let mut calls = Vec::new();
    loop {
        calls.push(match (options.next(), options.ending()) {
            (Some(Ok(opt)), _) => Found(opt.code(), opt.data().to_vec(), opt.parts(), opt.place()),
            (None, Some(Ending::Stopped(stop))) => Stopped(stop, options.place()),
            other => panic!("{other:?}"),
        });
        if let Some(Stopped(Stop::Out, _)) = calls.last() {
            return calls;
        }
    }
}

#[test]
fn worked_examples() {
    let p1 = calls(&[12, 3, 97, 98, 99, 255]);
    assert_eq!(p1, [Found(12, b"abc".to_vec(), 1, 5), Stopped(Stop::End, 6), Stopped(Stop::Out, 6)]);
    assert_eq!(calls(&[12, 1, 65, 12, 1, 66, 255])[0], Found(12, vec![65, 66], 2, 6));
    let p3 = calls(&[12, 1, 65, 0, 12, 1, 66]);
    assert_eq!(p3, [Found(12, vec![65], 1, 3), Found(12, vec![66], 1, 7), Stopped(Stop::Out, 7)]);
    let p4 = calls(&[12, 1, 65, 12, 1, 66, 12, 5]);
    let cut = Stop::CutContinuation;
    assert_eq!(p4, [Stopped(cut, 3), Stopped(cut, 6), Stopped(Stop::CutValue, 8), Stopped(Stop::Out, 8)]);
    let p5 = calls(&[12, 5, 65, 66]);
    assert_eq!(p5, [Stopped(Stop::CutValue, 2), Stopped(Stop::CutValue, 4), Stopped(Stop::Out, 4)]);
    assert_eq!(calls(&[12])[0], Stopped(Stop::CutLength, 1));
    assert_eq!(calls(&[]), [Stopped(Stop::Out, 0)]);
    assert_eq!(calls(&[0, 0]), [Stopped(Stop::Out, 2)]);
    let p9 = calls(&[255, 1, 4, 255, 255, 255, 0]);
    assert_eq!(p9, [Stopped(Stop::End, 1), Found(1, vec![255, 255, 255, 0], 1, 7), Stopped(Stop::Out, 7)]);
}

#[test]
fn stops_have_numbers_and_names() {
    let all = [Stop::Out, Stop::End, Stop::CutLength, Stop::CutValue, Stop::CutContinuation];
    assert_eq!((0..=255).filter_map(Stop::from_number).collect::<Vec<_>>(), all);
    assert_eq!(all.map(Stop::number), [1, 2, 3, 4, 5]);
    let names: Vec<String> = all.iter().map(Stop::to_string).collect();
    assert_eq!(names, ["out", "end", "cut length", "cut value", "cut continuation"]);
}

#[test]
fn joined_options_can_be_collected() {
    // Three options of two parts with four bytes in all, one of one part, and an empty one of two parts.
    let area = [12, 1, 1, 12, 1, 2, 13, 1, 3, 13, 1, 4, 9, 2, 5, 6, 12, 0, 12, 0, 255];
    let bytes = message_with(&area);
    let message = Message::new(&bytes).unwrap();
    let mut join = [99; 6];
    let all: Vec<Opt> = message.opts(&mut join).collect::<Result<_, _>>().unwrap();
    let found: Vec<_> = all.iter().map(|opt| (opt.code(), opt.data(), opt.len(), opt.is_empty())).collect();
    let expected: [(u8, &[u8], usize, bool); 4] =
        [(12, &[1, 2], 2, false), (13, &[3, 4], 2, false), (9, &[5, 6], 2, false), (12, &[], 0, true)];
    assert_eq!(found, expected);
    assert_eq!(join, [1, 2, 3, 4, 99, 99]);
}

/// A byte; a name of 3 bytes in two parts; a byte; End.
const SPLIT: [u8; 14] = [9, 1, 7, 12, 1, 65, 12, 2, 66, 67, 23, 1, 64, 255];

#[test]
fn a_loop_gets_the_refusal_of_a_join_buffer_that_is_too_short() {
    fn codes(join: &mut [u8]) -> Result<Vec<u8>, Refusal> {
        let bytes = message_with(&SPLIT);
        let mut codes = Vec::new();
        for opt in Message::new(&bytes)?.opts(join) {
            codes.push(opt?.code());
        }
        Ok(codes)
    }
    assert_eq!(codes(&mut [0; 3]), Ok(vec![9, 12, 23]));
    assert_eq!(codes(&mut [0; 2]), Err(Refusal::JoinTooShort));
    assert_eq!(codes(&mut []), Err(Refusal::JoinTooShort));
}

#[test]
fn a_refusal_is_told_once_and_no_loop_runs_forever() {
    let mut options = Options::new(&SPLIT, &mut []);
    assert_eq!(options.by_ref().filter_map(Result::ok).count(), 1);
    assert_eq!((options.next(), options.next()), (None, None));
    assert_eq!((options.ending(), options.is_closed()), (Some(Ending::Needs(3)), false));
    let mut options = Options::at(&SPLIT, 15, &mut []);
    assert_eq!((options.by_ref().count(), options.count()), (1, 0));
}

#[test]
fn a_join_buffer_that_is_too_short_can_be_replaced() {
    let mut short = [99; 2];
    let mut options = Options::new(&SPLIT, &mut short);
    assert_eq!(options.next().map(|opt| opt.map(|opt| opt.code())), Some(Ok(9)));
    assert_eq!(options.next(), Some(Err(Refusal::JoinTooShort)));
    assert_eq!((options.ending(), options.place()), (Some(Ending::Needs(3)), 3));
    let place = options.place();
    let mut long = [99; 4];
    let mut options = Options::at(&SPLIT, place, &mut long);
    assert_eq!(options.next().map(|opt| opt.map(|opt| (opt.code(), opt.data()))), Some(Ok((12, &[65, 66, 67][..]))));
    assert_eq!((short, long), ([99; 2], [65, 66, 67, 99]));
}

#[test]
fn what_is_left_to_join_in_gets_shorter() {
    let area = [12, 1, 65, 12, 1, 66, 13, 1, 67, 13, 1, 68];
    let mut join = [0; 3];
    let mut options = Options::new(&area, &mut join);
    assert_eq!(options.next().map(|opt| opt.map(|opt| opt.data())), Some(Ok(&[65, 66][..])));
    assert_eq!(options.next(), Some(Err(Refusal::JoinTooShort)));
    assert_eq!(options.ending(), Some(Ending::Needs(2)));
}

#[test]
fn a_cut_walk_is_told_from_a_closed_one() {
    // Whole; cut in the value, behind the length, behind the code, between options; and another message's magic.
    let closed = |area: &[u8]| {
        let mut options = Options::new(area, &mut []);
        assert!(!options.is_closed() && options.ending().is_none());
        assert!(options.by_ref().all(|opt| opt.is_ok()));
        (options.is_closed(), options.ending())
    };
    let area = [53, 1, 5, 51, 4, 0, 0, 14, 16, 255];
    assert_eq!(closed(&area), (true, Some(Ending::Stopped(Stop::End))));
    assert_eq!(closed(&area[..8]), (false, Some(Ending::Stopped(Stop::CutValue))));
    assert_eq!(closed(&area[..5]), (false, Some(Ending::Stopped(Stop::CutValue))));
    assert_eq!(closed(&area[..4]), (false, Some(Ending::Stopped(Stop::CutLength))));
    assert_eq!(closed(&area[..3]), (false, Some(Ending::Stopped(Stop::Out))));
    assert_eq!(closed(&[]), (false, Some(Ending::Stopped(Stop::Out))));
}

#[test]
fn endings_have_words_and_refusals() {
    let all = [Ending::Stopped(Stop::CutValue), Ending::Refused(Refusal::PastEnd), Ending::Needs(3)];
    assert_eq!(all.map(Ending::refusal), [None, Some(Refusal::PastEnd), Some(Refusal::JoinTooShort)]);
    let words = all.map(|ending| ending.to_string());
    assert_eq!(words[..2], ["cut value", "the place or the index is past the end"]);
    assert_eq!(words[2], "the room to join the option's parts in is too short: it takes 3 bytes");
}

#[test]
fn a_join_buffer_of_the_areas_length_always_suffices() {
    // Bytes of few values, so that parts join, stops come and reading goes on behind them.
    let mut state = 7_u32;
    for _ in 0..300 {
        let area: Vec<u8> = (0..60)
            .map(|_| {
                state = state.wrapping_mul(1_664_525).wrapping_add(1_013_904_223);
                [0, 1, 2, 3, 1, 2, 12, 255][(state >> 29) as usize]
            })
            .collect();
        assert!(calls(&area).len() > 1);
    }
}

#[test]
fn refused_walks_stay_where_they_are() {
    let area = vec![0; 65_536];
    let mut options = Options::new(&area, &mut []);
    assert_eq!(options.ending(), None);
    assert_eq!(options.next(), Some(Err(Refusal::TooLong)));
    assert_eq!((options.next(), options.ending()), (None, Some(Ending::Refused(Refusal::TooLong))));
    let mut options = Options::at(&[1, 2], 3, &mut []);
    assert_eq!(options.next(), Some(Err(Refusal::PastEnd)));
    assert_eq!((options.next(), options.ending()), (None, Some(Ending::Refused(Refusal::PastEnd))));
    assert_eq!(options.place(), 3);
    let mut options = Options::at(&[1, 2], 2, &mut []);
    assert_eq!((options.next(), options.ending()), (None, Some(Ending::Stopped(Stop::Out))));
}

#[test]
fn options_are_read() {
    let area = [19, 1, 2, 12, 1, 97, 12, 1, 98, 3, 0, 3, 0];
    let mut join = [0; 2];
    let all: Vec<Opt> = Options::new(&area, &mut join).collect::<Result<_, _>>().unwrap();
    assert_eq!((all[0].read(), all[0].read_strict()), (Ok(Value::YesNo(false)), Err(Refusal::UnclearYesNo)));
    assert_eq!((all[1].read(), all[1].read_strict()), (Ok(Value::Text("ab")), Ok(Value::Text("ab"))));
    assert!(matches!(all[2].read(), Ok(Value::Addresses(routers)) if routers.is_empty()));
    assert_eq!(all[2].read_strict(), Err(Refusal::WrongLength));
}
