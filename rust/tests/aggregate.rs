//! RFC 3396's reading: all parts of one code, over the fields that option 52 names.

mod common;

use common::message_with;
use sindovaleph::Refusal::{self, *};
use sindovaleph::{Entries, EntryRow, Message, Opt, OptRefused, Options, Overload, Stop, Value, calls, codes};

/// A message with such options, file and sname.
fn message(options: &[u8], file: &[u8], sname: &[u8]) -> Vec<u8> {
    let mut bytes = message_with(options);
    bytes[108..108 + file.len()].copy_from_slice(file);
    bytes[44..44 + sname.len()].copy_from_slice(sname);
    bytes
}

/// What a call tells: an option's code, value, parts and place; none; or what is refused.
#[derive(Debug, PartialEq)]
enum Told {
    Found(u8, Vec<u8>, usize, usize),
    Out,
    Refused(Refusal),
    Needs(usize),
}

use Told::{Found, Needs, Out, Refused};

fn told(found: Result<Option<Opt<'_>>, OptRefused>) -> Told {
    match found {
        Ok(Some(opt)) => Found(opt.code(), opt.data().to_vec(), opt.parts(), opt.place()),
        Ok(None) => Out,
        Err(OptRefused { refusal: JoinTooShort, needs: Some(len) }) => Needs(len),
        Err(OptRefused { refusal, needs }) => {
            assert_eq!(needs, None, "{refusal}");
            Refused(refusal)
        }
    }
}

/// Whether a call left all of the join buffer as it was, or all but so many bytes of its front.
fn assert_kept(join: &[u8], told: &Told) {
    let joined = if let Found(_, value, 2.., _) = told { value.len() } else { 0 };
    assert!(join[joined..].iter().all(|&byte| byte == 0xEE), "{told:?} leaves {join:?}");
}

fn find(bytes: &[u8], code: u8, room: usize) -> Told {
    let mut join = vec![0xEE; room];
    let told = told(Message::new(bytes).unwrap().find(code, &mut join));
    assert_kept(&join, &told);
    told
}

fn entry(bytes: &[u8], index: usize, room: usize) -> Told {
    let mut join = vec![0xEE; room];
    let told = told(Message::new(bytes).unwrap().entry(index, &mut join));
    assert_kept(&join, &told);
    told
}

/// 12 in all three fields, and 52 in two.
fn in_three_fields() -> Vec<u8> {
    message(&[12, 1, 65, 52, 1, 3, 255, 12], &[0, 12, 1, 66, 52, 1, 9], &[12, 1, 67, 255])
}

/// The name `/diskless/foo` in the two parts of RFC 3396, section 8, one in the options field and one in file.
fn diskless() -> Vec<u8> {
    message(b"\x34\x01\x01\x43\x07/diskle\xFF", b"\x43\x06ss/foo\xFF", &[])
}

#[test]
fn parts_that_are_no_neighbours_are_joined() {
    let bytes = message_with(&[12, 1, 65, 1, 0, 12, 1, 66, 255]);
    assert_eq!(find(&bytes, 12, 2), Found(12, vec![65, 66], 2, 248));
    assert_eq!(find(&bytes, 12, 1), Needs(2));
    assert_eq!(entry(&bytes, 0, 2), Found(12, vec![65, 66], 2, 248));
    assert_eq!((entry(&bytes, 1, 0), entry(&bytes, 2, 0)), (Found(1, vec![], 1, 245), Out));
    assert_eq!((find(&bytes, 13, 9), find(&bytes, 52, 9)), (Out, Out));
}

#[test]
fn fields_are_joined_in_their_order() {
    let bytes = in_three_fields();
    assert_eq!(find(&bytes, 12, 3), Found(12, vec![65, 66, 67], 3, 47));
    assert_eq!(entry(&bytes, 0, 9), Found(12, vec![65, 66, 67], 3, 47));
    // The 52 of file is listed and steers nothing.
    assert_eq!(entry(&bytes, 1, 2), Found(52, vec![3, 9], 2, 115));
    assert_eq!((entry(&bytes, 2, 9), entry(&bytes, usize::MAX, 9)), (Out, Out));
}

#[test]
fn the_example_of_rfc_3396() {
    assert_eq!(find(&diskless(), codes::BOOTFILE_NAME, 13), Found(67, b"/diskless/foo".to_vec(), 2, 116));
    assert_eq!(find(&diskless(), codes::BOOTFILE_NAME, 12), Needs(13));
}

#[test]
fn one_part_is_shown_where_it_stands() {
    let bytes = message(&[52, 1, 3, 255], &[0, 0, 0, 12, 2, 104, 105, 255], &[]);
    assert_eq!(find(&bytes, 12, 0), Found(12, vec![104, 105], 1, 115));
    let message = Message::new(&bytes).unwrap();
    let shown = message.find(12, &mut []).unwrap().unwrap().data();
    assert_eq!(shown.as_ptr(), bytes[113..].as_ptr());
}

#[test]
fn a_field_ends_with_its_last_byte() {
    let whole: Vec<u8> = [12, 126].into_iter().chain(1..=126).collect();
    let bytes = message(&[52, 1, 1], &whole, &[]);
    assert_eq!(find(&bytes, 12, 0), Found(12, (1..=126).collect(), 1, 236));
    let sname: Vec<u8> = [12, 62].into_iter().chain(1..=62).collect();
    assert_eq!(find(&message(&[52, 1, 2], &[], &sname), 12, 0), Found(12, (1..=62).collect(), 1, 108));
    // A Pad or an End as the last byte is no cut; a code is, and so is a length of one byte more.
    let last = |byte| [vec![0; 127], vec![byte]].concat();
    assert_eq!(find(&message(&[52, 1, 1], &last(0), &[]), 12, 0), Out);
    assert_eq!(find(&message(&[52, 1, 1], &last(255), &[]), 12, 0), Out);
    assert_eq!(find(&message(&[52, 1, 1], &last(12), &[]), 12, 0), Refused(FieldCut));
    assert_eq!(find(&message(&[52, 1, 1], &[12, 127], &[]), 12, 0), Refused(FieldCut));
    assert_eq!(find(&message(&[52, 1, 2], &[], &[12, 63]), 12, 0), Refused(FieldCut));
}

#[test]
fn a_field_that_is_not_named_is_not_looked_at() {
    let cut = [12, 200];
    assert_eq!(find(&message(&[52, 1, 2], &cut, &[]), 12, 9), Out);
    assert_eq!(find(&message(&[52, 1, 1], &[], &cut), 12, 9), Out);
    assert_eq!(find(&message(&[255, 52, 1, 3], &cut, &cut), 12, 9), Out);
    assert_eq!(find(&message(&[52, 1, 3], &cut, &[]), 12, 9), Refused(FieldCut));
    assert_eq!(find(&message(&[52, 1, 3], &[], &cut), 12, 9), Refused(FieldCut));
}

#[test]
fn what_option_52_says() {
    let says = |options: &[u8]| Message::new(&message_with(options)).unwrap().overload();
    let all = [(0, Overload::Neither), (1, Overload::File), (2, Overload::Sname), (3, Overload::Both)];
    for (number, overload) in all {
        let options = if number == 0 { vec![12, 1, 65] } else { vec![12, 1, 65, 52, 1, number] };
        assert_eq!(says(&options), Ok(overload));
        let named = (number & 1 == 1, number & 2 == 2);
        assert_eq!((overload.has_file(), overload.has_sname()), named);
    }
    assert_eq!(says(&[255, 52, 1, 1]), Ok(Overload::Neither));
    assert_eq!((says(&[52, 1, 1, 12]), says(&[52, 1, 0])), (Err(FieldCut), Err(UnclearOverload)));
}

#[test]
fn an_unclear_option_52_is_refused() {
    let unclear: [&[u8]; 7] = [
        &[52, 1, 4],
        &[52, 1, 0],
        &[52, 1, 255],
        &[52, 1, 1, 0, 52, 0],
        &[52, 1, 1, 12, 0, 52, 1, 1],
        &[52, 2, 1, 1],
        &[52, 0],
    ];
    for options in unclear {
        let bytes = message(options, &[12, 200], &[]);
        assert_eq!((find(&bytes, 12, 9), entry(&bytes, 0, 9)), (Refused(UnclearOverload), Refused(UnclearOverload)));
        assert_eq!(calls::overload(&bytes), calls::Field { refused: 16, number: 0 });
    }
    // Behind End it is not seen.
    assert_eq!(find(&message_with(&[52, 1, 1, 255, 52, 0]), 52, 0), Found(52, vec![1], 1, 243));
}

#[test]
fn refusals_come_in_their_order() {
    let (short, long) = (vec![0; 239], vec![0; 65_536]);
    let number = |bytes: &[u8], code| calls::find(bytes, code, &mut []).refused;
    // 2 and 1 before 6, and 6 before 15.
    assert_eq!((number(&long, 0), number(&short, 0)), (2, 1));
    for code in [0, 255] {
        assert_eq!(find(&message_with(&[52, 0, 12]), code, 0), Refused(NoSuchCode));
    }
    // 15 of the options field before 16, 16 before 15 of a named field, and that before 5.
    assert_eq!(find(&message_with(&[52, 0, 12]), 12, 0), Refused(FieldCut));
    assert_eq!(find(&message(&[52, 1, 1, 0, 52, 1, 1], &[12, 200], &[]), 12, 0), Refused(UnclearOverload));
    assert_eq!(find(&message(&[12, 1, 65, 12, 1, 66, 52, 1, 1], &[12, 200], &[]), 12, 0), Refused(FieldCut));
    assert_eq!(find(&message_with(&[12, 1, 65, 12, 1, 66]), 12, 0), Needs(2));
}

#[test]
fn every_call_refuses_a_message_alike() {
    let refused = [
        (2, vec![0; 65_536]),
        (1, vec![0; 239]),
        (15, message_with(&[12])),
        (16, message_with(&[52, 1, 9])),
        (15, message(&[52, 1, 3], &[12, 200], &[])),
    ];
    for (number, bytes) in refused {
        let step = calls::Step { refused: number, stop: 0, code: 0, parts: 0, len: 0, place: 0 };
        let (mut join, mut rows) = ([0xEE; 9], [calls::Row { code: 1, parts: 2, len: 3, place: 4 }; 2]);
        let before = rows;
        assert_eq!(calls::overload(&bytes), calls::Field { refused: number.into(), number: 0 });
        assert_eq!((calls::find(&bytes, 12, &mut join), calls::entry(&bytes, 0, &mut join)), (step, step));
        assert_eq!(calls::entries(&bytes, &mut rows), calls::Entries { refused: number, codes: 0 });
        assert_eq!((join, rows), ([0xEE; 9], before));
        let Ok(message) = Message::new(&bytes) else { continue };
        let refusal = Refusal::from_number(number).unwrap();
        assert_eq!(message.overload(), Err(refusal));
        assert_eq!(message.list_entries(&mut [EntryRow::default()]), Err(refusal));
        assert_eq!(message.entries(&mut join).collect::<Vec<_>>(), [Err(refusal)]);
    }
}

#[test]
fn empty_parts_are_counted() {
    let bytes = message_with(&[12, 0, 1, 0, 12, 0]);
    assert_eq!(find(&bytes, 12, 0), Found(12, vec![], 2, 246));
}

#[test]
fn with_another_magic_there_are_no_options() {
    let mut bytes = message(&[52, 1, 3, 12, 1, 65, 255], &[12, 1, 66], &[]);
    bytes[239] = 0;
    assert_eq!((find(&bytes, 12, 9), entry(&bytes, 0, 9)), (Out, Out));
    let message = Message::new(&bytes).unwrap();
    assert_eq!((message.overload(), message.list_entries(&mut [])), (Ok(Overload::Neither), Ok(0)));
    assert_eq!(message.entries(&mut []).count(), 0);
}

#[test]
fn what_stands_in_a_value_is_no_part() {
    // Before the last part of 12 stands what looks like a part of it, in a value of 7.
    let bytes = message_with(&[12, 1, 65, 7, 3, 12, 1, 66, 12, 1, 67]);
    assert_eq!(find(&bytes, 12, 2), Found(12, vec![65, 67], 2, 251));
}

#[test]
fn a_refusal_is_made_by_a_question_mark() {
    fn name(bytes: &[u8], join: &mut [u8]) -> Result<Option<Vec<u8>>, Refusal> {
        let message = Message::new(bytes)?;
        let opt = message.find(12, join)?;
        Ok(opt.map(|opt| opt.data().to_vec()))
    }
    assert_eq!(name(&in_three_fields(), &mut [0; 3]), Ok(Some(b"ABC".to_vec())));
    assert_eq!(name(&in_three_fields(), &mut [0; 2]), Err(JoinTooShort));
    assert_eq!(name(&diskless(), &mut []), Ok(None));
    assert_eq!(name(&message_with(&[12]), &mut []), Err(FieldCut));
}

#[test]
fn what_is_refused_says_how_much_it_needs() {
    let bytes = diskless();
    let refused = Message::new(&bytes).unwrap().find(67, &mut [0; 12]).unwrap_err();
    assert_eq!(refused, OptRefused { refusal: JoinTooShort, needs: Some(13) });
    let refused = Message::new(&bytes).unwrap().find(255, &mut []).unwrap_err();
    assert_eq!(refused, OptRefused { refusal: NoSuchCode, needs: None });
}

#[test]
fn all_options_are_joined_at_once() {
    let bytes =
        message(&[12, 1, 104, 53, 1, 3, 15, 1, 97, 12, 1, 105, 52, 1, 1, 255], &[15, 1, 98, 200, 0, 200, 0], &[]);
    let message = Message::new(&bytes).unwrap();
    let mut join = [0xEE; 6];
    let all: Vec<Opt> = message.entries(&mut join).collect::<Result<_, _>>().unwrap();
    let read: Vec<_> = all.iter().map(|opt| (opt.code(), opt.read(), opt.parts(), opt.place())).collect();
    assert_eq!(
        read,
        [
            (12, Ok(Value::Text("hi")), 2, 252),
            (53, Ok(Value::MessageType(3)), 1, 246),
            (15, Ok(Value::Text("ab")), 2, 111),
            (52, Ok(Value::Byte(1)), 1, 255),
            (200, Ok(Value::Raw(&[])), 2, 115),
        ]
    );
    assert_eq!((all[0].read_strict(), all[4].is_empty()), (Ok(Value::Text("hi")), true));
    assert_eq!(join, [104, 105, 97, 98, 0xEE, 0xEE]);
}

#[test]
fn a_listing_tells_a_refusal_once() {
    let bytes = message_with(&[9, 0, 12, 1, 65, 12, 2, 66, 67, 13, 0]);
    let message = Message::new(&bytes).unwrap();
    let mut join = [0xEE; 2];
    let mut entries: Entries<'_> = message.entries(&mut join);
    assert_eq!(entries.next().map(|opt| opt.map(|opt| opt.code())), Some(Ok(9)));
    assert_eq!((entries.index(), entries.refused()), (1, None));
    assert_eq!(entries.next(), Some(Err(JoinTooShort)));
    assert_eq!((entries.next(), entries.next(), entries.index()), (None, None, 1));
    let refused = OptRefused { refusal: JoinTooShort, needs: Some(3) };
    assert_eq!(entries.refused(), Some(refused));
    assert_eq!(join, [0xEE; 2]);
    assert_eq!(entry(&bytes, 1, 3), Found(12, vec![65, 66, 67], 2, 249));
}

#[test]
fn what_is_left_to_join_in_gets_shorter() {
    let bytes = message_with(&[12, 1, 65, 13, 1, 67, 12, 1, 66, 13, 1, 68]);
    let message = Message::new(&bytes).unwrap();
    let mut join = [0; 3];
    let mut entries = message.entries(&mut join);
    assert_eq!(entries.next().map(|opt| opt.map(|opt| opt.data())), Some(Ok(&[65, 66][..])));
    assert_eq!(entries.next(), Some(Err(JoinTooShort)));
    assert_eq!(entries.refused().and_then(|refused| refused.needs), Some(2));
}

#[test]
fn behind_the_last_option_comes_nothing() {
    let bytes = message_with(&[12, 1, 65]);
    let message = Message::new(&bytes).unwrap();
    let mut entries = message.entries(&mut []);
    assert_eq!(entries.by_ref().count(), 1);
    assert_eq!((entries.next(), entries.next(), entries.index(), entries.refused()), (None, None, 1, None));
}

fn numbers(row: &EntryRow) -> (u8, usize, usize, usize) {
    (row.code(), row.parts(), row.len(), row.place())
}

#[test]
fn rows_are_filled_in_one_call() {
    let bytes = in_three_fields();
    let message = Message::new(&bytes).unwrap();
    let mut rows = [EntryRow::default(); 3];
    assert_eq!(message.list_entries(&mut rows), Ok(2));
    assert_eq!(rows.each_ref().map(numbers), [(12, 3, 3, 47), (52, 2, 2, 115), (0, 0, 0, 0)]);
    assert_eq!((rows[0].data(&message), rows[0].is_empty(), rows[2].is_empty()), (None, false, true));
    let mut join = [0; 3];
    assert_eq!(message.find(rows[0].code(), &mut join).unwrap().unwrap().data(), b"ABC");
    // As many rows as there are, and the number of codes all the same.
    let mut rows = [EntryRow::default(); 1];
    assert_eq!((message.list_entries(&mut rows), message.list_entries(&mut [])), (Ok(2), Ok(2)));
    assert_eq!(numbers(&rows[0]), (12, 3, 3, 47));
    let bytes = message_with(&[12, 2, 104, 105, 9, 0, 7, 1, 1, 9, 0]);
    let message = Message::new(&bytes).unwrap();
    let mut rows = [EntryRow::default(); 3];
    assert_eq!(message.list_entries(&mut rows), Ok(3));
    let data = rows.each_ref().map(|row| row.data(&message));
    assert_eq!(data, [Some(&b"hi"[..]), Some(&[]), Some(&[1])]);
}

#[test]
fn numbers_behind_the_last_row_are_left() {
    let bytes = in_three_fields();
    let kept = calls::Row { code: 1, parts: 2, len: 3, place: 4 };
    let mut rows = [kept; 3];
    assert_eq!(calls::entries(&bytes, &mut rows[..1]), calls::Entries { refused: 0, codes: 2 });
    assert_eq!(rows, [calls::Row { code: 12, parts: 3, len: 3, place: 47 }, kept, kept]);
}

/// Every code from 254 down to 1 with one byte, then all of them once more, in a message of 254 codes.
fn every_code() -> Vec<u8> {
    let once = |byte: u8| (1..=254).rev().flat_map(move |code| [code, 1, if code == 52 { 3 } else { byte }]);
    let twice = (1..=254).rev().filter(|&code| code != 52).flat_map(|code| [code, 1, 8]);
    message_with(&once(7).chain(twice).collect::<Vec<_>>())
}

#[test]
fn a_message_has_at_most_254_codes() {
    let bytes = every_code();
    let message = Message::new(&bytes).unwrap();
    let mut rows = [EntryRow::default(); 254];
    assert_eq!(message.list_entries(&mut rows), Ok(254));
    let codes: Vec<u8> = rows.iter().map(EntryRow::code).collect();
    assert_eq!(codes, (1..=254).rev().collect::<Vec<u8>>());
    assert_eq!((entry(&bytes, 253, 2), entry(&bytes, 254, 2)), (Found(1, vec![7, 8], 2, bytes.len()), Out));
    assert_eq!(find(&bytes, 254, 2), Found(254, vec![7, 8], 2, 240 + 254 * 3 + 3));
}

/// Bytes of few values, so that parts come together, fields are named and some are cut.
fn drawn(state: &mut u32) -> Vec<u8> {
    let mut bytes = |len: usize| -> Vec<u8> {
        let draw = |_| {
            *state = state.wrapping_mul(1_664_525).wrapping_add(1_013_904_223);
            [0, 1, 1, 2, 12, 52, 1, 255][(*state >> 29) as usize]
        };
        (0..len).map(draw).collect()
    };
    let (options, file, sname) = (bytes(14), bytes(6), bytes(6));
    let overload = options[0] % 4;
    let options = if overload == 0 { options } else { [vec![52, 1, overload], options].concat() };
    message(&options, &file, &sname)
}

#[test]
fn all_three_ways_tell_the_same() {
    let mut state = 7;
    let mut told_options = 0;
    for _ in 0..2_000 {
        let bytes = drawn(&mut state);
        let message = Message::new(&bytes).unwrap();
        let mut rows = [EntryRow::default(); 254];
        let Ok(count) = message.list_entries(&mut rows) else { continue };
        // A join buffer of the message's length always suffices.
        let mut join = vec![0; bytes.len()];
        let all: Vec<Opt> = message.entries(&mut join).collect::<Result<_, _>>().unwrap();
        assert_eq!(all.len(), count);
        for (index, (row, opt)) in rows.iter().zip(&all).enumerate() {
            assert_eq!(numbers(row), (opt.code(), opt.parts(), opt.len(), opt.place()));
            let found = Found(opt.code(), opt.data().to_vec(), opt.parts(), opt.place());
            assert_eq!(find(&bytes, opt.code(), opt.len()), found);
            assert_eq!(entry(&bytes, index, opt.len()), found);
            told_options += 1;
        }
    }
    assert!(told_options > 500, "{told_options}");
}

#[test]
fn without_a_split_it_is_what_the_walk_finds() {
    let area = [53, 1, 5, 51, 4, 0, 0, 14, 16, 12, 2, 104, 111, 12, 2, 115, 116, 15, 1, 97, 255];
    let bytes = message_with(&area);
    let message = Message::new(&bytes).unwrap();
    let (mut join, mut walk) = ([0; 4], [0; 4]);
    let entries: Vec<_> = message.entries(&mut join).map(Result::unwrap).collect();
    let mut options: Options<'_> = message.opts(&mut walk);
    let walked: Vec<_> = options.by_ref().map(Result::unwrap).collect();
    assert_eq!(options.ending().map(|ending| ending.to_string()), Some(Stop::End.to_string()));
    assert_eq!(entries.len(), walked.len());
    for (entry, opt) in entries.iter().zip(&walked) {
        assert_eq!((entry.code(), entry.data(), entry.parts()), (opt.code(), opt.data(), opt.parts()));
        // The place of the one is in the message, and of the other in the area.
        assert_eq!(entry.place(), 240 + opt.place());
    }
}
