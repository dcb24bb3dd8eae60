//! All options of an area in one call.

mod common;

use common::message_with;
use sindovaleph::{
    Listed, Message, Options, ReadRow, Refusal, Row, Stop, Value, list, read, read_list, read_list_strict, read_strict,
};

/// A number, a name in two parts, an empty option of two parts, bytes, a Pad, a yes/no of 2, End.
const AREA: [u8; 27] =
    [51, 4, 0, 0, 14, 16, 12, 2, 104, 111, 12, 2, 115, 116, 15, 0, 15, 0, 200, 2, 7, 8, 0, 19, 1, 2, 255];

/// What a listing told: how many rows, the stop, and the place.
fn told(listed: Result<Listed, Refusal>) -> Result<(usize, Option<Stop>, usize), Refusal> {
    listed.map(|listed| (listed.rows, listed.stop, listed.place))
}

#[test]
fn a_message_is_listed() {
    let bytes = message_with(&AREA);
    let message = Message::new(&bytes).unwrap();
    let mut rows = [Row::default(); 8];
    assert_eq!(told(message.list(&mut rows)), Ok((5, Some(Stop::End), 27)));
    let found: Vec<_> = rows.iter().take(5).map(|row| (row.code(), row.parts(), row.len(), row.place())).collect();
    assert_eq!(found, [(51, 1, 4, 6), (12, 2, 4, 14), (15, 2, 0, 18), (200, 1, 2, 22), (19, 1, 1, 26)]);
    assert_eq!(rows[5], Row::default());
    let data: Vec<_> = rows.iter().take(5).map(|row| row.data(message.area())).collect();
    let expected: [Option<&[u8]>; 5] = [Some(&[0, 0, 14, 16]), None, Some(&[]), Some(&[7, 8]), Some(&[2])];
    assert_eq!(data, expected);
    assert_eq!((rows[1].is_empty(), rows[2].is_empty()), (false, true));
}

#[test]
fn a_listing_goes_on_where_its_rows_were_full() {
    let mut rows = [Row::default(); 2];
    assert_eq!(told(list(&AREA, 0, &mut rows)), Ok((2, None, 14)));
    assert_eq!(told(list(&AREA, 14, &mut rows)), Ok((2, None, 22)));
    assert_eq!(told(list(&AREA, 22, &mut rows)), Ok((1, Some(Stop::End), 27)));
    assert_eq!(told(list(&AREA, 27, &mut rows)), Ok((0, Some(Stop::Out), 27)));
    assert_eq!(told(list(&AREA, 0, &mut [])), Ok((0, None, 0)));
}

#[test]
fn rows_are_what_the_walk_finds() {
    let mut rows = [Row::default(); 8];
    let listed = list(&AREA, 0, &mut rows).unwrap();
    let mut join = [0; 27];
    let walked: Vec<_> = Options::new(&AREA, &mut join).map(Result::unwrap).collect();
    assert_eq!(listed.rows, walked.len());
    for (row, opt) in rows.iter().zip(walked) {
        let mut buffer = [0; 4];
        assert_eq!((row.code(), row.parts(), row.place()), (opt.code(), opt.parts(), opt.place()));
        assert_eq!(row.join(&AREA, &mut buffer), Ok(opt.data()));
    }
}

/// The rows of the options of an area.
fn rows_of(area: &[u8]) -> Vec<Row> {
    let mut rows = [Row::default(); 8];
    let listed = list(area, 0, &mut rows).unwrap();
    rows[..listed.rows].to_vec()
}

#[test]
fn joining_takes_the_rows_length() {
    let rows = rows_of(&AREA);
    let mut buffer = [99; 6];
    assert_eq!(rows[1].join(&AREA, &mut buffer[..3]), Err(Refusal::JoinTooShort));
    assert_eq!(buffer, [99; 6]);
    assert_eq!(rows[1].join(&AREA, &mut buffer), Ok(&b"host"[..]));
    assert_eq!(buffer, *b"hostcc");
    assert_eq!((rows[3].join(&AREA, &mut []), rows[3].data(&AREA)), (Ok(&[7, 8][..]), Some(&[7, 8][..])));
}

#[test]
fn rows_of_another_area_are_refused_and_change_nothing() {
    // Four bytes in two parts of code 12 that end at 14, and of one part that ends at 28.
    let (split, whole) = (rows_of(&AREA)[1], rows_of(&[vec![0; 22], vec![51, 4, 0, 0, 14, 16]].concat())[0]);
    assert_eq!((split.parts(), split.place(), whole.parts(), whole.place()), (2, 14, 1, 28));
    let (mut longer, mut other, mut three) = (AREA, AREA, AREA);
    longer[7] = 3;
    other[6] = 13;
    three[6..14].copy_from_slice(&[12, 0, 12, 1, 104, 12, 1, 116]);
    for area in [&longer[..], &other, &three, &AREA[..13], &[]] {
        let mut buffer = [99; 8];
        assert_eq!(split.join(area, &mut buffer), Err(Refusal::PastEnd), "{area:?}");
        assert_eq!((split.data(area), buffer), (None, [99; 8]));
    }
    assert_eq!((whole.join(&AREA, &mut []), whole.data(&AREA)), (Err(Refusal::PastEnd), None));
    let mut rows = [ReadRow::default()];
    assert_eq!(told(read_list(&AREA, 0, &mut rows)), Ok((1, None, 6)));
    assert_eq!(rows[0].value(&AREA[..5]), Err(Refusal::PastEnd));
}

#[test]
fn a_message_is_listed_with_its_values() {
    let bytes = message_with(&AREA);
    let message = Message::new(&bytes).unwrap();
    let mut rows = [ReadRow::default(); 5];
    assert_eq!(told(message.read_list(&mut rows)), Ok((5, None, 26)));
    let found: Vec<_> = rows.iter().map(|row| (row.code(), row.parts(), row.len(), row.place())).collect();
    assert_eq!(found, [(51, 1, 4, 6), (12, 2, 4, 14), (15, 2, 0, 18), (200, 1, 2, 22), (19, 1, 1, 26)]);
    let values: Vec<_> = rows.iter().map(|row| row.value(message.area())).collect();
    let (joined, no) = (Err(Refusal::JoinTooShort), Ok(Value::YesNo(false)));
    assert_eq!(values, [Ok(Value::U32(3600)), joined, Ok(Value::Text("")), Ok(Value::Raw(&[7, 8])), no]);
    let mut buffer = [0; 4];
    let name = rows[1].join(message.area(), &mut buffer).unwrap();
    assert_eq!(read(rows[1].code(), name), Ok(Value::Text("host")));
    assert_eq!((rows[1].data(message.area()), rows[1].is_empty(), rows[2].is_empty()), (None, false, true));
    assert_eq!(told(message.read_list_strict(&mut rows)), Ok((5, None, 26)));
    assert_eq!(rows[2].value(message.area()), Err(Refusal::WrongLength));
    assert_eq!(rows[4].value(message.area()), Err(Refusal::UnclearYesNo));
}

#[test]
fn an_empty_list_in_two_parts_is_refused_strictly() {
    let area = [3, 0, 3, 0];
    let mut rows = [ReadRow::default()];
    assert_eq!(told(read_list(&area, 0, &mut rows)), Ok((1, None, 4)));
    assert!(matches!(rows[0].value(&area), Ok(Value::Addresses(routers)) if routers.is_empty()));
    assert_eq!(told(read_list_strict(&area, 0, &mut rows)), Ok((1, None, 4)));
    assert_eq!((rows[0].parts(), rows[0].value(&area)), (2, Err(Refusal::WrongLength)));
}

#[test]
fn every_kind_is_read_alike_in_a_row() {
    for code in 1..=254 {
        for len in 0..9 {
            let mut area = vec![code, len];
            area.extend((0..len).map(|i| i + 60));
            let mut rows = [ReadRow::default()];
            assert_eq!(read_list(&area, 0, &mut rows).map(|listed| listed.rows), Ok(1));
            assert_eq!(rows[0].value(&area), read(code, &area[2..]), "code {code}, length {len}");
            assert_eq!(read_list_strict(&area, 0, &mut rows).map(|listed| listed.rows), Ok(1));
            assert_eq!(rows[0].value(&area), read_strict(code, &area[2..]), "strict, code {code}, length {len}");
        }
    }
}

#[test]
fn a_row_of_text_is_checked_against_its_area() {
    let mut rows = [ReadRow::default()];
    assert_eq!(told(read_list(&[12, 1, 97], 0, &mut rows)), Ok((1, None, 3)));
    assert_eq!(rows[0].value(&[12, 1, 97]), Ok(Value::Text("a")));
    assert_eq!(rows[0].value(&[12, 1, 0xFF]), Err(Refusal::NotUtf8));
}

#[test]
fn refused_listings_fill_no_row() {
    let long = vec![1; 65_536];
    let mut rows = [rows_of(&AREA)[0]];
    assert_eq!((list(&long, 0, &mut rows), list(&AREA, 28, &mut rows)), (Err(Refusal::TooLong), Err(Refusal::PastEnd)));
    assert_eq!(rows, [rows_of(&AREA)[0]]);
    let mut rows = [ReadRow::default()];
    assert_eq!(told(read_list(&AREA, 0, &mut rows)), Ok((1, None, 6)));
    let before = rows;
    assert_eq!(read_list_strict(&AREA, 28, &mut rows), Err(Refusal::PastEnd));
    assert_eq!(rows, before);
}
