//! Options written into a lent room.

mod common;

use sindovaleph::{Message, NodeType, Options, Refusal, Route, RowRefused, Value, WriteRow, Writer, calls};
use std::net::Ipv4Addr;

type Write = dyn Fn(&mut Writer) -> Result<(), Refusal>;

const ADDRESS: Ipv4Addr = Ipv4Addr::new(192, 0, 2, 1);

/// Each writer with what it writes.
fn writes() -> Vec<(Box<Write>, Vec<u8>)> {
    let pair = [ADDRESS, Ipv4Addr::new(192, 0, 2, 2)];
    let route = Route::new(8, Ipv4Addr::new(10, 0, 0, 0), ADDRESS);
    vec![
        (Box::new(|writer| writer.bytes(200, &[1, 2])), vec![200, 2, 1, 2]),
        (Box::new(|writer| writer.address(54, ADDRESS)), vec![54, 4, 192, 0, 2, 1]),
        (Box::new(|writer| writer.byte(23, 64)), vec![23, 1, 64]),
        (Box::new(|writer| writer.yes_no(19, true)), vec![19, 1, 1]),
        (Box::new(|writer| writer.u16(57, 1500)), vec![57, 2, 5, 220]),
        (Box::new(|writer| writer.u32(51, 3600)), vec![51, 4, 0, 0, 14, 16]),
        (Box::new(|writer| writer.i32(2, -3600)), vec![2, 4, 255, 255, 241, 240]),
        (Box::new(|writer| writer.text(12, "host")), vec![12, 4, 104, 111, 115, 116]),
        (Box::new(|writer| writer.node_type(46, NodeType::H)), vec![46, 1, 8]),
        (Box::new(|writer| writer.message_type(53, 5)), vec![53, 1, 5]),
        (Box::new(|writer| writer.three_bytes(94, [1, 2, 3])), vec![94, 3, 1, 2, 3]),
        (Box::new(|writer| writer.flag(80)), vec![80, 0]),
        (Box::new(move |writer| writer.addresses(6, &pair)), vec![6, 8, 192, 0, 2, 1, 192, 0, 2, 2]),
        (Box::new(move |writer| writer.pairs(33, &[(pair[0], pair[1])])), vec![33, 8, 192, 0, 2, 1, 192, 0, 2, 2]),
        (Box::new(|writer| writer.u16s(25, &[68, 296])), vec![25, 4, 0, 68, 1, 40]),
        (Box::new(|writer| writer.codes(55, &[1, 3, 6])), vec![55, 3, 1, 3, 6]),
        (Box::new(move |writer| writer.routes(&[route])), vec![121, 6, 8, 10, 192, 0, 2, 1]),
        (Box::new(|writer| writer.move_out(&[10, 0, 0, 0, 192, 0, 2, 1])), vec![121, 6, 8, 10, 192, 0, 2, 1]),
        (Box::new(|writer| writer.move_back(&[8, 10, 192, 0, 2, 1])), vec![33, 8, 10, 0, 0, 0, 192, 0, 2, 1]),
        (Box::new(|writer| writer.close()), vec![255]),
    ]
}

#[test]
fn each_writes_its_bytes_and_moves_on() {
    let mut expected = vec![9; 3];
    let mut room = [9; 128];
    let mut writer = Writer::at(&mut room, 3);
    for (write, bytes) in writes() {
        assert_eq!(write(&mut writer), Ok(()));
        expected.extend(bytes);
        assert_eq!((writer.written(), writer.place()), (&expected[..], expected.len()));
    }
    assert!(room[expected.len()..].iter().all(|&byte| byte == 9));
}

#[test]
fn each_fits_exactly_or_changes_nothing() {
    for (write, bytes) in writes() {
        let mut room = vec![9; bytes.len()];
        assert_eq!(write(&mut Writer::new(&mut room)), Ok(()));
        assert_eq!(room, bytes);
        let mut room = vec![9; bytes.len() - 1];
        let mut writer = Writer::new(&mut room);
        assert_eq!((write(&mut writer), writer.place()), (Err(Refusal::NoRoom), 0));
        assert!(room.iter().all(|&byte| byte == 9));
        let mut writer = Writer::at(&mut room, 200);
        assert_eq!((write(&mut writer), writer.place(), writer.written()), (Err(Refusal::PastEnd), 200, &[][..]));
        let mut room = vec![9; 65_536];
        assert_eq!(write(&mut Writer::new(&mut room)), Err(Refusal::TooLong));
    }
}

#[test]
fn typed_writers_take_a_code_of_their_kind() {
    let mut room = [9; 64];
    let mut writer = Writer::new(&mut room);
    let refused = |result: Result<(), Refusal>| assert_eq!(result, Err(Refusal::OtherKind));
    refused(writer.address(53, ADDRESS));
    refused(writer.byte(53, 1));
    refused(writer.yes_no(53, true));
    refused(writer.u16(53, 1));
    refused(writer.u32(53, 1));
    refused(writer.i32(51, 1));
    refused(writer.text(53, "a"));
    refused(writer.node_type(53, NodeType::B));
    refused(writer.message_type(52, 1));
    refused(writer.three_bytes(53, [1, 2, 3]));
    refused(writer.flag(53));
    refused(writer.addresses(53, &[ADDRESS]));
    refused(writer.pairs(53, &[(ADDRESS, ADDRESS)]));
    refused(writer.u16s(53, &[1]));
    refused(writer.codes(53, &[1]));
    assert_eq!(writer.place(), 0);
    assert_eq!(room, [9; 64]);
}

#[test]
fn what_else_is_refused() {
    let mut room = [0; 8000];
    let mut writer = Writer::new(&mut room);
    assert_eq!(writer.bytes(0, &[1]), Err(Refusal::NoSuchCode));
    assert_eq!(writer.bytes(255, &[]), Err(Refusal::NoSuchCode));
    assert_eq!(writer.bytes(43, &[1; 4081]), Err(Refusal::ValueTooLong));
    assert_eq!(writer.routes(&[Route::new(33, ADDRESS, ADDRESS)]), Err(Refusal::WidthAbove32));
    for count in [1021, 1022, 5000] {
        assert_eq!(writer.addresses(3, &vec![ADDRESS; count]), Err(Refusal::ValueTooLong));
        assert_eq!(writer.pairs(33, &vec![(ADDRESS, ADDRESS); count / 2 + 1]), Err(Refusal::ValueTooLong));
    }
    assert_eq!((writer.place(), writer.written()), (0, &[][..]));
    // Numbers of `calls` can be odd; pairs cannot.
    assert_eq!(calls::write_pairs(&mut room, 0, 33, &[1, 2, 3]), calls::Written { refused: 13, place: 0 });
}

#[test]
fn long_values_are_written_in_parts() {
    let mut room = [0; 5000];
    for (len, takes) in [(0, 0), (255, 257), (256, 260), (4080, 4112)] {
        let mut writer = Writer::new(&mut room);
        assert_eq!((writer.bytes(43, &vec![7; len]), writer.place()), (Ok(()), takes));
    }
    let mut writer = Writer::new(&mut room);
    assert_eq!((writer.addresses(3, &[ADDRESS; 127]), writer.place()), (Ok(()), 514));
    assert_eq!((writer.addresses(3, &[]), writer.u16s(25, &[]), writer.place()), (Ok(()), Ok(()), 514));
}

#[test]
fn addresses_and_pairs_are_written_as_their_numbers() {
    let numbers: Vec<u32> = (0..1030_u32).map(|i| i.wrapping_mul(0x0101_0101)).collect();
    let addresses: Vec<Ipv4Addr> = numbers.iter().copied().map(Ipv4Addr::from_bits).collect();
    let pairs: Vec<_> = addresses.chunks(2).map(|pair| (pair[0], pair[1])).collect();
    // The longest value takes 4,080 bytes and 17 heads.
    for (count, room) in (0..=1030).flat_map(|count| [(count, 3 + 4114), (count, 600)]) {
        let (mut ours, mut theirs) = (vec![9; room], vec![9; room]);
        let mut writer = Writer::at(&mut ours, 3);
        let answer = writer.addresses(3, &addresses[..count]).map_err(Refusal::number).err().unwrap_or(0);
        let written = calls::write_addresses(&mut theirs, 3, 3, &numbers[..count]);
        assert_eq!((answer, writer.place()), (written.refused, written.place), "{count} addresses");
        let even = count / 2 * 2;
        let mut writer = Writer::at(&mut ours, written.place);
        let answer = writer.pairs(33, &pairs[..count / 2]).map_err(Refusal::number).err().unwrap_or(0);
        let written = calls::write_pairs(&mut theirs, written.place, 33, &numbers[..even]);
        assert_eq!((answer, writer.place()), (written.refused, written.place), "{even} addresses in pairs");
        assert_eq!(ours, theirs, "{count}");
    }
}

/// Options of 4, 0, 5 and 262 bytes out of values of 5,000.
const ROWS: [WriteRow; 4] =
    [WriteRow::new(43, 0, 2), WriteRow::new(44, 5_000, 0), WriteRow::new(200, 1, 3), WriteRow::new(43, 2, 258)];

/// What the values of 5,000 bytes are.
fn values() -> Vec<u8> {
    (0..5_000).map(|i| i as u8).collect()
}

/// Rows that are refused at place 2 of a room of so many bytes: the row that is told. All else stays as it is.
fn refused_row(rows: &[WriteRow], len: usize) -> RowRefused {
    let mut room = vec![9; len];
    let mut writer = Writer::at(&mut room, 2);
    let refused = writer.list(rows, &values()).unwrap_err();
    assert_eq!(writer.place(), 2);
    assert_eq!(room, vec![9; len]);
    refused
}

#[test]
fn rows_are_written_one_behind_the_other() {
    let mut room = [9; 300];
    let mut writer = Writer::at(&mut room, 2);
    assert_eq!(writer.list(&[], &values()), Ok(0));
    assert_eq!((writer.list(&ROWS[..3], &values()), writer.place()), (Ok(3), 11));
    assert_eq!(writer.written(), [9, 9, 43, 2, 0, 1, 200, 3, 1, 2, 3]);
    assert_eq!((writer.list(&ROWS[3..], &values()), writer.place()), (Ok(1), 273));
    let part: Vec<u8> = (2..=255).chain([0]).collect();
    assert_eq!((&room[11..13], &room[13..268]), (&[43, 255][..], &part[..]));
    assert_eq!(room[268..], [&[43, 3, 1, 2, 3][..], &[9; 27]].concat());
}

#[test]
fn a_refused_row_is_named_and_nothing_is_written() {
    let bad = [
        (WriteRow::new(43, 5_000, 1), Refusal::PastEnd),
        (WriteRow::new(43, 5_001, 0), Refusal::PastEnd),
        (WriteRow::new(43, usize::MAX, usize::MAX), Refusal::PastEnd),
        (WriteRow::new(0, 0, 1), Refusal::NoSuchCode),
        (WriteRow::new(255, 0, 0), Refusal::NoSuchCode),
        (WriteRow::new(43, 0, 4_081), Refusal::ValueTooLong),
        (WriteRow::new(43, 0, 300), Refusal::NoRoom),
        // What comes first is told.
        (WriteRow::new(0, 0, 5_001), Refusal::PastEnd),
        (WriteRow::new(0, 0, 4_081), Refusal::NoSuchCode),
    ];
    for (wrong, refusal) in bad {
        for row in 0..ROWS.len() {
            let mut rows = ROWS;
            rows[row] = wrong;
            assert_eq!(refused_row(&rows, 300), RowRefused { row, refusal }, "{rows:?}");
            // The first of two decides.
            rows[3] = if row < 3 { WriteRow::new(0, 5_001, 0) } else { wrong };
            assert_eq!(refused_row(&rows, 300), RowRefused { row, refusal }, "{rows:?}");
        }
    }
}

#[test]
fn rows_fit_exactly_or_the_first_that_does_not_is_named() {
    let mut room = vec![9; 273];
    assert_eq!(Writer::at(&mut room, 2).list(&ROWS, &values()), Ok(4));
    assert!(room.ends_with(&[255, 0, 43, 3, 1, 2, 3]));
    let no_room = |row| RowRefused { row, refusal: Refusal::NoRoom };
    assert_eq!(refused_row(&ROWS, 272), no_room(3));
    assert_eq!(refused_row(&ROWS, 11), no_room(3));
    assert_eq!(refused_row(&ROWS, 10), no_room(2));
    assert_eq!(refused_row(&ROWS, 6), no_room(2));
    assert_eq!(refused_row(&ROWS, 5), no_room(0));
    assert_eq!(refused_row(&ROWS, 2), no_room(0));
    // An empty value needs no room.
    let mut writer = Writer::at(&mut room, 273);
    assert_eq!((writer.list(&[ROWS[1]; 3], &values()), writer.place()), (Ok(3), 273));
}

#[test]
fn the_room_and_the_place_come_before_any_row() {
    let wrong = [WriteRow::new(0, 0, 1); 2];
    for rows in [&[], &ROWS[..], &wrong] {
        assert_eq!(refused_row(rows, 65_536), RowRefused { row: 0, refusal: Refusal::TooLong });
        assert_eq!(refused_row(rows, 1), RowRefused { row: 0, refusal: Refusal::PastEnd });
        assert_eq!(refused_row(rows, 0), RowRefused { row: 0, refusal: Refusal::PastEnd });
        let both = Writer::at(&mut vec![9; 65_536], 65_537).list(rows, &values());
        assert_eq!(both, Err(RowRefused { row: 0, refusal: Refusal::TooLong }));
    }
}

#[test]
fn a_row_that_is_refused_is_passed_on_as_a_refusal() {
    let write = |room: &mut [u8], rows: &[WriteRow]| -> Result<usize, Refusal> {
        let mut writer = Writer::new(room);
        writer.list(rows, &values())?;
        writer.close()?;
        Ok(writer.place())
    };
    assert_eq!(write(&mut [0; 10], &ROWS[..3]), Ok(10));
    assert_eq!(write(&mut [0; 9], &ROWS[..3]), Err(Refusal::NoRoom));
    assert_eq!(write(&mut [0; 10], &[ROWS[0], WriteRow::new(255, 0, 1)]), Err(Refusal::NoSuchCode));
}

#[test]
fn what_is_written_is_read() {
    let mut room = common::message(340, &[]);
    let mut writer = Writer::at(&mut room, 240);
    writer.message_type(53, 2).unwrap();
    writer.text(12, "hôte").unwrap();
    writer.yes_no(19, false).unwrap();
    writer.i32(2, i32::MIN).unwrap();
    writer.node_type(46, NodeType::Unknown(3)).unwrap();
    writer.close().unwrap();
    let bytes = writer.written().to_vec();
    let message = Message::new(&bytes).unwrap();
    let read: Vec<_> = message.opts(&mut []).map(|opt| opt.unwrap().read_strict().unwrap()).collect();
    let node = Value::NodeType(NodeType::Unknown(3));
    assert_eq!(read, [Value::MessageType(2), Value::Text("hôte"), Value::YesNo(false), Value::I32(i32::MIN), node]);
    let mut join = [0; 300];
    let mut room = [0; 400];
    let mut writer = Writer::new(&mut room);
    writer.bytes(43, &[7; 300]).unwrap();
    let opt = Options::new(writer.written(), &mut join).next().unwrap().unwrap();
    assert_eq!((opt.code(), opt.parts(), opt.data()), (43, 2, &[7; 300][..]));
}
