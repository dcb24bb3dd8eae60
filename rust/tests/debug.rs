//! What `Debug` shows: words and addresses, and not bytes by the hundred.

mod common;

use common::message_with;
use sindovaleph::{EntryRow, Message, Options, ReadRow, Route, Routes, Row, WriteRow, Writer, list, read, read_list};
use std::net::Ipv4Addr;

#[test]
fn a_message_is_shown_by_its_fields() {
    let mut bytes = message_with(&[53, 1, 5, 255]);
    bytes[4..8].copy_from_slice(&[0xDE, 0xAD, 0xBE, 0xEF]);
    bytes[10] = 0x80;
    bytes[16..20].copy_from_slice(&[192, 0, 2, 17]);
    bytes[44..49].copy_from_slice(b"boot\xFF");
    let shown = format!("{:?}", Message::new(&bytes).unwrap());
    assert_eq!(
        shown,
        "Message { bytes: 244 bytes, op: 2, htype: 1, hlen: 6, hops: 0, xid: 0xdeadbeef, secs: 0, flags: 0x8000, \
         ciaddr: 0.0.0.0, yiaddr: 192.0.2.17, siaddr: 0.0.0.0, giaddr: 0.0.0.0, chaddr: Ok(02:00:00:00:00:01), \
         sname: \"boot\\xff\", fname: \"\", has_magic: true, area: 4 bytes }"
    );
    bytes[2] = 18;
    let spilled = "chaddr: Ok(02:00:00:00:00:01:00:00:00:00:00:00:00:00:00:00 and 2 spilled)";
    assert!(format!("{:?}", Message::new(&bytes).unwrap()).contains(spilled));
    bytes[2] = 255;
    assert!(format!("{:?}", Message::new(&bytes).unwrap()).contains("chaddr: Err(ChaddrPastEnd)"));
}

#[test]
fn an_option_is_shown_by_its_name_and_its_value() {
    let area = [12, 2, 104, 105, 12, 1, 33, 51, 2, 0, 0, 200, 1, 7];
    let mut join = [0; 3];
    let mut options = Options::new(&area, &mut join);
    let shown: Vec<String> = options.by_ref().map(|opt| format!("{:?}", opt.unwrap())).collect();
    assert_eq!(
        shown,
        [
            "Opt { code: 12 (HOSTNAME), parts: 2, place: 7, value: Text(\"hi!\") }",
            "Opt { code: 51 (ADDRESS_LEASE_TIME), parts: 1, place: 11, data: [0, 0], refused: WrongLength }",
            "Opt { code: 200, parts: 1, place: 14, value: Raw([7]) }",
        ]
    );
    let walk = "Options { area: 14 bytes, join: 0 bytes, place: 14, ending: Some(Stopped(Out)) }";
    assert_eq!(format!("{options:?}"), walk);
}

#[test]
fn entries_are_shown_by_their_numbers() {
    let bytes = message_with(&[12, 1, 104, 51, 0, 12, 1, 105]);
    let message = Message::new(&bytes).unwrap();
    let mut join = [0; 1];
    let mut entries = message.entries(&mut join);
    assert_eq!(format!("{entries:?}"), "Entries { message: 248 bytes, join: 1 bytes, index: 0, refused: None }");
    assert!(entries.next().is_some_and(|opt| opt.is_err()));
    let refused = "refused: Some(OptRefused { refusal: JoinTooShort, needs: Some(2) })";
    assert_eq!(format!("{entries:?}"), format!("Entries {{ message: 248 bytes, join: 1 bytes, index: 0, {refused} }}"));
    let mut rows = [EntryRow::default(); 2];
    assert_eq!(message.list_entries(&mut rows), Ok(2));
    assert_eq!(format!("{:?}", rows[0]), "EntryRow { code: 12 (HOSTNAME), parts: 2, len: 2, place: 248 }");
    assert_eq!(format!("{:?}", message.overload()), "Ok(Neither)");
}

#[test]
fn lists_are_shown_by_their_elements() {
    assert_eq!(format!("{:?}", read(3, &[192, 0, 2, 1, 192, 0, 2, 2])), "Ok(Addresses([192.0.2.1, 192.0.2.2]))");
    let pairs = read(33, &[10, 0, 0, 0, 192, 0, 2, 1]);
    assert_eq!(format!("{pairs:?}"), "Ok(Pairs([(10.0.0.0, 192.0.2.1)]))");
    let Ok(sindovaleph::Value::U16s(list)) = read(25, &[0, 68, 1, 40]) else { panic!("25 is a list of numbers") };
    assert_eq!(format!("{list:?} {:?}", list.iter()), "[68, 296] [68, 296]");
    let routes = Routes::read(&[8, 10, 192, 0, 2, 1, 0, 192, 0, 2, 2]).unwrap();
    let first = "RouteRow { width: 8, destination: 10.0.0.0, gateway: 192.0.2.1 }";
    let second = "RouteRow { width: 0, destination: 0.0.0.0, gateway: 192.0.2.2 }";
    assert_eq!(format!("{routes:?}"), format!("[{first}, {second}]"));
    let mut rows = routes.iter();
    assert_eq!(rows.next(), routes.get(0).ok());
    assert_eq!(format!("{rows:?}"), format!("[{second}]"));
}

#[test]
fn rows_and_writers_are_shown_by_their_numbers() {
    let area = [12, 2, 104, 105, 51, 2, 0, 0];
    let mut rows = [Row::default(); 1];
    assert_eq!(list(&area, 0, &mut rows).map(|listed| listed.rows), Ok(1));
    assert_eq!(format!("{:?}", rows[0]), "Row { code: 12 (HOSTNAME), parts: 1, len: 2, place: 4 }");
    let mut rows = [ReadRow::default(); 2];
    assert_eq!(read_list(&area, 0, &mut rows).map(|listed| listed.rows), Ok(2));
    assert_eq!(format!("{:?}", rows[0]), "ReadRow { code: 12 (HOSTNAME), parts: 1, len: 2, place: 4, kind: Text }");
    let refused = "ReadRow { code: 51 (ADDRESS_LEASE_TIME), parts: 1, len: 2, place: 8, refused: WrongLength }";
    assert_eq!(format!("{:?}", rows[1]), refused);
    assert_eq!(format!("{:?}", WriteRow::new(53, 0, 1)), "WriteRow { code: 53 (MESSAGE_TYPE), start: 0, len: 1 }");
    let route = Route::new(8, Ipv4Addr::new(10, 0, 0, 0), Ipv4Addr::new(192, 0, 2, 1));
    assert_eq!(format!("{route:?}"), "Route { width: 8, destination: 10.0.0.0, gateway: 192.0.2.1 }");
    assert_eq!(format!("{:?}", Writer::at(&mut [0; 9], 3)), "Writer { room: 9 bytes, place: 3 }");
}
