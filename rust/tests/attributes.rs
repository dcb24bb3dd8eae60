//! What the compiler tells a user: a `match` needs a `_` where later versions may add cases, an address is no slice of bytes,
//! and an answer that matters is not dropped without a warning. All are held when this file is compiled: a `_` that no case
//! needs is an error here, and so are an address that becomes a slice and a warning that does not come.
#![deny(unreachable_patterns, unfulfilled_lint_expectations)]

use sindovaleph::{
    Chaddr, Ending, Kind, Listed, Message, Options, Overload, Refusal, Routes, Row, Stop, Stream, Value, Writer, codes,
    list, read,
};
use std::ops::Deref;

fn is_known(refusal: Refusal) -> bool {
    use Refusal::*;
    match refusal {
        MessageTooShort | TooLong | ChaddrPastEnd | PastEnd | JoinTooShort | NoSuchCode | ValueTooLong => true,
        NoRoom | OtherKind | WrongLength | NotUtf8 | WidthAbove32 | OddPairs | UnclearYesNo => true,
        FieldCut | UnclearOverload | SizeAboveBuffer | DestinationBarred | NoOldForm => true,
        _ => false,
    }
}

fn is_known_stop(stop: Stop) -> bool {
    match stop {
        Stop::Out | Stop::End | Stop::CutLength | Stop::CutValue | Stop::CutContinuation => true,
        _ => false,
    }
}

fn is_known_kind(kind: Kind) -> bool {
    use Kind::*;
    match kind {
        Raw | Address | Addresses | Pairs | Byte | YesNo | U16 | U16s | U32 | I32 | Text | Codes => true,
        NodeType | MessageType | ThreeBytes | Flag => true,
        _ => false,
    }
}

fn is_known_value(value: Value<'_>) -> bool {
    use Value::*;
    match value {
        Raw(_) | Address(_) | Addresses(_) | Pairs(_) | Byte(_) | YesNo(_) | U16(_) | U16s(_) | U32(_) | I32(_) => true,
        Text(_) | Codes(_) | NodeType(_) | MessageType(_) | ThreeBytes(_) | Flag => true,
        _ => false,
    }
}

/// Option 52 says no more than this: no `_` is needed.
fn number_of(overload: Overload) -> u8 {
    match overload {
        Overload::Neither => 0,
        Overload::File => 1,
        Overload::Sname => 2,
        Overload::Both => 3,
    }
}

fn is_known_ending(ending: Ending) -> bool {
    match ending {
        Ending::Stopped(_) | Ending::Refused(_) | Ending::Needs(_) => true,
        _ => false,
    }
}

#[test]
fn a_match_needs_a_case_for_what_may_come() {
    assert!((0..=255).filter_map(Refusal::from_number).all(is_known));
    assert!((0..=255).filter_map(Stop::from_number).all(is_known_stop));
    assert!((0..=255).filter_map(Kind::from_number).all(is_known_kind));
    assert!((1..=254).filter_map(|code| read(code, &[]).ok()).all(is_known_value));
    assert!(is_known_ending(Ending::Needs(1)));
    assert_eq!(Message::new(&[0; 240]).unwrap().overload().map(number_of), Ok(0));
}

/// A type that becomes another by itself has this function twice, and the compiler cannot tell which is meant.
trait IsNoPointer<Which> {
    fn seen() {}
}

impl<T: ?Sized> IsNoPointer<()> for T {}

impl<T: ?Sized + Deref> IsNoPointer<u8> for T {}

#[test]
fn an_address_becomes_no_slice_by_itself() {
    <Chaddr<'_> as IsNoPointer<_>>::seen();
}

/// What is dropped here is warned about.
#[expect(unused_must_use)]
fn drops_a_listing(area: &[u8], rows: &mut [Row]) -> Result<(), Refusal> {
    list(area, 0, rows)?;
    Ok(())
}

#[expect(unused_must_use)]
fn drops_a_walk(area: &[u8]) {
    Options::new(area, &mut []);
}

#[expect(unused_must_use)]
fn drops_an_ending(options: &Options<'_>) {
    options.ending();
}

#[expect(unused_must_use)]
fn drops_whether_it_is_closed(options: &Options<'_>) {
    options.is_closed();
}

#[expect(unused_must_use)]
fn drops_what_is_refused(writer: &mut Writer<'_>) {
    writer.text(codes::HOSTNAME, "host");
}

#[expect(unused_must_use)]
fn drops_the_area(message: &Message<'_>) {
    message.area();
}

#[expect(unused_must_use)]
fn drops_what_lies_in_the_field(chaddr: &Chaddr<'_>) {
    chaddr.own();
}

#[expect(unused_must_use)]
fn drops_whether_it_spills(chaddr: &Chaddr<'_>) {
    chaddr.spills();
}

#[expect(unused_must_use)]
fn drops_the_entries(message: &Message<'_>) {
    message.entries(&mut []);
}

#[expect(unused_must_use)]
fn drops_what_is_found(message: &Message<'_>) {
    message.find(codes::HOSTNAME, &mut []);
}

#[expect(unused_must_use)]
fn drops_why_there_are_no_more(message: &Message<'_>) {
    message.entries(&mut []).refused();
}

#[expect(unused_must_use)]
fn drops_the_overload(message: &Message<'_>) -> Result<(), Refusal> {
    message.overload()?;
    Ok(())
}

#[expect(unused_must_use)]
fn drops_a_chunk(stream: &mut Stream<'_>) {
    stream.read(&[0, 0]);
}

#[expect(unused_must_use)]
fn drops_a_frame(stream: &mut Stream<'_>) {
    stream.read(&[0, 0]).next();
}

#[expect(unused_must_use)]
fn drops_how_it_ended(stream: &Stream<'_>) {
    stream.is_between();
}

#[expect(unused_must_use)]
fn drops_the_routes(routes: Routes<'_>) {
    routes.iter();
}

#[test]
fn an_answer_that_matters_is_not_dropped_unseen() {
    let mut rows = [Row::default()];
    assert_eq!(drops_a_listing(&[255], &mut rows), Ok(()));
    drops_a_walk(&[255]);
    drops_an_ending(&Options::new(&[255], &mut []));
    drops_whether_it_is_closed(&Options::new(&[255], &mut []));
    drops_what_is_refused(&mut Writer::new(&mut [0; 9]));
    let message = Message::new(&[0; 240]).unwrap();
    drops_the_area(&message);
    drops_what_lies_in_the_field(&message.chaddr().unwrap());
    drops_whether_it_spills(&message.chaddr().unwrap());
    drops_the_entries(&message);
    drops_what_is_found(&message);
    drops_why_there_are_no_more(&message);
    assert_eq!(drops_the_overload(&message), Ok(()));
    let mut stream = Stream::new(&mut []);
    drops_a_chunk(&mut stream);
    drops_a_frame(&mut stream);
    drops_how_it_ended(&stream);
    drops_the_routes(Routes::read(&[]).unwrap());
    let listed: Listed = list(&[255], 0, &mut rows).unwrap();
    assert_eq!(listed.stop, Some(Stop::End));
}
