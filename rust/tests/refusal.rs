//! The refusals by their numbers.

use sindovaleph::Refusal::{self, *};
use sindovaleph::{Kind, NoSuchNumber, OptRefused, RowRefused, Stop};
use std::collections::BTreeSet;
use std::error::Error;

const ALL: [Refusal; 19] = [
    MessageTooShort,
    TooLong,
    ChaddrPastEnd,
    PastEnd,
    JoinTooShort,
    NoSuchCode,
    ValueTooLong,
    NoRoom,
    OtherKind,
    WrongLength,
    NotUtf8,
    WidthAbove32,
    OddPairs,
    UnclearYesNo,
    FieldCut,
    UnclearOverload,
    SizeAboveBuffer,
    DestinationBarred,
    NoOldForm,
];

#[test]
fn numbers_are_1_to_19() {
    for (refusal, number) in ALL.into_iter().zip(1..) {
        assert_eq!(refusal.number(), number);
        assert_eq!(Refusal::from_number(number), Some(refusal));
    }
    assert_eq!((0..=255).filter_map(Refusal::from_number).collect::<Vec<_>>(), ALL);
}

#[test]
fn numbers_can_be_tried() {
    assert_eq!((Refusal::try_from(3), Refusal::try_from(0)), (Ok(ChaddrPastEnd), Err(NoSuchNumber(0))));
    assert_eq!((Stop::try_from(2), Stop::try_from(6)), (Ok(Stop::End), Err(NoSuchNumber(6))));
    assert_eq!((Kind::try_from(10), Kind::try_from(16)), (Ok(Kind::Text), Err(NoSuchNumber(16))));
    for number in 0..=255 {
        assert_eq!(Refusal::try_from(number).ok(), Refusal::from_number(number));
        assert_eq!(Stop::try_from(number).ok(), Stop::from_number(number));
        assert_eq!(Kind::try_from(number).ok(), Kind::from_number(number));
    }
    let error: Box<dyn Error> = Box::new(NoSuchNumber(16));
    assert_eq!(error.to_string(), "nothing has the number 16");
}

#[test]
fn each_says_a_sentence_of_its_own() {
    let sentences: BTreeSet<String> = ALL.iter().map(Refusal::to_string).collect();
    assert_eq!(sentences.len(), 19);
    assert!(sentences.iter().all(|sentence| sentence.contains(' ') && !sentence.ends_with('.')));
}

#[test]
fn it_is_an_error_of_one_byte() {
    let error: Box<dyn Error> = Box::new(ChaddrPastEnd);
    assert_eq!(error.to_string(), "the hardware address is longer than the message");
    assert_eq!(size_of::<Result<(), Refusal>>(), 1);
}

#[test]
fn a_row_that_is_refused_says_which_and_why() {
    for refusal in ALL {
        let refused = RowRefused { row: 3, refusal };
        assert_eq!(refused.to_string(), format!("row 3 is refused: {refusal}"));
        assert_eq!(Refusal::from(refused), refusal);
    }
    let error: Box<dyn Error> = Box::new(RowRefused { row: 0, refusal: NoSuchCode });
    assert_eq!(error.to_string(), "row 0 is refused: the codes 0 and 255 have no value");
}

#[test]
fn an_option_that_is_refused_says_why_and_what_it_needs() {
    for refusal in ALL {
        let refused = OptRefused { refusal, needs: None };
        assert_eq!((refused.to_string(), Refusal::from(refused)), (refusal.to_string(), refusal));
    }
    let error: Box<dyn Error> = Box::new(OptRefused { refusal: JoinTooShort, needs: Some(3) });
    assert_eq!(error.to_string(), "the room to join the option's parts in is too short: it takes 3 bytes");
}
