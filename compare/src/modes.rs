//! The two modes beside each other: RFC 3396's reading of a message, and what the walk lists of each field that holds options. Only the
//! library is asked here; `cases` holds its answers against the paper.

use crate::paper::{AREA, FILE, FILE_END, SNAME};
use sindovaleph::calls;
use std::ops::Range;

/// An option as the walk lists it: its field, its code, its parts, its value, and the place of the message behind it.
#[derive(Debug, PartialEq)]
pub struct Listed {
    pub field: usize,
    pub code: u8,
    pub parts: usize,
    pub value: Vec<u8>,
    pub place: usize,
}

/// The fields that hold options where option 52 says this number: the options field, file, sname.
fn fields(message: &[u8], overload: usize) -> [Range<usize>; 3] {
    let read = |is_read: bool, field: Range<usize>| if is_read { field } else { 0..0 };
    let options = read(!calls::header(message).wrong_magic, AREA..message.len());
    [options, read(matches!(overload, 1 | 3), FILE..FILE_END), read(matches!(overload, 2 | 3), SNAME..FILE)]
}

/// What the walk lists of each of these fields, up to the field's first stop.
pub fn walked(message: &[u8], overload: usize) -> Vec<Listed> {
    let mut join = vec![0; message.len()];
    let mut all = Vec::new();
    for (field, span) in fields(message, overload).into_iter().enumerate() {
        let area = &message[span.clone()];
        let mut step = calls::step(area, 0, &mut join);
        while step.refused == 0 && step.stop == 0 {
            let (len, place) = (step.len, step.place);
            let value = if step.parts == 1 { &area[place - len..place] } else { &join[..len] }.to_vec();
            all.push(Listed { field, code: step.code, parts: step.parts, value, place: span.start + place });
            step = calls::step(area, place, &mut join);
        }
    }
    all
}

/// A way in which RFC 3396's reading of a message is another than the walk's; the last two are none.
#[derive(Clone, Copy, Debug, PartialEq, Eq, PartialOrd, Ord)]
pub enum Way {
    NamesFile,
    NamesSname,
    NamesBoth,
    InSeveralFields,
    NoNeighbours,
    FieldCut,
    UnclearOverload,
    AsTheWalk,
    NoMessage,
}

impl Way {
    /// All ways, in the order of the table.
    pub const ALL: [Way; 9] = [
        Way::NamesFile,
        Way::NamesSname,
        Way::NamesBoth,
        Way::InSeveralFields,
        Way::NoNeighbours,
        Way::FieldCut,
        Way::UnclearOverload,
        Way::AsTheWalk,
        Way::NoMessage,
    ];

    /// Whether a message of this way reads otherwise.
    pub fn is_other(self) -> bool {
        !matches!(self, Way::AsTheWalk | Way::NoMessage)
    }

    /// Its name in a table.
    pub fn name(self) -> &'static str {
        match self {
            Way::NamesFile => "option 52 names file",
            Way::NamesSname => "option 52 names sname",
            Way::NamesBoth => "option 52 names file and sname",
            Way::InSeveralFields => "an option is split over the fields",
            Way::NoNeighbours => "parts are no neighbours in a field",
            Way::FieldCut => "refused by 15: a field is cut",
            Way::UnclearOverload => "refused by 16: option 52 is unclear",
            Way::AsTheWalk => "as the walk",
            Way::NoMessage => "no message: refused by 1 or 2",
        }
    }
}

/// The ways of a message: those that apply, or the one that says that none does.
pub fn ways(message: &[u8]) -> Vec<Way> {
    let told = calls::overload(message);
    match told.refused {
        0 => (),
        15 => return vec![Way::FieldCut],
        16 => return vec![Way::UnclearOverload],
        _ => return vec![Way::NoMessage],
    }
    let mut times = [[0; 3]; 256];
    for option in walked(message, told.number) {
        times[usize::from(option.code)][option.field] += 1;
    }
    let names = [None, Some(Way::NamesFile), Some(Way::NamesSname), Some(Way::NamesBoth)];
    let is_split = |times: &[usize; 3]| times.iter().filter(|&&times| times > 0).count() > 1;
    let split = times.iter().any(is_split).then_some(Way::InSeveralFields);
    let apart = times.as_flattened().iter().any(|&times| times > 1).then_some(Way::NoNeighbours);
    let all: Vec<Way> = [names[told.number], split, apart].into_iter().flatten().collect();
    if all.is_empty() { vec![Way::AsTheWalk] } else { all }
}

#[cfg(test)]
mod tests {
    use super::*;

    /// A message with the magic, these options, and a front of file.
    fn message(options: &[u8], file: &[u8]) -> Vec<u8> {
        let mut message = vec![0; AREA];
        message[FILE_END..].copy_from_slice(&[99, 130, 83, 99]);
        message[FILE..FILE + file.len()].copy_from_slice(file);
        message.extend_from_slice(options);
        message
    }

    #[test]
    fn every_way_is_told() {
        let file = [12, 1, 66, 255];
        let cases: [(&[u8], &[Way]); 9] = [
            (&[12, 1, 65, 12, 1, 66, 255, 12], &[Way::AsTheWalk]),
            (&[12, 0, 0, 12, 0], &[Way::NoNeighbours]),
            (&[52, 1, 1, 12, 0, 255], &[Way::NamesFile, Way::InSeveralFields]),
            (&[52, 1, 2], &[Way::NamesSname]),
            (&[52, 1, 3], &[Way::NamesBoth]),
            (&[1, 0, 52, 1, 1, 1, 0], &[Way::NamesFile, Way::NoNeighbours]),
            (&[12, 0, 1, 0, 12, 0, 52, 1, 1], &[Way::NamesFile, Way::InSeveralFields, Way::NoNeighbours]),
            (&[12, 1], &[Way::FieldCut]),
            (&[52, 0], &[Way::UnclearOverload]),
        ];
        for (options, told) in cases {
            assert_eq!(ways(&message(options, &file)), told, "{options:?}");
        }
        assert_eq!(ways(&[0; 239]), [Way::NoMessage]);
    }

    #[test]
    fn what_is_walked_has_places_of_the_message() {
        let message = message(&[52, 1, 1, 12, 0, 12, 1, 65, 255], &[12, 1, 66, 255]);
        let listed =
            |field, code, parts, value: &[u8], place| Listed { field, code, parts, value: value.into(), place };
        let all = [listed(0, 52, 1, &[1], 243), listed(0, 12, 2, &[65], 248), listed(1, 12, 1, &[66], 111)];
        assert_eq!(walked(&message, 1), all);
    }
}
