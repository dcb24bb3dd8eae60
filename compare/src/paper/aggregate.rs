//! RFC 3396's reading of a message (document 02, ticket 1): all parts of one code are one option, over the options field and the fields
//! that option 52 names.

use super::header::refusal;
use super::walk::OUT;
use super::{AREA, END, FILE, FILE_END, PAD, SNAME, area, first_refusal};
use sindovaleph::calls::{Entries, Field, Row, Step};
use std::ops::Range;

/// The code that says which fields hold options.
const OVERLOAD: u8 = 52;

/// The refusals of this mode: a field is cut, and option 52 is unclear.
const FIELD_CUT: u8 = 15;
const UNCLEAR: u8 = 16;

/// One part: its code, and where its value stands in the message.
struct Part {
    code: u8,
    value: Range<usize>,
}

/// A message as this mode sees it: the number that option 52 says, 0 where there is none, and the parts of all fields that are read.
struct Whole {
    overload: u8,
    parts: Vec<Part>,
}

/// The parts of a field, up to its End or its last byte. A field whose last part is not all there is refused.
fn parts(message: &[u8], field: Range<usize>) -> Result<Vec<Part>, u8> {
    let mut parts = Vec::new();
    let mut at = field.start;
    while at < field.end && message[at] != END {
        if message[at] == PAD {
            at += 1;
            continue;
        }
        if at + 1 == field.end || at + 2 + usize::from(message[at + 1]) > field.end {
            return Err(FIELD_CUT);
        }
        let value = at + 2..at + 2 + usize::from(message[at + 1]);
        at = value.end;
        parts.push(Part { code: message[value.start - 2], value });
    }
    Ok(parts)
}

/// The number that the parts of the options field say: its 52 is one part of one byte, 1 to 3, or there is none.
fn overload_of(message: &[u8], options: &[Part]) -> Result<u8, u8> {
    let values: Vec<&[u8]> =
        options.iter().filter(|part| part.code == OVERLOAD).map(|part| &message[part.value.clone()]).collect();
    match values[..] {
        [] => Ok(0),
        [&[number @ 1..=3]] => Ok(number),
        _ => Err(UNCLEAR),
    }
}

/// What is read of a message: the options field, then file, then sname.
fn whole(message: &[u8]) -> Result<Whole, u8> {
    if refusal(message) > 0 {
        return Err(refusal(message));
    }
    let options = area(message).map_or(0..0, |_| AREA..message.len());
    let mut all = parts(message, options)?;
    let overload = overload_of(message, &all)?;
    for (field, numbers) in [(FILE..FILE_END, [1, 3]), (SNAME..FILE, [2, 3])] {
        if numbers.contains(&overload) {
            all.extend(parts(message, field)?);
        }
    }
    Ok(Whole { overload, parts: all })
}

impl Whole {
    /// The codes, by first appearance.
    fn codes(&self) -> Vec<u8> {
        let mut seen = [false; 256];
        self.parts
            .iter()
            .map(|part| part.code)
            .filter(|&code| !std::mem::replace(&mut seen[usize::from(code)], true))
            .collect()
    }

    /// All parts of a code as one option, nothing joined: nothing where it has none.
    fn row(&self, code: u8) -> Option<Row> {
        let values = || self.parts.iter().filter(|part| part.code == code).map(|part| &part.value);
        let place = values().next_back()?.end;
        Some(Row { code: code.into(), parts: values().count(), len: values().map(Range::len).sum(), place })
    }

    /// The option of a code, joined where it has two parts or more; out where it has none.
    fn option(&self, message: &[u8], code: u8, join: &mut [u8]) -> Step {
        match self.row(code) {
            None => out(),
            Some(Row { parts: 2.., len, .. }) if len > join.len() => Step { len, ..refused(5) },
            Some(Row { parts, len, place, .. }) => {
                if parts > 1 {
                    self.join(message, code, join);
                }
                Step { code, parts, len, place, ..refused(0) }
            }
        }
    }

    /// Puts the values of a code one behind the other.
    fn join(&self, message: &[u8], code: u8, mut join: &mut [u8]) {
        for part in self.parts.iter().filter(|part| part.code == code) {
            let (front, behind) = join.split_at_mut(part.value.len());
            front.copy_from_slice(&message[part.value.clone()]);
            join = behind;
        }
    }
}

/// A step that is refused by this number, and else nothing.
fn refused(refused: u8) -> Step {
    Step { refused, stop: 0, code: 0, parts: 0, len: 0, place: 0 }
}

/// There is no such option.
fn out() -> Step {
    Step { stop: OUT, ..refused(0) }
}

/// What option 52 says.
pub fn overload(message: &[u8]) -> Field {
    match whole(message) {
        Ok(whole) => Field { refused: 0, number: whole.overload.into() },
        Err(number) => Field { refused: number.into(), number: 0 },
    }
}

/// The option of a code.
pub fn find_code(message: &[u8], code: u8, join: &mut [u8]) -> Step {
    let number = first_refusal(&[(refusal(message) > 0, refusal(message)), (code == PAD || code == END, 6)]);
    if number > 0 {
        return refused(number);
    }
    whole(message).map_or_else(refused, |whole| whole.option(message, code, join))
}

/// The option at an index, by first appearance.
pub fn entry(message: &[u8], index: usize, join: &mut [u8]) -> Step {
    whole(message).map_or_else(refused, |whole| match whole.codes().get(index) {
        None => out(),
        Some(&code) => whole.option(message, code, join),
    })
}

/// All options by first appearance, nothing joined: as many rows are filled as there are codes, or as there are rows.
pub fn entries(message: &[u8], rows: &mut [Row]) -> Entries {
    match whole(message) {
        Err(refused) => Entries { refused, codes: 0 },
        Ok(whole) => {
            let codes = whole.codes();
            rows.iter_mut().zip(codes.iter().filter_map(|&code| whole.row(code))).for_each(|(row, told)| *row = told);
            Entries { refused: 0, codes: codes.len() }
        }
    }
}

#[cfg(test)]
mod tests {
    use super::super::{LEAST_MESSAGE, MOST_BYTES};
    use super::*;

    /// A message with the magic, these options, and fronts of file and of sname; all else is zero.
    fn message(options: &[u8], file: &[u8], sname: &[u8]) -> Vec<u8> {
        let mut message = vec![0; AREA];
        message[FILE_END..].copy_from_slice(&[99, 130, 83, 99]);
        message[FILE..FILE + file.len()].copy_from_slice(file);
        message[SNAME..SNAME + sname.len()].copy_from_slice(sname);
        message.extend_from_slice(options);
        message
    }

    /// An answer and the value that it shows: of one part in the message, of more in the join buffer.
    fn shown(message: &[u8], join: usize, call: impl Fn(&[u8], &mut [u8]) -> Step) -> (Step, Vec<u8>) {
        let mut join = vec![0xAA; join];
        let step = call(message, &mut join);
        let value = match step.parts {
            0 => Vec::new(),
            1 => message[step.place - step.len..step.place].to_vec(),
            _ => join[..step.len].to_vec(),
        };
        let joined = if step.parts > 1 { step.len } else { 0 };
        assert!(join[joined..].iter().all(|&byte| byte == 0xAA), "the rest of the join buffer is as it was");
        (step, value)
    }

    fn found(message: &[u8], code: u8, join: usize) -> (Step, Vec<u8>) {
        shown(message, join, |message, join| find_code(message, code, join))
    }

    fn listed(message: &[u8], index: usize) -> (Step, Vec<u8>) {
        shown(message, message.len(), |message, join| entry(message, index, join))
    }

    fn option(code: u8, value: &[u8], parts: usize, place: usize) -> (Step, Vec<u8>) {
        (Step { code, parts, len: value.len(), place, ..refused(0) }, value.to_vec())
    }

    #[test]
    fn parts_that_are_no_neighbours_are_joined() {
        let message = message(&[12, 1, 65, 1, 0, 12, 1, 66, 255], &[], &[]);
        assert_eq!(found(&message, 12, 2), option(12, &[65, 66], 2, 248));
        assert_eq!(found(&message, 12, 1), (Step { len: 2, ..refused(5) }, vec![]));
        assert_eq!(listed(&message, 1), option(1, &[], 1, 245));
        assert_eq!(listed(&message, 2), (out(), vec![]));
    }

    #[test]
    fn options_then_file_then_sname() {
        let options = [12, 1, 65, 52, 1, 3, 255, 12];
        let message = message(&options, &[0, 12, 1, 66, 52, 1, 9], &[12, 1, 67, 255]);
        assert_eq!(found(&message, 12, 3), option(12, &[65, 66, 67], 3, 47));
        assert_eq!(listed(&message, 1), option(52, &[3, 9], 2, 115));
        assert_eq!(overload(&message), Field { refused: 0, number: 3 });
    }

    #[test]
    fn the_example_of_the_rfc() {
        let options = [&[52, 1, 1, 67, 7][..], b"/diskle", &[255]].concat();
        let message = message(&options, &[&[67, 6][..], b"ss/foo", &[255]].concat(), &[]);
        assert_eq!(found(&message, 67, 13), option(67, b"/diskless/foo", 2, 116));
    }

    #[test]
    fn one_part_is_shown_in_the_message() {
        let padded = message(&[52, 1, 3, 255], &[0, 0, 0, 12, 2, 104, 105, 255], &[]);
        assert_eq!(found(&padded, 12, 0), option(12, &[104, 105], 1, 115));
        let full = message(&[52, 1, 1], &[&[12, 126][..], &[7; 126]].concat(), &[]);
        assert_eq!(found(&full, 12, 0), option(12, &[7; 126], 1, 236));
        let after_end = message(&[52, 1, 1, 255, 52, 0], &[], &[]);
        assert_eq!(found(&after_end, 52, 0), option(52, &[1], 1, 243));
    }

    #[test]
    fn a_field_that_is_read_and_cut_is_refused() {
        let refuses = |message: &[u8], code: u8| found(message, code, 0).0.refused;
        assert_eq!(refuses(&message(&[52, 1, 1], &[&[0; 127][..], &[12]].concat(), &[]), 12), 15);
        let unnamed = message(&[52, 1, 2], &[12, 200], &[]);
        assert_eq!(found(&unnamed, 12, 0), (out(), vec![]));
        let options = message(&[52, 0, 12], &[], &[]);
        assert_eq!((refuses(&options, 12), refuses(&options, 0), refuses(&options, 255)), (15, 6, 6));
        assert_eq!(refuses(&message(&[12, 1, 65, 12, 1, 66, 52, 1, 1], &[12, 200], &[]), 12), 15);
    }

    #[test]
    fn an_unclear_52_is_refused() {
        let areas = [&[52, 1, 4][..], &[52, 1, 1, 0, 52, 0], &[52, 2, 1, 1], &[52, 0], &[52, 1, 0]];
        for area in areas {
            let message = message(area, &[12, 200], &[]);
            assert_eq!(found(&message, 12, 0).0, refused(16), "{area:?}");
            assert_eq!(entry(&message, 300, &mut []), refused(16), "{area:?}");
            assert_eq!(entries(&message, &mut []), Entries { refused: 16, codes: 0 }, "{area:?}");
            assert_eq!(overload(&message), Field { refused: 16, number: 0 }, "{area:?}");
        }
    }

    #[test]
    fn empty_parts_are_parts() {
        let message = message(&[12, 0, 1, 0, 12, 0], &[], &[]);
        assert_eq!(found(&message, 12, 0), option(12, &[], 2, 246));
    }

    #[test]
    fn rows_are_filled_by_first_appearance() {
        let message = message(&[1, 0, 12, 1, 65, 52, 1, 2, 12, 1, 66], &[9, 0], &[7, 0, 1, 2, 8, 8, 255, 5]);
        let rows = [(1, 2, 2, 50), (12, 2, 2, 251), (52, 1, 1, 248), (7, 1, 0, 46)];
        let rows = rows.map(|(code, parts, len, place)| Row { code, parts, len, place });
        for size in 0..6 {
            let mut filled = [Row::default(); 5];
            assert_eq!(entries(&message, &mut filled[..size]), Entries { refused: 0, codes: 4 });
            let told = size.min(4);
            assert_eq!((&filled[..told], &filled[told..]), (&rows[..told], &[Row::default(); 5][told..]));
        }
    }

    #[test]
    fn the_message_comes_first() {
        let mut other = message(&[52, 1, 3, 12, 1, 65, 255], &[], &[]);
        other[FILE_END] = 0;
        assert_eq!((found(&other, 12, 0).0, listed(&other, 0).0), (out(), out()));
        assert_eq!(found(&vec![0; LEAST_MESSAGE - 1], 0, 0).0, refused(1));
        assert_eq!(found(&vec![0; MOST_BYTES + 1], 0, 0).0, refused(2));
    }
}
