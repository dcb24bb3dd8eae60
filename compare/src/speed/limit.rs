//! The limit of what is measured: the calls of `sindovaleph::calls` by hand-written C, `limit/limit.c`. It is there where a C compiler
//! was, when this program was built.

use sindovaleph::calls::{Listed, ReadRow, Row, Step, Value, Written};

unsafe extern "C" {
    fn limit_is_utf8(text: *const u8, text_len: usize) -> bool;
    fn limit_read(code: u8, value: *const u8, value_len: usize, strict: bool) -> Value;
    fn limit_step(area: *const u8, area_len: usize, place: usize, join: *mut u8, join_len: usize) -> Step;
    fn limit_list(area: *const u8, area_len: usize, place: usize, rows: *mut usize, numbers: usize) -> Listed;
    fn limit_read_list(
        area: *const u8,
        area_len: usize,
        place: usize,
        rows: *mut usize,
        numbers: usize,
        strict: bool,
    ) -> Listed;
    fn limit_move_out(room: *mut u8, room_len: usize, place: usize, value: *const u8, value_len: usize) -> Written;
    fn limit_move_back(room: *mut u8, room_len: usize, place: usize, value: *const u8, value_len: usize) -> Written;
}

/// How many numbers rows have.
fn numbers<R>(rows: &[R]) -> usize {
    size_of_val(rows) / size_of::<usize>()
}

// SAFETY, of each call: the slices are valid for as long as it takes, as the C functions need them, and rows are structs of usize
// numbers alone.

pub fn is_utf8(text: &[u8]) -> bool {
    unsafe { limit_is_utf8(text.as_ptr(), text.len()) }
}

pub fn read(code: u8, value: &[u8], strict: bool) -> Value {
    unsafe { limit_read(code, value.as_ptr(), value.len(), strict) }
}

pub fn step(area: &[u8], place: usize, join: &mut [u8]) -> Step {
    unsafe { limit_step(area.as_ptr(), area.len(), place, join.as_mut_ptr(), join.len()) }
}

pub fn list(area: &[u8], place: usize, rows: &mut [Row]) -> Listed {
    unsafe { limit_list(area.as_ptr(), area.len(), place, rows.as_mut_ptr().cast(), numbers(rows)) }
}

pub fn read_list(area: &[u8], place: usize, rows: &mut [ReadRow], strict: bool) -> Listed {
    unsafe { limit_read_list(area.as_ptr(), area.len(), place, rows.as_mut_ptr().cast(), numbers(rows), strict) }
}

pub fn move_out(room: &mut [u8], place: usize, value: &[u8]) -> Written {
    unsafe { limit_move_out(room.as_mut_ptr(), room.len(), place, value.as_ptr(), value.len()) }
}

pub fn move_back(room: &mut [u8], place: usize, value: &[u8]) -> Written {
    unsafe { limit_move_back(room.as_mut_ptr(), room.len(), place, value.as_ptr(), value.len()) }
}

#[cfg(test)]
mod tests {
    use super::*;
    use sindovaleph::calls;

    /// Every string of so many of these bytes.
    fn strings(bytes: &'static [u8], len: u32) -> impl Iterator<Item = Vec<u8>> {
        let count = bytes.len();
        (0..count.pow(len)).map(move |number| (0..len).map(|at| bytes[number / count.pow(at) % count]).collect())
    }

    /// Every area of at most five bytes that matter.
    fn areas() -> impl Iterator<Item = Vec<u8>> {
        (0..6).flat_map(|len| strings(&[0, 1, 2, 12, 80, 255], len))
    }

    #[test]
    fn the_walk_answers_as_the_library_does() {
        for area in areas() {
            for (place, room) in (0..area.len() + 2).flat_map(|place| [(place, 0), (place, 1), (place, 9)]) {
                let (mut ours, mut theirs) = (vec![7; room], vec![7; room]);
                assert_eq!(calls::step(&area, place, &mut ours), step(&area, place, &mut theirs), "{area:?} {place}");
                assert_eq!(ours, theirs, "{area:?} {place}");
            }
        }
        let long = vec![1; 65_536];
        assert_eq!(calls::step(&long, 0, &mut []), step(&long, 0, &mut []));
    }

    #[test]
    fn the_listings_answer_as_the_library_does() {
        for area in areas() {
            for rows in 0..3 {
                let (mut ours, mut theirs) = (vec![Row::default(); rows], vec![Row::default(); rows]);
                assert_eq!(calls::list(&area, 0, &mut ours), list(&area, 0, &mut theirs), "{area:?}");
                assert_eq!(ours, theirs, "{area:?}");
                for strict in [false, true] {
                    let (mut ours, mut theirs) = (vec![ReadRow::default(); rows], vec![ReadRow::default(); rows]);
                    let answer = calls::read_list(&area, 0, &mut ours, strict);
                    assert_eq!(answer, read_list(&area, 0, &mut theirs, strict), "{area:?}");
                    assert_eq!(ours, theirs, "{area:?}");
                }
            }
        }
    }

    #[test]
    fn the_reading_answers_as_the_library_does() {
        for code in 0..=255 {
            for value in [0, 1, 2, 0xC3].into_iter().flat_map(|byte| (0..17).map(move |len| vec![byte; len])) {
                for strict in [false, true] {
                    assert_eq!(calls::read(code, &value, strict), read(code, &value, strict), "{code} {value:?}");
                }
            }
        }
    }

    #[test]
    fn the_look_at_text_answers_as_the_library_does() {
        const BYTES: &[u8] = &[0x00, 0x7F, 0x80, 0x8F, 0x90, 0x9F, 0xA0, 0xBF, 0xC1, 0xC2, 0xE0, 0xED, 0xF0, 0xF4];
        for text in (0..5).flat_map(|len| strings(BYTES, len)) {
            assert_eq!(calls::is_utf8(&text), is_utf8(&text), "{text:?}");
        }
    }

    /// A move by both sides, in a room of this size.
    fn same_moves(value: &[u8], room: usize, place: usize) {
        let (mut ours, mut theirs) = (vec![7; room], vec![7; room]);
        let moves = [calls::move_out(&mut ours, place, value), calls::move_back(&mut ours, place, value)];
        let said = [move_out(&mut theirs, place, value), move_back(&mut theirs, place, value)];
        assert_eq!((moves, ours), (said, theirs), "{value:?} {place} {room}");
    }

    #[test]
    fn the_moves_answer_as_the_library_does() {
        for value in (0..7).flat_map(|len| strings(&[0, 1, 8, 10, 33, 224], len)) {
            for (room, place) in [(0, 0), (12, 0), (12, 3), (2, 3)] {
                same_moves(&value, room, place);
            }
        }
        let pair = |first: u8, behind: u8| [first, behind, 0, 0, 192, 0, 2, 1];
        let route =
            |width: u8, first: u8| [&[width, first, 0, 0, 0][..=usize::from(width / 8)], &[192, 0, 2, 1]].concat();
        for first in 0..=255 {
            (0..2).for_each(|behind| same_moves(&pair(first, behind), 20, 1));
            [8, 16, 24, 32].iter().for_each(|&width| same_moves(&route(width, first), 20, 1));
        }
        for count in (0..90).chain(450..460).chain(505..515).chain(675..685) {
            for value in [pair(10, 0).repeat(count), pair(10, 1).repeat(count), route(8, 10).repeat(count)] {
                same_moves(&value, 5_000, 0);
                same_moves(&value, value.len(), 0);
            }
        }
        same_moves(&[0; 65_536], 9, 10);
        same_moves(&[0; 8], 65_536, 70_000);
    }
}
