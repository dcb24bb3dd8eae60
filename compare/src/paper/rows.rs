//! All options of an area in one call, and options written in one call: a row of numbers for each.

use super::writing::{MOST_PART, in_parts, put, room_refusal};
use super::{END, Found, MOST_BYTES, MOST_VALUE, PAD, find, first_refusal, read};
use sindovaleph::calls::{Listed, ReadRow, Row, Value, WriteRow, WrittenRows};

/// The rows from a place on, up to the first stop or until the rows are full. `row` makes one, of an option and of where its first part begins.
fn fill<R>(area: &[u8], place: usize, rows: &mut [R], row: impl Fn(usize, Row) -> R) -> Listed {
    let refused = first_refusal(&[(area.len() > MOST_BYTES, 2), (place > area.len(), 4)]);
    let mut listed = Listed { refused, stop: 0, rows: 0, place };
    while refused == 0 && listed.rows < rows.len() {
        match find(area, listed.place) {
            Found::Stop(stop, place) => return Listed { stop, place, ..listed },
            Found::Option { start, parts, len, place } => {
                rows[listed.rows] = row(start, Row { code: area[start].into(), parts, len, place });
                listed.rows += 1;
                listed.place = place;
            }
        }
    }
    listed
}

/// A listing.
pub fn list(area: &[u8], place: usize, rows: &mut [Row]) -> Listed {
    fill(area, place, rows, |_, row| row)
}

/// A typed listing: nothing is joined, so an option of two parts or more is refused, unless it is empty.
pub fn read_list(area: &[u8], place: usize, rows: &mut [ReadRow], strict: bool) -> Listed {
    fill(area, place, rows, |start, Row { code, parts, len, place }| {
        let value = if parts == 1 { &area[start + 2..place] } else { &[] };
        let Value { refused, kind, number, count } = match (parts, len) {
            (2.., 1..) => Value { refused: 5, kind: 0, number: 0, count: 0 },
            _ => read(area[start], value, strict),
        };
        let (refused, kind, number) = (refused.into(), kind.into(), number as usize);
        ReadRow { code, parts, len, place, refused, kind, number, count }
    })
}

/// The bytes of one row, or its refusal, where `left` bytes are left for it.
fn row_bytes(row: &WriteRow, values: &[u8], left: usize) -> Result<Vec<u8>, u8> {
    let end = row.start.checked_add(row.len).ok_or(4)?;
    let value = values.get(row.start..end).ok_or(4)?;
    let code = u8::try_from(row.code).ok().filter(|&code| code != PAD && code != END).ok_or(6)?;
    if value.len() > MOST_VALUE {
        return Err(7);
    }
    let bytes = in_parts(MOST_PART, code, value);
    if bytes.len() > left { Err(8) } else { Ok(bytes) }
}

/// All rows one behind the other, or none: the first that is refused is told by its index, and nothing is written.
pub fn write_list(room: &mut [u8], place: usize, rows: &[WriteRow], values: &[u8]) -> WrittenRows {
    let refused = room_refusal(room, place);
    if refused > 0 {
        return WrittenRows { refused, rows: 0, place };
    }
    let mut bytes = Vec::new();
    for (index, row) in rows.iter().enumerate() {
        match row_bytes(row, values, room.len() - place - bytes.len()) {
            Ok(more) => bytes.extend(more),
            Err(refused) => return WrittenRows { refused, rows: index, place },
        }
    }
    WrittenRows { refused, rows: rows.len(), place: put(room, place, refused, &bytes).place }
}

#[cfg(test)]
mod tests {
    use super::*;

    /// An option, one of two parts, an empty one of two parts, and End.
    const AREA: [u8; 15] = [53, 1, 5, 12, 1, 65, 12, 1, 66, 43, 0, 43, 0, 255, 1];

    const GOOD: WriteRow = WriteRow { code: 12, start: 1, len: 2 };
    const EMPTY: WriteRow = WriteRow { code: 254, start: 3, len: 0 };

    #[test]
    fn rows_end_at_a_stop_or_where_they_are_full() {
        let mut rows = [Row::default(); 4];
        assert_eq!(list(&AREA, 0, &mut rows), Listed { refused: 0, stop: 2, rows: 3, place: 14 });
        assert_eq!(rows[1], Row { code: 12, parts: 2, len: 2, place: 9 });
        assert_eq!(rows[3], Row::default());
        assert_eq!(list(&AREA, 0, &mut rows[..2]), Listed { refused: 0, stop: 0, rows: 2, place: 9 });
        assert_eq!(list(&AREA, 16, &mut rows), Listed { refused: 4, stop: 0, rows: 0, place: 16 });
    }

    #[test]
    fn nothing_is_joined_in_a_typed_listing() {
        let mut rows = [ReadRow::default(); 4];
        assert_eq!(read_list(&AREA, 0, &mut rows, false).rows, 3);
        assert_eq!((rows[0].refused, rows[0].kind, rows[0].number), (0, 13, 5));
        assert_eq!((rows[1].refused, rows[1].kind), (5, 0));
        assert_eq!((rows[2].refused, rows[2].parts), (0, 2));
    }

    fn written(refused: u8, rows: usize, place: usize) -> WrittenRows {
        WrittenRows { refused, rows, place }
    }

    #[test]
    fn rows_are_written_one_behind_the_other() {
        let mut room = [0; 10];
        assert_eq!(write_list(&mut room, 1, &[], b"abc"), written(0, 0, 1));
        assert_eq!(write_list(&mut room, 1, &[GOOD, EMPTY, GOOD], b"abc"), written(0, 3, 9));
        assert_eq!(room, [0, 12, 2, b'b', b'c', 12, 2, b'b', b'c', 0]);
        assert_eq!(write_list(&mut room, 10, &[EMPTY, EMPTY], b"abc"), written(0, 2, 10));
    }

    #[test]
    fn the_first_refused_row_is_told_and_nothing_is_written() {
        let values = [7; 4_082];
        let row = |code, start, len| WriteRow { code, start, len };
        let wrong = [
            (row(0, 4_083, 0), 4),
            (row(12, 1, 4_082), 4),
            (row(12, usize::MAX, 1), 4),
            (row(0, 0, 4_081), 6),
            (row(255, 0, 0), 6),
            (row(268, 0, 1), 6),
            (row(12, 0, 4_081), 7),
            (row(12, 0, 8), 8),
        ];
        let mut room = [0; 10];
        for (wrong, refused) in wrong {
            for (rows, index) in [([wrong, GOOD, EMPTY], 0), ([EMPTY, wrong, wrong], 1), ([GOOD, EMPTY, wrong], 2)] {
                assert_eq!(write_list(&mut room, 1, &rows, &values), written(refused, index, 1), "{rows:?}");
            }
        }
        assert_eq!(room, [0; 10]);
    }

    #[test]
    fn rows_fit_behind_each_other_or_the_first_that_does_not_is_told() {
        let rows = [GOOD, GOOD, EMPTY];
        let mut room = [0; 9];
        assert_eq!(write_list(&mut room[..8], 1, &rows, b"abc"), written(8, 1, 1));
        assert_eq!(write_list(&mut room[..5], 1, &rows, b"abc"), written(8, 1, 1));
        assert_eq!(write_list(&mut room[..4], 1, &rows, b"abc"), written(8, 0, 1));
        assert_eq!(room, [0; 9]);
        assert_eq!(write_list(&mut room, 1, &rows, b"abc"), written(0, 3, 9));
    }

    #[test]
    fn the_room_and_the_place_come_before_any_row() {
        let wrong = WriteRow { code: 0, ..GOOD };
        for rows in [&[][..], &[GOOD], &[wrong, GOOD]] {
            assert_eq!(write_list(&mut [0; 6], 7, rows, b"abc"), written(4, 0, 7));
            assert_eq!(write_list(&mut vec![0; MOST_BYTES + 1], 70_000, rows, b"abc"), written(2, 0, 70_000));
        }
    }
}
