//! Rows of options, written in one call.

use super::made;
use crate::cases::Bench;
use crate::paper::MOST_BYTES;
use sindovaleph::calls::WriteRow;

/// How many bytes the values have that all rows lie in.
const VALUES: usize = 5_000;

/// Codes that are written, and numbers that are no such code.
const CODES: [usize; 7] = [1, 12, 254, 0, 255, 256 + 12, usize::MAX];

/// Where a value begins and how long it is: around each cut, around the most that is written, and outside of the values.
const SPANS: [(usize, usize); 19] = [
    (0, 0),
    (9, 1),
    (3, 4),
    (0, 255),
    (1, 256),
    (0, 510),
    (7, 511),
    (0, 4_080),
    (VALUES - 4_080, 4_080),
    (0, 4_081),
    (VALUES - 1, 1),
    (VALUES, 0),
    (VALUES, 1),
    (VALUES + 1, 0),
    (0, VALUES + 1),
    (1, usize::MAX),
    (usize::MAX, 0),
    (usize::MAX, 1),
    (usize::MAX, usize::MAX),
];

/// Rows that are written, and rows that are refused: two of them by the first of two reasons.
const SMALL: [WriteRow; 10] = [
    WriteRow { code: 12, start: 1, len: 1 },
    WriteRow { code: 254, start: 2, len: 3 },
    WriteRow { code: 43, start: VALUES, len: 0 },
    WriteRow { code: 12, start: VALUES, len: 1 },
    WriteRow { code: 0, start: 1, len: 2 },
    WriteRow { code: 255, start: 1, len: 0 },
    WriteRow { code: 256 + 12, start: 1, len: 1 },
    WriteRow { code: 12, start: 0, len: 4_081 },
    WriteRow { code: 0, start: VALUES + 1, len: 0 },
    WriteRow { code: 255, start: 0, len: 4_081 },
];

/// Every code with every span.
fn every_row() -> Vec<WriteRow> {
    CODES.iter().flat_map(|&code| SPANS.map(|(start, len)| WriteRow { code, start, len })).collect()
}

/// Every row alone, and before and behind every other.
fn pairs(bench: &mut Bench, values: &[u8]) {
    let rows = every_row();
    for &first in &rows {
        bench.write_list(&[first], values);
        bench.write_list(&[first], &[]);
        for &second in &rows {
            bench.write_list(&[first, second], values);
        }
    }
}

/// A table and every longer one of up to three of them, in every room up to one byte more than all of them can take.
fn small(bench: &mut Bench, values: &[u8], table: &mut Vec<WriteRow>) {
    for room in 0..=17 {
        for place in [0, 1, room] {
            bench.write_list_into(table, values, (room, place));
        }
    }
    if table.len() < 3 {
        for row in SMALL {
            table.push(row);
            small(bench, values, table);
            table.pop();
        }
    }
}

/// Longer lists, with one row that is refused at each place, and with none.
fn longer(bench: &mut Bench, values: &[u8]) {
    let row = |at: usize| WriteRow { code: 1 + at % 254, start: 3 * at, len: at * at % 300 };
    for count in [0, 3, 12, 40] {
        let rows: Vec<WriteRow> = (0..count).map(row).collect();
        bench.write_list(&rows, values);
        for wrong in 0..count {
            let WriteRow { code, start, len } = row(wrong);
            for (code, start, len) in [(code, VALUES, len + 1), (0, start, len), (code, start, 4_081)] {
                let mut rows = rows.clone();
                rows[wrong] = WriteRow { code, start, len };
                bench.write_list(&rows, values);
            }
        }
    }
}

/// Rooms at the limit, with places at their ends, and rows that are written, refused, or not there.
fn rooms(bench: &mut Bench, values: &[u8]) {
    let good = WriteRow { code: 12, start: 1, len: 4 };
    let wrong = WriteRow { code: 0, ..good };
    for room in [0, 1, 6, 12, 13, MOST_BYTES - 1, MOST_BYTES, MOST_BYTES + 1] {
        let from_end = [12, 11, 6, 5, 0].map(|bytes| room.saturating_sub(bytes));
        for place in from_end.into_iter().chain([0, 1, room + 1, usize::MAX]) {
            for rows in [&[][..], &[good], &[wrong], &[good, good], &[good, wrong], &[wrong, good]] {
                bench.write_list_into(rows, values, (room, place));
            }
        }
    }
}

/// All of them.
pub fn sweep(bench: &mut Bench) {
    let values = &made::contents(VALUES)[4];
    pairs(bench, values);
    small(bench, values, &mut Vec::new());
    longer(bench, values);
    rooms(bench, values);
}
