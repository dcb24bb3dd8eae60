//! Texts at every boundary of UTF-8.

use crate::cases::Bench;
use crate::typed::Typed;

/// A code of text.
const TEXT: u8 = 12;

/// The bytes at which a rule of RFC 3629's grammar begins or ends.
const BOUNDARIES: [u8; 25] = [
    0x00, 0x41, 0x7F, 0x80, 0x8F, 0x90, 0x9F, 0xA0, 0xBF, 0xC0, 0xC1, 0xC2, 0xDF, 0xE0, 0xE1, 0xEC, 0xED, 0xEE, 0xEF,
    0xF0, 0xF1, 0xF3, 0xF4, 0xF5, 0xFF,
];

/// How much ASCII is put before a text, so that it begins at every place of a block.
const MOST_BEFORE: usize = 33;

/// How much ASCII stands around a piece so that it falls at every place of two blocks of 128.
const AROUND: std::ops::RangeInclusive<usize> = 90..=290;

/// A text, read and looked at alone.
fn text(bench: &mut Bench, text: &[u8]) {
    bench.read_value(TEXT, text);
    bench.utf8(text);
}

fn one_and_two_bytes(bench: &mut Bench) {
    for first in 0..=255 {
        text(bench, &[first]);
        for second in 0..=255 {
            text(bench, &[first, second]);
        }
    }
}

fn three_and_four_bytes(bench: &mut Bench) {
    for first in BOUNDARIES {
        for second in BOUNDARIES {
            for third in BOUNDARIES {
                text(bench, &[first, second, third]);
                for fourth in BOUNDARIES {
                    text(bench, &[first, second, third, fourth]);
                }
            }
        }
    }
}

/// Characters of each width, their cuts and wrong ones.
const PIECES: [&[u8]; 14] = [
    &[0xC3, 0xA9],
    &[0xE2, 0x82, 0xAC],
    &[0xF0, 0x9F, 0x98, 0x80],
    &[0xF4, 0x8F, 0xBF, 0xBF],
    &[0xEF, 0xBF, 0xBF],
    &[0xC3],
    &[0xE2, 0x82],
    &[0xF0, 0x9F, 0x98],
    &[0x80],
    &[0xC0, 0x80],
    &[0xED, 0xA0, 0x80],
    &[0xE0, 0x9F, 0xBF],
    &[0xF0, 0x8F, 0xBF, 0xBF],
    &[0xF4, 0x90, 0x80, 0x80],
];

/// A piece behind and before so much ASCII.
fn between(before: usize, piece: &[u8], behind: usize) -> Vec<u8> {
    [&vec![b'a'; before], piece, &vec![b'z'; behind]].concat()
}

/// Pieces behind and before ASCII.
fn between_ascii(bench: &mut Bench) {
    for piece in PIECES {
        for before in 0..=MOST_BEFORE {
            for behind in [0, 1, 2, 3, 7, 8, 15, 16, 17, 40] {
                let bytes = between(before, piece, behind);
                text(bench, &bytes);
                bench.write_typed(TEXT, &Typed::Text(&bytes));
            }
        }
        for before in AROUND {
            for behind in [0, 1, 2, 3, 60, 128, 200] {
                text(bench, &between(before, piece, behind));
            }
        }
    }
}

/// All of them.
pub fn sweep(bench: &mut Bench) {
    one_and_two_bytes(bench);
    three_and_four_bytes(bench);
    between_ascii(bench);
}
