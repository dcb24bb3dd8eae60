//! The walk over an area of options (document 01, "Walking the area").

use super::{END, MOST_BYTES, PAD, first_refusal};
use sindovaleph::calls::Step;

pub(super) const OUT: u8 = 1;
const AT_END: u8 = 2;
const CUT_LENGTH: u8 = 3;
const CUT_VALUE: u8 = 4;
const CUT_CONTINUATION: u8 = 5;

/// What a call finds, before the join buffer is thought of.
#[derive(Clone, Copy, Debug, PartialEq, Eq)]
pub enum Found {
    /// One of the five stops, and the place behind it.
    Stop(u8, usize),
    /// An option: where its first part begins, its parts, its value's length, and the place behind its last part.
    Option { start: usize, parts: usize, len: usize, place: usize },
}

/// The length of the part that begins at a place, where the whole part is there.
fn part_at(area: &[u8], at: usize) -> Option<usize> {
    let len = usize::from(*area.get(at + 1)?);
    (at + 2 + len <= area.len()).then_some(len)
}

/// What a call from a place in the area finds.
pub fn find(area: &[u8], place: usize) -> Found {
    let start = place + area[place..].iter().take_while(|&&byte| byte == PAD).count();
    if start == area.len() {
        return Found::Stop(OUT, start);
    }
    let code = area[start];
    if code == END {
        return Found::Stop(AT_END, start + 1);
    }
    if start + 1 == area.len() {
        return Found::Stop(CUT_LENGTH, start + 1);
    }
    let Some(first) = part_at(area, start) else {
        return Found::Stop(CUT_VALUE, start + 2);
    };
    let (mut parts, mut len, mut place) = (1, first, start + 2 + first);
    while area.get(place) == Some(&code) {
        let Some(next) = part_at(area, place) else {
            return Found::Stop(CUT_CONTINUATION, start + 2 + first);
        };
        parts += 1;
        len += next;
        place += 2 + next;
    }
    Found::Option { start, parts, len, place }
}

/// Puts the values of so many parts, the first at `start`, one behind the other.
fn join_parts(area: &[u8], start: usize, parts: usize, join: &mut [u8]) {
    let (mut at, mut filled) = (start, 0);
    for _ in 0..parts {
        let len = usize::from(area[at + 1]);
        join[filled..filled + len].copy_from_slice(&area[at + 2..at + 2 + len]);
        at += 2 + len;
        filled += len;
    }
}

/// One call of the walk.
pub fn step(area: &[u8], place: usize, join: &mut [u8]) -> Step {
    let nothing = Step { refused: 0, stop: 0, code: 0, parts: 0, len: 0, place };
    let refused = first_refusal(&[(area.len() > MOST_BYTES, 2), (place > area.len(), 4)]);
    if refused > 0 {
        return Step { refused, ..nothing };
    }
    match find(area, place) {
        Found::Stop(stop, place) => Step { stop, place, ..nothing },
        Found::Option { parts, len, .. } if parts > 1 && len > join.len() => Step { refused: 5, len, ..nothing },
        Found::Option { start, parts, len, place } => {
            if parts > 1 {
                join_parts(area, start, parts, join);
            }
            Step { code: area[start], parts, len, place, ..nothing }
        }
    }
}
