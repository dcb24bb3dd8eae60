//! All options of an area in one call, as rows of numbers.

use crate::calls;
use crate::options::{Stop, before};
use crate::refusal::{Refusal, checked};
use crate::shown::Code;
use crate::value::{self, Kind, Value};
use core::fmt;

/// What a listing answers.
#[derive(Clone, Copy, Debug, PartialEq, Eq)]
#[non_exhaustive]
#[must_use = "it says how many rows are filled, and whether all options are among them"]
pub struct Listed {
    /// How many rows are filled, from the first on.
    pub rows: usize,
    /// Why the walk stopped; nothing where the rows are full, and a further call goes on from `place`.
    pub stop: Option<Stop>,
    /// The place in the area where a further call goes on.
    pub place: usize,
}

impl Listed {
    #[inline]
    fn of(listed: calls::Listed) -> Result<Listed, Refusal> {
        checked(listed.refused)?;
        Ok(Listed { rows: listed.rows, stop: Stop::from_number(listed.stop), place: listed.place })
    }
}

/// Lists the options of an area from a place on, a row for each, until the first stop or until the rows are full.
/// Nothing is joined, so no option is too long.
#[inline]
pub fn list(area: &[u8], place: usize, rows: &mut [Row]) -> Result<Listed, Refusal> {
    Listed::of(calls::list(area, place, calls::bare_mut(rows)))
}

/// The same, with what each option reads as: see [`read`](value::read).
#[inline]
pub fn read_list(area: &[u8], place: usize, rows: &mut [ReadRow]) -> Result<Listed, Refusal> {
    Listed::of(calls::read_list(area, place, calls::bare_mut(rows), false))
}

/// The same, with what each option reads as strictly: see [`read_strict`](value::read_strict).
#[inline]
pub fn read_list_strict(area: &[u8], place: usize, rows: &mut [ReadRow]) -> Result<Listed, Refusal> {
    Listed::of(calls::read_list(area, place, calls::bare_mut(rows), true))
}

/// An option in a listing. Nothing is joined: with two parts or more the value stands in the area alone, part by part.
///
/// What shows the value takes the area that was listed. With another area it shows whatever stands there, or refuses.
#[repr(transparent)]
#[derive(Clone, Copy, Default, PartialEq, Eq)]
pub struct Row(calls::Row);

impl Row {
    /// The code.
    #[inline]
    #[must_use]
    pub fn code(&self) -> u8 {
        self.0.code as u8
    }

    /// Of how many parts the value is made.
    #[inline]
    #[must_use]
    pub fn parts(&self) -> usize {
        self.0.parts
    }

    /// How many bytes the value has, all parts together.
    #[inline]
    #[must_use]
    pub fn len(&self) -> usize {
        self.0.len
    }

    /// Whether the value has no byte.
    #[inline]
    #[must_use]
    pub fn is_empty(&self) -> bool {
        self.0.len == 0
    }

    /// The place in the area behind the option.
    #[inline]
    #[must_use]
    pub fn place(&self) -> usize {
        self.0.place
    }

    /// The value, where it stands in one piece: it has one part, or no byte. Others want [`Row::join`].
    #[inline]
    #[must_use]
    pub fn data<'a>(&self, area: &'a [u8]) -> Option<&'a [u8]> {
        if self.parts() > 1 && !self.is_empty() {
            return None;
        }
        before(area, self.place(), self.len())
    }

    /// The value, joined in the front of `join` where it has several parts. That takes [`Row::len`] bytes: fewer are
    /// [`Refusal::JoinTooShort`]. Where the area has no such option it is [`Refusal::PastEnd`].
    pub fn join<'a>(&self, area: &'a [u8], join: &'a mut [u8]) -> Result<&'a [u8], Refusal> {
        if let Some(value) = self.data(area) {
            return Ok(value);
        }
        // The parts stand one behind the other, each behind its code and its length.
        let start = self.place().wrapping_sub(self.len()).wrapping_sub(self.parts().wrapping_mul(2));
        let mut found = [calls::Row::default()];
        checked(calls::list(area, start, &mut found).refused)?;
        if found != [self.0] {
            return Err(Refusal::PastEnd);
        }
        checked(calls::step(area, start, join).refused)?;
        join.get(..self.len()).ok_or(Refusal::JoinTooShort)
    }
}

impl fmt::Debug for Row {
    fn fmt(&self, f: &mut fmt::Formatter<'_>) -> fmt::Result {
        let mut shown = f.debug_struct("Row");
        shown.field("code", &Code(self.code())).field("parts", &self.parts());
        shown.field("len", &self.len()).field("place", &self.place()).finish()
    }
}

/// An option in a listing with values, where what shows them takes the area that was listed, as in [`Row`].
#[repr(transparent)]
#[derive(Clone, Copy, Default, PartialEq, Eq)]
pub struct ReadRow(calls::ReadRow);

impl ReadRow {
    /// The code.
    #[inline]
    #[must_use]
    pub fn code(&self) -> u8 {
        self.row().code()
    }

    /// Of how many parts the value is made.
    #[inline]
    #[must_use]
    pub fn parts(&self) -> usize {
        self.0.parts
    }

    /// How many bytes the value has, all parts together.
    #[inline]
    #[must_use]
    pub fn len(&self) -> usize {
        self.0.len
    }

    /// Whether the value has no byte.
    #[inline]
    #[must_use]
    pub fn is_empty(&self) -> bool {
        self.0.len == 0
    }

    /// The place in the area behind the option.
    #[inline]
    #[must_use]
    pub fn place(&self) -> usize {
        self.0.place
    }

    /// The value's bytes: see [`Row::data`].
    #[inline]
    #[must_use]
    pub fn data<'a>(&self, area: &'a [u8]) -> Option<&'a [u8]> {
        self.row().data(area)
    }

    /// The value's bytes, joined: see [`Row::join`].
    #[inline]
    pub fn join<'a>(&self, area: &'a [u8], join: &'a mut [u8]) -> Result<&'a [u8], Refusal> {
        self.row().join(area, join)
    }

    /// What the option reads as. What would have to be joined is [`Refusal::JoinTooShort`]: [`ReadRow::join`] joins it,
    /// and [`read`](value::read) reads it then.
    #[inline]
    pub fn value<'a>(&self, area: &'a [u8]) -> Result<Value<'a>, Refusal> {
        let answer = calls::Value {
            refused: self.0.refused as u8,
            kind: self.0.kind as u8,
            number: self.0.number as u32,
            count: self.0.count,
        };
        checked(answer.refused)?;
        let value = self.data(area).ok_or(Refusal::PastEnd)?;
        value::shown(self.code(), value, answer, || calls::text(value))
    }

    /// What is in a listing without values.
    #[inline]
    fn row(&self) -> Row {
        let calls::ReadRow { code, parts, len, place, .. } = self.0;
        Row(calls::Row { code, parts, len, place })
    }
}

impl fmt::Debug for ReadRow {
    fn fmt(&self, f: &mut fmt::Formatter<'_>) -> fmt::Result {
        let mut shown = f.debug_struct("ReadRow");
        shown.field("code", &Code(self.code())).field("parts", &self.parts());
        shown.field("len", &self.len()).field("place", &self.place());
        match Refusal::from_number(self.0.refused as u8) {
            Some(refusal) => shown.field("refused", &refusal),
            None => shown.field("kind", &Kind::from_number(self.0.kind as u8).unwrap_or(Kind::Raw)),
        };
        shown.finish()
    }
}
