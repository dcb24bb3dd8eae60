//! The walk over an area of options.

use crate::calls::{self, Step};
use crate::refusal::Refusal;
use crate::shown::{Bytes, Code};
use crate::value::{self, Value};
use core::{fmt, mem};

numbered! {
    /// Why the walk stopped. A stop is no refusal: the place moves, and a further call goes on from there.
    pub enum Stop {
        /// No byte is left.
        Out = 1,
        /// End, 255. What stands behind it can still be walked.
        End = 2,
        /// A code stands at the area's end, with no length.
        CutLength = 3,
        /// A length is beyond what is left. A further call reads the bytes of the cut value as options.
        CutValue = 4,
        /// A further part of an option is cut. Nothing of that option is told; a further call reads on behind its first
        /// part.
        CutContinuation = 5,
    }
}

impl fmt::Display for Stop {
    fn fmt(&self, f: &mut fmt::Formatter<'_>) -> fmt::Result {
        f.write_str(match self {
            Stop::Out => "out",
            Stop::End => "end",
            Stop::CutLength => "cut length",
            Stop::CutValue => "cut value",
            Stop::CutContinuation => "cut continuation",
        })
    }
}

/// Why a walk ended: it stopped, or it was refused.
#[derive(Clone, Copy, Debug, PartialEq, Eq)]
#[non_exhaustive]
#[must_use]
pub enum Ending {
    /// It stopped. The place has moved.
    Stopped(Stop),
    /// The area has more than 65,535 bytes, or the walk was begun at a place past its end.
    Refused(Refusal),
    /// An option of several parts has a value of so many bytes, and less is left to join it in
    /// ([`Refusal::JoinTooShort`]). The place and the join buffer are as before: [`Options::at`] goes on with another
    /// buffer.
    Needs(usize),
}

impl Ending {
    /// The refusal, where it is one.
    #[inline]
    #[must_use]
    pub const fn refusal(self) -> Option<Refusal> {
        match self {
            Ending::Stopped(_) => None,
            Ending::Refused(refusal) => Some(refusal),
            Ending::Needs(_) => Some(Refusal::JoinTooShort),
        }
    }

    /// The ending that crossed as a step with a refusal or a stop. It is no method of the walk, which so can be kept in
    /// registers.
    #[cold]
    #[inline]
    fn of(refused: u8, stop: u8, len: usize) -> Ending {
        match (Refusal::from_number(refused), Stop::from_number(stop)) {
            (Some(Refusal::JoinTooShort), _) => Ending::Needs(len),
            (Some(refusal), _) => Ending::Refused(refusal),
            (None, stop) => Ending::Stopped(stop.unwrap_or(Stop::Out)),
        }
    }
}

impl fmt::Display for Ending {
    fn fmt(&self, f: &mut fmt::Formatter<'_>) -> fmt::Result {
        match self {
            Ending::Stopped(stop) => write!(f, "{stop}"),
            Ending::Refused(refusal) => write!(f, "{refusal}"),
            Ending::Needs(len) => write!(f, "{}: it takes {len} bytes", Refusal::JoinTooShort),
        }
    }
}

/// The options of an area, one after the other.
///
/// `next` gives `None` at each of the five [`Stop`]s, and a further call goes on past it; [`Options::ending`] says why,
/// and [`Options::is_closed`] whether it was End. A `for` loop ends at the first of them.
///
/// A walk that is refused gives the refusal, once, and then `None`: so a loop's body gets it, and no loop runs forever.
/// Only a join buffer that is too short does that to the options of a [`Message`](crate::Message).
///
/// An option of two or more parts is joined in the front of what is left of the join buffer, and keeps those bytes: so
/// all options live as long as the area and the buffer, and can be collected. A buffer of the area's length always
/// suffices, as every byte of the area is joined once at most. With one part nothing is copied.
#[must_use = "a walk reads nothing until it is asked for the next option"]
pub struct Options<'a> {
    area: &'a [u8],
    join: &'a mut [u8],
    place: usize,
    ending: Option<Ending>,
}

impl<'a> Options<'a> {
    /// The options of an area, from its first byte on.
    #[inline]
    pub fn new(area: &'a [u8], join: &'a mut [u8]) -> Options<'a> {
        Options::at(area, 0, join)
    }

    /// The options of an area from a place on.
    #[inline]
    pub fn at(area: &'a [u8], place: usize, join: &'a mut [u8]) -> Options<'a> {
        Options { area, join, place, ending: None }
    }

    /// The place in the area where the next call begins.
    #[inline]
    #[must_use]
    pub fn place(&self) -> usize {
        self.place
    }

    /// Why the walk ended last; nothing where it did not yet.
    #[inline]
    #[must_use]
    pub fn ending(&self) -> Option<Ending> {
        self.ending
    }

    /// Whether the walk ended last at an End, as it does where a message is whole. Not so where bytes ran out, something
    /// is cut or refused, or the walk has not ended yet.
    #[inline]
    #[must_use]
    pub fn is_closed(&self) -> bool {
        self.ending == Some(Ending::Stopped(Stop::End))
    }
}

impl<'a> Iterator for Options<'a> {
    type Item = Result<Opt<'a>, Refusal>;

    #[inline]
    fn next(&mut self) -> Option<Result<Opt<'a>, Refusal>> {
        let step = calls::step(self.area, self.place, self.join);
        self.place = step.place;
        if step.refused | step.stop != 0 {
            // A refused walk stands where it stood, and would be refused again and again: it is told once.
            let told = self.ending.and_then(Ending::refusal);
            let ending = Ending::of(step.refused, step.stop, step.len);
            self.ending = Some(ending);
            return if told.is_none() { ending.refusal().map(Err) } else { None };
        }
        Some(Ok(opt(self.area, &mut self.join, step)))
    }
}

impl fmt::Debug for Options<'_> {
    fn fmt(&self, f: &mut fmt::Formatter<'_>) -> fmt::Result {
        let mut shown = f.debug_struct("Options");
        shown.field("area", &Bytes(self.area.len())).field("join", &Bytes(self.join.len()));
        shown.field("place", &self.place).field("ending", &self.ending).finish()
    }
}

/// The `len` bytes of an area before a place, if they are there.
#[inline]
pub(crate) fn before(area: &[u8], place: usize, len: usize) -> Option<&[u8]> {
    area.get(place.wrapping_sub(len)..place)
}

/// The first `len` bytes of the join buffer, which then no longer has them.
#[inline]
fn joined<'a>(join: &mut &'a mut [u8], len: usize) -> &'a [u8] {
    let Some((value, left)) = mem::take(join).split_at_mut_checked(len) else {
        return &[];
    };
    *join = left;
    value
}

/// The option that a step told, whose value stands in the lent bytes or in the join buffer.
#[inline]
pub(crate) fn opt<'a>(bytes: &'a [u8], join: &mut &'a mut [u8], step: Step) -> Opt<'a> {
    let data = if step.parts == 1 { before(bytes, step.place, step.len) } else { Some(joined(join, step.len)) };
    Opt { data: data.unwrap_or(&[]), parts: step.parts, place: step.place, code: step.code }
}

/// An option: its code and its value, whose bytes stand where they were lent or in the join buffer.
#[derive(Clone, Copy, PartialEq, Eq)]
pub struct Opt<'a> {
    data: &'a [u8],
    parts: usize,
    place: usize,
    code: u8,
}

impl<'a> Opt<'a> {
    /// The code.
    #[inline]
    #[must_use]
    pub fn code(&self) -> u8 {
        self.code
    }

    /// The value, joined where it has several parts.
    #[inline]
    #[must_use]
    pub fn data(&self) -> &'a [u8] {
        self.data
    }

    /// How many bytes the value has.
    #[inline]
    #[must_use]
    pub fn len(&self) -> usize {
        self.data.len()
    }

    /// Whether the value has no byte.
    #[inline]
    #[must_use]
    pub fn is_empty(&self) -> bool {
        self.data.is_empty()
    }

    /// Of how many parts the value was made.
    #[inline]
    #[must_use]
    pub fn parts(&self) -> usize {
        self.parts
    }

    /// The place behind the option's last part. The walk's is a place of the area, where it goes on. Where parts are
    /// joined over all fields, as by [`Message::find`](crate::Message::find), it is a place of the message.
    #[inline]
    #[must_use]
    pub fn place(&self) -> usize {
        self.place
    }

    /// What the value reads as: see [`read`](value::read).
    #[inline]
    pub fn read(&self) -> Result<Value<'a>, Refusal> {
        value::read(self.code, self.data)
    }

    /// What the value reads as, strictly: see [`read_strict`](value::read_strict).
    #[inline]
    pub fn read_strict(&self) -> Result<Value<'a>, Refusal> {
        value::read_strict(self.code, self.data)
    }
}

impl fmt::Debug for Opt<'_> {
    fn fmt(&self, f: &mut fmt::Formatter<'_>) -> fmt::Result {
        let mut shown = f.debug_struct("Opt");
        shown.field("code", &Code(self.code)).field("parts", &self.parts).field("place", &self.place);
        match self.read() {
            Ok(value) => shown.field("value", &value),
            Err(refusal) => shown.field("data", &self.data).field("refused", &refusal),
        };
        shown.finish()
    }
}
