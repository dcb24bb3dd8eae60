//! RFC 3396's reading of a message: all parts of one code joined, over the options field and over the fields file and
//! sname, where option 52 names them.

use crate::calls::{self, Step};
use crate::message::Message;
use crate::options::{Opt, opt};
use crate::refusal::{OptRefused, Refusal, checked};
use crate::rows::Row;
use crate::shown::{Bytes, Code};
use core::fmt;
use core::iter::FusedIterator;

/// Which fields hold options besides the options field, as option 52 says it.
#[derive(Clone, Copy, Debug, PartialEq, Eq, Hash)]
#[must_use]
pub enum Overload {
    /// There is no option 52.
    Neither,
    /// file, 1.
    File,
    /// sname, 2.
    Sname,
    /// file, then sname, 3.
    Both,
}

impl Overload {
    /// What option 52 of a message says.
    #[inline]
    pub(crate) fn of(message: &[u8]) -> Result<Overload, Refusal> {
        let field = calls::overload(message);
        checked(field.refused as u8)?;
        Ok(match field.number {
            1 => Overload::File,
            2 => Overload::Sname,
            3 => Overload::Both,
            _ => Overload::Neither,
        })
    }

    /// Whether file holds options, and no name of a boot file.
    #[inline]
    #[must_use]
    pub const fn has_file(self) -> bool {
        matches!(self, Overload::File | Overload::Both)
    }

    /// Whether sname holds options, and no name of a server.
    #[inline]
    #[must_use]
    pub const fn has_sname(self) -> bool {
        matches!(self, Overload::Sname | Overload::Both)
    }
}

/// The option that a call told, or none. What is joined takes the front of the join buffer.
#[inline]
pub(crate) fn told<'a>(message: &'a [u8], join: &mut &'a mut [u8], step: Step) -> Result<Option<Opt<'a>>, OptRefused> {
    if let Err(refusal) = checked(step.refused) {
        return Err(OptRefused { refusal, needs: (refusal == Refusal::JoinTooShort).then_some(step.len) });
    }
    Ok((step.stop == 0).then(|| opt(message, join, step)))
}

/// The options of a message in RFC 3396's reading, each code once, in the order in which codes first appear.
///
/// What is refused is told once, and then comes `None`, as after the last option. [`Entries::refused`] has it still, and
/// the length that an option needs whose parts the join buffer cannot take.
///
/// An option of two or more parts is joined in the front of what is left of the join buffer, and keeps those bytes: so
/// all options live as long as the message and the buffer, and can be collected. A buffer of the message's length always
/// suffices. With one part nothing is copied.
///
/// Each option is a call, which goes over all fields. [`Message::list_entries`] goes over them once for all options.
#[must_use = "nothing is read until the next option is asked for"]
pub struct Entries<'a> {
    message: &'a [u8],
    join: &'a mut [u8],
    index: usize,
    refused: Option<OptRefused>,
}

impl<'a> Entries<'a> {
    /// The options of a message, from the first on.
    #[inline]
    pub(crate) fn new(message: &'a [u8], join: &'a mut [u8]) -> Entries<'a> {
        Entries { message, join, index: 0, refused: None }
    }

    /// The index of the next option: how many were given.
    #[inline]
    #[must_use]
    pub fn index(&self) -> usize {
        self.index
    }

    /// Why no further option is given, where something is refused. [`Message::entry`] at [`Entries::index`] goes on with
    /// a longer buffer.
    #[inline]
    #[must_use]
    pub fn refused(&self) -> Option<OptRefused> {
        self.refused
    }
}

impl<'a> Iterator for Entries<'a> {
    type Item = Result<Opt<'a>, Refusal>;

    #[inline]
    fn next(&mut self) -> Option<Result<Opt<'a>, Refusal>> {
        if self.refused.is_some() {
            return None;
        }
        let step = calls::entry(self.message, self.index, self.join);
        match told(self.message, &mut self.join, step) {
            Ok(found) => {
                self.index += usize::from(found.is_some());
                found.map(Ok)
            }
            Err(refused) => {
                self.refused = Some(refused);
                Some(Err(refused.refusal))
            }
        }
    }
}

impl FusedIterator for Entries<'_> {}

impl fmt::Debug for Entries<'_> {
    fn fmt(&self, f: &mut fmt::Formatter<'_>) -> fmt::Result {
        let mut shown = f.debug_struct("Entries");
        shown.field("message", &Bytes(self.message.len())).field("join", &Bytes(self.join.len()));
        shown.field("index", &self.index).field("refused", &self.refused).finish()
    }
}

/// An option in a listing of RFC 3396's reading, whose parts may stand anywhere in the fields of the message. Nothing is
/// joined there: [`Message::find`] joins it by its code.
#[repr(transparent)]
#[derive(Clone, Copy, Default, PartialEq, Eq)]
pub struct EntryRow(Row);

impl EntryRow {
    /// The code.
    #[inline]
    #[must_use]
    pub fn code(&self) -> u8 {
        self.0.code()
    }

    /// Of how many parts the value is made.
    #[inline]
    #[must_use]
    pub fn parts(&self) -> usize {
        self.0.parts()
    }

    /// How many bytes the value has, all parts together: so many it takes to join it.
    #[inline]
    #[must_use]
    pub fn len(&self) -> usize {
        self.0.len()
    }

    /// Whether the value has no byte.
    #[inline]
    #[must_use]
    pub fn is_empty(&self) -> bool {
        self.0.is_empty()
    }

    /// The place in the message behind the last part.
    #[inline]
    #[must_use]
    pub fn place(&self) -> usize {
        self.0.place()
    }

    /// The value, where it stands in one piece: it has one part, or no byte. It takes the message that was listed.
    #[inline]
    #[must_use]
    pub fn data<'a>(&self, message: &Message<'a>) -> Option<&'a [u8]> {
        self.0.data(message.bytes())
    }
}

impl fmt::Debug for EntryRow {
    fn fmt(&self, f: &mut fmt::Formatter<'_>) -> fmt::Result {
        let mut shown = f.debug_struct("EntryRow");
        shown.field("code", &Code(self.code())).field("parts", &self.parts());
        shown.field("len", &self.len()).field("place", &self.place()).finish()
    }
}
