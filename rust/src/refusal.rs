//! Why something is refused.

use core::fmt;

numbered! {
    /// Why something is refused, by its number. A refusal changes nothing that was lent, and no place moves; but those
    /// of a [`Stream`](crate::Stream) move it on, since its bytes do not come twice.
    pub enum Refusal {
        /// The message has fewer than 240 bytes; of a stream, a frame has.
        MessageTooShort = 1,
        /// A message, an area, a room or a value to be read has more than 65,535 bytes.
        TooLong = 2,
        /// `hlen` says that chaddr has more bytes than the message has from byte 28 on.
        ChaddrPastEnd = 3,
        /// A place is past the end, an element's index is not below the count, or a row's value does not stand in the
        /// values.
        PastEnd = 4,
        /// An option of two or more parts is longer than the room to join it in.
        JoinTooShort = 5,
        /// The code is 0 or 255, which have no value.
        NoSuchCode = 6,
        /// The value to be written has more than 4,080 bytes.
        ValueTooLong = 7,
        /// What is to be written does not fit from the place to the room's end.
        NoRoom = 8,
        /// A typed write names a code of another kind.
        OtherKind = 9,
        /// The value's length is wrong for its kind, or a route is cut.
        WrongLength = 10,
        /// Text is not UTF-8.
        NotUtf8 = 11,
        /// A route's width is above 32.
        WidthAbove32 = 12,
        /// A list of pairs has an odd number of addresses.
        OddPairs = 13,
        /// Strict reading: a yes/no byte is neither 0 nor 1.
        UnclearYesNo = 14,
        /// RFC 3396's reading: the options field is cut, or one that option 52 names.
        FieldCut = 15,
        /// RFC 3396's reading: option 52 of the options field has more than one part, or is not one byte of 1 to 3.
        UnclearOverload = 16,
        /// A stream: the size of a frame is more than the buffer has.
        SizeAboveBuffer = 17,
        /// A move between options 33 and 121: a destination, masked to its width, is 0.0.0.0 or has a first octet above
        /// 223.
        DestinationBarred = 18,
        /// A move back to option 33: a route has another width than its masked destination gives it there.
        NoOldForm = 19,
    }
}

impl fmt::Display for Refusal {
    fn fmt(&self, f: &mut fmt::Formatter<'_>) -> fmt::Result {
        f.write_str(match self {
            Refusal::MessageTooShort => "the message has fewer than 240 bytes",
            Refusal::TooLong => "there are more than 65,535 bytes",
            Refusal::ChaddrPastEnd => "the hardware address is longer than the message",
            Refusal::PastEnd => "the place or the index is past the end",
            Refusal::JoinTooShort => "the room to join the option's parts in is too short",
            Refusal::NoSuchCode => "the codes 0 and 255 have no value",
            Refusal::ValueTooLong => "the value has more than 4,080 bytes",
            Refusal::NoRoom => "there is no room for what is to be written",
            Refusal::OtherKind => "the code is of another kind",
            Refusal::WrongLength => "the value's length is wrong for its kind",
            Refusal::NotUtf8 => "the text is not UTF-8",
            Refusal::WidthAbove32 => "a route's width is above 32",
            Refusal::OddPairs => "a list of pairs has an odd number of addresses",
            Refusal::UnclearYesNo => "the yes/no byte is neither 0 nor 1",
            Refusal::FieldCut => "a field that holds options is cut",
            Refusal::UnclearOverload => "option 52 has more than one part or is not one byte of 1 to 3",
            Refusal::SizeAboveBuffer => "the size of a frame is more than the buffer has",
            Refusal::DestinationBarred => "a destination to be moved is 0.0.0.0 or has a first octet above 223",
            Refusal::NoOldForm => "a route has a width that no pair of option 33 stands for",
        })
    }
}

impl core::error::Error for Refusal {}

/// A number that stands for nothing where it was looked up, as by `Refusal::try_from`.
#[derive(Clone, Copy, Debug, PartialEq, Eq)]
pub struct NoSuchNumber(pub u8);

impl fmt::Display for NoSuchNumber {
    fn fmt(&self, f: &mut fmt::Formatter<'_>) -> fmt::Result {
        write!(f, "nothing has the number {}", self.0)
    }
}

impl core::error::Error for NoSuchNumber {}

/// Which row is refused of those that one call was to write, and why. Nothing is written then.
#[derive(Clone, Copy, Debug, PartialEq, Eq)]
pub struct RowRefused {
    /// The row's index, 0 for the first; 0 too where the room or the place is refused, before any row.
    pub row: usize,
    /// Why it is refused.
    pub refusal: Refusal,
}

impl fmt::Display for RowRefused {
    fn fmt(&self, f: &mut fmt::Formatter<'_>) -> fmt::Result {
        write!(f, "row {} is refused: {}", self.row, self.refusal)
    }
}

impl core::error::Error for RowRefused {}

impl From<RowRefused> for Refusal {
    #[inline]
    fn from(refused: RowRefused) -> Refusal {
        refused.refusal
    }
}

/// Why an option is refused, and what it would take to join its parts.
#[derive(Clone, Copy, Debug, PartialEq, Eq)]
pub struct OptRefused {
    /// Why it is refused.
    pub refusal: Refusal,
    /// How many bytes its value has, where the join buffer has fewer: only then, by [`Refusal::JoinTooShort`].
    pub needs: Option<usize>,
}

impl fmt::Display for OptRefused {
    fn fmt(&self, f: &mut fmt::Formatter<'_>) -> fmt::Result {
        match self.needs {
            Some(len) => write!(f, "{}: it takes {len} bytes", self.refusal),
            None => write!(f, "{}", self.refusal),
        }
    }
}

impl core::error::Error for OptRefused {}

impl From<OptRefused> for Refusal {
    #[inline]
    fn from(refused: OptRefused) -> Refusal {
        refused.refusal
    }
}

/// What a number that crossed the boundary says: 0 is no refusal, and none is above 19.
#[inline]
pub(crate) fn checked(number: u8) -> Result<(), Refusal> {
    match number {
        0 => Ok(()),
        _ => Err(Refusal::from_number(number).unwrap_or(Refusal::NoOldForm)),
    }
}
