//! The hardware address: what of it lies in its own field of the header, and what is behind that field.

use crate::shown::Hardware;
use core::fmt;

/// The hardware address of a message: `hlen` bytes from the field chaddr on, which has 16. Where `hlen` is above 16, the
/// address spills: the bytes behind the 16th are those of sname, then of file, the magic and the options.
///
/// It is no slice and does not become one by itself: text of sname that is printed as part of a MAC address misleads, so
/// who wants bytes says which. [`Chaddr::own`] is what to print, as `{}` does, and what to know a client by.
///
/// ```
/// # let mut bytes = [0; 244];
/// # bytes[..4].copy_from_slice(&[1, 1, 17, 0]);
/// # bytes[28..34].copy_from_slice(&[2, 0, 0, 0, 0, 1]);
/// # bytes[44..48].copy_from_slice(b"boot");
/// use sindovaleph::{Message, Refusal};
///
/// // The message says that its address has 17 bytes; the 17th is the first one of the server's name.
/// let chaddr = Message::new(&bytes)?.chaddr()?;
/// assert_eq!((chaddr.spills(), chaddr.spilled()), (true, &b"b"[..]));
/// assert_eq!((chaddr.own().len(), chaddr.bytes().len()), (16, 17));
/// assert_eq!(chaddr.to_string(), "02:00:00:00:00:01:00:00:00:00:00:00:00:00:00:00");
/// # Ok::<(), Refusal>(())
/// ```
#[derive(Clone, Copy, PartialEq, Eq)]
pub struct Chaddr<'a> {
    bytes: &'a [u8],
    own: usize,
    spills: bool,
}

impl<'a> Chaddr<'a> {
    /// All bytes, how many of them lie in the field, and whether `hlen` is above 16, as the header's answer has it.
    #[inline]
    pub(crate) fn new(bytes: &'a [u8], own: u16, spills: bool) -> Chaddr<'a> {
        Chaddr { bytes, own: own.into(), spills }
    }

    /// The bytes that lie in the field chaddr: 16 at most.
    #[inline]
    #[must_use]
    pub fn own(&self) -> &'a [u8] {
        self.bytes.get(..self.own).unwrap_or(self.bytes)
    }

    /// The bytes behind the field, which are no address: none where `hlen` is at most 16.
    #[inline]
    #[must_use]
    pub fn spilled(&self) -> &'a [u8] {
        self.bytes.get(self.own..).unwrap_or(&[])
    }

    /// All `hlen` bytes, as dhcproto's `chaddr()` shows them: text of sname among them, where the address spills.
    #[inline]
    #[must_use]
    pub fn bytes(&self) -> &'a [u8] {
        self.bytes
    }

    /// Whether `hlen` is above 16.
    #[inline]
    #[must_use]
    pub fn spills(&self) -> bool {
        self.spills
    }
}

/// The bytes of the field, as `02:00:00:00:00:11`.
impl fmt::Display for Chaddr<'_> {
    fn fmt(&self, f: &mut fmt::Formatter<'_>) -> fmt::Result {
        fmt::Debug::fmt(&Hardware(self.own()), f)
    }
}

/// The same, and how many bytes are spilled, where some are.
impl fmt::Debug for Chaddr<'_> {
    fn fmt(&self, f: &mut fmt::Formatter<'_>) -> fmt::Result {
        write!(f, "{self}")?;
        if self.spills {
            write!(f, " and {} spilled", self.spilled().len())?;
        }
        Ok(())
    }
}
