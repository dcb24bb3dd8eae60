//! Options, written into a lent room.

pub use crate::calls::Route;

use crate::calls::{self, Written};
use crate::refusal::{Refusal, RowRefused, checked};
use crate::shown::{Bytes, Code};
use crate::value::NodeType;
use core::fmt;
use core::net::Ipv4Addr;

/// The most addresses that a value has: 4,080 bytes.
const MOST: usize = 1_020;

/// As many as are laid out in passing.
const FEW: usize = 16;

/// A call that writes a list of addresses.
type WriteNumbers = fn(&mut [u8], usize, u8, &[u32]) -> Written;

/// Writes options into a lent room, one behind the other.
///
/// Each write moves the place behind what it wrote and changes exactly those bytes; a refusal changes nothing. Byte
/// values go to every code from 1 to 254, typed ones to a code of their kind ([`kind_of`](crate::kind_of)), and
/// [`Refusal::OtherKind`] tells another. A value has at most 4,080 bytes; above 255 it is written in parts, lists in
/// parts of whole elements. An empty value or list writes nothing.
pub struct Writer<'a> {
    room: &'a mut [u8],
    place: usize,
}

impl<'a> Writer<'a> {
    /// Writes from the room's first byte on.
    #[inline]
    pub fn new(room: &'a mut [u8]) -> Writer<'a> {
        Writer::at(room, 0)
    }

    /// Writes from a place on: 240 is behind the header of a message.
    #[inline]
    pub fn at(room: &'a mut [u8], place: usize) -> Writer<'a> {
        Writer { room, place }
    }

    /// The place in the room where the next write begins.
    #[inline]
    #[must_use]
    pub fn place(&self) -> usize {
        self.place
    }

    /// The room up to the place: all that was written, and what stood before it.
    #[inline]
    #[must_use]
    pub fn written(&self) -> &[u8] {
        self.room.get(..self.place).unwrap_or(&[])
    }

    /// Bytes as they stand, to any code from 1 to 254.
    #[inline]
    pub fn bytes(&mut self, code: u8, value: &[u8]) -> Result<(), Refusal> {
        let written = calls::write_bytes(self.room, self.place, code, value);
        self.moved(written)
    }

    /// An address.
    #[inline]
    pub fn address(&mut self, code: u8, address: Ipv4Addr) -> Result<(), Refusal> {
        let written = calls::write_address(self.room, self.place, code, address.to_bits());
        self.moved(written)
    }

    /// A byte.
    #[inline]
    pub fn byte(&mut self, code: u8, byte: u8) -> Result<(), Refusal> {
        let written = calls::write_byte(self.room, self.place, code, byte);
        self.moved(written)
    }

    /// Yes or no.
    #[inline]
    pub fn yes_no(&mut self, code: u8, yes: bool) -> Result<(), Refusal> {
        let written = calls::write_yes_no(self.room, self.place, code, yes);
        self.moved(written)
    }

    /// A number of two bytes.
    #[inline]
    pub fn u16(&mut self, code: u8, number: u16) -> Result<(), Refusal> {
        let written = calls::write_u16(self.room, self.place, code, number);
        self.moved(written)
    }

    /// A number of four bytes.
    #[inline]
    pub fn u32(&mut self, code: u8, number: u32) -> Result<(), Refusal> {
        let written = calls::write_u32(self.room, self.place, code, number);
        self.moved(written)
    }

    /// A number of four bytes in two's complement.
    #[inline]
    pub fn i32(&mut self, code: u8, number: i32) -> Result<(), Refusal> {
        let written = calls::write_i32(self.room, self.place, code, number);
        self.moved(written)
    }

    /// Text.
    #[inline]
    pub fn text(&mut self, code: u8, text: &str) -> Result<(), Refusal> {
        let written = calls::write_text(self.room, self.place, code, text.as_bytes());
        self.moved(written)
    }

    /// A node type.
    #[inline]
    pub fn node_type(&mut self, code: u8, node: NodeType) -> Result<(), Refusal> {
        let written = calls::write_node_type(self.room, self.place, code, node.into());
        self.moved(written)
    }

    /// A message type.
    #[inline]
    pub fn message_type(&mut self, code: u8, byte: u8) -> Result<(), Refusal> {
        let written = calls::write_message_type(self.room, self.place, code, byte);
        self.moved(written)
    }

    /// Three bytes.
    #[inline]
    pub fn three_bytes(&mut self, code: u8, bytes: [u8; 3]) -> Result<(), Refusal> {
        let written = calls::write_three_bytes(self.room, self.place, code, bytes);
        self.moved(written)
    }

    /// A flag, which has no value.
    #[inline]
    pub fn flag(&mut self, code: u8) -> Result<(), Refusal> {
        let written = calls::write_flag(self.room, self.place, code);
        self.moved(written)
    }

    /// Addresses.
    #[inline]
    pub fn addresses(&mut self, code: u8, addresses: &[Ipv4Addr]) -> Result<(), Refusal> {
        let all = addresses.iter().copied();
        self.numbers(calls::write_addresses, code, addresses.len(), all)
    }

    /// Pairs of addresses: an address and its mask, or a destination and its router.
    #[inline]
    pub fn pairs(&mut self, code: u8, pairs: &[(Ipv4Addr, Ipv4Addr)]) -> Result<(), Refusal> {
        let all = pairs.iter().flat_map(|&(first, second)| [first, second]);
        self.numbers(calls::write_pairs, code, pairs.len().saturating_mul(2), all)
    }

    /// Numbers of two bytes.
    #[inline]
    pub fn u16s(&mut self, code: u8, numbers: &[u16]) -> Result<(), Refusal> {
        let written = calls::write_u16s(self.room, self.place, code, numbers);
        self.moved(written)
    }

    /// Codes of options.
    #[inline]
    pub fn codes(&mut self, code: u8, codes: &[u8]) -> Result<(), Refusal> {
        let written = calls::write_codes(self.room, self.place, code, codes);
        self.moved(written)
    }

    /// Classless routes, option 121 (RFC 3442).
    #[inline]
    pub fn routes(&mut self, routes: &[Route]) -> Result<(), Refusal> {
        let written = calls::write_routes(self.room, self.place, routes);
        self.moved(written)
    }

    /// Old static routes, moved to where newer clients read them: the value of an option 33, written as option 121.
    ///
    /// A pair is a destination and its router. The destination's first octet gives the width: 8 for 0 to 127, 16 for 128
    /// to 191, 24 for 192 to 223; but one that has a bit behind that width is a host, of width 32.
    ///
    /// [`Refusal::TooLong`] is of the room or of `pairs`. A value that is no multiple of 8 bytes is
    /// [`Refusal::WrongLength`], whatever its pairs are; then the first destination decides that is 0.0.0.0 or has a first
    /// octet above 223, by [`Refusal::DestinationBarred`]. [`Refusal::ValueTooLong`] and [`Refusal::NoRoom`] are of the
    /// value made, which may be longer or shorter than `pairs`. An empty value writes nothing. `pairs` and the room are
    /// two slices: nothing is moved in place.
    ///
    /// Given room, [`Writer::move_back`] makes the same pairs of it again, where they are 4,080 bytes or fewer.
    ///
    /// ```
    /// use sindovaleph::{Options, Refusal, Writer, codes};
    ///
    /// // A network and a host, as a stored profile has them.
    /// let pairs = [10, 0, 0, 0, 192, 0, 2, 1, 172, 16, 5, 9, 192, 0, 2, 1];
    /// let mut room = [0; 64];
    /// let mut writer = Writer::new(&mut room);
    /// writer.move_out(&pairs)?;
    /// let area = writer.written();
    /// assert_eq!(area, [121, 15, 8, 10, 192, 0, 2, 1, 32, 172, 16, 5, 9, 192, 0, 2, 1]);
    ///
    /// let mut join = [0; 64];
    /// let routes = Options::new(area, &mut join).next().unwrap()?;
    /// assert_eq!(routes.code(), codes::CLASSLESS_STATIC_ROUTE);
    /// let mut old_room = [0; 64];
    /// let mut writer = Writer::new(&mut old_room);
    /// writer.move_back(routes.data())?;
    /// assert_eq!(writer.written()[..2], [codes::STATIC_ROUTING_TABLE, 16]);
    /// assert_eq!(writer.written()[2..], pairs);
    ///
    /// // Option 33 has no default route, and none to a host 10.0.0.0: that is a network of width 8 there.
    /// assert_eq!(writer.move_back(&[0, 192, 0, 2, 1]), Err(Refusal::DestinationBarred));
    /// assert_eq!(writer.move_back(&[32, 10, 0, 0, 0, 192, 0, 2, 1]), Err(Refusal::NoOldForm));
    /// # Ok::<(), Refusal>(())
    /// ```
    #[inline]
    pub fn move_out(&mut self, pairs: &[u8]) -> Result<(), Refusal> {
        let written = calls::move_out(self.room, self.place, pairs);
        self.moved(written)
    }

    /// Classless routes, moved back for older clients: the value of an option 121, written as option 33.
    ///
    /// A route moves only if its width is the one that [`Writer::move_out`] gives its destination, which is masked as in
    /// [`Routes`](crate::Routes).
    ///
    /// [`Refusal::TooLong`] is of the room or of `routes`. Then the first bad row decides, by [`Refusal::WidthAbove32`],
    /// by [`Refusal::WrongLength`] where it is cut, by [`Refusal::DestinationBarred`] for 0.0.0.0 or a first octet above
    /// 223, or by [`Refusal::NoOldForm`] for another width, in this order. [`Refusal::ValueTooLong`] and
    /// [`Refusal::NoRoom`] are of the value made, 8 bytes a route. An empty value writes nothing. `routes` and the room
    /// are two slices: nothing is moved in place.
    #[inline]
    pub fn move_back(&mut self, routes: &[u8]) -> Result<(), Refusal> {
        let written = calls::move_back(self.room, self.place, routes);
        self.moved(written)
    }

    /// An option for each row, as byte values out of `values`: all of them, or none. The answer is how many there are.
    ///
    /// The first row that is refused decides, as if each were written behind the one before. [`RowRefused`] has its
    /// index; the room and the place are as they were. A row is [`Refusal::PastEnd`] where its value does not stand in
    /// `values`.
    ///
    /// ```
    /// use sindovaleph::{Refusal, RowRefused, WriteRow, Writer};
    ///
    /// let mut rows = [WriteRow::new(53, 0, 1), WriteRow::new(255, 1, 4), WriteRow::new(12, 5, 4)];
    /// let values = [5, 0, 0, 14, 16, 104, 111, 115, 116];
    /// let mut room = [9; 16];
    /// let mut writer = Writer::at(&mut room, 1);
    /// assert_eq!(writer.list(&rows, &values), Err(RowRefused { row: 1, refusal: Refusal::NoSuchCode }));
    /// assert_eq!(writer.place(), 1);
    /// assert_eq!(room, [9; 16]);
    ///
    /// rows[1] = WriteRow::new(51, 1, 4);
    /// let mut writer = Writer::new(&mut room);
    /// writer.list(&rows, &values)?;
    /// writer.close()?;
    /// assert_eq!(writer.written(), [53, 1, 5, 51, 4, 0, 0, 14, 16, 12, 4, 104, 111, 115, 116, 255]);
    /// # Ok::<(), Refusal>(())
    /// ```
    #[inline]
    pub fn list(&mut self, rows: &[WriteRow], values: &[u8]) -> Result<usize, RowRefused> {
        let written = calls::write_list(self.room, self.place, calls::bare(rows), values);
        let answer = Written { refused: written.refused, place: written.place };
        self.moved(answer).map_err(|refusal| RowRefused { row: written.rows, refusal })?;
        Ok(written.rows)
    }

    /// End, 255, behind the last option.
    #[inline]
    pub fn close(&mut self) -> Result<(), Refusal> {
        let written = calls::close(self.room, self.place);
        self.moved(written)
    }

    /// Addresses as the numbers that cross: few of them, as in most options.
    #[inline]
    fn numbers(
        &mut self,
        write: WriteNumbers,
        code: u8,
        count: usize,
        addresses: impl Iterator<Item = Ipv4Addr>,
    ) -> Result<(), Refusal> {
        if count > FEW {
            return self.many_numbers(write, code, addresses);
        }
        let written = write(self.room, self.place, code, filled(&mut [0; FEW], addresses));
        self.moved(written)
    }

    /// The same of many. There is room for a pair more than a value has, which the library refuses; so what is longer and
    /// left out here is refused too.
    #[cold]
    fn many_numbers(
        &mut self,
        write: WriteNumbers,
        code: u8,
        addresses: impl Iterator<Item = Ipv4Addr>,
    ) -> Result<(), Refusal> {
        let written = write(self.room, self.place, code, filled(&mut [0; MOST + 2], addresses));
        self.moved(written)
    }

    /// Goes on behind what was written. A refusal answers the old place.
    #[inline]
    fn moved(&mut self, written: Written) -> Result<(), Refusal> {
        self.place = written.place;
        checked(written.refused)
    }
}

impl fmt::Debug for Writer<'_> {
    fn fmt(&self, f: &mut fmt::Formatter<'_>) -> fmt::Result {
        f.debug_struct("Writer").field("room", &Bytes(self.room.len())).field("place", &self.place).finish()
    }
}

/// Addresses as numbers, as many as there is room for.
#[inline]
fn filled(numbers: &mut [u32], addresses: impl Iterator<Item = Ipv4Addr>) -> &[u32] {
    let count = numbers.iter_mut().zip(addresses).map(|(number, address)| *number = address.to_bits()).count();
    numbers.get(..count).unwrap_or(&[])
}

/// An option to be written: its code, and where its value stands in the values that are lent with it.
#[repr(transparent)]
#[derive(Clone, Copy, Default, PartialEq, Eq)]
pub struct WriteRow(calls::WriteRow);

impl WriteRow {
    /// An option with this code, whose value is `len` bytes of the values from `start` on.
    #[inline]
    pub const fn new(code: u8, start: usize, len: usize) -> WriteRow {
        WriteRow(calls::WriteRow { code: code as usize, start, len })
    }
}

impl fmt::Debug for WriteRow {
    fn fmt(&self, f: &mut fmt::Formatter<'_>) -> fmt::Result {
        let mut shown = f.debug_struct("WriteRow");
        shown.field("code", &Code(self.0.code as u8)).field("start", &self.0.start).field("len", &self.0.len).finish()
    }
}

impl Route {
    /// A route to a destination with a mask of `width` bits.
    #[inline]
    pub const fn new(width: u8, destination: Ipv4Addr, gateway: Ipv4Addr) -> Route {
        Route { width, destination: destination.to_bits(), gateway: gateway.to_bits() }
    }
}

impl fmt::Debug for Route {
    fn fmt(&self, f: &mut fmt::Formatter<'_>) -> fmt::Result {
        let mut shown = f.debug_struct("Route");
        shown.field("width", &self.width).field("destination", &Ipv4Addr::from_bits(self.destination));
        shown.field("gateway", &Ipv4Addr::from_bits(self.gateway)).finish()
    }
}
