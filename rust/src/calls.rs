//! The library's boundary as it is: the declarations of the crates of Rattle whose names begin with `sindovaleph`, and a
//! safe call for each. This is the only module with `unsafe`: a call needs nothing but valid slices, which references
//! are. The rest of this crate gives these numbers their types; who wants the plain numbers calls here.
//!
//! In every answer `refused` is the number of a refusal ([`Refusal`](crate::Refusal)), 0 for none. Where one is given,
//! nothing that was lent is changed, a place is the one that was given, and all else is 0 but for two numbers: `len` of
//! a [`Step`] that is refused with 5, and `rows` of [`WrittenRows`]. The one exception is [`receive`], whose refusals
//! move the stream ([`Received`]).

/// All fields of the fixed header.
#[repr(C)]
#[derive(Clone, Copy, Debug, PartialEq, Eq)]
pub struct Fields {
    /// The number of the transaction.
    pub xid: u32,
    /// The client's address.
    pub ciaddr: u32,
    /// The address that the client is given.
    pub yiaddr: u32,
    /// The next server's address.
    pub siaddr: u32,
    /// The relay's address.
    pub giaddr: u32,
    /// The seconds since the client began.
    pub secs: u16,
    /// The flags.
    pub flags: u16,
    /// How many bytes of sname stand before its first zero.
    pub sname: u16,
    /// How many bytes of file stand before its first zero.
    pub file: u16,
    /// How many of chaddr's `hlen` bytes lie in its field, which has 16; 0 where they are refused.
    pub chaddr_own: u16,
    /// The refusal, 0 for none.
    pub refused: u8,
    /// op.
    pub op: u8,
    /// The type of the hardware address.
    pub htype: u8,
    /// The length of the hardware address.
    pub hlen: u8,
    /// How many relays the message came through.
    pub hops: u8,
    /// 3 where chaddr's `hlen` bytes are not all there, else 0.
    pub chaddr_refused: u8,
    /// Whether `hlen` is above 16, so that the bytes behind the 16th are none of chaddr's; not where they are refused.
    pub chaddr_spills: bool,
    /// Whether something else than the magic stands before the options.
    pub wrong_magic: bool,
}

/// One field of the header, or what option 52 says.
#[repr(C)]
#[derive(Clone, Copy, Debug, PartialEq, Eq)]
pub struct Field {
    /// The refusal, 0 for none.
    pub refused: usize,
    /// The number.
    pub number: usize,
}

/// One call of the walk: an option or a stop. With one part the value is the `len` bytes of the area before `place`,
/// with more the first `len` bytes of the join buffer. Where the parts of a code are joined over all fields, it is the
/// same of the message in the area's place, and the only stop is 1, at place 0: there is no such option.
#[repr(C)]
#[derive(Clone, Copy, Debug, PartialEq, Eq)]
pub struct Step {
    /// The refusal, 0 for none.
    pub refused: u8,
    /// 0 for an option, 1 out, 2 End, 3 cut length, 4 cut value, 5 cut continuation.
    pub stop: u8,
    /// The option's code.
    pub code: u8,
    /// How many parts it has.
    pub parts: usize,
    /// How many bytes its value has. Refusal 5 says here how many are needed.
    pub len: usize,
    /// The place behind the option's last part or behind the stop: where a further call of the walk goes on.
    pub place: usize,
}

/// What a value reads as.
#[repr(C)]
#[derive(Clone, Copy, Debug, PartialEq, Eq)]
pub struct Value {
    /// The refusal, 0 for none.
    pub refused: u8,
    /// The kind, 0 to 15 ([`Kind`](crate::Kind)).
    pub kind: u8,
    /// The number, of a kind that has one: yes is 1, seconds are in two's complement, of three bytes the first is the
    /// highest.
    pub number: u32,
    /// How many elements a list has.
    pub count: usize,
}

/// An element of a list.
#[repr(C)]
#[derive(Clone, Copy, Debug, PartialEq, Eq)]
pub struct Element {
    /// The refusal, 0 for none.
    pub refused: u8,
    /// The number, or a pair's first address.
    pub first: u32,
    /// A pair's second address.
    pub second: u32,
}

/// What a write answers.
#[repr(C)]
#[derive(Clone, Copy, Debug, PartialEq, Eq)]
pub struct Written {
    /// The refusal, 0 for none.
    pub refused: u8,
    /// The place behind what was written.
    pub place: usize,
}

/// What a listing answers. A refusal fills no row.
#[repr(C)]
#[derive(Clone, Copy, Debug, PartialEq, Eq)]
pub struct Listed {
    /// The refusal, 0 for none.
    pub refused: u8,
    /// The stop, as in [`Step`]; 0 where the rows are full.
    pub stop: u8,
    /// How many rows are filled.
    pub rows: usize,
    /// The place where a further call goes on.
    pub place: usize,
}

/// What a listing of codes answers: as many rows are filled as there are codes, or as there are rows. A refusal fills
/// none.
#[repr(C)]
#[derive(Clone, Copy, Debug, PartialEq, Eq)]
pub struct Entries {
    /// The refusal, 0 for none.
    pub refused: u8,
    /// How many codes there are.
    pub codes: usize,
}

/// An option in a listing, in the numbers of [`Step`]. Nothing is joined: with two parts or more the value stands in
/// the area or the message alone, part by part.
#[repr(C)]
#[derive(Clone, Copy, Debug, Default, PartialEq, Eq)]
pub struct Row {
    /// The option's code.
    pub code: usize,
    /// How many parts it has.
    pub parts: usize,
    /// How many bytes its value has.
    pub len: usize,
    /// The place behind it.
    pub place: usize,
}

/// An option in a typed listing, in the numbers of [`Step`] and [`Value`]. `refused` is of the value alone: the option's
/// code, parts, length and place stand. An option of two parts or more is refused with 5, unless it is empty: nothing is
/// joined in a listing.
#[repr(C)]
#[derive(Clone, Copy, Debug, Default, PartialEq, Eq)]
pub struct ReadRow {
    /// The option's code.
    pub code: usize,
    /// How many parts it has.
    pub parts: usize,
    /// How many bytes its value has.
    pub len: usize,
    /// The place behind it.
    pub place: usize,
    /// The refusal of its value, 0 for none.
    pub refused: usize,
    /// The value's kind.
    pub kind: usize,
    /// The value's number.
    pub number: usize,
    /// How many elements the value has.
    pub count: usize,
}

/// An option to be written: its code, and where its value stands in the lent values.
#[repr(C)]
#[derive(Clone, Copy, Debug, Default, PartialEq, Eq)]
pub struct WriteRow {
    /// The option's code.
    pub code: usize,
    /// Where its value begins.
    pub start: usize,
    /// How many bytes its value has.
    pub len: usize,
}

/// What a write of rows answers: all of them are written, or none. The first row that is refused decides.
#[repr(C)]
#[derive(Clone, Copy, Debug, PartialEq, Eq)]
pub struct WrittenRows {
    /// The refusal, 0 for none.
    pub refused: u8,
    /// How many rows were written. A refusal says here which row it is, 0 for the first; 0 too where the room or the
    /// place is refused, before any row.
    pub rows: usize,
    /// The place behind them.
    pub place: usize,
}

/// Where a stream of messages stands. Numbers that `state` does not name are 0. A fresh stream is all 0, and so is one
/// that was reset.
#[repr(C)]
#[derive(Clone, Copy, Debug, Default, PartialEq, Eq)]
pub struct Stream {
    /// [`BETWEEN`](Stream::BETWEEN) two frames, [`SIZING`](Stream::SIZING), [`FILLING`](Stream::FILLING); any other is a
    /// refused stream, answered as [`SHUT`](Stream::SHUT).
    pub state: u8,
    /// The first byte of a size, where the second is yet to come.
    pub high: u8,
    /// The size of the frame that is gathered.
    pub size: u16,
    /// How many of its bytes stand in the buffer.
    pub filled: u16,
}

impl Stream {
    /// The next byte begins a size.
    pub const BETWEEN: u8 = 0;
    /// The first byte of a size was read.
    pub const SIZING: u8 = 1;
    /// A frame is gathered.
    pub const FILLING: u8 = 2;
    /// Refused, until reset.
    pub const SHUT: u8 = 3;
}

/// What a call over a chunk of a stream answers. A refusal moves the stream here, and 1 leaves the frame's bytes at the
/// front of the buffer; 17 leaves the buffer as it was.
#[repr(C)]
#[derive(Clone, Copy, Debug, PartialEq, Eq)]
pub struct Received {
    /// The refusal, 0 for none.
    pub refused: u8,
    /// How many bytes the message has that is handed out, which are the buffer's first; 0 where none is.
    pub len: usize,
    /// How many bytes of the chunk were read.
    pub used: usize,
    /// Where the stream stands.
    pub stream: Stream,
}

/// A row of the table of classless routes.
#[repr(C)]
#[derive(Clone, Copy, PartialEq, Eq)]
pub struct Route {
    /// How many bits the mask has, 0 to 32.
    pub width: u8,
    /// The destination, whose first bytes are written as they stand, unmasked.
    pub destination: u32,
    /// The gateway.
    pub gateway: u32,
}

/// A route that is read, if there is one. Where none is, all numbers are 0 but for a place that was given.
#[repr(C)]
#[derive(Clone, Copy, Debug, PartialEq, Eq)]
pub struct ReadRoute {
    /// The refusal, 0 for none.
    pub refused: u8,
    /// Whether there is a route; not behind the last.
    pub found: bool,
    /// How many bits the mask has, 0 to 32.
    pub width: u8,
    /// The destination, masked to its width.
    pub destination: u32,
    /// The gateway.
    pub gateway: u32,
    /// The place behind the route; 0 of a route by its index.
    pub place: usize,
}

/// How many routes a value has.
#[repr(C)]
#[derive(Clone, Copy, Debug, PartialEq, Eq)]
pub struct RouteCount {
    /// The refusal, 0 for none.
    pub refused: u8,
    /// How many there are.
    pub count: usize,
}

mod boundary {
    use super::*;

    unsafe extern "C" {
        pub safe fn sindovaleph_boundary_5() -> u32;
        pub fn sindovaleph_header(message: *const u8, message_len: usize) -> Fields;
        pub fn sindovaleph_xid(message: *const u8, message_len: usize) -> Field;
        pub safe fn sindovaleph_kind_of(code: u8) -> u8;
        pub fn sindovaleph_is_utf8(text: *const u8, text_len: usize) -> bool;
        pub fn sindovaleph_step(area: *const u8, area_len: usize, place: usize, join: *mut u8, join_len: usize)
        -> Step;
        pub fn sindovaleph_overload(message: *const u8, message_len: usize) -> Field;
        pub fn sindovaleph_find(
            message: *const u8,
            message_len: usize,
            code: u8,
            join: *mut u8,
            join_len: usize,
        ) -> Step;
        pub fn sindovaleph_entry(
            message: *const u8,
            message_len: usize,
            index: usize,
            join: *mut u8,
            join_len: usize,
        ) -> Step;
        pub fn sindovaleph_entries(message: *const u8, message_len: usize, rows: *mut usize, numbers: usize)
        -> Entries;
        pub fn sindovaleph_receive(
            stream: Stream,
            buffer: *mut u8,
            buffer_len: usize,
            chunk: *const u8,
            chunk_len: usize,
        ) -> Received;
        pub fn sindovaleph_list(
            area: *const u8,
            area_len: usize,
            place: usize,
            rows: *mut usize,
            numbers: usize,
        ) -> Listed;
        pub fn sindovaleph_read_list(
            area: *const u8,
            area_len: usize,
            place: usize,
            rows: *mut usize,
            numbers: usize,
            strict: bool,
        ) -> Listed;
        pub fn sindovaleph_write_list(
            room: *mut u8,
            room_len: usize,
            place: usize,
            rows: *const usize,
            numbers: usize,
            values: *const u8,
            values_len: usize,
        ) -> WrittenRows;
        pub fn sindovaleph_read(code: u8, value: *const u8, value_len: usize, strict: bool) -> Value;
        pub fn sindovaleph_element(code: u8, value: *const u8, value_len: usize, index: usize) -> Element;
        pub fn sindovaleph_close(room: *mut u8, room_len: usize, place: usize) -> Written;
        pub fn sindovaleph_write_bytes(
            room: *mut u8,
            room_len: usize,
            place: usize,
            code: u8,
            value: *const u8,
            value_len: usize,
        ) -> Written;
        pub fn sindovaleph_write_address(
            room: *mut u8,
            room_len: usize,
            place: usize,
            code: u8,
            address: u32,
        ) -> Written;
        pub fn sindovaleph_write_byte(room: *mut u8, room_len: usize, place: usize, code: u8, byte: u8) -> Written;
        pub fn sindovaleph_write_yes_no(room: *mut u8, room_len: usize, place: usize, code: u8, yes: bool) -> Written;
        pub fn sindovaleph_write_u16(room: *mut u8, room_len: usize, place: usize, code: u8, number: u16) -> Written;
        pub fn sindovaleph_write_u32(room: *mut u8, room_len: usize, place: usize, code: u8, number: u32) -> Written;
        pub fn sindovaleph_write_i32(room: *mut u8, room_len: usize, place: usize, code: u8, number: i32) -> Written;
        pub fn sindovaleph_write_text(
            room: *mut u8,
            room_len: usize,
            place: usize,
            code: u8,
            text: *const u8,
            text_len: usize,
        ) -> Written;
        pub fn sindovaleph_write_node_type(room: *mut u8, room_len: usize, place: usize, code: u8, byte: u8)
        -> Written;
        pub fn sindovaleph_write_message_type(
            room: *mut u8,
            room_len: usize,
            place: usize,
            code: u8,
            byte: u8,
        ) -> Written;
        pub fn sindovaleph_write_three_bytes(
            room: *mut u8,
            room_len: usize,
            place: usize,
            code: u8,
            first: u8,
            second: u8,
            third: u8,
        ) -> Written;
        pub fn sindovaleph_write_flag(room: *mut u8, room_len: usize, place: usize, code: u8) -> Written;
        pub fn sindovaleph_write_addresses(
            room: *mut u8,
            room_len: usize,
            place: usize,
            code: u8,
            addresses: *const u32,
            count: usize,
        ) -> Written;
        pub fn sindovaleph_write_pairs(
            room: *mut u8,
            room_len: usize,
            place: usize,
            code: u8,
            addresses: *const u32,
            count: usize,
        ) -> Written;
        pub fn sindovaleph_write_u16s(
            room: *mut u8,
            room_len: usize,
            place: usize,
            code: u8,
            u16s: *const u16,
            count: usize,
        ) -> Written;
        pub fn sindovaleph_write_codes(
            room: *mut u8,
            room_len: usize,
            place: usize,
            code: u8,
            codes: *const u8,
            count: usize,
        ) -> Written;
        pub fn sindovaleph_write_routes(
            room: *mut u8,
            room_len: usize,
            place: usize,
            routes: *const Route,
            count: usize,
        ) -> Written;
        pub fn sindovaleph_route_from(value: *const u8, value_len: usize, place: usize) -> ReadRoute;
        pub fn sindovaleph_route_at(value: *const u8, value_len: usize, index: usize) -> ReadRoute;
        pub fn sindovaleph_count_routes(value: *const u8, value_len: usize) -> RouteCount;
        pub fn sindovaleph_move_out(
            room: *mut u8,
            room_len: usize,
            place: usize,
            value: *const u8,
            value_len: usize,
        ) -> Written;
        pub fn sindovaleph_move_back(
            room: *mut u8,
            room_len: usize,
            place: usize,
            value: *const u8,
            value_len: usize,
        ) -> Written;
        pub fn sindovaleph_write_listing(
            room: *mut u8,
            room_len: usize,
            place: usize,
            message: *const u8,
            message_len: usize,
        ) -> Written;
    }
}

use boundary::*;

// The version of the boundary that is declared here: every program with this crate in it names it, so that it does not
// link with a library of another version.
#[used]
static BOUNDARY: extern "C" fn() -> u32 = sindovaleph_boundary_5;

// SAFETY, of every call below: the proved side takes any numbers and any bytes, so a call needs valid slices and
// nothing else. References are that, with their own lengths, for as long as the call lasts; the proved side keeps none
// of them. Rows are lent as the numbers that they are made of: `Row`, `ReadRow` and `WriteRow` are nothing but `usize`,
// one behind the other, and any numbers are rows.

/// A row of the safe crate, which is nothing but a row that crosses.
///
/// # Safety
///
/// The type is `repr(transparent)` over `Bare`.
pub(crate) unsafe trait Wraps {
    /// The row that crosses.
    type Bare;
}

// SAFETY: each is declared `repr(transparent)`, and what is within too.
unsafe impl Wraps for crate::Row {
    type Bare = Row;
}

unsafe impl Wraps for crate::EntryRow {
    type Bare = Row;
}

unsafe impl Wraps for crate::ReadRow {
    type Bare = ReadRow;
}

unsafe impl Wraps for crate::WriteRow {
    type Bare = WriteRow;
}

/// Rows of the safe crate as what they are made of.
#[inline]
pub(crate) fn bare<W: Wraps>(rows: &[W]) -> &[W::Bare] {
    // SAFETY: by `Wraps` both types have one layout.
    unsafe { &*(rows as *const [W] as *const [W::Bare]) }
}

/// Rows of the safe crate as what they are made of, to be filled.
#[inline]
pub(crate) fn bare_mut<W: Wraps>(rows: &mut [W]) -> &mut [W::Bare] {
    // SAFETY: by `Wraps` both types have one layout.
    unsafe { &mut *(rows as *mut [W] as *mut [W::Bare]) }
}

/// How many numbers rows are made of.
#[inline]
fn numbers<R>(rows: &[R]) -> usize {
    size_of_val(rows) / size_of::<usize>()
}

/// All fields of the header.
#[inline]
pub fn header(message: &[u8]) -> Fields {
    unsafe { sindovaleph_header(message.as_ptr(), message.len()) }
}

/// One field alone, for who sorts messages before reading them.
#[inline]
pub fn xid(message: &[u8]) -> Field {
    unsafe { sindovaleph_xid(message.as_ptr(), message.len()) }
}

/// The number of a code's kind.
#[inline]
pub fn kind_of(code: u8) -> u8 {
    sindovaleph_kind_of(code)
}

/// Whether bytes are UTF-8 (RFC 3629).
#[inline]
pub fn is_utf8(text: &[u8]) -> bool {
    unsafe { sindovaleph_is_utf8(text.as_ptr(), text.len()) }
}

/// Bytes as text, if they are UTF-8.
#[inline]
pub fn text(bytes: &[u8]) -> Option<&str> {
    if !is_utf8(bytes) {
        return None;
    }
    // SAFETY: the proved side has just said that these bytes are UTF-8.
    Some(unsafe { core::str::from_utf8_unchecked(bytes) })
}

/// The options of an area from a place on, in rows.
#[inline]
pub fn list(area: &[u8], place: usize, rows: &mut [Row]) -> Listed {
    let count = numbers(rows);
    unsafe { sindovaleph_list(area.as_ptr(), area.len(), place, rows.as_mut_ptr().cast(), count) }
}

/// The options of an area from a place on and what each reads as, in rows.
#[inline]
pub fn read_list(area: &[u8], place: usize, rows: &mut [ReadRow], strict: bool) -> Listed {
    let count = numbers(rows);
    unsafe { sindovaleph_read_list(area.as_ptr(), area.len(), place, rows.as_mut_ptr().cast(), count, strict) }
}

/// An option for each row, with its value out of `values`: all of them, or none.
#[inline]
pub fn write_list(room: &mut [u8], place: usize, rows: &[WriteRow], values: &[u8]) -> WrittenRows {
    let (count, rows) = (numbers(rows), rows.as_ptr().cast());
    unsafe { sindovaleph_write_list(room.as_mut_ptr(), room.len(), place, rows, count, values.as_ptr(), values.len()) }
}

/// One call of the walk at a place. What has several parts is joined in `join`.
#[inline]
pub fn step(area: &[u8], place: usize, join: &mut [u8]) -> Step {
    unsafe { sindovaleph_step(area.as_ptr(), area.len(), place, join.as_mut_ptr(), join.len()) }
}

/// What option 52 of the options field says: 1 file, 2 sname, 3 both; 0 where there is none. A message that it refuses,
/// by 2, 1, 15, 16 and 15 in this order, is refused alike by the three calls below.
#[inline]
pub fn overload(message: &[u8]) -> Field {
    unsafe { sindovaleph_overload(message.as_ptr(), message.len()) }
}

/// What a code is in a message, over the options field and the fields that option 52 names: an option, or stop 1 where it
/// has no part. What has several parts is joined in `join`. A code of 0 or 255 is refused with 6, before 15 and 16.
#[inline]
pub fn find(message: &[u8], code: u8, join: &mut [u8]) -> Step {
    unsafe { sindovaleph_find(message.as_ptr(), message.len(), code, join.as_mut_ptr(), join.len()) }
}

/// The option at an index, in the order in which codes first appear, as [`find`] has it; stop 1 behind the last.
#[inline]
pub fn entry(message: &[u8], index: usize, join: &mut [u8]) -> Step {
    unsafe { sindovaleph_entry(message.as_ptr(), message.len(), index, join.as_mut_ptr(), join.len()) }
}

/// All options in that order, in rows. Nothing is joined. A message has at most 254 codes.
#[inline]
pub fn entries(message: &[u8], rows: &mut [Row]) -> Entries {
    let count = numbers(rows);
    unsafe { sindovaleph_entries(message.as_ptr(), message.len(), rows.as_mut_ptr().cast(), count) }
}

/// Reads the chunk up to the first frame that it completes, or to its end. The next call goes on behind what was used,
/// with the same buffer.
#[inline]
pub fn receive(stream: Stream, buffer: &mut [u8], chunk: &[u8]) -> Received {
    // SAFETY: slices are valid.
    unsafe { sindovaleph_receive(stream, buffer.as_mut_ptr(), buffer.len(), chunk.as_ptr(), chunk.len()) }
}

/// What the value of an option reads as, plainly or strictly.
#[inline]
pub fn read(code: u8, value: &[u8], strict: bool) -> Value {
    unsafe { sindovaleph_read(code, value.as_ptr(), value.len(), strict) }
}

/// What a value reads as, beside the value: where it reads as text, it can be had as text without a second look.
#[derive(Clone, Copy, Debug)]
pub struct Reading<'a> {
    answer: Value,
    value: &'a [u8],
}

/// What the value of an option reads as, beside the value.
#[inline]
pub fn reading(code: u8, value: &[u8], strict: bool) -> Reading<'_> {
    Reading { answer: read(code, value, strict), value }
}

impl<'a> Reading<'a> {
    /// What the value reads as.
    #[inline]
    pub fn answer(&self) -> Value {
        self.answer
    }

    /// The value as text, where it reads as text.
    #[inline]
    pub fn text(&self) -> Option<&'a str> {
        if self.answer.refused != 0 || self.answer.kind != crate::Kind::Text.number() {
            return None;
        }
        // SAFETY: the proved side has read these bytes as text, which it does only where they are UTF-8.
        Some(unsafe { core::str::from_utf8_unchecked(self.value) })
    }
}

/// The element at an index of a list.
#[inline]
pub fn element(code: u8, value: &[u8], index: usize) -> Element {
    unsafe { sindovaleph_element(code, value.as_ptr(), value.len(), index) }
}

/// End.
#[inline]
pub fn close(room: &mut [u8], place: usize) -> Written {
    unsafe { sindovaleph_close(room.as_mut_ptr(), room.len(), place) }
}

/// A byte value.
#[inline]
pub fn write_bytes(room: &mut [u8], place: usize, code: u8, value: &[u8]) -> Written {
    unsafe { sindovaleph_write_bytes(room.as_mut_ptr(), room.len(), place, code, value.as_ptr(), value.len()) }
}

/// An address.
#[inline]
pub fn write_address(room: &mut [u8], place: usize, code: u8, address: u32) -> Written {
    unsafe { sindovaleph_write_address(room.as_mut_ptr(), room.len(), place, code, address) }
}

/// A byte.
#[inline]
pub fn write_byte(room: &mut [u8], place: usize, code: u8, byte: u8) -> Written {
    unsafe { sindovaleph_write_byte(room.as_mut_ptr(), room.len(), place, code, byte) }
}

/// Yes or no.
#[inline]
pub fn write_yes_no(room: &mut [u8], place: usize, code: u8, yes: bool) -> Written {
    unsafe { sindovaleph_write_yes_no(room.as_mut_ptr(), room.len(), place, code, yes) }
}

/// A number of two bytes.
#[inline]
pub fn write_u16(room: &mut [u8], place: usize, code: u8, number: u16) -> Written {
    unsafe { sindovaleph_write_u16(room.as_mut_ptr(), room.len(), place, code, number) }
}

/// A number of four bytes.
#[inline]
pub fn write_u32(room: &mut [u8], place: usize, code: u8, number: u32) -> Written {
    unsafe { sindovaleph_write_u32(room.as_mut_ptr(), room.len(), place, code, number) }
}

/// A number of four bytes in two's complement.
#[inline]
pub fn write_i32(room: &mut [u8], place: usize, code: u8, number: i32) -> Written {
    unsafe { sindovaleph_write_i32(room.as_mut_ptr(), room.len(), place, code, number) }
}

/// Text, which has to be UTF-8.
#[inline]
pub fn write_text(room: &mut [u8], place: usize, code: u8, text: &[u8]) -> Written {
    unsafe { sindovaleph_write_text(room.as_mut_ptr(), room.len(), place, code, text.as_ptr(), text.len()) }
}

/// A node type by its byte.
#[inline]
pub fn write_node_type(room: &mut [u8], place: usize, code: u8, byte: u8) -> Written {
    unsafe { sindovaleph_write_node_type(room.as_mut_ptr(), room.len(), place, code, byte) }
}

/// A message type.
#[inline]
pub fn write_message_type(room: &mut [u8], place: usize, code: u8, byte: u8) -> Written {
    unsafe { sindovaleph_write_message_type(room.as_mut_ptr(), room.len(), place, code, byte) }
}

/// Three bytes.
#[inline]
pub fn write_three_bytes(room: &mut [u8], place: usize, code: u8, bytes: [u8; 3]) -> Written {
    unsafe { sindovaleph_write_three_bytes(room.as_mut_ptr(), room.len(), place, code, bytes[0], bytes[1], bytes[2]) }
}

/// A flag.
#[inline]
pub fn write_flag(room: &mut [u8], place: usize, code: u8) -> Written {
    unsafe { sindovaleph_write_flag(room.as_mut_ptr(), room.len(), place, code) }
}

/// Addresses.
#[inline]
pub fn write_addresses(room: &mut [u8], place: usize, code: u8, addresses: &[u32]) -> Written {
    unsafe {
        sindovaleph_write_addresses(room.as_mut_ptr(), room.len(), place, code, addresses.as_ptr(), addresses.len())
    }
}

/// Pairs of addresses, one address behind the other.
#[inline]
pub fn write_pairs(room: &mut [u8], place: usize, code: u8, addresses: &[u32]) -> Written {
    unsafe { sindovaleph_write_pairs(room.as_mut_ptr(), room.len(), place, code, addresses.as_ptr(), addresses.len()) }
}

/// Numbers of two bytes.
#[inline]
pub fn write_u16s(room: &mut [u8], place: usize, code: u8, u16s: &[u16]) -> Written {
    unsafe { sindovaleph_write_u16s(room.as_mut_ptr(), room.len(), place, code, u16s.as_ptr(), u16s.len()) }
}

/// Codes of options.
#[inline]
pub fn write_codes(room: &mut [u8], place: usize, code: u8, codes: &[u8]) -> Written {
    unsafe { sindovaleph_write_codes(room.as_mut_ptr(), room.len(), place, code, codes.as_ptr(), codes.len()) }
}

/// The table of classless routes.
#[inline]
pub fn write_routes(room: &mut [u8], place: usize, routes: &[Route]) -> Written {
    unsafe { sindovaleph_write_routes(room.as_mut_ptr(), room.len(), place, routes.as_ptr(), routes.len()) }
}

/// The route that begins at a place of option 121's value, refused by 2, 4, 12 and 10 in this order. None is found at the
/// value's end.
#[inline]
pub fn route_from(value: &[u8], place: usize) -> ReadRoute {
    unsafe { sindovaleph_route_from(value.as_ptr(), value.len(), place) }
}

/// The route at an index of option 121's value. All rows are checked first: refused by 2, by 12 or 10 of the first bad row,
/// and then by 4 for the index.
#[inline]
pub fn route_at(value: &[u8], index: usize) -> ReadRoute {
    unsafe { sindovaleph_route_at(value.as_ptr(), value.len(), index) }
}

/// How many routes option 121's value has, refused by 2, and by 12 or 10 of the first bad row.
#[inline]
pub fn count_routes(value: &[u8]) -> RouteCount {
    unsafe { sindovaleph_count_routes(value.as_ptr(), value.len()) }
}

/// Option 33's value, written as option 121: refused by 2, 4 and 10, then by 18 of the first bad pair, then by 7 and 8 of
/// the value made.
#[inline]
pub fn move_out(room: &mut [u8], place: usize, value: &[u8]) -> Written {
    unsafe { sindovaleph_move_out(room.as_mut_ptr(), room.len(), place, value.as_ptr(), value.len()) }
}

/// Option 121's value, written as option 33: refused by 2 and 4, then by 12, 10, 18 or 19 of the first bad row, then by 7
/// and 8 of the value made.
#[inline]
pub fn move_back(room: &mut [u8], place: usize, value: &[u8]) -> Written {
    unsafe { sindovaleph_move_back(room.as_mut_ptr(), room.len(), place, value.as_ptr(), value.len()) }
}

/// The listing of a message as text. At place 0 a room of 65,535 bytes, the most that a room may have, takes the listing
/// of any message; one that does not fit is refused with 8.
#[inline]
pub fn write_listing(room: &mut [u8], place: usize, message: &[u8]) -> Written {
    unsafe { sindovaleph_write_listing(room.as_mut_ptr(), room.len(), place, message.as_ptr(), message.len()) }
}
