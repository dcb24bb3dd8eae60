//! The message: its fixed header, and where its options stand.

use crate::calls::{self, Fields};
use crate::chaddr::Chaddr;
use crate::entries::{self, Entries, EntryRow, Overload};
use crate::options::{Opt, Options};
use crate::refusal::{OptRefused, Refusal, checked};
use crate::rows::{self, Listed, ReadRow, Row};
use crate::shown::{Bytes, Text};
use core::fmt;
use core::net::Ipv4Addr;

// Where the parts of a message begin (RFC 2131, figure 1) that are shown as bytes.
const CHADDR: usize = 28;
const SNAME: usize = 44;
const FILE: usize = 108;
const OPTIONS: usize = 240;

/// A DHCP message, whose bytes are lent. [`Message::new`] reads the whole header in one call.
#[derive(Clone, Copy)]
pub struct Message<'a> {
    bytes: &'a [u8],
    fields: Fields,
}

impl<'a> Message<'a> {
    /// Reads the header. Refused are fewer than 240 bytes ([`Refusal::MessageTooShort`]) and more than 65,535
    /// ([`Refusal::TooLong`]), and nothing else: a wrong `hlen` is told by [`Message::chaddr`].
    #[inline]
    pub fn new(bytes: &'a [u8]) -> Result<Message<'a>, Refusal> {
        let fields = calls::header(bytes);
        checked(fields.refused)?;
        Ok(Message { bytes, fields })
    }

    /// The bytes of the message, as they were lent.
    #[inline]
    #[must_use]
    pub fn bytes(&self) -> &'a [u8] {
        self.bytes
    }

    /// op: 1 from a client, 2 from a server ([`ops`](crate::ops)).
    #[inline]
    #[must_use]
    pub fn opcode(&self) -> u8 {
        self.fields.op
    }

    /// The type of the hardware address: 1 is Ethernet.
    #[inline]
    #[must_use]
    pub fn htype(&self) -> u8 {
        self.fields.htype
    }

    /// The length of the hardware address, as the message says it.
    #[inline]
    #[must_use]
    pub fn hlen(&self) -> u8 {
        self.fields.hlen
    }

    /// How many relays the message came through.
    #[inline]
    #[must_use]
    pub fn hops(&self) -> u8 {
        self.fields.hops
    }

    /// The number of the transaction.
    #[inline]
    #[must_use]
    pub fn xid(&self) -> u32 {
        self.fields.xid
    }

    /// The seconds since the client began.
    #[inline]
    #[must_use]
    pub fn secs(&self) -> u16 {
        self.fields.secs
    }

    /// The flags: [`BROADCAST`](crate::flags::BROADCAST), the highest bit, asks for answers by broadcast.
    #[inline]
    #[must_use]
    pub fn flags(&self) -> u16 {
        self.fields.flags
    }

    /// The client's address, where it has one.
    #[inline]
    #[must_use]
    pub fn ciaddr(&self) -> Ipv4Addr {
        Ipv4Addr::from_bits(self.fields.ciaddr)
    }

    /// The address that the client is given.
    #[inline]
    #[must_use]
    pub fn yiaddr(&self) -> Ipv4Addr {
        Ipv4Addr::from_bits(self.fields.yiaddr)
    }

    /// The address of the next server.
    #[inline]
    #[must_use]
    pub fn siaddr(&self) -> Ipv4Addr {
        Ipv4Addr::from_bits(self.fields.siaddr)
    }

    /// The address of the relay.
    #[inline]
    #[must_use]
    pub fn giaddr(&self) -> Ipv4Addr {
        Ipv4Addr::from_bits(self.fields.giaddr)
    }

    /// The hardware address: `hlen` bytes, and how many of them lie in the field chaddr, which has 16. Where they are more
    /// than the message has, that is [`Refusal::ChaddrPastEnd`].
    #[inline]
    pub fn chaddr(&self) -> Result<Chaddr<'a>, Refusal> {
        checked(self.fields.chaddr_refused)?;
        let bytes = self.shown(CHADDR, usize::from(self.fields.hlen));
        Ok(Chaddr::new(bytes, self.fields.chaddr_own, self.fields.chaddr_spills))
    }

    /// The server's name, up to its first zero. Where [`Message::overload`] says that sname holds options, they are what
    /// stands here.
    #[inline]
    #[must_use]
    pub fn sname(&self) -> &'a [u8] {
        self.shown(SNAME, usize::from(self.fields.sname))
    }

    /// The name of the boot file, up to its first zero. Where [`Message::overload`] says that file holds options, they are
    /// what stands here.
    #[inline]
    #[must_use]
    pub fn fname(&self) -> &'a [u8] {
        self.shown(FILE, usize::from(self.fields.file))
    }

    /// Whether the magic stands before the options, as it does in every DHCP message.
    #[inline]
    #[must_use]
    pub fn has_magic(&self) -> bool {
        !self.fields.wrong_magic
    }

    /// The area of the options: all bytes behind the magic. With another magic it is empty.
    #[inline]
    #[must_use]
    pub fn area(&self) -> &'a [u8] {
        if self.fields.wrong_magic {
            return &[];
        }
        self.bytes.get(OPTIONS..).unwrap_or(&[])
    }

    /// The options, one after the other. What has several parts is joined in `join`; one of the area's length suffices
    /// for every message, and `&mut []` for one without such options.
    #[inline]
    pub fn opts<'j>(&self, join: &'j mut [u8]) -> Options<'j>
    where
        'a: 'j,
    {
        Options::new(self.area(), join)
    }

    /// All options in one call, from the first on: see [`list`](rows::list).
    #[inline]
    pub fn list(&self, rows: &mut [Row]) -> Result<Listed, Refusal> {
        rows::list(self.area(), 0, rows)
    }

    /// All options and their values in one call, from the first on: see [`read_list`](rows::read_list).
    #[inline]
    pub fn read_list(&self, rows: &mut [ReadRow]) -> Result<Listed, Refusal> {
        rows::read_list(self.area(), 0, rows)
    }

    /// The same, read strictly: see [`read_list_strict`](rows::read_list_strict).
    #[inline]
    pub fn read_list_strict(&self, rows: &mut [ReadRow]) -> Result<Listed, Refusal> {
        rows::read_list_strict(self.area(), 0, rows)
    }

    /// The option of a code in RFC 3396's reading, which joins all its parts in the options field and in the fields that
    /// option 52 names, wherever they stand; nothing where it has no part, and with another magic. A value of one part is
    /// shown where it stands, and one of several is joined in `join`: one of the message's length always suffices.
    ///
    /// Refused are the codes 0 and 255 ([`Refusal::NoSuchCode`]); a message whose options field is cut, or a field that
    /// option 52 names ([`Refusal::FieldCut`]), or whose option 52 is unclear ([`Refusal::UnclearOverload`]); and a join
    /// buffer that is too short ([`Refusal::JoinTooShort`]), with the length that is needed. `?` makes a [`Refusal`] of
    /// each.
    #[inline]
    pub fn find<'j>(&self, code: u8, mut join: &'j mut [u8]) -> Result<Option<Opt<'j>>, OptRefused>
    where
        'a: 'j,
    {
        let step = calls::find(self.bytes, code, join);
        entries::told(self.bytes, &mut join, step)
    }

    /// The option at an index in RFC 3396's reading, in the order in which codes first appear; nothing behind the last.
    /// Refused is what [`Message::find`] refuses, but for the code.
    #[inline]
    pub fn entry<'j>(&self, index: usize, mut join: &'j mut [u8]) -> Result<Option<Opt<'j>>, OptRefused>
    where
        'a: 'j,
    {
        let step = calls::entry(self.bytes, index, join);
        entries::told(self.bytes, &mut join, step)
    }

    /// All options in RFC 3396's reading, one after the other, in the order in which codes first appear. What has several
    /// parts is joined in `join`; one of the message's length always suffices.
    #[inline]
    pub fn entries<'j>(&self, join: &'j mut [u8]) -> Entries<'j>
    where
        'a: 'j,
    {
        Entries::new(self.bytes, join)
    }

    /// All options in RFC 3396's reading in one call, a row for each, and how many there are: so many rows are filled, or
    /// all, where there are fewer. 254 rows take every message. Nothing is joined, so no option is too long. Refused is a
    /// message that RFC 3396's reading refuses: see [`Message::find`].
    #[inline]
    pub fn list_entries(&self, rows: &mut [EntryRow]) -> Result<usize, Refusal> {
        let entries = calls::entries(self.bytes, calls::bare_mut(rows));
        checked(entries.refused)?;
        Ok(entries.codes)
    }

    /// Which fields hold options besides the options field. Refused is a message that RFC 3396's reading refuses: see
    /// [`Message::find`].
    #[inline]
    pub fn overload(&self) -> Result<Overload, Refusal> {
        Overload::of(self.bytes)
    }

    /// So many bytes from a start on. The header's answer has it that they are there.
    #[inline]
    fn shown(&self, start: usize, len: usize) -> &'a [u8] {
        self.bytes.get(start..).and_then(|from| from.get(..len)).unwrap_or(&[])
    }
}

impl fmt::Debug for Message<'_> {
    fn fmt(&self, f: &mut fmt::Formatter<'_>) -> fmt::Result {
        let mut shown = f.debug_struct("Message");
        shown.field("bytes", &Bytes(self.bytes.len()));
        shown.field("op", &self.opcode()).field("htype", &self.htype()).field("hlen", &self.hlen());
        shown.field("hops", &self.hops()).field("xid", &format_args!("{:#010x}", self.xid()));
        shown.field("secs", &self.secs()).field("flags", &format_args!("{:#06x}", self.flags()));
        shown.field("ciaddr", &self.ciaddr()).field("yiaddr", &self.yiaddr());
        shown.field("siaddr", &self.siaddr()).field("giaddr", &self.giaddr());
        shown.field("chaddr", &self.chaddr());
        shown.field("sname", &Text(self.sname())).field("fname", &Text(self.fname()));
        shown.field("has_magic", &self.has_magic()).field("area", &Bytes(self.area().len())).finish()
    }
}

/// The number of the transaction alone, for who sorts messages before reading them.
#[inline]
pub fn xid(message: &[u8]) -> Result<u32, Refusal> {
    let field = calls::xid(message);
    checked(field.refused as u8)?;
    Ok(field.number as u32)
}
