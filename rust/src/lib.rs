//! DHCP messages, read and written by a library that cannot be broken by a message: it takes whatever bytes, lengths
//! and places it is lent, and ends with an answer or a numbered [`Refusal`]. No call panics, allocates or keeps
//! anything.
//!
//! The work is done by a library in Rattle, a port of the crate dhcproto 0.15.0 whose every function is proved against
//! definitions from RFC 2131, 2132, 3396, 3442, 3629 and 6926. This crate gives its numbers their types, in the shape of
//! `dhcproto::v4::borrowed`.
//!
//! # Reading a message
//!
//! [`Message::new`] reads the whole header in one call, and [`Message::opts`] walks the options.
//!
//! ```
//! # let mut bytes = [0; 256];
//! # bytes[..3].copy_from_slice(&[1, 1, 6]);
//! # bytes[236..240].copy_from_slice(&[99, 130, 83, 99]);
//! # bytes[240..252].copy_from_slice(&[53, 1, 3, 12, 2, 104, 111, 12, 2, 115, 116, 255]);
//! use sindovaleph::{Message, Refusal, codes, ops};
//!
//! let message = Message::new(&bytes)?;
//! assert_eq!((message.opcode(), message.hlen()), (ops::BOOT_REQUEST, 6));
//! assert_eq!(message.chaddr()?.own().len(), 6);
//!
//! let mut join = [0; 4096];
//! let mut opts = message.opts(&mut join);
//! for opt in &mut opts {
//!     let opt = opt?;
//!     match opt.code() {
//!         codes::HOSTNAME => assert_eq!(opt.data(), b"host"),
//!         code => println!("option {code}: {:?}", opt.data()),
//!     }
//! }
//! if !opts.is_closed() {
//!     println!("cut, or never closed: {:?} at {}", opts.ending(), opts.place());
//! }
//! # assert!(opts.is_closed());
//! # Ok::<(), Refusal>(())
//! ```
//!
//! An option may stand in several parts, which are joined in the buffer that is lent. One of the area's length always
//! suffices; a shorter one may be [`Refusal::JoinTooShort`], which the loop gets in place of the option. What stands in
//! one part is shown where it stands.
//!
//! # Why a walk ends
//!
//! At a stop `next` gives `None`, and a further call goes on past it, as in dhcproto. [`Options::is_closed`] tells an
//! End from all else, and [`Options::ending`] which it was.
//!
//! ```
//! use sindovaleph::{Ending, Options, Stop};
//!
//! let area = [53, 1, 5, 12, 200, 104, 111];
//! let mut join = [0; 7];
//! let mut options = Options::new(&area, &mut join);
//! assert_eq!(options.by_ref().count(), 1);
//! assert_eq!(options.ending(), Some(Ending::Stopped(Stop::CutValue)));
//! assert_eq!((options.is_closed(), options.place()), (false, 5));
//! ```
//!
//! # Typed values
//!
//! A code has a [`Kind`], and its value reads as that: [`read`] reads it plainly, and [`read_strict`] asks for exact
//! lengths, for an element in a list or text, and for 0 or 1 where yes or no is meant.
//!
//! ```
//! use sindovaleph::{Refusal, Value, codes, read, read_strict};
//! use std::net::Ipv4Addr;
//!
//! assert_eq!(read(codes::ADDRESS_LEASE_TIME, &[0, 0, 14, 16]), Ok(Value::U32(3600)));
//! assert_eq!(read(codes::HOSTNAME, b"host-17"), Ok(Value::Text("host-17")));
//! assert_eq!(read(codes::ADDRESS_LEASE_TIME, &[0, 0, 14]), Err(Refusal::WrongLength));
//! assert_eq!(read_strict(codes::IP_FORWARDING, &[2]), Err(Refusal::UnclearYesNo));
//!
//! let Ok(Value::Addresses(routers)) = read(codes::ROUTER, &[192, 0, 2, 1, 192, 0, 2, 2]) else { panic!() };
//! assert_eq!(routers.len(), 2);
//! assert_eq!(routers.iter().last(), Some(Ipv4Addr::new(192, 0, 2, 2)));
//! ```
//!
//! # All options in one call
//!
//! [`Message::list`] fills a row for each option, and [`Message::read_list`] has the values too. For many messages that
//! is the fastest way.
//!
//! ```
//! # let mut bytes = [0; 256];
//! # bytes[236..240].copy_from_slice(&[99, 130, 83, 99]);
//! # bytes[240..250].copy_from_slice(&[53, 1, 3, 51, 4, 0, 0, 14, 16, 255]);
//! use sindovaleph::{Message, ReadRow, Refusal, Stop, Value, message_types};
//!
//! let message = Message::new(&bytes)?;
//! let mut rows = [ReadRow::default(); 32];
//! let listed = message.read_list(&mut rows)?;
//! assert_eq!((listed.rows, listed.stop), (2, Some(Stop::End)));
//! assert_eq!(rows[0].value(message.area()), Ok(Value::MessageType(message_types::REQUEST)));
//! assert_eq!(rows[1].value(message.area()), Ok(Value::U32(3600)));
//! # Ok::<(), Refusal>(())
//! ```
//!
//! Nothing is joined there: where [`Row::parts`] says that an option has several, [`Row::join`] joins them. Where the
//! rows are full, `stop` is `None`, and [`list`] goes on from `place`.
//!
//! # An option in several places
//!
//! [`Message::opts`] and [`Message::list`] read the options field alone, and take parts of one code for one option where
//! they are neighbours. RFC 3396 joins all parts of a code, in the options field and in the fields file and sname, where
//! option 52 says that they hold options too. [`Message::find`] reads one code so, and [`Message::entries`] reads them
//! all, each once, in the order in which they first appear.
//!
//! ```
//! # let mut bytes = [0; 264];
//! # bytes[236..240].copy_from_slice(&[99, 130, 83, 99]);
//! # bytes[240..252].copy_from_slice(b"\x34\x01\x01\x43\x07/diskle");
//! # bytes[252..].copy_from_slice(b"\x0C\x02ho\x35\x01\x03\x0C\x02st\xFF");
//! # bytes[108..117].copy_from_slice(b"\x43\x06ss/foo\xFF");
//! use sindovaleph::{EntryRow, Message, Overload, Refusal, Value, codes};
//!
//! // A name of a boot file in two parts, those of RFC 3396, section 8: it begins in the options field and ends in
//! // file; and a host name that is split around another option.
//! let message = Message::new(&bytes)?;
//! assert_eq!(message.overload()?, Overload::File);
//! let mut join = [0; 4096];
//! let file = message.find(codes::BOOTFILE_NAME, &mut join)?;
//! assert_eq!(file.map(|opt| opt.data()), Some(&b"/diskless/foo"[..]));
//!
//! for opt in message.entries(&mut join) {
//!     let opt = opt?;
//!     if opt.code() == codes::HOSTNAME {
//!         assert_eq!((opt.read()?, opt.parts()), (Value::Text("host"), 2));
//!     }
//! }
//!
//! let mut rows = [EntryRow::default(); 254];
//! assert_eq!(message.list_entries(&mut rows)?, 4);
//! assert_eq!((rows[1].code(), rows[1].parts(), rows[1].len()), (codes::BOOTFILE_NAME, 2, 13));
//! # Ok::<(), Refusal>(())
//! ```
//!
//! Use this reading for the value of an option, wherever its sender put it. Use the walk for what stands where, and for
//! what is cut: where a field is cut ([`Refusal::FieldCut`]) or option 52 is unclear ([`Refusal::UnclearOverload`]), this
//! reading refuses the whole message, and the walk still tells the options before the cut.
//!
//! A walk goes over the options field once. `find` goes over the fields a few times, and `entries` does so for each code.
//! [`Message::list_entries`] goes over them twice, however many codes there are, and joins nothing.
//!
//! # Messages over TCP
//!
//! Bulk lease query (RFC 6926) sends messages as a stream, each behind a size of two bytes. [`Stream`] takes it in
//! whatever chunks it comes, gathers a frame in a lent buffer, and hands out each message at its last byte. It knows a
//! clean end from one within a frame. `examples/collect.rs` reads a socket with it.
//!
//! # Writing options
//!
//! ```
//! use sindovaleph::{Refusal, Route, Writer, codes, message_types};
//! use std::net::Ipv4Addr;
//!
//! let router = Ipv4Addr::new(192, 0, 2, 1);
//! let mut room = [0; 64];
//! let mut writer = Writer::new(&mut room);
//! writer.message_type(codes::MESSAGE_TYPE, message_types::ACK)?;
//! writer.addresses(codes::ROUTER, &[router])?;
//! writer.routes(&[Route::new(8, Ipv4Addr::new(10, 0, 0, 0), router)])?;
//! assert_eq!(writer.u32(codes::MESSAGE_TYPE, 1), Err(Refusal::OtherKind));
//! writer.close()?;
//! assert_eq!(writer.written(), [53, 1, 5, 3, 4, 192, 0, 2, 1, 121, 6, 8, 10, 192, 0, 2, 1, 255]);
//! # Ok::<(), Refusal>(())
//! ```
//!
//! [`Writer::at`] writes behind a header that stands in the room, from 240 on. [`Writer::list`] writes many options in
//! one call: all of them, or none where a row is refused, which [`RowRefused`] names.
//!
//! # Static routes, old and classless
//!
//! [`Routes`] reads the classless routes of option 121 (RFC 3442), each destination masked to its width. Stored profiles
//! may still hold the static routes of option 33, which newer clients do not read: [`Writer::move_out`] writes their value
//! as option 121, and [`Writer::move_back`] the other way.
//!
//! # A message as text
//!
//! [`listing()`] writes what `./list` prints, for logs and for people.
//!
//! # From dhcproto to sindovaleph
//!
//! | dhcproto 0.15.0 | here |
//! |---|---|
//! | `dhcproto::v4::borrowed::Message` | [`Message`] |
//! | `Message::new(bytes)?`, a `DecodeError` | the same, a [`Refusal`] |
//! | `hlen` `hops` `xid` `secs` `ciaddr` `yiaddr` `siaddr` `giaddr` `sname` `fname` | the same |
//! | `opcode() == Opcode::BootRequest` | `opcode() == ops::BOOT_REQUEST`, a number |
//! | `htype()`, a type of its own | a number: 1 is Ethernet |
//! | `flags().broadcast()` | `flags() & flags::BROADCAST != 0` |
//! | `chaddr()`, which panics where hlen is too large | `chaddr()?.bytes()`, or [`own()`](Chaddr::own) for what lies in its field |
//! | `for opt in message.opts() {` | `for opt in message.opts(&mut join) {` and `let opt = opt?;` |
//! | `DhcpOptionIterator::new(area)` | [`Options::new`]`(area, &mut join)` |
//! | `DhcpOption`: `code()`, an `OptionCode` | [`Opt`]: `code()`, a number, with names in [`codes`] |
//! | `data()` `len()` `is_empty()` | the same |
//! | `into_option()?`, a `v4::DhcpOption` | [`read()?`](Opt::read), a [`Value`] by the code's kind |
//! | `DhcpOption::MessageType(MessageType::Ack)` | `Value::MessageType(message_types::ACK)` |
//! | `DhcpOption::Hostname(String)` | `Value::Text(&str)` of an option with code `codes::HOSTNAME` |
//! | `DhcpOption::Router(Vec<Ipv4Addr>)` | `Value::Addresses(list)` with code `codes::ROUTER`; `list.iter()` |
//! | `DhcpOption::ClasslessStaticRoute(Vec<(Ipv4Net, Ipv4Addr)>)` | [`Routes::read`]`(opt.data())?`; `routes.iter()` |
//! | `DhcpOption::Hostname("host".into()).encode(&mut e)?` | `writer.text(codes::HOSTNAME, "host")?` |
//! | `DhcpOption::End.encode(&mut e)?` | `writer.close()?` |
//!
//! `examples/service.rs` is a lease service on this crate, and `compare/examples/service.rs` of the repository the same
//! one on dhcproto: `compare/service` says in how many lines they differ, and runs both.
//!
//! Domain names, FQDN, relay contents and bulk-query codes stay with dhcproto: their codes are [`Value::Raw`] here.
//! `docs/DIFFERENCES.md` of the repository lists every difference, with the input that shows it.
//!
//! # What is proved
//!
//! The functions behind [`calls`] are proved. The declarations in [`calls`] and the types around it are not: tests hold
//! them against the sources of Rattle and against document 01's examples. All `unsafe` of this crate stands in
//! [`calls`].
//!
//! # Building
//!
//! The crate links one static library for x86-64 Linux, `libsindovaleph.a`. A package has it in `lib`; in the repository
//! `./archives` builds it in `target/library`. The crate finds both by itself; the environment variable
//! `SINDOVALEPH_LIBRARY` names another folder, by its whole path. A library of another version of the boundary than the
//! crate's is refused. `sindovaleph.h` is the same boundary for C.
#![no_std]
#![deny(missing_docs, unsafe_code)]

/// An enum whose cases are numbers that cross the boundary.
macro_rules! numbered {
    ($(#[$about:meta])* pub enum $name:ident { $($(#[$says:meta])* $case:ident = $number:literal,)* }) => {
        $(#[$about])*
        #[repr(u8)]
        #[non_exhaustive]
        #[derive(Clone, Copy, Debug, PartialEq, Eq, PartialOrd, Ord, Hash)]
        pub enum $name {
            $($(#[$says])* $case = $number,)*
        }

        impl $name {
            /// The number.
            #[inline]
            #[must_use]
            pub const fn number(self) -> u8 {
                self as u8
            }

            /// The case of a number, if there is one.
            #[inline]
            #[must_use]
            pub const fn from_number(number: u8) -> Option<$name> {
                match number {
                    $($number => Some($name::$case),)*
                    _ => None,
                }
            }
        }

        impl TryFrom<u8> for $name {
            type Error = $crate::NoSuchNumber;

            #[inline]
            fn try_from(number: u8) -> Result<$name, $crate::NoSuchNumber> {
                $name::from_number(number).ok_or($crate::NoSuchNumber(number))
            }
        }
    };
}

#[allow(unsafe_code)]
pub mod calls;
pub mod chaddr;
pub mod entries;
pub mod listing;
pub mod message;
pub mod names;
pub mod options;
pub mod refusal;
pub mod routes;
pub mod rows;
mod shown;
pub mod stream;
pub mod value;
pub mod writer;

pub use chaddr::Chaddr;
pub use entries::{Entries, EntryRow, Overload};
pub use listing::listing;
pub use message::{Message, xid};
pub use names::{codes, flags, message_types, ops};
pub use options::{Ending, Opt, Options, Stop};
pub use refusal::{NoSuchNumber, OptRefused, Refusal, RowRefused};
pub use routes::{RouteRow, RouteRows, Routes};
pub use rows::{Listed, ReadRow, Row, list, read_list, read_list_strict};
pub use stream::{Frames, Stream};
pub use value::{Element, Elements, Kind, List, NodeType, Value, kind_of, read, read_strict};
pub use writer::{Route, WriteRow, Writer};
