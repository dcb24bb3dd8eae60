//! A whole message: its header, its listing, its area and all that is in it, in both modes.

use super::Bench;
use crate::findings::Bytes;
use crate::known::Known;
use crate::paper::{self, CHADDR, FILE, SNAME};
use crate::theirs::{self, place_of};
use dhcproto::v4::borrowed::Message;
use sindovaleph::calls::{self, Fields};

impl Bench {
    /// The header: all fields in one call, and the one field that has a call of its own.
    pub fn header(&mut self, message: &[u8]) {
        let call = format_args!("header of message {}", Bytes(message));
        let said = paper::header(message);
        self.same(call, &calls::header(message), &said);
        self.same(format_args!("xid of message {}", Bytes(message)), &calls::xid(message), &paper::xid(message));
        match Message::new(message) {
            Err(_) => self.findings.same_crate(call, &1, &said.refused),
            Ok(_) if said.refused == 2 => self.findings.known(Known::LongMessage),
            Ok(theirs) => self.header_by_crate(message, &said, &theirs),
        }
    }

    /// What the crate shows of a header that document 01 does not refuse.
    fn header_by_crate(&mut self, message: &[u8], said: &Fields, theirs: &Message<'_>) {
        let call = format_args!("header of message {}", Bytes(message));
        let sayable = Fields { chaddr_refused: 0, chaddr_own: 0, chaddr_spills: false, wrong_magic: false, ..*said };
        self.findings.same_crate(call, &theirs::fields(theirs), &sayable);
        let names = [theirs.sname(), theirs.fname()].map(|name| place_of(message, name));
        self.findings.same_crate(call, &names, &[Some(SNAME), Some(FILE)]);
        match theirs::chaddr(theirs) {
            None if said.chaddr_refused == 3 => self.findings.known(Known::AddressPastTheEnd),
            shown => {
                let shown = shown.map(|bytes| (place_of(message, bytes), bytes.len()));
                let told = (said.chaddr_refused == 0).then_some((Some(CHADDR), usize::from(said.hlen)));
                self.findings.same_crate(call, &shown, &told);
            }
        }
        if said.wrong_magic {
            self.findings.same_crate(call, &theirs.opts().next().is_none(), &true);
            self.findings.known(Known::OtherMagic);
        }
    }

    /// A whole message, and its listing. Calls of the walk and of the lists are also made at these places of its area.
    pub fn message(&mut self, message: &[u8], places: &[usize]) {
        self.header(message);
        self.listing(message);
        self.aggregate(message);
        let (Some(area), Ok(theirs)) = (paper::area(message), Message::new(message)) else { return };
        self.walk(area, theirs.opts());
        self.lists(area, 0);
        for &place in places {
            self.call_at(area, place, &[]);
            self.lists(area, place);
        }
    }
}
