//! The fixed header, and the kinds of codes.

use super::case::{Case, Side, Sink};
use super::inputs::{USUAL, usual_message};
use crate::paper::kind_of;
use dhcproto::v4::borrowed::Message;
use sindovaleph::calls;
use std::hint::black_box;

/// All fields by one call.
struct OneCall(Vec<u8>);

impl Side for OneCall {
    fn run(&mut self, sink: &mut impl Sink) {
        let fields = calls::header(black_box(&self.0));
        if fields.refused != 0 {
            return;
        }
        [fields.op, fields.htype, fields.hlen, fields.hops].into_iter().for_each(|byte| sink.number(byte));
        sink.number(fields.xid);
        [fields.secs, fields.flags].into_iter().for_each(|number| sink.number(number));
        let addresses = [fields.ciaddr, fields.yiaddr, fields.siaddr, fields.giaddr];
        addresses.into_iter().for_each(|address| sink.number(address));
        sink.number(if fields.chaddr_refused == 0 { fields.hlen } else { 0 });
        [fields.sname, fields.file].into_iter().for_each(|len| sink.number(len));
    }
}

/// All fields by the crate's fourteen accessors.
struct Accessors(Vec<u8>);

impl Side for Accessors {
    fn run(&mut self, sink: &mut impl Sink) {
        let Ok(message) = Message::new(black_box(&self.0)) else { return };
        sink.number(u8::from(message.opcode()));
        sink.number(u8::from(message.htype()));
        sink.number(message.hlen());
        sink.number(message.hops());
        sink.number(message.xid());
        sink.number(message.secs());
        sink.number(u16::from(message.flags()));
        sink.number(u32::from(message.ciaddr()));
        sink.number(u32::from(message.yiaddr()));
        sink.number(u32::from(message.siaddr()));
        sink.number(u32::from(message.giaddr()));
        sink.number(message.chaddr().len() as u64);
        sink.number(message.sname().len() as u64);
        sink.number(message.fname().len() as u64);
    }
}

/// The same by the accessors of the safe crate; of the address the bytes of its own field.
struct SafeAccessors(Vec<u8>);

impl Side for SafeAccessors {
    fn run(&mut self, sink: &mut impl Sink) {
        let Ok(message) = sindovaleph::Message::new(black_box(&self.0)) else { return };
        [message.opcode(), message.htype(), message.hlen(), message.hops()]
            .into_iter()
            .for_each(|byte| sink.number(byte));
        sink.number(message.xid());
        [message.secs(), message.flags()].into_iter().for_each(|number| sink.number(number));
        let addresses = [message.ciaddr(), message.yiaddr(), message.siaddr(), message.giaddr()];
        addresses.into_iter().for_each(|address| sink.number(address.to_bits()));
        sink.number(message.chaddr().map_or(0, |chaddr| chaddr.own().len()) as u64);
        [message.sname(), message.fname()].into_iter().for_each(|name| sink.number(name.len() as u64));
    }
}

struct OneField(Vec<u8>);

impl Side for OneField {
    fn run(&mut self, sink: &mut impl Sink) {
        let field = calls::xid(black_box(&self.0));
        if field.refused == 0 {
            sink.number(field.number as u64);
        }
    }
}

struct OneAccessor(Vec<u8>);

impl Side for OneAccessor {
    fn run(&mut self, sink: &mut impl Sink) {
        if let Ok(message) = Message::new(black_box(&self.0)) {
            sink.number(message.xid());
        }
    }
}

/// The header of the message of twelve options.
pub fn cases() -> Vec<Case> {
    let message = usual_message();
    let all = Case::new("header, all fields", message.len(), OneCall(message.clone()), Accessors(message.clone()));
    let safe = SafeAccessors(message.clone());
    let safe = Case::new("header, the safe crate", message.len(), safe, Accessors(message.clone()));
    let one = Case::new("header, xid", message.len(), OneField(message.clone()), OneAccessor(message));
    vec![all.aims_at(0.80), safe, one.aims_at(1.2)]
}

/// The kinds as a table of Rust's.
static KINDS: [u8; 256] = {
    let mut kinds = [0; 256];
    let mut code = 0;
    while code < kinds.len() {
        kinds[code] = kind_of(code as u8);
        code += 1;
    }
    kinds
};

/// A look into the table, behind a call.
#[inline(never)]
fn kind_in_table(code: u8) -> u8 {
    KINDS[usize::from(code)]
}

struct Kinds(Vec<u8>);

impl Side for Kinds {
    fn run(&mut self, sink: &mut impl Sink) {
        black_box(&self.0).iter().for_each(|&code| sink.number(calls::kind_of(code)));
    }
}

struct Table(Vec<u8>);

impl Side for Table {
    fn run(&mut self, sink: &mut impl Sink) {
        black_box(&self.0).iter().for_each(|&code| sink.number(kind_in_table(code)));
    }
}

/// The kinds of twelve codes, one call each: the library's by ranges of codes, so that it holds no table.
pub fn kinds() -> Vec<Case> {
    let codes: Vec<u8> = USUAL.iter().map(|(code, _)| *code).collect();
    let case = Case::new("kind of 12 codes", codes.len(), Kinds(codes.clone()), Table(codes));
    vec![case.aims_at(2.0).counts_at_most(2.1)]
}
