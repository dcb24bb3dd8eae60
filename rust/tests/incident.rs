//! The message of the incident: 244 bytes whose hlen says 255, on which the crate dhcproto 0.15.0 panicked.

mod common;

use sindovaleph::{Ending, Message, Refusal, Stop, Value};

/// What a lease service wants of a message: its xid, its hardware address, and its message type.
type Served = (u32, Result<Vec<u8>, Refusal>, Option<u8>);

fn serve(bytes: &[u8]) -> Result<Served, Refusal> {
    let message = Message::new(bytes)?;
    let mut join = [0; 64];
    let mut kind = None;
    for opt in message.opts(&mut join) {
        if let Value::MessageType(found) = opt?.read()? {
            kind = Some(found);
        }
    }
    Ok((message.xid(), message.chaddr().map(|chaddr| chaddr.own().to_vec()), kind))
}

fn incident() -> Vec<u8> {
    let mut bytes = common::message_with(&[53, 1, 3, 255]);
    bytes[2] = 255;
    bytes[4..8].copy_from_slice(&[0, 0, 0, 42]);
    bytes
}

#[test]
fn the_hardware_address_is_refused_and_nothing_else() {
    let bytes = incident();
    assert_eq!(bytes.len(), 244);
    let message = Message::new(&bytes).unwrap();
    assert_eq!(message.hlen(), 255);
    assert_eq!(message.chaddr(), Err(Refusal::ChaddrPastEnd));
    assert_eq!(message.chaddr().unwrap_err().number(), 3);
    let mut opts = message.opts(&mut []);
    let opt = opts.next().unwrap().unwrap();
    assert_eq!((opt.code(), opt.data(), opt.read()), (53, &[3][..], Ok(Value::MessageType(3))));
    assert_eq!(opts.next(), None);
    assert_eq!(opts.ending(), Some(Ending::Stopped(Stop::End)));
}

#[test]
fn the_next_message_is_served() {
    let mut next = common::message_with(&[53, 1, 1, 255]);
    next[7] = 43;
    let served: Vec<_> = [incident(), next, incident()].iter().map(|bytes| serve(bytes)).collect();
    assert_eq!(served[0], Ok((42, Err(Refusal::ChaddrPastEnd), Some(3))));
    assert_eq!(served[1], Ok((43, Ok(vec![2, 0, 0, 0, 0, 1]), Some(1))));
    assert_eq!(served[2], served[0]);
}

#[test]
fn with_283_bytes_it_is_shown() {
    let mut bytes = incident();
    bytes.resize(283, 9);
    let chaddr = Message::new(&bytes).unwrap().chaddr().unwrap();
    assert_eq!((chaddr.bytes(), chaddr.own(), chaddr.spills()), (&bytes[28..], &bytes[28..44], true));
    assert_eq!(Message::new(&bytes[..282]).unwrap().chaddr(), Err(Refusal::ChaddrPastEnd));
}
