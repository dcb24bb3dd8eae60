//! Shared by the tests.
#![allow(dead_code)]

use sindovaleph::calls;
use std::mem::{align_of, offset_of, size_of};

/// A message of `len` bytes with the magic, then `area`, then zeros.
pub fn message(len: usize, area: &[u8]) -> Vec<u8> {
    let mut bytes = vec![0; len];
    bytes[..4].copy_from_slice(&[2, 1, 6, 0]);
    bytes[28..34].copy_from_slice(&[2, 0, 0, 0, 0, 1]);
    bytes[236..240].copy_from_slice(&[99, 130, 83, 99]);
    bytes[240..240 + area.len()].copy_from_slice(area);
    bytes
}

/// A message that ends with `area`.
pub fn message_with(area: &[u8]) -> Vec<u8> {
    message(240 + area.len(), area)
}

/// How the compiler lays a struct of the boundary out: its name, size and alignment, and its fields with their offsets.
pub struct Layout {
    pub name: &'static str,
    pub size: usize,
    pub align: usize,
    pub fields: Vec<(&'static str, usize)>,
}

macro_rules! layouts {
    ($($name:ident { $($field:ident)* })*) => {
        vec![$(Layout {
            name: stringify!($name),
            size: size_of::<calls::$name>(),
            align: align_of::<calls::$name>(),
            fields: vec![$((stringify!($field), offset_of!(calls::$name, $field))),*],
        }),*]
    };
}

/// The layout of every struct of the boundary.
pub fn layouts() -> Vec<Layout> {
    layouts! {
        Fields {
            xid ciaddr yiaddr siaddr giaddr secs flags sname file chaddr_own refused op htype hlen hops chaddr_refused
            chaddr_spills wrong_magic
        }
        Field { refused number }
        Step { refused stop code parts len place }
        Value { refused kind number count }
        Element { refused first second }
        Written { refused place }
        Listed { refused stop rows place }
        Entries { refused codes }
        Row { code parts len place }
        ReadRow { code parts len place refused kind number count }
        WriteRow { code start len }
        WrittenRows { refused rows place }
        Route { width destination gateway }
        ReadRoute { refused found width destination gateway place }
        RouteCount { refused count }
        Stream { state high size filled }
        Received { refused len used stream }
    }
}
