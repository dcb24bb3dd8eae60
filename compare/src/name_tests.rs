//! The names of codes, message types and op are the crate's, in capitals.

use dhcproto::v4::{Flags, MessageType, Opcode, OptionCode};
use sindovaleph::{codes, flags, message_types, ops};

/// `TFTPServerName` as `TFTP_SERVER_NAME`; an unknown number has no name.
fn in_capitals(name: String) -> Option<String> {
    if name.starts_with("Unknown") {
        return None;
    }
    let letters: Vec<char> = name.chars().collect();
    let mut text = String::new();
    for (i, letter) in letters.iter().enumerate() {
        let begins_behind_small = i > 0 && !letters[i - 1].is_uppercase();
        let begins_before_small = i > 0 && letters.get(i + 1).is_some_and(|next| next.is_lowercase());
        if letter.is_uppercase() && (begins_behind_small || begins_before_small) {
            text.push('_');
        }
        text.push(letter.to_ascii_uppercase());
    }
    Some(text)
}

#[test]
fn codes_have_the_crates_names() {
    for code in 0..=255 {
        let theirs = in_capitals(format!("{:?}", OptionCode::from(code)));
        let ours = codes::name(code).map(str::to_string);
        match code {
            // RFC 8925 has IPv6-Only Preferred at 108; the name of 153 lacks a letter.
            106 => assert_eq!((ours, theirs), (None, Some("IPV6_ONLY_PREFERRED".into()))),
            108 => assert_eq!((ours, theirs), (Some("IPV6_ONLY_PREFERRED".into()), None)),
            153 => assert_eq!(ours, theirs.map(|name| name.replace("LEAS_", "LEASE_"))),
            _ => assert_eq!(ours, theirs, "code {code}"),
        }
    }
}

#[test]
fn message_types_op_and_the_broadcast_flag_have_the_crates_names() {
    for byte in 0..=255 {
        let types = in_capitals(format!("{:?}", MessageType::from(byte)));
        assert_eq!(message_types::name(byte).map(str::to_string), types, "message type {byte}");
        assert_eq!(ops::name(byte).map(str::to_string), in_capitals(format!("{:?}", Opcode::from(byte))), "op {byte}");
    }
    assert_eq!(u16::from(Flags::default().set_broadcast()), flags::BROADCAST);
}
