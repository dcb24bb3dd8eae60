//! The names of numbers: held against the kinds, against the documentation of the kinds, and against the RFCs.

use sindovaleph::{Kind, codes, flags, kind_of, message_types, ops};
use std::collections::BTreeMap;

#[test]
fn every_name_has_its_number_and_its_kind() {
    for &(code, name, kind) in codes::ALL {
        assert_eq!(codes::name(code), Some(name));
        assert_eq!(format!("{:?}", kind_of(code)), kind, "{name}");
    }
    assert_eq!((0..=255).filter(|&code| codes::name(code).is_some()).count(), codes::ALL.len());
    assert!(codes::ALL.is_sorted_by_key(|&(code, ..)| code), "in the order of the codes");
}

#[test]
fn every_code_that_is_typed_has_a_name() {
    // 106 is a number of four bytes as in dhcproto, which has IPv6-Only Preferred there; RFC 8925 has it at 108.
    let without: Vec<u8> =
        (0..=255).filter(|&code| kind_of(code) != Kind::Raw && codes::name(code).is_none()).collect();
    assert_eq!(without, [106]);
    assert_eq!((codes::IPV6_ONLY_PREFERRED, kind_of(codes::IPV6_ONLY_PREFERRED)), (108, Kind::Raw));
}

/// The codes that the documentation of `Kind` has, with the kind in whose line they stand.
fn documented() -> BTreeMap<u8, String> {
    let text = include_str!("../src/value.rs");
    let lines: Vec<&str> = text.lines().map(str::trim).collect();
    let mut found = BTreeMap::new();
    for pair in lines.windows(2) {
        let (Some((_, codes)), Some((case, _))) = (pair[0].split_once(": "), pair[1].split_once(" = ")) else {
            continue;
        };
        if !pair[0].starts_with("///") {
            continue;
        }
        for range in codes.trim_end_matches('.').split(' ') {
            let (first, last) = range.split_once('-').unwrap_or((range, range));
            let (Ok(first), Ok(last)) = (first.parse::<u8>(), last.parse()) else { continue };
            found.extend((first..=last).map(|code| (code, case.to_string())));
        }
    }
    found
}

#[test]
fn the_documentation_of_the_kinds_has_their_codes() {
    let documented = documented();
    assert!(documented.len() > 60, "{documented:?}");
    for code in 0..=255 {
        let said = documented.get(&code).map_or("Raw", String::as_str);
        assert_eq!(format!("{:?}", kind_of(code)), said, "code {code}");
    }
}

#[test]
fn message_types_have_the_numbers_of_rfc_2132() {
    use message_types::*;
    // RFC 2132, 9.6.
    assert_eq!([DISCOVER, OFFER, REQUEST, DECLINE, ACK, NAK, RELEASE, INFORM], [1, 2, 3, 4, 5, 6, 7, 8]);
    // RFC 3203, 4; RFC 4388, 6.1; RFC 6926, 6.2.1; RFC 7724, 5.2.1.
    assert_eq!(FORCE_RENEW, 9);
    assert_eq!([LEASE_QUERY, LEASE_UNASSIGNED, LEASE_UNKNOWN, LEASE_ACTIVE], [10, 11, 12, 13]);
    assert_eq!([BULK_LEASE_QUERY, LEASE_QUERY_DONE], [14, 15]);
    assert_eq!([ACTIVE_LEASE_QUERY, LEASE_QUERY_STATUS, TLS], [16, 17, 18]);
    assert_eq!((name(5), name(0), name(19), ALL.len()), (Some("ACK"), None, None, 18));
}

#[test]
fn op_and_the_broadcast_flag_are_those_of_rfc_2131() {
    assert_eq!((ops::BOOT_REQUEST, ops::BOOT_REPLY, flags::BROADCAST), (1, 2, 1 << 15));
    assert_eq!((ops::name(2), ops::name(3), ops::ALL.len()), (Some("BOOT_REPLY"), None, 2));
}
