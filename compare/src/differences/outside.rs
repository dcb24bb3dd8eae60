//! Faults of the crate beside the port: its owned messages and a type that document 01 leaves out.

use super::input::{Input, Part};
use super::{Row, always, panics_in_debug};

/// The rows of what is beside the port.
pub const ROWS: &[Row] = &[
    Row {
        name: "owned: an hlen above 16",
        input: Input::OwnedMessage { len: 240, set: &[(2, &[17])], part: Part::Chaddr },
        theirs: always("panics"),
        ours: "not ported",
        rfc: "2131, 2: 16 bytes",
        fault: "panics on received bytes",
    },
    Row {
        name: "owned: the zero byte of sname and file",
        input: Input::OwnedMessage { len: 240, set: &[(44, &[97])], part: Part::Sname },
        theirs: always("Some([97, 0])"),
        ours: "not ported",
        rfc: "2131, 2: null terminated",
        fault: "the zero byte is shown too",
    },
    Row {
        name: "owned: sname and file without a zero byte",
        input: Input::OwnedMessage { len: 240, set: &[(44, &[97; 64])], part: Part::Sname },
        theirs: always("None"),
        ours: "not ported",
        rfc: "2131, 2: null terminated",
        fault: "64 bytes are lost without a word",
    },
    Row {
        name: "owned: another magic",
        input: Input::OwnedMessage { len: 242, set: &[(236, &[0]), (240, &[80, 0])], part: Part::Options },
        theirs: always("1 options"),
        ours: "not ported",
        rfc: "2131, 3: 99 130 83 99",
        fault: "other bytes are read as options",
    },
    Row {
        name: "owned: an option that errs",
        input: Input::OwnedOptions { area: &[1, 0, 53, 1, 5] },
        theirs: always("[]"),
        ours: "not ported",
        rfc: "-",
        fault: "all options behind it are lost",
    },
    Row {
        name: "owned: codes 23 and 37",
        input: Input::OwnedOptions { area: &[23, 1, 9, 37, 1, 64] },
        theirs: always("[DefaultIpTtl(64)]"),
        ours: "not ported",
        rfc: "2132, 4.5 and 7.1",
        fault: "the value of code 23 is lost",
    },
    Row {
        name: "owned: parts that are not neighbours",
        input: Input::OwnedOptions { area: &[12, 1, 65, 0, 12, 0] },
        theirs: always("[Hostname(\"\")]"),
        ours: "not ported",
        rfc: "3396, 7: one option",
        fault: "the first part is lost",
    },
    Row {
        name: "owned: no options",
        input: Input::NoOptions,
        theirs: always("nothing"),
        ours: "255, walked: end 1",
        rfc: "2131, 4.1: the last is End",
        fault: "no End is written",
    },
    Row {
        name: "code 81 without the E bit",
        input: Input::Name,
        theirs: always("81 5 0 255 255 97 46, read: Err(DomainDecodeError)"),
        ours: "not ported",
        rfc: "4702, 2.3.1: ASCII",
        fault: "cannot be read back",
    },
    Row {
        name: "a text of code 151",
        input: Input::Status { len: 255 },
        theirs: panics_in_debug("151 0 .. of 258 bytes, walked: 151 with 0 bytes"),
        ours: "not ported",
        rfc: "3396, 6: 255 a part",
        fault: "panics, or cannot be read back",
    },
];
