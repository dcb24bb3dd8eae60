//! Differences in the fixed header.

use super::input::{Input, Part};
use super::{Row, always};

/// The rows of the header.
pub const ROWS: &[Row] = &[
    Row {
        name: "chaddr past the end",
        input: Input::Message { len: 240, set: &[(2, &[213])], part: Part::Chaddr },
        theirs: always("panics"),
        ours: "refused 3",
        rfc: "2131, 2: 16 bytes",
        fault: "panics on received bytes",
    },
    Row {
        name: "an hlen above 16",
        input: Input::Message { len: 240, set: &[(2, &[17])], part: Part::Chaddr },
        theirs: always("0 0 .. of 17 bytes"),
        ours: "0 0 .. of 17 bytes, 16 in the field, spills",
        rfc: "2131, 2: 16 bytes",
        fault: "bytes of sname are shown as address",
    },
    Row {
        name: "fewer than 240 bytes",
        input: Input::Message { len: 239, set: &[], part: Part::Op },
        theirs: always("Err(NotEnoughBytes)"),
        ours: "refused 1",
        rfc: "2131, 2 and 3: 236 and the magic",
        fault: "",
    },
    Row {
        name: "a message of more than 65,535 bytes",
        input: Input::Message { len: 65_536, set: &[], part: Part::Op },
        theirs: always("Unknown(0)"),
        ours: "refused 2",
        rfc: "2131, 2: variable",
        fault: "",
    },
    Row {
        name: "another magic",
        input: Input::Message { len: 242, set: &[(236, &[0]), (240, &[80, 0])], part: Part::Options },
        theirs: always("None"),
        ours: "wrong magic",
        rfc: "2131, 3: 99 130 83 99",
        fault: "",
    },
    Row {
        name: "op, htype and flags",
        input: Input::Message { len: 240, set: &[(0, &[3])], part: Part::Op },
        theirs: always("Unknown(3)"),
        ours: "3",
        rfc: "2131, 2: 1 or 2",
        fault: "",
    },
    Row {
        name: "sname and file without a zero byte",
        input: Input::Message { len: 240, set: &[(44, &[97; 64])], part: Part::Sname },
        theirs: always("97 97 .. of 64 bytes"),
        ours: "97 97 .. of 64 bytes",
        rfc: "2131, 2: null terminated",
        fault: "",
    },
    Row {
        name: "options in file and sname",
        input: Input::Message {
            len: 244,
            set: &[(108, &[12, 1, 65, 255]), (240, &[52, 1, 1, 255])],
            part: Part::Options,
        },
        theirs: always("52: 1; None"),
        ours: "52: 1; end 4",
        rfc: "2131, 4.1: then 12 with 65",
        fault: "an option is not found",
    },
];
