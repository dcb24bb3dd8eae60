//! Differences in RFC 3396's reading, the mode beside the walk.

use super::input::Input;
use super::{Row, always};

/// The rows of RFC 3396's reading.
pub const ROWS: &[Row] = &[
    Row {
        name: "parts that are not neighbours",
        input: Input::Find { len: 247, set: &[(240, &[12, 1, 65, 0, 12, 1, 66])], code: 12 },
        theirs: always("12: 65; 12: 66"),
        ours: "12: 65 66",
        rfc: "3396, 7: one option",
        fault: "one option is answered as two",
    },
    Row {
        name: "options in file and sname",
        input: Input::Find { len: 244, set: &[(108, &[12, 1, 65, 255]), (240, &[52, 1, 1, 255])], code: 12 },
        theirs: always("None"),
        ours: "12: 65",
        rfc: "2131, 4.1: 12 with 65",
        fault: "an option is not found",
    },
    Row {
        name: "an option over several fields",
        input: Input::Find { len: 247, set: &[(108, &[12, 1, 66, 255]), (240, &[12, 1, 65, 52, 1, 1, 255])], code: 12 },
        theirs: always("12: 65"),
        ours: "12: 65 66",
        rfc: "3396, 5: options, file, sname",
        fault: "a part is not found",
    },
    Row {
        name: "a field without End",
        input: Input::Find { len: 243, set: &[(108, &[12, 1, 65]), (240, &[52, 1, 1])], code: 12 },
        theirs: always("None"),
        ours: "12: 65",
        rfc: "2131, 4.1: an End in each field",
        fault: "",
    },
    Row {
        name: "a field that is cut",
        input: Input::Find { len: 243, set: &[(240, &[12, 0, 1])], code: 12 },
        theirs: always("12: nothing"),
        ours: "refused 15",
        rfc: "2132, 2: a length follows",
        fault: "",
    },
    Row {
        name: "option 52 that is unclear",
        input: Input::Find { len: 243, set: &[(240, &[52, 1, 4])], code: 12 },
        theirs: always("None"),
        ours: "refused 16",
        rfc: "2132, 9.3: 1 to 3",
        fault: "",
    },
    Row {
        name: "option 52 that is unclear",
        input: Input::Find { len: 245, set: &[(240, &[52, 1, 1, 52, 0])], code: 52 },
        theirs: always("52: 1"),
        ours: "refused 16",
        rfc: "3396, 7: one option",
        fault: "",
    },
];
