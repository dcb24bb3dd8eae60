//! Differences in the walk over an area of options.

use super::input::{ENOUGH, Input};
use super::{Row, always};

/// The rows of the walk.
pub const ROWS: &[Row] = &[
    Row {
        name: "the five stops",
        input: Input::Walk { pads: 0, area: &[], calls: 1, join: ENOUGH },
        theirs: always("None"),
        ours: "out 0",
        rfc: "-",
        fault: "",
    },
    Row {
        name: "the five stops",
        input: Input::Walk { pads: 0, area: &[255], calls: 1, join: ENOUGH },
        theirs: always("None"),
        ours: "end 1",
        rfc: "2132, 3.2: End",
        fault: "",
    },
    Row {
        name: "the five stops",
        input: Input::Walk { pads: 0, area: &[12], calls: 1, join: ENOUGH },
        theirs: always("None"),
        ours: "cut length 1",
        rfc: "2132, 2: a length follows",
        fault: "",
    },
    Row {
        name: "the five stops",
        input: Input::Walk { pads: 0, area: &[12, 1], calls: 1, join: ENOUGH },
        theirs: always("None"),
        ours: "cut value 2",
        rfc: "2132, 2: length bytes follow",
        fault: "",
    },
    Row {
        name: "a cut continuation",
        input: Input::Walk { pads: 0, area: &[12, 0, 12], calls: 2, join: ENOUGH },
        theirs: always("None; None"),
        ours: "cut continuation 2; cut length 3",
        rfc: "-",
        fault: "a whole part is lost without a word",
    },
    Row {
        name: "a join buffer that is too small",
        input: Input::Walk { pads: 0, area: &[12, 0, 12, 1, 65], calls: 1, join: 0 },
        theirs: always("12: 65"),
        ours: "refused 5, needs 1",
        rfc: "3396, 7: one option",
        fault: "",
    },
    Row {
        name: "an area of more than 65,535 bytes",
        input: Input::Walk { pads: 65_534, area: &[12, 0], calls: 1, join: ENOUGH },
        theirs: always("12: nothing"),
        ours: "refused 2",
        rfc: "2131, 2: variable",
        fault: "",
    },
    Row {
        name: "parts that are not neighbours",
        input: Input::Walk { pads: 0, area: &[12, 0, 0, 12, 0], calls: 2, join: ENOUGH },
        theirs: always("12: nothing; 12: nothing"),
        ours: "12: nothing; 12: nothing",
        rfc: "3396, 7: one option",
        fault: "one option is answered as two",
    },
    Row {
        name: "bytes behind End",
        input: Input::Walk { pads: 0, area: &[255, 12, 0], calls: 2, join: ENOUGH },
        theirs: always("None; 12: nothing"),
        ours: "end 1; 12: nothing",
        rfc: "2132, 3.2: End is the end",
        fault: "",
    },
    Row {
        name: "bytes behind a cut",
        input: Input::Walk { pads: 0, area: &[12, 3, 12, 0], calls: 2, join: ENOUGH },
        theirs: always("None; 12: nothing"),
        ours: "cut value 2; 12: nothing",
        rfc: "-",
        fault: "",
    },
];
