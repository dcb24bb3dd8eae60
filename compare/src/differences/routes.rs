//! Differences in the classless routes of code 121.

use super::input::Input;
use super::{Row, always};

/// The rows of routes.
pub const ROWS: &[Row] = &[
    Row {
        name: "a route's width above 32",
        input: Input::Routes { destination: [10, 0, 0, 0], width: 33, count: 1 },
        theirs: always("Err(AddrParseError)"),
        ours: "refused 12",
        rfc: "3442: 0 to 32",
        fault: "",
    },
    Row {
        name: "bits behind a route's width",
        input: Input::Routes { destination: [10, 255, 0, 0], width: 9, count: 1 },
        theirs: always("121 7 9 10 255 192 0 2 1, walked: 121 with 7 bytes"),
        ours: "121 7 9 10 255 192 0 2 1, walked: 121 with 7 bytes",
        rfc: "3442: the client zeroes them",
        fault: "",
    },
    Row {
        name: "a value of more than 4,080 bytes",
        input: Input::Routes { destination: [10, 1, 2, 3], width: 32, count: 454 },
        theirs: always("121 255 .. of 4120 bytes, walked: 121 with 4086 bytes"),
        ours: "refused 7",
        rfc: "3396, 6: any length",
        fault: "",
    },
    Row {
        name: "bits behind a route's width, read",
        input: Input::ReadRoutes { value: &[1, 255, 192, 0, 2, 1] },
        theirs: always("ClasslessStaticRoute([(255.0.0.0/1, 192.0.2.1)])"),
        ours: "128.0.0.0/1 through 192.0.2.1",
        rfc: "3442: the client zeroes them",
        fault: "",
    },
    Row {
        name: "a route's width above 32, read",
        input: Input::ReadRoutes { value: &[33] },
        theirs: always("ClasslessStaticRoute([])"),
        ours: "refused 12",
        rfc: "3442: 0 to 32",
        fault: "a byte is lost without a word",
    },
    Row {
        name: "a route's width above 32, read",
        input: Input::ReadRoutes { value: &[0, 192, 0, 2, 1, 33] },
        theirs: always("ClasslessStaticRoute([(0.0.0.0/0, 192.0.2.1)])"),
        ours: "refused 12",
        rfc: "3442: 0 to 32",
        fault: "a byte is lost without a word",
    },
    Row {
        name: "a cut route",
        input: Input::ReadRoutes { value: &[0, 192, 0, 2, 1, 8] },
        theirs: always("Err(NotEnoughBytes)"),
        ours: "refused 10",
        rfc: "3442: 5 bytes or more",
        fault: "",
    },
    Row {
        name: "an empty value",
        input: Input::ReadRoutes { value: &[] },
        theirs: always("ClasslessStaticRoute([])"),
        ours: "no routes",
        rfc: "3442: 5 bytes or more",
        fault: "",
    },
];
