//! Whether the crate's typed reading and document 01's say the same.

use crate::paper;
use crate::theirs::{Content, Reading, content_of};
use dhcproto::v4::{DhcpOption, OptionCode};
use sindovaleph::calls::{ReadRoute, Value};

/// Whether the crate reads a value under a code as document 01 does, refusals included.
pub fn same_reading(code: u8, value: &[u8], theirs: &Reading) -> bool {
    let paper = paper::read(code, value, false);
    match theirs {
        Reading::Is(_) => is_read_as(code, code, value, theirs),
        Reading::NotEnoughBytes => paper.refused == 10,
        Reading::NotUtf8 => paper.refused == 11,
        Reading::OtherError | Reading::Panics => false,
    }
}

/// Whether the crate answers its type of one code, with what document 01 reads of a value under another.
pub fn is_read_as(crate_code: u8, code: u8, value: &[u8], theirs: &Reading) -> bool {
    let Reading::Is(option) = theirs else { return false };
    let paper = paper::read(code, value, false);
    let holds = match content_of(option) {
        Content::Number(kind, number) => (paper.kind, paper.number) == (kind, number),
        Content::Bytes(kind, bytes) => paper.kind == kind && bytes == value,
        Content::Flag => paper.kind == 15,
        Content::LeftInTheCrate => false,
        list => same_list(code, value, &paper, &list),
    };
    paper.refused == 0 && u8::from(OptionCode::from(option)) == crate_code && holds
}

/// Whether a list of the crate has the kind, the count and the elements that document 01 reads.
fn same_list(code: u8, value: &[u8], paper: &Value, content: &Content<'_>) -> bool {
    let same = |kind: u8, mut numbers: &mut dyn Iterator<Item = (u32, u32)>| {
        let mut count = 0;
        let alike = Iterator::all(&mut numbers, |pair| {
            let element = paper::element(code, value, count);
            count += 1;
            element.refused == 0 && (element.first, element.second) == pair
        });
        alike && (paper.kind, paper.count) == (kind, count)
    };
    match content {
        Content::Addresses(held) => same(2, &mut held.iter().map(|&address| (address.into(), 0))),
        Content::Pairs(held) => same(3, &mut held.iter().map(|&(a, b)| (a.into(), b.into()))),
        Content::U16s(held) => same(7, &mut held.iter().map(|&number| (number.into(), 0))),
        Content::Codes(held) => same(11, &mut held.iter().map(|&code| (u8::from(code).into(), 0))),
        _ => false,
    }
}

/// Whether the crate reads the routes of option 121 as ticket 6 does, but for two things: it masks no destination, so its own are masked
/// first, and it ends its list at a width above 32.
pub fn same_routes(value: &[u8], theirs: &Reading) -> bool {
    let table = match theirs {
        Reading::Is(DhcpOption::ClasslessStaticRoute(table)) => table,
        Reading::NotEnoughBytes => return paper::count_routes(value).refused == 10,
        _ => return false,
    };
    let mut place = 0;
    let alike = table.iter().all(|&(destination, gateway)| {
        let route = paper::route_from(value, place);
        place = route.place;
        let theirs = (destination.prefix_len(), u32::from(destination.network()), u32::from(gateway));
        route.found && (route.width, route.destination, route.gateway) == theirs
    });
    alike && matches!(paper::route_from(value, place), ReadRoute { refused: 0 | 12, found: false, .. })
}
