//! The reader of option 121, and the moves of option 33's pairs to it and back (document 02, ticket 6; RFC 3442).

use super::writing::{MOST_PART, in_parts, put, room_refusal};
use super::{MOST_BYTES, MOST_VALUE, big_endian, first_refusal};
use sindovaleph::calls::{ReadRoute, RouteCount, Written};

/// The two options, and how many bytes a pair has; a part of pairs is cut between two of them.
const PAIRS_CODE: u8 = 33;
const ROUTES_CODE: u8 = 121;
const PAIR: usize = 8;
const MOST_PAIRS: usize = MOST_PART / PAIR * PAIR;

/// The refusals of a row: it is cut, its width is above 32, its destination is barred, it has no old form.
const CUT: u8 = 10;
const TOO_WIDE: u8 = 12;
const BARRED: u8 = 18;
const NO_OLD_FORM: u8 = 19;

/// The last first octets of the three classes, and of all that may be moved.
const LAST_OF_A: u8 = 127;
const LAST_OF_B: u8 = 191;
const LAST_OF_C: u8 = 223;

/// A route: its width, its destination masked to that width, its gateway.
struct Route {
    width: u8,
    destination: [u8; 4],
    gateway: [u8; 4],
}

/// The first octets of a destination, with zeros behind the width's last bit.
fn masked(width: u8, octets: &[u8]) -> [u8; 4] {
    let mut whole = [0; 4];
    whole[..octets.len()].copy_from_slice(octets);
    let mask = u32::MAX.checked_shl(32 - u32::from(width)).unwrap_or(0);
    (u32::from_be_bytes(whole) & mask).to_be_bytes()
}

/// The route that begins a value, and what stands behind it: "width, ceil(width / 8) bytes, gateway". Nothing where the value is at its
/// end.
fn first_route(value: &[u8]) -> Result<Option<(Route, &[u8])>, u8> {
    let Some((&width, behind)) = value.split_first() else { return Ok(None) };
    if width > 32 {
        return Err(TOO_WIDE);
    }
    let (octets, behind) = behind.split_at_checked(usize::from(width).div_ceil(8)).ok_or(CUT)?;
    let (&gateway, behind) = behind.split_first_chunk().ok_or(CUT)?;
    Ok(Some((Route { width, destination: masked(width, octets), gateway }, behind)))
}

/// All routes of a value, or by what the first bad row is refused.
fn all_routes(value: &[u8]) -> Result<Vec<Route>, u8> {
    let (mut routes, mut rest) = (Vec::new(), value);
    while let Some((route, behind)) = first_route(rest)? {
        routes.push(route);
        rest = behind;
    }
    Ok(routes)
}

/// No route is found at this place.
fn none(refused: u8, place: usize) -> ReadRoute {
    ReadRoute { refused, found: false, width: 0, destination: 0, gateway: 0, place }
}

impl Route {
    /// The route as it is answered, with the place behind it, or 0 by its index.
    fn found(&self, place: usize) -> ReadRoute {
        let Route { width, destination, gateway } = *self;
        let [destination, gateway] = [destination, gateway].map(u32::from_be_bytes);
        ReadRoute { refused: 0, found: true, width, destination, gateway, place }
    }
}

/// The route that begins at a place.
pub fn route_from(value: &[u8], place: usize) -> ReadRoute {
    let refused = first_refusal(&[(value.len() > MOST_BYTES, 2), (place > value.len(), 4)]);
    if refused > 0 {
        return none(refused, place);
    }
    match first_route(&value[place..]) {
        Ok(Some((route, behind))) => route.found(value.len() - behind.len()),
        Ok(None) => none(0, place),
        Err(refused) => none(refused, place),
    }
}

/// The route at an index. A bad row is told before the index, wherever it stands.
pub fn route_at(value: &[u8], index: usize) -> ReadRoute {
    if value.len() > MOST_BYTES {
        return none(2, 0);
    }
    match all_routes(value) {
        Ok(routes) => routes.get(index).map_or(none(4, 0), |route| route.found(0)),
        Err(refused) => none(refused, 0),
    }
}

/// How many routes a value has.
pub fn count_routes(value: &[u8]) -> RouteCount {
    if value.len() > MOST_BYTES {
        return RouteCount { refused: 2, count: 0 };
    }
    all_routes(value).map_or_else(
        |refused| RouteCount { refused, count: 0 },
        |routes| RouteCount { refused: 0, count: routes.len() },
    )
}

/// "First octet 0 to 127 gives width 8 if the last three octets are zero, 128 to 191 gives 16 if the last two are, 192 to 223 gives 24 if
/// the last one is; otherwise 32."
pub fn width_for(destination: [u8; 4]) -> u8 {
    match destination {
        [..=LAST_OF_A, 0, 0, 0] => 8,
        [128..=LAST_OF_B, _, 0, 0] => 16,
        [192..=LAST_OF_C, _, _, 0] => 24,
        _ => 32,
    }
}

/// "Destination 0.0.0.0 in either form or a first octet above 223."
fn is_barred(destination: [u8; 4]) -> bool {
    destination == [0; 4] || destination[0] > LAST_OF_C
}

/// Pairs as the value of option 121; or by what the first bad one is refused.
fn outward(pairs: &[u8]) -> Result<Vec<u8>, u8> {
    let mut value = Vec::new();
    for pair in pairs.chunks_exact(PAIR) {
        let (octets, gateway) = pair.split_at(PAIR / 2);
        let destination = big_endian(octets).to_be_bytes();
        if is_barred(destination) {
            return Err(BARRED);
        }
        let width = width_for(destination);
        value.push(width);
        value.extend_from_slice(&octets[..usize::from(width / 8)]);
        value.extend_from_slice(gateway);
    }
    Ok(value)
}

/// Routes as the value of option 33; or by what the first bad row is refused.
fn backward(routes: &[u8]) -> Result<Vec<u8>, u8> {
    let (mut value, mut rest) = (Vec::new(), routes);
    while let Some((Route { width, destination, gateway }, behind)) = first_route(rest)? {
        if is_barred(destination) {
            return Err(BARRED);
        }
        if width != width_for(destination) {
            return Err(NO_OLD_FORM);
        }
        value.extend(destination);
        value.extend(gateway);
        rest = behind;
    }
    Ok(value)
}

/// Puts the value made, unless its rows or its length are refused.
fn put_made(room: &mut [u8], place: usize, made: Result<Vec<u8>, u8>, (code, part): (u8, usize)) -> Written {
    match made {
        Err(refused) => Written { refused, place },
        Ok(value) if value.len() > MOST_VALUE => Written { refused: 7, place },
        Ok(value) => put(room, place, 0, &in_parts(part, code, &value)),
    }
}

/// The refusal of a move by its value, its room and its place: 2 for the first two, then 4.
fn move_refusal(room: &[u8], place: usize, value: &[u8]) -> u8 {
    first_refusal(&[(value.len() > MOST_BYTES, 2), (room_refusal(room, place) > 0, room_refusal(room, place))])
}

/// Option 33's pairs, written as option 121.
pub fn move_out(room: &mut [u8], place: usize, pairs: &[u8]) -> Written {
    let moved = move_refusal(room, place, pairs);
    let refused = first_refusal(&[(moved > 0, moved), (!pairs.len().is_multiple_of(PAIR), CUT)]);
    let made = if refused > 0 { Err(refused) } else { outward(pairs) };
    put_made(room, place, made, (ROUTES_CODE, MOST_PART))
}

/// Option 121's routes, written as option 33.
pub fn move_back(room: &mut [u8], place: usize, routes: &[u8]) -> Written {
    let refused = move_refusal(room, place, routes);
    let made = if refused > 0 { Err(refused) } else { backward(routes) };
    put_made(room, place, made, (PAIRS_CODE, MOST_PAIRS))
}

#[cfg(test)]
mod tests {
    use super::*;
    use std::net::Ipv4Addr;

    /// A pair and a route of each width that moves, all through 192.0.2.1.
    const PAIRS: [[u8; 8]; 4] = [
        [10, 0, 0, 0, 192, 0, 2, 1],
        [172, 16, 0, 0, 192, 0, 2, 1],
        [192, 0, 2, 0, 192, 0, 2, 1],
        [10, 1, 0, 0, 192, 0, 2, 1],
    ];
    const ROUTES: [&[u8]; 4] = [
        &[8, 10, 192, 0, 2, 1],
        &[16, 172, 16, 192, 0, 2, 1],
        &[24, 192, 0, 2, 192, 0, 2, 1],
        &[32, 10, 1, 0, 0, 192, 0, 2, 1],
    ];

    /// A move by its room and its place.
    type Move = fn(&mut [u8], usize, &[u8]) -> Written;

    const MOVES: [Move; 2] = [move_out, move_back];

    /// What a move leaves in a room of zeros behind a place, or its refusal. A refusal leaves all, and the place.
    fn moved(by: Move, value: &[u8], room: usize, place: usize) -> Result<Vec<u8>, u8> {
        let mut lent = vec![0; room];
        let written = by(&mut lent, place, value);
        let untouched = if written.refused > 0 { 0..room } else { 0..place };
        assert!(lent[untouched].iter().all(|&byte| byte == 0));
        match written.refused {
            0 => {
                assert!(lent[written.place..].iter().all(|&byte| byte == 0));
                Ok(lent[place..written.place].to_vec())
            }
            refused => {
                assert_eq!(written.place, place);
                Err(refused)
            }
        }
    }

    fn out(value: &[u8]) -> Result<Vec<u8>, u8> {
        moved(move_out, value, 5_000, 0)
    }

    fn back(value: &[u8]) -> Result<Vec<u8>, u8> {
        moved(move_back, value, 5_000, 0)
    }

    /// The routes of a value in words, by their places; or the refusal.
    fn read(value: &[u8]) -> Result<Vec<String>, u8> {
        let (mut words, mut place) = (Vec::new(), 0);
        loop {
            match route_from(value, place) {
                ReadRoute { refused: 0, found: false, .. } => return Ok(words),
                ReadRoute { refused: 0, width, destination, gateway, place: behind, .. } => {
                    let [destination, gateway] = [destination, gateway].map(Ipv4Addr::from);
                    words.push(format!("{destination}/{width} via {gateway}"));
                    place = behind;
                }
                ReadRoute { refused, .. } => return Err(refused),
            }
        }
    }

    #[test]
    fn routes_are_read_by_place_and_by_index() {
        let value = [8, 10, 192, 0, 2, 1, 0, 192, 0, 2, 2];
        let both = ["10.0.0.0/8 via 192.0.2.1", "0.0.0.0/0 via 192.0.2.2"].map(String::from);
        assert_eq!(read(&value), Ok(both.to_vec()));
        assert_eq!(count_routes(&value), RouteCount { refused: 0, count: 2 });
        for (index, place) in [0, 6].into_iter().enumerate() {
            assert_eq!(route_at(&value, index), ReadRoute { place: 0, ..route_from(&value, place) });
        }
        assert_eq!(route_from(&value, 6).place, 11);
        assert_eq!(route_from(&value, 11), none(0, 11));
        assert_eq!(route_from(&value, 12), none(4, 12));
        assert_eq!(route_at(&value, 2), none(4, 0));
        assert_eq!(read(&[]), Ok(vec![]));
    }

    #[test]
    fn a_bad_row_refuses_every_index_and_the_count() {
        assert_eq!(route_at(ROUTES[0], 1), none(4, 0));
        for (end, refused) in [(&[33][..], 12), (&[33, 0], 12), (&[255], 12), (&[8], 10), (&[0, 1, 2, 3], 10)] {
            let value = [ROUTES[0], end].concat();
            assert_eq!(route_at(&value, 0), none(refused, 0));
            assert_eq!(route_at(&value, 7), none(refused, 0));
            assert_eq!(count_routes(&value), RouteCount { refused, count: 0 });
            assert_eq!(read(&value), Err(refused));
            assert!(route_from(&value, 0).found);
            assert_eq!(route_from(&value, 6), none(refused, 6));
        }
    }

    #[test]
    fn destinations_are_masked_to_their_widths() {
        assert_eq!(read(&[25, 129, 210, 177, 132, 192, 0, 2, 1]), Ok(vec!["129.210.177.128/25 via 192.0.2.1".into()]));
        for width in 0..=32 {
            let bytes = usize::from(width).div_ceil(8);
            let value = [&[width][..], &[255; 4][..bytes], &[0, 0, 0, 9]].concat();
            let ones = (0..width).fold(0, |number, at| number | 1 << (31 - at));
            let route = ReadRoute { width, destination: ones, gateway: 9, place: value.len(), found: true, refused: 0 };
            assert_eq!(route_from(&value, 0), route);
            for cut in 1..value.len() {
                assert_eq!(route_from(&value[..cut], 0), none(10, 0));
            }
        }
    }

    #[test]
    fn pairs_move_out_and_routes_back() {
        for (pair, route) in PAIRS.iter().zip(ROUTES) {
            assert_eq!(out(pair), Ok([&[121, route.len() as u8], route].concat()));
            assert_eq!(back(route), Ok([&[33, 8][..], pair].concat()));
        }
        assert_eq!(moved(move_out, &PAIRS[0], 12, 1), Ok(vec![121, 6, 8, 10, 192, 0, 2, 1]));
        let two = [PAIRS[1], PAIRS[3]].concat();
        assert_eq!(out(&two), Ok([&[121, 16][..], ROUTES[1], ROUTES[3]].concat()));
        assert_eq!(back(&[ROUTES[1], ROUTES[3]].concat()), Ok([&[33, 16][..], &two].concat()));
    }

    #[test]
    fn an_empty_value_writes_nothing() {
        for by in MOVES {
            assert_eq!(moved(by, &[], 5, 5), Ok(vec![]));
            assert_eq!(moved(by, &[], 5, 6), Err(4));
        }
    }

    #[test]
    fn a_width_is_of_the_class_where_the_octets_behind_its_network_are_zero() {
        let classes = [(1, 8, 1), (127, 8, 1), (128, 16, 2), (191, 16, 2), (192, 24, 3), (223, 24, 3)];
        for (first, width, network) in classes {
            for (at, octet) in [(1, 1), (1, 255), (2, 1), (2, 255), (3, 1), (3, 255)] {
                let mut destination = [first, 0, 0, 0];
                assert_eq!(width_for(destination), width);
                destination[at] = octet;
                assert_eq!(width_for(destination), if at < network { width } else { 32 }, "{destination:?}");
            }
        }
        assert_eq!((width_for([0, 0, 0, 0]), width_for([0, 0, 0, 1])), (8, 32));
        assert_eq!((width_for([224, 0, 0, 0]), width_for([255, 0, 0, 0])), (32, 32));
    }

    #[test]
    fn barred_destinations_move_neither_way() {
        let gateway = [192, 0, 2, 1];
        for (destination, refused) in [
            ([0, 0, 0, 0], true),
            ([0, 0, 0, 1], false),
            ([0, 1, 0, 0], false),
            ([127, 0, 0, 1], false),
            ([223, 255, 255, 255], false),
            ([224, 0, 0, 0], true),
            ([224, 0, 0, 1], true),
            ([255, 255, 255, 255], true),
        ] {
            let (pair, route) = ([destination, gateway].concat(), [&[32], &destination[..], &gateway].concat());
            let (there, here) = ([&[121, 9][..], &route].concat(), [&[33, 8][..], &pair].concat());
            assert_eq!(out(&pair), if refused { Err(18) } else { Ok(there) });
            assert_eq!(back(&route), if refused { Err(18) } else { Ok(here) });
        }
        assert_eq!(back(&[0, 192, 0, 2, 1]), Err(18));
        assert_eq!(back(&[4, 15, 192, 0, 2, 1]), Err(18));
        assert_eq!(back(&[3, 255, 192, 0, 2, 1]), Err(18));
        assert_eq!(back(&[24, 224, 0, 0, 192, 0, 2, 1]), Err(18));
    }

    #[test]
    fn a_route_moves_back_only_with_the_width_of_the_rule() {
        assert_eq!(back(&[32, 10, 0, 0, 0, 192, 0, 2, 1]), Err(19));
        assert_eq!(back(&[2, 255, 192, 0, 2, 1]), Err(19));
        assert_eq!(back(&[9, 10, 128, 192, 0, 2, 1]), Err(19));
        assert_eq!(back(&[24, 10, 0, 0, 192, 0, 2, 1]), Err(19));
        assert_eq!(back(&[25, 192, 0, 2, 128, 192, 0, 2, 1]), Err(19));
        assert_eq!(back(&[8, 128, 192, 0, 2, 1]), Err(19));
    }

    #[test]
    fn any_gateway_moves() {
        for gateway in [[0; 4], [255; 4]] {
            let (pair, route) = ([[10, 0, 0, 0], gateway].concat(), [&[8, 10], &gateway[..]].concat());
            assert_eq!(out(&pair), Ok([&[121, 6][..], &route].concat()));
            assert_eq!(back(&route), Ok([&[33, 8][..], &pair].concat()));
        }
    }

    #[test]
    fn the_length_of_pairs_comes_before_their_rows() {
        assert_eq!(out(&[0, 0, 0, 0, 192, 0, 2, 1, 9]), Err(10));
        for len in 1..16 {
            assert_eq!(out(&PAIRS.concat()[..len]).is_err(), len != 8, "{len}");
        }
    }

    #[test]
    fn the_first_bad_row_decides() {
        let barred = [PAIRS[0], [224, 0, 0, 1, 192, 0, 2, 1]].concat();
        assert_eq!(moved(move_out, &barred, 3, 0), Err(18));
        let bad: [(&[u8], u8); 6] = [
            (&[33, 0], 12),
            (&[0, 192, 0, 2, 1], 18),
            (&[4, 15, 192, 0, 2, 1], 18),
            (&[32, 10, 0, 0, 0, 192, 0, 2, 1], 19),
            (&[2, 255, 192, 0, 2, 1], 19),
            (&[9, 10, 128, 192, 0, 2, 1], 19),
        ];
        for (first, refused) in bad {
            for (second, _) in bad {
                assert_eq!(back(&[first, second].concat()), Err(refused));
                assert_eq!(back(&[ROUTES[0], first, second, &[8]].concat()), Err(refused));
            }
        }
        assert_eq!(back(&[0, 192, 0, 2, 1, 33]), Err(18));
        assert_eq!(back(&[32, 10, 0, 0, 0, 192, 0, 2, 1, 33]), Err(19));
        for value in [&[0, 192, 0, 2, 1, 33][..], &[32, 10, 0, 0, 0, 192, 0, 2, 1, 33]] {
            assert_eq!(read(value), Err(12));
        }
    }

    #[test]
    fn in_one_row_the_width_comes_first_then_the_cut() {
        for (row, refused) in [(&[33][..], 12), (&[33, 0], 12), (&[8, 0, 1, 2, 3], 10), (&[0, 1, 2, 3], 10)] {
            assert_eq!(back(row), Err(refused));
        }
    }

    #[test]
    fn a_value_made_is_cut_as_its_option_is() {
        let routes = ROUTES[0].repeat(43);
        let parts = [&[121, 255][..], &routes[..255], &[121, 3], &routes[255..]].concat();
        assert_eq!(out(&PAIRS[0].repeat(43)), Ok(parts));
        let pairs = PAIRS[0].repeat(32);
        assert_eq!(back(&ROUTES[0].repeat(31)), Ok([&[33, 248], &pairs[..248]].concat()));
        assert_eq!(back(&ROUTES[0].repeat(32)), Ok([&[33, 248], &pairs[..248], &[33, 8], &pairs[248..]].concat()));
    }

    #[test]
    fn the_limit_is_of_the_value_made() {
        let len = |moved: Result<Vec<u8>, u8>| moved.map(|bytes| bytes.len());
        assert_eq!(len(out(&PAIRS[3].repeat(453))), Ok(4_109));
        assert_eq!(len(out(&PAIRS[3].repeat(454))), Err(7));
        assert_eq!(len(out(&PAIRS[0].repeat(680))), Ok(4_112));
        assert_eq!(len(out(&PAIRS[0].repeat(681))), Err(7));
        assert_eq!(len(back(&ROUTES[0].repeat(510))), Ok(4_114));
        assert_eq!(len(back(&ROUTES[0].repeat(511))), Err(7));
    }

    #[test]
    fn rows_behind_the_limit_are_checked() {
        assert_eq!(out(&[PAIRS[0].repeat(700), vec![0; 8]].concat()), Err(18));
        for (bad, refused) in [(&[33][..], 12), (&[8], 10), (&[0, 1, 2, 3, 4], 18), (&[1, 1, 1, 2, 3, 4], 18)] {
            assert_eq!(back(&[ROUTES[0].repeat(700), bad.to_vec()].concat()), Err(refused));
        }
        assert_eq!(back(&[ROUTES[0].repeat(700), vec![32, 10, 0, 0, 0, 192, 0, 2, 1]].concat()), Err(19));
    }

    #[test]
    fn room_is_the_last_to_be_looked_at() {
        assert_eq!(moved(move_out, &PAIRS[0], 8, 0), Ok([&[121, 6], ROUTES[0]].concat()));
        assert_eq!(moved(move_out, &PAIRS[0], 7, 0), Err(8));
        assert_eq!(moved(move_back, ROUTES[0], 13, 3), Ok([&[33, 8][..], &PAIRS[0]].concat()));
        assert_eq!(moved(move_back, ROUTES[0], 12, 3), Err(8));
        assert_eq!(moved(move_out, &PAIRS[3].repeat(454), 0, 0), Err(7));
        assert_eq!(moved(move_back, &ROUTES[0].repeat(511), 0, 0), Err(7));
    }

    #[test]
    fn lengths_come_first_and_then_the_place() {
        let long = vec![33; MOST_BYTES + 1];
        assert_eq!((route_from(&long, 70_000), route_at(&long, 0)), (none(2, 70_000), none(2, 0)));
        assert_eq!(count_routes(&long), RouteCount { refused: 2, count: 0 });
        for by in MOVES {
            assert_eq!(moved(by, &long, 5, 6), Err(2));
            assert_eq!(moved(by, &[33], MOST_BYTES + 1, 70_000), Err(2));
            assert_eq!(moved(by, &[33], 5, 6), Err(4));
        }
    }

    #[test]
    fn pairs_within_the_limit_come_back_the_same() {
        for count in [1, 31, 32, 43, 510] {
            let pairs: Vec<u8> = PAIRS.iter().cycle().take(count).flatten().copied().collect();
            let routes = outward(&pairs).unwrap_or_default();
            assert_eq!(backward(&routes), Ok(pairs));
        }
        let above = PAIRS[0].repeat(511);
        assert_eq!(out(&above).map(|bytes| bytes.len()), Ok(3_092));
        assert_eq!(back(&outward(&above).unwrap_or_default()), Err(7));
    }
}
