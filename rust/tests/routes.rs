//! The routes of option 121, read; and static routes, moved from option 33 to option 121 and back.

mod common;

use common::message_with;
use sindovaleph::calls::{self, ReadRoute, RouteCount, Written};
use sindovaleph::{Message, Options, Refusal, Route, RouteRow, RouteRows, Routes, Value, Writer, codes, read};
use std::net::Ipv4Addr;

const GATEWAY: [u8; 4] = [192, 0, 2, 1];

/// The pair of a network whose route is the shortest that moves, and that route: 10.0.0.0/8.
const PAIR: [u8; 8] = [10, 0, 0, 0, 192, 0, 2, 1];
const ROUTE: [u8; 6] = [8, 10, 192, 0, 2, 1];

/// The pair of a host, whose route is as long as one gets, and that route: 10.1.0.0/32.
const HOST_PAIR: [u8; 8] = [10, 1, 0, 0, 192, 0, 2, 1];
const HOST_ROUTE: [u8; 9] = [32, 10, 1, 0, 0, 192, 0, 2, 1];

/// A default route, and one to a network as if it were a host: neither has a pair.
const DEFAULT_ROUTE: [u8; 5] = [0, 192, 0, 2, 1];
const NETWORK_AS_HOST: [u8; 9] = [32, 10, 0, 0, 0, 192, 0, 2, 1];

/// So many bytes are one too many.
const TOO_LONG: usize = 65_536;

/// A route as it is read, by the gateway 192.0.2.1.
fn route(width: u8, destination: [u8; 4]) -> RouteRow {
    RouteRow { width, destination: destination.into(), gateway: GATEWAY.into() }
}

/// A row of option 121 as it stands there, by the gateway 192.0.2.1.
fn row(width: u8, destination: u32) -> Vec<u8> {
    let octets = &destination.to_be_bytes()[..usize::from(width).div_ceil(8)];
    [&[width][..], octets, &GATEWAY].concat()
}

/// A pair of option 33 as it stands there, with the router 192.0.2.1.
fn pair(destination: u32) -> Vec<u8> {
    [destination.to_be_bytes(), GATEWAY].concat()
}

/// A destination with the bits behind its width put to 0.
fn masked(width: u8, destination: u32) -> u32 {
    destination & u32::MAX.checked_shl(32 - u32::from(width)).unwrap_or(0)
}

/// What is answered where there is no route: the number of a refusal, or 0 at the value's end.
fn no_route(refused: u8, place: usize) -> ReadRoute {
    ReadRoute { refused, found: false, width: 0, destination: 0, gateway: 0, place }
}

/// The route that a call found.
fn shown(found: ReadRoute) -> RouteRow {
    assert_eq!((found.refused, found.found), (0, true));
    let (destination, gateway) = (Ipv4Addr::from_bits(found.destination), Ipv4Addr::from_bits(found.gateway));
    RouteRow { width: found.width, destination, gateway }
}

/// All routes of a value, from place to place.
fn walked(value: &[u8]) -> Vec<RouteRow> {
    let (mut all, mut found) = (Vec::new(), calls::route_from(value, 0));
    while found.found {
        all.push(shown(found));
        assert_eq!(calls::route_at(value, all.len() - 1), ReadRoute { place: 0, ..found });
        found = calls::route_from(value, found.place);
    }
    assert_eq!(found, no_route(0, value.len()));
    all
}

/// The routes of a value, or the number of its refusal: asked for in every way, with one answer.
fn routes_of(value: &[u8]) -> Result<Vec<RouteRow>, u8> {
    let counted = calls::count_routes(value);
    let routes = match Routes::read(value) {
        Ok(routes) => routes,
        Err(refusal) => {
            let number = refusal.number();
            assert_eq!(counted, RouteCount { refused: number, count: 0 });
            for index in [0, 1, usize::MAX] {
                assert_eq!(calls::route_at(value, index), no_route(number, 0), "index {index}");
            }
            return Err(number);
        }
    };
    let rows: RouteRows<'_> = routes.iter();
    assert_eq!((counted, routes.is_empty()), (RouteCount { refused: 0, count: routes.len() }, counted.count == 0));
    assert_eq!((rows.len(), rows.size_hint()), (routes.len(), (routes.len(), Some(routes.len()))));
    let all: Vec<RouteRow> = rows.collect();
    assert_eq!(all, walked(value));
    assert_eq!((0..routes.len()).map(|index| routes.get(index)).collect::<Result<Vec<_>, _>>().as_ref(), Ok(&all));
    for index in [routes.len(), routes.len() + 1, usize::MAX] {
        assert_eq!(routes.get(index), Err(Refusal::PastEnd));
        assert_eq!(calls::route_at(value, index), no_route(4, 0));
    }
    assert!(routes.into_iter().eq(all.iter().copied()) && (&routes).into_iter().eq(all.iter().copied()));
    Ok(all)
}

/// One of the two moves: the plain call, and the writer's.
#[derive(Clone, Copy)]
struct Move {
    call: fn(&mut [u8], usize, &[u8]) -> Written,
    write: fn(&mut Writer<'_>, &[u8]) -> Result<(), Refusal>,
}

const OUT: Move = Move { call: calls::move_out, write: |writer, pairs| writer.move_out(pairs) };
const BACK: Move = Move { call: calls::move_back, write: |writer, routes| writer.move_back(routes) };

impl Move {
    /// Moves a value to a place of a room of so many bytes: what is written there, or the number of the refusal. The
    /// call and the writer agree, all else in the room stays as it was, and a refusal leaves the place.
    fn at(self, value: &[u8], len: usize, place: usize) -> Result<Vec<u8>, u8> {
        let (mut plain, mut safe) = (vec![0xEE; len], vec![0xEE; len]);
        let Written { refused, place: end } = (self.call)(&mut plain, place, value);
        let mut writer = Writer::at(&mut safe, place);
        let answer = (self.write)(&mut writer, value);
        assert_eq!((answer.map_or_else(Refusal::number, |()| 0), writer.place()), (refused, end));
        assert_eq!(plain, safe);
        let bytes: Vec<u8> = if refused == 0 { plain.drain(place..end).collect() } else { Vec::new() };
        assert!(plain.iter().all(|&byte| byte == 0xEE), "what is not written stays");
        assert_eq!(end, place + bytes.len());
        if refused == 0 { Ok(bytes) } else { Err(refused) }
    }

    /// The same in a room that takes the longest value: 4,080 bytes, and 17 heads.
    fn of(self, value: &[u8]) -> Result<Vec<u8>, u8> {
        self.at(value, 3 + 4_114, 3)
    }
}

/// The value of the one option that an area has, and its code.
fn walked_value(area: &[u8]) -> (u8, Vec<u8>) {
    let mut join = vec![0; area.len()];
    let mut options = Options::new(area, &mut join);
    let opt = options.next().expect("there is an option").expect("the buffer is as long as the area");
    assert!(options.next().is_none() && options.place() == area.len());
    (opt.code(), opt.data().to_vec())
}

/// What a move writes, walked: its value, of the code that it has to have.
fn value_of(by: Move, code: u8, value: &[u8]) -> Result<Vec<u8>, u8> {
    let area = by.of(value)?;
    if area.is_empty() {
        return Ok(Vec::new());
    }
    let (found, made) = walked_value(&area);
    assert_eq!(found, code);
    Ok(made)
}

fn moved_out(pairs: &[u8]) -> Result<Vec<u8>, u8> {
    value_of(OUT, codes::CLASSLESS_STATIC_ROUTE, pairs)
}

fn moved_back(routes: &[u8]) -> Result<Vec<u8>, u8> {
    value_of(BACK, codes::STATIC_ROUTING_TABLE, routes)
}

#[test]
fn worked_examples_are_read() {
    let default = RouteRow { width: 0, destination: Ipv4Addr::UNSPECIFIED, gateway: Ipv4Addr::new(192, 0, 2, 2) };
    assert_eq!(routes_of(&[8, 10, 192, 0, 2, 1, 0, 192, 0, 2, 2]), Ok(vec![route(8, [10, 0, 0, 0]), default]));
    // RFC 3442's example.
    assert_eq!(routes_of(&[25, 129, 210, 177, 132, 192, 0, 2, 1]), Ok(vec![route(25, [129, 210, 177, 128])]));
    assert_eq!(routes_of(&[]), Ok(vec![]));
    assert_eq!(Routes::read(&ROUTE).and_then(|routes| routes.get(1)), Err(Refusal::PastEnd));
    assert_eq!(calls::route_at(&ROUTE, 1), no_route(4, 0));
    let wide_behind = [&ROUTE[..], &[33]].concat();
    assert_eq!(Routes::read(&wide_behind), Err(Refusal::WidthAbove32));
    assert_eq!(calls::route_at(&wide_behind, 0), no_route(12, 0));
    assert_eq!(routes_of(&[&DEFAULT_ROUTE[..], &[33]].concat()), Err(12));
    assert_eq!(routes_of(&[&NETWORK_AS_HOST[..], &[33]].concat()), Err(12));
}

#[test]
fn worked_examples_move() {
    assert_eq!(OUT.at(&PAIR, 12, 1), Ok(vec![121, 6, 8, 10, 192, 0, 2, 1]));
    assert_eq!(
        OUT.at(&[172, 16, 0, 0, 192, 0, 2, 1, 10, 1, 0, 0, 192, 0, 2, 1], 18, 0),
        Ok(vec![121, 16, 16, 172, 16, 192, 0, 2, 1, 32, 10, 1, 0, 0, 192, 0, 2, 1])
    );
    assert_eq!(OUT.of(&[0, 0, 0, 0, 192, 0, 2, 1, 9]), Err(10));
    assert_eq!(OUT.at(&[10, 0, 0, 0, 192, 0, 2, 1, 224, 0, 0, 1, 192, 0, 2, 1], 3, 0), Err(18));
    assert_eq!(BACK.at(&ROUTE, 10, 0), Ok(vec![33, 8, 10, 0, 0, 0, 192, 0, 2, 1]));
    assert_eq!(BACK.of(&NETWORK_AS_HOST), Err(19));
    assert_eq!(BACK.of(&[2, 255, 192, 0, 2, 1]), Err(19));
    assert_eq!(BACK.of(&[4, 15, 192, 0, 2, 1]), Err(18));
    assert_eq!(BACK.of(&[&DEFAULT_ROUTE[..], &[33]].concat()), Err(18));
    assert_eq!(BACK.of(&[&NETWORK_AS_HOST[..], &[33]].concat()), Err(19));
    assert_eq!((BACK.of(&[8, 0, 1, 2, 3]), BACK.of(&[33, 0])), (Err(10), Err(12)));
    for by in [OUT, BACK] {
        assert_eq!((by.at(&[], 5, 5), by.at(&[], 5, 6)), (Ok(vec![]), Err(4)));
    }
}

#[test]
fn every_width_is_masked() {
    for width in 0..=32 {
        for destination in [u32::MAX, 0x8000_0001, 0x0A0B_0C0D, 0x5555_5555, 0xAAAA_AAAA] {
            let expected = RouteRow { destination: masked(width, destination).into(), ..route(width, [0; 4]) };
            assert_eq!(routes_of(&row(width, destination)), Ok(vec![expected]), "{destination:#X}/{width}");
        }
    }
    for width in 33..=255 {
        assert_eq!(routes_of(&[&[width][..], &[0; 40]].concat()), Err(12), "width {width}");
    }
}

#[test]
fn a_route_that_is_cut_is_refused() {
    let (mut value, mut ends) = (Vec::new(), vec![0]);
    for width in 0..=32 {
        value.extend(row(width, 0xDFFF_FFFF));
        ends.push(value.len());
    }
    for len in 0..=value.len() {
        let whole = ends.binary_search(&len).map_err(|_| 10);
        assert_eq!(routes_of(&value[..len]).map(|all| all.len()), whole, "{len} bytes");
    }
}

#[test]
fn a_row_is_refused_by_2_4_12_and_10() {
    let long = [33; TOO_LONG];
    for place in [0, TOO_LONG, TOO_LONG + 1] {
        assert_eq!(calls::route_from(&long, place), no_route(2, place));
    }
    assert_eq!(calls::route_from(&long[1..], 65_536), no_route(4, 65_536));
    assert_eq!((calls::route_from(&[33], 2), calls::route_from(&[], 1)), (no_route(4, 2), no_route(4, 1)));
    assert_eq!(calls::route_from(&[33], usize::MAX), no_route(4, usize::MAX));
    assert_eq!((calls::route_from(&[33], 0), calls::route_from(&[7, 7, 255], 2)), (no_route(12, 0), no_route(12, 2)));
    for len in 1..9 {
        assert_eq!(calls::route_from(&HOST_ROUTE[..len], 0), no_route(10, 0));
    }
    assert_eq!(calls::route_from(&DEFAULT_ROUTE[..4], 0), no_route(10, 0));
    // What stands before the place and behind the row is not looked at.
    let between = [&[33][..], &HOST_ROUTE, &[33]].concat();
    assert_eq!(shown(calls::route_from(&between, 1)), route(32, [10, 1, 0, 0]));
    assert_eq!(calls::route_from(&between, 1).place, 10);
}

#[test]
fn a_value_is_refused_by_2_12_10_and_4() {
    for filled in [0, 33] {
        assert_eq!(routes_of(&[filled; TOO_LONG]), Err(2));
    }
    // The longest value: 13,107 default routes, of 5 bytes each.
    let longest = DEFAULT_ROUTE.repeat(13_107);
    assert_eq!(calls::count_routes(&longest), RouteCount { refused: 0, count: 13_107 });
    assert_eq!(calls::route_from(&longest, 65_530).place, 65_535);
    assert_eq!(shown(calls::route_at(&longest, 13_106)).width, 0);
    assert_eq!((calls::route_at(&longest, 13_107), longest.len()), (no_route(4, 0), 65_535));
    // The rows decide before the index does, and the first bad row before the others.
    assert_eq!(routes_of(&[&ROUTE[..], &[33], &HOST_ROUTE[..8]].concat()), Err(12));
    assert_eq!(routes_of(&[&ROUTE[..], &HOST_ROUTE[..8]].concat()), Err(10));
}

/// Destinations at each edge of the rule, with the width that it gives them.
const WIDTHS: [(u32, u8); 26] = [
    (0x0000_0001, 32),
    (0x0000_0100, 32),
    (0x0001_0000, 32),
    (0x0100_0000, 8),
    (0x0100_0001, 32),
    (0x0101_0000, 32),
    (0x7F00_0000, 8),
    (0x7F00_0001, 32),
    (0x7F00_0100, 32),
    (0x7F01_0000, 32),
    (0x7FFF_FFFF, 32),
    (0x8000_0000, 16),
    (0x8000_0001, 32),
    (0x8000_0100, 32),
    (0x8001_0000, 16),
    (0x8001_0100, 32),
    (0xBFFF_0000, 16),
    (0xBFFF_0001, 32),
    (0xBFFF_0100, 32),
    (0xC000_0000, 24),
    (0xC000_0001, 32),
    (0xC000_0100, 24),
    (0xC001_0000, 24),
    (0xDFFF_FF00, 24),
    (0xDFFF_FF01, 32),
    (0xDFFF_FFFF, 32),
];

/// Destinations that do not move, at each edge.
const BARRED: [u32; 4] = [0, 0xE000_0000, 0xE000_0001, u32::MAX];

/// The rule's width for a destination whose first octet is not above 223.
fn width_for(destination: u32) -> u8 {
    let width = match destination >> 24 {
        0..=127 => 8,
        128..=191 => 16,
        _ => 24,
    };
    if masked(width, destination) == destination { width } else { 32 }
}

#[test]
fn a_destination_has_the_width_of_its_class() {
    for (destination, width) in WIDTHS {
        assert_eq!(width_for(destination), width, "{destination:#X}");
        assert_eq!(moved_out(&pair(destination)), Ok(row(width, destination)), "{destination:#X}");
        assert_eq!(moved_back(&row(width, destination)), Ok(pair(destination)), "{destination:#X}");
    }
    for destination in BARRED {
        assert_eq!(OUT.of(&pair(destination)), Err(18), "{destination:#X}");
    }
    for first in 0..=255_u32 {
        for rest in [0, 1, 0xFF, 0x100, 0x1_0000, 0xFF_0000, 0xFF_FF00, 0xFF_FFFF] {
            let destination = (first << 24) | rest;
            let barred = destination == 0 || first > 223;
            let expected = if barred { Err(18) } else { Ok(row(width_for(destination), destination)) };
            assert_eq!(moved_out(&pair(destination)), expected, "{destination:#X}");
        }
    }
}

#[test]
fn a_route_moves_back_by_its_masked_destination() {
    let edges = WIDTHS.iter().map(|&(destination, _)| destination).chain(BARRED);
    for (destination, width) in edges.flat_map(|destination| (0..=32).map(move |width| (destination, width))) {
        let to = masked(width, destination);
        let expected = if to == 0 || to >> 24 > 223 {
            Err(18)
        } else if width_for(to) != width {
            Err(19)
        } else {
            Ok(pair(to))
        };
        assert_eq!(moved_back(&row(width, destination)), expected, "{destination:#X}/{width}");
    }
}

#[test]
fn any_gateway_moves() {
    for gateway in [[0; 4], [255; 4], [224, 0, 0, 1], [10, 0, 0, 0]] {
        let (old, new) = ([&[10, 0, 0, 0][..], &gateway].concat(), [&[8, 10][..], &gateway].concat());
        assert_eq!((moved_out(&old), moved_back(&new)), (Ok(new.clone()), Ok(old)));
    }
}

#[test]
fn moving_out_is_refused_by_2_4_10_18_7_and_8() {
    let barred = pair(0);
    let many = HOST_PAIR.repeat(454);
    let odd = [&barred[..], &many, &[1]].concat();
    let long: [(usize, &[u8]); 4] = [(TOO_LONG, &odd), (TOO_LONG, &[]), (10, &[0; TOO_LONG]), (10, &[0; TOO_LONG + 1])];
    for (len, value) in long {
        assert_eq!(OUT.at(value, len, len + 1), Err(2));
        assert_eq!(OUT.at(value, len, 0), Err(2));
    }
    assert_eq!((OUT.at(&odd, 10, 11), OUT.at(&odd, 0, usize::MAX)), (Err(4), Err(4)));
    for len in 0..odd.len() {
        let expected = match len {
            0 => Ok(vec![]),
            _ if len % 8 > 0 => Err(10),
            _ => Err(18),
        };
        assert_eq!(OUT.at(&odd[..len], 10, 10), expected, "{len} bytes");
    }
    for bad in BARRED.map(pair) {
        assert_eq!(OUT.at(&[&bad[..], &many].concat(), 10, 10), Err(18));
        assert_eq!(OUT.at(&[&many[..], &bad].concat(), 10, 10), Err(18));
    }
    assert_eq!(OUT.at(&many, 10, 10), Err(7));
    assert_eq!(OUT.at(&many[8..], 10, 10), Err(8));
}

#[test]
fn moving_back_is_refused_by_2_4_then_by_a_row_then_by_7_and_8() {
    let many = ROUTE.repeat(511);
    let long: [(usize, &[u8]); 3] = [(TOO_LONG, &[33]), (TOO_LONG, &[]), (10, &[33; TOO_LONG])];
    for (len, value) in long {
        assert_eq!(BACK.at(value, len, len + 1), Err(2));
        assert_eq!(BACK.at(value, len, 0), Err(2));
    }
    assert_eq!((BACK.at(&[33], 10, 11), BACK.at(&[33], 0, usize::MAX)), (Err(4), Err(4)));
    // One row each. What comes first is told: the first is wide and cut, a cut one would be barred, and of the barred
    // ones neither has the width of a pair.
    let bad: [(&[u8], u8); 7] = [
        (&[33], 12),
        (&[255, 1, 2, 3, 4, 5, 6, 7, 8], 12),
        (&[8, 0, 1, 2, 3], 10),
        (&[32, 224, 0, 0, 1, 192, 0, 2], 10),
        (&[24, 224, 0, 0, 192, 0, 2, 1], 18),
        (&DEFAULT_ROUTE, 18),
        (&NETWORK_AS_HOST, 19),
    ];
    for (wrong, number) in bad {
        assert_eq!(BACK.at(wrong, 10, 10), Err(number), "{wrong:?}");
        assert_eq!(BACK.at(&[&many[..], wrong].concat(), 10, 10), Err(number), "{wrong:?} comes before 7 and 8");
        // The first bad row decides, whatever is behind it; behind one that is cut there is nothing.
        for (behind, _) in bad.into_iter().filter(|_| number != 10) {
            assert_eq!(BACK.at(&[&ROUTE[..], wrong, behind].concat(), 10, 10), Err(number), "{wrong:?} {behind:?}");
        }
    }
    assert_eq!(BACK.at(&many, 10, 10), Err(7));
    assert_eq!(BACK.at(&many[6..], 10, 10), Err(8));
}

#[test]
fn the_limit_is_of_the_value_made() {
    let takes = |answer: Result<Vec<u8>, u8>| answer.map(|bytes| bytes.len());
    // Of hosts: 453 pairs make 4,077 bytes, in 16 parts.
    assert_eq!(takes(OUT.at(&HOST_PAIR.repeat(453), 4_109, 0)), Ok(4_109));
    assert_eq!((OUT.at(&HOST_PAIR.repeat(453), 4_108, 0), OUT.of(&HOST_PAIR.repeat(454))), (Err(8), Err(7)));
    // Of networks: 680 pairs, 5,440 bytes, make 4,080.
    assert_eq!(takes(OUT.at(&PAIR.repeat(680), 4_112, 0)), Ok(4_112));
    assert_eq!((OUT.at(&PAIR.repeat(680), 4_111, 0), OUT.of(&PAIR.repeat(681))), (Err(8), Err(7)));
    // Back: 510 routes, 3,060 bytes, make 4,080, in 17 parts.
    assert_eq!(takes(BACK.at(&ROUTE.repeat(510), 4_114, 0)), Ok(4_114));
    assert_eq!((BACK.at(&ROUTE.repeat(510), 4_113, 0), BACK.of(&ROUTE.repeat(511))), (Err(8), Err(7)));
    // Rows behind the limit are looked at all the same.
    assert_eq!(BACK.of(&[&ROUTE.repeat(700)[..], &NETWORK_AS_HOST].concat()), Err(19));
    assert_eq!(OUT.of(&[&HOST_PAIR.repeat(700)[..], &pair(0)].concat()), Err(18));
    // The longest values that can be lent.
    assert_eq!((OUT.of(&PAIR.repeat(8_191)), BACK.of(&ROUTE.repeat(10_922))), (Err(7), Err(7)));
}

#[test]
fn a_move_is_written_in_parts() {
    // 29 hosts' routes are 261 bytes: the last one is cut, behind 3 of its bytes.
    let routes = HOST_ROUTE.repeat(29);
    let expected = [&[121, 255][..], &routes[..255], &[121, 6], &routes[255..]].concat();
    assert_eq!(OUT.at(&HOST_PAIR.repeat(29), 270, 3), Ok(expected));
    assert_eq!(OUT.at(&HOST_PAIR.repeat(29), 267, 3), Err(8));
    // Pairs are whole in each part: 31 of them are 248 bytes.
    let expected = [&[33, 248][..], &PAIR.repeat(31), &[33, 8], &PAIR].concat();
    assert_eq!(BACK.at(&ROUTE.repeat(32), 263, 3), Ok(expected));
    assert_eq!(BACK.at(&ROUTE.repeat(32), 262, 3), Err(8));
}

#[test]
fn a_move_fits_exactly_or_not_at_all() {
    let moves: [(Move, &[u8], usize); 4] =
        [(OUT, &PAIR, 8), (OUT, &HOST_PAIR, 11), (BACK, &ROUTE, 10), (BACK, &HOST_ROUTE, 10)];
    for (by, value, takes) in moves {
        for place in [0, 3] {
            assert_eq!(by.at(value, place + takes, place).map(|bytes| bytes.len()), Ok(takes));
            for room in 0..takes {
                assert_eq!(by.at(value, place + room, place), Err(8), "{room} bytes of {takes}");
            }
        }
    }
}

/// A number that looks random.
fn random(state: &mut u64) -> u32 {
    *state = state.wrapping_mul(6364136223846793005).wrapping_add(1442695040888963407);
    (*state >> 32) as u32
}

/// A destination that moves: of any class, often a network.
fn random_destination(state: &mut u64) -> u32 {
    let bits = [8, 16, 24, 32][random(state) as usize % 4];
    let destination = masked(bits, random(state)) % 0xE000_0000;
    if destination == 0 { 0x7F00_0000 } else { destination }
}

#[test]
fn pairs_come_back_the_same() {
    let mut state = 6;
    for count in (0..=510).step_by(3).chain([1, 31, 32, 62, 63]) {
        let one = |state: &mut u64| [random_destination(state).to_be_bytes(), random(state).to_be_bytes()].concat();
        let pairs: Vec<u8> = (0..count).flat_map(|_| one(&mut state)).collect();
        match moved_out(&pairs) {
            Ok(routes) => {
                assert_eq!(routes_of(&routes).map(|all| all.len()), Ok(count));
                assert_eq!(moved_back(&routes), Ok(pairs));
            }
            Err(number) => assert!(number == 7 && count > 453, "{count} pairs are refused by {number}"),
        }
    }
    // Pairs above the limit may move out, and do not come back.
    assert_eq!(moved_out(&PAIR.repeat(511)), Ok(ROUTE.repeat(511)));
    assert_eq!(moved_back(&ROUTE.repeat(511)), Err(7));
}

#[test]
fn routes_come_back_the_same() {
    let mut state = 7;
    for count in (0..=453).step_by(3) {
        let destinations = (0..count).map(|_| random_destination(&mut state));
        let routes: Vec<u8> = destinations.flat_map(|to| row(width_for(to), to)).collect();
        let pairs = moved_back(&routes).expect("each has the width of its class");
        assert_eq!((pairs.len(), moved_out(&pairs)), (8 * count, Ok(routes)));
    }
}

#[test]
fn a_profile_is_moved_within_a_message() {
    let profile = message_with(&[53, 1, 5, 33, 8, 10, 0, 0, 0, 192, 0, 2, 1, 33, 8, 172, 16, 0, 9, 192, 0, 2, 1, 255]);
    let mut join = [0; 64];
    let old = Message::new(&profile).unwrap().find(codes::STATIC_ROUTING_TABLE, &mut join).unwrap().unwrap();
    let mut room = message_with(&[0; 32]);
    let mut writer = Writer::at(&mut room, 240);
    writer.message_type(codes::MESSAGE_TYPE, 5).unwrap();
    writer.move_out(old.data()).unwrap();
    writer.close().unwrap();
    let message = Message::new(writer.written()).unwrap();
    let mut join = [0; 64];
    let new = message.opts(&mut join).nth(1).unwrap().unwrap();
    assert_eq!((new.code(), new.read()), (121, Ok(Value::Raw(new.data()))));
    let routes = Routes::read(new.data()).unwrap();
    assert!(routes.iter().eq([route(8, [10, 0, 0, 0]), route(32, [172, 16, 0, 9])]));
    let mut room = [0; 18];
    let mut writer = Writer::new(&mut room);
    writer.move_back(new.data()).unwrap();
    assert_eq!((&room[..2], &room[2..]), (&[33, 16][..], old.data()));
    let Ok(Value::Pairs(pairs)) = read(33, old.data()) else { panic!("33 is a list of pairs") };
    assert!(pairs.iter().eq(routes.iter().map(|route| (route.destination, route.gateway))));
}

#[test]
fn what_is_written_as_routes_is_read_masked() {
    let gateway = Ipv4Addr::from(GATEWAY);
    let written: Vec<Route> =
        (0..=32).map(|width| Route::new(width, [0xDF, 0xAB, 0xCD, 0xEF].into(), gateway)).collect();
    let mut room = [0; 400];
    let mut writer = Writer::new(&mut room);
    writer.routes(&written).unwrap();
    let (code, value) = walked_value(writer.written());
    let expected = |width| RouteRow { width, destination: masked(width, 0xDFAB_CDEF).into(), gateway };
    assert_eq!((code, routes_of(&value)), (121, Ok((0..=32).map(expected).collect())));
}

#[test]
fn values_are_alike_where_their_routes_are() {
    let values = [&[9, 10, 0xFF, 192, 0, 2, 1][..], &[9, 10, 0x80, 192, 0, 2, 1], &[9, 10, 0x7F, 192, 0, 2, 1]];
    let [sent, zeroed, other] = values.map(|value| Routes::read(value).unwrap());
    assert_eq!(sent, zeroed);
    assert_ne!(sent, other);
    assert_ne!(sent, Routes::read(&[]).unwrap());
}
