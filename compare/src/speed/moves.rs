//! Profiles of routes: option 121 read, and the moves from option 33 to it and back, beside writing the same bytes as values.

use super::case::{Case, Side, Sink, Unit};
#[cfg(limit)]
use super::limit;
use super::stream::placed;
use super::writing::PAGE;
use crate::paper;
use dhcproto::v4::DhcpOption;
use dhcproto::v4::borrowed::DhcpOptionIterator;
use sindovaleph::calls::{self, Written};
use std::hint::black_box;

/// The two options.
const PAIRS_CODE: u8 = 33;
const ROUTES_CODE: u8 = 121;

/// How many pairs a profile has; and where it shows how the cost grows, a tenth of the most, and the most.
const COUNT: usize = 450;
const FEW: usize = 51;
const MOST: usize = 510;

/// The bytes of a room.
const ROOM: usize = 5_000;

/// The most that a byte of the longest profile may cost, against a byte of the one of a tenth.
const MOST_GROWTH: f64 = 1.2;

/// The cases that the longest profiles are held against.
const FEW_READ: &str = "51 routes, 357 bytes, read";
const FEW_OUT: &str = "51 pairs, 408 bytes, moved out";
const FEW_BACK: &str = "51 pairs, 408 bytes, moved back";

/// Pairs, and the same as routes. They are lent for as long as the program runs.
#[derive(Clone, Copy)]
struct Profile {
    pairs: &'static [u8],
    routes: &'static [u8],
}

impl Profile {
    /// So many pairs whose destinations are these, by their numbers.
    fn new(count: usize, destination: fn(usize) -> [u8; 4]) -> Profile {
        let (mut pairs, mut routes) = (Vec::new(), Vec::new());
        for at in 0..count {
            let (destination, gateway) = (destination(at), [192, 0, 2, at as u8]);
            let width = paper::width_for(destination);
            pairs.extend([destination, gateway].concat());
            routes.extend([&[width], &destination[..usize::from(width / 8)], &gateway].concat());
        }
        Profile { pairs: placed(&pairs, 0), routes: placed(&routes, 0) }
    }

    /// Networks of the three classes in turn.
    fn of_networks(count: usize) -> Profile {
        Profile::new(count, |at| match at % 3 {
            0 => [10 + (at % 100) as u8, 0, 0, 0],
            1 => [172, at as u8, 0, 0],
            _ => [192, 168, at as u8, 0],
        })
    }

    /// Hosts.
    fn of_hosts(count: usize) -> Profile {
        Profile::new(count, |at| [10, 1, at as u8, 1])
    }
}

/// Option 121 joined, its routes counted, and each of them read.
struct Read {
    area: Vec<u8>,
    join: Vec<u8>,
}

impl Side for Read {
    fn run(&mut self, sink: &mut impl Sink) {
        let step = calls::step(black_box(&self.area), 0, &mut self.join);
        let value = &self.join[..step.len];
        sink.number(calls::count_routes(value).count as u64);
        let mut route = calls::route_from(value, 0);
        while route.found {
            sink.number(route.width);
            sink.number(route.destination);
            sink.number(route.gateway);
            route = calls::route_from(value, route.place);
        }
    }
}

/// The crate's walk and its type, which allocate.
struct CrateRead(Vec<u8>);

impl Side for CrateRead {
    fn run(&mut self, sink: &mut impl Sink) {
        let option = DhcpOptionIterator::new(black_box(&self.0)).next().map(|option| option.into_option());
        let Some(Ok(DhcpOption::ClasslessStaticRoute(routes))) = option else { return };
        sink.number(routes.len() as u64);
        for (destination, gateway) in routes {
            sink.number(destination.prefix_len());
            sink.number(u32::from(destination.addr()));
            sink.number(u32::from(gateway));
        }
    }
}

/// What writes a value at a place of a room.
type Write = fn(&mut [u8], usize, &[u8]) -> Written;

/// Values, each by what writes it at the begin of the room.
struct Writes {
    writes: Vec<(Write, &'static [u8])>,
    room: &'static mut [u8],
}

impl Side for Writes {
    fn run(&mut self, sink: &mut impl Sink) {
        for &(write, value) in black_box(&self.writes) {
            let Written { refused: 0, place } = write(self.room, 0, value) else { return };
            sink.looked(place as u64);
            sink.told(|| value_in(&self.room[..place]));
        }
    }
}

/// The option that was written, in words: parts may be cut elsewhere.
fn value_in(area: &[u8]) -> String {
    let mut join = vec![0; area.len()];
    let step = calls::step(area, 0, &mut join);
    let value = if step.parts == 1 { &area[step.place - step.len..step.place] } else { &join[..step.len] };
    format!("{}: {value:?}", step.code)
}

/// The same bytes as values.
fn write_pairs(room: &mut [u8], place: usize, value: &[u8]) -> Written {
    calls::write_bytes(room, place, PAIRS_CODE, value)
}

fn write_routes(room: &mut [u8], place: usize, value: &[u8]) -> Written {
    calls::write_bytes(room, place, ROUTES_CODE, value)
}

/// Writes into a room of their own.
fn writes(writes: &[(Write, &'static [u8])]) -> Writes {
    Writes { writes: writes.to_vec(), room: placed(&[0; ROOM], PAGE / 2) }
}

fn read(name: &str, profile: Profile) -> Case {
    let area = paper::typed_bytes(0, ROUTES_CODE, profile.routes);
    let ours = Read { area: area.clone(), join: vec![0; area.len()] };
    Case::new(name, profile.routes.len(), ours, CrateRead(area))
}

fn out(name: &str, Profile { pairs, routes }: Profile) -> Case {
    let (ours, plain) = (writes(&[(calls::move_out, pairs)]), writes(&[(write_routes, routes)]));
    let case = Case::new(name, pairs.len(), ours, plain);
    #[cfg(limit)]
    let case = case.limited_by(writes(&[(limit::move_out, pairs)]));
    case
}

fn back(name: &str, Profile { pairs, routes }: Profile) -> Case {
    let (ours, plain) = (writes(&[(calls::move_back, routes)]), writes(&[(write_pairs, pairs)]));
    let case = Case::new(name, pairs.len(), ours, plain);
    #[cfg(limit)]
    let case = case.limited_by(writes(&[(limit::move_back, routes)]));
    case
}

fn out_and_back(name: &str, Profile { pairs, routes }: Profile) -> Case {
    let ours = writes(&[(calls::move_out, pairs), (calls::move_back, routes)]);
    let plain = writes(&[(write_routes, routes), (write_pairs, pairs)]);
    let case = Case::new(name, 2 * pairs.len(), ours, plain);
    #[cfg(limit)]
    let case = case.limited_by(writes(&[(limit::move_out, pairs), (limit::move_back, routes)]));
    case
}

/// Profiles of networks, and of hosts.
pub fn cases() -> Vec<Case> {
    let (networks, hosts) = (Profile::of_networks(COUNT), Profile::of_hosts(COUNT));
    vec![
        read("read 450 routes", networks),
        read("read 450 routes to hosts", hosts),
        out("move 450 pairs out", networks),
        out("move 450 pairs of hosts out", hosts),
        back("move 450 pairs back", networks),
        back("move 450 pairs of hosts back", hosts),
        out_and_back("move 450 pairs out and back", networks),
        out_and_back("move 450 pairs of hosts out and back", hosts),
    ]
}

/// How the cost grows: a profile of a tenth, and the longest that goes both ways.
pub fn growth() -> Vec<Case> {
    let (few, most) = (Profile::of_networks(FEW), Profile::of_networks(MOST));
    let grown = |base: &'static str, few: Case, most: Case| {
        let most = most.aims_at(MOST_GROWTH).counts_at_most(MOST_GROWTH);
        [few, most].map(|case| case.grown_from(base, Unit::Byte))
    };
    let all = [
        grown(FEW_READ, read(FEW_READ, few), read("510 routes, 3570 bytes, read", most)),
        grown(FEW_OUT, out(FEW_OUT, few), out("510 pairs, 4080 bytes, moved out", most)),
        grown(FEW_BACK, back(FEW_BACK, few), back("510 pairs, 4080 bytes, moved back", most)),
    ];
    all.into_iter().flatten().collect()
}

#[cfg(test)]
mod tests {
    use super::*;

    #[test]
    fn profiles_are_within_the_limits() {
        let lengths = |profile: Profile| (profile.pairs.len(), profile.routes.len());
        assert_eq!(lengths(Profile::of_networks(COUNT)), (3_600, 3_150));
        assert_eq!(lengths(Profile::of_hosts(COUNT)), (3_600, 4_050));
        assert_eq!(lengths(Profile::of_networks(FEW)), (408, 357));
        assert_eq!(lengths(Profile::of_networks(MOST)), (4_080, 3_570));
    }
}
