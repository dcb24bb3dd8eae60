//! Routes of option 121 read, moved back to option 33, and pairs of option 33 moved out: every width, every first octet, short values,
//! lists that are cut, bad rows at every place, lists around each cut of a part and around the limits, and random ones.

use super::made;
use crate::cases::{Bench, Way};
use crate::paper::{self, MOST_BYTES, MOST_VALUE};
use crate::random::Random;

/// The gateway of what is made here.
const GATEWAY: [u8; 4] = [192, 0, 2, 1];

/// Bytes with which rows begin, are cut, are too wide, are barred and have no old form, and the longest values of them.
const ALPHABET: [u8; 7] = [0, 1, 8, 10, 32, 33, 224];
const LONGEST: usize = 6;

/// Octets at the edges of the classes.
const EDGES: [u8; 9] = [0, 1, 127, 128, 191, 192, 223, 224, 255];

/// Rows that move, one of each width.
const GOOD: [&[u8]; 4] =
    [&[8, 10, 1, 2, 3, 4], &[16, 172, 16, 5, 6, 7, 8], &[24, 192, 0, 2, 9, 9, 9, 9], &[32, 10, 1, 0, 0, 7, 7, 7, 7]];

/// Rows that do not: barred ones, ones without an old form, one that is both, one that is too wide, and one that is cut, or takes its last
/// bytes from the next.
const BAD: [&[u8]; 9] = [
    &[0, 1, 2, 3, 4],
    &[4, 255, 1, 2, 3, 4],
    &[32, 0, 0, 0, 0, 1, 2, 3, 4],
    &[32, 10, 0, 0, 0, 1, 2, 3, 4],
    &[9, 10, 128, 1, 2, 3, 4],
    &[2, 255, 1, 2, 3, 4],
    &[24, 224, 0, 0, 1, 2, 3, 4],
    &[33, 10, 1, 0, 0, 0, 1, 2, 3, 4],
    &[8, 10, 1],
];

/// Pairs of which the first four move, three that are barred, and two that are not whole.
const PAIRS: [&[u8]; 9] = [
    &[10, 0, 0, 0, 1, 2, 3, 4],
    &[172, 16, 0, 0, 5, 6, 7, 8],
    &[192, 0, 2, 0, 9, 9, 9, 9],
    &[10, 1, 0, 0, 7, 7, 7, 7],
    &[0, 0, 0, 0, 1, 2, 3, 4],
    &[224, 0, 0, 0, 1, 2, 3, 4],
    &[255, 255, 255, 255, 1, 2, 3, 4],
    &[10],
    &[0, 0, 0, 0, 1, 2, 3],
];

/// A value of option 121: read, and moved back.
fn routes(bench: &mut Bench, value: &[u8]) {
    bench.read_routes(value);
    bench.move_value(Way::Back, value);
}

/// A value of either option.
fn either(bench: &mut Bench, value: &[u8]) {
    routes(bench, value);
    bench.move_value(Way::Out, value);
}

/// A row of a width, with as many octets of a destination as it says.
fn row(width: u8, destination: [u8; 4]) -> Vec<u8> {
    let octets = usize::from(width).div_ceil(8).min(4);
    [&[width], &destination[..octets], &GATEWAY].concat()
}

/// A pair through the usual gateway.
fn pair(destination: [u8; 4]) -> Vec<u8> {
    [destination, GATEWAY].concat()
}

/// Every width alone, behind a row and between two, with all bits behind it set, none, and some.
fn widths(bench: &mut Bench) {
    for width in 0..=255 {
        for destination in [[255; 4], [0; 4], [10, 0, 0, 0], [129, 210, 177, 132], [0, 0, 0, 1]] {
            let row = row(width, destination);
            routes(bench, &row);
            for good in GOOD {
                routes(bench, &[good, &row].concat());
                routes(bench, &[good, &row, good].concat());
            }
        }
    }
}

/// Every first octet with zeros and with others behind it: the pair, and rows of every width.
fn octets(bench: &mut Bench) {
    for first in 0..=255 {
        for behind in made::strings(&[0, 1], 3).chain([vec![255; 3]]) {
            let destination = [first, behind[0], behind[1], behind[2]];
            bench.move_value(Way::Out, &pair(destination));
            bench.move_value(Way::Out, &[PAIRS[0], &pair(destination)].concat());
            (0..=33).for_each(|width| routes(bench, &row(width, destination)));
        }
    }
}

/// Every destination out of the edges of the classes.
fn edges(bench: &mut Bench) {
    for octets in made::strings(&EDGES, 4) {
        let destination = [octets[0], octets[1], octets[2], octets[3]];
        bench.move_value(Way::Out, &pair(destination));
        [8, 16, 24, 32].iter().for_each(|&width| routes(bench, &row(width, destination)));
    }
}

/// Short values.
fn short(bench: &mut Bench) {
    for value in (0..=LONGEST).flat_map(|len| made::strings(&ALPHABET, len)) {
        either(bench, &value);
    }
}

/// Every list of up to so many of these rows.
fn lists(rows: &[&[u8]], most: usize) -> Vec<Vec<u8>> {
    let mut all: Vec<Vec<u8>> = vec![vec![]];
    let mut longest = all.clone();
    for _ in 0..most {
        longest = longest.iter().flat_map(|list| rows.iter().map(move |row| [list, *row].concat())).collect();
        all.extend_from_slice(&longest);
    }
    all
}

/// Good and bad rows in every order: the first bad one decides.
fn orders(bench: &mut Bench) {
    lists(&[&GOOD[..], &BAD].concat(), 3).iter().for_each(|list| routes(bench, list));
    lists(&PAIRS, 4).iter().for_each(|list| bench.move_value(Way::Out, list));
}

/// Good lists, cut at every length: of all widths, and of those that move.
fn cuts(bench: &mut Bench) {
    let all: Vec<u8> = (0..=32).flat_map(|width| row(width, [255; 4])).collect();
    let pairs = PAIRS[..4].concat().repeat(3);
    for list in [all, GOOD.concat().repeat(3), pairs] {
        (0..=list.len()).for_each(|len| either(bench, &list[..len]));
    }
}

/// Lists of each width around each cut of a part and around the limits, with nothing, a good row or a bad one behind them.
fn lengths(bench: &mut Bench) {
    for (route, pair) in GOOD.iter().zip(PAIRS) {
        let around = |bytes: usize, len: usize| (len / bytes).saturating_sub(1)..=len / bytes + 2;
        for len in [255, 510, 765, MOST_VALUE] {
            for count in around(route.len(), len) {
                for behind in [&[], PAIRS[3], PAIRS[4]] {
                    bench.move_value(Way::Out, &[&pair.repeat(count), behind].concat());
                }
            }
        }
        for len in [248, 496, 744, MOST_VALUE] {
            for count in around(pair.len(), len) {
                for behind in [&[], GOOD[3]].iter().chain(&BAD) {
                    routes(bench, &[&route.repeat(count), *behind].concat());
                }
            }
        }
    }
    let mixed = |rows: &[&[u8]], count: usize| rows.iter().cycle().take(count).copied().collect::<Vec<_>>().concat();
    for count in (0..70).chain(505..515).chain(540..550) {
        bench.move_value(Way::Out, &mixed(&PAIRS[..4], count));
        routes(bench, &mixed(&GOOD, count));
    }
}

/// Values and rooms around 65,535 bytes, with places at the ends, and every other refusal.
fn limits(bench: &mut Bench) {
    for len in [MOST_BYTES - 7, MOST_BYTES - 1, MOST_BYTES, MOST_BYTES + 1, MOST_BYTES + 9] {
        for row in [GOOD[0], GOOD[3], PAIRS[0], PAIRS[4], &[0], &[33], &[255]] {
            either(bench, &row.repeat(len / row.len() + 1)[..len]);
        }
    }
    let (good, long) = (GOOD[0], GOOD[0].repeat(511));
    let (pair, long_pairs) = (PAIRS[0], PAIRS[0].repeat(681));
    for room in [MOST_BYTES - 1, MOST_BYTES, MOST_BYTES + 1] {
        for place in [0, room - 10, room - 9, room - 8, room - 7, room - 1, room, room + 1, usize::MAX] {
            for value in [good, pair, &[], &[0], &[33], BAD[3], PAIRS[4], &long, &long_pairs] {
                bench.move_into(Way::Out, value, (room, place));
                bench.move_into(Way::Back, value, (room, place));
            }
        }
    }
}

/// Every room and place for a short list.
fn rooms(bench: &mut Bench) {
    let (two_routes, two_pairs) = (GOOD[..2].concat(), PAIRS[..2].concat());
    for room in 0..=24 {
        for place in 0..=room + 1 {
            bench.move_into(Way::Back, &two_routes, (room, place));
            bench.move_into(Way::Out, &two_pairs, (room, place));
        }
    }
}

/// All of them.
pub fn sweep(bench: &mut Bench) {
    widths(bench);
    octets(bench);
    edges(bench);
    short(bench);
    orders(bench);
    cuts(bench);
    lengths(bench);
    limits(bench);
    rooms(bench);
}

/// How many rows: mostly a few, now and then around the most.
fn count(random: &mut Random) -> usize {
    match random.below(30) {
        0 => 440 + random.below(260),
        1..=3 => random.below(80),
        _ => random.below(8),
    }
}

/// A destination that moves, of a class's network as often as not; once in so many times any.
fn destination(random: &mut Random, loose: usize) -> [u8; 4] {
    let mut octets = (random.bits() as u32).to_be_bytes();
    if random.once_in(loose) {
        return octets;
    }
    octets[0] = 1 + random.below(223) as u8;
    if random.once_in(2) {
        let network = paper::width_for([octets[0], 0, 0, 0]) / 8;
        octets[usize::from(network)..].fill(0);
    }
    octets
}

/// A row of the width that its destination has by the rule; once in so many times of any up to 32, and now and then of any at all.
fn random_row(random: &mut Random, loose: usize) -> Vec<u8> {
    let destination = destination(random, loose);
    let width = match random.below(4 * loose) {
        0 => random.byte(),
        1..4 => random.below(33) as u8,
        _ => paper::width_for(destination),
    };
    let mut row = row(width, destination);
    let gateway = row.len() - GATEWAY.len();
    row[gateway..].fill_with(|| random.byte());
    row
}

/// A pair.
fn random_pair(random: &mut Random, loose: usize) -> Vec<u8> {
    [destination(random, loose), (random.bits() as u32).to_be_bytes()].concat()
}

/// A value, now and then with another byte or cut.
fn damaged(random: &mut Random, mut value: Vec<u8>) -> Vec<u8> {
    if !value.is_empty() && random.once_in(4) {
        let at = random.below(value.len());
        value[at] = random.byte();
    }
    if random.once_in(6) {
        value.truncate(random.below(value.len() + 1));
    }
    value
}

/// A random list of routes, and one of pairs.
fn drawn(random: &mut Random) -> (Vec<u8>, Vec<u8>) {
    let loose = random.one_of(&[2, 20, 5_000]);
    let rows = (0..count(random)).flat_map(|_| random_row(random, loose)).collect();
    let pairs = (0..count(random)).flat_map(|_| random_pair(random, loose)).collect();
    (damaged(random, rows), damaged(random, pairs))
}

/// Random lists: read, moved there and back, and moved into a random room.
pub fn one(random: &mut Random, bench: &mut Bench) {
    let (rows, pairs) = drawn(random);
    routes(bench, &rows);
    bench.move_value(Way::Out, &pairs);
    let room = random.below(rows.len() + pairs.len() + 40);
    let place = random.below(room + 2);
    bench.move_into(Way::Back, &rows, (room, place));
    bench.move_into(Way::Out, &pairs, (room, place));
}

#[cfg(test)]
mod tests {
    use super::*;
    use std::collections::{BTreeSet, HashSet};

    #[test]
    fn every_list_is_another() {
        let all = lists(&PAIRS, 3);
        let different: HashSet<&Vec<u8>> = all.iter().collect();
        assert_eq!((all.len(), different.len()), (1 + 9 + 81 + 729, all.len()));
    }

    #[test]
    fn random_lists_meet_every_refusal_of_their_rows_and_none() {
        let (mut random, mut room) = (Random::new(1), [0; 5_000]);
        let (mut back, mut out) = (BTreeSet::new(), BTreeSet::new());
        for _ in 0..2_000 {
            let (rows, pairs) = drawn(&mut random);
            back.insert(paper::move_back(&mut room, 0, &rows).refused);
            out.insert(paper::move_out(&mut room, 0, &pairs).refused);
        }
        assert_eq!(back, [0, 7, 10, 12, 18, 19].into());
        assert_eq!(out, [0, 7, 10, 18].into());
    }
}
