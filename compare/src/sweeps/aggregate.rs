//! RFC 3396's reading: short options with short fronts of file and sname, every shape of option 52, cuts at every place, all codes, the
//! limit of 65,535 bytes, and random messages whose options stand in several fields.

use super::made;
use crate::cases::Bench;
use crate::paper::{AREA, FILE, FILE_END, MOST_BYTES, SNAME};
use crate::random::Random;

/// Pad, lengths that are also codes and what option 52 can say, a text's code, option 52, End.
const ALPHABET: [u8; 7] = [0, 1, 2, 3, 12, 52, 255];

/// The longest options, fronts and ends of fields, and pairs of fronts that are gone over whole.
const LONGEST: usize = 5;
const LONGEST_FRONT: usize = 4;
const LONGEST_END: usize = 3;
const LONGEST_PAIR: usize = 2;

/// Fronts of fields where others are gone over: a part that joins, with and without an End behind it.
const FILE_FRONT: [u8; 4] = [12, 1, 66, 255];
const SNAME_FRONT: [u8; 4] = [0, 12, 1, 67];

/// How many bytes the fields have.
const FILE_LEN: usize = FILE_END - FILE;
const SNAME_LEN: usize = FILE - SNAME;

/// Every string up to a length.
fn strings(longest: usize) -> impl Iterator<Item = Vec<u8>> {
    (0..=longest).flat_map(|len| made::strings(&ALPHABET, len))
}

/// A field of so many bytes that ends with these.
fn at_the_end(len: usize, end: &[u8]) -> Vec<u8> {
    [vec![0; len - end.len()], end.to_vec()].concat()
}

/// Short options; then short fronts and short ends of the fields, and short pairs of them, for each number of option 52 and without it.
fn short(bench: &mut Bench) {
    for options in strings(LONGEST) {
        bench.aggregate(&made::message(&options, &FILE_FRONT, &SNAME_FRONT));
    }
    for named in [&[][..], &[52, 1, 1], &[52, 1, 2], &[52, 1, 3]] {
        let options = [&[12, 1, 65], named].concat();
        for front in strings(LONGEST_FRONT) {
            bench.aggregate(&made::message(&options, &front, &SNAME_FRONT));
            bench.aggregate(&made::message(&options, &FILE_FRONT, &front));
        }
        for end in strings(LONGEST_END) {
            bench.aggregate(&made::message(&options, &at_the_end(FILE_LEN, &end), &SNAME_FRONT));
            bench.aggregate(&made::message(&options, &FILE_FRONT, &at_the_end(SNAME_LEN, &end)));
        }
        for file in strings(LONGEST_PAIR) {
            for sname in strings(LONGEST_PAIR) {
                bench.aggregate(&made::message(&options, &file, &sname));
            }
        }
    }
}

/// Options 52, clear and unclear, whole and cut, and what can stand between them.
const PIECES: [&[u8]; 13] = [
    &[52, 1, 1],
    &[52, 1, 2],
    &[52, 1, 3],
    &[52, 1, 0],
    &[52, 1, 4],
    &[52, 1, 255],
    &[52, 0],
    &[52, 2, 1, 1],
    &[52, 9],
    &[52],
    &[12, 1, 65],
    &[0],
    &[255],
];

/// Option 52 in every shape, up to three times; with fields that are whole, and with one that is cut.
fn overloads(bench: &mut Bench) {
    for number in 0..PIECES.len().pow(3) {
        let options = [0, 1, 2].map(|at| PIECES[number / PIECES.len().pow(at) % PIECES.len()]).concat();
        bench.aggregate(&made::message(&options, &FILE_FRONT, &SNAME_FRONT));
        bench.aggregate(&made::message(&options, &[12, 200], &[12, 62]));
    }
}

/// Fields of so many bytes with an option at a place that leaves one byte behind it, or none, or lacks one.
fn parted(len: usize, at: usize) -> impl Iterator<Item = Vec<u8>> {
    let whole = len - at - 2;
    [whole.checked_sub(1), Some(whole), Some(whole + 1)].into_iter().flatten().map(move |value| {
        let mut field = vec![0; at];
        field.extend([12, value as u8]);
        field.resize(len, 7);
        field
    })
}

/// A message with options in all fields that ends at each place, and options in file and sname that end before, at and behind the last byte.
fn cuts(bench: &mut Bench) {
    let options = [12, 2, 65, 66, 52, 1, 3, 1, 0, 12, 1, 67, 0, 12, 3, 1, 2, 3, 255, 12, 1, 9];
    let message = made::message(&options, &FILE_FRONT, &SNAME_FRONT);
    for len in 0..=message.len() {
        bench.aggregate(&message[..len]);
    }
    for number in 0..=4 {
        let options = [52, 1, number, 12, 1, 65];
        for file in (0..FILE_LEN - 1).flat_map(|at| parted(FILE_LEN, at)) {
            bench.aggregate(&made::message(&options, &file, &SNAME_FRONT));
        }
        for sname in (0..SNAME_LEN - 1).flat_map(|at| parted(SNAME_LEN, at)) {
            bench.aggregate(&made::message(&options, &FILE_FRONT, &sname));
        }
    }
}

/// Every code with one part, with two that are no neighbours, and with one more in a field; option 52 says so, or says nothing that is clear.
fn codes(bench: &mut Bench) {
    let part = |code: u8| [vec![code, code % 5], vec![code; usize::from(code % 5)]].concat();
    let others =
        |codes: &mut dyn Iterator<Item = u8>| codes.filter(|&code| code != 52).flat_map(part).collect::<Vec<_>>();
    let (up, down) = (others(&mut (1..=254)), others(&mut (1..=254).rev()));
    let file = others(&mut (200..=230));
    for number in 0..=4 {
        for behind in [&[][..], &down, &[255]] {
            bench.whole_aggregate(&made::message(&[&up, &[52, 1, number][..], behind].concat(), &file, &file[..20]));
        }
    }
    bench.whole_aggregate(&made::message(&[52, 1, 3], &file, &up[..40]));
}

/// The longest message and one that is too long: full of empty parts of one code, of empty parts of all codes in turn, and of long parts.
fn limits(bench: &mut Bench) {
    let long = |code: u8| [vec![code, 255], vec![code; 255]].concat();
    let units: [Vec<u8>; 3] =
        [vec![12, 0], (1..=254).filter(|&code| code != 52).flat_map(|code| [code, 0]).collect(), long(43)];
    for unit in units {
        for len in [MOST_BYTES, MOST_BYTES + 1] {
            for front in [&[][..], &[52, 1, 3]] {
                let mut options = front.to_vec();
                while AREA + options.len() + unit.len() <= len {
                    options.extend_from_slice(&unit);
                }
                options.resize(len - AREA, 0);
                bench.aggregate(&made::message(&options, &FILE_FRONT, &SNAME_FRONT));
            }
        }
    }
}

/// All of them.
pub fn sweep(bench: &mut Bench) {
    short(bench);
    overloads(bench);
    cuts(bench);
    codes(bench);
    limits(bench);
}

/// Adds a part: mostly of a few codes, so that these have several parts, and mostly short.
fn add_part(random: &mut Random, field: &mut Vec<u8>) {
    let code = if random.once_in(4) { random.byte() } else { random.one_of(&[1, 12, 43, 67, 254]) };
    let len = if random.once_in(12) { random.below(256) } else { random.below(9) };
    field.extend([code, len as u8]);
    field.extend((0..len).map(|_| random.byte()));
}

/// Adds parts and Pads, and mostly an End at last.
fn add_parts(random: &mut Random, field: &mut Vec<u8>, most: usize) {
    for _ in 0..random.below(most) {
        add_part(random, field);
        field.resize(field.len() + random.below(3) / 2, 0);
    }
    if !random.once_in(3) {
        field.push(255);
    }
}

/// Adds an option 52: mostly a clear one.
fn add_overload(random: &mut Random, field: &mut Vec<u8>) {
    match random.below(12) {
        0 => (),
        1 => field.extend([52, 1, random.byte()]),
        2 => field.extend([52, 0]),
        3 => field.extend([52, 2, random.byte(), random.byte()]),
        _ => field.extend([52, 1, 1 + random.below(3) as u8]),
    }
}

/// A field of so many bytes: what does not fit is cut off, and mostly parts are few enough.
fn field(random: &mut Random, len: usize) -> Vec<u8> {
    let mut field = Vec::new();
    let most = if random.once_in(4) { 16 } else { 4 };
    if random.once_in(8) {
        add_overload(random, &mut field);
    }
    add_parts(random, &mut field, most);
    field.resize(len, 0);
    field
}

/// A random message whose options stand in several fields, cut now and then, and now and then with another magic.
pub fn one(random: &mut Random, bench: &mut Bench) {
    let mut options = Vec::new();
    for _ in 0..random.below(5) {
        add_part(random, &mut options);
    }
    add_overload(random, &mut options);
    add_parts(random, &mut options, 8);
    if random.once_in(10) {
        add_overload(random, &mut options);
    }
    if random.once_in(5) {
        options.truncate(random.below(options.len() + 1));
    }
    let (file, sname) = (field(random, FILE_LEN), field(random, SNAME_LEN));
    let mut message = made::message(&options, &file, &sname);
    if random.once_in(40) {
        message[FILE_END + random.below(4)] = random.byte();
    }
    if random.once_in(100) { bench.whole_aggregate(&message) } else { bench.aggregate(&message) }
}
