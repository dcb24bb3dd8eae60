//! Random messages: composed of plausible options, then damaged.

use super::{aggregate, made, moves, streams, written};
use crate::cases::Bench;
use crate::paper::{MOST_BYTES, element_size, kind_of};
use crate::random::Random;

/// One message in so many is large.
const LARGE_ONCE_IN: usize = 100;

/// With one message in so many comes a stream.
const STREAM_ONCE_IN: u64 = 20;

/// With one message in so many come lists that are moved.
const MOVES_ONCE_IN: u64 = 4;

/// Texts of every width of character.
const TEXTS: [&str; 5] = ["host-17", "boot.example.net", "café", "€uro", "mail😀"];

/// A plausible length of a value: the one of its kind, or any.
fn value_length(random: &mut Random, kind: u8, large: bool) -> usize {
    let size = element_size(kind);
    match random.below(20) {
        0..=13 if matches!(kind, 2 | 3 | 7) => size * (1 + random.below(4)),
        0..=13 if matches!(kind, 0 | 11) => random.below(24),
        0..=13 => size,
        14..=16 => random.below(12),
        17 => random.below(300),
        18 if large => random.below(6_000),
        _ => size * random.below(130),
    }
}

/// A value for a code.
fn value(random: &mut Random, code: u8, large: bool) -> Vec<u8> {
    let kind = kind_of(code);
    if kind == 10 && !random.once_in(4) {
        return random.one_of(&TEXTS).repeat(1 + random.below(3)).into_bytes();
    }
    let len = value_length(random, kind, large);
    let small = random.once_in(2);
    (0..len).map(|_| if small { random.below(3) as u8 } else { random.byte() }).collect()
}

/// Puts a value in parts: of 255, or cut anywhere, with empty parts now and then.
fn put_parts(random: &mut Random, message: &mut Vec<u8>, code: u8, value: &[u8]) {
    let anywhere = random.once_in(4);
    let mut rest = value;
    loop {
        let most = rest.len().min(255);
        let len = if anywhere { random.below(most + 1) } else { most };
        message.extend([code, len as u8]);
        message.extend_from_slice(&rest[..len]);
        rest = &rest[len..];
        if rest.is_empty() && !(anywhere && random.once_in(3)) {
            return;
        }
    }
}

/// A header whose fields are random, with plausible lengths and names.
fn compose_header(random: &mut Random, message: &mut Vec<u8>) {
    *message = made::header();
    for byte in &mut message[..28] {
        *byte = random.byte();
    }
    message[0] = 1 + random.below(2) as u8;
    message[1] = 1;
    message[2] = if random.once_in(12) { random.byte() } else { 6 };
    let names = &mut message[44..236];
    names.fill(if random.once_in(3) { b'n' } else { 0 });
    for _ in 0..random.below(3) {
        names[random.below(192)] = 0;
    }
}

/// A message of about so many bytes.
fn compose(random: &mut Random, message: &mut Vec<u8>) {
    compose_header(random, message);
    let large = random.once_in(LARGE_ONCE_IN);
    let length = 240 + if large { random.below(MOST_BYTES) } else { random.below(260) };
    while message.len() < length {
        let code = if random.once_in(6) { random.byte() } else { 1 + random.below(160) as u8 };
        let value = value(random, code, large);
        put_parts(random, message, code, &value);
        if random.once_in(5) {
            message.resize(message.len() + 1 + random.below(4), 0);
        }
    }
    if !random.once_in(5) {
        message.push(255);
        message.resize(message.len() + random.below(2) * random.below(60), 0);
    }
    message.truncate(MOST_BYTES);
}

/// Changes bytes, lengths, hlen, or the message's end.
fn damage(random: &mut Random, message: &mut Vec<u8>) {
    match random.below(6) {
        0 => {
            for _ in 0..1 + random.below(8) {
                let at = random.below(message.len());
                message[at] ^= 1 << random.below(8);
            }
        }
        1 => message.truncate(240 + random.below(message.len() - 239)),
        2 => message.truncate(random.below(message.len() + 1)),
        3 => message[2] = random.byte(),
        4 => {
            for _ in 0..1 + random.below(3) {
                let at = 240.min(message.len() - 1);
                let at = at + random.below(message.len() - at);
                message[at] = random.one_of(&[0, 1, 2, 4, 12, 250, 254, 255]);
            }
        }
        _ => {
            let at = 236 + random.below(4);
            message[at] = random.byte();
        }
    }
}

/// So many random messages, half of them damaged, and with each a random write of one option and of rows of them; with every second also
/// a message whose options stand in several fields, with every fourth lists of routes and of pairs, and with every twentieth a stream.
pub fn random(bench: &mut Bench, count: u64, seed: u64) {
    let mut random = Random::new(seed);
    let mut random_rows = Random::new(!seed);
    let mut random_fields = Random::new(seed.rotate_left(32) ^ 3396);
    let mut random_moves = Random::new(seed.rotate_left(32) ^ 3442);
    let mut random_streams = Random::new(seed.rotate_left(32) ^ 6926);
    let mut message = Vec::new();
    for number in 0..count {
        if number % 1_000 == 0 {
            bench.progress.begin(&format!("random messages, {number} of {count} done"));
        }
        bench.findings.random = Some(number);
        compose(&mut random, &mut message);
        if random.once_in(2) {
            damage(&mut random, &mut message);
        }
        let places = [random.below(message.len() + 2), random.below(80), random.below(12)];
        bench.message(&message, &places);
        if number % 2 == 0 {
            aggregate::one(&mut random_fields, bench);
        }
        if number % MOVES_ONCE_IN == 0 {
            moves::one(&mut random_moves, bench);
        }
        if number % STREAM_ONCE_IN == 0 {
            streams::one(&mut random_streams, bench);
        }
        written::one(&mut random, bench);
        written::rows(&mut random_rows, bench);
    }
}
