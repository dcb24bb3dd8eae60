//! Headers of every length, every hlen, wrong magics, and names with a zero byte at every place.

use super::made;
use crate::cases::Bench;

fn every_length(bench: &mut Bench) {
    for len in 0..=300 {
        for mut message in made::contents(len) {
            bench.message(&message, &[]);
            if len >= 240 {
                message[236..240].copy_from_slice(&[99, 130, 83, 99]);
                bench.message(&message, &[0, len - 240]);
            }
        }
    }
}

/// Every hlen with every length from two bytes too short to well behind the longest address.
fn every_hlen(bench: &mut Bench) {
    for len in 238..=300 {
        for hlen in 0..=255 {
            let mut message = made::header();
            message.resize(len, 0);
            message[2] = hlen;
            bench.message(&message, &[]);
        }
    }
}

fn wrong_magics(bench: &mut Bench) {
    for at in 236..240 {
        for byte in 0..=255 {
            let mut message = made::header();
            message.extend([53, 1, 5, 255]);
            message[at] = byte;
            bench.message(&message, &[]);
        }
    }
}

/// No zero byte in both names, or one at each place, or two.
fn zero_bytes(bench: &mut Bench) {
    for at in 28..240 {
        let mut message = made::header();
        message[28..236].fill(b'n');
        bench.header(&message);
        message[at] = 0;
        bench.header(&message);
        message[at / 2 + 60] = 0;
        bench.header(&message);
    }
}

/// Every byte of the header at its ends.
fn every_field(bench: &mut Bench) {
    for at in 0..28 {
        for byte in 0..=255 {
            let mut message = made::header();
            message[at] = byte;
            bench.header(&message);
        }
    }
}

/// All of them.
pub fn sweep(bench: &mut Bench) {
    every_length(bench);
    every_hlen(bench);
    wrong_magics(bench);
    zero_bytes(bench);
    every_field(bench);
}
