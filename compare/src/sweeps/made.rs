//! Bytes and messages that the sweeps are made of.

use crate::paper::{FILE, FILE_END, SNAME};

/// A header that counts, with the magic.
pub fn header() -> Vec<u8> {
    let mut header: Vec<u8> = (0..240).map(|at: usize| (at * 7 + 1) as u8).collect();
    header[2] = 6;
    header[236..].copy_from_slice(&[99, 130, 83, 99]);
    header
}

/// A message with these options and these fronts of file and sname; else these fields are zero.
pub fn message(options: &[u8], file: &[u8], sname: &[u8]) -> Vec<u8> {
    let mut message = header();
    message[SNAME..FILE_END].fill(0);
    message[FILE..FILE + file.len()].copy_from_slice(file);
    message[SNAME..SNAME + sname.len()].copy_from_slice(sname);
    message.extend_from_slice(options);
    message
}

/// Every string of so many of these bytes.
pub fn strings(bytes: &'static [u8], len: usize) -> impl Iterator<Item = Vec<u8>> {
    let count = bytes.len();
    (0..count.pow(len as u32)).map(move |number| {
        let byte = |at: u32| bytes[number / count.pow(at) % count];
        (0..len as u32).map(byte).collect()
    })
}

/// Contents of a length: zeros, ones, twos, all bits, numbers that count, and letters.
pub fn contents(len: usize) -> [Vec<u8>; 6] {
    let filled = |byte: u8| vec![byte; len];
    let counting = (0..len).map(|at| (at * 37 + 3) as u8).collect();
    let letters = (0..len).map(|at| b'a' + (at % 26) as u8).collect();
    [filled(0), filled(1), filled(2), filled(255), counting, letters]
}

/// So many numbers that differ in every byte.
pub fn numbers(count: usize) -> Vec<u32> {
    (0..count as u32).map(|at| at.wrapping_mul(0x9E37_79B9).wrapping_add(0xFE01_8203)).collect()
}

/// The lengths that are tried for every code: short ones, and those around a part's most bytes.
pub fn lengths() -> impl Iterator<Item = usize> {
    (0..=20).chain(252..=256)
}
