//! Every short area over a small alphabet, from every place, and listed.

use super::made;
use crate::cases::Bench;
use dhcproto::v4::borrowed::DhcpOptionIterator;

/// Pad, lengths that are also codes, a text's code, End.
const ALPHABET: [u8; 6] = [0, 1, 2, 3, 12, 255];

const LONGEST: usize = 6;

/// Join buffers that are tried beside the ones around what is needed.
const JOIN_SIZES: [usize; 3] = [0, 1, 40];

fn from_every_place(bench: &mut Bench, area: &[u8]) {
    bench.walk(area, DhcpOptionIterator::new(area));
    for place in 0..=area.len() + 1 {
        bench.call_at(area, place, &JOIN_SIZES);
        bench.lists(area, place);
    }
    bench.call_at(area, usize::MAX, &[]);
    bench.lists(area, usize::MAX);
    bench.listing(&[&made::header(), area].concat());
}

/// All of them.
pub fn sweep(bench: &mut Bench) {
    for area in (0..=LONGEST).flat_map(|len| made::strings(&ALPHABET, len)) {
        from_every_place(bench, &area);
    }
}
