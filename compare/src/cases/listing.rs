//! The listing of a message.

use super::Bench;
use crate::findings::Bytes;
use crate::listing;
use crate::paper;
use sindovaleph::calls;

impl Bench {
    /// The library's text has to be the one that is made of the crate's answers: in a room that just holds it, in a larger one, and in
    /// one that lacks a byte.
    pub fn listing(&mut self, message: &[u8]) {
        let text = listing::text(message);
        for (room, place) in [(text.len(), 0), (text.len() + 20, 7), (text.len() - 1, 0)] {
            let library = |room: &mut [u8], place: usize| calls::write_listing(room, place, message);
            let paper = |room: &mut [u8], place: usize| paper::write_listing(room, place, &text);
            self.write(format_args!("listing of message {}", Bytes(message)), (room, place), library, paper);
        }
    }
}
