//! The walk over an area.

use super::Bench;
use crate::findings::Bytes;
use crate::known::Known;
use crate::paper::{self, Found, MOST_BYTES};
use crate::theirs::place_of;
use dhcproto::v4::borrowed::{DhcpOption, DhcpOptionIterator};
use sindovaleph::calls::{self, Step};
use std::fmt::Arguments;

/// The number of the stop "out".
const OUT: u8 = 1;

impl Bench {
    /// One call with a join buffer of this size. The value that document 01 says is kept.
    fn step(&mut self, area: &[u8], place: usize, join: usize) -> Step {
        let ours = calls::step(area, place, self.join.library(join));
        let paper = paper::step(area, place, self.join.paper(join));
        let call = format_args!("step in area {} at {place}, to join in {join}", Bytes(area));
        self.same(call, &ours, &paper);
        let joined = if paper.refused == 0 && paper.parts > 1 { paper.len } else { 0 };
        self.value.clear();
        match paper.parts {
            0 => (),
            1 => self.value.extend_from_slice(&area[paper.place - paper.len..paper.place]),
            _ => self.value.extend_from_slice(&self.join.paper(join)[..joined]),
        }
        self.same_join(call, joined, join);
        paper
    }

    /// Both join buffers have to hold the same, of which the paper wrote so many bytes.
    pub(super) fn same_join(&mut self, call: Arguments<'_>, joined: usize, size: usize) {
        if !self.join.settle(0..joined, size) {
            self.findings.unexplained(call, format_args!("the join buffer holds other bytes than the paper says"));
        }
    }

    /// One call with join buffers of these sizes and around the one that is needed. The answer is that of the largest.
    pub fn call(&mut self, area: &[u8], place: usize, sizes: &[usize]) -> Step {
        for &size in sizes {
            self.step(area, place, size);
        }
        if area.len() > MOST_BYTES || place > area.len() {
            return self.step(area, place, 3);
        }
        let Found::Option { parts: 2.., len, .. } = paper::find(area, place) else {
            return self.step(area, place, 5);
        };
        if len > 0 {
            self.step(area, place, len - 1);
        }
        self.step(area, place, len);
        self.step(area, place, len + 9)
    }

    /// What the crate's iterator gave has to be what document 01 says.
    fn same_found(&mut self, area: &[u8], place: usize, paper: &Step, theirs: Option<&DhcpOption<'_>>) {
        let call = format_args!("next in area {} at {place}", Bytes(area));
        if paper.refused == 2 {
            let found = matches!(paper::find(area, place), Found::Option { .. });
            self.findings.same_crate(call, &theirs.is_some(), &found);
            return self.findings.known(Known::LongArea);
        }
        let Some(option) = theirs else {
            return self.findings.same_crate(call, &0, &paper.parts);
        };
        let start = place_of(area, option.data());
        let said = if paper.parts == 1 { Some(paper.place - paper.len) } else { None };
        self.findings.same_crate(call, &(u8::from(option.code()), start), &(paper.code, said));
        self.findings.same_crate(call, &option.data(), &self.value.as_slice());
    }

    /// One call at a place, also by the crate.
    pub fn call_at(&mut self, area: &[u8], place: usize, sizes: &[usize]) {
        let paper = self.call(area, place, sizes);
        if place <= area.len() {
            let theirs = DhcpOptionIterator::new(&area[place..]).next();
            self.same_found(area, place, &paper, theirs.as_ref());
        }
    }

    /// All calls from the area's begin on, until it is out twice, beside the crate's iterator; every option is also read.
    pub fn walk(&mut self, area: &[u8], mut theirs: DhcpOptionIterator<'_>) {
        let (mut place, mut outs) = (0, 0);
        while outs < 2 {
            let paper = self.call(area, place, &[]);
            let option = theirs.next();
            self.same_found(area, place, &paper, option.as_ref());
            if paper.refused > 0 {
                return;
            }
            if paper.stop == 0 {
                let value = std::mem::take(&mut self.value);
                self.read(paper.code, &value);
                if let Some(option) = option {
                    self.read_by_crate(paper.code, &value, option);
                }
                self.value = value;
            }
            outs += usize::from(paper.stop == OUT);
            place = paper.place;
        }
    }
}
