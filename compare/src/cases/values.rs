//! Typed reading.

use super::Bench;
use crate::agreement::same_reading;
use crate::findings::Bytes;
use crate::known;
use crate::paper;
use crate::theirs;
use dhcproto::v4::borrowed::{DhcpOption, DhcpOptionIterator};
use sindovaleph::calls;

/// Lists of more elements are looked at from both ends only.
const MOST_ELEMENTS: usize = 4_200;

/// How many elements of a long list are looked at from its begin.
const FIRST_ELEMENTS: usize = 64;

impl Bench {
    /// The kind of a code.
    pub fn kind(&mut self, code: u8) {
        self.same(format_args!("kind_of {code}"), &calls::kind_of(code), &paper::kind_of(code));
    }

    /// Whether bytes are UTF-8; Rust's own answer stands for the crate's, which asks it.
    pub fn utf8(&mut self, text: &[u8]) {
        let call = format_args!("is_utf8 of {}", Bytes(text));
        let said = paper::is_utf8(text);
        self.same(call, &calls::is_utf8(text), &said);
        self.findings.same_crate(call, &std::str::from_utf8(text).is_ok(), &said);
    }

    /// A value under a code, plain and strict, and its elements.
    pub fn read(&mut self, code: u8, value: &[u8]) {
        for strict in [false, true] {
            let call = format_args!("read of code {code}, strict {strict}, value {}", Bytes(value));
            self.same(call, &calls::read(code, value, strict), &paper::read(code, value, strict));
        }
        let count = paper::read(code, value, false).count;
        let first = if count > MOST_ELEMENTS { FIRST_ELEMENTS } else { count };
        for index in (0..first).chain([count.saturating_sub(1), count, count + 1, usize::MAX]) {
            self.element(code, value, index);
        }
    }

    fn element(&mut self, code: u8, value: &[u8], index: usize) {
        let call = format_args!("element {index} of code {code}, value {}", Bytes(value));
        self.same(call, &calls::element(code, value, index), &paper::element(code, value, index));
    }

    /// What the crate reads of an option that it found.
    pub fn read_by_crate(&mut self, code: u8, value: &[u8], option: DhcpOption<'_>) {
        let theirs = theirs::read(option);
        if same_reading(code, value, &theirs) {
            return;
        }
        match known::reading(code, value, &theirs) {
            Some(kind) => self.findings.known(kind),
            None => {
                let call = format_args!("into_option of code {code}, value {}", Bytes(value));
                let paper = paper::read(code, value, false);
                self.findings.unexplained(call, format_args!("the crate says {theirs:?}, document 01 {paper:?}"));
            }
        }
    }

    /// A value under a code, three ways. The crate and the typed listing get it as an option in an area of its own.
    pub fn read_value(&mut self, code: u8, value: &[u8]) {
        self.read(code, value);
        if code == paper::PAD || code == paper::END {
            return;
        }
        let area = if value.is_empty() { vec![code, 0] } else { paper::typed_bytes(0, code, value) };
        self.read_in_list(&area);
        match DhcpOptionIterator::new(&area).next() {
            Some(option) if option.data() == value => self.read_by_crate(code, value, option),
            other => {
                let call = format_args!("next in area {}", Bytes(&area));
                self.findings.unexplained(call, format_args!("the crate says {other:?}, document 01 an option {code}"));
            }
        }
    }
}
