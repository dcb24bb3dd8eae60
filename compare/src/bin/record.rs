//! Asks the crate for the sample that the program `replay` goes over, and writes its answers to the file that the first argument names.
//! The same command makes the same bytes. docs/RECORDED.md has what is in the sample, and the format.
use compare::paper::element_size;
use compare::random::Random;
use compare::recorded::{self, Asked, Record};
use dhcproto::v4::DhcpOption;
use sindovaleph::calls::Route;
use std::collections::HashSet;
use std::path::Path;

/// About how many of each kind are recorded.
const EACH: usize = 8200;

/// The kind of text.
const TEXT: u8 = 10;

/// The kinds of lists: addresses, pairs, u16s, codes.
const LISTS: [u8; 4] = [2, 3, 7, 11];

/// Texts on both sides of UTF-8's edges.
const TEXTS: [&[u8]; 24] = [
    b"host-17",
    b"\x00",
    b"a\x00b\x00",
    b"\x7f",
    b"\x80",
    b"\xbf\xbf",
    b"\xc1\xbf",
    b"\xc2\x80",
    b"\xc3\xa9t\xc3\xa9",
    b"\xdf\xbf",
    b"\xdf",
    b"\xe0\x9f\xbf",
    b"\xe0\xa0\x80",
    b"\xe2\x82\xac",
    b"\xe2\x82",
    b"\xed\x9f\xbf",
    b"\xed\xa0\x80",
    b"\xef\xbf\xbf",
    b"\xf0\x8f\xbf\xbf",
    b"\xf0\x90\x80\x80",
    b"\xf4\x8f\xbf\xbf",
    b"\xf4\x90\x80\x80",
    b"\xf5\x80\x80\x80",
    b"ok\xf0\x9f\x98",
];

/// The worked examples of areas, P1 to P9, and what goes on behind two parts.
const AREAS: [&[u8]; 11] = [
    &[12, 3, 97, 98, 99, 255],
    &[12, 1, 65, 12, 1, 66, 255],
    &[12, 1, 65, 0, 12, 1, 66],
    &[12, 1, 65, 12, 1, 66, 12, 5],
    &[12, 5, 65, 66],
    &[12],
    &[],
    &[0, 0],
    &[255, 1, 4, 255, 255, 255, 0],
    &[12, 0, 12, 0],
    &[12, 0, 12, 0, 12],
];

/// The records so far, no question twice, and the random numbers of a fixed seed.
struct Sample {
    records: Vec<Record>,
    asked: HashSet<(u8, Vec<u8>)>,
    random: Random,
}

fn main() {
    if let Err(why) = run() {
        eprintln!("record: {why}");
        std::process::exit(1);
    }
}

fn run() -> Result<(), String> {
    if cfg!(debug_assertions) {
        return Err("a debug build of the crate answers otherwise: build with --release".to_string());
    }
    let path = std::env::args().nth(1).ok_or("name the file to write")?;
    let mut sample = Sample { records: Vec::new(), asked: HashSet::new(), random: Random::new(2131) };
    sample.areas()?;
    sample.readings()?;
    sample.writes()?;
    save(Path::new(&path), &sample.bytes()?)?;
    println!("{} areas", sample.count(Asked::Area));
    println!("{} readings", sample.count(Asked::Reading));
    println!("{} writes", sample.count(Asked::Write));
    println!("{} records written", sample.records.len());
    Ok(())
}

/// Writes the file under another name and then moves it, so that a failure leaves the old one.
fn save(path: &Path, bytes: &[u8]) -> Result<(), String> {
    let unfinished = path.with_extension("unfinished");
    std::fs::write(&unfinished, bytes).map_err(|e| format!("{}: {e}", unfinished.display()))?;
    std::fs::rename(&unfinished, path).map_err(|e| format!("{}: {e}", path.display()))
}

impl Sample {
    fn bytes(&self) -> Result<Vec<u8>, String> {
        let records: Result<Vec<Vec<u8>>, String> = self.records.iter().map(Record::bytes).collect();
        Ok(records?.concat())
    }

    fn count(&self, asked: Asked) -> usize {
        self.records.iter().filter(|record| record.asked == asked).count()
    }

    /// Adds a record of what was not asked before.
    fn keep(&mut self, record: Record) {
        if self.asked.insert((record.asked as u8, record.input.clone())) {
            self.records.push(record);
        }
    }

    /// Adds a record where there is one.
    fn keep_some(&mut self, record: Option<Record>) {
        if let Some(record) = record {
            self.keep(record);
        }
    }

    /// A code that is not raw, with its kind.
    fn typed_code(&mut self) -> (u8, u8) {
        loop {
            let code = 1 + self.random.below(254) as u8;
            if let Some(kind) = recorded::kind(code).filter(|kind| *kind > 0) {
                return (code, kind);
            }
        }
    }

    /// So many bytes of any kind.
    fn any(&mut self, length: usize) -> Vec<u8> {
        (0..length).map(|_| self.random.byte()).collect()
    }

    /// So many bytes of an alphabet.
    fn drawn(&mut self, alphabet: &[u8], length: usize) -> Vec<u8> {
        (0..length).map(|_| alphabet[self.random.below(alphabet.len())]).collect()
    }
}

/// Areas.
impl Sample {
    fn areas(&mut self) -> Result<(), String> {
        for area in AREAS {
            self.area(area)?;
        }
        for length in 0..=5 {
            self.every_area(&[0, 1, 2, 255], length)?;
        }
        self.every_area(&[0, 1, 2], 6)?;
        for code in 1..=254 {
            self.area(&[code, 1, 7, code, 0, code, 2, 8, 9, 255, code, 1, code, code])?;
        }
        for n in 0..40 {
            let length = 300 + self.random.below(700);
            let area = self.options(length, [6, 80, 256][n % 3]);
            self.area(&area)?;
        }
        while self.count(Asked::Area) < EACH {
            self.random_areas()?;
        }
        Ok(())
    }

    fn area(&mut self, area: &[u8]) -> Result<(), String> {
        self.keep(recorded::walk(area)?);
        Ok(())
    }

    /// Every area of this length over an alphabet.
    fn every_area(&mut self, alphabet: &[u8], length: u32) -> Result<(), String> {
        let n = alphabet.len();
        for number in 0..n.pow(length) {
            let area: Vec<u8> = (0..length).map(|digit| alphabet[number / n.pow(digit) % n]).collect();
            self.area(&area)?;
        }
        Ok(())
    }

    /// One area of each random sort: from a small alphabet, of options, of options and cut, of any bytes.
    fn random_areas(&mut self) -> Result<(), String> {
        let length = self.random.below(16);
        let drawn = self.drawn(&[0, 1, 2, 3, 12, 255], length);
        self.area(&drawn)?;
        let length = self.random.below(16);
        let options = self.options(length, 6);
        self.area(&options)?;
        let length = self.random.below(41);
        let options = self.options(length, 40);
        let cut = self.random.below(options.len() + 1);
        self.area(&options[..cut])?;
        let length = self.random.below(41);
        let any = self.any(length);
        self.area(&any)
    }

    /// Options up to about this length, some in parts, with Pads and Ends between them. A part's value has less than `most` bytes.
    fn options(&mut self, length: usize, most: usize) -> Vec<u8> {
        let mut area = Vec::new();
        while area.len() < length {
            let code = self.random.byte();
            for _ in 0..=self.random.below(3) / 2 * self.random.below(4) {
                let value = self.random.below(most);
                area.extend([code, value as u8]);
                area.extend(self.any(value));
            }
            if self.random.below(4) == 0 {
                area.push([0, 0, 255][self.random.below(3)]);
            }
        }
        area
    }
}

/// Readings.
impl Sample {
    fn readings(&mut self) -> Result<(), String> {
        for code in 1..=254 {
            self.lengths(code)?;
        }
        for byte in 0..=255 {
            for code in [19, 23, 46, 53] {
                self.reading(code, &[byte])?;
            }
        }
        for code in (1..=254).filter(|code| recorded::kind(*code) == Some(TEXT)) {
            for text in TEXTS {
                self.reading(code, text)?;
            }
        }
        for (code, length) in [(3, 252), (6, 256), (33, 504), (25, 510), (55, 300), (43, 511), (92, 1020)] {
            let value = self.any(length);
            self.reading(code, &value)?;
        }
        while self.count(Asked::Reading) < EACH {
            self.random_reading()?;
        }
        Ok(())
    }

    /// A value of up to four elements, or a byte longer; or two texts, one behind the other.
    fn random_reading(&mut self) -> Result<(), String> {
        let (code, kind) = self.typed_code();
        let value = match kind {
            TEXT => [TEXTS[self.random.below(TEXTS.len())], TEXTS[self.random.below(TEXTS.len())]].concat(),
            _ => {
                let length = element_size(kind) * self.random.below(5) + self.random.below(3) / 2;
                self.any(length)
            }
        };
        self.reading(code, &value)
    }

    /// A code with the lengths from 0 to behind two elements: with any bytes, with the same byte and with text. A raw code with three.
    fn lengths(&mut self, code: u8) -> Result<(), String> {
        let Some(kind) = recorded::kind(code) else { return Ok(()) };
        let last = if kind == 0 { 2 } else { 2 * element_size(kind) + 2 };
        for length in 0..=last {
            let any = self.any(length);
            let same = vec![[0, 1, 255][self.random.below(3)]; length];
            let text = self.drawn(b"abc-.", length);
            for value in [any, same, text] {
                self.reading(code, &value)?;
            }
        }
        Ok(())
    }

    /// One reading. Left out are the types that the library leaves out, and code 25 with an odd length.
    fn reading(&mut self, code: u8, value: &[u8]) -> Result<(), String> {
        if code == 25 && value.len() % 2 == 1 {
            return Ok(());
        }
        self.keep_some(recorded::reading(code, value)?);
        Ok(())
    }
}

/// Writes.
impl Sample {
    fn writes(&mut self) -> Result<(), String> {
        self.every_code()?;
        self.byte_values()?;
        self.long_values()?;
        for byte in 0..=255 {
            self.keep_some(recorded::writing(37, &DhcpOption::DefaultTcpTtl(byte))?);
            for code in [23, 46, 52, 53] {
                self.write(code, &[byte])?;
            }
        }
        for code in (1..=254).filter(|code| recorded::kind(*code) == Some(TEXT)) {
            for text in TEXTS {
                self.write(code, text)?;
            }
        }
        self.routes()?;
        while self.count(Asked::Write) < EACH {
            self.random_write()?;
        }
        Ok(())
    }

    /// One element to every code, of the same byte.
    fn every_code(&mut self) -> Result<(), String> {
        for code in 1..=254 {
            let Some(kind) = recorded::kind(code) else { continue };
            for byte in [0, 1, 255] {
                self.write(code, &vec![byte; element_size(kind)])?;
            }
        }
        Ok(())
    }

    /// Byte values to every code.
    fn byte_values(&mut self) -> Result<(), String> {
        for code in 1..=254 {
            for length in [0, 1, 5] {
                let value = self.any(length);
                self.keep(recorded::writing_bytes(code, &value)?);
            }
        }
        Ok(())
    }

    /// Values and lists around each cut: one part, two parts, and the most that the library writes.
    fn long_values(&mut self) -> Result<(), String> {
        for (code, length) in
            [(43, 254), (121, 255), (200, 256), (12, 509), (61, 510), (3, 511), (254, 1021), (1, 4079), (66, 4080)]
        {
            let value = self.any(length);
            self.keep(recorded::writing_bytes(code, &value)?);
        }
        let addresses = [(3, 62), (6, 63), (42, 64), (76, 126), (92, 127), (65, 1020)];
        let pairs = [(21, 30), (33, 31), (21, 32), (33, 62), (21, 63), (33, 510)];
        let u16s = [(25, 126), (25, 127), (25, 128), (25, 254), (25, 255), (25, 2040)];
        let codes = [(55, 254), (55, 255), (55, 256), (55, 511), (55, 4080)];
        self.lists(&addresses)?;
        self.lists(&pairs)?;
        self.lists(&u16s)?;
        self.lists(&codes)?;
        for (code, length) in [(12, 254), (15, 255), (56, 256), (114, 511), (17, 4080)] {
            let text = self.drawn(b"abc-./", length);
            self.write(code, &text)?;
        }
        Ok(())
    }

    /// Lists by code and count.
    fn lists(&mut self, lists: &[(u8, usize)]) -> Result<(), String> {
        for (code, count) in lists {
            let kind = recorded::kind(*code).ok_or("no list")?;
            let value = self.any(count * element_size(kind));
            self.write(*code, &value)?;
        }
        Ok(())
    }

    /// Every width, with bits behind it and without.
    fn routes(&mut self) -> Result<(), String> {
        for width in 0..=32 {
            for destination in [0, u32::MAX, 0x0a00_0000, self.random.bits() as u32, self.random.bits() as u32] {
                let gateway = self.random.bits() as u32;
                self.keep(recorded::writing_route(Route { width, destination, gateway })?);
            }
        }
        Ok(())
    }

    /// A write of a typed code's value of one element, of four at most for a list, or of any length for text.
    fn random_write(&mut self) -> Result<(), String> {
        let (code, kind) = self.typed_code();
        let value = match kind {
            TEXT => {
                let length = self.random.below(20);
                self.drawn(b"abc-./ 09\x00", length)
            }
            _ => {
                let count = if LISTS.contains(&kind) { self.random.below(5) } else { 1 };
                self.any(count * element_size(kind))
            }
        };
        self.write(code, &value)
    }

    /// The option that the crate reads from this value, written.
    fn write(&mut self, code: u8, value: &[u8]) -> Result<(), String> {
        self.keep_some(recorded::rewriting(code, value)?);
        Ok(())
    }
}
