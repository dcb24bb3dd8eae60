//! One case: the same work by the library, by the crate and, where there is such a limit, by hand-written C, so often as is asked,
//! with its answers to be compared.

use std::hint::black_box;

/// Where the answers of a side go: they are added up where the work is measured, and kept where they are compared.
pub trait Sink {
    /// A number that is answered.
    fn number(&mut self, number: impl Into<u64>);
    /// Bytes that are answered.
    fn bytes(&mut self, bytes: &[u8]);
    /// Numbers that only this side has; they are looked at and not compared.
    fn looked(&mut self, number: impl Into<u64>);
    /// An answer in words, which is only compared.
    fn told(&mut self, words: impl FnOnce() -> String);
}

/// What is measured: numbers are added, and where bytes stand is looked at.
#[derive(Default)]
struct Sum(u64);

impl Sink for Sum {
    fn number(&mut self, number: impl Into<u64>) {
        self.0 = self.0.wrapping_add(number.into());
    }

    fn bytes(&mut self, bytes: &[u8]) {
        self.0 = self.0.wrapping_add(bytes.len() as u64);
        black_box(bytes.as_ptr());
    }

    fn looked(&mut self, number: impl Into<u64>) {
        self.number(number);
    }

    fn told(&mut self, _: impl FnOnce() -> String) {}
}

/// What is compared.
#[derive(Default)]
struct Kept(Vec<String>);

impl Sink for Kept {
    fn number(&mut self, number: impl Into<u64>) {
        self.0.push(number.into().to_string());
    }

    fn bytes(&mut self, bytes: &[u8]) {
        self.0.push(format!("{bytes:?}"));
    }

    fn looked(&mut self, _: impl Into<u64>) {}

    fn told(&mut self, words: impl FnOnce() -> String) {
        self.0.push(words());
    }
}

/// The work of one side, with the memory that it reuses.
pub trait Side {
    /// The work, once.
    fn run(&mut self, sink: &mut impl Sink);
}

/// A side of which only these two are asked.
trait Work {
    fn answers(&mut self) -> Vec<String>;
    fn repeat(&mut self, times: u64) -> u64;
}

impl<S: Side> Work for S {
    fn answers(&mut self) -> Vec<String> {
        let mut kept = Kept::default();
        self.run(&mut kept);
        kept.0
    }

    #[inline(never)]
    fn repeat(&mut self, times: u64) -> u64 {
        let mut sum = Sum::default();
        for _ in 0..times {
            self.run(&mut sum);
        }
        sum.0
    }
}

/// The sides, in the order of all that comes by side.
#[derive(Clone, Copy, Debug, PartialEq, Eq)]
pub enum Who {
    Library,
    Crate,
    Limit,
}

impl Who {
    pub const ALL: [Who; 3] = [Who::Library, Who::Crate, Who::Limit];

    /// Its name in words, and as an argument.
    pub fn name(self) -> &'static str {
        match self {
            Who::Library => "library",
            Who::Crate => "crate",
            Who::Limit => "limit",
        }
    }
}

/// What a cost is shared by, where it is held against another case's.
#[derive(Clone, Copy, Debug, PartialEq, Eq)]
pub enum Unit {
    Byte,
    Option,
}

impl Unit {
    pub fn name(self) -> &'static str {
        match self {
            Unit::Byte => "byte",
            Unit::Option => "option",
        }
    }
}

/// How large the work of a case is.
#[derive(Clone, Copy)]
pub struct Size {
    /// About how many bytes it goes over.
    pub bytes: usize,
    /// How many options it finds, where that is told.
    pub options: usize,
}

/// A case.
pub struct Case {
    pub name: String,
    /// The ratios that are aimed at, of times and of instructions.
    pub target: Option<f64>,
    pub count_target: Option<f64>,
    pub size: Size,
    /// The case that this one's cost a byte, or an option, is held against; none where the library is held against the crate.
    pub base: Option<(&'static str, Unit)>,
    sides: [Option<Box<dyn Work>>; 3],
}

impl Case {
    /// A case in which the library is held against the crate.
    pub fn new(
        name: impl Into<String>,
        bytes: usize,
        library: impl Side + 'static,
        theirs: impl Side + 'static,
    ) -> Case {
        let sides: [Option<Box<dyn Work>>; 3] = [Some(Box::new(library)), Some(Box::new(theirs)), None];
        let size = Size { bytes, options: 0 };
        Case { name: name.into(), target: None, count_target: None, size, base: None, sides }
    }

    /// The same with the limit: hand-written C.
    #[cfg_attr(not(limit), allow(dead_code))]
    pub fn limited_by(mut self, limit: impl Side + 'static) -> Case {
        self.sides[Who::Limit as usize] = Some(Box::new(limit));
        self
    }

    /// The same with a ratio of times that is aimed at.
    pub fn aims_at(self, target: f64) -> Case {
        Case { target: Some(target), ..self }
    }

    /// The same with a ratio of instructions that is aimed at.
    pub fn counts_at_most(self, target: f64) -> Case {
        Case { count_target: Some(target), ..self }
    }

    /// The same, which finds so many options.
    pub fn finds(self, options: usize) -> Case {
        Case { size: Size { options, ..self.size }, ..self }
    }

    /// The same, held against another case by the library's cost a byte or an option.
    pub fn grown_from(self, base: &'static str, unit: Unit) -> Case {
        Case { base: Some((base, unit)), ..self }
    }

    /// Whether there is this side.
    pub fn has(&self, who: Who) -> bool {
        self.sides[who as usize].is_some()
    }

    /// So many repetitions of one side's work, where there is this side.
    pub fn repeat(&mut self, who: Who, times: u64) {
        if let Some(side) = &mut self.sides[who as usize] {
            black_box(side.repeat(times));
        }
    }

    /// All sides have to answer the same; else it is said where they part.
    pub fn agree(&mut self) -> Result<(), String> {
        let mut all = Who::ALL.map(|who| self.sides[who as usize].as_mut().map(|side| side.answers()));
        let library = all[Who::Library as usize].take().unwrap_or_default();
        let others = Who::ALL.into_iter().zip(all).filter_map(|(who, answers)| Some((who, answers?)));
        for (who, answers) in others {
            let most = library.len().max(answers.len());
            if let Some(at) = (0..most).find(|&at| library.get(at) != answers.get(at)) {
                let word = |answers: &[String]| answers.get(at).cloned().unwrap_or("nothing".into());
                let (ours, said) = (word(&library), word(&answers));
                let (name, who) = (&self.name, who.name());
                return Err(format!("{name}: answer {at} of the library is {ours}, and of the {who} {said}"));
            }
        }
        Ok(())
    }
}

#[cfg(test)]
mod tests {
    use super::*;

    /// A side that answers these numbers.
    struct Says(Vec<u64>);

    impl Side for Says {
        fn run(&mut self, sink: &mut impl Sink) {
            self.0.iter().for_each(|&number| sink.number(number));
            sink.looked(self.0.len() as u64);
        }
    }

    #[test]
    fn sides_that_disagree_are_an_error() {
        let case = |library: &[u64], theirs: &[u64]| Case::new("name", 1, Says(library.into()), Says(theirs.into()));
        assert_eq!(case(&[1, 2], &[1, 2]).agree(), Ok(()));
        let parted = "name: answer 1 of the library is 2, and of the crate 3".to_string();
        assert_eq!(case(&[1, 2], &[1, 3]).agree(), Err(parted));
        let short = "name: answer 1 of the library is nothing, and of the crate 2".to_string();
        assert_eq!(case(&[1], &[1, 2]).agree(), Err(short));
        let limit = "name: answer 0 of the library is 1, and of the limit 4".to_string();
        assert_eq!(case(&[1], &[1]).limited_by(Says(vec![4])).agree(), Err(limit));
    }
}
