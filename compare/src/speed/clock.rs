//! The times of cases: the sides of each in turn, round by round, in several visits, so that a slow while of the machine spoils one of
//! them and not all.

use super::case::{Case, Who};
use std::time::{Duration, Instant};

/// How often each case is visited, and how many rounds each side then gets.
pub const VISITS: usize = 3;
const ROUNDS: usize = 34;

/// How long a round of one side takes at least.
const ROUND: Duration = Duration::from_micros(500);

/// The nanoseconds of one repetition in the best round, and in the one in the middle.
#[derive(Clone, Copy, Debug, PartialEq)]
pub struct Times {
    pub best: f64,
    pub median: f64,
}

impl Times {
    /// Of the nanoseconds that one repetition took in each round, of which there is one at least.
    fn of(mut rounds: Vec<f64>) -> Times {
        rounds.sort_by(f64::total_cmp);
        Times { best: rounds[0], median: rounds[rounds.len() / 2] }
    }
}

/// The nanoseconds of so many repetitions.
fn nanoseconds(case: &mut Case, who: Who, times: u64) -> f64 {
    let begin = Instant::now();
    case.repeat(who, times);
    begin.elapsed().as_nanos() as f64
}

/// So many repetitions as fill a round.
fn repetitions(case: &mut Case, who: Who) -> u64 {
    let mut times = 1;
    while nanoseconds(case, who, times) < ROUND.as_nanos() as f64 {
        times *= 2;
    }
    times
}

/// What the sides of a case took, in every round.
type Rounds = [Vec<f64>; 3];

/// One visit of a case.
fn visit(case: &mut Case, rounds: &mut Rounds) {
    let repetitions = Who::ALL.map(|who| if case.has(who) { repetitions(case, who) } else { 0 });
    for _ in 0..ROUNDS {
        for who in Who::ALL {
            let times = repetitions[who as usize];
            if times > 0 {
                rounds[who as usize].push(nanoseconds(case, who, times) / times as f64);
            }
        }
    }
}

/// The times of each side that is there, for all cases. It is told how many visits are over.
pub fn times(cases: &mut [Case], mut tell: impl FnMut(usize)) -> Vec<[Option<Times>; 3]> {
    let mut all: Vec<Rounds> = cases.iter().map(|_| Rounds::default()).collect();
    let mut over = 0;
    for _ in 0..VISITS {
        for (case, rounds) in cases.iter_mut().zip(&mut all) {
            tell(over);
            visit(case, rounds);
            over += 1;
        }
    }
    let of = |rounds: Vec<f64>| (!rounds.is_empty()).then(|| Times::of(rounds));
    all.into_iter().map(|rounds| rounds.map(of)).collect()
}

#[cfg(test)]
mod tests {
    use super::*;
    use crate::speed::case::{Side, Sink};
    use std::hint::black_box;

    #[test]
    fn the_best_and_the_middle() {
        assert_eq!(Times::of(vec![5.0, 1.0, 9.0, 2.0, 3.0]), Times { best: 1.0, median: 3.0 });
    }

    /// Goes over so many numbers.
    struct Over(u64);

    impl Side for Over {
        fn run(&mut self, sink: &mut impl Sink) {
            (0..self.0).for_each(|number| sink.looked(black_box(number)));
        }
    }

    #[test]
    fn more_work_takes_longer() {
        let mut told = Vec::new();
        let all = times(&mut [Case::new("name", 1, Over(10), Over(1_000))], |over| told.push(over));
        assert_eq!(told, (0..VISITS).collect::<Vec<_>>());
        let [[Some(few), Some(many), None]] = all[..] else { panic!("two sides are timed") };
        assert!(few.best > 0.0 && few.best <= few.median && many.best <= many.median);
        assert!(few.best < many.best);
    }
}
