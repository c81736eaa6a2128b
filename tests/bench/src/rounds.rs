//! Ratios of times, measured in rounds: in each round every subject has its
//! turn, one right after the other, so that all see the same machine.

use std::ops::Range;
use std::time::{Duration, Instant};

use crate::inputs::Size;
use crate::subjects::{input_count, inputs_in_turn, pass, Pass, Subject, Work};

/// How much to measure.
#[derive(Clone, Copy, Debug)]
pub struct Effort {
    /// How many rounds there are.
    pub rounds: usize,
    /// How long a turn lasts at least. Short turns are rarely broken into.
    pub turn: Duration,
}

/// The library's time against another's: the median over the rounds, and the
/// quartiles.
#[derive(Clone, Copy, Debug)]
pub struct Ratio {
    /// A quarter of the rounds are below.
    pub low: f64,
    /// Half of the rounds are below.
    pub median: f64,
    /// Three quarters of the rounds are below.
    pub high: f64,
}

impl Ratio {
    fn of(mut ratios: Vec<f64>) -> Self {
        ratios.sort_unstable_by(f64::total_cmp);
        let at = |part: usize| ratios[(ratios.len() - 1) * part / 4];
        Ratio {
            low: at(1),
            median: at(2),
            high: at(3),
        }
    }

    /// How it is written in tables.
    pub fn text(self) -> String {
        format!("{:.2} ({:.2} to {:.2})", self.median, self.low, self.high)
    }
}

/// The seconds that a subject takes for these inputs, passed over so many times.
fn seconds(pass: &mut Pass, inputs: Range<usize>, passes: u32) -> f64 {
    let start = Instant::now();
    for _ in 0..passes {
        pass(inputs.clone());
    }
    start.elapsed().as_secs_f64() / f64::from(passes)
}

/// How many passes over these inputs make a turn.
fn passes_in_turn(pass: &mut Pass, inputs: Range<usize>, turn: Duration) -> u32 {
    let mut passes = 1;
    while seconds(pass, inputs.clone(), passes) * f64::from(passes) < turn.as_secs_f64() {
        passes *= 2;
    }
    passes
}

/// The library's time for a work against that of each other subject.
pub fn ratios(work: Work, size: Size, effort: Effort) -> Vec<(Subject, Ratio)> {
    let subjects = work.subjects();
    let in_turn = inputs_in_turn(work, size);
    let mut turns: Vec<(Pass, u32)> = Vec::new();
    for &subject in &subjects {
        let mut pass = pass(subject, work, size);
        let passes = passes_in_turn(&mut pass, 0..in_turn, effort.turn);
        turns.push((pass, passes));
    }
    let mut seen = vec![Vec::new(); subjects.len()];
    for round in 0..effort.rounds {
        // Other inputs in each round, and another subject that begins.
        let first = round * in_turn % input_count(work);
        let mut times = vec![0.0; subjects.len()];
        for turn in 0..subjects.len() {
            let number = (round + turn) % subjects.len();
            let (pass, passes) = &mut turns[number];
            times[number] = seconds(pass, first..first + in_turn, *passes);
        }
        for (ratios, other) in seen.iter_mut().zip(&times) {
            ratios.push(times[0] / other);
        }
    }
    subjects
        .into_iter()
        .zip(seen)
        .skip(1)
        .map(|(subject, ratios)| (subject, Ratio::of(ratios)))
        .collect()
}

#[cfg(test)]
mod tests {
    use super::*;

    #[test]
    fn a_ratio_is_the_median_between_quartiles() {
        let ratio = Ratio::of(vec![9.0, 1.0, 2.0, 3.0, 4.0]);
        assert_eq!((ratio.low, ratio.median, ratio.high), (2.0, 3.0, 4.0));
        assert_eq!(ratio.text(), "3.00 (2.00 to 4.00)");
    }
}
