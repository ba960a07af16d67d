//! Times of several sides, measured by turns.

use std::time::{Duration, Instant};

/// Rounds of a measurement. A figure is the median of its rounds.
const ROUNDS: usize = 101;
/// What a side's turn lasts at least, by repeating its work.
const TURN: Duration = Duration::from_millis(2);

/// One side's work, and how often a turn repeats it.
pub struct Side<'a> {
    work: Box<dyn FnMut() + 'a>,
    repeats: u32,
}

impl<'a> Side<'a> {
    pub fn new(work: impl FnMut() + 'a) -> Side<'a> {
        let mut side = Side {
            work: Box::new(work),
            repeats: 1,
        };
        while side.turn() < TURN {
            side.repeats *= 2;
        }
        side
    }

    fn turn(&mut self) -> Duration {
        let start = Instant::now();
        for _ in 0..self.repeats {
            (self.work)();
        }
        start.elapsed()
    }

    /// Microseconds of the work once.
    fn time(&mut self) -> f64 {
        self.turn().as_secs_f64() * 1e6 / f64::from(self.repeats)
    }
}

/// Each round's times of the sides, in microseconds.
pub struct Times<const N: usize>(Vec<[f64; N]>);

pub fn measure<const N: usize>(mut sides: [Side; N]) -> Times<N> {
    let rounds = (0..ROUNDS).map(|_| sides.each_mut().map(Side::time));
    Times(rounds.collect())
}

impl<const N: usize> Times<N> {
    pub fn time(&self, side: usize) -> f64 {
        self.median(|times| times[side])
    }

    /// How many times the other's time a side takes.
    pub fn ratio(&self, side: usize, other: usize) -> f64 {
        self.median(|times| times[side] / times[other])
    }

    /// How much longer than the other a side takes.
    pub fn more(&self, side: usize, other: usize) -> f64 {
        self.median(|times| times[side] - times[other])
    }

    /// How many times the unit's time a side takes longer than the other.
    pub fn more_in(&self, side: usize, other: usize, unit: usize) -> f64 {
        self.median(|times| (times[side] - times[other]) / times[unit])
    }

    fn median(&self, figure: impl Fn(&[f64; N]) -> f64) -> f64 {
        let mut sorted: Vec<f64> = self.0.iter().map(figure).collect();
        sorted.sort_by(f64::total_cmp);
        sorted[sorted.len() / 2]
    }
}
