//! Times of single calls, and what is kept of them.
use std::hint::black_box;
use std::time::Instant;

/// Seconds of one call.
pub fn seconds<T>(call: impl FnOnce() -> T) -> f64 {
    let began = Instant::now();
    black_box(call());
    began.elapsed().as_secs_f64()
}

/// The least seconds that a call took in all rounds.
#[derive(Clone, Copy)]
pub struct Least(pub f64);

impl Least {
    pub const NONE: Least = Least(f64::MAX);

    pub fn of<T>(&mut self, call: impl FnOnce() -> T) {
        self.0 = self.0.min(seconds(call));
    }
}

/// The seconds of every round. A difference of two times has no least, but it has a median.
#[derive(Default)]
pub struct Rounds(Vec<f64>);

impl Rounds {
    pub fn push(&mut self, seconds: f64) {
        self.0.push(seconds);
    }

    pub fn len(&self) -> usize {
        self.0.len()
    }

    pub fn median(&self) -> f64 {
        let mut sorted = self.0.clone();
        sorted.sort_by(f64::total_cmp);
        sorted[sorted.len() / 2]
    }
}

/// What reading the clock adds to a time: that of no call.
pub fn clock() -> f64 {
    let mut rounds = Rounds::default();
    for _ in 0..10_000 {
        rounds.push(seconds(|| ()));
    }
    rounds.median()
}

/// Seconds of one query in each way; `again` is a call right after the first, with no check between.
#[derive(Clone, Copy)]
pub struct Times {
    pub call: f64,
    pub plain_call: f64,
    pub steps: f64,
    pub plain_steps: f64,
    pub unshared: f64,
    pub roaring: f64,
    pub roaring_in_call: f64,
    pub sqlite: f64,
    pub plain_again: f64,
    pub roaring_again: f64,
}

impl Times {
    pub fn mean(all: &[Times]) -> Times {
        let mean = |field: fn(&Times) -> f64| all.iter().map(field).sum::<f64>() / all.len() as f64;
        Times {
            call: mean(|t| t.call),
            plain_call: mean(|t| t.plain_call),
            steps: mean(|t| t.steps),
            plain_steps: mean(|t| t.plain_steps),
            unshared: mean(|t| t.unshared),
            roaring: mean(|t| t.roaring),
            roaring_in_call: mean(|t| t.roaring_in_call),
            sqlite: mean(|t| t.sqlite),
            plain_again: mean(|t| t.plain_again),
            roaring_again: mean(|t| t.roaring_again),
        }
    }
}
