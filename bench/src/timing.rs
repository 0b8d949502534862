//! Times of both sides, in turns, and their ratio.
use crate::rows::{Pair, Row};
use std::hint::black_box;
use std::time::{Duration, Instant};

/// How often both sides are measured.
const ROUNDS: usize = 301;
/// About what one side's part of a round takes.
const BATCH: Duration = Duration::from_micros(50);

/// Nanoseconds a call on each side, and the proved side's time over the plain one's: the median and the 10th and 90th
/// percentile over the rounds.
pub struct Times {
    pub plain: f64,
    pub proved: f64,
    pub ratio: [f64; 3],
}

fn batch(call: &mut dyn FnMut() -> u32, count: u32) -> f64 {
    let begun = Instant::now();
    for _ in 0..count {
        black_box(call());
    }
    begun.elapsed().as_nanos() as f64 / f64::from(count)
}

fn both(pair: &mut Pair, count: u32) -> (f64, f64) {
    (batch(&mut pair.plain, count), batch(&mut pair.proved, count))
}

fn percentile(values: &[f64], percent: usize) -> f64 {
    let mut sorted = values.to_vec();
    sorted.sort_by(f64::total_cmp);
    sorted[(sorted.len() - 1) * percent / 100]
}

pub fn measured(row: &mut Row) -> Times {
    let (plain, proved) = both(&mut row.whole, 3);
    let count = (BATCH.as_nanos() as f64 / plain.min(proved)).clamp(1.0, 10_000.0) as u32;
    let rounds: Vec<(f64, f64)> = (0..ROUNDS)
        .map(|_| {
            let whole = both(&mut row.whole, count);
            let base = row.base.as_mut().map_or((0.0, 0.0), |base| both(base, count));
            let times = f64::from(row.times);
            ((whole.0 - base.0) / times, (whole.1 - base.1) / times)
        })
        .collect();
    let ratios: Vec<f64> = rounds.iter().map(|(plain, proved)| proved / plain).collect();
    let median = |side: fn(&(f64, f64)) -> f64| percentile(&rounds.iter().map(side).collect::<Vec<_>>(), 50);
    Times {
        plain: median(|round| round.0),
        proved: median(|round| round.1),
        ratio: [50, 10, 90].map(|percent| percentile(&ratios, percent)),
    }
}
