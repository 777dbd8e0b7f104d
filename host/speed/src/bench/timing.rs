//! Nanoseconds of a call: medians of samples in which the sides alternate.

use super::cases::Case;
use super::effort::Effort;
use super::sides::{PerSide, Side};
use milecopper_host::differential::Settle;
use std::hint::black_box;
use std::time::{Duration, Instant};

/// A batch is one call on each of so many books, which are put back before it and not within its time.
pub const BOOKS: usize = 16;

/// Every order of three sides, so that each comes after each other as often; where the last is left out, so do two.
const ORDERS: [[usize; 3]; 6] = [[0, 1, 2], [2, 1, 0], [1, 2, 0], [0, 2, 1], [2, 0, 1], [1, 0, 2]];

/// What a call takes on each side.
#[derive(Clone)]
pub struct Times {
    /// The medians, in nanoseconds.
    pub ns: PerSide<f64>,
    /// What the middle half of a side's samples spans, as a part of its median: the largest of them.
    pub spread: f64,
}

/// Times a call on each side.
pub fn time(case: &Case, effort: &Effort, sides: &[Side]) -> Times {
    let mut bench = Bench::of(case);
    let batches: PerSide<u32> =
        sides.iter().map(|side| bench.batches_for(side.function(case), effort.sample)).collect();
    let mut samples = vec![Vec::new(); sides.len()];
    for order in ORDERS.iter().cycle().take(effort.samples) {
        for &side in order.iter().filter(|&&side| side < sides.len()) {
            samples[side].push(bench.sample(sides[side].function(case), batches[side]));
        }
    }
    let spread = samples.iter().cloned().map(spread).fold(0.0, f64::max);
    Times { ns: samples.into_iter().map(median).collect(), spread }
}

/// A case, and the slices that are written.
struct Bench<'a> {
    case: &'a Case,
    books: Vec<Vec<u8>>,
    statement: Vec<u8>,
}

impl Bench<'_> {
    fn of(case: &Case) -> Bench<'_> {
        Bench { case, books: vec![case.book.clone(); BOOKS], statement: vec![0; case.room] }
    }

    /// So many batches take about this time.
    fn batches_for(&mut self, settle: Settle, time: Duration) -> u32 {
        self.batch(settle);
        let one = self.batch(settle).max(Duration::from_nanos(1));
        (time.as_nanos() / one.as_nanos()).clamp(1, 200) as u32
    }

    /// The time of a call in so many batches, after one that is not timed.
    fn sample(&mut self, settle: Settle, batches: u32) -> f64 {
        self.batch(settle);
        let time: Duration = (0..batches).map(|_| self.batch(settle)).sum();
        time.as_nanos() as f64 / (f64::from(batches) * BOOKS as f64)
    }

    fn batch(&mut self, settle: Settle) -> Duration {
        for book in &mut self.books {
            book.copy_from_slice(&self.case.book);
        }
        let settle = black_box(settle);
        let clock = Instant::now();
        for book in &mut self.books {
            let (tariff, trip) = (black_box(&self.case.tariff[..]), black_box(&self.case.trip[..]));
            black_box(settle(tariff, black_box(&mut book[..]), trip, black_box(&mut self.statement[..])));
        }
        clock.elapsed()
    }
}

/// The value in the middle. There is at least one.
pub fn median(mut values: Vec<f64>) -> f64 {
    values.sort_unstable_by(f64::total_cmp);
    let middle = values.len() / 2;
    if values.len() % 2 == 1 {
        values[middle]
    } else {
        (values[middle - 1] + values[middle]) / 2.0
    }
}

/// What the middle half of the values spans, as a part of their median.
pub fn spread(mut values: Vec<f64>) -> f64 {
    values.sort_unstable_by(f64::total_cmp);
    let quarter = values.len() / 4;
    (values[values.len() - 1 - quarter] - values[quarter]) / median(values)
}

#[cfg(test)]
mod tests {
    use super::*;

    #[test]
    fn the_value_in_the_middle() {
        assert_eq!(median(vec![3.0]), 3.0);
        assert_eq!(median(vec![9.0, 1.0, 2.0]), 2.0);
        assert_eq!(median(vec![4.0, 1.0, 2.0, 900.0]), 3.0);
        assert_eq!(spread(vec![3.0]), 0.0);
        assert_eq!(spread(vec![900.0, 4.0, 3.0, 5.0, 0.0]), 0.5);
    }

    #[test]
    fn each_side_comes_after_each_other_as_often() {
        for (first, then) in [(0, 1), (0, 2), (1, 0), (1, 2), (2, 0), (2, 1)] {
            let follows = |order: &&[usize; 3]| order.windows(2).any(|pair| pair == [first, then]);
            assert_eq!(ORDERS.iter().filter(follows).count(), 2);
        }
    }
}
