//! How much is measured.

use std::time::Duration;

pub struct Effort {
    /// Samples of each side in a case.
    pub samples: usize,
    /// About the time of one.
    pub sample: Duration,
    /// Runs of each program on a roll.
    pub runs: usize,
    /// Records in two rolls whose difference gives the instructions of a record.
    pub counted: [usize; 2],
    /// Whether long runs are counted too.
    pub count_long: bool,
}

pub const FULL: Effort =
    Effort { samples: 600, sample: Duration::from_micros(200), runs: 41, counted: [4_096, 8_192], count_long: true };

pub const QUICK: Effort =
    Effort { samples: 60, sample: Duration::from_micros(100), runs: 7, counted: [512, 1_024], count_long: false };
