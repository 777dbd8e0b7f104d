//! Those that settle, measured side by side.

use super::cases::{Case, Group};
use crate::tuned;
use milecopper_host::differential::{Settle, MODEL};
use milecopper_host::library;

pub struct Side {
    pub name: &'static str,
    settle: Settle,
    /// Looks at the tariff alone.
    check: Settle,
}

impl Side {
    /// What this case is of.
    pub fn function(&self, case: &Case) -> Settle {
        match case.group {
            Group::Tariff => self.check,
            _ => self.settle,
        }
    }
}

/// One value for each side that is measured.
pub type PerSide<T> = Vec<T>;

pub const LIBRARY: usize = 0;
pub const PLAIN: usize = 1;
/// The last, as it may be left out.
pub const TUNED: usize = 2;

static ALL: [Side; 3] = [
    Side { name: "library", settle: library::settle_to_number, check: |tariff, _, _, _| library::check_tariff(tariff) },
    Side { name: "plain", settle: MODEL.settle, check: |tariff, _, _, _| (MODEL.check)(tariff) },
    Side { name: "tuned", settle: tuned::settle, check: |tariff, _, _, _| tuned::check_tariff(tariff) },
];

/// The sides that are measured.
pub fn sides(with_tuned: bool) -> &'static [Side] {
    if with_tuned {
        &ALL
    } else {
        &ALL[..TUNED]
    }
}

/// Does nothing: what is left is what measuring itself costs.
pub fn nothing(_tariff: &[u8], _book: &mut [u8], _trip: &[u8], _statement: &mut [u8]) -> u64 {
    0
}
