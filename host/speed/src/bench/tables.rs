//! Tables in Markdown, and what is met and what is missed.

use std::fmt;

pub struct Table {
    rows: Vec<Vec<String>>,
}

/// What stands where nothing was measured.
pub const NONE: &str = "–";

impl Table {
    pub fn of<C: Into<String>>(head: impl IntoIterator<Item = C>) -> Table {
        Table { rows: vec![head.into_iter().map(C::into).collect()] }
    }

    pub fn row(&mut self, cells: impl IntoIterator<Item = String>) {
        self.rows.push(cells.into_iter().collect());
    }
}

impl fmt::Display for Table {
    /// The first column to the left, the others to the right.
    fn fmt(&self, out: &mut fmt::Formatter) -> fmt::Result {
        for (number, row) in self.rows.iter().enumerate() {
            writeln!(out, "| {} |", row.join(" | "))?;
            if number == 0 {
                writeln!(out, "|---|{}", "---:|".repeat(row.len() - 1))?;
            }
        }
        Ok(())
    }
}

/// What was judged so far, aim by aim.
#[derive(Default)]
pub struct Verdicts {
    aims: Vec<Judged>,
    left_out: Vec<&'static str>,
}

/// An aim, and what was found of it, with so many decimals.
struct Judged {
    aim: String,
    decimals: usize,
    met: usize,
    found: Vec<f64>,
}

impl Verdicts {
    /// The word for the table about a ratio.
    pub fn judge_ratio(&mut self, aim: &str, found: f64, most: f64) -> &'static str {
        self.judge(&format!("{aim}: at most {most:.2}"), found, most, 3)
    }

    /// The word for the table about a figure that is to be at most this. It is judged as it is printed.
    pub fn judge(&mut self, aim: &str, found: f64, most: f64, decimals: usize) -> &'static str {
        let place = self.aims.iter().position(|judged| judged.aim == aim).unwrap_or(self.aims.len());
        if place == self.aims.len() {
            self.aims.push(Judged { aim: aim.to_string(), decimals, met: 0, found: Vec::new() });
        }
        let judged = &mut self.aims[place];
        judged.found.push(found);
        let printed = |value: f64| (value * 10f64.powi(decimals as i32)).round();
        if printed(found) <= printed(most) {
            judged.met += 1;
            "met"
        } else {
            "**missed**"
        }
    }

    /// What was not measured, and so not judged.
    pub fn leave_out(&mut self, what: &'static str) {
        self.left_out.push(what);
    }
}

impl fmt::Display for Verdicts {
    fn fmt(&self, out: &mut fmt::Formatter) -> fmt::Result {
        let mut table = Table::of(["aim", "met", "found"]);
        for Judged { aim, decimals, met, found } in &self.aims {
            let least = decimal(found.iter().copied().fold(f64::INFINITY, f64::min), *decimals);
            let most = decimal(found.iter().copied().fold(0.0, f64::max), *decimals);
            let range = if found.len() == 1 { most } else { format!("{least} to {most}") };
            table.row([aim.clone(), format!("{met} of {}", found.len()), range]);
        }
        for what in &self.left_out {
            table.row([what.to_string(), "NOT measured".to_string(), NONE.to_string()]);
        }
        write!(out, "{table}")
    }
}

/// 1234567 as 1,234,567.
pub fn with_commas(number: u64) -> String {
    let digits = number.to_string();
    let mut text = String::new();
    for (place, digit) in digits.chars().enumerate() {
        if place > 0 && (digits.len() - place).is_multiple_of(3) {
            text.push(',');
        }
        text.push(digit);
    }
    text
}

/// A whole number with commas.
pub fn whole(value: f64) -> String {
    with_commas(value.round() as u64)
}

/// A number with so many decimals, and commas.
pub fn decimal(value: f64, decimals: usize) -> String {
    let text = format!("{:.decimals$}", value.abs());
    let (before, after) = text.split_once('.').unwrap_or((&text, ""));
    let point = if after.is_empty() { "" } else { "." };
    let sign = if value < 0.0 { "-" } else { "" };
    format!("{sign}{}{point}{after}", with_commas(before.parse().unwrap_or(0)))
}

/// With three decimals.
pub fn ratio(value: f64) -> String {
    decimal(value, 3)
}

/// How much a value grows with each item, by least squares.
pub fn slope(points: &[(f64, f64)]) -> f64 {
    let many = points.len() as f64;
    let x = points.iter().map(|point| point.0).sum::<f64>() / many;
    let y = points.iter().map(|point| point.1).sum::<f64>() / many;
    let over: f64 = points.iter().map(|point| (point.0 - x) * (point.1 - y)).sum();
    let under: f64 = points.iter().map(|point| (point.0 - x) * (point.0 - x)).sum();
    over / under
}

#[cfg(test)]
mod tests {
    use super::*;

    #[test]
    fn numbers_as_they_are_printed() {
        assert_eq!(with_commas(0), "0");
        assert_eq!(with_commas(999), "999");
        assert_eq!(with_commas(65_535), "65,535");
        assert_eq!(with_commas(1_234_567), "1,234,567");
        assert_eq!(whole(1_999.5), "2,000");
        assert_eq!(ratio(0.70049), "0.700");
        assert_eq!(decimal(1_234.56, 1), "1,234.6");
        assert_eq!(decimal(-0.25, 2), "-0.25");
    }

    #[test]
    fn slopes() {
        assert_eq!(slope(&[(1.0, 5.0), (2.0, 7.0), (4.0, 11.0)]), 2.0);
        assert_eq!(slope(&[(2.0, 3.0), (4.0, 3.0)]), 0.0);
    }

    #[test]
    fn figures_are_judged_as_they_are_printed() {
        let mut verdicts = Verdicts::default();
        assert_eq!(verdicts.judge_ratio("one", 1.000_4, 1.0), "met");
        assert_eq!(verdicts.judge_ratio("two", 0.700_6, 0.7), "**missed**");
        assert_eq!(verdicts.judge_ratio("one", 1.2, 1.0), "**missed**");
        assert_eq!(verdicts.judge("three: at most 1,024", 1_024.0, 1_024.0, 0), "met");
        verdicts.leave_out("four");
        let text = "| aim | met | found |\n|---|---:|---:|\n| one: at most 1.00 | 1 of 2 | 1.000 to 1.200 |\n\
                    | two: at most 0.70 | 0 of 1 | 0.701 |\n| three: at most 1,024 | 1 of 1 | 1,024 |\n\
                    | four | NOT measured | – |\n";
        assert_eq!(verdicts.to_string(), text);
    }

    #[test]
    fn tables() {
        let mut table = Table::of(["case", "ns"]);
        table.row(["one".to_string(), "8".to_string()]);
        assert_eq!(table.to_string(), "| case | ns |\n|---|---:|\n| one | 8 |\n");
    }
}
