//! The tables of the calls.

use super::cases::{Case, Group};
use super::sides::{PerSide, Side, LIBRARY, TUNED};
use super::tables::{decimal, ratio, slope, whole, with_commas, Table, Verdicts, NONE};
use super::timing::Times;

/// A case with what was measured: no time where only instructions are counted, no instructions where there is no
/// valgrind.
pub struct Measured<'a> {
    pub case: &'a Case,
    pub times: Option<Times>,
    pub instructions: Option<PerSide<u64>>,
}

/// All tables of the calls, in the demands' order.
pub fn report(measured: &[Measured], sides: &[Side], verdicts: &mut Verdicts) {
    let of = |group: Group| -> Vec<&Measured> { measured.iter().filter(|row| row.case.group == group).collect() };
    println!("\n## One call\n");
    print!("{}", timed(&of(Group::Settled), sides, Some(verdicts)));
    println!("\n## One call that only checks\n");
    println!("Tariff, book and trip are read through, and nothing is written.\n");
    print!("{}", timed(&of(Group::Checked), sides, None));
    println!("\n## A tariff checked alone\n");
    print!("{}", timed(&of(Group::Tariff), sides, None));
    let spread = measured.iter().filter_map(|row| row.times.as_ref()).map(|times| times.spread).reduce(f64::max);
    if let Some(spread) = spread {
        println!("\nThe middle half of a side's samples spans {} % of its median at most.", decimal(100.0 * spread, 1));
    }
    println!("\n## The refusals, in instructions\n");
    println!("The largest tariff, a used book, a party of 31; each fault as late in the bytes as it can stand.\n");
    print!("{}", counted(&of(Group::Refused), sides));
    if measured.iter().any(|row| row.instructions.is_none()) {
        verdicts.leave_out("instructions, which were not counted");
    }
    println!("\n## How a call's cost grows\n");
    println!("One person on a fresh book, between two stops of the state: with no other stops, then with 32 areas.\n");
    println!("{}", growth("areas", "area", &of(Group::Areas), sides));
    println!("{}", growth("stops", "stop", &of(Group::Stops), sides));
    println!("With the party: in a city of the largest tariff, on a used book.\n");
    print!("{}", growth("party of", "person or bicycle", &of(Group::Party), sides));
}

/// The library, and the tuned side where it is measured.
fn compared(sides: &[Side]) -> impl Iterator<Item = usize> + '_ {
    [LIBRARY, TUNED].into_iter().filter(|&side| side < sides.len())
}

/// Such a heading for each of these sides.
fn headed(sides: &[Side], of: impl Iterator<Item = usize>, unit: &str) -> Vec<String> {
    of.map(|side| format!("{} {unit}", sides[side].name)).collect()
}

/// Times and instructions; with verdicts where something was aimed at.
fn timed(rows: &[&Measured], sides: &[Side], mut verdicts: Option<&mut Verdicts>) -> Table {
    let with_tuned = sides.len() > TUNED;
    let mut head = vec!["case".to_string()];
    head.extend(headed(sides, 0..sides.len(), "ns"));
    head.extend(headed(sides, compared(sides), "instr."));
    if with_tuned {
        head.extend(["ns library/tuned", "instr. library/tuned"].map(str::to_string));
        head.extend(["aim", "ns", "instr."].iter().filter(|_| verdicts.is_some()).map(|cell| cell.to_string()));
    }
    let mut table = Table::of(head);
    for row in rows {
        let mut cells = vec![row.case.name.clone()];
        cells.extend((0..sides.len()).map(|side| ns(row, side)));
        cells.extend(compared(sides).map(|side| instructions(row, side)));
        if with_tuned {
            let found = [time_ratio(row), instruction_ratio(row)];
            cells.extend(found.map(|found| found.map_or(NONE.to_string(), ratio)));
            if let Some(verdicts) = &mut verdicts {
                cells.extend(judged(row.case, found, verdicts));
            }
        }
        table.row(cells);
    }
    table
}

fn counted(rows: &[&Measured], sides: &[Side]) -> Table {
    let with_tuned = sides.len() > TUNED;
    let mut head = vec!["refusal".to_string()];
    head.extend(headed(sides, compared(sides), "instr."));
    head.extend(with_tuned.then(|| "library/tuned".to_string()));
    let mut table = Table::of(head);
    for row in rows {
        let mut cells = vec![row.case.name.clone()];
        cells.extend(compared(sides).map(|side| instructions(row, side)));
        cells.extend(with_tuned.then(|| instruction_ratio(row).map_or(NONE.to_string(), ratio)));
        table.row(cells);
    }
    table
}

/// The aim, and what is to be said of the ratio of times and of that of instructions.
fn judged(case: &Case, found: [Option<f64>; 2], verdicts: &mut Verdicts) -> Vec<String> {
    let mut cells = vec![case.aim.map_or(NONE.to_string(), |aim| format!("{aim:.2}"))];
    for (what, found) in ["time", "instructions"].into_iter().zip(found) {
        let verdict = case.aim.zip(found).map(|(aim, found)| {
            let of = case.name.split(',').next().unwrap_or("");
            verdicts.judge_ratio(&format!("a call's {what} on the {of} tariff, library/tuned"), found, aim)
        });
        cells.push(verdict.unwrap_or(NONE).to_string());
    }
    cells
}

/// A line for each size, and one that says how much an item more costs.
fn growth(sizes: &str, item: &str, rows: &[&Measured], sides: &[Side]) -> Table {
    let mut head = vec![sizes.to_string()];
    head.extend(headed(sides, compared(sides), "ns"));
    head.extend(headed(sides, compared(sides), "instr."));
    let mut table = Table::of(head);
    for row in rows {
        let mut cells = vec![with_commas(row.case.size as u64)];
        cells.extend(compared(sides).map(|side| ns(row, side)));
        cells.extend(compared(sides).map(|side| instructions(row, side)));
        table.row(cells);
    }
    let mut cells = vec![format!("per {item}")];
    cells.extend(compared(sides).map(|side| slope_of(rows, 2, |row| row.times.as_ref().map(|times| times.ns[side]))));
    let count_of = |row: &Measured, side: usize| row.instructions.as_ref().map(|counts| counts[side] as f64);
    cells.extend(compared(sides).map(|side| slope_of(rows, 1, |row| count_of(row, side))));
    table.row(cells);
    table
}

fn slope_of(rows: &[&Measured], decimals: usize, value: impl Fn(&Measured) -> Option<f64>) -> String {
    let points: Option<Vec<(f64, f64)>> = rows.iter().map(|row| Some((row.case.size as f64, value(row)?))).collect();
    points.map_or(NONE.to_string(), |points| decimal(slope(&points), decimals))
}

fn ns(row: &Measured, side: usize) -> String {
    row.times.as_ref().map_or(NONE.to_string(), |times| whole(times.ns[side]))
}

fn instructions(row: &Measured, side: usize) -> String {
    row.instructions.as_ref().map_or(NONE.to_string(), |counts| with_commas(counts[side]))
}

fn time_ratio(row: &Measured) -> Option<f64> {
    row.times.as_ref().map(|times| times.ns[LIBRARY] / times.ns[TUNED])
}

fn instruction_ratio(row: &Measured) -> Option<f64> {
    row.instructions.as_ref().map(|counts| counts[LIBRARY] as f64 / counts[TUNED] as f64)
}
