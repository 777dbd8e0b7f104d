//! The tables of the programs.

use super::effort::Effort;
use super::inputs::{largest, longest, smallest, three_areas, Network};
use super::programs::{PerProgram, Programs, Site, Times};
use super::rolls::RECORDS;
use super::tables::{decimal, ratio, slope, with_commas, Table, Verdicts, NONE};

/// The aim of the program's ratio to the tuned one.
const AIM: f64 = 1.4;
/// The aim of a trip's cost on the largest tariff against that on one of the same depth.
const AIM_OF_SIZE: f64 = 1.05;

/// Lengths of a roll to see the cost grow with.
const LENGTHS: [usize; 4] = [8_192, 16_384, 32_768, RECORDS];

fn networks() -> [Network; 4] {
    [largest(), three_areas(), longest(), smallest()]
}

/// What the programs cost on one tariff.
struct Run {
    name: &'static str,
    /// The last line that they print.
    tail: String,
    /// A whole run, and one on an empty roll.
    whole: Times,
    empty: Times,
    /// Of each record.
    instructions: Option<PerProgram<f64>>,
}

impl Run {
    /// What each trip costs above an empty roll, in nanoseconds.
    fn per_trip(&self) -> PerProgram<f64> {
        self.whole.ns.iter().zip(&self.empty.ns).map(|(whole, empty)| (whole - empty) / RECORDS as f64).collect()
    }
}

/// Measures the programs and prints their tables.
pub fn report(programs: &Programs, effort: &Effort, counts: bool, verdicts: &mut Verdicts) -> Result<(), String> {
    println!("\n## The program on a roll of {} records\n", with_commas(RECORDS as u64));
    if !programs.run_here {
        eprintln!("THE PROGRAM IS NOT MEASURED: it is for another processor");
        println!("NOT measured: the program is for another processor than this one.");
        verdicts.leave_out("the program, which is for another processor");
        return Ok(());
    }
    let networks = networks();
    let mut runs = Vec::new();
    for network in &networks {
        eprintln!("the programs on the tariff '{}'", network.name);
        runs.push(measure(programs, network, effort, counts)?);
    }
    println!(
        "The same trips on each tariff, but for their stops. A trip's cost leaves out what an empty roll costs.\n"
    );
    println!("{}", table_of(programs, &runs, verdicts));
    for run in &runs {
        println!("- {}: {}", run.name, run.tail);
    }
    let spread = runs.iter().map(|run| run.whole.spread).fold(0.0, f64::max);
    println!("\nThe middle half of a program's runs spans {} % of its median at most.\n", decimal(100.0 * spread, 1));
    print!("{}", size_matters(programs, &runs, verdicts));
    eprintln!("the programs on shorter rolls");
    println!("\n## How the program's cost grows, on the largest tariff\n");
    print!("{}", growth(programs, &Site::new(programs, &networks[0])?, effort, counts && effort.count_long)?);
    Ok(())
}

fn measure(programs: &Programs, network: &Network, effort: &Effort, counts: bool) -> Result<Run, String> {
    let site = Site::new(programs, network)?;
    let printed = site.agree(RECORDS)?;
    let tail = printed.lines().last().unwrap_or("").to_string();
    let whole = site.time(RECORDS, effort)?;
    let empty = site.time(0, effort)?;
    let instructions = if counts { Some(per_record(&site, effort.counted)?) } else { None };
    Ok(Run { name: network.name, tail, whole, empty, instructions })
}

/// The instructions of a record, by the difference of two rolls.
fn per_record(site: &Site, [short, long]: [usize; 2]) -> Result<PerProgram<f64>, String> {
    let (less, more) = (site.count(short)?, site.count(long)?);
    Ok(less.iter().zip(&more).map(|(&less, &more)| (more as f64 - less as f64) / (long - short) as f64).collect())
}

/// Such a heading for each program.
fn headed<'a>(programs: &'a Programs, unit: &'a str) -> impl Iterator<Item = String> + 'a {
    programs.names.iter().map(move |name| format!("{name} {unit}").trim_end().to_string())
}

fn table_of(programs: &Programs, runs: &[Run], verdicts: &mut Verdicts) -> Table {
    let is_judged = programs.names.len() == 2;
    let mut head = vec!["tariff".to_string()];
    head.extend(headed(programs, "ms"));
    head.extend(headed(programs, "ns a trip"));
    head.extend(headed(programs, "instr. a record"));
    if is_judged {
        head.extend(["time settle_roll/tuned_roll", "instr.", "aim", "time", "instr."].map(str::to_string));
    }
    let mut table = Table::of(head);
    for run in runs {
        let mut cells = vec![run.name.to_string()];
        cells.extend(run.whole.ns.iter().map(|ns| decimal(ns / 1e6, 2)));
        cells.extend(run.per_trip().iter().map(|&ns| decimal(ns, 1)));
        cells.extend(counted(programs, run.instructions.as_ref(), |&count| decimal(count, 1)));
        if is_judged {
            cells.extend(judged(run, verdicts));
        }
        table.row(cells);
    }
    table
}

/// The ratios of times and of instructions, the aim and the verdicts.
fn judged(run: &Run, verdicts: &mut Verdicts) -> Vec<String> {
    let found =
        [Some(&run.whole.ns), run.instructions.as_ref()].map(|values| values.map(|values| values[0] / values[1]));
    let mut cells: Vec<String> = found.iter().map(|found| found.map_or(NONE.to_string(), ratio)).collect();
    cells.push(format!("{AIM:.2}"));
    for (what, found) in ["time", "instructions a record"].into_iter().zip(found) {
        let aim = format!("the program's {what}, settle_roll/tuned_roll");
        cells.push(found.map_or(NONE, |found| verdicts.judge_ratio(&aim, found, AIM)).to_string());
    }
    cells
}

/// A cell for each program, also where nothing was counted.
fn counted<T>(programs: &Programs, counts: Option<&PerProgram<T>>, text: impl Fn(&T) -> String) -> PerProgram<String> {
    counts.map_or(vec![NONE.to_string(); programs.names.len()], |counts| counts.iter().map(text).collect())
}

/// The largest and the longest tariff against one that is as deep as any and has next to no records, and the largest against
/// the smallest.
fn size_matters(programs: &Programs, runs: &[Run], verdicts: &mut Verdicts) -> Table {
    let mut head = vec!["cost of a trip".to_string()];
    head.extend(headed(programs, ""));
    head.extend(["settle_roll instr.", "aim", "time", "instr."].map(str::to_string));
    let mut table = Table::of(head);
    let [largest, three_areas, longest, smallest] = runs else { unreachable!("four tariffs") };
    let pairs = [
        (largest, three_areas, Some(AIM_OF_SIZE)),
        (longest, three_areas, Some(AIM_OF_SIZE)),
        (largest, smallest, None),
    ];
    for (run, other, aim) in pairs {
        let found: PerProgram<f64> =
            run.per_trip().iter().zip(other.per_trip()).map(|(cost, other)| cost / other).collect();
        let mut cells = vec![format!("{} / {}", run.name, other.name)];
        cells.extend(found.iter().map(|&found| ratio(found)));
        let instructions = run.instructions.as_ref().zip(other.instructions.as_ref());
        let instructions = instructions.map(|(count, other)| count[0] / other[0]);
        cells.push(instructions.map_or(NONE.to_string(), ratio));
        cells.push(aim.map_or(NONE.to_string(), |aim| format!("{aim:.2}")));
        for (what, found) in [("time", Some(found[0])), ("instructions", instructions)] {
            let what = format!("a trip's {what}, largest or longest tariff / three areas");
            let verdict = aim.zip(found).map(|(aim, found)| verdicts.judge_ratio(&what, found, aim));
            cells.push(verdict.unwrap_or(NONE).to_string());
        }
        table.row(cells);
    }
    table
}

fn growth(programs: &Programs, site: &Site, effort: &Effort, counts: bool) -> Result<Table, String> {
    let mut head = vec!["records".to_string()];
    head.extend(headed(programs, "ms"));
    head.extend(headed(programs, "instr."));
    let mut table = Table::of(head);
    let mut times = Vec::new();
    let mut instructions = Vec::new();
    for records in LENGTHS {
        let Times { ns, .. } = site.time(records, effort)?;
        let count = if counts { Some(site.count(records)?) } else { None };
        let mut cells = vec![with_commas(records as u64)];
        cells.extend(ns.iter().map(|ns| decimal(ns / 1e6, 2)));
        cells.extend(counted(programs, count.as_ref(), |&count| with_commas(count)));
        table.row(cells);
        times.push((records, ns));
        instructions.extend(count.map(|count| (records, count.iter().map(|&count| count as f64).collect())));
    }
    let mut cells = vec![String::from("per record")];
    cells.extend((0..programs.names.len()).map(|program| slope_of(&times, program, " ns")));
    cells.extend((0..programs.names.len()).map(|program| slope_of(&instructions, program, "")));
    table.row(cells);
    Ok(table)
}

/// How much a program's value grows with each record.
fn slope_of(values: &[(usize, PerProgram<f64>)], program: usize, unit: &str) -> String {
    if values.is_empty() {
        return NONE.to_string();
    }
    let points: Vec<(f64, f64)> = values.iter().map(|(records, value)| (*records as f64, value[program])).collect();
    decimal(slope(&points), 1) + unit
}

/// Runs the programs once on short rolls: they have to print what the plain implementation does. The answer is on how
/// many; on none where the program is for another processor.
pub fn agree(programs: &Programs) -> Result<usize, String> {
    const RECORDS: usize = 2_000;
    let networks = networks();
    if !programs.run_here {
        return Ok(0);
    }
    for network in &networks {
        Site::new(programs, network)?.agree_with_plain(RECORDS)?;
    }
    Ok(networks.len())
}
