//! What the arguments of a run ask for.

/// The seeds of the fixed run.
const SEEDS: [u64; 4] = [1, 2, 3, 4];

pub struct Options {
    pub seeds: Vec<u64>,
    /// So many times as many chains.
    pub longer: u64,
    /// Only this part of each seed, each case printed before it is run.
    pub part: Option<u64>,
    /// Arguments that are no switches.
    pub names: Vec<String>,
}

pub const USAGE: &str = "  --longer N   N times as many chains
  --seed S     this seed instead of the fixed ones
  --part P     only this part, each case printed before it is run";

impl Options {
    pub fn of(mut arguments: impl Iterator<Item = String>) -> Result<Options, String> {
        let mut options = Options { seeds: SEEDS.to_vec(), longer: 1, part: None, names: Vec::new() };
        while let Some(argument) = arguments.next() {
            let mut number = || {
                let word = arguments.next().ok_or(format!("{argument} needs a number"))?;
                word.parse::<u64>().map_err(|_| format!("'{word}' is not a number"))
            };
            match argument.as_str() {
                "--longer" => options.longer = number()?.max(1),
                "--seed" => options.seeds = vec![number()?],
                "--part" => options.part = Some(number()?),
                _ if argument.starts_with("--") => return Err(format!("{argument} is unknown")),
                _ => options.names.push(argument),
            }
        }
        Ok(options)
    }
}
