//! The program that settles a roll, beside the tuned one that prints the same text where that is not left out.

use super::counting::count_program;
use super::effort::Effort;
use super::inputs::Network;
use super::machine::time_of_programs;
use super::rolls::roll;
use super::room::Room;
use super::timing::{median, spread};
use milecopper_host::model::settle_roll;
use std::fs::{self, File, OpenOptions};
use std::io::Read;
use std::path::{Path, PathBuf};
use std::process::{Command, Stdio};
use std::{env, io};

/// One value for the proved program, and one for the tuned one where it is measured.
pub type PerProgram<T> = Vec<T>;

/// What a run takes of each program. It is the processor's time for it, which others at work change less than the time
/// that passes.
pub struct Times {
    /// The medians, in nanoseconds.
    pub ns: PerProgram<f64>,
    /// What the middle half of a program's runs spans, as a part of its median: the larger of them.
    pub spread: f64,
}

/// `settle_roll`, and `tuned_roll` beside this program. MILECOPPER_PROGRAM is the first one's path, seen from this
/// package's folder: ../../target/native/settle_roll unless set.
pub struct Programs {
    pub names: PerProgram<&'static str>,
    pub paths: PerProgram<PathBuf>,
    /// The toolchain makes programs for x86-64, which run nowhere else but under an emulator.
    pub run_here: bool,
}

impl Programs {
    pub fn find(with_tuned: bool) -> Result<Programs, String> {
        let own = env::current_exe().map_err(|error| format!("this program cannot be found: {error}"))?;
        let program = env::var("MILECOPPER_PROGRAM").unwrap_or("../../target/native/settle_roll".to_string());
        let mut names = vec!["settle_roll"];
        let mut paths = vec![package().join(program)];
        if with_tuned {
            names.push("tuned_roll");
            paths.push(own.with_file_name("tuned_roll"));
        }
        if let Some(path) = paths.iter().find(|path| !path.is_file()) {
            return Err(format!("{} is not there: host/benchmark builds it", path.display()));
        }
        let run_here = processor_of(&paths[0])? == processor_of(&own)?;
        Ok(Programs { names, paths, run_here })
    }
}

/// Of the file of a program, the number that says for which processor it is.
fn processor_of(program: &Path) -> Result<[u8; 2], String> {
    let mut head = [0; 20];
    File::open(program).and_then(|mut file| file.read_exact(&mut head)).map_err(|error| told(program, error))?;
    Ok([head[18], head[19]])
}

/// This package's folder.
pub fn package() -> &'static Path {
    Path::new(env!("CARGO_MANIFEST_DIR"))
}

/// A folder with a tariff and rolls, in which the programs are run.
pub struct Site<'a> {
    programs: &'a Programs,
    network: &'a Network,
    room: Room,
}

impl Site<'_> {
    pub fn new<'a>(programs: &'a Programs, network: &'a Network) -> Result<Site<'a>, String> {
        let room = Room::new()?;
        write(&room.path().join("tariff.bin"), &network.tariff)?;
        Ok(Site { programs, network, room })
    }

    /// The file of a roll of so many records.
    fn roll(&self, records: usize) -> Result<PathBuf, String> {
        let file = self.room.path().join(format!("roll-{records}.bin"));
        if !file.is_file() {
            write(&file, &roll(self.network, records))?;
        }
        Ok(file)
    }

    /// The programs have to print the same, byte for byte; the answer is what they print.
    pub fn agree(&self, records: usize) -> Result<String, String> {
        let roll = self.roll(records)?;
        let mut texts = Vec::new();
        for program in &self.programs.paths {
            let out = self.room.path().join("printed");
            let printed = File::create(&out).map_err(|error| told(&out, error))?;
            self.run(program, &roll, printed)?;
            texts.push(fs::read_to_string(&out).map_err(|error| told(&out, error))?);
        }
        if let [printed, tuned] = &texts[..] {
            if printed != tuned {
                return Err(differ("settle_roll", printed, "tuned_roll", tuned, self.network));
            }
        }
        Ok(texts.swap_remove(0))
    }

    /// As [`Site::agree`], and the plain implementation says the same too.
    pub fn agree_with_plain(&self, records: usize) -> Result<(), String> {
        let printed = self.agree(records)?;
        let plain = settle_roll(&self.network.tariff, &roll(self.network, records));
        if printed != plain {
            return Err(differ("settle_roll", &printed, "the plain implementation", &plain, self.network));
        }
        Ok(())
    }

    /// Times the runs of each program on a roll; two take turns at being the first.
    pub fn time(&self, records: usize, effort: &Effort) -> Result<Times, String> {
        let roll = self.roll(records)?;
        let out = self.room.path().join("written");
        let many = self.programs.paths.len();
        let mut times = vec![Vec::new(); many];
        for turn in 0..=effort.runs {
            for program in (0..many).map(|program| (turn + program) % many) {
                // The file is never cut, so that no run makes it grow but the first, which does not count.
                let printed = OpenOptions::new().write(true).create(true).truncate(false).open(&out);
                let printed = printed.map_err(|error| told(&out, error))?;
                let before = time_of_programs();
                self.run(&self.programs.paths[program], &roll, printed)?;
                let time = time_of_programs() - before;
                if turn > 0 {
                    times[program].push(time.as_nanos() as f64);
                }
            }
        }
        let spread = times.iter().cloned().map(spread).fold(0.0, f64::max);
        Ok(Times { ns: times.into_iter().map(median).collect(), spread })
    }

    /// The instructions of a whole run of each program.
    pub fn count(&self, records: usize) -> Result<PerProgram<u64>, String> {
        let roll = self.roll(records)?;
        let count = |program: &PathBuf| count_program(program, self.room.path(), &roll, &self.room);
        self.programs.paths.iter().map(count).collect()
    }

    fn run(&self, program: &Path, roll: &Path, printed: File) -> Result<(), String> {
        let roll = File::open(roll).map_err(|error| told(roll, error))?;
        let mut command = Command::new(program);
        command.current_dir(self.room.path()).stdin(roll).stdout(printed).stderr(Stdio::inherit());
        let status = command.status().map_err(|error| told(program, error))?;
        if status.success() {
            Ok(())
        } else {
            Err(format!("{} ended with {status}", program.display()))
        }
    }
}

fn write(file: &Path, bytes: &[u8]) -> Result<(), String> {
    fs::write(file, bytes).map_err(|error| told(file, error))
}

fn told(file: &Path, error: io::Error) -> String {
    format!("{}: {error}", file.display())
}

/// The first line in which two texts differ.
fn differ(one: &str, text: &str, other: &str, other_text: &str, network: &Network) -> String {
    let pairs = text.lines().chain([""]).zip(other_text.lines().chain([""]));
    let (line, other_line) = pairs.into_iter().find(|(line, other)| line != other).unwrap_or(("more", "less"));
    format!("under the {} tariff {one} prints '{line}', {other} '{other_line}'", network.name)
}
