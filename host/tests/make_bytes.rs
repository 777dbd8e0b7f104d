//! The program `make_bytes`, run on files.

use std::fs;
use std::path::PathBuf;
use std::process::Command;

/// A directory of its own for each test.
struct Directory(PathBuf);

impl Directory {
    fn named(name: &str) -> Directory {
        let path = PathBuf::from(env!("CARGO_TARGET_TMPDIR")).join(name);
        fs::create_dir_all(&path).expect("a directory");
        Directory(path)
    }

    fn write(&self, file: &str, content: &[u8]) {
        fs::write(self.0.join(file), content).expect("a file written");
    }

    fn read(&self, file: &str) -> Vec<u8> {
        fs::read(self.0.join(file)).expect("a file read")
    }

    fn remove(&self, file: &str) {
        let _ = fs::remove_file(self.0.join(file));
    }

    fn has(&self, file: &str) -> bool {
        self.0.join(file).exists()
    }

    fn names(&self) -> Vec<String> {
        let entries = fs::read_dir(&self.0).expect("a folder");
        entries.map(|entry| entry.expect("an entry").file_name().to_string_lossy().into_owned()).collect()
    }

    /// Whether the program succeeds, and what it says on standard error.
    fn run(&self, arguments: &str) -> (bool, String) {
        let mut command = Command::new(env!("CARGO_BIN_EXE_make_bytes"));
        let output = command.current_dir(&self.0).args(arguments.split(' ')).output().expect("a run");
        assert!(output.stdout.is_empty());
        (output.status.success(), String::from_utf8(output.stderr).expect("a text"))
    }
}

const WELL: (bool, String) = (true, String::new());

fn failed(text: &str) -> (bool, String) {
    (false, format!("{text}\n"))
}

#[test]
fn bytes_are_made_and_checked() {
    let directory = Directory::named("bytes");
    directory.write("in.txt", b"stop 1 2 3\nbytes 07\n");
    assert_eq!(directory.run("--raw in.txt out.bin"), WELL);
    assert_eq!(directory.read("out.bin"), [11, 0, 2, 0, 1, 2, 0, 0, 0, 3, 0, 0, 0, 7]);
    assert_eq!(directory.run("--check --raw in.txt out.bin"), WELL);

    directory.write("out.bin", &[11, 0, 2, 9]);
    let told = failed("out.bin is not what in.txt gives: byte 3 is 09, where the text gives 00");
    assert_eq!(directory.run("--check --raw in.txt out.bin"), told);
    assert_eq!(directory.read("out.bin"), [11, 0, 2, 9], "a check writes nothing");
}

#[test]
fn cases_are_made_and_checked() {
    let directory = Directory::named("cases");
    directory.write("cases.txt", b"fresh:\nsettle:\nrecord 3\n= refused 5\n");
    assert_eq!(directory.run("--cases cases.txt stdin stdout"), WELL);
    assert_eq!(directory.read("stdin"), b"B\0\0\0\0S\x04\0\0\0\x02\0\x03\0");
    assert_eq!(directory.read("stdout"), b"refused 5\n");
    assert_eq!(directory.run("--check --cases cases.txt stdin stdout"), WELL);

    directory.write("stdout", b"refused 5");
    let told = failed("stdout is not what cases.txt gives: it has 9 bytes, where the text gives 10");
    assert_eq!(directory.run("--check --cases cases.txt stdin stdout"), told);
}

const TARIFF: &[u8] = b"edition 2000-01-01
area state parent 0 base 180 km 28 valid 360 first 50 child 50 cap none day 3000 bike 500
factor 3 mark 0
stop 0 300000 200000
stop 0 303000 204000
";

fn trip(class: u32, stop: u32) -> String {
    format!("trip 2026-05-04T08:00+02:00 to 2026-05-04T08:20+02:00 class {class} level 0 adults 0 children 0 bikes 0 stops 0 {stop}\n")
}

#[test]
fn faults_are_told() {
    let directory = Directory::named("faults");
    directory.write("tariff.txt", TARIFF);
    directory.write("in.txt", format!("tariff tariff.txt\n{}route\n{}", trip(3, 1), trip(2, 2)).as_bytes());
    let told = "in.txt: line 2: class 3 is not allowed, only 1 or 2
in.txt: line 3: 'route' is no sort of line
in.txt: line 4: there is no stop 2: the tariff's are 0 to 1";
    directory.remove("out.bin");
    assert_eq!(directory.run("in.txt out.bin"), failed(told));
    assert!(!directory.has("out.bin"));
    let (well, told) = directory.run("absent.txt out.bin");
    assert!(!well && told == "absent.txt: No such file or directory (os error 2)\n");
    for (arguments, fault) in [
        ("in.txt", "2 names are due, and not 1"),
        ("--cases in.txt out.bin", "3 names are due, and not 2"),
        ("--chek in.txt out.bin", "'--chek' is unknown"),
        ("--rolls --check in.txt folder", "--rolls goes with no other switch"),
    ] {
        let (well, told) = directory.run(arguments);
        let due = format!("make_bytes: {fault}\nusage: make_bytes [--check] [--raw] IN.txt OUT.bin\n");
        assert!(!well && told.starts_with(&due), "{told}");
    }
}

/// A text with a byte order mark and carriage returns, and its tariff as text and as bytes.
#[test]
fn a_roll_under_its_tariff() {
    let directory = Directory::named("roll");
    directory.write("tariff.txt", TARIFF);
    assert_eq!(directory.run("tariff.txt tariff.bin"), WELL);
    for tariff in ["tariff.txt", "tariff.bin"] {
        let text = format!("\u{feff}tariff {tariff}\r\n{}", trip(2, 1).replace('\n', "\r\n"));
        directory.write("roll.txt", text.as_bytes());
        assert_eq!(directory.run("roll.txt roll.bin"), WELL);
        assert_eq!(directory.read("roll.bin").len(), 28);
    }
    directory.write("roll.txt", format!("tariff other.txt\n{}", trip(2, 1)).as_bytes());
    let told = "roll.txt: line 1: the tariff other.txt: No such file or directory (os error 2)
roll.bin, which was there before, was removed";
    assert_eq!(directory.run("roll.txt roll.bin"), failed(told));
    directory.write("tariff.txt", b"edition 2000-01-01\nstop 0 0 0\n");
    directory.write("roll.txt", format!("tariff tariff.txt\n{}", trip(2, 1)).as_bytes());
    let told =
        "roll.txt: line 1: the tariff tariff.txt has mistakes of its own, the first in line 2: a stop before any area";
    assert_eq!(directory.run("roll.txt roll.bin"), failed(told));
}

#[test]
fn no_text_is_written_over() {
    let directory = Directory::named("over");
    directory.write("in.txt", TARIFF);
    directory.remove("link.bin");
    std::os::unix::fs::symlink("in.txt", directory.0.join("link.bin")).expect("a link");
    for output in ["in.txt", "./in.txt", "link.bin"] {
        let told = failed(&format!("{output} is a text that is read here: nothing was written"));
        assert_eq!(directory.run(&format!("in.txt {output}")), told);
        assert_eq!(directory.read("in.txt"), TARIFF);
    }
    directory.write("cases.txt", b"fresh:\n");
    assert_eq!(directory.run("--cases cases.txt both both"), failed("both is named twice: nothing was written"));
    directory.write("roll.txt", format!("tariff in.txt\n{}", trip(2, 1)).as_bytes());
    let told = failed("in.txt is a text that is read here: nothing was written");
    assert_eq!(directory.run("roll.txt in.txt"), told);
    assert_eq!(directory.read("in.txt"), TARIFF);
}

#[test]
fn a_failed_run_leaves_nothing_stale() {
    let directory = Directory::named("stale");
    directory.write("in.txt", b"route\n");
    directory.write("out.bin", &[7]);
    let told = failed("in.txt: line 1: 'route' is no sort of line\nout.bin, which was there before, was removed");
    assert_eq!(directory.run("in.txt out.bin"), told);
    assert!(!directory.has("out.bin"));
    directory.write("out.bin", &[7]);
    assert_eq!(directory.run("--check in.txt out.bin"), failed("in.txt: line 1: 'route' is no sort of line"));
    assert_eq!(directory.read("out.bin"), [7], "a check removes nothing");
    directory.write("in.txt", TARIFF);
    assert_eq!(directory.run("in.txt /dev/full"), failed("/dev/full: No space left on device (os error 28)"));
    assert_eq!(
        directory.run("in.txt nowhere/out.bin"),
        failed("nowhere/out.bin: No such file or directory (os error 2)")
    );
    assert_eq!(directory.run("in.txt /dev/null"), WELL);
    assert_eq!(directory.run("in.txt out.bin"), WELL);
    let left: Vec<String> = directory.names().into_iter().filter(|name| name.contains("new")).collect();
    assert_eq!(left, [""; 0]);
}

#[test]
fn other_encodings_are_named() {
    let directory = Directory::named("encodings");
    directory.write("in.txt", b"# caf\xe9\n");
    directory.remove("out.bin");
    let told = "in.txt: line 1: the byte e9 is not UTF-8, but Latin-1 or the like; save the text as UTF-8";
    assert_eq!(directory.run("in.txt out.bin"), failed(told));
}
