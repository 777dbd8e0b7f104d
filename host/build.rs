//! Feature `library`: links libmilecopper.a and c/painted.c. Feature `planted`: makes the copies of the model that have an
//! error planted.

#[path = "src/planted/edits.rs"]
mod edits;

use std::path::{Path, PathBuf};
use std::process::Command;
use std::{env, fs};

fn main() {
    println!("cargo::rerun-if-changed=build.rs");
    let package = PathBuf::from(env::var_os("CARGO_MANIFEST_DIR").expect("cargo says where the package is"));
    if env::var_os("CARGO_FEATURE_LIBRARY").is_some() {
        link_library(&package);
        link_painted(&package);
    }
    if env::var_os("CARGO_FEATURE_PLANTED").is_some() {
        let out = PathBuf::from(env::var_os("OUT_DIR").expect("cargo says where to write"));
        plant(&package, &out);
    }
}

/// MILECOPPER_LIB_DIR is the archive's directory, seen from the package; ../target/native/archive unless set.
fn link_library(package: &Path) {
    println!("cargo::rerun-if-env-changed=MILECOPPER_LIB_DIR");
    let directory = package.join(env::var("MILECOPPER_LIB_DIR").unwrap_or("../target/native/archive".to_string()));
    let archive = directory.join("libmilecopper.a");
    println!("cargo::rerun-if-changed={}", archive.display());
    if archive.is_file() {
        println!("cargo::rustc-link-search=native={}", directory.display());
        println!("cargo::rustc-link-lib=static=milecopper");
    } else {
        println!("cargo::error={} is not there: set MILECOPPER_LIB_DIR to its directory", archive.display());
    }
}

/// c/painted.c, where a call can be made on a painted stack.
fn link_painted(package: &Path) {
    let source = package.join("c/painted.c");
    println!("cargo::rerun-if-changed={}", source.display());
    let processor = env::var("CARGO_CFG_TARGET_ARCH").expect("cargo says for which processor");
    if !["x86_64", "aarch64"].contains(&processor.as_str()) {
        return;
    }
    let out = PathBuf::from(env::var_os("OUT_DIR").expect("cargo says where to write"));
    let (object, archive) = (out.join("painted.o"), out.join("libpainted.a"));
    let made = |command: &mut Command| command.status().is_ok_and(|status| status.success());
    assert!(
        made(Command::new("gcc").args(["-O2", "-Wall", "-Wextra", "-Werror", "-c", "-o"]).args([&object, &source])),
        "c/painted.c"
    );
    assert!(made(Command::new("ar").arg("rcs").args([&archive, &object])), "libpainted.a");
    println!("cargo::rustc-link-search=native={}", out.display());
    println!("cargo::rustc-link-lib=static=painted");
}

/// For each planted error a copy of the model's files with its edits, and one file that names them all.
fn plant(package: &Path, out: &Path) {
    println!("cargo::rerun-if-changed=src");
    let mut modules = String::new();
    let mut copies = String::new();
    for edits::Planted { name, edits } in &edits::PLANTED {
        let directory = out.join(name);
        fs::create_dir_all(&directory).expect("a directory for the copy");
        for file in model_files(package) {
            let file_name = file.file_name().and_then(|name| name.to_str()).expect("a file's name");
            let mut text = fs::read_to_string(&file).expect("a file of the model");
            for (_, from, to) in edits.iter().filter(|edit| edit.0 == file_name) {
                assert_eq!(text.matches(from).count(), 1, "{name}: the text to replace in {file_name}");
                text = text.replace(from, to);
            }
            fs::write(directory.join(file_name), text).expect("a file of the copy");
        }
        let copy = directory.join("model.rs");
        modules += &format!("#[allow(warnings)]\n#[path = {copy:?}]\nmod {name};\n");
        let told = |call: &str| {
            let refusal = "model::Refusal { number: refusal.number, place: refusal.place }";
            format!("number_of({name}::{call}.map_err(|refusal| {refusal}))")
        };
        copies += &format!(
            "    ({name:?}, Functions {{
        check: |tariff| {},
        settle: |tariff, book, trip, statement| {},
        quote: |tariff, book, trip, statement| {},
        post: |tariff, book, trip, record| {},
        read: |statement, at, fields| {},
        add: |page, association, member| {},
        close: |page, association, member| {},
        settle_member: |tariff, page, association, member, trip, statement| {},
        settle_month: |ceiling, kept, tariff, book, trip, statement, due| {},
        correct: |tariff, roll, n, replacement, statements, differences| {},
    }}),\n",
            told("check_tariff(tariff)"),
            told("settle(tariff, book, trip, statement)"),
            told("quote(tariff, book, trip, statement)"),
            told("post(tariff, book, trip, record)"),
            told("read(statement, at, fields)"),
            told("add(page, association, member)"),
            told("close(page, association, member)"),
            told("settle_member(tariff, page, association, member, trip, statement)"),
            told("settle_month(ceiling, kept, tariff, book, trip, statement, due)"),
            told("correct(tariff, roll, n, replacement, statements, differences)"),
        );
    }
    let many = edits::PLANTED.len();
    let text = format!("{modules}\nconst COPIES: [(&str, Functions); {many}] = [\n{copies}];\n");
    fs::write(out.join("planted.rs"), text).expect("the file that names the copies");
}

/// src/model.rs and the files of src/model/.
fn model_files(package: &Path) -> Vec<PathBuf> {
    let directory = fs::read_dir(package.join("src/model")).expect("the model's directory");
    let files = directory.map(|entry| entry.expect("an entry").path());
    files.chain([package.join("src/model.rs")]).collect()
}
