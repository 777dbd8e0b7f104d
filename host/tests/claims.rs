//! docs/claims/ leads somewhere: the files, names and must-fail edits that its pages point to are there. And nothing is left
//! out: every rule of docs/RULES.md has a table, on the page of its section, and every must-fail edit, file of definitions
//! and public function is named.
//!
//! A rule's table has its number and its words at its head, and a row for each thing that it leads to, behind a label. A row
//! is read in parts, which semicolons end. Behind a `crate/File` stand names of that file: definitions in a row of that
//! label, theorems in the others. Any other part has functions and types of the code, must-fail edits (`crate/label`) and
//! paths. The page of wrong answers is a list, and its items are read likewise.

use std::collections::BTreeSet;
use std::fs;
use std::path::{Path, PathBuf};

fn root() -> PathBuf {
    Path::new(env!("CARGO_MANIFEST_DIR")).join("..")
}

fn text(path: &str) -> String {
    fs::read_to_string(root().join(path)).unwrap_or_default()
}

/// The names in a folder, without their endings, sorted.
fn names(folder: &str) -> Vec<String> {
    let paths = fs::read_dir(root().join(folder)).into_iter().flatten().map(|entry| entry.expect("an entry").path());
    let mut names: Vec<String> =
        paths.map(|path| path.file_stem().expect("a name").to_string_lossy().into_owned()).collect();
    names.sort();
    names
}

/// The pages of claims, by their names.
fn pages() -> Vec<(String, String)> {
    let page = |name: String| {
        let page = text(&format!("docs/claims/{name}.md"));
        (name, page)
    };
    names("docs/claims").into_iter().map(page).collect()
}

/// A crate's code.
fn code(krate: &str) -> String {
    let folder = format!("crates/{krate}/src");
    names(&folder).iter().map(|file| text(&format!("{folder}/{file}.rt"))).collect()
}

/// Whether a text declares a name.
fn declares(text: &str, name: &str) -> bool {
    let kinds = ["pub", "record", "data", "fn", "struct", "enum", "const"];
    let ends = |rest: &str| !rest.starts_with(|c: char| c.is_alphanumeric() || "_-'".contains(c));
    kinds.iter().any(|kind| text.split(&format!("{kind} {name}")).skip(1).any(ends))
}

/// Whether a path of the code is there: in the crate that it begins with, or in any where it begins with none.
fn is_code(path: &str) -> bool {
    let (first, name) = (path.split("::").next().unwrap_or(path), path.rsplit("::").next().unwrap_or(path));
    let (crates, own) = (names("crates"), root().join("crates").join(first).exists());
    crates.iter().any(|krate| (!own || krate == first) && declares(&code(krate), name))
}

/// What stands between two marks of one kind, in order.
fn between<'a>(text: &'a str, mark: &str) -> Vec<&'a str> {
    text.split(mark).skip(1).step_by(2).collect()
}

fn cells(line: &str) -> Vec<&str> {
    line.trim_matches('|').split('|').map(str::trim).collect()
}

/// A page's tables: of each the cells of its head and of its rows.
fn tables(page: &str) -> Vec<(Vec<&str>, Vec<Vec<&str>>)> {
    let blocks = page.split("\n\n").filter(|block| block.starts_with('|'));
    let lines = blocks.map(|block| block.lines().map(cells));
    lines.map(|mut lines| (lines.next().unwrap_or_default(), lines.skip(1).collect())).collect()
}

/// The numbers of rules in a text.
fn rules(text: &str) -> Vec<String> {
    let words = text.split(|c: char| !c.is_ascii_alphanumeric() && c != '.').map(|word| word.trim_end_matches('.'));
    let is_number = |n: &str| n.contains('.') && !n.contains(char::is_alphabetic);
    words.filter(|word| word.strip_prefix('R').is_some_and(is_number)).map(str::to_string).collect()
}

/// What a row or an item points to and is not there. Its files are in this folder of their crates.
fn missing(cell: &str, folder: &str) -> Vec<String> {
    let mut lost = Vec::new();
    for part in cell.split(';') {
        let mut file = None;
        for token in between(part, "`") {
            let (krate, name) = token.split_once('/').unwrap_or(("", token));
            let paths = [token.to_string(), format!("crates/{token}"), format!("crates/{krate}/must-fail/{name}.edit")];
            if !krate.is_empty() && name.starts_with(char::is_uppercase) {
                file = Some(text(&format!("crates/{krate}/{folder}/{name}.antt")));
            }
            let there = match &file {
                Some(body) => !body.is_empty() && (!krate.is_empty() || declares(body, name)),
                None => paths.iter().any(|path| root().join(path).exists()) || is_code(token),
            };
            if !there {
                lost.push(format!("{token}, in '{}'", part.trim()));
            }
        }
    }
    lost
}

/// What a row points to and is not there. Of a rule's table its label says what it may be.
fn missing_in_row(row: &[&str], of_rule: bool) -> Vec<String> {
    let (label, cell) = (row[0], row[1]);
    let is_edit = |token: &&str| root().join("crates").join(token.replace('/', "/must-fail/") + ".edit").exists();
    let right = match label {
        "definition" | "contract" | "theorem" | "see" | "held by" | "" => true,
        "edit" => between(cell, "`").iter().all(is_edit),
        _ => !of_rule,
    };
    let wrong = (!right || row.len() != 2).then(|| format!("no such row: '{}'", row.join(" | ")));
    missing(cell, if label == "definition" { "specs" } else { "proofs" }).into_iter().chain(wrong).collect()
}

/// The items of a page's lists.
fn items(page: &str) -> Vec<&str> {
    page.lines().filter_map(|line| line.trim_start().strip_prefix("- ")).collect()
}

#[test]
fn every_row_leads_somewhere() {
    let mut lost = Vec::new();
    for (name, page) in pages() {
        let of_rule = name.starts_with(|c: char| c.is_ascii_digit());
        let rows = tables(&page).into_iter().flat_map(|(_, rows)| rows);
        lost.extend(rows.flat_map(|row| missing_in_row(&row, of_rule)));
        if name == "two-wrong-answers" {
            lost.extend(items(&page).iter().flat_map(|item| missing(item, "proofs")));
        }
    }
    assert!(lost.is_empty(), "docs/claims/ points to what is not there: {lost:#?}");
}

#[test]
fn nothing_is_left_out() {
    let pages = pages();
    let tokens = pages.iter().flat_map(|(_, page)| between(page, "`"));
    let named: BTreeSet<&str> = tokens.flat_map(|token| token.split("::")).collect();
    let mut lost = Vec::new();
    for krate in names("crates") {
        let files =
            names(&format!("crates/{krate}/specs")).into_iter().filter(|file| file != "Lib" && file != "Clauses");
        let edits = names(&format!("crates/{krate}/must-fail"));
        lost.extend(files.chain(edits).map(|name| format!("{krate}/{name}")));
        if !root().join(format!("crates/{krate}/src/main.rt")).exists() {
            let code = code(&krate);
            let functions = code.split("pub fn ").skip(1).map(|rest| rest.split(['(', '<']).next().unwrap_or_default());
            lost.extend(functions.map(str::to_string));
        }
    }
    lost.retain(|name| !named.contains(name.as_str()));
    assert!(lost.is_empty(), "docs/claims/ does not name these edits, files of definitions and functions: {lost:#?}");
}

/// A rule is told in bold; row n of the refusals is R13.n. The page of section 4 is 04-..., and has the tables of R4.n alone.
#[test]
fn every_rule_has_a_table_on_its_page() {
    let told = text("docs/RULES.md");
    let table = told.split("\n## ").find(|section| section.starts_with("13.")).expect("the refusals");
    let rows = tables(table).into_iter().flat_map(|(_, rows)| rows);
    let refusals = rows.filter_map(|row| row[0].parse::<u32>().ok()).map(|n| format!("R13.{n}"));
    let told: BTreeSet<String> = between(&told, "**").into_iter().flat_map(rules).chain(refusals).collect();
    let mut claimed = BTreeSet::new();
    for (name, page) in pages() {
        let section = name.split('-').next().and_then(|number| number.parse::<u32>().ok());
        for rule in tables(&page).iter().flat_map(|(head, _)| rules(head[0])) {
            let own = section.is_some_and(|section| rule.starts_with(&format!("R{section}.")));
            assert!(own, "{rule} is not of the section of docs/claims/{name}.md");
            claimed.insert(rule);
        }
    }
    let apart: Vec<&String> = told.symmetric_difference(&claimed).collect();
    assert!(apart.is_empty(), "only one of docs/RULES.md and docs/claims/ has these rules: {apart:?}");
}

/// docs/CLAIMS.md leads to every page, and to no other.
#[test]
fn the_index_has_every_page() {
    let index = text("docs/CLAIMS.md");
    let linked = index.split("](claims/").skip(1).filter_map(|rest| rest.split_once(".md)")).map(|(name, _)| name);
    let linked: BTreeSet<String> = linked.map(str::to_string).collect();
    assert_eq!(linked, names("docs/claims").into_iter().collect());
}
