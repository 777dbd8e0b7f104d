//! The drawing of which crate uses which (docs/crates.svg), made of crates.txt: each crate above all that it uses, and a line
//! to each that it does not reach by way of another. Lines that pass rows have a place in each, so that none runs through
//! a crate; the places are then moved until few lines cross.

use std::collections::BTreeSet;
use std::fmt::Write;

const ROW: i32 = 72; // from one row to the next
const BOX: i32 = 30; // a crate's height
const GAP: i32 = 20; // between two places
const EDGE: i32 = 28; // free at the sides

/// A crate or, where a line only passes a row, none.
struct Place {
    name: Option<String>,
    row: usize,
    x: f64,
}

impl Place {
    fn width(&self) -> i32 {
        self.name.as_ref().map_or(4, |name| 9 * name.len() as i32 + 22)
    }
}

/// Places by rows, the lowest first, each row from left to right; and lines, each from a place to one in the row below.
struct Layout {
    places: Vec<Place>,
    rows: Vec<Vec<usize>>,
    lines: Vec<(usize, usize)>,
}

/// The drawing. Programs look otherwise than libraries.
pub fn drawing_of(crates: &str, is_program: &dyn Fn(&str) -> bool) -> String {
    let (names, uses) = read(crates);
    let mut layout = laid_out(&names, &direct(&uses));
    put_in_order(&mut layout);
    put_in_place(&mut layout);
    svg_of(&layout, is_program)
}

// ---- The crates

/// Each crate's name, and those that it uses, by their places in the list; the toolchain's own are left out.
fn read(crates: &str) -> (Vec<&str>, Vec<Vec<usize>>) {
    let lines = crates.lines().filter(|line| !line.starts_with('#'));
    // a static library has a word behind its name
    let parted = lines.filter_map(|line| line.split_once(':'));
    let parted: Vec<(&str, &str)> =
        parted.map(|(name, below)| (name.split_whitespace().next().unwrap_or_default(), below)).collect();
    let names: Vec<&str> = parted.iter().map(|(name, _)| *name).collect();
    let place = |name: &str| names.iter().position(|other| *other == name);
    let uses = parted.iter().map(|(_, below)| below.split_whitespace().filter_map(place).collect()).collect();
    (names, uses)
}

/// Of those that a crate uses, the ones that it does not reach by way of another. The list has each crate behind all that
/// it uses.
fn direct(uses: &[Vec<usize>]) -> Vec<Vec<usize>> {
    let mut reached: Vec<BTreeSet<usize>> = Vec::new();
    for below in uses {
        let further = below.iter().flat_map(|&used| reached[used].iter().copied());
        let all = further.chain(below.iter().copied()).collect();
        reached.push(all);
    }
    let needed = |below: &[usize], to: usize| !below.iter().any(|&other| reached[other].contains(&to));
    uses.iter().map(|below| below.iter().copied().filter(|&to| needed(below, to)).collect()).collect()
}

/// Each crate's row: above all that it uses; one that uses none, right below the lowest that uses it.
fn rows_of(uses: &[Vec<usize>]) -> Vec<usize> {
    let mut rows: Vec<usize> = Vec::new();
    for below in uses {
        rows.push(below.iter().map(|&used| rows[used] + 1).max().unwrap_or(0));
    }
    let lowest_user = |of: usize| (0..uses.len()).filter(|&user| uses[user].contains(&of)).map(|user| rows[user]).min();
    let row = |of: usize| if uses[of].is_empty() { lowest_user(of).map_or(0, |row| row - 1) } else { rows[of] };
    (0..uses.len()).map(row).collect()
}

fn laid_out(names: &[&str], uses: &[Vec<usize>]) -> Layout {
    let place = |name: &&str, row: usize| Place { name: Some(name.to_string()), row, x: 0.0 };
    let mut places: Vec<Place> = names.iter().zip(rows_of(uses)).map(|(name, row)| place(name, row)).collect();
    let mut lines = Vec::new();
    for (user, below) in uses.iter().enumerate() {
        for &used in below {
            let mut from = user;
            for row in (places[used].row + 1..places[user].row).rev() {
                places.push(Place { name: None, row, x: 0.0 });
                lines.push((from, places.len() - 1));
                from = places.len() - 1;
            }
            lines.push((from, used));
        }
    }
    let highest = places.iter().map(|place| place.row).max().unwrap_or(0);
    let in_row = |row: usize| (0..places.len()).filter(|&at| places[at].row == row).collect();
    Layout { rows: (0..=highest).map(in_row).collect(), places, lines }
}

// ---- Their order

/// The places that lines lead to from here, in the row above or below.
fn neighbours(layout: &Layout, at: usize) -> (Vec<usize>, Vec<usize>) {
    let up = layout.lines.iter().filter(|(_, low)| *low == at).map(|(high, _)| *high).collect();
    let down = layout.lines.iter().filter(|(high, _)| *high == at).map(|(_, low)| *low).collect();
    (up, down)
}

/// Sorts each row by where its neighbours stand, over and over, and keeps the order in which the fewest lines cross.
fn put_in_order(layout: &mut Layout) {
    let mut best = (crossings(layout), layout.rows.clone());
    for turn in 0..60 {
        let upwards = turn % 2 == 0;
        for step in 0..layout.rows.len() {
            let row = if upwards { step } else { layout.rows.len() - 1 - step };
            sort_row(layout, row, upwards);
        }
        let found = crossings(layout);
        if found < best.0 {
            best = (found, layout.rows.clone());
        }
    }
    layout.rows = best.1;
}

fn sort_row(layout: &mut Layout, row: usize, by_lower: bool) {
    let position = positions(layout);
    let wish = |at: usize| {
        let (up, down) = neighbours(layout, at);
        let near = if by_lower { down } else { up };
        let sum: usize = near.iter().map(|&other| position[other]).sum();
        if near.is_empty() {
            position[at] as f64
        } else {
            sum as f64 / near.len() as f64
        }
    };
    let mut wishes: Vec<(f64, usize)> = layout.rows[row].iter().map(|&at| (wish(at), at)).collect();
    wishes.sort_by(|one, other| one.0.total_cmp(&other.0));
    layout.rows[row] = wishes.into_iter().map(|(_, at)| at).collect();
}

/// Where each place stands in its row.
fn positions(layout: &Layout) -> Vec<usize> {
    let mut position = vec![0; layout.places.len()];
    for row in &layout.rows {
        for (i, &at) in row.iter().enumerate() {
            position[at] = i;
        }
    }
    position
}

fn crossings(layout: &Layout) -> usize {
    let position = positions(layout);
    let cross = |one: &(usize, usize), other: &(usize, usize)| {
        let same = layout.places[one.0].row == layout.places[other.0].row;
        same && position[one.0] < position[other.0] && position[one.1] > position[other.1]
    };
    layout.lines.iter().map(|one| layout.lines.iter().filter(|other| cross(one, other)).count()).sum()
}

// ---- Their places

/// Moves each place near its neighbours as far as the others of its row let it.
fn put_in_place(layout: &mut Layout) {
    for turn in 0..200 {
        for step in 0..layout.rows.len() {
            let row = if turn % 2 == 0 { step } else { layout.rows.len() - 1 - step };
            let own = layout.rows[row].clone();
            let wish = |at: usize| {
                let (up, down) = neighbours(layout, at);
                let near: Vec<usize> = up.into_iter().chain(down).collect();
                let sum: f64 = near.iter().map(|&other| layout.places[other].x).sum();
                if near.is_empty() {
                    layout.places[at].x
                } else {
                    sum / near.len() as f64
                }
            };
            let wishes: Vec<f64> = own.iter().map(|&at| wish(at)).collect();
            for (&at, x) in own.iter().zip(apart(layout, &own, &wishes)) {
                layout.places[at].x = x;
            }
        }
    }
    let left = |place: &Place| place.x - f64::from(place.width()) / 2.0;
    let first = layout.places.iter().map(left).fold(f64::MAX, f64::min);
    for place in &mut layout.places {
        place.x += f64::from(EDGE) - first;
    }
}

/// The middle between the two ways to keep a row's places apart: each pushes to the right, or each to the left.
fn apart(layout: &Layout, own: &[usize], wishes: &[f64]) -> Vec<f64> {
    let width = |i: usize| f64::from(layout.places[own[i]].width());
    let due = |i: usize| (width(i - 1) + width(i)) / 2.0 + f64::from(GAP);
    let (mut right, mut left) = (wishes.to_vec(), wishes.to_vec());
    for i in 1..own.len() {
        right[i] = right[i].max(right[i - 1] + due(i));
    }
    for i in (1..own.len()).rev() {
        left[i - 1] = left[i - 1].min(left[i] - due(i));
    }
    right.iter().zip(&left).map(|(one, other)| (one + other) / 2.0).collect()
}

// ---- The picture

const STYLE: &str = "text { font: 14px ui-monospace, SFMono-Regular, Menlo, Consolas, monospace; fill: #211f1c; }
text { text-anchor: middle; }
.paper { fill: #fff; stroke: #ddd7cc; }
.library { fill: #fbf5ef; stroke: #93481f; }
.program { fill: #93481f; stroke: #93481f; }
.of-program { fill: #fff; }
path { fill: none; stroke: #a79f93; stroke-width: 1.2; }";

fn svg_of(layout: &Layout, is_program: &dyn Fn(&str) -> bool) -> String {
    let right = layout.places.iter().map(|place| place.x as i32 + place.width() / 2).max().unwrap_or(0);
    let (width, height) = (right + EDGE, layout.rows.len() as i32 * ROW - ROW + BOX + 2 * EDGE);
    let top = |row: usize| EDGE + (layout.rows.len() - 1 - row) as i32 * ROW;
    let mut svg = format!(
        "<svg xmlns=\"http://www.w3.org/2000/svg\" role=\"img\" width=\"{width}\" height=\"{height}\" viewBox=\"0 0 {width} {height}\">
<title>Which crate uses which</title>
<style>\n{STYLE}\n</style>
<rect class=\"paper\" x=\"0.5\" y=\"0.5\" width=\"{}\" height=\"{}\" rx=\"10\"/>\n",
        width - 1,
        height - 1
    );
    for &(high, low) in &layout.lines {
        svg.push_str(&line_of(&layout.places[high], &layout.places[low], &top));
    }
    for row in layout.rows.iter().rev() {
        for place in row.iter().map(|&at| &layout.places[at]) {
            svg.push_str(&box_of(place, top(place.row), is_program));
        }
    }
    svg + "</svg>\n"
}

/// A line from under one place to the top of another; through a place that only passes a row it goes straight down.
fn line_of(high: &Place, low: &Place, top: &dyn Fn(usize) -> i32) -> String {
    let ([from, to], [start, end]) = ([high.x as i32, low.x as i32], [top(high.row) + BOX, top(low.row)]);
    let middle = (start + end) / 2;
    let begin = if high.name.is_none() { start - BOX } else { start };
    format!("<path d=\"M{from} {begin}V{start}C{from} {middle} {to} {middle} {to} {end}\"/>\n")
}

fn box_of(place: &Place, y: i32, is_program: &dyn Fn(&str) -> bool) -> String {
    let mut drawn = String::new();
    if let Some(name) = &place.name {
        let (x, width) = (place.x as i32, place.width());
        let (look, text) = if is_program(name) { ("program", " class=\"of-program\"") } else { ("library", "") };
        let left = x - width / 2;
        let _ = writeln!(
            drawn,
            "<rect class=\"{look}\" x=\"{left}\" y=\"{y}\" width=\"{width}\" height=\"{BOX}\" rx=\"6\"/>"
        );
        let _ = writeln!(drawn, "<text{text} x=\"{x}\" y=\"{}\">{name}</text>", y + 20);
    }
    drawn
}
