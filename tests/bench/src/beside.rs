//! Another build of the library beside this one, on the same sheets, in turn. Their reports are not compared: the rules may differ.
//! A shape whose sheets one of them refuses has no line: an older build knows no mode but distance.

use bench::library::other;

use super::*;

fn heading_of(first: &str, unit: &str) {
    let columns = ["refinements", unit, "µs a refinement"];
    let columns = columns.map(|column| format!("{column}, other | {column}, this"));
    println!("\n| {first} | {} | ratio |", columns.join(" | "));
    println!("|---|---|---|---|---|---|---|---|");
}

pub fn heading(first: &str) {
    heading_of(first, "µs a sheet");
}

pub fn pieces_heading(first: &str) {
    heading_of(first, "µs");
}

/// A line of what both made and took, this build first. The ratio is by the refinement if both made any, else by the whole.
fn row(name: &str, [made, other_made]: [f64; 2], medians: Medians<2>) {
    let [took, other_took] = medians.times;
    let [_, mut ratio] = medians.ratios;
    if made > 0.0 && other_made > 0.0 {
        ratio *= other_made / made;
    }
    println!(
        "| {name} | {other_made:.0} | {made:.0} | {other_took:.1} | {took:.1} | {} | {} | {ratio:.2} |",
        each(other_took, other_made),
        each(took, made)
    );
}

/// Whether both builds accept the sheets of a shape.
fn both_accept(shape: &Shape) -> bool {
    let sheet = sheets::sheet(shape, 1);
    let refuses = |report| text(report, &sheet).starts_with(b"refused");
    !refuses(library::report) && !refuses(other::report)
}

pub fn line(name: &str, shape: &Shape) {
    if !both_accept(shape) {
        return;
    }
    let sheets = seeded(shape);
    let sides: [Report; 2] = [library::report, other::report];
    let steps = sides.map(|side| refinements(side, &sheets));
    row(name, steps, measure(sides, &sheets));
}

pub fn pieces_line(name: &str, shape: &Shape) {
    if !both_accept(shape) {
        return;
    }
    let rows = sheets::first_table(shape, 1);
    let piece = eighth(shape);
    let sides: [Calls; 2] = [(library::open, library::run), (other::open, other::run())];
    let made = |side| pieces(side, &rows, piece, &mut Tree::new());
    let steps = sides.map(|side| made(side).iter().map(|answer| answer.count as f64).sum());
    row(name, steps, measure_pieces(sides, &rows, piece));
}
