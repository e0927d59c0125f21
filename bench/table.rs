//! What is printed: a table for people, and a line `ratio NAME X` for each figure that has two sides.

use crate::figures::{Figure, FIGURES};
use crate::note::Note;
use std::collections::HashMap;

/// For each side of a figure the nanoseconds a unit, one for each repetition.
pub type Times = HashMap<&'static str, Vec<f64>>;

/// For each side of a figure the instructions a unit.
pub type Counts = HashMap<(String, String), f64>;

/// The best of a side's repetitions, and the one in the middle. The best is taken after a hundredth of them: the clock of a virtual
/// machine may stand still for a repetition, which then seems to take no time.
struct Summary {
    best: f64,
    middle: f64,
}

fn summary(times: &Times, side: &str) -> Option<Summary> {
    let mut taken = times.get(side)?.clone();
    taken.sort_by(f64::total_cmp);
    Some(Summary { best: taken[taken.len() / 100], middle: taken[taken.len() / 2] })
}

fn quotient(ours: &Option<Summary>, rust: &Option<Summary>, of: fn(&Summary) -> f64) -> Option<f64> {
    Some(of(ours.as_ref()?) / of(rust.as_ref()?))
}

fn cell(number: Option<f64>, digits: usize) -> String {
    number.map_or("-".to_string(), |number| format!("{number:.digits$}"))
}

/// `SIDE NAME UNITS INSTRUCTIONS` in each line.
pub fn read_counts(lines: &str) -> Counts {
    let count = |line: &str| {
        let words: Vec<&str> = line.split_whitespace().collect();
        let [side, name, units, instructions] = words[..] else { panic!("not a count: {line}") };
        let number = |word: &str| word.parse::<f64>().expect("a count is a number");
        ((side.to_string(), name.to_string()), number(instructions) / number(units))
    };
    lines.lines().map(count).collect()
}

pub fn print(note: &Note, times: &[Times], repetitions: usize) {
    let (words, lines, keys) = (note.words.len(), note.lines.len(), note.space.typed);
    println!("The note: {words} words in {lines} lines, {keys} keys without its spaces and line ends.");
    println!("CPU time, ns a unit: the best of {repetitions} repetitions but for a hundredth (ratio: of the best; middle: of the medians)");
    println!();
    println!("{:40}{:>8}{:>8}{:>8}{:>8}{:>8}", "", "ours", "Rust", "floor", "ratio", "middle");
    let ratios: Vec<_> = FIGURES.iter().zip(times).map(|(figure, times)| (figure.name, row(figure, times))).collect();
    println!();
    for (name, ratio) in ratios {
        if let Some(ratio) = ratio {
            println!("ratio {name} {ratio:.3}");
        }
    }
    println!("ratio call-over-value {:.3}", ours(times, "call-space") / ours(times, "key-space"));
}

/// Prints a figure's row, and answers its ratio.
fn row(figure: &Figure, times: &Times) -> Option<f64> {
    let [ours, rust, floor] = ["ours", "rust", "floor"].map(|side| summary(times, side));
    let ratio = quotient(&ours, &rust, |side| side.best);
    let middle = quotient(&ours, &rust, |side| side.middle);
    let [ours, rust, floor] = [ours, rust, floor].map(|side| cell(side.map(|side| side.best), 1));
    let [best, middle] = [ratio, middle].map(|ratio| cell(ratio, 3));
    println!("{:40}{ours:>8}{rust:>8}{floor:>8}{best:>8}{middle:>8} a {}", figure.what, figure.unit);
    ratio
}

/// Our best time of a figure.
fn ours(times: &[Times], name: &str) -> f64 {
    let place = FIGURES.iter().position(|figure| figure.name == name).expect("there is such a figure");
    summary(&times[place], "ours").expect("ours is always timed").best
}

pub fn print_counts(counts: &Counts) {
    println!("Instructions a unit");
    println!();
    println!("{:40}{:>8}{:>8}{:>8}{:>8}", "", "ours", "Rust", "floor", "ratio");
    for figure in FIGURES {
        let of = |side: &str| counts.get(&(side.to_string(), figure.name.to_string())).copied();
        let ratio = of("ours").and_then(|ours| Some(ours / of("rust")?));
        let [ours, rust, floor] = ["ours", "rust", "floor"].map(|side| cell(of(side), 0));
        println!("{:40}{ours:>8}{rust:>8}{floor:>8}{:>8} a {}", figure.what, cell(ratio, 3), figure.unit);
    }
}
