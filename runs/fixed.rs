//! The fixed lists: answers of the oracle as text, which tests/replay reads with no Rust at hand.

use crate::{oracle, Subject};
use std::collections::HashSet;
use std::path::PathBuf;
use std::process::ExitCode;

pub fn code(number: u32) -> String {
    format!("U+{number:04X}")
}

pub fn byte(byte: u8) -> String {
    format!("{byte:02X}")
}

pub fn yes_no(yes: u32) -> String {
    (if yes == 1 { "yes" } else { "no" }).to_string()
}

pub fn refused(number: u32) -> String {
    format!("refused {number}")
}

/// Items with blanks between, or `nothing`; one that stands five times or more in a row is written once, as `61*256`.
pub fn spaced<T: PartialEq + Copy>(items: impl Iterator<Item = T>, show: fn(T) -> String) -> String {
    let items: Vec<T> = items.collect();
    if items.is_empty() {
        return "nothing".to_string();
    }
    let runs = items.chunk_by(PartialEq::eq).flat_map(|run| match run.len() {
        length if length < 5 => vec![show(run[0]); length],
        length => vec![format!("{}*{length}", show(run[0]))],
    });
    runs.collect::<Vec<String>>().join(" ")
}

/// A letter or a digit as itself, and any other number as a code point.
pub fn sign(number: u32) -> String {
    let itself = oracle::letter(number).ok().filter(|letter| letter.is_alphanumeric());
    itself.map_or_else(|| code(number), String::from)
}

/// Letters in brackets, to be read at a glance: `[ dad ]`, `[ a U+002E s ]`, `[ b*96 ]`, `[ ]`.
pub fn bracketed(letters: &[u32]) -> String {
    let mut text = "[".to_string();
    let mut joins = false;
    for run in letters.chunk_by(PartialEq::eq) {
        let (shown, often) = (sign(run[0]), run.len() >= 5);
        let single = shown.chars().count() == 1 && !often;
        text.push_str(if joins && single { "" } else { " " });
        text.push_str(&match (single, often) {
            (true, _) => shown.repeat(run.len()),
            (false, false) => vec![shown; run.len()].join(" "),
            (false, true) => format!("{shown}*{}", run.len()),
        });
        joins = single;
    }
    text + " ]"
}

/// The printable letters of a line that has code points alone, as a remark for its reader.
fn remark(line: &str) -> String {
    if line.contains('[') {
        return String::new();
    }
    let codes = line.split([' ', '*']).filter_map(|word| u32::from_str_radix(word.strip_prefix("U+")?, 16).ok());
    let letters = codes.filter_map(|code| oracle::letter(code).ok());
    let printable = |letter: &char| !letter.is_control() && !letter.is_whitespace();
    let letters: Vec<String> = letters.filter(printable).map(String::from).collect();
    if letters.is_empty() { String::new() } else { format!("  # {}", letters.join(" ")) }
}

fn path(subject: &Subject) -> PathBuf {
    PathBuf::from("tests/fixed").join(subject.name).with_extension("txt")
}

fn text(subject: &Subject) -> String {
    let name = subject.name;
    let head = format!("# The oracle's answers on {name}, written by runs/compare --write-fixed. README.md says how.\n");
    let mut said = HashSet::new();
    let new = |line: &String| said.insert(line.clone());
    let remarked = |line: String| format!("{line}{}\n", remark(&line));
    head + &(subject.fixed)().into_iter().filter(new).map(remarked).collect::<String>()
}

pub fn write<'a>(subjects: impl Iterator<Item = &'a Subject>) -> ExitCode {
    for subject in subjects {
        let text = text(subject);
        std::fs::write(path(subject), &text).expect("tests/fixed can be written");
        println!("{}: {} answers written", path(subject).display(), text.lines().count() - 1);
    }
    ExitCode::SUCCESS
}

pub fn check<'a>(subjects: impl Iterator<Item = &'a Subject>) -> ExitCode {
    let mut stale = false;
    for subject in subjects {
        let (kept, text) = (std::fs::read_to_string(path(subject)).unwrap_or_default(), text(subject));
        let differ = kept != text;
        stale |= differ;
        let verdict = if differ { "is not what the oracle writes" } else { "as the oracle writes it" };
        println!("{}: {verdict}", path(subject).display());
    }
    if stale { ExitCode::FAILURE } else { ExitCode::SUCCESS }
}
