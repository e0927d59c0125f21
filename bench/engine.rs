//! The Rust's sides. What it answers goes to `black_box`, so that all of it is made.

use crate::bamboo::BambooEngine;
use crate::calls::Told;
use crate::input_method::InputMethod;
use crate::note::{Habit, Note, RESET};
use crate::spelling;
use std::hint::black_box;

pub type Engine = BambooEngine;

pub fn new() -> Engine {
    BambooEngine::new(InputMethod::Telex)
}

/// What the keys leave of a fresh composition.
pub fn text_of(engine: &mut Engine, keys: &[u32]) -> String {
    engine.reset();
    let mut text = String::new();
    for &key in keys {
        text = engine.process_key(char::from_u32(key).expect("a key is a letter")).expect("no macro is set");
    }
    text
}

fn typed(engine: &mut Engine, habit: &Habit) -> usize {
    const RESET_CHAR: char = RESET as u8 as char;
    engine.reset();
    for &key in &habit.chars {
        if key == RESET_CHAR {
            engine.reset();
        } else {
            black_box(engine.process_key(key));
        }
    }
    habit.typed
}

pub fn key_space(note: &mut Note) -> usize {
    typed(&mut note.engine, &note.space)
}

pub fn key_line(note: &mut Note) -> usize {
    typed(&mut note.engine, &note.line)
}

pub fn key_one(note: &mut Note) -> usize {
    typed(&mut note.engine, &note.one)
}

pub fn key_capitals(note: &mut Note) -> usize {
    typed(&mut note.engine, &note.capitals)
}

pub fn verdict(note: &mut Note) -> usize {
    for word in &note.words {
        black_box(spelling::is_valid_vietnamese_syllable(&word.text));
    }
    note.words.len()
}

pub fn cut(note: &mut Note) -> usize {
    for word in &note.words {
        black_box(spelling::partition(&word.text));
    }
    note.words.len()
}

/// A line cut at the letters of gaps, and each word judged: how many words, how many judged no, and the place of the first of
/// these.
pub fn told(line: &str) -> Told {
    let is_gap = |letter| matches!(letter, '\t'..='\r' | ' ' | '.' | ',' | '!' | '?' | ';' | ':');
    let (mut words, mut no, mut first, mut place) = (0, 0, None, 0);
    for word in line.split(is_gap) {
        if !word.is_empty() {
            words += 1;
            if !spelling::is_valid_vietnamese_syllable(word) {
                no += 1;
                first.get_or_insert(place);
            }
        }
        place += word.chars().count() + 1;
    }
    (words, no, first.unwrap_or(place - 1))
}

pub fn line(note: &mut Note) -> usize {
    black_box(told(&note.whole.text)).0
}

/// The verdict, and where the onset and the vowels end, as ours answers them.
pub fn verdict_and_cut(word: &str) -> (bool, (usize, usize)) {
    let (onset, vowels, _) = spelling::partition(word);
    let onset = onset.chars().count();
    (spelling::is_valid_vietnamese_syllable(word), (onset, onset + vowels.chars().count()))
}
