//! What is timed: ours, the Rust's, and for a key the floor, each over the whole note. A side answers how many units it
//! did.

use crate::calls::{self, State, Typist};
use crate::note::{Habit, Note, DRAFTED, LETTER, PART, ROOM, TIMES, TONE};
use std::hint::black_box;

pub type Side = fn(&mut Note) -> usize;

pub struct Figure {
    pub name: &'static str,
    pub what: &'static str,
    pub unit: &'static str,
    ours: Side,
    rust: Option<Side>,
    floor: Option<Side>,
}

impl Figure {
    /// The sides that there are, with their names.
    pub fn sides(&self) -> Vec<(&'static str, Side)> {
        let sides = [("ours", Some(self.ours)), ("rust", self.rust), ("floor", self.floor)];
        sides.into_iter().filter_map(|(name, side)| Some((name, side?))).collect()
    }
}

#[cfg(engine)]
macro_rules! engine {
    ($side:ident) => {
        Some(crate::engine::$side)
    };
}

#[cfg(not(engine))]
macro_rules! engine {
    ($side:ident) => {
        None
    };
}

/// Of one key by itself: the floor is what is done beside the key, and to be taken off.
const fn alone(name: &'static str, what: &'static str, ours: Side, floor: Side) -> Figure {
    Figure { name, what, unit: "key", ours, rust: None, floor: Some(floor) }
}

#[rustfmt::skip]
pub const FIGURES: &[Figure] = &[
    Figure { name: "key-space", what: "key by value, reset at each space", unit: "key",
        ours: key_space, rust: engine!(key_space), floor: Some(floor_space) },
    Figure { name: "key-line", what: "key by value, reset at each line's end", unit: "key",
        ours: key_line, rust: engine!(key_line), floor: Some(floor_line) },
    Figure { name: "key-one", what: "key by value, reset at the 97th cell", unit: "key",
        ours: key_one, rust: engine!(key_one), floor: Some(floor_one) },
    Figure { name: "key-inner-space", what: "inner key, reset at each space", unit: "key",
        ours: key_inner_space, rust: engine!(key_space), floor: Some(floor_space) },
    Figure { name: "call-space", what: "C call on bytes, reset at each space", unit: "key",
        ours: call_space, rust: engine!(key_space), floor: Some(floor_space) },
    Figure { name: "call-line", what: "C call on bytes, reset at each line's end", unit: "key",
        ours: call_line, rust: engine!(key_line), floor: Some(floor_line) },
    Figure { name: "call-capitals", what: "C call, capitals on, reset at each space", unit: "key",
        ours: call_capitals, rust: engine!(key_space), floor: Some(floor_space) },
    Figure { name: "key-capitals", what: "C call, capitals on, keys in capitals", unit: "key",
        ours: key_capitals, rust: engine!(key_capitals), floor: Some(floor_capitals) },
    alone("call-at-0", "C call, a letter over 0 cells", call_at::<0>, copy_at::<0>),
    alone("call-at-8", "C call, a letter over 8 cells", call_at::<8>, copy_at::<8>),
    alone("call-at-32", "C call, a letter over 32 cells", call_at::<32>, copy_at::<32>),
    alone("call-at-64", "C call, a letter over 64 cells", call_at::<64>, copy_at::<64>),
    alone("call-at-95", "C call, a letter over 95 cells", call_at::<95>, copy_at::<95>),
    alone("call-tone-at-0", "C call, a tone key over 0 cells", call_tone_at::<0>, copy_at::<0>),
    alone("call-tone-at-8", "C call, a tone key over 8 cells", call_tone_at::<8>, copy_at::<8>),
    alone("call-tone-at-32", "C call, a tone key over 32 cells", call_tone_at::<32>, copy_at::<32>),
    alone("call-tone-at-64", "C call, a tone key over 64 cells", call_tone_at::<64>, copy_at::<64>),
    alone("call-tone-at-95", "C call, a tone key over 95 cells", call_tone_at::<95>, copy_at::<95>),
    alone("key-tone-at-0", "by value, a tone key over 0 cells", key_tone_at::<0>, before::<0>),
    alone("key-tone-at-8", "by value, a tone key over 8 cells", key_tone_at::<8>, before::<8>),
    alone("key-tone-at-32", "by value, a tone key over 32 cells", key_tone_at::<32>, before::<32>),
    alone("key-tone-at-64", "by value, a tone key over 64 cells", key_tone_at::<64>, before::<64>),
    alone("key-tone-at-95", "by value, a tone key over 95 cells", key_tone_at::<95>, before::<95>),
    Figure { name: "reset", what: "C call reset, after a copy of the bytes", unit: "word",
        ours: reset, rust: None, floor: Some(copy) },
    Figure { name: "write-draft", what: "C call, a draft of 10 cells written", unit: "cell",
        ours: write_draft, rust: None, floor: None },
    Figure { name: "read-draft", what: "C call, a draft of 10 cells read", unit: "cell",
        ours: read_draft, rust: None, floor: None },
    Figure { name: "verdict", what: "verdict", unit: "word",
        ours: verdict, rust: engine!(verdict), floor: None },
    Figure { name: "cut", what: "cut", unit: "word",
        ours: cut, rust: engine!(cut), floor: None },
    Figure { name: "line", what: "note line, whole", unit: "word",
        ours: line, rust: engine!(line), floor: None },
    Figure { name: "line-part", what: "note line in parts of 16 letters", unit: "word",
        ours: line_part, rust: engine!(line), floor: None },
    Figure { name: "read-utf8", what: "UTF-8 read", unit: "letter",
        ours: read_utf8, rust: Some(from_utf8), floor: None },
    Figure { name: "write-utf8", what: "UTF-8 write", unit: "letter",
        ours: write_utf8, rust: Some(push), floor: None },
    Figure { name: "word-by-number", what: "word by number, of all 5,963", unit: "word",
        ours: word_by_number, rust: None, floor: None },
    Figure { name: "next-word", what: "next word after each word of the note", unit: "word",
        ours: next_word, rust: None, floor: None },
];

// Keys.

fn typed(habit: &Habit, typist: Typist) -> usize {
    let mut text = [0; ROOM];
    black_box(typist(&habit.keys, &mut text));
    black_box(text);
    habit.typed
}

fn key_space(note: &mut Note) -> usize {
    typed(&note.space, calls::keys)
}

fn key_line(note: &mut Note) -> usize {
    typed(&note.line, calls::keys)
}

fn key_one(note: &mut Note) -> usize {
    typed(&note.one, calls::keys)
}

fn key_inner_space(note: &mut Note) -> usize {
    typed(&note.space, calls::sound_keys)
}

fn call_space(note: &mut Note) -> usize {
    typed(&note.space, calls::host_keys)
}

fn call_line(note: &mut Note) -> usize {
    typed(&note.line, calls::host_keys)
}

fn call_capitals(note: &mut Note) -> usize {
    typed(&note.space, calls::host_capital_keys)
}

fn key_capitals(note: &mut Note) -> usize {
    typed(&note.capitals, calls::host_capital_keys)
}

fn floor_space(note: &mut Note) -> usize {
    typed(&note.space, calls::floor)
}

fn floor_line(note: &mut Note) -> usize {
    typed(&note.line, calls::floor)
}

fn floor_one(note: &mut Note) -> usize {
    typed(&note.one, calls::floor)
}

fn floor_capitals(note: &mut Note) -> usize {
    typed(&note.capitals, calls::floor)
}

// One key over so many cells, again and again.

/// On a copy of the composition; the floor is the copy.
fn pressed(note: &Note, cells: usize, key: u32) -> usize {
    let state = &note.over(cells).state;
    let mut text = [0; ROOM];
    for _ in 0..TIMES {
        let mut state = black_box(*state);
        black_box(calls::host_key(&mut state, key, &mut text));
        black_box((&state, &text));
    }
    TIMES
}

fn call_at<const CELLS: usize>(note: &mut Note) -> usize {
    pressed(note, CELLS, LETTER)
}

fn call_tone_at<const CELLS: usize>(note: &mut Note) -> usize {
    pressed(note, CELLS, TONE)
}

fn copy_at<const CELLS: usize>(note: &mut Note) -> usize {
    for _ in 0..TIMES {
        black_box(&black_box(note.over(CELLS).state));
    }
    TIMES
}

/// The keys that make the composition, and then the tone key; the floor is the keys that make it.
fn key_tone_at<const CELLS: usize>(note: &mut Note) -> usize {
    black_box(calls::keys(&note.over(CELLS).tones, &mut [0; ROOM]));
    TIMES
}

fn before<const CELLS: usize>(note: &mut Note) -> usize {
    black_box(calls::keys(&note.over(CELLS).before, &mut [0; ROOM]));
    TIMES
}

/// A copy of each word's composition is reset; the floor is the copy.
fn reset(note: &mut Note) -> usize {
    for state in &note.states {
        let mut state = black_box(*state);
        calls::reset(&mut state);
        black_box(&state);
    }
    note.states.len()
}

fn copy(note: &mut Note) -> usize {
    for state in &note.states {
        black_box(&black_box(*state));
    }
    note.states.len()
}

// Drafts.

fn write_draft(note: &mut Note) -> usize {
    for half in &note.halves {
        black_box(calls::write_draft(&half.state, &mut note.bytes));
        black_box(&note.bytes);
    }
    DRAFTED * note.halves.len()
}

fn read_draft(note: &mut Note) -> usize {
    let mut state = [0; size_of::<State>()];
    for half in &note.halves {
        black_box(calls::read_draft(&half.draft, &mut state));
        black_box(&state);
    }
    DRAFTED * note.halves.len()
}

// Words.

fn verdict(note: &mut Note) -> usize {
    for word in &note.words {
        black_box(calls::verdict(&word.letters));
    }
    note.words.len()
}

fn cut(note: &mut Note) -> usize {
    for word in &note.words {
        black_box(calls::cut(&word.letters));
    }
    note.words.len()
}

/// The whole note as one line.
fn line(note: &mut Note) -> usize {
    black_box(calls::line_check(&note.whole.letters)).map_or(0, |(words, ..)| words)
}

fn line_part(note: &mut Note) -> usize {
    black_box(calls::line_in_parts(&note.whole.letters, PART)).map_or(0, |(words, ..)| words)
}

fn word_by_number(note: &mut Note) -> usize {
    const LISTED: usize = 5963;
    for number in 0..LISTED {
        black_box(calls::word(number, &mut note.letters));
    }
    LISTED
}

fn next_word(note: &mut Note) -> usize {
    for word in &note.words {
        black_box(calls::next_word(&word.letters, &mut note.letters));
    }
    note.words.len()
}

// UTF-8, a line of the note at a time.

fn read_utf8(note: &mut Note) -> usize {
    note.lines.iter().map(|line| calls::read_utf8(line.text.as_bytes(), &mut note.letters).unwrap_or(0)).sum()
}

/// Rust's library to the same letters: `from_utf8`, then its `chars`. It does not look whether they are in the alphabet.
fn from_utf8(note: &mut Note) -> usize {
    let mut read = 0;
    for line in &note.lines {
        let text = std::str::from_utf8(black_box(line.text.as_bytes())).expect("a line is UTF-8");
        let mut count = 0;
        for (place, letter) in note.letters.iter_mut().zip(text.chars()) {
            *place = u32::from(letter);
            count += 1;
        }
        black_box(&note.letters);
        read += count;
    }
    read
}

fn write_utf8(note: &mut Note) -> usize {
    let mut written = 0;
    for line in &note.lines {
        black_box(calls::write_utf8(&line.letters, &mut note.bytes));
        written += line.letters.len();
    }
    written
}

/// Rust's library to the same bytes: `String::push`, into a string that has the room.
fn push(note: &mut Note) -> usize {
    let mut written = 0;
    for line in &note.lines {
        note.string.clear();
        for &letter in &line.letters {
            note.string.push(char::from_u32(letter).expect("a letter is a char"));
        }
        black_box(&note.string);
        written += line.letters.len();
    }
    written
}
