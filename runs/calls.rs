//! The calls of the C host, as the archive has them, and what each leaves behind: tests/header holds the declarations
//! to the exported functions.

use std::fmt::{Debug, Formatter, UpperHex};

pub mod host {
    extern "C" {
        pub fn pasdrongel_check_letter(letter: u32) -> u32;
        pub fn pasdrongel_lower(letter: u32, small: *mut u32) -> u32;
        pub fn pasdrongel_upper(letter: u32, capital: *mut u32) -> u32;
        pub fn pasdrongel_is_capital(letter: u32, yes: *mut u32) -> u32;
        pub fn pasdrongel_is_white_space(letter: u32, yes: *mut u32) -> u32;
        pub fn pasdrongel_is_separator(letter: u32, yes: *mut u32) -> u32;
        pub fn pasdrongel_tone_on(letter: u32, tone: u32, toned: *mut u32) -> u32;
        pub fn pasdrongel_tone_off(letter: u32, plain: *mut u32) -> u32;
        pub fn pasdrongel_is_composer_vowel(letter: u32, yes: *mut u32) -> u32;
        pub fn pasdrongel_is_speller_vowel(letter: u32, yes: *mut u32) -> u32;
        pub fn pasdrongel_is_tone_key(method: u32, key: u32, yes: *mut u32) -> u32;
        pub fn pasdrongel_is_horn_key(method: u32, key: u32, yes: *mut u32) -> u32;
        pub fn pasdrongel_mark_for(method: u32, base: u32, key: u32, mark: *mut u32) -> u32;
        pub fn pasdrongel_new(state: *mut u8, size: usize, method: u32) -> u32;
        pub fn pasdrongel_composition_bytes() -> usize;
        pub fn pasdrongel_check_composition(state: *const u8, size: usize) -> u32;
        pub fn pasdrongel_method(state: *const u8, size: usize, method: *mut u32) -> u32;
        pub fn pasdrongel_mode(state: *const u8, size: usize, mode: *mut u32) -> u32;
        pub fn pasdrongel_capitals(state: *const u8, size: usize, on: *mut u32) -> u32;
        pub fn pasdrongel_count(state: *const u8, size: usize, count: *mut usize) -> u32;
        pub fn pasdrongel_key(
            state: *mut u8, size: usize, key: u32, text: *mut u32, room: usize, count: *mut usize) -> u32;
        pub fn pasdrongel_text(
            state: *const u8, size: usize, text: *mut u32, room: usize, count: *mut usize) -> u32;
        pub fn pasdrongel_literal(state: *mut u8, size: usize, letter: u32) -> u32;
        pub fn pasdrongel_remove_last(
            state: *mut u8, size: usize, text: *mut u32, room: usize, count: *mut usize) -> u32;
        pub fn pasdrongel_undo(
            state: *mut u8, size: usize, trigger: u32, raw: *const u32, length: usize, behaviour: *mut u32) -> u32;
        pub fn pasdrongel_reset(state: *mut u8, size: usize) -> u32;
        pub fn pasdrongel_set_method(state: *mut u8, size: usize, method: u32) -> u32;
        pub fn pasdrongel_set_mode(state: *mut u8, size: usize, mode: u32) -> u32;
        pub fn pasdrongel_set_capitals(state: *mut u8, size: usize, on: u32) -> u32;
        pub fn pasdrongel_write_draft(
            state: *const u8, size: usize, draft: *mut u8, room: usize, count: *mut usize) -> u32;
        pub fn pasdrongel_read_draft(draft: *const u8, length: usize, state: *mut u8, size: usize) -> u32;
        pub fn pasdrongel_cut(word: *const u32, length: usize, onset: *mut usize, vowels: *mut usize) -> u32;
        pub fn pasdrongel_verdict(word: *const u32, length: usize, yes: *mut u32) -> u32;
        pub fn pasdrongel_line_check(
            line: *const u32, length: usize, words: *mut usize, no: *mut usize, first: *mut usize) -> u32;
        pub fn pasdrongel_line_begin(state: *mut u8, size: usize) -> u32;
        pub fn pasdrongel_line_part(state: *mut u8, size: usize, letters: *const u32, length: usize) -> u32;
        pub fn pasdrongel_line_answer(
            state: *const u8, size: usize, words: *mut usize, no: *mut usize, first: *mut usize) -> u32;
        pub fn pasdrongel_total(total: *mut usize) -> u32;
        pub fn pasdrongel_word(number: usize, word: *mut u32, room: usize, count: *mut usize) -> u32;
        pub fn pasdrongel_next_word(
            after: *const u32, length: usize, word: *mut u32, room: usize, count: *mut usize) -> u32;
        pub fn pasdrongel_read_utf8(
            bytes: *const u8, length: usize, letters: *mut u32, room: usize, count: *mut usize) -> u32;
        pub fn pasdrongel_write_utf8(
            letters: *const u32, length: usize, bytes: *mut u8, room: usize, count: *mut usize) -> u32;
    }
}

/// What stands in a lent place before the call: no answer has it.
pub const GUARD: u32 = 0xa5a5a5a5;
pub const GUARD_BYTE: u8 = 0xa5;
pub const GUARD_COUNT: usize = 0xa5a5a5a5;

/// Guarded places on each side of a lent output.
pub const MARGIN: usize = 4;

/// The number that a call returns, and what it leaves in the one number lent to it.
#[derive(PartialEq)]
pub struct Place {
    refusal: u32,
    value: u32,
}

impl Place {
    /// What a call must leave: its answer, or after a refusal what stood there.
    pub fn by(answer: Result<u32, u32>) -> Place {
        let (refusal, value) = answer.map_or_else(|refusal| (refusal, GUARD), |value| (0, value));
        Place { refusal, value }
    }

    pub fn of(call: impl FnOnce(*mut u32) -> u32) -> Place {
        let mut value = GUARD;
        let refusal = call(&mut value);
        Place { refusal, value }
    }
}

/// In hexadecimal; `-` is a place that keeps its value.
impl Debug for Place {
    fn fmt(&self, f: &mut Formatter) -> std::fmt::Result {
        match self.value {
            GUARD => write!(f, "returns {}, place -", self.refusal),
            value => write!(f, "returns {}, place {value:02X}", self.refusal),
        }
    }
}

/// The number that a call returns, and all that it leaves in a lent output.
#[derive(PartialEq)]
pub struct Left<T> {
    refusal: u32,
    count: usize,
    output: Vec<T>,
    guard: T,
}

impl<T: Copy> Left<T> {
    /// What a call must leave: the answer at the start of the output, all else as it was.
    pub fn by(answer: Result<Vec<T>, u32>, room: usize, guard: T) -> Left<T> {
        let mut output = vec![guard; room + 2 * MARGIN];
        match answer {
            Err(refusal) => Left { refusal, count: GUARD_COUNT, output, guard },
            Ok(answer) => {
                output[MARGIN..MARGIN + answer.len()].copy_from_slice(&answer);
                Left { refusal: 0, count: answer.len(), output, guard }
            }
        }
    }

    fn of(room: usize, guard: T, call: impl FnOnce(*mut T, *mut usize) -> u32) -> Left<T> {
        let (mut output, mut count) = (vec![guard; room + 2 * MARGIN], GUARD_COUNT);
        let refusal = call(output[MARGIN..].as_mut_ptr(), &mut count);
        Left { refusal, count, output, guard }
    }
}

/// In hexadecimal; `-` is a place that keeps its value, and bars stand around what was lent.
impl<T: PartialEq + UpperHex> Debug for Left<T> {
    fn fmt(&self, f: &mut Formatter) -> std::fmt::Result {
        match self.count {
            GUARD_COUNT => write!(f, "returns {}, count -, output", self.refusal)?,
            count => write!(f, "returns {}, count {count}, output", self.refusal)?,
        }
        for (place, item) in self.output.iter().enumerate() {
            if place == MARGIN || place == self.output.len() - MARGIN {
                write!(f, " |")?;
            }
            if *item == self.guard { write!(f, " -")? } else { write!(f, " {item:02X}")? }
        }
        Ok(())
    }
}

pub fn read_utf8(bytes: &[u8], room: usize) -> Left<u32> {
    Left::of(room, GUARD, |output, count| unsafe {
        host::pasdrongel_read_utf8(bytes.as_ptr(), bytes.len(), output, room, count)
    })
}

pub fn write_utf8(letters: &[u32], room: usize) -> Left<u8> {
    Left::of(room, GUARD_BYTE, |output, count| unsafe {
        host::pasdrongel_write_utf8(letters.as_ptr(), letters.len(), output, room, count)
    })
}

pub fn word(number: usize, room: usize) -> Left<u32> {
    Left::of(room, GUARD, |output, count| unsafe { host::pasdrongel_word(number, output, room, count) })
}

pub fn next_word(word: &[u32], room: usize) -> Left<u32> {
    Left::of(room, GUARD, |output, count| unsafe {
        host::pasdrongel_next_word(word.as_ptr(), word.len(), output, room, count)
    })
}

/// The number that the cut returns, and the two places that it leaves.
#[derive(PartialEq, Debug)]
pub struct Places {
    returns: u32,
    onset: usize,
    vowels: usize,
}

impl Places {
    pub fn by(answer: Result<(usize, usize), u32>) -> Places {
        let (returns, (onset, vowels)) =
            answer.map_or_else(|refusal| (refusal, (GUARD_COUNT, GUARD_COUNT)), |places| (0, places));
        Places { returns, onset, vowels }
    }

    pub fn of(word: &[u32]) -> Places {
        let (mut onset, mut vowels) = (GUARD_COUNT, GUARD_COUNT);
        let returns = unsafe { host::pasdrongel_cut(word.as_ptr(), word.len(), &mut onset, &mut vowels) };
        Places { returns, onset, vowels }
    }
}
