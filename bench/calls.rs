//! The calls that are timed: those of the C host (include/pasdrongel.h), and the loops over a note that p7_bench and
//! p7_bench_inner have for the calls by value.

use crate::note::RESET;

mod host {
    #[rustfmt::skip]
    extern "C" {
        pub fn pasdrongel_new(state: *mut u8, size: usize, method: u32) -> u32;
        pub fn pasdrongel_set_capitals(state: *mut u8, size: usize, on: u32) -> u32;
        pub fn pasdrongel_reset(state: *mut u8, size: usize) -> u32;
        pub fn pasdrongel_key(
            state: *mut u8, size: usize, key: u32, text: *mut u32, room: usize, count: *mut usize) -> u32;
        pub fn pasdrongel_write_draft(
            state: *const u8, size: usize, draft: *mut u8, room: usize, count: *mut usize) -> u32;
        pub fn pasdrongel_read_draft(draft: *const u8, length: usize, state: *mut u8, size: usize) -> u32;
        pub fn pasdrongel_cut(word: *const u32, length: usize, onset: *mut usize, vowels: *mut usize) -> u32;
        pub fn pasdrongel_verdict(word: *const u32, length: usize, yes: *mut u32) -> u32;
        pub fn pasdrongel_line_check(
            line: *const u32, length: usize, words: *mut usize, no: *mut usize, first: *mut usize) -> u32;
        pub fn pasdrongel_line_begin(state: *mut u8, size: usize) -> u32;
        pub fn pasdrongel_line_part(state: *mut u8, size: usize, letters: *const u32, length: usize) -> u32;
        pub fn pasdrongel_line_answer(
            state: *const u8, size: usize, words: *mut usize, no: *mut usize, first: *mut usize) -> u32;
        pub fn pasdrongel_word(number: usize, word: *mut u32, room: usize, count: *mut usize) -> u32;
        pub fn pasdrongel_next_word(
            after: *const u32, length: usize, word: *mut u32, room: usize, count: *mut usize) -> u32;
        pub fn pasdrongel_read_utf8(
            bytes: *const u8, length: usize, letters: *mut u32, room: usize, count: *mut usize) -> u32;
        pub fn pasdrongel_write_utf8(
            letters: *const u32, length: usize, bytes: *mut u8, room: usize, count: *mut usize) -> u32;

        pub fn pasdrongel_bench_keys(keys: *const u32, length: usize, text: *mut u32, room: usize) -> usize;
        pub fn pasdrongel_bench_sound_keys(keys: *const u32, length: usize, text: *mut u32, room: usize) -> usize;
        pub fn pasdrongel_bench_floor(keys: *const u32, length: usize, text: *mut u32, room: usize) -> usize;
    }
}

/// The bytes of a composition, the number of Telex, and that of capitals on.
const STATE: usize = 776;
const TELEX: u32 = 0;
const CAPITALS_ON: u32 = 1;

/// The bytes of a note line's state.
const LINE_STATE: usize = 26;

/// A composition as bytes.
pub type State = [u8; STATE];

/// Types the keys under Telex, a fresh composition at each RESET. The last text is left in `text`. Answers how many keys
/// were refused.
pub type Typist = fn(keys: &[u32], text: &mut [u32]) -> usize;

/// By the key by value.
pub fn keys(keys: &[u32], text: &mut [u32]) -> usize {
    unsafe { host::pasdrongel_bench_keys(keys.as_ptr(), keys.len(), text.as_mut_ptr(), text.len()) }
}

/// By the inner key, which requires soundness and does not test it.
pub fn sound_keys(keys: &[u32], text: &mut [u32]) -> usize {
    unsafe { host::pasdrongel_bench_sound_keys(keys.as_ptr(), keys.len(), text.as_mut_ptr(), text.len()) }
}

/// By a key that only appends its letter and copies all letters to the text.
pub fn floor(keys: &[u32], text: &mut [u32]) -> usize {
    unsafe { host::pasdrongel_bench_floor(keys.as_ptr(), keys.len(), text.as_mut_ptr(), text.len()) }
}

/// By the C calls on a composition as bytes.
pub fn host_keys(keys: &[u32], text: &mut [u32]) -> usize {
    host_typed(&mut [0; STATE], keys, text)
}

/// The same, on bytes that are lent: they hold the composition after the last key.
pub fn host_typed(state: &mut State, keys: &[u32], text: &mut [u32]) -> usize {
    let refused = unsafe { host::pasdrongel_new(state.as_mut_ptr(), STATE, TELEX) };
    refused as usize + typed_on(state, keys, text)
}

/// The same as `host_keys`, with capitals on.
pub fn host_capital_keys(keys: &[u32], text: &mut [u32]) -> usize {
    let mut state = [0; STATE];
    let mut refused = unsafe { host::pasdrongel_new(state.as_mut_ptr(), STATE, TELEX) };
    refused += unsafe { host::pasdrongel_set_capitals(state.as_mut_ptr(), STATE, CAPITALS_ON) };
    refused as usize + typed_on(&mut state, keys, text)
}

fn typed_on(state: &mut State, keys: &[u32], text: &mut [u32]) -> usize {
    let (mut count, mut refused) = (0, 0);
    let (out, room) = (text.as_mut_ptr(), text.len());
    for &key in keys {
        refused += match key {
            RESET => unsafe { host::pasdrongel_reset(state.as_mut_ptr(), STATE) },
            _ => unsafe { host::pasdrongel_key(state.as_mut_ptr(), STATE, key, out, room, &mut count) },
        };
    }
    refused as usize
}

/// One key on bytes that are lent. How many letters were written; `None` for a refusal.
pub fn host_key(state: &mut State, key: u32, text: &mut [u32]) -> Option<usize> {
    let mut count = 0;
    let (out, room) = (text.as_mut_ptr(), text.len());
    let refusal = unsafe { host::pasdrongel_key(state.as_mut_ptr(), STATE, key, out, room, &mut count) };
    (refusal == 0).then_some(count)
}

pub fn reset(state: &mut State) {
    assert_eq!(unsafe { host::pasdrongel_reset(state.as_mut_ptr(), STATE) }, 0);
}

/// How many bytes of a draft were written; `None` for a refusal.
pub fn write_draft(state: &State, out: &mut [u8]) -> Option<usize> {
    let (mut count, room) = (0, out.len());
    let refusal = unsafe { host::pasdrongel_write_draft(state.as_ptr(), STATE, out.as_mut_ptr(), room, &mut count) };
    (refusal == 0).then_some(count)
}

/// Whether the bytes are a draft; `state` is then its composition.
pub fn read_draft(draft: &[u8], state: &mut State) -> bool {
    let refusal = unsafe { host::pasdrongel_read_draft(draft.as_ptr(), draft.len(), state.as_mut_ptr(), STATE) };
    refusal == 0
}

/// Whether the word is accepted.
pub fn verdict(word: &[u32]) -> bool {
    let mut yes = 0;
    assert_eq!(unsafe { host::pasdrongel_verdict(word.as_ptr(), word.len(), &mut yes) }, 0);
    yes == 1
}

/// Where the onset and the vowels end.
pub fn cut(word: &[u32]) -> (usize, usize) {
    let (mut onset, mut vowels) = (0, 0);
    assert_eq!(unsafe { host::pasdrongel_cut(word.as_ptr(), word.len(), &mut onset, &mut vowels) }, 0);
    (onset, vowels)
}

/// What is told of a note line: its words, those judged no, and the place of the first of these.
pub type Told = (usize, usize, usize);

/// `None` for a refusal.
pub fn line_check(line: &[u32]) -> Option<Told> {
    let (mut words, mut no, mut first) = (0, 0, 0);
    let refusal = unsafe { host::pasdrongel_line_check(line.as_ptr(), line.len(), &mut words, &mut no, &mut first) };
    (refusal == 0).then_some((words, no, first))
}

/// The same of the line in parts of so many letters.
pub fn line_in_parts(line: &[u32], size: usize) -> Option<Told> {
    let mut state = [0; LINE_STATE];
    let (mut words, mut no, mut first) = (0, 0, 0);
    let mut refusal = unsafe { host::pasdrongel_line_begin(state.as_mut_ptr(), LINE_STATE) };
    for part in line.chunks(size) {
        refusal |= unsafe { host::pasdrongel_line_part(state.as_mut_ptr(), LINE_STATE, part.as_ptr(), part.len()) };
    }
    refusal |= unsafe { host::pasdrongel_line_answer(state.as_ptr(), LINE_STATE, &mut words, &mut no, &mut first) };
    (refusal == 0).then_some((words, no, first))
}

/// How many letters were written; `None` for a refusal.
pub fn word(number: usize, out: &mut [u32]) -> Option<usize> {
    let mut count = 0;
    let refusal = unsafe { host::pasdrongel_word(number, out.as_mut_ptr(), out.len(), &mut count) };
    (refusal == 0).then_some(count)
}

pub fn next_word(after: &[u32], out: &mut [u32]) -> Option<usize> {
    let (mut count, room) = (0, out.len());
    let refusal =
        unsafe { host::pasdrongel_next_word(after.as_ptr(), after.len(), out.as_mut_ptr(), room, &mut count) };
    (refusal == 0).then_some(count)
}

pub fn read_utf8(bytes: &[u8], out: &mut [u32]) -> Option<usize> {
    let (mut count, room) = (0, out.len());
    let refusal =
        unsafe { host::pasdrongel_read_utf8(bytes.as_ptr(), bytes.len(), out.as_mut_ptr(), room, &mut count) };
    (refusal == 0).then_some(count)
}

pub fn write_utf8(letters: &[u32], out: &mut [u8]) -> Option<usize> {
    let (mut count, room) = (0, out.len());
    let refusal =
        unsafe { host::pasdrongel_write_utf8(letters.as_ptr(), letters.len(), out.as_mut_ptr(), room, &mut count) };
    (refusal == 0).then_some(count)
}
