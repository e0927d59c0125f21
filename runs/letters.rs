//! Letters: every call on every code point, on numbers that are none, and on all pairs of letter and tone.

use crate::calls::{host, Place};
use crate::fixed::{code, yes_no};
use crate::oracle::{self, alphabet, TONE_KEYS};
use crate::report::Run;

pub const CALLS: &[&str] = &[
    "check_letter", "lower", "upper", "tone_off", "tone_on", "is_capital", "is_white_space", "is_separator",
    "is_composer_vowel", "is_speller_vowel",
];

type OneLetter = (&'static str, unsafe extern "C" fn(u32, *mut u32) -> u32, fn(char) -> u32);

const LETTER_TO_LETTER: [OneLetter; 3] = [
    ("lower", host::pasdrongel_lower, oracle::lower),
    ("upper", host::pasdrongel_upper, oracle::upper),
    ("tone_off", host::pasdrongel_tone_off, oracle::tone_off),
];

const LETTER_TO_YES: [OneLetter; 5] = [
    ("is_capital", host::pasdrongel_is_capital, oracle::is_capital),
    ("is_white_space", host::pasdrongel_is_white_space, oracle::is_white_space),
    ("is_separator", host::pasdrongel_is_separator, oracle::is_separator),
    ("is_composer_vowel", host::pasdrongel_is_composer_vowel, oracle::is_composer_vowel),
    ("is_speller_vowel", host::pasdrongel_is_speller_vowel, oracle::is_speller_vowel),
];

pub fn compare(run: &mut Run) {
    let numbers = numbers(run);

    run.begin("check_letter: every code point, and numbers above");
    for &number in &numbers {
        let ours = unsafe { host::pasdrongel_check_letter(number) };
        let theirs = oracle::letter(number).err().unwrap_or(0);
        run.compare("check_letter", ours, theirs, || vec![number], || code(number));
    }

    for (name, call, oracle) in LETTER_TO_LETTER.into_iter().chain(LETTER_TO_YES) {
        run.begin(&format!("{name}: every code point, and numbers above"));
        for &number in &numbers {
            let ours = Place::of(|place| unsafe { call(number, place) });
            let theirs = Place::by(oracle::letter(number).map(oracle));
            run.compare(name, ours, theirs, || vec![number], || code(number));
        }
    }

    run.begin("tone_on: every letter with every letter as tone");
    for &letter in alphabet() {
        alphabet().iter().for_each(|&tone| tone_on(run, letter, tone));
    }
    run.begin("tone_on: every code point with each tone key, each vowel with every code point as tone");
    for &number in &numbers {
        TONE_KEYS.chars().for_each(|key| tone_on(run, number, u32::from(key)));
        "aeiouyăâêôơưAEIOUY".chars().for_each(|vowel| tone_on(run, u32::from(vowel), number));
    }
    run.begin("tone_on: random numbers for both");
    for _ in run.times(100_000) {
        let (letter, tone) = (run.random().of(&numbers), run.random().of(&numbers));
        tone_on(run, letter, tone);
    }
}

fn tone_on(run: &mut Run, letter: u32, tone: u32) {
    let ours = Place::of(|place| unsafe { host::pasdrongel_tone_on(letter, tone, place) });
    let input = || format!("{} {}", code(letter), code(tone));
    run.compare("tone_on", ours, Place::by(oracle::tone_on(letter, tone)), || vec![letter, tone], input);
}

/// Every code point; above them the edges, letters with one high bit more, and random numbers.
pub fn numbers(run: &mut Run) -> Vec<u32> {
    let mut numbers: Vec<u32> = (0..=0x10ffff).collect();
    numbers.extend([0x110000, 0x7fffffff, 0x80000000, 0xffffffff]);
    let high = |&letter: &u32| (21..32).map(move |bit| letter | 1 << bit);
    numbers.extend(alphabet().iter().flat_map(high));
    for _ in run.times(100_000) {
        numbers.push(run.random().next() as u32);
    }
    numbers
}

/// Code points just outside the alphabet, and far from it.
const OUTSIDE: [u32; 24] = [
    0x80, 0x9f, 0xa0, 0xbf, 0xc4, 0xdf, 0xe4, 0xff, 0x101, 0x104, 0x10f, 0x112, 0x1ae, 0x1b1, 0x300, 0x1e9f, 0x1efa,
    0x1f00, 0xd800, 0xfeff, 0x10ffff, 0x110000, 0x80000061, 0xffffffff,
];

pub fn fixed() -> Vec<String> {
    let mut lines = Vec::new();
    let inputs: Vec<u32> = alphabet().iter().copied().chain(OUTSIDE).collect();
    for &number in &inputs {
        lines.push(format!("check_letter {} = {}", code(number), answer(oracle::letter(number), |_| "done".into())));
    }
    for (name, _, oracle) in LETTER_TO_LETTER {
        for &number in &inputs {
            lines.push(format!("{name} {} = {}", code(number), answer(oracle::letter(number).map(oracle), code)));
        }
    }
    for (name, _, oracle) in LETTER_TO_YES {
        for &number in &inputs {
            lines.push(format!("{name} {} = {}", code(number), answer(oracle::letter(number).map(oracle), yes_no)));
        }
    }
    let mut tone_on = |letter: u32, tone: u32| {
        lines.push(format!("tone_on {} {} = {}", code(letter), code(tone), answer(oracle::tone_on(letter, tone), code)));
    };
    for vowel in "aeiouyăâêôơưAEIOUYĂÂÊÔƠƯ".chars() {
        TONE_KEYS.chars().for_each(|key| tone_on(u32::from(vowel), u32::from(key)));
    }
    for (&letter, key) in alphabet().iter().zip(TONE_KEYS.chars().cycle()) {
        tone_on(letter, u32::from(key));
    }
    inputs.iter().for_each(|&tone| tone_on(u32::from('a'), tone));
    OUTSIDE.iter().for_each(|&letter| tone_on(letter, u32::from('s')));
    lines
}

fn answer<T>(answer: Result<T, u32>, show: impl Fn(T) -> String) -> String {
    answer.map_or_else(crate::fixed::refused, show)
}
