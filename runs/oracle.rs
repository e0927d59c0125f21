//! The other side: what the Rust, Rust's own library and document 01's limits answer, on our numbers.
//! A refusal is `Err` of its number.

use crate::engine::{bamboo, spelling};
use std::sync::OnceLock;

pub const FOREIGN: u32 = 1;
pub const FULL: u32 = 2;
pub const SHORT: u32 = 3;
pub const EMPTY: u32 = 4;
pub const NO_UNDO: u32 = 5;
pub const LONG: u32 = 6;
pub const NO_WORD: u32 = 7;
pub const MALFORMED: u32 = 8;
pub const UNSOUND: u32 = 10;
pub const NO_DRAFT: u32 = 11;

pub const WORD_LETTERS: usize = 64;
pub const LINE_BYTES: usize = 256;
pub const LINE_LETTERS: usize = 4096;

/// The ten tone keys.
pub const TONE_KEYS: &str = "sfrxj12345";

/// The marks of a cell.
pub const MARKS: &str = "ăâêôơưđ";

/// Document 01's 67 small letters; Rust's library knows their capitals.
const SMALL: &str = "àáâãèéêìíòóôõùúý\
    ăđĩũơư\
    ạảấầẩẫậắằẳẵặẹẻẽếềểễệỉịọỏốồổỗộớờởỡợụủứừửữựỳỵỷỹ";

/// The 262 letters, in the order of their code points.
pub fn alphabet() -> &'static [u32] {
    static LETTERS: OnceLock<Vec<u32>> = OnceLock::new();
    LETTERS.get_or_init(|| {
        let capitals = SMALL.chars().flat_map(char::to_uppercase);
        let mut letters: Vec<u32> = (0..0x80).chain(SMALL.chars().chain(capitals).map(u32::from)).collect();
        letters.sort();
        letters.dedup();
        assert_eq!(letters.len(), 262);
        letters
    })
}

pub fn in_alphabet(code: u32) -> bool {
    static TABLE: OnceLock<Vec<bool>> = OnceLock::new();
    let table = TABLE.get_or_init(|| {
        let mut table = vec![false; 0x2000];
        alphabet().iter().for_each(|&letter| table[letter as usize] = true);
        table
    });
    table.get(code as usize).copied().unwrap_or(false)
}

/// A letter as Rust's `char`.
pub fn letter(code: u32) -> Result<char, u32> {
    if in_alphabet(code) { Ok(char::from_u32(code).expect("a letter is a char")) } else { Err(FOREIGN) }
}

fn single(mut mapped: impl Iterator<Item = char>) -> u32 {
    let only = mapped.next().expect("a case mapping is not empty");
    assert!(mapped.next().is_none(), "the alphabet's case mappings are single letters");
    u32::from(only)
}

pub fn lower(letter: char) -> u32 {
    single(letter.to_lowercase())
}

pub fn upper(letter: char) -> u32 {
    single(letter.to_uppercase())
}

pub fn is_capital(letter: char) -> u32 {
    u32::from(letter.is_uppercase())
}

pub fn is_white_space(letter: char) -> u32 {
    u32::from(letter.is_whitespace())
}

pub fn is_separator(letter: char) -> u32 {
    u32::from(bamboo::spy::separates(letter))
}

pub fn tone_off(letter: char) -> u32 {
    u32::from(spelling::spy::strip_tone(letter))
}

pub fn is_composer_vowel(letter: char) -> u32 {
    u32::from(bamboo::spy::is_vowel(letter))
}

pub fn is_speller_vowel(letter: char) -> u32 {
    u32::from(spelling::spy::is_vowel(letter))
}

pub fn tone_on(code: u32, tone: u32) -> Result<u32, u32> {
    Ok(u32::from(bamboo::spy::apply_tone_to_char(letter(code)?, letter(tone)?)))
}

/// The letters of `bytes`. Rust's library finds the first malformed place; a foreign letter before it decides first.
pub fn read_utf8(bytes: &[u8], room: usize) -> Result<Vec<u32>, u32> {
    if bytes.len() > LINE_BYTES {
        return Err(LONG);
    }
    let (sound, malformed) = match std::str::from_utf8(bytes) {
        Ok(text) => (text, false),
        Err(fault) => (std::str::from_utf8(&bytes[..fault.valid_up_to()]).expect("valid so far"), true),
    };
    let letters: Vec<u32> = sound.chars().map(u32::from).collect();
    if !letters.iter().all(|&code| in_alphabet(code)) {
        Err(FOREIGN)
    } else if malformed {
        Err(MALFORMED)
    } else if letters.len() > room {
        Err(SHORT)
    } else {
        Ok(letters)
    }
}

pub fn write_utf8(letters: &[u32], room: usize) -> Result<Vec<u8>, u32> {
    if letters.len() > WORD_LETTERS {
        return Err(LONG);
    }
    let text: String = letters.iter().map(|&code| letter(code)).collect::<Result<_, _>>()?;
    if text.len() > room { Err(SHORT) } else { Ok(text.into_bytes()) }
}

/// A word that is permitted: at most 64 letters, each of the alphabet.
fn permitted(word: &[u32]) -> Result<String, u32> {
    if word.len() > WORD_LETTERS { Err(LONG) } else { word.iter().map(|&code| letter(code)).collect() }
}

/// Where the onset ends, and where the vowels end.
pub fn cut(word: &[u32]) -> Result<(usize, usize), u32> {
    let (onset, vowels, _) = spelling::partition(&permitted(word)?);
    let onset = onset.chars().count();
    Ok((onset, onset + vowels.chars().count()))
}

pub fn verdict(word: &[u32]) -> Result<u32, u32> {
    Ok(u32::from(spelling::is_valid_vietnamese_syllable(&permitted(word)?)))
}

/// Every accepted word without capitals and tones, in the order of a dictionary. An accepted word is cut into parts that
/// stand in the Rust's rows, so each one is among the words that are tried here.
pub fn listing() -> &'static [Vec<u32>] {
    static WORDS: OnceLock<Vec<Vec<u32>>> = OnceLock::new();
    WORDS.get_or_init(|| {
        let or_none = |parts: Vec<&'static str>| [vec![""], parts].concat();
        let (onsets, vowels, codas) = (spelling::spy::onsets(), spelling::spy::vowels(), spelling::spy::codas());
        let mut words = Vec::new();
        for onset in or_none(onsets) {
            for vowel in or_none(vowels.clone()) {
                for coda in or_none(codas.clone()) {
                    let word = [onset, vowel, coda].concat();
                    if spelling::is_valid_vietnamese_syllable(&word) {
                        words.push(word.chars().map(u32::from).collect());
                    }
                }
            }
        }
        words.sort();
        words.dedup();
        words
    })
}

fn fitting(word: &[u32], room: usize) -> Result<Vec<u32>, u32> {
    if word.len() > room { Err(SHORT) } else { Ok(word.to_vec()) }
}

pub fn word(number: usize, room: usize) -> Result<Vec<u32>, u32> {
    fitting(listing().get(number).ok_or(NO_WORD)?, room)
}

pub fn next_word(after: &[u32], room: usize) -> Result<Vec<u32>, u32> {
    permitted(after)?;
    word(listing().partition_point(|listed| &listed[..] <= after), room)
}
