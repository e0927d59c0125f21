//! Cut and verdict against spelling.rs: words of every kind, accepted, nearly so, and not at all.

use crate::calls::{host, Place, Places};
use crate::composer::{codes, random_composition};
use crate::composition::{Call, Oracle, CELLS, ROOM};
use crate::engine::spelling::spy;
use crate::fixed::{bracketed, refused, yes_no};
use crate::oracle::{self, alphabet, listing, lower, tone_on, upper, TONE_KEYS, WORD_LETTERS};
use crate::report::{Random, Run};

pub const CALLS: &[&str] = &["cut", "verdict"];

/// The letters of Vietnamese, and the four that refuse a word.
const USEFUL: &str = "aăâbcdđeêghiklmnoôơpqrstuưvxyfjwz";

/// Numbers that are no letter.
const OUTSIDE: [u32; 6] = [0x80, 0xff, 0x300, 0xd800, 0x110000, 0x80000061];

pub fn compare(run: &mut Run) {
    run.begin("cut, verdict: every word of up to 4 over the 29 letters of Vietnamese and f j w z");
    every_word(run, &codes(USEFUL), 4, &mut Vec::new());
    run.begin("cut, verdict: every word of up to 2 over the alphabet");
    every_word(run, alphabet(), 2, &mut Vec::new());
    run.begin("cut, verdict: every onset, vowels and coda together, with each tone on each letter, in capitals, cut short");
    for parts in triples() {
        for variant in variants(&parts) {
            word(run, &variant);
        }
    }
    run.begin("cut, verdict: random words, made of parts, of useful letters and of any, toned and in capitals");
    for _ in run.times(400_000) {
        let random_word = random_word(run.random());
        word(run, &random_word);
    }
    run.begin("cut, verdict: 60 to 100 letters, and a number that is no letter at each place");
    for length in (60..=100).chain([200]) {
        for filler in codes("abq ạ") {
            word(run, &vec![filler; length]);
        }
    }
    for length in 1..=WORD_LETTERS + 1 {
        for place in 0..length {
            for foreign in OUTSIDE {
                let mut letters: Vec<u32> = (0..length).map(|_| run.random().of(alphabet())).collect();
                letters[place] = foreign;
                word(run, &letters);
            }
        }
    }
    run.begin("cut, verdict: the texts of random cells, 0 to 96 of them");
    let mut oracle = Oracle::new();
    for turn in run.times(20_000) {
        let composition = random_composition(run.random(), turn as usize % (CELLS + 1));
        let shown = oracle.left(&composition.bytes(), Call::Text(ROOM));
        word(run, shown.text().expect("a sound composition has a text"));
    }
}

fn word(run: &mut Run, letters: &[u32]) {
    let size = || letters.to_vec();
    let input = || bracketed(letters);
    run.compare("cut", Places::of(letters), Places::by(oracle::cut(letters)), size, input);
    let ours = Place::of(|yes| unsafe { host::pasdrongel_verdict(letters.as_ptr(), letters.len(), yes) });
    run.compare("verdict", ours, Place::by(oracle::verdict(letters)), size, input);
}

fn every_word(run: &mut Run, letters: &[u32], most: usize, start: &mut Vec<u32>) {
    word(run, start);
    if start.len() < most {
        for &letter in letters {
            start.push(letter);
            every_word(run, letters, most, start);
            start.pop();
        }
    }
}

/// Every onset, vowels and coda of the rows, or none of them, together.
fn triples() -> Vec<Vec<u32>> {
    let mut words = Vec::new();
    let or_none = |parts: Vec<&'static str>| [vec![""], parts].concat();
    for onset in or_none(spy::onsets()) {
        for vowels in or_none(spy::vowels()) {
            words.extend(or_none(spy::codas()).iter().map(|coda| codes(&[onset, vowels, coda].concat())));
        }
    }
    words.sort();
    words.dedup();
    words
}

/// The word as it is, with each tone on each of its letters, in capitals, begun with one, and without its last letter.
fn variants(word: &[u32]) -> Vec<Vec<u32>> {
    let capital = |&letter: &u32| oracle::letter(letter).map_or(letter, upper);
    let mut variants = vec![word.to_vec(), word.iter().map(capital).collect()];
    for place in 0..word.len() {
        for tone in TONE_KEYS.chars().take(5) {
            let mut toned = word.to_vec();
            toned[place] = tone_on(word[place], tone.into()).expect("a letter and a tone");
            if toned != word {
                variants.push(toned.iter().map(capital).collect());
                variants.push(toned);
            }
        }
    }
    if let Some((first, rest)) = word.split_first() {
        variants.push([&[capital(first)], rest].concat());
        variants.push(word[..word.len() - 1].to_vec());
    }
    variants
}

/// A word of some kind: listed, of parts at random, or of letters at random; then toned, raised or changed here and there.
pub fn random_word(random: &mut Random) -> Vec<u32> {
    let mut word = match random.below(4) {
        0 => listing()[random.below(listing().len())].clone(),
        1 => codes(&[random.of(&spy::onsets()), random.of(&spy::vowels()), random.of(&spy::codas())].concat()),
        2 => (0..random.below(10)).map(|_| random.letter_of(USEFUL)).collect(),
        _ => (0..random.below(12)).map(|_| random.of(alphabet())).collect(),
    };
    for _ in 0..random.below(4) {
        if word.is_empty() {
            break;
        }
        let place = random.below(word.len());
        let letter = oracle::letter(word[place]).expect("a letter");
        match random.below(6) {
            0 | 1 => word[place] = tone_on(word[place], random.letter_of(TONE_KEYS)).expect("a letter and a tone"),
            2 => word[place] = upper(letter),
            3 => word[place] = lower(letter),
            4 => word[place] = random.letter_of(USEFUL),
            _ => word.insert(place, random.letter_of(USEFUL)),
        }
    }
    word
}

/// Document 01's examples, of cut and of verdict.
const EXAMPLES: [&str; 20] = [
    "", "qu", "gi", "gia", "Anh", "bic", "băk", "màt", "uơ", "uơn", "za", "quả", "giêng", "giếng", "đa", "ưa", "nghuyêch",
    "Việt", "NGHIÊNG", "a b",
];

pub fn fixed() -> Vec<String> {
    let mut words: Vec<Vec<u32>> = EXAMPLES.iter().map(|word| codes(word)).collect();
    words.extend([spy::onsets(), spy::vowels(), spy::codas()].concat().iter().map(|part| codes(part)));
    for part in spy::vowels() {
        words.extend(["n", "ch", "k"].map(|coda| codes(&["h", part, coda].concat())));
    }
    for onset in spy::onsets() {
        words.extend(["a", "iê", "uơ", "oăn", "ic"].map(|rest| codes(&[onset, rest].concat())));
    }
    let mut random = Random(1);
    words.extend((0..300).map(|_| random_word(&mut random)));
    words.extend([64, 65, 96, 97].iter().flat_map(|&length| codes("bạ").into_iter().map(move |letter| vec![letter; length])));
    words.extend(OUTSIDE.iter().flat_map(|&foreign| [vec![foreign], vec![0x62, foreign, 0x63], vec![foreign; 65]]));
    let mut lines = Vec::new();
    for word in words {
        let spelled = bracketed(&word);
        let places = oracle::cut(&word).map_or_else(refused, |(onset, vowels)| format!("{onset} {vowels}"));
        lines.push(format!("cut {spelled} = {places}"));
        lines.push(format!("verdict {spelled} = {}", oracle::verdict(&word).map_or_else(refused, yes_no)));
    }
    lines
}
