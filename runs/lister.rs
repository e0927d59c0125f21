//! The lister: the whole list against one made by brute force from the Rust's verdict, next word against a search in it.

use crate::calls::{self, host, Left, GUARD, GUARD_COUNT};
use crate::composer::codes;
use crate::composition::CELLS;
use crate::fixed::{bracketed, refused};
use crate::oracle::{self, alphabet, listing, tone_on, upper, TONE_KEYS, WORD_LETTERS};
use crate::report::{Random, Run};
use crate::spelling::random_word;

pub const CALLS: &[&str] = &["total", "word", "next_word"];

/// Enough for every listed word.
const ROOM: usize = 10;

/// Numbers past the end, near the widths that a table or a cast may have.
fn past_the_end() -> Vec<usize> {
    let total = listing().len();
    let near = |width: u32| (1usize << width) - 2..(1usize << width) + 3;
    let wraps = |width: u32| (1usize << width)..(1usize << width) + 20;
    let mut numbers: Vec<usize> = (total..total + 1000).collect();
    numbers.extend([8, 13, 16, 31, 32, 48, 62].into_iter().flat_map(near));
    numbers.extend([16, 32, 33, 63].into_iter().flat_map(wraps));
    numbers.extend(usize::MAX - 20..=usize::MAX);
    numbers
}

pub fn compare(run: &mut Run) {
    run.begin("total: as many as brute force finds");
    let mut total = GUARD_COUNT;
    let returns = unsafe { host::pasdrongel_total(&mut total) };
    run.compare("total", (returns, total), (0, listing().len()), Vec::new, || "the total".to_string());
    run.begin("word: every number, room 0 to 10");
    for place in 0..listing().len() {
        (0..=ROOM).for_each(|room| number(run, place, room));
    }
    run.begin("word: numbers past the end");
    for place in past_the_end() {
        [0, ROOM].iter().for_each(|&room| number(run, place, room));
    }
    for _ in run.times(100_000) {
        let place = run.random().next() as usize >> run.random().below(52);
        number(run, place, ROOM);
    }
    run.begin("next_word: after each listed word, each of its starts, and each of them with any letter more");
    for word in listing() {
        for length in 0..=word.len() {
            next(run, &word[..length], ROOM);
        }
        for &letter in alphabet() {
            next(run, &[&word[..word.len() - 1], &[letter]].concat(), ROOM);
            next(run, &[&word[..], &[letter]].concat(), ROOM);
        }
    }
    run.begin("next_word: after each listed word toned, in capitals, and with room 0 to 10");
    for word in listing() {
        (0..=ROOM).for_each(|room| next(run, word, room));
        for place in 0..word.len() {
            let capital = |letter: u32| upper(oracle::letter(letter).expect("a letter"));
            let changes = TONE_KEYS.chars().take(5).map(|tone| tone_on(word[place], tone.into()).expect("a letter"));
            for change in changes.chain([capital(word[place])]).collect::<Vec<u32>>() {
                let mut changed = word.clone();
                changed[place] = change;
                next(run, &changed, ROOM);
            }
        }
    }
    run.begin("next_word: every word of up to 2 over the alphabet");
    for &first in alphabet() {
        next(run, &[first], ROOM);
        alphabet().iter().for_each(|&second| next(run, &[first, second], ROOM));
    }
    run.begin("next_word: random words of up to 98 letters, numbers that are no letter among them");
    for _ in run.times(200_000) {
        let random = run.random();
        let mut word = random_word(random);
        if random.below(10) == 0 {
            let most = random.of(&[WORD_LETTERS + 3, CELLS + 3]);
            let length = random.below(most);
            word.resize_with(length, || random.of(alphabet()));
        }
        if random.below(20) == 0 && !word.is_empty() {
            let place = random.below(word.len());
            word[place] = random.of(&[0x80, 0x300, 0xd800, 0x110000, 0x80000061]);
        }
        next(run, &word, ROOM);
    }
}

fn number(run: &mut Run, place: usize, room: usize) {
    let theirs = Left::by(oracle::word(place, room), room, GUARD);
    let size = || vec![(place >> 32) as u32, place as u32, room as u32];
    run.compare("word", calls::word(place, room), theirs, size, || format!("{place}, room {room}"));
}

fn next(run: &mut Run, word: &[u32], room: usize) {
    let theirs = Left::by(oracle::next_word(word, room), room, GUARD);
    let input = || format!("room {room}: {}", bracketed(word));
    run.compare("next_word", calls::next_word(word, room), theirs, || word.to_vec(), input);
}

pub fn fixed() -> Vec<String> {
    let total = listing().len();
    let mut lines = vec![format!("total = {total}")];
    let told = |answer: Result<Vec<u32>, u32>| answer.map_or_else(refused, |word| bracketed(&word));
    let mut number = |place: usize, room: usize| {
        lines.push(format!("word {place} room {room} = {}", told(oracle::word(place, room))));
    };
    (0..=40).for_each(|place| number(place, 8));
    (41..total).step_by(17).for_each(|place| number(place, 8));
    (total - 20..total + 3).for_each(|place| number(place, 8));
    [8191, 65535, 65536, 65549, u32::MAX as usize, 1 << 32, usize::MAX].iter().for_each(|&place| number(place, 8));
    let longest = listing().iter().position(|word| word.len() == 8).expect("a word of eight letters");
    (0..=9).for_each(|room| number(longest, room));
    (0..=2).for_each(|room| number(0, room));
    number(total, 0);

    let mut next = |word: &[u32], room: usize| {
        lines.push(format!("next_word room {room} : {} = {}", bracketed(word), told(oracle::next_word(word, room))));
    };
    for word in ["ay", "az", "B", "ươu", "", "z", "á", "é", "đ", "bà", "ỹ", "ươ", "nghuyê", "\0", "~", "Z", "Ă", "ăă", "A"] {
        next(&codes(word), 8);
    }
    listing().iter().step_by(23).for_each(|word| next(word, 8));
    let mut random = Random(1);
    (0..200).for_each(|_| next(&random_word(&mut random), 8));
    (0..=9).for_each(|room| next(&codes("nghuyê"), room));
    for (letter, length) in [(0x61, 64), (0x61, 65), (0x1ef9, 64), (0x1ef9, 65), (0x80, 64), (0x80, 65), (0x61, 96), (0x1ef9, 96)] {
        [0, 8].iter().for_each(|&room| next(&vec![letter; length], room));
    }
    [0x80, 0x300, 0x110000].iter().for_each(|&foreign| next(&[0x61, foreign], 0));
    lines
}
