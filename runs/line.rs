//! A note line on both sides: the four C calls with all that they leave, and the rule a second time. The Rust has no lines. What
//! is here is written from request 2026-04's sentences and from docs/BYTES.md; the Rust judges each word.
//!
//! No state is moved along here. What a state says is made of all the letters that have come, anew for each call; and of bytes that
//! are sound a line is made which leads to them.

use crate::calls::{host, GUARD, GUARD_BYTE, GUARD_COUNT, MARGIN};
use crate::fixed::{bracketed, byte, spaced};
use crate::oracle::{self, in_alphabet, FOREIGN, LINE_LETTERS, LONG, UNSOUND, WORD_LETTERS};
use std::cell::RefCell;
use std::collections::HashMap;
use std::fmt::{Debug, Formatter};

/// The bytes of a state, and how many letters of the open word they keep.
pub const SIZE: usize = 26;
pub const KEPT: usize = 8;

pub type State = [u8; SIZE];

/// "Gaps are white space and the six syllable-ending marks of 01."
pub fn is_gap(code: u32) -> bool {
    let in_gap = |letter| matches!(letter, '\t'..='\r' | ' ' | '.' | ',' | '!' | '?' | ';' | ':');
    char::from_u32(code).is_some_and(in_gap)
}

/// A word of a line, and where it begins.
struct Word<'a> {
    start: usize,
    letters: &'a [u32],
}

/// "A line is words and gaps by turns": what stands between two letters of gaps, where something does.
fn words(line: &[u32]) -> Vec<Word<'_>> {
    let (mut words, mut start) = (Vec::new(), 0);
    for letters in line.split(|&code| is_gap(code)) {
        if !letters.is_empty() {
            words.push(Word { start, letters });
        }
        start += letters.len() + 1;
    }
    words
}

/// "words judged no", by the Rust. It is slow beside all else here, so that each word is asked for once.
fn judged_no(word: &Word) -> bool {
    thread_local!(static JUDGED: RefCell<HashMap<Vec<u32>, bool>> = RefCell::default());
    JUDGED.with_borrow_mut(|judged| match judged.get(word.letters) {
        Some(&no) => no,
        None => {
            let no = oracle::verdict(word.letters) != Ok(1);
            judged.insert(word.letters.to_vec(), no);
            no
        }
    })
}

/// What is told of a line: words, those judged no, and the place of the first of these.
pub type Told = [usize; 3];

/// "The answer is the number of words and of words judged no, and the position, in letters from 0, of the first letter of the first
/// of those, or the line's length if there is none."
fn told(line: &[u32]) -> Told {
    let words = words(line);
    let noes: Vec<&Word> = words.iter().filter(|word| judged_no(word)).collect();
    [words.len(), noes.len(), noes.first().map_or(line.len(), |word| word.start)]
}

/// "6 at the 65th letter of a word or the 4,097th of the line, 1 at a foreign letter, .. 1 if both at one place": what one place says.
fn refused_at(line: &[u32], place: usize) -> Option<u32> {
    let letter = line[place];
    if !in_alphabet(letter) {
        return Some(FOREIGN);
    }
    let before = line[..place].iter().rev().take_while(|&&code| !is_gap(code)).count();
    let over_word = !is_gap(letter) && before >= WORD_LETTERS;
    (place >= LINE_LETTERS || over_word).then_some(LONG)
}

/// "whichever stands first": the first place that says something, and what.
fn refused(line: &[u32]) -> Option<(usize, u32)> {
    (0..line.len()).find_map(|place| Some((place, refused_at(line, place)?)))
}

/// A whole line.
pub fn checked(line: &[u32]) -> Result<Told, u32> {
    refused(line).map_or_else(|| Ok(told(line)), |(_, refusal)| Err(refusal))
}

/// What has come of a line: its letters up to one that was refused, and that refusal.
#[derive(Clone)]
pub struct Come {
    letters: Vec<u32>,
    refusal: Option<u32>,
}

impl Come {
    pub fn nothing() -> Come {
        Come { letters: Vec::new(), refusal: None }
    }

    /// "after either, later calls repeat it until a new line is begun"
    pub fn with(&self, part: &[u32]) -> Come {
        if self.refusal.is_some() {
            return self.clone();
        }
        let mut letters = [&self.letters[..], part].concat();
        let refused = refused(&letters);
        letters.truncate(refused.map_or(letters.len(), |(place, _)| place));
        Come { letters, refusal: refused.map(|(_, refusal)| refusal) }
    }

    pub fn answer(&self) -> Result<Told, u32> {
        self.refusal.map_or_else(|| Ok(told(&self.letters)), Err)
    }

    /// The state, as docs/BYTES.md has it.
    pub fn bytes(&self) -> State {
        let open = self.letters.rsplit(|&code| is_gap(code)).next().unwrap_or(&[]);
        let [words, noes, first] = told(&self.letters[..self.letters.len() - open.len()]);
        let first = if noes == 0 { 0 } else { first };
        let mut bytes = [0; SIZE];
        bytes[0] = self.refusal.unwrap_or(0) as u8;
        bytes[1] = open.len() as u8;
        let mut numbers: Vec<usize> = vec![self.letters.len(), words, noes, first];
        numbers.extend(open.iter().take(KEPT).map(|&letter| letter as usize));
        for (place, number) in bytes[2..].chunks_mut(2).zip(numbers) {
            place.copy_from_slice(&(number as u16).to_le_bytes());
        }
        assert!(is_sound(&bytes), "a line leads to sound states alone: {bytes:?}");
        bytes
    }

    /// A line that leads to these bytes, or None where they are not sound.
    pub fn read(bytes: &[u8]) -> Option<Come> {
        if !is_sound(bytes) {
            return None;
        }
        let Numbers { refusal, run, length, words, noes, first, kept } = Numbers::read(bytes);
        let (yes, no) = (['a', ' '].map(u32::from), ['z', ' '].map(u32::from));
        let before = (first / 2).min(words - noes);
        let mut letters = yes.repeat(before);
        letters.resize(letters.len().max(first), u32::from(' '));
        letters.extend(no.repeat(noes));
        letters.extend(yes.repeat(words - noes - before));
        letters.resize(length - run, u32::from(' '));
        letters.extend(kept.iter().take(run));
        letters.resize(length, u32::from('b'));
        let come = Come { letters, refusal: (refusal != 0).then_some(refusal) };
        assert_eq!(come.bytes(), bytes, "a sound state is one that a line leads to");
        Some(come)
    }
}

/// What the bytes of a state say, sound or not.
struct Numbers {
    refusal: u32,
    run: usize,
    length: usize,
    words: usize,
    noes: usize,
    first: usize,
    kept: Vec<u32>,
}

impl Numbers {
    fn read(bytes: &[u8]) -> Numbers {
        let two = |place: usize| usize::from(u16::from_le_bytes([bytes[place], bytes[place + 1]]));
        let kept = (0..KEPT).map(|letter| two(10 + 2 * letter) as u32).collect();
        let (refusal, run) = (bytes[0].into(), bytes[1].into());
        Numbers { refusal, run, length: two(2), words: two(4), noes: two(6), first: two(8), kept }
    }
}

/// The soundness that docs/BYTES.md gives a state.
pub fn is_sound(bytes: &[u8]) -> bool {
    if bytes.len() != SIZE {
        return false;
    }
    let Numbers { refusal, run, length, words, noes, first, kept } = Numbers::read(bytes);
    let limits = length <= LINE_LETTERS && run <= WORD_LETTERS;
    let counts = match noes {
        0 => first == 0 && 2 * words + run <= length,
        _ => noes <= words && first + 2 * noes + run <= length && 2 * words + run + first % 2 <= length,
    };
    let end = match refusal {
        0 | FOREIGN => true,
        LONG => run == WORD_LETTERS || length == LINE_LETTERS,
        _ => false,
    };
    let in_word = |letter| in_alphabet(letter) && !is_gap(letter);
    let fits = |(place, &letter): (usize, &u32)| if place < run { in_word(letter) } else { letter == 0 };
    limits && counts && end && kept.iter().enumerate().all(fits)
}

/// A call; all but the first are on the bytes of a state.
#[derive(Clone, Copy)]
pub enum Call<'a> {
    Check(&'a [u32]),
    Begin,
    Part(&'a [u32]),
    Answer,
}

impl Call<'_> {
    pub fn name(&self) -> &'static str {
        match self {
            Call::Check(_) => "line_check",
            Call::Begin => "line_begin",
            Call::Part(_) => "line_part",
            Call::Answer => "line_answer",
        }
    }

    pub fn letters(&self) -> &[u32] {
        match self {
            Call::Check(letters) | Call::Part(letters) => letters,
            Call::Begin | Call::Answer => &[],
        }
    }
}

impl Debug for Call<'_> {
    fn fmt(&self, f: &mut Formatter) -> std::fmt::Result {
        write!(f, "{}", self.name())?;
        match self {
            Call::Check(letters) | Call::Part(letters) => write!(f, " {} letters: {}", letters.len(), bracketed(letters)),
            Call::Begin | Call::Answer => Ok(()),
        }
    }
}

/// The bytes of a state as they stand.
pub fn show(state: &[u8]) -> String {
    spaced(state.iter().copied(), byte)
}

/// The number that a call returns, and all that it leaves in what was lent to it: the three numbers and the state. The letters are
/// there only where they are not as they were.
#[derive(PartialEq)]
pub struct Left {
    refusal: u32,
    told: Told,
    state: Vec<u8>,
    letters: Vec<u32>,
}

fn guarded<T: Copy>(items: &[T], guard: T) -> Vec<T> {
    [&[guard; MARGIN], items, &[guard; MARGIN]].concat()
}

impl Left {
    fn before(state: &[u8]) -> Left {
        Left { refusal: 0, told: [GUARD_COUNT; 3], state: guarded(state, GUARD_BYTE), letters: Vec::new() }
    }

    /// What a call must leave on the state of what has come; None is for bytes that are not sound. After a refusal all is as it was;
    /// but "the line's state .. records that refusal".
    pub fn by(state: &[u8], come: Option<&Come>, call: Call) -> Left {
        let mut left = Left::before(state);
        let answered = match (call, come) {
            (Call::Check(line), _) => checked(line).map(Some),
            (Call::Begin, _) if state.len() == SIZE => {
                left.put(&Come::nothing());
                Ok(None)
            }
            (Call::Part(part), Some(come)) => {
                let come = come.with(part);
                left.put(&come);
                come.refusal.map_or(Ok(None), Err)
            }
            (Call::Answer, Some(come)) => come.answer().map(Some),
            (Call::Begin | Call::Part(_) | Call::Answer, _) => Err(UNSOUND),
        };
        match answered {
            Err(refusal) => left.refusal = refusal,
            Ok(told) => left.told = told.unwrap_or(left.told),
        }
        left
    }

    fn put(&mut self, come: &Come) {
        self.state[MARGIN..MARGIN + SIZE].copy_from_slice(&come.bytes());
    }

    /// What the C call leaves.
    pub fn of(state: &[u8], call: Call) -> Left {
        let mut left = Left::before(state);
        let (bytes, size) = (left.state[MARGIN..].as_mut_ptr(), state.len());
        let lent = guarded(call.letters(), GUARD);
        let (letters, length) = (lent[MARGIN..].as_ptr(), call.letters().len());
        let [words, no, first] = &mut left.told;
        left.refusal = unsafe {
            match call {
                Call::Check(_) => host::pasdrongel_line_check(letters, length, words, no, first),
                Call::Begin => host::pasdrongel_line_begin(bytes, size),
                Call::Part(_) => host::pasdrongel_line_part(bytes, size, letters, length),
                Call::Answer => host::pasdrongel_line_answer(bytes, size, words, no, first),
            }
        };
        if lent != guarded(call.letters(), GUARD) {
            left.letters = lent;
        }
        left
    }

    pub fn refusal(&self) -> u32 {
        self.refusal
    }

    /// The numbers that were told, if any were.
    pub fn told(&self) -> Option<Told> {
        (self.told != [GUARD_COUNT; 3]).then_some(self.told)
    }

    pub fn state(&self) -> &[u8] {
        &self.state[MARGIN..self.state.len() - MARGIN]
    }
}

/// `returns 0, 3 words, 2 no, first 3; 00 02 ..`. A number that keeps its value is `-`.
impl Debug for Left {
    fn fmt(&self, f: &mut Formatter) -> std::fmt::Result {
        let [words, no, first] = self.told.map(|number| if number == GUARD_COUNT { "-".to_string() } else { number.to_string() });
        write!(f, "returns {}, {words} words, {no} no, first {first}; {}", self.refusal, show(self.state()))?;
        let around = [&self.state[..MARGIN], &self.state[self.state.len() - MARGIN..]].concat();
        let changed = !self.letters.is_empty() || around.iter().any(|&byte| byte != GUARD_BYTE);
        if changed { write!(f, ", AND WHAT IS NOT TO BE WRITTEN CHANGED") } else { Ok(()) }
    }
}
