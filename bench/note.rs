//! The note, made ready for both sides: keys as numbers and as `char`, words as letters and as `String`.

use crate::calls::{self, State, Typist};

/// U+000A among the keys of a habit: here the composition starts afresh.
pub const RESET: u32 = 0x0a;

/// More letters than a text can have.
pub const ROOM: usize = 128;

/// How many cells the drafts have that are timed, and how many bytes they have then.
pub const DRAFTED: usize = 10;
const DRAFT: usize = 15 + 7 * DRAFTED;

/// The letters of a part in which a note line is handed over.
pub const PART: usize = 16;

/// Over how many cells in use a key is timed by itself, what is typed there, and how often.
const OVER: [usize; 5] = [0, 8, 32, 64, 95];
pub const LETTER: u32 = 'b' as u32;
pub const TONE: u32 = 's' as u32;
pub const TIMES: usize = 200;
/// The cells end with the first of these words in the note: it has a vowel, and no tone.
const LAST: &str = "xanh";

/// The keys, with a RESET wherever a host of this habit starts a fresh composition.
pub struct Habit {
    pub keys: Vec<u32>,
    /// The same for the Rust.
    #[cfg_attr(not(engine), allow(dead_code))]
    pub chars: Vec<char>,
    /// How many of them are typed: all but the RESETs.
    pub typed: usize,
}

impl Habit {
    fn new(keys: Vec<u32>) -> Habit {
        let typed = keys.iter().filter(|&&key| key != RESET).count();
        let chars = keys.iter().map(|&key| letter(key)).collect();
        Habit { keys, chars, typed }
    }
}

/// A word or a line, as each side takes it.
pub struct Text {
    pub letters: Vec<u32>,
    pub text: String,
}

impl Text {
    fn new(text: &str) -> Text {
        Text { letters: text.chars().map(u32::from).collect(), text: text.to_string() }
    }
}

/// A composition of DRAFTED cells, as a note is left half typed, and its draft.
pub struct Half {
    pub state: State,
    pub draft: Vec<u8>,
}

/// A composition of so many cells: the last ones of the note up to LAST, typed as one line.
pub struct Over {
    cells: usize,
    pub state: State,
    /// The keys that make it.
    pub before: Vec<u32>,
    /// The same, and then TIMES the tone key, which changes nothing after the first time. On no cells it is a letter, and a RESET
    /// stands before each, in `before` too.
    pub tones: Vec<u32>,
}

pub struct Note {
    /// A fresh composition after each space and each line.
    pub space: Habit,
    /// A fresh composition after each line; its spaces are typed.
    pub line: Habit,
    /// One line of all; a fresh composition where a key would need a 97th cell, and that key opens it.
    pub one: Habit,
    /// As `space`, with Caps Lock: every ASCII letter among the keys is a capital.
    pub capitals: Habit,
    /// The composition after each word, as bytes.
    pub states: Vec<State>,
    /// The compositions half typed, from each word of a line on.
    pub halves: Vec<Half>,
    /// One for each number of OVER.
    over: Vec<Over>,
    /// The words that the keys make, without digits and points.
    pub words: Vec<Text>,
    /// The lines that the keys make, each word composed by itself.
    pub lines: Vec<Text>,
    /// All of them as one note line: a line's end is a gap like any other.
    pub whole: Text,
    pub letters: [u32; 256],
    pub bytes: [u8; 256],
    pub string: String,
    #[cfg(engine)]
    pub engine: crate::engine::Engine,
}

impl Note {
    pub fn new(text: &str) -> Note {
        let keys: Vec<u32> = text.chars().map(u32::from).collect();
        let spaces_reset = |&key: &u32| if key == u32::from(' ') { RESET } else { key };
        let caps_lock = |key: u32| u32::from(letter(key).to_ascii_uppercase());
        let lines: Vec<Text> = text.lines().map(|line| Text::new(&composed(line))).collect();
        let whole = Text::new(&lines.iter().map(|line| &line.text[..]).collect::<Vec<&str>>().join("\n"));
        let words = lines.iter().flat_map(|line| line.text.split(|letter: char| !letter.is_alphabetic()));
        let words = words.filter(|word| !word.is_empty()).map(Text::new).collect();
        Note {
            space: Habit::new(keys.iter().map(spaces_reset).collect()),
            capitals: Habit::new(keys.iter().map(spaces_reset).map(caps_lock).collect()),
            line: Habit::new(keys),
            one: Habit::new(reset_when_full(text)),
            states: text.split_whitespace().map(state_of).collect(),
            halves: text.lines().flat_map(halves).collect(),
            over: OVER.iter().map(|&cells| over(text, cells)).collect(),
            words,
            lines,
            whole,
            letters: [0; 256],
            bytes: [0; 256],
            string: String::with_capacity(256),
            #[cfg(engine)]
            engine: crate::engine::new(),
        }
    }

    /// The composition of so many cells, a number of OVER.
    pub fn over(&self, cells: usize) -> &Over {
        self.over.iter().find(|over| over.cells == cells).expect("it is one of OVER")
    }

    /// The sides do the same: after every key of every habit they have the same text, and no key is refused; and they
    /// judge and cut every word alike. With capitals on the text has the same letters but for their case, and where no
    /// key is a small letter, the capital of each. What is read of a draft is the composition that it was written of. The
    /// note as one line is told alike, in parts too. Over so many cells a letter makes one more, and a tone key none.
    pub fn check(&mut self) {
        for habit in [&self.space, &self.line, &self.one, &self.capitals] {
            for keys in habit.keys.split(|&key| key == RESET) {
                for typed in (1..=keys.len()).map(|count| &keys[..count]) {
                    let text = text_of(typed, calls::keys).expect("no key of the note is refused");
                    assert_eq!(text_of(typed, calls::sound_keys).as_ref(), Some(&text));
                    assert_eq!(text_of(typed, calls::host_keys).as_ref(), Some(&text));
                    #[cfg(engine)]
                    assert_eq!(crate::engine::text_of(&mut self.engine, typed), text);
                    let capital = text_of(typed, calls::host_capital_keys).expect("no key of the note is refused");
                    assert_eq!(capital.to_lowercase(), text.to_lowercase());
                    if !typed.iter().any(|&key| letter(key).is_ascii_lowercase()) {
                        assert_eq!(capital, text.to_uppercase());
                    }
                }
            }
        }
        for state in self.states.iter().chain(self.halves.iter().map(|half| &half.state)) {
            let mut read = [u8::MAX; size_of::<State>()];
            assert!(calls::read_draft(&draft_of(state), &mut read), "what was written is a draft");
            assert_eq!(read, *state);
        }
        for Over { cells, state, before, tones } in &self.over {
            let mut text = [0; ROOM];
            assert_eq!(calls::host_key(&mut state.clone(), LETTER, &mut text), Some(cells + 1));
            assert_eq!(calls::host_key(&mut state.clone(), TONE, &mut text), Some(*cells.max(&1)));
            assert_eq!(text_of(before, calls::keys), text_of(before, calls::host_keys));
            assert_eq!(text_of(tones, calls::keys).map(|text| text.chars().count()), Some(*cells.max(&1)));
        }
        let told = calls::line_check(&self.whole.letters).expect("the note is a line");
        assert_eq!(calls::line_in_parts(&self.whole.letters, PART), Some(told));
        #[cfg(engine)]
        assert_eq!(crate::engine::told(&self.whole.text), told);
        #[cfg(engine)]
        for Text { letters, text } in &self.words {
            assert_eq!((calls::verdict(letters), calls::cut(letters)), crate::engine::verdict_and_cut(text), "{text}");
        }
    }
}

fn letter(code: u32) -> char {
    char::from_u32(code).expect("a letter is a char")
}

/// What the keys leave of a fresh composition, if none is refused.
fn text_of(keys: &[u32], typist: Typist) -> Option<String> {
    const NONE: u32 = u32::MAX;
    let mut text = [NONE; ROOM];
    let refused = typist(keys, &mut text);
    let letters = text.iter().copied().take_while(|&code| code != NONE);
    // a mark or a tone takes no cell, so the text is never longer than the last one
    (refused == 0).then(|| letters.map(letter).collect())
}

/// The composition that keys leave, as bytes.
fn state_of(keys: &str) -> State {
    let mut state = [0; size_of::<State>()];
    let keys: Vec<u32> = keys.chars().map(u32::from).collect();
    assert_eq!(calls::host_typed(&mut state, &keys, &mut [0; ROOM]), 0, "no key of the note is refused");
    state
}

fn draft_of(state: &State) -> Vec<u8> {
    let mut draft = [0; 256];
    let count = calls::write_draft(state, &mut draft).expect("there is room for a draft");
    draft[..count].to_vec()
}

/// The compositions half typed, from each word of the line on that has as many cells after it.
fn halves(line: &str) -> Vec<Half> {
    let words = line.char_indices().map(|(at, _)| at).filter(|&at| at == 0 || line[..at].ends_with(' '));
    words.filter_map(|at| half(&line[at..])).collect()
}

/// The last of the compositions of DRAFTED cells that the keys go through.
fn half(keys: &str) -> Option<Half> {
    let ends = keys.char_indices().map(|(at, key)| at + key.len_utf8());
    let halves = ends.map(|end| state_of(&keys[..end])).map(|state| Half { draft: draft_of(&state), state });
    halves.filter(|half| half.draft.len() == DRAFT).last()
}

/// The cells that keys leave of a fresh composition, if none is refused.
fn cells_of(keys: &[u32]) -> Option<usize> {
    text_of(keys, calls::host_keys).map(|text| text.chars().count())
}

/// The keys of the note up to LAST, from as far back as so many cells ask.
fn over(text: &str, cells: usize) -> Over {
    let end = text.find(LAST).expect("the note has the word") + LAST.len();
    let keys: Vec<u32> = text[..end].chars().map(|key| u32::from(if key == '\n' { ' ' } else { key })).collect();
    let from = (0..=keys.len()).rev().find(|&from| cells_of(&keys[from..]) == Some(cells));
    let before = keys[from.expect("the word stands far enough in the note")..].to_vec();
    let mut state = [0; size_of::<State>()];
    assert_eq!(calls::host_typed(&mut state, &before, &mut [0; ROOM]), 0, "no key of the note is refused");
    let again = |key: &[u32]| key.repeat(TIMES);
    if cells == 0 {
        return Over { cells, state, before: again(&[RESET]), tones: again(&[RESET, TONE]) };
    }
    Over { cells, state, tones: [&before[..], &again(&[TONE])].concat(), before }
}

/// The text of a line, each word composed by itself.
fn composed(line: &str) -> String {
    let words = line.split(' ').map(|word| {
        let keys: Vec<u32> = word.chars().map(u32::from).collect();
        text_of(&keys, calls::keys).expect("a word fits in a composition")
    });
    words.collect::<Vec<String>>().join(" ")
}

/// All keys in one line, with a RESET before each that is refused without it.
fn reset_when_full(text: &str) -> Vec<u32> {
    let (mut keys, mut since) = (Vec::new(), 0);
    for key in text.trim_end().chars().map(|key| if key == '\n' { ' ' } else { key }) {
        keys.push(u32::from(key));
        if text_of(&keys[since..], calls::keys).is_none() {
            let refused = keys.len() - 1;
            keys.insert(refused, RESET);
            since = refused + 1;
        }
    }
    keys
}
