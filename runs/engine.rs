//! The Rust, unchanged: its files are taken in as they stand. They are private to themselves, so each gets a module `spy`
//! beside its text, through which the oracle sees and sets what the file does not publish.

#[allow(dead_code)]
pub mod bamboo {
    include!(concat!(env!("ENGINE"), "/bamboo.rs"));

    pub mod spy {
        use super::{BambooEngine, InputMethod, Mode, Transformation};

        pub fn is_vowel(letter: char) -> bool {
            super::is_vowel(letter)
        }

        pub fn apply_tone_to_char(letter: char, tone: char) -> char {
            super::apply_tone_to_char(letter, tone)
        }

        #[derive(Clone, Copy, PartialEq, Eq, Debug)]
        pub struct Cell {
            pub base: char,
            pub mark: Option<char>,
            pub tone: Option<char>,
            pub upper: bool,
        }

        pub fn cells(engine: &BambooEngine) -> impl Iterator<Item = Cell> + '_ {
            let cell = |t: &Transformation| Cell {
                base: t.base_char,
                mark: t.mark_applied,
                tone: t.tone_applied,
                upper: t.is_upper,
            };
            engine.composition.iter().map(cell)
        }

        /// Puts cells and a mode into an engine whose past leaves nothing behind.
        pub fn hand_in(engine: &mut BambooEngine, cells: &[Cell], mode: Mode) {
            let transformation = |cell: &Cell| Transformation {
                base_char: cell.base,
                mark_applied: cell.mark,
                tone_applied: cell.tone,
                is_upper: cell.upper,
            };
            engine.reset();
            engine.composition.extend(cells.iter().map(transformation));
            engine.mode = mode;
        }

        /// Sets the flag of each cell, and nothing else of the engine.
        pub fn set_flags(engine: &mut BambooEngine, flags: &[bool]) {
            engine.composition.iter_mut().zip(flags).for_each(|(cell, &flag)| cell.is_upper = flag);
        }

        pub fn method(engine: &BambooEngine) -> InputMethod {
            engine.rules.method
        }

        /// Does the last syllable start after a cell of this letter?
        pub fn separates(letter: char) -> bool {
            let mut engine = BambooEngine::new(InputMethod::Telex);
            hand_in(&mut engine, &[Cell { base: letter, mark: None, tone: None, upper: false }], Mode::Vietnamese);
            engine.last_syllable_range().start == 1
        }
    }
}

#[allow(dead_code)]
pub mod spelling {
    include!(concat!(env!("ENGINE"), "/spelling.rs"));

    pub mod spy {
        pub fn is_vowel(letter: char) -> bool {
            super::is_vowel(letter)
        }

        pub fn strip_tone(letter: char) -> char {
            super::strip_tone(letter)
        }

        fn parts(rows: &[&'static str]) -> Vec<&'static str> {
            rows.iter().flat_map(|row| row.split_whitespace()).collect()
        }

        pub fn onsets() -> Vec<&'static str> {
            parts(super::FIRST_CONSONANT_SEQS)
        }

        pub fn vowels() -> Vec<&'static str> {
            parts(super::VOWEL_SEQS)
        }

        pub fn codas() -> Vec<&'static str> {
            parts(super::LAST_CONSONANT_SEQS)
        }
    }
}
