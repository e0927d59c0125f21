//! The composer: every call on a composition against the Rust's engine, on the bytes that C lends. Each comparison is of
//! one call: the number that it returns, the whole lent output, and every byte of the composition. Everything is compared
//! twice, with capitals off, where the Rust alone answers, and on.

use crate::calls::host;
use crate::composition::{
    answered, show_bytes, Call, Composition, Left, Oracle, State, CELLS, HEAD, MOST_BYTES, OLD_CELLS, ROOM, SIZE,
};
use crate::engine::bamboo::spy::Cell;
use crate::engine::bamboo::{BambooEngine, Mode};
use crate::input_method::InputMethod::{self, Telex, Vni};
use crate::oracle::{self, alphabet, FULL, MARKS, TONE_KEYS, WORD_LETTERS};
use crate::report::{Random, Run};
use crate::session;

pub const CALLS: &[&str] = &[
    "new", "check_composition", "composition_bytes", "method", "mode", "capitals", "count", "key", "text", "literal",
    "remove_last", "undo", "reset", "set_method", "set_mode", "set_capitals",
];

/// The keys that compose under each method, and letters that its steps look at or pass over.
const TELEX_KEYS: &str = "aeouiydwsfrxjqgnb .";
const VNI_KEYS: &str = "aeouiyd678912345qgnb .";

/// Strings of keys: the method, its name, the keys, and the most of them.
const SHORT_STRINGS: [(InputMethod, &str, &str, usize); 4] = [
    (Telex, "Telex", TELEX_KEYS, 4),
    (Vni, "VNI", VNI_KEYS, 4),
    (Telex, "Telex", "aAoOuUwWsSdDqb.", 5),
    (Vni, "VNI", "aAoOuUdD6789q1.", 5),
];
const LONG_STRINGS: [(InputMethod, &str, &str, usize); 3] = [
    (Telex, "Telex", "aeoudwsfrxjb", 6),
    (Telex, "Telex", "aeouiywsqgb ", 6),
    (Vni, "VNI", "aeoud678912345b", 6),
];

/// Keys that make pairs of u and o, marks and tones under either method, in either case.
const CASED_KEYS: &str = "uUuUoOoOwW77aAdDeEsSfF1269bBqQ .";

/// Numbers that are no letter: just outside the alphabet, and far from it.
const OUTSIDE: [u32; 9] = [0x80, 0xff, 0x104, 0x300, 0x1efa, 0xd800, 0x110000, 0x80000061, 0xffffffff];

/// Cells that no key makes stand among these: an A with the flag off, a toned consonant, ă with no mark, a flagged U+0000.
const ODD_BASES: &str = "aAăĂâeêoOôơuUưiyYqQgGdDđbw .\0à1";

pub fn fixed() -> Vec<String> {
    session::fixed()
}

pub fn compare(run: &mut Run) {
    let mut composer = Composer { run, oracle: Oracle::new(), capitals: false };
    composer.size();
    for capitals in [false, true] {
        composer.capitals = capitals;
        composer.strings(&SHORT_STRINGS);
        composer.reaches();
        composer.full();
        composer.orders();
        composer.undo();
        composer.handed_in();
        composer.rooms();
        composer.unsound();
        composer.pairs();
        composer.sessions();
        composer.one_engine();
    }
    composer.turned();
    for capitals in [false, true] {
        composer.capitals = capitals;
        composer.strings(&LONG_STRINGS);
    }
}

pub fn codes(text: &str) -> Vec<u32> {
    text.chars().map(u32::from).collect()
}

fn keys_of(method: InputMethod) -> Vec<u32> {
    codes(if method == Telex { TELEX_KEYS } else { VNI_KEYS })
}

/// A letter as it stands after it is appended.
pub fn plain(base: char) -> Cell {
    Cell { base, mark: None, tone: None, upper: base.is_uppercase() }
}

pub fn handed(method: InputMethod, cells: &[Cell]) -> Composition {
    Composition { cells: cells.to_vec(), ..Composition::new(method) }
}

/// Each base of `ODD_BASES`, marked and not, with some tones, with the flag on and off.
pub fn odd_cells() -> Vec<Cell> {
    let mut cells = Vec::new();
    for base in ODD_BASES.chars() {
        let marks = if MARKS.contains(base) { &[None, Some(base)][..] } else { &[None] };
        for &mark in marks {
            for tone in [None, Some('s'), Some('1')] {
                cells.extend([false, true].map(|upper| Cell { base, mark, tone, upper }));
            }
        }
    }
    cells
}

fn random_cell(random: &mut Random) -> Cell {
    let base = if random.below(2) == 0 { random.of(alphabet()) } else { random.letter_of(ODD_BASES) };
    let base = oracle::letter(base).expect("a letter");
    let mark = Some(base).filter(|&base| MARKS.contains(base) && random.below(2) == 0);
    let tone = TONE_KEYS.chars().nth(random.below(30));
    Cell { base, mark, tone, upper: if random.below(4) == 0 { random.below(2) == 0 } else { base.is_uppercase() } }
}

pub fn random_composition(random: &mut Random, count: usize) -> Composition {
    let cells = (0..count).map(|_| random_cell(random)).collect();
    let mode = if random.below(8) == 0 { Mode::English } else { Mode::Vietnamese };
    Composition { mode, cells, ..Composition::new(random.of(&[Telex, Vni])) }
}

/// What the same keys make under both settings of capitals: the compositions differ in that byte and in flags of ơ alone.
fn but_for_capitals(state: &State) -> Option<Composition> {
    let mut composition = Composition { capitals: false, ..Composition::read(state)? };
    composition.cells.iter_mut().filter(|cell| cell.base == 'ơ').for_each(|cell| cell.upper = false);
    Some(composition)
}

struct Composer<'a> {
    run: &'a mut Run,
    oracle: Oracle,
    /// The setting of what is handed in.
    capitals: bool,
}

impl Composer<'_> {
    fn begin(&mut self, name: &str) {
        self.run.begin(&[if self.capitals { "capitals on, " } else { "" }, name].concat());
    }

    /// With capitals on, keys and letters that have none among them are taken as capitals.
    fn cased(&self, letters: &str) -> String {
        let none = letters.to_lowercase() == letters;
        if self.capitals && none { letters.to_uppercase() } else { letters.to_string() }
    }

    fn handed(&self, method: InputMethod, cells: &[Cell]) -> Composition {
        Composition { capitals: self.capitals, ..handed(method, cells) }
    }

    /// Letters that were appended, and that no key composed.
    fn appended(&self, method: InputMethod, letters: &str) -> State {
        self.handed(method, &letters.chars().map(plain).collect::<Vec<Cell>>()).bytes()
    }

    fn random_composition(&mut self, count: usize) -> Composition {
        Composition { capitals: self.capitals, ..random_composition(self.run.random(), count) }
    }

    /// Compares one call on any bytes with what must be left of it, and gives what is left.
    fn against(&mut self, bytes: &[u8], call: Call, theirs: &Left) -> Left {
        let ours = Left::of(bytes, call);
        let size = || {
            let (cells, numbers) = (bytes.get(2).copied().unwrap_or(0).into(), call.numbers());
            [vec![0; cells], numbers.clone(), numbers, bytes.iter().map(|&byte| byte.into()).collect()].concat()
        };
        self.run.compare(call.name(), &ours, theirs, size, || format!("{call:?}; on {}", show_bytes(bytes)));
        ours
    }

    /// Compares one call on any bytes, and gives what the oracle leaves.
    fn call(&mut self, bytes: &[u8], call: Call) -> Left {
        let theirs = self.oracle.left(bytes, call);
        self.against(bytes, call, &theirs);
        theirs
    }

    fn step(&mut self, state: &State, call: Call) -> State {
        self.call(state, call).state()
    }

    fn key(&mut self, state: &State, key: u32) -> State {
        self.step(state, Call::Key(key, ROOM))
    }

    fn each_key(&mut self, state: &State, keys: &[u32]) {
        for &key in keys {
            self.key(state, key);
        }
    }

    /// Every string of up to `length` of the keys.
    fn extend(&mut self, state: &State, keys: &[u32], length: usize) {
        for &key in keys {
            let after = self.key(state, key);
            if length > 1 {
                self.extend(&after, keys, length - 1);
            }
        }
    }

    fn size(&mut self) {
        self.run.begin("composition_bytes: a head of eight bytes, and eight for each of 96 cells");
        let ours = unsafe { host::pasdrongel_composition_bytes() };
        self.run.compare("composition_bytes", ours, SIZE, Vec::new, String::new);
    }

    fn strings(&mut self, kinds: &[(InputMethod, &str, &str, usize)]) {
        for &(method, name, keys, length) in kinds {
            let keys = self.cased(keys);
            self.begin(&format!("key: every {name} string of up to {length} over `{keys}`"));
            self.extend(&self.appended(method, ""), &codes(&keys), length);
        }
    }

    /// The mark step and the uo step go back 5 cells, over letters of any kind or only over some.
    fn reaches(&mut self) {
        const STARTS: [&str; 22] = [
            "a", "e", "o", "u", "d", "A", "E", "O", "U", "D", "uo", "Uo", "uO", "UO", "quo", "uou", "ua", "Ua", "qua", "QUa",
            "oa", "ưo",
        ];
        self.begin("key: 0 to 9 letters between a letter and each key, of one kind");
        for method in [Telex, Vni] {
            let keys: Vec<u32> = keys_of(method).into_iter().chain(codes("WADEO")).collect();
            for start in STARTS {
                for between in 0..=9 {
                    for filler in "bđ .iơAw71".chars() {
                        for lead in ["", "b", "uo bbbbbbbbbbb"] {
                            let filled = filler.to_string().repeat(between);
                            let state = self.appended(method, &[lead, start, &filled].concat());
                            self.each_key(&state, &keys);
                        }
                    }
                }
            }
        }
        self.begin("key: 0 to 9 letters between a letter and each key, of any kind");
        for _ in self.run.times(20_000) {
            let random = self.run.random();
            let mut cells: Vec<Cell> = random.of(&STARTS).chars().map(plain).collect();
            for _ in 0..random.below(10) {
                cells.push(random_cell(random));
            }
            let method = random.of(&[Telex, Vni]);
            let state = self.handed(method, &cells).bytes();
            self.each_key(&state, &keys_of(method));
        }
    }

    fn pairs(&mut self) {
        self.begin("key: every pair of letters, and each composing key after it");
        for method in [Telex, Vni] {
            let keys = keys_of(method);
            for &first in alphabet() {
                let one = self.key(&self.appended(method, ""), first);
                for &second in alphabet() {
                    let two = self.key(&one, second);
                    self.each_key(&two, &keys);
                }
            }
        }
        self.begin("key: every letter in English mode, room 0 to 2");
        for &letter in alphabet() {
            for cells in [vec![], vec![plain('a')]] {
                let state = Composition { mode: Mode::English, ..self.handed(Telex, &cells) }.bytes();
                (0..=2).for_each(|room| drop(self.call(&state, Call::Key(letter, room))));
            }
        }
    }

    /// Sound cells, whether a key makes them or not.
    fn handed_in(&mut self) {
        let odd = odd_cells();
        self.begin("every call: each cell of a choice of odd ones, alone, and under every key and literal");
        for &cell in &odd {
            for method in [Telex, Vni] {
                let state = self.handed(method, &[cell]).bytes();
                self.others(&state);
                self.each_key(&state, alphabet());
                alphabet().iter().for_each(|&letter| drop(self.call(&state, Call::Literal(letter))));
            }
        }
        self.begin("key: each pair of odd cells under each composing key");
        for &first in &odd {
            for &second in &odd {
                for method in [Telex, Vni] {
                    let state = self.handed(method, &[first, second]).bytes();
                    self.each_key(&state, &keys_of(method));
                }
            }
        }
        self.begin("every call: random cells, 0 to 96 of them");
        for _ in self.run.times(20_000) {
            let count = self.run.random().below(CELLS + 1);
            let composition = self.random_composition(count);
            let state = composition.bytes();
            self.others(&state);
            self.each_key(&state, &keys_of(composition.method));
        }
    }

    /// Each call but the key, the literal and undo of something.
    fn others(&mut self, state: &[u8]) {
        use Call::*;
        for call in [
            New(0), New(1), Text(ROOM), RemoveLast(ROOM), Reset, SetMethod(0), SetMethod(1), SetMode(0), SetMode(1),
            SetCapitals(0), SetCapitals(1), Undo('w'.into(), &codes("aw")), Undo('s'.into(), &codes("s")), CheckComposition,
            Method, Mode, Capitals, Count,
        ] {
            self.call(state, call);
        }
    }

    fn undo(&mut self) {
        let marking = self.cased("aeoudws");
        let marked = |base, tone, upper| Cell { base, mark: Some(base), tone, upper };
        let toned = |base, tone| Cell { base, mark: None, tone: Some(tone), upper: false };
        let stands: Vec<State> = [
            MARKS.chars().map(|base| marked(base, None, false)).collect(),
            MARKS.chars().map(|base| marked(base, None, true)).collect(),
            MARKS.chars().map(|base| marked(base, Some('s'), false)).collect(),
            vec![marked('ă', Some('s'), false), marked('ă', None, false), marked('ơ', None, true), toned('b', 's')],
            vec![toned('a', '1'), toned('o', 's'), marked('ư', Some('f'), false), marked('đ', None, false), plain('ư')],
        ]
        .iter()
        .map(|cells: &Vec<Cell>| self.handed(Telex, cells).bytes())
        .collect();
        self.begin("undo: every letter as trigger, raw strings that end in it");
        for &trigger in alphabet() {
            for state in &stands {
                self.call(state, Call::Undo(trigger, &[trigger]));
                self.call(state, Call::Undo(trigger, &[0x61, 0x77, trigger]));
            }
        }
        let triggers = codes("aeoudwsf1\0AWD");
        self.begin(&format!("undo: every raw string of up to 5 over `{marking}`, each trigger, typed and handed in"));
        let none = self.appended(Telex, "");
        let mut raws = vec![vec![]];
        for start in 0.. {
            let Some(raw) = raws.get(start).cloned() else { break };
            if raw.len() < 5 {
                raws.extend(codes(&marking).into_iter().map(|key| [&raw[..], &[key]].concat()));
            }
            let typed = raw.iter().fold(none, |state, &key| self.key(&state, key));
            let before = raw.iter().take(raw.len().saturating_sub(1)).fold(none, |state, &key| self.key(&state, key));
            for &trigger in &triggers {
                for state in stands.iter().chain([&typed, &before]) {
                    self.call(state, Call::Undo(trigger, &raw));
                }
            }
        }
        self.begin("undo: random raw strings of up to 66 letters, capitals and foreign letters among them, both methods");
        for _ in self.run.times(100_000) {
            let most = self.run.random().of(&[8, 8, 8, CELLS + 1]);
            let count = self.run.random().below(most);
            let state = self.random_composition(count).bytes();
            let random = self.run.random();
            let length = if random.below(4) == 0 { random.below(WORD_LETTERS + 3) } else { random.below(6) };
            const POOL: &str = "aAeEoOuUdDwWsSfiyb1Ăđ";
            let mut raw: Vec<u32> = (0..length).map(|_| random.letter_of(POOL)).collect();
            if random.below(20) == 0 && length > 0 {
                raw[random.below(length)] = random.of(&OUTSIDE);
            }
            let trigger = if random.below(30) == 0 { random.of(&OUTSIDE) } else { random.letter_of(POOL) };
            self.call(&state, Call::Undo(trigger, &raw));
        }
    }

    fn rooms(&mut self) {
        self.begin("key, text, remove_last: 0 to 96 cells, room 0 to 98");
        for count in 0..=CELLS {
            for _ in self.run.times(4) {
                let state = self.random_composition(count).bytes();
                for room in 0..=CELLS + 2 {
                    for key in codes("aws71bW") {
                        self.call(&state, Call::Key(key, room));
                    }
                    self.call(&state, Call::Text(room));
                    self.call(&state, Call::RemoveLast(room));
                }
            }
        }
    }

    fn full(&mut self) {
        self.begin("key, literal: every letter on 94 to 96 cells, on 31 to 33 and on 63 to 65, then text and remove_last");
        let around = |count: usize| count - 1..=count + 1;
        for method in [Telex, Vni] {
            for count in around(OLD_CELLS).chain(around(WORD_LETTERS)).chain(CELLS - 2..=CELLS) {
                for filler in ["b", "a", "uo", "a.", "đ"] {
                    let cells: String = self.cased(filler).chars().cycle().take(count).collect();
                    let state = self.appended(method, &cells);
                    for &letter in alphabet() {
                        let keyed = self.key(&state, letter);
                        let keyed = self.key(&keyed, letter);
                        self.call(&keyed, Call::RemoveLast(ROOM));
                        let literal = self.step(&state, Call::Literal(letter));
                        self.call(&literal, Call::Text(ROOM));
                        self.call(&literal, Call::Literal(letter));
                    }
                }
            }
        }
        self.begin("key, literal: numbers that are no letter, on 0, 1 and 96 cells, in either mode");
        for count in [0, 1, CELLS] {
            for mode in [Mode::Vietnamese, Mode::English] {
                let state = Composition { mode, ..self.handed(Telex, &vec![plain('a'); count]) }.bytes();
                for code in (0..0x2100).chain(OUTSIDE) {
                    self.call(&state, Call::Key(code, 0));
                    self.call(&state, Call::Key(code, ROOM));
                    self.call(&state, Call::Literal(code));
                }
            }
        }
    }

    /// Every byte of some compositions with every other value, and every other length: sound or not, as the oracle says.
    fn unsound(&mut self) {
        self.begin("check_composition, key: every byte changed to every value");
        let odd = odd_cells();
        let cells: Vec<Cell> = odd.iter().copied().step_by(odd.len() / CELLS).take(CELLS).collect();
        let some = [&[][..], &[plain('a')], &cells[..7], &cells[..OLD_CELLS], &cells];
        let changed: Vec<State> = some.map(|cells| self.handed(Telex, cells).bytes()).into();
        for state in &changed {
            for place in 0..SIZE {
                for value in 0..=0xff {
                    let mut other = *state;
                    other[place] = value;
                    self.call(&other, Call::CheckComposition);
                    self.call(&other, Call::Key('a'.into(), ROOM));
                }
            }
        }
        self.begin("every call: every byte changed to some values, and bytes of every length");
        for state in &changed {
            for place in 0..SIZE {
                for value in [0, 1, 2, 0x21, 0x61, 0x73, 0x80, 0xff] {
                    let mut other = *state;
                    other[place] = value;
                    self.others(&other);
                    self.call(&other, Call::Literal('a'.into()));
                }
            }
            for length in 0..=MOST_BYTES {
                let mut bytes = vec![0; MOST_BYTES];
                bytes[..SIZE].copy_from_slice(state);
                self.others(&bytes[..length]);
                self.call(&bytes[..length], Call::Literal('a'.into()));
                self.call(&bytes[..length], Call::Key('a'.into(), ROOM));
            }
        }
        self.begin("every call: the byte of capitals changed to every value, and nothing else");
        for state in &changed {
            for value in 0..=0xff {
                let mut other = *state;
                other[3] = value;
                self.others(&other);
                self.call(&other, Call::Literal('a'.into()));
                self.call(&other, Call::Key('a'.into(), ROOM));
            }
        }
        self.begin("every call: two random bytes of random cells changed, and random bytes");
        for turn in self.run.times(50_000) {
            let count = self.run.random().below(CELLS + 1);
            let mut bytes = self.random_composition(count).bytes();
            let (random, capitals) = (self.run.random(), u8::from(self.capitals));
            if turn % 8 == 0 {
                bytes = [(); SIZE].map(|()| random.next() as u8);
                bytes[..HEAD].copy_from_slice(&[0, 0, random.below(CELLS + 8) as u8, capitals, 0, 0, 0, 0]);
            } else {
                (0..2).for_each(|_| bytes[random.below(HEAD + 8 * count.max(1))] = random.next() as u8);
            }
            self.others(&bytes);
            self.call(&bytes, Call::Key('s'.into(), ROOM));
        }
    }

    /// Where several refusals hold at once, the order is 10, 6, 1, then 2, 4 or 5, last 3.
    fn orders(&mut self) {
        self.begin("every call: several refusals at once");
        let mut states = Vec::new();
        for method in [Telex, Vni] {
            for cells in [vec![], vec![plain('b')], vec![plain('a'); CELLS], vec![plain('b'); CELLS]] {
                for mode in [Mode::Vietnamese, Mode::English] {
                    let state = Composition { mode, ..self.handed(method, &cells) }.bytes();
                    let (mut flag, mut setting) = (state, state);
                    (flag[SIZE - 1], setting[3]) = (2, 2);
                    states.extend([state.to_vec(), flag.to_vec(), setting.to_vec(), state[..SIZE - 1].to_vec()]);
                }
            }
        }
        let letters = || codes("absw7\0").into_iter().chain(OUTSIDE);
        for state in &states {
            for number in [0, 1, 2, 3, 0xff, 0x100, 0x101, 0x80000000, 0xffffffff] {
                use Call::*;
                for call in [New(number), SetMethod(number), SetMode(number), SetCapitals(number)] {
                    self.call(state, call);
                }
            }
            for room in [0, 1, CELLS - 1, CELLS] {
                self.call(state, Call::Text(room));
                self.call(state, Call::RemoveLast(room));
                letters().for_each(|letter| drop(self.call(state, Call::Key(letter, room))));
            }
            for letter in letters() {
                self.call(state, Call::Literal(letter));
                for length in [0, 1, WORD_LETTERS, WORD_LETTERS + 1, 200] {
                    for foreign in [0x61, 0x110000] {
                        let mut raw = vec![0x61; length];
                        raw.last_mut().into_iter().for_each(|last| *last = foreign);
                        self.call(state, Call::Undo(letter, &raw));
                    }
                }
            }
        }
    }

    /// Sessions as a host has them, with the text and the numbers asked for after each call. Where capitals are on at first,
    /// they are turned off and on between the calls. One in twenty is of a host that does not empty the cells, up to where they
    /// are all used, and on.
    fn sessions(&mut self) {
        self.begin("every call: random sessions of up to 130 calls, and of 300, text, method, mode, capitals and count after each");
        let kinds = if self.capitals { 220 } else { 200 };
        let mut full = 0;
        for turn in self.run.times(15_000) {
            let method = self.run.random().of(&[Telex, Vni]);
            let mut state = self.appended(method, "");
            let mut raw: Vec<u32> = Vec::new();
            let (goes_on, mut refused) = (turn % 20 == 0, false);
            let calls = if goes_on { 300 } else { 1 + self.run.random().below(130) };
            for _ in 0..calls {
                let count = usize::from(state[2]);
                let (kind, letter) = (self.run.random().below(kinds), random_key(self.run.random()));
                let room = if self.run.random().below(8) > 0 { ROOM } else { self.run.random().below(count + 3) };
                let call = match kind {
                    0..120 => Call::Key(letter, room),
                    120..140 => Call::Literal(letter),
                    140..155 => Call::RemoveLast(room),
                    155..165 => Call::Undo(raw.last().copied().unwrap_or(letter), &raw),
                    165..175 => Call::Undo(letter, &raw),
                    175..180 => Call::Text(room),
                    180..187 | 199 if goes_on => Call::Key(letter, room),
                    180..183 => Call::Reset,
                    183..185 => Call::SetMethod(self.run.random().below(2) as u32),
                    185..187 => Call::SetMode(1),
                    187..197 => Call::SetMode(0),
                    197..199 => Call::CheckComposition,
                    199 => Call::New(self.run.random().below(2) as u32),
                    _ => Call::SetCapitals(self.run.random().of(&[0, 1, 1])),
                };
                let left = self.call(&state, call);
                refused |= left.refusal() == FULL;
                state = left.state();
                match call {
                    Call::Key(..) | Call::Literal(_) => raw.push(letter),
                    Call::RemoveLast(_) => drop(raw.pop()),
                    Call::Reset => raw.clear(),
                    _ => {}
                }
                for asked in [Call::Text(ROOM), Call::Method, Call::Mode, Call::Capitals, Call::Count] {
                    self.call(&state, asked);
                }
            }
            full += u64::from(refused);
        }
        assert!(full > 0, "no session came to where all cells are used");
    }
}

impl Composer<'_> {
    /// One engine of the Rust through a whole session, with nothing handed in: what it keeps beside the cells is seen so.
    fn one_engine(&mut self) {
        self.begin(
            "key, literal, remove_last, undo, reset: sessions of up to 130 calls, and of 400, on one engine of the Rust, its numbers \
             after each",
        );
        let mut filled = 0;
        for _ in self.run.times(2_000) {
            let method = self.run.random().of(&[Telex, Vni]);
            let (mut engine, mut state) = (BambooEngine::new(method), self.appended(method, ""));
            let mut raw: Vec<u32> = Vec::new();
            let most = self.run.random().of(&[130, 130, 130, 400]);
            for _ in 0..1 + self.run.random().below(most) {
                let full = usize::from(state[2]) == CELLS;
                filled += u64::from(full);
                let (kind, key) = (self.run.random().below(100), random_key(self.run.random()));
                let call = match kind {
                    0..90 if !full => Call::Key(key, ROOM),
                    90..93 if !full => Call::Literal(key),
                    93..96 => Call::RemoveLast(ROOM),
                    96..99 => Call::Undo(key, &raw[raw.len().saturating_sub(WORD_LETTERS)..]),
                    _ => Call::Reset,
                };
                for call in [call, Call::Method, Call::Mode, Call::Capitals, Call::Count] {
                    let theirs = Left::by(&state, answered(&mut engine, self.capitals, call));
                    self.against(&state, call, &theirs);
                    state = theirs.state();
                }
                raw.push(key);
            }
        }
        assert!(filled > 0, "no session came to where all cells are used");
    }

    /// The same keys with capitals off, on, and turned between them: bases, marks and tones are the same, and flags but for those
    /// of ơ. Where capitals are off all along, every answer is that of one engine of the Rust.
    fn turned(&mut self) {
        self.run.begin("key, set_capitals: the same keys with capitals off, on and turned between: only flags of ơ differ");
        for _ in self.run.times(20_000) {
            let method = self.run.random().of(&[Telex, Vni]);
            let (mut engine, mut off) = (BambooEngine::new(method), handed(method, &[]).bytes());
            let mut others = [Composition { capitals: true, ..handed(method, &[]) }.bytes(), off];
            let most = self.run.random().of(&[OLD_CELLS, OLD_CELLS, OLD_CELLS, CELLS]);
            for _ in 0..1 + self.run.random().below(most) {
                let key = Call::Key(self.run.random().letter_of(CASED_KEYS), ROOM);
                let turn = Call::SetCapitals(self.run.random().below(2) as u32);
                let theirs = Left::by(&off, answered(&mut engine, false, key));
                off = self.against(&off, key, &theirs).state();
                others[1] = self.step(&others[1], turn);
                for other in &mut others {
                    let (before, ours, theirs) = (*other, Left::of(&*other, key), self.oracle.left(&*other, key));
                    *other = ours.state();
                    let (ours, theirs) = ((ours, but_for_capitals(other)), (theirs, but_for_capitals(&off)));
                    let size = || before.iter().map(|&byte| byte.into()).collect();
                    self.run.compare("key", ours, theirs, size, || format!("{key:?}; on {}", show_bytes(&before)));
                }
            }
        }
    }
}

/// Mostly a key that composes, at times any letter, seldom none.
pub fn random_key(random: &mut Random) -> u32 {
    match random.below(100) {
        0 => random.of(&OUTSIDE),
        1..15 => random.of(alphabet()),
        15..30 => random.letter_of("AEOUIYDWSFQG"),
        30..60 => random.letter_of(VNI_KEYS),
        _ => random.letter_of(TELEX_KEYS),
    }
}
