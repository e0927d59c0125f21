//! Note lines: the four calls against the rule written a second time (`runs/line.rs`), whole and cut in parts, and on states of every
//! kind. Each comparison is of one call: the number that it returns, the three lent numbers, and every byte of the state.

use crate::composer::codes;
use crate::fixed::{bracketed, refused};
use crate::letters::numbers;
use crate::line::{is_gap, show, Call, Come, Left, State, KEPT, SIZE};
use crate::oracle::{self, alphabet, listing, LINE_LETTERS, WORD_LETTERS};
use crate::report::{Random, Run};
use crate::spelling::random_word;

pub const CALLS: &[&str] = &["line_check", "line_begin", "line_part", "line_answer"];

/// The letters of gaps.
const GAPS: &str = "\t\n\u{b}\u{c}\r .,!?;:";

/// Numbers that are no letter, some of which have the low bytes of a letter or of a gap.
const OUTSIDE: [u32; 8] = [0x80, 0xa0, 0xff, 0x2028, 0xd800, 0x110000, 0x10020, 0x80000061];

/// The values of a byte that mean something somewhere in a state, and their neighbours.
const BYTES: [u8; 22] =
    [0, 1, 2, 3, 5, 6, 7, 8, 9, 0x0a, 0x0f, 0x10, 0x11, 0x20, 0x2e, 0x3f, 0x40, 0x41, 0x61, 0x80, 0xa0, 0xff];

pub fn compare(run: &mut Run) {
    let gaps_of_the_rust = |&code: &u32| oracle::letter(code).is_ok_and(|letter| oracle::is_separator(letter) == 1) == is_gap(code);
    assert!(alphabet().iter().all(gaps_of_the_rust), "the gaps here are those at which a syllable of the Rust ends");
    let mut lines = Lines { run };
    lines.small();
    lines.letters();
    lines.random();
    lines.long_words();
    lines.long_lines();
    lines.sessions();
    lines.changed();
    lines.small_states();
    lines.large_states();
    lines.damaged();
    lines.sizes();
}

/// A letter of a gap, mostly a space.
fn gap(random: &mut Random) -> u32 {
    if random.below(3) == 0 { random.letter_of(GAPS) } else { u32::from(' ') }
}

/// Words, near-words and runs of any letters, with gaps between most of them; and now and then one at the start.
fn random_line(random: &mut Random, words: usize) -> Vec<u32> {
    let mut line: Vec<u32> = (0..random.below(3) / 2).map(|_| gap(random)).collect();
    for _ in 0..words {
        line.extend(random_word(random));
        let gaps = random.of(&[0, 1, 1, 1, 1, 1, 1, 2, 3]);
        line.extend((0..gaps).map(|_| gap(random)));
    }
    line
}

/// A line of just so many letters, made of parts of a kind, and none of its words over the limit.
fn line_of(random: &mut Random, kind: usize, length: usize) -> Vec<u32> {
    let mut line = Vec::new();
    while line.len() < length {
        match kind {
            0 => line.push(gap(random)),
            1 => line.extend(codes("a ")),
            2 => line.extend(codes("z,")),
            3 => line.extend([&listing()[random.below(listing().len())][..], &[gap(random)]].concat()),
            4 => line.extend([&random_word(random)[..], &[gap(random)]].concat()),
            _ => line.extend([&vec![random.letter_of("aăbz"); 1 + random.below(WORD_LETTERS)][..], &[gap(random)]].concat()),
        }
    }
    line.truncate(length);
    line
}

/// How many kinds of such lines there are.
const KINDS: usize = 6;

/// So many places of a line, in their order.
fn random_cuts(random: &mut Random, line: &[u32], count: usize) -> Vec<usize> {
    let mut cuts: Vec<usize> = (0..count).map(|_| random.below(line.len() + 1)).collect();
    cuts.sort();
    cuts
}

/// The state of a line.
fn state_of(line: &[u32]) -> State {
    Come::nothing().with(line).bytes()
}

/// Some lines whose states are changed in every way: nothing, gaps, words of each verdict, open words of 1, 7, 8, 9 and 64 letters, lines
/// that were ended by either refusal, and those of 4,096 letters.
fn some() -> Vec<Vec<u32>> {
    let word = |length: usize| codes("nghuyêch").into_iter().cycle().take(length).collect::<Vec<u32>>();
    let after = |start: &str, rest: &[u32]| [&codes(start)[..], rest].concat();
    vec![
        vec![],
        codes(" . "),
        codes("an za. qu "),
        codes("an za. q"),
        codes(" an an za an"),
        word(7),
        after("an ", &word(8)),
        after("za, an ", &word(9)),
        after(" ", &word(WORD_LETTERS)),
        after("za ", &word(WORD_LETTERS + 1)),
        after("an za a", &[0x80]),
        codes("a ").repeat(LINE_LETTERS / 2),
        [codes("z ").repeat(LINE_LETTERS / 2), codes(" ")].concat(),
        [codes(" ").repeat(LINE_LETTERS - 5), codes("za an")].concat(),
    ]
}

struct Lines<'a> {
    run: &'a mut Run,
}

impl Lines<'_> {
    fn call(&mut self, state: &[u8], come: Option<&Come>, call: Call) {
        let (ours, theirs) = (Left::of(state, call), Left::by(state, come, call));
        let size = || call.letters().iter().copied().chain(state.iter().map(|&byte| byte.into())).collect();
        self.run.compare(call.name(), ours, theirs, size, || format!("{call:?}; on {}", show(state)));
    }

    /// A call on bytes of any kind.
    fn call_on(&mut self, state: &[u8], call: Call) {
        self.call(state, Come::read(state).as_ref(), call);
    }

    fn check(&mut self, line: &[u32]) {
        self.call(&[], None, Call::Check(line));
    }

    /// A line in parts, each held to all that has come by then, with an answer after each; and an empty part after the last.
    fn parts(&mut self, line: &[u32], cuts: &[usize]) {
        let mut come = Come::nothing();
        let (from, to) = ([&[0], cuts].concat(), [cuts, &[line.len(), line.len()]].concat());
        for (from, to) in from.into_iter().chain([line.len()]).zip(to) {
            self.call(&come.bytes(), Some(&come), Call::Part(&line[from..to]));
            come = come.with(&line[from..to]);
            self.call(&come.bytes(), Some(&come), Call::Answer);
        }
    }

    fn whole_and_cut(&mut self, line: &[u32], cuts: &[usize]) {
        self.check(line);
        self.parts(line, cuts);
    }

    fn small(&mut self) {
        self.run.begin("line_check, line_part, line_answer: every line of up to 6 over `az .` and a foreign letter, cut in each way in two");
        let letters = [&codes("az .")[..], &[0x80]].concat();
        for length in 0..=6 {
            for mut number in 0..letters.len().pow(length) {
                let mut line = Vec::new();
                for _ in 0..length {
                    line.push(letters[number % letters.len()]);
                    number /= letters.len();
                }
                self.check(&line);
                (0..=line.len()).for_each(|cut| self.parts(&line, &[cut]));
            }
        }
    }

    fn letters(&mut self) {
        self.run.begin("line_check, line_part: every code point and numbers above, between two letters of a word");
        let before = Come::nothing().with(&codes("a"));
        for number in numbers(self.run) {
            let line = [&codes("a")[..], &[number], &codes("a")].concat();
            self.check(&line);
            self.call(&before.bytes(), Some(&before), Call::Part(&line[1..]));
        }
    }

    fn random(&mut self) {
        self.run.begin("line_check, line_part, line_answer: random lines of words, near-words and gaps, whole and cut at random places");
        for _ in self.run.times(100_000) {
            let random = self.run.random();
            let (words, count) = (random.below(14), random.below(9));
            let mut line = random_line(random, words);
            if random.below(8) == 0 && !line.is_empty() {
                let place = random.below(line.len());
                line[place] = random.of(&OUTSIDE);
            }
            let cuts = random_cuts(random, &line, count);
            self.whole_and_cut(&line, &cuts);
        }
        self.run.begin("line_part, line_answer: random lines letter by letter");
        for _ in self.run.times(4_000) {
            let words = self.run.random().below(10);
            let line = random_line(self.run.random(), words);
            let cuts: Vec<usize> = (0..line.len()).collect();
            self.parts(&line, &cuts);
        }
    }

    /// Around the 65th letter of a word: how long the word is, what stands before and after it, and foreign letters near it.
    fn long_words(&mut self) {
        self.run.begin("line_check, line_part, line_answer: words of 60 to 70 letters, a gap or a foreign letter at each place near the 65th");
        for start in ["", " ", "an ", "za.", "an za, "].map(codes) {
            for length in 60..=70 {
                for filler in codes("aạ1") {
                    let line = [&start[..], &vec![filler; length]].concat();
                    let cuts = [start.len(), start.len() + WORD_LETTERS - 1, start.len() + WORD_LETTERS];
                    for place in (start.len() + 60..line.len()).chain([start.len() + 7, start.len() + 8]) {
                        for other in [gap(self.run.random()), self.run.random().of(&OUTSIDE)] {
                            let mut changed = line.clone();
                            changed[place] = other;
                            let cut = random_cuts(self.run.random(), &line, 2);
                            self.whole_and_cut(&changed, &cut);
                        }
                    }
                    cuts.iter().filter(|&&cut| cut <= line.len()).for_each(|&cut| self.whole_and_cut(&line, &[cut]));
                    self.whole_and_cut(&[&line[..], &codes(" "), &line].concat(), &[]);
                }
            }
        }
        self.run.begin("line_check, line_part, line_answer: random words of up to 70 letters, and foreign letters");
        for _ in self.run.times(4_000) {
            let random = self.run.random();
            let mut line = Vec::new();
            for _ in 0..random.below(6) {
                let length = if random.below(2) == 0 { random.below(71) } else { 62 + random.below(6) };
                line.extend((0..length).map(|_| random.letter_of("aăâbcdđghz1")));
                line.push(if random.below(6) == 0 { random.of(&OUTSIDE) } else { gap(random) });
            }
            let cuts = random_cuts(random, &line, 3);
            self.whole_and_cut(&line, &cuts);
        }
    }

    /// Around the 4,097th letter of a line.
    fn long_lines(&mut self) {
        self.run.begin("line_check, line_part, line_answer: lines of 4,090 to 4,100 letters of each kind, a foreign letter at each place near the end");
        for length in LINE_LETTERS - 6..=LINE_LETTERS + 4 {
            for kind in 0..KINDS {
                let line = line_of(self.run.random(), kind, length);
                let cuts = random_cuts(self.run.random(), &line, 3);
                self.whole_and_cut(&line, &cuts);
                for cut in [0, 1, LINE_LETTERS - 1, LINE_LETTERS, LINE_LETTERS + 1] {
                    self.parts(&line, &[cut.min(line.len())]);
                }
                for place in LINE_LETTERS - 8..length {
                    let mut foreign = line.clone();
                    foreign[place] = self.run.random().of(&OUTSIDE);
                    let cut = random_cuts(self.run.random(), &line, 1);
                    self.whole_and_cut(&foreign, &cut);
                }
            }
            for open in [1, KEPT, WORD_LETTERS - 1, WORD_LETTERS, WORD_LETTERS + 1] {
                let mut line = line_of(self.run.random(), 3, length - open);
                line.push(u32::from(' '));
                line.extend(vec![u32::from('a'); open]);
                self.whole_and_cut(&line, &[length - 1, length]);
                self.whole_and_cut(&line[1..], &[(LINE_LETTERS - 1).min(length)]);
            }
        }
        self.run.begin("line_check, line_part, line_answer: lines of up to 4,096 letters, in parts of up to 400");
        for _ in self.run.times(40) {
            let random = self.run.random();
            let (kind, length) = (random.below(KINDS), 500 + random.below(LINE_LETTERS - 499));
            let line = line_of(random, kind, length);
            let cuts = random_cuts(random, &line, length / 200);
            self.whole_and_cut(&line, &cuts);
        }
        self.run.begin("line_check, line_part: lines far over the limit, of one letter and of any");
        for length in [5000, 0xffff, 0x10000, 0x10001, 0x20000] {
            for letter in [u32::from(' '), u32::from('a'), 0x80] {
                self.check(&vec![letter; length]);
                let state = state_of(&codes("an za "));
                self.call_on(&state, Call::Part(&vec![letter; length]));
            }
            let line = line_of(self.run.random(), 1, length);
            self.check(&line);
            self.call_on(&state_of(&codes("z")), Call::Part(&line));
        }
    }

    /// Parts, answers and new lines one after another, also after a letter was refused.
    fn sessions(&mut self) {
        self.run.begin("line_begin, line_part, line_answer: random sessions, which go on after refusals and begin again");
        for _ in self.run.times(20_000) {
            let mut come = Come::nothing();
            for _ in 0..2 + self.run.random().below(16) {
                let (state, random) = (come.bytes(), self.run.random());
                match random.below(12) {
                    0 => {
                        self.call(&state, Some(&come), Call::Begin);
                        come = Come::nothing();
                    }
                    1 | 2 => self.call(&state, Some(&come), Call::Answer),
                    kind => {
                        let words = random.below(4);
                        let mut part = if kind == 3 { vec![random.letter_of("abz"); random.below(66)] } else { random_line(random, words) };
                        if kind == 4 {
                            part.clear();
                        }
                        if kind == 5 && !part.is_empty() {
                            let place = random.below(part.len());
                            part[place] = random.of(&OUTSIDE);
                        }
                        self.call(&state, Some(&come), Call::Part(&part));
                        come = come.with(&part);
                    }
                }
            }
        }
    }

    /// The parts that a state is tried with.
    fn try_state(&mut self, state: &[u8]) {
        self.call_on(state, Call::Answer);
        for part in [&[][..], &[0x61], &[0x20], &[0x80]] {
            self.call_on(state, Call::Part(part));
        }
    }

    fn changed(&mut self) {
        self.run.begin("line_part, line_answer: every byte of some states changed to every value");
        for line in some() {
            let state = state_of(&line);
            for place in 0..SIZE {
                for value in 0..=0xff {
                    let mut other = state;
                    other[place] = value;
                    self.try_state(&other);
                }
            }
        }
        self.run.begin("line_part, line_answer: every number below 8,192 and some above in place of each two bytes of some states");
        for line in some().iter().filter(|line| line.len() < 3 * WORD_LETTERS).step_by(2) {
            for place in (2..SIZE).step_by(2) {
                for number in (0..=0xffff_u16).filter(|&number| number < 0x2000 || number % 0x1ff == 0) {
                    let mut other = state_of(line);
                    other[place..place + 2].copy_from_slice(&number.to_le_bytes());
                    self.call_on(&other, Call::Answer);
                    self.call_on(&other, Call::Part(&[0x20]));
                }
            }
        }
    }

    /// Every state of these numbers, with the first letters of a word as the open word.
    fn states(&mut self, refusals: &[u8], runs: &[usize], numbers: [&[usize]; 4]) {
        let [lengths, words, noes, firsts] = numbers;
        for &refusal in refusals {
            for &run in runs {
                for &length in lengths {
                    for &words in words {
                        for &noes in noes {
                            for &first in firsts {
                                let mut state = [0; SIZE];
                                (state[0], state[1]) = (refusal, run as u8);
                                let kept = codes("nghuyêch").into_iter().take(run).map(|letter| letter as usize);
                                let all = [length, words, noes, first].into_iter().chain(kept);
                                for (place, number) in state[2..].chunks_mut(2).zip(all) {
                                    place.copy_from_slice(&(number as u16).to_le_bytes());
                                }
                                self.call_on(&state, Call::Answer);
                                self.call_on(&state, Call::Part(&[0x20, 0x7a]));
                            }
                        }
                    }
                }
            }
        }
    }

    fn small_states(&mut self) {
        self.run.begin("line_part, line_answer: every state of up to 9 letters, 5 words, 5 noes, a place up to 9 and an open word of up to 3");
        let up_to = |most: usize| (0..=most).collect::<Vec<usize>>();
        self.states(&[0, 1, 2, 6], &up_to(3), [&up_to(9), &up_to(5), &up_to(5), &up_to(9)]);
    }

    fn large_states(&mut self) {
        self.run.begin("line_part, line_answer: states of around 4,096 letters, 2,048 words and noes, 64 letters open and places near the end");
        let around = |number: usize| (number - 2..=number + 1).collect::<Vec<usize>>();
        let with_small = |number: usize| [&[0, 1, 2, 3][..], &around(number)].concat();
        let open = [0, 1, KEPT, WORD_LETTERS - 1, WORD_LETTERS, WORD_LETTERS + 1];
        let numbers = [around(LINE_LETTERS), with_small(2016), with_small(2016), with_small(LINE_LETTERS - WORD_LETTERS)];
        self.states(&[0, 6], &open, [&numbers[0], &numbers[1], &numbers[2], &numbers[3]]);
        let numbers = [around(LINE_LETTERS), with_small(2048), with_small(2048), with_small(LINE_LETTERS)];
        self.states(&[0, 6], &open, [&numbers[0], &numbers[1], &numbers[2], &numbers[3]]);
    }

    /// States at random that are damaged: one to three bytes changed, or all of them random.
    fn damaged(&mut self) {
        self.run.begin("line_part, line_answer: one to three random bytes of random states changed, and random bytes");
        for turn in self.run.times(60_000) {
            let random = self.run.random();
            let words = random.below(8);
            let mut line = random_line(random, words);
            if random.below(8) == 0 {
                line.push(random.of(&OUTSIDE));
            }
            let mut state = state_of(&line);
            for _ in 0..1 + random.below(3) {
                state[random.below(SIZE)] = if random.below(2) == 0 { random.of(&BYTES) } else { random.next() as u8 };
            }
            if turn % 16 == 0 {
                state = state.map(|_| random.of(&BYTES));
            }
            let part = random_line(random, 2);
            self.call_on(&state, Call::Answer);
            self.call_on(&state, Call::Part(&part));
        }
    }

    /// 10 for bytes of another size, whatever they are; a new line over bytes of any content.
    fn sizes(&mut self) {
        self.run.begin("line_begin, line_part, line_answer: bytes of every size up to 300, blank, of a line and random");
        for size in (0..=300).chain([1000]) {
            let line = state_of(&codes("an za. q"));
            let random: Vec<u8> = (0..size).map(|_| self.run.random().next() as u8).collect();
            for bytes in [vec![0; size], line.iter().copied().cycle().take(size).collect(), vec![0xff; size], random] {
                self.call_on(&bytes, Call::Begin);
                self.try_state(&bytes);
            }
        }
        self.run.begin("line_begin: over every state that is changed in a byte, and over random bytes");
        for line in some() {
            for place in 0..SIZE {
                for value in BYTES {
                    let mut state = state_of(&line);
                    state[place] = value;
                    self.call(&state, None, Call::Begin);
                }
            }
        }
        for _ in self.run.times(20_000) {
            let state = [(); SIZE].map(|()| self.run.random().next() as u8);
            self.call(&state, None, Call::Begin);
        }
    }
}

/// The fixed list: whole lines, and lines in parts with their states.
pub fn fixed() -> Vec<String> {
    let mut lines = wholes();
    lines.extend(in_parts());
    lines.extend(ended());
    lines.extend(unsound());
    lines.extend(at_random());
    lines
}

/// Letters, so many times.
type Group = (usize, Vec<u32>);

fn letters_of(groups: &[Group]) -> Vec<u32> {
    groups.iter().flat_map(|(times, letters)| letters.repeat(*times)).collect()
}

/// `[ an ]`, `times 2048 [ a U+0020 ] [ b ]`.
fn show_groups(groups: &[Group]) -> String {
    let show = |(times, letters): &Group| match times {
        1 => bracketed(letters),
        times => format!("times {times} {}", bracketed(letters)),
    };
    groups.iter().map(show).collect::<Vec<String>>().join(" ")
}

fn once(text: &str) -> Vec<Group> {
    vec![(1, codes(text))]
}

fn show_answer(left: &Left) -> String {
    match (left.refusal(), left.told()) {
        (0, Some(told)) => told.map(|number| number.to_string()).join(" "),
        (0, None) => "done".to_string(),
        (refusal, _) => refused(refusal),
    }
}

fn whole(groups: &[Group]) -> String {
    let line = letters_of(groups);
    let left = Left::by(&[], None, Call::Check(&line));
    format!("line_check {} = {}", show_groups(groups), show_answer(&left))
}

/// A line of the list in the making: calls on one state, one after another, of which the last is told.
struct Session {
    state: Vec<u8>,
    steps: Vec<String>,
    answer: String,
}

impl Session {
    /// Bytes of no meaning.
    fn unmade() -> Session {
        Session { state: vec![crate::calls::GUARD_BYTE; SIZE], steps: Vec::new(), answer: String::new() }
    }

    fn begun() -> Session {
        Session::unmade().begin()
    }

    fn call(mut self, call: Call, step: String) -> Session {
        let left = Left::by(&self.state, Come::read(&self.state).as_ref(), call);
        self.answer = show_answer(&left);
        self.state = left.state().to_vec();
        self.steps.push(step);
        self
    }

    fn begin(self) -> Session {
        self.call(Call::Begin, "begin".to_string())
    }

    fn groups(self, groups: &[Group]) -> Session {
        self.call(Call::Part(&letters_of(groups)), format!("part {}", show_groups(groups)))
    }

    fn part(self, text: &str) -> Session {
        self.groups(&once(text))
    }

    fn answer(self) -> Session {
        self.call(Call::Answer, "answer".to_string())
    }

    fn poke(mut self, place: usize, value: u8) -> Session {
        self.state[place] = value;
        self.steps.push(format!("poke {place} {value}"));
        self
    }

    fn length(mut self, length: usize) -> Session {
        self.state.resize(length, 0);
        self.steps.push(format!("length {length}"));
        self
    }

    fn line(self) -> String {
        format!("line {} = {} / {}", self.steps.join(" "), self.answer, show(&self.state))
    }
}

/// The request's examples and others, as they are told whole.
const EXAMPLES: [&str; 24] = [
    "", "an za. qu", "an", "za", " ", "an\nza", " za ", "an  an", "za za za", "phân 2", "Phần PHẦN phần", "giếng nghiêng", "a-b",
    "6,1", "pH 6,1, EC 1,8.", "an\tan\u{b}an\u{c}an\ran", "\n", "...", "an.", ".an", "nghuyêch nghuyêchh", "ưa uơn", "a\0b", "\0",
];

/// Lines at the limits: 64 letters of a word and 4,096 of the line, one more, gaps there, and foreign letters.
fn limits() -> Vec<Vec<Group>> {
    let (a, b, space) = (codes("a"), codes("b"), codes(" "));
    let foreign = |code: u32| vec![code];
    let mut lines = Vec::new();
    for length in [WORD_LETTERS - 1, WORD_LETTERS, WORD_LETTERS + 1] {
        lines.push(vec![(length, a.clone())]);
        lines.push(vec![(1, codes("za ")), (length, b.clone())]);
        for after in [&codes(" ")[..], &codes("."), &codes("\n"), &codes(" an"), &codes(".z"), &foreign(0x80), &foreign(0x80000061)] {
            lines.push(vec![(length, a.clone()), (1, after.to_vec())]);
        }
        lines.push(vec![(length, a.clone()), (1, space.clone()), (length, b.clone())]);
    }
    for length in [LINE_LETTERS - 1, LINE_LETTERS, LINE_LETTERS + 1] {
        lines.push(vec![(length, space.clone())]);
        for after in [&codes("a")[..], &codes("."), &foreign(0x80), &[0x20, 0x80], &[0x80, 0x20]] {
            lines.push(vec![(length - 1, space.clone()), (1, after.to_vec())]);
        }
        lines.push(vec![(length - WORD_LETTERS, space.clone()), (WORD_LETTERS, a.clone())]);
        lines.push(vec![(length - WORD_LETTERS, space.clone()), (WORD_LETTERS + 1, a.clone())]);
    }
    for word in ["a ", "z ", " a", " z", "a\n"] {
        lines.push(vec![(LINE_LETTERS / 2, codes(word))]);
        lines.push(vec![(LINE_LETTERS / 2, codes(word)), (1, space.clone())]);
        lines.push(vec![(LINE_LETTERS / 2, codes(word)), (1, foreign(0xffffffff))]);
        lines.push(vec![(LINE_LETTERS / 2 - 1, codes(word)), (1, codes("zz"))]);
    }
    lines
}

fn wholes() -> Vec<String> {
    let mut groups: Vec<Vec<Group>> = EXAMPLES.iter().map(|text| once(text)).collect();
    groups.extend((0..0x80).map(|code| vec![(1, [&codes("an")[..], &[code], &codes("an")].concat())]));
    groups.extend(OUTSIDE.iter().flat_map(|&code| [vec![(1, vec![code])], vec![(1, vec![0x61, 0x20, code])]]));
    groups.extend(limits());
    groups.iter().map(|groups| whole(groups)).collect()
}

/// A line cut at each place, with an answer after it, between and not at all.
fn in_parts() -> Vec<String> {
    let mut lines = vec![Session::begun().line(), Session::begun().answer().line()];
    for text in ["an za. qu", "phân 2", "qua", "\nnghuyêchh an"] {
        let letters: Vec<char> = text.chars().collect();
        for cut in 0..=letters.len() {
            let [start, rest] = [&letters[..cut], &letters[cut..]].map(|letters| letters.iter().collect::<String>());
            lines.push(Session::begun().part(&start).line());
            lines.push(Session::begun().part(&start).answer().line());
            lines.push(Session::begun().part(&start).part(&rest).line());
            lines.push(Session::begun().part(&start).answer().part("").part(&rest).answer().line());
        }
    }
    for groups in limits() {
        let letters = letters_of(&groups);
        lines.push(Session::begun().groups(&groups).line());
        lines.push(Session::begun().groups(&groups).answer().line());
        let parts = groups.iter().fold(Session::begun(), |session, group| session.groups(std::slice::from_ref(group)));
        lines.push(parts.answer().line());
        if letters.len() < 3 * WORD_LETTERS {
            lines.push(Session::begun().groups(&[(1, letters[..1].to_vec())]).groups(&[(1, letters[1..].to_vec())]).answer().line());
        }
    }
    lines
}

/// After a refusal: each later part and answer repeats it, and a new line has forgotten it.
fn ended() -> Vec<String> {
    let starts: [fn() -> Session; 4] = [
        || Session::begun().groups(&[(1, codes("an za. q")), (1, vec![0x80]), (1, codes(" an"))]),
        || Session::begun().groups(&[(1, codes("an ")), (WORD_LETTERS + 1, codes("b")), (1, codes(" an"))]),
        || Session::begun().groups(&[(LINE_LETTERS / 2, codes("a ")), (1, codes(" an"))]),
        || Session::begun().groups(&[(LINE_LETTERS, codes("."))]).groups(&[(1, vec![0x110000])]),
    ];
    let mut lines = Vec::new();
    for start in starts {
        lines.push(start().line());
        lines.push(start().answer().line());
        lines.push(start().part("").line());
        lines.push(start().part("an").line());
        lines.push(start().part("").answer().line());
        lines.push(start().groups(&[(1, vec![0x80])]).part(" ").answer().line());
        lines.push(start().begin().line());
        lines.push(start().begin().part("za an").answer().line());
    }
    lines
}

/// States with a byte that says something else, some of them sound all the same; and bytes of other sizes.
fn unsound() -> Vec<String> {
    let starts: [fn() -> Session; 3] = [
        || Session::begun().part("an za. qưa"),
        || Session::begun().groups(&[(1, codes("za ")), (WORD_LETTERS, codes("b"))]),
        || Session::begun().groups(&[(LINE_LETTERS, codes(" "))]),
    ];
    let mut lines = Vec::new();
    for start in starts {
        for place in 0..SIZE {
            let stands = start().state[place];
            for value in [0, 1, 6, stands.wrapping_add(1), stands.wrapping_sub(1), 0x20, 0xff] {
                lines.push(start().poke(place, value).answer().line());
            }
            lines.push(start().poke(place, stands ^ 2).part("a").line());
            lines.push(start().poke(place, stands ^ 1).part(" z").line());
        }
        for length in [0, 1, SIZE - 1, SIZE + 1, 264] {
            lines.push(start().length(length).begin().line());
            lines.push(start().length(length).part("").line());
            lines.push(start().length(length).part("a").line());
            lines.push(start().length(length).answer().line());
        }
        lines.push(start().poke(0, 9).begin().line());
    }
    // words where letters and gaps are left for them, before the place and after it, and one more than that
    for (text, words) in [(" z an ", 3), (" z an  ", 3), ("  z an ", 3), ("  z an ", 4), ("an z ", 3), ("an  z ", 3)] {
        lines.push(Session::begun().part(text).poke(4, words).answer().line());
        lines.push(Session::begun().part(text).part("b").poke(4, words).part(" ").line());
    }
    lines.push(Session::unmade().part("a").line());
    lines.push(Session::unmade().answer().line());
    lines
}

/// Lines at random, from a seed of their own, whole and in parts.
fn at_random() -> Vec<String> {
    let mut random = Random(6);
    let mut lines = Vec::new();
    for _ in 0..60 {
        let words = random.below(10);
        let mut line = random_line(&mut random, words);
        if random.below(10) == 0 {
            line.push(random.of(&OUTSIDE));
        }
        lines.push(whole(&[(1, line.clone())]));
        let cuts = random_cuts(&mut random, &line, 2);
        let parts = [&line[..cuts[0]], &line[cuts[0]..cuts[1]], &line[cuts[1]..]];
        lines.push(parts.iter().fold(Session::begun(), |session, part| session.groups(&[(1, part.to_vec())])).answer().line());
    }
    lines
}
