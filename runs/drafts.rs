//! Drafts: both calls against a second writer and reader (`runs/draft.rs`), on compositions and on bytes of every kind. Each
//! comparison is of one call: the number that it returns, the whole lent draft, and every byte of the composition.

use crate::composer::{plain, random_composition, random_key};
use crate::composition::{
    self, show_bytes, Composition, Oracle, State, CELLS, HEAD, MOST_BYTES, OLD_CELLS, OLD_SIZE, ROOM, SIZE,
};
use crate::draft::{
    self, cell_bytes, contents, field, Call, Left, CAPITALS_TAG, CELLS_TAG, METHOD_TAG, MODE_TAG, MOST, OLD_MOST, TAGS,
};
use crate::engine::bamboo::spy::Cell;
use crate::engine::bamboo::Mode;
use crate::input_method::InputMethod::{Telex, Vni};
use crate::letters::numbers;
use crate::oracle::{self, alphabet, MARKS, TONE_KEYS};
use crate::report::{Random, Run};
use crate::session::{self, Session, EXAMPLES, POKED, POKES};

pub const CALLS: &[&str] = &["write_draft", "read_draft"];

/// Bases of every sort: ASCII small, capital, the ends and a blank, each letter that a mark makes, capitals and toned letters.
const BASES: &str = "aZ\0\u{7f} ăâêôơưđĂĐàấỸ";

/// Bytes that mean something somewhere in a draft, their neighbours, and some that mean nothing.
const BYTES: [u8; 20] = [
    0x00, 0x01, 0x02, 0x03, 0x04, 0x05, 0x07, 0x0e, 0x10, 0x1e, 0x31, 0x36, 0x61, 0x73, 0x7f, 0x80, 0xa5, 0xe0, 0xe2, 0xff,
];

pub fn compare(run: &mut Run) {
    let stood = stood(run.random());
    let mut drafts = Drafts { run, stood, turn: 0 };
    drafts.small();
    drafts.typed();
    drafts.random();
    drafts.rooms();
    drafts.unsound();
    drafts.changed();
    drafts.cut();
    drafts.fields();
    drafts.cells();
    drafts.slips();
    drafts.strings();
    drafts.sizes();
    drafts.long();
}

/// What stands in the bytes that a reading is lent: zeros, another composition, and bytes that are none.
fn stood(random: &mut Random) -> Vec<State> {
    let full = random_composition(random, CELLS).bytes();
    let mut past = full;
    past[2] = 7;
    vec![[0; SIZE], full, [0xff; SIZE], past, [(); SIZE].map(|()| random.next() as u8)]
}

/// Every composition of these cells: each method, mode and setting of capitals.
fn under_settings(cells: &[Cell]) -> Vec<Composition> {
    let mut compositions = Vec::new();
    for method in [Telex, Vni] {
        for mode in [Mode::Vietnamese, Mode::English] {
            for capitals in [false, true] {
                compositions.push(Composition { method, mode, capitals, cells: cells.to_vec() });
            }
        }
    }
    compositions
}

/// A letter with its mark where it has one, and without; under each tone of `tones`, with the flag off and on.
fn cells_of(base: char, tones: &[Option<char>]) -> Vec<Cell> {
    let marks = if MARKS.contains(base) { &[None, Some(base)][..] } else { &[None] };
    let mut cells = Vec::new();
    for &mark in marks {
        for &tone in tones {
            cells.extend([false, true].map(|upper| Cell { base, mark, tone, upper }));
        }
    }
    cells
}

fn letters() -> impl Iterator<Item = char> {
    alphabet().iter().map(|&code| oracle::letter(code).expect("a letter"))
}

/// Random cells under random settings.
fn random_of(random: &mut Random, count: usize) -> Composition {
    Composition { capitals: random.below(2) == 0, ..random_composition(random, count) }
}

/// Some compositions, whose drafts are changed in every way: none, one and two cells, seven, 32 and 96, and under
/// other settings.
fn some() -> Vec<Composition> {
    let odd = BASES.chars().flat_map(|base| cells_of(base, &[None, Some('s'), Some('5')]));
    let odd: Vec<Cell> = odd.collect::<Vec<Cell>>().into_iter().cycle().step_by(13).take(CELLS).collect();
    let marked = Cell { base: 'ư', mark: Some('ư'), tone: Some('j'), upper: true };
    let of = |cells: &[Cell]| Composition { cells: cells.to_vec(), ..Composition::new(Telex) };
    vec![
        of(&[]),
        Composition { method: Vni, mode: Mode::English, capitals: true, cells: Vec::new() },
        of(&[plain('a')]),
        Composition { method: Vni, capitals: true, ..of(&[marked]) },
        of(&[marked, plain('B')]),
        Composition { mode: Mode::English, ..of(&odd[..7]) },
        Composition { capitals: true, ..of(&odd[..OLD_CELLS]) },
        Composition { capitals: true, ..of(&odd) },
    ]
}

/// The four fields with these contents.
fn framed(contents: [&[u8]; 4]) -> Vec<u8> {
    std::iter::zip(TAGS, contents).flat_map(|(tag, content)| field(tag, content)).collect()
}

/// A draft of one cell, which may be no cell.
fn of_one(cell: [u8; 7]) -> Vec<u8> {
    framed([&[0], &[0], &cell, &[0]])
}

/// The same of any number of cells. Where their length takes more than two bytes, the two low ones stand there.
fn of_any(count: usize, cell: [u8; 7]) -> Vec<u8> {
    let [.., high, low] = (7 * count).to_be_bytes();
    let (before, after) = ([field(METHOD_TAG, &[0]), field(MODE_TAG, &[0])].concat(), field(CAPITALS_TAG, &[0]));
    [&before[..], &[CELLS_TAG, high, low], &cell.repeat(count), &after].concat()
}

/// The fields of a draft, one by one.
fn fields_of(composition: &Composition) -> Vec<Vec<u8>> {
    std::iter::zip(TAGS, contents(composition)).map(|(tag, content)| field(tag, &content)).collect()
}

/// A field of this tag, or of any: mostly of a length that the tag has, and with a content that it may have.
fn random_field(random: &mut Random, tag: Option<u8>) -> Vec<u8> {
    let tag = tag.unwrap_or_else(|| random.below(6) as u8);
    let any = random.below(10) == 0;
    if tag == CELLS_TAG && !any {
        let count = random.below(5);
        return field(tag, &contents(&random_of(random, count))[2]);
    }
    let (length, bound) = if any { (random.below(16), random.of(&[2, 0x100])) } else { (1, random.of(&[2, 2, 2, 4])) };
    let content: Vec<u8> = (0..length).map(|_| random.below(bound) as u8).collect();
    field(tag, &content)
}

struct Drafts<'a> {
    run: &'a mut Run,
    stood: Vec<State>,
    turn: usize,
}

impl Drafts<'_> {
    fn call(&mut self, state: &[u8], call: Call) {
        let (ours, theirs) = (Left::of(state, call), Left::by(state, call));
        let size = || match call {
            Call::Read(draft) => draft.iter().chain(state).map(|&byte| byte.into()).collect(),
            Call::Write(room) => {
                let cells = state.get(2).copied().unwrap_or(0).into();
                [vec![0; cells], vec![room as u32], state.iter().map(|&byte| byte.into()).collect()].concat()
            }
        };
        self.run.compare(call.name(), ours, theirs, size, || format!("{call:?}; on {}", show_bytes(state)));
    }

    fn write(&mut self, state: &[u8], room: usize) {
        self.call(state, Call::Write(room));
    }

    /// Each reading finds other bytes where it is to put the composition.
    fn read(&mut self, draft: &[u8]) {
        self.turn = (self.turn + 1) % self.stood.len();
        self.call(&self.stood[self.turn].clone(), Call::Read(draft));
    }

    /// Writes a composition with just the room that it needs, and reads what is written.
    fn both(&mut self, composition: &Composition) {
        let draft = draft::write(composition);
        assert!(draft::read(&draft).as_ref() == Some(composition), "the second reader gives back what the second writer wrote");
        self.write(&composition.bytes(), draft.len());
        self.read(&draft);
    }

    fn small(&mut self) {
        self.run.begin("write_draft, read_draft: no cell, and every sound cell alone, under each method, mode and capitals");
        let tones: Vec<Option<char>> = [None].into_iter().chain(TONE_KEYS.chars().map(Some)).collect();
        under_settings(&[]).iter().for_each(|composition| self.both(composition));
        for cell in letters().flat_map(|letter| cells_of(letter, &tones)) {
            under_settings(&[cell]).iter().for_each(|composition| self.both(composition));
        }
        self.run.begin("write_draft, read_draft: every two cells of a choice, under each method, mode and capitals");
        let choice: Vec<Cell> = BASES.chars().flat_map(|base| cells_of(base, &[None, Some('f'), Some('5')])).collect();
        for &first in &choice {
            for &second in &choice {
                under_settings(&[first, second]).iter().for_each(|composition| self.both(composition));
            }
        }
    }

    /// Compositions as keys make them.
    fn typed(&mut self) {
        self.run.begin("write_draft, read_draft: what random keys make, after each of up to 140");
        let mut oracle = Oracle::new();
        for _ in self.run.times(2_000) {
            let mut composition = random_of(self.run.random(), 0);
            composition.mode = Mode::Vietnamese;
            let mut state = composition.bytes();
            for _ in 0..1 + self.run.random().below(CELLS + 44) {
                let key = random_key(self.run.random());
                state = oracle.left(&state, composition::Call::Key(key, ROOM)).state();
                self.both(&Composition::read(&state).expect("a key leaves a sound composition"));
            }
        }
    }

    fn random(&mut self) {
        self.run.begin("write_draft, read_draft: random cells, 0 to 96 of them, read over others, sound or not");
        for _ in self.run.times(40_000) {
            let count = self.run.random().below(CELLS + 1);
            let composition = random_of(self.run.random(), count);
            self.both(&composition);
            let (other, random) = (self.run.random().below(CELLS + 1), self.run.random());
            let mut over = random_of(random, other).bytes();
            if random.below(2) == 0 {
                over[random.below(SIZE)] = random.next() as u8;
            }
            self.call(&over, Call::Read(&draft::write(&composition)));
        }
    }

    fn rooms(&mut self) {
        self.run.begin("write_draft: 0 to 96 cells, every room up to the draft's and past it");
        for count in 0..=CELLS {
            for _ in self.run.times(2) {
                let state = random_of(self.run.random(), count).bytes();
                (0..=15 + 7 * count + 9).chain([MOST, 300, 1000]).for_each(|room| self.write(&state, room));
            }
        }
    }

    /// Compositions that are not sound: 10, whatever the room is.
    fn unsound(&mut self) {
        self.run.begin("write_draft: every byte of some compositions changed to every value, room enough and none");
        for composition in some() {
            let state = composition.bytes();
            for place in 0..SIZE {
                for value in 0..=0xff {
                    let mut other = state;
                    other[place] = value;
                    self.write(&other, MOST);
                    if place < HEAD + 8 || value < 3 {
                        self.write(&other, 0);
                    }
                }
            }
        }
        self.run.begin("write_draft: every code point and numbers above as a base, with no mark and with themselves as mark");
        let one = Composition { cells: vec![plain('a')], ..Composition::new(Telex) }.bytes();
        for number in numbers(self.run) {
            let mut state = one;
            state[HEAD..HEAD + 4].copy_from_slice(&number.to_le_bytes());
            self.write(&state, 22);
            state[HEAD + 4..HEAD + 6].copy_from_slice(&(number as u16).to_le_bytes());
            self.write(&state, 22);
        }
        self.run.begin("write_draft: compositions of every length, and of 97 cells, room enough and none");
        for composition in some() {
            for length in 0..=MOST_BYTES {
                let mut bytes = composition.bytes().to_vec();
                bytes.resize(length, 0);
                self.write(&bytes, MOST);
                self.write(&bytes, 0);
            }
        }
        for count in CELLS + 1..=CELLS + 2 {
            let mut bytes = vec![0, 0, count as u8, 0, 0, 0, 0, 0];
            bytes.extend([0x61, 0, 0, 0, 0, 0, 0, 0].repeat(count));
            for length in [SIZE, bytes.len()] {
                [0, MOST, 300].iter().for_each(|&room| self.write(&bytes[..length], room));
            }
        }
        self.run.begin("write_draft: two random bytes of random cells changed");
        for _ in self.run.times(100_000) {
            let count = self.run.random().below(CELLS + 1);
            let mut bytes = random_of(self.run.random(), count).bytes();
            let random = self.run.random();
            (0..2).for_each(|_| bytes[random.below(HEAD + 8 * count.max(1))] = random.of(&BYTES));
            let room = random.of(&[0, 15, MOST]);
            self.write(&bytes, room);
        }
    }

    fn changed(&mut self) {
        self.run.begin("read_draft: every byte of some drafts changed to every value");
        for composition in some() {
            let draft = draft::write(&composition);
            for place in 0..draft.len() {
                for value in 0..=0xff {
                    let mut other = draft.clone();
                    other[place] = value;
                    self.read(&other);
                }
            }
        }
        self.run.begin("read_draft: every two bytes of some drafts changed to bytes that mean something");
        for composition in some().iter().filter(|composition| composition.cells.len() <= 1) {
            let draft = draft::write(composition);
            for first in 0..draft.len() {
                for second in 0..first {
                    for a in BYTES {
                        for b in BYTES {
                            let mut other = draft.clone();
                            (other[first], other[second]) = (a, b);
                            self.read(&other);
                        }
                    }
                }
            }
        }
        self.run.begin("read_draft: one to three random bytes of random drafts changed");
        for turn in self.run.times(300_000) {
            let random = self.run.random();
            let count = if turn % 2 == 0 { random.below(4) } else { random.below(CELLS + 1) };
            let mut draft = draft::write(&random_of(random, count));
            for _ in 0..1 + random.below(3) {
                let place = random.below(draft.len());
                draft[place] = if random.below(2) == 0 { random.of(&BYTES) } else { random.next() as u8 };
            }
            self.read(&draft);
        }
    }

    /// Bytes too few and too many.
    fn cut(&mut self) {
        self.run.begin("read_draft: every part of some drafts, some drafts without every part, and after themselves");
        for draft in some().iter().map(draft::write) {
            for from in 0..=draft.len() {
                for to in from..=draft.len() {
                    self.read(&draft[from..to]);
                    self.read(&[&draft[..from], &draft[to..]].concat());
                    self.read(&[&draft[..to], &draft[from..]].concat());
                }
            }
        }
        self.run.begin("read_draft: a byte put in at every place of some drafts");
        for draft in some().iter().map(draft::write) {
            for place in 0..=draft.len() {
                for value in 0..=0xff {
                    self.read(&[&draft[..place], &[value], &draft[place..]].concat());
                }
            }
        }
        self.run.begin("read_draft: the start of a random draft and the end of another, and up to twenty bytes more");
        for _ in self.run.times(100_000) {
            let random = self.run.random();
            let (first, second) = (random.below(CELLS + 1), random.below(CELLS + 1));
            let (first, second) = (draft::write(&random_of(random, first)), draft::write(&random_of(random, second)));
            let (to, from) = (random.below(first.len() + 1), random.below(second.len() + 1));
            let more: Vec<u8> = (0..1 + random.below(20)).map(|_| random.of(&BYTES)).collect();
            self.read(&[&first[..to], &second[from..]].concat());
            self.read(&[&first[..], &more].concat());
        }
    }

    /// Fields in another order, twice, left out, with other tags, and with other lengths that their content has.
    fn fields(&mut self) {
        self.run.begin("read_draft: every row of up to five fields of some drafts, and of tags 0 and 5");
        for composition in some().iter().skip(1).step_by(2) {
            let mut fields = fields_of(composition);
            fields.extend([field(0, &[0]), field(5, &[1])]);
            for length in 0..=5 {
                for mut number in 0..fields.len().pow(length) {
                    let mut bytes = Vec::new();
                    for _ in 0..length {
                        bytes.extend(&fields[number % fields.len()]);
                        number /= fields.len();
                    }
                    self.read(&bytes);
                }
            }
        }
        self.run.begin("read_draft: the four fields with contents of other lengths");
        let cell = cell_bytes(plain('a'));
        let ones: [&[u8]; 8] = [&[], &[0], &[1], &[2], &[0, 0], &[0, 1], &[1, 0], &cell];
        let cells: Vec<Vec<u8>> = (0..=22).map(|length| cell.iter().copied().cycle().take(length).collect()).collect();
        for method in ones {
            for mode in ones {
                for capitals in ones {
                    cells.iter().for_each(|cells| self.read(&framed([method, mode, cells, capitals])));
                }
            }
        }
        self.run.begin("read_draft: every tag in place of each of the four, and every length in place of each of theirs");
        for composition in [&some()[1], &some()[4]] {
            let (draft, cells) = (draft::write(composition), 7 * composition.cells.len());
            for place in [0, 4, 8, 11 + cells] {
                for tag in 0..=0xff {
                    let mut other = draft.clone();
                    other[place] = tag;
                    self.read(&other);
                }
                for length in 0..=0xffff_u16 {
                    let mut other = draft.clone();
                    other[place + 1..place + 3].copy_from_slice(&length.to_be_bytes());
                    self.read(&other);
                }
            }
        }
        self.run.begin("read_draft: random fields");
        for turn in self.run.times(300_000) {
            let random = self.run.random();
            let bytes: Vec<u8> = match turn % 4 {
                0 => (0..random.below(7)).flat_map(|_| random_field(random, None)).collect(),
                _ => (1..=4).flat_map(|tag| random_field(random, Some(tag))).collect(),
            };
            self.read(&bytes);
        }
    }

    /// One cell, of which not every byte is a cell's.
    fn cells(&mut self) {
        self.run.begin("read_draft: every code point and numbers above as a base, marked and not");
        for number in numbers(self.run) {
            let [a, b, c, d] = number.to_be_bytes();
            (0..=1).for_each(|mark| self.read(&of_one([a, b, c, d, mark, 0, 0])));
        }
        self.run.begin("read_draft: every letter with something in its two high bytes, marked and not");
        for &letter in alphabet() {
            let [_, _, c, d] = letter.to_be_bytes();
            for high in 1..=0xff {
                for (a, b) in [(0, high), (high, 0), (high, high)] {
                    (0..=1).for_each(|mark| self.read(&of_one([a, b, c, d, mark, 0, 0])));
                }
            }
        }
        self.run.begin("read_draft: every letter with every mark byte, with every tone byte and with every flag byte");
        for &letter in alphabet() {
            let [a, b, c, d] = letter.to_be_bytes();
            for byte in 0..=0xff {
                for other in 0..=2 {
                    self.read(&of_one([a, b, c, d, byte, 0, other]));
                    self.read(&of_one([a, b, c, d, other, byte, 0]));
                    self.read(&of_one([a, b, c, d, other, 0, byte]));
                }
            }
        }
        self.run.begin("read_draft: each cell of 96 with a fault");
        for place in 0..CELLS {
            for fault in 0..7 {
                for value in BYTES {
                    let mut draft = draft::write(&random_of(self.run.random(), CELLS));
                    draft[11 + 7 * place + fault] = value;
                    self.read(&draft);
                }
            }
        }
    }

    /// What another reader of the same sentences might write: low bytes first, a mark as its letter, cells as a host has them.
    fn slips(&mut self) {
        self.run.begin("read_draft: lengths and bases low byte first, marks as letters, and numbers as their digits");
        for turn in self.run.times(20_000) {
            let random = self.run.random();
            let count = turn as usize % (CELLS + 1);
            let composition = random_of(random, count);
            let draft = draft::write(&composition);
            let slip = |change: &dyn Fn(&mut [u8])| {
                let mut other = draft.clone();
                change(&mut other);
                other
            };
            let each = |from: usize, length: usize, draft: &mut [u8]| {
                draft[11..11 + 7 * count].chunks_mut(7).for_each(|cell| cell[from..from + length].reverse());
            };
            let mut others = vec![
                slip(&|draft| [1, 5, 9, 12 + 7 * count].iter().for_each(|&place| draft[place..place + 2].reverse())),
                slip(&|draft| draft[9..11].reverse()),
                slip(&|draft| each(0, 4, draft)),
                slip(&|draft| each(4, 3, draft)),
                slip(&|draft| each(4, 2, draft)),
                slip(&|draft| each(0, 7, draft)),
                slip(&|draft| draft[11..11 + 7 * count].chunks_mut(7).for_each(|cell| cell[4] *= cell[3])),
                slip(&|draft| draft[11..11 + 7 * count].chunks_mut(7).for_each(|cell| cell[4] = 1)),
                slip(&|draft| draft[11..11 + 7 * count].chunks_mut(7).for_each(|cell| cell[4] = 0)),
                slip(&|draft| [3, 7, 14 + 7 * count].iter().for_each(|&place| draft[place] += b'0')),
                slip(&|draft| [3, 7, 14 + 7 * count].iter().for_each(|&place| draft[place] = 1 - draft[place])),
                slip(&|draft| draft[10] = count as u8),
                slip(&|draft| draft.reverse()),
            ];
            let [method, mode, cells, capitals] = contents(&composition);
            let host: Vec<u8> = composition.bytes()[HEAD..HEAD + 8 * count].to_vec();
            others.push(framed([&method, &mode, &host, &capitals]));
            others.push(framed([&method, &mode, &composition.bytes()[HEAD..], &capitals]));
            others.push([&method[..], &mode, &cells, &capitals].concat());
            others.push(composition.bytes().to_vec());
            others.push(field(0, &draft));
            others.iter().for_each(|other| self.read(other));
        }
    }

    fn strings(&mut self) {
        self.run.begin("read_draft: every string of up to two bytes");
        self.read(&[]);
        for a in 0..=0xff {
            self.read(&[a]);
            (0..=0xff).for_each(|b| self.read(&[a, b]));
        }
        self.run.begin("read_draft: random bytes, 0 to 750 of them, any, such as mean something, and after the start of a draft");
        for turn in self.run.times(200_000) {
            let random = self.run.random();
            let length = random.below(751);
            let start = match turn % 4 {
                0 | 1 => Vec::new(),
                _ => {
                    let count = random.below(CELLS + 1);
                    draft::write(&random_of(random, count))
                }
            };
            let mut bytes = start[..random.below(start.len() + 1)].to_vec();
            let length = if turn % 4 == 3 { start.len() } else { length };
            while bytes.len() < length {
                bytes.push(if turn % 2 == 0 { random.next() as u8 } else { random.of(&BYTES) });
            }
            self.read(&bytes);
        }
    }

    /// 10 comes before 11.
    fn sizes(&mut self) {
        self.run.begin("read_draft: into bytes of every length, drafts and bytes that are none");
        let long = of_any(CELLS + 1, cell_bytes(plain('a')));
        let drafts: Vec<Vec<u8>> = some().iter().map(draft::write).collect();
        for size in 0..=MOST_BYTES {
            for draft in &drafts {
                for bytes in [&draft[..], &draft[..draft.len() - 1], &draft[1..], &[], &[0; 15], &long] {
                    let full: Vec<u8> = self.stood[1].iter().copied().cycle().take(size).collect();
                    self.call(&full, Call::Read(bytes));
                    self.call(&vec![0; size], Call::Read(bytes));
                }
            }
        }
    }

    /// More cells than a composition has, up to more than a length of two bytes can say, and strings that are long.
    fn long(&mut self) {
        self.run.begin("read_draft: drafts of 95 to 160 cells, and of so many that their length takes more than two bytes");
        let cell = cell_bytes(plain('a'));
        let counts = (CELLS - 1..=160).chain([0xff, 0x100, 1000, 0x1000, 9361, 9362, 9363, 9364, 9394, 9395, 9458, 9459, 10_000]);
        for count in counts.chain([0x10000, 0x10001, 0x10000 + CELLS, 0x10000 + CELLS + 1]) {
            self.read(&of_any(count, cell));
            self.read(&of_any(count, [0; 7]));
        }
        self.run.begin("read_draft: long strings of one byte, of random bytes, and after drafts");
        for length in [0x100, 0x101, 1000, 0xffff, 0x10000, 70_000, 15 + 7 * 9363, 0x10000 + 15, 0x10000 + 22] {
            BYTES.iter().for_each(|&byte| self.read(&vec![byte; length]));
            let random: Vec<u8> = (0..length).map(|_| self.run.random().next() as u8).collect();
            self.read(&random);
            for draft in some().iter().map(draft::write) {
                self.read(&[&draft[..], &random].concat());
                self.read(&[&draft[..], &vec![0; length]].concat());
                self.read(&[&draft[..], &vec![0; length.saturating_sub(draft.len())]].concat());
                self.read(&[&draft[..11.min(draft.len())], &vec![0; length], &draft[11..]].concat());
            }
        }
    }
}

/// The fixed list: sessions that write drafts, and read them.
pub fn fixed() -> Vec<String> {
    let mut lines = kept();
    lines.extend(every_cell());
    lines.extend(rooms());
    lines.extend(no_drafts());
    lines.extend(orders());
    lines.extend(at_random());
    lines
}

/// A composition's draft written, and read over bytes of no meaning.
fn there_and_back(composition: &Composition) -> [String; 2] {
    let draft = draft::write(composition);
    [Session::handed(composition).write_draft().line(), Session::unmade().read_draft(&draft).line()]
}

/// What one shift leaves and the next finds, and goes on with: each setting with no cells, document 01's examples, 32 and 96
/// cells.
fn kept() -> Vec<String> {
    let mut lines: Vec<String> = under_settings(&[]).iter().flat_map(there_and_back).collect();
    let examples = EXAMPLES.map(|keys| Session::new(Telex).typed(keys)).into_iter();
    let capitals = ["AAN", "DDaf LAJT", "UOW"].map(|keys| session::on(Telex).typed(keys));
    for session in examples.chain(capitals).chain(["pha6n 2", "Tie6ng1"].map(|keys| Session::new(Vni).typed(keys))) {
        let draft = draft::written(session.bytes(), MOST).expect("what is typed is sound");
        lines.push(session.write_draft().line());
        lines.push(Session::unmade().read_draft(&draft).line());
        lines.push(Session::unmade().read_draft(&draft).named(composition::Call::Text(ROOM)).line());
        lines.push(session::on(Vni).typed("Uo7").read_draft(&draft).typed("as1").line());
        lines.push(Session::new(Vni).read_draft(&draft).write_draft().line());
    }
    let full = [OLD_CELLS, CELLS].map(|count| Composition { cells: vec![plain('b'); count], ..Composition::new(Telex) });
    for composition in some().iter().chain(&full) {
        lines.extend(there_and_back(composition));
        lines.push(Session::new(Vni).typed("xin").read_draft(&draft::write(composition)).typed("w").line());
    }
    lines
}

/// Every letter, each that can be marked, and each tone and flag.
fn every_cell() -> Vec<String> {
    let of = |cells: &[Cell]| Composition { cells: cells.to_vec(), ..Composition::new(Telex) };
    let letters: Vec<Cell> = letters().map(plain).collect();
    let mut lines: Vec<String> = letters.chunks(OLD_CELLS).flat_map(|cells| there_and_back(&of(cells))).collect();
    let marked = MARKS.chars().flat_map(|mark| cells_of(mark, &[None, Some('j')]));
    let toned = TONE_KEYS.chars().flat_map(|tone| cells_of('\0', &[Some(tone)]));
    marked.chain(toned).for_each(|cell| lines.extend(there_and_back(&of(&[cell]))));
    lines
}

fn rooms() -> Vec<String> {
    let mut lines = Vec::new();
    for composition in some() {
        let length = 15 + 7 * composition.cells.len();
        for room in [0, 1, length - 1, length, length + 1] {
            lines.push(Session::handed(&composition).room(room).write_draft().line());
        }
    }
    lines
}

/// Bytes that are no draft of a sound composition, for each reason, and beside them drafts that differ as little.
fn no_drafts() -> Vec<String> {
    let marked = Cell { base: 'đ', mark: Some('đ'), tone: None, upper: false };
    let composition = Composition { cells: vec![marked, Cell { tone: Some('s'), ..plain('A') }], ..Composition::new(Telex) };
    let (draft, none) = (draft::write(&composition), draft::write(&Composition::new(Telex)));
    let mut bytes: Vec<Vec<u8>> = Vec::new();
    for draft in [&none, &draft] {
        bytes.extend((0..draft.len()).map(|length| draft[..length].to_vec()));
        bytes.extend([0, 1, 4, 0xff].map(|byte| [&draft[..], &[byte]].concat()));
        bytes.push([&draft[..], draft].concat());
        for place in 0..draft.len() {
            for value in [0, 1, draft[place].wrapping_add(1), 0xff] {
                let mut other = draft.clone();
                other[place] = value;
                bytes.push(other);
            }
        }
    }
    bytes.extend((0..draft.len()).map(|place| [&draft[..place], &draft[place + 1..]].concat()));
    bytes.extend((0..draft.len()).map(|place| [&draft[..place], &[0], &draft[place..]].concat()));
    bytes.extend(other_fields(&composition));
    for base in [
        0x80_u32, 0xd7, 0xff, 0x101, 0x104, 0x1ae, 0x1e9f, 0x1efa, 0xd800, 0x10000, 0x10061, 0x10111, 0x110000, 0x61000000,
        0xffffffff,
    ] {
        let [a, b, c, d] = base.to_be_bytes();
        (0..=1).for_each(|mark| bytes.push(of_one([a, b, c, d, mark, 0, 0])));
    }
    for base in MARKS.chars().chain("\0aAdĐĂàấ".chars()) {
        let [a, b, c, d] = u32::from(base).to_be_bytes();
        [1, 2, d, 0xff].iter().for_each(|&mark| bytes.push(of_one([a, b, c, d, mark, 0, 0])));
        bytes.push(of_one([d, c, b, a, 0, 0, 0]));
        bytes.push(of_one([d, c, b, a, 1, 0, 0]));
    }
    for tone in b"\x01056FSJeghkqtwyz\x7f\x80\xf3" {
        bytes.push(of_one([0, 0, 0, 0x61, 0, *tone, 0]));
    }
    let of_count = |count| [of_any(count, cell_bytes(plain('a'))), of_any(count, [0; 7])];
    bytes.extend([OLD_CELLS, OLD_CELLS + 1, OLD_CELLS + 2, 36, 37, 100].into_iter().flat_map(of_count));
    for byte in [0, 1, 0xff] {
        bytes.extend([1, 15, 22, OLD_MOST, OLD_MOST + 1, OLD_MOST + 7, OLD_SIZE].map(|length| vec![byte; length]));
    }
    bytes.push(composition.bytes()[..OLD_SIZE].to_vec());
    bytes.extend([CELLS - 1, CELLS, CELLS + 1, CELLS + 2, 109, 110].into_iter().flat_map(of_count));
    for byte in [0, 1, 0xff] {
        bytes.extend([MOST, MOST + 1, MOST + 7, SIZE].map(|length| vec![byte; length]));
    }
    bytes.push(composition.bytes().to_vec());
    let states = [Session::unmade, || Session::new(Telex).typed("xin"), || session::on(Vni).typed("Uo7")];
    bytes.iter().zip(states.iter().cycle()).map(|(bytes, state)| state().read_draft(bytes).line()).collect()
}

/// Fields in every other order, left out, twice, with other tags and with other lengths.
fn other_fields(composition: &Composition) -> Vec<Vec<u8>> {
    let ([method, mode, cells, capitals], fields) = (contents(composition), fields_of(composition));
    let mut bytes = Vec::new();
    for number in 0..256_usize {
        let places = [number / 64, number / 16 % 4, number / 4 % 4, number % 4];
        let each_once = (0..4).all(|place| places.contains(&place));
        if each_once || number % 17 == 0 {
            bytes.push(places.map(|place| fields[place].clone()).concat());
        }
    }
    for place in 0..4 {
        let (before, after) = (fields[..place].concat(), fields[place + 1..].concat());
        bytes.push([&before[..], &after].concat());
        bytes.push([&before[..], &fields[place], &fields[place], &after].concat());
        bytes.push([&fields.concat()[..], &fields[place]].concat());
        bytes.push([&fields[place][..], &fields.concat()].concat());
        for tag in [0, 5, 0x80, 0xff] {
            bytes.push([&before[..], &field(tag, &contents(composition)[place]), &after].concat());
            bytes.push([&before[..], &field(tag, &[1]), &fields[place], &after].concat());
        }
        let [tag, high, low, ref content @ ..] = fields[place][..] else { continue };
        bytes.push([&before[..], &[tag, low, high], content, &after].concat());
    }
    bytes.push([&fields.concat()[..], &field(5, &[1])].concat());
    for content in [&[][..], &[0, 0], &[0, 1], &[1, 0], &[2], &[0x30], &[0; 8]] {
        bytes.push(framed([content, &mode, &cells, &capitals]));
        bytes.push(framed([&method, content, &cells, &capitals]));
        bytes.push(framed([&method, &mode, &cells, content]));
    }
    for length in [0, 1, 6, 7, 8, 13] {
        bytes.push(framed([&method, &mode, &cells[..length], &capitals]));
    }
    bytes
}

/// 10 before 11 and before 3; what stood there is not looked at.
fn orders() -> Vec<String> {
    let session = || Session::handed(&Composition { cells: POKED.to_vec(), ..Composition::new(Telex) });
    let draft = draft::write(&Composition { cells: vec![plain('a')], ..Composition::new(Vni) });
    let mut lines = Vec::new();
    for (place, values) in POKES {
        for (turn, &value) in values.iter().enumerate() {
            lines.push(session().poke(place, value).room(OLD_MOST * (turn % 2)).write_draft().line());
            lines.push(session().poke(place, value).read_draft(&draft[(place + turn) % 2..]).line());
        }
    }
    for length in [0, 1, HEAD, HEAD + 8, OLD_SIZE - 1, OLD_SIZE, OLD_SIZE + 1, OLD_SIZE + 8, SIZE - 1, SIZE, SIZE + 1, SIZE + 8] {
        for room in [0, OLD_MOST, MOST] {
            lines.push(session().length(length).room(room).write_draft().line());
        }
        for draft in [&draft[..], &draft[1..], &[], &of_any(OLD_CELLS + 1, [0; 7]), &of_any(CELLS + 1, [0; 7])] {
            lines.push(session().length(length).read_draft(draft).line());
        }
    }
    lines
}

/// Compositions at random, from a seed of their own.
fn at_random() -> Vec<String> {
    let mut random = Random(5);
    let counts = [1, 2, 3, 5, 8, 13, 21, 31, 32, 33, 64, 65, 95, 96];
    counts.iter().flat_map(|&count| there_and_back(&random_of(&mut random, count))).collect()
}
