//! A composition on both sides: the bytes that C lends, and the Rust's engine with document 01's limits around it.
//! A call keeps nothing between two calls, and neither does the oracle: what it answers depends on the bytes alone.
//!
//! Capitals are a setting that the Rust has not. Off, the answer is the Rust's. On, the cells are the Rust's but for one flag
//! (`keep_flags`), and the text is shown anew (`capital_text`), each by its sentence of request 2026-01.

use crate::calls::{host, GUARD, GUARD_BYTE, GUARD_COUNT, MARGIN};
use crate::engine::bamboo::spy::{self, Cell};
use crate::engine::bamboo::{BambooEngine, Mode, TelexUndo};
use crate::fixed::{bracketed, byte, sign, spaced};
use crate::input_method::InputMethod;
use crate::oracle::{self, EMPTY, FULL, LONG, NO_UNDO, SHORT, UNSOUND, WORD_LETTERS};
use std::fmt::{Debug, Formatter};

pub const CELLS: usize = 96;
/// The limit up to version 0.6.0: a draft of no more cells has the bytes that it had then.
pub const OLD_CELLS: usize = 32;
/// The method, the mode, the count, capitals, and reserved bytes: 0 in a sound composition.
pub const HEAD: usize = 8;
pub const SIZE: usize = HEAD + 8 * CELLS;
pub const OLD_SIZE: usize = HEAD + 8 * OLD_CELLS;

/// The most room of an output, and the most bytes of a composition, that the runs lend.
pub const ROOM: usize = CELLS + 8;
pub const MOST_BYTES: usize = SIZE + 21;

/// The bytes of a composition, where there are as many as there should be.
pub type State = [u8; SIZE];

/// A call; a room is that of the lent output.
#[derive(Clone, Copy)]
pub enum Call<'a> {
    New(u32),
    Key(u32, usize),
    Literal(u32),
    Text(usize),
    RemoveLast(usize),
    Reset,
    SetMethod(u32),
    SetMode(u32),
    SetCapitals(u32),
    Undo(u32, &'a [u32]),
    CheckComposition,
    Method,
    Mode,
    Capitals,
    Count,
}

impl Call<'_> {
    pub fn name(&self) -> &'static str {
        match self {
            Call::New(_) => "new",
            Call::Key(..) => "key",
            Call::Literal(_) => "literal",
            Call::Text(_) => "text",
            Call::RemoveLast(_) => "remove_last",
            Call::Reset => "reset",
            Call::SetMethod(_) => "set_method",
            Call::SetMode(_) => "set_mode",
            Call::SetCapitals(_) => "set_capitals",
            Call::Undo(..) => "undo",
            Call::CheckComposition => "check_composition",
            Call::Method => "method",
            Call::Mode => "mode",
            Call::Capitals => "capitals",
            Call::Count => "count",
        }
    }

    /// The numbers that it is given.
    pub fn numbers(&self) -> Vec<u32> {
        match *self {
            Call::New(number) | Call::SetMethod(number) | Call::SetMode(number) | Call::SetCapitals(number) => vec![number],
            Call::Literal(letter) => vec![letter],
            Call::Key(key, room) => vec![key, room as u32],
            Call::Text(room) | Call::RemoveLast(room) => vec![room as u32],
            Call::Undo(trigger, raw) => [&[trigger], raw].concat(),
            Call::Reset | Call::CheckComposition | Call::Method | Call::Mode | Call::Capitals | Call::Count => vec![],
        }
    }
}

impl Debug for Call<'_> {
    fn fmt(&self, f: &mut Formatter) -> std::fmt::Result {
        write!(f, "{}", self.name())?;
        match *self {
            Call::New(number) | Call::SetMethod(number) | Call::SetMode(number) | Call::SetCapitals(number) => {
                write!(f, " {number}")
            }
            Call::Key(key, room) => write!(f, " {}, room {room}", sign(key)),
            Call::Literal(letter) => write!(f, " {}", sign(letter)),
            Call::Text(room) | Call::RemoveLast(room) => write!(f, ", room {room}"),
            Call::Undo(trigger, raw) => write!(f, " {} {}", sign(trigger), bracketed(raw)),
            Call::Reset | Call::CheckComposition | Call::Method | Call::Mode | Call::Capitals | Call::Count => Ok(()),
        }
    }
}

/// A sound composition.
#[derive(Clone, PartialEq)]
pub struct Composition {
    pub method: InputMethod,
    pub mode: Mode,
    pub capitals: bool,
    pub cells: Vec<Cell>,
}

impl Composition {
    /// 2026-01: "Add a setting, off at first."
    pub fn new(method: InputMethod) -> Composition {
        Composition { method, mode: Mode::Vietnamese, capitals: false, cells: Vec::new() }
    }

    /// What the bytes spell, or None where they are not sound.
    pub fn read(bytes: &[u8]) -> Option<Composition> {
        let &[method, mode, count, capitals, 0, 0, 0, 0, ref cells @ ..] = bytes else { return None };
        if bytes.len() != SIZE || usize::from(count) > CELLS {
            return None;
        }
        let (used, past) = cells.split_at(8 * usize::from(count));
        if *past != [0; 8 * CELLS][..past.len()] {
            return None;
        }
        let cells = used.chunks(8).map(read_cell).collect::<Option<_>>()?;
        let (method, mode, capitals) = (method_of(method.into())?, mode_of(mode.into())?, capitals_of(capitals.into())?);
        Some(Composition { method, mode, capitals, cells })
    }

    pub fn bytes(&self) -> State {
        let mut bytes = [0; SIZE];
        bytes[0] = u8::from(self.method == InputMethod::Vni);
        bytes[1] = u8::from(self.mode == Mode::English);
        bytes[2] = self.cells.len() as u8;
        bytes[3] = u8::from(self.capitals);
        for (place, cell) in bytes[HEAD..].chunks_mut(8).zip(&self.cells) {
            let number = |letter: Option<char>| letter.map_or(0, u32::from);
            place[..4].copy_from_slice(&u32::from(cell.base).to_le_bytes());
            place[4..6].copy_from_slice(&(number(cell.mark) as u16).to_le_bytes());
            place[6] = number(cell.tone) as u8;
            place[7] = u8::from(cell.upper);
        }
        bytes
    }
}

/// `telex vietnamese ă,marked,s A,capital U+0020`; with capitals on, `telex vietnamese capitals a`.
impl Debug for Composition {
    fn fmt(&self, f: &mut Formatter) -> std::fmt::Result {
        let method = if self.method == InputMethod::Telex { "telex" } else { "vni" };
        let mode = if self.mode == Mode::Vietnamese { "vietnamese" } else { "english" };
        let capitals = if self.capitals { " capitals" } else { "" };
        write!(f, "{method} {mode}{capitals} {}", spaced(self.cells.iter().copied(), show_cell))
    }
}

fn show_cell(cell: Cell) -> String {
    let mark = cell.mark.map(|_| ",marked".to_string());
    let tone = cell.tone.map(|tone| format!(",{tone}"));
    let flag = cell.upper.then(|| ",capital".to_string());
    [Some(sign(cell.base.into())), mark, tone, flag].into_iter().flatten().collect()
}

fn method_of(number: u32) -> Option<InputMethod> {
    [InputMethod::Telex, InputMethod::Vni].get(number as usize).copied()
}

fn mode_of(number: u32) -> Option<Mode> {
    [Mode::Vietnamese, Mode::English].get(number as usize).copied()
}

fn capitals_of(number: u32) -> Option<bool> {
    [false, true].get(number as usize).copied()
}

/// Document 01: "base in the alphabet; mark absent, or equal to the base and one of ă â ê ô ơ ư đ; tone absent or one of
/// f s r x j 1 2 3 4 5".
fn read_cell(bytes: &[u8]) -> Option<Cell> {
    let &[a, b, c, d, low, high, tone, flag] = bytes else { return None };
    let base = oracle::letter(u32::from_le_bytes([a, b, c, d])).ok()?;
    let some = |number: u16| (number != 0).then(|| char::from_u32(number.into())).map(|letter| letter.unwrap_or('?'));
    let (mark, tone) = (some(u16::from_le_bytes([low, high])), some(tone.into()));
    let sound_mark = mark.is_none_or(|mark| mark == base && oracle::MARKS.contains(mark));
    let sound_tone = tone.is_none_or(|tone| oracle::TONE_KEYS.contains(tone));
    (sound_mark && sound_tone && flag <= 1).then_some(Cell { base, mark, tone, upper: flag == 1 })
}

/// What a call answers that is done: the composition after it, and what it gives.
pub struct Done {
    composition: Composition,
    text: Option<Vec<u32>>,
    number: Option<u32>,
    cells: Option<usize>,
}

/// The Rust's engines, one for each method.
pub struct Oracle {
    telex: BambooEngine,
    vni: BambooEngine,
}

impl Oracle {
    pub fn new() -> Oracle {
        Oracle { telex: BambooEngine::new(InputMethod::Telex), vni: BambooEngine::new(InputMethod::Vni) }
    }

    /// What the call leaves, on any bytes.
    pub fn left(&mut self, state: &[u8], call: Call) -> Left {
        Left::by(state, self.answer(state, call))
    }

    /// Document 01's refusals in their order: 10 here, then 6, 1, then 2, 4 or 5, last 3.
    fn answer(&mut self, state: &[u8], call: Call) -> Result<Done, u32> {
        if let Call::New(method) = call {
            let method = method_of(method).filter(|_| state.len() == SIZE).ok_or(UNSOUND)?;
            return Ok(Done { composition: Composition::new(method), text: None, number: None, cells: None });
        }
        let before = Composition::read(state).ok_or(UNSOUND)?;
        if let Call::SetMethod(method) = call {
            method_of(method).ok_or(UNSOUND)?;
            let mut other = BambooEngine::new(before.method);
            spy::hand_in(&mut other, &before.cells, before.mode);
            return answered(&mut other, before.capitals, call);
        }
        let engine = if before.method == InputMethod::Telex { &mut self.telex } else { &mut self.vni };
        spy::hand_in(engine, &before.cells, before.mode);
        answered(engine, before.capitals, call)
    }
}

/// What an engine answers as it stands under a setting of capitals, with 01's refusals around it.
pub fn answered(engine: &mut BambooEngine, mut capitals: bool, call: Call) -> Result<Done, u32> {
    let (mut text, mut number, mut cells) = (None, None, None);
    match call {
        Call::Key(key, room) => {
            let (key, before) = (oracle::letter(key)?, spy::cells(engine).collect::<Vec<Cell>>());
            let written = engine.process_key(key).expect("a key is answered by a text");
            if capitals {
                keep_flags(engine, &before);
            }
            text = Some((written, room));
        }
        Call::Literal(letter) => engine.append_literal(oracle::letter(letter)?),
        Call::Text(room) => text = Some((engine.get_output(), room)),
        Call::RemoveLast(room) => text = Some((engine.pop_last().ok_or(EMPTY)?, room)),
        Call::Reset => engine.reset(),
        Call::SetMethod(method) => engine.set_method(method_of(method).ok_or(UNSOUND)?),
        Call::SetMode(mode) => engine.set_enabled(mode_of(mode).ok_or(UNSOUND)? == Mode::Vietnamese),
        // 2026-01: "Changing it leaves the cells."
        Call::SetCapitals(on) => capitals = capitals_of(on).ok_or(UNSOUND)?,
        Call::Undo(trigger, raw) => {
            if raw.len() > WORD_LETTERS {
                return Err(LONG);
            }
            let trigger = oracle::letter(trigger)?;
            let raw = raw.iter().map(|&key| oracle::letter(key)).collect::<Result<String, u32>>()?;
            number = Some(match engine.undo_telex_transform(trigger, &raw).ok_or(NO_UNDO)? {
                TelexUndo::AppendTrigger => 0,
                TelexUndo::ConsumeTrigger => 1,
            });
        }
        Call::Method => number = Some(u32::from(spy::method(engine) == InputMethod::Vni)),
        Call::Mode => number = Some(u32::from(!engine.is_enabled())),
        Call::Capitals => number = Some(u32::from(capitals)),
        Call::Count => cells = Some(spy::cells(engine).count()),
        Call::CheckComposition | Call::New(_) => {}
    }
    let composition = composition_of(engine, capitals);
    if composition.cells.len() > CELLS {
        return Err(FULL);
    }
    // 01: "in English mode the key call writes that one letter", whatever the setting is.
    let passed = matches!(call, Call::Key(..)) && composition.mode == Mode::English;
    let mut shown = |written| if capitals && !passed { capital_text(engine) } else { written };
    let text = text.map(|(written, room)| fitting(&shown(written), room)).transpose()?;
    Ok(Done { composition, text, number, cells })
}

/// 2026-01: "in the uo step ơ keeps the o's own flag". So does the ơ of the mark step, in the Rust too: after a key, an ơ that
/// stands where an o stood has its flag.
fn keep_flags(engine: &mut BambooEngine, before: &[Cell]) {
    let flag = |(place, cell): (usize, Cell)| match before.get(place) {
        Some(o) if o.base.eq_ignore_ascii_case(&'o') && cell.base == 'ơ' => o.upper,
        _ => cell.upper,
    };
    let flags: Vec<bool> = spy::cells(engine).enumerate().map(flag).collect();
    spy::set_flags(engine, &flags);
}

/// 2026-01: "When on, a flagged cell shows the Unicode capital of its letter, tone included". The letter with its tone is what
/// the Rust shows of a cell that is not flagged; such a cell shows the same under both settings.
fn capital_text(engine: &mut BambooEngine) -> String {
    let flags: Vec<bool> = spy::cells(engine).map(|cell| cell.upper).collect();
    spy::set_flags(engine, &vec![false; flags.len()]);
    let letters = engine.get_output();
    spy::set_flags(engine, &flags);
    let capital = |letter| oracle::letter(oracle::upper(letter)).expect("a capital is a letter");
    std::iter::zip(letters.chars(), flags).map(|(letter, flag)| if flag { capital(letter) } else { letter }).collect()
}

fn composition_of(engine: &BambooEngine, capitals: bool) -> Composition {
    let mode = if engine.is_enabled() { Mode::Vietnamese } else { Mode::English };
    Composition { method: spy::method(engine), mode, capitals, cells: spy::cells(engine).collect() }
}

fn fitting(text: &str, room: usize) -> Result<Vec<u32>, u32> {
    let letters: Vec<u32> = text.chars().map(u32::from).collect();
    if letters.len() > room { Err(SHORT) } else { Ok(letters) }
}

/// The number that a call returns, and all that it leaves in what was lent to it.
#[derive(PartialEq)]
pub struct Left {
    refusal: u32,
    count: usize,
    number: u32,
    cells: usize,
    output: [u32; ROOM + 2 * MARGIN],
    length: usize,
    state: [u8; MOST_BYTES + 2 * MARGIN],
}

impl Left {
    fn before(bytes: &[u8]) -> Left {
        let mut state = [GUARD_BYTE; MOST_BYTES + 2 * MARGIN];
        state[MARGIN..MARGIN + bytes.len()].copy_from_slice(bytes);
        let output = [GUARD; ROOM + 2 * MARGIN];
        let (count, number, cells) = (GUARD_COUNT, GUARD, GUARD_COUNT);
        Left { refusal: 0, count, number, cells, output, length: bytes.len(), state }
    }

    /// What a call must leave: its answer, or after a refusal all as it was.
    pub fn by(bytes: &[u8], answer: Result<Done, u32>) -> Left {
        let mut left = Left::before(bytes);
        match answer {
            Err(refusal) => left.refusal = refusal,
            Ok(done) => {
                left.state[MARGIN..MARGIN + SIZE].copy_from_slice(&done.composition.bytes());
                left.number = done.number.unwrap_or(GUARD);
                left.cells = done.cells.unwrap_or(GUARD_COUNT);
                if let Some(text) = done.text {
                    left.count = text.len();
                    left.output[MARGIN..MARGIN + text.len()].copy_from_slice(&text);
                }
            }
        }
        left
    }

    /// What the C call leaves.
    pub fn of(bytes: &[u8], call: Call) -> Left {
        let mut left = Left::before(bytes);
        let (state, length) = (left.state[MARGIN..].as_mut_ptr(), bytes.len());
        let (letters, count) = (left.output[MARGIN..].as_mut_ptr(), &raw mut left.count);
        let (number, cells) = (&raw mut left.number, &raw mut left.cells);
        left.refusal = unsafe {
            match call {
                Call::New(method) => host::pasdrongel_new(state, length, method),
                Call::Key(key, room) => host::pasdrongel_key(state, length, key, letters, room, count),
                Call::Literal(letter) => host::pasdrongel_literal(state, length, letter),
                Call::Text(room) => host::pasdrongel_text(state, length, letters, room, count),
                Call::RemoveLast(room) => host::pasdrongel_remove_last(state, length, letters, room, count),
                Call::Reset => host::pasdrongel_reset(state, length),
                Call::SetMethod(method) => host::pasdrongel_set_method(state, length, method),
                Call::SetMode(mode) => host::pasdrongel_set_mode(state, length, mode),
                Call::SetCapitals(on) => host::pasdrongel_set_capitals(state, length, on),
                Call::Undo(trigger, raw) => {
                    host::pasdrongel_undo(state, length, trigger, raw.as_ptr(), raw.len(), number)
                }
                Call::CheckComposition => host::pasdrongel_check_composition(state, length),
                Call::Method => host::pasdrongel_method(state, length, number),
                Call::Mode => host::pasdrongel_mode(state, length, number),
                Call::Capitals => host::pasdrongel_capitals(state, length, number),
                Call::Count => host::pasdrongel_count(state, length, cells),
            }
        };
        left
    }

    pub fn refusal(&self) -> u32 {
        self.refusal
    }

    /// The number that the call gives: what becomes of an undo's key, a setting, or how many cells there are.
    pub fn number(&self) -> Option<usize> {
        let number = Some(self.number as usize).filter(|&number| number != GUARD as usize);
        number.or(Some(self.cells).filter(|&cells| cells != GUARD_COUNT))
    }

    /// The letters that the call says it wrote.
    pub fn text(&self) -> Option<&[u32]> {
        self.output.get(MARGIN..MARGIN + self.count)
    }

    pub fn bytes(&self) -> &[u8] {
        &self.state[MARGIN..MARGIN + self.length]
    }

    pub fn state(&self) -> State {
        self.bytes().try_into().expect("a composition's bytes")
    }
}

/// `returns 0, [ đa ]; telex vietnamese đ,marked a`. An output that is not the answer and nothing else is shown whole, in
/// hexadecimal, with `-` for a place that keeps its value and a bar at its start.
impl Debug for Left {
    fn fmt(&self, f: &mut Formatter) -> std::fmt::Result {
        write!(f, "returns {}", self.refusal)?;
        if self.number != GUARD {
            write!(f, ", number {}", self.number)?;
        }
        if self.cells != GUARD_COUNT {
            write!(f, ", cells {}", self.cells)?;
        }
        let written = self.output.iter().filter(|&&letter| letter != GUARD).count();
        match self.text() {
            None if written == 0 => {}
            Some(text) if written == text.len() && !text.contains(&GUARD) => write!(f, ", {}", bracketed(text))?,
            _ => {
                let last = self.output.iter().rposition(|&letter| letter != GUARD).unwrap_or(0);
                let place = |letter: u32| if letter == GUARD { "-".to_string() } else { format!("{letter:04X}") };
                let (before, from) = self.output[..last.max(MARGIN) + 1].split_at(MARGIN);
                let shown = |letters: &[u32]| letters.iter().map(|&letter| place(letter)).collect::<Vec<_>>().join(" ");
                write!(f, ", count {}, output {} | {}", self.count, shown(before), shown(from))?;
            }
        }
        write!(f, "; {}", show_bytes(self.bytes()))?;
        let around = [&self.state[..MARGIN], &self.state[MARGIN + self.length..]].concat();
        if around.iter().any(|&byte| byte != GUARD_BYTE) { write!(f, ", AND BYTES AROUND IT CHANGED") } else { Ok(()) }
    }
}

/// The composition that the bytes spell, or the bytes.
pub fn show_bytes(bytes: &[u8]) -> String {
    match Composition::read(bytes) {
        Some(composition) => format!("{composition:?}"),
        None => format!("{} bytes, not sound: {}", bytes.len(), spaced(bytes.iter().copied(), byte)),
    }
}
