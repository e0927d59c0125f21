//! A draft on both sides: the two C calls with all that they leave, and a second writer and reader. The Rust has no drafts;
//! these two are written from request 2026-02's sentences and document 01's soundness, field by field.

use crate::calls::{host, GUARD_BYTE, GUARD_COUNT, MARGIN};
use crate::composition::{show_bytes, Composition, CELLS, OLD_CELLS, SIZE};
use crate::engine::bamboo::spy::Cell;
use crate::engine::bamboo::Mode;
use crate::fixed::{byte, spaced};
use crate::input_method::InputMethod;
use crate::oracle::{self, MARKS, NO_DRAFT, SHORT, TONE_KEYS, UNSOUND};
use std::fmt::{Debug, Formatter};

pub const METHOD_TAG: u8 = 1;
pub const MODE_TAG: u8 = 2;
pub const CELLS_TAG: u8 = 3;
pub const CAPITALS_TAG: u8 = 4;

/// The tags in the order of their fields.
pub const TAGS: [u8; 4] = [METHOD_TAG, MODE_TAG, CELLS_TAG, CAPITALS_TAG];

/// The bytes of the longest draft, now and up to version 0.6.0.
pub const MOST: usize = 3 * 4 + 3 + 7 * CELLS;
pub const OLD_MOST: usize = 3 * 4 + 3 + 7 * OLD_CELLS;

/// 2026-02: "tagged fields, one-byte tag and two-byte length, high byte first".
pub fn field(tag: u8, content: &[u8]) -> Vec<u8> {
    let length = u16::try_from(content.len()).expect("a field's length has two bytes");
    let mut bytes = vec![tag];
    bytes.extend(length.to_be_bytes());
    bytes.extend(content);
    bytes
}

/// "cells of 7 bytes: base in four, high byte first, mark present, tone (0 for none, else its ASCII key), flag; yes is 1, no
/// is 0."
pub fn cell_bytes(cell: Cell) -> [u8; 7] {
    let [a, b, c, d] = u32::from(cell.base).to_be_bytes();
    let tone = cell.tone.map_or(0, |key| u8::try_from(key).expect("a tone key is ASCII"));
    [a, b, c, d, u8::from(cell.mark.is_some()), tone, u8::from(cell.upper)]
}

/// The contents of the four fields, in their order.
pub fn contents(composition: &Composition) -> [Vec<u8>; 4] {
    let method = u8::from(composition.method == InputMethod::Vni);
    let mode = u8::from(composition.mode == Mode::English);
    let cells = composition.cells.iter().flat_map(|&cell| cell_bytes(cell)).collect();
    [vec![method], vec![mode], cells, vec![u8::from(composition.capitals)]]
}

/// "All four once, in that order."
pub fn write(composition: &Composition) -> Vec<u8> {
    let [method, mode, cells, capitals] = contents(composition);
    let mut draft = field(METHOD_TAG, &method);
    draft.extend(field(MODE_TAG, &mode));
    draft.extend(field(CELLS_TAG, &cells));
    draft.extend(field(CAPITALS_TAG, &capitals));
    draft
}

/// The fields that the bytes are, whatever their tags and lengths, or None where the last of them is cut short.
fn fields(mut bytes: &[u8]) -> Option<Vec<(u8, &[u8])>> {
    let mut fields = Vec::new();
    while let Some((&tag, after)) = bytes.split_first() {
        let (length, after) = after.split_first_chunk::<2>()?;
        let (content, after) = after.split_at_checked(u16::from_be_bytes(*length).into())?;
        fields.push((tag, content));
        bytes = after;
    }
    Some(fields)
}

/// The one of two that a field of one byte says.
fn choice<T: Copy>(content: &[u8], choices: [T; 2]) -> Option<T> {
    let &[number] = content else { return None };
    choices.get(usize::from(number)).copied()
}

/// Document 01: "base in the alphabet; mark absent, or equal to the base and one of ă â ê ô ơ ư đ; tone absent or one of
/// f s r x j 1 2 3 4 5".
fn read_cell(bytes: &[u8]) -> Option<Cell> {
    let &[a, b, c, d, ref mark, tone, ref flag] = bytes else { return None };
    let base = oracle::letter(u32::from_be_bytes([a, b, c, d])).ok()?;
    let yes_or_no = |byte| choice(std::slice::from_ref(byte), [false, true]);
    let (marked, upper) = (yes_or_no(mark)?, yes_or_no(flag)?);
    if marked && !MARKS.contains(base) {
        return None;
    }
    let tone = match char::from(tone) {
        '\0' => None,
        key if TONE_KEYS.contains(key) => Some(key),
        _ => return None,
    };
    Some(Cell { base, mark: marked.then_some(base), tone, upper })
}

/// The sound composition whose form the bytes are, or None where they are no such form.
pub fn read(bytes: &[u8]) -> Option<Composition> {
    let fields = fields(bytes)?;
    let [(METHOD_TAG, method), (MODE_TAG, mode), (CELLS_TAG, cells), (CAPITALS_TAG, capitals)] = fields[..] else {
        return None;
    };
    let method = choice(method, [InputMethod::Telex, InputMethod::Vni])?;
    let mode = choice(mode, [Mode::Vietnamese, Mode::English])?;
    let cells = cells.chunks(7).map(read_cell).collect::<Option<Vec<Cell>>>()?;
    let capitals = choice(capitals, [false, true])?;
    (cells.len() <= CELLS).then_some(Composition { method, mode, capitals, cells })
}

/// A call on the bytes of a composition: the room of a draft to be written, or a draft to be read.
#[derive(Clone, Copy)]
pub enum Call<'a> {
    Write(usize),
    Read(&'a [u8]),
}

impl Call<'_> {
    pub fn name(&self) -> &'static str {
        match self {
            Call::Write(_) => "write_draft",
            Call::Read(_) => "read_draft",
        }
    }
}

impl Debug for Call<'_> {
    fn fmt(&self, f: &mut Formatter) -> std::fmt::Result {
        match *self {
            Call::Write(room) => write!(f, "write_draft, room {room}"),
            Call::Read(draft) => write!(f, "read_draft {} bytes: {}", draft.len(), spaced(draft.iter().copied(), byte)),
        }
    }
}

/// The draft, or the refusal: 10, then 3.
pub fn written(state: &[u8], room: usize) -> Result<Vec<u8>, u32> {
    let draft = write(&Composition::read(state).ok_or(UNSOUND)?);
    if draft.len() > room { Err(SHORT) } else { Ok(draft) }
}

/// The composition, or the refusal: "11 after 10 and before 3". What stands in the bytes that are lent is not looked at; 10 is
/// for bytes of another length.
pub fn found(size: usize, draft: &[u8]) -> Result<Composition, u32> {
    if size != SIZE { Err(UNSOUND) } else { read(draft).ok_or(NO_DRAFT) }
}

/// The number that a call returns, and all that it leaves in what was lent to it: the count, the composition, and the draft
/// that it wrote. A draft that was read is there only where it is not as it was.
#[derive(PartialEq)]
pub struct Left {
    refusal: u32,
    count: usize,
    draft: Vec<u8>,
    state: Vec<u8>,
}

fn guarded(bytes: &[u8]) -> Vec<u8> {
    let mut all = vec![GUARD_BYTE; bytes.len() + 2 * MARGIN];
    all[MARGIN..MARGIN + bytes.len()].copy_from_slice(bytes);
    all
}

/// What a call is lent for a draft.
fn lent(call: Call) -> Vec<u8> {
    match call {
        Call::Write(room) => vec![GUARD_BYTE; room + 2 * MARGIN],
        Call::Read(draft) => guarded(draft),
    }
}

impl Left {
    /// What a call must leave: its answer, or after a refusal all as it was.
    pub fn by(state: &[u8], call: Call) -> Left {
        let mut left = Left { refusal: 0, count: GUARD_COUNT, draft: Vec::new(), state: guarded(state) };
        match call {
            Call::Write(room) => {
                left.draft = lent(call);
                match written(state, room) {
                    Err(refusal) => left.refusal = refusal,
                    Ok(draft) => {
                        left.count = draft.len();
                        left.draft[MARGIN..MARGIN + draft.len()].copy_from_slice(&draft);
                    }
                }
            }
            Call::Read(draft) => match found(state.len(), draft) {
                Err(refusal) => left.refusal = refusal,
                Ok(composition) => {
                    assert_eq!(write(&composition), draft, "what the second reader takes is the second writer's form");
                    left.state[MARGIN..MARGIN + SIZE].copy_from_slice(&composition.bytes());
                }
            },
        }
        left
    }

    /// What the C call leaves.
    pub fn of(state: &[u8], call: Call) -> Left {
        let mut left = Left { refusal: 0, count: GUARD_COUNT, draft: lent(call), state: guarded(state) };
        let (bytes, size) = (left.state[MARGIN..].as_mut_ptr(), state.len());
        let (draft, length) = (left.draft[MARGIN..].as_mut_ptr(), left.draft.len() - 2 * MARGIN);
        left.refusal = unsafe {
            match call {
                Call::Write(_) => host::pasdrongel_write_draft(bytes, size, draft, length, &mut left.count),
                Call::Read(_) => host::pasdrongel_read_draft(draft, length, bytes, size),
            }
        };
        if matches!(call, Call::Read(_)) && left.draft == lent(call) {
            left.draft.clear();
        }
        left
    }
}

/// `returns 0, count 15, draft 01 00 ..; telex vietnamese nothing`. A place of the draft that has its guard is `-`.
impl Debug for Left {
    fn fmt(&self, f: &mut Formatter) -> std::fmt::Result {
        write!(f, "returns {}", self.refusal)?;
        if self.count != GUARD_COUNT {
            write!(f, ", count {}", self.count)?;
        }
        let inner = |all: &[u8]| all[MARGIN..all.len() - MARGIN].to_vec();
        let place = |item: u8| if item == GUARD_BYTE { "-".to_string() } else { byte(item) };
        if !self.draft.is_empty() {
            write!(f, ", draft {}", spaced(inner(&self.draft).into_iter(), place))?;
        }
        write!(f, "; {}", show_bytes(&inner(&self.state)))?;
        let lent = [&self.draft, &self.state].into_iter().filter(|all| !all.is_empty());
        let mut around = lent.flat_map(|all| [&all[..MARGIN], &all[all.len() - MARGIN..]].concat());
        if around.any(|byte| byte != GUARD_BYTE) { write!(f, ", AND BYTES AROUND IT CHANGED") } else { Ok(()) }
    }
}
