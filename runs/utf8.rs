//! UTF-8: the reader against Rust's own decoder, the writer against its encoder, each with the whole lent output.

use crate::calls::{self, Left, GUARD, GUARD_BYTE};
use crate::fixed::{byte, code, refused, spaced};
use crate::letters::numbers;
use crate::oracle::{self, alphabet, LINE_BYTES, WORD_LETTERS};
use crate::report::{Random, Run};

pub const CALLS: &[&str] = &["read_utf8", "write_utf8"];

/// The ends of every range in RFC 3629's grammar, bytes that begin or end a Vietnamese letter, and bytes of no form.
const AWKWARD: [u8; 36] = [
    0x00, 0x0a, 0x41, 0x61, 0x7f, 0x80, 0x8f, 0x90, 0x9f, 0xa0, 0xa1, 0xb0, 0xb9, 0xba, 0xbb, 0xbf, 0xc0, 0xc1, 0xc2,
    0xc3, 0xc4, 0xc6, 0xdf, 0xe0, 0xe1, 0xec, 0xed, 0xee, 0xef, 0xf0, 0xf1, 0xf3, 0xf4, 0xf5, 0xf8, 0xff,
];

/// Code points outside the alphabet, in all four widths.
const FOREIGN: [char; 8] = ['\u{80}', 'ä', '\u{300}', '\u{1efa}', '€', '\u{ffff}', '\u{10000}', '\u{10ffff}'];

/// Malformed: a tail alone, a lead alone, overlong forms, a surrogate, past U+10FFFF, bytes of no form.
const MALFORMED: [&[u8]; 10] = [
    &[0x80], &[0xc3], &[0xc1, 0xa1], &[0xe0, 0x83, 0xa0], &[0xe1, 0xba], &[0xed, 0xa0, 0x80], &[0xf0, 0x81, 0xba, 0xa1],
    &[0xf4, 0x90, 0x80, 0x80], &[0xf8, 0x88], &[0xff],
];

pub fn compare(run: &mut Run) {
    short_strings(run);
    code_points(run);
    other_forms(run);
    long_strings(run);
    writer(run);
}

fn read(run: &mut Run, bytes: &[u8], room: usize) {
    let theirs = Left::by(oracle::read_utf8(bytes, room), room, GUARD);
    let size = || bytes.iter().map(|&byte| u32::from(byte)).chain([room as u32]).collect();
    let input = || format!("room {room}: {}", spaced(bytes.iter().copied(), byte));
    run.compare("read_utf8", calls::read_utf8(bytes, room), theirs, size, input);
}

fn write(run: &mut Run, letters: &[u32], room: usize) {
    let theirs = Left::by(oracle::write_utf8(letters, room), room, GUARD_BYTE);
    let size = || letters.iter().copied().chain([room as u32]).collect();
    let input = || format!("room {room}: {}", spaced(letters.iter().copied(), code));
    run.compare("write_utf8", calls::write_utf8(letters, room), theirs, size, input);
}

fn short_strings(run: &mut Run) {
    run.begin("read_utf8: every string of up to three bytes");
    read(run, &[], 4);
    for a in 0..=0xff {
        read(run, &[a], 4);
        for b in 0..=0xff {
            read(run, &[a, b], 4);
            (0..=0xff).for_each(|c| read(run, &[a, b, c], 4));
        }
    }
    run.begin("read_utf8: every string of four awkward bytes");
    for a in AWKWARD {
        for b in AWKWARD {
            for c in AWKWARD {
                AWKWARD.iter().for_each(|&d| read(run, &[a, b, c, d], 4));
            }
        }
    }
    run.begin("read_utf8: random strings of five to eight awkward bytes");
    for _ in run.times(500_000) {
        let length = 5 + run.random().below(4);
        let bytes: Vec<u8> = (0..length).map(|_| run.random().of(&AWKWARD)).collect();
        read(run, &bytes, 8);
    }
}

/// `number` in the form of `width` bytes, whether it is the shortest or not.
fn form(number: u32, width: usize) -> Vec<u8> {
    let tail = |place: usize| 0x80 | (number >> (6 * place) & 0x3f) as u8;
    match width {
        1 => vec![number as u8],
        2 => vec![0xc0 | (number >> 6) as u8, tail(0)],
        3 => vec![0xe0 | (number >> 12) as u8, tail(1), tail(0)],
        _ => vec![0xf0 | (number >> 18) as u8, tail(2), tail(1), tail(0)],
    }
}

fn shortest(number: u32) -> usize {
    [0x80, 0x800, 0x10000].iter().filter(|&&limit| number >= limit).count() + 1
}

fn code_points(run: &mut Run) {
    run.begin("read_utf8: every code point's encoding, alone, between letters, and cut at each byte");
    for number in 0..=0x10ffff {
        let bytes = form(number, shortest(number));
        (1..=bytes.len()).for_each(|length| read(run, &bytes[..length], 4));
        read(run, &[&[0x61], &bytes[..], "ạ".as_bytes()].concat(), 4);
    }
    run.begin("read_utf8: every code point's encoding with a random byte in each place");
    for number in 0..=0x10ffff {
        let bytes = form(number, shortest(number));
        for place in 0..bytes.len() {
            for _ in run.times(1) {
                let mut changed = bytes.clone();
                changed[place] = run.random().next() as u8;
                read(run, &changed, 4);
            }
        }
    }
}

fn other_forms(run: &mut Run) {
    run.begin("read_utf8: every overlong form, and four-byte forms past U+10FFFF");
    for number in 0..0x10000 {
        (shortest(number) + 1..=4).for_each(|width| read(run, &form(number, width), 4));
    }
    (0x110000..0x200000).for_each(|number| read(run, &form(number, 4), 4));
}

/// Random letters, encoded, in exactly `length` bytes.
fn letters_of_length(random: &mut Random, length: usize) -> Vec<u8> {
    let mut bytes = Vec::new();
    while bytes.len() < length {
        let letter = char::from_u32(random.of(alphabet())).expect("a letter is a char");
        if bytes.len() + letter.len_utf8() <= length {
            bytes.extend(letter.to_string().bytes());
        }
    }
    bytes
}

/// Where a character of `bytes` begins, or their end.
fn boundary(random: &mut Random, bytes: &[u8]) -> usize {
    let mut place = random.below(bytes.len() + 1);
    while place < bytes.len() && bytes[place] & 0xc0 == 0x80 {
        place += 1;
    }
    place
}

/// One fault: a foreign letter or a malformed form put in, or the end cut off.
fn plant(random: &mut Random, bytes: &mut Vec<u8>) {
    let place = boundary(random, bytes);
    match random.below(5) {
        0 | 1 => drop(bytes.splice(place..place, random.of(&FOREIGN).to_string().bytes())),
        2 | 3 => drop(bytes.splice(place..place, random.of(&MALFORMED).iter().copied())),
        _ => bytes.truncate(random.below(bytes.len() + 1)),
    }
}

fn long_strings(run: &mut Run) {
    const EDGES: [usize; 6] = [LINE_BYTES - 2, LINE_BYTES - 1, LINE_BYTES, LINE_BYTES + 1, LINE_BYTES + 2, 1000];
    for faults in 0..=2 {
        run.begin(&format!(
            "read_utf8: strings around 256 bytes and shorter, faults planted: {faults}, room at and around the answer"
        ));
        for turn in run.times(30_000) {
            let random = run.random();
            let length = if turn % 2 == 0 { random.of(&EDGES) } else { random.below(LINE_BYTES + 3) };
            let mut bytes = letters_of_length(random, length);
            (0..faults).for_each(|_| plant(random, &mut bytes));
            let count = bytes.iter().filter(|&byte| byte & 0xc0 != 0x80).count();
            for room in [0, count.saturating_sub(1), count, count + 1, 300] {
                read(run, &bytes, room);
            }
        }
    }
    run.begin("read_utf8: one string of 256 and one of 257 bytes for every byte, repeated");
    for byte in 0..=0xff {
        read(run, &[byte; LINE_BYTES], LINE_BYTES);
        read(run, &[byte; LINE_BYTES + 1], LINE_BYTES);
    }
}

fn random_letters(random: &mut Random, length: usize) -> Vec<u32> {
    (0..length).map(|_| random.of(alphabet())).collect()
}

fn writer(run: &mut Run) {
    run.begin("write_utf8: every letter alone, room 0 to 4");
    for &letter in alphabet() {
        (0..=4).for_each(|room| write(run, &[letter], room));
    }
    run.begin("write_utf8: every code point and numbers above, alone and after a letter");
    for number in numbers(run) {
        write(run, &[number], 4);
        write(run, &[0x1ea1, number], 8);
    }
    run.begin("write_utf8: up to 100 letters, room at each size");
    for length in (0..=100).chain([200]) {
        for _ in run.times(2) {
            let letters = random_letters(run.random(), length);
            (0..=3 * length + 2).for_each(|room| write(run, &letters, room));
        }
    }
    run.begin("write_utf8: a foreign letter at each place of 1 to 66 letters, room enough and none");
    let outside: Vec<u32> = FOREIGN.iter().map(|&letter| u32::from(letter)).chain([0xd800, 0x110000, 0x80000061]).collect();
    for length in 1..=WORD_LETTERS + 2 {
        for place in 0..length {
            for &foreign in &outside {
                let mut letters = random_letters(run.random(), length);
                letters[place] = foreign;
                write(run, &letters, 3 * length);
                write(run, &letters, 0);
            }
        }
    }
    run.begin("write_utf8, and read_utf8 of what it writes: random letters");
    for _ in run.times(50_000) {
        let length = run.random().below(WORD_LETTERS + 1);
        let letters = random_letters(run.random(), length);
        let bytes = oracle::write_utf8(&letters, 3 * length).expect("letters within the limit");
        write(run, &letters, bytes.len());
        read(run, &bytes, length);
    }
}

pub fn fixed() -> Vec<String> {
    let mut lines = Vec::new();
    let mut read = |bytes: &[u8], room: usize| {
        let answer = oracle::read_utf8(bytes, room).map_or_else(refused, |letters| spaced(letters.into_iter(), code));
        lines.push(format!("read_utf8 room {room} : {} = {answer}", spaced(bytes.iter().copied(), byte)));
    };
    read(&[], 0);
    (0..=0xff).for_each(|byte| read(&[byte], 1));
    for &letter in alphabet() {
        let bytes = form(letter, shortest(letter));
        if bytes.len() > 1 {
            (1..=bytes.len()).for_each(|length| read(&bytes[..length], 2));
        }
    }
    for foreign in FOREIGN {
        read(foreign.to_string().as_bytes(), 2);
        read(foreign.to_string().as_bytes(), 0);
        MALFORMED.iter().for_each(|bytes| read(&[foreign.to_string().as_bytes(), bytes].concat(), 4));
        MALFORMED.iter().for_each(|bytes| read(&[bytes, foreign.to_string().as_bytes()].concat(), 4));
    }
    for bytes in MALFORMED {
        read(bytes, 4);
        read(bytes, 0);
        read(&[b"a", bytes].concat(), 4);
        read(&[bytes, &b"a"[..]].concat(), 4);
    }
    for bytes in [&[0x61; 255][..], &[0x61; 256], &[0x61; 257], &[0xff; 256], &[0xff; 257]] {
        [254, 255, 256, 257].iter().for_each(|&room| read(bytes, room));
    }
    let mut random = Random(1);
    for length in [1, 2, 3, 5, 8, 13, 21, 34, 55, 89, 144, 256] {
        let bytes = letters_of_length(&mut random, length);
        let count = bytes.iter().filter(|&byte| byte & 0xc0 != 0x80).count();
        [count - 1, count, count + 1].iter().for_each(|&room| read(&bytes, room));
    }
    let mut write = |letters: &[u32], room: usize| {
        let answer = oracle::write_utf8(letters, room).map_or_else(refused, |bytes| spaced(bytes.into_iter(), byte));
        lines.push(format!("write_utf8 room {room} : {} = {answer}", spaced(letters.iter().copied(), code)));
    };
    write(&[], 0);
    for &letter in alphabet() {
        write(&[letter], 3);
        write(&[letter], shortest(letter) - 1);
    }
    for foreign in FOREIGN.iter().map(|&letter| u32::from(letter)).chain([0xd800, 0x110000, 0x80000061, 0xffffffff]) {
        write(&[foreign], 4);
        write(&[0x61, foreign, 0x1ea1], 0);
    }
    for length in [63, 64, 65, 96] {
        for letter in [0x61, 0xe0, 0x1ea1, 0x80] {
            [190, 191, 192, 193].iter().for_each(|&room| write(&vec![letter; length], room));
        }
        write(&random_letters(&mut random, length), 192);
    }
    lines
}
