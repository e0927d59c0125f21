#!/usr/bin/env python3
"""The block of the tones as tables, written where the code has them.

  tools/tones.py            writes the files
  tools/tones.py --check    says whether they are what it would write (exit 1 if not)
  tools/tones.py --slots    prints the smallest factors that give each letter of the block a slot of its own

The letters come from `tone_block` in crates/p1_tone_block/specs/Mirror.antt, and so does the slot of a letter, `slot_of`. Nothing
is believed of what is written: the proofs show that the tables are the block's. `rt fmt` lays them out."""
import pathlib, re, sys, textwrap

HOME = pathlib.Path(__file__).resolve().parent.parent
CRATE = HOME / "crates/p1_tone_block"
MIRROR = (CRATE / "specs/Mirror.antt").read_text(encoding="utf-8")
BLOCK = [ord(letter) for letter in re.search(r'^tone_block = word "([^"]*)"$', MIRROR, re.M)[1]]
SLOT = re.search(r"^slot_of x = (x % (\d+) \* (\d+) / (\d+) % (\d+))$", MIRROR, re.M)
RANGE, FACTOR, PART, SLOTS = map(int, SLOT.groups()[1:])


def slot(letter, factor=FACTOR, part=PART):
    return letter % RANGE * factor // part % SLOTS


def rows():
    """The rows of the block, each under its letters."""
    for first in range(0, len(BLOCK), 6):
        row = BLOCK[first : first + 6]
        yield f"    // {' '.join(map(chr, row))}\n    {', '.join(map(hex, row))},"


def places():
    """By slot, the place of the letter that has it; 0 where none has."""
    by_slot = {slot(letter): place for place, letter in enumerate(BLOCK)}
    return textwrap.fill(", ".join(str(by_slot.get(number, 0)) for number in range(SLOTS)) + ",", 99, initial_indent="    ", subsequent_indent="    ")


def source():
    return f"""// The tones as one block of letters: twelve rows of a vowel and its five toned letters. A letter is found by its place, and a
// place by its letter. Written by tools/tones.py.
#![tactic(auto)]

ghost use Rattle.std.specs.Prelude.{{◌≡◌}};
ghost use Rattle.p1_tone_block.specs.Mirror.{{letter_at, letter_place}};

// The places of a row: the vowel's, and one for each tone.
pub const WIDTH: u8 = 6;

const BLOCK: &[u16; {len(BLOCK)}] = &[
{chr(10).join(rows())}
];

// By slot, the place of the letter of the block that has it, 0 where none has it.
const PLACES: &[u8; {SLOTS}] = &[
{places()}
];

// The letter at a place, 0 past the end.
pub fn letter_at(place: u8) -> u16
    ensures {{ result ≡ letter_at place }}
{{
    BLOCK.get(usize::from(place)).copied().unwrap_or(0)
}}

// The place of a letter of the block, each of which has a slot of its own. What is no letter of the block has a slot too: the
// letter at the place tells.
pub fn letter_place(x: u32) -> u8
    ensures {{ result ≡ letter_place x }}
{{
    let slot = {SLOT[1]};
    PLACES[slot as usize]
}}
"""


def factors():
    """The smallest factor of each part that gives every letter a slot of its own."""
    for power in range(1, 16):
        for factor in range(1, 2**32 // RANGE):
            if len({slot(letter, factor, 2**power) for letter in BLOCK}) == len(BLOCK):
                yield factor, 2**power
                break


def main():
    assert len(BLOCK) == 72 and len(set(map(slot, BLOCK))) == 72
    if "--slots" in sys.argv:
        return print("\n".join(f"x % {RANGE} * {factor} / {part} % {SLOTS}" for factor, part in sorted(factors())))
    stale = []
    for path, text in (("src/lib.rt", source()),):
        file = CRATE / path
        if "--check" not in sys.argv:
            file.parent.mkdir(parents=True, exist_ok=True)
            file.write_text(text, encoding="utf-8")
        elif not file.exists() or file.read_text(encoding="utf-8") != text:
            stale.append(str(file.relative_to(HOME)))
    if stale:
        sys.exit("not as tools/tones.py would write: " + " ".join(stale))


main()
