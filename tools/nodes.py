#!/usr/bin/env python3
"""The accepted words as a table of nodes side by side, written where the lister's definitions, code and proof have it.

  tools/nodes.py            writes the files
  tools/nodes.py --check    says whether they are what it would write (exit 1 if not)
  tools/nodes.py --words    prints the words, one a line
  tools/nodes.py --bytes    prints what the table takes

The words come from the rows, the matrices and document 01's rules alone: every onset, vowels and coda of
crates/p4_rows/specs/Rows.antt are joined, and the verdict keeps those that it accepts. A node is a letter, whether a
word ends there, how many words go through it, the first node below it, and whether it is the last of its row; the one beside
it is the next. Equal rows are one, and each stands after all that lead to it, so every step goes to a higher number. The
number after the last node is none; the first node is the root."""
import pathlib, re, sys

HOME = pathlib.Path(__file__).resolve().parent.parent
ROWS = (HOME / "crates/p4_rows/specs/Rows.antt").read_text()
VOWELS, FOREIGN = "aăâeêioôơuưy", "fjwz"


def body(name):
    return re.search(rf"^{name} =\n((?:    .*\n)+)", ROWS, re.M).group(1)


def rows(name):
    return [text.split() for text in re.findall(r'words "([^"]*)"', body(name))]


def matrix(name):
    lines = [line.strip() for line in body(name).splitlines()][:-1]
    return [[int(n) for n in re.findall(r"\d+", line)] for line in lines]


ONSETS, NUCLEI, CODAS = rows("onset_rows"), rows("vowel_rows"), rows("coda_rows")
ONSET_TO_VOWELS, VOWELS_TO_CODA = matrix("onset_to_vowels"), matrix("vowels_to_coda")


def cut(word):
    first = next((i for i, x in enumerate(word) if x in VOWELS), len(word))
    if word[:2] in ("qu", "gi") and len(word) > 2 and word[2] in VOWELS:
        first = 2
    end = first
    while end < len(word) and word[end] in VOWELS:
        end += 1
    return word[:first], word[first:end], word[end:]


def rows_of(table, part):
    return [i for i, row in enumerate(table) if part in row]


def verdict(word):
    if any(x in FOREIGN for x in word):
        return False
    onset, vowels, coda = cut(word)
    os, vs, cs = rows_of(ONSETS, onset), rows_of(NUCLEI, vowels), rows_of(CODAS, coda)
    if not vowels:
        return bool(os)
    if not vs:
        return False
    if onset and not any(v in ONSET_TO_VOWELS[o] for o in os for v in vs):
        return False
    return not coda or any(c in VOWELS_TO_CODA[v] for v in vs for c in cs)


def words():
    onsets, nuclei, codas = ([""] + [part for row in table for part in row] for table in (ONSETS, NUCLEI, CODAS))
    return sorted({o + v + c for o in onsets for v in nuclei for c in codas if verdict(o + v + c)})


LETTER, DOWN, WORDS, END = 2**21, 2**12, 2**2, 2  # what the parts of an entry are multiplied by; 1 says the last of a row


def trie(listed):
    """The row of the letters that the words begin with: letter, whether a word ends there, the row below."""
    groups = []
    for word in listed:
        if groups and groups[-1][0] == word[0]:
            groups[-1][1].append(word[1:])
        else:
            groups.append((word[0], [word[1:]]))
    return tuple((ord(letter), int(rest[0] == ""), trie([r for r in rest if r])) for letter, rest in groups)


def rows_in_order(root):
    """Each row once, after all that lead to it."""
    done, found = set(), []

    def visit(row):
        if row and row not in done:
            done.add(row)
            for _, _, below in reversed(row):
                visit(below)
            found.append(row)

    visit(root)
    return found[::-1]


def size(row):
    return sum(ends + size(below) for _, ends, below in row)


def entries(listed):
    rows, first, count = rows_in_order(trie(listed)), {}, 0
    for row in rows:
        first[row] = count
        count += len(row)
    first[()] = count
    found = []
    for row in rows:
        for letter, ends, below in row:
            through, last = ends + size(below), int((letter, ends, below) == row[-1])
            assert letter < 2**32 // LETTER and first[below] < LETTER // DOWN and through < DOWN // WORDS and first[below] > len(found)
            found.append(letter * LETTER + first[below] * DOWN + through * WORDS + ends * END + last)
    return found


def lines(numbers, each, per):
    return "\n".join("    " + " ".join(each.format(n) for n in numbers[i : i + per]) for i in range(0, len(numbers), per))


def definitions(numbers):
    return f"""-- How the code holds things: no sentence of document 01 stands here, and no promise to a host leads here.
-- The listed words as {len(numbers)} nodes. Written by tools/nodes.py from the rows; nothing is believed of these numbers:
-- proofs/Numbering shows that the words are the accepted ones.
use Rattle.std.specs.Prelude.{{ℕ, suc, ◌/◌, ◌%◌, true, false, List, [], ◌∷◌, eqb, get_or}}
use Rattle.p5_trie.specs.Mirror.{{Trie, Node, Table, trie_at}}

-- how many nodes there are; as a node's number, none
abbrev pub node_count : ℕ
node_count = {len(numbers)}

abbrev pub root_node : ℕ
root_node = 0

-- each node as one number, its entry
unfoldable pub entries : List ℕ
entries =
{lines(numbers, "{} ∷", 10)}
    []

unfoldable pub entry_at : ℕ → ℕ
entry_at e = get_or entries e 0

-- the parts of an entry
abbrev pub letter_in : ℕ → ℕ
letter_in t = t / {LETTER}

abbrev pub down_in : ℕ → ℕ
down_in t = t / {DOWN} % {LETTER // DOWN}

abbrev pub words_in : ℕ → ℕ
words_in t = t / {WORDS} % {DOWN // WORDS}

abbrev pub end_in : ℕ → ℕ
end_in t = t / {END} % 2

abbrev pub last_in : ℕ → ℕ
last_in t = t % 2

-- the node beside node e
unfoldable pub next_to : ℕ → ℕ → ℕ
next_to e t = elim (eqb (last_in t) 1) [ true ↦ node_count | false ↦ suc e ]

unfoldable pub node_in : ℕ → ℕ → Node
node_in e t = record {{ letter = letter_in t; ends = eqb (end_in t) 1; words = words_in t; down = down_in t; next = next_to e t }}

unfoldable pub nodes : Table
nodes = record {{ count = node_count; at = λ e. node_in e (entry_at e) }}

-- the listed words
unfoldable pub listing : Trie
listing = trie_at nodes root_node
"""


def function(numbers):
    return f"""// The table of nodes that specs/Mirror.antt of p5_listing defines, read where it lies; one function alone calls `entry`. Written
// by tools/nodes.py.
#![tactic(auto)]

ghost use Rattle.std.specs.Prelude.{{◌≡◌}};
ghost use Rattle.p5_listing.specs.Mirror.{{entry_at}};

// How many nodes there are; as a row's place, the empty row at the table's end.
pub const COUNT: usize = {len(numbers)};

pub const ROOT: usize = 0;

const ENTRIES: &[u32; COUNT] = &[
{lines(numbers, "{},", 8)}
];

// The node's entry, 0 for none.
pub fn entry(e: usize) -> u32
    ensures {{ result ≡ entry_at e }}
{{
    ENTRIES.get(e).copied().unwrap_or(0)
}}
"""


def proof():
    return """-- The table is the list. Written by tools/nodes.py.
use Rattle.std.proofs.Common.{rules}
use Rattle.p5_listing.specs.Mirror.{entries, entry_at}
use Rattle.p5_nodes.proofs.entry.Goals as goal

pub returns : goal.returns
unfolding entry_at entries
returns c = search rules
"""


def main():
    listed = words()
    numbers = entries(listed)
    if "--words" in sys.argv:
        return print("\n".join(listed))
    if "--bytes" in sys.argv:
        return print(len(listed), "words,", len(numbers), "nodes,", 4 * len(numbers), "bytes")
    stale = []
    for path, text in (
        ("crates/p5_listing/specs/Mirror.antt", definitions(numbers)),
        ("crates/p5_nodes/src/lib.rt", function(numbers)),
        ("crates/p5_nodes/proofs/entry/Answers.antt", proof()),
    ):
        file = HOME / path
        if "--check" not in sys.argv:
            file.parent.mkdir(parents=True, exist_ok=True)
            file.write_text(text)
        elif not file.exists() or file.read_text() != text:
            stale.append(path)
    if stale:
        sys.exit("not as tools/nodes.py would write: " + " ".join(stale))


main()
