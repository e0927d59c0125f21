#!/usr/bin/env python3
"""The port's own source as Rust, and a library of it with the same C calls.

  runs/port.py LIBRARY      builds it, in target/port

Rattle's code, without its contracts, is Rust. The library that is proved is x86-64 code; where the machine is another, this one
is what the Rust is compared with. runs/planted plants its faults in it, since no library can be made of a faulty port."""
import pathlib
import re
import shutil
import subprocess
import sys

ROOT = pathlib.Path(__file__).resolve().parent.parent
HOST = "p6_host"


def crates():
    """name -> the crates that it knows, in an order in which each stands after those, up to the host's calls."""
    known = {}
    for line in (ROOT / "crates.txt").read_text(encoding="utf-8").splitlines():
        if ":" in line and not line.startswith("#"):
            name, below = line.split(":")
            known[name.split()[0]] = below.split()
    ordered = {}

    def visit(name):
        if name in known and name not in ordered:
            for below in known[name]:
                visit(below)
            ordered[name] = known[name]

    visit(HOST)
    return ordered


# Comments, strings and characters: no word or bracket of theirs is Rattle's.
TEXTS = re.compile(r"""//[^\n]*|"(?:\\.|[^"\\])*"|'(?:\\[^'\n]+|[^'\\\n])'""")

# What only the prover reads, up to the bracket that it opens: a clause, a ghost member, field or value, an attribute; or whole.
GHOST = re.compile(r"""
    \s*\b ghost\ use\b [^;]* ;
  | \s*\b (?P<member> (?:pub\ )? ghost\b [^{;]* \{ )
  | \s*\b (?:requires|ensures)\b [^{;]* \{
  | \s* \#!?\[ (?=(?:tactic|cycle|rattlefmt)\b)
""", re.X)

# What may follow a member's first braces: the proof beside a field, a member's default, and the end.
MORE = re.compile(r"\s*(?:by|=) (?P<braces>\{)|[;,]")


def closing(text, at):
    """Behind the bracket that closes the one before `at`."""
    opened = text[at - 1]
    closed, depth = {"{": "}", "[": "]"}[opened], 1
    while depth:
        depth += (text[at] == opened) - (text[at] == closed)
        at += 1
    return at


def without_contracts(text):
    """Rattle's code as Rust: contracts, their `ghost use` and what speaks to the prover taken off."""
    bare = TEXTS.sub(lambda found: "_" * len(found[0]), text)
    kept, at = [], 0
    for ghost in GHOST.finditer(bare):
        if ghost.start() < at:
            continue
        kept.append(text[at : ghost.start()])
        at = ghost.end()
        if bare[at - 1] != ";":
            at = closing(bare, at)
        while ghost["member"] and (more := MORE.match(bare, at)):
            at = closing(bare, more.end()) if more["braces"] else more.end()
    return "".join(kept) + text[at:]


# A slice as an array is Rust's own from 1.93 on, and goes before these; an older one takes these.
ARRAYS = """
trait Arrays<T> {
    fn as_array<const N: usize>(&self) -> Option<&[T; N]>;
    fn as_mut_array<const N: usize>(&mut self) -> Option<&mut [T; N]>;
}
impl<T> Arrays<T> for [T] {
    fn as_array<const N: usize>(&self) -> Option<&[T; N]> { self.try_into().ok() }
    fn as_mut_array<const N: usize>(&mut self) -> Option<&mut [T; N]> { self.try_into().ok() }
}
"""


def as_rust(text):
    """Without contracts, for each Rust that tools/need takes."""
    code = without_contracts(text)
    return code + ARRAYS if re.search(r"\.as_(?:mut_)?array\b", code) else code


def copy(crate, folder, change=None):
    """The crate's source as Rust in `folder`; `change` maps a file's name and text to its text."""
    source = ROOT / "crates" / crate / "src"
    shutil.rmtree(folder / crate, ignore_errors=True)
    for path in sorted(source.rglob("*.rt")):
        text = path.read_text(encoding="utf-8")
        if change:
            text = change("src/" + str(path.relative_to(source)), text)
        target = (folder / crate / path.relative_to(source)).with_suffix(".rs")
        target.parent.mkdir(parents=True, exist_ok=True)
        target.write_text(as_rust(text), encoding="utf-8")


def build(order, rebuilt, folder, port, library):
    """Builds the crates of `rebuilt` in `folder`, over those that stand unchanged in `port`. The error, or None."""
    for crate in (name for name in order if name in rebuilt):
        kind, written = ("cdylib", library) if crate == HOST else ("rlib", folder / f"lib{crate}.rlib")
        source = folder / crate if (folder / crate).exists() else port / crate
        words = ["rustc", "--edition", "2021", "-O", "-A", "warnings", "-C", "overflow-checks=on", "--crate-type", kind]
        words += ["--crate-name", crate, str(source / "lib.rs"), "-o", str(written), "-L", str(folder), "-L", str(port)]
        for below in order[crate]:
            if below in order:
                words += ["--extern", f"{below}={(folder if below in rebuilt else port) / f'lib{below}.rlib'}"]
        run = subprocess.run(words, capture_output=True, text=True)
        if run.returncode:
            return run.stderr
    return None


def whole(port, library):
    """Builds the port as it stands, in `port`. The order of its crates, and the error, or None."""
    order = crates()
    shutil.rmtree(port, ignore_errors=True)
    port.mkdir(parents=True)
    for crate in order:
        copy(crate, port)
    return order, build(order, set(order), port, port, library)


def main(words):
    if len(words) != 1 or words[0].startswith("-"):
        sys.exit(__doc__)
    _, error = whole(ROOT / "target/port", pathlib.Path(words[0]).resolve())
    return f"runs/port.py: the port cannot be built:\n{error}" if error else 0


if __name__ == "__main__":
    sys.exit(main(sys.argv[1:]))
