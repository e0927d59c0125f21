#!/usr/bin/env python3
"""Spells the repository's own definitions, lemmas and fields as today's Rattle does: words in snake case.

usage: tools/respell.py [--list]       at the top of the repository, once, on what the kit's port.py left

A name of specs/ or proofs/ in lower camel case (isSound) or with dashes (sound-long) gets underscores. Types, modules and what the kit
makes or names keep their spelling. Where two names would fall together, a definition of specs/ has the plain spelling, and the lemma ends
in _lem; TAKEN has those that would meet a local variable. --list writes the table alone.
It turns crates/ (.antt, and the ghost items, clauses and comments of .rt), the edits, and the names that pages cite between backticks.
"""

import collections
import glob
import re
import sys

TOKEN = r"[^\s(){}\[\].;,@\"«»:`]+"
# What Rattle makes of a function: these are no names of ours.
MADE = re.compile(r"(invariant-|decreases-).*|.*-spec")
# Own names whose plain spelling a local variable of a file has already.
TAKEN = {}


def sources():
    for folder in ("specs", "proofs"):
        for path in sorted(glob.glob(f"crates/*/{folder}/**/*.antt", recursive=True)):
            if "/out/" not in path:
                yield path


def read(path):
    with open(path, encoding="utf-8") as f:
        return f.read()


def declared():
    """Each own name with the kinds of places that declare it: spec, proof."""
    found = collections.defaultdict(set)
    for path in sources():
        kind = "spec" if "/specs/" in path else "proof"
        for line in read(path).split("\n"):
            m = re.match(rf"^ *(?:(?:abbrev|unfoldable|pattern|pub|ruleset|mutual) )*({TOKEN})(?: \{{[^}}]*\}})* ?(?:: |:$|=)", line)
            if m and not MADE.fullmatch(m.group(1)):
                found[m.group(1)].add(kind)
            m = re.match(rf"^ *(?:let|where) ({TOKEN}) :", line)
            if m:
                found[m.group(1)].add(kind)
    for path in [*sources(), *glob.glob("crates/*/src/**/*.rt", recursive=True)]:
        for m in re.finditer(rf"^(?:ghost )?use Rattle\.p\d_[^{{]*\{{([^}}]*)\}}", read(path), re.M):
            for alias in re.findall(rf" as ({TOKEN})", m[1]):
                found[alias].add("alias")
    return found


def in_snake_case(name):
    words = re.sub(r"(?<=[a-z0-9])[A-Z]", lambda m: "_" + m[0].lower(), name)
    return words.replace("-", "_").replace("′", "'")


def of_the_kit():
    """The names that files bring from the kit."""
    found = set()
    for path in sources():
        for m in re.finditer(r"^use ([^\s{]+)\.\{([^}]*)\}", read(path), re.M):
            if not re.match(r"Rattle\.p\d_", m.group(1)):
                found |= {it.strip().split(" as ")[-1].strip() for it in m.group(2).split(",")}
    return found


def table():
    names = declared()
    kit = of_the_kit()
    to = {}
    for name in names:
        if not re.search(r"[a-z0-9][A-Z]|-|′", name) or name[0].isupper() or not name[0].isalpha() or name in kit:
            continue
        to[name] = in_snake_case(name)
    meets = collections.defaultdict(set)
    for name in set(names) | kit:
        meets[to.get(name, name)].add(name)
    for new, olds in meets.items():
        if len(olds) == 1:
            continue
        # a name of the kit stays, then a definition (lower camel case) has the plain spelling, then a lemma
        rank = {it: 0 if it in kit else 1 if re.search(r"[a-z0-9][A-Z]", it) else 2 for it in olds}
        first, *rest = sorted(olds, key=lambda it: (rank[it], "spec" not in names.get(it, ()), it))
        if len(rest) > 1 or "spec" in names.get(rest[0], ()) and rest[0] not in kit and rank[first]:
            raise SystemExit(f"respell: these fall together: {sorted(olds)}")
        to[rest[0]] = new + "_lem"
    to.update(TAKEN)
    return {a: b for a, b in to.items() if a != b}


def turned(text, to, inside=TOKEN):
    return re.sub(inside, lambda m: to.get(m[0], m[0]), text)


def turned_rt(text, to):
    """Rust's own text has no such names but in ghost items, clauses and comments: a name with a dash is turned there alone."""
    lines = []
    for line in text.split("\n"):
        ghost = re.match(r"\s*(ghost use|//|requires|ensures|ghost )", line) or "⌜" in line or "≡" in line
        lines.append(turned(line, to if ghost else {a: b for a, b in to.items() if "-" not in a and "_" not in a}))
    return "\n".join(lines)


def pages():
    yield from sorted(glob.glob("docs/**/*.md", recursive=True))
    yield "README.md"


def main():
    to = table()
    if "--list" in sys.argv:
        for old in sorted(to):
            print(f"{old}\t{to[old]}")
        return
    for path in sources():
        old = read(path)
        new = turned(old, to)
        # a name in backticks of a comment
        new = re.sub(r"`([^`\n]+)`", lambda m: "`" + turned(m[1], to) + "`", new)
        if new != old:
            open(path, "w", encoding="utf-8").write(new)
    for path in sorted(glob.glob("crates/*/src/**/*.rt", recursive=True)):
        old = read(path)
        new = turned_rt(old, to)
        if new != old:
            open(path, "w", encoding="utf-8").write(new)
    for path in sorted(glob.glob("crates/*/must-fail/*.edit") + glob.glob("tests/*/*/*.edit")):
        old = read(path)
        new = "\n".join(turned(l, to) if re.match(r"(old|new|#)", l) else l for l in old.split("\n"))
        if new != old:
            open(path, "w", encoding="utf-8").write(new)
    for path in pages():
        old = read(path)
        new = re.sub(r"`([^`\n]+)`", lambda m: "`" + turned(m[1], to) + "`", old)
        if new != old:
            open(path, "w", encoding="utf-8").write(new)


if __name__ == "__main__":
    main()
