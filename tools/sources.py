"""What the repository's pages are made of and held to: crates, functions with their contracts, names of definitions and
laws, and edits. Read from the sources as text; used by tools/promises-page, tools/wrong-answers and tools/coverage."""
import functools
import hashlib
import pathlib
import re

ROOT = pathlib.Path(__file__).resolve().parent.parent

FN = re.compile(r'^[ \t]*(?P<pub>pub )?(?P<ext>extern "C" )?fn (?P<name>\w+)', re.M)
# a conversion, whose promise is a fact about what is given and what it becomes
CONVERSION = re.compile(
    r"^impl (?P<trait>From|TryFrom)<(?P<given>\w+)> for (?P<made>\w+) \{(?P<said>(?:(?!^\}).)*?)fn (?:from|try_from)\(", re.M | re.S
)
GIVES = re.compile(r"ghost (?:try_)?from_gives = \{ λ \w+ (?P<result>\w+)\. (?P<fact>.*?) \};", re.S)
# .. up to its clauses or its body
SIGNATURE = re.compile(r"(?:(?!\s(?:requires|ensures)\b)[^{])*")
CLAUSE = re.compile(r"\s*(requires|ensures)\b\*?\s*\w*\s*\{")
# a part of the answer, where a fact tells what it is: the result or a field of it, or what a `&mut` holds at the end
PART = r"result(?:\.[\w«»]+)*|[\w«»]+\.new"
TOLD = re.compile(rf"(?P<left>{PART}) ≡ .*|.* ≡ (?P<right>{PART})")
# a declaration of antt: a name, perhaps after marks, at the start of a line or inside a module
NAME = re.compile(r"^ *(?:unfoldable |abbrev |pub )*(?:data |record )?(?P<name>[^\s:()]+)(?: \([^)]*\))* :", re.M)


def crates(root=ROOT):
    """The listed crates, in the order of crates.txt."""
    listed = []
    for line in (root / "crates.txt").read_text(encoding="utf-8").splitlines():
        line = line.split("#")[0]
        if ":" in line:
            listed.append(line.split()[0].rstrip(":"))
    return list(dict.fromkeys(listed))


def texts(root=ROOT):
    """The files of Rattle and antt of all listed crates; what `rt` makes, out/, is none of them."""
    found = [path for crate in crates(root) for part in ("src", "specs", "proofs") for path in (root / "crates" / crate / part).glob("**/*")]
    return sorted(path for path in found if path.suffix in (".antt", ".rt"))


class Function:
    def __init__(self, crate, match, signature, requires, ensures, program):
        self.crate = crate
        self.name = match["name"]
        self.public = bool(match["pub"])
        self.promised = self.public or program and bool(requires or ensures)
        self.exported = bool(match["ext"])
        self.result = "->" in signature
        self.lent = re.findall(r"(\w+): &(?:'\w+ )?mut ", signature)
        self.requires = requires
        self.ensures = ensures

    def told(self):
        """What the contract has an equation for: the result or parts of it, and what a `&mut` holds at the end. Also each name that
        a fact binds, where another fact is about it."""
        every = [fact for clause in self.ensures for fact in facts(clause)]
        equations = [match["left"] or match["right"] for match in map(TOLD.fullmatch, every) if match]
        others = [fact for fact in every if not TOLD.fullmatch(fact)]
        bound = [match[1] for match in (re.fullmatch(r"(\w+) : .*", fact) for fact in others) if match]
        about = " ".join(fact for fact in others if not re.match(r"\w+ : ", fact))
        # an answer by cases, and bytes that are lent on and written back
        equations += ["result" for fact in others if re.match(r"Match(?:Option|Result) result ", fact)]
        equations += [f"{match[1]}.new" for match in (re.search(r"Lends\w+ (\w+)\.entry result", fact) for fact in others) if match]
        return set(equations) | {name for name in bound if re.search(rf"\b{name}\b", about)}

    def open_answers(self):
        """What of the answer has no equation: the result, or what a `&mut` holds at the end."""
        told = self.told()
        found = ["the result"] if self.result and not any(re.match(r"result\b", name) for name in told) else []
        return found + [name for name in self.lent if f"{name}.new" not in told]


def clauses(text, at):
    """The clauses that stand at a place before a body, white space folded."""
    found = {"requires": [], "ensures": []}
    while True:
        match = CLAUSE.match(text, at)
        if not match:
            return found
        depth, end = 1, match.end()
        while depth:
            depth += {"{": 1, "}": -1}.get(text[end], 0)
            end += 1
        found[match[1]].append(" ".join(text[match.end() : end - 1].split()))
        at = end


def facts(clause):
    """The facts of a clause, one for each side of an `×`, without the parentheses around it."""
    found, todo = [], [clause]
    while todo:
        text, depth, start, closed, parts = todo.pop(0).strip(), 0, 0, [], []
        for at, letter in enumerate(text):
            depth += {"(": 1, ")": -1}.get(letter, 0)
            if depth == 0 and letter == ")":
                closed.append(at)
            if depth == 0 and letter == "×":
                parts.append(text[start:at])
                start = at + 1
        if parts:
            todo = parts + [text[start:]] + todo
        elif text.startswith("(") and closed[0] == len(text) - 1:
            todo.insert(0, text[1:-1])
        else:
            found.append(text)
    return found


def words_of(name):
    """A type's name in lower-case words, with _ between."""
    return re.sub(r"(?<!^)(?=[A-Z])", "_", name).lower()


class Conversion(Function):
    """`impl From<A> for B` promises as a function does; it stands here as b_from_a, or b_try_from_a."""

    def __init__(self, crate, match):
        says = GIVES.search(match["said"])
        fact = " ".join(re.sub(rf"\b{says['result']}\b", "result", says["fact"]).split()) if says else None
        name = f"{words_of(match['made'])}_{words_of(match['trait'])}_{words_of(match['given'])}"
        super().__init__(crate, {"name": name, "pub": True, "ext": None}, "->", [], [fact] if fact else [], False)


def functions(crate, root=ROOT):
    """All functions of a crate, in the order of its files, and its conversions."""
    found = []
    for path in sorted((root / "crates" / crate).glob("src/**/*.rt")):
        text = re.sub(r"//[^\n]*", "", path.read_text(encoding="utf-8"))
        for match in FN.finditer(text):
            signature = SIGNATURE.match(text, match.end())
            said = clauses(text, signature.end())
            found.append(Function(crate, match, signature[0], said["requires"], said["ensures"], path.name == "main.rt"))
        found += [Conversion(crate, match) for match in CONVERSION.finditer(text)]
    return found


def types(crate, root=ROOT):
    """The names of a crate's structs, enums and constants."""
    text = "\n".join(path.read_text(encoding="utf-8") for path in sorted((root / "crates" / crate).glob("src/**/*.rt")))
    return set(re.findall(r"^\s*(?:pub )?(?:struct|enum|const) (\w+)", text, re.M))


def names(path):
    """What a file of antt declares."""
    return {match["name"] for match in NAME.finditer(path.read_text(encoding="utf-8"))}


def laws(crate, root=ROOT):
    """What the files of laws in proofs/ declare."""
    return set().union(*(names(path) for path in (root / "crates" / crate).glob("proofs/*.antt")))


@functools.lru_cache(maxsize=None)
def text_sum(crate, root=ROOT):
    """A sum of a crate's text: src/, specs/ and proofs/."""
    folder, text = root / "crates" / crate, hashlib.sha256()
    for path in sorted(path for part in ("src", "specs", "proofs") for path in (folder / part).rglob("*") if path.is_file()):
        content = path.read_bytes()
        text.update(f"{path.relative_to(folder)} {len(content)}\n".encode() + content)
    return text.hexdigest()


# Lower-case words, with _ between.
LABEL = re.compile(r"[a-z0-9]+(_[a-z0-9]+)*")


class Edit:
    """A wrong answer: `# FUNCTION, ..: the input that it answers wrongly`, then the replacements. In the place of a function a law
    may stand, where the edit is of a definition that the law is about. A line `crate: NAME` has the replacements after it made in a
    crate below. A kept one has a line `# tried SUM`, of the text on which it was refused, or `# untried`."""

    def __init__(self, crate, path, gate):
        self.crate = crate
        self.path = path
        self.label = path.stem
        self.gate = gate
        lines = path.read_text(encoding="utf-8").splitlines()
        head = re.match(r"# ([\w-]+(?:, [\w-]+)*): (.+)", lines[0]) if lines else None
        self.functions = head[1].split(", ") if head else []
        self.says = head[2].strip().rstrip(".") if head else ""
        self.tried = gate or "# untried" not in lines
        # Tried before records were kept, or so it is believed: nothing shows it.
        self.unrecorded = not gate and self.tried and not any(line.startswith("# tried ") for line in lines)
        self.replaced = []
        where, file, old = crate, None, None
        for line in lines:
            if line.startswith("crate: "):
                where = line[7:]
            elif line.startswith("file: "):
                file = line[6:]
            elif line.startswith("old: "):
                old = line[5:]
            elif line.startswith("new:"):
                self.replaced.append((where, file, old, line[4:].removeprefix(" ")))
        # The crates that it changes below the one that must be refused: they must still be proved.
        self.below = sorted({where for where, *_ in self.replaced} - {crate})
        # The gate tries its own each time.
        self.stale = not gate and f"# tried {self.sum()}" not in lines

    def sum(self):
        """A sum of the text of the crate, and of those that the edit changes below it, and of what is replaced there."""
        text = " ".join(text_sum(crate) for crate in [self.crate, *self.below])
        return hashlib.sha256(f"{text} {self.replaced}".encode()).hexdigest()[:12]

    def mark(self):
        """Writes down that the edit was refused, on the text as it is."""
        lines = self.path.read_text(encoding="utf-8").splitlines(keepends=True)
        lines = [line for line in lines if not re.match(r"# (?:un)?tried\b", line)]
        self.path.write_text("".join(lines[:1] + [f"# tried {self.sum()}\n"] + lines[1:]), encoding="utf-8")
        self.stale = False

    def faults(self, root=ROOT):
        """Why the edit can not be tried as it stands."""
        found = [] if LABEL.fullmatch(self.label) else ["its name is not lower-case words with _ between"]
        if not self.functions:
            found.append("its first line is not `# FUNCTION: the input that it answers wrongly`")
        if not self.replaced:
            found.append("it replaces nothing")
        for where, file, old, _ in self.replaced:
            path = root / "crates" / where / (file or "")
            if not file or not path.is_file():
                found.append(f"there is no {file} in {where}")
            elif not old or path.read_text(encoding="utf-8").count(old) != 1:
                found.append(f"its old line does not stand in {file} once")
        return found


def edits(crate, root=ROOT):
    """A crate's wrong answers, those of the gate first."""
    gate = sorted((root / "crates" / crate / "must-fail").glob("*.edit"))
    kept = sorted((root / "tests/wrong-answers" / crate).glob("*.edit"))
    return [Edit(crate, path, True) for path in gate] + [Edit(crate, path, False) for path in kept]
