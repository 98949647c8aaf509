#!/usr/bin/env python3
"""Checks that what README.md, docs/*.md and docs/map/*.md name exists; docs/landings/, docs/PORT.md, docs/DESIGN-PASS.md and docs/LOOK-BACK.md tell what was and are left out. What stands in back quotes must be one of

- a path, whole or its last parts: `docs/map/01.md`, `speed/run`; below `target/`, which is not kept, anything, and below the `out/` of a crate, which is not kept either, by the crate
- `specs/F`, `proofs/F` of crates/theory; `crate: F` (its specs/), `crate: specs/F`, `crate: proofs/F`; after these `: name`, a definition or theorem of that file
- `Record.field`; `crate::file`, `crate::file::item`; `Type::item`, a function of a type's `impl` or a case of an enum; `tm_name`, `TM_NAME` of the header; `rt must-fail crate`
- a word alone: a definition, theorem, field, function, clause of a contract, struct, constant, edit, crate or file name, wherever it stands; after the word "edit" an edit
- in a list after one of these, joined by commas, "and", "or", "with": of the same file, folder or record, as in `specs/Run: steps`, `push_count`; `Demand3.gap`, `.jumps`

Each edit's name stands once in the repository, and in a row of a file in docs/map/. A link `](..)` is relative to the folder of its document.

Of an expression or a command only paths and words with an underscore or an inner capital are looked up. A line of a block without a language must stand in a file of
crates/, unless `rt` printed it. Skipped: what has no letter, options, the words of OTHERS, blocks with a language (compare/readme.py), and what is not in back quotes."""
import re
import sys
from pathlib import Path

ROOT = Path(__file__).resolve().parent.parent
MAP = ROOT / "docs/map"
WAS = {"PORT.md", "DESIGN-PASS.md", "LOOK-BACK.md"}
DOCUMENTS = [ROOT / "README.md", *(path for path in sorted((ROOT / "docs").glob("*.md")) if path.name not in WAS), *sorted(MAP.glob("*.md"))]
NOT_KEPT = {"target", "out", ".git", "__pycache__"}
# What names nothing of this repository: words of Rattle, of its prover and its messages, of C and Rust, of the printed text, and placeholders.
OTHERS = {*"""rt ensures requires pub axiom axioms if omega rw search close for while static impl Result Option Ok Err From TryFrom IfOk memcpy memmove memset rep .rt .antt old: i g s ns instructions
    logic-built libraries-built native= result levels.old levels.new levels.now r.number Record.field Invariants.antt Answers.antt
    c.args.m c.args.d c.in_ok-check.ensures c.in_err-check.ensures c.if-d-m.true c.if-d-m.false c.f.ensures c.loop-i.invariant f-b-requires loop-i-smaller returns-2""".split()}
BLOCK = re.compile(r"^```(\w*)\n(.*?)^```$", re.M | re.S)
LIST = re.compile(r"(,|,? and|,? or|,? with)?\s+")
FILE = re.compile(r"(?:(\w+): )?(?:(specs|proofs)/)?([A-Z]\w*)(?:: (\S.*))?")
RECORD = re.compile(r"(?:pub )?(?:record|data) ([^\s:(){}]+)")
SIGNATURE = re.compile(r"(?:(?:pub|abbrev|unfoldable) )*([^\s:(){}=]+(?: [^\s:(){}=]+)*)(?: [({][^(){}]*[)}])* :(?:\s|$)")
PRINTED = re.compile(r"(?:fn|impl) \S+: proved$|logic=proved ")
ITEM = re.compile(r"\b(?:fn|ensures|struct|enum|const|static) (\w+)")
TYPE = re.compile(r"^(?:pub )?(?:struct|enum) (\w+)[^{;]*\{(.*?)^\}|^impl (?:[^{]* for )?(\w+)[^{]*\{(.*?)^\}", re.M | re.S)
CASE = re.compile(r"^    ([A-Z]\w*)", re.M)


def declared(text):
    """The names that a file of definitions or proofs declares, within its modules too, and the fields or constructors of each record and data type."""
    names, members, depth, inside = set(), {}, 0, None
    for line in text.splitlines():
        indent, line = (len(line) - len(line.lstrip())) // 2, line.strip()
        if not line or line.startswith("--"):
            continue
        if indent <= depth:
            depth, inside = indent, None
        if indent == depth and line.startswith("module "):
            depth += 1
        elif indent == depth and (record := RECORD.match(line)):
            names.add(record[1])
            inside = members.setdefault(record[1], set())
        elif signature := SIGNATURE.match(line):
            if indent == depth:
                names.add(signature[1])
            elif inside is not None and indent == depth + 1:
                inside.update(signature[1].split())
    return names, members


class Repository:
    """What can be named, and where it stands."""

    def __init__(self):
        listed = [line.partition(":") for line in (ROOT / "crates.txt").read_text().splitlines() if not line.startswith("#")]
        self.crates = {crate.split()[0] for crate, _, _ in listed}
        self.kit = {library for _, _, below in listed for library in below.split()} - self.crates
        self.paths = {path.relative_to(ROOT).as_posix() for path in ROOT.rglob("*") if not NOT_KEPT & {*path.relative_to(ROOT).parts}}
        self.edits = {Path(path).stem for path in self.paths if path.endswith(".edit")}
        self.header = {*re.findall(r"\b(?:tm|TM)_\w+", (ROOT / "include/turretmedlar.h").read_text())}
        self.words = self.crates | self.edits | self.header
        self.lines, self.names, self.members, self.types = set(), {}, {}, {}
        for path in self.paths:
            self.words |= {Path(path).name, Path(path).stem}
            if path.endswith((".rt", ".rs", ".antt", ".edit")):
                self.read(path, (ROOT / path).read_text())

    def read(self, path, text):
        if path.endswith(".antt"):
            names, members = declared(text)
            for record, fields in members.items():
                self.members.setdefault(record, set()).update(fields)
                names |= fields
        else:
            names = {*ITEM.findall(text)} if path.endswith((".rt", ".rs")) else set()
            self.words |= {*re.findall(r"^ +pub (\w+):", text, re.M)}
            for one, fields, of, items in TYPE.findall(text) if path.endswith(".rt") else ():
                self.types.setdefault(one or of, set()).update(CASE.findall(fields), ITEM.findall(items))
        self.names[path] = names
        self.words |= names
        self.lines |= {line.strip() for line in text.splitlines()}

    def has(self, path):
        return any(known == path or known.endswith("/" + path) for known in self.paths)


HERE = Repository()


class Reader:
    """Looks up one quoted text after another, and keeps what the next may go on with in a list: the names around the last, its crate, its record."""

    def __init__(self):
        self.around = self.crate = self.record = None
        self.looked_up = 0

    def look_up(self, text, before):
        """What is wrong with a quoted text, or nothing; `before` is what stands between it and the one before it."""
        going_on = LIST.fullmatch(before)
        around, crate, record = (self.around, self.crate, self.record) if going_on else (None, None, None)
        self.around = self.crate = self.record = None
        self.looked_up += 1
        if text in OTHERS or text.startswith("--") or not re.search(r"[^\W\d]", text):
            self.looked_up -= 1
        elif re.search(r"\bedits?\s+$", before) or (around is HERE.edits and re.fullmatch(r"\w+", text)):
            self.around = HERE.edits
            return text not in HERE.edits and "no such edit"
        elif (file := FILE.fullmatch(text)) and (file[1] or file[2] or (crate and file[4])):
            return self.file(file[1] or ("theory" if file[2] else crate), file[2] or "specs", file[3], file[4])
        elif item := re.fullmatch(r"(\w+)::(\w+)(?:::(\w+))?", text):
            return self.item(*item.groups())
        elif re.search(r"[^\w./:*+-]", text):
            return self.expression(text)
        elif "/" in text or text in HERE.paths:
            return self.path(text)
        elif field := re.fullmatch(r"([A-Z]\w*)?\.([a-z][\w-]*)", text):
            return self.field(field[1] or record, field[2])
        elif around:
            self.around, self.crate = around, crate
            return text not in around and "not where the one before it in the list stands"
        else:
            return text not in HERE.words and "no such name"

    def file(self, crate, folder, name, defined):
        if name == "X":
            return
        path = f"crates/{crate}/{folder}/{name}.antt"
        if path not in HERE.paths:
            return f"no file {path}"
        self.crate = crate
        self.around = HERE.names[path] if defined else {Path(known).stem for known in HERE.paths if known.startswith(f"crates/{crate}/{folder}/")}
        missing = [one for one in (defined or "").split(", ") if one and one not in self.around]
        return missing and f"{path} declares no {missing[0]}"

    def item(self, crate, name, item):
        if crate in HERE.types:
            return name not in HERE.types[crate] and f"{crate} has no {name}"
        path = f"crates/{crate}/src/{name}.rt"
        if crate in HERE.kit:
            return
        if path not in HERE.paths:
            return f"no file {path}"
        self.around = HERE.names[path]
        return item and item not in self.around and f"{path} has no {item}"

    def field(self, record, field):
        self.record = record
        return field not in HERE.members.get(record, ()) and f"no record {record} with a field {field}"

    def path(self, text):
        text = re.sub(r"^\./|(:\d+)+$|/$", "", text)
        if made := re.match(r"target(?:/.*)?$|crates/(\w+)/out\b", text):
            return made[1] and made[1] not in HERE.crates and f"no crate {made[1]}"
        if "*" in text:
            return not [*ROOT.glob(text)] and "no such path"
        return not HERE.has(text) and not HERE.has(text + ".antt") and "no such path"

    def expression(self, text):
        for word in re.findall(r"(?:-L)?([\w.-]+(?:/[\w.-]+)+|\w+)", text):
            if wrong := self.path(word) if "/" in word else re.search(r"._.|[a-z][A-Z]", word) and word not in HERE.words | OTHERS and "no such name":
                return f"{word}: {wrong}"


def commands(text):
    """The crates that commands name, in quotes or in blocks."""
    for words in re.findall(r"(?:\brt (?:check|dev|staticlib|must-fail|try|goals|mir)((?: [a-z_]+)*)|(?<=[`\s])-l(\w+))(?=[`\s]|$)", text):
        yield from " ".join(words).split()


def wrongs(document):
    text = document.read_text()
    reader, end = Reader(), 0
    yield from (f"{crate}: no such crate" for crate in commands(text) if crate not in HERE.crates)
    yield from (f"{link}: no such file" for link in re.findall(r"\]\(([^):]+)\)", text) if not (document.parent / link).exists())
    for language, block in BLOCK.findall(text):
        lines = [line.strip() for line in block.splitlines() if not language and line.strip() and not PRINTED.match(line)]
        yield from (f"{line}: in no file of crates/" for line in lines if line not in HERE.lines)
    text = BLOCK.sub("", text)
    for span in re.finditer(r"`([^`]+)`", text):
        quoted = re.sub(r"\s+", " ", span[1])
        if wrong := reader.look_up(quoted, text[end:span.start()]):
            yield f"`{quoted}`: {wrong}"
        end = span.end()
    print(f"{document.relative_to(ROOT)}: {reader.looked_up} names looked up")


def edits_amiss():
    """Edits whose name stands twice, or in no row of a file in docs/map/."""
    names = [Path(path).stem for path in sorted(HERE.paths) if path.endswith(".edit")]
    rows = "".join(line for document in MAP.glob("*.md") for line in document.read_text().splitlines() if line.startswith("|"))
    yield from (f"{name}: the name of two edits" for name in sorted(HERE.edits) if names.count(name) > 1)
    yield from (f"{name}: an edit in no row" for name in sorted(HERE.edits) if f"`{name}`" not in rows)


bad = [(document, wrong) for document in DOCUMENTS for wrong in wrongs(document)]
bad += [(MAP, wrong) for wrong in edits_amiss()]
for document, wrong in bad:
    print(f"{document.relative_to(ROOT)}: {wrong}")
failed = len({document for document, _ in bad})
print(f"{len([*DOCUMENTS, MAP]) - failed} passed, {failed} failed")
sys.exit(failed > 0)
