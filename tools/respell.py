#!/usr/bin/env python3
"""Spells this repository's own definitions, fields and lemmas in snake case, as today's Rattle does.

usage: tools/respell.py        at the top of the repository, once, after the kit's port.py

It goes by text. Renamed: names that specs/ and proofs/ declare, in camel case or with dashes (`costOf`, `weighted-rank`), wherever they stand: in .antt files, in
.rt files outside strings, in must-fail edits (there the library's words too, which port.py leaves), and in backticks in README.md and docs/. Kept: types and modules, functions of src/, names of the libraries, and the
names that a check makes (labels of goals in proofs/F/). Where two names would fall together, the lemma gets `_lem` (TOGETHER).
"""
import glob
import re

# Names that would become another name of the tree: a lemma beside the definition that it is about.
TOGETHER = {
    "call-number": "call_number_lem",
    "first-number": "first_number_lem",
    "in-range": "in_range_lem",
    "in-sequence": "in_sequence_lem",
    "largest-from": "largest_from_lem",
    "levels-of": "levels_of_lem",
    "long-enough": "long_enough_lem",
    "next-cell": "next_cell_lem",
    "place-from": "place_from_lem",
    "prefix-length": "prefix_length_lem",
    "prefix-number": "prefix_number_lem",
    "prefix-of": "prefix_of_lem",
    "push-level": "push_level_lem",
    "put-behind": "put_behind_lem",
    "read-digits": "read_digits_lem",
    "row-at": "row_at_lem",
    "step-levels": "step_levels_lem",
    "symbol-range": "symbol_range_lem",
}
# The same for lemmas that port.py has in snake case already, and the crates whose files cite them.
ALREADY = {
    "code_read": ["prefixcodes", "uneven"],
    "count_at": ["multicell"],
    "group_at": ["encoding", "writer"],
    "sum_done": ["runs"],
}
# What port.py spells anew in .antt files, and not in must-fail edits.
IN_EDITS = {"orElse": "or_else", "sizeOf": "size_of", "getD": "get_or", "listOf": "list_of", "cellAt": "cell_at", "onZero": "on_zero"}
WORD = r"[A-Za-z][A-Za-z0-9_']*"
KEBAB = re.compile(r"(?<![\w'\-·+◌≤≡≢<≥/])" + WORD + r"(?:-[A-Za-z0-9_']+)+(?![\w'\-≤≡])")
CAMEL = re.compile(r"(?<![\w'\-·+◌])[a-z][a-z0-9_]*[A-Z][A-Za-z0-9_']*(?![\w'\-])")
DECLARED = re.compile(r"^\s*(?:(?:abbrev|unfoldable|pub)\s+)*([A-Za-z][\w'\-]*) :(?: |$)", re.M)
USE = re.compile(r"^\s*(?:pub )?use ([^\s{;]+?)(?:\.\{([^}]*)\})?(?: as (\S+))?$", re.M)


def read(path):
    with open(path, encoding="utf-8") as f:
        return f.read()


def write(path, text):
    if read(path) != text:
        with open(path, "w", encoding="utf-8") as f:
            f.write(text)


def snake(name):
    if name in TOGETHER:
        return TOGETHER[name]
    return re.sub(r"(?<=[a-z0-9'])([A-Z])", lambda m: "_" + m.group(1).lower(), name.replace("-", "_"))


def crates():
    return sorted(p.split("/")[1] for p in glob.glob("crates/*/src"))


def antt(walks):
    """The .antt files: of a function's own proof (walks), or of specs/ and lemmas."""
    for path in sorted(glob.glob("crates/*/**/*.antt", recursive=True)):
        parts = path.split("/")
        if "out" not in parts and (parts[2] == "proofs" and len(parts) > 4) == walks:
            yield path


def declared():
    names = set()
    for path in antt(False):
        names |= set(DECLARED.findall(re.sub(r"--.*", "", read(path))))
    return names


def foreign(text, own):
    """The names and module aliases that a file takes from libraries."""
    names, aliases = set(), set()
    for path, words, alias in USE.findall(text):
        if path.startswith(tuple("Rattle." + c + "." for c in own)):
            continue
        if words:
            names |= {w.split(" as ")[-1].strip() for w in words.split(",")} | {w.split(" as ")[0].strip() for w in words.split(",")}
        else:
            aliases.add(alias or path.split(".")[-1])
    return names, aliases


def code_and_comment(line):
    at = line.find("--") if not line.lstrip().startswith("--") else len(line) - len(line.lstrip())
    return (line, "") if at < 0 or (at > 0 and line[at - 1] not in " \t") else (line[:at], line[at:])


def lemmas(path, own, names):
    """A file of specs/ or of lemmas: each name in code, and each declared name in a comment."""
    text = read(path)
    kept, aliases = foreign(text, own)

    def new(m, known):
        name = m.group(0)
        before = m.string[: m.start()]
        head = re.search(r"([\w'\-.]+)\.$", before)
        if name in kept or name[0].isupper() or (head and (head.group(1).split(".")[0] in aliases or re.match(r"(mathlib|Prim|native|lib|borrow|mir|denote|types)\.", head.group(1) + "."))):
            return name
        return snake(name) if known is None or name in known else name

    out = []
    for line in text.split("\n"):
        use = re.match(r"\s*(?:pub )?use (\S+)", line)
        if use and not use.group(1).startswith(tuple("Rattle." + c + "." for c in own)):
            out.append(line)
            continue
        code, said = code_and_comment(line)
        code = CAMEL.sub(lambda m: new(m, names), KEBAB.sub(lambda m: new(m, None), code))
        said = CAMEL.sub(lambda m: new(m, names), ticked(said, names))
        out.append(code + said)
    write(path, "\n".join(out))


def walk(path, own, names):
    """A function's own proof: the names of this repository that it imports, and camel case. Labels of goals stay."""
    text = read(path)
    taken = set()
    for source, words, _ in USE.findall(text):
        if source.startswith(tuple("Rattle." + c + "." for c in own)) and words and not re.search(r"\.(Tie|Statement)$|\+\w+$", source):
            taken |= {w.split(" as ")[0].strip() for w in words.split(",")}
    taken &= names
    text = KEBAB.sub(lambda m: snake(m.group(0)) if m.group(0) in taken else m.group(0), text)
    write(path, CAMEL.sub(lambda m: snake(m.group(0)) if m.group(0) in names else m.group(0), text))


def ticked(text, names):
    """Names in backticks."""
    def inside(m):
        part = KEBAB.sub(lambda k: snake(k.group(0)) if k.group(0) in names else k.group(0), m.group(0))
        return CAMEL.sub(lambda k: snake(k.group(0)) if k.group(0) in names else k.group(0), part)

    return re.sub(r"`[^`\n]*`", inside, text)


def source(text, names):
    """A .rt file, or a must-fail edit: all but what stands in strings."""
    def turn(part):
        part = KEBAB.sub(lambda m: snake(m.group(0)) if m.group(0) in names else m.group(0), part)
        return CAMEL.sub(lambda m: snake(m.group(0)) if m.group(0) in names else m.group(0), part)

    out = []
    for line in text.split("\n"):
        if line.lstrip().startswith("//"):
            out.append(CAMEL.sub(lambda m: snake(m.group(0)) if m.group(0) in names else m.group(0), ticked(line, names)))
        else:
            out.append("".join(p if p.startswith('"') else turn(p) for p in re.split(r'("(?:[^"\\]|\\.)*")', line)))
    return "\n".join(out)


def edit(text):
    """A must-fail edit of a definition: the library's words, and projections written tight."""
    if "specs/" not in text and "proofs/" not in text:
        return text
    text = re.sub(r"\b(" + "|".join(IN_EDITS) + r")\b", lambda m: IN_EDITS[m.group(1)], text)
    text = re.sub(r"\((\w+(?: \.\w+)+)\)", lambda m: m.group(1).replace(" .", "."), text)
    return re.sub(r"(?<=[\w)]) \.(?=\w)", ".", text)


def main():
    own = crates()
    names = declared()
    for old in ALREADY:
        for crate in ALREADY[old]:
            for path in [p for w in (False, True) for p in antt(w) if p.split("/")[1] == crate]:
                write(path, re.sub(r"(?<![\w'\-])" + old + r"(?![\w'\-])", old + "_lem", read(path)))
    for path in antt(False):
        lemmas(path, own, names)
    for path in antt(True):
        walk(path, own, names)
    for path in sorted(glob.glob("crates/*/src/**/*.rt", recursive=True)):
        write(path, source(read(path), names))
    for path in sorted(glob.glob("crates/*/must-fail/*.edit")):
        write(path, edit(source(read(path), names)))
    for path in ["README.md"] + sorted(glob.glob("docs/**/*.md", recursive=True)):
        write(path, ticked(read(path), names))


main()
