#!/usr/bin/env python3
"""Finds the places of the points of docs/DESIGN-PASS.md in crates/*/src, and in crates/*/proofs for point 8.

docs/design_places.py [TREE]             a table: places by crate and kind, of the tree TREE (this repository)
docs/design_places.py [TREE] --list 3    each place of point 3 (of all points without a number), by file and line
docs/design_places.py [TREE] --again     the same table, counted in another way

It goes by text and judges nothing: docs/DESIGN-PASS.md says which of the places stay, and why."""
import collections
import re
import sys
from pathlib import Path

INTEGER = r"(?:u8|u16|u32|u64|usize|i32)"
# functions whose byte is a value: a digit, a count, a cost, a letter, a name
BYTES = {"digit_of", "ones_below", "cost_of", "letter", "name", "narrow8", "expected"}
# pairs of parameters beside those that the share tells
PAIRS = {
    ("numbers: &Numbers", "at: usize"),
    ("at: usize", "numbers: &Numbers"),
    ("numbers: &Numbers", "count: usize"),
    ("list: &mut [u8]", "from: usize"),
    ("table: &[u64; 21]", "n: usize"),
}
# 1 for true and 0 for false, to be added or printed
TRUTHS = {"reaches", "ahead", "equal"}
# a value in place of none: 0 or a length, 10 for a byte that is no digit
NONE = {"size_within", "within", "index_from", "leading_index", "digit", "letter", "number_at", "level", "name", "expected"}
HELPERS = r"\b(wide|wide_digit|wide8|wide16|addend|larger|larger_difference|least|narrow8|narrow16|narrow32)\("
BY_HAND = r"fn (same_cells|holds|equal|zero_number|numbered_zero|zero_held|print_field|number_at|after|value_by_number|permutation_by_number)\("
SWITCH = r"\b(?:match (?:job|kind|action|zero|fifth|letter\(.*\)) \{|if !?(?:job|down)\b)|\b(?:few|many)_steps\(levels, cells, top, k\);?$|\bdown: bool\b"
# functions and types that differ in a type, a size, a constant or a rule, by groups; one that is alone in its group is none any more
TWINS = """
permutation::cell::wide permutation::cell::wide_digit charge::judge::addend readings::text::wide8 readings::text::wide16
charge::judge::larger multicell::cost::larger_difference readings::held_sheet::least
permutation::answers::no_permutation permutation::validity::without_spots charge::answers::no_pushes symbols::read_symbol::no_symbol symbols::row::no_prefix reach::within_reach::none_reached runs::level_steps::no_run sheet::commands::refuse sheet::groups::refuse sheet::zeros::refuse reader::read_sheet::refuse encoding::laid::refuse
charge::answers::done_pushes encoding::laid::done
permutation::successor::next_place permutation::successor::decide
ranking::digits::passed_down ranking::digits::passed_up
ranking::digits::read_down ranking::digits::read_up
ranking::value::less_modulo ranking::permutation_of_value::plus_modulo
ranking::value::value_by_number ranking::permutation_of_value::permutation_by_number
ranking::factorials::factorial_table ranking::weights::weight_table ranking::zero::new_zero_ranks
charge::count_up::few_steps charge::count_up::many_steps
charge::judge::highest charge::judge::lowest
symbols::prefix::prefix uneven::prefix_uneven::prefix_uneven
symbols::row::prefix_row uneven::row::uneven_row
symbols::store::store uneven::store_uneven::store_uneven
symbols::read_symbol::read_symbol uneven::read_uneven::read_uneven bands::read_symbol::read_symbol_bands
uneven::codebook::led_before uneven::codebook::leading_index
sheet::commands::names_at sheet::groups::levels_at
sheet::held::no_groups sheet::held::no_entries sheet::held::old_zeros work::acting::no_answers
listing::lists::name_row listing::lists::level_row
listing::lists::groups_in listing::lists::entries_in listing::zeros::zeros_in
encoding::commands::put_count encoding::commands::put_store
encoding::commands::put_names encoding::groups::put_levels layout::lines::put_levels
layout::lines::put_commands layout::lines::put_groups
writer::page::put_groups writer::page::put_commands
text::buffers::sheet_buffer text::buffers::text_buffer sheets::again::unwritten
readings::input::read_full sheets::input::read_full bench::input::read_input
bench::told::words sheets::told::words
bench::told::tell sheets::told::tell
readings::text::words readings::text::bytes readings::text::levels readings::text::counts
readings::text::permuted readings::level_jobs::decoded readings::jobs::ranked readings::value_jobs::valued
readings::numbers::narrow8 readings::numbers::narrow16 readings::numbers::narrow32
readings::numbers::levels_from readings::numbers::counts_from readings::numbers::record_from
readings::held_sheet::names_held readings::held_sheet::levels_held
readings::held_sheet::name readings::held_sheet::level readings::numbers::number_at readings::job_names::letter sheets::again::expected
readings::held_sheet::count_from readings::held_sheet::store_from readings::held_sheet::change_from
readings::held_sheet::groups_from readings::held_sheet::sheet_from readings::held_sheet::zeros_from
readings::line::before readings::level_jobs::before readings::band_jobs::before readings::uneven_jobs::before
readings::job_names::job_of_prefix readings::job_names::job_of_read_symbol readings::job_names::job_of_reach readings::job_names::job_of_store readings::job_names::job_of_w
readings::band_jobs::on_bands readings::uneven_jobs::on_uneven readings::level_jobs::on_calls
ranking::answers::Ranked ranking::answers::Valued symbols::answers::Symbol
writer::answers::Written text::answers::Printed
sheet::commands::EntryRead sheet::groups::GroupRead sheet::held::SheetRead sheet::zeros::ZerosRead work::answers::Worked
readings::held_sheet::GroupTaken readings::held_sheet::GroupsTaken readings::held_sheet::EntryTaken
"""
WORD = re.compile(r"[A-Za-z_]\w*")

Function = collections.namedtuple("Function", "name line parameters result clauses body body_line")
Place = collections.namedtuple("Place", "point kind crate file line text")


def blank(text):
    """The text with comments and strings blanked, of the same length."""
    return re.sub(r'//[^\n]*|b?"(?:\\.|[^"\\])*"', lambda found: " " * len(found[0]), text)


def closing(text, start):
    depth = 0
    for index in range(start, len(text)):
        depth += (text[index] in "([{") - (text[index] in ")]}")
        if not depth:
            return index + 1
    return len(text)


def parts(text, separator, types=False):
    """The parts of a list or a product, at depth 0; in a list of types `<..>` holds together too, and the arrow of an `Fn` closes none."""
    depth, start = 0, 0
    for index, letter in enumerate(text):
        depth += (letter in "([{") - (letter in ")]}")
        if types:
            depth += (letter == "<") - (letter == ">" and text[index - 1] != "-")
        if letter == separator and not depth:
            yield text[start:index].strip()
            start = index + 1
    yield text[start:].strip()


def behind_angles(text, start):
    """The place behind `<..>`, where one stands at start; the arrow of an `Fn` closes none."""
    depth = 0
    for index in range(start, len(text)):
        depth += (text[index] == "<") - (text[index] == ">" and text[index - 1] != "-")
        if not depth:
            return index + (text[index] == ">")
    return start


def functions(text):
    for found in re.finditer(r"\bfn (\w+)(?=[<(])", text):
        start = behind_angles(text, found.end())
        end = closing(text, start)
        parameters = [part for part in parts(re.sub(r"\s+", " ", text[start + 1 : end - 1]), ",", True) if part]
        clauses = []
        result = re.match(r"\s*->\s*([^\n{]+)", text[end:])
        place = end + (result.end() if result else 0)
        if bounds := re.match(r"\s*where\b.*?(?=\n\s*(?:requires|ensures)\b|\n?\s*\{)", text[place:], re.S):
            place += bounds.end()
        while clause := re.match(r"\s*(requires|ensures)\b\*?\s*(\w*)\s*\{", text[place:]):
            start = place + clause.end() - 1
            place = closing(text, start)
            clauses.append((clause[1], re.sub(r"\s+", " ", text[start + 1 : place - 1]).strip()))
        start = text.find("{", place)
        body = text[start : closing(text, start)]
        line = text.count("\n", 0, found.start()) + 1
        yield Function(found[1], line, parameters, result[1].strip() if result else "", clauses, body, text.count("\n", 0, start) + 1)


def structs(text):
    for found in re.finditer(r"\bstruct (\w+)(?:<[^{]*>)? \{", text):
        fields = [part.removeprefix("pub ").partition(": ")[::2] for part in parts(text[found.end() : closing(text, found.end() - 1) - 1], ",") if part]
        yield found[1], text.count("\n", 0, found.start()) + 1, fields


class Tree:
    def __init__(self, root):
        self.root = root
        self.sources = {path.relative_to(root).as_posix(): blank(path.read_text()) for path in sorted(root.glob("crates/*/src/**/*.rt"))}
        self.functions = [(path, one) for path, text in self.sources.items() for one in functions(text)]
        self.structs = [(path, *one) for path, text in self.sources.items() for one in structs(text)]
        self.places = []

    def add(self, point, kind, path, line, text):
        self.places.append(Place(point, kind, path.split("/")[1], path, line, " ".join(text.split())))

    def lines(self, point, kind, pattern):
        """A place for each match."""
        for path, text in self.sources.items():
            for number, line in enumerate(text.splitlines(), 1):
                for found in re.finditer(pattern, line):
                    self.add(point, kind, path, number, line)

    def each(self, point, kind, test):
        for path, one in self.functions:
            if test(one):
                self.add(point, kind, path, one.line, f"fn {one.name}")

    def loops(self, word="while"):
        """Each `while` (each `for`): its file, function, line, condition and body."""
        for path, one in self.functions:
            for found in re.finditer(rf"\b{word} ([^{{]*)\{{", one.body):
                body = one.body[found.end() - 1 : closing(one.body, found.end() - 1)]
                yield path, one, one.body_line + one.body.count("\n", 0, found.start()), found[1].strip(), body


def counted(condition, body):
    """A loop that counts: a variable of its condition grows or falls by 1 in its body."""
    return any(word in WORD.findall(condition) for word in re.findall(r"\b(\w+) [+-]= 1;", body))


def copying(body):
    statements = [line.strip() for line in body.strip("{} \n").splitlines() if line.strip()]
    rest = [line for line in statements if not re.fullmatch(r"\w+ [+-]= 1;", line)]
    return len(rest) == 1 and re.match(r"\w+\[[^\]]*\] = \w+\[.*\];", rest[0])


def point1(tree):
    for path, name, line, fields in tree.structs:
        if ("number", "u8") in fields:
            tree.add(1, "struct with a number", path, line, name)
    tree.each(1, "answers a number", lambda one: one.result == "u8" and one.name not in BYTES | TRUTHS)
    tree.each(1, "value for none", lambda one: one.name in NONE and not re.search(r"Option|Result", one.result))
    tree.each(1, "takes a number", lambda one: any(re.match(r"(?:(?:number|kind|job): u8|zero: (?:u8|u64))$", part) for part in one.parameters))
    tree.each(1, "truth as a number", lambda one: one.name in TRUTHS and one.result != "bool")
    tree.lines(1, "constant", r"^\s*(?:pub )?const (?!UNWRITTEN)[A-Z_]+: u8 = \d+;")
    tree.lines(1, "test of a number", r"\bif [\w.()]*(?:number|unknown|checked|group|range|within|size_within\([\w.()]*\)|checked) [!=]= (?:0|VALUE) \{")
    tree.lines(1, "kind by number", r"^\s*\d+ => |\bput_head\(out, at, \d,")


def shape(one):
    """A function's words and signs: names, numbers and types of integers alike."""
    said = " ".join([*one.parameters, "->", one.result, one.body])
    known = {"if", "else", "while", "return", "let", "mut", "match", "for", "in", "as", "true", "false"}
    tokens = re.findall(r"b?'.'|\w+|[^\w\s]", said)
    return tuple(sign(token) if token not in known else token for token in tokens)


def sign(token):
    if re.match(r"b?'|\d", token):
        return "1"
    return "T" if re.fullmatch(INTEGER, token) else "x" if re.match(r"\w", token) else token


def twins(tree, by):
    alike = collections.defaultdict(list)
    for path, one in tree.functions:
        if said := by(one):
            alike[said].append((path, one))
    return [group for group in alike.values() if len(group) > 1]


def point2(tree):
    items = [(path, one.name, one.line) for path, one in tree.functions] + [one[:3] for one in tree.structs]
    stand = {f"{path.split('/')[1]}::{Path(path).stem}::{name}": (path, line) for path, name, line in items}
    for group in TWINS.strip().splitlines():
        left = [name for name in group.split() if name in stand]
        for name in left if len(left) > 1 else ():
            tree.add(2, "twin", *stand[name], f"{name} of {len(left)}: {' '.join(one for one in left if one != name)}")
    for group in twins(tree, lambda one: (said := shape(one)) and len(said) > 15 and "extern" not in one.name and said):
        for path, one in group:
            if "crates/turretmedlar/" not in path:
                tree.add(2, "like shape", path, one.line, f"fn {one.name}: as {', '.join(other.name for _, other in group if other is not one)}")


def point3(tree):
    for path, one, line, condition, body in tree.loops():
        if counted(condition, body):
            tree.add(3, "counts by hand", path, line, f"{one.name}: while {condition}")
        else:
            tree.add(3, "other while", path, line, f"{one.name}: while {condition}")


def point4(tree):
    tree.lines(4, "helper", HELPERS)
    tree.lines(4, "by hand", BY_HAND)
    tree.lines(4, "cast", rf"\bas {INTEGER}\b")
    tree.lines(4, "max or min", r"\bif (\w+) <=? (\w+) \{ (?:\1|\2) \} else \{ (?:\1|\2) \}|^\s*(?:top|bottom) = ")
    tree.lines(4, "field into a local", r"^\s*let \w+ = \w+\.\w+;")
    tree.lines(4, "decimal", r"\bio::decimal\(")
    for path, one, line, condition, body in tree.loops():
        if copying(body):
            tree.add(4, "copying loop", path, line, f"{one.name}: while {condition}")


def facts(tree, kind, plain):
    """The facts of the clauses, and the functions that each stands for; names of parameters alike where `plain` is false."""
    said = collections.defaultdict(dict)
    for path, one in tree.functions:
        names = {part.partition(":")[0].removeprefix("mut ").strip() for part in one.parameters}
        for word, clause in one.clauses:
            for fact in parts(clause, "×") if word == kind else ():
                fact = re.sub(r"^\((.*)\)$", r"\1", fact)
                if not plain:
                    fact = WORD.sub(lambda found: "_" if found[0] in names else found[0], fact)
                said[fact][path, one.line] = one
    return {fact: where for fact, where in said.items() if len(where) > 2}


def together(tree, apart):
    """Pairs of parameters in three signatures or more: side by side, in half at least of those that have one of the two; `apart`, anywhere, in any share."""
    said, having = collections.defaultdict(dict), collections.defaultdict(set)
    for path, one in tree.functions:
        if "crates/turretmedlar/" not in path:
            names = [re.sub(r"^mut ", "", part) for part in one.parameters]
            for i, first in enumerate(names):
                having[first].add((path, one.line))
                for second in names[i + 1 :] if apart else names[i + 1 : i + 2]:
                    said[first, second][path, one.line] = one
    often = {pair: where for pair, where in said.items() if len(where) > 2 and (apart or 2 * len(where) >= len(near(where, having, pair)))}
    return often | {pair: said[pair] for pair in PAIRS if len(said[pair]) > 1}


def near(where, having, pair):
    crates = {path.split("/")[1] for path, _ in where}
    return [at for at in having[pair[0]] | having[pair[1]] if at[0].split("/")[1] in crates]


def point5(tree):
    for fact, where in facts(tree, "requires", False).items():
        for (path, line), one in where.items():
            tree.add(5, "fact", path, line, f"{one.name}: {fact}")
    for fact, where in facts(tree, "ensures", False).items():
        for (path, line), one in where.items():
            tree.add(5, "fact promised", path, line, f"{one.name}: {fact}")
    pairs = together(tree, False)
    for path, one in tree.functions:
        if held := [", ".join(pair) for pair, where in pairs.items() if (path, one.line) in where]:
            tree.add(5, "signature", path, one.line, f"{one.name}: {' + '.join(held)}")


def point6(tree):
    for path, name, line, fields in tree.structs:
        rows = [field for field, kind in fields if kind.startswith("[")]
        if rows and any(kind == "usize" for _, kind in fields):
            tree.add(6, "row with a length", path, line, name)
        if len(rows) > 1:
            tree.add(6, "parallel rows", path, line, f"{name}: {', '.join(rows)}")
    tree.lines(6, "fixed buffer", r"^\s*let mut \w+ = \[[^\]]*; ?\w+\];|^\s*let mut \w+ = \[\w+ \{$|\(\[\w+; ?\w+\](?=, \[)|(?<=\], )\[\w+; ?\w+\]\);|\btype \w+ = \[")
    for word, kind in ("while", "searched by hand"), ("for", "searched by a for"):
        for path, one, line, condition, body in tree.loops(word):
            if re.search(r"\breturn\b", body) and not re.search(r"\breturn (refuse|Input|Err\()", body):
                tree.add(6, kind, path, line, f"{one.name}: {word} {condition}")


def point7(tree):
    tree.lines(7, "switch", SWITCH)


def point8(tree):
    for path in sorted(tree.root.glob("crates/*/proofs/**/*.antt")):
        name, text = path.relative_to(tree.root).as_posix(), path.read_text()
        if path.name == "Answers.antt":
            tree.add(8, "answer file", name, 1, "")
            text_places(tree, "answer", name, text, r"^pub \S+ : goal\.")
            text_places(tree, "answer of a word", name, text, r"= (?:search rules|refl)$")
        elif path.parent.name == "proofs":
            defined = {*re.findall(r"^ *([^\s:()]+)\b[^:\n]*=(?:\s|$)", text, re.M)}
            text_places(tree, "law or lemma", name, text, r"^ *(?:pub )?([^\s:()]+) :(?:\s|$)", defined)


def text_places(tree, kind, name, text, pattern, among=None):
    for found in re.finditer(pattern, text, re.M):
        if among is None or found[1] in among:
            tree.add(8, kind, name, text.count("\n", 0, found.start()) + 1, found[0])


def number_again(tree):
    tree.lines(1, "reads of a number", r"\.number\b(?!\()")
    tree.lines(1, "names of a reason", r"\b(SIZE|FIT|MUDDLE|TIE|VALUE|CEILING|IDLE|SHEET|PAPER|UNSURE)\b(?!: u8)")
    tree.lines(1, "refusals made", r"\b(refuse|no_permutation|no_pushes|no_symbol|no_prefix|none_reached|no_run|without_spots)\(")


def twins_again(tree):
    """Functions with like contracts and like lists of types."""
    def by(one):
        names = {part.partition(":")[0] for part in one.parameters}
        kinds = [re.sub(INTEGER, "T", part.partition(": ")[2]) for part in one.parameters]
        said = [(word, re.sub(r"\d+", "1", WORD.sub(lambda found: "_" if found[0] in names or found[0].islower() else found[0], clause)))
                for word, clause in one.clauses]
        return said and (*kinds, *said)
    for group in twins(tree, by):
        for path, one in group:
            if "crates/turretmedlar/" not in path:
                tree.add(2, "like contract", path, one.line, f"fn {one.name}: as {', '.join(other.name for _, other in group if other is not one)}")


def again(tree):
    number_again(tree)
    twins_again(tree)
    tree.lines(3, "counter moved", r"^\s*\w+ [+-]= 1;$")
    tree.lines(3, "for over a range", r"\bfor \w+ in [^{]*\.\.")
    for path in sorted(tree.root.glob("crates/*/proofs/**/Invariants.antt")):
        for number, line in enumerate(path.read_text().splitlines(), 1):
            if re.match(r"(abbrev )?pub invariant-loop-\S+ : ", line):
                tree.add(3, "invariant written", path.relative_to(tree.root).as_posix(), number, line)
    tree.each(4, "integer to integer", lambda one: re.fullmatch(rf"(\w+: {INTEGER})(, \w+: {INTEGER})?", ", ".join(one.parameters)) and re.fullmatch(INTEGER, one.result))
    for fact, where in facts(tree, "requires", True).items():
        for (path, line), one in where.items():
            tree.add(5, "fact, word for word", path, line, f"{one.name}: {fact}")
    for pair, where in together(tree, True).items():
        for (path, line), one in where.items():
            tree.add(5, "parameters, apart too", path, line, f"{one.name}: {', '.join(pair)}")
    tree.lines(6, "array type", rf"\[(?:{INTEGER}|[A-Z]\w+); ?\w+\]")
    tree.lines(7, "match or else if", r"\bmatch\b|\belse if\b")


def table(tree):
    kinds = list(dict.fromkeys((place.point, place.kind) for place in sorted(tree.places, key=lambda one: one.point)))
    count = collections.Counter((place.point, place.kind, place.crate) for place in tree.places)
    print("| Point | Places | All | By crate |")
    print("|---|---|--:|---|")
    for point, kind in kinds:
        row = [(crate, number) for (at, which, crate), number in sorted(count.items()) if (at, which) == (point, kind)]
        print(f"| {point} | {kind} | {sum(number for _, number in row)} | {', '.join(f'{crate} {number}' for crate, number in row)} |")


def main(words):
    listed = "--list" in words
    point = int(words.pop(words.index("--list") + 1)) if listed and words[-1].isdigit() else None
    roots = [word for word in words if not word.startswith("--")]
    tree = Tree(Path(roots[0]).resolve() if roots else Path(__file__).resolve().parent.parent)
    for find in [again] if "--again" in words else [point1, point2, point3, point4, point5, point6, point7, point8]:
        find(tree)
    if not listed:
        return table(tree)
    for place in tree.places:
        if point in (None, place.point):
            print(f"{place.point} {place.kind}: {place.file}:{place.line}: {place.text}")


main(sys.argv[1:])
