#!/usr/bin/env python3
"""The sheets of the program `sheets` and what it must write for them, worked out from documents 01 and 02 alone.

The sheets are made below: `data/` gets their bytes, `args` their names, and `stdout` each name and the text after it; some go to `sheets/` at
the root as examples. The text comes from a reader of bytes that follows document 01, "The bench sheet", and document 02, requests 7 and 8, and from the rules
in the model of `readings`. After the text of a sheet without fault, a line w says that it was written again from what was read: the number, the length, and 1
where the bytes are equal. Nothing of the code is used.

    python3 crates/sheets/expected.py
"""
import sys
from functools import cache
from itertools import product
from math import factorial
from pathlib import Path

HERE = Path(__file__).parent
sys.path.insert(0, str(HERE.parent / "readings"))
from model import REASONS, Fault, do_change_zero, do_count_up, do_rewrite, do_store, order_from, rank, read, row, spelled, unrank, value_on, write_sheet


# The reader: the first fault met decides.


SIZE, TIE, SHEET = REASONS["size"], REASONS["tie"], REASONS["sheet"]


class Bytes:
    def __init__(self, sheet):
        self.left = [*sheet]

    def number(self, length):
        """A number of so many bytes, low byte first; an early end is a fault."""
        taken, self.left = self.left[:length], self.left[length:]
        if len(taken) < length:
            raise Fault(SHEET)
        return sum(byte << 8 * i for i, byte in enumerate(taken))

    def within(self, length, low, high):
        """A count, kind or group number, which has a range."""
        number = self.number(length)
        if not low <= number <= high:
            raise Fault(SHEET)
        return number


def read_group(left):
    n = left.number(1)
    if not 2 <= n <= 20:
        raise Fault(SIZE)
    levels = [left.number(2) for _ in range(n)]
    if len({*levels}) < n:
        raise Fault(TIE)
    return levels


def read_command(left, groups):
    """Its kind, its group number, and k, as many names as its group has cells, or m and s. Request 8: "kind 4, with a group byte and nothing more"."""
    kind = left.within(1, 1, 4)
    g = left.within(1, 0, len(groups) - 1)
    if kind == 2:
        return kind, g, [left.number(1) for _ in groups[g]]
    return kind, g, [left.number(length) for length in {1: [4], 3: [8, 8], 4: []}[kind]]


def read_zeros(left, groups):
    """Of each group 1 where it is on the new zero. Request 7: "a count in one byte, 1 to G, then the numbers of the groups on the new zero, strictly rising"; each is
    below G."""
    zeros, least = [0] * len(groups), 0
    for _ in range(left.within(1, 1, len(groups))):
        g = left.within(1, least, len(groups) - 1)
        zeros[g], least = 1, g + 1
    return zeros


def read_sheet(data):
    """A sheet that ends with its commands "has old zeros only"."""
    left = Bytes(data)
    groups = [read_group(left) for _ in range(left.within(1, 1, 64))]
    commands = [read_command(left, groups) for _ in range(left.within(2, 0, 1000))]
    zeros = read_zeros(left, groups) if left.left else [0] * len(groups)
    if left.left:
        raise Fault(SHEET)
    return groups, commands, zeros


def work(kind, held, zero, levels):
    """The zero that a command leaves, and what it does on levels. The push list of a rewrite is long enough."""
    if kind == 1:
        return zero, do_count_up(*held, *levels)
    if kind == 2:
        return zero, do_rewrite(len(held) - 1, len(levels), *levels, len(held), *held)
    if kind == 3:
        m, symbol = held
        return zero, do_store(symbol, m, *levels)
    return do_change_zero(zero, *levels)


MET = set()  # each kind of command with each number that it got


def text(data):
    """The lines that the program prints for a sheet."""
    return worked(bytes(data))


@cache
def worked(data):
    try:
        groups, commands, zeros = read_sheet(data)
    except Fault as fault:
        return [["s", *fault.args]]
    lines = []
    for place, (kind, g, held) in enumerate(commands, 1):
        zeros[g], (number, pushes, _, _, *rest) = work(kind, held, zeros[g], groups[g])
        groups[g] = rest[:len(groups[g])]
        lines.append(["c", place, number, pushes])
        MET.add((kind, number))
    return lines + [["g", g, value_on(zero, read(levels)), *levels] for g, (levels, zero) in enumerate(zip(groups, zeros))]


def bytes_of(groups, commands, zeros):
    """The number and the bytes of a sheet that is written where there is room for any."""
    held = [(kind, g, len(rest), row(rest)) if kind == 2 else (kind, g, *rest) for kind, g, rest in commands]
    return write_sheet(24692, len(groups), [(len(levels), levels) for levels in groups], len(commands), held, zeros)


def written(data):
    """The line of a sheet without fault, which is written from what was read. Document 02, request 2: "an accepted sheet, read and written, must have equal bytes"."""
    number, made = bytes_of(*read_sheet(data))
    return ["w", number, len(made), int(made == data)]


# Sheets: their parts as lists of bytes.


def group(*levels):
    return [len(levels)] + [byte for level in levels for byte in spelled(level, 2)]


def count(g, k):
    return [1, g] + spelled(k, 4)


def rewrite(g, *names):
    return [2, g, *names]


def store(g, m, symbol):
    return [3, g] + spelled(m, 8) + spelled(symbol, 8)


def change(g):
    return [4, g]


def joined(parts):
    return [byte for part in parts for byte in part]


def sheet(groups, commands=(), new=()):
    """With a third section where groups are on the new zero, which are told by their numbers."""
    return [len(groups)] + joined(groups) + spelled(len(commands), 2) + joined(commands) + ([len(new), *new] if new else [])


def spread(n, start=0):
    """n levels with gaps, in no simple order."""
    return [start + (7 * cell * cell + 3 * cell) % 1009 for cell in range(1, n + 1)]


def scattered(n, i):
    """A rank of n cells, or a symbol of n!; those of a thousand i differ where n! has room for them."""
    return (i + 1) * 1_000_003 * 998_244_353 % factorial(n)


def along(order, top):
    """Levels without a gap, of this order."""
    return [top - order.index(cell) for cell in range(1, len(order) + 1)]


def shuffled(n, i):
    return unrank(n, scattered(n, i))


PAPER = [1, 3, 3, 0, 1, 0, 2, 0, 3, 0, 1, 0, 4, 0, 0, 0, 2, 0, 3, 1, 2, 3, 0, 3, 0, 0, 0, 0, 0, 0, 0, 3, 0, 0, 0, 0, 0, 0, 0]
PAPER_TEXT = "c 1 0 4\nc 2 0 1\nc 3 5 0\ng 0 5 7 6 8\n"

# Document 02, request 7: "[1,2,3,4] is 10 on the old and 0 on the new, and [1,3,2] is 0 and 2", each order twice, the second time on the new zero
VALUES = [4, 4, 4, 0, 3, 0, 2, 0, 1, 0, 4, 4, 0, 3, 0, 2, 0, 1, 0, 3, 3, 0, 1, 0, 2, 0, 3, 3, 0, 1, 0, 2, 0, 0, 0, 2, 1, 3]
VALUES_TEXT = "g 0 10 4 3 2 1\ng 1 0 4 3 2 1\ng 2 0 3 1 2\ng 3 2 3 1 2\n"
# .. request 8: the same values where two commands of kind 4 move those groups, and there is no third section
VALUES_CHANGED = VALUES[:33] + [2, 0, 4, 1, 4, 3]
VALUES_CHANGED_TEXT = "c 1 0 0\nc 2 0 0\n" + VALUES_TEXT

TWO, THREE, FOUR = group(1, 2), group(3, 1, 2), group(4, 3, 2, 1)
FULL = [group(*spread(20, 100 * g)) for g in range(64)]
REWRITES = [rewrite(i % 64, *shuffled(20, i)) for i in range(1000)]
ALL = [64, *range(64)]  # the longest third section
OLD_LONGEST, LONGEST = sheet(FULL, REWRITES), sheet(FULL, REWRITES) + ALL
LAST = factorial(20)
NAMES = [*range(1, 21)]
BY_TURNS = [command for i in range(40)
            for command in (count(0, 1 + i % 7), store(1, 60, i), count(1, i), store(0, 720, 17 * i), store(2, 6840, 171 * i), count(2, 3 * i))]

GOOD = {
    "paper": PAPER,
    # ranges at their ends
    "no-commands": sheet([THREE]),
    "two-cells": sheet([TWO], [count(0, 1), store(0, 2, 0), rewrite(0, 2, 1), count(0, 1)]),
    "twenty-cells": sheet([FULL[0]], [count(0, 1000), store(0, LAST, LAST - 1), store(0, LAST, 0), rewrite(0, *range(20, 0, -1))]),
    "sixty-four-groups": sheet([group(*spread(2 + g % 19, g)) for g in range(64)], [count(63, 5), count(0, 7), rewrite(63, *shuffled(8, 5))]),
    "sixty-four-groups-no-commands": sheet(FULL),
    "thousand-counts": sheet(FULL, [count(i % 64, 60) for i in range(1000)]),
    "thousand-stores": sheet(FULL, [store(i % 64, LAST, scattered(20, i)) for i in range(1000)]),
    "thousand-on-one": sheet([FOUR], [count(0, 1 + i % 24) for i in range(1000)]),
    "longest": LONGEST,
    "longest-on-old-zeros": OLD_LONGEST,
    "levels-at-their-ends": sheet([group(0, 65535), group(65535, 0, 1), group(*range(65516, 65536))], [count(0, 0), count(2, 0)]),
    "every-size": sheet([group(*spread(n)) for n in range(2, 21)],
                        [command for g, n in enumerate(range(2, 21))
                         for command in (count(g, n), rewrite(g, *shuffled(n, n)), store(g, factorial(n), factorial(n) - 1), count(g, 0))]),
    "refusals-of-twenty": sheet([FULL[0]],
                                [store(0, LAST + 1, 0), store(0, LAST, LAST), rewrite(0, *range(1, 20), 0), rewrite(0, *range(1, 20), 21), rewrite(0, *range(1, 20), 19),
                                 store(0, LAST, LAST - 1), rewrite(0, *range(1, 21))]),
    # bytes in their sequence
    "low-byte-first": sheet([group(0x0102, 0x0201, 0x00FF), group(0xFF00, 0x00FE)],
                            [count(0, 0x0100), count(0, 0x0001), count(1, 0x00010000), count(1, 0x01000000), store(0, 6, 5), store(0, 6 << 56, 5)]),
    "two-hundred-and-fifty-six-commands": sheet([THREE], [count(0, 1)] * 256),
    # groups side by side
    "by-turns": sheet([group(*spread(6)), group(*spread(5, 50)), group(*spread(20, 9))],
                      BY_TURNS),
    "rewritten-and-counted": sheet([group(*spread(4)), group(*spread(7, 20))],
                                   [command for i in range(30) for command in (rewrite(i % 2, *shuffled(4 + i % 2 * 3, i)), count(i % 2, i))]),
    "a-round-of-four": sheet([FOUR], [count(0, 1)] * 24 + [count(0, 24), count(0, 23)]),
    # refusals of each command; the next command follows
    "count-ceiling": sheet([group(65530, 3), group(65535, 0, 1)],
                           [count(0, 6), count(0, 5), count(0, 0), count(0, 1), count(1, 0), count(1, 1), count(0, 2**32 - 1), count(0, 65536)]),
    "rewrite-muddle": sheet([THREE, FOUR],
                            [rewrite(0, 1, 1, 2), rewrite(0, 0, 1, 2), rewrite(0, 1, 2, 4), rewrite(0, 1, 2, 255), rewrite(0, 0, 0, 0),
                             rewrite(1, 1, 2, 3, 3), rewrite(1, 4, 3, 2, 1), rewrite(0, 3, 2, 1)]),
    "rewrite-ceiling": sheet([group(65534, 1, 7), group(65535, 9)],
                             [rewrite(0, 2, 3, 1), rewrite(0, 3, 1, 2), rewrite(0, 1, 3, 2), rewrite(1, 1, 2), rewrite(1, 2, 1), rewrite(1, 1, 1)]),
    "to-the-ceiling": sheet([group(65533, 1, 7), group(65533, 1, 7), group(65532, 1, 7), group(65533, 2)],
                            [rewrite(0, 2, 3, 1), rewrite(0, 3, 2, 1), store(1, 6, 2), store(1, 6, 0), store(1, 3, 2), count(2, 3), count(2, 1), count(3, 2), count(3, 1)]),
    "rewrite-no-pushes": sheet([THREE, group(65535, 9)], [rewrite(0, 1, 3, 2), rewrite(1, 1, 2), rewrite(0, 1, 2, 3), rewrite(0, 1, 2, 3)]),
    "store-value": sheet([THREE],
                         [store(0, 0, 0), store(0, 7, 0), store(0, 6, 6), store(0, 6, 5), store(0, 3, 3), store(0, 3, 2), store(0, 1, 0), store(0, 1, 1),
                          store(0, 2**64 - 1, 0), store(0, 6, 2**64 - 1), store(0, 2**32 + 6, 2**32), store(0, 0, 2**64 - 1)]),
    "store-ceiling": sheet([group(65534, 1, 7), group(65535, 9)],
                           [store(0, 6, 3), store(0, 6, 4), store(0, 3, 0), store(0, 3, 1), store(0, 3, 2), store(1, 2, 0), store(1, 2, 1), store(1, 1, 0), store(1, 3, 0)]),
    "refused-then-done": sheet([THREE, TWO],
                               [rewrite(0, 1, 1, 1), count(0, 4), store(0, 7, 0), rewrite(0, 3, 1, 2), count(1, 65534), count(1, 65533), count(1, 1), count(0, 2)]),
    "all-refused": sheet([group(65535, 2)], [count(0, 1), rewrite(0, 2, 1), rewrite(0, 2, 2), store(0, 2, 1), store(0, 2, 2), store(0, 3, 0)]),
    # document 02, request 1: symbol 6 of 12 stands on [3,1,2,4], at the cap, where symbol 1 needs a push, and where it was just stored
    "store-no-pushes": sheet([group(9, 4, 65535, 0), FOUR], [store(0, 12, 6), store(0, 12, 1), store(1, 12, 6), store(1, 12, 6)]),
    # request 7: the values that it prints; document 01's sheet on the new zero; no command, one group of several, all
    "both-zeros": VALUES,
    "new-zero": PAPER + [1, 0],
    "new-zero-no-commands": sheet([THREE], [], [0]),
    "new-zero-first": sheet([THREE, FOUR, TWO], [count(0, 3), count(1, 3)], [0]),
    "new-zero-between": sheet([THREE, FOUR, TWO], [count(0, 3), count(1, 3)], [1]),
    "new-zero-last": sheet([THREE, FOUR, TWO], [count(0, 3), count(1, 3)], [2]),
    "new-zeros-about-an-old-one": sheet([FOUR, FOUR, FOUR], [count(0, 3), count(1, 3), count(2, 3)], [0, 2]),
    "new-zeros-all-of-three": sheet([FOUR, THREE, TWO], [count(0, 3), count(1, 3), count(2, 3)], [0, 1, 2]),
    # 64 groups: all new, the first, the last, every other one; the longest section and no command
    "new-zeros-all-of-64": sheet([group(*spread(2 + g % 19, g)) for g in range(64)],
                                 [count(63, 5), rewrite(63, *shuffled(8, 5)), store(18, 380, 7), count(0, 7)], [*range(64)]),
    "new-zero-first-of-64": sheet([FOUR] * 64, [count(g, g) for g in range(64)], [0]),
    "new-zero-last-of-64": sheet([FOUR] * 64, [count(g, g) for g in range(64)], [63]),
    "new-zeros-every-other": sheet([FOUR] * 64, [count(g, g) for g in range(64)], [*range(1, 64, 2)]),
    "new-zeros-no-commands": sheet(FULL, [], [*range(64)]),
    # every size on both zeros: counted, rewritten and stored to; as it is, [1,2,..,n]; and on the new zero the order of the last value, which one step takes to 0
    "every-size-on-both-zeros": sheet([group(*spread(n)) for n in range(2, 21) for _ in range(2)],
                                      [command for g in range(38) for n in [2 + g // 2]
                                       for command in (count(g, n), rewrite(g, *shuffled(n, n)), store(g, factorial(n), factorial(n) - 1), count(g, n + 1))],
                                      [*range(1, 38, 2)]),
    "rising-on-both-zeros": sheet([group(*range(n, 0, -1)) for n in range(2, 21) for _ in range(2)], [], [*range(1, 38, 2)]),
    "last-values-on-the-new-zero": sheet([group(*along(order_from(NAMES[:n], factorial(n) - 1), 40)) for n in range(2, 21) for _ in range(2)],
                                         [count(g, 1) for g in range(0, 38, 2)], [*range(38)]),
    # the work is the same, and the values differ
    "by-turns-on-both-zeros": sheet([group(*spread(6)), group(*spread(5, 50)), group(*spread(20, 9))], BY_TURNS, [0, 2]),
    "a-round-of-four-on-both-zeros": sheet([FOUR, FOUR], [count(g, 1) for _ in range(24) for g in range(2)] + [count(1, 24), count(1, 23)], [1]),
    "two-cells-on-both-zeros": sheet([TWO, TWO], [count(0, 1), count(1, 1), store(1, 2, 1), rewrite(1, 1, 2)], [1]),
    "twenty-cells-on-the-new-zero": sheet([FULL[0]], [count(0, 1000), store(0, LAST, LAST - 1), store(0, LAST, 0), rewrite(0, *range(20, 0, -1))], [0]),
    "refused-on-the-new-zero": sheet([THREE, group(65535, 2)],
                                     [rewrite(0, 1, 1, 1), count(0, 4), store(0, 7, 0), rewrite(0, 3, 1, 2), count(1, 1), rewrite(1, 2, 1), store(1, 2, 1),
                                      count(0, 2)], [0, 1]),
    # bytes left over by names of five on a group of three: a count of 1 and group 2. The rewrite is muddle
    "names-left-over-are-a-section": sheet([THREE, FOUR, group(*spread(5))], [rewrite(0, 3, 4, 5, 1, 2)]),
    # request 8: a change between two counts, beside a group without it, twice, on a group that the third section names; the first command, and the last; before a
    # rewrite and a store
    "change-between-counts": sheet([FOUR], [count(0, 3), change(0), count(0, 2)]),
    "change-over": sheet([THREE, THREE], [count(0, 2), count(1, 2), change(1), count(0, 2), count(1, 2)]),
    "change-twice": sheet([FOUR], [count(0, 3), change(0), count(0, 2), change(0), count(0, 1)]),
    "change-on-the-new-zero": sheet([FOUR], [count(0, 3), change(0), count(0, 2)], [0]),
    "change-first": sheet([THREE, FOUR], [change(1), count(0, 3), count(1, 3), rewrite(0, 3, 2, 1)]),
    "change-last": sheet([THREE], [count(0, 4), change(0)]),
    "change-then-rewrite-and-store": sheet([FOUR], [change(0), rewrite(0, 3, 1, 4, 2), store(0, 12, 5), count(0, 7)]),
    # one group of several; one changed, one named, one both, one neither; every group of 64; all but the last, and most of them again
    "change-second-of-three": sheet([FOUR, FOUR, FOUR], [count(0, 3), count(1, 3), count(2, 3), change(1), count(0, 2), count(1, 2), count(2, 2)]),
    "changes-and-new-zeros": sheet([FOUR, FOUR, FOUR, FOUR], [count(0, 3), count(1, 3), count(2, 3), count(3, 3), change(2), change(0)], [1, 2]),
    "change-all-of-64": sheet([group(*spread(2 + g % 19, g)) for g in range(64)], [command for g in range(64) for command in (count(g, g), change(63 - g))]),
    "thousand-changes": sheet(FULL, [change(i % 63) for i in range(1000)]),
    # the paper's values; [1,2,..,n] of every size as it is and changed; every size with and without a change amid the other commands
    "both-zeros-by-changes": VALUES_CHANGED,
    "rising-changed": sheet([group(*range(n, 0, -1)) for n in range(2, 21) for _ in range(2)], [change(g) for g in range(1, 38, 2)]),
    "every-size-changed": sheet([group(*spread(n)) for n in range(2, 21) for _ in range(2)],
                                [command for g in range(38) for n in [2 + g // 2]
                                 for command in (count(g, n), rewrite(g, *shuffled(n, n)), *[change(g)] * (g % 2), store(g, factorial(n), factorial(n) - 1),
                                                 count(g, n + 1))]),
    # amid the commands of a sheet above; a round of four, changed after each number of steps, whose value is 0 at the end
    "by-turns-changed": sheet([group(*spread(6)), group(*spread(5, 50)), group(*spread(20, 9))], BY_TURNS[:100] + [change(0), change(2)] + BY_TURNS[100:]),
    "a-round-of-four-changed": sheet([FOUR] * 25, [command for g in range(25) for command in (count(g, g), change(g), count(g, 24 - g))]),
    # it is done whatever the levels are, and whatever was refused before it
    "change-at-the-ceiling": sheet([group(65535, 0, 1), group(0, 65535), group(*range(65516, 65536))],
                                   [count(0, 1), change(0), count(0, 1), change(1), rewrite(1, 1, 2), store(1, 2, 0), change(2), count(2, 0)]),
    "change-among-refused": sheet([THREE, TWO],
                                  [rewrite(0, 1, 1, 1), change(0), store(0, 7, 0), count(0, 4), store(0, 3, 3), count(1, 65534), change(1), count(1, 65534),
                                   count(1, 65533), change(1), count(1, 1), rewrite(0, 3, 1, 2)]),
}

EXAMPLES = ["paper", "every-size", "by-turns", "refused-then-done", "both-zeros", "change-over", "thousand-counts", "longest", "tie-last", "one-byte-after"]

NO_COMMANDS = spelled(0, 2)
ONE = spelled(1, 2)


# A sheet with a command of each kind, by its parts: an early end is tried at every byte of it.
PARTS = [("groups", [2]), ("first-n", [3]), ("first-levels", THREE[1:]), ("last-n", [4]), ("last-levels", FOUR[1:]), ("commands", spelled(5, 2)),
         ("kind-1", [1]), ("group", [0]), ("k", spelled(4, 4)), ("kind-2", [2]), ("rewrite-group", [1]), ("names", [4, 3, 2, 1]),
         ("kind-3", [3]), ("store-group", [1]), ("m", spelled(24, 8)), ("s", spelled(7, 8)), ("kind-4", [4]), ("change-group", [1]),
         ("last-kind", [1]), ("last-group", [1]), ("last-k", spelled(9, 4)), ("new-zeros", [2]), ("new-zero", [0]), ("last-new-zero", [1])]


def cuts():
    made, before = {}, []
    for word, part in PARTS:
        for kept in range(len(part)):
            made[f"end-in-{word}-{kept}"] = before + part[:kept]
        before = before + part
    return made


CUTS = cuts()
GOOD["end-before-new-zeros"] = CUTS.pop("end-in-new-zeros-0")  # the third section may be left out

# Sheets to which a third section is added: of three groups, without a command and with one, and of 64.
THREE_GROUPS = sheet([THREE, FOUR, TWO])
ONE_COMMAND = sheet([THREE, FOUR, TWO], [count(2, 1)])
SIXTY_FOUR = sheet([TWO] * 64)

# Sheets that end with their commands, and bytes after these that are no third section.
AFTER = {
    "one-byte-after": (PAPER, [0]),
    "one-byte-after-no-commands": (sheet([THREE]), [0]),
    "a-command-after": (sheet([THREE], [count(0, 1)]), count(0, 1)),
    "one-byte-after-all-commands": (OLD_LONGEST, [0]),
    "much-after-all-commands": (OLD_LONGEST, [1] * 6000),
    # its count, whatever stands after it
    "new-zeros-0": (THREE_GROUPS, [0]),
    "new-zeros-0-after-a-command": (ONE_COMMAND, [0]),
    "new-zeros-0-with-one": (ONE_COMMAND, [0, 1]),
    "new-zeros-0-then-a-section": (THREE_GROUPS, [0, 1, 0]),
    "new-zeros-2-of-1": (PAPER, [2, 0, 0]),
    "new-zeros-4-of-3": (THREE_GROUPS, [4, 0, 1, 2, 3]),
    "new-zeros-4-of-3-with-three": (ONE_COMMAND, [4, 0, 1, 2]),
    "new-zeros-65-of-64": (SIXTY_FOUR, [65, *range(65)]),
    "new-zeros-64-of-1": (PAPER, ALL),
    "new-zeros-255": (ONE_COMMAND, [255, *range(255)]),
    "new-zeros-255-end": (PAPER, [255]),
    # an early end after the count and after each number
    "new-zeros-end-after-1": (PAPER, [1]),
    "new-zeros-end-after-3": (THREE_GROUPS, [3]),
    "new-zeros-end-after-first": (THREE_GROUPS, [3, 0]),
    "new-zeros-end-after-second": (THREE_GROUPS, [3, 0, 1]),
    "new-zeros-end-after-3-and-a-command": (ONE_COMMAND, [3]),
    "new-zeros-end-before-last-of-64": (SIXTY_FOUR, ALL[:-1]),
    "longest-cut-after-count": (OLD_LONGEST, ALL[:1]),
    "longest-cut-before-last": (OLD_LONGEST, ALL[:-1]),
    # numbers that don't rise: equal or falling, in the first two and in the last two
    "new-zeros-equal": (ONE_COMMAND, [2, 1, 1]),
    "new-zeros-equal-0": (THREE_GROUPS, [2, 0, 0]),
    "new-zeros-equal-last": (THREE_GROUPS, [3, 0, 2, 2]),
    "new-zeros-falling": (ONE_COMMAND, [2, 2, 1]),
    "new-zeros-falling-to-0": (THREE_GROUPS, [2, 1, 0]),
    "new-zeros-falling-last": (THREE_GROUPS, [3, 0, 2, 1]),
    "new-zeros-falling-by-more": (THREE_GROUPS, [3, 1, 2, 0]),
    "new-zeros-falling-in-64": (SIXTY_FOUR, [64, *range(62), 63, 62]),
    "new-zeros-equal-last-of-64": (SIXTY_FOUR, [64, *range(63), 62]),
    # numbers that are no group's
    "new-zero-1-of-1": (PAPER, [1, 1]),
    "new-zero-3-of-3": (ONE_COMMAND, [1, 3]),
    "new-zero-3-of-3-last": (THREE_GROUPS, [3, 0, 1, 3]),
    "new-zero-3-of-3-first": (THREE_GROUPS, [2, 3, 4]),
    "new-zero-64-of-64": (SIXTY_FOUR, [1, 64]),
    "new-zero-64-of-64-last": (SIXTY_FOUR, [64, *range(1, 65)]),
    "new-zero-255": (PAPER, [1, 255]),
    "new-zero-255-last": (THREE_GROUPS, [2, 2, 255]),
    # bytes after the last number: any byte, a number that would rise, a second section
    "one-byte-after-new-zeros": (PAPER, [1, 0, 0]),
    "one-number-after-new-zeros": (ONE_COMMAND, [1, 1, 2]),
    "a-group-number-after-all": (THREE_GROUPS, [3, 0, 1, 2, 3]),
    "a-second-section": (PAPER, [1, 0, 1, 0]),
    "a-second-section-of-others": (ONE_COMMAND, [1, 1, 1, 2]),
    "a-command-after-new-zeros": (ONE_COMMAND, [1, 1] + count(0, 1)),
    "one-byte-after-the-longest": (OLD_LONGEST, ALL + [0]),
    "one-number-after-the-longest": (OLD_LONGEST, ALL + [64]),
    "a-second-section-after-the-longest": (OLD_LONGEST, ALL + ALL),
    "much-after-the-longest": (OLD_LONGEST, ALL + [1] * 6000),
    # after a change, which has no k and no names; a change more than the count says, where 4 may be a count of groups
    "one-byte-after-a-change": (sheet([THREE], [change(0)]), [0]),
    "change-with-a-k": (sheet([THREE], [change(0)]), spelled(1, 4)),
    "change-with-names": (sheet([THREE, FOUR, TWO], [change(0)]), [3, 2, 1]),
    "a-change-after": (sheet([THREE], [count(0, 1)]), change(0)),
    "a-change-after-of-four": (sheet([TWO] * 4, [change(3)]), change(0)),
}


# Faulty sheets, by the number that document 01 gives them.
FAULTY = {
    SIZE: {
        # judged at the n byte, in the first and in the last group, also where the sheet ends there
        "size-0": [1, 0] + NO_COMMANDS,
        "size-1": [1] + group(5) + NO_COMMANDS,
        "size-21": [1] + group(*range(21)) + NO_COMMANDS,
        "size-255": [1] + group(*range(255)) + NO_COMMANDS,
        "size-1-end": [1, 1],
        "size-21-last": [2] + THREE + group(*range(21)) + NO_COMMANDS,
        "size-0-of-64": [64] + joined(FULL[:63]) + [0],
        # before other faults
        "size-then-tie": [2] + [21] + group(7, 7),
        "size-and-too-long": [1] + [21] * 30000,
    },
    TIE: {
        # after the group's last level
        "tie-two": [1] + group(7, 7) + NO_COMMANDS,
        "tie-first-and-last": [1] + group(5, 6, 7, 5) + NO_COMMANDS,
        "tie-of-zeros": [1] + group(0, 1, 0) + NO_COMMANDS,
        "tie-of-highest": [1] + group(65535, 1, 65535) + NO_COMMANDS,
        "tie-of-twenty": [1] + group(*range(19), 18) + NO_COMMANDS,
        "tie-first": [2] + group(9, 8, 9) + THREE + NO_COMMANDS,
        "tie-last": [2] + THREE + group(9, 8, 9) + NO_COMMANDS,
        "tie-of-64": [64] + joined(FULL[:63]) + group(7, 7) + NO_COMMANDS,
        "tie-end": [1] + group(7, 7),
        # before other faults
        "tie-then-size": [2] + group(7, 7) + [1],
        "tie-then-count": [1] + group(7, 7) + spelled(1001, 2),
        "tie-then-kind": [1] + group(7, 7) + ONE + [9, 0],
        "tie-and-too-long": [1] + group(7, 7) + [1] * 30000,
        "tie-then-new-zeros": sheet([group(7, 7)]) + [9, 9],
    },
    SHEET: {
        # count of groups
        "groups-0": [0] + NO_COMMANDS,
        "groups-0-with-one": [0] + THREE + NO_COMMANDS,
        "groups-65": [65] + joined([TWO] * 65) + NO_COMMANDS,
        "groups-255": [255] + joined([TWO] * 255) + NO_COMMANDS,
        "groups-0-then-size": [0, 1],
        "groups-65-then-size": [65, 1],
        # no tie yet, or none
        "tie-cut": [1] + group(7, 7)[:-1],
        "tie-before-last-level-missing": [1] + group(7, 7, 8)[:-2],
        "equal-low-bytes": [1] + group(0x0105, 0x0205) + NO_COMMANDS + [0],
        # count of commands
        "commands-1001": [1] + TWO + spelled(1001, 2) + count(0, 1) * 1001,
        "commands-65535": [1] + TWO + spelled(65535, 2) + count(0, 1) * 4,
        "commands-1001-end": [1] + TWO + spelled(1001, 2),
        "commands-one-too-few": [1] + TWO + spelled(3, 2) + count(0, 1) * 2,
        "changes-one-too-few": [1] + TWO + spelled(3, 2) + change(0) * 2,
        # kind and group number, in the first and in the last command
        "kind-0": [1] + THREE + ONE + [0, 0, 0, 0, 0, 0],
        "kind-5": [1] + THREE + ONE + [5, 0, 0, 0, 0, 0],
        "kind-255": [1] + THREE + ONE + [255, 0, 0, 0, 0, 0],
        "kind-0-last": [1] + THREE + spelled(3, 2) + count(0, 1) + rewrite(0, 3, 2, 1) + [0, 0, 0, 0, 0, 0],
        "kind-5-after-done": [1] + THREE + spelled(2, 2) + count(0, 4) + [5, 0],
        "kind-5-of-1000": [1] + THREE + spelled(1000, 2) + count(0, 1) * 999 + [5, 0, 0, 0, 0, 0],
        "group-1-of-1": [1] + THREE + ONE + count(1, 1),
        "group-255": [1] + THREE + ONE + count(255, 1),
        "group-64-of-64": [64] + joined(FULL) + ONE + count(64, 1),
        "group-2-of-2-rewrite": [2] + THREE + FOUR + ONE + rewrite(2, 1, 2, 3),
        "group-2-of-2-store-last": [2] + THREE + FOUR + spelled(2, 2) + count(1, 1) + store(2, 6, 1),
        "group-1-in-command-1000": [1] + THREE + spelled(1000, 2) + count(0, 1) * 999 + count(1, 1),
        "group-1-of-1-change": [1] + THREE + ONE + change(1),
        "group-2-of-2-change-last": [2] + THREE + FOUR + spelled(2, 2) + change(1) + change(2),
        # a change without its group
        "change-end": [1] + THREE + ONE + [4],
        # names of another group's n leave bytes over, or too few
        "names-of-four-on-three": sheet([THREE, FOUR], [rewrite(0, 4, 3, 2, 1)]),
        "names-of-three-on-four": sheet([THREE, FOUR], [rewrite(1, 3, 2, 1)]),
        **{name: before + after for name, (before, after) in AFTER.items()},
        **CUTS,
    },
}


def printed(data):
    return "".join(" ".join(map(str, line)) + "\n" for line in text(data))


def less_rising(value, n):
    return (value - rank([*range(1, n + 1)])) % factorial(n)


def parted(lines, commands):
    """Number and pushes of the commands of kind 4, those of the others, and the lines of the groups."""
    got = [(kind, answer) for (kind, _, _), (_, _, *answer) in zip(commands, lines)]
    return [answer for kind, answer in got if kind == 4], [answer for kind, answer in got if kind != 4], lines[len(commands):]


def check_changes():
    """Document 02, request 8."""
    assert printed(VALUES_CHANGED) == VALUES_CHANGED_TEXT
    for made in GOOD.values():
        groups, commands, zeros = read_sheet(made)
        moved = {g for kind, g, _ in commands if kind == 4}
        changes, others, left = parted(text(made), commands)
        assert all(answer == [0, 0] for answer in changes), "its line shows 0 pushes"
        # without the changes the other commands give the same and leave the same levels; of a group that was on the old zero "only the value differs, by the rank of
        # [1,2,...,n] modulo n!"
        kept = [command for command in commands if command[0] != 4]
        number, without = bytes_of(groups, kept, zeros)
        none, same, old = parted(text(without), kept)
        assert number == 0 and none == [] and same == others
        for (word, g, value, *levels), line in zip(old, left, strict=True):
            assert line == [word, g, less_rising(value, len(levels)) if g in moved and not zeros[g] else value, *levels]
        # and where the third section names the groups from the start, the values are the same too; so a change on a group that is there "alters nothing"
        for rest, answers in ((kept, 0), (commands, len(changes))):
            number, named = bytes_of(groups, rest, [int(zero or g in moved) for g, zero in enumerate(zeros)])
            assert number == 0 and parted(text(named), rest) == ([[0, 0]] * answers, others, left)
    # by hand: [1,2,3,4] counted by 5 has value 15 on the old zero and 5 on the new, counted by 6 it has 6 there, and counted by 3 it has 13 and 3; after a round it has 0
    # on the new, as any [1,2,..,n] has
    assert text(GOOD["change-between-counts"])[-1][2] == text(GOOD["change-on-the-new-zero"])[-1][2] == 5
    assert text(GOOD["change-twice"])[-1][2] == 6
    assert [line[2] for line in text(GOOD["change-second-of-three"])[-3:]] == [15, 5, 15]
    assert [line[2] for line in text(GOOD["changes-and-new-zeros"])[-4:]] == [3, 3, 3, 13]
    assert {line[2] for line in text(GOOD["a-round-of-four-changed"])[-25:]} == {0}
    assert [line[2] for line in text(GOOD["rising-changed"])[-37::2]] == [0] * 19
    # of all bytes as a kind, four are one: tried with as many bytes after the group's as each kind has on three cells
    for kind in range(256):
        lengths = [length for length in (0, 3, 4, 16) if text([1] + THREE + ONE + [kind, 0] + [0] * length)[0][0] != "s"]
        assert lengths == {1: [4], 2: [3], 3: [16], 4: [0]}.get(kind, [])


def check_zeros():
    """Document 02, request 7."""
    assert printed(VALUES) == VALUES_TEXT and len(LONGEST) == 24692
    for made in GOOD.values():
        groups, commands, zeros = read_sheet(made)
        new = [g for g, zero in enumerate(zeros) if zero]
        # "A sheet without it has old zeros only": the section is all that its groups' zeros add. Without it the commands and the levels are the same, and the g line
        # of a group that no command changes has the rank; "its value is the rank less the rank of its zero order, modulo n!"
        without = made[:-1 - len(new)] if new else made
        assert made == without + ([len(new), *new] if new else []) and read_sheet(without) == (groups, commands, [0] * len(groups))
        changed = {g for kind, g, _ in commands if kind == 4}
        for new_line, old_line in zip(text(made), text(without), strict=True):
            word, place, number, *levels = old_line
            if word == "g" and place not in changed:
                assert number == rank(read(levels))
                number = less_rising(number, len(levels)) if zeros[place] else number
            assert new_line == [word, place, number, *levels]
    # what is after the commands and is no section is a fault: all rows of at most 4 of these bytes, of which seven are sections of three groups
    sections = [[len(new), *new] for new in ([0], [1], [2], [0, 1], [0, 2], [1, 2], [0, 1, 2])]
    for length in range(1, 5):
        for after in product([0, 1, 2, 3, 4, 255], repeat=length):
            assert (text(ONE_COMMAND + [*after]) == [["s", SHEET]]) == ([*after] not in sections)
    assert all(text(before)[0][0] != "s" and not any(read_sheet(before)[2]) for before, _ in AFTER.values())


def main():
    assert printed(PAPER) == PAPER_TEXT
    check_zeros()
    check_changes()
    assert not any(text(made)[0][0] == "s" for made in [*GOOD.values(), joined(part for _, part in PARTS)])
    assert all(text(made) == [["s", number]] for number, faulty in FAULTY.items() for made in faulty.values())
    assert all(written(made) == ["w", 0, len(made), 1] for made in GOOD.values())
    assert MET == {(1, 0), (1, 6), (2, 0), (2, 3), (2, 6), (3, 0), (3, 5), (3, 6), (4, 0)}, "each refusal of each command is met"
    sheets = {**GOOD, **{name: made for faulty in FAULTY.values() for name, made in faulty.items()}}
    assert len(sheets) == len(GOOD) + sum(map(len, FAULTY.values())), "each name is of one sheet"
    data = HERE / "data"
    data.mkdir(exist_ok=True)
    for old in data.iterdir():
        old.unlink()
    lines = []
    for name, made in sheets.items():
        (data / name).write_bytes(bytes(made))
        lines += [[name], *text(made)]
        if name in GOOD:
            lines.append(written(made))
    for name in EXAMPLES:
        (HERE.parent.parent / "sheets" / name).write_bytes(bytes(sheets[name]))
    (HERE / "args").write_text("".join(name + "\n" for name in sheets))
    (HERE / "stdout").write_text("".join(" ".join(map(str, line)) + "\n" for line in lines))
    print(len(GOOD), "good and", len(sheets) - len(GOOD), "faulty sheets")


main()
