#!/usr/bin/env python3
"""The picture docs/permutations.svg: the permutations of four cells in rank order and the cell pushed at each step, read from the text of `./bench`.

    docs/permutations.py > docs/permutations.svg
"""
import struct
import subprocess
import sys
import tempfile
from math import factorial
from pathlib import Path

BENCH = Path(__file__).resolve().parent.parent / "bench"
START = (3, 1, 0, 2)  # levels by name of [1,4,2,3], which has rank 0
N, ROUND = len(START), factorial(len(START))
COUNTS = range(ROUND + 1)

TITLE = f"All {ROUND} permutations of four cells, one push to a step"
LEGEND = (
    "A group of four cells stores a number by which cell has the most charge, which the next, and so on down.",
    "Each column is one such permutation: most charge at the top, least at the bottom. Its rank, the number stored, is above it.",
    "Each arrow counts up by one. The cell that it names is pushed, that is charged until it has the most: it comes to",
    "the top (outlined), and the others keep their sequence. Read row by row; the last column leads back to the first.",
)
# The fills differ in lightness too, for greyscale; beside each is the colour of the name on it.
FILLS = dict(zip(range(1, N + 1), (("#fff3b0", "#000"), ("#f4a259", "#000"), ("#2f74b0", "#fff"), ("#3b1f4e", "#fff"))))
WIDTH, HEIGHT, LEFT, TOP = 976, 842, 66, 182
IN_ROW, ACROSS, DOWN = 8, 114, 210
CELL_WIDTH, CELL_HEIGHT, CELL_DOWN = 48, 28, 36


def demand(holds, otherwise):
    if not holds:
        sys.exit(f"{sys.argv[0]}: {otherwise}")


def sheet():
    """A bench sheet whose groups all have the levels START; group i is counted up by i, the last one through the whole round."""
    group = struct.pack(f"<B{N}H", N, *START)
    commands = [struct.pack("<BBI", 1, i, i) for i in COUNTS]
    return bytes([len(COUNTS)]) + group * len(COUNTS) + struct.pack("<H", len(commands)) + b"".join(commands)


def round_of_permutations():
    """The permutation after each count, from the levels printed; the last is the first again."""
    with tempfile.NamedTemporaryFile() as file:
        file.write(sheet())
        file.flush()
        done = subprocess.run([BENCH, file.name], stdout=subprocess.PIPE, text=True)
    demand(done.returncode == 0, "./bench failed")
    lines = [line.split() for line in done.stdout.splitlines()]
    commands, groups = lines[:len(COUNTS)], lines[len(COUNTS):]
    demand(commands == [["c", str(i + 1), "0", str(i)] for i in COUNTS], "a count up was not done as asked")
    demand([line[:3] for line in groups] == [["g", str(i), str(i % ROUND)] for i in COUNTS], "the ranks are not 0, 1, ... and 0 again")
    row = [sorted(FILLS, key=lambda cell: -int(line[2 + cell])) for line in groups]
    demand(row[0] == row[-1] and len({*map(tuple, row)}) == ROUND, "the permutations are not a round")
    demand(all([c for c in a if c != b[0]] == b[1:] for a, b in zip(row, row[1:])), "a step is not one push")
    return row


def text(x, y, size, words, more='text-anchor="middle"'):
    return f'<text x="{x}" y="{y}" font-size="{size}" {more}>{words}</text>'


def named(cell, x, y, shape):
    """A shape around x, y in the cell's colour with its name."""
    fill, colour = FILLS[cell]
    return f'<{shape} fill="{fill}" stroke="#000"/>' + text(x, y + 6, 18, cell, f'text-anchor="middle" font-weight="bold" fill="{colour}"')


def disc(cell, x, y):
    return named(cell, x, y, f'circle cx="{x}" cy="{y}" r="13"')


def corner(i, place):
    """The upper left corner of the cell at a place of column i."""
    return LEFT + i % IN_ROW * ACROSS, TOP + i // IN_ROW * DOWN + (place - 1) * CELL_DOWN


def column(i, permutation):
    x, y = corner(i, 1)
    yield text(x + CELL_WIDTH // 2, y - 13, 15, f"rank {i}")
    yield f'<rect x="{x - 4}" y="{y - 4}" width="{CELL_WIDTH + 8}" height="{CELL_HEIGHT + 8}" fill="none" stroke="#c00" stroke-width="3"/>'
    for place, cell in enumerate(permutation, 1):
        x, y = corner(i, place)
        yield named(cell, x + CELL_WIDTH // 2, y + CELL_HEIGHT // 2, f'rect x="{x}" y="{y}" width="{CELL_WIDTH}" height="{CELL_HEIGHT}"')


def arrow(i, place, cell):
    """From the cell pushed, at a place of column i, to the top of the next column. At the end of a row it goes below the row, and the last one outermost."""
    (x, y), (to_x, to_y) = corner(i, place), corner((i + 1) % ROUND, 1)
    x, y, to_x, to_y = x + CELL_WIDTH, y + CELL_HEIGHT // 2, to_x - 6, to_y + CELL_HEIGHT // 2
    middle_x, middle_y = (x + to_x) // 2, (y + to_y) // 2
    path = f"C {middle_x + 6} {y} {middle_x - 6} {to_y} {to_x} {to_y}"
    if (i + 1) % IN_ROW == 0:
        middle_y = corner(i, N)[1] + CELL_HEIGHT + 24
        path = f"H {x + 30} V {middle_y} H {to_x - (36 if i + 1 < ROUND else 48)} V {to_y} H {to_x}"
    return f'<path d="M {x} {y} {path}" fill="none" stroke="#000" stroke-width="1.6" marker-end="url(#head)"/>' + disc(cell, middle_x, middle_y)


def picture(row):
    pushed = [permutation[0] for permutation in row[1:]]
    times, start = factorial(N - 1), 'text-anchor="start"'
    demand(all(pushed.count(cell) == times for cell in FILLS), "the cells are not pushed alike")
    told = " ".join(f"Rank {i}: {', '.join(map(str, row[i]))}; push {pushed[i]}." for i in range(ROUND))
    size = f'width="{WIDTH}" height="{HEIGHT}"'
    yield f'<svg xmlns="http://www.w3.org/2000/svg" viewBox="0 0 {WIDTH} {HEIGHT}" {size} role="img" aria-labelledby="title desc" font-family="sans-serif">'
    yield f'<title id="title">{TITLE}</title>\n<desc id="desc">{" ".join(LEGEND)} {told}</desc>'
    yield '<marker id="head" viewBox="0 0 10 10" refX="9" refY="5" markerWidth="6" markerHeight="6" orient="auto"><path d="M 0 0 L 10 5 L 0 10 z"/></marker>'
    yield f'<rect {size} fill="#fff"/>\n' + text(20, 38, 24, TITLE, f'{start} font-weight="bold"')
    yield from (text(20, 68 + 22 * line, 14, words, start) for line, words in enumerate(LEGEND))
    for i in range(ROUND):
        yield from column(i, row[i])
        yield arrow(i, row[i].index(pushed[i]) + 1, pushed[i])
    yield text(20, HEIGHT - 22, 15, f"Pushes in a round of {ROUND} steps:", start)
    for cell in FILLS:
        x = 196 + cell * 104
        yield disc(cell, x, HEIGHT - 27) + text(x + 20, HEIGHT - 22, 15, f"{pushed.count(cell)} times", start)
    yield text(200 + (N + 1) * 104, HEIGHT - 22, 15, f"{times} = {N - 1}! each: all wear alike", start) + "\n</svg>"


print("\n".join(picture(round_of_permutations())))
