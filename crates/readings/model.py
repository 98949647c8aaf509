"""A model of document 01's rules on lists, as the paper words them, with the storing rule of document 02's request 1 in place of its own, the writing of request 2,
the charge of request 3, the bands of request 4, the listing of request 6, the zeros of request 7, the change of request 8, the tests of request 9, the weights
of request 10, the arrangements of request 11 and the uneven codes of request 12; nothing of the code. `expected.py` checks it against what documents 01, 02, 001
and 000 print; the sheets of `sheets` are worked and written by it too."""
from functools import cache
from itertools import chain, permutations, product, repeat
from math import factorial, perm, prod

# The rules of document 01; that of storing is document 02's. An order is a list of names, place 1 first.


def push(order, i):
    """The cell at place i moves to place 1, and those above it move down one."""
    return [order[i - 1]] + order[:i - 1] + order[i:]


def successor(order):
    n = len(order)
    if n == 2:
        return 2
    if order[0] != n:
        return n
    return n + 1 - successor(order[:0:-1])  # places n, n-1, ..., 2


def tests_and_size(order):
    """Document 02, request 9: "how many times 'is the largest cell on top' was tested, and the size of the shrunken group at which the answer fell: the first whose
    largest cell is not on top, or 2"; "n = 2 has none". A group shrinks to its places n, n-1, ..., 2."""
    tests, group = 0, order
    while len(group) > 2:
        tests += 1
        if group[0] != max(group):
            break
        group = group[:0:-1]
    return tests, len(group)


def step(order):
    return push(order, successor(order))


def digit(order):
    """(i - 2) modulo n, where cell n stands at place i."""
    return (order.index(len(order)) + 1 - 2) % len(order)


def remaining(order):
    """Places i-1 down to 1, then places n down to i+1."""
    i = order.index(len(order)) + 1
    return order[:i - 1][::-1] + order[i:][::-1]


def digits(order):
    return [digit(order)] + digits(remaining(order)) if len(order) > 1 else [0]


def rank(order):
    return digit(order) + len(order) * rank(remaining(order)) if len(order) > 1 else 0


def weight(n, i):
    """Document 02, request 10: n!/(n-i)!, "with 0 past i = n"."""
    return factorial(n) // factorial(n - i) if i <= n else 0


def rank_by_weights(order):
    """"the sum of digit bi times n!/(n-i)!, lowest digit first\""""
    return sum(b * weight(len(order), i) for i, b in enumerate(digits(order)))


def unrank(n, r):
    """The order of n cells that has rank r, from the order that remains: r is its digit and n times the rank of that."""
    if n == 1:
        return [1]
    rest = unrank(n - 1, r // n)
    i = next(i for i in range(1, n + 1) if (i - 2) % n == r % n)
    return rest[:i - 1][::-1] + [n] + rest[i - 1:][::-1]


def read(levels):
    """The names from highest level to lowest."""
    return sorted(range(1, len(levels) + 1), key=lambda c: -levels[c - 1])


def push_level(levels, i):
    """The level of the cell at place i becomes the old top level plus 1, and no other changes. Beside the levels stands the jump, the new level less the old."""
    cell, new = read(levels)[i - 1], max(levels) + 1
    return [new if c == cell else level for c, level in enumerate(levels, 1)], new - levels[cell - 1]


def count_up(levels, k):
    """The levels, and the charge: the jumps added up, push by push."""
    charge = 0
    for _ in range(k):
        levels, jump = push_level(levels, successor(read(levels)))
        charge += jump
    return levels, charge


def push_cells(levels, cells):
    """The levels and the charge, as above."""
    charge = 0
    for cell in cells:
        levels, jump = push_level(levels, read(levels).index(cell) + 1)
        charge += jump
    return levels, charge


def rewrite_count(order, target):
    """The smallest r for which the last n - r cells of the target stand in that same relative sequence now."""
    return next(r for r in range(len(target) + 1) if [c for c in order if c in target[r:]] == target[r:])


def rewrite_pushes(order, target):
    """The target's cells r, r-1, ..., 1."""
    return target[:rewrite_count(order, target)][::-1]


def prefix_length(n, m):
    """The smallest p with n!/(n-p)! at least m."""
    return next(p for p in range(n + 1) if factorial(n) // factorial(n - p) >= m)


def prefix_at(names, p, s):
    """Prefix number s of length p over names that ascend: each name in turn leads as many as there are of length p - 1 over the others."""
    if p == 0:
        return []
    first = names[s // perm(len(names) - 1, p - 1)]
    return [first] + prefix_at([c for c in names if c != first], p - 1, s % perm(len(names) - 1, p - 1))


def prefix_number(names, prefix):
    if not prefix:
        return 0
    others = [c for c in names if c != prefix[0]]
    return names.index(prefix[0]) * perm(len(others), len(prefix) - 1) + prefix_number(others, prefix[1:])


def symbol_prefix(n, m, s):
    return prefix_at([*range(1, n + 1)], prefix_length(n, m), s)


def symbol_of(m, order):
    return prefix_number(sorted(order), order[:prefix_length(len(order), m)])


def store_count(order, prefix):
    """Document 02, request 1: the smallest r for which the order, with the prefix's first r cells taken out, begins with the rest of the prefix."""
    return next(r for r in range(len(prefix) + 1) if [c for c in order if c not in prefix[:r]][:len(prefix) - r] == prefix[r:])


def store_pushes(order, prefix):
    """The prefix's cells r to 1."""
    return prefix[:store_count(order, prefix)][::-1]


# Why a job is sent back: the lowest of the numbers whose reason holds, 0 where none does.
REASONS = dict(size=1, fit=2, muddle=3, tie=4, value=5, ceiling=6, idle=7, sheet=8, paper=9, unsure=10)


def lowest(**holds):
    return min([REASONS[word] for word in holds if holds[word]], default=0)


def sized(n):
    return 2 <= n <= 20


def is_order(n, row):
    return sized(n) and sorted(row[:n]) == list(range(1, n + 1)) and not any(row[n:])


def record_reasons(n, row):
    return dict(size=not sized(n), muddle=not is_order(n, row))


def level_reasons(levels):
    return dict(size=not sized(len(levels)), tie=len(set(levels)) < len(levels))


def over(levels, pushes):
    """Top level plus the job's pushes exceeds 65,535."""
    return bool(levels) and max(levels) + pushes > 65535


# What each job gives: its number, and beside it what it answers; where it is sent back, zeros. `cut` is a row without the zeros at its end.

def row(names):
    return (names + [0] * 20)[:20]


def cut(names):
    return names[:max([i for i, name in enumerate(names, 1) if name], default=1)]


def record(order):
    return [len(order), "|", *cut(row(order))]


def do_rank(n, *names):
    number = lowest(**record_reasons(n, row([*names])))
    return [number, 0 if number else rank([*names])]


def do_digits(n, *names):
    number = lowest(**record_reasons(n, row([*names])))
    return [number, *row([] if number else digits([*names]))]


def do_successor(n, *names):
    number = lowest(**record_reasons(n, row([*names])))
    return [number, 0, 0, 0] if number else [0, successor([*names]), *tests_and_size([*names])]


def do_push(i, n, *names):
    number = lowest(**record_reasons(n, row([*names])), value=not 2 <= i <= n)
    return [number, *record([] if number else push([*names], i))]


def do_run_steps(k, n, *names):
    """k steps: the record at the end, its rank, each cell's pushes, and the tests of all the steps, each on the record that it gets."""
    number = lowest(**record_reasons(n, row([*names])))
    order, pushes, total = [] if number else [*names], row([]), 0
    for _ in range(0 if number else k):
        total += tests_and_size(order)[0]
        order = step(order)
        pushes[order[0] - 1] += 1
    return [number, *record(order), "|", 0 if number else rank(order), "|", *pushes, "|", total]


def do_unrank(n, r):
    # size decides past n = 20, where n! is not worked out
    number = lowest(size=not sized(n), value=n <= 20 and r >= factorial(n))
    return [number, *record([] if number else unrank(n, r))]


def do_read(*levels):
    number = lowest(**level_reasons(levels))
    return [number, *record([] if number else read(levels))]


def levels_left(number, pushes, before, after, charge):
    """A job's number, pushes and charge, and the levels that it leaves. The charge was added up from jumps, and "the total equals the sum of all levels afterwards
    less the sum before"; it has 32 bits."""
    assert charge == sum(after) - sum(before) < 2**32
    return [number, pushes, charge, "|", *after]


def do_push_level(i, *levels):
    number = lowest(**level_reasons(levels), value=not 2 <= i <= len(levels), ceiling=over(levels, 1))
    return levels_left(number, 0, levels, levels, 0) if number else levels_left(0, 1, levels, *push_level(levels, i))


def call(k, levels):
    """A count-up call: its number, the levels that it leaves, and the charge."""
    number = lowest(**level_reasons(levels), ceiling=over(levels, k))
    return (number, levels, 0) if number else (0, *count_up(levels, k))


def do_count_up(k, *levels):
    number, after, charge = call(k, levels)
    return levels_left(number, 0 if number else k, levels, after, charge)


def do_run_levels(k, *levels):
    """k steps on levels: the pushes, their charge, the widest top less bottom after a step, the largest raise of a push, the rank at the end, each cell's pushes, the levels."""
    number, before, pushes, charge, widest, largest = call(k, levels)[0], levels, row([]), 0, 0, 0
    for _ in range(0 if number else k):
        levels, jump = push_level(levels, successor(read(levels)))
        pushes[read(levels)[0] - 1] += 1
        charge += jump
        widest = max(widest, max(levels) - min(levels))
        largest = max(largest, jump)
    first = levels_left(number, 0 if number else k, before, levels, charge)[:3]
    return [*first, widest, largest, 0 if number else rank(read(levels)), "|", *pushes, "|", *levels]


def do_run_calls(room, calls, *lists):
    """A list of calls, each on the levels as the last one left them. Its number goes to its byte, and the other bytes keep their 9."""
    counts, before, numbers, done, total = lists[:calls], lists[calls:], [9] * room, 0, 0
    number, levels = lowest(fit=room < calls), before
    for i, k in enumerate(() if number else counts):
        numbers[i], levels, charge = call(k, levels)
        done += 0 if numbers[i] else k
        total += charge
    return [*levels_left(number, done, before, levels, total), "|", *numbers]


def do_rewrite(room, group, *rest):
    """Rewrite levels to a target. The pushes' names go to the start of the lent bytes, and the others keep their 9."""
    levels, n, names, lent = rest[:group], rest[group], row([*rest[group + 1:]]), [9] * room
    number = lowest(size=not sized(group) or not sized(n), fit=n != group or room < group - 1, muddle=not is_order(n, names), tie=level_reasons(levels)["tie"])
    cells = [] if number else rewrite_pushes(read(levels), names[:n])
    number = number or lowest(ceiling=over(levels, len(cells)))
    if number:
        return [*levels_left(number, 0, levels, levels, 0), "|", *lent]
    return [*levels_left(0, len(cells), levels, *push_cells(levels, cells)), "|", *cells, *lent[len(cells):]]


def code_reasons(n, m):
    """Size decides past n = 20, where n! is not worked out."""
    return dict(value=n <= 20 and not 1 <= m <= factorial(n))


def do_prefix(s, m, n):
    number = lowest(size=not sized(n), value=code_reasons(n, m)["value"] or s >= m)
    found = [] if number else symbol_prefix(n, m, s)
    return [number, len(found), "|", *cut(row(found))]


def do_store(s, m, *levels):
    number = lowest(**level_reasons(levels), value=code_reasons(len(levels), m)["value"] or s >= m)
    cells = [] if number else store_pushes(read(levels), symbol_prefix(len(levels), m, s))
    number = number or lowest(ceiling=over(levels, len(cells)))
    return levels_left(number, 0, levels, levels, 0) if number else levels_left(0, len(cells), levels, *push_cells(levels, cells))


def do_read_symbol(m, *levels):
    number = lowest(**level_reasons(levels), **code_reasons(len(levels), m))
    symbol = 0 if number else symbol_of(m, read(levels))
    number = number or lowest(idle=symbol >= m)
    return [number, 0 if number else symbol]


def do_symbols(m, *levels):
    """Each symbol is stored on these levels and then read."""
    words = []
    for s in range(m):
        stored = do_store(s, m, *levels)
        words += [":", *stored, ":", *do_read_symbol(m, *stored[4:])]
    return words[1:]


# The maker's new zero, document 02, request 7. A zero is a number on a line: 0 is old, 1 is new, and there is no other.

def zero_order(n, zero):
    """On the new zero "the count starts at the order [1,2,...,n]", on the old at "the special order that document 01 starts from", which has rank 0."""
    return [*range(1, n + 1)] if zero else unrank(n, 0)


def value_from(start, order):
    """The rank less the rank of the zero order, modulo n!; any order can be the zero."""
    return (rank(order) - rank(start)) % factorial(len(order))


def order_from(start, value):
    """The order that has this value: its rank is as much above that of the zero order, modulo n!."""
    return unrank(len(start), (rank(start) + value) % factorial(len(start)))


def value_on(zero, order):
    return value_from(zero_order(len(order), zero), order)


def do_value(zero, n, *names):
    number = lowest(**record_reasons(n, row([*names])), value=zero not in (0, 1))
    return [number, 0 if number else value_on(zero, [*names])]


def do_of_value(zero, n, value):
    # size decides past n = 20, where n! is not worked out
    number = lowest(size=not sized(n), value=zero not in (0, 1) or n <= 20 and value >= factorial(n))
    return [number, *record([] if number else order_from(zero_order(n, zero), value))]


def do_change_zero(zero, *levels):
    """Request 8, on a group's zero and levels: it moves "to the new zero [..], without a push"; "on a group already there it is done and alters nothing". Beside what
    the job gives on levels stands the zero."""
    return 1, levels_left(0, 0, levels, levels, 0)


# Writing a sheet, document 02, request 2: "the first met in the sheet's sequence" decides. A held group is n and its levels; a held command is its kind, its group
# number, and then k, or n and a row of names, or m and s, or nothing more. Beside the groups stand their zeros.

class Fault(Exception):
    """Its argument is the number of the first fault met."""


def refuse(word, holds):
    if holds:
        raise Fault(REASONS[word])


def spelled(value, length):
    """Low byte first."""
    return [*value.to_bytes(length, "little")]


def group_bytes(n, levels):
    """n in one byte, then n levels of two bytes. Size is judged at the n byte and a tie after the group's last level."""
    refuse("size", not sized(n))
    refuse("tie", level_reasons(levels[:n])["tie"])
    return [n] + [byte for level in levels[:n] for byte in spelled(level, 2)]


def command_bytes(sizes, kind, g, *held):
    """The kind byte, the group byte (0 to G - 1), then k in four bytes, n names, or m and s in eight bytes each; request 8: "kind 4, with a group byte and nothing
    more". A rewrite whose n isn't its group's is fit, and one with a name past n other than 0 is muddle, fit first."""
    refuse("sheet", g >= len(sizes))
    if kind == 2:
        n, names = held
        refuse("fit", n != sizes[g])
        refuse("muddle", any(names[n:]))
        return [kind, g, *names[:n]]
    return [kind, g] + [byte for number, length in zip(held, {1: [4], 3: [8, 8], 4: []}[kind], strict=True) for byte in spelled(number, length)]


def zeros_bytes(zeros):
    """Request 7: "a count in one byte, 1 to G, then the numbers of the groups on the new zero, strictly rising", "when a group is on the new zero"."""
    new = [g for g, zero in enumerate(zeros) if zero == 1]
    return [len(new), *new] if new else []


def sheet_bytes(group_count, groups, command_count, commands, zeros):
    """The counts are judged before what they count is looked at."""
    refuse("sheet", not 1 <= group_count <= 64)
    made = [group_count] + [byte for group in groups for byte in group_bytes(*group)]
    refuse("sheet", command_count > 1000)
    sizes = [n for n, _ in groups]
    return made + spelled(command_count, 2) + [byte for command in commands for byte in command_bytes(sizes, *command)] + zeros_bytes(zeros)


def write_sheet(room, *held):
    """The number and the sheet's bytes. Paper, where fewer bytes are lent than the sheet has, comes after all others."""
    try:
        made = sheet_bytes(*held)
        refuse("paper", room < len(made))
    except Fault as fault:
        return fault.args[0], []
    return 0, made


def held_group(left):
    n = next(left)
    return n, row([next(left) for _ in range(min(n, 20))])


def held_command(left):
    """Of a rewrite the line has n, how many names it has, and these; of a change nothing more."""
    kind, g = next(left), next(left)
    if kind == 2:
        n, count = next(left), next(left)
        return kind, g, n, row([next(left) for _ in range(min(count, 20))])
    return kind, g, *[next(left) for _ in range({1: 1, 3: 2}.get(kind, 0))]


def do_write(room, *numbers):
    """A held sheet: the count of groups and each, the count of commands and each, and for each group 1 where it is on the new zero; what the line lacks is 0. The
    bytes go to the start of the lent ones, and the others keep their 9."""
    left = chain(numbers, repeat(0))
    group_count = next(left)
    groups = [held_group(left) for _ in range(min(group_count, 64))]
    command_count = next(left)
    commands = [held_command(left) for _ in range(min(command_count, 1000))]
    zeros = [next(left) for _ in groups]
    number, made = write_sheet(room, group_count, groups, command_count, commands, zeros)
    return [number, len(made), "|", *made, *[9] * (room - len(made))]


# Bands instead of levels, document 02, request 4. Each of two lists has an entry by cell name: the lowest levels, and the highest.

def choices(lows, highs):
    """Every choice of one level from each band."""
    return product(*[range(low, high + 1) for low, high in zip(lows, highs)])


def one(found):
    """The only one; None where there are several."""
    return found.pop() if len(found) == 1 else None


def order_of_choices(lows, highs):
    """The order, where "every choice of one level from each band has no tie and yields that same order", else None."""
    return one({None if level_reasons(levels)["tie"] else (*read(levels),) for levels in choices(lows, highs)})


def leaders(p, levels):
    """The p cells that lead, where "each strictly above all cells below it", else None."""
    order = read(levels)
    above = all(levels[c - 1] > levels[below - 1] for place, c in enumerate(order[:p], 1) for below in order[place:])
    return (*order[:p],) if above else None


def leaders_of_choices(p, lows, highs):
    """The p cells, where "in every choice, the same p cells lead in the same sequence", else None."""
    return one({leaders(p, levels) for levels in choices(lows, highs)})


def leaders_compared(p, lows, highs):
    """The same where the choices are too many to try: a cell is above another in all of them where its lowest level is above the other's highest. All n is the order."""
    order = read(lows)
    above = all(lows[c - 1] > highs[below - 1] for place, c in enumerate(order[:p], 1) for below in order[place:])
    return (*order[:p],) if above else None


def few(lows, highs):
    """Whether the choices are few enough to try all."""
    return prod(high - low + 1 for low, high in zip(lows, highs)) <= 10000


def band_reasons(lows, highs):
    return dict(size=not sized(len(lows)), fit=len(lows) != len(highs), value=any(low > high for low, high in zip(lows, highs)))


def do_read_bands(n, *levels):
    """How many lowest levels there are, these, and the highest ones."""
    lows, highs = levels[:n], levels[n:]
    number = lowest(**band_reasons(lows, highs))
    if number:
        return [number, *record([])]
    order = order_of_choices(lows, highs) if few(lows, highs) else leaders_compared(n, lows, highs)
    return [lowest(unsure=order is None), *record([*order] if order else [])]


def do_read_symbol_bands(m, n, *levels):
    """Unsure "comes before idle"."""
    lows, highs = levels[:n], levels[n:]
    number = lowest(**band_reasons(lows, highs)) or lowest(**code_reasons(n, m))
    if number:
        return [number, 0]
    p = prefix_length(n, m)
    prefix = leaders_of_choices(p, lows, highs) if few(lows, highs) else leaders_compared(p, lows, highs)
    if prefix is None:
        return [REASONS["unsure"], 0]
    symbol = prefix_number([*range(1, n + 1)], [*prefix])
    return [REASONS["idle"], 0] if symbol >= m else [0, symbol]


# Orders within reach, document 02, request 6.

def least_pushes(order, r):
    """Every order that r pushes or fewer lead to, with the least number that does: breadth first, by a push at each place."""
    found, last = {(*order,): 0}, {(*order,)}
    for count in range(1, r + 1):
        last = {(*push([*met], i),) for met in last for i in range(2, len(order) + 1)} - found.keys()
        found |= dict.fromkeys(last, count)
    return found


def within_reach(levels, r, room):
    """The number, and the orders in the sequence of the listing: "Fewest pushes come first, then lexicographic sequence." Size, tie and value, and "fit, judged here
    after value". "A value of r above n - 1, or a list that would exceed 65,536 bytes, is value"; n!/(n-r)! orders have n names apiece."""
    n = len(levels)
    number = lowest(**level_reasons(levels), value=r > n - 1 or n * perm(n, r) > 65536)
    number = number or lowest(fit=room < n * perm(n, r))
    if number:
        return number, []
    found = least_pushes(read(levels), r)
    return 0, sorted(found, key=lambda order: (found[order], order))


def listing(r, room, levels):
    """The number, how many orders there are, and the lent bytes: those past the last order keep their 99."""
    number, orders = within_reach(levels, r, room)
    names = [name for order in orders for name in order]
    return number, len(orders), names + [99] * (room - len(names))


def do_reach(r, room, *levels):
    number, count, lent = listing(r, room, levels)
    return [number, count, "|", *lent]


def do_reach_sum(r, room, *levels):
    """For a long listing, a checksum of the lent bytes."""
    number, count, lent = listing(r, room, levels)
    total = 0
    for byte in lent:
        total = (total * 31 + byte) % 1000003
    return [number, count, total]


# Several cells to a place, document 02, request 11.

def levels_of(word):
    """The levels of a word of a reading, a letter for each cell: A is 1, and @ is 0. What is below that is no level."""
    return [ord(letter) - ord("@") for letter in word if letter >= "@"]


def arrangement(q, z, levels):
    """"An arrangement gives each of the q × z cells a level from 1 to q, each level used z times"."""
    return sorted(levels) == sorted([*range(1, q + 1)] * z)


def lowest_raise(old, new):
    """The cells of the lowest new level stay, and each of a higher one rises as far as it must, to 1 above the highest of the level below: document 000's
    modulation. "Cells only rise, by whole levels, and after it every cell of a lower new level must be strictly below every cell of a higher one", so that no raise
    has a cell lower than this one."""
    raised, below = [*old], 0
    for level in sorted({*new}):
        cells = [cell for cell in range(len(new)) if new[cell] == level]
        for cell in cells:
            raised[cell] = max(old[cell], below + 1)
        below = max(raised[cell] for cell in cells)
    return raised


def rearrange(q, z, room, old, new):
    """The number, the cost, and the lent list, each byte of which is 99 at first. "The cost is how far the highest level rises above q, and it is to be the least
    possible"; "the raised levels, each cell's new level plus the cost"."""
    sized_so = 2 <= q <= 16 and 1 <= z <= 16 and q * z <= 64
    number = lowest(size=not sized_so)
    number = number or lowest(fit=any(entries != q * z for entries in (len(old), len(new), room)))
    number = number or lowest(muddle=not (arrangement(q, z, old) and arrangement(q, z, new)))
    if number:
        return number, 0, [99] * room
    cost = max(lowest_raise(old, new)) - q
    return 0, cost, [level + cost for level in new]


def do_rearrange(q, z, room, old, new):
    number, cost, lent = rearrange(q, z, room, levels_of(old), levels_of(new))
    return [number, cost, "|", *lent]


# Symbols used unevenly, document 02, request 12. Weights are a tuple, by symbol.

def by_weight(weights):
    """"Heavier symbols get the shorter ones, the lower symbol first where weights tie": the symbols in that sequence."""
    return sorted(range(len(weights)), key=lambda s: (-weights[s], s))


def opt(n, weights):
    """Document 001's opt_i(x, m), on weights that fall: the x lightest symbols in layers i to n - 1, with at most m vertices in layer i. The sum of weight times
    length, "least among all such choices", and the lengths from short to long, which decide "among equals". None is document 001's infinity."""
    total = len(weights)

    @cache
    def opt_i(i, x, m):
        if x == 0:
            return 0, ()
        if x > m * factorial(n - i):
            return None
        if i == n - 1:
            return i * sum(weights[total - x:]), (i,) * x
        found = []
        for j in range(min(x, m) + 1):
            rest = opt_i(i + 1, x - j, min(total, (m - j) * (n - i)))
            if rest:
                found.append((rest[0] + i * sum(weights[total - x:total - x + j]), (i,) * j + rest[1]))
        return min(found)

    return opt_i


@cache
def uneven_code(n, weights):
    """The prefix of each symbol: "taken in that sequence, each symbol gets the first prefix of its length, lexicographically, that no earlier one starts"."""
    symbols = by_weight(weights)
    lengths = opt(n, [weights[s] for s in symbols])(1, len(weights), n)[1]
    code = {}
    for s, length in zip(symbols, lengths):
        earlier = {*code.values()}
        code[s] = next(prefix for prefix in permutations(range(1, n + 1), length) if not any(prefix[:k] in earlier for k in range(1, length + 1)))
    return code


def uneven_reasons(n, m, weights):
    """"An n outside 2 to 8 is size, then a weight list that hasn't m entries is fit, and an m outside 2 to 64 or above n! is value"."""
    small = 2 <= n <= 8
    return dict(size=not small, fit=len(weights) != m, value=small and not 2 <= m <= min(64, factorial(n)))


def do_prefix_uneven(s, m, n, *weights):
    reasons = uneven_reasons(n, m, weights)
    number = lowest(**{**reasons, "value": reasons["value"] or s >= m})
    found = [] if number else [*uneven_code(n, weights)[s]]
    return [number, len(found), "|", *cut(row(found))]


def uneven_levels_reasons(m, levels, weights):
    return {**uneven_reasons(len(levels), m, weights), "tie": level_reasons(levels)["tie"]}


def do_store_uneven(s, m, n, *lists):
    """How many levels there are, these, and the weights. "Storing and reading work with these as with the even code, with the least pushes"."""
    levels, weights = lists[:n], lists[n:]
    reasons = uneven_levels_reasons(m, levels, weights)
    number = lowest(**{**reasons, "value": reasons["value"] or s >= m})
    cells = [] if number else store_pushes(read(levels), [*uneven_code(n, weights)[s]])
    number = number or lowest(ceiling=over(levels, len(cells)))
    return levels_left(number, 0, levels, levels, 0) if number else levels_left(0, len(cells), levels, *push_cells(levels, cells))


def do_read_uneven(m, n, *lists):
    """"An order that starts with none of the prefixes is idle"."""
    levels, weights = lists[:n], lists[n:]
    number = lowest(**uneven_levels_reasons(m, levels, weights))
    if number:
        return [number, 0]
    found = [s for s, prefix in uneven_code(n, weights).items() if (*read(levels)[:len(prefix)],) == prefix]
    return [0, *found] if found else [REASONS["idle"], 0]
