#!/usr/bin/env python3
"""What the program `readings` must write for its `stdin`, worked out from documents 01, 02, 001 and 000 alone, by `model.py`.

What the documents print, and what was found from them by hand, is typed below as data: the model is checked against it, and `stdin` must have those readings,
before a line is written.

    python3 crates/readings/expected.py > crates/readings/stdout
"""
from itertools import combinations, combinations_with_replacement, islice, permutations, product
from math import factorial, perm
from pathlib import Path

from model import *


def do_walk(steps, every, n, *names):
    """Step by step. After each, the rank is the start's plus the steps, modulo n!, and the order of that rank is the one met."""
    order, start, agreed, lines = [*names], rank([*names]), 0, []

    def show(word, k):
        lines.extend(["\n" + word, k, ":", *record(order), ":", rank(order), successor(order)])

    for k in range(steps):
        if k % every == 0:
            show("step", k)
        order = step(order)
        expected = (start + k + 1) % factorial(n)
        agreed += rank(order) == expected and unrank(n, expected) == order
    show("agreed", agreed)
    return lines


JOBS = dict(rank=do_rank, digits=do_digits, successor=do_successor, push=do_push, run_steps=do_run_steps, unrank=do_unrank, read=do_read,
            push_level=do_push_level, count_up=do_count_up, run_levels=do_run_levels, run_calls=do_run_calls, rewrite=do_rewrite, prefix=do_prefix,
            store=do_store, read_symbol=do_read_symbol, symbols=do_symbols, write=do_write, read_bands=do_read_bands,
            read_symbol_bands=do_read_symbol_bands, reach=do_reach, reach_sum=do_reach_sum, value=do_value, of_value=do_of_value,
            prefix_uneven=do_prefix_uneven, store_uneven=do_store_uneven, read_uneven=do_read_uneven)


def answer(line):
    if line.startswith("#"):
        return line
    job, *words = line.split()
    numbers = [int(word) for word in words if word.isdigit()]
    if job == "rearrange":
        return " ".join(map(str, [line, ":", *do_rearrange(*numbers, *words[3:])]))
    if job == "walk":
        return line + " ".join(map(str, do_walk(*numbers))).replace(" \n", "\n")
    return " ".join(map(str, [line, ":", *JOBS[job](*numbers)]))


# What the documents print.

# Document 01, bench readings: ranks, next places, next orders, and digits
RANKS = {(1, 2): 0, (2, 1): 1, (1, 3, 2): 0, (2, 1, 3): 1, (3, 2, 1): 2, (2, 3, 1): 3, (1, 2, 3): 4, (3, 1, 2): 5, (1, 4, 2, 3): 0, (4, 2, 3, 1): 3,
         (1, 2, 3, 4): 10, (4, 1, 2, 3): 11, (4, 2, 1, 3): 23, (2, 5, 4, 3, 6, 1): 219, (1, 6, 4, 2, 3, 5): 0}
PLACES = {(4, 2, 3, 1): 2, (4, 1, 2, 3): 3}
NEXT = {(3, 1, 2): [1, 3, 2], (4, 2, 3, 1): [2, 4, 3, 1], (4, 2, 1, 3): [1, 4, 2, 3]}
DIGITS = {(2, 5, 4, 3, 6, 1): [3, 1, 3, 1, 0, 0]}
# .. and the numbers of jobs: 1 size, 4 tie, 5 value, 6 ceiling
NUMBERS = {"unrank 1 0": 1, "unrank 21 0": 1, "unrank 2 0": 0, "unrank 20 0": 0, "unrank 3 5": 0, "unrank 3 6": 5, "read 7 7": 4,
           "count_up 5 of 65528 65530 65529": 0, "count_up 6 of 65528 65530 65529": 6}
# Document 01, the bench sheet: each command's number and pushes, without a charge; then the levels and the rank are printed
SHEET = {"count_up 4 of 3 1 2": "0 4", "rewrite 2 bytes 3 levels 7 6 5 to 3 | 3 1 2": "0 1", "store 3 of 3 on 7 6 8": "5 0"}
SHEET_LEVELS, SHEET_RANK = [7, 6, 8], 5
# Document 01, bench readings: pushes of a rewrite, prefix lengths of n = 4 by m, and a prefix with its number
REWRITE = ([1, 2, 3, 4, 5], [5, 2, 1, 3, 4], [2, 5])
LENGTHS = {4: 1, 5: 2, 12: 2, 13: 3}
PREFIX, PREFIX_NUMBER = [3, 1], 6
# Document 02, request 1: an order on which symbol 6 of 12 needs no push
STANDING = [3, 1, 2, 4]
# Document 02, request 2: document 01's sheet, held, and its bytes; held sheets that a sentence of the request sends back, with the number
HELD = "1 | 3 3 1 2 | 3 | 1 0 4 | 2 0 3 3 3 1 2 | 3 0 3 3"
HELD_BYTES = "1 3 3 0 1 0 2 0 3 0 1 0 4 0 0 0 2 0 3 1 2 3 0 3 0 0 0 0 0 0 0 3 0 0 0 0 0 0 0"
UNWRITTEN = {"write 9 | 65": 8, "write 9 | 1 | 21 1 2 3 4 5 6 7 8 9 10 11 12 13 14 15 16 17 18 19 20 | 0": 1, "write 9 | 1 | 2 7 7 | 0": 4,
             "write 12 | 1 | 3 3 1 2 | 1001": 8, "write 20 | 1 | 2 7 9 | 1 | 1 1 4": 8, "write 20 | 1 | 3 3 1 2 | 1 | 2 0 2 2 2 1": 2,
             "write 20 | 1 | 3 3 1 2 | 1 | 2 0 3 4 3 1 2 1": 3, "write 20 | 1 | 3 3 1 2 | 1 | 2 0 2 4 2 1 0 1": 2, "write 0 | 1 | 2 0 65535 | 0": 9,
             "write 0 | 1 | 2 7 7 | 0": 4}
# Document 02, request 3: charges by hand, jump by jump. Document 01's sheet, and its count up push by push; each place; 0 to 65,535; none; several pushes
CHARGES = {"count_up 4 of 3 1 2": 3 + 3 + 2 + 4, "rewrite 2 bytes 3 levels 7 6 5 to 3 | 3 1 2": 3, "store 3 of 3 on 7 6 8": 0, "push_level 3 of 3 1 2": 3,
           "push_level 3 of 3 4 2": 3, "push_level 2 of 3 4 5": 2, "push_level 3 of 3 6 5": 4, "push_level 2 of 4 3 2 1": 2, "push_level 3 of 4 3 2 1": 3,
           "push_level 4 of 4 3 2 1": 4, "push_level 2 of 100 400 200 300": 101, "push_level 3 of 100 400 200 401": 202, "push_level 4 of 100 400 402 401": 303,
           "push_level 2 of 0 65534": 65535, "count_up 1 of 0 65534": 65535, "rewrite 1 bytes 2 levels 0 65534 to 2 | 1 2": 65535,
           "store 0 of 2 on 0 65534": 65535, "push_level 2 of 0 65535": 0, "count_up 0 of 3 1 2": 0, "store 6 of 12 on 3 2 4 1": 0, "run_levels 0 of 4 2 1 3": 0,
           "run_calls 2 bytes 0 calls on 3 1 2": 0, "rewrite 6 bytes 5 levels 50 40 30 20 10 to 5 | 5 2 1 3 4": 11 + 42, "store 18 of 60 on 4 5 2 3 1": 3 + 2,
           "store 18 of 60 on 2 4 1 3 5": 4 + 4 + 4, "run_levels 4 of 0 65000 9": 65001 + 64993 + 2 + 4}
# .. and by argument: k steps from levels without a gap to such levels spend n times k, as these are the n up to the top, which rises by k
NAMES = "1 2 3 4 5 6 7 8 9 10 11 12 13 14 15 16 17 18 19 20"
CHARGES |= {"count_up 5 of 65528 65530 65529": 3 * 5, "run_levels 65534 of 1 0": 2 * 65534, "run_levels 24 of 1 2 3 4": 4 * 24,
            f"run_levels 1000 of {NAMES}": 20 * 1000, "run_calls 4 bytes 4 calls 4 65529 1 6 on 3 1 2": 3 * 11,
            "run_calls 8 bytes 7 calls 0 3 3 2 1 0 4294967295 on 65528 65530 65529": 3 * 5}
# .. and the largest: of any job, from levels 0 to 19 to levels 65,516 to 65,535; of a rewrite and of a store, which push 19 cells
LOWEST, LOW = "0 1 2 3 4 5 6 7 8 9 10 11 12 13 14 16 17 18 19 15", "0 1 2 3 4 5 6 7 8 9 10 11 12 13 14 15 16 17 18 65516"
CHARGES |= dict.fromkeys([f"count_up 65516 of {LOWEST}", f"run_levels 65516 of {LOWEST}", f"run_calls 5 bytes 5 calls 20 65517 65496 1 0 on {LOWEST}"],
                         sum(range(65516, 65536)) - sum(range(20)))
CHARGES |= dict.fromkeys([f"rewrite 19 bytes 20 levels {LOW} to 20 | {NAMES}", f"store 0 of {factorial(20)} on {LOW}"],
                         sum(range(65517, 65536)) - sum(range(19)))
# Document 02, request 4, by hand. "Every choice has no tie and yields that same order"; bands that touch, and equal levels, which are unsure and not tie; "the same
# p cells lead in the same sequence", here [3,1], number 6, and cell 3; unsure before idle; one symbol alone; size, fit, value, each before the next
BANDS = {"read_bands 3 lowest 10 1 5 highest 12 4 9": "0 3 | 1 3 2", "read_bands 2 lowest 0 65535 highest 0 65535": "0 2 | 2 1",
         "read_bands 3 lowest 10 1 5 highest 12 4 10": "10 0 | 0", "read_bands 3 lowest 10 1 5 highest 12 5 9": "10 0 | 0",
         "read_bands 2 lowest 7 7 highest 7 7": "10 0 | 0", "read_bands 4 lowest 5 1 7 1 highest 6 4 9 4": "10 0 | 0",
         "read_symbol_bands 12 on 4 lowest 5 1 7 1 highest 6 4 9 4": "0 6", "read_symbol_bands 4 on 4 lowest 1 1 7 1 highest 6 6 9 6": "0 2",
         "read_symbol_bands 13 on 4 lowest 5 1 7 1 highest 6 4 9 4": "10 0", "read_symbol_bands 12 on 4 lowest 5 1 7 1 highest 6 5 9 4": "10 0",
         "read_symbol_bands 3 on 3 lowest 5 3 1 highest 6 4 9": "10 0", "read_symbol_bands 6 on 4 lowest 5 1 7 1 highest 6 4 9 4": "7 0",
         "read_symbol_bands 7 on 4 lowest 5 1 7 1 highest 6 4 9 4": "0 6", "read_symbol_bands 5 on 4 lowest 5 1 7 1 highest 6 5 9 4": "10 0",
         "read_symbol_bands 1 on 2 lowest 7 7 highest 7 7": "0 0", "read_bands 1 lowest 5 highest 5 6": "1 0 | 0", "read_bands 2 lowest 5 7 highest 4": "2 0 | 0",
         "read_symbol_bands 0 on 2 lowest 5 7 highest 4 6 9": "2 0", "read_bands 3 lowest 5 5 7 highest 6 6 6": "5 0 | 0",
         "read_symbol_bands 5 on 4 lowest 5 1 7 2 highest 6 4 9 1": "5 0", "read_symbol_bands 3 on 2 lowest 7 7 highest 7 7": "5 0"}

# Document 02, request 6, by hand. From [1,2], [2,1], [1,3,2] and [1,2,3,4], "fewest pushes [..] first, then lexicographic sequence"; bytes that keep their values; no
# ceiling; checksums; size, tie, value and fit, each before the next
REACH = {"reach 0 2 | 2 1": "0 1 | 1 2", "reach 1 4 | 2 1": "0 2 | 1 2 2 1", "reach 1 4 | 1 2": "0 2 | 2 1 1 2", "reach 0 3 | 3 1 2": "0 1 | 1 3 2",
         "reach 1 9 | 3 1 2": "0 3 | 1 3 2 2 1 3 3 1 2", "reach 2 18 | 3 1 2": "0 6 | 1 3 2 2 1 3 3 1 2 1 2 3 2 3 1 3 2 1",
         "reach 1 16 | 4 3 2 1": "0 4 | 1 2 3 4 2 1 3 4 3 1 2 4 4 1 2 3",
         "reach 2 48 | 4 3 2 1": "0 12 | 1 2 3 4 2 1 3 4 3 1 2 4 4 1 2 3 1 3 2 4 1 4 2 3 2 3 1 4 2 4 1 3 3 2 1 4 3 4 1 2 4 2 1 3 4 3 1 2",
         "reach 1 12 | 3 1 2": "0 3 | 1 3 2 2 1 3 3 1 2 99 99 99", "reach 1 4 | 65535 0": "0 2 | 1 2 2 1", "reach_sum 1 4 | 2 1": "0 2 31776",
         "reach_sum 1 6 | 2 1": "0 2 539814", "reach 1 0 | 5": "1 0 |", "reach 1 3 | 7 7": "4 0 | 99 99 99", "reach 2 4 | 7 7": "4 0 | 99 99 99 99",
         "reach 2 3 | 1 2": "5 0 | 99 99 99", "reach 18446744073709551615 0 | 3 2 1": "5 0 |", "reach 1 3 | 1 2": "2 0 | 99 99 99"}
# .. the bytes of the longest listings and of the shortest above 65,536, by n and r
LISTINGS = {(8, 5): 53760, (16, 3): 53760, (17, 3): 69360}

# Document 02, request 11, and document 000: its Example 2, with the order of Example 1, in which the highest level rises by 2; Example 10, "no greater" than 1; and
# section II-B's order, which stays. A letter is a level, A is 1. Then by hand: one cell to a place, up and down; the highest that there is, 31; size, fit and muddle,
# each before the next
ARRANGED = {"rearrange 3 2 6 BCABCA AABBCC": "0 2 | 3 3 4 4 5 5", "rearrange 3 2 6 ABACBC BACBAC": "0 1 | 3 2 4 3 2 4", "rearrange 2 2 4 ABAB ABAB": "0 0 | 1 2 1 2",
            "rearrange 2 1 2 AB BA": "0 1 | 3 2", "rearrange 3 1 3 CAB ABC": "0 2 | 3 4 5", "rearrange 3 1 3 ABC CAB": "0 1 | 4 2 3",
            "rearrange 16 1 16 ABCDEFGHIJKLMNOP PONMLKJIHGFEDCBA": "0 15 | 31 30 29 28 27 26 25 24 23 22 21 20 19 18 17 16",
            "rearrange 1 6 5 - @": "1 0 | 99 99 99 99 99", "rearrange 17 2 2 @ BA": "1 0 | 99 99", "rearrange 3 0 0 - -": "1 0 |", "rearrange 2 17 2 AB BA": "1 0 | 99 99",
            "rearrange 13 5 1 AB BA": "1 0 | 99", "rearrange 9223372036854775809 2 2 AB BA": "1 0 | 99 99", "rearrange 2 1 2 A BA": "2 0 | 99 99",
            "rearrange 2 1 2 ABA BA": "2 0 | 99 99", "rearrange 2 1 2 AB B": "2 0 | 99 99", "rearrange 2 1 2 AB BAB": "2 0 | 99 99", "rearrange 2 1 1 AB BA": "2 0 | 99",
            "rearrange 2 1 3 @B BA": "2 0 | 99 99 99", "rearrange 2 1 2 @B BA": "3 0 | 99 99", "rearrange 2 1 2 AC BA": "3 0 | 99 99", "rearrange 2 1 2 AA BA": "3 0 | 99 99",
            "rearrange 2 1 2 AB B@": "3 0 | 99 99", "rearrange 2 1 2 AB CA": "3 0 | 99 99", "rearrange 2 1 2 AB BB": "3 0 | 99 99"}

# Document 02, request 12, by n and weights the prefixes of symbols 0, 1, ..: first document 001's Example 21, Fig. 4(b). By hand: three of twelve settings weekly, sum
# 3 * 52 + 7 * 2 + 2 * 3; weights that tie; among equals 1 1 1 2 2 3 3, and where 1 1 2 2 2 2 2 has a smaller sum; nine with the same sum; all equal, all 0; 2 cells; n!
FALLING, WEEKLY = (9, 8, 7, 6, 5, 4, 3, 2, 1), (1, 52, 1, 1, 1, 1, 52, 1, 1, 1, 52, 1)
CODES = {(4, FALLING): "1, 2, 3 1, 3 2, 3 4, 4 1, 4 2, 4 3 1, 4 3 2",
         (5, WEEKLY): "4 1, 1, 4 2, 4 3, 4 5, 5 1, 2, 5 2, 5 3, 5 4 1, 3, 5 4 2", (3, (2, 5, 2, 5)): "3 1, 1, 3 2, 2",
         (4, (2, 2, 2, 1, 1, 1, 1)): "1, 2, 3, 4 1, 4 2, 4 3 1, 4 3 2", (4, (3, 3, 1, 1, 1, 1, 1)): "1, 2, 3 1, 3 2, 3 4, 4 1, 4 2",
         (4, (1, 2, 1, 1, 1, 2, 1, 1, 1)): "3 1, 1, 3 2, 3 4, 4 1, 2, 4 2, 4 3 1, 4 3 2", (4, (3,) * 9): "1, 2 1, 2 3, 2 4, 3 1, 3 2, 3 4, 4 1, 4 2",
         (4, (0,) * 7): "1, 2, 3, 4 1, 4 2, 4 3 1, 4 3 2", (2, (5, 9)): "2, 1", (2, (9, 5)): "1, 2", (2, (7, 7)): "1, 2", (2, (0, 0)): "1, 2", (2, (0, 65535)): "2, 1",
         (3, (1, 2, 3, 4, 5, 6)): "3 2, 3 1, 2 3, 2 1, 1 3, 1 2", (8, (1, 2)): "2, 1"}
CODES |= dict.fromkeys([(4, (1,) * 7), (4, (65535,) * 7)], CODES[4, (3, 3, 1, 1, 1, 1, 1)])
# .. 64 symbols on 8 cells. Of the heaviest weight, or any that is equal: 54 have two cells and ten three, as 55 and the six of [8,7] would be 61. Of weight 0: 7 have
# one cell, 6 two, 5 three, 3 four, 1 five and 42 seven, each as many as leave room for the others. With four heavy ones at the end, these come first
HEAVY, LIGHT, LAST_HEAVY = ("65535 " * 64).strip(), ("0 " * 64).strip(), "0 " * 60 + "65535 65535 65535 65535"
UNEVEN = {f"prefix_uneven 0 of 64 on 8 by {HEAVY}": "0 2 | 1 2", f"prefix_uneven 8 of 64 on 8 by {HEAVY}": "0 2 | 2 3",
          f"prefix_uneven 63 of 64 on 8 by {HEAVY}": "0 3 | 8 7 4", f"read_uneven 64 on 8 levels 1 2 3 4 5 6 7 8 by {HEAVY}": "7 0",
          f"prefix_uneven 7 of 64 on 8 by {LIGHT}": "0 2 | 8 1", f"prefix_uneven 22 of 64 on 8 by {LIGHT}": "0 7 | 8 7 6 4 2 1 3",
          f"prefix_uneven 63 of 64 on 8 by {LIGHT}": "0 7 | 8 7 6 5 4 3 2", f"prefix_uneven 0 of 64 on 8 by {LAST_HEAVY}": "0 1 | 5",
          f"prefix_uneven 17 of 64 on 8 by {LAST_HEAVY}": "0 5 | 8 7 6 4 1", f"prefix_uneven 63 of 64 on 8 by {LAST_HEAVY}": "0 1 | 4"}
# .. on levels. Example 21: symbol 8 from [1,2,3,4], "shift cells 3, 4 to the top", and [4,3,1,2] is left. By hand: none, one and three pushes; a prefix that stands, at
# the cap too, and in part; to the cap and past it; the two idle orders of twelve symbols, beside one with a prefix, and of two symbols on 3 cells
BY_9, BY_12 = "by 9 8 7 6 5 4 3 2 1", "by 1 52 1 1 1 1 52 1 1 1 52 1"
UNEVEN |= {f"store_uneven 7 of 9 on 4 levels 4 3 2 1 {BY_9}": "0 2 8 | 4 3 5 6", f"read_uneven 9 on 4 levels 4 3 5 6 {BY_9}": "0 7",
           f"store_uneven 1 of 12 on 5 levels 50 40 30 20 10 {BY_12}": "0 0 0 | 50 40 30 20 10",
           f"store_uneven 6 of 12 on 5 levels 50 40 30 20 10 {BY_12}": "0 1 11 | 50 51 30 20 10",
           f"store_uneven 11 of 12 on 5 levels 50 40 30 20 10 {BY_12}": "0 3 86 | 50 51 30 52 53",
           f"store_uneven 7 of 9 on 4 levels 9 4 65534 65535 {BY_9}": "0 0 0 | 9 4 65534 65535", f"store_uneven 7 of 9 on 4 levels 2 1 4 3 {BY_9}": "0 1 2 | 2 1 4 5",
           f"store_uneven 7 of 9 on 4 levels 65533 3 2 1 {BY_9}": "0 2 131066 | 65533 3 65534 65535",
           f"store_uneven 7 of 9 on 4 levels 65534 3 2 1 {BY_9}": "6 0 0 | 65534 3 2 1", "store_uneven 0 of 2 on 2 levels 0 65534 by 9 5": "0 1 65535 | 65535 65534",
           "store_uneven 0 of 2 on 2 levels 0 65535 by 9 5": "6 0 0 | 0 65535", f"read_uneven 12 on 5 levels 2 1 3 4 5 {BY_12}": "7 0",
           f"read_uneven 12 on 5 levels 1 2 3 4 5 {BY_12}": "7 0", f"read_uneven 12 on 5 levels 1 3 2 4 5 {BY_12}": "0 11",
           "read_uneven 2 on 3 levels 2 1 3 by 4 4": "7 0", "read_uneven 2 on 3 levels 1 3 2 by 4 4": "0 1"}
# .. sent back: size, fit, tie, value, each before the next, and tie before idle
UNEVEN |= {"prefix_uneven 0 of 2 on 1 by 5 9": "1 0 | 0", "prefix_uneven 0 of 2 on 9 by 5 9": "1 0 | 0", "prefix_uneven 0 of 3 on 1 by 5 9": "1 0 | 0",
           "prefix_uneven 2 of 2 on 9 by 5 9": "1 0 | 0", "store_uneven 0 of 3 on 1 levels 4 by 5 9": "1 0 0 | 4",
           "store_uneven 0 of 2 on 9 levels 9 8 7 6 5 4 3 2 2 by 5 9": "1 0 0 | 9 8 7 6 5 4 3 2 2", "read_uneven 2 on 0 levels by 5 9": "1 0",
           "read_uneven 2 on 9 levels 9 8 7 6 5 4 3 2 1 by 5 9": "1 0", "prefix_uneven 0 of 3 on 3 by 5 9": "2 0 | 0", "prefix_uneven 0 of 3 on 3 by 5 9 1 1": "2 0 | 0",
           "prefix_uneven 0 of 7 on 3 by 5 9": "2 0 | 0", "store_uneven 0 of 3 on 3 levels 3 2 2 by 5 9": "2 0 0 | 3 2 2",
           "store_uneven 1 of 3 on 3 levels 65535 2 1 by 5 9": "2 0 0 | 65535 2 1", "read_uneven 3 on 3 levels 3 2 2 by 5 9": "2 0",
           "read_uneven 1 on 3 levels 3 2 1 by 5 9": "2 0", "store_uneven 0 of 1 on 2 levels 7 7 by 5": "4 0 0 | 7 7",
           f"store_uneven 9 of 9 on 4 levels 9 3 3 1 {BY_9}": "4 0 0 | 9 3 3 1", f"read_uneven 9 on 4 levels 9 3 3 1 {BY_9}": "4 0",
           "read_uneven 3 on 2 levels 7 7 by 1 2 3": "4 0", "read_uneven 2 on 3 levels 1 1 9 by 4 4": "4 0", "prefix_uneven 0 of 1 on 3 by 5": "5 0 | 0",
           "prefix_uneven 0 of 3 on 2 by 5 9 1": "5 0 | 0", f"prefix_uneven 0 of 65 on 8 by{' 1' * 65}": "5 0 | 0", "prefix_uneven 2 of 2 on 3 by 5 9": "5 0 | 0",
           "store_uneven 0 of 0 on 3 levels 3 2 1 by": "5 0 0 | 3 2 1", "store_uneven 2 of 2 on 3 levels 65535 2 1 by 5 9": "5 0 0 | 65535 2 1",
           "read_uneven 1 on 3 levels 1 2 3 by 4": "5 0", "read_uneven 3 on 2 levels 2 1 by 5 9 1": "5 0"}

# Document 02, request 7: the orders that it prints, with their values on the old and on the new zero; "the longest sheet becomes 24,692 bytes"
VALUES = {(1, 2, 3, 4): (10, 0), (1, 3, 2): (0, 2)}
LONGEST = 24692
# .. by hand, from document 01's readings. Its ranks 0 to 5 of 3 cells, on the new zero, as [1,2,3] has rank 4; of 4 cells, as [1,2,3,4] has 10; of 2 cells, as [1,2]
# has 0; size, muddle, value, each before the next; the values that are past the last
VALUED = {"value 1 3 | 1 3 2": "0 2", "value 1 3 | 2 1 3": "0 3", "value 1 3 | 3 2 1": "0 4", "value 1 3 | 2 3 1": "0 5", "value 1 3 | 1 2 3": "0 0",
          "value 1 3 | 3 1 2": "0 1", "of_value 1 3 0": "0 3 | 1 2 3", "of_value 1 3 1": "0 3 | 3 1 2", "of_value 1 3 2": "0 3 | 1 3 2",
          "of_value 1 3 5": "0 3 | 2 3 1", "value 1 4 | 1 4 2 3": "0 14", "value 1 4 | 4 1 2 3": "0 1", "value 1 4 | 4 2 1 3": "0 13",
          "of_value 1 4 1": "0 4 | 4 1 2 3", "of_value 1 4 13": "0 4 | 4 2 1 3", "of_value 1 4 14": "0 4 | 1 4 2 3", "value 0 2 | 2 1": "0 1",
          "value 1 2 | 2 1": "0 1", "of_value 1 2 1": "0 2 | 2 1", "value 1 1 | 1": "1 0", "value 2 1 | 1": "1 0", "value 1 3 | 1 3 3": "3 0",
          "value 2 3 | 1 3 3": "3 0", "value 2 3 | 1 3 2": "5 0", "value 255 3 | 1 3 2": "5 0", "of_value 0 3 6": "5 0 | 0", "of_value 1 3 6": "5 0 | 0",
          "of_value 1 1 1": "1 0 | 0", "of_value 2 3 0": "5 0 | 0", "of_value 255 21 18446744073709551615": "1 0 | 0",
          f"of_value 1 20 {factorial(20)}": "5 0 | 0"}
# .. document 01's sheet on the new zero: the section has a count, 1, and the number 0. Two groups of three, and none; paper, that lacks bytes of the section alone
ZEROED = {f"write 41 | {HELD} | 1": f"0 41 | {HELD_BYTES} 1 0", f"write 40 | {HELD} | 1": "9 0 |" + " 9" * 40, f"write 39 | {HELD} | 1": "9 0 |" + " 9" * 39,
          "write 26 | 3 | 2 7 9 | 3 3 1 2 | 2 9 7 | 0 | 1 0 1": "0 23 | 3 2 7 0 9 0 3 3 0 1 0 2 0 2 9 0 7 0 0 0 2 0 2 9 9 9",
          "write 26 | 3 | 2 7 9 | 3 3 1 2 | 2 9 7 | 0 | 0 0 0": "0 20 | 3 2 7 0 9 0 3 3 0 1 0 2 0 2 9 0 7 0 0 0 9 9 9 9 9 9"}

# Document 02, request 8: kind 4 in bytes, "with a group byte and nothing more". Document 01's sheet with a change, and paper; two groups, of which the second is on the
# new zero, with three changes; a group number past the last
HELD_CHANGED = "1 | 3 3 1 2 | 4 | 1 0 4 | 4 0 | 2 0 3 3 3 1 2 | 3 0 3 3"
CHANGED = {f"write 41 | {HELD_CHANGED}": "0 41 | 1 3 3 0 1 0 2 0 4 0 1 0 4 0 0 0 4 0 2 0 3 1 2 3 0 3 0 0 0 0 0 0 0 3 0 0 0 0 0 0 0",
           f"write 40 | {HELD_CHANGED}": "9 0 |" + " 9" * 40,
           "write 40 | 2 | 2 7 9 | 3 3 1 2 | 5 | 4 1 | 1 0 5 | 2 1 3 3 2 1 3 | 4 1 | 4 0 | 0 1":
               "0 34 | 2 2 7 0 9 0 3 3 0 1 0 2 0 5 0 4 1 1 0 5 0 0 0 2 1 2 1 3 4 1 4 0 1 1 9 9 9 9 9 9",
           "write 30 | 2 | 2 7 9 | 3 3 1 2 | 2 | 4 1 | 4 2": "8 0 |" + " 9" * 30, "write 0 | 1 | 2 7 9 | 1 | 4 1": "8 0 |"}

# Document 02, request 9, by hand: after the number the place, the tests, and the size of the group at which the answer fell. Document 01's starred orders: 2 cells
# have no test; of 3 cells the one test decides; [4,2,3,1] shrinks to [1,3,2], where 3 is not on top, [4,1,2,3] to [3,2,1] and [4,2,1,3] to [3,1,2], where it is
TESTED = {"successor 2 | 1 2": "0 2 0 2", "successor 2 | 2 1": "0 2 0 2", "successor 3 | 1 3 2": "0 3 1 3", "successor 3 | 2 1 3": "0 3 1 3",
          "successor 3 | 3 2 1": "0 2 1 2", "successor 3 | 2 3 1": "0 3 1 3", "successor 3 | 1 2 3": "0 3 1 3", "successor 3 | 3 1 2": "0 2 1 2",
          "successor 4 | 1 4 2 3": "0 4 1 4", "successor 4 | 4 2 3 1": "0 2 2 3", "successor 4 | 1 2 3 4": "0 4 1 4", "successor 4 | 4 1 2 3": "0 3 2 2",
          "successor 4 | 4 2 1 3": "0 3 2 2", "successor 6 | 2 5 4 3 6 1": "0 6 1 6", "successor 6 | 1 6 4 2 3 5": "0 6 1 6"}
# .. 5 cells, each size: 5 not on top; then [3,4,2,1]; [4,1,3,2] and [2,3,1]; [4,1,2,3] and [3,2,1]
TESTED |= {"successor 5 | 4 5 1 2 3": "0 5 1 5", "successor 5 | 5 1 2 4 3": "0 2 2 4", "successor 5 | 5 2 3 1 4": "0 4 3 3", "successor 5 | 5 3 2 1 4": "0 3 3 2"}
# .. the tops of shrunken groups are places 1, n, 2, n-1, .. by turns. 20 cells, with 20, 19, .. there: none, 20 alone, down to 12, to 5, to 4, to 3; then 19 cells,
# all there. The place is n + 1 less the former one, from the size up: of 11 it goes 11, 2, 12, 3, 13, 4, 14, 5, 15, 6
TESTED |= {f"successor 20 | {NAMES}": "0 20 1 20", "successor 20 | 20 19 18 17 16 15 14 13 12 11 10 9 8 7 6 5 4 3 2 1": "0 2 2 19",
           "successor 20 | 20 18 16 14 12 11 10 9 8 7 6 5 4 3 2 1 13 15 17 19": "0 6 10 11",
           "successor 20 | 20 18 16 14 12 10 8 6 1 2 3 4 5 7 9 11 13 15 17 19": "0 12 17 4",
           "successor 20 | 20 18 16 14 12 10 8 6 4 3 2 1 5 7 9 11 13 15 17 19": "0 10 18 3",
           "successor 20 | 20 18 16 14 12 10 8 6 4 2 1 3 5 7 9 11 13 15 17 19": "0 11 18 2",
           "successor 19 | 19 17 15 13 11 9 7 5 3 1 2 4 6 8 10 12 14 16 18": "0 10 17 2"}
# .. sent back: size, also of a row that is no order, and muddle, also where cell n seems on top
TESTED |= {"successor 0 | 0": "1 0 0 0", "successor 1 | 1": "1 0 0 0", f"successor 21 | {NAMES}": "1 0 0 0", "successor 1 | 2 2": "1 0 0 0",
           "successor 4 | 1 2 2 4": "3 0 0 0", "successor 4 | 1 2 3 4 5": "3 0 0 0", "successor 4 | 0": "3 0 0 0",
           "successor 2 | 2 1 0 0 0 0 0 0 0 0 0 0 0 0 0 0 0 0 0 1": "3 0 0 0"}
# .. "summed over a whole round of n! steps from any order [..]: 6 for three cells, 30 for four"; and by hand the next, with 5!, 6! and 7! more
ROUNDS = {2: 0, 3: 6, 4: 30, 5: 150, 6: 870, 7: 5910}
# .. parts of a round, by the digits of the ranks met: a group is tested where all digits before its own are the last ones. From rank 0 of 4 cells, ranks 3 and 7
# have two tests. [1,2,..,20] has digits 18,18,16,16,14,..: of 1,000 steps 50 have the last b0, 19; of these 3 the last b1, 18; of these 1 the last b2, 17, and there
# b3 is still 16, its last, and b4 is not
RUNS = {"run_steps 0 of 4 | 1 4 2 3": 0, "run_steps 10 of 4 | 1 4 2 3": 12, "run_steps 1 of 2 | 2 1": 0, f"run_steps 1 of 20 | {NAMES}": 1,
        f"run_steps 1000 of 20 | {NAMES}": 1000 + 50 + 3 + 1 + 1, "run_steps 0 of 1 | 1": 0, "run_steps 1 of 1 | 1": 0, "run_steps 1 of 4 | 1 2 2 4": 0}
# .. request 10, by hand: n!/(n-i)! of 1, 4 and 6 cells, as far as they are not 0; and of document 01's [2,5,4,3,6,1] each digit times its weight
WEIGHTS = {1: [1, 1], 4: [1, 4, 12, 24, 24], 6: [1, 6, 30, 120, 360, 720, 720]}
TERMS = {(2, 5, 4, 3, 6, 1): [3 * 1, 1 * 6, 3 * 30, 1 * 120, 0 * 360, 0 * 720]}

# Document 001. The text at hand has no pictures: of Example 1 it has the places, of Example 9 and Fig. 2 what is said of them, of the levels in Fig. 3 no numbers.
EXAMPLE_1 = [2, 3, 3, 2, 3, 3]
# Example 5: the columns of the first block of C' and those of C''; of the second block the second row; the last rows of the second and the third
BLOCK_1 = [[1, 2, 3, 4], [3, 1, 2, 4], [2, 3, 1, 4], [3, 2, 1, 4], [1, 3, 2, 4], [2, 1, 3, 4]]
BLOCK_C = [[4, 1, 3, 2], [1, 4, 3, 2], [3, 1, 4, 2], [4, 3, 1, 2], [3, 4, 1, 2], [1, 3, 4, 2]]
SECOND_ROW, LAST_ROWS = [2, 4, 1, 2, 1, 4], [3] * 6 + [1] * 6
# Example 9: the balanced code of 4 cells; "the permutation [1,4,2,3] has rank 0"
FIRST = [1, 4, 2, 3]
# Example 11: the permutation and its residual ones, each with the digit that is read from it
EXAMPLE_11 = [([2, 5, 4, 3, 6, 1], 3), ([3, 4, 5, 2, 1], 1), ([4, 3, 1, 2], 3), ([2, 1, 3], 1), ([1, 2], 0)]
# Definition 13: the cost of changing one permutation into another
COSTS = [([1, 2, 3], [2, 1, 3], 1), ([1, 2, 3], [3, 2, 1], 2)]
# Example 20: three symbols of n = 3, each with the permutations that are read as it
EXAMPLE_20 = {1: ([1, 2, 3], [1, 3, 2]), 2: ([2, 1, 3], [2, 3, 1]), 3: ([3, 1, 2], [3, 2, 1])}


def pushes(order, places):
    """The orders that pushes at these places lead through, and the lines of the input that push so."""
    met = [order]
    for i in places:
        met.append(push(met[-1], i))
    return met, [" ".join(map(str, ["push", i, "of", *record(order)])) for order, i in zip(met, places)]


def cycle(order):
    """The orders from this one until it returns."""
    met = [order]
    while step(met[-1]) != order:
        met.append(step(met[-1]))
    return met


def rank_zero(n):
    """[1, n, n-2, n-4, ..., n-3, n-1]"""
    return [1, *range(n, 1, -2), *[*range(n - 1, 1, -2)][::-1]]


def costs(order):
    """The least number of pushes to each order, found by trying all rows of pushes, the shorter ones first."""
    found, last = {tuple(order): 0}, [order]
    for cost in range(1, len(order)):
        last = [push(met, i) for met in last for i in range(2, len(order) + 1)]
        for after in last:
            found.setdefault(tuple(after), cost)
    return found


def gapless(order):
    """Levels n to 1 along the order."""
    return [len(order) - order.index(c) for c in range(1, len(order) + 1)]


def rewrites(order, target):
    """A line of the input that rewrites levels of this order without a gap, in as many bytes as a rewrite may need."""
    return " ".join(map(str, ["rewrite", len(order) - 1, "bytes", len(order), "levels", *gapless(order), "to", *record(target)]))


def on(job, order):
    return " ".join(map(str, [job, *record([*order])]))


def check_document_01(lines):
    for order, r in RANKS.items():
        assert rank([*order]) == r and unrank(len(order), r) == [*order]
        assert {on("rank", order), f"unrank {len(order)} {r}"} <= lines
    for order, i in PLACES.items():
        assert successor([*order]) == i and on("successor", order) in lines
    for order, after in NEXT.items():
        assert step([*order]) == after and on(f"push {successor([*order])} of", order) in lines
    for order, row in DIGITS.items():
        assert digits([*order]) == row and on("digits", order) in lines
    for line, number in NUMBERS.items():
        assert answer(line).split(" : ")[1].split()[0] == str(number) and line in lines
    for line, printed in SHEET.items():
        assert answer(line).split(" : ")[1].split()[:2] == printed.split() and line in lines
    assert count_up([3, 1, 2], 4)[0] == [7, 6, 5] and push_cells([7, 6, 5], rewrite_pushes(read([7, 6, 5]), [3, 1, 2]))[0] == SHEET_LEVELS
    assert rank(read(SHEET_LEVELS)) == SHEET_RANK and on("rank", read(SHEET_LEVELS)) in lines
    start, target, cells = REWRITE
    assert rewrite_pushes(start, target) == cells and "rewrite 6 bytes 5 levels 50 40 30 20 10 to 5 | 5 2 1 3 4" in lines
    for m, p in LENGTHS.items():
        assert prefix_length(4, m) == p and f"prefix {m - 1} of {m} on 4" in lines
    assert [*permutations(range(1, 5), 2)][PREFIX_NUMBER] == (*PREFIX,) and symbol_prefix(4, 12, PREFIX_NUMBER) == PREFIX
    assert symbol_of(12, PREFIX + [2, 4]) == PREFIX_NUMBER and {"prefix 6 of 12 on 4", "read_symbol 12 on 3 2 4 1"} <= lines


def check_symbols(lines):
    # prefixes are numbered in lexicographic sequence; what was stored is read, and the prefix leads, the other cells in their old sequence
    for n in range(2, 7):
        for p in range(n + 1):
            all_prefixes = [[*prefix] for prefix in permutations(range(1, n + 1), p)]
            assert all_prefixes == [prefix_at([*range(1, n + 1)], p, s) for s in range(perm(n, p))]
            assert all(prefix_number([*range(1, n + 1)], prefix) == s for s, prefix in enumerate(all_prefixes))
    for p in range(21):
        for s, prefix in enumerate(islice(permutations(range(1, 21), p), 1000)):
            assert prefix_at([*range(1, 21)], p, s) == [*prefix] and prefix_number([*range(1, 21)], [*prefix]) == s
    for m in (1, 4, 5, 12, 13, 24):
        for order in permutations([1, 2, 3, 4]):
            levels = gapless([*order])
            assert " ".join(map(str, ["symbols", m, "on", *levels])) in lines
            for s in range(m):
                prefix = symbol_prefix(4, m, s)
                after = read(push_cells(levels, store_pushes([*order], prefix))[0])
                assert after == prefix + [c for c in order if c not in prefix] and symbol_of(m, after) == s


def check_stores(lines):
    # document 02, request 1: the setting that stands, and at the cap too
    for levels in (gapless(STANDING), [9, 4, 65535, 0]):
        assert read(levels) == STANDING and do_store(PREFIX_NUMBER, 12, *levels) == [0, 0, 0, "|", *levels]
        assert " ".join(map(str, ["store 6 of 12 on", *levels])) in lines
    # "no shorter row of pushes reaches any order with that prefix"; the prefixes of every code are among these
    for n in range(2, 5):
        for order in permutations(range(1, n + 1)):
            found = costs([*order])
            for prefix in (prefix for p in range(n + 1) for prefix in permutations(range(1, n + 1), p)):
                cells = store_pushes([*order], [*prefix])
                assert len(cells) == min(cost for after, cost in found.items() if after[:len(prefix)] == prefix)
                assert read(push_cells(gapless([*order]), cells)[0]) == [*prefix] + [c for c in order if c not in prefix]
                assert (cells == []) == (order[:len(prefix)] == prefix)


def check_document_001(lines):
    # Example 1: "a Gray code regardless of the choice of the first column"; from rank 5 on document 01's steps push at these places
    for first in permutations([1, 2, 3]):
        met, _ = pushes([*first], EXAMPLE_1)
        assert met[6] == met[0] and len({*map(tuple, met)}) == 6
    assert {*pushes([1, 2, 3], EXAMPLE_1)[1], on("walk 6 by 1 of", (3, 1, 2))} <= lines
    assert [successor(order) for order in cycle([3, 1, 2])] == EXAMPLE_1

    # Example 5: "rotate the sequence", for each block of C'; C'' by the original one; a push at place 4 between blocks
    rotated = EXAMPLE_1[1:]
    met, run = pushes(BLOCK_1[0], rotated[:4] + [4] + EXAMPLE_1[:5] + [4, 4] + rotated + [4] + rotated + [4])
    assert met[24] == met[0] and len({*map(tuple, met)}) == 24 and {*run} <= lines
    assert met[:5] + [met[11]] == BLOCK_1 and met[5:11] == BLOCK_C
    assert [order[1] for order in met[12:18]] == SECOND_ROW and [order[3] for order in met[12:24]] == LAST_ROWS

    # Example 9: "each row is an orbit generated by t_n"; the exits, "after dropping the 4 at the top and turning them upside down, form a 3-RMGC"
    # that is "equivalent to the code from Example 1, up to a rotation"
    met = cycle(FIRST)
    assert len(met) == 24 and rank(FIRST) == 0 and on("walk 24 by 1 of", FIRST) in lines
    assert all(met[k + 1] == push(met[k], 4) for k in range(24) if k % 4 < 3) and all((met[k][0] == 4) == (k % 4 == 3) for k in range(24))
    exits = [order[:0:-1] for order in met if order[0] == 4]
    assert exits == cycle(exits[0]) and len(exits) == 6 and [successor(order) for order in exits] == rotated + EXAMPLE_1[:1]
    assert all(on(job, order) in lines for order in exits for job in ("rank", "successor"))

    # the levels over that cycle, from levels without a gap whose order is its first
    levels = [4, 2, 1, 3]
    assert read(levels) == FIRST
    for _ in met:
        assert " ".join(map(str, ["count_up 1 of", *levels])) in lines
        levels = count_up(levels, 1)[0]
    assert read(levels) == FIRST and " ".join(map(str, ["read", *levels])) in lines

    # Example 11
    assert digits(EXAMPLE_11[0][0]) == [d for _, d in EXAMPLE_11] + [0] and all(digit(order) == d for order, d in EXAMPLE_11)
    assert [remaining(order) for order, _ in EXAMPLE_11[:-1]] == [order for order, _ in EXAMPLE_11[1:]]
    assert all(on(job, order) in lines for order, _ in EXAMPLE_11 for job in ("digits", "rank"))

    # Definition 13, and Lemma 15: n!/(n-r)! permutations are within r pushes
    for start, target, cost in COSTS:
        assert costs(start)[tuple(target)] == cost == rewrite_count(start, target) and rewrites(start, target) in lines
    for n in range(2, 6):
        found = costs([*range(1, n + 1)])
        assert len(found) == factorial(n) and all(rewrite_count([*range(1, n + 1)], [*target]) == cost for target, cost in found.items())
        assert all(sum(cost <= r for cost in found.values()) == factorial(n) // factorial(n - r) for r in range(n))
    assert all(rewrites([1, 2, 3, 4], [*target]) in lines for target in permutations([1, 2, 3, 4]))

    # Example 20: "The cost of any rewrite operation is at most 1."
    assert prefix_length(3, 3) == 1
    for symbol, orders in EXAMPLE_20.items():
        for order in orders:
            assert symbol_of(3, order) == symbol - 1 and " ".join(map(str, ["read_symbol 3 on", *gapless(order)])) in lines
            assert all(len(store_pushes(order, symbol_prefix(3, 3, s))) <= 1 for s in range(3))
            assert " ".join(map(str, ["symbols 3 on", *gapless(order)])) in lines

    # Section III-C: the order of rank 0. And for few cells, that ranks, orders and steps are one to one
    for n in range(2, 21):
        assert unrank(n, 0) == rank_zero(n) and {f"unrank {n} 0", on("rank", rank_zero(n))} <= lines
    for n in range(2, 7):
        orders = [[*order] for order in permutations(range(1, n + 1))]
        assert sorted(map(rank, orders)) == [*range(factorial(n))]
        assert all(unrank(n, rank(order)) == order and rank(step(order)) == (rank(order) + 1) % factorial(n) for order in orders)


def check_writing(lines):
    for room in (38, 39, 45):
        expected = f"0 39 | {HELD_BYTES}" + " 9" * (room - 39) if room >= 39 else "9 0 |" + " 9" * room
        assert f"write {room} | {HELD}" in lines and answer(f"write {room} | {HELD}").split(" : ")[1] == expected
    for line, number in UNWRITTEN.items():
        assert answer(line).split(" : ")[1].split(" |")[0] == f"{number} 0" and line in lines
    for line in (line for line in lines if line.startswith("write ")):
        assert int(line.split()[1]) <= 64, "what the program lends"
    group, rewrite = (20, [*range(20)]), (2, 63, 20, [*range(20)])
    longest = (64, [group] * 64, 1000, [rewrite] * 1000, [1] * 64)
    number, made = write_sheet(LONGEST, *longest)
    assert number == 0 and len(made) == LONGEST and write_sheet(LONGEST - 1, *longest) == (9, [])


def check_changes(lines):
    for line, expected in CHANGED.items():
        assert answer(line).split(" : ")[1] == expected and line in lines
    # "from the old zero, counting k after the change gives the order and levels that k without it gives; only the value differs, by the rank of [1,2,...,n] modulo n!",
    # and from the new zero nothing does: of every order of 2 to 4 cells each k of a round, and of 20 cells some
    starts = [gapless([*order]) for n in range(2, 5) for order in permutations(range(1, n + 1))] + [[7 * cell % 23 * 100 for cell in range(20)]]
    for levels in starts:
        n = len(levels)
        for zero, k in product((0, 1), range(min(factorial(n), 50) + 1)):
            changed, (number, pushes, charge, _, *left) = do_change_zero(zero, *levels)
            after, without = count_up(left, k)[0], count_up(levels, k)[0]
            assert (changed, number, pushes, charge) == (1, 0, 0, 0) and after == without
            assert (value_on(zero, read(without)) - value_on(changed, read(after)) - (0 if zero else rank([*range(1, n + 1)]))) % factorial(n) == 0


def check_runs(lines):
    # from levels without a gap, top less bottom is at most n after every step and no push raises a cell by more than n + 1; in a round each cell is pushed (n-1)! times
    for n in range(2, 7):
        for order in permutations(range(1, n + 1)) if n < 6 else [range(n, 0, -1), rank_zero(n)]:
            number, k, _, widest, largest, r, _, *rest = do_run_levels(factorial(n), *gapless([*order]))
            assert number == 0 and k == factorial(n) and widest <= n and largest <= n + 1 and r == rank([*order])
            assert rest[:20] == row([factorial(n - 1)] * n) and read(rest[21:]) == [*order]
    assert {"run_levels 24 of 4 2 1 3", "run_levels 120 of 5 4 3 2 1", "run_levels 720 of 1 6 3 4 5 2"} <= lines


def check_charges(lines):
    for line, charge in CHARGES.items():
        assert answer(line).split(" : ")[1].split()[2] == str(charge) and line in lines
    # what the argument rests on: from levels without a gap, a step that brings cell n on top leaves such levels
    for n in range(2, 6):
        for order in permutations(range(1, n + 1)):
            levels, charge = gapless([*order]), 0
            for k in range(1, factorial(n) + 1):
                levels, jump = count_up(levels, 1)
                charge += jump
                assert read(levels)[0] != n or max(levels) - min(levels) == n - 1 and charge == n * k


def check_bands(lines):
    for line, expected in BANDS.items():
        assert answer(line).split(" : ")[1] == expected and line in lines
    # comparing gives what every choice gives: for 2 and 3 cells all sequences of the bands' ends, and for 4 cells all bands over 4 levels
    for n, top in ((2, 3), (3, 5), (4, 3)):
        for bands in product([(low, high) for high in range(top + 1) for low in range(high + 1)], repeat=n):
            lows, highs = zip(*bands)
            assert leaders_compared(n, lows, highs) == order_of_choices(lows, highs)
            assert all(leaders_compared(p, lows, highs) == leaders_of_choices(p, lows, highs) for p in range(n))
    # bands of one level are read as levels are, where these have no tie
    for n in range(2, 6):
        for order in permutations(range(1, n + 1)):
            levels = gapless([*order])
            assert do_read_bands(n, *levels, *levels) == do_read(*levels)
            assert all(do_read_symbol_bands(m, n, *levels, *levels) == do_read_symbol(m, *levels) for m in range(factorial(n) + 2))


def check_reach(lines):
    for line, expected in REACH.items():
        assert answer(line).split(" : ")[1] == expected and line in lines
    # of every order of 2 to 5 cells, by trying all rows of pushes, where the model passes over what it has met; "how many there are, n!/(n-r)!"; the readings have each r on these numbers of cells
    for n in range(2, 6):
        for order in permutations(range(1, n + 1)):
            found = costs([*order])
            for r in range(n):
                within = sorted((cost, after) for after, cost in found.items() if cost <= r)
                assert within_reach(gapless([*order]), r, n * len(within)) == (0, [after for _, after in within])
                assert len(within) == factorial(n) // factorial(n - r)
        assert all(" ".join(map(str, ["reach", r, n * perm(n, r), "|", *range(n, 0, -1)])) in lines for r in range(n))
    sizes = {(n, r): n * perm(n, r) for n in range(2, 21) for r in range(n)}
    assert {*LISTINGS.items()} <= {*sizes.items()} and all(size <= 53760 or size >= 69360 for size in sizes.values())
    # in every reading the orders rise by document 01's number of a rewrite and then by names, so that each is there once; that many are said
    asked = {}
    for line in (line for line in lines if line.startswith("reach")):
        r, room, *levels = [int(word) for word in line.split() if word.isdigit()]
        number, orders = within_reach(levels, r, room)
        assert room <= 65536 and len(answer(line)) < 65536, "what the program lends and writes"
        asked.setdefault((len(levels), r), set()).add(number)
        if number == 0:
            keys = [(rewrite_count(read(levels), [*order]), order) for order in orders]
            assert keys == sorted({*keys}) and keys[-1][0] == r and len(keys) * len(levels) == sizes[len(levels), r]
    assert all(asked[key] == ({5} if size > 65536 else {0, 2}) for key, size in LISTINGS.items())


def check_zeros(lines):
    for order, values in VALUES.items():
        for zero, value in enumerate(values):
            assert do_value(zero, len(order), *order) == [0, value] and do_of_value(zero, len(order), value) == [0, *record([*order])]
            assert {on(f"value {zero}", order), f"of_value {zero} {len(order)} {value}"} <= lines
    for line, expected in {**VALUED, **ZEROED}.items():
        assert answer(line).split(" : ")[1] == expected and line in lines
    # "any k steps add k to the value modulo n!, and each value [..] belongs to exactly one order", "for a zero of any order": counted by steps from the zero, which
    # lead through all orders; any k from any order is then from one value to another
    for n in range(2, 6):
        for start in permutations(range(1, n + 1)):
            met = cycle([*start])
            assert len({*map(tuple, met)}) == factorial(n) and [value_from([*start], order) for order in met] == [*range(factorial(n))]
            assert all(order_from([*start], value) == order for value, order in enumerate(met))
    # "used for these two": the readings have every order and every value of 3 cells; the zero orders of each n; and values at their ends
    for zero in (0, 1):
        assert all(on(f"value {zero}", order) in lines for order in permutations([1, 2, 3])) and {f"of_value {zero} 3 {value}" for value in range(6)} <= lines
        assert {f"of_value {zero} {n} {factorial(n)}" for n in (2, 3, 20)} | {f"of_value {zero} 20 {value}" for value in (factorial(20) - 1, 2**64 - 1)} <= lines
    for n in range(2, 21):
        rising = [*range(1, n + 1)]
        assert zero_order(n, 0) == rank_zero(n) and zero_order(n, 1) == rising and value_on(0, rising) == rank(rising)
        assert (value_on(1, rank_zero(n)) + rank(rising)) % factorial(n) == 0 and {on("value 1", rank_zero(n)), f"of_value 1 {n} 0"} <= lines
    # on levels: calls with k steps in all add k to the value
    for n in range(2, 21):
        levels, total = [7 * cell % 23 * 100 for cell in range(n)], 0
        first = [value_on(zero, read(levels)) for zero in (0, 1)]
        for k in (1, 0, 30, 200):
            levels, total = count_up(levels, k)[0], total + k
            assert [value_on(zero, read(levels)) for zero in (0, 1)] == [(value + total) % factorial(n) for value in first]


def successor_001(n, order, queries):
    """Document 001's function as printed; its steps are "the comparison in line 4", each noted by its n."""
    if n == 2:
        return 2
    queries.append(n)
    if order[0] != n:
        return n
    return n - successor_001(n - 1, order[:0:-1], queries) + 1


def tests_by_rank(n, r, k):
    """The tests of k steps from rank r on: i cells are tested where all digits before theirs are the last ones, so where the rank plus 1 is a multiple of n!/i!."""
    return sum((r + k) // perm(n, n - i) - r // perm(n, n - i) for i in range(3, n + 1))


def check_tests(lines):
    for line, expected in TESTED.items():
        assert answer(line).split(" : ")[1] == expected and line in lines
    for line, total in RUNS.items():
        assert answer(line).split(" | ")[-1] == str(total) and line in lines
    # by the words: every larger shrunken group has its largest cell on top, and this one has not or has two cells. "The tests equal those of document 001's function",
    # and over all orders, as its Theorem 10 has it, i cells are tested i! times
    for n in range(2, 7):
        asked = []
        for order in permutations(range(1, n + 1)):
            groups, queries = [[*order]], []
            while len(groups[-1]) > 2:
                groups.append(groups[-1][:0:-1])
            on_top = {len(group): group[0] == max(group) for group in groups}
            tests, size = tests_and_size([*order])
            assert all(on_top[larger] for larger in range(size + 1, n + 1)) and (size == 2 or size > 2 and not on_top[size])
            assert tests == (n - 2 if size == 2 else n + 1 - size) == tests_by_rank(n, rank([*order]), 1)
            assert successor_001(n, [*order], queries) == successor([*order]) and queries == [*range(n, n - tests, -1)]
            asked += queries
        assert all(asked.count(i) == factorial(i) for i in range(3, n + 1)) and len(asked) == ROUNDS[n]
    # "from any order", "the sum of i! for i from 3 to n": whole rounds from all orders of up to 5 cells and from some of 6 and 7. The readings have rounds of each
    for n, total in ROUNDS.items():
        assert total == sum(factorial(i) for i in range(3, n + 1))
        for order in permutations(range(1, n + 1)) if n < 6 else [range(1, n + 1), range(n, 0, -1), rank_zero(n)]:
            assert do_run_steps(factorial(n), n, *order)[-1] == total
        rounds = [answer(line) for line in lines if line.startswith(f"run_steps {factorial(n)} of {n} | ")]
        assert len(rounds) >= 2 and all(" : 0 " in line and line.endswith(f" | {total}") for line in rounds)
    # "for every n up to 20": 500 steps from orders of each n have the tests that their ranks give, and by ranks a whole round has that sum
    for n in range(2, 21):
        for order in ([*range(1, n + 1)], [*range(n, 0, -1)], unrank(n, factorial(n) - 1), unrank(n, factorial(n) // 3)):
            assert do_run_steps(500, n, *order)[-1] == tests_by_rank(n, rank(order), 500)
            assert tests_by_rank(n, rank(order), factorial(n)) == sum(factorial(i) for i in range(3, n + 1))


def check_weights(lines):
    # "The 420 weights, for n from 1 to 20 in 21 places each, with 0 past i = n", three rows of them by hand
    table = [[weight(n, i) for i in range(21)] for n in range(1, 21)]
    assert all(table[n - 1] == row + [0] * (21 - len(row)) for n, row in WEIGHTS.items()) and sum(map(len, table)) == 420
    # "it must give the same rank for all orders"
    for order, terms in TERMS.items():
        assert rank_by_weights([*order]) == sum(terms) == rank([*order]) and on("rank", order) in lines
    for n in range(1, 8):
        assert all(rank_by_weights([*order]) == rank([*order]) for order in permutations(range(1, n + 1)))
    # where every digit is its largest, in the last order, every weight counts that a rank can have: the last digit is always 0
    for n in range(2, 21):
        last = unrank(n, factorial(n) - 1)
        assert digits(last) == [*range(n - 1, -1, -1)] and rank_by_weights(last) == factorial(n) - 1 and on("rank", last) in lines


def is_raise(old, new, raised):
    """"Cells only rise [..], and after it every cell of a lower new level must be strictly below every cell of a higher one."""
    cells = range(len(old))
    return all(old[i] <= raised[i] for i in cells) and all(raised[i] < raised[j] for i in cells for j in cells if new[i] < new[j])


def check_arrangements(lines):
    for line, expected in ARRANGED.items():
        assert answer(line).split(" : ")[1] == expected and line in lines
    # all pairs of small sizes: "the largest of old level less new level over all cells"; and, up to four cells, by trying every list of levels no raise has a lower
    # highest level
    for q, z in ((2, 1), (3, 1), (4, 1), (2, 2), (3, 2)):
        arranged = sorted({*permutations([*range(1, q + 1)] * z)})
        for old, new in product(arranged, arranged):
            number, cost, raised = rearrange(q, z, q * z, old, new)
            assert number == 0 and cost == max(o - n for o, n in zip(old, new)) and is_raise(old, new, raised) and max(raised) == q + cost
            assert q * z > 4 or not any(is_raise(old, new, levels) for levels in product(range(1, q + cost), repeat=q * z))
    # with one cell to a place, the levels of an order are n for its first name to 1 for its last. The cost is the most places that a cell goes down, and no more than
    # the pushes of a rewrite, which leave a raise too
    for n in range(2, 6):
        for old, new in product([*permutations(range(1, n + 1))], repeat=2):
            before, after = ([n - order.index(cell) for cell in range(1, n + 1)] for order in (old, new))
            number, cost, _ = rearrange(n, 1, n, before, after)
            assert number == 0 and cost == max(new.index(cell) - old.index(cell) for cell in old) <= rewrite_count([*old], [*new])
    # the readings have every number, the ends of the ranges of sizes, no cost, the largest and others
    asked = {}
    for line in (line for line in lines if line.startswith("rearrange")):
        q, z, room, old, new = line.split()[1:]
        number, cost = do_rearrange(int(q), int(z), int(room), old, new)[:2]
        asked.setdefault(number, set()).add((int(q), int(z), cost))
        assert max(int(room), len(old), len(new)) <= 128, "what the program lends, and reads of a line"
    assert {*asked} == {0, 1, 2, 3} and {(2, 1), (16, 1), (16, 4), (4, 16), (2, 16)} <= {(q, z) for q, z, _ in asked[0]}
    assert {(2, 2, 0), (16, 1, 15), (16, 4, 6)} <= asked[0]


def lengths_below(n, i, most):
    """The lengths, sorted, of every choice of at most so many prefixes that start with the same i cells, "none the start of another"; of no cells, of all choices."""
    if i == n - 1:
        return {(), (i,)}
    below, found = lengths_below(n, i + 1, most), {()}
    for _ in range(n - i):
        found = {tuple(sorted(a + b)) for a in found for b in below if len(a + b) <= most}
    return found | {(i,)} if i else found


def free(prefixes):
    """"None the start of another"."""
    return not any(a == b[:len(a)] for a, b in permutations(prefixes, 2))


def check_uneven(lines):
    for (n, weights), prefixes in CODES.items():
        for s, prefix in enumerate(prefixes.split(", ")):
            line = " ".join(map(str, ["prefix_uneven", s, "of", len(weights), "on", n, "by", *weights]))
            assert answer(line).split(" : ")[1] == f"0 {len(prefix.split())} | {prefix}" and line in lines
    for line, expected in UNEVEN.items():
        assert answer(line).split(" : ")[1] == expected and line in lines
    # Example 21: "the mapping from the permutations to the information symbols". Example 22: opt_2(4, 3) of weights p_1 to p_9 that rise, and of those above "two leaves
    # in layer 1" and "five leaves in layer 2"
    for order in permutations(range(1, 5)):
        line = " ".join(map(str, ["read_uneven 9 on 4 levels", *gapless(order), BY_9]))
        leading = [s for s, prefix in enumerate(CODES[4, FALLING].split(", ")) if " ".join(map(str, order)).startswith(prefix)]
        assert answer(line).split(" : ")[1] == f"0 {one(leading)}" and line in lines
    for p in (FALLING[::-1], (0, 0, 1, 1, 2, 3, 5, 8, 13), (4,) * 9):
        assert opt(4, p[::-1])(2, 4, 3) == (3 * p[0] + 3 * p[1] + 2 * p[2] + 2 * p[3], (2, 2, 3, 3))
    assert opt(4, FALLING)(1, 9, 4)[1] == (1, 1, 2, 2, 2, 2, 2, 3, 3)
    # the choices of lengths, of 2 and 3 cells by trying every set of prefixes
    for n in (2, 3):
        prefixes = [prefix for length in range(1, n) for prefix in permutations(range(1, n + 1), length)]
        chosen = [some for m in range(factorial(n) + 1) for some in combinations(prefixes, m) if free(some)]
        assert lengths_below(n, 0, factorial(n)) == {tuple(sorted(map(len, some))) for some in chosen}
    # "least among all such choices", "among equals the lengths [..] first": by trying all choices, and for up to 5 symbols every one's length
    for n, m in ((2, 2), (3, 2), (3, 3), (3, 4), (3, 5), (3, 6), (4, 4), (4, 5), (4, 7), (4, 9), (4, 13), (4, 24), (5, 7), (5, 12)):
        chosen = [lengths for lengths in lengths_below(n, 0, m) if len(lengths) == m]
        for weights in combinations_with_replacement((3, 2, 1, 0), m):
            sums = {lengths: sum(w * length for w, length in zip(weights, lengths)) for lengths in chosen}
            if m <= 5:
                assert all(sums[lengths] == min(sum(w * length for w, length in zip(weights, given)) for given in permutations(lengths)) for lengths in chosen)
            assert opt(n, weights)(1, m, n) == min((total, lengths) for lengths, total in sums.items())
    # a symbol stored is read back, with the least pushes, and an order is idle where no prefix starts it: on every order of 2 to 4 cells
    for n, weights in ((2, (5, 9)), (3, (4, 4)), (3, (2, 5, 2, 5)), (3, (1, 2, 3, 4, 5, 6)), (4, (0, 3, 1)), (4, FALLING), (4, (1, 1, 3, 1, 1, 3, 1))):
        code = uneven_code(n, weights)
        assert free(code.values())
        for order in permutations(range(1, n + 1)):
            levels, found = gapless([*order]), costs([*order])
            for s, prefix in code.items():
                number, done, _, _, *after = do_store_uneven(s, len(weights), n, *levels, *weights)
                assert number == 0 and done == min(cost for met, cost in found.items() if met[:len(prefix)] == prefix)
                assert do_read_uneven(len(weights), n, *after, *weights) == [0, s]
            idle = not any(order[:len(prefix)] == prefix for prefix in code.values())
            assert (do_read_uneven(len(weights), n, *levels, *weights) == [7, 0]) == idle
    # the readings have every number, each n, both ends of m, and what each store that is done leaves is read
    asked = {}
    for line in (line for line in lines if "_uneven " in line):
        job, *words = line.split()
        numbers = [int(word) for word in words if word.isdigit()]
        number, *rest = JOBS[job](*numbers)
        m, n = numbers[:2] if job == "read_uneven" else numbers[1:3]
        asked.setdefault((job, number), set()).add((n, m))
        if job == "store_uneven" and number == 0:
            read_back = " ".join(map(str, ["read_uneven", m, "on", n, "levels", *rest[3:], "by", *numbers[3 + n:]]))
            assert read_back in lines and answer(read_back).endswith(f" : 0 {numbers[0]}")
    gives = dict(prefix_uneven=(0, 1, 2, 5), store_uneven=(0, 1, 2, 4, 5, 6), read_uneven=(0, 1, 2, 4, 5, 7))
    assert {*asked} == {(job, number) for job, numbers in gives.items() for number in numbers}
    assert all({(2, 2), (3, 6), (4, 24), (5, 12), (6, 20), (7, 40), (8, 64)} <= asked[job, 0] for job in gives)


text = Path(__file__).with_name("stdin").read_text()
assert len(text) <= 131072, "what the program reads"
lines = text.splitlines()
assert all(sum(word.isdigit() for word in line.split()) <= 128 for line in lines), "what the program keeps of a line"
check_document_01({*lines})
check_document_001({*lines})
check_symbols({*lines})
check_stores({*lines})
check_writing({*lines})
check_changes({*lines})
check_runs({*lines})
check_charges({*lines})
check_bands({*lines})
check_reach({*lines})
check_zeros({*lines})
check_tests({*lines})
check_weights({*lines})
check_arrangements({*lines})
check_uneven({*lines})
for line in lines:
    print(answer(line))
