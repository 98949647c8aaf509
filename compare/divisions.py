#!/usr/bin/env python3
"""Disassembles the static library and checks that no digit is worked out from a place by division: `tm_digits`, `tm_rank` and the functions that they call, however
far down, have no division instruction, and call nothing outside the library. That a division would be found is checked on `tm_unrank`: a function that it calls has
one."""
import re
import subprocess
import sys
from collections import defaultdict
from pathlib import Path

LIBRARY = Path(__file__).resolve().parent.parent / "crates/turretmedlar/out/libturretmedlar.a"
DIVIDES = {"tm_digits": False, "tm_rank": False, "tm_unrank": True}
# Each function has a section, which is named after it.
SECTION = re.compile(r"^Disassembly of section (?:\.text\.)?(.+):$", re.M)
# A call into another section is left to the linker, under the name of the section or of the function; so is the place of a constant or of a table, which is left out. Nothing is
# called by pointer: Rattle has no pointers to functions.
CALLED = re.compile(r" R_\w+\t(?!\.LCPI|\.rodata)(?:\.text\.)?(.+?)(?:[+-]0x[0-9a-f]+)?$", re.M)
# Before its name an instruction may have prefixes.
DIVISION = re.compile(r":\t(?:\w+ )*\w*div")


def reached(job):
    """The job, all that it calls, and all that those call."""
    names, left = set(), [job]
    while left:
        name = left.pop()
        if name not in names:
            names.add(name)
            left += CALLED.findall(sections.get(name, ""))
    return names


def divides(job):
    """None where it cannot be told."""
    names = reached(job)
    return any(DIVISION.search(sections[name]) for name in names) if names <= sections.keys() else None


listed = subprocess.run(["env", "LC_ALL=C", "objdump", "-dr", "--no-show-raw-insn", LIBRARY], check=True, stdout=subprocess.PIPE, text=True).stdout
_, *parts = SECTION.split(listed)
sections = defaultdict(str)
for section, body in zip(parts[::2], parts[1::2]):
    sections[section] += body
wrong = [job for job, expected in DIVIDES.items() if divides(job) is not expected]
for job in wrong:
    print(f"{job}: reaches {sorted(reached(job))}, divides: {divides(job)}")
print(f"{len(DIVIDES) - len(wrong)} passed, {len(wrong)} failed")
sys.exit(bool(wrong))
