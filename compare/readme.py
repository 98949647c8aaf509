#!/usr/bin/env python3
"""Holds README.md to what it shows: a block `c` or `rust` is the file named in the line above it, a block `toml` stands in the Rust example's Cargo.toml, what a
block `sh` prints is the block `text` that follows it, and the version is that of the header and of the Rust package. An `sh` block that is followed by none is not
run."""
import re
import subprocess
import sys
from pathlib import Path

ROOT = Path(__file__).resolve().parent.parent
BLOCK = re.compile(r"^```(\w+)\n(.*?)^```$", re.M | re.S)
VERSIONS = {"README.md": r"^Version (\S+),", "include/turretmedlar.h": r'^#define TM_VERSION "(.*)"$', "compare/bindings/Cargo.toml": r'^version = "(.*)"$'}
CHECKS = 13


def checks(readme):
    """A name and a test for each thing that can be checked."""
    blocks = list(BLOCK.finditer(readme))
    for block, after in zip(blocks, blocks[1:] + [None]):
        kind, body = block.groups()
        if kind in ("c", "rust"):
            name = re.findall(r"`([^`]+)`:\s*$", readme[:block.start()])[-1]
            yield name, (ROOT / name).read_text() == body
        elif kind == "toml":
            yield "Cargo.toml", body in (ROOT / "examples/rust/Cargo.toml").read_text()
        elif kind == "sh" and after and after.group(1) == "text":
            yield body.splitlines()[-1], printed(body) == (0, after.group(2))
    versions = [re.findall(pattern, (ROOT / name).read_text(), re.M) for name, pattern in VERSIONS.items()]
    yield f"versions {versions}", versions[0] == versions[1] == versions[2] and len(versions[0]) == 1


def printed(commands):
    done = subprocess.run(["sh", "-eu"], input=commands, cwd=ROOT, stdout=subprocess.PIPE, text=True)
    return done.returncode, done.stdout


results = list(checks((ROOT / "README.md").read_text()))
wrong = [name for name, holds in results if not holds]
if len(results) != CHECKS:
    wrong.append(f"{len(results)} things to check, not {CHECKS}")
for name in wrong:
    print(f"README.md: {name}")
print(f"{len(results) - len(wrong)} passed, {len(wrong)} failed")
sys.exit(bool(wrong))
