#!/usr/bin/env python3
"""Holds the program `bench` and the command ./bench to what README.md says of them: a sheet's text however its bytes arrive, what is told where the system fails,
every exit status, and one build where several start at once. ./bench builds the program first; the builds of the last checks are of a stand-in for `rt`, in a
folder of their own. The expected texts are those of `crates/sheets`."""
import errno
import fcntl
import os
import shutil
import struct
import subprocess
import sys
import tempfile
import termios
import time
from pathlib import Path
from subprocess import PIPE

ROOT = Path(__file__).resolve().parent.parent
COMMAND, PROGRAM, SHEETS, PAPER = ROOT / "bench", ROOT / "crates/bench/out/bench", ROOT / "crates/sheets", ROOT / "sheets/paper"
AT_ONCE = 6
LIMIT = 1800  # seconds, for what would never end; the first build takes some minutes
# As `rt` may, it fails where another works at the same time; otherwise it takes its time and puts the program there.
RT = """#!/bin/sh
mkdir ../../target/busy || { echo NOT PROVED; exit 1; }
echo run >>../../runs
sleep 0.5
mkdir -p out && cp ../../program out/new && mv out/new out/bench
rmdir ../../target/busy
"""


def expected_texts():
    """The text of each sheet of crates/sheets, where it follows the sheet's name. A line w after it tells of the sheet written again, and is no part of it."""
    names, rest, texts = (SHEETS / "args").read_text().split(), (SHEETS / "stdout").read_text(), {}
    for name, after in zip(names, names[1:] + [None]):
        assert rest.startswith(name + "\n"), name
        end = rest.index(f"\n{after}\n") + 1 if after else len(rest)
        lines, rest = rest[len(name) + 1:end].splitlines(keepends=True), rest[end:]
        texts[name] = "".join(line for line in lines if not line.startswith("w "))
    return texts


def fed(parts, pause=0.0):
    """Status, text and what is told by the program, where its input comes in parts, each written after the program has read those before it."""
    with subprocess.Popen([PROGRAM], stdin=PIPE, stdout=PIPE, stderr=PIPE, bufsize=0) as program:
        try:
            for part in parts:
                program.stdin.write(part)
                while program.poll() is None and unread(program.stdin):
                    os.sched_yield()
                time.sleep(pause)
        except BrokenPipeError:  # it reads no more than decides
            pass
        text, told = program.communicate(timeout=LIMIT)
    return program.returncode, text.decode(), told.decode()


def unread(pipe):
    return struct.unpack("i", fcntl.ioctl(pipe, termios.FIONREAD, bytes(4)))[0]


def ran(shell, *words, **more):
    """The same of a line for the shell, whose words are "$0", "$1" and so on."""
    done = subprocess.run(["sh", "-c", shell, *words], stdout=more.pop("stdout", PIPE), stderr=PIPE, text=True, timeout=LIMIT, **more)
    return done.returncode, done.stdout, done.stderr


def two(sheet, at):
    return [sheet[:at], sheet[at:]]


# A check is its name, what was got, and the status, the text and a part of what is told that are expected; where that part is empty, nothing may be told.

def reads(texts):
    """The program's read loop, and what it tells where the system fails."""
    paper, longest = PAPER.read_bytes(), (SHEETS / "data/longest").read_bytes()
    yield "paper, byte by byte", fed([bytes([byte]) for byte in paper]), 0, texts["paper"], ""
    yield "paper, in two parts with a pause", fed(two(paper, 20), pause=0.5), 0, texts["paper"], ""
    for at in range(1, len(paper)):
        yield f"paper, in two parts, the first of {at} bytes", fed(two(paper, at)), 0, texts["paper"], ""
    yield "longest, by 100 bytes", fed([longest[i:i + 100] for i in range(0, len(longest), 100)]), 0, texts["longest"], ""
    for name, text in texts.items():
        sheet = (SHEETS / "data" / name).read_bytes()
        yield f"{name}, in two parts", fed(two(sheet, len(sheet) // 2)), 0, text, ""
    yield "no bytes", fed([]), 0, "s 8\n", ""
    yield "bytes without end", ran('"$0" </dev/zero', PROGRAM), 0, "s 8\n", ""
    yield "a folder as input", ran('"$0" <.', PROGRAM), 0, "", f"bench: standard input: {os.strerror(errno.EISDIR)}\n"
    yield "closed input", ran('"$0" <&-', PROGRAM), 0, "", f"bench: standard input: {os.strerror(errno.EBADF)}\n"
    yield "a full device as output", ran('"$0" <"$1" >/dev/full', PROGRAM, PAPER), 0, "", f"bench: standard output: {os.strerror(errno.ENOSPC)}\n"
    yield "closed output", ran('"$0" <"$1" >&-', PROGRAM, PAPER), 0, "", f"bench: standard output: {os.strerror(errno.EBADF)}\n"


def statuses(texts):
    """./bench on a program that is built."""
    yield "0, a good sheet", ran('"$0" "$1"', COMMAND, PAPER), 0, texts["paper"], ""
    yield "0, a faulty sheet", ran('"$0" "$1"', COMMAND, SHEETS / "data/tie-two"), 0, texts["tie-two"], ""
    yield "0, a pipe", ran('cat "$1" | "$0" /dev/stdin', COMMAND, PAPER), 0, texts["paper"], ""
    yield "1, a folder", ran('"$0" .', COMMAND), 1, "", f"bench: standard input: {os.strerror(errno.EISDIR)}\n"
    yield "1, a full device", ran('"$0" "$1" >/dev/full', COMMAND, PAPER), 1, "", f"bench: standard output: {os.strerror(errno.ENOSPC)}\n"
    yield "1, closed output", ran('"$0" "$1" >&-', COMMAND, PAPER), 1, "", "standard output is closed\n"
    yield "2, no file", ran('"$0"', COMMAND), 2, "", "usage: "
    yield "2, two files", ran('"$0" "$1" "$1"', COMMAND, PAPER), 2, "", "usage: "
    yield "3, no such file", ran('"$0" "$1"', COMMAND, PAPER / "none"), 3, "", "/none"
    yield "0, a stack of 320 KiB", ran('ulimit -s 320; "$0" "$1"', COMMAND, ROOT / "sheets/longest"), 0, texts["longest"], ""
    yield "139, a stack of 128 KiB", ran('ulimit -s 128; "$0" "$1"', COMMAND, PAPER), 139, "", None
    reader, writer = os.pipe()
    os.close(reader)
    yield "1, nobody reads", ran('"$0" "$1"', COMMAND, PAPER, stdout=writer), 1, None, f"bench: standard output: {os.strerror(errno.EPIPE)}\n"
    os.close(writer)


def builds(folder, texts):
    """./bench in a folder whose `rt` is the stand-in."""
    def bench(rt):
        (folder / "rt").write_text(rt)
        (folder / "rt").chmod(0o755)
        line = [folder / "bench", PAPER]
        started = [subprocess.Popen(line, env=dict(os.environ, PATH=f"{folder}:{os.environ['PATH']}"), stdout=PIPE, stderr=PIPE, text=True) for _ in range(AT_ONCE)]
        for each in started:
            text, told = each.communicate(timeout=LIMIT)
            yield each.returncode, text, told

    source = folder / "crates/bench/src/main.rt"
    for part in ("src", "specs", "proofs"):
        (folder / "crates/bench" / part).mkdir(parents=True)
    for file in ("crates.txt", "crates/bench/src/main.rt", "bench"):
        shutil.copy(ROOT / file, folder / file)
    shutil.copy(PROGRAM, folder / "program")
    for name, rt, told in (("4, not proved", "#!/bin/sh\necho said\nexit 1\n", "said\n"), ("4, nothing built", "#!/bin/sh\n", "remove target/")):
        for got in bench(rt):
            yield name, got, 4, "", told
    for runs, name in enumerate(("several at once, unbuilt", "several at once, stale"), 1):
        for got in bench(RT):
            yield name, got, 0, texts["paper"], None
        yield f"{name}: builds", (len((folder / "runs").read_text().split()), "", ""), runs, "", ""
        source.touch()


def wrong(got, status, text, told):
    return got[:2] != (status, text) or (told is not None and (told not in got[2] or (not told and got[2])))


def all_checks():
    yield "the program is built", ran('"$0" "$1"', COMMAND, PAPER), 0, (texts := expected_texts())["paper"], None
    yield from reads(texts)
    yield from statuses(texts)
    with tempfile.TemporaryDirectory() as folder:
        yield from builds(Path(folder), texts)


passed = failed = 0
for name, got, *expected in all_checks():
    if wrong(got, *expected):
        failed += 1
        print(f"{name}: {got}, expected {expected}")
    else:
        passed += 1
print(f"{passed} passed, {failed} failed")
sys.exit(failed > 0)
