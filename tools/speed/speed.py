#!/usr/bin/env python3
"""Measures the time, memory and instructions of `ini_tool fmt` beside other programs that do the same.

    speed.py inputs FOLDER MEGABYTES
    speed.py compare [--turns N] FOLDER PROGRAM PROGRAM ..
    speed.py time [--turns N] FOLDER PROGRAM PROGRAM ..
    speed.py count FOLDER PROGRAM PROGRAM ..
    speed.py chart [--turns N] FOLDER FILE NAME=PROGRAM ..

`inputs` writes eight settings files of about that size into FOLDER; they are the same each time.

`compare` runs each PROGRAM (a command of one or more words that reads a settings file and writes it formatted) on each file
of FOLDER, in seven turns or in as many as are asked for, and prints for each program the shortest user and system time, the
peak of memory, and the ratios of both to the last program's. It stops where two programs write different bytes.

`time` does the same for programs that need not write the same, as those that parse alone. `count` prints the millions of
instructions of one run instead, as valgrind counts them, and the ratio: they stay the same beside other work. `chart` measures as
`time` does, and draws it into FILE, an SVG, under the programs' names.

Where the word OPTIONS stands in a PROGRAM, the options by which a file is to be read come in its place: for `noted`
`--inline-comments`, else none. (The crate reads its notes with the feature `inline-comment`.)
"""
import argparse
import hashlib
import itertools
import os
import pathlib
import random
import re
import shlex
import subprocess
import sys
import tempfile

from chart import draw

KEYS = "name path port host user group level timeout retry cache mode color format shell editor address".split()
VALUES = ["true", "false", "8080", "/usr/local/share/data", "a few words, unquoted", "0.25"]
TURNS = 7


def settings(chance):
    """Short sections, each below a comment."""
    for number in itertools.count():
        yield f"\n; part {number}\n[{chance.choice(KEYS)} {number}]\n"
        for key in chance.sample(KEYS, 8):
            yield f"{key} = {chance.choice(VALUES)}\n"


def one_section(_):
    """One section with many distinct keys."""
    yield "[one]\n"
    for number in itertools.count():
        yield f"key {number}=its value {number}\n"


def repeated(chance):
    """One section name and few keys, again and again."""
    while True:
        yield "[peer]\n"
        for key in "abcdefgh":
            yield f"{key}=192.168.0.{chance.randrange(256)}\n"


def long_values(chance):
    """Values of some two thousand letters."""
    while True:
        yield f"{chance.choice(KEYS)}=" + "Sphinx of black quartz, judge my vow. " * 50 + "\n"


def escaped(chance):
    """Values full of escapes."""
    while True:
        yield f"{chance.choice(KEYS)}=" + r"x\ty\n\x00e9\\z\=w " * 8 + "\n"


def unicode(chance):
    """Values beyond ASCII."""
    while True:
        yield f"{chance.choice(KEYS)}=" + "çilek 樹莓 brûlée Ğüneş " * 6 + "\n"


def quoted(chance):
    """Values with quoted parts."""
    while True:
        yield f"{chance.choice(KEYS)} = \"a 'quoted' part # with marks\" 'and another' and the rest\n"


def noted(chance):
    """Pairs, and a note after each third one."""
    for number in itertools.count(1):
        note = "" if number % 3 else "  ; what it is for"
        yield f"{chance.choice(KEYS)} {number} = {chance.choice(VALUES)}{note}\n"


INPUTS = [settings, one_section, repeated, long_values, escaped, unicode, quoted, noted]
OPTIONS = {"noted": ["--inline-comments"]}


def write_inputs(folder, megabytes):
    """Writes each input, line by line, until it has its size."""
    folder.mkdir(parents=True, exist_ok=True)
    for lines in INPUTS:
        left = megabytes * 1_000_000
        with open(folder / f"{lines.__name__}.ini", "w", encoding="utf-8", newline="") as out:
            for line in lines(random.Random(1)):
                out.write(line)
                left -= len(line.encode())
                if left <= 0:
                    break


def words_of(program, path):
    """The program's words for an input."""
    for word in shlex.split(program):
        yield from OPTIONS.get(path.stem, []) if word == "OPTIONS" else [word]


def run(program, path):
    """Seconds of user and system time, and megabytes at the peak, of one run. It is a child of `time`, which is small: the peak of
    a child has in it what its parent had when it began."""
    with open(path, "rb") as source, tempfile.NamedTemporaryFile("r") as peak:
        words = ["time", "--quiet", "--format=%M", f"--output={peak.name}", *words_of(program, path)]
        process = subprocess.Popen(words, stdin=source, stdout=subprocess.DEVNULL)
        _, status, usage = os.wait4(process.pid, 0)
        # 1 is a look-up that finds nothing
        if os.waitstatus_to_exitcode(status) not in (0, 1):
            sys.exit(f"{program} failed on {path}")
        return usage.ru_utime + usage.ru_stime, int(peak.read()) / 1024


def digest(program, path):
    """A hash of what the program writes. It is read in pieces, since a child begins with its parent's memory."""
    seen = hashlib.sha256()
    with open(path, "rb") as source:
        process = subprocess.Popen(list(words_of(program, path)), stdin=source, stdout=subprocess.PIPE)
        while piece := process.stdout.read(0x10000):
            seen.update(piece)
        process.wait()
    return seen.hexdigest()


def compare(folder, programs):
    """Stops where two programs write different bytes for an input."""
    for path in sorted(folder.glob("*.ini")):
        if len({digest(program, path) for program in programs}) != 1:
            sys.exit(f"the programs write different bytes for {path}")


def measured(folder, programs, turns):
    """Each input's name, with each program's shortest time and its memory, the programs in turn."""
    for path in sorted(folder.glob("*.ini")):
        best = {program: (float("inf"), 0) for program in programs}
        for _, program in itertools.product(range(turns), programs):
            best[program] = min(best[program], run(program, path))
        yield path.stem, list(best.values())


def time(folder, programs, turns):
    """Prints a line for each input: times and memory, and their ratios."""
    for name, best in measured(folder, programs, turns):
        last, most = best[-1]
        shown = [f"{t:.3f} s {peak:4.0f} MB x{t / last:.2f} x{peak / most:.2f}" for t, peak in best]
        print(f"{name:12}", " | ".join(shown), flush=True)


def chart(folder, file, named, turns):
    """Draws times and memory of the programs, each given as NAME=PROGRAM."""
    names, programs = zip(*(word.split("=", 1) for word in named))
    rows = list(measured(folder, programs, turns))
    panels = [
        ("seconds", [(name.replace("_", " "), [t for t, _ in best]) for name, best in rows]),
        ("MB of memory", [(name.replace("_", " "), [peak for _, peak in best]) for name, best in rows]),
    ]
    file.write_text(draw(names, panels), encoding="utf-8")


def instructions(program, path):
    """Millions of instructions of one run."""
    counting = ["valgrind", "--tool=callgrind", "--callgrind-out-file=/dev/null", *words_of(program, path)]
    with open(path, "rb") as source:
        told = subprocess.run(counting, stdin=source, stdout=subprocess.DEVNULL, stderr=subprocess.PIPE, text=True)
    return int(re.search(r"Collected : (\d+)", told.stderr)[1]) / 1e6


def count(folder, programs):
    """Prints a line for each input: instructions, and their ratios."""
    for path in sorted(folder.glob("*.ini")):
        counts = [instructions(program, path) for program in programs]
        print(f"{path.stem:12}", " | ".join(f"{n:8.1f} M x{n / counts[-1]:.2f}" for n in counts), flush=True)


def main():
    """Reads the words."""
    parser = argparse.ArgumentParser(description=__doc__, formatter_class=argparse.RawDescriptionHelpFormatter)
    commands = parser.add_subparsers(required=True, dest="command")
    inputs = commands.add_parser("inputs")
    inputs.add_argument("folder", type=pathlib.Path)
    inputs.add_argument("megabytes", type=float)
    for name in ("compare", "time", "count"):
        beside = commands.add_parser(name)
        beside.add_argument("folder", type=pathlib.Path)
        beside.add_argument("programs", nargs="+")
        if name != "count":
            beside.add_argument("--turns", type=int, default=TURNS)
    drawn = commands.add_parser("chart")
    drawn.add_argument("folder", type=pathlib.Path)
    drawn.add_argument("file", type=pathlib.Path)
    drawn.add_argument("named", nargs="+")
    drawn.add_argument("--turns", type=int, default=TURNS)
    words = parser.parse_args()
    if words.command == "inputs":
        write_inputs(words.folder, words.megabytes)
        return
    if words.command == "chart":
        chart(words.folder, words.file, words.named, words.turns)
        return
    if words.command == "compare":
        compare(words.folder, words.programs)
    if words.command == "count":
        count(words.folder, words.programs)
    else:
        time(words.folder, words.programs, words.turns)


if __name__ == "__main__":
    main()
