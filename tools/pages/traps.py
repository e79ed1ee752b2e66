#!/usr/bin/env python3
"""Prints docs/TRAPS.md: the traps of ini_check, from the comments of `Trap` in crates/ini_check/src/warning.rt.

    tools/pages/traps.py > docs/TRAPS.md

Each comment says when a text has the trap, at which place, which smallest text has it, and
how it is mended.
"""
import re
import sys
from pathlib import Path

SOURCE = Path(__file__).resolve().parents[2] / "crates/ini_check/src/warning.rt"
HEAD = """# The traps

What `check` warns of, from the comments of `Trap` by `tools/pages/traps.py`; `tests/pages.sh` compares it. A place is the
first character of an element with the blanks that indent it, of the value, or of what the table names. No mark within a word
is warned of: `color = #fff`, `k = v;w`. A mend says what was meant where a warning is right.
"""
LEVELS = {"LosesData": "loses data", "Surprises": "surprises"}


def traps(text):
    """Each trap's name, level, smallest text, place, when it is there, and its mend."""
    names = dict(re.findall(r'Trap::(\w+) => "([a-z-]+)",', text))
    losing = set(re.findall(r"Trap::(\w+)", text.split("pub fn level", 1)[1].split("=> Level::LosesData", 1)[0]))
    body = text.split("pub enum Trap {", 1)[1].split("\n}\n", 1)[0]
    for comment, variant in re.findall(r"((?:    ///.*\n)+)    (\w+),", body):
        said = " ".join(line.strip()[4:] for line in comment.splitlines())
        parts = re.fullmatch(r"(.*)\. At ([^.]*): (`.*?)\.(?: Mend: (.*)\.)?", said)
        if not parts:
            sys.exit(f"traps.py: {variant}: its comment has another form")
        yield names[variant], "LosesData" if variant in losing else "Surprises", parts[3], parts[2], parts[1], parts[4] or ""


def main():
    print(HEAD)
    print("| Name | Smallest text | Place | When | Mend |\n|---|---|---|---|---|")
    last = None
    for name, level, smallest, place, when, mend in traps(SOURCE.read_text(encoding="utf-8")):
        if level != last:
            print(f"| **{LEVELS[level]}** | | | | |")
        last = level
        print(f"| `{name}` | {smallest} | {place} | {when} | {mend} |".replace("|  |", "| |"))


main()
