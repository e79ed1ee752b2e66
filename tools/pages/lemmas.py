#!/usr/bin/env python3
"""Prints docs/LEMMAS.md: the files of lemmas, and which lemmas a crate's proofs cite of another crate of this repository.

    tools/pages/lemmas.py > docs/LEMMAS.md

Of a file of lemmas it takes the first sentence of its head. It reads the lines `use Rattle.CRATE.proofs..` of all sources,
specifications and proofs. It ends with status 1 and a line on standard error where such a line has a form that it does not know,
or no list of names and no use of the name that it is brought in under, and where a file of lemmas has no head.
"""
import re
import sys
from pathlib import Path

TOP = Path(__file__).resolve().parents[2]
HEAD = """# Lemmas

Which lemmas the proofs of one crate cite of another, and what each file of lemmas is about. `tools/pages/lemmas.py` makes this
page, and `tests/pages.sh` compares it.

## Cited across crates
"""
FILES = """
## Files of lemmas

| Crate | File | About |
|---|---|---|"""
USE = re.compile(r"^[ \t]*(?:pub[ \t]+|ghost[ \t]+)*use[ \t]+Rattle\.(ini\w*)\.proofs\.([\w.-]+?)(?:\.\{([^}]*)\}|[ \t]+as[ \t]+(\S+))[ \t;]*$", re.M)


def cited(path, text):
    """The lemmas of other crates that a file names: triples of crate, file of lemmas, and name."""
    own = path.relative_to(TOP / "crates").parts[0]
    found = set()
    for crate, file, names, alias in USE.findall(text):
        if crate == own:
            continue
        listed = names.replace("\n", " ").split(",") if names else re.findall(rf"\b{re.escape(alias)}\.(\S+?)(?=[\s(){{}},;]|$)", text)
        listed = [it.split(" as ")[0].strip() for it in listed if it.strip()]
        if not listed:
            sys.exit(f"lemmas.py: {path.relative_to(TOP)}: nothing is named of {crate}.{file}")
        found.update((crate, file, it) for it in listed)
    others = re.findall(r"\bRattle\.(ini\w*)\.proofs\b", text)
    if len([it for it in others if it != own]) != len([it for it in USE.findall(text) if it[0] != own]):
        sys.exit(f"lemmas.py: {path.relative_to(TOP)}: a use in another form")
    return own, found


def head(path):
    """The first sentence of the comment with which a file begins."""
    lines = path.read_text(encoding="utf-8").split("\n")
    end = next((at for at, line in enumerate(lines) if not line.startswith("--")), len(lines))
    text = " ".join(line.removeprefix("--").strip() for line in lines[:end])
    found = re.match(r"(.*?[.!?:])(?:\s|$)", text)
    if not found:
        sys.exit(f"lemmas.py: {path.relative_to(TOP)}: no head")
    return found[1].replace("|", "\\|")


def main():
    by_crate = {}
    for path in sorted((TOP / "crates").rglob("*")):
        if path.suffix in (".rt", ".antt") and "out" not in path.relative_to(TOP / "crates").parts:
            own, found = cited(path, path.read_text(encoding="utf-8"))
            by_crate.setdefault(own, set()).update(found)
    print(HEAD)
    print("| Crate | Of | File | Lemmas |\n|---|---|---|---|")
    for own in sorted(by_crate):
        rows = {}
        for crate, file, name in by_crate[own]:
            rows.setdefault((crate, file), set()).add(name)
        for (crate, file), names in sorted(rows.items()):
            listed = ", ".join(f"`{it}`" for it in sorted(names))
            print(f"| `{own}` | `{crate}` | `{file}` | {listed} |")
    print(FILES)
    for path in sorted((TOP / "crates").glob("*/proofs/**/*Lemmas.antt")):
        crate, _, *inner = path.relative_to(TOP / "crates").with_suffix("").parts
        print(f"| `{crate}` | `{'/'.join(inner)}` | {head(path)} |")


main()
