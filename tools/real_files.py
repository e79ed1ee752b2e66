#!/usr/bin/env python3
"""Counts what ini_file makes of real files: whether they are read as their own programs read them, what check warns of,
and whether format leaves what they say.

    tools/real_files.py INI_FILE FOLDER READER

READER is the program of tests/program/key_file.c, which reads desktop entries, themes and units by GLib's GKeyFile (units
without escapes, and none with a line that goes on, which it doesn't know); configparser reads .cfg and .ini. Blanks at a
value's end, which GKeyFile keeps, make no difference, and `DEFAULT` is a section like others. A file that its own reader
refuses isn't counted, and one that ini_file refuses is counted apart. A layout is right where ini_file and the file's own reader
find in it what they found before. Each difference is a line; the last lines are the counts.
"""
import collections
import configparser
import pathlib
import subprocess
import sys
import tempfile

PROGRAM, READER = pathlib.Path(sys.argv[1]).resolve(), pathlib.Path(sys.argv[3]).resolve()
UNITS = {".service", ".socket", ".timer", ".target", ".mount"}
KEY_FILES = {".desktop", ".directory", ".theme", ".colors", ".notifyrc", ".knsrc"} | UNITS
FORMS = ([], ["--align"], ["--sort", "both"], ["--separator", " = ", "--indent-pairs", "0"])


def run(*words):
    """The status, and what goes to standard output and to standard error."""
    ran = subprocess.run(words, capture_output=True)
    return ran.returncode, ran.stdout, ran.stderr


def triples(said):
    """Sections, keys and values with a NUL after each."""
    fields = said.decode(errors="replace").split("\0")[:-1]
    return list(zip(fields[::3], fields[1::3], fields[2::3]))


def by_reader(path):
    """The dialect, and what the file's own reader finds in it; None where it refuses the file."""
    if path.suffix in KEY_FILES:
        is_unit = path.suffix in UNITS
        dialect = "systemd" if is_unit else "desktop"
        if is_unit and b"\\\n" in path.read_bytes():
            return dialect, None
        status, said, _ = run(READER, path, *["raw"] * is_unit)
        return dialect, None if status else {(section, key): value.rstrip(" \t") for section, key, value in triples(said)}
    parser = configparser.ConfigParser(strict=False, interpolation=None, default_section="")
    parser.read_string(path.read_text(encoding="utf-8"))
    return "python", {(section, key): parser[section][key].lstrip("\n") for section in parser.sections() for key in parser[section]}


def by_us(dialect, path):
    """What counts for ini_file, each key's last value; None where it refuses the file."""
    status, said, _ = run(PROGRAM, "--like", dialect, "list", "--null", path)
    if status:
        return None
    return {(section[1:-1], key.lower() if dialect == "python" else key): value for section, key, value in triples(said)}


def order(said):
    """The values of each key of each section, in order."""
    found = collections.defaultdict(list)
    for section, key, value in triples(said):
        found[section, key].append(value)
    return found


def formats(dialect, path, theirs, counts):
    """Counts the layouts that say what the file says, to ini_file and to the file's own reader, and those that were left."""
    before = run(PROGRAM, "--like", dialect, "list", "--null", path)[1]
    for words in FORMS:
        status, text, told = run(PROGRAM, "--like", dialect, "format", *words, "--output", "-", path)
        counts["left"] += b"left as it is" in told
        laid = subprocess.run([PROGRAM, "--like", dialect, "list", "--null", "-"], input=text, capture_output=True).stdout
        same = order(laid) == order(before) if "--sort" in words else laid == before
        with tempfile.NamedTemporaryFile(suffix=path.suffix) as copy:
            copy.write(text)
            copy.flush()
            found = by_reader(pathlib.Path(copy.name))[1]
        if status or not same or found != theirs:
            counts["formatted wrong"] += 1
            print(f"{path}: format {' '.join(words)}: status {status}, the same pairs: {same}, to its reader: {found == theirs}")
        counts["formatted"] += 1


def main():
    counts = collections.Counter()
    for path in sorted(pathlib.Path(sys.argv[2]).rglob("*")):
        if path.suffix not in KEY_FILES | {".cfg", ".ini"} or not path.is_file():
            continue
        try:
            dialect, theirs = by_reader(path)
        except (configparser.Error, UnicodeError):
            theirs = None
        if theirs is None:
            counts["refused by their reader"] += 1
            continue
        ours = by_us(dialect, path)
        warned = run(PROGRAM, "--like", dialect, "check", path)[0] == 1
        read = "refused" if ours is None else "read right" if ours == theirs else "misread"
        counts[read + ", warned of" * warned] += 1
        if ours != theirs:
            print(f"{path}: {read}{', and warned of' if warned else ''}")
        if ours is not None:
            formats(dialect, path, theirs, counts)
    for what, many in sorted(counts.items()):
        print(many, what)


main()
