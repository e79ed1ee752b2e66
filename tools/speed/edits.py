#!/usr/bin/env python3
"""Measures edits of a text beside loading it, and beside crudini and git.

    edits.py own PROGRAM MEGABYTES
    edits.py peers PROGRAM SECTIONS
    edits.py files FILE_PROGRAM

PROGRAM is `ini_replay`. `own` makes a text of that size, whose last section has the key, and prints for loading it and for each
edit the milliseconds of user and system time, and the ratio to loading. Reading the text, a run that does nothing else, is
taken off; from look-ups and edits of a text in pieces, reading it into these too. The aim is at most 1.2; the status is 1 if an edit misses it.

`peers` sets a value in the last of so many sections: once by PROGRAM, by `crudini` and by `git config -f`, each a run over a
file, with what starting the program takes. A peer that isn't there is left out.

`files` sets a value in the last section of a file of 10 MB, and of one of 1 KB, by FILE_PROGRAM, which is `ini_file`, and by
the peers: each reads the file and writes it.

Each time is the shortest of some runs, in turn.
"""
import os
import pathlib
import shutil
import subprocess
import sys
import tempfile

RUNS = 9
AIM = 1.2
PIECES = ["source", "source_get", "source_text", "source_edit", "source_edits", "source_list"]
EDITS = ["set_existing", "set", "set_pair", "set_section", "delete", "add", "add_section"]
LAST = "[last]\nkey = its value\n"


def milliseconds(command, path):
    """User and system time of a run whose input is the file."""
    with open(path, "rb") as source:
        process = subprocess.Popen(command, stdin=source, stdout=subprocess.DEVNULL)
        _, status, usage = os.wait4(process.pid, 0)
    if status != 0:
        sys.exit(f"{command} failed")
    return (usage.ru_utime + usage.ru_stime) * 1000


def shortest(runs, path):
    """The shortest time of each run by its name, in turn."""
    best = {}
    for _ in range(RUNS):
        for name, command in runs.items():
            taken = milliseconds(command, path)
            best[name] = min(taken, best.get(name, taken))
    return best


def sections(count):
    """A text of so many sections and one more, with comments and four keys each."""
    for number in range(count):
        yield f"\n; part {number}\n[section{number}]\n"
        yield f"name{number} = some name\nport = {number}\npath = /srv/data/{number}\nlevel = \"high\" # {number}\n"
    yield LAST


def own(program, megabytes):
    part = len("".join(sections(1000))) / 1000
    text = "".join(sections(int(megabytes * 1_000_000 / part)))
    with tempfile.TemporaryDirectory() as folder:
        path = pathlib.Path(folder, "text.ini")
        path.write_text(text)
        best = shortest({call: [program, call] for call in ["read", "load", *EDITS, *PIECES]}, path)
    loading = best["load"] - best["read"]
    print(f"{len(text):,} bytes, reading them {best['read']:.0f} ms")
    print(f"| Call | ms | Ratio |\n|---|---|---|\n| loading | {loading:.0f} | |")
    ratios = {call: (best[call] - best["read"]) / loading for call in EDITS}
    for call, ratio in ratios.items():
        print(f"| `{call}` | {best[call] - best['read']:.0f} | {ratio:.2f} |")
    print(f"| `source` | {best['source'] - best['read']:.0f} | {(best['source'] - best['read']) / loading:.2f} |")
    for call in PIECES[1:]:
        print(f"| `{call}` | {best[call] - best['source']:.1f} | |")
    return max(ratios.values()) <= AIM


def peers(program, count):
    with tempfile.TemporaryDirectory() as folder:
        path = pathlib.Path(folder, "text.ini")
        path.write_text("".join(sections(count)))
        copy = path.with_name("copy.ini")  # git's indented line is refused by crudini
        copy.write_text(path.read_text())
        runs = {"ini_replay set_existing": [program, "set_existing"]}
        if shutil.which("crudini"):
            runs["crudini --set"] = ["crudini", "--set", str(path), "last", "key", "new value"]
        if shutil.which("git"):
            runs["git config -f"] = ["git", "config", "-f", str(copy), "last.key", "new value"]
        size = path.stat().st_size
        best = shortest(runs, path)
    print(f"{count:,} sections, {size:,} bytes\n| Run | ms |\n|---|---|")
    for name, taken in best.items():
        print(f"| `{name}` | {taken:.0f} |")


def files(program):
    print("| File | Run | ms |\n|---|---|---|")
    for count in (92_000, 9):
        with tempfile.TemporaryDirectory() as folder:
            path = pathlib.Path(folder, "text.ini")
            runs = {"ini_file set": [program, "set", str(path), "key", "VALUE", "last"]}
            if shutil.which("git"):
                runs["git config -f"] = ["git", "config", "-f", str(path), "last.key", "VALUE"]
            if shutil.which("crudini"):
                runs["crudini --set"] = ["crudini", "--set", str(path), "last", "key", "VALUE"]
            text = "".join(sections(count))
            for name, command in runs.items():
                best = None
                for turn in range(3):
                    path.write_text(text)
                    taken = milliseconds([word.replace("VALUE", f"value {turn}") for word in command], os.devnull)
                    best = taken if best is None else min(best, taken)
                print(f"| {len(text):,} bytes | `{name}` | {best:.0f} |")


def main():
    match sys.argv[1:]:
        case ["own", program, megabytes]:
            sys.exit(not own(program, float(megabytes)))
        case ["peers", program, count]:
            peers(program, int(count))
        case ["files", program]:
            files(program)
        case _:
            sys.exit(__doc__)


if __name__ == "__main__":
    main()
