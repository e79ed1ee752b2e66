#!/usr/bin/env python3
"""Runs the gate, and then prints the processor time that each crate took: its proof, its tests and its wrong bodies.

    tools/gate_times.py [COMMAND ..]

COMMAND is `rt ci` unless another is given, as `tests/all.sh` or `rt must-fail ini`. The lines that `rt ci` writes hold no
times, and its checks run side by side, so the moments at which the lines come say nothing of one crate either. So this
script looks twice a second at the processes that the command started, by /proc, and reads which crate each check is of and
the processor time that it and its own children took. What a check does after the last look at it isn't counted to its crate;
the last row has that, and all else that runs: programs, tests, scripts.

The status is the command's own.
"""
import os
import resource
import subprocess
import sys
import time
from collections import defaultdict

TICKS = os.sysconf("SC_CLK_TCK")
PARTS = ("proof", "tests", "edits")


def processes():
    """Each process: its parent, when it began, and the ticks that it and its ended children took."""
    found = {}
    for name in filter(str.isdigit, os.listdir("/proc")):
        try:
            with open(f"/proc/{name}/stat") as it:
                text = it.read()
        except OSError:
            continue
        fields = text[text.rindex(")") + 2 :].split()
        found[int(name)] = (int(fields[1]), int(fields[19]), sum(map(int, fields[11:15])))
    return found


def check_of(process):
    """The crate and the part that a process checks; None where it is no check."""
    try:
        with open(f"/proc/{process}/cmdline") as it:
            words = it.read().split("\0")
        folder = os.readlink(f"/proc/{process}/cwd")
    except OSError:
        return None
    if os.path.basename(words[0]) != "rattle" or "--crate-name" not in words:
        return None
    crate = words[words.index("--crate-name") + 1]
    if os.path.basename(folder).startswith("rt-edit-"):
        return crate, "edits"
    return crate, "tests" if "--test" in words else "proof"


def look(top, taken):
    """Notes the ticks of each check below the process `top`, by the check and the moment when it began."""
    found, below = processes(), defaultdict(list)
    for process, (parent, _, _) in found.items():
        below[parent].append(process)

    def ticks(process):
        return found[process][2] + sum(map(ticks, below[process]))

    def walk(process):
        for child in below[process]:
            check = check_of(child)
            if check:
                taken[check][child, found[child][1]] = ticks(child)
            else:
                walk(child)

    walk(top)


def table(seconds, all_seconds):
    """The rows in processor seconds, the dearest crate first."""
    rows = [(crate, *(parts.get(part, 0) for part in PARTS)) for crate, parts in seconds.items()]
    rows.sort(key=lambda row: -sum(row[1:]))
    sums = [sum(column) for column in zip(*(row[1:] for row in rows))] or [0] * len(PARTS)
    yield f"| crate | {' | '.join(PARTS)} | all |"
    yield "|---" * (len(PARTS) + 2) + "|"
    for name, *numbers in [*rows, ("together", *sums)]:
        yield f"| {name} | {' | '.join(f'{it:.0f}' for it in numbers)} | {sum(numbers):.0f} |"
    yield f"| all else | {' | ' * len(PARTS)}{all_seconds - sum(sums):.0f} |"


def main(words):
    taken = defaultdict(dict)
    running = subprocess.Popen(words or ["rt", "ci"])
    while running.poll() is None:
        look(running.pid, taken)
        time.sleep(0.5)
    used = resource.getrusage(resource.RUSAGE_CHILDREN)
    seconds = defaultdict(dict)
    for (crate, part), checks in taken.items():
        seconds[crate][part] = sum(checks.values()) / TICKS
    print("\n".join(table(seconds, used.ru_utime + used.ru_stime)))
    return running.returncode


if __name__ == "__main__":
    sys.exit(main(sys.argv[1:]))
