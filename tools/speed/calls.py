#!/usr/bin/env python3
"""Measures calls on a document beside the crate rust-ini.

    calls.py build SOURCE FOLDER [WORD ..]
    calls.py compare OURS THEIRS [N ..]
    calls.py count OURS THEIRS [N ..]

`build` builds three programs over the crate, and prints their paths: crate_calls.rs, which does what `ini_replay calls` does,
crate_fmt.rs and crate_get.rs, which do what `ini_tool fmt` and `ini_tool get` do (speed.py compares these). SOURCE is the folder of the crate's source,
with its Cargo.toml, rust-ini 0.21.3 with its default features. FOLDER is made where it isn't there. The further words go to
`cargo build`.

`compare` makes each call on a document of N keys in one section, and of N sections (10,000 and 300,000 where no N is given),
and prints for the two programs the nanoseconds of one call, and their ratio. The time is user time, the shortest of some
runs; that of making the document, a run with no call, is taken off. A small document is made and used again and again in one
run, so that its times can be told. It stops where the two programs answer differently.

`count` does the same by instructions, which valgrind counts: one run each, and no other program's work in them.
"""
import os
import pathlib
import re
import shlex
import subprocess
import sys

MANIFEST = """[package]
name = "over_the_crate"
version = "0.1.0"
edition = "2021"

[[bin]]
name = "crate_calls"
path = "{here}/crate_calls.rs"

[[bin]]
name = "crate_fmt"
path = "{here}/crate_fmt.rs"

[[bin]]
name = "crate_get"
path = "{here}/crate_get.rs"

[dependencies]
rust-ini = {{ path = "{source}" }}

[workspace]
"""
RUNS = 3
# A call, and how often it is made on a document of N.
CALLS = {
    "get_from": lambda length: 10 * length,
    "set_there": lambda length: 10 * length,
    "set_new": lambda length: length,
    "append": lambda length: length,
    "delete_from": lambda length: length,
    "section": lambda length: 10 * length,
    "len": lambda length: 10 * length,
    "sections": lambda _: 300,
    "setter": lambda length: max(10_000, length),
}


def build(source, folder, words):
    """Builds the programs over the crate."""
    folder.mkdir(parents=True, exist_ok=True)
    (folder / "Cargo.toml").write_text(MANIFEST.format(here=pathlib.Path(__file__).resolve().parent, source=source))
    command = ["cargo", "build", "--release", "--quiet", "--target-dir", str(folder / "target"), *words]
    subprocess.run(command, cwd=folder, check=True)
    for program in ("crate_calls", "crate_fmt", "crate_get"):
        print(folder / "target/release" / program)


def run(program, line, rounds):
    """The answers to a line that is given so many times, and the seconds of user time."""
    process = subprocess.Popen(shlex.split(program), stdin=subprocess.PIPE, stdout=subprocess.PIPE, text=True)
    process.stdin.write(f"{line}\n" * rounds)
    process.stdin.close()
    answer = process.stdout.read()
    _, status, usage = os.wait4(process.pid, 0)
    if status != 0:
        sys.exit(f"{program} failed at {line}")
    return answer, usage.ru_utime


def measure(programs, line, rounds):
    """The shortest time of each program, where all give one answer."""
    best = [float("inf")] * len(programs)
    answers = set()
    for _ in range(RUNS):
        for place, program in enumerate(programs):
            answer, seconds = run(program, line, rounds)
            answers.add(answer)
            best[place] = min(best[place], seconds)
    if len(answers) != 1:
        sys.exit(f"the programs answer differently: {answers}")
    return best


def instructions(programs, line, _):
    """The instructions of each program."""
    found = []
    for program in programs:
        command = ["valgrind", "--tool=callgrind", "--callgrind-out-file=/dev/null", *shlex.split(program)]
        ran = subprocess.run(command, input=f"{line}\n", capture_output=True, text=True, check=True)
        found.append(int(re.search(r"Collected : (\d+)", ran.stderr)[1]))
    return found


def table(programs, lengths, unit, measured):
    """Prints a line for each call: what it takes by `measured`, without the making of the document."""
    print(f"| Call | Keys or sections | Ours, {unit} | The crate's, {unit} | Ratio |\n|---|---|---|---|---|")
    for length in lengths:
        rounds = max(1, 300_000 // length) if unit == "ns" else 1
        for shape in ("keys", "sections"):
            for call, times in CALLS.items():
                if (call, shape) == ("sections", "keys"):
                    continue  # two names in all
                made = measured(programs, f"none {shape} {length} {times(length)}", rounds)
                whole = measured(programs, f"{call} {shape} {length} {times(length)}", rounds)
                scale = times(length) * rounds / (1e9 if unit == "ns" else 1)
                ours, theirs = ((w - m) / scale for w, m in zip(whole, made))
                ratio = f"{ours / theirs:.2f}" if theirs > 0 else "-"
                print(f"| `{call}` | {length:,} {shape} | {ours:,.0f} | {theirs:,.0f} | {ratio} |", flush=True)


def main():
    """Reads the words."""
    match sys.argv[1:]:
        case ["build", source, folder, *words]:
            build(pathlib.Path(source).resolve(), pathlib.Path(folder).resolve(), words)
        case ["compare", ours, theirs, *lengths]:
            table([ours, theirs], [int(length) for length in lengths] or [10_000, 300_000], "ns", measure)
        case ["count", ours, theirs, *lengths]:
            table([ours, theirs], [int(length) for length in lengths] or [10_000], "instructions", instructions)
        case _:
            sys.exit(__doc__)


if __name__ == "__main__":
    main()
