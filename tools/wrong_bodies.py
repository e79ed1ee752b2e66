#!/usr/bin/env python3
"""Tries the wrong bodies that the gate leaves out for time: each must be refused, as those in must-fail/ are by `rt ci`.

    tools/wrong_bodies.py [--jobs N | --read] [CRATE | CRATE/EDIT ..]

They stand in crates/NAME/wrong-bodies.txt: a line `== NAME OF THE EDIT`, and below it the lines that a must-fail edit has.

It works on copies of the files that git knows, with the libraries' `out` where there is one. A crate is proved there once as
it stands. Then edits of different functions are made together, and those functions proved anew: an edit is refused where a goal
within its own function is. Any other is tried alone: the function that it changes, its module, and last the whole crate.

By default it takes every crate, and as many edits at a time as there are processors (N). It prints a line for each edit, and
last how many were refused at a goal, how many by a name alone (a proof names what the edit took away, which says little of the
contract: the edit is to keep that), how many were not, and how many couldn't be read. The status is 0 where all were refused at
a goal. An EDIT that is named may stand in must-fail/ too.

With --read nothing is proved: it prints the edits of both folders that can no longer be made, since a text that they replace
doesn't stand in its file once. The status is 0 where there are none.
"""
import os
import re
import shutil
import subprocess
import sys
import tempfile
from concurrent.futures import ThreadPoolExecutor
from fnmatch import fnmatch
from pathlib import Path
from queue import Queue
from typing import NamedTuple

TOP = Path(__file__).resolve().parents[1]
# What a check says of an edit that no prover judged.
UNREADABLE = re.compile(r"\berror\[[\w-]+\]|^(\./)?(src|specs)/\S+:\d+:\d+: error: .*(is not in scope|has no field|is no name)", re.M)
# Where it says so.
ERROR = re.compile(r"^(?:\./)?(src/\S+:\d+):\d+: error", re.M)
# What it says where a name isn't that of one function.
NO_ONE = re.compile(r"^rattle: error: (several functions are named|.* has no function)", re.M)
# What it says of a goal, and of a proof that is no longer one.
GOAL = re.compile(r"^note: (src/\S+: (?:it is not proved that|`search` found no proof) .*)$", re.M)
PROOF = re.compile(r"^(?:note: )?(?:\./)?(proofs/\S+:\d+:\d+: error.*)$", re.M)
# The first line of a function, and that of an impl of no trait.
HEAD = re.compile(r"( *)(?:pub(?:\([\w ]+\))? )?(?:const )?(?:unsafe )?(?:extern \"C\" )?fn (\w+)")
OWNER = re.compile(r"impl(?:<[^>]*>)? (\w+)(?!.* for )")
# How many edits are made together at most.
MOST = 16
# A proof that names what the edit took away says little of the contract, and one that depends on another that is refused nothing.
NAMES = re.compile(r"(has no field|is not in scope|has no `|declarations? that depends? on)")


class Bad(Exception):
    """An edit that can't be made."""


class Edit(NamedTuple):
    """An edit by its name, with its lines."""

    name: str
    lines: list[str]


class Function(NamedTuple):
    """A function by its file, the path that a check takes (its module's where a trait has it), and the numbers of its lines."""

    file: str
    path: str
    lines: range

    def has(self, goal):
        """Whether a goal, which begins with its file and line, is one of the function."""
        file, line = goal.split(":")[:2]
        folder = "/".join(("", *self.path.split("::")))
        return int(line) in self.lines if file == self.file else os.path.dirname(file).endswith(folder)

    def places(self):
        """What to prove anew, in turn: the function and its module."""
        return [self.path] + [it for it in ["::".join(modules_of(self.file))] if it]


def modules_of(file):
    """The modules that a file of src/ stands for, outermost first."""
    return [it for it in Path(file).with_suffix("").parts[1:] if it not in ("lib", "main", "mod")]


def copy_of_tree(room):
    """A copy of the files that git knows, and of the libraries' work as links: a check replaces such a file, and changes none."""
    listed = subprocess.run(["git", "ls-files", "-z"], cwd=TOP, check=True, stdout=subprocess.PIPE).stdout
    for name in filter(None, listed.decode().split("\0")):
        if (TOP / name).is_file():
            (room / name).parent.mkdir(parents=True, exist_ok=True)
            shutil.copy2(TOP / name, room / name)
    return room


def link_work(source, room):
    """Puts what checks kept in one copy into another."""
    for work in source.glob("crates/*/out"):
        to = room / work.relative_to(source)
        shutil.rmtree(to, ignore_errors=True)
        subprocess.run(["cp", "-al", work, to], check=True)


def made(edit, crate):
    """The texts of the files that an edit changes, by their path in the crate."""
    texts, path, old = {}, None, None
    for line in edit.lines:
        if line.startswith("file: "):
            path = line[len("file: ") :].strip()
            texts.setdefault(path, (crate / path).read_text(encoding="utf-8"))
        elif line.startswith("old: "):
            old = line[len("old: ") :]
        elif line.startswith("new:"):
            if texts[path].count(old) != 1:
                raise Bad(f"an old text stands in {path} {texts[path].count(old)} times")
            texts[path] = texts[path].replace(old, line[len("new:") :].removeprefix(" "))
        elif line.strip():
            raise Bad(f"a line that is none of an edit: {line.strip()[:60]}")
    if all(text == (crate / path).read_text(encoding="utf-8") for path, text in texts.items()):
        raise Bad("it changes nothing")
    return texts


def function_at(file, text, place):
    """The function that a place of a file's text stands in; None where it stands in none."""
    lines, number = text.split("\n"), text.count("\n", 0, place)
    first = next((it for it in range(number, -1, -1) if HEAD.match(lines[it])), None)
    if first is None:
        return None
    indent, name = HEAD.match(lines[first]).groups()
    while first > 0 and lines[first - 1].startswith(indent + "#["):
        first -= 1  # a goal may stand at an attribute
    last = next((it for it in range(first, len(lines)) if re.match(indent + r"(\}|\{.*\}$)", lines[it])), -1)
    path = modules_of(file)
    if indent:
        owner = OWNER.match(next((it for it in lines[first::-1] if it.startswith("impl")), ""))
        path = [owner[1], name] if owner else path
    else:
        path.append(name)
    return Function(file, "::".join(path), range(first + 1, last + 2)) if path and number <= last else None


def functions_of(edit, crate):
    """The functions that an edit changes; none where it changes anything else."""
    file, found = "", set()
    for line in edit.lines:
        if line.startswith("file: "):
            file = line[len("file: ") :].strip()
        elif line.startswith("old: "):
            text = (crate / file).read_text(encoding="utf-8")
            found.add(function_at(file, text, text.find(line[len("old: ") :])) if file.startswith("src/") else None)
    return set() if None in found else found


def groups_of(edits, crate):
    """The edits in groups, each with its functions: no two of a group change one function, and what changes none stands alone."""
    groups = []
    for edit in edits:
        mine = functions_of(edit, crate)
        fits = (it for it in groups if mine and len(it) < MOST and all(theirs and not theirs & mine for _, theirs in it))
        group = next(fits, None)
        if group is None:
            groups.append(group := [])
        group.append((edit, mine))
    return groups


def make_together(edits, crate):
    """Makes the edits that can be made beside each other. The answer is the files' texts of before, by their path."""
    were = {}
    for edit in edits:
        try:
            texts = made(edit, crate)
        except Bad:
            continue  # it is tried alone
        for path, text in texts.items():
            were.setdefault(path, (crate / path).read_text(encoding="utf-8"))
            (crate / path).write_text(text, encoding="utf-8")
    return were


def tried_together(group, crate):
    """Makes a group's edits, and takes them back. The answers, by name, of those that a goal within their own function refuses."""
    only = {it.path for _, functions in group for it in functions}
    were = make_together([edit for edit, _ in group], crate)
    try:
        status, said = check(crate, *[word for it in sorted(only) for word in ("--only", it)])
    finally:
        for path, text in were.items():
            (crate / path).write_text(text, encoding="utf-8")
    if UNREADABLE.search(said):
        errors = ERROR.findall(said)
        read = [(edit, theirs) for edit, theirs in group if not any(it.has(error) for error in errors for it in theirs)]
        return tried_together(read, crate) if 0 < len(read) < len(group) else {}
    found = {}
    for edit, functions in group if status == 1 else []:
        why = next((why for why in goals_in(said) if any(it.has(why) for it in functions)), None)
        if why:
            found[edit.name] = "refused", why[:150]
    return found


def answers(group, crate):
    """How each edit of a group is refused, and why, by its name."""
    found = tried_together(group, crate) if len(group) > 1 else {}
    for edit, _ in group:
        if edit.name not in found:
            try:
                found[edit.name] = tried(edit, crate) or ("not refused", "it is proved all the same")
            except Bad as why:
                found[edit.name] = "unread", str(why)
    return found


def check(crate, *words):
    ran = subprocess.run(["rt", "check", *words, "--jobs", "1"], cwd=crate, stdout=subprocess.PIPE, stderr=subprocess.STDOUT, stdin=subprocess.DEVNULL)
    return ran.returncode, ran.stdout.decode(errors="replace")


def judged(status, said):
    """How a check refuses an edit and why, or None where it is proved all the same."""
    if status == 0:
        return None
    if status != 1 or UNREADABLE.search(said):
        first = UNREADABLE.search(said)
        raise Bad(said[first.start() :].split("\n")[0][:160] if first else f"the check ended with status {status}")
    goals, proofs = goals_in(said), proofs_in(said)
    if not goals + proofs:
        raise Bad("it tells of no goal and no proof")
    return ("refused", goals[0][:150]) if goals else ("by a name alone", proofs[0][:150])


def proofs_in(said):
    """What a check says of proofs, with their further lines, which are indented."""
    return PROOF.findall(re.sub(r"\n  (?=\S)", " ", said))


def goals_in(said):
    """What a check says of goals."""
    return GOAL.findall(said) + [it for it in proofs_in(said) if not NAMES.search(it)]


def tried(edit, crate):
    """Makes the edit in a crate's copy, and takes it back. The answer is how it is refused and why, or None."""
    texts = made(edit, crate)
    places = [place for it in functions_of(edit, crate) for place in it.places()]
    were = {path: (crate / path).read_text(encoding="utf-8") for path in texts}
    try:
        for path, text in texts.items():
            (crate / path).write_text(text, encoding="utf-8")
        for place in places:
            status, said = check(crate, "--only", place)
            found = None if NO_ONE.search(said) else judged(status, said)
            if found:
                return found
        return judged(*check(crate))
    finally:
        for path, text in were.items():
            (crate / path).write_text(text, encoding="utf-8")


def edits_of(words, reads=False):
    """The edits that are asked for, by crate; those that the gate tries only where one is named, or where all are read."""
    crates = {it.parent.name for it in TOP.glob("crates/*/wrong-bodies.txt")}
    crates |= {it.parent.name for it in TOP.glob("crates/*/must-fail") if reads}
    found = {}
    for word in words or sorted(crates):
        crate, _, name = word.partition("/")
        listed = listed_in(crate) + (tried_by_the_gate(crate) if name or reads else [])
        listed = [it for it in listed if fnmatch(it.name, name or "*")]
        if not listed:
            sys.exit(f"{word}: there is no such edit")
        found.setdefault(crate, []).extend(listed)
    return found


def listed_in(crate):
    """The edits of a crate's file."""
    path = TOP / "crates" / crate / "wrong-bodies.txt"
    found = []
    for line in path.read_text(encoding="utf-8").split("\n") if path.is_file() else []:
        if line.startswith("== "):
            found.append(Edit(line[len("== ") :], []))
        elif found:
            found[-1].lines.append(line)
    names = [it.name for it in found]
    if len(names) > len(set(names)):
        sys.exit(f"{crate}: two edits have one name")
    return found


def tried_by_the_gate(crate):
    """The edits in a crate's folder must-fail."""
    folder = TOP / "crates" / crate / "must-fail"
    return [Edit(it.stem, it.read_text(encoding="utf-8").split("\n")) for it in sorted(folder.glob("*.edit"))]


def stale(words):
    """The edits that can't be made, and why."""
    for name, edits in edits_of(words, reads=True).items():
        for edit in edits:
            try:
                made(edit, TOP / "crates" / name)
            except (Bad, OSError) as why:
                yield f"{name}/{edit.name}: {why}"


def main(words):
    if words[:1] == ["--read"]:
        found = list(stale(words[1:]))
        print("\n".join(found + [f"{len(found)} can't be made"]))
        return 1 if found else 0
    jobs = os.cpu_count() or 1
    if words[:1] == ["--jobs"]:
        jobs, words = int(words[1]), words[2:]
    counts = {"refused": 0, "by a name alone": 0, "not refused": 0, "unread": 0}
    with tempfile.TemporaryDirectory() as folder:
        seed = copy_of_tree(Path(folder) / "seed")
        link_work(TOP, seed)
        rooms = Queue()
        for number in range(jobs):
            rooms.put(copy_of_tree(Path(folder) / str(number)))
        copies = list(rooms.queue)
        for name, edits in edits_of(words).items():
            status, said = check(seed / "crates" / name)
            if status:
                print(said)
                sys.exit(f"{name} isn't proved as it stands")
            for room in copies:
                link_work(seed, room)

            def one(group):
                room = rooms.get()
                try:
                    return answers(group, room / "crates" / name)
                finally:
                    rooms.put(room)

            with ThreadPoolExecutor(jobs) as pool:
                for found in pool.map(one, groups_of(edits, seed / "crates" / name)):
                    for edit, (kind, why) in found.items():
                        counts[kind] += 1
                        print(f"{name}/{edit}: {kind}: {why}", flush=True)
    print(", ".join(f"{count} {kind}" for kind, count in counts.items()))
    return 0 if counts["refused"] == sum(counts.values()) else 1


if __name__ == "__main__":
    sys.exit(main(sys.argv[1:]))
