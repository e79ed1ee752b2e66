#!/usr/bin/env python3
"""Compares `ini_replay answers` with the Rust crate that this library is a port of, rust-ini 0.21.3.

    compare.py texts ANSWERS CRATE BRACKETS [--written] [--less N] [--random N] [--damaged N] [--seed N]
    compare.py raw ANSWERS [--less N] [--random N] [--damaged N] [--seed N]
    compare.py lone ANSWERS [--less N] [--random N] [--damaged N] [--seed N]
    compare.py keys ANSWERS [--less N] [--random N] [--damaged N] [--seed N]
    compare.py comments ANSWERS [--less N] [--random N] [--damaged N] [--seed N]
    compare.py notes ANSWERS [--less N] [--random N] [--damaged N] [--seed N]
    compare.py crate-notes ANSWERS NOTES NOTES_BRACKETS [--less N] [--random N] [--damaged N] [--seed N]
    compare.py departures ANSWERS CRATE [NOTES NOTES_BRACKETS]
    compare.py stored CRATE BRACKETS FOLDER

ANSWERS is the command `ini_replay answers`. CRATE and BRACKETS are the two programs over the Rust crate that build.py makes of
crate_answers.rs, the second over the crate with brackets in names: they read the same lines, the one those with the last
flag 0, the other those with 1, and answer in the same form. Each may be a command of several words.

`texts` loads very many texts under all thirty-two options by both sides: all short texts over some alphabets, texts with
each character of Unicode, one by one and in runs, random longer texts, and settings files of five kinds, whole and damaged.
That is 450 million answers and takes about half an hour; with `--less 1` the short texts are a character shorter and the
characters that come one by one fewer, which is a tenth of it. It counts the texts, and the differences by declared
departure, each with the smallest text that shows it. It prints every difference that is not declared; the status is 1 if
there is one. A difference is declared only if the line grammar, by the reader in grammar.py, derives the one program's
answer, and with some of the departures, read the crate's way, the other's.

With `--written` both programs also write what they load. Each document that some options make of a text is written under
all eight escape policies, with LF and with CR LF; every difference is printed, and the status is then 1. A document that
several texts of one batch give is written once for that batch. What the two load differently, where a departure shows,
isn't written. With `--less 1` the whole then takes some five minutes.

`raw` loads such texts by the options with raw backslashes, which the crate lacks, and compares with the line grammar, by the
reader in grammar.py; `lone` does so by those that refuse a line without separator, `keys` by those that read it as a key
alone, both of both kinds of backslashes, `comments` by those with indented comments, of all of these, and `notes` by
those with inline comments, of all of these again. They print the smallest texts that are answered otherwise; the status is
1 if there is one. The short texts are two characters shorter by default.

`crate-notes` is as `texts` with inline comments on: NOTES and NOTES_BRACKETS are the programs over the crate with its feature
`inline-comment`. What the crate does otherwise then is declared in the words of docs/DIFFERENCES.md, which must stand there.
The short texts are two characters shorter by default, and most of the random ones short.

`departures` shows the smallest text of each declared departure, with what both programs answer, and fails where that is
not what cases.py says; those of inline comments where the two programs are named.

`stored` makes the lines of `answers` in the stored run of `ini_replay`, the files `stdin` and `stdout` in FOLDER, anew: the
texts of cases.py, each under one option set for each answer that it has, and the questions of writing.py. What stands in
`stdout` is what the crate answers. Lines where a departure shows are left out; the status is 1 if an option set has no line.
Those by hand, at the end of cases.py, follow.
"""
import argparse
import collections
import itertools
import pathlib
import shlex
import subprocess
import sys
from typing import NamedTuple

import cases
import texts
import writing
from grammar import DEPARTURES, NOTE_DEPARTURES, Option, Reader

DIFFERENCES = pathlib.Path(__file__).resolve().parents[2] / "docs/DIFFERENCES.md"
OPTIONS = sorted((Option(*flags) for flags in itertools.product((True, False), repeat=5)), key=Option.changes)
RAW_OPTIONS = [option._replace(raw=True) for option in OPTIONS]
LONE_OPTIONS = [option._replace(lone=1) for option in OPTIONS + RAW_OPTIONS]
KEY_OPTIONS = [option._replace(lone=2) for option in OPTIONS + RAW_OPTIONS]
WITHOUT_COMMENTS = OPTIONS + RAW_OPTIONS + LONE_OPTIONS + KEY_OPTIONS
COMMENT_OPTIONS = [option._replace(comments=True) for option in WITHOUT_COMMENTS]
NOTE_OPTIONS = [option._replace(notes=True) for option in WITHOUT_COMMENTS + COMMENT_OPTIONS]


class Crate(NamedTuple):
    """The two programs over the Rust crate, and the options by which they are asked."""

    plain: str
    brackets: str
    options: list = OPTIONS

    def program(self, option):
        return self.brackets if option.brackets else self.plain

    def programs(self):
        """Each program with the options by which it reads."""
        for brackets, program in enumerate((self.plain, self.brackets)):
            yield program, [option for option in self.options if option.brackets == bool(brackets)]


def answers(program, questions):
    """The lines with which a program answers, as one text."""
    found = subprocess.run(shlex.split(program), input=questions, stdout=subprocess.PIPE, check=True).stdout
    asked, answered = questions.count(b"\n"), found.count(b"\n")
    if asked != answered:
        sys.exit(f"{program}: {asked} lines in, {answered} out")
    return found


def questions_of(batch, options):
    """All texts of a batch under some options, a line each."""
    lines = []
    for option in options:
        head = option.flags() + " "
        lines.append(head + f"\n{head}".join(batch) + "\n")
    return "".join(lines).encode()


def documents_of(questions, ours, crate):
    """Of the questions on loading one for each document that both programs load alike."""
    lines = zip(ours.splitlines(), crate.splitlines(), questions.splitlines(keepends=True))
    asked = {one: question for one, other, question in lines if one == other and one.startswith(b"ok")}
    return list(asked.values())


def under_all_ways(questions):
    """The questions on what is written of what questions on loading load, under each policy with each line end."""
    heads = [way.encode() + b" " for way in writing.WAYS]
    return b"".join(head + head.join(questions) for head in heads if questions)


def smallest_set(text, option, crate, seen):
    """The fewest of the departures seen by which the text has the crate's answer, or None."""
    for count in range(1, len(seen) + 1):
        for some in itertools.combinations(sorted(seen, key=DEPARTURES.index), count):
            if Reader(text, option, some).answer() == crate:
                return some
    return None


def explained(text, option, ours, crate):
    """The declared departures by which the answers differ, or None."""
    if Reader(text, option).answer() != ours:
        return None
    reader = Reader(text, option, DEPARTURES)
    if reader.answer() != crate:
        return None
    return smallest_set(text, option, crate, reader.seen)


def differing(questions, ours, crate):
    """The questions that have different answers, each with the two."""
    if ours == crate:
        return
    for lines in zip(questions.splitlines(), ours.splitlines(), crate.splitlines()):
        if lines[1] != lines[2]:
            yield tuple(line.decode() for line in lines)


class Tally:
    """What the comparison has found."""

    def __init__(self, program, crate, writes):
        self.program = program
        self.crate = crate
        self.writes = writes
        self.compared = 0
        self.undeclared = 0
        self.classes = {}
        self.documents = 0
        self.miswritten = 0

    def compare(self, batch):
        for program, options in self.crate.programs():
            questions = questions_of(batch, options)
            ours, crate = answers(self.program, questions), answers(program, questions)
            self.compared += len(batch) * len(options)
            for question, one, other in differing(questions, ours, crate):
                self.note(question, one, other)
            if self.writes:
                self.compare_written(program, documents_of(questions, ours, crate))

    def compare_written(self, program, loading):
        questions = under_all_ways(loading)
        ours, crate = answers(self.program, questions), answers(program, questions)
        self.documents += len(loading)
        for question, one, other in differing(questions, ours, crate):
            self.miswritten += 1
            print(f"written: {question}\n    here   {one}\n    crate  {other}", flush=True)

    def note(self, question, ours, crate):
        flags, digits = question.split(" ")
        text = bytes.fromhex(digits).decode()
        option = Option(*(flag == "1" for flag in flags))
        departures = explained(text, option, ours, crate)
        if departures is None:
            self.undeclared += 1
            print(f"not declared: {question}  {text!r}\n    here   {ours}\n    crate  {crate}", flush=True)
            return
        found = self.classes.setdefault(departures, [0, None])
        found[0] += 1
        size = (len(text), option.changes(), text)
        if found[1] is None or size < found[1][0]:
            found[1] = (size, option, ours, crate)

    def report(self):
        for departures, (count, smallest) in sorted(self.classes.items(), key=lambda found: (len(found[0]), -found[1][0])):
            (_, _, text), option, ours, crate = smallest
            print(f"{count} by: {'; and '.join(departures)}")
            print(f"    {option.flags()} {text!r}\n    here   {ours}\n    crate  {crate}")
        total = sum(count for count, _ in self.classes.values())
        print(f"{self.compared} answers compared, {total} differ as declared, {self.undeclared} otherwise")
        if self.writes:
            count = self.documents * len(writing.WAYS)
            print(f"{count} written texts of {self.documents} documents compared, {self.miswritten} differ")


def compare_texts(arguments):
    tally = Tally(arguments.answers, Crate(arguments.crate, arguments.brackets), arguments.written)
    sorts = {
        "short texts": texts.short_texts(arguments.less),
        "texts of each character": texts.each_character(arguments.less),
        "texts of runs of characters": texts.character_runs(),
        "random texts": texts.made(texts.random_text, arguments.random, arguments.seed),
        "settings files": map(texts.hexadecimal, texts.SETTINGS),
        "damaged settings files": texts.made(texts.damaged_settings, arguments.damaged, arguments.seed),
    }
    return tell(tally, sorts)


def compare_crate_notes(arguments):
    lacking = [words for words in NOTE_DEPARTURES if words not in DIFFERENCES.read_text()]
    if lacking:
        sys.exit(f"DIFFERENCES.md lacks: {'; '.join(lacking)}")
    options = [option._replace(notes=True) for option in OPTIONS]
    tally = Tally(arguments.answers, Crate(arguments.crate, arguments.brackets, options), False)
    sorts = {
        "short texts": texts.short_texts(arguments.less, texts.NOTE_TEXTS),
        "short random texts": texts.made(texts.random_line_text, arguments.random, arguments.seed),
        "random texts": texts.made(texts.random_text, arguments.random // 10, arguments.seed),
        "damaged settings files": texts.made(texts.damaged_settings, arguments.damaged, arguments.seed),
    }
    return tell(tally, sorts)


def tell(tally, sorts):
    """Compares texts by sorts, and prints what is found."""
    for sort, some in sorts.items():
        before = tally.compared
        for batch in texts.batches(some):
            tally.compare(batch)
        count = tally.compared - before
        print(f"{count // len(OPTIONS)} {sort}, {count} answers", flush=True)
    tally.report()
    return 1 if tally.undeclared or tally.miswritten else 0


def compare_raw(arguments):
    return compare_lacked(arguments, RAW_OPTIONS, lambda digits: "5c" in digits)


def compare_lone(arguments):
    return compare_lacked(arguments, LONE_OPTIONS, lambda digits: True)


def compare_keys(arguments):
    return compare_lacked(arguments, KEY_OPTIONS, lambda digits: True, texts.SHORT_TEXTS + texts.KEY_TEXTS)


def has_mark(digits):
    return "3b" in digits or "23" in digits


def compare_comments(arguments):
    return compare_lacked(arguments, COMMENT_OPTIONS, has_mark, texts.SHORT_TEXTS + texts.COMMENT_TEXTS)


def compare_notes(arguments):
    return compare_lacked(arguments, NOTE_OPTIONS, has_mark, texts.NOTE_TEXTS)


def compare_lacked(arguments, options, is_telling, kinds=texts.SHORT_TEXTS):
    sorts = {
        "short texts": texts.short_texts(arguments.less, kinds),
        "random texts": texts.made(texts.random_text, arguments.random, arguments.seed),
        "settings files": map(texts.hexadecimal, texts.SETTINGS),
        "damaged settings files": texts.made(texts.damaged_settings, arguments.damaged, arguments.seed),
    }
    differences = []
    for sort, some in sorts.items():
        count = 0
        for batch in texts.batches(some):
            batch = [digits for digits in batch if is_telling(digits)]
            asked = [(option, bytes.fromhex(digits).decode()) for option in options for digits in batch]
            found = answers(arguments.answers, questions_of(batch, options))
            for (option, text), line in zip(asked, found.decode().splitlines()):
                wanted = Reader(text, option).answer()
                if line != wanted:
                    differences.append((len(text), option.flags(), text, line, wanted))
            count += len(asked)
        print(f"{sort}: {count} answers", flush=True)
    for _, flags, text, line, wanted in sorted(differences)[:20]:
        print(f"{flags} {text!r}\n    here     {line}\n    grammar  {wanted}")
    print(f"{len(differences)} differences")
    return 1 if differences else 0


def question_of(option, text):
    return f"{option.flags()} {texts.hexadecimal(text)}\n"


def one_line(found):
    return found.decode().rstrip("\n")


def show_departures(arguments):
    status = 0
    shown = [((departure,), *row) for departure, *row in cases.DEPARTURES_SHOWN]
    shown += cases.NOTE_DEPARTURES_SHOWN if arguments.notes else ()
    for departures, option, text, ours, crate in shown:
        question = question_of(option, text).encode()
        program = Crate(*arguments.notes).program(option) if option.notes else arguments.crate
        found = (one_line(answers(arguments.answers, question)), one_line(answers(program, question)))
        declared = found == (ours, crate) and explained(text, option, ours, crate) == departures
        print(f"{'; and '.join(departures)}\n    {option.flags()} {text!r}\n    here   {found[0]}\n    crate  {found[1]}")
        if not declared:
            status = 1
            print(f"    but declared:\n    here   {ours}\n    crate  {crate}")
    return status


def departs(text, option, crate):
    """Whether a departure shows in the crate's answer; a difference that is not declared ends the run."""
    if Reader(text, option).answer() == crate:
        return False
    if Reader(text, option, DEPARTURES).answer() != crate:
        sys.exit(f"not declared: {option.flags()} {text!r}: {crate}")
    return True


def telling_lines(programs, text, first):
    """The lines of a text for the stored run, one for each answer, and the number of lines that a departure touches."""
    lines, departing = {}, 0
    for option in dict.fromkeys((first, *OPTIONS)):
        question = question_of(option, text)
        crate = one_line(answers(programs.program(option), question.encode()))
        if departs(text, option, crate):
            departing += 1
        else:
            lines.setdefault(crate, question)
    return [(question, crate + "\n") for crate, question in lines.items()], departing


def writing_line(program, option, text, way):
    """The line on what is written of a text for the stored run, or None where a departure shows in loading it."""
    question = question_of(option, text)
    if departs(text, option, one_line(answers(program, question.encode()))):
        return None
    question = f"{way} {question}"
    return question, one_line(answers(program, question.encode())) + "\n"


def store_lines(folder, lines):
    """Puts the lines into the stored run, before those that ask something else."""
    stored = zip(*((folder / name).read_text().splitlines(keepends=True) for name in ("stdin", "stdout")))
    lines = lines + [line for line in stored if not line[0].startswith("answers ")]
    for column, name in enumerate(("stdin", "stdout")):
        (folder / name).write_text("".join(line[column] for line in lines))


def store(arguments):
    programs = Crate(arguments.crate, arguments.brackets)
    lines, departing = [], 0
    for first, group in cases.TELLING:
        for text in group:
            more, touched = telling_lines(programs, text, first)
            lines += more
            departing += touched
    loading = len(lines)
    for option, text, way in writing.telling(OPTIONS):
        line = writing_line(programs.program(option), option, text, way)
        lines += [line] if line else []
        departing += not line
    by_hand = [(f"{question}\n", f"{answer}\n") for question, answer in cases.BY_HAND]
    store_lines(pathlib.Path(arguments.folder), [(f"answers {question}", answer) for question, answer in lines + by_hand])
    print(f"{len(lines)} lines stored, {len(lines) - loading} of them on writing; {departing} left out for a departure")
    counts = collections.Counter(question.split()[0] for question, _ in lines[:loading])
    print("on loading, by option set:", ", ".join(f"{option.flags()} {counts[option.flags()]}" for option in OPTIONS))
    return 0 if all(counts[option.flags()] for option in OPTIONS) else 1


def add_command(commands, name, run, words, sizes=()):
    """A command of these words, with these sizes where none are given."""
    command = commands.add_parser(name)
    command.set_defaults(run=run)
    for word in words:
        command.add_argument(word)
    for option, size in zip(("--less", "--random", "--damaged", "--seed"), sizes):
        command.add_argument(option, type=int, default=size)
    return command


def main():
    parser = argparse.ArgumentParser(description=__doc__, formatter_class=argparse.RawDescriptionHelpFormatter)
    commands = parser.add_subparsers(required=True)
    three = ("answers", "crate", "brackets")
    command = add_command(commands, "texts", compare_texts, three, (0, 100_000, 20_000, 1))
    command.add_argument("--written", action="store_true")
    lacking = (("raw", compare_raw), ("lone", compare_lone), ("keys", compare_keys), ("comments", compare_comments))
    for lacked, run in (*lacking, ("notes", compare_notes)):
        add_command(commands, lacked, run, ("answers",), (2, 20_000, 5_000, 1))
    add_command(commands, "crate-notes", compare_crate_notes, three, (2, 100_000, 5_000, 1))
    add_command(commands, "departures", show_departures, ("answers", "crate")).add_argument("notes", nargs="*")
    add_command(commands, "stored", store, ("crate", "brackets", "folder"))
    arguments = parser.parse_args()
    sys.exit(arguments.run(arguments))


if __name__ == "__main__":
    main()
