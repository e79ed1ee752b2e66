#!/usr/bin/env python3
"""Compares the bytes of edits: `ini_replay edits`, over the library's calls, and the model in pieces_model.py.

    compare.py random PROGRAM N [SEED]
    compare.py carried PROGRAM
    compare.py stored FOLDER

`random` asks N random edits of both, and prints every difference with the smallest text that was found to show it; the
status is 1 if there is one. PROGRAM is the command `ini_replay edits`, of several words as any.

`carried` asks the same of the texts of the case files, each call under every set of options.

`stored` makes the lines of `edits` in the stored run of `ini_replay`, the files `stdin` and `stdout` in FOLDER, anew: the
edits of cases.py. What stands in `stdout` is what the model answers, never the program.
"""
import collections
import itertools
import pathlib
import random
import sys

import cases
from asking import answers, digits, name_word, option_words, undone
from model import POLICIES, Option, Question, Writing
from pieces_model import whole_answer as answer

BATCH = 20_000
CALLS = ["set_existing", "delete", "set", "add", "rename_key", "delete_section", "rename_section"]
SECTION_CALLS = ["delete_section", "rename_section"]
PIECES = ["\n", "\n", "\n", "\r", "\r\n", " ", "\t", "=", ":", "a", "k", "[a]", "[b]", "[a]\n", "k=", "a=v", "k=v\n", "\nk = w"]
PIECES += ["\n k=v", "=v"]
PIECES += ["\n ", "\n\n", "\n  ", "\r\n  w", '"', "'", "\"q\"", "\\", "\\\n", "\\n", "\\x", "\\x0041", "#", "\n#c\n", ";", "\x0b"]
PIECES += ["\xa0", "]", "[", "x", "\n ;c\n", "\nk\n", "\n j\n", " ;n", "\t#", "k=v ;n\n", "\\ "]
IN_QUOTES = ["v", "w w", " ", "\n", "\r\n ", '"', "'", "\\", "\\\\", '\\"', "\\'", "\\\n", "\\x0041", "=", "#", '""', "'v'"]
VALUES = ["v", "w", "", "a b", "it's", 'a"b', '"q', "'", "é", " x", "a=b", "#", "a\\b", "l\nm", "\U0001f431", "\t", "]", "\x0b"]
VALUES += ["a\\", "a\\\\", "\\\\\\", "\\'", "\\\n", "a\\\r", "\\ ", "a ;b", "a\t# b", ";b"]
KEYS = ["k", "a", "x", "", " k", "\tk", "k ", "a=b", ";k", "[k", "é", "k\n", "\xa0k", "  \U0001f431", "k ;a"]
NAMES = ["d", " a", "a]", "é", "\t", "[a]", "a ;b"]
SEPARATORS = ["=", ":", " = ", ":\t"]
UNPLAIN_SEPARATORS = ["", " =="]


def line_of(question):
    """The question as `ini_replay edits` reads it."""
    words = [question.call, *option_words(question.option, question.writing), name_word(question.name)]
    return " ".join(words + [digits(text) for text in (question.key, question.value, question.text)])


def quoted_pair(chance):
    """A pair whose value's source begins and ends with one mark."""
    mark = chance.choice("\"'")
    content = "".join(chance.choices(IN_QUOTES, k=chance.randrange(4)))
    return chance.choice(["k=", "[a]\nk = "]) + mark + content + mark


# What stands before a random text, for calls that would mostly find nothing there.
FRONTS = {
    "rename_key": ["k=v\n", "[a]\n  k\t= 'v'\n", "\tk =v\n", "[a]k\n = v", "[b] [a] \xa0k\\ :v\r\n"],
    "delete_section": ["[a]\nk=v\n", "  [a] ", "[b] [a]k=v\n", "[ a ]\n# c\n", "k=1\n[a]\r\nk=v\n\n", "[a]\nk=v\n#c\n  "],
    "rename_section": ["[a]\nk=v\n", "  [\ta ] ", "[b] [a]k=v\n", "[a]] \t\n", "[\\x0061]", "[a\\\n] ", "[a]\t ;n\n"],
}
# Values as a text spells them, and what they are.
SPELLED = [("\\\\ ", "\\"), ("\\x0041b", "Ab"), ("'v' w", "v w"), ('"it\'s"', "it's"), ("v\n w", "v\nw")]
SPELLED += [("a\\\nb", "ab"), ("\\;", ";")]


def random_option(chance, chances):
    """Options that are on by these chances; what becomes of a line without separator comes before the last two."""
    *first, comments, notes = (chance.random() < likely for likely in chances)
    return Option(*first, lone=chance.choice((0, 0, 1, 2, 2)), comments=comments, notes=notes)


def random_question(chance):
    """An edit of a random text by random options, mostly of a name and a key that it may have."""
    text = "".join(chance.choices(PIECES, k=chance.randrange(14)))
    if chance.random() < 0.3:
        text = quoted_pair(chance) + text
    option = random_option(chance, (0.5, 0.5, 0.5, 0.5, 0.5, 0.3, 0.4, 0.5))
    separator = chance.choice(SEPARATORS if chance.random() < 0.95 else UNPLAIN_SEPARATORS)
    writing = Writing(chance.choice(POLICIES), chance.choice(["\n", "\r\n"]), separator)
    name = chance.choice([None, None, "a", "a", "b", "c", "", chance.choice(NAMES)])
    key = chance.choice(["k", "a", "k", "a", chance.choice(KEYS)])
    value = chance.choice(["v", "w", chance.choice(VALUES)])
    call = chance.choice(CALLS)
    if call in FRONTS and chance.random() < 0.6:
        text = chance.choice(FRONTS[call]) + text
    elif call.startswith("set") and chance.random() < 0.2:
        spelled, value = chance.choice(SPELLED)
        name, key, text = None, "k", "k = " + spelled + chance.choice(["\n", " \r\n", "\n\nk=2\n", "\t;n\n"]) + text
    if call == "rename_key":
        value = chance.choice(["v", chance.choice(KEYS)])
    elif call in SECTION_CALLS:
        name = chance.choice(["a", "a", "a", "b", "b", "", chance.choice(NAMES)])
        value = chance.choice(["v", chance.choice(NAMES)])
    return Question(call, option, writing, name, key, value, text)


def differing(program, questions):
    """The questions that the two answer differently, each with both answers."""
    for question, theirs in zip(questions, answers(program, list(map(line_of, questions)))):
        ours = answer(question)
        if ours != theirs:
            yield question, theirs, ours


def smaller(question):
    """The same edit of each text that is a character shorter, and with each option as it is by default."""
    text = question.text
    for place in range(len(text)):
        yield question._replace(text=text[:place] + text[place + 1 :])
    for field, default in zip(Option._fields, cases.DEFAULT):
        if getattr(question.option, field) != default:
            yield question._replace(option=question.option._replace(**{field: default}))
    if question.writing != cases.BASICS:
        yield question._replace(writing=cases.BASICS)


def smallest(program, difference):
    """A difference that gets no smaller by one step."""
    while found := list(differing(program, list(smaller(difference[0])))):
        difference = found[0]
    return difference


def shown(line):
    return repr(undone(line[4:])) if line.startswith("new ") else line


def kind(line):
    """Of an answer the word that counts: `new`, `none`, or why it was refused."""
    first, *rest = line.split(" ")
    return rest[-1] if first == "refused" else first


def compare(program, number, seed):
    """Whether the two answer alike."""
    chance = random.Random(seed)
    counted, seen, differences = collections.Counter(), set(), 0
    for start in range(0, number, BATCH):
        questions = [random_question(chance) for _ in range(min(BATCH, number - start))]
        counted.update(f"{question.call} {kind(answer(question))}" for question in questions)
        for difference in differing(program, questions):
            differences += 1
            if len(seen) < 40:
                question, theirs, ours = smallest(program, difference)
                if question not in seen:
                    seen.add(question)
                    print(question, f"\n    the program: {shown(theirs)}\n    the model:   {shown(ours)}", flush=True)
    for words, count in sorted(counted.items()):
        print(f"{words}: {count:,}")
    print(f"{number:,} edits, {differences:,} differences")
    return differences == 0


def carried(program):
    """Whether the two answer alike of the texts of the case files."""
    options = [Option(*flags) for flags in itertools.product((True, False), repeat=5)]
    questions = list(cases.carried(options))
    differences = list(differing(program, questions))
    for question, theirs, ours in differences[:40]:
        print(question, f"\n    the program: {shown(theirs)}\n    the model:   {shown(ours)}", flush=True)
    print(f"{len(cases.carried_texts())} texts, {len(questions):,} edits, {len(differences):,} differences")
    return not differences


def stored(folder):
    """Puts the edits into the stored run, after the lines that ask something else."""
    questions = list(cases.questions())
    lines = [(f"edits {line_of(question)}\n", f"{answer(question)}\n") for question in questions]
    lines += [(f"edits {line}\n", "no question\n") for line in cases.NO_QUESTIONS]
    stored = zip(*((folder / name).read_text().splitlines(keepends=True) for name in ("stdin", "stdout")))
    lines = [line for line in stored if not line[0].startswith("edits ")] + lines
    for column, name in enumerate(("stdin", "stdout")):
        (folder / name).write_text("".join(line[column] for line in lines))
    print(f"{len(questions)} edits")


def main():
    match sys.argv[1:]:
        case ["random", program, number, *seed] if len(seed) < 2:
            sys.exit(not compare(program, int(number), seed[0] if seed else "1"))
        case ["carried", program]:
            sys.exit(not carried(program))
        case ["stored", folder]:
            stored(pathlib.Path(folder))
        case _:
            sys.exit(__doc__)


if __name__ == "__main__":
    main()
