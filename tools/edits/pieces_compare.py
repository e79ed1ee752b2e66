#!/usr/bin/env python3
"""Compares the bytes of edits of texts in pieces: `ini_replay pieces`, over the library's calls, and pieces_model.py.

    pieces_compare.py ask FILE N [SEED]
    pieces_compare.py judge FILE ANSWERS
    pieces_compare.py random PROGRAM N [SEED]

`ask` writes N random questions, each a text and edits made one after another, as `ini_replay pieces` reads them; `judge`
compares what the program answered with the model, which edits the program's last text each time; `random` does both, where
PROGRAM is the command `ini_replay pieces`. The status is 1 where there is a difference.
"""
import collections

from asking import digits, name_word, option_words, options_of, run, undone
from compare import KEYS, NAMES, PIECES, SEPARATORS, UNPLAIN_SEPARATORS, VALUES, random_option
from model import POLICIES, Refused, Writing
from pieces_model import Edit, Page, answer

CALLS = ["set", "set", "set_first", "set_existing", "set_nth", "add", "add", "delete", "delete_nth", "delete_all", "rename_key"]
CALLS += ["delete_section", "delete_section", "rename_section", "add_section", "comment_of", "set_comment", "set_comment"]
CALLS += ["comment_out", "insert_before", "insert_before", "insert_after"]
LINES = ["k = v\n", "  k = v\n", "k=1\n", "j : 2\n", "k='q'\n", "a=\"w\"\r\n", "k=v", "\tk\t=\t1 \n", "k=", "k =  \n", "j=\\\n", "j=\\"]
LINES += ["# c\n", "; of k\n", "#\n", "# c", "#c\r  x\n", "\n", "\n", "\r\n", "  \n", "\r", " \r", "\x0b", "\xa0\n", "  "]
LINES += ["[a]\n", "[b]\n", "  [a]\n", "[a]", "[a] [b]\n", "[ a ]\n", "[a]k=v\n", "[b]\r", "[a]\r\n", "  [b]"]
LINES += ["  ; i\n", "\t#n\r\n", " ;x\r", "; r", " \xa0; c\n", "k=v\n ; c\n", "k=v\n ; c\n  w\n", "k=\n\n ; c\n\n"]
LINES += ["k=v\n  w\n", "k=v\n\n\n", "k=v\n  \"\"\n", "k=v\n \\\n\n", "  junk", "  #junk\n x", "  more\n", "\\\n", "k=\n\n  v\n \n"]
# Notes, which mostly only these options read.
NOTED = ["k=v ; n\n", "j = 1\t# n\r\n", "k='v' ;\n", "k=1 ;n", "k=a\\ \t;n\n", "k=v ;n\r", "[a] ; n\n", "[b];n\n", "[a]\t #n\r"]
NOTED += ["\r; n\r", "\x0b;n\n", "k=v ;m\n w ;n\n", "k=v ;n\n ;m\n", "k=v ;n\n \"\" ;m\n", "  k = v \xa0 ;n\n", "k= ;v ;n\n"]
# Keys alone, which mostly only these options read.
ALONE = ["k\n", "k\n", "j\r\n", "  k\n", " j \t\n", "k\r", "k\\\n", "j\\", "k", "  ;k\n", "j\\\\\n", "k\n\n", "k\n  \n"]
ALONE += ["k ; n\n", "j\t#n", " k ;n\r\n"]
COMMENTS = ["# c\n", "; a\n# b\n", "", "#", "# c\r\n", "#a\r  b\n", "no", "# a\nb", " # a", "\n", "# a\n\n"]


def word_of(edit):
    texts = [digits(text) for text in (edit.key, edit.other, edit.value)]
    return ",".join([edit.call, name_word(edit.name)] + texts + [str(edit.number)])


def line_of(option, writing, text, edits):
    return " ".join(option_words(option, writing) + [digits(text)] + [word_of(edit) for edit in edits])


def random_text(chance, option):
    pieces = LINES if chance.random() < 0.8 else PIECES
    if option.notes:
        pieces = pieces + NOTED
    if option.lone == 2:
        pieces = pieces + 2 * ALONE
    return "".join(chance.choices(pieces, k=chance.randrange(9)))


def random_place(chance, page):
    """A section and a key, mostly of those that the text has."""
    sections = page.document()
    name, pairs = chance.choice(sections) if chance.random() < 0.6 else (chance.choice(["a", "b", *NAMES]), [])
    full = [section for section in sections if section[1]]
    if full and chance.random() < 0.7:
        name, pairs = chance.choice(full)
    key = chance.choice(pairs)[0] if pairs and chance.random() < 0.85 else chance.choice(["k", "j", *KEYS])
    return name, key


def random_edit(chance, page, in_row):
    call = chance.choice(CALLS)
    name, key = random_place(chance, page)
    if call == "delete_section" and name is None:
        name = chance.choice(["a", "b"])
    other = chance.choice(["k", "new", "j", chance.choice(KEYS), chance.choice(NAMES)])
    value = chance.choice(["v", "w", "a b", chance.choice(VALUES)])
    if call == "set_comment":
        value = chance.choice(COMMENTS[:6] if chance.random() < 0.9 else COMMENTS)
    elif in_row and (not value.strip() or value.endswith("\\")):
        value = "v"
    return Edit(call, name, key, other, value, chance.randrange(3))


def random_writing(chance):
    separator = chance.choice(UNPLAIN_SEPARATORS if chance.random() < 0.03 else SEPARATORS)
    return Writing(chance.choice(POLICIES), chance.choice(["\n", "\r\n"]), separator)


def random_question(chance):
    """A text that the options read, and one edit, several, or a hundred in a row."""
    while True:
        option = random_option(chance, (0.8, 0.8, 0.5, 0.2, 0.1, 0.4, 0.4, 0.5))
        text = random_text(chance, option)
        try:
            page = Page(text, option)
        except Refused:
            continue
        writing = random_writing(chance)
        number = 100 if chance.random() < 0.01 else chance.choice([1, 1, 1, 6])
        return option, writing, text, [random_edit(chance, page, number > 1) for _ in range(number)]


def parsed(line):
    """A question from its line."""
    flags, policy, end, separator, text, *edits = line.split(" ")
    made = []
    for edit in edits:
        call, name, key, other, value, number = edit.split(",")
        made.append(Edit(call, None if name == "G" else undone(name[1:]), undone(key), undone(other), undone(value), int(number)))
    return *options_of(flags, policy, end, separator), undone(text), made


def shown(word):
    kind, _, hexed = word.partition(":")
    return f"{kind} {undone(hexed)!r}" if kind in ("new", "differs", "is") else word


def judged(asked, answers):
    counted, differences = collections.Counter(), []
    for (option, writing, text, edits), line in zip(asked, answers):
        words = line.split(" ")
        for edit, theirs in zip(edits, words if len(words) == len(edits) else [line] * len(edits)):
            ours = answer(option, writing, text, edit)
            kind = ours.partition(":")[0] if ours.startswith(("new", "is")) else ours
            counted[f"{edit.call} {kind}"] += 1
            if ours != theirs:
                differences.append((len(text), option, writing, text, edit, theirs, ours))
                break
            if theirs.startswith("new:"):
                text = undone(theirs[4:])
    for words, count in sorted(counted.items()):
        print(f"{words}: {count:,}")
    seen = collections.Counter()
    for _, option, writing, text, edit, theirs, ours in sorted(differences, key=lambda d: d[0]):
        if seen[edit.call] < 6:
            seen[edit.call] += 1
            print(f"{option}\n  {writing}\n  {text!r}\n  {edit}\n    the program: {shown(theirs)}\n    the model:   {shown(ours)}")
    print(f"{len(asked):,} texts, {len(differences):,} differences")
    return not differences


if __name__ == "__main__":
    run(__doc__, random_question, line_of, parsed, judged)
