#!/usr/bin/env python3
"""Compares three-way merges: `ini_replay merges`, over the library's calls, and a model that was written apart.

    merges.py ask FILE N [SEED]
    merges.py judge FILE ANSWERS
    merges.py random PROGRAM N [SEED]

`ask` writes N random triples of texts that share much, as `ini_replay merges` reads them; `judge` compares what the program
answered with the model; `random` does both, where PROGRAM is the command `ini_replay merges`. The status is 1 where there is
a difference. The model knows what each look-up is to answer, and makes the edits of pieces_model.py, each on the whole text.
In half of them a setting's value is the list of all values of its key, one a line, and is set value by value. A tenth have
many keys and many changes.
"""
import collections

from asking import digits, name_word, option_words, options_of, run, undone
from compare import VALUES, random_option
from model import Refused
from pieces_compare import LINES, random_writing
from pieces_model import Edit, Page, edited

MORE = ["k = v\n", "k=2\n", "j=1\n", "j = x\n", "[a]\n", "[b]\n", "[a]\nk=1\nj=2\n", "[b]\nk=v\n", "k=\n", "i=0\n", "; c\n", "\n"]


def values_of(text, option):
    """Of each section and key the values in the first section of the name, in order."""
    found, seen = {}, set()
    for name, pairs in Page(text, option).document():
        if name not in seen:
            seen.add(name)
            for key, value in pairs:
                found.setdefault((name, key), []).append(value)
    return found


def settings(text, option, lists=False):
    """What a setting's value is: the first one, or all of them, one a line."""
    def shown(values):
        return "\n".join(value.replace("\\", "\\\\").replace("\n", "\\n") for value in values) if lists else values[0]
    return {place: shown(values) for place, values in values_of(text, option).items()}


def put(text, option, writing, calls):
    """The text after calls of a key, one after another."""
    for call, (name, key), value, number in calls:
        new = edited(Page(text, option), writing, Edit(call, name, key, "", value, number))
        text = text if new is None else new
    return text


def calls_of(place, value, values, there):
    """What gives the key of a setting its new value, where so many pairs of it are there."""
    if value is None:
        return [("delete_all", place, "", 0)]
    if values is None:
        return [("set", place, value, 0)]
    sets = [("set_nth", place, one, number) for number, one in enumerate(values[:there])]
    outs = [("delete_nth", place, "", number) for number in reversed(range(len(values), there))]
    return sets + outs + [("add", place, one, 0) for one in values[there:]]


def changes(base, ours):
    """The settings that ours changed, in its order, and then those that it took out, in the base's."""
    places = [place for place in ours if base.get(place) != ours[place]]
    return places + [place for place in base if place not in ours]


def value_word(value):
    return "-" if value is None else "=" + digits(value)


def answer(option, writing, side, texts):
    """The line that answers a triple."""
    lists = side.endswith("-lists")
    base, ours, theirs = (settings(text, option, lists) for text in texts)
    wanted, there = values_of(texts[1], option), values_of(texts[2], option)
    text, words = texts[2], []
    refusal = None
    for place in changes(base, ours):
        values = [answers.get(place) for answers in (base, ours, theirs)]
        in_conflict = values[0] != values[2] and values[1] != values[2]
        if in_conflict:
            words.append(",".join([name_word(place[0]), digits(place[1])] + [value_word(value) for value in values]))
        if refusal or values[1] == values[2] or (in_conflict and side.startswith("theirs")):
            continue
        try:
            calls = calls_of(place, values[1], wanted.get(place) if lists else None, len(there.get(place, [])))
            text = put(text, option, writing, calls)
        except Refused as refused:
            refusal = str(refused)
    first = f"refused:{refusal}" if refusal else f"new:{digits(text)}"
    return " ".join([first] + words)


def line_of(option, writing, side, texts):
    return " ".join(option_words(option, writing) + [side] + [digits(text) for text in texts])


def many_lines(chance):
    """Lines of many keys, in some sections."""
    pairs = [f"{chance.choice('abcdefghijklmnopqrstuvwxyz')}{chance.choice(['=', ' = '])}{chance.choice('123')}\n" for _ in range(40)]
    for header in ["[a]\n", "[b]\n", "[a]\n"][:chance.randrange(4)]:
        pairs.insert(chance.randrange(len(pairs)), header)
    return pairs


def changed(chance, lines, more, steps):
    """The lines with some taken out, put in, moved or exchanged."""
    lines = list(lines)
    for _ in range(steps):
        place = chance.randrange(len(lines) + 1)
        step = chance.random()
        if step < 0.45 or not lines:
            lines.insert(place, chance.choice(more if chance.random() < 0.7 else LINES))
        elif step < 0.7:
            del lines[place % len(lines)]
        elif step < 0.85:
            lines.insert(place, lines.pop(chance.randrange(len(lines))))
        else:
            lines[place % len(lines)] = f"{chance.choice('kji')}={chance.choice(['v', '2', chance.choice(VALUES)])}\n"
    return lines


def is_read(text, option):
    try:
        Page(text, option)
    except Refused:
        return False
    return True


def empties_early(texts, option):
    """Whether ours empties a value before its last change: in pieces that were edited, what stood after the value has no part in
    how a later pair looks, and in a text that is read anew it has."""
    base, ours = (settings(text, option) for text in texts[:2])
    return any(ours.get(place) == "" for place in changes(base, ours)[:-1])


def random_question(chance):
    """Three texts that the options read."""
    while True:
        option = random_option(chance, (0.8, 0.8, 0.3, 0.1, 0.1, 0.4, 0.3, 0.3))
        more = MORE + ["k\n", "j\n", "  i\n"] * (option.lone == 2) + ["k=v ;n\n", "j = 2\t#n\n"] * option.notes
        base, steps = [chance.choice(more if chance.random() < 0.7 else LINES) for _ in range(chance.randrange(9))], [0, 1, 1, 2, 3, 5]
        if chance.random() < 0.1:
            base, more, steps = many_lines(chance), more + many_lines(chance) * 4, [2, 40, 60]
        texts = ["".join(base)] + ["".join(changed(chance, base, more, chance.choice(steps))) for _ in range(2)]
        if not all(is_read(text, option) for text in texts) or empties_early(texts, option):
            continue
        side = chance.choice(["ours", "theirs", "ours-lists", "theirs-lists"])
        if side.endswith("-lists") and any("" in values for values in values_of(texts[1], option).values()):
            continue
        return option, random_writing(chance), side, texts


def parsed(line):
    """A question from its line."""
    flags, policy, end, separator, side, *texts = line.split(" ")
    return *options_of(flags, policy, end, separator), side, [undone(text) for text in texts]


def judged(asked, answers):
    counted, differences = collections.Counter(), []
    for question, theirs in zip(asked, answers):
        ours = answer(*question)
        first, *words = ours.split(" ")
        counted[first.partition(":")[0] + (" with conflicts" if words else "")] += 1
        if ours != theirs:
            differences.append((sum(map(len, question[3])), question, theirs, ours))
    for words, count in sorted(counted.items()):
        print(f"{words}: {count:,}")
    for _, question, theirs, ours in sorted(differences, key=lambda found: found[0])[:10]:
        print(*question, f"\n    the program: {theirs}\n    the model:   {ours}")
    print(f"{len(asked):,} triples, {len(differences):,} differences")
    return not differences


if __name__ == "__main__":
    run(__doc__, random_question, line_of, parsed, judged)
