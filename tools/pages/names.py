#!/usr/bin/env python3
"""Makes the names in a page of the manual or in completions: of commands, options and choices, and the words that these take.

    tools/pages/names.py FILE > NEW && mv NEW FILE

FILE is share/man/ini_file.1, share/man/ini_tool.1 or a file of share/completions. The names are those of the programs' help, as
`taken.py` reads them. Prints FILE with each list anew that stands between comments `made: NAME` and `end`; of a page also the
synopsis and the first line of each entry of commands, options, choices and statuses, in the help's order. The texts of entries
stay. It ends with status 1 and a line on standard error where an entry isn't in the help, one of the help has no text on the
page, or a text lacks a word that its option takes.
"""
import re
import sys
import textwrap
from pathlib import Path

sys.dont_write_bytecode = True
import taken  # noqa: E402

# how a list begins and ends in the completions of each shell, and how words are offered by the command
LIST = {"bigrosk": ("local -a ", "=(", ")"), "_bigrosk": ("local -a ", "=(", ")"), "bigrosk.fish": ("set -g bigrosk_", " ", "")}
CASES = {
    "bigrosk": ("case $command in", "{}) _bigrosk_words {} ;;", " | ", "esac"),
    "_bigrosk": ("case $command in", "({}) compadd -- {} ;;", "|", "esac"),
    "bigrosk.fish": ('switch "$command"', "case {}\n    printf '%s\\n' {}", " ", "end"),
}


def wrapped(line, indent, end):
    """A line that is broken where it is long, with the end of each part but the last."""
    parts = textwrap.wrap(line, 126 - len(indent), subsequent_indent="    ", break_on_hyphens=False, break_long_words=False)
    return f"{end}\n".join(indent + part for part in parts) + "\n"


def made_lists(file, indent, old):
    """The lists that stood there."""
    begin, middle, end = LIST[file]
    text = ""
    for name in re.findall(rf"^{indent}{begin}(\w+)", old, re.M):
        words = taken.lists().get(name) or taken.fail(f"{file}: {name} is no list")
        text += wrapped(f"{begin}{name}{middle}{' '.join(words)}{end}", indent, " \\" if file == "bigrosk.fish" else "")
    return text


def made_cases(words_of, other):
    """What offers words by the command, and those of another one where the command has none."""

    def made(file, indent, _):
        begin, case, joint, end = CASES[file]
        rows = {}
        for command in taken.commands("ini_file"):
            if words_of(command) and words_of(command) != words_of(other):
                rows.setdefault(tuple(words_of(command)), []).append(command)
        text = f"{indent}{begin}\n"
        for words, named in [*rows.items(), (words_of(other), ["'*'" if file == "bigrosk.fish" else "*"])]:
            for line in case.format(joint.join(named), " ".join(words)).split("\n"):
                text += wrapped(line.strip(), indent + "    " * (2 if line.startswith(" ") else 1), " \\")
        return f"{text}{indent}{end}\n"

    return made


def own_choices(command):
    """The choices of a command, in bash: its own, and then those that each takes."""
    every = taken.lists()["any_choices"]
    return [name for name in taken.choices_of(command) if name not in every] + ['"${any_choices[@]}"']


def escaped(text):
    """A name in the manual."""
    return text.replace("-", "\\-")


def made_sentence(named, joint):
    """Names with what follows each, in bold and italic, and a word before the last."""

    def made(*_):
        text, count = "", len(named())
        for number, (name, argument) in enumerate(named().items(), 1):
            parts = [("B", escaped(name))] + ([("I", argument)] if argument else [])
            if number < count - 1:
                parts[-1] = (parts[-1][0] + "R", parts[-1][1] + " ,")
            text += f"{joint}\n" if number == count else ""
            text += "".join(f".{font} {part}\n" for font, part in parts)
        return text

    return made


def made_words(name):
    """The words of an option in a sentence; `auto` is explained apart."""
    return made_sentence(lambda: dict.fromkeys([word for word in taken.words()[name] if word != "auto"], ""), "or")


MADE = {
    "lists": made_lists,
    "forms": made_cases(taken.forms_written, "check"),
    "choices": made_cases(own_choices, taken.OTHER),
    "options of both": made_sentence(lambda: taken.options("ini_tool"), "and"),
    "dialects": made_words("dialects"),
    "encodings": made_words("encodings"),
    "policies": made_words("policies"),
}


def between_marks(file, text):
    """The text with what stands between marks made anew."""

    def anew(mark):
        make = MADE.get(mark[3]) or taken.fail(f"{file}: {mark[3]}: nothing makes that")
        return f"{mark[1]}{mark[2]} made: {mark[3]}\n{make(file, mark[1], mark[4])}{mark[1]}{mark[2]} end\n"

    marked = re.compile(r"""^( *)(#|\.\\") made: ([a-z ]+)\n(.*?)^\1\2 end\n""", re.M | re.S)
    if not 0 < text.count(" made: ") == len(marked.findall(text)):
        taken.fail(f"{file}: no mark, or one without an end")
    return marked.sub(anew, text)


def synopsis(program):
    """What stands below SYNOPSIS."""
    calls = []
    for command, arguments in taken.commands(program).items():
        lines = [f".B {program}", ".RI [ OPTIONS ]", f".B {escaped(command)}"] + [".RI [ CHOICES ]"] * (program == "ini_file")
        for plain, optional in re.findall(r"((?:\w+ ?)+)|\[(\w+)\]|\.\.", arguments):
            lines.append(f".I {plain.strip()}" if plain else f".RI [ {optional} ]" if optional else "\\&..")
        calls.append("\n".join(lines))
    return "\n.br\n".join(calls) + "\n"


def first_line(name, argument):
    """The first line of an entry: the names, each with what follows."""
    named = [escaped(form) for form in taken.forms(name)]
    if argument:
        return ".BI " + "\\fR, \\fP\" ".join(f'{form} " {argument}' for form in named) + '"'
    return f".B {named[0]}" if len(named) == 1 else ".BR " + ' ", " '.join(named)


def lacking(name, text):
    """The words of an option that its text lacks."""
    words = {option: taken.words()[of] for of, (option, _, _) in taken.WORDS.items()}
    words["--like"] = taken.words()["dialects"]
    words["--format"] = [word for command in taken.commands("ini_file") for word in taken.forms_written(command)]
    said = text.replace("\\-", "-")
    return [word for word in words.get(name, ()) if not re.search(rf"(?<![\w-]){word}(?![\w-])", said)]


def entries(where, text, named):
    """Entries of the manual in the order of these, each with its first line anew."""
    texts = {}
    for head, said in re.findall(r"\.TP\n\.\w+ (.*)\n((?:.*\n)*?)(?=\.TP\n|\Z)", text):
        name = head.split()[0].replace("\\-", "-")
        if name not in named or name in texts:
            taken.fail(f"{where}: {name} " + ("stands twice" if name in texts else "isn't in the help"))
        texts[name] = said
    for name in named:
        if not texts.get(name):
            taken.fail(f"{where}: {name} of the help has no text")
        for word in lacking(name, texts[name]):
            taken.fail(f"{where}: the text of {name} lacks {word}")
    return "".join(f".TP\n{first_line(name, argument)}\n{texts[name]}" for name, argument in named.items())


def manual(program, text):
    """A page of the manual with its synopsis and its entries anew."""
    wanted = {"DESCRIPTION": [dict.fromkeys(taken.commands(program), "")], "OPTIONS": [taken.options(program)]}
    if program == "ini_file":
        wanted["OPTIONS"].append(taken.helped("Choices"))
        wanted["EXIT STATUS"] = [dict.fromkeys(taken.statuses(), "")]
    runs = re.compile(r"(?:^\.TP\n(?:(?!\.TP\n|\.PP\n).*\n)+)+", re.M)
    parts = re.split(r"^\.SH (.*)\n", text, flags=re.M)
    for at in range(1, len(parts), 2):
        where, named = f"{program}.1, {parts[at]}", iter(wanted.get(parts[at], ()))
        if parts[at] == "SYNOPSIS":
            parts[at + 1] = synopsis(program)
        elif parts[at] in wanted:
            if len(runs.findall(parts[at + 1])) != len(wanted[parts[at]]):
                taken.fail(f"{where}: it has not {len(wanted[parts[at]])} rows of entries")
            parts[at + 1] = runs.sub(lambda run: entries(where, run[0], next(named)), parts[at + 1])
        parts[at] = f".SH {parts[at]}\n"
    return "".join(parts)


def main():
    path = Path(sys.argv[1]) if len(sys.argv) == 2 else taken.fail("it takes one file")
    text = between_marks(path.name, (taken.TOP / path).read_text(encoding="utf-8"))
    print(manual(path.stem, text) if path.suffix == ".1" else text, end="")


main()
