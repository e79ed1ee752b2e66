#!/usr/bin/env python3
"""Makes the tables of docs/PROGRAM.md: commands, options, choices and statuses from the pages of the manual, and dialects
from crates/ini_dialect/src/presets.rt.

    tools/pages/program.py > NEW && mv NEW docs/PROGRAM.md

Prints the page with each table anew that stands between `<!-- made: NAME -->` and `<!-- end -->`; the rest stays.
"""
import re
import shlex
import sys
from pathlib import Path

TOP = Path(__file__).resolve().parents[2]
PAGE = TOP / "docs/PROGRAM.md"


def words(line):
    """The arguments of a macro."""
    return shlex.split(line.replace("\\-", "-").replace("\\&", "").replace("'", "\\'"))


def shown(line):
    """A line of a manual page as it stands on a page of text: what is bold as code."""
    macro = re.fullmatch(r"\.(B|I|BR|IR|RI|BI|RB) (.*)", line)
    if not macro:
        if line.startswith("."):
            sys.exit(f"program.py: {line}: another macro")
        return line.replace("\\-", "-").replace("\\&", "")
    # each letter is a font: bold, italic or roman, by turns
    given, fonts = words(macro[2]), macro[1]
    if len(fonts) == 1:
        given = [" ".join(given)]
    turns = ((word, fonts[number % len(fonts)]) for number, word in enumerate(given))
    return "".join(f"`{word}`" if font == "B" else word for word, font in turns)


def name_of(line):
    """What an entry is about, each of its forms as code."""
    macro = re.fullmatch(r"\.(\w+) (.*)", line)
    text = re.sub(r"\\f[RPIB]", "", "".join(words(macro[2]) if len(macro[1]) > 1 else [" ".join(words(macro[2]))]))
    return ", ".join(f"`{form}`" for form in text.split(", "))


def part(program, head):
    """The lines of a page below a head, without comments."""
    text = (TOP / "share/man" / f"{program}.1").read_text(encoding="utf-8")
    lines = text.split(f".SH {head}\n")[1].split("\n.SH ")[0].splitlines()
    return [line for line in lines if not line.startswith('.\\"')]


def entries(lines):
    """Each entry's first line, and its text."""
    found, at = [], 0
    while at < len(lines):
        if lines[at] != ".TP":
            at += 1
            continue
        end = at + 2
        while end < len(lines) and lines[end] not in (".TP", ".PP"):
            end += 1
        found.append((lines[at + 1], " ".join(shown(line) for line in lines[at + 2 : end])))
        at = end
    return found


def synopses(program):
    """The arguments of each command."""
    text = "\n".join(part(program, "SYNOPSIS"))
    found = {}
    for run in text.split("\n.br\n"):
        lines = run.splitlines()[2:]
        command = lines[0].split(" ", 1)[1].replace("\\-", "-")
        rest = [re.sub(r"^\.\w+ ", "", line) for line in lines[1:] if "CHOICES" not in line]
        said = " ".join(rest).replace("\\&", "").replace("[ ", "[").replace(" ]", "]")
        found[command] = f"{command} {said}".strip()
    return found


def table(head, rows):
    """A table's lines."""
    yield f"| {' | '.join(head)} |"
    yield "|" + "---|" * len(head)
    for row in rows:
        yield f"| {' | '.join(cell.replace('|', '/') for cell in row)} |".replace("|  |", "| |")


def commands(program):
    """The commands of a program."""
    said = synopses(program)
    rows = [(said[name_of(line).strip("`")], text) for line, text in entries(part(program, "DESCRIPTION"))]
    return table(("Command", "What it does"), ((f"`{call}`", text) for call, text in rows))


def options():
    """The options that all programs take, and of those of ini_file the one that isn't explained elsewhere."""
    own = [entry for entry in entries(part("ini_file", "OPTIONS")) if "encoding" in entry[0]]
    found = entries(part("ini_tool", "OPTIONS")) + own
    return table(("Option", "Effect"), ((name_of(line), text) for line, text in found))


def choices():
    """The choices of ini_file's commands."""
    lines = part("ini_file", "OPTIONS")
    after = lines[lines.index("The choices:") :]
    return table(("Choice", "What it does"), ((name_of(line), text) for line, text in entries(after)))


def statuses():
    """What the status tells."""
    found = entries(part("ini_file", "EXIT STATUS"))
    return table(("Status", "Meaning"), ((name_of(line).strip("`"), text) for line, text in found))


# what each way to read and each rule is called on a page
READ = {
    "STANDARD": "",
    "STRICT": "`--lone-lines refused`",
    "KEYED": "`--lone-lines keys`",
    "KEYED_NOTED": "`--inline-comments --lone-lines keys`",
    "COMMENTED": "`--indented-comments`",
    "RAW": "`--noescape`",
    "RAW_NOTED": "`--noescape --inline-comments`",
    "LITERAL": "`--noescape --raw-backslash`",
    "LITERAL_KEYED": "`--noescape --raw-backslash --lone-lines keys`",
    "UNQUOTED": "`--noquote`",
    "UNQUOTED_COMMENTED": "`--noquote --indented-comments`",
    "VERBATIM": "`--noescape --noquote`",
    "INDENTED": "`--noescape --noquote --multiline --raw-backslash`",
    "INDENTED_COMMENTED": "`--noescape --noquote --multiline --raw-backslash --indented-comments`",
    "INDENTED_NOTED": "`--noescape --noquote --multiline --raw-backslash --inline-comments`",
    "PATTERNS": "`--noescape --noquote --brackets`",
    "BRACKETED": "`--brackets`",
}
RULES = {
    "FIRST": "first",
    "FIRST_ANY_CASE": "first, any case",
    "LAST": "joined, last",
    "LAST_ANY_CASE": "joined, last, any case",
}
ROW = re.compile(
    r'preset!\(\s*"(\w+)",\s*(\w+),\s*(\w+),\s*"([^"]*)",\s*(?:(CRLF),\s*)?(\w+),\s*"([^"]*)"\s*\)'
)


def dialects():
    """The dialects."""
    found = ROW.findall((TOP / "crates/ini_dialect/src/presets.rt").read_text(encoding="utf-8"))
    return table(
        ("NAME", "Files", "Read with", "Looked up", "Written with"),
        (
            (f"`{name}`", files, READ[read], RULES[rule], f"`{policy}`, `{separator}`" + (", CR LF" if crlf else ""))
            for name, read, policy, separator, crlf, rule, files in found
        ),
    )


MADE = {
    "options": options,
    "statuses": statuses,
    "commands of ini_file": lambda: commands("ini_file"),
    "choices of ini_file": choices,
    "commands of ini_tool": lambda: commands("ini_tool"),
    "dialects": dialects,
}


def main():
    text = PAGE.read_text(encoding="utf-8")
    for name, make in MADE.items():
        begin = f"<!-- made: {name} -->\n"
        if text.count(begin) != 1:
            sys.exit(f"program.py: {name}: it doesn't stand once")
        before, after = text.split(begin)
        text = before + begin + "\n".join(make()) + "\n" + after[after.index("<!-- end -->") :]
    print(text, end="")


main()
