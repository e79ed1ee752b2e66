"""What the programs take, for `names.py`: the names of commands, options, choices and statuses, and the words of options.

The names are those of HELP in crates/ini_file/src/page.rt and of ini_tool's usage line. An option's other names, its words,
and which commands take it are in the code that reads them. It ends with status 1 and a line on standard error where a source
has a form that it does not know.
"""
import re
import sys
from functools import cache
from pathlib import Path

TOP = Path(__file__).resolve().parents[2]
HELP = "ini_file/src/page.rt"
ENTRY = re.compile(r"  (\S+)((?: \[?[A-Z]+\]?| \.\.)*)(?:  +| (?=[a-z])|$)")
# the words of options: the list's name, the option, and the source with the type that they stand for
WORDS = {
    "policies": ("--policy", "ini_words/src/options.rt", "EscapePolicy"),
    "lone_lines": ("--lone-lines", "ini_words/src/options.rt", "LoneLine"),
    "encodings": ("--encoding", "ini_dialect/src/encoding.rt", "Encoding"),
    "types": ("--type", "ini_file/src/manner.rt", "ValueKind"),
    "colors": ("--color", "ini_file/src/manner.rt", "Color"),
    "sorts": ("--sort", "ini_file/src/spacing.rt", "Sorting"),
}
# a command's name that is none of them
OTHER = "*"
# the command whose section is a new one, so that none of the file's is offered
NEW_SECTION = "add-section"


def fail(what):
    sys.exit(f"{Path(sys.argv[0]).name}: {what}")


@cache
def found(pattern, path, flags=0):
    """All that a pattern finds in a source, which is something."""
    matches = re.findall(pattern, (TOP / "crates" / path).read_text(encoding="utf-8"), flags)
    return matches or fail(f"crates/{path}: nothing has the form {pattern}")


def quoted(text):
    """The words in quotes."""
    return re.findall(r'"(.*?)"', text)


@cache
def helped(head):
    """The entries of the help below the line that begins so: each name, and what follows it."""
    entries = {}
    for line in found(rf"\n{head}.*\n((?:  .*\n)+)", HELP)[0].splitlines():
        if not line.startswith("   "):
            entry = ENTRY.match(line) or fail(f"the help: {line}: another form")
            entries[entry[1]] = entry[2].strip()
    return entries


def statuses():
    """The statuses that the help explains."""
    return re.findall(r"\b\d\b", found(r"\nStatus: ([^.]*)\.", HELP)[0])


def commands(program):
    """The commands of a program, and the arguments of each."""
    if program == "ini_file":
        return helped("Commands")
    calls = found(r'usage_line!\(\s*"ini_tool",\s*"([^"]*)"', "ini_tool/src/words.rt")[0]
    return dict(call.partition(" ")[::2] for call in calls.split("|"))


def options(program):
    """The options of both programs, which are those of ini_tool, or those of ini_file alone, with what follows each."""
    both, every = dict(found(r"\[(--[a-z-]+)(?: ([A-Z]+))?\]", "ini_words/src/usage.rt")), helped("Options")
    for name, argument in both.items():
        if every.get(name) != argument:
            fail(f"the help: it has no option {name} {argument}".rstrip())
    return both if program == "ini_tool" else {name: argument for name, argument in every.items() if name not in both}


def forms(name):
    """An option's names."""
    others = found(r'((?:"-+\w+"(?: \| )?)+) => \("(--[a-z-]+)", None\)', "ini_file/src/spelling.rt")
    return [name] + [form for short, long in others if long == name for form in quoted(short)]


def arms(path, of):
    """The words that stand for the values of a type, and these."""
    return dict(found(rf'"([^"]+)" => Some\({of}::(\w+)\)', path))


@cache
def words():
    """The words of each list in WORDS, and of --like."""
    auto = found(r'sorted\.like == Some\("(\w+)"\)', "ini_file/src/main.rt")
    return {
        **{name: list(arms(path, of)) for name, (_, path, of) in WORDS.items()},
        "dialects": auto + found(r'preset!\(\s*"(\w+)"', "ini_dialect/src/presets.rt"),
    }


@cache
def takers(expression):
    """The commands for which an expression of the program on `command` is true."""
    everyone, expression = {*commands("ini_file"), OTHER}, expression.strip()
    if "||" in expression:
        return set.union(*map(takers, expression.split("||")))
    if expression.startswith("!"):
        return everyone - takers(expression[1:])
    if re.fullmatch(r'command == "[\w-]+"|matches!\(command, "[\w-]+"(?: \| "[\w-]+")*\)', expression):
        return set(quoted(expression))
    if re.fullmatch(r'command != "[\w-]+"', expression):
        return everyone - set(quoted(expression))
    call = re.fullmatch(r"(\w+)\(command\)", expression)
    if call:
        body = rf"fn {call[1]}\(command: &str\) -> bool\n.*?\n\{{\n(.*?)\n\}}"
        return takers(found(body, "ini_file/src/choices.rt", re.S)[0])
    if expression == "before_section(command).is_some()":
        return {name for arm in found(r'\n +(".*) => Some\(\d\),', "ini_file/src/order.rt") for name in quoted(arm)}
    if expression == "FORMS.iter().any(|form| self.writes(form))":
        return {command for command in everyone if forms_written(command)}
    return everyone if expression == "true" else fail(f"of which commands is this true: {expression}")


@cache
def forms_written(command):
    """The words of --format that a command takes."""
    if command == "check":
        taken = arms("ini_file/src/report_format.rt", "Format")
    else:
        rows = found(r"\n +(?:AnswerForm::(\w+)|_) => ((?:matches!|command).*),", "ini_file/src/manner.rt")
        by_form = {form: takers(expression) for form, expression in rows}
        named = arms("ini_file/src/manner.rt", "AnswerForm")
        taken = [name for name, form in named.items() if command in by_form.get(form, by_form[""])]
    every = quoted(found(r"FORMS: \[&str; \d+\] = \[(.*?)\]", "ini_file/src/commands.rt")[0])
    return [name for name in every if name in taken]


@cache
def choices_of(command):
    """The choices that a command takes."""
    body = " ".join(found(r"fn takes\(.*?match choice \{(.*?)\n        \}", "ini_file/src/commands.rt", re.S)[0].split())
    by_choice = {}
    for names, expression in re.findall(r'((?:"--[a-z-]+"(?: \| )?)+|_) => (\{.*?\}|.*?),?(?= "--| _ |$)', body):
        for name in quoted(names) or [OTHER]:
            by_choice[name] = takers(expression.strip("{} "))
    return [name for name in helped("Choices") if command in by_choice.get(name, by_choice[OTHER])]


def places():
    """Where the file's keys stand among the arguments, where its sections, and which commands take several files."""
    keys, sections, files = [], [], []
    for command, arguments in commands("ini_file").items():
        names = re.findall(r"\w+|\.\.", arguments)
        for number, name in enumerate(names, 1):
            if name == "KEY" or (name == "OLD" and "SECTION" in names):
                keys.append(f"{command},{number}")
            elif name in ("SECTION", "OLD") and command != NEW_SECTION:
                sections.append(f"{command},{number}")
        if len(names) > 1 and not {"KEY", "OLD", "SECTION"} & set(names):
            files.append(command)
    return {"key_places": keys, "section_places": sections, "of_files": files}


@cache
def lists():
    """All lists, by name."""
    with_text = [name for name, text in {**helped("Options"), **helped("Choices")}.items() if text]
    everyone = [*commands("ini_file"), OTHER]
    return {
        "tool_commands": list(commands("ini_tool")),
        "file_commands": list(commands("ini_file")),
        "both_options": list(options("ini_tool")),
        "file_options": list(options("ini_file")),
        "text_options": [form for name in with_text for form in forms(name)],
        "any_choices": [name for name in helped("Choices") if all(name in choices_of(command) for command in everyone)],
        **words(),
        **places(),
    }
