"""Compares what is documented of the programs with what they do: options, commands, policies, dialects, encodings and
exit statuses in `ini_file --help`, the usage lines, the pages of the manual, the tables of docs/PROGRAM.md and the
completions of bash.

    documented.py TOP

TOP is the repository; its programs are built. Each difference is a line, and the status is 1 where there is one.
"""
import os
import pathlib
import re
import subprocess
import sys
import tempfile

TOP = pathlib.Path(sys.argv[1]).resolve()
PROGRAMS = ("ini_tool", "ini_file")
OFFER = """. "$0" && COMP_WORDS=("$@") COMP_CWORD=$(($# - 1)) && _bigrosk
printf '%s\\n' "${COMPREPLY[@]}" """
# What each outcome is called, wherever a status is explained.
OUTCOMES = {
    "done": r"\bdone\b",
    "not found": r"not found|isn't there|found no",
    "wrong words": r"\bwords\b",
    "a refused text": r"\brefused\b.*\b(text|UTF-8)|\brefused text",
    "a fault": r"\bmemory\b",
}
differences = []


def same(what, **sources):
    """Notes a difference where not all sources say the same, or one says nothing."""
    first = next(iter(sources.values()))
    if not first or any(source != first for source in sources.values()):
        said = "; ".join(f"{name} {sorted(words)}" for name, words in sources.items())
        differences.append(f"{what}: {said}")


def run(program, *words, stdin=subprocess.DEVNULL):
    """The status, the output and the errors of a run."""
    command = [TOP / "crates" / program / "out" / program, *words]
    ran = subprocess.run(command, stdin=stdin, capture_output=True)
    return ran.returncode, ran.stdout.decode(), ran.stderr.decode()


def offered(*words):
    """What bash offers for the last of the words."""
    asked = ["bash", "-c", OFFER, TOP / "share/completions/bigrosk", *words]
    return set(subprocess.run(asked, capture_output=True, text=True, check=True).stdout.split())


def options_in(text):
    """The long names of options, but for those of pages and of git, and for another name of one."""
    return set(re.findall(r"(?<![\w-])--[a-z][a-z-]*", text)) - {"--help", "--version", "--unidiff-zero", "--diff"}


def page(program):
    """The page of the manual, with hyphens as they are shown."""
    return (TOP / "share/man" / f"{program}.1").read_text().replace("\\-", "-")


def part(text, head):
    """The part of a page below the head."""
    return text.split(f".SH {head}\n")[1].split("\n.SH ")[0]


def below(head):
    """What docs/PROGRAM.md has below a head."""
    return (TOP / "docs/PROGRAM.md").read_text().split(f"\n## {head}\n")[1].split("\n## ")[0]


def documented(program):
    """What it has of the program."""
    return below(f"`{program}`")


def rows(text):
    """The first columns of its tables' rows."""
    return re.findall(r"^\| (.*?) \|", text, re.M)


def commands():
    """The commands of ini_tool and ini_file, and of the choices of ini_file each that a command takes."""
    usage, shown = run("ini_tool")[2], run("ini_file", "--help")[1]
    same(
        "commands of ini_tool",
        usage=set(re.findall(r"(?:NAME\] |\|)([a-z]+)", usage)),
        page=set(re.findall(r"^\.RI \[ OPTIONS \]\n\.B (.*)", page("ini_tool"), re.M)),
        document={row.strip("`").split()[0] for row in rows(documented("ini_tool")) if re.match("`[a-z]", row)},
        completions=offered("ini_tool", ""),
    )
    lines = re.findall(r"^  ([a-z].*?)  ", shown, re.M)
    arguments = {line.split()[0]: re.findall(r" ([A-Z]+)\b(?!\])", line) for line in lines}
    same(
        "commands of ini_file",
        help=set(arguments),
        page=set(re.findall(r"^\.RI \[ OPTIONS \]\n\.B (.*)", page("ini_file"), re.M)),
        document=set(re.findall(r"`([a-z][a-z0-9-]*) (?:FILE|BASE)\b", " ".join(rows(documented("ini_file"))))),
        completions=offered("ini_file", ""),
    )
    choices = dict(re.findall(r"^  (--[a-z-]+)( [A-Z]+)? ", shown.split("\nChoices:\n")[1], re.M))
    for command, names in arguments.items():
        taken = set()
        for choice, argument in choices.items():
            chosen = [choice, "1" if choice == "--wait" else "="] if argument else [choice]
            # what is about the file that is written is taken with --output too
            for written in [], ["--output", "nowhere/k"]:
                status, _, errors = run("ini_file", command, *chosen, *written, *("k" for _ in names))
                if status != 2 or not re.search("doesn't take|has no section", errors):
                    taken.add(choice)
        same(f"choices of {command}", program=taken | {"--"}, completions=offered("ini_file", command, "--"))


def options():
    """The options of each program."""
    shown = run("ini_file", "--help")[1]
    before = options_in(shown.split("\nChoices:\n")[0])
    same("options of ini_file", help=before, completions=offered("ini_file", "-"))
    usage = options_in(run("ini_tool")[2])
    shared = before - {"--like", "--encoding"}
    same("options of ini_tool", usage=usage, help=shared, completions=offered("ini_tool", "-"))
    same("options on the page of ini_tool", help=shared, page=options_in(page("ini_tool")))
    by_commands = set()
    for command in offered("ini_file", ""):
        by_commands |= offered("ini_file", command, "--") - {"--"}
    same(
        "options and choices of ini_file",
        help=options_in(shown),
        page=options_in(page("ini_file")),
        document=before | options_in(documented("ini_file")) & options_in(shown),
        completions=offered("ini_file", "-") | by_commands,
    )
    table = {row.strip("`").split()[0] for row in rows(below("Options")) if row.startswith("`--")}
    same("options in the table", help=before - {"--like"}, document=table)


def policies():
    """The names of policies, each of which the program takes."""
    named = page("ini_tool").split('.BI --policy " NAME"\n')[1].split("Of several")[0]
    names = offered("ini_tool", "--policy", "")
    same(
        "policies",
        page=set(re.findall(r"^\.BR? ([A-Z]\w*)", named, re.M)),
        document=set(re.findall(r"`([A-Z]\w*)`", " ".join(rows(below("Options"))))),
        completions=names,
        program={name for name in names if run("ini_tool", "--policy", name, "fmt")[0] == 0},
    )


def dialects():
    """The names of dialects, each of which the program takes."""
    told = run("ini_file", "--like", "", "list", "nowhere.ini")[2].split("\n")[0].split(" takes ")[1].replace("or one of", "")
    named = page("ini_file").split('.BI --like " NAME"\n')[1].split("The other")[0]
    shown = run("ini_file", "--help")[1].split("\n  --like NAME ")[1].split(": ")[1].split(";")[0]
    same(
        "dialects",
        program=set(told.split()),
        help=set(re.sub(r"\(.*?\)", "", shown, flags=re.S).split()),
        page=set(re.findall(r"^\.BR? (\w+)", named, re.M)),
        document={"auto", *re.findall(r"^\| `([a-z0-9]+)` \|[^|]*\|[^|]*\| (?:first|joined)", documented("ini_file"), re.M)},
        completions=offered("ini_file", "--like", ""),
    )


def encodings():
    """The names of encodings, each of which the program takes."""
    told = run("ini_file", "--encoding", "", "list", "nowhere.ini")[2].split("\n")[0].split(" one of ")[1]
    named = page("ini_file").split('.BI --encoding " NAME"\n')[1].split("A byte order mark")[0]
    shown = run("ini_file", "--help")[1].split("\n  --encoding NAME")[1].split(": ")[1].split(";")[0]
    explained = below("Options").split("\n| `--encoding NAME` |")[1].split("A byte order mark")[0]
    same(
        "encodings",
        program=set(told.split()),
        help=set(re.sub(r"\(.*?\)", "", shown, flags=re.S).split()),
        page=set(re.findall(r"^\.BR? ([\w-]+)", named, re.M)),
        document=set(re.findall(r"`([a-z][a-z0-9-]*)`", explained)),
        completions=offered("ini_file", "--encoding", ""),
    )


def statuses():
    """What each status of a run is called, in the help and on the page."""
    pathlib.Path("plain.ini").write_text("k=v\n")
    pathlib.Path("refused.ini").write_text("=\n")
    folder = os.open(".", os.O_RDONLY)
    ran = {
        ("ini_tool", "done"): run("ini_tool", "fmt"),
        ("ini_tool", "not found"): run("ini_tool", "get", "k"),
        ("ini_tool", "wrong words"): run("ini_tool", "frob"),
        ("ini_tool", "a refused text"): run("ini_tool", "fmt", stdin=open("refused.ini", "rb")),
        ("ini_tool", "a fault"): run("ini_tool", "fmt", stdin=folder),
        ("ini_file", "done"): run("ini_file", "get", "plain.ini", "k"),
        ("ini_file", "not found"): run("ini_file", "get", "plain.ini", "j"),
        ("ini_file", "wrong words"): run("ini_file", "frob"),
        ("ini_file", "a refused text"): run("ini_file", "get", "refused.ini", "k"),
        ("ini_file", "a fault"): run("ini_file", "get", "nowhere.ini", "k"),
    }
    in_help = run("ini_file", "--help")[1].split("\nStatus: ")[1].replace("\n", " ").split(".")[0]
    explained = {("ini_file --help", status): words for status, words in re.findall(r"(\d) ([^,]*)", in_help)}
    for program in PROGRAMS:
        paragraphs = part(page(program), "EXIT STATUS")
        for status, words in re.findall(r"\.B (\d)\n(.*?)(?=\n\.TP|\n\.PP|\Z)", paragraphs, re.S):
            explained[f"{program}.1", status] = words.replace("\n", " ")
    for (program, outcome), (status, _, _) in ran.items():
        for place in (f"{program}.1", "ini_file --help")[: 1 + (program == "ini_file")]:
            words = explained.get((place, str(status)), "")
            if not re.search(OUTCOMES[outcome], words):
                differences.append(f"{program}, {outcome}: status {status}, which {place} calls '{words}'")


def neighbours():
    """What the page says of the files beside one that is written."""
    pathlib.Path("own.ini").write_text("k=v\n")
    pathlib.Path("own.ini.lock").write_text("another's\n")
    status, _, _ = run("ini_file", "set", "own.ini", "k", "w")
    left = status, *(pathlib.Path("own.ini" + end).read_text() for end in ("", ".lock"))
    if left != (0, "k=w\n", "another's\n") or not re.search(r"\.ini_file\.", part(page("ini_file"), "FILES")):
        differences.append(f"a file of somebody's own beside: {left}")


def main():
    with tempfile.TemporaryDirectory() as folder:
        os.chdir(folder)
        for compared in (commands, options, policies, dialects, encodings, statuses, neighbours):
            compared()
        os.chdir("/")
    print("\n".join(differences))
    sys.exit(bool(differences))


main()
