"""Asks ini_file and the programs of five dialects what small texts say.

    dialects.py INI_FILE NAME [READER]

NAME is git, which `git config` reads, python, which configparser reads, php, which php reads, desktop, which GLib's GKeyFile
reads by READER, the program of key_file.c, or crudini, whose files are read like python's. Each value that these find in a text
is asked of INI_FILE --like NAME, and each key that isn't there. Then each is set by INI_FILE, deleted, and its key renamed, and a key is
set that isn't there; each section is deleted, renamed, and the target of a merge; and a value that one side of a three-way merge
set stands beside a key of the other: the reader finds just that change.
Each difference is a line, then the number of texts; the status is 1 where there is one.
"""
import configparser
import os
import pathlib
import subprocess
import sys
import tempfile

HERE = pathlib.Path(__file__).resolve().parent
PROGRAM, NAME, READER = pathlib.Path(sys.argv[1]).resolve(), sys.argv[2], sys.argv[3:]
GIT = r"""
[a]\nk=v
[a]\n\tk = v\n
[a]\nk = 1\nk = 2
[a]\nk = 1\n[a]\nk = 2
[a]\nk = 1\n[b]\nk = 3\n[a]\nk = 2
[a]\nk = 1\n[A]\nK = 2
[A]\nK = 1\n[a]\nj = 2
[a]\nk = 1\n[b]\nj = 2\n[A]\nx = 3
[a]\nk = x y  z\t
[a]\nk = "x"
[a]\nk = " x "
[a]\nk = "x y"
[a]\nk = "x\\ty"
[a]\nk = x\\ty
[a]\nk = x\\\\y
[a]\nk = a\\\n b
[a]\nk = "#x"
[a]\nk = "a;b"
[a]\nk = ""
[a]\nk =
[a]\n; k = 1\nk = 2
# c\n[a]\nk = 1\n# d\n
\n\n[a]\n\n\nk = 1\n\n
[a]\r\nk = 1\r\n
[core]\n\tbare = false\n[remote "origin"]\n\turl = git@x:y/z\n\tfetch = +refs/*:refs/*
[remote "a"]\nurl = 1\n[remote "b"]\nurl = 2\n[remote "a"]\nurl = 3
[alias]\nlg = log --graph -n 3\nst = status
[a]\nk = é
[a]\nk-1 = x\nk2 = y
[a]\nk = true\nj = 0\nm = off
[user]\n\tname = A B\n\temail = a@b.c\n[push]\n\tdefault = simple
[a]\nk = v = w\nj = :x
"""
PYTHON = r"""
[a]\nk=v
[a]\nk = C:\\x\\\nj = v
[a]\nk\\=x = v\nj = \\
[a\\]\nk = "a\\"b"
[a]\nk = v\n
[a]\nk: v
[a]\nK = v
[a]\nk = 1\nk = 2
[a]\nk = 1\nK = 2
[a]\nk = 1\n[a]\nk = 2
[a]\nk = 1\n[b]\nk = 3\n[a]\nj = 2
[a]\nk = 1\n  2\n  3
[a]\nk =\n  1\n  2
[a]\nk = 1\n\t2\nj = 3
[a]\nk = "x"
[a]\nk = 'x y'
[a]\nk = C:\\new\\x
[a]\nk = a\\tb
[a]\nk = x y  z
[a]\nk =
[a]\nk = v = w
[a]\nk = v : w
[a]\nk = a ; b
[a]\nk = a # b
[a]\n; k = 1\nk = 2
# c\n[a]\nk = 1\n# d\n
\n[a]\n\nk = 1\n\nj = 2\n
[a b]\nk = 1
[a:b]\nk = 1
[metadata]\nname = x\nversion = 1.0\n[options]\npackages = find:\n  other
[tox]\nenvlist = py3\n  lint\n[testenv]\ndeps =\n  pytest\n  mock
[a]\nk = é
[a]\nk = [x]
[a]\nk = %(x)s
[flake8]\nmax-line-length = 100\nexclude = .git,build
"""
PHP = r"""
[a]\nk=v
[a]\nk = v\n
[a]\nk = x y  z
[a]\nk = "x y"
[a]\nk = 'x y'
[a]\nk = ""
[a]\nk =
[a]\nk = 1\nk = 2
[a]\nk = 1\nK = 2
[a]\n; k = 1\nk = 2
; c\n[a]\nk = 1\n; d\n
\n\n[a]\n\nk = 1\n\nj = 2\n
[a]\nk = 10M\nj = 0
[PHP]\nmemory_limit = 128M\nengine = 1\n[Date]\ndate.timezone = UTC
[a]\nk.l = 1\nk_m = 2
[a b]\nk = 1
[a]\nk = "a;b"
[a]\nk = "a # b"
[a]\nk = 'a "b" c'
[a]\nk = a:b/c
[a]\nk = a,b,c
[a]\nk = -1
[a]\nk = 0.25
[a]\nk = é
[a]\r\nk = 1\r\n
[a]\nk\t=\tv
[a]\n  k = v
[a]\nk = "%a"
[a]\nk = /usr/lib:/lib
[a]\nk = "a=b"
[mail function]\nsendmail_path = "/usr/sbin/sendmail -t -i"\n[Session]\nsession.name = PHPSESSID
"""
DESKTOP = r"""
[Desktop Entry]\nName=x
[a]\nk=v\n
[a]\nk = v\n
[a]\nk=1\nk=2
[a]\nk=1\n[b]\nk=3\n[a]\nj=2
[a]\nk=1\n[a]\nk=2
[a]\nk=1\nK=2
[A]\nk=1\n[a]\nk=2
[a]\nk=x y  z
[a]\nk="x"
[a]\nk='x y'
[a]\nk="a" b
[a]\nk=a\\tb
[a]\nk=a\\nb
[a]\nk=a\\\\b
[a]\nk=
[a]\n# k=1\nk=2
# c\n[a]\nk=1\n# d\n
\n\n[a]\n\nk=1\n\nj=2\n
[a]\nName[de]=x\nName=y
[a]\nExec=a %u --b=c
[a]\nk=a;b;c;
[a]\nk=v = w
[a]\nk=a # b
[a]\nk=a ; b
[a b]\nk=1
[a/b:c]\nk=1
[a]\nk=é
[a]\nk=true\nj=false
[Unit]\nDescription=x\n[Service]\nExecStart=/bin/x -y\nRestart=always
[a]\nX-k=1\nk-2=3
[a]\r\nk=1\r\n
"""
# crudini tells keys of other case apart, and ends a value before a semicolon behind a blank.
CRUDINI = r"""
[a]\nk=v
[a]\nk = v\n
[a]\nk: v
[a]\nK = v
[a]\nk = 1\nk = 2
[a]\nk = 1\nj = 2
[a]\nk = 1\n[a]\nk = 2
[a]\nk = 1\n[b]\nk = 3\n[a]\nj = 2
[a]\nk = "x"
[a]\nk = 'x y'
[a]\nk = C:\\dir\\x
[a]\nk = x y  z
[a]\nk = v = w
[a]\nk = v : w
[a]\nk = a # b
[a]\nk = a;b
[a]\n; k = 1\nk = 2
[a]\n#k = 1\nk = 2
# c\n[a]\nk = 1\n# d\n
\n[a]\n\nk = 1\n\nj = 2\n
[a b]\nk = 1
[a:b]\nk = 1
[a]\nk = é
[a]\nk = [x]
[a]\nk = %(x)s
[a]\nk = 1\n[b]\n[c]\nk = 2
[api]\nport = 8774\nhost = 0.0.0.0\n[database]\nconnection = mysql+pymysql://u:p@h/n
[keystone_authtoken]\nauth_url = http://c:5000/v3\nproject_domain_name = Default
[a]\r\nk = 1\r\n
[a]\nk\t=\tv
"""
TEXTS = {"git": GIT, "python": PYTHON, "php": PHP, "desktop": DESKTOP, "crudini": CRUDINI}[NAME]
LIKE = "python" if NAME == "crudini" else NAME
# Whether the case of a key is no matter.
ANY_CASE = NAME in ("git", "python")


def told(*words):
    """The status and the value that the program writes, without its line end."""
    ran = subprocess.run([PROGRAM, "--like", LIKE, *words], capture_output=True)
    return ran.returncode, ran.stdout.decode()[:-1]


def git(text):
    """Each section, key and value that counts for git."""
    pathlib.Path("x").write_bytes(text.encode())
    listed = subprocess.run(["git", "config", "-f", "x", "-z", "--list"], capture_output=True, check=True).stdout.decode()
    for pair in listed.split("\0")[:-1]:
        name, value = pair.split("\n", 1)
        section, key = name.rsplit(".", 1)
        parts = section.split(".", 1)
        counting = subprocess.run(["git", "config", "-f", "x", "-z", "--get", name], capture_output=True).stdout.decode()
        yield (parts[0] if len(parts) == 1 else f'{parts[0]} "{parts[1]}"'), key, counting[:-1]


def python(text):
    """Each section, key and value for configparser, which begins a value on the next line with a line end."""
    parser = configparser.ConfigParser(strict=False, interpolation=None)
    parser.read_string(text)
    for section in parser.sections():
        for key in parser[section]:
            yield section, key, parser[section][key].lstrip("\n")


def crudini(text):
    """Each section, key and value that crudini lists in lines."""
    pathlib.Path("x").write_bytes(text.encode())
    lines = subprocess.run(["crudini", "--get", "--format=lines", "x"], capture_output=True, check=True).stdout.decode()
    for line in lines.split("\n"):
        section, is_pair, pair = line.removeprefix("[ ").partition(" ] ")
        if is_pair:
            yield (section, *pair.split(" = ", 1))


def listed(*command):
    """Each section, key and value that a command writes of a text, with a NUL after each."""
    def values_of(text):
        pathlib.Path("x").write_bytes(text.encode())
        fields = subprocess.run([*command, "x"], capture_output=True, check=True).stdout.decode().split("\0")[:-1]
        yield from zip(fields[::3], fields[1::3], fields[2::3])
    return values_of


READERS = {"git": git, "python": python, "crudini": crudini, "php": listed("php", HERE / "reader.php"),
           "desktop": listed(*READER)}


def edited(text, words, wanted):
    """Whether the edit leaves a text that says what is wanted to the reader; else a line."""
    path = pathlib.Path("z")
    path.write_bytes(text.encode())
    ended = told(words[0], "z", *words[1:])
    said = values(path.read_bytes().decode())
    if ended[0] == 0 and said == wanted:
        return True
    print(f"{text!r}: after {words}, which ended with {ended}, {said}, and not {wanted}")
    return False


def values(text):
    """What a text says to the reader: a value for each section and key."""
    return {(section, key): value for section, key, value in READERS[NAME](text)}


def count_edits(text):
    """How many edits of a text go wrong."""
    old = values(text)
    wrong = 0
    for at in old:
        section, key = at
        wrong += not edited(text, ("set", key.upper() if ANY_CASE else key, "v2", section), old | {at: "v2"})
        others = {other: old[other] for other in old if other != at}
        wrong += not edited(text, ("delete", key, section), others)
        asked = key.upper() if ANY_CASE else key
        wrong += not edited(text, ("rename-key", asked, "renamed", section), others | {(section, "renamed"): old[at]})
    for section in {section for section, _ in old}:
        wrong += not edited(text, ("set", "new", "v2", section), old | {(section, "new"): "v2"})
        named = section.upper() if ANY_CASE else section
        others = {at: value for at, value in old.items() if at[0] != section}
        wrong += not edited(text, ("delete-section", named), others)
        renamed = {("renamed", key): value for (name, key), value in old.items() if name == section}
        wrong += not edited(text, ("rename-section", named, "renamed"), others | renamed)
        first = next(key for name, key in old if name == section)
        pathlib.Path("o").write_bytes(f"[{section}]\n{first} = v1\n[{named}]\nnew = v3\n{first} = v2\n".encode())
        wrong += not edited(text, ("merge", "o"), old | {(section, first): "v2", (section, "new"): "v3"})
    return wrong


def count_merges(text):
    """How many merges of three texts go wrong, of which one sets a value and another has a new key; and edits applied."""
    old = values(text)
    wrong = 0
    for section, key in old:
        for side in ("base", "ours", "theirs"):
            pathlib.Path(side).write_bytes(text.encode())
        steps = [told("set", "ours", key, "v2", section), told("set", "theirs", "new", "v3", section)]
        steps.append(told("merge3", "base", "ours", "theirs", "--output", "both"))
        pathlib.Path("edits").write_bytes(told("diff", "--format", "edits", "base", "ours")[1].encode() + b"\n")
        steps.append(told("apply", "theirs", "edits"))
        wanted = old | {(section, key): "v2", (section, "new"): "v3"}
        for file in ("both", "theirs"):
            said = values(pathlib.Path(file).read_bytes().decode())
            if said != wanted or any(status for status, _ in steps):
                wrong += 1
                print(f"{text!r}: {key} of {section} set and a key beside it: {file} says {said}, and not {wanted}; {steps}")
    return wrong


def main():
    differences = 0
    texts = [line.encode("latin-1", "backslashreplace").decode("unicode_escape") if line.isascii() else
             line.replace("\\n", "\n") for line in TEXTS.strip().split("\n")]
    for text in texts:
        pathlib.Path("y").write_bytes(text.encode())
        for (section, key), value in values(text).items():
            for asked in (key, key.upper()) if ANY_CASE else (key,):
                had = told("get", "y", asked, section)
                if had != (0, value):
                    differences += 1
                    print(f"{text!r}: {asked} of {section} is {value!r}, and not {had}")
        if told("get", "y", "lacking", "a")[0] != 1:
            differences += 1
            print(f"{text!r}: a key that isn't there")
        differences += count_edits(text) + count_merges(text)
    print(len(texts), "texts")
    return differences > 0


with tempfile.TemporaryDirectory() as folder:
    os.chdir(folder)
    status = main()
    os.chdir("/")
sys.exit(status)
