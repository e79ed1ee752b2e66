"""The Python module's settings, which keep their text: each call, each refusal, files, a script that runs
with configparser and with these, and random runs of edits beside a dict."""
import configparser
import copy
import io
import os
import random
import tempfile
from pathlib import Path

import bigrosk_ini
from bigrosk_ini import Broken, Change, Conflict, Conflicting, Mistyped, NoOption, NoSection, SectionThere
from bigrosk_ini import Lookup, Settings, Unwritable, apply, diff, load, merge3

TEXT = """; the fleet
port = 8080
timeout: 30

[paths]
; where it logs
log   = /var/log/app
cache = "/var/cache/app data"

[flags]
debug = Yes
ratio = 0.5
word = some
"""


def raised(call, *words, **named):
    """What the call raises, or None."""
    try:
        call(*words, **named)
    except Exception as error:
        return error
    return None


def same(had, wanted):
    assert had == wanted, f"{had!r} in place of {wanted!r}"


def mapping():
    s = Settings(TEXT)
    same(str(s), TEXT)
    same(list(s), [None, "paths", "flags"])
    same((len(s), "paths" in s, "none" in s, None in s), (3, True, False, True))
    same(s["paths"]["log"], "/var/log/app")
    same(dict(s["paths"]), {"log": "/var/log/app", "cache": "/var/cache/app data"})
    same((len(s["paths"]), "log" in s["paths"], "tmp" in s["paths"]), (2, True, False))
    same(repr(s), "<Settings: sections ['paths', 'flags']>")
    same(repr(s["flags"]), "<SettingsSection 'flags': {'debug': 'Yes', 'ratio': '0.5', 'word': 'some'}>")
    s["paths"]["log"] = "/srv/log"
    s["paths"]["tmp"] = "/tmp"
    s[None]["port"] = "9090"
    del s["flags"]["word"]
    same(
        str(s),
        TEXT.replace("/var/log/app", "/srv/log").replace("data\"\n", "data\"\ntmp = /tmp\n")
        .replace("8080", "9090").replace("word = some\n", ""),
    )
    s["flags"] = {"ratio": "2", "new": "one"}
    s["more"] = {}
    same(str(s).split("[flags]\n")[1], "ratio = 2\nnew = one\n\n[more]\n")
    del s["paths"]
    same(list(s), [None, "flags", "more"])
    same(type(raised(lambda: s["paths"])), NoSection)
    assert isinstance(raised(lambda: s["paths"]), KeyError)
    same(str(raised(lambda: s["paths"])), "no section 'paths'")
    same(type(raised(lambda: s["flags"]["none"])), NoOption)
    same(str(raised(s.__delitem__, "paths")), "no section 'paths'")
    same(str(raised(s["flags"].__delitem__, "none")), "no option 'none' in section 'flags'")
    same(s == Settings(str(s)), True)
    same(Settings("[a]\nk=1\n") == Settings("# b\n[a]\n  k: 1"), True)
    same(Settings("[a]\nk=1\n") == Settings("[a]\nk=2\n"), False)
    same(s == 1, False)
    same(type(raised(copy.copy, s)), TypeError)
    same(type(raised(s["flags"].__setitem__, "k", 1)), TypeError)
    same(type(raised(s.__setitem__, "flags", "k")), TypeError)
    same(raised(s["flags"].__setitem__, "", "v").what, "key")
    same(type(raised(s.add_section, "]")), Unwritable)


def look_ups():
    s = Settings(TEXT)
    same(s.sections(), ["paths", "flags"])
    same(s.options("flags"), ["debug", "ratio", "word"])
    same((s.has_section("paths"), s.has_section("no")), (True, False))
    same((s.has_option("paths", "log"), s.has_option("paths", "no"), s.has_option("no", "log")), (True, False, False))
    same(s.getint(None, "port"), 8080)
    same(s.getfloat("flags", "ratio"), 0.5)
    same(s.getboolean("flags", "debug"), True)
    same(s["flags"].getboolean("debug"), True)
    same(s["flags"].getint("none", 3), 3)
    same(s["flags"].get("none"), None)
    same(s.get("flags", "none", fallback="x"), "x")
    same(s.getint("none", "none", fallback=None), None)
    same(s.getint("flags", "none", fallback=5), 5)
    same(type(raised(s.get, "no", "log")), NoSection)
    same(type(raised(s.get, "paths", "no")), NoOption)
    wrong = raised(s.getint, "flags", "word")
    same((type(wrong), wrong.line, wrong.column, wrong.file), (Mistyped, 13, 8, None))
    same(str(wrong), "13:8 word: not a whole number: 'some'")
    assert isinstance(wrong, ValueError)
    same(raised(s.getboolean, "flags", "ratio").line, 12)
    same(s.items("flags"), [("debug", "Yes"), ("ratio", "0.5"), ("word", "some")])
    same([name for name, _ in s.items()], [None, "paths", "flags"])
    same(s.items("flags", vars={"a": "1"})[-1], ("a", "1"))
    same(s.get("flags", "word", vars={"word": "other"}), "other")
    same(s.position("paths", "cache"), (8, 9))
    same(s.position("paths", "none"), None)


def changes():
    s = Settings(TEXT)
    s.set("paths", "log", "/l")
    same(type(raised(s.set, "none", "k", "v")), NoSection)
    s.add_section("new")
    same(type(raised(s.add_section, "new")), SectionThere)
    same((s.remove_option("paths", "cache"), s.remove_option("paths", "cache")), (True, False))
    same((s.remove_section("flags"), s.remove_section("flags")), (True, False))
    same(str(s), TEXT.split("cache")[0].replace("/var/log/app", "/l") + "\n[new]\n")
    s.rename_option("paths", "log", "logs")
    s.rename_section("paths", "files")
    same(type(raised(s.rename_option, "files", "log", "x")), NoOption)
    same(type(raised(s.rename_section, "paths", "x")), NoSection)
    same(s.comment("files", "logs"), "; where it logs\n")
    s.set_comment("files", "logs", "# one\n# two")
    s.comment_out(None, "timeout")
    same(type(raised(s.comment, "files", "none")), NoOption)
    same(raised(s.set_comment, "files", "logs", "none").what, "value")
    same(str(s), "; the fleet\nport = 8080\n; timeout: 30\n\n[files]\n# one\n# two\nlogs   = /l\n\n[new]\n")
    s.set_all("new", "k", ["1", "", "3"])
    same(s.get_all("new", "k"), ["1", "", "3"])
    same(s["new"]["k"], "1")
    s.set_all("new", "k", [])
    same("k" in s["new"], False)
    s.remove_section(None)
    same(list(s), ["files", "new"])


def defaults():
    s = Settings("[DEFAULT]\nhome = /home\nuser = me\n[a]\nuser = you\npath = %(home)s/%(user)s\n"
                 "rate = 5%%\nlost = %(no)s\nbad = %x\none = %(two)s\ntwo = %(one)s\n",
                 defaults="DEFAULT", interpolate=True)
    same(s.sections(), ["a"])
    same(s["a"]["home"], "/home")
    same((s["a"]["user"], s["a"]["path"], s["a"]["rate"]), ("you", "/home/you", "5%"))
    same(s.get("a", "path", raw=True), "%(home)s/%(user)s")
    same(list(s["a"])[-1], "home")
    same(raised(s.get, "a", "lost").line, 8)
    same(raised(s.get, "a", "bad").line, 9)
    same(type(raised(s.get, "a", "one")), Mistyped)
    same(Settings("[a]\nk = 5%\n")["a"]["k"], "5%")


def files():
    with tempfile.TemporaryDirectory() as room:
        path, other = os.path.join(room, "s.ini"), os.path.join(room, "o.ini")
        Path(path).write_bytes(b"\xef\xbb\xbf" + TEXT.encode())
        os.chmod(path, 0o640)
        s = load(path)
        s["paths"]["log"] = "é"
        s.save()
        same(Path(path).read_bytes(), b"\xef\xbb\xbf" + TEXT.replace("/var/log/app", "é").encode())
        same(os.stat(path).st_mode & 0o777, 0o640)
        same(os.listdir(room), ["s.ini"])
        s.save(other)
        same(Path(other).read_bytes(), Path(path).read_bytes())
        os.symlink("o.ini", os.path.join(room, "l.ini"))
        linked = load(Path(room, "l.ini"))
        linked[None]["port"] = "1"
        linked.save()
        same(os.path.islink(os.path.join(room, "l.ini")), True)
        same(load(other)[None]["port"], "1")
        out = io.StringIO()
        s.write(out)
        same(out.getvalue().encode(), Path(path).read_bytes())
        Path(other).write_text("[a]\n= 1\n")
        wrong = raised(load, other)
        same((type(wrong), wrong.file, wrong.line, str(wrong).startswith(other + ":2:")), (Broken, other, 2, True))
        same(type(raised(load, os.path.join(room, "none"))), FileNotFoundError)
        Path(other).write_bytes(b"\xff")
        same(str(raised(load, other)), f"{other}: not UTF-8")
        same(type(raised(Settings("k=v").save)), ValueError)
        Path(other).write_text("[paths]\nlog = /o\nnew = 1\nnew = 2\n[late]\nk = v\n")
        s = Settings()
        same(s.read([path, os.path.join(room, "none"), other]), [path, other])
        same(s.path, path)
        same((s["paths"]["log"], s.get_all("paths", "new"), s["late"]["k"]), ("/o", ["1", "2"], "v"))
        same(str(s).startswith("; the fleet\nport = 8080\n"), True)
        s = Settings()
        s.read_string("[a]\nk = v\n")
        s.read_dict({"b": {"n": 1}})
        s.read_file(io.StringIO("[a]\nk = w\n"))
        same(str(s), "[a]\nk = w\n\n[b]\nn = 1\n")
        wrong = raised(s.read_string, "[a]\n= 1\n", "them")
        same((wrong.file, str(wrong).startswith("them:2:")), ("them", True))
        same(str(s), "[a]\nk = w\n\n[b]\nn = 1\n")


def script(parser, path):
    """What a script does that reads settings, changes them and saves: what it finds."""
    parser.read(path)
    found = [parser.sections(), parser.has_section("server"), parser.has_option("server", "port")]
    found += [parser.getint("server", "port"), parser.getboolean("server", "debug"), parser.getfloat("server", "rate")]
    found += [parser.get("server", "name", fallback="none"), parser["server"].get("port"), "log" in parser]
    found += [parser.items("log"), dict(parser["log"]), parser.options("server")]
    parser["server"]["port"] = "443"
    parser.set("log", "level", "debug")
    parser.add_section("new")
    parser.set("new", "k", "v")
    parser["more"] = {"a": "1", "b": "2"}
    parser.remove_option("server", "rate")
    parser.remove_section("old")
    with open(path, "w") as file:
        parser.write(file)
    return found


def beside_configparser():
    text = "[server]\nport = 80\ndebug = yes\nrate = 1.5\n\n[log]\nlevel = info\npath = /l\n\n[old]\nk = v\n"
    with tempfile.TemporaryDirectory() as room:
        one, other = os.path.join(room, "one"), os.path.join(room, "other")
        Path(one).write_text(text)
        Path(other).write_text("# kept\n" + text)
        same(script(Settings(), other), script(configparser.ConfigParser(), one))
        mine, theirs = load(other), configparser.ConfigParser()
        theirs.read(one)
        same({it: dict(mine[it]) for it in mine.sections()}, {it: dict(theirs[it]) for it in theirs.sections()})
        same(Path(other).read_text().startswith("# kept\n[server]\nport = 443\n"), True)


def random_runs(rounds=60, edits=60):
    for seed in range(rounds):
        rng = random.Random(seed)
        s, model = Settings("# top\n\n[a]\nk = 1 \n# in b\n[b]\n"), {"a": {"k": "1"}, "b": {}}
        for _ in range(edits):
            name, key = rng.choice("abc"), rng.choice("klmn")
            value = rng.choice(["", "x", " y ", '"q"', "a\nb", "p\\q", "; no", "é#", "=:"])
            act = rng.randrange(6)
            if act < 3:
                if name not in model:
                    s.add_section(name)
                    model[name] = {}
                s[name][key] = value
                model[name][key] = value
            elif act == 3 and key in model.get(name, {}):
                del s[name][key]
                del model[name][key]
            elif act == 4 and rng.random() < 0.2 and name in model:
                del s[name]
                del model[name]
            elif act == 5 and name in model:
                other = rng.choice("opqr")
                if key in model[name] and other not in model[name]:
                    s.rename_option(name, key, other)
                    model[name] = {other if it == key else it: v for it, v in model[name].items()}
            same({it: dict(s[it]) for it in s.sections()}, model)
            again = Settings(str(s))
            same(again == s, True)
        same("# top\n" in str(s), True)


def dialects():
    s = Settings('[Service]\nExecStart="/bin/a" \\t\n', dialect="systemd")
    same(s["Service"]["ExecStart"], '"/bin/a" \\t')
    s["Service"]["Root"] = "C:\\new"
    same(str(s), '[Service]\nExecStart="/bin/a" \\t\nRoot=C:\\new\n')
    s.read_string('[Service]\nExecStart="/bin/b"\n')
    same(s["Service"]["ExecStart"], '"/bin/b"')
    same(Settings('k="v"\n', bigrosk_ini.ReadOption(), dialect="systemd")[None]["k"], "v")
    same(type(raised(Settings, "", dialect="system")), ValueError)
    with tempfile.TemporaryDirectory() as room:
        path = os.path.join(room, "config")
        Path(path).write_text("[user]\n\tname = me # too\n")
        s = load(path, dialect="git")
        s["user"]["mail"] = "a\\b"
        s.save()
        same(Path(path).read_text(), "[user]\n\tname = me # too\n\tmail = a\\\\b\n")
        same(type(raised(load, path, dialect="gits")), ValueError)


def differences():
    old, new = Settings(TEXT), Settings(TEXT)
    same(diff(old, new), [])
    new[None]["port"] = "9090"
    new["paths"]["tmp"] = "/t\n"
    del new["flags"]["word"]
    wanted = [
        Change(None, "port", "8080", "9090"),
        Change("paths", "tmp", None, "/t\n"),
        Change("flags", "word", "some", None),
    ]
    same(diff(old, new), wanted)
    same((wanted[0].section, wanted[0].key, wanted[0].old, wanted[0].new), (None, "port", "8080", "9090"))
    same(repr(wanted[2]), "Change(section='flags', key='word', old='some', new=None)")
    same((diff(old, old), str(old)), ([], TEXT))
    apply(iter(wanted), old)
    same(str(old), str(new))
    same(diff(old, new), [])
    apply([], old)
    refused = raised(apply, [("flags", "debug", None, "No"), (None, "", None, "v")], old)
    same((type(refused), refused.what, refused.index), (Unwritable, "key", 1))
    same(raised(old.set, None, "", "v").index, None)
    same(type(raised(apply, [(None, None, None, "v")], old)), TypeError)
    same(type(raised(apply, [(None, "k", 1, "v")], old)), TypeError)
    same(type(raised(diff, old, TEXT)), TypeError)
    same(str(old), str(new))
    # values in a listing that is longer than the first room
    long = Settings("".join(f"k{it} = {'v' * 99}\n" for it in range(300)))
    same(diff(Settings(), long), [Change(None, f"k{it}", None, "v" * 99) for it in range(300)])


def merges():
    base, ours = Settings("a = 1\nb = 1\nc = 1\n"), Settings("a = 2\nb = 1\nc = 2\n")
    theirs = Settings("# theirs\na = 1\nb = 3\nc = 3\n")
    refused = raised(merge3, base, ours, theirs)
    same((type(refused), refused.conflicts), (Conflicting, [Conflict(None, "c", "1", "2", "3")]))
    same(str(theirs), "# theirs\na = 1\nb = 3\nc = 3\n")
    same(type(raised(merge3, base, ours, theirs, side="mine")), ValueError)
    same(merge3(base, ours, theirs, side="theirs"), refused.conflicts)
    same(str(theirs), "# theirs\na = 2\nb = 3\nc = 3\n")
    same(merge3(base, ours, theirs, side="ours")[0].ours, "2")
    same(str(theirs), "# theirs\na = 2\nb = 3\nc = 2\n")
    same(merge3(base, ours, theirs), [])
    same((merge3(base, base, theirs), merge3(base, theirs, theirs)), ([], []))
    same(str(theirs), "# theirs\na = 2\nb = 3\nc = 2\n")
    same((merge3(base, ours, base), str(base)), ([], "a = 2\nb = 1\nc = 2\n"))
    ours.set(None, "b", "x\ny")
    bare = Settings("a = 2\nb = 1\n", bigrosk_ini.ReadOption(quotes=False, escapes=False))
    refused = raised(merge3, base, ours, bare)
    same((type(refused), refused.what, refused.index, str(bare)), (Unwritable, "value", 0, "a = 2\nb = 1\n"))


def under_rules():
    """By a rule, or that of a dialect: sections joined, of which the last value counts; and any case."""
    last, any_case = Lookup(sections="joined", values="last"), Lookup(ignore_case=True)
    same([last.sections, last.values, last.ignore_case], ["joined", "last", False])
    same([any_case.sections, any_case.values, any_case.ignore_case], ["first", "first", True])
    wanted = [Change("s", "k", "3", "4"), Change("t", "a", "1", "2"), Change("s", "m", "1", None)]
    for rule in ({"lookup": last}, {"dialect": "systemd"}, {"lookup": last, "dialect": "windows"}):
        old = Settings("[s]\nk = 1\nk = 2\n[t]\na = 1\n[s]\nk = 3\nm = 1\n")
        new = Settings("[s]\nk = 1\n[t]\na = 2\n[s]\nk = 4\n")
        same(diff(old, new), [Change("t", "a", "1", "2")])
        same(diff(old, new, **rule), wanted)
        apply(wanted, old, **rule)
        same(str(old), "[s]\nk = 1\nk = 2\n[t]\na = 2\n[s]\nk = 4\n")
        same(diff(old, new, **rule), [])
    for rule in ({"lookup": any_case}, {"dialect": "windows"}):
        old, new = Settings("Port = 1\n[Net]\nHost = a\n"), Settings("port = 2\n[net]\nHOST = a\n")
        same(diff(old, new, **rule), [Change(None, "port", "1", "2")])
        apply([Change(None, "port", "1", "2"), Change("net", "host", "a", None)], old, **rule)
        same(str(old), "Port = 2\n[Net]\n")
    base, ours = Settings("[s]\nk = 1\n[S]\nk = 2\nm = 1\n"), Settings("[s]\nk = 1\n[S]\nK = 5\nm = 1\n")
    theirs = Settings("# theirs\n[s]\nk = 1\n[S]\nk = 2\nm = 7\n")
    same(merge3(base, ours, theirs, dialect="git"), [])
    same(str(theirs), "# theirs\n[s]\nk = 1\n[S]\nk = 5\nm = 7\n")
    theirs = Settings("[s]\nk = 1\n[S]\nk = 6\nm = 1\n")
    refused = raised(merge3, base, ours, theirs, dialect="git")
    same((type(refused), refused.conflicts), (Conflicting, [Conflict("s", "k", "2", "5", "6")]))
    same(merge3(base, ours, theirs, "ours", dialect="git"), refused.conflicts)
    same(str(theirs), "[s]\nk = 1\n[S]\nk = 5\nm = 1\n")
    for call, *words in (diff, ours, ours), (apply, [], ours), (merge3, base, base, ours):
        same(type(raised(call, *words, dialect="gits")), ValueError)
    same([type(raised(Lookup, **{it: "second"})) for it in ("sections", "values")], [ValueError, ValueError])


def lists():
    """All values of a key as one setting: told as a text with a line for each, set and merged as a whole."""
    rule = Lookup(values="list")
    same([rule.sections, rule.values, rule.ignore_case], ["first", "list", False])
    unit = Settings("[u]\nEnvironment=A\nEnvironment=B\nAfter=x\n")
    other = Settings("[u]\nEnvironment=A\nEnvironment=C\\nD\nAfter=x\n")
    wanted = [Change("u", "Environment", "A\nB", "A\nC\\nD")]
    same((diff(unit, other), diff(unit, other, rule)), ([], wanted))
    apply(wanted, unit, rule)
    same(str(unit), str(other))
    apply([Change("u", "Environment", None, "1\n2\n3")], unit, rule)
    same(unit.get_all("u", "Environment"), ["1", "2", "3"])
    same(str(unit), "[u]\nEnvironment=1\nEnvironment=2\nAfter=x\nEnvironment=3\n")
    apply([Change("u", "Environment", "1", None)], unit, rule)
    same(str(unit), "[u]\nAfter=x\n")
    base, ours = Settings("[u]\nEnvironment=A\n"), Settings("[u]\nEnvironment=A\nEnvironment=B\n")
    theirs = Settings("# theirs\n[u]\nEnvironment=A\nAfter=y\n")
    same(merge3(base, ours, theirs), [])
    same(str(theirs), "# theirs\n[u]\nEnvironment=A\nAfter=y\n")
    same(merge3(base, ours, theirs, lookup=rule, dialect="git"), [])
    same(str(theirs), "# theirs\n[u]\nEnvironment=A\nAfter=y\nEnvironment=B\n")
    theirs = Settings("[u]\nEnvironment=A\nEnvironment=C\n")
    refused = raised(merge3, base, ours, theirs, lookup=rule)
    conflict = Conflict("u", "Environment", "A", "A\nB", "A\nC")
    same((type(refused), refused.conflicts), (Conflicting, [conflict]))
    same(merge3(base, ours, theirs, "ours", rule), [conflict])
    same(str(theirs), str(ours))
    rule.sections, rule.ignore_case = "joined", True
    old, new = Settings("[u]\nk=1\n[U]\nK=2\n"), Settings("[u]\nk=1\n")
    same(diff(old, new, rule), [Change("u", "k", "1\n2", "1")])


parts = mapping, look_ups, changes, defaults, dialects, differences, merges, under_rules, lists, files
for part in (*parts, beside_configparser, random_runs):
    part()
same(hasattr(bigrosk_ini, "load"), True)
print("all of the settings of the Python module")
