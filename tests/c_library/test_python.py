"""The Python module: each call, refusals, and random runs of edits against a dict."""
import random
import resource
import time
from bigrosk_ini import Broken, Document, ReadOption, Unwritable, WriteOption, version
from bigrosk_ini import edit_add, edit_delete, edit_delete_section, edit_rename_key, edit_rename_section, edit_set


def refusal(text):
    try:
        Document(text)
    except Broken as broken:
        return broken.line, broken.column, broken.kind, broken.message
    return None


def is_raised(error, call):
    try:
        call()
    except error:
        return True
    return False


def calls():
    d = Document('; the fleet\nport = 8080\n[paths]\nlog = /var/log/app\ncache = "a b"\n')
    assert version() >= 300
    assert d[None]["port"] == "8080" and d["paths"]["log"] == "/var/log/app" and d["paths"]["cache"] == "a b"
    assert "paths" in d and None in d and "path" not in d
    assert "log" in d["paths"] and "port" not in d["paths"] and "log" not in d["nowhere"]
    assert d.get("paths", "none") is None and d["none"].get("port", "x") == "x"
    assert is_raised(KeyError, lambda: d["paths"]["none"])
    d[None]["port"] = "9090"
    d["grün"]["schlüssel"] = "wert\n2" * 100
    assert d["grün"]["schlüssel"] == "wert\n2" * 100
    del d["paths"]["log"]
    assert is_raised(KeyError, lambda: d["paths"].__delitem__("log"))
    d.add("paths", "cache", "c")
    assert str(d) == "port=9090\n\n[paths]\ncache=a b\ncache=c\n\n[grün]\nschlüssel=" + "wert\\n2" * 100 + "\n"
    del d["grün"]
    assert is_raised(KeyError, lambda: d.__delitem__("grün")) and d.is_plain()
    assert d.text(WriteOption(crlf=True, separator=3)) == "port: 9090\r\n\r\n[paths]\r\ncache: a b\r\ncache: c\r\n"


def walks():
    d = Document("a=1\n[s]\nk=one\nj=\nk=two\n[]\n[s]\nk=grün\n")
    assert list(d) == [None, "s", ""] and len(d) == 3
    assert d.walk() == [(None, [("a", "1")]), ("s", [("k", "one"), ("j", ""), ("k", "two")]), ("", []), ("s", [("k", "grün")])]
    assert d["s"].pairs() == [("k", "one"), ("j", ""), ("k", "two")]
    assert list(d["s"]) == ["k", "j"] and len(d["s"]) == 2 and list(d["s"].keys()) == ["k", "j"]
    assert dict(d["s"]) == {"k": "one", "j": ""} and d["s"] == {"k": "one", "j": ""}
    assert d["s"].get_all("k") == ["one", "two"] and d["s"].get_all("z") == [] and d["t"].get_all("k") == []
    assert list(d["t"]) == [] and len(d["t"]) == 0 and d["t"].pairs() == [] and d[""].pairs() == []
    assert d.keys() == [None, "s", ""] and [name for name, _ in d.items()] == [None, "s", ""]
    assert dict(d.items()[1][1]) == {"k": "one", "j": ""} and [dict(s) for s in d.values()][0] == {"a": "1"}
    assert d.get("s", "z", fallback="x") == "x" and d["s"].get("z", fallback="x") == "x" and d["s"].get("j", "x") == ""
    d["t"].update(x="1", y="2")
    assert d["t"].pop("x") == "1" and list(d["t"].items()) == [("y", "2")]
    # longer than any buffer at first, with a pair taken out before
    d = Document("".join(f"key{i}=value{i}\n" for i in range(100000)))
    del d[None]["key7"]
    start = time.process_time()
    pairs = d[None].pairs()
    assert time.process_time() - start < 1
    assert pairs == [(f"key{i}", f"value{i}") for i in range(100000) if i != 7]
    assert d.walk() == [(None, pairs)] and len(d[None]) == 99999


def refusals():
    assert refusal("a=1\n =v") == (2, 3, "missing key", "missing key")
    assert refusal("a=\\xD800")[:3] == (1, 9, "unknown character")
    assert refusal("[a")[2] == "end of text" and refusal("a=1") is None
    assert is_raised(UnicodeError, lambda: Document(b"a=\xff"))


def edits():
    random.seed(7)
    names, keys = (None, "a", "b", "ü"), "xyz"
    values = ("", "1", "zwei drei", "x\t=;#[]\\", "\0", "😀", "long" * 99)
    for _ in range(300):
        d, model = Document(), {}
        for _ in range(random.randrange(60)):
            name, key, value = random.choice(names), random.choice(keys), random.choice(values)
            what = random.random()
            if what < 0.65:
                d[name][key] = value
                model.setdefault(name, {})[key] = value
            elif what < 0.95:
                there = model.get(name, {}).pop(key, None) is not None
                assert (not is_raised(KeyError, lambda: d[name].__delitem__(key))) == there
            elif name is not None:
                there = model.pop(name, None) is not None
                assert (not is_raised(KeyError, lambda: d.__delitem__(name))) == there
        for name in names + ("c",):
            assert (name in d) == (name is None or name in model)
            assert dict(d[name]) == model.get(name, {}) and list(d[name]) == list(model.get(name, {}))
            for key in keys:
                assert d[name].get(key) == model.get(name, {}).get(key)
                assert (key in d[name]) == (key in model.get(name, {}))
        again = Document(str(d))
        assert str(again) == str(d)


def text_edits():
    text = "; head\n[s]\n  port\t= 80   # no comment\n# d\nport=81\n"
    assert edit_set(text, "s", "port", "443") == "; head\n[s]\n  port\t= 443\n# d\n"
    assert edit_delete(text, "s", "port") == "; head\n[s]\n# d\nport=81\n"
    assert edit_set("\ufeffa=1\r\n", None, "a", "2") == "\ufeffa=2\r\n"
    assert edit_set(b"\xef\xbb\xbfa=1\r\n", None, "a", "ü") == b"\xef\xbb\xbfa=\xc3\xbc\r\n"
    assert edit_set("a=1", None, "a", "x" * 5000) == "a=" + "x" * 5000
    assert edit_set("a=1\n", None, "a", "b\tc", ReadOption(), WriteOption(policy=0x99)) == "a=b\\tc\n"
    assert edit_set(text, "s", "host", "h") == text + "host=h\n"
    assert edit_set(text, "t", "host", "h") == text + "\n[t]\nhost=h\n"
    assert edit_set("a=1\n", None, "a", " b") == 'a=" b"\n'
    assert edit_add(text, "s", "port", "82") == text + "port=82\n"
    assert edit_add(b"\xef\xbb\xbf", None, "a", "1", ReadOption(), WriteOption(crlf=True)) == b"\xef\xbb\xbfa=1\r\n"
    assert edit_rename_key(text, "s", "port", "ports") == "; head\n[s]\n  ports\t= 80   # no comment\n# d\nport=81\n"
    assert edit_rename_section("[a]\n[b]", "b", "ü") == "[a]\n[ü]"
    assert edit_delete_section("[a]\nk=v\n# of b\n[b]", "a") == "# of b\n[b]"
    assert is_raised(KeyError, lambda: edit_delete(text, None, "port"))
    assert is_raised(KeyError, lambda: edit_rename_key(text, "s", "ports", "port"))
    assert is_raised(KeyError, lambda: edit_delete_section("a=1\n[]", None))
    assert is_raised(KeyError, lambda: edit_delete_section(text, "t"))
    assert is_raised(KeyError, lambda: edit_rename_section(text, None, "t"))
    assert is_raised(UnicodeError, lambda: edit_delete(b"\xff", None, "port"))
    for what, call in (
        ("value", lambda: edit_set(text, "s", "port", " \"'")),
        ("value", lambda: edit_set(text, "s", "", "'1\"")),
        ("key", lambda: edit_set(text, "s", "", "1")),
        ("name", lambda: edit_set(text, " s", "port", "1")),
        ("place", lambda: edit_set("[a]\n  junk", "a", "k", "v", ReadOption(multiline=True))),
        ("value", lambda: edit_add("= no key", "s", "", " \"'")),
        ("key", lambda: edit_add("= no key", "s", "", "1")),
        ("name", lambda: edit_add(text, " s", "port", "1")),
        ("place", lambda: edit_add("[a]\n  junk", "a", "k", "v", ReadOption(multiline=True))),
        ("key", lambda: edit_rename_key("= no key", None, "a", " b")),
        ("name", lambda: edit_rename_section("= no key", "a", " b")),
    ):
        try:
            call()
            assert False, what
        except Unwritable as error:
            assert error.what == what
    try:
        edit_delete("a=1\n =v", None, "a")
        assert False
    except Broken as broken:
        assert (broken.line, broken.column, broken.kind) == (2, 3, "missing key")


def text_lines():
    """A random text without two line ends in a row that a comment could not follow."""
    lines = []
    for _ in range(random.randrange(12)):
        name, key, value = random.choice("ab"), random.choice("xyz"), random.choice(("1", "zwei drei", "", "# no comment"))
        lines.append(random.choice((f"[{name}]", f" {key} = {value} ", f"{key}: '{value}'", f"# {key}={value}", f"; [{name}]", "")))
    return lines


def edit_both(what, text, model, name, key, value):
    """The text edited, and the list of its sections with their pairs edited beside it; KeyError where there is nothing to edit."""
    place = next((i for i, (other, _) in enumerate(model) if other == name), None)
    section = model[place][1] if place is not None else []
    at = next((i for i, pair in enumerate(section) if pair[0] == key), None)
    if what in ("set", "add"):
        text = (edit_set if what == "set" else edit_add)(text, name, key, value)
        if place is None:
            model.append((name, section))
        if what == "set" and at is not None:
            section[at:] = [(key, value)] + [pair for pair in section[at + 1 :] if pair[0] != key]
        else:
            section.append((key, value))
    elif what == "delete":
        text = edit_delete(text, name, key)
        del section[at]
    elif what == "rename_key":
        text = edit_rename_key(text, name, key, "neu")
        section[at] = "neu", section[at][1]
    elif what == "delete_section":
        text = edit_delete_section(text, name)
        del model[place]
    else:
        text = edit_rename_section(text, name, "ö")
        model[place] = "ö", section
    return text


def text_runs():
    """Random edits of texts, beside a list of sections: the new text loads as that list, and keeps all comments, but for those of a
    section that is taken out."""
    random.seed(11)
    done = dict.fromkeys(("set", "add", "delete", "rename_key", "delete_section", "rename_section", "none"), 0)
    for _ in range(1200):
        text = random.choice(("\n", "\r\n")).join(text_lines()) + "\n"
        for _ in range(6):
            comments = [line for line in text.splitlines() if line[:1] in ("#", ";")]
            model = [(name, list(pairs)) for name, pairs in Document(text).walk()]
            name, key, value = random.choice((None, "a", "b")), random.choice("xyz"), random.choice(("7", "ü", "a\tb", ""))
            what = random.choice(("set", "add", "delete", "rename_key", "delete_section", "rename_section"))
            is_section = what in ("delete_section", "rename_section")
            section = next((pairs for other, pairs in model if other == name), None)
            is_there = section is not None and (is_section or any(pair[0] == key for pair in section))
            try:
                text = edit_both(what, text, model, name, key, value)
                done[what] += 1
                assert is_there or what in ("set", "add")
            except KeyError:
                assert what not in ("set", "add") and (not is_there or is_section and name is None)
                done["none"] += 1
            assert Document(text).walk() == model
            kept = [line for line in text.splitlines() if line[:1] in ("#", ";")]
            assert kept == comments or what == "delete_section" and set(kept) <= set(comments)
    assert min(done.values()) > 100, done


def memory():
    before = resource.getrusage(resource.RUSAGE_SELF).ru_maxrss
    for _ in range(20000):
        Document("[a]\nb=c\n" * 50)
    grown = resource.getrusage(resource.RUSAGE_SELF).ru_maxrss - before
    assert grown < 5000, f"grown by {grown} KB"


for part in (calls, walks, refusals, edits, text_edits, text_runs, memory):
    part()
print("all of the Python module")
