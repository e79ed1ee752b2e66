"""The Python module, option by option: each option of a Document and of each edit on a text where it tells,
each refusal with its words, and what is no text, no copy and no document. The texts as they are written are
those of the Rust crate rust-ini 0.21.3."""
import copy
import pickle
import threading
import time
from bigrosk_ini import Broken, Document, KINDS, ReadOption, Settings, Unwritable, WriteOption, dialect
from bigrosk_ini import edit_add, edit_delete, edit_delete_section
from bigrosk_ini import edit_rename_key, edit_rename_section, edit_set

MARK = "\ufeff"


def raised(call, *words, **named):
    """What the call raises, or None."""
    try:
        call(*words, **named)
    except Exception as error:
        return error
    return None


def same(had, wanted):
    assert had == wanted, f"{had!r} in place of {wanted!r}"


def is_edited(wanted, edit, text, *words, **options):
    """Whether the edit gives the new text, of a str and of bytes, each after a mark too, or raises what is wanted."""
    if isinstance(wanted, type):
        same(type(raised(edit, text, *words, **options)), wanted)
        return
    for mark in ("", MARK):
        same(edit(mark + text, *words, **options), mark + wanted)
        same(edit((mark + text).encode(), *words, **options), (mark + wanted).encode())


# Each option of reading, the value that isn't its default, a text where it tells, and what is read with it
# and without it.
READ = [
    ("quotes", False, 'k = "v"\n', [(None, [("k", '"v"')])], [(None, [("k", "v")])]),
    ("escapes", False, "k = a\\tb\n", [(None, [("k", "a\\tb")])], [(None, [("k", "a\tb")])]),
    ("multiline", True, "k=v\n w=x\n", [(None, [("k", "v\nw=x")])], [(None, [("k", "v"), ("w", "x")])]),
    ("keep_indentation", True, "  k = v\n", [(None, [("  k", "v")])], [(None, [("k", "v")])]),
    (
        "brackets",
        True,
        "[[*]]\nk=v\n",
        [(None, []), ("[*]", [("k", "v")])],
        [(None, []), ("[*", [("]\nk", "v")])],
    ),
]


def dialects():
    read, write = dialect("systemd")
    same([read.quotes, read.escapes, read.multiline], [False, False, False])
    same([write.policy, write.crlf, write.separator], [0, False, 0])
    same(Document('k = "a\\tb"\n', read).walk(), [(None, [("k", '"a\\tb"')])])
    same(str(raised(dialect, "none")), "no dialect has the name 'none'")
    for call, *words in [(dialect, "None"), (Document, "", None, True, ""), (edit_delete, "", None, "k", None, "x")]:
        same(type(raised(call, *words)), ValueError)
    same(type(raised(dialect, 1)), TypeError)
    # a document, and what is given beside a dialect
    unit = Document('k = "a b"\n', dialect="systemd")
    same([unit.get(None, "k"), str(unit)], ['"a b"', 'k="a b"\n'])
    same([unit.is_plain(), unit.is_plain(None, ReadOption())], [True, False])
    same(str(Document("[a]\nk=v\n", dialect="git")), "[a]\nk = v\n")
    same(Document("[a]\nk=v\n", dialect="windows").text(), "[a]\r\nk=v\r\n")
    same(Document("k=v\n", dialect="git").text(WriteOption()), "k=v\n")
    same(Document('k="v"\n', ReadOption(), dialect="systemd").get(None, "k"), "v")
    # edits
    same(edit_set("k = 1\n", None, "k", "C:\\new", dialect="systemd"), "k = C:\\new\n")
    same(edit_set("k = 1\n", None, "k", "C:\\new", write=WriteOption(), dialect="php"), "k = C:\\\\new\n")
    same(edit_add("[u]\n", "u", "k", "v", dialect="git"), "[u]\nk = v\n")
    pattern = "[*.[ch]]\nk = 1\n"
    same(edit_delete(pattern, "*.[ch]", "k", dialect="editorconfig"), "[*.[ch]]\n")
    same(edit_rename_key(pattern, "*.[ch]", "k", "l", dialect="editorconfig"), "[*.[ch]]\nl = 1\n")
    same(edit_rename_section(pattern, "*.[ch]", "*.[co]", dialect="editorconfig"), "[*.[co]]\nk = 1\n")
    same(edit_delete_section(pattern, "*.[ch]", dialect="editorconfig"), "")


def reading():
    names = [name for name, *_ in READ]
    default = ReadOption()
    same([getattr(default, name) for name in names], [True, True, False, False, False])
    for name, value, text, with_it, without in READ:
        option = ReadOption(**{name: value})
        same([other for other in names if getattr(option, other) != getattr(default, other)], [name])
        same(Document(text, option).walk(), with_it)
        same(Document(text, option=option).walk(), with_it)
        same(Document(text.encode(), option).walk(), with_it)
        same(Document(text).walk(), without)
        same(Document(text, default).walk(), without)
    # by their places
    names += ["raw_backslash", "lone_lines", "indented_comments", "inline_comments"]
    for values in ([False, True] * 3 + ["run on", True, False], [True, False] * 3 + ["refused", False, True]):
        option = ReadOption(*values)
        same([getattr(option, name) for name in names], values)
    same(ReadOption(True, False, True, False, True).raw_backslash, False)


RAW = ReadOption(escapes=False, raw_backslash=True)
PATHS = "p=C:\\x\\\nk=v\n[a\\]\nj\\=1\n"


def raw_backslashes():
    """By raw_backslash, where escapes are off, a backslash takes nothing along."""
    general, other = [("p", "C:\\x\\"), ("k", "v")], ("a\\", [("j\\", "1")])
    for read in (Document(PATHS, RAW), Settings(PATHS, RAW)):
        same(list(read.walk()), [(None, general), other])
    off = ReadOption(escapes=False)
    same(Document("p=C:\\x\\\nk=v\n", off).walk(), [(None, [("p", "C:\\xk=v")])])
    for read in (None, ReadOption(raw_backslash=True)):
        same(Document("p=a\\\\b\\\nk=v\n", read).walk(), [(None, [("p", "a\\bk=v")])])
    bare = WriteOption(0)
    same([Document(PATHS, RAW).is_plain(bare, read) for read in (RAW, off, None)], [True, False, False])
    for call, words, wanted in (
        (edit_set, (None, "p", "D:\\"), PATHS.replace("C:\\x", "D:")),
        (edit_set, ("a\\", "n\\", "2\\"), PATHS + "n\\=2\\\n"),
        (edit_add, (None, "k", "w\\"), PATHS.replace("k=v\n", "k=v\nk=w\\\n")),
        (edit_delete, (None, "p"), PATHS.replace("p=C:\\x\\\n", "")),
        (edit_rename_key, ("a\\", "j\\", "\\"), PATHS.replace("j", "")),
        (edit_delete_section, ("a\\",), PATHS[: PATHS.index("[")]),
        (edit_rename_section, ("a\\", "b\\"), PATHS.replace("[a", "[b")),
    ):
        options = {"read": RAW} if call in (edit_delete, edit_delete_section) else {"read": RAW, "write": bare}
        is_edited(wanted, call, PATHS, *words, **options)
    for call, words, wanted in (
        (edit_set, (PATHS, None, "p", " \"'"), Unwritable),
        (edit_delete, (PATHS, None, "z"), KeyError),
        (edit_delete_section, (PATHS, "z"), KeyError),
        (edit_delete, ("k=v\n=\n", None, "k"), Broken),
        (edit_delete, (b"\xff", None, "k"), UnicodeError),
    ):
        is_edited(wanted, call, *words, read=RAW)
    # a dialect's
    same([dialect(name)[0].raw_backslash for name in ("python", "systemd", "crate")], [True, False, False])
    same(Settings("p=C:\\\nk=v\n", dialect="python").get(None, "k"), "v")
    same(edit_set("p=C:\\\nk=v\n", None, "k", "\\", dialect="python"), "p=C:\\\nk=\\\n")


STRICT, KEYS = ReadOption(lone_lines="refused"), ReadOption(lone_lines="keys")


def lone_lines():
    """By lone_lines, a line without separator is refused, or a key alone, or its key runs on, by default."""
    text, run_on = "abc\nk=v\n", [(None, [("abc\nk", "v")])]
    for read in (None, ReadOption(), ReadOption(lone_lines="run on")):
        for given in (Document(text, read), Settings(text, read)):
            same(list(given.walk()), run_on)
    for call in (Document, Settings):
        error = raised(call, text, STRICT)
        same((type(error), error.line, error.column, error.kind), (Broken, 2, 1, "no separator"))
        same(list(call("a\\\nb=c\n[s]\n  k:v\n", STRICT).walk()), [(None, [("ab", "c")]), ("s", [("k", "v")])])
        same(raised(call, "  abc", STRICT).kind, "end of text")
        same(list(call("  abc").walk()), [(None, [])])
        same(list(call(text, KEYS).walk()), [(None, [("abc", ""), ("k", "v")])])
        same(list(call("[s]\n  abc", KEYS).walk()), [(None, []), ("s", [("abc", "")])])
        error = raised(call, "\\\n\n", KEYS)
        same((type(error), error.line, error.column, error.kind), (Broken, 3, 1, "missing key"))
    for call, words, wanted in (
        (edit_set, (None, "k", "w"), "k=w\n[s]\n"),
        (edit_add, ("s", "j", "w"), "k=v\n[s]\nj=w\n"),
        (edit_delete, (None, "k"), "[s]\n"),
        (edit_rename_key, (None, "k", "j"), "j=v\n[s]\n"),
        (edit_delete_section, ("s",), "k=v\n"),
        (edit_rename_section, ("s", "t"), "k=v\n[t]\n"),
    ):
        is_edited(wanted, call, "k=v\n[s]\n", *words, read=STRICT)
        same(raised(call, "k=v\n[s]\nj\n", *words, read=STRICT).kind, "no separator")
    for call, words, wanted in (
        (edit_set, (None, "k", "w"), "k=w\n[s]\n"),
        (edit_set, (None, "k", ""), "k\n[s]\n"),
        (edit_add, (None, "j", "w"), "k\nj=w\n[s]\n"),
        (edit_delete, (None, "k"), "[s]\n"),
        (edit_rename_key, (None, "k", "j"), "j\n[s]\n"),
        (edit_delete_section, ("s",), "k\n"),
    ):
        is_edited(wanted, call, "k\n[s]\n", *words, read=KEYS)
    # by words, and by these alone
    option = ReadOption()
    option.lone_lines = "refused"
    same((option.lone_lines, type(raised(Document, text, option))), ("refused", Broken))
    for word in ("key", "", "Refused", 1, True, None):
        for call in (lambda: ReadOption(lone_lines=word), lambda: setattr(option, "lone_lines", word)):
            error = raised(call)
            same((type(error), str(error)[:42]), (ValueError, 'lone lines "run on", or are "refused" or "'))
    same(option.lone_lines, "refused")
    # a number that this library doesn't know
    option._lone_lines = 3
    for call in (Document, Settings):
        same(str(raised(call, "k=v\n", option)), "a number stands for no option")
    same([Document("k=v\n").is_plain(None, read) for read in (STRICT, option)], [True, False])
    # a dialect's
    names = ("python", "crate", "strict", "mysql", "pulseaudio", "openssl")
    same([dialect(name)[0].lone_lines for name in names], ["run on", "run on", "refused", "keys", "keys", "keys"])
    same(edit_set("skip-x\nk=v\n", None, "k", "w", dialect="mysql"), "skip-x\nk=w\n")
    same(edit_set("k=v\n", None, "k", "w", dialect="strict"), "k=w\n")
    same(raised(edit_set, "k=v\nj\n", None, "k", "w", dialect="strict").kind, "no separator")


COMMENTED = ReadOption(indented_comments=True)


def indented_comments():
    """By indented_comments, blanks and a mark begin a comment where a line starts; by default, a key."""
    text = "k=v\n  ; c\n[s]\n\t# d\n  j=w\n"
    for call in (Document, Settings):
        same(list(call(text, COMMENTED).walk()), [(None, [("k", "v")]), ("s", [("j", "w")])])
        for read in (None, ReadOption(), ReadOption(indented_comments=False)):
            same(list(call(text, read).walk()), [(None, [("k", "v"), ("; c\n[s]\n\t# d\n  j", "w")])])
        same(list(call("k=v\r; c\rj=w\n", COMMENTED).walk()), [(None, [("k", "v"), ("j", "w")])])
        same(raised(call, "k=v\r; c\rj=w\n").kind, "inline comment")
        lines = ReadOption(multiline=True, indented_comments=True)
        same(list(call("k=a\n ; c\n b\n; d\n", lines).walk()), [(None, [("k", "a\nb")])])
    for call, words, wanted in (
        (edit_set, (None, "k", "w"), text.replace("k=v", "k=w")),
        (edit_add, ("s", "i", "u"), text + "  i=u\n"),
        (edit_delete, (None, "k"), text.replace("k=v\n", "")),
        (edit_rename_key, ("s", "j", "i"), text.replace("j=w", "i=w")),
        (edit_delete_section, ("s",), "k=v\n  ; c\n"),
        (edit_rename_section, ("s", "t"), text.replace("[s]", "[t]")),
    ):
        is_edited(wanted, call, text, *words, read=COMMENTED)
    option = ReadOption()
    option.indented_comments = True
    same(list(Document("  ; c\n", option).walk()), [(None, [])])
    same([Document("k=v\n").is_plain(None, read) for read in (COMMENTED, option)], [True, True])
    # a dialect's
    same([dialect(name)[0].indented_comments for name in ("git", "systemd", "crate")], [True, False, False])
    same(edit_set("[s]\n  ; c\n  k=v\n", "s", "k", "w", dialect="git"), "[s]\n  ; c\n  k=w\n")


NOTED = ReadOption(inline_comments=True)


def inline_comments():
    """By inline_comments a blank and a mark begin a comment after a value, a mark one after a name."""
    text = "k=v ; c\n[s] # d\n  j='w'\t; e\n"
    for call in (Document, Settings):
        same(list(call(text, NOTED).walk()), [(None, [("k", "v")]), ("s", [("j", "w")])])
        same(raised(call, text).kind, "inline comment")
        for read in (None, ReadOption(), ReadOption(inline_comments=False)):
            same(list(call("k=v ; c\n", read).walk()), [(None, [("k", "v ; c")])])
        same(list(call("k=v\r; c\rj=a;b\n", NOTED).walk()), [(None, [("k", "v"), ("j", "a;b")])])
        both = ReadOption(multiline=True, indented_comments=True, inline_comments=True)
        same(list(call("k=a ; n\n ; c\n b # m\n", both).walk()), [(None, [("k", "a\nb")])])
    for call, words, wanted in (
        (edit_set, (None, "k", "w"), text.replace("k=v", "k=w")),
        (edit_set, ("s", "j", "a ;b"), text.replace("'w'", "'a ;b'")),
        (edit_add, ("s", "i", "u"), text + "  i=u\n"),
        (edit_delete, (None, "k"), text.replace("k=v ; c\n", "")),
        (edit_rename_key, ("s", "j", "i"), text.replace("j=", "i=")),
        (edit_delete_section, ("s",), "k=v ; c\n"),
        (edit_rename_section, ("s", "t"), text.replace("[s]", "[t]")),
    ):
        is_edited(wanted, call, text, *words, read=NOTED)
    option = ReadOption()
    option.inline_comments = True
    same(list(Document("k=v #", option).walk()), [(None, [("k", "v")])])
    same([Document("k=a ;b\n").is_plain(None, read) for read in (None, NOTED, option)], [True, False, False])
    # a dialect's
    names = ("fail2ban", "supervisor", "openssl", "python", "crate")
    same([dialect(name)[0].inline_comments for name in names], [True, True, True, False, False])
    same(edit_set("[s] ; n\nk=v ; c\n", "s", "k", "w", dialect="supervisor"), "[s] ; n\nk=w ; c\n")


def marks():
    for text in (MARK + "k=v\n", (MARK + "k=v\n").encode()):
        same(Document(text).walk(), [(None, [("k", "v")])])
        same(Document(text, drop_mark=True).walk(), [(None, [("k", "v")])])
        same(Document(text, None, False).walk(), [(None, [(MARK + "k", "v")])])
    same(Document(2 * MARK + "k=v\n").walk(), [(None, [(MARK + "k", "v")])])


# The value of `k = "a\tb;é😀"` by the number of each policy.
POLICIES = [
    "a\tb;é😀",
    "a\\tb;é😀",
    "a\\tb;\\x00e9😀",
    "a\\tb;\\x00e9\\x1f600",
    "a\\tb\\;é😀",
    "a\\tb\\;\\x00e9😀",
    "a\\tb\\;\\x00e9\\x1f600",
    "a\\tb\\;\\x00e9\\x1f600",
]
SEPARATORS = ["=", " = ", ":", ": "]


def writing():
    document = Document('k = "a\\tb;é😀"\n')
    for number, value in enumerate(POLICIES):
        same(document.text(WriteOption(policy=number)), f"k={value}\n")
        same(document.text(option=WriteOption(number)), f"k={value}\n")
    same(document.text(WriteOption(policy=8)), f"k={POLICIES[7]}\n")
    for number, separator in enumerate(SEPARATORS):
        same(document.text(WriteOption(separator=number)), f"k{separator}{POLICIES[1]}\n")
    same(document.text(WriteOption(separator=4)), f"k: {POLICIES[1]}\n")
    same(document.text(WriteOption(crlf=True)), f"k={POLICIES[1]}\r\n")
    same(document.text(WriteOption(4, True, 1)), f"k = {POLICIES[4]}\r\n")
    same((document.text(), str(document)), (f"k={POLICIES[1]}\n",) * 2)


def plain():
    """Whether a document is plain, by each option of both."""
    for key, value, write, read, wanted in (
        ("k", "v", {}, {}, True),
        ("k", " v", {}, {}, False),
        ("a=b", "v", {}, {}, False),
        ("a=b", "v", {"policy": 4}, {}, True),
        ("k", '"v', {}, {}, False),
        ("k", '"v', {}, {"quotes": False}, True),
        ("k", "a\\b", {}, {}, True),
        ("k", "a\\b", {}, {"escapes": False}, False),
        ("k", "a\\b", {"policy": 0}, {}, False),
        (" k", "v", {}, {}, False),
        (" k", "v", {}, {"keep_indentation": True}, True),
        (" k", "v", {}, {"keep_indentation": True, "multiline": True}, False),
    ):
        document = Document()
        document[None][key] = value
        same(document.is_plain(WriteOption(**write), ReadOption(**read)), wanted)
        same(document.is_plain(write=WriteOption(**write), read=ReadOption(**read)), wanted)
        again = raised(Document, document.text(WriteOption(**write)), ReadOption(**read))
        assert not wanted or again is None, again
    document = Document()
    document["a]"]["k"] = "v"
    same((document.is_plain(), document.is_plain(read=ReadOption(brackets=True))), (False, True))
    same((Document().is_plain(), Document("[s]\nk=v\n").is_plain()), (True, True))


QUOTED, ESCAPED, INDENTED = 'k="a\nj=1"\nz=1\n', "a\\tb=1\n", "k = v\n  w = x\n"
# An edit with an option of reading: the option, the edit's words, and the new text with the option and
# without it, or what is raised.
EDITS = [
    ({"quotes": False}, edit_set, (QUOTED, None, "j", "5"), 'k="a\nj=5\nz=1\n', 'k="a\nj=1"\nz=1\nj=5\n'),
    ({"escapes": False}, edit_set, (ESCAPED, None, "a\\tb", "2"), "a\\tb=2\n", "a\\tb=1\na\\\\tb=2\n"),
    ({"multiline": True}, edit_set, (INDENTED, None, "w", "5"), "k = v\n  w = x\nw = 5\n", "k = v\n  w = 5\n"),
    ({"keep_indentation": True}, edit_set, ("  k = v\n", None, "  k", "5"), "  k = 5\n", Unwritable),
    ({"brackets": True}, edit_set, ("[[*]]\nk=1\n", "[*]", "k", "5"), "[[*]]\nk=5\n", Unwritable),
    ({"quotes": False}, edit_add, ("k=1\n", None, "j", "'"), "k=1\nj='\n", 'k=1\nj="\'"\n'),
    ({"escapes": False}, edit_add, ("k=\\x\n", None, "j", "5"), "k=\\x\nj=5\n", Broken),
    ({"multiline": True}, edit_add, ("k=1\n [t]\n", "t", "j", "5"), "k=1\n [t]\n\n[t]\nj=5\n", "k=1\n [t]\nj=5\n"),
    ({"keep_indentation": True}, edit_add, ("k=1\n", None, "  j", "5"), "k=1\n  j=5\n", Unwritable),
    ({"brackets": True}, edit_add, ("[[*]]\nk=1\n", "[*]", "j", "5"), "[[*]]\nk=1\nj=5\n", Unwritable),
    ({"quotes": False}, edit_delete, (QUOTED, None, "j"), 'k="a\nz=1\n', KeyError),
    ({"escapes": False}, edit_delete, (ESCAPED, None, "a\\tb"), "", KeyError),
    ({"multiline": True}, edit_delete, (INDENTED, None, "w"), KeyError, "k = v\n"),
    ({"keep_indentation": True}, edit_delete, ("  k = v\n", None, "  k"), "", KeyError),
    ({"brackets": True}, edit_delete, ("[[*]]\nk=1\n", "[*]", "k"), "[[*]]\n", KeyError),
    ({"quotes": False}, edit_rename_key, (QUOTED, None, "j", "n"), 'k="a\nn=1"\nz=1\n', KeyError),
    ({"escapes": False}, edit_rename_key, (ESCAPED, None, "a\\tb", "n"), "n=1\n", KeyError),
    ({"multiline": True}, edit_rename_key, (INDENTED, None, "w", "n"), KeyError, "k = v\n  n = x\n"),
    ({"keep_indentation": True}, edit_rename_key, ("  k = v\n", None, "  k", "n"), "n = v\n", KeyError),
    ({"brackets": True}, edit_rename_key, ("[[*]]\nk=1\n", "[*]", "k", "n"), "[[*]]\nn=1\n", KeyError),
    ({"quotes": False}, edit_delete_section, ('k="\n[s]\n"=1\n', "s"), 'k="\n', KeyError),
    ({"escapes": False}, edit_delete_section, ("[a\\tb]\n", "a\\tb"), "", KeyError),
    ({"multiline": True}, edit_delete_section, ("k=v\n  [s]\n", "s"), KeyError, "k=v\n"),
    ({"brackets": True}, edit_delete_section, ("[[*]]\nk=1\n", "[*]"), "", KeyError),
    ({"quotes": False}, edit_rename_section, ('k="\n[s]\n"=1\n', "s", "n"), 'k="\n[n]\n"=1\n', KeyError),
    ({"escapes": False}, edit_rename_section, ("[a\\tb]\n", "a\\tb", "n"), "[n]\n", KeyError),
    ({"multiline": True}, edit_rename_section, ("k=v\n  [s]\n", "s", "n"), KeyError, "k=v\n  [n]\n"),
    ({"brackets": True}, edit_rename_section, ("[[*]]\nk=1\n", "[*]", "n]"), "[n]]\nk=1\n", Unwritable),
]
# An edit with an option of writing, and the new text with it and without it.
EDITS_WRITTEN = [
    (edit_set, ("k=1\n", None, "k", "ü"), {"policy": 5}, "k=\\x00fc\n", "k=ü\n"),
    (edit_set, ("[s]\n", "s", "j", "5"), {"separator": 1}, "[s]\nj = 5\n", "[s]\nj=5\n"),
    (edit_set, ("", "s", "j", "5"), {"crlf": True}, "[s]\r\nj=5\r\n", "[s]\nj=5\n"),
    (edit_add, ("k=1\n", None, "j", "ü"), {"policy": 5}, "k=1\nj=\\x00fc\n", "k=1\nj=ü\n"),
    (edit_add, ("[s]\n", "s", "k", "5"), {"separator": 3}, "[s]\nk: 5\n", "[s]\nk=5\n"),
    (edit_add, ("", "s", "j", "5"), {"crlf": True}, "[s]\r\nj=5\r\n", "[s]\nj=5\n"),
    (edit_rename_key, ("k=1\n", None, "k", "ü"), {"policy": 5}, "\\x00fc=1\n", "ü=1\n"),
    (edit_rename_section, ("[s]\n", "s", "ü"), {"policy": 5}, "[\\x00fc]\n", "[ü]\n"),
]


def edits():
    for option, edit, words, with_it, without in EDITS:
        assert with_it != without
        is_edited(with_it, edit, *words, read=ReadOption(**option))
        is_edited(without, edit, *words)
        is_edited(without, edit, *words, read=ReadOption())
    for edit, words, option, with_it, without in EDITS_WRITTEN:
        is_edited(with_it, edit, *words, write=WriteOption(**option))
        is_edited(without, edit, *words)
        is_edited(without, edit, *words, write=WriteOption())
    # both, by their places
    indent, brackets = ReadOption(keep_indentation=True), ReadOption(brackets=True)
    unicode = WriteOption(policy=5)
    same(edit_set("  k=1\n", None, " j", "ü", indent, unicode), "  k=1\n j=\\x00fc\n")
    same(edit_add("  k=1\n", None, " j", "ü", indent, unicode), "  k=1\n j=\\x00fc\n")
    same(edit_rename_key("  k=1\n", None, "  k", "ü", indent, unicode), "\\x00fc=1\n")
    same(edit_rename_section("[[s]]\n", "[s]", "ü]", brackets, unicode), "[\\x00fc]]\n")


# A text of each kind of fault: the options, the text, line and column, the kind and its words.
FAULTS = [
    ({}, "k=1\nj", 2, 2, "end of text", "expecting \"[Some('='), Some(':')]\" but found EOF."),
    ({}, "k='a", 1, 5, "end of text", "expecting \"[Some('\\'')]\" but found EOF."),
    ({}, "k=\\x00", 1, 7, "end of text", "expecting \"[Some('\\n'), Some('\\r'), None]\" but found EOF."),
    ({}, "k=\\x00\\z", 1, 9, "broken escape", 'expecting "\\n" after a backslash in \\xHH form'),
    ({}, "k=\\xD800", 1, 9, "unknown character", "unknown character in \\xHH form"),
    ({}, "[ü];c", 1, 5, "inline comment", "doesn't support inline comment"),
    ({}, "k=ü\n\n  =v", 3, 4, "missing key", "missing key"),
    ({"multiline": True}, "k=v\n\rx", 2, 3, "CR alone", "\\r is not followed by \\n"),
    ({"brackets": True}, "[a] x\nk=v", 2, 1, "header end", "section must be ended with ']'"),
    ({"lone_lines": "refused"}, "k=v\nü\nj=w", 3, 1, "no separator", "no separator follows the key in its line"),
]


def is_fault(error, line, column, kind, message):
    same((type(error), error.line, error.column), (Broken, line, column))
    same((error.kind, error.message), (kind, message))
    same((str(error), error.args), (f"{line}:{column} {message}", (f"{line}:{column} {message}",)))
    assert isinstance(error, ValueError)


def faults():
    for option, text, *fault in FAULTS:
        read = ReadOption(**option)
        is_fault(raised(Document, text, read), *fault)
        for edit, words in (
            (edit_set, ("s", "k", "v")),
            (edit_add, ("s", "k", "v")),
            (edit_delete, ("s", "k")),
            (edit_rename_key, ("s", "k", "v")),
            (edit_delete_section, ("s",)),
            (edit_rename_section, ("s", "t")),
        ):
            is_fault(raised(edit, text, *words, read=read), *fault)
            # a mark is left out of what is counted
            is_fault(raised(edit, MARK + text, *words, read=read), *fault)
    same(list(dict.fromkeys(fault[4] for fault in FAULTS)), list(KINDS[1:]))


def unwritable():
    for what, call in (
        ("value", lambda: edit_set("k=1", None, "k", " 1", ReadOption(quotes=False))),
        ("key", lambda: edit_add("k=1", None, "", "1")),
        ("name", lambda: edit_rename_section("[s]", "s", " t")),
        ("place", lambda: edit_set("[a]\n  junk", "a", "k", "v", ReadOption(multiline=True))),
    ):
        error = raised(call)
        same((type(error), error.what, str(error)), (Unwritable, what, f"no {what} for an edit of this text"))
        assert isinstance(error, ValueError)


def absent():
    """What isn't there is named."""
    document = Document("k=1\n[s]\nk=1\n")
    for name, call in (
        ("z", lambda: document["s"]["z"]),
        ("z", lambda: document["s"].__delitem__("z")),
        ("t", lambda: document.__delitem__("t")),
        ("z", lambda: edit_delete("k=1", None, "z")),
        ("z", lambda: edit_rename_key("k=1", None, "z", "y")),
        ("t", lambda: edit_delete_section("[s]", "t")),
        ("t", lambda: edit_rename_section("[s]", "t", "u")),
        (None, lambda: edit_delete_section("k=1", None)),
        (None, lambda: edit_rename_section("k=1", None, "u")),
    ):
        error = raised(call)
        same((type(error), error.args), (KeyError, (name,)))


def no_texts():
    """What is no text is refused before anything is done: half a character, and bytes that are no UTF-8."""
    half, text = "a\ud800", "k=1\n[s]\nk=1\n"
    document = Document(text)
    for call in (
        lambda: Document(half),
        lambda: document.get(half, "k"),
        lambda: document.get("s", half),
        lambda: document.set(half, "k", "v"),
        lambda: document.set("s", half, "v"),
        lambda: document.set("s", "k", half),
        lambda: document.add(half, "k", "v"),
        lambda: document.add("s", half, "v"),
        lambda: document.add("s", "k", half),
        lambda: document.__delitem__(half),
        lambda: half in document,
        lambda: half in document["s"],
        lambda: document["s"].__delitem__(half),
        lambda: document["s"].get_all(half),
        lambda: document[half].pairs(),
        lambda: edit_set(half, None, "k", "v"),
        lambda: edit_set(text, half, "k", "v"),
        lambda: edit_set(text, None, half, "v"),
        lambda: edit_set(text, None, "k", half),
        lambda: edit_add(text, None, "k", half),
        lambda: edit_delete(text, None, half),
        lambda: edit_rename_key(text, None, "k", half),
        lambda: edit_delete_section(text, half),
        lambda: edit_rename_section(text, "s", half),
    ):
        same(type(raised(call)), UnicodeEncodeError)
    same(document.walk(), [(None, [("k", "1")]), ("s", [("k", "1")])])
    for call in (
        lambda: Document(b"k=\xff"),
        lambda: edit_set(b"k=\xff", None, "k", "v"),
        lambda: edit_add(b"k=\xff", None, "k", "v"),
        lambda: edit_delete(b"k=\xff", None, "k"),
        lambda: edit_rename_key(b"k=\xff", None, "k", "j"),
        lambda: edit_delete_section(b"k=\xff", "s"),
        lambda: edit_rename_section(b"k=\xff", "s", "t"),
    ):
        error = raised(call)
        same((type(error), str(error)), (UnicodeError, "not UTF-8"))


def copies():
    """A document isn't copied, and stands whole where that is tried; what is got from it is copied."""
    document = Document("k=1\n[s]\nk=2\n")
    for call, of in (
        (copy.copy, document),
        (copy.deepcopy, document),
        (copy.deepcopy, {"settings": document}),
        (copy.deepcopy, document["s"]),
        (pickle.dumps, document),
    ):
        error = raised(call, of)
        same((type(error), str(error)[:38]), (TypeError, "a Document can't be copied or pickled:"))
    same(document.walk(), [(None, [("k", "1")]), ("s", [("k", "2")])])
    view = copy.copy(document["s"])
    del view
    document["s"]["k"] = "3"
    same((document["s"]["k"], dict(document["s"])), ("3", {"k": "3"}))
    same(Document(str(document)).walk(), document.walk())


def nothing_loaded():
    """A document whose text was refused, and which somebody kept: each call says so."""
    document = Document.__new__(Document)
    assert isinstance(raised(document.__init__, "=v"), Broken)
    for call in (
        lambda: document.get(None, "k"),
        lambda: document.set(None, "k", "v"),
        lambda: document.add(None, "k", "v"),
        lambda: document[None]["k"],
        lambda: document[None].__delitem__("k"),
        lambda: document[None].get_all("k"),
        lambda: document[None].pairs(),
        lambda: "k" in document[None],
        lambda: "s" in document,
        lambda: document.__delitem__("s"),
        lambda: list(document),
        document.walk,
        document.text,
    ):
        error = raised(call)
        same((type(error), str(error)), (ValueError, "nothing is loaded"))
    same(document.is_plain(), False)


def threads():
    """Four threads read values while a fifth sets them: each reads one that was set."""
    values = [letter * count for letter, count in (("a", 10), ("b", 1000), ("c", 70000), ("ü", 3000))]
    document, wrong, end = Document(f"k={values[0]}\n"), [], time.monotonic() + 0.5

    def read():
        try:
            while time.monotonic() < end and not wrong:
                section = document[None]
                had = [section["k"], *section.get_all("k"), *dict(section.pairs()).values()]
                wrong.extend(value[:9] for value in had if value not in values)
        except Exception as error:
            wrong.append(error)

    readers = [threading.Thread(target=read) for _ in range(4)]
    for reader in readers:
        reader.start()
    while time.monotonic() < end:
        for value in values:
            document[None]["k"] = value
    for reader in readers:
        reader.join()
    same(wrong, [])


parts = (reading, raw_backslashes, lone_lines, indented_comments, inline_comments, dialects, marks, writing)
for part in parts + (plain, edits, faults, unwritable, absent, no_texts, copies):
    part()
nothing_loaded()
threads()
print("all options and refusals of the Python module")
