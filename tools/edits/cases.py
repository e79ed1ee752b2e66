"""The stored edits: those that the documents show, what is refused, and some texts under every set of options."""
import itertools
import pathlib
import re

from model import POLICIES, Option, Question, Writing

DEFAULT = Option(escape=True, quote=True, multiline=False, indent=False, brackets=False)
MULTILINE = DEFAULT._replace(multiline=True)
ESCAPES_OFF = DEFAULT._replace(escape=False)
RAW_BACKSLASHES = ESCAPES_OFF._replace(raw=True)
STRICT = DEFAULT._replace(lone=1)
LONE_KEYS = DEFAULT._replace(lone=2)
COMMENTS = DEFAULT._replace(comments=True)
NOTES = DEFAULT._replace(notes=True)
INDENT = DEFAULT._replace(indent=True)
BASICS = Writing("Basics", "\n", "=")
BARE = BASICS._replace(policy="Nothing")
CRLF = Writing("Reserved", "\r\n", " = ")

# The option set, the section, the key, and the text.
SET = (
    (DEFAULT, "server", "port", "[server]\n  port\t= 80   \n# of the proxy\n"),
    (DEFAULT, "server", "port", "[server]\nport='80'\n"),
    (DEFAULT, "server", "port", "[server]\nport=80\n# old\nport=81\nhost=h\n"),
    (DEFAULT, "server", "port", "[server] port=80\r\n"),
    (DEFAULT, None, "k", "k=\n"),
    (DEFAULT, None, "k", "k= \\ v\\ \n"),
    (DEFAULT, None, "k", 'k="a""b" c \xa0\n'),
    (DEFAULT, "a", "k", "[a]k=1 k=2\nj=3\rk=4\n#c\nk=5"),
    (DEFAULT, "b", "k", "[a]\nk=1\n[b]\n[b]\nk=2\n"),
    (MULTILINE, None, "k", "k=\n  v\n\n  w \n\n \t\n[a]"),
    (MULTILINE, None, "k", "k=v\r\n w\r\n\r\nj=1\n"),
    (MULTILINE, None, "k", 'k=v\n ""\n \\n\n w\n ""\n \\n\n  '),
    (INDENT, None, " k", " k=v\nk=w\n k = 2"),
)

# A value that stands in quotes, or is about to: the option set, the text, and the new value.
NO_QUOTES = DEFAULT._replace(quote=False)
QUOTED = (
    (DEFAULT, 'k = "v" \n# c', "new w"),
    (DEFAULT, "\tk:'v'\r\n", "new"),
    (DEFAULT, 'k=""', "new"),
    (DEFAULT, "k='v'\n", ""),
    (DEFAULT, 'k="v"\n', "it's"),
    (DEFAULT, 'k="v"\n', 'a"b'),
    (DEFAULT, "k='v'\n", "\\'"),
    (DEFAULT, 'k="a\\"b"\n', "new"),
    (DEFAULT, 'k="a\\\\" \n', "a\nb\\"),
    (DEFAULT, "k='a\\\n\\x0041\nb'\n", "new"),
    (DEFAULT, 'k="a""b"\n', "new"),
    (DEFAULT, 'k="a"b"c"\n', "new"),
    (DEFAULT, "k='a'\"b\"\n", "new"),
    (DEFAULT, 'k="v" ; c\n', "new"),
    (DEFAULT, 'k="v"\\ \n', "new"),
    (DEFAULT, 'k="v"\n', " new"),
    (DEFAULT, 'k="1"\nk=\'2\'\n', "new"),
    (ESCAPES_OFF, "k='a\\'b'\n", "new"),
    (ESCAPES_OFF, 'k="a\\\\"\n', "it's"),
    (ESCAPES_OFF, 'k="v"\n', "\\"),
    (NO_QUOTES, 'k="v"\n', "new"),
    (NO_QUOTES, "k='v'\n", '"'),
    (MULTILINE, 'k = "v" \n\n# c', "new"),
    (MULTILINE, 'k="v"\n ""\n \nj=w', "new"),
    (MULTILINE, 'k="v"\n w\n', "new"),
    (MULTILINE, 'k=\n "v"\n', "new"),
    (MULTILINE, "k='a\n b'", "new"),
)
# A value that is there already.
STAYING = (
    (DEFAULT, "k=\\\\ \n", "\\"),
    (DEFAULT, "k = 'v' w \n", "v w"),
    (DEFAULT, "k=\\x0041\nk=2\n", "A"),
    (DEFAULT, "k=a\\\nb", "ab"),
    (MULTILINE, "k=\n  v\n\n\tw \n\nj=1\n", "v\n\nw"),
    (ESCAPES_OFF, "k='v' \n", "v"),
)
TAKEN_OUT = (
    (DEFAULT, "a", "k", "[a]\nk=v\n# c\n"),
    (DEFAULT, "a", "k", "[a]k=v\n# c"),
    (DEFAULT, None, "k", "x=y\rk=v\n#c"),
    (DEFAULT, None, "k", "x=y\rk=v\rj=w"),
    (DEFAULT, None, "k", "k=1\nk=2\n"),
    (DEFAULT, "a", "k", "[a]k=v\n"),
    (MULTILINE, "a", "k", "[a]\nk=v\n  w\n\nj=w"),
    (MULTILINE, "a", "k", "[a]k=v\n#c"),
    (MULTILINE, "a", "k", "[a]k=v\r\n"),
    (MULTILINE, None, "k", "x=y\rk=v\n\n#c"),
    (MULTILINE, None, "k", "x=y\rk=v\r[a]"),
)
RENAMED = (
    (DEFAULT, "a", "k", "new", "[a]\n  k\t= 'v'   \n# c\n"),
    (DEFAULT, None, "k", "new", "k=1\nk=2\n"),
    (DEFAULT, None, "k", "a=b", "k=1\n"),
    (DEFAULT, None, "k", " new", "k=1\n"),
    (DEFAULT, None, "k", "é\t", "j=1\n"),
    (DEFAULT, None, "one\ntwo", "new", "one\ntwo\n = 2\n"),
    (MULTILINE, "a", "k", "new", "[a]k=v\n  w\n"),
    (INDENT, None, "\tk", "new", "\tk =v\n"),
    (INDENT, None, "\tk", "\tnew", "\tk =v\n"),
)
SECTIONS = (
    (DEFAULT, "[a]\n# of k\nk=v\n\n# of b\n[b]"),
    (DEFAULT, "[a] [b]\nk=v"),
    (DEFAULT, "[b] [a]\nk=v\n# of c\n[c]"),
    (DEFAULT, "  [a]\nk=v\n  [b]"),
    (DEFAULT, "[a]\nk=v\n  [b]"),
    (DEFAULT, "[a]\n# c\n  junk"),
    (DEFAULT, "# c\n [ a ] \nk=v"),
    (DEFAULT, "[b]\nk=v\n"),
    (DEFAULT._replace(brackets=True), "[b]\n[ a ] \t\nk=v\n[a]"),
    (MULTILINE, "[a]\nk=v\n # w\n\n# of b\n[b]"),
)
ADDED = (
    (DEFAULT, "a", "k", "[a]\nj=w\n# of b\n[b]"),
    (DEFAULT, "a", "k", "[a][b]"),
    (DEFAULT, "a", "k", "[a]j=\\"),
    (DEFAULT, None, "k", "j=w\r[b]"),
    (DEFAULT, "a", "k", "[a]\t \xa0\n[b]"),
    (DEFAULT, "a", "k", "[a]  [b]"),
    (DEFAULT, None, "k", ""),
    (DEFAULT, None, "k", "\n; c\n[a]"),
    (DEFAULT, "a", "k", "[a]\nj=w\\\n"),
    (DEFAULT, "a", "k", "[a]\n  j"),
    (MULTILINE, None, "k", "j=w\r[b]"),
    (MULTILINE, "a", "k", "[a]\n  \n[b]"),
    (MULTILINE, "a", "k", "[a]\n \n# c\n j"),
    (MULTILINE, "a", "k", "[a]\n  j"),
    (MULTILINE, None, "k", "j=w\n  u\n\n"),
    (ESCAPES_OFF, "a", "k", "[a]j=\\"),
    (ESCAPES_OFF, "a", "k", "[a]\nj=w\\\\"),
)
NEW_SECTIONS = (
    (DEFAULT, ""),
    (DEFAULT, "\r\n"),
    (DEFAULT, "[a]\nj=w"),
    (DEFAULT, "[a]\nj=w\n\n"),
    (DEFAULT, "[a]\n# c"),
    (DEFAULT, "[a]\nj=w\n  junk"),
    (DEFAULT, "[a]\r\nj=\\"),
    (MULTILINE, "[a]\nj=w\n  x"),
    (MULTILINE, "[a]\n  x"),
)
# Values with backslashes where escapes are off: the text, and the values.
RAW_TEXTS = ("path = C:\\temp \n", "path='C:\\temp'\n", "[a]\nj=w", "j=w\\", "path=1\npath=2\\\\\r\n")
# Lines that end in backslashes.
RAW_LINES = ("k=v\\\nj=w", "k\\=v\\", "[a\\]\nk=v\\\r\n[b]", "k=v\\\rj\\=w\n[a\\]", "k='v\\' w \n", "k=v\\ \t\nj\\=w\\ ")
# Texts with lines without separator, and without, where these are refused.
STRICT_TEXTS = ("k=v\n[a]\n", "abc\nk=v\n[a]", "[a]\n  k=v\n  abc", "[a]\n\\\nk=v\n  ", "k\\\n=v\n  \n[a]j=w\\\n", "[a] k\rj=w")
# Texts with keys alone.
KEY_TEXTS = (
    "k\n[a]\nk\n",
    "j=1\n  k \n[a]\tk",
    "[a]\nj : 1\nk\\\n\n# c\nk\\",
    "k\r\nj\r\n\r\n[a]\nk\n# c\n",
    "j=w\nk\n  i\n[a]\nj\n\n  x\nk\n  [b]",
    "j=w\rk\r\r[a]\n;\nk\r; c\r",
    "k\\",
)
KEY_OPTIONS = (LONE_KEYS, LONE_KEYS._replace(multiline=True), LONE_KEYS._replace(escape=False, comments=True))
KEY_OPTIONS += (LONE_KEYS._replace(multiline=True, comments=True),)
# Texts with indented comments, and with comments after CR.
COMMENT_TEXTS = (
    "[a]\n  ; of k\n  k = v\n\n  ; of j\nj=w\n  # of b\n  [b]",
    "k=v\n  ; c\n\n  w\n\n  # d\n  ; e\nj=w\n[a]\n  ; f\n\n[b]",
    "k=v\n ; c\n  \"\"\n ; d\n \xa0; e\n\n ; f",
    "[a]k=v\n\t; c\r\n[a]\r; d\r  # e\r\n  junk",
    "x=1\nk=v\r; c\r[a]\nk=w\r# d\rj=w\n",
    "[a]\n\n  ; c\r; d\n  junk",
)
# Texts with notes, and options and values for them.
NOTE_TEXTS = (
    "k = v  ; n\n[a] ; m\n\n  k='v'\t# n\r\n[b] ;o",
    "k=a\\  ;n\nj=1 ; j\n[a] ; m\r; o\rk=v ;n\r; c\rj=w",
    "k=a ; m\n b ;n\n \"\" ; o\n\n[a]\tk= ;v #n",
    "k=a\n ; m\n b\\ ;c \xa0\t;n\n ; o\nj=w\n[a] k=\"\" ;",
    "k\\ ;v ;n\n[a]\n; c\nk=v ; n\\",
    "[a]\t \t;m\\\n",
    "\x0b;n\r; o\r[a];m\n  junk",
)
KEY_NOTE_TEXTS = (
    "j=1\nk ; n\n  i = 2\n[a] k\t#n\r\n",
    "[a];m\n  k ;n\r; c\r\rj = w\n",
    "[a]\nk\t; n\\",
)
NOTE_OPTIONS = (NOTES, NOTES._replace(multiline=True), NOTES._replace(comments=True, multiline=True))
NOTE_OPTIONS += (NOTES._replace(escape=False, raw=True, quote=False), NOTES._replace(brackets=True, lone=1))
KEY_NOTE_OPTIONS = tuple(NOTES._replace(lone=2, **more) for more in ({}, {"multiline": True}, {"brackets": True}))
NOTED_VALUES = ("", "a ;b", ";b", "a\t#b", "a\\", "'v' \"w\"")
RAW_VALUES = ["C:\\new", "C:\\new\\", "C:\\new\\\\", "\\\\\\", "'\\'", "it's\\n", "a\\\nb", "a\\\rb", "a\\ ", "\\", "\\\\"]
VALUES = ["", " v", '"v', "'", "a\tb", "a\nb", "a\\b", "\v", "é", "\U0001f431", "#", "a=b"]
KEYS = ["", " k", "k ", "[k", ";k", "a=b", "a:b", "\tk", "é", "k\n", "  \tk", "\xa0k"]
FAULTS = ["k", "[a", "k=v\n=w", "k='v", "k=\\x", "k=\\x\\k", "k=v\n[a] ; c", "[a]\n #c\nk=\\xd800", "é\r\n\r\n;\n ="]

# Texts that options read in their own ways.
EVERYWHERE = (
    "[a]\nj=1\nk = \"v\" w\\x0041 \n  \\ k=2\n\n# c\nk=3 \n[b]\nk=4\n",
    "[a]]\r\nx=w\n\tk : 'v'\n\tk=\\\n w\n  \n[b]\r\n",
    "[a]]\n x=\n  k=\\=\\\n\r \tj='\\0' w\r\n\r\n k =1\n\n\n[b]\n#",
)


def document_examples():
    for option, name, key, text in SET:
        yield Question("set_existing", option, BASICS, name, key, "443", text)
    for option, text, value in QUOTED:
        yield Question("set_existing", option, BASICS, None, "k", value, text)
        yield Question("set", option, CRLF, None, "k", value, text)
    for option, text, value in STAYING:
        yield Question("set_existing", option, BASICS, None, "k", value, text)
        yield Question("set", option, CRLF, None, "k", value, text)
    for option, name, key, new, text in RENAMED:
        yield Question("rename_key", option, BASICS, name, key, new, text)
    for option, text in SECTIONS:
        yield Question("delete_section", option, BASICS, "a", "", "", text)
        yield Question("rename_section", option, BASICS, "a", "", "x", text)
    for option, name, key, text in TAKEN_OUT:
        yield Question("delete", option, BASICS, name, key, "", text)
    for (option, text), call in itertools.product(NEW_SECTIONS, ("set", "add")):
        yield Question(call, option, CRLF, "b", "k", "v", text)
    for (option, name, key, text), writing in itertools.product(ADDED, (BASICS, CRLF)):
        yield Question("add", option, writing, name, key, "v", text)


def backslashes():
    """Values with backslashes where escapes are off, and texts whose lines end in them."""
    for text, value in itertools.product(RAW_TEXTS, RAW_VALUES):
        for call in ("set_existing", "set", "add"):
            yield Question(call, ESCAPES_OFF, BARE, None, "path", value, text)
        yield Question("set", RAW_BACKSLASHES, BARE, None, "path", value, text)
    for text in RAW_LINES:
        for key, call in itertools.product(("k", "j\\"), ("delete", "rename_key", "set", "add")):
            yield Question(call, RAW_BACKSLASHES, BARE, None, key, "n\\", text)
        yield Question("rename_section", RAW_BACKSLASHES, BARE, "a\\", "", "n\\", text)
        yield Question("delete_section", RAW_BACKSLASHES, BARE, "a\\", "", "", text)


def pair_edits(option, text):
    """Edits of the key k in the general section and in another."""
    for name, call in itertools.product((None, "a"), ("set", "add", "delete", "rename_key")):
        yield Question(call, option, BASICS, name, "k", "n", text)


def section_edits(option, text):
    yield Question("rename_section", option, BASICS, "a", "", "n", text)
    yield Question("delete_section", option, BASICS, "a", "", "", text)


def lone_lines():
    """Lines without separator, where they are refused and where they are keys alone."""
    for text in STRICT_TEXTS:
        yield from pair_edits(STRICT, text)
        yield Question("rename_section", STRICT, BASICS, "a", "", "n", text)
        yield Question("delete_section", STRICT._replace(multiline=True), BASICS, "a", "", "", text)
    for text, option in itertools.product(KEY_TEXTS, KEY_OPTIONS):
        yield from pair_edits(option, text)
        yield Question("set_existing", option, BASICS, None, "k\\", "n", text)
        yield Question("add", option, CRLF, "c", "k", "n", text)
        yield from section_edits(option, text)


def comments_and_notes():
    """Texts with indented comments and with notes, and words that look like notes."""
    commented = itertools.product(COMMENT_TEXTS, (COMMENTS, COMMENTS._replace(multiline=True)))
    noted = itertools.product(NOTE_TEXTS, NOTE_OPTIONS)
    for text, option in itertools.chain(commented, noted, itertools.product(KEY_NOTE_TEXTS, KEY_NOTE_OPTIONS)):
        yield from pair_edits(option, text)
        yield Question("add", option, CRLF, "b", "k", "n", text)
        yield from section_edits(option, text)
    for text, value in itertools.product(NOTE_TEXTS[:3] + KEY_NOTE_TEXTS[:1], NOTED_VALUES):
        for policy in ("Nothing", "Basics", "Reserved"):
            writing = BASICS._replace(policy=policy)
            for option in (NOTES, NOTES._replace(quote=False), NOTES._replace(escape=False), KEY_NOTE_OPTIONS[1]):
                yield Question("set", option, writing, None, "k", value, text)
    for option in (NOTES, *KEY_NOTE_OPTIONS, NOTES._replace(lone=1, indent=True)):
        for word in ("a ;b", "a;b", "a \\;b", ";b"):
            yield Question("rename_key", option, BASICS, None, "k", word, "k=v ; n\n")
            yield Question("rename_section", option, BASICS, "a", "", word, "[a] ; n\n")
            yield Question("add", option, BASICS._replace(policy="Reserved"), word, word, word, "k=v ; n")
            yield Question("add", option, BASICS, word, word, word, "k=v ; n")


def plain_and_unplain():
    """Values, keys and separators, some of them plain, and names that are and aren't there."""
    policies = itertools.cycle(POLICIES)
    for value in VALUES:
        yield Question("set_existing", DEFAULT, BASICS, None, "k", value, "k = v \n")
        yield Question("add", DEFAULT, BASICS._replace(policy=next(policies)), None, "k", value, "j=w")
    yield from itertools.chain(backslashes(), lone_lines(), comments_and_notes())
    for value in RAW_VALUES:
        yield Question("set", ESCAPES_OFF._replace(multiline=True, quote=False), BARE, None, "path", value, "path=1 \n  2\n\n")
        yield Question("set", DEFAULT, BARE, None, "path", value, "path=1\n")
        yield Question("set", ESCAPES_OFF, BASICS, None, "path", value, "path=1\n")
    for key in KEYS:
        yield Question("add", DEFAULT, BASICS, None, key, "v", "j=w")
        yield Question("add", INDENT, BASICS._replace(policy=next(policies)), None, key, "v", "j=w")
    for separator in ("=", ":", " = ", ":\t", "", " =="):
        yield Question("add", DEFAULT, BASICS._replace(separator=separator), None, "", "'", "=")
        yield Question("add", DEFAULT, BASICS._replace(separator=separator), None, "k", "v", "j=w\n")
    for call, name in itertools.product(("set_existing", "delete", "set", "add"), (None, "", "b", "c")):
        yield Question(call, DEFAULT, BASICS, name, "k", "v", "k=1\n[]\nk=2\n[b]\nj=3")


# The texts of the case files that are loaded, refused, written, or reported element by element.
DATA = pathlib.Path(__file__).resolve().parent.parent.parent / "crates" / "ini_cases" / "data"
ASKING = re.compile(r"load|refuse|write|read|places")
ROW = re.compile(r'    "((?:[^"\\]|\\.)*)"')
ESCAPE = re.compile(r"\\(?:u\{([0-9a-f]+)\}|(.))", re.DOTALL)
LETTERS = {"n": "\n", "r": "\r", "t": "\t", "0": "\0"}


def unescaped(source):
    """The text that stands in quotes as Rust spells it, or nothing where it holds bytes."""

    def character(found):
        digits, letter = found.groups()
        return chr(int(digits, 16)) if digits else LETTERS.get(letter, letter)

    return None if "\\x" in source else ESCAPE.sub(character, source)


def carried_texts():
    """Each text once, in the order of the files."""
    texts = {}
    for file in sorted(DATA.glob("*.cases")):
        asks = False
        for line in file.read_text().splitlines():
            if line[:1].isalpha():
                asks = ASKING.match(line) is not None
            elif asks and (row := ROW.match(line)) and (text := unescaped(row[1])) is not None:
                texts[text] = None
    return list(texts)


def carried(options):
    """Each call on each of these texts: of its first key, and of one that it lacks."""
    for text, option in itertools.product(carried_texts(), options):
        name = next(iter(re.findall(r"\[([^\]\n]*)\]", text.split("=")[0])), None)
        found = re.search(r"([^=:\s\[\]#;]+)[ \t]*[=:]", text)
        key = found[1] if found else "k"
        yield Question("set_existing", option, BASICS, name, key, "new value", text)
        yield Question("delete", option, BASICS, name, key, "", text)
        yield Question("set", option, CRLF, name, "new_key", "v", text)
        yield Question("add", option, BASICS, name and name + "2", key, "v", text)
        yield Question("rename_key", option, BASICS, name, key, "new key", text)
        yield Question("delete_section", option, BASICS, name or "a", "", "", text)
        yield Question("rename_section", option, CRLF, name or "a", "", "new name", text)


def questions():
    """Every stored edit."""
    yield from document_examples()
    yield from plain_and_unplain()
    for text, call in zip(FAULTS, itertools.cycle(("set_existing", "delete", "set", "add"))):
        yield Question(call, DEFAULT, BASICS, None, "k", "v", text)
    options = [Option(*flags) for flags in itertools.product((True, False), repeat=5)]
    ways = itertools.cycle((BASICS, CRLF))
    for option, text in itertools.product(options, EVERYWHERE):
        name = "a]" if option.brackets and "]]" in text else "a"
        for call, key in (("set_existing", "k"), ("set_existing", "\tk"), ("delete", "k"), ("set", "j"), ("add", "k")):
            yield Question(call, option, next(ways), name, key, "new", text)
    yield from carried((DEFAULT,))


# Lines that ask no edit: nothing, a word too few, a call that there isn't.
NO_QUESTIONS = ("", "set 11000 Basics LF 3d G 6b 76", "put 11000 Basics LF 3d G 6b 76 ")
