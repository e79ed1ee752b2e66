"""Texts that tell readers of INI files apart, and the smallest text of each declared departure.

The texts stand by the rule that each is about. What they give is asked of the Rust crate, never of this library.
"""
import grammar
from grammar import DEFAULT, INLINE_WHITE
from texts import SETTINGS

BETWEEN_ITEMS = [
    "", "\n\n\n", " ", "\t \t", " \n", "k", "  k", "  k\nj", "  k\nj=v", "a=b\n\u3000k=v", "a=b\n\x0b[s]\n", "a=b\n\x0b# c",
    "a=b\n \x0bk=v", "a=b\n\t[s]\n", "a=b\r\t[s]\rc=d", "a=b\n \n  c=d", "a=b\r\n \r\n  c=d",
    "[s]  \n", "[s] k=v", "[s]\t\tk=v", "a=b\n  ", "a=b\n\t#x=y\n", "[a]\n  # x\nk=v\n", "a=b\n\u00a0k=v",
    "[SectionA]\nKey1=Value1\n\n\t  [SectionB]\n\t  Key2=Value2", "\n\n\n\r\n  key1=value1\n\tkey2=value2\nkey3=value3\n[Section]\nkeyA=valueA",
]  # fmt: skip

COMMENTS = [
    "; c", "# c\n", "#\rk=v", "#\r\nk=v", "# a\\\nk=v", "k=v\r# c\n", "[s] ; c", "[s]#c", "\n\n; c\nk=v", "k=v ; c", "k=v\n;\n#\nj=w",
    "\n[section name] # comment in section line\n", "k=v\n# [s]\nj=w", "k=v\r\n; c\r\nj=w",
]  # fmt: skip

HEADERS = [
    "[s]", "[ s ]", "[\u3000s\u2003]", "[]", "[ ]\nk=v", "[s", "[s\n]", "[s\r\nt]k=v", "[a]]=b", "[[a]]", "[a\\]b]", "[a\\\nb]", "[a\\nb]",
    "[\\ a\\t]", "[a\\x0041]", "[a\\", "[a\\x004", "[a=b:c]", "[;#]", "[a][b]c=d", "[s]\n[s]\nk=v\n[t]\n[s]\nk=w", "[[*]]\t\t\na = b\n",
    "[a]\\", "[\"a]\"]", "k=1\nk=2\n[s]\nk=3\nk=4\n[s]\nk=5\n[t]", "[é\U0001f431",
]  # fmt: skip

KEYS = [
    "k=v", "k:v", "k =v", " k = v ", "k\n=v", "abc\nk=v", "a b=c", "=v", ":", "  :v", "a\\=b=c", "a\\:b:c",
    "\\[a]=b", "\\;a=b", "\\#=x", "\"k\"=v", "'k'=v", "k]=v", "]=v", "k\\\nj=v", "k\\\r\nj=v", "\\x006b=v", "\\ k=v", "k\\ =v",
    "k\u3000=v", "k\t=v", "k\\t=v", "k\\\\=v", "\\x3d=v", "k\\", "k\\x00", "a=b\n  k\\", "a=b\n  \\x00", "a=b\n \\k=v", "\n\n\n=", "[s]=v",
]  # fmt: skip

INDENTED = [
    "a=b\n  k=v", "a=b\n\tk\t=v", "a=b\n \t k =v\n", "a=b\n  \\tk=v", "a=b\n \u2003k=v", "a=b\n  k\n  j=v", "a=b\r k=v", "a=b\n =v", "a=b\n  \\ =v",
    "a=b\n  ;x=y", "a=b\n\n\n  c=d\n", " \tk = v", "a=b\n\x0b k=v", "a=b\n k\\\n j=v", "[section]\nkey1=value1\n  key2=value2\n    key3=value3\n",
    "[profile dev]\nservices=my-services\n\n[services my-services]\ndynamodb=\n  endpoint_url=http://localhost:8000\n",
]  # fmt: skip

VALUES = [
    "k=", "k=\n", "k= \t", "k=\n\nj=w", "k= v w ", "k=\u3000v\u3000", "k==v", "k=:v", "k=v=w", "k=v\rj=w", "k=v\r\nj=w", "k=\\ v\\ ",
    "k=\\tv\\t", "k=v\\", "k=v\\\n", "k=a\\\nb", "k=a\\\n  b", "k=a\\\r\nb=c", "k=a\\\rb", "k=[v]", "k=#v", "k= ;v", "k=v\x0bw", "k=\x0b\x0cv\x0c",
    "path=C:\\Windows\\Some\\Folder\\", "Key3=C:\\Windows\nlocation=Guangzhou=world", "k=\rj", "k=v\r",
]  # fmt: skip

ESCAPES = [
    "k=\\0\\a\\b\\t\\r\\ne", "k=\\f\\v\\e\\\"\\'\\;", "k=\\X0041", "k=\\x0041", "k=\\x00e9\\x00C9", "k=\\xd7ff\\xe000", "k=\\xD800", "k=\\xdfff",
    "k=\\xFFFF", "k=\\x0000", "k=\\x+041", "k=\\x+fFf", "k=\\x-041", "k=\\x++41", "k=\\x004+", "k=\\x 041", "k=\\x1f431", "k=\\x004", "k=\\x",
    "k=\\x00\n1", "k=\\x00\\\n1", "k=\\x004\\\n1", "k=\\x004\\\nj=v", "k=\\x004\r", "k=\\x00é1", "k=\\x00\uff141", "k=\\x0041\\x0042", "k=\\\\x0041",
    "k=\\x0123\\x4567\\x89ab\\xcdef\\xABCD\\xEF01", "k=\\\\", "k=\\\\\\", "k=\\é", "\n\\x", "[\\xgggg]", "k=a\\x",
    "\n\b\x44\b=\n~~=1\n>\b\b=\n[]]$[=\nK[\n\n\n=\\xDFFFFF~=\n",
]  # fmt: skip

QUOTES = [
    'k="v"', "k='v'", 'k="a""b" c', "k=\"a\"'b' c ", 'k= "a" "b"', 'k="a', "k='a", 'k="a\n b"\n', 'k="a\r\nb"', 'k="" ', 'k="  a  "  ',
    'k="a\\"b"', "k='a\\'b'", 'k="a\\\nb"', 'k="a\\', 'k="a\\n"', 'k="\\x0041"', 'k="\\x00"', 'k=a"b"', "k=\"a'b\"", "k='a\"b'",
    'k=\\"a"', 'k="a" ; c', 'k="a"=b', '"k"="v"', 'k="]=:;#"', 'k=\u00a0"a"', 'k="a"\\ b', 'k="a"\\', "k=\"a\nb\"'", 'k="a"\n"b"=c',
    "Key2='Single Quote' with extra value\nKey='x", "\n[Foo]\nKey=   \"  quoted with whitespace \"  \n        ",
    "[Test]\nComment[tr]=\u0130nternet'e eri\u015fin\n",
]  # fmt: skip

MULTILINE = [
    "k=v\n w", "k=v\n\tw", "k=v\r w", "k=v\n\n w", "k=v\n\r\n w", "k=v\n\r w", "k=v\n\rx", "k=v\n\r", "k=v\r\r\n w", "k=v\n \n w", "k=v\n  \n",
    "k=v\n w\n\nx=y", "k=\n u\n v\n", "k=\n\n u", "k=v\n  # c", "k=v\n ; c\n x", "k=v\n [s]", "k=v\n \"w\" x ", 'k="v"\n w', 'k="v\n w"\n x',
    'k="\n\nv\n\n"', 'k="\nv" \n', "k=v\\\n w", "k=v \\\n w", "k=v\n w\\\n x\ny=z", "k=v\n \u3000w", "k=v\n \x0b\n w", "k=v\n\x0b\n w", "k=v\n w=x",
    "k=v\n \\ w", "k=v\n w \\n", "k=\\nv\\n", "k=v\n \\nw", "a=1\n  b=2\n", "k=v\n 'a\n", "k=v\r\n[s]\r\nj=w\r\n", "k=v\n\n\n[s]", "k=v\n  \\x00",
    "\n[Foo]\nbar =\n    u\n    v\n\nbaz = w\n  x # intentional trailing whitespace below\n   y \n\n z #2\nbla = a\n",
]  # fmt: skip

CHARACTERS = [
    f"k={INLINE_WHITE}v{INLINE_WHITE}",
    "\ufeff[Test]Key=Value\n", "k=\u2028v\u2028", "k=a\u2028b", "k=v\u2028j=w", "k=\u200bv\u1fff", "k=\ufeffv", "k=\x1cv\x1f", "k=\x00", "k=\u180ev",
    "k=\x85v\x85", "k=\u1680v\u202f", "ключ=значение", "k=\U0001f431", "é=ü\nß", "\U0001f431\U0001f431", "a=é\\xd800", "é\r\n\r\nü\\",
    "k=e\u0301\u0301",
]  # fmt: skip

NAMES = [
    "[[*]]\n", "[a[b]c]\n", "[[*]]xx\n", "[a]x\r\n", "[a]x\n", "[a]", "[ a ]\n", "[a]]\nk=v\n", "[[a]\nk=v", "[]\nk=v", "[]]\r", "[[]\r\n",
    "[\n", "[\r", "[a]\t \r\nk=v\r\n", "[a] \u00a0\n", "[a]\x0b\n", "[a]\u3000]\n", "[\u3000a\u2003]\n", "[a\\]\n", "[a\\]]\n", "[a]\\]\n",
    "[a]\\t\n", "[a]\\ \n", "[a]\\n\n", "[a\\x005d\n", "[a]\\x0020\n", "[a]\\\n]\n", "[a\\\nb]\n", "[a\\\rb]\n", "[a]\\\n", "[a]\\",
    "[a]\\x00\n0\n", "[a]\\xd800\n", "[a] ; c\n", "[a]#c\n", "[a]k=v\n", "[a][b]\n", "[a]\n\n[b]]\nk=v\n[c]", "  [[a]]\nk=v\n",
    "k=v\n [a]]\n  j=w\n", "[a\"]\"]\n", "[=]:]\n", "[a]\r[b]]\rk=v", "[sec1]\nkey1=val1\nkey2=377\n[sec2]foo=bar\n",
    "\n[section name] # comment in section line\n", "\n[[*]]\na = b\nc = d\n", "[é]]\n[\U0001f431]\U0001f431]\n",
]  # fmt: skip

# Texts that each of the sixteen sets of the other options loads as another document.
APART = [
    'k="a\\tb" c\n  w=\\x0041\n[s]\n  i=1\n',
    "[\\ta]\n\tk\\0='v' w\n\tj=\"\\n\"\n[t]\n \ti=u\n",
    "k='\\\\v'\r  w=\"x\"\r[s]\r  i=1\r",
    '[profile "dev"]\ns3 =\n  most = \'2\\a0\'\n  path = "b"\n\n[t]\n  region = "eu"\n',
    "k='\\a'\n x\n[s]\n  i=1\n  tail",
    "[s]\n\ti='a\\0' b ; c\n\t\tj\n[t]\n\tk=\"\\;\"",
]  # fmt: skip

# Texts that each of the thirty-two sets of options loads as another document.
APART_BY_BRACKETS = [
    'k="a\\tb" c\n  w=\\x0041\n[s[t]u]\ni=1\n[t]\n  j=2\n',
    "[\\ta]]\n\tk\\0='v' w\n\tj=\"\\n\"\n[t]\n \ti=u\n",
    "k='\\\\v'\r  w=\"x\"\r[s]]\ri=1\r[t]\r  j=2\r",
    '[profile ["dev"]]\ns3 =\n  most = \'2\\a0\'\n  path = "b"\n\n[t]\n  region = "eu"\n',
    "[[s]]\n\ti='a\\0' b ; c\n\t\tj\n[t]\n\tk=\"\\;\"",
]  # fmt: skip

MULTILINE_ON = DEFAULT._replace(multiline=True)
INDENT_ON = DEFAULT._replace(indent=True)
BRACKETS_ON = DEFAULT._replace(brackets=True)

# The texts, beside the options by which they are asked first.
TELLING = (
    (DEFAULT, BETWEEN_ITEMS + COMMENTS + HEADERS + KEYS),
    (INDENT_ON, INDENTED),
    (DEFAULT, VALUES + ESCAPES + QUOTES),
    (MULTILINE_ON, MULTILINE),
    (DEFAULT, CHARACTERS + list(SETTINGS)),
    (DEFAULT, APART),
    (BRACKETS_ON, NAMES),
    (DEFAULT, APART_BY_BRACKETS),
)


def loaded(*items):
    """The line of a document: its pairs, and before those of a section its name."""
    words = ["ok G"]
    for item in items:
        words.append("S" + item.encode().hex() if isinstance(item, str) else "=".join(text.encode().hex() for text in item))
    return " ".join(words)


NO_SEPARATOR = "no separator follows the key in its line"
INLINE = "doesn't support inline comment"
HEADER_END = "section must be ended with ']'"
CR_ALONE = "\\r is not followed by \\n"
NO_ENDPOINT = "expecting \"[Some('='), Some(':')]\" but found EOF."

# Each departure: the option set, the smallest text that shows it, the answer here, and the crate's.
DEPARTURES_SHOWN = (
    (grammar.WHITE_AT_START, DEFAULT, "\x0b", loaded(), f"err 1:2 {NO_ENDPOINT}"),
    (grammar.WHITE_AT_START, DEFAULT, "\x0b#", "err 1:3 doesn't support inline comment", f"err 1:3 {NO_ENDPOINT}"),
    (grammar.WHITE_AT_START, DEFAULT, "\x0b[a]", loaded("a"), f"err 1:5 {NO_ENDPOINT}"),
    (grammar.WHITE_AT_START, INDENT_ON, "\x0bk=", loaded(("k", "")), loaded(("\x0bk", ""))),
    (grammar.WHITE_AFTER_BLANK_LINE, DEFAULT, "\t\n\u00a0", loaded(), f"err 2:2 {NO_ENDPOINT}"),
    (grammar.BLANKS_AT_START, DEFAULT, "\n k", loaded(), f"err 2:3 {NO_ENDPOINT}"),
    (grammar.BLANKS_AT_START, INDENT_ON, "\n k=", loaded((" k", "")), loaded(("k", ""))),
    (grammar.BLANKS_AFTER_BLANK_LINE, DEFAULT, " \n\n k", loaded(), f"err 3:3 {NO_ENDPOINT}"),
    (grammar.BLANKS_AFTER_COMMENT, DEFAULT, ";\n k", loaded(), f"err 2:3 {NO_ENDPOINT}"),
    (grammar.BLANKS_AFTER_COMMENT, INDENT_ON, ";\n k=", loaded((" k", "")), loaded(("k", ""))),
    (grammar.BAD_ESCAPE_DROPPED, DEFAULT, " \\x\\\r", 'err 1:6 expecting "\\n" after a backslash in \\xHH form', loaded()),
    (grammar.BAD_ESCAPE_DROPPED, DEFAULT, " \\xZZZZ=v", "err 1:8 unknown character in \\xHH form", loaded(("Z", "v"))),
    (grammar.CR_LF_TWICE, MULTILINE_ON, "k=v\r\n w", loaded(("k", "v\nw")), loaded(("k", "v\n\nw"))),
    (grammar.MESSAGE_CUT_SHORT, DEFAULT, "\\x\\", f"err 1:4 {NO_ENDPOINT}", 'err 1:4 expecting "\\\\n" but found "None".'),
    (
        grammar.MESSAGE_BROKEN,
        DEFAULT,
        "\\x\\k",
        'err 1:5 expecting "\\n" after a backslash in \\xHH form',
        "err 1:5 expecting \"\\\\n\" but found \"Some('k')\".",
    ),
)

# The same of the crate with inline comments, each by the departures that it takes.
NOTES_ON = DEFAULT._replace(notes=True)
THROUGH_LF, LOST = (grammar.NOTE_THROUGH_LF,), (grammar.NOTE_THROUGH_LF, grammar.CHARACTER_LOST)
NOTE_DEPARTURES_SHOWN = (
    (THROUGH_LF, NOTES_ON, "\r;\rk", f"err 1:5 {NO_ENDPOINT}", loaded()),
    (THROUGH_LF, NOTES_ON._replace(brackets=True), "[a ;\n", f"err 1:5 {HEADER_END}", f"err 2:1 {HEADER_END}"),
    ((grammar.NOTE_GOES_ON,), NOTES_ON, "k=\\\n;", loaded(("k", ";")), loaded(("k", ""))),
    ((grammar.NOTE_GOES_ON,), NOTES_ON, "k=\\\n ;\nv", f"err 3:2 {NO_ENDPOINT}", loaded(("k", "v"))),
    (LOST, NOTES_ON._replace(multiline=True), "k=v ;\nj", f"err 2:2 {NO_ENDPOINT}", loaded(("k", "v"))),
)

# Questions by hand, with what they are answered: options one by one, and lines that are no questions.
BY_HAND = (
    ("11000 6b3d760a5b735d", "ok G 6b=76 S73"),
    ("10011 6b3dC3a9", "ok G 6b=c3a9"),
    ("Basics LF 11000 6b3d230a5b735d", "written 6b3d230a5b735d0a"),
    ("Reserved CRLF 11000 6b3d230a5b735d", "written 6b3d5c230d0a5b735d0d0a"),
    ("Nothing LF 11000 6b20233d", "written 6b20233d0a"),
    ("Nothing CRLF 11000 3d", "err 1:2 missing key"),
    ("01000 703d433a5c785c0a6b3d760a", loaded(("p", "C:\\xk=v"))),
    ("010001 703d433a5c785c0a6b3d760a", loaded(("p", "C:\\x\\"), ("k", "v"))),
    ("01000 615c3d623d630a", loaded(("a\\=b", "c"))),
    ("010001 615c3d623d630a", loaded(("a\\", "b=c"))),
    ("01000 6b3d22615c2262220a", loaded(("k", 'a\\"b'))),
    ("010001 6b3d22615c2262220a", loaded(("k", 'a\\b"'))),
    ("010001 5b615c5d625d0a", f"err 2:1 {NO_ENDPOINT}"),
    ("01000 6b3d615c0d6a3d620a", loaded(("k", "a\\\rj=b"))),
    ("010001 6b3d615c0d6a3d620a", loaded(("k", "a\\"), ("j", "b"))),
    ("110001 6b3d615c0a", loaded(("k", "a"))),
    ("1100001 20203b20630a6b3d760a", f"err 2:1 {NO_SEPARATOR}"),
    ("1100001 6162630a6b3d760a", f"err 2:1 {NO_SEPARATOR}"),
    ("1100001 6162630d6b3d760a", f"err 1:5 {NO_SEPARATOR}"),
    ("1100001 6162630d0a6b3d760a", f"err 1:5 {NO_SEPARATOR}"),
    ("1100001 616263", f"err 1:4 {NO_ENDPOINT}"),
    ("1100001 2020616263", f"err 1:6 {NO_ENDPOINT}"),
    ("1100001 20200a2020", loaded()),
    ("1100001 615c0a623d630a", loaded(("ab", "c"))),
    ("0100001 615c0a623d630a", loaded(("ab", "c"))),
    ("0100011 615c0a623d630a", f"err 2:1 {NO_SEPARATOR}"),
    ("1100001 5c0a0a3d", f"err 3:1 {NO_SEPARATOR}"),
    ("1100001 5b615d20620a", f"err 2:1 {NO_SEPARATOR}"),
    ("1100101 5b615d20620a", f"err 2:1 {HEADER_END}"),
    ("1100001 203d760a", "err 1:3 missing key"),
    ("1110001 6b3d760a20770a780a", f"err 4:1 {NO_SEPARATOR}"),
    ("1100000 6162630a6b3d760a", loaded(("abc\nk", "v"))),
    ("Basics LF 1100001 20206b3d760a", "written 6b3d760a"),
    ("11000001 20203b20630a6b3d760a", loaded(("k", "v"))),
    ("11000001 092320613d62", loaded()),
    ("11010001 092320613d62", loaded()),
    ("11000001 20205c3b613d620a", loaded((";a", "b"))),
    ("11000001 6b3d760d2320630d6a3d770a", loaded(("k", "v"), ("j", "w"))),
    ("11000001 6b3d760d20202320630d6a3d770a", loaded(("k", "v"), ("j", "w"))),
    ("11100000 6b3d610a203b20630a20620a", loaded(("k", "a\n; c\nb"))),
    ("11100001 6b3d610a203b20630a20620a", loaded(("k", "a\nb"))),
    ("11100001 6b3d610a3b20630a20620a", loaded(("k", "a"))),
    ("11100001 6b3d610a203b20630a0d62", f"err 3:3 {CR_ALONE}"),
    ("11000001 5b615d203b20630a", f"err 1:6 {INLINE}"),
    ("11000001 6b3d760a0b3b20630a", f"err 2:3 {INLINE}"),
    ("11100001 6b3d610a20c2a03b20630a20620a", loaded(("k", "a\nb"))),
    ("11100001 6b3d610a203b2063", loaded(("k", "a"))),
    ("11100001 6b3d610d203b20630d0a0d0a2023205c0a2020620a", loaded(("k", "a\n\nb"))),
    ("11000011 20203b20630a6b3d760a", loaded(("k", "v"))),
    ("11000011 20203b20630a6b0a", f"err 3:1 {NO_SEPARATOR}"),
    ("01000101 20205c3b6b3d760a", loaded(("\\;k", "v"))),
    ("11001001 5b5b615d5d0d3b20630d2020232064", loaded("[a]")),
    ("Basics LF 11000001 20203b20630a6b3d23630a", "written 6b3d23630a"),
    ("1100002 20203b20630a6b3d760a", loaded(("; c", ""), ("k", "v"))),
    ("1100002 6162630a6b3d760a", loaded(("abc", ""), ("k", "v"))),
    ("1100002 6162630d6b3d760a", loaded(("abc", ""), ("k", "v"))),
    ("1100002 6162630d0a6b3d76", loaded(("abc", ""), ("k", "v"))),
    ("1100002 616263", loaded(("abc", ""))),
    ("1100002 2020616263", loaded(("abc", ""))),
    ("1100002 20200a2020", loaded()),
    ("1100002 615c3d620a", loaded(("a=b", ""))),
    ("0100002 615c3d620a", loaded(("a\\=b", ""))),
    ("0100012 615c3d620a", loaded(("a\\", "b"))),
    ("1100002 736b69702d782023206e0a", loaded(("skip-x # n", ""))),
    ("1100002 21696e636c756465202f780a2e696e636c756465202f613d620a", loaded(("!include /x", ""), (".include /a", "b"))),
    ("1110002 6b0a2020770a", loaded(("k", ""), ("w", ""))),
    ("1110002 6b3d760a6a0a0a0d770a", loaded(("k", "v"), ("j", ""), ("w", ""))),
    ("1100002 5c0a0a", "err 3:1 missing key"),
    ("1100002 5c0a", f"err 2:1 {NO_ENDPOINT}"),
    ("1100002 615c783030", f"err 1:6 {NO_ENDPOINT}"),
    ("1100002 615c", loaded(("a\\", ""))),
    ("0100002 615c", loaded(("a\\", ""))),
    ("0100012 615c0a62", loaded(("a\\", ""), ("b", ""))),
    ("1101002 20206b200a", loaded(("  k", ""))),
    ("1100002 5b615d20620a", loaded("a", ("b", ""))),
    ("1100102 5b615d20620a", f"err 2:1 {HEADER_END}"),
    ("11000021 20203b20630a6b0d3b20640d6a203b2065", loaded(("k", ""), ("j ; e", ""))),
    ("Basics LF 1100002 20206b0a6a203a20760a", "written 6b3d0a6a3d760a"),
    ("110000001 20203b20630a6b3d760a", loaded(("; c\nk", "v"))),
    ("110000011 2320630d6a3d770a", loaded()),
    ("111000001 6b3d610a203b20630a20620a", loaded(("k", "a\n; c\nb"))),
    ("111000011 6b3d0a203b20630a0a2062203b20640a", loaded(("k", "b"))),
    ("111000011 6b3d610a20223b22203b20630a", loaded(("k", "a\n;"))),
    ("110000001 6b203d2076203b206e6f74650a", loaded(("k", "v"))),
    ("110000001 6b203d203b206e6f74650a", loaded(("k", "; note"))),
    ("110000001 6b203d3b206e6f74650a", loaded(("k", "; note"))),
    ("110000001 6b3d613b622023630a", loaded(("k", "a;b"))),
    ("110000001 6b3d6109235c785a5a0a", loaded(("k", "a"))),
    ("110000001 6b3d61205c3b20620a", loaded(("k", "a ; b"))),
    ("110000001 6b3d615c203b20620a", loaded(("k", "a ; b"))),
    ("010000001 6b3d61205c3b20620a", loaded(("k", "a \\; b"))),
    ("010000001 6b3d615c203b20620a", loaded(("k", "a\\ ; b"))),
    ("010001001 6b3d615c203b20620a", loaded(("k", "a\\"))),
    ("110000001 6b3d2261203b206222203b20630a", loaded(("k", "a ; b"))),
    ("110000001 6b3d2261223b20620a", loaded(("k", "a; b"))),
    ("110000001 6b3d78202261203b2062220a", loaded(("k", "x \"a"))),
    ("100000001 6b3d2261203b2062220a", loaded(("k", "\"a"))),
    ("110000001 6b3d61205c0a3b20620a", loaded(("k", "a ; b"))),
    ("110000001 6b3d615c0a203b20620a", loaded(("k", "a"))),
    ("110000001 5b615d203b206e6f74650a6b3d760a", loaded("a", ("k", "v"))),
    ("110000001 5b615d3b6e0a6b3d760a", loaded("a", ("k", "v"))),
    ("110000001 5b61203b625d0a", loaded("a ;b")),
    ("110010001 5b61203b625d0a", f"err 1:5 {HEADER_END}"),
    ("110010001 5b61205c3b625d0a", loaded("a ;b")),
    ("110010001 5b615d203b206e", loaded("a")),
    ("110010001 5b615d3b6e0a", f"err 2:1 {HEADER_END}"),
    ("110000201 736b69702d782023206e0a", loaded(("skip-x", ""))),
    ("110000001 61203b623d630a", loaded(("a ;b", "c"))),
    ("110000101 61203b623d630a", f"err 1:4 {NO_SEPARATOR}"),
    ("110000001 6b3d76203b206e0d6a3d770a", loaded(("k", "v"), ("j", "w"))),
    ("110000001 6b3d760923206e0d0a6a3d77", loaded(("k", "v"), ("j", "w"))),
    ("110000001 6b3d760d3b20630d6a3d770a", loaded(("k", "v"), ("j", "w"))),
    ("110000001 6b3d76c2a03b206e0a", loaded(("k", "v\u00a0; n"))),
    ("110000001 6b3d7620c2a0203b206e", loaded(("k", "v"))),
    ("110000001 0b3b206e0a6b3d76", loaded(("k", "v"))),
    ("110000001 6b3d205c0a3b206e0a", loaded(("k", "; n"))),
    ("110000001 6b3d5c783030203b", "err 1:9 unknown character in \\xHH form"),
    ("110000001 5b615d3b0d3b20620a5b625d", loaded("a", "b")),
    ("110000011 20203b20630a6b3d7620230a", loaded(("k", "v"))),
    ("111000001 6b3d61203b206e0a2062203b206d0a", loaded(("k", "a\nb"))),
    ("111000001 6b3d610a203b2063203b20640a", loaded(("k", "a\n; c"))),
    ("111000201 6b203b206e0a2020770a", loaded(("k", ""), ("w", ""))),
    ("110000201 20203b206e0a", loaded(("; n", ""))),
    ("110000201 5c0a203b206e0a", "err 2:3 missing key"),
    ("110000101 5c0a203b206e0a", f"err 2:3 {NO_SEPARATOR}"),
    ("110000101 616263203b206e", f"err 1:6 {NO_SEPARATOR}"),
    ("110010001 5b61203b20620a", f"err 1:5 {HEADER_END}"),
    ("010010001 5b615c203b625d0a", loaded("a\\ ;b")),
    ("010001001 6b3d61205c3b20620a", loaded(("k", "a \\; b"))),
    ("Basics LF 110000001 6b3d76203b206e0a5b615d3b0a", "written 6b3d760a5b615d0a"),
    *(
        (line, "no question")
        for line in (
            "", "11000", "1100 6b", "1100000000 6b", "11002 6b", "110002 6b", "1100003 6b", "11000002 6b",
            "110000002 6b", "11000 6", "11000 6g", "11000 c3", "11000  6b", "Basics 11000 6b",
            "Basics LF 11000", "basics LF 11000 6b", "Basics CR 11000 6b", "Basics LF 1100 6b", "Basics LF 11000 6",
            "Basics LF 11000 6b ", "LF Basics 11000 6b",
        )
    ),
)  # fmt: skip
