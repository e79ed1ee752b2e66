"""The ways to write a document, and the stored questions on writing.

Each question is a text, the options that it is loaded by, and a way to write it: an escape policy and a line end. What is
written is asked of the Rust crate, never of this library.
"""
import itertools

import cases
import texts
from grammar import DEFAULT, Option

POLICIES = (
    "Nothing",
    "Basics",
    "BasicsUnicode",
    "BasicsUnicodeExtended",
    "Reserved",
    "ReservedUnicode",
    "ReservedUnicodeExtended",
    "Everything",
)
LINE_ENDS = ("LF", "CRLF")
WAYS = [" ".join(way) for way in itertools.product(POLICIES, LINE_ENDS)]

BASICS, BASICS_CRLF, EVERYTHING_CRLF, NOTHING = "Basics LF", "Basics CRLF", "Everything CRLF", "Nothing LF"

# The characters by how the policies take them, each as it is put into a name, a key and a value. The ends of each range are
# there, and what stands beside them.
CLASSES = (
    ["\\\\"],
    ["\\0", "\\a", "\\b", "\\t", "\\n", "\x0b", "\x0c", "\\r"],
    [chr(number) for number in (*range(1, 7), *range(0x0E, 0x20))],
    ["~", "\x7f", "\x80"],
    [";", "#", "\\=", "\\:", "<"],
    [chr(number) for number in (0x80, 0x85, 0xA0, 0xE9, 0xFF, 0x100, 0x7FF, 0x800, 0xFFF, 0x1000, 0x2028)],
    [chr(number) for number in (0x6811, 0xD7FF, 0xE000, 0xFEFF, 0xFFFD, 0xFFFF, 0x10000)],
    [chr(number) for number in (0x10000, 0x1F431, 0x2FFFF, 0xFFFFF, 0x100000)],
    [chr(number) for number in (0x100000, 0x10ABCD, 0x10FFFF)],
    ['"', "'", "[", "\\]", " ", "!", "$", "%", "&", "(", ")", "*", "+", ",", "-", ".", "/", "?", "@", "^", "_", "`", "{", "}", "0", "A", "x"],
)  # fmt: skip

EDGES = ["a\\\\", "\\\\", "\\;k", "\\#", "é", "\U0001f431", "\\0", "\\x007f", "\\[x"]

DOCUMENTS = [
    "", "\n\n", "; c\n", "k=v", "[s]", "[a]\n[b]\n[c]", "[a]\n[b]\nk=v", "k=v\n[a]", "k=v\n[a]\n[b]\nj=w\n[c]", "[a]k=v\n[b]\n[c]\nj=w\n[d]i=u",
    "k=v\n[a]\nk=v\n[b]\nk=v", "[s]\nk=1\n[t]\nk=2\n[s]\nk=3", "[s]\n[s]\n[s]k=v\n[s]", "k=1\nj=2\nk=3\n[s]\nk=4\nk=4\n[t]\nk=5",
    "k=", "k=\nj=\n[s]\ni=\ni=\n[t]\n", "[]\nk=v\n[]", "; c\nk = v\n# d\n\n[ s ]\n  j : w w \n", "k=v\r\n[s]\r\nj=w\r\n\r\n[t]\r\n", "k=v\rj=w\r[s]\r",
    "k=\" v \"\nj='\ti'\n[s]\nq=\"'\"\nr='\"'", 'k="a\nb"\nj="a\r\nb"\n[s]\n', "[a\nb]\nk\nj=v", "k==v\nj=:w=\n[=:]",
]  # fmt: skip

ESCAPES_OFF = DEFAULT._replace(escape=False)

UNDER_OTHER_OPTIONS = (
    (DEFAULT._replace(multiline=True), "k=a\n b\n  c\n\n\td\n[s]\nj=\n e\n\n[t]\n"),
    (DEFAULT._replace(indent=True), "[s]\n  k=v\n\tj=w\n \ti = x\nh=u\n"),
    (ESCAPES_OFF, "path=C:\\new\\x41\n[a\\b]\nk\\ =\\\nw;\\\\\n"),
    (DEFAULT._replace(quote=False), "k=\"v\" '\nj='w\n[\"s\"]\n\"i\"=u"),
    (Option(escape=False, quote=False, multiline=True, indent=True, brackets=False), "[s\\0]\n\tk='\\n\n\t\\t'\n"),
    (DEFAULT._replace(brackets=True), "[[s]]\nk=v\n[a]b]\t\n[]]\nj=w\n[\\x005d]\n"),
)

REFUSED = ["k", "[s", "=v", "k=\\x", "[s] ; c", "k=\"v"]


def everywhere(pieces):
    """A text with the pieces in a name, in keys and in values."""
    piece = "|" + "|".join(pieces) + "|"
    return f"{piece}={piece}\n[{piece}]\n{piece}={piece}\n"


def questions_on_policies():
    """Each class of characters under each policy, and all of them with CR LF at line ends."""
    for policy in POLICIES:
        for pieces in CLASSES:
            yield DEFAULT, everywhere(pieces), f"{policy} LF"
        yield DEFAULT, everywhere(itertools.chain(*CLASSES)), f"{policy} CRLF"
        yield DEFAULT, "".join(f"[{piece}]\n{piece}={piece}\n" for piece in EDGES), f"{policy} LF"


def questions_on_documents():
    """Documents of each shape with both line ends, some by other options, and texts that are refused."""
    for text in DOCUMENTS:
        yield DEFAULT, text, BASICS
        yield DEFAULT, text, EVERYTHING_CRLF
    for option, text in UNDER_OTHER_OPTIONS:
        yield option, text, NOTHING
        yield option, text, BASICS_CRLF
    for text, way in zip(REFUSED, itertools.cycle((BASICS, EVERYTHING_CRLF, NOTHING))):
        yield DEFAULT, text, way


def questions_on_options(options):
    """A text that each set of options loads as another, by each set, and settings files."""
    for option, way in zip(options, itertools.cycle(WAYS)):
        yield option, cases.APART_BY_BRACKETS[0], way
    for text in texts.SETTINGS:
        yield DEFAULT, text, BASICS
        yield ESCAPES_OFF, text, "ReservedUnicode CRLF"


def telling(options):
    """Every stored question on writing: the options, the text, and the way to write it."""
    return itertools.chain(questions_on_policies(), questions_on_documents(), questions_on_options(options))
