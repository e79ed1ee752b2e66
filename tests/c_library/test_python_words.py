"""What the Python package says where it is given what it can't take: a path as a text, a number as a value, no
library. And a Path, which is read."""
import os
import subprocess
import sys
import tempfile
from pathlib import Path

import bigrosk_ini
from bigrosk_ini import Broken, Document, edit_add, edit_delete, edit_delete_section
from bigrosk_ini import edit_rename_key, edit_rename_section, edit_set

HELP = " (a str is the text itself: for a file give its Path)"


def raised(call):
    """What the call raises, or None."""
    try:
        call()
    except Exception as error:
        return error
    return None


def same(had, wanted):
    assert had == wanted, f"{had!r} in place of {wanted!r}"


class Named(os.PathLike):
    """A path that is neither a str nor a Path."""

    def __init__(self, path):
        self.path = path

    def __fspath__(self):
        return str(self.path)


def paths():
    """A Path is read, as bytes, and an error has its name."""
    with tempfile.TemporaryDirectory() as room:
        file = Path(room, "settings.ini")
        file.write_bytes(b"\xef\xbb\xbfport = 1\r\n[s]\r\nk = gr\xc3\xbcn\r\n")
        wanted = [(None, [("port", "1")]), ("s", [("k", "grün")])]
        same(Document(file).walk(), wanted)
        same(Document(Named(file)).walk(), wanted)
        file.write_bytes(b"port = 1\n= 2\n")
        error = raised(lambda: Document(file))
        same((type(error), error.file, error.line, error.column), (Broken, str(file), 2, 2))
        same((error.message, str(error)), ("missing key", f"{file}:2:2 missing key"))
        file.write_bytes(b"port = \xff\n")
        error = raised(lambda: Document(file))
        same((type(error), str(error)), (UnicodeError, f"{file}: not UTF-8"))
        same(type(raised(lambda: Document(Path(room, "nowhere.ini")))), FileNotFoundError)
    same(raised(lambda: Document("= 2")).file, None)


def paths_as_texts():
    """A str that looks like a path is refused as a text, and the error says so; others have no such word."""
    for text in ("conf.ini", "/etc/app/conf.ini", "a folder/conf.ini", "ü"):
        error = raised(lambda: Document(text))
        same((type(error), error.kind, str(error).endswith(HELP)), (Broken, "end of text", True))
        assert HELP not in error.message
    for text in ("[conf.ini", "a\nb", b"conf.ini", "k=1\nj", "=1", "k='a"):
        error = raised(lambda: Document(text))
        assert isinstance(error, Broken) and HELP not in str(error), text
    assert HELP not in str(raised(lambda: edit_set("conf.ini", None, "k", "v")))


# What takes no str: what is said, and the calls that say it.
DOCUMENT, TEXT = Document("k=1\n[s]\nk=1\n"), "k=1\n[s]\nk=1\n"
NO_NAME = "a section's name is a str, or None for the general one: this is "
WRONG = [
    ("a value is a str: this is int: 9090", lambda: DOCUMENT["s"].__setitem__("port", 9090)),
    ("a value is a str: this is int: 9090", lambda: DOCUMENT.set(None, "port", 9090)),
    ("a value is a str: this is bool: True", lambda: DOCUMENT.add(None, "port", True)),
    ("a value is a str: this is bytes: b'1'", lambda: DOCUMENT.set(None, "port", b"1")),
    ("a value is a str: this is NoneType: None", lambda: DOCUMENT["s"].update(port=None)),
    ("a key is a str: this is int: 5", lambda: DOCUMENT["s"][5]),
    ("a key is a str: this is int: 5", lambda: DOCUMENT["s"].__delitem__(5)),
    ("a key is a str: this is int: 5", lambda: 5 in DOCUMENT["s"]),
    ("a key is a str: this is NoneType: None", lambda: DOCUMENT["s"].get_all(None)),
    (NO_NAME + "int: 5", lambda: DOCUMENT[5]["k"]),
    (NO_NAME + "int: 0", lambda: 0 in DOCUMENT),
    (NO_NAME + "bytes: b''", lambda: DOCUMENT.__delitem__(b"")),
    ("a value is a str: this is int: 9090", lambda: edit_set(TEXT, "s", "port", 9090)),
    ("a value is a str: this is float: 1.5", lambda: edit_add(TEXT, "s", "port", 1.5)),
    ("a key is a str: this is int: 1", lambda: edit_delete(TEXT, "s", 1)),
    ("a new key is a str: this is int: 1", lambda: edit_rename_key(TEXT, "s", "k", 1)),
    ("a name is a str: this is int: 1", lambda: edit_delete_section(TEXT, 1)),
    ("a new name is a str: this is NoneType: None", lambda: edit_rename_section(TEXT, "s", None)),
    ("a text is a str or bytes, or a Path, which is read: this is int: 5", lambda: Document(5)),
    ("a text is a str or bytes, or a Path, which is read: this is NoneType: None", lambda: Document(None)),
    ("the text of an edit is a str or bytes: this is int: 5", lambda: edit_set(5, None, "k", "v")),
    ("the text of an edit is a str or bytes: this is Named: Named()", lambda: edit_set(SHOWN, None, "k", "v")),
]


class Shown(Named):
    def __repr__(self):
        return "Named()"


SHOWN = Shown("conf.ini")
Shown.__name__ = "Named"


def types():
    before = DOCUMENT.walk()
    for words, call in WRONG:
        error = raised(call)
        same((type(error), str(error)), (TypeError, words))
    same(DOCUMENT.walk(), before)
    # what is shown of a long one is short
    assert len(str(raised(lambda: DOCUMENT.set(None, "k", list(range(10000)))))) < 100
    # bytes of any kind are a text
    for of in (bytearray, memoryview):
        same(Document(of(b"k=1")).walk(), [(None, [("k", "1")])])


def no_library():
    """Where there is no library the import says what helps."""
    with tempfile.TemporaryDirectory() as room:
        variables = {"BIGROSK_INI_LIBRARY": f"{room}/none.so", "PYTHONDONTWRITEBYTECODE": "1"}
        folder = os.path.dirname(os.path.dirname(bigrosk_ini.__file__))
        code = "import sys; sys.path.insert(0, sys.argv[1]); import bigrosk_ini"
        command = [sys.executable, "-c", code, folder]
        said = subprocess.run(command, env=variables, stderr=subprocess.PIPE, text=True)
    last = said.stderr.strip().splitlines()[-1]
    help = "install the library and run ldconfig, or name its file in BIGROSK_INI_LIBRARY"
    assert said.returncode == 1 and last.startswith("ImportError: ") and last.endswith(help), said.stderr


for part in (paths, paths_as_texts, types, no_library):
    part()
print("all words of the Python package")
