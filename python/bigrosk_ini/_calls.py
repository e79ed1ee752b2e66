"""The shared library: its numbers, structs and calls, what is raised for what they answer, and how texts go
to it and come from it. This file knows no document.
"""
from __future__ import annotations

import ctypes
import os

TYPE_CHECKING = False  # importing typing takes longer than all of this package
if TYPE_CHECKING:
    from threading import RLock as RLock
    from typing import Any, Callable, Iterator, List, Optional, Tuple, Union

    Pair = Tuple[str, str]
    Path = Union[str, os.PathLike[str]]
    Text = Union[str, bytes, os.PathLike[str]]
else:
    from _thread import RLock  # what threading has under that name; so with it

SONAME = "libbigrosk_ini.so.0"


def load_library() -> ctypes.CDLL:
    """The shared library that the variable names, or that lies beside this file, or that the system
    finds."""
    beside = os.path.join(os.path.dirname(os.path.abspath(__file__)), "libbigrosk_ini.so")
    name = os.environ.get("BIGROSK_INI_LIBRARY") or (beside if os.path.exists(beside) else SONAME)
    try:
        return ctypes.CDLL(name)
    except OSError as error:
        help = "install the library and run ldconfig, or name its file in BIGROSK_INI_LIBRARY"
        raise ImportError(f"{error}: {help}") from error


# A call leaves the interpreter's lock, so that other threads run meanwhile: Document has a lock of its own.
library = load_library()
OK, ABSENT, NO_ROOM, BROKEN, NOT_UTF8, NO_MEMORY = range(6)
NO_DOCUMENT, UNPLAIN_VALUE, UNPLAIN_KEY, NO_PLACE, UNPLAIN_NAME, THERE, UNKNOWN_OPTION = range(6, 13)
UNNAMED = ctypes.c_size_t(-1).value
KINDS = (
    None,
    "end of text",
    "broken escape",
    "unknown character",
    "inline comment",
    "missing key",
    "CR alone",
    "header end",
    "no separator",
)
LONE_LINES = ("run on", "refused", "keys")
SECTION_RULES = ("first", "joined")
VALUE_RULES = ("first", "last", "list")
UNWRITABLE = {UNPLAIN_VALUE: "value", UNPLAIN_KEY: "key", NO_PLACE: "place", UNPLAIN_NAME: "name"}


class Handle(ctypes.Structure):
    _fields_ = [("is_open", ctypes.c_bool), ("inner", ctypes.c_void_p)]


class Place(ctypes.Structure):
    _fields_ = [("line", ctypes.c_size_t), ("column", ctypes.c_size_t)]


class Fault(ctypes.Structure):
    _fields_ = [
        ("kind", ctypes.c_uint32),
        ("line", ctypes.c_size_t),
        ("column", ctypes.c_size_t),
        ("message", ctypes.c_char * 64),
    ]


class Sizes(ctypes.Structure):
    _fields_ = [("bytes", ctypes.c_size_t), ("counts", ctypes.c_size_t)]


class FirstFive(ctypes.Structure):
    """The options that the calls which edit bytes know."""

    _fields_ = [
        ("quotes", ctypes.c_bool),
        ("escapes", ctypes.c_bool),
        ("multiline", ctypes.c_bool),
        ("keep_indentation", ctypes.c_bool),
        ("brackets", ctypes.c_bool),
    ]

    def __init__(self, read: Optional[ReadOption] = None) -> None:
        it = read or ReadOption()
        super().__init__(it.quotes, it.escapes, it.multiline, it.keep_indentation, it.brackets)


class ReadOption(ctypes.Structure):
    """How a text is read. With raw_backslash, where escapes are off, a backslash is a character like any
    other, before a line feed too. With lone_lines="refused" a text is refused where no separator follows a key
    in its line, and with "keys" the key has the empty value; else such keys "run on" over the line end. With
    indented_comments, blanks and ; or # begin a comment where a line starts, and with inline_comments a blank
    and a mark do in a value outside quotes, and a mark after a section's name."""

    _fields_ = [
        ("size", ctypes.c_uint8),
        *FirstFive._fields_,
        ("raw_backslash", ctypes.c_bool),
        ("_lone_lines", ctypes.c_uint8),
        ("indented_comments", ctypes.c_bool),
        ("inline_comments", ctypes.c_bool),
    ]

    def __init__(
        self,
        quotes: bool = True,
        escapes: bool = True,
        multiline: bool = False,
        keep_indentation: bool = False,
        brackets: bool = False,
        raw_backslash: bool = False,
        lone_lines: str = "run on",
        indented_comments: bool = False,
        inline_comments: bool = False,
    ) -> None:
        size = ctypes.sizeof(ReadOption)
        super().__init__(size, quotes, escapes, multiline, keep_indentation, brackets, raw_backslash)
        self.lone_lines = lone_lines
        self.indented_comments = indented_comments
        self.inline_comments = inline_comments

    @property
    def lone_lines(self) -> str:
        return LONE_LINES[self._lone_lines]

    @lone_lines.setter
    def lone_lines(self, word: str) -> None:
        if word not in LONE_LINES:
            raise ValueError(f'lone lines "run on", or are "refused" or "keys": this is {shown(word)}')
        self._lone_lines = LONE_LINES.index(word)

    def has_later_ones(self) -> bool:
        """Whether an option that FirstFive lacks is another than by default."""
        return bool(self.raw_backslash or self._lone_lines or self.indented_comments or self.inline_comments)


class WriteOption(ctypes.Structure):
    """How a document is written: the policy's number, CR LF at line ends, the separator's number."""

    _fields_ = [("policy", ctypes.c_uint32), ("crlf", ctypes.c_bool), ("separator", ctypes.c_uint32)]

    def __init__(self, policy: int = 1, crlf: bool = False, separator: int = 0) -> None:
        super().__init__(policy, crlf, separator)


class Lookup(ctypes.Structure):
    """By which rule settings are looked up. With sections="joined" all sections of a name are one, where by
    default the "first" alone is looked at; of a key's values the "first" counts, with values="last" that, and
    with values="list" all, as one text, a value a line, in which \\n is a value's line feed and \\\\ its
    backslash. With ignore_case the case of A to Z tells neither keys nor names apart."""

    _fields_ = [
        ("size", ctypes.c_uint8),
        ("_sections", ctypes.c_uint8),
        ("_values", ctypes.c_uint8),
        ("ignore_case", ctypes.c_bool),
    ]

    def __init__(self, sections: str = "first", values: str = "first", ignore_case: bool = False) -> None:
        super().__init__(ctypes.sizeof(Lookup), ignore_case=ignore_case)
        self.sections = sections
        self.values = values

    @property
    def sections(self) -> str:
        return SECTION_RULES[self._sections]

    @sections.setter
    def sections(self, word: str) -> None:
        if word not in SECTION_RULES:
            raise ValueError(f'sections are looked at "first" or "joined": this is {shown(word)}')
        self._sections = SECTION_RULES.index(word)

    @property
    def values(self) -> str:
        return VALUE_RULES[self._values]

    @values.setter
    def values(self, word: str) -> None:
        if word not in VALUE_RULES:
            raise ValueError(f'of values the "first", the "last" or the "list" counts: this is {shown(word)}')
        self._values = VALUE_RULES.index(word)


# what calls take: a document, a text, a section's name, room to copy out, rooms for a list, options, a fault
_handle = ctypes.POINTER(Handle)
_text: List[Any] = [ctypes.c_char_p, ctypes.c_size_t]
_name: List[Any] = [ctypes.c_bool, *_text]
_out: List[Any] = [*_text, ctypes.POINTER(ctypes.c_size_t)]
_list: List[Any] = [*_out, ctypes.c_size_t, ctypes.POINTER(Sizes)]
_counts: List[Any] = [ctypes.POINTER(ctypes.c_size_t), ctypes.c_size_t]
_read, _write, _fault = ctypes.POINTER(ReadOption), ctypes.POINTER(WriteOption), ctypes.POINTER(Fault)
_first, _lookup = ctypes.POINTER(FirstFive), ctypes.POINTER(Lookup)
for _call, _arguments, _result in [
    ("load_by", _text + [ctypes.c_bool, _read, _handle, _fault], ctypes.c_uint32),
    ("free", [_handle], None),
    ("get", [_handle] + _name + _text + _out, ctypes.c_uint32),
    ("get_all", [_handle] + _name + _text + _list, ctypes.c_uint32),
    ("pairs", [_handle] + _name + _list, ctypes.c_uint32),
    ("items", [_handle] + _list, ctypes.c_uint32),
    ("has", [_handle] + _name + _text, ctypes.c_uint32),
    ("has_section", [_handle] + _name, ctypes.c_uint32),
    ("set", [_handle] + _name + _text + _text, ctypes.c_uint32),
    ("add", [_handle] + _name + _text + _text, ctypes.c_uint32),
    ("delete", [_handle] + _name + _text, ctypes.c_uint32),
    ("delete_section", [_handle] + _name, ctypes.c_uint32),
    ("write", [_handle, _write] + _out, ctypes.c_uint32),
    ("is_plain_by", [_handle, _write, _read], ctypes.c_bool),
    ("dialect_by", _text + [_read, _write], ctypes.c_uint32),
    ("dialect_lookup", _text + [_lookup], ctypes.c_uint32),
    ("edit_set", _text + [_first, _write] + _name + _text + _text + _out + [_fault], ctypes.c_uint32),
    ("edit_add", _text + [_first, _write] + _name + _text + _text + _out + [_fault], ctypes.c_uint32),
    ("edit_delete", _text + [_first] + _name + _text + _out + [_fault], ctypes.c_uint32),
    ("edit_rename_key", _text + [_first, _write] + _name + _text + _text + _out + [_fault], ctypes.c_uint32),
    ("edit_delete_section", _text + [_first] + _text + _out + [_fault], ctypes.c_uint32),
    ("edit_rename_section", _text + [_first, _write] + _text + _text + _out + [_fault], ctypes.c_uint32),
    ("text_open_by", _text + [_read, _handle, _fault], ctypes.c_uint32),
    ("text_close", [_handle], None),
    ("text_write", [_handle] + _out, ctypes.c_uint32),
    ("text_get", [_handle] + _name + _text + _out, ctypes.c_uint32),
    ("text_get_all", [_handle] + _name + _text + _list, ctypes.c_uint32),
    ("text_pairs", [_handle] + _name + _list, ctypes.c_uint32),
    ("text_items", [_handle] + _list, ctypes.c_uint32),
    ("text_has", [_handle] + _name + _text, ctypes.c_uint32),
    ("text_has_section", [_handle] + _name, ctypes.c_uint32),
    ("text_place", [_handle] + _name + _text + [ctypes.POINTER(Place)], ctypes.c_uint32),
    ("text_set", [_handle, _write] + _name + _text + _text, ctypes.c_uint32),
    ("text_add", [_handle, _write] + _name + _text + _text, ctypes.c_uint32),
    ("text_delete", [_handle] + _name + _text, ctypes.c_uint32),
    ("text_delete_all", [_handle] + _name + _text, ctypes.c_uint32),
    ("text_set_all", [_handle, _write] + _name + _text + _text + _counts, ctypes.c_uint32),
    ("text_rename_key", [_handle, _write] + _name + _text + _text, ctypes.c_uint32),
    ("text_rename_section", [_handle, _write] + _text + _text, ctypes.c_uint32),
    ("text_delete_section", [_handle] + _text, ctypes.c_uint32),
    ("text_add_section", [_handle, _write] + _text, ctypes.c_uint32),
    ("text_comment", [_handle] + _name + _text + _out, ctypes.c_uint32),
    ("text_set_comment", [_handle, _write] + _name + _text + _text, ctypes.c_uint32),
    ("text_comment_out", [_handle] + _name + _text, ctypes.c_uint32),
    ("text_diff_under", [_handle] * 2 + [_lookup] + _list, ctypes.c_uint32),
    ("text_apply_under", [_handle, _lookup, _write] + _text + _counts + _counts[:1], ctypes.c_uint32),
    ("text_conflicts_under", [_handle] * 3 + [_lookup] + _list, ctypes.c_uint32),
    ("text_merge3_under", [_handle] * 3 + [_lookup, _write, ctypes.c_bool] + _counts[:1], ctypes.c_uint32),
    ("version", [], ctypes.c_uint32),
]:
    _function = getattr(library, "bigrosk_ini_" + _call)
    _function.argtypes, _function.restype = _arguments, _result


class Broken(ValueError):
    """A text breaks the grammar: .line and .column from 1, .kind one of KINDS, .message; .file is the path
    that was read, or None."""

    def __init__(self, fault: Fault, file: Optional[str] = None, help: str = "") -> None:
        self.line: int = fault.line
        self.column: int = fault.column
        self.kind = KINDS[fault.kind]
        self.message: str = fault.message.decode()
        self.file = file
        place = f"{self.line}:{self.column}" if file is None else f"{file}:{self.line}:{self.column}"
        super().__init__(f"{place} {self.message}{help}")


class Unwritable(ValueError):
    """A value, a key or a section's name that an edit of a text can't write so that it is read back, or a
    line that finds no place: .what is "value", "key", "name" or "place"; of several changes .index, from 0, is
    that of the one that was refused."""

    def __init__(self, what: str, index: Optional[int] = None) -> None:
        self.what, self.index = what, index
        super().__init__(f"no {what} for an edit of this text")


def is_done(status: int) -> bool:
    if status in UNWRITABLE:
        raise Unwritable(UNWRITABLE[status])
    if status == NOT_UTF8:
        raise UnicodeError("not UTF-8")
    if status == NO_MEMORY:
        raise MemoryError
    if status == NO_DOCUMENT:
        raise ValueError("nothing is loaded")
    if status == UNKNOWN_OPTION:
        raise ValueError("a number stands for no option")
    return status == OK


def raise_refused(status: int, fault: Fault, file: Optional[str], help: str) -> None:
    """Raises what a text that was to be opened is refused for; the file is named that it was read from."""
    if status == BROKEN:
        raise Broken(fault, file, help)
    if status == NOT_UTF8 and file is not None:
        raise UnicodeError(f"{file}: not UTF-8")
    is_done(status)


def shown(it: object) -> str:
    """What it is, for a message."""
    return f"{type(it).__name__}: {it!r:.40}"


def text_words(**texts: str) -> List[Any]:
    """Bytes and their number of each text, by what it is."""
    words: List[Any] = []
    for what, text in texts.items():
        if not isinstance(text, str):
            raise TypeError(f"a {what.replace('_', ' ')} is a str: this is {shown(text)}")
        encoded = text.encode()
        words += [encoded, len(encoded)]
    return words


def words_of(section: Optional[str], **texts: str) -> List[Any]:
    """The same after those of a section's name, or of none for the general section."""
    if section is not None and not isinstance(section, str):
        raise TypeError(f"a section's name is a str, or None for the general one: this is {shown(section)}")
    return [section is not None] + text_words(name=section or "", **texts)


def dialect(name: str) -> Tuple[ReadOption, WriteOption]:
    """How the programs of a dialect ("systemd", "git", ..) read their files, and how a line is written that
    they read back. The first pair of a key counts all the same. ValueError where no dialect has the name."""
    read, write = ReadOption(), WriteOption()
    if not is_done(library.bigrosk_ini_dialect_by(*text_words(name_of_a_dialect=name), read, write)):
        raise ValueError(f"no dialect has the name {name!r}")
    return read, write


def options_of(
    read: Optional[ReadOption], write: Optional[WriteOption], name: Optional[str]
) -> Tuple[ReadOption, WriteOption]:
    """The options that are given; for those that aren't, the ones of the dialect, or the default ones."""
    its = (ReadOption(), WriteOption()) if name is None else dialect(name)
    return read or its[0], write or its[1]


def lookup_of(lookup: Optional[Lookup], name: Optional[str]) -> Lookup:
    """The rule that is given; where none is, that of the dialect's programs, or the default one. ValueError
    where no dialect has the name."""
    its = Lookup()
    if name is not None and not is_done(
        library.bigrosk_ini_dialect_lookup(*text_words(name_of_a_dialect=name), its)
    ):
        raise ValueError(f"no dialect has the name {name!r}")
    return lookup or its


def copied_out(call: Callable[..., int], *words: Any) -> Optional[str]:
    """What a call copies out, or None where it is absent."""
    room, count = 256, ctypes.c_size_t()
    while True:
        out = ctypes.create_string_buffer(room)
        status = call(*words, out, room, count)
        if status != NO_ROOM:
            return out.raw[: count.value].decode() if is_done(status) else None
        room = count.value + 1


def read_whole(path: Path) -> Tuple[bytes, str]:
    """The bytes of a file, and its path."""
    name = os.fsdecode(path)
    with open(name, "rb") as file:
        return file.read(), name


def bytes_of(text: Text) -> Tuple[bytes, Optional[str]]:
    """The bytes of a text, and the file that they were read from, if that is what it is."""
    if isinstance(text, str):
        return text.encode(), None
    if isinstance(text, (bytes, bytearray, memoryview)):
        return bytes(text), None
    if isinstance(text, os.PathLike):
        return read_whole(text)
    raise TypeError(f"a text is a str or bytes, or a Path, which is read: this is {shown(text)}")


def help_for(text: object) -> str:
    """A word on paths, for a text that looks like one: a line without a separator, no header and no
    comment."""
    is_line = isinstance(text, str) and text != "" and text.isprintable()
    is_path = is_line and str(text)[0] not in "[;#" and not set("=:") & set(str(text))
    return " (a str is the text itself: for a file give its Path)" if is_path else ""


class Listing:
    """Texts and numbers that a call lists; none where it is absent."""

    def __init__(self, call: Callable[..., int], *words: Any) -> None:
        room = Sizes(4096, 512)
        while True:
            out, counts = ctypes.create_string_buffer(room.bytes), (ctypes.c_size_t * room.counts)()
            sizes = Sizes()
            status = call(*words, out, room.bytes, counts, room.counts, sizes)
            if status != NO_ROOM:
                break
            room = Sizes(max(sizes.bytes, 1), max(sizes.counts, 1))
        is_there = is_done(status)
        self._bytes, self._at = out.raw[: sizes.bytes] if is_there else b"", 0
        self._counts, self._next = counts[: sizes.counts] if is_there else [], 0

    def is_over(self) -> bool:
        return self._next == len(self._counts)

    def number(self) -> int:
        self._next += 1
        return int(self._counts[self._next - 1])

    def name(self) -> Optional[str]:
        """The next section's name, or None for the general section."""
        if self._counts[self._next] == UNNAMED:
            self._next += 1
            return None
        return self.text()

    def text(self) -> str:
        """The next text."""
        count, start = self.number(), self._at
        self._at += count + 1
        return self._bytes[start : start + count].decode()

    def sections(self) -> List[Tuple[Optional[str], List[Pair]]]:
        """All sections that are left, each its name and its pairs."""
        found: List[Tuple[Optional[str], List[Pair]]] = []
        while not self.is_over():
            found.append((self.name(), self.pairs(self.number())))
        return found

    def texts(self) -> Iterator[str]:
        while not self.is_over():
            yield self.text()

    def pairs(self, number: int) -> List[Pair]:
        return [(self.text(), self.text()) for _ in range(number)]
