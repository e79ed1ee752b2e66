"""INI documents by the C library of Bigrosk, with the habits of a mapping.

A settings file whose comments and layout stay, with the habits of configparser:

    settings = load("settings.ini")
    settings["server"]["port"] = "443"
    settings.getint("server", "port", fallback=80)
    settings.save()                     # beside it, and renamed
    changes = diff(load("old.ini"), settings)   # [Change(section="server", key="port", old="80", new="443")]
    apply(changes, other)               # all or none
    merge3(base, ours, theirs)          # what ours changed in base is made in theirs
    diff(base, ours, dialect="git")     # sections joined, the last value counts, whatever the case

and a document, of which its text keeps nothing but sections and pairs:

    document = Document("[paths]\\nlog = /var/log/app\\n")
    document["paths"]["log"]            # "/var/log/app"
    document["paths"]["cache"] = "/c"   # set; a new section is opened by its first pair
    "paths" in document                 # True
    del document["paths"]["cache"]
    document[None]                      # the general section, which stands before the first header
    list(document)                      # [None, "paths"]: each name once, in order
    list(document["paths"].items())     # each key once, with its first value
    document.get("paths", "log", fallback="/tmp")
    document["paths"].get_all("log")    # all values of a key that is there more than once
    document["paths"].pairs()           # all pairs, repeated keys too
    document.walk()                     # all sections with their pairs, repeated names too
    str(document)                       # the text

A text itself is edited by functions that keep its comments, its blank lines and its layout:

    text = edit_set(text, "paths", "log", "/srv/log")   # in the place of the first value
    text = edit_set(text, "paths", "tmp", "/tmp")       # which isn't there: in a new line of the section
    text = edit_add(text, "paths", "tmp", "/var/tmp")   # a further pair
    text = edit_delete(text, "paths", "cache")
    text = edit_rename_key(text, "paths", "log", "logs")
    text = edit_rename_section(text, "paths", "files")
    text = edit_delete_section(text, "files")

A str is the text itself; a Path is the file, which is read. A text that is refused raises Broken, which has
.line, .column, .kind and .message, and of a Path .file. Several threads may use a document at the same time:
each call has it alone. A document can't be copied or pickled; Document(str(document)) is another, with the
same content where document.is_plain().

The shared library is the one that BIGROSK_INI_LIBRARY names, or that lies in this folder, as in a wheel, or
the system's.
"""
from __future__ import annotations

import ctypes
from collections.abc import MutableMapping

from ._calls import BROKEN, KINDS, NO_ROOM, Broken, Fault, FirstFive, Handle, Listing, Lookup, ReadOption
from ._calls import RLock, Unwritable, WriteOption, bytes_of, copied_out, dialect, help_for, is_done, library
from ._calls import options_of, raise_refused, shown, text_words, words_of
from ._differences import Change, Conflict, Conflicting, apply, diff, merge3
from ._refusals import Error, Mistyped, NoOption, NoSection, SectionThere
from ._settings import Settings, SettingsSection, load

__all__ = [
    "KINDS", "Broken", "Change", "Conflict", "Conflicting", "Document", "Error", "Lookup", "Mistyped",
    "NoOption", "NoSection", "ReadOption", "Section", "SectionThere", "Settings", "SettingsSection",
    "Unwritable", "WriteOption", "apply", "dialect", "diff", "load", "merge3", "version",
    "edit_add", "edit_delete", "edit_delete_section", "edit_rename_key", "edit_rename_section", "edit_set",
]
TYPE_CHECKING = False
if TYPE_CHECKING:
    from typing import Any, AnyStr, Callable, Iterator, List, Optional, Tuple, TypeVar, Union, overload

    from ._calls import Pair, Text

    T = TypeVar("T")
else:

    def overload(one: object) -> object:
        """A variant of the next function, for who checks types."""
        return one



class Document:
    """A document: its sections by name, None for the general one. A name that is there twice stands for its
    first section. A str or bytes are the text, a Path is read. By a `dialect`, such as "git", it is read and
    written as that one's programs do."""

    def __init__(
        self,
        text: Text = "",
        option: Optional[ReadOption] = None,
        drop_mark: bool = True,
        dialect: Optional[str] = None,
    ) -> None:
        self._it, self._lock, fault = Handle(), RLock(), Fault()
        self._read, self._write = options_of(None, None, dialect)
        whole, file = bytes_of(text)
        read = option or self._read
        status = library.bigrosk_ini_load_by(whole, len(whole), drop_mark, read, self._it, fault)
        raise_refused(status, fault, file, help_for(text))

    def __del__(self) -> None:
        if hasattr(self, "_it"):
            library.bigrosk_ini_free(self._it)

    def _call(self, call: Callable[..., int], *words: Any) -> int:
        """Calls the library with the document, which no other thread does meanwhile."""
        with self._lock:
            return call(self._it, *words)

    def __reduce_ex__(self, protocol: object) -> Any:
        """Copies by copy and pickle would share what the library keeps, and free it twice."""
        raise TypeError("a Document can't be copied or pickled: load its text, str(document), into another")

    def __contains__(self, section: Optional[str]) -> bool:
        return is_done(self._call(library.bigrosk_ini_has_section, *words_of(section)))

    def __iter__(self) -> Iterator[Optional[str]]:
        """Each section's name once, in the order of first occurrence."""
        return iter(dict.fromkeys(name for name, _ in self.walk()))

    def __len__(self) -> int:
        return sum(1 for _ in self)

    def __getitem__(self, section: Optional[str]) -> "Section":
        return Section(self, section)

    def __delitem__(self, section: Optional[str]) -> None:
        if not is_done(self._call(library.bigrosk_ini_delete_section, *words_of(section))):
            raise KeyError(section)

    def keys(self) -> List[Optional[str]]:
        return list(self)

    def values(self) -> List["Section"]:
        return [self[name] for name in self]

    def items(self) -> List[Tuple[Optional[str], "Section"]]:
        """Each section's name once, with its first section."""
        return [(name, self[name]) for name in self]

    @overload
    def get(self, section: Optional[str], key: str, fallback: None = None) -> Optional[str]: ...

    @overload
    def get(self, section: Optional[str], key: str, fallback: T) -> Union[str, T]: ...

    def get(self, section: Optional[str], key: str, fallback: object = None) -> object:
        value = copied_out(self._call, library.bigrosk_ini_get, *words_of(section, key=key))
        return fallback if value is None else value

    def set(self, section: Optional[str], key: str, value: str) -> None:
        is_done(self._call(library.bigrosk_ini_set, *words_of(section, key=key, value=value)))

    def add(self, section: Optional[str], key: str, value: str) -> None:
        """Puts the pair last in the section, also where the key is there."""
        is_done(self._call(library.bigrosk_ini_add, *words_of(section, key=key, value=value)))

    def walk(self) -> List[Tuple[Optional[str], List[Pair]]]:
        """All sections in order, each its name and the list of its pairs; two may have one name."""
        return Listing(self._call, library.bigrosk_ini_items).sections()

    def text(self, option: Optional[WriteOption] = None) -> str:
        text = copied_out(self._call, library.bigrosk_ini_write, option or self._write)
        assert text is not None
        return text

    def __str__(self) -> str:
        return self.text()

    def is_plain(self, write: Optional[WriteOption] = None, read: Optional[ReadOption] = None) -> bool:
        """Whether the document, written by one option, loads by the other as it is."""
        return bool(self._call(library.bigrosk_ini_is_plain_by, write or self._write, read or self._read))


class Section(MutableMapping[str, str]):
    """The first section of a name, as a mapping of each key to its first value. It need not be there: then
    it has no keys, and is opened by its first pair."""

    def __init__(self, document: Document, name: Optional[str]) -> None:
        self._document, self.name = document, name

    def __contains__(self, key: object) -> bool:
        words = words_of(self.name, key=key)  # type: ignore[arg-type]
        return is_done(self._document._call(library.bigrosk_ini_has, *words))

    def __getitem__(self, key: str) -> str:
        value = self._document.get(self.name, key)
        if value is None:
            raise KeyError(key)
        return value

    def __setitem__(self, key: str, value: str) -> None:
        self._document.set(self.name, key, value)

    def __delitem__(self, key: str) -> None:
        if not is_done(self._document._call(library.bigrosk_ini_delete, *words_of(self.name, key=key))):
            raise KeyError(key)

    def __iter__(self) -> Iterator[str]:
        """Each key once, in the order of first occurrence."""
        return iter(dict.fromkeys(key for key, _ in self.pairs()))

    def __len__(self) -> int:
        return sum(1 for _ in self)

    @overload
    def get(self, key: str, fallback: None = None) -> Optional[str]: ...

    @overload
    def get(self, key: str, fallback: Union[str, T]) -> Union[str, T]: ...

    def get(self, key: str, fallback: object = None) -> object:
        return self._document.get(self.name, key, fallback)

    def get_all(self, key: str) -> List[str]:
        """All values of the key, in order."""
        words = words_of(self.name, key=key)
        return list(Listing(self._document._call, library.bigrosk_ini_get_all, *words).texts())

    def pairs(self) -> List[Pair]:
        """All pairs in order; two may have one key."""
        texts = Listing(self._document._call, library.bigrosk_ini_pairs, *words_of(self.name)).texts()
        return list(zip(texts, texts))


def _edited(
    name: str, text: AnyStr, options: Tuple[Any, ...], words: List[Any], what: Optional[str]
) -> AnyStr:
    """The text as the call of the name edits it, as str or bytes as it came; a mark at its front stays.
    KeyError of `what` where that isn't there."""
    if not isinstance(text, (str, bytes)):
        raise TypeError(f"the text of an edit is a str or bytes: this is {shown(text)}")
    whole = text.encode() if isinstance(text, str) else text
    call = _opened_edited if options[0].has_later_ones() else _bytes_edited
    edited = call(name, whole, options, words, what)
    return edited.decode() if isinstance(text, str) else edited


def _opened_edited(
    name: str, whole: bytes, options: Tuple[Any, ...], words: List[Any], what: Optional[str]
) -> bytes:
    """The same of bytes, by a text in pieces: by each option that there is."""
    settings = Settings(whole, options[0])
    if not is_done(settings._call(getattr(library, f"bigrosk_ini_text_{name}"), *options[1:], *words)):
        raise KeyError(what)
    return settings._mark + str(settings).encode()


def _bytes_edited(
    name: str, whole: bytes, options: Tuple[Any, ...], words: List[Any], what: Optional[str]
) -> bytes:
    """The same by a call that edits bytes, which knows of the first five options."""
    call = getattr(library, f"bigrosk_ini_edit_{name}")
    options = (FirstFive(options[0]), *options[1:])
    mark = whole[:3] if whole.startswith(b"\xef\xbb\xbf") else b""
    old, room, count, fault = whole[len(mark) :], len(whole) + 256, ctypes.c_size_t(), Fault()
    while True:
        out = ctypes.create_string_buffer(room)
        status = call(old, len(old), *options, *words, out, room, count, fault)
        if status != NO_ROOM:
            break
        room = count.value + 1
    if status == BROKEN:
        raise Broken(fault)
    if not is_done(status):
        raise KeyError(what)
    return mark + out.raw[: count.value]


def edit_set(
    text: AnyStr,
    section: Optional[str],
    key: str,
    value: str,
    read: Optional[ReadOption] = None,
    write: Optional[WriteOption] = None,
    dialect: Optional[str] = None,
) -> AnyStr:
    """The text with the key's value set: in the place of that of its first pair, and the later ones there
    go; or in a new line of the section, or in a new section."""
    options = options_of(read, write, dialect)
    return _edited("set", text, options, words_of(section, key=key, value=value), key)


def edit_add(
    text: AnyStr,
    section: Optional[str],
    key: str,
    value: str,
    read: Optional[ReadOption] = None,
    write: Optional[WriteOption] = None,
    dialect: Optional[str] = None,
) -> AnyStr:
    """The text with a further pair, whatever pairs of the key are there: in a new line of the section, or in
    a new section."""
    options = options_of(read, write, dialect)
    return _edited("add", text, options, words_of(section, key=key, value=value), key)


def edit_delete(
    text: AnyStr,
    section: Optional[str],
    key: str,
    read: Optional[ReadOption] = None,
    dialect: Optional[str] = None,
) -> AnyStr:
    """The text without the key's first pair. KeyError where it isn't there."""
    options = options_of(read, None, dialect)[:1]
    return _edited("delete", text, options, words_of(section, key=key), key)


def edit_rename_key(
    text: AnyStr,
    section: Optional[str],
    key: str,
    new: str,
    read: Optional[ReadOption] = None,
    write: Optional[WriteOption] = None,
    dialect: Optional[str] = None,
) -> AnyStr:
    """The text with another key in the key's first pair. KeyError where it isn't there."""
    options = options_of(read, write, dialect)
    words = words_of(section, key=key, new_key=new)
    return _edited("rename_key", text, options, words, key)


def edit_delete_section(
    text: AnyStr, section: Optional[str], read: Optional[ReadOption] = None, dialect: Optional[str] = None
) -> AnyStr:
    """The text without the first section of the name, but for comments directly above the next header. KeyError
    where it isn't there, as the general section, which doesn't go."""
    if section is None:
        raise KeyError(section)
    options = options_of(read, None, dialect)[:1]
    return _edited("delete_section", text, options, text_words(name=section), section)


def edit_rename_section(
    text: AnyStr,
    section: Optional[str],
    new: str,
    read: Optional[ReadOption] = None,
    write: Optional[WriteOption] = None,
    dialect: Optional[str] = None,
) -> AnyStr:
    """The text with another name in the header of the first section of the name. KeyError where it isn't
    there, as the general section, which has no header."""
    if section is None:
        raise KeyError(section)
    options = options_of(read, write, dialect)
    words = text_words(name=section, new_name=new)
    return _edited("rename_section", text, options, words, section)


def version() -> int:
    """The library's version: 10000 for each major one, 100 for each minor one."""
    return int(library.bigrosk_ini_version())
