"""A settings file as a mapping that keeps its text: comments, blank lines and layout stay as they were."""
from __future__ import annotations

import ctypes
import os
from collections.abc import Mapping, MutableMapping

from ._calls import THERE, Fault, Handle, Listing, Place, RLock, bytes_of, copied_out, help_for, is_done
from ._calls import library, options_of, raise_refused, read_whole, shown, text_words, words_of
from ._refusals import Mistyped, NoOption, NoSection, SectionThere

TYPE_CHECKING = False
if TYPE_CHECKING:
    from typing import Any, Callable, Dict, Iterable, Iterator, List, Optional, TextIO, Tuple, TypeVar, Union

    from ._calls import Pair, Path, ReadOption, Text, WriteOption

    T = TypeVar("T")
MARK = b"\xef\xbb\xbf"
BOOLEANS = {"1": True, "yes": True, "true": True, "on": True, "0": False, "no": False, "false": False, "off": False}
DEPTH = 10  # how deep values may refer to others


class _Missing:
    def __repr__(self) -> str:
        return "no fallback"


_MISSING = _Missing()


class Settings(MutableMapping["Optional[str]", "SettingsSection"]):
    """Settings: their sections by name; None is the general one, which stands before the first header and is
    always there. A name that is there twice stands for its first section. A str or bytes are the text, a Path
    is read, as `load` reads a path. By a `dialect`, such as "systemd", the text is read, and what is set is
    written, as that one's programs do; options that are given go before it.

    With `defaults`, the name of a section, that section's values stand in every other one that lacks their
    key, and it is no section of `sections()`. With `interpolate`, `%(key)s` in a value is the value of that
    key in the same section, and `%%` is `%`."""

    def __init__(
        self,
        text: Text = "",
        read: Optional[ReadOption] = None,
        write: Optional[WriteOption] = None,
        defaults: Optional[str] = None,
        interpolate: bool = False,
        dialect: Optional[str] = None,
    ) -> None:
        self._it, self._lock, self._mark = Handle(), RLock(), b""
        self._read, self._write = options_of(read, write, dialect)
        self.defaults, self.interpolate = defaults, interpolate
        self.path: Optional[str] = None
        given, file = bytes_of(text)
        self._open(given, file, help_for(text))
        self.path = file

    def _open(self, given: bytes, file: Optional[str], help: str = "") -> None:
        """Opens a text in place of the one that is open; the file is named where it is refused."""
        mark = MARK if given.startswith(MARK) else b""
        own, fault = given[len(mark) :], Fault()
        status = self._call(
            lambda it, *words: library.bigrosk_ini_text_open_by(*words, it, fault), own, len(own), self._read
        )
        raise_refused(status, fault, file, help)
        self._mark = mark

    def __del__(self) -> None:
        if hasattr(self, "_it"):
            library.bigrosk_ini_text_close(self._it)

    def __reduce_ex__(self, protocol: object) -> Any:
        raise TypeError("Settings can't be copied or pickled: give their text, str(settings), to others")

    def _call(self, call: Callable[..., int], *words: Any) -> int:
        """Calls the library with the text, which no other thread does meanwhile."""
        with self._lock:
            return call(self._it, *words)

    # ---- as a mapping ----

    def __contains__(self, section: object) -> bool:
        words = words_of(section)  # type: ignore[arg-type]
        return is_done(self._call(library.bigrosk_ini_text_has_section, *words))

    def __iter__(self) -> Iterator[Optional[str]]:
        """Each section's name once, in the order of first occurrence; None first where the general one has
        pairs."""
        return iter(dict.fromkeys(name for name, pairs in self.walk() if name is not None or pairs))

    def __len__(self) -> int:
        return sum(1 for _ in self)

    def __getitem__(self, section: Optional[str]) -> "SettingsSection":
        if section not in self:
            raise NoSection(section)
        return SettingsSection(self, section)

    def __setitem__(self, section: Optional[str], values: Mapping[str, str]) -> None:
        """Gives the section these values: keys that aren't among them are taken out; of those that stay, the
        lines and comments stay."""
        if isinstance(values, SettingsSection):
            values = dict(values)
        if not isinstance(values, Mapping):
            raise TypeError(f"a section is given a mapping of keys to values: this is {shown(values)}")
        if section is not None and section not in self:
            self.add_section(section)
        for key in [it for it in SettingsSection(self, section)._own() if it not in values]:
            is_done(self._call(library.bigrosk_ini_text_delete_all, *words_of(section, key=key)))
        for key, value in values.items():
            self.set(section, key, value)

    def __delitem__(self, section: Optional[str]) -> None:
        if not self.remove_section(section):
            raise NoSection(section)

    def __eq__(self, other: object) -> bool:
        """Whether the sections, the keys and the values are the same, in order; the layout may differ."""
        if isinstance(other, Settings):
            mine = [it for it in self.walk() if it != (None, [])]
            return mine == [it for it in other.walk() if it != (None, [])]
        return NotImplemented

    __hash__ = None  # type: ignore[assignment]

    def __repr__(self) -> str:
        return f"<Settings{f' of {self.path!r}' if self.path else ''}: sections {self.sections()}>"

    def walk(self) -> List[Tuple[Optional[str], List[Pair]]]:
        """All sections in order, each its name and the list of its pairs; two may have one name."""
        return Listing(self._call, library.bigrosk_ini_text_items).sections()

    # ---- as configparser ----

    def sections(self) -> List[str]:
        """The names of the sections in order, but for the general one and that of defaults."""
        return [name for name in self if name is not None and name != self.defaults]

    def has_section(self, section: Optional[str]) -> bool:
        return section in self

    def has_option(self, section: Optional[str], option: str) -> bool:
        return section in self and self._raw(section, option) is not None

    def options(self, section: Optional[str]) -> List[str]:
        return list(self[section])

    def _own(self, section: Optional[str], option: str) -> Optional[str]:
        return copied_out(self._call, library.bigrosk_ini_text_get, *words_of(section, key=option))

    def _raw(self, section: Optional[str], option: str) -> Optional[str]:
        """The value, or that of the defaults, as it stands."""
        value = self._own(section, option)
        if value is None and self.defaults is not None:
            value = self._own(self.defaults, option)
        return value

    def position(self, section: Optional[str], option: str) -> Optional[Tuple[int, int]]:
        """The line and the column where the value begins, from 1; None where it isn't there."""
        place = Place()
        for name in (section, self.defaults) if self.defaults is not None else (section,):
            words = words_of(name, key=option)
            if is_done(self._call(library.bigrosk_ini_text_place, *words, place)):
                return place.line, place.column
        return None

    def _mistyped(self, section: Optional[str], option: str, message: str) -> Mistyped:
        line, column = self.position(section, option) or (0, 0)
        return Mistyped(self.path, line, column, message)

    def _filled(self, section: Optional[str], option: str, value: str, depth: int = 1) -> str:
        """The value with other values in the place of `%(key)s`."""
        if not self.interpolate or "%" not in value:
            return value
        if depth > DEPTH:
            raise self._mistyped(section, option, "values refer to each other too deep")
        out, rest = [], value
        while "%" in rest:
            front, _, rest = rest.partition("%")
            out.append(front)
            if rest.startswith("%"):
                out.append("%")
                rest = rest[1:]
                continue
            key, found, following = rest[1:].partition(")s")
            if not rest.startswith("(") or not found:
                raise self._mistyped(section, option, "% is followed by neither % nor (key)s")
            other = self._raw(section, key)
            if other is None:
                raise self._mistyped(section, option, f"%({key})s: no such option")
            out.append(self._filled(section, key, other, depth + 1))
            rest = following
        return "".join(out) + rest

    def get(  # type: ignore[override]
        self,
        section: Optional[str],
        option: str,
        *,
        raw: bool = False,
        vars: Optional[Mapping[str, str]] = None,
        fallback: Union[T, _Missing] = _MISSING,
    ) -> Union[str, T]:
        """The value of the option. Where it isn't there: the fallback, if one is given; else NoSection or
        NoOption. `vars` go before what the section has; `raw` leaves `%` as it is."""
        if vars is not None and option in vars:
            value: Optional[str] = vars[option]
        else:
            value = self._raw(section, option) if section in self else None
        if value is None:
            if not isinstance(fallback, _Missing):
                return fallback
            raise NoOption(option, section) if section in self else NoSection(section)
        return value if raw else self._filled(section, option, value)

    def _typed(
        self, of: Callable[[str], T], kind: str, section: Optional[str], option: str, raw: bool, vars: Any,
        fallback: Any,
    ) -> T:
        value = self.get(section, option, raw=raw, vars=vars, fallback=_MISSING if fallback is _MISSING else None)
        if value is None:
            return fallback  # type: ignore[no-any-return]
        try:
            return of(value)
        except (ValueError, KeyError):
            raise self._mistyped(section, option, f"{option}: not {kind}: {value!r:.40}") from None

    def getint(
        self, section: Optional[str], option: str, *, raw: bool = False,
        vars: Optional[Mapping[str, str]] = None, fallback: Any = _MISSING,
    ) -> int:
        """The value as a whole number; Mistyped, with line and column, where it is none."""
        return self._typed(int, "a whole number", section, option, raw, vars, fallback)

    def getfloat(
        self, section: Optional[str], option: str, *, raw: bool = False,
        vars: Optional[Mapping[str, str]] = None, fallback: Any = _MISSING,
    ) -> float:
        return self._typed(float, "a number", section, option, raw, vars, fallback)

    def getboolean(
        self, section: Optional[str], option: str, *, raw: bool = False,
        vars: Optional[Mapping[str, str]] = None, fallback: Any = _MISSING,
    ) -> bool:
        """True of 1, yes, true and on, False of 0, no, false and off, whatever the case."""
        return self._typed(lambda it: BOOLEANS[it.lower()], "yes or no", section, option, raw, vars, fallback)

    def items(self, section: Any = _MISSING, raw: bool = False, vars: Any = None) -> Any:
        """Of a section its options with their values, those of the defaults and `vars` among them; without one
        each section's name and the section."""
        if isinstance(section, _Missing):
            return [(name, self[name]) for name in self]
        options = list(dict.fromkeys([*self.options(section), *(vars or {})]))
        return [(it, self.get(section, it, raw=raw, vars=vars)) for it in options]

    def set(self, section: Optional[str], option: str, value: str) -> None:
        """Sets the value of the option's first pair where it stands, takes later ones out; or puts a new line
        into the section. NoSection where it isn't there."""
        if section not in self:
            raise NoSection(section)
        words = words_of(section, key=option, value=value)
        is_done(self._call(library.bigrosk_ini_text_set, self._write, *words))

    def remove_option(self, section: Optional[str], option: str) -> bool:
        """Takes out all pairs of the option: whether one was there."""
        if section not in self:
            raise NoSection(section)
        return is_done(self._call(library.bigrosk_ini_text_delete_all, *words_of(section, key=option)))

    def add_section(self, section: str) -> None:
        """Puts an empty section at the end. SectionThere where there is one."""
        status = self._call(library.bigrosk_ini_text_add_section, self._write, *text_words(name=section))
        if status == THERE:
            raise SectionThere(section)
        is_done(status)

    def remove_section(self, section: Optional[str]) -> bool:
        """Takes out all sections of the name: whether one was there. The general one loses its pairs."""
        was = section in self
        if section is None:
            for key in SettingsSection(self, None)._own():
                is_done(self._call(library.bigrosk_ini_text_delete_all, *words_of(None, key=key)))
            return was
        while is_done(self._call(library.bigrosk_ini_text_delete_section, *text_words(name=section))):
            pass
        return was

    # ---- what configparser lacks ----

    def get_all(self, section: Optional[str], option: str) -> List[str]:
        """All values of an option that repeats, in order, as they stand."""
        words = words_of(section, key=option)
        return list(Listing(self._call, library.bigrosk_ini_text_get_all, *words).texts())

    def set_all(self, section: Optional[str], option: str, values: Iterable[str]) -> None:
        """Gives the option these values, in order: one pair each."""
        encoded = [it for value in values for it in text_words(value=value)[:1]]
        counts = (ctypes.c_size_t * max(len(encoded), 1))(*map(len, encoded))
        given = b"".join(it + b"\0" for it in encoded)
        words = words_of(section, key=option)
        words += [given, len(given), counts, len(encoded)]
        is_done(self._call(library.bigrosk_ini_text_set_all, self._write, *words))

    def rename_option(self, section: Optional[str], option: str, new: str) -> None:
        words = words_of(section, key=option, new_key=new)
        if not is_done(self._call(library.bigrosk_ini_text_rename_key, self._write, *words)):
            raise NoOption(option, section)

    def rename_section(self, section: str, new: str) -> None:
        words = text_words(name=section, new_name=new)
        if not is_done(self._call(library.bigrosk_ini_text_rename_section, self._write, *words)):
            raise NoSection(section)

    def comment(self, section: Optional[str], option: str) -> str:
        """The comment lines directly above the option, with their marks and line ends, or no text."""
        words = words_of(section, key=option)
        comment = copied_out(self._call, library.bigrosk_ini_text_comment, *words)
        if comment is None:
            raise NoOption(option, section)
        return comment

    def set_comment(self, section: Optional[str], option: str, comment: str) -> None:
        """Puts comment lines there, in place of those; each begins with ; or #. No text takes them out."""
        words = words_of(section, key=option, comment=comment)
        if not is_done(self._call(library.bigrosk_ini_text_set_comment, self._write, *words)):
            raise NoOption(option, section)

    def comment_out(self, section: Optional[str], option: str) -> None:
        """Makes the option's first pair a comment."""
        if not is_done(self._call(library.bigrosk_ini_text_comment_out, *words_of(section, key=option))):
            raise NoOption(option, section)

    # ---- reading and writing ----

    def read(self, filenames: Union[Path, Iterable[Path]], encoding: str = "utf-8") -> List[str]:
        """Reads files one after another, those that aren't there left out: which were read. The first text
        into empty settings is kept as it is; what others set is set in it."""
        if encoding.lower().replace("_", "-") not in ("utf-8", "utf8", "utf-8-sig"):
            raise ValueError(f"a text is UTF-8: {encoding!r} isn't read")
        if isinstance(filenames, (str, bytes, os.PathLike)):
            filenames = [filenames]  # type: ignore[list-item]
        found = []
        for it in filenames:
            try:
                with open(it, "rb") as file:
                    text = file.read()
            except OSError:
                continue
            is_first = str(self) == ""
            self._take(text, os.fspath(it))
            if is_first:
                self.path = os.fspath(it)
            found.append(os.fspath(it))
        return found

    def read_string(self, string: str, source: str = "<string>") -> None:
        self._take(string.encode(), source)

    def read_file(self, file: Iterable[str], source: Optional[str] = None) -> None:
        self._take("".join(file).encode(), source or getattr(file, "name", "<file>"))

    def read_dict(self, dictionary: Mapping[str, Mapping[str, Any]], source: str = "<dict>") -> None:
        for name, values in dictionary.items():
            if name not in self:
                self.add_section(name)
            for key, value in values.items():
                self.set(name, key, str(value))

    def _take(self, text: bytes, source: str) -> None:
        """Opens the text, where nothing is here; else sets what it sets."""
        if str(self) == "":
            self._open(text, source)
            return
        other = Settings("", self._read)
        other._open(text, source)
        for name, pairs in other.walk():
            if name is not None and name not in self:
                self.add_section(name)
            values: Dict[str, List[str]] = {}
            for key, value in pairs:
                values.setdefault(key, []).append(value)
            for key, all_of in values.items():
                self.set_all(name, key, all_of)

    def text(self) -> str:
        """The text as it now is, but for a mark at its front."""
        text = copied_out(self._call, library.bigrosk_ini_text_write)
        assert text is not None
        return text

    def __str__(self) -> str:
        return self.text()

    def write(self, fileobject: TextIO, space_around_delimiters: Optional[bool] = None) -> None:
        """Writes the text to a file that was opened for text; how delimiters look is the text's own."""
        fileobject.write(self._mark.decode() + self.text())

    def save(self, path: Optional[Path] = None) -> None:
        """Saves the text beside the file, with its mode, and renames: the file has the old text or the new
        one. Without a path to the one that was read."""
        to = os.fspath(path) if path is not None else self.path
        if to is None:
            raise ValueError("these settings are of no file: give save a path")
        import tempfile  # which takes longer to import than all of this package

        to = os.path.realpath(to)
        text = self._mark + self.text().encode()
        number, beside = tempfile.mkstemp(prefix=os.path.basename(to) + ".", dir=os.path.dirname(to))
        try:
            with os.fdopen(number, "wb") as file:
                file.write(text)
                file.flush()
                os.fsync(file.fileno())
            try:
                mode = os.stat(to).st_mode & 0o7777
            except FileNotFoundError:
                mode = 0o666 & ~_umask()
            os.chmod(beside, mode)
            os.replace(beside, to)
        except BaseException:
            os.unlink(beside)
            raise
        self.path = self.path or to


def _umask() -> int:
    mask = os.umask(0o077)
    os.umask(mask)
    return mask


class SettingsSection(MutableMapping[str, str]):
    """A section of settings as a mapping of each key to its first value."""

    def __init__(self, settings: Settings, name: Optional[str]) -> None:
        self._settings, self.name = settings, name

    def _own(self) -> List[str]:
        """Its own keys, each once, in order."""
        call, words = self._settings._call, words_of(self.name)
        texts = Listing(call, library.bigrosk_ini_text_pairs, *words).texts()
        return list(dict.fromkeys(key for key, _ in zip(texts, texts)))

    def __contains__(self, key: object) -> bool:
        return self._settings.has_option(self.name, key)  # type: ignore[arg-type]

    def __getitem__(self, key: str) -> str:
        return self._settings.get(self.name, key)

    def __setitem__(self, key: str, value: str) -> None:
        self._settings.set(self.name, key, value)

    def __delitem__(self, key: str) -> None:
        if not self._settings.remove_option(self.name, key):
            raise NoOption(key, self.name)

    def __iter__(self) -> Iterator[str]:
        """Each key once, in the order of first occurrence, and then those of the defaults."""
        defaults = self._settings.defaults
        more = [] if defaults is None else SettingsSection(self._settings, defaults)._own()
        return iter(dict.fromkeys([*self._own(), *more]))

    def __len__(self) -> int:
        return sum(1 for _ in self)

    def __repr__(self) -> str:
        return f"<SettingsSection {self.name!r}: {dict(self)!r}>"

    def get(self, option: str, fallback: Any = None, *, raw: bool = False, vars: Any = None) -> Any:
        return self._settings.get(self.name, option, raw=raw, vars=vars, fallback=fallback)

    def getint(self, option: str, fallback: Any = None, *, raw: bool = False, vars: Any = None) -> Any:
        return self._settings.getint(self.name, option, raw=raw, vars=vars, fallback=fallback)

    def getfloat(self, option: str, fallback: Any = None, *, raw: bool = False, vars: Any = None) -> Any:
        return self._settings.getfloat(self.name, option, raw=raw, vars=vars, fallback=fallback)

    def getboolean(self, option: str, fallback: Any = None, *, raw: bool = False, vars: Any = None) -> Any:
        return self._settings.getboolean(self.name, option, raw=raw, vars=vars, fallback=fallback)


def load(
    path: Path,
    read: Optional[ReadOption] = None,
    write: Optional[WriteOption] = None,
    defaults: Optional[str] = None,
    interpolate: bool = False,
    dialect: Optional[str] = None,
) -> Settings:
    """The settings of a file, which `save` writes back."""
    settings = Settings("", read, write, defaults, interpolate, dialect)
    text, settings.path = read_whole(path)
    settings._open(text, settings.path)
    return settings
