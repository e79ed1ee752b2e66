"""What differs between settings, setting by setting, and what both sides made of one base."""
from __future__ import annotations

import ctypes
from collections import namedtuple

from ._calls import UNNAMED, UNWRITABLE, Listing, Lookup, Unwritable, is_done, library, lookup_of, shown
from ._calls import words_of
from ._refusals import Error
from ._settings import Settings

TYPE_CHECKING = False
if TYPE_CHECKING:
    from typing import Any, Callable, Iterable, List, NamedTuple, Optional, TypeVar

    T = TypeVar("T")

    class _Change(NamedTuple):
        section: Optional[str]
        key: str
        old: Optional[str]
        new: Optional[str]

    class _Conflict(NamedTuple):
        section: Optional[str]
        key: str
        base: Optional[str]
        ours: Optional[str]
        theirs: Optional[str]

else:
    _Change = namedtuple("_Change", "section key old new")
    _Conflict = namedtuple("_Conflict", "section key base ours theirs")


class Change(_Change):
    """A setting whose value differs: .section (None is the general one), .key, and its value before, .old,
    and after, .new, of which None says that it isn't there."""

    __slots__ = ()


class Conflict(_Conflict):
    """A setting that both sides changed, to different values: .section, .key, and its value in .base, .ours
    and .theirs, of which None says that it isn't there."""

    __slots__ = ()


class Conflicting(Error, ValueError):
    """Both sides of a merge changed settings, to different values: .conflicts has them."""

    def __init__(self, conflicts: List[Conflict]) -> None:
        self.conflicts = conflicts
        super().__init__(f"{len(conflicts)} in conflict, the first of them {conflicts[0].key!r}")


def _alone(all_of: List[Settings], call: Callable[[], T]) -> T:
    """Calls while no other thread uses these settings, which are locked in one order."""
    if not all_of:
        return call()
    first = min(all_of, key=id)
    with first._lock:
        return _alone([it for it in all_of if it is not first], call)


def _are_settings(*all_of: object) -> None:
    for it in all_of:
        if not isinstance(it, Settings):
            raise TypeError(f"what is compared are Settings: this is {shown(it)}")


def diff(
    old: Settings, new: Settings, lookup: Optional[Lookup] = None, dialect: Optional[str] = None
) -> List[Change]:
    """The settings whose values differ, each once: those of `new` in their order, and then those that it
    lacks. A setting's value is that of the first pair of its key in the first section of its name; by a
    `lookup`, or that of a `dialect` such as "git", the one that counts there, or the list of all, and where
    case is ignored names and keys are in small letters."""
    _are_settings(old, new)
    words = [old._it, new._it, lookup_of(lookup, dialect)]
    if old is new:
        return []
    listed = _alone([old, new], lambda: Listing(library.bigrosk_ini_text_diff_under, *words))
    changes = []
    while not listed.is_over():
        changes.append(Change(listed.name(), listed.text(), listed.name(), listed.name()))
    return changes


def apply(
    changes: Iterable[Change],
    settings: Settings,
    lookup: Optional[Lookup] = None,
    dialect: Optional[str] = None,
) -> None:
    """Makes the changes, all or none, whatever values the settings have: one with .new is set, and one
    without loses all its pairs. By another rule than the default one the pair that counts is set, and others
    stay; by one of lists the key gets the values of the list. Unwritable tells by .index which change was
    refused."""
    _are_settings(settings)
    rule = lookup_of(lookup, dialect)
    texts: List[Optional[bytes]] = []
    for section, key, old, new in changes:
        words = words_of(section, key=key)
        texts += [words[1] if words[0] else None, words[3]]
        texts += [None if it is None else words_of(None, value=it)[3] for it in (old, new)]
    given = b"".join(it + b"\0" for it in texts if it is not None)
    counts = (ctypes.c_size_t * max(len(texts), 1))(*(UNNAMED if it is None else len(it) for it in texts))
    words, refused = [given, len(given), counts, len(texts)], ctypes.c_size_t()
    words = [rule, settings._write, *words, refused]
    _done(settings._call(library.bigrosk_ini_text_apply_under, *words), refused)


def _done(status: int, refused: ctypes.c_size_t) -> None:
    if status in UNWRITABLE:
        raise Unwritable(UNWRITABLE[status], refused.value)
    is_done(status)


def merge3(
    base: Settings,
    ours: Settings,
    theirs: Settings,
    side: Optional[str] = None,
    lookup: Optional[Lookup] = None,
    dialect: Optional[str] = None,
) -> List[Conflict]:
    """Makes what `ours` changed in `base` in `theirs`, all or none, and gives the conflicts: settings that
    both changed, to different values. By `side`, "ours" or "theirs", that one's value stands there; without
    it a conflict raises Conflicting, and `theirs` stays. Unwritable tells by .index which change of those
    that are made was refused. Settings are looked up as by `diff`, and set as by `apply`."""
    _are_settings(base, ours, theirs)
    if side not in (None, "ours", "theirs"):
        raise ValueError(f'a side is "ours" or "theirs", or None: this is {shown(side)}')
    rule = lookup_of(lookup, dialect)
    if ours is base or ours is theirs:
        return []
    if base is theirs:
        base = Settings(str(theirs), theirs._read)
    return _alone([base, ours, theirs], lambda: _merged(base, ours, theirs, side, rule))


def _merged(
    base: Settings, ours: Settings, theirs: Settings, side: Optional[str], rule: Lookup
) -> List[Conflict]:
    words, refused = (base._it, ours._it, theirs._it, rule), ctypes.c_size_t()
    listed = Listing(library.bigrosk_ini_text_conflicts_under, *words)
    conflicts: List[Conflict] = []
    while not listed.is_over():
        texts: Any = (listed.name(), listed.text(), listed.name(), listed.name(), listed.name())
        conflicts.append(Conflict(*texts))
    if conflicts and side is None:
        raise Conflicting(conflicts)
    merge = library.bigrosk_ini_text_merge3_under
    _done(merge(*words, theirs._write, side == "ours", refused), refused)
    return conflicts
