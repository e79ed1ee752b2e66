"""What look-ups in settings, and changes of them, are refused with."""
from __future__ import annotations

TYPE_CHECKING = False
if TYPE_CHECKING:
    from typing import Optional


class Error(Exception):
    """What a look-up in settings, or a change of them, is refused with; but for texts that break the grammar
    (Broken) and what can't be written (Unwritable)."""


class NoSection(Error, KeyError):
    def __init__(self, section: Optional[str]) -> None:
        self.section = section
        super().__init__(f"no section {section!r}")

    __str__ = Exception.__str__


class NoOption(Error, KeyError):
    def __init__(self, option: str, section: Optional[str]) -> None:
        self.option, self.section = option, section
        super().__init__(f"no option {option!r} in section {section!r}")

    __str__ = Exception.__str__


class SectionThere(Error, ValueError):
    def __init__(self, section: str) -> None:
        self.section = section
        super().__init__(f"section {section!r} is there")


class Mistyped(Error, ValueError):
    """A value is none of the type that is asked for, or refers to what isn't there: .file (or None), .line
    and .column say where it stands."""

    def __init__(self, file: Optional[str], line: int, column: int, message: str) -> None:
        self.file, self.line, self.column, self.message = file, line, column, message
        place = f"{line}:{column}" if file is None else f"{file}:{line}:{column}"
        super().__init__(f"{place} {message}")
