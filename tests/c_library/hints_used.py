"""What a program says of the types that it gets from the package: mypy reads it, and nobody runs it."""
from pathlib import Path
from typing import List, Optional, Tuple

from bigrosk_ini import Broken, Change, Conflict, Document, Lookup, ReadOption, Settings, WriteOption, apply
from bigrosk_ini import dialect, diff, edit_set, load, merge3

read = ReadOption(multiline=True, lone_lines="refused", indented_comments=True, inline_comments=True)
document = Document(Path("settings.ini"), read)
port: Optional[str] = document.get("server", "port")
sure: str = document.get("server", "port", fallback="80")
number = int(document["server"].get("port", "80"))
names: List[Optional[str]] = list(document)
pairs: List[Tuple[str, str]] = document["server"].pairs()
document["server"]["port"] = "443"
text: str = edit_set("a=1", None, "a", "2", write=WriteOption(crlf=True))
raw: bytes = edit_set(b"a=1", None, "a", "2")
document["server"]["port"] = 443  # type: ignore[assignment]
edit_set(Path("a"), None, "a", "2")  # type: ignore[type-var]
options: Tuple[ReadOption, WriteOption] = dialect("systemd")
unit: Settings = load(Path("some.service"), dialect="systemd")
changed: List[Change] = diff(unit, Settings())
was: Optional[str] = changed[0].old
conflicts: List[Conflict] = merge3(unit, Settings(), Settings(), side="ours")
apply(changed, unit)
apply(diff(unit, Settings(), Lookup(values="last")), unit, dialect="git")
apply([1], unit)  # type: ignore[list-item]
try:
    document.is_plain()
except Broken as broken:
    place: Tuple[Optional[str], int, int] = (broken.file, broken.line, broken.column)
