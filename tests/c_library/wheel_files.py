"""Looks at a wheel: which files it has, that its list of files names each with its sum and its size, and that what it
says of itself is what pyproject.toml says.

    wheel_files.py WHEEL VERSION
"""
import base64
import csv
import hashlib
import io
import re
import sys
import zipfile
from email.parser import Parser
from pathlib import Path

TOP = Path(__file__).resolve().parents[2]
wheel, version = zipfile.ZipFile(sys.argv[1]), sys.argv[2]
info = f"bigrosk_ini-{version}.dist-info"


def same(what, had, wanted):
    assert had == wanted, f"{what}: {had!r} in place of {wanted!r}"


def sum_of(path):
    total = base64.urlsafe_b64encode(hashlib.sha256(wheel.read(path)).digest())
    return "sha256=" + total.rstrip(b"=").decode()


sources = [f"bigrosk_ini/{it}" for it in ("__init__.py", "_calls.py", "_differences.py", "_refusals.py", "_settings.py", "py.typed")]
library = "bigrosk_ini/libbigrosk_ini.so"
files = sorted([*sources, library, *(f"{info}/{it}" for it in ("METADATA", "RECORD", "WHEEL"))])
same("files", sorted(wheel.namelist()), files)
for path in sources:
    same(path, wheel.read(path), (TOP / "python" / path).read_bytes())
same("library", wheel.read(library)[:4], b"\x7fELF")

rows = list(csv.reader(io.StringIO(wheel.read(f"{info}/RECORD").decode())))
same("files in the list", sorted(path for path, *_ in rows), files)
for path, total, size in rows:
    wanted = ("", "") if path.endswith("RECORD") else (sum_of(path), str(len(wheel.read(path))))
    same(f"the list's row of {path}", (total, size), wanted)

project = (TOP / "python/pyproject.toml").read_text()
said = Parser().parsestr(wheel.read(f"{info}/METADATA").decode())
for word, named in (("name", "Name"), ("description", "Summary"), ("requires-python", "Requires-Python")):
    same(word, said[named], re.search(rf'^{word} = "(.*)"$', project, re.M)[1])
same("version", said["Version"], version)
tags = Parser().parsestr(wheel.read(f"{info}/WHEEL").decode())
same("tag", (tags["Tag"], tags["Root-Is-Purelib"]), ("py3-none-linux_x86_64", "false"))
print(f"{len(files)} files")
