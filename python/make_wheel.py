"""Makes the wheel of bigrosk_ini, by the standard library alone. It is the build backend that pyproject.toml
names, and a script:

    make_wheel.py FOLDER

The wheel holds the package and the shared library: the one that the variable BIGROSK_INI_LIBRARY names, or
one that tools/c_library.sh makes. Its bytes depend on nothing else but these files.
"""
import base64
import hashlib
import os
import re
import stat
import subprocess
import sys
import tempfile
import zipfile
from pathlib import Path

HERE = Path(__file__).resolve().parent
NAME = "bigrosk_ini"
TAG = "py3-none-linux_x86_64"
LIBRARY = "libbigrosk_ini.so"
# what is written of time: the first that a zip file can have
MOMENT = (1980, 1, 1, 0, 0, 0)


class UnsupportedOperation(Exception):
    """What the frontend asks for is none of this backend's doings."""


def version():
    header = (HERE.parent / "c/bigrosk_ini.h").read_text()
    return re.search(r'^#define BIGROSK_INI_VERSION "(.*)"$', header, re.M)[1]


def of_project(word):
    """What pyproject.toml says of the project, one line of text."""
    text = (HERE / "pyproject.toml").read_text()
    return re.search(rf'^{word} = "(.*)"$', text, re.M)[1]


def library_bytes():
    named = os.environ.get("BIGROSK_INI_LIBRARY")
    if named:
        return Path(named).read_bytes()
    with tempfile.TemporaryDirectory() as room:
        # what it says goes to standard error: standard output is the frontend's
        subprocess.run([HERE.parent / "tools/c_library.sh", room], check=True, stdout=sys.stderr)
        return Path(room, "lib", LIBRARY).read_bytes()


def metadata():
    lines = [
        "Metadata-Version: 2.1",
        f"Name: {NAME}",
        f"Version: {version()}",
        f"Summary: {of_project('description')}",
        f"Requires-Python: {of_project('requires-python')}",
    ]
    return "\n".join(lines) + "\n"


def wheel_file():
    return f"Wheel-Version: 1.0\nGenerator: {NAME}\nRoot-Is-Purelib: false\nTag: {TAG}\n"


def record_of(files, name):
    """The list of all files with their sums; the list itself has none."""
    lines = []
    for path, content in files.items():
        total = base64.urlsafe_b64encode(hashlib.sha256(content).digest()).rstrip(b"=").decode()
        lines.append(f"{path},sha256={total},{len(content)}\n")
    return "".join(lines) + f"{name},,\n"


def content():
    """The files of the wheel, by their paths in it."""
    info = f"{NAME}-{version()}.dist-info"
    package = sorted(it for it in (HERE / NAME).iterdir() if it.suffix == ".py" or it.name == "py.typed")
    files = {f"{NAME}/{it.name}": it.read_bytes() for it in package}
    files[f"{NAME}/{LIBRARY}"] = library_bytes()
    files[f"{info}/METADATA"] = metadata().encode()
    files[f"{info}/WHEEL"] = wheel_file().encode()
    files[f"{info}/RECORD"] = record_of(files, f"{info}/RECORD").encode()
    return files


def build_wheel(wheel_directory, config_settings=None, metadata_directory=None):
    """Makes the wheel in the folder, and returns its name."""
    name = f"{NAME}-{version()}-{TAG}.whl"
    with zipfile.ZipFile(Path(wheel_directory, name), "w", zipfile.ZIP_DEFLATED) as wheel:
        for path, content_of in content().items():
            it = zipfile.ZipInfo(path, MOMENT)
            it.compress_type = zipfile.ZIP_DEFLATED
            it.external_attr = (stat.S_IFREG | (0o755 if path.endswith(".so") else 0o644)) << 16
            wheel.writestr(it, content_of)
    return name


def build_sdist(sdist_directory, config_settings=None):
    raise UnsupportedOperation("the library is made from the whole repository: there is no source package")


if __name__ == "__main__":
    if len(sys.argv) != 2:
        sys.exit("usage: make_wheel.py FOLDER")
    os.makedirs(sys.argv[1], exist_ok=True)
    print(build_wheel(sys.argv[1]))
