"""The type hints of the Python package: each public function and method has one for each parameter and for
its result, each can be read, and what calls give is of its type. What hints name is imported only where types
are checked, so that importing the package is fast: here a copy of it is imported as the checker sees it."""
import inspect
import os
import shutil
import sys
import tempfile
import typing
from importlib.util import find_spec
from pathlib import Path

room = tempfile.TemporaryDirectory()
spec = find_spec("bigrosk_ini")
assert spec is not None and spec.origin is not None
package = Path(room.name, "bigrosk_ini")
shutil.copytree(Path(spec.origin).parent, package)
for it in package.glob("*.py"):
    it.write_text(it.read_text().replace("\nTYPE_CHECKING = False", "\nTYPE_CHECKING = True"))
sys.path.insert(0, room.name)

import bigrosk_ini  # noqa: E402
from bigrosk_ini import Broken, Document  # noqa: E402

assert str(bigrosk_ini.__file__).startswith(room.name)
assert os.path.exists(os.path.join(os.path.dirname(spec.origin), "py.typed"))


def public_functions():
    """Each function and method of what the package names, with its name."""
    for name in bigrosk_ini.__all__:
        it = getattr(bigrosk_ini, name)
        if inspect.isfunction(it):
            yield name, it
        elif inspect.isclass(it):
            for inner, function in vars(it).items():
                if inspect.isfunction(function):
                    yield f"{name}.{inner}", function


def hinted(name, function):
    hints = typing.get_type_hints(function)
    names = list(inspect.signature(function).parameters)
    wanted = {it for it in names if it != "self" or "." not in name} | {"return"}
    assert set(hints) == wanted, f"{name}: hints of {sorted(hints)}, in place of {sorted(wanted)}"
    return hints


def is_of(value, hint):
    """Whether the value is of the hint's type."""
    origin, parts = typing.get_origin(hint), typing.get_args(hint)
    if hint in (typing.Any, object) or isinstance(hint, typing.TypeVar):
        return True
    if origin is typing.Union:
        return any(is_of(value, it) for it in parts)
    if origin is tuple:
        return isinstance(value, tuple) and len(value) == len(parts) and all(map(is_of, value, parts))
    if origin is list:
        return isinstance(value, list) and all(is_of(it, parts[0]) for it in value)
    return isinstance(value, origin or hint)


def gives(function, *words):
    hint = typing.get_type_hints(function)["return"]
    value = function(*words)
    assert is_of(value, hint), f"{function.__name__} gives {value!r}, which is no {hint}"
    return value


functions = dict(public_functions())
for name, function in functions.items():
    hinted(name, function)
# so that the list isn't empty
assert {"Document.get", "Section.pairs", "ReadOption.__init__", "edit_set", "version"} <= set(functions)
document = Document("a=1\n[s]\nk=1\n")
section = document["s"]
for call in (Document.keys, Document.values, Document.items, Document.walk):
    gives(call, document)
for call in (Document.text, Document.__str__, Document.is_plain):
    gives(call, document)
gives(Document.get, document, "s", "k")
for call in (type(section).__len__, type(section).pairs):
    gives(call, section)
for call in (type(section).get_all, type(section).__getitem__, type(section).__contains__):
    gives(call, section, "k")
gives(bigrosk_ini.version)
error = Broken.__new__(Broken)
try:
    Document("=")
except Broken as broken:
    error = broken
assert (type(error.line), type(error.column), type(error.kind), type(error.message)) == (int, int, str, str)
print(f"{len(functions)} functions with hints")
