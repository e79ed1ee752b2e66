"""Compares the C header, the Python module and the sources of the C library: the numbers of statuses, kinds and policies, the
separators, the options with their defaults, the layout of each struct, and the parameters of each call. The page of the manual
has each function of the header as it stands there, in lines of at most 80 columns.

    borders.py HEADER

A program that CC compiles over the header prints the header's numbers. The module loads the shared library that
BIGROSK_INI_LIBRARY names. Each difference is printed; the last line is 'N compared, M differ', and the status is 1 if one does.
"""
import ctypes
import enum
import os
import re
import subprocess
import sys
import tempfile
from pathlib import Path

import bigrosk_ini
import bigrosk_ini._calls as calls_of_module

TOP = Path(__file__).resolve().parents[2]
HEADER = Path(sys.argv[1])
SOURCES = "".join(it.read_text() for it in sorted((TOP / "crates/ini_c/src").rglob("*.rt")))
# the structs of both sides, and the fields that have two names
STRUCTS = {"ReadChoice": "read_option", "Reading": "reading", "LookupChoice": "lookup", "WriteChoice": "write_option", "Fault": "fault", "Sizes": "sizes", "Document": "document", "Text": "text", "Place": "place"}
RENAMED = {"handle": "inner"}
DEFAULTS = {"read_option": "BIGROSK_INI_READ_DEFAULT", "reading": "BIGROSK_INI_READING_DEFAULT", "lookup": "BIGROSK_INI_LOOKUP_DEFAULT", "write_option": "BIGROSK_INI_WRITE_DEFAULT"}
compared, different = 0, []


def same(what, one, other):
    global compared
    compared += 1
    if one != other:
        different.append(what)
        print(f"{what}: {one!r}, and {other!r}")


def some(found, what):
    """What was found, which isn't nothing: else the script reads none of it any more."""
    assert found, f"found no {what}"
    return found


# ---- the header ----

CODE = re.sub(r"/\*.*?\*/", "", HEADER.read_text(), flags=re.S)
ENUMS = {
    name: re.findall(r"BIGROSK_INI_(\w+) =", body)
    for name, body in re.findall(r"enum bigrosk_ini_(\w+) \{(.*?)\};", CODE, re.S)
}
FIELDS = {
    name: re.findall(r"\w+ \**(\w+)(?:\[\d+\])?;", body)
    for name, body in re.findall(r"struct bigrosk_ini_(\w+) \{(.*?)\};", CODE, re.S)
}


def printed_by_c():
    """The header's numbers, as C reads them: by what they are of."""
    lines = [f'show("{name} {it}", BIGROSK_INI_{it});' for name, all_of in ENUMS.items() for it in all_of]
    for name, fields in FIELDS.items():
        struct = f"struct bigrosk_ini_{name}"
        lines.append(f'show("size {name}", sizeof({struct}));')
        for it in fields:
            lines.append(f'show("offset {name} {it}", offsetof({struct}, {it}));')
            lines.append(f'show("size {name} {it}", sizeof((({struct} *)0)->{it}));')
    for name, default in DEFAULTS.items():
        lines.append(f"struct bigrosk_ini_{name} {name} = {default};")
        lines += [f'show("default {name} {it}", {name}.{it});' for it in FIELDS[name]]
    head = '#include <stdio.h>\n#include "%s"\nstatic void show(const char *s, size_t n) { printf("%%s=%%zu\\n", s, n); }\n'
    with tempfile.TemporaryDirectory() as room:
        Path(room, "it.c").write_text(head % HEADER.resolve() + "int main(void)\n{\n" + "\n".join(lines) + "\nreturn 0;\n}\n")
        subprocess.run([os.environ.get("CC", "cc"), "-o", f"{room}/it", f"{room}/it.c"], check=True)
        said = subprocess.run([f"{room}/it"], check=True, stdout=subprocess.PIPE, text=True).stdout
    return {name: int(number) for name, number in (line.split("=") for line in said.splitlines())}


C = printed_by_c()


def numbers(name):
    return {it: C[f"{name} {it}"] for it in some(ENUMS[name], name)}


def layout(name):
    return [(it, C[f"offset {name} {it}"], C[f"size {name} {it}"]) for it in FIELDS[name]] + [C[f"size {name}"]]


# ---- the sources ----


def spelled(name):
    """EndOfText as END_OF_TEXT."""
    return re.sub(r"(?<=[a-z])(?=[A-Z0-9])", "_", name).upper()


def cases(pattern, last):
    """The arms of a match by a number, of which `_` stands for the last one."""
    return {name: last if number == "_" else int(number) for number, name in some(re.findall(pattern, SOURCES), pattern)}


def source_fields(name):
    body = re.search(r"#\[repr\(C\)\]\s*(?:#\[.*?\]\s*)*pub struct " + name + r"(?:<.*?>)? \{(.*?)\n\}", SOURCES, re.S)[1]
    body = re.sub(r"//.*", "", body)
    return re.findall(r"^\s*(?:pub(?:\(crate\))? )?(\w+): ([^{\n]+),$", body, re.M)


def size_and_alignment(of):
    plain = {"bool": 1, "u8": 1, "u32": 4, "usize": 8, "*mut u8": 8}
    if of in plain:
        return plain[of], plain[of]
    if of == "Global":
        return 0, 1
    if array := re.fullmatch(r"\[u8; (\d+)\]", of):
        return int(array[1]), 1
    *_, size = source_layout(of)
    return size, max(size_and_alignment(it)[1] for _, it in source_fields(of))


def source_layout(name):
    end, alignment, fields = 0, 1, []
    for it, of in some(source_fields(name), name):
        size, aligned = size_and_alignment(of)
        end += -end % aligned
        fields.append((RENAMED.get(it, it), end, size))
        end, alignment = end + size, max(alignment, aligned)
    return fields + [end + -end % alignment]


def source_parameters(text):
    """What C passes for the parameters of an export."""
    plain = {
        "Global": [], "bool": ["bool"], "u32": ["uint32_t"], "usize": ["size_t"], "&mut usize": ["size_t *"],
        "&[u8]": ["const uint8_t *", "size_t"], "&mut [u8]": ["uint8_t *", "size_t"], "&mut [usize]": ["size_t *", "size_t"],
        "&[usize]": ["const size_t *", "size_t"],
        "&mut &'a [u8]": ["struct bigrosk_ini_borrowed *"],
    }
    for name, header in STRUCTS.items():
        plain[f"&{name}"] = [f"const struct bigrosk_ini_{header} *"]
        plain[f"&mut {name}"] = plain[f"&'a mut {name}"] = [f"struct bigrosk_ini_{header} *"]
    return [word for it in re.findall(r"\w+: ([^,]+?)(?:,|$)", text) for word in plain[it.strip()]]


# ---- the module ----


def module_numbers():
    """Each number that the module names, without the underscore of a private name."""
    named = {name.lstrip("_"): it for name, it in vars(calls_of_module).items() if type(it) is int}
    for it in vars(calls_of_module).values():
        if isinstance(it, type) and issubclass(it, enum.Enum):
            named.update((spelled(name), member.value) for name, member in it.__members__.items())
    return named


def module_struct(fields):
    structs = [it for it in vars(calls_of_module).values() if isinstance(it, type) and issubclass(it, ctypes.Structure)]
    return next((it for it in structs if {name for name, *_ in module_layout(it)[:-1]} == set(fields)), None)


def module_layout(struct):
    """The fields, without the underscore of one that holds the number of a word."""
    fields = [(it, getattr(struct, it)) for it, _ in getattr(struct, "_fields_", ())]
    return [(it.lstrip("_"), field.offset, field.size) for it, field in fields] + [ctypes.sizeof(struct)]


def passed_as(of):
    return {ctypes.c_size_t: "size_t", ctypes.c_bool: "bool", ctypes.c_uint32: "uint32_t"}.get(of, "pointer")


# ---- what is compared ----


def compare_numbers():
    for name, number in numbers("status").items():
        same(f"status {name}", number, module_numbers().get(name))
    same("statuses", numbers("status"), {it: int(n) for it, n in re.findall(r"pub const (\w+): u32 = (\d+);", SOURCES)})
    kinds = numbers("kind")
    said = some(re.findall(r"ParseKind::(\w+) => (\d+),", SOURCES), "kinds")
    same("kinds", kinds, {spelled(it): int(n) for it, n in said})
    policies = numbers("policy")
    same("policies", policies, {spelled(it): n for it, n in cases(r"(\d+|_) => EscapePolicy::(\w+),", 7).items()})
    lone = numbers("lone_lines")
    same("lone lines", list(lone.values()), [int(n) for n in re.findall(r"(\d+) => Some\(LoneLine::\w+\),", SOURCES)])
    words = [it.replace("_", " ").lower() for it in lone]
    same("lone lines of the module", words, ["lone lines " + it for it in calls_of_module.LONE_LINES])
    said = {word: re.search(rf"(\d+) => Some\({word}\),", SOURCES)[1] for word in ("true", "false")}
    for name in ("indented_comments", "inline_comments"):
        comments = re.search(rf"uint8_t {name}; +/\* (.*?) \*/", HEADER.read_text())[1]
        same(name, re.findall(r"\d", comments), [said["true"], said["false"]])
    lists = re.findall(r"(\d+) => SettingValue::(List),", SOURCES)
    rules = ("section", calls_of_module.SECTION_RULES, []), ("value", calls_of_module.VALUE_RULES, lists)
    for rule, words, more in rules:
        there = numbers(f"{rule}_rule")
        said = re.findall(rf"(\d+)(?: \| \d+)? => Some\({rule.title()}Rule::(\w+)\),", SOURCES) + more
        same(f"rules of {rule}s", there, {f"{rule}s_{it}".upper(): int(n) for n, it in said})
        same(f"rules of {rule}s of the module", list(there), [f"{rule}s_{it}".upper() for it in words])
    said = {word: n for n, word in re.findall(r"(\d+) => Some\(CaseRule::(\w+)\),", SOURCES)}
    ignore_case = re.search(r"uint8_t ignore_case; +/\* (.*?) \*/", HEADER.read_text())[1]
    same("ignore_case", re.findall(r"\d", ignore_case), [said["Ignored"], said["Kept"]])
    separators = re.search(r"uint32_t separator; /\* (.*?) \*/", HEADER.read_text())[1]
    said = {text: 3 if n == "any other number" else int(n) for n, text in re.findall(r'(\d+|any other number) (".*?")', separators)}
    same("separators", said, cases(r'(\d+|_) => (".*?"),', 3))
    for name, number in kinds.items():
        same(f"kind {name}", name.replace("_", " ").lower(), str(bigrosk_ini.KINDS[number]).lower())
    same("kinds of the module", max(kinds.values()) + 1, len(bigrosk_ini.KINDS))
    for name, number in {**kinds, **policies}.items():
        same(f"number {name} of the module", number, module_numbers().get(name, number))


def compare_structs():
    for source, name in STRUCTS.items():
        same(f"struct {name} in C and in {source}", layout(name), source_layout(source))
        struct = some(module_struct(FIELDS[name]), f"struct {name} in the module")
        same(f"struct {name} in C and in the module", layout(name), module_layout(struct))
        if name in DEFAULTS:
            for it in FIELDS[name]:
                had = getattr(struct(), f"_{it}", None)
                same(f"default of {name} {it}", C[f"default {name} {it}"], int(getattr(struct(), it) if had is None else had))
    # a slice that is lent is a pointer and a length
    same("struct borrowed", [size for *_, size in layout("borrowed")[:-1]], [8, 8])


def compare_calls():
    export = r"#\[unsafe\(no_mangle\)\]\s*pub extern \"C\" fn (\w+)(?:<.*?>)?\((.*?)\)(?: -> (\w+))?\s"
    exports = {name: (words, result) for name, words, result in some(re.findall(export, SOURCES, re.S), "exports")}
    prototype = r"^(\w+) (bigrosk_ini_\w+)\(([^;{]*?)\);"
    prototypes = {name: (words, result) for result, name, words in some(re.findall(prototype, CODE, re.M | re.S), "prototypes")}
    same("calls", sorted(exports), sorted(prototypes))
    library = next(it for it in vars(calls_of_module).values() if isinstance(it, ctypes.CDLL))
    for name, (words, result) in prototypes.items():
        words = [re.sub(r"\w+$", "", it.strip()).strip() for it in words.split(",")] if words != "void" else []
        same(f"parameters of {name}", words, source_parameters(exports[name][0]))
        same(f"result of {name}", result, {"": "void", "u32": "uint32_t", "bool": "bool"}[exports[name][1]])
        given = getattr(library, name).argtypes
        if given is not None:
            words = ["pointer" if it.endswith("*") else it for it in words]
            same(f"parameters of {name} in the module", words, [passed_as(it) for it in given])


def functions_in(text):
    """Each function that the text declares or defines, by its name, as one line."""
    found = re.findall(r"^((?:const )?\w+(?: \w+)? \**)(bigrosk_ini_\w+)\(([^;{]*?)\)\s*[;{]", text, re.M | re.S)
    return {name: f"{result}{name}({' '.join(words.split())})" for result, name, words in some(found, "functions")}


def compare_page():
    page = (TOP / "share/man/bigrosk_ini.3").read_text()
    wanted, had = functions_in(CODE.replace("static inline ", "")), functions_in(page)
    same("functions of the page", sorted(wanted), sorted(had))
    for name, line in wanted.items():
        same(f"{name} in the page", line, had.get(name))
    same("lines of the page past column 80", [], [line for line in page.splitlines() if len(line) > 80])
    # in the synopsis, which is shown as it stands, after seven blanks
    synopsis = page[page.index(".nf\n") + 4 : page.index("\n.fi\n")]
    same("lines of the synopsis past column 80", [], [line for line in synopsis.splitlines() if len(line) > 73])


compare_numbers()
compare_structs()
compare_calls()
compare_page()
print(f"{compared} compared, {len(different)} differ")
sys.exit(bool(different))
