#!/usr/bin/env python3
"""Prints docs/API.md: the public calls of the libraries, from their sources.

    tools/pages/api.py > docs/API.md

Each public function, method and constant has a line: its signature, the names of what it ensures, and the first sentence
of its doc comment; each public field and variant has one too, and each `From`. A type or a function is public where its
crate's lib.rt hands it out by `pub use`, or where it stands in a module that is `pub mod`. It reads the layout that `rt fmt`
writes, and ends with status 1 and a line on standard error where it meets something that it does not know, such as a public
function without a doc comment, or a name that is handed out and found nowhere.
"""
import re
import sys
from pathlib import Path

TOP = Path(__file__).resolve().parents[2]
CRATES = ("ini", "ini_view", "ini_text", "ini_multimap", "ini_layers", "ini_dialect", "ini_edit", "ini_check")
FUNCTION = re.compile(r"(pub )?(?:const |unsafe )*fn (\w+)")
CONSTANT = re.compile(r"pub (const (\w+): [^=]+?) =")
# a conversion into a type, and another crate's name under one of the file's own
CONVERSION = re.compile(r"impl(?:<.*?>)? From<(\w+)> for ([\w:]+)(?:<.*>)? \{\}?")
RENAMED = re.compile(r"^use ([\w:]+) as (\w+);", re.M)
ITEM = re.compile(r"pub (struct|enum|trait|type|fn|const fn) (\w+)")
# what may follow a signature
AFTER = re.compile(r"\s*(requires|ensures|decreases|where|\{|;|$)")
HEAD = """# Public calls

Every public function, method, field, variant and constant of the libraries, with the first sentence of its comment, and the
names of the clauses that say what a call ensures. These stand below the signatures in the sources. `tools/pages/api.py` makes this page, and
`tests/pages.sh` compares it.
"""


class Unknown(Exception):
    """Something that this program does not know how to read."""


def sources(crate):
    """The crate's files without its tests, by their path below src/, each a list of lines."""
    folder = TOP / "crates" / crate / "src"
    found = {}
    for path in sorted(folder.rglob("*.rt")):
        short = path.relative_to(folder)
        if "tests" not in short.with_suffix("").parts:
            text = path.read_text(encoding="utf-8")
            for name, other in RENAMED.findall(text):
                text = re.sub(rf"\b{other}\b", name, text)
            found[str(short)] = text.split("\n")
    return found


def handed_out(lines):
    """What lib.rt hands out: the crate's own names, those of other crates by crate, and its public modules."""
    own, others = [], {}
    modules = {m[1] for m in (re.fullmatch(r"pub mod (\w+);", line) for line in lines) if m}
    text = re.sub(r"\s+", " ", "\n".join(line for line in lines if not line.lstrip().startswith("//")))
    for path, names in re.findall(r"\bpub use ([\w:]+)::(\{[^}]*\}|\w+);", text):
        names = [it.strip() for it in names.strip("{}").split(",") if it.strip()]
        if not all(re.fullmatch(r"\w+", it) for it in names):
            raise Unknown(f"lib.rt: pub use {path}::{names}")
        known = re.search(rf"^(pub\(crate\) |pub )?mod {path.split('::')[0]};", "\n".join(lines), re.M)
        (own if known else others.setdefault(path, [])).extend(names)
    if text.count("pub use ") != len(re.findall(r"\bpub use ([\w:]+)::(\{[^}]*\}|\w+);", text)):
        raise Unknown("lib.rt: a pub use in another form")
    return own, others, modules


def sentence(lines, at, where):
    """The first sentence of the doc comment above the line `at`."""
    at -= 1
    while lines[at].lstrip().startswith(("#[", "//")) and not lines[at].lstrip().startswith("///"):
        at -= 1
    comment = []
    while lines[at].lstrip().startswith("///"):
        comment.insert(0, lines[at].lstrip()[3:].strip())
        at -= 1
    text = " ".join(comment[: comment.index("")] if "" in comment else comment)
    found = re.match(r"(.*?[.!?])(?:\s|$)", text)
    if not found:
        raise Unknown(f"{where}: no doc comment that begins with a sentence")
    return found[1]


def signature(lines, at, where):
    """The signature that begins on the line `at`, on one line."""
    text, end = "", at
    while True:
        text += " " + lines[end].strip()
        if text.count("(") == text.count(")") and "(" in text:
            break
        end += 1
        if end == len(lines) or end > at + 20:
            raise Unknown(f"{where}: a signature without an end")
    body = re.search(r"\s*(\{\}?|;)$", text)
    if not body and not AFTER.match(lines[end + 1]):
        raise Unknown(f"{where}: a signature that goes on: {lines[end + 1].strip()}")
    text = text[: body.start()] if body else text
    text = re.sub(r"\(\s+", "(", re.sub(r",?\s+\)", ")", text.strip()))
    return text.removeprefix("pub ")


def ensured(lines, at):
    """The names of the clauses of what the function on the line `at` ensures."""
    found = []
    for line in lines[at + 1 :]:
        if line.strip() in ("", "{") or line.strip().startswith(("}", "///", "fn ", "pub ")):
            break
        clause = re.match(r"\s*ensures\*? (\w+) \{", line)
        found += [clause[1]] if clause else []
    return f" ({', '.join(found)})" if found else ""


def owner(line):
    """The type of an `impl` line, and its trait, if it has one."""
    found = re.fullmatch(r"impl\b(.*)\{\}?", line)
    if not found:
        return None, None
    rest, depth = found[1].strip(), 0
    if rest.startswith("<"):
        for i, c in enumerate(rest):
            depth += (c == "<") - (c == ">" and rest[i - 1] != "-")
            if depth == 0:
                rest = rest[i + 1 :].strip()
                break
    first, of, kind = rest.partition(" for ")
    name = re.match(r"(?:&(?:'\w+ )?(?:mut )?)?\[?(\w+)", kind if of else first)
    trait = re.search(r"(\w+)(<.*>)?$", first) if of else None
    return name and name[1], trait and (trait[0] if trait[1] == "From" else trait[1])


def parts(lines, at, kind):
    """The public fields of a struct, or the variants of an enum, that begins on the line `at`, each with its first sentence."""
    found = []
    if lines[at].endswith("{"):
        pattern = r"    pub (\w+: .*?),?$" if kind == "struct" else r"    (\w+(?:\(.*\)| \{.*\})?),?$"
        for number in range(at + 1, lines.index("}", at)):
            part = re.match(pattern, lines[number])
            if part:
                above = next(it for it in lines[number - 1 :: -1] if not it.lstrip().startswith("#["))
                says = sentence(lines, number, f"line {number + 1}") if above.lstrip().startswith("///") else ""
                found.append((re.sub(r"#\[\w+\] ", "", part[1]), "", says))
    return found


def derived(lines, at):
    """The traits that the attributes above the line `at` derive."""
    found = []
    while lines[at - 1].startswith(("#[", "//")):
        at -= 1
        found += re.findall(r"\w+", lines[at].split("derive(")[1]) if lines[at].startswith("#[derive(") else []
    return found


def calls(crate):
    """The public calls of the crate: by type or module, signatures and sentences. Also what is said of each type, the traits of
    each, the names of other crates that it hands out, and what of its own it turns into types of others."""
    found = sources(crate)
    own, others, modules = handed_out(found["lib.rt"])
    given, heads, traits, seen, turned = {}, {}, {}, set(), []
    for file, lines in found.items():
        module = file.removesuffix(".rt").split("/")[0]
        inside = None
        in_trait = False
        for at, line in enumerate(lines):
            where = f"crates/{crate}/src/{file}:{at + 1}"
            if line.startswith(("impl", "unsafe impl")):
                inside, trait = owner(line)
                into = CONVERSION.fullmatch(line)
                if into and into[1] in own and into[2] not in own:
                    turned.append(f"`From<{into[1]}>` for `{into[2]}`")
                # (a model is what contracts see of a type, and no call)
                if trait and trait != "Model":
                    traits.setdefault(inside, []).append(trait)
                in_trait = False
                if inside is None:
                    raise Unknown(f"{where}: {line}")
                if line.endswith("}"):
                    inside = None
            elif line.startswith("}"):
                inside, in_trait = None, False
            item = ITEM.match(line)
            if line.startswith("pub ") and not item and not re.match(r"pub (use|mod|const|static|ghost)\b", line):
                raise Unknown(f"{where}: {line}")
            if item and item[1] in ("struct", "enum", "trait", "type") and (item[2] in own or module in modules):
                seen.add(item[2])
                name = item[2] if item[2] in own else f"{file.removesuffix('.rt').replace('/', '::')}::{item[2]}"
                heads[name] = f"{item[1]}: {sentence(lines, at, where)}"
                given.setdefault(name, [])[:0] = parts(lines, at, item[1])
                traits.setdefault(name, []).extend(derived(lines, at))
                if item[1] == "trait" and line.endswith("{"):
                    inside, in_trait = name, True
            elif item and "fn" in item[1] and (item[2] in own or module in modules):
                seen.add(item[2])
                name = file.removesuffix(".rt").replace("/", "::") if module in modules else ""
                call = signature(lines, at, where), ensured(lines, at), sentence(lines, at, where)
                given.setdefault(name, []).append(call)
            constant = CONSTANT.match(line)
            if constant and constant[2] in own:
                seen.add(constant[2])
                given.setdefault("", []).append((constant[1], "", sentence(lines, at, where)))
            method = FUNCTION.match(line.strip())
            if line.startswith("    ") and not line.startswith("     ") and method:
                if (method[1] and inside in own) or (in_trait and inside in own):
                    call = signature(lines, at, where), ensured(lines, at), sentence(lines, at, where)
                    given.setdefault(inside, []).append(call)
                elif method[1] and inside is None:
                    raise Unknown(f"{where}: a public function that stands in no type: {line.strip()}")
            elif line.startswith("    pub ") and inside and not re.match(r"    pub (const \w+:|ghost )", line):
                raise Unknown(f"{where}: {line.strip()}")
            elif method and method[1] and line.startswith("     "):
                raise Unknown(f"{where}: a public function deeper than in a type: {line.strip()}")
    lost = [it for it in own if it not in seen]
    if lost:
        raise Unknown(f"crates/{crate}/src/lib.rt hands out {', '.join(lost)}, found nowhere")
    return given, heads, traits, others, turned


def page():
    """The whole page."""
    text = HEAD
    for crate in CRATES:
        given, heads, traits, others, turned = calls(crate)
        text += f"\n## `{crate}`\n"
        for other, names in others.items():
            text += f"\nOf `{other}` it hands out {', '.join(f'`{it}`' for it in names)}.\n"
        text += f"\nIt has {', '.join(turned)}.\n" * bool(turned)
        for name in sorted(given, key=lambda it: (it != "", "laws" in it, it)):
            title = f"`{name}`" if name else "Functions"
            text += f"\n### {title}\n\n"
            if name in heads:
                kind, _, says = heads[name].partition(": ")
                text += f"{'An' if kind == 'enum' else 'A'} {kind}. {says}"
                text += f" Traits: {', '.join(sorted(set(traits[name])))}." if traits[name] else ""
                text += "\n" + "\n" * bool(given[name])
            for call, clauses, says in given[name]:
                text += f"- `{call}`{clauses}{': ' * bool(says)}{says}\n"
    return text


def main():
    try:
        print(page(), end="")
    except (Unknown, OSError, KeyError) as error:
        print(f"api.py: {error}", file=sys.stderr)
        return 1
    return 0


if __name__ == "__main__":
    sys.exit(main())
