#!/usr/bin/env python3
"""Makes the tables of docs/CONTRACTS.md: the words of contracts, each with the comment that stands above it in specs/.

    tools/pages/contracts.py > NEW && mv NEW docs/CONTRACTS.md

Prints the page with each table anew that stands between `<!-- made: NAME -->` and `<!-- end -->`; the rest stays.
"""
import re
import sys
from pathlib import Path

TOP = Path(__file__).resolve().parents[2]
PAGE = TOP / "docs/CONTRACTS.md"

# Each table: its modules, as crate and file below specs/, and the words of each.
TABLES = {
    "documents": {
        "ini Texts": "Text str_text text_of str_name name_of is_text is_name",
        "ini Documents": "Document first_section sections_named value_in names HasGeneral section_removed all_sections_removed",
        "ini Properties": "Pairs texts_of first_value values distinct inserted removed all_removed",
    },
    "edits": {
        "ini Edits": "set_in add_in delete_in delete_in_all replace_in section_set section_put section_renamed rename_key_in",
        "ini EditLaws": "apart_from values_in KeepsGeneral KeepsOtherNames",
    },
    "loading": {
        "ini Loading": "IsDocumentOf IsStopOf IfParse IsParseOrMemory IsReadRefusal IsNotUtf8 ReadsDocument",
        "ini_text Parsing.ByteOrderMarks": "unmarked text_bytes",
        "ini_text Options.ReadOptions": "default_parse_option without_escapes",
    },
    "outcomes": {
        "ini Outcomes": "HasOutcome after",
        "ini Plain": "IsPlain",
        "ini_text Laws.Plain": "IsPlainName IsPlainPair IsPlainValue IsPlainSeparator",
    },
    "writing": {
        "ini Written": "written",
        "ini_text Options.WriteOptions": "IsDefaultWriteOption",
        "ini DefaultOptions": "default_write_option",
        "ini WrittenTo": "IsWrittenTo IsFrontWrittenTo",
        "ini_text Device.Watched": "WritesBytes WritesAll WritesFront IsClear device_now SameDevice failure_count stall_count",
    },
    "texts": {
        "ini_edit Sources": "Pieces text_in document_in",
        "ini_edit SourceReads": "AreRead",
        "ini_edit WholeTexts": "IsReadInPieces IsEditedText LoadsEdited IsSetText IsSetThereText IsAddedText IsDeletedText IsKeyRenamedText"
        " IsSectionDeletedText IsNameRenamedText RefusesToSetOf RefusesToAddTo RefusesOfText RefusesText IsMadeText MakesText",
        "ini_edit FirstPairs": "LacksPair LacksSection IsFirstPair",
        "ini_edit SourceWritten": "HasForm IsWritableNew",
        "ini_edit Renamed": "IsPlainBareKey",
        "ini_edit Edited": "IfEditParse IsEditParseOrMemory IsValueOrRefusal",
        "ini_edit Editings": "Editing editing_of",
        "ini_edit Made": "all_made_in",
        "ini_edit Exchanges": "EditsChangePlaces",
        "ini_edit KeptPlaces": "ColumnsStay",
    },
    "rules": {
        "ini_edit LaidOut": "IsLaidOut SaysTheSame LosesBy",
        "ini_dialect Lookups": "value_under set_under add_under delete_under",
        "ini_dialect SourceLookups": "IsPutUnder",
        "ini_dialect RuledTexts": "IsSetTextUnder IsDeletedTextUnder",
        "ini_dialect Encodings": "encoded IsDecoded IsMalformedAt IsUnencodableAt",
        "ini_layers Differences": "difference",
        "ini_layers Comments": "commented",
        "ini_layers Applying": "HasChangedBy LeadsToBy",
        "ini_layers Merging": "IsMergedBy conflicts_of",
    },
    "setters": {
        "ini Entries": "entry_now occupied vacant InSameDocument",
        "ini Setter": "setter_now setter_name EditsSameDocument",
        "ini_layers Layers": "layered_value IsOrigin",
    },
}


def comment_above(lines, at):
    """The comment that is nearest above a line."""
    while at > 0 and not lines[at - 1].lstrip().startswith("-- "):
        at -= 1
    end = at
    while at > 0 and lines[at - 1].lstrip().startswith("-- "):
        at -= 1
    return " ".join(line.strip()[3:] for line in lines[at:end])


def arguments(word, lines):
    """What stands between a word and its definition: of an equation, or the names that a record binds."""
    if re.search(r"\brecord\b", lines[0]):
        bound = " ".join(lines[:4]).split(": Type 0")[0]
        return " ".join(names.strip() for names in re.findall(r"\(([^():]*):", bound))
    equations = (re.match(rf"\s*{word}\b([^:=]*)=", line) for line in lines)
    equation = next((found for found in equations if found), None)
    given = equation[1].strip() if equation else ""
    return given if re.fullmatch(r"[a-z\w ]*", given) and not re.search(r"\b[A-Z]\w|_\b", given) else ""


def found(crate, module, word):
    """The word with its arguments, and the comment that is nearest above."""
    name = f"crates/{crate}/specs/{module.replace('.', '/')}.antt"
    lines = (TOP / name).read_text(encoding="utf-8").splitlines()
    head = re.compile(rf"\s*(?:\w+ )*pub (?:(?:record|data) )?{word}\b")
    at = next((number for number, line in enumerate(lines) if head.match(line)), None)
    if at is None:
        sys.exit(f"contracts.py: {name} has no {word}")
    comment = comment_above(lines, at)
    return f"{word} {arguments(word, lines[at:])}".strip(), comment


def table(name):
    """The table's rows, each module's name above its words; words of one comment share a row."""
    rows = ["| Word | Meaning |", "|---|---|"]
    for module, words in TABLES[name].items():
        crate, file = module.split()
        rows.append(f"| **`Rattle.{crate}.specs.{file}`** | |")
        last = None
        for word in words.split():
            shown, comment = found(crate, file, word)
            if comment == last:
                rows[-1] = rows[-1].replace(f" | {comment} |", f", `{shown}` | {comment} |")
            else:
                rows.append(f"| `{shown}` | {comment} |")
            last = comment
    return "\n".join(rows)


def main():
    page = PAGE.read_text(encoding="utf-8")
    lost = set(TABLES) - set(re.findall(r"<!-- made: (\w+) -->", page))
    if lost:
        sys.exit(f"contracts.py: docs/CONTRACTS.md has no place for {', '.join(sorted(lost))}")
    made = re.sub(
        r"(<!-- made: (\w+) -->\n).*?(<!-- end -->)",
        lambda part: part[1] + table(part[2]) + "\n" + part[3],
        page,
        flags=re.S,
    )
    print(made, end="")


main()
