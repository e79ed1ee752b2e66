"""The bytes of edits of a text in pieces, as docs/EDITING.md has the rules, each made on the whole text.

`edited(question, text, edit)` is the new text, None where there is nothing to edit, or `Refused`. Nothing here is taken from
the library's code: the text is read anew for each edit, and whether a form or a place may be is asked of the reader.
"""
from typing import NamedTuple, Optional

from model import BLANKS, INLINE_WHITE, LINE_ENDS, MARKS, WHITE, Reader, Refused, escaped, is_column_one, is_plain_key
from model import is_plain_name, is_plain_separator, is_plain_unspaced_key, is_read_back, line_end_at, starts_line


class Edit(NamedTuple):
    """An edit: a call, the section, the key, another key or the new name, the value, and a number."""

    call: str
    name: Optional[str]
    key: str
    other: str
    value: str
    number: int


class Lines(Reader):
    """A reader that keeps where the line ends of a multiline value stand."""

    def __init__(self, text, option):
        super().__init__(text, option)
        self.line_ends = []

    def take_line_end(self):
        start = self.at
        taken = super().take_line_end()
        if taken:
            self.line_ends.append((start, self.at))
        return taken


class Page:
    """A text that was read."""

    def __init__(self, text, option):
        self.text, self.option = text, option
        self.reader = Lines(text, option)
        self.elements = self.reader.elements()

    def document(self):
        sections = [(None, [])]
        for element in self.elements:
            if element.kind == "header":
                sections.append((element.text, []))
            elif element.kind == "pair":
                sections[-1][1].append((element.text, element.value))
        return sections

    def dropped(self):
        """Where keys begin that the text's end cuts short: one, or none."""
        return [element.start for element in self.elements if element.kind == "dropped"]

    def bounds(self, name):
        """Which elements are those of the first section of a name, its header among them."""
        headers = [n for n, element in enumerate(self.elements) if element.kind == "header"]
        starts = [0] + headers
        names = [None] + [self.elements[n].text for n in headers]
        if name not in names:
            return None
        number = names.index(name)
        return starts[number], (headers + [len(self.elements)])[number], number

    def pairs(self, name, key=None):
        start, end, _ = self.bounds(name) or (0, 0, 0)
        pairs = [element for element in self.elements[start:end] if element.kind == "pair"]
        return [pair for pair in pairs if key is None or pair.text == key]

    def is_idle(self, line):
        """Whether a line after a value is blank, or an indented comment."""
        after = line.lstrip(BLANKS)
        return not after or (self.option.comments and after[0] in MARKS)

    def end_of(self, pair):
        """Where a pair ends: a key alone with the note after it."""
        notes = [element.end for element in self.elements if element.kind == "note" and element.start == pair.end]
        return notes[0] if notes and pair.is_alone else pair.end

    def note_after(self, pair):
        """A pair's note, and what stands between value and note: a space, where nothing does that a note may follow."""
        if pair.is_alone:
            note = self.text[pair.end : self.end_of(pair)]
            return " " + note if note else ""
        if pair.note is None:
            return ""
        return (self.text[pair.pad : pair.note[0]] or " ") + self.text[slice(*pair.note)]

    def line_end_of(self, pair):
        """Where the line end stands after the last line of a pair that isn't idle; None where the text ends before one."""
        text = self.text
        if not self.option.multiline or pair.is_alone:
            end = self.end_of(pair)
            found = line_end_at(text, end)
            return (end, end + len(found)) if found else None
        ends = [end for end in self.reader.line_ends if pair.lead <= end[0] and end[1] <= pair.end]
        last = None
        for number, end in enumerate(ends):
            start = ends[number - 1][1] if number else pair.start
            if number == 0 or not self.is_idle(text[start : end[0]]):
                last = end
        return last if ends and self.is_idle(text[ends[-1][1] : pair.end]) else None

    def would_take(self, place):
        """Whether a multiline value would take what stands at a place after a key alone."""
        return self.option.multiline and self.text[place : place + 1] in tuple(BLANKS + LINE_ENDS)

    def element_before(self, place):
        """The last element that ends at a place."""
        return next((element for element in self.elements if element.end == place and element.start < place), None)

    def comments_above(self, place):
        """Where the comment lines begin that stand directly above a place. One that is indented is none of them."""
        while (element := self.element_before(place)) and element.kind == "comment" and self.text[element.end - 1] == "\n":
            place = element.start
        return place

    def comments_below(self, place):
        """Where the comment lines end that stand directly below a place."""
        for element in self.elements:
            if element.kind == "comment" and element.start == place:
                place = element.end
        return place

    def blank_lines_below(self, place):
        """Where the blanks and line ends end that stand directly below a place."""
        while place < len(self.text) and self.text[place] in BLANKS + LINE_ENDS:
            place += 1
        return place

    def is_above_note(self, place):
        """Whether an indented comment follows the blank lines below a place: a multiline value would go on with it."""
        mark = self.blank_lines_below(place)
        notes = [element for element in self.elements if element.kind == "note" and element.start < mark < element.end]
        return any(self.text[note.start : mark].strip(BLANKS) == "" for note in notes)

    def indentation(self, place):
        """Where the blanks begin that indent a header at a place."""
        element = self.element_before(place)
        is_blank = element and element.kind == "gap" and not self.text[element.start : place].strip(BLANKS)
        return element.start if is_blank and starts_line(self.text[: element.start]) else place


def reads_as(text, option, document):
    try:
        return Page(text, option).document() == document
    except Refused:
        return False


# How things are written.


def reads_back(source, value, option):
    try:
        page = Page(f"k={source}\n", option)
    except Refused:
        return False
    first = page.elements[0]
    alone = page.text[first.lead : first.pad] == source
    return alone and page.document() == [(None, [("k", value)])]


def reads_back_before(note, source, value, option):
    """Whether the source is read as the value before a note too, with what stands before that, if there is one."""
    if not note:
        return True
    try:
        page = Page(f"k={source}{note}\n", option)
    except Refused:
        return False
    mark = len(f"k={source}{note}") - len(note.lstrip(INLINE_WHITE))
    return page.elements[0].note == (mark, len(page.text) - 1) and page.document() == [(None, [("k", value)])]


def form(quotes, value, policy, option, note=""):
    bare = escaped(policy, value)
    for quote in quotes + ["", '"', "'"]:
        source = quote + bare + quote
        if reads_back(source, value, option) and reads_back_before(note, source, value, option):
            return source
    raise Refused("Value")


def own_quotes(page, pair, value):
    """The mark of the quotes in which the pair's value stands, where the new value doesn't have it."""
    stands_in_quotes = pair.part is not None and pair.part == pair.pad
    return [page.text[pair.lead]] if stands_in_quotes and page.text[pair.lead] not in value else []


def line_end_of(page, writing):
    line_feed = page.text.find("\n")
    if line_feed < 0:
        return writing.line_end
    return "\r\n" if page.text[:line_feed].endswith("\r") else "\n"


def style_of(page, pair):
    source = page.text[pair.start : pair.key_end]
    indent = "" if page.option.indent else source[: len(source) - len(source.lstrip(BLANKS))]
    pad = source[len(source.rstrip(BLANKS)) :]
    after = page.text[pair.key_end + 1 : pair.lead]
    return indent, pad + page.text[pair.key_end] + after[: len(after) - len(after.lstrip(BLANKS))]


def style(page, writing, before):
    """What indents a new pair, and its separator: of the last of these pairs that begins a line and isn't alone, else of the
    text's, else as the options say."""
    everywhere = [element for element in page.elements if element.kind == "pair"]
    for pairs in (before, everywhere):
        begin = [pair for pair in pairs if not pair.is_alone and starts_line(page.text[: pair.start])]
        if begin:
            return style_of(page, begin[-1])
    return "", writing.separator


def checked(page, writing, key, value):
    if not is_plain_separator(writing.separator):
        raise Refused("Separator")
    source = form([], value, writing.policy, page.option)
    if not is_plain_key(key, writing.policy, page.option):
        raise Refused("Key")
    return source


def pair_text(page, writing, before, key, value, indented=True):
    source = checked(page, writing, key, value)
    indent, separator = style(page, writing, before)
    line = escaped(writing.policy, key) + separator + source + line_end_of(page, writing)
    return (indent if indented else "") + line


def with_line_end(line, line_end):
    return line.rstrip(LINE_ENDS) + line_end


def closing(page, place):
    lone = page.reader.ends_in_backslash and place == len(page.text)
    return ("\\" if page.option.escape else " ") * lone


# Edits.


def after_pair(page, writing, pair, before, key, value):
    line = pair_text(page, writing, before, key, value, not page.option.multiline)
    end = page.line_end_of(pair)
    if end:
        if pair.is_alone and page.would_take(end[1]):
            return page.text[: end[1]] + line + ";" + line_end_of(page, writing) + page.text[end[1] :]
        # a comment after CR goes up to its line's end, and one in column one through the next LF
        if (page.option.comments or page.option.notes) and page.text[slice(*end)] == "\r":
            line = with_line_end(line, "\r")
        return page.text[: end[1]] + line + page.text[end[1] :]
    place = page.end_of(pair)
    return page.text[:place] + closing(page, place) + line_end_of(page, writing) + line + page.text[place:]


def with_pair(page, number, at, key, value):
    document = page.document()
    document[number][1].insert(at, (key, value))
    return document


def first_of_section(page, writing, bounds, key, value):
    """The text with a pair in a section that has none."""
    text, (start, end, number) = page.text, bounds
    line = pair_text(page, writing, [], key, value)
    header = page.elements[start].end if number else 0
    gap_end = page.elements[end].start if end < len(page.elements) else len(text)
    line_ends = [place for place in range(header, gap_end) if text[place] in LINE_ENDS]
    below = line_ends[0] + len(line_end_at(text, line_ends[0])) if line_ends else gap_end
    if number:
        places = [page.comments_below(below), below]
    else:
        below = 0
        comments = page.comments_below(0)
        empty = line_end_at(text, comments)
        places = [comments + len(empty)] * (comments > 0 and empty in ("\n", "\r\n")) + [0]
    run = min(page.blank_lines_below(places[-1]), gap_end)
    wanted = with_pair(page, number, 0, key, value)
    dropped = page.dropped()
    for place in places + [run] * (not dropped or run <= dropped[0]):
        # a key that the text's end cuts short would go on with the new pair
        if page.option.multiline and (dropped and place == dropped[0] or page.is_above_note(place)):
            continue
        front = text[:place]
        last = page.element_before(place)
        is_ended = starts_line(front) and not (last and last.kind == "comment" and front[-1] != "\n")
        is_ended = is_ended and not (place == header and number)
        follows_note = front.endswith("\r") and text[place : place + 1] in tuple(MARKS)
        own = with_line_end(line, "\r") if follows_note else line
        new = front + ("" if is_ended else line_end_of(page, writing)) + own + text[place:]
        if reads_as(new, page.option, wanted) and len(Page(new, page.option).dropped()) == len(dropped):
            return new
    raise Refused("NoPlace")


def new_section(page, writing, name, line):
    """The text with a new section at its end, of a pair's line or of none."""
    if not is_plain_name(name, writing.policy, page.option):
        raise Refused("Name")
    text = page.text
    dropped = page.dropped()
    place = dropped[0] if dropped else len(text)
    if dropped and line and page.option.multiline:
        items = [n for n, element in enumerate(page.elements) if element.kind in ("header", "pair")]
        gap = page.elements[items[-1] + 1 :] if items else page.elements
        solid = [e.start for e in gap if e.kind == "comment" or (e.kind == "gap" and text[e.start:e.end].strip(BLANKS + LINE_ENDS))]
        if not solid:
            raise Refused("NoPlace")
        place = solid[-1]
    front, last, end = text[:place], page.element_before(place), line_end_of(page, writing)
    is_ended = front[-1:] == "\n"
    if last and last.kind == "header" or last and last.kind == "pair" and (last.is_open or not page.option.multiline):
        is_ended = False
    if front and not is_ended:
        front += closing(page, place) + end
    if front and not (front.endswith(("\n\n", "\n\r\n")) or front in ("\n", "\r\n")):
        front += end
    return front + "[" + escaped(writing.policy, name) + "]" + end + line + text[place:]


def add(page, writing, edit):
    checked(page, writing, edit.key, edit.value)
    bounds = page.bounds(edit.name)
    if bounds is None:
        line = pair_text(page, writing, [], edit.key, edit.value)
        return new_section(page, writing, edit.name, line)
    pairs = page.pairs(edit.name)
    if pairs:
        return after_pair(page, writing, pairs[-1], pairs, edit.key, edit.value)
    return first_of_section(page, writing, bounds, edit.key, edit.value)


def set_nth(page, writing, edit, number):
    form([], edit.value, writing.policy, page.option)
    pairs = page.pairs(edit.name, edit.key)
    if number >= len(pairs):
        return None
    pair = pairs[number]
    if pair.value == edit.value:
        return page.text
    note = page.note_after(pair)
    if pair.is_alone:
        return set_alone(page, pair, form([], edit.value, writing.policy, page.option, note), note)
    end = pair.note[1] if pair.note else pair.pad
    try:
        source = form(own_quotes(page, pair, edit.value), edit.value, writing.policy, page.option, note)
    except Refused:
        # nothing keeps a note from being read as the value, so it goes
        source = form(own_quotes(page, pair, edit.value), edit.value, writing.policy, page.option)
        note = page.text[pair.pad : pair.note[0]]
    return page.text[: pair.lead] + source + note + page.text[end:]


def in_column_one(front):
    return front if is_column_one(front) else front + "\n"


def set_alone(page, pair, source, note):
    """The text with a separator and a value after a key alone."""
    front = page.text[: pair.end] + closing(page, pair.end) + "=" + source + note
    own_end = page.end_of(pair)
    end = own_end + len(line_end_at(page.text, own_end))
    if not page.would_take(end):
        return front + page.text[own_end:]
    return in_column_one(front + page.text[own_end:end]) + ";\n" + page.text[end:]


def delete_nth(page, name, key, number):
    pairs = page.pairs(name, key)
    if number >= len(pairs):
        return None
    pair, text = pairs[number], page.text
    front, end = text[: pair.start], page.line_end_of(pair)
    if end is None:
        return front + text[page.end_of(pair) :]
    above = page.element_before(pair.start)
    if pair.is_alone and page.would_take(end[1]) and above and above.kind == "pair":
        return in_column_one(front) + ";\n" + text[end[1] :]
    follows_mark = text[end[1] : end[1] + 1] in tuple(MARKS)
    stays_alike = is_column_one(front) == is_column_one(text[: end[1]])
    if starts_line(front) and (stays_alike or not follows_mark):
        return front + text[end[1] :]
    # among the lines of a value, CR stays as the end of a blank line
    is_row = page.option.multiline and starts_line(front) and text[slice(*end)] == "\r"
    return front + (" " if is_row else "") + text[end[0] :]


def delete_from(page, name, key, kept):
    new = None
    while (after := delete_nth(page, name, key, kept)) is not None:
        new, page = after, Page(after, page.option)
    return new


def set_existing(page, writing, edit, keeps_later):
    new = set_nth(page, writing, edit, 0)
    if new is None or keeps_later:
        return new
    without = delete_from(Page(new, page.option), edit.name, edit.key, 1)
    return new if without is None else without


def insert_after(page, writing, edit):
    checked(page, writing, edit.other, edit.value)
    pairs, every = page.pairs(edit.name, edit.key), page.pairs(edit.name)
    if not pairs:
        return None
    before = every[: every.index(pairs[0]) + 1]
    return after_pair(page, writing, pairs[0], before, edit.other, edit.value)


def insert_before(page, writing, edit):
    checked(page, writing, edit.other, edit.value)
    pairs, every = page.pairs(edit.name, edit.key), page.pairs(edit.name)
    if not pairs:
        return None
    number = every.index(pairs[0])
    place = page.comments_above(pairs[0].start)
    # a pair that is indented, without a comment above it, would go on with the new one
    if page.option.multiline and place == pairs[0].start and page.text[place] in BLANKS:
        raise Refused("NoPlace")
    above = page.element_before(place)
    indented = not page.option.multiline or not (above and above.kind == "pair")
    line = pair_text(page, writing, every[:number], edit.other, edit.value, indented)
    front = page.text[:place]
    new = front + ("" if starts_line(front) else line_end_of(page, writing)) + line + page.text[place:]
    wanted = with_pair(page, page.bounds(edit.name)[2], number, edit.other, edit.value)
    if not reads_as(new, page.option, wanted):
        raise Refused("NoPlace")
    return new


def rename_key(page, writing, edit):
    option, policy, new = page.option, writing.policy, edit.other
    if not (is_plain_unspaced_key(new, policy, option) and is_read_back(new, policy, option)):
        raise Refused("Key")
    for pair in page.pairs(edit.name, edit.key)[:1]:
        source = page.text[pair.start : pair.key_end]
        # where keys end with their line, a line end stands after a backslash, and is the key's
        white = INLINE_WHITE if option.lone else WHITE
        own = (source if option.indent else source.lstrip(WHITE)).rstrip(white)
        start = pair.start + source.index(own)
        return page.text[:start] + escaped(policy, new) + page.text[start + len(own) :]
    return None


def delete_section(page, name):
    bounds, text = page.bounds(name), page.text
    if bounds is None:
        return None
    start, end, _ = bounds
    header = page.elements[start].start
    front = text[: page.indentation(header)]
    if end < len(page.elements):
        stays = page.comments_above(page.indentation(page.elements[end].start))
        rest = text[stays : page.elements[end].start]
        after = text[page.elements[end].start :]
    else:
        dropped = [element.start for element in page.elements[start:] if element.kind == "dropped"]
        stays = dropped[0] if dropped else len(text)
        rest, after = text[stays:], ""
    goes = starts_line(front) and (is_column_one(front) or rest[:1] not in tuple(MARKS))
    if not goes:
        section = text[header:stays]
        front += "\r\n" if section.endswith("\r\n") else section[-1] if section[-1] in LINE_ENDS else ""
    above = page.element_before(page.indentation(header))
    if page.option.multiline and goes and above and above.kind == "pair" and rest[:1] in tuple(BLANKS):
        rest = ""
    return front + rest + after


def rename_section(page, writing, edit):
    if not is_plain_name(edit.other, writing.policy, page.option):
        raise Refused("Name")
    bounds = page.bounds(edit.name)
    if bounds is None:
        return None
    header, text = page.elements[bounds[0]], page.text
    # blanks before a note stay
    end = header.end
    while page.option.brackets and text[header.end : header.end + 1] in tuple(MARKS) and text[end - 1] in BLANKS:
        end -= 1
    return text[: header.start] + "[" + escaped(writing.policy, edit.other) + "]" + text[end:]


def add_section(page, writing, edit):
    if not is_plain_name(edit.name, writing.policy, page.option):
        raise Refused("Name")
    if page.bounds(edit.name) is not None:
        return None
    return new_section(page, writing, edit.name, "")


def comment_of(page, edit):
    for pair in page.pairs(edit.name, edit.key)[:1]:
        return page.text[page.comments_above(pair.start) : pair.start]
    return None


def set_comment(page, writing, edit):
    comment, end = edit.value, line_end_of(page, writing)
    lines = comment.split("\n")
    if not all(line[:1] in tuple(MARKS) for line in (lines[:-1] if comment.endswith("\n") or not comment else lines)):
        raise Refused("Value")
    pairs = page.pairs(edit.name, edit.key)
    if not pairs:
        return None
    start = page.comments_above(pairs[0].start)
    front = page.text[:start]
    if comment and not is_column_one(front):
        front += end
    if comment and not comment.endswith("\n"):
        comment += end
    new = front + comment + page.text[pairs[0].start :]
    if not reads_as(new, page.option, page.document()):
        raise Refused("NoPlace")
    return new


def comment_out(page, edit):
    pairs = page.pairs(edit.name, edit.key)
    if not pairs:
        return None
    pair, text = pairs[0], page.text
    end = page.line_end_of(pair) or (page.end_of(pair),) * 2
    if not is_column_one(text[: pair.start]) or text[slice(*end)] == "\r":
        raise Refused("NoPlace")
    source = text[pair.start : end[0]]
    return text[: pair.start] + "; " + source.replace("\n", "\n; ") + text[end[0] :]


def edited(page, writing, edit):
    """The new text, or None where there is nothing to edit."""
    match edit.call:
        case "set" | "set_first":
            new = set_existing(page, writing, edit, edit.call == "set_first")
            return add(page, writing, edit) if new is None else new
        case "set_existing":
            return set_existing(page, writing, edit, False)
        case "set_nth":
            return set_nth(page, writing, edit, edit.number)
        case "add":
            return add(page, writing, edit)
        case "delete":
            return delete_nth(page, edit.name, edit.key, 0)
        case "delete_nth":
            return delete_nth(page, edit.name, edit.key, edit.number)
        case "delete_all":
            return delete_from(page, edit.name, edit.key, 0)
        case "insert_after":
            return insert_after(page, writing, edit)
        case "insert_before":
            return insert_before(page, writing, edit)
        case "rename_key":
            return rename_key(page, writing, edit)
        case "set_comment":
            return set_comment(page, writing, edit)
        case "comment_out":
            return comment_out(page, edit)
    if edit.name is None:
        return None
    match edit.call:
        case "add_section":
            return add_section(page, writing, edit)
        case "delete_section":
            return delete_section(page, edit.name)
        case "rename_section":
            return rename_section(page, writing, edit)


def answer(option, writing, text, edit):
    """The word that answers an edit."""
    page = Page(text, option)
    try:
        if edit.call == "comment_of":
            comment = comment_of(page, edit)
            return "none" if comment is None else f"is:{comment.encode().hex()}"
        new = edited(page, writing, edit)
    except Refused as refused:
        return f"refused:{refused}"
    return "none" if new is None else f"new:{new.encode().hex()}"


# The words that a call over a whole text is refused with before the text is read.
FIRST_FAULTS = {
    "set": ("Value",),
    "set_existing": ("Value",),
    "add": ("Separator", "Value", "Key"),
    "rename_key": ("Key",),
    "rename_section": ("Name",),
}


def whole_answer(question):
    """The line that answers an edit of a whole text."""
    call, renames = question.call, question.call.startswith("rename")
    if call in ("delete_section", "rename_section") and question.name is None:
        return "none"
    edit = Edit(call, question.name, question.key, question.value if renames else "", question.value, 0)
    try:
        Page(question.text, question.option)
    except Refused as refused:
        words = answer(question.option, question.writing, "", edit).removeprefix("refused:")
        return f"refused {words if words in FIRST_FAULTS.get(call, ()) else refused}"
    return answer(question.option, question.writing, question.text, edit).replace(":", " ", 1)
