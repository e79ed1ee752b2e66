"""How a text is read, and which words are plain, as docs/GRAMMAR.md has it, for the models of edits.

Nothing here is taken from the library's code. Positions are those of characters, from 0.
"""
from dataclasses import dataclass
from typing import NamedTuple, Optional

BLANKS, LINE_ENDS, MARKS = " \t", "\n\r", ";#"
WHITE = "\t\n\x0b\x0c\r \x85\xa0\u1680" + "".join(map(chr, range(0x2000, 0x200B))) + "\u2028\u2029\u202f\u205f\u3000"
INLINE_WHITE = WHITE.replace("\n", "").replace("\r", "")
UNDONE = {"0": "\0", "a": "\a", "b": "\b", "t": "\t", "r": "\r", "n": "\n"}
WRITTEN = {"\0": "0", "\a": "a", "\b": "b", "\t": "t", "\n": "n", "\v": "v", "\f": "f", "\r": "r"}
POLICIES = ["Nothing", "Basics", "BasicsUnicode", "BasicsUnicodeExtended"]
POLICIES += ["Reserved", "ReservedUnicode", "ReservedUnicodeExtended", "Everything"]


class Option(NamedTuple):
    """How a text is read."""

    escape: bool
    quote: bool
    multiline: bool
    indent: bool
    brackets: bool
    raw: bool = False
    lone: int = 0  # of a line without separator: 0 its key runs on, 1 the text is refused, 2 the key has the empty value
    comments: bool = False  # where a line starts, blanks and a comment mark begin a comment
    notes: bool = False  # after a blank in a value, or at an item's place, a comment mark begins a note

    def flags(self):
        """A digit for each, as questions have them; the last four only as far as they aren't 0."""
        digits = "".join(str(int(flag)) for flag in self)
        return digits[:5] + digits[5:].rstrip("0")

    def has_special_backslash(self):
        """Whether a backslash takes the character after it along."""
        return self.escape or not self.raw


class Writing(NamedTuple):
    """How what is new is written."""

    policy: str
    line_end: str
    separator: str


class Question(NamedTuple):
    """An edit. The general section has no name. The value is the new key or name, where the call gives one."""

    call: str
    option: Option
    writing: Writing
    name: Optional[str]
    key: str
    value: str
    text: str


class Refused(Exception):
    """Why there is no new text."""


class Stop(Exception):
    """Reading stops: the character that was looked at is the last of the first `front`."""

    def __init__(self, kind, front):
        self.kind, self.front = kind, front


@dataclass
class Element:
    """A gap, a comment, a note, a header, a pair or a dropped tail, from `start` to `end`. A header's `text` is its name, a
    pair's its key. A note is an indented comment, or one outside column one: its line end is a gap.

    A pair's key ends at `key_end`, its own value stands from `lead` to `pad`, and `part` is where its first quoted
    part ends, if it begins with one. The line in which the value ends has its note at `note`, if it has one.
    A pair that no separator follows is alone, and ends with its key. A header or a pair is open where it takes no line
    end after its last line: a pair with a separator does with multiline values, but at the text's end.
    """

    kind: str
    start: int
    end: int = 0
    text: str = ""
    key_end: int = 0
    lead: int = 0
    pad: int = 0
    value: str = ""
    note: Optional[tuple[int, int]] = None
    part: Optional[int] = None
    is_open: bool = False
    is_alone: bool = False


# Reading. A front is what stands before a place.


def starts_line(front):
    return front == "" or front[-1] in LINE_ENDS


def is_column_one(front):
    return front == "" or front[-1] == "\n"


def line_end_at(text, place):
    """The line end at a place, or nothing."""
    if text.startswith("\r\n", place):
        return "\r\n"
    return text[place : place + 1] if text[place : place + 1] in ("\n", "\r") else ""


class Reader:
    def __init__(self, text, option):
        self.text, self.option, self.at = text, option, 0
        self.ends_in_backslash = False
        self.parts = []

    def sees(self, characters):
        return self.at < len(self.text) and self.text[self.at] in characters

    def skip(self, characters):
        while self.sees(characters):
            self.at += 1

    def take(self):
        """The next character, which has to be there."""
        if self.at == len(self.text):
            raise Stop("EndOfText", self.at)
        self.at += 1
        return self.text[self.at - 1]

    def takes_note(self, may_stand):
        """Whether a note stands here, where one may: a mark and what follows up to a line end. It is taken."""
        if not (may_stand and self.sees(MARKS)):
            return False
        while self.at < len(self.text) and not self.sees(LINE_ENDS):
            self.at += 1
        return True

    def own_note(self):
        """Where a note stands that begins here, if one does. It is taken."""
        start = self.at
        return (start, self.at) if self.takes_note(True) else None

    def take_line_end(self):
        """LF, CR LF or CR, if one stands here."""
        start = self.at
        self.at += 2 if self.text.startswith("\r\n", start) else self.sees(LINE_ENDS)
        return self.at > start

    def piece(self):
        """What one piece of a string gives."""
        c = self.take()
        if c != "\\" or not self.option.has_special_backslash():
            return c
        if self.at == len(self.text):
            self.ends_in_backslash = True
            return c
        c = self.take()
        if c == "\n":
            return ""
        if not self.option.escape:
            return "\\" + c
        return self.coded() if c == "x" else UNDONE.get(c, c)

    def coded(self):
        units = []
        for _ in range(4):
            units.append(self.take())
            if units[-1] == "\\" and self.take() != "\n":
                raise Stop("BrokenEscape", self.at)
        digits = "".join(units[1:] if units[0] == "+" else units)
        number = int(digits, 16) if all(c in "0123456789abcdefABCDEF" for c in digits) else 0xD800
        if 0xD800 <= number <= 0xDFFF:
            raise Stop("UnknownCharacter", self.at)
        return chr(number)

    def string(self, endpoints, may_end=False, before_notes=False):
        """What a string gives, and where its last piece ends that is not a white character by itself.

        Before notes, a mark that a blank stands before ends it too, where notes are read.
        """
        given, solid, start = "", self.at, None
        while not self.sees(endpoints) and not (may_end and self.at == len(self.text)):
            follows_blank = start is not None and self.text[start] in BLANKS
            if before_notes and self.option.notes and follows_blank and self.sees(MARKS):
                break
            start = self.at
            given += self.piece()
            if self.text[start] not in WHITE:
                solid = self.at
        return given, solid

    def line(self, is_first):
        """A value's line, up to its note or its end: what it gives, and where white space at its end begins.

        White space that a backslash stands before is the value's own, but where backslashes take nothing along.
        """
        self.skip(INLINE_WHITE)
        quoted, after, self.parts = "", self.at, []
        while self.option.quote and self.sees("\"'"):
            quoted += self.string(self.take())[0]
            self.at += 1
            self.parts.append(self.at)
            after = self.at
        plain, solid = self.string(LINE_ENDS, may_end=True, before_notes=True)
        plain = plain.strip(WHITE) if is_first and not self.parts else plain.rstrip(WHITE)
        own = self.text[after : self.at].rstrip(INLINE_WHITE)
        keeps = own.endswith("\\") and self.option.has_special_backslash()
        return quoted + plain, self.at if keeps else max(solid, after)

    def value(self, pair):
        """Reads a value."""
        self.skip(INLINE_WHITE)
        pair.lead = self.at
        pair.value, pair.pad = self.line(True)
        pair.note = self.own_note()
        pair.part = self.parts[0] if self.parts else None
        pair.is_open = not (self.option.multiline and self.take_line_end())
        if not pair.is_open:
            self.more_lines(pair)
        if self.option.multiline:
            pair.value = pair.value.strip("\n")

    def more_lines(self, pair):
        while self.sees(LINE_ENDS + BLANKS):
            if self.sees(LINE_ENDS):
                if self.sees("\r") and not self.text.startswith("\r\n", self.at):
                    raise Stop("CrAlone", min(self.at + 2, len(self.text)))
                self.take_line_end()
                pair.value += "\n"
                continue
            self.skip(INLINE_WHITE)
            if not self.takes_note(self.option.comments):
                given, pad = self.line(False)
                note = self.own_note()
                pair.value += "\n" + given
                if given.strip("\n"):
                    pair.pad, pair.note = pad, note
            if not self.take_line_end():
                pair.is_open = True
                return

    def pair(self, element, is_indented):
        key_start = self.at
        try:
            if self.option.lone:
                key = self.string("=:" + LINE_ENDS, may_end=self.option.lone == 2, before_notes=True)[0]
            else:
                key = self.string("=:")[0]
        except Stop as stop:
            if self.option.lone or not is_indented or stop.kind != "EndOfText":
                raise
            element.kind, self.at = "dropped", len(self.text)
            return
        if self.option.lone == 1 and self.sees(LINE_ENDS + MARKS):
            raise Stop("NoSeparator", self.at + 1)
        indented = (self.text[element.start : key_start] + key).rstrip(WHITE)
        element.kind, element.text = "pair", indented if self.option.indent else key.strip(WHITE)
        element.key_end = element.lead = element.pad = self.at
        element.is_alone = element.is_open = not self.sees("=:")
        if not element.text:
            self.take()
            raise Stop("MissingKey", self.at)
        if not element.is_alone:
            self.at += 1
            self.value(element)

    def header(self):
        self.at += 1
        if not self.option.brackets:
            name = self.string("]")[0]
            self.at += 1
            return name.strip(WHITE)
        name = self.string(LINE_ENDS, before_notes=True)[0].rstrip(BLANKS)
        if not name.endswith("]"):
            raise Stop("HeaderEnd", self.at + 1)
        return name[:-1].strip(WHITE)

    def element(self):
        start = self.at
        element = Element("gap", start)
        if self.sees(BLANKS) and starts_line(self.text[:start][-1:]):
            self.skip(BLANKS)
            if self.sees(LINE_ENDS):
                self.at += 1
            elif self.takes_note(self.option.comments):
                element.kind = "note"
            elif self.at < len(self.text) and not self.sees("["):
                self.pair(element, True)
        elif self.sees(WHITE):
            self.at += 1
        elif self.sees(MARKS):
            if is_column_one(self.text[:start][-1:]):
                element.kind, self.at = "comment", self.text.find("\n", start) + 1 or len(self.text)
            elif self.takes_note(self.option.notes or self.option.comments and self.text[start - 1] == "\r"):
                element.kind = "note"
            else:
                raise Stop("InlineComment", start + 1)
        elif self.sees("["):
            element.kind, element.text, element.is_open = "header", self.header(), True
        else:
            self.pair(element, False)
        element.end = self.at
        return element

    def elements(self):
        """The text's elements in their order."""
        found = []
        try:
            while self.at < len(self.text):
                found.append(self.element())
        except Stop as stop:
            front = self.text[: stop.front]
            raise Refused(f"{front.count(chr(10)) + 1}:{len(front) - front.rfind(chr(10))} {stop.kind}") from None
        return found


# What is plain or raw, and how it is written.


def is_escaped(policy, c):
    number = ord(c)
    if policy == "Nothing":
        return False
    if c == "\\" or number < 0x20 or number == 0x7F:
        return True
    if c in ";#=:":
        return policy.startswith("Reserved") or policy == "Everything"
    if number >= 0x10000:
        return policy.endswith("Extended") or policy == "Everything"
    return number >= 0x80 and ("Unicode" in policy or policy == "Everything")


def escape(c):
    if c in "\\;#=:":
        return "\\" + c
    return "\\" + WRITTEN[c] if c in WRITTEN else f"\\x{ord(c):04x}"


def escaped(policy, text):
    return "".join(escape(c) if is_escaped(policy, c) else c for c in text)


def is_read_back(text, policy, option):
    escapes = [c for c in text if is_escaped(policy, c)]
    by_escapes = option.escape and policy != "Nothing" and not any(c in "\v\f" or ord(c) > 0xFFFF for c in escapes)
    alone = "\\\n\r" if option.has_special_backslash() else "\n\r"
    return by_escapes or not (escapes or any(c in alone for c in text))


def has_no_note(text, policy, option):
    """Whether no mark that isn't escaped stands after a blank that isn't, where notes are read."""
    pairs = zip(text, text[1:])
    bare = [two for two in pairs if not any(is_escaped(policy, c) for c in two)]
    return not (option.notes and any(blank in BLANKS and mark in MARKS for blank, mark in bare))


def is_plain_unspaced_key(key, policy, option):
    if option.lone and not has_no_note(key, policy, option):
        return False
    if not key or key[0] == "[" or (key[0] in ";#" and not is_escaped(policy, key[0])):
        return False
    trimmed = key.rstrip(WHITE) if option.indent and is_escaped(policy, key[0]) else key.strip(WHITE)
    return key == trimmed and all(is_escaped(policy, c) for c in key if c in "=:")


def is_plain_key(key, policy, option):
    if option.indent and not option.multiline:
        key = key.lstrip(" ")
    return is_plain_unspaced_key(key, policy, option) and is_read_back(key, policy, option)


def is_plain_name(name, policy, option):
    is_whole = has_no_note(name, policy, option) if option.brackets else "]" not in name
    return name == name.strip(WHITE) and is_whole and is_read_back(name, policy, option)


def is_plain_separator(separator):
    return separator.strip(BLANKS) in ("=", ":")
