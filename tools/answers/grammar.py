"""The line grammar as a reader in Python, which can also go the Rust crate's way at each declared departure.

`Reader(text, option).answer()` is the line that the grammar derives for a text, in the form that `ini_replay answers` prints.
`Reader(text, option, departures).answer()` is that line where, at the departures named, the text is read as rust-ini
0.21.3 reads it. So a difference between the two programs is declared exactly where the first line is the one's and, for
some departures, the second line is the other's.
"""
from typing import NamedTuple

BLANKS = " \t"
LINE_ENDS = "\n\r"
MARKS = ";#"
WHITE = "\t\n\x0b\x0c\r \x85\xa0\u1680" + "".join(map(chr, range(0x2000, 0x200B))) + "\u2028\u2029\u202f\u205f\u3000"
INLINE_WHITE = "".join(c for c in WHITE if c not in LINE_ENDS)
ESCAPES = {"0": "\0", "a": "\a", "b": "\b", "t": "\t", "r": "\r", "n": "\n"}
HEXADECIMAL = frozenset("0123456789abcdefABCDEF")

# Where a string ends, and what a refusal at the text's end says there.
NAME, BRACKETED_NAME, KEY, DOUBLE, SINGLE, PLAIN = "]", "\r\n", "=:", '"', "'", "\n\r"
# Where a key ends if lines without separator are refused, and if they are keys alone; a refusal at the text's end names the
# separators alone.
KEY_IN_LINE, KEY_ALONE = KEY + LINE_ENDS, LINE_ENDS + KEY
KEYS = (KEY, KEY_IN_LINE, KEY_ALONE)
# Those that may end with the text.
OPEN = (PLAIN, KEY_ALONE)
EXPECTED = {
    NAME: "[Some(']')]",
    BRACKETED_NAME: "[Some('\\r'), Some('\\n')]",
    KEY: "[Some('='), Some(':')]",
    KEY_IN_LINE: "[Some('='), Some(':')]",
    KEY_ALONE: "[Some('='), Some(':')]",
    DOUBLE: "[Some('\"')]",
    SINGLE: "[Some('\\'')]",
    PLAIN: "[Some('\\n'), Some('\\r'), None]",
}

# The departures, each by what the crate does.
WHITE_AT_START = "at the text's start, white other than blanks and line ends begins a key"
WHITE_AFTER_BLANK_LINE = "after a line of blanks, white other than blanks and line ends begins a key"
BLANKS_AT_START = "after one line end at the text's start, blanks are no indentation"
BLANKS_AFTER_BLANK_LINE = "after a line of blanks and one line end, blanks are no indentation"
BLANKS_AFTER_COMMENT = "after a comment, blanks are no indentation"
BAD_ESCAPE_DROPPED = "a bad escape in an indented key drops the key, and is not refused"
CR_LF_TWICE = "CR LF within a multiline value counts as two line ends"
MESSAGE_CUT_SHORT = "an escape cut short after a backslash has a message of its own"
MESSAGE_BROKEN = "the message of a broken escape shows the character"
# Those of the crate built with inline comments, in the words of docs/DIFFERENCES.md.
NOTE_THROUGH_LF = "a note goes through LF, and a header refused at one is reported after it"
NOTE_GOES_ON = "after a joined line each mark begins a note, and none ends the value or name"
CHARACTER_LOST = "with multiline values the character after a note's LF is lost"
NOTE_DEPARTURES = (NOTE_THROUGH_LF, NOTE_GOES_ON, CHARACTER_LOST)
DEPARTURES = (
    *NOTE_DEPARTURES,
    WHITE_AT_START,
    WHITE_AFTER_BLANK_LINE,
    BLANKS_AT_START,
    BLANKS_AFTER_BLANK_LINE,
    BLANKS_AFTER_COMMENT,
    BAD_ESCAPE_DROPPED,
    CR_LF_TWICE,
    MESSAGE_CUT_SHORT,
    MESSAGE_BROKEN,
)


class Option(NamedTuple):
    escape: bool
    quote: bool
    multiline: bool
    indent: bool
    brackets: bool
    raw: bool = False
    lone: int = 0  # of a line without separator: 0 its key runs on, 1 the text is refused, 2 the key has the empty value
    comments: bool = False  # where a line starts, blanks and a comment mark begin a comment
    notes: bool = False  # after a blank in a value, or at an item's place, a comment mark begins a note

    def flags(self):
        """A digit for each; the last four, which the crate lacks, only as far as they aren't 0."""
        digits = "".join(str(int(flag)) for flag in self)
        return digits[:5] + digits[5:].rstrip("0")

    def changes(self):
        """How many of the options are not as they are by default."""
        return sum(one != other for one, other in zip(self, DEFAULT))


DEFAULT = Option(escape=True, quote=True, multiline=False, indent=False, brackets=False)


class Stop(Exception):
    """Reading stops: the character that was looked at is the last of the first `front` characters."""

    def __init__(self, front, message):
        self.front = front
        self.message = message


class EndOfText(Stop):
    """A string meets the text's end where that is no endpoint."""


class BadEscape(Stop):
    """The units of `\\x` are broken, or spell no character."""


def shown(c):
    """A character as Rust's debug form has it."""
    named = {"\0": "\\0", "\t": "\\t", "\r": "\\r", "\n": "\\n", "'": "\\'", "\\": "\\\\"}
    if c in named:
        return named[c]
    return c if c.isprintable() else "\\u{%x}" % ord(c)


def spelled(units):
    """The character that four units spell, or None."""
    digits = units[1:] if units[0] == "+" else units
    if not HEXADECIMAL.issuperset(digits):
        return None
    number = int(digits, 16)
    return None if 0xD800 <= number <= 0xDFFF else chr(number)


class Reader:
    """Reads one text. `seen` collects the departures that were met on the way."""

    def __init__(self, text, option, departures=()):
        self.text = text
        self.option = option
        self.departures = departures
        self.seen = set()
        self.at = 0
        # The departures that wait right here for white and for blanks after a line end, if any.
        self.waiting = (WHITE_AT_START, BLANKS_AT_START)
        # The place after the last note's LF, where a departure has that in the note.
        self.after_note = None
        self.words = ["ok G"]

    def answer(self):
        try:
            while self.at < len(self.text):
                self.read_element()
                self.skip_blanks_if(self.at == self.after_note and BLANKS_AFTER_COMMENT)
        except Stop as stop:
            front = self.text[: stop.front]
            line = 1 + front.count("\n")
            column = len(front) - front.rfind("\n")
            return f"err {line}:{column} {stop.message}"
        return " ".join(self.words)

    def departs(self, departure):
        if departure not in self.departures:
            return False
        self.seen.add(departure)
        return True

    def next_is(self, characters):
        return self.at < len(self.text) and self.text[self.at] in characters

    def skip(self, characters):
        while self.next_is(characters):
            self.at += 1

    # Between items, and items.

    def read_element(self):
        c = self.text[self.at]
        waiting, self.waiting = self.waiting, None
        if c in BLANKS and (self.at == 0 or self.text[self.at - 1] in LINE_ENDS):
            self.read_indented()
        elif c in LINE_ENDS:
            self.at += 1
            self.skip_blanks_if(waiting and waiting[1])
        elif c in WHITE:
            if c not in BLANKS and waiting and self.departs(waiting[0]):
                self.read_pair("")
            else:
                self.at += 1
        elif c in MARKS:
            self.read_comment()
        elif c == "[":
            self.read_header()
        else:
            self.read_pair("")

    def skip_blanks_if(self, departure):
        if departure and self.next_is(BLANKS) and self.departs(departure):
            self.skip(BLANKS)

    def read_comment(self):
        if self.at > 0 and self.text[self.at - 1] != "\n":
            if self.option.notes or (self.option.comments and self.text[self.at - 1] == "\r"):
                return self.skip_note()
            raise Stop(self.at + 1, "doesn't support inline comment")
        self.skip_through_line_feed()
        self.skip_blanks_if(BLANKS_AFTER_COMMENT)

    def skip_through_line_feed(self):
        end = self.text.find("\n", self.at)
        self.at = len(self.text) if end < 0 else end + 1

    def skip_note(self):
        """A comment mark and what follows it, up to a line end, which is no part of it; the crate goes through LF."""
        if self.departs(NOTE_THROUGH_LF):
            self.skip_through_line_feed()
            self.after_note = self.at
            return
        while self.at < len(self.text) and not self.next_is(LINE_ENDS):
            self.at += 1

    def read_header(self):
        self.at += 1
        if self.option.brackets:
            name = self.read_bracketed_name()
        else:
            name = self.read_string(NAME)
            self.at += 1
        self.words.append("S" + name.strip(WHITE).encode().hex())

    def read_bracketed_name(self):
        line = self.read_string(BRACKETED_NAME, before_notes=True).rstrip(BLANKS)
        for _ in range(2):  # the crate: a note, and a comment in the next line
            if self.next_is(MARKS) and self.departs(NOTE_THROUGH_LF):
                self.skip_note()
        if not line.endswith("]"):
            raise Stop(self.at + 1, "section must be ended with ']'")
        return line[:-1]

    def read_indented(self):
        start = self.at
        self.skip(BLANKS)
        if self.next_is(LINE_ENDS):
            self.at += 1
            self.waiting = (WHITE_AFTER_BLANK_LINE, BLANKS_AFTER_BLANK_LINE)
        elif self.next_is("["):
            self.read_header()
        elif self.option.comments and self.next_is(MARKS):
            self.skip_note()
        elif self.at < len(self.text):
            self.read_indented_key(self.text[start : self.at])

    def read_indented_key(self, indentation):
        try:
            self.read_pair(indentation)
        except BadEscape as stop:
            if not self.departs(BAD_ESCAPE_DROPPED):
                raise
            self.at = stop.front - 1
            self.skip(BLANKS)

    def read_pair(self, indentation):
        try:
            key = self.read_string(KEYS[self.option.lone], before_notes=self.option.lone > 0)
        except EndOfText:
            if self.option.lone or not indentation:
                raise
            self.at = len(self.text)
            return
        if self.option.lone == 1 and not self.next_is(KEY):
            raise Stop(self.at + 1, "no separator follows the key in its line")
        key = (indentation + key).rstrip(WHITE) if self.option.indent else key.strip(WHITE)
        if not key:
            raise Stop(self.at + 1, "missing key") if self.at < len(self.text) else self.end_of_text(KEY_ALONE)
        if not self.next_is(KEY):
            self.words.append(key.encode().hex() + "=")
            return
        self.at += 1
        try:
            value = self.read_value()
        except BadEscape as stop:
            # Only a key is dropped with its bad escape.
            raise Stop(stop.front, stop.message) from None
        self.words.append(key.encode().hex() + "=" + value.encode().hex())

    # Values.

    def read_value(self):
        value = self.read_line(is_first=True)
        if not self.option.multiline:
            return value
        return (value + self.read_more_lines()).strip("\n")

    def read_line(self, is_first):
        self.skip(INLINE_WHITE)
        quoted = ""
        trims_both = is_first
        while self.option.quote and self.next_is("\"'"):
            quote = self.text[self.at]
            self.at += 1
            quoted += self.read_string(quote)
            self.at += 1
            trims_both = False
        plain = self.read_string(PLAIN, before_notes=True)
        if self.next_is(MARKS):
            self.skip_note()
        return quoted + (plain.strip(WHITE) if trims_both else plain.rstrip(WHITE))

    def read_more_lines(self):
        more = ""
        while self.next_is(LINE_ENDS) or self.at == self.after_note:
            self.take_line_end()
            more += self.read_empty_lines()
            if not self.next_is(BLANKS):
                break
            self.skip(INLINE_WHITE)
            if self.option.comments and self.next_is(MARKS):
                self.skip_note()
            else:
                more += "\n" + self.read_line(is_first=False)
        return more

    def take_line_end(self):
        if self.at == self.after_note:
            if self.at < len(self.text) and self.departs(CHARACTER_LOST):
                self.at += 1
            return
        is_pair = self.text.startswith("\r\n", self.at)
        self.at += 2 if is_pair and not self.departs(CR_LF_TWICE) else 1

    def read_empty_lines(self):
        lines = ""
        while self.next_is(LINE_ENDS):
            if self.text[self.at] == "\r":
                self.at += 1
                if not self.next_is("\n"):
                    raise Stop(min(self.at + 1, len(self.text)), "\\r is not followed by \\n")
            self.at += 1
            lines += "\n"
        return lines

    # Strings.

    def read_string(self, ends, before_notes=False):
        """What a string gives, up to one of its ends, or before a note: up to a mark after a blank too."""
        before_notes = before_notes and self.option.notes
        pieces = []
        is_blank_last = is_joined = False
        while not self.next_is(ends):
            if before_notes and self.next_is(MARKS):
                if is_joined and self.departs(NOTE_GOES_ON):
                    self.skip_through_line_feed()
                    continue
                if is_blank_last:
                    break
            if self.at == len(self.text):
                if ends in OPEN:
                    break
                raise self.end_of_text(ends)
            c = self.text[self.at]
            self.at += 1
            is_blank_last = c in BLANKS
            is_special = c == "\\" and (self.option.escape or not self.option.raw)
            pieces.append(self.read_escape(ends) if is_special else c)
            is_joined = is_joined or not pieces[-1]
        return "".join(pieces)

    def end_of_text(self, ends):
        return EndOfText(len(self.text), f'expecting "{EXPECTED[ends]}" but found EOF.')

    def read_escape(self, ends):
        """What a backslash and what follows it give."""
        if self.at == len(self.text):
            return "\\"
        c = self.text[self.at]
        self.at += 1
        if c == "\n":
            return ""
        if not self.option.escape:
            return "\\" + c
        if c == "x":
            return self.read_units(ends)
        return ESCAPES.get(c, c)

    def read_units(self, ends):
        units = ""
        for _ in range(4):
            if self.at == len(self.text):
                raise self.end_of_text(ends)
            units += self.text[self.at]
            self.at += 1
            if units[-1] == "\\":
                self.take_line_feed(ends)
        character = spelled(units)
        if character is None:
            raise BadEscape(self.at, "unknown character in \\xHH form")
        return character

    def take_line_feed(self, ends):
        """The line feed after a backslash among the units."""
        if self.at == len(self.text):
            if self.departs(MESSAGE_CUT_SHORT):
                raise EndOfText(self.at, 'expecting "\\\\n" but found "None".')
            raise self.end_of_text(ends)
        c = self.text[self.at]
        self.at += 1
        if c != "\n":
            shows = self.departs(MESSAGE_BROKEN)
            crate = f"expecting \"\\\\n\" but found \"Some('{shown(c)}')\"."
            raise BadEscape(self.at, crate if shows else 'expecting "\\n" after a backslash in \\xHH form')
