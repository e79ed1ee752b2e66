"""The texts that are compared: short ones in full, each character, random longer texts, and damaged settings files.

The texts stand as the hexadecimal of their UTF-8, so that a million of them are made in a moment.
"""
import itertools
import random

# One list has at most about so many texts and digits.
BATCH_TEXTS = 20_000
BATCH_DIGITS = 600_000

# Every character that the grammar names somewhere, and some that it doesn't.
ALPHABET = ["k", "=", ":", "[", "]", ";", "#", "\\", "x", '"', "'", " ", "\t", "\n", "\r", "0", "+", "\x0b", "é"]

# Longer texts in full: a front, the characters that follow it, and how many of them at most.
SHORT_TEXTS = (
    ("", ALPHABET, 5),
    ("", ["k", "=", "#", "[", "]", " ", "\n", "\r"], 7),
    ("", [" ", "\t", "\x0b", "\u00a0", "\n", "\r", "k", "=", ";", "["], 6),
    (" ", ["\\", "x", "0", "+", "\n", "=", " "], 7),
    ("k=", ["\\", "x", "0", "d", "F", "+", "\n", "\\"], 7),
    ("[\\x", ["0", "8", "a", "]", "\\", "\n", "g"], 6),
    ("[", ["]", "[", "a", " ", "\n", "\r", "\\", "t"], 6),
    ("k=v", [" ", "\n", "\r", "w", '"', "=", "#", "\t"], 7),
    ('k="', ['"', "'", " ", "v", "\n", "\\", "\r"], 7),
    ("k:'", ["'", '"', "\\", "x", "0", "\n", "]"], 6),
)

# And those that tell indented comments apart: at a line's front, and among the lines of a value.
COMMENT_TEXTS = (
    ("", [" ", ";", "\n", "\r", "k", "="], 8),
    ("k=v", ["\n", "\r", " ", "\u00a0", "#", "w"], 8),
    ("k=v\n ;", ["\n", "\r", " ", "\\", ";", "k", "="], 7),
)

# And those that tell keys alone apart: what ends a key, a backslash before that, and what follows the line.
KEY_TEXTS = (
    ("", ["k", "=", "\\", " ", "\n", "\r", "["], 7),
    ("k", ["\n", "\r", " ", "\\", ":", ";", "\u00a0"], 7),
    ("k=v\n", [" ", "\t", "k", "\n", "\r", "=", "["], 7),
    (" \\x00", ["0", "\\", "\n", " ", "="], 7),
)

# And those that tell notes apart: what stands before a mark, in values, names and keys, and outside these.
NOTE_ALPHABET = [" ", "\t", ";", "#", "\\", '"', "'", "\n", "\r", "=", "[", "]", "k"]
NOTE_TEXTS = (
    ("", NOTE_ALPHABET, 5),
    ("k=", [" ", ";", "v", "\\", '"', "\n", "\u00a0"], 7),
    ("k=v ", [";", " ", "\\", "x", "\n", "\r", "#"], 7),
    ("k='a' ", ["'", " ", ";", "\t", "\\", "\n"], 7),
    ("k=v\n ", [" ", ";", "w", "\n", "\r", '"', "\\"], 7),
    ("[a", ["]", " ", ";", "\\", "\n", "k", "="], 7),
    ("k", [" ", ";", "\\", "=", "\n", "\t", "#"], 7),
    ("\x0b", [" ", ";", "\r", "\n", "k", "\u00a0"], 6),
)

# Pieces of random texts. The first few come oftener.
PIECES = ["\n", "=", " ", "k", "\r\n", "\n ", "\n\t", "\\", "\\x", "\\x0041", "\\xd800", "\\x+041", "\\n", "\\\n", "\\\r\n"]
PIECES += ["k=v\n", "k = v\n", "  k=v\n", "[s]\n", " [s]", "; c\n", "# c\n", "\n\n", "\n \n", "\r", '"', "'", '"q" ', "'q'"]
PIECES += [" ;", "\t# n", "k=v ; n\n", "[s] # n\n", "\\;", "\\ "]
PIECES += ["\u2028", "\u0085", "\u3000", "\u200b", "\ufeff", "树", "\U0001f431", "\x00", "\x7f", "e\u0301", "=a b", ":c;d"]

GIT = """[core]
\trepositoryformatversion = 0
\tfilemode = true
\teditor = \\"/usr/bin/vi\\" -n
[remote "origin"]
\turl = https://git.example.org/team/tools.git
\tfetch = +refs/heads/*:refs/remotes/origin/*
# the branches that are kept
[branch "main"]
\tremote = origin ; the only one
\tmerge = refs/heads/main
[alias]
\tlast = log -1 \\
\t\t--stat
\tsay = "!f() { echo \\"$1\\"; }; f"
"""

SYSTEMD = """# /etc/systemd/system/lamp.service
[Unit]
Description=Lamp keeper \u2013 turns lamps on
After=network-online.target lamp.socket

[Service]
Type=notify
Environment="LAMP_HOME=/var/lib/lamp" 'LAMP_LEVEL=3'
ExecStart=/usr/bin/lampd --listen=[::]:7070 \\
    --state-dir=${LAMP_HOME} \\
    ; a remark within
ExecReload=/bin/kill -HUP $MAINPID
Restart=on-failure
RestartSec=5s

[Install]
WantedBy=multi-user.target
"""

DESKTOP = """[Desktop Entry]
Version=1.0
Type=Application
Name=Notes
Name[de]=Notizen
Name[ja]=\u30ce\u30fc\u30c8
Name[tr]=\u0130\u015faretler
Comment=Write things down, "quickly"
Exec="/opt/notes app/notes" --open %U
Categories=Office;TextEditor;
Actions=new;

[Desktop Action new]
Name=New note\\sin a window
Exec=notes --new
"""

AWS = """[default]
region = eu-north-1
output = json

[profile dev]
role_arn = arn:aws:iam::123456789012:role/dev
source_profile = default
s3 =
    max_concurrent_requests = 20
    addressing_style = path
services = local

[services local]
dynamodb =
  endpoint_url = http://localhost:8000
"""

PHP = """[PHP]\r
; how errors are told\r
error_reporting = E_ALL & ~E_DEPRECATED\r
display_errors=Off\r
error_prepend_string = "<span style='color: #ff0000'>"\r
extension=pdo\r
extension=zip\r
include_path = ".:/usr/share/php"\r
\r
[Date]\r
date.timezone = 'Europe/Lisbon'\r
[mail function]\r
sendmail_path = "/usr/sbin/sendmail -t -i"\r
windows.path=C:\\php\\new\\x64\\temp\r
"""

SETTINGS = (GIT, SYSTEMD, DESKTOP, AWS, PHP)


def hexadecimal(text):
    return text.encode().hex()


def all_texts(front, alphabet, longest):
    """Every text of a front and at most so many characters of the alphabet, shorter ones first."""
    letters = [hexadecimal(c) for c in dict.fromkeys(alphabet)]
    for length in range(longest + 1):
        tail = min(length, 3)
        tails = ["".join(some) for some in itertools.product(letters, repeat=tail)]
        for some in itertools.product(letters, repeat=length - tail):
            head = hexadecimal(front) + "".join(some)
            yield from [head + rest for rest in tails]


def short_texts(less, kinds=SHORT_TEXTS):
    """The short texts in full, each kind with so many characters fewer."""
    for front, alphabet, longest in kinds:
        yield from all_texts(front, alphabet, longest - less)


def each_character(less):
    """Texts with each character wherever one may stand; only the first ones where less is asked for."""
    for number in range(0x3100 if less else 0x110000):
        if not 0xD800 <= number <= 0xDFFF:
            c = chr(number)
            yield hexadecimal(f"k={c}v{c}\n{c}j{c}={c}\n[{c}s{c}]\\x{c}041=\\{c}")
            yield hexadecimal(f"a=b\n{c} k\\x00{c}1=\n")


def raw_or_spelled(number):
    """A character of a name, a key or a value, as it is where it says nothing there."""
    return chr(number) if number >= 0x80 else f"\\x{number:04x}"


def character_runs():
    """Texts with all characters in names, keys and values, 64 in a run."""
    for start in range(0, 0x110000, 64):
        if not 0xD800 <= start <= 0xDFFF:
            run = "|" + "".join(map(raw_or_spelled, range(start, start + 64))) + "|"
            yield hexadecimal(f"{run}={run}\n[{run}]\n{run}={run}\n")


def random_text(rng):
    """A text of some pieces and characters."""
    count = rng.randrange(6, 40)
    return "".join(rng.choice(rng.choice((PIECES, PIECES[:8], ALPHABET))) for _ in range(count))


def random_line_text(rng):
    """A short text of the characters that tell notes apart, mostly within a value or a name."""
    front = rng.choice(("", "", "k=", "k=v", "k=v\n ", "[a]", " k=v \\\n"))
    return front + "".join(rng.choices(NOTE_ALPHABET + [":", "x"], k=rng.randrange(1, 15)))


def damaged_settings(rng):
    """A settings file with its line ends changed, or cut, and some places written over."""
    text = rng.choice(SETTINGS)
    if rng.random() < 0.4:
        text = text.replace("\r\n", "\n").replace("\n", rng.choice(("\r\n", "\r", "\n\n", "\n ")))
    if rng.random() < 0.3:
        text = text[: rng.randrange(len(text))]
    for _ in range(rng.randrange(5)):
        start = rng.randrange(len(text) + 1)
        end = min(len(text), start + rng.choice((0, 0, 1, 1, 2, 10)))
        text = text[:start] + rng.choice(rng.choice((PIECES, ALPHABET, ["", text[start:end] * 2]))) + text[end:]
    return text


def made(make, count, seed):
    """So many texts that are made by chance."""
    rng = random.Random(seed)
    return (hexadecimal(make(rng)) for _ in range(count))


def batches(some):
    """Texts in lists of about one size."""
    batch, digits = [], 0
    for text in some:
        batch.append(text)
        digits += len(text)
        if len(batch) >= BATCH_TEXTS or digits >= BATCH_DIGITS:
            yield batch
            batch, digits = [], 0
    if batch:
        yield batch
