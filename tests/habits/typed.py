"""Types the lines of standard input into a bash of its own, a tab after each, and prints what they become.

    typed.py COMPLETIONS FOLDER

COMPLETIONS is the file that bash sources, FOLDER where it runs; it is also its home.
"""
import os
import pty
import re
import select
import sys
import time

PROMPT = b"ready> "
# what prints the line as it stands, and empties it
SHOW = b"\x18\x10"
SET_UP = r"""bind 'set bell-style none' 'set enable-bracketed-paste off'; . "$COMPLETIONS"; """
SET_UP += r"""bind -x '"\C-x\C-p": printf "\n{%s}\n" "$READLINE_LINE"; READLINE_LINE=; READLINE_POINT=0'"""


def until(terminal, mark):
    """What the terminal shows, up to the mark."""
    seen, end = b"", time.monotonic() + 20
    while not seen.endswith(mark):
        if not select.select([terminal], [], [], max(0, end - time.monotonic()))[0]:
            sys.exit(f"bash doesn't go on after {seen}")
        seen += os.read(terminal, 4096)
    return seen


def main():
    completions, folder = sys.argv[1:]
    child, terminal = pty.fork()
    if child == 0:
        os.chdir(folder)
        os.environ.update(TERM="dumb", PS1=PROMPT.decode(), HOME=folder, COMPLETIONS=completions)
        os.execvp("bash", ["bash", "--noprofile", "--norc", "-i"])
    until(terminal, PROMPT)
    os.write(terminal, SET_UP.encode() + b"\n")
    until(terminal, b"\n" + PROMPT)
    for line in sys.stdin:
        os.write(terminal, line.rstrip("\n").encode() + b"\t" + SHOW)
        print(re.search(r"\{(.*)\}\r\n", until(terminal, b"}\r\n" + PROMPT).decode())[1])
    os.write(terminal, b"exit\n")
    os.waitpid(child, 0)


main()
