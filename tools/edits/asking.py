"""What the comparisons of edits share: the words of their questions, how a program is asked, and a script's own words."""
import random
import shlex
import subprocess
import sys

from model import Option, Writing


def digits(text):
    return text.encode().hex()


def undone(word):
    """The text of these digits."""
    return bytes.fromhex(word).decode()


def name_word(name):
    return "G" if name is None else "S" + digits(name)


def option_words(option, writing):
    end = "LF" if writing.line_end == "\n" else "CRLF"
    return [option.flags(), writing.policy, end, digits(writing.separator)]


def options_of(flags, policy, end, separator):
    """The options that have these words."""
    return Option(*map(int, flags)), Writing(policy, "\n" if end == "LF" else "\r\n", undone(separator))


def answers(program, lines):
    """The lines with which the program answers these."""
    asked = "".join(line + "\n" for line in lines)
    found = subprocess.run(shlex.split(program), input=asked, stdout=subprocess.PIPE, text=True, check=True).stdout
    found = found.splitlines()
    if len(found) != len(lines):
        sys.exit(f"{program}: {len(lines)} lines in, {len(found)} out")
    return found


def run(use, random_question, line_of, parsed, judged):
    """Does what a script's words say: `ask`, `judge` or `random`; other words are told the use."""

    def questions(number, seed="1"):
        chance = random.Random(seed)
        return [random_question(chance) for _ in range(int(number))]

    match sys.argv[1:]:
        case ["ask", file, number, *seed] if len(seed) < 2:
            with open(file, "w") as out:
                out.writelines(line_of(*question) + "\n" for question in questions(number, *seed))
        case ["judge", file, answered]:
            with open(file) as asked, open(answered) as found:
                lines = [line for line in found.read().splitlines() if line]
                asked = [parsed(line) for line in asked.read().splitlines()]
                if len(asked) != len(lines):
                    sys.exit(f"{len(asked)} questions, {len(lines)} answers")
                sys.exit(not judged(asked, lines))
        case ["random", program, number, *seed] if len(seed) < 2:
            asked = questions(number, *seed)
            sys.exit(not judged(asked, answers(program, [line_of(*question) for question in asked])))
        case _:
            sys.exit(use)
