"""What the launcher answers before the program is there: its usage and version, words that are no command, and a
scenario or a plan that is not there. The answers are the program's own: the texts stand in its source, and are read from there.

Python 3.8 or later, and nothing but its standard library.
"""
import os
import re
import shlex

import launch
from launch import CRATE, TOP, say

SOURCE = os.path.join(CRATE, "src", "main.rt")
EXPLAIN = os.path.join(TOP, "tools", "explain")
TEXTS = {"--help": "HELP", "--version": "VERSION"}  # the words that are answered by a text, and its name in the source
WORDS, ABSENT, READ_FAULT, WRITE_FAULT = 2, 3, 4, 6
MOST_WORKERS, MOST_NUMBER = 64, (1 << 64) - 1


def answer(words):
    """The status with which the program would end on these words, if that is known; then its answer is given."""
    if len(words) == 1 and words[0] in TEXTS:
        text = text_in_source(TEXTS[words[0]])
        return text and shows(text)
    if not is_command(words):
        return refuses(WORDS, "words")
    return scenario_fault(words[1]) if words[0] in ("run", "journal", "spare", "net", "disks", "check", "audit") else None


def text_in_source(name):
    """The text that a constant of the program's source has; none if it does not stand there."""
    with open(SOURCE, encoding="utf-8") as file:
        found = re.search(rf'^const {name}: &str = "([^"]*)";$', file.read(), re.M)
    return found and found[1].replace("\\n", "\n")


def shows(text):
    """Writes a text on standard output, and gives the status."""
    return 0 if launch.written(1, text.encode()) else refuses(WRITE_FAULT, "write fault")


def refuses(status, line):
    """Writes the program's line, and on a terminal how to have it explained; gives the status."""
    say(line)
    if os.isatty(2) and status != WRITE_FAULT:
        say(f"in plain words: {shlex.quote(EXPLAIN)} {status}")
    return status


def is_command(words):
    """Whether the program takes these words for a command."""
    if not all(map(is_text, words)):
        return False
    if len(words) == 3 and words[0] in ("run", "journal", "spare"):
        return is_number(words[2], 1, MOST_WORKERS)
    if words[:1] == ["disks"]:
        return len(words) == 3 or len(words) == 4 and words[3] == "--force"
    if len(words) != 2:
        return False
    return words[0] in ("net", "check", "audit") or words[0] == "make" and is_number(words[1], 0, MOST_NUMBER)


def is_text(word):
    """Whether a word is a text in UTF-8."""
    try:
        os.fsencode(word).decode()
        return True
    except UnicodeDecodeError:
        return False


def is_number(word, least, most):
    """Whether a word is a number within these bounds, without a sign or a leading zero."""
    return re.fullmatch(r"0|[1-9][0-9]{0,19}", word, re.A) is not None and least <= int(word) <= most


def scenario_fault(name):
    """The status for a scenario or a plan that is not there or cannot be read; none for any other, which is the
    program's."""
    try:
        os.stat(os.fsencode(name))
    except FileNotFoundError:
        return refuses(ABSENT, "absent scenario")
    except OSError:
        return None
    return refuses(READ_FAULT, "read fault scenario") if os.path.isdir(name) else None
