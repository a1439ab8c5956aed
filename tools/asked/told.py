"""What the program says of words that ask for help, or that it refuses, byte for byte: told.txt, each text behind a line `$ press WORDS` for all that have it.

Each of these words is a row of `words`, or of `sizes`. Who adds some puts that line there, with none behind it; `tools/answers --write-told` makes the texts
anew, and who does so reads what has changed.
"""

import re
from pathlib import Path

PATH = Path(__file__).resolve().parent / "told.txt"
MARK = "$ press "
SECTION = re.compile(r"((?:^\$ press .*\n)+)((?:^(?!\$ press ).*\n)*)", re.MULTILINE)


def texts(path=PATH):
    """The text of each of the words."""
    sections = SECTION.findall(path.read_text(encoding="utf-8"))
    return {line.removeprefix(MARK): text.encode() for lines, text in sections for line in lines.splitlines()}


def write(told):
    """Puts these texts in the place of those that stand there."""
    words_of = {}
    for words, text in told.items():
        words_of[text] = words_of.get(text, "") + f"{MARK}{words}\n"
    PATH.write_text("".join(words + text.decode() for text, words in words_of.items()), encoding="utf-8")
