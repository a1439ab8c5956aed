"""What is found: the number of the fault (or the status 2 of refused words, or none), a sentence, what to do, and how grave it is."""

from typing import NamedTuple, Optional

from seen.printable import printable

REFUSED_WORDS = 2
# Grades, the gravest first; the status of `tools/why` is that of the gravest finding.
WORDS, LOST, REMARKED, IN_PLACE = 2, 1, 3, 0


class Finding(NamedTuple):
    number: Optional[int]
    sentence: str
    advice: str
    harmless: bool = False   # whether what is printed is the same without it
    remark: bool = False     # whether it moved or changed a page, and no page is blank or lost dots by it
    page: Optional[int] = None      # the number of the side that it is of first
    place: Optional[int] = None     # the byte of the stream at which it begins
    command: Optional[str] = None   # what stands there, as it is spelled
    dots: Optional[int] = None      # how many are lost, erased or too many

    def text(self):
        """One line: what it tells of a stream or of words has no control character left."""
        shown = "" if self.number is None or self.number == REFUSED_WORDS else f" ({self.number})"
        return printable(f"{self.sentence}{shown}. {self.advice}")

    def grade(self):
        if self.number is not None:
            return WORDS if self.number == REFUSED_WORDS else LOST
        if self.harmless:
            return IN_PLACE
        return REMARKED if self.remark else LOST

    def told(self):
        """What is told of it as JSON."""
        number = None if self.number == REFUSED_WORDS else self.number
        return {"advice": self.advice, "command": self.command, "dots": self.dots, "grade": self.grade(), "number": number, "page": self.page,
                "place": self.place, "sentence": self.sentence}


def status_of(found):
    """The gravest of their grades."""
    grades = {finding.grade() for finding in found}
    return next((grade for grade in (WORDS, LOST, REMARKED) if grade in grades), IN_PLACE)


class Found(Exception):
    """Raised with the first finding that stops the program."""

    def __init__(self, number, sentence, advice):
        super().__init__(sentence)
        self.finding = Finding(number, sentence, advice)


def advice_for_line(line, lines, otherwise):
    """What to do about a line of a session or of a debugger that is none; `lines` says what these are."""
    if line.endswith(b"\r"):
        return "A carriage return stands at its end: save the lines with line feeds alone"
    return "A space is too many. " + lines if line != line.strip(b" ") or b"  " in line else otherwise


def counted(number, noun):
    return f"{number:,} {noun}" if number == 1 else f"{number:,} {noun}s"


ORDINALS = ["first", "second", "third", "fourth", "fifth", "sixth", "seventh", "eighth", "ninth", "tenth"]


def ordinal(place):
    """The word for a place, from 0."""
    return ORDINALS[place] if place < len(ORDINALS) else f"{place + 1}th"
