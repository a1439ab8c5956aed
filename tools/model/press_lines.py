"""The lines of the program's press: one event each, the files of the sides, and the listing of what was delivered at the end.

A line is wrong whose file cannot be opened or read, whose image is no P4 file, or whose engine there is not. It ends the session:
status 1, and nothing more is printed; or it is answered with its fault, and the session goes on. A side whose file cannot be made
always ends it.
"""

import hashlib
import os
from pathlib import Path
from typing import NamedTuple, Optional

from . import pbm
from .press import BadEngines, NoEngine, Press, Sink, SinkFault, entry_name

READ_FAULT, IMAGE_READ_FAULT = 304, 114
GREATEST_NUMBER = 2 ** 64 - 1
MOST_DIGITS = 20
WHAT = "what?"
BAD_TEMPLATE = 121
ENTRY, NUMBER = "%q", "%d"
ENGINES, OUT, SUMS, KEEP_GOING = "--engines", "--out", "--sums", "--keep-going"


class BadWords(Exception):
    """The words are refused."""


class BadTemplate(Exception):
    number = BAD_TEMPLATE


class Asked(NamedTuple):
    """What the words behind `press` ask for."""
    engines: int = 1
    template: Optional[str] = None
    sums: bool = False
    goes_on: bool = False


class FileFault(Exception):
    def __init__(self, number):
        super().__init__(number)
        self.number = number


def read_file(name, unreadable):
    """The bytes of a file; one that cannot be opened is a read fault, one that opens but cannot be read the other number."""
    try:
        with open(name, "rb", buffering=0) as file:
            return file.readall()
    except IsADirectoryError:
        raise FileFault(unreadable) from None
    except (OSError, ValueError):  # a name with a byte 0 is no name
        raise FileFault(READ_FAULT) from None


def read_image(name):
    return image_of(read_file(name, IMAGE_READ_FAULT))


def image_of(content):
    try:
        return pbm.read(content)[:2]
    except pbm.Refused as refused:
        raise FileFault(refused.number) from None


def number_of(word):
    """A number of 64 bits in digits, or None."""
    if not word.isdigit() or len(word.lstrip(b"0")) > MOST_DIGITS:
        return None
    number = int(word.lstrip(b"0") or b"0")
    return number if number <= GREATEST_NUMBER else None


def lines_of(script):
    """Lines end with LF; the last may lack it."""
    lines = script.split(b"\n")
    return lines[:-1] if lines[-1] == b"" else lines


def asked_by(words):
    """What words ask for; each option stands once at most."""
    found, words = {}, list(words)
    while words:
        name, value = taken_option(words)
        if name in found:
            raise BadWords()
        found[name] = value
    engines = number_of(found.get(ENGINES, "1").encode())
    if engines is None:
        raise BadWords()
    return Asked(engines, found.get(OUT), SUMS in found, KEEP_GOING in found)


def taken_option(words):
    """The first option of words, taken from them, and its value, which stands behind `=` or is the next word; a flag has none."""
    word = words.pop(0)
    name, equals, value = word.partition("=")
    if word in (SUMS, KEEP_GOING):
        return word, None
    if name not in (ENGINES, OUT) or not (equals or words):
        raise BadWords()
    if not equals:
        value = words.pop(0)
        if value.startswith("-"):
            raise BadWords()
    return name, value


def check_template(template):
    if any(template.count(place) != 1 for place in (ENTRY, NUMBER)):
        raise BadTemplate()


def side_name(template, entry, side):
    """The name of the file of a side of an entry, from 1."""
    return template.replace(ENTRY, entry_name(entry)).replace(NUMBER, str(side))


def told(fault):
    return "fault %d\n" % fault.number


def played(words, script, folder=".", **others):
    """Status, standard output and standard error of the program with these words behind `press`. And what carried out the lines,
    or None."""
    asked = asked_by(words)
    try:
        at = Press(engines=asked.engines, **others)
        if asked.template is not None:
            check_template(asked.template)
    except (BadEngines, BadTemplate) as fault:
        return (1, b"", told(fault).encode()), None
    lines = Lines(at, folder, asked)
    return lines.run(script), lines


def shown_turn(entry, steps):
    return "turn %s %d" % ("-" if entry is None else entry_name(entry), steps)


class PageSink(Sink):
    """Makes a file of each side before its sheet counts as delivered, and keeps the lines that tell them until they are taken."""

    def __init__(self, template, make):
        super().__init__()
        self.template = template
        self.make = make
        self.lines = ""

    def deliver(self, number, sheet):
        before = self.sheets_of(number)
        side_number = sum(len(other.sides()) for other in before)
        lines = ""
        for side_number, (side_of, side) in enumerate(sheet.sides(), side_number + 1):
            name = side_name(self.template, number, side_number)
            self.make(name, pbm.bytes_of_side(side))
            lines += "sheet %s %d %s %s\n" % (entry_name(number), len(before) + 1, side_of, name)
        super().deliver(number, sheet)
        self.lines += lines

    def taken_lines(self):
        lines, self.lines = self.lines, ""
        return lines


class Folder:
    """The files of a folder, under those that are made in it, by their places. No file is made over an input."""

    def __init__(self, path):
        self.path = Path(path)
        self.inputs = set()
        self.made = {}

    def place_of(self, name):
        """Where a name leads to, from the folder on."""
        return os.path.relpath(os.path.realpath(self.path / name), os.path.realpath(self.path))

    def take_inputs(self, names):
        """What stands under these names is an input from now on."""
        self.inputs |= {self.place_of(name) for name in names if "\0" not in name and self.is_there(name)}

    def is_there(self, name):
        return self.place_of(name) in self.made or os.path.exists(self.path / name)

    def read(self, name, unreadable):
        made = None if "\0" in name else self.made.get(self.place_of(name))
        return read_file(self.path / name, unreadable) if made is None else made

    def make(self, name, content):
        path = self.path / name
        if not path.parent.is_dir() or path.is_dir() or self.place_of(name) in self.inputs:
            raise SinkFault()
        self.made[self.place_of(name)] = content


class Lines:
    """A press that lines drive; names of files are of a folder."""

    def __init__(self, press, folder=".", asked=Asked()):
        self.press = press
        self.folder = Folder(folder)
        self.asked = asked
        self.sink = Sink() if asked.template is None else PageSink(asked.template, self.folder.make)

    def answer(self, line):
        words = line.split(b" ")
        if b"" in words:
            return WHAT
        if words[0] == b"message" and len(words) > 1:
            return self.message(*map(os.fsdecode, words[1:]))
        if words[0] == b"turn" and len(words) in (2, 3):
            most, engine = number_of(words[1]), number_of(words[2]) if len(words) == 3 else 0
            return WHAT if None in (most, engine) else self.turn(engine, most)
        operators = {b"pause": self.press.pause, b"continue": self.press.carry_on, b"abort": self.press.abort_running}
        if line not in operators:
            return WHAT
        operators[line]()
        return "ok"

    def turn(self, engine, most):
        """The files that the turn made are told in front of it."""
        turned = shown_turn(*self.press.turn_on(engine, most, self.sink))
        return (self.sink.taken_lines() if self.asked.template is not None else "") + turned

    def message(self, name, *image_names):
        """Files are read in the order of the words, before the message is judged."""
        self.folder.take_inputs([name, *image_names])
        text = self.folder.read(name, READ_FAULT)
        images = [image_of(self.folder.read(image, IMAGE_READ_FAULT)) for image in image_names]
        return self.press.message(text, images).decode()

    def listing(self):
        """A line a side, in the order of delivery; sheets are counted for each entry."""
        counts, text = {}, ""
        for number, sheet in self.sink.delivered:
            counts[number] = counts.get(number, 0) + 1
            for name, side in sheet.sides():
                text += "%s sheet %d %s %dx%d black %d%s\n" % (
                    entry_name(number), counts[number], name, side.width(), side.height(), side.count_black(), self.sum_of(side))
        return text

    def sum_of(self, side):
        """The end of a side's line, where sums are asked for."""
        return " sha256 " + hashlib.sha256(pbm.bytes_of_side(side)).hexdigest() if self.asked.sums else ""

    def run(self, script):
        """Status, standard output and standard error."""
        printed = ""
        for line in lines_of(script):
            try:
                printed += self.answer(line) + "\n"
            except (FileFault, NoEngine) as fault:
                if not self.asked.goes_on:
                    return 1, printed.encode(), told(fault).encode()
                printed += told(fault)
            except SinkFault as fault:
                return 1, printed.encode(), told(fault).encode()
        return 0, (printed + self.listing()).encode(), b""
