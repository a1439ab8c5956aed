"""What the program answers to the words of its command line: status, print, faults, traces, pages, and the files that it makes.

Texts of help and of usage are not the model's: words that ask for help, or that are refused, have no answer here. A job that `write`
makes is not told byte by byte: what stands in its file is the ticket and its images, whose sheets any job of them has.
"""

import json
from pathlib import Path
from typing import NamedTuple

from . import asm, debug_lines, defaults, explain, pages, pbm, press, press_lines, runs, tables, ticket, trace_lines
from .engine import Deliver
from .press_lines import BAD_TEMPLATE, NUMBER, FileFault, read_file, read_image

READ_FAULT = 304
PAGE_FAULT, TEXT_FAULT, JOB_FAULT = 301, 115, 614
STANDARD_OUTPUT = "/dev/stdout"
RUNS = "--runs"
FULL = "/dev/full"  # can be opened, and takes no byte


LONGEST_KEY = 64  # characters that are told of a key


def spelled(key):
    """A key as it stands between the quotes of a string of JSON, its control characters escaped; of a long one its beginning."""
    text = "".join("\\u%04x" % ord(one) if 127 <= ord(one) < 160 else json.dumps(one, ensure_ascii=False)[1:-1] for one in key[:LONGEST_KEY])
    return text + ("..." if len(key) > LONGEST_KEY else "")


class NoAnswer(Exception):
    """The words ask for help, or are refused: the model has no text for it."""


class Answer(NamedTuple):
    status: int
    out: bytes
    err: bytes
    made: dict  # from the name of each file to what stands in it


class Job(NamedTuple):
    """What stands for the bytes of a job: whose sheets it has."""
    ticket: ticket.Ticket
    images: list


class Fault(Exception):
    def __init__(self, text):
        super().__init__(text)
        self.text = text


class Program:
    """A run in a folder, with this on standard input. `job_of` gives the job of an entry of a press."""

    def __init__(self, folder, given, job_of=press.plain_job):
        self.folder = Path(folder)
        self.given = given
        self.job_of = job_of
        self.out = b""
        self.err = b""
        self.made = {}

    def answer(self, words):
        """What is answered to these words; `{}` is a file of what is given on standard input."""
        calls = {"print": self.print, "asm": self.asm, "disasm": self.disasm, "debug": self.debug, "write": self.write,
                 "trace": self.trace, "explain": self.explain, "page": self.page, "tables": self.tables}
        if words and words[0] == "press":
            return self.press(words[1:])
        if words and words[0] not in calls:
            raise NoAnswer()
        try:
            calls[words[0]](words[1:]) if words else self.print(["--list", "-"])
        except Fault as fault:
            return Answer(1, self.out, b"fault %s\n" % fault.text.encode(), self.made)
        except FileFault as fault:
            return Answer(1, self.out, b"fault %d\n" % fault.number, self.made)
        return Answer(0, self.out, self.err, self.made)

    def read(self, name):
        if name in ("-", "{}"):
            return self.given
        return read_file(self.folder / name, READ_FAULT)

    def opens(self, name):
        if name not in ("-", "{}"):
            path = self.folder / name
            if not path.exists():
                raise FileFault(READ_FAULT)

    def make(self, name, content, fault):
        """A file with this content, in place of an older one."""
        if name == STANDARD_OUTPUT and isinstance(content, bytes):
            self.out += content
            return
        path = self.folder / name
        if not path.parent.is_dir() or path.is_dir() or str(path.resolve()) == FULL:
            raise Fault(str(fault))
        self.made[name] = content

    def print(self, words):
        names = [word for word in words if word not in ("--list", "--sums")]
        lists = len(names) < len(words)
        if any(name.startswith("--") for name in names) or not (1 if lists else 2) <= len(names) <= 2 or len(set(words)) < len(words):
            raise NoAnswer()
        self.opens(names[0])
        if lists:
            outcome = runs.run_stream(self.read(names[0]))
            listing = pages.listing_with_sums if "--sums" in words else pages.listing
            self.out += listing(outcome.sheets, outcome.replies)
            return
        if names[1].count(NUMBER) != 1:
            raise Fault(str(BAD_TEMPLATE))
        self.print_files(self.read(names[0]), names[1])

    def print_files(self, stream, template):
        """Each side goes into a file of its own, fronts before backs."""
        sides = 0
        for output in runs.run_stream(stream).engine.outputs:
            if not isinstance(output, Deliver):
                self.out += output.reply
                continue
            for _, side in output.sheet.sides():
                sides += 1
                self.make(template.replace(NUMBER, str(sides)), pbm.bytes_of_side(side), PAGE_FAULT)

    def tables(self, words):
        if words:
            raise NoAnswer()
        self.out += tables.text()

    def asm(self, words):
        source, target = exactly(2, words)
        if target == "-":
            raise NoAnswer()
        self.make(target, self.assembled(self.read(source)), TEXT_FAULT)

    def assembled(self, text):
        """A line that is no UTF-8 is a bad one, like any other."""
        lines = text.split(b"\n")
        good = next((place for place, line in enumerate(lines) if not is_utf8(line)), len(lines))
        try:
            made = asm.assemble(b"\n".join(lines[:good]).decode())
        except asm.BadText as bad:
            raise Fault("%d line %d" % (bad.number, bad.line)) from None
        if good < len(lines):
            raise Fault("%d line %d" % (asm.BAD_LINE, good + 1))
        return made

    def disasm(self, words):
        source, = exactly(1, words)
        self.out += asm.disassemble(self.read(source)).encode()

    def debug(self, words):
        source, = exactly(1, words)
        if source == "-" or source.startswith("--"):
            raise NoAnswer()
        self.out += debug_lines.DebugLines(self.read(source)).run(self.given).encode()

    def trace(self, words):
        runs = RUNS in words
        front, words = with_defaults([word for word in words if word != RUNS])
        source, = exactly(1, words)
        self.out += b"".join(trace_lines.lines(front + self.read(source), runs))

    def explain(self, words):
        front, words = with_defaults(words)
        source, = exactly(1, words)
        self.out += explain.text(front + self.read(source))

    def page(self, words):
        """The open page behind so many steps, a white one where none has a mark; past the end that of the end, which is said."""
        front, words = with_defaults(words)
        source, steps, target = exactly(3, words)
        if target == "-" or (most := press_lines.number_of(steps.encode())) is None:
            raise NoAnswer()
        for step, page in enumerate(trace_lines.opened(front + self.read(source))):
            if step == most:
                break
        self.make(target, pbm.bytes_of_side(page), TEXT_FAULT)
        if step < most:
            self.err += b"the stream ends behind step %d\n" % step

    def write(self, words):
        """Inputs are read and judged in the order of the words; then the images are; then the file is made."""
        if len(words) < 2 or words[1] == "-":
            raise NoAnswer()
        try:
            read = ticket.read_ticket(self.read(words[0]))
            images = [read_image(self.folder / name) for name in words[2:]]
            ticket.check(read, images)
        except ticket.Refused as refused:
            raise Fault("%d%s" % (refused.number, f" key {spelled(refused.key)}" if refused.key is not None else "")) from None
        self.make(words[1], Job(read, images), JOB_FAULT)

    def press(self, words):
        try:
            (status, out, err), lines = press_lines.played(words, self.given, self.folder, job_of=self.job_of)
        except press_lines.BadWords:
            raise NoAnswer() from None
        return Answer(status, out, err, lines.folder.made if lines else {})


def with_defaults(words):
    """The bytes that stand in front of the stream for the defaults, and the other words."""
    chosen = []
    while words[:1] == [defaults.OPTION] and len(words) > 1:
        chosen, words = [*chosen, words[1]], words[2:]
    if any(word.startswith("--") for word in words):
        raise NoAnswer()
    try:
        return defaults.front(chosen), words
    except defaults.Refused:
        raise NoAnswer() from None


def exactly(count, words):
    if len(words) != count:
        raise NoAnswer()
    return words


def is_utf8(line):
    try:
        line.decode()
    except UnicodeDecodeError:
        return False
    return True
