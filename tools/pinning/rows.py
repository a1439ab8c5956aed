"""Everything with an answer that stands in the repository: what the program is asked, the examples, and the model's worked examples.

A row answers whether the model, with whatever switch is on, still has that answer. Modules of the model are imported when a row
runs, and not before.
"""

import importlib
import pathlib
import tempfile
from typing import Callable, NamedTuple

from asked import assembly, leaves, made
from asked.examples import examples, lay_out
from asked.parts import named_rows, shown
from pinning.jobs import Jobs
from seen import effects

ASKED, EXAMPLE, WORKED = "asked row", "example", "worked row"


class Row(NamedTuple):
    kind: str
    name: str
    agrees: Callable  # without arguments: whether the model has the answer


class Asking:
    """Asks the model what the program is asked, in a folder that has the files."""

    def __init__(self):
        self.held = tempfile.TemporaryDirectory()
        self.folder = pathlib.Path(self.held.name)
        lay_out(self.folder)
        self.jobs = Jobs()

    def answer(self, asked, given):
        program = importlib.import_module("model.program")
        return program.Program(self.folder, given, self.jobs.job_of).answer(asked.split())

    def agrees(self, asked, status, wanted, given):
        """Whether the model answers so: status, and print or files."""
        found = self.answer(asked, given)
        if found.status != status:
            return False
        if isinstance(wanted, list):
            sides = [found.made[name] for name in sorted(found.made, key=lambda name: int(name[5:-4]))]
            more = wanted[-1] is ...
            return not found.out + found.err and (sides[:len(wanted) - 1] == wanted[:-1] if more else sides == wanted)
        if asked.startswith("write ") and isinstance(wanted, bytes):
            return prints_what_is_wanted(wanted, found.made["/dev/stdout"])
        if isinstance(wanted, bytes):
            return (found.out, found.err) == (wanted, b"")
        return found.out + found.err == wanted.encode()

    def leaves(self, asked, name, given, status, content):
        """Whether the model ends so and leaves this in the file, which was an older one before."""
        found = self.answer(asked, given)
        left = found.made.get(name, made.OLDER)
        if asked.startswith("write ") and status == 0:
            return found.status == 0 and prints_what_is_wanted(content, left)
        return (found.status, left) == (status, content)

    def goes_there_and_back(self, stream):
        text = self.answer("disasm -", stream).out
        return self.answer("disasm -", self.answer("asm - /dev/stdout", text).out).out == text


def prints_what_is_wanted(stream, written):
    """Whether the job that stands there prints the sheets that its ticket wants."""
    runs, ticket = importlib.import_module("model.runs"), importlib.import_module("model.ticket")
    outcome = runs.run_stream(stream)
    read, images = written
    wanted = [[ticket.side_lines(read, images[page]) for page in sheet if page is not None] for sheet in ticket.wanted_page_sheets(read)]
    found = [[side.lines for _, side in sheet.sides()] for sheet in outcome.sheets]
    size = (read.size().width, read.size().height)
    return outcome.replies == b"" and found == wanted and all(
        (side.width(), side.height()) == size for sheet in outcome.sheets for _, side in sheet.sides())


def digest_by_model(stream):
    outcome = importlib.import_module("model.runs").run_stream(stream)
    listing = importlib.import_module("model.pages").listing(outcome.sheets, outcome.replies)
    return effects.digest_of(importlib.import_module("model.trace_lines").steps(stream), listing)


def worked_rows():
    """The tests of the model, each of which stands for its examples."""
    names = [name for name in vars(importlib.import_module("model.tests")) if name.startswith("test_")]
    for name in names:
        yield Row(WORKED, name[5:].replace("_", " "), lambda name=name: passes(name))


def passes(name):
    tests = importlib.import_module("model.tests")
    try:
        getattr(tests, name)()
    except AssertionError as failed:
        trace = failed.__traceback__
        while trace.tb_next:
            trace = trace.tb_next
        if trace.tb_frame.f_globals is vars(tests):
            return False
        raise
    return True


def every_row():
    """All rows. Those whose answer is a text of help or usage have none in the model, and fall over."""
    asking = Asking()
    for name, row in named_rows():
        yield Row(ASKED, name, lambda row=row: asking.agrees(*row))
    for row in made.ROWS:
        yield Row(ASKED, f"made: {shown(row[0], row[2])}", lambda row=row: asking.leaves(*row))
    for stream in assembly.THERE_AND_BACK:
        yield Row(ASKED, f"there and back: {stream[:60]!r}", lambda stream=stream: asking.goes_there_and_back(stream))
    for shows, stream, wanted in leaves.ROWS:
        yield Row(ASKED, f"leaves: {shows}", lambda stream=stream, wanted=wanted: digest_by_model(stream) == wanted)
    for row in examples():
        yield Row(EXAMPLE, shown(row[0], row[3]), lambda row=row: asking.agrees(*row))
    yield from worked_rows()
