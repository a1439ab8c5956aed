"""Which command of a stream made a dot what it is, through macros and overlays, and which put its cursor there."""

import bisect
import collections
import itertools
from typing import NamedTuple

from model.asm import line_of_command
from seen import happenings, program, remarks, sides
from seen.printable import printable
from seen.sent import SENDING, letters

LONGEST = 60      # characters of a command that are told
KEPT = 40         # commands that set each field on which a place depends
OWN = ("x", "y")
PLACING = (*OWN, "top_margin", "orientation", "size", "resolution")


class Mover(NamedTuple):
    """A command that changed a field on which the place of marks depends."""
    byte: int
    text: str
    value: object


class Maker(NamedTuple):
    step: int
    byte: int              # where its command stands
    text: str              # as assembly text has it
    name: str              # what HP calls it
    effect: str            # what it did
    bodies: tuple          # the macros and overlays that it stands in
    runs_at: int           # where the command of the stream stands that it belongs to
    movers: dict           # of each such field the commands that changed it, the last at the end
    place: dict            # what these fields were
    unit: int              # PCL units per inch

    def told(self):
        body = "".join(f", in {name}" for name in self.bodies)
        return f"byte {self.byte}: {self.text} ({self.name}){body}" + (f", run at byte {self.runs_at}" if self.bodies else "")

    def as_json(self):
        return {"byte": self.byte, "step": self.step, "command": self.text, "name": self.name, "effect": self.effect, "in": list(self.bodies),
                "run_at": self.runs_at}


def text_of(command):
    text = line_of_command(command)
    return text if len(text) <= LONGEST else text[:LONGEST] + ".."


class Makers:
    """The steps that made some dots of the pages of a stream what they are: dots are pairs of line and column, asked of each page up to that of the last
    file that is looked at; what follows is not read."""

    def __init__(self, stream, front, wanted, last, chosen=program.PROGRAM):
        self.wanted, self.made, self.closers, self.shift = sorted(wanted), {}, {}, len(front)
        self.movers = {name: collections.deque(maxlen=KEPT) for name in PLACING}
        self.last = 0, None, None     # the step before: the page that was open before it, its line and step
        run = happenings.Run(stream, front=front, chosen=chosen, watch=self)
        for each in run:
            if each.sheets and len(self.pages_of(run)) >= last:
                run.stop()
                break
        self.note_close(run)
        self.pages, self.last = self.pages_of(run), None

    def pages_of(self, run):
        """For each file of a side so far the number of its page."""
        told = run.pages_of_sides()
        return [told[place][0] for place in sides.places_of_files(told)]

    def maker(self, number, dot, is_black):
        """The step that made a dot of the file of this number, from 1; None where nothing did. The trace does not tell what the last command of an
        overlay marks: it is the one in whose step the page closes."""
        page = self.pages[number - 1]
        made, black = self.made.get((page, dot), (None, False))
        return made if black == is_black else self.closers.get(page)

    def __call__(self, run, line, step):
        """Notes what a line tells of the dots, before the page goes on by it."""
        self.note_close(run)
        self.last = run.leaves.closed, line, step
        if step is None:
            return
        self.note_moves(step)
        if line.get("page"):
            patch, page = run.marks.patch_of(line), run.leaves.closed
            self.note_dots(patch, page, lambda: self.of(happenings.of_step(line, step, page, patch), line, step.stack))

    def row(self, run, step, row, _):
        """The same of a row within raster graphics."""
        self.note_close(run)
        self.last = run.leaves.closed, None, None
        if row.patch:
            self.note_dots(row.patch, row.page, lambda: self.of(row, {"step": step, "at": row.offset + self.shift}, ()))

    def note_close(self, run):
        """Notes the last step where a page closed in it, and its command stands in a body."""
        page, line, step = self.last
        if run.leaves.closed != page and step is not None and step.stack:
            self.closers[page] = self.of(happenings.of_step(line, step, page), line, step.stack)

    def note_dots(self, patch, page, make):
        """Notes those of the dots that a patch turns, and by which command."""
        first = bisect.bisect_left(self.wanted, (patch.laid.top, 8 * patch.laid.left))
        last = bisect.bisect_left(self.wanted, (patch.laid.top + patch.laid.count(), 0))
        if first == last:
            return
        left, top, rows, old = patch.whole()
        made = None
        for line, column in self.wanted[first:last]:
            if 8 * left <= column < 8 * (left + len(rows[0])):
                black, before = rows[line - top][column // 8 - left] >> 7 - column % 8 & 1, old[line - top][column // 8] >> 7 - column % 8 & 1
                if black != before:
                    made = made or make()
                    self.made[page, (line, column)] = made, bool(black)

    def note_moves(self, step):
        before, after, command = step.before, step.after, step.placed.command
        for name in OWN if before.base is after.base else PLACING:
            if before[name] != after[name] and letters(command) not in SENDING:
                self.movers[name].append(Mover(step.placed.offset, text_of(command), after[name]))

    def of(self, happening, line, stack):
        placed, before = happening.placed, happening.before
        return Maker(line["step"], placed.offset, text_of(placed.command), printable(remarks.name_of(placed.command)),
                     printable(remarks.effect_of(happening, before["pattern_id"])), tuple(body.name() for body in stack), line["at"] - self.shift,
                     {name: list(some) for name, some in self.movers.items()}, {name: before[name] for name in PLACING}, before["unit"])


def movers_that_differ(old, new):
    """For each field on which a place depends the commands of both that set it otherwise: the last ones, or, where they are the same command and
    the field was another before it, those before. None stands for the printer's own setting."""
    for name in PLACING:
        if old.place[name] == new.place[name]:
            continue
        pair = None
        for one, other in itertools.zip_longest(reversed(old.movers[name]), reversed(new.movers[name])):
            if one and other and one.value == other.value:
                break
            pair = one, other
            if one is None or other is None or one.text != other.text:
                break
        if pair:
            yield pair
