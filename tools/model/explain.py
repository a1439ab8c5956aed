"""What a stream does, command by command, as `press explain` writes it: assembly text with a remark in front of each command, as docs/EXPLAIN.md has it.

What a remark says of what a command did comes from the lines of the trace, of its own step and of those of the bodies that it ran; of the page it
says how that which is open behind the command differs from that which was open before it. The box of the marks is the smallest one of whole bytes; the
program's may be larger, and a line is kept in three texts, so that `tools/compare` can look at the box by itself.
"""

from typing import NamedTuple, Optional

from . import pages
from .asm import line_of_command
from .commands import Broken, Foreign, Param, PjlLine, Text, kind
from .engine import IN_HPGL
from .titles import MEANINGS, TITLES
from .trace_lines import Teller, box_of, dots_in, placed, told_of, view_of

SHOWN = 60   # bytes, at most
OTHER_TITLE = "A command that is not in HP's list"
SYMBOL_SETS = {"(": "Primary Symbol Set", ")": "Secondary Symbol Set"}
END = "the end, where a universal exit is added"
CLOSES, NOTHING = "the page closes", "changes nothing"
A_BYTE = ("txt", "for")    # the kinds of text and of another language


class Box(NamedTuple):
    """Where dots differ on the page as it lies on paper: it begins with a byte, and right and bottom are outside of it; and the page's width and height."""
    left: int
    top: int
    right: int
    bottom: int
    page: list

    def text(self):
        wide = -(-(self.right - self.left) // 8) * 8
        return f"marks within {wide} by {self.bottom - self.top} dots at {self.left}, {self.top}"


class Line(NamedTuple):
    """A line of the text: what stands before its box, the box, if there is one, and what stands behind it."""
    front: str
    box: Optional[Box] = None
    behind: str = ""

    def text(self):
        return self.front + (self.box.text() if self.box else "") + self.behind + "\n"


class Taken(NamedTuple):
    """A command that was taken: its place, what the lines of the trace tell of its steps, the fields behind it, and the page that is open behind it."""
    at: int
    command: tuple
    steps: list
    view: dict
    page: Optional[pages.Bitmap]


def taken_of(teller, stream):
    """Each command of a stream, and the exit that is added, the last."""
    page = None
    for at, size, command in placed(stream):
        steps = list(told_of(teller, at, size, command))
        if any("opened" in step or "page" in step for step in steps):
            page = copy_of(teller.engine.state.page)
        yield Taken(at, command, steps, teller.view, page)


def copy_of(page):
    """A page as it stands now."""
    if page is None:
        return None
    other = pages.Bitmap(page.size, page.orientation)
    other.lines = dict(page.lines)
    return other


class Explaining:
    """What is kept from command to command: cursor, sheets and fields, the page that is open, and the run that the last step stands in."""

    def __init__(self, state):
        self.x, self.y, self.sheets, self.view = state.x, state.y, state.total, view_of(state)
        self.page = self.run = None

    def lines(self, every):
        """The lines of commands that were taken; behind the last one stands the end."""
        last = None
        for taken in every:
            if last:
                yield from self.lines_of(last)
            last = taken
        yield self.remark(f"{last.at}: {END}", last)

    def lines_of(self, taken):
        """The remark on a command, but within a run, and the command."""
        run = run_of(taken.steps[0])
        remark = self.remark(f"{taken.at}: {title_of(taken.command)}{value_of(taken.command)}", taken)
        if run is None or run != self.run:
            yield remark
        self.run = run_of(taken.steps[-1])
        yield Line(line_of_command(taken.command))

    def remark(self, what, taken):
        """The remark on a command: what it is, and what it did."""
        front, box, behind = f"; at {what}", None, ""
        for part in self.did(taken) or [NOTHING]:
            if isinstance(part, Box):
                front, box = f"{front}; ", part
            elif box:
                behind += f"; {part}"
            else:
                front += f"; {part}"
        return Line(front, box, behind)

    def did(self, taken):
        """The parts of what a command did, one of which may be a box."""
        first, last = taken.steps[0], taken.steps[-1]
        if first.get("recorded"):
            return [f"recorded in macro {self.view['macros']['defining']}"]
        if "refused" in first:
            return [f"refused: {first['refused']}"]
        parts = [*self.page_of(taken.page), *self.counted(taken.steps), *self.moved(last), *self.changed(taken.view), *replied(taken.steps)]
        self.x, self.y, self.sheets, self.view = last["x"], last["y"], last["sheets"], taken.view
        return parts

    def page_of(self, page):
        """That the page that was open is none now, or the box in which the one that is open differs from it."""
        before, self.page = self.page, page
        if page is None:
            return [] if before is None else [CLOSES]
        box = box_between(before, page)
        return [] if box is None else [box]

    def counted(self, steps):
        sheets, commands = steps[-1]["sheets"], len(steps) - 1
        if sheets != self.sheets:
            yield f"sheets {self.sheets} to {sheets}"
        if commands:
            yield f"runs {commands} recorded commands"

    def moved(self, last):
        if last["x"] != self.x:
            yield f"x {self.x} to {last['x']}"
        if last["y"] != self.y:
            yield f"y {self.y} to {last['y']}"

    def changed(self, view):
        """The fields that changed, groups and fields in the order of a trace, which is that of their bytes."""
        for group in sorted(view):
            for name, field in sorted(view[group].items()):
                before = self.view[group][name]
                if field != before:
                    yield f"{group}.{name} {shown(before)} to {shown(field)}"


def box_between(before, page):
    """The box in which a page differs from the one before it, or from a white one, where none was or one of another size; None where they are equal."""
    if before is None or before.size != page.size:
        before = pages.Bitmap(page.size, page.orientation)
    if before.orientation != page.orientation:
        before, page = upright(before), upright(page)
    dots = {line: before.lines.get(line, 0) ^ page.lines.get(line, 0) for line in {*before.lines, *page.lines}}
    differing = {line: some for line, some in dots.items() if some}
    return Box(*box_of(page, differing), [page.width(), page.height()]) if differing else None


def upright(page):
    """The same dots with the lines as they lie on paper."""
    other = pages.Bitmap(page.size)
    other.lines = {line: int(dots[::-1], 2) for line, dots in enumerate(dots_in(page, 0, 0, page.width(), page.height()))}
    return other


def replied(steps):
    reply = "".join(step.get("reply", "") for step in steps).encode("latin-1")
    return [f"replies: {ascii_of(reply)}"] if reply else []


def run_of(step):
    """What tells the steps apart that stand in different runs; None for one that stands alone."""
    refused = step.get("refused")
    if refused == IN_HPGL:
        return refused
    if refused and step["last"] in A_BYTE:
        return refused, step["last"]
    return None


def title_of(command):
    known = TITLES.get(kind(command))
    if known is None and isinstance(command, Param) and command.group is None:
        known = SYMBOL_SETS.get(chr(command.character))
    return known or OTHER_TITLE


def value_of(command):
    """The value of a command, behind its title; empty where it has none."""
    if isinstance(command, Param):
        return field_of(command) if command.field else ""
    if isinstance(command, (Text, Foreign)):
        return f": {ascii_of(bytes([command[0]]))}"
    return f": {ascii_of(command[0])}" if isinstance(command, (Broken, PjlLine)) else ""


def field_of(command):
    meaning = MEANINGS.get((kind(command), command.value().whole()))
    return f": {command.field.decode()}" + (f" ({meaning})" if meaning else "")


def ascii_of(data):
    """Bytes as ASCII, any other as a full stop; of many the first ones."""
    return "".join(chr(byte) if 32 <= byte <= 126 else "." for byte in data[:SHOWN])


def shown(field):
    """The value of a field."""
    if isinstance(field, list):
        return f"{len(field)} pushed"
    if isinstance(field, bool):
        return "on" if field else "off"
    return "none" if field is None else str(field)


def lines(stream):
    teller = Teller()
    return Explaining(teller.engine.state).lines(taken_of(teller, stream))


def text(stream):
    return "".join(line.text() for line in lines(stream)).encode()
