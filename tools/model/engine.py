"""The engine: runs whole commands, a table step at a time.

`Engine.run` is a generator. It stands still right before it takes a command of a running body, so one turn of it
is one table step: the command that it took, then the end of each body that is used up and of each page close that
waited for its overlay.
"""

from typing import NamedTuple

from . import macros, marks, pages, pjl, table
from .commands import Escape, Param, PjlLine, Uel, kind
from .state import GREATEST_COUNT, State

RECORDED = "recorded"
# Why a command that is not recorded is refused: the first of these that holds before its step.
IN_HPGL, IN_OVERLAY, NO_ROW, NO_SUCH_VALUE = "HP-GL/2", "overlay", "no row", "no such value"


class Deliver(NamedTuple):
    sheet: pages.Sheet


class Reply(NamedTuple):
    reply: bytes


class Item(NamedTuple):
    """The state after a table step; item 0 is power on."""
    step: int
    depth: int
    kind: str       # of the command that the step took
    last: str       # the same, or "recorded"
    outputs: tuple  # of the step
    view: dict


class Engine:
    def __init__(self, viewed=False):
        self.viewed = viewed
        self.state = State()
        self.new_page()
        self.outputs = []
        self.shown = 0
        self.taken = 0
        self.depth = 0
        self.level = 0
        self.in_overlay = False
        self.command = None  # that the last step took
        self.kind = None
        self.last = None
        self.refused = None  # why the last step's command was, if it was
        self.row_counts = {}  # how often each row was taken

    def item(self):
        outputs = tuple(self.outputs[self.shown:])
        self.shown = len(self.outputs)
        view = self.state.view() if self.viewed else None
        return Item(self.taken, self.depth, self.kind, self.last, outputs, view)

    def steps(self, command):
        """A whole command: the item of each of its table steps."""
        for _ in self.run(command):
            yield self.item()
        yield self.item()

    def run(self, command):
        """Takes one command and runs the bodies that it starts."""
        self.taken += 1
        self.command = command
        self.kind = kind(command)
        self.last = self.kind
        self.refused = None
        row = table.row_of(command)
        if self.state.defining is not None and not ends_or_passes_definition(command):
            self.last = RECORDED
            self.state.definition.append(command)
        elif self.state.hpgl and not passes_hpgl(command):
            self.refused = IN_HPGL
        elif self.in_overlay and table.is_skipped_in_overlay(row):
            self.refused = IN_OVERLAY
        elif row is None:
            self.refused = NO_ROW
        else:
            self.row_counts[row.name] = self.row_counts.get(row.name, 0) + 1
            yield from row.effect(self, command) or ()

    def names(self, named):
        """Whether the row names the command's value, as it says itself; if not, the command is refused."""
        if not named:
            self.refused = NO_SUCH_VALUE
        return named

    def new_page(self):
        self.state.page = None
        self.state.marked = False

    def page_to_mark(self):
        """The open page, whose size and orientation are those in force while it is marked."""
        state = self.state
        if state.page is None:
            state.page = pages.Bitmap(state.size, state.orientation)
        assert (state.page.size, state.page.orientation) == (state.size, state.orientation)
        state.marked = True
        return state.page

    def close_page(self):
        """The overlay, the side, the sheet."""
        self.state.end_raster()
        yield from macros.run_overlay(self)
        state = self.state
        side = state.page or pages.Bitmap(state.size, state.orientation)
        self.new_page()
        if not state.duplex:
            self.deliver(pages.Sheet(side, None))
        elif state.pending_front is None:
            state.pending_front = side
        else:
            front = state.pending_front
            state.pending_front = None
            self.deliver(pages.Sheet(front, side))

    def close_if_marked(self):
        """Whether the page was closed is told by `marked` before the call."""
        if self.state.marked:
            yield from self.close_page()

    def deliver_pending_front(self):
        front = self.state.pending_front
        if front is not None:
            self.state.pending_front = None
            self.deliver(pages.Sheet(front, None))

    def deliver(self, sheet):
        state = self.state
        for _ in range(state.copies):
            self.outputs.append(Deliver(sheet))
            state.total = min(GREATEST_COUNT, state.total + 1)
            state.since_job = min(GREATEST_COUNT, state.since_job + 1)
            if state.pjl.status:
                self.outputs.append(Reply(pjl.page_reply(state.since_job)))

    def reply(self, reply):
        if reply:
            self.outputs.append(Reply(reply))

    def exit(self):
        """The universal exit and ESC E."""
        self.state.defining = None
        self.state.definition = []
        self.state.hpgl = False
        yield from self.close_if_marked()
        self.deliver_pending_front()
        self.state.reset()
        self.new_page()

    def fill(self, pattern):
        marks.fill(self, pattern)


def passes_hpgl(command):
    """Has its effect while HP-GL/2 is on."""
    if isinstance(command, Param):
        return (command.character, command.group, command.end) == (ord("%"), None, ord("A"))
    return isinstance(command, (Uel, PjlLine)) or is_reset(command)


def ends_or_passes_definition(command):
    """Is not recorded while a definition is open."""
    if isinstance(command, Param):
        ends = (command.character, command.group, command.end) == (ord("&"), ord("f"), ord("X"))
        return ends and command.value().whole() == 1
    return isinstance(command, (Uel, PjlLine)) or is_reset(command)


def is_reset(command):
    return isinstance(command, Escape) and command.byte == ord("E")
