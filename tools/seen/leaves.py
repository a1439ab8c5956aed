"""Which page goes out on which sheet, from the lines of a trace: pages close, and a front may wait for its back."""

from typing import NamedTuple, Optional

from model import commands

from .fields import State
from .sent import letters

BLANK = -1          # a front that was asked for, and was no open page
LINE_FEED, FORM_FEED, CARRIAGE_RETURN, HALF_LINE = 0x0A, 0x0C, 0x0D, ord("=")
BACK_SIDE = 2


class Sheet(NamedTuple):
    number: int            # of the first of its copies
    copies: int
    front: int             # the number of its page, in the order in which they close, or BLANK
    back: Optional[int]


class Leaves:
    """The sheets that went out, and the page that waits for its back."""

    def __init__(self):
        self.closed = 0
        self.waits = None
        self.sheets = []
        self.started = []    # for each body that runs, the step that started it

    def go_on(self, line, step):
        """Goes on by a step. Answers whether a page closes in it, and the sheet that goes out, or None."""
        ended = self.ended(line["depth"], step)
        closes = "page" in line and line["page"] is None or any(map(closes_unmarked, ended))
        sheet = self.side_of(step) if closes else None
        if closes:
            self.closed += 1
        if sheet is None and line.get("delivered") and self.waits is not None:
            sheet, self.waits = (self.waits, None), None
        if self.waits is None and any(map(asks_for_back, ended)):
            self.waits = BLANK
        if sheet is None or not line.get("delivered"):
            return closes, None
        copies = line["delivered"]
        self.sheets.append(Sheet(line["sheets"] - copies + 1, copies, *sheet))
        return closes, self.sheets[-1]

    def ended(self, depth, step):
        """The steps whose commands are at their end behind a step: its own, unless that starts a body, and those whose bodies end."""
        if depth > len(self.started):
            self.started.append(step)
            return []
        ended, self.started = [*self.started[depth:], step], self.started[:depth]
        return ended

    def side_of(self, step):
        """Front and back of the sheet on which the page that closes goes out, or None where it waits."""
        if not step.before["duplex"]:
            return self.closed, None
        if self.waits is None:
            self.waits = self.closed
            return None
        front, self.waits = self.waits, None
        return front, self.closed


def in_overlay(step):
    return any(body.overlay for body in step.stack)


def closes_unmarked(step):
    """Whether a command closes the page though it has no mark: a form feed, and a feed past the limit."""
    if step.how != "row" or in_overlay(step):
        return False
    command, before = step.placed.command, step.before
    if isinstance(command, commands.Control):
        if command.control == FORM_FEED:
            return True
        feeds = command.control == LINE_FEED or command.control == CARRIAGE_RETURN and before["line_termination"] in (1, 3)
        return feeds and is_past(before, before["vmi"])
    return isinstance(command, commands.Escape) and command.byte == HALF_LINE and is_past(before, before["vmi"] // 2)


def is_past(before, distance):
    """Whether a feed of this distance goes below the limit."""
    limit = before["text_length"] if before["perforation_skip"] else State(before).logical_length() - before["top_margin"]
    return before["y"] + distance > limit


def asks_for_back(step):
    """Whether a command asks for the back of a leaf, for which a blank front is then put."""
    return (step.how == "row" and letters(step.placed.command) == "&aG" and step.placed.command.value().whole() == BACK_SIDE
            and step.after["duplex"])
