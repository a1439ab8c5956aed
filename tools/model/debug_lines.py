"""The lines of the program's debugger, and its answers, on the trace of a stream.

Words of a line are separated by one space. `step`, `over` and `go N` answer where they stopped; `break KIND` sets the lowest
free breakpoint of 32, `clear N` frees one, `recent` lists the kinds of the last commands. A refusal is an answer; any other
line is answered `what?`.
"""

import re

from . import commands, runs
from .press_lines import WHAT, lines_of, number_of

MOST_BREAKPOINTS = 32
TOO_MANY, NO_SUCH = 501, 502

# How the four forms of a kind are spelled, and what they say of the kind of a command.
ESCAPE = re.compile(rb"esc ([\x30-\x7e])")
PARAMETER = re.compile(rb"par ([\x21-\x2f])([\x60-\x7e]?)([\x40-\x5e])")
CONTROL = re.compile(rb"ctl ([0-9A-Fa-f]{2})")


def kind_of(words):
    """The kind that a breakpoint waits for, as `commands.kind` spells it, or None."""
    if words == b"uel":
        return commands.kind(commands.Uel())
    if found := ESCAPE.fullmatch(words):
        return commands.kind(commands.Escape(found[1][0]))
    if found := PARAMETER.fullmatch(words):
        character, group, end = found[1][0], found[2][0] if found[2] else None, found[3][0]
        return commands.kind(commands.Param(character, group, b"", end, b""))
    if found := CONTROL.fullmatch(words):
        byte = int(found[1], 16)
        return commands.kind(commands.Control(byte)) if byte < 32 and byte != 27 else None
    return None


class DebugLines:
    def __init__(self, stream):
        self.debugger = runs.Debugger(stream)
        self.before = runs.Engine(viewed=True).state.view()

    def stopped(self, word):
        """Where the debugger stands."""
        debugger = self.debugger
        view = debugger.items[debugger.place - 1].view if debugger.place else self.before
        return "%s step %d depth %d x %d y %d" % (word, debugger.step(), debugger.depth(), view["x"], view["y"])

    def set_break(self, kind):
        breaks = self.debugger.breaks
        free = [number for number in range(MOST_BREAKPOINTS) if number not in breaks]
        if not free:
            return "fault %d" % TOO_MANY
        breaks[free[0]] = lambda debugger: debugger.last() == kind
        return "set %d" % free[0]

    def clear(self, number):
        if self.debugger.breaks.pop(number, None) is None:
            return "fault %d" % NO_SUCH
        return "cleared %d" % number

    def answers(self, line):
        """The lines of the answer."""
        word, _, rest = line.partition(b" ")
        if line == b"step":
            return [self.stopped(self.debugger.step_into())]
        if line == b"over":
            return [self.stopped(self.debugger.step_over())]
        if line == b"recent":
            return self.debugger.recent()
        number = number_of(rest)
        if word == b"go" and number is not None:
            return [self.stopped(self.debugger.go(number))]
        if word == b"clear" and number is not None:
            return [self.clear(number)]
        kind = kind_of(rest)
        if word == b"break" and kind is not None:
            return [self.set_break(kind)]
        return [WHAT]

    def run(self, script):
        return "".join(answer + "\n" for line in lines_of(script) for answer in self.answers(line))
