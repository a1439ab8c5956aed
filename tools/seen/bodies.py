"""Which command each step of a trace takes: the next one of the stream, or of the innermost body that runs, and where that was recorded."""

from types import SimpleNamespace
from typing import NamedTuple, Optional

from model import commands, engine, pjl, table
from model.patterns import Patterns

from .sent import letters

EXECUTE, CALL = 2, 3
RESETS = (commands.Uel,)
ON_PATTERNS = {"*cW": table.define_pattern, "*cQ": table.pattern_control}


class Placed(NamedTuple):
    """A command, and the bytes of the file that it takes; of bytes of text or of another language that stand together the first, and all."""
    offset: int
    length: int
    command: tuple

    def count(self):
        """How many commands it stands for."""
        return self.length if isinstance(self.command, (commands.Text, commands.Foreign)) else 1


class Body:
    """A macro or an overlay that runs: its commands, and how many of them were taken."""

    def __init__(self, overlay, number, some, starter):
        self.overlay = overlay
        self.number = number
        self.commands = some
        self.starter = starter   # the command that started it
        self.taken = 0

    def name(self):
        return f"{'overlay' if self.overlay else 'macro'} {self.number}"


class Step(NamedTuple):
    placed: Placed           # the command that was taken, where it stands in the stream
    stack: tuple             # the bodies that ran when it was taken, the innermost last
    how: str                 # as how_of tells it
    recorded_in: Optional[int]
    before: dict             # the fields before it
    after: dict


def how_of(line):
    """How the command of a line went: "row", "recorded", or why it was refused: "HP-GL/2", "overlay" (in a body alone), "no row", "no such value"."""
    return "recorded" if "recorded" in line else line.get("refused", "row")


class Follower:
    """Follows the lines of a trace through the commands of its stream."""

    def __init__(self, before):
        self.fields = before
        self.macros = {}
        self.recording = []
        self.bodies = []
        self.patterns = Patterns()

    def next_of_body(self):
        """The command that the innermost body takes next; None where none runs."""
        if not self.bodies:
            return None
        body = self.bodies[-1]
        return body.commands[body.taken]

    def go_on(self, line, placed, after):
        """The step of a line that takes this command of the stream, unless a body runs; `after` are the fields behind it."""
        before, self.fields = self.fields, after
        stack = tuple(self.bodies)
        if stack:
            placed = self.next_of_body()
            stack[-1].taken += 1
        if line["last"] != commands.kind(placed.command):
            raise ValueError(f"step {line['step']} takes {line['last']}, and {commands.kind(placed.command)} stands at {placed.offset}")
        how = how_of(line)
        self.record(placed, how, before, after)
        if how == "row":
            self.keep_patterns(placed.command, before)
        self.run_bodies(placed, line["depth"], how, before)
        return Step(placed, stack, how, before["defining"] if how == "recorded" else None, before, after)

    def record(self, placed, how, before, after):
        if how == "recorded":
            self.recording.append(placed)
        elif before["defining"] is not None and after["defining"] is None:
            if letters(placed.command) == "&fX":
                self.macros[before["defining"]] = self.recording
            self.recording = []

    def run_bodies(self, placed, depth, how, before):
        """A body that starts, and those that are used up."""
        if depth > len(self.bodies):
            control = letters(placed.command) == "&fX" and how == "row" and placed.command.value().whole() in (EXECUTE, CALL)
            number = before["macro_id"] if control else before["overlay"]
            self.bodies.append(Body(not control, number, self.macros[number], placed))
        del self.bodies[depth:]

    def keep_patterns(self, command, before):
        """The user's patterns that there are."""
        if (carry_out := ON_PATTERNS.get(letters(command))) is not None:
            carry_out(SimpleNamespace(state=SimpleNamespace(patterns=self.patterns, pattern_id=before["pattern_id"]), names=bool), command)
        elif resets(command):
            self.patterns.delete_temporary()


def resets(command):
    """Whether a command resets the engine."""
    if isinstance(command, commands.PjlLine):
        read = pjl.read_line(command.line)
        return read is not None and pjl.Environment().pending_change(read) is not None
    return isinstance(command, RESETS) or engine.is_reset(command)
