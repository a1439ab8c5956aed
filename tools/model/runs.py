"""Whole runs: the trace of a stream, its sheets and replies, and the debugger's stops on a trace."""

from .commands import Uel, closed
from .engine import Deliver, Engine, Reply


def trace(stream, viewed=True):
    """The items of a stream at its end, after item 0: the universal exit is added."""
    engine = Engine(viewed)
    items = []
    for command in closed(stream) + [Uel()]:
        items += engine.steps(command)
    return items


class Outcome:
    """What a run hands out, and the engine that it leaves."""

    def __init__(self, engine):
        self.engine = engine
        self.sheets = [output.sheet for output in engine.outputs if isinstance(output, Deliver)]
        self.replies = b"".join(
            output.reply for output in engine.outputs if isinstance(output, Reply))


def run_commands(commands):
    engine = Engine()
    for command in commands:
        for _ in engine.run(command):
            pass
    return Outcome(engine)


def run_stream(stream):
    """A stream with its end."""
    return run_commands(closed(stream) + [Uel()])


class Counted(Outcome):
    """A run with how often it took each row of the table, and how many bodies ran at once at most."""

    def __init__(self, engine, rows, deepest):
        super().__init__(engine)
        self.rows = rows
        self.deepest = deepest


def count_rows(stream):
    engine = Engine()
    deepest = 0
    for command in closed(stream) + [Uel()]:
        for _ in engine.run(command):
            deepest = max(deepest, engine.depth)
    return Counted(engine, engine.row_counts, deepest)


class Debugger:
    """Stops on a trace. A breakpoint is a test on an item and on the number of sheets delivered by then."""

    def __init__(self, stream):
        self.items = trace(stream)
        self.place = 0
        self.breaks = {}

    def step(self):
        return self.items[self.place - 1].step if self.place else 0

    def depth(self):
        return self.items[self.place - 1].depth if self.place else 0

    def sheets(self):
        outputs = [output for item in self.items[:self.place] for output in item.outputs]
        return sum(isinstance(output, Deliver) for output in outputs)

    def left(self):
        return len(self.items) - self.place

    def step_into(self):
        if not self.left():
            return "ended"
        self.place += 1
        return "stepped"

    def step_over(self):
        if not self.left():
            return "ended"
        depth = self.depth()
        self.place += 1
        while self.depth() > depth:
            self.place += 1
        return "stepped"

    def go(self, most):
        for _ in range(min(most, self.left())):
            self.place += 1
            met = [number for number, test in sorted(self.breaks.items()) if test(self)]
            if met:
                return "break %d" % met[0]
        return "limit" if self.left() else "ended"

    def last(self):
        return self.items[self.place - 1].last if self.place else None

    def recent(self):
        """The kinds of the last 64 commands taken, oldest first."""
        return [item.kind for item in self.items[:self.place][-64:]]
