"""What a stream prints, as the listing tells it: for each side its size, and how many dots are black."""

import re
from typing import NamedTuple

from . import program

LINE = re.compile(rb"sheet (\d+) (front|back) (\d+)x(\d+) black (\d+)\n")


class Listed(NamedTuple):
    width: int
    height: int
    black: int

    def count_black(self):
        return self.black


def listing_of(run):
    """The program's listing of a run's stream."""
    ran = program.ask(["print", "--list", "-"], run.whole, run.chosen)
    if ran.returncode:
        raise OSError(f"press print: {ran.stderr.decode(errors='replace').strip()}")
    return ran.stdout


class Sides:
    """The sides that went out, without copies: for each what is listed of it, the number of its sheet, `front` or `back`, and copies. They are read from
    the listing as far as the run has come."""

    def __init__(self, run):
        self.run, self.text = run, listing_of(run)
        self.place = self.sheets = self.lines = 0
        self.found, self.pages = [], []     # the sides, and for each its page

    def go_on(self):
        """Reads those that the run has handed out since."""
        for sheet in self.run.leaves.sheets[self.sheets:]:
            for name, page in (("front", sheet.front), ("back", sheet.back)):
                if page is not None:
                    self.found.append((self.take(sheet.number, name), sheet.number, name, sheet.copies))
                    self.pages.append(page)
        self.sheets = len(self.run.leaves.sheets)

    def take(self, number, name):
        """What is listed of a side; copies stand before it."""
        while (line := self.line()) is not None:
            if int(line[1]) == number and line[2].decode() == name:
                return Listed(*map(int, line.groups()[2:]))
        raise ValueError("the listing has other sides than the trace")

    def line(self):
        line = LINE.match(self.text, self.place)
        if line is not None:
            self.place, self.lines = line.end(), self.lines + 1
        return line

    def all(self):
        """All, at the end of the run."""
        self.go_on()
        wanted = sum(copies for _, _, _, copies in self.found)
        while self.lines < wanted and self.line() is not None:
            pass
        if self.lines != wanted:
            raise ValueError("the listing has other sides than the trace")
        return self.found


def sides(run):
    """The sides of a run that was read."""
    return Sides(run).all()
