"""The cause by experiment: a stream is printed without one of its commands, for each in turn, and what mends a page is told."""

import functools
import os
import re
import tempfile
from concurrent.futures import ThreadPoolExecutor
from pathlib import Path
from typing import NamedTuple

from seen import pages_of, program
from seen.printable import printable

from . import dots, matching

MOST_TRIALS = 200
MOST_TOLD = 3
LONGEST = 60
LIKE_ROWS = re.compile(rb"par \*b[^ ]*[WV]( |$)|txt|for|brk|ctl 00")     # lines that are left as they are: data, and what marks nothing


class Cause(NamedTuple):
    number: int        # of the command that is left out, from 1
    line: str
    verdict: matching.Verdict

    def told(self):
        return f"without {self.line} (command {self.number}): {self.verdict.told()}"

    def as_json(self):
        return {"command": self.number, "text": self.line, "page": self.verdict._asdict()}


def verdicts(pictures, names, at):
    """What each side is of its picture."""
    names = [*names, *[None] * (len(pictures) - len(names))]
    return [matching.verdict(picture, name and dots.side_in(name), at) for picture, name in zip(pictures, names)]


def printed_without(lines, place, front, pictures, before, at):
    """What each side that was not right is of its picture at its place, where a command is left out."""
    text = b"".join(line + b"\n" for number, line in enumerate(lines) if number != place)
    with tempfile.TemporaryDirectory() as path:
        folder = Path(path)
        if program.ask(["asm", "-", "stream"], text, folder=folder).returncode:
            return []
        stream = front + (folder / "stream").read_bytes()
        try:
            names = pages_of.without_copies(pages_of.print_into(folder, stream), stream)
            return [(number, matching.verdict_there(picture, dots.side_in(name), at))
                    for number, (picture, name, verdict) in enumerate(zip(pictures, names, before), 1) if not verdict.is_right()]
        except pages_of.Fault:
            return []


def causes(stream, front, pictures, before, at):
    """How many commands were tried; and for the number of each page that is not right those without which it is, or else those without which the
    least is wrong."""
    if all(verdict.is_right() for verdict in before):
        return 0, {}
    lines = pages_of.asked(["disasm", "-"], stream, program.PROGRAM, None).split(b"\n")[:-1]
    tried = [place for place, line in enumerate(lines) if not LIKE_ROWS.match(line)][:MOST_TRIALS]
    with ThreadPoolExecutor(os.cpu_count()) as pool:
        found = list(pool.map(functools.partial(printed_without, lines, front=front, pictures=pictures, before=before, at=at), tried))
    every = [(Cause(place + 1, printable(lines[place].decode(errors="replace"), LONGEST), verdict), number)
             for place, some in zip(tried, found) for number, verdict in some]
    return len(tried), {number: best([cause for cause, page in every if page == number], verdict)
                        for number, verdict in enumerate(before, 1) if not verdict.is_right()}


def best(some, before):
    """Those that make it right, or else those that leave the least wrong, of which half as much is."""
    right = [cause for cause in some if cause.verdict.is_right()]
    better = [cause for cause in some if is_better(cause.verdict, before)]
    least = min((cause.verdict.wrong() for cause in better), default=0)
    return (right or [cause for cause in better if cause.verdict.wrong() == least])[:MOST_TOLD]


def is_better(verdict, before):
    """Whether half as much is wrong at the page's place, or as little stands there as stood elsewhere."""
    if verdict.what == "blank":
        return False
    return before.what == "none" or 2 * verdict.wrong() < before.wrong() or before.moved != (0, 0) and verdict.what != "other" and verdict.wrong() <= before.wrong()
