"""How long the proof of the press takes, reckoned from what each crate took when it was proved last."""

import os

from proving import sources
from proving.measures import Measures
from seen import program


class Rows:
    """The crates that the program is made of: what a table of measures asks of a run's copy of the sources."""

    def __init__(self, root=program.ROOT):
        self.root = root
        self.rows = sources.rows_of(root)
        self.names = sources.below(self.rows, sources.PROGRAM)

    def uses(self, name):
        return [crate for crate in self.rows[name] if crate in self.rows]

    def below(self, name):
        return {crate for crate in sources.below(self.rows, name) if crate != name}

    def lines(self, name):
        folders = (self.root / "crates" / name / part for part in sources.PARTS)
        return sum(path.read_bytes().count(b"\n") for folder in folders for path in folder.glob("**/*") if path.is_file())


def minutes(ways, processor_seconds, jobs):
    """The minutes of some crates: those of the longest chain among them, or of all of them shared out, if that is longer."""
    return max([0, *ways, sum(processor_seconds) / max(1, jobs)]) / 60


def in_words(number):
    return f"{max(1, round(number))} minute{'s' if round(number) > 1 else ''}"


def of_all(jobs):
    """The minutes until the program is proved, of the crates of which no proof stands."""
    rows = Rows()
    logs = program.ROOT / "out" / "prove"
    table = Measures(logs / "measures.json", rows)
    left = [name for name in rows.names if not (logs / "done" / name).exists()] or [sources.PROGRAM]
    ways = {}
    for name in sorted(left, key=lambda name: len(rows.below(name))):
        ways[name] = table.seconds(name) + max((ways[used] for used in rows.uses(name) if used in ways), default=0)
    return minutes(ways.values(), map(table.processor_seconds, left), jobs)


def told():
    """The same in words."""
    return f"in about {in_words(of_all(len(os.sched_getaffinity(0))))}"
