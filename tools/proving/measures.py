"""What the proof of each crate took when it was last proved here: a small table, which the order of the next run stands on.

Before the first run the table is proving/measured.json, of a machine with four processors; a crate that is in neither is reckoned by its lines.
"""

import dataclasses
import json
from pathlib import Path

MEASURED = Path(__file__).resolve().parent / "measured.json"

SECONDS_A_LINE = 0.06          # of a crate that was not measured here
SECONDS_AT_LEAST = 15          # what the prover reads before it begins
BYTES_AT_LEAST = 1_000_000_000
BYTES_A_LINE, BYTES_A_LINE_BELOW = 200_000, 40_000
MORE_FOR_A_JOB = 0.6           # of a crate's memory, for each job but the first


@dataclasses.dataclass
class Measure:
    """One proof: seconds of wall and of processors, the memory of its largest process in bytes, and its jobs."""

    seconds: float
    processor_seconds: float
    memory: int
    jobs: int


class Measures:
    """The table; what is not in it is reckoned from a crate's lines."""

    def __init__(self, path, given):
        self.path, self.given = path, given
        self.table = self.read(MEASURED) | self.read(path)

    @staticmethod
    def read(path):
        try:
            return {name: Measure(**row) for name, row in json.loads(path.read_text()).items()}
        except (OSError, ValueError, TypeError):
            return {}

    def note(self, name, measure):
        """Puts the measure of a crate into the table of this checkout; one that took up kept work says little, and is left out."""
        if name in self.table and measure.processor_seconds < self.table[name].processor_seconds / 2:
            return
        self.table[name] = measure
        written = self.path.with_suffix(".new")
        rows = ",\n".join(f'"{crate}": {json.dumps(dataclasses.asdict(row))}' for crate, row in sorted(self.table.items()))
        written.write_text(f"{{\n{rows}\n}}\n")
        written.replace(self.path)

    def seconds(self, name):
        if name in self.table:
            return self.table[name].seconds
        return SECONDS_AT_LEAST + SECONDS_A_LINE * self.given.lines(name)

    def processor_seconds(self, name):
        return self.table[name].processor_seconds if name in self.table else self.seconds(name)

    def memory(self, name, jobs):
        """The bytes that the proof of a crate with so many jobs takes, or a few less."""
        if name in self.table:
            alone = self.table[name].memory
        else:
            below = sum(self.given.lines(crate) for crate in self.given.below(name))
            alone = BYTES_AT_LEAST + BYTES_A_LINE * self.given.lines(name) + BYTES_A_LINE_BELOW * below
        return alone * (1 + MORE_FOR_A_JOB * (jobs - 1))
