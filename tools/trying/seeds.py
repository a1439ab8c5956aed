"""The frame of what compares the program with the model on random inputs: words, an input for each seed, several at once, what is kept of one that differs,
and how it ends. A comparer is what it has of its own (`Comparer`), and `main` does the rest."""

import argparse
import collections
import shutil
import subprocess
import tempfile
from concurrent.futures import ProcessPoolExecutor
from functools import partial
from pathlib import Path
from typing import Callable, NamedTuple

from seen import program

SECONDS = 120
SILENT = f"no answer in {SECONDS} seconds"


def tell_counts(counts, key=None):
    for name, count in sorted(counts.items(), key=key):
        print(f"{count:8} {name}")


class Comparer(NamedTuple):
    """What a comparer has of its own."""
    about: str                       # its text, whose first line stands over its words
    what: str                        # there is one for each seed
    count: int                       # how many, where none is said
    different: Callable              # of what is asked and a seed: what differs; else None, or a number that is added up
    agreed: str                      # what is said where nothing differs, with `{sum}` of these numbers and what is asked
    options: dict = {}               # its own words, each with what argparse wants of it
    first: Callable = None           # of what is asked: the status, where that is all that is wanted; else None
    look: Callable = None            # of what is asked, a seed and counts: prints the input, or counts what the model did, and runs no program
    shown: str = ""                  # what it prints beside each
    tell: Callable = tell_counts


def words_of(parts):
    """The words that a comparer takes; one that can show its inputs does so without the program."""
    parser = argparse.ArgumentParser(description=parts.about.splitlines()[0])
    parser.add_argument("--seed", type=int, default=1, help=f"of the first {parts.what}; the next one has the next seed")
    parser.add_argument("--count", type=int, default=parts.count, help=f"how many {parts.what}s")
    parser.add_argument("--program", type=Path, help="the program, without words; else the one that `press` runs")
    parser.add_argument("--jobs", type=int, default=1, help=f"how many {parts.what}s at once")
    if parts.look:
        parser.add_argument("--show", action="store_true", help=f"prints the {parts.what}s{parts.shown}, and runs no program")
        parser.add_argument("--coverage", action="store_true", help="counts what the model did, and runs no program")
    for word, wanted in parts.options.items():
        parser.add_argument(word, **wanted)
    return parser


def main(parts):
    """Looks at the inputs of the seeds, or compares each, up to the first of which a difference is said: the status."""
    asked, counts, sum_of_all = asked_by(words_of(parts)), collections.Counter(), 0
    if parts.look and (asked.show or asked.coverage):
        for seed in seeds(asked):
            parts.look(asked, seed, counts)
        if asked.coverage:
            parts.tell(counts)
        return 0
    if parts.first and (status := parts.first(asked)) is not None:
        return status
    for said in judged(partial(parts.different, asked), asked):
        if isinstance(said, str):
            return end(said)
        sum_of_all += said or 0
    return end(None, parts.agreed.format(sum=sum_of_all, **vars(asked)))


def asked_by(parser):
    """What is asked; status 2 where its program is not there."""
    asked = parser.parse_args()
    if not (vars(asked).get("show") or vars(asked).get("coverage")):
        asked.program = asked.program.resolve() if asked.program else program.answering()
        if not asked.program.exists():
            parser.exit(2, f"no program at {asked.program}; build it first\n")
    return asked


def seeds(asked):
    return range(asked.seed, asked.seed + asked.count)


def run(line, **others):
    """What a command line did; its words may be paths."""
    return subprocess.run([str(word) for word in line], capture_output=True, timeout=SECONDS, check=False, **others)


def judged(judge, asked):
    """What is said of each seed, in their order."""
    if asked.jobs == 1:
        yield from map(judge, seeds(asked))
        return
    with ProcessPoolExecutor(asked.jobs) as pool:
        try:
            yield from pool.map(judge, seeds(asked))
        finally:
            pool.shutdown(cancel_futures=True)


def end(different, agreed=""):
    """Says what is different, or what agrees: the status."""
    print(different or agreed)
    return 1 if different else 0


def kept(name, seed, made, different, smaller=None):
    """What is different in what is made in a folder, or None; a folder in which something is stays, with what is left of it."""
    folder = Path(tempfile.mkdtemp(prefix=f"{name}-{seed}-"))
    session = made(folder)
    found = different(session, folder)
    if found is None:
        shutil.rmtree(folder)
        return None
    return f"seed {seed}, kept in {folder}: {smaller(session, folder) if smaller else found}"
