"""How many rows, lines, streams and pictures each tool of the gate has at least, so that one that lost some fails: tools/least.json.

Who adds some raises the number in the same change; a tool that has more than stands there says so.
"""

import argparse
import json
from pathlib import Path

from . import program

PATH = program.ROOT / "tools" / "least.json"


def lacking(tool, counts, whole=True):
    """The complaints about what a tool counted; each count has to stand in the file, and where all of the tool is asked, nothing else does."""
    least = json.loads(PATH.read_text()).get(tool, {})
    if set(counts) - set(least) or (whole and set(least) - set(counts)):
        return [f"{tool} counts {', '.join(sorted(counts))}, and tools/least.json says {', '.join(sorted(least)) or 'nothing'} of it"]
    return [f"{tool} has {count} {what}, and {least[what]} stand in tools/least.json: some are missing"
            for what, count in counts.items() if count < least[what]]


def lacks(tool, counts, whole=True):
    """Whether a tool lacks some of what it is to ask, with what it lacks: then it asks nothing."""
    complaints = lacking(tool, counts, whole)
    for complaint in complaints:
        print(complaint)
    return bool(complaints)


def tell(tool, counts, wrong, whole=True):
    """Prints what a tool came to, with what it lacks: its status."""
    complaints = lacking(tool, counts, whole)
    for complaint in complaints:
        print(complaint)
    least = json.loads(PATH.read_text()).get(tool, {})
    for what, count in counts.items():
        if count > least.get(what, count):
            print(f"{tool} has {count} {what}, and {least[what]} stand in tools/least.json: raise the number")
    told = " ".join(f"{what.replace(' ', '-')}={count}" for what, count in counts.items())
    print(f"{tool}: {told} wrong={wrong + len(complaints)}")
    return 1 if wrong or complaints else 0


def end(tool, counts, complaints, whole=True, most=None):
    """Prints what is wrong, the first so many of it, and what a tool came to: its status."""
    for complaint in complaints[:most]:
        print(complaint)
    return tell(tool, counts, len(complaints), whole)


def part_words(about, parts, with_program=True):
    """The words of a tool that tries its parts, most often with the program."""
    words = argparse.ArgumentParser(description=about.splitlines()[0])
    if with_program:
        words.add_argument("--program", type=Path, default=program.PROGRAM)
    words.add_argument("--part", choices=parts, help="tries this alone")
    return words


def judge(tool, counts, judges, whole=True):
    """Tells the complaints of each, none of which is asked where the tool lacks something: the status."""
    if lacks(tool, counts, whole):
        return 1
    return end(tool, counts, [complaint for complaints in judges for complaint in complaints], whole)


def try_parts(tool, parts, part, given, more=lambda: ()):
    """Tries the part that is asked for, or all, each of which is how many it tries and what gives its complaints; and what is more: the status."""
    names = [part] if part else list(parts)
    judges = [*(parts[name][1] for name in names), lambda _: more()]
    return judge(tool, {name: parts[name][0] for name in names}, (complaints(given) for complaints in judges), not part)
