"""What the streams of a folder print, as a folder of listings: a text for each stream, which is what is compared later.

A listing has a line for each side, with the SHA-256 of its P4 file, and then the replies, the fault and the findings of `why`, where there are some.
"""

import collections
import subprocess
import sys
from typing import NamedTuple

from seen import pages_of, program
from seen.printable import printable

from . import sheets

ENDING = ".txt"
KINDS = ("sheet", "reply", "fault", "found")
TOLD_BY = "The stream is told by "
NOTHING = "Nothing is wrong: "
MOST_SIDES = 12    # whose numbers are told


class Listing(NamedTuple):
    """The lines of a listing, by what they begin with."""
    sheet: list
    reply: list
    fault: list
    found: list

    def text(self):
        return "".join(line + "\n" for lines in self for line in lines)


def read(text):
    """A listing that was recorded."""
    found = {kind: [] for kind in KINDS}
    for line in text.splitlines():
        kind = line.partition(" ")[0]
        if kind not in found:
            raise ValueError(f"{line[:60]!r} is no line of a listing")
        found[kind].append(line)
    return Listing(**found)


def listing_of(folder, name, words, front, with_findings):
    """What a stream of a folder prints."""
    found = findings(folder, name, words) if with_findings else []
    try:
        printed = sheets.summed(front + (folder / name).read_bytes())
    except pages_of.Fault as fault:
        return Listing([], [], [printable(f"fault {fault}".replace("fault fault", "fault"))], found)
    lines = [f"sheet {side.sheet} {side.name} {side.width}x{side.height} black {side.black} sha256 {side.digest}" for side in printed.sides]
    replies = [f"reply {printable(line)}" for line in printed.replies.decode("latin-1").split("\n")[:-1]]
    return Listing(lines, replies, [], found)


def findings(folder, name, words):
    """What `why` says of a stream, in the folder, so that no other name stands there."""
    why = [sys.executable, program.ROOT / "tools/why", "print", "--list", *words, f"./{name}"]
    ran = subprocess.run(why, cwd=folder, stdin=subprocess.DEVNULL, capture_output=True, timeout=program.SECONDS, check=False)
    return [f"found {printable(line)}" for line in ran.stdout.decode(errors="replace").splitlines() if not line.startswith((TOLD_BY, NOTHING))]


def differences(old, new):
    """What is another, in sentences."""
    if old.sheet != new.sheet:
        yield of_sides(old.sheet, new.sheet)
    for kind, what in (("reply", "replies"), ("fault", "fault"), ("found", "findings of why")):
        if getattr(old, kind) != getattr(new, kind):
            before, now = (", ".join(line.partition(" ")[2] for line in getattr(each, kind)) or "none" for each in (old, new))
            yield f"the {what}: {before} before, {now} now"


def of_sides(old, new):
    """Which sides are others: by their digests, so that a sheet that is gone is told as one."""
    if len(old) != len(new):
        before, now = (collections.Counter(line.rpartition(" ")[2] for line in lines) for lines in (old, new))
        gone, come = (before - now).total(), (now - before).total()
        return f"{len(old):,} sides before, {len(new):,} now: {gone:,} gone, {come:,} more"
    if sorted(map(without_place, old)) == sorted(map(without_place, new)):
        return "the same sides in another order"
    places = [number for number, (one, other) in enumerate(zip(old, new), 1) if one != other]
    shown = ", ".join(map(str, places[:MOST_SIDES])) + (" .." if len(places) > MOST_SIDES else "")
    return f"side {shown} of {len(old):,} is another" if len(places) == 1 else f"the sides {shown} of {len(old):,} are others"


def without_place(line):
    return line.split(" ", 2)[2]


def streams_in(folder):
    """The names of the streams of a folder and those below it; names that begin with a dot are none."""
    names = (path.relative_to(folder) for path in folder.rglob("*") if path.is_file())
    return sorted(str(name) for name in names if not any(part.startswith(".") for part in name.parts))


def listings_in(folder):
    return sorted(str(path.relative_to(folder))[:-len(ENDING)] for path in folder.rglob("*" + ENDING))
