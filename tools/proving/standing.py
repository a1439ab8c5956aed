"""Whether a program that stands in out/ is that of these sources: records of what it was made of, compared by sums.

A record is a small file of lines, of which the first names the file that tells the kit. Its time says since when nothing was changed: `press` runs the program at once where no source,
and not the program, was touched since, by the times that no tool can set back (those of the change of a file's status). Where something was,
the sums decide, and the record is dated anew. What is summed: the code, the definitions that its contracts cite, the list of crates, and the
kit; the proofs are not, since a proof that is changed takes nothing from a program that was proved.
"""

import contextlib
import hashlib
import os
import subprocess
import time

from proving import sources
from seen import program

ROOT = program.ROOT
PARTS = ("src", "specs")
PROVED, COMPILED = ROOT / "out" / "proved", ROOT / "out" / "compiled"
SETTLED = 1.0    # seconds after which a file's time tells it from one that was written later


FIELDS = ("kit", "sources", "program", "by")   # the lines of the record of a proved program, behind the first


def sum_of_sources(rows=None, crates=ROOT / "crates", name=sources.PROGRAM):
    """A sum of all that the program, or the archive of another name, is made of, but the kit: these rows of the list of crates, and the files in this
    folder."""
    rows = sources.rows_of(ROOT) if rows is None else rows
    found = hashlib.sha256()
    for crate in sources.below(rows, name):
        found.update(repr((crate, rows[crate])).encode())
        for path in sorted(path for part in PARTS for path in (crates / crate / part).glob("**/*") if path.is_file()):
            found.update(repr((str(path.relative_to(crates)), path.read_bytes())).encode())
    return found.hexdigest()


def sum_of_bytes(content):
    return hashlib.sha256(content).hexdigest()


def sum_of_file(path):
    return sum_of_bytes(path.read_bytes())


def write(record, lines, since):
    """Writes a record in one step; nothing that was changed after `since` is older than it."""
    record.parent.mkdir(parents=True, exist_ok=True)
    written = record.with_name(f"{record.name}.{os.getpid()}.new")
    try:
        written.write_text("".join(f"{line}\n" for line in (sources.kit_file(), *lines)), encoding="utf-8")
        os.utime(written, (since - SETTLED, since - SETTLED))
        written.replace(record)
    finally:
        written.unlink(missing_ok=True)


def date(record, since):
    """Dates a record anew, since what it says was found to hold."""
    try:
        os.utime(record, (since - SETTLED, since - SETTLED))
    except OSError:
        pass   # the next call compares again


def at_a_glance():
    """The program of a record since which neither it, nor the sources, nor the kit was touched, as `press` looks; None where the sums have to decide."""
    for record in (PROVED, COMPILED):
        try:
            kit_file, named = record.read_text(encoding="utf-8").splitlines()[:2]
        except (OSError, ValueError):
            continue
        if record == COMPILED and not named.endswith("-2"):
            continue   # the faster one may have to be begun again
        made = program.PROGRAM if record == PROVED else record.parent / named
        paths = [path for part in PARTS for path in (ROOT / "crates").glob(f"*/{part}")]
        asked = ["find", *paths, ROOT / "crates.txt", *filter(None, [kit_file]), made, "-cnewer", record, "-print", "-quit"]
        try:
            touched = subprocess.run(asked, stdout=subprocess.PIPE, stderr=subprocess.STDOUT, check=False).stdout
        except OSError:
            return None   # there is no `find`
        if os.access(made, os.X_OK) and not touched:
            return made
    return None


def note_proved(given, by, since):
    """Notes that the program that stands was proved, of sources that had this sum at that time. What was changed since is compared by the next call:
    the compiled program answers none at a glance any more."""
    write(PROVED, (sources.kit(), given, sum_of_file(program.PROGRAM), by), since)
    with contextlib.suppress(OSError):
        COMPILED.unlink()


def read(record=PROVED):
    """What the record of a proved program says, or nothing where there is none that can be read."""
    try:
        lines = record.read_text(encoding="utf-8").splitlines()[1:]
    except (OSError, ValueError):
        return {}
    return dict(zip(FIELDS, lines)) if len(lines) == len(FIELDS) else {}


def is_of(top, made, given):
    """Whether the record of a checkout is that of this program, and of sources with this sum."""
    row = read(top / "out" / "proved")
    return row.get("sources") == given and row.get("program") == sum_of_file(made)


def proved():
    """The record of the proved program if it stands: it is the one of the record, of these sources, and by the kit of this machine, if one is here."""
    since, row = time.time(), read()
    try:
        kits = {row.get("kit"), sources.kit() or row.get("kit")}
        if len(kits) > 1 or not is_of(ROOT, program.PROGRAM, sum_of_sources()):
            return None
    except OSError:
        return None
    date(PROVED, since)
    return row
