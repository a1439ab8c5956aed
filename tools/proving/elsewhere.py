"""A record of a proof, to be handed on: the program that was proved, with the kit, the sources and the sum that it has.

A proof of the same sources by the same kit gives the same bytes, on whatever machine (docs/TESTED.md). So a machine that has this kit and these sources may run
a program that was proved elsewhere, if it has the sum that the record says; whoever takes a record trusts where it comes from, and each call says so.
"""

import io
import os
import tarfile
import time
from pathlib import Path

from proving import compiled, reckoned, sources, standing
from seen import program

TAKEN = program.ROOT / "out" / "taken"
RELEASED = Path(__file__).resolve().parent / "released.txt"
LINES, MADE = "record", "press"     # what is in a record, and in the folder of the one that was taken
MOST_BYTES = 1 << 26


class NotTaken(Exception):
    """Why a record is not written or taken."""


def proved_row():
    """The record of the program that is proved here."""
    row = standing.proved()
    if row is None:
        raise NotTaken("no program is proved here of these sources; ./press --prove proves it")
    return row


def write(path):
    """Writes the record of the program that is proved here, in one step."""
    row = proved_row()
    text = "".join(f"{row[field]}\n" for field in standing.FIELDS[:3]).encode()
    written = path.with_name(f"{path.name}.{os.getpid()}.new")
    try:
        with tarfile.open(written, "x:gz") as archive:
            for name, content, mode in ((LINES, text, 0o644), (MADE, program.PROGRAM.read_bytes(), 0o755)):
                member = tarfile.TarInfo(name)
                member.size, member.mode = len(content), mode
                archive.addfile(member, io.BytesIO(content))
        written.replace(path)
    finally:
        written.unlink(missing_ok=True)


def note():
    """Notes kit and sums of the program that is proved here, in the repository: the gate compares its own proof with them."""
    row = proved_row()
    RELEASED.write_text("".join(f"{row[field]}\n" for field in standing.FIELDS[:3]), encoding="utf-8")


def has_other_bytes():
    """Whether the program that stands, of these sources, is another than the one that was noted of the same kit and the same sources."""
    row = dict(zip(standing.FIELDS, RELEASED.read_text(encoding="utf-8").splitlines(), strict=False)) if RELEASED.exists() else {}
    same = (row.get("kit"), row.get("sources")) == (sources.kit(), standing.sum_of_sources())
    return same and row.get("program") != standing.sum_of_file(program.PROGRAM)


def parts_of(path):
    """The lines of a record, and its program."""
    try:
        with tarfile.open(path, "r:gz") as archive:
            members = [archive.getmember(name) for name in (LINES, MADE)]
            if sum(member.size for member in members) > MOST_BYTES or not all(member.isfile() for member in members):
                raise NotTaken("it is no record of a proof")
            lines, made = (archive.extractfile(member).read() for member in members)
        row = dict(zip(standing.FIELDS, lines.decode().splitlines(), strict=False))
    except (tarfile.TarError, EOFError, KeyError, UnicodeDecodeError) as error:
        raise NotTaken("it is no record of a proof") from error
    if list(row) != list(standing.FIELDS[:3]):
        raise NotTaken("it is no record of a proof")
    return row, lines, made


def why_not(row, digest):
    """Why a program with this sum is not the one of a record, by the kit and the sources of here; nothing if it is."""
    here = sources.kit() or row["kit"]
    if row["kit"] != here:
        return f"it is of another kit: {row['kit']}, and here is {here}"
    if row["sources"] != standing.sum_of_sources():
        return "it is of other sources"
    return "" if row["program"] == digest else "its program has another sum than it says"


def take(path):
    """Takes a record from a file: its program answers from then on."""
    row, lines, made = parts_of(path)
    if why := why_not(row, standing.sum_of_bytes(made)):
        raise NotTaken(why)
    TAKEN.mkdir(parents=True, exist_ok=True)
    for name, content, mode in ((MADE, made, 0o755), (LINES, lines, 0o644)):
        written = TAKEN / f"{name}.{os.getpid()}.new"
        written.write_bytes(content)
        written.chmod(mode)
        written.replace(TAKEN / name)
    find()


def find():
    """The program of the record that was taken, if it is of this kit and these sources, as it was; else None. It is noted as the one that answers."""
    since, made = time.time(), TAKEN / MADE
    try:
        row = dict(zip(standing.FIELDS, (TAKEN / LINES).read_text(encoding="utf-8").splitlines(), strict=False))
        if len(row) != 3 or why_not(row, standing.sum_of_file(made)):
            return None
    except (OSError, ValueError):
        return None
    compiled.note(made, since, line())
    return made


def line():
    """What is said each time that it answers."""
    return f"proved elsewhere, by the record that was taken; ./press --prove proves it here, {reckoned.told()}"
