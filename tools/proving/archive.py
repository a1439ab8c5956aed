"""The archive of the press for C: the crate press_library, as it was built of what was proved, or compiled without a proof."""

import os
import subprocess
import sys
import time
from pathlib import Path

from proving import compiled_archive, shared, sources, standing
from seen import kit, program

CRATE = program.ROOT / "crates" / sources.LIBRARY
ARCHIVE = CRATE / "out" / shared.archive_of(sources.LIBRARY)
RECORD = program.ROOT / "out" / "library"


def note_proved(given, by):
    """Notes that the archive that stands was proved, of sources with this sum."""
    since = time.time()
    standing.write(RECORD, (sources.kit(), given, standing.sum_of_file(ARCHIVE), by), since)


def is_proved():
    """Whether the archive that stands is the one of the record, of these sources, and by the kit of this machine."""
    row = standing.read(RECORD)
    try:
        return (row.get("kit") == sources.kit() and row.get("sources") == standing.sum_of_sources(name=sources.LIBRARY)
                and row.get("program") == standing.sum_of_file(ARCHIVE))
    except OSError:
        return False


def prove(in_place):
    """Proves the crate, and makes the archive of what was proved: in its own folder, over what stands of the crates below it, or with these."""
    given = standing.sum_of_sources(name=sources.LIBRARY)
    if not in_place:
        subprocess.run([sys.executable, program.ROOT / "tools/prove", sources.LIBRARY], check=True, stdin=subprocess.DEVNULL)
        return
    jobs = str(len(os.sched_getaffinity(0)))
    subprocess.run([kit.find(), "lib", "--jobs", jobs], cwd=CRATE, check=True, stdin=subprocess.DEVNULL, stdout=sys.stderr)
    note_proved(given, "tools/library")


def at_once():
    """The archive that was proved of these sources; else one that is compiled of them, which is said."""
    if is_proved():
        return ARCHIVE
    kit.say("the library is not proved on this machine; tools/library --prove proves it here")
    return compiled_archive.find()


def after_proof(in_place=False):
    """The archive of these sources; it is proved, if it is not yet."""
    if not is_proved():
        prove(in_place)
    return ARCHIVE


def by_proof():
    """The archive that was proved of these sources, or none."""
    if not is_proved():
        raise FileNotFoundError("none is proved here of these sources; tools/library --prove proves it")
    return ARCHIVE


CHOICES = {"prove": (after_proof, "prove it first, if it is not"), "proved": (by_proof, "the proved one, or none"),
           "compiled": (compiled_archive.find, "the one that is compiled without a proof"),
           "in-place": (lambda: after_proof(True), "prove it in the folder of its crate, if it is not")}


def add_options(parser):
    """Which archive is wanted."""
    choices = parser.add_mutually_exclusive_group()
    for name, (call, meaning) in CHOICES.items():
        choices.add_argument(f"--{name}", dest="archive_by", action="store_const", const=call, help=meaning)


def chosen(arguments):
    """The archive that is wanted."""
    return (arguments.archive_by or at_once)()


def put_together(made, to):
    """One archive of this one and of what the kit adds to it."""
    given = Path(os.path.realpath(kit.find())).parent.parent
    script = f"CREATE {to}\nADDLIB {made}\nADDLIB {given / 'c/liblibc_c.a'}\nSAVE\nEND\n"
    subprocess.run([given / "toolchain/bin/llvm-ar", "-M"], input=script, text=True, check=True)
