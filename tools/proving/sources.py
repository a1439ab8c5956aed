"""The crates as they stand when a run begins: their sources, what they stand on, and a sum of all that a proof of each reads."""

import functools
import hashlib
import os
import shutil
import time
from pathlib import Path

from seen import kit as kits

PROGRAM = "press"
LIBRARY = "press_library"
STATIC = "staticlib"    # the kind of a crate that is an archive for C; no crate stands on it
PARTS = ("src", "specs", "proofs")
LIST, HANDLES = "crates.txt", "HANDLES"
KIT = "KIT-ID"      # in the kit's folder


class Unknown(Exception):
    """A name that is no crate of the repository."""


@functools.cache
def kit_file():
    """The file that tells which kit is on this machine, or nothing where there is none."""
    found = kits.look()
    path = Path(os.path.realpath(found)).parent.parent / KIT if found else None
    return str(path) if path is not None and path.is_file() else ""


def kit():
    """The line that tells which kit is on this machine, or nothing."""
    return Path(kit_file()).read_text(encoding="utf-8").strip() if kit_file() else ""


def lines_of(top):
    """The lines of the list of crates: the words before the colon, and those behind it."""
    lines = [line.partition("#")[0] for line in (top / LIST).read_text(encoding="utf-8").splitlines()]
    return [(head.split(), uses.split()) for head, _, uses in (line.partition(":") for line in lines if line.strip())]


def rows_of(top):
    """The rows of the list of crates: for each crate the libraries that it uses."""
    return {head[0]: uses for head, uses in lines_of(top)}


def statics_of(top):
    """The crates that are archives for C."""
    return {head[0] for head, _ in lines_of(top) if STATIC in head[1:]}


def below(rows, name):
    """This crate and all crates of the repository below it, in the order of their names."""
    found, left = set(), [name]
    while left:
        if (crate := left.pop()) in rows and crate not in found:
            found.add(crate)
            left += rows[crate]
    return sorted(found)


class Sources:
    """A copy of the sources of some crates and of those below them, so that a run proves one state of the tree."""

    def __init__(self, top, folder, names):
        self.since = time.time()
        self.rows, self.statics = rows_of(top), statics_of(top)
        if unknown := [name for name in names if name not in self.rows]:
            raise Unknown(unknown[0])
        self.folder = folder
        self.names = sorted({crate for name in names for crate in (*self.below(name), name)})
        for name in self.names:
            self.copy(top / "crates" / name, folder / name)
        self.handles = (top / HANDLES).read_bytes()

    @staticmethod
    def copy(crate, to):
        """Copies what stands beside out/: the sources, and what a program is run on."""
        to.mkdir(parents=True)
        for path in crate.iterdir():
            if path.name in PARTS:
                shutil.copytree(path, to / path.name)
            elif path.is_file():
                shutil.copyfile(path, to / path.name)

    def row(self, name):
        """The crate's line in a list of crates."""
        return f"{name}{f' {STATIC}' if name in self.statics else ''}: {' '.join(self.rows[name])}\n"

    def uses(self, name):
        """The crates of the repository that this one names."""
        return [crate for crate in self.rows[name] if crate in self.rows]

    @functools.cache
    def below(self, name):
        """All crates below this one."""
        return frozenset(crate for used in self.uses(name) for crate in (*self.below(used), used))

    @functools.cache
    def lines(self, name):
        """The lines of a crate: code, definitions and proofs."""
        files = (path for part in PARTS for path in (self.folder / name / part).glob("**/*") if path.is_file())
        return sum(path.read_bytes().count(b"\n") for path in files)

    @functools.cache
    def own(self, name):
        """A sum of the kit, a crate's row and its sources."""
        found = hashlib.sha256(repr((kit(), self.rows[name])).encode())
        for path in sorted(path for path in (self.folder / name).glob("**/*") if path.is_file()):
            found.update(repr((str(path.relative_to(self.folder)), path.read_bytes())).encode())
        return found.hexdigest()

    def sum(self, name, stated):
        """A sum of all that the crate's proof reads: its own sum, and what the crates below it state. The program and an archive for C take their
        bodies, too."""
        below = sorted(self.below(name))
        read = [self.own(crate) for crate in below] if name == PROGRAM or name in self.statics else [stated(crate) for crate in below]
        return hashlib.sha256(repr((self.own(name), list(zip(below, read)))).encode()).hexdigest()
