"""A room for each crate: a small repository of its own, so that no other run of the prover waits for its folders.

`rt` locks the folder of the crate that it proves and those of all crates below it. In a room stand copies of their sources, and what was
made of the crates below as links to the finished files: the kit removes such a file before it makes it anew, and writes through no link.
What is made in a room moves back into the crate's own out/, also the part that an interrupted run had proved.
"""

import contextlib
import fcntl
import os
import shutil

from proving import sources

BUILT, KEPT = "rlib", "incremental"


def linked(folder, to):
    """The same tree with a second name for each file."""
    shutil.copytree(folder, to, copy_function=os.link)


@contextlib.contextmanager
def held(folder):
    """Gives whether no run of the prover works in a crate's folder; none begins to before this ends."""
    handle = os.open(folder, os.O_RDONLY)
    try:
        fcntl.flock(handle, fcntl.LOCK_EX | fcntl.LOCK_NB)
        yield True
    except BlockingIOError:
        yield False
    finally:
        os.close(handle)


def note_made(crates, made, name):
    """Notes the library of a crate for the rooms of those above it, so that what is made in its own out/ meanwhile does not come into them."""
    if (crates / name / "out" / BUILT).is_dir():
        linked(crates / name / "out" / BUILT, made / name)


class Room:
    """The room of one crate."""

    def __init__(self, crates, given, made, name, folder):
        self.crates, self.given, self.made, self.name, self.folder = crates, given, made, name, folder
        self.crate = folder / "crates" / name
        self.own = crates / name / "out"

    def furnish(self):
        """Makes the room: the sources of the crate and of those below it, what was made of these, and what was kept of this one."""
        names = [*sorted(self.given.below(self.name)), self.name]
        rows = [self.given.row(name) for name in names]
        (self.folder / "crates").mkdir(parents=True)
        (self.folder / sources.LIST).write_text("".join(rows))
        (self.folder / sources.HANDLES).write_bytes(self.given.handles)
        for name in names:
            linked(self.given.folder / name, self.folder / "crates" / name)
        for name in names[:-1]:
            linked(self.made / name, self.folder / "crates" / name / "out" / BUILT)
        if (self.own / KEPT).is_dir():
            linked(self.own / KEPT, self.crate / "out" / KEPT)

    def bring_back(self, proved):
        """Moves what was made here into the crate's own out/; answers whether it could, since no run of the prover works there."""
        with held(self.crates / self.name) as free:
            if not free:
                return False
            self.own.mkdir(exist_ok=True)
            made = self.crate / "out"
            for path in made.iterdir() if made.is_dir() else ():
                if proved or path.name == KEPT:
                    self.replace(path, self.own / path.name)
            if proved:
                note_made(self.crates, self.made, self.name)
            shutil.rmtree(self.folder, ignore_errors=True)
            return True

    @staticmethod
    def replace(path, to):
        """Puts a file or a folder in the place of an older one."""
        older = to.with_name(f"{to.name}.older")
        shutil.rmtree(older, ignore_errors=True)
        if to.is_dir():
            to.rename(older)
        path.replace(to)
        shutil.rmtree(older, ignore_errors=True)


def take_up(crates, folder):
    """Keeps what runs had proved that were killed, and removes their rooms, but those in which the prover still works."""
    for left in folder.glob("*"):
        names = [path.name for path in left.glob("*") if (path / "crates" / path.name / "out" / KEPT).is_dir()]
        killed = not os.path.exists(f"/proc/{left.name}")
        if killed and all([took(crates / name, left / name / "crates" / name) for name in names]):
            shutil.rmtree(left, ignore_errors=True)


def took(crate, room):
    """Keeps what was proved in a room; answers whether it could, since no run of the prover works there or in the crate's folder."""
    with held(room) as ended, held(crate) as free:
        if ended and free:
            (crate / "out").mkdir(exist_ok=True)
            Room.replace(room / "out" / KEPT, crate / "out" / KEPT)
        return ended and free
