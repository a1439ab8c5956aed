"""What other checkouts on this machine have proved: a crate is taken from there if all that its proof reads has the same sum.

Each run notes its checkout in a folder of the user's cache. What was made is taken by links where that can be, else by copies; the kit writes
through no link, and removes a file before it makes it anew. A program is taken if the record beside it is of the same sources and of that file.
"""

import contextlib
import hashlib
import os
import shutil
from pathlib import Path

from proving import rooms, sources, standing


def folder():
    """Where checkouts are noted."""
    return Path(os.environ.get("XDG_CACHE_HOME") or Path.home() / ".cache") / "rombixela" / "checkouts"


def note(top):
    """Notes a checkout for the others."""
    with contextlib.suppress(OSError):
        folder().mkdir(parents=True, exist_ok=True)
        (folder() / hashlib.sha256(str(top).encode()).hexdigest()[:16]).write_text(f"{top}\n", encoding="utf-8")


def others(top):
    """The other checkouts that were noted and are still there."""
    with contextlib.suppress(OSError):
        for path in sorted(folder().iterdir()):
            with contextlib.suppress(OSError):
                other = Path(path.read_text(encoding="utf-8").strip())
                if other != top and other.is_dir():
                    yield other


def archive_of(name):
    """The file that is made of a crate that is an archive for C."""
    return f"lib{name}.a"


def made_of(crate, name):
    """What tells of a crate which make of it stands: the kit's stamp of its library, the sum of an archive for C; of the program nothing, which has a
    record of its own."""
    out = crate / "out"
    if name == sources.PROGRAM:
        return "program" if (out / name).is_file() else None
    if (out / archive_of(name)).is_file():
        return hashlib.sha256((out / archive_of(name)).read_bytes()).hexdigest()
    return (out / rooms.BUILT / "stamp").read_text(encoding="utf-8").strip() or None


def mark(top, name, found):
    """Notes that what stands of a crate in a checkout was proved, and that all that its proof read has this sum."""
    text = f"{found} {made_of(top / 'crates' / name, name)}\n"
    path = top / "out/prove/done" / name
    written = path.with_name(f"{name}.{os.getpid()}.new")
    written.write_text(text, encoding="utf-8")
    written.replace(path)


def is_proved(top, name, found):
    """Whether a checkout has a crate with this sum, as it was when that was noted."""
    with contextlib.suppress(OSError):
        return (top / "out/prove/done" / name).read_text(encoding="utf-8").split() == [found, made_of(top / "crates" / name, name)]
    return False


def link_or_copy(path, to):
    try:
        os.link(path, to)
    except OSError:
        shutil.copy2(path, to)


def take(top, name, found, of_program, room):
    """Takes a crate with this sum, or the program of these sources, from another checkout; answers which, or None where none has it. `room` is a
    folder for what is half taken."""
    for other in others(top):
        if is_proved(other, name, found) and take_from(other, top, name, room, lambda: is_proved(other, name, found) and (
                name != sources.PROGRAM or standing.is_of(other, room / name, of_program))):
            return other
    return None


def take_from(other, top, name, room, holds):
    """Takes a crate from this checkout; answers whether that could be done, and what was taken is what was looked for."""
    given, own = other / "crates" / name / "out", top / "crates" / name / "out"
    parts = [name] if name == sources.PROGRAM else [rooms.BUILT, rooms.KEPT, archive_of(name)]
    try:
        room.mkdir(parents=True)
        for part in parts:
            if (given / part).is_dir():
                shutil.copytree(given / part, room / part, copy_function=link_or_copy)
            elif (given / part).is_file():
                shutil.copy2(given / part, room / part)
        with rooms.held(top / "crates" / name) as free:
            if not free or not holds():
                return False
            own.mkdir(exist_ok=True)
            for path in room.iterdir():
                rooms.Room.replace(path, own / path.name)
        return True
    except (OSError, shutil.Error):
        return False
    finally:
        shutil.rmtree(room, ignore_errors=True)
