"""Files that a tool makes: none replaces an input, and each takes its name when it is whole, as those of the program do."""

import os
import stat
import tempfile
from pathlib import Path

NEW = 0o666   # the permissions of a new file, less what the process masks


class IsInput(ValueError):
    """A file that is to be made is one that is read."""


def identity(file):
    """Device and number of what a name, through its links, or a descriptor stands for; None where there is none."""
    try:
        about = os.stat(file)
    except (OSError, ValueError):
        return None
    return about.st_dev, about.st_ino


def refuse_inputs(outputs, inputs):
    """Fails where a name of an output leads to an input, - being standard input; nothing is opened."""
    read = {identity(0 if one == "-" else one): one for one in inputs}
    for name in outputs:
        if (found := identity(name)) is not None and found in read:
            raise IsInput(f"{name} is the input {'that standard input is' if read[found] == '-' else read[found]}, which it would replace")


def is_replaced(name):
    """Whether a new file takes this name: a device or a pipe is written where it stands, and so is a descriptor, whose file has another name."""
    place = os.path.abspath(name)
    if place.startswith(("/dev/fd/", "/dev/std", "/proc/")):
        return False
    return not os.path.exists(name) or stat.S_ISREG(os.stat(name).st_mode)


def make(name, data, inputs=()):
    """Makes a file of these bytes, or of pieces of bytes one after another, or replaces one; where it cannot, an older one stays as it was. A link stays,
    and what it leads to is replaced."""
    pieces = [data] if isinstance(data, bytes) else data
    refuse_inputs([name], inputs)
    if not is_replaced(name):
        with open(name, "ab") as file:
            file.writelines(pieces)
        return
    place = Path(os.path.realpath(name))
    if place.exists() and not os.access(place, os.W_OK):
        raise PermissionError(f"{name} may not be written")
    mode = stat.S_IMODE(place.stat().st_mode) if place.exists() else NEW & ~mask()
    number, part = tempfile.mkstemp(prefix=".press-", suffix=".part", dir=place.parent)
    try:
        with open(number, "wb") as file:
            file.writelines(pieces)
            os.fchmod(number, mode)
        os.replace(part, place)
    except BaseException:
        os.unlink(part)
        raise


def mask():
    old = os.umask(0)
    os.umask(old)
    return old
