"""Inputs that are read and outputs that are made; nothing is written here."""

import fcntl
import os
import stat
import sys
from pathlib import Path

from .finding import Found

NOT_OPENED = 304
MOST_PARTS = 1000   # names that the program tries for a file that is not whole


def open_input(name, what):
    """Fails where the program cannot open it."""
    if name == "-" and what == "IN":
        return
    try:
        with open(name, "rb"):
            pass
    except IsADirectoryError:
        return
    except FileNotFoundError:
        raise Found(NOT_OPENED, f"{describe(what, name)} is not there", advice_for_missing(name)) from None
    except (OSError, ValueError) as fault:
        raise Found(NOT_OPENED, f"{describe(what, name)} cannot be opened: {reason(fault)}",
                    "Look at its permissions, and at those of its folder") from None


def reason(fault):
    return (getattr(fault, "strerror", None) or str(fault)).lower()


def describe(what, name):
    if name == "-" and what == "IN":
        return "standard input"
    return {"IN": "the input", "TICKET": "the ticket", "FILE": "the message"}.get(what, what) + f" {name}"


def advice_for_missing(name):
    folder = os.path.dirname(name)
    if name == "":
        return "Give the name of a file; this word is empty"
    if folder and not os.path.isdir(folder):
        return f"There is no folder {folder}; look at the path, which is counted from {os.getcwd()}"
    return f"Look at the name; it is counted from {os.getcwd()}"


def read_input(name, what, unreadable=NOT_OPENED):
    """The bytes of an input that can be opened."""
    if name == "-" and what == "IN":
        return sys.stdin.buffer.read()
    open_input(name, what)
    try:
        return Path(name).read_bytes()
    except IsADirectoryError:
        raise Found(unreadable, f"{describe(what, name)} is a folder", "Name a file in it") from None
    except OSError as fault:
        raise Found(unreadable, f"{describe(what, name)} cannot be read: {reason(fault)}", "Copy it, and try the copy") from None


def check_apart(name, number, inputs):
    """Fails where a file that is to be made is one of the inputs."""
    for one in inputs:
        if name and os.path.isfile(name) and one != "-" and os.path.exists(one) and os.path.samefile(name, one):
            same = "is an input" if name == one else f"is the input {one}"
            raise Found(number, f"OUT {name} {same}, which it would replace", "Give another name")


def check_output(name, number, size):
    """Fails where a file of so many bytes cannot be made."""
    folder = os.path.dirname(name) or "."
    if name == "":
        raise Found(number, "OUT is an empty word", "Give the name of the file that is to be made")
    if not os.path.isdir(folder):
        kind = "is not there" if not os.path.exists(folder) else "is no folder"
        raise Found(number, f"OUT {name} cannot be made: {folder} {kind}", f"Make it first: mkdir -p {folder}")
    if os.path.isdir(name):
        raise Found(number, f"OUT {name} is a folder", "Give the name of a file in it")
    if len(os.fsencode(os.path.basename(name))) > 255:
        raise Found(number, f"OUT {name[:20]}.. has a name of more than 255 bytes", "Give a shorter name")
    if not os.access(name if os.path.exists(name) else folder, os.W_OK):
        raise Found(number, f"OUT {name} may not be written", "Look at the permissions of the file and its folder")
    check_parts(name, number)
    check_room(name, folder, number, size)


def check_parts(name, number):
    """Fails where each name is taken under which the program begins a file."""
    if os.path.exists(name) and not stat.S_ISREG(os.stat(name).st_mode):
        return
    folder = os.path.dirname(os.path.realpath(name))
    if all(is_taken(os.path.join(folder, f".press-{each}.part")) for each in range(1, MOST_PARTS + 1)):
        raise Found(number, f"OUT {name} cannot be made: {folder} has {MOST_PARTS:,} names of files that are being made, .press-1.part and so on, "
                            "and none of them can be taken over", f"Remove those that no press still makes: rm -r {folder}/.press-*.part")


def is_taken(part):
    """Whether a name under which a file is made cannot be taken over: it is that of no file, or of one that a run holds."""
    if not os.path.lexists(part):
        return False
    if os.path.islink(part) or not os.path.isfile(part):
        return True
    try:
        with open(part, "r+b") as left:
            fcntl.flock(left, fcntl.LOCK_EX | fcntl.LOCK_NB)
        return False
    except OSError:
        return True


def check_room(name, folder, number, size):
    there = os.path.exists(name)
    if there and stat.S_ISCHR(os.stat(name).st_mode):
        if os.path.realpath(name) == "/dev/full" and size:
            raise Found(number, f"OUT {name} takes no byte: it stands for a disk that is full", "Give the name of a file")
        return
    room = os.statvfs(folder)
    free = room.f_bavail * room.f_frsize + (os.path.getsize(name) if there else 0)
    if size > free:
        raise Found(number, f"OUT {name} needs {size:,} bytes, and {folder} has {free:,} left",
                    "Make room, or name another folder")
