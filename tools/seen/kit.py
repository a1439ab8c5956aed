"""The Rattle kit: where it is, and what is said where it is not."""

import os
import shutil
import sys

PLACE = "/opt/rattle/bin/rt"
NOT_BUILT, MISSING = 126, 127


def say(text):
    print(f"press: {text}", file=sys.stderr, flush=True)


def look():
    """The path of `rt`, or None where there is none."""
    return shutil.which("rt") or (PLACE if os.access(PLACE, os.X_OK) else None)


def find():
    """The path of `rt`; ends the program where there is none."""
    path = look()
    if path is None:
        say(f"the Rattle kit is not here: there is no rt on the PATH, and no {PLACE}.")
        raise SystemExit(MISSING)
    return path
