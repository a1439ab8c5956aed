"""Runs the kit's `rt` as it stands, but that it sums the sources of a crate once: python3 remembered.py RT WORDS..

`rt` sums what a crate is made of by way of each crate that it names, and theirs again: for a crate that stands on forty others, which name
one another, that is thousands of times the same files, and minutes. In a room the sources stay as they are, so each sum is made once. With
`--stamps TOP NAME..` it says the sum of each crate, in a line `NAME SUM`. A kit that is made otherwise is run without this.
"""

import contextlib
import importlib
import os
import runpy
import sys
from importlib.machinery import SourceFileLoader


def remember(plain):
    """The same function of a crate, which is asked once of each."""
    known = {}

    def remembered(crate):
        if crate.folder not in known:
            known[crate.folder] = plain(crate)
        return known[crate.folder]

    return remembered


def library(rt):
    """The kit's module, in which each sum and each list of the crates below is remembered, or None where the kit is made otherwise. However `rt` loads
    it, it is this one that is run."""
    sys.path.insert(0, os.path.dirname(os.path.realpath(rt)))
    plain = SourceFileLoader.exec_module

    def exec_module(loader, module):
        plain(loader, module)
        if module.__name__ == "rtlib":
            module.Crate.stamp, module.Crate.below = remember(module.Crate.stamp), remember(module.Crate.below)

    SourceFileLoader.exec_module = exec_module
    with contextlib.suppress(ImportError, AttributeError):
        return importlib.import_module("rtlib")
    SourceFileLoader.exec_module = plain
    return None


def tell_stamps(rt, top, names):
    """Says the sum of each of these crates of a repository."""
    rtlib, known = library(rt), {}
    for name in names:
        folder = f"{top}/crates/{name}"
        known[folder] = known.get(folder) or rtlib.Crate(folder, top, known)
        print(name, known[folder].stamp())


def is_python(rt):
    with open(rt, "rb") as file:
        return b"python" in file.readline()


def main(rt, words):
    if words[:1] == ["--stamps"]:
        tell_stamps(rt, words[1], words[2:])
        return
    if not is_python(rt) or library(rt) is None:
        os.execv(rt, [rt, *words])
    sys.argv = [rt, *words]
    runpy.run_path(rt, run_name="__main__")


if __name__ == "__main__":
    main(sys.argv[1], sys.argv[2:])
