"""The examples that have something beside them, and the folder in which words, lines and sessions find the files that they name."""

import pathlib
import shutil

from asked import pages
from asked.files import FILES

EXAMPLES = pathlib.Path(__file__).resolve().parent.parent.parent / "examples"
FOLDERS = ["streams", "tickets", "sessions", "debugger"]


def examples():
    """The files of the examples that have something beside them: each with its words, and what it prints."""
    for path in (path for folder in FOLDERS for path in sorted((EXAMPLES / folder).iterdir())):
        if path.suffix not in (".args", ".stdout"):
            beside = path.with_name(path.name + ".args")
            asked = beside.read_text().split() if beside.exists() else []
            yield " ".join(asked), 0, path.with_name(path.name + ".stdout").read_bytes(), path.read_bytes()


def lay_out(folder):
    """Makes the files that are named, in the folder."""
    shutil.copytree(EXAMPLES, folder / "examples")
    for path in sorted((EXAMPLES / "images").iterdir()):
        shutil.copy(path, folder)
    for name, content in FILES.items():
        (folder / name).write_bytes(content)
    for name, make in pages.BROKEN.items():
        make(folder / f"{name}-2.pbm")
