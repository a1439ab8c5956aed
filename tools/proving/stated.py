"""What a library states: all that the proof of a crate above it reads. A body that changes states the same, and leaves those proofs as they are.

A library of the kit has the declarations and contracts of its crate without bodies, its definitions and lemmas, and what was made of the bodies,
which the program alone takes. A crate's library is as it would be made anew where all below it state the same; only the kit's own stamp in it
has to be that of the sources of now.
"""

import hashlib
import subprocess
import sys
from pathlib import Path

OF_BODIES = {"made.json", "checked.a", "checked.json"}        # what was made of bodies, and what was proved of them
OF_PROOFS = {"Answers.antt", "Invariants.antt", "Proof.antt"}   # of one function each; nothing else can cite them
OF_FORMAT = (b"checked ", b"sum ")                              # lines of `format` that sum the rest


def is_stated(path, library):
    """Whether a file of a library belongs to what it states."""
    inside = path.relative_to(library)
    return path.name not in OF_BODIES | OF_PROOFS and inside.parts[0] != "below" and inside.as_posix() != "toolchain/mir.json"


def of_library(library):
    """The sum of what a library states."""
    found = hashlib.sha256()
    for path in sorted(path for path in library.glob("**/*") if path.is_file() and is_stated(path, library)):
        text = path.read_bytes()
        if path.name == "format":
            text = b"\n".join(line for line in text.splitlines() if not line.startswith(OF_FORMAT))
        found.update(repr((path.relative_to(library).as_posix(), text)).encode())
    return found.hexdigest()


def stamps(rt, top, names):
    """The kit's own sums of crates in a repository, or nothing where this kit does not tell them."""
    words = [sys.executable, Path(__file__).with_name("remembered.py"), rt, "--stamps", top, *names]
    ran = subprocess.run(words, stdin=subprocess.DEVNULL, capture_output=True, text=True, check=False)
    rows = [line.split() for line in ran.stdout.splitlines()]
    return dict(rows) if ran.returncode == 0 and all(len(row) == 2 for row in rows) else {}
