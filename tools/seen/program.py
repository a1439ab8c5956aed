"""The program, where it stands, and what the tools ask of it."""

import functools
import itertools
import os
import select
import subprocess
import sys
import tempfile
from pathlib import Path

ROOT = Path(__file__).resolve().parent.parent.parent
PROGRAM = ROOT / "crates" / "press" / "out" / "press"
SECONDS = 600
AT_ONCE = 1 << 20    # bytes of a side that are read
PATIENCE = 0.1       # seconds until it is looked whether the program still runs


def read_stream(name):
    return sys.stdin.buffer.read() if name == "-" else Path(name).read_bytes()


def stands(program=PROGRAM):
    return program.is_file() and os.access(program, os.X_OK)


@functools.cache
def answering(chosen=PROGRAM):
    """The program that is asked: one that the caller chose, or else the one that `press` runs, proved here or elsewhere, or compiled of the sources."""
    if chosen != PROGRAM:
        return chosen
    from proving import standing   # it stands on this module, as do those that find the program where the times do not tell
    return standing.at_a_glance() or found()


def found():
    """The program that the sums tell, compiled if it does not stand."""
    from proving import compiled, elsewhere, standing
    return PROGRAM if standing.proved() is not None else elsewhere.find() or compiled.find()


def who(chosen=PROGRAM):
    """What the program that is asked is called."""
    return "the proved program" if answering(chosen) == PROGRAM else "the program, which is not proved on this machine"


def ask(words, given=b"", program=PROGRAM, folder=None):
    """What the program does with these words and this standard input."""
    return subprocess.run([answering(program), *words], input=given, capture_output=True, timeout=SECONDS, check=False, cwd=folder)


def printed_sides(stream, program=PROGRAM):
    """The P4 files of the sides that the program prints, in their order."""
    with tempfile.TemporaryDirectory() as path:
        folder = Path(path)
        (folder / "stream").write_bytes(stream)
        ran = ask(["print", "stream", "page-%d.pbm"], program=program, folder=folder)
        if ran.returncode:
            raise OSError(f"press print: {ran.stderr.decode(errors='replace').strip()}")
        number = 1
        while (side := folder / f"page-{number}.pbm").exists():
            yield side.read_bytes()
            side.unlink()
            number += 1


def piped_sides(stream, count, program=PROGRAM):
    """The same of so many sides, none of which is kept: each goes through a pipe of its name."""
    with tempfile.TemporaryDirectory() as path:
        folder = Path(path)
        (folder / "stream").write_bytes(stream)
        names = [folder / f"page-{number}.pbm" for number in range(1, count + 1)]
        for name in names:
            os.mkfifo(name)
        with subprocess.Popen([answering(program), "print", "stream", "page-%d.pbm"], cwd=folder, stderr=subprocess.DEVNULL) as running:
            try:
                yield from itertools.takewhile(len, (read_pipe(name, running) for name in names))
                yield from [b""] * (running.wait(SECONDS) == 0 and (folder / f"page-{count + 1}.pbm").exists())
            finally:
                running.kill()


def read_pipe(name, running):
    """What is written there until it is closed; nothing where the program ends before."""
    number, pieces = os.open(name, os.O_RDONLY | os.O_NONBLOCK), []
    try:
        while True:
            select.select([number], [], [], PATIENCE)
            try:
                piece = os.read(number, AT_ONCE)
            except BlockingIOError:
                continue
            if not piece and (pieces or running.poll() is not None):
                return b"".join(pieces)
            pieces += [piece] if piece else []
    finally:
        os.close(number)


def run_main(main):
    """The status of a main program; a reader that goes away, as `head` does, is no fault."""
    try:
        status = main(sys.argv[1:])
        sys.stdout.flush()
        return status
    except BrokenPipeError:
        os.dup2(os.open(os.devnull, os.O_WRONLY), sys.stdout.fileno())
        return 0
