"""The program before it is proved: the kit lowers the sources with the language's checks, and its compiler makes a program of that at once.

The kit's `rt try` makes a module of the whole program before it proves anything, and hands it to its compiler. It is asked in a folder that
looks like the kit, by links, but for the compiler: that one takes the module, and the kit is asked for no more. The module is compiled twice:
at `-O0`, which takes a dozen seconds and answers the first call, and at `-O2` behind the caller's back, which answers the later ones, each in
parts side by side by the kit's linker, which compiles a module to an object that can be linked again.
What was made is kept in out/compiling/ under a sum of the code and the kit. A program is put there under its name when it is whole.
"""

import contextlib
import fcntl
import hashlib
import os
import shutil
import signal
import subprocess
import sys
import tempfile
import time
from pathlib import Path

from proving import reckoned, sources, standing
from seen import kit, program

ROOT = program.ROOT
FOLDER = ROOT / "out" / "compiling"
RECORD = standing.COMPILED
CRATE = program.PROGRAM.parent.parent
TARGET = "x86_64-unknown-linux-gnu"
FLAGS = [word for flag in ("relocation-model=pic", "no-trap-after-noreturn", "trap-unreachable", "no-x86-call-frame-opt", "disable-machine-licm",
                           "disable-postra-machine-licm", "sink-common-insts=false") for word in ("-mllvm", f"-{flag}")]
PARTS = 8                           # in which the module is compiled side by side
FIRST, FAST = 0, 2                  # the levels of optimisation
LOOKS_A_SECOND = 50
SMALL = 100_000                     # bytes of the modules that the kit compiles beside the program
PROVED_TEXT, OTHER_TEXT = b"(proved by rattle-kit", b"(unproved, rattle-kit"   # of as many bytes

COMPILER = """#!/bin/sh
# Stands in the place of the kit's compiler: takes the module of the program, and compiles what is small.
for word in "$@"; do
  case $word in
  *.bc) if [ "$(stat -c %s "$word")" -gt {small} ]; then cp "$word" "{taken}.part" && mv "{taken}.part" "{taken}"; exit 1; fi ;;
  esac
done
exec "{compiler}" "$@"
"""


class NotCompiled(OSError):
    """Why there is no program."""


def home():
    """The kit's folder."""
    return Path(os.path.realpath(kit.find())).parent.parent


def sum_of_code(of=sources.PROGRAM):
    """A sum of all that is compiled of the program, or of the archive of another name, and of the kit."""
    found = hashlib.sha256(sources.kit().encode())
    rows = sources.rows_of(ROOT)
    for name in sources.below(rows, of):
        found.update(repr((name, rows[name])).encode())
        for path in sorted((ROOT / "crates" / name / "src").glob("**/*.rt")):
            found.update(repr((str(path.relative_to(ROOT)), path.read_bytes())).encode())
    return found.hexdigest()[:32]


@contextlib.contextmanager
def held(name):
    """Keeps other calls from making the same until this one has ended. One that has to wait says so."""
    FOLDER.mkdir(parents=True, exist_ok=True)
    with open(FOLDER / f"{name}.lock", "w", encoding="utf-8") as handle:
        try:
            fcntl.flock(handle, fcntl.LOCK_EX | fcntl.LOCK_NB)
        except BlockingIOError:
            kit.say("another call compiles the program; this one waits for it")
            fcntl.flock(handle, fcntl.LOCK_EX)
        yield


def linked_kit(room, taken):
    """A folder that is the kit, but for its compiler, and its prover, which is not asked for anything: the kit's rt in it."""
    given = home()
    here = room / "kit"
    for part in ("bin", "toolchain/bin"):
        (here / part).mkdir(parents=True)
        for path in (given / part).iterdir():
            (here / part / path.name).symlink_to(path)
    for folder, skipped in ((given, ("bin", "toolchain")), (given / "toolchain", ("bin",))):
        for path in folder.iterdir():
            if path.name not in skipped:
                (here / path.relative_to(given)).symlink_to(path)
    for name in ("rt", "rtlib.py"):   # they look for the kit beside the file that they stand in
        if (given / "bin" / name).exists():
            (here / "bin" / name).unlink()
            shutil.copy2(given / "bin" / name, here / "bin" / name)
    (here / "bin/rattle").unlink(missing_ok=True)
    (here / "bin/rattle").symlink_to(shutil.which("true") or "/bin/true")
    compiler = here / "toolchain/bin/clang"
    compiler.unlink()
    compiler.write_text(COMPILER.format(small=SMALL, taken=taken, compiler=given / "toolchain/bin/clang"), encoding="utf-8")
    compiler.chmod(0o755)
    return here / "bin/rt"


def make_module(room, crate=CRATE):
    """Has the kit lower the program of a crate with its checks: the module."""
    taken = room / "module.bc"
    with open(room / "said", "wb") as lines:
        asked = [linked_kit(room, taken), "try", "--seconds", "1", "--", "--help"]
        running = subprocess.Popen(asked, cwd=crate, stdin=subprocess.DEVNULL, stdout=lines, stderr=lines, start_new_session=True,
                                   env={**os.environ, "TMPDIR": str(room)})
        try:
            while running.poll() is None and not taken.exists():
                time.sleep(1 / LOOKS_A_SECOND)
        finally:
            with contextlib.suppress(ProcessLookupError):
                os.killpg(running.pid, signal.SIGTERM)
            running.wait()
    if not taken.exists():
        raise NotCompiled((room / "said").read_text(errors="replace")[-2000:].strip() or "the kit said nothing")
    return taken


def run(words):
    """Runs a part of the kit's compiler."""
    ran = subprocess.run(words, stdin=subprocess.DEVNULL, capture_output=True, text=True, errors="replace", check=False)
    if ran.returncode:
        raise NotCompiled(ran.stderr[-2000:].strip() or f"{words[0]} ended with status {ran.returncode}")


def make_object(module, level, to):
    """Compiles a module to an object that can be linked, in parts side by side."""
    run([home() / "toolchain/bin/ld.lld", "-r", *FLAGS, f"--lto-O{level}", f"--lto-CGO{level}", f"--lto-partitions={PARTS}", module, "-o", to])


def make_program(module, level, room, to):
    """Compiles and links the module, and gives the program its name when it is whole."""
    given = home()
    made, whole = room / f"program-{level}.o", room / f"program-{level}"
    make_object(module, level, made)
    run([given / "bin/rattle-link", "--target", TARGET, "--toolchain", given / "toolchain", "-o", whole, made,
         given / "c/libos_c.a", given / "c/liblibc_c.a"])
    text = whole.read_bytes()
    if text.count(PROVED_TEXT) > 1:
        raise NotCompiled("its version stands in the program more than once")
    whole.write_bytes(text.replace(PROVED_TEXT, OTHER_TEXT))
    whole.chmod(0o755)
    whole.replace(to)


@contextlib.contextmanager
def room_of(name):
    """A folder for what is half made; those of calls that were killed are removed."""
    for left in FOLDER.glob("room-*"):
        if not os.path.exists(f"/proc/{left.name.split('-')[1]}"):
            shutil.rmtree(left, ignore_errors=True)
    with tempfile.TemporaryDirectory(prefix=f"room-{os.getpid()}-", dir=FOLDER) as path:
        yield Path(path)


def name_of(code, level):
    return FOLDER / f"{code}-{level}"


def remove_older(code):
    """Removes what was made of other sources."""
    for path in FOLDER.iterdir():
        if path.is_file() and not path.name.startswith((code, "first", "fast", "library")):
            path.unlink(missing_ok=True)


def make_fast(code):
    """Makes the fast program of a module that was kept, and notes that it answers from now on."""
    module, to = name_of(code, "module"), name_of(code, FAST)
    with held("fast"):
        if not to.exists() and module.exists():
            with room_of(code) as room:
                make_program(module, FAST, room, to)
            module.unlink(missing_ok=True)
    if to.exists() and sum_of_code() == code:
        note(to, time.time(), line())


def begin_fast(code):
    """Has the fast program made while this call goes on."""
    with contextlib.suppress(OSError):
        subprocess.Popen(["nice", "-n", "10", sys.executable, ROOT / "tools/answer", "--make-fast", code], stdin=subprocess.DEVNULL,
                         stdout=subprocess.DEVNULL, stderr=subprocess.DEVNULL, start_new_session=True, cwd="/")


def make_first(code):
    """Makes the first program of these sources, while the fast one is begun."""
    kit.say("nothing is proved on this machine: the program is compiled, which takes about a minute the first time")
    with room_of(code) as room:
        module = make_module(room)
        kept = name_of(code, "module")
        module.replace(kept)
        begin_fast(code)
        make_program(kept, FIRST, room, name_of(code, FIRST))
    remove_older(code)


def best_of(code):
    """The fastest program of this code that stands, or None."""
    return next((path for level in (FAST, FIRST) if os.access(path := name_of(code, level), os.X_OK)), None)


def note(made, since, said):
    """Notes which program answers, and what is said of it. Who may not write the folder, as CUPS' own user, looks again at each call."""
    with contextlib.suppress(OSError):
        standing.write(RECORD, (made.relative_to(RECORD.parent), said), since)


def line():
    """What is said each time that it answers."""
    return f"not proved on this machine; ./press --prove proves it here, {reckoned.told()}"


def find():
    """The program of these sources, compiled if it does not stand."""
    since, code = time.time(), sum_of_code()
    if best_of(code) is None:
        with held("first"):
            if best_of(code) is None:
                make_first(code)
    elif not name_of(code, FAST).exists() and name_of(code, "module").exists():
        begin_fast(code)   # the call that began it may have been ended
    made = best_of(code)
    note(made, since, line())
    return made
