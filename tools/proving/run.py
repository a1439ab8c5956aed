"""One run of the prover over some crates: what is begun, what ended, and what is told of it."""

import fcntl
import os
import shutil
import subprocess
import sys
import time
from pathlib import Path

from proving import archive, rooms, shared, sources, standing, stated
from proving.measures import Measure

LOOKS_A_SECOND = 4
SECONDS_BETWEEN_LINES = 10


GIVES_WAY = ["nice", "-n", "5"]


def command(rt, name, jobs, gives_way):
    """What proves a crate; the program is built and run with nothing on standard input, too."""
    asked = [sys.executable, str(Path(__file__).with_name("remembered.py")), rt]
    return [*(GIVES_WAY if gives_way else []), *asked, "run" if name == sources.PROGRAM else "lib", "--jobs", str(jobs)]


class Proof:
    """One crate that is being proved."""

    def __init__(self, words, room, jobs, log, lock):
        self.room, self.jobs, self.log, self.lock, self.measure = room, jobs, log, lock, None
        room.furnish()
        with open(log, "wb") as lines:
            self.process = subprocess.Popen(words, cwd=room.crate, stdin=subprocess.DEVNULL, stdout=lines, stderr=lines)
        self.begun = time.monotonic()

    def ended(self):
        """Whether the prover has ended; its measure and status are known then."""
        if self.measure is None:
            number, status, used = os.wait4(self.process.pid, os.WNOHANG)
            if number:
                self.process.returncode = os.waitstatus_to_exitcode(status)
                seconds = used.ru_utime + used.ru_stime
                self.measure = Measure(round(time.monotonic() - self.begun, 1), round(seconds, 1), used.ru_maxrss * 1024, self.jobs)
        return self.measure is not None

    def proved(self):
        return self.process.returncode == 0

    def last_line(self):
        lines = [line for line in self.log.read_text(errors="replace").splitlines() if line.strip()]
        return lines[-1][:300] if lines else "it said nothing"


class Run:
    """The crates that are proved now; `begin` and `collect` are called until nothing is open."""

    def __init__(self, rt, plan, crates, folder, logs):
        self.rt, self.plan, self.crates, self.folder, self.logs = rt, plan, crates, folder, logs
        self.proofs, self.why = {}, {}
        self.started, self.told = time.monotonic(), 0.0
        for part in ("locks", "done"):
            (logs / part).mkdir(parents=True, exist_ok=True)
        shared.note(crates.parent)
        given = plan.given
        self.of_program = standing.sum_of_sources(given.rows, given.folder) if sources.PROGRAM in given.names else None
        self.of_library = standing.sum_of_sources(given.rows, given.folder, sources.LIBRARY) if sources.LIBRARY in given.names else None
        for older in logs.glob("run-*.log"):
            if not os.path.exists(f"/proc/{older.stem.partition('-')[2]}"):
                older.unlink()
        self.states, self.stamps = {}, None
        self.lines = open(logs / f"run-{os.getpid()}.log", "w", encoding="utf-8", buffering=1)
        self.work = Processors()

    def note(self, text):
        print(f"{time.monotonic() - self.started:7.0f} {text}", file=self.lines)

    def stated(self, name):
        """The sum of what a crate states that stands."""
        if name not in self.states:
            self.states[name] = stated.of_library(self.crates / name / "out" / rooms.BUILT / f"{name}.rlib")
        return self.states[name]

    def sum(self, name):
        """The sum of all that the proof of a crate reads, whose lower ones stand."""
        return self.plan.given.sum(name, self.stated)

    def stands(self, name):
        """Whether what was made of a crate is of these sources."""
        stands = shared.is_proved(self.crates.parent, name, self.sum(name))
        return stands and (name != sources.PROGRAM or standing.is_of(self.crates.parent, self.crates / name / "out" / name, self.of_program))

    def stamp(self, name):
        """Gives a library that stands the stamp of the sources of now, since those below it may have other bodies."""
        if name == sources.PROGRAM or name in self.plan.given.statics:
            return
        if self.stamps is None:
            self.stamps = stated.stamps(self.rt, *self.whole())
        path = self.crates / name / "out" / rooms.BUILT / "stamp"
        if (wanted := self.stamps.get(name)) and path.read_text(encoding="utf-8") != wanted:
            written = path.with_name("stamp.new")
            written.write_text(wanted, encoding="utf-8")
            written.replace(path)
            shared.mark(self.crates.parent, name, self.sum(name))
            self.note(f"stamps {name}")

    def whole(self):
        """A repository of the sources of this run, and its crates."""
        given, top = self.plan.given, self.folder / "whole"
        (top / "crates").mkdir(parents=True)
        (top / sources.LIST).write_text("".join(given.row(name) for name in given.names), encoding="utf-8")
        for name in given.names:
            rooms.linked(given.folder / name, top / "crates" / name)
        return top, given.names

    def lock(self, name):
        """What keeps other runs from this crate until it is closed, or None where one has it."""
        handle = open(self.logs / "locks" / name, "w", encoding="utf-8")
        try:
            fcntl.flock(handle, fcntl.LOCK_EX | fcntl.LOCK_NB)
            return handle
        except BlockingIOError:
            handle.close()
            return None

    def begin(self):
        """Begins each crate that may be begun, and notes those that stand already."""
        for name in self.plan.ready():
            if self.stands(name):
                self.stamp(name)
                rooms.note_made(self.crates, self.folder / "made", name)
                self.plan.end(name, True)
                self.note(f"stands {name}")
            elif (jobs := self.plan.jobs_for(name)) and (lock := self.lock(name)):
                self.begin_one(name, jobs, lock)

    def takes(self, name):
        """Whether another checkout has the crate, and it could be taken from there."""
        top, found = self.crates.parent, self.sum(name)
        if (other := shared.take(top, name, found, self.of_program, self.folder / f"taken-{name}")) is None:
            return False
        self.mark(name, f"tools/prove in {other}")
        self.note(f"taken {name} from {other}")
        return True

    def mark(self, name, by):
        """Notes that what stands of a crate was proved of these sources."""
        shared.mark(self.crates.parent, name, self.sum(name))
        if name == sources.PROGRAM:
            standing.note_proved(self.of_program, by, self.plan.given.since)
        if name == sources.LIBRARY:
            archive.note_proved(self.of_library, by)

    def begin_one(self, name, jobs, lock):
        if self.stands(name) or self.takes(name):   # another run has just proved it, or another checkout has it
            lock.close()
            return
        room = rooms.Room(self.crates, self.plan.given, self.folder / "made", name, self.folder / name)
        urgent, gives_way = self.plan.is_urgent(name), self.plan.gives_way(name)
        try:
            self.proofs[name] = Proof(command(self.rt, name, jobs, gives_way), room, jobs, self.logs / f"{name}.log", lock)
        except OSError as error:
            lock.close()
            self.why[name] = f"its room could not be made: {error.strerror} ({error.filename})"
            self.plan.end(name, False)
            return
        self.plan.begin(name, jobs)
        self.note(f"begins {name} jobs={jobs}{' urgent' if urgent else ''}{' gives way' if gives_way else ''}")

    def collect(self):
        """Takes what ended into the crates' own folders; answers the crates that were refused now."""
        return [name for name, proof in list(self.proofs.items()) if proof.ended() and self.take(name, proof) and name in self.plan.refused]

    def take(self, name, proof):
        """Takes one crate's work; answers whether it could, since no run of the prover has the crate's folder."""
        try:
            if not proof.room.bring_back(proof.proved()):
                return False
            if proof.proved():
                self.mark(name, "tools/prove")
                self.plan.measures.note(name, proof.measure)
            else:
                self.why[name] = f"{self.logs / name}.log ends with: {proof.last_line()}"
        except OSError as error:
            self.why[name] = f"what was made of it could not be kept: {error.strerror} ({error.filename})"
        found = proof.measure
        self.note(f"{'proved' if proof.proved() else 'refused'} {name} seconds={found.seconds} processor_seconds={found.processor_seconds} "
                  f"megabytes={found.memory // 10**6} jobs={found.jobs}")
        self.plan.end(name, name not in self.why)
        del self.proofs[name]
        proof.lock.close()
        return True

    def look(self):
        """Notes now and then how many processors work."""
        if time.monotonic() - self.told >= SECONDS_BETWEEN_LINES:
            self.told = time.monotonic()
            self.note(f"processors={self.work.since():.1f} {' '.join(self.proofs)}")

    def stop(self):
        """Ends all proofs, and keeps what they have proved so far."""
        for proof in self.proofs.values():
            if not proof.ended():
                proof.process.terminate()
        for proof in self.proofs.values():
            while not proof.ended():
                time.sleep(1 / LOOKS_A_SECOND)
            proof.room.bring_back(False)
            proof.lock.close()

    def close(self):
        self.lines.close()
        shutil.rmtree(self.folder, ignore_errors=True)


class Processors:
    """How many processors of the machine have worked since this was asked last."""

    def __init__(self):
        self.before = self.now()

    @staticmethod
    def now():
        with open("/proc/stat", encoding="ascii") as lines:
            user, nice, system = map(int, lines.readline().split()[1:4])
        return time.monotonic(), (user + nice + system) / os.sysconf("SC_CLK_TCK")

    def since(self):
        (then, worked), self.before = self.before, self.now()
        return (self.before[1] - worked) / max(self.before[0] - then, 0.001)
