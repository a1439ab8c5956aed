"""The session of `press press` behind tools/jmf, and its journal: a line for each event that changed it, written and synced before the event is answered. A
press has no clock, so the lines replay to the same state; a last line that a kill has cut was answered to nobody, and goes."""

import fcntl
import json
import os
import re
import shutil
import subprocess
import threading
from pathlib import Path

from seen import job_folder, pages_of, program

from . import cip4

JOURNAL, PAGES, MESSAGE = "journal", "pages", ".message.json"
STEPS = 2000     # of a turn: about half a page
QUERIES = [message.type for message in cip4.MESSAGES if message.family == cip4.QUERY]
NAME = re.compile("Q([1-9][0-9]{0,17})")


class Ended(Exception):
    """The press, or the disk, does not go on: nothing can be answered any more."""


def whole_lines(data):
    """The events of a journal, and how many bytes they have."""
    end = data.rfind(b"\n") + 1
    return [json.loads(line) for line in data[:end].splitlines()], end


def sync(path):
    """Has a file, or the names in a folder, on the disk."""
    number = os.open(path, os.O_RDONLY)
    try:
        os.fsync(number)
    finally:
        os.close(number)


class Session:
    """A press in a folder, which no other tool uses meanwhile. Entries are named on from those of the journals before: the press begins with Q1 each time."""

    def __init__(self, folder):
        self.folder, self.lock, self.more = folder, threading.RLock(), threading.Event()
        (folder / PAGES).mkdir(parents=True, exist_ok=True)
        self.held = os.open(folder, os.O_RDONLY)
        try:
            fcntl.flock(self.held, fcntl.LOCK_EX | fcntl.LOCK_NB)
        except BlockingIOError:
            raise ValueError(f"another tools/jmf has {folder}") from None
        job_folder.remove_left_over(folder)
        if not (folder / JOURNAL).exists():
            self.write_new(job_folder.last_number(folder, "Q") + 1)
        self.replay()
        for entry in [entry for entry in self.unprinted if (folder / f"job-{self.told(entry)}").exists()]:
            self.keep({"printed": entry})     # it was, and the line was not written
        self.begin_anew()
        for path in (folder / PAGES).iterdir():
            if path.name not in self.sizes:
                shutil.rmtree(path, ignore_errors=True)

    def replay(self):
        """The state behind the journal's last whole line."""
        self.first, self.jobs, self.unprinted, self.sizes = 1, {}, [], {}
        self.file = open(self.folder / JOURNAL, "r+b")
        events, end = whole_lines(self.file.read())
        self.file.truncate(end)
        self.file.seek(end)
        self.child = subprocess.Popen([program.answering(), "press"], stdin=subprocess.PIPE, stdout=subprocess.PIPE, cwd=self.folder)
        for number, event in enumerate(events, 1):
            if not self.happens(event):
                raise Ended(f"line {number} of the journal is answered otherwise than before: is the program another one?")
            self.note(event)

    def happens(self, event):
        """Whether an event of the journal has the answer that it had."""
        if "turn" in event:
            return self.say(f"turn {event['turn']}").split()[1:2] == [event["entry"]]
        answer = self.ask(event["message"], event["images"]) if "message" in event else {"ReturnCode": 0}
        return answer["ReturnCode"] == 0 and answer.get("QueueEntryID") == event.get("entry", answer.get("QueueEntryID"))

    def note(self, event):
        """What the tool itself knows of the events."""
        self.first = event.get("first", self.first)
        if event.get("message", {}).get("Type") == "SubmitQueueEntry":
            self.jobs[event["entry"]] = event
            self.sizes[Path(event["images"][0]).parent.name] = sum((self.folder / name).stat().st_size for name in event["images"])
        if event.get("completed"):
            self.unprinted.append(event["entry"])
        if "printed" in event:
            self.unprinted.remove(event["printed"])

    def keep(self, event):
        """Writes an event, and syncs it; where that fails nothing goes on, for what was answered would not come again."""
        try:
            self.file.write(json.dumps(event).encode() + b"\n")
            self.file.flush()
            os.fsync(self.file.fileno())
        except OSError as fault:
            raise Ended(f"the journal cannot be written: {fault}") from None
        self.note(event)

    def write_new(self, first):
        """A journal without events, whose entries are named from this number on."""
        new = self.folder / f"{JOURNAL}.new"
        new.write_text(json.dumps({"first": first}) + "\n")
        sync(new)
        new.replace(self.folder / JOURNAL)
        sync(self.folder)

    def begin_anew(self):
        """Where the list is empty, and all is printed, the journal and its images go."""
        queue = self.ask({"Type": "QueueStatus"})["Queue"]
        if self.jobs and not self.unprinted and queue == {"Entries": [], "Status": "Waiting"}:
            self.write_new(self.first + max(number_of(entry) for entry in self.jobs))
            self.stop()
            old = self.sizes
            self.replay()
            for name in old:
                shutil.rmtree(self.folder / PAGES / name, ignore_errors=True)

    def stop(self):
        self.child.kill()
        self.child.communicate()
        self.file.close()

    def say(self, line):
        """What the press answers to a line."""
        try:
            self.child.stdin.write(line.encode() + b"\n")
            self.child.stdin.flush()
            answer = self.child.stdout.readline().decode()
        except OSError as fault:
            raise Ended(f"the press ended: {fault}") from None
        if not answer.endswith("\n"):
            raise Ended("the press ended")
        return answer.rstrip("\n")

    def ask(self, message, images=()):
        """The answer to a message in the words of the press: its own names of entries."""
        (self.folder / MESSAGE).write_text(json.dumps({"ID": "", **message}))
        return json.loads(self.say(" ".join(["message", MESSAGE, *images])))

    def statuses(self):
        return {entry["QueueEntryID"]: entry["Status"] for entry in self.ask({"Type": "QueueStatus"})["Queue"]["Entries"]}

    def told(self, entry):
        """The name of an entry for clients."""
        return f"Q{number_of(entry) + self.first - 1}"

    def own(self, name):
        """That of the press; one that it has not is asked for, too."""
        found = NAME.fullmatch(name)
        return f"Q{int(found[1]) - self.first + 1}" if found and int(found[1]) >= self.first else "Q0"

    def message(self, message, images=(), sender=""):
        """The answer to a message, by the names for clients, and the status that its entry had; what it changed is kept."""
        with self.lock:
            if "QueueEntryID" in message:
                message = {**message, "QueueEntryID": self.own(message["QueueEntryID"])}
            try:
                before = self.statuses().get(message.get("QueueEntryID"))
                return self.carried_out(message, images, sender), before
            except Exception as fault:     # whether it is carried out, or one before it in the same document, stands in the journal alone
                raise Ended(f"a message was not answered: {fault or 'memory ran out'}") from None

    def carried_out(self, message, images, sender):
        answer = self.ask(message, images)
        entry = answer.get("QueueEntryID")
        changed = answer["ReturnCode"] == 0 and message["Type"] not in QUERIES
        if changed:
            self.keep({"message": message, "images": list(images), **({"entry": entry, "from": sender} if entry else {})})
        told = self.named(answer)
        if changed:
            self.begin_anew()
            self.more.set()
        return told

    def named(self, answer):
        """An answer by the names for clients, and with the names of the jobs."""
        if entry := answer.get("QueueEntryID"):
            answer["QueueEntryID"] = self.told(entry)
        for each in [*answer.get("Queue", {}).get("Entries", ()), answer.get("Device", {})]:
            if entry := each.get("QueueEntryID"):
                each.update(QueueEntryID=self.told(entry), JobID=self.jobs[entry]["message"]["Ticket"]["JobID"])
        return answer

    def turn(self):
        """Whether an entry took a turn."""
        with self.lock:
            entry = self.say(f"turn {STEPS}").split()[1]
            if entry != "-":
                self.keep({"turn": STEPS, "entry": entry, "completed": self.statuses().get(entry) == "Completed"})
            return entry != "-"

    def print_completed(self):
        """The folders of what is completed, one after another; each is told, and kept in the journal."""
        while self.unprinted:
            entry = self.unprinted[0]
            name, job = self.told(entry), self.jobs[entry]
            title, count = job["message"]["Ticket"]["JobID"], self.print_job(name, job)
            with self.lock:
                self.keep({"printed": entry})
                self.begin_anew()
            yield f"job-{name}: {count} {'side' if count == 1 else 'sides'} of {title} from {job['from']}"

    def print_job(self, name, job):
        """How many sides the folder of a job has, which takes its name when it is whole: what `press write` and `press print` make of its ticket and images."""
        part = self.folder / job_folder.name_of_part(name, os.getpid())
        part.mkdir()
        try:
            (part / "ticket.json").write_text(json.dumps(job["message"]["Ticket"]))
            pages_of.asked(["write", "ticket.json", "stream.prn", *(self.folder / image for image in job["images"])], b"", program.PROGRAM, part)
            stream = (part / "stream.prn").read_bytes()
            printed = pages_of.print_into(part, stream)
            job_folder.write_pages(part, printed, stream)
            job_folder.write_about(part, [("job", name), ("title", job["message"]["Ticket"]["JobID"]), ("from", job["from"]), ("printed by", printed.who)])
            job_folder.open_to(self.folder, part)
            for path in part.iterdir():
                sync(path)
            job_folder.take_its_name(part, self.folder, name)
            sync(self.folder)
            return len(printed.names)
        except (pages_of.Fault, OSError, ValueError, subprocess.SubprocessError) as fault:
            raise Ended(f"job-{name} cannot be made: {fault}") from None
        finally:
            shutil.rmtree(part, ignore_errors=True)


def number_of(entry):
    return int(entry[1:])
