"""tools/jmf killed at random moments while a controller submits: each job that was accepted is printed, once, with its own dots, and no other is."""

import random
import re
import subprocess
import threading
import time

from model import pages
from seen import program

from . import controller

WIDE = 64        # dots of a job's image, which spell its number
SECONDS = 60
JOB = re.compile(rb"^job-(Q[0-9]+): 1 side of [0-9]+ from ", re.MULTILINE)


def image_of(number):
    return b"P4\n%d 1\n" % WIDE + (number | 1 << WIDE - 1).to_bytes(WIDE // 8, "big")


def side_of(number):
    """What `press write` and `press print` make of this image."""
    size = pages.SIZES["Letter"]
    row = (number | 1 << WIDE - 1) << 8 * ((size.width + 7) // 8) - size.portrait_offset - WIDE
    stride = (size.width + 7) // 8
    return b"P4\n%d %d\n" % (size.width, size.height) + row.to_bytes(stride, "big") + bytes(stride * (size.height - 1))


class Submitting(threading.Thread):
    """A controller that submits a job after another, whatever becomes of it, and removes those that are completed."""

    def __init__(self, port):
        super().__init__(daemon=True)
        self.port, self.sent, self.accepted, self.enough = port, 0, {}, False

    def run(self):
        while not self.enough:
            try:
                self.sent += 1
                answer = controller.post(self.port, *controller.package(image_of(self.sent), self.sent))
                if entry := controller.entry_of(answer):
                    self.accepted[entry] = self.sent
                if self.sent % 5 == 0:
                    self.remove()
            except (OSError, ValueError):
                time.sleep(0.02)     # it was killed, and begins again

    def remove(self):
        status = controller.post(self.port, controller.JMF, controller.document('<Query ID="q" Type="QueueStatus"/>'))
        for entry in controller.completed(status):
            controller.post(self.port, controller.JMF, controller.of_entry("RemoveQueueEntry", entry))


def begin(folder, port, log):
    with open(log, "ab") as file:
        return subprocess.Popen([program.ROOT / "tools/jmf", "--port", str(port), folder], stdout=file, stderr=file, stdin=subprocess.DEVNULL)


def complaints(folder, count, seed=0):
    """Kills it so many times; what is wrong then, and what came of it."""
    chance, spool, log = random.Random(seed), folder / "spool", folder / "log"
    port = controller.free_port()
    client = Submitting(port)
    client.start()
    for _ in range(count):
        process = begin(spool, port, log)
        time.sleep(chance.uniform(0.05, 1.5))
        if process.poll() is not None:
            yield f"it ended by itself: {log.read_bytes()[-300:]!r}"
        process.kill()
        process.wait()
    with begin(spool, port, log) as process:
        try:
            finish(client, spool)
        finally:
            process.terminate()
    yield from wrong(client, spool, log)
    print(f"kills={count} sent={client.sent} accepted={len(client.accepted)} printed={len(list(spool.glob('job-*')))}")


def finish(client, spool):
    """The client ends once some more are accepted; then all is printed, and removed."""
    before = len(client.accepted)
    for _ in range(SECONDS * 5):
        time.sleep(0.2)
        if len(client.accepted) > before + 2:
            break
    client.enough = True
    client.join(SECONDS)
    for _ in range(SECONDS * 5):
        time.sleep(0.2)
        client.remove()
        if (spool / "journal").read_bytes().count(b"\n") == 1:
            break


def wrong(client, spool, log):
    found = {path.name.removeprefix("job-"): (path / "page-1.pbm").read_bytes() for path in spool.glob("job-*")}
    if lost := {entry: number for entry, number in client.accepted.items() if found.get(entry) != side_of(number)}:
        yield f"lost, or with other dots: {lost}"
    if len(set(found.values())) != len(found) or not set(found.values()) <= {side_of(number) for number in range(1, client.sent + 1)}:
        yield f"printed twice, or never sent: {sorted(found)}"
    told = JOB.findall(log.read_bytes())
    if len(set(told)) != len(told) or not {entry.decode() for entry in told} <= set(found):
        yield f"told twice, or without a folder: {sorted(told)}"
    if (spool / "journal").read_bytes().count(b"\n") != 1 or list((spool / "pages").iterdir()) or not client.accepted:
        yield f"where nothing is left, the journal has {(spool / 'journal').read_bytes()[:300]!r}"
