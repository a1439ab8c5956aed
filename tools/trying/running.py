"""A tool of a network that runs for a while, with a folder of its own."""

import re
import select
import socket
import subprocess
import tempfile
from pathlib import Path

from seen import program

SECONDS = 20


class Running:
    """Its first line tells the port; it listens at loopback."""

    def __init__(self, tool, words=(), folder=None, **more):
        self.place = tempfile.TemporaryDirectory()
        self.folder = folder or Path(self.place.name) / "spool"
        self.process = subprocess.Popen([program.ROOT / "tools" / tool, "--port", "0", *words, self.folder],
                                        stdout=subprocess.PIPE, stderr=subprocess.STDOUT, stdin=subprocess.DEVNULL, bufsize=0, **more)
        self.first = self.line()
        self.port = int(re.search(r"^listens at 127\.0\.0\.1 port ([0-9]+), by the ", self.first)[1])

    def line(self):
        """The next; empty where it ended, or tells nothing for long."""
        told = select.select([self.process.stdout], [], [], SECONDS)[0]
        return self.process.stdout.readline().decode() if told else ""

    def connect(self):
        connection = socket.create_connection(("127.0.0.1", self.port))
        connection.settimeout(SECONDS)
        return connection

    def stop(self):
        """What it still tells."""
        self.process.terminate()
        said = self.process.communicate(timeout=SECONDS)[0].decode()
        self.place.cleanup()
        return said

    def kill(self):
        """As power would; its folder stays."""
        self.process.kill()
        self.process.communicate(timeout=SECONDS)

    def __enter__(self):
        return self

    def __exit__(self, *_):
        if self.process.poll() is None:
            self.stop()
