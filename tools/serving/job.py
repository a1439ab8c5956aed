"""A job of tools/printer, in a process of its own: a connection is printed, and leaves the folder of a job, or nothing and a reset."""

import contextlib
import errno
import os
import resource
import shutil
import signal
import socket
import struct
import subprocess
import tempfile
from pathlib import Path
from typing import NamedTuple

from seen import job_folder, pages_of, program
from seen.printable import printable

from . import relay
from .relay import Refused

RESET, ORDERLY = struct.pack("ii", 1, 0), struct.pack("ii", 0, 0)     # how a connection is closed
MOST_JUDGED = 4 << 20      # bytes of a stream whose blank pages are judged: a second for each 60,000 at worst
SET_TO_600 = f"A printer that is told so is tools/printer --default {job_folder.AT_600} (docs/NETWORK.md)"


class Asked(NamedTuple):
    """What all jobs of a printer have."""
    folder: Path
    front: bytes
    bounds: relay.Bounds
    seconds: int
    memory: int     # bytes of a job's process, and of the press


class Client(NamedTuple):
    connection: socket.socket
    name: str       # address and port
    number: int     # of its job


def name_of(address):
    return f"{address[0]} port {address[1]}"


def serve(client, asked):
    """The line that is told of a connection. It is reset wherever it is closed before `finish`: no client takes a job that died for one that is printed."""
    try:
        if not (first := first_bytes(client.connection, asked.bounds.idle)):
            finish(client.connection)
            return f"{client.name}: sent nothing"
        told = print_job(client, asked, first)
        finish(client.connection)
        return told
    except Refused as refused:
        return f"{client.name}: refused: {refused}"
    finally:
        client.connection.close()


def first_bytes(connection, seconds):
    """The first that comes; empty where nothing does."""
    connection.settimeout(seconds)
    try:
        return connection.recv(relay.PIECE)
    except OSError:
        return b""


def finish(connection):
    """The end that a client sees where its job stands in the folder."""
    with contextlib.suppress(OSError):
        connection.setsockopt(socket.SOL_SOCKET, socket.SO_LINGER, ORDERLY)
        connection.shutdown(socket.SHUT_WR)


def print_job(client, asked, first):
    """The folder of a job, or nothing at all."""
    part = asked.folder / job_folder.name_of_part(client.number, os.getpid())
    try:
        part.mkdir()
        with bounded(asked):
            passed, printed = printed_in(part, client, asked, first)
            name = whole(part, client, asked, passed, printed)
    except pages_of.Fault as fault:
        raise Refused(f"the press ends the job: {printable(str(fault))}") from None
    except subprocess.TimeoutExpired:
        raise Refused(f"the press takes longer than {program.SECONDS} seconds to list it") from None
    except MemoryError:
        raise Refused("memory ran out") from None
    except (OSError, ValueError) as fault:
        raise Refused(f"{asked.folder} cannot be written, or the job not be told: {printable(str(fault))}") from None
    finally:
        shutil.rmtree(part, ignore_errors=True)
    count = len(printed.names)
    return f"{name.name}: {count} {'side' if count == 1 else 'sides'} of {len(passed.stream):,} bytes from {client.name}, ended {passed.ended}"


@contextlib.contextmanager
def bounded(asked):
    """No job takes longer, or more memory; behind it the bound of memory is what it was."""
    def late(*_):
        raise Refused(f"it takes longer than {asked.seconds:,} seconds")

    before = resource.getrlimit(resource.RLIMIT_AS)
    resource.setrlimit(resource.RLIMIT_AS, (asked.memory, before[1]))
    signal.signal(signal.SIGALRM, late)
    signal.alarm(asked.seconds)
    try:
        yield
    except OSError as fault:
        if fault.errno != errno.ENOMEM:
            raise
        raise MemoryError from None     # a process that cannot be begun, as an allocation that fails
    finally:
        signal.alarm(0)
        resource.setrlimit(resource.RLIMIT_AS, before)


def printed_in(part, client, asked, first):
    """What came, and what it prints."""
    last = part / pages_of.TEMPLATE.replace("%d", str(asked.bounds.sides + 1))
    with tempfile.TemporaryFile() as errors:
        child = relay.start(program.answering(), ["print", "-", pages_of.TEMPLATE], part, errors)
        try:
            passed = relay.Relay(client.connection, child, last, asked.bounds, first, asked.front)
            passed.run()
            passed.look()
        finally:
            end(child)
        if child.returncode:
            errors.seek(0)
            raise pages_of.Fault(errors.read().decode(errors="replace").strip())
    return passed, pages_of.listed_in(part, asked.front + passed.stream, bytes(passed.replies))


def end(child):
    """Of its own where its input and its output are at their end, else by force."""
    try:
        if child.stdin.closed and child.poll() is None:
            child.wait(relay.TICK)
    except subprocess.TimeoutExpired:
        pass
    finally:
        child.kill()
        child.wait()
        for pipe in (child.stdin, child.stdout):
            pipe.close()


def whole(part, client, asked, passed, printed):
    """The job's folder, once all stands in it."""
    stream = asked.front + bytes(passed.stream)
    job_folder.write_pages(part, printed, stream)
    job_folder.write_why(part, job_folder.judged(stream, MOST_JUDGED), SET_TO_600)
    job_folder.write_about(part, [("job", str(client.number)), ("from", client.name), ("bytes", str(len(passed.stream))),
                                  ("ended", passed.ended), ("printed by", printed.who)])
    job_folder.open_to(asked.folder, part)
    signal.alarm(0)      # from here on it is printed
    signal.signal(signal.SIGTERM, signal.SIG_IGN)
    return job_folder.take_its_name(part, asked.folder, client.number)
