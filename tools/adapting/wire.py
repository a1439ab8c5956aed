"""Messages of the Debug Adapter Protocol: a head with the length, and JSON."""

import json
import re
import threading

from seen.printable import printable

LENGTH = re.compile(rb"content-length:([^\r\n]*)", re.IGNORECASE)
DIGITS = re.compile(rb"[0-9]{1,9}")
MOST = 16_000_000        # bytes of a message
LONGEST_LINE = 65_536    # bytes of a line of the head that are looked at together
SHOWN = 60
MOST_DIGITS = 40        # of a whole number; one of more is read as clients read it, as a fraction


class Malformed(Exception):
    """A message that is none, with the reason. What follows it is read."""


def read(given):
    """The next message, or None at the end; Malformed where it is none."""
    size = length_of_head(given)
    if size is None:
        return None
    body = given.read(size)
    if len(body) < size:
        return None
    try:
        message = json.loads(body, parse_int=number_of)
    except (ValueError, RecursionError) as fault:
        raise Malformed(f"it is no JSON: {'it nests too deep' if isinstance(fault, RecursionError) else fault}") from None
    if not isinstance(message, dict):
        raise Malformed("it is no object")
    return message


def number_of(digits):
    return int(digits) if len(digits) <= MOST_DIGITS else float(digits)


def length_of_head(given):
    """The length that the next head tells, or None at the end. Bytes before its first line are passed over: they are left of what was none."""
    size = None
    while True:
        line = given.readline(LONGEST_LINE)
        if not line:
            return None
        if found := LENGTH.search(line):
            size = found[1].strip()
        elif size is not None and not line.strip(b"\r\n"):
            break
    if not DIGITS.fullmatch(size) or not 0 < int(size) <= MOST:
        raise Malformed(f"its length is {size[:SHOWN].decode(errors='replace')}, and no number from 1 to {MOST:,}")
    return int(size)


class Wire:
    """Sends answers and events, each with its number; what comes and goes can be logged."""

    def __init__(self, to, log=None):
        self.to = to
        self.log = log
        self.number = 0
        self.lock = threading.Lock()

    def note(self, mark, message):
        if self.log:
            self.log.write(f"{mark} {json.dumps(message, ensure_ascii=False)}\n")
            self.log.flush()

    def send(self, message):
        with self.lock:
            self.number += 1
            message = {"seq": self.number, **message}
            self.note(">", message)
            body = json.dumps(message).encode()
            self.to.write(b"Content-Length: %d\r\n\r\n%s" % (len(body), body))
            self.to.flush()

    def answer(self, request, body):
        number, command = about(request)
        self.send({"type": "response", "request_seq": number, "success": True, "command": command, "body": body})

    def refuse(self, request, why):
        (number, command), why = about(request), printable(why)
        self.send({"type": "response", "request_seq": number, "success": False, "command": command, "message": why,
                   "body": {"error": {"id": 1, "format": why, "showUser": True}}})

    def tell(self, event, body):
        self.send({"type": "event", "event": event, "body": body})

    def complain(self, why):
        """Says what no answer can say: of a message that is none, or behind an answer."""
        self.tell("output", {"category": "important", "output": printable(why) + "\n"})


def about(request):
    """The number and the command of the request that is answered; of one that has none 0, and no word."""
    number, command = request.get("seq"), request.get("command")
    return number if type(number) is int else 0, command if isinstance(command, str) else ""
