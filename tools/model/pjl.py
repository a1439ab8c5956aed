"""The job language: its lines, its two environments, and its replies."""

from typing import NamedTuple

WHITE = b" \t"
FACTORY = {
    b"COPIES": b"1",
    b"PAPER": b"LETTER",
    b"ORIENTATION": b"PORTRAIT",
    b"DUPLEX": b"OFF",
    b"BINDING": b"LONGEDGE",
    b"RESOLUTION": b"300",
}
LISTED = {
    b"PAPER": [b"LETTER", b"LEGAL", b"A4", b"EXECUTIVE", b"LEDGER", b"A3"],
    b"ORIENTATION": [b"PORTRAIT", b"LANDSCAPE"],
    b"DUPLEX": [b"OFF", b"ON"],
    b"BINDING": [b"LONGEDGE", b"SHORTEDGE"],
    b"RESOLUTION": [b"300", b"600"],
}
GREATEST_COPIES = 999
IDENTITY = b'"DIGITAL PRESS"'
END = b"\r\n\x0c"


class Line(NamedTuple):
    word: bytes  # the command word in upper case
    rest: bytes  # what stands after it, as it stands


def upper(text):
    """bytes.upper raises ASCII letters alone."""
    return text.upper()


def read_line(line):
    """Word and rest of a line, or None for any other line and for a bare one."""
    body = line[:-1]
    if body.endswith(b"\r"):
        body = body[:-1]
    body = body[len(b"@PJL"):]
    if not body or body[0] not in WHITE:
        return None
    body = body.lstrip(WHITE)
    length = 0
    while length < len(body) and body[length] not in WHITE:
        length += 1
    if length == 0:
        return None
    return Line(upper(body[:length]), body[length:])


def assignment(rest):
    """Name and value around the first equals sign, or None."""
    name, equals, value = rest.partition(b"=")
    if not equals:
        return None
    return upper(name.strip(WHITE)), upper(value.strip(WHITE))


def language_of_line(line):
    """The language that a line enters, in upper case, or None."""
    read = read_line(line)
    if read is None or read.word != b"ENTER":
        return None
    pair = assignment(read.rest)
    if pair is None or pair[0] != b"LANGUAGE" or not pair[1]:
        return None
    return pair[1]


def listed_value(name, value):
    """The value as it is kept, or None where it is none of the name's."""
    if name == b"COPIES":
        if not value.isdigit():
            return None
        copies = int(value)
        return b"%d" % copies if 1 <= copies <= GREATEST_COPIES else None
    return value if value in LISTED.get(name, []) else None


class Environment:
    """Default and current values, and the status switch."""

    def __init__(self):
        self.default = dict(FACTORY)
        self.current = dict(FACTORY)
        self.status = False

    def query(self, word, rest, values):
        name = upper(rest.strip(WHITE))
        if not name:
            return b""
        return reply(word, name, values.get(name, b'"?"'))

    def pending_change(self, read):
        """The new current environment that a line asks for, or None."""
        if read.word in (b"JOB", b"EOJ", b"RESET"):
            return dict(self.default)
        if read.word == b"INITIALIZE" and not read.rest.strip(WHITE):
            return dict(FACTORY)
        if read.word == b"SET":
            pair = self.listed_assignment(read.rest)
            if pair is not None:
                return {**self.current, pair[0]: pair[1]}
        return None

    def listed_assignment(self, rest):
        pair = assignment(rest)
        if pair is None or pair[0] not in FACTORY:
            return None
        value = listed_value(*pair)
        return None if value is None else (pair[0], value)

    def other_effect(self, read):
        """What a line that leaves the current environment does to the rest."""
        if read.word == b"DEFAULT":
            pair = self.listed_assignment(read.rest)
            if pair is not None:
                self.default[pair[0]] = pair[1]
        elif read.word == b"USTATUSOFF" and not read.rest.strip(WHITE):
            self.status = False
        elif read.word == b"USTATUS":
            pair = assignment(read.rest)
            if pair in [(b"PAGE", b"ON"), (b"PAGE", b"OFF")]:
                self.status = pair[1] == b"ON"

    def reply_to(self, read, total):
        """The reply to a line, empty for none."""
        if read.word == b"INQUIRE":
            return self.query(read.word, read.rest, self.current)
        if read.word == b"DINQUIRE":
            return self.query(read.word, read.rest, self.default)
        if read.word == b"INFO":
            facts = {b"ID": IDENTITY, b"PAGECOUNT": b"%d" % total}
            return self.query(read.word, read.rest, facts)
        if read.word == b"ECHO":
            return b"@PJL ECHO " + read.rest[1:] + END
        return b""


def reply(word, name, value):
    return b"@PJL " + word + b" " + name + b"\r\n" + value + END


def page_reply(since_job):
    return reply(b"USTATUS", b"PAGE", b"%d" % since_job)
