"""Lines of the job language that change nothing: a variable, a value or a command that this press does not have."""

from model import pjl
from model.commands import PjlLine
from seen.printable import printable

KNOWN_WORDS = {b"COMMENT", b"ENTER", b"JOB", b"EOJ", b"RESET", b"INITIALIZE", b"SET", b"DEFAULT", b"INQUIRE", b"DINQUIRE", b"ECHO", b"INFO",
               b"USTATUS", b"USTATUSOFF"}
LONGEST_SHOWN = 64   # characters
NAMES = ", ".join(name.decode() for name in pjl.FACTORY)
VARIABLES = f"This press has {NAMES}; the others set what it has not, and no dot depends on them"
WORDS = "The line is passed over, and what follows is read"


def read(happening):
    command = happening.placed.command
    return pjl.read_line(command.line) if isinstance(command, PjlLine) else None


def assigned(happening):
    """Name and value of a line that sets a variable, or None."""
    line = read(happening)
    return pjl.assignment(line.rest) if line is not None and line.word in (b"SET", b"DEFAULT") else None


def shown(text):
    """What a line says, as the program's faults tell a key."""
    return printable(text.decode("utf-8", "replace"), LONGEST_SHOWN)


def other_variable(_, happening):
    pair = assigned(happening)
    return "variables" if pair is not None and pair[0] not in pjl.FACTORY else None


def because_of_variable(_, happening):
    return f"{shown(assigned(happening)[0])} is no variable of this press, which has {NAMES}"


def other_value(_, happening):
    pair = assigned(happening)
    if pair is None or pair[0] not in pjl.FACTORY or pjl.listed_value(*pair) is not None:
        return None
    return b"=".join(pair)


def because_of_value(_, happening):
    name, value = assigned(happening)
    kept = dict(happening.before["pjl_current"])[name]
    return f"{shown(value) or 'no value'} is none of the values of {shown(name)}, which stays {shown(kept)}"


def value_advice(_, happening):
    name = assigned(happening)[0]
    if name == b"COPIES":
        return f"COPIES is 1 to {pjl.GREATEST_COPIES}"
    return f"{shown(name)} is {' or '.join(map(shown, pjl.LISTED[name]))}"


def other_word(_, happening):
    line = read(happening)
    return shown(line.word) if line is not None and line.word not in KNOWN_WORDS else None


def because_of_word(_, happening):
    return f"{shown(read(happening).word)} is no PJL command of this press"
