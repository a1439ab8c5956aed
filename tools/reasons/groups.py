"""What is said of all happenings that met one reason for one thing: a sentence behind the name of the stream, or None for nothing."""

import re

from model.commands import Param, carries_data
from model.values import read_value
from seen import remarks
from seen.printable import printable

from .finding import counted

LONGEST_NAME = 64   # characters that are told of a name
CUT = re.compile(rb"\x1b([!-/])([`-~]?)([+-]?[0-9]*(?:\.[0-9]*)?)([@-^`-~])(.*)", re.DOTALL)


def place_of(happening):
    return f"at byte {happening.placed.offset:,}"


def more(group):
    return f" and {counted(group.count - 1, 'time')} more" if group.count > 1 else ""


def named(happening):
    return remarks.spelled(happening.placed.command) or remarks.name_of(happening.placed.command)


def of_a_kind(happening):
    """The same, but for the number of bytes of its data."""
    command = happening.placed.command
    if not isinstance(command, Param) or not carries_data(command.character, command.group, command.end):
        return named(happening)
    return "ESC" + chr(command.character) + ("" if command.group is None else chr(command.group)) + "#" + chr(command.end)


def sends(judge, group):
    return f"sends {named(group.first)} {place_of(group.first)}{more(group)}: {group.because(judge)}"


def plain(judge, group):
    return f"has {named(group.first)} {place_of(group.first)}{more(group)}: {group.because(judge)}"


def first_of_many(judge, group):
    """Several commands that say one thing."""
    first = of_a_kind(group.first)
    others = sorted(set(group.names) - {first})
    behind = f", and {counted(group.count - 1, 'command')} like it" if group.count > 1 else ""
    behind += f" ({', '.join(others[:3])}{' ..' if len(others) > 3 else ''})" if others else ""
    return f"sends {first} {place_of(group.first)}{behind}: {group.because(judge)}"


def silent(*_):
    return None


def from_byte(group):
    return f"from byte {group.first.placed.offset:,} on"


def language(_, group):
    return (f"enters the language {group.key}, and {counted(group.commands, 'byte')} {from_byte(group)} are "
            "skipped; the press reads PCL and PJL")


def plot(_, group):
    return f"enters HP-GL/2, and {counted(group.commands, 'command')} {from_byte(group)} are skipped"


def text(_, group):
    return f"has {counted(group.commands, 'byte')} of text {from_byte(group)}, and text leaves no marks"


def fills(_, group):
    times = f", and {counted(group.count - 1, 'fill')} like it" if group.count > 1 else ""
    return f"has a fill {place_of(group.first)} that marks nothing{times}"


def late(_, group):
    height = group.first.before["source_height"]
    height = f" of {height:,}" if height is not None else ""
    return f"has {counted(group.sent.late, 'row')} past the raster height{height} {from_byte(group)}"


def lost(_, group):
    sent = group.sent
    parts = [f"{count:,} past the {side} edge" for count, side in ((sent.right, "right"), (sent.below, "lower")) if count]
    return f"loses {sent.lost():,} of the {counted(sent.black, 'black dot')} that it sends {from_byte(group)}: " + " and ".join(parts)


def broken(_, group):
    what = "an escape sequence" if group.first.placed.command.broken[:1] == b"\x1b" else "a PJL line"
    pieces = f"; {group.count:,} pieces are ignored" if group.count > 1 else ""
    return f"has {what} {place_of(group.first)} that does not go on, and it is ignored{pieces}"


def fronts(_, group):
    what = f"{counted(group.count, 'front')} that {'goes out alone' if group.count == 1 else 'go out alone'}"
    return f"has {what}, without a back, in duplex, the first by {named(group.first)} {place_of(group.first)}, and pages follow"


def variables(_, group):
    names = list(group.names)
    return (f"sets {counted(len(names), 'PJL variable')} that this press does not have, {from_byte(group)}: "
            + ", ".join(names[:6]) + (" .." if len(names) > 6 else ""))


def job_name(happening):
    line = happening.placed.command.line
    name = re.sub(rb"(?is)^@PJL[ \t]+\w+[ \t]+", b"", line).partition(b"=")[0].strip().decode("utf-8", "replace")
    return printable(name.upper(), LONGEST_NAME)


def cut_command(data):
    """A command that wants more data than there is: as it is spelled, how many bytes it has, and how many it wants; or None."""
    found = CUT.fullmatch(data)
    if not found:
        return None
    character, group, field, end = found[1], found[2], found[3], found[4].upper()
    wants = read_value(field).whole()
    if not carries_data(character[0], group[0] if group else None, end[0]) or wants <= len(found[5]):
        return None
    return "ESC" + (character + group + field + end).decode(), len(found[5]), wants
