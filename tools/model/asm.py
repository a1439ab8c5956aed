"""Assembly text: a line stands for a command; the bytes of a text are those of its lines in order."""

import string

from .commands import (
    Broken, Control, Escape, Foreign, Param, PjlLine, Text, Uel, carries_data, closed, command_bytes,
    same_commands, split)
from .values import is_field, read_value

HEX = set(string.hexdigits.encode())


class BadText(Exception):
    """The number of the refusal and the line, counted from 1."""

    def __init__(self, number, line=None):
        super().__init__(number, line)
        self.number = number
        self.line = line


BAD_LINE, BAD_VALUE, BAD_DATA = 401, 402, 403


def assemble(text):
    """The bytes of a text (a str); refuses at its first bad line."""
    lines = text.encode().split(b"\n")
    if lines[-1] == b"":
        lines.pop()
    assembled = b""
    for place, line in enumerate(lines, 1):
        if line == b"" or line.startswith(b";"):
            continue
        try:
            assembled += command_bytes(command_of_line(line))
        except BadText as bad:
            raise BadText(bad.number, place) from None
    return assembled


def command_of_line(line):
    if line == b"uel":
        return Uel()
    word, space, rest = line.partition(b" ")
    readers = {b"esc": escape, b"par": param, b"ctl": control, b"txt": text, b"for": foreign,
               b"brk": broken, b"pjl": pjl_line}
    if not space or word not in readers:
        raise BadText(BAD_LINE)
    return readers[word](rest)


def escape(rest):
    if len(rest) != 1 or not 48 <= rest[0] <= 126:
        raise BadText(BAD_LINE)
    return Escape(rest[0])


def one_byte(rest):
    if len(rest) != 2 or not set(rest) <= HEX:
        raise BadText(BAD_LINE)
    return int(rest, 16)


def control(rest):
    byte = one_byte(rest)
    if byte > 31 or byte == 27:
        raise BadText(BAD_LINE)
    return Control(byte)


def text(rest):
    byte = one_byte(rest)
    if byte < 32:
        raise BadText(BAD_LINE)
    return Text(byte)


def foreign(rest):
    return Foreign(one_byte(rest))


def check_digits(digits):
    if not digits or not set(digits) <= HEX:
        raise BadText(BAD_LINE)


def data_of_digits(digits):
    if len(digits) % 2:
        raise BadText(BAD_DATA)
    return bytes.fromhex(digits.decode())


def broken(rest):
    check_digits(rest)
    return Broken(data_of_digits(rest))


def pjl_line(rest):
    check_digits(rest)
    line = data_of_digits(rest)
    commands, _, unread = split(line)
    if unread or not same_commands(commands, [PjlLine(line)]):
        raise BadText(BAD_DATA)
    return PjlLine(line)


def param(rest):
    word, space, digits = rest.partition(b" ")
    if space:
        check_digits(digits)
    if not word or not 33 <= word[0] <= 47:
        raise BadText(BAD_LINE)
    character, group, tail = word[0], None, word[1:]
    if tail and 96 <= tail[0] <= 126:
        group, tail = tail[0], tail[1:]
    if not tail or not 64 <= tail[-1] <= 94 or word == b"%-12345X":
        raise BadText(BAD_LINE)
    field, end = tail[:-1], tail[-1]
    if not is_field(field):
        raise BadText(BAD_VALUE)
    data = data_of_digits(digits)
    count = 0
    if carries_data(character, group, end):
        count = max(0, read_value(field).whole())
    if len(data) != count:
        raise BadText(BAD_DATA)
    return Param(character, group, field, end, data)


def line_of_command(command):
    if isinstance(command, Uel):
        return "uel"
    if isinstance(command, Escape):
        return "esc " + chr(command.byte)
    if isinstance(command, Param):
        group = "" if command.group is None else chr(command.group)
        word = chr(command.character) + group + command.field.decode("ascii") + chr(command.end)
        return "par " + word + (" " + digits_of(command.data) if command.data else "")
    words = {Control: "ctl", Text: "txt", Foreign: "for", Broken: "brk", PjlLine: "pjl"}
    held = command[0]
    return words[type(command)] + " " + digits_of(held if isinstance(held, bytes) else bytes([held]))


def digits_of(data):
    return data.hex().upper()


def disassemble(stream):
    return "".join(line_of_command(command) + "\n" for command in closed(stream))
