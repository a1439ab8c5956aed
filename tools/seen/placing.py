"""The commands of a stream as the lines of its trace place them: each line says where its command stands, how many bytes it has, and its kind."""

import re

from model.commands import Broken, Control, Escape, Foreign, Param, PjlLine, Text, Uel

from .bodies import Placed

PARAM = re.compile(rb"(?:\x1b[!-/][`-~]?)?([+-]?[0-9]*(?:\.[0-9]*)?)([@-~])")
LOWER = 0x60          # from here on a parameter's end lets the sequence go on
SHORT, MOST_KEPT = 24, 10000   # bytes of a command that comes again and is one value, and how many are kept
ESC = 0x1B
OF_A_BYTE = {"ctl": Control, "txt": Text, "for": Foreign}


class Placer:
    """Reads commands from the bytes at which the lines place them, one after another."""

    def __init__(self, whole, shift=0):
        self.whole, self.shift = whole, shift
        self.kept = {}
        self.before = "", b""     # kind and bytes of the command before

    def placed(self, line):
        """The command of a line of the stream itself; places are counted behind what stands in front of it."""
        at, size, kind = line["at"], line["bytes"], line["last"]
        data = self.whole[at:at + size]
        if size > SHORT or kind == "brk":
            command = self.command(kind, data)
        elif (command := self.kept.get((kind, data))) is None:
            command = self.command(kind, data)
            if len(self.kept) < MOST_KEPT:
                self.kept[kind, data] = command
        self.before = kind, data
        return Placed(at - self.shift, size, command)

    def command(self, kind, data):
        word = kind[:3]
        if word == "par":
            found = PARAM.match(data)
            return Param(ord(kind[4]), ord(kind[5]) if len(kind) == 7 else None, found[1], ord(kind[-1]), data[found.end():])
        if word in OF_A_BYTE:
            return OF_A_BYTE[word](data[0])
        if word == "brk":
            return Broken(data if data[0] == ESC else self.open_sequence() + data)
        return Escape(ord(kind[4])) if word == "esc" else PjlLine(data) if word == "pjl" else Uel()

    def open_sequence(self):
        """How a combined sequence begins that the command before leaves open; a piece of it that breaks is told with it."""
        kind, data = self.before
        if kind[:3] != "par" or len(kind) != 7 or PARAM.match(data)[2][0] < LOWER:
            return b""
        return bytes([ESC, ord(kind[4]), ord(kind[5])])
