"""The smallest list of commands for which something still holds: by whole commands, then by their data and values."""

import json
import re

LONGEST = 100      # characters of a line that are told
MOST_TOLD = 20     # lines
VALUE = re.compile(rb"(par [!-/][`-~]?)([-+]?)(\d+)(?:\.\d*)?([@-^])")
DATA = re.compile(rb"(par [!-/][`-~]?)\d+([@-^]) ([0-9A-F]+)")


def fewer(lines, holds):
    """Leaves lines out while it holds, in pieces of halving size, down to single ones of which none can be left out."""
    size = (len(lines) + 1) // 2
    while size:
        before, place = len(lines), 0
        while place < len(lines):
            rest = lines[:place] + lines[place + size:]
            if rest and holds(rest):
                lines = rest
            else:
                place += size
        if size > 1 or len(lines) == before:
            size //= 2
    return lines


def smaller_values(lines, holds):
    """Cuts the data of each command, and makes its value smaller, while it holds."""
    for place in range(len(lines)):
        better = True
        while better:
            better = False
            for line in smaller(lines[place]):
                if holds([*lines[:place], line, *lines[place + 1:]]):
                    lines, better = [*lines[:place], line, *lines[place + 1:]], True
                    break
    return lines


def smaller(line):
    """The lines that stand for less than this one, the least first."""
    if found := DATA.fullmatch(line):
        head, end, data = found.groups()
        whole = len(data) // 2
        for size in dict.fromkeys((0, whole // 4, whole // 2, whole - 1)):
            if size < whole:
                yield b"%s%d%s%s" % (head, size, end, b" " + data[:2 * size] if size else b"")
    elif found := VALUE.fullmatch(line):
        head, sign, number, end = found.groups()
        value = int(number)
        yield from (head + sign + b"%d" % less + end for less in dict.fromkeys((0, 1, value // 2, value - 1)) if 0 <= less < value)


def as_json(counts, lines):
    return json.dumps({**counts, "text": [line.decode() for line in lines]})


def told(counts, lines):
    """What it came to, and the text, which has no control character."""
    commands, sizes = counts["commands"], counts["bytes"]
    shown = [line[:LONGEST].decode(errors="replace") + (".." if len(line) > LONGEST else "") for line in lines[:MOST_TOLD]]
    more = [f".. ({len(lines) - MOST_TOLD:,} more)"] if len(lines) > MOST_TOLD else []
    head = f"{commands[0]:,} commands to {commands[1]:,}, {sizes[0]:,} bytes to {sizes[1]:,}, by {counts['trials']:,} trials"
    return "\n".join([head, *shown, *more])
