"""What a stream or a user says, as it is printed: no control character of it reaches a terminal, or forges a line."""

import json
import sys

FIRST_OF_TERMINALS, LAST_OF_TERMINALS = 0x7F, 0x9F   # DEL, and the controls that JSON leaves as they are
HALVES = range(0xD800, 0xE000)                       # of surrogate pairs, as which bytes that are no text come


def printable(text, most=None):
    """A text with each control character as JSON spells it, as the program's faults tell keys; of one with more than `most` characters the first,
    and `...`."""
    cut = text if most is None or len(text) <= most else text[:most] + "..."
    return cut if cut.isprintable() else "".join(map(spelled, cut))


def spelled(character):
    code = ord(character)
    if FIRST_OF_TERMINALS <= code <= LAST_OF_TERMINALS or code in HALVES:
        return f"\\u{code:04x}"
    return json.dumps(character)[1:-1] if code < 0x20 else character


def complain(tool, fault):
    """Says on standard error what ends a tool."""
    print(f"{tool}: {printable(str(fault))}", file=sys.stderr)
