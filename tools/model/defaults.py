"""The printer's own settings, as its control panel sets them: words NAME=VALUE, and what stands for them in front of a stream.

A stream that is printed with such defaults is one that these bytes begin: for each word a line `@PJL DEFAULT NAME=VALUE`, then one line
`@PJL RESET`. A stream begins in the mode that such a line leaves, so no universal exit stands before them or behind them. No white space
stands round name and value.
"""

import re

from . import pjl

OPTION = "--default"
FRONT = re.compile(rb"(?:@PJL DEFAULT [A-Z]+=[A-Z0-9]+\n)+@PJL RESET\n")


class Refused(Exception):
    """A word that is none of the job language's variables with one of its values."""


def pair_of(word):
    """Name and value of a word, as the job language keeps them."""
    name, equals, value = word.encode(errors="surrogateescape").partition(b"=")
    name, value = pjl.upper(name), pjl.upper(value)
    listed = pjl.listed_value(name, value) if equals and name in pjl.FACTORY else None
    if listed is None:
        raise Refused(word)
    return name, listed


def front(words):
    """The bytes in front of a stream that is printed with these defaults; none where there are none."""
    lines = [b"@PJL DEFAULT %s=%s\n" % pair_of(word) for word in words]
    return b"".join(lines) + b"@PJL RESET\n" if lines else b""


def front_of(stream):
    """What stands in front of a stream for defaults, where it is kept with it; none where it begins otherwise."""
    found = FRONT.match(stream)
    return found[0] if found else b""
