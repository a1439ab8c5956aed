"""Lines of the job language, each behind a universal exit, and their replies; every list begins with a press that is powered on."""

import itertools

EXIT = b"\x1b%-12345X"

# A variable is set by letters of either case, between spaces and tabs, up to either end of a line.
SPELLED = [(b"@PJL SET %s=%s\n", bytes.upper, bytes.upper), (b"@PJL Set %s = %s\r\n", bytes.title, bytes.lower),
           (b"@PJL\tset\t%s\t=\t%s \t\n", bytes.lower, bytes.title)]


def asks(question, name, value, end=b"\n"):
    """A question for a variable, and its value."""
    return b"@PJL %s %s%s" % (question, name, end), b"@PJL %s %s\r\n%s\r\n\f" % (question, name.upper(), value)


def both(name, value, default):
    """Both questions for a variable."""
    return asks(b"INQUIRE", name, value), asks(b"DINQUIRE", name, default)


def sets(name, values, wrong, factory):
    """A variable that is set to some values, spelled in turn, each of which is told then; what is wrong leaves the last one, and the default is as before."""
    lines = []
    for (line, of_name, of_value), value in zip(itertools.cycle(SPELLED), values):
        told = value.lstrip(b"0") if value.isdigit() else value
        lines += [(line % (of_name(name), of_value(value)), b""), asks(b"INQUIRE", name, told, b"\r\n")]
    lines += [(b"@PJL SET %s=%s\n" % (name, value), b"") for value in wrong]
    return [*lines, asks(b"INQUIRE", name.lower(), told), asks(b"DINQUIRE", name, factory)]


COPIES = sets(b"COPIES", [b"2", b"999", b"0042", b"1", b"0" * 30 + b"7"], [b"0", b"1000", b"x", b"+3", b"3x", b"1 2", b"-1", b"18446744073709551617", b""], b"1")
PAPER = sets(b"PAPER", [b"LEGAL", b"A4", b"EXECUTIVE", b"LEDGER", b"A3", b"LETTER", b"A4"], [b"B5", b"LETTERS", b"A", b""], b"LETTER")
ORIENTATION = sets(b"ORIENTATION", [b"LANDSCAPE", b"PORTRAIT", b"LANDSCAPE"], [b"UP", b"REVERSE LANDSCAPE"], b"PORTRAIT")
DUPLEX = sets(b"DUPLEX", [b"ON", b"OFF", b"ON"], [b"MAYBE", b"TRUE"], b"OFF")
BINDING = sets(b"BINDING", [b"SHORTEDGE", b"LONGEDGE", b"SHORTEDGE"], [b"LONG", b"SHORT EDGE"], b"LONGEDGE")
RESOLUTION = sets(b"RESOLUTION", [b"300", b"600"], [b"0300", b"450", b"1200", b""], b"300")
RESOLUTION += [(b"@PJL SET FOO=1\n", b""), (b"@PJL SET COPIES\n", b""), (b"@PJL SET =3\n", b""), (b"@PJL SET\n", b""), (b"@PJL SET COPIES=3=3\n", b"")]

DEFAULTS = [
    (b"@PJL DEFAULT COPIES=5\n", b""),
    *both(b"COPIES", b"1", b"5"),
    (b"@PJL SET PAPER=A3\n", b""),
    *both(b"PAPER", b"A3", b"LETTER"),
    (b"@PJL RESET\n", b""),
    *both(b"COPIES", b"5", b"5"),
    *both(b"PAPER", b"LETTER", b"LETTER"),
    (b"@PJL DEFAULT DUPLEX=ON\r\n", b""),
    (b"@PJL job NAME = \"x\"\n", b""),
    *both(b"DUPLEX", b"ON", b"ON"),
    (b"@PJL DEFAULT copies = 1\n", b""),
    (b"@PJL DEFAULT COPIES=0\n", b""),
    (b"@PJL EOJ\tNAME\n", b""),
    *both(b"COPIES", b"1", b"1"),
    (b"@PJL SET BINDING=SHORTEDGE\n", b""),
    (b"@PJL INITIALIZE x\n", b""),
    asks(b"INQUIRE", b"BINDING", b"SHORTEDGE"),
    (b"@PJL INITIALIZE \t\r\n", b""),
    *both(b"BINDING", b"LONGEDGE", b"LONGEDGE"),
    *both(b"DUPLEX", b"OFF", b"OFF"),
]

# what changes nothing
OTHERS = [b"@PJL COMMENT SET COPIES=9\n", b"@PJL\n", b"@PJL\r\n", b"@PJL \t\n", b"@PJL ENTER LANGUAGE=PCL\n", b"@PJL DISPLAY \"x\"\n",
          b"@PJLSET COPIES=9\n", b"@PJL JOB=\"x\"\n", b"@pjl SET COPIES=9\n", b"PJL SET COPIES=9\n", b"\n", b"", b"@PJL RESETS\n",
          b"@PJL LSET COPIES=9\n", b"@PJL USTATUS PAGE\n", b"@PJL USTATUS JOB=ON\n"]
OTHERS = [*((line, b"") for line in OTHERS), *both(b"COPIES", b"1", b"1")]

QUERIES = [
    (b"@PJL ECHO Hello  World\r\n", b"@PJL ECHO Hello  World\r\n\x0c"),
    (b"@PJL echo  two \t\n", b"@PJL ECHO  two \t\r\n\x0c"),
    (b"@PJL ECHO\n", b"@PJL ECHO \r\n\x0c"),
    (b"@PJL ECHO \n", b"@PJL ECHO \r\n\x0c"),
    (b"@PJL\tECHO\t\xe9\x00\r\r\n", b"@PJL ECHO \xe9\x00\r\r\n\x0c"),
    (b"@PJL INFO ID\n", b"@PJL INFO ID\r\n\"DIGITAL PRESS\"\r\n\x0c"),
    (b"@PJL info PageCount \r\n", b"@PJL INFO PAGECOUNT\r\n0\r\n\x0c"),
    (b"@PJL INFO MEMORY\n", b"@PJL INFO MEMORY\r\n\"?\"\r\n\x0c"),
    (b"@PJL INFO \n", b""),
    (b"@PJL INFO\n", b""),
    (b"@PJL INQUIRE\n", b""),
    (b"@PJL DINQUIRE \t\n", b""),
    (b"@PJL INQUIRE Foo\n", b"@PJL INQUIRE FOO\r\n\"?\"\r\n\x0c"),
    (b"@PJL INQUIRE COPIES PAPER\n", b"@PJL INQUIRE COPIES PAPER\r\n\"?\"\r\n\x0c"),
    (b"@PJL DINQUIRE  a\xe9z\t\r\n", b"@PJL DINQUIRE A\xe9Z\r\n\"?\"\r\n\x0c"),
]

# the longest line that is one
LONGEST = [(b"@PJL ECHO " + b"x" * 4085 + b"\n", b"@PJL ECHO " + b"x" * 4085 + b"\r\n\x0c")]

# each variable, its factory value and another one
VARIABLES = [(b"COPIES", b"1", b"7"), (b"PAPER", b"LETTER", b"A4"), (b"ORIENTATION", b"PORTRAIT", b"LANDSCAPE"), (b"DUPLEX", b"OFF", b"ON"),
             (b"BINDING", b"LONGEDGE", b"SHORTEDGE"), (b"RESOLUTION", b"300", b"600")]
# a default of each, which becomes the current value, and the factory values again
EACH = [*((b"@PJL DEFAULT %s=%s\n" % (name, other), b"") for name, _, other in VARIABLES),
        (b"@PJL RESET\n", b""), *(line for name, _, other in VARIABLES for line in both(name, other, other)),
        (b"@PJL INITIALIZE\n", b""), *(line for name, factory, _ in VARIABLES for line in both(name, factory, factory))]

LISTS = [COPIES, PAPER, ORIENTATION, DUPLEX, BINDING, RESOLUTION, DEFAULTS, OTHERS, QUERIES, LONGEST, EACH]
ROWS = [("", 0, b"".join(reply for _, reply in lines), b"".join(EXIT + line for line, _ in lines)) for lines in LISTS]
