"""The files that words and lines name, by their names, and what several of them are made of."""

TICKET = b'{"Amount":1,"JobID":"J","NPage":1,"Type":"DigitalPrinting","Version":"1.5"}'
# the submission of the ticket, and a question
SUBMISSION = b'{"ID":"a","Type":"SubmitQueueEntry","Ticket":' + TICKET + b"}"
QUESTION = b'{"ID":"s","Type":"Status"}'

# A folder, as `/`, can be opened and not read; `none` and `no/such` cannot be opened.
FILES = {
    "ticket": TICKET,
    "submit": SUBMISSION,
    "status": QUESTION,
    "empty": b"",
    "dot": b"P4 1 1\n\x80",
    "d\u00f6t": b"P4 1 1\n\x80",
    "lines": b"P4 9 4\n\0\0\0\0\xff\0\xff\0",
    "white": b"P4 1 1\n\0",
    "bar": b"P4 3 1\n\xe0",
    "full": b"P4 2400 3300\n" + b"\xff" * 990000,
    "wide": b"P4 2401 1\n" + bytes(301),
    "tall": b"P4 1 3301\n" + bytes(3301),
    "no-image": b"P5 1 1\n\x80",
    "no-size": b"P4 0 1\n",
    "cut": b"P4 9 1\n\x80",
}


def named(content):
    """The name of a file with this content."""
    for name, other in FILES.items():
        if other == content:
            return name
    name = f"file{len(FILES)}"
    FILES[name] = content
    return name


def blank(width, height):
    """The name of a white image of these dots."""
    return named(b"P4 %d %d\n" % (width, height) + bytes((width + 7) // 8 * height))
