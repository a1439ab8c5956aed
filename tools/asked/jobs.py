"""Jobs of tickets: each refusal of a ticket and of images, and jobs byte for byte."""

import itertools
import json

from asked.files import TICKET, blank, named

EXIT = b"\x1b%-12345X"
# images of one black dot, of two white lines and two with eight black dots of nine, and of a white dot
DOT = b"\x1b*p0Y\x1b*r1S\x1b*r0A\x1b*b1W\x80\x1b*r0C\x0c"
LINES = b"\x1b*p0Y\x1b*r9S\x1b*r0A\x1b*b2Y\x1b*b1W\xff\x1b*b3M\x1b*b0W\x1b*r0C\x0c"
WHITE = b"\x1b*p0Y\x1b*r1S\x1b*r0A\x1b*r0C\x0c"
# an image as large as the page, all black: a row of 256 and 44 equal bytes, and rows like the one before
FULL = b"\x1b*p0Y\x1b*r2400S\x1b*r0A\x1b*b1M\x1b*b4W\xff\xff\x2b\xff\x1b*b3M" + b"\x1b*b0W" * 3299 + b"\x1b*r0C\x0c"


def job(*sheets, medium=2, sides=0, resolution=300, copies=1):
    """The job of these sheets, so many copies of each, with the numbers of medium, sides and resolution. A sheet is its front and perhaps its
    back."""
    start = b"@PJL SET RESOLUTION=%d\n\x1bE\x1b&l%dA\x1b&l0O\x1b&l%dS\x1b&l0E\x1b*t%dR" % (resolution, medium, sides, resolution)
    pages = [b"\x1b&l%dX" % copies + b"".join(sheet) + (b"\x1b&a1G" if len(sheet) == 1 else b"") for sheet in sheets]
    return EXIT + start + b"".join(pages) + b"\x1bE" + EXIT


def asking(amount, kind="DigitalPrinting", pages=1):
    """A ticket with these members."""
    return f'{{"Amount":{amount},"JobID":"J","NPage":{pages},"Type":"{kind}","Version":"1.5"}}'.encode()


# A ticket, the files of its images, and what is written or told.
TICKETS = [
    (TICKET, "dot", job([DOT])),
    (TICKET, "dot wide", job([DOT])),
    (b"{5}", "no-image", "fault 601\n"),
    (b'{"Amount":"1","NPage":0}', "dot", "fault 602 key Version\n"),
    (asking(1.5, kind="", pages=0), "dot", "fault 602 key Amount\n"),
    (asking(0, kind="", pages=0), "dot", "fault 603\n"),
    (asking(0, pages=0), "dot", "fault 604\n"),
    (asking(0), "no-image", "fault 605\n"),
    (TICKET, "dot no-image", "fault 111\n"),
    (TICKET, "wide no-size no-image", "fault 112\n"),
    (TICKET, "cut", "fault 113\n"),
    (TICKET, "empty", "fault 113\n"),
    (TICKET, "/ no-image", "fault 114\n"),
    (TICKET, "dot none no-image", "fault 304\n"),
    (asking(1, pages=2), "wide", "fault 611\n"),
    (TICKET, "wide", "fault 612\n"),
    (asking(1, pages=2), "tall wide", "fault 612\n"),
    (TICKET, "tall", "fault 613\n"),
    (asking(1, pages=2), "dot tall", "fault 613\n"),
    # as many images as pages, also where the set has fewer
    (b'{"Amount":1,"JobID":"J","NPage":3,"RunList":[[0,0]],"Type":"DigitalPrinting","Version":"1.5"}', "dot", "fault 611\n"),
]

# The text of each member of a ticket of three pages.
MEMBERS = {
    "Version": '"1.5"',
    "Type": '"DigitalPrinting"',
    "JobID": '"J"',
    "NPage": "3",
    "Amount": "1",
    "RunList": "[[0,-1]]",
    "Media": '"Letter"',
    "Sides": '"TwoSidedHeadToHead"',
    "Collate": "true",
    "Resolution": "300",
}


def ticket(**changes):
    """The ticket with the texts of these members in place of its own; a member whose text is empty is left out."""
    texts = {**MEMBERS, **changes}
    return ("{" + ",".join(f'"{key}":{text}' for key, text in texts.items() if text) + "}").encode()


def nested(arrays):
    """An object whose only member holds arrays in one another."""
    return b'{"A":' + b"[" * arrays + b"]" * arrays + b"}"


# What is told of a ticket that is taken, since it has no image.
TAKEN = "fault 611"

# A member, texts that stand in its place (the last of several with one key counts), and what is told.
CHANGED = [
    ("Version", ['', '1.5', '"1.4"', '"1.5","Version":"2.0"'], "fault 602 key Version"),
    ("Version", ['"2.0","Version":"1.5"'], TAKEN),
    ("Type", ["", "[]"], "fault 602 key Type"),
    ("Type", ['"Folding"', '"DigitalPrinting","Type":"Folding"'], "fault 603"),
    ("Type", ['"Folding","Type":"DigitalPrinting"'], TAKEN),
    ("JobID", ['', '7', '""', '"a\\u007f"', '"a\\u001f"', '"\u00e9"', '"' + "x" * 64 + '"', '"J","JobID":""'],
     "fault 602 key JobID"),
    ("JobID", ['"' + "x" * 63 + '"', '"","JobID":"J"', '"a b ~"'], TAKEN),
    ("NPage", ['', '"3"', '3.0', '3e0', '-0', '18446744073709551616', '-9223372036854775809'], "fault 602 key NPage"),
    ("NPage", ['0', '-3', '1000', '18446744073709551615', '-9223372036854775808', '3,"NPage":0'], "fault 604"),
    ("NPage", ['1', '999', '0,"NPage":3'], TAKEN),
    ("Amount", ["", "true", "1e2"], "fault 602 key Amount"),
    ("Amount", ['0', '-1', '10000', '2,"Amount":0'], "fault 605"),
    ("Amount", ['1', '9999', '0,"Amount":2'], TAKEN),
    ("RunList", ["null", "[]", "[[0]]", "[[0,1,2]]", "[0,1]", "[[0,1.0]]", '[[0,0]],"RunList":[]',
                 "[" + "[0,0]," * 64 + "[0,0]]"], "fault 602 key RunList"),
    ("RunList", ["[[3,3]]", "[[0,-4]]"], "fault 604"),
    ("RunList", ["", "[[-3,2]]", '[],"RunList":[[0,0]]', "[" + "[0,0]," * 63 + "[0,0]]"], TAKEN),
    ("Media", ['null', '[]', '{}', '"letter"', '"A4","Media":"B5"'], "fault 602 key Media"),
    ("Media", ['"B5","Media":"A4"'], TAKEN),
    ("Sides", ['2', '"OneSided"', '"OneSidedFront","Sides":1'], "fault 602 key Sides"),
    ("Sides", ['1,"Sides":"OneSidedFront"'], TAKEN),
    ("Collate", ['"true"', 'false,"Collate":0'], "fault 602 key Collate"),
    ("Collate", ['true,"Zoom":1,"Bleed":2'], "fault 602 key Bleed"),
    ("Collate", ['true,"amount":1,"Zoom":1'], "fault 602 key Zoom"),
    ("Collate", ['0,"Collate":false'], TAKEN),
    ("Resolution", ['450', '0', '1200', '-300', 'null', '"600"', '600.0', '6e2', '300,"Resolution":200'], "fault 602 key Resolution"),
    ("Resolution", ['', '600', '450,"Resolution":600'], TAKEN),
]

# Objects that are no JSON: strings without an end, with a control character, with escapes that are none or surrogates without a partner; a colon, a
# comma, quotes that are missing; numbers that are none, or beyond all floats.
NO_JSON = [b'{"A:1}', b'{"A\x01":1}', b'{"\\x":1}', b'{"\\u12G4":1}', b'{"\\ud800":1}', b'{"\\ud800\\u0041":1}', b'{"\\ud800\\ud800":1}', b'{"\\udc00":1}',
           b'{"A" 1}', b'{A:1}', b'{"A":1 "B":1}', b'{"A":[1 2]}', b'{"A":01}', b'{"A":1.}', b'{"A":.5}', b'{"A":+1}', b'{"A":-}', b'{"A":1e999}', b'{"A":tru}',
           b'{"A":1', b'\xef\xbb\xbf{}']

# Texts that are no ticket, or tickets with several changes, and what is told first.
FIRST = [
    *((text, "fault 601") for text in NO_JSON),
    (b' \t\r\n{ "A" : [ 1 , -1.5e-3 , true , null , {} ] } \n', "fault 602 key A"),
    (b'{"\\u0041":1}', "fault 602 key A"),
    (b'{"\\ud83d\\ude00":1}', "fault 602 key \U0001f600"),
    (b'{"\\/\\"\\\\":1}', 'fault 602 key /\\"\\\\'),
    (b'{"\\u000afault 304\\u000a":1}', 'fault 602 key \\nfault 304\\n'),
    (b'{"\\b\\f\\r\\t\\u0000\\u001b[2J":1}', 'fault 602 key \\b\\f\\r\\t\\u0000\\u001b[2J'),
    (b'{"\\u007f\\u009b\\u00a0\xc3\xa9":1}', 'fault 602 key \\u007f\\u009b\u00a0\u00e9'),
    (b'{"' + b"k" * 64 + b'":1}', "fault 602 key " + "k" * 64),
    (b'{"' + b"\xc3\xa9" * 65 + b'":1}', "fault 602 key " + "\u00e9" * 64 + "..."),
    (b'{"' + b"k" * 1_000_000 + b'":1}', "fault 602 key " + "k" * 64 + "..."),
    (b"{", "fault 601"),
    (b"", "fault 601"),
    (b"[]", "fault 601"),
    (b'"\xff"', "fault 601"),
    (b"{}", "fault 602 key Version"),
    (ticket()[:-1] + b",}", "fault 601"),
    (ticket() + b"{}", "fault 601"),
    (b'{"\xff":1}', "fault 601"),
    (nested(126), "fault 602 key A"),
    (nested(127), "fault 601"),
    (ticket(Version="2", Amount='2,"amount":1'), "fault 602 key amount"),
    (ticket(Version="", Amount="no"), "fault 601"),
    # of two members that are none the first is told
    *((ticket(**{one: "null", other: "null"}), f"fault 602 key {one}") for one, other in itertools.pairwise(MEMBERS)),
    (ticket(Type='"Folding"', Collate="0"), "fault 602 key Collate"),
    (ticket(Type='"Folding"', Resolution="0"), "fault 602 key Resolution"),
    (ticket(Type='"Folding"', NPage="0"), "fault 603"),
    (ticket(NPage="0", Amount="0"), "fault 604"),
    (ticket(RunList="[[9,9]]", Amount="0"), "fault 604"),
    (ticket(NPage="999", RunList="[[0,-1]]"), TAKEN),
    (ticket(NPage="999", RunList="[[0,-1],[0,0]]"), "fault 604"),
    (ticket(NPage="999", RunList="[[0,-1],[-1,0]]"), "fault 604"),
]

# Changes of that ticket, and its job with images of a black dot, of lines and of a white dot.
PRINTED = [
    ({}, job([DOT, LINES], [WHITE], sides=1)),
    ({"Media": ""}, job([DOT, LINES], [WHITE], sides=1)),
    ({"Media": '"Executive"'}, job([DOT, LINES], [WHITE], medium=1, sides=1)),
    ({"Media": '"Legal"'}, job([DOT, LINES], [WHITE], medium=3, sides=1)),
    ({"Media": '"Ledger"'}, job([DOT, LINES], [WHITE], medium=6, sides=1)),
    ({"Media": '"A3"'}, job([DOT, LINES], [WHITE], medium=27, sides=1)),
    ({"Media": '"A4"', "Sides": '"TwoSidedHeadToFoot"'}, job([DOT, LINES], [WHITE], medium=26, sides=2)),
    ({"Sides": '"OneSidedFront"'}, job([DOT], [LINES], [WHITE])),
    ({"Sides": ""}, job([DOT], [LINES], [WHITE])),
    ({"Sides": "", "Resolution": ""}, job([DOT], [LINES], [WHITE])),
    ({"Resolution": "600"}, job([DOT, LINES], [WHITE], sides=1, resolution=600)),
    ({"Sides": "", "RunList": ""}, job([DOT], [LINES], [WHITE])),
    ({"Sides": "", "RunList": "[[-1,-1]]"}, job([WHITE])),
    ({"Sides": "", "RunList": "[[0,2]]"}, job([DOT], [LINES], [WHITE])),
    ({"Sides": "", "RunList": "[[2,0]]"}, job([WHITE], [LINES], [DOT])),
    ({"Sides": "", "RunList": "[[-1,-3],[1,1]]"}, job([WHITE], [LINES], [DOT], [LINES])),
    # a set begins on a front; collated, the sets stand one behind the other, and else the sheets do
    ({"Amount": "2"}, job([DOT, LINES], [WHITE], [DOT, LINES], [WHITE], sides=1)),
    ({"Amount": "2", "Collate": "false"}, job([DOT, LINES], [WHITE], sides=1, copies=2)),
    ({"Amount": "2", "Collate": "", "Sides": ""}, job([DOT], [LINES], [WHITE], [DOT], [LINES], [WHITE])),
    ({"Amount": "2", "Sides": ""}, job([DOT], [LINES], [WHITE], [DOT], [LINES], [WHITE])),
    ({"Sides": "", "RunList": "[[1,2],[0,1],[2,1]]"}, job([LINES], [WHITE], [DOT], [LINES], [WHITE], [LINES])),
]

# The medium, the run list, sizes of images in dots, and what is told: 614 where they fit, since the job's file is not made. On A4
# the logical page has 2,338 by 3,507 dots, on Letter 2,400 by 3,300.
SIZES = [
    ("A4", "", [(1, 1), (1, 1)], "fault 611"),
    ("A4", "", [(2338, 3507), (2338, 3507), (2338, 3507)], "fault 614"),
    ("A4", "", [(1, 1), (1, 1), (1, 3508)], "fault 613"),
    ("A4", "", [(1, 1), (1, 3508), (2339, 1)], "fault 612"),
    ("A4", "", [(2339, 3508)], "fault 611"),
    ("Letter", "", [(1, 1), (1, 1)], "fault 611"),
    ("Letter", "", [(1, 1), (2401, 1), (1, 1)], "fault 612"),
    ("Letter", "", [(2400, 3300), (1, 1), (1, 1)], "fault 614"),
    ("Letter", "[[2,2],[0,0]]", [(1, 1), (2401, 3301), (1, 1), (9999, 1)], "fault 614"),
]

# The same at 600 dots per inch, where the logical page has twice as many dots each way.
FINE_SIZES = [
    ("Letter", [(2401, 1), (1, 3301), (4800, 6600)], "fault 614"),
    ("Letter", [(1, 1), (1, 6601), (4801, 1)], "fault 612"),
    ("Letter", [(1, 1), (1, 6601), (1, 1)], "fault 613"),
    ("A4", [(4676, 7014), (1, 1), (1, 1)], "fault 614"),
    ("A4", [(4677, 1), (1, 1), (1, 1)], "fault 612"),
    ("A4", [(1, 1), (1, 1), (1, 7015)], "fault 613"),
]


def with_header(length):
    """An image whose header has so many bytes, by a long comment."""
    return b"P4#" + b"." * (length - 8) + b"\n3 1\n\xe0"


# What stands in the file of an image, and what is told: 614 where it is one that fits.
IMAGES = [
    (b"", "fault 113"),
    (b"P", "fault 113"),
    (b"P4", "fault 113"),
    (b"P4\n3 1\n", "fault 113"),
    (b"P4\n3 1", "fault 113"),
    (b"P4 # no end", "fault 113"),
    (b"P4 3 9\n\xe0", "fault 113"),
    (b"P5\n3 1\n\xe0", "fault 111"),
    (b"p4\n3 1\n\xe0", "fault 111"),
    (b"P43 1\n\xe0", "fault 111"),
    (b"P4 x", "fault 111"),
    (b"P4 -3 1\n\xe0", "fault 111"),
    (b"P4 3x1\n\xe0", "fault 111"),
    (b"P4 3 1#\n\xe0", "fault 111"),
    (b"P4 3 1x", "fault 111"),
    (b"P4\x0e3 1\n\xe0", "fault 111"),
    (b"P4\x083 1\n\xe0", "fault 111"),
    (b"P4 0 1 ", "fault 112"),
    (b"P4 1 0 ", "fault 112"),
    (b"P4 00 1 ", "fault 112"),
    (b"P4 16385 1 ", "fault 112"),
    (b"P4 1 16385 ", "fault 112"),
    (b"P4 4294967297 1 ", "fault 112"),
    (b"P4 99999999999999999999999999 1 ", "fault 112"),
    (b"P4\t\x0b\x0c\r 0003\n\n01\t\xe0", "fault 614"),
    (b"P4#a comment\n3#another\r1\n\xe0", "fault 614"),
    (b"P4 #\n#\r\n3 1 \xe0", "fault 614"),
    (b"P4 # 5 5\n3 # 7 #\n1\n\xe0", "fault 614"),
    (b"P4 3 1\r\n", "fault 614"),
    (b"P4 3 1\n\xe0 and more", "fault 614"),
    (b"P4 8 1 #", "fault 614"),
    (b"P4 16384 1\n" + b"\x01" * 2048, "fault 612"),
    (b"P4 8 16384\n" + b"\x01" * 16384, "fault 613"),
    (with_header(65535), "fault 614"),
    (with_header(65536), "fault 614"),
    (with_header(65537), "fault 111"),
    (with_header(65600)[:65532], "fault 111"),
    (with_header(65600)[:65531], "fault 113"),
]

# A file is opened when the one before it is read, and that of the job is made once the images fit.
FILES_IN_ORDER = [
    ("ticket no/such", "fault 611\n"),
    ("ticket no/such none", "fault 304\n"),
    ("ticket no/such dot none", "fault 304\n"),
    ("ticket no/such no-image none", "fault 111\n"),
    ("ticket no/such /", "fault 114\n"),
    ("ticket no/such wide", "fault 612\n"),
    ("ticket no/such dot", "fault 614\n"),
    ("ticket / dot", "fault 614\n"),
    ("ticket /dev/full dot", "fault 614\n"),
    ("dot no/such none", "fault 601\n"),
    ("none no/such none", "fault 304\n"),
    ("/ no/such none", "fault 304\n"),
]

ROWS = [(f"write {{}} /dev/stdout {images}", 1 if isinstance(wanted, str) else 0, wanted, text)
        for text, images, wanted in TICKETS]
ROWS += [("write {} no/such", 1, f"{told}\n", ticket(**{key: text}))
         for key, texts, told in CHANGED for text in texts]
ROWS += [("write {} no/such", 1, f"{told}\n", text) for text, told in FIRST]
ROWS += [("write {} /dev/stdout dot lines white", 0, wanted, ticket(**changes)) for changes, wanted in PRINTED]
ROWS += [("write {} no/such " + " ".join(blank(*size) for size in sizes), 1, f"{told}\n",
          ticket(Media=json.dumps(medium), RunList=pages)) for medium, pages, sizes, told in SIZES]
ROWS += [("write {} no/such " + " ".join(blank(*size) for size in sizes), 1, f"{told}\n",
          ticket(Media=json.dumps(medium), Resolution="600")) for medium, sizes, told in FINE_SIZES]
ROWS += [(f"write {{}} no/such {named(image)}", 1, f"{told}\n", TICKET) for image, told in IMAGES]
ROWS += [("write {} /dev/stdout full", 0, job([FULL]), TICKET)]
ROWS += [(f"write {names}", 1, told, b"") for names, told in FILES_IN_ORDER]
