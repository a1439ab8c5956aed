"""Traces: the lines of small streams, worked out by hand, and what is no trace."""

import json

from asked.files import named

VARIABLES = {"binding": 1, "copies": 1, "duplex": False, "orientation": 0, "page_size": 2, "resolution": 300}
# What can be seen after power on: a Letter page of 300 dots per inch in portrait, 8 inches wide to the edges of the logical page.
POWER_ON = {
    "current": VARIABLES,
    "cursor": {"pushed": []},
    "default": VARIABLES,
    "drawing": {"height": 0, "id": 0, "pattern": 0, "pattern_kind": 0, "pattern_opaque": False, "source_opaque": False, "width": 0},
    "macros": {"defining": None, "id": 0, "overlay": None},
    "margins": {"left": 0, "right": 57600, "text_length": 72000, "top": 3600},
    "page": {"binding": 1, "duplex": False, "marked": False, "orientation": 0, "resolution": 300, "size": 2},
    "raster": {"height": None, "left": None, "method": 0, "resolution": 75, "rows": None, "width": None},
    "settings": {
        "copies": 1, "feed_after_return": False, "horizontal_motion": 720, "hp_gl": False, "page_status": False, "perforation_skip": True,
        "return_before_feed": False, "sheets_of_job": 0, "unit": 24, "vertical_motion": 1200,
    },
}


# Why a command has no effect.
NO_ROW, NO_VALUE, IN_HPGL, IN_OVERLAY = ({"refused": why} for why in ("no row", "no such value", "HP-GL/2", "overlay"))


def lines_of(*steps):
    """Lines of steps: each a place, how many bytes, the kind, and what else is told; step, depth, sheets and cursor go on where nothing is said."""
    told, lines = {"depth": 0, "sheets": 0, "x": 0, "y": 900}, []
    for step, (at, size, last, others) in enumerate(steps, 1):
        told |= {key: value for key, value in others.items() if key in told}
        first = {"view": POWER_ON | others.get("view", {})} if step == 1 else {}
        line = others | told | first | {"at": at, "bytes": size, "last": last, "step": step}
        lines.append(json.dumps(line, ensure_ascii=False, separators=(",", ":"), sort_keys=True) + "\n")
    return "".join(lines)


def asked(stream, *steps):
    return f"trace {named(stream)}", 0, lines_of(*steps), b""


# A box of three dots by two at dot 75 of line 150, where the logical page begins; the page goes out at the reset.
BOX = asked(
    b"\x1bE\x1b*p0x0Y\x1b*c3a2b0P\x1bE",
    (0, 2, "esc E", {}),
    (2, 5, "par *pX", {}),
    (7, 2, "par *pY", {"y": 0}),
    (9, 5, "par *cA", {"view": {"drawing": {"width": 72}}}),
    (14, 2, "par *cB", {"view": {"drawing": {"height": 48}}}),
    (16, 2, "par *cP", {"opened": [2550, 3300], "page": {"height": 2, "rows": ["1C", "1C"], "width": 8, "x": 72, "y": 150},
                        "view": {"page": {"marked": True}}}),
    (18, 2, "esc E", {"delivered": 1, "page": None, "sheets": 1, "y": 900, "view": {
        "drawing": {"height": 0, "width": 0}, "page": {"marked": False}, "settings": {"sheets_of_job": 1}}}),
    (20, 0, "uel", {}),
)
# The same marks one below the other: the second is a patch on the first. A white dot leaves the page as it is. A form feed closes it, twice
# delivered. The exit that is added resets what was set.
MARKS = asked(
    b"\x1b&l2X\x1b*p0x0Y\x1b*c8a1b0P\x1b*p1Y\x1b*c0P\x1b*c1P\x0c",
    (0, 5, "par &lX", {"view": {"settings": POWER_ON["settings"] | {"copies": 2}}}),
    (5, 5, "par *pX", {}),
    (10, 2, "par *pY", {"y": 0}),
    (12, 5, "par *cA", {"view": {"drawing": {"width": 192}}}),
    (17, 2, "par *cB", {"view": {"drawing": {"height": 24}}}),
    (19, 2, "par *cP", {"opened": [2550, 3300], "page": {"height": 1, "rows": ["1FE0"], "width": 16, "x": 72, "y": 150},
                        "view": {"page": {"marked": True}}}),
    (21, 5, "par *pY", {"y": 24}),
    (26, 5, "par *cP", {"page": {"height": 1, "rows": ["1FE0"], "width": 16, "x": 72, "y": 151}}),
    (31, 5, "par *cP", {"page": {"height": 1, "rows": ["0000"], "width": 16, "x": 72, "y": 151}}),
    (36, 1, "ctl 0C", {"delivered": 2, "page": None, "sheets": 2, "y": 900,
                       "view": {"page": {"marked": False}, "settings": {"sheets_of_job": 2}}}),
    (37, 0, "uel", {"view": {"drawing": {"height": 0, "width": 0}, "settings": {"copies": 1}}}),
)
# A macro is defined, and executed: its two steps belong to the command that starts it. Then a rest that does not go on is closed as text
# that breaks.
BODY = asked(
    b"\x1b&f1y0X\x1b*p2X\x1b&f1X\x1b&f2X\x1b*p",
    (0, 5, "par &fY", {"view": {"macros": POWER_ON["macros"] | {"id": 1}}}),
    (5, 2, "par &fX", {"view": {"macros": {"defining": 1}}}),
    (7, 5, "par *pX", {"recorded": True}),
    (12, 5, "par &fX", {"view": {"macros": {"defining": None}}}),
    (17, 5, "par &fX", {"depth": 1}),
    (17, 5, "par *pX", {"depth": 0, "x": 48}),
    (22, 3, "brk", NO_ROW),
    (25, 0, "uel", {"x": 0, "view": {"macros": {"id": 0}}}),
)
# Broken bytes and what broke them are recorded, and are steps of the macro.
BROKEN = asked(
    b"\x1b&f1y0X\x1b*p\x01\x1b&f1x2X",
    (0, 5, "par &fY", {"view": {"macros": POWER_ON["macros"] | {"id": 1}}}),
    (5, 2, "par &fX", {"view": {"macros": {"defining": 1}}}),
    (7, 3, "brk", {"recorded": True}),
    (10, 1, "ctl 01", {"recorded": True}),
    (11, 5, "par &fX", {"view": {"macros": {"defining": None}}}),
    (16, 2, "par &fX", {"depth": 1}),
    (16, 2, "brk", NO_ROW),
    (16, 2, "ctl 01", NO_ROW | {"depth": 0}),
    (18, 0, "uel", {"view": {"macros": {"id": 0}}}),
)
# A reply, and places that are pushed.
REPLIES = asked(
    b"@PJL ECHO a\"\xe9\n\x1b%-12345X\x1b&f0S",
    (0, 14, "pjl", {"reply": "@PJL ECHO a\"\u00e9\r\n\f"}),
    (14, 9, "uel", {}),
    (23, 5, "par &fS", {"view": {"cursor": {"pushed": [[0, 900]]}}}),
    (28, 0, "uel", {"view": {"cursor": {"pushed": []}}}),
)
# A terminal takes 7F and 80 to 9F as controls: these are escaped, as JSON escapes those below 20. A0, C2 and FF are characters, C2 also before 80.
ECHO = b"@PJL ECHO \xa0~\x07\x7f\x80\x9f\xc2\x80\xff\n"
CONTROLS = f"trace {named(ECHO)}", 0, lines_of(
    (0, 20, "pjl", {"reply": "@PJL ECHO \u00a0~CONTROLS\r\n\f"}),
    (20, 0, "uel", {}),
).replace("CONTROLS", "\\u0007\\u007f\\u0080\\u009f\u00c2\\u0080\u00ff"), b""
EMPTY = asked(b"", (0, 0, "uel", {}))

# Fields of patterns and macros, each told where it changes. A cross-hatch of ID 5 stays the current pattern when the ID is another.
DRAWING = asked(
    b"\x1b*c5G\x1b*v3T\x1b*c2G\x1b*v1n1O\x1b*v0N\x1b&f3y4X",
    (0, 5, "par *cG", {"view": {"drawing": POWER_ON["drawing"] | {"id": 5}}}),
    (5, 5, "par *vT", {"view": {"drawing": {"pattern": 5, "pattern_kind": 3}}}),
    (10, 5, "par *cG", {"view": {"drawing": {"id": 2}}}),
    (15, 5, "par *vN", {"view": {"drawing": {"source_opaque": True}}}),
    (20, 2, "par *vO", {"view": {"drawing": {"pattern_opaque": True}}}),
    (22, 5, "par *vN", {"view": {"drawing": {"source_opaque": False}}}),
    (27, 5, "par &fY", {"view": {"macros": {"id": 3}}}),
    (32, 2, "par &fX", {"view": {"macros": {"overlay": 3}}}),
    (34, 0, "uel", {"view": {"drawing": {"id": 0, "pattern": 0, "pattern_kind": 0, "pattern_opaque": False}, "macros": {"id": 0, "overlay": None}}}),
)
# Margins in columns of 720 and lines of 1,200; motion indices in 1/120 and 1/48 inch; another perforation skip sets the top margin anew.
LINES = asked(
    b"\x1b&a2l9M\x1b&l2e10F\x1b&k2G\x1b&k1G\x1b&k10H\x1b&l6C\x1b&l0L\x1b&u600D\x1b%0B\x1b%0A",
    (0, 5, "par &aL", {"view": {"margins": POWER_ON["margins"] | {"left": 1440}}, "x": 1440}),
    (5, 2, "par &aM", {"view": {"margins": {"right": 7200}}}),
    (7, 5, "par &lE", {"view": {"margins": {"text_length": 73200, "top": 2400}}}),
    (12, 3, "par &lF", {"view": {"margins": {"text_length": 12000}}}),
    (15, 5, "par &kG", {"view": {"settings": {"return_before_feed": True}}}),
    (20, 5, "par &kG", {"view": {"settings": {"feed_after_return": True, "return_before_feed": False}}}),
    (25, 6, "par &kH", {"view": {"settings": {"horizontal_motion": 600}}}),
    (31, 5, "par &lC", {"view": {"settings": {"vertical_motion": 900}}}),
    (36, 5, "par &lL", {"view": {"margins": {"text_length": 72000, "top": 3600}, "settings": {"perforation_skip": False}}}),
    (41, 7, "par &uD", {"view": {"settings": {"unit": 12}}}),
    (48, 4, "par %B", {"view": {"settings": {"hp_gl": True}}}),
    (52, 4, "par %A", {"view": {"settings": {"hp_gl": False}}}),
    (56, 0, "uel", {"x": 0, "view": {
        "margins": {"left": 0, "right": 57600},
        "settings": {"feed_after_return": False, "horizontal_motion": 720, "perforation_skip": True, "unit": 24, "vertical_motion": 1200}}}),
)
# Raster graphics of 150 dots per inch: it begins at the cursor, three rows are passed over, and a push ends it.
ROWS_OF_RASTER = asked(
    b"\x1b*p10X\x1b*t150R\x1b*r16s4t1A\x1b*b2m3Y\x1b&f0S\x1b*p1X\x1b&f0S",
    (0, 6, "par *pX", {"x": 240}),
    (6, 7, "par *tR", {"view": {"raster": {"resolution": 150}}}),
    (13, 6, "par *rS", {"view": {"raster": {"width": 16}}}),
    (19, 2, "par *rT", {"view": {"raster": {"height": 4}}}),
    (21, 2, "par *rA", {"view": {"raster": {"left": 240, "rows": 0}}}),
    (23, 5, "par *bM", {"view": {"raster": {"method": 2}}}),
    (28, 2, "par *bY", {"view": {"raster": {"rows": 3}}, "y": 1044}),
    (30, 5, "par &fS", {"view": {"cursor": {"pushed": [[240, 1044]]}, "raster": {"left": None, "rows": None}}}),
    (35, 5, "par *pX", {"x": 24}),
    (40, 5, "par &fS", {"view": {"cursor": {"pushed": [[240, 1044], [24, 1044]]}}}),
    (45, 0, "uel", {"x": 0, "y": 900, "view": {"cursor": {"pushed": []}, "raster": {"height": None, "method": 0, "resolution": 75, "width": None}}}),
)
# A4 has 2480 by 3507 dots, and 71 or 59 of them beside the logical page.
MEDIA = asked(
    b"\x1b&l26A\x1b&l1O\x1b&l2S",
    (0, 6, "par &lA", {"view": {"margins": POWER_ON["margins"] | {"right": 56112, "text_length": 76800}, "page": POWER_ON["page"] | {"size": 26}}}),
    (6, 5, "par &lO", {"view": {"margins": {"right": 81336, "text_length": 51600}, "page": {"orientation": 1}}}),
    (11, 5, "par &lS", {"view": {"page": {"binding": 2, "duplex": True}}}),
    (16, 0, "uel", {"view": {"margins": {"right": 57600, "text_length": 72000}, "page": {"binding": 1, "duplex": False, "orientation": 0, "size": 2}}}),
)
# What the job language sets: the default alone, or what holds, and the page with it. Bytes of a line that does not go on are text, each at its place.
VARIABLES_SET = asked(
    b"@PJL DEFAULT COPIES=3\n@PJL SET PAPER=A4\n@PJL SET ORIENTATION=LANDSCAPE\n@PJL SET DUPLEX=ON\n@PJL SET BINDING=SHORTEDGE\n"
    b"@PJL SET RESOLUTION=600\n@PJL SET COPIES=2\n@PJ",
    (0, 22, "pjl", {"view": {"default": VARIABLES | {"copies": 3}}}),
    (22, 18, "pjl", {"view": {"current": {"page_size": 26}, "margins": {"right": 56112, "text_length": 76800}, "page": {"size": 26}}}),
    (40, 31, "pjl", {"view": {"current": {"orientation": 1}, "margins": {"right": 81336, "text_length": 51600}, "page": {"orientation": 1}}}),
    (71, 19, "pjl", {"view": {"current": {"duplex": True}, "page": {"duplex": True}}}),
    (90, 27, "pjl", {"view": {"current": {"binding": 2}, "page": {"binding": 2}}}),
    (117, 24, "pjl", {"view": {"current": {"resolution": 600}, "page": {"resolution": 600}}}),
    (141, 18, "pjl", {"view": {"current": {"copies": 2}, "settings": {"copies": 2}}}),
    (159, 1, "txt", NO_ROW),
    (160, 1, "txt", NO_ROW),
    (161, 1, "txt", NO_ROW),
    (162, 0, "uel", {}),
)
# Two copies go out with a reply each, which one line joins; a job counts its own.
COUNTS = asked(
    b"@PJL USTATUS PAGE=ON\n\x1b&l2X\x0c\x1b%-12345X@PJL JOB\n",
    (0, 21, "pjl", {"view": {"settings": POWER_ON["settings"] | {"page_status": True}}}),
    (21, 5, "par &lX", {"view": {"settings": {"copies": 2}}}),
    (26, 1, "ctl 0C", {"delivered": 2, "sheets": 2, "view": {"settings": {"sheets_of_job": 2}},
                       "reply": "@PJL USTATUS PAGE\r\n1\r\n\f@PJL USTATUS PAGE\r\n2\r\n\f"}),
    (27, 9, "uel", {"view": {"settings": {"copies": 1}}}),
    (36, 9, "pjl", {"view": {"settings": {"sheets_of_job": 0}}}),
    (45, 0, "uel", {}),
)


def turned(orientation, margins, patch):
    """A row of the dots 1, 2, 3 and 5 at the left of the logical page, in line 187 of a turned frame."""
    page = POWER_ON["page"] | {"orientation": orientation}
    return asked(
        b"\x1b&l%dO\x1b*t300R\x1b*r1A\x1b*b1W\xe8" % orientation,
        (0, 5, "par &lO", {"view": {"margins": POWER_ON["margins"] | margins, "page": page}}),
        (5, 7, "par *tR", {"view": {"raster": {"resolution": 300}}}),
        (12, 5, "par *rA", {"view": {"raster": {"left": 0, "rows": 0}}}),
        (17, 6, "par *bW", {"opened": [2550, 3300], "page": patch, "y": 924, "view": {"page": {"marked": True}, "raster": {"rows": 1}}}),
        (23, 0, "uel", {"delivered": 1, "page": None, "sheets": 1, "y": 900, "view": {
            **({"margins": {key: POWER_ON["margins"][key] for key in margins}} if margins else {}),
            "page": {"marked": False, "orientation": 0}, "raster": {"left": None, "resolution": 75, "rows": None},
            "settings": {"sheets_of_job": 1}}}),
    )


# The logical page begins 60 dots from the edge in landscape, and 75 in portrait; the last byte of a line has 6 dots.
TURNED = [
    turned(1, {"right": 76320, "text_length": 54000}, {"height": 5, "rows": ["10", "00", "10", "10", "10"], "width": 8, "x": 184, "y": 3235}),
    turned(2, {}, {"height": 1, "rows": ["02E0"], "width": 16, "x": 2464, "y": 3112}),
    turned(3, {"right": 76320, "text_length": 54000}, {"height": 5, "rows": ["20", "20", "20", "00", "20"], "width": 8, "x": 2360, "y": 60}),
    asked(
        b"\x1b*p2400x0Y\x1b*c100a1b0P",
        (0, 8, "par *pX", {"x": 57600}),
        (8, 2, "par *pY", {"y": 0}),
        (10, 7, "par *cA", {"view": {"drawing": {"width": 2400}}}),
        (17, 2, "par *cB", {"view": {"drawing": {"height": 24}}}),
        (19, 2, "par *cP", {"opened": [2550, 3300], "page": {"height": 1, "rows": ["1F" + 8 * "FF" + "FC"], "width": 78, "x": 2472, "y": 150},
                            "view": {"page": {"marked": True}}}),
        (21, 0, "uel", {"delivered": 1, "page": None, "sheets": 1, "x": 0, "y": 900, "view": {
            "drawing": {"height": 0, "width": 0}, "page": {"marked": False}, "settings": {"sheets_of_job": 1}}}),
    ),
]
# A default of the printer is a line of the job language in front, and so is the reset behind it; places are counted from the first of these bytes.
SET = f"trace --default COPIES=2 {named(bytes([12]))}", 0, lines_of(
    (0, 22, "pjl", {"view": {"default": VARIABLES | {"copies": 2}}}),
    (22, 11, "pjl", {"view": {"current": {"copies": 2}, "settings": {"copies": 2}}}),
    (33, 1, "ctl 0C", {"delivered": 2, "sheets": 2, "view": {"settings": {"sheets_of_job": 2}}}),
    (34, 0, "uel", {}),
), b""

def in_runs(stream, *steps):
    """The same with `--runs`: of a run the number of its steps is told, which go on by as many."""
    words, status, lines, given = asked(stream, *steps)
    told, step = [], 0
    for line in map(json.loads, lines.splitlines()):
        step += line.get("steps", 1)
        told.append(json.dumps(line | {"step": step}, ensure_ascii=False, separators=(",", ":"), sort_keys=True) + "\n")
    return words.replace("trace ", "trace --runs ", 1), status, "".join(told), given


def run(at, size, last="txt", why=NO_ROW, **others):
    return at, size, last, others | why | ({"steps": size} if size > 1 else {})


# Text, up to a control character, which has an effect; one byte by itself has its own line. What a command changes is told behind it.
RUNS = in_runs(
    b"\x1bEHello\rab\nc\x1b*p1xde\x1bE",
    (0, 2, "esc E", {}),
    run(2, 5),
    (7, 1, "ctl 0D", {}),
    run(8, 2),
    (10, 1, "ctl 0A", {"y": 2100}),
    run(11, 1),
    (12, 5, "par *pX", {"x": 24}),
    (17, 1, "par *pD", NO_ROW),
    (18, 1, "par *pE", NO_ROW),
    (19, 2, "esc E", {"x": 0, "y": 900}),
    (21, 0, "uel", {}),
)
# While HP-GL/2 is on control characters do nothing, and stand in a run with text, escape sequences apart.
PLOT = in_runs(
    b"\x1b%0BPU1;\r\nPD;\x1b&l1X\x0c;\x1b%0A\nx",
    (0, 4, "par %B", {"view": {"settings": POWER_ON["settings"] | {"hp_gl": True}}}),
    run(4, 9, why=IN_HPGL),
    (13, 5, "par &lX", IN_HPGL),
    run(18, 2, why=IN_HPGL),
    (20, 4, "par %A", {"view": {"settings": {"hp_gl": False}}}),
    (24, 1, "ctl 0A", {"y": 2100}),
    run(25, 1),
    (26, 0, "uel", {"y": 900}),
)
# Bytes of another language, up to an escape character, which stands by itself, and to the universal exit; the last of a run is told.
LANGUAGE = in_runs(
    b"@PJL ENTER LANGUAGE=PLAIN\n%!\n1\x1bE1\x1b%-12345Xab\rcd",
    (0, 26, "pjl", {"view": {}}),
    run(26, 4, "for"),
    run(30, 1, "for"),
    run(31, 2, "for"),
    (33, 9, "uel", {}),
    run(42, 1),
    run(43, 1),
    (44, 1, "ctl 0D", {}),
    run(45, 2),
    (47, 0, "uel", {}),
)
# What is recorded is no run, and nor is what a macro runs; a sequence that is left open stands before a byte by itself.
RECORDED = in_runs(
    b"\x1b&f1y0Xab\x1b&f1X\x1b&f2x cd",
    (0, 5, "par &fY", {"view": {"macros": POWER_ON["macros"] | {"id": 1}}}),
    (5, 2, "par &fX", {"view": {"macros": {"defining": 1}}}),
    (7, 1, "txt", {"recorded": True}),
    (8, 1, "txt", {"recorded": True}),
    (9, 5, "par &fX", {"view": {"macros": {"defining": None}}}),
    (14, 5, "par &fX", {"depth": 1}),
    (14, 5, "txt", NO_ROW | {"depth": 1}),
    (14, 5, "txt", NO_ROW | {"depth": 0}),
    run(19, 1),
    run(20, 2),
    (22, 0, "uel", {"view": {"macros": {"id": 0}}}),
)
# The first byte of a stream stands by itself, and the first line tells all; 16,384 bytes are read at a time.
PIECES = in_runs(
    b"a" * 20000,
    run(0, 1),
    run(1, 16383),
    run(16384, 3616),
    (20000, 0, "uel", {}),
)


def no(letters, fields):
    """Commands that are refused for these value fields."""
    return [(letters[:-1] + field + letters[-1], NO_VALUE) for field in fields.split()]


def ok(letters, fields):
    """Such as are not, and change nothing here."""
    return [(command, {}) for command, _ in no(letters, fields)]


def spelled(*commands, at_end):
    """A reset, and commands one by one: each as it stands behind its escape character, and what is told of it."""
    stream, steps = b"\x1bE", [(0, 2, "esc E", {})]
    for command, told in commands:
        kind = f"par {command[:2]}{command[-1]}" if len(command) > 1 else f"esc {command}"
        steps.append((len(stream), len(command) + 1, kind, told))
        stream += b"\x1b" + command.encode()
    return asked(stream, *steps, (len(stream), 0, "uel", at_end))


def settings(**fields):
    return {"view": {"settings": fields}}


def margins(**fields):
    return {"view": {"margins": fields}}


def raster(**fields):
    return {"view": {"raster": fields}}


def drawing(**fields):
    return {"view": {"drawing": fields}}


# Each command at the ends of its values, and past them: which values it names is told also where it changes nothing.
MOTIONS = spelled(
    *no("&uD", "0 95 97 7199 7201 -300"), ("&u96D", settings(unit=75)), ("&u7200.9D", settings(unit=1)), ("&u300D", settings(unit=24)),
    *no("&kG", "4 -1"), *ok("&kG", "0 -0.9"), ("&k3G", settings(feed_after_return=True, return_before_feed=True)),
    *no("&kH", "840.0001 -0.0001"), ("&k840H", settings(horizontal_motion=50400)), ("&k-0.00001H", settings(horizontal_motion=0)),
    ("&k12H", settings(horizontal_motion=720)),
    *no("&lC", "336.0001 -0.0001"), ("&l336C", settings(vertical_motion=50400)), ("&l-0.00001C", settings(vertical_motion=0)),
    *no("&lE", "0 1"), *no("&lF", "0 1"),   # a line has no height
    *no("&lD", "0 5 49 -6"), ("&l1D", settings(vertical_motion=7200)), ("&l48.9D", settings(vertical_motion=150)),
    ("&l6D", settings(vertical_motion=1200)),
    at_end=settings(feed_after_return=False, return_before_feed=False))
# The page has 66 lines of 1,200, and 80 columns of 720.
MARGINS = spelled(
    *no("&lE", "66.0009 -0.0009 -1"), ("&l-0.0008E", margins(top=0, text_length=75600)), ("&l66.0008E", margins(top=79200, text_length=0) | {"y": 0}),
    ("&l3E", margins(top=3600, text_length=72000) | {"y": 900}),
    *no("&lF", "0 0.9 64 -1"), ("&l63.9F", margins(text_length=75600)), ("&l1F", margins(text_length=1200)),
    *no("&lL", "2 -1"), *ok("&lL", "1"), ("&l0L", {"view": {"margins": {"text_length": 72000}, "settings": {"perforation_skip": False}}}), *ok("&lL", "0 -0.9"),
    *no("&aL", "80 81 -0.0001 -1"), *ok("&aL", "0"), ("&a79.9999L", margins(left=57599) | {"x": 57599}), ("&a-0.00001L", margins(left=0)),
    ("&a10L", margins(left=7200)),
    *no("&aM", "9 9.0013 0 -1"), ("&a9.0014M", margins(right=7201) | {"x": 7201}), ("&a65535M", margins(right=57600)), ("&a0L", margins(left=0)),
    *no("&aM", "-1 -0.9987 -9"), ("&a-0.9986M", margins(right=1) | {"x": 1}), *no("&aL", "0.0014"), *ok("&aL", "0.0013"), ("9", margins(right=57600)),
    at_end=settings(perforation_skip=True) | {"x": 0})
TURN = {"page": {"orientation": 3}, "margins": {"right": 76320, "text_length": 54000}}
SHEETS = spelled(
    *no("&lA", "0 4 5 7 25 28 -2"), ("&l1A", {"view": {"margins": {"right": 48600, "text_length": 68400}, "page": {"size": 1}}}),
    ("&l27A", {"view": {"margins": {"right": 80760, "text_length": 111600}, "page": {"size": 27}}}),
    ("&l2.9A", {"view": {"margins": {"right": 57600, "text_length": 72000}, "page": {"size": 2}}}),
    *no("&lO", "4 -1"), *ok("&lO", "0 -0.9"), ("&l3O", {"view": TURN}),
    ("&l0O", {"view": {"margins": {"right": 57600, "text_length": 72000}, "page": {"orientation": 0}}}),
    *no("&lS", "3 -1"), ("&l2S", {"view": {"page": {"binding": 2, "duplex": True}}}), ("&l1S", {"view": {"page": {"binding": 1}}}),
    ("&l-0.9S", {"view": {"page": {"duplex": False}}}),
    *no("&aG", "3 -1"), *ok("&aG", "0 1 2 -0.9"), *ok("&lH", "0 99 -1"),
    *no("&lX", "0 0.9 -1"), *ok("&lX", "1"), ("&l65535X", settings(copies=999)),
    at_end=settings(copies=1))
# The same while raster graphics is off and on. A row at the height of the source has no effect, and is not refused.
RASTER = spelled(
    *no("*tR", "0 74 200 600 -75"), *ok("*tR", "75"), ("*t100R", raster(resolution=100)), ("*t300.9R", raster(resolution=300)),
    ("*t150R", raster(resolution=150)),
    *no("*rS", "0 0.9 -1"), ("*r1S", raster(width=1)), ("*r65535S", raster(width=65535)),
    *no("*rT", "0 0.9 -1"), ("*r1T", raster(height=1)), ("*r65535T", raster(height=65535)),
    *no("*bM", "4 6 -1"), *ok("*bM", "0 -0.9"), ("*b5M", raster(method=5)), ("*b2M", raster(method=2)), ("*b3M", raster(method=3)), ("*b1M", raster(method=1)),
    *no("*bY", "0 0.9 -1"), *ok("*bY", "1 65535 70000"),
    *no("*rA", "4 -1"), ("*r-0.9A", raster(left=0, rows=0)),
    *no("*rA", "4 -1"), *ok("*rA", "0 1 2 3"), *no("*tR", "200 0"), *ok("*tR", "75 300"), *no("*rS", "0"), *ok("*rS", "1"), *no("*rT", "0"), *ok("*rT", "1"),
    *no("*bY", "0 -1"), ("*b70000Y", raster(rows=65535) | {"y": 75600}), *ok("*bW", "0 -1"),
    ("*r9B", raster(left=None, rows=None)), *ok("*rB", "-1"), ("*r-1C", raster(method=0)), ("*r3A", raster(left=0, rows=0)),
    ("*r9C", raster(left=None, rows=None)),
    at_end=raster(height=None, resolution=75, width=None) | {"y": 900})
FINE = asked(
    b"@PJL SET RESOLUTION=600\n\x1b*t450R\x1b*t200R\x1b*t600R",
    (0, 24, "pjl", {"view": {"current": VARIABLES | {"resolution": 600}, "page": POWER_ON["page"] | {"resolution": 600}}}),
    (24, 7, "par *tR", NO_VALUE),
    (31, 7, "par *tR", raster(resolution=200)),
    (38, 7, "par *tR", raster(resolution=600)),
    (45, 0, "uel", raster(resolution=75)),
)
# A pattern that does not exist has a value that is named, and one that is broken has data.
PATTERNS = spelled(
    *(each for letters in ("*cA", "*cB", "*cH", "*cV") for each in (*no(letters, "-0.0001 -1"), *ok(letters, "0 -0.00001"))),
    *no("*cP", "6 -1"), *ok("*cP", "0 1 2 3 4 5 -0.9"), *no("*cQ", "3 6 -1"), *ok("*cQ", "0 1 2 4 5 -0.9"), *ok("*cW", "0 -1"),
    *no("*vT", "5 -1"), *ok("*vT", "0 2 3 4"), ("*v1T", drawing(pattern_kind=1)), ("*v-0.9T", drawing(pattern_kind=0)),
    *no("*vN", "2 -1"), ("*v1N", drawing(source_opaque=True)), ("*v-0.9N", drawing(source_opaque=False)),
    *no("*vO", "2 -1"), ("*v1O", drawing(pattern_opaque=True)), ("*v-0.9O", drawing(pattern_opaque=False)),
    *no("*cG", "32768 -1"), ("*c32767G", drawing(id=32767)), ("*c-0.9G", drawing(id=0)),
    at_end={})
# What is recorded is not refused, and what a command finds missing is no matter of its value.
MACROS = spelled(
    *no("&fY", "32768 -1"), ("&f32767Y", {"view": {"macros": {"id": 32767}}}), ("&f-0.9Y", {"view": {"macros": {"id": 0}}}),
    *no("&fX", "11 -1"), *ok("&fX", "1 2 3 5 6 7 8 9 10"), ("&f4X", {"view": {"macros": {"overlay": 0}}}), ("&f5X", {"view": {"macros": {"overlay": None}}}),
    ("&f0X", {"view": {"macros": {"defining": 0}}}), ("&f11X", {"recorded": True}), ("&l9A", {"recorded": True}), ("&z1Z", {"recorded": True}),
    ("&f1.7X", {"view": {"macros": {"defining": None}}}),
    *no("&fS", "2 -1"), *ok("&fS", "1"), *(("&f0S", {"view": {"cursor": {"pushed": [[0, 900]] * each}}}) for each in range(1, 21)), *ok("&fS", "0 -0.9"),
    at_end={"view": {"cursor": {"pushed": []}}})
# What has no row, and what HP-GL/2 skips, whether it has one or not, and whatever its value; lines of the job language have one, also those of no effect.
SKIPPED = asked(
    b"\x1bEa\x07\x80\x1bZ\x1b&l1Z\x1b*b3Vabc\x1b*p\x1b*{9\x1b%5B{\n\x07\x1b=\x1bZ\x1b&l9A\x1b&l2A\x1b*z1Z\x1b*b1W\xff\x1b*p\x1b%0B\x1b%5A\x1b%0B\x1bE"
    b"\x1b%0B\x1b%-12345X@PJL FOO\n@PJLFOO\n@PJL ENTER LANGUAGE=X\n\x0c\x1b",
    (0, 2, "esc E", {}),
    (2, 1, "txt", NO_ROW),
    (3, 1, "ctl 07", NO_ROW),
    (4, 1, "txt", NO_ROW),
    (5, 2, "esc Z", NO_ROW),
    (7, 5, "par &lZ", NO_ROW),
    (12, 8, "par *bV", NO_ROW),
    (20, 3, "brk", NO_ROW),
    (23, 4, "brk", NO_ROW),
    (27, 4, "par %B", settings(hp_gl=True)),
    (31, 1, "txt", IN_HPGL),
    (32, 1, "ctl 0A", IN_HPGL),
    (33, 1, "ctl 07", IN_HPGL),
    (34, 2, "esc =", IN_HPGL),
    (36, 2, "esc Z", IN_HPGL),
    (38, 5, "par &lA", IN_HPGL),
    (43, 5, "par &lA", IN_HPGL),
    (48, 5, "par *zZ", IN_HPGL),
    (53, 6, "par *bW", IN_HPGL),
    (59, 3, "brk", IN_HPGL),
    (62, 4, "par %B", IN_HPGL),
    (66, 4, "par %A", settings(hp_gl=False)),
    (70, 4, "par %B", settings(hp_gl=True)),
    (74, 2, "esc E", settings(hp_gl=False)),
    (76, 4, "par %B", settings(hp_gl=True)),
    (80, 9, "uel", settings(hp_gl=False)),
    (89, 9, "pjl", {}),
    (98, 8, "pjl", {}),
    (106, 22, "pjl", {}),
    (128, 1, "for", NO_ROW),
    (129, 1, "for", NO_ROW),
    (130, 0, "uel", {}),
)
# The same in a body, where no definition begins or ends; what was recorded is refused when it runs.
IN_BODY = asked(
    b"\x1b&f1y0Xa\x1b&l9A\x1b%0Bb\x1b&l9A\x1b%0A\x1b&f0X\x1b&f11X\x1b&f1X\x1b&f2X",
    (0, 5, "par &fY", {"view": {"macros": POWER_ON["macros"] | {"id": 1}}}),
    (5, 2, "par &fX", {"view": {"macros": {"defining": 1}}}),
    *((at, size, last, {"recorded": True}) for at, size, last in (
        (7, 1, "txt"), (8, 5, "par &lA"), (13, 4, "par %B"), (17, 1, "txt"), (18, 5, "par &lA"), (23, 4, "par %A"), (27, 5, "par &fX"), (32, 6, "par &fX"))),
    (38, 5, "par &fX", {"view": {"macros": {"defining": None}}}),
    (43, 5, "par &fX", {"depth": 1}),
    (43, 5, "txt", NO_ROW),
    (43, 5, "par &lA", NO_VALUE),
    (43, 5, "par %B", settings(hp_gl=True)),
    (43, 5, "txt", IN_HPGL),
    (43, 5, "par &lA", IN_HPGL),
    (43, 5, "par %A", settings(hp_gl=False)),
    (43, 5, "par &fX", {}),
    (43, 5, "par &fX", NO_VALUE | {"depth": 0}),
    (48, 0, "uel", {"view": {"macros": {"id": 0}}}),
)
# What would close the page in an overlay has no effect there, and is refused, whether its row names the value or not.
OVERLAY = asked(
    b"\x1b&f2y0X\x0c\x1b&l2a9a0o4o0s3s0H\x1b&a0g3G\x07\x1b&f1x4X\x0c",
    (0, 5, "par &fY", {"view": {"macros": POWER_ON["macros"] | {"id": 2}}}),
    (5, 2, "par &fX", {"view": {"macros": {"defining": 2}}}),
    *((at, size, last, {"recorded": True}) for at, size, last in (
        (7, 1, "ctl 0C"), (8, 5, "par &lA"), (13, 2, "par &lA"), (15, 2, "par &lO"), (17, 2, "par &lO"), (19, 2, "par &lS"), (21, 2, "par &lS"),
        (23, 2, "par &lH"), (25, 5, "par &aG"), (30, 2, "par &aG"), (32, 1, "ctl 07"))),
    (33, 5, "par &fX", {"view": {"macros": {"defining": None}}}),
    (38, 2, "par &fX", {"view": {"macros": {"overlay": 2}}}),
    (40, 1, "ctl 0C", {"depth": 1, "view": {"macros": {"id": 0}}}),
    *((40, 1, last, IN_OVERLAY) for last in ("ctl 0C", "par &lA", "par &lA", "par &lO", "par &lO", "par &lS", "par &lS", "par &lH", "par &aG", "par &aG")),
    (40, 1, "ctl 07", NO_ROW | {"delivered": 1, "depth": 0, "sheets": 1, "view": {"macros": {"id": 2}, "settings": {"sheets_of_job": 1}}}),
    (41, 0, "uel", {"view": {"macros": {"id": 0, "overlay": None}}}),
)


def recorded(number, body, at):
    """The steps in which a macro of this number is recorded from a place on, the bytes that spell this, and what is told of each command when it runs."""
    stream = b"\x1b&f%dy0X" % number
    steps = [(at, len(stream) - 2, "par &fY", {"view": {"macros": {"id": number}}}), (at + len(stream) - 2, 2, "par &fX", {"view": {"macros": {"defining": number}}})]
    for command, kind, _ in body:
        steps.append((at + len(stream), len(command), kind, {"recorded": True}))
        stream += command
    steps.append((at + len(stream), 5, "par &fX", {"view": {"macros": {"defining": None}}}))
    return steps, stream + b"\x1b&f1X", [(kind, told) for _, kind, told in body]


def run_by(at, size, ran):
    """The steps of a body that a command starts."""
    return [(at, size, kind, told) for kind, told in ran]


def told(why, *commands):
    """Commands of a body of which the same is told: control characters and text as they stand, others behind their escape character."""
    return [(command.encode(), "txt" if command >= " " else "ctl %02X" % ord(command), why) if len(command) == 1 else
            (b"\x1b" + command.encode(), "par " + command[0] + command[1:2].strip("0123456789") + command[-1], why) for command in commands]


def overlaid(*body):
    """An overlay under a page that a form feed closes; the last command changes no field."""
    steps, stream, ran = recorded(2, body, 0)
    steps[0] = (*steps[0][:3], {"view": {"macros": POWER_ON["macros"] | {"id": 2}}})
    at, (kind, why) = len(stream) + 5, ran[-1]
    return asked(
        stream + b"\x1b&f4X\x0c", *steps, (at - 5, 5, "par &fX", {"view": {"macros": {"overlay": 2}}}), (at, 1, "ctl 0C", {"depth": 1, "view": {"macros": {"id": 0}}}),
        *run_by(at, 1, ran[:-1]), (at, 1, kind, why | {"delivered": 1, "depth": 0, "sheets": 1, "view": {"macros": {"id": 2}, "settings": {"sheets_of_job": 1}}}),
        (at + 1, 0, "uel", {"view": {"macros": {"id": 0, "overlay": None}}}))


# The six rows that have no effect there, by values that they name and by others, a command each.
CLOSERS = ["\f", "&l2A", "&l4A", "&l0O", "&l4O", "&l0S", "&l3S", "&l0H", "&a0G", "&a3G"]
EVERY_VALUE = overlaid(*told(
    IN_OVERLAY, "\f", *(f"&l{value}A" for value in (1, 2, 3, 6, 26, 27, 0, 4, 9, 28, -1)), *(f"&l{value}O" for value in (0, 1, 2, 3, 4, -1)),
    *(f"&l{value}S" for value in (0, 1, 2, 3, -1)), *(f"&l{value}H" for value in (0, 1, 9, -1)), *(f"&a{value}G" for value in (0, 1, 2, 3, -1))))
# What has no row, and a value that another row does not name, are told as elsewhere; a command that has its effect, or finds nothing to do, is not refused.
OTHERS_IN_OVERLAY = overlaid(
    *told(NO_ROW, "a", "\a", "&l1Z", "&a1Z"), (b"\x1bZ", "esc Z", NO_ROW), (b"\x1b*p", "brk", NO_ROW), *told(NO_ROW, "\x01"),
    *told(NO_VALUE, "&k4G", "&l5D", "&l2L", "&l0X", "&a99L", "&f11X", "*v2N"), *told({}, "\r", "&l1L", "&l1X", "&a0C", "&f0X", "&f9X"), *told(IN_OVERLAY, "\f"))
# While HP-GL/2 is on it is the reason, whatever stands there.
PLOT_IN_OVERLAY = overlaid(
    *told(settings(hp_gl=True), "%0B"), *told(IN_HPGL, *CLOSERS, "a", "&l1Z", "&k4G", "&l1X"), *told(settings(hp_gl=False), "%0A"), *told(IN_OVERLAY, *CLOSERS))
# A macro of an overlay is a part of it, whether it is executed or called.
OF_MACRO, MACRO, IN_MACRO = recorded(3, told(IN_OVERLAY, *CLOSERS) + told(NO_ROW, "a"), 0)
OF_OVERLAY, LAID_OVER, _ = recorded(2, [(b"\x1b&f3y", "par &fY", {}), (b"2x", "par &fX", {}), (b"3X", "par &fX", {}), *told({}, "\f")], len(MACRO))
CLOSE = len(MACRO + LAID_OVER) + 5
MACRO_IN_OVERLAY = asked(
    MACRO + LAID_OVER + b"\x1b&f4X\x0c",
    (*OF_MACRO[0][:3], {"view": {"macros": POWER_ON["macros"] | {"id": 3}}}), *OF_MACRO[1:], *OF_OVERLAY,
    (CLOSE - 5, 5, "par &fX", {"view": {"macros": {"overlay": 2}}}),
    (CLOSE, 1, "ctl 0C", {"depth": 1, "view": {"macros": {"id": 0}}}),
    (CLOSE, 1, "par &fY", {"view": {"macros": {"id": 3}}}),
    *2 * [(CLOSE, 1, "par &fX", {"depth": 2}), *run_by(CLOSE, 1, IN_MACRO[:-1]), (CLOSE, 1, "txt", NO_ROW | {"depth": 1})],
    (CLOSE, 1, "ctl 0C", IN_OVERLAY | {"delivered": 1, "depth": 0, "sheets": 1, "view": {"macros": {"id": 2}, "settings": {"sheets_of_job": 1}}}),
    (CLOSE + 1, 0, "uel", {"view": {"macros": {"id": 0, "overlay": None}}}),
)
# Outside of it the same commands have their effect, or the reasons that they have elsewhere, though an overlay is on: in the stream, and in a macro behind the page
# that it closed, where the page size puts the overlay off.
OUTSIDE = ["&l0S", "&l0H", "&a0G", "&a1G"]
OF_OTHER, OTHER, IN_OTHER = recorded(3, told({}, "\f", *OUTSIDE) + told(NO_VALUE, "&l4A") + told(NO_ROW, "&l1Z") + told({"view": {"macros": {"overlay": None}}}, "&l2A") + told({}, "&l0O"), 0)
OF_TEXT, TEXT, _ = recorded(2, told({}, "a"), len(OTHER))
ON = len(OTHER + TEXT)
OVERLAY_ON = asked(
    OTHER + TEXT + b"\x1b&f4X\x0c\x1b&l0S\x1b&l0H\x1b&a0G\x1b&l4A\x1b&l4O\x1b&l3S\x1b&a3G\x1b&l1Za\x1b&f3y2X",
    (*OF_OTHER[0][:3], {"view": {"macros": POWER_ON["macros"] | {"id": 3}}}), *OF_OTHER[1:], *OF_TEXT,
    (ON, 5, "par &fX", {"view": {"macros": {"overlay": 2}}}),
    (ON + 5, 1, "ctl 0C", {"depth": 1, "view": {"macros": {"id": 0}}}),
    (ON + 5, 1, "txt", NO_ROW | {"delivered": 1, "depth": 0, "sheets": 1, "view": {"macros": {"id": 2}, "settings": {"sheets_of_job": 1}}}),
    *((ON + 6 + 5 * number, 5, kind, why) for number, (kind, why) in enumerate((
        ("par &lS", {}), ("par &lH", {}), ("par &aG", {}), ("par &lA", NO_VALUE), ("par &lO", NO_VALUE), ("par &lS", NO_VALUE), ("par &aG", NO_VALUE), ("par &lZ", NO_ROW)))),
    (ON + 46, 1, "txt", NO_ROW),
    (ON + 47, 5, "par &fY", {"view": {"macros": {"id": 3}}}),
    (ON + 52, 2, "par &fX", {"depth": 1}),
    (ON + 52, 2, "ctl 0C", {"depth": 2, "view": {"macros": {"id": 0}}}),
    (ON + 52, 2, "txt", NO_ROW | {"delivered": 1, "depth": 1, "sheets": 2, "view": {"macros": {"id": 3}, "settings": {"sheets_of_job": 2}}}),
    *run_by(ON + 52, 2, IN_OTHER[1:-1]),
    (ON + 52, 2, "par &lO", {"depth": 0}),
    (ON + 54, 0, "uel", {"view": {"macros": {"id": 0}}}),
)

REFUSED = [
    ("trace none", 1, "fault 304\n", b""),
    ("trace /", 1, "fault 304\n", b""),
]

ROWS = [EMPTY, BOX, MARKS, BODY, BROKEN, REPLIES, CONTROLS, DRAWING, LINES, ROWS_OF_RASTER, MEDIA, VARIABLES_SET, COUNTS, *TURNED, SET, RUNS, PLOT, LANGUAGE, RECORDED, PIECES,
        MOTIONS, MARGINS, SHEETS, RASTER, FINE, PATTERNS, MACROS, SKIPPED, IN_BODY, OVERLAY, EVERY_VALUE, OTHERS_IN_OVERLAY, PLOT_IN_OVERLAY, MACRO_IN_OVERLAY, OVERLAY_ON, *REFUSED]
