"""The lines of a debugger, and faults of its stream."""

from asked.files import named

# A macro of five commands, of which the last calls the macro itself, is defined in ten steps and called: five in it, five in the one
# that it starts; a third level does not run. Then the page is closed, and the stream ends.
NESTED = named(b"\x1b*p0x0Y\x1b&f1y0X\x1b*c1a1b0P\x1b*p+2X\x1b&f3X\x1b&f1X\x1b&f3X\x0c")
# A macro with a form feed, laid under the page of a form feed and under that which the added universal exit closes.
OVERLAID = named(b"\x1b&f2y0X\x1b*c4a1b0P\x0c\x1b&f1X\x1b&f4X\x0c\x1b*c1a1b0P")
# One command of each kind: job language, another language, text, a sequence that breaks, an escape sequence, one without a group.
KINDS = named(b"\x1b%-12345X@PJL SET COPIES=2\n@PJL ENTER LANGUAGE=X\nab\x1b%-12345XA\x1b*p\x0c\x1bE\x1b%0A")
# Above the top margin.
ABOVE = named(b"\x1b*p100x0y-5Y")
# More than 64 commands.
MANY = named(b"\x1bE\x1b&l0O" + b"\x0c" * 99)
# A page that closes in a second macro, with an overlay that runs a macro: four bodies.
DEEP = named(b"\x1b&f4y0X\x1b*p5X\x1b&f1X\x1b&f1y0X\x1b&f4y2X\x1b&f1x4X\x1b&f2y0X\x0c\x1b&f1X\x1b&f3y0X\x1b&f2y2X\x1b&f1x2X\x1b*p+7X")
MOST = 18446744073709551615


def state(step, depth, x, y):
    return f"step {step} depth {depth} x {x} y {y}"


# Each state of the nested macros: its depth and cursor.
STATES = [(0, 0, 900)] + [(0, 0, 0)] * 9 + [(1, 0, 0)] * 4 + [(1, 48, 0)] + [(2, 48, 0)] * 4 + [(2, 96, 0)]
STATES += [(0, 96, 0), (0, 96, 900), (0, 0, 900)]
AT = [state(0, 0, 0, 900)] + [state(step, *place) for step, place in enumerate(STATES, 1)]
# Those of the overlaid pages: four commands of the overlay run before each page is closed.
LAID = [state(step, depth, 0, 900) for step, depth in enumerate([0] * 8 + [1] * 4 + [0] * 4 + [1] * 4 + [0], 1)]
LAID_KINDS = ["par &fY", "par &fX", "par *cA", "par *cB", "par *cP", "ctl 0C", "par &fX", "par &fX", "ctl 0C", "par *cA", "par *cB", "par *cP",
              "ctl 0C", "par *cA", "par *cB", "par *cP", "uel", "par *cA", "par *cB", "par *cP", "ctl 0C"]
RECENT = ["par *pX", "par *pY", "par &fY", "par &fX", "par *cA", "par *cB", "par *cP", "par *pX", "par &fX", "par &fX", "par &fX"]


def asked(stream, *exchanges):
    """Lines with their answers."""
    answers = [answer for _, answers in exchanges for answer in ([answers] if isinstance(answers, str) else answers)]
    return f"debug {stream}", 0, "".join(f"{answer}\n" for answer in answers), "".join(f"{line}\n" for line, _ in exchanges).encode()


STEPS = [
    asked(NESTED, *(("step", f"stepped {at}") for at in AT[1:]), *((line, f"ended {AT[23]}") for line in ["step", "over", "go 0", "go 9"])),
    asked(NESTED, ("go 10", f"limit {AT[10]}"), ("over", f"stepped {AT[21]}"), ("over", f"stepped {AT[22]}"), ("over", f"stepped {AT[23]}")),
    asked(OVERLAID, *(("step", f"stepped {at}") for at in LAID), ("step", f"ended {LAID[20]}"), ("recent", LAID_KINDS)),
    asked(NESTED, ("go 12", f"limit {AT[12]}"), ("over", f"stepped {AT[13]}"), ("go 2", f"limit {AT[15]}"), ("over", f"stepped {AT[21]}")),
    asked(NESTED, ("go 0", f"limit {AT[0]}"), ("go 22", f"limit {AT[22]}"), ("go 1", f"ended {AT[23]}")),
    asked(NESTED, (f"go {MOST}", f"ended {AT[23]}")),
    asked(NESTED, ("go 000000000000000000000000000000023", f"ended {AT[23]}")),
    asked(NESTED, ("break par *cP", "set 0"), ("go 13", f"limit {AT[13]}"), ("go 1", f"break 0 {AT[14]}"), ("go 100", f"break 0 {AT[19]}"),
          ("go 100", f"ended {AT[23]}")),
    asked(NESTED, ("break par *cP", "set 0"), ("go 10", f"limit {AT[10]}"), ("over", f"stepped {AT[21]}")),
    asked(NESTED, ("break ctl 0c", "set 0"), ("break par *cP", "set 1"), ("break par *cP", "set 2"), ("go 99", f"break 1 {AT[14]}"),
          ("clear 1", "cleared 1"), ("go 99", f"break 2 {AT[19]}"), ("break uel", "set 1"), ("go 99", f"break 0 {AT[22]}"),
          ("go 99", f"break 1 {AT[23]}"), ("go 99", f"ended {AT[23]}")),
    # step 20 starts macro 3, step 22 macro 2, step 23 the overlay under the page that its form feed closes, and step 25 macro 4
    asked(DEEP, ("go 19", f"limit {state(19, 0, 0, 900)}"), *(("step", f"stepped {state(step, depth, x, 900)}")
          for step, (depth, x) in enumerate([(1, 0), (1, 0), (2, 0), (3, 0), (3, 0), (4, 0), (0, 0), (0, 168), (0, 0)], 20))),
    asked(DEEP, ("go 22", f"limit {state(22, 2, 0, 900)}"), ("over", f"stepped {state(26, 0, 0, 900)}")),
    asked(DEEP, ("go 24", f"limit {state(24, 3, 0, 900)}"), ("over", f"stepped {state(26, 0, 0, 900)}")),
    asked(ABOVE, ("go 3", f"limit {state(3, 0, 2400, -120)}")),
    asked("empty", ("recent", []), ("go 5", f"ended {state(1, 0, 0, 900)}"), ("recent", "uel"), ("over", f"ended {state(1, 0, 0, 900)}")),
]

BREAKS = [
    asked("empty", ("clear 5", "fault 502"), ("break esc E", "set 0"), ("clear 0", "cleared 0"), ("clear 0", "fault 502")),
    asked("empty", *(("break esc E", f"set {number}") for number in range(32)), ("break uel", "fault 501"), ("clear 7", "cleared 7"),
          ("break par %A", "set 7"), ("break uel", "fault 501"), ("clear 31", "cleared 31"), ("clear 031", "fault 502")),
    asked("empty", *((f"clear {number}", "fault 502") for number in [0, 31, 32, 255, 256, 288, MOST])),
    asked("empty", *((f"break {kind}", f"set {number}") for number, kind in enumerate(
        ["esc 0", "esc ~", "par !@", "par /^", "par !`@", "par /~^", "ctl 00", "ctl 1f", "ctl 1F", "uel"]))),
]

KEPT = [
    asked(KINDS, ("go 100", f"ended {state(12, 0, 0, 900)}"),
          ("recent", ["uel", "pjl", "pjl", "for", "for", "uel", "txt", "brk", "ctl 0C", "esc E", "par %A", "uel"])),
    asked(NESTED, ("go 11", f"limit {AT[11]}"), ("recent", RECENT), ("step", f"stepped {AT[12]}"), ("recent", [*RECENT, "par *cA"])),
    asked(MANY, ("go 64", f"limit {state(64, 0, 0, 900)}"), ("recent", ["esc E", "par &lO", *["ctl 0C"] * 62]),
          ("go 1", f"limit {state(65, 0, 0, 900)}"), ("recent", ["par &lO", *["ctl 0C"] * 63]),
          ("go 99", f"ended {state(102, 0, 0, 900)}"), ("recent", [*["ctl 0C"] * 63, "uel"])),
]

# Lines that ask nothing.
NO_LINES = [
    b"", b" ", b"step ", b" step", b"step 1", b"Step", b"over ", b"over 1", b"recent ", b"recent 1", b"go", b"go ", b"go  1", b"go 1 ", b"go -1",
    b"go +1", b"go 1.0", b"go\t1", b"go 1\r", b"go 18446744073709551616", b"go 99999999999999999999", b"clear", b"clear ", b"clear x", b"clear -1",
    b"clear 18446744073709551616", b"break", b"break ", b"break  uel", b"break esc", b"break esc ", b"break esc /", b"break esc \x7f", b"break esc EE",
    b"break par", b"break par *", b"break par *c", b"break par *cp", b"break par *c0P", b"break par *cP 00", b"break par *cP ", b"break par 0cP",
    b"break par %-12345X", b"break ctl", b"break ctl C", b"break ctl 00C", b"break ctl 0G", b"break ctl 1B", b"break ctl 20", b"break ctl 0C ",
    b"break txt", b"break txt 41", b"break brk", b"break brk 1B", b"break pjl", b"break for", b"break for 42", b"break uel ", b"break Uel", b"break 5",
    b"turn 1", b"stop uel", b"what?", b"; step", b"\xff", b"\0",
]
# The last of them has no line feed behind it.
REFUSED = [
    ("debug empty", 0, "what?\n" * len(NO_LINES), b"\n".join(NO_LINES)),
    ("debug empty", 0, f"what?\nended {state(1, 0, 0, 900)}\n", b"\ngo 5"),
    ("debug empty", 0, f"stepped {state(1, 0, 0, 900)}\n", b"step"),
    ("debug empty", 0, "", b""),
]

# The stream is read before the first line.
FAULTS = [
    ("debug none", 1, "fault 304\n", b"step\n"),
    ("debug no/such", 1, "fault 304\n", b"step\n"),
    ("debug /", 1, "fault 304\n", b"step\n"),
]

ROWS = [*STEPS, *BREAKS, *KEPT, *REFUSED, *FAULTS]
