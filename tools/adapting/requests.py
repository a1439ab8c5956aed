"""Requests to the debug adapter, with what has to come of each: a part of the body of its answer, where it stops then, and why."""

# A macro of three commands that is executed twice, a reply, text, a row, and a form feed that sends two copies.
STREAM = (b"\x1bE\x1b&f1y0X\x1b*p+24X\x1b*c8A\x1b*c1b0P\x1b&f1X\x1b&f2X\x1b&f2X\x1b&l2XHello\x1b*r1A\x1b*b1W\x80\x0c"
          b"\x1b%-12345X@PJL ECHO here\n")
# Its lines: 1 esc E, 2 id, 3 start, 4 to 7 recorded (`*cB` and `*cP` are two), 8 end, 9 and 10 execute, 11 copies, 12 text, 13 raster, 14 row, 15 FF,
# 16 universal exit, 17 ECHO, 18 the end.


def line(number, **more):
    return {"line": number, **more}


def breaks(*some):
    return "setBreakpoints", {"source": {}, "breakpoints": list(some)}


def row(name, *steps, stream=STREAM, **arguments):
    """A session: each step is a request, its words, and what has to come of it."""
    return name, stream, arguments, [step if len(step) == 3 else (*step, {}) for step in steps]


def refused(name, why, **arguments):
    """A launch that is refused."""
    return name, STREAM, arguments, why


GO, BACK, THREAD = "continue", "reverseContinue", {"threadId": 1}

ROWS = [
    row("it stands before the first command", ("stackTrace", THREAD, {"step": 0, "frames": [("stream", 1)], "body": {"totalFrames": 1}}),
        ("threads", {}, {"body": {"threads": [{"id": 1, "name": "stream"}]}})),
    row("into a macro, over one, out of one, and back",
        (*breaks(line(9)), {"body": {"breakpoints": [{"verified": True, "line": 9}]}}),
        (GO, THREAD, {"reason": "breakpoint", "step": 8, "frames": [("stream", 9)]}),
        ("stepIn", THREAD, {"reason": "step", "step": 9, "frames": [("macro 1", 4), ("stream", 9)]}),
        ("stepIn", THREAD, {"step": 10, "frames": [("macro 1", 5), ("stream", 9)]}),
        ("stepBack", THREAD, {"step": 9, "frames": [("macro 1", 4), ("stream", 9)]}),
        ("stepOut", THREAD, {"step": 13, "frames": [("stream", 10)]}),
        ("next", THREAD, {"step": 18, "frames": [("stream", 11)]}),
        ("stepBack", THREAD, {"step": 13, "frames": [("stream", 10)]})),
    row("a line that is recorded stops when it is recorded and when it runs",
        breaks(line(7)), (GO, THREAD, {"step": 6, "frames": [("stream", 7)]}), (GO, THREAD, {"step": 12, "frames": [("macro 1", 7), ("stream", 9)]}),
        (GO, THREAD, {"step": 17}), (BACK, THREAD, {"step": 12}), (BACK, THREAD, {"step": 6}), (BACK, THREAD, {"reason": "pause", "step": 0})),
    row("conditions", (*breaks(line(10, condition="x > 500 and not marked")), {"body": {"breakpoints": [{"verified": True}]}}),
        (GO, THREAD, {"reason": "pause", "text": "the end of the stream"}),
        breaks(line(10, condition="page changed")), (BACK, THREAD, {"reason": "breakpoint", "step": 13}),
        (*breaks(line(10, condition="foo > 1")), {"body": {"breakpoints": [{"verified": False, "message": "foo is no field"}]}}),
        (*breaks(line(10, condition="x >")), {"body": {"breakpoints": [{"verified": False, "message": "a field or a value is missing"}]}}),
        (*breaks(line(10, condition="width > 1")), {"body": {"breakpoints": [{"verified": False, "message": "width is one of drawing.width, raster.width"}]}})),
    row("counts", breaks(line(7, hitCondition="3")), (GO, THREAD, {"step": 17}), (*breaks(line(7, hitCondition="x")), {"body": {"breakpoints": [{"verified": False}]}})),
    row("kinds", ("setFunctionBreakpoints", {"breakpoints": [{"name": "par *cP"}, {"name": "par cP"}]},
                  {"body": {"breakpoints": [{"verified": True}, {"verified": False, "message": "par cP is no kind: esc E, par *cP, ctl 0C or uel"}]}}),
        (GO, THREAD, {"reason": "function breakpoint", "text": "par *cP", "step": 13}), (GO, THREAD, {"step": 18}),
        ("setFunctionBreakpoints", {"breakpoints": [{"name": "ctl 0C", "condition": "sheets == 2"}]}), (GO, THREAD, {"step": 27})),
    row("kinds as they are shown, and as HP spells them", ("setFunctionBreakpoints", {"breakpoints": [{"name": "par *c1B"}, {"name": "ESC*r1A"}, {"name": "FF"}, {"name": "ESC E"}]},
                                                           {"body": {"breakpoints": [{"verified": True}] * 4}}),
        (GO, THREAD, {"step": 1, "text": "esc E"}), (GO, THREAD, {"text": "par *cB", "step": 12}), (GO, THREAD, {"step": 17}),
        (GO, THREAD, {"text": "par *rA"}), (GO, THREAD, {"text": "ctl 0C", "step": 27})),
    row("a dot of the page, and a field", ("dataBreakpointInfo", {"name": "dot 99, 50"}, {"body": {"dataId": "dot 99, 50", "accessTypes": ["write"]}}),
        ("dataBreakpointInfo", {"name": "width of it"}, {"body": {"dataId": None, "description": "width of it is no field, and no dot as dot 300, 450"}}),
        ("setDataBreakpoints", {"breakpoints": [{"dataId": "dot 99, 187"}, {"dataId": "dot 9999, 150"}, {"dataId": "nothing"}]},
         {"body": {"breakpoints": [{"verified": True}, {"verified": True}, {"verified": False, "message": "nothing is no field, and no dot"}]}}),
        ("evaluate", {"expression": "dot 99, 187"}, {"body": {"result": "on no open page"}}),
        (GO, THREAD, {"reason": "data breakpoint", "text": "dot 99, 187", "step": 13}), ("evaluate", {"expression": "dot 99, 187"}, {"body": {"result": "black"}}),
        ("evaluate", {"expression": "dot 98, 187"}, {"body": {"result": "white"}}), (GO, THREAD, {"text": "the end of the stream"}), (BACK, THREAD, {"step": 13}),
        ("dataBreakpointInfo", {"name": "settings.copies"}, {"body": {"dataId": "settings.copies"}}),
        ("setDataBreakpoints", {"breakpoints": [{"dataId": "settings.copies"}]}, {"body": {"breakpoints": [{"verified": True}]}}),
        (GO, THREAD, {"reason": "data breakpoint", "text": "settings.copies", "step": 19})),
    row("a line that tells, and does not stop", breaks(line(9, logMessage="x is {x}, the dot {dot 99, 187}, {no such}")),
        (GO, THREAD, {"text": "the end of the stream", "told": ["x is 0 (0 dots), the dot on no open page, {no such: such is one too many}"]})),
    row("completions", ("completions", {"text": "x > 1 and drawing.h", "column": 20}, {"body": {"targets": [{"label": "drawing.height", "start": 10, "length": 9}]}}),
        ("completions", {"text": "shee", "column": 3}, {"body": {"targets": [{"label": "sheets", "start": 0, "length": 2}]}})),
    row("what goes out", ("setExceptionBreakpoints", {"filters": ["sheet", "reply"]}), (GO, THREAD, {"reason": "exception", "text": "a sheet goes out", "step": 27}),
        (GO, THREAD, {"text": "a reply goes out", "step": 29}), (BACK, THREAD, {"step": 27}),
        ("setExceptionBreakpoints", {"filters": ["idle"]}), (BACK, THREAD, {"text": "a command has no effect", "step": 24}),
        ("setExceptionBreakpoints", {"filters": [], "filterOptions": [{"filterId": "idle", "condition": "step < 20"}]}), (BACK, THREAD, {"step": 17})),
    row("the end, and behind it", (GO, THREAD, {"reason": "pause", "ended": False, "step": 30, "frames": [("stream", 18)]}), (GO, THREAD, {"ended": True}),
        ("restart", {}, {"reason": "entry", "step": 0}), ("stepIn", THREAD, {"step": 1})),
    row("places", ("gotoTargets", {"source": {}, "line": 12}, {"body": {"targets": [{"id": 12, "line": 12}]}}),
        ("goto", {"threadId": 1, "targetId": 12}, {"reason": "goto", "step": 19, "frames": [("stream", 12)]}), ("pause", THREAD, {"reason": "pause", "step": 19}),
        ("breakpointLocations", {"source": {}, "line": 17, "endLine": 40}, {"body": {"breakpoints": [{"line": 17}, {"line": 18}]}})),
    row("fields", ("goto", {"threadId": 1, "targetId": 11}, {"step": 18}), ("evaluate", {"expression": "x"}, {"body": {"result": "1152 (48 dots)"}}),
        ("evaluate", {"expression": "drawing.width"}, {"body": {"result": "192 (8 dots)"}}), ("evaluate", {"expression": "marked"}, {"body": {"result": "true"}}),
        ("evaluate", {"expression": "last == 'par *cP'"}, {"body": {"result": "true"}}), ("evaluate", {"expression": "size"}, {"body": {"result": "2 (Letter)"}}),
        ("evaluate", {"expression": "overlay"}, {"body": {"result": "null"}}), ("evaluate", {"expression": "no such"}, {"body": {"refused": "such is one too many"}}),
        ("scopes", {"frameId": 1}, {"body": {"scopes": [{"name": name} for name in ("Cursor", "Page", "Raster", "Marks", "Macros", "Job language", "Device")]}}),
        ("variables", {"variablesReference": 6}, {"body": {"variables": [{"name": "current", "variablesReference": 8}, {"name": "default", "variablesReference": 9}]}}),
        ("variables", {"variablesReference": 99}, {"body": {"refused": "there is no such scope"}}),
        ("noSuchRequest", {}, {"body": {"refused": "noSuchRequest is not carried out"}})),
    row("a launch without a stop at the entry", ("threads", {}, {"step": 30}), stopOnEntry=False),
    row("a picture of the page", ("threads", {}, {"page": True})),
    row("no picture", ("threads", {}, {"page": False}), page=False),
    row("defaults", ("evaluate", {"expression": "step"}), ("stepIn", THREAD), ("stepIn", THREAD),
        ("evaluate", {"expression": "page.resolution"}, {"body": {"result": "600"}}), defaults=["RESOLUTION=600"]),
    refused("defaults that are none", "COLOUR=RED sets no variable of the job language to a value that it has", defaults=["COLOUR=RED"]),
]
