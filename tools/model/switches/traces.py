"""The lines of a trace: what each key tells, and when it is left out."""

from . import switch

T = "trace_lines"
# A field, and what is told in its place: a field that is told as another, or never told anew, is seen where it changes.
SWAPPED = [
    ("height-of-rectangle", '"height": state.rectangle_height', '"height": state.rectangle_width'),
    ("width-of-rectangle", '"width": state.rectangle_width', '"width": state.rectangle_height'),
    ("pattern-id", '"id": state.pattern_id', '"id": number'),
    ("pattern-of-the-current", '"pattern": number', '"pattern": state.pattern_id'),
    ("pattern-kind", '"pattern_kind": kind', '"pattern_kind": 0'),
    ("pattern-opaque", '"pattern_opaque": state.pattern_opaque', '"pattern_opaque": state.source_opaque'),
    ("source-opaque", '"source_opaque": state.source_opaque', '"source_opaque": state.pattern_opaque'),
    ("defining", '"defining": state.defining', '"defining": state.defining is not None or None'),
    ("macro-id", '"id": state.macro_id', '"id": state.overlay or 0'),
    ("overlay", '"overlay": state.overlay}', '"overlay": None}'),
    ("left-margin", '"left": state.left_margin', '"left": 0'),
    ("right-margin", '"right": state.right_margin', '"right": 57600'),
    ("top-margin", '"top": state.top_margin', '"top": 3600'),
    ("text-length", '"text_length": state.text_length', '"text_length": 72000'),
    ("binding-of-the-page", '{"binding": BINDINGS[state.binding]', '{"binding": 1'),
    ("duplex-of-the-page", '"duplex": state.duplex', '"duplex": False'),
    ("orientation-of-the-page", '"orientation": state.orientation', '"orientation": 0'),
    ("resolution-of-the-page", '"resolution": state.resolution', '"resolution": 300'),
    ("size-of-the-page", '"size": SIZE_CODES[state.size.name]', '"size": 2'),
    ("marked", '"marked": state.marked', '"marked": False'),
    ("raster-left", '"left": state.raster_left if on else None', '"left": 0 if on else None'),
    ("raster-left-while-off", '"left": state.raster_left if on else None', '"left": state.raster_left'),
    ("raster-rows", '"rows": state.row_count if on else None', '"rows": 0 if on else None'),
    ("raster-rows-while-off", '"rows": state.row_count if on else None', '"rows": state.row_count'),
    ("raster-method", '"method": state.method', '"method": 0'),
    ("raster-resolution", '"resolution": state.raster_resolution', '"resolution": 75'),
    ("raster-height", '"height": state.source_height', '"height": None'),
    ("raster-width", '"width": state.source_width', '"width": None'),
    ("copies", '"copies": state.copies', '"copies": 1'),
    ("feed-after-return", "state.line_termination in (1, 3)", "state.line_termination in (1, 2)"),
    ("return-before-feed", "state.line_termination in (2, 3)", "state.line_termination in (0, 3)"),
    ("motion-across", '"horizontal_motion": state.hmi', '"horizontal_motion": 720'),
    ("motion-down", '"vertical_motion": state.vmi', '"vertical_motion": 1200'),
    ("hp-gl", '"hp_gl": state.hpgl', '"hp_gl": False'),
    ("page-status", '"page_status": state.pjl.status', '"page_status": False'),
    ("perforation-skip", '"perforation_skip": state.perforation_skip', '"perforation_skip": True'),
    ("sheets-of-job", '"sheets_of_job": state.since_job', '"sheets_of_job": state.total'),
    ("unit", '"unit": state.unit_positions()', '"unit": state.unit'),
    ("current-as-default", '"current": values_of(state.pjl.current)', '"current": values_of(state.pjl.default)'),
    ("default-as-current", '"default": values_of(state.pjl.default)', '"default": values_of(state.pjl.current)'),
    ("binding-of-a-variable", 'BINDINGS[variables[b"BINDING"].decode()]', "1"),
    ("copies-of-a-variable", 'int(variables[b"COPIES"])', "1"),
    ("duplex-of-a-variable", 'variables[b"DUPLEX"] == b"ON"', "False"),
    ("orientation-of-a-variable", 'ORIENTATIONS[variables[b"ORIENTATION"]]', "0"),
    ("paper-of-a-variable", 'PAPER_CODES[variables[b"PAPER"].decode()]', "2"),
    ("resolution-of-a-variable", 'int(variables[b"RESOLUTION"])', "300"),
    ("pushed", "[list(place) for place in state.stack]", "[]"),
    ("pushed-newest-first", "[list(place) for place in state.stack]", "[list(place) for place in state.stack][::-1]"),
]
BOX = "    return across[0] // 8 * 8, down[0], min(page.width(), across[1] // 8 * 8 + 8), down[1] + 1\n"
FIELDS_OF_A_STEP = '"sheets": state.total, "step": engine.taken'

# What a row asks of its value, with the text behind it where others ask the same, and what is told as if it asked that in its place.
OF_VALUES = [
    ("unit", "number(command) in UNITS_OF_MEASURE", "", ["True", "number(command) > 95", "7200 % max(1, number(command)) == 0", "number(command) in UNITS_OF_MEASURE[1:]",
     "number(command) in UNITS_OF_MEASURE[:-1]", "number(command) * 10000 == command.value().tenthousandths and number(command) in UNITS_OF_MEASURE"]),
    ("push", "number(command) in (0, 1)", "\n\n\n# Lines", ["True", "number(command) <= 1", "number(command) >= 0", "number(command) == 1", "number(command) == 0", "len(state.stack) > 0"]),
    ("line-termination", "number(command) in (0, 1, 2, 3)", ":\n        engine.state.line", ["True", "number(command) <= 3", "number(command) >= 0", "number(command) > 0", "number(command) < 3",
     "command.value().tenthousandths >= 0 and number(command) <= 3"]),
    ("hmi", "0 <= value.tenthousandths <= GREATEST_HMI", "", ["True", "value.tenthousandths <= GREATEST_HMI", "0 <= value.tenthousandths", "0 < value.tenthousandths <= GREATEST_HMI",
     "0 <= value.tenthousandths < GREATEST_HMI", "0 <= number(command) and value.tenthousandths <= GREATEST_HMI", "0 <= value.tenthousandths and number(command) <= 840"]),
    ("vmi", "0 <= value.tenthousandths <= GREATEST_VMI", "", ["True", "value.tenthousandths <= GREATEST_VMI", "0 <= value.tenthousandths", "0 < value.tenthousandths <= GREATEST_VMI",
     "0 <= value.tenthousandths < GREATEST_VMI", "0 <= number(command) and value.tenthousandths <= GREATEST_VMI", "0 <= value.tenthousandths and number(command) <= 336"]),
    ("lines", "number(command) in LINES_PER_INCH", "", ["True", "number(command) >= 1", "number(command) <= 48", "number(command) in LINES_PER_INCH[1:]", "number(command) in LINES_PER_INCH[:-1]"]),
    ("top", "state.vmi > 0 and 0 <= top <= state.logical_length()", "", ["True", "0 <= top <= state.logical_length()", "state.vmi > 0 and top <= state.logical_length()", "state.vmi > 0 and 0 <= top",
     "state.vmi > 0 and 0 < top <= state.logical_length()", "state.vmi > 0 and 0 <= top < state.logical_length()", "state.vmi > 0 and 0 <= command.value().tenthousandths and top <= state.logical_length()",
     "state.vmi > 0 and 0 <= top and command.value().tenthousandths <= state.logical_length() // state.vmi * 10000"]),
    ("text-length", "state.vmi > 0 and number(command) >= 1\n                    and state.top_margin + length <= state.logical_length()", "",
     ["True", "number(command) >= 1 and state.top_margin + length <= state.logical_length()", "state.vmi > 0 and state.top_margin + length <= state.logical_length()", "state.vmi > 0 and number(command) >= 1",
      "state.vmi > 0 and number(command) >= 1 and state.top_margin + length < state.logical_length()", "state.vmi > 0 and number(command) > 1 and state.top_margin + length <= state.logical_length()"]),
    ("skip", "number(command) in (0, 1)", " or state.perf", ["True", "number(command) <= 1", "number(command) >= 0", "number(command) in (0, 1) and state.perforation_skip != (number(command) == 1)",
     "number(command) == 1", "number(command) == 0"]),
    ("left-margin", "value.tenthousandths >= 0 and margin < state.right_margin", "", ["True", "margin < state.right_margin", "value.tenthousandths >= 0", "value.tenthousandths > 0 and margin < state.right_margin",
     "value.tenthousandths >= 0 and margin <= state.right_margin", "value.tenthousandths >= 0 and margin + 1 < state.right_margin", "margin >= 0 and margin < state.right_margin",
     "value.tenthousandths >= 0 and margin < state.logical_width()"]),
    ("right-margin", "margin > state.left_margin", "", ["True", "margin >= state.left_margin", "margin > state.left_margin + 1", "margin > 0", "margin > state.left_margin and command.value().tenthousandths >= 0",
     "margin > state.left_margin and to_position(one_more, state.hmi) <= state.logical_width()"]),
    ("page-size", "number(command) in PAGE_SIZES", "", ["True", "number(command) in range(1, 28)", "number(command) in (1, 2, 3, 6, 26)", "number(command) in (2, 3, 6, 26, 27)",
     "number(command) * 10000 == command.value().tenthousandths and number(command) in PAGE_SIZES"]),
    ("orientation", "number(command) in (0, 1, 2, 3)", ":\n        return", ["True", "number(command) <= 3", "number(command) >= 0", "number(command) > 0", "number(command) in (0, 1, 2)"]),
    ("sides", "number(command) in (0, 1, 2)", ":\n        return\n    state = engine.state\n    yield from engine", ["True", "number(command) <= 2", "number(command) >= 0", "number(command) in (1, 2)",
     "number(command) in (0, 1)"]),
    ("side", "number(command) in (0, 1, 2)", ":\n        return\n    state = engine.state\n    yield from close", ["True", "number(command) <= 2", "number(command) >= 0", "number(command) in (1, 2)",
     "number(command) in (0, 1)", "number(command) in (0, 1, 2) and engine.state.marked"]),
    ("copies", "number(command) >= 1", ":\n        engine.state.copies", ["True", "number(command) >= 0", "number(command) > 1", "number(command) != 0", "1 <= number(command) <= GREATEST_COPIES",
     "command.value().tenthousandths > 0"]),
    ("resolution", "number(command) in RASTER_RESOLUTIONS[state.resolution]", "", ["True", "number(command) in RASTER_RESOLUTIONS[300]", "number(command) in RASTER_RESOLUTIONS[600]",
     "number(command) in RASTER_RESOLUTIONS[state.resolution] and not state.raster_on", "number(command) in RASTER_RESOLUTIONS[state.resolution] or state.raster_on",
     "number(command) in RASTER_RESOLUTIONS[state.resolution][1:]", "number(command) in RASTER_RESOLUTIONS[state.resolution][:-1]"]),
    *((f"source-{side}", "number(command) >= 1", f" and not engine.state.raster_on:\n        engine.state.source_{side}",
       ["True", "number(command) >= 0", "number(command) > 1", "number(command) != 0", "number(command) in range(1, 65535)", "command.value().tenthousandths > 0",
        "number(command) >= 1 and not engine.state.raster_on", "number(command) >= 1 or engine.state.raster_on"]) for side in ("width", "height")),
    ("start", "number(command) in (0, 1, 2, 3)", " and not state", ["True", "number(command) <= 3", "number(command) >= 0", "number(command) > 0", "number(command) < 3",
     "number(command) in (0, 1, 2, 3) and not state.raster_on", "number(command) in (0, 1, 2, 3) or state.raster_on"]),
    ("method", "number(command) in (0, 1, 2, 3, rows.ADAPTIVE)", "", ["True", "number(command) in (0, 1, 2, 3)", "number(command) in range(6)", "number(command) <= 3 or number(command) == 5",
     "number(command) in (0, 1, 2, 3) or number(command) > 4", "number(command) in (1, 2, 3, 5)", "number(command) in (0, 1, 2, 5)"]),
    ("vertical-skip", "number(command) >= 1", " and state", ["True", "number(command) >= 0", "number(command) > 1", "number(command) != 0", "number(command) in range(1, 65535)",
     "number(command) >= 1 and state.raster_on", "number(command) >= 1 or state.raster_on", "number(command) >= 1 or not state.raster_on", "command.value().tenthousandths > 0"]),
    ("rectangle", "value.tenthousandths >= 0", ":\n            set", ["True", "value.tenthousandths > 0", "value.whole() >= 0",
     *(f'value.tenthousandths >= 0 or chr(command.end) == "{end}"' for end in "ABHV"), *(f'value.tenthousandths >= (chr(command.end) == "{end}")' for end in "ABHV")]),
    ("pattern-id", "0 <= number(command) <= GREATEST_ID", ":\n        engine.state.pattern", ["True", "number(command) <= GREATEST_ID", "0 <= number(command)", "0 < number(command) <= GREATEST_ID",
     "0 <= number(command) < GREATEST_ID", "command.value().tenthousandths >= 0 and number(command) <= GREATEST_ID"]),
    ("macro-id", "0 <= number(command) <= GREATEST_ID", ":\n        engine.state.macro", ["True", "number(command) <= GREATEST_ID", "0 <= number(command)", "0 < number(command) <= GREATEST_ID",
     "0 <= number(command) < GREATEST_ID", "command.value().tenthousandths >= 0 and number(command) <= GREATEST_ID"]),
    ("source-opaque", "number(command) in (0, 1)", ":\n        engine.state.source", ["True", "number(command) <= 1", "number(command) >= 0", "number(command) == 1", "number(command) == 0"]),
    ("pattern-opaque", "number(command) in (0, 1)", ":\n        engine.state.pattern", ["True", "number(command) <= 1", "number(command) >= 0", "number(command) == 1", "number(command) == 0"]),
]
# What is told in the place of a refusal for a value that no branch takes, with the text before it.
OF_BRANCHES = [
    ("fill", "state.pattern_id)))\n    else:\n        engine.names(", "which {}", ["< 6", ">= 0"]),
    ("pattern-control", "which == 5)\n    else:\n        engine.names(", "which {}", ["== 3", "< 6", ">= 0"]),
    ("current-pattern", "(kind, state.pattern_id)\n    else:\n        engine.names(", "kind {}", ["< 5", ">= 0"]),
]
# Where a command that is named finds nothing to do, it is not refused: what is told as if it were.
FINDS = [
    ("missing-fill", "    elif which in (WHITE, SHADING, HATCH, USER):\n", "    elif engine.names(which in (WHITE, SHADING, HATCH, USER) and state.patterns.tile(which, state.pattern_id) is not None):\n"),
    ("current-fill", "    if which == 5:\n", "    if which == 5 and engine.names(False):\n        pass\n    elif which == 5:\n"),
    ("black-fill", "def fill_black(engine, _command):\n", "def fill_black(engine, _command):\n    engine.names(False)\n"),
    ("missing-pattern", "        if state.patterns.tile(kind, state.pattern_id) is not None:\n", "        if engine.names(state.patterns.tile(kind, state.pattern_id) is not None):\n"),
    ("black-pattern", "        state.current_pattern = (kind, 0)\n", "        engine.names(kind == WHITE)\n        state.current_pattern = (kind, 0)\n"),
    ("broken-pattern", "        pass\n", "        engine.names(False)\n"),
    ("patterns-0", "    if which == 0:\n        patterns", "    if which == 0:\n        engine.names(False)\n        patterns"),
    ("patterns-1", "    elif which == 1:\n", "    elif which == 1:\n        engine.names(False)\n"),
    ("patterns-2", "    elif which == 2:\n", "    elif which == 2:\n        engine.names(False)\n"),
    ("patterns-4", "    elif which in (4, 5):\n", "    elif which in (4, 5):\n        engine.names(which == 5)\n"),
    ("patterns-5", "    elif which in (4, 5):\n", "    elif which in (4, 5):\n        engine.names(which == 4)\n"),
    ("paper-source", "def eject(engine, _command):\n", "def eject(engine, command):\n    engine.names(number(command) >= 0)\n"),
    ("hp-gl-on", "def hpgl_on(engine, _command):\n", "def hpgl_on(engine, command):\n    engine.names(number(command) < 2)\n"),
    ("hp-gl-off", "def hpgl_off(engine, _command):\n", "def hpgl_off(engine, command):\n    engine.names(number(command) < 2)\n"),
    ("raster-off", "def raster_off(engine, _command):\n", "def raster_off(engine, command):\n    engine.names(number(command) == 0)\n"),
    ("raster-off-and-plain", "def raster_off_and_plain(engine, _command):\n", "def raster_off_and_plain(engine, command):\n    engine.names(number(command) == 0)\n"),
    ("row", "def raster_row(engine, command):\n", "def raster_row(engine, command):\n    engine.names(number(command) >= 0)\n"),
    ("row-past-the-source", "def raster_row(engine, command):\n", "def raster_row(engine, command):\n    engine.names(engine.state.source_height is None or engine.state.row_count < engine.state.source_height)\n"),
    ("definition-of-a-pattern", "def define_pattern(engine, command):\n", "def define_pattern(engine, command):\n    engine.names(number(command) >= 0)\n"),
    ("line-of-no-effect", "    if read is None:\n", "    if not engine.names(read is not None):\n"),
    ("line-without-change", "    if change is None:\n", "    if not engine.names(change is not None):\n"),
]
NOT_FOUND = [
    ("execute", "def execute(engine):\n    body = body_to_start(engine)\n    if body is not None:\n", "def execute(engine):\n    body = body_to_start(engine)\n    if engine.names(body is not None):\n"),
    ("call", "    state = engine.state\n    body = body_to_start(engine)\n    if body is not None:\n", "    state = engine.state\n    body = body_to_start(engine)\n    if engine.names(body is not None):\n"),
    ("begin-in-a-body", "    if engine.depth == 0:\n", "    if engine.names(engine.depth == 0):\n"),
    ("end-of-none", "        end(state)\n", "        engine.names(state.defining is not None)\n        end(state)\n"),
    ("overlay-off", "        state.overlay = None\n", "        engine.names(state.overlay is not None)\n        state.overlay = None\n"),
    *((f"macro-{name.lower().replace('_', '-')}", f"    elif number == {name}:\n", f"    elif number == {name}:\n        engine.names(False)\n")
      for name in ("OVERLAY_ON", "DELETE_ALL", "DELETE_TEMPORARY", "DELETE", "MAKE_TEMPORARY")),
    ("macro-make-permanent", "engine.names(number == MAKE_PERMANENT)", "engine.names(False)"),
    ("macro-control-above-10", "engine.names(number == MAKE_PERMANENT)", "engine.names(number >= MAKE_PERMANENT)"),
    ("macro-control-below-0", "engine.names(number == MAKE_PERMANENT)", "engine.names(number <= MAKE_PERMANENT)"),
]
SKIPPED, WITHOUT_ROW = "            self.refused = IN_HPGL\n", "            self.refused = NO_ROW\n"
OVERLAID, CARRIED_OUT = "            self.refused = IN_OVERLAY\n", "            yield from row.effect(self, command) or ()\n"
ROWLESS = {"text": "txt", "foreign-byte": "for", "broken": "brk", "control": "ctl", "escape": "esc", "parameter": "par"}


def refused(name, sentence, module, old, new):
    return switch(f"trace-refused-{name}", sentence, module, old, new)


def no_row(named):
    """Where no row is told to be missing for a kind of command alone."""
    return WITHOUT_ROW.replace("NO_ROW", f"NO_ROW if {named} else None")


REFUSALS = [
    *(refused(f"{name}-{number}", f"A value that the row does not name is told as refused, and no other one: {name}.", "table",
              f"engine.names({asked}){behind}", f"(engine.names({wrong}), {asked})[1]{behind}")
      for name, asked, behind, wrongs in OF_VALUES for number, wrong in enumerate(wrongs, 1)),
    *(refused(f"{name}-{number}", f"A value that no branch takes is told as refused: {name}.", "table", f"{before}False)", f"{before}{asked.format(wrong)})")
      for name, before, asked, wrongs in OF_BRANCHES for number, wrong in enumerate(wrongs, 1)),
    *(refused(name, "A command that is named, and finds nothing to do, is not refused.", "table", old, new) for name, old, new in FINDS),
    *(refused(name, "A macro control that is named, and finds nothing to do, is not refused.", "macros", old, new) for name, old, new in NOT_FOUND),
    *(refused(f"{name}-untold", "What has no row is refused.", "engine", WITHOUT_ROW, no_row(f'self.kind[:3] != "{kind}"')) for name, kind in ROWLESS.items()),
    refused("untold", "Why a command was refused is told.", T, '"refused": engine.refused', '"refused": None'),
    refused("of-the-step-before", "A command that is not refused tells no reason.", "engine", "        self.refused = None\n        row", "        row"),
    refused("in-hp-gl-untold", "A command that HP-GL/2 skips is refused.", "engine", SKIPPED, SKIPPED.replace("IN_HPGL", "None")),
    refused("no-row-before-hp-gl", "HP-GL/2 is the reason also where a command has no row.", "engine", SKIPPED, SKIPPED.replace("IN_HPGL", "IN_HPGL if row else NO_ROW")),
    refused("hp-gl-of-rows-alone", "HP-GL/2 is the reason also where a command has no row.", "engine", SKIPPED, SKIPPED.replace("IN_HPGL", "IN_HPGL if row else None")),
    refused("value-before-hp-gl", "HP-GL/2 is the reason, whatever the value.", "engine", SKIPPED,
            SKIPPED.replace("IN_HPGL", "NO_SUCH_VALUE if self.kind == \"par &lA\" and table.number(command) not in table.PAGE_SIZES else IN_HPGL")),
    refused("no-row-in-a-body-untold", "A body is told of as the stream is: no row.", "engine", WITHOUT_ROW, no_row("self.depth == 0")),
    refused("in-hp-gl-in-a-body-untold", "A body is told of as the stream is: HP-GL/2.", "engine", SKIPPED, SKIPPED.replace("IN_HPGL", "IN_HPGL if self.depth == 0 else None")),
    refused("value-in-a-body-untold", "A body is told of as the stream is: values.", "engine", "        if not named:\n", "        if not named and self.depth == 0:\n"),
    refused("value-outside-untold", "A value is refused outside of bodies, too.", "engine", "        if not named:\n", "        if not named and self.depth:\n"),
    refused("recorded", "A command that is recorded is not refused.", "engine", "            self.last = RECORDED\n", "            self.last = RECORDED\n            self.refused = None if row else NO_ROW\n"),
    refused("recorded-value", "A command that is recorded is not refused for its value.", "engine", "            self.last = RECORDED\n",
            "            self.last = RECORDED\n            self.refused = NO_SUCH_VALUE if self.kind == \"par &lA\" and table.number(command) not in table.PAGE_SIZES else None\n"),
    refused("value-as-no-row", "A value that is not named has its own reason.", "engine", "            self.refused = NO_SUCH_VALUE\n", "            self.refused = NO_ROW\n"),
    *(refused(f"spelled-{word.split()[0].lower().replace('/', '-')}-{len(word)}", "The reasons have their words.", "engine", f'"{word}"', f'"{word.upper() if word.islower() else word.lower()}"')
      for word in ("HP-GL/2", "overlay", "no row", "no such value")),
]
# The rows that have no effect in an overlay, each by its word, with what its value is where the row names it, if it does not name all; and all other rows that a body has.
SKIPPED_ROWS = [("form-feed", "FF", ""), ("page-size", "&lA", "table.number(command) in table.PAGE_SIZES"), ("orientation", "&lO", "table.number(command) in (0, 1, 2, 3)"),
                ("sides", "&lS", "table.number(command) in (0, 1, 2)"), ("paper-source", "&lH", ""), ("side", "&aG", "table.number(command) in (0, 1, 2)")]
OF_SOME_VALUES = [each for each in SKIPPED_ROWS if each[2]]
OTHER_ROWS = {
    "carriage-return": "CR", "line-feed": "LF", "half-line-feed": "ESC =", "cleared-margins": "ESC 9", "hp-gl-on": "%B", "hp-gl-off": "%A", "unit": "&uD", "column": "&aC", "row-of-text": "&aR",
    "decipoints-across": "&aH", "decipoints-down": "&aV", "units-across": "*pX", "units-down": "*pY", "push": "&fS", "line-termination": "&kG", "hmi": "&kH", "vmi": "&lC", "lines": "&lD", "top": "&lE",
    "text-length": "&lF", "skip": "&lL", "left-margin": "&aL", "right-margin": "&aM", "copies": "&lX", "resolution": "*tR", "source-width": "*rS", "source-height": "*rT", "start": "*rA", "raster-off": "*rB",
    "raster-off-and-plain": "*rC", "method": "*bM", "vertical-skip": "*bY", "row": "*bW", "width-in-units": "*cA", "height-in-units": "*cB", "width-in-decipoints": "*cH", "height-in-decipoints": "*cV",
    "black-fill": "*cP 0", "fill": "*cP 1-5", "pattern-id": "*cG", "definition-of-a-pattern": "*cW", "pattern-control": "*cQ", "current-pattern": "*vT", "source-opaque": "*vN", "pattern-opaque": "*vO",
    "macro-id": "&fY", "macro-control": "&fX",
}
OUTSIDE = "not self.in_overlay and table.is_skipped_in_overlay(row)"


def other_reason(name, sentence, line, reason, where):
    """Another reason that is told, or none, in place of that of a line of the engine; nothing else changes."""
    told = line.split()[-1]
    return refused(name, sentence, "engine", line, line.replace(told, f"{reason} if {where} else {told}"))


def as_overlay(name, sentence, where):
    """What has an effect is told as refused because of an overlay."""
    return refused(name, sentence, "engine", CARRIED_OUT, f"            self.refused = IN_OVERLAY if {where} else None\n{CARRIED_OUT}")


def rows_of(word, sentence, line, reason, where, some=SKIPPED_ROWS):
    """The same for each of some rows."""
    return [other_reason(f"{name}-{word}", sentence, line, reason, where.format(row=f"row and row.name == \"{row}\"", named=named)) for name, row, named in some]


IN_OVERLAYS = [
    *rows_of("in-overlay-untold", "What an overlay skips is refused.", OVERLAID, "None", "{row}"),
    *rows_of("in-an-overlay-s-body-untold", "What an overlay skips is refused in its own body.", OVERLAID, "None", "{row} and not self.level"),
    *rows_of("in-an-overlay-s-macro-untold", "What an overlay skips is refused in a macro of it, too.", OVERLAID, "None", "{row} and self.level"),
    *rows_of("value-before-overlay", "The overlay is the reason, whatever the value.", OVERLAID, "NO_SUCH_VALUE", "{row} and not {named}", OF_SOME_VALUES),
    *rows_of("value-in-overlay-untold", "What an overlay skips is refused, also where its row does not name its value.", OVERLAID, "None", "{row} and not {named}", OF_SOME_VALUES),
    *rows_of("named-value-in-overlay-untold", "What an overlay skips is refused, also where its row names its value.", OVERLAID, "None", "{row} and {named}", OF_SOME_VALUES),
    *rows_of("overlay-before-hp-gl", "HP-GL/2 is the reason before an overlay.", SKIPPED, "IN_OVERLAY", "self.in_overlay and {row}"),
    *rows_of("value-before-hp-gl-in-overlay", "HP-GL/2 is the reason in an overlay, too, whatever the value.", SKIPPED, "NO_SUCH_VALUE", "self.in_overlay and {row} and not {named}", OF_SOME_VALUES),
    *(as_overlay(f"{name}-as-overlay", "What an overlay carries out is not refused.", f"self.in_overlay and row.name == \"{row}\"") for name, row in OTHER_ROWS.items()),
    *(other_reason(f"{name}-as-overlay", "What has no row has no other reason in an overlay.", WITHOUT_ROW, "IN_OVERLAY", f"self.in_overlay and self.kind[:3] == \"{kind}\"")
      for name, kind in ROWLESS.items() if name != "foreign-byte"),
    *(other_reason(f"{name}-in-overlay-untold", "What has no row is refused in an overlay, too.", WITHOUT_ROW, "None", f"self.in_overlay and self.kind[:3] == \"{kind}\"")
      for name, kind in ROWLESS.items() if name != "foreign-byte"),
    other_reason("rowless-of-the-page-as-overlay", "What has no row has no other reason in an overlay, also beside the rows of the page.", WITHOUT_ROW, "IN_OVERLAY", "self.in_overlay and self.kind[:6] == \"par &l\""),
    other_reason("rowless-while-an-overlay-is-on", "What has no row has no other reason outside of an overlay, also where one is on.", WITHOUT_ROW, "IN_OVERLAY", "self.state.overlay is not None and not self.in_overlay"),
    other_reason("hp-gl-in-overlay-as-overlay", "What HP-GL/2 skips has no other reason in an overlay.", SKIPPED, "IN_OVERLAY", "self.in_overlay"),
    other_reason("hp-gl-in-overlay-untold", "What HP-GL/2 skips is refused in an overlay, too.", SKIPPED, "None", "self.in_overlay"),
    other_reason("value-as-overlay", "A value that a row does not name has no other reason in an overlay.", "            self.refused = NO_SUCH_VALUE\n", "IN_OVERLAY", "self.in_overlay"),
    other_reason("value-in-overlay-untold", "A value that a row does not name is refused in an overlay, too.", "            self.refused = NO_SUCH_VALUE\n", "None", "self.in_overlay"),
    as_overlay("outside-while-an-overlay-is-on", "A command outside of an overlay is not refused for one that is on.", f"self.state.overlay is not None and {OUTSIDE}"),
    as_overlay("in-a-macro-as-overlay", "A macro that runs outside is no overlay.", f"self.depth and {OUTSIDE}"),
    as_overlay("in-a-macro-while-an-overlay-is-on", "A macro that runs outside is no overlay, also where one is on.", f"self.depth and self.state.overlay is not None and {OUTSIDE}"),
]
SWITCHES = REFUSALS + IN_OVERLAYS + [switch(f"trace-{name}", f"The view tells the {name.replace('-', ' ')} of the state.", T, old, new) for name, old, new in SWAPPED] + [
    switch("trace-tells-all-again", "A field is told where it is another than behind the step before.", T, "    if before is None:\n        return after\n", "    return after\n"),
    switch("trace-tells-first-changes-alone", "The first line tells all fields.", T, "        self.view = None\n", "        self.view = view_of(self.engine.state)\n"),
    switch("trace-tells-objects-whole", "Of an object the fields that changed are told alone.", T, "            told[name] = other\n", "            told[name] = fields\n"),
    switch("trace-places-from-1", "Places are counted from 0.", T, '{"at": at, ', '{"at": at + 1, '),
    switch("trace-exit-has-its-bytes", "The universal exit that is added has 0 bytes.", T, "    yield len(stream), 0, Uel(), EXIT\n", "    yield len(stream), 9, Uel(), EXIT\n"),
    switch("trace-rest-of-no-bytes", "What stands for a rest at the end has the bytes of the rest.", T, "        size = (len(stream) - place) // len(rest)\n", "        size = 0\n"),
    switch("trace-rest-at-its-begin", "Each byte of a rest stands at its own place.", T, "        yield place + number * size, size, command, EXIT\n", "        yield place, size, command, EXIT\n"),
    switch("trace-body-without-its-place", "A step inside a body has the place of the command that started it.", T, "        yield teller.line(at, size)\n    yield", "        yield teller.line(at, size) | ({\"bytes\": 0} if teller.engine.depth else {})\n    yield"),
    switch("trace-depth-from-1", "The depth is how many bodies run.", T, '"depth": engine.depth', '"depth": engine.depth + 1'),
    switch("trace-depth-0", "The depth is how many bodies run.", T, '"depth": engine.depth', '"depth": 0'),
    switch("trace-last-of-recorded", "A command that was recorded is told by its kind.", T, '"last": engine.kind', '"last": engine.last'),
    switch("trace-recorded-untold", "That a command was recorded is told.", T, "engine.last == RECORDED", "False"),
    switch("trace-sheets-of-the-job", "All sheets so far are counted.", T, FIELDS_OF_A_STEP, FIELDS_OF_A_STEP.replace("state.total", "state.since_job")),
    switch("trace-sheets-of-the-step", "All sheets so far are counted.", T, FIELDS_OF_A_STEP, FIELDS_OF_A_STEP.replace("state.total", "sum(isinstance(output, Deliver) for output in outputs)")),
    switch("trace-steps-from-0", "Steps are counted from 1.", T, FIELDS_OF_A_STEP, FIELDS_OF_A_STEP.replace("engine.taken", "engine.taken - 1")),
    switch("trace-y-from-the-edge", "y is counted from the top margin.", T, '"y": state.y,', '"y": state.y + state.top_margin,'),
    switch("trace-x-in-dots", "x is in 1/7200 inch.", T, '"x": state.x,', '"x": state.x // 24,'),
    switch("trace-a-copy-once", "Each copy that goes out is counted.", T, "        delivered = sum(isinstance(output, Deliver) for output in outputs)\n", "        delivered = min(1, sum(isinstance(output, Deliver) for output in outputs))\n"),
    switch("trace-replies-apart", "The replies of a step are joined.", T, "        reply = b\"\".join(output", "        reply = b\" \".join(output"),
    switch("trace-replies-in-utf-8", "Each byte of a reply is the character of its number.", T, 'reply.decode("latin-1")', 'reply.decode(errors="replace")'),
    switch("trace-replies-in-ascii", "A character is told as it is, where JSON does not escape it.", T, "ensure_ascii=False", "ensure_ascii=True"),
    switch("trace-controls-as-they-are", "A control character of a terminal is escaped.", T, ".translate(CONTROLS)", ""),
    switch("trace-delete-as-it-is", "U+007F is the first that is escaped beside those of JSON.", T, "range(0x7F, 0xA0)", "range(0x80, 0xA0)"),
    switch("trace-last-control-as-it-is", "U+009F is the last that is escaped.", T, "range(0x7F, 0xA0)", "range(0x7F, 0x9F)"),
    switch("trace-space-escaped", "U+00A0 is told as it is.", T, "range(0x7F, 0xA0)", "range(0x7F, 0xA1)"),
    switch("trace-keys-as-they-come", "Keys stand in byte order.", T, ", sort_keys=True", ""),
    switch("trace-wide-json", "The JSON is compact.", T, 'separators=(",", ":")', 'separators=(", ", ": ")'),
    switch("trace-zeros-told", "What is 0, none or empty is left out.", T, "for key, value in optional.items() if value}", "for key, value in optional.items()}"),
    switch("trace-no-close", "That a page closes is told.", T, "return {} if before is None else {\"page\": None}", "return {}"),
    switch("trace-close-of-a-page-without-marks", "Of a page without a mark nothing is told when it goes out.", T, "return {} if before is None else {\"page\": None}", "return {\"page\": None}"),
    switch("trace-opened-untold", "That a white page was begun is told.", T, 'else {"opened": [page.width(), page.height()]}', "else {}"),
    switch("trace-opened-again", "A page is begun once.", T, "        opened = {} if page is before else", "        opened = {} if page is None else"),
    switch("trace-opened-as-a-frame", "The page is told as it lies in the printer.", T, '{"opened": [page.width(), page.height()]}', '{"opened": list(pages.frame(page.size, page.orientation))}'),
    switch("trace-patch-of-nothing", "Where no dot changed no patch is told.", T, "{\"page\": patch} if patch else {}", "{\"page\": patch or {}}"),
    switch("trace-patch-untold", "Dots that change are told.", T, "{\"page\": patch} if patch else {}", "{}"),
    switch("trace-white-dots-untold", "Dots that become white are told.", T, "old ^ self.lines.get(line, 0)", "~old & self.lines.get(line, 0)"),
    switch("trace-black-dots-untold", "Dots that become black are told.", T, "old ^ self.lines.get(line, 0)", "old & ~self.lines.get(line, 0)"),
    switch("trace-patch-since-the-begin", "A patch tells what changed in this step.", T, "before, self.before = self.before, {}", "before = self.before"),
    switch("trace-box-of-dots", "A box begins at a whole byte.", T, BOX, BOX.replace("across[0] // 8 * 8", "across[0]")),
    switch("trace-box-past-the-edge", "A box ends at the edge of the page.", T, BOX, BOX.replace("min(page.width(), across[1] // 8 * 8 + 8)", "across[1] // 8 * 8 + 8")),
    switch("trace-box-of-the-first-dots", "A box ends behind the last byte that changed.", T, BOX, BOX.replace("across[1] // 8 * 8 + 8", "across[0] // 8 * 8 + 8")),
    switch("trace-box-without-its-last-line", "A box ends behind the last line that changed.", T, BOX, BOX.replace("down[1] + 1", "max(down[1], down[0] + 1)")),
    switch("trace-patch-turned", "The page is told as it lies in the printer: landscape.", T, "    if page.orientation == pages.LANDSCAPE:\n        rows = columns_of(rows)[::-1]\n", "    if page.orientation == pages.LANDSCAPE:\n        rows = columns_of(rows)\n"),
    switch("trace-patch-turned-and-reversed", "The page is told as it lies in the printer: reverse landscape.", T, "    if page.orientation == pages.REVERSE_LANDSCAPE:\n        rows = columns_of(rows)[::-1]\n", "    if page.orientation == pages.REVERSE_LANDSCAPE:\n        rows = columns_of(rows)\n"),
    switch("trace-patch-reversed", "The page is told as it lies in the printer: reverse portrait.", T, "        rows = [row[::-1] for row in reversed(rows)]\n    if", "        rows = list(reversed(rows))\n    if"),
    switch("trace-dots-from-the-right", "The most significant bit of a byte is the left dot.", T, 'int(row.ljust(8 * wide, "0"), 2)', 'int(row.ljust(8 * wide, "0")[::-1], 2)'),
    switch("trace-rows-in-small-letters", "Rows are told in capital digits.", T, '"%0*X" % (2 * wide', '"%0*x" % (2 * wide'),
    switch("trace-rows-without-zeros", "Rows have all their digits.", T, '"%0*X" % (2 * wide, ', '"%0*X" % (0, '),
    switch("trace-of-the-stream-alone", "With defaults their lines are steps, and places are counted from them.", "program", "trace_lines.lines(front + self.read(source), runs)", "trace_lines.lines(self.read(source), runs)"),
    switch("trace-runs-of-recorded", "Bytes that are recorded stand in no run.", T, "of_a_byte and state.defining is None and mode", "of_a_byte and mode"),
    switch("trace-runs-of-controls", "A control character stands in a run while HP-GL/2 is on alone.", T, "isinstance(command, Control) and state.hpgl", "isinstance(command, Control)"),
    switch("trace-runs-without-controls", "While HP-GL/2 is on a control character stands in a run.", T, " or isinstance(command, Control) and state.hpgl", ""),
    switch("trace-runs-without-another-language", "Bytes of another language stand in a run.", T, "isinstance(command, (Text, Foreign)) and", "isinstance(command, Text) and"),
    switch("trace-runs-with-escapes", "An escape character among bytes of another language stands by itself.", T, " and command != Foreign(ESC)", ""),
    switch("trace-runs-from-an-exit-on", "The first byte behind a universal exit stands by itself.", T, "mode in (PCL, FOREIGN)", "mode != 0"),
    switch("trace-runs-over-pieces", "A run ends with the bytes that are read at a time.", T, "not (counts and at % PIECE)", "not counts"),
    switch("trace-run-at-its-last", "A run stands where its first byte does.", T, '"at": first["at"], "bytes"', '"at": last["at"], "bytes"'),
    switch("trace-run-of-its-last-bytes", "A run has the bytes of all.", T, '"bytes": last["at"] + last["bytes"] - first["at"]', '"bytes": last["bytes"]'),
    switch("trace-run-tells-its-first", "A run tells the last of its steps.", T, "yield last | run", "yield first | run"),
    switch("trace-run-one-short", "A run says how many steps it has.", T, "held[0], held[-1], len(held)", "held[0], held[-1], len(held) - (len(held) > 2)"),
    switch("trace-run-of-one", "A run of one step has that step's line.", T, "| run if steps > 1 else last", "| run"),
]
