"""Macros: definitions, what runs them and how deep, the overlay, and what is no part of a definition."""

from . import switch

REFUSED_IN_OVERLAY = "            self.refused = IN_OVERLAY\n"
NOT_NESTED = "    assert not engine.in_overlay\n    if state.overlay not in state.macros:\n"
NESTED = "    if engine.in_overlay or state.overlay not in state.macros:\n"
OVERLAY_ON = "    engine.in_overlay = True\n    engine.level = 0\n"


def does_in_overlay(name, sentence, row, *deeds, where=""):
    """A row that does something for a command that comes from an overlay, and is told as refused nevertheless; without deeds it has its effect, as it stands."""
    some = "".join(f"                {deed}\n" for deed in deeds or ("yield from row.effect(self, command) or ()",))
    texts = ["engine", REFUSED_IN_OVERLAY, f"            if row.name == \"{row}\"{where}:\n{some}{REFUSED_IN_OVERLAY}"]
    return switch(name, sentence, *texts, *([] if deeds else ["macros", NOT_NESTED, NESTED]))


SWITCHES = [
    switch("macro-id-of-32767-is-none", "The greatest macro ID is 32767.", "table", "    if engine.names(0 <= number(command) <= GREATEST_ID):\n        engine.state.macro_id", "    if engine.names(0 <= number(command) < GREATEST_ID):\n        engine.state.macro_id"),
    switch("macro-id-of-32768", "A macro ID above 32767 has no effect.", "table", "    if engine.names(0 <= number(command) <= GREATEST_ID):\n        engine.state.macro_id", "    if engine.names(0 <= number(command)):\n        engine.state.macro_id"),
    switch("macro-id-below-zero", "A negative macro ID has no effect.", "table", "    if engine.names(0 <= number(command) <= GREATEST_ID):\n        engine.state.macro_id = number(command)", "    if engine.names(number(command) <= GREATEST_ID):\n        engine.state.macro_id = max(0, number(command))"),
    # what is recorded
    switch("definition-carries-out", "What is recorded does nothing else.", "engine", "        elif self.state.hpgl and not passes", "        if self.state.hpgl and not passes"),
    switch("definition-records-a-reset", "A reset is not recorded.", "engine", "        return ends and command.value().whole() == 1\n    return isinstance(command, (Uel, PjlLine)) or is_reset(command)\n", "        return ends and command.value().whole() == 1\n    return isinstance(command, (Uel, PjlLine))\n"),
    switch("definition-records-an-exit", "The universal exit is not recorded.", "engine", "        return ends and command.value().whole() == 1\n    return isinstance(command, (Uel, PjlLine)) or is_reset(command)\n", "        return ends and command.value().whole() == 1\n    return isinstance(command, PjlLine) or is_reset(command)\n"),
    switch("definition-passes-escape-sequences", "Each escape sequence of two but the reset is recorded.", "engine", "        return ends and command.value().whole() == 1\n    return isinstance(command, (Uel, PjlLine)) or is_reset(command)\n", "        return ends and command.value().whole() == 1\n    return isinstance(command, (Uel, PjlLine, Escape))\n"),
    switch("definition-passes-a-form-feed", "A form feed is recorded.", "engine", "        return ends and command.value().whole() == 1\n    return isinstance(command, (Uel, PjlLine)) or is_reset(command)\n", "        return ends and command.value().whole() == 1\n    return isinstance(command, (Uel, PjlLine)) or is_reset(command) or kind(command) == \"ctl 0C\"\n"),
    switch("definition-passes-macro-control", "Macro control but its end is recorded.", "engine", "        return ends and command.value().whole() == 1\n", "        return ends and command.value().whole() != 0\n"),
    switch("definition-passes-macro-ids", "A macro ID is recorded.", "engine", "        return ends and command.value().whole() == 1\n", "        return (ends and command.value().whole() == 1) or kind(command) == \"par &fY\"\n"),
    switch("definition-ends-by-1-alone", "A definition is ended by the whole part of the value.", "engine", "        return ends and command.value().whole() == 1\n", "        return ends and command.value().tenthousandths == 10000\n"),
    switch("definition-drops-data", "A command is recorded with its data.", "engine", "            self.state.definition.append(command)\n", "            self.state.definition.append(command._replace(data=b\"\") if isinstance(command, Param) else command)\n"),
    switch("definition-drops-text", "What has no effect is recorded and is a step, too.", "engine", "            self.state.definition.append(command)\n", "            if type(command).__name__ not in (\"Text\", \"Broken\"):\n                self.state.definition.append(command)\n"),
    switch("definition-backwards", "A body runs in the order in which it was recorded.", "macros", "tuple(state.definition)\n", "tuple(reversed(state.definition))\n"),
    # macro control
    switch("begin-in-a-body", "A definition does not begin in a running body.", "macros", "    if engine.depth == 0:\n", "    if True:\n"),
    switch("begin-in-an-overlay", "A definition does not begin in an overlay.", "macros", "    if engine.depth == 0:\n", "    if engine.level == 0:\n"),
    switch("begin-deletes", "The older macro stays until the definition ends.", "macros", "        engine.state.definition = []\n", "        engine.state.definition = []\n        engine.state.macros.pop(engine.state.macro_id, None)\n"),
    switch("end-defines-the-id-of-then", "A macro has the ID that its definition began with.", "macros", "        state.macros[state.defining] = tuple", "        state.macros[state.macro_id] = tuple", "engine", "            self.last = RECORDED\n", "            self.last = RECORDED\n            if kind(command) == \"par &fY\" and command.value().whole() >= 0:\n                self.state.macro_id = command.value().whole()\n"),
    switch("end-adds-to-the-older", "A macro replaces an older one.", "macros", "        state.macros[state.defining] = tuple(state.definition)\n", "        state.macros[state.defining] = state.macros.get(state.defining, ()) + tuple(state.definition)\n"),
    switch("end-keeps-the-older", "A macro replaces an older one, and not the other way round.", "macros", "        state.macros[state.defining] = tuple(state.definition)\n", "        state.macros.setdefault(state.defining, tuple(state.definition))\n"),
    switch("end-makes-permanent", "A macro that is defined is temporary.", "macros", "        state.permanent_macros.discard(state.defining)\n        state.defining = None\n", "        state.permanent_macros.add(state.defining)\n        state.defining = None\n"),
    switch("end-leaves-permanent", "A macro that is defined again is temporary.", "macros", "        state.permanent_macros.discard(state.defining)\n        state.defining = None\n", "        state.defining = None\n"),
    switch("execute-has-no-effect", "Macro control 2 executes.", "macros", "        yield from run_macro(engine, body)\n\n\ndef call", "        yield from ()\n\n\ndef call"),
    switch("call-has-no-effect", "Macro control 3 calls.", "macros", "        kept = state.kept()\n        state.end_raster()\n        yield from run_macro(engine, body)\n", "        kept = state.kept()\n        state.end_raster()\n        yield from ()\n"),
    switch("execute-is-a-call", "An execute keeps what the body changed.", "macros", "    elif number == EXECUTE:\n        return execute(engine)\n", "    elif number == EXECUTE:\n        return call(engine)\n"),
    switch("call-is-an-execute", "A call restores what the body changed.", "macros", "    elif number == CALL:\n        return call(engine)\n", "    elif number == CALL:\n        return execute(engine)\n"),
    switch("execute-ends-raster", "An execute leaves raster graphics on.", "macros", "    if body is not None:\n        yield from run_macro(engine, body)\n\n\ndef call", "    if body is not None:\n        engine.state.end_raster()\n        yield from run_macro(engine, body)\n\n\ndef call"),
    switch("call-of-none-ends-raster", "A call of a macro that there is not has no effect.", "macros", "def call(engine):\n    state = engine.state\n", "def call(engine):\n    state = engine.state\n    state.end_raster()\n"),
    switch("empty-call-has-no-effect", "A call of an empty macro puts raster graphics off, too.", "macros", "    if body is not None:\n        kept", "    if body:\n        kept"),
    switch("overlay-on-runs-at-once", "Macro control 4 puts the overlay on, and runs nothing then.", "macros", "        state.overlay = state.macro_id\n", "        state.overlay = state.macro_id\n        return execute(engine)\n"),
    switch("overlay-on-of-0", "The overlay is the macro of the ID.", "macros", "        state.overlay = state.macro_id\n", "        state.overlay = 0\n"),
    switch("overlay-on-of-none-has-no-effect", "The overlay may be a macro that is defined later.", "macros", "    elif number == OVERLAY_ON:\n        state.overlay = state.macro_id\n", "    elif number == OVERLAY_ON:\n        state.overlay = state.macro_id if state.macro_id in state.macros else state.overlay\n"),
    switch("overlay-off-has-no-effect", "Macro control 5 puts the overlay off.", "macros", "    elif number == OVERLAY_OFF:\n        state.overlay = None\n", "    elif number == OVERLAY_OFF:\n        pass\n"),
    switch("overlay-off-of-its-id-alone", "Macro control 5 puts the overlay off, whatever the ID.", "macros", "    elif number == OVERLAY_OFF:\n        state.overlay = None\n", "    elif number == OVERLAY_OFF:\n        state.overlay = None if state.macro_id == state.overlay else state.overlay\n"),
    switch("overlay-of-an-id-as-it-was", "The overlay is what its ID stands for when a page closes.", "macros", "        state.overlay = state.macro_id\n", "        state.overlay = -1\n        state.macros[-1] = state.macros.get(state.macro_id, ())\n"),
    switch("delete-all-leaves-permanent", "Macro control 6 deletes permanent macros, too.", "macros", "        state.macros.clear()\n        state.permanent_macros.clear()\n", "        state.delete_temporary_macros()\n"),
    switch("delete-all-has-no-effect", "Macro control 6 deletes all macros.", "macros", "        state.macros.clear()\n        state.permanent_macros.clear()\n", "        pass\n"),
    switch("delete-temporary-deletes-all", "Macro control 7 leaves permanent macros.", "macros", "    elif number == DELETE_TEMPORARY:\n        state.delete_temporary_macros()\n", "    elif number == DELETE_TEMPORARY:\n        state.macros.clear()\n        state.permanent_macros.clear()\n"),
    switch("delete-temporary-has-no-effect", "Macro control 7 deletes temporary macros.", "macros", "    elif number == DELETE_TEMPORARY:\n        state.delete_temporary_macros()\n", "    elif number == DELETE_TEMPORARY:\n        pass\n"),
    switch("delete-has-no-effect", "Macro control 8 deletes the macro of the ID.", "macros", "        state.macros.pop(state.macro_id, None)\n", ""),
    switch("delete-deletes-all", "Macro control 8 deletes the macro of the ID alone.", "macros", "        state.macros.pop(state.macro_id, None)\n", "        state.macros.clear()\n"),
    switch("delete-leaves-permanent", "Macro control 8 deletes a permanent macro, too.", "macros", "        state.macros.pop(state.macro_id, None)\n        state.permanent_macros.discard(state.macro_id)\n", "        if state.macro_id not in state.permanent_macros:\n            state.macros.pop(state.macro_id, None)\n"),
    switch("deleted-macro-stays-permanent", "A macro that is deleted is permanent no more.", "macros", "        state.macros.pop(state.macro_id, None)\n        state.permanent_macros.discard(state.macro_id)\n", "        state.macros.pop(state.macro_id, None)\n",
           "macros", "        state.permanent_macros.discard(state.defining)\n        state.defining = None\n", "        state.defining = None\n"),
    switch("temporary-has-no-effect", "Macro control 9 makes a macro temporary.", "macros", "        state.permanent_macros.discard(state.macro_id)\n    elif number == MAKE_PERMANENT", "        pass\n    elif number == MAKE_PERMANENT"),
    switch("permanent-has-no-effect", "Macro control 10 makes a macro permanent.", "macros", "        state.permanent_macros.add(state.macro_id)\n", "        pass\n"),
    switch("permanent-before-a-definition", "Macro control 10 makes a macro permanent that is there.", "macros", "    elif number == MAKE_PERMANENT and state.macro_id in state.macros:\n", "    elif number == MAKE_PERMANENT:\n", "macros", "        state.permanent_macros.discard(state.defining)\n        state.defining = None\n", "        state.defining = None\n"),
    switch("permanent-by-11", "Macro control has no effect above 10.", "macros", "    elif number == MAKE_PERMANENT and state", "    elif number >= MAKE_PERMANENT and state"),
    # how deep
    switch("one-level", "Two macros run at once.", "macros", "MOST_LEVELS = 2\n", "MOST_LEVELS = 1\n"),
    switch("three-levels", "Two macros run at once at most.", "macros", "MOST_LEVELS = 2\n", "MOST_LEVELS = 3\n"),
    switch("no-level-in-an-overlay", "One macro may run in an overlay.", "macros", "MOST_LEVELS_IN_OVERLAY = 1", "MOST_LEVELS_IN_OVERLAY = 0"),
    switch("two-levels-in-an-overlay", "One macro at most runs in an overlay.", "macros", "MOST_LEVELS_IN_OVERLAY = 1", "MOST_LEVELS_IN_OVERLAY = 2"),
    switch("levels-outside-count-in-an-overlay", "Macros that run outside do not count in an overlay.", "macros", OVERLAY_ON, "    engine.in_overlay = True\n"),
    switch("overlay-forgets-the-macros-outside", "Behind an overlay the macros outside count as before it.", "macros", "    engine.in_overlay = False\n    engine.level = level\n", "    engine.in_overlay = False\n"),
    switch("ended-macros-make-room", "A macro that has ended leaves room for one.", "macros", "    engine.level -= 1\n", "    engine.level -= 2\n"),
    switch("overlay-counts-outside", "An overlay does not count among the macros outside.", "macros", "    engine.in_overlay = False\n    engine.level = level\n", "    engine.in_overlay = False\n    engine.level = level + 1\n"),
    switch("no-overlay-in-a-macro", "An overlay runs under a page that closes inside a macro, too.", "macros", "    if state.overlay not in state.macros:\n", "    if state.overlay not in state.macros or engine.level == 1:\n"),
    switch("no-overlay-in-a-second-macro", "An overlay runs under a page that closes inside a second macro, too.", "macros", "    if state.overlay not in state.macros:\n", "    if state.overlay not in state.macros or engine.level == 2:\n"),
    switch("three-bodies", "In an overlay under a page of a second macro a macro may run: four bodies.", "macros", "    if engine.level >= most:\n", "    if engine.level >= most or engine.depth >= 3:\n"),
    switch("running-body-is-deleted", "A running body is what it was at its start.", "macros", "    for command in body:\n        yield\n", "    number = next((number for number, each in engine.state.macros.items() if each is body), None)\n    for command in body:\n        if engine.state.macros.get(number) is not body:\n            break\n        yield\n"),
    switch("body-ends-a-step-late", "A body ends in the step of its last command.", "macros", "        yield from engine.run(command)\n    engine.depth -= 1\n", "        yield from engine.run(command)\n    if body:\n        yield\n    engine.depth -= 1\n"),
    switch("empty-body-is-a-step", "An empty body ends in the step that started it.", "macros", "    engine.depth += 1\n    for command in body:\n", "    engine.depth += 1\n    if not body:\n        yield\n    for command in body:\n"),
    # in an overlay
    does_in_overlay("form-feed-closes-in-an-overlay", "A form feed has no effect in an overlay.", "FF"),
    does_in_overlay("form-feed-returns-in-an-overlay", "A form feed in an overlay does not go to the left margin.", "FF", "if self.state.line_termination in (2, 3):", "    table.to_left_margin(self.state)"),
    does_in_overlay("form-feed-goes-home-in-an-overlay", "A form feed in an overlay does not move the cursor down.", "FF", "self.state.move(self.state.x, self.state.home_line())"),
    does_in_overlay("form-feed-ends-raster-in-an-overlay", "A form feed in an overlay leaves raster graphics on.", "FF", "self.state.end_raster()"),
    switch("line-feed-closes-in-an-overlay", "A line feed never closes in an overlay.", "table", "    if state.y + distance > limit and not engine.in_overlay:\n", "    if state.y + distance > limit:\n", "macros", NOT_NESTED, NESTED),
    switch("line-feed-goes-home-in-an-overlay", "A line feed past the text area in an overlay moves down, as far as the page.", "table", "        yield from engine.close_page()\n        state.move(state.x, state.home_line())\n    else:\n", "        yield from engine.close_page()\n        state.move(state.x, state.home_line())\n    elif engine.in_overlay and state.y + distance > limit:\n        state.move(state.x, state.home_line())\n    else:\n"),
    switch("line-feed-stays-in-an-overlay", "A line feed past the text area in an overlay moves.", "table", "    else:\n        state.move(state.x, state.y + distance)\n", "    elif state.y + distance <= limit:\n        state.move(state.x, state.y + distance)\n"),
    does_in_overlay("page-size-in-an-overlay", "A page size has no effect in an overlay.", "&lA"),
    does_in_overlay("page-size-puts-the-overlay-off-in-an-overlay", "A page size in an overlay does not put the overlay off.", "&lA", "self.state.overlay = None"),
    does_in_overlay("orientation-in-an-overlay", "An orientation has no effect in an overlay.", "&lO"),
    does_in_overlay("orientation-sets-the-motion-indexes-in-an-overlay", "An orientation in an overlay leaves the motion indexes.", "&lO", "self.state.default_motion()"),
    does_in_overlay("sides-in-an-overlay", "Simplex and duplex have no effect in an overlay.", "&lS"),
    does_in_overlay("sides-change-in-an-overlay", "Simplex and duplex in an overlay do not change the sides.", "&lS", "if table.number(command) in (0, 1, 2):", "    self.state.duplex = table.number(command) != 0"),
    does_in_overlay("eject-in-an-overlay", "The paper source does not close in an overlay.", "&lH"),
    does_in_overlay("eject-goes-home-in-an-overlay", "The paper source in an overlay leaves the cursor.", "&lH", "self.state.move(self.state.x, self.state.home_line())"),
    does_in_overlay("side-in-an-overlay", "The choice of a side does not close in an overlay.", "&aG"),
    does_in_overlay("side-delivers-in-an-overlay", "The choice of the front side in an overlay delivers no front.", "&aG", "if table.number(command) == 1:", "    self.deliver_pending_front()"),
    does_in_overlay("side-makes-a-front-in-an-overlay", "The choice of the back side in an overlay makes no front.", "&aG", "if table.number(command) == 2 and self.state.duplex and self.state.pending_front is None:",
                    "    self.state.pending_front = pages.Bitmap(self.state.size, self.state.orientation)"),
    switch("copies-in-an-overlay", "Copies that an overlay sets are put back before the sheet goes out.", "state", "        for name in KEPT:\n            setattr(self, name, kept[name])\n", "        for name in KEPT:\n            setattr(self, name, kept[name] if name != \"copies\" or not overlaid else self.copies)\n", "state", "    def restore(self, kept):\n", "    def restore(self, kept, overlaid=False):\n", "macros", "    state.end_raster()\n    state.restore(kept)\n    state.place_cursor(x, y)\n", "    state.end_raster()\n    state.restore(kept, True)\n    state.place_cursor(x, y)\n"),
    switch("overlay-marks-another-page", "An overlay marks the page that closes.", "macros", "    yield from run_body(engine, state.macros[state.overlay])\n    engine.in_overlay = False\n", "    page, marked = state.page, state.marked\n    state.page = None\n    yield from run_body(engine, state.macros[state.overlay])\n    state.page, state.marked = page, marked\n    engine.in_overlay = False\n"),
    switch("overlay-over-a-blank-page-alone", "An overlay lies on what the page has.", "macros", "    yield from run_body(engine, state.macros[state.overlay])\n    engine.in_overlay = False\n", "    state.page = None\n    yield from run_body(engine, state.macros[state.overlay])\n    engine.in_overlay = False\n"),
    switch("overlay-runs-once", "The overlay runs at each page close.", "macros", "    engine.in_overlay = False\n    engine.level = level\n", "    engine.in_overlay = False\n    state.overlay = None\n    engine.level = level\n"),
]
