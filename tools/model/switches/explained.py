"""The text of `press explain`: what a remark tells of each command, in which words and order, and where one is left out."""

from . import switch

E = "explain"
MARKS = "marks within {wide} by {self.bottom - self.top} dots at {self.left}, {self.top}"
PARTS = "parts = [*self.page_of(taken.page), *self.counted(taken.steps), *self.moved(last), *self.changed(taken.view), *replied(taken.steps)]"
WIDE = "wide = -(-(self.right - self.left) // 8) * 8"
RECORDED = """        if first.get("recorded"):\n            return [f"recorded in macro {self.view['macros']['defining']}"]\n"""
REFUSED = """        if "refused" in first:\n            return [f"refused: {first['refused']}"]\n"""
OF_PARAMETERS = 'return field_of(command) if command.field else ""'
CLOSES = "return [] if before is None else [CLOSES]"
BOX, WHITE = "box = box_between(before, page)", "if before is None or before.size != page.size:"
TURNED = "    if before.orientation != page.orientation:\n        before, page = upright(before), upright(page)\n"
DOTS = "before.lines.get(line, 0) ^ page.lines.get(line, 0)"
PATCHES = "[step['page'] for step in taken.steps if step.get('page')]"
OF_STEPS = ("Box(min(each['x'] for each in some), min(each['y'] for each in some), max(each['x'] + each['width'] for each in some), "
            "max(each['y'] + each['height'] for each in some), [0, 0])")
PAGE = "        before, self.page = self.page, page\n"
SHOWN_BYTES = 'chr(byte) if 32 <= byte <= 126 else "."'
BYTES = '    return f": {ascii_of(command[0])}" if isinstance(command, (Broken, PjlLine)) else ""\n'
IN_HPGL = "    if refused == IN_HPGL:\n        return refused\n"
LAST_RUN = "        self.run = run_of(taken.steps[-1])\n"
OF_TEXT = "    if refused and step[\"last\"] in A_BYTE:\n        return refused, step[\"last\"]\n"
FIELDS = "            for name, field in sorted(view[group].items()):\n"


def explains(name, sentence, old, new):
    return switch(f"explain-{name}", sentence, E, old, new)


def untold(word, sentence, part):
    """A part of a remark that is left out."""
    return explains(f"{word}-untold", sentence, PARTS, PARTS.replace(f"*{part}, ", "").replace(f", *{part}]", "]"))


OF_PLACES = [
    explains("places-from-1", "Places are counted from 0.", 'self.remark(f"{taken.at}: {title_of', 'self.remark(f"{taken.at + 1}: {title_of'),
    explains("end-elsewhere", "The end stands behind the last byte.", '{last.at}: {END}', '{last.at + 1}: {END}'),
    explains("end-untold", "Behind the last command stands the remark on the exit.", '        yield self.remark(f"{last.at}: {END}", last)\n', ""),
    explains("end-with-a-line", "The exit that is added has no line.", '        yield self.remark(f"{last.at}: {END}", last)\n', '        yield self.remark(f"{last.at}: {END}", last)\n        yield Line("uel")\n'),
    explains("end-as-a-command", "The end has words of its own.", '{last.at}: {END}', '{last.at}: {title_of(last.command)}'),
    explains("commands-untold", "Behind each remark stands the command.", "        yield Line(line_of_command(taken.command))\n", ""),
    explains("remark-behind-its-command", "A remark stands in front of its command.", '        if run is None or run != self.run:\n            yield remark\n        self.run = run_of(taken.steps[-1])\n        yield Line(line_of_command(taken.command))\n',
             '        yield Line(line_of_command(taken.command))\n        if run is None or run != self.run:\n            yield remark\n        self.run = run_of(taken.steps[-1])\n'),
    switch("explain-of-the-stream-alone", "Lines of defaults are bytes in front of the stream.", "program", "explain.text(front + self.read(source))", "explain.text(self.read(source))"),
]
OF_TITLES = [
    explains("no-titles", "A command is told by what HP calls it.", "    known = TITLES.get(kind(command))\n", "    known = None\n"),
    explains("title-by-the-first-letters", "The kind has the end of a parameter.", "    known = TITLES.get(kind(command))\n", "    known = TITLES.get(kind(command)[:-1]) or TITLES.get(kind(command))\n    known = known if len(kind(command)) > 6 else TITLES.get(kind(command)[:5] + \"X\", known)\n"),
    explains("other-title", "What is not in HP's list is told so.", "    return known or OTHER_TITLE\n", "    return known or kind(command)\n"),
    explains("symbol-sets-untold", "A parameter with a parenthesis and without a group is a symbol set.", "known = SYMBOL_SETS.get(chr(command.character))", "known = None"),
    explains("symbol-sets-of-groups", "A parameter that has a group is no symbol set.", " and isinstance(command, Param) and command.group is None:\n", " and isinstance(command, Param):\n"),
    explains("symbol-sets-first", "A title goes before that of a symbol set.", "    if known is None and isinstance(command, Param)", "    if isinstance(command, Param) and chr(command.character) in SYMBOL_SETS"),
    explains("secondary-as-primary", "A closing parenthesis is the secondary symbol set.", '")": "Secondary Symbol Set"', '")": "Primary Symbol Set"'),
]
OF_VALUES = [
    explains("value-untold", "A parameter's value is told.", OF_PARAMETERS, 'return ""'),
    explains("empty-value", "A parameter without a value field has no value told.", OF_PARAMETERS, "return field_of(command)"),
    explains("empty-value-0", "A parameter without a value field has no value told, not 0.", OF_PARAMETERS, "return field_of(command if command.field else command._replace(field=b\"0\"))"),
    explains("value-as-a-number", "The value field is told as it stands.", "{command.field.decode()}", "{command.value().whole()}"),
    explains("value-with-its-data", "Data is no part of the value.", "    return f\": {command.field.decode()}\" +", "    return f\": {command.field.decode()}{' ' + command.data.hex() if command.data else ''}\" +"),
    explains("no-meaning", "A meaning stands behind the value.", "    meaning = MEANINGS.get((kind(command), command.value().whole()))\n", '    meaning = ""\n'),
    explains("meaning-of-whole-values", "The whole part of a value has the meaning.", "    meaning = MEANINGS.get((kind(command), command.value().whole()))\n",
             "    meaning = MEANINGS.get((kind(command), command.value().tenthousandths / 10000))\n"),
    explains("meaning-of-the-spelling", "The whole part of a value has the meaning, however it is spelled.", "    meaning = MEANINGS.get((kind(command), command.value().whole()))\n",
             "    meaning = MEANINGS.get((kind(command), int(command.field) if command.field.isdigit() and command.field[:1] != b\"0\" or command.field == b\"0\" else None))\n"),
    explains("meaning-below", "The whole part of a value is that towards zero.", "command.value().whole()", "command.value().tenthousandths // 10000"),
    explains("meaning-of-any", "A meaning is told where the whole part has one.", '(f" ({meaning})" if meaning else "")', 'f" ({meaning})"'),
    explains("meaning-without-parentheses", "A meaning stands in parentheses.", 'f" ({meaning})"', 'f", {meaning}"'),
    explains("text-untold", "Of text the byte is told.", "    if isinstance(command, (Text, Foreign)):\n        return f", "    if isinstance(command, Foreign):\n        return f"),
    explains("another-language-untold", "Of another language the byte is told.", "    if isinstance(command, (Text, Foreign)):\n        return f", "    if isinstance(command, Text):\n        return f"),
    explains("broken-bytes-untold", "Of broken bytes these are told.", BYTES, BYTES.replace("(Broken, PjlLine)", "PjlLine")),
    explains("pjl-line-untold", "Of a PJL line the bytes are told.", BYTES, BYTES.replace("(Broken, PjlLine)", "Broken")),
    explains("pjl-line-without-its-end", "The end of a PJL line is told with it.", BYTES, BYTES.replace("ascii_of(command[0])", 'ascii_of(command[0].rstrip())')),
    explains("bytes-of-31", "31 is no byte that is shown as it is.", SHOWN_BYTES, SHOWN_BYTES.replace("32 <=", "31 <=")),
    explains("bytes-of-32-as-stops", "32 is shown as it is.", SHOWN_BYTES, SHOWN_BYTES.replace("32 <=", "33 <=")),
    explains("bytes-of-126-as-stops", "126 is shown as it is.", SHOWN_BYTES, SHOWN_BYTES.replace("<= 126", "<= 125")),
    explains("bytes-of-127", "127 is shown as a full stop.", SHOWN_BYTES, SHOWN_BYTES.replace("<= 126", "<= 127")),
    explains("bytes-of-160", "No byte above 126 is shown as it is.", SHOWN_BYTES, SHOWN_BYTES.replace("<= 126", "<= 126 or byte >= 160")),
    explains("bytes-left-out", "Another byte is shown as a full stop.", SHOWN_BYTES, SHOWN_BYTES.replace('"."', '""')),
    explains("59-bytes", "60 bytes are shown.", "SHOWN = 60", "SHOWN = 59"),
    explains("61-bytes", "Of more than 60 bytes the first 60 are shown.", "SHOWN = 60", "SHOWN = 61"),
    explains("last-bytes", "Of more than 60 bytes the first are shown.", "data[:SHOWN]", "data[-SHOWN:]"),
    explains("more-bytes-told", "That there are more than 60 bytes is not told.", 'for byte in data[:SHOWN])', 'for byte in data[:SHOWN]) + ".." * (len(data) > SHOWN)'),
]
OF_EFFECTS = [
    explains("recorded-untold", "That a command was recorded is told.", RECORDED, ""),
    explains("recorded-in-a-macro", "The number of the macro is told.", "recorded in macro {self.view['macros']['defining']}", "recorded in a macro"),
    explains("recorded-without-its-value", "What is recorded has its value told.", "        if run is None or run != self.run:\n", '        if taken.steps[0].get("recorded"):\n            remark = remark._replace(front=f"; at {taken.at}: {title_of(taken.command)};{remark.front.rpartition(\';\')[2]}")\n        if run is None or run != self.run:\n'),
    explains("refused-untold", "That a command was refused is told.", REFUSED, ""),
    explains("refused-without-why", "Why a command was refused is told.", "refused: {first['refused']}", "refused"),
    explains("no-close", "That the page closes is told.", CLOSES, "return []"),
    explains("close-of-any-page", "Where no page was open before, none closes, though one was opened meanwhile.", "        parts = [*self", "        closes = taken.page is None and self.page is None and any(step.get(\"page\", 0) is None for step in taken.steps)\n        parts = [*[CLOSES] * closes, *self"),
    explains("close-of-any-sheet", "Where no page was open before, none closes, though a sheet goes out.", "        parts = [*self", "        closes = self.page is None and self.sheets != last[\"sheets\"]\n        parts = [*[CLOSES] * closes, *self"),
    explains("close-with-another-page", "A page that closes is not told where another one is open behind the command.", "        parts = [*self", "        closes = None not in (taken.page, self.page) and any(step.get(\"page\", 0) is None for step in taken.steps)\n        parts = [*[CLOSES] * closes, *self"),
    explains("no-marks", "What a command marks is told.", "return [] if box is None else [box]", "return []"),
    explains("marks-of-all-steps", "What bodies mark and take away again is not told.", PARTS, PARTS.replace("*self.page_of(taken.page), ", f"*(lambda told, some: [{OF_STEPS}] if some and taken.page is not None else told)(self.page_of(taken.page), {PATCHES}), ")),
    explains("marks-of-the-last-step", "The page behind all steps is compared.", PARTS, PARTS.replace("*self.page_of(taken.page), ", f"*(lambda told, some: [{OF_STEPS}] if some and taken.page is not None else told)(self.page_of(taken.page), {PATCHES}[-1:]), ")),
    explains("marks-of-the-first-step", "The page behind all steps is compared.", PARTS, PARTS.replace("*self.page_of(taken.page), ", f"*(lambda told, some: [{OF_STEPS}] if some and taken.page is not None else told)(self.page_of(taken.page), {PATCHES}[:1]), ")),
    explains("marks-of-the-page", "A page is compared with the one that was open before.", BOX, "box = box_between(None, page)"),
    explains("marks-of-another-page", "A page that stands in place of another one is compared with it, and not with a white one.", "        parts = [*self", "        if any(step.get(\"page\", 0) is None for step in taken.steps) and taken.page is not None:\n            self.page = None\n        parts = [*self"),
    explains("marks-of-the-first-page", "A page is compared with a white one where none was open.", BOX, "box = before and box_between(before, page)"),
    explains("marks-across-sizes", "A page is compared with a white one where one of another size was open.", WHITE, "if before is None:"),
    explains("marks-of-one-size", "A page is compared with a white one where one of another size was open.", BOX, "box = box_between(before, page) if before is None or before.size == page.size else None"),
    explains("marks-on-the-larger-page", "A page is compared with a white one where one of another size was open, be it larger or smaller.", WHITE, "if before is None or before.size < page.size:"),
    explains("marks-by-frame-lines", "Pages are compared as they lie on paper.", TURNED, ""),
    explains("marks-of-turned-pages-on-white", "A page that lies turned is compared with the one that was open before.", TURNED, "    if before.orientation != page.orientation:\n        before = pages.Bitmap(page.size, page.orientation)\n"),
    explains("marks-of-upright-pages-alone", "Both pages are compared as they lie on paper.", TURNED, TURNED.replace("upright(page)", "page")),
    explains("marks-mirrored", "A page lies on paper with its first column left.", "int(dots[::-1], 2)", "int(dots, 2)"),
    explains("marks-where-all-is-white", "Where a page does not differ nothing is told.", "if differing else None", "if differing else Box(0, 0, 0, 0, [page.width(), page.height()])"),
    explains("marks-of-black-dots", "A dot differs that was black and is white.", DOTS, "~before.lines.get(line, 0) & page.lines.get(line, 0)"),
    explains("marks-of-white-dots", "A dot differs that was white and is black.", DOTS, "before.lines.get(line, 0) & ~page.lines.get(line, 0)"),
    explains("marks-of-all-dots", "A dot that is black on both pages does not differ.", DOTS, "before.lines.get(line, 0) | page.lines.get(line, 0)"),
    explains("marks-of-lines-before", "A line that was white may differ.", "{*before.lines, *page.lines}", "{*(before.lines or page.lines)}"),
    explains("marks-of-lines-behind", "A line that is white may differ.", "{*before.lines, *page.lines}", "{*page.lines}"),
    explains("marks-since-any-page", "The page is compared with that before the same command.", PAGE, "        before, self.page = self.page, self.page or page\n"),
    explains("marks-up-to-the-edge", "The width is a multiple of eight, also past the edge of the page.", WIDE, "wide = self.right - self.left"),
    explains("marks-in-bytes", "The width is told in dots.", WIDE, WIDE.replace(" * 8", "")),
    explains("marks-by-the-last-column", "The width is told, and not the last column.", MARKS, MARKS.replace("{wide}", "{self.left + wide}")),
    explains("marks-by-the-last-line", "The height is told, and not the last line.", MARKS, MARKS.replace("self.bottom - self.top}", "self.bottom}")),
    explains("marks-y-before-x", "X stands before Y.", MARKS, MARKS.replace("at {self.left}, {self.top}", "at {self.top}, {self.left}")),
    explains("marks-height-first", "The width stands before the height.", MARKS, "marks within {self.bottom - self.top} by {wide} dots at {self.left}, {self.top}"),
    explains("sheets-of-the-command", "Of sheets those before and behind are told.", "sheets {self.sheets} to {sheets}", "sheets 0 to {sheets - self.sheets}"),
    explains("sheets-always", "Sheets are told where some were handed out.", "        if sheets != self.sheets:\n", "        if True:\n"),
    explains("runs-untold", "That bodies ran is told.", "        if commands:\n", "        if False:\n"),
    explains("runs-always", "That bodies ran is told where they did.", "        if commands:\n", "        if True:\n"),
    explains("runs-with-itself", "The command that starts the bodies is not counted.", "len(steps) - 1", "len(steps)"),
    explains("runs-before-sheets", "Sheets stand before the commands that ran.", '        if sheets != self.sheets:\n            yield f"sheets {self.sheets} to {sheets}"\n        if commands:\n            yield f"runs {commands} recorded commands"\n',
             '        if commands:\n            yield f"runs {commands} recorded commands"\n        if sheets != self.sheets:\n            yield f"sheets {self.sheets} to {sheets}"\n'),
    explains("y-before-x", "x stands before y.", "    def moved(self, last):\n", "    def moved(self, last):\n        if last[\"y\"] != self.y:\n            yield f\"y {self.y} to {last['y']}\"\n            self.y = last[\"y\"]\n"),
    explains("x-by-its-way", "Of x both places are told.", "x {self.x} to {last['x']}", "x {self.x} to {last['x'] - self.x}"),
    explains("y-by-its-way", "Of y both places are told.", "y {self.y} to {last['y']}", "y {self.y} to {last['y'] - self.y}"),
    explains("cursor-in-dots", "The cursor is told in 1/7200 inch.", "x {self.x} to {last['x']}", "x {self.x // 24} to {last['x'] // 24}"),
    untold("sheets-and-runs", "Sheets, and commands that ran, are told.", "self.counted(taken.steps)"),
    untold("moves", "Where the cursor moved is told.", "self.moved(last)"),
    untold("fields", "Fields that changed are told.", "self.changed(taken.view)"),
    untold("replies", "A reply is told.", "replied(taken.steps)"),
    explains("fields-before-the-cursor", "The cursor stands before the fields.", "*self.moved(last), *self.changed(taken.view)", "*self.changed(taken.view), *self.moved(last)"),
    explains("replies-before-fields", "Replies stand behind the fields.", "*self.changed(taken.view), *replied(taken.steps)", "*replied(taken.steps), *self.changed(taken.view)"),
    explains("cursor-before-sheets", "Sheets and what ran stand before the cursor.", "*self.counted(taken.steps), *self.moved(last)", "*self.moved(last), *self.counted(taken.steps)"),
    explains("nothing-untold", "That nothing changed is told.", "self.did(taken) or [NOTHING]", "self.did(taken)"),
    explains("nothing-of-what-runs-alone", "What ran bodies that changed nothing does not say so beside.", "self.did(taken) or [NOTHING]",
             "(lambda did: did + [NOTHING] * (not did or did[0].startswith('runs ') and len(did) == 1 if not isinstance(did and did[0], Box) else False))(self.did(taken))"),
    explains("replies-of-the-first-step", "All replies of a command are told.", 'step.get("reply", "") for step in steps)', 'step.get("reply", "") for step in steps[:1])'),
    explains("steps-of-a-body", "What a body does is told of the command that ran it.", "last = taken.steps[0], taken.steps[-1]", "last = taken.steps[0], taken.steps[0]"),
]
OF_FIELDS = [
    explains("fields-without-groups", "A field has its group before it.", "{group}.{name} {shown(before)}", "{name} {shown(before)}"),
    explains("fields-backwards", "Fields stand in the order of a trace.", FIELDS, FIELDS.replace("sorted(view[group].items())", "sorted(view[group].items(), reverse=True)")),
    explains("groups-backwards", "Groups stand in the order of a trace.", "for group in sorted(view):", "for group in sorted(view, reverse=True):"),
    explains("fields-as-they-come", "Fields stand in the order of a trace, and not in that of its tables.", FIELDS, FIELDS.replace("sorted(view[group].items())", "view[group].items()")),
    explains("all-fields", "A field is told where it changed.", "                if field != before:\n", "                if True:\n"),
    explains("fields-by-what-they-are-now", "Of a field both values are told.", "{shown(before)} to {shown(field)}", "{shown(field)}"),
    explains("flags-as-in-json", "A flag is on or off.", 'return "on" if field else "off"', "return str(field).lower()"),
    explains("flags-by-numbers", "A flag is on or off.", 'return "on" if field else "off"', "return str(int(field))"),
    explains("none-as-null", "Where there is no number stands none.", '"none" if field is None', '"null" if field is None'),
    explains("0-as-none", "0 is a number.", '"none" if field is None', '"none" if not field'),
    explains("pushed-places", "Of positions that were pushed the count is told.", 'f"{len(field)} pushed"', 'f"{field} pushed"'),
    explains("pushed-count-alone", "The count of positions that were pushed is told as such.", 'f"{len(field)} pushed"', 'f"{len(field)}"'),
]
OF_RUNS = [
    explains("no-runs", "A run of text has one remark.", "        if run is None or run != self.run:\n", "        if True:\n"),
    explains("text-without-runs", "Text stands in a run.", 'A_BYTE = ("txt", "for")', 'A_BYTE = ("for",)'),
    explains("another-language-without-runs", "Bytes of another language stand in a run.", 'A_BYTE = ("txt", "for")', 'A_BYTE = ("txt",)'),
    explains("hp-gl-without-runs", "What HP-GL/2 skips stands in a run.", IN_HPGL, IN_HPGL.replace("return refused", "return None")),
    explains("hp-gl-by-kinds", "All that HP-GL/2 skips stands in one run.", IN_HPGL, IN_HPGL.replace("return refused", 'return refused, step["last"]')),
    explains("hp-gl-of-text-alone", "A command that HP-GL/2 skips stands in the run, too.", IN_HPGL, ""),
    explains("runs-of-anything", "What is no byte of text or of another language has a remark of its own.", OF_TEXT, '    if refused:\n        return refused, step["last"]\n'),
    explains("runs-of-any-kind", "Text is not like what has no row.", OF_TEXT, "    if refused:\n        return refused\n"),
    explains("runs-of-any-reason", "Text that was refused for another reason begins a run.", IN_HPGL + OF_TEXT, '    if refused and step["last"] in A_BYTE:\n        return step["last"]\n' + IN_HPGL),
    explains("runs-of-broken-bytes", "Broken bytes have a remark each.", 'A_BYTE = ("txt", "for")', 'A_BYTE = ("txt", "for", "brk")'),
    explains("runs-of-recorded-text", "Text that is recorded has a remark each.", OF_TEXT, OF_TEXT.replace("if refused and", "if")),
    explains("runs-over-others", "A run ends with another command.", LAST_RUN, "        self.run = run_of(taken.steps[-1]) or self.run\n"),
    explains("runs-of-the-stream-alone", "A body may begin a run.", LAST_RUN, "        self.run = run_of(taken.steps[0])\n"),
    explains("runs-without-bodies", "What a body begins goes on behind it.", LAST_RUN, "        self.run = run if len(taken.steps) == 1 else None\n"),
    explains("runs-of-any-step-of-a-body", "A body's last step begins a run, and none before it.", LAST_RUN, "        self.run = next((run_of(step) for step in reversed(taken.steps) if run_of(step)), None)\n"),
    explains("runs-of-macros-alone", "An overlay may begin a run, too.", LAST_RUN, '        self.run = run_of(taken.steps[-1]) if len(taken.steps) == 1 or taken.steps[0]["last"] == "par &fX" else None\n'),
    explains("runs-of-the-outer-body", "A macro that runs within one may begin a run.", LAST_RUN, '        self.run = run_of(taken.steps[-1]) if max(step["depth"] for step in taken.steps) < 2 else None\n'),
]
SWITCHES = OF_PLACES + OF_TITLES + OF_VALUES + OF_EFFECTS + OF_FIELDS + OF_RUNS
