"""Sentences as a second reader found them in the rules, who had not seen the other switches: those that none of these has."""

from . import switch
from .macros import NESTED, NOT_NESTED, does_in_overlay
from .pages import EJECT

FOUND = "    found = with_data(mode.character, mode.group, field, end, stream, after_field + 1)\n"
COUNTED = "        count = max(0, read_value(field).whole())\n    if place"
DATA = "    data = stream[place:place + count]\n    return Param(character, group, field, end, data), place + count\n"
UNGROUPED = "    after_field = field_end(stream, field_start)\n    if after_field == len(stream):\n        return None\n    end = stream[after_field]\n"
PAIRED = "    after_field = field_end(stream, field_start)\n    if after_field == len(stream):\n        return None\n    parameter = stream[after_field]\n"
OPENED = "    if field_end(stream, place) == place and not is_parameter(stream[place]):\n        return head_pcl(stream, place)\n"
FOREIGN_EXIT = "    if stream.startswith(UNIVERSAL_EXIT, place):\n        return Uel(), place + len(UNIVERSAL_EXIT), EXIT\n    rest"
FOREIGN_BYTE = "    return Foreign(stream[place]), place + 1, FOREIGN\n"

NUMBERS = [
    switch("greatest-value-with-its-fraction", "A value above 65535 becomes 65535, and its fraction goes.", "values", "GREATEST = 65535 * 10000", "GREATEST = 65535 * 10000 + 9999"),
    switch("least-value-with-its-fraction", "A value below -32767 becomes -32767, and its fraction goes.", "values", "LEAST = -32767 * 10000", "LEAST = -32767 * 10000 - 9999"),
    switch("empty-field-is-signed", "An empty field has no sign.", "values", 'sign != b"")', 'sign != b"" or not field)'),
    switch("sign-alone-breaks", "A field may be a sign alone.", "commands", "    if not is_parameter(parameter):\n", "    if not is_parameter(parameter) or stream[field_start:after_field] in (b\"+\", b\"-\"):\n"),
    switch("field-with-a-sign-behind-its-digits", "A sign stands in front of the digits alone.", "values", "([0-9]*)(?:", "([0-9]*)[+-]?(?:"),
    switch("field-with-spaces-in-front", "A field has no space.", "values", 'rb"([+-]?)', 'rb" *([+-]?)'),
    switch("minus-of-the-whole-part-alone", "A minus is that of the fraction, too.", "values", "        number = -number\n", "        number = int(fraction) - int(digits or b\"0\") * 10000\n"),
]

COMMANDS = [
    switch("long-line-ends-in-the-language", "Behind a line that is too long its tail is broken, and is no text.", "commands", "return Broken(line), place + LONGEST_LINE, TAIL", "return Broken(line), place + LONGEST_LINE, PCL"),
    switch("foreign-escape-hides-an-exit", "In another language a universal exit may stand right behind an escape character.", "commands", FOREIGN_EXIT,
           FOREIGN_EXIT.replace("place):", "place) and stream[place - 1:place] != b\"\\x1b\":"),
           "commands", "    if UNIVERSAL_EXIT.startswith(rest):\n        return None\n    return Foreign", "    if rest != UNIVERSAL_EXIT and UNIVERSAL_EXIT.startswith(rest):\n        return None\n    return Foreign"),
    switch("foreign-escape-is-dropped", "In another language an escape character that begins no exit is one of its bytes.", "commands", FOREIGN_BYTE,
           f"    if stream[place] == ESC:\n        return head_foreign(stream, place + 1)\n{FOREIGN_BYTE}"),
    switch("foreign-front-of-an-exit-is-broken", "In another language the front of an exit that is none is so many bytes of it.", "commands", FOREIGN_BYTE,
           "    front = max(length for length in range(9) if stream.startswith(UNIVERSAL_EXIT[:length], place))\n"
           f"    if front > 1:\n        return Broken(stream[place:place + front]), place + front, FOREIGN\n{FOREIGN_BYTE}"),
    switch("control-of-31-is-text", "The greatest control character is 31.", "commands", "Control(byte) if byte < 32", "Control(byte) if byte < 31"),
    switch("sequence-forgets-its-group", "Each pair of a sequence has its group.", "commands", FOUND, FOUND.replace("mode.group", "None if prefix else mode.group")),
    switch("row-data-of-upper-case-alone", "A row's lower-case end carries data, too.", "commands", FOUND, FOUND.replace("field,", "field if last or end != 87 else b\"\",")),
    switch("planes-of-upper-case-alone", "A plane's lower-case end carries data, too.", "commands", FOUND, FOUND.replace("field,", "field if last or end != 86 else b\"\",")),
    switch("transparent-data-of-upper-case-alone", "The lower-case end of transparent data carries them, too.", "commands", FOUND,
           FOUND.replace("field,", "field if last or (mode.group, end) != (112, 88) or mode.character != 38 else b\"\",")),
    switch("data-of-any-v", "Of the parameters V that of a plane alone carries data.", "commands", '(ord("*"), ord("b"), ord("V"))', '(character, group, ord("V"))'),
    switch("data-of-any-x-with-an-ampersand", "Of the parameters X that of transparent data alone carries them.", "commands", '(ord("&"), ord("p"), ord("X"))', '(ord("&"), group, ord("X"))'),
    switch("signed-count-of-data-is-none", "A count of data may have a sign.", "commands", COUNTED, "        count = 0 if read_value(field).signed else max(0, read_value(field).whole())\n    if place"),
    switch("data-end-at-an-exit", "Data may hold a universal exit.", "commands", DATA, DATA.replace("place + count]\n", "place + count].partition(UNIVERSAL_EXIT)[0]\n").replace("place + count\n", "place + len(data)\n")),
    switch("data-end-at-an-escape", "Data may hold an escape character.", "commands", DATA, DATA.replace("place + count]\n", "place + count].partition(b\"\\x1b\")[0]\n").replace("place + count\n", "place + len(data)\n")),
    switch("data-end-at-a-line", "Data may hold a line of the job language.", "commands", DATA, DATA.replace("place + count]\n", "place + count].partition(LINE_START)[0]\n").replace("place + count\n", "place + len(data)\n")),
    switch("field-of-33-bytes-without-group", "A field of a sequence without group has 32 bytes at most.", "commands", UNGROUPED,
           UNGROUPED.replace("start)\n", "start)\n    after_field += after_field - field_start == LONGEST_FIELD and stream[after_field:after_field + 1].isdigit()\n", 1)),
    switch("field-of-32-bytes-without-group-is-none", "A field of a sequence without group may have 32 bytes.", "commands", UNGROUPED, UNGROUPED.replace("field_end(stream, field_start)", "min(field_start + 31, field_end(stream, field_start))")),
    switch("field-of-33-bytes-behind-a-pair", "A later field of a sequence has 32 bytes at most.", "commands", PAIRED,
           PAIRED.replace("start)\n", "start)\n    after_field += bool(prefix) and after_field - field_start == LONGEST_FIELD and stream[after_field:after_field + 1].isdigit()\n", 1)),
    switch("field-of-32-bytes-behind-a-pair-is-none", "A later field of a sequence may have 32 bytes.", "commands", PAIRED,
           PAIRED.replace("field_end(stream, field_start)", "min(field_start + (31 if prefix else 32), field_end(stream, field_start))")),
    switch("end-behind-a-pair-is-broken", "Where the stream ends right behind a lower-case end nothing is broken.", "commands", "    if not rest:\n        return []\n",
           "    if not rest:\n        return [Broken(bytes([ESC, mode.character, mode.group]))] if isinstance(mode, Open) else []\n"),
    switch("escape-behind-a-pair-is-broken", "Behind a lower-case end another sequence may begin.", "commands", OPENED,
           OPENED.replace("        return", "        if stream[place] == ESC:\n            return Broken(b\"\\x1b\"), place + 1, PCL\n        return")),
    switch("exit-behind-a-pair-is-broken", "Behind a lower-case end a universal exit may stand.", "commands", OPENED,
           OPENED.replace("        return", "        if stream.startswith(UNIVERSAL_EXIT, place):\n            return Broken(UNIVERSAL_EXIT), place + 9, PCL\n        return")),
    switch("text-behind-a-pair-is-broken", "A byte behind a lower-case end that goes on with nothing is scanned by itself.", "commands", OPENED,
           OPENED.replace("        return", "        if stream[place] != ESC:\n            return Broken(bytes([ESC, mode.character, mode.group, stream[place]])), place + 1, PCL\n        return")),
    switch("end-without-group-and-field-is-none", "A sequence without group may lack its field.", "commands", "if not 64 <= end <= 94:", "if after_field == field_start or not 64 <= end <= 94:"),
]

SKIP = "        marks.skip_rows(state, number(command))\n"
BLOCK_ROW = "            transfer_row(engine, block.method, block.data)\n"
BLOCK_END = "                break  # and so would each that follows leave all as it is\n"
HEIGHT = "    if state.source_height is not None and state.row_count >= state.source_height:\n        return\n"
DECODED = "    row = rows.decode(method, data, state.seed)\n    page = engine.page_to_mark()\n"
SEEDED = "    state.seed = row\n    skip_rows(state, 1)\n"
OFF = "    if not state.raster_on:\n        marks.start_raster(state, 0)\n"
RASTER = [
    switch("row-is-padded-with-ones", "A row that is too short is padded with zeros.", "rows", 'ljust(width, b"\\0")', 'ljust(width, b"\\xff")'),
    switch("run-byte-before-its-count", "A run's count stands before its byte.", "rows", "bytes([data[place + 1]]) * (data[place] + 1)", "bytes([data[place]]) * (data[place + 1] + 1)"),
    switch("repeat-of-129-is-nothing", "The code 129 repeats a byte.", "rows", "elif code == 128:", "elif code in (128, 129):"),
    switch("delta-past-the-width-wraps", "A byte that a delta row replaces past the width is dropped.", "rows", "            if target < len(row):\n                row[target] = byte\n", "            if row:\n                row[target % len(row)] = byte\n"),
    switch("empty-row-leaves-the-seed", "A row of no data becomes the seed.", "marks", SEEDED, SEEDED.replace("= row", "= row if data or method == 3 else state.seed")),
    switch("empty-blocks-leave-the-seed", "The empty rows of a block become the seed.", "marks", BLOCK_ROW,
           f"            seed = state.seed\n{BLOCK_ROW}            state.seed = seed if not block.data and block.method == 0 else state.seed\n"),
    switch("seed-blocks-zero-the-seed", "The seed's rows of a block leave the seed.", "marks", BLOCK_END, f"{BLOCK_END}        if block.rows and not block.data and block.method == 3:\n            state.seed = bytes(len(state.seed))\n"),
    switch("blocks-on-the-seed-before-them", "Each row of blocks is the seed of the next block.", "marks", "    for block in rows.blocks(data):\n", "    seed = state.seed\n    for block in rows.blocks(data):\n        state.seed = seed\n"),
    switch("empty-transfer-of-blocks-is-a-row", "A transfer of no blocks is no row.", "marks", "    if state.method != rows.ADAPTIVE:\n        transfer_row(engine, state.method, data)\n",
           "    if state.method != rows.ADAPTIVE or not data:\n        transfer_row(engine, state.method % 5, data)\n"),
    switch("empty-blocks-mark-nothing", "The empty rows of a block mark the page.", "marks", BLOCK_ROW,
           "            if state.page is None and not block.data:\n                skip_rows(state, 1)\n                continue\n" + BLOCK_ROW),
    switch("skip-ends-raster", "A vertical skip leaves raster graphics on.", "table", SKIP + "        state.seed = bytes(len(state.seed))\n", SKIP + "        state.end_raster()\n"),
    switch("row-ends-raster", "A row leaves raster graphics on.", "marks", SEEDED, SEEDED + "    state.end_raster()\n"),
    switch("height-ends-raster", "Raster graphics stays on where there are as many rows as the source height.", "marks", SEEDED, SEEDED + "    if state.row_count == state.source_height:\n        state.end_raster()\n"),
    switch("start-1-at-the-margin", "Raster graphics may begin at the cursor, and not at the left margin.", "table", "state.x if number(command) in (1, 3) else 0", "state.left_margin if number(command) in (1, 3) else 0"),
    switch("skip-by-dots", "A vertical skip is of rows, whose dots are as large as the resolution of raster graphics says.", "table", SKIP,
           "        state.place_cursor(state.x, state.y + number(command) * 24)\n        state.row_count = min(65535, state.row_count + number(command))\n"),
    switch("skip-counts-one-row", "A vertical skip counts as many rows as its value.", "table", SKIP, f"        rows_before = state.row_count\n{SKIP}        state.row_count = min(65535, rows_before + 1)\n"),
    switch("empty-row-while-off-has-no-effect", "A row of no data puts raster graphics on.", "table", OFF, "    if not state.raster_on and not command.data:\n        return\n" + OFF),
    switch("empty-row-while-off-only-starts", "A row of no data that puts raster graphics on is a row.", "table", OFF, OFF + "        if not command.data:\n            return\n"),
    switch("row-width-rounds-up", "A row has no dot that is only partly on the logical page.", "marks", "    return room * state.raster_resolution // POSITIONS_PER_INCH\n", "    return ceiling(room * state.raster_resolution, POSITIONS_PER_INCH)\n"),
    switch("row-of-no-width-marks-nothing", "A row without width marks the page.", "marks", DECODED, "    if row_width(state) == 0:\n        skip_rows(state, 1)\n        return\n" + DECODED),
    switch("row-of-no-width-stays", "A row without width moves the cursor down and counts.", "marks", SEEDED, "    if row_width(state) == 0:\n        return\n" + SEEDED),
    switch("row-past-the-height-moves", "A row past the source height leaves the cursor.", "marks", HEIGHT, HEIGHT.replace("        return\n", "        state.place_cursor(state.x, state.y + POSITIONS_PER_INCH // state.raster_resolution)\n        return\n")),
    switch("row-past-the-height-marks", "A row past the source height does not mark the page.", "marks", HEIGHT, HEIGHT.replace("        return\n", "        engine.page_to_mark()\n        return\n")),
    switch("row-past-the-height-counts", "A row past the source height is not counted.", "marks", HEIGHT, HEIGHT.replace("        return\n", "        state.row_count = min(65535, state.row_count + 1)\n        return\n")),
    switch("row-goes-past-the-page", "A row's growth of the cursor stops at the end of the page.", "marks", "    state.place_cursor(state.x, state.y + count * POSITIONS_PER_INCH // state.raster_resolution)\n", "    state.y += count * POSITIONS_PER_INCH // state.raster_resolution\n"),
]

# What a page close, a fill and a row leave: the field, how a sentence names it, and another value.
LEFT_ALONE = [
    ("unit", "the unit of measure", "96"), ("vmi", "the motion index down", "900"), ("hmi", "the motion index across", "960"), ("line_termination", "the line termination", "1"),
    ("perforation_skip", "the perforation skip", "not state.perforation_skip"), ("copies", "the number of copies", "3"), ("raster_resolution", "the resolution of raster graphics", "100"),
    ("method", "the method of rows", "1"), ("source_width", "the source width", "24"), ("source_height", "the source height", "50"), ("rectangle_width", "the width of rectangles", "0"),
    ("rectangle_height", "the height of rectangles", "0"), ("pattern_id", "the pattern ID", "12"), ("current_pattern", "the current pattern", "(1, 0)"),
    ("source_opaque", "the source transparency", "not state.source_opaque"), ("pattern_opaque", "the pattern transparency", "not state.pattern_opaque"), ("macro_id", "the macro ID", "13"),
    ("left_margin", "the left margin", "480"), ("right_margin", "the right margin", "state.right_margin - 24"), ("top_margin", "the top margin", "2400"),
    ("text_length", "the text length", "state.text_length - 24"), ("stack", "the stack of cursors", "[]"), ("overlay", "the overlay", "None"), ("binding", "the binding", "\"LONGEDGE\" if state.binding != \"LONGEDGE\" else \"SHORTEDGE\""),
]
CLOSED = "            self.deliver(pages.Sheet(front, side))\n\n"
FILLED = "        paint_line(state, page, each, columns, columns, (kind, tile))\n"
LEAVING = [switch(f"close-changes-{field.replace('_', '-')}", f"A page close leaves {named}.", "engine", CLOSED, f"{CLOSED[:-1]}        state.{field} = {other}\n\n") for field, named, other in LEFT_ALONE]
LEAVING += [switch(f"fill-changes-{field.replace('_', '-')}", f"A rectangle leaves {named}.", "marks", FILLED, f"{FILLED}    state.{field} = {other}\n") for field, named, other in LEFT_ALONE]
LEAVING += [switch(f"row-changes-{field.replace('_', '-')}", f"A row leaves {named}.", "marks", SEEDED, f"{SEEDED}    state.{field} = {other}\n") for field, named, other in LEFT_ALONE]

CALLED = "        state.end_raster()\n        yield from run_macro(engine, body)\n        state.end_raster()\n        state.restore(kept)\n"
KEPT = "        kept = state.kept()\n        state.end_raster()\n"
LEFT = "        state.end_raster()\n        state.restore(kept)\n"
OVERLAID = "    state.set_call_fields()\n    state.default_margins()\n"
OVERLAY = "    yield from run_body(engine, state.macros[state.overlay])\n"
EXIT = "        self.state.defining = None\n        self.state.definition = []\n        self.state.hpgl = False\n        yield from self.close_if_marked()\n"
RESET = "        self.deliver_pending_front()\n        self.state.reset()\n"
SHARED = ["macros", KEPT, KEPT.replace("kept = ", "engine.kept = "), "macros", LEFT, LEFT.replace("(kept)", "(engine.kept)")]
RESETS = [
    switch("reset-leaves-binding", "A reset sets the binding to that of the job language.", "state", "        self.binding = self.pjl.current[b\"BINDING\"].decode()\n", "        self.binding = getattr(self, \"binding\", \"LONGEDGE\")\n"),
    switch("reset-binds-the-long-edge", "A reset sets the binding to that of the job language, and not to the long edge.", "state", "        self.binding = self.pjl.current[b\"BINDING\"].decode()\n", "        self.binding = \"LONGEDGE\"\n"),
    switch("reset-goes-home-behind-a-close-alone", "A reset puts the cursor home, also where no page closes.", "engine", "        yield from self.close_if_marked()\n" + RESET,
           "        marked, x, y = self.state.marked, self.state.x, self.state.y\n        yield from self.close_if_marked()\n" + RESET + "        if not marked:\n            self.state.place_cursor(x, y)\n"),
    switch("reset-closes-with-graphics-on", "A reset puts HP-GL/2 off before the page closes.", "engine", EXIT, EXIT.replace("        self.state.hpgl = False\n", "") + "        self.state.hpgl = False\n"),
    switch("reset-closes-within-a-definition", "A reset drops an open definition before the page closes.", "engine", EXIT, EXIT.replace("        self.state.defining = None\n", "") + "        self.state.defining = None\n"),
    switch("call-restores-binding", "The end of a call does not restore the binding.", "macros", CALLED, f"        binding = state.binding\n{CALLED}        state.binding = binding\n"),
    switch("call-restores-patterns", "The end of a call does not restore the patterns.", "macros", CALLED,
           f"        tiles, permanent = dict(state.patterns.tiles), set(state.patterns.permanent)\n{CALLED}        state.patterns.tiles, state.patterns.permanent = tiles, permanent\n"),
    switch("call-restores-the-mark", "A page that a call marks is marked behind it.", "macros", CALLED, f"        marked = state.marked\n{CALLED}        state.marked = marked\n"),
    switch("call-restores-the-count", "The end of a call does not restore the count of sheets.", "macros", CALLED, f"        since_job = state.since_job\n{CALLED}        state.since_job = since_job\n"),
    switch("call-begins-with-an-empty-stack", "A call begins with the stack of cursors as it is.", "macros", CALLED, f"        stack, state.stack = state.stack, []\n{CALLED}        state.stack = stack\n"),
    switch("call-forgets-margins-of-a-page-that-came-back", "The end of a call restores margins where size and orientation are those at its start, also where they were others between.",
           "state", "        self.hpgl = False\n        self.reset()\n", "        self.hpgl = False\n        self.turned = 0\n        self.reset()\n",
           "state", "+ [\"size\", \"orientation\"]\n        return", "+ [\"size\", \"orientation\", \"turned\"]\n        return",
           "state", "        if (self.size, self.orientation) == (kept[\"size\"], kept[\"orientation\"]):\n", "        if (self.size, self.orientation, self.turned) == (kept[\"size\"], kept[\"orientation\"], kept[\"turned\"]):\n",
           "table", "    state.default_margins()\n    state.overlay = None\n", "    state.default_margins()\n    state.turned += 1\n    state.overlay = None\n"),
    switch("calls-share-what-they-keep", "A call in a call restores its own fields, and the outer one its own.", *SHARED),
    switch("overlay-shares-what-calls-keep", "The end of a call restores the fields at its start, also where a page closed in it.", *SHARED,
           "macros", "    kept, x, y, level = state.kept(), state.x, state.y, engine.level\n", "    engine.kept, x, y, level = state.kept(), state.x, state.y, engine.level\n",
           "macros", "    state.restore(kept)\n    state.place_cursor(x, y)\n", "    state.restore(engine.kept)\n    state.place_cursor(x, y)\n"),
    switch("overlay-begins-with-copies", "An overlay begins with the number of copies that holds.", "macros", OVERLAID, f"{OVERLAID}    state.copies = int(state.pjl.current[b\"COPIES\"])\n"),
    switch("overlay-begins-with-text-length", "An overlay begins with the text length of a reset.", "macros", OVERLAID, f"    length = state.text_length\n{OVERLAID}    state.text_length = length\n"),
    switch("overlay-begins-with-sides", "An overlay begins with the sides of the page.", "macros", OVERLAID, f"{OVERLAID}    state.duplex = state.pjl.current[b\"DUPLEX\"] == b\"ON\"\n"),
    switch("overlay-begins-with-binding", "An overlay begins with the binding of the page.", "macros", OVERLAID, f"{OVERLAID}    state.binding = state.pjl.current[b\"BINDING\"].decode()\n"),
    switch("overlay-is-off-while-it-runs", "The overlay is on while it runs.", "macros", OVERLAY, "    number, state.overlay = state.overlay, None\n    yield from run_body(engine, state.macros[number])\n    state.overlay = number\n"),
]

CLOSING = "        yield from engine.close_page()\n        state.move(state.x, state.home_line())\n    else:\n"
FORM_FEED = "    yield from engine.close_page()\n    state.move(state.x, state.home_line())\n\n\ndef clear"
FEED = "    if state.line_termination in (2, 3):\n        to_left_margin(state)\n    yield from down_or_close(engine, state.vmi)\n"
CURSOR = [
    switch("home-rounds-up", "Three quarters of a line are rounded down.", "state", "        return 3 * self.vmi // 4\n", "        return -(-3 * self.vmi // 4)\n"),
    switch("cursor-a-dot-left-of-the-edge", "The cursor may stand at the right end of the logical page.", "state", "min(self.logical_width(), self.x)", "min(self.logical_width() - 24, self.x)"),
    switch("cursor-a-dot-above-the-edge", "The cursor may stand at the lower end of the page.", "state", "min(self.logical_length() - self.top_margin, self.y)", "min(self.logical_length() - self.top_margin - 24, self.y)"),
    switch("line-feed-goes-to-the-top-behind-a-close", "A line feed that closes the page puts the cursor home down.", "table", CLOSING, CLOSING.replace("state.home_line()", "0")),
    switch("line-feed-stays-down-behind-a-close", "A line feed that closes the page moves the cursor up.", "table", CLOSING, CLOSING.replace("state.home_line()", "state.y")),
    switch("line-feed-that-closes-stays-across", "A line feed that closes the page returns by 2 and 3, too.", "table", FEED,
           "    returns, before = state.line_termination in (2, 3), state.y\n    yield from down_or_close(engine, state.vmi)\n    if returns and state.y >= before:\n        to_left_margin(state)\n"),
    switch("form-feed-returns-by-1", "A form feed stays across by 1.", "table", "    if state.line_termination in (2, 3):\n        to_left_margin(state)\n    yield from engine.close_page()", "    if state.line_termination in (1, 2, 3):\n        to_left_margin(state)\n    yield from engine.close_page()"),
    switch("form-feed-goes-to-the-top", "A form feed puts the cursor home down.", "table", FORM_FEED, FORM_FEED.replace("state.home_line()", "0")),
    switch("half-line-feed-never-closes", "A half line feed past the text length closes the page.", "table", "    yield from down_or_close(engine, engine.state.vmi // 2)\n", "    engine.state.move(engine.state.x, engine.state.y + engine.state.vmi // 2)\n    yield from ()\n"),
    switch("half-line-feed-closes-a-whole-line-before", "A half line feed closes the page where half a line is no more on it.", "table", "    if state.y + distance > limit and", "    if state.y + state.vmi > limit and"),
    switch("pop-down-alone", "A pop puts the cursor back across.", "table", "state.move(*state.stack.pop())", "state.move(state.x, state.stack.pop()[1])"),
    switch("right-margin-of-a-negative-value-is-none", "A right margin may come of a value between -1 and 0.", "table", "    if engine.names(margin > state.left_margin):\n", "    if engine.names(margin > state.left_margin and command.value().tenthousandths >= 0):\n"),
    switch("skipped-commands-are-recorded", "A command that HP-GL/2 skips is the last one of its step.", "engine", "            self.refused = IN_HPGL\n", "            self.refused, self.last = IN_HPGL, RECORDED\n"),
]

# Rows whose value is a whole number, and all whose value is no move; how a sentence names them; and those of them that take 0.
COUNTED_ROWS = [
    ("&uD", "a unit of measure"), ("&fS", "a push and a pop"), ("&kG", "a line termination"), ("&lD", "lines per inch"), ("&lF", "a text length"), ("&lL", "a perforation skip"), ("&lA", "a page size"),
    ("&lO", "an orientation"), ("&lS", "sides"), ("&aG", "a choice of the side"), ("&lX", "copies"), ("*tR", "a resolution"), ("*rS", "a source width"), ("*rT", "a source height"), ("*rA", "a start of raster graphics"),
    ("*bM", "a method"), ("*bY", "a vertical skip"), ("*cG", "a pattern ID"), ("*cP", "a rectangle"), ("*cQ", "pattern control"), ("*vT", "a current pattern"), ("*vN", "a source transparency"),
    ("*vO", "a pattern transparency"), ("&fY", "a macro ID"), ("&fX", "macro control"),
]
SIZED_ROWS = [("&kH", "a motion index across"), ("&lC", "a motion index down"), ("&lE", "a top margin"), ("&aL", "a left margin"), ("&aM", "a right margin"), ("*cA", "a width in units"), ("*cB", "a height in units"),
              ("*cH", "a width in decipoints"), ("*cV", "a height in decipoints")]
FROM_ZERO = ["&fS", "&kG", "&lL", "&lO", "&lS", "&aG", "*rA", "*bM", "*cG", "*cP", "*cQ", "*vT", "*vN", "*vO", "&fY", "&fX"]
KEY = "        key = chr(command.character) + group + chr(command.end)\n"


def without(key, test):
    """A row has no effect where a value is such."""
    return ["table", KEY, f"{KEY}        if key == \"{key}\" and {test}:\n            return None\n"]


VALUES = [switch(f"fraction-is-none-in-{named.replace(' ', '-')}", f"The value of {named} is its whole part.", *without(key, "command.value().tenthousandths % 10000")) for key, named in COUNTED_ROWS]
VALUES += [switch(f"minus-fraction-is-none-in-{named.replace(' ', '-')}", f"The whole part of a value between -1 and 0 is 0, for {named} too.", *without(key, "command.value().tenthousandths < 0 and number(command) == 0"))
           for key, named in COUNTED_ROWS if key in FROM_ZERO]
VALUES += [switch(f"sign-is-none-in-{named.replace(' ', '-')}", f"A plus makes no difference to {named}.", *without(key, "command.value().signed and command.value().tenthousandths > 0")) for key, named in COUNTED_ROWS + SIZED_ROWS]
VALUES += [switch(f"minus-zero-is-negative-in-{named.replace(' ', '-')}", f"A minus before a zero makes no difference to {named}.", *without(key, "command.value() == (0, True)")) for key, named in SIZED_ROWS if key != "&aM"]

SIDES = "    if state.duplex:\n        state.binding = {1: \"LONGEDGE\", 2: \"SHORTEDGE\"}[number(command)]\n"
SELECTED = "    yield from close_marked_page(engine)\n    if number(command) == 1:\n"
BLANK = "        state.pending_front = pages.Bitmap(state.size, state.orientation)\n"
ALONE = "            self.deliver(pages.Sheet(front, None))\n"
WAITS = "            state.pending_front = side\n"
COPIES = "    def deliver(self, sheet):\n        state = self.state\n        for _ in range(state.copies):\n"
COPIES_OF_THEN = COPIES.replace("sheet)", "sheet, copies=0)").replace("state.copies", "copies or state.copies")
COUNTS = "            state.since_job = min(GREATEST_COUNT, state.since_job + 1)\n"
SIZE = "    engine.state.size = pages.SIZES[PAGE_SIZES[number(command)]].at(engine.state.resolution)\n    new_logical_page(engine.state)\n"
TURN = "    engine.state.orientation = number(command)\n    engine.state.default_motion()\n    new_logical_page(engine.state)\n"
BACK = "            self.deliver(pages.Sheet(front, side))\n"
PAGES = [
    switch("page-size-sets-copies", "A page size leaves the number of copies.", "table", SIZE, SIZE + "    engine.state.copies = int(engine.state.pjl.current[b\"COPIES\"])\n"),
    switch("orientation-sets-copies", "An orientation leaves the number of copies.", "table", TURN, TURN + "    engine.state.copies = int(engine.state.pjl.current[b\"COPIES\"])\n"),
    switch("page-size-sets-margins-first", "A page size sets the margins by the new page.", "table", SIZE, SIZE.replace("    engine.state.size", "    new_logical_page(engine.state)\n    engine.state.size", 1).removesuffix("    new_logical_page(engine.state)\n")),
    switch("orientation-sets-margins-first", "An orientation sets the margins by the new page.", "table", TURN, "    engine.state.default_motion()\n    new_logical_page(engine.state)\n    engine.state.orientation = number(command)\n"),
    switch("orientation-sets-motion-last", "An orientation sets the motion indexes before the text length.", "table", TURN, TURN.replace("    engine.state.default_motion()\n", "") + "    engine.state.default_motion()\n"),
    switch("short-edge-turns-the-back", "The binding turns no back: the short edge.", "engine", BACK, "            side.orientation = (side.orientation + 2 * (state.binding == \"SHORTEDGE\")) % 4\n" + BACK),
    switch("long-edge-turns-the-back", "The binding turns no back: the long edge.", "engine", BACK, "            side.orientation = (side.orientation + 2 * (state.binding == \"LONGEDGE\")) % 4\n" + BACK),
    switch("sides-1-and-2-exchanged", "1 binds the long edge and 2 the short one.", "table", SIDES, SIDES.replace("{1: \"LONGEDGE\", 2: \"SHORTEDGE\"}", "{2: \"LONGEDGE\", 1: \"SHORTEDGE\"}")),
    switch("simplex-binds-the-long-edge", "Simplex leaves the binding.", "table", SIDES, SIDES + "    else:\n        state.binding = \"LONGEDGE\"\n"),
    switch("eject-delivers-a-front", "An eject leaves the front that waits.", "table", EJECT, EJECT.replace("(engine)\n", "(engine)\n    engine.deliver_pending_front()\n")),
    switch("side-2-delivers-a-front", "The choice of the back side leaves the front that waits.", "table", "number(command) == 2 and state.duplex and state.pending_front is None:\n", "number(command) == 2 and state.duplex:\n        engine.deliver_pending_front()\n"),
    switch("side-always-goes-home", "The choice of the side leaves the cursor where the page is not marked.", "table", SELECTED, SELECTED.replace("engine)\n", "engine)\n    state.move(state.x, state.home_line())\n", 1)),
    switch("side-stays-down", "The choice of the side puts the cursor home down where the page closes.", "table", SELECTED, "    down = state.y\n" + SELECTED.replace("engine)\n", "engine)\n    state.place_cursor(state.x, down)\n", 1)),
    switch("side-moves-left", "The choice of the side leaves the cursor across.", "table", SELECTED, "    marked = state.marked\n" + SELECTED.replace("engine)\n", "engine)\n    state.x = state.left_margin if marked else state.x\n", 1)),
    switch("side-1-front-first", "The choice of the front side closes the page first, which may be the back of the front that waits.", "table", SELECTED, "    if number(command) == 1:\n        engine.deliver_pending_front()\n" + SELECTED),
    switch("blank-front-of-the-job-language", "The blank front of the back side has the page size that holds.", "table", BLANK,
           "        size = next(size for name, size in pages.SIZES.items() if name.upper().encode() == state.pjl.current[b\"PAPER\"])\n        state.pending_front = pages.Bitmap(size.at(state.resolution), state.orientation)\n"),
    switch("blank-front-with-an-overlay", "The blank front of the back side has no overlay.", "table", BLANK, "        yield from engine.close_page()\n"),
    switch("copies-below-zero", "A negative number of copies has no effect.", "table", "    if engine.names(number(command) >= 1):\n        engine.state.copies = min(GREATEST_COPIES, number(command))\n", "    if engine.names(number(command) != 0):\n        engine.state.copies = min(GREATEST_COPIES, abs(number(command)))\n"),
    switch("front-alone-in-its-own-copies", "A front alone goes out in the copies of when it goes out.", "engine", WAITS, WAITS + "            self.front_copies = state.copies\n",
           "engine", ALONE, ALONE.replace("None))", "None), getattr(self, \"front_copies\", 0))"), "engine", COPIES, COPIES_OF_THEN),
    switch("front-alone-in-one-copy", "A front alone goes out in all its copies.", "engine", ALONE, ALONE.replace("None))", "None), 1)"), "engine", COPIES, COPIES_OF_THEN),
    switch("sheet-in-the-copies-of-its-front", "A sheet goes out in the copies of when its back closes.", "engine", WAITS, WAITS + "            self.front_copies = state.copies\n",
           "engine", BACK, BACK.replace("side))", "side), getattr(self, \"front_copies\", 0))"), "engine", COPIES, COPIES_OF_THEN),
    switch("status-counts-all-copies-first", "Each copy is counted before its status is told, and not all of them.", "engine", COPIES, COPIES.replace("        for", "        state.since_job = min(GREATEST_COUNT, state.since_job + state.copies)\n        for"), "engine", COUNTS, ""),
    switch("sides-count-as-sheets", "A sheet of two sides counts once.", "engine", COUNTS, COUNTS.replace("+ 1", "+ len(sheet.sides())")),
    switch("blank-sheets-do-not-count", "A blank sheet counts.", "engine", COUNTS, COUNTS.replace("+ 1", "+ any(side.lines for _, side in sheet.sides())")),
]

FILL_PAGE = "    page = engine.page_to_mark()\n    column, line = frame_dot(state)\n"
RECTANGLE = "            setattr(engine.state, field, to_position(value, unit(engine.state)))\n"
USER_FILL = "        engine.fill((kind, state.patterns.tile(kind, state.pattern_id)))\n"
MADE_PERMANENT = "        patterns.set_permanent(engine.state.pattern_id, which == 5)\n"
TILED = "    columns = repeated(tuple(tile[line % len(tile)]), width)\n"
MARKS = [
    switch("signed-rectangle-is-relative", "The size of rectangles is no move: a sign makes no difference.", "table", RECTANGLE, RECTANGLE.replace("unit(engine.state)))", "unit(engine.state)) + value.signed * getattr(engine.state, field))")),
    switch("lost-pattern-fills-nothing", "A fill in the current pattern whose user pattern is gone is black.", "table", "        engine.fill(marks.current_pattern(state))\n", "        engine.fill((state.current_pattern[0], state.patterns.tile(*state.current_pattern)))\n"),
    switch("patterns-4-and-5-exchanged", "4 makes a pattern temporary and 5 permanent.", "table", MADE_PERMANENT, MADE_PERMANENT.replace("== 5", "== 4")),
    switch("patterns-5-of-all", "5 makes one pattern permanent.", "table", MADE_PERMANENT, MADE_PERMANENT + "        patterns.permanent |= set(patterns.tiles) if which == 5 else set()\n"),
    switch("patterns-4-of-all", "4 makes one pattern temporary.", "table", MADE_PERMANENT, MADE_PERMANENT + "        patterns.permanent -= set(patterns.tiles) if which == 4 else set()\n"),
    switch("fill-in-a-white-tile-marks-nothing", "A rectangle in a tile without a black dot marks the page.", "marks", FILL_PAGE, "    if kind != WHITE and state.page is None and not any(map(any, tile)):\n        return\n" + FILL_PAGE),
    switch("tile-of-the-physical-page", "Tiles lie in the frame, which a reverse page turns.", "marks", TILED,
           "    if page.orientation == pages.REVERSE_PORTRAIT:\n        turned = tuple(tile[(page.height() - 1 - line) % len(tile)])\n        columns = int(format(repeated(turned, width), \"0%db\" % width)[::-1], 2)\n    else:\n    " + TILED),
]

BODY = "        yield from engine.run(command)\n    engine.depth -= 1\n"
IN_MACRO, IN_ITS_MACRO = "engine.in_overlay and engine.level == 0", " and self.level"
RECORDED = "            self.state.definition.append(command)\n"
DELETED = "        state.macros.pop(state.macro_id, None)\n"
MACROS = [
    switch("begin-within-a-definition-begins-anew", "The begin of a definition within one is recorded.", "engine", "        return ends and command.value().whole() == 1\n", "        return ends and command.value().whole() in (0, 1)\n"),
    switch("begin-within-a-definition-is-dropped", "The begin of a definition within one is a step of the macro.", "engine", RECORDED, "            if self.kind != \"par &fX\" or command.value().whole() != 0:\n    " + RECORDED),
    switch("definition-drops-broken-bytes", "Broken bytes are recorded.", "engine", RECORDED, "            if self.kind != \"brk\":\n    " + RECORDED),
    switch("definition-ends-at-broken-bytes", "Broken bytes leave a definition open.", "engine", RECORDED, RECORDED + "            if self.kind == \"brk\":\n                macros.end(self.state)\n"),
    switch("definition-drops-escapes", "An escape sequence of two is recorded.", "engine", RECORDED, "            if not isinstance(command, Escape):\n    " + RECORDED),
    switch("definition-drops-what-has-no-effect", "A command without effect is recorded.", "engine", RECORDED, "            if table.row_of(command) is not None:\n    " + RECORDED),
    switch("overlay-body-is-deleted", "An overlay that deletes its own macro runs on.", "macros", OVERLAY, "    number = state.overlay\n    yield from run_body(engine, (command for command in state.macros[number] if number in state.macros))\n"),
    switch("overlay-that-is-put-off-ends", "An overlay that puts itself off runs on.", "macros", OVERLAY, "    yield from run_body(engine, (command for command in state.macros[state.overlay] if state.overlay is not None))\n"),
    switch("deleted-macro-puts-the-overlay-off", "The overlay stays on where its macro is deleted, and is there again with it.", "macros", DELETED, DELETED + "        state.overlay = None if state.overlay == state.macro_id else state.overlay\n"),
    switch("delete-all-puts-the-overlay-off", "The overlay stays on where all macros are deleted.", "macros", "        state.macros.clear()\n", "        state.macros.clear()\n        state.overlay = None\n"),
    switch("delete-temporary-puts-the-overlay-off", "The overlay stays on where the temporary macros are deleted.", "macros", "        state.delete_temporary_macros()\n", "        state.delete_temporary_macros()\n        state.overlay = None\n"),
    switch("overlay-of-the-macro-id-of-then", "The overlay is the macro whose ID held when it was put on.", "macros", "    if state.overlay not in state.macros:\n        return\n", "    overlay = state.overlay if state.overlay is None else state.macro_id\n    if overlay not in state.macros:\n        return\n",
           "macros", OVERLAY, OVERLAY.replace("state.overlay", "overlay")),
    switch("outer-body-ends-a-step-late", "The end of an inner body ends the outer one in the same step, if that is used up.", "macros", "    engine.level += 1\n    yield from run_body(engine, body)\n    engine.level -= 1\n",
           "    engine.level += 1\n    yield from run_body(engine, body)\n    engine.level -= 1\n    if engine.depth and body:\n        yield\n"),
    switch("inner-body-ends-the-outer", "Behind the end of an inner body the outer one goes on.", "macros", BODY,
           "        taken = engine.taken + 1\n        yield from engine.run(command)\n        if engine.taken > taken:\n            break\n    engine.depth -= 1\n"),
    does_in_overlay("form-feed-closes-in-an-overlay-s-macro", "A form feed has no effect in the macro of an overlay.", "FF", where=IN_ITS_MACRO),
    switch("line-feed-closes-in-an-overlay-s-macro", "A line feed closes no page in the macro of an overlay.", "table", "> limit and not engine.in_overlay:\n", f"> limit and not ({IN_MACRO}):\n", "macros", NOT_NESTED, NESTED),
    does_in_overlay("eject-closes-in-an-overlay-s-macro", "An eject has no effect in the macro of an overlay.", "&lH", where=IN_ITS_MACRO),
    does_in_overlay("side-closes-in-an-overlay-s-macro", "The choice of the side has no effect in the macro of an overlay.", "&aG", where=IN_ITS_MACRO),
    does_in_overlay("sides-in-an-overlay-s-macro", "Sides have no effect in the macro of an overlay.", "&lS", where=IN_ITS_MACRO),
    does_in_overlay("page-size-in-an-overlay-s-macro", "A page size has no effect in the macro of an overlay.", "&lA", where=IN_ITS_MACRO),
    does_in_overlay("orientation-in-an-overlay-s-macro", "An orientation has no effect in the macro of an overlay.", "&lO", where=IN_ITS_MACRO),
]

RUN_LINES = "    return {y: int(row[::-1], 2) << offset for y, row in enumerate(rows) if \"1\" in row}\n"
OTHERS = [
    switch("ustatus-is-answered", "USTATUS is answered nothing by itself.", "pjl", "        if read.word == b\"ECHO\":\n", "        if read.word == b\"USTATUS\":\n            return page_reply(0)\n        if read.word == b\"ECHO\":\n"),
    switch("text-line-that-enters-is-bad-data", "A line of the job language may enter a language.", "asm", "    if unread or not", "    if unread or b\"LANGUAGE\" in line or not"),
    switch("text-data-by-a-rounded-count", "The number of data bytes of a text's line is the whole part of the value.", "asm", "        count = max(0, read_value(field).whole())\n    if len", "        count = max(0, -(-read_value(field).tenthousandths // 10000))\n    if len"),
    switch("text-signed-count-is-none", "The value of a text's line may have a sign where it counts data.", "asm", "        count = max(0, read_value(field).whole())\n    if len", "        count = 0 if read_value(field).signed else max(0, read_value(field).whole())\n    if len"),
    switch("text-negative-count", "A negative value of a text's line counts no data.", "asm", "        count = max(0, read_value(field).whole())\n    if len", "        count = abs(read_value(field).whole())\n    if len"),
    switch("text-field-of-33-bytes", "The field of a text's line has 32 bytes at most.", "asm", "    if not is_field(field):\n", "    if not is_field(field[:32]):\n"),
    switch("text-field-of-32-bytes-is-none", "The field of a text's line may have 32 bytes.", "asm", "    if not is_field(field):\n", "    if not is_field(field) or len(field) > 31:\n"),
    switch("ticket-head-to-foot-turns-pages", "Head to foot turns no page.", "ticket", RUN_LINES, "    if ticket.sides == SIDES[2]:\n        rows = [row[::-1] for row in rows[::-1]]\n" + RUN_LINES),
]

RESUMED = "        self.find(number, HELD, SUSPENDED).status = WAITING\n"
QUEUE = [
    switch("flush-leaves-begun-entries", "A flush takes an entry that has begun and waits again.", "job_queue", "if entry.status == RUNNING]\n", "if entry.status == RUNNING or entry.begun and entry.status == WAITING]\n"),
    switch("flush-sets-the-last-number-back", "Behind a flush numbers go on.", "job_queue", "if entry.status == RUNNING]\n", "if entry.status == RUNNING]\n        self.last_number = max([0, *(entry.number for entry in self.entries)])\n"),
    switch("set-priority-frees-a-held-entry", "A held entry whose priority is set is held.", "job_queue", "        entry.priority = priority\n", "        entry.priority, entry.status = priority, WAITING\n"),
    switch("set-position-frees-a-held-entry", "A held entry whose position is set is held.", "job_queue", "        self.entries.insert(position, entry)\n", "        self.entries.insert(position, entry)\n        entry.status = WAITING\n"),
    switch("set-position-among-waiting-entries", "A position counts all entries of the list.", "job_queue", "        self.entries.insert(position, entry)\n",
           "        places = [place for place, each in enumerate(self.entries) if each.status in (WAITING, HELD)]\n        self.entries.insert([*places, len(self.entries)][min(position, len(places))], entry)\n"),
    switch("resume-goes-to-the-end", "A resumed entry stays at its place.", "job_queue", RESUMED, RESUMED + "        self.entries.sort(key=lambda entry: entry.number == number)\n"),
    switch("resume-goes-to-the-front", "A resumed entry stays at its place, also behind others.", "job_queue", RESUMED, RESUMED + "        self.entries.sort(key=lambda entry: entry.number != number)\n"),
    switch("resume-puts-anew", "A resumed entry is not put as a new one is.", "job_queue", RESUMED, RESUMED + "        entry = self.find(number, WAITING)\n        self.entries.remove(entry)\n        self.put(entry)\n"),
    switch("hold-goes-to-the-end", "A held entry stays at its place.", "job_queue", "        self.find(number, WAITING).status = HELD\n", "        self.find(number, WAITING).status = HELD\n        self.entries.sort(key=lambda entry: entry.number == number)\n"),
    switch("suspend-goes-to-the-end", "A suspended entry stays at its place.", "job_queue", "        entry.status = SUSPENDED\n", "        entry.status = SUSPENDED\n        self.entries.sort(key=lambda entry: entry.number == number)\n"),
    switch("suspend-goes-to-the-front", "A suspended entry stays at its place, also behind others.", "job_queue", "        entry.status = SUSPENDED\n", "        entry.status = SUSPENDED\n        self.entries.sort(key=lambda entry: entry.number != number)\n"),
    switch("abort-goes-to-the-end", "An aborted entry stays at its place.", "job_queue", "SUSPENDED).status = ABORTED\n", "SUSPENDED).status = ABORTED\n        self.entries.sort(key=lambda entry: entry.number == number)\n"),
    switch("completed-goes-to-the-end", "A completed entry stays at its place.", "job_queue", "        entry.status = status\n", "        entry.status = status\n        self.entries.sort(key=lambda each: each is entry)\n"),
    switch("resumed-entry-is-not-in-flight", "A resumed entry is in flight.", "job_queue", "        return self.begun and self.status not in (COMPLETED, ABORTED)\n", "        return self.begun and self.status not in (COMPLETED, ABORTED, WAITING)\n"),
    switch("suspended-entry-is-not-in-flight", "A suspended entry is in flight.", "job_queue", "        return self.begun and self.status not in (COMPLETED, ABORTED)\n", "        return self.begun and self.status not in (COMPLETED, ABORTED, SUSPENDED)\n"),
]

# Sentences that several rows of the table, variables or messages share, wrong for one of them at a time.
HALF = "    yield from down_or_close(engine, engine.state.vmi // 2)\n"
FEEDS = [
    switch("half-line-feed-of-a-marked-page-alone", "A half line feed closes a page without marks, too.", "table", HALF, "    if engine.state.marked or engine.state.y + engine.state.vmi // 2 <= engine.state.text_length:\n    " + HALF),
    switch("half-line-feed-goes-on-behind-a-close", "A half line feed that closes the page puts the cursor home down.", "table", HALF,
           "    before = engine.state.y\n" + HALF + "    if engine.state.y < before:\n        engine.state.move(engine.state.x, engine.state.y + engine.state.vmi // 2)\n"),
    switch("half-line-feed-closes-at-the-text-without-skip", "A half line feed goes to the end of the page without the skip.", "table", HALF,
           "    skip, engine.state.perforation_skip = engine.state.perforation_skip, True\n" + HALF + "    engine.state.perforation_skip = skip\n"),
    switch("half-line-feed-closes-at-the-page-by-skip", "A half line feed goes to the end of the text length with the skip.", "table", HALF,
           "    skip, engine.state.perforation_skip = engine.state.perforation_skip, False\n" + HALF + "    engine.state.perforation_skip = skip\n"),
    switch("half-line-feed-closes-in-an-overlay", "A half line feed closes no page in an overlay.", "table", HALF, "    state = engine.state\n    if engine.in_overlay and state.y + state.vmi // 2 > state.text_length:\n        yield from engine.close_page()\n        state.move(state.x, state.home_line())\n        return\n" + HALF, "macros", NOT_NESTED, NESTED),
    switch("half-line-feed-goes-left-behind-a-close", "A half line feed that closes the page stays across.", "table", HALF, "    before = engine.state.y\n" + HALF + "    if engine.state.y < before:\n        to_left_margin(engine.state)\n"),
    switch("line-feed-past-the-limit-goes-on", "A line feed closes the page, also where the cursor was past the text length before.", "table", "    if state.y + distance > limit and", "    if state.y + distance > limit >= state.y and"),
    switch("line-feed-of-no-distance-never-closes", "A line feed past the text length closes the page, also where lines have no height.", "table", "    if state.y + distance > limit and", "    if distance and state.y + distance > limit and"),
    switch("carriage-return-in-an-overlay-stays", "A carriage return goes to the left margin in an overlay, too.", "table", "    to_left_margin(engine.state)\n    if engine.state.line", "    if not engine.in_overlay:\n        to_left_margin(engine.state)\n    if engine.state.line"),
    switch("line-feed-in-an-overlay-stays-across", "A line feed goes to the left margin by 2 and 3 in an overlay, too.", "table", FEED, FEED.replace("(2, 3):", "(2, 3) and not engine.in_overlay:")),
]

MOVES = [
    ("columns", "    move_across(engine, command.value(), engine.state.hmi)\n"), ("rows-of-text", "    move_down(engine, command.value(), engine.state.vmi, engine.state.home_line())\n"),
    ("decipoints-across", "    move_across(engine, command.value(), DECIPOINT)\n"), ("decipoints-down", "    move_down(engine, command.value(), DECIPOINT)\n"),
    ("units-across", "    move_across(engine, command.value(), engine.state.unit_positions())\n"), ("units-down", "    move_down(engine, command.value(), engine.state.unit_positions())\n"),
]
WRONG_MOVES = [("signed", "are relative with a sign", "absolute", "False"), ("unsigned", "are absolute without a sign", "relative", "True"),
               ("plus", "are relative with a plus", "absolute", "command.value().tenthousandths < 0"), ("minus", "are relative with a minus", "absolute", "command.value().signed and command.value().tenthousandths >= 0")]
MOVING = [switch(f"{name}-with-{which}-are-{wrong}" if which != "unsigned" else f"{name}-without-a-sign-are-{wrong}", f"{name.replace('-', ' ').capitalize()} {rule}.", "table", text, text.replace("command.value()", f"command.value()._replace(signed={signed})"))
          for name, text in MOVES for which, rule, wrong, signed in WRONG_MOVES]

RECTANGLES = [("A", "width in units"), ("B", "height in units"), ("H", "width in decipoints"), ("V", "height in decipoints")]
TILES = [("SHADING", "shading"), ("HATCH", "cross-hatch"), ("USER", "pattern of the user")]
KNOWN = "        if state.patterns.tile(kind, state.pattern_id) is not None:\n"
DRAWING = [switch(f"negative-{named.replace(' ', '-')}-is-positive", f"A negative {named} has no effect.", "table", "        if engine.names(value.tenthousandths >= 0):\n            setattr",
                   f"        if chr(command.end) == \"{end}\":\n            value = value._replace(tenthousandths=abs(value.tenthousandths))\n        if engine.names(value.tenthousandths >= 0):\n            setattr") for end, named in RECTANGLES]
DRAWING += [switch(f"missing-{named.replace(' ', '-')}-becomes-current", f"A {named} that there is not leaves the current pattern.", "table", KNOWN, KNOWN.replace("if ", f"if kind == {kind} or "), "marks", "        assert kind == USER\n", "") for kind, named in TILES]
DRAWING += [switch(f"missing-{named.replace(' ', '-')}-is-black", f"A fill in a {named} that there is not has no effect.", "table", USER_FILL, USER_FILL.replace("pattern_id)", f"pattern_id) or ([[True]] if kind == {kind} else None)")) for kind, named in TILES]
DRAWING += [
    switch("overlay-restores-patterns", "The end of an overlay does not restore the patterns.", "macros", OVERLAY, f"    tiles, permanent = dict(state.patterns.tiles), set(state.patterns.permanent)\n{OVERLAY}    state.patterns.tiles, state.patterns.permanent = tiles, permanent\n"),
    switch("deeper-execute-runs", "No third macro is executed.", "macros", "    body = body_to_start(engine)\n    if body is not None:\n        yield", "    body = engine.state.macros.get(engine.state.macro_id)\n    if body is not None:\n        yield"),
    switch("deeper-call-runs", "No third macro is called.", "macros", "    body = body_to_start(engine)\n    if body is not None:\n        kept", "    body = engine.state.macros.get(engine.state.macro_id)\n    if body is not None:\n        kept"),
    switch("empty-image-is-none", "An empty image is one that is cut.", "pbm", "    if file in (b\"\", b\"P\"):\n", "    if file == b\"P\":\n"),
]

VARIABLES = ["COPIES", "PAPER", "ORIENTATION", "DUPLEX", "BINDING", "RESOLUTION"]
NAMED_DEFAULT, SET_BACK = "                self.default[pair[0]] = pair[1]\n", "        state.pjl.default = dict(pjl.FACTORY)\n"
LANGUAGE = []
for name in VARIABLES:
    lower, quoted = name.lower(), f"b\"{name}\""
    LANGUAGE += [
        switch(f"inquire-knows-no-{lower}", f"INQUIRE knows {name}.", "pjl", "read.rest, self.current)\n", f"read.rest, {{key: value for key, value in self.current.items() if key != {quoted}}})\n"),
        switch(f"dinquire-knows-no-{lower}", f"DINQUIRE knows {name}.", "pjl", "read.rest, self.default)\n", f"read.rest, {{key: value for key, value in self.default.items() if key != {quoted}}})\n"),
        switch(f"default-leaves-{lower}", f"DEFAULT takes {name}.", "pjl", NAMED_DEFAULT, f"                if pair[0] != {quoted}:\n    {NAMED_DEFAULT}"),
        switch(f"defaults-leave-{lower}", f"JOB, EOJ and RESET set {name} to its default.", "pjl", "            return dict(self.default)\n", f"            return {{**self.default, {quoted}: self.current[{quoted}]}}\n"),
        switch(f"initialize-leaves-{lower}", f"INITIALIZE sets {name} to the factory's value.", "pjl", "            return dict(FACTORY)\n        if", f"            return {{**FACTORY, {quoted}: self.current[{quoted}]}}\n        if"),
        switch(f"initialize-leaves-the-default-of-{lower}", f"INITIALIZE sets the default of {name} to the factory's value.", "table", SET_BACK, SET_BACK.replace("dict(pjl.FACTORY)", f"{{**pjl.FACTORY, {quoted}: state.pjl.default[{quoted}]}}")),
    ]

OF_ENTRIES = ["HoldQueueEntry", "ResumeQueueEntry", "SuspendQueueEntry", "AbortQueueEntry", "RemoveQueueEntry", "SetQueueEntryPriority", "SetQueueEntryPosition"]
PARAMETERS = [("SetQueueEntryPriority", "Priority", "50", 25), ("SetQueueEntryPosition", "Position", "0", 26), ("SubmitQueueEntry", "Ticket", "{}", 6)]
ABSENT = "    if any(name not in message for name in required):\n"
OF_KIND = "        if name in message and not ADMITTED[name](message[name]):\n            raise Answer(BAD_MESSAGE, kind, message_id)\n"
MESSAGES = [switch(f"{kind.lower()}-of-none-is-unknown", f"{kind} without an entry is 7.", "press", ABSENT, f"    if kind == \"{kind}\" and \"QueueEntryID\" not in message:\n        raise Answer(21, kind, message_id)\n{ABSENT}") for kind in OF_ENTRIES]
MESSAGES += [switch(f"{kind.lower()}-of-another-kind-is-unknown", f"{kind} of an entry that is no text is 6.", "press", OF_KIND, OF_KIND.replace("BAD_MESSAGE", f"21 if (kind, name) == (\"{kind}\", \"QueueEntryID\") else BAD_MESSAGE")) for kind in OF_ENTRIES]
MESSAGES += [switch(f"{kind.lower()}-has-a-default", f"{kind} without {name} is 7.", "press", ABSENT, f"    if kind == \"{kind}\":\n        message.setdefault(\"{name}\", {default})\n{ABSENT}") for kind, name, default, _ in PARAMETERS]
MESSAGES += [switch(f"{kind.lower()}-with-another-kind-is-{code}", f"{kind} whose {name} is of another kind is 6.", "press", OF_KIND, OF_KIND.replace("BAD_MESSAGE", f"{code} if (kind, name) == (\"{kind}\", \"{name}\") else BAD_MESSAGE"))
             for kind, name, _, code in PARAMETERS[:2]]
MESSAGES += [switch("submission-with-a-priority-of-another-kind-is-25", "SubmitQueueEntry whose Priority is of another kind is 6.", "press", OF_KIND, OF_KIND.replace("BAD_MESSAGE", "25 if (kind, name) == (\"SubmitQueueEntry\", \"Priority\") else BAD_MESSAGE"))]
MESSAGES += [
    switch("ticket-type-of-another-kind-is-603", "A type of a ticket that is no text is 602.", "ticket", "    \"Type\": json_text.is_text,\n", "    \"Type\": lambda value: True,\n"),
    switch("ticket-pages-of-another-kind-are-604", "A number of pages that is no number is 602.", "ticket", "    \"NPage\": json_text.is_whole,\n", "    \"NPage\": lambda value: True,\n",
           "ticket", "    if not 1 <= value[\"NPage\"]", "    if not json_text.is_whole(value[\"NPage\"]) or not 1 <= value[\"NPage\"]"),
    switch("ticket-amount-of-another-kind-is-605", "An amount that is no number is 602.", "ticket", "    \"Amount\": json_text.is_whole,\n", "    \"Amount\": lambda value: True,\n",
           "ticket", "    if not 1 <= value[\"Amount\"]", "    if not json_text.is_whole(value[\"Amount\"]) or not 1 <= value[\"Amount\"]"),
]

SWITCHES = [*NUMBERS, *COMMANDS, *RASTER, *LEAVING, *RESETS, *CURSOR, *VALUES, *PAGES, *MARKS, *MACROS, *OTHERS, *QUEUE, *FEEDS, *MOVING, *DRAWING, *LANGUAGE, *MESSAGES]
