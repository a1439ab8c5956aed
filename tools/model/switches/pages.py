"""Page sizes, orientations, sides, copies, and what closes a page."""

from . import switch

SIZES = [("Letter", 2550, 3300, 75, 60), ("Legal", 2550, 4200, 75, 60), ("A4", 2480, 3507, 71, 59), ("Executive", 2175, 3150, 75, 60),
         ("Ledger", 3300, 5100, 75, 60), ("A3", 3507, 4960, 71, 59)]
WHAT = ["wide", "high", "of space at its left in portrait", "of space at its left in landscape"]
NAMES = ["width", "height", "portrait-offset", "landscape-offset"]


def spelled(size):
    return 'Size("%s", %d, %d, %d, %d)' % size


def changed(size, place):
    """The size with one number that is a dot more."""
    numbers = list(size)
    numbers[place + 1] += 1
    return tuple(numbers)


SWITCHES = [switch(f"{size[0].lower()}-{NAMES[place]}", f"{size[0]} is {size[place + 1]:,} dots {WHAT[place]}." if place < 2 else f"{size[0]} has {size[place + 1]} dots {WHAT[place]}.",
                   "pages", spelled(size), spelled(changed(size, place))) for size in SIZES for place in range(4)]
SWITCHES += [switch(f"page-size-{number}-is-none", f"Page size {number} is {name}.", "table", f'{number}: "{name}"', f'{number + 900}: "{name}"')
             for number, name in [(1, "Executive"), (2, "Letter"), (3, "Legal"), (6, "Ledger"), (26, "A4"), (27, "A3")]]

SIZE_CLOSE = "    yield from engine.close_if_marked()\n    engine.deliver_pending_front()\n    engine.state.size"
TURN_CLOSE = "    yield from engine.close_if_marked()\n    engine.state.orientation = number(command)\n"
SIDES_CLOSE = "    yield from engine.close_if_marked()\n    engine.deliver_pending_front()\n    state.duplex"
NEW_PAGE = "    state.default_margins()\n    state.overlay = None\n    state.home()\n"
ORIENTATION = "    if not engine.names(number(command) in (0, 1, 2, 3)):\n"
SIDE = "    if not engine.names(number(command) in (0, 1, 2)):\n        return\n    state = engine.state\n    yield from close_marked_page(engine)\n"
SIDES = "    if not engine.names(number(command) in (0, 1, 2)):\n        return\n    state = engine.state\n    yield from engine.close_if_marked()\n"
EJECT = "def eject(engine, _command):\n    yield from close_marked_page(engine)\n\n\ndef close_m"
MARKED = "    if engine.state.marked:\n        yield from engine.close_page()\n        engine.state.move(engine.state.x, engine.state.home_line())\n"

SWITCHES += [
    # places
    switch("landscape-turns-the-other-way", "In landscape the left of the frame is the bottom of the page.", "pages", "return line, size.height - 1 - column", "return size.width - 1 - line, column"),
    switch("reverse-portrait-is-mirrored", "In reverse portrait both ways are turned.", "pages", "return size.width - 1 - column, size.height - 1 - line", "return column, size.height - 1 - line"),
    switch("reverse-landscape-is-mirrored", "In reverse landscape the left of the frame is the top of the page, and its top the right.", "pages", "return size.width - 1 - line, column", "return line, column"),
    switch("landscape-keeps-the-frame", "The frame is turned in landscape.", "pages", "return orientation in (LANDSCAPE, REVERSE_LANDSCAPE)", "return orientation == REVERSE_LANDSCAPE"),
    switch("reverse-landscape-keeps-the-frame", "The frame is turned in reverse landscape.", "pages", "return orientation in (LANDSCAPE, REVERSE_LANDSCAPE)", "return orientation == LANDSCAPE"),
    switch("logical-page-to-the-right-edge", "The logical page leaves space at the right, too.", "pages", "(width - 2 * offset(size, orientation))", "(width - offset(size, orientation))"),
    switch("marks-end-with-the-logical-page", "The strip right of the logical page can be painted.", "pages", "        inside = (1 << width) - 1\n", "        inside = (1 << width - offset(self.size, self.orientation)) - 1\n"),
    switch("marks-begin-with-the-logical-page", "Marks are bounded by the physical page.", "pages", "        if not 0 <= line < height:\n", "        if not 0 <= line < height - 1:\n"),
    switch("offsets-of-600-are-those-of-300", "At 600 dots to the inch the space at the left has twice as many dots.", "pages", "self.portrait_offset * times, self.landscape_offset * times", "self.portrait_offset, self.landscape_offset"),
    switch("size-of-600-is-that-of-300", "At 600 dots to the inch a page has twice as many dots each way.", "pages", "Size(self.name, self.width * times, self.height * times,", "Size(self.name, self.width, self.height,"),
    # page size
    switch("page-size-leaves-the-page", "A page size closes a marked page.", "table", SIZE_CLOSE, "    engine.deliver_pending_front()\n    engine.new_page()\n    yield from ()\n    engine.state.size"),
    switch("page-size-closes-any-page", "A page size leaves a page that is not marked.", "table", SIZE_CLOSE, SIZE_CLOSE.replace("close_if_marked", "close_page")),
    switch("page-size-keeps-a-front", "A page size delivers the front that waits at once.", "table", SIZE_CLOSE, SIZE_CLOSE.replace("    engine.deliver_pending_front()\n", "")),
    switch("page-size-drops-a-front", "A page size delivers the front that waits.", "table", SIZE_CLOSE, SIZE_CLOSE.replace("engine.deliver_pending_front()", "engine.state.pending_front = None")),
    switch("page-size-front-first", "A page size closes the page first, which may be the back of the front that waits.", "table", SIZE_CLOSE, "    engine.deliver_pending_front()\n" + SIZE_CLOSE),
    switch("page-size-that-holds-has-no-effect", "A page size does everything, also where it holds.", "table", SIZE_CLOSE, "    if engine.state.size.name == PAGE_SIZES[number(command)]:\n        return\n" + SIZE_CLOSE),
    switch("unknown-page-size-closes", "A page size that there is not does not close the page.", "table", "    if not engine.names(number(command) in PAGE_SIZES):\n        return\n",
           "    if not engine.names(number(command) in PAGE_SIZES):\n        yield from engine.close_if_marked()\n        return\n"),
    switch("page-size-sets-the-motion-indexes", "A page size leaves the motion indexes.", "table", ".at(engine.state.resolution)\n    new_logical_page(engine.state)\n", ".at(engine.state.resolution)\n    engine.state.default_motion()\n    new_logical_page(engine.state)\n"),
    switch("page-size-turns-to-portrait", "A page size leaves the orientation.", "table", ".at(engine.state.resolution)\n    new_logical_page(engine.state)\n", ".at(engine.state.resolution)\n    engine.state.orientation = 0\n    new_logical_page(engine.state)\n"),
    switch("page-size-at-300", "A page size is of the resolution that holds.", "table", "pages.SIZES[PAGE_SIZES[number(command)]].at(engine.state.resolution)", "pages.SIZES[PAGE_SIZES[number(command)]]"),
    switch("new-page-keeps-margins", "A page size or an orientation sets the margins at the sides to the new logical page.", "table", NEW_PAGE,
           "    left, right = state.left_margin, state.right_margin\n    state.default_margins()\n    state.left_margin, state.right_margin = left, right\n    state.overlay = None\n    state.home()\n"),
    switch("new-page-keeps-the-left-margin", "A page size or an orientation sets the left margin to 0.", "table", NEW_PAGE, "    left = state.left_margin\n    state.default_margins()\n    state.left_margin = left\n    state.overlay = None\n    state.home()\n"),
    switch("new-page-keeps-the-top-margin", "A page size or an orientation sets the top margin to half an inch.", "table", NEW_PAGE, "    top = state.top_margin\n    state.default_margins()\n    state.top_margin = top\n    state.default_text_length()\n    state.overlay = None\n    state.home()\n"),
    switch("new-page-keeps-the-text-length", "A page size or an orientation sets the text length to its default.", "table", NEW_PAGE, "    length = state.text_length\n    state.default_margins()\n    state.text_length = length\n    state.overlay = None\n    state.home()\n"),
    switch("new-page-keeps-the-overlay", "A page size or an orientation puts the overlay off.", "table", NEW_PAGE, NEW_PAGE.replace("    state.overlay = None\n", "")),
    switch("new-page-keeps-the-cursor", "A page size or an orientation puts the cursor home.", "table", NEW_PAGE, NEW_PAGE.replace("state.home()", "state.move(state.x, state.y)")),
    switch("new-page-empties-the-stack", "A page size or an orientation leaves the stack of cursors.", "table", NEW_PAGE, NEW_PAGE + "    state.stack = []\n"),
    switch("new-page-closes-without-the-overlay", "The page that a page size or an orientation closes has its overlay.", "engine", "        if self.state.marked:\n            yield from self.close_page()\n\n    def deliver_p",
           "        if self.state.marked:\n            held, self.state.overlay = self.state.overlay, None\n            yield from self.close_page()\n            self.state.overlay = held\n\n    def deliver_p"),
    # orientation
    switch("orientation-leaves-the-page", "An orientation closes a marked page.", "table", TURN_CLOSE, "    engine.new_page()\n    yield from ()\n    engine.state.orientation = number(command)\n"),
    switch("orientation-closes-any-page", "An orientation leaves a page that is not marked.", "table", TURN_CLOSE, TURN_CLOSE.replace("close_if_marked", "close_page")),
    switch("orientation-delivers-a-front", "An orientation leaves the front that waits.", "table", TURN_CLOSE, TURN_CLOSE.replace("    engine.state.o", "    engine.deliver_pending_front()\n    engine.state.o")),
    switch("orientation-that-holds-has-no-effect", "An orientation does everything, also where it holds.", "table", TURN_CLOSE, "    if engine.state.orientation == number(command):\n        return\n" + TURN_CLOSE),
    switch("orientation-leaves-the-motion-index-down", "An orientation sets the motion index down to its default.", "table", "    engine.state.default_motion()\n", "    engine.state.hmi = 720\n"),
    switch("orientation-leaves-the-motion-index-across", "An orientation sets the motion index across to its default.", "table", "    engine.state.default_motion()\n", "    engine.state.vmi = 1200\n"),
    switch("orientation-of-2-is-none", "There is reverse portrait.", "table", ORIENTATION, ORIENTATION.replace("(0, 1, 2, 3)", "(0, 1, 3)")),
    switch("orientation-of-3-is-none", "There is reverse landscape.", "table", ORIENTATION, ORIENTATION.replace("(0, 1, 2, 3)", "(0, 1, 2)")),
    switch("orientation-of-4-is-portrait", "An orientation that there is not has no effect.", "table", ORIENTATION, "    if not engine.names(0 <= number(command) <= 4):\n", "table", TURN_CLOSE, TURN_CLOSE.replace("number(command)", "number(command) % 4")),
    switch("unknown-orientation-closes", "An orientation that there is not does not close the page.", "table", ORIENTATION + "        return\n",
           "    if not engine.names(number(command) in (0, 1, 2, 3)):\n        yield from engine.close_if_marked()\n        return\n"),
    # sides
    switch("sides-leave-the-page", "Simplex and duplex close a marked page.", "table", SIDES_CLOSE, "    engine.deliver_pending_front()\n    yield from ()\n    state.duplex"),
    switch("sides-close-any-page", "Simplex and duplex leave a page that is not marked.", "table", SIDES_CLOSE, SIDES_CLOSE.replace("close_if_marked", "close_page")),
    switch("sides-keep-a-front", "Simplex and duplex deliver the front that waits at once.", "table", SIDES_CLOSE, SIDES_CLOSE.replace("    engine.deliver_pending_front()\n", "")),
    switch("sides-front-first", "Simplex and duplex close the page first, which may be the back of the front that waits.", "table", SIDES_CLOSE, "    engine.deliver_pending_front()\n" + SIDES_CLOSE),
    switch("sides-that-hold-have-no-effect", "Simplex and duplex do everything, also where they hold.", "table", SIDES_CLOSE, "    if state.duplex == (number(command) != 0):\n        return\n" + SIDES_CLOSE),
    switch("sides-of-2-are-none", "There is duplex along the short edge.", "table", SIDES, SIDES.replace("(0, 1, 2)", "(0, 1)")),
    switch("sides-of-3-are-duplex", "Sides that there are not have no effect.", "table", SIDES, SIDES.replace("(0, 1, 2)", "(0, 1, 2, 3)"), "table", "2: \"SHORTEDGE\"}", "2: \"SHORTEDGE\", 3: \"SHORTEDGE\"}"),
    switch("unknown-sides-close", "Sides that there are not do not close the page.", "table", SIDES, "    state = engine.state\n    yield from engine.close_if_marked()\n    if not engine.names(number(command) in (0, 1, 2)):\n        return\n"),
    switch("sides-leave-the-cursor", "Simplex and duplex put the cursor home.", "table", "2: \"SHORTEDGE\"}[number(command)]\n    state.home()\n", "2: \"SHORTEDGE\"}[number(command)]\n"),
    switch("sides-set-margins", "Simplex and duplex leave the margins.", "table", "2: \"SHORTEDGE\"}[number(command)]\n    state.home()\n", "2: \"SHORTEDGE\"}[number(command)]\n    state.default_margins()\n    state.home()\n"),
    switch("sides-put-the-overlay-off", "Simplex and duplex leave the overlay.", "table", "2: \"SHORTEDGE\"}[number(command)]\n    state.home()\n", "2: \"SHORTEDGE\"}[number(command)]\n    state.overlay = None\n    state.home()\n"),
    # ejection and the choice of a side
    switch("eject-closes-any-page", "The paper source leaves a page that is not marked.", "table", EJECT, "def eject(engine, _command):\n    yield from engine.close_page()\n    engine.state.move(engine.state.x, engine.state.home_line())\n\n\ndef close_m"),
    switch("eject-never-closes", "The paper source closes a marked page.", "table", EJECT, "def eject(engine, _command):\n    yield from ()\n\n\ndef close_m"),
    switch("eject-by-0-alone", "The paper source closes a marked page by every value.", "table", EJECT, EJECT.replace("_command):\n", "command):\n    if number(command) != 0:\n        return\n")),
    switch("eject-always-goes-home", "The paper source moves the cursor where it closes a page alone.", "table", MARKED, "    if engine.state.marked:\n        yield from engine.close_page()\n    engine.state.move(engine.state.x, engine.state.home_line())\n"),
    switch("eject-stays-down", "Where the paper source or the choice of a side closes a page the cursor is home down.", "table", MARKED, "    if engine.state.marked:\n        yield from engine.close_page()\n"),
    switch("eject-moves-left", "Where the paper source or the choice of a side closes a page the cursor stays across.", "table", MARKED, "    if engine.state.marked:\n        yield from engine.close_page()\n        engine.state.home()\n"),
    switch("side-leaves-the-page", "The choice of a side closes a marked page.", "table", SIDE, SIDE.replace("yield from close_marked_page(engine)", "yield from ()")),
    switch("side-closes-any-page", "The choice of a side leaves a page that is not marked.", "table", SIDE, SIDE.replace("yield from close_marked_page(engine)", "yield from engine.close_page()")),
    switch("unknown-side-closes", "A side that there is not does not close the page.", "table", SIDE, "    state = engine.state\n    yield from close_marked_page(engine)\n    if not engine.names(number(command) in (0, 1, 2)):\n        return\n"),
    switch("side-1-keeps-a-front", "The choice of the front side delivers the front that waits.", "table", "    if number(command) == 1:\n        engine.deliver_pending_front()\n", "    if number(command) == 1:\n        pass\n"),
    switch("side-0-delivers-a-front", "The choice of the next side leaves the front that waits.", "table", "    if number(command) == 1:\n        engine.deliver_pending_front()\n", "    if number(command) in (0, 1):\n        engine.deliver_pending_front()\n"),
    switch("side-0-makes-a-front", "The choice of the next side makes no front.", "table", "    elif number(command) == 2 and state.duplex and", "    elif state.duplex and"),
    switch("side-2-in-simplex", "The choice of the back side makes no blank front in simplex.", "table", "number(command) == 2 and state.duplex and state.pending_front is None:", "number(command) == 2 and state.pending_front is None:"),
    switch("side-2-replaces-a-front", "The choice of the back side leaves a front that waits.", "table", "number(command) == 2 and state.duplex and state.pending_front is None:", "number(command) == 2 and state.duplex:"),
    switch("side-2-makes-no-front", "The choice of the back side without a front makes a blank one.", "table", "number(command) == 2 and state.duplex and state.pending_front is None:", "number(command) == 2 and state.duplex is None:"),
    switch("side-2-closes-the-back", "The choice of the back side asks for a front behind its own close.", "table", "    state = engine.state\n    yield from close_marked_page(engine)\n    if number(command) == 1:\n",
           "    state = engine.state\n    without = state.pending_front is None\n    yield from close_marked_page(engine)\n    if number(command) == 1:\n", "table", "state.duplex and state.pending_front is None:", "state.duplex and without:"),
    # copies and closes
    switch("copies-of-zero", "There is at least one copy.", "table", "    if engine.names(number(command) >= 1):\n        engine.state.copies = min", "    if engine.names(number(command) >= 0):\n        engine.state.copies = min"),
    switch("copies-above-999-are-none", "A number of copies above 999 is taken as 999.", "table", "    if engine.names(number(command) >= 1):\n        engine.state.copies = min", "    if engine.names(1 <= number(command) <= 999):\n        engine.state.copies = min"),
    switch("copies-above-999", "There are 999 copies at most.", "table", "        engine.state.copies = min(GREATEST_COPIES, number(command))\n", "        engine.state.copies = number(command)\n"),
    switch("copies-of-the-job-language", "A sheet goes out in the copies in force then.", "engine", "        for _ in range(state.copies):\n", "        for _ in range(int(state.pjl.current[b\"COPIES\"])):\n"),
    switch("one-copy", "A sheet goes out as often as the copies say.", "engine", "        for _ in range(state.copies):\n", "        for _ in range(1):\n"),
    switch("blank-sheet-is-not-delivered", "A blank sheet is delivered, too.", "engine", "        state = self.state\n        for _ in range(state.copies):\n", "        state = self.state\n        if not any(side.lines for _, side in sheet.sides()):\n            return\n        for _ in range(state.copies):\n"),
    switch("simplex-page-waits", "In simplex a page is a sheet without back.", "engine", "        if not state.duplex:\n            self.deliver", "        if not state.duplex and state.pending_front:\n            self.deliver"),
    switch("duplex-page-is-a-sheet", "In duplex a page waits for its back.", "engine", "        if not state.duplex:\n            self.deliver", "        if True:\n            self.deliver"),
    switch("back-is-the-front", "The later of the two pages of a sheet is its back.", "engine", "            self.deliver(pages.Sheet(front, side))\n", "            self.deliver(pages.Sheet(side, front))\n"),
    switch("front-waits-on", "A front waits for one back.", "engine", "            state.pending_front = None\n            self.deliver(pages.Sheet(front, side))\n", "            self.deliver(pages.Sheet(front, side))\n"),
    switch("page-keeps-its-marks", "The page behind a close is blank.", "engine", "        side = state.page or pages.Bitmap(state.size, state.orientation)\n        self.new_page()\n", "        side = state.page or pages.Bitmap(state.size, state.orientation)\n        state.marked = False\n"),
    switch("page-stays-marked", "The page behind a close is not marked.", "engine", "        side = state.page or pages.Bitmap(state.size, state.orientation)\n        self.new_page()\n", "        side = state.page or pages.Bitmap(state.size, state.orientation)\n        self.new_page()\n        state.marked = True\n"),
    switch("close-without-an-overlay", "Each page close runs the overlay.", "engine", "        yield from macros.run_overlay(self)\n", "        yield from ()\n"),
    switch("blank-page-without-an-overlay", "The close of a blank page runs the overlay, too.", "engine", "        yield from macros.run_overlay(self)\n", "        if self.state.marked:\n            yield from macros.run_overlay(self)\n"),
    switch("overlay-under-fronts-alone", "The close of a back runs the overlay, too.", "engine", "        yield from macros.run_overlay(self)\n", "        if self.state.pending_front is None:\n            yield from macros.run_overlay(self)\n"),
    switch("total-is-not-counted", "Each delivery counts as a sheet of all.", "engine", "            state.total = min(GREATEST_COUNT, state.total + 1)\n", ""),
    switch("copies-count-as-one", "Each copy counts as a sheet.", "engine", "            state.total = min(GREATEST_COUNT, state.total + 1)\n", "            state.total = min(GREATEST_COUNT, state.total + 1) if _ == 0 else state.total\n"),
    switch("since-job-is-not-counted", "Each delivery counts as a sheet since the job.", "engine", "            state.since_job = min(GREATEST_COUNT, state.since_job + 1)\n", ""),
    switch("one-status-for-all-copies", "Each copy has its own status.", "engine", "            if state.pjl.status:\n", "            if state.pjl.status and _ == 0:\n"),
    switch("status-of-all-sheets", "The status of a sheet tells the count since the job.", "engine", "pjl.page_reply(state.since_job)", "pjl.page_reply(state.total)"),
    switch("status-before-the-sheet-counts", "The status of a sheet counts it.", "engine", "pjl.page_reply(state.since_job)", "pjl.page_reply(state.since_job - 1)"),
    switch("status-is-always-on", "The status of a sheet is told with the switch on alone.", "engine", "            if state.pjl.status:\n", "            if True:\n"),
    switch("status-is-never-told", "The status of a sheet is told with the switch on.", "engine", "            if state.pjl.status:\n", "            if False:\n"),
]
