"""A trace to walk in, forwards and back: which command each step takes, and fields and page behind any number of steps.

Its lines stand in a file (opened.py), and are read as far as a step is looked at: once, for what a block of them has and where it begins. What a step
is, is read again from its block. Of a page the places are kept where the blocks begin that were looked at last.
"""

import array
import bisect
import re
from typing import NamedTuple, Optional

from model import commands

from . import program, traced
from .bodies import Body, Follower, Placed, Step, how_of
from .fields import Fields, Now, power_on
from .happenings import of_step
from .opened import Opened
from .patches import PATCH, Page, laid_over, rows_of
from .placing import Placer
from .sent import letters

MOST_LINES, MOST_BYTES = 256, 1_000_000   # of a block
MOST_BLOCKS, MOST_PAGES = 4, 8            # that are kept, of those that were read again
MOST_RECENT = 64
GREATEST = 2 ** 64 - 1
SHEET, REPLY, IDLE, RECORDED = 1, 2, 4, 8      # what is noted of a step
CHANGES = ("view", "page", "opened", "delivered", "reply", "recorded")
UNSEEN = ("*cW", "*cQ", "&fX")                 # what these change is no field
FIRST_TEXT = 0x20
EVERYWHERE = ("step", "last", "depth", "recorded", "x", "y")    # what changes in most blocks

# A line in which no more changes than the page, the cursor, and the row of raster graphics; at depth 0, of a command that begins no body.
QUICK = re.compile(rb'\{"at":(\d+),"bytes":(\d+),"depth":0,"last":"((?!pjl|uel|par \*cW|par \*cQ|par &fX)[^"]+)",'
                   rb'(?:"page":\{"height":(\d+),"rows":\["[^\]]*"\],"width":\d+,"x":\d+,"y":\d+\},)?'
                   rb'(?:"refused":"[^"]+",)?"sheets":(\d+),"step":\d+,(?:"view":\{"raster":\{"rows":(\d+)\}\},)?"x":(-?\d+),"y":(-?\d+)\}\n')
OPENED = re.compile(rb'"opened":\[(\d+),(\d+)\]')


class Entry(NamedTuple):
    """A line: a step, or a run of steps that do no more than count."""
    first: int               # the number of its first step
    line: dict
    step: Optional[Step]     # None of a run
    now: Now                 # the fields behind it
    view: dict
    flags: int
    version: int             # how often the page changed by then


class State:
    """What holds behind a number of steps; it goes on by lines."""

    def __init__(self, whole, fields, follower, placer):
        self.whole, self.fields, self.follower, self.placer = whole, fields, follower, placer
        self.count = self.version = 0
        self.opened = None       # the block and the number of the step in which the page began that is open
        self.view = dict(fields.view)
        self.placed = None       # the command of the stream that is carried out

    def take(self, text):
        """Goes on by a line as it stands: what it is."""
        line = traced.told(text)
        before, steps = self.follower.fields, line.get("steps", 1)
        after = self.fields.go_on(line)
        if steps == 1:
            self.placed = self.placed if self.follower.bodies else self.placer.placed(line)
            step = self.follower.go_on(line, self.placed, after)
        else:
            self.placer.before, self.follower.fields, step = (line["last"], b""), after, None
        if "view" in line:
            self.view = dict(self.fields.view)
        self.version += "page" in line or "opened" in line
        self.count += steps
        return Entry(self.count - steps + 1, line, step, after, self.view, self.flags_of(line, step, before), self.version)

    def flags_of(self, line, step, before):
        """What went out in a step, and whether it did nothing."""
        still = (line["x"], line["y"]) == (before["x"], before["y"])
        if step is not None:
            command = step.placed.command
            unseen = step.how == "row" and letters(command) in UNSEEN or isinstance(command, (commands.PjlLine, commands.Uel))
            still = still and not unseen and line["depth"] == len(step.stack)
        idle = still and not any(key in line for key in CHANGES[1 if line["step"] == line.get("steps", 1) else 0:])
        return SHEET * ("delivered" in line) + REPLY * ("reply" in line) + IDLE * idle + RECORDED * ("recorded" in line)


class Stretch:
    """Lines one after another that were matched, by whose last one the state goes on."""

    def __init__(self, state, block):
        self.state, self.block = state, block
        self.count = self.patches = 0
        self.rows = self.last = None
        self.cursor = b"%d" % state.fields.now.x, b"%d" % state.fields.now.y

    def take(self, text):
        """Goes on by a line, if it is matched."""
        if (found := QUICK.fullmatch(text)) is None:
            return False
        at, _, kind, patch, _, rows, x, y = found.groups()
        block, cursor = self.block, (x, y)
        block.kinds.add(kind)
        if patch is not None:
            self.patches += 1
        elif rows is None and cursor == self.cursor:
            block.flags |= IDLE
        if block.first is None:
            block.first = int(at)
        self.cursor, self.last, self.rows = cursor, found, rows or self.rows
        self.count += 1
        return True

    def end(self):
        if self.last is None:
            return
        state, block = self.state, self.block
        at, size, kind, _, sheets, _, x, y = self.last.groups()
        state.follower.fields = state.fields.go_on_row(int(x), int(y), int(sheets), self.rows and int(self.rows))
        state.placer.before = kind.decode(), state.whole[int(at):int(at) + int(size)]
        state.count, state.version, block.last = state.count + self.count, state.version + self.patches, int(at) + int(size)
        if self.rows is not None:
            block.keys.add("raster.rows")


class Block:
    """What holds where it begins, and what its lines have."""

    def __init__(self, state, place, macros):
        self.place = place                          # of its first line
        self.count, self.version, self.opened = state.count, state.version, state.opened
        self.fields_view, self.now = dict(state.fields.whole_view()), state.fields.now
        follower = state.follower
        self.macros, self.recording = macros, (follower.recording, len(follower.recording))
        self.bodies = [(body, body.taken) for body in follower.bodies]
        self.placed, self.before = state.placed, state.placer.before
        self.end = self.behind = None               # the number of its last step, and the place behind its lines
        self.kinds, self.keys, self.flags = set(), set(), 0
        self.first = self.last = None               # bytes of the stream to which its steps belong
        self.has_bodies = self.is_first = False
        self.changes_page = False

    def state(self, whole, kept):
        """The state where it begins."""
        fields, placer = Fields(), Placer(whole)
        fields.view, fields.now = dict(self.fields_view), self.now
        placer.kept, placer.before = kept, self.before
        follower = Walker(self.now)
        follower.macros, (recorded, count) = dict(self.macros), self.recording
        follower.recording = recorded[:count]
        follower.bodies = [again(body, taken) for body, taken in self.bodies]
        state = State(whole, fields, follower, placer)
        state.count, state.version, state.opened, state.placed = self.count, self.version, self.opened, self.placed
        return state

    def note(self, entry, whole):
        """Notes what a line has that was not matched."""
        line = entry.line
        self.flags |= entry.flags
        self.first, self.last = line["at"] if self.first is None else self.first, line["at"] + line["bytes"]
        self.has_bodies = self.has_bodies or bool(line["depth"]) or entry.step is not None and bool(entry.step.stack)
        self.keys.update(f"{name}.{key}" for name, some in line.get("view", {}).items() for key in some)
        self.kinds.update([line["last"].encode()] if entry.step is not None else kinds_of_run(whole, line))

    def has_place(self, place):
        """Whether a step in it may take the command that stands there."""
        return self.has_bodies or self.first <= place <= self.last

    def changes(self, name):
        """Whether a field may change in it, by its name, or the page."""
        if name == "page":
            return self.changes_page
        return self.is_first or name in self.keys or name in EVERYWHERE or name == "sheets" and bool(self.flags & SHEET)


class Walker(Follower):
    """Follows commands without the user's patterns."""

    def keep_patterns(self, command, before):
        pass


def again(body, taken):
    """A body, of which so many commands were taken."""
    other = Body(body.overlay, body.number, body.commands, body.starter)
    other.taken = taken
    return other


class Film:
    """The steps of a stream. Behind 0 steps it stands at power on."""

    def __init__(self, stream, front=b"", chosen=program.PROGRAM):
        self.stream, self.shift, self.whole = stream, len(front), front + stream
        self.opened = Opened(self.whole, chosen)
        self.who = self.opened.who
        fields = Fields()
        follower = Walker(fields.go_on(power_on(chosen)))
        self.state_read = State(self.whole, fields, follower, Placer(self.whole))
        self.blocks, self.counts, self.count, self.is_whole, self.fault = [], array.array("Q"), 0, False, None
        self.lines_left, self.place, self.power_on = self.opened.lines(), 0, (fields.now, dict(fields.view))
        self.read_again, self.pages = {}, {}     # blocks, and pages where blocks begin

    # What is read of the file

    def read(self):
        """Reads a block of lines once; False at the end."""
        state = self.state_read
        block, place, taken, bodies = Block(state, self.place, self.macros()), self.place, 0, state.follower.bodies
        block.is_first, stretch = not self.blocks, Stretch(state, block)
        for text in self.lines_left:
            place, taken = place + len(text), taken + 1
            if bodies or not stretch.take(text):
                stretch.end()
                entry = state.take(text)
                block.note(entry, self.whole)
                self.note_opened(entry)
                stretch = Stretch(state, block)
            if taken >= MOST_LINES or place - self.place >= MOST_BYTES:
                break
        if not taken:
            return False
        stretch.end()
        block.changes_page = state.version != block.version
        block.end, block.behind, self.place = state.count, place, place
        self.blocks.append(block)
        self.counts.append(block.count)
        self.count = state.count
        return True

    def macros(self):
        """The macros that stand, the same as for the block before where they are."""
        macros = self.state_read.follower.macros
        return self.blocks[-1].macros if self.blocks and self.blocks[-1].macros == macros else dict(macros)

    def note_opened(self, entry):
        """Which page is open behind a line."""
        if "opened" in entry.line:
            self.state_read.opened = len(self.blocks), entry.first
        if entry.line.get("page", ()) is None:
            self.state_read.opened = None

    def has(self, count):
        """Whether there are so many steps; the lines are read as far as that."""
        while self.count < count and not self.is_whole:
            if self.fault:
                raise self.fault
            try:
                self.is_whole = not self.read()
            except (OSError, ValueError) as fault:
                self.fault = fault
        return self.count >= count

    def up_to(self, count):
        """So many steps, or all where there are fewer."""
        return count if self.has(count) else self.count

    def __len__(self):
        """How many steps there are; for that all lines are read."""
        while not self.is_whole:
            self.has(self.count + 1)
        return self.count

    # What a step is

    def block_of(self, count):
        """The number of the block in which this step stands, counted from 1."""
        self.has(count)
        return bisect.bisect_left(self.counts, count) - 1

    def entries(self, number):
        """What each line of a block is, and the number of the first step of each; those that were read last are kept."""
        if (found := self.read_again.pop(number, None)) is None:
            block = self.blocks[number]
            state = block.state(self.whole, self.state_read.placer.kept)
            entries = [state.take(text) for text in self.opened.between(block.place, block.behind)]
            found = entries, [entry.first for entry in entries]
            while len(self.read_again) >= MOST_BLOCKS:
                self.read_again.pop(next(iter(self.read_again)))
        self.read_again[number] = found
        return found

    def entry(self, count):
        """The line in which this step stands, counted from 1."""
        entries, firsts = self.entries(self.block_of(count))
        return entries[bisect.bisect_right(firsts, count) - 1]

    def line(self, count):
        """What is told of this step, counted from 1."""
        entry = self.entry(count)
        return entry.line if entry.step is not None else line_of_run(self.whole, entry.line, count - entry.first)

    def placed(self, count):
        """The command that this step takes, counted from 1."""
        entry = self.entry(count)
        return entry.step.placed if entry.step is not None else placed_in_run(self.whole, entry.line, count - entry.first)

    def how(self, count):
        """How that command went, as bodies.how_of tells it."""
        return how_of(self.line(count))

    def kind(self, count):
        """The kind of that command; None behind 0 steps."""
        return commands.kind(self.placed(count).command) if count else None

    def kinds(self):
        """The kinds of all commands that are taken."""
        self.has(GREATEST)
        return {kind.decode() for block in self.blocks for kind in block.kinds}

    def flags(self, count):
        return self.entry(count).flags if count else 0

    def version(self, count):
        """How often the page changed by then."""
        return self.entry(count).version if count else 0

    def depth(self, count):
        return self.entry(count).line["depth"] if count and self.has(count) else 0

    def next(self, count):
        """The command that the step behind so many takes; None at the end."""
        return self.placed(count + 1) if self.has(count + 1) else None

    def stack(self, count):
        """The bodies that run behind so many steps, the innermost last."""
        step = self.entry(count + 1).step if self.has(count + 1) else None
        return step.stack if step is not None else ()

    def recent(self, count):
        """The kinds of the commands that were taken last, oldest first."""
        return [self.kind(each) for each in range(max(0, count - MOST_RECENT) + 1, count + 1)]

    # What holds behind so many steps

    def state(self, count):
        """The fields behind so many steps, by the names of the tools, and as the view nests them."""
        if not count:
            return self.power_on
        entry = self.entry(count)
        return entry.now, entry.view

    def told(self, count):
        """What can be asked of a number of steps, by name: the fields as `object.field`, and `page`, which is how often it changed by then."""
        now, view = self.state(count)
        told = {"step": count, "depth": self.depth(count), "x": now["x"], "y": now["y"], "sheets": now["total"], "last": self.kind(count),
                "recorded": bool(self.flags(count) & RECORDED), "page": self.version(count)}
        return told | {f"{name}.{key}": value for name, some in view.items() for key, value in some.items()}

    def opened_by(self, count):
        """The block and the step in which the page began that is open behind so many steps; None where none is."""
        number = self.block_of(count)
        opened = self.blocks[number].opened
        for entry in self.entries(number)[0]:
            if entry.first > count:
                break
            if "opened" in entry.line:
                opened = number, entry.first
            if entry.line.get("page", ()) is None:
                opened = None
        return opened

    def page(self, count):
        """The open page behind so many steps, or None: laid from where it began, or from a block that was looked at."""
        opened = self.opened_by(count) if count and self.has(count) else None
        if opened is None:
            return None
        number, last = opened[0], self.block_of(count)
        page = None
        for near in range(last, number, -1):
            if (near, opened) in self.pages:
                number, page = near, self.pages[near, opened].copy()
                break
        for each in range(number, last + 1):
            if page is not None and (each, opened) not in self.pages:
                self.keep_page(each, opened, page)
            page = self.lay(self.blocks[each], page, opened[1] if page is None else 0, count)
        return page

    def keep_page(self, number, opened, page):
        while len(self.pages) >= MOST_PAGES:
            self.pages.pop(next(iter(self.pages)))
        self.pages[number, opened] = page.copy()

    def lay(self, block, page, first, last):
        """A page with the patches of a block on it, from this step to that one; it begins in the first where there is none."""
        count = block.count
        for text in self.opened.between(block.place, block.behind):
            steps = traced.told(text)["steps"] if b'"steps":' in text else 1
            count += steps
            if count < first:
                continue
            if count > last:
                break
            if (began := OPENED.search(text)) is not None and page is None:
                page = Page(int(began[1]), int(began[2]))
            if (patch := PATCH.search(text)) is not None and page is not None:
                page.lay_rows(int(patch[2]) // 8, int(patch[3]), rows_of(patch[1]))
        return page

    def happening(self, place):
        """What the command does by itself that stands at a place of the stream, and runs no body."""
        place += self.shift
        while not self.blocks or self.blocks[-1].last <= place:
            self.has(self.count + 1)
        number = bisect.bisect_right(self.blocks, place, key=lambda block: block.first) - 1
        entry = next(entry for entry in self.entries(number)[0] if entry.line["at"] == place)
        step, told = entry.step, entry.line.get("page")
        patch = laid_over(self.page(entry.first - 1), told) if told else None
        return of_step(entry.line, step._replace(placed=step.placed._replace(offset=place - self.shift)), 0, patch)

    def dot(self, count, x, y):
        """Whether a dot of the open page is black behind so many steps; None where it is on no page."""
        page = self.page(count)
        if page is None or not (0 <= x < page.width and 0 <= y < page.height):
            return None
        return bool(page.rows[y][x // 8] >> 7 - x % 8 & 1)

    def changes_dot(self, count, x, y):
        """Whether a step changes a dot; that a page goes out changes none of it."""
        if not count or not self.has(count) or self.version(count) == self.version(count - 1):
            return False
        patch = self.line(count).get("page")
        if not patch or not (patch["x"] <= x < patch["x"] + patch["width"] and patch["y"] <= y < patch["y"] + patch["height"]):
            return False
        return bool(self.dot(count, x, y)) != bool(self.dot(count - 1, x, y))

    # Where to go

    def over(self, count):
        """How many steps were taken behind the next command and all that it runs."""
        depth, count = self.depth(count), self.up_to(count + 1)
        while self.depth(count) > depth:
            count += 1
        return count

    def out(self, count):
        """How many steps were taken where the innermost body that runs has ended."""
        depth = self.depth(count)
        while self.has(count + 1) and self.depth(count) >= max(1, depth):
            count += 1
        return count if depth else len(self)

    def back_over(self, count):
        """How many steps were taken before the command that was taken last in this body, and before all that it ran."""
        depth, count = self.depth(count), max(0, count - 1)
        while count > 0 and self.depth(count) > depth:
            count -= 1
        return count

    def sought(self, count, step, may, at, most=GREATEST):
        """Goes on or back, at most so many steps, to where `at` answers something: how many steps were taken there, and what it answers, or None at
        the end. Over blocks of which `may` says that nothing can be met it goes at once."""
        last = count + most if step > 0 else max(0, count - most)
        while count != last and (self.has(count + 1) if step > 0 else count):
            count += step
            block = self.blocks[self.block_of(count)] if count else None
            if block is not None and not may(block):
                count = min(block.end, last) if step > 0 else max(block.count + 1, last)
            elif (met := at(count)) is not None:
                return count, met
        return count, None

    def behind(self, block):
        """The block behind a block; None at the end."""
        return self.blocks[self.block_of(block.end + 1)] if self.has(block.end + 1) else None

    def taking(self, place):
        """The numbers of steps behind which the command comes that stands at a place."""
        self.has(GREATEST)
        for block in self.blocks:
            if block.has_place(place):
                yield from (count for count in range(block.count, block.end) if self.placed(count + 1).offset == place)


def byte_of_run(whole, line, number):
    place = line["at"] + number
    first = whole[place]
    return place, commands.Foreign(first) if line["last"] == "for" else commands.Text(first) if first >= FIRST_TEXT else commands.Control(first)


def placed_in_run(whole, line, number):
    """The command of a step in a run, counted from 0."""
    place, command = byte_of_run(whole, line, number)
    return Placed(place, 1, command)


def line_of_run(whole, line, number):
    """What is told of that step alone."""
    place, command = byte_of_run(whole, line, number)
    told = {**line, "at": place, "bytes": 1, "last": commands.kind(command), "step": line["step"] - line["steps"] + 1 + number}
    del told["steps"]
    if number:
        told.pop("view", None)
    return told


def kinds_of_run(whole, line):
    """The kinds of the commands in a run."""
    if line["last"] == "for":
        return [b"for"]
    return {commands.kind(commands.Text(byte) if byte >= FIRST_TEXT else commands.Control(byte)).encode() for byte in set(whole[line["at"]:line["at"] + line["bytes"]])}
