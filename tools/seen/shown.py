"""All that the page of tools/show knows, packed: rows of the list, steps, fields, patches of the pages, and the sides that went out.

An entry is a table step, or bytes that are passed over at once. Columns and chunks are deflated, and spelled in base 64; the scripts of the page
take them apart when they are needed.
"""

import array
import base64
import bisect
import itertools
import json
import operator
import sys
import zlib
from binascii import unhexlify

from reasons import streams
from reasons.untraced import NO_SUCH_VALUE

from . import happenings, png, program, remarks, sides
from .explained import END, parts, told_of_stretch
from .patches import BETWEEN
from .stretches import Stretch

ROWS_IN_CHUNK, ENTRIES_IN_CHUNK, BYTES_IN_CHUNK = 500, 500, 1 << 20
LEVEL = 4
LONGEST_LINE, LONGEST_REMARK = 120, 1000
IGNORED, SENDS, REPLIES, WRONG = 1, 2, 4, 8
MOST_PICTURES = 500
COLUMNS = ("step", "x", "y", "across", "down", "own", "stack", "page", "sheets")
NONE = -1
NOTHING_RUNS = ()


as_json = json.JSONEncoder(separators=(",", ":")).encode
as_text = json.JSONEncoder(separators=(",", ":"), ensure_ascii=False).encode


def packed(data):
    return base64.b64encode(zlib.compress(data, LEVEL)).decode()


def column(numbers):
    """Whole numbers of 32 bits, the lowest byte first, as differences: the first bytes of all, then the second ones.."""
    differences = array.array("i", map(operator.sub, numbers, itertools.chain([0], numbers)))
    if sys.byteorder == "big":
        differences.byteswap()
    data = differences.tobytes()
    return packed(b"".join(data[place::4] for place in range(4)))


def chunked(items, size):
    """Values that are spelled as JSON as chunks of it; they are taken one after another."""
    items = iter(items)
    while some := list(itertools.islice(items, size)):
        yield packed(f"[{','.join(some)}]".encode())


def extend(columns, *more):
    for column, numbers in zip(columns, more):
        column.extend(numbers)


class FilmPage:
    """A page that was open: its patches, each with its entry and its box in bytes and lines, and their rows behind one another."""

    def __init__(self, width, height, first):
        self.width, self.height, self.first, self.last = width, height, first, NONE
        self.boxes = [array.array("i") for _ in range(5)]     # of each patch entry, left byte, top, bytes across, lines
        self.data, self.chunks = bytearray(), []
        self.hashes = None

    def add(self, entry, left, top, rows):
        """A patch, which begins at this byte and line."""
        extend(self.boxes, [entry], [left], [top], [len(rows[0])], [len(rows)])
        self.keep(rows[0] if len(rows) == 1 else b"".join(rows))

    def keep(self, data):
        self.data += data
        while len(self.data) >= BYTES_IN_CHUNK:
            self.chunks.append(packed(bytes(self.data[:BYTES_IN_CHUNK])))
            del self.data[:BYTES_IN_CHUNK]

    def add_rows(self, entries, stretch):
        """Those of the rows of a stretch that mark, of which these are the entries."""
        across = [((len(spelled) + len(BETWEEN)) // height - len(BETWEEN)) // 2 for spelled, height in zip(stretch.spelled, stretch.heights)]
        extend(self.boxes, entries, [left // 8 for left in stretch.lefts], stretch.tops, across, stretch.heights)
        self.keep(unhexlify(b"".join(stretch.spelled).replace(BETWEEN, b"")))

    def close(self, entry, page):
        """It closes in this entry; of its rows a hash is kept."""
        self.last, self.hashes = entry, array.array("q", map(hash, page.rows))
        self.end()

    def end(self):
        if self.data:
            self.chunks.append(packed(bytes(self.data)))
            self.data.clear()

    def value(self):
        return {"width": self.width, "height": self.height, "first": self.first, "last": self.last, "boxes": list(map(column, self.boxes)),
                "chunks": self.chunks}


class Recorder:
    """Watches a run, and keeps what the page shows of each entry."""

    def __init__(self):
        self.columns = {name: array.array("i") for name in COLUMNS}     # of each entry a number of each
        self.flags, self.pages, self.replies, self.fields, self.part = bytearray(), [], [], [], []
        self.stacks = {}
        self.film_of = {}     # the page of the film, by its number among those that closed
        self.open = None

    def __call__(self, run, line, step):
        entry, stack = len(self.flags), NOTHING_RUNS
        self.follow_page(run, line, entry)
        if step and step.stack:
            stack = tuple((body.name(), body.starter.offset) for body in step.stack)
        now = run.fields.now
        self.keep(now, [line["step"]], [now.x], [now.y], step.placed.offset if stack else NONE, stack)
        self.flags.append(line["depth"] + 8 * ("delivered" in line) + 16 * ("reply" in line) + 32 * ("recorded" in line)
                          + 64 * (line.get("refused") == "overlay"))
        if "reply" in line:
            self.replies.append([entry, remarks.readable(line["reply"].encode("latin-1"), 400)])
        self.keep_fields(run, as_json(line["view"]) if "view" in line else "0")

    def row(self, run, step, row, is_counted):
        """The same of a row within raster graphics."""
        if row.patch is not None:
            self.open.add(len(self.flags), row.patch.laid.left, row.patch.laid.top, row.patch.laid.rows())
        self.keep(row.now, [step], [row.now.x], [row.now.y], NONE, NOTHING_RUNS)
        self.flags.append(0)
        self.keep_fields(run, '{"raster":{"rows":%d}}' % row.now.row_count if is_counted else "0")

    def rows(self, run, stretch):
        """The same of a stretch."""
        before, step, count = stretch.before, stretch.first_step(), len(stretch)
        if stretch.spelled:
            self.open.add_rows([len(self.flags) + place for place in stretch.places_of_marking()], stretch)
        self.flags += bytes(count)
        x, y = stretch.behind_each(stretch.x, before.x), stretch.behind_each(stretch.y, before.y)
        self.keep(run.fields.now, range(step, step + count), x, y, NONE, NOTHING_RUNS)
        self.keep_all_fields(run, stretch)

    def keep(self, now, steps, x, y, own, stack):
        """The numbers of entries of these steps and places of the cursor, which have the rest in common."""
        page, number = NONE if self.open is None else len(self.pages) - 1, self.stacks.setdefault(stack, len(self.stacks))
        held = (array.array("i", [each]) * len(steps) for each in (own, number, page, now.total))
        extend(self.columns.values(), steps, x, y, *happenings.dots_of(now.base, x, y), *held)

    def follow_page(self, run, line, entry):
        patch = line.get("page", ())
        if "opened" in line:
            self.pages.append(FilmPage(*line["opened"], entry))
            self.open = self.pages[-1]
        if patch is None:
            self.film_of[run.leaves.closed] = len(self.pages) - 1
            self.open.close(entry, run.marks.page)
            self.open = None
        elif patch:
            self.open.add(entry, patch["x"] // 8, patch["y"], [bytes.fromhex(row) for row in patch["rows"]])

    def keep_fields(self, run, view):
        """What changed, as JSON; a chunk begins with all fields."""
        if not self.part:
            self.part.append(as_json(run.fields.whole_view()))
        self.part.append(view)
        if len(self.part) > ENTRIES_IN_CHUNK:
            self.end_fields()

    def keep_all_fields(self, run, stretch):
        """The same of a stretch."""
        rows, methods = stretch.behind_each(stretch.counts, stretch.before.row_count), stretch.methods()
        told = stretch.with_methods(['{"raster":{"rows":%d}}' % count for count in stretch.counts],
                                    ['{"raster":{"method":%d}}' % method for method, _ in stretch.parts[1:]])
        place = 0
        while place < len(told):
            if not self.part:
                view = run.fields.whole_view()
                self.part.append(as_json({**view, "raster": {**view["raster"], "rows": rows[place], "method": methods[place]}}))
            room = ENTRIES_IN_CHUNK + 1 - len(self.part)
            self.part += told[place:place + room]
            place += room
            if len(self.part) > ENTRIES_IN_CHUNK:
                self.end_fields()

    def end_fields(self):
        if self.part:
            self.fields.append(packed(f"[{','.join(self.part)}]".encode()))
            self.part = []

    def end(self):
        self.end_fields()
        if self.open is not None:
            self.open.end()


class Listing:
    """The rows of a run, one after another, and for each where it starts and its first entry. What is seen of the run is told at its end."""

    def __init__(self, run, shift):
        self.run, self.shift = run, shift
        self.starts, self.firsts = array.array("q"), array.array("i")
        self.entry, self.tally, self.seen = None, remarks.Tally(), streams.Seen(run)

    def first_entry(self):
        """That behind those of the front."""
        return sum(1 + each.bodies for each in self.run.front)

    def note(self, offset, entries):
        if self.entry is None:
            self.entry = self.first_entry()
        self.starts.append(offset + self.shift)
        self.firsts.append(self.entry)
        self.entry += entries

    def see(self, happening, met):
        self.tally.add(happening)
        self.seen.add(happening, met)

    def texts(self):
        """Of each row, and of the end, as JSON: text, place, how it is spelled, what it is, its effect, flags, and why it leaves no trace, in a few words."""
        for row in parts(self.run, self.seen.judge, self.see):
            if type(row) is Stretch:
                yield from self.of_stretch(row)
                continue
            place, spelled, what, effect = row.told
            self.note(row.offset, sum(1 + each.bodies for each in row.happenings))
            effect = shortened(cause_first(effect, row.because) if row.because else effect, LONGEST_REMARK)
            yield as_text([shortened(row.text), place, shortened(spelled, LONGEST_REMARK), shortened(what, LONGEST_REMARK), effect, flags_of(row), cause_of(row.met)])
        self.note(len(self.run.stream), 1)
        yield as_text(["uel", str(len(self.run.stream)), "", END, remarks.effect_of(self.run.end), flags_of_end(self.run), ""])

    def of_stretch(self, stretch):
        """Those of a stretch, in whose texts nothing has to be escaped."""
        if self.entry is None:
            self.entry = self.first_entry()
        self.starts.extend(stretch.offsets() if not self.shift else [place + self.shift for place in stretch.offsets()])
        self.firsts.extend(range(self.entry, self.entry + len(stretch)))
        self.entry += len(stretch)
        return [f'["{shortened(text)}","{place}","{spelled}","{what}","{effect}",0,""]'
                for text, place, spelled, what, effect in told_of_stretch(stretch, LONGEST_LINE)]

    def row_of(self, place):
        """The row in which a byte of the stream stands."""
        return max(0, bisect.bisect_right(self.starts, place + self.shift) - 1)

    def findings(self, name):
        """What is wrong with the stream, each with its row."""
        other = streams.of_kind(name, self.run.stream)
        found = self.seen.findings(name)
        for finding in [other] if other else found:
            sentence = finding.sentence.removeprefix(name + " ")
            yield {"sentence": sentence[:1].upper() + sentence[1:], "advice": finding.advice, "grade": finding.grade(),
                   "row": None if finding.place is None else self.row_of(finding.place), "side": None if finding.page is None else finding.page - 1}


def cause_first(effect, because):
    """An effect, with what is wrong with it in front."""
    behind = f"; {because}"
    return f"{because}; {effect.removesuffix(behind)}" if because and effect.endswith(behind) else effect


def cause_of(met):
    if met is None:
        return ""
    return NO_SUCH_VALUE if met[0].how == NO_SUCH_VALUE or met[0].name == "PJL value" else met[0].name


def flags_of(row):
    first = row.happenings[0]
    ignored = first.how in ("no row", "HP-GL/2")
    wrong = row.met is not None and not row.met[0].harmless
    return (IGNORED * ignored + SENDS * any(each.sheets for each in row.happenings) + REPLIES * any(each.replies for each in row.happenings)
            + WRONG * wrong)


def shortened(line, most=LONGEST_LINE):
    return line if len(line) <= most else f"{line[:most]}.."


def picture(width, rows):
    """A small picture of a side, as a value of a link: a dot of it is 8 by 8 dots."""
    made, across, white = [], -(-width // 8), bytes(-(-width // 8))
    for top in range(0, len(rows), 8):
        some = sum([int.from_bytes(row.translate(COUNTS), "big") for row in rows[top:top + 8] if row != white])
        made.append(some.to_bytes(across, "big").translate(SHADES))
    return "data:image/png;base64," + base64.b64encode(png.png(made)).decode()


COUNTS = bytes(byte.bit_count() for byte in range(256))
SHADES = bytes(png.PAPER - png.PAPER * min(black, 64) // 64 for black in range(256))    # by how many of 64 dots are black


def side_value(recorder, page, number, data, each):
    """What is shown of a side: what is told of it, its page of the film, what it has beyond that, and a picture."""
    told, sheet, name, copies = each
    header = png.HEADER.match(data)
    stride = (told.width + 7) // 8
    rows = [data[start:start + stride] for start in range(header.end(), len(data), stride)]
    page = recorder.film_of.get(page, NONE)
    known = recorder.pages[page].hashes if page != NONE else itertools.repeat(hash(bytes(stride)))
    other = [line for line, (row, wanted) in enumerate(zip(rows, known)) if hash(row) != wanted]
    more = {"top": other[0], "rows": packed(b"".join(rows[other[0]:other[-1] + 1]))} if other else None
    times = f", {copies} copies" if copies > 1 else ""
    return {"label": f"Sheet {sheet} {name}{times}, {told.width} x {told.height} dots, {told.black} of them black", "sheet": sheet, "name": name,
            "width": told.width, "height": told.height, "page": page, "more": more, "picture": picture(told.width, rows) if number < MOST_PICTURES else ""}


def data_of(stream, front, chosen, name):
    """All that the page shows, as one value."""
    recorder = Recorder()
    run = happenings.Run(stream, front=front, chosen=chosen, watch=recorder)
    listed = Listing(run, len(front))
    texts = list(chunked(listed.texts(), ROWS_IN_CHUNK))
    recorder.end()
    findings = list(listed.findings(name))
    starts, columns = listed.starts, recorder.columns
    columns["own"] = [NONE if offset < 0 else bisect.bisect_right(starts, offset) - 1 for offset in columns["own"]]
    printed = [side_value(recorder, page, number, data, each)
               for number, (data, each, page) in enumerate(zip(sides.packed_sides(run), listed.seen.sides.found, listed.seen.sides.pages))]
    return {
        "name": name,
        "facts": f"{remarks.plural(len(stream), 'byte')}, {remarks.plural(listed.tally.count(), 'command')}, "
                 f"{remarks.plural(sum(copies for _, _, _, copies in run.pages_of_sides()), 'side')}; "
                 f"pages printed by {program.who(run.chosen)}, steps told by {run.who}",
        "rows": {"count": len(starts), "size": ROWS_IN_CHUNK, "chunks": texts, "first": column(listed.firsts)},
        "entries": {"count": len(recorder.flags), "size": ENTRIES_IN_CHUNK, "columns": {key: column(some) for key, some in columns.items()},
                    "flags": packed(bytes(recorder.flags)), "fields": recorder.fields},
        "stacks": [[[body, bisect.bisect_right(starts, offset) - 1] for body, offset in stack] for stack in recorder.stacks],
        "pages": [page.value() for page in recorder.pages],
        "sides": printed,
        "replies": recorder.replies,
        "start": happenings.power_on(chosen)["view"],
        "findings": findings,
        "words": remarks.field_words(), "overlaid": remarks.IGNORED["overlay"],
    }


def flags_of_end(run):
    return SENDS * bool(run.end.sheets) + REPLIES * bool(run.end.replies)
