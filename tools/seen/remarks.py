"""A remark on a command: where it stands, what HP calls it, what its value is, and what it does here."""

import functools
import itertools
import operator
import re
from typing import NamedTuple

from model import patterns, pjl, table
from model.commands import Broken, Control, Escape, Foreign, Param, PjlLine, Text, Uel, kind
from model.values import POSITIONS_PER_INCH

from . import names
from .fields import NAMES, SIZES
from .happenings import OTHER_KIND, Row
from .stretches import HEAD

LINE_END = b"\r\n"
COMMANDS = {Escape: "escape", Param: "parameter", Control: "control", Text: "text", Broken: "broken", Uel: "universal exit",
            PjlLine: "PJL line", Foreign: "foreign"}
PLURALS = {"copy": "copies", "line per inch": "lines per inch", "dot per inch": "dots per inch", "inch": "inches",
           "character per inch": "characters per inch", "PCL unit per inch": "PCL units per inch"}
# The fields that change by themselves wherever a page or a job goes on.
SILENT = {"total", "since_job", "pjl_current", "pjl_default", "raster_left", "marked"}
FIELDS = {
    "x": "x", "y": "y", "size": "page size", "unit": "unit of measure", "vmi": "VMI", "hmi": "HMI",
    "line_termination": "line termination", "perforation_skip": "perforation skip", "copies": "copies",
    "raster_resolution": "raster resolution", "method": "compression method", "source_width": "raster width",
    "source_height": "raster height", "rectangle_width": "rectangle width", "rectangle_height": "rectangle height",
    "pattern_id": "pattern ID", "current_pattern": "current pattern", "source_opaque": "source opaque",
    "pattern_opaque": "pattern opaque", "macro_id": "macro ID", "left_margin": "left margin", "right_margin": "right margin",
    "top_margin": "top margin", "text_length": "text length", "resolution": "resolution of the page", "orientation": "orientation", "duplex": "duplex",
    "binding": "binding", "stack": "positions pushed", "overlay": "overlay", "hpgl": "HP-GL/2", "raster_on": "raster graphics",
    "row_count": "raster rows", "defining": "open macro definition", "pjl_status": "status after each page",
}


OF_THE_VIEW = {
    "cursor.pushed": "positions pushed", "drawing.pattern": "ID of the current pattern", "drawing.pattern_kind": "current pattern", "page.size": "page size",
    "page.binding": "binding", "page.marked": "the page has a mark", "raster.left": "left edge of the raster", "raster.rows": "raster rows",
    "settings.feed_after_return": "a CR feeds a line", "settings.return_before_feed": "an LF returns", "settings.unit": "unit of measure",
    "settings.sheets_of_job": "sheets of this job",
}


def field_words():
    """For each field of the view its words, its unit (`position` is 1/7200 inch), and the words of its values, where it has some."""
    words = {f"{name}.{key}": (FIELDS.get(own, own), own) for name, some in NAMES.items() for key, own in some.items()}
    words |= {name: (word, name) for name, word in OF_THE_VIEW.items()}
    for front, name in (("PJL ", "current"), ("PJL default ", "default")):
        words |= {f"{name}.{key}": (front + key.replace("_", " "), key) for key in ("binding", "copies", "duplex", "orientation", "page_size", "resolution")}
    return {name: [word, unit_word(name, own), VALUES.get(name.rpartition(".")[2], {})] for name, (word, own) in words.items()}


def unit_word(name, own):
    if own in POSITIONS or name == "raster.left":
        return "position"
    return "units" if name == "settings.unit" else UNITS.get(own, "")


VALUES = {"binding": {1: "long edge", 2: "short edge"}, "size": SIZES, "page_size": SIZES, "orientation": names.PARAMS["&lO"].values,
          "pattern_kind": names.PATTERN_KINDS}


def readable(data, most=60):
    """Bytes as text, what is no printable ASCII as \\xHH, cut where it is long."""
    text = "".join(chr(byte) if 32 <= byte <= 126 and byte != 92 else "\\x%02X" % byte for byte in data[:most])
    return text + (f".. ({len(data)} bytes)" if len(data) > most else "")


POSITIONS = {"x", "y", "vmi", "hmi", "rectangle_width", "rectangle_height", "left_margin", "right_margin", "top_margin", "text_length"}
PLACES = {"x", "y"}
UNITS = {"raster_resolution": "dots per inch", "resolution": "dots per inch", "unit": "per inch", "source_width": "raster dots",
         "source_height": "raster rows"}
SPELLED_CONTROLS = {0x08: "BS", 0x09: "HT", 0x0A: "LF", 0x0C: "FF", 0x0D: "CR"}


def spelled(command):
    """A command as a driver's author writes it, without its data; empty for what is no command of PCL."""
    if isinstance(command, Param):
        group = "" if command.group is None else chr(command.group)
        return f"ESC{chr(command.character)}{group}{command.field.decode()}{chr(command.end)}"
    if isinstance(command, Escape):
        return f"ESC {chr(command.byte)}"
    if isinstance(command, Control):
        return SPELLED_CONTROLS.get(command.control, "")
    return "ESC%-12345X" if isinstance(command, Uel) else ""


TYPED = re.compile(r"(?:par |ESC)([!-/])([`-~]?)[+-]?[0-9]*(?:\.[0-9]*)?([@-^])(?: [0-9A-F]+)?")


def typed_kind(words):
    """A KIND as a person may type it: as a command is shown, whose value and data are dropped, or as HP spells it."""
    if found := TYPED.fullmatch(words):
        return "par " + "".join(found.groups())
    if found := re.fullmatch("ESC ?([0-~])", words):
        return "esc " + found[1]
    return next((f"ctl {control:02X}" for control, word in SPELLED_CONTROLS.items() if word == words), words)


def plural(count, unit):
    return f"{count} {unit if count == 1 or unit[0].isdigit() else PLURALS.get(unit, unit + 's')}"


def name_of(command):
    """What HP calls a command, or what it is."""
    if isinstance(command, Param):
        return names.named(command).name
    if isinstance(command, Escape):
        return names.ESCAPES.get(chr(command.byte), "An escape sequence that is not in HP's list")
    if isinstance(command, Control):
        return names.CONTROLS.get(command.control, "Control character %02X" % command.control)
    if isinstance(command, Text):
        return f'Text "{readable(bytes([command.text]))}"'
    if isinstance(command, Uel):
        return "Universal Exit Language"
    if isinstance(command, PjlLine):
        return f'PJL line "{readable(command.line.rstrip(LINE_END))}"'
    if isinstance(command, Foreign):
        return f'A byte "{readable(bytes([command.foreign]))}" of another language'
    return f'"{readable(command.broken)}", which begins a command and does not go on'


def value_of(command):
    """The value of a parameterized command with its unit or its meaning; empty where it needs none."""
    return value_without_data(*command[:4]) if isinstance(command, Param) else ""


@functools.lru_cache(maxsize=4096)
def value_without_data(*command):
    command = Param(*command, b"")
    known, value = names.named(command), command.value()
    spelled = command.field.decode() or "0"
    shown = f"{value.tenthousandths / 10000:.4f}".rstrip("0").rstrip(".")
    if known.unit:
        number = int(shown) if shown.lstrip("-").isdigit() else shown
        sign = "+" if value.signed and value.tenthousandths >= 0 else ""
        text = sign + plural(number, known.unit)
    elif value.whole() in known.values:
        text = f"{value.whole()} ({known.values[value.whole()]})"
    else:
        text = spelled + (" (no such value)" if known.values else "")
    cut = value.tenthousandths in (655350000, -327670000) and shown != spelled.lstrip("+")
    return ", " + text + (f" ({spelled} is cut to this)" if cut else "")


def shown_field(name, value):
    if name in PLACES:
        return str(value)
    if value is None:
        return "none"
    if isinstance(value, bool):
        return "on" if value else "off"
    if name == "current_pattern":
        kind_of, number = value
        return names.PATTERN_KINDS[kind_of] + (f" {number}" if kind_of > 1 else "")
    if name == "orientation":
        return names.PARAMS["&lO"].values[value]
    if name == "stack":
        return str(len(value))
    return str(value)


def variables(before, after):
    """What changes in an environment of the job language."""
    return ", ".join(f"{name.decode()} {old.decode()} to {new.decode()}"
                     for (name, old), (_, new) in zip(before, after) if old != new)


def change(name, before, after, resolution):
    return f"{FIELDS[name]} {shown_field(name, before)} to {shown_field(name, after)}{unit_of(name, before, after, resolution)}"


def unit_of(name, before, after, resolution):
    """The unit of a field's number; of a place how many dots it went, of a length how many dots it has."""
    if name in POSITIONS:
        return unit_of_positions(after - before if name in PLACES else after, resolution)
    return f" ({UNITS[name]})" if name in UNITS and after is not None else ""


@functools.lru_cache(maxsize=4096)
def unit_of_positions(count, resolution):
    dots = count * resolution / POSITIONS_PER_INCH
    return f" (1/7200 inch, {dots:g} {'dot' if abs(dots) == 1 else 'dots'})"


def changes_of(happening):
    """The changes of the fields, the least surprising ones left out where a reset brings many."""
    told, resolution = [], happening.resolution
    for name, before, after in happening.changes:
        if name not in SILENT:
            told.append(change(name, before, after, resolution))
    for name, before, after in happening.changes:
        if name in ("pjl_current", "pjl_default"):
            told.append(("PJL default " if name == "pjl_default" else "PJL ") + variables(before, after))
    return told


def definition_of(command, run_before):
    """What a pattern's definition does, for it is no field that shows; nothing where it is refused."""
    try:
        tile = patterns.tile_of_data(command.data)
    except (patterns.BadHeader, patterns.ShortData):
        return []
    return [f"defines pattern {run_before}, {len(tile[0])} by {len(tile)} dots"]


def deeds(happening, pattern_id):
    """What a command does, in parts; empty for nothing."""
    told = []
    if happening.closes:
        told.append("the page closes" if happening.closes == 1 else f"{happening.closes} pages close")
        if not happening.sheets:
            told.append("it waits for its back")
    for number, copies in happening.sheets:
        told.append(f"sheet {number} goes out" + (f" in {copies} copies" if copies > 1 else ""))
    for mark in happening.marks:
        told.append("marks {} by {} dots".format(*mark.size()))
    if happening.bodies > 0:
        told.append(f"runs {plural(happening.bodies, 'recorded command')}")
    if happening.key == "*cW":
        told += definition_of(happening.placed.command, pattern_id)
    told += changes_of(happening)
    if happening.replies:
        told.append(f'replies "{readable(happening.replies, 200)}"')
    return told


NOTHING = {Text: "no row: text leaves no marks", Foreign: "skipped, up to the next universal exit",
           Broken: "no row: ignored"}
IGNORED = {"HP-GL/2": "ignored: HP-GL/2 is on", "overlay": "ignored: an overlay closes no page"}    # commands that are skipped, by why


def effect_of(happening, pattern_id=0, because=""):
    """What a command does here, as a part of a sentence; `because` is why it leaves no trace, or less of one than was meant."""
    command = happening.placed.command
    if happening.how == "recorded":
        return f"recorded, in macro {happening.recorded_in}"
    if happening.how == "no row" and because:
        return f"no row: {because}"
    if skipped := skipped_by(happening.how, command):
        return skipped
    told = deeds(happening, pattern_id)
    if not told and not because and isinstance(command, PjlLine):
        return line_without_change(command)
    return "; ".join(told or ["changes nothing"]) + (f": {because}" if because and not told else f"; {because}" if because else "")


def skipped_by(how, command):
    """Why a command is passed over, as bodies.how_of tells it; empty where its row is asked."""
    return NOTHING.get(type(command), "no row: ignored") if how == "no row" else IGNORED.get(how, "")


def line_without_change(command):
    language = pjl.language_of_line(command.line)
    if language is not None:
        skipped = "" if language == b"PCL" else ", which is skipped up to the next universal exit"
        return f"enters the language {readable(language)}{skipped}"
    read = pjl.read_line(command.line)
    if read is None or read.word == b"COMMENT":
        return "a remark: changes nothing"
    pair = pjl.assignment(read.rest)
    if read.word in (b"SET", b"DEFAULT") and pair is not None and pjl.listed_value(*pair):
        return f"changes nothing: {readable(pair[0])} is {readable(pair[1])} already"
    return "changes nothing"


class Remark(NamedTuple):
    """What is said of a command, or of several that are passed over for one reason."""
    place: str     # in the file
    spelled: str   # as in PCL; empty for what is no command of it
    what: str      # name and value, or how many bytes there are and which
    effect: str

    def text(self):
        """One line."""
        return f"at {self.place}{', ' + self.spelled if self.spelled else ''}: {self.what}: {self.effect}"


ROW_KIND, METHOD_KIND = "par *bW", "par *bM"


@functools.lru_cache(maxsize=4096)
def headed(head):
    """How a row or a method that begins so is spelled, what it is, and its text without data."""
    field, end = HEAD.fullmatch(head).groups()
    word = f"*b{field.decode()}{end.decode().upper()}"
    return f"ESC{word}", names.PARAMS[word[:2] + word[-1]].name + value_without_data(*OTHER_KIND[:2], field, ord(word[-1])), f"par {word}"


def told_of_row(size, x, y, count, resolution):
    """What a row within raster graphics does that marks so much, or nothing; of the cursor and of the number of rows what they were and what they are."""
    told = ["marks %d by %d dots" % size] if size else []
    if x[0] != x[1]:
        told.append(change("x", *x, resolution))
    if y[0] != y[1]:
        told.append(f"y {y[0]} to {y[1]}{unit_of_positions(y[1] - y[0], resolution)}")
    if count[0] != count[1]:
        told.append(f"raster rows {count[0]} to {count[1]}")
    return "; ".join(told) or "changes nothing"


def effect_of_row(row):
    """What such a row does of which nothing else is to be said."""
    before, now = row.before, row.now
    size = None if row.patch is None else row.patch.size()
    return told_of_row(size, (before.x, now.x), (before.y, now.y), (before.row_count, now.row_count), row.resolution)


def effects_of(stretch):
    """The same of each command of a stretch."""
    before, resolution = stretch.before, stretch.before.base["resolution"]
    x, y, counts = [before.x, *stretch.x], [before.y, *stretch.y], [before.row_count, *stretch.counts]
    if len(set(x)) == 1 and len(steps := set(map(operator.sub, y[1:], y))) == 1 and 0 not in steps:
        white = f"y %d to %d{unit_of_positions(*steps, resolution)}; raster rows %d to %d"
        marking = "marks %d by %d dots; " + white
        told = [marking % (*size, *others) if size else white % tuple(others) for size, *others in zip(stretch.sizes(), y, y[1:], counts, counts[1:])]
    else:
        told = [told_of_row(*each, resolution) for each in zip(stretch.sizes(), *map(itertools.pairwise, (x, y, counts)))]
    return stretch.with_methods(told, [change("method", *each, resolution) for each in stretch.changes()])


def remark_of_row(row):
    return Remark(str(row.offset), *headed(row.field + b"W")[:2], effect_of_row(row))


def remark(happening, pattern_id=0, because=""):
    if type(happening) is Row and not because:
        return remark_of_row(happening)
    command = happening.placed.command
    return Remark(str(happening.placed.offset), spelled(command), name_of(command) + value_of(command), effect_of(happening, pattern_id, because))


def of_run(happenings, data, because=""):
    """The remark on several commands, one after another, whose bytes are these."""
    first, last, count = happenings[0], happenings[-1], sum(happening.placed.count() for happening in happenings)
    if first.how == "HP-GL/2":
        what, effect = plural(count, "command"), IGNORED[first.how]
    elif isinstance(first.placed.command, Foreign):
        what, effect = f"{plural(count, 'byte')} of another language", NOTHING[Foreign]
    else:
        what, effect = f"{plural(count, 'byte')} of text", effect_of(first, 0, because)
    return Remark(f"{first.placed.offset} to {last.placed.offset + last.placed.length - 1}", "", f'{what}, "{readable(data)}"', effect)


def kind_of(command):
    """What a command is counted as."""
    return kind(command) if isinstance(command, (Param, Escape, Control)) else COMMANDS[type(command)]


def has_row(happening):
    """Whether the command table has a row for a command; of one that is recorded, or skipped by HP-GL/2, no line tells it."""
    if happening.how in ("recorded", "HP-GL/2"):
        return table.row_of(happening.placed.command) is not None
    return happening.how != "no row"


class Tally:
    """Commands by kind, and how many of each had a row."""

    def __init__(self):
        self.kinds = {}

    def add(self, happening):
        if type(happening) is Row:
            rows, methods = (1, 0) if (stretch := happening.stretch) is None else (stretch.count(), len(stretch) - stretch.count())
            self.count_kind(ROW_KIND, rows, rows)
            if methods:
                self.count_kind(METHOD_KIND, methods, methods)
        else:
            self.count_kind(kind_of(happening.placed.command), happening.placed.count(), has_row(happening))

    def count_kind(self, kind, count, with_row):
        if (some := self.kinds.get(kind)) is None:
            some = self.kinds[kind] = [0, 0]
        some[0] += count
        some[1] += with_row

    def count(self):
        return sum(count for count, _ in self.kinds.values())

    def lines(self):
        yield f"{plural(self.count(), 'command')}, {sum(with_row for _, with_row in self.kinds.values())} with a row of the command table"
        for shown, (count, with_row) in sorted(self.kinds.items(), key=lambda item: (-item[1][0], item[0])):
            yield f"{count:7} {shown}{'' if with_row else ', no row'}"
