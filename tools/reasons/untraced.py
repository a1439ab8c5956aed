"""Why a command of a stream leaves no trace, or less of one than was meant, and what to do: one table for `explain` and `why`.

A reason is met by a happening, or is not; a happening has the first reason of the table that it meets. Those that leave a page blank
stand first, the likeliest before the others. `because` is a part of a sentence behind the command; `told` is one of all the happenings
that met a reason for one thing (their key), behind the name of the stream.
"""

import collections
import itertools
from typing import Callable, NamedTuple, Union

from model import commands, defaults, pages, patterns, pjl, table
from model.commands import Broken, Control, Foreign, Param, PjlLine, Text, Uel
from model.engine import is_reset
from model.values import POSITIONS_PER_INCH
from seen import names, remarks
from seen.happenings import Row
from seen.sent import NOTHING, WHOLE_ROW, letters

from . import following, groups, job_lines, named_values
from .finding import counted

LASER = "a LaserJet's driver does so (Ghostscript: -sDEVICE=ljet4 -r300)"
AS_PCL = "Print it through a driver for PCL 5 (Ghostscript: -sDEVICE=ljet4 -r300), which sends raster graphics"
NO_SUCH_VALUE = "no such value"
BLACK = "Have the driver send black and white, in one plane: " + LASER
RESOLUTIONS = {resolution: ", ".join(map(str, some[:-1])) + f" or {some[-1]}" for resolution, some in table.RASTER_RESOLUTIONS.items()}
FINEST = 600


class Reason(NamedTuple):
    name: str
    met: Callable                    # of judge and happening: the key of what it is met for, or None
    because: Callable                # of judge and happening
    advice: Union[str, Callable]     # the same
    told: Callable = groups.sends    # of judge and the group of one key
    blanks: bool = False             # whether a page may be blank by it
    harmless: bool = False           # whether no dot depends on it
    loses: bool = False              # whether what was to be marked is not, or not all of it; of others a page is changed
    dots: Callable = lambda happening: happening.sent.lost()
    name_of: Callable = None         # what the happenings of a group are told apart by
    how: str = "no row"              # which happenings may meet it: "row", "no row", "no such value", "HP-GL/2", or "any"

    def advised(self, judge, happening):
        return self.advice if isinstance(self.advice, str) else self.advice(judge, happening)


class Group:
    """The happenings that met one reason for one thing: the first, and what is counted of all."""

    def __init__(self, reason, key, first):
        self.reason, self.key, self.first = reason, key, first
        self.count = self.commands = self.lost = 0
        self.sent, self.names = NOTHING, {}

    def add(self, happening):
        if place_of(happening) < place_of(self.first):
            self.first = happening
        self.count += 1
        self.commands += happening.placed.count()
        self.lost += self.reason.dots(happening)
        self.sent = self.sent.plus(happening.sent)
        if self.reason.name_of:
            name = self.reason.name_of(happening)
            self.names[name] = self.names.get(name, 0) + 1
        return self

    def join(self, other):
        """Goes on by those of another group of the same reason and key."""
        self.first = min(self.first, other.first, key=place_of)
        self.count, self.commands, self.lost = self.count + other.count, self.commands + other.commands, self.lost + other.lost
        self.sent = self.sent.plus(other.sent)
        for name, count in other.names.items():
            self.names[name] = self.names.get(name, 0) + count

    def told(self, judge):
        """A sentence behind the name of the stream, or None for nothing."""
        return self.reason.told(judge, self)

    def because(self, judge):
        return self.reason.because(judge, self.first)

    def advised(self, judge):
        return self.reason.advised(judge, self.first)

    def command(self):
        """As it is spelled; None for what is no command of PCL."""
        return spelled(self.first) or None

    def dots(self):
        """How many black dots they lose, erase, or repeat; None where none are."""
        return self.lost or None


def place_of(happening):
    return happening.placed.offset


def has_no_row(happening, kind_of):
    return happening.how == "no row" and isinstance(happening.placed.command, kind_of)


def with_row(happening, key):
    return happening.key == key


def refused_value(key):
    """Meets a value that the row of these letters does not name."""
    def met(_, happening):
        return spelled(happening) if happening.how == NO_SUCH_VALUE and letters(happening.placed.command) == key else None
    return met


def number(happening):
    return happening.placed.command.value().whole()


def spelled(happening):
    return remarks.spelled(happening.placed.command)


def of_letters(some, grave=lambda _: True, together=True):
    """Meets the commands without a row that are spelled so, all for one thing or each for its value."""
    def met(_, happening):
        if has_no_row(happening, Param) and letters(happening.placed.command) in some and grave(happening):
            return "all" if together else spelled(happening)
        return None
    return met


# Resolution, methods, planes

def because_of_resolution(_, happening):
    page, held, asked = happening.before["resolution"], happening.before["raster_resolution"], number(happening)
    size = f", and the picture comes out {asked / held:g} times as wide and high" if asked > 0 and asked != held else ""
    return f"a page of {page} dots per inch has rows of {RESOLUTIONS[page]}, so they stay at {held}{size}"


def resolution_advice(_, happening):
    if number(happening) not in table.RASTER_RESOLUTIONS[FINEST]:
        return f"Have the driver send {RESOLUTIONS[happening.before['resolution']]} dots per inch (Ghostscript: -r300)"
    word = f"RESOLUTION={FINEST}"
    return f"This printer was not told {FINEST}: say {defaults.OPTION} {word}, or have the driver send 300 (Ghostscript: -r300)"


def because_of_method(_, happening):
    return f"the compression methods are 0, 1, 2, 3 and 5, so rows are read by method {happening.before['method']}, as other dots than were meant"


def colour(_, happening):
    if not has_no_row(happening, Param):
        return None
    key = letters(happening.placed.command)
    if (key == "*rU" and number(happening) in (1, -1)) or (key == "*gW" and planes_of(happening) == 1):
        return None
    return {"*bV": "planes", "*rU": "planes", "*gW": "planes", "*vW": "pixels"}.get(key)


def planes_of(happening):
    """The planes that a configuration of raster data has: its second byte."""
    data = happening.placed.command.data
    return data[1] if len(data) > 1 else 1


def because_of_colour(_, happening):
    key = letters(happening.placed.command)
    if key == "*rU":
        return f"this press has one plane, of black, and not {abs(number(happening))}"
    if key == "*gW":
        return f"this press has one plane, of black, and not {planes_of(happening)}"
    if key == "*bV":
        return "a plane of colour is not carried out; the plane that ESC*b#W ends a row with is printed alone, as black"
    return "colours of pixels are not carried out: each bit of a row is a dot"


# Data that is taken

def takes_data(_, happening):
    command = happening.placed.command
    if not has_no_row(happening, Param) or command.end != ord("W") or not command.data or letters(command) in names.PARAMS_WITH_DATA:
        return None
    return spelled(happening)


def because_of_data(judge, happening):
    data = happening.placed.command.data
    cost = " ".join(map(remarks.spelled, judge.cost_of(happening))) or "what begins there"
    bytes_of = f" ({data.hex(' ').upper()})" if len(data) <= 8 else ""
    were = "was" if len(data) == 1 else "were"
    return f"here an end W carries data, so the {counted(len(data), 'byte')} behind it{bytes_of} {were} taken, and {cost} is lost"


def remains(judge, happening):
    return "remains" if has_no_row(happening, (Text, Control)) and judge.is_left_over(happening) else None


# Dots beside the page, and rectangles

def loses(_, happening):
    return "dots" if happening.sent.lost() else None


def because_of_loss(_, happening):
    sent = happening.sent
    parts = [f"{counted(count, 'dot')} of {sent.black:,} past the {side} edge" for count, side in ((sent.right, "right"), (sent.below, "lower")) if count]
    return " and ".join(parts) + " are dropped"


PUTTING_LOWER = ("top margin", "margin that is put back")


def loss_advice(judge, happening):
    """Where rows came out larger before, or were moved down, this is what lost them."""
    causes = [(each, reason) for each, reason in judge.before_loss if place_of(each) < place_of(happening) and puts_beside(reason.name, each, happening.sent)]
    if not causes:
        return "Look at the resolution of its rows, where they begin, and at the page size: what is past the edge of the page, or of a row, is dropped"
    each, reason = max(causes, key=lambda cause: place_of(cause[0]))
    return f"{spelled(each)} {groups.place_of(each)} comes before it: {reason.because(judge, each)}. {reason.advised(judge, each)}"


def puts_beside(name, happening, gone):
    """Whether a command that met the reason of this name may have put dots past the edge where others are gone."""
    if name == "resolution":
        return number(happening) > happening.before["raster_resolution"]
    return gone.below > 0 and name in PUTTING_LOWER


def comes_late(_, happening):
    return "rows" if happening.sent.late else None


def because_of_late(_, happening):
    """A body may set the height itself, and send rows past it."""
    height = happening.before["source_height"]
    if height is None or happening.bodies:
        return f"{counted(happening.sent.late, 'row')} of a body stand past its raster height"
    return f"the raster height is {counted(height, 'row')}, and it stands past them"


def fills_nothing(_, happening):
    if not with_row(happening, "*cP") or happening.marks or happening.sent.lost():
        return None
    if happening.fills and happening.before["rectangle_width"] and happening.before["rectangle_height"]:
        return None   # its dots were so before
    return "fills"


# Values and times

def other_value(_, happening):
    return None if (letters(happening.placed.command), number(happening)) == named_values.IDLE else spelled(happening)


def because_of_value(_, happening):
    named = named_values.NAMED[letters(happening.placed.command)]
    if not named.field:
        return f"{named.which}, and {number(happening)} is none of these"
    stays = remarks.shown_field(named.field, happening.before[named.field])
    return f"{named.which}, so the {remarks.FIELDS[named.field]} stays {stays}"


def wrong_time(_, happening):
    return spelled(happening) if because_of_time(None, happening) else None


def because_of_time(_, happening):
    """What is in the way of a command whose value is right."""
    key, before = happening.key, happening.before
    if not key or happening.changes or happening.marks or happening.closes:
        return ""
    if key in ("*tR", "*rS", "*rT") and before["raster_on"] and is_other(happening):
        return "raster graphics is on, and takes this before its start alone"
    if key == "*rA" and before["raster_on"]:
        return "raster graphics is on already, and goes on where it is"
    if key == "*vT" and number(happening) > 1 and before["current_pattern"] != (KINDS[number(happening)], before["pattern_id"]):
        return f"there is no such pattern under the ID {before['pattern_id']}"
    if key == "&fS" and number(happening) == 0 and len(before["stack"]) == table.STACK_PLACES:
        return f"{table.STACK_PLACES} places are pushed, and there is room for no more"
    if key == "*bY" and not before["raster_on"]:
        return "raster graphics is off, and rows are passed over within it alone"
    if key == "&fS" and number(happening) == 1 and not before["stack"]:
        return "no place was pushed"
    if key == "&fX" and number(happening) in (2, 3) and not happening.bodies:
        return f"there is no macro {before['macro_id']}, or it is empty or too deep"
    return ""


KINDS = {2: patterns.SHADING, 3: patterns.HATCH, 4: patterns.USER}


def refuses_pattern(_, happening):
    return "pattern" if with_row(happening, "*cW") and because_of_pattern(None, happening) else None


def because_of_pattern(_, happening):
    """What is wrong with the data of a pattern."""
    try:
        patterns.tile_of_data(happening.placed.command.data)
    except patterns.BadHeader:
        return "its data begins with no header of a pattern"
    except patterns.ShortData:
        return "its data ends before its last row"
    return ""


def is_other(happening):
    field = {"*tR": "raster_resolution", "*rS": "source_width", "*rT": "source_height"}[letters(happening.placed.command)]
    return happening.before[field] != number(happening)


# What breaks, and fronts

def is_cut(judge, happening):
    return "cut" if has_no_row(happening, Broken) and judge.is_last() and cut_data(happening) else None


def cut_data(happening):
    """The command at the end that wants more data than there is: as it is spelled, how many bytes it has, and wants."""
    return groups.cut_command(happening.placed.command.broken)


def because_of_cut(_, happening):
    word, has, wants = cut_data(happening)
    return f"the stream ends within the data of {word}, which has {has:,} of {counted(wants, 'byte')}, and it is not carried out"


def loses_its_back(judge, happening):
    """A front that a command of the same job sends out, and no end of a job or page side selection that asks for it; where pages follow."""
    if not happening.before["duplex"] or not happening.sheets:
        return None
    if place_of(happening) in judge.following.fronts:
        return "fronts"
    within = letters(happening.placed.command) in ("&lA", "&lS") or is_reset(happening.placed.command) and not judge.ends_a_job()
    if within and judge.goes_out_alone(happening):
        judge.following.ask_for_pages(happening)
    return None


# Settings

def registration(_, happening):
    key = letters(happening.placed.command)
    dots = happening.placed.command.value().tenthousandths * happening.resolution / 7200000
    side = {"&lU": ("left", "right"), "&lZ": ("above", "below")}[key]
    return (f"registration is not carried out, so the picture stands {abs(dots):g} dots {side[dots < 0]}"
            f"{' of' if key == '&lU' else ''} where a printer puts it")


REGISTERED = ("&lU", "&lZ")


def registration_advice(judge, _):
    """How Ghostscript moves a picture by what the first commands of each edge ask for, in points."""
    offset = " ".join(f"{judge.registered.get(key, 0) / 100000:g}" for key in REGISTERED)
    return f"Have the driver move its picture by as much itself (Ghostscript: -c '<</PageOffset[{offset}]>>setpagedevice' -f FILE), or send neither"


def moves(happening):
    return happening.placed.command.value().tenthousandths != 0


def other_length(_, happening):
    """A page length that is not that of the page, as lines of VMI."""
    if not has_no_row(happening, Param) or letters(happening.placed.command) != "&lP" or number(happening) < 1:
        return None
    before = happening.before
    size = pages.SIZES[before["size"]]
    tall = size.width if pages.is_landscape(before["orientation"]) else size.height
    lines = tall * POSITIONS_PER_INCH // (size.resolution * before["vmi"]) if before["vmi"] else 0
    return spelled(happening) if number(happening) != lines else None


def turns_rows(_, happening):
    meets = has_no_row(happening, Param) and letters(happening.placed.command) == "*rF" and number(happening) == 3
    return "rows" if meets and pages.is_landscape(happening.before["orientation"]) else None


def margin_is_put_back(judge, happening):
    return "margin" if with_row(happening, "&lL") and place_of(happening) in judge.following.put_back else None


def because_of_margin(_, happening):
    before, after = next((before, after) for name, before, after in happening.changes if name == "top_margin")
    dots = (after - before) * happening.resolution / POSITIONS_PER_INCH
    return (f"a change of perforation skip sets the top margin to half an inch, so what follows stands {abs(dots):g} dots "
            f"{'below' if dots > 0 else 'above'} where the margin before it put it")


def data_size(happening):
    return len(happening.placed.command.data)


FONTS = {"&kS", "&dD", "&d@", "*cD", "*cE", "*cF", "*cR", "*cS", "&tP", "&nW", "&sC", "(X", ")X", "(@", ")@", "(fW"}


def font(_, happening):
    if not has_no_row(happening, Param):
        return None
    command = happening.placed.command
    return "fonts" if command.character in b"()" or letters(command) in FONTS else None


COLOURS = {"*vS", "*vA", "*vB", "*vC", "*vI", "*pP", "*tJ", "*mW", "*iW"}
HANDLING = {"&lG", "&lM", "&lT", "&lP", "*oM", "*oQ", "*oD", "*rQ", "*bS", "*bX", "*oW", "*gW", "&rF", "*rF", "&bW", "*rU", "*sM"}


LEFT_OUT = {"&aP", "&lU", "&lZ", "&pX"}   # at 0 there is nothing of it


BACKSPACE, TAB = 0x08, 0x09


def control(*some):
    """Meets these control characters, or where none are named every one without a row."""
    def met(_, happening):
        meets = has_no_row(happening, Control) and (not some or happening.placed.command.control in some)
        return "controls" if meets else None
    return met


def unknown(_, happening):
    return None if isinstance(happening.placed.command, (Text, Foreign, Broken, PjlLine)) else "all"


REASONS = [
    Reason("another language", lambda judge, each: judge.language if has_no_row(each, Foreign) else None,
           lambda *_: "skipped, up to the next universal exit", AS_PCL, groups.language, True, loses=True),
    Reason("resolution", refused_value("*tR"), because_of_resolution, resolution_advice, blanks=True, how=NO_SUCH_VALUE),
    Reason("planes", colour, because_of_colour, BLACK, groups.first_of_many, True, loses=True, name_of=groups.of_a_kind),
    Reason("method", refused_value("*bM"), because_of_method, "Have the driver compress by one of these: " + LASER, blanks=True, how=NO_SUCH_VALUE),
    Reason("dots beside the page", loses, because_of_loss, loss_advice, groups.lost, True, loses=True, how="row"),
    Reason("data that is taken", takes_data, because_of_data, "Leave it out: " + LASER, blanks=True),
    Reason("what is left of a command", remains, lambda *_: "it is left of a command whose first bytes were taken as data",
           "", groups.silent),
    Reason("HP-GL/2", lambda _, each: "plot" if each.how == "HP-GL/2" else None, lambda *_: "HP-GL/2 is on",
           "Send it as raster graphics; ESC%0A leaves HP-GL/2", groups.plot, True, loses=True, how="HP-GL/2"),
    Reason("transparent data", of_letters({"&pX"}, lambda each: bool(each.placed.command.data)), lambda *_: "text leaves no marks",
           "Send it as raster graphics; the shapes of a printer's fonts are its maker's", following.transparent, True, loses=True, name_of=data_size),
    Reason("a macro that is not ended", lambda judge, each: place_of(each) if place_of(each) in judge.following.unended else None,
           following.because_unended, "End it by ESC&f1X, and run it", blanks=True, loses=True, how="row"),
    Reason("an overlay of nothing", lambda judge, each: each.before["macro_id"] if place_of(each) in judge.following.idle_overlays else None,
           lambda _, each: f"there is no macro {each.before['macro_id']} where the page closes, or it is empty, so nothing is laid over it",
           "Record the macro by ESC&f0X and ESC&f1X before, in the same job", blanks=True, loses=True, how="row"),
    Reason("a row that repeats", lambda judge, each: "rows" if place_of(each) in judge.following.repeated else None,
           lambda *_: "a row of no bytes by method 3 repeats the row above it",
           "Where white rows are meant, have the driver send ESC*b#Y, or another method (Netpbm: pbmtolj without -delta)", following.repeats,
           dots=lambda each: each.sent.again, how="row"),
    Reason("text", lambda _, each: "text" if has_no_row(each, Text) else None, lambda *_: "text leaves no marks",
           "Send it as raster graphics; the shapes of a printer's fonts are its maker's", groups.text, True, loses=True),
    Reason("a fill of nothing", fills_nothing, lambda *_: "it marks nothing",
           "Its rectangle has no size, lies outside the page, or its pattern does not exist", groups.fills, True, how="row"),
    Reason("pattern", refuses_pattern, because_of_pattern, "It is 00 00 01 00, height and width of 16 bits each, and the rows", blanks=True, how="row"),
    Reason("a white fill", following.erases, lambda _, each: f"a fill with white erases {counted(following.erased_dots(each), 'black dot')}",
           "Nothing is to be done where white is meant; else send it before what it shall not erase", following.erased, dots=following.erased_dots, how="row"),
    Reason("rows past the raster height", comes_late, because_of_late,
           "Have the driver send ESC*r#T with the rows that the picture has, or leave it out", groups.late, True, loses=True, how="row"),
    Reason("a row that is cut", is_cut, because_of_cut, "It was cut: copy or make it again", groups.plain, True, loses=True),
    Reason("broken", lambda _, each: "broken" if has_no_row(each, Broken) else None, lambda *_: "ignored",
           "A PJL line ends with a line feed and has at most 4,096 bytes, a value field at most 32", groups.broken, True),
    Reason("value", other_value, because_of_value, "Have the driver send a value that the row names", blanks=True, how=NO_SUCH_VALUE),
    Reason("time", wrong_time, because_of_time, "Have the driver send it where it is taken, or leave it out", blanks=True, how="row"),
    Reason("a front without its back", loses_its_back, lambda *_: "the front before it goes out alone, and has no back",
           "Send this before the first page of a leaf, or not at all within the job", groups.fronts, how="row"),
    Reason("registration", of_letters(set(REGISTERED), moves, False), registration, registration_advice),
    Reason("top margin", margin_is_put_back, because_of_margin, "Have the driver send ESC&l#L before ESC&l#E", how="row"),
    Reason("margin that is put back", lambda judge, each: spelled(each) if place_of(each) in judge.following.put_back else None,
           following.because_put_back, "Have the driver send ESC&l#A and ESC&l#O before ESC&l#E", how="row"),
    Reason("scaling", of_letters({"*tH", "*tV"}), lambda *_: "rows are not scaled; they have the size of their resolution",
           "Have the driver send a raster resolution that fits", groups.first_of_many, name_of=groups.of_a_kind),
    Reason("direction", of_letters({"&aP"}, moves, False), lambda *_: "the print direction is not carried out", "Turn the page: ESC&l#O"),
    Reason("nothing that is asked for", of_letters(LEFT_OUT, lambda each: not moves(each)), lambda *_: "this press does not carry it out, and at 0 it asks for nothing",
           "", groups.silent, harmless=True),
    Reason("page length", other_length, lambda _, each: f"a page length chooses no paper here, so the page size stays {each.before['size']}",
           f"Have the driver send ESC&l#A: {named_values.SIZES}"),
    Reason("presentation", turns_rows, lambda *_: "rows turn with the page here (mode 0), so the picture stands turned by a quarter",
           "Have the driver send ESC*r0F and rows in the direction of the page, or portrait"),
    Reason("size by dots", of_letters({"&fI", "&fJ"}), lambda *_: "a page has one of six sizes, and none by its width and length",
           f"Have the driver send ESC&l#A: {named_values.SIZES}", groups.first_of_many, name_of=groups.of_a_kind),
    Reason("PJL variable", job_lines.other_variable, job_lines.because_of_variable, job_lines.VARIABLES, groups.variables, harmless=True, name_of=groups.job_name, how="any"),
    Reason("PJL value", job_lines.other_value, job_lines.because_of_value, job_lines.value_advice, groups.plain, how="any"),
    Reason("PJL command", job_lines.other_word, job_lines.because_of_word, job_lines.WORDS, groups.plain, harmless=True, how="any"),
    Reason("fonts", font, lambda *_: "fonts are left out, and text leaves no marks", "Send text as raster graphics", groups.first_of_many, name_of=groups.of_a_kind),
    Reason("steps of text", control(BACKSPACE, TAB), lambda *_: "it moves the cursor of text, which is left out, and none here",
           "Have the driver move by ESC*p#X", groups.first_of_many, name_of=groups.of_a_kind),
    Reason("control", control(), lambda *_: "it marks nothing, and moves no dot", "Nothing is to be done", groups.first_of_many, name_of=groups.of_a_kind, harmless=True),
    Reason("colours", of_letters(COLOURS), lambda *_: "this press has black alone", BLACK, groups.first_of_many, name_of=groups.of_a_kind),
    Reason("handling", of_letters(HANDLING), lambda *_: "this press does not carry it out, and it moves no dot", "Nothing is to be done", groups.first_of_many, name_of=groups.of_a_kind,
           harmless=True),
    Reason("unknown", unknown, lambda *_: "ignored", "tools/explain says where each stands", groups.first_of_many, name_of=groups.of_a_kind),
]
BY_NAME = {reason.name: reason for reason in REASONS}
ORDER = {reason.name: place for place, reason in enumerate(REASONS)}
BY_HOW = {how: [reason for reason in REASONS if reason.how in (how, "any")] for how in ("row", "no row", NO_SUCH_VALUE, "HP-GL/2", "overlay")}
# What a command without a row may meet of a kind of which streams have thousands.
BY_KIND = {("no row", kind): [BY_NAME[name] for name in some] for kind, some in {
    Foreign: ["another language"], Text: ["what is left of a command", "text"],
    Control: ["what is left of a command", "steps of text", "control", "unknown"]}.items()}
LATE = [BY_NAME[name] for name in following.LATE]    # those that what follows decides


def is_plain(happening):
    """A row that comes out whole meets none of them, and no place to which the cursor goes; it is asked first, since a driver sends many of these."""
    sent = happening.sent
    if type(happening) is Row and sent is WHOLE_ROW:
        return happening.is_changing()
    key = happening.key
    if key not in PLAIN or not (sent is WHOLE_ROW or sent is NOTHING) and (sent.right or sent.below or sent.late or sent.again):
        return False
    return key == "*bM" or happening.is_changing()    # a method may be said again


PLAIN = ("*bW", "*pX", "*pY", "*bM")


class Judge:
    """The reasons that the happenings of a run meet, rows together."""

    def __init__(self, run):
        self.run = run
        self.language, self.left_until = None, 0    # that a line entered, and where data that was taken ends
        self.registered = {}                        # the first value of each edge for which a registration asks
        self.following = following.Following(run)
        self.next = None                            # what stands behind the happening that is judged
        self.before_loss = []                       # what may put dots past an edge, and its reason
        self.releases = 0                           # of what follows, when it was asked last which wait no longer

    def judged(self, in_order=False):
        """Each happening with its reason and key, or None, once all that decides them was seen: those that wait for it come later, but `in_order`, where
        what follows waits, too."""
        waiting, held, before = collections.deque(), self.following.held, None
        for self.next in itertools.chain(self.run.together(keeps=in_order), [None]):
            if before is not None:
                met = None if is_plain(before) else self.first_met(before)
                self.following.go_on(before)
                if waiting or held:
                    waiting.append((before, met))
                    yield from self.decided(waiting, in_order)
                else:
                    yield before, met
            before = self.next
        self.following.end()
        yield from self.decided(waiting, in_order)

    def decided(self, waiting, in_order):
        """Those of which all is known; they wait no longer. Where none was released since this was asked last, it can be the last one alone."""
        if not in_order and self.following.releases == self.releases:
            if waiting and place_of(waiting[-1][0]) not in self.following.held:
                happening, met = waiting.pop()
                yield happening, self.late_met(happening, met)
            return
        self.releases = self.following.releases
        for _ in range(len(waiting)):
            happening, met = waiting[0]
            if place_of(happening) not in self.following.held:
                waiting.popleft()
                yield happening, self.late_met(happening, met)
            elif in_order:
                return
            else:
                waiting.rotate(-1)

    def first_met(self, happening):
        """The first reason of the table that is met by what is known when the next command is seen."""
        self.see(happening)
        if happening.how == "recorded":
            return None
        for reason in BY_KIND.get((happening.how, type(happening.placed.command))) or BY_HOW[happening.how]:
            key = reason.met(self, happening)
            if key is not None:
                return reason, key
        return None

    def late_met(self, happening, met):
        """The same, where one that stands before it is met by what follows."""
        if place_of(happening) in self.following.late:
            for reason in LATE:
                if met is not None and ORDER[met[0].name] < ORDER[reason.name]:
                    break
                if (key := reason.met(self, happening)) is not None:
                    return reason, key
        return met

    def see(self, happening):
        """Notes what is asked for of the commands behind it."""
        command = happening.placed.command
        if isinstance(command, PjlLine):
            language = pjl.language_of_line(command.line)
            self.language = job_lines.shown(language) if language else self.language
        elif isinstance(command, Param) and happening.how == "no row":
            if takes_data(self, happening):
                self.left_until = max(self.left_until, self.read_over(happening)[1])
            if letters(command) in REGISTERED:
                self.registered.setdefault(letters(command), command.value().tenthousandths)

    def note(self, happening, reason):
        """Notes what the advice on another happening may be about."""
        if reason.name == "resolution" or reason.name in PUTTING_LOWER:
            self.before_loss.append((happening, reason))

    def cost_of(self, happening):
        """The commands that begin in the data that was taken, as they would be read there."""
        return self.read_over(happening)[0]

    def read_over(self, happening):
        placed, stream = happening.placed, self.run.stream
        end = placed.offset + placed.length
        place, mode, found = end - len(placed.command.data), commands.PCL, []
        while place < end and (head := commands.head(mode, stream, place)) is not None:
            command, place, mode = head
            found.append(command)
        return found, max(end, place)

    def is_left_over(self, happening):
        return place_of(happening) < self.left_until

    def is_last(self):
        return self.next is None

    def ends_a_job(self):
        """Whether a universal exit comes next."""
        return self.next is not None and isinstance(self.next.placed.command, Uel)

    def goes_out_alone(self, happening):
        """Whether a sheet without a back goes out by it."""
        numbers = {number for number, _ in happening.sheets}
        behind = itertools.takewhile(lambda sheet: sheet.number >= min(numbers), reversed(self.run.leaves.sheets))
        return any(sheet.back is None for sheet in behind if sheet.number in numbers)

    def side_of(self, happening):
        """The number of the side on which a happening is met; None where it does not come out. It is asked at the end."""
        sides = self.run.side_of_page()
        place = sides[happening.page] if happening.page < len(sides) else None
        return None if place is None else place + 1
