"""What is said of a command by what follows it in the stream: a macro that is not ended, an overlay that runs nothing, a margin that is put back,
rows of nothing that repeat the row above, pages that move from one to the next, and rows behind a form feed that nothing places."""

from typing import NamedTuple

from model import rows
from model.values import POSITIONS_PER_INCH
from seen import remarks
from seen.sent import SENDING, letters

from . import groups
from .finding import Finding, counted

BEGIN, END, OVERLAY = 0, 1, 4
WHITE = 1                    # of a fill
REPEATED_INCHES = 0.1        # so far down a row is repeated until raster graphics ends, where white rows were meant
LEAST_MOVED = 3              # pages, each as far from the one before
SETTLED = "top_margin"
PUTTING_BACK = ("&lO", "&lA", "&lL")   # what puts the top margin back to half an inch


def with_value(happening, key, *values):
    return happening.key == key and happening.placed.command.value().whole() in values


class Unended(NamedTuple):
    """A macro definition that no ESC&f1X ends."""
    commands: int    # that are recorded
    ended_by: object   # the happening that ends it, or None at the end


# The reasons that what follows decides, in the order of the table.
LATE = ("a macro that is not ended", "an overlay of nothing", "a row that repeats", "a front without its back", "top margin", "margin that is put back")


class Following:
    """What is known of commands by what follows them, each by its place. `held` are the places of those that wait for it, and `late` of those that
    something was found of."""

    def __init__(self, run):
        self.run = run
        self.held, self.late = set(), set()
        self.releases = 0                               # how often some of them wait no longer
        self.unended, self.idle_overlays, self.put_back, self.repeated, self.fronts = {}, set(), set(), {}, set()
        self.begun, self.recorded = None, 0             # a macro definition, and how many commands it has
        self.put_on, self.closed = None, False          # an overlay, and whether a page closed under it
        self.sought = None                              # what puts a margin back, until something is sent
        self.white, self.rows, self.last, self.scale = None, {}, 0, 0   # of a raster: whether it begins with white rows, its rows that repeat
        self.together = {}                              # those of them that stand together, the last
        self.asking = []                                # fronts that went out alone, until another sheet goes out
        self.moving, self.unplaced = Moving(), Unplaced()
        run.counts_repeats = self.counts_repeats

    def counts_repeats(self):
        """Whether it counts which dots rows of no bytes repeat, in what comes next."""
        return self.white is not False

    def hold(self, happening):
        self.held.add(happening.placed.offset)

    def release(self, happening, found=None, told=True):
        """It waits no longer; what is found of it, if anything."""
        if happening is None:
            return
        place = happening.placed.offset
        self.held.discard(place)
        self.releases += 1
        if isinstance(found, dict):
            found[place] = told
        elif found is not None:
            found.add(place)
        if found is not None:
            self.late.add(place)

    def go_on(self, each):
        key = each.key
        if key == "*bW" and self.sought is self.begun is self.put_on is None and not self.asking and self.white is False and not each.closes \
                and self.moving.page == each.page:
            return
        if self.asking and each.sheets and self.asking[0] is not each:
            self.pages_follow(True, each)
        self.follow_macro(each, key)
        self.follow_overlay(each, key)
        self.follow_margin(each, key)
        self.follow_rows(each)
        self.unplaced.go_on(each, key in SENDING and not each.bodies)
        if key in SENDING and not each.bodies:
            self.moving.go_on(each)

    def end(self):
        """Goes on by the exit that is added."""
        end = self.run.end
        self.pages_follow(bool(end.sheets))
        if self.begun is not None:
            self.release(self.begun, self.unended, Unended(self.recorded, None))
        self.follow_overlay(end, "")
        self.release(self.put_on, self.idle_overlays if self.closed else None)
        self.release(self.sought)
        self.end_rows()

    def ask_for_pages(self, happening):
        self.asking.append(happening)
        self.hold(happening)

    def pages_follow(self, they_do, last=None):
        """Whether pages follow those that ask for them, but for the last one."""
        for happening in self.asking:
            if happening is not last:
                self.release(happening, self.fronts if they_do else None)
        self.asking = [happening for happening in self.asking if happening is last]

    def follow_macro(self, each, key):
        if self.begun is not None and each.how == "recorded":
            self.recorded += each.placed.count()
        elif key == "&fX" and with_value(each, key, BEGIN) and not each.depth:
            self.release(self.begun)
            self.begun, self.recorded = each, 0
            self.hold(each)
        elif self.begun is not None and any(name == "defining" for name, _, _ in each.changes):
            ended = with_value(each, "&fX", END)
            self.release(self.begun, None if ended else self.unended, Unended(self.recorded, each))
            self.begun = None

    def follow_overlay(self, each, key):
        """Overlays that are put on, and under which pages close, and no body runs."""
        if self.put_on is not None and each.closes and each.before["overlay"] is not None:
            self.closed = True
            if each.bodies:
                self.take_off(None)
        if self.put_on is not None and self.closed and is_taken_off(each):
            self.take_off(self.idle_overlays)
        if key == "&fX" and with_value(each, key, OVERLAY):
            self.take_off(None)
            self.put_on, self.closed = each, False
            self.hold(each)

    def take_off(self, found):
        self.release(self.put_on, found)
        self.put_on = None

    def follow_margin(self, each, key):
        """Commands of page size, orientation and perforation skip that change the top margin, which nothing sets again before something is sent."""
        if self.sought is not None and (key in SENDING or each.bodies):
            self.release(self.sought, self.put_back)
            self.sought = None
        if any(name == SETTLED for name, _, _ in each.changes):
            self.release(self.sought)
            self.sought = each if key in PUTTING_BACK else None
            if self.sought:
                self.hold(each)

    def follow_rows(self, each):
        """The rows of nothing that repeat, of each raster that ends with many of them, as many of these as stand together. A driver that means them skips
        white rows: where the first row of the raster is one of nothing, onto white, it sends white rows so."""
        if letters(each.placed.command) == "*bW":
            if self.white is None and each.how == "row":
                self.white = not each.placed.command.data and not each.sent.again
            if not is_repeat(each):
                self.end_together()
            else:
                self.last, self.scale = self.last + 1, each.before["raster_resolution"]
                if self.white:
                    self.together[each.placed.offset] = each.sent.again
                    self.hold(each)
        if any(name == "raster_on" and before for name, before, _ in each.changes):
            self.end_rows()

    def end_together(self):
        """Whether many stand together here; a few are meant."""
        many = self.last >= REPEATED_INCHES * self.scale > 0
        if many:
            self.rows.update(self.together)
        else:
            self.held.difference_update(self.together)
            self.releases += len(self.together)
        self.together, self.last = {}, 0
        return many

    def end_rows(self):
        if self.end_together():
            self.repeated.update(self.rows)
            self.late.update(self.rows)
        self.held.difference_update(self.rows)
        self.releases += 1
        self.white, self.rows = None, {}


def is_taken_off(happening):
    return any(name == "overlay" for name, _, _ in happening.changes)


def is_repeat(happening):
    return happening.sent.again > 0 and not happening.placed.command.data and happening.before["method"] == rows.DELTA_ROW


class Moving:
    """How far below the top of each page stands what is sent to it first."""

    def __init__(self):
        self.page, self.pages = None, 0
        self.place = self.step = self.second = None
        self.is_steady, self.kind = True, None

    def go_on(self, each):
        if each.page == self.page:
            return
        place, kind = each.before["y"] + each.before[SETTLED], (each.before["size"], each.before["orientation"], each.resolution)
        if self.pages:
            step = place - self.place
            self.second = self.second or each
            self.is_steady = self.is_steady and self.kind == kind and self.step in (None, step)
            self.step = step
        self.page, self.pages, self.place, self.kind = each.page, self.pages + 1, place, kind

    def finding(self, shown, side_of):
        """A finding where each page stands as far above or below the one before."""
        if self.pages < LEAST_MOVED or not self.is_steady or not self.step:
            return
        second = self.second
        dots, command = self.step * second.resolution / POSITIONS_PER_INCH, remarks.spelled(second.placed.command)
        yield Finding(None, f"{shown} moves from page to page: what each of its {counted(self.pages, 'page')} sends first stands {abs(dots):g} dots "
                      f"{'below' if dots > 0 else 'above'} that of the page before, on side {side_of(second)} by {command} "
                      f"{groups.place_of(second)}", "Look at what its driver places each page by: ESC*p#Y, ESC&a#V, or nothing behind a form feed",
                      remark=True, page=side_of(second), place=second.placed.offset, command=command)


class Unplaced:
    """Rows behind a form feed that ends raster graphics, which nothing begins or places: they begin where it leaves the cursor, and not where those of the
    page before began."""

    def __init__(self):
        self.place = self.before = None      # where what is sent first to this page stands below its top, and to the one before
        self.feed = self.found = None

    def go_on(self, each, sends):
        if each.closes:
            self.before, self.place = self.place, None
            self.feed = each if each.before["raster_on"] and each.how == "row" else None
        elif sends:
            if self.place is None:
                self.place = each.before["y"] + each.before[SETTLED]
                if self.feed is not None and self.found is None and self.before not in (None, self.place):
                    self.found = self.feed, each, self.place - self.before
            self.feed = None
        elif any(name in ("y", "raster_on") for name, _, _ in each.changes):
            self.feed = None

    def finding(self, shown, side_of):
        if self.found is None:
            return
        feed, first, step = self.found
        dots, name, side = step * first.resolution / POSITIONS_PER_INCH, groups.named(feed), side_of(first)
        yield Finding(None, f"{shown} moves from page to page: {name} {groups.place_of(feed)} ends raster graphics, and nothing places the rows behind it, so on side "
                      f"{side} they begin {abs(dots):g} dots {'below' if dots > 0 else 'above'} where those of the page before began",
                      "Have the driver begin raster graphics on each page (ESC*rA), and place it: ESC*p#Y", remark=True, page=side, place=feed.placed.offset,
                      command=name)


# What the reasons say

def because_unended(judge, happening):
    found = judge.following.unended[happening.placed.offset]
    by = f"{groups.named(found.ended_by)} {groups.place_of(found.ended_by)} ends it without" if found.ended_by else "the stream ends before"
    are = "is" if found.commands == 1 else "are"
    return f"{by} ESC&f1X, so the {counted(found.commands, 'command')} behind it {are} recorded, and lost"


def because_put_back(_, happening):
    before, after = next((before, after) for name, before, after in happening.changes if name == SETTLED)
    dots = (after - before) * happening.resolution / POSITIONS_PER_INCH
    field = {"&lO": "orientation", "&lA": "size"}[letters(happening.placed.command)]
    though = "" if any(name == field for name, _, _ in happening.changes) else f", though the {remarks.FIELDS[field]} stays the same"
    return (f"this puts the top margin back to half an inch{though}, so what follows stands {abs(dots):g} dots "
            f"{'below' if dots > 0 else 'above'} where the margin before it put it")


def repeats(_, group):
    each = "it repeats the row above it" if group.count == 1 else "each repeats the row above it"
    return (f"has {counted(group.count, 'row')} of no bytes by method 3 (ESC*b0W) {groups.from_byte(group)}, and {each}: "
            f"{counted(group.lost, 'black dot')}")


def erases(_, happening):
    """A fill with white that erases dots; of a page that is blank it is told as the cause, and not by itself."""
    return "fills" if happening.marks and with_value(happening, "*cP", WHITE) else None


def erased_dots(happening):
    return sum(mark.dots() for mark in happening.marks)


def erased(_, group):
    fills = "a fill with white" if group.count == 1 else f"{group.count:,} fills with white"
    return (f"has {counted(group.lost, 'black dot')} that {fills} ({groups.named(group.first)} {groups.place_of(group.first)}) "
            f"{'erases' if group.count == 1 else 'erase'}")


def transparent(_, group):
    return f"has {counted(sum(size * count for size, count in group.names.items()), 'byte')} of transparent data (ESC&p#X) {groups.from_byte(group)}, and text leaves no marks"
