"""Where a run of a film stops: breakpoints by line and by kind, with conditions and counts, and what goes out."""

import re
from typing import Callable, NamedTuple, Optional

from model.debug_lines import kind_of
from seen import film as films
from seen import remarks

from . import conditions, told

FILTERS = {"sheet": ("a sheet goes out", films.SHEET), "reply": ("a reply goes out", films.REPLY), "idle": ("a command has no effect", films.IDLE)}


DOT = re.compile(r"dot (\d{1,6}), ?(\d{1,6})")
HELD = re.compile(r"\{([^{}]+)\}")    # in what a breakpoint tells


class Breakpoint(NamedTuple):
    number: int
    place: Optional[int]        # of the first byte of the line, for one by line
    kind: Optional[str]         # for one by kind
    asks: Optional[Callable]    # of a step
    counts: Optional[Callable]  # of how often it was met
    data: Optional[str]         # a dot or a field that changes, for one by that
    says: Optional[str]         # what is told in place of a stop


class Stop(NamedTuple):
    reason: str
    text: str = ""
    numbers: tuple = ()


class Stops:
    def __init__(self, film):
        self.film = film
        self.lines, self.kinds, self.data, self.filters = [], [], [], {}
        self.said = []    # by breakpoints that tell, and do not stop
        self.met = {}     # how often each breakpoint was met
        self.made = 0

    def make(self, asked, place=None, words=None, data=None):
        """A breakpoint as it is asked for; BadCondition where it cannot be."""
        wanted = kind_of(remarks.typed_kind(words).encode(errors="replace")) if words is not None else None
        if words is not None and wanted is None:
            raise conditions.BadCondition(f"{words} is no kind: esc E, par *cP, ctl 0C or uel")
        self.made += 1
        hits = asked.given("hitCondition", str)
        return Breakpoint(self.made, place, wanted, self.condition(asked), conditions.read_hits(hits) if hits else None, data, asked.given("logMessage", str))

    def condition(self, asked):
        """The condition that is asked for, or None; a field that is none is told at once."""
        text = asked.given("condition", str)
        if not text:
            return None
        asks = conditions.read(text)
        asks.check(self.step(0))
        return asks

    def step(self, count):
        return conditions.Step(self.film.told(count), self.film.told(max(0, count - 1)))

    def at(self, count):
        """Why a run stops behind so many steps, or None."""
        film, following = self.film, self.film.next(count)
        last, flags = film.kind(count), film.flags(count)
        numbers = self.of(self.lines, count, lambda one: one.place == (following.offset if following else None)) if following else ()
        if numbers:
            return Stop("breakpoint", "", numbers)
        if last and not flags & films.RECORDED:
            numbers = self.of(self.kinds, count, lambda one: one.kind == last)
            if numbers:
                return Stop("function breakpoint", last, numbers)
        if count and (numbers := self.of(self.data, count, lambda one: self.changes(one.data, count))):
            return Stop("data breakpoint", next(one.data for one in self.data if one.number == numbers[0]), numbers)
        for name, asks in self.filters.items():
            if flags & FILTERS[name][1] and (asks is None or asks(self.step(count))):
                return Stop("exception", FILTERS[name][0])
        return None

    def of(self, some, count, meets):
        """The numbers of those that are met, whose condition holds, and whose count is reached."""
        numbers = []
        for one in some:
            if meets(one) and (one.asks is None or one.asks(self.step(count))):
                self.met[one.number] = self.met.get(one.number, 0) + 1
                if one.counts is not None and not one.counts(self.met[one.number]):
                    continue
                if one.says:
                    self.said.append(HELD.sub(lambda found: self.value(found[1], count), one.says))
                else:
                    numbers.append(one.number)
        return tuple(numbers)

    def changes(self, data, count):
        """Whether a step changes a dot or a field."""
        if found := DOT.fullmatch(data):
            return self.film.changes_dot(count, *map(int, found.groups()))
        return self.step(count).changed(data)

    def value(self, text, count):
        """What a field, a condition or a dot is behind so many steps, in words."""
        if found := DOT.fullmatch(text.strip()):
            return {True: "black", False: "white", None: "on no open page"}[self.film.dot(count, *map(int, found.groups()))]
        try:
            step = self.step(count)
            return told.spelled(told.name_of(text.strip(), step.now), conditions.read(text)(step), step.now["page.resolution"])
        except conditions.BadCondition as bad:
            return f"{{{text}: {bad}}}"

    def run(self, count, step):
        """Goes on, or back, to the next stop: how many steps were taken there, and why it stops; None at the end, or the begin."""
        return self.film.sought(count, step, self.may_stop, self.at)

    def may_stop(self, block):
        """Whether a run may stop in a block, or before the command behind it."""
        film = self.film
        if any(block.flags & FILTERS[name][1] for name in self.filters) or any(one.kind.encode() in block.kinds for one in self.kinds):
            return True
        if any(block.changes("page" if DOT.fullmatch(one.data) else one.data) for one in self.data):
            return True
        return any(each.has_place(one.place) for one in self.lines for each in (block, film.behind(block)) if each is not None)
