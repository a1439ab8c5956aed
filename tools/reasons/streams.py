"""Why a stream prints nothing, or a blank page, or other dots than were meant. None of this is a fault: the status is 0."""

from model import defaults
from seen import happenings, listing, program

from . import damage, following, groups, kinds
from .finding import Finding, counted
from .untraced import AS_PCL, ORDER, Group, Judge, Reason

READS = "the press reads PCL and PJL"
DECODE = "Decode it first: base64 -d"
WHITE = ("has rows there, and none of their dots is black", "Look at what made it: the picture is white, or cut elsewhere")
UNMARKED = ("has nothing there that marks: no row, no rectangle, no text", "Look at what made it")
BLANK_FRONT = ("asks for a blank front by ESC&a2G", "Send a page for the front, or leave ESC&a2G out")
HIDDEN = "has dots there that white ones replace"
WHITE_FILL = "a white fill"    # the name of its reason
ERASED = Reason("erased", None, None, "Look at the fills (ESC*c1P is a white one), patterns and transparencies: ESC*v#T, ESC*v#N, ESC*v#O",
                lambda _, group: f"{HIDDEN}, the last by {groups.named(group.first)} {groups.place_of(group.first)}",
                dots=following.erased_dots)


def of_kind(shown, stream):
    """The finding on what is no stream of a printer, or None."""
    sent = stream[len(defaults.front_of(stream)):]
    if not sent:
        return Finding(None, f"{shown} is empty, and an empty stream prints no sheet", "Look at what made it")
    kind = kinds.kind_of(sent)
    if kind and kind != "a print stream":
        return Finding(None, f"{shown} is {kind}; {READS}", DECODE if kind.endswith(kinds.IN_BASE_64) else AS_PCL)
    return None


def looked_at(shown, stream, front=b"", chosen=program.PROGRAM):
    """The findings on a stream that is read to its end, the weightiest first; and its sides."""
    if (other := of_kind(shown, stream)) is not None:
        return [other], []
    run = happenings.Run(stream, front=front, chosen=chosen)
    seen = Seen(run)
    for happening, met in seen.judge.judged():
        seen.add(happening, met)
    return seen.findings(shown), seen.sides.found


class OnPage:
    """What was sent while a page was open: its rows, dots that it lost, the command that marked it last, and the reasons that were met."""

    def __init__(self):
        self.rows = self.lost = 0
        self.marking = None
        self.groups = {}


class Seen:
    """What is seen of a run: the reasons that it met, its sides, and of each page that came out blank what was sent to it. Of the others nothing is
    held."""

    def __init__(self, run):
        self.run, self.judge, self.sides = run, Judge(run), listing.Sides(run)
        self.groups, self.pages = {}, {}
        self.count = self.recorded = 0
        self.told = 0          # sides of which it is known whether they are blank

    def add(self, happening, met):
        self.count += 1
        self.recorded += happening.how == "recorded"
        number, sent = happening.page, happening.sent
        if (page := self.pages.get(number)) is None:
            self.settle(number)
            page = self.pages.setdefault(number, OnPage())
        page.rows += sent.rows
        page.lost += sent.right + sent.below
        if happening.marks_its_page():
            page.marking = happening
        if met is not None:
            self.judge.note(happening, met[0])
            add_to(page.groups, happening, *met)
            if met[0].name != WHITE_FILL:
                add_to(self.groups, happening, *met)

    def settle(self, before):
        """Lets go of the pages that came out, and are not blank; before the page of this number, or all."""
        self.sides.go_on()
        for side, page in zip(self.sides.found[self.told:], self.sides.pages[self.told:]):
            if before is not None and page >= before:
                return
            self.told += 1
            held = self.pages.get(page)
            if held is None:
                continue
            if side[0].count_black():
                self.join_white_fills(self.pages.pop(page))
            elif held.marking:
                held.marking.marks[0].box()
        if before is None:
            for page in set(self.pages) - set(self.sides.pages):
                self.join_white_fills(self.pages[page])

    def join_white_fills(self, page):
        """A fill with white is told of a page that is not blank."""
        for key, group in page.groups.items():
            if group.reason.name == WHITE_FILL:
                self.groups.setdefault(key, Group(group.reason, group.key, group.first)).join(group)

    def findings(self, shown):
        """The findings at the end of the run, the weightiest first."""
        self.sides.all()
        self.settle(None)
        self.met = in_order(self.groups)
        judge, causes, damaged = self.judge, list(blanks(self)), damage.found(shown, self.run.stream)
        found = [Finding(None, f"{shown} {which}: it {cause}" if cause else f"{shown} {which}", advice, page=page, **facts_of(judge, group))
                 for which, cause, advice, group, page in causes]
        used = {(group.reason, group.key) for _, _, _, group, _ in causes if group}
        found += [Finding(None, f"{shown} {cause}", group.advised(judge), group.reason.harmless, not group.reason.loses, judge.side_of(group.first),
                          **facts_of(judge, group))
                  for group in self.met if (group.reason, group.key) not in used and (cause := group.told(judge))]
        return [*filter(None, [damaged]), *found, *judge.following.moving.finding(shown, judge.side_of),
                *judge.following.unplaced.finding(shown, judge.side_of), *still_open(shown, self.run)]


def add_to(some, happening, reason, key):
    place = ORDER[reason.name], key
    if (group := some.get(place)) is None:
        group = some[place] = Group(reason, key, happening)
    group.add(happening)


def in_order(some):
    """Groups in the order of the table, and of what they begin with."""
    return [group for _, group in sorted(some.items(), key=lambda item: (item[0][0], item[1].first.placed.offset))]


def facts_of(judge, group):
    """Where the command stands that a finding is of, how it is spelled, and how many dots it cost."""
    return {"place": group.first.placed.offset, "command": group.command(), "dots": group.dots()} if group else {}


def blanks(seen):
    """For each cause of a blank side, and of no sheet: what is blank, the cause, what to do, its group, if it has one, and the first of these sides."""
    sides, causes = seen.sides.found, {}
    if not sides:
        yield nothing(seen)
        return
    resolutions = [group for group in seen.met if group.reason.name == "resolution"]
    for place, page in enumerate(seen.run.page_of_side()):
        if not sides[place][0].count_black():
            group = cause_of_page(seen.pages.get(page, OnPage()), page, resolutions)
            key = (group.reason, group.key) if isinstance(group, Group) else group
            causes.setdefault(key, []).append((place, group))
    every = len(causes) == 1 and len(next(iter(causes.values()))) == len(sides)
    for some in causes.values():
        which = f"prints {counted(len(sides), 'side')}, and {blank_ones([place for place, _ in some], every)}"
        if isinstance(some[0][1], Group):
            group = together([group for _, group in some])
            yield which, group.told(seen.judge), group.advised(seen.judge), group, some[0][0] + 1
        else:
            yield which, *some[0][1], None, some[0][0] + 1


def together(some):
    """One group of those that pages met for one thing."""
    if some[0].reason.name == "resolution":
        return some[0]      # of all pages
    whole = Group(some[0].reason, some[0].key, some[0].first)
    for group in some:
        whole.join(group)
    return whole


def blank_ones(places, every):
    """The sides that are blank, in words."""
    if every:
        return "it is blank" if len(places) == 1 else "all are blank"
    some = ", ".join(str(place + 1) for place in places[:6]) + (" .." if len(places) > 6 else "")
    return f"side {some} is blank" if len(places) == 1 else f"the sides {some} are blank"


def cause_of_page(on_page, page, resolutions):
    """What it is that a blank page comes of: a group of the table, or what is said of it, and what to do. The last resolution before it that is
    none may be of an earlier page."""
    if page is None:
        return BLANK_FRONT
    if on_page.marking is not None:
        return Group(ERASED, "erased", on_page.marking).add(on_page.marking)
    earlier = [group for group in resolutions if group.first.page <= page]
    for group in earlier[-1:] + in_order(on_page.groups):
        if group.reason.blanks and is_likely(group.reason.name, on_page.rows, on_page.lost):
            return group
    return WHITE if on_page.rows else UNMARKED


def is_likely(name, rows, lost):
    """Whether a reason that a page met may have blanked it: a resolution where dots are lost, a value where rows are not all white."""
    if name == "resolution":
        return lost > 0
    if name in ("value", "time"):
        return rows == 0
    return True


def nothing(seen):
    """The same where no sheet comes out."""
    if seen.recorded == seen.count - 1 and seen.recorded:
        return "prints no sheet", "records all in a macro that is not ended", "End it by ESC&f1X, and run it", None, None
    for group in seen.met:
        if group.reason.blanks and (cause := group.told(seen.judge)):
            return "prints no sheet", cause, group.advised(seen.judge), group, None
    return ("prints no sheet: nothing marks a page, and no form feed closes one", None,
            "A page comes out where a form feed or a reset closes it; a reset closes a page that has a mark", None, None)


def still_open(shown, run):
    """The last page, where nothing in the stream closes it."""
    if run.end.closes:
        yield Finding(None, f"{shown} ends while a page with marks is open; it comes out here, by the exit that the press adds",
                      "A printer may wait for a form feed: end the stream by ESC E", remark=True)
