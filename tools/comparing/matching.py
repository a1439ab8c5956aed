"""Whether a page is the picture that went in: whole, cut at an edge, moved, or another; and at which place."""

import functools
import itertools
from typing import NamedTuple

from reasons.finding import counted

from . import dots

ALIKE = 50       # of so many dots one may be another, where a page is nearly whole
NEAR = 8         # dots by which a picture of the whole page is larger or smaller, each way
MOST_SCALE = 4
REACH = 400      # dots, how far a picture is looked for whose edges are cut
DOWNS = 4        # of these shifts up and down are tried
SPREAD = 50      # of so many lines one is looked at
EDGES = ("left", "upper", "right", "lower")


class Verdict(NamedTuple):
    what: str          # whole, nearly whole, cut, other, blank, none
    moved: tuple       # from its place, dots right and down
    black: int         # dots of the picture
    lacking: int
    more: int
    edges: tuple = ()  # at which it is cut
    scale: int = 1
    at: tuple = (0, 0)     # where it stands on the page
    placed: bool = True    # whether it is known where it should

    def is_right(self):
        return self.what == "whole" and self.moved == (0, 0)

    def wrong(self):
        return self.lacking + self.more

    def told(self):
        if self.what in ("none", "blank"):
            return {"none": "there is no such side", "blank": f"blank: none of {counted(self.black, 'dot')}"}[self.what]
        what = f"cut at the {' and the '.join(self.edges)} edge" if self.what == "cut" else self.what
        where = " and ".join(f"{counted(abs(by), 'dot')} {ways[by > 0]}" for by, ways in zip(self.moved, (("left", "right"), ("up", "down"))) if by)
        how = f"all {counted(self.black, 'dot')}" if not self.lacking else f"{self.lacking:,} of {counted(self.black, 'dot')} lacking"
        more = f", {self.more:,} others" if self.more else ""
        larger = f", each {self.scale} by {self.scale}" if self.scale > 1 else ""
        place = "in its place" if self.placed else f"at {self.at[0]},{self.at[1]}"
        at = "" if self.what == "other" else f", moved {where}" if where else f", {place}"
        return f"{what}{at}: {how}{more}{larger}"


NONE = Verdict("none", (0, 0), 0, 0, 0)


def verdict(picture, page, at=None):
    """What a page is of a picture, that should stand at this place: at the upper left corner, if it has the size of the page, else anywhere."""
    black = picture.count()
    if page is None:
        return NONE._replace(black=black)
    if black and not any(page.rows):
        return Verdict("blank", (0, 0), black, black, 0)
    every = [(each, scale, at or ((0, 0) if is_whole_page(each, page) else None)) for each, scale in sized(picture, page)]
    found = [judged(each, page, place, scale, wanted) for each, scale, wanted in every for place in places(each, page, wanted)]
    if all(each.wrong() for each in found):
        found += [judged(each, page, by_overlap(each, page), scale, wanted) for each, scale, wanted in every]
    return min(found, key=lambda each: (each.wrong() / max(1, each.black), abs(each.moved[0]) + abs(each.moved[1])))


def verdict_there(picture, page, at):
    """What a page is of a picture at the place where it should stand, or anywhere, if that is not known."""
    if not any(page.rows):
        return verdict(picture, page, at)
    every = [(each, scale, at or ((0, 0) if is_whole_page(each, page) else None)) for each, scale in sized(picture, page)]
    found = [judged(each, page, wanted, scale, wanted) for each, scale, wanted in every if wanted]
    return min(found, key=Verdict.wrong) if found else verdict(picture, page, at)


def is_whole_page(picture, page):
    return abs(picture.width - page.width) <= NEAR and abs(len(picture.rows) - len(page.rows)) <= NEAR


def sized(picture, page):
    """The picture, each of its dots so many dots wide and high; one that lies is turned both ways."""
    whole = [scale for scale in range(1, MOST_SCALE + 1) if is_whole_page(dots.Dots(scale * picture.width, range(scale * len(picture.rows))), page)]
    if is_whole_page(dots.Dots(len(picture.rows), range(picture.width)), page) and not whole:
        yield from ((turned(picture, way), 1) for way in (False, True))
        return
    fits = [scale for scale in range(1, MOST_SCALE + 1) if scale * picture.width <= page.width and scale * len(picture.rows) <= len(page.rows)]
    for scale in whole or fits or [1]:
        yield wider(picture, scale), scale


def wider(picture, scale):
    if scale == 1:
        return picture
    rows = [int("".join(digit * scale for digit in format(row, "b")), 2) if row else 0 for row in picture.rows]
    return dots.Dots(scale * picture.width, [row for row in rows for _ in range(scale)])


def turned(picture, left):
    columns = list(map("".join, zip(*(format(row, f"0{picture.width}b") for row in picture.rows))))
    return dots.Dots(len(picture.rows), [int(column, 2) for column in reversed(columns)] if left else [int(column[::-1], 2) for column in columns])


def places(picture, page, wanted):
    """Where it may stand: where it should, where its edges meet those of what is black, and where most of its rows are found."""
    found = [wanted] if wanted else []
    one, other = dots.bounds(picture), dots.bounds(page)
    if one and other:
        found += itertools.product((other.left - one.left, other.right - one.right), (other.top - one.top, other.bottom - one.bottom))
        found += by_rows(picture, page)
    return list(dict.fromkeys(found)) or [(0, 0)]


def by_rows(picture, page):
    """The place of most of the rows that stand once in the picture and once on the page."""
    one, other = rows_that_stand_once(picture), rows_that_stand_once(page)
    votes = {}
    for row in one.keys() & other.keys():
        place = other[row][0] - one[row][0], other[row][1] - one[row][1]
        votes[place] = votes.get(place, 0) + 1
    return sorted(votes, key=votes.get)[-1:]


def by_overlap(picture, page):
    """The place at which the steps of how many dots are black in each line fit best, and most dots of some lines are the same."""
    one, other = (steps(list(map(int.bit_count, each.rows))) for each in (picture, page))
    downs = sorted(range(-REACH, REACH + 1), key=lambda by: -sum(map(int.__mul__, one[max(0, -by):], other[max(0, by):])))[:DOWNS]
    return max(((right, down) for down in downs for right in range(-REACH, REACH + 1)), key=functools.partial(alike, picture, page))


def alike(picture, page, place):
    """How many dots of some lines are black in a picture at this place and on the page, less those that are black in one alone."""
    left, (right, down) = page.width - picture.width, place
    pairs = ((picture.rows[line], page.rows[line + down]) for line in range(0, len(picture.rows), SPREAD) if 0 <= line + down < len(page.rows))
    by = left - right
    return -sum(((row << by if by >= 0 else row >> -by) ^ other).bit_count() for row, other in pairs)


def steps(counts):
    return list(map(int.__sub__, counts, [0, *counts]))


def rows_that_stand_once(page):
    """Their ends and lines, by their dots from the first to the last black one."""
    found, again = {}, set()
    for line, row in enumerate(page.rows):
        if row:
            behind = (row & -row).bit_length() - 1
            again |= {row >> behind} & found.keys()
            found[row >> behind] = page.width - behind, line
    return {row: place for row, place in found.items() if row not in again}


def judged(picture, page, place, scale, wanted):
    """What a page is of a picture that stands at this place of it."""
    there = dots.moved(picture, *place, page.width, len(page.rows))
    same = dots.pairwise(int.__and__, there, page)
    black, found = picture.count(), same.count()
    lacking, more = black - found, page.count() - found
    moved = (place[0] - wanted[0], place[1] - wanted[1]) if wanted else (0, 0)
    edges = cut_edges(picture, place, same) if 0 < lacking <= found and more * ALIKE <= black else ()
    nearly = "nearly whole" if (lacking + more) * ALIKE <= black else "other"
    what = "whole" if not lacking + more else "cut" if edges else nearly
    return Verdict(what, moved, black, lacking, more, edges, scale, place, wanted is not None)


def cut_edges(picture, place, same):
    """The edges at which all dots stand that a page lacks; empty where others lack, too."""
    kept = dots.bounds(same)
    if kept is None:
        return ()
    kept = dots.Box(kept.left - place[0], kept.top - place[1], kept.right - place[0], kept.bottom - place[1])
    if dots.cut(picture, kept).count() != same.count():
        return ()
    every = dots.bounds(picture)
    return tuple(edge for edge, here, whole in zip(EDGES, kept, every) if here != whole)
