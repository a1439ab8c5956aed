"""What is said of two streams that print other sheets: as data, and in sentences."""

import multiprocessing
import os
from concurrent.futures import ProcessPoolExecutor
from typing import NamedTuple, Optional

from model.values import POSITIONS_PER_INCH
from reasons.finding import counted
from seen.pages_of import RESOLUTIONS

from . import dots, makers

MOST_SIDES, MOST_REGIONS = 20, 6     # whose commands are told
NO_COMMAND = "no command"


class Differing(NamedTuple):
    """Two sides that differ; no regions where their sizes do."""
    old: object
    new: object
    regions: list


def mapped(function, some):
    """What a function makes of each, by processes side by side."""
    if len(some) < 2:
        return list(map(function, some))
    with ProcessPoolExecutor(min(len(some), os.cpu_count()), multiprocessing.get_context("fork")) as pool:
        return list(pool.map(function, some))


def differing(changes):
    """The sides that differ of each pair of sheets, and those that only one of the two has."""
    pairs = list(pairs_of(changes))
    return [Differing(old, new, regions) for (old, new), regions in zip(pairs, mapped(regions_of, pairs))]


def regions_of(pair):
    old, new = pair
    if old is None or new is None or (old.width, old.height) != (new.width, new.height):
        return []
    return dots.regions(dots.side_in(old.path), dots.side_in(new.path))


def pairs_of(changes):
    """Of the sides that differ the old and the new; None where only one of the two is there."""
    for change in changes:
        if change.what != "differs":
            continue
        names = dict.fromkeys(side.name for side in [*change.old, *change.new])
        for name in names:
            old, new = (next((side for side in sheet if side.name == name), None) for sheet in (change.old, change.new))
            if old is None or new is None or old.shape() != new.shape():
                yield old, new


def makers_of(asked):
    return makers.Makers(*asked)


class Told(NamedTuple):
    """A region with the commands that made its dots, and those that set otherwise where they go."""
    region: dots.Region
    old: Optional[makers.Maker]
    new: Optional[makers.Maker]
    movers: list     # pairs, of the old and of the new

    def as_json(self):
        region = self.region
        told = {"box": list(region.box), "only_old": region.only_old, "only_new": region.only_new,
                "old": self.old and self.old.as_json(), "new": self.new and self.new.as_json(),
                "moved_by": [[each and {"byte": each.byte, "command": each.text} for each in pair] for pair in self.movers]}
        return {**told, "shift": list(region.shift)} if region.shift else told

    def what(self, resolution):
        """What became of its dots."""
        region = self.region
        what = f"{counted(region.only_old, 'dot')} only in the old, {region.only_new:,} only in the new"
        if region.shift:
            return f"shifted by {shift_told(region.shift, resolution, self.new or self.old)} ({what})"
        return what

    def both(self):
        """Of the old and of the new: its name, what the first dot is there, and the command that made it so."""
        return (("old", "black" if self.region.first_old else "white", self.old), ("new", "black" if self.region.first_new else "white", self.new))

    def lines(self, resolution):
        box = self.region.box
        yield f"  {box.left},{box.top} to {box.right},{box.bottom}: {self.what(resolution)}"
        for which, shade, maker in self.both():
            yield f"    {which}, {shade} by " + (maker.told() if maker else NO_COMMAND)
        for line in self.places():
            yield f"    {line}"

    def places(self):
        """By which commands its place is another."""
        for one, other in self.movers:
            yield f"the place is set by {mover_told(one)} in the old, and by {mover_told(other)} in the new"


def mover_told(mover):
    return f"byte {mover.byte}: {mover.text}" if mover else NO_COMMAND


def shift_told(shift, resolution, maker):
    """So many dots, and so many PCL units, where their number is whole."""
    unit = maker.unit if maker else resolution
    ways = [f"{counted(abs(by), 'dot')} {way[by > 0]}" for by, way in zip(shift, (("left", "right"), ("up", "down"))) if by]
    units = [counted(abs(by * unit) // resolution, "PCL unit") if by * unit % resolution == 0 else f"{abs(by) * POSITIONS_PER_INCH // resolution:,} of 1/7200 inch"
             for by in shift if by]
    return f"{' and '.join(ways)}, which is {' and '.join(units)} of 1/{unit} inch"


def told_of(region, each, found):
    """The commands of both streams at the first dot that each has alone; where it has none, at the other's."""
    dot = region.first_old or region.first_new, region.first_new or region.first_old
    old = found[0].maker(each.old.number, dot[0], region.first_old is not None)
    new = found[1].maker(each.new.number, dot[1], region.first_new is not None)
    return Told(region, old, new, list(makers.movers_that_differ(old, new)) if old and new else [])


def of_sides(some, streams, front, chosen, most=MOST_REGIONS):
    """Each side that differs with what is told of so many regions, the largest first."""
    told = [(each, each.regions[:most] if place < MOST_SIDES else []) for place, each in enumerate(some)]
    wanted = {dot for _, regions in told for region in regions for dot in (region.first_old, region.first_new) if dot}
    if not wanted:
        return told
    last = [max(number) for number in zip(*((each.old.number, each.new.number) for each, regions in told if regions))]
    found = mapped(makers_of, [(stream, front, wanted, number, chosen) for stream, number in zip(streams, last)])
    return [(each, [told_of(region, each, found) for region in regions]) for each, regions in told]


def name_of(side):
    return f"side {side.number} (sheet {side.sheet} {side.name})"


def lines_of_sheets(changes):
    """What became of whole sheets."""
    for change in changes:
        old, new = (sheet and sheet[0].sheet for sheet in (change.old, change.new))
        if change.what == "moved":
            yield f"sheet {old} of the old is sheet {new} of the new: another order"
        elif change.what == "gone":
            yield f"sheet {old} of the old is gone" + (f": a copy of sheet {change.copy_of} less" if change.copy_of else "")
        elif change.what == "come":
            yield f"sheet {new} of the new is not in the old" + (f": a copy of sheet {change.copy_of} more" if change.copy_of else "")


def counts_of(each):
    """How many dots of a side differ."""
    gone, come = sum(region.only_old for region in each.regions), sum(region.only_new for region in each.regions)
    return f"{counted(gone, 'dot')} only in the old, {come:,} only in the new, in {counted(len(each.regions), 'region')}"


def lines_of_sides(told):
    """What is told of each side, of its largest regions alone."""
    for each, regions in told:
        if each.old is None or each.new is None:
            yield f"{name_of(each.old or each.new)} is in the {'old' if each.old else 'new'} alone"
            continue
        where = name_of(each.old) + ("" if name_of(each.old) == name_of(each.new) else f", {name_of(each.new)} in the new")
        if not each.regions:
            yield f"{where}: {each.old.width}x{each.old.height} in the old, {each.new.width}x{each.new.height} in the new"
            continue
        yield f"{where}: {counts_of(each)}"
        for region in regions[:MOST_REGIONS]:
            yield from region.lines(RESOLUTIONS[each.old.width, each.old.height])


def json_of_sides(told):
    for each, regions in told:
        yield {"old": each.old and each.old.number, "new": each.new and each.new.number, "regions": len(each.regions),
               "sizes": [side and [side.width, side.height] for side in (each.old, each.new)],
               "only_old": sum(region.only_old for region in each.regions), "only_new": sum(region.only_new for region in each.regions),
               "told": [region.as_json() for region in regions[:MOST_REGIONS]]}
