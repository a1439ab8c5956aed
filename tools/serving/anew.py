"""A job made anew from its sheets: what of a stream cannot be given, its sheets, tickets of them, the jobs that `press write` makes, and whether these
print the same. No byte of the stream is in them: `press write` sees tickets and images alone."""

import json
import itertools
from pathlib import Path
from typing import NamedTuple

from comparing import dots
from model import defaults, pages
from model.commands import Text
from reasons import kinds
from reasons.finding import counted
from reasons.untraced import BY_NAME, NO_SUCH_VALUE, Group, Judge
from seen import happenings, listing, pages_of, program

from .relay import Refused

# Reasons of the press's why it prints something else than a printer might, by name.
LEFT_OUT = ("another language", "resolution", "planes", "method", "HP-GL/2", "text", "scaling", "direction")
SIDES = {None: "OneSidedFront", "LONGEDGE": "TwoSidedHeadToHead", "SHORTEDGE": "TwoSidedHeadToFoot"}
MOST_SHEETS = 32     # of a ticket, whose images `press write` holds at once
# A printer that is set otherwise in all that it can be: what is made anew prints the same on it.
OTHERWISE = ("RESOLUTION=600", "COPIES=2", "DUPLEX=ON", "BINDING=SHORTEDGE", "ORIENTATION=LANDSCAPE", "PAPER=LEGAL")


class Sheet(NamedTuple):
    """One with all its copies: the files of its sides, and the binding where it has two."""
    size: pages.Size
    binding: str
    sides: list
    copies: int

    def kind(self):
        return self.size, self.binding, self.copies


class Seen(NamedTuple):
    """What a stream prints, and the binding of each sheet of two sides, by the number of its first copy."""
    printed: pages_of.Printed
    sheets: list
    bindings: dict


def look(stream, front, folder, most):
    """The sheets of a stream; it is refused where they are not all that it asks for, or too many."""
    kind = kinds.kind_of(stream) if stream else "empty"
    if kind and kind != "a print stream":
        raise Refused(f"it is {kind}, and no print stream")
    run, bindings, refused = run_of(stream, front)
    if lacking := next(left_out(run, refused), None):
        raise Refused(lacking)
    sides = pages_of.count_sides(front + stream)
    if not sides:
        raise Refused("it prints no sheet")
    if sides > most:
        raise Refused(f"it prints {counted(sides, 'side')}, and at most {most:,} are made anew")
    printed = pages_of.print_into(folder, front + stream)
    return Seen(printed, sheets_of(run, printed, bindings), bindings)


def run_of(stream, front):
    """A run, the binding of each sheet as it goes out, and the commands of bodies whose value is refused; these are known when the run was read."""
    bindings, refused = {}, []

    def watch(run, line, step):
        if line.get("delivered") and step is not None and step.before["duplex"]:
            bindings[line["sheets"] - line["delivered"] + 1] = step.before["binding"]
        if step is not None and step.stack and step.how == NO_SUCH_VALUE:
            refused.append(happenings.of_step(line, step, run.leaves.closed))

    return happenings.Run(stream, front=front, watch=watch), bindings, refused


def bindings_of(stream):
    run, bindings, _ = run_of(stream, b"")
    run.read()
    return bindings


def left_out(run, refused):
    """Sentences about what the press leaves out and a printer might not, also where a macro has it."""
    judge, found = Judge(run), {}
    for happening in itertools.chain(run, refused):
        judge.see(happening)
        happening = as_run(happening)
        for name in LEFT_OUT:
            key = BY_NAME[name].met(judge, happening)
            if key is not None and not is_space(run, happening):
                place = LEFT_OUT.index(name), key
                found.setdefault(place, Group(BY_NAME[name], key, happening)).add(happening)
                break
    for _, group in sorted(found.items(), key=lambda item: item[0][0]):
        yield f"it {group.told(judge)}"


def as_run(happening):
    """A command that a macro records, as if it stood by itself, and had no row; what its row does not name is told where it runs."""
    if happening.how != "recorded":
        return happening
    return happening._replace(how="no row")


def is_space(run, happening):
    placed = happening.placed
    return isinstance(placed.command, Text) and not run.stream[placed.offset:placed.offset + placed.length].strip(b" ")


def sheets_of(run, printed, bindings):
    """Each sheet with the files of its first copy, in their order."""
    files, sheets = {}, []
    for found, name in zip(listing.LINE.finditer(printed.listing), printed.names, strict=True):
        files.setdefault(int(found[1]), []).append((name, pages_of.MEDIA[int(found[3]), int(found[4])]))
    for number, copies, _, _ in run.leaves.sheets:
        sides = files[number]
        sheets.append(Sheet(sides[0][1], bindings.get(number) if len(sides) == 2 else None, [name for name, _ in sides], copies))
    if sum(sheet.copies * len(sheet.sides) for sheet in sheets) != len(printed.names):
        raise ValueError("the listing has other sheets than the trace")
    return sheets


def tickets_of(sheets):
    """Runs of sheets that one ticket takes: of one size, one binding, as many copies of each."""
    for _, some in itertools.groupby(sheets, Sheet.kind):
        some = list(some)
        for place in range(0, len(some), MOST_SHEETS):
            yield some[place:place + MOST_SHEETS]


def ticket_of(some):
    size, binding, copies = some[0].kind()
    return {"Version": "1.5", "Type": "DigitalPrinting", "JobID": "scrub", "NPage": sum(len(sheet.sides) for sheet in some), "Amount": copies,
            "Media": size.name, "Sides": SIDES[binding], "Collate": False, "Resolution": size.resolution}


def cut(page, size):
    """The P4 file of the logical page of a side, and how many black dots stand beside it."""
    left, width, beside, rows = size.portrait_offset, size.width - 2 * size.portrait_offset, 0, []
    spare, short = page.width - left - width, -width % 8
    for place, row in enumerate(page.rows):
        within = row >> spare & (1 << width) - 1 if place < size.height else 0
        beside += (row ^ within << spare).bit_count()
        rows.append((within << short).to_bytes((width + 7) // 8, "big"))
    rows = rows[:size.height]
    return b"P4\n%d %d\n" % (width, len(rows)) + b"".join(rows), beside


def made_anew(sheets, folder):
    """The stream of all jobs."""
    made, number = b"", 1
    for some in tickets_of(sheets):
        names = []
        for sheet in some:
            for which, name in zip(("front", "back"), sheet.sides):
                names.append(folder / f"image-{len(names)}.pbm")
                names[-1].write_bytes(image_of(name, sheet.size, f"the {which} of sheet {number:,}"))
            number += sheet.copies
        made += written(ticket_of(some), names, folder)
    return made


def image_of(name, size, which):
    """The image of a side; it is refused where that is not all of it."""
    image, beside = cut(dots.side_in(name), size)
    if beside:
        raise Refused(f"it has {counted(beside, 'dot')} beside the logical page on {which}, where no image of a ticket lies")
    return image


def written(ticket, names, folder):
    """The job that `press write` makes."""
    (folder / "ticket.json").write_text(json.dumps(ticket))
    ran = program.ask(["write", "ticket.json", "job.prn", *(name.name for name in names)], folder=folder)
    if ran.returncode:
        raise Refused(f"press write answers {ran.stderr.decode(errors='replace').strip()}")
    return (folder / "job.prn").read_bytes()


def compare(seen, stream, folder, front):
    """Refuses a stream that does not print what was seen, side by side, by the printer's own settings, by others, and by none."""
    for number, settings in enumerate({b"", front, defaults.front(OTHERWISE)}):
        place = Path(folder) / f"again-{number}"
        place.mkdir()
        printed = pages_of.print_into(place, settings + stream)
        if printed.listing != seen.printed.listing or printed.replies:
            raise Refused("what was made anew lists other sheets")
        for old, new in zip(seen.printed.names, printed.names, strict=True):
            if old.read_bytes() != new.read_bytes():
                raise Refused(f"what was made anew has other dots on {old.stem}")
            new.unlink()
    numbers = {number for number, *_ in listing.LINE.findall(seen.printed.listing)}
    if len(numbers) < len(seen.printed.names) and two_sided(seen.bindings, seen.sheets) != two_sided(bindings_of(stream), seen.sheets):
        raise Refused("what was made anew binds its sheets at another edge")


def two_sided(bindings, sheets):
    """The bindings of the sheets of two sides, by the number of their first copy."""
    firsts = itertools.accumulate((sheet.copies for sheet in sheets), initial=1)
    return [bindings.get(first) for first, sheet in zip(firsts, sheets) if len(sheet.sides) == 2]
