"""Why a ticket is refused, or its images do not fit."""

import difflib

from model import ticket
from model.pages import SIZES
from model.program import spelled
from model.values import FACTORY_RESOLUTION

from . import json_faults
from .finding import Found, counted, ordinal

WANTED = {
    "Version": 'the text "1.5"',
    "Type": "a text",
    "JobID": "a text of 1 to 63 characters from the space to ~",
    "NPage": "a whole number without point and exponent",
    "Amount": "a whole number without point and exponent",
    "RunList": "a list of 1 to 64 pairs of whole numbers, as [[0, -1]]",
    "Media": "one of " + ", ".join(SIZES),
    "Sides": "one of " + ", ".join(ticket.SIDES),
    "Collate": "true or false",
    "Resolution": "300 or 600",
}
KEYS = ticket.KEYS


def ticket_in(shown, data):
    """The ticket of a text."""
    value, reason, advice = json_faults.object_of(data)
    if value is None:
        raise Found(ticket.NOT_JSON, f"{shown} {reason}", advice)
    return ticket_of(shown, value)


def ticket_of(shown, value):
    try:
        return ticket.ticket_of(value)
    except ticket.Refused as refused:
        raise judged(refused, shown, value) from None


def judged(refused, shown, value):
    if refused.number == ticket.NOT_PROFILE:
        return judged_key(refused.key, shown, value)
    if refused.number == ticket.WRONG_PROCESS:
        return Found(refused.number, f"{shown} asks for {value['Type']}", 'This press does one process: "Type": "DigitalPrinting"')
    if refused.number == ticket.BAD_AMOUNT:
        return Found(refused.number, f"{shown} asks for {counted(value['Amount'], 'set')}", "Amount is 1 to 9,999")
    return judged_pages(refused.number, shown, value)


def judged_key(key, shown, value):
    if key not in KEYS:
        near = difflib.get_close_matches(key, KEYS, 1, 0.5)
        hint = f"Did you mean {near[0]}?" if near else "The keys are " + ", ".join(KEYS)
        return Found(ticket.NOT_PROFILE, f"{shown} has the unknown key {spelled(key)}", hint)
    if key not in value:
        return Found(ticket.NOT_PROFILE, f"{shown} has no key {key}", f"Add it: {WANTED[key]}")
    return Found(ticket.NOT_PROFILE, f"{shown} has a {key} that is {shortened(value[key])}", f"It has to be {WANTED[key]}")


def shortened(value):
    text = repr(value) if not isinstance(value, bool) else str(value).lower()
    return text if len(text) <= 40 else text[:40] + ".."


def judged_pages(number, shown, value):
    count = value["NPage"]
    if not 1 <= count <= ticket.MOST_PAGES:
        return Found(number, f"{shown} says that the job has {counted(count, 'page')}", "NPage is 1 to 999")
    for pair in value.get("RunList", [[0, -1]]):
        for page in pair:
            if not -count <= page < count:
                return Found(number, f"{shown} has page {page} in RunList, and the job has the pages 0 to {count - 1}",
                             "Pages are counted from 0, and from the end by negative numbers: -1 is the last")
    return Found(number, f"{shown} has a set of more than 999 pages", "Shorten RunList")


def check_images(shown, asked, images, names):
    """Fails where the images do not fit the ticket."""
    room = asked.room()
    try:
        ticket.check(asked, images)
    except ticket.Refused as refused:
        if refused.number == ticket.PAGE_MISSING:
            raise Found(refused.number, f"{shown} has {counted(asked.page_count, 'page')}, and {counted(len(images), 'image')} stand behind OUT",
                        "Name an image for each page, also for one that is in no set") from None
        wide = refused.number == ticket.TOO_WIDE
        page = next(page for page in asked.pages if (images[page][0] > room[0] if wide else len(images[page][1]) > room[1]))
        dots = images[page][0] if wide else len(images[page][1])
        raise Found(refused.number, f"{ordinal(page)} image {names[page]} is {dots:,} dots {'wide' if wide else 'tall'}, and "
                    f"{medium_of(asked)} has room for {room[0 if wide else 1]:,}", advice_for(asked, images[page], names[page])) from None


def medium_of(asked):
    return asked.media + ("" if asked.resolution == FACTORY_RESOLUTION else f" at {asked.resolution} dots per inch")


def advice_for(asked, image, name):
    """The line that cuts an image of a whole side is named; else another resolution where the image fits at it."""
    (width, rows), side, room = image, asked.size(), asked.room()
    if width == side.width and len(rows) <= room[1]:
        return (f"It is as wide as the side, and an image lies on the logical page: cut it by pamcut -left {side.portrait_offset} -width {room[0]} "
                f"{name} > cut.pbm (Netpbm), which leaves out what a printer does not print")
    for resolution in ticket.RESOLUTIONS if "Resolution" in KEYS else ():
        room = asked._replace(resolution=resolution).room()
        if resolution > asked.resolution and width <= room[0] and len(rows) <= room[1]:
            return f"Scale or cut it, ask for another Media, or for {resolution} dots per inch: \"Resolution\": {resolution}"
    return "Scale or cut it, or ask for another Media"
