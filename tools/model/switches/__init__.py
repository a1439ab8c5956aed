"""A switch for each sentence of the rules: with it on the model does that sentence wrong, and nothing else.

A switch is its name, the sentence as it should be, and what is changed: a piece of a module's text, which stands there exactly once,
and what stands in its place. README.md of the model says why they are texts. They were written from the rules, each condition,
bound, exception and order of them, and not from the rows that `tools/pinned` runs.
"""

from typing import NamedTuple


class Change(NamedTuple):
    module: str
    old: str
    new: str


class Switch(NamedTuple):
    name: str
    sentence: str
    changes: tuple


def switch(name, sentence, *texts):
    """A switch whose changes are given one behind the other: module, old text, new text."""
    return Switch(name, sentence, tuple(Change(*texts[place:place + 3]) for place in range(0, len(texts), 3)))


def every_switch():
    """All switches, in the order of the parts."""
    from . import commands, cursor, explained, jobs, language, macros, marks, numbers, pages, press, program, raster, resets, second_reading, texts, traces
    parts = [numbers, commands, raster, resets, cursor, pages, marks, macros, language, texts, jobs, press, program, traces, explained, second_reading]
    found = [each for part in parts for each in part.SWITCHES]
    names = [each.name for each in found]
    twice = sorted({name for name in names if names.count(name) > 1})
    if twice:
        raise ValueError(f"two switches are named {', '.join(twice)}")
    return found
