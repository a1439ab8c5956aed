"""What a reset, a call and an overlay make of each field of the engine: streams, and where their dots lie on the first or second side.

A field has a piece of a stream that sets it to something else than after power on, one that shows it, and the black dots of what that
shows after power on, and after it was set. A reset, the end of a call and the beginning of an overlay bring the field back, so all of them
show what power on does; and behind an overlay the page has its own field again. Streams are spelled as in `pages`.
"""

from asked.pages import page, stream_of

# Macros 0 and 1, of a box one and three dots wide, which a reset leaves.
MACROS = "^&f0y0X^*c1a1b0P^&f1x10X^&f1y0X^*c3a1b0P^&f1x10X^&f0Y"

# Each field, what sets it, what shows it, and the dots of that after power on and after it was set.
FIELDS = {
    "unit of measure": ("^&u600D", "^*p10x10Y^*c2a2b0P", [(85, 160, 2, 2)], [(80, 155, 1, 1)]),
    "motion index down": ("^&l4D", "^&a2R^*c1a1b0P", [(75, 287, 1, 1)], [(75, 356, 1, 1)]),
    "motion index across": ("^&k20H", "^&a3C^*c1a1b0P", [(165, 187, 1, 1)], [(225, 187, 1, 1)]),
    "line termination": ("^&k3G", "^*p100X|^*c1a1b0P", [(175, 237, 1, 1)], [(75, 237, 1, 1)]),
    "perforation skip": ("^&l0L", "^&l2E^&l1L^*p0x0Y^*c1a1b0P", [(75, 100, 1, 1)], [(75, 150, 1, 1)]),
    "resolution of rows": ("^*t300R", "^*r0A^*b1W[80]", [(75, 187, 4, 4)], [(75, 187, 1, 1)]),
    "method of rows": ("^*b1M", "^*t300R^*r0A^*b2W[01F0]", [(82, 187, 5, 1)], [(75, 187, 4, 1), (83, 187, 4, 1)]),
    "source width": ("^*r8S", "^*t300R^*r0A^*b2W[FFFF]", [(75, 187, 16, 1)], [(75, 187, 8, 1)]),
    "source height": ("^*r1T", "^*t300R^*r0A^*b1W[80]^*b1W[80]", [(75, 187, 1, 2)], [(75, 187, 1, 1)]),
    "width of rectangles": ("^*c5A", "^*c1b0P", [], [(75, 187, 5, 1)]),
    "height of rectangles": ("^*c5B", "^*c1a0P", [], [(75, 187, 1, 5)]),
    "pattern ID": ("^*c50G", "^*c4a1b2P", [], [(75, 187, 1, 1), (77, 187, 1, 1)]),
    "current pattern": ("^*v1T", "^*c3a1b5P", [(75, 187, 3, 1)], []),
    "source transparency": ("^*v1N", "^*c8a1b0P^*t300R^*r8S^*r0A^*b1W[0F]", [(75, 187, 8, 1)], [(79, 187, 4, 1)]),
    "pattern transparency": ("^*v1O", "^*c4a1b0P^*c1G^*c4a1b2P", [(75, 187, 4, 1)], []),
    "macro ID": ("^&f1Y", "^&f2X", [(75, 187, 1, 1)], [(75, 187, 3, 1)]),
    "left margin": ("^&a10L", "<^*c1a1b0P", [(75, 187, 1, 1)], [(375, 187, 1, 1)]),
    "right margin": ("^&a9M", "^&a20L<^*c1a1b0P", [(675, 187, 1, 1)], [(75, 187, 1, 1)]),
    "top margin": ("^&l2E", "^*p0x0Y^*c1a1b0P", [(75, 150, 1, 1)], [(75, 100, 1, 1)]),
    # behind a line feed that closes the page the box lies on the next one
    "text length": ("^&l5F", "^*p300Y|^*c1a1b0P", [(75, 500, 1, 1)], []),
}
# What an overlay does not show: no line feed closes in it.
NOT_IN_AN_OVERLAY = ["text length"]

# A name for each way in which a field is set and shown, its stream, and the dots of the first side, of which there may be more.
FIRST_SIDES = {}
for name, (sets, shows, default, changed) in FIELDS.items():
    FIRST_SIDES[f"{name}: is set, and shows"] = f"{MACROS}{sets}{shows}~", changed
    FIRST_SIDES[f"{name}: after a reset"] = f"{MACROS}{sets}^E{shows}~", default
    if name != "macro ID":
        FIRST_SIDES[f"{name}: after a call that sets it"] = f"^&f2y0X{sets}^&f1x3X^&f0Y{shows}~", default
    if name not in NOT_IN_AN_OVERLAY:
        FIRST_SIDES[f"{name}: in an overlay of a page that sets it"] = f"{MACROS}^&f2y0X{shows}^&f1x4X^&f0Y{sets}~", default
# The second call is of the macro that the first one was, and not of the one whose ID that set.
FIRST_SIDES["macro ID: after a call that sets it"] = f"{MACROS}^&f3y0X^&f1Y^*c2a1b0P^&f1x3X^*p+10X^&f2X~", [(75, 187, 2, 1), (85, 187, 2, 1)]

# The same for the second side: the first is blank, and its overlay sets the field.
SECOND_SIDES = {f"{name}: on the page behind an overlay that sets it": (f"{MACROS}^&f2y0X{sets}^&f1x4X^&f0Y~{shows}~", default)
                for name, (sets, shows, default, _) in FIELDS.items()}

NAMED = {name: ("print - page-%d.pbm", 0, [page(boxes), ...], stream_of(stream)) for name, (stream, boxes) in FIRST_SIDES.items()}
NAMED |= {name: ("print - page-%d.pbm", 0, [page([]), page(boxes), ...], stream_of(stream)) for name, (stream, boxes) in SECOND_SIDES.items()}
ROWS = [*NAMED.values()]
