"""What each command leaves as it is: a prelude that puts every field to another value than a reset does, one command, and a probe.

The prelude stands with a mark on the page, raster graphics and a waiting front each there or not; with all three the command also stands in a macro that is
executed, in one that is called, and in an overlay. Of each stream the whole trace is wanted, but for how large its boxes are, and the listing. leaves.txt has
a line for each command, with the digest of both (seen/effects.py) of each of its streams, which the model made: `tools/pinned --write-leaves` writes it.
Streams are spelled as in `pages`. Those of `values` stand behind them.
"""

from pathlib import Path

from asked import values
from asked.pages import stream_of

PATH = Path(__file__).resolve().parent / "leaves.txt"
JOB = ("^%-12345X@PJL SET COPIES=2|@PJL DEFAULT COPIES=5|@PJL DEFAULT PAPER=A3|@PJL SET PAPER=LEGAL|@PJL SET BINDING=SHORTEDGE|@PJL USTATUS PAGE=ON|"
       "@PJL ENTER LANGUAGE=PCL|~^&l26a1o2S")
WAITING_FRONT = "~"
STORES = "^*c7G^*c10W[0000010000020008AA55]^*c9G^*c9W[0000010000010008F0]^*c5Q^&f3y0X^*c6a6b0P^&f1X^&f4y0X^*p+24X^*c5a5b0P^&f1x10x4X"
SETTINGS = ("^&u600D^&k15H^&l10C^&k3G^&l0l3X^*t150R^*b2M^*r40s30T^*c30a20b7G^*v4t1n1O^*c9G^&f3Y^&l3e20F^&a5l60M"
            "^*p100x200Y^&f0S^*p150x250Y^&f0S^*p400x500Y")
MARK, ROW, RASTER = "^*c0P", "^*b4W[02F00F3C]", "^*r1A"
PROBE = "^&f1X^%0A^*b3m0W^*rC^*p700x900Y^*v0n0o0T^*c40a30b7g4P^*c9g4P^&f3y2X^&f4y2X^&f1S^*c1a1b0P~~"
RUNS = {"in an execute": "^&f5y0X{}^&f1x2X", "in a call": "^&f5y0X{}^&f1x3X", "in an overlay": "^&f5y0X{}^&f1x4X~"}

# Each command that has a row, by what it is called here, with a value that the row names.
COMMANDS = {
    "CR": "<", "LF": "|", "FF": "~", "ESC =": "^=", "ESC 9": "^9", "ESC E": "^E", "UEL": "^%-12345X", "%B": "^%0B", "%A": "^%0A",
    "&uD": "^&u96D", "&aC": "^&a3C", "&aR": "^&a+2R", "&aH": "^&a720H", "&aV": "^&a-90V", "*pX": "^*p+7X", "*pY": "^*p90Y", "&fS push": "^&f0S",
    "&fS pop": "^&f1S", "&kG": "^&k2G", "&kH": "^&k9H", "&lC": "^&l6C", "&lD": "^&l8D", "&lE": "^&l2E", "&lF": "^&l9F", "&lL": "^&l1L",
    "&aL": "^&a9L", "&aM": "^&a50M", "&lA": "^&l3A", "&lO": "^&l2O", "&lS": "^&l1S", "&lS simplex": "^&l0S", "&lH": "^&l1H", "&aG": "^&a0G",
    "&aG front": "^&a1G", "&aG back": "^&a2G", "&lX": "^&l4X", "*tR": "^*t75R", "*rS": "^*r16S", "*rT": "^*r9T", "*rA": "^*r0A", "*rB": "^*rB",
    "*rC": "^*rC", "*bM": "^*b1M", "*bY": "^*b2Y", "*bW": "^*b2W[00C3]", "*bW nothing": "^*b0W", "*cA": "^*c9A", "*cB": "^*c8B", "*cH": "^*c99H",
    "*cV": "^*c88V", "*cG": "^*c2G", "*cP": "^*c0P", "*cP user": "^*c4P", "*cP current": "^*c5P", "*cW": "^*c9W[00000100000100083C]", "*cQ all": "^*c0Q",
    "*cQ temporary": "^*c1Q", "*cQ one": "^*c2Q", "*cQ make temporary": "^*c4Q", "*cQ make permanent": "^*c5Q", "*vT": "^*v1T", "*vT hatch": "^*c3G^*v3T",
    "*vN": "^*v0N", "*vO": "^*v0O", "&fY": "^&f4Y", "&fX begin": "^&f0X", "&fX execute": "^&f2X", "&fX call": "^&f3X", "&fX overlay on": "^&f4X",
    "&fX overlay off": "^&f5X", "&fX delete all": "^&f6X", "&fX delete temporary": "^&f7X", "&fX delete": "^&f8X", "&fX make temporary": "^&f9X",
    "&fX make permanent": "^&f10X", "no row": "^*z1Z", "text": "A", "broken": "^*p1{",
}
FLAVOURS = {f"{'a mark' if mark else 'no mark'}, raster {'on' if raster else 'off'}, {'a front waits' if front else 'no front'}": (mark, raster, front)
            for mark in (0, 1) for raster in (0, 1) for front in (0, 1)}
ALL = (1, 1, 1)


def prelude(mark, raster, front):
    return (JOB + WAITING_FRONT * front + STORES + SETTINGS + MARK * mark + RASTER * raster + ROW * (mark and raster))


def streams():
    """The stream of each row by what it shows."""
    for name, command in COMMANDS.items():
        for flavour, some in FLAVOURS.items():
            yield f"{name}, {flavour}", stream_of(prelude(*some) + command + PROBE)
        for where, run in RUNS.items():
            yield f"{name}, {where}", stream_of(prelude(*ALL) + run.replace("{}", command) + PROBE)


STREAMS = dict(streams()) | values.STREAMS


def command_of(shows):
    """What a line of leaves.txt begins with, for what a row shows."""
    return shows.split(", ")[0]


def rows():
    """What each row shows, its stream, and the digest of what is told of that."""
    told = (line.split(": ") for line in PATH.read_text(encoding="utf-8").splitlines())
    digests = {name: iter(some.split(" ")) for name, some in told}
    return [(shows, stream, next(digests.get(command_of(shows), iter(())), "none")) for shows, stream in STREAMS.items()]


ROWS = rows()
