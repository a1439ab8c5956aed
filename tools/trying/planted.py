"""Pairs of streams with one planted difference each: what `differ` has to say of them, and `regress` of the second in the place of the first.

A pair is an assembly text and what is replaced in it, each once.
"""

from typing import NamedTuple

ROWS = [b"00FF0000FF", b"0F0FF0F0F0", b"FFFFFFFFFF", b"3C3C3C3C3C"]
RASTER = b"esc E\npar *t300R\npar *p600X\npar *p600Y\npar *r1A\n" + b"".join(b"par *b5W %s\n" % row for row in ROWS) + b"par *rC\nesc E\n"
PAGE = b"par *p%dX\npar *p300Y\npar *c400A\npar *c300B\npar *c0P\nctl 0C\n"
PAGES = b"esc E\n" + b"".join(PAGE % column for column in (100, 500, 900)) + b"esc E\n"
MACRO = (b"esc E\npar &f3Y\npar &f0X\npar *c80A\npar *c60B\npar *c0P\npar *p+600X\npar *c0P\npar &f1X\npar *p300X\npar *p400Y\npar &f2X\n"
         b"par *p300X\npar *p1400Y\npar &f2X\nesc E\n")
STAMPED = b"esc E\npar &f3Y\npar &f0X\npar *p0X\npar *p0Y\npar *c80A\npar *c60B\npar *c0P\npar &f1X\npar &f4X\npar *p900X\npar *p900Y\npar *c0P\nctl 0C\nesc E\n"
COPIES = b"esc E\npar &l3X\n" + PAGE % 100 + b"esc E\n"
DUPLEX = b"esc E\npar &l1S\n" + PAGE % 100 + PAGE % 500 + b"esc E\n"
REPLIES = b"uel\npjl 40504A4C204543484F20410A\npjl 40504A4C20454E544552204C414E47554147453D50434C0A\n" + PAGES


class Pair(NamedTuple):
    what: str
    text: bytes
    replaced: tuple     # pairs of a text and what stands in its place
    said: tuple         # by `differ`
    named: tuple        # by `regress`
    status: int = 1

    def other(self):
        text = self.text
        for old, new in self.replaced:
            if text.count(old) < 1:
                raise ValueError(f"{old!r} does not stand in the text of {self.what}")
            text = text.replace(old, new, 1)
        return text


SIDE = "side 1 (sheet 1 front)"
PAIRS = [
    Pair("nothing", PAGES, (), ("print 3 and 3 sides; the sheets are the same\n",), (), 0),
    Pair("another spelling", PAGES, ((b"par *p300Y\n", b"par *p0300.0Y\n"),), ("the sheets are the same\n",), (), 0),
    Pair("a rectangle in a macro", MACRO, ((b"*c80A", b"*c90A"),),
         (f"{SIDE}: 0 dots only in the old, 2,400 only in the new, in 4 regions\n", "455,550 to 464,609: 0 dots only in the old, 600 only in the new\n",
          "new, black by byte 24: par *c0P (Fill Rectangular Area), in macro 3, run at byte 61\n", "old, white by no command\n"), ("side 1",)),
    Pair("an inverted bit", RASTER, ((b"FFFFFFFFFF", b"FFFFFEFFFF"),),
         ("698,752 to 698,752: 1 dot only in the old, 0 only in the new", "par *b5W FFFFFFFFFF"), ("side 1",)),
    Pair("a bit more", RASTER, ((b"00FF0000FF", b"01FF0000FF"),), ("1 region\n", "0 dots only in the old, 1 only in the new", "par *b5W 01FF0000FF"), ("side 1",)),
    Pair("a row that moved", RASTER, ((b"par *b5W 00FF0000FF\n", b""), (b"par *rC\n", b"par *b5W 00FF0000FF\npar *rC\n")),
         ("par *b5W 00FF0000FF (", "par *b5W 0F0FF0F0F0 ("), ("side 1",)),
    Pair("a row that moved alone", RASTER, ((b"par *b5W FFFFFFFFFF\n", b"par *b0W\n"), (b"par *rC\n", b"par *b5W FFFFFFFFFF\npar *rC\n")),
         ("675,752 to 714,754: shifted by 2 dots down", "old, black by byte 48: par *b5W FFFFFFFFFF (", "new, black by byte 63: par *b5W FFFFFFFFFF ("), ("side 1",)),
    Pair("a shift of one dot", RASTER, ((b"*p600X", b"*p601X"),),
         ("shifted by 1 dot right, which is 1 PCL unit of 1/300 inch", "set by byte 9: par *p600X in the old, and by byte 9: par *p601X in the new"), ("side 1",)),
    Pair("a shift by two ways", RASTER, ((b"*p600X", b"*p590X"), (b"*p600Y", b"*p603Y")), ("shifted by 10 dots left and 3 dots down", "*p590X", "*p603Y"), ("side 1",)),
    Pair("a shift by the top margin", RASTER, ((b"esc E\n", b"esc E\npar &l5E\n"),), ("shifted by 100 dots down", "set by no command in the old, and by byte 2: par &l5E in the new\n"), ("side 1",)),
    Pair("a shift of one page of three", PAGES, ((b"*p500X", b"*p503X"),), ("side 2 (sheet 2 front)", "shifted by"), ("side 2",)),
    Pair("two pages of three", PAGES, ((b"*p100X", b"*p101X"), (b"*p900X", b"*p907X")), ("side 1 (sheet 1 front)", "shifted by 7 dots right"), ("1, 3",)),
    Pair("a shift in a macro", MACRO, ((b"*p+600X", b"*p+601X"),), ("shifted by 1 dot right", "in macro 3", "par *p+601X"), ("side 1",)),
    Pair("a copy less", COPIES, ((b"&l3X", b"&l2X"),), ("print 3 and 2 sides\n", "is gone: a copy of sheet"), ("3 sides", "2")),
    Pair("a copy more", COPIES, ((b"&l3X", b"&l4X"),), ("print 3 and 4 sides\n", ": a copy of sheet"), ("3 sides", "4")),
    Pair("another order", PAGES, ((PAGE % 100, b""), (PAGE % 500, PAGE % 500 + PAGE % 100)), ("sheet 2 of the old is sheet 1 of the new: another order\n",), ("order",)),
    Pair("a page less", PAGES, ((PAGE % 500, b""),), ("sheet 2 of the old is gone\n",), ("3 sides",)),
    Pair("a back that is another", DUPLEX, ((b"*p500X", b"*p501X"),), ("side 2 (sheet 1 back)", "1 dot right"), ("side 2",)),
    Pair("one side in place of two", DUPLEX, ((b"&l1S", b"&l0S"),), ("side 2 (sheet 1 back) is in the old alone", "sheet 2 of the new is not in the old"), ("side 2",)),
    Pair("another paper", PAGES, ((b"esc E\n", b"esc E\npar &l26A\n"),), ("2550x3300 in the old, 2480x3507 in the new",), ("the sides 1, 2, 3 of 3 are others",)),
    Pair("the last command of an overlay", STAMPED, ((b"*c60B", b"*c70B"),), ("new, black by byte", "in overlay 3"), ("side 1",)),
    Pair("another reply", REPLIES, ((b"4543484F2041", b"4543484F2042"),), ("the sheets are the same; the replies are others\n",), ("replies",)),
]
