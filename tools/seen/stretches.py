"""Rows within raster graphics that mark the page or are white, and come out whole one behind the other, and methods between them: they are read of the stream
and of the lines of its trace as they stand, all at once, and what is told of each is made where it is asked for."""

import itertools
import operator
import re

from .patches import BETWEEN, PATCH, size_on_white

MOST = 200     # rows that mark the page and are taken at once
BEGIN = rb'\{"at":\d+,"bytes":\d+,"depth":0,"last":'
TOLD = rb'"par \*b%s",%s"sheets":\d+,"step":\d+,"view":\{"raster":\{%s\}\},"x":(-?\d+),"y":(-?\d+)\}\n'
MARKED = PATCH.pattern + b","
COUNT = rb'"rows":(\d+)'
ROWS = re.compile(TOLD % (b"W", b"(?:%s)?" % MARKED, COUNT))     # columns: what stands on the page, how far across and down, and how many rows, x and y
MARKING, WHITE, METHOD = (BEGIN + line.replace(b"(", b"(?:")
                          for line in (TOLD % (b"W", MARKED, COUNT), TOLD % (b"W", b"", COUNT), TOLD % (b"M", b"", rb'"method":[0-3]')))
# Some that end in one that marks, or rows none of which does.
STANDING = re.compile(b"(?:(?:%s|%s){0,50}%s){1,%d}+|(?:%s){1,%d}+" % (METHOD, WHITE, MARKING, MOST, WHITE, MOST))
MARKS = re.compile(rb'"par \*bW",("page")?')
METHODS = re.compile(rb'"method":(\d)')
STEP = re.compile(rb'"step":(\d+)')
PLACES = re.compile(rb'\{"at":(\d+),"bytes":(\d+)')
BEGINS = b"\x1b*b"
HEAD = re.compile(rb"(?:\x1b\*b)?([^WwMm]*)([WwMm])")       # of a row or a method
LEADING = {b"%02X" % byte: 8 - byte.bit_length() for byte in range(1, 256)}           # white dots of a byte, before the first black one
TRAILING = {b"%02X" % byte: (byte & -byte).bit_length() - 1 for byte in range(1, 256)}


class Stretch:
    """Such commands, which a text of lines tells, behind these fields: what is spelled of each before its data, and its data. Places are counted from what
    stands in front of the stream, which has so many bytes."""

    def __init__(self, text, whole, shift, before):
        self.text, self.whole, self.shift, self.before, self.patches = text, whole, shift, before, None
        self.last = text.rfind(b"\n", 0, -1) + 1           # where the line of the last row begins
        self.size, self.begin, self.places = text.count(b"\n"), int(PLACES.match(text)[1]), None
        if not self.read():
            self.read_by_lines()

    def read(self):
        """Reads the commands all at once; False where one is not spelled by itself, with some digits, or its data holds what another begins with."""
        between, *pieces = self.whole[self.begin:sum(map(int, PLACES.match(self.text, self.last).groups()))].split(BEGINS)
        if between or len(pieces) != self.size:
            return False
        values, ends, self.data = zip(*[piece.partition(b"W") for piece in pieces])
        places = [place for place, end in enumerate(ends) if not end]
        methods, rows = [values[place] for place in places], list(itertools.compress(values, ends))
        sized = list(itertools.compress(self.data, ends))
        if not b"".join(rows).isdigit() or b"" in rows or list(map(int, rows)) != list(map(len, sized)):
            return False
        if not all(method[-1:] == b"M" and method[:-1].isdigit() for method in methods):
            return False
        self.heads = list(map(operator.add, values, ends))
        self.set_parts(places, [int(method[:-1]) for method in methods])
        return True

    def set_parts(self, places, methods):
        """A method, and the data of the rows behind it; these stand at these places among the commands."""
        bounds = zip([-1, *places], [*places, self.size])
        self.parts = [(method, self.data[begin + 1:end]) for method, (begin, end) in zip([self.before.base["method"], *methods], bounds)]

    def read_by_lines(self):
        """Reads each where its line says that it stands."""
        told = [tuple(map(int, some)) for some in PLACES.findall(self.text)]
        heads = [HEAD.match(self.whole, at) for at, _ in told]
        self.places, self.heads = [at for at, _ in told], [head[0] for head in heads]
        self.data = [self.whole[head.end():at + size] for head, (at, size) in zip(heads, told)]
        self.set_parts([place for place, head in enumerate(heads) if head[2] in b"Mm"], map(int, METHODS.findall(self.text)))

    def __len__(self):
        return self.size

    def count(self):
        """How many rows there are."""
        return self.size - len(self.parts) + 1

    def lowest(self):
        """Where the last row goes."""
        return int(self.text[self.text.rfind(b":", 0, self.last) + 1:self.last - 2]) if self.last else self.before.y

    def number(self):
        """How many rows the raster has behind it."""
        return int(ROWS.search(self.text, self.last)[4])

    def marked(self):
        """Of each row, whether it marks the page."""
        return list(map(bool, MARKS.findall(self.text)))

    def all_mark(self):
        """Whether each row marks the page, as most often."""
        return self.text.count(b'"page":') == self.count()

    def first(self, count):
        """So many rows of it, and the methods before these, as far as the last that marks, if one does; None where none are left."""
        marked = self.marked()[:count]
        count = len(marked) - marked[::-1].index(True) if any(marked) else count
        if not count:
            return None
        end = next(itertools.islice(ROWS.finditer(self.text), count - 1, None)).end()
        return Stretch(self.text[:end], self.whole, self.shift, self.before)

    def lay(self, page):
        """Lays all rows but the last over the page, and reads what is told of each, and of those that mark it: columns of numbers."""
        told = ROWS.findall(self.text)
        _, _, _, counts, x, y = zip(*told)
        self.counts, self.x, self.y = (list(map(int, column)) for column in (counts, x, y))
        marking = [row for row in told if row[0]]
        self.spelled, self.lefts, self.tops = [row[0] for row in marking], [int(row[1]) for row in marking], [int(row[2]) for row in marking]
        self.heights = [spelled.count(BETWEEN) + 1 for spelled in self.spelled]
        ends = list(map(operator.add, self.tops, self.heights))
        if ends and not all(map(operator.le, [page.white_from, *ends], self.tops)):
            self.patches = list(map(page.lay_later, [left // 8 for left in self.lefts[:-1]], self.tops, self.spelled))
        elif len(ends) > 1:
            page.lay_lines_later(self.text[:self.last], ends[-2])

    def sizes(self):
        """How wide and high what each row marks is; None where it is white."""
        if len(self.spelled) == self.count():
            return self.marked_sizes()
        sizes = iter(self.marked_sizes())
        return [next(sizes) if marks else None for marks in self.marked()]

    def marked_sizes(self):
        """The same of those that mark. Where they are laid over white, and begin and end with black bytes, their ends say it."""
        if self.patches is not None:
            return [patch.size() for patch in self.patches]
        try:
            if set(self.heights) == {1}:
                return [(4 * len(spelled) - LEADING[spelled[:2]] - TRAILING[spelled[-2:]], 1) for spelled in self.spelled]
        except KeyError:
            pass
        return list(map(size_on_white, self.spelled))

    def places_of_marking(self):
        """The numbers of those commands that mark, from 0."""
        return itertools.compress(range(self.size), self.with_methods(self.marked(), [False] * (len(self.parts) - 1)))

    def methods(self):
        """The method behind each command."""
        (first, some), *others = self.parts
        return [first] * len(some) + [method for method, some in others for _ in range(len(some) + 1)]

    def changes(self):
        """For each method that of the rows before it, and itself."""
        return list(itertools.pairwise(method for method, _ in self.parts))

    def with_methods(self, column, told):
        """A column of the rows, with what is told of each method in its place."""
        made, place = [], 0
        for number, (_, some) in enumerate(self.parts):
            if number:
                made.append(told[number - 1])
            made += column[place:place + len(some)]
            place += len(some)
        return made

    def behind_each(self, column, first):
        """A column of the rows, with what it had before them where a method stands."""
        ends = itertools.accumulate(len(some) for _, some in self.parts[:-1])
        return self.with_methods(column, [column[end - 1] if end else first for end in ends])

    def offsets(self):
        """Where each stands in the stream."""
        if self.places is not None:
            return [place - self.shift for place in self.places]
        sizes = map(operator.add, map(len, self.heads[:-1]), map(len, self.data))
        return list(map(operator.add, itertools.accumulate(sizes, initial=self.begin - self.shift), itertools.count(0, len(BEGINS))))

    def first_step(self):
        return int(STEP.search(self.text)[1])
