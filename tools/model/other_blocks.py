"""A second decoder of adaptive rows, to check the first one: it was written apart from `rows.py` and `marks.py` and shares nothing
with them. It takes a byte at a time, and a row is a map from places to bytes until it is laid."""


class Transfer:
    """The data of one transfer, on a seed of some bytes, where so many rows have room (None is no bound)."""

    def __init__(self, seed, room=None):
        self.seed = list(seed)
        self.room = room
        self.laid = []
        self.header = []
        self.body = None     # of a block that is a row by one of the methods 0 to 3
        self.closed = False

    def feed(self, data):
        """All of the data; a row that is cut is laid of the bytes that are there."""
        for byte in data:
            if not self.closed:
                self.take(byte)
        if self.body is not None:
            self.end_body()
        return self

    def take(self, byte):
        if self.body is not None:
            self.body.append(byte)
        else:
            self.header.append(byte)
            if self.header[0] > 5:
                self.closed = True
            if len(self.header) < 3 or self.closed:
                return
            if self.header[0] > 3:
                self.repeat(self.header[0] == 5, self.count())
                self.header = []
                return
            self.body = []
        if len(self.body) == self.count():
            self.end_body()

    def count(self):
        return self.header[1] << 8 | self.header[2]

    def repeat(self, seed, count):
        """Rows of the seed, or of zeros; where there are none the seed is zeros."""
        row = self.seed if seed and count else [0] * len(self.seed)
        if count == 0:
            self.seed = row
        for _ in range(count):
            self.lay(row)

    def end_body(self):
        spelled = {0: self.plain, 1: self.runs, 2: self.packs, 3: self.changes}[self.header[0]](iter(self.body))
        self.lay([spelled.get(place, 0) for place in range(len(self.seed))])
        self.header, self.body = [], None

    def lay(self, row):
        if self.room is None or len(self.laid) < self.room:
            self.laid.append(bytes(row))
            self.seed = list(row)

    # What a body puts where

    def plain(self, body):
        return dict(enumerate(body))

    def runs(self, body):
        return dict(enumerate(byte for times, byte in zip(body, body) for _ in range(times + 1)))

    def packs(self, body):
        spelled = {}
        for code in body:
            signed = code - 256 if code > 128 else code
            if code == 128:
                continue
            if signed >= 0:
                some = [byte for _, byte in zip(range(signed + 1), body)]
            else:
                some = [byte for byte in [next(body, None)] if byte is not None] * (1 - signed)
            for byte in some:
                spelled[len(spelled)] = byte
        return spelled

    def changes(self, body):
        """On the seed; an offset that is cut changes nothing more."""
        spelled, place = dict(enumerate(self.seed)), 0
        for code in body:
            more, length = code % 32 == 31, code % 32
            while more:
                added = next(body, None)
                if added is None:
                    return spelled
                length, more = length + added, added == 255
            place += length
            for _, byte in zip(range(code // 32 + 1), body):
                spelled[place] = byte
                place += 1
        return spelled
