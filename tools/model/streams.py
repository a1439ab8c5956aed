"""Random streams. A stream is a list of pieces, each the bytes of a few commands, so that it can be shrunk.

The pieces are weighted so that every row of the table is reached, by legal and illegal values,
with signs and fractions, combined and cut, with data, and in every mode of the scanner.
"""

ESC = b"\x1b"
UEL = b"\x1b%-12345X"
LETTERS = b"ABCDEGHLMNOPQRSTVWXYZ"

# Parameterized commands by group of rows: character and group, end, and the usual values.
BOX_COMMANDS = [
    (b"*p", b"X", "place"), (b"*p", b"Y", "place"),
    (b"*c", b"A", "box"), (b"*c", b"B", "box"), (b"*c", b"P", "fill"), (b"*c", b"P", "zero"),
]
COMMANDS = {
    "boxes": BOX_COMMANDS * 3,
    "pages": BOX_COMMANDS * 2 + [
        (b"&u", b"D", "unit"),
        (b"&a", b"C", "column"), (b"&a", b"R", "column"),
        (b"&a", b"H", "decipoint"), (b"&a", b"V", "decipoint"),
        (b"&f", b"S", "two"), (b"&f", b"S", "two"),
        (b"&k", b"G", "four"), (b"&k", b"H", "motion"), (b"&l", b"C", "motion"),
        (b"&l", b"D", "lines"), (b"&l", b"E", "column"), (b"&l", b"F", "column"), (b"&l", b"L", "two"),
        (b"&a", b"L", "column"), (b"&a", b"M", "column"),
        (b"&l", b"A", "size"), (b"&l", b"O", "four"), (b"&l", b"S", "three"), (b"&l", b"S", "three"),
        (b"&l", b"H", "four"), (b"&a", b"G", "three"), (b"&l", b"X", "copies"),
        (b"%", b"A", "two"), (b"%", b"A", "two"),
    ],
    "raster": [
        (b"*t", b"R", "resolution"), (b"*r", b"S", "width"), (b"*r", b"T", "height"),
        (b"*r", b"A", "four"), (b"*r", b"A", "four"), (b"*r", b"B", "two"), (b"*r", b"C", "two"),
        (b"*b", b"M", "four"), (b"*b", b"M", "four"), (b"*b", b"Y", "height"),
    ] + [(b"*b", b"W", "row")] * 8,
    "patterns": [
        (b"*c", b"H", "decipoint"), (b"*c", b"V", "decipoint"),
        (b"*c", b"G", "id"), (b"*c", b"G", "per cent"), (b"*c", b"Q", "six"),
        (b"*v", b"T", "six"), (b"*v", b"T", "six"), (b"*v", b"N", "two"), (b"*v", b"O", "two"),
    ] + [(b"*c", b"P", "six")] * 4 + [(b"*c", b"W", "pattern")] * 3,
    "macros": [(b"&f", b"Y", "id")] * 3 + [(b"&f", b"X", "macro")] * 6,
}
VALUES = {
    "zero": [b"0", b"", b"0", b"-0", b"+.9"],
    "fill": [b"0", b"0", b"0", b"1", b"2", b"3", b"4", b"5", b"6", b"-0.5"],
    "box": [b"0", b"1", b"3", b"7.5", b"40", b"64", b"300", b"2600", b"65535", b"-3", b"0.04", b"-0.00001"],
    "unit": [b"96", b"100", b"120", b"144", b"150", b"200", b"240", b"300", b"360", b"400", b"600", b"720",
             b"1200", b"1440", b"2400", b"3600", b"7200", b"90", b"97", b"0", b"300.5"],
    "resolution": [b"75", b"100", b"150", b"300", b"300", b"200", b"600", b"0"],
    "motion": [b"0", b"8", b"12", b"6.25", b"120", b"336", b"840", b"840.0001", b"336.0001", b"-1", b"-0.001",
               b"0.013"],
    "lines": [b"1", b"2", b"3", b"4", b"6", b"8", b"12", b"16", b"24", b"48", b"5", b"0"],
    "column": [b"0", b"1", b"2", b"5", b"10.5", b"60", b"79", b"200", b"+1", b"-1", b"+2.25", b"-3", b"-0.001"],
    "decipoint": [b"0", b"10", b"72", b"720.5", b"3000", b"7200", b"+36", b"-36", b"+0.1", b"9999"],
    "size": [b"1", b"2", b"3", b"6", b"26", b"27", b"2", b"4", b"0"],
    "copies": [b"1", b"2", b"3", b"0", b"-1", b"1.9"],
    "width": [b"1", b"8", b"13", b"16", b"40", b"300", b"0", b"3000"],
    "height": [b"1", b"2", b"3", b"5", b"0", b"40", b"-2", b"70000"],
    "per cent": [b"1", b"2", b"3", b"10", b"11", b"20", b"21", b"35", b"36", b"55", b"56", b"80", b"81", b"99",
                 b"100", b"101", b"4", b"5", b"6"],
    "id": [b"0", b"1", b"2", b"3", b"5", b"7", b"32767", b"32768", b"-1"],
    "two": [b"0", b"1", b"0", b"1", b"2", b"-0.9", b"+1.7"],
    "three": [b"0", b"1", b"2", b"1", b"2", b"3", b"-1"],
    "four": [b"0", b"1", b"2", b"3", b"0", b"1", b"4", b""],
    "six": [b"0", b"1", b"2", b"3", b"4", b"5", b"2", b"3", b"4", b"6"],
    "macro": [b"0", b"1", b"1", b"2", b"2", b"3", b"3", b"4", b"4", b"5", b"6", b"7", b"8", b"9", b"10", b"11"],
}
PJL_WORDS = [b"SET", b"SET", b"SET", b"DEFAULT", b"DEFAULT", b"INQUIRE", b"INQUIRE", b"DINQUIRE", b"JOB", b"EOJ",
             b"RESET", b"INITIALIZE", b"ECHO", b"INFO", b"USTATUS", b"USTATUSOFF", b"COMMENT", b"ENTER",
             b"DISPLAY", b""]
PJL_PAIRS = [
    (b"COPIES", [b"1", b"2", b"3", b"002", b"0", b"1000", b"x", b""]),
    (b"PAPER", [b"LETTER", b"LEGAL", b"A4", b"EXECUTIVE", b"LEDGER", b"A3", b"B5"]),
    (b"ORIENTATION", [b"PORTRAIT", b"LANDSCAPE", b"UP"]),
    (b"DUPLEX", [b"ON", b"OFF", b"MAYBE"]),
    (b"BINDING", [b"LONGEDGE", b"SHORTEDGE", b""]),
    (b"RESOLUTION", [b"300", b"0300", b"450"]),
    (b"FOO", [b"1"]),
]
SET_PAIRS = PJL_PAIRS + [(b"RESOLUTION", [b"600", b"600", b"600", b"300", b"0600", b"601", b"600.0", b"1200"])] * 5
# Commands that close a page, or may, and have no effect in an overlay; some of a value that is not named.
CLOSERS = [b"\x0c", *(ESC + each for each in (b"&l0H", b"&l2A", b"&l9A", b"&l0O", b"&l4O", b"&l0S", b"&l3S", b"&a0G", b"&a3G"))]


class Maker:
    def __init__(self, random):
        self.random = random
        self.in_body = False  # of a macro: hardly ever an exit, which would end the definition

    def stream(self):
        """The pieces of a stream."""
        pieces = []
        if self.chance(0.6):
            pieces.append(UEL + b"@PJL SET RESOLUTION=600\n")
        if self.random.random() < 0.4:
            pieces += self.prologue()
        most = 30 if self.chance(0.1) else 11
        for _ in range(self.random.randint(2, most)):
            pieces.append(self.piece())
        if self.random.random() < 0.08:
            joined = b"".join(pieces)
            pieces = [joined[:self.random.randint(0, len(joined))]]
        return pieces

    def chance(self, probability):
        return self.random.random() < probability

    def piece(self):
        makers = [
            (48, self.sequence), (14, self.box), (8, self.control), (4, self.escape), (2, self.text),
            (2, self.broken), (2, self.noise), (2, self.foreign_command), (2, self.skipped_data),
            (2, self.exit_and_lines), (8, self.probe), (2, self.hpgl), (3, self.stacked), (3, self.motion_then_lines),
            (3, self.margins), (3, self.two_sided), (14, self.raster), (4, self.raster_over), (8, self.patterned),
            (2, self.lasting_pattern), (12, self.macro), (2, self.lasting_macro), (2, self.call_over_pages),
            (2, self.call_over_top_margins), (2, self.overlay_of_closers), (8, self.exit_and_lines), (5, self.other_resolution), (14, self.adaptive),
        ]
        if self.in_body and not self.chance(0.02):
            makers = [(weight, call) for weight, call in makers if call not in (self.exit_and_lines, self.other_resolution)]
        weights, calls = zip(*makers)
        return self.random.choices(calls, weights)[0]()

    # Values and sequences

    def value(self, kind):
        if self.chance(0.04):
            return self.odd_value()
        if kind == "place":
            return self.place()
        return self.random.choice(VALUES[kind])

    def place(self):
        sign = self.random.choice([b"", b"", b"", b"+", b"-"])
        number = self.random.choice([0, 1, 5, 20, 100, 700, 2399, 2500, 3300, self.random.randint(0, 3400)])
        fraction = self.random.choice([b"", b"", b"", b".5", b".25", b".00009"])
        return sign + b"%d" % number + fraction

    def odd_value(self):
        return self.random.choice([
            b"", b"+", b"-", b".", b"-.", b"5.", b".5", b"00012", b"99999", b"-40000.5", b"65535.0001",
            b"1" * 32, b"0" * 31 + b"3", b"1.99999999", b"-0.00009", b"123456789012"])

    def pair(self, command, last):
        """A field, its parameter character, and the data that it carries."""
        head, end, kind = command
        shown = end if last or head == b"%" else end.lower()
        if kind == "row":
            data = self.row_data()
            return b"%d" % len(data) + shown + data
        if kind == "pattern":
            data = self.pattern_data()
            return b"%d" % len(data) + shown + data
        return self.value(kind) + shown

    def sequence(self):
        """Each group as often as it has commands, but none for less than eight."""
        groups = list(COMMANDS.values())
        weights = [max(8, len(group)) for group in groups]
        group = self.random.choices(groups, weights)[0]
        return self.combined(self.random.choice(group))

    def combined(self, command):
        head = command[0]
        same = [other for commands in COMMANDS.values() for other in commands if other[0] == head]
        count = 1 if head == b"%" or self.chance(0.5) else self.random.randint(1, 4)
        pairs = [command] + [self.random.choice(same) for _ in range(count - 1)]
        self.random.shuffle(pairs)
        last_is_open = self.chance(0.03)
        parts = [self.pair(pair, index == count - 1 and not last_is_open)
                 for index, pair in enumerate(pairs)]
        return ESC + head + b"".join(parts)

    def box(self):
        """A rectangle that shows most of the time."""
        across, down = self.random.randint(0, 90), self.random.randint(0, 40)
        place = b""
        if self.chance(0.6):
            place = ESC + b"*p" + self.place() + b"x" + self.place() + b"Y"
        return place + ESC + b"*c%da%db0P" % (across, down)

    def control(self):
        return bytes([self.random.choice([12, 12, 12, 13, 10, 10, 8, 9, 0, 14, 15, 31])])

    def escape(self):
        letters = [b"9", b"=", b"9", b"=", b"Y", b"Z", b"_", b"~", b"0"]
        if not self.in_body:
            letters += [b"E"] * 5
        return ESC + self.random.choice(letters)

    def text(self):
        return self.random.choice([b"Hello", b" ", b"\x7f", b"\xff\xfe", b"@PJL SET COPIES=2\n", b"~"])

    def broken(self):
        return self.random.choice([
            ESC, ESC + b"\x01", ESC + b"*", ESC + b"*p", ESC + b"*p10", ESC + b"*p10\r", ESC + b"*p10x20\r",
            ESC + b"*p1.2.3X", ESC + b"*p1+2X", ESC + b"%1x", ESC + b"%-12345", ESC + b"%-12345Y",
            ESC + b"*p" + b"1" * 33 + b"X", ESC + b"*p5x" + b"2" * 33 + b"X", ESC + b"*p3x_", ESC + b"*p3x",
            ESC + b"*p3x_5x7Y", ESC + b"*p3x\x7f5X", ESC + b"*p_7X", ESC + b"*\x7f",
            ESC + b"&%5X", ESC + ESC, ESC + b"*b3W\x01", ESC + b"*c3a\x7f4B", ESC + b"!0`"])

    def noise(self):
        return bytes(self.random.choice([
            27, 27, 42, 112, 99, 38, 97, 108, 37, 48, 49, 46, 43, 45, 88, 65, 120, 97, 10, 12, 64,
            self.random.randrange(256)]) for _ in range(self.random.randint(1, 12)))

    def foreign_command(self):
        """A command that has no row."""
        head = self.random.choice([b"(s", b")s", b"&d", b"&p", b"*o", b"(", b"%", b"*z", b"!a"])
        end = self.random.choice(LETTERS.replace(b"W", b""))
        if head == b"%" and end == ord("X"):
            end = ord("Y")
        if head == b"&p" and end == ord("X"):
            return ESC + b"&p3XABC"
        return ESC + head + self.value("place") + bytes([end])

    def skipped_data(self):
        count = self.random.randint(0, 9)
        data = bytes(self.random.choice([27, 12, 65, 0, 255]) for _ in range(count))
        head, end = self.random.choice([
            (b"(s", b"W"), (b")s", b"W"), (b"&p", b"X"), (b"*b", b"V"), (b"*b", b"v"), (b"%", b"W"), (b"&d", b"w")])
        tail = b"2X" if end.islower() else b""
        return ESC + head + b"%d" % count + end + data + tail

    # Job lines and modes

    def prologue(self):
        status = [b"@PJL USTATUS PAGE=ON\n"] if self.chance(0.3) else []
        return [UEL] + status + [self.line() for _ in range(self.random.randint(0, 5))]

    def exit_and_lines(self):
        return UEL + b"".join(self.line() for _ in range(self.random.randint(0, 3)))

    def line(self):
        if self.chance(0.12):
            return self.random.choice([
                b"@PJL ENTER LANGUAGE=PCL\r\n", b"@PJL enter  language = pcl \n", b"@PJL ENTER LANGUAGE=\n",
                b"@PJL ENTER LANGUAGE=POSTSCRIPT\n%!PS " + ESC + b"%-123 showpage" + UEL,
                b"@PJL ENTER LANGUAGE=XL\n" + ESC + b"E\x0c" + UEL, b"\r\n", b"\n",
                b"@PJL", b"@PJ", b"@pjl SET COPIES=2\n", b"@PJLFOO\n", b"@PJL SET COPIES" + ESC + b"E",
                b"@PJL COMMENT " + b"x" * 4082 + b"\n", b"@PJL COMMENT " + b"x" * 4083 + b"\n",
                self.padded(4095), self.padded(4096), self.padded(4100),
                b"@PJL COMMENT " + b"x" * 4090 + ESC + b"E"])
        word = self.random.choice(PJL_WORDS)
        line = b"@PJL" + self.white(True) + self.mixed(word) + self.rest_of_line(word)
        usual, odd = [b"\r\n", b"\n", b"\n"], [b" \n", b"\t\r\n", b"\r\r\n"]
        return line + self.random.choice(usual if self.chance(0.7) else odd)

    def padded(self, length):
        return b"@PJL INQUIRE COPIES".ljust(length) + b"\n"

    def rest_of_line(self, word):
        name, values = self.random.choice(SET_PAIRS)
        if word in (b"SET", b"DEFAULT"):
            value = self.mixed(self.random.choice(values))
            equals = b"=" if self.chance(0.95) else b""
            return self.white(True) + self.mixed(name) + self.white() + equals + self.white() + value
        if word in (b"INQUIRE", b"DINQUIRE"):
            return self.white(self.chance(0.95)) + self.mixed(name if self.chance(0.95) else b"")
        if word == b"INFO":
            return b" " + self.mixed(self.random.choice([b"ID", b"PAGECOUNT", b"PAGECOUNT", b"MEMORY"]))
        if word == b"USTATUS":
            value = self.random.choice([b"PAGE=ON", b"PAGE=ON", b"PAGE = OFF", b"JOB=ON", b"PAGE", b"PAGE=X"])
            return b" " + self.mixed(value)
        if word == b"ECHO":
            return self.random.choice([b"", b" ", b" hello World ", b"\tx", b"  two"])
        if word == b"ENTER":
            return self.random.choice([b" LANGUAGE", b" LANGUAGE = ", b" PCL"])
        return self.random.choice([b"", b"", b" ", b" NAME=\"x\"", b"=1"])

    def other_resolution(self):
        """Marks, or a page that waits for its back, before the resolution changes, or not; and what shows it behind."""
        before = self.random.choice([b"", self.box(), self.raster(), ESC + b"&l1S" + self.box() + b"\x0c"])
        lines = [b"SET RESOLUTION=600", b"SET RESOLUTION=600", b"SET RESOLUTION=600", b"SET RESOLUTION=300",
                 b"DEFAULT RESOLUTION=600", b"DEFAULT RESOLUTION=600\n@PJL JOB", b"DEFAULT RESOLUTION=300\n@PJL RESET",
                 b"INITIALIZE", b"SET RESOLUTION=1200"]
        change = UEL + b"@PJL " + self.random.choice(lines) + b"\n"
        reset = self.random.choice([b"", ESC + b"E", UEL, ESC + b"&l%dO" % self.random.randrange(4),
                                    ESC + b"&l" + self.value("size") + b"A"])
        behind = self.random.choice([self.box, self.fine_box, self.fine_raster, self.fine_raster, self.raster, self.patterned])()
        return before + change + reset + behind + self.random.choice([b"", self.shown_cursor()])

    def fine_box(self):
        """A rectangle whose place and sides are of any number of decipoints."""
        place = ESC + b"&a%dh%dV" % (self.random.randint(0, 5000), self.random.randint(-300, 6000))
        return place + ESC + b"*c%dh%dv0P" % (self.random.randint(0, 99), self.random.randint(0, 99))

    def fine_raster(self):
        """Rows at each resolution that there is, legal or not, from any decipoint."""
        place = ESC + b"&a%dh%dV" % (self.random.randint(0, 5900), self.random.randint(-300, 7500))
        start = ESC + b"*t%dR" % self.random.choice([75, 100, 150, 200, 200, 300, 600, 600]) + ESC + b"*r1A"
        rows = b"".join(ESC + b"*b%dW" % len(data) + data for data in (self.row_data(), self.row_data()))
        return place + start + rows + self.random.choice([b"", ESC + b"*b3Y" + ESC + b"*b1W\xa5", ESC + b"*rC"])

    def white(self, needed=False):
        return self.random.choice([b" ", b" ", b"  ", b"\t"] if needed else [b"", b"", b" ", b"\t"])

    def mixed(self, word):
        if self.chance(0.7):
            return word
        return bytes(self.random.choice([byte, ord(chr(byte).lower())]) for byte in word)

    # Pages, raster graphics, patterns, macros

    def hpgl(self):
        inside = b"".join(self.piece() for _ in range(self.random.randint(0, 2)))
        return ESC + b"%0B" + inside + (ESC + b"%0A" if self.chance(0.9) else b"")

    def stacked(self):
        count = self.random.choice([1, 2, 21])
        pushes = b"".join(ESC + b"*p%dX" % (number * 7) + ESC + b"&f0S" for number in range(count))
        return pushes + b"".join(ESC + b"&f1S" for _ in range(self.random.randint(0, count + 1)))

    def motion_then_lines(self):
        motion = ESC + b"&l" + self.random.choice([b"8", b"8", self.value("motion")]) + b"C"
        lines = b"".join(self.random.choice([b"\n", b"\r\n", ESC + b"=", b"\r"])
                         for _ in range(self.random.randint(1, 12)))
        line = self.random.choice([2950, 2950, self.random.randint(2900, 3010)])
        near_end = ESC + b"*p700x%dY" % line
        top = ESC + b"&l" + self.value("column") + b"E" if self.chance(0.3) else b""
        ends = ESC + b"&k%dG" % self.random.randrange(4) if self.chance(0.5) else b""
        return motion + top + ends + (near_end if self.chance(0.6) else b"") + lines + self.shown_cursor()

    def margins(self):
        """Margins that meet, nearly meet, or reach past the page; then the left one is shown."""
        right = self.random.choice([5, 6, 20, 78, 79, 80, 99])
        left = self.random.choice([right, right + 1, right + 2, 79, 80, 3])
        pairs = [b"%dm" % right, b"%dl" % left]
        self.random.shuffle(pairs)
        start = ESC + b"*p2000X" if self.chance(0.5) else b""
        back = b"\r" if self.chance(0.5) else b""
        return start + ESC + b"&a" + b"".join(pairs) + b"Z" + back + self.shown_cursor()

    def two_sided(self):
        """A front, and what may deliver it alone, and a page after it."""
        front = self.random.choice([b"", ESC + b"*c9a9b0P"]) + b"\x0c"
        then = self.random.choice([b"&l1A", b"&l2A", b"&l1O", b"&a0G", b"&a1G", b"&a2G", b"&l0S", b"&l2S", b"&l0H"])
        marked = self.random.choice([b"", ESC + b"*c7a7b0P"])
        return ESC + b"&l%dS" % self.random.choice([1, 2]) + front + marked + ESC + then + b"\x0c"

    def raster_over(self):
        """A command between two rows, of which the second shows whether raster graphics went on."""
        between = [b"\x1b&l2E", b"\x1b&l0L", b"\x1b&l1L", b"\x1b9", b"\x1b&a0L", b"\x1b&a1L", b"\x1b&a79M", b"\r",
                   b"\x1b&a9M", b"\n", b"\x1b&f0S", b"\x1b&f1S", b"\x1b*p+0X", b"\x1b*p+0Y", b"\x1b&l0H",
                   b"\x1b&a0G", b"\x1b&f1y2X", b"\x1b&f1y3X", b"\x1b*r0A", b"\x1b*r1A", b"\x1b*b1Y", b"\x1b=",
                   b"\x1b*rB", b"\x1b&k5H", b"\x1b&l5C", b"\x1b*t300R", b"\x1b*r9S", b"\x1b*c5a5b0P"]
        row = ESC + b"*b0m40W" + b"\xff" * 40
        start = ESC + b"*p%dX" % self.random.choice([2300, 2390]) + ESC + b"*t75R" + ESC + b"*r1A"
        return start + row + self.random.choice(between) + row + ESC + b"*b3m0W" + ESC + b"*rC"

    # What lets the listing tell fields that no count of dots shows by itself

    def shown_cursor(self):
        """The rest of the page right of and below the cursor: its size tells where the cursor is."""
        return ESC + b"*c65535a65535b0P"

    def probe(self):
        probes = [self.shown_cursor, self.shown_cursor, self.shown_unit, self.shown_motion, self.shown_stack, self.shown_line_end,
                  self.shown_raster, self.shown_raster, self.shown_pattern, self.shown_pattern, self.shown_macro, self.shown_job]
        return self.random.choice(probes)()

    def shown_unit(self):
        return ESC + b"*p100x100Y" + self.shown_cursor()

    def shown_motion(self):
        return ESC + b"&a5c5R" + self.shown_cursor()

    def shown_stack(self):
        return ESC + b"&f1S" + self.shown_cursor()

    def shown_line_end(self):
        return self.random.choice([b"\r", b"\n", b"\r\n", b"\n" * 70]) + self.shown_cursor()

    def shown_raster(self):
        """A row of the seed, a plain row, a skip, and where they leave the cursor."""
        rows = [ESC + b"*b3m0W", ESC + b"*b2W\xa5\xc0", ESC + b"*b0m2W\xff\x81", ESC + b"*b2Y"]
        return b"".join(self.random.sample(rows, 2)) + self.random.choice([b"", self.shown_cursor()])

    def shown_pattern(self):
        """Black with a smaller box in a pattern on it."""
        kind = self.random.choice([b"2", b"3", b"4", b"5", b"5"])
        select = self.random.choice([b"", b"", ESC + b"*c3G", ESC + b"*c5G"])
        return ESC + b"*c80a60b0P" + select + ESC + b"*c50a70b" + kind + b"P"

    def shown_macro(self):
        return ESC + b"&f%dy2X" % self.random.randrange(6) + self.random.choice([b"", self.shown_cursor()])

    def shown_job(self):
        names = b"".join(b"@PJL %s %s\n" % (self.random.choice([b"INQUIRE", b"DINQUIRE"]), name)
                         for name, _ in PJL_PAIRS)
        return UEL + names + b"@PJL INFO PAGECOUNT\n"

    def row_data(self):
        choice = self.random.random()
        if choice < 0.1:
            return b""
        if choice < 0.4:
            return bytes(self.random.choice([0, 1, 31, 33, 64, 95, 128, 129, 254, 255])
                         for _ in range(self.random.randint(1, 8)))
        if choice < 0.45:
            return bytes(self.random.randrange(256) for _ in range(self.random.randint(300, 420)))
        return bytes(self.random.randrange(256) for _ in range(self.random.randint(1, 12)))

    def raster(self):
        parts = []
        if self.chance(0.6):
            parts.append(ESC + b"*t" + self.value("resolution") + b"R")
        if self.chance(0.3):
            parts.append(ESC + b"*r" + self.value("width") + b"s" + self.value("height") + b"T")
        if self.chance(0.8):
            parts.append(ESC + b"*r" + self.value("four") + b"A")
        for _ in range(self.random.randint(1, 6)):
            data = self.row_data()
            method = self.random.choice([b"", b"", b"0m", b"1m", b"2m", b"3m", b"3m"])
            parts.append(ESC + b"*b" + method + b"%dW" % len(data) + data)
            if self.chance(0.15):
                parts.append(ESC + b"*b" + self.value("height") + b"Y")
            if self.chance(0.15):
                parts.append(self.piece())
        if self.chance(0.7):
            parts.append(ESC + self.random.choice([b"*rC", b"*rB"]))
        return b"".join(parts)

    def adaptive(self):
        """Rows by blocks, by few bytes that may be any, and by other methods among them; the last ones show the seed."""
        parts = [ESC + b"*t" + self.value("resolution") + b"R"] if self.chance(0.7) else []
        if self.chance(0.4):
            parts.append(ESC + b"*r" + self.value("width") + b"S")
        if self.chance(0.4):
            parts.append(ESC + b"*r%dT" % self.random.choice([1, 2, 3, 5, 8, 40, 65535]))
        if self.chance(0.8):
            parts.append(ESC + b"*r" + self.value("four") + b"A")
        parts.append(ESC + b"*b" + self.random.choice([b"5", b"5", b"5", b"5.9", b"05", b"+5"]) + b"M")
        if self.chance(0.15):
            parts += [self.random.choice([ESC + b"*b0W", ESC + b"*b1W\x06"]), self.started()]
        for _ in range(self.random.randint(1, 4)):
            data = self.blocks() if self.chance(0.9) else self.row_data()
            parts.append(ESC + b"*b%dW" % len(data) + data)
            if self.chance(0.2):
                parts.append(self.random.choice([ESC + b"*b2Y", ESC + b"*b3m0W" + ESC + b"*b5M", ESC + b"*b0m1W\xc3" + ESC + b"*b5M",
                                                 ESC + b"*b4M", ESC + b"*p+3X", ESC + b"*v1N", ESC + b"*t300R"]))
        shown = ESC + b"*b3m0W"
        return b"".join(parts) + self.random.choice([shown, shown, b""]) + self.random.choice([b"", ESC + b"*rC", self.shown_cursor()])

    def started(self):
        """What has no effect once raster graphics is on, and a row that shows it."""
        change = self.random.choice([b"*t300R", b"*t75R", b"*t150R", b"*r8S", b"*r1T", b"*r1A"])
        return ESC + change + ESC + b"*b0m3W\xff\x0f\xa5" + self.random.choice([ESC + b"*b5M", b""])

    def blocks(self):
        """Blocks of few rows, now and then of many; the last one may be cut, and an unknown command may stand before the end."""
        return b"".join(self.block() for _ in range(self.random.randint(0, 6))) + self.random.choice([b"", b"", b"", b"\x00", b"\x05\x00"])

    def block(self):
        command = self.random.choice([0, 1, 2, 3, 3, 4, 5, 5])
        if command >= 4:
            count = self.random.choice([0, 0, 1, 1, 2, 3, 7, 300, 65535] if self.chance(0.1) else [0, 0, 1, 1, 2, 3])
            return bytes([command]) + count.to_bytes(2, "big")
        if self.chance(0.05):
            command = self.random.choice([6, 7, 31, 128, 255])
        data = b"" if self.chance(0.15) else self.row_data()
        count = len(data) + (self.random.choice([1, 2, 9, 60000]) if self.chance(0.06) else 0)
        return bytes([command]) + count.to_bytes(2, "big") + data

    def pattern_data(self):
        height, width = self.random.randint(1, 9), self.random.randint(1, 20)
        rows = bytes(self.random.randrange(256) for _ in range(height * ((width + 7) // 8)))
        data = bytes([0, 0, 1, 0, 0, height, 0, width]) + rows
        if self.chance(0.1):
            return data[:self.random.randint(0, len(data))]
        if self.chance(0.1):
            place = self.random.randrange(8)
            return data[:place] + bytes([self.random.randrange(3)]) + data[place + 1:]
        if self.chance(0.1):
            return data + b"more"
        return data

    def patterned(self):
        parts = [ESC + b"*c" + self.value(self.random.choice(["id", "per cent"])) + b"G"]
        if self.chance(0.5):
            data = self.pattern_data()
            parts.append(ESC + b"*c%dW" % len(data) + data)
        if self.chance(0.5):
            parts.append(ESC + b"*v" + self.value("six") + b"T")
        if self.chance(0.4):
            parts.append(ESC + b"*v" + self.value("two") + b"n" + self.value("two") + b"O")
        parts.append(ESC + b"*c%da%db" % (self.random.randint(0, 60), self.random.randint(0, 30))
                     + self.value("six") + b"P")
        return b"".join(parts)

    def lasting_pattern(self):
        """Permanent or not, perhaps defined again; then what is temporary goes, and the pattern is used."""
        define = self.definition()
        made = self.random.choice([b"", ESC + b"*c5Q", ESC + b"*c5Q" + ESC + b"*c4Q"])
        again = self.definition() if self.chance(0.5) else b""
        chosen = ESC + b"*v4T" if self.chance(0.5) else b""
        gone = self.random.choice([ESC + b"*c1Q", ESC + b"*c2Q", ESC + b"*c0Q", ESC + b"E", ESC + b"*c4Q"])
        used = ESC + b"*c3G" + self.shown_pattern()
        return ESC + b"*c3G" + define + made + again + chosen + gone + used

    def definition(self):
        data = self.pattern_data()
        return ESC + b"*c%dW" % len(data) + data

    def lasting_macro(self):
        """As with patterns."""
        made = self.random.choice([b"", b"10x", b"10x", b"10x9x"])
        again = b"0X" + self.box() + ESC + b"&f1x" if self.chance(0.5) else b""
        gone = self.random.choice([b"7X", b"8X", b"6X", b"9X", b"5X" + ESC + b"E"])
        return (ESC + b"&f2y0X" + self.box() + ESC + b"&f1x" + made + again + gone + ESC + b"&f2y2X")

    def call_over_pages(self):
        """Margins before a body that may change the page, and the left one after it."""
        change = self.random.choice([b"&l1A", b"&l2A", b"&l1O", b"&l0O", b"&l1o0O", b"&a5L", b"&l3E"])
        start = ESC + b"&a20L" + ESC + b"&f6y0X" + ESC + change + ESC + b"&f1X"
        return start + ESC + b"&f6y%dX" % self.random.choice([2, 3]) + b"\r" + self.shown_cursor()

    def call_over_top_margins(self):
        """A body that sets the top margin and goes to an end of the page, started under another one."""
        tops = [b"", b"&l0E", b"&l1E", b"&l20E", b"&l60E", b"&l0L"]
        place = self.random.choice([b"*p-9999Y", b"*p9999Y", b"&a-400R", b"*p-900Y", b"*p12000Y"])
        parts = [self.random.choice(tops), b"&f7y0X", self.random.choice(tops), place,
                 self.random.choice([b"", b"", b"", b"&l1O", b"&l3A"]), b"&f1X",
                 b"&f7y%dX" % self.random.choice([2, 3, 3, 3])]
        return b"".join(ESC + part for part in parts if part) + self.shown_cursor()

    def overlay_of_closers(self):
        """What closes no page in an overlay, in its own body or in a macro that it runs, and a page that closes over it."""
        body = b"".join(self.random.choices([*CLOSERS, b"a", ESC + b"%0B", ESC + b"%0A"], k=5))
        macro = ESC + b"&f8y0X" + body + ESC + b"&f1X"
        if self.chance(0.5):
            body = ESC + b"&f8y%dX" % self.random.choice([2, 3])
        return macro + ESC + b"&f9y0X" + body + ESC + b"&f1x4X" + self.box() + b"\x0c"

    def body_pieces(self, most):
        outside, self.in_body = self.in_body, True
        body = b"".join(self.piece() for _ in range(self.random.randint(0, most)))
        self.in_body = outside
        return body

    def macro(self):
        """A definition and most often its use, or several that start one another."""
        if not self.in_body and self.chance(0.3):
            return self.chain()
        number = self.random.choice([b"0", b"1", b"2", b"3"])
        body = self.body_pieces(4)
        nested = ESC + b"&f%sy%sX" % (self.random.choice([b"0", b"1", b"2", b"3"]),
                                      self.random.choice([b"2", b"3", b"4"]))
        if self.chance(0.5):
            body += nested
        if self.chance(0.3):
            body += self.body_pieces(1)
        end = ESC + b"&f1X" if self.chance(0.92) else b""
        use = b""
        if self.chance(0.8):
            use = ESC + b"&f%sy%sX" % (number, self.random.choice([b"2", b"3", b"4", b"10", b"8"]))
        close = self.random.choice([b"", b"", b"\x0c"])
        return ESC + b"&f" + number + b"y0X" + body + end + use + close

    def chain(self):
        """Macros 1, 2 and 3, each of which may start the next; an overlay 4 with its own; and a close."""
        parts = []
        for number in (3, 2, 1, 5, 4):
            following = {1: 2, 2: 3, 4: 5}.get(number)
            body = self.body_pieces(2)
            if following and self.chance(0.9):
                body += ESC + b"&f%dy%dX" % (following, self.random.choice([2, 3]))
            if number != 1 and self.chance(0.5):
                body += self.random.choice(CLOSERS)
            body += self.body_pieces(1)
            parts.append(ESC + b"&f%dy0X" % number + body + ESC + b"&f1X")
        if self.chance(0.8):
            parts.append(ESC + b"&f4y4X")
        parts.append(ESC + b"&f1y%dX" % self.random.choice([2, 3]))
        parts += self.random.choices([b"\x0c", b"", self.piece()], k=2)
        return b"".join(parts)
