"""Texts that are assembled, and streams that are disassembled."""

# texts, and the bytes that they assemble to
TEXTS = [
    ("", b""),
    ("; a remark \u00e9\n\nuel", b"\x1b%-12345X"),
    ("esc E\n", b"\x1bE"),
    ("esc 0\nesc ~", b"\x1b0\x1b~"),
    ("par *p10X\npar *p20Y\n", b"\x1b*p10X\x1b*p20Y"),
    ("par %0A", b"\x1b%0A"),
    ("par *X", b"\x1b*X"),
    ("par *pX", b"\x1b*pX"),
    ("par *b2W 02f0", b"\x1b*b2W\x02\xf0"),
    ("par *b0W", b"\x1b*b0W"),
    ("par *b-3W", b"\x1b*b-3W"),
    ("par *b+2W 0102", b"\x1b*b+2W\x01\x02"),
    ("par *p" + "1" * 32 + "X", b"\x1b*p" + b"1" * 32 + b"X"),
    ("par *b1.9V 0a", b"\x1b*b1.9V\x0a"),
    ("par &p1X 1B", b"\x1b&p1X\x1b"),
    ("par %1W 00", b"\x1b%1W\x00"),
    ("ctl 0c", b"\x0c"),
    ("txt 41\ntxt fF", b"A\xff"),
    ("for 1b\nfor 00", b"\x1b\x00"),
    ("brk 1B2a70", b"\x1b*p"),
    ("pjl 40504A4C0A", b"@PJL\n"),
    ("par *p10X\n;\n;\n", b"\x1b*p10X"),
    # the least and the greatest of each byte
    ("ctl 00\nctl 1F", b"\x00\x1f"),
    ("par !p1X\npar /p1X", b"\x1b!p1X\x1b/p1X"),
    ("par *`1X\npar *~1X", b"\x1b*`1X\x1b*~1X"),
    ("par *p1@\npar *p1^", b"\x1b*p1@\x1b*p1^"),
    ("par %1@\npar %1^", b"\x1b%1@\x1b%1^"),
    ("brk 41", b"A"),
]

# the number of a refusal, its line, and the texts that are refused so
REFUSED = [
    (401, 1, ["foo", "uel ", "uel\r\n", "Uel", " uel", "esc ", "esc /", "esc \x7f", "esc EE", "esc \u00e9", "par ", "par *", "par *p", "par 0p1X",
              "par *p1x", "par *p1_", "par *p1 X", "par %-12345X", "par *b0W ", "par *b1W 0G", "par *b1W  02", "par *b1W 02 ", "par *p1.2.3X 0G",
              "ctl 1B", "ctl 20", "ctl 0", "ctl 00C", "ctl 0G", "txt 1F", "txt 4", "for 4", "brk ", "brk 4G", "pjl ", "pjl 4G", " ; no remark",
              "Ctl 0C", "par *p1\x5f", "foo\npar *p1.2.3X"]),
    (401, 4, ["uel\n\n;\nfoo\nuel"]),
    (402, 1, ["par *p1.2.3X", "par *px1X", "par *p1\u00e9X", "par *p" + "1" * 33 + "X", "par *p1.2.3X 0", "par *\x7f1X"]),
    (403, 1, ["par *b2W 02", "par *b2W 020", "par *b2W", "par *b1W 0202", "par *p1X 02", "brk 414", "pjl 40504A4C0", "pjl 40504A4C", "pjl 0C",
              "pjl 40504A4C0A0A", "pjl 40504A4C0A40504A4C0A"]),
    (403, 2, ["uel\npar *b-1W 02"]),
]

# streams, their text, and the bytes that it assembles to, whose text is the same
STREAMS = [
    (b"\x1b*p10x20Y", "par *p10X\npar *p20Y\n", b"\x1b*p10X\x1b*p20Y"),
    (b"\x1bE\x1b*b2W\x02\xf0\x0c", "esc E\npar *b2W 02F0\nctl 0C\n", b"\x1bE\x1b*b2W\x02\xf0\x0c"),
    (b"\x1b*p1x2\r", "par *p1X\nbrk 1B2A7032\nctl 0D\n", b"\x1b*p1X\x1b*p2\r"),
    (b"\x1b*p99999999X", "par *p99999999X\n", b"\x1b*p99999999X"),
    (b"@PJ", "txt 40\ntxt 50\ntxt 4A\n", b"@PJ"),
    (b"@PJL\n\x1b%-12345X", "pjl 40504A4C0A\nuel\n", b"@PJL\n\x1b%-12345X"),
    (b"@PJL ENTER LANGUAGE=X\nA\x1b", "pjl 40504A4C20454E544552204C414E47554147453D580A\nfor 41\nfor 1B\n",
     b"@PJL ENTER LANGUAGE=X\nA\x1b"),
    (b"\x1b*b3W\x01", "brk 1B2A62335701\n", b"\x1b*b3W\x01"),
]

# streams that end, and their text; each is cut into commands alone
CUT = [
    (b"\x1b*p10\r\x0c", "brk 1B2A703130\nctl 0D\nctl 0C\n"),
    (b"\x1b*p10x20\r", "par *p10X\nbrk 1B2A703230\nctl 0D\n"),
    (b"\x1b%-12345X\x1b\x01@PJL ECHO x\n", "uel\nbrk 1B\nctl 01\n" + "".join(f"txt {byte:02X}\n" for byte in b"@PJL ECHO x") + "ctl 0A\n"),
    # part of `@pjl` is text at the end
    (b"@", "txt 40\n"),
    (b"@P", "txt 40\ntxt 50\n"),
    (b"@PJ", "txt 40\ntxt 50\ntxt 4A\n"),
    (b"@PJL", "brk 40504A4C\n"),
    (b"@PJLFOO\n", "pjl 40504A4C464F4F0A\n"),
    (b"@pjl\n", "txt 40\ntxt 70\ntxt 6A\ntxt 6C\nctl 0A\n"),
    (b"@PJL\n\n@PJL\n", "pjl 40504A4C0A\nctl 0A\ntxt 40\ntxt 50\ntxt 4A\ntxt 4C\nctl 0A\n"),
    # an escape character in a line, in a language, in a line that is too long
    (b"@PJL x\x1b%-12345X@PJL\n", "brk 40504A4C2078\nuel\npjl 40504A4C0A\n"),
    (b"@PJL\x1bE", "brk 40504A4C\nesc E\n"),
    (b"@PJL ENTER LANGUAGE=POSTSCRIPT\n\x1b%-1\x1b%-12345XA",
     "pjl 40504A4C20454E544552204C414E47554147453D504F53545343524950540A\nfor 1B\nfor 25\nfor 2D\nfor 31\nuel\ntxt 41\n"),
    (b"@PJL enter language = pcl \r\n@PJL\n",
     "pjl 40504A4C20656E746572206C616E6775616765203D2070636C200D0A\ntxt 40\ntxt 50\ntxt 4A\ntxt 4C\nctl 0A\n"),
    (b"@PJL ENTER LANGUAGE= \n@PJL\n", "pjl 40504A4C20454E544552204C414E47554147453D200A\npjl 40504A4C0A\n"),
    (b"@PJL ENTER LANGUAGE=PCL=\nA", "pjl 40504A4C20454E544552204C414E47554147453D50434C3D0A\nfor 41\n"),
    (b"@PJLENTER LANGUAGE=PCL\n@PJL\n", "pjl 40504A4C454E544552204C414E47554147453D50434C0A\npjl 40504A4C0A\n"),
    (b"@PJL ENTER LANGUAGE=X\nA\x1b%-12345X@PJL\n",
     "pjl 40504A4C20454E544552204C414E47554147453D580A\nfor 41\nuel\npjl 40504A4C0A\n"),
    (b"@PJL ENTER FOO=PCL\n@PJL\n", "pjl 40504A4C20454E54455220464F4F3D50434C0A\npjl 40504A4C0A\n"),
    (b"@PJL SET LANGUAGE=PCL\n@PJL\n", "pjl 40504A4C20534554204C414E47554147453D50434C0A\npjl 40504A4C0A\n"),
    (b"A@PJL\n", "txt 41\ntxt 40\ntxt 50\ntxt 4A\ntxt 4C\nctl 0A\n"),
    (b"A\n@PJL\n", "txt 41\nctl 0A\ntxt 40\ntxt 50\ntxt 4A\ntxt 4C\nctl 0A\n"),
    (b"@PJL ENTER LANGUAGE=X\n\x1b%-12345",
     "pjl 40504A4C20454E544552204C414E47554147453D580A\nfor 1B\nfor 25\nfor 2D\nfor 31\nfor 32\nfor 33\nfor 34\nfor 35\n"),
    # ends in lower case, and what breaks behind them
    (b"\x1b*p1x", "par *p1X\n"),
    (b"\x1b*p1x2", "par *p1X\nbrk 1B2A7032\n"),
    (b"\x1b*p1xY", "par *p1X\npar *pY\n"),
    (b"\x1b*p1x\x1b*p", "par *p1X\nbrk 1B2A70\n"),
    (b"\x1b%1_", "brk 1B2531\ntxt 5F\n"),
    (b"\x1b*p1x_A", "par *p1X\ntxt 5F\ntxt 41\n"),
    (b"\x1b*p1x2\x7fA", "par *p1X\nbrk 1B2A7032\ntxt 7F\ntxt 41\n"),
    (b"\x1b*p1x\x1bE", "par *p1X\nesc E\n"),
    (b"\x1b%1x", "brk 1B2531\ntxt 78\n"),
    (b"\x1b*\x7f", "brk 1B2A\ntxt 7F\n"),
    (b"\x1b \x1b", "brk 1B\ntxt 20\nbrk 1B\n"),
    (b"\x1b*p1.2.3X", "brk 1B2A70312E32\ntxt 2E\ntxt 33\ntxt 58\n"),
    (b"\x1b*p+-1X", "brk 1B2A702B\ntxt 2D\ntxt 31\ntxt 58\n"),
    (b"\x1b*p.X\x1b*p5.X\x1b*p-.X\x1b*p+X", "par *p.X\npar *p5.X\npar *p-.X\npar *p+X\n"),
    # the least and the greatest character, group and end, and what is past them
    (b"\x1b0\x1b~\x1b\x7f", "esc 0\nesc ~\nbrk 1B\ntxt 7F\n"),
    (b"\x1b!p1X\x1b/p1X", "par !p1X\npar /p1X\n"),
    (b"\x1b*`1X\x1b*~1X", "par *`1X\npar *~1X\n"),
    (b"\x1b*p1@\x1b*p1^", "par *p1@\npar *p1^\n"),
    (b"\x1b*p1`2~3X", "par *p1@\npar *p2^\npar *p3X\n"),
    (b"\x1b%1@\x1b%1^", "par %1@\npar %1^\n"),
    # the universal exit, and what is none
    (b"A\x1b%-12345X@PJL\n", "txt 41\nuel\npjl 40504A4C0A\n"),
    (b"A\x1b%-12345Y", "txt 41\npar %-12345Y\n"),
    (b"A\x1b%-12345x", "txt 41\nbrk 1B252D3132333435\ntxt 78\n"),
    (b"A\x1b%-12345", "txt 41\nbrk 1B252D3132333435\n"),
    (b"A\x1b%-012345X@PJL\n", "txt 41\npar %-012345X\ntxt 40\ntxt 50\ntxt 4A\ntxt 4C\nctl 0A\n"),
    # data of each kind, in either case, none for a negative value
    (b"\x1b*b2W\x1bEA", "par *b2W 1B45\ntxt 41\n"),
    (b"\x1b*b1w\x1b2wAB3Y", "par *b1W 1B\npar *b2W 4142\npar *b3Y\n"),
    (b"\x1b*b1v\x1b1V\x1bA", "par *b1V 1B\npar *b1V 1B\ntxt 41\n"),
    (b"\x1b&p1x\x1b1X\x1bA", "par &p1X 1B\npar &p1X 1B\ntxt 41\n"),
    (b"\x1b*b-1WA\x1b*b-0.9WA\x1b*b1.9WAB", "par *b-1W\ntxt 41\npar *b-0.9W\ntxt 41\npar *b1.9W 41\ntxt 42\n"),
    (b"\x1b(1W\x1bA\x1b)s1W\x1bA", "par (1W 1B\ntxt 41\npar )s1W 1B\ntxt 41\n"),
    (b"\x1b*b3WAB", "brk 1B2A6233574142\n"),
    (b"\x1b*b1w\x1b3wAB", "par *b1W 1B\nbrk 1B2A6233774142\n"),
    (b"\x1b*p1V\x1b&a1XA", "par *p1V\npar &a1X\ntxt 41\n"),
    # fields of 32 and of 33 bytes
    (b"\x1b*p00000000000000000000000000000001X", "par *p00000000000000000000000000000001X\n"),
    (b"\x1b*p000000000000000000000000000000012X",
     "brk 1B2A703030303030303030303030303030303030303030303030303030303030303031\ntxt 32\ntxt 58\n"),
]


def pjl(line):
    return f"pjl {line.hex().upper()}\n"


def broken(line):
    return f"brk {line.hex().upper()}\n"


# the longest line, and one that is too long; an escape character right behind its 4,096 bytes, and behind a byte more
LONG = b"@PJL " + b"x" * 4091
CUT += [
    (LONG[:-1] + b"\n@PJL\n", pjl(LONG[:-1] + b"\n") + pjl(b"@PJL\n")),
    (LONG + b"\n@PJL\n", broken(LONG) + broken(b"\n") + pjl(b"@PJL\n")),
    (LONG + b"\x1bE@", broken(LONG) + "esc E\ntxt 40\n"),
    (LONG + b"A\x1bE@", broken(LONG) + broken(b"A") + "esc E\ntxt 40\n"),
]

# the most data
DATA = bytes(65535)
CUT += [(b"\x1b*b00000000000000000000000000065535w" + DATA + b"1V0",
         f"par *b00000000000000000000000000065535W {DATA.hex()}\npar *b1V 30\n")]

# Streams whose text assembles to bytes of the same text (`^` is an escape character, `~` a form feed).
THERE_AND_BACK = [stream.replace(b"^", b"\x1b").replace(b"~", b"\x0c") for stream in [
    b"^E~^E",
    b"^E^*p0x0Y^*c3a2b0P^E",
    b"^*p10x20Y^*c3a2b0P~",
    b"^*p10\r~",
    b"^*p10x20\r",
    b"^*p1X^&f0S^*p2X^&f0S^&f1S^&f1S^&f1S",
    b"^*t300R^*r0A^*b1m2W\x02\xf0~",
    b"^*t300R^*r0A^*b3m2W\x00\xff^*b0W^*b0m0W^*b3m0W^*rC~",
    b"^*p0x0Y^*c16a1b0P^*t300R^*r8S^*v1N^*r1A^*b0W^*rC~",
    b"^*c5G^*c16W\0\0\x01\0\0\x08\0\x08\xff\xff\xff\xff\xff\xff\xff\xff^*c2a1b4P~",
    b"^*c5G^*c15W\0\0\x01\0\0\x08\0\x08\0\0\0\0\0\0\0^*p0x0Y^*c2a1b4P~",
    b"^*p0x0Y^&f1y0X^*c1a1b0P^*p+2X^&f3X^&f1X^&f3X~",
    b"^&f2y0X^*c4a1b0P~^&f1X^&f4X~~",
    b"^%-12345X@PJL SET COPIES=3\r\n@PJL INQUIRE COPIES\r\n@PJL DINQUIRE COPIES\r\n",
    b"^%-12345X^\x01@PJL ECHO x\n",
    b"^*t75R^*r1A^*b1W\x80~",
    b"^&l1O^*p0x0Y^*c3a2b0P~",
    b"^*c50G^*p0x0Y^*c4a1b2P~",
    b"^&l1S~^E",
    b"^%-12345X@PJL USTATUS PAGE=ON\n@PJL ENTER LANGUAGE=PCL\n~",
]]

ROWS = [("asm - /dev/stdout", 0, assembled, text.encode()) for text, assembled in TEXTS]
ROWS += [("asm - none/b", 1, f"fault {fault} line {line}\n", text.encode()) for fault, line, texts in REFUSED for text in texts]
ROWS += [("disasm -", 0, text, stream) for stream, text, _ in STREAMS]
ROWS += [("asm - /dev/stdout", 0, assembled, text.encode()) for _, text, assembled in STREAMS]
ROWS += [("disasm -", 0, text, assembled) for _, text, assembled in STREAMS]
ROWS += [("disasm -", 0, text, stream) for stream, text in CUT]
# A signed count of data; the 33rd byte of a field without group; an ESC before the exit of another language; data with an exit inside; a negative count; data
# with a line inside; a space in a field; the 33rd and the 32nd byte of a later field; an exit behind a lower-case end; no group and no field.
SELDOM = [
    (b"\x1b*b+2W\x01\x02A", "par *b+2W 0102\ntxt 41\n"),
    (b"\x1b%" + b"1" * 33 + b"A", "brk 1B25" + "31" * 32 + "\ntxt 31\ntxt 41\n"),
    (b"\x1b%" + b"1" * 32 + b"A", "par %" + "1" * 32 + "A\n"),
    (b"\x1b%-12345X@PJL ENTER LANGUAGE=X\n\x1b\x1b%-12345X~", "uel\npjl 40504A4C20454E544552204C414E47554147453D580A\nfor 1B\nuel\ntxt 7E\n"),
    (b"\x1b*b9W\x1b%-12345XA", "par *b9W 1B252D313233343558\ntxt 41\n"),
    (b"\x1b*b-2WAB", "par *b-2W\ntxt 41\ntxt 42\n"),
    (b"\x1b*b7W@PJL x\nA", "par *b7W 40504A4C20780A\ntxt 41\n"),
    (b"\x1b*p 10X", "brk 1B2A70\ntxt 20\ntxt 31\ntxt 30\ntxt 58\n"),
    (b"\x1b*p1x" + b"1" * 33 + b"X", "par *p1X\nbrk 1B2A70" + "31" * 32 + "\ntxt 31\ntxt 58\n"),
    (b"\x1b*p1x" + b"1" * 32 + b"X", "par *p1X\npar *p" + "1" * 32 + "X\n"),
    (b"\x1b*p1x\x1b%-12345X@PJL\n", "par *p1X\nuel\npjl 40504A4C0A\n"),
    (b"\x1b(X\x1b%A", "par (X\npar %A\n"),
    (b"\x1f", "ctl 1F\n"),
]
ROWS += [("disasm -", 0, text, stream) for stream, text in SELDOM]
