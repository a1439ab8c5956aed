"""Words of the command line. Where nothing else is said a form feed stands on standard input."""

from pathlib import Path

from asked import told

PAGE = "sheet 1 front 2550x3300 black 0\n"
FEED = b"\x0c"
# The digests are those of sha256sum, of the files that `print` makes.
SUMMED = "sheet 1 front 2550x3300 black 0 sha256 0efb9bfba2b448a78ac637cd824856b5c4392b5d2f344a99f68538fb43af9c31\n"
SUMMED_A4 = "sheet 1 front 2480x3507 black 0 sha256 2509944b08e5e14b7637a5a2f5d773a869ce9eef440c27d0c92574683a5dfe90\n"
SUMS_OF_SIDES = (b"sheet 1 front 2550x3300 black 6 sha256 9ccf383699e8494843ec08b326593eb5bacbbaabc4c7479cdce016854c6e5453\n"
                 b"sheet 1 back 2550x3300 black 8 sha256 df68d449507a1b1687852b74a45775feeeeaa448afc534d222950fb01fb9001f\n")
USAGE = ("usage: press print IN OUT, press print --list IN, press asm IN OUT, press page IN K OUT or press write TICKET OUT [IMG...], "
         "where OUT is a file and not - and K is a number, press debug IN, where IN is a file and not -, or press press [--engines N] [--out TEMPLATE] [--sums] [--keep-going], where N is a number\n")

NO_DEFAULT = ("error: --default {} is no NAME=VALUE of the job language, as RESOLUTION=600: COPIES=1 to 999, PAPER=LETTER, LEGAL, A4, EXECUTIVE, LEDGER or A3, "
              "ORIENTATION=PORTRAIT or LANDSCAPE, DUPLEX=OFF or ON, BINDING=LONGEDGE or SHORTEDGE, RESOLUTION=300 or 600\n")
MORE = "\n\nFor more information, try '--help'.\n"
UNKNOWN = "error: unrecognized subcommand '{}'\n\nUsage: press [COMMAND]" + MORE
UNEXPECTED = "error: unexpected argument '{}' found\n\nUsage: press print [OPTIONS] <IN> [OUT]" + MORE
TABLES = (Path(__file__).resolve().parent / "tables.json").read_text(encoding="ascii")
LONG = "x" * 63  # with one character more the longest that is told

# Words, status, what is printed on standard output and then on standard error (bytes: on standard output alone; None: the text of told.txt), and
# standard input.
ROWS = [
    ("", 0, PAGE, FEED),
    ("print --list -", 0, PAGE, FEED),
    ("print - a.pbm --list", 0, PAGE, FEED),
    ("print --list --sums -", 0, SUMMED, FEED),
    ("print --sums -", 0, SUMMED, FEED),
    ("print --sums --default PAPER=A4 - a.pbm", 0, SUMMED_A4, FEED),
    ("print --list --sums --sums -", 2, "error: the argument '--sums' cannot be used multiple times\n\nUsage: press print [OPTIONS] <IN> [OUT]" + MORE, FEED),
    ("print --sums no/such", 1, "fault 304\n", FEED),
    ("print --sums --list -", 0, SUMS_OF_SIDES + b"@PJL ECHO A\r\n\x0c", b"\x1b%-12345X@PJL ECHO A\n\x1b&l1S\x1b*c3a2b0P\x0c\x1b*c4a2b0P\x0c"),
    ("print --list no/such", 1, "fault 304\n", FEED),
    ("print no/such a.pbm", 1, "fault 304\n", FEED),
    ("print none-1.pbm none-%d.pbm", 1, "fault 304\n", FEED),
    ("print no/such-1 no/such-%d", 1, "fault 304\n", FEED),
    ("print / a%d.pbm", 1, "fault 304\n", FEED),
    ("print - a.pbm", 1, "fault 121\n", FEED),
    ("print / a.pbm", 1, "fault 121\n", FEED),
    ("print - %d%d", 1, "fault 121\n", FEED),
    ("print - %d-%D-%d", 1, "fault 121\n", FEED),
    ("print - page-%03d.pbm", 1, "fault 121\n", FEED),
    ("print - no/such/%d.pbm", 1, "fault 301\n", FEED),
    ("print - a%d.pbm", 0, b"@PJL ECHO x\r\n\x0c", b"\x1b%-12345X@PJL ECHO x\n"),
    ("print - a%d.pbm", 0, b"@PJL USTATUS PAGE\r\n1\r\n\x0c", b"\x1b%-12345X@PJL USTATUS PAGE=ON\n@PJL ENTER LANGUAGE=PCL\n\x0c"),
    ("print --list --default PAPER=A4 -", 0, "sheet 1 front 2480x3507 black 0\n", FEED),
    ("print --default=RESOLUTION=600 --list -", 0, "sheet 1 front 5100x6600 black 0\n", FEED),
    ("print --list - --default copies=2 --default orientation=landscape", 0, "sheet 1 front 2550x3300 black 0\nsheet 2 front 2550x3300 black 0\n", FEED),
    ("print --list --default DUPLEX=ON --default BINDING=SHORTEDGE -", 0, "sheet 1 front 2550x3300 black 0\nsheet 1 back 2550x3300 black 0\n", FEED + FEED),
    ("print --list --default COPIES=2 --default COPIES=1 -", 0, PAGE, FEED),
    ("print --list --default COPIES=3 -", 0, b"@PJL DINQUIRE COPIES\r\n3\r\n\x0c", b"@PJL DINQUIRE COPIES\n"),
    ("print --list --default COPIES=3 -", 0, b"@PJL INQUIRE COPIES\r\n3\r\n\x0c", b"\x1b%-12345X@PJL INQUIRE COPIES\n"),
    ("disasm -", 0, "ctl 0C\n", FEED),
    ("disasm -", 0, "par *p10X\npar *p20Y\n", b"\x1b*p10x20Y"),
    ("disasm no/such", 1, "fault 304\n", FEED),
    ("disasm /", 1, "fault 304\n", FEED),
    ("explain no/such", 1, "fault 304\n", FEED),
    ("explain --default RESOLUTION=600 /", 1, "fault 304\n", FEED),
    ("explain --default COPIES=0 -", 2, NO_DEFAULT.format("COPIES=0"), FEED),
    ("asm no/such no/such/b", 1, "fault 304\n", FEED),
    ("asm - no/such/b", 1, "fault 401 line 1\n", FEED),
    ("asm - no/such/b", 1, "fault 115\n", b"uel\n"),
    ("page - 2 b", 0, "", FEED),
    ("page no/such 1 no/such/b", 1, "fault 304\n", FEED),
    ("page - 1 no/such/b", 1, "fault 115\n", FEED),
    ("page - 1 -", 2, USAGE, FEED),
    ("page - one b", 2, USAGE, FEED),
    ("asm - b", 0, "", b"esc E\nctl 0C"),
    ("asm - b", 0, "", b""),
    ("asm - b", 0, "", b"; \xc3\xa9\nuel\n"),
    ("asm - b", 1, "fault 401 line 3\n", b"uel\n\nfoo\n"),
    ("asm - b", 1, "fault 402 line 1\n", b"par *p1.2.3X"),
    ("asm - b", 1, "fault 403 line 2\n", b"uel\npar *b2W 02\n"),
    ("asm - b", 1, "fault 401 line 2\n", b"uel\n; \xff\nfoo"),
    ("asm - b", 1, "fault 401 line 1\n", b"foo\n\xff"),
    ("asm - b", 1, "fault 403 line 2\n", b"uel\nbrk 414\nuel \xff\n"),
    ("press", 0, "", b""),
    ("press", 0, "what?\n", FEED),
    ("press", 0, "turn - 0\nok\nok\nok\nwhat?\n", b"turn 7\npause\ncontinue\nabort\nstop\n"),
    ("press", 1, "ok\nfault 304\n", b"pause\nmessage no/such\ncontinue\n"),
    ("press", 1, "fault 304\n", b"message /\n"),
    ("press", 1, "fault 702\n", b"turn 1 1\npause\n"),
    ("press --engines 1", 1, "turn - 0\nfault 702\n", b"turn 1 0\nturn 1 18446744073709551615\n"),
    ("press --engines 2", 0, "turn - 0\nturn - 0\nok\n", b"turn 7 0\nturn 7 1\nabort\n"),
    ("press --engines 2", 1, "ok\nfault 702\n", b"pause\nturn 0 2\npause\n"),
    ("press --engines 04", 0, "turn - 0\n", b"turn 1 003"),
    ("press --engines=3", 0, "turn - 0\n", b"turn 1 2"),
    ("press --engines 0", 1, "fault 701\n", b"pause\n"),
    ("press --engines 5", 1, "fault 701\n", b"pause\n"),
    ("press --engines 4294967297", 1, "fault 701\n", b"pause\n"),
    ("press --engines 18446744073709551615", 1, "fault 701\n", b"pause\n"),
    ("press --engines 5 --out made", 1, "fault 701\n", b"pause\n"),
    ("press --out made-%q-%d", 0, "ok\n", b"pause\n"),
    ("press --out %d%q", 0, "turn - 0\n", b"turn 1"),
    ("press --out=%q%d", 0, "what?\n", FEED),
    ("press --out made", 1, "fault 121\n", b"pause\n"),
    ("press --out made-%d", 1, "fault 121\n", b"pause\n"),
    ("press --out made-%q", 1, "fault 121\n", b"pause\n"),
    ("press --out %d-%q-%d", 1, "fault 121\n", b"pause\n"),
    ("press --out %q-%d-%d", 1, "fault 121\n", b"pause\n"),
    ("press --out %d-%d-%q", 1, "fault 121\n", b"pause\n"),
    ("press --out %q-%d-%q", 1, "fault 121\n", b"pause\n"),
    ("press --out %Q-%D", 1, "fault 121\n", b"pause\n"),
    ("press --out %%qd", 1, "fault 121\n", b"pause\n"),
    ("press --sums", 0, "ok\n", b"pause\n"),
    ("press --keep-going", 0, "ok\nfault 304\nok\n", b"pause\nmessage no/such\ncontinue\n"),
    ("press --keep-going", 0, "fault 304\nwhat?\n", b"message /\nmessage\n"),
    ("press --keep-going", 0, "fault 702\nfault 702\nturn - 0\n", b"turn 1 1\nturn 0 7\nturn 1"),
    ("press --keep-going --engines 2", 0, "ok\nfault 702\nturn - 0\n", b"pause\nturn 1 2\nturn 1 1\n"),
    ("press --keep-going --engines 0", 1, "fault 701\n", b"pause\n"),
    ("tables", 0, TABLES, FEED),
    ("tables", 0, TABLES, b""),
    ("--version", 0, "press 1.0.0 (proved by rattle-kit-13f)\n", FEED),
    ("-V", 0, "press 1.0.0 (proved by rattle-kit-13f)\n", FEED),
    ("debug -", 2, USAGE, FEED),
    ("asm - -", 2, USAGE, FEED),
    ("asm b -", 2, USAGE, FEED),
    ("write ticket - dot", 2, USAGE, FEED),
    # words with control characters
    ("\x1b[2J", 2, UNKNOWN.format("\\u001b[2J"), FEED),
    ("print - a%d \x1b[31mred", 2, UNEXPECTED.format("\\u001b[31mred"), FEED),
    ("print - a%d \x7f\x80\x9b31m", 2, UNEXPECTED.format("\\u007f\\u0080\\u009b31m"), FEED),
    ("print - a%d \x01\x07\x08\xe9\"\\", 2, UNEXPECTED.format("\\u0001\\u0007\\b\xe9\\\"\\\\"), FEED),
    ("print - a%d x{lf}fault", 2, UNEXPECTED.format("x\\nfault"), FEED),
    (f"print \x1b \" {LONG}xx", 2, UNEXPECTED.format(f"{LONG}xx"), FEED),
    ("print a{lf}b c d", 2, UNEXPECTED.format("d"), FEED),
    (f"print - a%d \x1b{LONG}", 2, UNEXPECTED.format(f"\\u001b{LONG}"), FEED),
    (f"print - a%d \x1bx{LONG}", 2, UNEXPECTED.format(f"\\u001bx{LONG[:-1]}..."), FEED),
    ("print --list a{lf}b", 1, "fault 304\n", FEED),
    ("print --list --default COPIES=\x1b[2J -", 2, NO_DEFAULT.format("COPIES=\\u001b[2J"), FEED),
    ("trace --default \x7f\x9f{lf} -", 2, NO_DEFAULT.format("\\u007f\\u009f\\n"), FEED),
    ("page - \x1b out", 2, USAGE, FEED),
    ("press --engines \x1b", 2, USAGE, FEED),
]
# What is asked for help, and is no fault; other words of told.txt are refused. Ten words are a row of `sizes`.
HELP, TEN = ("--help", "help", "help explain", "help tables"), "print a b c d e f g h i j"
ROWS += [(words, 0 if words in HELP else 2, None, FEED) for words in told.texts() if words != TEN]
