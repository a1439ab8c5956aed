"""What is told where standard output takes no byte: the fault, words, and what stands on standard input. Nothing that is printed is lost unsaid."""

ECHO = b"\x1b%-12345X@PJL ECHO x\n"

FAULTS = [
    ("output", [("", b"\x0c"), ("print --list -", b"\x0c"), ("print --list -", ECHO), ("print --list -", b"\x0c" * 500), ("disasm -", b"\x0c"),
                ("disasm -", b"\x0c" * 5000), ("explain -", b""), ("explain -", b"\x0c"), ("explain -", b"\x0c" * 500),
                ("explain --default COPIES=2 dot", b""), ("trace -", b""), ("trace -", b"\x0c"), ("trace -", b"\x0c" * 500),
                ("trace --default COPIES=2 dot", b""), ("press", b"pause\n"), ("press", b"message status\n"), ("press", b"pause\n" * 5000),
                ("press --engines 2", b"what\n"), ("debug dot", b"step\n"), ("debug dot", b"step\n" * 500), ("debug dot", b"what\n"),
                ("tables", b""), ("tables", b"\x0c"), ("--help", b""), ("help", b""), ("print --help", b""), ("help explain", b""), ("help trace", b""), ("--version", b"")]),
    ("302", [("print - side-%d", ECHO), ("print - side-%d", ECHO * 500), ("print - side-%d", b"\x0c" + ECHO)]),
    ("301", [("print - /proc/self/fd/%d", b"\x0c")]),
    ("115", [("asm - /dev/stdout", b"uel\n"), ("asm - /dev/stdout", b"uel\n" * 5000), ("asm - /dev/full", b"uel\n"), ("page - 0 /dev/stdout", b""),
             ("page - 1 /dev/full", b"\x0c")]),
    ("614", [("write ticket /dev/stdout dot", b""), ("write ticket /dev/full dot", b"")]),
]
# What says nothing ends well there, too: no fault is told where nothing failed.
SILENT = [
    ("print --list -", b""),
    ("print - side-%d", b""),
    ("print - side-%d", b"\x0c\x0c"),
    ("asm - made", b"uel\n"),
    ("asm - /dev/stdout", b""),
    ("disasm -", b""),
    ("write ticket made dot", b""),
    ("press", b""),
    ("debug dot", b""),
]
ROWS = [(words, given, 1, f"fault {fault}\n".encode()) for fault, some in FAULTS for words, given in some]
ROWS += [(words, given, 0, b"") for words, given in SILENT]
