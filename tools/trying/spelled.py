"""Words and streams with control characters, and how the tools have to tell them; what they print has none but line feeds."""

from typing import NamedTuple

UEL = b"\x1b%-12345X"
RAW = b"\r\x07\x08\x00\x7f\xc2\x9b"
TICKET = b'{"Amount":1,"JobID":"J","NPage":1,"Type":"\\u001b[2J","Version":"1.5"}'
SPELLED = "\\r\\u0007\\b\\u0000\\u007f\\u009b"
FILES = {
    "language": UEL + b"@PJL ENTER LANGUAGE=A" + RAW + b"Nothing is wrong\n%!PS\n",
    "long": UEL + b"@PJL ENTER LANGUAGE=" + b"B" * 3000 + b"\n%!PS\n",
    "lines": UEL + b"@PJL SET C" + RAW + b"=1\n@PJL SET COPIES=" + RAW + b"\n@PJL \x07WORD x\n@PJL ECHO " + RAW + b"\n\x0c",
    "ticket": TICKET,
    "message": b'{"ID":"a","Type":"HoldQueueEntry","QueueEntryID":"\\u001b[2J\\u007f"}',
    "a\x1b\x7f\u009b.pcl": b"",
}


class Row(NamedTuple):
    words: str        # for a shell in the folder
    says: str


ROWS = [
    Row("why print --list language", "enters the language A" + SPELLED + "NOTHING IS WRONG, and"),
    Row("why print --list long", "enters the language " + "B" * 64 + "..., and"),
    Row("why print --list lines", "C" + SPELLED),
    Row("why print --list lines", SPELLED + " is none of the values of COPIES"),
    Row("why print --list lines", "\\u0007WORD is no PJL command of this press"),
    Row("why print --list a*.pcl", "a\\u001b\\u007f\\u009b.pcl is empty"),
    Row("why \"$(printf 'pr\\033[2Jnt')\" x", "no subcommand pr\\u001b[2Jnt"),
    Row("why \"$(printf 'pr\\377')\" x", "is no UTF-8 text"),
    Row("why print --list --default \"$(printf 'A\\033=1')\" in", "asks for A\\u001b=1"),
    Row("why write ticket out.prn", "asks for \\u001b[2J"),
    Row("printf 'st\\033op\\n' | why press", "is none of a session: 'st\\u001bop'"),
    Row("printf 'message message\\n' | why press", "names the entry \\u001b[2J\\u007f"),
    Row("printf 'st\\033ep\\n' | why debug lines", "'st\\u001bep'"),
    Row("explain lines", SPELLED + " is none of the values"),
    Row("printf 'go\\nl\\n' | step lines", "\\u0007WORD is no PJL command of this press"),
    Row("explain --default \"$(printf 'A\\033=1')\" lines", "A\\u001b=1 sets no variable"),
    Row("show --default \"$(printf 'A\\033=1')\" lines out.html", "A\\u001b=1 sets no variable"),
    Row("pictures --default \"$(printf 'A\\033=1')\" lines out.pdf", "A\\u001b=1 sets no variable"),
    Row("step --default \"$(printf 'A\\033=1')\" lines", "A\\u001b=1 sets no variable"),
]
