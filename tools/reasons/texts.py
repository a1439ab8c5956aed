"""Why an assembly text is refused: its first bad line."""

from model import asm
from model.commands import LONGEST_LINE, carries_data
from model.values import LONGEST_FIELD, is_field, read_value

from . import kinds
from .finding import Found, counted

WORDS = ["uel", "esc", "par", "ctl", "txt", "for", "brk", "pjl"]
DATA_ENDS = "Data follows the end W, *b#V and &p#X alone"


def assembled(shown, data):
    """The bytes of a text."""
    lines = data.split(b"\n")
    if lines[-1] == b"":
        lines.pop()
    made = []
    for number, line in enumerate(lines, 1):
        made.append(bytes_of(shown, number, line, data))
    return b"".join(made)


def bytes_of(shown, number, line, data):
    place = f"line {number} of {shown}"
    try:
        line.decode("utf-8")
    except UnicodeDecodeError as fault:
        if number == 1 and (kind := kinds.kind_of(data)):
            raise swapped(place, kind) from None
        raise Found(asm.BAD_LINE, f"{place} is no UTF-8 text: its byte {fault.start + 1} is {line[fault.start]:02X}",
                    "Save the text as UTF-8, remarks too") from None
    if line == b"" or line.startswith(b";"):
        return b""
    try:
        return asm.command_bytes(asm.command_of_line(line))
    except asm.BadText as bad:
        raise judged(bad.number, place, line, data, number) from None


def swapped(place, kind):
    return Found(asm.BAD_LINE, f"{place} has no form: this is {kind}, and no assembly text",
                 "Look at the order of the words: press asm IN OUT makes a stream of a text, press disasm IN a text of a stream")


def judged(bad, place, line, data, number):
    text = line.decode("utf-8")
    if bad == asm.BAD_LINE:
        return without_form(place, text, data, number)
    word = text.partition(" ")[2].partition(" ")[0]
    if bad == asm.BAD_VALUE:
        field = word[2:-1] if len(word) > 2 and 96 <= ord(word[1]) <= 126 else word[1:-1]
        why = f"has more than {LONGEST_FIELD} characters" if len(field) > LONGEST_FIELD else "is no number"
        return Found(bad, f"{place} has a value field {field[:40]} that {why}",
                     "Write a sign, digits, and a point with digits, each if needed")
    return bad_data(bad, place, text)


def without_form(place, text, data, number):
    if number == 1 and data.startswith(b"\xef\xbb\xbf"):
        return Found(asm.BAD_LINE, f"{place} begins with a byte order mark", "Save the text as UTF-8 without a mark")
    if number == 1 and (kind := kinds.kind_of(data)) is not None:
        return swapped(place, kind)
    if text.endswith("\r"):
        return Found(asm.BAD_LINE, f"{place} ends with a carriage return", "Save the text with line feeds alone, as Unix has them")
    if text.startswith("par %-12345X"):
        return Found(asm.BAD_LINE, f"{place} has no form: it spells the universal exit", "Write uel")
    word = text.split(" ")[0]
    if text != text.strip() and word in WORDS + [""]:
        return Found(asm.BAD_LINE, f"{place} has no form: a space stands at its beginning or end", "Take it out")
    if word.lower() in WORDS and word not in WORDS:
        return Found(asm.BAD_LINE, f"{place} has no form: {word} stands in capitals", f"Write {word.lower()}")
    if word not in WORDS:
        return Found(asm.BAD_LINE, f"{place} has no form: {word[:40] or 'it'} is none of {', '.join(WORDS)}", "A remark begins with ;")
    return Found(asm.BAD_LINE, f"{place} has no form: {FORMS[word]}", "docs/ASSEMBLY.md has each form with an example")


FORMS = {
    "uel": "behind uel stands nothing",
    "esc": "behind esc stands one character from 0 to ~",
    "par": "behind par stands a word as *p10X, and digits of its data if it has some",
    "ctl": "behind ctl stand the two digits of a byte from 00 to 1F, without 1B",
    "txt": "behind txt stand the two digits of a byte from 20 to FF",
    "for": "behind for stand the two digits of a byte",
    "brk": "behind brk stand the digits of one byte or more",
    "pjl": "behind pjl stand the digits of a line",
}


def bad_data(bad, place, text):
    kind, _, rest = text.partition(" ")
    word, _, digits = rest.partition(" ") if kind == "par" else ("", "", rest)
    if len(digits) % 2:
        return Found(bad, f"{place} has an odd number of digits", "Each byte has two")
    if kind == "pjl":
        return Found(bad, f"{place} is no PJL line: {why_no_line(bytes.fromhex(digits))}", "It is @PJL .. with its line feed, 0A")
    group = ord(word[1]) if 96 <= ord(word[1]) <= 126 else None
    field = word[1 if group is None else 2:-1]
    if not carries_data(ord(word[0]), group, ord(word[-1])):
        return Found(bad, f"{place} has {counted(len(digits) // 2, 'byte')} of data, and {word} carries none", DATA_ENDS)
    wanted = max(0, read_value(field.encode()).whole()) if is_field(field.encode()) else 0
    return Found(bad, f"{place} has {counted(len(digits) // 2, 'byte')} of data, and its value says {wanted}", "Change the value or the data")


def why_no_line(line):
    if not line.startswith(b"@PJL"):
        return "it does not begin with @PJL"
    if b"\x1b" in line:
        return "an ESC stands in it"
    if len(line) > LONGEST_LINE:
        return "it has more than 4,096 bytes"
    return "a line feed stands within it" if b"\n" in line[:-1] else "no line feed stands at its end"
