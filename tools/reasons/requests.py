"""What is wrong with a request: the faults that the program would tell, in its order."""

import os

from model import defaults
from model.press import BAD_ENGINES, MOST_ENGINES
from seen import program

from . import debugging, files, images, sessions, streams, texts, tickets, words
from .finding import Finding, Found, counted

NOT_MADE, NOT_ASSEMBLED, NOT_WRITTEN = 301, 115, 614
BAD_TEMPLATE = 121
HEADER_BYTES = 16
LEAST_JOB = 64   # bytes: its head and its tail
LEAST_PAGE = 857_000   # bytes of the smallest page


def findings(asked, chosen=program.PROGRAM):
    """All that is found, the fault that ends the program first."""
    try:
        request = words.request_of(asked)
        if request is None:
            return []
        return list(JUDGES[request.what](request, chosen))
    except Found as found:
        return [found.finding]


def judge_print(request, chosen):
    name = request.names[0]
    files.open_input(name, "IN")
    if not request.listed:
        check_template(request.names[1])
        check_sides(name, request.names[1])
    shown = "standard input" if name == "-" else name
    stream = files.read_input(name, "IN")
    found, printed = streams.looked_at(shown, stream, defaults.front(request.defaults), chosen)
    if printed and not request.listed:
        size = sum(copies * (HEADER_BYTES + side.height * ((side.width + 7) // 8)) for side, _, _, copies in printed)
        for number in range(1, sum(copies for *_, copies in printed) + 1):
            files.check_apart(request.names[1].replace("%d", str(number)), NOT_MADE, [name])
        files.check_output(request.names[1].replace("%d", "1"), NOT_MADE, size)
    return found


def check_template(template):
    times = template.count("%d")
    if times != 1:
        where = "has no %d" if times == 0 else f"has %d {times} times"
        raise Found(BAD_TEMPLATE, f"OUT {template} {where}", "Put %d once where the number of the side goes: page-%d.pbm")


def check_sides(name, template):
    """IN is the file of no side, whatever its number."""
    front, back = template.split("%d")
    number = name[len(front):len(name) - len(back)]
    if name == front + number + back and number.isdecimal() and number.isascii() and number[0] != "0":
        raise Found(NOT_MADE, f"OUT {template} has a side that is called {name}, as IN is, which it would replace", "Give another template")


def judge_asm(request, _chosen):
    name, made = request.names
    data = texts.assembled("standard input" if name == "-" else name, files.read_input(name, "IN"))
    files.check_apart(made, NOT_ASSEMBLED, [name])
    files.check_output(made, NOT_ASSEMBLED, len(data))
    yield from replaced(made)


def judge_disasm(request, _chosen):
    stream = files.read_input(request.names[0], "IN")
    if not stream:
        yield Finding(None, f"{files.describe('IN', request.names[0])} is empty, and so is its text", "Look at what made it")


def judge_explain(request, _chosen):
    name = request.names[0]
    if not files.read_input(name, "IN"):
        yield Finding(None, f"{files.describe('IN', name)} is empty, and its text is the remark on the universal exit that the press adds", "Look at what made it")


def judge_trace(request, _chosen):
    name = request.names[0]
    if not files.read_input(name, "IN"):
        yield Finding(None, f"{files.describe('IN', name)} is empty, and its trace is the universal exit that the press adds", "Look at what made it")


def judge_page(request, _chosen):
    name, _, made = request.names
    files.read_input(name, "IN")
    files.check_apart(made, NOT_ASSEMBLED, [name])
    files.check_output(made, NOT_ASSEMBLED, LEAST_PAGE)
    yield from replaced(made)


def judge_write(request, _chosen):
    name, made, *image_names = request.names
    ticket = tickets.ticket_in(name, files.read_input(name, "TICKET"))
    read = [images.read_image(place, image) for place, image in enumerate(image_names)]
    tickets.check_images(name, ticket, read, image_names)
    files.check_apart(made, NOT_WRITTEN, [name, *image_names])
    files.check_output(made, NOT_WRITTEN, LEAST_JOB)
    yield from replaced(made)


def replaced(name):
    """OUT is no fault where it is there, but it is replaced."""
    if os.path.isfile(name) and os.path.getsize(name):
        yield Finding(None, f"OUT {name} is there, with {os.path.getsize(name):,} bytes, and is replaced", "Give another name to keep it", remark=True)


def judge_debug(request, chosen):
    name = request.names[0]
    stream = files.read_input(name, "IN")
    yield from debugging.findings(files.read_input("-", "IN"), name, stream, chosen)


def judge_tables(_request, _chosen):
    """Nothing is read, and nothing can be wrong with it."""
    return []


def judge_press(request, chosen):
    if not 1 <= request.engines <= MOST_ENGINES:
        raise Found(BAD_ENGINES, f"--engines asks for {counted(request.engines, 'engine')}", f"A press has 1 to {MOST_ENGINES} engines")
    if request.template is not None:
        wrong = [f"{mark} {counted(request.template.count(mark), 'time')}" for mark in ("%q", "%d") if request.template.count(mark) != 1]
        if wrong:
            raise Found(BAD_TEMPLATE, f"The template {request.template} has {' and '.join(wrong)}", "Each stands once, as in page-%q-%d.pbm")
    yield from sessions.findings(files.read_input("-", "IN"), request.engines, chosen, request.goes_on)


JUDGES = {"print": judge_print, "asm": judge_asm, "disasm": judge_disasm, "explain": judge_explain, "debug": judge_debug, "trace": judge_trace,
          "page": judge_page, "write": judge_write, "press": judge_press, "tables": judge_tables}
