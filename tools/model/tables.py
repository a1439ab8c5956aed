"""The tables of the press as JSON, as `press tables` writes them: what programs beside it take names and numbers from."""

import json

from . import pages, pjl, press, table, titles

# each subcommand: its words, its switches without a value and with one, and its line of help
SUBCOMMANDS = {
    "print": (["IN", "[OUT]"], ["--list", "--sums"], ["--default"], "Prints a stream to a P4 file (raw PBM) for each side, or lists its sheets"),
    "asm": (["IN", "OUT"], [], [], "Makes a print stream from assembly text, a line for each command"),
    "disasm": (["IN"], [], [], "Writes a stream as assembly text, a line for each command, to standard output"),
    "explain": (["IN"], [], ["--default"], "Writes a stream as assembly text, and in front of each command what it is and does"),
    "debug": (["IN"], [], ["--default"], "Steps through a stream, as the lines on standard input ask"),
    "trace": (["IN"], ["--runs"], ["--default"], "Tells what a stream does, step by step, in a line of JSON for each"),
    "page": (["IN", "K", "OUT"], [], ["--default"], "Makes a P4 file (raw PBM) of the page that is open behind so many steps of a stream"),
    "write": (["TICKET", "OUT", "[IMG...]"], [], [], "Makes a print stream from a job ticket and the images of its pages"),
    "press": ([], ["--sums", "--keep-going"], ["--engines", "--out"], "Plays a session with a press that has a queue, by the lines on standard input"),
    "tables": ([], [], [], "Writes what the program has tables of, as JSON: a row in a line"),
}
METHODS = [0, 1, 2, 3, 5]
FAULTS = [111, 112, 113, 114, 115, 121, 301, 302, 304, 401, 402, 403, 601, 602, 603, 604, 605, 611, 612, 613, 614, 701, 702]   # that the program tells
WITHOUT_NUMBER = ["output", "memory"]


def subcommands():
    return [{"name": name, "words": words, "flags": flags, "options": options, "about": about}
            for name, (words, flags, options, about) in SUBCOMMANDS.items()]


def page_sizes():
    """Each size of paper by the name that PAPER has for it, the number of its command, and its dots at 300 dots per inch."""
    numbers = {name: number for number, name in table.PAGE_SIZES.items()}
    by_word = {name.upper(): size for name, size in pages.SIZES.items()}
    sizes = [by_word[word.decode()] for word in pjl.LISTED[b"PAPER"]]
    return [{"name": size.name.upper(), "number": numbers[size.name], "width": size.width, "height": size.height,
             "portrait_offset": size.portrait_offset, "landscape_offset": size.landscape_offset} for size in sizes]


def variables():
    """Each variable of the job language: its value at power on, and its values, or the least and the most where they are numbers."""
    for name, value in pjl.FACTORY.items():
        listed = [text.decode() for text in pjl.LISTED.get(name, [])]
        yield {"name": name.decode(), "default": value.decode(), **({"values": listed} if listed else {"numbers": [1, pjl.GREATEST_COPIES]})}


def faults():
    return [{"number": number, "text": f"fault {number}"} for number in FAULTS] + [{"number": None, "text": f"fault {word}"} for word in WITHOUT_NUMBER]


def compact(value):
    return json.dumps(value, separators=(",", ":"))


def text():
    """A row in a line."""
    tables = {"subcommands": subcommands(), "page_sizes": page_sizes(), "variables": variables(), "methods": [{"number": number} for number in METHODS],
              "titles": [{"kind": kind, "title": title} for kind, title in titles.TITLES.items()],
              "meanings": [{"value": f"{kind} {number}", "meaning": meaning} for (kind, number), meaning in titles.MEANINGS.items()],
              "faults": faults(), "messages": [{"name": name} for name in press.PARAMETERS]}
    lines = ",\n".join(f"{compact(name)}:[\n" + ",\n".join(map(compact, rows)) + "\n]" for name, rows in tables.items())
    return f"{{\n{lines}\n}}\n".encode()
