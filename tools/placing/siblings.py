"""The kinds of things that get siblings: what each member is called wherever it stands, what counts or lists all of them, and the rooms in which
no word of them stands, though a sibling changes them. The members are the rows that `press tables` prints, where it has a table of them.

A word may be a member's name, its number, its variant or its text. Numbers that mean other things elsewhere stand with what is around them. Fault
numbers are found in spans, too (`611 to 613`).
"""

import re
from typing import NamedTuple

from seen import tables

ENGLISH = ("one", "two", "three", "four", "five", "six", "seven", "eight", "nine", "ten", "eleven", "twelve", "thirteen", "fourteen", "fifteen")


class Kind(NamedTuple):
    name: str
    members: dict          # of each member its words, beside its name
    plurals: tuple = ()    # nouns that are counted in texts, as in `six page sizes`
    sentence: str = ""     # a pattern of words that speak of the kind
    rooms: dict = {}       # files in which no word of the kind stands, and what a sibling changes there
    spans: bool = False    # whether a span of numbers has those between its ends
    listed: bool = True    # whether a line with three other members is a table of the kind

    def words_of(self, member):
        return (member, *self.members[member])

    def spoken_of(self):
        """What counts all members, or speaks of the kind."""
        count = len(self.members)
        numbers = f"{count}|{ENGLISH[count - 1]}" if count <= len(ENGLISH) else str(count)
        counted = [rf"\b(?:{numbers}) (?:{'|'.join(self.plurals)})\b"] if self.plurals else []
        patterns = counted + ([self.sentence] if self.sentence else [])
        return re.compile("|".join(patterns), re.IGNORECASE) if patterns else None


def short(message):
    """What a message to an entry is called where its type is known: `hold`, `set_priority`."""
    words = re.findall("[A-Z][a-z]+", message.replace("QueueEntry", ""))
    return ("_".join(words).lower(),) if "QueueEntry" in message else ()


# the faults that calls of the libraries have, and no words of the program reach
UNTOLD_FAULTS = (101, 122, 201, 202, 303, 305, 501, 502)
FAULT_ROOMS = {"docs/FAULTS.md": "its row: when it comes, what it leaves", "tools/reasons/__init__.py": "why it came and what to do, for tools/why"}
KINDS = (
    Kind("page size",
         {row["name"].capitalize(): (f"l{row['number']}A",) for row in tables.tables()["page_sizes"]},
         ("page sizes", "sizes", "sizes of paper", "media"), "",
         {"crates/press_page/src/defaults.rt": "where it is to be the size at power on",
          "crates/press_page/specs/Environment.antt": "where it is to be the size at power on",
          "crates/press_ticket/src/parts.rt": "how the key Media is read",
          "crates/press_writer/specs/Fitting.antt": "which images fit on it"}),
    Kind("variable of the job language",
         {name: () for name in tables.names("variables")},
         ("variables", "settings of the job language"), "",
         {"crates/press_pjl/src/environment.rt": "the environment's field",
          "crates/press_page/src/environment.rt": "what a reset takes of it", "crates/press_page/specs/Environment.antt": "what a reset takes of it",
          "crates/press_trace/src/fields.rt": "what a trace tells of it", "crates/press_trace/specs/Fields.antt": "what a trace tells of it",
          "docs/TRACE.md": "what a trace tells of it"}),
    Kind("fault",
         {str(number): () for number in sorted([*tables.fault_numbers(), *UNTOLD_FAULTS])},
         (), "", FAULT_ROOMS, True),
    Kind("raster method",
         {"RunLength": ("run_length", "b1M"), "PackBits": ("packed", "b2M"), "DeltaRow": ("delta", "b3M"), "Adaptive": ("b5M",), "Unencoded": ("plain", "b0M")},
         ("methods", "compression methods", "raster methods"), r"\bmethods? (?:[0-5]|of a row)\b|row ?coding",
         {"tools/model/table.py": "its number", "tools/model/marks.py": "the rows of its data", "tools/model/streams.py": "random streams with it",
          "crates/press_rows/src/decoder.rt": "how its data is decoded", "crates/press_rows/src/encoder.rt": "where jobs are to be written by it",
          "crates/press_rows/specs/Encoding.antt": "where jobs are to be written by it",
          "crates/press_writer/specs/Picture.antt": "the numbers of methods that an image is written by",
          "crates/press_raster/specs/Rows.antt": "which rows its data stands for", "crates/press_raster/src/drawing.rt": "which rows its data stands for"}),
    Kind("message",
         {name: short(name) for name in tables.names("messages")},
         ("messages", "types of messages"), "",
         {"crates/press_queue/specs/Legal.antt": "the statuses in which it is legal", "crates/press_queue/specs/Rows.antt": "its row",
          "crates/press_queue/src/queue.rt": "what it makes of the entry", "crates/press_queue/src/command.rt": "its name among the commands to one entry",
          "crates/press_queue/src/entries.rt": "what it does to the list", "crates/press_core/specs/Listings.antt": "what its response adds",
          "crates/press_core/specs/World.antt": "what follows for its job and its engine",
          "crates/press_core/src/listings.rt": "what its response adds", "tools/reasons/sessions.py": "the statuses in which it is legal",
          "tools/model/job_queue.py": "its row, by somebody who has not read the code"}),
    Kind("subcommand",
         {name: () for name in tables.names("subcommands")},
         ("subcommands",), "",
         {"crates/press_main/specs/Program.antt": "what it promises", "crates/press_main/src/sparing.rt": "which inputs its output may not be", "crates/press_main/src/making.rt": "how its output is made",
          "crates/press_files/specs/Files.antt": "which files it makes", "crates/press_words/specs/View.antt": "its request as contracts see it",
          "crates/press_forms/specs/Faults.antt": "what it tells", "docs/FAULTS.md": "which faults it tells",
          "tools/model/program.py": "its words, by somebody who has not read the code"},
         listed=False),
)


CONSTANT = re.compile(r"const ([A-Z_]+): u16 = (\d{3});")


def variants(texts, number):
    """The constant of a fault's number, and the variants that are told by it, in the texts of sources."""
    names = {name for text in texts for name, value in CONSTANT.findall(text) if value == number}
    told = re.compile(rf"::(\w+)(?:\([^)]*\)|\s*{{[^}}]*}})?\s*=> (?:Some\()?(?:{'|'.join(names)})\b") if names else None
    return sorted(names | {name for text in texts for name in (told.findall(text) if told else ())})


def kind_of(word):
    """The kind and the member that a word names, or None."""
    for kind in KINDS:
        for member in kind.members:
            if word.lower() in (each.lower() for each in kind.words_of(member)):
                return kind, member
    return None
