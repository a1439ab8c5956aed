"""Random sessions of the press: files of messages and images, and a script of lines.

Most sessions are of any events; some end their jobs by long turns, some fill the queue first, and in some a file is missing or
is no image, which ends the program. With several engines some begin, suspend and resume as many entries as may be in flight. A third
each makes files of the sides, lists sums, and goes on behind lines that are wrong.
"""

import json
from typing import NamedTuple

from . import job_queue, ticket, tickets
from .pages import SIZES
from .tickets import PLAIN, object_of, spelled

MIXED, LONG, FULL, FAULTY, FLIGHT = "mixed", "long", "full", "faulty", "flight"
ENTRIES_OF_A_FULL_QUEUE = 64
ENTRIES_TO_BEGIN = 12
GREATEST_NUMBER = 2 ** 64 - 1
WRONG_LINES = 6

PAGES = "pages"  # a folder that is there
TEMPLATES = ["%q-%d.pbm", "%d%q", "%d of %q", "%%q-%d", "%%d%%q%%", "%q%%%d.%", "%q%D%d%Q", "./%q_%d", PAGES + "/%q-%d", "\u00e9%q\u00fc%d"]
SAME_NAMES = ["%q%d", "%%q%d%%"]  # Q1 has in its page 11 the name that Q11 has in its first
NO_TEMPLATES = ["page", "", "%q", "%d.pbm", "%q-%q", "%q-%d-%q", "%d%q%d", "%%qd", "%dq", "%q-%03d", "%Q-%D", "%q%", "%d-%%q-%%d"]
NO_FOLDER = "none/%q-%d"
COPIES_OF_THE_FIRST = 11

ENTRY_TYPES = ["HoldQueueEntry", "ResumeQueueEntry", "SuspendQueueEntry", "AbortQueueEntry", "RemoveQueueEntry",
               "SetQueueEntryPriority", "SetQueueEntryPosition"]
PLAIN_TYPES = ["QueueStatus", "QueueStatus", "Status", "Status", "Status", "OpenQueue", "OpenQueue", "ResumeQueue", "ResumeQueue",
               "CloseQueue", "HoldQueue"]
MANY_STEPS = [7, 20, 40, 60, 100, 200, 1000, 10 ** 6, 2 ** 64 - 1]

NO_JSON = [
    b"", b" \n", b"{", b"}", b"message", b'{"ID":"m","Type":"Status",}', b"{'ID':'m'}", b"\xff\xfe", b"\xef\xbb\xbf{}",
    b'{"ID":"\xff","Type":"Status"}', b'{"ID":"\xed\xa0\x80","Type":"Status"}', b'{"ID":"\xc0\x80","Type":"Status"}',
    b'{"ID":"m","Type":"Status"} x', b'{"ID":"m","Type":"Status"}{}', b'{"ID":"m" "Type":"Status"}', b'{"ID" "m"}',
    b'{"ID":"a\nb","Type":"Status"}', b'{"ID":"\\x","Type":"Status"}', b'{"ID":"\\ud800","Type":"Status"}',
    b'{"ID":"\\udc00","Type":"Status"}', b'{"ID":"\\ud800\\u0041","Type":"Status"}', b'{"ID":"\\u12g4","Type":"Status"}',
    b'{"ID":"m","Type":"Status', b'{"ID":"m","Type":"Status","A":01}', b'{"ID":"m","Type":"Status","A":1.}',
    b'{"ID":"m","Type":"Status","A":.5}', b'{"ID":"m","Type":"Status","A":+1}', b'{"ID":"m","Type":"Status","A":1e}',
    b'{"ID":"m","Type":"Status","A":-}', b'{"ID":"m","Type":"Status","A":nul}', b'{"ID":"m","Type":"Status","A":True}',
    b'{"ID":"m","Type":"Status","A":1e999}', b'{"ID":"m","Type":"Status","A":-1e999}', b'{"ID":"m","Type":"Status","A":NaN}',
    b'{"ID":"m","Type":"Status","A":[1,]}', b'{"ID":"m",,"Type":"Status"}', b'{1:2}', b'{"ID":"m","Type":"Status"/**/}',
]
NO_OBJECT = [b"null", b"[]", b'"x"', b"12", b"-0.5e3", b"true", b'[{"ID":"m","Type":"Status"}]']
ODD_BUT_LEGAL = [
    b'{"ID":"a","Type":"Status","ID":"b"}', b'{"Type":"Nothing","ID":"a","Type":"Status"}', b' \r\n\t{ "ID" : "m" , "Type" : "Status" } \n',
    b'{"ID":"\\u00e9\\/\\b\\f\\n\\r\\t\\"\\\\","Type":"Status"}', b'{"ID":"\\ud83d\\ude00","Type":"Status"}',
    b'{"ID":"\\u0000\\u001f\\u007f\\u0080","Type":"Status"}', b'{"I\\u0044":"m","Type":"Stat\\u0075s"}',
    b'{"ID":"m","Type":"Status","A":-0,"B":1e5,"C":123456789012345678901234567890,"D":1e-999,"E":{"":[null,true,false]}}',
    b'{"ID":"m","Type":"Status","A":' + b"9" * 300 + b"}", b'{"ID":"m","Type":"Status","A":0e999}',
    b'{"id":"m","ID":"n","type":"x","Type":"Status"}',
]
IDS = ["m1", "m2", "", "\u00e9", "\U0001f600", "a\"b\\c/", "\n\t\x01\x1f\x7f", "i" * 300, "Q1"]
OTHER_KINDS = ["null", "1", "true", "[]", "{}", "1.5"]
UNKNOWN_TYPES = ["Foo", "", "status", "Status ", "SubmitQueueEntr", "ResubmitQueueEntry", "\u00e9\"", "SuspendQueueEntry"]
UNKNOWN_ENTRIES = ["Q0", "Q01", "q1", "Q", "", "1", "Q-1", "Q+1", "Q1 ", "Q18446744073709551615", "Q18446744073709551616", "Q" + "1" * 40]
BAD_WHOLES = ["-1", "101", "255", "256", "4294967296", "9223372036854775807", "9223372036854775808", "-9223372036854775808",
              "18446744073709551615"]
NO_WHOLES = ["18446744073709551616", "-9223372036854775809", "1e2", "50.0", "-0", '"50"', "null", "true", "[50]"]
NO_EVENTS = [
    b"", b" ", b"turn", b"turn ", b"turn -1", b"turn +1", b"turn 1 ", b"turn  1", b"turn 1.0", b"turn x", b"turn 1e3", b"turn 0x10",
    b"turn 18446744073709551616", b"turn " + b"9" * 50, b"turn 1\r", b"turn\t1", b"turn \xd9\xa1", b"TURN 1", b"Pause", b"pause ",
    b" pause", b"pause now", b"continue\r", b"abort 1", b"message", b"messages m", b"what?", b"status", b"step", b"go 1", b"\xff\xfe",
    b"\x00", b"; pause", b"x" * 3000,
]
# No events of a press with engines either.
NO_TURNS_OF_ENGINES = [
    b"turn 1 x", b"turn 1 -1", b"turn 1 +0", b"turn 1 0.0", b"turn 1 0 ", b"turn 1  0", b"turn  1 0", b"turn 1 0 0", b"turn x 0", b"turn -1 0",
    b"turn 1 18446744073709551616", b"turn 18446744073709551616 0", b"turn 1 \xd9\xa1", b"turn 1 Q1", b"turn 1 0\r", b"engines 2", b"pause 0",
]


class Link(NamedTuple):
    """What stands for the content of a link: the name that it leads to, which is of the session's folder."""
    target: str


class Maker:
    """Makes a session of so many events, at whose end queue and device are asked for; `kind` says which. `files` are by name,
    and None for a folder, or a link."""

    def __init__(self, maker, events):
        self.maker = maker
        self.events = events
        self.files = {}
        self.lines = []
        self.submitted = 0
        self.held = ["Q1"]  # entries that were to be held
        self.end = b""
        self.kind = maker.choices([MIXED, LONG, FULL, FAULTY, FLIGHT], [70, 14, 6, 10, 30])[0]
        self.words = self.engine_words()
        self.engines = int(self.words[1]) if self.words else 1
        self.flight = Flight(self.engines)

    def engine_words(self):
        """What stands behind `press`."""
        if self.kind == FAULTY and self.chance(0.15):
            return ["--engines", self.pick(["0", "5", "00", "6", "255", "256", "4294967297", "18446744073709551615"])]
        number = self.pick([1, 2, 2, 2, 3, 3, 4, 4])
        return [] if number == 1 and self.chance(0.5) else ["--engines", self.pick(["", "", "", "0"]) + str(number)]

    def session(self):
        if self.kind == FULL:
            self.fill_queue()
        if self.kind == FLIGHT:
            self.submit_many()
        place = self.maker.randrange(self.events) if self.kind == FAULTY else None
        for number in range(self.events):
            self.lines.append(self.faulty_line() if number == place else self.event())
        self.lines += [self.message(self.text_of(kind, [])) for kind in ("QueueStatus", "Status")]
        self.end = b"" if self.chance(0.1) else b"\n"
        self.ask_for_more()
        return self

    # Options

    def ask_for_more(self):
        """Files of the sides, sums, and lines that are wrong."""
        options = []
        if self.chance(1 / 3):
            options.append(self.make_files())
        if self.chance(1 / 3):
            options.append(["--sums"])
        if self.chance(1 / 3):
            options.append(["--keep-going"])
            self.add_lines([self.faulty_line() for _ in range(self.maker.randint(1, WRONG_LINES))])
        options.append(self.words)
        self.maker.shuffle(options)
        self.words = [word for words in options for word in words]

    def make_files(self):
        """The words that ask for files, whose names may be those of older files, of folders and of inputs."""
        template = self.template()
        if template in SAME_NAMES:
            self.lines = self.lines_of_same_names() + self.lines
        if template.startswith(PAGES):
            self.files[PAGES] = None
        if self.chance(0.3):
            self.files[self.name_of_a_side(template)] = self.pick([b"older", None, self.link(), self.link()])
        if self.chance(0.3):
            self.add_lines(self.lines_of_sides(template))
        return ["--out=" + template] if self.chance(0.2) else ["--out", template]

    def template(self):
        pick = self.maker.random()
        if pick < 0.1:
            return self.pick([*NO_TEMPLATES[2:], NO_FOLDER])
        return self.pick(SAME_NAMES if pick < 0.2 else TEMPLATES)

    def name_of_a_side(self, template):
        return template.replace("%q", f"Q{self.pick([1, 1, 2, 2, 3, 4, 6])}").replace("%d", self.pick("11123"))

    def link(self):
        """To an input, or to another file."""
        return Link(self.pick([self.file("o", b"other"), *(name for name in self.files if name[0] in "im")]))

    def lines_of_same_names(self):
        """Jobs whose sides have names twice, and turns that print them."""
        image = [self.image()]
        copies = [COPIES_OF_THE_FIRST] + [1] * 10
        texts = [self.submission_text(PLAIN | {"Amount": amount}, []) for amount in copies]
        return [self.message(text, image) for text in texts] + [b"turn %d" % GREATEST_NUMBER] * len(copies)

    def lines_of_sides(self, template):
        """Messages whose files have the names of sides: made by the press, or older ones, which it may not replace."""
        name = self.name_of_a_side(template)
        if " " in name:
            return []
        if self.chance(0.5):
            self.files[name] = self.image()
        text = self.file("m", self.submission_text(PLAIN, []))
        first, image = self.pick([(name, None), (text, name), (text, name)])
        return [" ".join(["message", first] + ([image] if image else [])).encode()]

    def add_lines(self, lines):
        for line in lines:
            self.lines.insert(self.maker.randint(0, len(self.lines)), line)

    def script(self):
        """The last line may lack its LF."""
        return b"\n".join(self.lines) + self.end

    def pick(self, choices):
        return self.maker.choice(choices)

    def chance(self, probability):
        return self.maker.random() < probability

    def file(self, letter, content):
        """The name of a file of this content; files of equal content are one."""
        for name, other in self.files.items():
            if name[0] == letter and other == content:
                return name
        name = f"{letter}{len(self.files)}"
        self.files[name] = content
        return name

    def message(self, text, images=()):
        words = [self.file("m", text)] + [self.file("i", image) for image in images]
        return " ".join(["message", *words]).encode()

    # Events

    def event(self):
        if self.kind == FLIGHT and self.chance(0.93):
            return self.flight_event()
        makers = [self.legal_submission, self.broken_submission, self.entry_command, self.plain_message, self.flush,
                  self.broken_message, self.turn, self.operator, self.no_event]
        weights = [18, 7, 22, 12, 0.6, 9, 22, 6, 4]
        if self.kind == LONG:
            weights = [16, 2, 8, 6, 0.3, 2, 56, 3, 1]
        return self.maker.choices(makers, weights)[0]()

    def turn(self):
        many = str(self.pick(MANY_STEPS))
        words = ["0", "1", "3", "003", many]
        line = b"turn " + self.maker.choices(words, [2, 4, 4, 1, 30 if self.kind == LONG else 8])[0].encode()
        return line + self.engine()

    def engine(self):
        """An engine that there is, or none for the first one."""
        if self.chance(0.2):
            return b""
        return b" " + self.pick([b"", b"", b"", b"0"]) + b"%d" % self.maker.randrange(max(1, min(self.engines, 4)))

    def submit_many(self):
        text, image = self.submission_text(PLAIN | {"Amount": 2}, []), [self.image()]
        for _ in range(ENTRIES_TO_BEGIN):
            self.lines.append(self.message(text, image))
            self.submitted += 1
            self.flight.submit()

    def flight_event(self):
        """Short turns, so that no job ends soon, and entries that are likely to be running or suspended."""
        pick = self.maker.random()
        if pick < 0.4:
            return b"turn %d %d" % (self.maker.choices([1, 2, 4], [12, 2, 1])[0], self.flight.turn(self.maker))
        if pick < 0.9:
            kind = self.maker.choices(list(Flight.MESSAGES), [30, 12, 2, 6])[0]
            members = [("QueueEntryID", spelled("Q%d" % self.flight.message(self.maker, kind)))]
            return self.message(self.text_of(kind, members + ([("Position", "0")] if kind == "SetQueueEntryPosition" else [])))
        return self.message(self.text_of(self.pick(["QueueStatus", "Status"]), []))

    def operator(self):
        return self.maker.choices([b"pause", b"continue", b"abort"], [2, 4, 2])[0]

    def no_event(self):
        if self.chance(0.4):
            return self.pick(NO_TURNS_OF_ENGINES)
        return self.pick(NO_EVENTS)

    def faulty_line(self):
        """A message with a file that is missing, cannot be read, or is no image; or with several of these. Or an engine that there
        is not."""
        if self.chance(0.4):
            number = self.pick([self.engines, self.engines, 4, 255, 256, GREATEST_NUMBER])
            return b"turn %s %d" % (self.pick([b"0", b"1", b"1000000"]), number)
        text = self.file("m", self.submission_text(self.members(), []))
        missing, folder = "none", self.file("d", None)
        wrong = [self.file("i", broken) for broken in BROKEN_IMAGES]
        images = self.maker.choices([*wrong, missing, folder, self.file("i", self.image())], k=self.maker.randint(1, 2))
        first = self.maker.choices([text, missing, folder], [6, 1, 1])[0]
        return " ".join(["message", first, *images]).encode()

    def fill_queue(self):
        texts = [(self.submission_text(PLAIN, [("Priority", str(priority))] if priority != 50 else []))
                 for priority in (50, 50, 7, 80)]
        image = [self.image()]
        for _ in range(ENTRIES_OF_A_FULL_QUEUE):
            self.lines.append(self.message(self.pick(texts), image))
            self.submitted += 1
        for text in [texts[0], self.submission_text(PLAIN, [("Priority", "101")])]:
            self.lines.append(self.message(text, image))
            self.lines.append(self.message(self.text_of("QueueStatus", [])))

    # Messages

    def text_of(self, kind, members):
        """A message with texts ID and Type, its keys in any order, and now and then a key that nobody asks for."""
        message_id = json.dumps(self.pick(IDS[:3] if self.chance(0.8) else IDS), ensure_ascii=self.chance(0.5))
        members = [("ID", message_id), ("Type", spelled(kind)), *members]
        if self.chance(0.1):
            members.append((self.pick(["Comment", "", "Q", "Priorities"]), self.pick(OTHER_KINDS)))
        self.maker.shuffle(members)
        return object_of(members, self.pick([(",", ":"), (", ", ": "), ("\n,", "\t:\r")]))

    def plain_message(self):
        return self.message(self.text_of(self.pick(PLAIN_TYPES), []))

    def flush(self):
        return self.message(self.text_of("FlushQueue", []))

    def entry_name(self):
        if self.chance(0.05):
            return self.pick(UNKNOWN_ENTRIES)
        last = max(1, self.submitted)
        least = max(1, last - 6) if self.chance(0.7) else 1
        return f"Q{self.maker.randint(least, last + self.chance(0.1))}"

    def whole(self, most):
        pick = self.maker.random()
        if pick < 0.7:
            return str(self.maker.randint(0, most))
        return self.pick([str(most), str(most + 1), *BAD_WHOLES]) if pick < 0.88 else self.pick(NO_WHOLES)

    def entry_command(self):
        kind = self.maker.choices(ENTRY_TYPES, [6, 6, 2, 4, 3, 5, 5])[0]
        name = self.pick(self.held[-4:]) if kind == "ResumeQueueEntry" and self.chance(0.7) else self.entry_name()
        if kind == "HoldQueueEntry":
            self.held.append(name)
        members = [("QueueEntryID", spelled(name))]
        if kind == "SetQueueEntryPriority":
            members.append(("Priority", self.whole(100)))
        if kind == "SetQueueEntryPosition":
            members.append(("Position", self.whole(max(1, self.submitted - 2))))
        return self.message(self.text_of(kind, self.spoilt(members) if self.chance(0.1) else members))

    def spoilt(self, members):
        """One of the parameters is absent, or of another kind; or both are."""
        members = list(members)
        for place in range(len(members) - 1, -1, -1):
            pick = self.maker.random()
            if pick < 0.4:
                members.pop(place)
            elif pick < 0.7:
                members[place] = members[place][0], self.pick(OTHER_KINDS)
        return members

    def broken_message(self):
        pick = self.maker.random()
        if pick < 0.25:
            return self.message(self.pick(NO_JSON))
        if pick < 0.32:
            return self.message(self.pick(NO_OBJECT))
        if pick < 0.44:
            return self.message(self.pick(ODD_BUT_LEGAL))
        if pick < 0.54:
            return self.message(self.deep_message())
        if pick < 0.78:
            return self.message(self.headless_message())
        named = [("QueueEntryID", spelled(self.entry_name()))]
        return self.message(self.damaged(self.text_of(self.pick(PLAIN_TYPES + ENTRY_TYPES), named)))

    def deep_message(self):
        """A value that nests up to, or beyond, the greatest depth."""
        depth = self.pick([1, 125, 126, 126, 127, 127, 128, 400])
        value = "[" * depth + "]" * depth if self.chance(0.5) else '{"":' * depth + "0" + "}" * depth
        return object_of([("ID", '"deep"'), ("Type", '"Status"'), ("X", value)])

    def headless_message(self):
        """ID or type is absent, of another kind, or of no known name."""
        members = []
        for key, known in (("ID", ["m1", ""]), ("Type", ["Status", *UNKNOWN_TYPES])):
            pick = self.maker.random()
            if pick < 0.55:
                members.append((key, spelled(self.pick(known))))
            elif pick < 0.8:
                members.append((key, self.pick(OTHER_KINDS)))
        return object_of(members)

    def damaged(self, text):
        place = self.maker.randrange(len(text))
        if self.chance(0.3):
            return text[:place]
        return text[:place] + bytes([self.pick(list(b'{}[]":,\\ \x00\x7f\xc3aQ09-.e'))]) + text[place + self.maker.randint(0, 1):]

    # Submissions

    def members(self):
        count = self.pick([1, 1, 1, 2, 2, 3])
        members = PLAIN | {"JobID": self.pick(["J", "a job", "~" * 63]), "NPage": count, "Amount": self.pick([1, 1, 1, 2, 3])}
        if self.chance(0.3):
            members["RunList"] = [[self.maker.randint(-count, count - 1) for _ in range(2)] for _ in range(self.maker.randint(1, 3))]
        members["Media"] = self.maker.choices(list(SIZES), [4, 1, 2, 6, 1, 1])[0]
        if members["Media"] == "Letter" and self.chance(0.5):
            del members["Media"]
        if self.chance(0.5):
            members["Sides"] = self.pick(ticket.SIDES)
        if self.chance(0.5):
            members["Collate"] = self.pick([True, False])
        if self.chance(0.5):
            members["Resolution"] = self.pick([300, 600, 600])
        return members

    def submission_text(self, members, others):
        return self.text_of("SubmitQueueEntry", [("Ticket", tickets.text_of(self.maker, members).decode()), *others])

    def legal_submission(self):
        members = self.members()
        others = [("Priority", str(self.pick([0, 1, 49, 50, 51, 99, 100])))] if self.chance(0.4) else []
        images = [self.image() for _ in range(members["NPage"] + self.chance(0.1))]
        self.submitted += 1
        return self.message(self.submission_text(members, others), images)

    def broken_submission(self):
        members, others = self.members(), []
        images = [self.image() for _ in range(members["NPage"])]
        pick = self.maker.randrange(9)
        if pick < 5:
            tickets.spoil(self.maker, members)
        if pick == 5:
            images.pop()
        if pick == 6:
            place = self.maker.randrange(len(images))
            images[place] = self.large_image(members.get("Media", "Letter"), members.get("Resolution", 300))
        if pick == 7 or self.chance(0.2):
            others = [("Priority", self.pick(BAD_WHOLES + NO_WHOLES))]
        text = self.submission_text(members, others)
        if pick == 8:
            text = self.text_of("SubmitQueueEntry", self.spoilt([("Ticket", self.pick(OTHER_KINDS)), *others]))
        return self.message(text, images)

    # Images

    def image(self):
        """A P4 file of few dots. Rows are like the one above, white, of one byte, or any. Each session has few different ones."""
        known = [content for name, content in self.files.items() if name[0] == "i" and is_small_image(content)]
        if len(known) >= 6 and self.chance(0.9):
            return self.pick(known)
        width, height = self.maker.randint(1, 70), self.maker.randint(1, 12)
        rows = tickets.rows(self.maker, width, height)
        header = self.maker.choices([b"P4\n%d %d\n", b"P4#\r%d# 9 9\n %d\t", b"P4 0%d\n\n#\n#\n00%d "], [8, 1, 1])[0] % (width, height)
        return header + rows + (b"more" if self.chance(0.1) else b"")

    def large_image(self, media, resolution):
        """As wide or as tall as the logical page, or a dot more, or both."""
        size = SIZES.get(media, SIZES["Letter"]).at(resolution)
        width = size.width - 2 * size.portrait_offset + self.pick([0, 1, 1])
        height = size.height + self.pick([0, 1, 1])
        width, height = self.pick([(width, 1), (width, 1), (1, height), (1, height), (width, height)])
        return b"P4\n%d %d\n" % (width, height) + bytes((width + 7) // 8 * height)


class Flight:
    """A guess at which entries run, as if no job ended: it only makes it likely that a message fits."""

    MESSAGES = {"SuspendQueueEntry": job_queue.RUNNING, "ResumeQueueEntry": job_queue.SUSPENDED, "AbortQueueEntry": job_queue.RUNNING,
                "SetQueueEntryPosition": job_queue.WAITING}

    def __init__(self, engines):
        self.queue = job_queue.Queue()
        self.engines = [None] * max(1, min(engines, 4))

    def submit(self):
        self.queue.submit(50)

    def turn(self, maker):
        """The engine that it names, most of the time one without an entry."""
        idle = [number for number, entry in enumerate(self.engines) if entry is None or entry.status != job_queue.RUNNING]
        engine = maker.choice(idle) if idle and maker.random() < 0.7 else maker.randrange(len(self.engines))
        if engine in idle:
            self.engines[engine] = self.queue.begin()
        return engine

    def message(self, maker, kind):
        """The number of the entry that it names, most of the time one of the status that it takes."""
        some = [entry.number for entry in self.queue.entries if entry.status == self.MESSAGES[kind]]
        number = maker.choice(some) if some and maker.random() < 0.9 else maker.randint(1, ENTRIES_TO_BEGIN)
        calls = {"SuspendQueueEntry": self.queue.suspend, "ResumeQueueEntry": self.queue.resume, "AbortQueueEntry": self.queue.abort,
                 "SetQueueEntryPosition": lambda moved: self.queue.set_position(moved, 0)}
        try:
            calls[kind](number)
        except job_queue.Refused:
            pass
        return number


BROKEN_IMAGES = [b"P5\n1 1\n\xff", b"P4 0 1 ", b"P4 16385 1\n", b"P4\n3 1\n", b"", b"P4\n9 2\n\xff\xff\xff", b"P4\n1 x\n", b"P4#"]


def is_small_image(content):
    return len(content) < 200 and content not in BROKEN_IMAGES
