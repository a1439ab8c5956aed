"""Sessions with a press: each kind of message at each status of an entry and of the queue, refusals, and turns between them."""

import hashlib
import json

from asked.files import TICKET, named
from asked.jobs import nested, ticket
from asked.pages import page


def text_of(value):
    return json.dumps(value, separators=(",", ":"), sort_keys=True)


def message(text, response, *images):
    """A line with a message, and its response."""
    return " ".join(["message", named(text), *images]), response


def ask(kind, code, *images, answer={}, **members):
    """A message of this kind with these members, and what is answered beside the code."""
    text = text_of({"ID": "m", "Type": kind, **members})
    return message(text.encode(), text_of({"ReturnCode": code, "Type": kind, "refID": "m", **answer}), *images)


def submit(number, priority=50, text=TICKET, images=("dot",)):
    """A submission that is taken."""
    answer = {"QueueEntryID": f"Q{number}"}
    return ask("SubmitQueueEntry", 0, *images, answer=answer, Ticket=json.loads(text), Priority=priority)


def refused(code, priority=50):
    """A submission that is not taken."""
    return ask("SubmitQueueEntry", code, "dot", Ticket=json.loads(TICKET), Priority=priority)


def entry(kind, number, code, **members):
    """A message about an entry."""
    removed = kind == "RemoveQueueEntry" and code == 0
    return ask(kind, code, answer={"Status": "Removed"} if removed else {}, QueueEntryID=f"Q{number}", **members)


def queue(status, *entries):
    """What the queue is, and its entries in order: number, status and priority of each."""
    told = [{"Priority": priority, "QueueEntryID": f"Q{number}", "Status": its} for number, its, priority in entries]
    return ask("QueueStatus", 0, answer={"Queue": {"Entries": told, "Status": status}})


def waiting(order, priorities):
    """A queue whose entries all wait."""
    return queue("Waiting", *((number, "Waiting", priorities[number]) for number in order))


def does(status, name="", sheets=0):
    """What an engine does."""
    return {"QueueEntryID": name, "Sheets": sheets, "Status": status}


def device(status, name="", sheets=0):
    """What the device does."""
    return ask("Status", 0, answer={"Device": does(status, name, sheets)})


def engines(*each):
    """What several engines do, from engine 0 on; the first is the device."""
    return ask("Status", 0, answer={"Device": each[0], "Engines": list(each)})


def turn(most, name, steps, engine=None):
    """A turn, of this engine where one is named."""
    return f"turn {most}" + ("" if engine is None else f" {engine}"), f"turn {name} {steps}"


def operator(word):
    return word, "ok"


def session(*exchanges, sheets=(), words="press"):
    """Lines with their answers, and the sheets that are listed at the end."""
    answers = [answer for _, answer in exchanges]
    return words, 0, "".join(f"{line}\n" for line in [*answers, *sheets]), "\n".join(line for line, _ in exchanges).encode()


ALL = 18446744073709551615
SHEET = "Q1 sheet 1 front 2550x3300 black 1"

# What is done with the only entry, its status then, and the sheets that it has printed.
WAYS = [
    ("Waiting", [], []),
    ("Held", [entry("HoldQueueEntry", 1, 0)], []),
    ("Running", [turn(1, "Q1", 1)], []),
    ("Suspended", [turn(1, "Q1", 1), entry("SuspendQueueEntry", 1, 0)], []),
    ("Completed", [turn(ALL, "Q1", 19)], [SHEET]),
    ("Aborted", [entry("AbortQueueEntry", 1, 0)], []),
]

# A message about an entry, and its return code at each of these statuses.
OF_ENTRIES = [
    ("HoldQueueEntry", {}, [0, 22, 22, 22, 22, 22]),
    ("ResumeQueueEntry", {}, [22, 0, 22, 0, 22, 22]),
    ("SuspendQueueEntry", {}, [22, 22, 0, 22, 22, 22]),
    ("AbortQueueEntry", {}, [0, 0, 0, 0, 22, 22]),
    ("RemoveQueueEntry", {}, [0, 0, 22, 22, 0, 0]),
    ("SetQueueEntryPriority", {"Priority": 70}, [0, 0, 22, 22, 22, 22]),
    ("SetQueueEntryPosition", {"Position": 0}, [0, 0, 22, 22, 22, 22]),
]
SESSIONS = [session(submit(1), *way, queue("Running" if status == "Running" else "Waiting", (1, status, 50)),
                    entry(kind, 1, codes[place], **members), sheets=sheets)
            for kind, members, codes in OF_ENTRIES for place, (status, way, sheets) in enumerate(WAYS)]

# The messages that bring a queue without entries to a status, and what a submission then is answered.
OF_QUEUES = [
    ([], "Waiting", 0),
    (["HoldQueue"], "Held", 0),
    (["CloseQueue"], "Closed", 23),
    (["CloseQueue", "HoldQueue"], "Blocked", 23),
    (["CloseQueue", "OpenQueue"], "Waiting", 0),
    (["HoldQueue", "ResumeQueue"], "Waiting", 0),
]
ALWAYS_TAKEN = ["FlushQueue", "HoldQueue", "ResumeQueue", "CloseQueue", "OpenQueue"]
SESSIONS += [session(*(ask(kind, 0) for kind in kinds), queue(status), submit(1) if code == 0 else refused(code), device("Idle"),
                     *(ask(kind, 0) for kind in ALWAYS_TAKEN), queue("Waiting"))
             for kinds, status, code in OF_QUEUES]

# Messages that are refused where two entries wait.
REFUSED = [
    ask("Foo", 5),
    entry("SuspendQueueEntry", 1, 22),
    ask("SuspendQueueEntry", 7),
    ask("SuspendQueueEntry", 6, QueueEntryID=[]),
    entry("SuspendQueueEntry", 3, 21),
    ask("HoldQueueEntry", 7),
    ask("HoldQueueEntry", 6, QueueEntryID=1),
    entry("HoldQueueEntry", 3, 21),
    entry("HoldQueueEntry", "01", 21),
    entry("ResumeQueueEntry", 1, 22),
    entry("SetQueueEntryPriority", 1, 25, Priority=101),
    entry("SetQueueEntryPriority", 1, 25, Priority=-1),
    ask("SetQueueEntryPriority", 7, QueueEntryID=1),
    entry("SetQueueEntryPosition", 1, 26, Position=2),
    entry("SetQueueEntryPosition", 1, 26, Position=-1),
    entry("SetQueueEntryPosition", 1, 6, Position=1.0),
    ask("SubmitQueueEntry", 6, answer={"Fault": 602}, Ticket={}),
]

# Messages of another kind, of another spelling, and of a ticket that is none.
SPELLED = [
    ask("status", 5),
    ask("SubmitQueueEntry", 6, "dot", Ticket=[]),
    ask("SubmitQueueEntry", 6, "dot", Ticket=json.loads(TICKET), Priority=50.0),
    ask("SubmitQueueEntry", 25, "dot", Ticket=json.loads(TICKET), Priority=-1),
    ask("HoldQueueEntry", 21, QueueEntryID="q1"),
    ask("HoldQueueEntry", 21, QueueEntryID="1"),
    ask("HoldQueueEntry", 21, QueueEntryID=""),
    ask("HoldQueueEntry", 21, QueueEntryID="Q"),
    ask("HoldQueueEntry", 21, QueueEntryID="Qx"),
    ask("HoldQueueEntry", 21, QueueEntryID="Q\u0661"),
    entry("SetQueueEntryPriority", 3, 21, Priority=101),
    entry("SetQueueEntryPosition", 3, 21, Position=9),
]

# Messages that lack a parameter, or have one of another kind.
OTHERS = {"SetQueueEntryPriority": {"Priority": 50}, "SetQueueEntryPosition": {"Position": 0}}
LACKING = [ask(kind, 7, **OTHERS.get(kind, {})) for kind, _, _ in OF_ENTRIES] + [ask(kind, 6, QueueEntryID=1, **OTHERS.get(kind, {})) for kind, _, _ in OF_ENTRIES]
LACKING += [ask("SetQueueEntryPosition", 7, QueueEntryID="Q1"), ask("SubmitQueueEntry", 7), entry("SetQueueEntryPriority", 1, 6, Priority="50")]

# Texts that are no message, and messages without ID or type.
FAULTY = [
    # what an ID is answered as
    message(b'{"ID":"a\\"\\\\\\/\\u00e9\\n\\u0001\\ud83d\\ude00","Type":"HoldQueue"}', '{"ReturnCode":0,"Type":"HoldQueue","refID":"a\\"\\\\/\u00e9\\n\\u0001\U0001f600"}'),
    message(b'{"ID":1}', '{"ReturnCode":6,"Type":"","refID":""}'),
    message(b'{"ID":1,"Type":"Status"}', '{"ReturnCode":6,"Type":"Status","refID":""}'),
    message(b"{", '{"ReturnCode":6,"Type":"","refID":""}'),
    message(b"[]", '{"ReturnCode":6,"Type":"","refID":""}'),
    message(b'{"Type":"Status"}', '{"ReturnCode":7,"Type":"Status","refID":""}'),
    message(b'{"ID":1,"Type":2}', '{"ReturnCode":6,"Type":"","refID":""}'),
    message(b'{"ID":"m"}', '{"ReturnCode":7,"Type":"","refID":"m"}'),
    message(b'{"ID":"m","Type":null}', '{"ReturnCode":6,"Type":"","refID":"m"}'),
]

# Texts of 127 and of 128 levels: an object with so many arrays in one another, alone, beside what a message needs, and in a ticket.
DEEP = [
    message(nested(126), '{"ReturnCode":7,"Type":"","refID":""}'),
    message(nested(127), '{"ReturnCode":6,"Type":"","refID":""}'),
    message(b'{"ID":"m","Type":"HoldQueue",' + nested(126)[1:], '{"ReturnCode":0,"Type":"HoldQueue","refID":"m"}'),
    message(b'{"ID":"m","Type":"ResumeQueue",' + nested(127)[1:], '{"ReturnCode":6,"Type":"","refID":""}'),
    queue("Held"),
    message(b'{"ID":"m","Type":"SubmitQueueEntry","Ticket":' + nested(125) + b"}",
            '{"Fault":602,"ReturnCode":6,"Type":"SubmitQueueEntry","refID":"m"}'),
    message(b'{"ID":"m","Type":"SubmitQueueEntry","Ticket":' + nested(126) + b"}", '{"ReturnCode":6,"Type":"","refID":""}'),
]

SIX = {1: 50, 2: 60, 3: 50, 4: 0, 5: 100, 6: 60}
FULL = [(number, "Waiting", 50) for number in range(1, 65)]

SESSIONS += [
    session(submit(1), submit(2), *REFUSED),
    session(submit(1), submit(2), *SPELLED),
    session(submit(1), *LACKING, queue("Waiting", (1, "Waiting", 50))),
    # a priority of which nothing is said
    session(ask("SubmitQueueEntry", 0, "dot", answer={"QueueEntryID": "Q1"}, Ticket=json.loads(TICKET)), queue("Waiting", (1, "Waiting", 50))),
    # the ticket and its images are judged before the queue is asked, and the status of an entry before what it is given
    session(ask("CloseQueue", 0), ask("SubmitQueueEntry", 6, answer={"Fault": 602}, Ticket={}),
            ask("SubmitQueueEntry", 6, answer={"Fault": 611}, Ticket=json.loads(TICKET))),
    session(submit(1), turn(1, "Q1", 1), entry("SetQueueEntryPriority", 1, 22, Priority=101), entry("SetQueueEntryPosition", 1, 22, Position=9)),
    # a full queue is held, or closed, before it is full
    session(*(submit(number) for number in range(1, 65)), ask("HoldQueue", 0), queue("Held", *((number, "Waiting", 50) for number in range(1, 65))),
            ask("ResumeQueue", 0), ask("CloseQueue", 0), queue("Closed", *((number, "Waiting", 50) for number in range(1, 65)))),
    # a closed queue begins what waits; a turn of no steps begins nothing
    session(submit(1), turn(0, "-", 0), queue("Waiting", (1, "Waiting", 50)), ask("CloseQueue", 0), turn(1, "Q1", 1)),
    # an entry is put before the first of lower priority, wherever that stands, and behind its equals when its own priority is set again
    session(submit(1), submit(2), submit(3, 40), entry("SetQueueEntryPosition", 3, 0, Position=0), submit(4),
            queue("Waiting", (4, "Waiting", 50), (3, "Waiting", 40), (1, "Waiting", 50), (2, "Waiting", 50))),
    session(submit(1), submit(2), entry("SetQueueEntryPriority", 1, 0, Priority=50), queue("Waiting", (2, "Waiting", 50), (1, "Waiting", 50))),
    # the first of the list begins, though another has begun before; a resumed entry tells the sheets that it has delivered
    session(submit(1), turn(15, "Q1", 15), entry("SuspendQueueEntry", 1, 0), submit(2, 60), entry("ResumeQueueEntry", 1, 0), turn(1, "Q2", 1),
            operator("abort"), turn(1, "Q1", 1), device("Running", "Q1", 1), sheets=[SHEET]),
    # the least and the greatest priority are set
    session(submit(1), submit(2), entry("SetQueueEntryPriority", 1, 0, Priority=0), entry("SetQueueEntryPriority", 2, 0, Priority=100),
            queue("Waiting", (2, "Waiting", 100), (1, "Waiting", 0))),
    # three entries of one priority stand in their order
    session(submit(1), submit(2), submit(3), submit(4, 60), queue("Waiting", (4, "Waiting", 60), *((number, "Waiting", 50) for number in (1, 2, 3)))),
    # a pause holds when it is asked for again; an operator leaves what is suspended
    session(submit(1), operator("pause"), operator("pause"), turn(1, "-", 0), operator("continue"), turn(1, "Q1", 1)),
    session(submit(1), turn(1, "Q1", 1), entry("SuspendQueueEntry", 1, 0), operator("abort"), queue("Waiting", (1, "Suspended", 50))),
    # an entry that is completed is not in flight
    session(*(step for number in range(1, 7) for step in (submit(number), turn(1, f"Q{number}", 1), entry("SuspendQueueEntry", number, 0))),
            submit(7), turn(ALL, "Q7", 19), submit(8), turn(1, "Q8", 1), entry("SuspendQueueEntry", 8, 0),
            sheets=[SHEET.replace("Q1", "Q7")]),
    session(*FAULTY),
    session(*DEEP),
    # submissions are refused in order: closed, full, priority
    session(*(submit(number) for number in range(1, 64)), refused(25, 101), ask("CloseQueue", 0), refused(23, 101),
            ask("OpenQueue", 0), submit(64), refused(24, 101), ask("CloseQueue", 0), refused(23, 101)),
    # a full queue is told so, until an entry leaves it
    session(*(submit(number) for number, _, _ in FULL), queue("Full", *FULL), device("Idle"), ask("HoldQueue", 0),
            ask("ResumeQueue", 0), refused(24), entry("HoldQueueEntry", 1, 0), entry("RemoveQueueEntry", 1, 0), submit(65)),
    # an entry that has ended counts until it leaves
    session(*(submit(number) for number, _, _ in FULL), entry("AbortQueueEntry", 1, 0),
            queue("Full", (1, "Aborted", 50), *FULL[1:]), refused(24), entry("RemoveQueueEntry", 1, 0), submit(65)),
    # entries stand by their priorities, and are moved
    session(*(submit(number, priority) for number, priority in SIX.items()), waiting([5, 2, 6, 1, 3, 4], SIX),
            entry("SetQueueEntryPriority", 5, 0, Priority=50), waiting([2, 6, 1, 3, 5, 4], SIX | {5: 50}),
            entry("SetQueueEntryPriority", 4, 0, Priority=60), waiting([2, 6, 4, 1, 3, 5], SIX | {5: 50, 4: 60}),
            entry("SetQueueEntryPosition", 3, 0, Position=0), waiting([3, 2, 6, 4, 1, 5], SIX | {5: 50, 4: 60}),
            entry("SetQueueEntryPosition", 2, 0, Position=5), waiting([3, 6, 4, 1, 5, 2], SIX | {5: 50, 4: 60})),
    # a new entry stands before one of lower priority, although that has ended
    session(submit(1), turn(ALL, "Q1", 19), submit(2, 40), entry("AbortQueueEntry", 2, 0), submit(3, 30), submit(4, 60), submit(5),
            queue("Waiting", (4, "Waiting", 60), (1, "Completed", 50), (5, "Waiting", 50), (2, "Aborted", 40), (3, "Waiting", 30)),
            entry("SetQueueEntryPosition", 3, 26, Position=5), entry("SetQueueEntryPosition", 4, 0, Position=4),
            queue("Waiting", (1, "Completed", 50), (5, "Waiting", 50), (2, "Aborted", 40), (3, "Waiting", 30), (4, "Waiting", 60)),
            sheets=[SHEET]),
    # the first that waits begins, and stays where it stands
    session(submit(1), submit(2), submit(3), entry("HoldQueueEntry", 1, 0), turn(1, "Q2", 1),
            queue("Running", (1, "Held", 50), (2, "Running", 50), (3, "Waiting", 50)), ask("FlushQueue", 0),
            queue("Running", (2, "Running", 50)), operator("abort"), turn(1, "-", 0), queue("Waiting", (2, "Aborted", 50))),
    # the status of the queue is the first that holds: blocked, closed, held, full, running
    session(submit(1), turn(1, "Q1", 1), queue("Running", (1, "Running", 50)),
            ask("HoldQueue", 0), queue("Held", (1, "Running", 50)), ask("CloseQueue", 0), queue("Blocked", (1, "Running", 50)),
            ask("ResumeQueue", 0), queue("Closed", (1, "Running", 50)), ask("OpenQueue", 0),
            queue("Running", (1, "Running", 50)), *(submit(number) for number in range(2, 65)),
            queue("Full", (1, "Running", 50), *FULL[1:])),
    # a held queue begins no entry, and goes on with one
    session(submit(1), ask("HoldQueue", 0), turn(1, "-", 0), ask("ResumeQueue", 0), turn(1, "Q1", 1), ask("HoldQueue", 0),
            turn(2, "Q1", 2), device("Running", "Q1")),
    # a suspended entry stays at its place; resumed it waits, and a flush takes it though it has begun; numbers go on
    session(submit(1), submit(2), turn(1, "Q1", 1), entry("SuspendQueueEntry", 1, 0), queue("Waiting", (1, "Suspended", 50), (2, "Waiting", 50)),
            entry("ResumeQueueEntry", 1, 0), queue("Waiting", (1, "Waiting", 50), (2, "Waiting", 50)), ask("FlushQueue", 0), queue("Waiting"), submit(3)),
    # a held entry stays held where its priority or its position is set; a position counts entries that have ended
    session(submit(1), submit(2), submit(3), entry("HoldQueueEntry", 3, 0), entry("SetQueueEntryPriority", 3, 0, Priority=70),
            queue("Waiting", (3, "Held", 70), (1, "Waiting", 50), (2, "Waiting", 50)), entry("SetQueueEntryPosition", 3, 0, Position=1),
            queue("Waiting", (1, "Waiting", 50), (3, "Held", 70), (2, "Waiting", 50)), entry("AbortQueueEntry", 1, 0),
            entry("SetQueueEntryPosition", 2, 0, Position=1), queue("Waiting", (1, "Aborted", 50), (2, "Waiting", 50), (3, "Held", 70))),
    # what is suspended goes on where it stood, behind what ran meanwhile; a flush takes it off the list
    session(submit(1), turn(14, "Q1", 14), entry("SuspendQueueEntry", 1, 0), entry("SuspendQueueEntry", 1, 22), turn(1, "-", 0),
            device("Idle"), submit(2), turn(ALL, "Q2", 19), entry("ResumeQueueEntry", 1, 0), turn(1, "Q1", 1),
            device("Running", "Q1", 1), entry("SuspendQueueEntry", 1, 0), ask("HoldQueue", 0), entry("ResumeQueueEntry", 1, 0), turn(1, "-", 0),
            ask("ResumeQueue", 0), turn(ALL, "Q1", 4), submit(3), turn(1, "Q3", 1), entry("SuspendQueueEntry", 3, 0), ask("FlushQueue", 0),
            queue("Waiting"), sheets=["Q2 sheet 1 front 2550x3300 black 1", SHEET]),
    # seven are suspended; the eighth, which runs, is not, until one of them ends
    session(*(step for number in range(1, 8)
              for step in (submit(number), turn(1, f"Q{number}", 1), entry("SuspendQueueEntry", number, 0))),
            submit(8), turn(1, "Q8", 1), entry("SuspendQueueEntry", 8, 27), entry("SuspendQueueEntry", 7, 22),
            queue("Running", *((number, "Suspended", 50) for number in range(1, 8)), (8, "Running", 50)),
            entry("AbortQueueEntry", 3, 0), entry("SuspendQueueEntry", 8, 0)),
    # a paused device is stopped, and what runs is aborted at once
    session(submit(1), turn(15, "Q1", 15), operator("pause"), device("Stopped", "Q1", 1), turn(1, "-", 0), operator("abort"),
            device("Stopped"), operator("continue"), device("Idle"), queue("Waiting", (1, "Aborted", 50)), sheets=[SHEET]),
    # the entry of higher priority is printed first, and the one that is aborted behind its first sheet prints no more
    session(submit(1), turn(14, "Q1", 14), submit(2, 51, ticket(NPage="2", Sides=""), ["bar", "dot"]), turn(1, "Q1", 1), turn(9, "Q1", 4),
            submit(3), turn(15, "Q2", 15), operator("abort"), turn(9, "Q3", 9), turn(100, "Q3", 10), turn(1, "-", 0),
            sheets=[SHEET, "Q2 sheet 1 front 2550x3300 black 3", "Q3 sheet 1 front 2550x3300 black 1"]),
]

def listed(number, sheets):
    """The lines of the sheets of an entry, each a front and perhaps a back with so many black dots."""
    return [[f"Q{number} sheet {place} {side} 2550x3300 black {black}" for side, black in zip(["front", "back"], sides)]
            for place, sides in enumerate(sheets, 1)]


# Two tickets of images with 1, 16 and 3 black dots: pages on one side each, and two sheets with backs. How many steps each takes,
# behind how many of them its sheets come (behind the form feed of their last side), and their black dots.
IMAGES = ("dot", "lines", "bar")
SIDE_BY_SIDE = [
    (ticket(Sides=""), 38, [15, 26, 34], [(1,), (16,), (3,)]),
    (ticket(RunList="[[-1,0],[1,1]]"), 43, [24, 40], [(3, 16), (1, 16)]),
]


def by_turns(most):
    """Both entries on two engines that take turns of so many steps, until both are completed: each has the sheets of `SIDE_BY_SIDE`,
    which it has alone."""
    exchanges = [submit(number, text=text, images=IMAGES) for number, (text, _, _, _) in enumerate(SIDE_BY_SIDE, 1)]
    sheets = []
    for before in range(0, max(steps for _, steps, _, _ in SIDE_BY_SIDE), most):
        for engine, (_, steps, behind, dots) in enumerate(SIDE_BY_SIDE):
            if before < steps:
                after = min(before + most, steps)
                exchanges.append(turn(most, f"Q{engine + 1}", after - before, engine))
                sheets += [line for place, lines in zip(behind, listed(engine + 1, dots)) if before < place <= after for line in lines]
    return exchanges, sheets


def side_by_side(most):
    """The session of these turns; while both run, the queue says so."""
    exchanges, sheets = by_turns(most)
    running = queue("Running", (1, "Running", 50), (2, "Running", 50))
    done = queue("Waiting", (1, "Completed", 50), (2, "Completed", 50))
    return session(*exchanges[:4], running, *exchanges[4:], done, sheets=sheets, words="press --engines 2")


def alone(number):
    """One of these entries with one engine."""
    text, steps, _, dots = SIDE_BY_SIDE[number]
    return session(submit(1, text=text, images=IMAGES), turn(ALL, "Q1", steps), sheets=[line for lines in listed(1, dots) for line in lines])


# A ticket of two pages on both sides of a sheet, which comes behind so many of its steps.
PAIR, PAIR_STEPS, PAIR_BEHIND = ticket(NPage="2"), 27, 24


def with_a_break(before):
    """The entry of that ticket takes so many steps and is suspended, once; another runs whole, and it goes on to its end."""
    pair, page = [line for sheet in listed(1, [(1, 16)]) for line in sheet], ["Q2 sheet 1 front 2550x3300 black 3"]
    return session(submit(1, text=PAIR, images=IMAGES[:2]), turn(before, "Q1", before), entry("SuspendQueueEntry", 1, 0),
                   entry("SuspendQueueEntry", 1, 22), submit(2, images=("bar",)), turn(ALL, "Q2", 19), turn(ALL, "-", 0),
                   entry("ResumeQueueEntry", 1, 0), turn(ALL, "Q1", PAIR_STEPS - before),
                   sheets=pair + page if before >= PAIR_BEHIND else page + pair)


ALONE = does("Idle")
BOTH = [SHEET, SHEET.replace("Q1", "Q2")]
TWO, FOUR = "press --engines 2", "press --engines 4"
SESSIONS += [
    # two engines run an entry each, and the operator aborts both
    session(submit(1), submit(2), submit(3), engines(ALONE, ALONE), turn(1, "Q1", 1, 0), engines(does("Running", "Q1"), ALONE),
            turn(15, "Q2", 15, 1), queue("Running", (1, "Running", 50), (2, "Running", 50), (3, "Waiting", 50)),
            engines(does("Running", "Q1"), does("Running", "Q2", 1)), turn(1, "Q2", 1, 1), turn(1, "Q1", 1), operator("abort"),
            queue("Waiting", (1, "Aborted", 50), (2, "Aborted", 50), (3, "Waiting", 50)), engines(ALONE, ALONE),
            turn(ALL, "Q3", 19, 1), turn(1, "-", 0, 0), sheets=[SHEET.replace("Q1", "Q2"), SHEET.replace("Q1", "Q3")], words=TWO),
    # a pause stops both, and what runs can be aborted then; a held queue begins nothing on either
    session(submit(1), submit(2), turn(15, "Q1", 15, 1), operator("pause"), turn(1, "-", 0, 0), turn(1, "-", 0, 1),
            engines(does("Stopped"), does("Stopped", "Q1", 1)), operator("abort"), engines(does("Stopped"), does("Stopped")),
            operator("continue"), ask("HoldQueue", 0), turn(1, "-", 0, 0), turn(1, "-", 0, 1), ask("ResumeQueue", 0), turn(1, "Q2", 1, 1),
            ask("HoldQueue", 0), turn(1, "-", 0, 0), turn(ALL, "Q2", 18, 1), sheets=BOTH, words=TWO),
    # what was suspended on one engine goes on with another, with its next step
    session(submit(1), turn(14, "Q1", 14, 0), entry("SuspendQueueEntry", 1, 0), submit(2), turn(1, "Q2", 1, 0), entry("ResumeQueueEntry", 1, 0),
            engines(does("Running", "Q2"), ALONE, ALONE, ALONE), turn(2, "Q1", 2, 3),
            engines(does("Running", "Q2"), ALONE, ALONE, does("Running", "Q1", 1)), turn(ALL, "Q1", 3, 3), turn(ALL, "-", 0, 3),
            turn(ALL, "Q2", 18), sheets=BOTH, words=FOUR),
    # a message takes an entry off its engine, which takes the next; a flush leaves what runs
    session(submit(1), submit(2), turn(1, "Q1", 1, 1), turn(1, "Q2", 1, 0), ask("FlushQueue", 0), submit(3), entry("AbortQueueEntry", 2, 0),
            turn(1, "Q3", 1, 0), entry("SuspendQueueEntry", 1, 0), turn(1, "-", 0, 1), engines(does("Running", "Q3"), ALONE),
            entry("AbortQueueEntry", 3, 0), entry("ResumeQueueEntry", 1, 0), turn(ALL, "Q1", 18, 0), sheets=[SHEET], words=TWO),
    # with eight in flight a free engine takes none that has not begun, and one that is resumed
    session(*(step for number in range(1, 8)
              for step in (submit(number), turn(1, f"Q{number}", 1), entry("SuspendQueueEntry", number, 0))),
            submit(8), turn(1, "Q8", 1), submit(9, 60), turn(1, "-", 0, 1), entry("ResumeQueueEntry", 3, 0), turn(1, "Q3", 1, 1),
            entry("SuspendQueueEntry", 3, 27), entry("SuspendQueueEntry", 8, 27),
            queue("Running", (9, "Waiting", 60), *((number, "Running" if number in (3, 8) else "Suspended", 50) for number in range(1, 9))),
            entry("AbortQueueEntry", 8, 0), turn(1, "Q9", 1, 0), words=TWO),
    # each entry has the sheets that it has alone, whichever number of steps a turn takes
    *map(alone, range(2)),
    *map(side_by_side, range(1, 21)),
    # a suspended entry goes on where it stood, wherever that is
    *map(with_a_break, range(1, PAIR_STEPS)),
]

# Changes of a ticket of three pages on both sides, how many commands its job has (11 around the sheets; 6, 9 and 6 for the pages; 1
# for a sheet, and 1 more where it has no back), and the black dots of each side that it prints with images of 1, 16 and 3 of them.
SETS = [
    ({"Sides": ""}, 38, [(1,), (16,), (3,)]),
    ({"Amount": "2"}, 59, [(1, 16), (3,), (1, 16), (3,)]),
    ({"Amount": "2", "Collate": "false"}, 35, [(1, 16), (1, 16), (3,), (3,)]),
    ({"Amount": "2", "RunList": "[[-1,-1]]"}, 19, [(3,), (3,)]),
    ({"RunList": "[[-1,0],[1,1]]", "Sides": '"TwoSidedHeadToFoot"'}, 43, [(3, 16), (1, 16)]),
    ({"Amount": "2", "Collate": "false", "Sides": ""}, 38, [(1,), (1,), (16,), (16,), (3,), (3,)]),
]
SESSIONS += [session(submit(1, text=ticket(**changes), images=("dot", "lines", "bar")), turn(ALL, "Q1", commands),
                     sheets=[f"Q1 sheet {number} {side} 2550x3300 black {black}" for number, sides in enumerate(sheets, 1)
                             for side, black in zip(["front", "back"], sides)])
             for changes, commands, sheets in SETS]

# ---- files of sides, digests, and lines that are wrong


def told_with(pages, exchange):
    """An exchange whose answer has lines of files in front of it."""
    line, answer = exchange
    return line, "\n".join([*(f"sheet {page}" for page in pages), answer])


LINES = [(75, 2, 8, 2)]  # where the dots of that image lie on its page


def digest(*marks):
    """The end of a line of the listing with sums: the SHA-256 of the P4 file of a page with these marks."""
    return f" sha256 {hashlib.sha256(page(list(marks))).hexdigest()}"


MADE = "press --out made-%q-%d"
WRONG = [(f"message {name}", "fault 304") for name in ("no/such", "/")]
WRONG += [(" ".join(["message", named(text_of({"ID": "m", "Type": "SubmitQueueEntry", "Ticket": json.loads(TICKET)}).encode()), image]), f"fault {number}")
          for image, number in (("no-image", 111), ("no-size", 112), ("cut", 113), ("no/such", 304))]
SESSIONS += [
    session(submit(1), told_with(["Q1 1 front made-Q1-1"], turn(ALL, "Q1", 19)), sheets=[SHEET], words=MADE),
    session(submit(1), turn(14, "Q1", 14), told_with(["Q1 1 front made-Q1-1"], turn(1, "Q1", 1)), turn(1, "Q1", 1), sheets=[SHEET], words=MADE),
    # sides are numbered among those of their entry, sheets too
    session(submit(1, text=PAIR, images=IMAGES[:2]), submit(2), submit(3, text=ticket(Sides="", NPage="2"), images=IMAGES[:2]),
            told_with(["Q1 1 front 1Q1", "Q1 1 back 2Q1"], turn(ALL, "Q1", PAIR_STEPS)),
            told_with(["Q2 1 front 1Q2"], turn(ALL, "Q2", 19)),
            told_with(["Q3 1 front 1Q3", "Q3 2 front 2Q3"], turn(ALL, "Q3", 30)),
            sheets=[line for number, dots in ((1, [(1, 16)]), (2, [(1,)]), (3, [(1,), (16,)])) for lines in listed(number, dots) for line in lines],
            words="press --out %d%q"),
    session(submit(1), turn(ALL, "Q1", 19), sheets=[SHEET + digest((75, 0, 1, 1))], words="press --sums"),
    session(submit(1, text=PAIR, images=IMAGES[:2]), told_with(["Q1 1 front made-Q1-1", "Q1 1 back made-Q1-2"], turn(ALL, "Q1", PAIR_STEPS)),
            sheets=[line + end for line, end in zip(listed(1, [(1, 16)])[0], (digest((75, 0, 1, 1)), digest(*LINES)))], words=f"{MADE} --sums"),
    # a line that is wrong changes nothing
    session(submit(1), *WRONG, ("turn 1 1", "fault 702"), device("Idle"), turn(1, "Q1", 1), *WRONG, turn(ALL, "Q1", 18), sheets=[SHEET], words="press --keep-going"),
]

ROWS = SESSIONS
