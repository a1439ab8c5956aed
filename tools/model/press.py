"""The press: messages with their responses, turns, and operators. One event comes after another."""

import json

from . import json_text, runs, ticket, writer
from .engine import Deliver
from .job_queue import ABORTED, COMPLETED, RUNNING, Queue, Refused

OK, UNKNOWN_TYPE, BAD_MESSAGE, MISSING = 0, 5, 6, 7
SINK_FAULT = 301
BAD_ENGINES, NO_ENGINE = 701, 702
MOST_ENGINES = 4
DEFAULT_PRIORITY = 50

# The parameters of each type, in their order; those after the bar may be absent.
ENTRY = ["QueueEntryID"]
PARAMETERS = {
    "SubmitQueueEntry": ["Ticket", "|", "Priority"],
    "HoldQueueEntry": ENTRY,
    "SuspendQueueEntry": ENTRY,
    "ResumeQueueEntry": ENTRY,
    "AbortQueueEntry": ENTRY,
    "RemoveQueueEntry": ENTRY,
    "SetQueueEntryPriority": ENTRY + ["Priority"],
    "SetQueueEntryPosition": ENTRY + ["Position"],
    "HoldQueue": [],
    "ResumeQueue": [],
    "OpenQueue": [],
    "CloseQueue": [],
    "FlushQueue": [],
    "QueueStatus": [],
    "Status": [],
}
ADMITTED = {
    "QueueEntryID": json_text.is_text,
    "Priority": json_text.is_whole,
    "Position": json_text.is_whole,
    "Ticket": lambda value: isinstance(value, dict),
}


class SinkFault(Exception):
    number = SINK_FAULT


class BadEngines(Exception):
    number = BAD_ENGINES


class NoEngine(Exception):
    number = NO_ENGINE


class Sink:
    """Keeps what is delivered, with the entry's number; fails the deliveries of the given numbers, from 0."""

    def __init__(self, failing=()):
        self.delivered = []
        self.calls = 0
        self.failing = set(failing)

    def deliver(self, number, sheet):
        call = self.calls
        self.calls += 1
        if call in self.failing:
            raise SinkFault()
        self.delivered.append((number, sheet))

    def sheets_of(self, number):
        return [sheet for entry, sheet in self.delivered if entry == number]


class Context:
    """What the press knows of an entry in the list."""

    def __init__(self, members, read_ticket, images):
        self.members = members  # of the ticket as the message had it
        self.ticket = read_ticket
        self.images = images
        self.delivered = 0
        self.items = None  # of the trace of its job, once begun
        self.place = 0

    def begin(self, job_of):
        if self.items is None:
            self.items = runs.trace(job_of(self), viewed=False)


def plain_job(context):
    return writer.job_of(context.ticket, context.images)


class Answer(Exception):
    """A response before anything is done."""

    def __init__(self, code, kind, message_id, fault=None):
        super().__init__(code)
        self.fields = {"ReturnCode": code, "Type": kind, "refID": message_id}
        if fault is not None:
            self.fields["Fault"] = fault


def entry_name(number):
    return "Q%d" % number


def entry_number(name):
    """The number that a name spells, or None."""
    digits = name[1:]
    if name.startswith("Q") and digits.isascii() and digits.isdigit() and digits[0] != "0":
        return int(digits)
    return None


def compact(fields):
    """Compact JSON with the keys in byte order."""
    return json.dumps(fields, sort_keys=True, separators=(",", ":"), ensure_ascii=False).encode()


def read_message(text):
    """ID, type and the object of a message, or the answer to a faulty one."""
    try:
        message = json_text.read(text)
    except json_text.NotJson:
        message = None
    if not isinstance(message, dict):
        raise Answer(BAD_MESSAGE, "", "")
    kind = message.get("Type")
    shown_kind = kind if json_text.is_text(kind) else ""
    if "ID" not in message:
        raise Answer(MISSING, shown_kind, "")
    message_id = message["ID"]
    if not json_text.is_text(message_id):
        raise Answer(BAD_MESSAGE, shown_kind, "")
    if "Type" not in message:
        raise Answer(MISSING, "", message_id)
    if not json_text.is_text(kind):
        raise Answer(BAD_MESSAGE, "", message_id)
    if kind not in PARAMETERS:
        raise Answer(UNKNOWN_TYPE, kind, message_id)
    check_parameters(message, kind, message_id)
    return message_id, kind, message


def check_parameters(message, kind, message_id):
    names = PARAMETERS[kind]
    required = names[:names.index("|")] if "|" in names else names
    if any(name not in message for name in required):
        raise Answer(MISSING, kind, message_id)
    for name in names:
        if name in message and not ADMITTED[name](message[name]):
            raise Answer(BAD_MESSAGE, kind, message_id)


class Press:
    """The job of an entry may be any that prints its ticket: how many steps it has depends on it."""

    def __init__(self, job_of=plain_job, engines=1):
        if not 1 <= engines <= MOST_ENGINES:
            raise BadEngines()
        self.engines = [None] * engines  # the number of the entry that each runs
        self.queue = Queue()
        self.paused = False
        self.contexts = {}
        self.job_of = job_of

    def message(self, text, images=()):
        try:
            message_id, kind, message = read_message(text)
            try:
                added = self.do(kind, message, list(images))
            except Refused as refused:
                raise Answer(refused.code, kind, message_id) from None
            except ticket.Refused as refused:
                raise Answer(BAD_MESSAGE, kind, message_id, refused.number) from None
        except Answer as answer:
            return compact(answer.fields)
        self.free_engines()
        return compact({"ReturnCode": OK, "Type": kind, "refID": message_id, **added})

    def do(self, kind, message, images):
        """Does what a message asks for; gives what the response adds."""
        if kind == "SubmitQueueEntry":
            return self.submit(message, images)
        if kind == "QueueStatus":
            return {"Queue": self.queue_status()}
        if kind == "Status":
            return self.statuses()
        if kind in ("HoldQueue", "ResumeQueue"):
            self.queue.held = kind == "HoldQueue"
            return {}
        if kind in ("OpenQueue", "CloseQueue"):
            self.queue.closed = kind == "CloseQueue"
            return {}
        if kind == "FlushQueue":
            self.queue.flush()
            self.forget_gone()
            return {}
        return self.do_to_entry(kind, message)

    def submit(self, message, images):
        read = ticket.ticket_of(message["Ticket"])
        ticket.check(read, images)
        number = self.queue.submit(message.get("Priority", DEFAULT_PRIORITY))
        self.contexts[number] = Context(message["Ticket"], read, images)
        return {"QueueEntryID": entry_name(number)}

    def do_to_entry(self, kind, message):
        number = entry_number(message["QueueEntryID"])
        if kind == "SetQueueEntryPriority":
            self.queue.set_priority(number, message["Priority"])
        elif kind == "SetQueueEntryPosition":
            self.queue.set_position(number, message["Position"])
        elif kind == "RemoveQueueEntry":
            self.queue.remove(number)
            self.forget_gone()
            return {"Status": "Removed"}
        else:
            calls = {"HoldQueueEntry": self.queue.hold, "ResumeQueueEntry": self.queue.resume,
                     "SuspendQueueEntry": self.queue.suspend, "AbortQueueEntry": self.queue.abort}
            calls[kind](number)
        return {}

    def forget_gone(self):
        numbers = {entry.number for entry in self.queue.entries}
        self.contexts = {number: context for number, context in self.contexts.items()
                         if number in numbers}

    def queue_status(self):
        entries = [{"Priority": entry.priority, "QueueEntryID": entry_name(entry.number),
                    "Status": entry.status} for entry in self.queue.entries]
        return {"Entries": entries, "Status": self.queue.status()}

    def statuses(self):
        every = [self.status(engine) for engine in range(len(self.engines))]
        return {"Device": every[0]} | ({"Engines": every} if len(every) > 1 else {})

    def status(self, engine=0):
        number = self.engines[engine]
        status = "Stopped" if self.paused else "Idle" if number is None else "Running"
        if number is None:
            return {"QueueEntryID": "", "Sheets": 0, "Status": status}
        return {"QueueEntryID": entry_name(number), "Sheets": self.contexts[number].delivered, "Status": status}

    def free_engines(self):
        """An engine whose entry no longer runs has none; when the entry runs again, it may be on another engine."""
        running = [entry.number for entry in self.queue.entries if entry.status == RUNNING]
        self.engines = [number if number in running else None for number in self.engines]

    def delivered(self, number):
        context = self.contexts.get(number)
        return None if context is None else context.delivered

    def turn(self, most, sink):
        return self.turn_on(0, most, sink)

    def turn_on(self, engine, most, sink):
        """The entry's number (or None) and the steps taken; a fault of the sink goes on to the caller."""
        if engine >= len(self.engines):
            raise NoEngine()
        if most == 0 or self.paused:
            return None, 0
        entry = self.entry_of(engine) or self.queue.begin()
        if entry is None:
            return None, 0
        self.engines[engine] = entry.number
        context = self.contexts[entry.number]
        context.begin(self.job_of)
        steps = min(most, len(context.items) - context.place)
        for item in context.items[context.place:context.place + steps]:
            self.hand_out(entry, context, item, sink)
        context.place += steps
        if context.place == len(context.items):
            self.finish(entry, COMPLETED)
        return entry.number, steps

    def entry_of(self, engine):
        """The entry that an engine runs, or None."""
        return next((entry for entry in self.queue.entries if entry.number == self.engines[engine]), None)

    def finish(self, entry, status):
        self.queue.finish(entry, status)
        self.free_engines()

    def hand_out(self, entry, context, item, sink):
        for output in item.outputs:
            assert isinstance(output, Deliver)
            try:
                sink.deliver(entry.number, output.sheet)
            except SinkFault:
                self.finish(entry, ABORTED)
                raise
            context.delivered += 1

    def pause(self):
        self.paused = True

    def carry_on(self):
        self.paused = False

    def abort_running(self):
        for entry in self.queue.entries:
            if entry.status == RUNNING:
                self.finish(entry, ABORTED)
