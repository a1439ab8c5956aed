"""The queue machine: a list of entries, two flags, and the last number given."""

WAITING, HELD, RUNNING, SUSPENDED = "Waiting", "Held", "Running", "Suspended"
COMPLETED, ABORTED = "Completed", "Aborted"

UNKNOWN, WRONG_STATUS, CLOSED, FULL, BAD_PRIORITY, BAD_POSITION, IN_FLIGHT_FULL = range(21, 28)
MOST_ENTRIES = 64
MOST_IN_FLIGHT = 8
GREATEST_PRIORITY = 100
GREATEST_NUMBER = 2 ** 64 - 1


class Refused(Exception):
    def __init__(self, code):
        super().__init__(code)
        self.code = code


class Entry:
    def __init__(self, number, priority):
        self.number = number
        self.priority = priority
        self.status = WAITING
        self.begun = False

    def in_flight(self):
        return self.begun and self.status not in (COMPLETED, ABORTED)


class Queue:
    def __init__(self):
        self.entries = []
        self.held = False
        self.closed = False
        self.last_number = 0

    def find(self, number, *legal):
        """The entry of a number, in one of the legal statuses."""
        for entry in self.entries:
            if entry.number == number:
                if entry.status not in legal:
                    raise Refused(WRONG_STATUS)
                return entry
        raise Refused(UNKNOWN)

    def running(self):
        for entry in self.entries:
            if entry.status == RUNNING:
                return entry
        return None

    def in_flight(self):
        return sum(entry.in_flight() for entry in self.entries)

    def put(self, entry):
        """Before the first entry of lower priority."""
        place = 0
        while place < len(self.entries) and self.entries[place].priority >= entry.priority:
            place += 1
        self.entries.insert(place, entry)

    def submit(self, priority):
        if self.closed:
            raise Refused(CLOSED)
        if len(self.entries) >= MOST_ENTRIES or self.last_number == GREATEST_NUMBER:
            raise Refused(FULL)
        if not 0 <= priority <= GREATEST_PRIORITY:
            raise Refused(BAD_PRIORITY)
        self.last_number += 1
        self.put(Entry(self.last_number, priority))
        return self.last_number

    def hold(self, number):
        self.find(number, WAITING).status = HELD

    def resume(self, number):
        self.find(number, HELD, SUSPENDED).status = WAITING

    def suspend(self, number):
        entry = self.find(number, RUNNING)
        if self.in_flight() >= MOST_IN_FLIGHT:
            raise Refused(IN_FLIGHT_FULL)
        entry.status = SUSPENDED

    def abort(self, number):
        self.find(number, WAITING, HELD, RUNNING, SUSPENDED).status = ABORTED

    def remove(self, number):
        self.entries.remove(self.find(number, WAITING, HELD, COMPLETED, ABORTED))

    def set_priority(self, number, priority):
        entry = self.find(number, WAITING, HELD)
        if not 0 <= priority <= GREATEST_PRIORITY:
            raise Refused(BAD_PRIORITY)
        self.entries.remove(entry)
        entry.priority = priority
        self.put(entry)

    def set_position(self, number, position):
        entry = self.find(number, WAITING, HELD)
        if not 0 <= position <= len(self.entries) - 1:
            raise Refused(BAD_POSITION)
        self.entries.remove(entry)
        self.entries.insert(position, entry)

    def flush(self):
        self.entries = [entry for entry in self.entries if entry.status == RUNNING]

    def begin(self):
        """The first waiting entry runs, and where no more may be in flight the first that has begun already; None where there
        is none or the queue is held."""
        if self.held:
            return None
        full = self.in_flight() >= MOST_IN_FLIGHT
        for entry in self.entries:
            if entry.status == WAITING and (entry.begun or not full):
                entry.status = RUNNING
                entry.begun = True
                return entry
        return None

    def finish(self, entry, status):
        assert entry.status == RUNNING
        entry.status = status

    def status(self):
        """The first that holds."""
        if self.closed and self.held:
            return "Blocked"
        if self.closed:
            return "Closed"
        if self.held:
            return "Held"
        if len(self.entries) >= MOST_ENTRIES:
            return "Full"
        return "Running" if self.running() else "Waiting"
