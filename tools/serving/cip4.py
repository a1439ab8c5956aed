"""What JMF and JDF 1.5 of CIP4 have, beside what the messages and tickets of the press have: each table of docs/JMF.md stands here, once. The numbers of
answers are CIP4's; the words are ours."""

from typing import NamedTuple

JMF, XSI = "http://www.CIP4.org/JDFSchema_1_1", "http://www.w3.org/2001/XMLSchema-instance"
VERSION, DEVICE, DEEPEST = "1.5", "Rombixela", 50
COMMAND, QUERY = "Command", "Query"


class Message(NamedTuple):
    type: str
    family: str
    parameters: tuple     # where they stand: element/@attribute, or an element that may stand there
    keys: tuple = ()      # those of the press' message

    def cells(self):
        return self.type, self.family, ", ".join(map(shown, self.parameters)), ", ".join(f"`{each}`" for each in self.keys)


def shown(place):
    """A place, with the values that it may have, if these are some alone."""
    return f"`{place}`" + (f" (only {' or '.join(f'`{value}`' for value in ONLY[place])})" if place in ONLY else "")


def of_entry(kind):
    """A command of one entry, as older controllers name it and as newer ones do."""
    return Message(kind, COMMAND, ("QueueEntryDef/@QueueEntryID", f"{kind}Params", "QueueFilter"), ("QueueEntryID",))


MESSAGES = [
    Message("SubmitQueueEntry", COMMAND, tuple(f"QueueSubmissionParams/@{name}" for name in ("URL", "Priority", "Hold", "ReturnURL", "ReturnJMF", "WatchURL")), ("Ticket", "Priority")),
    *map(of_entry, ("HoldQueueEntry", "ResumeQueueEntry", "SuspendQueueEntry", "AbortQueueEntry", "RemoveQueueEntry")),
    Message("SetQueueEntryPriority", COMMAND, ("QueueEntryPriParams/@QueueEntryID", "QueueEntryPriParams/@Priority"), ("QueueEntryID", "Priority")),
    Message("SetQueueEntryPosition", COMMAND, ("QueueEntryPosParams/@QueueEntryID", "QueueEntryPosParams/@Position"), ("QueueEntryID", "Position")),
    *(Message(kind, COMMAND, ()) for kind in ("HoldQueue", "ResumeQueue", "CloseQueue", "OpenQueue")),
    Message("FlushQueue", COMMAND, ("FlushQueueParams", "QueueFilter")),
    Message("QueueStatus", QUERY, ("QueueFilter",)),
    Message("Status", QUERY, tuple(f"StatusQuParams/@{name}" for name in ("DeviceDetails", "JobDetails", "QueueInfo"))),
    Message("KnownMessages", QUERY, tuple(f"KnownMsgQuParams/@{name}" for name in ("ListCommands", "ListQueries", "ListSignals", "ListRegistrations", "Persistent", "Exact"))),
]
BY_TYPE = {message.type: message for message in MESSAGES}
NUMBERS = ("Priority", "Position")
# Parameters that have no place but with these values.
ONLY = {"QueueSubmissionParams/@Hold": ("false", "0"), "StatusQuParams/@DeviceDetails": ("None", "Brief"), "StatusQuParams/@JobDetails": ("None", "Brief"),
        "StatusQuParams/@QueueInfo": ("false", "0"), "JDF/@Version": (VERSION,), "JDF/@Activation": ("Active",), "Media/@MediaType": ("Paper",),
        "LayoutPreparationParams/@NumberUp": ("1 1",), "RunList/@PartIDKeys": ("Run",)}
# Those that are taken, with a warning that nothing comes of them.
WARNED = {"ReturnURL": "no ReturnQueueEntry is sent: ask QueueStatus", "ReturnJMF": "no ReturnQueueEntry is sent: ask QueueStatus", "WatchURL": "no signal is sent: ask Status"}

INTERNAL, UNREADABLE, INVALID, UNKNOWN, WRONG, LACKING, NO_DEVICE, INCOMPLETE, INCAPABLE, NO_NODE, DENIED, TAKES_NONE = 2, 3, 4, 5, 6, 7, 8, 9, 101, 102, 111, 112
OWN_CODES = [
    (INTERNAL, "the disk or memory is full: nothing changed"),
    (UNREADABLE, "no XML, or one with a DOCTYPE, of more than 1 MiB, or deeper than 50 elements"),
    (INVALID, "another root or namespace than that of JMF, or of JDF"),
    (UNKNOWN, "a type that KnownMessages does not list, or one of the other family"),
    (WRONG, "a parameter that has no place, a value that is none, a URL that leads nowhere, a file that is no picture"),
    (LACKING, "a parameter, a resource or a link that is missing"),
    (NO_DEVICE, "`JMF/@DeviceID` names another device"),
    (INCOMPLETE, "a JMF without a command or a query"),
    (INCAPABLE, "what JDF has and a ticket has not: each attribute and element that is not in the table below, dots beside the logical page, more than `--sides`"),
    (NO_NODE, "the JDF is no node of DigitalPrinting"),
    (DENIED, "a `Subscription`: no signal is sent"),
    (TAKES_NONE, "more than `--images` since the list was empty"),
]
# What the press answers, and CIP4 says: of 22 by the status that the entry has.
CODES = [(5, 5, "no such type"), (6, 6, "a parameter of another kind, or a ticket that is refused"), (7, 7, "a parameter is missing"), (21, 105, "no such entry"),
         (22, 113, "the entry has the status already that the command gives it"), (22, 114, "it is completed or aborted"), (22, 115, "SuspendQueueEntry, and it does not run"),
         (22, 106, "else: it runs, or was begun"), (23, 112, "the queue is closed"), (24, 112, "the queue has 64 entries: remove those that ended"),
         (25, 6, "the priority is not 0 to 100"), (26, 6, "the position is not in the list"), (27, 101, "eight entries are in flight")]
GIVES = {"HoldQueueEntry": "Held", "ResumeQueueEntry": "Waiting", "SuspendQueueEntry": "Suspended", "AbortQueueEntry": "Aborted"}

TYPES = ("LayoutPreparation", "Imposition", "Interpreting", "Rendering", "DigitalPrinting")
ANYWHERE = ("ID", "Class", "Status", "AgentName", "AgentVersion", "DescriptiveName", "rRef", "Usage", "CombinedProcessIndex", "Locked")
PASSED_OVER = ("AuditPool", "Comment", "CustomerInfo", "NodeInfo", "CustomerInfoLink", "NodeInfoLink")
# Where a job stands in JDF, the key of the ticket, and how it gets there; without a key it is looked at, or means nothing here.
PLACES = [
    ("JDF/@Version", "Version", "`1.5`"),
    ("JDF/@Type", "Type", "`DigitalPrinting`, or `Combined`"),
    ("JDF/@Types", "Type", f"with `Combined`: some of {', '.join(f'`{each}`' for each in TYPES)}, the last among them"),
    ("JDF/@JobID", "JobID", "as it is"),
    ("JDF/@Activation", "", "`Active`"),
    *((f"JDF/@{name}", "", "of no effect") for name in ("JobPartID", "MaxVersion", "ICSVersions", "TimeStamp")),
    ("ResourcePool", "", ""), ("ResourceLinkPool", "", "what it links counts, one of each kind"),
    ("RunListLink", "", ""), ("MediaLink", "", ""), ("LayoutPreparationParamsLink", "", ""), ("DigitalPrintingParamsLink", "", ""),
    ("RenderingParamsLink", "", ""), ("InterpretingParamsLink", "", ""), ("InterpretingParams", "", ""),
    ("ComponentLink/@Amount", "Amount", "a whole number; 1 without it"),
    ("Component/@ComponentType", "", "of no effect"),
    ("RunList/@Pages", "RunList", "ranges as `0 ~ -1 2`: pages of its file, from 0 on, or from the end below 0; all without it"),
    ("RunList/@NPage", "", "how many pages its file has, if it is said"),
    ("RunList/@PartIDKeys", "", "`Run`: partitions, each with a file, one after another"),
    ("RunList/@Run", "", "of no effect"),
    ("LayoutElement/@ElementType", "", "of no effect"),
    ("FileSpec/@URL", "NPage", "a PDF, P4 files one after another, or a PNG; `cid:`, `file:`, or a name below `--files`"),
    ("FileSpec/@MimeType", "", "of no effect: the file says what it is"),
    ("Media/@Dimension", "Media", "in points, within 2, on its side too"),
    ("Media/@MediaType", "", "`Paper`"),
    ("LayoutPreparationParams/@Sides", "Sides", "by the table below"),
    ("LayoutPreparationParams/@NumberUp", "", "`1 1`"),
    ("DigitalPrintingParams/@Sides", "Sides", "the same"),
    ("DigitalPrintingParams/@Collate", "Collate", "by the table below"),
    ("RenderingParams", "", ""),
    ("ObjectResolution/@Resolution", "Resolution", "`300 300` or `600 600`"),
]
KNOWN = {place for place, _, _ in PLACES} | {place.partition("/")[0] for place, _, _ in PLACES} - {"JDF"}     # a node has none within
VALUES = {
    "Sides": {"OneSidedFront": "OneSidedFront", "TwoSidedFlipY": "TwoSidedHeadToHead", "TwoSidedFlipX": "TwoSidedHeadToFoot",
              "TwoSidedHeadToHead": "TwoSidedHeadToHead", "TwoSidedHeadToFoot": "TwoSidedHeadToFoot"},
    "Collate": {"None": False, "SheetAndSet": True, "SheetSetAndJob": True},
    "Resolution": {"300 300": 300, "600 600": 600},
}
POINTS = {"Letter": (612, 792), "Legal": (612, 1008), "Executive": (522, 756), "Ledger": (792, 1224), "A4": (595.276, 841.89), "A3": (841.89, 1190.551)}
NEAR = 2
STATUSES = [("of an entry", "Waiting, Held, Running, Suspended, Completed, Aborted", "the same"),
            ("of one that was removed", "Removed", "it is in no Queue"),
            ("of the queue", "Waiting, Running, Full, Held, Closed, Blocked", "the same"),
            ("of the device", "Idle, Running, Stopped", "the same, as DeviceStatus; where it runs, JobPhase is InProgress")]


def tables():
    """The tables of docs/JMF.md, each as its lines."""
    yield lines(("Type", "Family", "Where its parameters stand", "Keys of the press"), (message.cells() for message in MESSAGES))
    yield lines(("The press answers", "CIP4", "When"), CODES)
    yield lines(("CIP4", "Answered before the press is asked"), OWN_CODES)
    yield lines(("In JDF", "Key of the ticket", "How"), [*((f"`{place}`", f"`{key}`" if key else "", how) for place, key, how in PLACES),
                *((", ".join(f"`{each}`" for each in some), "", "anywhere: it changes no page") for some in ([f"@{name}" for name in ANYWHERE], PASSED_OVER))])
    yield lines(("Key", "In JDF", "In the ticket"), ((key, f"`{one}`", f"`{str(other).lower() if isinstance(other, bool) else other}`")
                                                    for key, values in VALUES.items() for one, other in values.items()))
    yield lines(("Medium", "Dimension, in points"), ((name, f"`{wide} {high}`") for name, (wide, high) in POINTS.items()))
    yield lines(("Status", "The press says", "JMF says"), STATUSES)


def lines(head, rows):
    return ["| " + " | ".join(map(str, row)) + " |" for row in (head, ["---"] * len(head), *rows)]
