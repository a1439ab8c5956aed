"""What controllers send to tools/jmf, and what has to come of each: messages, jobs in JDF, requests of HTTP, words."""

from typing import NamedTuple


class Said(NamedTuple):
    """A message, one after another at one queue that is held; {} is the name of the last entry."""
    sent: str               # what stands in a JMF; or all of it
    code: int = 0
    says: str = ""          # in the answer
    submits: bool = False   # the flyer, first


def of(kind, inner="", family="Command"):
    return f'<{family} ID="e" Type="{kind}">{inner}</{family}>'


def entry(kind, name="{}"):
    return of(kind, f'<QueueEntryDef QueueEntryID="{name}"/>')


def params(kind, inner):
    return of(f"SetQueueEntry{kind}", f"<QueueEntry{kind[:3]}Params {inner}/>")


SAID = [
    Said(of("KnownMessages", family="Query"), says='Type="SetQueueEntryPosition" Command="true" Acknowledge="false"'),
    Said(of("KnownMessages", '<KnownMsgQuParams ListQueries="true"/>', "Query"), says='Type="Status" Query="true"'),
    Said(of("HoldQueue"), says='<Queue DeviceID="Rombixela" Status="Held"'),
    Said(of("Status", family="Query"), says='DeviceStatus="Idle"'),
    Said(of("Status", '<StatusQuParams JobDetails="Brief" QueueInfo="false"/>', "Query"), says='DeviceStatus="Idle"'),
    Said(of("Status", '<StatusQuParams JobDetails="Full"/>', "Query"), 6, 'StatusQuParams/@JobDetails="Full" has no place in Status'),
    Said(entry("HoldQueueEntry"), says='JobID="flyer" />', submits=True),
    Said(entry("HoldQueueEntry"), 113, "has the status already that the command gives it (the press answers 22)"),
    Said(entry("SuspendQueueEntry"), 115, "it does not run"),
    Said(of("ResumeQueueEntry", '<ResumeQueueEntryParams><QueueFilter><QueueEntryDef QueueEntryID="{}"/></QueueFilter></ResumeQueueEntryParams>'), says='Status="Waiting"'),
    Said(entry("ResumeQueueEntry"), 113, "the press answers 22"),
    Said(params("Priority", 'QueueEntryID="{}" Priority="90"'), says='Priority="90"'),
    Said(params("Priority", 'QueueEntryID="{}" Priority="101"'), 6, "(the press answers 25)"),
    Said(params("Priority", 'QueueEntryID="{}" Priority="high"'), 6, 'Priority="high" is no whole number'),
    Said(params("Priority", 'QueueEntryID="{}"'), 7, "a parameter is missing (the press answers 7)"),
    Said(params("Position", 'QueueEntryID="{}" Position="0"'), says="Queue"),
    Said(params("Position", 'QueueEntryID="{}" Position="9"'), 6, "(the press answers 26)"),
    Said(params("Position", 'QueueEntryID="{}" NextQueueEntryID="Q1"'), 6, 'QueueEntryPosParams/@NextQueueEntryID="Q1" has no place'),
    Said(entry("HoldQueueEntry", "Q99"), 105, "no such entry (the press answers 21)"),
    Said(entry("HoldQueueEntry", "\N{SNOWMAN}"), 105, "no such entry"),
    Said(of("HoldQueueEntry"), 7, "a parameter is missing"),
    Said(of("HoldQueueEntry", '<QueueEntryDef QueueEntryID="{}"/><QueueEntryDef QueueEntryID="Q2"/>'), 6, "QueueEntryDef/@QueueEntryID stands twice"),
    Said(of("HoldQueueEntry", '<QueueFilter JobID="flyer"/>'), 6, 'QueueFilter/@JobID="flyer" has no place in HoldQueueEntry'),
    Said(of("FlushQueue", '<QueueFilter><StatusList/></QueueFilter>'), 6, "StatusList has no place in FlushQueue"),
    Said(entry("AbortQueueEntry"), says='Status="Aborted"'),
    Said(entry("AbortQueueEntry"), 113, "the press answers 22"),
    Said(entry("ResumeQueueEntry"), 114, "it is completed or aborted"),
    Said(entry("RemoveQueueEntry"), says="Queue"),
    Said(entry("RemoveQueueEntry"), 105, "no such entry"),
    Said(of("CloseQueue"), says='Status="Blocked"'),
    Said('<Command ID="s" Type="SubmitQueueEntry"><QueueSubmissionParams URL="jmf/flyer.jdf"/></Command>', 112, "the queue is closed (the press answers 23)"),
    Said(of("OpenQueue"), says='Status="Held"'),
    Said('<Command ID="s" Type="SubmitQueueEntry"><QueueSubmissionParams URL="jmf/flyer.jdf" Priority="101"/></Command>', 6, "the press answers 25"),
    Said('<Command ID="s" Type="SubmitQueueEntry"><QueueSubmissionParams URL="jmf/flyer.jdf" Hold="true"/></Command>', 6, 'QueueSubmissionParams/@Hold="true" has no place'),
    Said('<Command ID="s" Type="SubmitQueueEntry"><QueueSubmissionParams URL="jmf/flyer.jdf" ReturnJMF="http://mis/"/></Command>', 0, "ReturnJMF: no ReturnQueueEntry is sent"),
    Said('<Command ID="s" Type="SubmitQueueEntry"><QueueSubmissionParams/></Command>', 7, "QueueSubmissionParams/@URL is missing"),
    *(Said(f'<Command ID="s" Type="SubmitQueueEntry"><QueueSubmissionParams URL="{url}"/></Command>', 6, says)
      for url, says in (("http://127.0.0.1/flyer.jdf", "is not fetched"), ("http://[", "is no URL"), ("cid:flyer", "no part of the package is called cid:flyer"), ("jmf/none.jdf", "No such file"),
                        ("../README.md", "it is not below --files"), ("file:///etc/hostname", "it is not below --files"), ("%00", "cannot be read"), ("jmf", "Is a directory"))),
    Said('<Command ID="s" Type="SubmitQueueEntry"><QueueSubmissionParams URL="images/front.pbm"/></Command>', 3, "it is no XML that is read here"),
    Said('<Command ID="s" Type="SubmitQueueEntry"><QueueSubmissionParams URL="jmf/submit.jmf"/></Command>', 4, "its root is {http://www.CIP4.org/JDFSchema_1_1}JMF"),
    Said(of("QueueStatus", '<Subscription URL="http://mis/"/>', "Query"), 111, "no signal is sent"),
    Said(of("ReturnQueueEntry"), 5, "Command ReturnQueueEntry is none that KnownMessages lists"),
    Said(of("QueueStatus"), 5, "Command QueueStatus is none"),
    Said(of("Status", family="Registration"), 5, "Registration Status is none"),
    Said('<Command ID="e"/>', 7, "Command/@Type is missing"),
    Said('<Query Type="QueueStatus"/>', 7, "Query/@ID is missing"),
    Said("", 9, "it has no Command and no Query"),
    Said('<Signal ID="s" Type="Status"/>', 9, "it has no Command and no Query"),
    Said("<", 3, "not well-formed"),
    Said("<a>" * 50 + "</a>" * 50, 3, "it is deeper than 50 elements"),
    Said("<!--" + " " * (1 << 20) + "-->", 3, "it has more than 1,048,576 bytes of XML"),
    Said("&who;", 3, "undefined entity"),
    Said('<!DOCTYPE JMF SYSTEM "file:///etc/hostname"><JMF/>', 3, "it has a DOCTYPE"),
    Said('<!DOCTYPE JMF [<!ENTITY who SYSTEM "file:///etc/hostname">]><JMF>&who;</JMF>', 3, "it has a DOCTYPE"),
    Said("<?xml version='1.0' encoding='none'?><JMF/>", 3, "it is no XML that is read here"),
    Said('<JMF xmlns="http://www.CIP4.org/JDFSchema_2_0"><Query ID="q" Type="Status"/></JMF>', 4, "its root is {http://www.CIP4.org/JDFSchema_2_0}JMF"),
    Said('<JMF><Query ID="q" Type="Status"/></JMF>', 4, "its root is JMF"),
    Said('<JMF xmlns="http://www.CIP4.org/JDFSchema_1_1" DeviceID="other"><Query ID="q" Type="Status"/></JMF>', 8, "is not Rombixela"),
    Said(of("FlushQueue"), says='Status="Held"'),
    Said(of("ResumeQueue"), says='Status="Waiting"'),
]


class Job(NamedTuple):
    """The flyer of the examples, but for a text of it: what is said, or the keys of the ticket that are others."""
    old: str = ""
    new: str = ""
    code: int = 0
    says: str = ""
    ticket: dict = {}


def link(name):
    return f'<{name}Link rRef="x" Usage="Input"/><RunListLink '


JOBS = [
    Job(),
    Job("TwoSidedFlipY", "TwoSidedFlipX", ticket={"Sides": "TwoSidedHeadToFoot"}),
    Job("TwoSidedFlipY", "OneSidedFront", ticket={"Sides": "OneSidedFront"}),
    Job("TwoSidedFlipY", "TwoSidedHeadToFoot", ticket={"Sides": "TwoSidedHeadToFoot"}),
    Job("SheetAndSet", "None", ticket={"Collate": False}),
    Job("SheetAndSet", "SheetSetAndJob"),
    Job("595.276 841.89", "841 595.5"),
    *(Job("595.276 841.89", said, ticket={"Media": name}) for said, name in (("612 792", "Letter"), ("612 1008", "Legal"), ("522 756", "Executive"), ("792 1224.0", "Ledger"), ("842 1191", "A3"))),
    Job('Amount="3"', 'Amount="12.0"', ticket={"Amount": 12}),
    Job(' Amount="3"', "", ticket={"Amount": 1}),
    Job('Run="2"', 'Run="2" Pages="0 0 ~ -1 -1"', ticket={"RunList": [[0, 1], [1, 1], [1, 1]]}),
    Job('Run="1"', 'Run="1" NPage="1" Pages=" 0~0 "'),
    Job("<ResourcePool>", '<ResourcePool><Comment x="y"/>'),
    Job("<ResourcePool>", '<AuditPool><Created/></AuditPool><ResourcePool xmlns:x="else" x:y="z"><x:a/>'),
    Job("</ResourcePool>\n  <ResourceLinkPool>", '<RenderingParams ID="x"><ObjectResolution Resolution="600 600"/></RenderingParams></ResourcePool><ResourceLinkPool>'
        '<RenderingParamsLink rRef="x"/>', ticket={"Resolution": 600}),
    Job('Version="1.5"', 'Version="1.6"', 101, 'JDF/@Version="1.6" has no place in a ticket'),
    Job('Version="1.5" ', "", 6, "fault 602 of docs/TICKETS.md"),
    Job('JobID="flyer" ', "", 6, "fault 602"),
    Job('JobID="flyer"', 'JobID="{}"'.format("x" * 64), 6, "fault 602"),
    Job("Rendering DigitalPrinting", "Rendering", 102, "it is a node of Combined"),
    Job('Type="Combined"', 'Type="LayoutPreparation"', 102, "it is a node of LayoutPreparation"),
    Job("Rendering DigitalPrinting", "DigitalPrinting Stitching", 101, "Stitching has no place in a ticket"),
    Job('ID="n1"', 'ID="n1" Activation="Held"', 101, 'JDF/@Activation="Held"'),
    Job('Sides="TwoSidedFlipY"', 'Sides="OneSidedBackFlipX"', 101, 'LayoutPreparationParams/@Sides="OneSidedBackFlipX" has no place'),
    Job('Collate="SheetAndSet"', 'Collate="Sheet"', 101, 'DigitalPrintingParams/@Collate="Sheet" has no place'),
    Job('Collate="SheetAndSet"', 'Sides="OneSidedFront"', 101, 'DigitalPrintingParams/@Sides="OneSidedFront" is another than before'),
    Job('Collate="SheetAndSet"', 'OutputBin="top"', 101, 'DigitalPrintingParams/@OutputBin="top" has no place'),
    Job('Sides="TwoSidedFlipY"', 'NumberUp="2 1"', 101, 'LayoutPreparationParams/@NumberUp="2 1"'),
    Job("595.276 841.89", "500 500", 101, 'Media/@Dimension="500 500" has no place'),
    Job("595.276 841.89", "A4", 101, 'Media/@Dimension="A4"'),
    Job('MediaType="Paper"', 'MediaType="Transparency"', 101, 'Media/@MediaType="Transparency"'),
    Job("</ResourcePool>", "<StitchingParams/></ResourcePool>", 101, "StitchingParams has no place"),
    Job("<ResourcePool>", '<JDF ID="n2" Type="DigitalPrinting"/><ResourcePool>', 101, 'JDF has no place in a ticket'),
    Job("<RunListLink ", link("Media"), 7, 'MediaLink/@rRef="x" links no Media'),
    Job('rRef="m1" Usage="Input"', 'rRef="m1" Usage="Output"', 101, 'MediaLink/@Usage="Output" has no place in a ticket'),
    Job("<MediaLink ", '<MediaLink rRef="m1"/><MediaLink ', 101, "a second MediaLink has no place"),
    Job('<RunListLink rRef="r1" Usage="Input"/>', "", 7, "no RunListLink links a RunList"),
    Job('Amount="3"', 'Amount="2.5"', 6, 'ComponentLink/@Amount="2.5" is no whole number'),
    Job('Amount="3"', 'Amount="0"', 6, "fault 605"),
    Job('Amount="3"', 'Amount="99"', 101, "it prints 198 sides, and at most 50 are taken"),
    Job('Run="2"', 'Run="2" NPage="2"', 6, 'RunList/@NPage="2", and its file has 1'),
    Job('Run="2"', 'Run="2" Pages="1"', 6, "its file has the pages 0 to 0"),
    Job('Run="2"', 'Run="2" Pages="0 ~"', 6, "its file has the pages 0 to 0"),
    Job('Run="2"', 'Run="2" Pages=""', 6, "its file has the pages 0 to 0"),
    Job('PartIDKeys="Run"', 'PartIDKeys="Run" Pages="0"', 101, "of several partitions has no place"),
    Job('PartIDKeys="Run"', 'PartIDKeys="Run Set"', 101, "RunList/@PartIDKeys"),
    Job('<FileSpec URL="../images/back.pbm"/>', "", 7, "a RunList has one FileSpec/@URL"),
    Job("../images/back.pbm", "../images/none.pbm", 6, "No such file"),
    Job("../images/back.pbm", "../images/pipe", 6, "it is no file"),
    Job("../images/back.pbm", "flyer.jdf", 6, "it is neither a PDF nor a P4 file nor a PNG"),
    Job("../images/back.pbm", "../images/cut.pbm", 6, "ends too early"),
    Job("../images/back.pbm", "../images/wide.pbm", 6, "fault 612"),
    Job("../images/back.pbm", "../images/cut.pdf", 6, "Ghostscript"),
    Job("../images/back.pbm", "../images/letter.pdf", 101, "page 0 of the PDF has 2550 x 3300 dots, and A4 2480 x 3507"),
    Job("../images/back.pbm", "../images/beside.pdf", 101, "page 0 of the PDF has 12 dots beside the logical page"),
]

# What 22 of the press becomes, for an entry that is Waiting, Held, Running, Suspended, Completed, Aborted; - where the press does not answer 22.
OF_22 = {
    "HoldQueueEntry": "- 113 106 106 114 114",
    "ResumeQueueEntry": "113 - 106 - 114 114",
    "SuspendQueueEntry": "115 115 - 113 114 114",
    "AbortQueueEntry": "- - - - 114 113",
    "RemoveQueueEntry": "- - 106 106 - -",
    "SetQueueEntryPriority": "- - 106 106 114 114",
}

# Requests as they are sent, the least of the answer's first line, or nothing where the connection ends so.
REQUESTS = [
    ("GET / HTTP/1.1\r\n\r\n", "HTTP/1.1 501 "),
    ("nonsense\r\n\r\n", "400 Bad request"),
    ("POST / HTTP/1.1\r\nContent-Type: {jmf}\r\n\r\n", "HTTP/1.1 411 its length is not said"),
    ("POST / HTTP/1.1\r\nContent-Type: {jmf}\r\nContent-Length: -1\r\n\r\n", "HTTP/1.1 411 "),
    ("POST / HTTP/1.1\r\nContent-Type: {jmf}\r\nContent-Length: 100001\r\n\r\n" + "x" * 100001, "HTTP/1.1 413 it has more than 100,000 bytes"),
    ("POST / HTTP/1.1\r\nContent-Type: {jmf}\r\nContent-Length: 100001\r\nExpect: 100-continue\r\n\r\n", "HTTP/1.1 413 "),
    ("POST / HTTP/1.1\r\nContent-Type: {jmf}\r\nContent-Length: 3\r\nExpect: 100-continue\r\n\r\nxyz", "HTTP/1.1 100 Continue\r\n\r\nHTTP/1.1 200 OK"),
    ("POST / HTTP/1.1\r\nContent-Type: text/plain\r\nContent-Length: 3\r\n\r\nxyz", "HTTP/1.1 415 "),
    ("POST / HTTP/1.1\r\nHost: press.example\r\nContent-Type: {jmf}\r\nContent-Length: 3\r\n\r\nxyz", "HTTP/1.1 421 "),
    ("POST / HTTP/1.1\r\nHost: localhost:80\r\nContent-Type: {jmf}\r\nContent-Length: 3\r\n\r\nxyz", "HTTP/1.1 200 "),
    ("POST / HTTP/1.1\r\nContent-Type: {jmf}\r\nContent-Length: 9\r\n\r\nxyz", ""),
    ("", ""),
    ("POST / HTTP/1.1\r\nContent-Type: multipart/related\r\nContent-Length: 3\r\n\r\nxyz", "HTTP/1.1 200 "),
    ("POST / HTTP/1.1\r\nContent-Type: multipart/related; boundary=b\r\nContent-Length: 7\r\n\r\n--b\r\n\r\n", "HTTP/1.1 200 "),
]

# Words of tools/jmf, the status, and what is said of them; {} is a folder, and {port} one that is taken.
WORDS = [
    ("", 2, "the following arguments are required: FOLDER"),
    ("--port 70000 {}", 2, "argument --port: invalid port value: '70000'"),
    ("--port {port} {}", 1, "jmf: "),
    ("--listen 192.0.2.1 --port 0 {}", 1, "jmf: whoever reaches 192.0.2.1 port 0 commands the press, and prints: no name and no password is asked for\n"),
    ("--files {}/none --port 0 {}", 2, "argument --files: invalid folder value: "),
    ("--requests 0 {}", 2, "argument --requests: invalid number from 1 on value: '0'"),
    ("--default RESOLUTION=600 {}", 2, "unrecognized arguments: --default"),
    ("--what\x1b[2J {}", 2, "unrecognized arguments: --what\\u001b[2J"),
    ("--port 0 /dev/null", 1, "jmf: "),
]
