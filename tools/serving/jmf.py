"""JMF, as controllers send it: each command and query of a document is asked of the press, and answered by the tables of docs/JMF.md."""

import re
import shutil
import tempfile
import time
import xml.etree.ElementTree as trees
from pathlib import Path
from typing import NamedTuple

from seen.printable import printable

from . import cip4, jdf
from .markup import Wrong, is_ours, local, named, parsed, unknown
from .session import PAGES, Ended, Session, sync

ASKED = ("Command", "Query", "Registration")
WORDS = {(own, code): words for own, code, words in reversed(cip4.CODES)}


class Gate(NamedTuple):
    """The session, and the most that a job prints, and that all images have."""
    session: Session
    sides: int
    images: int


def answered(data, gate, package, client):
    """The document that answers one."""
    made = trees.Element(named("JMF"), SenderID=cip4.DEVICE, Version=cip4.VERSION, MaxVersion=cip4.VERSION, TimeStamp=time.strftime("%Y-%m-%dT%H:%M:%SZ", time.gmtime()))
    try:
        document = parsed(data, "JMF")
        messages = messages_of(document)
    except Wrong as wrong:
        respond(made, trees.Element("none"), wrong.code, [note("Error", wrong)])
        messages = []
    for message in messages:
        try:
            code, elements = 0, list(carried_out(message, gate, package, f"{client}, {document.get('SenderID', 'nobody')}"))
        except Wrong as wrong:
            code, elements = wrong.code, [note("Error", wrong)]
        except Ended:
            raise
        except Exception as fault:
            code, elements = cip4.INTERNAL, [note("Error", getattr(fault, "strerror", None) or repr(fault))]
        respond(made, message, code, elements)
    return trees.tostring(made, encoding="UTF-8", xml_declaration=True)


def messages_of(document):
    if document.get("DeviceID", cip4.DEVICE) != cip4.DEVICE:
        raise Wrong(cip4.NO_DEVICE, f'JMF/@DeviceID="{document.get("DeviceID")}" is not {cip4.DEVICE}')
    messages = [each for each in document if is_ours(each) and local(each) in ASKED]
    if not messages:
        raise Wrong(cip4.INCOMPLETE, "it has no Command and no Query")
    return messages


def respond(made, message, code, elements):
    kind = message.get("Type", "")
    about = {"ID": f"R{len(made) + 1}", "refID": message.get("ID", ""), "Type": kind or "Notification", "ReturnCode": str(code)}
    if kind in cip4.BY_TYPE:
        about[f"{{{cip4.XSI}}}type"] = f"Response{kind}"
    trees.SubElement(made, named("Response"), about).extend(elements)


def note(kind, why):
    """A text for people; what a client sent may be in it."""
    made = trees.Element(named("Notification"), Class=kind, Type=kind)
    trees.SubElement(made, named("Comment")).text = printable(str(why), 400).encode("ascii", "backslashreplace").decode()
    return made


def carried_out(message, gate, package, sender):
    """The elements of the response to a message."""
    kind = message.get("Type")
    if kind is None or message.get("ID") is None:
        raise Wrong(cip4.LACKING, f"{local(message)}/@{'ID' if kind else 'Type'} is missing")
    row = cip4.BY_TYPE.get(kind)
    if message.find(named("Subscription")) is not None:
        raise Wrong(cip4.DENIED, "no signal is sent: ask again")
    if row is None or row.family != local(message):
        raise Wrong(cip4.UNKNOWN, f"{local(message)} {kind} is none that KnownMessages lists")
    found = parameters(message, row)
    asked = {"Type": kind, **{key: number(found[key], key) if key in cip4.NUMBERS else found[key] for key in row.keys if key in found}}
    yield from (note("Warning", f"{name}: {why}") for name, why in cip4.WARNED.items() if name in found)
    if kind == "KnownMessages":
        yield from map(service, cip4.MESSAGES)
    elif kind == "SubmitQueueEntry":
        yield submitted(found, asked, gate, package, sender)
        yield queue(told(gate.session, {"Type": "QueueStatus"}))
    elif kind == "Status":
        yield device(told(gate.session, asked)["Device"])
    else:
        answer = told(gate.session, asked)
        yield queue(answer if kind == "QueueStatus" else told(gate.session, {"Type": "QueueStatus"}))


def parameters(message, row):
    """The attributes of what stands in a message; one that has no place, or stands twice, is refused."""
    found = {}
    if lacking := unknown(message, {*row.parameters, *(place.partition("/")[0] for place in row.parameters)}):
        raise Wrong(cip4.WRONG, f"{lacking} has no place in {row.type}")
    for each in message.iter():
        for name, value in each.attrib.items() if each is not message and is_ours(each) else ():
            if name in found:
                raise Wrong(cip4.WRONG, f"{local(each)}/@{name} stands twice")
            found[name] = value
    return found


def number(said, key):
    if not re.fullmatch("-?[0-9]{1,9}", said):
        raise Wrong(cip4.WRONG, f'{key}="{said}" is no whole number')
    return int(said)


def told(session, asked, images=(), sender=""):
    """What the press answers; a refusal is raised, with CIP4's code."""
    answer, before = session.message(asked, images, sender)
    if code := answer["ReturnCode"]:
        mapped = mapped_code(code, asked["Type"], before)
        fault = f", fault {answer['Fault']} of docs/TICKETS.md" if "Fault" in answer else ""
        raise Wrong(mapped, f"{WORDS[code, mapped]} (the press answers {code}{fault})")
    return answer


def mapped_code(code, kind, status):
    """CIP4's code for one of the press; that of 22 by the status that the entry has."""
    if code != 22:
        return next(mapped for own, mapped, _ in cip4.CODES if own == code)
    if cip4.GIVES.get(kind) == status:
        return 113
    if status in ("Completed", "Aborted"):
        return 114
    return 115 if kind == "SuspendQueueEntry" and status != "Suspended" else 106


def submitted(found, asked, gate, package, sender):
    """The element of a new entry, whose images stand on the disk before it is one."""
    if "URL" not in found:
        raise Wrong(cip4.LACKING, "QueueSubmissionParams/@URL is missing")
    session = gate.session
    folder = Path(tempfile.mkdtemp(prefix="job-", dir=session.folder / PAGES))
    try:
        ticket, images = jdf.job_of(found["URL"], package, folder)
        sides = ticket["Amount"] * sum(abs(last - first) + 1 for first, last in ticket["RunList"])
        if sides > gate.sides:
            raise Wrong(cip4.INCAPABLE, f"it prints {sides:,} sides, and at most {gate.sides:,} are taken")
        for path in (*images, folder, folder.parent):
            sync(path)
        with session.lock:
            if sum(session.sizes.values()) + sum(image.stat().st_size for image in images) > gate.images:
                raise Wrong(cip4.TAKES_NONE, "more images than --images have come since the list was empty: FlushQueue, once nothing waits, makes room")
            answer = told(session, {**asked, "Ticket": ticket}, [str(image.relative_to(session.folder)) for image in images], sender)
    except Ended:
        raise     # they may stand in the journal
    except BaseException:
        shutil.rmtree(folder, ignore_errors=True)
        raise
    return element("QueueEntry", QueueEntryID=answer["QueueEntryID"], JobID=ticket["JobID"], Status="Waiting", Priority=asked.get("Priority", 50))


def queue(answer):
    made = element("Queue", DeviceID=cip4.DEVICE, Status=answer["Queue"]["Status"])
    made.extend(element("QueueEntry", **entry) for entry in answer["Queue"]["Entries"])
    return made


def device(told_of):
    made = element("DeviceInfo", DeviceID=cip4.DEVICE, DeviceStatus=told_of["Status"])
    if told_of["QueueEntryID"]:
        made.append(element("JobPhase", QueueEntryID=told_of["QueueEntryID"], JobID=told_of["JobID"], Status="InProgress", Amount=told_of["Sheets"]))
    return made


def service(message):
    return element("MessageService", **{"Type": message.type, message.family: "true", "Acknowledge": "false", "Persistent": "false", "URLSchemes": "http"})


def element(name, **attributes):
    return trees.Element(named(name), {key: str(value) for key, value in attributes.items()})
