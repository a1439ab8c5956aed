"""Why a line of a session is answered so: lines that are none, files that fail, messages that are refused."""

import json

from model import press_lines
from model.press import NO_ENGINE, PARAMETERS
from seen import program

from . import files, images, json_faults, tickets
from .finding import Finding, Found, advice_for_line, counted

LINES = (f"A line is message FILE IMG.., turn N [ENGINE], pause, continue or abort, "
         "with one space between words")
STATUSES = {
    "HoldQueueEntry": "Waiting", "ResumeQueueEntry": "Held or Suspended", "SuspendQueueEntry": "Running",
    "AbortQueueEntry": "Waiting, Held, Running or Suspended", "RemoveQueueEntry": "Waiting, Held, Completed or Aborted",
    "SetQueueEntryPriority": "Waiting or Held", "SetQueueEntryPosition": "Waiting or Held",
}
CODES = {
    5: ("its Type is unknown", "docs/QUEUE.md has the types"),
    23: ("the queue is closed", "Send OpenQueue first"),
    24: ("the queue has 64 entries", "Remove entries that have ended: RemoveQueueEntry or FlushQueue"),
    25: ("its Priority is out of range", "It is 0 to 100"),
    26: ("its Position is out of range", "It is 0 to the number of entries less 1"),
    27: ("eight entries are in flight already", "Let one of them end, or abort it"),
}


def findings(script, engines, chosen=program.PROGRAM, goes_on=False):
    """The findings on the lines of a session on so many engines, in order; the last one may end it, unless it goes on behind lines that are wrong."""
    answers = answers_of(script, engines, chosen, goes_on)
    for number, line in enumerate(press_lines.lines_of(script), 1):
        shown = f"line {number}"
        words = line.split(b" ")
        if words[0] == b"message" and len(words) > 1 and all(words):
            try:
                asked = files_of(shown, [word.decode("utf-8", "surrogateescape") for word in words[1:]])
            except Found as found:
                yield found.finding
                if not goes_on:
                    return
                next(answers, b"")
                continue
        missing = missing_engine(words, engines)
        if missing is not None:
            yield Finding(NO_ENGINE, f"{shown} names engine {missing}, and the press has {counted(engines, 'engine')}",
                          "Engines are counted from 0; --engines N asks for more of them")
            if not goes_on:
                return
            next(answers, b"")
            continue
        answer = next(answers, b"")
        if answer == b"what?" or (words[0] == b"message" and not all(words)):
            yield Finding(None, f"{shown} is none of a session: '{line.decode(errors='replace')[:60]}'", advice_for_line(line, LINES, LINES))
        elif words[0] == b"message":
            yield from refusals(f"{shown}, {words[1].decode(errors='replace')}", answer, *asked)


def missing_engine(words, engines):
    """The engine that a turn names and that there is not, or None."""
    numbers = [press_lines.number_of(word) for word in words[1:]]
    turn = words[0] == b"turn" and len(numbers) == 2 and None not in numbers
    return numbers[1] if turn and numbers[1] >= engines else None


def answers_of(script, engines, chosen, goes_on):
    """The answers of the program."""
    words = (["--engines", str(engines)] if engines > 1 else []) + (["--keep-going"] if goes_on else [])
    return iter(program.ask(["press", *words], script, chosen).stdout.split(b"\n"))


def files_of(shown, names):
    """The message's bytes, its images and their names."""
    data = files.read_input(names[0], "FILE")
    read = []
    for place, name in enumerate(names[1:]):
        try:
            read.append(images.read_image(place, name))
        except Found as found:
            raise Found(found.finding.number, f"{shown}: {found.finding.sentence}", found.finding.advice) from None
    return data, read, names[1:]


def refusals(shown, answer, data, read, names):
    """The finding on a message that is refused."""
    response = json.loads(answer)
    code = response["ReturnCode"]
    if code == 0:
        return
    value, reason, advice = json_faults.object_of(data)
    if value is None:
        yield Finding(None, f"{shown} {reason}: return code 6", advice)
    elif "Fault" in response:
        yield Finding(None, f"{shown}: {why_not_printed(value['Ticket'], read, names)}: return code 6", "Correct the ticket or its images")
    else:
        yield Finding(None, f"{shown} {why_refused(code, value)}: return code {code}", advice_of(code, value))


def why_not_printed(asked, read, names):
    try:
        tickets.check_images("its ticket", tickets.ticket_of("its ticket", asked), read, names)
    except Found as found:
        return f"{found.finding.sentence} ({found.finding.number})"
    return "its ticket or its images are refused"


def parameter_at_fault(value):
    """The first member that is missing, or of another kind."""
    for name in ["ID", "Type", *(name for name in PARAMETERS.get(value.get("Type"), []) if name != "|")]:
        if name not in value and name != "Priority":
            return f"has no {name}"
        kind = {"Ticket": dict, "Priority": int, "Position": int}.get(name, str)
        if name in value and type(value[name]) is not kind:
            return f"has a {name} that is {tickets.shortened(value[name])}"
    return "is not understood"


def why_refused(code, value):
    if code in (6, 7):
        return parameter_at_fault(value)
    if code == 21:
        return f"names the entry {value['QueueEntryID']}, and there is none"
    if code == 22:
        return f"names the entry {value['QueueEntryID']}, whose status does not fit"
    return "is refused: " + CODES[code][0]


def advice_of(code, value):
    if code == 22:
        return f"{value['Type']} takes an entry that is {STATUSES[value['Type']]}"
    if code == 21:
        return "QueueStatus lists the entries"
    return CODES.get(code, ("", "docs/QUEUE.md has the members of each type, with their kinds"))[1]
