"""A session of the debug adapter: what each request does, and what is answered."""

import os
import re
from pathlib import Path

from seen import drawn, film, made, options, program
from seen.fields import State
from seen.patches import Page
from seen.printable import printable

from . import conditions, told, wire
from .asked import Asked, Refused
from .source import Text
from .stops import DOT, FILTERS, Stop, Stops

THREAD = 1
WORD = re.compile(r"[\w.]*$")    # that a cursor stands in
CAPABILITIES = {
    "supportsConfigurationDoneRequest": True, "supportsFunctionBreakpoints": True, "supportsConditionalBreakpoints": True,
    "supportsHitConditionalBreakpoints": True, "supportsEvaluateForHovers": True, "supportsStepBack": True, "supportsRestartRequest": True,
    "supportsGotoTargetsRequest": True, "supportsTerminateRequest": True, "supportsBreakpointLocationsRequest": True,
    "supportsDataBreakpoints": True, "supportsLogPoints": True, "supportsCompletionsRequest": True,
    "supportsExceptionFilterOptions": True, "supportsExceptionInfoRequest": True,
    "exceptionBreakpointFilters": [{"filter": name, "label": label, "default": False, "supportsCondition": True}
                                   for name, (label, _) in FILTERS.items()],
}


def serve(given, line, chosen=program.PROGRAM):
    """Carries out what is asked for until it is told to end, or nothing more comes. A message that is none is told, and what follows is read."""
    session = Session(line, chosen)
    while True:
        try:
            request = wire.read(given)
        except wire.Malformed as malformed:
            line.complain(f"a message is passed over: {malformed}")
            continue
        if request is not None:
            line.note("<", request)
        if request is None or request.get("type") == "request" and not session.carry_out(request):
            session.leave()
            return


class Session:
    def __init__(self, line, chosen=program.PROGRAM):
        self.wire = line
        self.chosen = chosen
        self.film = self.text = self.stops = None
        self.stream, self.source, self.picture = None, None, None   # paths: the stream, its text, the picture of its page
        self.shown = None      # the page that stands in the picture
        self.count = 0
        self.stop = Stop("entry")
        self.on_entry = True
        self.ended = False

    def carry_out(self, request):
        """Answers a request; False ends the session."""
        try:
            name = Asked(request).needed("command", str)
            call = getattr(self, "do_" + name, None)
            if call is None:
                raise Refused(f"{name} is not carried out")
            if self.film is None and name not in ("initialize", "launch", "disconnect", "terminate"):
                raise Refused("nothing was launched")
            body = call(Asked(request.get("arguments"))) or {}
        except (Refused, conditions.BadCondition, OSError, ValueError) as fault:
            self.wire.refuse(request, str(fault))
            return True
        self.wire.answer(request, body)
        if (behind := getattr(self, "behind_" + name, None)) is not None:
            behind()
        return name not in ("disconnect", "terminate")

    def leave(self):
        """Ends what is made behind."""
        if self.text is not None:
            self.text.read.stop()
            self.film.opened.stop()

    # Begin and end

    def do_initialize(self, _asked):
        return CAPABILITIES

    def do_launch(self, asked):
        path, on_entry = Path(asked.needed("program", str)), asked.given("stopOnEntry", bool) is not False
        source, picture = places_beside(path, asked.given("text", str), asked.given("page", str, bool))
        if not path.is_file():
            raise Refused(f"{path} is no file")
        made.refuse_inputs([source, picture or source], [path])
        if picture and (picture == source or made.identity(picture) == made.identity(source) is not None):
            raise Refused(f"{source} is the name of the text, and of the picture")
        stream, front = path.read_bytes(), front_of(asked)
        shot = film.Film(stream, front, self.chosen)
        text = Text(stream, front, self.chosen, shot.opened.lines())
        made.make(source, text.read.pieces(), [path])
        self.leave()
        self.film, self.text, self.stops, self.shown = shot, text, Stops(shot), None
        self.stream, self.source, self.picture, self.on_entry = path, source, picture, on_entry
        self.count, self.ended, self.stop = 0, False, Stop("entry")

    def behind_launch(self):
        self.wire.tell("initialized", {})
        if self.text.is_whole:
            self.tell_steps()
            return
        self.say(f"told by {self.film.who}; the text has its first lines, and the others are made behind")
        self.text.make_on(self.make_whole)

    def say(self, text):
        self.wire.tell("output", {"category": "console", "output": text + "\n"})

    def tell_steps(self):
        self.say(f"{self.text.steps} steps, told by {self.film.who}")

    def make_whole(self, fault):
        """The text is read to its end, or cannot be."""
        try:
            if fault:
                raise fault
            made.make(self.source, self.text.read.pieces(), [self.stream])
        except (OSError, ValueError) as fault:
            self.wire.complain(f"the text is not made on: {fault}")
            return
        self.tell_steps()

    def do_configurationDone(self, _asked):
        pass

    def behind_configurationDone(self):
        self.start()

    def start(self):
        """Stands before the first command, or runs to a stop."""
        self.count, self.ended = 0, False
        if self.on_entry:
            self.stopped(Stop("entry"))
        else:
            self.run(1)

    def do_restart(self, _asked):
        self.stops.met.clear()

    def behind_restart(self):
        self.start()

    def do_disconnect(self, _asked):
        pass

    def do_terminate(self, _asked):
        pass

    def behind_terminate(self):
        self.wire.tell("terminated", {})

    # Stops

    def do_setBreakpoints(self, asked):
        some, answers = [], []
        same = os.path.realpath(asked.within("source").given("path", str) or "") == os.path.realpath(self.source)
        for each in asked.objects("breakpoints"):
            line = self.text.upto(each.needed("line", int))
            answers.append(self.made(some, each, line=line) if same and line > 0 else
                           {"verified": False, "message": f"the {'text' if same else 'stream'} has no such {'line' if same else 'text'}"})
        self.stops.lines = some
        return {"breakpoints": answers}

    def made(self, some, asked, line=None, words=None, data=None):
        """Makes a breakpoint, and answers what became of it."""
        try:
            one = self.stops.make(asked, self.text.begins(line) if line else None, words, data)
        except conditions.BadCondition as bad:
            return {"verified": False, "message": str(bad)} | ({"line": line} if line else {})
        some.append(one)
        return {"verified": True, "id": one.number} | ({"line": line} if line else {})

    def do_setFunctionBreakpoints(self, asked):
        some = []
        answers = [self.made(some, each, words=each.needed("name", str)) for each in asked.objects("breakpoints")]
        self.stops.kinds = some
        return {"breakpoints": answers}

    def do_dataBreakpointInfo(self, asked):
        """A dot of the page, as `dot 300, 450`, or a field; anything else cannot be watched."""
        name = asked.needed("name", str).strip()
        data = name if DOT.fullmatch(name) else told.name_of(name, self.stops.step(0).now) or None
        return {"dataId": data, "accessTypes": ["write"], "canPersist": True,
                "description": f"{data} changes" if data else f"{printable(name)} is no field, and no dot as dot 300, 450"}

    def do_setDataBreakpoints(self, asked):
        some, answers = [], []
        for each in asked.objects("breakpoints"):
            data = each.needed("dataId", str)
            answers.append(self.made(some, each, data=data) if DOT.fullmatch(data) or data in self.stops.step(0).now else
                           {"verified": False, "message": f"{printable(data)} is no field, and no dot"})
        self.stops.data = some
        return {"breakpoints": answers}

    def do_setExceptionBreakpoints(self, asked):
        chosen = {name: None for name in asked.texts("filters")}
        chosen |= {each.needed("filterId", str): self.stops.condition(each) for each in asked.objects("filterOptions")}
        self.stops.filters = {name: asks for name, asks in chosen.items() if name in FILTERS}

    def do_breakpointLocations(self, asked):
        line = asked.needed("line", int)
        last = asked.given("endLine", int)
        return {"breakpoints": [{"line": each} for each in range(max(1, line), self.text.upto(line if last is None else last) + 1)]}

    def do_exceptionInfo(self, _asked):
        return {"exceptionId": self.stop.text, "description": self.stop.text, "breakMode": "always"}

    def stopped(self, stop):
        self.stop = stop
        self.draw()
        body = {"reason": stop.reason, "threadId": THREAD, "allThreadsStopped": True}
        body |= {"text": stop.text, "description": stop.text} if stop.text else {}
        self.wire.tell("stopped", body | ({"hitBreakpointIds": list(stop.numbers)} if stop.numbers else {}))

    def run(self, step):
        """Goes on, or back, to a stop; to the end first, and behind it the session ends."""
        at_end = step > 0 and not self.film.has(self.count + 1)
        if at_end:
            self.end()
            return
        self.count, stop = self.stops.run(self.count, step)
        for text in self.stops.said:
            self.say(text)
        self.stops.said.clear()
        self.stopped(stop or Stop("pause", "the end of the stream" if step > 0 else "the begin of the stream"))

    def end(self):
        if not self.ended:
            self.ended = True
            self.wire.tell("terminated", {})
            self.wire.tell("exited", {"exitCode": 0})

    def go_to(self, count):
        """Goes to where so many steps were taken, unless it stands at the end already."""
        if count == self.count and not self.film.has(count + 1):
            self.end()
            return
        self.count = count
        self.stopped(Stop("step"))

    def draw(self):
        """Makes the picture of the page anew, if it is another than the one that is shown."""
        version = self.film.version(self.count)
        if self.picture is None or self.shown == version:
            return
        page, now = self.film.page(self.count), self.film.state(self.count)[0]
        self.shown = version
        try:
            made.make(self.picture, drawn.picture(page or Page(*told_size(now))), [self.stream])
        except (OSError, ValueError) as fault:
            self.picture = None
            self.wire.complain(f"the page is not drawn any more: {fault}")

    # Steps: they are answered first, and then it stops

    def do_continue(self, _asked):
        return {"allThreadsContinued": True}

    def do_next(self, _asked):
        pass

    do_stepIn = do_stepOut = do_stepBack = do_reverseContinue = do_pause = do_next

    def behind_continue(self):
        self.run(1)

    def behind_reverseContinue(self):
        self.run(-1)

    def behind_next(self):
        self.go_to(self.film.over(self.count))

    def behind_stepIn(self):
        self.go_to(self.film.up_to(self.count + 1))

    def behind_stepOut(self):
        self.go_to(self.film.out(self.count))

    def behind_stepBack(self):
        self.go_to(self.film.back_over(self.count))

    def behind_pause(self):
        self.stopped(Stop("pause"))

    def do_gotoTargets(self, asked):
        line = self.text.upto(asked.needed("line", int))
        return {"targets": [{"id": line, "label": self.text.shown(line)[:80], "line": line}] if line > 0 else []}

    def do_goto(self, asked):
        """The next place where this line comes, else the first."""
        target = asked.needed("targetId", int)
        if target < 1:
            raise Refused("there is no such target")
        place = self.text.begins(target)
        some = list(self.film.taking(place))
        if not some:
            raise Refused("no step takes this line")
        self.count = next((count for count in some if count > self.count), some[0])

    def behind_goto(self):
        self.stopped(Stop("goto"))

    # What is seen

    def do_threads(self, _asked):
        return {"threads": [{"id": THREAD, "name": "stream"}]}

    def do_stackTrace(self, asked):
        """A frame for each body that runs, the innermost first: where its next command was recorded, or the one that started what it runs."""
        places, names = [self.film.next(self.count)], ["stream"]
        for body in reversed(self.film.stack(self.count)):
            places.append(body.starter)
            names.insert(-1, body.name())
        source = {"name": self.source.name, "path": str(self.source)}
        frames = [{"id": number, "name": name, "line": self.text.line(placed), "column": 1, "source": source}
                  for number, (name, placed) in enumerate(zip(names, places), 1)]
        first, levels = max(0, asked.given("startFrame", int) or 0), asked.given("levels", int) or 0
        return {"stackFrames": frames[first:first + levels if levels > 0 else None], "totalFrames": len(frames)}

    def do_scopes(self, _asked):
        return {"scopes": [{"name": name, "variablesReference": number, "expensive": False} for number, name in enumerate(told.SCOPES, 1)]}

    def do_variables(self, asked):
        scope = asked.needed("variablesReference", int)
        if not 1 <= scope <= told.DEFAULT:
            raise Refused("there is no such scope")
        return {"variables": told.variables(scope, self.film, self.count)}

    def do_evaluate(self, asked):
        """A field, or a condition over fields."""
        text = asked.needed("expression", str).strip()
        if not DOT.fullmatch(text):
            conditions.read(text)(self.stops.step(self.count))
        return {"result": self.stops.value(text, self.count), "variablesReference": 0}

    def do_completions(self, asked):
        """The fields and words of a condition that begin as what stands before the cursor does."""
        text = asked.needed("text", str)[:max(0, asked.needed("column", int) - 1)]
        begun = WORD.search(text)[0]
        names = [*self.stops.step(0).now, "and", "or", "not", "changed", "dot "]
        return {"targets": [{"label": name, "start": len(text) - len(begun), "length": len(begun)} for name in sorted(names) if name.startswith(begun)]}


def told_size(now):
    """Width and height of a page of the size that holds, in dots."""
    return State(now).size[1:3]


def places_beside(path, text, page):
    """Where the text and the picture of the page are made: beside the stream, or where it is asked for; None for no picture."""
    source = Path(os.path.abspath(text or f"{path}.steps.txt"))
    return source, None if page is False else Path(os.path.abspath(page if isinstance(page, str) and page else f"{path}.page.png"))


def front_of(asked):
    words = asked.given("defaults", list, dict) or []
    try:
        return options.front_of([f"{name}={value}" for name, value in words.items()] if isinstance(words, dict) else asked.texts("defaults"))
    except ValueError as refused:
        raise Refused(str(refused)) from None
