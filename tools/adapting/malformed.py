"""What is no message of the Debug Adapter Protocol, or no request that can be carried out, with what has to come of it; the session goes on.

A row is what it shows, the bytes or the message that comes, and what is answered: REFUSED with a part of the reason, TOLD by an event with a part of
its text, ANSWERED with a part of the body, or nothing. `seq` of a request is 7 where the row gives none. {} in a text is the folder of the stream.
"""

import json
import random

REFUSED, TOLD, ANSWERED, NOTHING = "refused", "told", "answered", "nothing"
NUMBER = 7
DEEP = 20_000
NO_LINE = {"verified": False, "message": "the text has no such line"}


def framed(body):
    return b"Content-Length: %d\r\n\r\n%s" % (len(body), body)


def head(length, body=b'{"seq":7,"type":"request","command":"threads"}'):
    return b"Content-Length: " + length + b"\r\n\r\n" + body


def message(**more):
    return {"seq": NUMBER, "type": "request", **more}


def without(name, told):
    return {key: value for key, value in told.items() if key != name}


def asks(command, **arguments):
    return message(command=command, arguments=arguments)


def breaks(*some, source=None):
    return asks("setBreakpoints", source={"path": "{}/in.pcl.steps.txt"} if source is None else source, breakpoints=list(some))


def unverified(why):
    return ANSWERED, {"breakpoints": [{"verified": False, "message": why}]}


THREADS = message(command="threads")
HEADS = [
    ("a length of letters", head(b"abc"), TOLD, "its length is abc"),
    ("a length below 0", head(b"-5"), TOLD, "its length is -5"),
    ("a length of a terabyte", head(b"1000000000000"), TOLD, "its length is 1000000000000"),
    ("a length of 5,000 digits", head(b"9" * 5000), TOLD, "its length is 999"),
    ("a length of nothing", head(b""), TOLD, "its length is "),
    ("a length of 0", head(b"0", b""), TOLD, "its length is 0"),
    ("a length with control characters", head(b"\x1b[2J"), TOLD, "its length is \\u001b[2J"),
    ("a head without a length", b"Content-Type: json\r\n\r\n", NOTHING, None),
    ("lines of nothing", b"\r\n\n\r\n", NOTHING, None),
    ("no JSON", framed(b"{"), TOLD, "it is no JSON"),
    ("no UTF-8", framed(b'{"\xff":1}'), TOLD, "it is no JSON"),
    ("20,000 lists in one another", framed(b"[" * DEEP), TOLD, "it is no JSON: it nests too deep"),
    ("a list", framed(b'[{"seq":7}]'), TOLD, "it is no object"),
    ("a number", framed(b"7"), TOLD, "it is no object"),
    ("a text", framed(b'"threads"'), TOLD, "it is no object"),
    ("null", framed(b"null"), TOLD, "it is no object"),
]
REQUESTS = [
    ("no type", without("type", THREADS), NOTHING, None),
    ("a response", {**THREADS, "type": "response"}, NOTHING, None),
    ("a type that is a list", {**THREADS, "type": ["request"]}, NOTHING, None),
    ("no command", message(), REFUSED, "'command' is missing"),
    ("a command that is a number", message(command=1), REFUSED, "command is not a text"),
    ("a command that is a list", message(command=["threads"]), REFUSED, "command is not a text"),
    ("a command of another name", message(command="__init__"), REFUSED, "__init__ is not carried out"),
    ("a command that is no text", message(command="\ud800\x1b"), REFUSED, "\\ud800\\u001b is not carried out"),
    ("no seq", without("seq", THREADS), ANSWERED, {"threads": [{"id": 1}]}),
    ("a seq that is a text", {**THREADS, "seq": "7"}, ANSWERED, {"threads": [{"id": 1}]}),
    ("a seq of 4,000 digits", {**THREADS, "seq": 10 ** 4000}, ANSWERED, {"threads": [{"id": 1}]}),
    ("a line of 4,000 digits", asks("gotoTargets", line=10 ** 4000), REFUSED, "line is not a whole number"),
    ("arguments that are a list", message(command="threads", arguments=[1]), REFUSED, "arguments is not an object"),
    ("arguments that are a text", message(command="evaluate", arguments="x"), REFUSED, "arguments is not an object"),
]
BREAKPOINTS = [
    ("no source", asks("setBreakpoints", breakpoints=[{"line": 1}]), *unverified("the stream has no such text")),
    ("a source that is a text", breaks(source="in.pcl"), REFUSED, "source is not an object"),
    ("a path that is a number", breaks(source={"path": 1}), REFUSED, "path is not a text"),
    ("breakpoints that are an object", asks("setBreakpoints", source={}, breakpoints={"line": 1}), REFUSED, "breakpoints is not a list"),
    ("a breakpoint that is a number", breaks(1), REFUSED, "what stands in breakpoints is not an object"),
    ("a breakpoint without a line", breaks({}), REFUSED, "'line' is missing"),
    ("a line that is a text", breaks({"line": "1"}), REFUSED, "line is not a whole number"),
    ("a line that is a truth value", breaks({"line": True}), REFUSED, "line is not a whole number"),
    ("a line with a fraction", breaks({"line": 1.5}), REFUSED, "line is not a whole number"),
    ("line 0, and one far below", breaks({"line": 0}, {"line": -10 ** 9}), ANSWERED, {"breakpoints": [NO_LINE, NO_LINE]}),
    ("a condition that is a number", breaks({"line": 1, "condition": 1}), REFUSED, "condition is not a text"),
    ("20,000 parentheses", breaks({"line": 1, "condition": "(" * DEEP + "x" + ")" * DEEP}), *unverified("it has more than 200 words")),
    ("199 parentheses", breaks({"line": 1, "condition": "(" * 199 + "x"}), *unverified("a ) is missing")),
    ("20,000 times or", breaks({"line": 1, "condition": "x or " * DEEP + "x"}), *unverified("it has more than 200 words")),
    ("no field behind and", breaks({"line": 1, "condition": "marked and foo > 1"}), *unverified("foo is no field")),
    ("a number of 5,000 digits in a condition", breaks({"line": 1, "condition": "marked and x > " + "9" * 5000}),
     *unverified("a number has more than 40 digits")),
    ("a count that is a list", breaks({"line": 1, "hitCondition": [3]}), REFUSED, "hitCondition is not a text"),
    ("a count of 5,000 digits", breaks({"line": 1, "hitCondition": "9" * 5000}), *unverified("a number has more than 40 digits")),
    ("a KIND that is a number", asks("setFunctionBreakpoints", breakpoints=[{"name": 1}]), REFUSED, "name is not a text"),
    ("a KIND that is missing", asks("setFunctionBreakpoints", breakpoints=[{}]), REFUSED, "'name' is missing"),
    ("a KIND that is no text", asks("setFunctionBreakpoints", breakpoints=[{"name": "\ud800"}]), ANSWERED, {"breakpoints": [{"verified": False}]}),
    ("filters that are a text", asks("setExceptionBreakpoints", filters="sheet"), REFUSED, "filters is not a list"),
    ("filters that are numbers", asks("setExceptionBreakpoints", filters=[1]), REFUSED, "what stands in filters is not a text"),
    ("a filter option without its filter", asks("setExceptionBreakpoints", filterOptions=[{"condition": "x"}]), REFUSED, "'filterId' is missing"),
    ("a filter option with no field", asks("setExceptionBreakpoints", filterOptions=[{"filterId": "idle", "condition": "marked and foo"}]),
     REFUSED, "foo is no field"),
]
PLACES = [
    ("locations from far below", asks("breakpointLocations", line=-10 ** 9), ANSWERED, {"breakpoints": []}),
    ("locations from far below to the first", asks("breakpointLocations", line=-10 ** 9, endLine=1), ANSWERED, {"breakpoints": [{"line": 1}]}),
    ("locations to far behind", asks("breakpointLocations", line=18, endLine=10 ** 30), ANSWERED, {"breakpoints": [{"line": 18}]}),
    ("locations of a text", asks("breakpointLocations", line="1"), REFUSED, "line is not a whole number"),
    ("targets at line 0", asks("gotoTargets", line=0), ANSWERED, {"targets": []}),
    ("targets below 0", asks("gotoTargets", line=-3), ANSWERED, {"targets": []}),
    ("targets of a text", asks("gotoTargets", line="3"), REFUSED, "line is not a whole number"),
    ("a target far below 0", asks("goto", targetId=-10 ** 9), REFUSED, "there is no such target"),
    ("a target that is a text", asks("goto", targetId="1"), REFUSED, "targetId is not a whole number"),
    ("a frame that is a text", asks("stackTrace", startFrame="1"), REFUSED, "startFrame is not a whole number"),
    ("a frame below 0", asks("stackTrace", startFrame=-5, levels=-1), ANSWERED, {"totalFrames": 1, "stackFrames": [{"name": "stream"}]}),
    ("levels that are a list", asks("stackTrace", levels=[1]), REFUSED, "levels is not a whole number"),
    ("a scope that is a text", asks("variables", variablesReference="1"), REFUSED, "variablesReference is not a whole number"),
    ("a scope that is true", asks("variables", variablesReference=True), REFUSED, "variablesReference is not a whole number"),
    ("a scope below 0", asks("variables", variablesReference=-1), REFUSED, "there is no such scope"),
    ("an expression that is a number", asks("evaluate", expression=1), REFUSED, "expression is not a text"),
    ("no expression", asks("evaluate"), REFUSED, "'expression' is missing"),
    ("an expression of nothing", asks("evaluate", expression=""), REFUSED, "a field or a value is missing"),
    ("an expression of 20,000 parentheses", asks("evaluate", expression="(" * DEEP), REFUSED, "it has more than 200 words"),
]
LAUNCHES = [
    ("a program that is a number", asks("launch", program=1), REFUSED, "program is not a text"),
    ("no program", asks("launch"), REFUSED, "'program' is missing"),
    ("a program that is a folder", asks("launch", program="{}"), REFUSED, "is no file"),
    ("a program that is a device", asks("launch", program="/dev/zero"), REFUSED, "is no file"),
    ("a program with a zero byte", asks("launch", program="in\0.pcl"), REFUSED, ""),
    ("defaults that are a number", asks("launch", program="{}/in.pcl", defaults=7), REFUSED, "defaults is not a list or an object"),
    ("defaults that are numbers", asks("launch", program="{}/in.pcl", defaults=[7]), REFUSED, "what stands in defaults is not a text"),
    ("a text that is a number", asks("launch", program="{}/in.pcl", text=1), REFUSED, "text is not a text"),
    ("a page that is a list", asks("launch", program="{}/in.pcl", page=[]), REFUSED, "page is not a text or true or false"),
    ("a stop that is a text", asks("launch", program="{}/in.pcl", stopOnEntry="no"), REFUSED, "stopOnEntry is not true or false"),
    ("a text in no folder", asks("launch", program="{}/in.pcl", text="{}/no/text"), REFUSED, "No such file"),
    ("a text that is the stream", asks("launch", program="{}/in.pcl", text="{}/in.pcl"), REFUSED, "which it would replace"),
    ("a text that is a link to the stream", asks("launch", program="{}/in.pcl", text="{}/link"), REFUSED, "which it would replace"),
    ("a text that is another name of the stream", asks("launch", program="{}/in.pcl", text="{}/other"), REFUSED, "which it would replace"),
    ("a page that is a link to the stream", asks("launch", program="{}/in.pcl", page="{}/link"), REFUSED, "which it would replace"),
    ("a stream that is called as its picture is", asks("launch", program="{}/link", page="{}/other"), REFUSED, "which it would replace"),
    ("a text and a picture of one name", asks("launch", program="{}/in.pcl", text="{}/made", page="{}/made"), REFUSED, "of the text, and of the picture"),
]
ROWS = [*HEADS, *REQUESTS, *BREAKPOINTS, *PLACES, *LAUNCHES]

COMMANDS = ["initialize", "configurationDone", "restart", "setBreakpoints", "setFunctionBreakpoints", "setExceptionBreakpoints", "breakpointLocations",
            "exceptionInfo", "continue", "next", "stepIn", "stepOut", "stepBack", "reverseContinue", "pause", "gotoTargets", "goto", "threads",
            "stackTrace", "scopes", "variables", "evaluate", "launch", "dataBreakpointInfo", "setDataBreakpoints", "completions", "noSuchRequest", "", "do_next", "\ud800"]
NAMES = ["source", "path", "breakpoints", "line", "endLine", "condition", "hitCondition", "name", "filters", "filterOptions", "filterId", "expression",
         "targetId", "dataId", "column", "logMessage", "startFrame", "levels", "variablesReference", "threadId", "frameId", "defaults", "text", "page", "stopOnEntry", "granularity"]
WORDS = ["x", "dot 99, 187", "dot 999999,0", "{x} {dot 1, 1} {", "marked", "foo", "page changed", "x > 1 and foo", "((", "not " * 150 + "x", "== 3", "% 0", "3", "par *cP", "uel", "idle", "sheet", "RESOLUTION=600",
         "\ud800", "\0", "\x1b[2J", "", "last == 'par *cP'", "current.copies >= 1 or width", "9" * 50, "'", "-", "settings.unit changed"]
NUMBERS = [0, 1, 2, 3, 12, 18, 19, -1, -10 ** 9, 10 ** 9, 10 ** 30, 2 ** 63, 1.5, -0.0, float("nan"), float("inf")]


def value(chance, depth=0):
    """A value of any kind."""
    kind = chance.randrange(8 if depth < 3 else 5)
    if kind < 2:
        return chance.choice(NUMBERS)
    if kind < 4:
        return chance.choice(WORDS)
    if kind == 4:
        return chance.choice([None, True, False])
    if kind == 5:
        return [value(chance, depth + 1) for _ in range(chance.randrange(3))]
    return arguments(chance, depth + 1)


def arguments(chance, depth=0):
    return {chance.choice(NAMES): value(chance, depth) for _ in range(chance.randrange(5))}


def request(chance, number):
    """A request that is malformed in some place, or in none."""
    told = message(command=chance.choice(COMMANDS), arguments=arguments(chance)) | {"seq": number}
    if chance.random() < 0.15:
        told[chance.choice(["command", "arguments"])] = value(chance)
    if chance.random() < 0.05:
        del told[chance.choice(["command", "arguments"])]
    return told


def noise(chance):
    """Bytes between two requests that are no message."""
    body = json.dumps(value(chance)).encode()
    return chance.choice([b"", b"", b"", b"\r\n", head(chance.choice([b"abc", b"-1", b"99999999999", b""]), b""), framed(b"[]"), framed(body[:-1] + b"\xff"),
                          b"X: y\r\n\r\n", bytes(chance.choices(range(256), k=20)).replace(b"ontent", b"") + b"\n"])


def fuzzed(seed, count, names):
    """The bytes of a session of so many requests; what is launched has one of these names."""
    chance, told = random.Random(seed), []
    for number in range(1, count + 1):
        asked = request(chance, number)
        if asked.get("command") == "launch" and isinstance(asked.get("arguments"), dict):
            asked["arguments"] |= {"program": chance.choice(names), "text": names[-1] + ".text", "page": False}
        told.append(noise(chance) + framed(json.dumps(asked).encode()))
    return b"".join(told)
