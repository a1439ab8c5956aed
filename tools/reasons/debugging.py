"""Why a line of a debugger is answered so: lines that ask nothing, and breakpoints that are refused."""

from model import press_lines
from model.debug_lines import DebugLines
from seen import program

from .finding import Finding, advice_for_line

LINES = "A line is step, over, go N, break KIND, clear N or recent, with one space between words"
KINDS = "KIND is esc E, par *cP, ctl 0C or uel, without value and data (docs/DEBUGGER.md)"
REFUSALS = {
    "fault 501": ("32 breakpoints are set", "Free a number first: clear 0"),
    "fault 502": ("no breakpoint stands at that number", "Look at what break answered"),
}


def findings(script, name, stream, chosen=program.PROGRAM):
    """The findings on the lines of a debugger of this stream, in order."""
    model = DebugLines(stream)
    printed = iter(program.ask(["debug", name], script, chosen).stdout.decode(errors="replace").splitlines())
    for number, line in enumerate(press_lines.lines_of(script), 1):
        answers = [next(printed, "") for _ in model.answers(line)]
        shown = f"line {number}"
        if answers == ["what?"]:
            yield Finding(None, f"{shown} asks nothing of the debugger: '{line.decode(errors='replace')[:60]}'",
                          advice_for_line(line, LINES, KINDS if line.startswith(b"break") else LINES))
        elif answers and answers[0] in REFUSALS:
            sentence, advice = REFUSALS[answers[0]]
            yield Finding(None, f"{shown} is answered {answers[0]}: {sentence}", advice)
