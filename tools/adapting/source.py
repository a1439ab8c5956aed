"""The text of a stream that an editor shows: a line for each command, with what it is and does, and one for the end."""

from seen import explained, happenings

TEXT_WIDTH = 28
LONGEST_TEXT = 72
AT_ONCE = 4000    # lines that are made before a launch is answered; others come behind


class Text:
    """The rows of a stream, and where each stands in the text. Lines are counted from 1, places from the front that sets the defaults. A long text is
    made on behind the caller, who waits for lines that he asks for."""

    def __init__(self, stream, front, chosen, texts=None):
        self.run = happenings.Run(stream, front=front, chosen=chosen, texts=texts)
        self.shift, self.size = len(front), len(stream) + len(front)
        self.read = explained.Read(self.run, lambda text, remark: line_of(text, remark) + "\n")
        self.read.go_on(AT_ONCE)

    @property
    def is_whole(self):
        return self.read.is_whole

    @property
    def steps(self):
        """How many steps there are, once it is whole."""
        return self.run.steps

    def make_on(self, then):
        """Makes the lines that are left, and calls `then`."""
        self.read.read_behind(then)

    def upto(self, line):
        """This line, or the last where there are fewer."""
        return line if self.read.has(line - 1) else len(self.read.ends) - 1

    def shown(self, line):
        return self.read.shown(line - 1).removesuffix("\n")

    def line(self, placed):
        """The line of a command, or of the end."""
        return self.read.number(self.size if placed is None else placed.offset - self.shift) + 1

    def begins(self, line):
        """The place of the first byte of a line; that of the end is behind the stream."""
        self.read.has(line)
        return self.read.starts[line - 1] + self.shift if line <= len(self.read.starts) else self.size


def line_of(text, remark):
    shown = text if len(text) <= LONGEST_TEXT else text[:LONGEST_TEXT] + ".."
    return f"{shown:{TEXT_WIDTH}} ; {remark}"
