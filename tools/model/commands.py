"""From bytes to commands: the split of a stream, its rest, and what closes it at the end of input.

A command is one of the small tuples below. A mode is "exit", "tail", "foreign", "pcl", or Open(character, group)
after a lower-case pair of a combined sequence.
"""

from typing import NamedTuple, Optional

from .pjl import language_of_line
from .values import LONGEST_FIELD, is_field, read_value

ESC = 0x1B
LF = 0x0A
UNIVERSAL_EXIT = b"\x1b%-12345X"
LINE_START = b"@PJL"
LONGEST_LINE = 4096

EXIT, TAIL, FOREIGN, PCL = "exit", "tail", "foreign", "pcl"


class Open(NamedTuple):
    character: int
    group: int


class Escape(NamedTuple):
    byte: int


class Param(NamedTuple):
    character: int
    group: Optional[int]
    field: bytes
    end: int
    data: bytes

    def value(self):
        return read_value(self.field)


class Control(NamedTuple):
    control: int


class Text(NamedTuple):
    text: int


class Broken(NamedTuple):
    broken: bytes


class Uel(NamedTuple):
    pass


class PjlLine(NamedTuple):
    line: bytes


class Foreign(NamedTuple):
    foreign: int


# A NamedTuple is equal to any tuple of the same items, so commands are compared together with their class.
def same_command(one, other):
    return type(one) is type(other) and one == other


def same_commands(some, others):
    return len(some) == len(others) and all(map(same_command, some, others))


def kind(command):
    """The kind, in the words of the debugger."""
    if isinstance(command, Escape):
        return "esc " + chr(command.byte)
    if isinstance(command, Param):
        group = "" if command.group is None else chr(command.group)
        return "par " + chr(command.character) + group + chr(command.end)
    if isinstance(command, Control):
        return "ctl %02X" % command.control
    words = {Text: "txt", Broken: "brk", Uel: "uel", PjlLine: "pjl", Foreign: "for"}
    return words[type(command)]


def command_bytes(command):
    """The bytes that spell a command by itself."""
    if isinstance(command, Escape):
        return bytes([ESC, command.byte])
    if isinstance(command, Param):
        group = b"" if command.group is None else bytes([command.group])
        head = bytes([ESC, command.character]) + group
        return head + command.field + bytes([command.end]) + command.data
    if isinstance(command, Uel):
        return UNIVERSAL_EXIT
    if isinstance(command, (Broken, PjlLine)):
        return command[0]
    return bytes([command[0]])


def carries_data(character, group, end):
    if end == ord("W"):
        return True
    return (character, group, end) in [
        (ord("*"), ord("b"), ord("V")),
        (ord("&"), ord("p"), ord("X")),
    ]


def split(stream):
    """The commands of a stream, the mode after the last one, and the incomplete rest."""
    commands = []
    mode = EXIT
    place = 0
    while True:
        found = head(mode, stream, place)
        if found is None:
            return commands, mode, stream[place:]
        command, place, mode = found
        commands.append(command)


def closed(stream):
    """The commands of a stream that ends here."""
    commands, mode, rest = split(stream)
    return commands + closing(mode, rest)


def closing(mode, rest):
    """The commands that an incomplete rest gives at the end of input."""
    if not rest:
        return []
    if mode == FOREIGN:
        return [Foreign(byte) for byte in rest]
    if isinstance(mode, Open) and rest[0] != ESC:
        return [Broken(bytes([ESC, mode.character, mode.group]) + rest)]
    if rest[0] == ESC or rest.startswith(LINE_START):
        return [Broken(rest)]
    return [Text(byte) for byte in rest]


def head(mode, stream, place):
    """The command at a place, the place after it and the mode after it, or None where none is whole."""
    if place == len(stream):
        return None
    if mode == EXIT:
        return head_exit(stream, place)
    if mode == TAIL:
        return head_tail(stream, place)
    if mode == FOREIGN:
        return head_foreign(stream, place)
    if mode == PCL:
        return head_pcl(stream, place)
    return head_open(mode, stream, place)


def head_exit(stream, place):
    if stream.startswith(LINE_START, place):
        return head_line(stream, place)
    rest = stream[place:place + len(LINE_START)]
    if LINE_START.startswith(rest):
        return None
    return head_pcl(stream, place)


def head_line(stream, place):
    line = stream[place:place + LONGEST_LINE]
    for index, byte in enumerate(line):
        if byte == LF:
            whole = line[:index + 1]
            return PjlLine(whole), place + index + 1, mode_after_line(whole)
        if byte == ESC:
            return Broken(line[:index]), place + index, EXIT
    if len(line) == LONGEST_LINE:
        return Broken(line), place + LONGEST_LINE, TAIL
    return None


def mode_after_line(line):
    language = language_of_line(line)
    if language is None:
        return EXIT
    return PCL if language == b"PCL" else FOREIGN


def head_tail(stream, place):
    byte = stream[place]
    if byte == ESC:
        return head_exit(stream, place)
    return Broken(bytes([byte])), place + 1, EXIT if byte == LF else TAIL


def head_foreign(stream, place):
    if stream.startswith(UNIVERSAL_EXIT, place):
        return Uel(), place + len(UNIVERSAL_EXIT), EXIT
    rest = stream[place:place + len(UNIVERSAL_EXIT)]
    if UNIVERSAL_EXIT.startswith(rest):
        return None
    return Foreign(stream[place]), place + 1, FOREIGN


def head_pcl(stream, place):
    byte = stream[place]
    if byte != ESC:
        command = Control(byte) if byte < 32 else Text(byte)
        return command, place + 1, PCL
    if stream.startswith(UNIVERSAL_EXIT, place):
        return Uel(), place + len(UNIVERSAL_EXIT), EXIT
    if place + 1 == len(stream):
        return None
    character = stream[place + 1]
    if 48 <= character <= 126:
        return Escape(character), place + 2, PCL
    if not 33 <= character <= 47:
        return Broken(stream[place:place + 1]), place + 1, PCL
    if place + 2 == len(stream):
        return None
    group = stream[place + 2]
    if 96 <= group <= 126:
        return head_pair(Open(character, group), stream, place, place + 3, b"")
    return head_without_group(character, stream, place)


def head_open(mode, stream, place):
    """The next pair of a combined sequence; where nothing of it can be read, the sequence has just ended."""
    if field_end(stream, place) == place and not is_parameter(stream[place]):
        return head_pcl(stream, place)
    prefix = bytes([ESC, mode.character, mode.group])
    return head_pair(mode, stream, place, place, prefix)


def head_pair(mode, stream, start, field_start, prefix):
    """A pair of field and parameter character. What is read from `start` on breaks, after the prefix."""
    after_field = field_end(stream, field_start)
    if after_field == len(stream):
        return None
    parameter = stream[after_field]
    if not is_parameter(parameter):
        return Broken(prefix + stream[start:after_field]), after_field, PCL
    last = parameter <= 94
    end = parameter if last else parameter - 32
    field = stream[field_start:after_field]
    found = with_data(mode.character, mode.group, field, end, stream, after_field + 1)
    if found is None:
        return None
    command, after = found
    return command, after, PCL if last else mode


def head_without_group(character, stream, place):
    field_start = place + 2
    after_field = field_end(stream, field_start)
    if after_field == len(stream):
        return None
    end = stream[after_field]
    if not 64 <= end <= 94:
        return Broken(stream[place:after_field]), after_field, PCL
    field = stream[field_start:after_field]
    found = with_data(character, None, field, end, stream, after_field + 1)
    if found is None:
        return None
    command, after = found
    return command, after, PCL


def with_data(character, group, field, end, stream, place):
    """The command with the data that it carries, and the place after them."""
    count = 0
    if carries_data(character, group, end):
        count = max(0, read_value(field).whole())
    if place + count > len(stream):
        return None
    data = stream[place:place + count]
    return Param(character, group, field, end, data), place + count


def is_parameter(byte):
    return 64 <= byte <= 94 or 96 <= byte <= 126


def field_end(stream, start):
    """The place after the longest value field that stands at the start."""
    end = start
    while (end < len(stream) and end - start < LONGEST_FIELD
           and is_field(stream[start:end + 1])):
        end += 1
    return end
