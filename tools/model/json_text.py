"""JSON as tickets and messages have it. A whole number is an int, any other number a float.

Refused are: bytes that are not UTF-8, a number that is beyond all floats, a surrogate escape that has no partner,
and values nested deeper than 127. Of equal keys the last one holds.
"""

import re

DEEPEST = 127
SPACE = " \t\n\r"
NUMBER = re.compile(r"-?(?:0|[1-9][0-9]*)(\.[0-9]+)?([eE][+-]?[0-9]+)?")
ESCAPED = {'"': '"', "\\": "\\", "/": "/", "b": "\b", "f": "\f", "n": "\n", "r": "\r", "t": "\t"}
WORDS = {"true": True, "false": False, "null": None}
LEAST_WHOLE, GREATEST_WHOLE = -2 ** 63, 2 ** 64 - 1
MOST_CHARACTERS = 20  # of a whole number between these


class NotJson(Exception):
    pass


def read(text):
    """The value that the bytes spell."""
    try:
        reader = Reader(text.decode("utf-8"))
    except UnicodeDecodeError:
        raise NotJson() from None
    value = reader.value(0)
    reader.skip_space()
    if reader.place != len(reader.text):
        raise NotJson()
    return value


def is_whole(value):
    return type(value) is int


def is_text(value):
    return isinstance(value, str)


class Reader:
    def __init__(self, text):
        self.text = text
        self.place = 0

    def skip_space(self):
        while self.place < len(self.text) and self.text[self.place] in SPACE:
            self.place += 1

    def peek(self):
        self.skip_space()
        return self.text[self.place:self.place + 1]

    def take(self, expected):
        if self.peek() != expected:
            raise NotJson()
        self.place += 1

    def value(self, depth):
        first = self.peek()
        if first in ("{", "["):
            if depth == DEEPEST:
                raise NotJson()
            return self.object(depth + 1) if first == "{" else self.array(depth + 1)
        if first == '"':
            return self.string()
        for word, value in WORDS.items():
            if self.text.startswith(word, self.place):
                self.place += len(word)
                return value
        return self.number()

    def object(self, depth):
        members = {}
        self.take("{")
        if self.peek() == "}":
            self.place += 1
            return members
        while True:
            if self.peek() != '"':
                raise NotJson()
            key = self.string()
            self.take(":")
            members[key] = self.value(depth)
            if self.peek() == "}":
                self.place += 1
                return members
            self.take(",")

    def array(self, depth):
        elements = []
        self.take("[")
        if self.peek() == "]":
            self.place += 1
            return elements
        while True:
            elements.append(self.value(depth))
            if self.peek() == "]":
                self.place += 1
                return elements
            self.take(",")

    def number(self):
        found = NUMBER.match(self.text, self.place)
        if found is None:
            raise NotJson()
        self.place = found.end()
        spelled = found.group()
        fraction, exponent = found.groups()
        if fraction is None and exponent is None and spelled != "-0" and len(spelled) <= MOST_CHARACTERS:
            whole = int(spelled)
            if LEAST_WHOLE <= whole <= GREATEST_WHOLE:
                return whole
        number = float(spelled)
        if number in (float("inf"), float("-inf")):
            raise NotJson()
        return number

    def string(self):
        self.take('"')
        text = ""
        while True:
            if self.place == len(self.text):
                raise NotJson()
            character = self.text[self.place]
            self.place += 1
            if character == '"':
                return text
            if character < " ":
                raise NotJson()
            text += self.escaped() if character == "\\" else character

    def escaped(self):
        letter = self.text[self.place:self.place + 1]
        self.place += 1
        if letter in ESCAPED:
            return ESCAPED[letter]
        if letter != "u":
            raise NotJson()
        unit = self.unit()
        if 0xD800 <= unit < 0xDC00:
            if self.text[self.place:self.place + 2] != "\\u":
                raise NotJson()
            self.place += 2
            low = self.unit()
            if not 0xDC00 <= low < 0xE000:
                raise NotJson()
            return chr(0x10000 + (unit - 0xD800) * 0x400 + (low - 0xDC00))
        if 0xDC00 <= unit < 0xE000:
            raise NotJson()
        return chr(unit)

    def unit(self):
        digits = self.text[self.place:self.place + 4]
        if not re.fullmatch(r"[0-9A-Fa-f]{4}", digits):
            raise NotJson()
        self.place += 4
        return int(digits, 16)
