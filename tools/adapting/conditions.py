"""Conditions over the fields of a step: `x > 2400`, `page changed`, `drawing.width >= 72 and not marked`, `last == "par *cP"`."""

import operator
import re

TOKEN = re.compile(r"\s*(>=|<=|==|!=|>|<|\(|\)|\"[^\"]*\"|'[^']*'|-?\d+|[A-Za-z_][\w.]*)")
COMPARE = {">": operator.gt, "<": operator.lt, ">=": operator.ge, "<=": operator.le, "==": operator.eq, "!=": operator.ne}
WORDS = {"true": True, "false": False, "null": None}
MOST_TOKENS, MOST_DIGITS = 200, 40
HITS = re.compile(r"\s*(>=|<=|==|>|<|%)?\s*(\d+)\s*")


class BadCondition(Exception):
    """A text that is no condition, or names no field."""


class Step:
    """What a condition may ask of a step: what is told of it and of the one before."""

    def __init__(self, now, before):
        self.now = now          # by name: the fields, and `page`
        self.before = before

    def value(self, name):
        return find(self.now, name)

    def changed(self, name):
        return find(self.now, name) != find(self.before, name)


def find(told, name):
    """A field by its name, or by that of its object and its own, as `drawing.width`."""
    if name in told:
        return told[name]
    some = [key for key in told if key.endswith("." + name)]
    if len(some) != 1:
        raise BadCondition(f"{name} is {'no field' if not some else 'one of ' + ', '.join(sorted(some))}")
    return told[some[0]]


class Condition:
    """What a text asks: a function of a step."""

    def __init__(self, asks, names):
        self.asks = asks
        self.names = names      # of the fields that it reads

    def __call__(self, step):
        return self.asks(step)

    def check(self, step):
        """Fails where it reads what is no field."""
        for name in self.names:
            step.value(name)


class Parser:
    def __init__(self, text):
        self.tokens, place = [], 0
        while text[place:].strip():
            found = TOKEN.match(text, place)
            if not found:
                raise BadCondition(f"{text[place:].strip()[:20]} is not understood")
            self.tokens.append(found[1])
            place = found.end()
            if len(self.tokens) > MOST_TOKENS:
                raise BadCondition(f"it has more than {MOST_TOKENS} words")
        self.place = 0
        self.names = []

    def take(self, *wanted):
        """The next token, if it is one of these, or any."""
        token = self.tokens[self.place] if self.place < len(self.tokens) else None
        if token is None or wanted and token not in wanted:
            return None
        self.place += 1
        return token

    def either(self):
        some = [self.both()]
        while self.take("or"):
            some.append(self.both())
        return first_that_is(True, some)

    def both(self):
        some = [self.single()]
        while self.take("and"):
            some.append(self.single())
        return first_that_is(False, some)

    def single(self):
        if self.take("not"):
            one = self.single()
            return lambda step: not one(step)
        if self.take("("):
            one = self.either()
            if not self.take(")"):
                raise BadCondition("a ) is missing")
            return one
        name, left = self.operand()
        if name and self.take("changed"):
            return lambda step: step.changed(name)
        sign = self.take(*COMPARE)
        if not sign:
            return left
        _, right = self.operand()
        return lambda step: compared(sign, left(step), right(step))

    def operand(self):
        """The name of a field, or None for a value, and what gives it."""
        token = self.take()
        if token is None or token in COMPARE or token in "()":
            raise BadCondition("a field or a value is missing")
        if token[0] in "\"'":
            return None, lambda step: token[1:-1]
        if token.lstrip("-").isdigit():
            number = number_of(token)
            return None, lambda step: number
        if token in WORDS:
            return None, lambda step: WORDS[token]
        self.names.append(token)
        return token, lambda step: step.value(token)


def first_that_is(wanted, some):
    """What the first of some says that is so, as true or as false, else the last."""
    def asks(step):
        for one in some:
            said = one(step)
            if bool(said) is wanted:
                break
        return said
    return asks if len(some) > 1 else some[0]


def number_of(digits):
    if len(digits) > MOST_DIGITS:
        raise BadCondition(f"a number has more than {MOST_DIGITS} digits")
    return int(digits)


def compared(sign, left, right):
    if sign not in ("==", "!=") and (not isinstance(left, int) or not isinstance(right, int)):
        return False
    return COMPARE[sign](left, right)


def read(text):
    """The condition that a text is."""
    parser = Parser(text)
    found = parser.either()
    if parser.place < len(parser.tokens):
        raise BadCondition(f"{parser.tokens[parser.place]} is one too many")
    return Condition(found, parser.names)


def read_hits(text):
    """What a hit count asks: a function of how often a breakpoint was met. A number alone is `from this time on`."""
    found = HITS.fullmatch(text)
    if not found:
        raise BadCondition(f"{text[:MOST_DIGITS]} is no number of hits")
    number = number_of(found[2])
    if found[1] == "%":
        return lambda count: number > 0 and count % number == 0
    return lambda count: COMPARE[found[1] or ">="](count, number)
