"""Value fields, positions and dots.

A value field is an optional sign, digits, and an optional point with digits; each part may be empty. Its value
is kept in ten-thousandths, with the flag that a sign stood. A position is a whole number of 1/7200 inch; how many of
them a dot has depends on the resolution, in dots per inch.
"""

import re
from typing import NamedTuple

FIELD = re.compile(rb"([+-]?)([0-9]*)(?:\.([0-9]*))?")
LONGEST_FIELD = 32

LEAST = -32767 * 10000
GREATEST = 65535 * 10000

POSITIONS_PER_INCH = 7200
DECIPOINT = 10
HMI_UNIT = 60
VMI_UNIT = 150
FACTORY_RESOLUTION = 300

# The units of measure: divisors of 7200 from 96 to 7200.
UNITS_OF_MEASURE = [unit for unit in range(96, 7201) if 7200 % unit == 0]


class Value(NamedTuple):
    tenthousandths: int
    signed: bool

    def whole(self):
        """The value without its fraction, towards zero."""
        return truncated(self.tenthousandths, 10000)


def truncated(dividend, divisor):
    """The quotient without its fraction, towards zero; the divisor is above 0."""
    quotient = abs(dividend) // divisor
    return quotient if dividend >= 0 else -quotient


def is_field(field):
    return len(field) <= LONGEST_FIELD and FIELD.fullmatch(field) is not None


def read_value(field):
    """The number of the whole text, cut to the range at the end."""
    sign, digits, fraction = FIELD.fullmatch(field).groups()
    fraction = (fraction or b"")[:4].ljust(4, b"0")
    number = int(digits or b"0") * 10000 + int(fraction)
    if sign == b"-":
        number = -number
    return Value(max(LEAST, min(GREATEST, number)), sign != b"")


def to_position(value, unit):
    """The product of a value and a unit of so many positions, truncated."""
    return truncated(value.tenthousandths * unit, 10000)


def dot_positions(resolution):
    """How many positions a dot has."""
    return POSITIONS_PER_INCH // resolution


def dot(position, resolution):
    return position // dot_positions(resolution)
