"""What the tools that run a stream take before their words: --default NAME=VALUE, as the printer's control panel sets it, again for more."""

from model import defaults


def front_and_rest(words):
    """The bytes that stand in front of the stream for the defaults, and the other words; ValueError where a word is none of them."""
    front, place = [], 0
    while words[place:place + 1] == [defaults.OPTION]:
        front += words[place + 1:place + 2] or [""]
        place += 2
    return front_of(front), words[place:]


def front_of(some):
    """The bytes in front of the stream for these defaults."""
    try:
        return defaults.front(some)
    except defaults.Refused as refused:
        raise ValueError(f"{refused} sets no variable of the job language to a value that it has") from None
