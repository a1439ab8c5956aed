"""The words of the tools that compare, and of those of a network: each takes --default NAME=VALUE, as the printer's control panel sets it, again for more."""

import argparse
import sys

from model import defaults
from seen.pages_of import Fault
from seen.printable import complain, printable

REFUSED = 2


class Parser(argparse.ArgumentParser):
    """Refuses words in one line without control characters, with status 2."""

    def __init__(self, about, json=True, settings=True, **more):
        super().__init__(description=about, formatter_class=argparse.RawDescriptionHelpFormatter, allow_abbrev=False, **more)
        if settings:
            self.add_argument(defaults.OPTION, dest="defaults", action="append", default=[], metavar="NAME=VALUE",
                              help="what the printer's control panel would set, as RESOLUTION=600; again for more")
        if json:
            self.add_argument("--json", action="store_true", help="tells all as one line of JSON")

    def error(self, message):
        print(f"{printable(' '.join(self.format_usage().split()))}\n{self.prog}: {printable(message)}", file=sys.stderr)
        sys.exit(REFUSED)


def status_of(tool, main, words):
    """The status of a tool: what ends it is told in words, and is 2."""
    try:
        return main(words)
    except BrokenPipeError:
        raise     # a reader that goes away is no fault
    except (OSError, ValueError, Fault) as fault:
        complain(tool, fault)
        return REFUSED
