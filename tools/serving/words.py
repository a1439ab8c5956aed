"""What words of tools/printer, tools/jmf and tools/scrub have to be."""

import re
from pathlib import Path


def counted(text):
    """A number from 1 on."""
    if not re.fullmatch("[1-9][0-9]{0,9}", text):
        raise ValueError(text)
    return int(text)


def port(text):
    if not re.fullmatch("[0-9]{1,5}", text) or int(text) > 65535:
        raise ValueError(text)
    return int(text)


def folder(text):
    if not Path(text).is_dir():
        raise ValueError(text)
    return Path(text).resolve()


counted.__name__ = "number from 1 on"     # as a refusal calls it
