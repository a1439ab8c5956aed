"""What `press tables` prints, as it stands in asked/tables.json: the program prints it byte for byte (`tools/answers`)."""

import functools
import json
from pathlib import Path

PATH = Path(__file__).resolve().parent.parent / "asked" / "tables.json"


@functools.cache
def tables():
    return json.loads(PATH.read_text(encoding="ascii"))


def names(table):
    """The names of the rows of a table, in their order."""
    return [row["name"] for row in tables()[table]]


def fault_numbers():
    return [row["number"] for row in tables()["faults"] if row["number"] is not None]
