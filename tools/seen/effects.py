"""A trace and a listing as one number: all that they tell, and which dots each step turns, but for how large the boxes are in which they are told."""

import hashlib
import json

from .patches import Open

DIGITS = 10


def turned(patch, old):
    """The dots that a patch turns: for each line of the page that has some, the number of it and the dots, from the left edge on."""
    left = patch["x"] // 8
    for number, (row, text) in enumerate(zip(old, patch["rows"]), patch["y"]):
        size = len(text) // 2
        dots = int.from_bytes(row[left:left + size], "big") ^ int(text, 16)
        if dots:
            found = bytes(left) + dots.to_bytes(size, "big")
            yield number, found.rstrip(b"\0").hex()


def digest_of(lines, listing):
    """The digest of what some lines tell, and of a listing with its replies, which tells the sides that went out."""
    page, found = Open(), hashlib.sha256()
    for line in lines:
        patch, old = line.get("page", ()), page.go_on(line)
        told = {key: value for key, value in line.items() if key != "page"}
        if patch is None or old:
            told["page"] = patch if patch is None else list(turned(patch, old))
        found.update(json.dumps(told, sort_keys=True).encode())
    found.update(listing)
    return found.hexdigest()[:DIGITS]
