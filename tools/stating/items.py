"""What stands in the repository that no change may drop unsaid: public clauses, tests, edits that must fail, the lines of the gate, how much each of its
tools asks, and the texts of help and of refusals."""

import hashlib
import json
import re
from typing import NamedTuple

from asked import told as texts

SHOWN = 100      # characters of a clause that are told
BEHIND = re.compile(r"\n\n(?!\s*(?://(?!/)|requires\b|ensures\b))|\Z")   # a blank line that is no part of a contract
CLAUSE = re.compile(r"\b(requires|ensures)\b( \w+)?\s*\{")
FUNCTION = re.compile(r"^( *)(pub )?(?:const )?(?:unsafe )?fn (\w+)", re.MULTILINE)
HEAD = re.compile(r"^(?:unsafe )?(?:pub )?(?:impl|trait)\b.*", re.MULTILINE)
TEST = re.compile(r"#\[test\]\s+(?:pub )?fn (\w+)")
DIGITS = 10      # of a digest


class Item(NamedTuple):
    kind: str
    name: str
    said: str      # what stands there, whole

    def digest(self):
        return hashlib.sha256("\n".join(self).encode()).hexdigest()[:DIGITS]

    def line(self):
        said = " ".join(self.said.split())
        said = said if len(said) <= SHOWN else said[:SHOWN] + ".."
        return f"{self.digest()} {self.kind} {self.name}" + (f": {said}" if said else "")


def balanced(text, start):
    """The place behind the brace that closes the one at `start`."""
    depth = 0
    for place in range(start, len(text)):
        depth += {"{": 1, "}": -1}.get(text[place], 0)
        if depth == 0:
            return place + 1
    return len(text)


def name_of_head(head):
    """What a block of methods is of, without the parameters that stand in front."""
    rest = re.sub(r"^(?:pub |unsafe )*(?:impl|trait)", "", head).rstrip(" {")
    depth = place = 0
    for place, character in enumerate(rest):
        depth += {"<": 1, ">": -1}.get(character, 0) if rest[place - 1:place + 1] != "->" else 0
        if depth == 0:
            break
    return (rest[place + 1:] if rest[:1] == "<" else rest).strip()


def placed_clauses_of(text):
    """The clauses of the public functions of a file, and of those that a trait has or that stand for one: each with its function, and where that stands."""
    heads = [(found.start(), found[0]) for found in HEAD.finditer(text)]
    for found in FUNCTION.finditer(text):
        head = next((head for place, head in reversed(heads) if place < found.start()), "") if found[1] else ""
        if not (found[2] or " for " in head or "trait " in head):
            continue
        where = name_of_head(head)
        place = found.end()
        end = text.find(f"\n{found[1]}{{\n", place)
        stop = min(end if end >= 0 else len(text), BEHIND.search(text, place).start())
        while (clause := CLAUSE.search(text, place, stop)) is not None:
            place = balanced(text, clause.end() - 1)
            yield f"{where}::{found[3]}" if where else found[3], " ".join(text[clause.start():place].split()), found.start()


def clauses_of(text):
    """These clauses, each with its function."""
    for name, said, _ in placed_clauses_of(text):
        yield name, said


def clauses(root):
    for path in sorted(root.glob("crates/*/src/**/*.rt")):
        crate = path.relative_to(root / "crates").parts[0]
        for name, said in clauses_of(path.read_text()):
            yield Item("clause", f"{crate} {name}", said)


def tests(root):
    for path in sorted(root.glob("crates/*/src/**/*.rt")):
        for found in TEST.finditer(path.read_text()):
            yield Item("test", f"{path.relative_to(root / 'crates').parts[0]} {path.stem}::{found[1]}", "")


def edits(root):
    for path in sorted(root.glob("crates/*/must-fail/*.edit")):
        yield Item("edit", f"{path.parent.parent.name} {path.name}", " ".join(path.read_text().split()))


def gate(root):
    for line in (root / ".ci/run").read_text().splitlines():
        if line and not line.startswith("#"):
            yield Item("gate", line.strip(), "")


def told(root):
    """The texts of help and of refusals, in the order in which they are kept."""
    for words, text in texts.texts(root / "tools/asked/told.txt").items():
        yield Item("told", texts.MARK + words, f"{texts.MARK}{words}\n{text.decode()}")


def counts(root):
    """How much each tool of the gate asks at least."""
    return {f"{tool} {what}": number for tool, some in json.loads((root / "tools/least.json").read_text()).items() for what, number in some.items()}


KINDS = (clauses, tests, edits, gate, told)
OF_A_CRATE = ("clause", "test", "edit")   # the kinds whose names begin with the crate


def every(root):
    return [item for kind in KINDS for item in kind(root)]
