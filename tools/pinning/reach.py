"""Which functions of the model a row calls, and which of them a switch changes: a row that calls none of these cannot see the switch.

A change outside of all functions, as that of a table, is seen by any row.
"""

import ast
from functools import lru_cache

from model.switches import loading

CALLED = set()  # module and first line of each function that was called since it was emptied
NAME = "functions_that_were_called"


class Telling(ast.NodeTransformer):
    """Each function of a module tells that it was called."""

    def __init__(self, module):
        self.module = module

    def telling(self, node):
        return ast.parse(f"{NAME}.add(({self.module!r}, {first_line(node)}))").body[0]

    def visit_FunctionDef(self, node):
        self.generic_visit(node)
        node.body.insert(0, self.telling(node))
        return node

    def visit_Lambda(self, node):
        self.generic_visit(node)
        node.body = ast.BoolOp(op=ast.Or(), values=[self.telling(node).value, node.body])  # `add` gives None
        return node


def load_telling():
    """Loads the model without a switch, whose functions tell that they were called."""
    codes = {}
    for module in loading.modules():
        tree = ast.fix_missing_locations(Telling(module).visit(ast.parse(loading.source_of(module))))
        codes[module] = compile(tree, str(loading.FOLDER / f"{module}.py"), "exec")
    loading.load(codes, {NAME: CALLED})


def called_by(row):
    """Whether a row agrees, and each function of the model that it calls, by module and first line."""
    CALLED.clear()
    return row.agrees(), frozenset(CALLED)


def first_line(node):
    return min([node.lineno, *(each.lineno for each in getattr(node, "decorator_list", []))])


@lru_cache(maxsize=None)
def functions(module):
    """First and last line of each function of a module, inner ones behind outer ones."""
    found = []
    for node in ast.walk(ast.parse(loading.source_of(module))):
        if isinstance(node, (ast.FunctionDef, ast.Lambda)):
            found.append((first_line(node), node.end_lineno))
    return sorted(found, key=lambda lines: lines[1] - lines[0], reverse=True)


def changed_by(switch):
    """The functions that a switch changes, by module and first line; None where it changes more than functions."""
    changed = set()
    for module, old, _ in switch.changes:
        source = loading.source_of(module)
        place = source.find(old)
        if place < 0:
            return None  # it changes what another change of the switch has made
        first = source.count("\n", 0, place) + 1
        lines = range(first, first + max(1, old.count("\n") + (not old.endswith("\n"))))
        held = {innermost[-1][0] for line in lines if (innermost := [each for each in functions(module) if each[0] <= line <= each[1]])}
        if not held:
            return None
        changed |= {(module, line) for line in held}
    return changed
