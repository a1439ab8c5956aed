"""The model anew, with a switch on: its modules as they stand, and the text of what the switch changes replaced before it is read."""

import importlib
import importlib.abc
import importlib.util
import sys
from functools import lru_cache
from pathlib import Path

FOLDER = Path(__file__).resolve().parent.parent
PACKAGE = FOLDER.name
KEPT = f"{PACKAGE}.switches"


class CannotTurn(Exception):
    """A change whose text does not stand exactly once in its module, or changes nothing."""


def modules():
    """The names of the model's modules."""
    return sorted(path.stem for path in FOLDER.glob("*.py") if path.stem != "__init__")


@lru_cache(maxsize=None)
def source_of(module):
    return (FOLDER / f"{module}.py").read_text()


@lru_cache(maxsize=None)
def code_of(module):
    """The module as it stands."""
    return compile(source_of(module), str(FOLDER / f"{module}.py"), "exec")


def changed_sources(switch):
    """The changed text of each module that a switch changes."""
    sources = {}
    for change in switch.changes:
        text = sources.get(change.module, source_of(change.module))
        if text.count(change.old) != 1 or change.old == change.new:
            raise CannotTurn(f"{switch.name}: {change.old!r} stands {text.count(change.old)} times in {change.module}.py")
        sources[change.module] = text.replace(change.old, change.new)
    return sources


def codes_with(switch):
    """The code of each module, with a switch on; None is no switch."""
    codes = {module: code_of(module) for module in modules()}
    for module, text in (changed_sources(switch) if switch else {}).items():
        codes[module] = compile(text, str(FOLDER / f"{module}.py"), "exec")
    return codes


class Loader(importlib.abc.Loader):
    def __init__(self, code, names):
        self.code = code
        self.names = names

    def exec_module(self, module):
        vars(module).update(self.names)
        exec(self.code, vars(module))


class Finder(importlib.abc.MetaPathFinder):
    """Finds the model's modules in codes that were made before; these names stand in each of them."""

    def __init__(self, codes, names):
        self.codes = codes
        self.names = names

    def find_spec(self, name, _path, _target=None):
        package, _, module = name.partition(".")
        if package != PACKAGE or module not in self.codes:
            return None
        loader = Loader(self.codes[module], self.names)
        return importlib.util.spec_from_file_location(name, FOLDER / f"{module}.py", loader=loader)


def load(codes, names):
    """From now on whoever imports a module of the model gets it from these codes, anew."""
    package = importlib.import_module(PACKAGE)
    for name in [name for name in sys.modules if name.startswith(PACKAGE + ".")]:
        if name != KEPT and not name.startswith(KEPT + "."):
            del sys.modules[name]
            vars(package).pop(name.partition(".")[2], None)
    sys.meta_path[:] = [Finder(codes, names), *(finder for finder in sys.meta_path if not isinstance(finder, Finder))]


def turn_on(switch):
    """From now on whoever imports a module of the model gets it with this switch on, and with no other one; None is no switch."""
    load(codes_with(switch), {})
