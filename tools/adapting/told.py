"""What an editor shows of a step: scopes with the fields by their names, with units."""

from seen import names
from seen.happenings import cursor_dot

POSITIONS_PER_INCH = 7200
SCOPES = ["Cursor", "Page", "Raster", "Marks", "Macros", "Job language", "Device"]
CURRENT, DEFAULT = len(SCOPES) + 1, len(SCOPES) + 2
LENGTHS = {"x", "y", "margins.left", "margins.right", "margins.top", "margins.text_length", "drawing.height", "drawing.width", "raster.left",
           "settings.horizontal_motion", "settings.vertical_motion", "settings.unit"}
VALUES = {"page.size": names.SIZES, "page.orientation": names.PARAMS["&lO"].values, "drawing.pattern_kind": names.PATTERN_KINDS,
          "raster.method": names.PARAMS["*bM"].values, "page.binding": {1: "long edge", 2: "short edge"}}
VALUES |= {f"{name}.{key}": VALUES[f"page.{other}"] for name in ("current", "default")
           for key, other in (("page_size", "size"), ("orientation", "orientation"), ("binding", "binding"))}
FIELDS = {
    "Cursor": ["x", "y", "cursor.pushed", "settings.unit", "settings.horizontal_motion", "settings.vertical_motion", "settings.feed_after_return",
               "settings.return_before_feed"],
    "Page": ["page.size", "page.orientation", "page.resolution", "page.duplex", "page.binding", "page.marked", "margins.left", "margins.right",
             "margins.top", "margins.text_length", "settings.perforation_skip", "settings.copies", "page"],
    "Raster": ["raster.left", "raster.rows", "raster.method", "raster.resolution", "raster.width", "raster.height"],
    "Marks": ["drawing.width", "drawing.height", "drawing.id", "drawing.pattern_kind", "drawing.pattern", "drawing.source_opaque",
              "drawing.pattern_opaque"],
    "Macros": ["macros.id", "macros.defining", "macros.overlay", "depth"],
    "Device": ["step", "last", "recorded", "sheets", "settings.sheets_of_job", "settings.page_status", "settings.hp_gl"],
}


def spelled(name, value, resolution):
    """A value as it is shown: flags and nothing as JSON has them, lengths with dots, numbers with what they mean."""
    if value is None or isinstance(value, bool):
        return {None: "null", True: "true", False: "false"}[value]
    if name in LENGTHS:
        return f"{value} ({value * resolution / POSITIONS_PER_INCH:g} dots)"
    if name in VALUES and value in VALUES[name]:
        return f"{value} ({VALUES[name][value]})"
    return "changed %d times" % value if name == "page" else str(value)


def name_of(text, told):
    """The whole name of a field that is called so; empty where none is."""
    return next((key for key in told if key == text or key.endswith("." + text)), "")


def variable(name, told, inside=0):
    return {"name": name, "value": spelled(name, told[name], told["page.resolution"]), "variablesReference": inside, "evaluateName": name}


def variables(number, film, count):
    """The variables of a scope, counted from 1, or of one of the two environments of the job language."""
    told = film.told(count)
    if number in (CURRENT, DEFAULT):
        words = "current" if number == CURRENT else "default"
        return [variable(name, told) for name in sorted(told) if name.startswith(words + ".")]
    scope = SCOPES[number - 1]
    if scope == "Job language":
        return [{"name": words, "value": "", "variablesReference": inside} for words, inside in (("current", CURRENT), ("default", DEFAULT))]
    some = [variable(name, told) for name in FIELDS[scope]]
    if scope == "Cursor":
        now, _ = film.state(count)
        some.insert(2, {"name": "dot of the page", "value": "%d, %d" % cursor_dot(now), "variablesReference": 0})
    return some
