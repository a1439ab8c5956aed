"""HP's names of the commands of PCL 5, the units of their values, and what single values mean.

A parameterized command is spelled as character, group and end. Commands without a row of the command table stand here too: a
driver sends many of them, and a reader wants to know what is ignored. (HP PCL 5 Printer Language Technical Reference Manual,
appendix "PCL at a Glance".)
"""

from typing import NamedTuple

from model.table import PAGE_SIZES as SIZES


class Named(NamedTuple):
    name: str
    unit: str = ""   # of one; the plural has an s
    values: dict = {}


ON_OFF = {0: "off", 1: "on"}
PATTERN_KINDS = {0: "solid black", 1: "solid white", 2: "shading", 3: "cross-hatch", 4: "user-defined"}

CONTROLS = {
    0x00: "Null", 0x07: "Bell", 0x08: "Backspace", 0x09: "Horizontal Tab", 0x0A: "Line Feed", 0x0B: "Vertical Tab",
    0x0C: "Form Feed", 0x0D: "Carriage Return", 0x0E: "Shift Out", 0x0F: "Shift In", 0x1A: "Substitute",
}

ESCAPES = {
    "E": "Printer Reset", "9": "Clear Horizontal Margins", "=": "Half-Line Feed", "Y": "Display Functions On",
    "Z": "Display Functions Off", "z": "Self Test",
}

PARAMS = {
    # The job and the page
    "%A": Named("Enter PCL Mode"),
    "%B": Named("Enter HP-GL/2 Mode"),
    "%X": Named("Universal Exit Language"),
    "&lX": Named("Number of Copies", "copy"),
    "&lS": Named("Simplex/Duplex Print", values={0: "simplex", 1: "duplex, long-edge binding", 2: "duplex, short-edge binding"}),
    "&aG": Named("Duplex Page Side Selection", values={0: "next side", 1: "front side", 2: "back side"}),
    "&lU": Named("Left (Long-Edge) Offset Registration", "decipoint"),
    "&lZ": Named("Top (Short-Edge) Offset Registration", "decipoint"),
    "&lG": Named("Output Bin Selection"),
    "&lT": Named("Job Separation"),
    "&lM": Named("Media Type"),
    "&uD": Named("Unit of Measure", "PCL unit per inch"),
    "&lA": Named("Page Size", values=SIZES),
    "&lP": Named("Page Length", "line"),
    "&lH": Named("Paper (Media) Source", values={
        0: "eject the page", 1: "main source", 2: "manual feed", 3: "manual envelope feed", 4: "alternate source", 5: "optional source",
        6: "envelope feeder", 7: "any source"}),
    "&lO": Named("Logical Page Orientation",
                 values={0: "portrait", 1: "landscape", 2: "reverse portrait", 3: "reverse landscape"}),
    "&aP": Named("Print Direction", "degree"),
    "&lE": Named("Top Margin", "line"),
    "&lF": Named("Text Length", "line"),
    "&aL": Named("Left Margin", "column"),
    "&aM": Named("Right Margin", "column"),
    "&lL": Named("Perforation Skip", values=ON_OFF),
    "&kH": Named("Horizontal Motion Index", "1/120 inch"),
    "&lC": Named("Vertical Motion Index", "1/48 inch"),
    "&lD": Named("Line Spacing", "line per inch"),
    "&kG": Named("Line Termination", values={0: "CR, LF, FF as they are", 1: "CR as CR and LF", 2: "LF as CR and LF, FF as CR and FF",
                                             3: "CR as CR and LF, LF as CR and LF, FF as CR and FF"}),
    "&sC": Named("End-of-Line Wrap", values={0: "on", 1: "off"}),
    "&rF": Named("Flush All Pages"),
    # The cursor
    "&aR": Named("Vertical Cursor Positioning (Rows)", "row"),
    "&aC": Named("Horizontal Cursor Positioning (Columns)", "column"),
    "*pY": Named("Vertical Cursor Positioning (PCL Units)", "PCL unit"),
    "*pX": Named("Horizontal Cursor Positioning (PCL Units)", "PCL unit"),
    "&aV": Named("Vertical Cursor Positioning (Decipoints)", "decipoint"),
    "&aH": Named("Horizontal Cursor Positioning (Decipoints)", "decipoint"),
    "&fS": Named("Push/Pop Cursor Position", values={0: "push", 1: "pop"}),
    # Fonts
    "(X": Named("Primary Font Selection by ID"), ")X": Named("Secondary Font Selection by ID"),
    "(@": Named("Primary Font Default"), ")@": Named("Secondary Font Default"),
    "(sP": Named("Primary Spacing", values={0: "fixed", 1: "proportional"}),
    "(sH": Named("Primary Pitch", "character per inch"),
    "(sV": Named("Primary Height", "point"),
    "(sS": Named("Primary Style"), "(sB": Named("Primary Stroke Weight"), "(sT": Named("Primary Typeface Family"),
    ")sP": Named("Secondary Spacing", values={0: "fixed", 1: "proportional"}),
    ")sH": Named("Secondary Pitch", "character per inch"),
    ")sV": Named("Secondary Height", "point"),
    ")sS": Named("Secondary Style"), ")sB": Named("Secondary Stroke Weight"), ")sT": Named("Secondary Typeface Family"),
    "&kS": Named("Pitch Mode"),
    "&pX": Named("Transparent Print Data", "byte"),
    "&dD": Named("Underline Enable"), "&d@": Named("Underline Disable"),
    "*cD": Named("Font ID"), "*cE": Named("Character Code"), "*cF": Named("Font Control"),
    "*cR": Named("Symbol Set ID Code"), "*cS": Named("Symbol Set Control"),
    ")sW": Named("Font Header", "byte"), "(sW": Named("Download Character", "byte"), "(fW": Named("Define Symbol Set", "byte"),
    "&tP": Named("Text Parsing Method"), "&nW": Named("Alphanumeric ID", "byte"),
    # Macros
    "&fY": Named("Macro ID"),
    "&fX": Named("Macro Control", values={
        0: "start definition", 1: "end definition", 2: "execute", 3: "call", 4: "enable overlay", 5: "disable overlay",
        6: "delete all", 7: "delete all temporary", 8: "delete by macro ID", 9: "make temporary", 10: "make permanent"}),
    # Patterns and rectangles
    "*cA": Named("Horizontal Rectangle Size (PCL Units)", "PCL unit"),
    "*cB": Named("Vertical Rectangle Size (PCL Units)", "PCL unit"),
    "*cH": Named("Horizontal Rectangle Size (Decipoints)", "decipoint"),
    "*cV": Named("Vertical Rectangle Size (Decipoints)", "decipoint"),
    "*cG": Named("Area Fill ID (Pattern ID)"),
    "*cP": Named("Fill Rectangular Area", values={**PATTERN_KINDS, 5: "current pattern"}),
    "*cW": Named("Download Pattern", "byte"),
    "*cQ": Named("Pattern Control", values={0: "delete all", 1: "delete all temporary", 2: "delete by pattern ID",
                                            4: "make temporary", 5: "make permanent"}),
    "*vT": Named("Select Current Pattern", values=PATTERN_KINDS),
    "*vN": Named("Source Transparency Mode", values={0: "transparent", 1: "opaque"}),
    "*vO": Named("Pattern Transparency Mode", values={0: "transparent", 1: "opaque"}),
    "*pR": Named("Set Pattern Reference Point"),
    "*lO": Named("Logical Operation"), "*lR": Named("Pixel Placement"),
    # Raster graphics
    "*tR": Named("Raster Graphics Resolution", "dot per inch"),
    "*rF": Named("Raster Graphics Presentation Mode"),
    "*rS": Named("Raster Width", "dot"), "*rT": Named("Raster Height", "row"),
    "*tH": Named("Destination Raster Width", "decipoint"), "*tV": Named("Destination Raster Height", "decipoint"),
    "*rA": Named("Start Raster Graphics", values={0: "at the left edge", 1: "at the cursor", 2: "at the left edge, scaled",
                                                  3: "at the cursor, scaled"}),
    "*bY": Named("Raster Y Offset", "row"),
    "*bM": Named("Set Compression Method", values={0: "unencoded", 1: "run-length", 2: "TIFF packbits", 3: "delta row",
                                                   5: "adaptive"}),
    "*bW": Named("Transfer Raster Data by Row", "byte"), "*bV": Named("Transfer Raster Data by Plane", "byte"),
    "*rB": Named("End Raster Graphics (older form)"), "*rC": Named("End Raster Graphics"),
    # Colour and pictures
    "*rU": Named("Simple Color"), "*vW": Named("Configure Image Data", "byte"), "*vS": Named("Foreground Color"),
    "*vA": Named("Color Component One"), "*vB": Named("Color Component Two"), "*vC": Named("Color Component Three"),
    "*vI": Named("Assign Color Index"), "*pP": Named("Push/Pop Palette"), "*tJ": Named("Render Algorithm"),
    "*mW": Named("Download Dither Matrix", "byte"), "*iW": Named("Viewing Illuminant", "byte"),
    "*cX": Named("Picture Frame Horizontal Size", "decipoint"), "*cY": Named("Picture Frame Vertical Size", "decipoint"),
    "*cT": Named("Set Picture Frame Anchor Point"),
    "*cK": Named("HP-GL/2 Plot Horizontal Size", "inch"), "*cL": Named("HP-GL/2 Plot Vertical Size", "inch"),
    # Paper, and how an ink is laid
    "&fI": Named("Custom Paper Width", "decipoint"), "&fJ": Named("Custom Paper Length", "decipoint"),
    "*oM": Named("Print Quality"), "*oQ": Named("Raster Graphics Shingling"), "*oD": Named("Raster Graphics Depletion"),
    "*rQ": Named("Raster Graphics Quality"), "*bS": Named("Seed Row Source"), "*bX": Named("Raster X Offset"),
    "*oW": Named("Driver Configuration", "byte"), "*gW": Named("Configure Raster Data", "byte"),
    "&kW": Named("Text Print Direction (of a DeskJet)"),
    # Status
    "*sT": Named("Set Status Readback Location Type"), "*sU": Named("Set Status Readback Location Unit"),
    "*sI": Named("Inquire Status Readback Entity"), "*sM": Named("Free Memory Space"), "*sX": Named("Echo"),
    "&bW": Named("Configuration (I/O)", "byte"),
}

# Those with an end W that HP gives data, and the planes and transparent data.
PARAMS_WITH_DATA = {key for key, known in PARAMS.items() if known.unit == "byte"}


def letters(command):
    """Character, group and end of a parameterized command."""
    group = "" if command.group is None else chr(command.group)
    return chr(command.character) + group + chr(command.end)


def named(command):
    """The name of a parameterized command; one that HP's list does not have is called so."""
    known = PARAMS.get(letters(command))
    if known:
        return known
    if command.group is None and command.character in b"()":
        return Named(("Primary" if command.character == ord("(") else "Secondary") + " Symbol Set")
    return Named("A command that is not in HP's list")
