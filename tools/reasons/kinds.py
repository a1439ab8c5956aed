"""What kind of file some bytes are, by how they begin."""

import base64
import binascii
import re

STARTS = [
    (b"%PDF-", "a PDF file"), (b"%!", "a PostScript file"), (b"\x04%!", "a PostScript file"), (b"\x89PNG", "a PNG picture"),
    (b"\xff\xd8\xff", "a JPEG picture"), (b"GIF8", "a GIF picture"), (b"II*\0", "a TIFF picture"), (b"MM\0*", "a TIFF picture"),
    (b"PK\x03\x04", "a ZIP archive (or an office document)"), (b"\x1f\x8b", "a gzip archive"), (b") HP-PCL XL", "a PCL XL stream"),
    (b"( HP-PCL XL", "a PCL XL stream"), (b"P1", "a PBM picture in plain text (P1)"), (b"P2", "a grey picture (P2)"),
    (b"P3", "a colour picture (P3)"), (b"P4", "a P4 picture"), (b"P5", "a grey picture (P5)"), (b"P6", "a colour picture (P6)"),
    (b"\xff\xfe", "a UTF-16 text"), (b"\xfe\xff", "a UTF-16 text"), (b"<?xml", "an XML file"), (b"<!DOCTYPE html", "an HTML file"),
    (b"<html", "an HTML file"), (b"\x7fELF", "a program"), (b"BM", "a BMP picture"), (b"@PJL", "a print stream"),
    (b"RaS2", "a raster of PWG or CUPS"), (b"2SaR", "a raster of PWG or CUPS"), (b"RaS3", "a raster of CUPS"), (b"3SaR", "a raster of CUPS"),
    (b"UNIRAST\0", "a raster of AirPrint (URF)"), (b"IN;", "an HP-GL drawing"), (b"PG;", "an HP-GL drawing"), (b"\x1b.(", "an HP-GL drawing"),
    (b"\x1b@", "an ESC/P stream, as for Epson's printers"), (b"\0\0\0\x1b\x01@EJL", "an ESC/P stream, as for Epson's printers"),
    (b"\x1b", "a print stream"),
]
PLOT = re.compile(rb"(?:\x1b\.[()@-Z][0-9;]*:?\s*)+IN;")   # what a driver sets the plotter by (gnuplot: ESC.Y, ESC.I81;;17:) stands before the drawing
IN_BASE_64 = " in base64, as a mail has it"
BASE_64 = re.compile(rb"[A-Za-z0-9+/]{40,}[\r\n]")


def kind_of(data):
    """What it is, or None where no start fits."""
    if PLOT.match(data):
        return "an HP-GL drawing"
    for start, name in STARTS:
        if data.startswith(start):
            return name
    text = data.lstrip(b" \t\r\n")
    if text[:1] == b"{" and b'"' in text[:200]:
        return "a JSON text"
    return base_64(data)


def base_64(data):
    """A file in base64, as a mail has it, and what the first line of it is."""
    if (line := BASE_64.match(data)) is None:
        return None
    try:
        begins = base64.b64decode(line[0].strip()[:len(line[0].strip()) // 4 * 4], validate=True)
    except binascii.Error:
        return None
    inner = next((name for start, name in STARTS if begins.startswith(start)), None)
    return inner + IN_BASE_64 if inner else None
