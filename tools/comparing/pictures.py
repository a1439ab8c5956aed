"""Pictures that went into a driver, as pages of dots: PDF and PostScript by Ghostscript, P4 files, PNG by Pillow or netpbm where one is installed."""

import io
import os
import shutil
import subprocess
import tempfile
from pathlib import Path

from seen import pdf, program

from . import dots

GRAPHICS = (b"%PDF", b"%!")
PNG = b"\x89PNG"
HALF_GREY = 128
MEMORY, LARGEST = 4 << 20, 1 << 17     # of Ghostscript: KiB, and blocks of 512 bytes of a file
GHOSTSCRIPT = 'ulimit -v "$1" && ulimit -f "$2" && shift 2 && exec gs "$@"'


def of_files(names, page):
    """The pictures of some files, one after another, as they are drawn for a page like this."""
    return [picture for name in names for picture in of_file(name, page)]


def of_file(name, page):
    data = Path(name).read_bytes()
    if data.startswith(GRAPHICS):
        return drawn(name, page)
    if data.startswith(PNG):
        return list(dots.pictures_in(p4_of_png(name, data)))
    if data.startswith(b"P4"):
        return list(dots.pictures_in(data))
    raise ValueError(f"{name} is no picture: a PDF, PostScript, a P4 file or a PNG is one")


def drawn(name, page, *words):
    """The pages of a PDF or of PostScript; where it says no size they have that of the page. Further words go to Ghostscript."""
    if shutil.which("gs") is None:
        raise ValueError(f"{name} is drawn by Ghostscript, and there is no gs: apt-get install ghostscript")
    with tempfile.TemporaryDirectory() as path:
        width, height = pdf.size_of(page)
        words = [*words, "-sDEVICE=pbmraw", f"-r{page.resolution}", f"-dDEVICEWIDTHPOINTS={width}", f"-dDEVICEHEIGHTPOINTS={height}", f"-sOutputFile={path}/%d.pbm"]
        ran = subprocess.run(["sh", "-c", GHOSTSCRIPT, "gs", str(MEMORY), str(LARGEST), "-q", "-dNOPAUSE", "-dBATCH", "-dSAFER", *words, "-f", os.path.abspath(name)],
                             stdin=subprocess.DEVNULL, capture_output=True, timeout=program.SECONDS, check=False)
        pages = [Path(path) / f"{number}.pbm" for number in range(1, len(list(Path(path).iterdir())) + 1)]
        if ran.returncode or not pages:
            raise ValueError(f"{name} is not drawn by Ghostscript: {(ran.stderr + ran.stdout).decode(errors='replace').strip()[:200]}")
        return [dots.side_in(page) for page in pages]


def p4_of_png(name, data):
    """A PNG as a P4 file; what is darker than half grey is black."""
    try:
        from PIL import Image
    except ImportError:
        if shutil.which("pngtopnm") is None:
            raise ValueError(f"{name} is read by Pillow or netpbm, and neither is here: apt-get install python3-pil") from None
        script = "pngtopnm -mix | ppmtopgm | pgmtopbm -threshold | pnmtoplainpnm | pnmtopnm"
        return subprocess.run(["sh", "-c", script], input=data, capture_output=True, timeout=program.SECONDS, check=True).stdout
    made = io.BytesIO()
    Image.open(io.BytesIO(data)).convert("L").point(lambda grey: 255 * (grey >= HALF_GREY)).convert("1").save(made, "PPM")
    return made.getvalue()
