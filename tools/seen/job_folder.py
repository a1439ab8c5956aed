"""The folder of a job that was printed, as tools/cups_backend and tools/printer leave it: it is filled under a hidden name, and takes the job's name
when it is whole."""

import os
import re
import shutil

from reasons import streams
from reasons.finding import Finding

from . import pages_of, pdf, png, printable

AT_600 = "RESOLUTION=600"
UNTOLD = "Ask tools/why about stream.prn"


def one_line(text):
    """A text of a user or of a stream: line ends and runs of spaces are one space, and no other control character is left."""
    return printable.printable(" ".join(text.split()))


def write_pages(folder, printed, stream):
    """The files of a job beside its P4 files, which stand there. The stream has the printer's settings in front."""
    if printed.names:
        (folder / "pages.pdf").write_bytes(pdf.pdf(pictured(printed.names)))
    (folder / "listing.txt").write_bytes(printed.listing)
    (folder / "replies.txt").write_bytes(printed.replies)
    (folder / "stream.prn").write_bytes(stream)


def pictured(names):
    """Each page, once its PNG is made. One page is held at a time."""
    for name in names:
        page = pages_of.page_of(name)
        name.with_suffix(".png").write_bytes(png.png_of_dots(*page))
        yield page


def judged(stream, most=None):
    """What tools/why finds in the stream, unless it has more than `most` bytes. The pages stand: where it cannot be told, the job is printed nevertheless."""
    if most is not None and len(stream) > most:
        return [Finding(None, f"the stream has more than {most:,} bytes, and is not judged", UNTOLD, harmless=True)]
    try:
        return streams.looked_at("the stream", stream)[0]
    except (OSError, ValueError, MemoryError) as fault:
        return [Finding(None, f"the stream is printed, and what it does could not be told: {str(fault) or 'memory ran out'}", UNTOLD, harmless=True)]


def write_why(folder, found, setting):
    """What is found, a line for each; no file where nothing is. `setting` says how the printer is set to 600 dots per inch."""
    texts = [finding.text() for finding in found]
    if any(AT_600 in text for text in texts):
        texts.append(setting)
    if texts:
        (folder / "why.txt").write_text("".join(text + "\n" for text in texts), encoding="utf-8")


def write_about(folder, told):
    """job.txt: a line for each pair of a name and what it is."""
    (folder / "job.txt").write_text("".join(f"{name}: {one_line(what)}\n" for name, what in told), encoding="utf-8")


def open_to(folder, part):
    """Who may read the spool folder may read the job."""
    mode = folder.stat().st_mode
    for path in part.iterdir():
        path.chmod(mode & 0o666)
    part.chmod(mode & 0o777)


def last_number(folder, letter=""):
    """The greatest number of a job's folder that is there: job-7, or job-Q7."""
    return max((int(found[1]) for path in folder.iterdir() if (found := re.fullmatch(f"job-{letter}([0-9]{{1,9}})", path.name))), default=0)


def take_its_name(part, folder, job):
    """The whole folder gets the job's name, or that name with a number where one is there; from then on the job is printed."""
    number = 1
    while True:
        name = folder / (f"job-{job}" if number == 1 else f"job-{job}-{number}")
        try:
            return part.rename(name)
        except OSError:
            if not name.exists():
                raise
        number += 1


def name_of_part(job, process):
    """A folder that is not whole yet, by the machine and the process that make it."""
    return f".job-{job}-{os.uname().nodename}-{process}"


def runs(process):
    try:
        os.kill(process, 0)
    except PermissionError:
        return True
    except (ProcessLookupError, OverflowError):
        return False
    return True


def remove_left_over(folder):
    """The parts of processes of this machine that are gone: CUPS kills one that takes too long to stop."""
    for part in folder.glob(name_of_part("*", "*")):
        process = part.name.rpartition("-")[2]
        if process.isdigit() and not runs(int(process)):
            shutil.rmtree(part, ignore_errors=True)
