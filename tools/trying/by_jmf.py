"""Complaints about tools/jmf: what controllers send, over and over at one queue, jobs in JDF with each dot that they print, requests of HTTP, journals."""

import importlib.util
import json
import os
import re
import shutil
import socket
import subprocess
import sys
import tempfile
import time
import xml.etree.ElementTree as trees
from pathlib import Path

from model import pages
from seen import pages_of, pdf, png, program
from serving import cip4, jmf, session

from . import controller, jmf_rows, kills
from .running import SECONDS, Running

EXAMPLES, DOCUMENT = program.ROOT / "examples", program.ROOT / "docs/JMF.md"
BOUNDS = ["--idle", "1", "--bytes", "3000000", "--sides", "50", "--files", str(EXAMPLES)]
SUBMITS = controller.SUBMIT.format("jmf/flyer.jdf", "")
HELD = controller.document('<Command ID="h" Type="HoldQueue"/>')
STATUS = controller.document('<Query ID="q" Type="QueueStatus"/>')
CURL = re.compile(r"^# (curl .*)\n((?!#).*)$", re.MULTILINE)


def ask(running, data):
    return controller.post(running.port, controller.JMF, data)


def journal(folder):
    return session.whole_lines((folder / session.JOURNAL).read_bytes())[0]


def said(_):
    """Messages, one after another; a refused one leaves the journal as it was."""
    with Running("jmf", BOUNDS) as running:
        entry = ""
        for row in jmf_rows.SAID:
            if row.submits:
                entry = controller.entry_of(ask(running, controller.document(SUBMITS)))
            before, sent = (running.folder / "journal").read_bytes(), row.sent.replace("{}", entry)
            data = controller.document(sent) if not re.match(r"<[?!]DOC|<\?|<JMF", sent) else sent.encode()
            answer = ask(running, data)
            text = trees.tostring(answer, encoding="unicode", default_namespace=None).replace("ns0:", "")
            after = (running.folder / "journal").read_bytes()
            if controller.codes(answer) != [row.code] or row.says not in text + controller.comments(answer) or (row.code and after != before):
                yield f"jmf, {row.sent[:90]}: it answers {text!r}"
        if journal(running.folder) != [{"first": 3}]:
            yield f"jmf: where the list is empty, the journal has {journal(running.folder)}"
        for _ in range(64):
            ask(running, controller.document('<Command ID="h" Type="HoldQueue"/>' + SUBMITS))
        if controller.codes(full := ask(running, controller.document(SUBMITS))) != [112] or "64 entries" not in controller.comments(full):
            yield f"jmf, a full queue: it answers {controller.comments(full)}"


def codes(_):
    """Each code of the press has one of CIP4, by each status that an entry may have; and the tables of the document."""
    for kind, wanted in jmf_rows.OF_22.items():
        found = [str(jmf.mapped_code(22, kind, status)) for status in ("Waiting", "Held", "Running", "Suspended", "Completed", "Aborted")]
        if any(one not in (other, "-") for one, other in zip(wanted.split(), found, strict=True)) or any((22, int(code)) not in jmf.WORDS for code in found):
            yield f"jmf, 22 of {kind}: the codes are {found}"
    text = DOCUMENT.read_text()
    for lines in cip4.tables():
        if "\n".join(lines) + "\n" not in text:
            yield f"docs/JMF.md lacks the table with {lines[0]!r} as the tool has it: {lines}"


def lay_out(folder):
    """A copy of the examples' images and JDF, and files that are none, or do not fit."""
    shutil.copytree(EXAMPLES / "images", folder / "images")
    (folder / "jmf").mkdir()
    (folder / "images/cut.pbm").write_bytes((EXAMPLES / "images/front.pbm").read_bytes()[:300])
    (folder / "images/wide.pbm").write_bytes(b"P4\n2400 1\n" + bytes(300))
    os.mkfifo(folder / "images/pipe")
    (folder / "images/cut.pdf").write_bytes(b"%PDF-1.4\n")
    for name, size in (("letter", pages.SIZES["Letter"]), ("beside", pages.SIZES["A4"])):
        rows = [b"\xff\xf0".ljust((size.width + 7) // 8, b"\0")] + [bytes((size.width + 7) // 8)] * (size.height - 1)
        (folder / f"images/{name}.pdf").write_bytes(pdf.pdf([pdf.Page(size.width, rows, 300)]))


def jobs(_):
    """The flyer with one thing changed: the ticket that the press gets, or what is said; what is refused leaves nothing."""
    usual = {**json.loads((EXAMPLES / "tickets/flyer.json").read_text()), "Collate": True, "RunList": [[0, 1]]}
    with tempfile.TemporaryDirectory() as name, Running("jmf", [*BOUNDS, "--files", name]) as running:
        lay_out(Path(name))
        ask(running, HELD)
        for row in jmf_rows.JOBS:
            if shutil.which("gs") is None and row.says.startswith("page "):
                continue
            if row.old not in controller.FLYER:
                yield f"jmf, {row.old!r} stands in no JDF"
            (Path(name) / "jmf/flyer.jdf").write_text(controller.FLYER.replace(row.old, row.new, 1))
            before = {path.name for path in (running.folder / "pages").iterdir()}
            answer, events = ask(running, controller.document(SUBMITS)), journal(running.folder)
            after = {path.name for path in (running.folder / "pages").iterdir()}
            if controller.codes(answer) != [row.code] or row.says not in controller.comments(answer) or (row.code and after != before):
                yield f"jmf, {row.new!r}: it answers {controller.codes(answer)} {controller.comments(answer)}, and leaves {after - before}"
            elif not row.code and events[-1]["message"]["Ticket"] != {**usual, **row.ticket}:
                yield f"jmf, {row.new!r}: the ticket is {events[-1]['message']['Ticket']}"


def printed(_):
    """Jobs by MIME: P4 files as they are, in two spellings, and a PDF of a page, dot for dot what `press write` and `print` make of the same image."""
    if shutil.which("gs") is None:
        print("Ghostscript is not installed: PDF files of JMF are not tried")
    with tempfile.TemporaryDirectory() as name, Running("jmf", BOUNDS) as running:
        place = Path(name)
        made = pages_of.print_into(place, (EXAMPLES / "streams/letter.pcl").read_bytes())
        page = pdf.pdf(map(pages_of.page_of, made.names))
        two = b"".join((EXAMPLES / f"images/{side}.pbm").read_bytes() for side in ("front", "back"))
        every = b"P4\n64 32\n" + bytes(range(256))
        for what, data, package in (("P4", two, controller.package), ("all bytes", every, controller.raw_package), *((("PDF", page, controller.package),) if shutil.which("gs") else ())):
            answer = controller.post(running.port, *package(data, what))
            if (entry := controller.entry_of(answer)) is None:
                yield f"jmf, {what}: it answers {controller.comments(answer)}"
                continue
            line = running.line()
            found = [path.read_bytes() for path in sorted((running.folder / f"job-{entry}").glob("page-*.pbm"))]
            wanted = [path.read_bytes() for path in made.names] if what == "PDF" else by_hand(place, data)
            if found != wanted or not found or not line.startswith(f"job-{entry}: {len(found)} side"):
                yield f"jmf, {what}: it prints other sides than press write and press print, and tells {line!r}"


def without_programs(_):
    """A PDF where there is no Ghostscript, and a PNG where nothing reads it: each is refused with a word."""
    with tempfile.TemporaryDirectory() as name:
        (Path(name) / "python3").symlink_to(sys.executable)
        with Running("jmf", BOUNDS, env={**os.environ, "PATH": name}) as running:
            for data, said in ((b"%PDF-1.4", "there is no gs: apt-get install ghostscript"), (png.png_of_dots(8, [b"x"], 300), "neither is here: apt-get install python3-pil")):
                answer = controller.post(running.port, *controller.package(data, "x"))
                if said not in controller.comments(answer) and not (b"PNG" in data and importlib.util.find_spec("PIL")):
                    yield f"jmf, without programs: it answers {controller.comments(answer)}"


def by_hand(folder, images):
    """The sides of these images by a ticket."""
    names = []
    for number, image in enumerate(re.split(rb"(?=P4\n)", images)[1:]):
        names.append(folder / f"hand-{number}.pbm")
        names[-1].write_bytes(image)
    ticket = {"Version": "1.5", "Type": "DigitalPrinting", "JobID": "by hand", "NPage": len(names), "Amount": 1}
    (folder / "hand.json").write_text(json.dumps(ticket))
    program.ask(["write", "hand.json", "hand.prn", *names], folder=folder)
    return list(program.printed_sides((folder / "hand.prn").read_bytes()))


def requests(_):
    """Requests of HTTP, that further ones wait while as many are answered as may be, and bounds of time and images."""
    with Running("jmf", ["--idle", "1", "--bytes", "100000", "--requests", "1"]) as running:
        for sent, wanted in jmf_rows.REQUESTS:
            with socket.create_connection((controller.HOST, running.port), SECONDS) as connection:
                connection.sendall(sent.replace("{jmf}", controller.JMF).encode())
                heard = heard_of(connection)
            if not heard.startswith(wanted) or (not wanted and heard):
                yield f"jmf, {sent[:90]!r}: the client sees {heard[:200]!r}"
        began = time.monotonic()
        with socket.create_connection((controller.HOST, running.port), SECONDS):
            time.sleep(0.2)
            ask(running, STATUS)
        if not 0.5 < time.monotonic() - began < SECONDS:
            yield f"jmf: beside the most requests one is answered after {time.monotonic() - began:.1f} seconds"


    with Running("jmf", ["--images", "1", "--seconds", "3"]) as running:
        large = controller.post(running.port, *controller.raw_package((b"P4\n2400 3300\n" + bytes(990000)) * 2, "large"))
        if controller.codes(large) != [112] or "more images than --images have come" not in controller.comments(large):
            yield f"jmf, more images than may be: it answers {controller.comments(large)}"
        began = time.monotonic()
        with socket.create_connection((controller.HOST, running.port), SECONDS) as connection:
            if heard_of(connection) or not 2 < time.monotonic() - began < SECONDS:
                yield f"jmf: a request that takes long ends after {time.monotonic() - began:.1f} seconds"


def heard_of(connection):
    heard = b""
    try:
        while some := connection.recv(65536):
            heard += some
    except TimeoutError:
        heard += b"... and no end"
    return heard.decode()


def journals(_):
    """A tool that is killed has the same queue when it begins again, also behind a line that is cut; one that is answered otherwise does not begin."""
    with tempfile.TemporaryDirectory() as name:
        folder = Path(name) / "spool"
        with Running("jmf", BOUNDS, folder) as running:
            ask(running, HELD)
            for inner in (SUBMITS, SUBMITS, SUBMITS, jmf_rows.entry("HoldQueueEntry", "Q2"), jmf_rows.entry("AbortQueueEntry", "Q1"), jmf_rows.params("Priority", 'QueueEntryID="Q3" Priority="7"')):
                before = ask(running, controller.document(inner))
            running.kill()
        whole = (folder / "journal").read_bytes()
        if any(session.whole_lines(whole[:cut]) != (session.whole_lines(whole)[0][:whole[:cut].count(b"\n")], whole[:cut].rfind(b"\n") + 1) for cut in range(len(whole))):
            yield "jmf: a journal that is cut has other events"
        (folder / "journal").write_bytes(whole + whole.splitlines()[-1][:-1])
        (folder / "pages/job-left").mkdir()
        with Running("jmf", BOUNDS, folder) as running:
            with tempfile.TemporaryFile() as file:
                second = subprocess.run([program.ROOT / "tools/jmf", "--port", "0", folder], stdout=file, stderr=subprocess.PIPE, timeout=SECONDS, check=False)
            if second.returncode != 1 or b"another tools/jmf has " not in second.stderr:
                yield f"jmf: a second one at the same folder says {second.stderr!r}"
            after = ask(running, STATUS)
            if controller.entries(after) != controller.entries(before) or (folder / "journal").read_bytes() != whole or (folder / "pages/job-left").exists():
                yield f"jmf: behind a kill there is {controller.entries(after)}, and there was {controller.entries(before)}"
                return
            ask(running, controller.document('<Command ID="h" Type="ResumeQueue"/>'))
            if not (line := running.line()).startswith("job-Q3: 6 sides of flyer from "):
                yield f"jmf: behind a kill {line!r} is told"
            running.kill()
        done = (folder / "journal").read_bytes()
        (folder / "journal").write_bytes(done[:done.rindex(b"{")])
        with Running("jmf", BOUNDS, folder):
            if (folder / "journal").read_bytes() != done or len(list(folder.glob("job-*"))) != 1:
                yield "jmf: a job that was printed as it was killed is printed again"
        (folder / "journal").write_bytes(whole.replace(b'"Priority": 7', b'"Priority": 777'))
        ran = subprocess.run([program.ROOT / "tools/jmf", "--port", "0", folder], capture_output=True, timeout=SECONDS, check=False)
        if ran.returncode != 1 or b"of the journal is answered otherwise than before" not in ran.stderr:
            yield f"jmf: with a journal that is another it ends with {ran.returncode} and says {ran.stderr!r}"


def killed(_, count=3, seed=1):
    with tempfile.TemporaryDirectory() as name:
        yield from (f"jmf, killed: {complaint}" for complaint in kills.complaints(Path(name), count, seed))


def by_curl(_):
    """The lines of docs/JMF.md, by curl: what stands behind each is in its answer."""
    lines = CURL.findall(DOCUMENT.read_text())
    if len(lines) < 4:
        yield f"docs/JMF.md has {len(lines)} lines of curl"
    if shutil.which("curl") is None:
        print("curl is not installed: the lines of docs/JMF.md are not tried")
        return
    with Running("jmf", BOUNDS) as running:
        for line, wanted in lines:
            ran = subprocess.run(["bash", "-c", line.replace(":8010", f":{running.port}")], cwd=program.ROOT, capture_output=True, timeout=SECONDS, check=False)
            if wanted.strip(".") not in ran.stdout.decode():
                yield f"docs/JMF.md: `{line}` prints {ran.stdout.decode()!r}"


PARTS = {"jmf_said": said, "jmf_codes": codes, "jmf_jobs": jobs, "jmf_printed": printed, "jmf_without": without_programs, "jmf_requests": requests, "jmf_journals": journals, "jmf_killed": killed, "jmf_curl": by_curl}
COUNTS = {"messages": len(jmf_rows.SAID), "jobs": len(jmf_rows.JOBS), "requests": len(jmf_rows.REQUESTS)}
