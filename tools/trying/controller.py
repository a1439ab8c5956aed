"""A controller of JMF, as a client of tools/jmf: documents, packages that Python's `email` makes, and what answers them."""

import http.client
import os
import socket
import xml.etree.ElementTree as trees
from email.mime.application import MIMEApplication
from email.mime.multipart import MIMEMultipart

from seen import program

JMF, HOST, SECONDS = "application/vnd.cip4-jmf+xml", "127.0.0.1", 30
NAMESPACE = "http://www.CIP4.org/JDFSchema_1_1"
FLYER = (program.ROOT / "examples/jmf/flyer.jdf").read_text()
SUBMIT = '<Command ID="s" Type="SubmitQueueEntry"><QueueSubmissionParams URL="{}"{}/></Command>'


def document(inner, attributes=""):
    return f'<JMF xmlns="{NAMESPACE}" SenderID="MIS" Version="1.5" TimeStamp="2026-11-29T05:00:00Z"{attributes}>{inner}</JMF>'.encode()


def of_entry(kind, entry):
    return document(f'<Command ID="e" Type="{kind}"><QueueEntryDef QueueEntryID="{entry}"/></Command>')


def one_sided(name, url):
    """A JDF of one file, once, on Letter."""
    return (f'<JDF xmlns="{NAMESPACE}" ID="n" Status="Waiting" Version="1.5" Type="DigitalPrinting" JobID="{name}"><ResourcePool><RunList ID="r"><LayoutElement>'
            f'<FileSpec URL="{url}"/></LayoutElement></RunList></ResourcePool><ResourceLinkPool><RunListLink rRef="r" Usage="Input"/></ResourceLinkPool></JDF>')


def parts_of(pages, name):
    """JMF, JDF and a file, each with its type and its name."""
    return (("vnd.cip4-jmf+xml", document(SUBMIT.format("cid:jdf@mis", "")), "jmf@mis"),
            ("vnd.cip4-jdf+xml", one_sided(name, "cid:pages@mis").encode(), "jdf@mis"), ("octet-stream", pages, "pages@mis"))


def raw_package(pages, name):
    """The type and the bytes of a package whose parts are spelled as they are."""
    parts = (f"--b\r\nContent-Type: application/{kind}\r\nContent-ID: <{called}>\r\nContent-Transfer-Encoding: binary\r\n\r\n".encode() + data + b"\r\n"
             for kind, data, called in parts_of(pages, name))
    return "multipart/related; boundary=b", b"".join(parts) + b"--b--\r\n"


def package(pages, name):
    """The same by Python's `email`, in base64."""
    whole = MIMEMultipart("related")
    for kind, data, called in parts_of(pages, name):
        part = MIMEApplication(data, kind)
        part["Content-ID"] = f"<{called}>"
        whole.attach(part)
    body = whole.as_bytes().partition(b"\n\n")[2]
    return whole["Content-Type"], body


def post(port, kind, data):
    """The root of what answers; OSError where nothing does."""
    connection = http.client.HTTPConnection(HOST, port, timeout=SECONDS)
    try:
        connection.request("POST", "/", data, {"Content-Type": kind})
        answer = connection.getresponse()
        said = answer.read()
        if answer.status != 200:
            raise ValueError(f"{answer.status} {said.decode(errors='replace')}")
        return trees.fromstring(said)
    except http.client.HTTPException as fault:
        raise ConnectionError(fault) from None
    finally:
        connection.close()


def named(name):
    return f"{{{NAMESPACE}}}{name}"


def codes(answer):
    return [int(each.get("ReturnCode")) for each in answer.iter(named("Response"))]


def comments(answer):
    return " ".join(each.text or "" for each in answer.iter(named("Comment")))


def entry_of(answer):
    """The name of the entry that was submitted; None where it was refused."""
    found = answer.find(f"{named('Response')}/{named('QueueEntry')}")
    return None if found is None or codes(answer) != [0] else found.get("QueueEntryID")


def entries(answer):
    """Each entry of the list, with its status."""
    return {each.get("QueueEntryID"): each.get("Status") for each in answer.iterfind(f".//{named('Queue')}/{named('QueueEntry')}")}


def completed(answer):
    return [name for name, status in entries(answer).items() if status == "Completed"]


def free_port():
    """One that no client is given: while nothing listens there, a client that had it would meet itself."""
    for port in range(10000 + os.getpid() % 20000, 32000):
        try:
            with socket.create_server((HOST, port)):
                return port
        except OSError:
            continue
    raise OSError("no port is free")
