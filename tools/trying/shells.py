"""Words for a shell, in a folder in which the tools are found by their names; and the complaints about many rows, several at once."""

import os
import subprocess
from concurrent.futures import ThreadPoolExecutor

from seen import program

TOOLS = program.ROOT / "tools"
SECONDS = 120


def shell(words, folder):
    """What a shell did in a folder."""
    return subprocess.run(["sh", "-c", words], cwd=folder, stdin=subprocess.DEVNULL, capture_output=True, timeout=SECONDS, check=False,
                          env={**os.environ, "PATH": f"{TOOLS}:{os.environ['PATH']}", "PYTHONIOENCODING": "utf-8"})


def lay_down(folder, files):
    for name, content in files.items():
        (folder / name).write_bytes(content)


def controls(text):
    """The control characters of a text that are no line feeds, in their order."""
    return sorted({each for each in text if not each.isprintable() and each != "\n"})


def of_each(judge, rows):
    """The complaints of a call for each row, whatever more it is given, in the order of the rows."""
    def complaints(*given):
        with ThreadPoolExecutor(os.cpu_count()) as pool:
            for some in pool.map(lambda row: list(judge(row, *given)), rows):
                yield from some
    return complaints
