"""Makes the wheel of the package, by Python alone: its modules, and the shared object that `make` in bindings/c builds."""

import base64
import hashlib
import os
import subprocess
import sys
import sysconfig
import tarfile
import zipfile
from pathlib import Path

HERE = Path(__file__).resolve().parent
NAME, VERSION = "rombixela", "1.0.0"
MODULES = ["__init__.py", "_press.py", "py.typed"]
LIBRARY = "librombixela.so"
WHEEL = f"Wheel-Version: 1.0\nGenerator: rombixela\nRoot-Is-Purelib: false\nTag: {{tag}}\n"
METADATA = f"""Metadata-Version: 2.1
Name: {NAME}
Version: {VERSION}
Summary: A proved digital press in software: PJL and PCL 5 streams to one-bit pages
Requires-Python: >=3.9
"""


def shared_object():
    """The shared object: the one that ROMBIXELA_LIBRARY names, or else the one that is built now."""
    if given := os.environ.get("ROMBIXELA_LIBRARY"):
        return Path(given).read_bytes()
    folder = HERE.parent / "c"
    subprocess.run(["make", "-C", folder, f"PYTHON={sys.executable}"], check=True, stdout=sys.stderr)
    return (folder / "out" / f"{LIBRARY}.{VERSION}").read_bytes()


def tag():
    return "py3-none-" + sysconfig.get_platform().replace("-", "_").replace(".", "_")


def row(path, content):
    """A line of the wheel's record."""
    digest = base64.urlsafe_b64encode(hashlib.sha256(content).digest()).rstrip(b"=").decode()
    return f"{path},sha256={digest},{len(content)}\n"


def write_wheel(path, files):
    """A wheel of these files, with their record."""
    record = f"{NAME}-{VERSION}.dist-info/RECORD"
    with zipfile.ZipFile(path, "w", zipfile.ZIP_DEFLATED) as wheel:
        for name, content in files.items():
            wheel.writestr(name, content)
        wheel.writestr(record, "".join(row(name, content) for name, content in files.items()) + f"{record},,\n")


def build_wheel(wheel_directory, config_settings=None, metadata_directory=None):
    info = f"{NAME}-{VERSION}.dist-info"
    files = {f"{NAME}/{module}": (HERE / NAME / module).read_bytes() for module in MODULES}
    files[f"{NAME}/{LIBRARY}"] = shared_object()
    files[f"{info}/METADATA"] = METADATA.encode()
    files[f"{info}/WHEEL"] = WHEEL.format(tag=tag()).encode()
    name = f"{NAME}-{VERSION}-{tag()}.whl"
    write_wheel(Path(wheel_directory) / name, files)
    return name


def build_sdist(sdist_directory, config_settings=None):
    name = f"{NAME}-{VERSION}.tar.gz"
    with tarfile.open(Path(sdist_directory) / name, "w:gz") as packed:
        for path in ["pyproject.toml", "backend.py", *(f"{NAME}/{module}" for module in MODULES)]:
            packed.add(HERE / path, f"{NAME}-{VERSION}/{path}")
    return name
