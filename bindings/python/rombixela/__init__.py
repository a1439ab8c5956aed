"""Rombixela, a digital press in software: prints PJL and PCL 5 streams to one-bit pages, in this process (docs/LIBRARY.md)."""

from ._press import BAD_SETTINGS, NO_MEMORY, Fault, Page, asm, disasm, listing, print_stream, session, trace, version, write

__all__ = ["BAD_SETTINGS", "NO_MEMORY", "Fault", "Page", "asm", "disasm", "listing", "print_stream", "session", "trace", "version", "write"]
__version__ = "1.0.0"
