"""All rows of what the program is asked and answers with a status and a print, by the module in which they stand.

Those of `sizes` are for the program alone: the model would take too long for them.
"""

from asked import assembly, debugging, explained, fields, job_language, jobs, lines, marks, pages, places, sessions, sheets, sizes, traces, words

PARTS = {"words": words, "assembly": assembly, "debugging": debugging, "job_language": job_language, "jobs": jobs, "lines": lines,
         "pages": pages, "fields": fields, "marks": marks, "places": places, "sessions": sessions, "sheets": sheets, "traces": traces, "explained": explained}
EVERY = PARTS | {"sizes": sizes}


def shown(asked, given):
    return f"press {asked} < {given[:40]!r}{'..' if len(given) > 40 else ''}"


def named_rows_of(name):
    """Each row of a part with its part and what it shows, or what is asked where it has no name."""
    part = EVERY[name]
    named = part.NAMED.items() if hasattr(part, "NAMED") else ((shown(row[0], row[3]), row) for row in part.ROWS)
    for shows, row in named:
        yield f"{name}: {shows}", row


def named_rows():
    """Each row that the model is asked, too."""
    for name in PARTS:
        yield from named_rows_of(name)
