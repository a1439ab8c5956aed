"""Words with which a tool is asked to make a file that is an input, or that it cannot make: what stands in the folder stays as it is.

In the folder stand in.pcl, in.pdf, page-1.png and contact.png, which are one stream, page.pbm, a page of it, and old, an older file; and names of theirs:
`link`, `link.pdf` and `other` of in.pcl, and link.png of page.pbm.
"""

from typing import NamedTuple

STREAM = b"\x1bE\x1b*p0x0Y\x1b*c3a2b0P\x1bE"
PAGE = b"P4 8 1\n\x81"
OLDER = b"an older file"
FILES = {"in.pcl": STREAM, "in.pdf": STREAM, "page-1.png": STREAM, "contact.png": STREAM, "page.pbm": PAGE, "old": OLDER}
LINKS = {"link": "in.pcl", "link.pdf": "in.pcl", "link.png": "page.pbm", "link.html": "old"}
OTHER_NAMES = {"other": "in.pcl"}
IS_INPUT = "which it would replace"


class Row(NamedTuple):
    words: str          # for a shell in the folder
    says: str = IS_INPUT
    status: int = 1


ROWS = [
    Row("show in.pcl in.pcl"),
    Row("show in.pcl ./in.pcl"),
    Row("show in.pcl link"),
    Row("show in.pcl other"),
    Row("show link in.pcl"),
    Row("show - in.pcl < in.pcl"),
    Row("show in.pcl /dev/stdout >> in.pcl"),
    Row("show in.pcl /proc/self/cwd/in.pcl"),
    Row("picture page.pbm page.pbm"),
    Row("picture page.pbm link.png"),
    Row("picture link.png page.pbm 2"),
    Row("pictures in.pdf in.pdf"),
    Row("pictures in.pcl link.pdf"),
    Row("pictures - in.pdf < in.pdf"),
    Row("pictures page-1.png ."),
    Row("pictures contact.png ."),
    Row("printf 'at 6\\np in.pcl\\np link\\n' | step in.pcl", status=0),
    Row("trap '' XFSZ; ulimit -f 0; picture page.pbm old", "File too large"),
    Row("adapter --log in.pcl < /dev/null", "is no log"),
]
# What is made in the place of an older file; where the name is a link, it stays one.
MADE = {"show in.pcl link.html": "old", "pictures in.pcl made.pdf": "made.pdf", "picture page.pbm old 1": "old"}
