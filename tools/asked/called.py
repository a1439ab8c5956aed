"""The program called by a name that has control characters, and the words: what it tells has the name as it tells words, and else is its own answer."""

NAME = "press\x1b]0;x\x07\x7f\u009b"
TOLD = "press\\u001b]0;x\\u0007\\u007f\\u009b"

ROWS = ["help", "--help", "--version", "help page", "print --help", "press --help", "step", "print", "print --list - more", "press --engines two"]
