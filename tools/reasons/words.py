"""What the words of the command line ask for, or why they are refused: the program's own grammar."""

import difflib
from typing import NamedTuple

from model import defaults, pjl
from model.press_lines import number_of
from seen import tables

from .finding import REFUSED_WORDS, Found

# The words that each subcommand takes, those that may be missing in brackets, and any number more after `...`; and its switches without a value.
SUBCOMMANDS = {row["name"]: row for row in tables.tables()["subcommands"]}
USAGES = {name: row["words"] for name, row in SUBCOMMANDS.items()}
FLAGS = {name: row["flags"] for name, row in SUBCOMMANDS.items()}
VALUES = {"--engines": "N", "--out": "TEMPLATE"}   # what stands behind a switch
HELP = ("-h", "--help", "help", "-V", "--version")
WITH_DEFAULTS = [name for name, row in SUBCOMMANDS.items() if defaults.OPTION in row["options"]]


class Request(NamedTuple):
    what: str
    names: list
    listed: bool = False
    engines: int = 1
    defaults: tuple = ()   # words NAME=VALUE
    template: str | None = None
    goes_on: bool = False


def usage(what):
    options = [f"[{option} {VALUES[option]}]" for option in SUBCOMMANDS[what]["options"] if option in VALUES] + [f"[{flag}]" for flag in FLAGS[what]]
    options += [f"[{defaults.OPTION} NAME=VALUE].."] if what in WITH_DEFAULTS else []
    words = " ".join(["press", what, *options, *USAGES[what]])
    return f"Write: {words}"


def refuse(sentence, advice):
    raise Found(REFUSED_WORDS, sentence, advice)


def request_of(words):
    """The request of the words, or None where help or the version is asked for."""
    for word in words:
        if any(0xDC80 <= ord(character) <= 0xDCFF for character in word):
            refuse(f"The word {word!r} is no UTF-8 text", "Rename the file, or name it by another path")
    if not words:
        return Request("print", ["-"], True)
    what = words[0]
    if what in HELP:
        return None
    if what not in USAGES:
        near = difflib.get_close_matches(what, USAGES, 1)
        hint = f"Did you mean {near[0]}?" if near else "The subcommands are " + ", ".join(USAGES)
        if what.startswith("-"):
            refuse(f"No option {what} stands before a subcommand", "The subcommands are " + ", ".join(USAGES))
        refuse(f"There is no subcommand {what}", hint)
    return request_of_rest(what, words[1:])


def value_of(option, rest):
    """The value of an option in the words, empty where none stands behind it, or None where it stands nowhere; and the words without it."""
    for place, word in enumerate(rest):
        if word == "--":
            break
        if word == option or word.startswith(option + "="):
            value, behind = (word[len(option) + 1:], place + 1) if "=" in word else (" ".join(rest[place + 1:place + 2]), place + 2)
            return value, rest[:place] + rest[behind:]
    return None, rest


def engines_of(rest):
    """The number of engines that the words ask for, and the words without it."""
    spelled, rest = value_of("--engines", rest)
    number = 1 if spelled is None else number_of(spelled.encode())
    if number is None:
        refuse(f"--engines asks for {spelled or 'nothing'}, and not for a number", usage("press"))
    return number, rest


def template_of(rest):
    """The template of files that the words ask for, and the words without it."""
    template, rest = value_of("--out", rest)
    if template == "":
        refuse("--out asks for nothing", usage("press"))
    return template, rest


def pair_of(word):
    return [part.decode() for part in defaults.pair_of(word)]


def defaults_of(what, rest):
    """The defaults that the words ask for, and the words without them."""
    asked, others, place = [], [], 0
    while place < len(rest) and rest[place] != "--":
        word, place = rest[place], place + 1
        if word == defaults.OPTION:
            asked += rest[place:place + 1] or refuse(f"{word} is the last word", usage(what))
            place += 1
        elif word.startswith(defaults.OPTION + "="):
            asked.append(word.partition("=")[2])
        else:
            others.append(word)
    try:
        return tuple(map("=".join, map(pair_of, asked))), others + rest[place:]
    except defaults.Refused as refused:
        refuse(f"{defaults.OPTION} asks for {refused}, and the job language has no such variable, or not with this value",
               "The variables are " + ", ".join(name.decode() for name in pjl.FACTORY) + ", as RESOLUTION=600")


def request_of_rest(what, rest):
    names, listed, options = [], set(), True
    chosen, rest = defaults_of(what, rest) if what in WITH_DEFAULTS else ((), rest)
    engines, rest = engines_of(rest) if what == "press" else (1, rest)
    template, rest = template_of(rest) if what == "press" else (None, rest)
    for word in rest:
        if options and word == "--":
            options = False
        elif options and word in ("-h", "--help"):
            return None
        elif options and word in FLAGS[what] and word not in listed:
            listed.add(word)
        elif options and word.startswith("-") and word != "-":
            refuse(f"{word} stands twice" if word in listed else f"{word} is no option of {what}", usage(what))
        else:
            names.append(word)
    check_count(what, names, listed)
    return Request(what, names, bool(listed), engines, chosen, template, "--keep-going" in listed)


def check_count(what, names, listed):
    wanted = USAGES[what]
    needed = [word for word in wanted if not word.startswith("[")]
    if len(names) < len(needed):
        refuse(f"{needed[len(names)]} is missing", usage(what))
    if len(names) > len(wanted) and not any(".." in word for word in wanted):
        refuse(f"The word {names[len(wanted)]} is one too many", usage(what))
    if what == "page" and number_of(names[1].encode()) is None:
        refuse(f"K is {names[1]}, and no number of steps", usage(what))
    if what in ("asm", "write", "page") and names[-1 if what == "page" else 1] == "-":
        refuse("OUT is -, which is no file", "Give the name of a file, or /dev/stdout for standard output")
    if what == "debug" and names == ["-"]:
        refuse("IN is standard input, on which the lines stand", "Give the name of a file: press debug page.pcl < lines.txt")
    if what == "print" and not listed and len(names) == 1:
        refuse("OUT is missing", "Give a template as page-%d.pbm, or list the sheets: press print --list IN")
