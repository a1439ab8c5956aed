"""Why a text is no JSON object."""

import json

from model import json_text

from . import kinds

MARK = b"\xef\xbb\xbf"


def object_of(data):
    """The value of a text that is a JSON object, or None and the reason in words, with what to do."""
    try:
        value = json_text.read(data)
    except (json_text.NotJson, ValueError, RecursionError):
        return None, *reason_of(data)
    if not isinstance(value, dict):
        kind = {list: "a list", str: "a text", bool: "a truth value", type(None): "null"}.get(type(value), "a number")
        return None, f"is {kind}, and no object", "Write { \"key\": value, .. }"
    return value, "", ""


def reason_of(data):
    if not data.strip():
        return "is empty", "Write a JSON object"
    if data.startswith(MARK):
        return "begins with a byte order mark", "Save it as UTF-8 without a mark (in an editor: \"UTF-8\", not \"UTF-8 with BOM\")"
    kind = kinds.kind_of(data)
    if kind and kind != "a JSON text":
        return f"is {kind}, and no JSON text", "Look at the order of the words"
    try:
        text = data.decode("utf-8")
    except UnicodeDecodeError as fault:
        return f"is no UTF-8 text: byte {fault.start + 1:,} is {data[fault.start]:02X}", "Save it as UTF-8"
    return reason_in_text(text)


def reason_in_text(text):
    try:
        json.loads(text, parse_constant=lambda word: (_ for _ in ()).throw(ValueError(word)))
    except json.JSONDecodeError as fault:
        return f"is no JSON: line {fault.lineno}, column {fault.colno}: {said(fault, text)}", "Correct it there"
    except (ValueError, RecursionError) as fault:
        if isinstance(fault, RecursionError):
            return "nests deeper than 127 values", "Nest less deeply"
        return f"has {fault}, which JSON has not", "Write a number"
    depth = deepest(text)
    if depth > json_text.DEEPEST:
        return f"nests {depth} deep, and at most 127 are read", "Nest less deeply"
    return "has a number beyond all floats, or half of a surrogate pair", "Write another value"


def said(fault, text):
    character = text[fault.pos:fault.pos + 1]
    if character == "'":
        return "a text stands in double quotes"
    if fault.msg.startswith("Illegal trailing comma") or (character in "}]" and text[:fault.pos].rstrip().endswith(",")):
        return "a comma stands before the end"
    if fault.msg.startswith("Expecting property name") and text[:fault.pos].rstrip().endswith(","):
        return "a comma stands before the end, or a key without double quotes"
    if character == "":
        return "the text ends within a value"
    if character in "/#":
        return "JSON has no remarks"
    return fault.msg[0].lower() + fault.msg[1:]


def deepest(text):
    depth = most = 0
    inside = escaped = False
    for character in text:
        if inside:
            escaped, inside = character == "\\" and not escaped, character != '"' or escaped
        elif character == '"':
            inside = True
        elif character in "{[":
            depth += 1
            most = max(most, depth)
        elif character in "}]":
            depth -= 1
    return most
