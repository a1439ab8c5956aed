"""Random tickets, legal and spoilt, and random images of few dots. A value of a member that is of bytes is a text of JSON already."""

import json

PLAIN = {"Version": "1.5", "Type": "DigitalPrinting", "JobID": "J", "NPage": 1, "Amount": 1}


def spelled(value):
    return value.decode() if isinstance(value, bytes) else json.dumps(value)


def object_of(members, separators=(",", ":")):
    """An object of keys and spelled values, in this order."""
    comma, colon = separators
    return ("{" + comma.join(spelled(key) + colon + value for key, value in members) + "}").encode()


def text_of(maker, members, separators=(",", ":")):
    """The members of a ticket, in any order."""
    names = list(members)
    maker.shuffle(names)
    return object_of([(name, spelled(members[name])) for name in names], separators)


def spoil(maker, members):
    """Changes one thing, so that most often the ticket is refused."""
    change = maker.randrange(9)
    if change == 8:
        members["Resolution"] = maker.choice([0, 150, 450, 1200, "600", None, True, b"600.0", b"6e2", b"-600", [600]])
    elif change == 0:
        del members[maker.choice(list(members))]
    elif change == 1:
        members[maker.choice(["Copies", "amount", "", "~", "\u00e9", "Resolution"])] = 1
    elif change == 2:
        members[maker.choice(list(members))] = maker.choice([None, "x", 1.5, [], [[0, 0, 0]], -1, b"-0", b"1e0", b"18446744073709551616"])
    elif change == 3:
        members["Type"] = "Folding"
    elif change == 4:
        members["NPage"] = maker.choice([0, -1, 1000, b"18446744073709551615"])
    elif change == 5:
        members["Amount"] = maker.choice([0, -1, 10000, b"-9223372036854775808"])
    elif change == 6:
        members["RunList"] = maker.choice([[[0, 3]], [[-4, 0]], [[0, 0]] * 65, [], [[0, -1]] * 64, [[0]], [[0, 0.5]], [["0", 0]]])
    else:
        members["JobID"] = maker.choice(["", "J" * 64, "\n", "\u00e9", "\x7f"])


def rows(maker, width, height):
    """The bytes of rows, each like the one above, white, of one byte, or any."""
    row_bytes = (width + 7) // 8
    made = []
    for _ in range(height):
        pick = maker.random()
        if pick < 0.3 and made:
            made.append(made[-1])
        elif pick < 0.6:
            made.append(bytes(row_bytes))
        elif pick < 0.75:
            made.append(bytes([maker.randrange(256)]) * row_bytes)
        else:
            made.append(maker.randbytes(row_bytes))
    return b"".join(made)
