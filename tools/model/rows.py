"""Raster rows: what a row's data stand for, given the row before it (the seed) and the width in bytes; and the blocks of
adaptive data, which stand for rows."""

from typing import NamedTuple

ADAPTIVE = 5
PLAIN_ROW, DELTA_ROW = 0, 3
EMPTY_ROWS, SEED_ROWS = 4, 5
HEADER_BYTES = 3


class Block(NamedTuple):
    """So many rows, each of this data by this method; where there are none the seed becomes zero."""
    rows: int
    method: int
    data: bytes


def blocks(data):
    """The blocks of adaptive data, up to a cut header or an unknown command. A cut row has the bytes that are there."""
    place = 0
    while place + HEADER_BYTES <= len(data) and data[place] <= SEED_ROWS:
        command, count = data[place], data[place + 1] * 256 + data[place + 2]
        place += HEADER_BYTES
        if command == EMPTY_ROWS:
            yield Block(count, PLAIN_ROW, b"")
        elif command == SEED_ROWS:
            yield Block(count, DELTA_ROW, b"")
        else:
            yield Block(1, command, data[place:place + count])
            place += count


def decode(method, data, seed):
    """The row of the seed's width."""
    width = len(seed)
    decoders = {0: plain, 1: run_length, 2: packed, 3: None}
    if method == 3:
        return delta(data, seed)
    row = decoders[method](data, width)
    return row[:width].ljust(width, b"\0")


def plain(data, _width):
    return bytes(data)


def run_length(data, width):
    row = bytearray()
    for place in range(0, len(data) - 1, 2):
        row += bytes([data[place + 1]]) * (data[place] + 1)
        if len(row) >= width:
            break
    return bytes(row)


def packed(data, width):
    row = bytearray()
    place = 0
    while place < len(data) and len(row) < width:
        code = data[place]
        if code <= 127:
            row += data[place + 1:place + 2 + code]
            place += 2 + code
        elif code == 128:
            place += 1
        else:
            row += data[place + 1:place + 2] * (257 - code)
            place += 2
    return bytes(row)


def delta(data, seed):
    row = bytearray(seed)
    place = 0
    target = 0
    while place < len(data):
        replaced = (data[place] >> 5) + 1
        offset = data[place] & 31
        place += 1
        if offset == 31:
            whole = False
            while place < len(data) and not whole:
                offset += data[place]
                whole = data[place] < 255
                place += 1
            if not whole:
                break
        target += offset
        for byte in data[place:place + replaced]:
            if target < len(row):
                row[target] = byte
            target += 1
        place += replaced
    return bytes(row)
