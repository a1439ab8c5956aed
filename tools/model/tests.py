#!/usr/bin/env python3
"""Worked examples with their values. Run as a script; each test is a function named for what it shows."""

import hashlib
import random
import sys
import tempfile
from pathlib import Path

if __package__ in (None, ""):
    sys.path[0] = str(Path(__file__).resolve().parent.parent)

from model import (  # noqa: E402
    asm, commands, debug_lines, explain, job_queue, other_blocks, pages, patterns, pbm, press, rows, runs, ticket, titles, trace_lines, values, writer)
from model.commands import (  # noqa: E402
    Broken, Control, Param, PjlLine, Text, Uel, closed, same_commands, split)
from model.press_lines import played  # noqa: E402
from seen import names  # noqa: E402

UEL = b"\x1b%-12345X"
FF = b"\x0c"
LETTER = (2550, 3300)


def stream(text):
    """The bytes of a written stream: ESC and FF are words, brackets hold hexadecimal, blanks only separate."""
    spelled = b""
    while text:
        if text.startswith("["):
            inside, _, text = text[1:].partition("]")
            spelled += bytes.fromhex(inside)
        elif text.startswith("ESC"):
            spelled, text = spelled + b"\x1b", text[3:]
        elif text.startswith("FF"):
            spelled, text = spelled + FF, text[2:]
        elif text.startswith("UEL"):
            spelled, text = spelled + UEL, text[3:]
        else:
            spelled += text[0].strip().encode()
            text = text[1:]
    return spelled


def run(text):
    return runs.run_stream(stream(text) if isinstance(text, str) else text)


def dots(columns, lines):
    return {(x, y) for x in columns for y in lines}


def span(first, last):
    return range(first, last + 1)


def fronts(text):
    """The black dots of each sheet's front."""
    outcome = run(text)
    assert outcome.replies == b""
    assert all(sheet.back is None for sheet in outcome.sheets)
    return [sheet.front.black_dots() for sheet in outcome.sheets]


def refused(number, call, *arguments, **named):
    try:
        call(*arguments, **named)
    except Exception as fault:  # each module has its own refusals
        assert getattr(fault, "number", None) == number, (number, fault)
        return fault
    raise AssertionError("not refused: %s" % number)


# Streams and their sheets

def test_empty_stream():
    outcome = run(b"")
    assert outcome.sheets == [] and outcome.replies == b""


def test_blank_sheet():
    outcome = run("ESC E FF ESC E")
    sheet, = outcome.sheets
    assert (sheet.front.width(), sheet.front.height()) == LETTER
    assert sheet.back is None and sheet.front.count_black() == 0
    assert pages.listing(outcome.sheets, b"") == b"sheet 1 front 2550x3300 black 0\n"


def test_small_box():
    text = "ESC E ESC*p0x0Y ESC*c3a2b0P ESC E"
    assert fronts(text) == [dots(span(75, 77), span(150, 151))]
    outcome = run(text)
    assert pages.listing(outcome.sheets, outcome.replies) == b"sheet 1 front 2550x3300 black 6\n"


def test_combined_sequence_runs_from_the_left():
    assert fronts("ESC*p10x20Y ESC*c3a2b0P FF") == [dots(span(85, 87), span(170, 171))]


def test_broken_sequence_and_carriage_return():
    spelled = stream("ESC*p10 [0D] FF")
    assert same_commands(closed(spelled), [Broken(b"\x1b*p10"), Control(13), Control(12)])
    assert fronts(spelled) == [set()]
    assert runs.run_commands(closed(spelled)).engine.state.x == 0
    spelled = stream("ESC*p10x20 [0D]")
    first = Param(ord("*"), ord("p"), b"10", ord("X"), b"")
    assert same_commands(closed(spelled), [first, Broken(b"\x1b*p20"), Control(13)])


def test_cursor_stack_holds_twenty():
    pushes = b"".join(b"\x1b*p%dX\x1b&f0S" % place for place in span(1, 21))
    for pops, x in [(1, 480), (20, 24), (21, 24)]:
        assert runs.run_commands(closed(pushes + b"\x1b&f1S" * pops)).engine.state.x == x


def test_packed_row():
    columns = [*span(75, 78), *span(83, 86), *span(91, 94)]
    assert fronts("ESC*t300R ESC*r0A ESC*b1m2W [02 F0] FF") == [dots(columns, [187])]


def test_delta_row_and_its_seed():
    text = "ESC*t300R ESC*r0A ESC*b3m2W [00 FF] ESC*b0W ESC*b0m0W ESC*b3m0W ESC*rC FF"
    assert fronts(text) == [dots(span(75, 82), [187, 188])]


def test_row_codes():
    seed = bytes(5)
    assert rows.decode(2, bytes.fromhex("FE 41 80 01 42"), seed) == bytes.fromhex("41 41 41 42 00")
    assert rows.decode(1, bytes.fromhex("02 F0 05"), bytes(4)) == bytes.fromhex("F0 F0 F0 00")
    # A cut offset replaces nothing; a replaced byte past the width is dropped and counts for the next offset.
    assert rows.decode(3, bytes.fromhex("1F"), b"\x07") == b"\x07"
    assert rows.decode(3, bytes.fromhex("1F FF"), b"\x07") == b"\x07"
    assert rows.decode(3, bytes.fromhex("20 01 02 00 03"), b"\x07") == b"\x01"
    assert rows.decode(3, bytes.fromhex("1F 01 09"), bytes(33)) == bytes(32) + b"\x09"
    assert rows.decode(2, bytes.fromhex("05 01 02"), bytes(4)) == bytes.fromhex("01 02 00 00")
    assert rows.decode(2, bytes.fromhex("81 09"), bytes(130)) == bytes([9] * 128 + [0, 0])


def test_opaque_white_source_whitens():
    text = ("ESC*p0x0Y ESC*c16a1b0P ESC*t300R ESC*r8S ESC*v1N ESC*r1A ESC*b0W ESC*rC FF")
    assert fronts(text) == [dots(span(83, 90), [150])]


PATTERN = bytes.fromhex("00 00 01 00 00 08 00 08") + b"\xff" * 8


def test_user_pattern_survives_a_short_one():
    spelled = stream("ESC*c5G ESC*c16W [%s] ESC*c15W [%s] ESC*p0x0Y ESC*c2a1b4P FF" % (
        PATTERN.hex(), (PATTERN[:8] + bytes(7)).hex()))
    assert fronts(spelled) == [dots([75, 76], [150])]
    store = patterns.Patterns()
    store.define(5, PATTERN)
    refused(202, store.define, 5, PATTERN[:8] + bytes(7))
    refused(201, store.define, 5, PATTERN[:7])
    assert store.tile(patterns.USER, 5) == [[True] * 8] * 8


NESTED = ("ESC*p0x0Y ESC&f1y0X ESC*c1a1b0P ESC*p+2X ESC&f3X ESC&f1X ESC&f3X FF")


def test_nested_call():
    assert fronts(NESTED) == [{(75, 150), (77, 150)}]
    before_feed = stream(NESTED)[:-1]
    assert runs.run_commands(closed(before_feed)).engine.state.x == 96


def test_overlay():
    box = dots(span(75, 78), [187])
    assert fronts("ESC&f2y0X ESC*c4a1b0P FF ESC&f1X ESC&f4X FF FF") == [box, box]
    open_definition = "ESC&f2y0X ESC*c4a1b0P FF ESC&f1X ESC&f4X ESC*c1a1b0P ESC&f3y0X"
    assert fronts(open_definition) == [box]


INQUIRIES = (UEL + b"@PJL SET COPIES=3\r\n@PJL INQUIRE COPIES\r\n@PJL DINQUIRE COPIES\r\n")


def test_inquire_and_dinquire():
    outcome = run(INQUIRIES)
    first, second = b"@PJL INQUIRE COPIES\r\n3\r\n\x0c", b"@PJL DINQUIRE COPIES\r\n1\r\n\x0c"
    assert outcome.replies == first + second and (len(first), len(second)) == (25, 26)
    assert outcome.sheets == []


def test_rest_in_a_line():
    assert split(UEL + b"@PJ")[2] == b"@PJ"
    spelled = INQUIRIES
    for length in range(len(spelled)):
        given, _, rest = split(spelled[:length])
        assert same_commands(given, closed(spelled)[:len(given)])
        assert spelled[:length] == b"".join(map(commands.command_bytes, given)) + rest


ECHO_IN_TEXT = UEL + b"\x1b\x01@PJL ECHO x\n"


def test_line_after_a_broken_escape_is_text():
    expected = [Uel(), Broken(b"\x1b"), Control(1)] + [Text(byte) for byte in b"@PJL ECHO x"] + [Control(10)]
    assert same_commands(closed(ECHO_IN_TEXT), expected)
    assert run(ECHO_IN_TEXT).replies == b""
    assert same_commands(closed(asm.assemble(asm.disassemble(ECHO_IN_TEXT))), expected)


def test_low_resolution_row():
    assert fronts("ESC*t75R ESC*r1A ESC*b1W [80] FF") == [dots(span(75, 78), span(187, 190))]


def test_landscape_box():
    assert fronts("ESC&l1O ESC*p0x0Y ESC*c3a2b0P FF") == [dots([150, 151], span(3237, 3239))]


def test_shading():
    assert fronts("ESC*c50G ESC*p0x0Y ESC*c4a1b2P FF") == [{(76, 150), (78, 150)}]


def test_duplex_odd_page():
    sheet, = run("ESC&l1S FF ESC E").sheets
    assert sheet.front.count_black() == 0 and sheet.back is None


def test_page_status():
    outcome = run(UEL + b"@PJL USTATUS PAGE=ON\n@PJL ENTER LANGUAGE=PCL\n" + FF)
    assert len(outcome.sheets) == 1
    assert outcome.replies == b"@PJL USTATUS PAGE\r\n1\r\n\x0c" and len(outcome.replies) == 23


def test_longest_line():
    comment = b"@PJL COMMENT "
    comment += b"x" * (4096 - len(comment))
    outcome = run(UEL + comment + b"\n@PJL INQUIRE PAPER\n")
    assert outcome.replies == b"@PJL INQUIRE PAPER\r\nLETTER\r\n\x0c"
    tail = [Broken(comment), Broken(b"\n"), PjlLine(b"@PJL INQUIRE PAPER\n")]
    assert same_commands(closed(comment + b"\n@PJL INQUIRE PAPER\n"), tail)
    assert run(UEL + b"@PJL INQUIRE FOO\n").replies == b"@PJL INQUIRE FOO\r\n\"?\"\r\n\x0c"


def test_blank_two_sided_sheets():
    sheets = run("ESC&l1S ESC&l2X FF FF").sheets
    assert len(sheets) == 2
    assert all(sheet.back is not None and sheet.front.count_black() == sheet.back.count_black() == 0
               for sheet in sheets)
    assert all((side.width(), side.height()) == LETTER for sheet in sheets for _, side in sheet.sides())


def test_skip_zeroes_the_seed():
    text = "ESC*t300R ESC*r0A ESC*b3m2W [00 FF] ESC*b1Y ESC*b0W ESC*rC FF"
    assert fronts(text) == [dots(span(75, 82), [187])]


def test_body_that_deletes_itself_runs_on():
    text = "ESC&f1y0X ESC&f8X ESC*c1a1b0P ESC&f1X ESC&f2X ESC&f2X FF"
    assert fronts(text) == [{(75, 187)}]


def test_a_million_moves():
    spelled = b"\x1b*p0X" * 20000 + stream("ESC E ESC*p0x0Y ESC*c3a2b0P ESC E")
    assert fronts(spelled) == [dots(span(75, 77), span(150, 151))]


def test_large_box():
    assert fronts("ESC*p5x100Y ESC*c70a140b0P FF") == [dots(span(80, 149), span(250, 389))]


def test_placed_rows_are_the_placed_dots():
    corner = "ESC*p0x-9999Y ESC*c3a2b0P ESC*p900x1200Y ESC*c50G ESC*c40a9b2P FF"
    for orientation in range(4):
        sheet, = run("ESC&l%dO" % orientation + corner).sheets
        placed = sheet.front.physical_rows()
        assert (len(placed[0]), len(placed)) == LETTER
        found = {(x, y) for y, row in enumerate(placed) for x, bit in enumerate(row) if bit == "1"}
        assert found == sheet.front.black_dots() and len(found) == sheet.front.count_black() > 100


# 600 dots per inch

AT_600 = UEL + b"@PJL SET RESOLUTION=600\n"


def fronts_at_600(text):
    return fronts(AT_600 + stream(text))


def test_box_at_600():
    text = AT_600 + stream("ESC E ESC*p0x0Y ESC*c3a2b0P ESC E")
    assert fronts(text) == [dots(span(150, 155), span(300, 303))]
    outcome = run(text)
    assert pages.listing(outcome.sheets, b"") == b"sheet 1 front 5100x6600 black 24\n"
    asked = text + UEL + b"@PJL INQUIRE RESOLUTION\n@PJL DINQUIRE RESOLUTION\n"
    answers = b"@PJL INQUIRE RESOLUTION\r\n%d\r\n\x0c@PJL DINQUIRE RESOLUTION\r\n300\r\n\x0c"
    assert run(asked).replies == answers % 600


def test_rows_of_raster_at_600():
    row = "ESC*t200R ESC*r1A ESC*b1W [80] FF"
    assert fronts_at_600(row) == [dots(span(150, 152), span(375, 377))]
    assert fronts(row) == [dots(span(75, 78), span(187, 190))]
    assert fronts(row.replace("200", "600")) == [dots(span(75, 78), span(187, 190))]
    # Two rows of one dot each, and a skipped one between them; x is 10 decipoints, 8 dots and 4 positions, y 0.
    text = "ESC&a10h0V ESC*t600R ESC*r1A ESC*b1W [80] ESC*b1Y ESC*b1W [80] FF"
    assert fronts_at_600(text) == [{(158, 300), (158, 302)}]
    for resolution, side in [(75, 8), (100, 6), (150, 4), (300, 2)]:
        text = "ESC*p0x0Y ESC*t%dR ESC*r1A ESC*b1W [80] ESC*b1W [40] FF" % resolution
        first, second = span(300, 299 + side), span(300 + side, 299 + 2 * side)
        expected = dots(span(150, 149 + side), first) | dots(span(150 + side, 149 + 2 * side), second)
        assert fronts_at_600(text) == [expected], resolution
    # A row of no width of its own reaches to the end of the logical page, 4800 raster dots from its left.
    full = b"\x1b*p0x0Y\x1b*t600R\x1b*r1A\x1b*b700W" + b"\xff" * 700 + FF
    assert fronts(AT_600 + full) == [dots(span(150, 4949), [300])]


def test_places_at_600():
    # A4: 4960 by 7014 dots, offsets 142 and 118. One decipoint, 10 positions, is the first dot; 12 positions are the second.
    assert fronts_at_600("ESC&l26A ESC&a1h0V ESC*c1h1v0P FF") == [{(142, 300)}]
    assert fronts_at_600("ESC&l26A ESC&a1.2h0V ESC*c1.3h1.2v0P FF") == [dots([143, 144], [300])]
    # Frame dots 120 and 121, 300 to 302 of Letter on its side: physical x is the line, y 6599 less the column.
    assert fronts_at_600("ESC&l1O ESC*p0x0Y ESC*c1a1.5b0P FF") == [dots(span(300, 302), [6478, 6479])]
    assert fronts_at_600("ESC&l2O ESC*p0x0Y ESC*c1a1.5b0P FF") == [dots([4948, 4949], span(6297, 6299))]
    assert fronts_at_600("ESC&l3O ESC*p0x0Y ESC*c1a1.5b0P FF") == [dots(span(4797, 4799), [120, 121])]
    # The corner of the logical page: W and L are the same numbers of positions.
    assert fronts_at_600("ESC*p9999x9999Y ESC*c1a1b0P FF") == [set()]
    assert fronts_at_600("ESC*p2399.5x3149.5Y ESC*c9a9b0P FF") == [dots(span(4949, 4966), [6599])]
    # Tiles stay in dots: lines 300 and 301 are the fifth and the sixth of the tile, columns from 150 on the seventh.
    shaded = {(column, 300) for column in range(150, 158, 2)} | {(column, 301) for column in range(151, 158, 2)}
    assert fronts_at_600("ESC*c50G ESC*p0x0Y ESC*c4a1b2P FF") == [shaded]


def test_resolution_stays_until_a_line_changes_it():
    def sizes(spelled):
        return [[(side.width(), side.height()) for _, side in sheet.sides()] for sheet in run(spelled).sheets]

    at_600, sides = (5100, 6600), stream("ESC E") + UEL
    assert sizes(AT_600 + sides + FF + b"\x1b&l26A" + FF) == [[at_600], [(4960, 7014)]]
    assert sizes(AT_600 + FF + UEL + b"@PJL INITIALIZE\n" + FF) == [[at_600], [LETTER]]
    assert sizes(UEL + b"@PJL DEFAULT RESOLUTION=600\n" + FF + UEL + b"@PJL RESET\n" + FF) == [[LETTER], [at_600]]
    assert sizes(AT_600 + FF + UEL + b"@PJL SET RESOLUTION=450\n" + FF) == [[at_600], [at_600]]
    # A front that waits for its back goes out alone, and a marked page closes, as they are.
    assert sizes(b"\x1b&l1S" + FF + AT_600 + b"\x1b&l1S\x1b&a2G" + FF) == [[LETTER], [at_600, at_600]]
    assert sizes(b"\x1b*c1a1b0P" + AT_600 + FF) == [[LETTER], [at_600]]
    # A permanent macro that asks for 600 raster dots per inch: legal at 600 alone, and forgotten by the reset.
    macro = stream("ESC&f1y0X ESC*t600R ESC&f1X ESC&f10X ESC&f2X")
    fine = stream("ESC*p0x0Y ESC*r1A ESC*b1W [80] FF")
    coarse = UEL + b"@PJL SET RESOLUTION=300\n" + stream("ESC&f1y2X") + fine
    assert fronts(AT_600 + macro + fine + coarse) == [{(150, 300)}, dots(span(75, 78), span(150, 153))]
    state = runs.run_commands(closed(AT_600)).engine.state
    assert (state.resolution, state.logical_width(), state.logical_length()) == (600, 57600, 79200)
    assert (state.text_length, state.right_margin) == (72000, 57600)


def test_pages_at_600_are_doubled():
    """Where all places are whole dots at 300 and no tile shows, each dot is four."""
    for text in ["ESC E ESC*p0x0Y ESC*c3a2b0P ESC E", "ESC*p10x20Y ESC*c3a2b0P FF", "ESC*p0x0Y ESC*t300R ESC*r0A ESC*b1m2W [02 F0] FF",
                 "ESC*p0x0Y ESC*t300R ESC*r0A ESC*b3m2W [00 FF] ESC*b0W ESC*b0m0W ESC*b3m0W ESC*rC FF",
                 "ESC*p0x0Y ESC*c16a1b0P ESC*t300R ESC*r8S ESC*v1N ESC*r1A ESC*b0W ESC*rC FF", NESTED,
                 "ESC*p0x0Y ESC&f2y0X ESC*p0Y ESC*c4a1b0P FF ESC&f1X ESC&f4X FF FF", "ESC*p7x9Y ESC*t75R ESC*r1A ESC*b1W [A5] FF",
                 "ESC&l3O ESC*p-5x9Y ESC*t100R ESC*r1A ESC*b1W [A5] ESC*b2Y ESC*b1W [FF] FF", "ESC&l1O ESC*p0x0Y ESC*c3a2b0P FF"]:
        doubled = [{(2 * x + right, 2 * y + down) for x, y in front for right in (0, 1) for down in (0, 1)} for front in fronts(text)]
        assert fronts_at_600(text) == doubled and any(doubled), text


def test_traced_streams_print_the_same():
    for spelled in worked_streams():
        teller = trace_lines.Teller()
        last = [line["step"] for line in trace_lines.told_by(teller, spelled)][-1]
        teller.engine.outputs = teller.outputs
        traced, plain = runs.Outcome(teller.engine), run(spelled)
        assert pages.listing(traced.sheets, traced.replies) == pages.listing(plain.sheets, plain.replies)
        assert last == len(runs.trace(spelled)) == len(list(trace_lines.opened(spelled))) - 1


# Adaptive rows

def adaptive(data, start="ESC*t300R ESC*r0A", end="FF"):
    """A stream of one transfer of adaptive data, which begins at column 75 and line 187."""
    data = bytes.fromhex(data)
    return stream(start) + b"\x1b*b5m%dW" % len(data) + data + stream(end)


def adaptive_rows(data, **around):
    """The bytes of the lines from 187 on, and how many rows there were."""
    text = adaptive(data, end="", **around)
    state = runs.run_commands(closed(text)).engine.state
    laid = [(state.page.lines.get(187 + line, 0) if state.page else 0) >> 75 for line in range(state.row_count)]
    return [bytes(sum(0x80 >> bit for bit in range(8) if columns >> 8 * place + bit & 1) for place in range(2)).hex()
            for columns in laid]


def test_adaptive_rows():
    text = adaptive("00 00 01 FF 05 00 02 04 00 01 03 00 02 00 81")
    assert fronts(text) == [dots(span(75, 82), span(187, 189)) | {(75, 191), (82, 191)}]


def test_blocks_of_each_kind():
    for data, laid in [
            ("00 00 02 F0 0F  00 00 01 80", ["f00f", "8000"]),
            ("01 00 04 00 F0 00 0F", ["f00f"]),
            ("02 00 02 FF 3C", ["3c3c"]),
            ("00 00 02 FF FF  03 00 02 01 00", ["ffff", "ff00"]),
            ("00 00 02 A5 5A  05 00 02  04 00 02", ["a55a"] * 3 + ["0000"] * 2),
            # Cut: the bytes that are there; none are a row of no data.
            ("00 00 04 F0 0F", ["f00f"]), ("01 00 09 00 F0 00", ["f000"]), ("00 00 05", ["0000"]),
            ("00 00 02 A5 5A  03 00 05", ["a55a", "a55a"]), ("00 00 02 A5 5A  02 FF FF", ["a55a", "0000"]),
            # A count of 0: a row of no data, or none, and then the seed is zero.
            ("00 00 02 A5 5A  00 00 00", ["a55a", "0000"]), ("00 00 02 A5 5A  03 00 00", ["a55a", "a55a"]),
            ("00 00 02 A5 5A  05 00 00  03 00 00", ["a55a", "0000"]), ("00 00 02 A5 5A  04 00 00  05 00 01", ["a55a", "0000"]),
            ("00 00 02 A5 5A  05 00 00", ["a55a"]), ("05 00 00", []), ("04 00 00", []),
            # A cut header, and what begins with another command.
            ("00 00 02 A5 5A  05 00", ["a55a"]), ("05", []), ("00 00", []), ("00 00 01 80 06", ["8000"]),
            ("00 00 01 80  06 00 00  00 00 01 80", ["8000"]), ("FF 00 01 80", []), ("06 00 02 A5 5A", []), ("", [])]:
        assert adaptive_rows(data) == laid, (data, adaptive_rows(data))


def test_seed_of_blocks():
    begun, after = "ESC*t300R ESC*r16S ESC*r0A", "00 00 02 A5 5A"
    for data, seed in [(after, "a55a"), (after + "04 00 01", "0000"), (after + "04 00 00", "0000"), (after + "05 00 00", "0000"),
                       (after + "05 00 02", "a55a"), (after + "05 00 00 06 00 00", "0000"), (after + "06 05 00 00", "a55a"),
                       (after + "05 00", "a55a"), (after + "00 00 00", "0000")]:
        state = final_state(adaptive(data, begun, ""))
        assert state.seed.hex() == seed, data
    # The seed goes on over a change of method and into the next transfer.
    assert fronts(adaptive("00 00 01 81", end="ESC*b3m0W ESC*b5m3W [05 00 01] ESC*b0W FF")) == [dots([75, 82], span(187, 189))]
    # `*b1Y` sets it to zero, and goes on by a row.
    assert fronts(adaptive("00 00 01 81", end="ESC*b1Y ESC*b3W [05 00 01] ESC*b4W [00 00 01 80] FF")) == [{(75, 187), (82, 187), (75, 190)}]


def test_blocks_past_the_source_height():
    two_rows = "ESC*t300R ESC*r16S ESC*r2T ESC*r0A"
    for data, seed in [("00 00 02 A5 5A  05 00 09", "a55a"), ("00 00 01 FF  00 00 01 F0  00 00 01 0F", "f000"),
                       ("00 00 01 FF  04 00 01  05 00 01  00 00 01 F0", "0000"), ("00 00 02 A5 5A  05 00 01  04 00 07", "a55a"),
                       ("00 00 02 A5 5A  05 00 09  04 00 00", "0000"), ("00 00 02 A5 5A  05 00 09  05 00 00", "0000"),
                       ("00 00 02 A5 5A  05 00 09  00 00 02 05 00 05 00 00", "0000")]:
        state = final_state(adaptive(data, two_rows, ""))
        assert (state.seed.hex(), state.row_count, state.y) == (seed, 2, 900 + 48), data
    skipped = final_state(adaptive("00 00 01 FF", two_rows + "ESC*b2Y", ""))
    assert (skipped.seed, skipped.row_count, skipped.page, skipped.marked) == (bytes(2), 2, None, False)
    assert final_state(adaptive("05 FF FF 04 00 05", end="")).row_count == 65535
    most = final_state(adaptive("05 FF FF 00 00 01 FF", "ESC*t300R ESC*r8S ESC*r65535T ESC*r0A", ""))
    assert (most.row_count, most.seed, most.y) == (65535, bytes(1), 75600)


def test_transfer_without_rows():
    # It still turns raster graphics on, so that the resolution stays; and marks nothing.
    assert fronts("ESC*t300R ESC*b5m0W ESC*t75R ESC*b0m1W [80] FF") == [{(75, 187)}]
    assert fronts("ESC*t300R ESC*b5m2W [00 00] ESC*t75R ESC*b0m1W [80] FF") == [{(75, 187)}]
    assert fronts("ESC*b5m0W ESC*b3W [05 00 00] ESC E") == []
    assert fronts("ESC*b5m3W [04 00 01] ESC E") == [set()]
    state = final_state("ESC*p100X ESC*b5m0W")
    assert (state.raster_on, state.x, state.y, state.row_count, state.marked) == (True, 0, 900, 0, False)
    # Each row is a mark of its own: an opaque source whitens, also by empty rows.
    text = "ESC*p0x0Y ESC*c16a4b0P ESC*p0Y ESC*t300R ESC*r8S ESC*v1N ESC*r1A ESC*b5m10W [00 00 01 F0 05 00 01 04 00 01] FF"
    box = dots(span(75, 90), span(150, 153)) - dots(span(79, 82), [150, 151]) - dots(span(75, 82), [152])
    assert fronts(text) == [box]
    assert len(runs.trace(stream(text))) == 14


def random_blocks(source):
    """Blocks, most of them whole, or any bytes; many of them small numbers, so that they mean something."""
    if source.random() < 0.3:
        return bytes(source.choice([0, 0, 0, 1, 2, 3, 4, 5, 5, 31, 63, 128, 200, 255, source.randrange(256)])
                     for _ in range(source.randint(0, 40)))
    data = b""
    for _ in range(source.randint(0, 7)):
        body = bytes(source.choice([0, 1, 2, 31, 32, 95, 128, 129, 254, 255, source.randrange(256)]) for _ in range(source.randint(0, 9)))
        command = source.choice([0, 1, 2, 2, 3, 3, 3, 4, 5])
        count = source.choice([0, 1, 1, 2, 3]) if command > 3 else len(body)
        data += bytes([command, 0, count]) + (body if command < 4 else b"")
    return data[:len(data) - source.choice([0, 0, 0, 0, 1, 2, 3, 5])]


def test_blocks_by_a_second_decoder():
    source = random.Random(5)
    for number in range(1000):
        width, height = source.randint(1, 9), source.choice([None, None, 1, 2, 5, 9])
        first = bytes(source.choice([0, 255, source.randrange(256)]) for _ in range(width))
        data = random_blocks(source)
        other = other_blocks.Transfer(first, height and height - 1).feed(data)
        if len(other.laid) > 3000 and number % 30:
            continue
        text = b"\x1b*p0x0Y\x1b*t300R\x1b*r%dS" % (8 * width) + (b"\x1b*r%dT" % height if height else b"")
        text += b"\x1b*r0A\x1b*b0m%dW" % width + first + b"\x1b*b5m%dW" % len(data) + data
        state = final_state(text)
        laid = [first, *other.laid]
        assert state.seed == bytes(other.seed) and state.row_count == min(65535, len(laid)), data.hex()
        assert state.y == min(75600, 24 * len(laid))
        lines = {150 + number: sum(1 << 75 + 8 * place + bit for place, byte in enumerate(row) for bit in range(8) if byte << bit & 128)
                 for number, row in enumerate(laid[:LETTER[1] - 150])}
        assert state.page.lines == {line: columns for line, columns in lines.items() if columns}, data.hex()


# Every shape of the tiles

def tile_text(tile):
    return ["".join("#" if black else "." for black in row) for row in tile]


def test_tiles():
    bounds = [(1, 2, "80"), (3, 10, "88"), (11, 20, "88"), (21, 35, "AA"), (36, 55, "AA"),
              (56, 80, "FF"), (81, 99, "77"), (100, 100, "FF")]
    for first, last, row in bounds:
        for per_cent in (first, last):
            assert patterns.shading(per_cent)[0] == patterns.dots_of_bytes(bytes.fromhex(row), 8)
    assert patterns.shading(10) != patterns.shading(11) and patterns.shading(55) != patterns.shading(35)
    assert patterns.shading(0) is None and patterns.shading(101) is None
    assert patterns.hatch(0) is None and patterns.hatch(7) is None
    assert tile_text(patterns.hatch(1))[0] == "#" * 16 and tile_text(patterns.hatch(1))[1] == "." * 16
    assert [row.index(True) for row in patterns.hatch(4)] == list(range(16))
    assert [row.index(True) for row in patterns.hatch(3)] == list(range(15, -1, -1))


# Values

def test_value_fields():
    for field, number, signed in [
            (b"99999", 655350000, False), (b"-40000.5", -327670000, True), (b".12345", 1234, False),
            (b"+", 0, True), (b"", 0, False), (b"-.", 0, True), (b"5.", 50000, False)]:
        assert values.read_value(field) == (number, signed)
    assert values.read_value(b"-0.9").whole() == 0
    assert len(values.UNITS_OF_MEASURE) == 26 and values.UNITS_OF_MEASURE[0] == 96


# P4 files

def test_portable_bitmaps():
    file = b"P4\n3 1\n\xe0"
    width, read_rows, unread = pbm.read(file)
    assert (width, read_rows, unread) == (3, ["111"], b"")
    assert pbm.bytes_of_rows(read_rows) == file
    for number, bad in [(113, file[:-1]), (111, b"P5\n3 1\n\xe0"), (112, b"P4 0 1 "), (113, b""), (113, b"P"),
                        (113, b"P4"), (113, b"P4#c"), (113, b"P4 3"), (113, b"P4 3 1"), (113, b"P4 3 #"),
                        (111, b"P4x"), (111, b"P43 1 "), (111, b"P4 3 1#"), (112, b"P4 16385 1\n")]:
        refused(number, pbm.read, bad)
    assert pbm.read(b"P4#c\r3#d\n1\t\xff more")[2] == b" more"


# Assembly text

def test_assembly_text():
    text = asm.disassemble(stream("ESC*p10x20Y"))
    assert text == "par *p10X\npar *p20Y\n"
    assert asm.assemble(text) == stream("ESC*p10X ESC*p20Y")
    for number, line in [(402, "par *p1.2.3X"), (403, "par *b2W 02"), (401, "foo"), (401, "par %-12345X"),
                         (401, "ctl 1"), (401, "ctl 1B"), (401, "txt 1F"), (403, "brk 1B2"), (401, "brk "),
                         (401, "par *b0W "), (403, "par *p1X 00"), (403, "pjl 40504A4C"), (401, "uel\r"),
                         (401, "esc /"), (401, "par *p1x")]:
        assert refused(number, asm.assemble, line).line == 1
    assert refused(401, asm.assemble, "; all is well\n\nuel\nfoo\nbar").line == 4


def worked_streams():
    return [stream(text) for text in [
        "ESC E FF ESC E", "ESC E ESC*p0x0Y ESC*c3a2b0P ESC E", "ESC*p10 [0D] FF", "ESC*p10x20 [0D]",
        "ESC*t300R ESC*r0A ESC*b1m2W [02 F0] FF", NESTED,
        "ESC&f2y0X ESC*c4a1b0P FF ESC&f1X ESC&f4X FF FF", "ESC*t75R ESC*r1A ESC*b1W [80] FF",
    ]] + [INQUIRIES, ECHO_IN_TEXT, b"@PJL ENTER LANGUAGE=X\nab\x1b%-1", b"@PJL x\x1b", b"@PJ", b"\x1b*p1x"]


def test_disassembled_streams_close_alike():
    for spelled in worked_streams():
        for length in range(len(spelled) + 1):
            part = spelled[:length]
            assert same_commands(closed(asm.assemble(asm.disassemble(part))), closed(part)), part


# Traces

def test_steps_of_a_nested_call():
    spelled = stream(NESTED)
    items = runs.trace(spelled)
    assert len(items) == 23
    assert [item.depth for item in items] == [0] * 10 + [1] * 5 + [2] * 5 + [0] * 3
    debugger = runs.Debugger(spelled)
    for _ in range(10):
        assert debugger.step_into() == "stepped"
    assert debugger.step_over() == "stepped" and debugger.step() == 21
    debugger = runs.Debugger(spelled)
    debugger.breaks[0] = lambda at: at.last() == "par *cP"
    stops = []
    while debugger.go(1000) == "break 0":
        stops.append(debugger.step())
    assert stops == [14, 19] and debugger.step() == 23
    debugger = runs.Debugger(spelled)
    debugger.breaks[32] = lambda at: at.items[at.place - 1].view["x"] >= 96
    assert debugger.go(1000) == "break 32" and debugger.step() == 20


def test_lines_of_the_debugger():
    script = b"""break par *cP
go 9
go 18446744073709551615
recent
go 100
over
go 100
step
clear 0
clear 5
break esc
go 18446744073709551616
step"""
    spelled = stream(NESTED)
    answers = debug_lines.DebugLines(spelled).run(script).split("\n")
    assert answers[:3] == ["set 0", answers[1], answers[2]]
    assert answers[1].startswith("limit step 9 depth 0 ") and answers[2].startswith("break 0 step 14 depth 1 ")
    assert answers[3:17] == [item.kind for item in runs.trace(spelled)[:14]]
    assert [answer.split(" x ")[0] for answer in answers[17:21]] == [
        "break 0 step 19 depth 2", "stepped step 20 depth 2", "ended step 23 depth 0", "ended step 23 depth 0"]
    assert answers[21:25] == ["cleared 0", "fault 502", "what?", "what?"] and answers[26:] == [""]
    many = debug_lines.DebugLines(b"").run(b"break uel\n" * 33)
    assert many == "".join(f"set {number}\n" for number in range(32)) + "fault 501\n"


def test_deepest_trace():
    text = ("ESC&f3y0X ESC*p1X ESC&f1X ESC&f4y0X ESC&f3y2X ESC&f1X "
            "ESC&f2y0X FF ESC&f1X ESC&f1y0X ESC&f2y2X ESC&f1X ESC&f4y4X ESC&f1y2X")
    depths = [item.depth for item in runs.trace(stream(text))]
    assert max(depths) == 4 and depths[-1] == 0


# Explained streams

def explained(text):
    """The remarks and commands of a written stream."""
    return explain.text(stream(text)).decode().splitlines()


def test_explained_row():
    assert explained("ESC E ESC*t300R ESC*r1A ESC*b1W [FF]") == [
        "; at 0: Printer Reset; changes nothing", "esc E",
        "; at 2: Raster Graphics Resolution, in dots per inch: 300; raster.resolution 75 to 300", "par *t300R",
        "; at 9: Start Raster Graphics: 1 (at the cursor); raster.left none to 0; raster.rows none to 0", "par *r1A",
        "; at 14: Transfer Raster Data by Row, in bytes: 1; marks within 16 by 1 dots at 72, 187; y 900 to 924; page.marked off to on; raster.rows 0 to 1",
        "par *b1W FF",
        "; at 20: the end, where a universal exit is added; the page closes; sheets 0 to 1; y 924 to 900; page.marked on to off; raster.left 0 to none; "
        "raster.resolution 300 to 75; raster.rows\x201 to none; settings.sheets_of_job 0 to 1"]


def test_explained_macro():
    """Of its pages the one that is open behind it is compared with the one that was open before, which closed: one dot is black on both of them."""
    assert explained("ESC&f0X FF ESC*c1b1a0P ESC*p15X ESC*c0P ESC&f1X ESC*c1a1b0P ESC&f2X")[16:] == [
        "; at 31: Horizontal Rectangle Size (PCL Units): 1; drawing.width 0 to 24", "par *c1A",
        "; at 36: Vertical Rectangle Size (PCL Units): 1; drawing.height 0 to 24", "par *c1B",
        "; at 38: Fill Rectangular Area: 0 (solid black); marks within 8 by 1 dots at 72, 187; page.marked off to on", "par *c0P",
        "; at 40: Macro Control: 2 (execute); marks within 8 by 1 dots at 88, 187; sheets 0 to 1; runs 6 recorded commands; x 0 to 360; "
        "settings.sheets_of_job 0 to 1", "par &f2X",
        "; at 45: the end, where a universal exit is added; the page closes; sheets 1 to 2; x 360 to 0; drawing.height 24 to 0; drawing.width 24 to 0; "
        "page.marked on to off; settings.sheets_of_job 1 to 2"]


def test_explained_runs():
    """Text in two runs, one of them while HP-GL/2 is on, with a control character in it."""
    assert explained("ab ESC%0B c [0D] d ESC%0A [E9] [07] e") == [
        "; at 0: Text: a; refused: no row", "txt 61", "txt 62",
        "; at 2: Enter HP-GL/2 Mode: 0; settings.hp_gl off to on", "par %0B",
        "; at 6: Text: c; refused: HP-GL/2", "txt 63", "ctl 0D", "txt 64",
        "; at 9: Enter PCL Mode: 0; settings.hp_gl on to off", "par %0A",
        "; at 13: Text: .; refused: no row", "txt E9",
        "; at 14: Bell; refused: no row", "ctl 07",
        "; at 15: Text: e; refused: no row", "txt 65",
        "; at 16: the end, where a universal exit is added; changes nothing"]


def test_explained_reply():
    line = b"@PJL ECHO " + 60 * b"x" + b"\n"
    assert explain.text(line).decode().splitlines() == [
        f"; at 0: PJL line: @PJL ECHO {50 * 'x'}; replies: @PJL ECHO {50 * 'x'}", f"pjl {line.hex().upper()}",
        "; at 71: the end, where a universal exit is added; changes nothing"]


def test_explained_streams_assemble():
    """Without its remarks the text is what `disasm` writes, and the assembler passes over them."""
    for spelled in worked_streams():
        text = explain.text(spelled).decode()
        plain = "".join(line for line in text.splitlines(keepends=True) if not line.startswith("; "))
        assert plain == asm.disassemble(spelled) and asm.assemble(text) == asm.assemble(plain)


def test_titles_are_the_names():
    """Each of HP's names has a title, with its unit where it does not tell it itself, and each meaning stands in the other table."""
    named = {f"esc {letter}": name for letter, name in names.ESCAPES.items()} | {"ctl %02X" % number: name for number, name in names.CONTROLS.items()}
    with_units = {f"par {letters}": known for letters, known in names.PARAMS.items()}
    assert {kind: title.partition(", in ")[0] for kind, title in titles.TITLES.items() if " " in kind} == named | {kind: known.name for kind, known in with_units.items()}
    assert titles.MEANINGS == {(kind, number): words for kind, known in with_units.items() for number, words in known.values.items()}


# Tickets

IMAGE = (1, ["1"])
PAGES = [(1, ["1"]), (2, ["11"]), (1, ["1", "1"])]


def ticket_bytes(**changes):
    fields = {"Amount": 2, "Collate": True, "JobID": "J", "NPage": 3, "Sides": "TwoSidedHeadToHead",
              "Type": "DigitalPrinting", "Version": "1.5"}
    fields.update(changes)
    return press.compact({key: value for key, value in fields.items() if value is not None})


def job_sheets(read, images):
    outcome = runs.run_stream(press.writer.job_of(read, images))
    assert outcome.replies == b""
    return [(sheet.front.black_dots(), sheet.back and sheet.back.black_dots()) for sheet in outcome.sheets]


def test_wanted_sheets():
    for changes, expected in [
            ({}, [(0, 1), (2, None), (0, 1), (2, None)]),
            ({"Collate": False}, [(0, 1), (0, 1), (2, None), (2, None)]),
            ({"RunList": [[-1, -1]]}, [(2, None), (2, None)]),
            ({"RunList": [[2, 0]], "Sides": "OneSidedFront", "Amount": 1}, [(2, None), (1, None), (0, None)])]:
        read = ticket.read_ticket(ticket_bytes(**changes))
        assert ticket.wanted_page_sheets(read) == expected
        ticket.check(read, PAGES)
        assert job_sheets(read, PAGES) == ticket.wanted(read, PAGES)
    read = ticket.read_ticket(ticket_bytes())
    assert job_sheets(read, [IMAGE] * 3) == [({(75, 0)}, {(75, 0)}), ({(75, 0)}, None)] * 2


def test_tickets_at_600():
    read = ticket.read_ticket(ticket_bytes(Resolution=600))
    assert job_sheets(read, [IMAGE] * 3) == [({(150, 0)}, {(150, 0)}), ({(150, 0)}, None)] * 2
    outcome = runs.run_stream(press.writer.job_of(read, [IMAGE] * 3))
    assert pages.listing(outcome.sheets[:1], b"") == b"sheet 1 front 5100x6600 black 1\nsheet 1 back 5100x6600 black 1\n"
    assert ticket.wanted(read, [IMAGE] * 3) == job_sheets(read, [IMAGE] * 3)
    ticket.check(read, [IMAGE, (2401, ["1" * 2401]), IMAGE])
    ticket.check(read, [IMAGE, (4800, ["1"] * 6600), IMAGE])
    refused(612, ticket.check, read, [IMAGE, (4801, ["1"] * 6601), IMAGE])
    refused(613, ticket.check, read, [IMAGE, (1, ["1"] * 6601), IMAGE])
    for resolution in [450, 0, 600.0, "600", True, [600]]:
        fault = refused(602, ticket.read_ticket, ticket_bytes(Resolution=resolution, Amount=0))
        assert fault.key == "Resolution"
    assert refused(602, ticket.read_ticket, ticket_bytes(Resolution=450, Collate=1)).key == "Collate"
    for changes in [{}, {"Resolution": 300}]:
        assert ticket.read_ticket(ticket_bytes(**changes)) == ticket.read_ticket(ticket_bytes())
    for media, width in [("A4", 2 * (2480 - 142)), ("Ledger", 6300), ("A3", 2 * (3507 - 142))]:
        read = ticket.read_ticket(ticket_bytes(Resolution=600, Media=media, NPage=1, Amount=1))
        edge = [(width, ["0" * (width - 1) + "1"])]
        ticket.check(read, edge)
        assert job_sheets(read, edge) == ticket.wanted(read, edge)
        refused(612, ticket.check, read, [(width + 1, ["1"])])


def test_refused_tickets():
    for number, key, changes in [
            (605, None, {"Amount": 0}), (604, None, {"RunList": [[3, 3]]}), (603, None, {"Type": "Folding"}),
            (602, "JobID", {"JobID": None}), (602, "A", {"A": 1, "JobID": None}), (604, None, {"NPage": 0}),
            (602, "RunList", {"RunList": []}), (602, "RunList", {"RunList": [[1, 2, 3]]}),
            (602, "Amount", {"Amount": 1.5}), (602, "Media", {"Media": "B5"}), (602, "Sides", {"Sides": []}),
            (603, None, {"Type": "Folding", "NPage": 0}), (602, "Collate", {"Collate": "SheetSet"})]:
        assert refused(number, ticket.read_ticket, ticket_bytes(**changes)).key == key
    refused(601, ticket.read_ticket, b"{")
    refused(601, ticket.read_ticket, b"[]")
    read = ticket.read_ticket(ticket_bytes())
    refused(612, ticket.check, read, [IMAGE, (2401, ["1" * 2401]), IMAGE])
    refused(613, ticket.check, read, [IMAGE, (1, ["1"] * 3301), IMAGE])
    refused(611, ticket.check, read, [IMAGE] * 2)


def test_depth_of_tickets_and_messages():
    assert refused(602, ticket.read_ticket, b'{"A":' + b"[" * 126 + b"]" * 126 + b"}").key == "A"
    refused(601, ticket.read_ticket, b'{"A":' + b"[" * 127 + b"]" * 127 + b"}")
    deep = b'{"ID":"m","Type":"Status","X":' + b"[" * 127 + b"]" * 127 + b"}"
    assert press.Press().message(deep) == b'{"ReturnCode":6,"Type":"","refID":""}'


# The queue and the press

def message(kind, **fields):
    return press.compact({"ID": "m1", "Type": kind, **fields})


def submission(pages_in_all=1, **fields):
    plain = {"Amount": 1, "JobID": "J", "NPage": pages_in_all, "Type": "DigitalPrinting", "Version": "1.5"}
    plain.update(fields.pop("changes", {}))
    return message("SubmitQueueEntry", Ticket=plain, **fields)


def code(response):
    return press.json.loads(response)["ReturnCode"]


def shown_state(at):
    """All that messages and calls show of a press."""
    texts = at.message(message("QueueStatus")), at.message(message("Status"))
    return texts, at.queue.last_number, [at.delivered(number) for number in span(0, 70)]


def answer(response_code, kind, message_id="m1"):
    return b'{"ReturnCode":%d,"Type":"%s","refID":"%s"}' % (response_code, kind.encode(), message_id.encode())


def test_submissions():
    at = press.Press()
    expected = b'{"QueueEntryID":"Q1","ReturnCode":0,"Type":"SubmitQueueEntry","refID":"m1"}'
    assert at.message(submission(), [IMAGE]) == expected
    for number in span(2, 64):
        assert at.message(submission(), [IMAGE]) == expected.replace(b"Q1", b"Q%d" % number)
    full = shown_state(at)
    assert b'"Status":"Full"' in full[0][0] and len(at.queue.entries) == 64
    assert at.message(submission(), [IMAGE]) == answer(24, "SubmitQueueEntry")
    assert shown_state(at) == full
    assert at.message(message("CloseQueue")) == answer(0, "CloseQueue")
    assert at.message(submission(), [IMAGE]) == answer(23, "SubmitQueueEntry")
    assert at.message(message("OpenQueue")) == answer(0, "OpenQueue")
    assert shown_state(at) == full


def test_last_number():
    at = press.Press()
    at.queue.last_number = job_queue.GREATEST_NUMBER - 1
    assert b'"QueueEntryID":"Q18446744073709551615"' in at.message(submission(), [IMAGE])
    assert at.message(submission(), [IMAGE]) == answer(24, "SubmitQueueEntry")


def test_refused_messages():
    at = press.Press()
    assert at.message(submission(Priority=101), [IMAGE]) == answer(25, "SubmitQueueEntry")
    assert code(at.message(submission(), [IMAGE])) == code(at.message(submission(), [IMAGE])) == 0
    before = shown_state(at)
    for position, expected in [(2, 26), (-1, 26), (1, 0), (0, 0)]:
        moved = at.message(message("SetQueueEntryPosition", QueueEntryID="Q1", Position=position))
        assert moved == answer(expected, "SetQueueEntryPosition")
    assert at.message(message("HoldQueueEntry", QueueEntryID="Q3")) == answer(21, "HoldQueueEntry")
    assert at.message(message("HoldQueueEntry", QueueEntryID="Q01")) == answer(21, "HoldQueueEntry")
    assert at.message(message("Foo")) == answer(5, "Foo")
    assert at.message(b'{"ID":"m1"}') == answer(7, "")
    assert at.message(b"no json") == b'{"ReturnCode":6,"Type":"","refID":""}'
    assert at.message(b'{"Type":"Foo"}') == answer(7, "Foo", "")
    assert at.message(b'{"ID":1,"Type":2}') == answer(6, "", "")
    assert at.message(message("HoldQueueEntry")) == answer(7, "HoldQueueEntry")
    assert at.message(message("HoldQueueEntry", QueueEntryID=1)) == answer(6, "HoldQueueEntry")
    assert at.message(message("SetQueueEntryPriority", QueueEntryID=1)) == answer(7, "SetQueueEntryPriority")
    no_image = b'{"Fault":611,"ReturnCode":6,"Type":"SubmitQueueEntry","refID":"m1"}'
    assert at.message(submission()) == no_image
    assert at.message(submission(Priority=101, changes={"Amount": 0})) == no_image.replace(b"611", b"605")
    assert shown_state(at) == before


def test_suspensions_that_are_refused():
    at = press.Press()
    at.message(submission(), [IMAGE])
    assert code(at.message(message("SuspendQueueEntry", QueueEntryID="Q1"))) == 22
    assert code(at.message(message("SuspendQueueEntry", QueueEntryID="Q2"))) == 21
    at.turn(1, press.Sink())
    assert at.message(message("SuspendQueueEntry")) == answer(7, "SuspendQueueEntry")
    assert at.queue.entries[0].status == "Running"
    assert code(at.message(message("SuspendQueueEntry", QueueEntryID="Q1"))) == 0
    assert at.queue.entries[0].status == "Suspended"


def test_states_that_messages_show():
    at = press.Press()
    at.message(submission(), [IMAGE])
    assert at.message(message("QueueStatus")) == (
        b'{"Queue":{"Entries":[{"Priority":50,"QueueEntryID":"Q1","Status":"Waiting"}],"Status":"Waiting"},'
        b'"ReturnCode":0,"Type":"QueueStatus","refID":"m1"}')
    at.turn(1, press.Sink())
    assert at.message(message("Status")) == (
        b'{"Device":{"QueueEntryID":"Q1","Sheets":0,"Status":"Running"},'
        b'"ReturnCode":0,"Type":"Status","refID":"m1"}')
    assert code(at.message(message("RemoveQueueEntry", QueueEntryID="Q1"))) == 22
    at.turn(1000, press.Sink())
    assert at.message(message("RemoveQueueEntry", QueueEntryID="Q1")) == (
        b'{"ReturnCode":0,"Status":"Removed","Type":"RemoveQueueEntry","refID":"m1"}')
    assert at.delivered(1) is None


def test_suspension_at_every_step():
    two_sided = {"Sides": "TwoSidedHeadToHead"}
    read = ticket.read_ticket(ticket_bytes(Amount=1, NPage=2))
    steps = len(runs.trace(press.writer.job_of(read, [IMAGE] * 2), viewed=False))
    for first in range(1, steps):
        at, sink = press.Press(), press.Sink()
        at.message(submission(2, changes=two_sided), [IMAGE] * 2)
        at.message(submission(), [IMAGE])
        assert at.turn(first, sink) == (1, first)
        suspend = message("SuspendQueueEntry", QueueEntryID="Q1")
        assert code(at.message(suspend)) == 0 and code(at.message(suspend)) == 22
        assert at.turn(10 ** 6, sink)[0] == 2
        assert code(at.message(message("ResumeQueueEntry", QueueEntryID="Q1"))) == 0
        assert at.turn(10 ** 6, sink) == (1, steps - first)
        sheet, = sink.sheets_of(1)
        assert sheet.front.black_dots() == sheet.back.black_dots() == {(75, 0)}
        assert len(sink.sheets_of(2)) == 1 and at.delivered(1) == 1


def test_faulty_deliveries():
    at, sink = press.Press(), press.Sink(failing=[1])
    at.message(submission(changes={"Amount": 3}), [IMAGE])
    refused(301, at.turn, 10 ** 6, sink)
    (number, sheet), = sink.delivered
    assert number == 1 and sheet.front.black_dots() == {(75, 0)} and sheet.back is None
    assert at.queue.entries[0].status == "Aborted" and at.delivered(1) == 1
    assert at.turn(10 ** 6, sink) == (None, 0) and len(sink.delivered) == 1
    at, sink = press.Press(), press.Sink(failing=[0])
    for _ in range(2):
        at.message(submission(changes={"Amount": 2}), [IMAGE])
    refused(301, at.turn, 10 ** 6, sink)
    assert at.queue.entries[0].status == "Aborted" and at.delivered(1) == 0
    assert at.turn(10 ** 6, sink)[0] == 2
    assert [number for number, _ in sink.delivered] == [2, 2]


def test_turns():
    at, sink = press.Press(), press.Sink()
    for _ in range(3):
        at.message(submission(), [IMAGE])
    before = shown_state(at)
    assert at.turn(0, sink) == (None, 0) and shown_state(at) == before
    at.pause()
    paused = shown_state(at)
    assert b'"Status":"Stopped"' in paused[0][1]
    assert at.turn(5, sink) == (None, 0) and shown_state(at) == paused
    at.carry_on()
    at.message(message("HoldQueue"))
    assert at.turn(5, sink) == (None, 0)
    at.message(message("ResumeQueue"))
    steps = len(runs.trace(press.plain_job(at.contexts[1]), viewed=False))
    assert at.turn(1, sink) == (1, 1)
    at.message(message("HoldQueue"))
    assert at.turn(steps - 2, sink) == (1, steps - 2) and at.queue.entries[0].status == "Running"
    assert at.turn(5, sink) == (1, 1) and at.queue.entries[0].status == "Completed" and at.delivered(1) == 1
    assert at.turn(5, sink) == (None, 0)
    at.message(message("ResumeQueue"))
    assert at.turn(3, sink) == (2, 3)
    at.abort_running()
    assert at.queue.entries[1].status == "Aborted" and at.delivered(2) == 0
    assert at.turn(10 ** 6, sink) == (3, steps) and at.delivered(3) == 1 and at.delivered(4) is None


def test_eight_in_flight():
    queue = job_queue.Queue()
    for number in span(1, 8):
        queue.submit(50)
        assert queue.begin().number == number
        if number < 8:
            queue.suspend(number)
    refused_code(27, queue.suspend, 8)
    at = press.Press()
    for number in span(1, 8):
        at.message(submission(), [IMAGE])
        assert at.turn(1, press.Sink()) == (number, 1)
        suspend = message("SuspendQueueEntry", QueueEntryID="Q%d" % number)
        assert at.message(suspend) == answer(0 if number < 8 else 27, "SuspendQueueEntry")


def press_of(engines, *counts):
    """A press with so many engines, and entries of so many pages, two-sided; page n has n dots in its first row."""
    at = press.Press(engines=engines)
    for count in counts:
        images = [(page, ["1" * page]) for page in span(1, count)]
        assert code(at.message(submission(count, changes={"Sides": "TwoSidedHeadToHead"}), images)) == 0
    return at


def black_counts(sink, number):
    return [(sheet.front.count_black(), sheet.back and sheet.back.count_black()) for sheet in sink.sheets_of(number)]


def statuses(at):
    queue = press.json.loads(at.message(message("QueueStatus")))["Queue"]
    return {entry["QueueEntryID"]: entry["Status"] for entry in queue["Entries"]}


def test_entries_side_by_side():
    for turn in span(1, 20):
        at, sink = press_of(2, 2, 3), press.Sink()
        assert at.turn_on(0, turn, sink) == (1, turn) and at.turn_on(1, turn, sink) == (2, turn)
        assert set(statuses(at).values()) == {"Running"}
        while set(statuses(at).values()) != {"Completed"}:
            for engine in (0, 1):
                number, steps = at.turn_on(engine, turn, sink)
                assert (number, 1 <= steps <= turn) in [(engine + 1, True), (None, False)] and (number or steps == 0)
        assert black_counts(sink, 1) == [(1, 2)] and black_counts(sink, 2) == [(1, 2), (3, None)]
        assert at.turn_on(0, turn, sink) == at.turn_on(1, turn, sink) == (None, 0)


def test_engines_with_eight_in_flight():
    at, sink = press_of(2, *[1] * 9), press.Sink()
    for number in span(1, 7):
        assert at.turn_on(0, 1, sink) == (number, 1)
        assert code(at.message(message("SuspendQueueEntry", QueueEntryID="Q%d" % number))) == 0
    assert at.turn_on(0, 1, sink) == (8, 1)
    assert at.turn_on(1, 1, sink) == (None, 0)
    assert at.message(message("SuspendQueueEntry", QueueEntryID="Q8")) == answer(27, "SuspendQueueEntry")
    # The ninth stands before it in the list, and has not begun.
    assert code(at.message(message("SetQueueEntryPosition", QueueEntryID="Q9", Position=0))) == 0
    assert code(at.message(message("ResumeQueueEntry", QueueEntryID="Q3"))) == 0
    assert at.turn_on(1, 1, sink) == (3, 1)
    assert (statuses(at)["Q3"], statuses(at)["Q9"]) == ("Running", "Waiting")
    assert at.turn_on(1, 10 ** 6, sink)[0] == 3 and black_counts(sink, 3) == [(1, None)]
    assert at.turn_on(1, 1, sink) == (9, 1)
    for count in (0, 5, 2 ** 64 - 1):
        refused(701, press.Press, engines=count)
    for call in [(2, 1), (2, 0), (2 ** 64 - 1, 1)]:
        refused(702, at.turn_on, *call, sink)
    at.pause()
    refused(702, at.turn_on, 2, 1, sink)
    refused(702, press.Press().turn_on, 1, 1, sink)


def shown_engines(at):
    return at.message(message("Status")).removesuffix(b',"ReturnCode":0,"Type":"Status","refID":"m1"}')


def test_states_of_engines():
    idle, device = b'{"QueueEntryID":"","Sheets":0,"Status":"Idle"}', b'{"QueueEntryID":"Q%d","Sheets":%d,"Status":"%s"}'
    at, sink = press_of(3, 2, 2, 2), press.Sink()
    assert shown_engines(at) == b'{"Device":%s,"Engines":[%s,%s,%s]' % (idle, idle, idle, idle)
    assert at.turn_on(2, 1, sink) == (1, 1)
    running = device % (1, 0, b"Running")
    assert shown_engines(at) == b'{"Device":%s,"Engines":[%s,%s,%s]' % (idle, idle, idle, running)
    assert at.turn(1, sink) == (2, 1)
    at.pause()
    stopped = [device % (2, 0, b"Stopped"), idle.replace(b"Idle", b"Stopped"), device % (1, 0, b"Stopped")]
    assert shown_engines(at) == b'{"Device":%s,"Engines":[%s,%s,%s]' % (stopped[0], *stopped)
    assert [at.turn_on(engine, 9, sink) for engine in (0, 1, 2)] == [(None, 0)] * 3
    at.carry_on()
    # What is suspended goes on with any engine.
    assert code(at.message(message("SuspendQueueEntry", QueueEntryID="Q1"))) == 0
    assert code(at.message(message("ResumeQueueEntry", QueueEntryID="Q1"))) == 0
    assert at.turn_on(1, 2, sink) == (1, 2) and at.turn_on(2, 1, sink) == (3, 1)
    assert at.engines == [2, 1, 3]
    # A held queue lets go on what runs, and begins nothing.
    at.message(message("HoldQueue"))
    assert at.turn_on(1, 10 ** 6, sink)[0] == 1 and black_counts(sink, 1) == [(1, 2)]
    assert at.turn_on(1, 1, sink) == (None, 0)
    at.abort_running()
    assert statuses(at) == {"Q1": "Completed", "Q2": "Aborted", "Q3": "Aborted"} and at.engines == [None] * 3
    assert shown_engines(press.Press()) == b'{"Device":%s' % idle
    # A failed delivery aborts the entry of its engine alone.
    at, sink = press_of(2, 2, 2), press.Sink(failing=[0])
    at.turn_on(0, 1, sink), at.turn_on(1, 1, sink)
    refused(301, at.turn_on, 1, 10 ** 6, sink)
    assert statuses(at) == {"Q1": "Running", "Q2": "Aborted"} and at.turn_on(1, 1, sink) == (None, 0)
    assert at.turn_on(0, 10 ** 6, sink)[0] == 1 and black_counts(sink, 1) == [(1, 2)] and sink.sheets_of(2) == []


def test_lines_of_engines():
    files = {"single": submission(), "dot": pbm.bytes_of_rows(["1"])}
    script = b"message single dot\nmessage single dot\nturn 1 1\nturn 1\nturn 1000 1\nturn 0 0\nturn 1000 0\n"
    accepted = b'{"QueueEntryID":"Q%d","ReturnCode":0,"Type":"SubmitQueueEntry","refID":"m1"}\n'
    steps = len(runs.trace(writer.job_of(ticket.ticket_of(press.json.loads(files["single"])["Ticket"]), [IMAGE]), viewed=False))
    printed = accepted % 1 + accepted % 2 + b"turn Q1 1\nturn Q2 1\nturn Q1 %d\nturn - 0\nturn Q2 %d\n" % (steps - 1, steps - 1)
    listed = b"".join(b"Q%d sheet 1 front 2550x3300 black 1\n" % number for number in (1, 2))
    with tempfile.TemporaryDirectory() as place:
        for name, content in files.items():
            (Path(place) / name).write_bytes(content)

        def ended(words, lines):
            return played(words.split(), lines, place)[0]

        assert ended("--engines 2", script) == (0, printed + listed, b"")
        for words, lines, told in [
                ("--engines 2", b"pause\nturn 0 2\npause\n", (1, b"ok\n", b"fault 702\n")), ("", b"turn 1 1", (1, b"", b"fault 702\n")),
                ("--engines 2", b"turn 1 18446744073709551615", (1, b"", b"fault 702\n")), ("--engines 4", b"turn 1 3", (0, b"turn - 0\n", b"")),
                ("--engines 1", b"turn 1 0\nturn 007 00", (0, b"turn - 0\nturn - 0\n", b"")), ("--engines 04", b"turn 1 003", (0, b"turn - 0\n", b"")),
                ("--engines 5", b"pause", (1, b"", b"fault 701\n")), ("--engines 0", b"pause", (1, b"", b"fault 701\n"))]:
            assert ended(words, lines) == told, (words, lines)
        for line in [b"turn 1 x", b"turn 1 -1", b"turn 1 ", b"turn 1 0 ", b"turn 1  0", b"turn  0", b"turn 1 0 0", b"turn x 0",
                     b"turn 1 18446744073709551616", b"turn 18446744073709551616 9"]:
            assert ended("--engines 2", line) == (0, b"what?\n", b""), line


def refused_code(number, call, *arguments):
    try:
        call(*arguments)
    except job_queue.Refused as fault:
        assert fault.code == number
    else:
        raise AssertionError("it was carried out")


def write_files(folder, files):
    for name, content in files.items():
        if content is None:
            (folder / name).mkdir()
        else:
            (folder / name).write_bytes(content)


def session(script, files):
    """What the lines of a script print, with files of these contents; a file of no content is a folder."""
    with tempfile.TemporaryDirectory() as place:
        write_files(Path(place), files)
        return played([], script, place)[0]


def test_lines_of_the_press():
    files = {"submission": submission(2, changes={"Sides": "TwoSidedHeadToHead", "Amount": 2}), "dot": pbm.bytes_of_rows(["1"]),
             "other": pbm.bytes_of_rows(["101", "111"]), "single": submission(), "status": message("Status"), "bad": b"P5", "folder": None}
    accepted = b'{"QueueEntryID":"Q%d","ReturnCode":0,"Type":"SubmitQueueEntry","refID":"m1"}\n'
    listed = b"Q%d sheet %d %s 2550x3300 black %d\n"
    twice = b"".join(listed % (1, number, name, black) for number in span(1, 2) for name, black in [(b"front", 1), (b"back", 5)])
    script = b"turn 1\nmessage submission dot other\nmessage single other\nturn 0\nturn 100000\npause\nturn 7\ncontinue\nturn 100000\nabort"
    steps = [len(runs.trace(writer.job_of(ticket.ticket_of(press.json.loads(files[name])["Ticket"]), images), viewed=False))
             for name, images in [("submission", [(1, ["1"]), (3, ["101", "111"])]), ("single", [(3, ["101", "111"])])]]
    printed = (b"turn - 0\n" + accepted % 1 + accepted % 2 + b"turn - 0\nturn Q1 %d\nok\nturn - 0\nok\nturn Q2 %d\nok\n" % tuple(steps))
    assert session(script, files) == (0, printed + twice + listed % (2, 1, b"front", 5), b"")
    assert session(b"", files) == (0, b"", b"")
    for line in [b"", b" pause", b"pause ", b"turn", b"turn ", b"turn -1", b"turn  1", b"turn 18446744073709551616",
                 b"turn \xb2", b"message", b"Turn 1", b"\xff", b"ok"]:
        assert session(line + b"\npause\n", files) == (0, b"what?\nok\n", b"")
    for line in [b"turn 18446744073709551615", b"turn 000000000000000000000000", b"turn 007"]:
        assert session(line, files) == (0, b"turn - 0\n", b"")
    for line, fault in [(b"none", 304), (b"single none", 304), (b"single bad", 111), (b"single dot bad none", 111), (b"folder", 304),
                        (b"single folder", 114), (b"none bad", 304), (b"status none", 304)]:
        assert session(b"pause\nmessage " + line + b"\npause\n", files) == (1, b"ok\n", b"fault %d\n" % fault)


def session_with_files(words, script, files):
    """What a session with these words answers, and the files that it makes."""
    with tempfile.TemporaryDirectory() as place:
        write_files(Path(place), files)
        answer, lines = played(words.split(), script, place)
        return answer, lines.folder.made if lines else {}


DOT, OTHER_DOTS = pbm.bytes_of_rows(["1"]), pbm.bytes_of_rows(["101", "111"])
PRINTING = b"message pair dot other\nmessage single other\nturn 100000\nturn 100000\n"


def files_of_printing():
    return {"pair": submission(2, changes={"Sides": "TwoSidedHeadToHead", "Amount": 2}), "dot": DOT, "other": OTHER_DOTS, "single": submission()}


def test_files_of_sides():
    printed = session(PRINTING, files_of_printing())[1].decode().splitlines(keepends=True)
    told = ["sheet Q1 1 front %Q1-1%\n", "sheet Q1 1 back %Q1-2%\n", "sheet Q1 2 front %Q1-3%\n", "sheet Q1 2 back %Q1-4%\n", "sheet Q2 1 front %Q2-1%\n"]
    (status, out, err), made = session_with_files("--sums --out %%q-%d%", PRINTING, files_of_printing())
    sums = [" sha256 " + hashlib.sha256(made[line.split()[-1]]).hexdigest() + "\n" for line in told]
    listed = [line.rstrip("\n") + end for line, end in zip(printed[4:], sums)]
    assert (status, out.decode(), err) == (0, "".join(printed[:2] + told[:4] + printed[2:3] + told[4:] + printed[3:4] + listed), b"")
    assert sorted(made) == ["%Q1-1%", "%Q1-2%", "%Q1-3%", "%Q1-4%", "%Q2-1%"]
    width, rows, _ = pbm.read(made["%Q1-1%"])
    assert (width, len(rows)) == LETTER and sum(row.count("1") for row in rows) == 1
    for words, fault in [("--out %%qd", 121), ("--out %q", 121), ("--out %d-%q-%d", 121), ("--out %q-%03d", 121), ("--out page --engines 5", 701)]:
        assert session_with_files(words, PRINTING, files_of_printing()) == ((1, b"", b"fault %d\n" % fault), {})


def test_wrong_lines():
    files = files_of_printing() | {"bad": b"P5", "folder": None, "Q1-2": None}
    script = b"message none\nmessage single bad\nmessage single folder none\nturn 0 1\nmessage single other\nturn 1\n"
    answers = b'fault 304\nfault 111\nfault 114\nfault 702\n{"QueueEntryID":"Q1","ReturnCode":0,"Type":"SubmitQueueEntry","refID":"m1"}\nturn Q1 1\n'
    assert session_with_files("--keep-going", script, files)[0] == (0, answers, b"")
    assert session_with_files("", script, files)[0] == (1, b"", b"fault 304\n")
    # a file that cannot be made ends it
    (status, out, err), made = session_with_files("--keep-going --out %q-%d", PRINTING, files)
    assert (status, out.count(b"\n"), err, list(made)) == (1, 2, b"fault 301\n", ["Q1-1"])
    # no file is made over an input, also not over one that stands behind what is wrong
    for first in (b"message Q2-1", b"message none Q2-1", b"message single bad Q2-1"):
        (status, out, err), made = session_with_files("--keep-going --out %q-%d", first + b"\n" + PRINTING, files_of_printing() | {"Q2-1": DOT, "bad": b"P5"})
        assert (status, err, sorted(made)) == (1, b"fault 301\n", ["Q1-1", "Q1-2", "Q1-3", "Q1-4"]), first
    assert session_with_files("--out %q-%d", PRINTING, files_of_printing() | {"Q2-1": DOT})[0][0] == 0


def test_failed_reply_after_two_sheets():
    spelled = UEL + b"@PJL USTATUS PAGE=ON\n\x1b&l3X" + FF
    outcome = run(spelled)
    assert len(outcome.sheets) == 3
    kinds = [type(output).__name__ for output in outcome.engine.outputs]
    assert kinds == ["Deliver", "Reply"] * 3
    first, second = [output.reply for output in outcome.engine.outputs[1:4:2]]
    assert len(first + second[:5]) == 28


# Readings that no example above reaches

def final_state(text):
    spelled = stream(text) if isinstance(text, str) else text
    return runs.run_commands(closed(spelled)).engine.state


def final(text, name):
    return final_state(text).view()[name]


def test_fields_after_commands():
    for text, name, field in [
            ("ESC&k-0.001H", "hmi", 720), ("ESC&k840H", "hmi", 50400), ("ESC&k840.0001H", "hmi", 720),
            ("ESC&l336C", "vmi", 50400), ("ESC&l-0.00001C", "vmi", 0), ("ESC&l48D", "vmi", 150),
            ("ESC&l0L", "perforation_skip", False), ("ESC&l5000X", "copies", 999),
            ("ESC&l-0.9S", "duplex", False), ("ESC&l2S ESC&l0S", "binding", "SHORTEDGE"),
            ("ESC&l1O", "right_margin", 76320), ("ESC&u300.5D", "unit", 300), ("ESC&u97D", "unit", 300),
            ("ESC&a79M", "right_margin", 57600), ("ESC&a9M", "right_margin", 7200),
            ("ESC&a10L", "left_margin", 7200), ("ESC&a80L", "left_margin", 0), ("ESC&l2E", "top_margin", 2400),
            ("", "text_length", 72000), ("ESC&l10F", "text_length", 12000), ("ESC&l64F", "text_length", 72000),
            ("ESC&a3R", "y", 4500), ("ESC*p+100Y", "y", 3300), ("ESC*p-9999Y", "y", -3600),
            ("ESC*p9999X", "x", 57600), ("ESC*t300R ESC*r1A ESC*p+0X", "raster_on", False),
            ("ESC*t300R ESC*r1A ESC*b2Y", "y", 948), ("ESC*t300R ESC*r1A ESC9", "raster_on", True),
            ("ESC%0B ESC*p9X", "x", 0), ("ESC%0B ESC*p9X ESC%0A ESC*p5X", "x", 120)]:
        assert final(text, name) == field, (text, name, final(text, name))


def main():
    tests = [(name, test) for name, test in globals().items() if name.startswith("test_")]
    for name, test in tests:
        test()
        print("ok " + name[5:].replace("_", " "))
    print("%d tests" % len(tests))


if __name__ == "__main__":
    main()
