"""What a stream does, command by command: the text of small streams, worked out by hand from docs/EXPLAIN.md, and what is no stream."""

COMMANDS = {
    "an empty stream": (b"", """\
; at 0: the end, where a universal exit is added; changes nothing
"""),
    "what changes nothing": (b"\x1bE\r\x1b&l1L\x1b*rB", """\
; at 0: Printer Reset; changes nothing
esc E
; at 2: Carriage Return; changes nothing
ctl 0D
; at 3: Perforation Skip: 1 (on); changes nothing
par &l1L
; at 8: End Raster Graphics (older form); changes nothing
par *rB
; at 12: the end, where a universal exit is added; changes nothing
"""),
    # The logical page is 57,600 wide, and 900 is the first line below the top margin; columns have 720, lines 1,200, and a PCL unit 24.
    "the cursor": (b"\x1b*p10X\x1b*p+5Y\x1b&a2c1R\x1b&a72h0V\x1b9\n", """\
; at 0: Horizontal Cursor Positioning (PCL Units): 10; x 0 to 240
par *p10X
; at 6: Vertical Cursor Positioning (PCL Units): +5; y 900 to 1020
par *p+5Y
; at 12: Horizontal Cursor Positioning (Columns): 2; x 240 to 1440
par &a2C
; at 17: Vertical Cursor Positioning (Rows): 1; y 1020 to 2100
par &a1R
; at 19: Horizontal Cursor Positioning (Decipoints): 72; x 1440 to 720
par &a72H
; at 25: Vertical Cursor Positioning (Decipoints): 0; y 2100 to 0
par &a0V
; at 27: Clear Horizontal Margins; changes nothing
esc 9
; at 29: Line Feed; y 0 to 1200
ctl 0A
; at 30: the end, where a universal exit is added; x 720 to 0; y 1200 to 900
"""),
    "positions that are pushed, and one too few": (b"\x1b&f0S\x1b*p1X\x1b&f0s1s1s1S", """\
; at 0: Push/Pop Cursor Position: 0 (push); cursor.pushed 0 pushed to 1 pushed
par &f0S
; at 5: Horizontal Cursor Positioning (PCL Units): 1; x 0 to 24
par *p1X
; at 10: Push/Pop Cursor Position: 0 (push); cursor.pushed 1 pushed to 2 pushed
par &f0S
; at 15: Push/Pop Cursor Position: 1 (pop); cursor.pushed 2 pushed to 1 pushed
par &f1S
; at 17: Push/Pop Cursor Position: 1 (pop); x 24 to 0; cursor.pushed 1 pushed to 0 pushed
par &f1S
; at 19: Push/Pop Cursor Position: 1 (pop); changes nothing
par &f1S
; at 21: the end, where a universal exit is added; changes nothing
"""),
    # Flags, and numbers that are there or not; what a command changes beside its own field stands in the order of a trace.
    "fields": (b"\x1b&l0L\x1b*r16s4T\x1b*v1N\x1b&k1G\x1b&l2e1O\x1b&l26A\x1b&u600D", """\
; at 0: Perforation Skip: 0 (off); settings.perforation_skip on to off
par &l0L
; at 5: Raster Width, in dots: 16; raster.width none to 16
par *r16S
; at 11: Raster Height, in rows: 4; raster.height none to 4
par *r4T
; at 13: Source Transparency Mode: 1 (opaque); drawing.source_opaque off to on
par *v1N
; at 18: Line Termination: 1 (CR as CR and LF); settings.feed_after_return off to on
par &k1G
; at 23: Top Margin, in lines: 2; margins.text_length 72000 to 73200; margins.top 3600 to 2400
par &l2E
; at 28: Logical Page Orientation: 1 (landscape); margins.right 57600 to 76320; margins.text_length 73200 to 54000; margins.top 2400 to 3600; page.orientation 0 to 1
par &l1O
; at 30: Page Size: 26 (A4); margins.right 76320 to 81336; margins.text_length 54000 to 51600; page.size 2 to 26
par &l26A
; at 36: Unit of Measure, in PCL units per inch: 600; settings.unit 24 to 12
par &u600D
; at 43: the end, where a universal exit is added; drawing.source_opaque on to off; margins.right 81336 to 57600; margins.text_length 51600 to 72000; page.orientation 1 to 0; page.size 26 to 2; raster.height 4 to none; raster.width 16 to none; settings.feed_after_return on to off; settings.perforation_skip off to on; settings.unit 12 to 24
"""),
    # A field is told as it stands, where there is one; its whole part has the meaning.
    "values": (b"\x1b*vT\x1b*v-0.9T\x1b*v+1.9T\x1b*v007T\x1b*c1.5A\x1b&l.E\x1b*t99999999R\x1b&lX", """\
; at 0: Select Current Pattern; changes nothing
par *vT
; at 4: Select Current Pattern: -0.9 (solid black); changes nothing
par *v-0.9T
; at 12: Select Current Pattern: +1.9 (solid white); drawing.pattern_kind 0 to 1
par *v+1.9T
; at 20: Select Current Pattern: 007; refused: no such value
par *v007T
; at 27: Horizontal Rectangle Size (PCL Units): 1.5; drawing.width 0 to 36
par *c1.5A
; at 34: Top Margin, in lines: .; margins.text_length 72000 to 75600; margins.top 3600 to 0
par &l.E
; at 39: Raster Graphics Resolution, in dots per inch: 99999999; refused: no such value
par *t99999999R
; at 51: Number of Copies; refused: no such value
par &lX
; at 55: the end, where a universal exit is added; drawing.pattern_kind 1 to 0; drawing.width 36 to 0; margins.text_length 75600 to 72000; margins.top 0 to 3600
"""),
    "what has no row, in HP's list and beside it": (b"\x1b&l5P\x1b&z5P\x1b(8U\x1b)U\x1b(X\x1b(s5Q\x1b!1A\x1bZ\x1ba\x07\x01\x1b%1X", """\
; at 0: Page Length, in lines: 5; refused: no row
par &l5P
; at 5: A command that is not in HP's list: 5; refused: no row
par &z5P
; at 10: Primary Symbol Set: 8; refused: no row
par (8U
; at 14: Secondary Symbol Set; refused: no row
par )U
; at 17: Primary Font Selection by ID; refused: no row
par (X
; at 20: A command that is not in HP's list: 5; refused: no row
par (s5Q
; at 25: A command that is not in HP's list: 1; refused: no row
par !1A
; at 29: Display Functions Off; refused: no row
esc Z
; at 31: A command that is not in HP's list; refused: no row
esc a
; at 33: Bell; refused: no row
ctl 07
; at 34: A command that is not in HP's list; refused: no row
ctl 01
; at 35: Universal Exit Language: 1; refused: no row
par %1X
; at 39: the end, where a universal exit is added; changes nothing
"""),
    "what has no such value": (b"\x1b&l4a9O\x1b&f11X\x1b*c6P", """\
; at 0: Page Size: 4; refused: no such value
par &l4A
; at 5: Logical Page Orientation: 9; refused: no such value
par &l9O
; at 7: Macro Control: 11; refused: no such value
par &f11X
; at 13: Fill Rectangular Area: 6; refused: no such value
par *c6P
; at 18: the end, where a universal exit is added; changes nothing
"""),
    # A carriage return has its effect, and a bell is no text: behind each stands another run.
    "runs of text": (b"\x1bEHi\xe9\rab\x07c\x1b&l1Zd", """\
; at 0: Printer Reset; changes nothing
esc E
; at 2: Text: H; refused: no row
txt 48
txt 69
txt E9
; at 5: Carriage Return; changes nothing
ctl 0D
; at 6: Text: a; refused: no row
txt 61
txt 62
; at 8: Bell; refused: no row
ctl 07
; at 9: Text: c; refused: no row
txt 63
; at 10: Top (Short-Edge) Offset Registration, in decipoints: 1; refused: no row
par &l1Z
; at 15: Text: d; refused: no row
txt 64
; at 16: the end, where a universal exit is added; changes nothing
"""),
    # While HP-GL/2 is on, text, control characters and commands stand in one run. The text behind it is refused for another reason.
    "HP-GL/2": (b"a\x1b%0BPU1;\r\x1b&l4A\x1b*p\x01b\x1b%0Ac", """\
; at 0: Text: a; refused: no row
txt 61
; at 1: Enter HP-GL/2 Mode: 0; settings.hp_gl off to on
par %0B
; at 5: Text: P; refused: HP-GL/2
txt 50
txt 55
txt 31
txt 3B
ctl 0D
par &l4A
brk 1B2A70
ctl 01
txt 62
; at 20: Enter PCL Mode: 0; settings.hp_gl on to off
par %0A
; at 24: Text: c; refused: no row
txt 63
; at 25: the end, where a universal exit is added; changes nothing
"""),
    # Bytes of another language stand in one run, an escape character among them, and text is not like them.
    "another language": (b"@PJL ENTER LANGUAGE=PLAIN\n\x00\x1bE1\x1b%-12345Xab", """\
; at 0: PJL line: @PJL ENTER LANGUAGE=PLAIN.; changes nothing
pjl 40504A4C20454E544552204C414E47554147453D504C41494E0A
; at 26: Another language: .; refused: no row
for 00
for 1B
for 45
for 31
; at 30: Universal Exit Language; changes nothing
uel
; at 39: Text: a; refused: no row
txt 61
txt 62
; at 41: the end, where a universal exit is added; changes nothing
"""),
    # Broken bytes have a remark each, of the first 60 bytes. A rest at the end of the stream has its own place.
    "broken bytes": (b"\x1b*p\x01\x1b*p\x1b*p\x1b&l1\x7f\x1b*t" + b"7" * 32 + b"\x02\x1b&f0", """\
; at 0: Broken bytes: .*p; refused: no row
brk 1B2A70
; at 3: A command that is not in HP's list; refused: no row
ctl 01
; at 4: Broken bytes: .*p; refused: no row
brk 1B2A70
; at 7: Broken bytes: .*p; refused: no row
brk 1B2A70
; at 10: Broken bytes: .&l1; refused: no row
brk 1B266C31
; at 14: Text: .; refused: no row
txt 7F
; at 15: Broken bytes: .*t""" + "7" * 32 + """; refused: no row
brk 1B2A74""" + "37" * 32 + """
; at 50: A command that is not in HP's list; refused: no row
ctl 02
; at 51: Broken bytes: .&f0; refused: no row
brk 1B266630
; at 55: the end, where a universal exit is added; changes nothing
"""),
    "bytes that are shown, and those that are not": (b"@PJL \x1f ~\x7f\xa0\x1b%-12345X~", """\
; at 0: Broken bytes: @PJL . ~..; refused: no row
brk 40504A4C201F207E7FA0
; at 10: Universal Exit Language; changes nothing
uel
; at 19: Text: ~; refused: no row
txt 7E
; at 20: the end, where a universal exit is added; changes nothing
"""),
    # A reply has a line feed at the end of each line, and a form feed behind all. The first 60 bytes of a line are shown.
    "the job language": (b"@PJL ECHO a\"\xe9\x07\n@PJL COMMENT " + b"0123456789" * 5 + b"\n@PJL ECHO " + b"abcdefghij" * 6 + b"\r\n@PJL SET COPIES=3\n@PJL DEFAULT DUPLEX=ON\n", """\
; at 0: PJL line: @PJL ECHO a"...; replies: @PJL ECHO a".....
pjl 40504A4C204543484F206122E9070A
; at 15: PJL line: @PJL COMMENT 01234567890123456789012345678901234567890123456; changes nothing
pjl 40504A4C20434F4D4D454E5420""" + "30313233343536373839" * 5 + """0A
; at 79: PJL line: @PJL ECHO abcdefghijabcdefghijabcdefghijabcdefghijabcdefghij; replies: @PJL ECHO abcdefghijabcdefghijabcdefghijabcdefghijabcdefghij
pjl 40504A4C204543484F20""" + "6162636465666768696A" * 6 + """0D0A
; at 151: PJL line: @PJL SET COPIES=3.; current.copies 1 to 3; settings.copies 1 to 3
pjl 40504A4C2053455420434F504945533D330A
; at 169: PJL line: @PJL DEFAULT DUPLEX=ON.; default.duplex off to on
pjl 40504A4C2044454641554C54204455504C45583D4F4E0A
; at 192: the end, where a universal exit is added; changes nothing
"""),
    # A fill marks three dots by two from dot 75 of line 150 on; again it changes none. White takes them away, and nothing where nothing is black.
    "marks": (b"\x1b*p0Y\x1b*c3a2b0P\x1b*c0p1p1P\x0c", """\
; at 0: Vertical Cursor Positioning (PCL Units): 0; y 900 to 0
par *p0Y
; at 5: Horizontal Rectangle Size (PCL Units): 3; drawing.width 0 to 72
par *c3A
; at 10: Vertical Rectangle Size (PCL Units): 2; drawing.height 0 to 48
par *c2B
; at 12: Fill Rectangular Area: 0 (solid black); marks within 8 by 2 dots at 72, 150; page.marked off to on
par *c0P
; at 14: Fill Rectangular Area: 0 (solid black); changes nothing
par *c0P
; at 19: Fill Rectangular Area: 1 (solid white); marks within 8 by 2 dots at 72, 150
par *c1P
; at 21: Fill Rectangular Area: 1 (solid white); changes nothing
par *c1P
; at 23: Form Feed; the page closes; sheets 0 to 1; y 0 to 900; page.marked on to off; settings.sheets_of_job 0 to 1
ctl 0C
; at 24: the end, where a universal exit is added; drawing.height 48 to 0; drawing.width 72 to 0
"""),
    # A row of 16 dots in line 187, from dot 75 on, and its data. The reset ends raster graphics with the page.
    "rows": (b"\x1bE\x1b*t300R\x1b*r1A\x1b*b2W\xff\x81\x1b*b1Y\x1bE", """\
; at 0: Printer Reset; changes nothing
esc E
; at 2: Raster Graphics Resolution, in dots per inch: 300; raster.resolution 75 to 300
par *t300R
; at 9: Start Raster Graphics: 1 (at the cursor); raster.left none to 0; raster.rows none to 0
par *r1A
; at 14: Transfer Raster Data by Row, in bytes: 2; marks within 24 by 1 dots at 72, 187; y 900 to 924; page.marked off to on; raster.rows 0 to 1
par *b2W FF81
; at 21: Raster Y Offset, in rows: 1; y 924 to 948; raster.rows\x201 to 2
par *b1Y
; at 26: Printer Reset; the page closes; sheets 0 to 1; y 948 to 900; page.marked on to off; raster.left 0 to none; raster.resolution 300 to 75; raster.rows\x202 to none; settings.sheets_of_job 0 to 1
esc E
; at 28: the end, where a universal exit is added; changes nothing
"""),
    # The page has 2,550 dots in a line: the last byte goes past its edge. A landscape page lies turned on its sheet.
    "marks at edges": (b"\x1b*p2400x0Y\x1b*c100a1b0P\x1bE\x1b&l1O\x1b*c1a5b0P", """\
; at 0: Horizontal Cursor Positioning (PCL Units): 2400; x 0 to 57600
par *p2400X
; at 8: Vertical Cursor Positioning (PCL Units): 0; y 900 to 0
par *p0Y
; at 10: Horizontal Rectangle Size (PCL Units): 100; drawing.width 0 to 2400
par *c100A
; at 17: Vertical Rectangle Size (PCL Units): 1; drawing.height 0 to 24
par *c1B
; at 19: Fill Rectangular Area: 0 (solid black); marks within 80 by 1 dots at 2472, 150; page.marked off to on
par *c0P
; at 21: Printer Reset; the page closes; sheets 0 to 1; x 57600 to 0; y 0 to 900; drawing.height 24 to 0; drawing.width 2400 to 0; page.marked on to off; settings.sheets_of_job 0 to 1
esc E
; at 23: Logical Page Orientation: 1 (landscape); margins.right 57600 to 76320; margins.text_length 72000 to 54000; page.orientation 0 to 1
par &l1O
; at 28: Horizontal Rectangle Size (PCL Units): 1; drawing.width 0 to 24
par *c1A
; at 33: Vertical Rectangle Size (PCL Units): 5; drawing.height 0 to 120
par *c5B
; at 35: Fill Rectangular Area: 0 (solid black); marks within 8 by 1 dots at 184, 3239; page.marked off to on
par *c0P
; at 37: the end, where a universal exit is added; the page closes; sheets 1 to 2; drawing.height 120 to 0; drawing.width 24 to 0; margins.right 76320 to 57600; margins.text_length 54000 to 72000; page.marked on to off; page.orientation 1 to 0; settings.sheets_of_job 1 to 2
"""),
    # Each copy is a sheet, and both sides of one are. A form feed closes no page where none was open.
    "sheets": (b"\x0c\x1b&l3x1S\x0c\x1b*c1a1b0P\x0c", """\
; at 0: Form Feed; sheets 0 to 1; settings.sheets_of_job 0 to 1
ctl 0C
; at 1: Number of Copies: 3; settings.copies 1 to 3
par &l3X
; at 6: Simplex/Duplex Print: 1 (duplex, long-edge binding); page.duplex off to on
par &l1S
; at 8: Form Feed; changes nothing
ctl 0C
; at 9: Horizontal Rectangle Size (PCL Units): 1; drawing.width 0 to 24
par *c1A
; at 14: Vertical Rectangle Size (PCL Units): 1; drawing.height 0 to 24
par *c1B
; at 16: Fill Rectangular Area: 0 (solid black); marks within 8 by 1 dots at 72, 187; page.marked off to on
par *c0P
; at 18: Form Feed; the page closes; sheets 1 to 4; page.marked on to off; settings.sheets_of_job 1 to 4
ctl 0C
; at 19: the end, where a universal exit is added; drawing.height 24 to 0; drawing.width 24 to 0; page.duplex on to off; settings.copies 3 to 1
"""),
    # Each command that goes into a definition says so, text as well. Text behind a macro whose last step was text goes on with its run.
    "macros": (b"\x1b&f7y0X\x1b*c8a2b0P\x1b*p+16X\x1b*c0P\x1b&l4Aab\x1b&f1X\x1b&f2Xcd", """\
; at 0: Macro ID: 7; macros.id 0 to 7
par &f7Y
; at 5: Macro Control: 0 (start definition); macros.defining none to 7
par &f0X
; at 7: Horizontal Rectangle Size (PCL Units): 8; recorded in macro 7
par *c8A
; at 12: Vertical Rectangle Size (PCL Units): 2; recorded in macro 7
par *c2B
; at 14: Fill Rectangular Area: 0 (solid black); recorded in macro 7
par *c0P
; at 16: Horizontal Cursor Positioning (PCL Units): +16; recorded in macro 7
par *p+16X
; at 23: Fill Rectangular Area: 0 (solid black); recorded in macro 7
par *c0P
; at 28: Page Size: 4; recorded in macro 7
par &l4A
; at 33: Text: a; recorded in macro 7
txt 61
; at 34: Text: b; recorded in macro 7
txt 62
; at 35: Macro Control: 1 (end definition); macros.defining 7 to none
par &f1X
; at 40: Macro Control: 2 (execute); marks within 32 by 2 dots at 72, 187; runs 8 recorded commands; x 0 to 384; drawing.height 0 to 48; drawing.width 0 to 192; page.marked off to on
par &f2X
txt 63
txt 64
; at 47: the end, where a universal exit is added; the page closes; sheets 0 to 1; x 384 to 0; drawing.height 48 to 0; drawing.width 192 to 0; macros.id 7 to 0; page.marked on to off; settings.sheets_of_job 0 to 1
"""),
    # A macro closes the page that was open, marks another one, closes that, and leaves a third one with a mark: how this differs from the first is told.
    "pages of a macro": (b"\x1b*c8a1b0P\x1b&f0X\x0c\x1b*p+8X\x1b*c0P\x0c\x1b*p+8Y\x1b*c0P\x1b&f1x3x3X", """\
; at 0: Horizontal Rectangle Size (PCL Units): 8; drawing.width 0 to 192
par *c8A
; at 5: Vertical Rectangle Size (PCL Units): 1; drawing.height 0 to 24
par *c1B
; at 7: Fill Rectangular Area: 0 (solid black); marks within 16 by 1 dots at 72, 187; page.marked off to on
par *c0P
; at 9: Macro Control: 0 (start definition); macros.defining none to 0
par &f0X
; at 14: Form Feed; recorded in macro 0
ctl 0C
; at 15: Horizontal Cursor Positioning (PCL Units): +8; recorded in macro 0
par *p+8X
; at 21: Fill Rectangular Area: 0 (solid black); recorded in macro 0
par *c0P
; at 26: Form Feed; recorded in macro 0
ctl 0C
; at 27: Vertical Cursor Positioning (PCL Units): +8; recorded in macro 0
par *p+8Y
; at 33: Fill Rectangular Area: 0 (solid black); recorded in macro 0
par *c0P
; at 38: Macro Control: 1 (end definition); macros.defining 0 to none
par &f1X
; at 43: Macro Control: 3 (call); marks within 24 by 9 dots at 72, 187; sheets 0 to 2; runs 6 recorded commands; x 0 to 192; y 900 to 1092; settings.sheets_of_job 0 to 2
par &f3X
; at 45: Macro Control: 3 (call); marks within 24 by 1 dots at 80, 195; sheets 2 to 4; runs 6 recorded commands; x 192 to 384; settings.sheets_of_job 2 to 4
par &f3X
; at 47: the end, where a universal exit is added; the page closes; sheets 4 to 5; x 384 to 0; y 1092 to 900; drawing.height 24 to 0; drawing.width 192 to 0; page.marked on to off; settings.sheets_of_job 4 to 5
"""),
    # A page that is equal to the one before it is not told; one of another size is told as on white, from dot 71 on, and not where no dot of it is black.
    "a page in place of another": (b"\x1b*c8a1b0P\x1b&f0X\x0c\x1b*c0P\x1b&f1x2x1y0X\x1b&l26A\x1b*c0P\x1b&f1x2x2y0X\x1b&l2A\x1b*c1P\x1b&f1x2X", """\
; at 0: Horizontal Rectangle Size (PCL Units): 8; drawing.width 0 to 192
par *c8A
; at 5: Vertical Rectangle Size (PCL Units): 1; drawing.height 0 to 24
par *c1B
; at 7: Fill Rectangular Area: 0 (solid black); marks within 16 by 1 dots at 72, 187; page.marked off to on
par *c0P
; at 9: Macro Control: 0 (start definition); macros.defining none to 0
par &f0X
; at 14: Form Feed; recorded in macro 0
ctl 0C
; at 15: Fill Rectangular Area: 0 (solid black); recorded in macro 0
par *c0P
; at 20: Macro Control: 1 (end definition); macros.defining 0 to none
par &f1X
; at 25: Macro Control: 2 (execute); sheets 0 to 1; runs 2 recorded commands; settings.sheets_of_job 0 to 1
par &f2X
; at 27: Macro ID: 1; macros.id 0 to 1
par &f1Y
; at 29: Macro Control: 0 (start definition); macros.defining none to 1
par &f0X
; at 31: Page Size: 26 (A4); recorded in macro 1
par &l26A
; at 37: Fill Rectangular Area: 0 (solid black); recorded in macro 1
par *c0P
; at 42: Macro Control: 1 (end definition); macros.defining 1 to none
par &f1X
; at 47: Macro Control: 2 (execute); marks within 16 by 1 dots at 64, 187; sheets 1 to 2; runs 2 recorded commands; margins.right 57600 to 56112; margins.text_length 72000 to 76800; page.size 2 to 26; settings.sheets_of_job 1 to 2
par &f2X
; at 49: Macro ID: 2; macros.id 1 to 2
par &f2Y
; at 51: Macro Control: 0 (start definition); macros.defining none to 2
par &f0X
; at 53: Page Size: 2 (Letter); recorded in macro 2
par &l2A
; at 58: Fill Rectangular Area: 1 (solid white); recorded in macro 2
par *c1P
; at 63: Macro Control: 1 (end definition); macros.defining 2 to none
par &f1X
; at 68: Macro Control: 2 (execute); sheets 2 to 3; runs 2 recorded commands; margins.right 56112 to 57600; margins.text_length 76800 to 72000; page.size 26 to 2; settings.sheets_of_job 2 to 3
par &f2X
; at 70: the end, where a universal exit is added; the page closes; sheets 3 to 4; drawing.height 24 to 0; drawing.width 192 to 0; macros.id 2 to 0; page.marked on to off; settings.sheets_of_job 3 to 4
"""),
    # Pages are compared as they lie on paper. On landscape the fill stands in column 187, lines 3232 to 3239; so does the last one, in portrait.
    "a page that lies turned": (b"\x1b*c8a1b0P\x1b&f0X\x1b&l1O\x1b*c0P\x1b&f1x2x1y0X\x1b&l0O\x1b*p112x3082Y\x1b*c1a8b0P\x1b&f1x2X", """\
; at 0: Horizontal Rectangle Size (PCL Units): 8; drawing.width 0 to 192
par *c8A
; at 5: Vertical Rectangle Size (PCL Units): 1; drawing.height 0 to 24
par *c1B
; at 7: Fill Rectangular Area: 0 (solid black); marks within 16 by 1 dots at 72, 187; page.marked off to on
par *c0P
; at 9: Macro Control: 0 (start definition); macros.defining none to 0
par &f0X
; at 14: Logical Page Orientation: 1 (landscape); recorded in macro 0
par &l1O
; at 19: Fill Rectangular Area: 0 (solid black); recorded in macro 0
par *c0P
; at 24: Macro Control: 1 (end definition); macros.defining 0 to none
par &f1X
; at 29: Macro Control: 2 (execute); marks within 120 by 3053 dots at 72, 187; sheets 0 to 1; runs 2 recorded commands; margins.right 57600 to 76320; margins.text_length 72000 to 54000; page.orientation 0 to 1; settings.sheets_of_job 0 to 1
par &f2X
; at 31: Macro ID: 1; macros.id 0 to 1
par &f1Y
; at 33: Macro Control: 0 (start definition); macros.defining none to 1
par &f0X
; at 35: Logical Page Orientation: 0 (portrait); recorded in macro 1
par &l0O
; at 40: Horizontal Cursor Positioning (PCL Units): 112; recorded in macro 1
par *p112X
; at 47: Vertical Cursor Positioning (PCL Units): 3082; recorded in macro 1
par *p3082Y
; at 52: Horizontal Rectangle Size (PCL Units): 1; recorded in macro 1
par *c1A
; at 57: Vertical Rectangle Size (PCL Units): 8; recorded in macro 1
par *c8B
; at 59: Fill Rectangular Area: 0 (solid black); recorded in macro 1
par *c0P
; at 61: Macro Control: 1 (end definition); macros.defining 1 to none
par &f1X
; at 66: Macro Control: 2 (execute); sheets 1 to 2; runs 6 recorded commands; x 0 to 2688; y 900 to 73968; drawing.height 24 to 192; drawing.width 192 to 24; margins.right 76320 to 57600; margins.text_length 54000 to 72000; page.orientation 1 to 0; settings.sheets_of_job 1 to 2
par &f2X
; at 68: the end, where a universal exit is added; the page closes; sheets 2 to 3; x 2688 to 0; y 73968 to 900; drawing.height 192 to 0; drawing.width 24 to 0; macros.id 1 to 0; page.marked on to off; settings.sheets_of_job 2 to 3
"""),
    # A small box, a large one round it, and a white one where the small one was: the box is that of what is black behind them.
    "marks of a macro": (b"\x1b&f0X\x1b*p21x1Y\x1b*c8a1b0P\x1b*p5x0Y\x1b*c32a3b0P\x1b*p21x1Y\x1b*c8a1b1P\x1b&f1x3X", """\
; at 0: Macro Control: 0 (start definition); macros.defining none to 0
par &f0X
; at 5: Horizontal Cursor Positioning (PCL Units): 21; recorded in macro 0
par *p21X
; at 11: Vertical Cursor Positioning (PCL Units): 1; recorded in macro 0
par *p1Y
; at 13: Horizontal Rectangle Size (PCL Units): 8; recorded in macro 0
par *c8A
; at 18: Vertical Rectangle Size (PCL Units): 1; recorded in macro 0
par *c1B
; at 20: Fill Rectangular Area: 0 (solid black); recorded in macro 0
par *c0P
; at 22: Horizontal Cursor Positioning (PCL Units): 5; recorded in macro 0
par *p5X
; at 27: Vertical Cursor Positioning (PCL Units): 0; recorded in macro 0
par *p0Y
; at 29: Horizontal Rectangle Size (PCL Units): 32; recorded in macro 0
par *c32A
; at 35: Vertical Rectangle Size (PCL Units): 3; recorded in macro 0
par *c3B
; at 37: Fill Rectangular Area: 0 (solid black); recorded in macro 0
par *c0P
; at 39: Horizontal Cursor Positioning (PCL Units): 21; recorded in macro 0
par *p21X
; at 45: Vertical Cursor Positioning (PCL Units): 1; recorded in macro 0
par *p1Y
; at 47: Horizontal Rectangle Size (PCL Units): 8; recorded in macro 0
par *c8A
; at 52: Vertical Rectangle Size (PCL Units): 1; recorded in macro 0
par *c1B
; at 54: Fill Rectangular Area: 1 (solid white); recorded in macro 0
par *c1P
; at 56: Macro Control: 1 (end definition); macros.defining 0 to none
par &f1X
; at 61: Macro Control: 3 (call); marks within 32 by 3 dots at 80, 150; runs 15 recorded commands; x 0 to 504; y 900 to 24; page.marked off to on
par &f3X
; at 63: the end, where a universal exit is added; the page closes; sheets 0 to 1; x 504 to 0; y 24 to 900; page.marked on to off; settings.sheets_of_job 0 to 1
"""),
    # A page may have a mark and no dot. Of 32 dots in a line a macro takes the first 24 away again, which differ from none; and again it changes nothing.
    "marks that are taken back": (b"\x1b*c8a1b1P\x0c\x1b&f0X\x1b*c32a2b0P\x1b*c24a1P\x1b&f1x2x2x2y0X\x1b*c32a1P\x1b&f1x2X", """\
; at 0: Horizontal Rectangle Size (PCL Units): 8; drawing.width 0 to 192
par *c8A
; at 5: Vertical Rectangle Size (PCL Units): 1; drawing.height 0 to 24
par *c1B
; at 7: Fill Rectangular Area: 1 (solid white); page.marked off to on
par *c1P
; at 9: Form Feed; the page closes; sheets 0 to 1; page.marked on to off; settings.sheets_of_job 0 to 1
ctl 0C
; at 10: Macro Control: 0 (start definition); macros.defining none to 0
par &f0X
; at 15: Horizontal Rectangle Size (PCL Units): 32; recorded in macro 0
par *c32A
; at 21: Vertical Rectangle Size (PCL Units): 2; recorded in macro 0
par *c2B
; at 23: Fill Rectangular Area: 0 (solid black); recorded in macro 0
par *c0P
; at 25: Horizontal Rectangle Size (PCL Units): 24; recorded in macro 0
par *c24A
; at 31: Fill Rectangular Area: 1 (solid white); recorded in macro 0
par *c1P
; at 33: Macro Control: 1 (end definition); macros.defining 0 to none
par &f1X
; at 38: Macro Control: 2 (execute); marks within 16 by 2 dots at 96, 187; runs 5 recorded commands; drawing.height 24 to 48; drawing.width 192 to 576; page.marked off to on
par &f2X
; at 40: Macro Control: 2 (execute); runs 5 recorded commands
par &f2X
; at 42: Macro ID: 2; macros.id 0 to 2
par &f2Y
; at 44: Macro Control: 0 (start definition); macros.defining none to 2
par &f0X
; at 46: Horizontal Rectangle Size (PCL Units): 32; recorded in macro 2
par *c32A
; at 52: Fill Rectangular Area: 1 (solid white); recorded in macro 2
par *c1P
; at 54: Macro Control: 1 (end definition); macros.defining 2 to none
par &f1X
; at 59: Macro Control: 2 (execute); marks within 16 by 2 dots at 96, 187; runs 2 recorded commands; drawing.width 576 to 768
par &f2X
; at 61: the end, where a universal exit is added; the page closes; sheets 1 to 2; drawing.height 48 to 0; drawing.width 768 to 0; macros.id 2 to 0; page.marked on to off; settings.sheets_of_job 1 to 2
"""),
    # What an overlay marks is on the page that closes with it. A macro that marks a page and closes it closes none that was open.
    "an overlay": (b"\x1b&f2y0X\x1b*c8a1b0Pa\x1b&f1x4X\x0c\x1b&f5x3y0X\x1b*c8a1b0P\x0c\x1b&f1x3X", """\
; at 0: Macro ID: 2; macros.id 0 to 2
par &f2Y
; at 5: Macro Control: 0 (start definition); macros.defining none to 2
par &f0X
; at 7: Horizontal Rectangle Size (PCL Units): 8; recorded in macro 2
par *c8A
; at 12: Vertical Rectangle Size (PCL Units): 1; recorded in macro 2
par *c1B
; at 14: Fill Rectangular Area: 0 (solid black); recorded in macro 2
par *c0P
; at 16: Text: a; recorded in macro 2
txt 61
; at 17: Macro Control: 1 (end definition); macros.defining 2 to none
par &f1X
; at 22: Macro Control: 4 (enable overlay); macros.overlay none to 2
par &f4X
; at 24: Form Feed; sheets 0 to 1; runs 4 recorded commands; settings.sheets_of_job 0 to 1
ctl 0C
; at 25: Macro Control: 5 (disable overlay); macros.overlay 2 to none
par &f5X
; at 30: Macro ID: 3; macros.id 2 to 3
par &f3Y
; at 32: Macro Control: 0 (start definition); macros.defining none to 3
par &f0X
; at 34: Horizontal Rectangle Size (PCL Units): 8; recorded in macro 3
par *c8A
; at 39: Vertical Rectangle Size (PCL Units): 1; recorded in macro 3
par *c1B
; at 41: Fill Rectangular Area: 0 (solid black); recorded in macro 3
par *c0P
; at 43: Form Feed; recorded in macro 3
ctl 0C
; at 44: Macro Control: 1 (end definition); macros.defining 3 to none
par &f1X
; at 49: Macro Control: 3 (call); sheets 1 to 2; runs 4 recorded commands; settings.sheets_of_job 1 to 2
par &f3X
; at 51: the end, where a universal exit is added; macros.id 3 to 0
"""),
    # Text goes on with the run of a body that ended with text, of a macro within one, too; not behind one that ended with a bell, nor behind an empty one.
    "runs that a body begins": (b"\x1b&f1y0Xab\x1b&f1x2Xc\x1b&f2y0Xa\x07\x1b&f1x2Xb\x1b&f3y0X\x1b&f1y2X\x1b&f1x2Xd\x1b&f4y0X\x1b&f1x2Xe", """\
; at 0: Macro ID: 1; macros.id 0 to 1
par &f1Y
; at 5: Macro Control: 0 (start definition); macros.defining none to 1
par &f0X
; at 7: Text: a; recorded in macro 1
txt 61
; at 8: Text: b; recorded in macro 1
txt 62
; at 9: Macro Control: 1 (end definition); macros.defining 1 to none
par &f1X
; at 14: Macro Control: 2 (execute); runs 2 recorded commands
par &f2X
txt 63
; at 17: Macro ID: 2; macros.id 1 to 2
par &f2Y
; at 22: Macro Control: 0 (start definition); macros.defining none to 2
par &f0X
; at 24: Text: a; recorded in macro 2
txt 61
; at 25: Bell; recorded in macro 2
ctl 07
; at 26: Macro Control: 1 (end definition); macros.defining 2 to none
par &f1X
; at 31: Macro Control: 2 (execute); runs 2 recorded commands
par &f2X
; at 33: Text: b; refused: no row
txt 62
; at 34: Macro ID: 3; macros.id 2 to 3
par &f3Y
; at 39: Macro Control: 0 (start definition); macros.defining none to 3
par &f0X
; at 41: Macro ID: 1; recorded in macro 3
par &f1Y
; at 46: Macro Control: 2 (execute); recorded in macro 3
par &f2X
; at 48: Macro Control: 1 (end definition); macros.defining 3 to none
par &f1X
; at 53: Macro Control: 2 (execute); runs 4 recorded commands; macros.id 3 to 1
par &f2X
txt 64
; at 56: Macro ID: 4; macros.id 1 to 4
par &f4Y
; at 61: Macro Control: 0 (start definition); macros.defining none to 4
par &f0X
; at 63: Macro Control: 1 (end definition); macros.defining 4 to none
par &f1X
; at 68: Macro Control: 2 (execute); changes nothing
par &f2X
; at 70: Text: e; refused: no row
txt 65
; at 71: the end, where a universal exit is added; macros.id 4 to 0
"""),
    # What HP-GL/2 skips goes on with the run of a body.
    "HP-GL/2 that a body enters": (b"\x1b&f0X\x1b%0BPU\x1b&f1x2X1\r\x1b%0A2", """\
; at 0: Macro Control: 0 (start definition); macros.defining none to 0
par &f0X
; at 5: Enter HP-GL/2 Mode: 0; recorded in macro 0
par %0B
; at 9: Text: P; recorded in macro 0
txt 50
; at 10: Text: U; recorded in macro 0
txt 55
; at 11: Macro Control: 1 (end definition); macros.defining 0 to none
par &f1X
; at 16: Macro Control: 2 (execute); runs 3 recorded commands; settings.hp_gl off to on
par &f2X
txt 31
ctl 0D
; at 20: Enter PCL Mode: 0; settings.hp_gl on to off
par %0A
; at 24: Text: 2; refused: no row
txt 32
; at 25: the end, where a universal exit is added; changes nothing
"""),
    # An overlay's last step was text, or was skipped by HP-GL/2, which the reset then leaves: text behind it is refused for another reason.
    "runs that an overlay begins": (b"\x1b&f2y0Xa\x1b&f1x4X\x0cbc\x1b&f0X\x1b%0BP\x1b&f1X\x1b*c1a1b0P\x1bEb", """\
; at 0: Macro ID: 2; macros.id 0 to 2
par &f2Y
; at 5: Macro Control: 0 (start definition); macros.defining none to 2
par &f0X
; at 7: Text: a; recorded in macro 2
txt 61
; at 8: Macro Control: 1 (end definition); macros.defining 2 to none
par &f1X
; at 13: Macro Control: 4 (enable overlay); macros.overlay none to 2
par &f4X
; at 15: Form Feed; sheets 0 to 1; runs 1 recorded commands; settings.sheets_of_job 0 to 1
ctl 0C
txt 62
txt 63
; at 18: Macro Control: 0 (start definition); macros.defining none to 2
par &f0X
; at 23: Enter HP-GL/2 Mode: 0; recorded in macro 2
par %0B
; at 27: Text: P; recorded in macro 2
txt 50
; at 28: Macro Control: 1 (end definition); macros.defining 2 to none
par &f1X
; at 33: Horizontal Rectangle Size (PCL Units): 1; drawing.width 0 to 24
par *c1A
; at 38: Vertical Rectangle Size (PCL Units): 1; drawing.height 0 to 24
par *c1B
; at 40: Fill Rectangular Area: 0 (solid black); marks within 8 by 1 dots at 72, 187; page.marked off to on
par *c0P
; at 42: Printer Reset; the page closes; sheets 1 to 2; runs 2 recorded commands; drawing.height 24 to 0; drawing.width 24 to 0; macros.id 2 to 0; macros.overlay 2 to none; page.marked on to off; settings.sheets_of_job 1 to 2
esc E
; at 44: Text: b; refused: no row
txt 62
; at 45: the end, where a universal exit is added; changes nothing
"""),
    # A macro that changes one thing back tells it as it is behind it, and an empty one runs nothing.
    "macros that leave all as it was": (b"\x1b&f0X\x1b*p9X\x1b*p0X\x1b&l2x1X\x1b&f1x2x1y0X\x1b&f1x2X", """\
; at 0: Macro Control: 0 (start definition); macros.defining none to 0
par &f0X
; at 5: Horizontal Cursor Positioning (PCL Units): 9; recorded in macro 0
par *p9X
; at 10: Horizontal Cursor Positioning (PCL Units): 0; recorded in macro 0
par *p0X
; at 15: Number of Copies: 2; recorded in macro 0
par &l2X
; at 20: Number of Copies: 1; recorded in macro 0
par &l1X
; at 22: Macro Control: 1 (end definition); macros.defining 0 to none
par &f1X
; at 27: Macro Control: 2 (execute); runs 4 recorded commands
par &f2X
; at 29: Macro ID: 1; macros.id 0 to 1
par &f1Y
; at 31: Macro Control: 0 (start definition); macros.defining none to 1
par &f0X
; at 33: Macro Control: 1 (end definition); macros.defining 1 to none
par &f1X
; at 38: Macro Control: 2 (execute); changes nothing
par &f2X
; at 40: the end, where a universal exit is added; macros.id 1 to 0
"""),
    # The exit that is added ends a definition that is open, and is not recorded. Bytes of a line that does not begin one are text, at their own places.
    "a definition that is open at the end": (b"\x1b&f0X\x1b%-12345X\x1b&f0Xa", """\
; at 0: Macro Control: 0 (start definition); macros.defining none to 0
par &f0X
; at 5: Universal Exit Language; macros.defining 0 to none
uel
; at 14: Macro Control: 0 (start definition); macros.defining none to 0
par &f0X
; at 19: Text: a; recorded in macro 0
txt 61
; at 20: the end, where a universal exit is added; macros.defining 0 to none
"""),
    "text that stands for a rest": (b"\x0c@\x1b%-12345X@PJ", """\
; at 0: Form Feed; sheets 0 to 1; settings.sheets_of_job 0 to 1
ctl 0C
; at 1: Text: @; refused: no row
txt 40
; at 2: Universal Exit Language; changes nothing
uel
; at 11: Text: @; refused: no row
txt 40
txt 50
txt 4A
; at 14: the end, where a universal exit is added; changes nothing
"""),
    # Two copies have two replies, and so have two pages of a macro, which are told together.
    "status of pages": (b"@PJL USTATUS PAGE=ON\n\x1b&l2X\x0c\x1b&l1X\x1b&f0X\x0c\x0c\x1b&f1x2X", """\
; at 0: PJL line: @PJL USTATUS PAGE=ON.; settings.page_status off to on
pjl 40504A4C205553544154555320504147453D4F4E0A
; at 21: Number of Copies: 2; settings.copies 1 to 2
par &l2X
; at 26: Form Feed; sheets 0 to 2; settings.sheets_of_job 0 to 2; replies: @PJL USTATUS PAGE..1...@PJL USTATUS PAGE..2...
ctl 0C
; at 27: Number of Copies: 1; settings.copies 2 to 1
par &l1X
; at 32: Macro Control: 0 (start definition); macros.defining none to 0
par &f0X
; at 37: Form Feed; recorded in macro 0
ctl 0C
; at 38: Form Feed; recorded in macro 0
ctl 0C
; at 39: Macro Control: 1 (end definition); macros.defining 0 to none
par &f1X
; at 44: Macro Control: 2 (execute); sheets 2 to 4; runs 2 recorded commands; settings.sheets_of_job 2 to 4; replies: @PJL USTATUS PAGE..3...@PJL USTATUS PAGE..4...
par &f2X
; at 46: the end, where a universal exit is added; changes nothing
"""),
}

# A default of the printer is a line in front, and places are counted from it.
DEFAULT = ("explain --default COPIES=2 -", 0, """\
; at 0: PJL line: @PJL DEFAULT COPIES=2.; default.copies 1 to 2
pjl 40504A4C2044454641554C5420434F504945533D320A
; at 22: PJL line: @PJL RESET.; current.copies 1 to 2; settings.copies 1 to 2
pjl 40504A4C2052455345540A
; at 33: Form Feed; sheets 0 to 2; settings.sheets_of_job 0 to 2
ctl 0C
; at 34: the end, where a universal exit is added; changes nothing
""", b"\x0c")

NAMED = {name: ("explain -", 0, text, stream) for name, (stream, text) in COMMANDS.items()}
NAMED |= {
    "a default of the printer": DEFAULT,
    "no such stream": ("explain none", 1, "fault 304\n", b""),
    "a folder is no stream": ("explain /", 1, "fault 304\n", b""),
}
ROWS = [*NAMED.values()]
