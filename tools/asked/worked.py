"""Worked streams: each was computed by hand. `^` is an escape character and `~` a form feed."""

UEL = b"\x1b%-12345X"
PATTERN = bytes([0, 0, 1, 0, 0, 8, 0, 8])
STREAMS = [stream.replace(b"^", b"\x1b").replace(b"~", b"\x0c") for stream in [
    b"", b"^E~^E", b"^E^*p0x0Y^*c3a2b0P^E", b"^*p10x20Y^*c3a2b0P~", b"^*p10\r~", b"^*p10x20\r",
    b"".join(b"^*p%dX^&f0S" % place for place in range(1, 22)) + b"^&f1S" * 21,
    b"^*t300R^*r0A^*b1m2W\x02\xf0~",
    b"^*t300R^*r0A^*b3m2W\x00\xff^*b0W^*b0m0W^*b3m0W^*rC~",
    b"^*p0x0Y^*c16a1b0P^*t300R^*r8S^*v1N^*r1A^*b0W^*rC~",
    b"^*c5G^*c16W" + PATTERN + b"\xff" * 8 + b"^*c15W" + PATTERN + b"\x00" * 7 + b"^*p0x0Y^*c2a1b4P~",
    b"^*p0x0Y^&f1y0X^*c1a1b0P^*p+2X^&f3X^&f1X^&f3X~",
    b"^&f2y0X^*c4a1b0P~^&f1X^&f4X~~", b"^&f2y0X^*c4a1b0P~^&f1X^&f4X^*c1a1b0P^&f3y0X",
    UEL + b"@PJL SET COPIES=3\r\n@PJL INQUIRE COPIES\r\n@PJL DINQUIRE COPIES\r\n", UEL + b"^\x01@PJL ECHO x\n",
    b"^*t300R^*r0A^*b5m15W\x00\x00\x01\xff\x05\x00\x02\x04\x00\x01\x03\x00\x02\x00\x81~",
    b"^*t75R^*r1A^*b1W\x80~", b"^*p10x20Y", b"^&l1O^*p0x0Y^*c3a2b0P~", b"^*c50G^*p0x0Y^*c4a1b2P~", b"^&l1S~^E",
    UEL + b"@PJL USTATUS PAGE=ON\n@PJL ENTER LANGUAGE=PCL\n~", b"^*t300R^*r0A^*b3m2W\x00\xff^*b1Y^*b0W^*rC~",
]]
