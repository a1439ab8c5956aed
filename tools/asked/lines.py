"""The lines of sessions with a press, and faults of files that they name."""

# the responses to `submit` and `status` by a press that has no entries
SUBMITTED = '{"QueueEntryID":"Q1","ReturnCode":0,"Type":"SubmitQueueEntry","refID":"a"}\n'
IDLE = '{"Device":{"QueueEntryID":"","Sheets":0,"Status":"Idle"},"ReturnCode":0,"Type":"Status","refID":"s"}\n'

# What a press that has no entries answers, and the lines of sessions that it answers so.
LINES = [
    (IDLE, [b"message status", b"message status\n"]),
    (SUBMITTED, [b"message submit dot", b"message submit d\xc3\xb6t"]),
    ('{"Fault":611,"ReturnCode":6,"Type":"SubmitQueueEntry","refID":"a"}\n', [b"message submit"]),
    ('{"ReturnCode":6,"Type":"","refID":""}\n', [b"message empty"]),
    ("turn - 0\n", [b"turn 0", b"turn 1", b"turn 01", b"turn 18446744073709551615", b"turn 00000000000000000000018446744073709551615", b"turn 1 0",
                    b"turn 01 00"]),
    ("what?\n", [b"turn 18446744073709551616", b"turn 99999999999999999999", b"turn", b"turn ", b"turn +1", b"turn -1", b"turn 1 0 0", b"turn 1 x",
                 b"turn x 0", b"turn 1 +0", b"turn 1 ", b"turn 1  0", b"turn 1 18446744073709551616", b"turn 18446744073709551616 7", b"turn  1",
                 b"turn\t1", b"Turn 1", b"pause\r\n", b"pause ", b" pause", b"abort Q1", b"message", b"message ", b"message status ",
                 b"message  status", b"message submit  dot", b"\n"]),
    ("ok\nok\nok\n", [b"pause\ncontinue\nabort"]),
    ("what?\nwhat?\n", [b"\xff\nwhat?"]),
]

# A line with a fault of a file, and the fault. What it names behind that is not opened, and what stands behind it not carried out.
BROKEN_LINES = [
    (b"message none no-image", "fault 304\n"),
    (b"message / none", "fault 304\n"),
    (b"message status none no-image", "fault 304\n"),
    (b"message submit dot none", "fault 304\n"),
    (b"message submit no-image none", "fault 111\n"),
    (b"message submit no-size no-image", "fault 112\n"),
    (b"message submit cut no-image", "fault 113\n"),
    (b"message submit empty none", "fault 113\n"),
    (b"message submit / none", "fault 114\n"),
    (b"message submit dot no-image", "fault 111\n"),
    (b"message empty no-image", "fault 111\n"),
    (b"message status no-image", "fault 111\n"),
    (b"message \0", "fault 304\n"),
    (b"message \xff none", "fault 304\n"),
]

ROWS = [("press", 0, answer, lines) for answer, some in LINES for lines in some]
ROWS += [("press", 1, f"{SUBMITTED}turn Q1 15\n{fault}", b"message submit dot\nturn 15\n" + line + b"\npause\n")
         for line, fault in BROKEN_LINES]
