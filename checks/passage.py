#!/usr/bin/env python3
"""Sends one report through `telegate run`, octet by octet, and judges all that comes out at both
ends.

    checks/passage.py [--program FILE] [--only NAME]

The link is started up to the first poll, which the report answers. A control centre gets the
report, and goes without acknowledging it. The next control centre gets it again with the same
number, and acknowledges it. A third takes the second one's place: it gets the answer to its start
and nothing more, and the second one's connection is closed. Then the line is closed, and the
gateway ends with `device failed`.
"""

import ends
import frame

# The answer is awaited for longer than the script lasts.
SETTINGS = """[line]
link = 1
cause = 1
ca = 1
ioa = 2
answer_ms = 60000
[[station]]
address = 1
ca = 1
"""
STATUS, READY = ends.fixed(0x49, 1), ends.fixed(0x0B, 1)
RESET, CONFIRMED = ends.fixed(0x40, 1), b"\xE5"
POLL, NEXT_POLL = ends.fixed(0x7B, 1), ends.fixed(0x5B, 1)
# A single point, spontaneous, object 100, on: from the station, and as an I frame with N(S) 0.
REPORT = bytes.fromhex("680909680801010103016400017416")
SENT = bytes.fromhex("680E0000000001010300010064000001")
ACKNOWLEDGES = bytes.fromhex("680401000200")


def heard(centre, count):
    """The next so many APDUs of a connection, or fewer if no more come."""
    apdus = []
    while len(apdus) < count:
        some = centre.heard(ends.PATIENCE)
        if not some:
            return apdus + [some]
        apdus += some
    return apdus


def started(run):
    centre = run.centre()
    centre.send(ends.START)
    return centre


def passage(count, run):
    for name, request, answer in (("status", STATUS, READY), ("reset", RESET, CONFIRMED), ("poll", POLL, REPORT)):
        count.compare(name, run.line.request()[2], request)
        run.line.answer(answer)
    count.compare("next poll", run.line.request()[2], NEXT_POLL)

    first = started(run)
    count.compare("first connection", heard(first, 2), [ends.STARTED, SENT])
    first.stream.close()
    second = started(run)
    count.compare("second connection", heard(second, 2), [ends.STARTED, SENT])
    # Once the test is answered the acknowledgement before it was taken.
    second.send(ACKNOWLEDGES + ends.TEST)
    count.compare("test", heard(second, 1), [ends.TESTED])

    third = started(run)
    count.compare("third connection", heard(third, 1), [ends.STARTED])
    count.compare("nothing more on it", third.heard(0.05), [])
    count.compare("the second is shut", second.heard(ends.PATIENCE), None)

    status, said = run.ended()
    count.compare("exit status", status, 3)
    count.compare("standard error", said.splitlines()[-1:], ["device failed"])


def a_report(count, program, _folder):
    with ends.Run(program, SETTINGS) as run:
        passage(count, run)


if __name__ == "__main__":
    frame.main(a_report)
