#!/usr/bin/env python3
"""Replays two traces with each of their frames cut at each place. What comes of them has to be the
same.

    checks/cuts.py [--program FILE] [--only NAME]

In one trace a report comes. In the other a command is selected and confirmed, the control centre
goes and comes again, and its execute is refused, since a selection ends with its connection.

Each frame of a trace, on the line and on TCP, is cut in two pieces at each of its places, both at
the same moment. Then each frame comes octet by octet, and then all frames do. Each time
`telegate replay` has to print what is written here, worked out by hand (IEC 60870-5-2; IEC
60870-5-104, 5.1 and 5.3; docs/PROFILE.md on selections).
"""
import os
import subprocess

import frame


SETTINGS = """[line]
link = 1
cause = 1
ca = 1
ioa = 2
queue = 100
[[station]]
address = 1
ca = 1
select = true
"""

TRACE = [
    (10, "S", "100B010C16"),
    (20, "S", "E5"),
    (30, "O", ""),
    (40, "R", "680407000000"),
    (50, "R", "680E000000002D01060001000A000081"),
    (60, "S", "E5"),
    (70, "S", "E5"),
    (80, "S", "6809096808012D0107010A0081CA16"),
    (85, "C", ""),
    (86, "O", ""),
    (87, "R", "680407000000"),
    (88, "R", "680E000000002D01060001000A000001"),
]

PRINTED = """0 > S 1049014A16
10 > S 1040014116
20 > S 107B017C16
40 > T 68040B000000
60 > S 6809096853012D0106010A00811416
70 > S 107B017C16
80 > S 105B015C16
80 > T 680E000002002D01070001000A000081
87 > T 68040B000000
88 > T 680E000002002D01470001000A000001
"""


# The report of a single point.
REPORT = [(10, "S", "100B010C16"), (20, "S", "E5"), (30, "O", ""), (40, "R", "680407000000"), (50, "S", "680909680801010103016400017416")]

REPORTED = """0 > S 1049014A16
10 > S 1040014116
20 > S 107B017C16
40 > T 68040B000000
50 > S 105B015C16
50 > T 680E0000000001010300010064000001
"""


def cut(entry, places):
    """An entry as pieces at the same moment, cut behind so many octets each."""
    now, what, digits = entry
    edges = [0, *(2 * place for place in places), len(digits)]
    return [(now, what, digits[first:last]) for first, last in zip(edges, edges[1:])]


def size(entry):
    return len(entry[2]) // 2


def cases(trace):
    """Each way to cut the trace, with its name."""
    yield "whole", trace
    for at, entry in enumerate(trace):
        for place in range(1, size(entry)):
            yield f"{entry} cut behind {place} octets", trace[:at] + cut(entry, [place]) + trace[at + 1 :]
        if size(entry) > 2:
            yield f"{entry} octet by octet", trace[:at] + cut(entry, range(1, size(entry))) + trace[at + 1 :]
    yield "all octet by octet", [piece for entry in trace for piece in cut(entry, range(1, size(entry)))]


def replays(count, program, folder):
    """Each way to cut each trace."""
    settings, trace = os.path.join(folder, "config.toml"), os.path.join(folder, "cut.trace")
    with open(settings, "w") as file:
        file.write(SETTINGS)
    for name, entries, printed in [(*case, PRINTED) for case in cases(TRACE)] + [(*case, REPORTED) for case in cases(REPORT)]:
        if not count.wants(name):
            continue
        with open(trace, "w") as file:
            file.write("".join(f"{now} {what} {digits}".strip() + "\n" for now, what, digits in entries))
        done = subprocess.run([program, "replay", settings, trace], capture_output=True, text=True, timeout=60)
        holds = (done.returncode, done.stdout, done.stderr) == (0, printed, "")
        count.judge(name, holds, f"status {done.returncode}, {done.stderr}\n{done.stdout}")


if __name__ == "__main__":
    frame.main(replays)
