#!/usr/bin/env python3
"""Runs `telegate sim` over scripts, good and wrong, and judges what it prints; and some faults of
settings and traces.

    checks/simulations.py [--program FILE] [--only NAME]

What a run prints was worked out by hand from the standard and docs/PROFILE.md.
"""
import os
import subprocess

import frame


# One station.
CONFIG = "[line]\nlink = 1\ncause = 1\nca = 1\nioa = 2\nqueue = 100\n[[station]]\naddress = 1\nca = 1\n"
# A station whose link is reset at once where it is silent.
RESET = CONFIG.replace("[[station]]", 'retries = 0\nsilence = "reset"\n[[station]]')
# Link addresses of two octets.
WIDE = CONFIG.replace("link = 1", "link = 2").replace("queue = 100\n", "")
# Two stations.
TWO = CONFIG + "[[station]]\naddress = 2\nca = 2\n"

# A report of class 2, whose first answer is lost: the poll goes out again.
LOST_ANSWER = """1 > S 1049014A16
2 > T 68040B000000
3 > S 1040014116
4 > S 107B017C16
204 > S 107B017C16
205 > S 105B015C16
205 > T 680E0000000001010300010064000001
207 > S 107B017C16
station 1 reports 1 given 1 accepted 0
connection 1 objects 1
"""

# The first request is lost: the status of the link is asked for again once its time is over.
LOST_REQUEST = """1 > S 1049014A16
2 > T 68040B000000
202 > S 1049014A16
203 > S 1040014116
204 > S 107B017C16
station 1 reports 0 given 0 accepted 0
connection 1 objects 0
"""

# Each kind of line, the edges of its numbers and octets of either case. Requests count from 1, so that none is lost as number 0; call 1
# tells the wall clock, so that nothing is sent at it; the third answer, the second station's, is lost; call 7 is the cut, and the report
# that the first station gave waits at the end.
EACH_LINE = """# a comment

turns 000000008
ack 32767
wall 999999999999999
report 2 1 0aFF
lose request 0
lose answer 3
spoil answer 3 999999999
cut 7
send 1 640106000100000014
report 1 2 00"""
OF_EACH_LINE = """1 > S 1049014A16
3 > T 68040B000000
4 > S 1040014116
5 > S 1049024B16
205 > S 107B017C16
station 1 reports 1 given 1 accepted 0
station 2 reports 1 given 0 accepted 0
connection 1 objects 0
connection 2 objects 0
"""

# No acknowledgement takes a call, as one would after the report at 5 where `ack` is left away.
UNACKNOWLEDGED = """1 > S 1049014A16
2 > T 68040B000000
3 > S 1040014116
4 > S 107B017C16
5 > S 105B015C16
5 > T 680E00000000010103000100FF0A0001
6 > S 107B017C16
7 > S 105B015C16
station 1 reports 1 given 1 accepted 0
connection 1 objects 1
"""

# A report of class 1 of the second station: its answer to the reset tells of it.
OF_THE_SECOND = """1 > S 1049014A16
2 > T 68040B000000
3 > S 1040014116
4 > S 1049024B16
5 > S 1040024216
6 > S 107B017C16
7 > S 107A027C16
8 > S 105B015C16
8 > T 680E00000000010103000200FF0A0001
station 1 reports 0 given 0 accepted 0
station 2 reports 1 given 1 accepted 0
connection 1 objects 1
"""

# A spoilt answer is as good as lost: its exchange has octets, but no frame, and what closes it is its time. The octets take a call of
# their own, so that is looked at 1 ms later.
SPOILT_ANSWER = """1 > S 1049014A16
2 > T 68040B000000
3 > S 1040014116
4 > S 107B017C16
205 > S 107B017C16
206 > S 105B015C16
206 > T 680E0000000001010300010064000001
208 > S 107B017C16
station 1 reports 1 given 1 accepted 0
connection 1 objects 1
"""

# That with a report of class 1: the requests at 4 and at 204 ask for it.
LOST_ANSWER_OF_CLASS_1 = """1 > S 1049014A16
2 > T 68040B000000
3 > S 1040014116
4 > S 107A017B16
204 > S 107A017B16
205 > S 105B015C16
205 > T 680E0000000001010300010064000001
207 > S 107B017C16
station 1 reports 1 given 1 accepted 0
connection 1 objects 1
"""

# Two reports. The answer to the first poll is lost: the reset that follows tells of a gap, and
# the first report is lost.
LOST_WITH_A_GAP = """1 > S 1049014A16
2 > T 68040B000000
3 > S 1040014116
4 > S 107B017C16
204 > S 1049014A16
205 > S 1040014116
206 > G 1 1
206 > S 107B017C16
207 > S 105B015C16
207 > T 680E0000000001010300010065000001
209 > S 107B017C16
station 1 reports 2 given 2 accepted 0
connection 1 objects 1
sessions 1 2 gaps 1 lost 1
"""

# The poll itself is lost: the same gap, and no report is lost.
GAP_WITHOUT_LOSS = """1 > S 1049014A16
2 > T 68040B000000
3 > S 1040014116
4 > S 107B017C16
204 > S 1049014A16
205 > S 1040014116
206 > G 1 1
206 > S 107B017C16
207 > S 105B015C16
207 > T 680E0000000001010300010064000001
209 > S 107B017C16
209 > T 680E0200000001010300010065000001
station 1 reports 2 given 2 accepted 0
connection 1 objects 2
sessions 1 2 gaps 1 lost 0
"""

# Two answers are lost, one in each of two sessions; the third session brings the last report.
TWO_GAPS = """1 > S 1049014A16
2 > T 68040B000000
3 > S 1040014116
4 > S 107B017C16
204 > S 1049014A16
205 > S 1040014116
206 > G 1 1
206 > S 107B017C16
406 > S 1049014A16
407 > S 1040014116
408 > G 1 2
408 > S 107B017C16
409 > S 105B015C16
409 > T 680E0000000001010300010066000001
station 1 reports 3 given 3 accepted 0
connection 1 objects 1
sessions 1 3 gaps 2 lost 2
"""

# A command with a time tag, judged at an age of 3.2 s and of 10 s. The tag is 1709210096789 ms; the command comes 5 ms after the wall
# clock was told.
TAGGED = "3A01060001000A000001D5DD220C9D0218"
FRESH = """1 > S 1049014A16
3 > T 68040B000000
4 > S 1040014116
5 > S 107B017C16
7 > S 6809096853012D0106010A00019416
8 > S 107B017C16
9 > S 105B015C16
station 1 reports 0 given 0 accepted 1
connection 1 objects 0
"""

# The same at 10.001 s: one millisecond too old.
OLD = """1 > S 1049014A16
3 > T 68040B000000
4 > S 1040014116
5 > S 107B017C16
6 > T 6815000002003A01470001000A000001D5DD220C9D0218
8 > S 105B015C16
9 > S 107B017C16
station 1 reports 0 given 0 accepted 0
connection 1 objects 0
"""

# The same without a wall clock, so one call earlier.
UNKNOWN = """1 > S 1049014A16
2 > T 68040B000000
3 > S 1040014116
4 > S 107B017C16
5 > T 6815000002003A01470001000A000001D5DD220C9D0218
7 > S 105B015C16
8 > S 107B017C16
station 1 reports 0 given 0 accepted 0
connection 1 objects 0
"""

# The settings, the script, and what is printed.
RUNS = [
    (CONFIG, f"turns 9\nwall 1709210100000\nsend 6 {TAGGED}\n", FRESH),
    (CONFIG, f"send 6 {TAGGED}\nturns 9\nwall 1709210106784", FRESH),
    (CONFIG, f"wall 1709210106785\nturns 9\nsend 6 {TAGGED}\n", OLD),
    (CONFIG, f"turns 8\nsend 5 {TAGGED}\n", UNKNOWN),
    # No calls give the closing lines alone.
    (CONFIG, "turns 0\nreport 1 2 01010301640001\n", "station 1 reports 1 given 0 accepted 0\n"),
    (TWO, EACH_LINE, OF_EACH_LINE),
    (CONFIG, "turns 7\nack 32767\nreport 1 2 01010301fF0a01\n", UNACKNOWLEDGED),
    (TWO, "turns 8\nack 32767\nreport 2 1 01010302fF0a01\n", OF_THE_SECOND),
    (CONFIG, f"wall 999999999999999\nturns 9\nsend 6 {TAGGED}\n", OLD),
    (CONFIG, "turns 5\nlose request 1\n", LOST_REQUEST),
    (CONFIG, "turns 9\nreport 1 2 01010301640001\nspoil answer 3 20\n", SPOILT_ANSWER),
    # Of the 15 octets of that answer this is the tenth.
    (CONFIG, "turns 9\nreport 1 2 01010301640001\nspoil answer 3 999999999\n", SPOILT_ANSWER),
    (CONFIG, "turns 8\nreport 1 2 01010301640001\nlose answer 3\n", LOST_ANSWER),
    (CONFIG, "turns 8\nreport 1 1 01010301640001\nlose answer 3\n", LOST_ANSWER_OF_CLASS_1),
    (RESET, "turns 10\nreport 1 2 01010301640001\nreport 1 2 01010301650001\nlose answer 3\n", LOST_WITH_A_GAP),
    (RESET, "turns 10\nreport 1 2 01010301640001\nreport 1 2 01010301650001\nlose request 3\n", GAP_WITHOUT_LOSS),
    (
        RESET,
        "turns 11\nreport 1 2 01010301640001\nreport 1 2 01010301650001\nreport 1 2 01010301660001\n"
        "lose answer 3\nlose answer 6\n",
        TWO_GAPS,
    ),
]

# Wrong scripts, and their first wrong line.
WRONG = [
    # A missing `turns` is wrong at the line after the last.
    ("", 1),
    ("# turns 1\n\nack 1\n", 4),
    ("turns 1\nturns 1\n", 2),
    ("turns 1\n\nack 1\nack 1\n", 4),
    ("turns 1\nack 0\n", 2),
    ("turns 1\nack 32768\n", 2),
    ("turns 1234567890\n", 1),
    ("turns 1\nreport 0 2 00\n", 2),
    ("turns 1\nreport 2 2 00\n", 2),
    ("turns 1\nreport 1 3 00\n", 2),
    ("turns 1\nreport 1 2 0\n", 2),
    ("spoil answer 3 1\n# again\nspoil answer 3 2\nturns 1\n", 3),
    (
        "send 4 640106000100000014\nturns 1\nsend 4 640106000100000014\n",
        3,
    ),
    # Eight octets are no ASDU with an object.
    ("turns 1\nsend 4 6401060001000000\n", 2),
    ("turns 1\nlose 3\n", 2),
    ("turns 1\ncut\n", 2),
    ("turns 1\nlose answer 3 \n", 2),
    ("turns 1\r\n", 1),
]

# The settings, the words before octets, and how many octets fit them.
LONGEST = [(CONFIG, "report 1 2", 253), (CONFIG, "report 1 1", 253), (WIDE, "report 1 1", 252), (CONFIG, "send 1", 249)]

# Wrong settings, and the first wrong one.
SETTINGS = [
    ("[line", "config: not TOML\n"),
    ("", "config: line.link\n"),
    ("[line]\nlink = 1\ncause = 3\nca = 9\n", "config: line.cause\n"),
    (
        "[line]\nlink = 1\ncause = 1\nca = 1\nioa = 2\nzz = 1\nyy = 2\n[[station]]\naddress = 1\nca = 1\n",
        "config: unknown line.yy\n",
    ),
]

# Wrong traces, and the first wrong line.
TRACES = [("x", 1), ("10 T\n\n# a comment\n20 T \n", 4)]


def rows():
    """The command, the texts of its files, standard output, standard error and the exit status."""
    for config, script, lines in RUNS:
        yield "sim", (config, script), lines, "", 0
    for script, line in WRONG:
        yield "sim", (CONFIG, script), "", f"script: line {line}\n", 1
    for config, words, most in LONGEST:
        reports = int(words.startswith("report"))
        lines = f"station 1 reports {reports} given 0 accepted 0\n"
        yield "sim", (config, f"turns 0\n{words} {'64' * most}\n"), lines, "", 0
        yield "sim", (config, f"turns 0\n{words} {'64' * (most + 1)}\n"), "", "script: line 2\n", 1
    yield "check", (CONFIG,), "ok\n", "", 0
    for config, fault in SETTINGS:
        # Settings are judged before a trace, and before a script.
        yield "check", (config,), "", fault, 1
        yield "replay", (config, "x"), "", fault, 1
        yield "sim", (config, "x"), "", fault, 1
    for trace, line in TRACES:
        yield "replay", (CONFIG, trace), "", f"trace: line {line}\n", 1


def runs(count, program, folder):
    """Each row."""
    for command, texts, *want in rows():
        name = f"{command} {texts[-1]!r:.200}"
        if not count.wants(name):
            continue
        files = [os.path.join(folder, name) for name in ("config.toml", "second")][: len(texts)]
        for path, text in zip(files, texts):
            with open(path, "w", newline="") as file:
                file.write(text)
        done = subprocess.run([program, command, *files], capture_output=True, text=True, timeout=60)
        holds = [done.stdout, frame.bare(done.stderr), done.returncode] == want
        count.judge(name, holds, f"status {done.returncode}, {done.stderr}\n{done.stdout}")


if __name__ == "__main__":
    frame.main(runs)
