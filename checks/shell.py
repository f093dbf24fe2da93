#!/usr/bin/env python3
"""Runs `telegate` as a process, and judges what only a process can show.

    checks/shell.py [--program FILE] [--only NAME]

- Every exit status, with what stands on standard output and on standard error.
- Words that are no text, files that can't be read, and outputs that fail.
- How far a long run has come, which a terminal shows and nothing else.
- Colours, on a terminal alone, by NO_COLOR and `--color`.
- A live run that asks its line for its status. It ends with 3 when the line ends, or reaches it
  again with --redial.
- The script ./telegate, also through a link, and if nothing is built: which program it runs.
- The man page and the completions of packaging/, which name what `--help` names.

Sockets are on the loopback, the system chooses their ports, and each process has 20 seconds.
"""
import errno
import os
import pty
import re
import shutil
import socket
import subprocess

import frame
from frame import reason, unanswered, unread

TOP = frame.TOP
SECONDS = 20

CONFIG = "[line]\nlink = 1\ncause = 1\nca = 1\nioa = 2\n[[station]]\naddress = 1\nca = 1\n"
TRACE = "10 S 100B010C16\n20 S E5\n30 O\n40 R 680407000000\n50 S 680909680801010103016400017416\n"
LINES = (
    "0 > S 1049014A16\n10 > S 1040014116\n20 > S 107B017C16\n40 > T 68040B000000\n"
    "50 > S 105B015C16\n50 > T 680E0000000001010300010064000001\n"
)
LEFT = "left 01010300010064000001\n"
COUNTS = "counts skipped 0 mirrors 0 lost 0 spoilt 0\n"
RECORD = (
    "0 W 1709210100000\n0 > S 1049014A16\n10 S 100B010C16\n10 > S 1040014116\n20 S E5\n20 > S 107B017C16\n"
    "30 O\n40 R 680407000000\n40 > T 68040B000000\n50 S 680909680801010103016400017416\n50 > S 105B015C16\n"
    "50 > T 680E0000000001010300010064000001\n"
)
STATION = "station 1 reports 0 given 0 accepted 0\n"
ALLOW = "error: --allow takes the address of a host, as 192.0.2.7\n"
NO_LINE = reason("line", "unix:nowhere", errno.ENOENT) + "device failed\n"
NO_PORT = reason("line", "tcp:192.0.2.7:4001", errno.EADDRNOTAVAIL) + "device failed\n"
FAR = "warning: live.line is on another machine: a network that holds requests back brings stale answers\n"
COMMANDS = ("show101", "show104", "check", "replay", "sim", "audit", "run", "status", "capture", "stations", "centre")
# The run over TRACE in words, put together by hand from the standard's tables and docs/TEXTS.md.
WORDS = (
    "0 gateway > outstation  link status to 1\n"
    "10 outstation > gateway  link status from 1\n"
    "10 gateway > outstation  reset link to 1\n"
    "20 outstation > gateway  ACK (E5)\n"
    "20 gateway > outstation  poll class 2 to 1 (FCB 1)\n"
    "30 control centre > gateway  connects\n"
    "40 control centre > gateway  STARTDT act\n"
    "40 gateway > control centre  STARTDT con\n"
    "50 outstation > gateway  user data from 1  M_SP_NA_1 spontaneous  CA 1  100 = on\n"
    "50 gateway > outstation  poll class 2 to 1 (FCB 0)\n"
    "50 gateway > control centre  I 0 0  M_SP_NA_1 spontaneous  CA 1  100 = on\n"
)
COLOURS = re.sub(
    r"^(\d+) (.*?)  ",
    lambda way: f"{way[1]} \x1b[{36 if 'outstation' in way[2] else 32}m{way[2]}\x1b[0m  ",
    WORDS,
    flags=re.M,
)
# A piece that ends no frame is told; a request that isn't answered is sent again; what comes behind an answer is late.
STRANGE = (
    "10 S 100B\n15 S 010C16\n20 S E5\n30 T\n400 T\n410 S 680909680801010103016400017416E5\n"
    "420 S 10490149\n430 W 5\n440 C\n"
)
STRANGE_WORDS = (
    "0 gateway > outstation  link status to 1\n"
    "10 outstation > gateway  octets of a frame (2)\n"
    "15 outstation > gateway  link status from 1\n"
    "15 gateway > outstation  reset link to 1\n"
    "20 outstation > gateway  ACK (E5)\n"
    "20 gateway > outstation  poll class 2 to 1 (FCB 1)\n"
    "400 gateway > outstation, repeat  poll class 2 to 1 (FCB 1)\n"
    "410 outstation > gateway  user data from 1  M_SP_NA_1 spontaneous  CA 1  100 = on\n"
    "410 outstation > gateway, late  ACK (E5)\n"
    "410 gateway > outstation  poll class 2 to 1 (FCB 0)\n"
    "420 outstation > gateway, spoilt  no frame: a wrong sum at 3\n"
    "430 gateway  the wall clock shows 5\n"
    "440 control centre > gateway  the connection is cut\n"
)

# What a connection is closed for, and a gap, which a reset of a link that was up tells of (by the texts of docs/TEXTS.md).
ENDS = (
    "5 O\n6 R 00\n7 O\n8 R 680407000000\n9 R 680E0200000064010600010000000014\n10 O\n11 R 680401000A00\n"
    "12 O\n13 R 680E0000000064010600010000000014\n14 O\n15 O\n"
)
ENDS_WORDS = (
    "0 gateway > outstation  link status to 1\n"
    "5 control centre > gateway  connects\n"
    "6 control centre > gateway  no frame: no start octet at 0\n"
    "6 gateway > control centre  closes: octets that begin no APDU\n"
    "7 control centre > gateway  connects\n"
    "8 control centre > gateway  STARTDT act\n"
    "8 gateway > control centre  STARTDT con\n"
    "9 control centre > gateway  I 1 0  C_IC_NA_1 activation  CA 1  0 = station\n"
    "9 gateway > control centre  closes: a wrong send number\n"
    "10 control centre > gateway  connects\n"
    "11 control centre > gateway  S 5\n"
    "11 gateway > control centre  closes: a wrong receive number\n"
    "12 control centre > gateway  connects\n"
    "13 control centre > gateway  I 0 0  C_IC_NA_1 activation  CA 1  0 = station\n"
    "13 gateway > control centre  closes: an I frame while stopped\n"
    "14 control centre > gateway  connects\n"
    "15 control centre > gateway  connects\n"
    "15 gateway > control centre  closes: a new connection\n"
)
GAP = "10 S 100B010C16\n20 S E5\n400 T\n410 S 100B010C16\n420 S E5\n"
GAP_COLOURS = (
    "0 \x1b[36mgateway > outstation\x1b[0m  link status to 1\n"
    "10 \x1b[36moutstation > gateway\x1b[0m  link status from 1\n"
    "10 \x1b[36mgateway > outstation\x1b[0m  reset link to 1\n"
    "20 \x1b[36moutstation > gateway\x1b[0m  ACK (E5)\n"
    "20 \x1b[36mgateway > outstation\x1b[0m  poll class 2 to 1 (FCB 1)\n"
    "400 \x1b[36mgateway > outstation\x1b[0m  link status to 1\n"
    "410 \x1b[36moutstation > gateway\x1b[0m  link status from 1\n"
    "410 \x1b[36mgateway > outstation\x1b[0m  reset link to 1\n"
    "420 \x1b[36moutstation > gateway\x1b[0m  ACK (E5)\n"
    "420 \x1b[33mgateway\x1b[0m  gap: station 1, session 1\n"
    "420 \x1b[36mgateway > outstation\x1b[0m  poll class 2 to 1 (FCB 1)\n"
)

# The record in words: its events in their order, and nothing before them.
RECORD_WORDS = "0 gateway  the wall clock shows 1709210100000\n" + WORDS

# The words, standard output, standard error, the exit status. None stands for any text.
ROWS = [
    ("show101 1112 E5", "single\n", "", 0),
    ("show101 1112 E5E5", "single\nrest 1\n", "", 1),
    ("show101 E5 1112", "", "bad sizes\n", 1),
    # Sizes are judged before octets, and octets may have either case, and be 1,024 at the most.
    ("show101 E5 E", "", "bad sizes\n", 1),
    ("show101 1112 E", "", "bad octets\n", 1),
    ("show101 1112 e5", "single\n", "", 0),
    ("show101 1112 " + "E5" * 1024, "single\nrest 1023\n", "", 1),
    ("show101 1112 " + "E5" * 1025, "", "bad octets\n", 1),
    ("show104 680443000000", "U TESTFR act\n", "", 0),
    ("show104 68", "truncated\n", "", 1),
    ("check good.toml", "ok\n", "", 0),
    ("check empty", "", "config: line.link\n", 1),
    ("check none.script", "", "config: not TOML\n", 1),
    ("check nowhere", "", unread("nowhere"), 3),
    ("check .", "", unread(".", errno.EISDIR), 3),
    ("check --live no-line.toml", "ok\n", "", 0),
    ("check --live good.toml", "", "config: live.line\n", 1),
    ("check --live no-listener.toml", "", "config: live.listen\n", 1),
    ("check no-listener.toml", "ok\n", "", 0),
    ("check --live far.toml", "ok\n", FAR, 0),
    ("check far.toml", "ok\n", "", 0),
    ("check --explain good.toml", "ok\n", "", 0),
    ("check --explain wrong.toml", "line 2, column 8: 3\nwanted: 1 to 2\n", "config: line.link\n", 1),
    ("check wrong.toml --live --explain", "line 2, column 8: 3\nwanted: 1 to 2\n", "config: line.link\n", 1),
    ("check --explain --live good.toml", "wanted: tcp:HOST:PORT or unix:PATH\n", "config: live.line\n", 1),
    ("check --explain nowhere", "", unread("nowhere"), 3),
    # With --site the file of a site is judged first (checks/site.py has all of its faults).
    ("check --site good.site good.toml", "ok\n", "", 0),
    ("check good.toml --site good.site", "ok\n", "", 0),
    ("check --site good.site wrong.toml", "", "config: line.link\n", 1),
    ("check --site good.site --live good.toml", "", "config: live.line\n", 1),
    ("check --site wrong.site wrong.toml", "", "site: status\n", 1),
    ("check --site list.site nowhere", "", "site: allow\n", 1),
    ("check --site stop.site nowhere", "", "site: state_or_stop\n", 1),
    ("check --site elsewhere nowhere", "", unread("elsewhere"), 3),
    ("check --site good.site nowhere", "", unread("nowhere"), 3),
    ("replay good.toml one.trace", LINES, "", 0),
    ("replay --left good.toml one.trace", LINES + LEFT, "", 0),
    ("replay good.toml --left one.trace", LINES + LEFT, "", 0),
    ("replay good.toml one.trace --left", LINES + LEFT, "", 0),
    ("replay --counts good.toml one.trace", LINES + COUNTS, "", 0),
    ("replay good.toml one.trace --counts", LINES + COUNTS, "", 0),
    ("replay --left good.toml --counts one.trace", LINES + LEFT + COUNTS, "", 0),
    ("replay --counts --left good.toml one.trace", LINES + LEFT + COUNTS, "", 0),
    ("replay good.toml --counts one.trace --left", LINES + LEFT + COUNTS, "", 0),
    ("replay --words good.toml one.trace", WORDS, "", 0),
    ("replay good.toml --left --words one.trace --counts", WORDS + LEFT + COUNTS, "", 0),
    ("replay --words --color good.toml one.trace", COLOURS, "", 0),
    ("replay --color good.toml one.trace", LINES, "", 0),
    ("replay --words good.toml strange.trace", STRANGE_WORDS, "", 0),
    ("replay --words good.toml ends.trace", ENDS_WORDS, "", 0),
    ("replay --words --color reset.toml gap.trace", GAP_COLOURS, "", 0),
    ("replay --words good.toml none.script", "", "trace: line 1\n", 1),
    # A record is told too: its actions are passed over, and so are lines that were cut short.
    ("replay --words good.toml whole.record", RECORD_WORDS, "", 0),
    ("replay --words --left --counts good.toml whole.record", RECORD_WORDS + LEFT + COUNTS, "", 0),
    ("replay --words good.toml cut.record", RECORD_WORDS, "", 0),
    ("replay --words good.toml marked.record", RECORD_WORDS, "", 0),
    ("replay --words good.toml other.record", RECORD_WORDS, "", 0),
    ("replay --words good.toml late.record", RECORD_WORDS.replace("0 ", "7 ", 2), "", 0),
    ("replay --words good.toml begun.record", RECORD_WORDS.split("50 ")[0], "", 0),
    ("replay --words good.toml wrong.record", "", "trace: line 6\n", 1),
    ("replay --words good.toml noted.trace", WORDS, "", 0),
    ("replay --words good.toml marked.trace", "", "trace: line 6\n", 1),
    # Without --words a line of an action is a wrong line.
    ("replay good.toml whole.record", "", "trace: line 2\n", 1),
    ("replay --left good.toml whole.record", "", "trace: line 2\n", 1),
    ("replay --words empty one.trace", "", "config: line.link\n", 1),
    ("replay --words good.toml elsewhere", "", unread("elsewhere"), 3),
    ("sim --words good.toml none.script", STATION, "", 0),
    ("sim --words good.toml one.trace", "", "script: line 1\n", 1),
    ("status 127.0.0.1:1", "", unanswered("status", "127.0.0.1:1"), 3),
    ("status --json 127.0.0.1:1", "", unanswered("status", "127.0.0.1:1"), 3),
    ("status nowhere", "", "error: status nowhere: invalid socket address\nno reply from nowhere\n", 3),
    ("replay one.trace good.toml", "", "config: not TOML\n", 1),
    ("replay good.toml none.script", "", "trace: line 1\n", 1),
    ("replay empty one.trace", "", "config: line.link\n", 1),
    # Files are read, and a trace is opened, in the order of the words, before anything is judged.
    ("replay empty nowhere", "", unread("nowhere"), 3),
    ("sim empty nowhere", "", unread("nowhere"), 3),
    ("audit empty nowhere", "", unread("nowhere"), 3),
    ("capture empty nowhere", "", unread("nowhere"), 3),
    ("stations empty nowhere", "", unread("nowhere"), 3),
    ("sim nowhere elsewhere", "", unread("nowhere"), 3),
    ("audit nowhere elsewhere", "", unread("nowhere"), 3),
    ("replay nowhere elsewhere", "", unread("nowhere"), 3),
    ("replay good.toml elsewhere", "", unread("elsewhere"), 3),
    ("sim good.toml none.script", STATION, "", 0),
    ("sim none.script good.toml", "", "config: not TOML\n", 1),
    ("sim good.toml one.trace", "", "script: line 1\n", 1),
    ("sim good.toml nowhere", "", unread("nowhere"), 3),
    ("run empty", "", "config: line.link\n", 1),
    ("audit good.toml whole.record", "same, 6 events, 6 actions\n", "", 0),
    ("audit good.toml cut.record", "same, 6 events, 5 actions\n", "", 0),
    ("audit good.toml other.record", "line 2 differs\n", "", 1),
    ("audit good.toml none.script", "", "record: line 1\n", 1),
    ("audit empty whole.record", "", "config: line.link\n", 1),
    ("audit good.toml nowhere", "", unread("nowhere"), 3),
    ("capture good.toml whole.record", None, "", 0),
    ("capture good.toml cut.record", None, "", 0),
    ("capture good.toml none.script", None, "record: line 1\n", 1),
    ("capture empty whole.record", "", "config: line.link\n", 1),
    ("capture good.toml nowhere", "", unread("nowhere"), 3),
    ("capture nowhere elsewhere", "", unread("nowhere"), 3),
    ("stations good.toml none.script", "", "config: live.line\n", 1),
    ("stations no-line.toml one.trace", "", "script: line 1\n", 1),
    ("stations far.toml none.script", "", NO_PORT, 3),
    ("stations no-line.toml nowhere", "", unread("nowhere"), 3),
    ("stations nowhere elsewhere", "", unread("nowhere"), 3),
    ("run good.toml", "", "config: live.line\n", 1),
    ("run no-listener.toml", "", "config: live.listen\n", 1),
    # Each flag of a live run, in front of its file and behind it.
    ("run --redial good.toml", "", "config: live.line\n", 1),
    ("run good.toml --redial", "", "config: live.line\n", 1),
    ("run --log good.toml", "", "config: live.line\n", 1),
    ("run --allow 192.0.2.7 good.toml", "", "config: live.line\n", 1),
    ("run --allow 192.0.2.7 good.toml --allow ::1", "", "config: live.line\n", 1),
    ("run --allow 192.0.2.7 --allow 192.0.2.256 nowhere", "", ALLOW, 2),
    ("run --record good.toml", "", "config: live.line\n", 1),
    ("run --record no-line.toml", "", NO_LINE, 3),
    ("run --state kept good.toml", "", "config: live.line\n", 1),
    ("run nowhere --state kept", "", unread("nowhere"), 3),
    ("run --state kept no-line.toml", "", NO_LINE, 3),
    ("run --state empty no-line.toml", "", "error: state empty: not a directory\nstate: can't be kept there: not a directory\n", 3),
    ("run --state-or-stop nowhere", "", "error: --state-or-stop needs --state with a directory\n", 2),
    ("run --state-or-stop good.toml --state kept", "", "config: live.line\n", 1),
    # The file of a site is read and judged before the settings are read; what words say wins.
    ("run --site good.site good.toml", "", "config: live.line\n", 1),
    ("run good.toml --site good.site", "", "config: live.line\n", 1),
    ("run --site elsewhere nowhere", "", unread("elsewhere"), 3),
    ("run --site good.site nowhere", "", unread("nowhere"), 3),
    ("run --site none.script nowhere", "", "site: not TOML\n", 1),
    ("run --site wrong.site nowhere", "", "site: status\n", 1),
    ("run --site unknown.site nowhere", "", "site: unknown line.colour\n", 1),
    ("run --site list.site nowhere", "", "site: allow\n", 1),
    ("run --site list.site --allow 192.0.2.7 nowhere", "", unread("nowhere"), 3),
    ("run --site list.site --allow 192.0.2.256 nowhere", "", ALLOW, 2),
    ("run --site stop.site nowhere", "", "site: state_or_stop\n", 1),
    ("run --site stop.site --state kept nowhere", "", unread("nowhere"), 3),
    ("run --site stop.site --state-or-stop nowhere", "", "error: --state-or-stop needs --state with a directory\n", 2),
    ("run --site good.site --state-or-stop nowhere", "", unread("nowhere"), 3),
    ("run --log --log-severity good.toml", "", "config: live.line\n", 1),
    ("run nowhere", "", unread("nowhere"), 3),
    ("run no-line.toml", "", NO_LINE, 3),
    ("run good.toml --allow", "", None, 2),
    ("run good.toml --state", "", None, 2),
    ("run good.toml --site", "", None, 2),
    ("check good.toml --site", "", None, 2),
    ("--help", None, "", 0),
    ("-h", None, "", 0),
    ("help", None, "", 0),
    ("help replay", None, "", 0),
    ("run -h", None, "", 0),
    ("--version", None, "", 0),
] + [(f"{command} --help", None, "", 0) for command in COMMANDS]

# Words that are wrong: how to call the program is told.
WRONG = [
    "",
    "bogus",
    "--bogus",
    "show101",
    "show101 1112",
    "show101 1112 E5 E5",
    "show104",
    "check",
    "check good.toml good.toml",
    "check --live --live good.toml",
    "check --left good.toml",
    "check --site good.site --site good.site good.toml",
    "replay good.toml",
    "replay --left --left good.toml one.trace",
    "sim good.toml",
    "capture good.toml",
    "stations good.toml",
    "run",
    "run --record --record good.toml",
    "run --state kept --state kept good.toml",
    "run --site good.site --site good.site good.toml",
    "run --log-severity --log-severity good.toml",
]

# Questions, and the constant of crates/telegate/src/help.rt that their answers end with.
QUESTIONS = {
    "--help": "PROGRAM",
    "-h": "PROGRAM",
    "help": "PROGRAM",
    "check --help": "CHECK",
    "replay --help": "REPLAY",
    "help replay": "REPLAY",
    "sim --help": "SIM",
    "audit --help": "AUDIT",
    "run -h": "RUN",
    "status --help": "STATUS",
    "capture --help": "CAPTURE",
    "stations --help": "STATIONS",
    "--version": "VERSION",
}

FILES = {
    "good.toml": CONFIG,
    "empty": "",
    "-": CONFIG,
    "one.trace": TRACE,
    "strange.trace": STRANGE,
    "ends.trace": ENDS,
    "gap.trace": GAP,
    "reset.toml": CONFIG.replace("[[station]]", 'retries = 0\nsilence = "reset"\n[[station]]'),
    "none.script": "turns 0\n",
    "one.script": "turns 1\n",
    "wrong.toml": CONFIG.replace("link = 1", "link = 3"),
    "far.toml": CONFIG + '[live]\nline = "tcp:192.0.2.7:4001"\nlisten = "127.0.0.1:2404"\n',
    "no-listener.toml": CONFIG + '[live]\nline = "unix:nowhere"\n',
    "good.site": 'allow = ["192.0.2.7", "::1"]\nstate = "kept"\nlog = true\n[line]\nname = "North ring"\n',
    "wrong.site": 'status = "nowhere"\ncolour = 1\n',
    "unknown.site": '[line]\ncolour = 1\n',
    "list.site": 'allow = ["192.0.2.7", "192.0.2.256"]\n',
    "stop.site": "state_or_stop = true\n",
    "whole.record": RECORD,
    "cut.record": RECORD[:-1],
    "other.record": RECORD.replace("0 > S 1049014A16", "1 > S 1049014A16"),
    "marked.record": RECORD.replace("20 S E5\n", "20 S E!\n20 S E5\n# 20 S\n\n"),
    # The run begins at 7 ms: no tick at moment 0 asks the line before that.
    "late.record": RECORD.replace("0 W", "7 W").replace("0 > S 1049", "7 > S 1049"),
    # The last event was cut short.
    "begun.record": RECORD[: RECORD.index("50 S") + 20],
    "wrong.record": RECORD.replace("20 S E5\n", "20 S E5\n20 s E5\n").replace("20 S E5\n20 s", "20 S E!\n20 s"),
    # A comment tells no action.
    "noted.trace": "# > S 1049014A16\n" + TRACE,
    "marked.trace": TRACE + "60 S E!\n",
    "no-line.toml": CONFIG + '[live]\nline = "unix:nowhere"\nlisten = "127.0.0.1:2404"\n',
}


def ran(command, folder, **how):
    how = {"stdout": subprocess.PIPE, "stderr": subprocess.PIPE, **how}
    return subprocess.run(
        command, cwd=folder, stdin=subprocess.DEVNULL, timeout=SECONDS, **how
    )


def text(octets):
    return (octets or b"").decode(errors="replace")


def words_and_files(count, program, folder):
    for words, out, err, status in ROWS:
        done = ran([program, *words.split()], folder)
        is_right = done.returncode == status
        is_right &= out is None or text(done.stdout) == out
        is_right &= err is None or frame.bare(text(done.stderr)) == err
        is_right &= out is not None or done.stdout != b""
        is_right &= err is not None or done.stderr != b""
        count.judge(words or "no words", is_right, done)
    for words in WRONG:
        done = ran([program, *words.split()], folder)
        is_right = (done.returncode, done.stdout) == (2, b"") and "Usage: telegate" in text(done.stderr)
        count.judge(words or "no words", is_right, done)
    done = ran([program, *"run good.toml --allow".split()], folder)
    is_right = text(done.stderr).startswith("error: a value is required for '--allow")
    count.judge("an address is missing", is_right, done)
    with open(os.path.join(TOP, "crates/telegate/src/help.rt")) as file:
        source = file.read()
    for words, name in QUESTIONS.items():
        end = re.search(rf'{name}: &str = "((?:[^"\\]|\\.|\\\n)*)"', source)[1]
        end = re.sub(r"\\\n\s*", "", end).replace('\\"', '"') + "\n"
        done = ran([program, *words.split()], folder)
        count.judge(f"{words} ends with its text", text(done.stdout).endswith(end), done)
    done = ran([program, "check", b"\xff\xfe"], folder)
    count.judge("words that are no text", done.returncode == 2 and done.stdout == b"", done)


def pipes(count, program, folder):
    """Frames that come on standard input, and a run over a trace that does."""
    rows = (
        ("show101 1112 -", "1040014116 E5\n\nzz\n10 7B 01 7C 16\r\n",
         "fixed c=40 prm=1 fcb=0 fcv=0 function=0 address=1\nsingle\nfixed c=7B prm=1 fcb=1 fcv=1 function=11 address=1\n",
         "octets: line 3\n", 1),
        ("show101 --words 1112 -", "1040014116 E5\n10 7b 01 7c 16", "reset link to 1\nACK (E5)\npoll class 2 to 1 (FCB 1)\n", "", 0),
        ("show101 --words 1112 -", "E5 10490149\nE\nE5\n", "ACK (E5)\nno frame: a wrong sum at 3\nACK (E5)\n", "octets: line 2\n", 1),
        ("show101 111 -", "E5\n", "", "bad sizes\n", 1),
        ("show104 -", "680443000000 680401000200\n", "U TESTFR act\nS nr=1\n", "", 0),
        ("show104 --words -", "68044300\n680443000000\n", "octets of a frame (4)\nTESTFR act\n", "", 1),
        ("show104 -", "", "", "", 0),
        ("replay --words good.toml -", TRACE, WORDS, "", 0),
        ("replay --words good.toml -", RECORD, RECORD_WORDS, "", 0),
        ("replay good.toml -", RECORD, "", "trace: line 2\n", 1),
        # `-` is standard input wherever a file is named, and `./-` a file of that name.
        ("check -", CONFIG, "ok\n", "", 0),
        ("check -", "", "", "config: line.link\n", 1),
        ("check ./-", "", "ok\n", "", 0),
        ("replay - one.trace", CONFIG, LINES, "", 0),
        ("sim good.toml -", "turns 0\n", STATION, "", 0),
        ("audit good.toml -", RECORD, "same, 6 events, 6 actions\n", "", 0),
    )
    for words, given, out, err, status in rows:
        done = subprocess.run([program, *words.split()], cwd=folder, input=given.encode(), capture_output=True, timeout=SECONDS)
        is_right = (text(done.stdout), frame.bare(text(done.stderr)), done.returncode) == (out, err, status)
        count.judge(f"{words}, piped", is_right, done)
    captured = [
        subprocess.run([program, "capture", "good.toml", name], cwd=folder, input=RECORD.encode(), capture_output=True, timeout=SECONDS)
        for name in ("-", "whole.record")
    ]
    count.judge("capture good.toml -, piped", captured[0].stdout == captured[1].stdout != b"", captured)
    # A line is told as soon as it has come.
    with subprocess.Popen([program, "show104", "--words", "-"], cwd=folder, stdin=subprocess.PIPE, stdout=subprocess.PIPE) as run:
        run.stdin.write(b"680443000000\n")
        run.stdin.flush()
        count.judge("a line of a pipe is told at once", run.stdout.readline() == b"TESTFR act\n")
        run.stdin.close()
    # Lines are counted on from one piece of a pipe to the next, and a fault is kept to the end.
    with subprocess.Popen([program, "show104", "-"], cwd=folder, **{end: subprocess.PIPE for end in ("stdin", "stdout", "stderr")}) as run:
        for piece, told in ((b"680443000000\nzz\n", b"U TESTFR act\n"), (b"680401000200\n", b"S nr=1\n")):
            run.stdin.write(piece)
            run.stdin.flush()
            count.judge(f"{piece} of a pipe", run.stdout.readline() == told)
        out, err = run.communicate(b"zz\n\nzz\n", timeout=SECONDS)
        is_right = (out, text(err), run.returncode) == (b"", "".join(f"octets: line {line}\n" for line in (2, 4, 6)), 1)
        count.judge("lines of several pieces of a pipe", is_right, (out, err, run.returncode))


def statuses(count, program, folder):
    """What a listener answers is printed, and its judgement is the exit status."""
    head = b"HTTP/1.1 200 OK\r\nContent-Type: text/plain\r\nConnection: close\r\n\r\n"
    long = "".join(f"station {number}\n" for number in range(20_000))
    rows = (
        ("", {b"/status.txt": head + b"OK: 1 of 1\nx\n"}, "OK: 1 of 1\nx\n", "", 0),
        ("", {b"/status.txt": head + b"WARNING: a\n"}, "WARNING: a\n", "", 1),
        ("", {b"/status.txt": head + b"CRITICAL: a\n"}, "CRITICAL: a\n", "", 2),
        ("", {b"/status.txt": head + b"else\n"}, "else\n", "", 3),
        # However long a page is, all of it is printed.
        ("", {b"/status.txt": head + b"WARNING: a\n" + long.encode()}, "WARNING: a\n" + long, "", 1),
        ("--json ", {b"/status.txt": head + b"OK: a\n" + long.encode(), b"/status.json": head + long.encode()}, long, "", 0),
        ("--json ", {b"/status.txt": head + b"WARNING: a\n", b"/status.json": head + b"{}\n"}, "{}\n", "", 1),
        ("", {b"/status.txt": b"HTTP/1.1 404 Not Found\r\n\r\n"}, "", None, 3),
        ("--json ", {b"/status.txt": b"HTTP/1.1 404 Not Found\r\n\r\n"}, "", None, 3),
        ("--json ", {b"/status.txt": head + b"OK: a\n", b"/status.json": b"HTTP/1.1 404 Not Found\r\n\r\n"}, "", None, 3),
        ("", {b"/status.txt": b"SSH-2.0-x\r\n"}, "", None, 3),
        ("", {b"/status.txt": b""}, "", None, 3),
    )
    for flag, answers, out, err, status in rows:
        with socket.create_server(("127.0.0.1", 0)) as listener:
            place = f"127.0.0.1:{listener.getsockname()[1]}"
            run = subprocess.Popen([program, *f"status {flag}{place}".split()], stdout=subprocess.PIPE, stderr=subprocess.PIPE)
            listener.settimeout(SECONDS)
            for _ in answers:
                visitor, _ = listener.accept()
                with visitor:
                    asked = visitor.recv(4096).split(b" ")[1]
                    visitor.sendall(answers.get(asked, b""))
            told, fault = run.communicate(timeout=SECONDS)
            err = f"no reply from {place}\n" if err is None else err
            is_right = (text(told), text(fault), run.returncode) == (out, err, status)
            count.judge(f"status {flag}at a listener with {str(answers)[:300]}", is_right, (told[:300], fault, run.returncode))
    # A page that can't be printed is no judgement, however good it is.
    with socket.create_server(("127.0.0.1", 0)) as listener, open("/dev/full", "wb") as full:
        place = f"127.0.0.1:{listener.getsockname()[1]}"
        run = subprocess.Popen([program, "status", place], stdout=full, stderr=subprocess.PIPE)
        listener.settimeout(SECONDS)
        visitor, _ = listener.accept()
        with visitor:
            visitor.recv(4096)
            visitor.sendall(head + b"OK: a\n")
        _, fault = run.communicate(timeout=SECONDS)
        count.judge("status to a full device", (text(fault), run.returncode) == ("device failed\n", 3), (fault, run.returncode))


def failing_outputs(count, program, folder):
    for words in ("check good.toml", "replay good.toml one.trace", "replay --words good.toml one.trace", "--help", "--version"):
        with open("/dev/full", "wb") as full:
            done = ran([program, *words.split()], folder, stdout=full)
        is_right = done.returncode == 3 and text(done.stderr) == "device failed\n"
        count.judge(f"{words} to a full device", is_right, done)
    # A fault that can't be told keeps its status.
    for words, status in (("check empty", 1), ("check nowhere", 3)):
        with open("/dev/full", "wb") as full:
            done = ran([program, *words.split()], folder, stderr=full)
        count.judge(f"{words} with no standard error", done.returncode == status, done)


def looked_at(program, words, folder, **more):
    """What a terminal for standard error got, and the rest."""
    ours, theirs = pty.openpty()
    try:
        ends = {end: theirs for end in more.pop("ends", ())}
        done = ran([program, *words.split()], folder, stderr=theirs, **ends, **more)
    finally:
        os.close(theirs)
    told = b""
    try:
        while octets := os.read(ours, 4096):
            told += octets
    except OSError:
        # The end of a terminal that nobody holds open any more.
        pass
    os.close(ours)
    return told, done


def colours(count, program, folder):
    """A run in words has colours on a terminal, unless NO_COLOR is set to some text. --color asks
    for them in any case."""
    for flag, variable, is_terminal, told in (
        ("", None, True, COLOURS),
        ("", "", True, COLOURS),
        ("", "1", True, WORDS),
        ("", "0", True, WORDS),
        ("", "\udcff", True, WORDS),
        ("--color ", None, True, COLOURS),
        ("--color ", "1", True, COLOURS),
        ("", None, False, WORDS),
        ("", "", False, WORDS),
        ("", "1", False, WORDS),
        ("--color ", None, False, COLOURS),
        ("--color ", "1", False, COLOURS),
    ):
        given = {name: value for name, value in os.environ.items() if name != "NO_COLOR"}
        if variable is not None:
            given["NO_COLOR"] = variable
        words = f"replay --words {flag}good.toml one.trace"
        if is_terminal:
            seen, done = looked_at(program, words, folder, ends=["stdout"], env=given)
        else:
            done = ran([program, *words.split()], folder, env=given)
            seen = done.stdout
        is_right = (text(seen).replace("\r\n", "\n"), done.returncode) == (told, 0)
        end = "terminal" if is_terminal else "pipe"
        count.judge(f"{words}, NO_COLOR {variable!r}, to a {end}", is_right, (seen, done))
    # Without words, and where a frame is told, there are none.
    for words in ("replay good.toml one.trace", "show101 --words 1112 E5"):
        seen, done = looked_at(program, words, folder, ends=["stdout"])
        count.judge(f"{words} to a terminal", b"\x1b" not in seen and done.returncode == 0, (seen, done))
    # A simulated run has them too.
    seen, done = looked_at(program, "sim --words good.toml one.script", folder, ends=["stdout"])
    wanted = [b"1 \x1b[32mcontrol centre > gateway\x1b[0m  connects", b"1 \x1b[36mgateway > outstation\x1b[0m  link status to 1"]
    count.judge("sim --words to a terminal", seen.splitlines()[:2] == wanted, (seen, done))


def looks(count, program, folder):
    """A long run shows a terminal how far it has come, after each 2^25 octets of its trace or 2^19
    calls of its script, and leaves a blank line. Otherwise it shows nothing, also if standard
    output is a terminal too."""
    part = 1 << 25
    comment = "#" + "-" * 1022 + "\n"
    for size, told in (
        (1, b""),
        (part - 4096, b""),
        (part + part // 100, b"\r99 %\r     \r"),
        (2 * part + part // 2, b"\r39 %\r79 %\r     \r"),
    ):
        with open(os.path.join(folder, "long.trace"), "w") as file:
            file.write(comment * (size // 1024))
            file.write("0 T\n")
        seen, done = looked_at(program, "replay good.toml long.trace", folder)
        is_right = (done.returncode, text(done.stdout)) == (0, "0 > S 1049014A16\n") and seen == told
        count.judge(f"{size} octets looked at", is_right, (seen, done))
        done = ran([program, *"replay good.toml long.trace".split()], folder)
        is_right = (done.returncode, text(done.stdout), done.stderr) == (0, "0 > S 1049014A16\n", b"")
        count.judge(f"{size} octets, nobody looks", is_right, done)
        seen, done = looked_at(program, "replay good.toml long.trace", folder, ends=["stdout"])
        is_right = (seen, done.returncode) == (b"0 > S 1049014A16\r\n", 0)
        count.judge(f"{size} octets to a terminal", is_right, (seen, done))
    # A simulated run tells the same of its calls.
    part = 1 << 19
    with open(os.path.join(folder, "long.script"), "w") as file:
        file.write(f"turns {part + 9}\n")
    seen, done = looked_at(program, "sim good.toml long.script", folder)
    is_right = (done.returncode, seen) == (0, b"\r99 %\r     \r") and text(done.stdout).startswith("1 > S 1049014A16\n")
    count.judge(f"{part + 9} calls looked at", is_right, (done.returncode, seen))
    done = ran([program, *"sim good.toml long.script".split()], folder)
    count.judge(f"{part + 9} calls, nobody looks", (done.returncode, done.stderr) == (0, b""), (done.returncode, done.stderr))
    for words, told, status in (("replay good.toml none.script", b"trace: line 1\r\n", 1), ("check good.toml", b"", 0)):
        seen, done = looked_at(program, words, folder)
        count.judge(f"{words} looked at", (frame.bare(text(seen)), done.returncode) == (text(told), status), (seen, done))


def free_place():
    """A port that was free a moment ago: settings name no port 0."""
    with socket.create_server(("127.0.0.1", 0)) as listener:
        return "127.0.0.1:%d" % listener.getsockname()[1]


def live_runs(count, program, folder):
    """The gateway asks the line for its status. When the line ends, the run ends with 3."""
    with socket.create_server(("127.0.0.1", 0)) as line:
        line.settimeout(SECONDS)
        place = "127.0.0.1:%d" % line.getsockname()[1]
        with open(os.path.join(folder, "live.toml"), "w") as file:
            file.write(f'{CONFIG}[live]\nline = "tcp:{place}"\nlisten = "{free_place()}"\n')
        run = subprocess.Popen(
            [program, "run", "live.toml"],
            cwd=folder,
            stdin=subprocess.DEVNULL,
            stdout=subprocess.PIPE,
            stderr=subprocess.PIPE,
        )
        heard = b""
        try:
            stream, _ = line.accept()
            with stream:
                stream.settimeout(SECONDS)
                while len(heard) < 5:
                    octets = stream.recv(64)
                    if not octets:
                        break
                    heard += octets
            out, err = run.communicate(timeout=SECONDS)
        except (OSError, subprocess.TimeoutExpired) as fault:
            run.kill()
            out, err = run.communicate()
            count.judge("a live run", False, fault)
            return
    request = bytes.fromhex("1049014A16")
    count.judge("a live run asks its line", heard[:5] == request, heard)
    is_right = run.returncode == 3 and out == b"" and err == b"device failed\n"
    count.judge("a live run ends with its line", is_right, (run.returncode, out, err))
    # The line can't be reached, though the listener could be had; and the listener is another's.
    with open(os.path.join(folder, "far.toml"), "w") as file:
        file.write(f'{CONFIG}[live]\nline = "unix:nowhere"\nlisten = "{free_place()}"\n')
    done = ran([program, "run", "far.toml"], folder)
    is_right = done.returncode == 3 and text(done.stderr) == NO_LINE
    count.judge("a live run without its line", is_right, done)
    with socket.create_server(("127.0.0.1", 0)) as line:
        place = "127.0.0.1:%d" % line.getsockname()[1]
        with open(os.path.join(folder, "taken.toml"), "w") as file:
            file.write(f'{CONFIG}[live]\nline = "tcp:{place}"\nlisten = "{place}"\n')
        done = ran([program, "run", "taken.toml"], folder)
    taken = f"error: listener {place}: Address already in use (os error 98)\ndevice failed\n"
    is_right = done.returncode == 3 and text(done.stderr) == taken
    count.judge("a live run that can't listen", is_right, done)


def redialled_runs(count, program, folder):
    """With --redial the line is reached again when it ends, and asked for its status each time."""
    with socket.create_server(("127.0.0.1", 0)) as line:
        line.settimeout(SECONDS)
        place = "127.0.0.1:%d" % line.getsockname()[1]
        with open(os.path.join(folder, "redial.toml"), "w") as file:
            file.write(f'{CONFIG}[live]\nline = "tcp:{place}"\nlisten = "{free_place()}"\n')
        run = subprocess.Popen(
            [program, "run", "--redial", "redial.toml"],
            cwd=folder,
            stdin=subprocess.DEVNULL,
            stdout=subprocess.PIPE,
            stderr=subprocess.PIPE,
        )
        try:
            for turn in ("first", "second", "third"):
                stream, _ = line.accept()
                with stream:
                    stream.settimeout(SECONDS)
                    heard = b""
                    while len(heard) < 5:
                        octets = stream.recv(64)
                        if not octets:
                            break
                        heard += octets
                is_right = heard[:5] == bytes.fromhex("1049014A16")
                count.judge(f"a redialled line is asked, {turn} time", is_right, heard)
            count.judge("a redialled run lives", run.poll() is None, run.poll())
        except OSError as fault:
            count.judge("a redialled run", False, fault)
        finally:
            run.kill()
            run.communicate()


def versions(count, program, folder):
    done = ran([program, "--version"], folder)
    told = text(done.stdout)
    count.judge("the version", re.fullmatch(r"telegate [0-9.]+ \(.+\)\n", told), told)
    kit = shutil.which("rt")
    if kit:
        # Kits of other names have the same logic, and that is what a proof is checked with.
        said = text(ran([kit, "version"], folder).stdout).split()
        count.judge("the version names the logic", said[1:2] == ["logic"] and " ".join(said[1:3]) in told, (said, told))


def helps(count, program, folder):
    """The man page and the completions name the commands and flags that `--help` names."""
    flags = {}
    for command in COMMANDS:
        told = text(ran([program, command, "--help"], folder).stdout)
        flags[command] = sorted(set(re.findall(r"^ +(?:-\w, )?(--[a-z0-9-]+)", told, re.M)))
        count.judge(f"{command} --help", "Exit status:" in told or command in ("show101", "show104"), told)
    told = text(ran([program, "--help"], folder).stdout)
    for command in COMMANDS:
        count.judge(f"help names {command}", re.search(rf"^  {command} ", told, re.M), told)
    for name in ("telegate.1", "telegate.bash", "telegate.zsh", "telegate.fish"):
        place = os.path.join(TOP, "packaging", name)
        with open(place) as file:
            said = file.read().replace("\\-", "-")
        for command in COMMANDS:
            count.judge(f"{name} names {command}", re.search(rf"\b{command}\b", said), "it doesn't")
            for flag in flags[command]:
                bare = flag if not name.endswith("fish") else flag[2:]
                count.judge(f"{name} names {flag} of {command}", bare in said, "it doesn't")
    if shutil.which("bash"):
        done = ran(["bash", "-n", os.path.join(TOP, "packaging/telegate.bash")], folder)
        count.judge("the completion for bash reads", done.returncode == 0, done)
        for words, want in (("telegate re", "replay"), ("telegate replay --l", "--left"), ("telegate sh", "show101")):
            asked = words.split()
            script = (
                f". {TOP}/packaging/telegate.bash; COMP_WORDS=({' '.join(asked)}); "
                f"COMP_CWORD={len(asked) - 1}; _telegate; echo ${{COMPREPLY[@]}}"
            )
            done = ran(["bash", "-c", script], folder)
            count.judge(f"completion of {words}", want in text(done.stdout).split(), done)


RUN_NEEDS = "telegate: run needs the proved program: ./build makes it (run --unproved tries the unproved one)\n"
UNPROVED_RUNS = "telegate: an unproved program runs; ./build makes the proved one\n"


def copied(count, program, folder):
    """The script ./telegate in a folder of its own, which has no source and no program."""
    copy = os.path.join(folder, "copy")
    for name in ("crates/telegate/out", ".unproved", "tools"):
        os.makedirs(os.path.join(copy, name))
    for name in ("telegate", "crates.txt", "tools/origin"):
        shutil.copy(os.path.join(TOP, name), os.path.join(copy, name))
    return copy


def put(program, copy, name, told):
    """The program, as a script of the copy finds it, with a record beside it that tells this."""
    place = os.path.join(copy, name)
    shutil.copy2(program, place)
    os.utime(place)
    frame.note_origin(place, told)
    return place


def scripts(count, program, folder):
    """./telegate runs the built program, also through a link, and `run` never another."""
    copy = copied(count, program, folder)
    os.symlink("copy/telegate", os.path.join(folder, "link"))
    os.symlink(os.path.join(folder, "link"), os.path.join(folder, "second"))
    called = [os.path.join(folder, script) for script in ("copy/telegate", "link", "second")]
    for script in called:
        done = ran([script, "run", "good.toml"], folder)
        is_right = (done.returncode, text(done.stdout), text(done.stderr)) == (2, "", RUN_NEEDS)
        count.judge(f"{script} run, nothing built", is_right, done)
    place = put(program, copy, "crates/telegate/out/telegate", "proved by a-kit, commit 0123abc")
    for script in called:
        done = ran([script, "check", "good.toml"], folder)
        is_right = (done.returncode, text(done.stdout), text(done.stderr)) == (0, "ok\n", "")
        count.judge(f"{script} check", is_right, done)
    # A newer source makes the proved gateway no unproved one.
    os.makedirs(os.path.join(copy, "crates/telegate/src"))
    newer = os.path.join(copy, "crates/telegate/src/main.rt")
    with open(newer, "w") as file:
        file.write("")
    late = os.stat(place).st_mtime + 60
    os.utime(newer, (late, late))
    done = ran([called[0], "run", "no-line.toml"], folder)
    told = text(done.stderr)
    is_right = done.returncode == 3 and told.endswith("device failed\n") and "newer" in told
    count.judge("run with a newer source", is_right, done)
    done = ran([called[0], "--version"], folder)
    count.judge("the version of the proved program", text(done.stdout).endswith("\nproved, commit 0123abc\n"), done)
    put(program, copy, "crates/telegate/out/telegate", "proved by a-kit, commit 0123abc with changes")
    done = ran([called[0], "--version"], folder)
    count.judge("the same, with changes", text(done.stdout).endswith("\nproved, commit 0123abc with changes\n"), done)
    # What was compiled since is of no commit that is known.
    with open(place, "ab") as file:
        file.write(b"\0")
    done = ran([called[0], "--version"], folder)
    count.judge("the record of another program", text(done.stdout).endswith("\nproved\n"), done)


def unproved_scripts(count, program, folder):
    """If nothing is built, ./telegate runs the unproved program that it keeps; `run` does so only
    with the word for it."""
    copy = copied(count, program, folder)
    script = os.path.join(copy, "telegate")
    put(program, copy, ".unproved/telegate", "unproved, commit 0123abc")
    shutil.copy(os.path.join(folder, "good.toml"), os.path.join(folder, "good  one.toml"))
    rows = [
        ("check good.toml", "ok\n", "", 0),
        ("check nowhere", "", unread("nowhere"), 3),
        ("run good.toml", "", RUN_NEEDS, 2),
        ("run good.toml --unproved", "", RUN_NEEDS, 2),
        ("run --unproved good.toml", "", UNPROVED_RUNS + "config: live.line\n", 1),
        ("--unproved run good.toml", "", UNPROVED_RUNS + "config: live.line\n", 1),
        ("run --unproved --log no-line.toml", None, UNPROVED_RUNS, 3),
    ]
    for words, output, fault, status in rows:
        done = ran([script, *words.split()], folder)
        is_right = done.returncode == status and output in (None, text(done.stdout))
        is_right &= frame.bare(text(done.stderr)) == fault or (output is None and text(done.stderr).startswith(fault))
        count.judge(f"unproved: {words}", is_right, done)
    done = ran([script, "check", "good  one.toml"], folder)
    count.judge("unproved: a word with blanks", (done.returncode, done.stdout, done.stderr) == (0, b"ok\n", b""), done)
    piped = {"input": b"680443000000\n", "capture_output": True, "timeout": SECONDS}
    done = subprocess.run([script, "show104", "-"], **piped)
    count.judge("unproved: standard input", done.stdout == b"U TESTFR act\n", done)
    done = ran([script, "--unproved", "check", "good.toml"], folder)
    count.judge("unproved: the word is for run", done.returncode == 2 and b"--unproved" in done.stderr, done)
    done = ran([script, "--version"], folder)
    count.judge("the version of the unproved program", text(done.stdout).endswith("\nunproved, commit 0123abc\n"), done)


def with_files(part):
    """The part, in a folder that has the files."""

    def judged(count, program, folder):
        for name, held in FILES.items():
            with open(os.path.join(folder, name), "w") as file:
                file.write(held)
        part(count, program, folder)

    return part.__name__.replace("_", " "), judged


if __name__ == "__main__":
    parts = (words_and_files, pipes, statuses, failing_outputs, colours, looks, live_runs, redialled_runs, versions, helps, scripts, unproved_scripts)
    frame.main(*map(with_files, parts))
