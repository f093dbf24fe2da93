#!/usr/bin/env python3
"""Runs `telegate` over settings, scripts and traces, good and wrong, and judges which fault it
reports.

    checks/faults.py [--program FILE] [--only NAME]

In settings it has to report the first wrong key, by the order of docs/SETTINGS.md. In a script or a
trace it has to report the first wrong line, by its number. Before that it says where each wrong key,
or that line, is wrong, and why. `check` warns of what is odd in good settings and in a site's file.

A file, a port, a line or a gateway that a command can't have is told in the system's words, before
the fault's own line: what isn't there, what another process has, a name that nobody knows, and what
the rights forbid. Output that can't be written is `device failed`, if a pipe was closed too.
"""
import errno
import os
import re
import shutil
import socket
import subprocess

import ends
import frame


LINE = "[line]\nlink = 1\ncause = 1\nca = 1\nioa = 2\n"
# One station, and two.
CONFIG = LINE + "queue = 100\n[[station]]\naddress = 1\nca = 1\n"
TWO = CONFIG + "[[station]]\naddress = 2\nca = 2\n"

# A change of those settings, and what `check` then prints.
CHANGES = [
    # Keys that have to be there.
    ("link = 1\n", "", "config: line.link"),
    ("cause = 1\n", "", "config: line.cause"),
    ("\nca = 1\nioa", "\nioa", "config: line.ca"),
    ("ioa = 2\n", "", "config: line.ioa"),
    ("queue = 100\n", "", "ok"),
    ("[[station]]\naddress = 1\nca = 1\n", "", "config: station"),
    ("address = 1\n", "", "config: station.address"),
    ("address = 1\nca = 1\n", "address = 1\n", "config: station.ca"),
    # Values of the line.
    ("link = 1", "link = 0", "config: line.link"),
    ("link = 1", "link = 3", "config: line.link"),
    ("link = 1", "link = 1.0", "config: line.link"),
    ("cause = 1", "cause = 3", "config: line.cause"),
    ("ca = 1\nioa", "ca = 3\nioa", "config: line.ca"),
    ("ioa = 2", "ioa = 4", "config: line.ioa"),
    ("queue = 100", "queue = 2", "config: line.queue"),
    ("queue = 100", "queue = 3", "ok"),
    ("queue = 100", "queue = 65536", "config: line.queue"),
    ("queue = 100", "queue = -1", "config: line.queue"),
    ("queue = 100", "queue = 4294967396", "config: line.queue"),
    ("queue = 100", "queue = \"a\"", "config: line.queue"),
    ("queue = 100", "answer_ms = 0", "config: line.answer_ms"),
    ("queue = 100", "answer_ms = 60001", "config: line.answer_ms"),
    ("queue = 100", "retries = 11", "config: line.retries"),
    ("queue = 100", "retries = 10", "ok"),
    ("queue = 100", "silence = \"x\"", "config: line.silence"),
    ("queue = 100", "silence = \"Hold\"", "config: line.silence"),
    ("queue = 100", "silence = 1", "config: line.silence"),
    ("queue = 100", "silence = \"hold\"", "ok"),
    ("queue = 100", "burst = 0", "config: line.burst"),
    ("queue = 100", "burst = 256", "config: line.burst"),
    # Values of the connection.
    ("[[station]]", "[tcp]\nk = 0\n[[station]]", "config: tcp.k"),
    ("[[station]]", "[tcp]\nk = 32768\n[[station]]", "config: tcp.k"),
    ("[[station]]", "[tcp]\nw = 0\n[[station]]", "config: tcp.w"),
    ("[[station]]", "[tcp]\nw = 32768\n[[station]]", "config: tcp.w"),
    ("[[station]]", "[tcp]\nt1_ms = 1\n[[station]]", "config: tcp.t1_ms"),
    ("[[station]]", "[tcp]\nt1_ms = 255001\n[[station]]", "config: tcp.t1_ms"),
    ("[[station]]", "[tcp]\nt1_ms = 15000\nt2_ms = 15000\n[[station]]", "config: tcp.t2_ms"),
    ("[[station]]", "[tcp]\nt1_ms = 15000\nt2_ms = 14999\n[[station]]", "ok"),
    ("[[station]]", "[tcp]\nt1_ms = 2\nt2_ms = 1\n[[station]]", "ok"),
    ("[[station]]", "[tcp]\nt1_ms = 5000\n[[station]]", "config: tcp.t2_ms"),
    ("[[station]]", "[tcp]\nt2_ms = 0\n[[station]]", "config: tcp.t2_ms"),
    ("[[station]]", "[tcp]\nt2_ms = 15000\n[[station]]", "config: tcp.t2_ms"),
    ("[[station]]", "[tcp]\nt3_ms = 0\n[[station]]", "config: tcp.t3_ms"),
    ("[[station]]", "[tcp]\nt3_ms = 86400001\n[[station]]", "config: tcp.t3_ms"),
    ("[[station]]", "[tcp]\nselect_ms = 0\n[[station]]", "config: tcp.select_ms"),
    ("[[station]]", "[tcp]\nselect_ms = 600001\n[[station]]", "config: tcp.select_ms"),
    ("[[station]]", "[tcp]\nmax_age_ms = 0\n[[station]]", "config: tcp.max_age_ms"),
    ("[[station]]", "[tcp]\nmax_age_ms = 3600001\n[[station]]", "config: tcp.max_age_ms"),
    # It comes after the other keys of its table.
    ("[[station]]", "[tcp]\nmax_age_ms = 0\nselect_ms = 0\n[[station]]", "config: tcp.select_ms"),
    ("[[station]]", "[tcp]\nselect_ms = true\n[[station]]", "config: tcp.select_ms"),
    ("[[station]]", "[tcp]\n\n[[station]]", "ok"),
    # Stations.
    ("address = 1", "address = 0", "config: station.address"),
    ("address = 1", "address = 255", "config: station.address"),
    ("address = 1", "address = 254", "ok"),
    ("address = 1\nca = 1", "address = 1\nca = 255", "config: station.ca"),
    ("address = 1", "address = 1\nselect = 1", "config: station.select"),
    ("address = 1", "address = 1\nselect = true", "ok"),
    ("[[station]]", "[[station]]\naddress = 2\nca = 1\n[[station]]", "config: station.ca"),
    ("[[station]]", "[[station]]\naddress = 1\nca = 2\n[[station]]", "config: station.address"),
    # The keys of one station come before those of the next.
    ("[[station]]", "[[station]]\naddress = 1\nca = 1\nselect = 0\n[[station]]", "config: station.select"),
    ("[[station]]", "[station]", "config: station"),
    ("[line]", "station = 1\n[line]", "config: not TOML"),
    # Of several wrong keys the first is told: by the order of the keys, not of the file.
    ("link = 1\ncause = 1", "cause = 9\nlink = 9", "config: line.link"),
    ("ioa = 2\nqueue = 100", "queue = 1\nretries = 99", "config: line.ioa"),
    ("queue = 100", "queue = 1\nretries = 99", "config: line.retries"),
    ("queue = 100", "queue = 1\n[tcp]\nk = 0", "config: line.queue"),
    ("address = 1", "address = 0\n[tcp]\nk = 0", "config: tcp.k"),
    ("address = 1", "address = 0\n[live]\nline = 1", "config: station.address"),
    # Unknown keys come after all others.
    ("address = 1", "address = 0\nabc = 1", "config: station.address"),
    ("[line]", "abc = 1\n[live]\nlisten = 1\n[line]", "config: live.listen"),
    # What is no table has a wrong first key.
    ("[line]\nlink = 1\ncause = 1\nca = 1\nioa = 2\nqueue = 100\n", "line = 1\n", "config: line.link"),
    ("[line]", "tcp = 1\n[line]", "config: tcp.k"),
    ("[line]", "live = 1\n[line]", "config: live.line"),
    ("[line]", "[live]\nline = 1\n[line]", "config: live.line"),
    ("[line]", "[live]\nlisten = true\n[line]", "config: live.listen"),
    ("[line]", "[live]\n[line]", "ok"),
    # Of several unknown keys the least is told.
    ("queue = 100", "foo = 1\nbar = 2", "config: unknown line.bar"),
    # `-` comes before `.` and `.` before letters.
    ("[line]", "line-x = 1\n[line]\nb = 1", "config: unknown line-x"),
    ("[line]", "linea = 1\n[line]\nb = 1", "config: unknown line.b"),
    # Capital letters come before small ones.
    ("[line]", "Zeta = 1\nalpha = 1\n[line]", "config: unknown Zeta"),
    # An unknown table by its own path alone.
    ("[line]", "[abc]\na = 1\n[line]", "config: unknown abc"),
    ("queue = 100", "queue = 100\n[line.sub]\na = 1", "config: unknown line.sub"),
    ("[line]", "[tcp]\nt4_ms = 1\n[line]", "config: unknown tcp.t4_ms"),
    ("address = 1", "address = 1\nzz = 1", "config: unknown station.zz"),
    ("address = 1", "address = 1\nzz = 1\n[[station]]\nyy = 1\naddress = 2", "config: station.ca"),
    ("[[station]]", "[[station]]\nzz = 1\naddress = 2\nca = 2\n[[station]]\nyy = 1", "config: unknown station.yy"),
    ("[line]", "[live]\nport = 1\n[line]", "config: unknown live.port"),
    # No document.
    ("[line]", "line", "config: not TOML"),
    ("link = 1", "link = 1\nlink = 1", "config: not TOML"),
    ("link = 1", "link =", "config: not TOML"),
]

# Whole settings, and what `check` then prints.
SETTINGS = [
    (b'a = "\xff"', "config: not TOML"),
    (b"", "config: line.link"),
]

# How many stations there are, and what `check` then prints.
COUNTS = [(0, "config: station"), (32, "ok"), (33, "config: station")]

# The stations in other forms, before the line's table, and what `check` then prints.
STATIONS = [
    ("station = []\n", "config: station"),
    ("station = 1\n", "config: station"),
    ("station = [1]\n", "config: station.address"),
    ("station = [{ address = 1, ca = 1 }]\n", "ok"),
    ("station = [{ address = 1, ca = 1 }, 1]\n", "config: station.address"),
]

# Scripts for two stations, and their first wrong line.
WRONG_SCRIPTS = [
    # A missing `turns` is wrong at the line after the last.
    ("", 1),
    ("\n", 2),
    ("ack 1", 2),
    ("ack 1\n", 2),
    ("ack 1\n\n", 3),
    ("# turns 1\n# more", 3),
    # Numbers
    ("turns", 1),
    ("turns ", 1),
    ("turns x", 1),
    ("turns 1000000000", 1),
    ("turns 0000000001", 1),
    ("turns +1", 1),
    ("turns 1 ", 1),
    (" turns 1", 1),
    ("turns  1", 1),
    ("turns 1\r\n", 1),
    ("Turns 1", 1),
    ("wall", 1),
    ("wall \nturns 1", 1),
    ("wall x\nturns 1", 1),
    ("wall 1 1\nturns 1", 1),
    ("Wall 1\nturns 1", 1),
    ("wall 1000000000000000\nturns 1", 1),
    ("wall 0000000000000001\nturns 1", 1),
    # What stands once
    ("turns 1\nturns 1\n", 2),
    ("turns 1\nwall 1\n\nwall 2\n", 4),
    ("turns 1\nack 1\nack 1\n", 3),
    ("spoil answer 1 1\n\nspoil answer 01 2\nturns 1", 3),
    ("send 1 640106000100000014\nturns 1\nsend 1 640106000100000014", 3),
    # Ranges
    ("ack 0\nturns 1", 1),
    ("ack 32768\nturns 1", 1),
    ("report 0 1 00\nturns 1", 1),
    ("report 3 1 00\nturns 1", 1),
    ("report 1 0 00\nturns 1", 1),
    ("report 1 3 00\nturns 1", 1),
    ("report 1 1\nturns 1", 1),
    ("report 1 1 \nturns 1", 1),
    ("report 1 1 0\nturns 1", 1),
    ("report 1 1 0G\nturns 1", 1),
    ("send 1 6401060001000000\nturns 1", 1),
    ("send 1\nturns 1", 1),
    # Words
    ("lose 1\nturns 1", 1),
    ("lose reply 1\nturns 1", 1),
    ("lose request\nturns 1", 1),
    ("spoil answer 1\nturns 1", 1),
    ("spoil request 1 1\nturns 1", 1),
    ("cut\nturns 1", 1),
    ("drop 1\nturns 1", 1),
    ("turns 1\nlose answer 1 2 3 4\n", 2),
]

# Scripts with lines that may stand twice.
GOOD_SCRIPTS = [
    "turns 1",
    "turns 0\n",
    "lose request 1\nlose request 1\nlose answer 1\nlose answer 1\nspoil answer 1 1\nturns 1",
    "cut 1\ncut 1\nsend 1 640106000100000014\nsend 2 640106000100000014\nturns 1",
    "report 1 1 00\nreport 1 1 00\nreport 1 2 00\nspoil answer 0 0\nspoil answer 1 0\nturns 1",
]

# Traces, and their first wrong line.
WRONG_TRACES = [
    ("10 T\n20 X", 2),
    ("#\n\n1 S\n2 X", 3),
    ("1 T\n1 T\n\n1 t\n", 4),
    ("10  T", 1),
    ("1 S  68", 1),
    (" 1 T", 1),
    ("1 T ", 1),
    ("1 S 68 ", 1),
    ("1 O 68", 1),
    ("1 T 68", 1),
    ("1 C 68", 1),
    ("1 S", 1),
    ("1 S ", 1),
    ("1 S 1", 1),
    ("1 S 101", 1),
    ("1 S 0G", 1),
    ("1 S 68 68", 1),
    ("1 s 68", 1),
    ("1 U 68", 1),
    ("1 W", 1),
    ("1 W ", 1),
    ("1 w 1", 1),
    ("1 W x", 1),
    ("1 W -1", 1),
    ("1 W 6A", 1),
    ("1 W 1 1", 1),
    ("W 1", 1),
    (" W 1", 1),
    ("1 W 1000000000000000", 1),
    ("1 W 0000000000000001", 1),
    ("1 TT", 1),
    ("1", 1),
    ("T", 1),
    (" ", 1),
    (" #", 1),
    ("1 T\r\n", 1),
    ("\r\n", 1),
    ("+1 T", 1),
    ("-1 T", 1),
    ("1a T", 1),
    ("1000000000000000 T", 1),
    ("0000000000000001 T", 1),
    (" T", 1),
    ("7 T\n\n8 Q\nx\n", 3),
    ("7 S 5\n", 1),
    ("#\n7 S\n", 2),
]

# Traces that tell nothing: the gateway asks for the status of its station, and that is all.
EMPTY_TRACES = ["", "\n", "#", "\n\n# 10 X\n"]
FIRST_REQUEST = "0 > S 1049014A16\n"

# A change of those settings with two stations, and what `check --explain` prints behind its fault. Line 8 is the first address.
STATION_VALUES = "1 to 254, or to 65534 where line.link is 2"
EXPLAINED = [
    # A value stands where it is written, whatever stands around it.
    ("link = 1", "link = 3", "line 2, column 8: 3\nwanted: 1 to 2\n"),
    ("queue = 100", "queue = 2 # two", "line 6, column 9: 2\nwanted: 3 to 65535\n"),
    ("queue = 100", "\tqueue\t=\t-1", "line 6, column 10: -1\nwanted: 3 to 65535\n"),
    ("queue = 100", "\"queue\" = 1.5", "line 6, column 11: 1.5\nwanted: 3 to 65535\n"),
    ("queue = 100", "silence = \"wait\"", "line 6, column 11: \"wait\"\nwanted: \"hold\" or \"reset\"\n"),
    ("queue = 100", "silence = 'a \u00e9 # b' # \u00e9", "line 6, column 11: 'a \u00e9 # b'\nwanted: \"hold\" or \"reset\"\n"),
    ("queue = 100", "retries = [1, 2]", "line 6, column 11: [1, 2]\nwanted: 0 to 10\n"),
    # Columns count characters, and a key in a comment or a text is none.
    ("queue = 100", "# queue = 7\nqueue = 1", "line 7, column 9: 1\nwanted: 3 to 65535\n"),
    ("[line]\nlink = 1\ncause = 1\nca = 1\nioa = 2\nqueue = 100\n", "line = { link = 1, cause = 9, ca = 1, ioa = 2 }\n",
     "line 1, column 28: 9\nwanted: 1 to 2\n"),
    # What is no table.
    ("[line]", "tcp = 1\n[line]", "line 1, column 7: 1\nwanted: 1 to 32767\n"),
    # A key that isn't there belongs below the header of its table.
    ("link = 1\n", "", "no value: it belongs below line 1\nwanted: 1 to 2\n"),
    ("address = 2\n", "", f"no value: it belongs below line 10\nwanted: {STATION_VALUES}\n"),
    ("[[station]]", "[tcp]\nt1_ms = 5000\n[[station]]", "no value: it belongs below line 7\nwanted: 1 to t1_ms - 1\n"),
    # The station that is meant, and the one that has the number.
    ("address = 2", "address = 255", f"line 11, column 11: 255\nwanted: {STATION_VALUES}\n"),
    ("address = 2", "address = 1", f"line 11, column 11: 1\nwanted: {STATION_VALUES}\ntaken at line 8, column 11\n"),
    ("ca = 2", "ca = 1", "line 12, column 6: 1\nwanted: 1 to 254, or to 65534 where line.ca is 2\ntaken at line 9, column 6\n"),
    ("ca = 2", "ca = 2\nselect = 1", "line 13, column 10: 1\nwanted: true or false\n"),
    # Unknown keys.
    ("queue = 100", "quue = 100", "line 6, column 8: 100\nwanted: a key of the table in docs/SETTINGS.md\n"),
    ("ca = 2", "ca = 2\nname = \"b\"", "line 13, column 8: \"b\"\nwanted: a key of the table in docs/SETTINGS.md\n"),
    # What is no document.
    ("ioa = 2", "ioa = ", "line 5, column 7: "),
    ("ioa = 2", "ioa = 2\nca = 2", "line 6, column "),
]


# A change of the settings with two stations, and what `check` says of it before the fault's own line.
POINTED = [
    ("link = 1", "link = 3", "2:8: line.link = 3: wanted 1 to 2\n"),
    ("cause = 1", 'cause = "1"', '3:9: line.cause = "1" is a text: write 1 without quotation marks\n'),
    ("link = 1\n", "", "1:7: line.link is missing: wanted 1 to 2\n"),
    # All faults of a file, a misspelt key before the one that is missing for that.
    ("link = 1\ncause = 1", "lnik = 1\ncause = 9",
     "2:1: no such key: line.lnik; is line.link meant?\n1:7: line.link is missing: wanted 1 to 2\n3:9: line.cause = 9: wanted 1 to 2\n"),
    ("address = 2\nca = 2", "address = 1\nca = 1",
     "11:11: station.address = 1: the station at line 8 has this number\n12:6: station.ca = 1: the station at line 9 has this number\n"),
    ("[line]", "retries = 2\n[line]", "1:1: no such key: retries; is line.retries meant?\n"),
    ("[line]", "[tpc]\nk = 1\n[line]", "1:1: no such key: tpc; is tcp meant?\n"),
    ("queue = 100", "colour = 1", "6:1: no such key: line.colour\n"),
    ("[line]", "tcp = 1\n[line]", "1:7: tcp = 1: wanted a table\n"),
    ("[[station]]", "[tcp]\nt1_ms = 5000\n[[station]]",
     "7:6: tcp.t2_ms is 10000 by default: wanted 1 to t1_ms - 1\n"),
]

# Files of a site, and what `check` and `run` say of each before the fault's own line: each wrong key, and who may connect behind them.
POINTED_SITES = [
    ('log = 1\nallow = ["192.0.2.7", "192.0.2.256"]\n',
     '1:7: log = 1: wanted true or false\n2:9: allow = ["192.0.2.7", "192.0.2.256"]: wanted a list of IPv4 and IPv6 addresses\n'),
    ('lgo = true\nstatus = "nowhere"\n[[station]]\nlink = "7"\nname = ""\n',
     '1:1: no such key: lgo; is log meant?\n2:10: status = "nowhere": wanted HOST:PORT\n'
     '4:8: station.link = "7" is a text: write 7 without quotation marks\n5:8: station.name = "": wanted 1 to 40 printable characters\n'),
    ('colour = 1\nallow = ["::1", "localhost"]\n',
     '1:1: no such key: colour\n2:9: allow = ["::1", "localhost"]: wanted a list of IPv4 and IPv6 addresses\n'),
    ("[[station]]\nlink = 7\n", "1:12: station.name is missing: wanted 1 to 40 printable characters\n"),
    ("log = \n", "1:7: "),
    # What `run` judges of words and file together.
    ('allow = ["192.0.2.7:2404"]\n', '1:9: allow = ["192.0.2.7:2404"]: wanted a list of IPv4 and IPv6 addresses\n'),
    ("state_or_stop = true\n", "1:17: state_or_stop = true: wanted true or false, true only where a directory is named\n"),
]

# What stands behind the settings with two stations, from line 13 on, a site's file, and what `check` warns of, of the settings and then of
# the site. It prints `ok`.
LIVE = '[live]\nline = "unix:x"\n'
ALONE = "no other machine can connect"
WARNED = [
    ("", "", "", ""),
    (LIVE + 'listen = "0.0.0.0:2404"\n', "log = true\n", "", ""),
    (LIVE + 'listen = "192.0.2.2:2404"\n', '[[station]]\nlink = 2\nname = "A"\n', "", ""),
    (LIVE + 'listen = "127.0.0.1:2404"\n', "", f'15:10: live.listen = "127.0.0.1:2404": {ALONE}\n', ""),
    (LIVE + 'listen = "localhost:2404"\n', "", f'15:10: live.listen = "localhost:2404": {ALONE}\n', ""),
    (LIVE, "", "13:7: live.listen is missing: wanted HOST:PORT\n", ""),
    ('[live]\nline = "tcp:x"\nlisten = "0.0.0.0:2404"\n', "", '14:8: live.line = "tcp:x": wanted tcp:HOST:PORT or unix:PATH\n', ""),
    ('[live]\nline = "x"\nlisten = "y"\n', "",
     '14:8: live.line = "x": wanted tcp:HOST:PORT or unix:PATH\n15:10: live.listen = "y": wanted HOST:PORT\n', ""),
    ("", '[[station]]\nlink = 2\nname = "A"\n[[station]]\nlink = 99\nname = "B"\n', "",
     "5:8: station.link = 99: the settings have no such station\n"),
]

# Scripts and traces, and what `sim` and `replay` say of their first wrong line before the fault's own.
POINTED_SCRIPTS = [
    ("turns 1\nreport 3 1 00", "2:8: no such station is in the settings\n"),
    ("turns 1\nreport 1 1 000", "2:15: HEX has an odd number of digits\n"),
    ("turns 1\nreport 1 3 00", "2:10: a class is 1 or 2\n"),
    ("report 1 1 00\n", "2:1: no line `turns N` stands before\n"),
    ("turns 1\nturns 2", "2:1: a line before this one says the same\n"),
    ("turns 1\nat 100 report 1 1 00", "2:1: `telegate stations` alone knows this word\n"),
    ("turns 1\nlose answer", "2:12: a field is missing here\n"),
    ("turns 1\ncut 1 2", "2:6: something stands behind the last field\n"),
    ("turns 1\nforget 1", "2:1: no such word\n"),
    ("turns 1\r\n", "1:8: a carriage return: a line feed alone ends a line\n"),
    # Each wrong line; that `turns` is missing is told alone.
    ("turns x\n# ack 0\nack 0\n\nreport 1 3 00\nack 1\nack 2\n",
     "1:7: a number has 1 to 9 digits\n3:5: 1 to 32767 is wanted\n5:10: a class is 1 or 2\n7:1: a line before this one says the same\n"),
    ("cut\n" * 50, "".join(f"{line}:4: a field is missing here\n" for line in range(1, 41))),
]
POINTED_TRACES = [
    ("1 T\n2 X", "2:3: no such letter: S, R, T, O, C and W are known\n"),
    ("1 S 101", "1:8: HEX has an odd number of digits\n"),
    ("1 S 0G", "1:6: no hexadecimal digit\n"),
    ("1 S 68 68", "1:7: something stands behind the octets\n"),
    ("1 S " + 1025 * "00", "1:2053: more than 1,024 octets\n"),
    ("1000000000000000 T", "1:1: a moment has 1 to 15 digits\n"),
    ("1 T 68", "1:4: nothing may stand behind this letter\n"),
    ("1  T", "1:3: a second space: one stands between two fields\n"),
    ("1 > S 68", "1:3: an action: a trace has events alone\n"),
    ("1 T\r\n", "1:4: a carriage return: a line feed alone ends a line\n"),
    # Each wrong line.
    ("1 T\n2 X\n# 3 X\n\n4 T 5\n5 T", "2:3: no such letter: S, R, T, O, C and W are known\n5:4: nothing may stand behind this letter\n"),
    ("1 X\n" * 50, "".join(f"{line}:3: no such letter: S, R, T, O, C and W are known\n" for line in range(1, 41))),
]


def pointed(count, program, folder):
    """Where a file is wrong, and why, with its name, before the fault's own line. `sim` and `replay`
    say the same of settings as `check` does."""
    config, second, site = (os.path.join(folder, name) for name in ("config.toml", "second", "site.toml"))

    def judge(words, text, path, want):
        with open(path, "w", encoding="utf-8", newline="") as file:
            file.write(text)
        done = subprocess.run([program, *words], capture_output=True, text=True, timeout=60)
        said = "".join(done.stderr.splitlines(True)[:-1])
        want = "".join(f"{path}:{line}\n" for line in want.splitlines())
        # Why a text is no document, the reader of TOML says.
        is_right = said == want if not want.endswith(": \n") else said.startswith(want[:-1]) and said.count("\n") == 1
        count.judge(f"{words[0]} points at {text!r:.200}", is_right and done.returncode == 1, f"wanted {want!r}, got {done.stderr!r}")

    for before, after, want in POINTED:
        if before not in TWO:
            raise ValueError(f"there is no {before!r} to change")
        for words in (["check", config], ["sim", config, os.devnull], ["replay", config, os.devnull]):
            judge(words, TWO.replace(before, after, 1), config, want)
    with open(config, "w", encoding="utf-8") as file:
        file.write(TWO)
    for text, want in POINTED_SITES:
        for command in ("check", "run"):
            judge([command, "--site", site, config], text, site, want)
    for script, want in POINTED_SCRIPTS:
        judge(["sim", config, second], script, second, want)
    for trace, want in POINTED_TRACES:
        judge(["replay", config, second], trace, second, want)
    for live, text, want, of_site in WARNED:
        for path, written in ((config, TWO + live), (site, text)):
            with open(path, "w", encoding="utf-8") as file:
                file.write(written)
        done = subprocess.run([program, "check", "--site", site, config], capture_output=True, text=True, timeout=60)
        told = [re.sub(r"^(\d+:\d+: )", rf"{path}:\1warning: ", line) for path, lines in ((config, want), (site, of_site)) for line in lines.splitlines(True)]
        count.compare(f"check warns of {live!r} {text!r}", (done.stdout, done.stderr, done.returncode), ("ok\n", "".join(told), 0))


LOOKED_UP = "failed to lookup address information: .+"


def refused(count, program, folder):
    """What the system refuses, with the place and in its words. What is looked for isn't there, or is another's, or nobody knows its name."""

    def written(name, line, listen):
        with open(os.path.join(folder, name), "w") as file:
            file.write(f'{CONFIG}[live]\nline = "{line}"\nlisten = "{listen}"\n')

    def judge(words, why, last, status=3):
        done = subprocess.run([program, *words.split()], cwd=folder, stdin=subprocess.DEVNULL, capture_output=True, text=True, timeout=60)
        holds = re.fullmatch(f"error: {why}\n{last}\n", done.stderr) and (done.stdout, done.returncode) == ("", status)
        count.judge(f"refused: {words}", holds, f"wanted {why!r}, got {done}")

    with open(os.path.join(folder, "one.script"), "w") as file:
        file.write("turns 1\n")
    with socket.create_server(("127.0.0.1", 0)) as taken:
        here, free, shut = f"127.0.0.1:{taken.getsockname()[1]}", f"127.0.0.1:{ends.free_port()}", f"127.0.0.1:{ends.free_port()}"
        nobody = "no-such-host.invalid:2404"
        in_use = re.escape(f"{os.strerror(errno.EADDRINUSE)} (os error {errno.EADDRINUSE})")
        closed = re.escape(f"{os.strerror(errno.ECONNREFUSED)} (os error {errno.ECONNREFUSED})")
        absent = re.escape(f"{os.strerror(errno.ENOENT)} (os error {errno.ENOENT})")
        written("good.toml", f"tcp:{here}", free)
        written("taken.toml", f"tcp:{here}", here)
        written("shut.toml", f"tcp:{shut}", free)
        written("host.toml", f"tcp:{nobody}", free)
        written("path.toml", "unix:nowhere/line", free)
        written("own.toml", f"tcp:{here}", nobody)
        judge("run taken.toml", f"listener {here}: {in_use}", "device failed")
        judge("run shut.toml", f"line tcp:{shut}: {closed}", "device failed")
        judge("run host.toml", f"line tcp:{nobody}: {LOOKED_UP}", "device failed")
        judge("run path.toml", f"line unix:nowhere/line: {absent}", "device failed")
        judge("run own.toml", f"listener {nobody}: {LOOKED_UP}", "device failed")
        judge(f"run --status {here} good.toml", f"status {here}: {in_use}", "device failed")
        judge(f"run --redial --status {here} shut.toml", f"status {here}: {in_use}", "device failed")
        judge("run --status nowhere good.toml", "status nowhere: invalid socket address", "device failed")
        judge(f"run --status {nobody} good.toml", f"status {nobody}: {LOOKED_UP}", "device failed")
        judge("stations taken.toml one.script", f"line tcp:{here}: {in_use}", "device failed")
        judge("stations host.toml one.script", f"line tcp:{nobody}: {LOOKED_UP}", "device failed")
        judge("stations path.toml one.script", f"line unix:nowhere/line: {absent}", "device failed")
        judge(f"centre {shut} interrogate", f"gateway {shut}: {closed}", f"no reply from {shut}")
        judge(f"centre {nobody} interrogate", f"gateway {nobody}: {LOOKED_UP}", f"no reply from {nobody}")
        judge(f"status {shut}", f"status {shut}: {closed}", f"no reply from {shut}")
        judge(f"status {nobody}", f"status {nobody}: {LOOKED_UP}", f"no reply from {nobody}")
        # It takes connections, and answers nothing.
        judge(f"status {here}", f"status {here}: timed out", f"no reply from {here}")
        # A log says so, too.
        moment = r"\S+Z 0 "
        judge("run --log taken.toml", f"listener {here}: {in_use}", f"{moment}port in use\ndevice failed")
        judge("run --log own.toml", f"listener {nobody}: {LOOKED_UP}", f"{moment}port can't be listened at\ndevice failed")
        judge(f"run --log --status {here} good.toml", f"status {here}: {in_use}", f"{moment}status port can't be used\ndevice failed")


# Calls that read a file or a directory that they may not, and which.
FORBIDDEN = [
    ("check secret", "file secret"), ("check --site secret good.toml", "file secret"), ("run secret", "file secret"),
    ("run --site secret good.toml", "file secret"), ("replay secret x", "file secret"), ("replay good.toml secret", "file secret"),
    ("sim good.toml secret", "file secret"), ("audit good.toml secret", "file secret"), ("capture good.toml secret", "file secret"),
    ("stations good.toml secret", "file secret"), ("centre 127.0.0.1:1 ./secret", "file ./secret"), ("state shut", "directory shut"),
]


def forbidden(count, program, folder):
    """What the rights forbid, to who isn't root."""
    room = os.path.join(folder, "room")
    os.makedirs(os.path.join(room, "shut"))
    shutil.copy(program, os.path.join(room, "telegate"))
    for name, text in (("good.toml", CONFIG + LIVE + 'listen = "127.0.0.1:1"\n'), ("secret", CONFIG)):
        with open(os.path.join(room, name), "w") as file:
            file.write(text)
    for path, mode in ((folder, 0o755), (room, 0o755), ("telegate", 0o755), ("good.toml", 0o644), ("secret", 0), ("shut", 0)):
        os.chmod(os.path.join(room, path), mode)
    as_nobody = {"user": 65534, "group": 65534, "extra_groups": []} if os.geteuid() == 0 else {}

    def judge(words, reason, last):
        done = subprocess.run(["./telegate", *words.split()], cwd=room, stdin=subprocess.DEVNULL, capture_output=True, text=True, timeout=60, **as_nobody)
        seen = done.stdout, done.stderr, done.returncode
        count.compare(f"forbidden: {words}", seen, ("", frame.reason(*reason, errno.EACCES) + last, 3))

    for words, what in FORBIDDEN:
        judge(words, what.split(), f"cannot read {what.split()[1]}\n")
    with open("/proc/sys/net/ipv4/ip_unprivileged_port_start") as file:
        if int(file.read()) > 1:
            judge("run good.toml", ("listener", "127.0.0.1:1"), "device failed\n")


# Calls whose output nobody reads.
UNREAD = [
    "show101 1112 E5", "show104 680443000000", "check config.toml", "replay config.toml /dev/null", "sim config.toml one.script",
    "audit config.toml /dev/null", "capture config.toml /dev/null", "--help", "--version",
]


def closed_pipes(count, program, folder):
    """The specification makes no exception of a pipe whose reader has gone."""
    for name, text in (("config.toml", CONFIG), ("one.script", "turns 1\n")):
        with open(os.path.join(folder, name), "w") as file:
            file.write(text)
    for words in UNREAD:
        out, to = os.pipe()
        os.close(out)
        done = subprocess.run([program, *words.split()], cwd=folder, stdin=subprocess.DEVNULL, stdout=to, stderr=subprocess.PIPE, text=True, timeout=60)
        os.close(to)
        count.compare(f"closed pipe: {words}", (done.stderr, done.returncode), ("device failed\n", 3))


def settings():
    """Files of settings, and what `check` prints of each."""
    for before, after, want in CHANGES:
        if before not in CONFIG:
            raise ValueError(f"there is no {before!r} to change")
        yield CONFIG.replace(before, after, 1).encode(), want
    yield from SETTINGS
    for count, want in COUNTS:
        stations = "".join(f"[[station]]\naddress = {n + 1}\nca = {n + 101}\n" for n in range(count))
        yield (LINE + stations).encode(), want
    for stations, want in STATIONS:
        yield (stations + LINE).encode(), want


def explained():
    """Files of settings that are wrong, and what is printed of each."""
    for before, after, want in EXPLAINED:
        if before not in TWO:
            raise ValueError(f"there is no {before!r} to change")
        yield TWO.replace(before, after, 1), want


def explanations(count, program, folder):
    """Behind the very fault that `check` reports stand these lines. For a document that can't be
    read only the place is known."""
    for text, want in explained():
        path = os.path.join(folder, "config.toml")
        with open(path, "w", encoding="utf-8") as file:
            file.write(text)
        plain = subprocess.run([program, "check", path], capture_output=True, text=True, timeout=60)
        done = subprocess.run([program, "check", "--explain", path], capture_output=True, text=True, timeout=60)
        begins = not want.endswith("\n")
        told = done.stdout.startswith(want) if begins else done.stdout == want
        holds = told and (done.stderr, done.returncode) == (plain.stderr, plain.returncode)
        count.judge(f"check --explain {text!r:.300}", holds, f"wanted {want!r}, got {done.stdout!r}, {done.stderr!r}")


def rows():
    """The command, the texts of its files, standard output (or none, if any is right), standard
    error and the exit status."""
    for text, want in settings():
        is_good = want == "ok"
        yield "check", (text,), "ok\n" if is_good else "", "" if is_good else f"{want}\n", int(not is_good)
    for script, line in WRONG_SCRIPTS:
        yield "sim", (TWO.encode(), script.encode()), "", f"script: line {line}\n", 1
    for script in GOOD_SCRIPTS:
        yield "sim", (TWO.encode(), script.encode()), None, "", 0
    for trace, line in WRONG_TRACES:
        yield "replay", (CONFIG.encode(), trace.encode()), "", f"trace: line {line}\n", 1
    for trace in EMPTY_TRACES:
        yield "replay", (CONFIG.encode(), trace.encode()), FIRST_REQUEST, "", 0


def first_faults(count, program, folder):
    """The fault that each row reports, or none."""
    for command, texts, printed, said, status in rows():
        name = f"{command} {texts[-1]!r:.200}"
        if not count.wants(name):
            continue
        files = [os.path.join(folder, name) for name in ("config.toml", "second")][: len(texts)]
        for path, text in zip(files, texts):
            with open(path, "wb") as file:
                file.write(text)
        done = subprocess.run([program, command, *files], capture_output=True, text=True, timeout=60)
        holds = printed in (None, done.stdout) and [frame.bare(done.stderr), done.returncode] == [said, status]
        count.judge(name, holds, f"status {done.returncode}, {done.stderr}\n{done.stdout}")


if __name__ == "__main__":
    frame.main(first_faults, explanations, pointed, refused, forbidden, closed_pipes)
