#!/usr/bin/env python3
"""Runs `telegate sim` with one loss at each place, and judges the closing lines.

    checks/losses.py [--program FILE] [--only NAME] [--without-command]

There are two stations with twenty reports of class 2 each, one single point a report, and an
interrogation of the first station at call 30. A run has 400 calls.

- In turn each of the first 60 requests is lost, its answer is lost, or its answer is spoilt at each
  of 16 places. Then every report is given once, the command is accepted once, and 40 objects go to
  the control centre.
- In turn the connection is cut at each call. Then every report is given once, and the command is
  accepted at most once (a cut may take it back). The objects of all connections are 40 to 52, since
  at most a window of 12 goes out a second time.

`--without-command` leaves the interrogation out.
"""
import os
import re
import subprocess

import frame


SETTINGS = """[line]
link = 1
cause = 1
ca = 1
ioa = 2
queue = 100
[[station]]
address = 1
ca = 1
[[station]]
address = 2
ca = 2
"""

REPORTS = 20
OBJECTS = 2 * REPORTS
WINDOW = 12


def base(with_command):
    """The script without a loss."""
    lines = ["turns 400"]
    for station in (1, 2):
        for n in range(REPORTS):
            # A spontaneous single point, each at an address of its own.
            asdu = bytes([0x01, 0x01, 0x03, station, 100 + n, 0, n % 2])
            lines.append(f"report {station} 2 {asdu.hex().upper()}")
    if with_command:
        lines.append("send 30 64010600010000000014")
    return "\n".join(lines) + "\n"


def run(program, settings, script):
    """The lines that the program prints."""
    done = subprocess.run([program, "sim", settings, script], capture_output=True, text=True)
    if done.returncode != 0:
        raise RuntimeError(f"exit status {done.returncode}: {done.stderr}")
    return done.stdout.splitlines()


def station(number, accepted):
    return f"station {number} reports {REPORTS} given {REPORTS} accepted {accepted}"


def is_whole(lines, accepted):
    """Whether nothing is missing, and nothing came twice."""
    return lines[-3:] == [station(1, accepted), station(2, 0), f"connection 1 objects {OBJECTS}"]


def is_cut(lines, accepted):
    """Whether nothing is missing, and at most a window came twice."""
    closing = [line for line in lines if re.match("station |connection ", line)]
    stations = [line for line in closing if line.startswith("station ")]
    objects = sum(int(line.split()[3]) for line in closing if line.startswith("connection "))
    first = [station(1, n) for n in range(accepted + 1)]
    return len(stations) == 2 and stations[0] in first and stations[1] == station(2, 0) and OBJECTS <= objects <= OBJECTS + WINDOW


def losses():
    """A line for each loss, and what has to hold for the run with it."""
    for n in range(1, 61):
        yield f"lose request {n}", is_whole
        yield f"lose answer {n}", is_whole
        for place in range(16):
            yield f"spoil answer {n} {place}", is_whole
    for n in range(1, 401):
        yield f"cut {n}", is_cut


def runs(count, program, folder):
    """The run without a loss, and that with each."""
    accepted = 0 if count.options.without_command else 1
    script = base(not count.options.without_command)
    settings, path = os.path.join(folder, "config.toml"), os.path.join(folder, "losses.script")
    with open(settings, "w") as file:
        file.write(SETTINGS)
    for loss, is_good in [("", is_whole), *losses()]:
        name = loss or "no loss"
        if not count.wants(name):
            continue
        with open(path, "w") as file:
            file.write(f"{script}{loss}\n")
        lines = run(program, settings, path)
        count.judge(name, is_good(lines, accepted), lines[-4:])


if __name__ == "__main__":
    frame.main(runs, words={"--without-command": {"action": "store_true", "help": "leave the interrogation out"}})
