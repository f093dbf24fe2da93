#!/usr/bin/env python3
"""Replays the traces in checks/rows.txt: the rules of the profile one by one, and misreadings that
could be made in code and definitions alike.

    checks/rows.py [--program FILE] [--only NAME]

The first lines of the file say what a row is.
"""
import os
import re
import subprocess

import frame


BASE = {"line.link": "1", "line.cause": "1", "line.ca": "1", "line.ioa": "2", "line.queue": "100", "station1.address": "1", "station1.ca": "1"}
ROW = re.compile(r"^row (\S+)\n((?:.*\n)*?)(trace|opened)\n((?:.*\n)*?)prints\n((?:.+\n)*)", re.M)
OPENING = "10 S 100B010C16\n20 S E5\n30 O\n40 R 680407000000\n"
OPENED = "0 > S 1049014A16\n10 > S 1040014116\n20 > S 107B017C16\n40 > T 68040B000000\n"


def rows():
    """The name, the settings, the trace and what is printed, of each row."""
    with open(os.path.join(frame.HERE, "rows.txt")) as file:
        text = file.read()
    for name, settings, begins, trace, printed in ROW.findall(text):
        if begins == "opened":
            trace, printed = OPENING + trace, OPENED + printed
        keys = dict(BASE)
        for line in settings.splitlines():
            if not line.startswith("#"):
                key, _, value = line.partition(" = ")
                keys[key] = value
        yield name, document(keys), trace, printed


def made():
    """Rows too long to be written: I frames numbered once around (5.1), a thousand reports through the smallest queue, and the largest settings."""
    report = "680909680801010103016400017416"
    sent = lambda n, poll: f"50 > S {poll}\n50 > T 680E{n % 128 * 2:02X}{n % 32768 // 128:02X}000001010300010064000001\n"
    polls = ("105B015C16", "107B017C16")
    wide = document(BASE | {"line.queue": "65535", "tcp.k": "32767"})
    trace = f"50 S {report}\n50 R 680401000200\n" + f"50 S {report}\n" * 32767 + f"50 R 680401000000\n50 S {report}\n"
    yield "numbers-once-around", wide, OPENING + trace, OPENED + "".join(sent(n, polls[n % 2]) for n in range(32769))
    small = document(BASE | {"line.queue": "3"})
    trace = "".join(f"50 S {report}\n50 R 68040100{n % 128 * 2:02X}{n // 128:02X}\n" for n in range(1, 1001))
    told = "".join("".join(reversed(sent(n, polls[n % 2]).splitlines(True))) for n in range(1000))
    yield "a-thousand-reports-through-three-places", small, OPENING + trace, OPENED + told
    many = {f"station{n:02}.{key}": str(n) for n in range(1, 33) for key in ("address", "ca")}
    most = {key: BASE[key] for key in BASE if key.startswith("line.")} | {"line.queue": "65535", "tcp.k": "32767", "tcp.w": "32767"}
    yield "the-largest-settings", document(most | many), "", "0 > S 1049014A16\n"


def document(keys):
    """A file of settings with these keys, by their dotted paths."""
    tables = {}
    for path, value in keys.items():
        table, _, key = path.partition(".")
        tables.setdefault(table, []).append(f"{key} = {value}\n")
    return "".join((f"[{name}]\n" if name in ("line", "tcp") else "[[station]]\n") + "".join(tables[name]) for name in sorted(tables))


def replays(count, program, folder):
    """Each row."""
    files = [os.path.join(folder, name) for name in ("config.toml", "row.trace")]
    for name, *texts, printed in [*rows(), *made()]:
        if not count.wants(name):
            continue
        for path, text in zip(files, texts):
            with open(path, "w") as file:
                file.write(text)
        flags = [f"--{flag}" for flag in ("left", "counts") if any(line.startswith(f"{flag} ") for line in printed.splitlines())]
        done = subprocess.run([program, "replay", *flags, *files], capture_output=True, text=True, timeout=60)
        holds = (done.returncode, done.stdout, done.stderr) == (0, printed, "")
        count.judge(name, holds, f"status {done.returncode}, {done.stderr}\n{done.stdout}")


if __name__ == "__main__":
    frame.main(replays)
