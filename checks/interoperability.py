#!/usr/bin/env python3
"""Compares docs/INTEROPERABILITY.md with the built program, type by type.

    checks/interoperability.py [--program FILE] [--only NAME]

The script sends each type of the page's tables through `telegate replay`.

- A type of the monitor direction comes as a report of an outstation, with one object of the
  standard's size. It is supported if it goes up to the control centre.
- A type of the control direction comes as an activation from the control centre. It is supported if
  the answer isn't 'unknown type' (cause 44). On the line it is supported if a command goes down.
- The connection's defaults are those of docs/SETTINGS.md, which checks/settings.py compares with
  the program.
- A type from 1 to 127 that the page doesn't name isn't supported.
"""
import os
import re
import subprocess

import frame

TOP = frame.TOP
SETTINGS = "[line]\nlink = 1\ncause = 1\nca = 1\nioa = 2\n[[station]]\naddress = 1\nca = 1\n"
# A link that is up, and a connection that is started: the poll of 20 ms is out.
OPENING = ["10 S 100B010C16", "20 S E5", "30 O", "35 W 1709210100000", "40 R 680407000000"]
TAG = "D5DD220C9D0218"
# The octets of one element with its tag by the standard (IEC 60870-5-101, 7.3; -104, 8), where they aren't one octet 0.
MONITOR = {2: 4, 3: 1, 4: 4, 5: 2, 6: 5, 7: 5, 8: 8, 9: 3, 10: 6, 11: 3, 12: 6, 13: 5, 14: 8, 15: 5, 16: 8, 17: 6, 18: 7, 19: 7, 20: 5, 21: 2}
MONITOR.update({30: 8, 31: 8, 32: 9, 33: 12, 34: 10, 35: 10, 36: 12, 37: 12, 38: 10, 39: 11, 40: 11})
CONTROL = {46: "01", 47: "01", 48: "000000", 49: "000000", 50: "0000000000", 51: "00000000", 58: "00" + TAG, 59: "01" + TAG, 60: "01" + TAG}
CONTROL.update({61: "000000" + TAG, 62: "000000" + TAG, 63: "0000000000" + TAG, 64: "00000000" + TAG, 100: "14", 101: "05", 102: ""})
CONTROL.update({103: TAG, 104: "AA55", 105: "01", 106: "0000", 107: "0000" + TAG})


def read(name):
    with open(os.path.join(TOP, name), encoding="utf-8") as file:
        return file.read()


def rows(text):
    """Each row of a type: its number, what it says of the line and of the connection."""
    for number, line, connection in re.findall(r"^\| (\d+) \| .*? \| (.*?) \| ?(.*?) ?\|$", text, re.M):
        yield int(number), line.strip(), connection.strip()


def replayed(program, folder, lines):
    """What a run over these lines puts out, without what the opening does."""
    config, trace = os.path.join(folder, "config.toml"), os.path.join(folder, "trace")
    with open(config, "w", encoding="utf-8") as file:
        file.write(SETTINGS)
    with open(trace, "w", encoding="utf-8") as file:
        file.write("\n".join([*OPENING, *lines]) + "\n")
    ran = subprocess.run([program, "replay", config, trace], capture_output=True, text=True, timeout=60, stdin=subprocess.DEVNULL)
    return [line for line in ran.stdout.splitlines() if int(line.split()[0]) >= 50]


def is_reported(program, folder, kind):
    """Whether a report of one object of this type goes up."""
    body = bytes([0x08, 1, kind, 1, 3, 1, 1, 0]) + bytes(MONITOR.get(kind, 1))
    frame = bytes([0x68, len(body), len(body), 0x68]) + body + bytes([sum(body) % 256, 0x16])
    return any(" > T " in line for line in replayed(program, folder, [f"50 S {frame.hex()}"]))


def is_commanded(program, folder, kind):
    """Whether an activation of this type isn't answered as an unknown type, and the type that goes down, if one does."""
    # A type with a tag is to be fresh: the wall clock is near the tag.
    asdu = bytes([kind, 1, 6, 0, 1, 0, *(bytes(3) if 100 <= kind <= 107 else bytes([10, 0, 0]))]) + bytes.fromhex(CONTROL.get(kind, "00"))
    apdu = bytes([0x68, len(asdu) + 4, 0, 0, 0, 0]) + asdu
    out = replayed(program, folder, [f"50 R {apdu.hex()}", "60 S E5"])
    answers = [bytes.fromhex(line.split()[3]) for line in out if " > T " in line]
    is_unknown = any(len(answer) > 8 and answer[8] & 0x3F == 44 for answer in answers)
    sent = [bytes.fromhex(line.split()[3]) for line in out if " > S 68" in line]
    return not is_unknown, sent[0][6] if sent else None


def judge_types(judge, program, folder, page):
    named = {}
    for kind, line, connection in rows(page):
        named[kind] = (line, connection)
    for kind in range(1, 128):
        line, connection = named.get(kind, ("", ""))
        if kind <= 40 or kind == 70:
            goes_up = is_reported(program, folder, kind)
            judge(f"type {kind} on the line", goes_up == (line == "[X]"), (line, goes_up))
            judge(f"type {kind} on the connection", goes_up == (connection == "[X]"), (connection, goes_up))
        else:
            is_taken, sent = is_commanded(program, folder, kind)
            judge(f"type {kind} on the connection", is_taken == (connection == "[X]"), (connection, is_taken))
            wanted = kind if line == "[X]" else int(line[3:]) if line.startswith("as ") else None
            judge(f"type {kind} on the line", sent == wanted, (line, sent))


def judge_parameters(judge, page):
    settings = read("docs/SETTINGS.md")
    for told, values, key in re.findall(r"^\| [tkw]\d?, .*? \| (.*?) \| (.*?) \| `(.*?)` \|$", page, re.M):
        number, unit = re.match(r"(\d+) (s|APDUs)", told).groups()
        default = int(number) * (1000 if unit == "s" else 1)
        row = re.search(rf"^\| `{re.escape(key)}` \| .*? \| (.*?) \| (.*?) \|$", settings, re.M)
        judge(f"the default of {key}", row and int(row[2]) == default, (told, row and row[2]))
        limits = values.removesuffix(" ms").replace("t1 - 1", "t1_ms - 1")
        judge(f"the range of {key}", row and row[1] == limits, (values, row and row[1]))


def types(count, program, folder):
    judge_types(count.judge, program, folder, read("docs/INTEROPERABILITY.md"))


def parameters(count, _program, _folder):
    judge_parameters(count.judge, read("docs/INTEROPERABILITY.md"))


if __name__ == "__main__":
    frame.main(types, parameters)
