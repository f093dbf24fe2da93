#!/usr/bin/env python3
"""Lets Wireshark's dissectors read the captures of records, and compares what they carry with the
records.

    checks/capture.py [--program FILE] [--only NAME] [--runs N] [--keep FILE] [CONFIG RECORD ..]

The script runs `telegate capture CONFIG RECORD` over the records that are given. Without any it
takes those of `examples`, the runs of its traces, one with a gap, and N runs of checks/agree.py (if
there is a rustc).

- No checksum and no number of a segment may be wrong.
- No frame may be malformed, and tshark may remark nothing but opens, closes and cuts of the
  connection, and the capture's own comments. This isn't asked of the made-up runs, whose ends also
  send what is no frame, nor of those in ODD.
- The data of the segments of each connection, joined in each direction, are the octets of the
  record's lines `R` and `> T` between its opens, in their order. The octets of the packets of the
  line are those of `S` and `> S`.
- Each packet stands at its line's moment.
- Each gap of the record is a packet of the line without octets, which says its station and session.

Without tshark the script is skipped.
"""
import glob
import os
import re
import shutil
import subprocess
import tomllib

import agree
import ends
import frame
import plain

FINE = ("Connection establish request", "Connection establish acknowledge", "Connection finish", "Connection reset",
        "This frame initiates the connection closing", "This frame undergoes the connection closing",
        # The comments that the capture itself puts on packets.
        "repeat", "late", "spoilt", "no whole frame", "gap: ", "closed: ")

# Traces with frames that aren't as they should be (a type 2 without its time tag).
ODD = ("left.trace",)


# A poll is never answered, and the reset that follows tells of a gap.
GAPPED = (
    '[line]\nlink = 1\ncause = 1\nca = 1\nioa = 2\nretries = 0\nsilence = "reset"\n[[station]]\naddress = 1\nca = 1\n',
    "0 W 1709210100000\n10 S 100B010C16\n20 S E5\n400 T\n410 S 100B010C16\n420 S E5\n430 O\n440 R 680407000000\n",
)


def record_of(program, config, trace):
    """A trace with the actions of the run over it behind each event, as a record has them, by the moments of the lines."""
    run = subprocess.run([program, "replay", config, trace], capture_output=True, text=True, check=True).stdout
    actions = [line.split(" ", 1) for line in run.splitlines()]
    lines, latest = [], 0
    with open(trace) as events:
        for line in ["0 T"] + events.read().splitlines():
            if not line or line.startswith("#"):
                continue
            latest = max(latest, int(line.split(" ", 1)[0]))
            while actions and int(actions[0][0]) < latest:
                lines.append(" ".join(actions.pop(0)))
            lines.append(line)
    return "\n".join(lines + [" ".join(action) for action in actions]) + "\n"


def carried(record):
    """The octets of the line each way, and those of each connection each way, with the moments of all in microseconds."""
    line, connections, moments = {"up": "", "down": ""}, [], set()
    wall, wall_at, latest, is_open = 0, 0, 0, False
    for text in record.splitlines():
        if not text or text.startswith("#"):
            continue
        fields = text.split(" ")
        latest = max(latest, int(fields[0]))
        kind = " ".join(fields[1:3]) if fields[1] == ">" else fields[1]
        if kind == "W":
            wall, wall_at = int(fields[2]), latest
        moments.add((wall + latest - wall_at) * 1000)
        octets = fields[-1].lower()
        if kind == "O" or (kind in ("R", "> T") and not is_open):
            connections.append({"up": "", "down": ""})
            is_open = True
        if kind == "C" or (kind == "> X" and fields[-1] != "7"):
            is_open = False
        if kind == "S":
            line["up"] += octets
        if kind == "> S":
            line["down"] += octets
        if kind == "R":
            connections[-1]["down"] += octets
        if kind == "> T":
            connections[-1]["up"] += octets
    return line, connections, moments


def tshark(capture, sizes, wanted, fields):
    """The fields of the packets that the filter finds, a list each."""
    words = ["tshark", "-n", "-r", capture, "-d", "rtacser.data,iec60870_101", "-o", "ip.check_checksum:TRUE",
             "-o", "tcp.check_checksum:TRUE"]
    for name, size in sizes.items():
        words += ["-o", f"iec60870_101.{name}:{size} octet"]
    if wanted:
        words += ["-Y", wanted]
    words += ["-T", "fields", "-E", "separator=|"]
    for field in fields:
        words += ["-e", field]
    return [row.split("|") for row in subprocess.run(words, capture_output=True, text=True, check=True).stdout.splitlines()]


def faults_of(capture, sizes, record, is_made_up):
    """What is wrong with a capture, a text each."""
    faults = []
    line, connections, moments = carried(record)
    wrong = "ip.checksum.status == 0 || tcp.checksum.status == 0 || tcp.analysis.flags"
    for number, _ in tshark(capture, sizes, wrong, ["frame.number", "frame.len"]):
        faults.append(f"packet {number} has a wrong sum or number")
    for number, message in [] if is_made_up else tshark(capture, sizes, "_ws.expert", ["frame.number", "_ws.expert.message"]):
        if not all(part.startswith(FINE) for part in re.split(",(?! session )", message)):
            faults.append(f"packet {number}: {message}")
    for number, _ in [] if is_made_up else tshark(capture, sizes, "_ws.malformed", ["frame.number", "frame.len"]):
        faults.append(f"packet {number} is malformed")
    told = {}
    for port_a, port_b, payload in tshark(capture, {}, "tcp", ["tcp.srcport", "tcp.dstport", "tcp.payload"]):
        is_up = port_a == "2404"
        ends = told.setdefault(port_b if is_up else port_a, {"up": "", "down": ""})
        ends["up" if is_up else "down"] += payload.replace(":", "")
    if list(told.values()) != connections:
        faults.append("the connections carry other octets than the record's")
    heard = {"up": "", "down": ""}
    raw = subprocess.run(["tshark", "-n", "-r", capture, "-Y", "rtacser", "-T", "ek", "-x"], capture_output=True, text=True).stdout
    for row in raw.splitlines():
        if '"frame_raw":"' in row:
            octets = row.split('"frame_raw":"', 1)[1].split('"', 1)[0]
            heard["down" if octets[16:18] == "01" else "up"] += octets[24:]
    if heard != line:
        faults.append("the line carries other octets than the record's")
    gaps = ["gap: station %s, session %s" % tuple(text.split(" ")[3:5]) for text in record.splitlines() if " > G " in text]
    told = tshark(capture, {}, 'rtacser && frame.comment contains "gap: "', ["frame.comment", "frame.len"])
    if told != [[gap, "12"] for gap in gaps]:
        faults.append(f"the gaps told are {told}, and not {gaps}")
    for (at,) in tshark(capture, {}, "", ["frame.time_epoch"]):
        if round(float(at) * 1000) * 1000 not in moments:
            faults.append(f"a packet stands at {at}, where no line does")
            break
    return faults


def made_up(folder, count):
    """The settings and traces of this many runs of checks/agree.py; none if there is no rustc."""
    other = plain.built(folder)
    runs = []
    for seed in range(1, count + 1) if other else []:
        run = agree.Run(other, folder, seed, 150)
        run.make()
        runs.append((run.config, run.trace))
    return runs


def pairs_of(given, program, folder):
    """The settings and the record of each run, and whether it is one that was made up."""
    named = list(zip(given.pairs[::2], given.pairs[1::2]))
    yield from ((config, file, False) for config, file in named)
    if named:
        return
    for config in sorted(glob.glob(os.path.join(frame.TOP, "examples", "*", "*.toml"))):
        near = os.path.dirname(config)
        files = glob.glob(os.path.join(near, "*.trace")) + glob.glob(os.path.join(near, "*.record"))
        yield from ((config, file, os.path.basename(file) in ODD) for file in sorted(files))
    gapped = [os.path.join(folder, name) for name in ("gapped.toml", "gapped.trace")]
    for name, text in zip(gapped, GAPPED):
        with open(name, "w") as file:
            file.write(text)
    yield (*gapped, False)
    yield from ((config, file, True) for config, file in made_up(folder, given.runs))


def captures(count, program, folder):
    """Each capture is fine, and carries what its record has."""
    if not shutil.which("tshark"):
        raise frame.Skipped("tshark isn't installed (apt-get install tshark)")
    for config, file, is_made_up in pairs_of(count.options, program, folder):
        name = os.path.basename(file)
        if not count.wants(name):
            continue
        with open(config, "rb") as text:
            settings = tomllib.load(text)["line"]
        sizes = {"linkaddr_len": settings["link"], "cot_len": settings["cause"], "asdu_addr_len": settings["ca"],
                 "asdu_ioa_len": settings["ioa"]}
        record, capture = os.path.join(folder, "record"), count.options.keep or os.path.join(folder, "capture.pcapng")
        if file.endswith(".trace") or is_made_up:
            text = record_of(program, config, file)
        else:
            with open(file) as lines:
                text = lines.read()
        with open(record, "w") as out:
            out.write(text)
        with open(capture, "wb") as out:
            subprocess.run([program, "capture", config, record], stdout=out, check=True)
        faults = faults_of(capture, sizes, text, is_made_up)
        count.judge(name, not faults, "; ".join(faults))


if __name__ == "__main__":
    frame.main(
        captures,
        words={
            "--runs": {"type": int, "default": 20},
            "--keep": {"metavar": "FILE", "help": "where the last capture is to stay"},
            "pairs": {"nargs": "*", "metavar": "CONFIG RECORD"},
        },
    )
