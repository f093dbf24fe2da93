#!/usr/bin/env python3
"""Captures a live run with every type, and lets Wireshark's dissectors of IEC 60870-5-101 and -104
read both sides of it.

    checks/peers/capture.py [--program FILE] [--only NAME] [--keep FILE]

No frame may be malformed on either side. Each type that was reported or commanded has to be seen on
both sides. The script needs tshark and the right to capture on the loopback. Without tshark it is
skipped.
"""
import os
import shutil
import socket
import subprocess
import sys
import time

from ends import COMMANDS, PLAIN, TAGGED, Centre, Outstation, all_reports, free_address, on_socket, start

sys.path.append(os.path.dirname(os.path.dirname(os.path.abspath(__file__))))  # the frame stands one folder up
import frame


def live(program, server, listener):
    """One run with all reports and all commands; answers once it is over."""
    gateway = start(program, "tcp:127.0.0.1:{}".format(server.getsockname()[1]), listener)
    try:
        stream, read, write = on_socket(server)
        station = Outstation(read, write, all_reports())
        station.start()
        centre = Centre(listener)
        centre.hear(1)
        for kind in COMMANDS:
            centre.command(kind)
            centre.hear(0.5)
        stream.shutdown(socket.SHUT_RDWR)
    finally:
        gateway.kill()


def read_back(capture, line, listener, wanted, field):
    """One field of the frames that the filter finds, a list an entry."""
    words = ["tshark", "-n", "-r", capture, "-d", f"tcp.port=={line},iec60870_101", "-d", f"tcp.port=={listener},iec60870_104",
             "-Y", wanted, "-T", "fields", "-e", field]
    said_so = subprocess.run(words, capture_output=True, text=True, check=True).stdout
    return [row for row in said_so.splitlines() if row]


def types_of(rows):
    return {int(kind) for row in rows for kind in row.split(",")}


def dissected(count, program, folder):
    """What tshark says of both sides of the run."""
    if not shutil.which("tshark"):
        raise frame.Skipped("tshark isn't installed (apt-get install tshark)")
    with socket.create_server(("127.0.0.1", 0)) as server:
        capture = count.options.keep or os.path.join(folder, "run.pcapng")
        line, listener = server.getsockname()[1], free_address()
        filter_words = f"tcp port {line} or tcp port {listener[1]}"
        tshark = subprocess.Popen(["tshark", "-q", "-i", "lo", "-f", filter_words, "-w", capture], stderr=subprocess.PIPE)
        time.sleep(3)  # until it listens
        live(program, server, listener)
        time.sleep(1)
        tshark.terminate()
        tshark.wait(10)
    kinds = {*PLAIN, *TAGGED, *COMMANDS, 70}
    for side, port in (("101", line), ("104", listener[1])):
        bad = read_back(capture, line, listener[1], f"_ws.malformed and tcp.port=={port}", "frame.number")
        types = types_of(read_back(capture, line, listener[1], f"iec60870_asdu and tcp.port=={port}", "iec60870_asdu.typeid"))
        print(f"{side}: {len(types & kinds)} of {len(kinds)} types seen, malformed frames: {bad or 'none'}")
        count.judge(f"{side}: no malformed frame", not bad, bad)
        count.judge(f"{side}: each type", kinds <= types, sorted(kinds - types))
    unlike = read_back(capture, line, listener[1], "_ws.expert.severity == error", "_ws.expert.message")
    count.judge("no error is told by the dissectors", not unlike, unlike)


if __name__ == "__main__":
    frame.main(dissected, words={"--keep": {"metavar": "FILE", "help": "where the capture is to stay"}})
