#!/usr/bin/env python3
"""Runs `telegate run` over a serial port: socat stands for the serial device server, and a pair of
ptys for its port.

    checks/peers/ptys.py [--program FILE] [--only NAME] [--baud N]

The outstation sits at the far pty. It sends at the speed of the line, 11 bits a character (IEC
60870-5-1, FT1.2), an octet at a time. Every report has to reach the control centre once and in
order, and every command the outstation. Without socat the script is skipped.
"""
import os
import shutil
import subprocess
import sys
import time
import tty

from ends import Centre, Outstation, all_reports, free_address, start, widened

sys.path.append(os.path.dirname(os.path.dirname(os.path.abspath(__file__))))  # the frame stands one folder up
import frame


def a_port(count, program, folder):
    """Each report and each command goes over the ptys, once and in order."""
    if not shutil.which("socat"):
        raise frame.Skipped("socat isn't installed (apt-get install socat)")
    baud = count.options.baud
    character = 11 / baud
    port, far, socket_path = (os.path.join(folder, name) for name in ("port", "far", "line"))
    ptys = subprocess.Popen(["socat", f"PTY,link={port},rawer", f"PTY,link={far},rawer"])
    while not (os.path.exists(port) and os.path.exists(far)):
        time.sleep(0.02)
    server = subprocess.Popen(["socat", f"UNIX-LISTEN:{socket_path},fork", f"OPEN:{port},rawer"])
    while not os.path.exists(socket_path):
        time.sleep(0.02)
    end = os.open(far, os.O_RDWR | os.O_NOCTTY)
    tty.setraw(end)

    def write(octets):
        for octet in octets:
            time.sleep(character)
            os.write(end, bytes([octet]))

    reports = all_reports()
    station = Outstation(lambda: os.read(end, 1024), write, reports)
    station.start()
    listener = free_address()
    gateway = start(program, f"unix:{socket_path}", listener, "answer_ms = 600")
    try:
        centre = Centre(listener)
        began = time.time()
        centre.hear(2)
        for kind in (45, 46, 47, 48, 49, 100):
            centre.command(kind)
            centre.hear(1)
        took = time.time() - began
    finally:
        for process in (gateway, server, ptys):
            process.kill()
    heard = [asdu for asdu in centre.asdus if asdu[0] < 45 or asdu[0] == 70]
    confirmed = [asdu[2] for asdu in centre.asdus if 45 <= asdu[0] <= 49 or asdu[0] == 100]
    print(f"{baud} baud: {len(reports)} reports given, {len(heard)} heard; {len(station.accepted)} of 6 commands; {took:.0f} s")
    count.judge("each report once and in order", heard == [widened(asdu) for asdu in reports], len(heard))
    count.judge("each command is accepted", len(station.accepted) == 6, station.accepted)
    count.judge("each command is confirmed", confirmed == [7] * 6, confirmed)


if __name__ == "__main__":
    frame.main(a_port, words={"--baud": {"type": int, "default": 9600}})
