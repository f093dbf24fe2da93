#!/usr/bin/env python3
"""Runs `telegate run` between an outstation and control centres that do as they please, and judges
whether it stayed up.

    checks/storm.py [--program FILE] [--only NAME] [--seconds N] [--seed N]

The line loses answers and sends noise in their place. Control centres come one after another, send
commands, tests, noise and wrong receive numbers, read or don't, and go with or without a reset. At
the end the line is closed, and the gateway has to end with status 3.

The script prints the requests on the line, the connections, the octets that they got, and the
gateway's resident memory before the end. It passes if the gateway stayed up, took octets from both
sides, and ended so.
"""
import random
import socket
import struct
import threading
import time

import ends
import frame

SETTINGS = """[line]
link = 1
cause = 1
ca = 1
ioa = 2
answer_ms = 20
[[station]]
address = 1
ca = 1
[[station]]
address = 2
ca = 2
"""
COMMAND = bytes.fromhex("680E0000000064010600010000000014")


def answer(request, chance):
    """None, noise, or what an outstation might say."""
    if chance.random() < 0.1:
        return b""
    if chance.random() < 0.1:
        return chance.randbytes(chance.randint(1, 300))
    if request[0] != 0x10:
        return b"\xe5"
    function, address = request[1] % 16, request[2]
    if function == 9:
        return ends.fixed(0x0B, address)
    if function in (10, 11) and chance.random() < 0.5:
        return ends.data(0x08, address, bytes([1, 1, 3, address, 100, 0, chance.randint(0, 1)]))
    return b"\xe5"


def serve(line, end, chance, heard):
    line.settimeout(0.05)
    while time.time() < end:
        try:
            request = line.recv(1024)
        except TimeoutError:
            continue
        if not request:
            return
        heard.append(len(request))
        line.sendall(answer(request, chance))


def visit(listener, end, chance):
    """One connection of a control centre; answers how many octets it got."""
    got = 0
    with socket.create_connection(listener, timeout=2) as centre:
        centre.settimeout(0.05)
        centre.sendall(ends.START)
        for _ in range(chance.randint(1, 60)):
            noise = chance.randbytes(chance.randint(1, 2000))
            receive_number = bytes.fromhex("68040100") + chance.randbytes(2)
            centre.sendall(chance.choices([ends.TEST, COMMAND, noise, receive_number, b""], [30, 20, 5, 5, 40])[0])
            try:
                got += len(centre.recv(4096))
            except TimeoutError:
                pass
            if time.time() > end:
                break
        if chance.random() < 0.5:
            centre.setsockopt(socket.SOL_SOCKET, socket.SO_LINGER, struct.pack("ii", 1, 0))
    return got


def resident(process):
    with open(f"/proc/{process.pid}/status") as status:
        return next(line.split(":")[1].strip() for line in status if line.startswith("VmRSS"))


def peers(count, program, _folder):
    given = count.options
    with ends.Run(program, SETTINGS) as run:
        line, process = run.line.stream, run.process
        end, heard, got, visits = time.time() + given.seconds, [], 0, 0
        station = threading.Thread(target=serve, args=(line, end, random.Random(given.seed), heard))
        station.start()
        chance = random.Random(given.seed + 1)
        while time.time() < end and process.poll() is None:
            try:
                visits += 1
                got += visit(run.listener, end, chance)
            except OSError:
                pass
        is_up = process.poll() is None
        memory = resident(process) if is_up else "none"
        station.join()
        status, _ = run.ended()
    told = f"{len(heard)} requests, {visits} connections, {got} octets; up: {is_up}, memory {memory}; then status {status}"
    print(told)
    count.judge("it stays up, hears both sides, and ends with the line", is_up and status == 3 and len(heard) > 100 and got > 100, told)


if __name__ == "__main__":
    frame.main(peers, words={"--seconds": {"type": int, "default": 10}, "--seed": {"type": int, "default": 1}})
