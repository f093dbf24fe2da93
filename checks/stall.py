#!/usr/bin/env python3
"""Stalls `telegate run` between an outstation that answers in time and a control centre, and judges
whether every report went through once.

    checks/stall.py [--program FILE] [--only NAME] [--seconds N]

The outstation plays IEC 60870-5-101 as the standard says. A request with the frame count bit of the
one before gets the answer of the one before. Any other takes what was given as received. The
outstation answers within 170 ms (`answer_ms` is 1000) and gives numbered reports. The control
centre plays IEC 60870-5-104 and notes each report that it receives. Each part plays this for some
seconds:

- stopped:    the gateway is stopped (SIGSTOP) for 1.2 s again and again, and goes on (SIGCONT)
- lossy:      the same, while the line loses answers too
- unread:     control centres come and go that read only at their end, and then whole APDUs; and
              now and then one that reads
- parted:     the system takes only a part of what the gateway writes to the control centre, now
              and then
- redialled:  the line is cut again and again, if the program knows `run --redial`
- crowded:    more connections than a listener takes at once, and a process with too few descriptors

No stall may cut the control centre's connection. No report may be missing or come twice. (What was
sent on a connection and not acknowledged before its end comes again on the next one and counts
once.) On a line that loses nothing no request may be repeated. All of it is on the loopback, on
ports that the system chooses.
"""
import os
import random
import resource
import signal
import socket
import subprocess
import tempfile
import threading
import time

import ends
import frame

STARTDT = bytes.fromhex("680407000000")
CONFIG = """[line]
link = 1
cause = 1
ca = 1
ioa = 2
answer_ms = 1000
[[station]]
address = 1
ca = 1
[live]
line = "tcp:127.0.0.1:{}"
listen = "127.0.0.1:{}"
"""


def fixed(control):
    return bytes([0x10, control, 1, (control + 1) % 256, 0x16])


def report(number):
    """A scaled value, spontaneous: object number / 30000, value number % 30000."""
    asdu = bytes([11, 1, 3, 1]) + (number // 30000 + 1).to_bytes(2, "little") + (number % 30000).to_bytes(2, "little") + b"\0"
    user = bytes([0x08, 1]) + asdu
    return bytes([0x68, len(user), len(user), 0x68]) + user + bytes([sum(user) % 256, 0x16])


class Outstation(threading.Thread):
    """Station 1, over as many connections as come, one after another."""

    def __init__(self, chance, loss=0.0, delay=0.02):
        super().__init__(daemon=True)
        self.server = socket.create_server(("127.0.0.1", 0))
        self.port = self.server.getsockname()[1]
        self.chance, self.loss, self.delay = chance, loss, delay
        self.given = 0
        self.requests = self.repeats = 0
        # How many answers this machine made late, so that the request after may be a repeat.
        self.late = 0
        # The longest time from an answer to the next request, in s: a whole round of the gateway.
        self.answered, self.longest = None, 0.0
        self.before, self.answer = None, b""
        self.stream = None
        self.is_idle = False

    def run(self):
        while True:
            try:
                self.stream, _ = self.server.accept()
                self.stream.setsockopt(socket.IPPROTO_TCP, socket.TCP_NODELAY, 1)
                self.serve(self.stream)
            except OSError:
                if self.server.fileno() < 0:
                    return

    def serve(self, stream):
        octets = b""
        while piece := stream.recv(1024):
            octets += piece
            while len(octets) >= 5:
                self.hear(stream, octets[:5])
                octets = octets[5:]

    def hear(self, stream, request):
        self.requests += 1
        began = time.time()
        if self.answered:
            self.longest = max(self.longest, time.time() - self.answered)
        if request == self.before:
            self.repeats += 1
        if not (request == self.before and request[1] & 0x10):
            self.answer = self.answer_to(request[1] & 0x0F)
        self.before = request
        time.sleep(self.delay + (0.15 if self.chance.random() < 0.05 else 0))
        if self.chance.random() >= self.loss:
            stream.sendall(self.answer)
            self.answered = time.time()
            self.late += self.answered - began > 0.5
        else:
            self.answered = None

    def answer_to(self, function):
        if function == 9:
            return fixed(0x0B)
        if function in (10, 11) and not self.is_idle and self.chance.random() < 0.7:
            self.given += 1
            return report(self.given - 1)
        return b"\xe5" if function == 0 else fixed(0x09)

    def cut(self):
        """Cuts the line, and says whether it was there: after the last cut it may not be back yet."""
        try:
            self.stream.shutdown(socket.SHUT_RDWR)
        except (AttributeError, OSError):
            return False
        return True


class Centre(threading.Thread):
    """A control centre that reads and acknowledges, on connection after connection."""

    def __init__(self, port):
        super().__init__(daemon=True)
        self.port = port
        self.heard = []
        self.is_over = False
        self.connections = 0
        # All octets of each connection that came to its end.
        self.ended = []

    def run(self):
        while not self.is_over:
            try:
                with socket.create_connection(("127.0.0.1", self.port), timeout=2) as stream:
                    self.connections += 1
                    stream.settimeout(0.1)
                    stream.sendall(STARTDT)
                    self.talk(stream)
            except OSError:
                time.sleep(0.05)

    def talk(self, stream):
        octets, received, whole = b"", 0, b""
        while not self.is_over:
            try:
                piece = stream.recv(4096)
            except TimeoutError:
                continue
            if not piece:
                self.ended.append(whole)
                return
            octets += piece
            whole += piece
            while len(octets) >= 2 and len(octets) >= octets[1] + 2:
                if not are_whole(octets):
                    self.ended.append(whole)
                    return
                apdu, octets = octets[: octets[1] + 2], octets[octets[1] + 2:]
                if apdu[2] & 1 == 0:
                    received = (received + 1) % 32768
                    # Acknowledged at once, so that a report that is heard is never sent again.
                    stream.sendall(bytes([0x68, 4, 1, 0]) + (received * 2).to_bytes(2, "little"))
                    objects = apdu[12:]
                    address = int.from_bytes(objects[:3], "little")
                    self.heard.append((address - 1) * 30000 + int.from_bytes(objects[3:5], "little"))
                elif apdu[2] == 0x43:
                    stream.sendall(bytes.fromhex("680483000000"))


class Run:
    """The gateway between an outstation and the port at which it listens, with a library in front
    of the C library's."""

    def __init__(self, program, station, words=(), library=None):
        self.port = ends.free_port()
        self.config = tempfile.NamedTemporaryFile("w", suffix=".toml")
        self.config.write(CONFIG.format(station.port, self.port))
        self.config.flush()
        station.start()
        more = {"LD_PRELOAD": library, "LISTENER": str(self.port)} if library else {}
        self.process = subprocess.Popen([program, "run", *words, self.config.name], stderr=subprocess.PIPE, env={**os.environ, **more})

    def stop(self, seconds):
        self.process.send_signal(signal.SIGSTOP)
        time.sleep(seconds)
        self.process.send_signal(signal.SIGCONT)

    def end(self):
        self.process.send_signal(signal.SIGCONT)
        self.process.kill()
        told = self.process.communicate()[1].decode()
        self.config.close()
        return told


def settle(station, centre):
    """No report is given any more, and those that were come through."""
    station.is_idle = True
    end = time.time() + 8
    while time.time() < end and len(set(centre.heard)) < station.given:
        time.sleep(0.05)
    time.sleep(0.3)
    centre.is_over = True
    centre.join(3)


def once(station, centre, faults):
    """Each report came once, in order."""
    missing = sorted(set(range(station.given)) - set(centre.heard))
    twice = len(centre.heard) - len(set(centre.heard))
    if missing:
        faults.append(f"{len(missing)} of {station.given} reports never heard, the first of them {missing[0]}")
    if twice and centre.connections == 1:
        faults.append(f"{twice} reports heard twice")
    if centre.heard != sorted(centre.heard) and centre.connections == 1:
        faults.append("reports out of order")


def stopped(program, seconds, loss):
    chance = random.Random(1)
    station, faults = Outstation(chance, loss), []
    run = Run(program, station)
    centre = Centre(run.port)
    centre.start()
    end, stops = time.time() + seconds, 0
    while time.time() < end:
        time.sleep(0.2 + chance.random() * 0.4)
        run.stop(1.2)
        stops += 1
    settle(station, centre)
    once(station, centre, faults)
    if centre.connections != 1:
        faults.append(f"a stall cut the connection {centre.connections - 1} times")
    if loss == 0 and station.repeats > station.late:
        faults.append(f"{station.repeats} of {station.requests} requests repeated, though the line answered in time")
    run.end()
    return faults, f"{stops} stops, {station.given} reports, {station.repeats} repeats, {centre.connections} connections"


def left_in(stream):
    """The octets that come until the other end closes, or nothing comes any more."""
    octets, end = b"", time.time() + 5
    stream.settimeout(0.3)
    try:
        while time.time() < end and (piece := stream.recv(65536)):
            octets += piece
    except OSError:
        pass
    return octets


def are_whole(octets):
    """Whether the octets are whole APDUs, and at their end at most the beginning of one."""
    while len(octets) > 1:
        if octets[0] != 0x68 or not 4 <= octets[1] <= 253:
            return False
        octets = octets[2 + octets[1] :]
    return octets in (b"", b"\x68")


def unread(program, seconds):
    """Control centres that don't read, until the window or the system's buffers are full, between those that do."""
    station, faults = Outstation(random.Random(2)), []
    run = Run(program, station)
    end, visits, heard, most = time.time() + seconds, 0, [], 0
    while time.time() < end:
        visits += 1
        with socket.socket() as deaf:
            deaf.setsockopt(socket.SOL_SOCKET, socket.SO_RCVBUF, 2048)
            deaf.settimeout(0.2)
            try:
                deaf.connect(("127.0.0.1", run.port))
                deaf.sendall(STARTDT)
                # Confirmations that it doesn't read, of some hundred tests in each piece.
                till = time.time() + 2
                while time.time() < till:
                    deaf.sendall(bytes.fromhex("680443000000") * 170)
            except OSError:
                pass
            # At its end it reads what stands in the buffers: a part of a write was never taken as the whole.
            left = left_in(deaf)
            most = max(most, len(left))
            if not are_whole(left):
                faults.append(f"an APDU was broken off among {len(left)} octets")
        # One that reads gets all that waits.
        centre = Centre(run.port)
        centre.start()
        time.sleep(1)
        centre.is_over = True
        centre.join(3)
        heard += centre.heard
    centre = Centre(run.port)
    centre.heard = heard
    centre.start()
    settle(station, centre)
    centre.connections = visits + 1
    once(station, centre, faults)
    if station.repeats > station.late:
        faults.append(f"{station.repeats} of {station.requests} requests repeated, though the line answered in time")
    run.end()
    told = f"{visits} that read at their end alone, at most {most} octets, {station.given} reports, {station.repeats} repeats"
    return faults, f"{told}; at most {station.longest * 1000:.0f} ms from an answer to the next request"


# Of what the gateway writes to a control centre the system takes only a part now and then.
PARTS = r"""
#define _GNU_SOURCE
#include <dlfcn.h>
#include <netinet/in.h>
#include <stdlib.h>
#include <sys/socket.h>
#include <unistd.h>

static size_t part(int file, size_t count) {
    static int calls;
    struct sockaddr_in here;
    socklen_t size = sizeof here;
    if (count < 2 || getsockname(file, (struct sockaddr *)&here, &size) || here.sin_family != AF_INET) return count;
    if (ntohs(here.sin_port) != atoi(getenv("LISTENER"))) return count;
    // Of twenty-one calls three take a part: one by itself, whose rest is taken by the next, and two that follow each other.
    int turn = calls++ % 21;
    return turn == 5 || turn == 12 || turn == 13 ? count / 2 : count;
}

#define REAL(type, name, ...) static type (*real)(__VA_ARGS__); if (!real) real = dlsym(RTLD_NEXT, name)

ssize_t send(int file, const void *octets, size_t count, int flags) {
    REAL(ssize_t, "send", int, const void *, size_t, int);
    return real(file, octets, part(file, count), flags);
}

ssize_t write(int file, const void *octets, size_t count) {
    REAL(ssize_t, "write", int, const void *, size_t);
    return real(file, octets, part(file, count));
}
"""


def parted(program, seconds):
    """The system takes a part of a write: the rest is written at once, or the connection is cut, and no APDU is broken off."""
    station, faults = Outstation(random.Random(6)), []
    with tempfile.TemporaryDirectory() as folder:
        run = Run(program, station, library=ends.library(folder, "parts", PARTS))
        centre = Centre(run.port)
        centre.start()
        time.sleep(seconds / 2)
        settle(station, centre)
        if not centre.ended:
            faults.append("no connection was cut")
        for octets in centre.ended:
            if not are_whole(octets):
                faults.append(f"an APDU was broken off: {octets.hex()}")
        if sorted(set(centre.heard)) != list(range(station.given)):
            faults.append(f"of {station.given} reports {len(set(centre.heard))} came")
        run.end()
    return faults, f"{len(centre.ended)} connections cut, {station.given} reports"


def redialled(program, seconds):
    usage = subprocess.run([program, "run", "--help"], capture_output=True, text=True, check=False)
    if "--redial" not in usage.stdout + usage.stderr:
        return None, "the program has no `run --redial`"
    chance = random.Random(3)
    station, faults = Outstation(chance), []
    run = Run(program, station, ["--redial"])
    centre = Centre(run.port)
    centre.start()
    end, cuts = time.time() + seconds, 0
    while time.time() < end:
        time.sleep(0.5 + chance.random())
        cuts += station.cut()
    time.sleep(1.5)
    if run.process.poll() is not None:
        faults.append(f"the run ended with {run.process.returncode}")
    settle(station, centre)
    once(station, centre, faults)
    run.end()
    return faults, f"{cuts} cuts of the line, {station.given} reports, {centre.connections} connections"


def first_answer(port):
    """How long a control centre waits for the answer to its start, in s."""
    begun = time.time()
    while time.time() < begun + 10:
        try:
            with socket.create_connection(("127.0.0.1", port), timeout=5) as centre:
                centre.settimeout(5)
                centre.sendall(STARTDT)
                if centre.recv(6):
                    return time.time() - begun
        except OSError:
            time.sleep(0.01)
    return None


def crowded(program, _seconds):
    faults = []
    station = Outstation(random.Random(4))
    run = Run(program, station)
    first_answer(run.port)
    crowd = []
    for _ in range(400):
        one = socket.socket()
        one.setblocking(False)
        one.connect_ex(("127.0.0.1", run.port))
        crowd.append(one)
    waited = first_answer(run.port)
    for one in crowd:
        one.close()
    if waited is None or waited > 5:
        faults.append(f"a control centre waited {waited} s behind 400 others")
    run.end()

    station = Outstation(random.Random(5))
    run = Run(program, station)
    first_answer(run.port)
    time.sleep(0.2)
    # As many descriptors as are open: none is left for a connection.
    limit = 1 + max(int(name) for name in os.listdir(f"/proc/{run.process.pid}/fd"))
    resource.prlimit(run.process.pid, resource.RLIMIT_NOFILE, (limit, limit))
    crowd = [socket.create_connection(("127.0.0.1", run.port), timeout=5) for _ in range(20)]
    time.sleep(0.5)
    is_up = run.process.poll() is None
    for one in crowd:
        one.close()
    told = run.end()
    if not is_up:
        faults.append("with no descriptor left the run ended")
    if not 1 <= told.count("connections can't be accepted") <= 3:
        faults.append("that connections can't be accepted wasn't said, or again and again")
    return faults, f"{waited:.2f} s behind 400 others; with no descriptor left it said: {told.strip() or 'nothing'}"


def part(name, play):
    """The part of this name: what it plays for some seconds, and what is wrong then."""

    def judged(count, program, _folder):
        faults, told = play(program, count.options.seconds)
        if faults is None:
            raise frame.Skipped(told)
        print(f"{name}: {told}", flush=True)
        count.judge(name, not faults, "; ".join(faults))

    return name, judged


if __name__ == "__main__":
    frame.main(
        part("stopped", lambda program, seconds: stopped(program, seconds, 0.0)),
        part("lossy", lambda program, seconds: stopped(program, seconds, 0.1)),
        part("unread", unread),
        part("parted", parted),
        part("redialled", redialled),
        part("crowded", crowded),
        words={"--seconds": {"type": float, "default": 12}},
    )
