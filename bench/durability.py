#!/usr/bin/env python3
"""Measures what `telegate run --state` costs: syncs, octets, time, and a start with a full queue.

    bench/durability.py [--program FILE] [--seconds N] [--polls N] [--pieces N] [--folder DIR] [PART ..]

Nothing in the gate depends on these figures (docs/PERFORMANCE.md has them). Parts, all by default:

    polls   one outstation is polled so many times a second (`--polls`, 25), for so long (`--seconds`, 60): each poll brings a report,
            each fourth, or none. A control centre acknowledges each eighth. Told are syncs, writes and octets a poll, what a day of
            it is, and how many of the octets are lines of each kind of event: S of the line, R of a control centre, T ticks, W the
            wall clock.
    pace    the same as fast as it goes, without `--state` and with it in turn: what a sync adds to a poll.
    way     reports at that pace, without and with `--state`, `--log` and visitors of `--status`: how long each takes from the line's
            last octet to its I frame. Both ends are one process of one thread in C (bench/way.c).
    start   so many pieces of 249 octets are queued (`--pieces`, the most that a queue of 65,535 places takes), the gateway is
            killed, and started again three times: how long until a control centre is told that it may begin, the processor time
            of that, the peak of its memory, and the size of the directory.

A library in front of the C library's counts the calls that write and sync. The state is kept below `--folder`, since what a sync costs
is the disk's. All else stays on the loopback. The program is the one that ./build makes.
"""
import argparse
import os
import signal
import struct
import subprocess
import sys
import tempfile
import threading
import time

sys.path.append(os.path.join(os.path.dirname(os.path.dirname(os.path.abspath(__file__))), "checks"))
import ends
import frame

# Numbers in a file that is mapped, so that they outlive a process that is killed: syncs, nanoseconds in them, writes, octets.
LIBRARY = r"""
#define _GNU_SOURCE
#include <dlfcn.h>
#include <fcntl.h>
#include <stdlib.h>
#include <sys/mman.h>
#include <time.h>
#include <unistd.h>

static long unused[4], *counts = unused;

__attribute__((constructor)) static void begin(void) {
    int file = open(getenv("COUNTS"), O_RDWR);
    void *page = mmap(NULL, sizeof unused, PROT_READ | PROT_WRITE, MAP_SHARED, file, 0);
    if (page != MAP_FAILED) counts = page;
    close(file);
}

#define REAL(type, name, ...) static type (*real)(__VA_ARGS__); if (!real) real = dlsym(RTLD_NEXT, name)

static long now(void) {
    struct timespec t;
    clock_gettime(CLOCK_MONOTONIC, &t);
    return t.tv_sec * 1000000000L + t.tv_nsec;
}

ssize_t pwrite64(int file, const void *octets, size_t count, off64_t at) {
    REAL(ssize_t, "pwrite64", int, const void *, size_t, off64_t);
    ssize_t n = real(file, octets, count, at);
    if (n > 0) counts[2] += 1, counts[3] += n;
    return n;
}

ssize_t pwrite(int file, const void *octets, size_t count, off_t at) { return pwrite64(file, octets, count, at); }

int fdatasync(int file) {
    REAL(int, "fdatasync", int);
    long began = now();
    int answer = real(file);
    counts[0] += 1, counts[1] += now() - began;
    return answer;
}

int fsync(int file) {
    REAL(int, "fsync", int);
    long began = now();
    int answer = real(file);
    counts[0] += 1, counts[1] += now() - began;
    return answer;
}
"""

SETTINGS = """[line]
link = 1
cause = 1
ca = 1
ioa = 1
queue = {queue}
[[station]]
address = 1
ca = 1
[live]
line = "tcp:127.0.0.1:{line}"
listen = "127.0.0.1:{listener}"
"""

# A single point, spontaneous; and 48 integrated totals at successive addresses, which are a piece of 249 octets.
POINT = bytes.fromhex("01010301" "0A01")
TOTALS = bytes.fromhex("0FB0030101") + bytes(5 * 48)
# Three pieces: 124 single points of their own addresses.
POINTS = bytes.fromhex("017C0301") + b"".join(bytes([n, 0]) for n in range(1, 125))


class Counts:
    """What the library counts."""

    def __init__(self, folder):
        self.path = os.path.join(folder, "counts")
        with open(self.path, "wb") as file:
            file.write(bytes(32))
        self.environment = dict(os.environ, LD_PRELOAD=ends.library(folder, "counting", LIBRARY), COUNTS=self.path)

    def now(self):
        with open(self.path, "rb") as file:
            return struct.unpack("4q", file.read(32))


class Field(threading.Thread):
    """One outstation behind a device server, which gives its reports in their order, at a pace; it serves one gateway after another."""

    def __init__(self, reports, pause=0.0):
        super().__init__(daemon=True)
        self.server = ends.socket.create_server(("127.0.0.1", 0))
        self.reports, self.pause = reports, pause
        self.given, self.requests, self.last, self.bit = 0, 0, None, None
        self.start()

    def port(self):
        return self.server.getsockname()[1]

    def run(self):
        while True:
            try:
                line = ends.Line(self.server.accept()[0])
            except OSError:
                return
            line.stream.settimeout(None)
            try:
                while True:
                    function, _, frame = line.request()
                    line.answer(self.answer(function, frame[1]))
            except (OSError, EOFError):
                line.stream.close()

    def answer(self, function, control):
        if function == 9:
            return ends.fixed(11, 1)
        if function == 0:
            self.bit = 0
            return b"\xe5"
        self.requests += 1
        if self.bit != control & 0x20:
            self.bit = control & 0x20
            if self.pause:
                time.sleep(self.pause)
            report = self.reports(self.given)
            self.last = b"\xe5" if report is None else ends.data(8, 1, report)
            self.given += report is not None
        return self.last


class Centre(threading.Thread):
    """A control centre that acknowledges each eighth I frame, and counts them."""

    def __init__(self, listener):
        super().__init__(daemon=True)
        self.listener, self.is_over, self.frames = listener, False, 0
        self.start()

    def run(self):
        centre = connected(self.listener)
        centre.send(ends.START)
        acknowledged = 0
        while not self.is_over:
            for apdu in centre.heard(0.2) or []:
                if apdu == ends.TEST:
                    centre.send(ends.TESTED)
            self.frames = centre.received
            if centre.received >= acknowledged + 8:
                acknowledged = centre.received
                centre.acknowledge()
        centre.stream.close()


def connected(listener):
    """A connection to the gateway, as soon as it listens."""
    end = time.monotonic() + ends.PATIENCE
    while True:
        try:
            return ends.Centre(ends.socket.create_connection(("127.0.0.1", listener), timeout=ends.PATIENCE))
        except ConnectionRefusedError:
            if time.monotonic() > end:
                raise
            time.sleep(0.002)


class Gateway:
    """`telegate run`, with a state in this folder or none."""

    def __init__(self, program, folder, field, queue=1000, state=True, environment=None, log=False, status=None):
        self.listener = ends.free_port()
        self.state = os.path.join(folder, "state")
        config = os.path.join(folder, "gateway.toml")
        with open(config, "w") as file:
            file.write(SETTINGS.format(queue=queue, line=field.port(), listener=self.listener))
        kept, told = ["--state", self.state] if state else [], ["--log"] if log else []
        shown = ["--status", f"127.0.0.1:{status}"] if status else []
        self.words = [program, "run", "--redial", *kept, *told, *shown, config]
        self.environment = environment
        self.start()

    def start(self):
        self.process = subprocess.Popen(self.words, stdin=subprocess.DEVNULL, stderr=subprocess.DEVNULL, env=self.environment)

    def kill(self):
        self.process.send_signal(signal.SIGKILL)
        self.process.wait()

    def peak(self):
        """The peak of the resident memory, in octets."""
        with open(f"/proc/{self.process.pid}/status") as status:
            return next(int(line.split()[1]) * 1024 for line in status if line.startswith("VmHWM:"))

    def processor(self):
        """The processor time so far, in seconds, which no other work stretches."""
        with open(f"/proc/{self.process.pid}/stat") as stat:
            fields = stat.read().rsplit(")", 1)[1].split()
        return (int(fields[11]) + int(fields[12])) / os.sysconf("SC_CLK_TCK")

    def size(self):
        """The octets of the directory, and those that its files take on the disk."""
        found = [os.stat(os.path.join(self.state, name)) for name in os.listdir(self.state)]
        return sum(it.st_size for it in found), sum(it.st_blocks * 512 for it in found)


class Each:
    """Reports at each so manieth poll, or at none."""

    def __init__(self, distance):
        self.distance, self.polls = distance, 0

    def __call__(self, given):
        self.polls += 1
        return POINT if self.distance and self.polls % self.distance == 0 else None


def events(folder):
    """The lines of events that the newest segment of a state has, as it stands there."""
    newest, found = b"", b""
    for name in os.listdir(folder):
        with open(os.path.join(folder, name), "rb") as file:
            head, _, behind = file.read().partition(b"\n")
        if head.startswith(b"telegate state") and head > newest:
            newest, found = head, behind[int(head.split(b" octets ")[1][:16], 16) :]
    return found.partition(b"\0")[0].splitlines(keepends=True)


def measure_polls(program, folder, seconds, polls):
    """What is synced and written at so many polls a second, of three kinds."""
    for distance, brings in ((1, "each with a report"), (4, "each fourth with one"), (0, "none")):
        with tempfile.TemporaryDirectory(dir=folder) as own:
            measure_day(f"polls, {brings}:", program, own, seconds, 1 / polls, distance)


def measure_day(what, program, folder, seconds, pause, distance):
    """The same of one kind, and what the lines of events hold."""
    counts = Counts(folder)
    field = Field(Each(distance), pause)
    gateway = Gateway(program, folder, field, environment=counts.environment)
    centre = Centre(gateway.listener)
    time.sleep(2)
    before, requests, began = counts.now(), field.requests, time.monotonic()
    first = len(events(gateway.state))
    time.sleep(seconds)
    after, asked, took = counts.now(), field.requests - requests, time.monotonic() - began
    lines = events(gateway.state)[first:]
    size = gateway.size()[0]
    centre.is_over = True
    gateway.kill()
    syncs, nanoseconds, writes, octets = (now - then for now, then in zip(after, before))
    print(f"{what} {asked} polls, {asked / took:.1f} a second, {centre.frames} I frames came")
    waited = nanoseconds / max(1, syncs) / 1e6
    print(f"{what} {syncs / asked:.3f} syncs a poll, {waited:.3f} ms each; {writes / asked:.3f} writes")
    day = octets / took * 0.0864
    print(f"{what} {octets / asked:.1f} octets a poll; a day {day:.0f} MB, the directory {size / 1e6:.2f} MB")
    for kind in sorted({line.split()[1] for line in lines}):
        those = [line for line in lines if line.split()[1] == kind]
        many, octets = len(those) / took, sum(map(len, those)) / asked
        print(f"{what} {kind.decode()} {many:.2f} lines a second, {octets:.2f} octets a poll")
    digits = sum(len(line.split()[0]) for line in lines)
    print(f"{what} {digits / asked:.2f} octets a poll are digits of moments", flush=True)


def paced(program, folder, seconds, state):
    """The time of a poll, in ms, as fast as it goes."""
    field = Field(lambda n: POINT)
    gateway = Gateway(program, folder, field, state=state)
    centre = Centre(gateway.listener)
    time.sleep(1)
    before, began = field.requests, time.monotonic()
    time.sleep(seconds)
    asked, took = field.requests - before, time.monotonic() - began
    centre.is_over = True
    gateway.kill()
    return took / asked * 1000


def measure_pace(program, folder, seconds):
    """What a state adds to a poll."""
    for turn in range(3):
        without = paced(program, os.path.join(folder), seconds / 6, False)
        with tempfile.TemporaryDirectory(dir=folder) as own:
            kept = paced(program, own, seconds / 6, True)
        print(f"pace: a poll takes {without:.3f} ms without a state, {kept:.3f} ms with one: {kept - without:.3f} ms more", flush=True)


def look(listener, is_over):
    """Asks for the page without end, and reads it."""
    while not is_over.is_set():
        try:
            with ends.socket.create_connection(("127.0.0.1", listener), timeout=1) as visitor:
                visitor.sendall(b"GET / HTTP/1.1\r\nHost: gateway\r\n\r\n")
                while visitor.recv(65536):
                    pass
        except OSError:
            pass


def compiled(folder):
    """The two ends of bench/way.c as a program."""
    text = os.path.join(os.path.dirname(os.path.abspath(__file__)), "way.c")
    program = os.path.join(folder, "way")
    subprocess.run(["cc", "-O2", "-o", program, text], check=True)
    return program


class Elsewhere:
    """A line at which another process listens."""

    def __init__(self):
        self.place = ends.free_port()

    def port(self):
        return self.place


def ways(program, both, folder, seconds, polls, state=False, log=False, visitors=0):
    """How long each report takes from the line's last octet to its I frame, in ms, in order."""
    line, shown, is_over = Elsewhere(), visitors and ends.free_port(), threading.Event()
    gateway = Gateway(program, folder, line, state=state, log=log, status=shown)
    for _ in range(visitors):
        threading.Thread(target=look, args=(shown, is_over), daemon=True).start()
    words = [both, line.place, gateway.listener, polls, int((seconds + 1) * polls)]
    told = subprocess.run(list(map(str, words)), stdout=subprocess.PIPE, check=True).stdout
    is_over.set()
    gateway.kill()
    # What waited for the control centre took the time of its start.
    return sorted(float(microseconds) / 1000 for microseconds in told.split()[int(polls) :])


def measure_way(program, folder, seconds, polls):
    """The way of a report, without and with what a run may do beside."""
    runs = {
        "nothing": {},
        "a log": {"log": True},
        "a state": {"state": True},
        "both": {"log": True, "state": True},
        "four visitors": {"visitors": 4},
    }
    both = compiled(folder)
    for _ in range(2):
        for beside, what in runs.items():
            with tempfile.TemporaryDirectory(dir=folder) as own:
                found = ways(program, both, own, seconds / 4, polls, **what)
            parts = {"least": 0, "median": 0.5, "99 %": 0.99, "most": 1}
            told = (f"{word} {found[int(part * (len(found) - 1))]:.3f}" for word, part in parts.items())
            print(f"way beside {beside}, {len(found)} reports, in ms: {', '.join(told)}", flush=True)


def until_started(gateway):
    """Seconds until a control centre is told that it may begin, from now, and the connection."""
    began = time.monotonic()
    centre = connected(gateway.listener)
    centre.send(ends.START)
    while ends.STARTED not in (centre.heard(0.05) or []):
        if time.monotonic() > began + ends.PATIENCE:
            sys.exit("durability: no control centre was let in")
    return time.monotonic() - began, centre


def measure_start(program, folder, pieces):
    """A start with a full queue of the longest pieces."""

    def reports(n):
        if n < pieces - 3:
            return TOTALS
        return POINTS if n == pieces - 3 else None

    field = Field(reports)
    gateway = Gateway(program, folder, field, queue=max(3, pieces))
    began, most = time.monotonic(), 0
    while field.given < pieces - 2:
        time.sleep(0.2)
        most = max(most, gateway.size()[1])
        if gateway.process.poll() is not None or time.monotonic() > began + 600:
            sys.exit(f"durability: {field.given} reports were given, status {gateway.process.poll()}")
    # The last answer is heard before the next look.
    time.sleep(1)
    print(f"start: {pieces} pieces were queued in {time.monotonic() - began:.0f} s, {gateway.peak() / 1e6:.1f} MB at the most")
    print(f"start: the directory took {most / 1e6:.1f} MB at the most meanwhile, and {gateway.size()[0] / 1e6:.1f} MB at the end", flush=True)
    for turn in range(3):
        gateway.kill()
        gateway.start()
        seconds, centre = until_started(gateway)
        processor = gateway.processor()
        centre.stream.close()
        sizes = gateway.size()
        print(
            f"start {turn + 1}: {seconds:.2f} s until a control centre may begin, {processor:.2f} s of the processor, "
            f"{gateway.peak() / 1e6:.1f} MB at the most, "
            f"the directory {sizes[0] / 1e6:.1f} MB, on the disk {sizes[1] / 1e6:.1f} MB",
            flush=True,
        )
    gateway.kill()


def main():
    words = argparse.ArgumentParser(description=__doc__, formatter_class=argparse.RawDescriptionHelpFormatter)
    words.add_argument("--program", default=frame.PROGRAM)
    words.add_argument("--seconds", type=float, default=60)
    words.add_argument("--polls", type=float, default=25)
    words.add_argument("--pieces", type=int, default=65535)
    words.add_argument("--folder", help="where the state is kept; by default where temporary files are")
    words.add_argument("parts", nargs="*", help="polls, pace, way, start")
    given = words.parse_args()
    parts = {
        "polls": lambda folder: measure_polls(given.program, folder, given.seconds, given.polls),
        "pace": lambda folder: measure_pace(given.program, folder, given.seconds),
        "way": lambda folder: measure_way(given.program, folder, given.seconds, given.polls),
        "start": lambda folder: measure_start(given.program, folder, given.pieces),
    }
    for part in given.parts or parts:
        if part not in parts:
            words.error(f"no part {part}: " + ", ".join(parts))
        with tempfile.TemporaryDirectory(dir=given.folder) as folder:
            parts[part](folder)
    return 0


if __name__ == "__main__":
    sys.exit(main())
