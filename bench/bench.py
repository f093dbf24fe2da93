#!/usr/bin/env python3
"""Measures `telegate replay` on large traces made by fixed rules.

    bench/bench.py [--program FILE] [--against FILE | --plain] [--events N] [--runs N] [--growth | --instructions] [--keep FOLDER]
                   [WORKLOAD ..]

For each workload: a trace of about N events is made (the same each time), replayed three times (`--runs`) with the output thrown
away, and the least processor time counts (user and system, so that other work on the machine disturbs little). Printed are the
trace's octets and events a second, what is counted besides (objects, APDUs or commands), and the peak of the resident memory in
octets for each octet of the trace. `--growth` replays each workload at 10,000, 100,000 and 1,000,000 events instead, and prints
the time and memory an event at each. The program is the one that ./build makes.

With `--against` a second program with the same command line runs in turn with the first, so that both meet the same machine. Their
outputs have to be equal: else the workload is told and the end is status 1. Printed besides are the ratios of the least processor
times and of the peak memories, first program to second. `--plain` takes the plain Rust program of bench/plain as the second, which
rustc compiles first.

`--instructions` counts the instructions of one replay instead, by valgrind's callgrind, which no other work disturbs: of 10,000 events,
unless `--events` says otherwise.
"""
import argparse
import filecmp
import os
import re
import shutil
import subprocess
import sys
import tempfile

import plain

TOP = os.path.dirname(os.path.dirname(os.path.abspath(__file__)))


def fixed(control, address):
    return bytes([0x10, control, address, (control + address) % 256, 0x16])


def data(control, address, asdu):
    body = bytes([control, address]) + asdu
    return bytes([0x68, len(body), len(body), 0x68]) + body + bytes([sum(body) % 256, 0x16])


def report(address):
    """One single point at address 100, spontaneous."""
    return data(0x08, address, bytes([0x01, 0x01, 0x03, address, 0x64, 0x00, 0x01]))


def row(count):
    """So many single points from address 1 on, whose addresses have one octet; 124 of them go out in three pieces."""
    return data(0x08, 1, bytes([0x01, count, 0x03, 0x01]) + bytes(octet for point in range(count) for octet in (point + 1, 0x01)))


def acknowledgement(count):
    """An S frame for so many I frames."""
    count %= 32768
    return bytes([0x68, 0x04, 0x01, 0x00, count * 2 % 256, count // 128])


START = bytes.fromhex("680407000000")
TEST = bytes.fromhex("680443000000")


def config(stations=1, queue=1000, k=12, ioa=2):
    lines = ["[line]", "link = 1", "cause = 1", "ca = 1", f"ioa = {ioa}", f"queue = {queue}", "[tcp]", f"k = {k}"]
    for station in range(1, stations + 1):
        lines += ["[[station]]", f"address = {station}", f"ca = {station}"]
    return "\n".join(lines) + "\n"


class Trace:
    """Lines of a trace, a millisecond after one another. They are written at once: what this process holds would count as the
    program's peak memory, which begins as a copy of this process."""

    def __init__(self, file):
        self.file = file
        self.events = 0
        self.counted = 0

    def add(self, what, octets=None):
        self.events += 1
        digits = "" if octets is None else f" {octets.hex().upper()}"
        self.file.write(f"{self.events} {what}{digits}\n")

    def start_stations(self, stations):
        for station in range(1, stations + 1):
            self.add("S", fixed(0x0B, station))
            self.add("S", bytes([0xE5]))

    def start_connection(self):
        self.add("O")
        self.add("R", START)


def steady(t, events, stations=1):
    """A report an event, and an S frame after each eighth."""
    t.start_stations(stations)
    t.start_connection()
    station = 0
    while t.events < events:
        t.add("S", report(station + 1))
        station = (station + 1) % stations
        t.counted += 1
        if t.counted % 8 == 0:
            t.add("R", acknowledgement(t.counted))
    return config(stations), "objects"


def stations(t, events):
    """As `steady`, with 32 stations in turn."""
    return steady(t, events, 32)


def pieces(t, events):
    """As `steady`, with a piece for each octet."""
    t.start_stations(1)
    t.start_connection()
    while t.events < events:
        for octet in report(1):
            t.add("S", bytes([octet]))
        t.counted += 1
        if t.counted % 8 == 0:
            for octet in acknowledgement(t.counted):
                t.add("R", bytes([octet]))
    return config(), "objects"


def flood(t, events):
    """TESTFR act without end, in pieces of 1,024 octets."""
    t.start_stations(1)
    t.start_connection()
    stream = TEST * 512
    place = 0
    while t.events < max(16, events // 100):
        t.add("R", stream[place : place + 1024])
        place = (place + 1024) % 6
        t.counted += 1
    t.counted = t.counted * 1024 // 6
    return config(), "APDUs"


def queue(t, events):
    """A queue of 65,535 places, filled without a connection and then drained, again and again."""
    t.start_stations(1)
    waiting = 0
    while t.events < events:
        while waiting < 65533 and t.events < events:
            t.add("S", report(1))
            waiting += 1
            t.counted += 1
        t.start_connection()
        sent = 0
        while waiting > 0:
            # The window lets 32,767 out.
            now = min(waiting, 32767)
            sent += now
            waiting -= now
            t.add("R", acknowledgement(sent))
        t.add("C")
    return config(queue=65535, k=32767), "objects"


def full(t, events):
    """A queue of 65,535 places, all taken without a connection, and then drained by a window of 32,767 that moves on by eight, again
    and again."""
    t.start_stations(1)
    while t.events < events:
        # Polls go out until fewer than three places are free. So a last report takes three.
        taken = min(65532, events - t.events)
        for _ in range(taken):
            t.add("S", row(1))
        t.add("S", row(124))
        t.counted += taken + 124
        t.start_connection()
        for sent in range(8, taken + 3 + 8, 8):
            t.add("R", acknowledgement(min(sent, taken + 3)))
        t.add("C")
    return config(queue=65535, k=32767, ioa=1), "objects"


# element sizes by type, tags left out (IEC 60870-5-101, 7.2.6)
ELEMENTS = {1: 1, 3: 1, 5: 2, 7: 5, 9: 3, 11: 3, 13: 5, 15: 5, 30: 1, 31: 1, 32: 2, 33: 5, 34: 3, 35: 3, 36: 5, 37: 5}
TAG = bytes.fromhex("D5DD220C9D0218")


def mixed_report(number):
    """A report of 10 to 40 objects of one type, single addresses or a sequence in turn, as many as a frame holds; and how many
    pieces it goes out in."""
    kind = sorted(ELEMENTS)[number * 7 % len(ELEMENTS)]
    tag = TAG if kind >= 30 else b""
    size = ELEMENTS[kind] + len(tag)
    is_sequence = number % 3 == 0
    objects = min(10 + number * 11 % 31, 240 // (size if is_sequence else size + 2))
    element = bytes((number + place) % 4 for place in range(ELEMENTS[kind])) + tag
    head = bytes([kind, objects | (0x80 if is_sequence else 0), 0x03, 0x01])
    first = 100 + number % 50
    if is_sequence:
        return data(0x08, 1, head + first.to_bytes(2, "little") + element * objects), -(-objects // min(127, 240 // size))
    body = b"".join((first + n).to_bytes(2, "little") + element for n in range(objects))
    return data(0x08, 1, head + body), -(-objects // (243 // (size + 3)))


def mixed(t, events):
    """Reports like a utility's: 10 to 40 objects of all types, half of them with tags, an S frame before the window is full."""
    t.start_stations(1)
    t.start_connection()
    sent, waiting, number = 0, 0, 0
    while t.events < events:
        frame, frames = mixed_report(number)
        number += 1
        t.add("S", frame)
        t.counted += 1
        sent, waiting = sent + frames, waiting + frames
        if waiting >= 8:
            t.add("R", acknowledgement(sent))
            waiting = 0
    return config(), "reports"


def long(t, events):
    """Reports of 1 to 80 single points in turn, an S frame before the window is full."""
    t.start_stations(1)
    t.start_connection()
    sent, waiting = 0, 0
    while t.events < events:
        count = 1 + t.counted % 80
        objects = b"".join((100 + n).to_bytes(2, "little") + bytes([n % 2]) for n in range(count))
        t.add("S", data(0x08, 1, bytes([0x01, count, 0x03, 0x01]) + objects))
        frames = -(-count // 60)
        t.counted += 1
        sent, waiting = sent + frames, waiting + frames
        if waiting >= 8:
            t.add("R", acknowledgement(sent))
            waiting = 0
    return config(), "reports"


def select(t, events):
    """Selects of one object without end, while the selection of another one lives."""
    return commands(t, events, is_selecting=True)


def commands(t, events, is_selecting=False):
    """Single commands without end: each is forwarded, accepted, confirmed by the station, and its confirmation passed on."""
    t.start_stations(1)
    t.start_connection()
    # What passes beside a selection are selects of another object, since an execute would need its own.
    element = 0x81 if is_selecting else 0x01
    while t.events < events:
        is_first = is_selecting and t.counted == 0
        point = 0x0B if is_first else 0x0A
        count = (t.counted % 32768 * 2).to_bytes(2, "little")
        t.add("R", bytes([0x68, 0x0E]) + count + count + bytes([0x2D, 1, 6, 0, 1, 0, point, 0, 0, element]))
        t.add("S", bytes([0xE5]))
        t.add("S", bytes([0xE5]))
        t.add("S", data(0x08, 1, bytes([0x2D, 0x01, 0x07, 0x01, point, 0x00, element])))
        t.counted += 1
    settings = config()
    return (settings + "select = true\n" if is_selecting else settings), "commands"


WORKLOADS = {
    "steady": steady,
    "mixed": mixed,
    "stations": stations,
    "pieces": pieces,
    "flood": flood,
    "queue": queue,
    "full": full,
    "commands": commands,
    "long": long,
    "select": select,
}


def replay(program, settings, trace, output=os.devnull):
    """The processor time of one replay in seconds."""
    with open(output, "wb") as out:
        child = subprocess.Popen([program, "replay", settings, trace], stdout=out)
        _, status, used = os.wait4(child.pid, 0)
    child.returncode = os.waitstatus_to_exitcode(status)
    if child.returncode != 0:
        sys.exit(f"bench: exit status {child.returncode}")
    return used.ru_utime + used.ru_stime


def most_memory(program, settings, trace):
    """The peak of the resident memory of one replay in octets, as it stands whenever the program prints: it may print while it goes
    on, and waits for its output to be taken. (What the system tells at the end begins with the memory of this process.)"""
    peak = 0
    with subprocess.Popen([program, "replay", settings, trace], stdout=subprocess.PIPE) as child:
        while os.read(child.stdout.fileno(), 4096):
            with open(f"/proc/{child.pid}/status") as status:
                peaks = [line.split()[1] for line in status if line.startswith("VmHWM:")]
            # One that has ended tells none.
            peak = max([peak, *(int(octets) * 1024 for octets in peaks)])
    return peak


def made(folder, name, events):
    """Writes the workload's settings and trace, and answers their paths, the trace, and what is counted besides."""
    settings = os.path.join(folder, f"{name}.toml")
    path = os.path.join(folder, f"{name}.trace")
    with open(path, "w") as file:
        trace = Trace(file)
        settings_text, counted = WORKLOADS[name](trace, events)
    with open(settings, "w") as file:
        file.write(settings_text)
    return settings, path, trace, counted


def is_alike(programs, folder, settings, path):
    """Whether all programs print the same."""
    outputs = [os.path.join(folder, f"output-{number}") for number, _ in enumerate(programs)]
    for program, output in zip(programs, outputs):
        replay(program, settings, path, output)
    alike = all(filecmp.cmp(outputs[0], output, shallow=False) for output in outputs[1:])
    for output in outputs:
        os.remove(output)
    return alike


def instructions(program, settings, trace):
    """The instructions of one replay, in millions."""
    words = ["valgrind", "--tool=callgrind", "--callgrind-out-file=/dev/null", program, "replay", settings, trace]
    said = subprocess.run(words, stdout=subprocess.DEVNULL, stderr=subprocess.PIPE, text=True, check=True).stderr
    return int(re.search(r"Collected : (\d+)", said)[1]) / 1e6


def counted(programs, folder, name, events):
    """Prints the instructions of a workload; answers whether the programs print the same."""
    settings, path, trace, _ = made(folder, name, events)
    alike = len(programs) == 1 or is_alike(programs, folder, settings, path)
    counts = [instructions(program, settings, path) for program in programs]
    ratio = f", {counts[0] / counts[1]:.3f} of the second; outputs {'equal' if alike else 'DIFFER'}" if len(counts) > 1 else ""
    print(f"{name:9} {trace.events:8} events: {', '.join(f'{count:.2f}' for count in counts)} million instructions{ratio}", flush=True)
    return alike


def measured(programs, folder, name, events, runs):
    """Prints what a workload costs each program; answers whether they print the same."""
    settings, path, trace, counted = made(folder, name, events)
    alike = len(programs) == 1 or is_alike(programs, folder, settings, path)
    taken = [[replay(program, settings, path) for program in programs] for _ in range(runs)]
    costs = [(min(run[n] for run in taken), most_memory(program, settings, path)) for n, program in enumerate(programs)]
    octets = os.path.getsize(path)
    for seconds, peak in costs:
        print(
            f"{name:9} {trace.events:8} events {octets:10} octets {seconds:7.3f} s: "
            f"{trace.events / seconds:11,.0f} events/s {octets / seconds / 1e6:7.1f} MB/s "
            f"{trace.counted / seconds:11,.0f} {counted}/s, peak {peak / 1e6:7.1f} MB, "
            f"{peak / octets:5.2f} of the trace, {seconds / trace.events * 1e9:6.0f} ns an event",
            flush=True,
        )
    if len(programs) > 1:
        (seconds, peak), (other_seconds, other_peak) = costs
        print(
            f"{name:9} {seconds / other_seconds:6.2f} times the processor time, {peak / other_peak:6.2f} times the memory; "
            f"outputs {'equal' if alike else 'DIFFER'}",
            flush=True,
        )
    return alike


def main():
    words = argparse.ArgumentParser()
    words.add_argument("--program", default=os.path.join(TOP, "crates", "telegate", "out", "telegate"))
    other = words.add_mutually_exclusive_group()
    other.add_argument("--against", help="a second program, measured in turn with the first")
    other.add_argument("--plain", action="store_true", help="the plain Rust program of bench/plain as the second")
    words.add_argument("--events", type=int)
    words.add_argument("--runs", type=int, default=3)
    words.add_argument("--growth", action="store_true")
    words.add_argument("--instructions", action="store_true")
    words.add_argument("--keep")
    words.add_argument("workloads", nargs="*")
    given = words.parse_args()
    for name in given.workloads:
        if name not in WORKLOADS:
            words.error(f"no workload {name}: " + ", ".join(WORKLOADS))
    alike = True
    with tempfile.TemporaryDirectory() as temporary:
        against = plain.built(temporary) if given.plain else given.against
        if given.plain and against is None:
            words.error("--plain: there is no rustc")
        if given.instructions and shutil.which("valgrind") is None:
            words.error("--instructions: there is no valgrind")
        programs = [given.program] + ([against] if against else [])
        folder = given.keep or temporary
        os.makedirs(folder, exist_ok=True)
        for name in given.workloads or WORKLOADS:
            if given.instructions:
                alike = counted(programs, folder, name, given.events or 10000) and alike
                continue
            for events in (10000, 100000, 1000000) if given.growth else (given.events or 1000000,):
                alike = measured(programs, folder, name, events, given.runs) and alike
    return 0 if alike else 1


if __name__ == "__main__":
    sys.exit(main())
