#!/usr/bin/env python3
"""Measures what each command takes as its work grows tenfold, and judges that none takes more for it.

    bench/costs.py [--program FILE] [--runs N]

Inputs of 10,000, 100,000 and 1,000,000 lines are made by fixed rules: a trace with a report an event, which is replayed; the record of
its run, which is audited; and scripts whose lines are the reports of one station, or of 32 in turn, which are simulated. For each the
least processor time of three runs (`--runs`) counts, user and system, so that other work on the machine disturbs little. A line may
take at most twice as much where there are ten times as many, and the audit of a run at most 1.5 times its replay. The settings that
`check` reads, the frame that `show101` reads and the APDU that `show104` reads have an end: the longest of them is measured. The last
line is `N passed, M failed`; the exit status is 1 where one failed. The program is the one that ./build makes.
"""
import argparse
import os
import subprocess
import sys
import tempfile

import bench

SIZES = (10_000, 100_000, 1_000_000)
# What a line may take more where there are ten times as many, and what an audit may take of a replay.
MORE, OF_REPLAY = 2, 1.5


def taken(program, words, folder):
    """The processor time of one run in seconds."""
    with open(os.devnull, "wb") as out:
        child = subprocess.Popen([program, *words], cwd=folder, stdout=out)
        _, status, used = os.wait4(child.pid, 0)
    child.returncode = os.waitstatus_to_exitcode(status)
    if child.returncode != 0:
        sys.exit(f"costs: {' '.join(words)}: exit status {child.returncode}")
    return used.ru_utime + used.ru_stime


def least(program, works, folder, runs):
    """The least processor time of some runs of each work, which run in turn, so that all meet the same machine."""
    rounds = [[taken(program, run, folder) for _, run in works] for _ in range(runs)]
    return [(name, min(times[n] for times in rounds)) for n, (name, _) in enumerate(works)]


def recorded(program, folder, trace, settings, record):
    """Writes the record of a replay: each event, and behind it what goes out at its moment. The events stand a millisecond apart."""
    with open(os.path.join(folder, "out"), "wb") as out:
        subprocess.run([program, "replay", settings, trace], cwd=folder, stdout=out, check=True)
    with open(os.path.join(folder, trace)) as events, open(os.path.join(folder, "out")) as actions, open(
        os.path.join(folder, record), "w"
    ) as lines:
        # A replay begins with a tick at moment 0, which the record of a run has as an event.
        lines.write("0 T\n")
        action = actions.readline()
        while action.startswith("0 "):
            lines.write(action)
            action = actions.readline()
        for event in events:
            lines.write(event)
            moment = event.split(" ", 1)[0] + " "
            while action.startswith(moment):
                lines.write(action)
                action = actions.readline()


def script(folder, name, stations, count):
    """A script with so many reports of the stations in turn, and the calls that they take."""
    with open(os.path.join(folder, name), "w") as file:
        file.write(f"turns {min(3 * count + 500, 999_999_999)}\n")
        for number in range(count):
            station = number % stations + 1
            file.write(f"report {station} 2 010103{station:02X}640001\n")


def works(program, folder, size):
    """What is run over so many lines: a name and its words."""
    settings, trace, made, _ = bench.made(folder, "steady", size)
    settings, trace = os.path.basename(settings), os.path.basename(trace)
    recorded(program, folder, trace, settings, "steady.record")
    for stations in (1, 32):
        with open(os.path.join(folder, f"{stations}.toml"), "w") as file:
            file.write(bench.config(stations))
        script(folder, f"{stations}.script", stations, size)
    return [
        ("replay", ["replay", settings, trace]),
        ("audit", ["audit", settings, "steady.record"]),
        ("sim, 1 station", ["sim", "1.toml", "1.script"]),
        ("sim, 32 stations", ["sim", "32.toml", "32.script"]),
    ]


def single(folder):
    """The commands whose input has an end, with the longest."""
    with open(os.path.join(folder, "most.toml"), "w") as file:
        file.write(bench.config(32))
    frame = bench.data(0x08, 1, bytes([0x01, 0x7F + 0x80, 0x03, 0x01, 0x64, 0x00]) + bytes(127))
    apdu = bytes([0x68, 0xFD, 0, 0, 0, 0, 0x0D, 0xB0, 3, 0, 1, 0, 1, 0, 0]) + bytes(240)
    return [
        ("check", ["check", "most.toml"]),
        ("show101", ["show101", "1112", frame.hex()]),
        ("show104", ["show104", apdu.hex()]),
    ]


def main():
    words = argparse.ArgumentParser()
    words.add_argument("--program", default=os.path.join(bench.TOP, "crates", "telegate", "out", "telegate"))
    words.add_argument("--runs", type=int, default=3)
    given = words.parse_args()
    passed = failed = 0
    times = {}
    with tempfile.TemporaryDirectory() as folder:
        for size in SIZES:
            for name, seconds in least(given.program, works(given.program, folder, size), folder, given.runs):
                times.setdefault(name, []).append(seconds)
        for name, seconds in least(given.program, single(folder), folder, given.runs):
            print(f"{name:17} {seconds * 1e3:8.1f} ms")
    for name, seconds in times.items():
        each = [time / size * 1e9 for time, size in zip(seconds, SIZES)]
        grown = [later / before for before, later in zip(each, each[1:])]
        is_good = all(more <= MORE for more in grown)
        passed, failed = passed + is_good, failed + (not is_good)
        print(
            f"{name:17} " + " ".join(f"{time * 1e3:8.1f} ms" for time in seconds)
            + "; a line " + " ".join(f"{time:6.0f} ns" for time in each) + ("" if is_good else "  FAILED")
        )
    ratio = times["audit"][-1] / times["replay"][-1]
    passed, failed = passed + (ratio <= OF_REPLAY), failed + (ratio > OF_REPLAY)
    print(f"audit of replay   {ratio:8.2f}" + ("" if ratio <= OF_REPLAY else "  FAILED"))
    print(f"{passed} passed, {failed} failed")
    return 1 if failed else 0


if __name__ == "__main__":
    sys.exit(main())
