#!/usr/bin/env python3
"""Kills `telegate run --state`, cuts its power, fills its disk, and starts it again: nothing is
lost, and nothing is operated twice.

    checks/state.py [--program FILE] [--only NAME] [--lives N] [--calls N] [--seed N]
                    [--stretch SECONDS] [--part NAME]

Outstations outlive the gateway: they answer, lose answers, report and take commands. A control
centre goes and comes.

- The gateway is killed (SIGKILL) at random moments. Every other time the power is cut: its
  directory is put back to what it had synced, with any part of what it had written since. A library
  in front of the C library's keeps such a copy.
- In other lives that library ends the process in front of its first call that changes a file of the
  state, then of its second, and so on.
- At the end each report has come, in order. No report came again that was known as acknowledged. No
  command was operated twice, or confirmed by nobody.
- Then come a second process on the directory, a state that can't be read, a line of it that can't,
  a disk that is full (a limit of file size), and settings that change between two runs, row by row.
- States as another version may leave them are made of a good one: each goes on, or is put aside, as
  docs/RUNNING.md says.
- In a long run a log that has grown is begun anew.
- `telegate state` shows each of these, beside a run and without one, and changes nothing.

All of it is on the loopback. No case depends on how fast the machine is: an outstation that is late
doesn't answer, and what a case waits for may take a minute.
"""
import datetime
import os
import random
import re
import shutil
import socket
import subprocess
import tempfile
import time
import zlib

import ends
import frame
import kept
from kept import (
    PATIENCE,
    USUAL,
    Gateway,
    all_came,
    alone,
    begins,
    cut_power,
    drained,
    head_of,
    limit_files,
    looked,
    newest_of,
    numbered,
    queue_up,
    quiet,
    resets_of,
    row_of,
    shadowed,
    stood,
    until,
)
from outstations import Field, Outstation, Visitor, chances, faults_of

class Lives:
    """Many lives of one gateway, between outstations and a control centre that outlive it."""

    def __init__(self, program, folder, seed, *, commands=0.1, **settings):
        station_chance, visit_chance, self.kill_chance, self.report_chance = chances(seed)
        self.folder = folder
        self.field = Field([1, 2, 3], station_chance, 0.05)
        listener = ("127.0.0.1", ends.free_port())
        # Here answers are lost, and each of them costs this time.
        settings = {"answer_ms": 100, **settings}
        self.gateway = Gateway(program, folder, self.field, listener, environment=shadowed(folder), **settings)
        self.visitor = Visitor(listener, [1, 2, 3], visit_chance, commands=commands)
        self.count = 0
        # The commands of an earlier life that went out in a later one, and how many there were of each when the present life began.
        self.late, self.sent, self.heard = [], 0, 0

    def note_late(self):
        """Behind a life: which of the commands that it put on the line came before it."""
        numbers = [number for _, number in self.field.commands[self.heard :]]
        self.late += [number for number in numbers if number < 10_000 + self.sent]

    def taken(self):
        return sum(len(station.accepted) for station in self.field.stations.values())

    def live(self, seconds):
        """It runs so long, or until it ends by itself, and its stations have reports."""
        end = time.monotonic() + seconds
        while time.monotonic() < end and self.gateway.process.poll() is None:
            time.sleep(0.02)
            self.field.stations[self.report_chance.choice([1, 2, 3])].report(self.report_chance.choice([0, 0, 1, 3]))

    def end(self):
        """It is killed, and every other time its power is cut."""
        self.gateway.kill()
        if self.count % 2:
            cut_power(self.folder, self.kill_chance)
        # A last request may still be on its way.
        until(lambda: self.field.line is None)
        self.note_late()
        self.count += 1
        self.sent, self.heard = len(self.visitor.sent), len(self.field.commands)

    def judge(self, count, name):
        """One more life without faults, in which all that is left has to come."""
        field, visitor, gateway = self.field, self.visitor, self.gateway
        visitor.commands, visitor.stays, field.loss = 0, 1, 0
        gateway.start()
        # Until all have come, as long as some come.
        heard, end = 0, time.monotonic() + PATIENCE
        while time.monotonic() < end and any("didn't come" in fault for fault in faults_of(field, visitor)):
            if heard < (now := sum(map(len, visitor.connections))):
                heard, end = now, time.monotonic() + PATIENCE
            time.sleep(0.05)
        time.sleep(0.2)
        gateway.kill()
        self.note_late()
        visitor.is_over = True
        faults = faults_of(field, visitor)
        made = sum(station.made for station in field.stations.values())
        resets = [station.resets for station in field.stations.values()]
        told = f"{self.count} lives, {made} reports, {self.taken()} commands, resets {resets}, {len(visitor.connections)} connections"
        print(f"{name}: {told}", flush=True)
        count.judge(name, not faults and made > 0 and self.taken() > 0, (faults, made, self.taken()))
        count.judge(f"{name}: no command goes out behind a restart", not self.late, self.late)
        told = gateway.said
        wrong = [text for text in ("put aside", "isn't kept", "each link is reset") if text in told]
        count.judge(f"{name}: what it tells", not wrong, (wrong, told[-2000:]))
        field.server.close()


def live_through(count, program, name, lives, seed, stretch, **settings):
    """Many lives, each ended by a kill or a power cut."""
    with tempfile.TemporaryDirectory() as folder:
        all_lives = Lives(program, folder, seed, **settings)
        chance = all_lives.kill_chance
        # On a busy machine more lives may be needed until commands are taken.
        while all_lives.count < lives or (not all_lives.taken() and all_lives.count < 5 * lives):
            all_lives.gateway.start()
            if all_lives.count % 4:
                begins(all_lives.field)
            all_lives.live(chance.choice([0.05, 0.15, 0.3, 0.6]) * chance.random() + 0.05 + stretch)
            all_lives.end()
        all_lives.judge(count, name)


def ended_at_each_call(count, program, name, calls, seed, **settings):
    """Lives that end in front of the first call that changes a file of the state, of the second, and so on; behind so many calls, in
    which commands come through, in steps of three."""
    with tempfile.TemporaryDirectory() as folder:
        # The lives are short, so that commands have to come often.
        all_lives = Lives(program, folder, seed, commands=0.8, **settings)
        gateway, reached = all_lives.gateway, 0
        usual = gateway.environment
        chosen = [*range(1, calls + 1), *range(calls + 3, 4 * calls, 3)]
        for call in chosen:
            gateway.environment = dict(usual, CUT_AT=str(call))
            gateway.start()
            all_lives.live(PATIENCE)
            reached += gateway.process.poll() == 137
            all_lives.end()
        gateway.environment = usual
        count.judge(f"{name}: each life ends at its call", reached == len(chosen), (reached, len(chosen)))
        all_lives.judge(count, name)


def a_second_process(count, program):
    with tempfile.TemporaryDirectory() as folder:
        gateway = quiet(program, folder)
        gateway.start()
        gateway.waits("station 2 up")
        before = {name: os.path.getsize(os.path.join(gateway.state, name)) for name in os.listdir(gateway.state)}
        second = subprocess.run(
            [program, "run", "--redial", "--log", "--state", gateway.state, gateway.config], capture_output=True, text=True, timeout=60
        )
        count.judge("a second process ends with 3", second.returncode == 3 and "in use" in second.stderr, (second.returncode, second.stderr))
        after = {name: os.path.getsize(os.path.join(gateway.state, name)) for name in os.listdir(gateway.state)}
        count.judge("and touches nothing", before == after, (before, after))
        queue_up(gateway, 5)
        got = drained(gateway)
        count.judge("the first goes on", got == all_came(gateway), got)
        gateway.kill()
        gateway.field.server.close()


def a_state_that_is_no_state(count, program):
    with tempfile.TemporaryDirectory() as folder:
        gateway = quiet(program, folder)
        gateway.start()
        gateway.waits("listening")
        queue_up(gateway, 3)
        gateway.kill()
        for name in os.listdir(gateway.state):
            path = os.path.join(gateway.state, name)
            if os.path.getsize(path) > 100:
                with open(path, "r+b") as file:
                    file.seek(90)
                    file.write(b"\xff" * 8)
        gateway.start()
        count.judge("a state that can't be read is put aside", gateway.waits("put aside"), gateway.logged())
        count.judge("its files stay", any("unread" in name for name in os.listdir(gateway.state)), os.listdir(gateway.state))
        queue_up(gateway, 3)
        got = drained(gateway, numbered(gateway, 4, 5, 6))
        count.judge("and the run begins anew", all(numbers[-3:] == [4, 5, 6] for numbers in got.values()), got)
        gateway.kill()
        gateway.field.server.close()


def is_seal(line):
    """Whether a line of a log is the seal of the write before it."""
    return line.startswith(b"!")


def rot_a_line(folder):
    """Spoils the first octet of a line amid those behind the checkpoint of the newest log. Answers the octet of the file at which the write
    with that line begins."""
    path = max((os.path.join(folder, name) for name in os.listdir(folder)), key=head_of)
    begins = head_of(path)[1]
    with open(path, "r+b") as file:
        file.seek(begins)
        lines = file.read().split(b"\0")[0].split(b"\n")
        place = next(n for n in range(len(lines) // 2, len(lines)) if not is_seal(lines[n]))
        ends = [begins + sum(len(line) + 1 for line in lines[:n]) for n in range(len(lines) + 1)]
        file.seek(ends[place])
        file.write(b"?")
    return max([begins, *(ends[n + 1] for n in range(place) if is_seal(lines[n]))])


def damaged_at(octet):
    return f"state: damaged, nothing is read from octet {octet} of its log on"


def a_rotten_line(count, program):
    with tempfile.TemporaryDirectory() as folder:
        gateway = quiet(program, folder)
        gateway.start()
        gateway.waits("listening")
        queue_up(gateway, 3)
        gateway.kill()
        resets = {address: station.resets for address, station in gateway.field.stations.items()}
        octet = rot_a_line(gateway.state)
        gateway.start()
        is_told = gateway.waits(damaged_at(octet), "each link is reset")
        count.judge("a line that can't be read is told", is_told, (octet, gateway.logged()))
        queue_up(gateway, 3)
        now = {address: station.resets for address, station in gateway.field.stations.items()}
        count.judge("each link is reset", all(now[a] == resets[a] + 1 for a in resets), (resets, now))
        got = drained(gateway, numbered(gateway, 4, 5, 6))
        count.judge("and the run goes on", all(numbers[-3:] == [4, 5, 6] for numbers in got.values()), got)
        told = gateway.kill()
        count.judge("with a gap of each station", all(f"station {a} gap" in told for a in resets), told)
        gateway.field.server.close()


# An S frame that acknowledges nothing.
S_FRAME = bytes([0x68, 4, 1, 0, 0, 0])


def a_long_run(count, program):
    """A log that has grown is begun anew in mid-run, and has what is queued."""
    with tempfile.TemporaryDirectory() as folder:
        gateway = quiet(program, folder)
        gateway.start()
        gateway.waits("listening")
        queue_up(gateway, 3)
        first = head_of(newest_of(gateway.state))[0]
        with socket.create_connection(gateway.listener) as centre:
            # Each octet has two digits in the log, which is begun anew behind 3,900,000 octets of events.
            centre.sendall(S_FRAME * 360_000)
            until(lambda: head_of(newest_of(gateway.state))[0] > first)
        number = head_of(newest_of(gateway.state))[0]
        count.judge("a log that has grown is begun anew once", number == first + 1, (first, number))
        count.judge("and the state is kept", "isn't kept" not in gateway.logged(), gateway.logged())
        queue_up(gateway, 1)
        gateway.kill()
        gateway.start()
        queued = sum(station.given for station in gateway.field.stations.values())
        count.judge("the next start goes on", gateway.waits(f"resumed, {queued} queued"), gateway.logged())
        got = drained(gateway)
        count.judge("with all that was queued", got == all_came(gateway), got)
        gateway.kill()
        gateway.field.server.close()


def rename_form(path):
    """Its first line names another form."""
    with open(path, "r+b") as file:
        file.seek(len("telegate state 1 rules "))
        file.write(b"3")


def write_checkpoint(path, change):
    """Changes the lines of the checkpoint, makes the first line fit, and leaves out the seals: logs of `rules 1` have none."""
    with open(path, "rb") as file:
        octets = file.read()
    number, end = head_of(path)
    lines = change(octets[87:end].split(b"\n"))
    text = b"\n".join(lines)
    events = b"\n".join(line for line in octets[end:].split(b"\0")[0].split(b"\n") if not is_seal(line))
    head = f"telegate state 1 rules 1 segment {number:016x} octets {len(text):016x} sum {zlib.crc32(text):08x}\n"
    with open(path, "wb") as file:
        file.write((head.encode() + text + events).ljust(len(octets), b"\0"))


def with_unknown_key(lines):
    """The settings at the head have a key that this version doesn't know."""
    settings = bytes.fromhex(lines[0][1:].decode()).replace(b"[tcp]\n", b"[tcp]\nunheard = 1\n")
    return [b"x" + settings.hex().encode(), *lines[1:]]


def with_offered_commands(lines):
    """Each station has a command in its third line, as in versions that handed one to the line."""
    command = b"1 45 1 6 1 10 0 1"
    places = [at for at, line in enumerate(lines[:-2]) if len(line.split()) == 5 and lines[at + 2] == b"0"]
    return [command if at - 2 in places else line for at, line in enumerate(lines)]


def of_another_version(count, program, name, make, told, wanted):
    """A state is changed to what another version may leave. The start says this, and these reports come."""
    with tempfile.TemporaryDirectory() as folder:
        gateway = quiet(program, folder)
        gateway.start()
        gateway.waits("listening")
        queue_up(gateway, 2)
        drained(gateway)
        gateway.kill()
        gateway.start()
        gateway.waits("resumed")
        queue_up(gateway, 2)
        gateway.kill()
        resets = resets_of(gateway)
        make(gateway.state)
        gateway.start()
        is_told = gateway.waits(told)
        queue_up(gateway, 2)
        got = drained(gateway, numbered(gateway, *wanted))
        said = gateway.kill()
        count.judge(f"{name}: what it says", is_told, said)
        count.judge(f"{name}: which reports come", all(numbers == wanted for numbers in got.values()), got)
        anew = {a: n - resets[a] for a, n in resets_of(gateway).items()}
        count.judge(f"{name}: links", set(anew.values()) == {int("resumed" not in told)}, anew)
        is_stale = "stale" in told
        count.judge(f"{name}: gaps", all((f"station {a} gap" in said) == is_stale for a in resets), said)
        count.judge(f"{name}: no command is sent", not any(s.accepted for s in gateway.field.stations.values()), said)
        gateway.field.server.close()


def form_of_newer(folder):
    rename_form(newest_of(folder))


def form_of_both(folder):
    for name in ("segments", "segments-wal"):
        rename_form(os.path.join(folder, name))


def copy_newest(folder):
    """Both files have the newest log, so that no start knows which of the two is the newer."""
    newest = newest_of(folder)
    for name in ("segments", "segments-wal"):
        if os.path.join(folder, name) != newest:
            shutil.copy(newest, os.path.join(folder, name))


def without_note(folder):
    """As versions left it that noted nothing of its files."""
    for name in os.listdir(folder):
        if name.startswith("origin"):
            os.remove(os.path.join(folder, name))


# By name: what is changed, what the start says, and the numbers of the reports that come then.
VERSIONS = {
    "newer file": (form_of_newer, "state is stale: each link is reset", [5, 6]),
    "two of one number": (copy_newest, "state is stale: each link is reset", [3, 4, 5, 6]),
    "both files": (form_of_both, "state can't be read: put aside", [5, 6]),
    "unknown key": (lambda folder: write_checkpoint(newest_of(folder), with_unknown_key), "state can't be read: put aside", [5, 6]),
    "no note": (without_note, "state: resumed, ", [3, 4, 5, 6]),
    "offered command": (lambda folder: write_checkpoint(newest_of(folder), with_offered_commands), "state: resumed, ", [3, 4, 5, 6]),
}


def a_full_disk(count, program):
    """The disk is full from the start: by default the run goes on and says so; what it has goes out; the next start trusts nothing."""
    with tempfile.TemporaryDirectory() as folder:
        gateway = quiet(program, folder)
        gateway.start()
        gateway.waits("listening")
        queue_up(gateway, 4)
        gateway.kill()
        gateway.start(preexec_fn=limit_files(1_000_000))
        count.judge("a full disk is told", gateway.waits("isn't kept"), gateway.logged())
        queue_up(gateway, 2)
        gateway.kill()
        resets = [station.resets for station in gateway.field.stations.values()]
        gateway.start()
        count.judge("the next start knows it", gateway.waits("stale"), gateway.logged())
        got = drained(gateway, numbered(gateway, 1, 2, 3, 4))
        gateway.waits("station 1 up", "station 2 up")
        # What was polled while the state wasn't kept is lost, and a gap tells it; what was kept comes.
        kept = all(numbers[:4] == [1, 2, 3, 4] and numbers == sorted(set(numbers)) for numbers in got.values())
        count.judge("what was kept comes", kept, got)
        told = gateway.kill()
        anew = [station.resets for station in gateway.field.stations.values()]
        count.judge("each link is reset once", anew == [n + 1 for n in resets], (resets, anew))
        count.judge("and the gaps are told", all(f"station {a} gap" in told for a in gateway.field.stations), told)
        gateway.flags = ["--state-or-stop"]
        gateway.start(preexec_fn=limit_files(1_000_000))
        until(lambda: gateway.process.poll() is not None)
        status = gateway.process.poll()
        count.judge("with --state-or-stop it ends with 3", status == 3, status)
        said = re.findall(r"^\S+Z \d+ (.*)$", gateway.kill(), re.M)
        is_right = said[-2:-1] == ["state can't be kept there"] and said[-1].startswith("counts ")
        count.judge("and says why at its end", is_right, said)
        # The line is well: only the disk has failed.
        count.judge("and nothing else", not {"line lost", "line not there"} & set(said), said)
        gateway.field.server.close()


CHANGES = [
    # the settings that change, and how often each link is reset by it
    ({"answer_ms": 900}, 0),
    ({"retries": 0}, 0),
    ({"burst": 1}, 0),
    ({"silence": "reset"}, 0),
    ({"k": 3}, 0),
    ({"queue": 8}, 0),
    ({"stations": [(2, 2, ""), (1, 1, "")]}, 0),
    ({"cause": 2}, 1),
    ({"ca": 2}, 1),
    ({"ioa": 3}, 1),
    ({"stations": [(1, 1, "select = true\n"), (2, 2, "select = true\n")]}, 1),
]


def settings_that_change(count, program, settings, resets):
    with tempfile.TemporaryDirectory() as folder:
        gateway = quiet(program, folder)
        gateway.start()
        gateway.waits("listening")
        queue_up(gateway, 10)
        before = [station.resets for station in gateway.field.stations.values()]
        gateway.kill()
        gateway.set(**settings)
        for station in gateway.field.stations.values():
            station.sizes = tuple({**USUAL, **settings}[size] for size in ("cause", "ca", "ioa"))
        gateway.start()
        told = gateway.waits("resumed")
        got = drained(gateway)
        queue_up(gateway, 2)
        more = drained(gateway, numbered(gateway, 11, 12))
        both = {address: got[address] + [n for n in more[address] if n > 10] for address in got}
        after = [station.resets for station in gateway.field.stations.values()]
        said = gateway.kill()
        places = [said.find(text) for text in ("state: settings have changed", "state: resumed")]
        count.judge(f"{settings}: told", told and 0 <= places[0] < places[1], said)
        count.judge(f"{settings}: nothing is lost", both == all_came(gateway), both)
        count.judge(f"{settings}: links", after == [n + resets for n in before], (before, after))
        gateway.start()
        told = gateway.waits("resumed")
        said = gateway.kill()
        count.judge(f"{settings}: not told again", told and "settings have changed" not in said, said)
        gateway.field.server.close()


def settings_in_other_words(count, program):
    """Only values count: a comment, the order of keys, a default that is written out and another end change nothing."""
    with tempfile.TemporaryDirectory() as folder:
        gateway = quiet(program, folder)
        gateway.start()
        gateway.waits("listening")
        queue_up(gateway, 10)
        before = resets_of(gateway)
        gateway.kill()
        gateway.listener = ("127.0.0.1", ends.free_port())
        gateway.set()
        with open(gateway.config) as file:
            line, tcp, *stations, live = file.read().strip().split("\n[")
        with open(gateway.config, "w") as file:
            tables = [live, tcp + "\nt1_ms = 15000", *stations, line.removeprefix("[")]
            file.write("\n[".join(["# the same settings", *tables]) + "\n")
        gateway.start()
        told = gateway.waits("resumed")
        got = drained(gateway)
        said = gateway.kill()
        count.judge("the same settings in other words: not told as others", told and "settings have changed" not in said, said)
        count.judge("nothing is lost", got == all_came(gateway), got)
        count.judge("no link is reset", resets_of(gateway) == before, (before, resets_of(gateway)))
        gateway.field.server.close()


def a_new_station(count, program):
    """A station is new behind a restart: its link is started, and no other is touched."""
    with tempfile.TemporaryDirectory() as folder:
        gateway = quiet(program, folder)
        gateway.start()
        gateway.waits("listening")
        queue_up(gateway, 4)
        before = resets_of(gateway)
        gateway.kill()
        gateway.field.stations[3] = Outstation(3, random.Random(3))
        gateway.set()
        gateway.start()
        told = gateway.waits("state: settings have changed", "state: resumed", "station 3 up")
        queue_up(gateway, 2)
        got = drained(gateway)
        said = gateway.kill()
        gaps = [line for line in said.splitlines() if "gap" in line]
        is_told = len(gaps) == 1 and "station 3 gap: reports of it may be lost" in gaps[0]
        count.judge("a new station is told", told and is_told, said)
        after = resets_of(gateway)
        count.judge("its link is started", after.pop(3) == 1, resets_of(gateway))
        count.judge("and no other is reset", after == before, (before, after))
        count.judge("its reports come, and all others", got == all_came(gateway), got)
        gateway.field.server.close()


def a_station_that_is_gone(count, program):
    """A station is gone behind a restart: its reports still go out, and a command on its line counts as lost."""
    with tempfile.TemporaryDirectory() as folder:
        gateway = quiet(program, folder, addresses=(1, 2, 3))
        gone, others = gateway.field.stations[3], [(1, 1, ""), (2, 2, "")]
        gateway.start()
        gateway.waits("listening")
        queue_up(gateway, 4)
        before = resets_of(gateway)
        gateway.kill()
        # A last request may still be on its way.
        time.sleep(0.2)
        served = gone.served
        gateway.set(stations=others)
        gateway.start()
        told = gateway.waits("state: settings have changed", "state: resumed")
        got = drained(gateway)
        said = gateway.kill()
        count.judge("a station that is gone is told", told and "gap" not in said, said)
        count.judge("its reports still go out, and all others", got == all_came(gateway), got)
        count.judge("it is asked nothing", gone.served == served, (served, gone.served))
        count.judge("no link is reset", resets_of(gateway) == before, (before, resets_of(gateway)))
        gateway.set()
        gateway.start()
        gateway.waits("station 3 up")
        gateway.field.mute_at_command = True
        visitor = Visitor(gateway.listener, [3], random.Random(1), commands=1, stays=1)
        until(lambda: gateway.field.silent)
        visitor.commands = 0
        time.sleep(0.5)
        gateway.kill()
        visitor.is_over = True
        visitor.join()
        gateway.set(stations=others)
        gateway.start(redial=False)
        gateway.waits("state: resumed")
        begins(gateway.field)
        gateway.field.hang_up()
        until(lambda: gateway.process.poll() is not None)
        said = gateway.kill()
        counted = re.findall(r"counts skipped \d+ mirrors \d+ lost (\d+) ", said)
        count.judge("a command on its line counts as lost", counted[-1:] == ["1"], said)
        count.judge("and nobody operates it", not gone.accepted, gone.accepted)
        gateway.field.server.close()


def a_command_at_a_restart(count, program):
    """A command on the line of a silent station is given up at a restart, and its station's link is reset without a gap."""
    with tempfile.TemporaryDirectory() as folder:
        gateway = quiet(program, folder)
        gateway.start()
        gateway.waits("listening")
        queue_up(gateway, 2)
        gateway.field.mute_at_command = True
        visitor = Visitor(gateway.listener, [1], random.Random(1), commands=1, stays=1)
        until(lambda: gateway.field.silent)
        visitor.commands = 0
        time.sleep(0.5)
        gateway.kill()
        visitor.is_over = True
        visitor.join()
        lines, _, _ = looked(gateway, gateway.state)
        count.judge("a command without an answer is shown", "command without an answer, given up at a start" in row_of(lines, 1), lines)
        gateway.field.mute_at_command = False
        gateway.field.silent.clear()
        station, other = gateway.field.stations[1], gateway.field.stations[2]
        resets, others = station.resets, other.resets
        gateway.start()
        queue_up(gateway, 2)
        count.judge("a command isn't sent behind a restart", not station.accepted, station.accepted)
        count.judge("the station's link was reset", station.resets == resets + 1, (resets, station.resets))
        count.judge("and no other", other.resets == others, (others, other.resets, gateway.logged()))
        before = {report for heard in visitor.connections for report in heard}
        got = drained(gateway, numbered(gateway, 1, 2, 3, 4) - before)
        told = gateway.kill()
        for where, number in before:
            got[where].append(number)
        count.judge("no report is lost by it", all(sorted(set(n)) == [1, 2, 3, 4] for n in got.values()), got)
        count.judge("and no gap told", "gap" not in told, told)
        gateway.field.server.close()


ROW = re.compile(
    r"station \d+ up, frame count bit ([01])(, poll of class [12] without an answer)?, session (\d+)(, gap if it is reset)?"
)


def fits(row, station):
    """Whether a row is that of a station that has answered each request but the latest."""
    told = ROW.fullmatch(row)
    if told is None:
        return False
    bit, poll, session, gap = told.groups()
    # A request that isn't answered may have reached the station, so that it has the bit already.
    bits = {0, 1} if poll else {0 if station.bit else 1}
    return int(bit) in bits and int(session) == station.resets and (gap is None) == (poll is None)


def dated(ms):
    """A moment of the wall clock as RFC 3339 has it, with milliseconds, in UTC."""
    moment = datetime.datetime.fromtimestamp(ms // 1000, datetime.timezone.utc)
    return f"{moment:%Y-%m-%dT%H:%M:%S}.{ms % 1000:03}Z"


# Each key has another value than that of `kept.SETTINGS`, or than its default (docs/SETTINGS.md).
OTHER_SETTINGS = """[line]
link = 2
cause = 2
ca = 2
ioa = 3
answer_ms = 7
retries = 9
silence = "reset"
burst = 255
queue = 65535
[tcp]
k = 11
w = 2
t1_ms = 14000
t2_ms = 9000
t3_ms = 19000
select_ms = 29000
max_age_ms = 9000
[[station]]
address = 2
ca = 20
select = true
[[station]]
address = 300
ca = 301
"""

DIFFERENCES = [
    "line.link: kept 1, now 2",
    "line.cause: kept 1, now 2",
    "line.ca: kept 1, now 2",
    "line.ioa: kept 2, now 3",
    "line.answer_ms: kept 1000, now 7",
    "line.retries: kept 2, now 9",
    "line.silence: kept hold, now reset",
    "line.burst: kept 8, now 255",
    "line.queue: kept 200, now 65535",
    "tcp.k: kept 12, now 11",
    "tcp.w: kept 1, now 2",
    "tcp.t1_ms: kept 15000, now 14000",
    "tcp.t2_ms: kept 10000, now 9000",
    "tcp.t3_ms: kept 20000, now 19000",
    "tcp.select_ms: kept 30000, now 29000",
    "tcp.max_age_ms: kept 10000, now 9000",
    "station.address: kept 1 2, now 2 300",
    "station 2, ca: kept 2, now 20",
    "station 2, select: kept false, now true",
]


def a_look(count, program):
    """What `telegate state` shows is what the next start tells, and it changes nothing."""
    with tempfile.TemporaryDirectory() as folder:
        gateway = quiet(program, folder)
        lines, status, told = looked(gateway, gateway.state)
        count.judge("no directory", status == 3 and not lines and told == frame.unread(gateway.state, what="directory"), (status, lines, told))
        os.mkdir(gateway.state)
        lines, status, _ = looked(gateway, gateway.state)
        count.judge("an empty directory", (lines, status) == (["state: begins anew"], 0), (lines, status))
        count.judge("stays empty", os.listdir(gateway.state) == [], os.listdir(gateway.state))
        gateway.start()
        gateway.waits("listening")
        queue_up(gateway, 3)
        lines, status, told = looked(gateway, gateway.state, gateway.config)
        count.judge("beside a run", status == 0 and lines[:2] == ["state in use by another process", "state: resumed, 6 queued"], (lines[:3], told))
        queue_up(gateway, 1)
        count.judge("which goes on", gateway.process.poll() is None and "isn't kept" not in gateway.logged(), gateway.logged())
        gateway.kill()
        before = stood(gateway.state)
        lines, status, _ = looked(gateway, gateway.state, gateway.config)
        queued = sum(station.given for station in gateway.field.stations.values())
        count.judge("behind a kill", status == 0 and lines[0] == f"state: resumed, {queued} queued", lines)
        path = max((os.path.join(gateway.state, name) for name in os.listdir(gateway.state)), key=head_of)
        number, begin = head_of(path)
        with open(path, "rb") as file:
            written = file.read()[begin:].split(b"\0")[0].split(b"\n")[:-1]
        events = sum(not is_seal(line) for line in written)
        count.judge("the segment", lines[1] == f"segment {number} in {os.path.basename(path)}, events behind its head: {events}", (lines, number, path, events))
        clock = re.fullmatch(r"moment in ms (\d+), wall clock in ms (1\d{12}) at moment (\d+)", lines[2])
        count.judge("the clock", clock, lines[2])
        moment, wall, told_at = map(int, clock.groups())
        count.compare("the dates", lines[3], f"latest event {dated(wall + moment - told_at)}, wall clock told {dated(wall)}")
        count.judge("nothing queued is told unasked", not [line for line in lines if line.startswith("queued")], lines)
        asked, _, _ = looked(gateway, "--reports", gateway.state)
        queued_lines = [line for line in asked if line.startswith("queued")]
        # Each station gives its reports in the order of their numbers (checks/outstations.py): the number is the address, and the value is on.
        given = {a: [f"queued of station {a}  M_SP_NA_1 spontaneous  CA {a}  {n} = on" for n in range(1, s.given + 1)] for a, s in gateway.field.stations.items()}
        count.judge("each station's reports", all([line for line in queued_lines if f"station {a} " in line] == told for a, told in given.items()), (queued_lines, given))
        count.compare("and no other", (len(queued_lines), len(asked)), (queued, len(lines) + queued))
        stations = gateway.field.stations
        count.judge("the stations", all(fits(row_of(lines, a), stations[a]) for a in stations), (lines, [(s.bit, s.resets) for s in stations.values()]))
        with open(gateway.config) as file:
            settings = file.read().splitlines()
        count.judge("the settings", lines[lines.index("kept under these settings:") + 1 :] == settings, lines)
        other = os.path.join(folder, "other.toml")
        with open(other, "w") as file:
            file.write("\n".join(settings) + "\n# another\n")
        lines, _, _ = looked(gateway, gateway.state, other)
        count.judge("the same settings with a comment", lines[0] == f"state: resumed, {queued} queued", lines[:2])
        with open(other, "w") as file:
            file.write("\n".join(settings).replace("answer_ms = ", "answer_ms = 1"))
        lines, _, _ = looked(gateway, gateway.state, other)
        count.judge("other settings", lines[0] == "state: settings have changed", lines[:2])
        at = lines.index("kept under these settings:")
        count.compare("and which", lines[at - 1], f"line.answer_ms: kept {USUAL['answer_ms']}, now 1{USUAL['answer_ms']}")
        count.judge("and no other", ": kept " not in lines[at - 2], lines)
        with open(other, "w") as file:
            file.write(OTHER_SETTINGS)
        lines, _, _ = looked(gateway, gateway.state, other)
        at = lines.index("kept under these settings:")
        count.compare("each key", lines[at - len(DIFFERENCES) : at], DIFFERENCES)
        count.judge("and no key more", ": kept " not in lines[at - len(DIFFERENCES) - 1], lines)
        with open(other, "w") as file:
            file.write("no settings")
        lines, _, _ = looked(gateway, gateway.state, other)
        count.judge("no settings", lines[0] == "state: settings have changed", lines[:2])
        with open(other, "w") as file:
            file.write("\n".join(settings).replace("link = 1", "link = 3", 1))
        lines, status, told = looked(gateway, gateway.state, other)
        is_right = told == f"{other}:2:8: line.link = 3: wanted 1 to 2\n" and (lines[0], status) == ("state: settings have changed", 0)
        count.judge("wrong settings", is_right, (lines[:2], told, status))
        with open("/dev/full", "w") as full:
            status = subprocess.run([program, "state", gateway.state], stdout=full, stderr=subprocess.DEVNULL, timeout=60).returncode
        count.judge("an output that fails", status == 3, status)
        count.judge("nothing is changed", stood(gateway.state) == before, os.listdir(gateway.state))
        os.rename(os.path.join(gateway.state, "kept"), os.path.join(gateway.state, "stale"))
        lines, status, _ = looked(gateway, gateway.state)
        marked = ["the directory is marked as stale", "state is stale: each link is reset", f"state: resumed, {queued} queued"]
        count.judge("a stale one", lines[:3] == marked and status == 0, lines)
        os.rename(os.path.join(gateway.state, "stale"), os.path.join(gateway.state, "kept"))
        octet = rot_a_line(gateway.state)
        lines, status, _ = looked(gateway, gateway.state)
        count.judge("a rotten line", status == 0 and lines[0] == "state is stale: each link is reset", lines)
        count.judge("and which", damaged_at(octet) in lines, (octet, lines))
        for name in ("segments", "segments-wal"):
            with open(os.path.join(gateway.state, name), "r+b") as file:
                if file.read(14) == b"telegate state":
                    file.seek(15)
                    file.write(b"2")
        before = stood(gateway.state)
        lines, status, _ = looked(gateway, gateway.state)
        count.judge("another version's", (lines, status) == (["state can't be read: put aside"], 1), (lines, status))
        count.judge("nothing is put aside", stood(gateway.state) == before, os.listdir(gateway.state))
        gateway.field.server.close()


def lives(name, place, **settings):
    """The part that lives through many lives of a gateway with these settings."""

    def judged(count, program, _folder):
        given = count.options
        live_through(count, program, name, given.lives, given.seed + place, given.stretch, **settings)

    return name, judged


def calls(name, place, **settings):
    """The part whose lives end in front of each call that changes a file of the state."""

    def judged(count, program, _folder):
        given = count.options
        ended_at_each_call(count, program, name, given.calls, given.seed + place, **settings)

    return name, judged


WORDS = {
    "--lives": {"type": int, "default": 60},
    "--calls": {"type": int, "default": 60, "help": "up to how many calls a life ends in front of each"},
    "--seed": {"type": int, "default": 1},
    "--stretch": {"type": float, "default": 0.0, "help": "how much longer each life is, in s, for a program that starts slowly"},
}

PARTS = [
    lives("hold", 0),
    lives("reset", 1, silence="reset", retries=10),
    lives("full queue", 2, queue=6, k=2),
    calls("each call", 3),
    calls("each call, reset", 4, silence="reset", retries=10),
    alone("second", a_second_process),
    alone("unread", a_state_that_is_no_state),
    alone("rotten line", a_rotten_line),
    *(alone(f"version {name}", of_another_version, name, *row) for name, row in VERSIONS.items()),
    alone("long run", a_long_run),
    alone("look", a_look),
    alone("full disk", a_full_disk),
    alone("command", a_command_at_a_restart),
    alone("station new", a_new_station),
    alone("station gone", a_station_that_is_gone),
    *(alone(f"settings {n}", settings_that_change, *row) for n, row in enumerate(CHANGES)),
    alone("settings in other words", settings_in_other_words),
]


if __name__ == "__main__":
    kept.play(PARTS, WORDS)
