#!/usr/bin/env python3
"""Compares what telegate and the plain Rust program of bench/plain print for made-up runs.

    checks/agree.py [--program FILE] [--only NAME] [--runs N] [--events N] [--seed N]
                    [--keep FOLDER]

bench/plain writes the same rules once more in another form. So a slip in one of the two shows where
they differ. It doesn't show what both were written to do alike; checks/rows.py judges that by hand.

The settings and traces are made by a fixed generator. The next event depends on what the plain
program has put out by then. So stations mostly answer what they were asked, and the control centre
mostly counts right, and mostly isn't always. These are drawn at random:

- each setting, also at its ends or left out;
- 1 to 32 stations with any addresses;
- all types, causes, sizes, cuts, selects with their executes, and tags;
- own answers of any length, reports and mirrors of up to three pieces, full queues;
- moments near the end of a time, moments that go back, and the greatest moment.

Not drawn is what 250 events can't reach: numbers that run over at 32,768, a full queue of 65,535
places (checks/rows.py has both), and counts past 64 bits. Nor are wrong settings and traces drawn,
since the plain program doesn't judge them (checks/faults.py).

Both programs replay each trace, with `--left --counts`. A run passes if they print the same.
Without rustc the script is skipped. With --keep the settings and the trace of each run that differs
stay in a folder.
"""
import os
import random
import subprocess
from concurrent.futures import ThreadPoolExecutor

import frame
import plain
from bench import ELEMENTS, TAG

AT_ONCE = 4
# How many events come between two looks at what was put out.
LOOK = 2
COMMANDS = {45: 1, 46: 1, 47: 1, 48: 3, 49: 3, 58: 1, 59: 1, 60: 1, 61: 3, 62: 3, 100: 1}
CONTENTS = ELEMENTS | COMMANDS | {70: 1}
# Those that a guarded station wants selected.
SELECTED = (45, 46, 47, 48, 49, 58, 59, 60, 61, 62)
FUNCTIONS = ("07", "0B", "13", "23", "43", "83")
# The instant of TAG, in ms since 1970.
WALL = 1709210096789
# TAG, without a day of the week, on no day, marked as invalid, and out of range.
TAGS = (TAG, TAG, TAG, TAG, TAG[:4] + b"\x1d" + TAG[5:], TAG[:6] + b"\x17", TAG[:2] + b"\xa2" + TAG[3:], TAG[:5] + b"\x0d" + TAG[6:])
# The greatest moment.
GREATEST = 999999999999999


def low_first(number, octets):
    return (number % 256**octets).to_bytes(octets, "little")


def addresses(draw, count, octets):
    """So many addresses of one or two octets, none twice: small ones, or any that the settings allow."""
    last = 254 if octets == 1 else 65534
    if draw.random() < 0.4:
        return list(range(1, 1 + count))
    return draw.sample(sorted({1, 127, 128, last, *draw.sample(range(1, last + 1), count)}), count)


class Keys:
    """The keys of a table."""

    def __init__(self, draw):
        self.draw, self.lines = draw, []

    def set(self, key, value):
        self.lines.append(f"{key} = {value}")

    def drawn(self, key, default, values):
        """One of these values, or in one case of eight none, which is the default."""
        if self.draw.random() < 0.125:
            return default
        value = self.draw.choice(values)
        self.set(key, value)
        return value


class Setup:
    """Settings, and what is written by their sizes."""

    def __init__(self, draw):
        self.link, self.cause, self.ca, self.ioa = draw.choice((1, 1, 2)), draw.choice((1, 1, 2)), draw.choice((1, 1, 2)), draw.choice((1, 2, 2, 3))
        count = draw.choice((1, 1, 1, 2, 2, 3, 5, draw.randrange(4, 33), 32))
        self.stations, self.cas = addresses(draw, count, self.link), addresses(draw, count, self.ca)
        line, tcp = Keys(draw), Keys(draw)
        # Times that are over at once leave little else to happen, so most runs have longer ones.
        is_hasty = draw.random() < 0.2
        self.answer_ms = line.drawn("answer_ms", 200, (1, 20) if is_hasty else (200, 200, 60000))
        line.drawn("retries", 3, (0, 1, 3, 10))
        line.drawn("burst", 8, (1, 2, 8, 255))
        line.drawn("silence", '"hold"', ('"hold"', '"reset"'))
        line.drawn("queue", 1000, (3, 3, 4, 8, 30, 100, 65535))
        tcp.drawn("k", 12, (1, 2, 12, 12, 32767))
        tcp.drawn("w", 8, (1, 2, 8, 8, 32767))
        self.t1 = draw.choice((2, 50, 400) if is_hasty else (5000, 15000, 255000))
        # What is left out has to fit the default of the other.
        tcp.set("t1_ms", self.t1)
        tcp.set("t2_ms", max(1, self.t1 - draw.choice((1, 20, self.t1))))
        self.t3 = tcp.drawn("t3_ms", 20000, (1, 100, 2000) if is_hasty else (2000, 20000, 60000, 86400000))
        self.select_ms = tcp.drawn("select_ms", 30000, (1, 30, 300) if is_hasty else (300, 30000, 600000))
        self.max_age_ms = tcp.drawn("max_age_ms", 10000, (1, 5000, 5000, 3600000))
        lines = ["[line]", f"link = {self.link}", f"cause = {self.cause}", f"ca = {self.ca}", f"ioa = {self.ioa}", *line.lines]
        lines += ["[tcp]", *tcp.lines]
        for station, ca in zip(self.stations, self.cas):
            lines += ["[[station]]", f"address = {station}", f"ca = {ca}", f"select = {draw.choice(('true', 'false'))}"]
        self.text = "\n".join(lines) + "\n"
        # What a frame of the line has for objects: 255 octets, less its control octet and address, and the head of an ASDU.
        self.room = 255 - 1 - self.link - 2 - self.cause - self.ca

    def fixed(self, control, address):
        octets = bytes([control]) + low_first(address, self.link)
        return b"\x10" + octets + bytes([sum(octets) % 256, 0x16])

    def data(self, control, address, asdu):
        octets = (bytes([control]) + low_first(address, self.link) + asdu)[:255]
        return bytes([0x68, len(octets), len(octets), 0x68]) + octets + bytes([sum(octets) % 256, 0x16])

    def asdu(self, kind, cause, ca, objects, is_sequence=False):
        """An ASDU of the line with these objects, each an address and what stands behind it."""
        head = bytes([kind, len(objects) | 0x80 * is_sequence, cause]) + bytes([7] * (self.cause - 1)) + low_first(ca, self.ca)
        if is_sequence:
            return head + low_first(objects[0][0], self.ioa) + b"".join(content for _, content in objects)
        return head + b"".join(low_first(address, self.ioa) + content for address, content in objects)


class Run:
    """A trace that is being made, and what the plain program prints of it so far."""

    def __init__(self, program, folder, seed, events):
        self.draw = random.Random(seed)
        self.setup = Setup(self.draw)
        self.program, self.events = program, events
        # How soon the control centre comes again, and how often an end goes wrong.
        self.eagerness, self.slips = self.draw.choice((0.4, 0.4, 0.4, 0.01)), self.draw.choice((0.1, 0.1, 1))
        self.config, self.trace = os.path.join(folder, f"{seed}.toml"), os.path.join(folder, f"{seed}.trace")
        with open(self.config, "w") as file:
            file.write(self.setup.text)
        self.lines, self.now, self.seen = [], 0, 0
        # The latest request, the latest commands on the line; selects, each by its type, address and element on the line, with its
        # execute; and the execute of the latest one that a station confirmed.
        self.request, self.commands, self.selects, self.confirmed = b"", [], [(0, b"", None)], None
        # Whether a connection is open, how many I frames came on it, how many of them were acknowledged, and how many went out.
        self.is_open, self.received, self.acknowledged, self.sent = False, 0, 0, 0

    def add(self, what, octets=None):
        self.lines.append(f"{self.now} {what}" + ("" if octets is None else f" {octets.hex().upper()}"))
        self.now = min(self.now + self.draw.choice((0, 1, 1, 1)), GREATEST)

    def look(self):
        """Learns what was put out since the look before."""
        with open(self.trace, "w") as file:
            file.write("\n".join(self.lines) + "\n")
        printed = subprocess.run([self.program, "replay", self.config, self.trace], stdout=subprocess.PIPE, check=True)
        lines = printed.stdout.decode().splitlines()
        for line in lines[self.seen :]:
            _, _, what, *octets = line.split()
            if what == "S":
                self.request = bytes.fromhex(octets[0])
                if self.request[0] == 0x68:
                    self.commands.append(self.request[5 + self.setup.link : -2])
            elif what == "T":
                self.received += int(octets[0][4:6], 16) % 2 == 0
            elif what == "X" and octets[0] != "7":
                self.is_open = False
        self.seen = len(lines)

    def make(self):
        self.tell_wall()
        if self.eagerness > 0.1:
            self.connect()
        while len(self.lines) < self.events:
            for _ in range(self.draw.randrange(1, LOOK + 1)):
                self.draw.choices((self.answer, self.centre, self.wait, self.connect, self.tell_wall), (50, 36, 6, 3 * self.slips, 1))[0]()
            self.look()

    def wait(self):
        """A tick: at once, or near the end of a time; now and then at a moment that goes back, or
        at the greatest one."""
        draw, setup = self.draw, self.setup
        times = (setup.answer_ms, setup.answer_ms, setup.select_ms, setup.t1, setup.t3, setup.max_age_ms)
        now = self.now
        self.now = min(now + max(0, draw.choice((0, 5, draw.choice(times) + draw.choice((-2, -1, 0, 1)), draw.choice(times) * 2))), GREATEST)
        if draw.random() < 0.03:
            self.now = draw.choice((0, max(0, now - 1), now // 2))
        elif draw.random() < 0.002:
            self.now = GREATEST - draw.randrange(40)
        self.add("T")
        self.now = max(self.now, now)

    def connect(self):
        if self.is_open and self.draw.random() < 0.5:
            self.is_open = False
            self.add("C")
            return
        self.is_open, self.received, self.acknowledged, self.sent = True, 0, 0, 0
        self.add("O")
        if self.draw.random() < 0.9:
            self.add("R", bytes.fromhex("680407000000"))

    def tell_wall(self):
        """The wall clock, about as far from the tags as a command may be old."""
        age = self.setup.max_age_ms
        self.add("W " + str(WALL + self.draw.choice((0, 0, age - 5, 5 - age, age + 1, -age - 1, age * 2))))

    def answer(self):
        """Octets of the line: mostly a fitting answer to the latest request, whole or in pieces."""
        if not self.request and self.draw.random() < 0.95:
            return self.centre()
        frame = self.answering() if self.request and self.draw.random() >= 0.04 * self.slips else self.noise()
        self.request = b""
        self.put("S", frame)

    def put(self, what, octets):
        """Octets in one piece, or cut into some."""
        while octets:
            count = min(1024, len(octets) if self.draw.random() < 0.8 else self.draw.randrange(1, len(octets) + 1))
            self.add(what, octets[:count])
            octets = octets[count:]

    def noise(self):
        draw = self.draw
        address = draw.choice([0, *self.setup.stations])
        frame = draw.choice((b"\xe5", self.setup.fixed(draw.randrange(256), address), self.setup.data(0x08, address, self.report())))
        if draw.random() < 0.5:
            place = draw.randrange(len(frame))
            frame = frame[:place] + bytes([draw.randrange(256)]) + frame[place + 1 :]
        return frame

    def answering(self):
        """An answer to the latest request."""
        draw, setup = self.draw, self.setup
        place = 1 if self.request[0] == 0x10 else 4
        function, address = self.request[place] % 16, int.from_bytes(self.request[place + 1 : place + 1 + setup.link], "little")
        flags = draw.choice((0, 0, 0x20, 0x20, 0x10, 0x30, 0x80))
        if function == 9:
            return setup.fixed(flags | draw.choice((11, 11, 11, 11, 14 if self.slips == 1 else 11)), address)
        if function == 0:
            return draw.choice((b"\xe5", setup.fixed(flags, address), setup.fixed(flags | 14, address)))
        if draw.random() < 0.04 * self.slips:
            return setup.fixed(flags | draw.choice((14, 15, 1, 8)), address)
        if function == 3:
            return draw.choice((b"\xe5", b"\xe5", setup.fixed(flags, address), setup.fixed(flags | 1, address)))
        if draw.random() < 0.3:
            return draw.choice((b"\xe5", setup.fixed(flags | 9, address)))
        return setup.data(flags | 8, address, self.report())

    def report(self):
        """A report of any type, or the answer to a command that went down."""
        draw = self.draw
        if self.commands and draw.random() < 0.6:
            command = bytearray(draw.choice(self.commands[-3:]))
            command[2] = command[2] & 0x80 * draw.randrange(2) | draw.choice((7, 7, 7, 0x47, 10, 9))
            if command[2] & 0x7F == 7 and command[-1] & 0x80:
                self.confirmed = next((it[2] for it in reversed(self.selects) if it[0] == command[0] and command.endswith(it[1])), None)
            return bytes(command)
        if draw.random() < 0.05:
            return self.long_mirror()
        kind = draw.choice(sorted(CONTENTS) + [2, 50])
        size = CONTENTS.get(kind, 1) + (7 if kind in range(30, 38) or kind in range(58, 63) else 0)
        count = draw.choice((1, 1, 1, 2, 5, 20, 60, 127))
        count = max(1, min(count, self.setup.room // (size + self.setup.ioa)))
        content = lambda: bytes(draw.randrange(256) for _ in range(size - 7)) + TAG if size > 7 else bytes(draw.randrange(256) for _ in range(size))
        objects = [(draw.choice((0, 1, 10, 200, 65535)) + n, content()) for n in range(count)]
        octets = self.setup.asdu(kind, draw.choice((1, 3, 3, 20, 0x83, 0x6C, 0xEC, 0x43)), draw.choice([1, 2, *self.setup.cas]), objects, draw.random() < 0.4)
        return octets if draw.random() < 0.95 else octets[:-1]

    def long_mirror(self):
        """An answer to commands with as many objects as a frame takes: several pieces on the connection."""
        draw, ioa, room = self.draw, self.setup.ioa, self.setup.room
        kind = draw.choice((45, 46, 49, 100))
        size = COMMANDS[kind]
        count = min(127, (room - ioa) // (size + draw.choice((0, ioa))) if draw.random() < 0.7 else 3)
        is_sequence = count * (size + ioa) > room
        objects = [(1 + n, bytes(size)) for n in range(count)]
        return self.setup.asdu(kind, draw.choice((7, 0x47, 10)), draw.choice(self.setup.cas), objects, is_sequence)

    def centre(self):
        """Octets of the control centre: mostly frames that count right."""
        draw = self.draw
        if not self.is_open and draw.random() < self.eagerness:
            return self.connect()
        # Now and then more than there are places for own answers.
        count = draw.choice((1, 1, 1, 2, 3)) if draw.random() < 0.985 else 40
        frames = b"".join(self.frame(count == 40) for _ in range(count))
        if draw.random() < 0.02 * self.slips:
            frames = frames[:-1] + bytes([draw.randrange(256)])
        self.put("R", frames)

    def frame(self, is_command=False):
        draw = self.draw
        received = draw.randrange(self.acknowledged, self.received + 1) if draw.random() >= 0.01 * self.slips else self.received + draw.randrange(3)
        self.acknowledged = max(self.acknowledged, min(received, self.received))
        chance = 1 if is_command else draw.random()
        if chance < 0.4:
            return bytes([0x68, 4, 1, 0]) + low_first(received * 2, 2)
        if chance < 0.55:
            return bytes.fromhex("6804" + draw.choices(FUNCTIONS, (9, 1, self.slips, 1, 3, 3))[0] + "000000")
        asdu = self.command()
        sent = self.sent if draw.random() >= 0.02 * self.slips else self.sent + 1
        self.sent += 1
        return bytes([0x68, 4 + len(asdu)]) + low_first(sent * 2, 2) + low_first(received * 2, 2) + asdu

    def command(self):
        """A command to a station, mostly a right one; often the execute of the latest select."""
        draw = self.draw
        if self.confirmed is not None and draw.random() < 0.7:
            execute, self.confirmed = self.confirmed, None
            return execute
        if draw.random() < 0.02:
            return self.selects[-1][2] or self.command()
        kind = draw.choice((45, 45, 46, 49, 58, 58, 62, 100) if draw.random() < 0.8 else sorted(COMMANDS) + [101, 1])
        is_global = kind == 100
        size = COMMANDS.get(kind, 1)
        last = draw.choice((20, 20, 36, 19)) if is_global else draw.choice((1, 1, 2, 0x81, 0x81, 0x81, 0x82, 0x85, 0))
        # A set point has any value, of which no octet is looked at.
        element = bytes(draw.randrange(256) for _ in range(size - 1)) + bytes([last])
        tag = draw.choice(TAGS) if kind in range(58, 63) else b""
        cause = draw.choices((6, 8, 0x86, 0x46, 5), (20, 2, 1, 1, 1))[0]
        ca = draw.choice(self.setup.cas * (1 + 36 // len(self.setup.cas)) + [9, 65535] + [65535] * 4 * is_global)
        address = 0 if is_global and draw.random() < 0.95 else draw.choice((10,) * 4 + tuple(range(11, 21)) + (0, 70000))
        number = draw.choice((1,) * 20 + (2, 0x81))
        if draw.random() < 0.04:
            # An ASDU of any type and of any length, whose own answer is as long.
            behind = bytes(draw.randrange(256) for _ in range(draw.choice((0, 1, 91, 92, 240))))
            return bytes([draw.choice((kind, 125, 51)), number, cause, 0]) + low_first(ca, 2) + low_first(address, 3) + behind
        head = bytes([kind, number, cause, 0]) + low_first(ca, 2) + low_first(address, 3) + element[:-1]
        if kind in SELECTED and last & 0x80:
            self.selects.append((kind - 13 * (kind >= 58), low_first(address, self.setup.ioa) + element, head + bytes([last & 0x7F]) + tag))
        return head + bytes([last]) + tag


def agrees(count, program, other, folder, seed):
    """Judges whether both programs print the same for the run that this seed makes. If they differ,
    its trace is kept."""
    run = Run(other, folder, seed, count.options.events)
    run.make()
    words = ["replay", "--left", "--counts", run.config, run.trace]
    ours, theirs = (subprocess.run([one, *words], stdout=subprocess.PIPE, stderr=subprocess.PIPE) for one in (program, other))
    same = (ours.returncode, ours.stdout) == (theirs.returncode, theirs.stdout) and ours.returncode == 0
    if same:
        os.remove(run.config)
        os.remove(run.trace)
    count.judge(f"seed {seed}", same, f"status {ours.returncode} and {theirs.returncode}")


def runs(count, program, folder):
    """Each run that a seed makes is the same of both programs."""
    given, other = count.options, plain.built(folder)
    if other is None:
        raise frame.Skipped("there is no rustc")
    kept = given.keep or folder
    os.makedirs(kept, exist_ok=True)
    seeds = [seed for seed in range(given.seed, given.seed + given.runs) if count.wants(f"seed {seed}")]
    with ThreadPoolExecutor(AT_ONCE) as pool:
        for _ in pool.map(lambda seed: agrees(count, program, other, kept, seed), seeds):
            pass


if __name__ == "__main__":
    frame.main(
        runs,
        words={
            "--runs": {"type": int, "default": 80},
            "--events": {"type": int, "default": 250},
            "--seed": {"type": int, "default": 1},
            "--keep": {"metavar": "FOLDER", "help": "where settings and trace of each run that differs stay"},
        },
    )
