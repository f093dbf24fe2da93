#!/usr/bin/env python3
"""Floods the gateway with answers and commands, and judges what goes out by rules that leave it its
own answers.

    checks/commands.py [--program FILE] [--only NAME] [--seed N]

A fixed generator makes ten traces of 1,000 events, four at a time. The next event depends on what
the gateway has put out by then, which `telegate replay` prints for the events so far. So
interrogations go down to a station that accepts them, is busy or says something else. Meanwhile
reports go up, and connections come, are cut and replaced, count wrongly and send noise.

checks/flood.py works out every frame, but has no commands. Here each event is judged by what must
hold for any (IEC 60870-5-2, 5.1; IEC 60870-5-104, 5):

- At most one request and one close go out, and nothing goes to TCP behind a close.
- A request goes out only if none is outstanding, and with the frame count bit that is due.
- Each APDU is whole. Its N(S) is the count of those before it, and its N(R) a count of what came.
- A close has a cause that the event can have.

At the end the causes 1, 2, 3, 4 and 7 have come, and commands went down. An event passes with all
that goes out at it.
"""
import collections
import os
import random
import subprocess

import ends
import frame
from flood import is_refused, number, pair, s_frame, u_frame

RUNS, EVENTS, AT_ONCE, ANSWER = 10, 1000, 4, 200
SETTINGS = f"""[line]
link = 1
cause = 1
ca = 1
ioa = 2
answer_ms = {ANSWER}
queue = 100
[[station]]
address = 1
ca = 1
"""
POINT = ends.data(0x08, 1, bytes.fromhex("01010301640001"))
MORE = ends.data(0x28, 1, bytes.fromhex("01010301640001"))
SINGLE, BUSY = b"\xE5", ends.fixed(0x01, 1)
INTERROGATION = bytes.fromhex("64010600010000000014")


def control(frame):
    return frame[1] if frame[0] == 0x10 else frame[4]


class Line:
    """The exchanges with station 1, of which the next request may or may not follow."""

    def __init__(self):
        self.request, self.asked, self.heard, self.is_closed = b"", 0, b"", False
        # The latest request with a frame count bit since the link was reset, and whether it was answered.
        self.service, self.is_answered = b"", False

    def hear(self, now, octets):
        if not self.is_closed:
            self.heard += octets
        self.is_closed = self.is_closed or now >= self.asked + ANSWER

    def has_answer(self):
        """Whether the octets that came begin with an answer to the request. E5 may stand in place
        of a short one."""
        if not self.request or not self.heard:
            return False
        asked, h = control(self.request) % 16, self.heard
        if h[0] == 0xE5:
            return asked != 9
        if len(h) > 4 and h[:5] == ends.fixed(h[1], 1):
            fitting = {9: (11, 14, 15), 0: (0,), 3: (0, 1, 14, 15)}.get(asked, (9, 14, 15))
            return h[1] // 64 % 2 == 0 and h[1] % 16 in fitting
        if len(h) > 6 and h[0] == 0x68 and h[1] >= 2 and len(h) >= h[1] + 6:
            frame = h[: h[1] + 6]
            is_whole = frame == ends.data(h[4], 1, frame[6:-2])
            return is_whole and asked in (10, 11) and h[4] // 64 % 2 == 0 and h[4] % 16 == 8
        return False

    def may_ask(self, frame):
        """Whether a request may go out: none is outstanding, and its bit is the one that is due."""
        has_answer = self.has_answer()
        if self.request and control(self.request) // 16 % 2:
            self.is_answered = has_answer
        if self.request and control(self.request) % 16 == 0 and has_answer:
            self.service = b""
        bit = control(frame) // 32 % 2
        if control(frame) // 16 % 2 == 0:
            is_due = True
        elif not self.service:
            is_due = bit == 1
        elif self.is_answered:
            is_due = bit != control(self.service) // 32 % 2
        else:
            is_due = frame == self.service
        return is_due and (not self.request or has_answer or self.is_closed)

    def ask(self, now, frame):
        may = self.may_ask(frame)
        if control(frame) // 16 % 2:
            self.service = frame
        self.request, self.asked, self.heard, self.is_closed = frame, now, b"", False
        return may


class Connection:
    """One connection: the counts of the frames on it."""

    def __init__(self):
        self.is_open, self.runs, self.octets = True, False, b""
        self.received = self.sent = self.acknowledged = 0

    def acknowledge(self, told):
        count = self.acknowledged + (told - self.acknowledged) % 32768
        if count > self.sent:
            return False
        self.acknowledged = count
        return True

    def judge(self, apdu):
        """The cause of a close that a frame gives, or 0."""
        is_i = apdu[2] % 2 == 0
        self.runs = {0x07: True, 0x13: False}.get(apdu[2], self.runs)
        if is_i and not self.runs:
            return 4
        if is_i and number(apdu[2:4]) != self.received % 32768:
            return 2
        if (is_i or apdu[2] == 1) and not self.acknowledge(number(apdu[4:6])):
            return 3
        self.received += is_i
        return 0

    def hear(self, piece):
        """The cause of a close that octets give, or 0."""
        self.octets += piece
        while not is_refused(self.octets):
            if len(self.octets) < 6 or len(self.octets) < self.octets[1] + 2:
                return 0
            size = self.octets[1] + 2
            apdu, self.octets = self.octets[:size], self.octets[size:]
            cause = self.judge(apdu)
            if cause:
                return cause
        return 1

    def may_go(self, apdu, sent, before):
        """Whether an APDU may go out as the next one, if so many I frames went out before it, and
        so many had come before the event."""
        if not self.is_open or len(apdu) < 6 or is_refused(apdu) or len(apdu) != apdu[1] + 2:
            return False
        is_i = apdu[2] % 2 == 0
        if is_i and number(apdu[2:4]) != sent % 32768:
            return False
        return not (is_i or apdu[2] == 1) or before <= number(apdu[4:6]) <= self.received


class Judge:
    """What holds of each event and of what goes out at it."""

    def __init__(self):
        self.line, self.connection = Line(), None
        self.closes, self.commands, self.told = collections.Counter(), 0, 0

    def may_close(self, now, what, octets, cause):
        """Whether a close with this cause, or none at 0, may follow the event."""
        it = self.connection if self.connection and self.connection.is_open else None
        self.line.hear(now, octets if what == "S" else b"")
        if what == "S":
            return cause == 0 or it is not None and cause in (5, 6)
        if what == "T":
            return cause == 0 or it is not None and cause == 5
        if what == "O":
            return (cause == 7) == (it is not None)
        if what == "C" or it is None:
            return cause == 0
        fault = it.hear(octets)
        return cause in (fault, 6) or fault == 0 and cause == 5

    def at(self, now, what, octets, told):
        """None if what goes out at an event is right, else what is wrong with it."""
        closes = [int(octets) for side, octets in told if side == "X"]
        requests = [bytes.fromhex(octets) for side, octets in told if side == "S"]
        frames = [bytes.fromhex(octets) for side, octets in told if side == "T"]
        cause = closes[-1] if closes else 0
        before = self.connection.received if self.connection and what != "O" else 0
        sent = self.connection.sent if self.connection and what != "O" else 0
        if self.connection and what != "O":
            self.connection.sent += sum(apdu[2] % 2 == 0 for apdu in frames)
        wrong = [] if self.may_close(now, what, octets, cause) else [f"close {cause}"]
        if what == "O":
            self.connection = Connection()
        elif what == "C" and self.connection:
            self.connection.is_open = False
        if len(closes) > 1 or len(requests) > 1:
            wrong.append(f"{len(closes)} closes, {len(requests)} requests")
        sides = [side for side, _ in told]
        if "X" in sides and "T" in sides[sides.index("X") :]:
            wrong.append("an APDU behind a close")
        for frame in requests:
            self.commands += control(frame) % 16 == 3
            if not self.line.ask(now, frame):
                wrong.append(f"request {frame.hex()}")
        for apdu in frames:
            if not self.connection or not self.connection.may_go(apdu, sent, before):
                wrong.append(f"APDU {apdu.hex()}")
            sent += apdu[2] % 2 == 0
        if 0 < cause < 7:
            self.connection.is_open = False
        self.closes[cause] += 1
        self.told += 1 + len(told)
        return ", ".join(wrong) or None


class Flood:
    """The events, from a fixed generator."""

    def __init__(self, seed, judge):
        self.chance, self.judge, self.now = random.Random(seed), judge, 0
        self.is_started, self.asked = False, 0

    def answer(self):
        """What the station says to the latest request, or something else."""
        request = self.judge.line.request
        function = control(request) % 16 if request else 9
        dice = self.chance.randrange(16)
        if dice == 0:
            return self.chance.randbytes(self.chance.randint(1, 64))
        if dice < 3:
            return (POINT, ends.fixed(0x0F, 1))[dice - 1]
        good = {9: [ends.fixed(0x0B, 1)], 0: [SINGLE], 3: [SINGLE, SINGLE, BUSY]}
        return self.chance.choice(good.get(function, [POINT, SINGLE, MORE]))

    def interrogation(self, past):
        """An I frame, whose number is so many past the next."""
        self.asked += 1
        head = pair(self.asked - 1 + past) + pair(self.judge.connection.sent)
        return bytes([0x68, len(INTERROGATION) + 4]) + head + INTERROGATION

    def apdus(self):
        """What the control centre says."""
        if not self.is_started and self.chance.randrange(4):
            self.is_started = True
            return u_frame(0x07)
        dice, sent = self.chance.randrange(64), self.judge.connection.sent
        if dice == 0:
            return self.chance.randbytes(self.chance.randint(1, 64))
        if dice in (1, 3):
            return s_frame(sent + 1) if dice == 1 else u_frame(0x13)
        if dice < 10 and dice != 2:
            return u_frame(0x43) * 2
        if dice < 15 and dice != 2:
            return u_frame(0x83)
        return self.interrogation(int(dice == 2)) if dice < 31 else s_frame(sent)

    def event(self):
        """The next event: what comes, and its octets."""
        self.now += self.chance.randint(1, 64)
        it, dice = self.judge.connection, self.chance.randrange(128)
        if dice == 0 or dice < 24 and not (it and it.is_open):
            self.is_started, self.asked = False, 0
            return self.now, "O", b""
        if dice < 21:
            return self.now, "C" if dice == 1 else "T", b""
        if dice < 81 or it is None:
            return self.now, "S", self.answer()
        return self.now, "R", self.apdus()


def replayed(program, settings, trace, lines):
    """What `replay` prints of a trace, by moment."""
    with open(trace, "w") as file:
        file.write("".join(lines))
    done = subprocess.run([program, "replay", settings, trace], capture_output=True, text=True, timeout=60)
    if done.returncode != 0:
        raise RuntimeError(f"exit status {done.returncode}: {done.stderr}")
    told = collections.defaultdict(list)
    for line in done.stdout.splitlines():
        now, _, side, octets, *_ = line.split()
        told[int(now)].append((side, octets))
    return told


def flooded(program, folder, seed):
    """A run: its judge, and how many events passed and failed."""
    settings, trace = os.path.join(folder, "config.toml"), os.path.join(folder, "flood.trace")
    with open(settings, "w") as file:
        file.write(SETTINGS)
    judge, lines, passed, failed = Judge(), [], 0, 0
    flood = Flood(seed, judge)
    if judge.at(0, "T", b"", replayed(program, settings, trace, [])[0]):
        raise RuntimeError("the first tick")
    while passed < EVENTS and not failed:
        events = [flood.event()]
        # What follows the opening of a connection, or its end, has to wait for it.
        while events[-1][1] not in "OC" and len(events) < AT_ONCE:
            events.append(flood.event())
        lines += [f"{now} {what} {octets.hex().upper()}".strip() + "\n" for now, what, octets in events]
        told = replayed(program, settings, trace, lines)
        for now, what, octets in events:
            wrong = judge.at(now, what, octets, told[now])
            passed, failed = passed + (not wrong), failed + bool(wrong)
            if wrong:
                print(f"FAILED, seed {seed}, at {now} {what} {octets.hex().upper()}: {wrong}")
    return judge, passed, failed


def floods(count, program, folder):
    """Each event of each flood, and at the end that everything came that has to be judged."""
    commands = told = 0
    closes = collections.Counter()
    for seed in range(count.options.seed, count.options.seed + RUNS):
        if count.wants(f"seed {seed}"):
            judge, passed, failed = flooded(program, folder, seed)
            count.add(f"seed {seed}", passed, failed)
            commands, told, closes = commands + judge.commands, told + judge.told, closes + judge.closes
    causes = [closes[cause] for cause in range(1, 8)]
    print(f"{told} events and actions, {commands} commands sent, closes by cause {causes}")
    count.judge("closes by the causes 1, 2, 3, 4 and 7", all(closes[cause] > 0 for cause in (1, 2, 3, 4, 7)), causes)
    count.judge("commands go down", commands > 100, commands)
    count.judge("events and actions come", told > 14000, told)


if __name__ == "__main__":
    frame.main(floods, words={"--seed": {"type": int, "default": 1}})
