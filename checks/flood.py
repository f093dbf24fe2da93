#!/usr/bin/env python3
"""Floods the gateway with octets on both sides, and judges all that it puts out by the standard's
rules.

    checks/flood.py [--program FILE] [--only NAME] [--seed N]

A fixed generator makes twenty traces of 500 pieces with octets, some events at a time. The next
events depend on what the gateway has put out by then, which `telegate replay` prints for the events
so far. So requests are answered, lost, spoilt and cut in pieces. A control centre starts, stops,
acknowledges, keeps silent, asks for what no gateway knows, counts wrongly, sends noise, goes and
comes again.

For each event the script works out everything that goes out, by the rules alone (IEC 60870-5-2,
5.1; IEC 60870-5-104, 5; docs/PROFILE.md). This is each I frame with its numbers and its objects,
each S and U frame, and each close with its cause. It is also whether a request may go out, which
one, and whether one must. At the end each of the seven causes of a close has come at least ten
times. An event passes with all that goes out at it.
"""
import collections
import os
import random
import subprocess

import ends
import frame

RUNS, PIECES = 20, 500
ANSWER, K, W, T1, T2, T3, QUEUE, OWN = 200, 3, 2, 1000, 300, 700, 8, 16
SETTINGS = f"""[line]
link = 1
cause = 1
ca = 1
ioa = 2
answer_ms = {ANSWER}
queue = {QUEUE}
[tcp]
k = {K}
w = {W}
t1_ms = {T1}
t2_ms = {T2}
t3_ms = {T3}
[[station]]
address = 1
ca = 1
"""
CONFIRMED = {0x07: 0x0B, 0x13: 0x23, 0x43: 0x83}


def number(octets):
    """N(S) or N(R)."""
    return octets[0] // 2 + 128 * octets[1]


def pair(count):
    return (count % 32768 * 2).to_bytes(2, "little")


def u_frame(first):
    return bytes([0x68, 4, first, 0, 0, 0])


def s_frame(received):
    return bytes([0x68, 4, 1, 0]) + pair(received)


def i_frame(sent, received, asdu):
    return bytes([0x68, 4 + len(asdu)]) + pair(sent) + pair(received) + asdu


def is_refused(octets):
    """Whether they begin no APDU (5.1)."""
    o = octets[:6] + bytes(6 - len(octets[:6]))
    come = len(octets)
    kind = o[2] % 4
    is_known = kind in (0, 2) or o[2] == 1 or o[2] in (0x07, 0x0B, 0x13, 0x23, 0x43, 0x83)
    is_i = kind in (0, 2)
    return (
        come > 0 and o[0] != 0x68
        or come > 1 and not 4 <= o[1] <= 253
        or come > 2 and (not is_known or (o[1] < 13 if is_i else o[1] != 4))
        or come > 3 and not is_i and o[3] != 0
        or come > 4 and (o[4] % 2 == 1 or kind == 3 and o[4] != 0)
        or come > 5 and kind == 3 and o[5] != 0
    )


class Connection:
    """One connection: what the control centre sent, and what has to go out."""

    def __init__(self, now, reports, first):
        self.buffer = b""
        self.runs = self.is_stopping = False
        self.received = self.told = self.acknowledged = 0
        # The moment of each I frame sent, and whether it carried a report.
        self.sent = []
        # The moments of the I frames received that no N(R) has told.
        self.untold = []
        self.own = collections.deque()
        self.tested = None
        self.heard = now
        # All reports taken, and the first that no earlier connection acknowledged.
        self.reports, self.next = reports, first

    def unacknowledged(self):
        return len(self.sent) - self.acknowledged

    def tells(self):
        self.untold = []
        return self.received

    def flush(self, now, out):
        """I frames, own answers first, then reports, while data transfer runs and the window has room; then an S frame that is due."""
        while self.runs and self.unacknowledged() < K and (self.own or self.next < len(self.reports)):
            is_report = not self.own
            asdu = self.reports[self.next] if is_report else self.own.popleft()
            self.next += is_report
            out.append(i_frame(len(self.sent), self.tells(), asdu))
            self.sent.append((now, is_report))
        if len(self.untold) >= W or self.untold and now - self.untold[0] >= T2:
            out.append(s_frame(self.tells()))

    def acknowledge(self, told):
        """Whether a receive number is valid; what it acknowledges is."""
        more = (told - self.acknowledged) % 32768
        if more > self.unacknowledged():
            return False
        self.acknowledged += more
        return True

    def judge(self, now, apdu, out):
        """The cause of a close that a frame gives, or 0. Confirmations go out."""
        first, owed = apdu[2], []
        self.heard = now
        if first % 2 == 0:
            if not self.runs:
                return 4
            if number(apdu[2:4]) != self.received % 32768:
                return 2
            if not self.acknowledge(number(apdu[4:6])):
                return 3
            self.received += 1
            self.untold.append(now)
            if len(self.own) == OWN:
                return 6
            # A type that no gateway passes on: the same with cause 44 and P/N.
            self.own.append(apdu[6:8] + bytes([0x6C]) + apdu[9:])
        elif first == 1:
            if not self.acknowledge(number(apdu[4:6])):
                return 3
        elif first == 0x83:
            self.tested = None
        elif first == 0x13:
            self.runs, self.is_stopping = False, True
        elif first in CONFIRMED:
            if first == 0x07:
                self.runs, self.is_stopping = True, False
            owed = [u_frame(CONFIRMED[first])]
        # A pending STOPDT act has its S frame first, and its STOPDT con last, once nothing is unacknowledged.
        if self.is_stopping and self.untold:
            out.append(s_frame(self.tells()))
        out += owed
        if self.is_stopping and not self.unacknowledged():
            self.is_stopping = False
            out.append(u_frame(0x23))
        return 0

    def hear(self, now, octets, out):
        """The cause of a close that octets give, or 0."""
        self.buffer += octets
        while not is_refused(self.buffer):
            if len(self.buffer) < 6 or len(self.buffer) < self.buffer[1] + 2:
                return 0
            apdu, self.buffer = self.buffer[: self.buffer[1] + 2], self.buffer[self.buffer[1] + 2 :]
            cause = self.judge(now, apdu, out)
            if cause:
                return cause
            self.flush(now, out)
        return 1

    def is_late(self, now):
        oldest = [self.sent[self.acknowledged][0]] if self.unacknowledged() else []
        return any(now - then >= T1 for then in oldest + [self.tested] * (self.tested is not None))

    def first_unacknowledged(self):
        """The first report that the control centre hasn't acknowledged."""
        return self.next - sum(is_report for _, is_report in self.sent[self.acknowledged :])


class Line:
    """The exchanges with station 1."""

    def __init__(self):
        self.request, self.asked, self.heard = b"", 0, b""
        self.is_closed = self.is_up = self.is_answered = False
        self.service = b""

    @staticmethod
    def control(frame):
        return frame[1] if frame[0] == 0x10 else frame[4]

    def front(self):
        """The frame at the front of the octets that came, if there is one."""
        h = self.heard
        if h[:1] == b"\xE5":
            return h[:1]
        if len(h) >= 5 and h[:1] == b"\x10" and h[:5] == ends.fixed(h[1], h[2]):
            return h[:5]
        if len(h) >= 6 and h[0] == 0x68 and h[1] == h[2] and len(h) >= h[1] + 6 and h[1] > 1:
            frame = h[: h[1] + 6]
            return frame if frame == ends.data(h[4], h[5], frame[6:-2]) else None
        return None

    def answer(self):
        """The frame that answers the request, or None."""
        frame = self.front()
        if not self.request or frame is None or frame == b"\xE5":
            return frame if frame and self.request and self.control(self.request) % 16 != 9 else None
        control = self.control(frame)
        address = frame[2] if frame[0] == 0x10 else frame[5]
        if control // 64 % 2 or address != 1:
            return None
        asked = self.control(self.request) % 16
        fitting = {9: (11, 14, 15), 0: (0,), 3: (0, 1, 14, 15)}.get(asked, (9, 14, 15))
        if frame[0] == 0x10:
            return frame if control % 16 in fitting else None
        return frame if asked in (10, 11) and control % 16 == 8 else None

    def hear(self, now, octets):
        """The ASDU of a report that came, if one did. Octets count up to and with the moment at which the time is out."""
        if not self.request or self.is_closed or self.answer():
            return None
        self.heard += octets
        self.is_closed = now - self.asked >= ANSWER
        answer = self.answer()
        if answer is None:
            return None
        control = 0 if answer == b"\xE5" else self.control(answer)
        asked = self.control(self.request)
        if asked % 16 == 0:
            self.is_up, self.service = True, b""
        elif control % 16 in (14, 15):
            self.is_up = False
        self.is_answered = True
        return answer[6:-2] if answer[0] == 0x68 else None

    def is_outstanding(self):
        return bool(self.request) and not self.is_closed and not self.answer()

    def may_ask(self, now, frame, has_room):
        """Whether a request may go out now."""
        if self.is_outstanding() or frame != ends.fixed(self.control(frame), 1):
            return False
        control = self.control(frame)
        if control in (0x49, 0x40):
            # A status or a reset: while it isn't up, a reset right after a status that was answered 11.
            follows = self.request and self.control(self.request) == 0x49 and self.answer() and self.control(self.answer()) % 16 == 11
            return not self.is_up and (control == 0x49 or bool(follows))
        if not self.is_up or control % 16 not in (10, 11) or control // 16 not in (5, 7):
            return False
        if not self.service:
            return has_room and control // 32 % 2 == 1
        if self.is_answered:
            return has_room and control // 32 % 2 != self.control(self.service) // 32 % 2
        return frame == self.service

    def ask(self, now, frame):
        self.request, self.asked, self.heard = frame, now, b""
        self.is_closed = self.is_answered = False
        if self.control(frame) // 16 % 2:
            self.service = frame


class Judge:
    """What has to hold for each event and for what goes out at it."""

    def __init__(self):
        self.line, self.connection = Line(), None
        self.reports, self.first = [], 0
        self.closes = collections.Counter()

    def close(self):
        self.first = self.connection.first_unacknowledged()
        self.connection = None

    def kept(self):
        first = self.connection.first_unacknowledged() if self.connection else self.first
        return len(self.reports) - first

    def at(self, now, what, octets, told):
        """None if what goes out at an event is right, else what is wrong with it."""
        out, cause = [], 0
        if what == "O":
            if self.connection:
                cause = 7
                self.close()
            self.connection = Connection(now, self.reports, self.first)
        elif what == "C" and self.connection:
            self.close()
        elif what == "R" and self.connection:
            cause = self.connection.hear(now, octets, out)
        report = self.line.hear(now, octets if what == "S" else b"")
        if report is not None:
            # The cause and the common address have two octets on TCP, the object address three.
            self.reports.append(report[:3] + bytes([0, report[3], 0]) + report[4:6] + b"\0" + report[6:])
        if self.connection and cause in (0, 7) and self.connection.is_late(now):
            cause = 5
        if cause not in (0, 7):
            self.close()
        requests = [bytes.fromhex(octets) for side, octets in told if side == "S"]
        wrong = self.wrong_requests(now, requests)
        closes = [int(octets) for side, octets in told if side == "X"]
        if closes != [cause] * bool(cause):
            wrong = wrong or f"closes {closes}, not {cause}"
        self.closes[cause] += 1
        sent = [bytes.fromhex(octets) for side, octets in told if side == "T"]
        return wrong or self.wrong_frames(now, sent, out)

    def wrong_requests(self, now, requests):
        has_room = QUEUE - self.kept() >= 3
        if len(requests) > 1 or requests and not self.line.may_ask(now, requests[0], has_room):
            return f"requests {[it.hex() for it in requests]}"
        if requests:
            self.line.ask(now, requests[0])
        elif not self.line.is_outstanding() and (has_room or not self.line.is_up):
            return "no request"
        return None

    def wrong_frames(self, now, sent, out):
        """Compares the frames with those that are due, in their order."""
        it = self.connection
        if it is not None:
            it.flush(now, out)
            if it.tested is None and now - it.heard >= T3:
                it.tested = now
                out.append(u_frame(0x43))
        return None if sent == out else f"sent {[a.hex() for a in sent]}, not {[a.hex() for a in out]}"


class Flood:
    """The events, from a fixed generator."""

    def __init__(self, seed, judge):
        self.chance, self.judge = random.Random(seed), judge
        self.now, self.given = 0, 0
        # Of the open connection: the I frames said, the greatest receive number said, and what is still to come of a cut frame.
        self.asked, self.told = 0, 0
        self.mode, self.left = "plain", 0
        self.tail = b""

    def event(self, what, octets=b"", most=40):
        self.now += self.chance.randint(1, most)
        return self.now, what, octets

    def report(self):
        self.given += 1
        address = self.given % 65535 + 1
        control = self.chance.choice([0x08, 0x28])
        return ends.data(control, 1, bytes([1, 1, 3, 1, address % 256, address // 256, self.given % 2]))

    def answer(self):
        """What the station says to the latest request, or something else."""
        request = self.judge.line.request
        function = Line.control(request) % 16 if request else 9
        if self.chance.random() < 0.1:
            return self.chance.randbytes(self.chance.randint(1, 64))
        if self.chance.random() < 0.05:
            return self.chance.choice([ends.fixed(0x0F, 1), ends.fixed(0x0B, 2), ends.fixed(0x4B, 1), self.report()[:-2] + b"\0\x16"])
        if function == 9:
            return ends.fixed(0x0B, 1)
        if function == 0:
            return self.chance.choice([b"\xE5", ends.fixed(0x00, 1)])
        return self.chance.choice([b"\xE5", ends.fixed(0x09, 1), self.report(), self.report(), self.report()])

    def frames(self, count):
        """What the centre says next: so many frames."""
        it = self.judge.connection
        runs, octets = it.runs, b""
        for _ in range(count):
            if self.mode == "plain":
                self.told = self.chance.randint(self.told, max(self.told, len(it.sent)))
            dice = self.chance.random()
            if not runs and dice < 0.95:
                octets, runs = octets + u_frame(0x07), True
            elif dice < 0.02:
                octets, runs = octets + u_frame(0x13), False
            elif dice < 0.06:
                octets += u_frame(0x43)
            elif dice < 0.2 and self.mode != "silent":
                octets += u_frame(0x83)
            elif dice < 0.24 and self.mode == "plain":
                octets += self.chance.choice([s_frame(len(it.sent) + 3), self.asked_for(1), b"\x68\4\2"])
            elif dice < (0.3 if self.mode == "asking" else 0.8):
                octets += s_frame(self.told)
            else:
                octets += self.asked_for(0)
        return octets

    def asked_for(self, wrong):
        """An I frame of a type that no gateway passes on, with N(S) as it should be or so many more."""
        self.asked += 1
        sent = self.asked - 1 + wrong
        return i_frame(sent, self.told, bytes([0x66, 1, 6, 0, 1, 0, sent % 256, sent // 256 % 256, 0]))

    def some(self):
        """The next few events, as they follow from what has gone out by now."""
        if self.left == 0:
            self.mode = self.chance.choice(["plain", "plain", "silent", "asking"])
            self.left = self.chance.randint(20, 40)
        self.left -= 1
        if self.judge.connection is None or self.chance.random() < 0.005:
            self.asked, self.told, self.tail = 0, 0, b""
            yield self.event(self.chance.choice("OOOC"))
        else:
            octets = self.tail + self.frames(self.chance.randint(1, 5 if self.mode == "asking" else 2))
            # A frame may be cut at any place, and goes on with the next piece.
            cut = self.chance.randint(max(1, len(octets) - 9), len(octets))
            octets, self.tail = octets[:cut], octets[cut:]
            yield self.event("R", octets, {"plain": 40, "silent": 100, "asking": 5}[self.mode])
        answer = self.answer()
        cut = self.chance.randint(1, len(answer))
        yield self.event("S", answer[:cut])
        if answer[cut:]:
            yield self.event("S", answer[cut:])
        if self.chance.random() < 0.1:
            yield self.event("T", b"", 250)


def replayed(program, settings, trace, lines):
    """What `replay` prints of a trace, by moment."""
    with open(trace, "w") as file:
        file.write("".join(lines))
    done = subprocess.run([program, "replay", settings, trace], capture_output=True, text=True, timeout=60)
    if done.returncode != 0:
        raise RuntimeError(f"exit status {done.returncode}: {done.stderr}")
    told = collections.defaultdict(list)
    for line in done.stdout.splitlines():
        now, _, side, *rest = line.split()
        # A gap goes to nobody: checks/rows.py judges when one is told.
        if side == "G":
            continue
        octets = rest[0]
        told[int(now)].append((side, octets))
    return told


def flooded(program, folder, seed, pieces):
    """A run of so many pieces: the judge, the pieces, and how many events passed and failed."""
    settings, trace = os.path.join(folder, "config.toml"), os.path.join(folder, "flood.trace")
    with open(settings, "w") as file:
        file.write(SETTINGS)
    judge = Judge()
    flood, lines, given, passed, failed = Flood(seed, judge), [], 0, 0, 0
    if judge.at(0, "T", b"", replayed(program, settings, trace, [])[0]):
        raise RuntimeError("the first tick")
    while given < pieces and failed == 0:
        events = list(flood.some())
        lines += [f"{now} {what} {octets.hex().upper()}".strip() + "\n" for now, what, octets in events]
        told = replayed(program, settings, trace, lines)
        for now, what, octets in events:
            given += bool(octets)
            wrong = judge.at(now, what, octets, told[now])
            passed, failed = passed + (not wrong), failed + bool(wrong)
            if wrong:
                print(f"FAILED, seed {seed}, at {now} {what} {octets.hex().upper()}: {wrong}")
                break
    return judge, given, passed, failed


def floods(count, program, folder):
    """Each event of each flood, and at the end that everything came that has to be judged."""
    pieces = reports = 0
    closes = collections.Counter()
    for seed in range(count.options.seed, count.options.seed + RUNS):
        if count.wants(f"seed {seed}"):
            judge, some, passed, failed = flooded(program, folder, seed, PIECES)
            count.add(f"seed {seed}", passed, failed)
            pieces, reports, closes = pieces + some, reports + len(judge.reports), closes + judge.closes
    causes = [closes[cause] for cause in range(1, 8)]
    print(f"{pieces} pieces with octets, {reports} reports taken, closes by cause {causes}")
    count.judge("pieces come", pieces >= RUNS * PIECES, pieces)
    count.judge("closes by each cause", all(n >= 10 for n in causes), causes)


if __name__ == "__main__":
    frame.main(floods, words={"--seed": {"type": int, "default": 1}})
