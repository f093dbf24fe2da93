#!/usr/bin/env python3
"""Plays a guarded outstation and a control centre around `telegate run`, and judges selects and
executes by the frames that the outstation received.

    checks/operated.py [--program FILE] [--only NAME]

- Types 45 to 49 and 58, at a common address above 255, in the line's own sizes: an execute without
  a select goes nowhere. A select that the station confirmed lets one execute of its value pass.
- A selection is over behind its execute, behind `select_ms`, behind a cut of its connection, at an
  execute of another value, and if the station refused it.
- An execute whose answer was lost goes out again under its frame count bit, so that the outstation
  acts once.
- An outstation that isn't guarded gets each execute as it comes.

Each ASDU is written here as octets. All of it is on the loopback.
"""
import datetime
import threading
import time

import ends
import frame

# Two stations at common addresses of two octets: 300 is guarded, and 301 isn't. On a busy machine an
# answer may take a while, and so may a confirmation.
SELECT_MS = 4000
SETTINGS = f"""[line]
link = 1
cause = 1
ca = 2
ioa = 2
answer_ms = 2000
retries = 3
[tcp]
select_ms = {SELECT_MS}
[[station]]
address = 7
ca = 300
select = true
[[station]]
address = 9
ca = 301
"""
GUARDED, OTHER = 300, 301
# What each type commands. Bit 8 of the last octet says select (IEC 60870-5-101, 7.2.6.15 to 7.2.6.17
# and 7.2.6.39).
ELEMENTS = {45: "01", 46: "02", 47: "01", 48: "00 40 00", 49: "34 12 00"}
ACTIVATION, CONFIRMATION, TERMINATION, NEGATIVE = 6, 7, 10, 0x40


def element(kind, is_select):
    """The element of a command of this type on the line, as octets."""
    octets = bytearray.fromhex(ELEMENTS[kind])
    octets[-1] |= 0x80 if is_select else 0
    return bytes(octets)


def on_line(kind, cause, ca, ioa, value):
    """An ASDU of one object as it stands on the line."""
    return bytes([kind, 1, cause]) + ca.to_bytes(2, "little") + ioa.to_bytes(2, "little") + value


def on_tcp(kind, cause, ca, ioa, value):
    """The same ASDU as it stands on the connection."""
    return bytes([kind, 1, cause, 0]) + ca.to_bytes(2, "little") + ioa.to_bytes(3, "little") + value


class Stations:
    """The two outstations behind the line. Each keeps the user data on which it acted: a frame whose
    frame count bit is that of the one before is a repeat, and is answered as before."""

    def __init__(self, line):
        self.line = line
        # The ASDUs on which a station acted, and all frames with user data as they came.
        self.acted, self.frames = [], []
        self.bits, self.reports, self.requests = {}, {7: [], 9: []}, 0
        # How many answers to user data are lost, and whether selects are refused.
        self.losses, self.refuses = 0, False
        threading.Thread(target=self.run, daemon=True).start()

    def run(self):
        try:
            while True:
                function, address, octets = self.line.request()
                self.requests += 1
                self.serve(function, address, octets)
        except (OSError, EOFError):
            pass

    def serve(self, function, address, octets):
        if function == 9:
            self.line.answer(ends.fixed(0x0B, address))
        elif function == 3:
            self.frames.append(octets)
            bit = octets[4] & 0x20
            if self.bits.get(address) != bit:
                self.act(address, octets[6:-2])
            self.bits[address] = bit
            if self.losses:
                self.losses -= 1
            else:
                self.line.answer(b"\xe5")
        else:
            if function in (10, 11):
                self.bits[address] = octets[1] & 0x20
            else:
                self.bits[address] = 0
            if function == 11 and self.reports[address]:
                self.line.answer(ends.data(0x08, address, self.reports[address].pop(0)))
            else:
                self.line.answer(b"\xe5")

    def act(self, address, asdu):
        self.acted.append(asdu)
        is_select = asdu[-1] >= 0x80
        cause = CONFIRMATION | (NEGATIVE if self.refuses else 0)
        self.reports[address].append(asdu[:2] + bytes([cause]) + asdu[3:])
        if not is_select and not self.refuses:
            self.reports[address].append(asdu[:2] + bytes([TERMINATION]) + asdu[3:])

    def have_rested(self):
        """Waits until both stations were asked some more times, so that what waits has gone out."""
        behind, end = self.requests + 12, time.monotonic() + ends.PATIENCE
        while self.requests < behind and time.monotonic() < end:
            time.sleep(0.01)


class Operator:
    """A control centre with data transfer started, the ASDUs that it was given, and those awaited."""

    def __init__(self, run):
        self.run = run
        self.connect()

    def connect(self):
        self.centre, self.got = self.run.centre(), []
        self.centre.send(ends.START)
        self.waits(lambda: ends.STARTED in self.got)

    def waits(self, is_there):
        """Whether this holds within the time in which an end waits."""
        end = time.monotonic() + ends.PATIENCE
        while not is_there() and time.monotonic() < end:
            for apdu in self.centre.heard(0.05) or []:
                if apdu == ends.TEST:
                    self.centre.send(ends.TESTED)
                if apdu[2] % 2 == 0:
                    self.centre.acknowledge()
                self.got.append(apdu if len(apdu) == 6 else apdu[6:])
        return is_there()

    def does(self, asdu, *answers):
        """Sends a command, and answers whether exactly these ASDUs come behind it, in this order."""
        before = sum(len(it) > 6 for it in self.got)
        self.centre.command(asdu)
        self.waits(lambda: self.told()[before:][: len(answers)] == list(answers))
        return self.told()[before:] == list(answers)

    def told(self):
        return [it for it in self.got if len(it) > 6]


def tag_now():
    """The time tag of now (CP56Time2a, UTC)."""
    now = datetime.datetime.now(datetime.timezone.utc)
    ms = now.second * 1000 + now.microsecond // 1000
    return ms.to_bytes(2, "little") + bytes([now.minute, now.hour, now.day, now.month, now.year % 100])


class Case:
    """A run, its outstations and its operator, with what each command has to bring about."""

    def __init__(self, count, run):
        self.count, self.stations, self.operator = count, Stations(run.line), Operator(run)
        self.acted = []

    def passes(self, name, kind, ca, ioa, is_select, tag=b""):
        """The command reaches its outstation once, and its answers come back."""
        value, number = element(kind, is_select), kind + 13 if tag else kind
        causes = [CONFIRMATION] if is_select else [CONFIRMATION, TERMINATION]
        answers = [on_tcp(number, cause, ca, ioa, value + tag) for cause in causes]
        holds = self.operator.does(on_tcp(number, ACTIVATION, ca, ioa, value + tag), *answers)
        self.acted.append(on_line(kind, ACTIVATION, ca, ioa, value))
        self.count.judge(f"{name}: answers", holds, [it.hex() for it in self.operator.told()])
        self.judge(name)

    def is_refused(self, name, kind, ca, ioa, value, tag=b""):
        """The command is answered negatively, and goes nowhere."""
        number = kind + 13 if tag else kind
        refusal = on_tcp(number, CONFIRMATION | NEGATIVE, ca, ioa, value + tag)
        holds = self.operator.does(on_tcp(number, ACTIVATION, ca, ioa, value + tag), refusal)
        self.count.judge(f"{name}: refusal", holds, [it.hex() for it in self.operator.told()])
        self.judge(name)

    def judge(self, name):
        """What the outstations acted on is what they had to, in this order, and nothing else."""
        self.stations.have_rested()
        seen, wanted = ([it.hex() for it in them] for them in (self.stations.acted, self.acted))
        self.count.judge(f"{name}: what the outstations acted on", seen == wanted, (seen, wanted))


def selected(count, program, folder):
    """One execute for each select that was confirmed, for each type."""
    with ends.Run(program, SETTINGS) as run:
        case = Case(count, run)
        for kind in ELEMENTS:
            for tag in (b"", tag_now()) if kind == 45 else (b"",):
                name = f"type {kind + 13 if tag else kind}"
                execute = element(kind, False)
                case.is_refused(f"{name}, execute without select", kind, GUARDED, 400, execute, tag)
                case.passes(f"{name}, select", kind, GUARDED, 400, True, tag)
                case.passes(f"{name}, execute", kind, GUARDED, 400, False, tag)
                case.is_refused(f"{name}, second execute", kind, GUARDED, 400, execute, tag)
                case.passes(f"{name}, unguarded", kind, OTHER, 400, False, tag)


def over(count, program, folder):
    """What ends a selection, or lacks one: the execute behind it goes nowhere."""
    with ends.Run(program, SETTINGS) as run:
        case = Case(count, run)
        on, off = element(45, False), b"\x00"
        case.passes("another object, select", 45, GUARDED, 400, True)
        case.is_refused("another object", 45, GUARDED, 401, on)
        case.passes("another value, select", 45, GUARDED, 400, True)
        case.is_refused("another value", 45, GUARDED, 400, off)
        case.passes("late, select", 45, GUARDED, 400, True)
        time.sleep(SELECT_MS / 1000 + 0.3)
        case.is_refused("late", 45, GUARDED, 400, on)
        case.passes("cut, select", 45, GUARDED, 400, True)
        case.operator.centre.stream.close()
        case.operator.connect()
        case.is_refused("cut", 45, GUARDED, 400, on)
        case.stations.refuses = True
        select = element(45, True)
        refusal = on_tcp(45, CONFIRMATION | NEGATIVE, GUARDED, 400, select)
        holds = case.operator.does(on_tcp(45, ACTIVATION, GUARDED, 400, select), refusal)
        case.acted.append(on_line(45, ACTIVATION, GUARDED, 400, select))
        count.judge("refused by the station: answer", holds, case.operator.told())
        case.stations.refuses = False
        case.is_refused("refused by the station", 45, GUARDED, 400, on)


def lost(count, program, folder):
    """An execute whose answer is lost goes out again as it was, and the outstation acts once."""
    with ends.Run(program, SETTINGS.replace("answer_ms = 2000", "answer_ms = 500")) as run:
        case = Case(count, run)
        case.passes("lost answers, select", 45, GUARDED, 400, True)
        before, case.stations.losses = len(case.stations.frames), 2
        case.passes("lost answers, execute", 45, GUARDED, 400, False)
        frames = case.stations.frames[before:]
        count.judge("the execute goes out three times", len(frames) >= 3, frames)
        count.judge("with the same octets", len(set(frames)) == 1, frames)


frame.main(selected, over, lost, side_by_side=True)
