"""The parts that scripts over restarts share: outstations behind a line that outlive the gateway,
and a control centre that goes and comes.

An outstation keeps the rules of IEC 60870-5-2 for a secondary station. If a request has the frame
count bit of the one before, it repeats its last answer. If the bit is new, it gives the next
report, or accepts the command. The line loses requests and answers at random.
"""
import collections
import datetime
import random
import select
import socket
import threading
import time

import ends

RESET, COMMAND, STATUS, CLASS1, CLASS2 = 0, 3, 9, 10, 11
ACD, FCB = 0x20, 0x20
SPONTANEOUS, ACTIVATION, CONFIRMATION, NEGATIVE = 3, 6, 7, 0x40
# Single commands without a time tag and with one; a command's value, and the bit of it that says select.
SINGLE, TAGGED = 45, 58
ON, SELECT = 1, 0x80


# The sizes that the scripts set, in octets: of cause, common address and object address.
SIZES = (1, 1, 2)


def asdu(kind, cause, station, number, value, sizes=SIZES):
    """An ASDU with one object, in these sizes."""
    fields = zip((cause, station, number), sizes)
    return bytes([kind, 1]) + b"".join(field.to_bytes(size, "little") for field, size in fields) + bytes([value])


class Outstation:
    """One secondary station: reports are numbered from 1, and each command is known by its object address."""

    def __init__(self, address, chance):
        self.address = address
        self.chance = chance
        self.sizes = SIZES
        self.bit = None
        self.last = None
        self.urgent = collections.deque()
        self.made = 0
        self.given = 0
        # The commands that it executed, and those that it was only to select.
        self.accepted = []
        self.selected = []
        # How many requests had a new frame count bit, and how many resets came. A reset whose answer wasn't sent is repeated, and
        # counts once.
        self.served = 0
        self.resets = 0
        self.is_reset_unheard = False

    def report(self, count=1):
        """It has so many more reports."""
        self.made += count

    def has_urgent(self):
        return bool(self.urgent)

    def short(self, function):
        if function in (0, 9) and not self.has_urgent() and self.chance.random() < 0.5:
            return b"\xe5"
        return ends.fixed(function | (ACD if self.has_urgent() else 0), self.address)

    def target(self, octets):
        """The object address and the value of a command."""
        place = 2 + self.sizes[0] + self.sizes[1]
        return int.from_bytes(octets[place : place + self.sizes[2]], "little"), octets[place + self.sizes[2]]

    def forget(self):
        """It is started again: it knows nothing of its link, and answers nothing but a request for its status until the link is reset."""
        self.bit = self.last = None

    def serve(self, function, octets):
        """The answer to a service whose frame count bit is new."""
        self.served += 1
        if function == COMMAND:
            number, value = self.target(octets)
            (self.selected if value & SELECT else self.accepted).append(number)
            self.urgent.append(asdu(octets[0], CONFIRMATION, self.address, number, value, self.sizes))
            return self.short(0)
        if function == CLASS1 and self.urgent:
            report = self.urgent.popleft()
        elif function == CLASS2 and self.given < self.made:
            self.given += 1
            report = asdu(1, SPONTANEOUS, self.address, self.given, 1, self.sizes)
        else:
            return self.short(9)
        return ends.data(8 | (ACD if self.has_urgent() else 0), self.address, report)

    def answer(self, control, octets):
        """The answer to a request, or none."""
        function = control % 16
        if function == STATUS:
            return ends.fixed(11 | (ACD if self.has_urgent() else 0), self.address)
        if function == RESET:
            self.bit, self.last = 0, None
            self.resets += not self.is_reset_unheard
            return self.short(0)
        if self.bit is None or control & FCB == self.bit:
            return self.last
        self.bit = control & FCB
        self.last = self.serve(function, octets)
        return self.last


class Field(threading.Thread):
    """The outstations of one line, behind a device server that serves one gateway after another."""

    def __init__(self, addresses, chance, loss):
        super().__init__(daemon=True)
        self.server = socket.create_server(("127.0.0.1", 0))
        self.stations = {address: Outstation(address, chance) for address in addresses}
        self.chance = chance
        self.loss = loss
        # The stations that are silent altogether, and whether one is from its next command on.
        self.silent = set()
        # Those whose answers are lost.
        self.unheard = set()
        self.mute_at_command = False
        # The commands as they came on the line, repeats among them, each with its station and its object address.
        self.commands = []
        # How long an answer takes, in seconds. (A line that never rests takes a whole processor.)
        self.pause = 0.0
        self.requests = 0
        self.line = None
        self.start()

    def hang_up(self):
        """Closes the line: the device server serves the present gateway no more."""
        self.line.stream.shutdown(socket.SHUT_RDWR)

    def place(self):
        return "tcp:127.0.0.1:{}".format(self.server.getsockname()[1])

    def run(self):
        while True:
            try:
                line = self.line = ends.Line(self.server.accept()[0])
            except OSError:
                return
            line.stream.settimeout(None)
            try:
                while True:
                    self.hear(line)
            except (OSError, EOFError):
                line.stream.close()
                self.line = None

    def hear(self, line):
        _, address, frame = line.request()
        self.requests += 1
        control = frame[1] if frame[0] == 0x10 else frame[4]
        if control % 16 == COMMAND:
            self.commands.append((address, self.stations[address].target(frame[6:-2])[0]))
            if self.mute_at_command:
                self.silent.add(address)
        time.sleep(self.pause)
        if address in self.silent or self.chance.random() < self.loss:
            return
        station = self.stations[address]
        answer = station.answer(control, frame[6:-2])
        # Where the next request has come already, the gateway has given this one up, and an answer would be taken for the next one's.
        is_late = bool(select.select([line.stream], [], [], 0)[0])
        is_heard = answer is not None and not is_late and address not in self.unheard and self.chance.random() >= self.loss
        station.is_reset_unheard = control % 16 == RESET and not is_heard
        if is_heard:
            line.answer(answer)


class Visitor(threading.Thread):
    """A control centre that connects, takes what comes, acknowledges, sends commands, goes and comes again.

    For each connection it has the reports that came, as (station, number). `sure` are those that it knows to be acknowledged: the
    gateway has answered a test that was sent behind the acknowledgement."""

    def __init__(self, listener, stations, chance, *, commands=0.1, stays=0.97):
        super().__init__(daemon=True)
        self.listener = listener
        self.stations = stations
        self.chance = chance
        self.commands = commands
        self.stays = stays
        self.connections = []
        self.confirmed = []
        self.sent = []
        self.again = []
        self.sure = set()
        self.is_over = False
        self.start()

    def run(self):
        while not self.is_over:
            try:
                stream = socket.create_connection(self.listener, timeout=1)
            except OSError:
                time.sleep(0.01)
                continue
            with stream:
                try:
                    self.visit(ends.Centre(stream))
                except OSError:
                    pass

    def visit(self, centre):
        heard, tested, told = [], [], 0
        self.connections.append(heard)
        centre.send(ends.START)
        while not self.is_over and self.chance.random() < self.stays:
            apdus = centre.heard(0.02)
            if apdus is None:
                return
            for apdu in apdus:
                if apdu == ends.TESTED and tested:
                    self.sure.update(tested.pop(0))
                elif apdu[2] % 2 == 0:
                    self.take(apdu[6:], heard)
            if len(heard) > told and self.chance.random() < 0.5:
                centre.acknowledge()
                centre.send(ends.TEST)
                tested.append(heard[:])
                told = len(heard)
            if self.chance.random() < self.commands:
                # Now and then several in one piece, so that some of them wait.
                first = 10_000 + len(self.sent)
                numbers = range(first, first + self.chance.choice([1, 1, 1, 4]))
                self.sent += numbers
                centre.command(*(command(self.chance.choice(self.stations), number) for number in numbers))

    def take(self, octets, heard):
        cause, station, number = octets[2] % 64, octets[4], int.from_bytes(octets[6:9], "little")
        if octets[0] == 1 and cause == SPONTANEOUS:
            if (station, number) in self.sure:
                self.again.append((station, number))
            heard.append((station, number))
        elif octets[0] == 45 and cause == CONFIRMATION and not octets[2] & 0x40:
            self.confirmed.append(number)


def tag_now():
    """The time tag of now (CP56Time2a, UTC)."""
    now = datetime.datetime.now(datetime.timezone.utc)
    ms = now.second * 1000 + now.microsecond // 1000
    return ms.to_bytes(2, "little") + bytes([now.minute, now.hour, now.day, now.month, now.year % 100])


def command(station, number, value=ON, kind=SINGLE):
    """A command in the sizes of 104."""
    tag = tag_now() if kind == TAGGED else b""
    return bytes([kind, 1, ACTIVATION, 0, station, 0]) + number.to_bytes(3, "little") + bytes([value]) + tag


class Operator:
    """A control centre on one connection, with data transfer started: what came, and what it sends."""

    def __init__(self, listener, acknowledges=True):
        self.acknowledges, self.asdus, self.centre = acknowledges, [], None
        end = time.monotonic() + 60
        while not self.reaches(listener) and time.monotonic() < end:
            time.sleep(0.01)
        if self.centre is None:
            raise ConnectionError(f"nobody accepts a connection at {listener}")
        self.started = False
        self.centre.send(ends.START)
        self.waits(lambda: self.started)

    def reaches(self, listener):
        try:
            self.centre = ends.Centre(socket.create_connection(listener, timeout=1))
        except OSError:
            return False
        return True

    def hears(self, seconds):
        """Takes what comes within so many seconds."""
        apdus = self.centre.heard(seconds) or []
        for apdu in apdus:
            if apdu == ends.STARTED:
                self.started = True
            elif apdu == ends.TEST:
                self.centre.send(ends.TESTED)
            elif apdu[2] % 2 == 0:
                self.asdus.append(apdu[6:])
        if not self.acknowledges:
            # Commands bear this number too.
            self.centre.received = 0
        elif any(apdu[2] % 2 == 0 for apdu in apdus):
            self.centre.acknowledge()

    def waits(self, holds, seconds=20):
        end = time.monotonic() + seconds
        while not holds() and time.monotonic() < end:
            self.hears(0.02)
        return holds()

    def answers(self, cause):
        """The commands that were answered with this cause, by station and object address."""
        found = [asdu for asdu in self.asdus if asdu[0] in (SINGLE, TAGGED) and asdu[2] == cause]
        return [(asdu[4], int.from_bytes(asdu[6:9], "little")) for asdu in found]

    def reports(self):
        """The reports that came, by station and number."""
        return [(asdu[4], int.from_bytes(asdu[6:9], "little")) for asdu in self.asdus if asdu[0] == 1]


def faults_of(field, visitor):
    """What went wrong, in words: reports lost, out of order or given again, and commands that were operated twice or never."""
    faults = []
    for address, station in field.stations.items():
        if len(set(station.accepted)) < len(station.accepted):
            twice = [n for n, c in collections.Counter(station.accepted).items() if c > 1]
            faults.append(f"station {address} operated commands twice: {twice}")
        last = 0
        for heard in visitor.connections:
            numbers = [number for where, number in heard if where == address]
            if numbers != list(range(numbers[0], numbers[0] + len(numbers))) if numbers else False:
                faults.append(f"station {address}: not in order on one connection: {numbers}")
            if numbers and numbers[0] > last + 1:
                faults.append(f"station {address}: reports {last + 1} to {numbers[0] - 1} lost")
            last = max([last, *numbers])
        if last < station.made:
            faults.append(f"station {address}: reports {last + 1} to {station.made} didn't come")
    taken = {number for station in field.stations.values() for number in station.accepted}
    untaken = sorted(set(visitor.confirmed) - taken)
    if untaken:
        faults.append(f"commands confirmed that no station took: {untaken}")
    if visitor.again:
        faults.append(f"sent again though known as acknowledged: {visitor.again}")
    return faults


def chances(seed):
    """Chance of its own for each end, so that threads don't share one."""
    return [random.Random(seed * 10 + n) for n in range(4)]
