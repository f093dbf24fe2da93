#!/usr/bin/env python3
"""Plays outstations by `telegate stations`, and meets them as a gateway does: a script of its own, and `telegate run`.

    checks/stations.py [--program FILE] [--only NAME]

Frame by frame, at a TCP port and at a Unix socket: each request has the answer that the standard wants of a secondary station, a request
or an answer that the script loses isn't answered, a spoilt one has one octet changed, and a second gateway takes the place of the first
and goes on where that one was. Then `telegate run` finds the outstations of examples/stations there, and a control centre gets both
reports, once each, though an answer was lost; a command of its is confirmed on the link alone. A port that is taken ends the command.

An answer that the script delays comes late, with its own octets, while others are heard and answered. Behind a cut, or where a later
answer is delayed, it doesn't come. `telegate run` waits for it if `answer_ms` is longer than the delay, and else repeats the request.

It prints where it listens, who comes and goes, and with --words each frame. A station that restarts is silent until its link is reset.

In time: a report of `at` comes once, and not before its moment; one of `every` comes in each period; the time begins with the first
connection. A station that confirms or refuses gives what docs/STATIONS.md says to each kind of command. Wrong lines are told by their
numbers, of either kind, and `sim` refuses these lines.
"""
import errno
import os
import socket
import subprocess
import time

import ends
import frame

SETTINGS = """[line]
link = 1
cause = 1
ca = 1
ioa = 2
answer_ms = {answer_ms}
[live]
line = "{line}"
listen = "127.0.0.1:{listener}"
[[station]]
address = 1
ca = 1
"""
SECOND = "[[station]]\naddress = 2\nca = 2\n"
# A single point and a scaled value, spontaneous, as ASDUs of the line and of the connection.
POINT, VALUE = bytes.fromhex("01010301640001"), bytes.fromhex("0B010302C800E80300")
SENT = [bytes.fromhex("010103000100640000" "01"), bytes.fromhex("0B0103000200C80000E80300")]
# C_SC_NA_1, activation, object 200 of common address 1, on.
COMMAND = bytes.fromhex("2D010600" "0100" "C80000" "01")
CONFIRMED = b"\xE5"


class Played:
    """`telegate stations` at a place, over a script."""

    def __init__(self, program, folder, place, script, answer_ms=200, more=SECOND, flags=()):
        self.place, self.listener = place, ends.free_port()
        self.config, named = os.path.join(folder, "config.toml"), os.path.join(folder, "one.script")
        with open(self.config, "w") as file:
            file.write(SETTINGS.format(line=place, listener=self.listener, answer_ms=answer_ms) + more)
        with open(named, "w") as file:
            file.write(script)
        self.process = subprocess.Popen(
            [program, "stations", *flags, self.config, named], stdin=subprocess.DEVNULL, stdout=subprocess.PIPE, stderr=subprocess.PIPE
        )

    def __enter__(self):
        return self

    def __exit__(self, *_):
        self.process.kill()
        self.process.communicate()

    def met(self):
        """A connection to it, as soon as it listens."""
        end = time.monotonic() + ends.PATIENCE
        while True:
            try:
                if self.place.startswith("unix:"):
                    stream = socket.socket(socket.AF_UNIX)
                    stream.connect(self.place[len("unix:"):])
                else:
                    host, port = self.place[len("tcp:"):].rsplit(":", 1)
                    stream = socket.create_connection((host, int(port)))
                stream.settimeout(ends.PATIENCE)
                return stream
            except (ConnectionRefusedError, FileNotFoundError):
                if self.process.poll() is not None or time.monotonic() > end:
                    raise
                time.sleep(0.02)


def exactly(stream, count):
    """So many octets, or those that came within a while."""
    octets = b""
    try:
        while len(octets) < count and (piece := stream.recv(count - len(octets))):
            octets += piece
    except TimeoutError:
        pass
    return octets


def silent(stream):
    """Nothing more comes."""
    stream.settimeout(0.3)
    try:
        return not stream.recv(1)
    except TimeoutError:
        return True
    finally:
        stream.settimeout(ends.PATIENCE)


def exchange(count, name, stream, request, wanted):
    """A request, and the answer to it; no octets where there is none."""
    stream.sendall(request)
    if wanted:
        count.compare(name, exactly(stream, len(wanted)), wanted)
    else:
        count.judge(name, silent(stream), "an answer came")


def by_frames(count, program, folder, place, kind):
    script = "turns 1\nreport 1 2 %s\nreport 2 1 %s\nlose request 7\nlose answer 8\nspoil answer 9 1\n" % (POINT.hex(), VALUE.hex())
    with Played(program, folder, place, script) as played, played.met() as first:
        # Status, reset, a report of class 2, nothing more: station 1. Its access demand bit stays 0.
        exchange(count, f"{kind}: status", first, ends.fixed(0x49, 1), ends.fixed(0x0B, 1))
        exchange(count, f"{kind}: reset", first, ends.fixed(0x40, 1), CONFIRMED)
        exchange(count, f"{kind}: poll", first, ends.fixed(0x7B, 1), ends.data(0x08, 1, POINT))
        # The same frame count bit: the same answer.
        exchange(count, f"{kind}: the poll again", first, ends.fixed(0x7B, 1), ends.data(0x08, 1, POINT))
        exchange(count, f"{kind}: nothing more", first, ends.fixed(0x5B, 1), CONFIRMED)
        # Station 2 has a report of class 1 (the access demand bit).
        exchange(count, f"{kind}: status of the second", first, ends.fixed(0x49, 2), ends.fixed(0x2B, 2))
        exchange(count, f"{kind}: a lost request", first, ends.fixed(0x40, 2), b"")
        exchange(count, f"{kind}: a lost answer", first, ends.fixed(0x40, 2), b"")
        spoilt = bytearray(ends.fixed(0x2B, 2))
        spoilt[1] ^= 0xFF
        exchange(count, f"{kind}: a spoilt answer", first, ends.fixed(0x49, 2), bytes(spoilt))
        exchange(count, f"{kind}: nobody's address", first, ends.fixed(0x49, 3), b"")
        with played.met() as second:
            count.judge(f"{kind}: the first is shut", exactly(first, 1) == b"")
            exchange(count, f"{kind}: it goes on", second, ends.fixed(0x7A, 2), ends.data(0x08, 2, VALUE))
            # In two pieces, with octets that begin no frame in front.
            second.sendall(b"\x00\x00")
            time.sleep(0.1)
            poll = ends.fixed(0x5A, 2)
            second.sendall(poll[:2])
            time.sleep(0.1)
            exchange(count, f"{kind}: in pieces", second, poll[2:], CONFIRMED)


def at_a_port(count, program, folder):
    by_frames(count, program, folder, f"tcp:127.0.0.1:{ends.free_port()}", "port")


def at_a_socket(count, program, folder):
    by_frames(count, program, folder, "unix:" + os.path.join(folder, "line"), "socket")


DELAYED = """turns 1
report 1 2 %s
delay answer 3 400
delay answer 4 300
delay answer 6 300
delay answer 7 300
delay answer 8 300
lose answer 10
delay answer 10 100
spoil answer 11 1
delay answer 11 100
delay answer 12 100
delay answer 13 100
""" % POINT.hex()
UP = ends.fixed(0x0B, 1)
# The time of a look, in seconds, on a busy machine.
LOOK = 0.01


def comes_late(count, name, stream, began, least, wanted):
    """These octets come, at the earliest so many seconds behind that moment, and not much later. A look lasts some milliseconds, and
    its moment is told before it."""
    count.compare(name, exactly(stream, len(wanted)), wanted)
    passed = time.monotonic() - began
    count.judge(f"{name}: when", least - LOOK <= passed < least + 1.5, f"after {passed:.3f} s")


def late(count, program, folder):
    ask, poll, again = ends.fixed(0x49, 1), ends.fixed(0x7B, 1), ends.fixed(0x5B, 1)
    with Played(program, folder, f"tcp:127.0.0.1:{ends.free_port()}", DELAYED) as played, played.met() as stream:
        exchange(count, "late: status", stream, ask, UP)
        exchange(count, "late: reset", stream, ends.fixed(0x40, 1), CONFIRMED)
        began = time.monotonic()
        exchange(count, "late: nothing at once", stream, poll, b"")
        comes_late(count, "late: the answer", stream, began, 0.4, ends.data(0x08, 1, POINT))
        # It comes behind the next answer, which isn't late.
        began = time.monotonic()
        stream.sendall(again)
        exchange(count, "late: the next one meanwhile", stream, ask, UP)
        count.judge("late: before it", time.monotonic() - began < 0.3, "the machine is slow")
        comes_late(count, "late: amid a later exchange", stream, began, 0.3, CONFIRMED)
        # Of two the later one comes.
        stream.sendall(poll)
        began = time.monotonic()
        stream.sendall(ask)
        comes_late(count, "late: the second of two", stream, began, 0.3, UP)
        count.judge("late: not the first", silent(stream))
        # A cut: what would have come is lost.
        stream.sendall(ask)
        time.sleep(0.05)
        with played.met() as second:
            count.judge("late: nothing behind a cut", silent(second) and silent(second))
            exchange(count, "late: the next one behind a cut", second, ask, UP)
            exchange(count, "late: a lost one", second, ask, b"")
            began = time.monotonic()
            second.sendall(ask)
            spoilt = bytearray(UP)
            spoilt[1] ^= 0xFF
            comes_late(count, "late: a spoilt one", second, began, 0.1, bytes(spoilt))
            exchange(count, "late: nobody's", second, ends.fixed(0x49, 3), b"")
            # Two requests in one piece, of which the first is answered late.
            began = time.monotonic()
            second.sendall(ask + ends.fixed(0x40, 1))
            comes_late(count, "late: the second in a piece", second, began, 0, CONFIRMED)
            comes_late(count, "late: the first in a piece", second, began, 0.1, UP)


def late_to_a_gateway(count, program, folder):
    """`telegate run` with a time for an answer that is shorter than the delay, and one that is longer. A station alone is asked for
    its status, reset and polled, so that the third request brings the report."""
    answer = ends.data(0x08, 1, POINT).hex().upper()
    for answer_ms, is_repeated in ((150, True), (3000, False)):
        script = "turns 1\nreport 1 2 %s\ndelay answer 3 600\n" % POINT.hex()
        with Played(program, folder, f"tcp:127.0.0.1:{ends.free_port()}", script, answer_ms, more="") as played:
            played.met().close()
            named = os.path.join(folder, f"{answer_ms}.record")
            with open(named, "w") as file:
                run = subprocess.Popen(
                    [program, "run", "--record", played.config], stdin=subprocess.DEVNULL, stdout=file, stderr=subprocess.PIPE
                )
            try:
                centre = connected(run, played.listener)
                centre.send(ends.START)
                count.compare(f"answer_ms {answer_ms}: the report", heard(centre, 1)[:1], SENT[:1])
                time.sleep(1)
            finally:
                run.terminate()
                run.communicate()
        with open(named) as file:
            lines = [line.split() for line in file if line.endswith("\n")]
        requests = [(int(line[0]), line[3]) for line in lines if line[1:3] == [">", "S"]]
        asked, request = requests[2]
        count.compare(f"answer_ms {answer_ms}: the third request", request, ends.fixed(0x7B, 1).hex().upper())
        count.judge(f"answer_ms {answer_ms}: repeated", (requests[3][1] == request) == is_repeated, requests[:5])
        first = next((int(line[0]) for line in lines if line[1] == "S" and answer in line[2]), 0)
        least, most = (150, 600) if is_repeated else (600, 2000)
        count.judge(f"answer_ms {answer_ms}: when", least - LOOK * 1000 <= first - asked < most, f"after {first - asked} ms")
        events = "".join(" ".join(line) + "\n" for line in lines if line[1] not in (">", "!"))
        words = [program, "replay", "--words", played.config, "-"]
        told = subprocess.run(words, input=events.encode(), capture_output=True, timeout=ends.PATIENCE)
        count.compare(f"answer_ms {answer_ms}: in words", b", repeat" in told.stdout, is_repeated)


def with_a_gateway(count, program, folder):
    """`telegate run` in front of it, and a control centre in front of that."""
    script = "turns 1\nreport 1 1 %s\nreport 2 2 %s\nlose answer 5\n" % (POINT.hex(), VALUE.hex())
    with Played(program, folder, f"tcp:127.0.0.1:{ends.free_port()}", script) as played:
        played.met().close()
        run = subprocess.Popen([program, "run", played.config], stdin=subprocess.DEVNULL, stderr=subprocess.PIPE)
        try:
            centre = connected(run, played.listener)
            centre.send(ends.START)
            asdus = heard(centre, 2)
            count.compare("reports", sorted(asdus), sorted(SENT))
            centre.acknowledge()
            centre.command(COMMAND)
            centre.send(ends.TEST)
            count.compare("no ASDU for the command", heard(centre, 1, 1.0), [])
            count.judge("both live on", run.poll() is None and played.process.poll() is None)
        finally:
            run.kill()
            run.communicate()


def connected(run, port):
    """A control centre's connection, as soon as the gateway listens."""
    end = time.monotonic() + ends.PATIENCE
    while True:
        try:
            return ends.Centre(socket.create_connection(("127.0.0.1", port)))
        except ConnectionRefusedError:
            if run.poll() is not None or time.monotonic() > end:
                raise
            time.sleep(0.02)


def heard(centre, count, seconds=ends.PATIENCE):
    """The ASDUs of the next so many I frames, or of those that come within so long."""
    asdus, end = [], time.monotonic() + seconds
    while len(asdus) < count and time.monotonic() < end:
        asdus += [apdu[6:] for apdu in centre.heard(0.1) or [] if apdu[2] % 2 == 0]
    return asdus


class Polled:
    """Station 1 or 2 of a play, asked frame by frame after a reset: a new frame count bit for each request."""

    def __init__(self, stream, address):
        self.stream, self.address, self.bit = stream, address, 0x20
        stream.sendall(ends.fixed(0x40, address))
        self.answer()

    def answer(self):
        """The next frame: its control octet and its ASDU. A single character is `E5` and nothing."""
        head = exactly(self.stream, 1)
        if head == CONFIRMED:
            return 0xE5, b""
        if head == b"\x10":
            return exactly(self.stream, 4)[0], b""
        long = exactly(self.stream, 3)[0]
        body = exactly(self.stream, long + 2)
        return body[0], body[2:-2]

    def ask(self, function, asdu=b""):
        control = 0x50 | self.bit | function
        self.bit ^= 0x20
        self.stream.sendall(ends.data(control, self.address, asdu) if asdu else ends.fixed(control, self.address))
        return self.answer()

    def poll(self, class_number):
        """A report of this class, or no octets."""
        return self.ask(9 + class_number)[1]


def polled_for(station, class_number, seconds):
    """The reports of a class that come within so long, each with the moment at which it came."""
    found, begin = [], time.monotonic()
    while time.monotonic() < begin + seconds:
        if report := station.poll(class_number):
            found.append((report, time.monotonic() - begin))
        time.sleep(0.005)
    return found


def in_time(count, program, folder):
    script = "turns 1\nat 600 report 1 1 %s\nevery 300 report 2 2 %s\nat 10 report 2 1 %s\n" % (POINT.hex(), VALUE.hex(), POINT.hex())
    with Played(program, folder, f"tcp:127.0.0.1:{ends.free_port()}", script) as played:
        # Nobody is there: no time passes.
        time.sleep(1)
        with played.met() as stream:
            begin = time.monotonic()
            first = Polled(stream, 1)
            found = polled_for(first, 1, 1.5)
            passed = time.monotonic() - begin
            count.compare("at: once", [report for report, _ in found], [POINT])
            count.judge("at: its moment", len(found) == 1 and 0.5 < found[0][1] < 1.2, str(found))
            second = Polled(stream, 2)
            count.compare("at: another station, behind its moment", second.poll(1), POINT)
            # Those that were due meanwhile wait, and then one comes every 300 ms.
            found = polled_for(second, 2, 1.5)
            due = int((passed + 1.5) / 0.3)
            count.judge("every: as many as were due", abs(len(found) - due) <= 1, f"{len(found)} of {due}")
            count.judge("every: the same report", {report for report, _ in found} == {VALUE}, str(found))
            # The time goes on over connections, and a report that was given isn't given again.
        with played.met() as stream:
            again = Polled(stream, 1)
            count.compare("at: not again", [report for report, _ in polled_for(again, 1, 0.9)], [])


def full(count, program, folder):
    """64 reports wait at the most."""
    script = "turns 1\nevery 10 report 1 2 %s\n" % POINT.hex()
    with Played(program, folder, f"tcp:127.0.0.1:{ends.free_port()}", script) as played, played.met() as stream:
        time.sleep(1.5)
        station, found = Polled(stream, 1), 0
        begin = time.monotonic()
        while station.poll(2) and found < 1000:
            found += 1
        most = 64 + (time.monotonic() - begin) / 0.01 + 2
        count.judge("64 wait at the most", 64 <= found <= most, f"{found} came, {most:.0f} at the most")


# Of a command what comes back, by docs/STATIONS.md: SCO, DCO and so on with S/E in bit 7 of the last octet.
REPLIES = [
    ("an execute", "2D010601C80001", ["2D010701C80001", "2D010A01C80001"]),
    ("a select", "2D010601C80081", ["2D010701C80081"]),
    ("a deactivation", "2D010801C80001", ["2D010901C80001"]),
    ("a double command", "2E010601C80002", ["2E010701C80002", "2E010A01C80002"]),
    ("a set point that selects", "31010601C800E80380", ["31010701C800E80380"]),
    ("a set point", "31010601C800E80300", ["31010701C800E80300", "31010A01C800E80300"]),
    ("a test", "2D018601C80001", ["2D018701C80001", "2D018A01C80001"]),
    ("an interrogation", "64010601000014", ["64010701000014", "64010A01000014"]),
    ("another cause", "2D010301C80001", []),
    ("a report as a command", "01010601640001", []),
    ("no ASDU", "2D0106", []),
]
REFUSED = [
    ("an execute", "2D010602C80001", ["2D014702C80001"]),
    ("a select", "2D010602C80081", ["2D014702C80081"]),
    ("a deactivation", "2D010802C80001", ["2D014902C80001"]),
    ("a test", "2D018602C80001", ["2D01C702C80001"]),
    ("an interrogation", "64010602000014", ["64014702000014"]),
]


def replied(count, program, folder):
    with Played(program, folder, f"tcp:127.0.0.1:{ends.free_port()}", "turns 1\nconfirm 1\nrefuse 2\n") as played:
        with played.met() as stream:
            for kind, address, rows in (("confirms", 1, REPLIES), ("refuses", 2, REFUSED)):
                station = Polled(stream, address)
                for name, command, replies in rows:
                    count.compare(f"{kind}, {name}: on the link", station.ask(3, bytes.fromhex(command)), (0xE5, b""))
                    time.sleep(0.05)
                    found = []
                    while reply := station.poll(1):
                        found.append(reply.hex().upper())
                    count.compare(f"{kind}, {name}", found, replies)
                # Two commands, one after the other, before the first poll: in order.
                for command in (rows[0][1], rows[2][1]):
                    station.ask(3, bytes.fromhex(command))
                time.sleep(0.1)
                found = []
                while reply := station.poll(1):
                    found.append(reply.hex().upper())
                count.compare(f"{kind}: in order", found, rows[0][2] + rows[2][2])


REPORT = "report 1 1 AA"
WRONG = [
    (f"turns 1\nat 9 {REPORT}\n", 2),
    (f"turns 1\nat 86400001 {REPORT}\n", 2),
    (f"turns 1\nevery 9 {REPORT}\n", 2),
    (f"turns 1\nevery 0000000010 {REPORT}\n", 2),
    (f"turns 1\nat 10  {REPORT}\n", 2),
    ("turns 1\nat 10 report 3 1 AA\n", 2),
    ("turns 1\nat 10 report 1 3 AA\n", 2),
    ("turns 1\nat 10 report 1 1 AAA\n", 2),
    ("turns 1\nat 10 lose answer 5\n", 2),
    ("turns 1\nat 10\n", 2),
    ("turns 1\nevery\n", 2),
    ("turns 1\nAT 10 report 1 1 AA\n", 2),
    ("turns 1\ndelay answer 3 9\n", 2),
    ("turns 1\ndelay answer 3 86400001\n", 2),
    ("turns 1\ndelay request 3 100\n", 2),
    ("turns 1\ndelay answer x 100\n", 2),
    ("turns 1\ndelay answer 1000000000 100\n", 2),
    ("turns 1\ndelay answer 3 100 5\n", 2),
    ("turns 1\ndelay answer 3\n", 2),
    ("turns 1\ndelay answer\n", 2),
    ("turns 1\ndelay\n", 2),
    ("turns 1\ndelay answer 3 100\ndelay answer 4 100\ndelay answer 3 200\n", 4),
    ("turns 1\nconfirm 0\n", 2),
    ("turns 1\nconfirm 3\n", 2),
    ("turns 1\nrefuse x\n", 2),
    ("turns 1\nconfirm 1 1\n", 2),
    ("turns 1\nconfirm 1\n\n# x\nrefuse 1\n", 5),
    ("turns 1\nrefuse 2\nconfirm 1\nrefuse 2\n", 4),
    ("turns 1\nrestart 1\n", 2),
    ("turns 1\nat 9 restart 1\n", 2),
    ("turns 1\nat 10 restart 3\n", 2),
    ("turns 1\nat 10 restart\n", 2),
    ("turns 1\nevery 10 restart 1 1\n", 2),
    ("turns 1\nat 10 reset 1\n", 2),
    # `turns` may be missing, but it stands once.
    ("turns 1\nturns 2\n", 2),
    # Wrong lines of either kind.
    (f"turns 1\nat 9 {REPORT}\ncut x\n", 2, 3),
    (f"turns 1\ncut x\nat 9 {REPORT}\n", 2, 3),
    ("turns 1\n" + f"at 10 {REPORT}\n" * 1001, 1002),
]


def wrong_lines(count, program, folder):
    for number, (script, *lines) in enumerate(WRONG, 1):
        with Played(program, folder, f"tcp:127.0.0.1:{ends.free_port()}", script) as played:
            out, err = played.process.communicate(timeout=ends.PATIENCE)
            told, last = err.splitlines()[:-1], err.splitlines(True)[-1]
            wanted = (b"", b"script: line %d\n" % lines[0], 1)
            count.compare(f"wrong script {number}", (out, last, played.process.returncode), wanted)
            # Before that it says where each wrong line is, and why.
            places = [b"one.script:%d:" % line for line in lines]
            are_told = len(told) == len(places) and all(map(bytes.__contains__, told, places))
            count.judge(f"wrong script {number}: why", are_told, err)
    # The edges of the ranges, comments between them, and 1,000 lines are right.
    own = f"at 10 {REPORT}\nevery 86400000 {REPORT}\nconfirm 2\nrefuse 1\ndelay answer 0 10\ndelay answer 1 86400000\n"
    right = f"# at 1\n{own}lose answer 1\nspoil answer 1 1\n" + f"at 10 {REPORT}\n" * 993 + "at 86400000 restart 2"
    with Played(program, folder, f"tcp:127.0.0.1:{ends.free_port()}", right) as played:
        played.met().close()
        count.judge("1,000 lines", played.process.poll() is None)
        named = os.path.join(folder, "sim.script")
        for word in (f"at 10 {REPORT}", f"every 10 {REPORT}", "confirm 1", "refuse 1", "delay answer 3 100", "at 10 restart 1"):
            with open(named, "w") as file:
                file.write(f"turns 1\n{word}\n")
            made = subprocess.run([program, "sim", played.config, named], capture_output=True, timeout=ends.PATIENCE)
            last = made.stderr.splitlines(True)[-1]
            count.compare(f"sim: {word}", (made.stdout, last, made.returncode), (b"", b"script: line 2\n", 1))
            count.judge(f"sim: {word}: why", b"`telegate stations` alone knows this word" in made.stderr, made.stderr)


def by_example(count, program, folder):
    """The scripts that docs/STATIONS.md names."""
    with open(os.path.join(frame.TOP, "examples/stations/lively.script")) as file:
        script = file.read()
    with Played(program, folder, f"tcp:127.0.0.1:{ends.free_port()}", script) as played, played.met() as stream:
        first, second = Polled(stream, 1), Polled(stream, 2)
        count.compare("example: from the start", first.poll(1), bytes.fromhex("01010301640001"))
        found = polled_for(second, 2, 2.5)
        count.compare("example: each two seconds", [report for report, _ in found], [bytes.fromhex("0B010102C800E80300")])
        first.ask(3, bytes.fromhex(REPLIES[0][1]))
        time.sleep(0.05)
        count.compare("example: confirmed", first.poll(1).hex().upper(), REPLIES[0][2][0])
    with open(os.path.join(frame.TOP, "examples/stations/late.script")) as file:
        script = file.read()
    with Played(program, folder, f"tcp:127.0.0.1:{ends.free_port()}", script) as played, played.met() as stream:
        # A reset, and 998 polls.
        first = Polled(stream, 1)
        for _ in range(998):
            first.poll(2)
        began = time.monotonic()
        first.poll(2)
        passed = time.monotonic() - began
        count.judge("example: the 1,000th answer is late", 0.6 - LOOK <= passed < 2.1, f"after {passed:.3f} s")


def restarts(count, program, folder):
    """A station that restarts forgets its link, its frame count bit and its reports. It is silent to all but a request of its status
    and a reset. The other one goes on. So it is once by `at`, and again and again by `every`."""
    script = "at 700 restart 1\nreport 1 2 %s\nat 100 report 1 2 %s\nevery 10000 restart 2\n" % (POINT.hex(), VALUE.hex())
    with Played(program, folder, f"tcp:127.0.0.1:{ends.free_port()}", script) as played, played.met() as stream:
        first, second = Polled(stream, 1), Polled(stream, 2)
        count.compare("restart: before it", first.poll(2), POINT)
        time.sleep(1)
        exchange(count, "restart: silent to a poll", stream, ends.fixed(0x5B, 1), b"")
        exchange(count, "restart: silent to it again", stream, ends.fixed(0x5B, 1), b"")
        count.compare("restart: the other one goes on", second.ask(11), (0xE5, b""))
        exchange(count, "restart: status", stream, ends.fixed(0x49, 1), UP)
        first = Polled(stream, 1)
        count.compare("restart: nothing waits any more", first.ask(11), (0xE5, b""))
    with Played(program, folder, f"tcp:127.0.0.1:{ends.free_port()}", "every 500 restart 1\n") as played:
        with played.met() as stream:
            for number in (1, 2, 3):
                exchange(count, f"every restart: reset {number}", stream, ends.fixed(0x40, 1), CONFIRMED)
                begin, bit = time.monotonic(), 0x20
                stream.settimeout(0.2)
                while time.monotonic() < begin + 5:
                    stream.sendall(ends.fixed(0x5B | bit, 1))
                    if not exactly(stream, 1):
                        break
                    bit ^= 0x20
                    time.sleep(0.01)
                count.judge(f"every restart: {number}", time.monotonic() - begin < 1.5, f"{time.monotonic() - begin:.3f} s")
                stream.settimeout(ends.PATIENCE)


def told(count, program, folder):
    """What passes is printed: where it listens, who comes and goes, and with --words each frame."""
    for flags in ((), ("--words",)):
        place = f"tcp:127.0.0.1:{ends.free_port()}"
        with Played(program, folder, place, "report 1 2 %s\n" % POINT.hex(), flags=flags) as played:
            with played.met() as stream:
                exchange(count, f"told {flags}: status", stream, ends.fixed(0x49, 1), UP)
                exchange(count, f"told {flags}: reset", stream, ends.fixed(0x40, 1), CONFIRMED)
                exchange(count, f"told {flags}: poll", stream, ends.fixed(0x7B, 1), ends.data(0x08, 1, POINT))
            time.sleep(0.3)
            played.process.kill()
            out, err = played.process.communicate(timeout=ends.PATIENCE)
        passed = [
            "gateway > outstation  link status to 1",
            "outstation > gateway  link status from 1",
            "gateway > outstation  reset link to 1",
            "outstation > gateway  ACK (E5)",
            "gateway > outstation  poll class 2 to 1 (FCB 1)",
            "outstation > gateway  user data from 1  M_SP_NA_1 spontaneous  CA 1  100 = on",
        ]
        wanted = [f"listening at {place}", "gateway connected: 127.0.0.1", *(passed if flags else []), "gateway lost"]
        count.compare(f"told {flags}", (out.decode().splitlines(), err), (wanted, b""))


def taken(count, program, folder):
    """A port at which somebody listens ends the command; nothing is printed."""
    with socket.create_server(("127.0.0.1", 0)) as server:
        place = "tcp:{}:{}".format(*server.getsockname())
        with Played(program, folder, place, "turns 1\n") as played:
            out, err = played.process.communicate(timeout=ends.PATIENCE)
            told = frame.reason("line", place, errno.EADDRINUSE) + "device failed\n"
            count.compare("a port that is taken", (out, err.decode(), played.process.returncode), (b"", told, 3))


if __name__ == "__main__":
    frame.main(at_a_port, at_a_socket, late, late_to_a_gateway, with_a_gateway, in_time, full, replied, wrong_lines, restarts, told, by_example, taken)
