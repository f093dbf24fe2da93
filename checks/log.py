#!/usr/bin/env python3
"""Runs `telegate run --log` between ends that come and go, and judges each line on standard error;
and `--allow`.

    checks/log.py [--program FILE] [--only NAME]

- The lines of a run, in their order: a station is asked, the line isn't there, the line is reached,
  and the station is up. A connection is opened, started, stopped and cut, and another one sends
  what begins no APDU. The station falls silent and is asked again. The line is lost and reached
  again.
- A flood of connections has at most a line a second.
- A silent station that is held is logged, and so is one that never answered.
- Commands are logged: one that is selected, confirmed, executed and done, and those that are
  refused, with the rule. Of many refusals at once the last is logged, how many came before it, and
  since when.
- The trail of commands is whole. Each line stands there that the record of the run gives, with its
  moment, in its order, and no other: of bursts of up to 64 commands, three quick
  select-and-executes, a busy link, a station that falls silent, and a connection that ends before
  all of its commands went out. So do the gathered lines of refusals.
- A skipped report is logged with its type and the reason.
- A station whose answers last longer than `answer_ms` is logged, once a minute; a silent one isn't.
- What comes in the place of an answer is told apart: an echo, a late answer, a frame of another
  station, a device server's own text, noise and the beginning of a frame.
- An answer to a command that comes while data transfer isn't running is logged, once a minute.
- With --allow a host of another address is sent away, and the open connection stays.
- A run that can't begin says why. A second run by mistake ends at the port, and leaves the line of
  the first alone.
- If standard input, output or error is closed, nothing but requests goes out on the line.
- A server that accepts and closes is tried more and more rarely.
- Each line begins with a UTC time that Python reads.

All of it is on the loopback.
"""
import datetime
import errno
import os
import re
import socket
import subprocess
import threading
import time

import ends
import frame

# On a busy machine an answer may take a while, and a station that seems silent would spoil what is told of it.
LINE = "[line]\nlink = 1\ncause = 1\nca = 1\nioa = 2\nanswer_ms = 150\nretries = 1\n"
STATION = "[[station]]\naddress = 7\nca = 1\n"
# A silent station is held, or its link is reset.
HELD = LINE + STATION
SETTINGS = LINE + 'silence = "reset"\n' + STATION
# Where no station is to seem silent, however busy the machine is.
PATIENT = HELD.replace("answer_ms = 150", "answer_ms = 3000")
STOP = bytes.fromhex("680413000000")
STOPPED = bytes.fromhex("680423000000")


class Log:
    """The lines of a process's standard error, without their time and moment."""

    def __init__(self, stream):
        self.lines, self.stamps, self.odd = [], [], []
        self.thread = threading.Thread(target=self.read, args=(stream,), daemon=True)
        self.thread.start()

    def read(self, stream):
        for octets in stream:
            line = octets.decode().rstrip("\n")
            parts = re.fullmatch(r"(\S+Z) (\d+) (.*)", line)
            if parts:
                self.stamps.append((datetime.datetime.fromisoformat(parts[1].replace("Z", "+00:00")), int(parts[2])))
                self.lines.append(parts[3])
            else:
                self.odd.append(line)

    def waits(self, words, since=0, seconds=10):
        """The place behind the first line from `since` on that begins with these words, or None."""
        end = time.monotonic() + seconds
        while True:
            for place in range(since, len(self.lines)):
                if self.lines[place].startswith(words):
                    return place + 1
            if time.monotonic() > end:
                return None
            time.sleep(0.02)


class Station:
    """The outstation behind the line: it answers, or doesn't; its line can be lost and comes back."""

    def __init__(self, is_there=True):
        self.port = ends.free_port()
        self.is_silent = False
        self.stream = None
        if is_there:
            self.begin()

    def begin(self):
        """Its line can be reached from now on."""
        self.server = socket.create_server(("127.0.0.1", self.port))
        threading.Thread(target=self.run, daemon=True).start()

    def run(self):
        while True:
            self.stream, _ = self.server.accept()
            line = ends.Line(self.stream)
            try:
                while True:
                    function, address, _ = line.request()
                    if not self.is_silent:
                        line.answer(ends.fixed(0x0B, address) if function == 9 else b"\xe5")
            except OSError:
                pass
            except EOFError:
                pass

    def lose(self):
        self.stream.shutdown(socket.SHUT_RDWR)


class Operated(Station):
    """An outstation that confirms and ends each command, and sends what reports it is given."""

    def __init__(self):
        self.reports = []
        super().__init__()

    def run(self):
        self.stream, _ = self.server.accept()
        line = ends.Line(self.stream)
        try:
            while True:
                function, address, frame = line.request()
                if function == 9:
                    line.answer(ends.fixed(0x0B, address))
                elif function == 3:
                    self.reports += replies(frame[6:-2])
                    line.answer(b"\xe5")
                elif function in (10, 11) and self.reports:
                    line.answer(ends.data(0x08, address, self.reports.pop(0)))
                else:
                    line.answer(b"\xe5")
        except (OSError, EOFError):
            pass


class Late(Station):
    """An outstation whose answers to polls last for longer than the settings wait."""

    def run(self):
        self.stream, _ = self.server.accept()
        line = ends.Line(self.stream)
        try:
            while True:
                function, address, _ = line.request()
                if function == 9:
                    line.answer(ends.fixed(0x0B, address))
                elif function in (10, 11):
                    # Octets without a pause: some come between a look at the line and the next request.
                    end = time.monotonic() + 0.4
                    while time.monotonic() < end:
                        line.answer(b"\x68")
                else:
                    line.answer(b"\xe5")
        except (OSError, EOFError):
            pass


def replies(asdu):
    """What the outstation answers a command: activation con, and of an execute its termination."""
    confirmed = asdu[:2] + b"\x07" + asdu[3:]
    is_select = asdu[-1] >= 0x80
    return [confirmed] if is_select else [confirmed, asdu[:2] + b"\x0a" + asdu[3:]]


class Run:
    def __init__(self, program, folder, station, *flags, host="127.0.0.1", settings=SETTINGS, output=subprocess.PIPE, place=None):
        self.listener = (host, ends.free_port())
        config = os.path.join(folder, "live.toml")
        with open(config, "w") as file:
            place = place or f"tcp:127.0.0.1:{station.port}"
            file.write(f'{settings}[live]\nline = "{place}"\nlisten = "{host}:{self.listener[1]}"\n')
        self.process = subprocess.Popen(
            [program, "run", *flags, config], stdin=subprocess.DEVNULL, stdout=output, stderr=subprocess.PIPE
        )
        self.log = Log(self.process.stderr)

    def __enter__(self):
        return self

    def __exit__(self, *_):
        self.process.kill()
        self.process.wait()

    def connect(self, here="127.0.0.1"):
        return socket.create_connection(self.listener, timeout=ends.PATIENCE, source_address=(here, 0))


def exchange(stream, octets, answer):
    stream.sendall(octets)
    return stream.recv(len(answer)) == answer


def a_run(count, program, folder):
    station = Station(is_there=False)
    with Run(program, folder, station, "--redial", "--log") as run:
        log, at = run.log, 0

        def comes(words):
            nonlocal at
            found = log.waits(words, at)
            count.judge(words, found is not None, (at, log.lines, log.odd))
            at = found or at

        comes("listening at 127.0.0.1:%d" % run.listener[1])
        comes("station 7 link status requested")
        comes("line not there: connection refused")
        station.begin()
        comes("line reached")
        comes("station 7 up")
        first = run.connect()
        comes("connected: 127.0.0.1")
        count.judge("STARTDT", exchange(first, ends.START, ends.STARTED))
        comes("connection started")
        count.judge("STOPDT", exchange(first, STOP, STOPPED))
        comes("connection stopped")
        first.close()
        comes("connection lost: peer closed")
        time.sleep(1.1)
        second = run.connect()
        comes("connected: 127.0.0.1")
        second.sendall(b"\x00")
        comes("connection closed: octets that begin no APDU")
        station.is_silent = True
        comes("station 7 down")
        station.is_silent = False
        comes("station 7 up")
        station.lose()
        comes("line lost")
        comes("line reached again")
        flood(count, run, at)
        out = run.process.stdout
        os.set_blocking(out.fileno(), False)
        count.judge("standard output", not out.read(), "isn't empty")
        count.judge("each line has its time", not log.odd, log.odd)
        stamps = log.stamps
        is_ordered = all(a[0] <= b[0] and a[1] <= b[1] for a, b in zip(stamps, stamps[1:]))
        now = datetime.datetime.now(datetime.timezone.utc)
        is_now = abs((now - stamps[-1][0]).total_seconds()) < 20
        count.judge("times", is_ordered and is_now, stamps)
        count.judge("still up", run.process.poll() is None, run.process.poll())


def flood(count, run, at):
    """Some hundred connects: at most a line a second of each kind, with how many were left out."""
    began = time.monotonic()
    opened = []
    while not any("left out" in line for line in opened) and time.monotonic() < began + 20:
        for _ in range(400):
            run.connect().close()
        time.sleep(1.1)
        run.connect().close()
        time.sleep(0.3)
        opened = [line for line in run.log.lines[at:] if line.startswith("connected")]
    seconds = time.monotonic() - began
    for kind in ("connected", "connection lost", "connection closed"):
        lines = [line for line in run.log.lines[at:] if line.startswith(kind)]
        count.judge(f"{kind} in a flood", len(lines) <= seconds + 2, (seconds, lines))
    count.judge("how many were left out", any(re.search(r"\(\d+ left out since \d+\)", line) for line in opened), opened)


def held(count, program, folder):
    """A station that is held when it falls silent. That it doesn't answer is logged once a minute,
    and then that it answers again."""
    station = Station()
    with Run(program, folder, station, "--log", settings=HELD) as run:
        count.judge("a held station is asked", run.log.waits("station 7 link status requested") is not None, run.log.lines)
        up = run.log.waits("station 7 up")
        count.judge("a held station is up", up is not None, run.log.lines)
        time.sleep(1)
        began = len(run.log.lines)
        station.is_silent = True
        silent = run.log.waits("station 7 no reply", began)
        time.sleep(1.5)
        told = [line for line in run.log.lines[began:] if line.startswith(("station 7 no", "station 7 d"))]
        count.judge("its silence is told once", told == ["station 7 no reply"], run.log.lines)
        count.judge("silence is no late answer", not any(" late" in line for line in run.log.lines), run.log.lines)
        station.is_silent = False
        count.judge("it answers again", silent and run.log.waits("station 7 replies again", silent), run.log.lines)


def mute(count, program, folder):
    """A station that never answered is logged, whether it is held or reset."""
    for name, settings in (("held", HELD), ("reset", SETTINGS)):
        station = Station()
        station.is_silent = True
        with Run(program, folder, station, "--log", settings=settings) as run:
            asked = run.log.waits("station 7 link status requested")
            silent = run.log.waits("station 7 no reply")
            count.judge(f"a station that never answered, {name}", asked and silent and asked < silent, run.log.lines)
            time.sleep(1.5)
            told = run.log.lines.count("station 7 no reply")
            count.judge(f"it is told once a minute, {name}", told == 1, run.log.lines)


def fickle(count, program, folder):
    """A server that accepts and closes: the time between tries doubles each time, and there are few
    lines on it."""
    tries = []

    def accept(server):
        while True:
            server.accept()[0].close()
            tries.append(time.monotonic())

    station = Station(is_there=False)
    with socket.create_server(("127.0.0.1", station.port)) as server:
        threading.Thread(target=accept, args=(server,), daemon=True).start()
        with Run(program, folder, station, "--redial", "--log") as run:
            time.sleep(8.5)
            between = [b - a for a, b in zip(tries, tries[1:])]
            # On a busy machine a try may come late, and none too early.
            is_rare = 2 <= len(tries) <= 3 and all(gap > 1.9 * 2**n for n, gap in enumerate(between))
            count.judge("a server that accepts and closes is tried rarely", is_rare, between)
            lines = [line for line in run.log.lines if line.startswith("line")]
            # Whether the first look finds the line away, there or neither is the system's.
            told = (["line reached", "line lost"], ["line not there"], ["line not there", "line reached", "line lost"])
            count.judge("few lines tell of it", lines in told, run.log.lines)


def causes(count, program, folder):
    """Why each try failed: at once for another cause, and for the same one each minute."""
    path = os.path.join(folder, "line.socket")
    with Run(program, folder, Station(is_there=False), "--redial", "--log", place=f"unix:{path}") as run:
        first = run.log.waits("line not there: name unknown")
        count.judge("no such path", first, run.log.lines)
        # A socket that nobody listens at.
        with socket.socket(socket.AF_UNIX) as server:
            server.bind(path)
            then = run.log.waits("line not there: connection refused", first or 0)
            count.judge("nobody listens there any more", then, run.log.lines)
            time.sleep(3.2)
            told = [line for line in run.log.lines if line.startswith("line")]
            count.judge("the same cause is told once", len(told) == 2, told)
            server.listen()
            count.judge("it is reached then", run.log.waits("line reached", then or 0), run.log.lines)
    os.remove(path)
    with Run(program, folder, Station(is_there=False), "--redial", "--log", place="tcp:no.such.host.invalid:2404") as run:
        count.judge("no such host", run.log.waits("line not there: name unknown", seconds=20), run.log.lines)


def second(count, program, folder):
    """A second run with the same settings ends at the port, and the first keeps its line."""
    for flags in ((), ("--redial",)):
        station = Station()
        with Run(program, folder, station, "--log", *flags) as run:
            count.judge("the first is up", run.log.waits("station 7 up") is not None, run.log.lines)
            config = os.path.join(folder, "live.toml")
            done = subprocess.run([program, "run", "--log", *flags, config], capture_output=True, timeout=ends.PATIENCE)
            said = done.stderr.decode().splitlines()
            why = frame.reason("listener", "%s:%d" % run.listener, errno.EADDRINUSE).strip()
            is_right = done.returncode == 3 and said[:1] + said[2:] == [why, "device failed"] and said[1].endswith(" 0 port in use")
            count.judge("a second run", is_right, (done.returncode, said))
            time.sleep(0.3)
            count.judge("the first keeps its line", not any(line.startswith("line lost") for line in run.log.lines), run.log.lines)
            count.judge("the first stays", run.process.poll() is None, run.process.poll())


def closed(count, program, folder):
    """Standard descriptors that are closed at the start: nothing but requests goes out on the line."""
    for numbers in ((0,), (1,), (2,), (1, 2), (0, 1, 2)):
        with socket.create_server(("127.0.0.1", 0)) as server:
            server.settimeout(ends.PATIENCE)
            config = os.path.join(folder, "closed.toml")
            with open(config, "w") as file:
                line, listen = server.getsockname()[1], ends.free_port()
                file.write(f'{HELD}[live]\nline = "tcp:127.0.0.1:{line}"\nlisten = "127.0.0.1:{listen}"\n')
            process = subprocess.Popen(
                [program, "run", "--record", "--log", config],
                stdin=subprocess.DEVNULL,
                stdout=subprocess.DEVNULL,
                stderr=subprocess.DEVNULL,
                preexec_fn=lambda: [os.close(number) for number in numbers],
            )
            stream = server.accept()[0]
            stream.settimeout(ends.PATIENCE)
            octets = b""
            while len(octets) < 50:
                octets += stream.recv(50)
            # A silent station is asked for its status again and again.
            count.judge(f"only requests on the line without {numbers}", octets == (ends.fixed(0x49, 7) * 20)[: len(octets)], octets)
            count.judge(f"it is up without {numbers}", process.poll() is None, process.poll())
            process.kill()
            process.wait()
            stream.close()


# Single commands to object 100 of common address 1, as they come from the control centre: select on, execute on.
SELECT = bytes.fromhex("2d0106000100 640000 81")
EXECUTE = bytes.fromhex("2d0106000100 640000 01")


def commands(count, program, folder):
    """Each command is logged, with what becomes of it, and by which rule it is refused."""
    station = Operated()
    with Run(program, folder, station, "--log", settings=PATIENT + "select = true\n") as run:
        log, at = run.log, run.log.waits("station 7 up")
        count.judge("commands: the station is up", at is not None, log.lines)
        stream = run.connect()
        count.judge("commands: STARTDT", exchange(stream, ends.START, ends.STARTED))
        centre = ends.Centre(stream)
        threading.Thread(target=drain, args=(centre,), daemon=True).start()

        def told(*lines):
            for line in lines:
                end = time.monotonic() + ends.PATIENCE
                while line not in log.lines and time.monotonic() < end:
                    time.sleep(0.02)
                count.judge(line, line in log.lines, log.lines)

        select, execute = "command C_SC_NA_1 select 1/100 on", "command C_SC_NA_1 execute 1/100 on"
        centre.command(EXECUTE)
        told(f"{execute} by 127.0.0.1 refused: not selected")
        centre.command(SELECT)
        told(f"{select} by 127.0.0.1", f"{select} sent to station 7", f"{select} confirmed by station 7")
        time.sleep(1.2)
        # Both in one piece: the second finds its select used up.
        centre.command(EXECUTE, EXECUTE)
        told(f"{execute} by 127.0.0.1", f"{execute} sent to station 7", f"{execute} confirmed by station 7")
        told(f"{execute} terminated by station 7")
        refusals = log.lines.count(f"{execute} by 127.0.0.1 refused: not selected")
        count.judge("the second execute for one select is refused", refusals == 2, log.lines)
        time.sleep(1.2)
        rows = [
            ("670106000100 000000 00000000000000", "command type 103 1/0 by 127.0.0.1 refused: type not known"),
            ("2d0105000100 640000 01", f"{execute} by 127.0.0.1 refused: cause not known"),
            ("2d0106000200 640000 01", "command C_SC_NA_1 execute 2/100 on by 127.0.0.1 refused: common address not known"),
            ("2d0106000100 000001 01", "command C_SC_NA_1 execute 1/65536 on by 127.0.0.1 refused: object not known"),
            ("2d0206000100 640000 01", f"{execute} by 127.0.0.1 refused: not one object"),
            ("2e0106000100 640000 03", "command C_DC_NA_1 execute 1/100 3 by 127.0.0.1 refused: qualifier not permitted"),
            ("3a0106000100 640000 01 00008000010100", "command C_SC_TA_1 execute 1/100 on by 127.0.0.1 refused: time tag invalid"),
        ]
        for octets, line in rows:
            centre.command(bytes.fromhex(octets))
            told(line)
            time.sleep(1.1)
        centre.command(tagged(datetime.timedelta(hours=-1)))
        old = log.waits("command C_SC_TA_1 execute 1/100 on by 127.0.0.1 refused: time tag 3")
        count.judge("an old tag", old and re.search(r"time tag 3[56]\d\d s old$", log.lines[old - 1]), log.lines)
        time.sleep(1.1)
        # Many at once: the last is told with how many came before it, and none is forgotten.
        began = len(log.lines)
        for object in range(1, 21):
            centre.command(bytes.fromhex("2d0106000200") + object.to_bytes(3, "little") + b"\x01")
        last = "command C_SC_NA_1 execute 2/20 on by 127.0.0.1 refused: common address not known"
        log.waits(last, began)
        lines = [line for line in log.lines[began:] if " refused: common address" in line]
        told_of = sum(1 + int((re.search(r"\((\d+) left out since \d+\)", line) or [0, 0])[1]) for line in lines)
        count.judge("of many at once each is told or counted", told_of == 20 and lines[-1].startswith(last), lines)
        count.judge("of many at once few are told", len(lines) <= 3, lines)
        # A closed connection: what came in the same piece goes nowhere.
        time.sleep(1.1)
        with centre.numbers:
            centre.send(i_frame(centre, centre.sent, SELECT) + b"\x00")
        told(f"{select} by 127.0.0.1 refused: its connection was closed")


class Burdened(Operated):
    """An outstation that counts the commands which it gets, and may be busy with them or silent to them."""

    def __init__(self):
        self.taken, self.is_busy, self.is_deaf = 0, False, False
        super().__init__()

    def run(self):
        self.stream, _ = self.server.accept()
        line = ends.Line(self.stream)
        try:
            while True:
                function, address, frame = line.request()
                if function == 9:
                    line.answer(ends.fixed(0x0B, address))
                elif function == 3 and self.is_deaf:
                    pass
                elif function == 3 and self.is_busy:
                    self.taken += 1
                    line.answer(ends.fixed(0x01, address))
                elif function == 3:
                    self.taken += 1
                    self.reports += replies(frame[6:-2])
                    line.answer(b"\xe5")
                elif function in (10, 11) and self.reports:
                    line.answer(ends.data(0x08, address, self.reports.pop(0)))
                else:
                    line.answer(b"\xe5")
        except (OSError, EOFError):
            pass

    def settles(self, taken):
        """Waits until so many commands have come, and all that it has to say of them was fetched."""
        end = time.monotonic() + ends.PATIENCE
        while (self.taken < taken or self.reports) and time.monotonic() < end:
            time.sleep(0.01)


def told_of(asdu, object_at):
    """What a line says of a single command whose object address stands at this place."""
    act = "select" if asdu[-1] >= 0x80 else "execute"
    ca = int.from_bytes(asdu[4:6], "little") if object_at == 6 else asdu[3]
    object = int.from_bytes(asdu[object_at : object_at + object_at // 2], "little")
    return f"command C_SC_NA_1 {act} {ca}/{object} {'on' if asdu[-1] % 2 else 'off'}"


ANSWERS = {7: "confirmed by station 7", 10: "terminated by station 7"}


class Trail:
    """The lines of single commands that the log of a run has to have by its record: those of commands that go on (to
    common address 1), and those of refusals (to another one), each with its moment."""

    def __init__(self, record):
        self.lines, self.refusals = [], []
        self.tcp, self.line, self.latest, self.bit = b"", b"", None, None
        # The commands that wait, the oldest first.
        self.waiting = []
        # Of the refusals: when a line was written last and sought last, those left out since, and the last that came.
        self.written, self.sought, self.left, self.last = None, 0, [], None
        for text in record.splitlines():
            fields = re.fullmatch(r"(\d+) (> )?(\w)(?: (\w+))?", text)
            if not fields:
                continue
            moment, is_action, kind = int(fields[1]), fields[2], fields[3]
            octets = bytes.fromhex(fields[4]) if kind in "RS" and fields[4] else b""
            if is_action and kind == "S":
                self.went(moment, octets)
            if is_action:
                continue
            # A look follows each step, and this event begins the next one.
            self.look()
            self.now = moment
            if kind == "R":
                self.came(moment, octets)
            elif kind == "S":
                self.answered(moment, octets)
            elif kind == "C":
                self.lines += [(moment, f"{words} not sent: its connection ended") for words in self.waiting]
                self.tcp, self.waiting = b"", []
        self.look()

    def came(self, moment, octets):
        self.tcp += octets
        while len(self.tcp) > 1 and len(self.tcp) >= self.tcp[1] + 2:
            apdu, self.tcp = self.tcp[: self.tcp[1] + 2], self.tcp[self.tcp[1] + 2 :]
            if apdu[2] % 2:
                continue
            words = told_of(apdu[6:], 6)
            if apdu[10:12] == b"\x01\x00":
                self.lines.append((moment, f"{words} by 127.0.0.1"))
                self.waiting.append(words)
                continue
            if self.last:
                self.left.append(self.last)
            self.last = (moment, f"{words} by 127.0.0.1 refused: common address not known")

    def went(self, moment, octets):
        """A request: a command that goes out for the first time, or the status of a link whose command was given up."""
        self.line = b""
        if octets[0] == 0x68:
            bit, words = octets[4] & 0x20, told_of(octets[6:-2], 4)
            if bit != self.bit:
                self.latest = words
                self.lines.append((moment, f"{words} sent to station 7"))
                self.waiting.remove(words)
            self.bit = bit
        elif octets[1] % 16 == 9:
            if self.latest:
                self.lines.append((moment, f"{self.latest} given up: no reply from station 7"))
            self.latest = self.bit = None
        elif octets[1] % 16 in (10, 11):
            self.latest, self.bit = None, octets[1] & 0x20

    def answered(self, moment, octets):
        self.line += octets
        frame = self.line
        if len(frame) > 4 and frame[0] == 0x10 and frame[1] % 16 == 1 and self.latest:
            self.lines.append((moment, f"{self.latest} not taken: station 7 is busy"))
            self.latest = None
        elif len(frame) > 4 and frame[0] == 0x68 and len(frame) >= frame[1] + 6:
            asdu = frame[6:-2]
            self.lines.append((moment, f"{told_of(asdu, 4)} {ANSWERS[asdu[2]]}"))
        elif frame[:1] == b"\xe5":
            self.latest = None
        else:
            return
        self.line = b""

    def look(self):
        """Behind a step: the last refusal that came, once a second has passed since the line before."""
        now = getattr(self, "now", 0)
        if now == self.sought:
            return
        self.sought = now
        if self.last and (self.written is None or now - self.written >= 1000):
            moment, words = self.last
            since = f" ({len(self.left)} left out since {self.left[0][0]})" if self.left else ""
            self.refusals.append((moment, words + since))
            self.written, self.left, self.last = now, [], None


def single(object, qualifier, ca=1):
    """A single command as it comes from the control centre."""
    return bytes.fromhex("2d010600") + ca.to_bytes(2, "little") + object.to_bytes(3, "little") + bytes([qualifier])


def trail(count, program, folder):
    """Each line of a command that goes on stands in the log, with the moment and in the order of the record's events."""
    for name, settings, drive in (
        ("quick selects and executes", PATIENT + "select = true\n", quick),
        ("bursts", PATIENT, bursts),
        ("a busy link and a silent station", HELD.replace("retries = 1", 'retries = 1\nsilence = "reset"'), unwell),
    ):
        station = Burdened()
        with open(os.path.join(folder, "trail.record"), "w+") as output:
            with Run(program, folder, station, "--record", "--log", settings=settings, output=output) as run:
                log = run.log
                count.judge(f"{name}: the station is up", log.waits("station 7 up") is not None, log.lines)
                stream = run.connect()
                count.judge(f"{name}: STARTDT", exchange(stream, ends.START, ends.STARTED))
                centre = ends.Centre(stream)
                threading.Thread(target=drain, args=(centre,), daemon=True).start()
                drive(station, centre)
                # Some ticks more: an event is recorded with the next one.
                time.sleep(0.5)
            run.log.thread.join(ends.PATIENCE)
            output.seek(0)
            wanted = Trail(output.read())
        told = [(stamp[1], line) for stamp, line in zip(log.stamps, log.lines) if line.startswith("command ")]
        moments = [moment for moment, line in told if " refused: " not in line]
        count.judge(f"{name}: moments go on", moments == sorted(moments), moments)
        for what, lines, is_refused in (("each line of its commands", wanted.lines, False), ("its refusals", wanted.refusals, True)):
            seen = [entry for entry in told if (" refused: " in entry[1]) == is_refused]
            # The record has no moment at which a command is given up: its place in the order is judged.
            lines, seen = ([(None if " given up" in words else moment, words) for moment, words in some] for some in (lines, seen))
            at = next((n for n, (a, b) in enumerate(zip(lines, seen)) if a != b), min(len(lines), len(seen)))
            is_whole = len(lines) > 0 or is_refused
            count.judge(f"{name}: {what}", is_whole and lines == seen, (len(lines), len(seen), lines[at : at + 3], seen[at : at + 3]))


def quick(station, centre):
    """Three objects are selected and executed, 0.35 s apart or as fast as the station is."""
    for turn in range(3):
        began = time.monotonic()
        centre.command(single(100 + turn, 0x81))
        station.settles(2 * turn + 1)
        time.sleep(0.05)
        centre.command(single(100 + turn, 0x01))
        station.settles(2 * turn + 2)
        time.sleep(max(0, 0.35 - (time.monotonic() - began)))


def bursts(station, centre):
    """Bursts of 6 commands one by one, and of 20 and 64 in one piece, with refusals between them."""
    for object in range(1, 7):
        centre.command(single(object, object % 2))
        time.sleep(0.1)
    station.settles(6)
    centre.command(*(single(object, 1) for object in range(1, 21)))
    for object in range(1, 21):
        centre.command(single(object, 1, ca=2))
    station.settles(26)
    centre.command(*(single(object, 0) for object in range(1, 65)))
    station.settles(90)
    # The last refusals are logged a second behind the first.
    time.sleep(1.5)


def unwell(station, centre):
    """A command that finds the link busy; those to which the station is silent; and a connection that ends before all
    of its commands went out."""
    station.is_busy = True
    centre.command(single(1, 1))
    station.settles(1)
    time.sleep(0.1)
    station.is_busy, station.is_deaf = False, True
    centre.command(single(2, 1), single(3, 0))
    time.sleep(2)
    station.is_deaf = False
    centre.command(single(4, 1))
    time.sleep(2)
    # The connection ends while one is on the line and others wait.
    station.is_deaf = True
    centre.command(*(single(object, object % 2) for object in range(5, 12)))
    time.sleep(0.1)
    centre.stream.shutdown(socket.SHUT_RDWR)
    time.sleep(1)


def i_frame(centre, number, asdu):
    return bytes([0x68, len(asdu) + 4]) + centre.number(number) + centre.number(centre.received) + asdu


def drain(centre):
    """Takes what the gateway sends, and acknowledges each I frame at once."""
    octets = b""
    try:
        while piece := centre.stream.recv(4096):
            octets += piece
            while len(octets) > 1 and len(octets) >= octets[1] + 2:
                if octets[2] % 2 == 0:
                    with centre.numbers:
                        centre.received += 1
                        centre.acknowledge()
                octets = octets[octets[1] + 2 :]
    except OSError:
        pass


def tagged(distance):
    """A single command with a time tag (CP56Time2a, UTC) so far from now."""
    now = datetime.datetime.now(datetime.timezone.utc) + distance
    ms = now.second * 1000 + now.microsecond // 1000
    tag = ms.to_bytes(2, "little") + bytes([now.minute, now.hour, now.day, now.month, now.year % 100])
    return bytes.fromhex("3a0106000100 640000 01") + tag


def skipped(count, program, folder):
    """A report that isn't passed on is logged at once, with its station, its type and the reason;
    and more of them each minute."""
    fits_none = "station 7 report skipped, type 1 M_SP_NA_1: length doesn't fit the sizes in [line]"
    # Type 2, and a single point in sizes that the settings don't say: three octets of object address; one octet of cause, if they say two.
    for asdu, settings, line in (
        ("0201030164000100000000", PATIENT, "station 7 report skipped, type 2: type not known"),
        ("0101030164000001", PATIENT, fits_none),
        ("01010301640001", PATIENT.replace("cause = 1", "cause = 2"), fits_none),
    ):
        station = Operated()
        with Run(program, folder, station, "--log", settings=settings) as run:
            log = run.log
            count.judge("skipped: the station is up", log.waits("station 7 up") is not None, log.lines)
            station.reports += [bytes.fromhex(asdu)] * 5
            count.judge(line, log.waits(line) is not None, log.lines)
            time.sleep(2)
            told = [words for words in log.lines if " skipped, " in words]
            # Two may come within the ms at which a line is sought.
            count.judge("skipped: told once a minute", len(told) == 1 and told[0].startswith(line), told)


def late(count, program, folder):
    """A station whose answers last longer than `answer_ms` is logged at once, and then each minute."""
    station = Late()
    with Run(program, folder, station, "--log", settings=HELD) as run:
        log = run.log
        spoilt = "station 7 answer spoilt: octets 686868"
        for words in ("answers of station 7 come late, ", spoilt):
            count.judge(words, log.waits(words) is not None, log.lines)
        told = [line for line in log.lines if re.fullmatch(r"answers of station 7 come late, \d+ ms behind their request: answer_ms is short", line)]
        is_over = [int(re.search(r", (\d+) ms", line)[1]) >= 150 for line in told]
        count.judge("how late they come", told and all(is_over), log.lines)
        time.sleep(2)
        for words in ("answers of station 7 ", "station 7 answer spoilt"):
            told = [line for line in log.lines if line.startswith(words)]
            count.judge(f"{words} is told once a minute", len(told) == 1, log.lines)


# What a station gives in the place of an answer to each request, and what stands in its line behind the colon. The text
# is the front of what a device server says of a port that it can't open.
ODD = {
    "an echo": (lambda frame: frame, "its request came back"),
    "an echo before the answer": (lambda frame: frame + ends.fixed(0x0B, 7), "its request came back"),
    "a frame of another station": (lambda frame: ends.fixed(0x0B, 9), "a frame with link address 9"),
    "a device server's text": (
        lambda frame: b"Device open failure: no such port\r\n",
        'octets 446576696365206F70656E206661696C ("Device open fail")',
    ),
    "a modem's text": (lambda frame: b"NO CARRIER\r\n", 'octets 4E4F20434152524945520D0A ("NO CARRIER")'),
    "noise": (lambda frame: b"\x00\xff", "octets 00FF"),
    "the beginning of a frame": (lambda frame: b"\x10\x0b", "octets 100B"),
}


class Odd(Station):
    """An outstation that gives something else in the place of each answer."""

    def __init__(self, gives):
        self.gives = gives
        super().__init__()

    def run(self):
        self.stream, _ = self.server.accept()
        line = ends.Line(self.stream)
        try:
            while True:
                line.answer(self.gives(line.request()[2]))
        except (OSError, EOFError):
            pass


class Crossed(Station):
    """Two outstations on a line: the answer of 7 to a poll comes when 8 is polled, 50 ms behind that."""

    def run(self):
        self.stream, _ = self.server.accept()
        line = ends.Line(self.stream)
        try:
            while True:
                function, address, _ = line.request()
                if function == 9:
                    line.answer(ends.fixed(0x0B, address))
                elif function == 0:
                    line.answer(ends.fixed(0x00, address))
                elif address == 8:
                    time.sleep(0.05)
                    line.answer(ends.fixed(0x09, 7))
        except (OSError, EOFError):
            pass


def told_apart(count, program, folder):
    """What comes in the place of an answer is told apart."""
    for name, (gives, words) in ODD.items():
        with Run(program, folder, Odd(gives), "--log", settings=HELD) as run:
            line = f"station 7 answer spoilt: {words}"
            run.log.waits("station 7 answer spoilt: ")
            told = [line for line in run.log.lines if " spoilt: " in line]
            count.judge(name, told and told[0] == line, run.log.lines)
    both = LINE.replace("retries = 1", "retries = 0") + STATION + STATION.replace("7", "8").replace("ca = 1", "ca = 2")
    with Run(program, folder, Crossed(), "--log", settings=both) as run:
        at = run.log.waits("station 8 answer spoilt: ")
        line = run.log.lines[at - 1] if at else ""
        told = re.fullmatch(r"station 8 answer spoilt: an answer of station 7, (\d+) ms behind its request: answer_ms is short", line)
        # It lasts `answer_ms` until station 8 is polled, and as long again at most until the exchange is over.
        count.judge("a late answer in the next exchange", told and 200 <= int(told[1]) <= 300, run.log.lines)


def unheard(count, program, folder):
    """A station's answers to commands that come while no control centre is there are logged."""
    station = Operated()
    with Run(program, folder, station, "--log", settings=PATIENT) as run:
        log = run.log
        count.judge("unheard: the station is up", log.waits("station 7 up") is not None, log.lines)
        # A single command to object 100 of common address 1, confirmed (cause 7).
        station.reports += [bytes.fromhex("2d010701640001")] * 5
        line = "station 7 answer to a command dropped: data transfer isn't running"
        count.judge(line, log.waits(line) is not None, log.lines)
        time.sleep(2)
        told = [words for words in log.lines if words.startswith(line)]
        count.judge("unheard: told once a minute", len(told) == 1, told)


def refused(log):
    """How many were refused by the log's lines, once they count five, or no more come."""
    end, told = time.monotonic() + ends.PATIENCE, 0
    while told < 5 and time.monotonic() < end:
        time.sleep(0.05)
        lines = [re.fullmatch(r"(\d+) rejected \(not in the allow list\), the last at 127\.0\.0\.2", line) for line in list(log.lines)]
        told = sum(int(line[1]) for line in lines if line)
    return told


def allowed(count, program, folder):
    station = Station()
    with Run(program, folder, station, "--log", "--allow", "192.0.2.7", "--allow", "127.0.0.1") as run:
        count.judge("listening", run.log.waits("listening at") is not None, run.log.odd)
        centre = run.connect()
        count.judge("an allowed address's STARTDT", exchange(centre, ends.START, ends.STARTED))
        others = [run.connect("127.0.0.2") for _ in range(5)]
        for other in others:
            try:
                octets = other.recv(1)
            except ConnectionError:
                octets = b""
            count.judge("another address is refused", octets == b"", octets)
        count.judge("the allowed connection stays", exchange(centre, ends.TEST, ends.TESTED))
        # In one line or in several, as they come within a second or not.
        count.judge("it is logged", refused(run.log) == len(others), run.log.lines)
        opened = [line for line in run.log.lines if line.startswith("connected")]
        count.judge("no other address opened one", len(opened) == 1, opened)
        station.lose()
        count.judge("the line's end", run.process.wait(ends.PATIENCE) == 3, run.process.returncode)
        run.log.thread.join(ends.PATIENCE)
        lines = run.log.lines[-2:]
        is_right = lines[0] == "line lost" and re.fullmatch(r"counts skipped 0 .* of \d+ connections 1", lines[1])
        count.judge("its last lines", is_right and run.log.odd == ["device failed"], (lines, run.log.odd))


def troubles(count, program, folder):
    with socket.create_server(("127.0.0.1", 0)) as taken:
        here = "127.0.0.1:%d" % taken.getsockname()[1]
        shut = "tcp:127.0.0.1:%d" % ends.free_port()
        free = "127.0.0.1:%d" % ends.free_port()
        rows = [
            (shut, free, "line refused"),
            ("tcp:no-such-host.invalid:1", free, "name unknown"),
            ("unix:nowhere", free, "name unknown"),
            # The listener is opened first.
            (shut, here, "port in use"),
            (f"tcp:{here}", here, "port in use"),
        ]
        for line, listen, why in rows:
            listens = [f"listening at {listen}"] if listen == free else []
            config = os.path.join(folder, "trouble.toml")
            with open(config, "w") as file:
                file.write(f'{SETTINGS}[live]\nline = "{line}"\nlisten = "{listen}"\n')
            done = subprocess.run([program, "run", "--log", config], capture_output=True, timeout=ends.PATIENCE, cwd=folder)
            said = done.stderr.decode().splitlines()
            words = [line.split(" ", 2)[2] if re.match(r"\S+Z 0 ", line) else line for line in said]
            told = [line for line in words if line.startswith("error: ")]
            words = [line for line in words if line not in told]
            is_right = done.returncode == 3 and words == [*listens, why, "device failed"] and len(told) == 1
            count.judge(why, is_right, (done.returncode, said))


if __name__ == "__main__":
    frame.main(a_run, held, mute, fickle, causes, commands, trail, skipped, late, told_apart, unheard, allowed, troubles, second, closed)
