#!/usr/bin/env python3
"""Judges the outermost rim of `telegate run`, of which no clause says what a process shows: who
takes what it writes, what the words say, the clock, sockets and the names of files.

    checks/edges.py [--program FILE] [--only NAME] [--part NAME]

- A record and a log go to a pipe or a stream whose reader stops, or to a full device: the line is
  polled on, what was left out is told with its number once the reader reads on, and `audit` names
  the hole.
- The words of the packaged service, with a record: `audit` says `same`, over a restart too.
- A device server that hangs with its connection open is dialled anew. A clock that jumps by an hour
  ahead keeps no control centre waiting.
- The listener is at the address that was asked for, and nowhere else. Twenty words on the command
  line are heeded. A link address above 255 has its own name. The log's clock is the system's. Where
  files of a state are made, their directory is synced. Visitors leave no descriptor behind.
- While somebody opens connections to the status port on and on, the page comes soon.

All of it is on the loopback.
"""
import datetime
import fcntl
import os
import random
import re
import select
import socket
import subprocess
import tempfile
import threading
import time

import ends
import kept
from kept import PAUSE, alone, drained, gaps, has_gone_round, queue_up, quiet, until
from outstations import Field, Operator

# The smallest pipe that the system makes, in octets.
SMALL = 4096


def run_of(program, gateway, *words):
    return [program, "run", *words, gateway.config]


def a_gateway(program, folder, stations=2, **settings):
    gateway = quiet(program, folder, addresses=tuple(range(1, stations + 1)), **settings)
    gateway.field.pause = PAUSE
    return gateway


def requests_in(field, seconds):
    before = field.requests
    time.sleep(seconds)
    return field.requests - before


def small_pipe():
    out, to = os.pipe()
    fcntl.fcntl(to, fcntl.F_SETPIPE_SZ, SMALL)
    return out, to


def small_stream():
    """A stream as systemd gives it for standard error."""
    out, to = socket.socketpair()
    to.setsockopt(socket.SOL_SOCKET, socket.SO_SNDBUF, 1)
    return out.detach(), to.detach()


def comes_to_rest(field):
    """Waits until the line has been polled for three seconds, or no more."""
    end = time.monotonic() + 3
    while time.monotonic() < end and requests_in(field, 0.5):
        pass


def drain(out, into, seconds):
    """Reads on for so many seconds."""
    end = time.monotonic() + seconds
    while time.monotonic() < end:
        if select.select([out], [], [], 0.05)[0]:
            piece = os.read(out, 65536)
            if not piece:
                return
            into.append(piece)


def goes_on(count, what, gateway):
    """Whether the line is polled on, and a control centre is served."""
    polls = requests_in(gateway.field, 3)
    count.judge(f"{what}: the line is polled", polls > 10, polls)
    operator = Operator(gateway.listener)
    count.judge(f"{what}: a control centre is served", operator.started, "")
    operator.centre.stream.close()


def tests_on(gateway):
    """A control centre sends tests, each of which is an event with an action: a record of some 900,000 octets, as long as it is served."""
    with socket.create_connection(gateway.listener, timeout=5) as stream:
        stream.settimeout(3)
        try:
            for _ in range(100):
                stream.sendall(ends.TEST * 170)
                left = 170 * len(ends.TESTED)
                while left:
                    left -= len(stream.recv(left)) or left
        except OSError:
            pass


def a_record_that_is_not_read(count, program):
    """A record goes to a reader that stops, and reads on later."""
    with tempfile.TemporaryDirectory() as folder:
        gateway = a_gateway(program, folder)
        out, to = small_pipe()
        process = subprocess.Popen(run_of(program, gateway, "--redial", "--record"), stdin=subprocess.DEVNULL, stdout=to, stderr=subprocess.DEVNULL)
        gateway.process = process
        until(lambda: gateway.field.requests > 10, 20)
        tests_on(gateway)
        comes_to_rest(gateway.field)
        goes_on(count, "record", gateway)
        pieces = []
        drain(out, pieces, 2)
        process.kill()
        process.wait()
        os.close(to)
        drain(out, pieces, 1)
        os.close(out)
        record = b"".join(pieces).decode()
        lines = record[: record.rindex("\n") + 1].splitlines(keepends=True)
        told = [place for place, line in enumerate(lines, 1) if re.fullmatch(r"# left out: [1-9]\d* lines\n", line)]
        count.judge("what was left out is told with its number", told, record[-600:])
        place = os.path.join(folder, "record")
        with open(place, "w") as file:
            file.writelines(lines)
        audit = subprocess.run([program, "audit", gateway.config, place], capture_output=True, text=True, timeout=120)
        hole = f"line {told[0]}: lines are left out here; those before it are the same\n" if told else ""
        count.judge("audit names the hole", (audit.stdout, audit.returncode) == (hole, 1), (audit, told))
        gateway.field.server.close()


def a_log_that_is_not_read(count, program, make):
    """A log goes to a reader that stops. 32 stations come up, so that it is full soon."""
    with tempfile.TemporaryDirectory() as folder:
        gateway = a_gateway(program, folder, stations=32)
        site = os.path.join(folder, "site.toml")
        with open(site, "w") as file:
            file.writelines(f'[[station]]\nlink = {station}\nname = "{station:->40}"\n' for station in gateway.field.stations)
        out, to = make()
        words = run_of(program, gateway, "--redial", "--log", "--site", site)
        process = subprocess.Popen(words, stdin=subprocess.DEVNULL, stdout=subprocess.DEVNULL, stderr=to)
        gateway.process = process
        until(lambda: gateway.field.requests > 10, 20)
        comes_to_rest(gateway.field)
        goes_on(count, "log", gateway)
        pieces = []
        drain(out, pieces, 3)
        process.kill()
        process.wait()
        os.close(to)
        drain(out, pieces, 1)
        os.close(out)
        log = b"".join(pieces).decode(errors="replace")
        told = re.search(r"[1-9]\d* lines? left out: nobody read them in time\n", log)
        count.judge("what was left out of the log is told with its number", told, log[-600:])
        whole = [line for line in log.split("\n")[:-1] if not re.match(r"\d{4}-\d\d-\d\dT\S+Z \d+ \S", line)]
        count.judge("and no line is broken", not whole, whole)
        gateway.field.server.close()


def full_device(count, program, what):
    """Record or log goes to a device that is full."""
    with tempfile.TemporaryDirectory() as folder, open("/dev/full", "w") as full, open(os.path.join(folder, "said"), "w") as said:
        gateway = a_gateway(program, folder)
        out = {"stdout": full, "stderr": said} if what == "record" else {"stdout": subprocess.DEVNULL, "stderr": full}
        gateway.process = subprocess.Popen(run_of(program, gateway, "--redial", f"--{what}"), stdin=subprocess.DEVNULL, **out)
        count.judge(f"{what} > /dev/full: it polls", until(lambda: gateway.field.requests > 10, 20), gateway.process.poll())
        goes_on(count, f"{what} > /dev/full", gateway)
        if what == "record":
            with open(said.name) as file:
                text = file.read()
            count.judge("that the record ends is said", "record" in text, text)
        gateway.process.kill()
        gateway.process.wait()
        gateway.field.server.close()


def audited_over_a_restart(count, program):
    """The words of the packaged service, with a record: each life's record follows from the settings and the state."""
    with tempfile.TemporaryDirectory() as folder:
        gateway = a_gateway(program, folder)
        for life in (1, 2, 3):
            place = os.path.join(folder, f"record{life}")
            with open(place, "w") as record, open(gateway.log, "w") as log:
                words = run_of(program, gateway, "--redial", "--log", "--log-severity", "--state", gateway.state, "--record")
                gateway.process = subprocess.Popen(words, stdin=subprocess.DEVNULL, stdout=record, stderr=log)
            gateway.waits("listening")
            has_gone_round(gateway)
            operator = Operator(gateway.listener)
            for station in gateway.field.stations.values():
                station.report(2)
            operator.waits(lambda: len(operator.reports()) >= 4)
            operator.centre.stream.close()
            queue_up(gateway, 2)
            gateway.kill()
            with open(place) as record:
                text = record.read()
            with open(place, "w") as record:
                record.write(text[: text.rindex("\n") + 1])
            audit = subprocess.run([program, "audit", gateway.config, place], capture_output=True, text=True, timeout=120)
            count.judge(f"life {life}: audit says same", audit.stdout.startswith("same, ") and audit.returncode == 0, (audit.stdout, audit.stderr, text[:300]))
        # A record behind another one is of another run: it is told at its first line.
        lengths = []
        for life in (1, 2):
            with open(os.path.join(folder, f"record{life}")) as record, open(os.path.join(folder, "both"), "a") as both:
                lines = record.readlines()
                both.writelines(lines)
                lengths.append(len(lines))
        audit = subprocess.run([program, "audit", gateway.config, os.path.join(folder, "both")], capture_output=True, text=True, timeout=120)
        count.compare("two records in one file", (audit.stdout, audit.returncode), (f"line {lengths[0] + 1} differs\n", 1))
        gateway.field.server.close()


class Hanging(Field):
    """Outstations behind a device server that hangs, and serves again only who dials anew."""

    def __init__(self, *words):
        self.is_hung, self.dialled = False, 0
        super().__init__(*words)

    def hear(self, line):
        if not self.is_hung or line is not self.line:
            return super().hear(line)
        line.request()
        self.requests += 1

    def run(self):
        while True:
            try:
                line = self.line = ends.Line(self.server.accept()[0])
            except OSError:
                return
            self.is_hung, self.dialled = False, self.dialled + 1
            line.stream.settimeout(None)
            try:
                while True:
                    self.hear(line)
            except (OSError, EOFError):
                line.stream.close()
                self.line = None


SILENT = "line silent: requests went out and nothing came, it is dialled anew"
HINT = "station 2 still no reply: if it was restarted, restart telegate too"


def a_server_that_hangs(count, program):
    """The line's server hangs with its connection open: it is dialled anew, said so, and nothing is lost."""
    with tempfile.TemporaryDirectory() as folder:
        field = Hanging([1, 2], random.Random(1), 0)
        field.pause = PAUSE
        gateway = kept.Gateway(program, folder, field, ("127.0.0.1", ends.free_port()), answer_ms=200, retries=1)
        gateway.start()
        gateway.waits("station 1 up", "station 2 up")
        queue_up(gateway, 2)
        resets, dialled = kept.resets_of(gateway), field.dialled
        field.is_hung = True
        began = time.monotonic()
        count.judge("it is dialled anew", until(lambda: field.dialled > dialled, 50), gateway.logged())
        passed = time.monotonic() - began
        print(f"a server that hangs: dialled anew behind {passed:.1f} s", flush=True)
        if field.dialled > dialled:
            queue_up(gateway, 2)
            got = drained(gateway)
            count.compare("nothing is lost", got, kept.all_came(gateway))
            count.compare("no link is reset", kept.resets_of(gateway), resets)
            told = gateway.logged()
            count.judge("the log says so", f" {SILENT}\n" in told and "line reached again" in told and not gaps(told), told)
            time.sleep(2)
            count.compare("and only once", field.dialled, dialled + 1)
        gateway.kill()
        field.server.close()


def a_hint(count, program):
    """A station that was started again stays silent where it is held: a minute later the log says what brings it back."""
    with tempfile.TemporaryDirectory() as folder:
        gateway = a_gateway(program, folder, answer_ms=60, retries=1)
        # What is known here needs no processor.
        gateway.field.pause = 0.05
        gateway.start()
        gateway.waits("station 1 up", "station 2 up")
        gateway.field.stations[2].forget()
        until(lambda: HINT in gateway.logged(), 80)
        told = gateway.logged()
        places = [told.find(text) for text in ("station 2 no reply\n", f"{HINT}\n")]
        count.judge("the log says what brings a station back", 0 <= places[0] < places[1], told)
        count.judge("and nothing of another one", "station 1 still" not in told, told)
        gateway.kill()
        gateway.field.server.close()


# The clock that counts from the system's start jumps ahead by an hour once TRIGGER is there. Where OPENED is given, each sync of a directory
# and each look at a clock is counted there.
LIBRARY = r"""
#define _GNU_SOURCE
#include <dlfcn.h>
#include <fcntl.h>
#include <stdio.h>
#include <stdlib.h>
#include <sys/stat.h>
#include <time.h>
#include <unistd.h>

#define REAL(type, name, ...) static type (*real)(__VA_ARGS__); if (!real) real = dlsym(RTLD_NEXT, name)

static void count(const char *what) {
    const char *name = getenv("COUNTED");
    if (!name) return;
    int file = open(name, O_WRONLY | O_CREAT | O_APPEND, 0600);
    if (file < 0) return;
    dprintf(file, "%s\n", what);
    close(file);
}

int clock_gettime(clockid_t clock, struct timespec *now) {
    REAL(int, "clock_gettime", clockid_t, struct timespec *);
    int answer = real(clock, now);
    const char *trigger = getenv("TRIGGER");
    if (clock == CLOCK_REALTIME) count("clock");
    if (clock != CLOCK_REALTIME && trigger && !access(trigger, F_OK)) now->tv_sec += 3600;
    return answer;
}

static int synced(int file, int (*real)(int)) {
    struct stat found;
    char link[64], path[4096];
    snprintf(link, sizeof link, "/proc/self/fd/%d", file);
    ssize_t n = readlink(link, path, sizeof path - 1);
    if (n > 0 && !fstat(file, &found) && S_ISDIR(found.st_mode)) {
        path[n] = 0;
        count(path);
    }
    return real(file);
}

int fsync(int file) {
    REAL(int, "fsync", int);
    return synced(file, real);
}

int fdatasync(int file) {
    REAL(int, "fdatasync", int);
    return synced(file, real);
}
"""


def preloaded(folder, **more):
    return {**os.environ, "LD_PRELOAD": ends.library(folder, "edges", LIBRARY), **more}


def a_jump_of_the_clock(count, program):
    """The clock jumps ahead by an hour: a control centre is served at once."""
    with tempfile.TemporaryDirectory() as folder:
        trigger = os.path.join(folder, "trigger")
        gateway = a_gateway(program, folder, environment=preloaded(folder, TRIGGER=trigger))
        gateway.start()
        gateway.waits("station 1 up", "station 2 up")
        first = Operator(gateway.listener)
        count.judge("a control centre before", first.started, gateway.logged())
        with open(trigger, "w"):
            pass
        has_gone_round(gateway, 2)
        began = time.monotonic()
        with socket.create_connection(gateway.listener, timeout=30) as stream:
            stream.sendall(ends.START)
            octets = stream.recv(6)
        passed = time.monotonic() - began
        print(f"a jump of the clock: served behind {passed:.2f} s", flush=True)
        count.judge("one behind a jump is served at once", octets == ends.STARTED and passed < 3, (octets, passed))
        gateway.kill()
        gateway.field.server.close()


def reaches(host, port, source="127.0.0.1"):
    """Whether a STARTDT is confirmed to who connects from this address."""
    try:
        with socket.create_connection((host, port), timeout=5, source_address=(source, 0)) as stream:
            stream.sendall(ends.START)
            return stream.recv(6) == ends.STARTED
    except OSError:
        return False


def the_listener(count, program):
    """It listens at the address that it was given, and at no other; the status page likewise."""
    with tempfile.TemporaryDirectory() as folder:
        status = ends.free_port()
        gateway = a_gateway(program, folder, flags=["--status", f"127.0.0.1:{status}"])
        gateway.start()
        gateway.waits("listening")
        port = gateway.listener[1]
        count.judge("it listens where it was asked to", reaches("127.0.0.1", port), gateway.logged())
        count.judge("it is told so", f"listening at 127.0.0.1:{port}\n" in gateway.logged(), gateway.logged())
        for host, there in (("127.0.0.2", port), ("127.0.0.2", status), ("127.1.2.3", port)):
            with socket.socket() as stream:
                stream.settimeout(5)
                count.judge(f"nothing is at {host}:{there}", stream.connect_ex((host, there)), "connected")
        gateway.kill()
        gateway.field.server.close()


def many_words(count, program):
    """Each of more than twenty words is heeded."""
    with tempfile.TemporaryDirectory() as folder:
        hosts = [f"127.0.0.{n}" for n in range(2, 14)]
        allowed = [word for host in hosts for word in ("--allow", host)]
        status = ends.free_port()
        gateway = a_gateway(program, folder, flags=[*allowed, "--log-severity", "--status", f"127.0.0.1:{status}"])
        gateway.start()
        count.judge("severities are there", gateway.waits("listening") and "<6>" in gateway.logged(), gateway.logged())
        for host in hosts:
            count.judge(f"{host} may connect", reaches("127.0.0.1", gateway.listener[1], host), gateway.logged())
        count.judge("another one may not", not reaches("127.0.0.1", gateway.listener[1], "127.0.0.14"), gateway.logged())
        page = subprocess.run([program, "status", f"127.0.0.1:{status}"], capture_output=True, text=True, timeout=60)
        count.judge("the status is shown", page.stdout.split(":")[0] in ("OK", "WARNING", "CRITICAL"), page)
        count.judge("the state is kept", os.path.exists(os.path.join(gateway.state, "kept")), os.listdir(folder))
        gateway.kill()
        gateway.field.server.close()


def names_of_stations(count, program):
    """Two link addresses whose low octets are the same have each their own name."""
    with tempfile.TemporaryDirectory() as folder:
        site = os.path.join(folder, "site.toml")
        with open(site, "w") as file:
            file.write('[[station]]\nlink = 263\nname = "Far Mill"\n[[station]]\nlink = 7\nname = "Near Mill"\n')
        status, config = ends.free_port(), os.path.join(folder, "names.toml")
        with socket.create_server(("127.0.0.1", 0)) as server, open(os.path.join(folder, "log"), "w") as log:
            with open(config, "w") as file:
                file.write("[line]\nlink = 2\ncause = 1\nca = 1\nioa = 2\nanswer_ms = 100\n[[station]]\naddress = 7\nca = 1\n[[station]]\naddress = 263\nca = 2\n")
                file.write(f'[live]\nline = "tcp:127.0.0.1:{server.getsockname()[1]}"\nlisten = "127.0.0.1:{ends.free_port()}"\n')
            words = [program, "run", "--redial", "--log", "--site", site, "--status", f"127.0.0.1:{status}", config]
            process = subprocess.Popen(words, stdin=subprocess.DEVNULL, stderr=log)
            try:
                told = lambda: open(log.name).read()
                asked = until(lambda: "station 263 link status" in told() and "station 7 link status" in told(), 20)
                count.judge("both are asked", asked, told())
                for address, name in ((7, "Near Mill"), (263, "Far Mill")):
                    count.judge(f"the log's name of {address}", f"station {address} link status requested [{name}]\n" in told(), told())
                shown = subprocess.run([program, "status", f"127.0.0.1:{status}"], capture_output=True, text=True, timeout=60).stdout
                for address, name in ((7, "Near Mill"), (263, "Far Mill")):
                    count.judge(f"the table's name of {address}", re.search(rf"^ *{address} +\d+ .* {name}$", shown, re.M), shown)
            finally:
                process.kill()
                process.wait()


def clock_and_syncs(count, program):
    """The log's clock is the system's. Where files of a state are made, their directory is synced."""
    with tempfile.TemporaryDirectory() as folder:
        counted = os.path.join(folder, "counted")
        gateway = a_gateway(program, folder, environment=preloaded(folder, COUNTED=counted))
        began = datetime.datetime.now(datetime.timezone.utc)
        gateway.start()
        gateway.waits("station 1 up", "station 2 up")
        stamps = [datetime.datetime.fromisoformat(line.split(" ")[0].replace("Z", "+00:00")) for line in gateway.logged().splitlines()]
        ended = datetime.datetime.now(datetime.timezone.utc)
        slack = datetime.timedelta(milliseconds=1500)
        count.judge("the log's clock is the system's", stamps and all(began - slack < stamp < ended + slack for stamp in stamps), (began, stamps, ended))
        gateway.kill()
        with open(counted) as file:
            lines = file.read().splitlines()
        count.judge("the clock is looked at", "clock" in lines, lines[:5])
        count.judge("the state's directory is synced", gateway.state in lines, set(lines))
        shown, _, _ = kept.looked(gateway, gateway.state)
        wall = next((re.search(r"wall clock in ms (\d+)", line) for line in shown if "wall clock" in line), None)
        near = wall and abs(int(wall[1]) / 1000 - began.timestamp()) < 60
        count.judge("the state's clock is the system's", near, shown[:4])
        gateway.field.server.close()


def descriptors(count, program):
    """Seventy visits leave no descriptor behind."""
    with tempfile.TemporaryDirectory() as folder:
        status = ends.free_port()
        gateway = a_gateway(program, folder, flags=["--status", f"127.0.0.1:{status}"])
        gateway.start()
        gateway.waits("station 1 up", "station 2 up")
        opened = lambda: len(os.listdir(f"/proc/{gateway.process.pid}/fd"))
        before, got = opened(), 0
        for visit in range(70):
            with socket.create_connection(("127.0.0.1", status), timeout=10) as stream:
                if visit % 5:
                    stream.sendall(b"GET /status.txt HTTP/1.1\r\n\r\n")
                    octets = b""
                    while piece := stream.recv(65536):
                        octets += piece
                    got += octets.startswith(b"HTTP/1.1 200")
        count.compare("each visit is answered", got, 56)
        # One that says nothing is sent away behind two seconds.
        count.judge("no descriptor is left behind", until(lambda: opened() <= before, 10), (before, opened()))
        gateway.kill()
        gateway.field.server.close()


def a_flood_of_openings(count, program, seconds=6):
    """The page comes soon while connections are opened on and on."""
    with tempfile.TemporaryDirectory() as folder:
        status = ends.free_port()
        gateway = a_gateway(program, folder, flags=["--status", f"127.0.0.1:{status}"])
        gateway.start()
        gateway.waits("station 1 up", "station 2 up")
        over = time.monotonic() + seconds
        opened = []

        def flood():
            while time.monotonic() < over:
                with socket.socket() as stream:
                    stream.setblocking(False)
                    stream.connect_ex(("127.0.0.1", status))
                    opened.append(1)
                time.sleep(0.002)

        threads = [threading.Thread(target=flood) for _ in range(4)]
        for thread in threads:
            thread.start()
        time.sleep(1)
        waited = []
        while time.monotonic() < over:
            began = time.monotonic()
            answer = b""
            # Who is turned away asks again, as a browser does.
            while not answer.startswith(b"HTTP/1.1 200") and time.monotonic() < over + 10:
                try:
                    with socket.create_connection(("127.0.0.1", status), timeout=10) as stream:
                        stream.sendall(b"GET /status.txt HTTP/1.1\r\n\r\n")
                        answer = stream.recv(65536)
                except OSError:
                    pass
            waited.append(time.monotonic() - began)
        for thread in threads:
            thread.join()
        print(f"a flood of openings: {len(opened)} in {seconds} s, pages behind {', '.join(f'{w:.2f}' for w in waited)} s", flush=True)
        count.judge("the page comes within two seconds", waited and max(waited) < 2, waited)
        gateway.kill()
        gateway.field.server.close()


PARTS = [
    alone("edges record not read", a_record_that_is_not_read),
    alone("edges log not read, a pipe", a_log_that_is_not_read, small_pipe),
    alone("edges log not read, a stream", a_log_that_is_not_read, small_stream),
    alone("record on a full device", full_device, "record"),
    alone("log on a full device", full_device, "log"),
    alone("edges packaged words audited", audited_over_a_restart),
    alone("edges server that hangs", a_server_that_hangs),
    alone("edges hint where a station is silent", a_hint),
    alone("edges jump of the clock", a_jump_of_the_clock),
    alone("listener", the_listener),
    alone("words", many_words),
    alone("names", names_of_stations),
    alone("clock and syncs", clock_and_syncs),
    alone("descriptors", descriptors),
    alone("edges flood of openings", a_flood_of_openings),
]


if __name__ == "__main__":
    kept.play(PARTS)
