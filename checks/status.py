#!/usr/bin/env python3
"""Looks at the status listener of `telegate run --status`, and judges each page, what visitors may do,
and what they cost.

    checks/status.py [--program FILE] [--only NAME] [--listener HOST:PORT]

- Outstations play behind a line while pages are fetched. Each page's numbers have to be those of
  what the stations did.
- Then comes the listener itself: any path, any method, garbage, octets one at a time, a request of 10
  KB, a hundred connections at once, readers that read nothing, and readers that read slowly.
- What is wrong stands first, no fact twice, and dead stations before the others. A line that wasn't
  there yet isn't lost.
- The latest 20 lines of the log stand on the page and in the JSON, as the log has them.
- The queue's chart has its scale, and a mark for each quarter of an hour in UTC.
- How long the oldest queued report has waited at least is true, whether others come or leave.
- On a telephone each standing of 32 stations is seen, and nothing is cut off on the way to the side.
- Settings of 32 stations fit a page.
- The latest sync's time stands in the JSON and the metrics, and a slow disk's on each page.
- Python reads the JSON and the HTML. Prometheus' own `promtool` reads the metrics. Headless
  Chromium shows the page, on a screen of a telephone and on a large one, light and dark. The last
  two are skipped if Debian's package isn't installed.
- With a flood of visitors a station is polled at least 0.9 times as often as without.

With --listener the script judges only the listener, of whatever listens there. All of it is on the
loopback.
"""
import datetime
import html
import html.parser
import json
import os
import random
import re
import shutil
import socket
import subprocess
import sys
import tempfile
import threading
import time
import types

import disks
import ends
import frame
import outstations

LINE = "[line]\nlink = 1\ncause = 1\nca = 1\nioa = 2\nanswer_ms = 50\nretries = 1\nqueue = 1000\n"
PATHS = {
    "/": "text/html; charset=utf-8",
    "/status.json": "application/json",
    "/metrics": "text/plain; version=0.0.4; charset=utf-8",
    "/status.txt": "text/plain; charset=utf-8",
}


class Answer:
    """What came over a connection, in its parts."""

    def __init__(self, octets):
        self.octets = octets
        head, _, self.body = octets.partition(b"\r\n\r\n")
        lines = head.decode("latin-1").split("\r\n")
        self.status = lines[0]
        self.fields = dict(line.split(": ", 1) for line in lines[1:])

    def code(self):
        return int(self.status.split(" ")[1]) if self.status.startswith("HTTP/1.1 ") else 0


def all_of(stream):
    octets = b""
    try:
        while piece := stream.recv(65536):
            octets += piece
    except ConnectionResetError:
        pass
    return octets


def ask(listener, request, pause=0.0):
    """The answer to these octets, which go out at once, or one at a time with a pause."""
    with socket.create_connection(listener, timeout=ends.PATIENCE) as stream:
        for piece in [request] if not pause else [request[i : i + 1] for i in range(len(request))]:
            stream.sendall(piece)
            time.sleep(pause)
        return Answer(all_of(stream))


def get(listener, path, method="GET", version="HTTP/1.1"):
    return ask(listener, f"{method} {path} {version}\r\nHost: {listener[0]}\r\n\r\n".encode())


class Page(html.parser.HTMLParser):
    """The rows of an HTML page, each a list of its cells; its elements, in their order; and each address in it."""

    def __init__(self, text):
        super().__init__()
        self.rows, self.open, self.odd, self.links, self.tags = [], [], [], [], set()
        self.feed(text)

    def handle_starttag(self, tag, attributes):
        self.tags.add(tag)
        self.links += [value for name, value in attributes if name in ("src", "href", "action", "srcset")]
        if tag == "tr":
            self.rows.append([])
        if tag in ("td", "th"):
            self.rows[-1].append("")
        if tag not in ("meta", "path"):
            self.open.append(tag)

    def handle_startendtag(self, tag, attributes):
        self.handle_starttag(tag, attributes)

    def handle_endtag(self, tag):
        if not self.open or self.open.pop() != tag:
            self.odd.append(tag)

    def handle_data(self, text):
        if self.open and self.open[-1] in ("td", "th"):
            self.rows[-1][-1] += text


def metrics_of(text):
    """The samples of a text in Prometheus' format, by name and labels."""
    samples = {}
    for line in text.splitlines():
        if not line.startswith("#"):
            name, value = line.rsplit(" ", 1)
            samples[name] = float(value)
    return samples


def pages(count, listener):
    """The four pages, as they are for whoever asks."""
    for path, kind in PATHS.items():
        for version in ("HTTP/1.0", "HTTP/1.1"):
            answer = get(listener, path, version=version)
            name = f"GET {path} {version}"
            count.judge(name, answer.status == "HTTP/1.1 200 OK", answer.status)
            count.judge(f"{name}: type", answer.fields.get("Content-Type") == kind, answer.fields)
            count.judge(f"{name}: length", int(answer.fields.get("Content-Length", -1)) == len(answer.body), answer.fields)
            count.judge(f"{name}: close", answer.fields.get("Connection") == "close", answer.fields)
            count.judge(f"{name}: no-store", answer.fields.get("Cache-Control") == "no-store", answer.fields)
        head = get(listener, path, "HEAD")
        count.judge(f"HEAD {path}", head.code() == 200 and not head.body, head.octets)
        count.judge(f"HEAD {path}: length", abs(int(head.fields["Content-Length"]) - len(answer.body)) < 100, head.fields)
        with_query = get(listener, path + "?a=b&c")
        count.judge(f"{path} with a query", with_query.code() == 200, with_query.status)
    stations = json.loads(get(listener, "/status.json").body)["stations"]
    page = Page(get(listener, "/").body.decode())
    count.judge("HTML: each element is closed", not page.open and not page.odd, (page.open, page.odd))
    count.judge("HTML: no script, nothing from elsewhere", "script" not in page.tags and not page.links, (page.tags, page.links))
    names = [row[0] for row in page.rows if len(row) == 10][1:]
    wanted = [station["name"] for station in dead_first(stations)]
    count.judge("HTML: the names, of dead stations first", names == wanted, (names, wanted))
    samples = metrics_of(get(listener, "/metrics").body.decode())
    for station in stations:
        label = '{station="%d"}' % station["address"]
        right = samples.get("telegate_station_up" + label) == (station["standing"] == "up")
        count.judge(f"metrics: station {station['address']} up", right, samples)
    # Names as `TelegateLineAway` are those of alerts.
    named = {name for text in examples() for name in re.findall(r"\btelegate_\w+", text)}
    there = {name.split("{")[0] for name in samples}
    count.judge("metrics: those of examples/prometheus", len(named) > 10 and named <= there, named - there)
    table = get(listener, "/status.txt").body.decode()
    count.judge("table: its first word", table.split(":")[0] in ("OK", "WARNING", "CRITICAL"), table[:80])
    rows = [line for line in table.splitlines() if re.match(r" *\d+ +\d+  ", line)]
    count.judge("table: a row a station", len(rows) == len(stations), table)


def examples():
    """The texts of the rules and of the dashboard for Prometheus."""
    folder = os.path.join(frame.TOP, "examples", "prometheus")
    for name in ("alerts.yml", "dashboard.json"):
        with open(os.path.join(folder, name), encoding="utf-8") as file:
            yield file.read()


def dead_first(stations):
    """The stations as the page has them: those that don't answer stand before the others."""
    return sorted(stations, key=lambda station: station["standing"] not in ("no reply", "down"))


def promtool(count, listener):
    tool = shutil.which("promtool")
    if tool is None:
        print("skipped: promtool isn't there (Debian's package prometheus)")
        return
    text = get(listener, "/metrics").body
    judged = subprocess.run([tool, "check", "metrics"], input=text, capture_output=True)
    count.judge("promtool", judged.returncode == 0 and not judged.stderr, (judged.returncode, judged.stderr.decode()))


def chromium(count, listener, folder):
    program = shutil.which("chromium") or shutil.which("chromium-browser")
    if program is None:
        print("skipped: chromium isn't there (Debian's package chromium)")
        return
    for name, size, flags in (
        ("telephone-light", "400,800", []),
        ("large-light", "1300,900", []),
        ("large-dark", "1300,900", ["--force-dark-mode", "--enable-features=WebContentsForceDark"]),
    ):
        file = os.path.join(folder, f"status-{name}.png")
        command = [program, "--headless", "--no-sandbox", "--disable-gpu", f"--user-data-dir={folder}/chromium", f"--window-size={size}", *flags]
        shown = subprocess.run([*command, f"--screenshot={file}", f"http://{listener[0]}:{listener[1]}/"], capture_output=True, timeout=120)
        is_there = os.path.exists(file) and os.path.getsize(file) > 5000
        count.judge(f"Chromium, {name}", is_there, (shown.returncode, shown.stderr.decode()[-300:]))
        print(f"{name}: {file}")


def refusals(count, listener):
    """What is no look at a page."""
    for path in ("/status", "/status.json/", "//", "/../etc/passwd", "*", "/%2e"):
        answer = get(listener, path)
        count.judge(f"GET {path}", answer.code() == 404, answer.status)
    for method in ("POST", "PUT", "DELETE", "OPTIONS", "TRACE", "get"):
        answer = get(listener, "/", method)
        count.judge(method, answer.code() == 405 and answer.fields.get("Allow") == "GET, HEAD", (answer.status, answer.fields))
    for name, octets in (
        ("an APDU", ends.START),
        ("a line frame", ends.fixed(9, 1)),
        ("zeros", bytes(40)),
        ("TLS", bytes.fromhex("16030100") + bytes(60)),
        ("no version", b"GET /\r\n\r\n"),
        ("HTTP/2", b"PRI * HTTP/2.0\r\n\r\nSM\r\n\r\n"),
        ("a name with a space", b"GET / HTTP/1.1\r\nHo st: a\r\n\r\n"),
    ):
        answer = ask(listener, octets)
        count.judge(name, answer.code() == 400, answer.octets[:80])
    chance = random.Random(44)
    for _ in range(50):
        octets = bytes([0x80 + chance.randrange(128)]) + chance.randbytes(chance.randrange(1, 2000))
        count.judge("garbage", ask(listener, octets).code() == 400, octets)
    long = b"GET / HTTP/1.1\r\n" + b"X-Long: " + b"a" * 10_000 + b"\r\n\r\n"
    count.judge("a request of 10 KB", ask(listener, long).code() == 431, ask(listener, long).status)
    fits = b"GET / HTTP/1.1\r\nX-Long: " + b"a" * (8192 - 28) + b"\r\n\r\n"
    count.judge("a request of 8,192 octets", len(fits) == 8192 and ask(listener, fits).code() == 200, len(fits))
    count.judge("one of 8,193 octets", ask(listener, fits.replace(b"a", b"aa", 1)).code() == 431, "")
    many = b"GET / HTTP/1.1\r\n" + b"".join(b"X-%d: a\r\n" % i for i in range(65)) + b"\r\n"
    count.judge("65 header fields", ask(listener, many).code() == 431, ask(listener, many).status)
    slow = ask(listener, b"GET /status.txt HTTP/1.1\r\n\r\n", pause=0.01)
    count.judge("an octet at a time", slow.code() == 200, slow.status)


def visitors(count, listener):
    """Slow readers, readers that read nothing, those who say nothing, and many at once."""
    with socket.create_connection(listener, timeout=ends.PATIENCE) as stream:
        stream.setsockopt(socket.SOL_SOCKET, socket.SO_RCVBUF, 2048)
        stream.sendall(b"GET / HTTP/1.1\r\n\r\n")
        octets = b""
        while piece := stream.recv(1500):
            octets += piece
            time.sleep(0.01)
    slow = Answer(octets)
    count.judge("a slow reader", slow.code() == 200 and len(slow.body) == int(slow.fields["Content-Length"]), len(octets))
    began = time.monotonic()
    with socket.create_connection(listener, timeout=ends.PATIENCE) as mute:
        count.judge("who says nothing is sent away", all_of(mute) == b"", "")
    passed = time.monotonic() - began
    count.judge("after two seconds", 1.5 < passed < 4, passed)
    sitting = [socket.create_connection(listener, timeout=ends.PATIENCE) for _ in range(4)]
    time.sleep(0.3)
    began = time.monotonic()
    fifth = ask_or_none(listener)
    count.judge("a fifth is closed at once", not fifth and time.monotonic() - began < 1, fifth)
    time.sleep(2.5)
    count.judge("the seats are free again", get(listener, "/status.txt").code() == 200, "")
    for stream in sitting:
        stream.close()
    answers = []
    threads = [threading.Thread(target=lambda: answers.append(ask_or_none(listener))) for _ in range(100)]
    for thread in threads:
        thread.start()
    for thread in threads:
        thread.join()
    whole = [a for a in answers if a and Answer(a).code() == 200 and len(Answer(a).body) == int(Answer(a).fields["Content-Length"])]
    count.judge("of a hundred at once some are served", len(whole) >= 4, len(whole))
    count.judge("and the others get nothing", all(not a or a in whole for a in answers), [a[:60] for a in answers if a and a not in whole])
    time.sleep(2.5)
    count.judge("and it goes on", get(listener, "/").code() == 200, "")


def ask_or_none(listener):
    try:
        with socket.create_connection(listener, timeout=ends.PATIENCE) as stream:
            stream.sendall(b"GET /status.json HTTP/1.1\r\n\r\n")
            return all_of(stream)
    except OSError:
        return b""


class Stations:
    """Outstations behind a line on the loopback, and how often each is polled."""

    def __init__(self, addresses):
        chance = random.Random(1)
        self.stations = {address: outstations.Outstation(address, chance) for address in addresses}
        self.silent = set()
        self.polls = 0
        self.server = socket.create_server(("127.0.0.1", 0))
        threading.Thread(target=self.run, daemon=True).start()

    def run(self):
        while True:
            stream, _ = self.server.accept()
            line = ends.Line(stream)
            try:
                while True:
                    _, address, octets = line.request()
                    self.polls += 1
                    control = octets[1] if octets[0] == 0x10 else octets[4]
                    if address in self.silent:
                        continue
                    answer = self.stations[address].answer(control, octets[6:] if octets[0] == 0x68 else b"")
                    if answer:
                        line.answer(answer)
            except (OSError, EOFError):
                pass


class Run:
    """`telegate run --status` over stations."""

    def __init__(self, program, folder, stations, *flags, more=""):
        self.listener = ("127.0.0.1", ends.free_port())
        self.status = ("127.0.0.1", ends.free_port())
        config = os.path.join(folder, "status.toml")
        with open(config, "w") as file:
            file.write(LINE + more)
            for address in stations.stations:
                file.write(f"[[station]]\naddress = {address}\nca = {address}\n")
            port = stations.server.getsockname()[1]
            file.write(f'[live]\nline = "tcp:127.0.0.1:{port}"\nlisten = "127.0.0.1:{self.listener[1]}"\n')
        command = [program, "run", "--redial", "--status", f"127.0.0.1:{self.status[1]}", *flags, config]
        self.process = subprocess.Popen(command, stdin=subprocess.DEVNULL, stderr=subprocess.PIPE)

    def __enter__(self):
        end = time.monotonic() + ends.PATIENCE
        while time.monotonic() < end and self.process.poll() is None:
            try:
                socket.create_connection(self.status, timeout=1).close()
                return self
            except OSError:
                time.sleep(0.05)
        raise RuntimeError(f"the status listener doesn't open: {self.process.communicate()[1].decode()}")

    def __exit__(self, *_):
        if not self.process.stderr.closed:
            self.end()

    def end(self):
        """What it wrote to standard error until it is killed now."""
        self.process.kill()
        return self.process.communicate()[1].decode()

    def json(self):
        return json.loads(get(self.status, "/status.json").body)

    def waits(self, is_so, seconds=15):
        """Whether the JSON comes to be so."""
        end = time.monotonic() + seconds
        while time.monotonic() < end:
            if is_so(self.json()):
                return True
            time.sleep(0.1)
        return False


def standing(state, address):
    return next(station for station in state["stations"] if station["address"] == address)


def a_run(count, program, folder):
    """The pages show what the stations did."""
    stations = Stations([1, 2, 3])
    stations.silent.add(3)
    with Run(program, folder, stations) as run:
        state = run.json()
        count.judge("no control centre yet", state["centre"]["peer"] is None and state["judgement"] == "CRITICAL", state)
        up = run.waits(lambda s: standing(s, 1)["standing"] == "up" and standing(s, 2)["standing"] == "up")
        count.judge("stations 1 and 2 come up", up, run.json())
        count.judge("station 3 isn't up", standing(run.json(), 3)["standing"] != "up", run.json())
        centre = socket.create_connection(run.listener, timeout=ends.PATIENCE)
        centre.sendall(ends.START)
        count.judge("STARTDT", centre.recv(6) == ends.STARTED)
        count.judge("the control centre is told", run.waits(lambda s: s["centre"]["peer"] == "127.0.0.1" and s["centre"]["started"]), run.json())
        stations.stations[1].report(7)
        stations.stations[2].report(5)
        told = run.waits(lambda s: (standing(s, 1)["reports"], standing(s, 2)["reports"]) == (7, 5))
        count.judge("reports", told, run.json())
        count.judge("taken places", run.waits(lambda s: s["queue"]["taken"] == 12), run.json()["queue"])
        samples = metrics_of(get(run.status, "/metrics").body.decode())
        count.judge("reports in the metrics", samples['telegate_station_reports_total{station="1"}'] == 7, samples)
        count.judge("the control centre in the metrics", samples["telegate_centre_connected"] == 1, samples)
        page = Page(get(run.status, "/").body.decode())
        row = next(row for row in page.rows if len(row) == 10 and row[1] == "1")
        count.judge("the row of station 1", (row[3], row[6]) == ("up", "7"), row)
        stations.silent.add(2)
        count.judge("station 2 falls silent", run.waits(lambda s: standing(s, 2)["standing"] in ("no reply", "down")), run.json())
        client(count, run, "WARNING")
        dead = standing(run.json(), 2)
        count.judge("what it didn't answer is counted", dead["requests"] > dead["repeats"] > 0 < dead["unanswered"], dead)
        samples = metrics_of(get(run.status, "/metrics").body.decode())
        for key in ("requests", "repeats", "unanswered", "spoilt", "late"):
            told = samples['telegate_station_%s_total{station="2"}' % key]
            count.judge(f"{key} in the metrics", told >= dead[key], (told, dead))
        moment = standing(run.json(), 1)["last_report_ms"] // 1000
        told = samples['telegate_station_last_report_seconds{station="1"}']
        count.judge("the last report in the metrics", told == moment <= samples["telegate_moment_seconds"], (told, moment))
        rows = [row[1] for row in Page(get(run.status, "/").body.decode()).rows if len(row) == 10][1:]
        wanted = [str(station["address"]) for station in dead_first(run.json()["stations"])]
        count.judge("dead stations stand first", rows == wanted and rows[-1] == "1", (rows, wanted))
        table = get(run.status, "/status.txt").body.decode().splitlines()[0]
        count.judge("performance data", re.search(r" \| stations_up=1;;;0;3 queue=12;500;997;0;1000 oldest=\d+s;;;0$", table), table)
        page = get(run.status, "/").body.decode()
        count.judge("a queue below 80 % is good", '<meter min="0" optimum="0" low="799" high="997" max="1000" value="12">' in page, page)
        stations.silent.add(1)
        count.judge("no station answers", run.waits(lambda s: s["judgement"] == "CRITICAL"), run.json())
        client(count, run, "CRITICAL")
        stations.silent.remove(1)
        count.judge("one answers again", run.waits(lambda s: s["judgement"] == "WARNING"), run.json())
        centre.close()
        count.judge("the control centre goes", run.waits(lambda s: s["centre"]["peer"] is None), run.json())
        client(count, run, "CRITICAL")
        promtool(count, run.status)
        pages(count, run.status)
        refusals(count, run.status)
        visitors(count, run.status)
        chromium(count, run.status, folder)
        count.judge("still up", run.process.poll() is None, run.process.poll())


def lost(count, program, folder):
    """What is wrong stands first, the cause of all else before it, under the line's name."""
    port = ends.free_port()
    stations = types.SimpleNamespace(stations=[1], server=types.SimpleNamespace(getsockname=lambda: ("", port)))
    site = os.path.join(folder, "lost.toml")
    with open(site, "w") as file:
        file.write('[line]\nname = "North <ring>"\n')
    with Run(program, folder, stations, "--site", site) as run:
        cause = "connection refused"
        count.judge("the JSON has the cause", run.waits(lambda s: s["line"]["cause"] == cause), run.json())
        # No fact stands there twice (docs/STATUS.md, "The judgement").
        first = f"CRITICAL: line not there yet: {cause}; control centre not connected; 0 of 1 stations up, queue 0 of 1000, state none"
        count.judge("the JSON's summary", run.json()["summary"] == first, run.json())
        count.judge("the table", get(run.status, "/status.txt").body.decode().startswith(first), "")
        page = get(run.status, "/").body.decode()
        begins = re.search(r"<body>\n(.*)\n(.*)\n", page)
        count.judge("the page", begins and begins[2].startswith(f'<p class="CRITICAL">{first}'), page)
        heads = re.findall(r"<(?:title|h1)>(.*?)</", page)
        count.judge("title and heading", heads == ["North &lt;ring&gt;"] * 2, heads)
        with socket.create_connection(run.listener, timeout=ends.PATIENCE):
            count.judge("a control centre comes", run.waits(lambda s: "not connected" not in s["summary"]), run.json())
            count.judge("and is told of once", run.waits(lambda s: s["summary"].count("control centre connected") == 1), run.json())
        with socket.create_server(("127.0.0.1", port)):
            count.judge("the line comes", run.waits(lambda s: s["line"]["there"], 40), run.json())
            count.judge("and is told of once, too", run.json()["summary"].count("line") == 1, run.json())
        count.judge("a line that was there is lost", run.waits(lambda s: ": line lost: " in s["summary"], 40), run.json())
        rows = [row for row in Page(get(run.status, "/").body.decode()).rows if row[:1] == ["line"]]
        count.judge("the row of the line", rows and rows[0][1].startswith("North <ring>, lost for "), rows)


SEVERITIES = {"3": "error", "4": "warning", "5": "notice", "6": "info"}


def events(count, program, folder):
    """The latest 20 lines of the log stand on the page and in the JSON, the newest first, as the log
    has them, each with its UTC time, its severity and its name; and also if no log is wished."""
    site = os.path.join(folder, "events.toml")
    with open(site, "w") as file:
        file.write('[line]\nname = "Ring <1>"\n[[station]]\nlink = 1\nname = "Mill & Lane"\n')
    for flags in (["--log", "--log-severity"], []):
        stations = Stations([1, 2])
        began = time.time()
        with Run(program, folder, stations, "--site", site, *flags) as run:
            up = run.waits(lambda s: all(station["standing"] == "up" for station in s["stations"]))
            count.judge("both stations are up", up, run.json())
            for _ in range(8):
                with socket.create_connection(run.listener, timeout=ends.PATIENCE) as centre:
                    centre.sendall(ends.START)
                    centre.recv(6)
                time.sleep(1.1)
            stations.silent.add(1)
            silent = run.waits(lambda s: "station 1 no reply" in [event["line"] for event in s["latest"]])
            count.judge("station 1 falls silent", silent, run.json())
            time.sleep(1.5)
            latest = run.json()["latest"]
            page = get(run.status, "/").body.decode()
            log = run.end().splitlines()
        count.judge("20 lines", len(latest) == 20, latest)
        rows = re.findall(r'<tr class="(\w+)"><td class="n">([\d:]+)</td><td class="n">\S.*?</td><td class="e">(.*?)</td></tr>', page)
        rows = [(severity, clock, html.unescape(words)) for severity, clock, words in rows]
        told = [(event["severity"], with_name(event["line"], event["name"])) for event in latest]
        count.judge("the page has what the JSON has", [(row[0], row[2]) for row in rows] == told, (rows, told))
        if not flags:
            kinds = ("connected: 127.0.0.1", "connection started", "connection lost: peer closed")
            count.judge("without a log, too", all(told.count(("warning" if "lost" in kind else "info", kind)) >= 5 for kind in kinds), told)
            continue
        lines = [re.fullmatch(r"<(\d)>(\d+) (.*)", line) for line in log]
        lines = [line for line in lines if line and not line[3].startswith("counts ")][:-21:-1]
        wanted = [(SEVERITIES[line[1]], line[3]) for line in lines]
        count.judge("the JSON has the log's lines, the newest first", told == wanted, (told, wanted))
        moments = [event["moment_ms"] for event in latest]
        count.judge("with their moments", moments == [int(line[2]) for line in lines], (moments, log[-20:]))
        for (_, clock, words), event, line in zip(rows, latest, lines):
            written = began + event["moment_ms"] / 1000
            count.judge(f"the time of {words}", abs(event["wall_ms"] / 1000 - written) < 3, (event, line[0]))
            shown = datetime.datetime.fromtimestamp(event["wall_ms"] // 1000, datetime.timezone.utc)
            count.judge(f"its time of day: {words}", clock == f"{shown:%H:%M:%S}", (clock, event))


def with_name(words, name):
    return f"{words} [{name}]" if name else words


def chart(count, program, folder):
    """The queue's chart ends now at its right. It has its scale, and a mark for each quarter of an hour in UTC."""
    stations = Stations([1])
    with Run(program, folder, stations) as run:
        wall = run.json()["wall_ms"]
        while wall % 60_000 > 50_000:
            time.sleep(1)
            wall = run.json()["wall_ms"]
        page = get(run.status, "/").body.decode()
        now = wall // 60_000
        count.judge("the clock is this machine's", abs(wall / 1000 - time.time()) < 5, wall)
        wanted = [minute for minute in range(now - 59, now + 1) if minute % 15 == 0]
        marks = [
            f'<span{" class=" + chr(34) + "h" + chr(34) if minute % 60 == 0 else ""} style="left:{(60 - (now - minute)) * 100 // 60}%">'
            f"{minute // 60 % 24:02}:{minute % 60:02}</span>"
            for minute in wanted
        ]
        found = re.findall(r"<span.*?</span>", page)
        count.judge("a mark for each quarter of an hour", found == marks, (found, marks))
        count.judge("the scale", "<b>1000</b><b>0</b>" in page, page)
        count.judge("a bar a minute, the last one at the right", re.search(r'<path d="M59 100V100h1V100z"/>', page), page)


# A report of 70 objects. A piece has at most 60 of its type, of 4 octets each (249 octets, IEC 60870-5-104, 5).
LONG = bytes([1, 70, 3, 1]) + b"".join(number.to_bytes(2, "little") + b"\1" for number in range(1, 71))


def oldest(count, program, folder):
    """How long the oldest report has waited at least, while others come and leave, in one piece each or in two."""
    stations = Stations([1])
    waits(count, program, folder, stations, 1, stations.stations[1].report)
    stations = Stations([1])
    waits(count, program, folder, stations, 2, lambda number: stations.stations[1].urgent.extend([LONG] * number))


def waits(count, program, folder, stations, pieces, report):
    """A report comes, and three more two seconds later. It leaves before these. The queue is counted once
    a second, so the mark and the count are each up to a second late."""

    def shown(run):
        page = re.search(r"<th>queue</th><td>(.*?) <meter", get(run.status, "/").body.decode())[1]
        return page, metrics_of(get(run.status, "/metrics").body.decode())["telegate_queue_oldest_seconds"]

    def connected(run):
        # A run listens for visitors before it listens for control centres.
        run.waits(lambda s: standing(s, 1)["standing"] == "up")
        return socket.create_connection(run.listener, timeout=ends.PATIENCE)

    with Run(program, folder, stations) as run, connected(run) as stream:
        centre = ends.Centre(stream)
        count.judge("station 1 comes up", run.waits(lambda s: standing(s, 1)["standing"] == "up"), run.json())
        count.judge("no report waits", run.json()["queue"]["oldest_ms"] is None, run.json()["queue"])
        count.judge("on no page", shown(run) == ("0 of 1000", 0), shown(run))
        centre.send(ends.START)
        begun = time.monotonic()
        report(1)
        time.sleep(2)
        later = time.monotonic()
        report(3)
        time.sleep(3)
        page, seconds = shown(run)
        queue, passed = run.json()["queue"], time.monotonic() - begun
        count.judge("four are queued", queue["taken"] == 4 * pieces, queue)
        count.judge("the oldest waits at least", 2000 <= queue["oldest_ms"] <= 1000 * passed, (queue, passed))
        count.judge("in the metrics", 2 <= seconds <= passed, (seconds, passed))
        told = re.fullmatch(rf"{4 * pieces} of 1000, the oldest for at least (\d+) s *", page)
        count.judge("on the page", told and 2 <= int(told[1]) <= passed, (page, passed))
        centre.received = pieces
        centre.acknowledge()
        gone = run.waits(lambda s: s["queue"]["taken"] == 3 * pieces)
        queue, passed = run.json()["queue"], time.monotonic() - later
        count.judge("of the others the oldest waits less", gone and queue["oldest_ms"] <= 1000 * passed, (queue, passed))
        time.sleep(3)
        again, passed = run.json()["queue"], time.monotonic() - later
        count.judge("and goes on to wait", 1000 + queue["oldest_ms"] <= again["oldest_ms"] <= 1000 * passed, (queue, again, passed))
        centre.received = 4 * pieces
        centre.acknowledge()
        count.judge("none waits any more", run.waits(lambda s: s["queue"]["taken"] == 0), run.json()["queue"])
        count.judge("and none is shown", run.json()["queue"]["oldest_ms"] is None and shown(run) == ("0 of 1000", 0), shown(run))


SYNCS = re.compile(r"(\d+), the last (\d+) ms, the longest (\d+) ms")


def slow_disk(count, program, folder):
    """The syncs of a slow disk are counted on each page, and those of a fast one aren't there."""
    status = ("127.0.0.1", ends.free_port())
    case = disks.Failing(program, folder, 0, slow=150, flags=["--status", "{}:{}".format(*status)])
    whole = lambda: json.loads(get(status, "/status.json").body)
    told = lambda: whole()["slow_syncs"]
    seconds = lambda: metrics_of(get(status, "/metrics").body.decode())["telegate_latest_sync_seconds"]
    row = lambda: [cells[1] for cells in Page(get(status, "/").body.decode()).rows if cells[:1] == ["slow syncs"]]
    case.begin()
    before = told()
    latest = whole()["latest_sync_ms"], seconds()
    count.judge("the latest sync on a normal disk", all(0 <= each < most for each, most in zip(latest, (5000, 5))), latest)
    if before["count"] == 0:
        count.judge("no slow sync in the JSON", before == {"count": 0, "last_ms": 0, "longest_ms": 0}, before)
        count.judge("none on the page", not row(), row())
        count.judge("none in the table", b"slow syncs" not in get(status, "/status.txt").body, get(status, "/status.txt").body)
    else:
        print(f"skipped: this machine's own disk is slow: {before}")
    case.fail()
    end = time.monotonic() + 15
    while time.monotonic() < end and told()["count"] < before["count"] + 3:
        time.sleep(0.1)
    after = told()
    count.judge("slow syncs in the JSON", after["count"] >= before["count"] + 3 and 150 <= after["last_ms"] <= after["longest_ms"] < 10_000, (before, after))
    shown = {"the page": "".join(row()), "the table": get(status, "/status.txt").body.decode()}
    for name, text in shown.items():
        found = SYNCS.search(text)
        numbers = [int(number) for number in found.groups()] if found else []
        count.judge(f"slow syncs on {name}", numbers and numbers[0] >= after["count"] and 150 <= numbers[1] <= numbers[2], text)
    count.judge("the table has them in a line", re.search(r"^slow syncs      \d", shown["the table"], re.M), shown["the table"])
    samples = metrics_of(get(status, "/metrics").body.decode())
    count.judge("slow syncs in the metrics", samples["telegate_slow_syncs_total"] >= after["count"], samples)
    latest = whole()["latest_sync_ms"], seconds()
    count.judge("the latest sync on a slow disk", 150 <= latest[0] < 10_000 and 0.15 <= latest[1] < 10, latest)
    longest = samples["telegate_longest_sync_seconds"]
    count.judge("the longest sync in the metrics, in seconds", after["longest_ms"] / 1000 <= longest < 10, (after, longest))
    promtool(count, status)
    case.gateway.kill()
    case.field.server.close()


def client(count, run, word):
    table = get(run.status, "/status.txt").body.decode()
    count.judge(f"the table: {word}", table.startswith(f"{word}: "), table)
    count.judge(f"the JSON: {word}", run.json()["judgement"] == word, run.json())


def taken_port(count, program, folder):
    """A run doesn't begin if another process has its status listener."""
    with socket.create_server(("127.0.0.1", 0)) as other:
        config = os.path.join(folder, "taken.toml")
        with open(config, "w") as file:
            file.write(LINE + '[[station]]\naddress = 1\nca = 1\n[live]\nline = "tcp:127.0.0.1:%d"\nlisten = "127.0.0.1:%d"\n' % (ends.free_port(), ends.free_port()))
        words = [program, "run", "--log", "--status", "{}:{}".format(*other.getsockname()), config]
        ran = subprocess.run(words, capture_output=True, timeout=ends.PATIENCE)
        count.judge("a status port that is taken", ran.returncode == 3 and b"status port can't be used" in ran.stderr, (ran.returncode, ran.stderr))


# What of a page is seen on a screen: how wide it is, and for each standing whether it stands there whole and uncovered.
SEEN = """<script>document.title = JSON.stringify({
  width: innerWidth, wide: document.documentElement.scrollWidth,
  seen: [...document.querySelectorAll("tr > td.s")].map(cell => { cell.scrollIntoView({block: "center"});
    const box = cell.getBoundingClientRect(), range = document.createRange(); range.selectNodeContents(cell);
    const text = range.getBoundingClientRect();
    return 0 <= text.left && text.right <= innerWidth && cell.contains(document.elementFromPoint((text.left + text.right) / 2, (box.top + box.bottom) / 2)); })
})</script>"""


def telephone(count, listener, folder):
    """What is seen of a page 390 pixels wide."""
    program = shutil.which("chromium") or shutil.which("chromium-browser")
    if program is None:
        print("skipped: chromium isn't there (Debian's package chromium)")
        return
    place = os.path.join(folder, "telephone.html")
    with open(place, "w", encoding="utf-8") as file:
        file.write(get(listener, "/").body.decode().replace('<meta http-equiv="refresh" content="5">', "").replace("</body>", SEEN + "</body>"))
    command = [program, "--headless", "--no-sandbox", "--disable-gpu", f"--user-data-dir={folder}/chromium", "--window-size=390,800", "--dump-dom", f"file://{place}"]
    shown = subprocess.run(command, capture_output=True, timeout=120)
    title = re.search("<title>(.*?)</title>", shown.stdout.decode())
    told = json.loads(html.unescape(title[1])) if title else {}
    count.judge("390 pixels: the page isn't wider", told.get("wide", 1e9) <= told.get("width", 0), told)
    count.judge("390 pixels: each standing is seen", told.get("seen") == [True] * 32, told)


def largest(count, program, folder):
    """32 stations with names of 34 letters."""
    stations = Stations(range(1, 33))
    site = os.path.join(folder, "largest.toml")
    with open(site, "w") as file:
        for address in stations.stations:
            file.write(f'[[station]]\nlink = {address}\nname = "Substation Northfield feeder bay {address:02}"\n'.replace("bay ", "bay"))
    stations.silent |= {7, 30}
    with Run(program, folder, stations, "--site", site) as run:
        count.judge("two are silent", run.waits(lambda s: sum(station["standing"] in ("no reply", "down") for station in s["stations"]) == 2, 60), run.json())
        telephone(count, run.status, folder)
        for path in PATHS:
            answer = get(run.status, path)
            count.judge(f"the largest {path}", answer.code() == 200, answer.status)
            print(f"the largest {path}: {len(answer.body)} octets")
        addresses = [station["address"] for station in run.json()["stations"]]
        count.judge("the stations, in the order of the settings", addresses == list(range(1, 33)), addresses)


def polls_in(stations, listener, visitors):
    """How often the station is polled in five seconds, while so many visitors ask on and on."""
    is_over = threading.Event()

    def ask_on():
        while not is_over.is_set():
            ask_or_none(listener)

    threads = [threading.Thread(target=ask_on, daemon=True) for _ in range(visitors)]
    for thread in threads:
        thread.start()
    time.sleep(0.5)
    before = stations.polls
    time.sleep(5)
    polls = stations.polls - before
    is_over.set()
    for thread in threads:
        thread.join()
    return polls


def passage(count, program, folder):
    """How often a station is polled, with a flood of visitors and without. What else the machine does
    changes the rates from one moment to the next, so one of three rounds has to do."""
    stations = Stations([1])
    with Run(program, folder, stations) as run:
        run.waits(lambda s: standing(s, 1)["standing"] == "up")
        rounds = []
        while len(rounds) < 3:
            alone, flooded, again = (polls_in(stations, run.status, number) for number in (0, 8, 0))
            rounds.append({"alone": alone, "flooded": flooded, "alone again": again})
            is_as_fast = flooded >= 0.9 * min(alone, again)
            if is_as_fast:
                break
        print(f"polls in 5 s: {rounds}")
        count.judge("polls with visitors", is_as_fast, rounds)


def a_listener(count, _program, _folder):
    """The listener of whatever listens at --listener."""
    host, port = count.options.listener.rsplit(":", 1)
    listener = (host, int(port))
    pages(count, listener)
    promtool(count, listener)
    refusals(count, listener)
    visitors(count, listener)
    chromium(count, listener, tempfile.mkdtemp(prefix="telegate-status-"))


if __name__ == "__main__":
    is_elsewhere = any(word.startswith("--listener") for word in sys.argv)
    frame.main(
        *((a_listener,) if is_elsewhere else (a_run, lost, events, chart, oldest, largest, taken_port, slow_disk, passage)),
        needs_program=not is_elsewhere,
        words={"--listener": {"metavar": "HOST:PORT", "help": "judge what listens there, and nothing else"}},
    )
