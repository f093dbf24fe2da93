#!/usr/bin/env python3
"""Compares the table of keys in docs/SETTINGS.md, and the files of settings in examples/, with the
built program.

    checks/settings.py [--program FILE] [--only NAME]

- For each row, both ends of the range are accepted. What lies beyond them, and a value of another
  type, is refused by that key's name. A key without a default is needed. Of several wrong keys the
  one of the earliest row is reported.
- A default is what the program has. For each key there is a trace whose replay is the same without
  the key and with the default given, and differs with the values next to it.
- `check --explain` prints for each wrong key the values of its row.
- `examples/full.toml` has exactly the keys of the table, with their defaults.
"""
import os
import re
import subprocess
import tomllib

import frame

ROW = re.compile(r"^\| `([a-z0-9_.]+)` \| [a-zA-Z]* ?\| (.+?) \| (.+?) \|$")
NEEDED = {"line.link": "1", "line.cause": "1", "line.ca": "1", "line.ioa": "2"}
STATION = {"address": "1", "ca": "1"}
LIVE = {"live.line": '"tcp:127.0.0.1:1"', "live.listen": '"127.0.0.1:1"'}

OPENING = ["10 S 100B010C16", "20 S E5", "30 O", "40 R 680407000000"]
TWO_UP = ["10 S 100B010C16", "20 S E5", "30 S 100B020D16", "40 S E5"]
INTERROGATION = "680E0000000064010600010000000014"


def rows():
    """The table: key, values, default, in its order."""
    with open(os.path.join(frame.TOP, "docs/SETTINGS.md"), encoding="utf-8") as file:
        found = [ROW.match(line.rstrip("\n")) for line in file]
    return [match.groups() for match in found if match]


def document(keys, stations):
    """A file with these keys, by their dotted paths, and these stations."""
    lines = []
    for table in ("line", "tcp", "live"):
        own = [(path.split(".", 1)[1], value) for path, value in keys.items() if path.startswith(table + ".")]
        if own:
            lines += [f"[{table}]"] + [f"{key} = {value}" for key, value in own]
    for station in stations:
        lines += ["[[station]]"] + [f"{key} = {value}" for key, value in station.items()]
    return "\n".join(lines) + "\n"


def report(control=0x08, address=1):
    """A frame with one single point, of a station to a poll."""
    user = bytes([control, address]) + bytes.fromhex("01010301640001")
    return (bytes([0x68, len(user), len(user), 0x68]) + user + bytes([sum(user) & 0xFF, 0x16])).hex()


def numbered(apdu, number):
    """An I frame with this N(S)."""
    octets = bytearray.fromhex(apdu)
    octets[2], octets[3] = number * 2 & 0xFF, number >> 7
    return octets.hex()


def executes(moment):
    """A select that is confirmed at 80, and its execute."""
    return OPENING + [
        "50 R 680E000000002D01060001000A000081",
        "60 S E5",
        "70 S E5",
        "80 S 6809096808012D0107010A0081CA16",
        "85 R 680401000200",
        f"{moment} R 680E020002002D01060001000A000001",
        f"{moment + 1} S E5",
    ]


def tagged(age):
    """A tagged single command that comes so many ms after its time, by the wall clock."""
    sent = 1709210096789
    return OPENING + [f"45 W {sent + age - 5}", "50 R 6815000000003A01060001000A000001D5DD220C9D0218", "60 S E5"]


def probes():
    """Of each key with a default: other values, further keys, stations, and traces in which they differ."""
    one, two = [STATION], [STATION, {"address": "2", "ca": "2"}]
    guarded = [dict(STATION, select="true")]
    beside = lambda n: [str(n - 1), str(n + 1)]
    clock = "681400000000670106000100000000D5DD220C9D0218"
    return {
        "line.answer_ms": (beside(200), {}, one, [["199 T", "200 T", "201 T"]]),
        "line.retries": (beside(3), {}, two, [TWO_UP + [f"{40 + 200 * n} T" for n in range(1, 8)]]),
        "line.silence": (['"reset"'], {}, one, [OPENING + [f"{40 + 200 * n} T" for n in range(1, 8)]]),
        "line.burst": (beside(8), {}, two, [TWO_UP + [f"{50 + n} S {report(0x28)}" for n in range(12)]]),
        "line.queue": (beside(1000), {}, one, [OPENING[:2] + [f"{50 + n} S {report()}" for n in range(1002)]]),
        "tcp.k": (beside(12), {}, one, [OPENING + [f"{50 + n} S {report()}" for n in range(16)]]),
        "tcp.w": (beside(8), {"tcp.k": "1"}, one, [OPENING + [f"{50 + n} R {numbered(clock, n)}" for n in range(12)]]),
        "tcp.t1_ms": (beside(15000), {}, one, [OPENING + ["20040 T", "35039 T", "35040 T", "35041 T"]]),
        "tcp.t2_ms": (beside(10000), {}, one, [OPENING + [f"50 R {INTERROGATION}", "10049 T", "10050 T", "10051 T"]]),
        "tcp.t3_ms": (beside(20000), {}, one, [OPENING + ["20039 T", "20040 T", "20041 T"]]),
        "tcp.select_ms": (beside(30000), {}, guarded, [executes(30079), executes(30080)]),
        "tcp.max_age_ms": (beside(10000), {}, one, [tagged(10000), tagged(10001)]),
        "station.select": (["true"], {}, one, [OPENING + ["50 R 680E000000002D01060001000A000001", "60 S E5"]]),
    }


class Judge:
    """The program over files of settings."""

    def __init__(self, count, program, folder, table):
        self.case, self.program, self.folder = count.case, program, folder
        # What `check --explain` says is wanted of each key: the table's values, without the marks of code.
        self.values = {path: values.replace("`", "") for path, values, _ in table}
        self.values["station"] += " tables"

    def run(self, *words):
        ran = subprocess.run([self.program, *words], capture_output=True, text=True, timeout=60, stdin=subprocess.DEVNULL)
        return ran.returncode, ran.stdout, frame.bare(ran.stderr)

    def put(self, name, text):
        path = os.path.join(self.folder, name)
        with open(path, "w", encoding="utf-8") as file:
            file.write(text)
        return path

    def judged(self, keys, stations, want, command="check"):
        """One file of settings: `ok`, or the fault that is reported. With a good one `run` gets as
        far as its line, at which nothing listens."""
        path = self.put("config.toml", document(keys, stations))
        good = (3, "", "device failed\n") if command == "run" else (0, "ok\n", "")
        wanted = good if want == "ok" else (1, "", f"config: {want}\n")
        code, out, told = self.run(command, path)
        # Of a run a line before the last one says which end can't be had.
        got = code, out, told.splitlines(keepends=True)[-1] if command == "run" else told
        self.case(got == wanted, f"{command} {keys} {stations}: wanted {wanted}, got {got}")
        if want in self.values:
            live = ["--live"] * (command == "run")
            line = f"wanted: {self.values[want]}\n"
            code, out, told = self.run("check", "--explain", *live, path)
            holds = (code, told) == wanted[::2] and line in out
            self.case(holds, f"check --explain {keys} {stations}: wanted {line!r}, got {out!r}")

    def replayed(self, keys, stations, traces):
        config = self.put("config.toml", document(keys, stations))
        return [self.run("replay", config, self.put("events.trace", "\n".join(trace) + "\n")) for trace in traces]


def with_value(path, value):
    """Keys and stations with this value at a path, and what else it needs."""
    keys, station = dict(NEEDED), dict(STATION)
    if path == "tcp.t1_ms" and value.isdigit() and int(value) <= 10000:
        keys["tcp.t2_ms"] = "1"
    if path.startswith("station."):
        station[path.split(".")[1]] = value
    else:
        keys[path] = value
    return keys, [station]


def without(path):
    keys, station = dict(NEEDED), dict(STATION)
    keys.pop(path, None)
    station.pop(path.split(".")[-1] if path.startswith("station.") else "", None)
    return keys, [station]


def judge_range(judge, path, low, high):
    for value, want in [(low, "ok"), (high, "ok"), (low - 1, path), (high + 1, path), (2**64, path)]:
        judge.judged(*with_value(path, str(value)), "not TOML" if value >= 2**63 else want)
    for value in (f"{low}.5", f'"{low}"', "true"):
        judge.judged(*with_value(path, value), path)


def judge_address(judge, path, size):
    """A number that depends on a size, and that no two stations share."""
    judge_range(judge, path, 1, 254)
    keys = dict(NEEDED, **{size: "2"})
    key = path.split(".")[1]
    for value, want in [("65534", "ok"), ("65535", path), ("0", path)]:
        judge.judged(keys, [dict(STATION, **{key: value})], want)
    other = {"address": "2", "ca": "2"}
    judge.judged(NEEDED, [STATION, other], "ok")
    judge.judged(NEEDED, [STATION, dict(other, **{key: "1"})], path)


def judge_values(judge, path, values):
    if path in ("station.address", "station.ca"):
        judge_address(judge, path, "line.link" if path.endswith("address") else "line.ca")
    elif path == "station":
        for count, want in [(0, path), (1, "ok"), (32, "ok"), (33, path)]:
            judge.judged(NEEDED, [{"address": str(n), "ca": str(n)} for n in range(1, count + 1)], want)
    elif path.startswith("live."):
        judge_place(judge, path)
    elif match := re.fullmatch(r"(\d+) to (\d+)", values):
        judge_range(judge, path, int(match[1]), int(match[2]))
    elif values == "1 to t1_ms - 1":
        judge_range(judge, path, 1, 14999)
        judge.judged(dict(NEEDED, **{"tcp.t1_ms": "10000"}), [STATION], path)
        judge.judged(dict(NEEDED, **{"tcp.t1_ms": "10001"}), [STATION], "ok")
    else:
        for value in values.split(" or "):
            judge.judged(*with_value(path, value), "ok")
        for value in ('"other"', "1", '"Hold"'):
            judge.judged(*with_value(path, value), path)


def judge_place(judge, path):
    """Any text will do, but for `run`, which needs a place."""
    for value, want in [('"any text"', "ok"), ("1", path)]:
        judge.judged(*with_value(path, value), want)
    for value in ('"any text"', '"tcp:host"', '"host:0"', '"host:65536"', '""'):
        judge.judged(NEEDED | LIVE | {path: value}, [STATION], path, "run")
    judge.judged(NEEDED | {key: value for key, value in LIVE.items() if key != path}, [STATION], path, "run")
    judge.judged(NEEDED | LIVE, [STATION], "ok", "run")


def judge_row(judge, path, values, default):
    judge_values(judge, path, values)
    if path == "station":
        return
    judge.judged(*without(path), path if default == "required" else "ok")


def judge_default(judge, path, default, probe):
    others, further, stations, traces = probe

    def replay(value):
        keys, mine = dict(NEEDED, **further), [dict(station) for station in stations]
        if path.startswith("station."):
            for station in mine:
                station.pop("select", None)
                station.update({"select": value} if value else {})
        elif value:
            keys[path] = value
        return judge.replayed(keys, mine, traces)

    absent = replay(None)
    judge.case(absent == replay(default), f"{path}: left away it isn't {default}")
    for other in others:
        judge.case(absent != replay(other), f"{path}: left away it may as well be {other}")


def judge_order(judge, table):
    """Of several wrong keys the one of the earliest row is reported."""
    paths = [path for path, _, _ in table if path != "station"]
    for first in range(len(paths)):
        keys, station = dict(NEEDED), dict(STATION)
        for path in paths[first:]:
            if path.startswith("station."):
                station[path.split(".")[1]] = "[]"
            else:
                keys[path] = "[]"
        judge.judged(keys, [station], paths[first])
    for path in ("line.x", "tcp.t4_ms", "live.x"):
        judge.judged(dict(NEEDED, **{path: "1"}), [STATION], f"unknown {path}")
    judge.judged(NEEDED, [dict(STATION, x="1")], "unknown station.x")


def judge_examples(judge, table):
    for folder, _, names in sorted(os.walk(os.path.join(frame.TOP, "examples"))):
        for name in sorted(names):
            path = os.path.join(folder, name)
            if name.endswith(".toml") and os.path.basename(folder) != "faults":
                got = judge.run("check", path)
                judge.case(got == (0, "ok\n", ""), f"{path}: {got}")
    with open(os.path.join(frame.TOP, "examples/full.toml"), "rb") as file:
        full = tomllib.load(file)
    given = {f"{name}.{key}": value for name in ("line", "tcp", "live") for key, value in full[name].items()}
    given |= {f"station.{key}": value for key, value in full["station"][0].items()}
    judge.case(set(given) == {path for path, _, _ in table if path != "station"}, "full.toml: other keys than the table's")
    for path, _, default in table:
        if not default.startswith("required"):
            value = tomllib.loads(f"value = {default}")["value"]
            judge.case(given.get(path) == value, f"full.toml: {path} isn't {default}")


def keys(count, program, folder):
    """Each row of the table, the order of its rows, and the examples."""
    table, probe = rows(), probes()
    judge = Judge(count, program, folder, table)
    judge.case(len(table) == 22, f"the table has {len(table)} rows")
    for path, values, default in table:
        judge_row(judge, path, values, default)
        if path in probe:
            judge_default(judge, path, default, probe[path])
        else:
            judge.case(default.startswith("required"), f"{path}: no trace shows its default")
    judge_order(judge, table)
    judge_examples(judge, table)


if __name__ == "__main__":
    frame.main(keys)
