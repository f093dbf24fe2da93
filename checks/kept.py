"""The parts that scripts over a kept state share: a gateway that is started, killed and started
again, a disk that forgets what wasn't synced, and what is seen of both.
"""
import argparse
import os
import random
import re
import resource
import shutil
import signal
import subprocess
import sys
import time

import ends
import frame
from outstations import Field, Visitor

# What was synced stands in a second directory. Each write since is kept until the next sync of its file, and a file beside the copy has
# them, so that a power cut can leave any part of them. A change of names counts once the directory is synced.
LIBRARY = r"""
#define _GNU_SOURCE
#include <dlfcn.h>
#include <fcntl.h>
#include <stdio.h>
#include <stdlib.h>
#include <string.h>
#include <sys/stat.h>
#include <sys/types.h>
#include <unistd.h>

static const char *watched, *copy;
// How many calls that change a watched file are left until the process ends in front of one; 0: it doesn't.
static long left;

__attribute__((constructor)) static void begin(void) {
    watched = getenv("WATCHED");
    copy = getenv("COPY");
    const char *cut = getenv("CUT_AT");
    left = cut ? atol(cut) : 0;
}

// The path of a file that is watched, in the copy; or nothing.
static int place(int file, char *out, size_t room, const char *suffix) {
    char link[64], path[4096];
    snprintf(link, sizeof link, "/proc/self/fd/%d", file);
    ssize_t n = watched ? readlink(link, path, sizeof path - 1) : -1;
    if (n < 0) return 0;
    path[n] = 0;
    size_t front = strlen(watched);
    if (strncmp(path, watched, front) || (path[front] && path[front] != '/')) return 0;
    snprintf(out, room, "%s%s%s", copy, path + front, suffix);
    return 1;
}

static void end_if_due(int file) {
    char path[4200];
    if (left > 0 && place(file, path, sizeof path, "") && --left == 0) _exit(137);
}

// A block of zeros, of which some thousand stand behind each checkpoint: they aren't counted.
static int is_blank(const char *octets, size_t count) {
    while (count && !octets[count - 1]) count--;
    return !count;
}

static void note(int file, char kind, off_t at, const void *octets, size_t count) {
    char path[4200];
    if (!place(file, path, sizeof path, ".since")) return;
    int to = open(path, O_WRONLY | O_CREAT | O_APPEND, 0600);
    long head[3] = {kind, at, (long)count};
    if (to < 0) return;
    if (write(to, head, sizeof head) < 0 || (count && octets && write(to, octets, count) < 0)) perror("note");
    close(to);
}

// What was written since is in the copy too.
static void settle(int file) {
    char path[4200], since[4200];
    if (!place(file, path, sizeof path, "") || !place(file, since, sizeof since, ".since")) return;
    int from = open(since, O_RDONLY), to = open(path, O_RDWR | O_CREAT, 0600);
    long head[3];
    while (from >= 0 && to >= 0 && read(from, head, sizeof head) == sizeof head) {
        if (head[0] == 't') {
            if (ftruncate64(to, head[1])) perror("settle");
            continue;
        }
        char *octets = malloc(head[2]);
        if (read(from, octets, head[2]) == head[2]) {
            if (syscall(18 /* pwrite64 */, to, octets, head[2], head[1]) < 0) perror("settle");
        }
        free(octets);
    }
    if (from >= 0) close(from);
    if (to >= 0) close(to);
    unlink(since);
}

#define REAL(type, name, ...) static type (*real)(__VA_ARGS__); if (!real) real = dlsym(RTLD_NEXT, name)

ssize_t pwrite64(int file, const void *octets, size_t count, off64_t at) {
    REAL(ssize_t, "pwrite64", int, const void *, size_t, off64_t);
    if (!is_blank(octets, count)) end_if_due(file);
    ssize_t n = real(file, octets, count, at);
    if (n > 0) note(file, 'w', at, octets, n);
    return n;
}

ssize_t pwrite(int file, const void *octets, size_t count, off_t at) { return pwrite64(file, octets, count, at); }

int ftruncate64(int file, off64_t size) {
    REAL(int, "ftruncate64", int, off64_t);
    end_if_due(file);
    int answer = real(file, size);
    char path[4200];
    if (!answer && place(file, path, sizeof path, "")) note(file, 't', size, NULL, 0);
    return answer;
}

int ftruncate(int file, off_t size) { return ftruncate64(file, size); }

static int synced(int file, int answer) {
    if (!answer) settle(file);
    return answer;
}

int fdatasync(int file) {
    REAL(int, "fdatasync", int);
    end_if_due(file);
    return synced(file, real(file));
}

int fsync(int file) {
    REAL(int, "fsync", int);
    end_if_due(file);
    return synced(file, real(file));
}
"""

SETTINGS = """[line]
link = 1
cause = {cause}
ca = {ca}
ioa = {ioa}
answer_ms = {answer_ms}
retries = {retries}
silence = "{silence}"
burst = {burst}
queue = {queue}
[tcp]
k = {k}
w = 1
{stations}[live]
line = "{line}"
listen = "{listener[0]}:{listener[1]}"
"""

# Where no answer is lost, the time to answer is never up, however busy the machine is.
USUAL = {"cause": 1, "ca": 1, "ioa": 2, "answer_ms": 1000, "retries": 2, "silence": "hold", "burst": 8, "queue": 200, "k": 12}

# How long it is waited for what must come, in seconds.
PATIENCE = 60

# How long an answer takes where nothing depends on it, in seconds: a line that never rests takes a processor.
PAUSE = 0.004


def until(holds, seconds=PATIENCE):
    """Waits until this holds, and answers whether it does."""
    end = time.monotonic() + seconds
    while not holds():
        if time.monotonic() > end:
            return False
        time.sleep(0.02)
    return True


class Gateway:
    """`telegate run --state` over settings, which is started, killed and started again."""

    def __init__(self, program, folder, field, listener, *, environment=None, flags=(), **settings):
        self.program, self.folder, self.field, self.listener = program, folder, field, listener
        self.config = os.path.join(folder, "gateway.toml")
        self.state = os.path.join(folder, "state")
        self.environment, self.flags, self.process = environment, list(flags), None
        self.log, self.said = os.path.join(folder, "log"), ""
        self.set(**settings)

    def set(self, stations=None, **settings):
        """Writes the file of settings anew."""
        listed = stations or [(address, address, "") for address in self.field.stations]
        tables = "".join(f"[[station]]\naddress = {a}\nca = {ca}\n{more}" for a, ca, more in listed)
        with open(self.config, "w") as file:
            file.write(SETTINGS.format(**{**USUAL, **settings}, stations=tables, line=self.field.place(), listener=self.listener))

    def start(self, redial=True, **more):
        words = [self.program, "run", *(["--redial"] if redial else []), "--log", "--state", self.state, *self.flags, self.config]
        # The log is read by its name: a place in the file that both had would move under the gateway's lines.
        with open(self.log, "w") as log:
            self.process = subprocess.Popen(words, stdin=subprocess.DEVNULL, stderr=log, env=self.environment, **more)

    def kill(self):
        """Kills it, and answers what it logged."""
        self.process.kill()
        self.process.wait()
        told = self.logged()
        self.said += told
        return told

    def end(self, kind):
        """It is killed or stopped (SIGTERM), or its power is cut; answers what it logged."""
        if kind == "term":
            self.process.terminate()
            self.process.wait(PATIENCE)
        told = self.kill()
        if kind == "power":
            cut_power(self.folder, random.Random(5))
        return told

    def logged(self):
        """What it has logged since it was started."""
        with open(self.log) as log:
            return log.read()

    def waits(self, *texts):
        """Whether its log has these texts soon."""
        return until(lambda: all(text in self.logged() for text in texts))


def shadowed(folder):
    """The environment in which what is synced stands in a second directory, too."""
    library = ends.library(folder, "synced", LIBRARY)
    os.makedirs(os.path.join(folder, "copy"))
    return dict(os.environ, LD_PRELOAD=library, WATCHED=os.path.join(folder, "state"), COPY=os.path.join(folder, "copy"))


def cut_power(folder, chance):
    """Puts the directory back to what was synced, with a part of what was written since."""
    state, copy = os.path.join(folder, "state"), os.path.join(folder, "copy")
    if not os.path.isdir(state):
        return
    for name in sorted(os.listdir(copy)):
        if name.endswith(".since"):
            tear(os.path.join(copy, name), chance)
    for name in os.listdir(state):
        # Files that were never synced by themselves are there by their names alone.
        source, target = os.path.join(copy, name), os.path.join(state, name)
        if os.path.exists(source):
            shutil.copyfile(source, target)


def tear(path, chance):
    """Writes a part of what was written since the last sync: each sector old or new."""
    name = path[: -len(".since")]
    with open(path, "rb") as file:
        octets = file.read()
    at = 0
    with open(name, "r+b" if os.path.exists(name) else "w+b") as copy:
        while at + 24 <= len(octets):
            kind, where, count = (int.from_bytes(octets[at + n : at + n + 8], "little") for n in (0, 8, 16))
            at += 24
            if kind == ord("t"):
                if chance.random() < 0.5:
                    copy.truncate(where)
                continue
            piece, at = octets[at : at + count], at + count
            for begin in range(where - where % 512, where + len(piece), 512):
                first, last = max(begin, where), min(begin + 512, where + len(piece))
                if chance.random() < 0.5:
                    copy.seek(first)
                    copy.write(piece[first - where : last - where])
    os.remove(path)


def begins(field):
    """A life begins with its first request, however long a busy machine lets it wait. (A full queue may let none go out.)"""
    before = field.requests
    until(lambda: field.requests > before, 3)


def quiet(program, folder, *, seed=1, loss=0, addresses=(1, 2), environment=None, flags=(), **settings):
    """A gateway over outstations that lose nothing, not started yet."""
    field = Field(list(addresses), random.Random(seed), loss)
    listener = ("127.0.0.1", ends.free_port())
    return Gateway(program, folder, field, listener, environment=environment, flags=flags, **settings)


def queue_up(gateway, reports):
    """So many reports of each station are polled, and nobody takes them."""
    stations = gateway.field.stations.values()
    for station in stations:
        station.report(reports)
    until(lambda: all(station.given == station.made for station in stations))
    # The answer to the last report's poll is heard, and stands on the disk, once the station's next poll has come.
    served = {station: station.served for station in stations}
    until(lambda: all(station.served > served[station] for station in stations))


def has_gone_round(gateway, turns=6):
    """Waits until each station has answered so many more requests, and says whether it has. A run that has ended asks no more."""
    stations, is_over = gateway.field.stations, lambda: gateway.process.poll() is not None
    served = {a: s.served for a, s in stations.items()}
    has = lambda: all(s.served >= served[a] + turns for a, s in stations.items())
    until(lambda: has() or is_over(), 20)
    return has()


def gaps(told):
    return sorted({int(number) for number in re.findall(r"station (\d+) gap", told)})


def numbered(gateway, *numbers):
    """The reports of each station with these numbers."""
    return {(address, number) for address in gateway.field.stations for number in numbers}


def drained(gateway, wanted=None):
    """The reports that a control centre gets now, by station, each where it came first: until it knows that these are acknowledged, or
    else all that the stations gave."""
    stations = gateway.field.stations
    wanted = wanted or {(address, number) for address, station in stations.items() for number in range(1, station.given + 1)}
    visitor = Visitor(gateway.listener, [], random.Random(1), commands=0, stays=1)
    until(lambda: wanted <= visitor.sure)
    time.sleep(0.2)
    visitor.is_over = True
    visitor.join()
    came = dict.fromkeys(report for heard in visitor.connections for report in heard)
    return {address: [number for where, number in came if where == address] for address in stations}


def all_came(gateway):
    return {address: list(range(1, station.given + 1)) for address, station in gateway.field.stations.items()}


def head_of(path):
    """The number of a log, and where the lines behind its checkpoint begin."""
    with open(path, "rb") as file:
        first = file.read(87)
    return (int(first[33:49], 16), 87 + int(first[57:73], 16)) if first.startswith(b"telegate state") else (0, 0)


def newest_of(folder):
    """The file of the newest log."""
    return max((os.path.join(folder, name) for name in ("segments", "segments-wal")), key=head_of)


def limit_files(size):
    """In a child: no file may grow beyond this, and who tries gets an error."""

    def limit():
        signal.signal(signal.SIGXFSZ, signal.SIG_IGN)
        resource.setrlimit(resource.RLIMIT_FSIZE, (size, resource.RLIM_INFINITY))

    return limit


def resets_of(gateway):
    return {address: station.resets for address, station in gateway.field.stations.items()}


def stood(folder):
    """All that stands in a directory, with when it was changed."""
    found = {}
    for name in sorted(os.listdir(folder)):
        path = os.path.join(folder, name)
        with open(path, "rb") as file:
            found[name] = (os.stat(path).st_mtime_ns, file.read())
    return found


def looked(gateway, *words):
    """What `telegate state` prints, line by line, and its exit status."""
    answer = subprocess.run([gateway.program, "state", *words], capture_output=True, text=True, timeout=60)
    return answer.stdout.splitlines(), answer.returncode, answer.stderr


def row_of(lines, address):
    return next((line for line in lines if line.startswith(f"station {address} ")), "")


def alone(name, part, *more):
    """The part of this name, which makes its folder itself."""
    return name, lambda count, program, _folder: part(count, program, *more)


def apart(name):
    """The part of this name in a process of its own: threads of one process would hold each other up."""

    def judged(count, program, _folder):
        words = [f"--{word}={value}" for word, value in vars(count.options).items() if word not in ("program", "part")]
        call = [sys.executable, sys.argv[0], f"--program={program}", f"--part={name}", *words]
        done = subprocess.run(call, stdout=subprocess.PIPE, stderr=subprocess.STDOUT, text=True)
        told, _, last = done.stdout.strip().rpartition("\n")
        if last.startswith("skipped: "):
            raise frame.Skipped(last.removeprefix("skipped: "))
        if "nothing was judged" in told:
            return
        print(told + "\n" if told else "", end="", flush=True)
        counted = re.fullmatch(r"(\d+) passed, (\d+) failed", last)
        with count.lock:
            count.passed += int(counted[1]) if counted else 0
            count.failed += int(counted[2]) if counted else 1

    return name, judged


def wanted_parts(parts):
    """The part that `--part NAME` or `--part=NAME` asks for alone, or else all of them."""
    parser = argparse.ArgumentParser(add_help=False)
    parser.add_argument("--part")
    wanted = parser.parse_known_args(sys.argv[1:])[0].part
    if not wanted:
        # Most of the time they wait, so they run side by side.
        return [apart(name) for name, _ in parts]
    chosen = [part for part in parts if part[0] == wanted]
    if not chosen:
        sys.exit(f"no part {wanted!r}: there are {', '.join(name for name, _ in parts)}")
    return chosen


def play(parts, words=None):
    """Runs the parts side by side, each in a process of its own, and ends the script."""
    words = {**(words or {}), "--part": {"default": "", "help": "this part alone, in this process"}}
    frame.main(*wanted_parts(parts), side_by_side=True, words=words)
