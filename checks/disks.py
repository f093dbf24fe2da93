#!/usr/bin/env python3
"""Damages the state of `telegate run --state`, and lets its disk fail or be slow: nothing is lost
without a gap, nothing is operated twice, and the line is polled on.

    checks/disks.py [--program FILE] [--only NAME] [--part NAME] [--seed N]

- In a state that a killed run left a bit is turned, a sector reads as zeros (the first one, too), the
  file ends early, has nothing left, or two sectors are exchanged. Each start goes on without a loss, or says what is
  wrong with the state and tells a gap of each station that lost a report. So does the start behind
  one that was killed amid that.
- A copy of the directory takes its place: it is stale by itself. Kills and power cuts, also amid a
  first start, never make it so.
- A library in front of the C library's lets each call for a file of the state fail, from a moment
  on: with an error of the disk, because the file system is read-only, for want of space or of
  permission. Or a file of the state is none. The run goes on as long as the mark can be made, on that
  disk or in RUNTIME_DIRECTORY, and names file and reason. With `--state-or-stop` it ends with status 3.
- The library lets each sync last for 150 ms: the log says so.

The damage is drawn by a fixed seed. All of it is on the loopback.
"""
import errno
import os
import random
import re
import subprocess
import tempfile
import time

import ends
import kept
from kept import PAUSE, alone, drained, gaps, has_gone_round, looked, numbered, queue_up, quiet, resets_of, until
from outstations import CONFIRMATION, Operator, command

SECTOR, BLOCK = 512, 4096
# The last lines may not be synced, and what is left of them is no damage.
TAIL = 300
SHORT = {"answer_ms": 250, "retries": 1}


class Life:
    """A run that was killed: with reports that were taken, reports that wait, a command that was operated, and one on the line."""

    def __init__(self, program, folder, lives=1, turns=0):
        self.folder = folder
        self.gateway = quiet(program, folder, **SHORT)
        self.field = self.gateway.field
        self.field.pause = PAUSE
        self.heard, self.wrong = set(), []
        self.turns = turns
        for _ in range(lives):
            self.live()

    def live(self):
        gateway, field = self.gateway, self.field
        gateway.start()
        gateway.waits("listening")
        has_gone_round(gateway, 1)
        number = 100 + len(field.commands)
        operator = Operator(gateway.listener)
        for station in field.stations.values():
            station.report(2)
        operator.waits(lambda: self.has_all(operator))
        operator.centre.command(command(1, number))
        operator.waits(lambda: (1, number) in operator.answers(CONFIRMATION))
        operator.centre.stream.close()
        # Polls that bring nothing make the log longer.
        has_gone_round(gateway, self.turns)
        queue_up(gateway, 6)
        operator = Operator(gateway.listener, acknowledges=False)
        field.mute_at_command = True
        operator.centre.command(command(2, number + 1))
        until(lambda: (2, number + 1) in field.commands)
        operator.hears(0.05)
        gateway.kill()
        operator.centre.stream.close()
        time.sleep(0.05)
        field.mute_at_command = False
        field.silent.clear()

    def has_all(self, operator):
        """Notes what came, and says whether that is all that the stations have."""
        made = {(a, n) for a, s in self.field.stations.items() for n in range(1, s.made + 1)}
        self.wrong += [asdu.hex() for asdu in operator.asdus if asdu[0] == 1 and ((asdu[4], int.from_bytes(asdu[6:9], "little")) not in made or asdu[9] != 1)]
        self.heard |= set(operator.reports())
        return {(a, s.made) for a, s in self.field.stations.items()} <= self.heard

    def newest(self):
        """The file of the state that was written last."""
        files = [os.path.join(self.gateway.state, name) for name in ("segments", "segments-wal")]
        return max(filter(os.path.exists, files), key=number_of)

    def goes_on(self):
        """Starts it again, lets new reports come, and answers what is wrong, and what the start says of the state."""
        gateway, field = self.gateway, self.field
        gateway.start()
        if not gateway.waits("listening"):
            return [f"it doesn't start: {gateway.kill()}"], "no start"
        for station in field.stations.values():
            station.report(2)
        operator = Operator(gateway.listener)
        operator.waits(lambda: self.has_all(operator), 8)
        has_gone_round(gateway, 2)
        operator.hears(0.05)
        self.has_all(operator)
        told = gateway.kill()
        operator.centre.stream.close()
        faults = []
        for address, station in field.stations.items():
            lost = [n for n in range(1, station.given + 1) if (address, n) not in self.heard]
            if station.given < station.made:
                faults.append(f"station {address} is dead: {station.given} of {station.made} reports")
            if lost and address not in gaps(told) and "put aside" not in told:
                faults.append(f"station {address} lost {lost} without a gap")
            if len(set(station.accepted)) < len(station.accepted):
                faults.append(f"station {address} operated twice: {station.accepted}")
        if self.wrong:
            faults.append(f"reports that no station gave: {self.wrong}")
        says = [text for text in ("put aside", "stale", "begins anew", "resumed") if text in told]
        field.server.close()
        return faults, says[0] if says else told


def number_of(path):
    """The number of the log in a file of the state."""
    with open(path, "rb") as file:
        found = re.search(rb"segment ([0-9a-f]{16})", file.read(200))
    return int(found[1], 16) if found else 0


def used(path):
    """The octets of a file up to the zeros at its end."""
    with open(path, "rb") as file:
        return file.read().rstrip(b"\0")


def write_at(path, place, octets):
    with open(path, "r+b") as file:
        file.seek(place)
        file.write(octets)


def turn_a_bit(life, chance, part):
    """One bit of an octet, in this tenth of what is used."""
    path = life.newest()
    octets = used(path)
    place = int((len(octets) - TAIL) * (part + chance.random()) / 10)
    write_at(path, place, bytes([octets[place] ^ 1 << chance.randrange(8)]))
    return f"bit of octet {place} of {len(octets)}"


def zero_a_sector(life, chance, part):
    path = life.newest()
    size = len(used(path)) - TAIL
    sectors = size // SECTOR
    place = min(sectors - 1, int(sectors * (part + chance.random()) / 10)) * SECTOR
    write_at(path, place, bytes(SECTOR))
    return f"sector at {place} of {size + TAIL}"


def zero_the_beginning(life, chance, part):
    """The first sector, or the first block, of a file of the state."""
    path = life.newest()
    size = chance.choice([SECTOR, 8 * SECTOR])
    write_at(path, 0, bytes(size))
    return f"the first {size} octets"


def cut_short(life, chance, part):
    path = life.newest()
    size = len(used(path)) - TAIL
    place = int(size * (part + chance.random()) / 10)
    os.truncate(path, place)
    return f"file ends at {place} of {size + TAIL}"


def cut_to_used(life, chance, part):
    """The file ends behind its last line: it is shorter than what was kept free for it."""
    path = life.newest()
    os.truncate(path, len(used(path)))
    return "file ends behind its last line"


def cut_to_blocks(life, chance, part):
    """What stands behind the checkpoint ends with a whole block, amid lines."""
    path = life.newest()
    begins = kept.head_of(path)[1]
    blocks = (len(used(path)) - TAIL - begins) // BLOCK
    place = begins + BLOCK * (1 + blocks * part // 10)
    os.truncate(path, place)
    return f"file ends at {place}, {place - begins} behind the checkpoint"


def cut_by_block(life, chance, part):
    """The last block of zeros behind the lines is gone."""
    path = life.newest()
    os.truncate(path, os.path.getsize(path) - BLOCK)
    return "file is a block shorter"


def emptied(count, program, lives, left):
    """Of the newest file, or of the only one that was written, nothing is left but such octets."""
    with tempfile.TemporaryDirectory() as folder:
        life = Life(program, folder, lives=lives)
        path = life.newest()
        with open(path, "wb") as file:
            file.write(left)
        lines, _, _ = looked(life.gateway, life.gateway.state)
        faults, says = life.goes_on()
        if lives > 1:
            count.judge("a look at it tells that", lines[0] == "state is stale: each link is reset", lines)
            count.judge("nothing is lost without a gap", not faults and says == "stale", (faults, says))
        else:
            count.compare("the log says that nothing was found", says, "begins anew")


def first_of_an_older_version(count, program):
    """A first log of an older version has number 1, no seals, and an empty file beside it: it goes on."""
    with tempfile.TemporaryDirectory() as folder:
        life = Life(program, folder)
        path = life.newest()
        with open(path, "rb") as file:
            octets = file.read()
        end = 87 + int(octets[57:73], 16)
        events = b"".join(line + b"\n" for line in octets[end:].split(b"\0")[0].split(b"\n")[:-1] if not line.startswith(b"!"))
        head = b"telegate state 1 rules 1 segment %016x" % 1 + octets[49:87]
        with open(path, "wb") as file:
            file.write((head + octets[87:end] + events).ljust(len(octets), b"\0"))
        other = ({"segments", "segments-wal"} - {os.path.basename(path)}).pop()
        os.truncate(os.path.join(life.gateway.state, other), 0)
        faults, says = life.goes_on()
        count.judge("an empty file beside it is none that was cut", not faults and says == "resumed", (faults, says))


def exchange(life, chance, part):
    path = life.newest()
    octets = used(path)
    sectors = (len(octets) - TAIL) // SECTOR
    one, other = chance.sample(range(sectors), 2)
    blocks = [octets[n * SECTOR : (n + 1) * SECTOR] for n in (one, other)]
    write_at(path, one * SECTOR, blocks[1])
    write_at(path, other * SECTOR, blocks[0])
    return f"sectors {one} and {other} of {sectors} exchanged"


def damaged(count, program, damage, cases, never="", turns=0):
    """Each case is a run that is killed, a damage, and a start, which never says this."""
    seen, chance = {}, random.Random(count.options.seed)
    for case in range(cases):
        with tempfile.TemporaryDirectory() as folder:
            life = Life(program, folder, lives=1 + case % 2, turns=turns)
            what = damage(life, chance, case * 10 // cases)
            faults, says = life.goes_on()
            seen[says] = seen.get(says, 0) + 1
            count.judge(f"{what}", not faults and says != never, (faults, says))
    print(f"{damage.__name__.replace('_', ' ')}: {seen}", flush=True)


def damaged_and_cut(count, program):
    """The first line of a log is damaged, and the start over that is killed in front of each of its
    first 12 calls that change a file of the state."""
    for call in range(1, 13):
        with tempfile.TemporaryDirectory() as folder:
            life = Life(program, folder, lives=2)
            path = life.newest()
            write_at(path, 10, bytes([used(path)[10] ^ 1]))
            gateway = life.gateway
            usual = gateway.environment
            gateway.environment = {**kept.shadowed(folder), "CUT_AT": str(call)}
            gateway.start()
            until(lambda: gateway.process.poll() is not None)
            gateway.kill()
            gateway.environment = usual
            faults, says = life.goes_on()
            count.judge(f"killed in front of call {call}", not faults and says == "stale", (faults, says))


# How a copy of the directory is kept, and put in its place.
COPIES = {
    "copied and moved back": ("cp -a {state} {copy}", "rm -r {state} && mv {copy} {state}"),
    "out of an archive": ("tar -C {state} -cf {copy} .", "rm -r {state} && mkdir {state} && tar -C {state} -xf {copy}"),
    "out of an archive, over what stands": ("tar -C {state} -cf {copy} .", "tar -C {state} -xf {copy}"),
    "copied file by file": ("cp -a {state} {copy}", "for name in {copy}/*; do cp -a --remove-destination $name {state}; done"),
}


def a_copy(count, program, way, lives):
    """Behind so many more lives a copy takes the directory's place: it is stale by itself, once."""
    keep, put_back = COPIES[way]
    with tempfile.TemporaryDirectory() as folder:
        life = Life(program, folder)
        gateway = life.gateway
        places = {"state": gateway.state, "copy": os.path.join(folder, "copy")}
        subprocess.run(keep.format(**places), shell=True, check=True)
        for _ in range(lives):
            life.live()
        subprocess.run(put_back.format(**places), shell=True, check=True)
        lines, _, _ = looked(gateway, gateway.state)
        count.judge("a look at it tells that", "state is stale: each link is reset" in lines, lines)
        before = len(gateway.said)
        faults, says = life.goes_on()
        count.judge("what came of it", not faults, (faults, says))
        told = gateway.said[before:]
        count.compare("it is stale by itself", says, "stale")
        count.judge("each station's gap is told", gaps(told) == [1, 2], told)
        lines, _, _ = looked(gateway, gateway.state)
        count.judge("and then no longer", lines[0].startswith("state: resumed"), lines)


def no_copy(told):
    """Whether a start says nothing of a copy, or of a state that isn't kept."""
    return not [text for text in ("stale", "put aside", "isn't kept") if text in told]


def killed_often(count, program):
    """Killed 12 times amid a start or a run, at half of them with a power cut: never stale."""
    with tempfile.TemporaryDirectory() as folder:
        gateway = quiet(program, folder, environment=kept.shadowed(folder), **SHORT)
        chance = random.Random(count.options.seed)
        for life in range(12):
            gateway.start()
            if life % 3 == 2:
                gateway.waits("station 2 up")
            time.sleep(0.3 * chance.random())
            gateway.end(chance.choice(["kill", "power"]))
        gateway.start()
        count.judge("it goes on", gateway.waits("resumed", "listening"), gateway.logged())
        gateway.kill()
        count.judge("and was never stale", no_copy(gateway.said), gateway.said)
        gateway.field.server.close()


def first_start_cut(count, program):
    """The power is cut in front of each of the first 30 calls that change a file of the state."""
    for call in range(1, 31):
        with tempfile.TemporaryDirectory() as folder:
            usual = kept.shadowed(folder)
            gateway = quiet(program, folder, environment={**usual, "CUT_AT": str(call)}, **SHORT)
            gateway.start()
            until(lambda: gateway.process.poll() is not None)
            gateway.end("power")
            gateway.environment = usual
            gateway.start()
            is_up = gateway.waits("station 2 up")
            gateway.end("power")
            gateway.start()
            is_on = gateway.waits("resumed", "listening")
            gateway.kill()
            count.judge(f"cut at call {call}", is_up and is_on and no_copy(gateway.said), gateway.said)
            gateway.field.server.close()


# Each call that changes a file of the state fails with ERRNO, or each sync lasts for SLOW ms, from the moment on at which TRIGGER is there.
LIBRARY = r"""
#define _GNU_SOURCE
#include <dlfcn.h>
#include <errno.h>
#include <fcntl.h>
#include <stdarg.h>
#include <stdio.h>
#include <stdlib.h>
#include <string.h>
#include <sys/stat.h>
#include <sys/types.h>
#include <time.h>
#include <unistd.h>

static const char *watched, *trigger, *unseen, *counted;
static int fault, slow;

__attribute__((constructor)) static void begin(void) {
    watched = getenv("WATCHED");
    trigger = getenv("TRIGGER");
    unseen = getenv("UNSEEN");
    counted = getenv("COUNTED");
    fault = getenv("ERRNO") ? atoi(getenv("ERRNO")) : 0;
    slow = getenv("SLOW") ? atoi(getenv("SLOW")) : 0;
}

static int is_watched(const char *path) {
    size_t front = watched ? strlen(watched) : 0;
    return front && !strncmp(path, watched, front) && (!path[front] || path[front] == '/') && !access(trigger, F_OK);
}

static int is_open(int file) {
    char link[64], path[4096];
    snprintf(link, sizeof link, "/proc/self/fd/%d", file);
    ssize_t n = readlink(link, path, sizeof path - 1);
    if (n < 0) return 0;
    path[n] = 0;
    return is_watched(path);
}

#define REAL(type, name, ...) static type (*real)(__VA_ARGS__); if (!real) real = dlsym(RTLD_NEXT, name)
#define FAIL_IF(holds) if (fault && (holds)) { errno = fault; return -1; }

// A disk that fails gives nothing at all; one that is read-only or full can be read.
static int refuses(int flags) { return fault == EIO || fault == EACCES || (flags & (O_WRONLY | O_RDWR | O_CREAT)); }

int open(const char *path, int flags, ...) {
    va_list rest;
    va_start(rest, flags);
    int mode = va_arg(rest, int);
    va_end(rest);
    REAL(int, "open", const char *, int, ...);
    FAIL_IF(refuses(flags) && fault != ENOSPC && is_watched(path));
    return real(path, flags, mode);
}

int open64(const char *path, int flags, ...) {
    va_list rest;
    va_start(rest, flags);
    int mode = va_arg(rest, int);
    va_end(rest);
    return open(path, flags, mode);
}

ssize_t pwrite64(int file, const void *octets, size_t count, off64_t at) {
    REAL(ssize_t, "pwrite64", int, const void *, size_t, off64_t);
    FAIL_IF(is_open(file));
    return real(file, octets, count, at);
}

ssize_t pwrite(int file, const void *octets, size_t count, off_t at) { return pwrite64(file, octets, count, at); }

// How many octets were read of a file of the state stands in the file COUNTED, a line for each time.
static ssize_t seen(int file, ssize_t count) {
    if (!counted || count <= 0 || !is_open(file)) return count;
    int to = open(counted, O_WRONLY | O_CREAT | O_APPEND, 0600);
    if (to >= 0) {
        dprintf(to, "%zd\n", count);
        close(to);
    }
    return count;
}

ssize_t pread64(int file, void *octets, size_t count, off64_t at) {
    REAL(ssize_t, "pread64", int, void *, size_t, off64_t);
    FAIL_IF(fault == EIO && is_open(file));
    return seen(file, real(file, octets, count, at));
}

ssize_t read(int file, void *octets, size_t count) {
    REAL(ssize_t, "read", int, void *, size_t);
    FAIL_IF(fault == EIO && is_open(file));
    return seen(file, real(file, octets, count));
}

// The file UNSEEN alone can't be looked for.
int statx(int at, const char *path, int flags, unsigned mask, struct statx *out) {
    REAL(int, "statx", int, const char *, int, unsigned, struct statx *);
    size_t size = strlen(path), end = unseen ? strlen(unseen) : 0;
    if (end && size > end && !strcmp(path + size - end, unseen) && is_watched(path)) {
        errno = EIO;
        return -1;
    }
    return real(at, path, flags, mask, out);
}

ssize_t pread(int file, void *octets, size_t count, off_t at) { return pread64(file, octets, count, at); }

int ftruncate64(int file, off64_t size) {
    REAL(int, "ftruncate64", int, off64_t);
    FAIL_IF(is_open(file));
    return real(file, size);
}

int ftruncate(int file, off_t size) { return ftruncate64(file, size); }

int rename(const char *from, const char *to) {
    REAL(int, "rename", const char *, const char *);
    FAIL_IF(fault != ENOSPC && is_watched(from));
    return real(from, to);
}

int mkdir(const char *path, mode_t mode) {
    REAL(int, "mkdir", const char *, mode_t);
    FAIL_IF(is_watched(path));
    return real(path, mode);
}

int unlink(const char *path) {
    REAL(int, "unlink", const char *);
    FAIL_IF(fault != ENOSPC && is_watched(path));
    return real(path);
}

static int synced(int file, int (*real)(int)) {
    FAIL_IF(is_open(file));
    if (slow && is_open(file)) nanosleep(&(struct timespec){slow / 1000, slow % 1000 * 1000000L}, NULL);
    return real(file);
}

int fdatasync(int file) {
    REAL(int, "fdatasync", int);
    return synced(file, real);
}

int fsync(int file) {
    REAL(int, "fsync", int);
    return synced(file, real);
}
"""

# What the log calls each of these faults.
FAULTS = {
    "EIO": (errno.EIO, "input or output error"),
    "read-only": (errno.EROFS, "read-only filesystem or storage medium"),
    "no permission": (errno.EACCES, "permission denied"),
    "no space": (errno.ENOSPC, "no storage space"),
}
WITHOUT = "its directory can't be used, the run goes on without it"
UNKEPT = "state: can't be kept there"
# The line with which a run ends has the words of the library.
ENDS_BY = {"EIO": "uncategorized error"}


class Failing:
    """A gateway whose disk can be made to fail at any moment."""

    def __init__(self, program, folder, fault, *, slow=0, flags=(), **more):
        self.trigger = os.path.join(folder, "trigger")
        environment = {
            **os.environ,
            "LD_PRELOAD": ends.library(folder, "failing", LIBRARY),
            "WATCHED": os.path.join(folder, "state"),
            "TRIGGER": self.trigger,
            "ERRNO": str(fault),
            "SLOW": str(slow),
            "RUNTIME_DIRECTORY": os.path.join(folder, "runtime"),
            **more,
        }
        os.mkdir(environment["RUNTIME_DIRECTORY"])
        self.gateway = quiet(program, folder, environment=environment, flags=flags, **SHORT)
        self.field = self.gateway.field
        self.field.pause = PAUSE

    def begin(self):
        self.gateway.start()
        self.gateway.waits("station 1 up", "station 2 up")
        queue_up(self.gateway, 2)

    def fail(self):
        with open(self.trigger, "w"):
            pass

    def mend(self):
        os.remove(self.trigger)

    def is_up(self):
        """Whether it polls on."""
        return has_gone_round(self.gateway, 4) and self.gateway.process.poll() is None


def says_why(told, reason):
    """Whether a line names a file or the directory of the state, and this reason."""
    return any(reason.lower() in line.lower() and "state" in line for line in told.splitlines())


def fails_amid_a_run(count, program, name):
    """The disk fails amid a run, and is well again at a later start: what was kept comes, and gaps tell the rest."""
    fault, _reason = FAULTS[name]
    with tempfile.TemporaryDirectory() as folder:
        case = Failing(program, folder, fault)
        gateway, field = case.gateway, case.field
        case.begin()
        case.fail()
        count.judge(f"{name}: it goes on", case.is_up(), (gateway.process.poll(), gateway.logged()))
        told = gateway.logged()
        count.judge(f"{name}: it says so", "isn't kept" in told, told)
        if gateway.process.poll() is None:
            queue_up(gateway, 2)
        gateway.kill()
        # Nothing could be marked there: a start while it still fails knows of it, and so does one behind that.
        gateway.start()
        count.judge(f"{name}: a start goes on without a state", case.is_up(), gateway.logged())
        told = gateway.kill()
        count.judge(f"{name}: and says so", "the run goes on without it" in told or "isn't kept" in told, told)
        case.mend()
        resets = resets_of(gateway)
        gateway.start()
        is_known = gateway.waits("stale")
        has_gone_round(gateway)
        told = gateway.kill()
        count.judge(f"{name}: the next start knows it", is_known and gaps(told) == [1, 2], told)
        count.compare(f"{name}: each link is reset once", resets_of(gateway), {a: n + 1 for a, n in resets.items()})
        field.server.close()


def fails_at_a_start(count, program, name):
    """The directory can't be used at a start: the run goes on without it, and the next start knows that."""
    fault, reason = FAULTS[name]
    with tempfile.TemporaryDirectory() as folder:
        case = Failing(program, folder, fault)
        gateway = case.gateway
        case.begin()
        gateway.kill()
        case.fail()
        gateway.start()
        count.judge(f"{name} at a start: it goes on", case.is_up(), (gateway.process.poll(), gateway.logged()))
        queue_up(gateway, 2)
        got = drained(gateway, numbered(gateway, 3, 4))
        count.judge(f"{name} at a start: reports come", all(numbers == [3, 4] for numbers in got.values()), got)
        told = gateway.kill()
        # The lock is the first file that is opened.
        is_told = f"{WITHOUT}: lock: {reason}" in told
        count.judge(f"{name} at a start: it says so", is_told and "isn't kept" in told, told)
        case.mend()
        gateway.start()
        is_known = gateway.waits("stale")
        got = drained(gateway, numbered(gateway, 1, 2))
        until(lambda: gaps(gateway.logged()) == [1, 2])
        told = gateway.kill()
        count.judge(f"{name} at a start: the next one knows it", is_known and gaps(told) == [1, 2], told)
        count.judge(f"{name} at a start: what was kept comes", all(numbers[:2] == [1, 2] for numbers in got.values()), got)
        # Where no mark can be made a later start would take the old state for the newest.
        gateway.environment = {**gateway.environment, "RUNTIME_DIRECTORY": ""}
        case.fail()
        gateway.start()
        until(lambda: gateway.process.poll() is not None, 20)
        count.compare(f"{name} at a start: without a second place it ends", gateway.process.poll(), 3)
        told = gateway.kill()
        count.judge(f"{name} at a start: and says why", f"{UNKEPT}: {ENDS_BY.get(name, reason)}" in told, told)
        case.field.server.close()


def says_reason(count, program, name, is_amid):
    """The log names the file or the directory, and the reason."""
    fault, reason = FAULTS[name]
    with tempfile.TemporaryDirectory() as folder:
        case = Failing(program, folder, fault)
        if is_amid:
            case.begin()
            case.fail()
        else:
            os.mkdir(case.gateway.state)
            case.fail()
            case.gateway.start()
        case.is_up()
        told = case.gateway.kill()
        count.judge(f"{name}: it says why", says_why(told, reason), told)
        case.field.server.close()


def stops(count, program, name):
    """With --state-or-stop a run ends with 3, amid a run and at a start."""
    fault, reason = FAULTS[name]
    with tempfile.TemporaryDirectory() as folder:
        case = Failing(program, folder, fault, flags=["--state-or-stop"])
        case.begin()
        case.fail()
        until(lambda: case.gateway.process.poll() is not None, 20)
        count.compare(f"{name}, --state-or-stop: it ends", case.gateway.process.poll(), 3)
        told = case.gateway.kill()
        count.judge(f"{name}, --state-or-stop: it says so", "state can't be kept there" in told, told)
        case.gateway.start()
        until(lambda: case.gateway.process.poll() is not None, 20)
        count.compare(f"{name}, --state-or-stop: a start ends", case.gateway.process.poll(), 3)
        told = case.gateway.kill()
        count.judge(f"{name}, --state-or-stop: it says why", f"{UNKEPT}: {ENDS_BY.get(name, reason)}" in told, told)
        case.field.server.close()


def no_file(count, program, name):
    """A FIFO stands in the place of a file of the state: a start goes on, and a look at it ends."""
    with tempfile.TemporaryDirectory() as folder:
        runtime = os.path.join(folder, "runtime")
        os.mkdir(runtime)
        gateway = quiet(program, folder, environment={**os.environ, "RUNTIME_DIRECTORY": runtime}, **SHORT)
        gateway.field.pause = PAUSE
        os.mkdir(gateway.state)
        os.mkfifo(os.path.join(gateway.state, name))
        try:
            status = looked(gateway, gateway.state)[1]
        except subprocess.TimeoutExpired:
            status = None
        count.judge(f"a FIFO as {name}: a look at it ends", status not in (None, 0), status)
        gateway.start()
        until(lambda: "listening" in gateway.logged() or gateway.process.poll() is not None, 20)
        is_up = "listening" in gateway.logged() and has_gone_round(gateway, 4)
        count.judge(f"a FIFO as {name}: it goes on", is_up and gateway.process.poll() is None, (gateway.process.poll(), gateway.logged()))
        told = gateway.kill()
        count.judge(f"a FIFO as {name}: it says so", f"{WITHOUT}: {name}: unsupported" in told, told)
        gateway.field.server.close()


def no_directory(count, program):
    """A file stands in the place of the directory."""
    with tempfile.TemporaryDirectory() as folder:
        runtime = os.path.join(folder, "runtime")
        os.mkdir(runtime)
        gateway = quiet(program, folder, environment={**os.environ, "RUNTIME_DIRECTORY": runtime}, **SHORT)
        gateway.field.pause = PAUSE
        with open(gateway.state, "w"):
            pass
        gateway.start()
        count.judge("no directory: it goes on", has_gone_round(gateway, 4), gateway.logged())
        told = gateway.kill()
        count.judge("no directory: it says so", f"{WITHOUT}: lock: not a directory" in told, told)
        gateway.field.server.close()


def slow_syncs(count, program):
    """A sync that lasts is told with its time."""
    with tempfile.TemporaryDirectory() as folder:
        case = Failing(program, folder, 0, slow=150)
        case.begin()
        case.fail()
        until(lambda: "sync took" in case.gateway.logged(), 10)
        told = re.search(r"sync took (\d+) ms", case.gateway.logged())
        # On a busy machine it lasts longer than it is held up.
        told = told and int(told[1]) >= 150
        count.judge("a slow sync is told with its time", told, case.gateway.logged())
        queue_up(case.gateway, 1)
        count.judge("and the state is kept", "isn't kept" not in case.gateway.logged(), case.gateway.logged())
        case.gateway.kill()
        case.field.server.close()


def mark_unseen(count, program):
    """A state is marked as stale, and the mark can't be looked for: no start takes it for absent."""
    with tempfile.TemporaryDirectory() as folder:
        case = Failing(program, folder, 0)
        case.begin()
        case.gateway.kill()
        # Where both marks stand, the state is stale.
        with open(os.path.join(case.gateway.state, "stale"), "w"):
            pass
        case.gateway.environment |= {"UNSEEN": "/stale"}
        case.fail()
        case.gateway.start()
        until(lambda: case.gateway.process.poll() is not None or "listening" in case.gateway.logged(), 20)
        has_gone_round(case.gateway, 1)
        told = case.gateway.kill()
        count.judge("a mark that can't be looked for", "state: resumed" not in told or "stale" in told, told)
        count.judge("it is named", f"{WITHOUT}: stale: {FAULTS['EIO'][1]}" in told, told)
        case.field.server.close()


def each_octet_once(count, program):
    """A start reads no octet of its two files twice."""
    with tempfile.TemporaryDirectory() as folder:
        counted = os.path.join(folder, "counted")
        case = Failing(program, folder, 0, COUNTED=counted)
        case.begin()
        case.gateway.kill()
        case.fail()
        case.gateway.start()
        count.judge("it goes on", case.gateway.waits("resumed", "listening"), case.gateway.logged())
        with open(counted) as file:
            octets = sum(map(int, file))
        size = sum(os.path.getsize(os.path.join(case.gateway.state, name)) for name in ("segments", "segments-wal"))
        print(f"a start read {octets} octets of files of {size}", flush=True)
        count.judge("no octet is read twice", 0 < octets <= size + 4096, (octets, size))
        case.gateway.kill()
        case.field.server.close()


def damage_part(name, damage, cases, never="", turns=0):
    return name, lambda count, program, _folder: damaged(count, program, damage, cases, never, turns)


PARTS = [
    damage_part("damaged bits", turn_a_bit, 12),
    damage_part("disk sectors", zero_a_sector, 8),
    damage_part("first sectors", zero_the_beginning, 4, never="resumed"),
    alone("damaged and cut", damaged_and_cut),
    damage_part("short files", cut_short, 8),
    damage_part("shortened behind its last line", cut_to_used, 2),
    damage_part("shortened to whole blocks", cut_to_blocks, 4, never="resumed", turns=80),
    damage_part("shortened by a block", cut_by_block, 2, never="resumed"),
    *(alone(f"emptied in life {lives}, {len(left)} left", emptied, lives, left) for lives in (1, 2, 3) for left in (b"", b"t")),
    alone("first log of an older version", first_of_an_older_version),
    damage_part("sectors exchanged", exchange, 6),
    *(alone(f"{kind} {way}", a_copy, way, lives) for way in COPIES for kind, lives in (("the same,", 0), ("an older one,", 1))),
    alone("killed often", killed_often),
    alone("first start cut", first_start_cut),
    *(alone(f"fails amid a run: {name}", fails_amid_a_run, name) for name in FAULTS),
    # A full disk can be read: checks/state.py has a start on one.
    *(alone(f"fails at a start: {name}", fails_at_a_start, name) for name in FAULTS if name != "no space"),
    *(alone(f"disk reason: {name}, amid a run", says_reason, name, True) for name in FAULTS),
    *(alone(f"start reason: {name}", says_reason, name, False) for name in FAULTS),
    *(alone(f"or stop: {name}", stops, name) for name in ("EIO", "read-only")),
    *(alone(f"FIFO as {name}", no_file, name) for name in ("segments", "origin")),
    alone("no directory", no_directory),
    alone("disk slow", slow_syncs),
    alone("each octet once", each_octet_once),
    alone("mark that can't be looked for", mark_unseen),
]


if __name__ == "__main__":
    kept.play(PARTS, {"--seed": {"type": int, "default": 1}})
