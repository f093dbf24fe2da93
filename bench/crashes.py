#!/usr/bin/env python3
"""Cuts the power of `telegate run --state` behind each of its actions, and tells in a table what became of each life behind it.

    bench/crashes.py [--program FILE] [--run NAME] [--actions N] [--every N] [--seed N] [--side N] [--lying]

Nothing in the gate depends on it: checks/state.py has a part of these cuts at random.

A run is ended in front of its first call that changes a file of the state or gives octets to a socket, another one in front of its second
call, and so on (`--actions`, or each `--every`th). What its files have then is what was synced, with a beginning of what was written since:
none of it, all of it, or up to six places between; or each sector of 512 octets old or new, twice. From each of these a run goes on to
quiet, with outstations as they were at the cut. Half of them are cut a second time at a random action, and go on from there.

The runs, each with one station and with three, with `silence = "hold"` and with `"reset"`:

    commands    a control centre that acknowledges now and then, sends commands, and goes and comes
    status      the same, and a station answers a poll by function 14 (link service not functioning) now and then
    full        a queue of six places, which is full most of the time
    pieces      each report has 65 objects, which are two pieces, of which one at a time is acknowledged

A life is wrong where a report is lost, comes out of its order, or comes again though it was known to be acknowledged; where a command was
operated twice or confirmed by no station; where a link sticks, so that reports don't come; and where the log tells of links that are reset,
of a state that can't be read, or of a gap (but of one that an answer 14 makes).

With `--lying` a sync puts nothing on the disk. Then lives have to be wrong, or the judgement is worth nothing.
"""
import collections
import copy
import multiprocessing
import os
import random
import shutil
import sys
import tempfile
import time

sys.path.append(os.path.join(os.path.dirname(os.path.dirname(os.path.abspath(__file__))), "checks"))
import ends
import frame
import kept
import outstations

# Each call that gives octets to a socket counts too. (What the library itself writes goes to files.)
SOCKETS = r"""
static void end_if_it_gives(int file) {
    struct stat found;
    if (left > 0 && !fstat(file, &found) && S_ISSOCK(found.st_mode) && --left == 0) _exit(137);
}

ssize_t write(int file, const void *octets, size_t count) {
    REAL(ssize_t, "write", int, const void *, size_t);
    end_if_it_gives(file);
    return real(file, octets, count);
}

#include <sys/socket.h>

ssize_t send(int file, const void *octets, size_t count, int flags) {
    REAL(ssize_t, "send", int, const void *, size_t, int);
    end_if_it_gives(file);
    return real(file, octets, count, flags);
}

ssize_t sendto(int file, const void *octets, size_t count, int flags, const struct sockaddr *to, socklen_t size) {
    REAL(ssize_t, "sendto", int, const void *, size_t, int, const struct sockaddr *, socklen_t);
    end_if_it_gives(file);
    return real(file, octets, count, flags, to, size);
}
"""

OBJECTS = 65
BUSY = 14

# How long a run may take until it is cut, and until all has come, in seconds.
LONGEST = 60


class Outstation(outstations.Outstation):
    """One that may give reports of many objects, and answer a poll by function 14 now and then."""

    def __init__(self, address, chance, *, objects=1, busy=0.0):
        super().__init__(address, chance)
        self.objects, self.busy = objects, busy

    def report(self, count=1):
        super().report(count * self.objects)

    def answer(self, control, octets):
        is_new = self.bit is not None and control & outstations.FCB != self.bit
        if is_new and control % 16 in (outstations.CLASS1, outstations.CLASS2) and self.chance.random() < self.busy:
            return ends.fixed(BUSY, self.address)
        return super().answer(control, octets)

    def serve(self, function, octets):
        if self.objects == 1 or function == outstations.COMMAND or self.urgent or self.given >= self.made:
            return super().serve(function, octets)
        self.served += 1
        numbers = range(self.given + 1, self.given + self.objects + 1)
        self.given += self.objects
        report = bytes([1, self.objects, outstations.SPONTANEOUS, self.address])
        return ends.data(8, self.address, report + b"".join(number.to_bytes(2, "little") + b"\x01" for number in numbers))


class Visitor(outstations.Visitor):
    """A control centre that knows what another one before it has seen, and takes reports of many objects."""

    def __init__(self, listener, stations, chance, before=None, **more):
        super().__init__(listener, stations, chance, **more)
        self.earlier = len(before[0]) if before else 0
        if before:
            self.connections, self.confirmed, self.sent, self.again, self.sure = copy.deepcopy(before)

    def seen(self):
        return self.connections, self.confirmed, self.sent, self.again, self.sure

    def take(self, octets, heard):
        for at in range(6, 6 + 4 * octets[1], 4) if octets[0] == 1 else [6]:
            super().take(octets[:6] + octets[at : at + 4], heard)


class Field(outstations.Field):
    """Outstations that wait for a control centre before they answer first, and whose line is known to be over."""

    def __init__(self, stations, chance):
        super().__init__([], chance, 0)
        self.stations, self.visitor = stations, None

    def hear(self, line):
        self.is_quiet = False
        # In each world one gateway lives, unless it is cut before it comes to that.
        kept.until(lambda: len(self.visitor.connections) > self.visitor.earlier, 0.3)
        # Slow enough that commands come in between.
        time.sleep(0.004)
        try:
            super().hear(line)
        except (OSError, EOFError):
            self.is_quiet = True
            raise

    def rest(self):
        """All that came is heard."""
        kept.until(lambda: getattr(self, "is_quiet", True))


# By name: the number of places in the queue, the window, and what the outstations and the control centre do.
RUNS = {
    "commands": ({}, {}, {"commands": 0.4, "stays": 0.97}),
    "status": ({}, {"busy": 0.1}, {"commands": 0.1, "stays": 0.97}),
    "full": ({"queue": 6, "k": 2}, {}, {"commands": 0.1, "stays": 0.9}),
    "pieces": ({"k": 1}, {"objects": OBJECTS}, {"commands": 0.1, "stays": 0.97}),
}

Setting = collections.namedtuple("Setting", "program run count silence")


class World:
    """A gateway in a folder of its own, between ends that may be as they were at an earlier cut."""

    def __init__(self, setting, folder, chance, stations=None, seen=None):
        settings, of_stations, of_centre = RUNS[setting.run]
        addresses = list(range(1, setting.count + 1))
        self.chance, self.folder, self.may_gap = chance, folder, "busy" in of_stations
        self.field = Field(stations or {a: Outstation(a, random.Random(chance.random()), **of_stations) for a in addresses}, chance)
        listener = ("127.0.0.1", ends.free_port())
        environment = dict(os.environ, LD_PRELOAD=LIBRARY_AT, WATCHED=os.path.join(folder, "state"), COPY=os.path.join(folder, "copy"))
        self.gateway = kept.Gateway(
            setting.program, folder, self.field, listener, environment=environment, answer_ms=100, silence=setting.silence, retries=10, **settings
        )
        self.usual = environment
        self.visitor = self.field.visitor = Visitor(listener, addresses, random.Random(chance.random()), seen, **of_centre)

    def live(self, actions):
        """A life that is cut in front of this action. Whether it came to that."""
        self.gateway.environment = dict(self.usual, CUT_AT=str(actions))
        self.gateway.start()
        end = time.monotonic() + LONGEST
        while self.gateway.process.poll() is None and time.monotonic() < end:
            station = self.field.stations[self.chance.choice(list(self.field.stations))]
            if station.made < 40 * station.objects:
                station.report(self.chance.choice([0, 1, 2]))
            time.sleep(0.01)
        is_cut = self.gateway.process.poll() == 137
        self.gateway.kill()
        self.rest()
        return is_cut

    def rest(self):
        self.field.rest()
        self.visitor.is_over = True
        self.visitor.join()

    def finish(self):
        """A life to its end; what was wrong."""
        visitor, gateway = self.visitor, self.gateway
        visitor.commands, visitor.stays = 0, 1
        for station in self.field.stations.values():
            station.busy = 0.0
        gateway.environment = self.usual
        gateway.start()
        kept.until(lambda: not any("didn't come" in fault for fault in self.faults()), LONGEST)
        time.sleep(0.1)
        gateway.kill()
        self.rest()
        # Of an answer 14 to a poll a gap is told, without any restart.
        untold = ("put aside", "isn't kept", "each link is reset") + (() if self.may_gap else ("gap",))
        told = [text for text in untold if text in gateway.said]
        return self.faults() + [f"the log tells: {text}" for text in told]

    def faults(self):
        return outstations.faults_of(self.field, self.visitor)

    def close(self):
        self.field.server.close()
        ends.kept.pop().close()


def pieces_since(folder):
    """What was written since the last sync: by file the octets of its notes."""
    copied = os.path.join(folder, "copy")
    found = {}
    for name in sorted(os.listdir(copied)):
        if name.endswith(".since"):
            with open(os.path.join(copied, name), "rb") as file:
                found[name.removesuffix(".since")] = file.read()
    return found


def notes_in(octets):
    """The notes of a file: kind, place and octets of each change."""
    at = 0
    while at + 24 <= len(octets):
        kind, where, size = (int.from_bytes(octets[at + n : at + n + 8], "little") for n in (0, 8, 16))
        at += 24
        piece = octets[at : at + size] if kind != ord("t") else b""
        at += len(piece)
        yield kind, where, piece


def put_back(folder, target, since, choice, chance):
    """A directory that a crash may leave: so many octets of what was written since, or torn sectors."""
    os.makedirs(os.path.join(target, "copy"))
    # Without the note that tells a copy from the files that were written.
    shutil.copytree(os.path.join(folder, "state"), os.path.join(target, "state"), ignore=shutil.ignore_patterns("origin*"))
    left = choice
    for name in os.listdir(os.path.join(target, "state")):
        source, path = os.path.join(folder, "copy", name), os.path.join(target, "state", name)
        if not os.path.exists(source) and name not in since:
            continue
        shutil.copyfile(source, path) if os.path.exists(source) else open(path, "wb").close()
        with open(path, "r+b") as file:
            for kind, where, piece in notes_in(since.get(name, b"")):
                if kind == ord("t"):
                    if choice is None and chance.random() < 0.5 or choice is not None and left > 0:
                        file.truncate(where)
                    continue
                if choice is not None:
                    piece, left = piece[:left], max(left - len(piece), 0)
                    file.seek(where)
                    file.write(piece)
                    continue
                for begin in range(where - where % 512, where + len(piece), 512):
                    first, last = max(begin, where), min(begin + 512, where + len(piece))
                    if chance.random() < 0.5:
                        file.seek(first)
                        file.write(piece[first - where : last - where])
    # All of it is synced from the start.
    for name in os.listdir(os.path.join(target, "state")):
        shutil.copyfile(os.path.join(target, "state", name), os.path.join(target, "copy", name))


def choices(since, chance):
    """How many octets are left of what was written since; None is torn sectors. Amid zeros nothing changes."""
    size, places = 0, []
    for octets in since.values():
        for _, _, piece in notes_in(octets):
            places += range(size, size + len(piece) + 1) if any(piece) else []
            size += len(piece)
    return sorted({0, size, *chance.sample(places, min(6, len(places)))}) + ([None, None] if size else [])


def judged(task):
    """The lives behind one cut: counts, and what was wrong."""
    setting, actions, seed = task
    chance, counts, wrong = random.Random(f"{seed} {setting.run} {setting.count} {setting.silence} {actions}"), collections.Counter(), []
    with tempfile.TemporaryDirectory(ignore_cleanup_errors=True) as room:
        folder = os.path.join(room, "first")
        os.makedirs(os.path.join(folder, "copy"))
        first = World(setting, folder, chance)
        is_cut = first.live(actions)
        first.close()
        if not is_cut:
            return setting, actions, collections.Counter(uncut=1), [f"{setting} isn't cut in front of action {actions}"]
        counts["cuts"] += 1
        since = pieces_since(folder) if os.path.isdir(os.path.join(folder, "state")) else {}
        for number, choice in enumerate(choices(since, chance)):
            counts["points"] += 1
            at = os.path.join(room, str(number))
            if os.path.isdir(os.path.join(folder, "state")):
                put_back(folder, at, since, choice, chance)
            else:
                os.makedirs(os.path.join(at, "copy"))
            stations, seen = copy.deepcopy(first.field.stations), first.visitor.seen()
            if number % 2:
                second = World(setting, at, chance, stations, seen)
                more = chance.randint(1, 60)
                counts["second cuts"] += second.live(more)
                second.close()
                stations, seen = second.field.stations, second.visitor.seen()
                if os.path.isdir(os.path.join(at, "state")):
                    since_then = pieces_since(at)
                    put_back(at, at + "b", since_then, chance.choice(choices(since_then, chance)), chance)
                    at += "b"
            last = World(setting, at, chance, stations, seen)
            faults = last.finish()
            counts["reports"] += sum(station.made // station.objects for station in last.field.stations.values())
            counts["commands"] += sum(len(station.accepted) for station in last.field.stations.values())
            counts["wrong"] += bool(faults)
            wrong += [f"{setting.run}, {setting.count}, {setting.silence}, action {actions}, left {choice}: {fault}" for fault in faults]
            last.close()
    return setting, actions, counts, wrong


def main():
    words = {
        "--actions": {"type": int, "default": 150, "help": "up to which action"},
        "--every": {"type": int, "default": 1, "help": "which of them: each so many"},
        "--run": {"default": "", "help": "this run alone"},
        "--lying": {"action": "store_true", "help": "a sync puts nothing on the disk"},
        "--seed": {"type": int, "default": 1},
        "--side": {"type": int, "default": 12, "help": "how many cuts are tried side by side"},
    }
    frame.main(table, words=words)


def table(count, program, folder):
    global LIBRARY_AT
    given = count.options
    # By a lie a file is on the disk as it was at the end of its life's start.
    lying = "static int synced(int file, int answer) {\n    static int first = 6;\n    if (first-- <= 0) return answer;"
    library = kept.LIBRARY.replace("static int synced(int file, int answer) {", lying) if given.lying else kept.LIBRARY
    LIBRARY_AT = ends.library(folder, "cut", library + SOCKETS)
    settings = [Setting(program, run, n, silence) for run in RUNS for n in (1, 3) for silence in ("hold", "reset") if given.run in run]
    tasks = [(setting, actions, given.seed) for setting in settings for actions in range(1, given.actions + 1, given.every)]
    sums = {setting: collections.Counter() for setting in settings}
    with multiprocessing.get_context("fork").Pool(given.side) as pool:
        for setting, _, counts, wrong in pool.imap_unordered(judged, tasks):
            sums[setting] += counts
            count.case(not wrong, "\n".join(wrong))
    names = ("cuts", "points", "second cuts", "reports", "commands", "wrong")
    print("| run | stations | silence | cuts | crash points | cut twice | reports | commands | wrong |")
    print("|---" * 9 + "|")
    for setting in settings:
        print("| " + " | ".join([setting.run, str(setting.count), setting.silence, *(str(sums[setting][name]) for name in names)]) + " |")
    print("| all | | | " + " | ".join(str(sum(counts[name] for counts in sums.values())) for name in names) + " |", flush=True)


if __name__ == "__main__":
    main()
