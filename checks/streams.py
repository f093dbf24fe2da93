#!/usr/bin/env python3
"""Replays traces and audits records that don't fit a block of 128 KB, and judges what comes of
them.

    checks/streams.py [--program FILE] [--only NAME]

- A run of some hundred KB is replayed with a comment in front, of each length from 1 to 80 octets
  and of some around a block's. So each octet of a line is once the first of a block.
- A comment of 400,000 octets stands between two events; lines end the trace or not; a line of a
  later block is wrong. Each time the lines are those of the plain trace, or the fault has the
  line's number and nothing is printed. The same comes by a pipe.
- A trace of 200 MB takes less than 8 MB of memory.
- A library in front of the C library's opens another file the second time that the trace is opened,
  or none, or has a read of it fail. Then what was run of it is printed, and the trace can't be
  read.
- The record of the same run is audited in the same way: moved by each length of a line that was cut
  short; with another line, without one and with one too many in a later block; with a wrong line
  behind one that differs; and cut off anywhere. An audit of 200 MB takes less than 8 MB of memory.
"""
import os
import subprocess
import time

import ends
import frame

CONFIG = "[line]\nlink = 1\ncause = 1\nca = 1\nioa = 2\n[[station]]\naddress = 1\nca = 1\n"
BLOCK = 131_072
# So many TESTFR act, each of which is answered.
TESTS = 15_000
HEAD = "0 O\n"
TRACE = HEAD + "".join(f"{test // 100} R 680443000000\n" for test in range(TESTS))
LINES = "0 > S 1049014A16\n" + "".join(f"{test // 100} > T 680483000000\n" for test in range(TESTS))
# The record of that run: each event, and what goes out on it.
RECORD = [HEAD[:-1], "0 > S 1049014A16"]
for test in range(TESTS):
    RECORD += [f"{test // 100} R 680443000000", f"{test // 100} > T 680483000000"]
# The peak of memory of a trace of this size, in octets.
LONG, MOST = 200_000_000, 8_000_000

LIBRARY = r"""
#define _GNU_SOURCE
#include <dlfcn.h>
#include <errno.h>
#include <fcntl.h>
#include <stdarg.h>
#include <stdlib.h>
#include <string.h>
#include <unistd.h>

static int opened, file = -1;
static long left = -1;

int open(const char *path, int how, ...) {
    static int (*real)(const char *, int, ...);
    if (!real) real = (int (*)(const char *, int, ...))dlsym(RTLD_NEXT, "open");
    va_list rest;
    va_start(rest, how);
    int mode = va_arg(rest, int);
    va_end(rest);
    if (strcmp(path, "long.trace") || ++opened < 2) return real(path, how, mode);
    if (getenv("LEFT")) left = atol(getenv("LEFT"));
    return file = real(getenv("OTHER"), how, mode);
}

ssize_t read(int from, void *octets, size_t size) {
    static ssize_t (*real)(int, void *, size_t);
    if (!real) real = (ssize_t (*)(int, void *, size_t))dlsym(RTLD_NEXT, "read");
    if (from != file || left < 0) return real(from, octets, size);
    if (left == 0) { errno = EIO; return -1; }
    ssize_t got = real(from, octets, size < (size_t)left ? size : (size_t)left);
    left -= got;
    return got;
}
"""


def ran(program, folder, trace, **how):
    """The exit status, what was printed, and what stands on standard error."""
    done = subprocess.run(
        [program, "replay", "config.toml", trace], cwd=folder, stdout=subprocess.PIPE, stderr=subprocess.PIPE, timeout=120, **how
    )
    return done.returncode, done.stdout.decode(), frame.bare(done.stderr.decode())


def texts():
    """A name, a trace, and what is wanted of it."""
    for size in [*range(1, 81), *range(BLOCK - 40, BLOCK + 8), 2 * BLOCK - 1, 2 * BLOCK]:
        yield f"a comment of {size} octets", "#" * size + "\n" + TRACE, (0, LINES, "")
    yield "no line feed at the end", TRACE[:-1], (0, LINES, "")
    yield "empty lines at the end", TRACE + "\n" * BLOCK, (0, LINES, "")
    long = HEAD + "#" + "-" * 400_000 + "\n" + TRACE[len(HEAD) :]
    yield "a long comment between two events", long, (0, LINES, "")
    yield "a comment that nothing ends", TRACE + "#" + "-" * 400_000, (0, LINES, "")
    yield "nothing", "", (0, "0 > S 1049014A16\n", "")
    yield "line feeds alone", "\n" * (3 * BLOCK), (0, "0 > S 1049014A16\n", "")
    for line in (1, 2, TESTS // 2, TESTS, TESTS + 1):
        lines = TRACE.splitlines()
        lines[line - 1] = "x" + lines[line - 1]
        yield f"line {line} is wrong", "\n".join(lines) + "\n", (1, "", f"trace: line {line}\n")
    yield "the last line is wrong", TRACE + "1 R 6", (1, "", f"trace: line {TESTS + 2}\n")
    yield "a long line is wrong", TRACE + "1 R " + "6" * (3 * BLOCK), (1, "", f"trace: line {TESTS + 2}\n")


def audited(program, folder, record, **how):
    """The exit status, what was printed, and what stands on standard error."""
    done = subprocess.run(
        [program, "audit", "config.toml", record], cwd=folder, stdout=subprocess.PIPE, stderr=subprocess.PIPE, timeout=120, **how
    )
    return done.returncode, done.stdout.decode(), frame.bare(done.stderr.decode())


def records():
    """A name, a record, and what is wanted of it."""
    same = (0, f"same, {TESTS + 1} events, {TESTS + 1} actions\n", "")
    whole = "\n".join(RECORD) + "\n"
    yield "the record", whole, same
    for size in [*range(1, 81), *range(BLOCK - 40, BLOCK + 8), 2 * BLOCK]:
        yield f"a cut line of {size} octets", "-" * (size - 1) + "!\n" + whole, same
    yield "a long cut line in mid-record", "\n".join([*RECORD[:4], "-" * 400_000 + "!", *RECORD[4:]]) + "\n", same
    yield "no line feed at the end", whole[:-1], (0, f"same, {TESTS + 1} events, {TESTS} actions\n", "")
    yield "what nothing ends", whole + "6" * 400_000, same
    yield "nothing", "", (0, "same, 0 events, 0 actions\n", "")
    # Lines counted from 0: an event, and an action.
    for line in (2 * TESTS // 3 // 2 * 2, 2 * TESTS // 3 // 2 * 2 + 1, 2 * TESTS, 2 * TESTS + 1):
        differs = (1, f"line {line + 1} differs\n", "")
        without = RECORD[:line] + RECORD[line + 1 :]
        yield f"line {line} is missing", "\n".join(without) + "\n", (
            differs if line < 2 * TESTS + 1 else (0, f"same, {TESTS + 1} events, {TESTS} actions\n", "")
        )
        # Another event is one of the run; what goes out on it isn't what stands behind it.
        other = RECORD[line].replace("43", "83") if line % 2 == 0 else "7 > T 680483000000"
        yield f"line {line} is another", "\n".join([*RECORD[:line], other, *RECORD[line + 1 :]]) + "\n", (
            differs if line % 2 else (1, f"line {line + 2} differs\n", "")
        )
        more = [*RECORD[: line + 1], "7 > T 680483000000", *RECORD[line + 1 :]]
        yield f"one too many behind line {line}", "\n".join(more) + "\n", (1, f"line {line + 2} differs\n", "")
        many = [*RECORD[: line + 1], *["7 > T 680483000000"] * 20_000, *RECORD[line + 1 :]]
        yield f"many too many behind line {line}", "\n".join(many) + "\n", (1, f"line {line + 2} differs\n", "")
        wrong = [*RECORD[:5], "7 > T 680483000000", *RECORD[5:line], "x", *RECORD[line:]]
        yield f"line {line} is wrong, and one before it differs", "\n".join(wrong) + "\n", (1, "", f"record: line {line + 2}\n")
        comment = [*RECORD[:line], "# a comment", *RECORD[line:]]
        yield f"a comment before line {line}", "\n".join(comment) + "\n", differs
        hole = [*RECORD[:line], "# left out: 2 lines", *RECORD[line + 2 :]]
        told = f"line {line + 1}: lines are left out here; those before it are the same\n"
        yield f"a hole before line {line}", "\n".join(hole) + "\n", (1, told, "")
    for many in (1, BLOCK):
        unfit = f"record: lines 1 to {many} are no state under these settings\n"
        yield f"{many} lines that are no state", "# state: 7\n" * many + whole, (1, "", unfit)
    yield "a state behind a line", "0 W 7\n# state: 7\n" + whole, (1, "line 2 differs\n", "")
    for end in (len(whole) // 2, BLOCK, 2 * BLOCK + 1):
        lines = whole[:end].count("\n")
        yield f"the first {end} octets", whole[:end], (0, f"same, {(lines + 1) // 2} events, {lines // 2} actions\n", "")


def written(folder, name, trace):
    with open(os.path.join(folder, name), "w") as file:
        file.write(trace)


def changed(program, folder, library):
    """A name, what came, and what is wanted, if the trace is another one the second time."""
    written(folder, "long.trace", TRACE)
    cannot = "cannot read long.trace\n"
    other = HEAD + "5 R 680443000000\n"
    written(folder, "other.trace", other)
    written(folder, "wrong.trace", TRACE + "x\n")

    def come(name, **more):
        return ran(program, folder, "long.trace", env=dict(os.environ, LD_PRELOAD=library, OTHER=name, **more))

    yield "the same again", come("long.trace"), (0, LINES, "")
    yield "another trace", come("other.trace"), (0, "0 > S 1049014A16\n5 > T 680483000000\n", "")
    yield "no trace any more", come("nowhere.trace"), (3, "", frame.unread("long.trace"))
    for name, more in (("wrong.trace", {}), ("long.trace", {"LEFT": "0"}), ("long.trace", {"LEFT": str(len(TRACE) // 2)})):
        status, lines, told = come(name, **more)
        least = len(LINES) // 3 if more.get("LEFT") != "0" else 0
        is_begun = LINES.startswith(lines) and least <= len(lines) < len(LINES) + 1
        yield f"{name}, {more}", (status, is_begun, told), (3, True, cannot)


def peak_of_audit(program, folder):
    """The peak of memory of the audit of a long record, in octets, and what it prints."""
    lines = [HEAD, "0 > S 1049014A16\n"]
    several = f"1 R {'680443000000' * 80}\n" + "1 > T 680483000000\n" * 80
    count = LONG // len(several)
    with open(os.path.join(folder, "huge.record"), "w") as file:
        file.writelines(lines)
        for _ in range(count):
            file.write(several)
    most = 0
    with subprocess.Popen([program, "audit", "config.toml", "huge.record"], cwd=folder, stdout=subprocess.PIPE) as process:
        # It prints at its end alone, and what wait4 tells begins with the memory of this process.
        while process.poll() is None:
            with open(f"/proc/{process.pid}/status") as status:
                most = max([most, *(int(line.split()[1]) * 1024 for line in status if line.startswith("VmHWM:"))])
            time.sleep(0.02)
        printed = process.stdout.read().decode()
    os.unlink(os.path.join(folder, "huge.record"))
    return most, printed == f"same, {count + 1} events, {80 * count + 1} actions\n"


def peak(program, folder):
    """The peak of memory of a long trace, in octets, and how it ends."""
    with open(os.path.join(folder, "huge.trace"), "w") as file:
        file.write(HEAD)
        line = "1 R " + "680443000000" * 80 + "\n"
        for _ in range(LONG // len(line)):
            file.write(line)
    most = 0
    with subprocess.Popen([program, "replay", "config.toml", "huge.trace"], cwd=folder, stdout=subprocess.PIPE) as process:
        # Each time that it prints; what wait4 tells begins with the memory of this process.
        while process.stdout.read(1 << 20):
            with open(f"/proc/{process.pid}/status") as status:
                most = max([most, *(int(line.split()[1]) * 1024 for line in status if line.startswith("VmHWM:"))])
    os.unlink(os.path.join(folder, "huge.trace"))
    return most, process.returncode


def judge(count, name, came, wanted):
    count.judge(name, came == wanted, f"{str(came)[:300]}, not {str(wanted)[:300]}")


def traces(count, program, folder):
    written(folder, "config.toml", CONFIG)
    for name, trace, wanted in texts():
        written(folder, "one.trace", trace)
        judge(count, name, ran(program, folder, "one.trace"), wanted)
        if "wrong" in name or "comment of 7" in name:
            judge(count, f"{name}, by a pipe", ran(program, folder, "/dev/stdin", input=trace.encode()), wanted)


def changes(count, program, folder):
    written(folder, "config.toml", CONFIG)
    for name, came, wanted in changed(program, folder, ends.library(folder, "changes", LIBRARY)):
        judge(count, name, came, wanted)


def audits(count, program, folder):
    written(folder, "config.toml", CONFIG)
    for name, record, wanted in records():
        written(folder, "one.record", record)
        judge(count, f"audit: {name}", audited(program, folder, "one.record"), wanted)
        if "many" in name or "cut line of 7" in name:
            judge(count, f"audit: {name}, by a pipe", audited(program, folder, "/dev/stdin", input=record.encode()), wanted)


def memory(count, program, folder):
    written(folder, "config.toml", CONFIG)
    octets, is_same = peak_of_audit(program, folder)
    judge(count, f"a record of {LONG} octets takes {octets}", (octets <= MOST, is_same), (True, True))
    octets, status = peak(program, folder)
    judge(count, f"a trace of {LONG} octets takes {octets}", (octets <= MOST, status), (True, 0))


if __name__ == "__main__":
    frame.main(traces, changes, audits, memory)
