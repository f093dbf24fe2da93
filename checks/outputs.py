#!/usr/bin/env python3
"""Runs `telegate` over outputs that fail, at each octet of what it prints, and judges what got out
and what it says then.

    checks/outputs.py [--program FILE] [--only NAME]

Standard output is one of these:

- a file that takes a limited number of octets (RLIMIT_FSIZE: a write that is cut short, then
  EFBIG);
- a device that is full;
- a pipe whose reader is gone (with SIGPIPE ignored);
- an output that takes one octet a write and a limited number of them, with a signal before each one
  or none. A library in front of the C library's does this.

Each time the longest possible beginning of the whole output has to get out. The run ends with
`device failed` and status 3, or well if all of it got out. A fault that can't be printed keeps its
status.
"""
import os
import resource
import signal
import subprocess

import ends
import frame

CONFIG = "[line]\nlink = 1\ncause = 1\nca = 1\nioa = 2\n[[station]]\naddress = 1\nca = 1\n"
TRACE = "10 S 100B010C16\n20 S E5\n30 O\n40 R 680407000000\n50 S 680909680801010103016400017416\n"

# The words, and what they print.
COMMANDS = [
    ("check config.toml", "ok\n"),
    ("show101 1112 E5", "single\n"),
    ("sim config.toml none.script", "station 1 reports 0 given 0 accepted 0\n"),
    (
        "sim config.toml one.script",
        "1 > S 1049014A16\n2 > T 68040B000000\n3 > S 1040014116\n4 > S 107B017C16\n5 > S 105B015C16\n"
        "5 > T 680E0000000001010300010064000001\n7 > S 107B017C16\n8 > S 105B015C16\n"
        "station 1 reports 1 given 1 accepted 0\nconnection 1 objects 1\n",
    ),
    (
        "replay config.toml one.trace --left --counts",
        "0 > S 1049014A16\n10 > S 1040014116\n20 > S 107B017C16\n40 > T 68040B000000\n50 > S 105B015C16\n"
        "50 > T 680E0000000001010300010064000001\nleft 01010300010064000001\ncounts skipped 0 mirrors 0 lost 0 spoilt 0\n",
    ),
]
# A run that prints while it goes on, in some parts: each of so many TESTFR act is answered.
TESTS = 6000
LONG = "0 O\n" + "0 R 680443000000\n" * TESTS
LONG_LINES = "0 > S 1049014A16\n" + "0 > T 680483000000\n" * TESTS
# The same of a simulated run: each of so many calls brings an answer of a station without reports, and the next poll.
CALLS = 6000
POLLS = ("107B017C16", "105B015C16")
SIMULATED_LINES = (
    "1 > S 1049014A16\n2 > T 68040B000000\n3 > S 1040014116\n"
    + "".join(f"{call} > S {POLLS[call % 2]}\n" for call in range(4, CALLS + 1))
    + "station 1 reports 0 given 0 accepted 0\nconnection 1 objects 0\n"
)
FILES = {
    "config.toml": CONFIG,
    "long.trace": LONG,
    "long.script": f"turns {CALLS}\n",
    "wrong.script": f"turns {CALLS}\nlose\n",
    # Its last line is wrong: nothing is printed.
    "wrong.trace": LONG + "0 R 6\n",
    "one.trace": TRACE,
    "none.script": "turns 0\n",
    "one.script": "turns 8\nreport 1 2 01010301640001\n",
    "empty": "",
}

# Standard output takes one octet a write, TAKES of them, then its reader is gone; with SIGNALS a signal comes before each write.
LIBRARY = r"""
#define _GNU_SOURCE
#include <dlfcn.h>
#include <errno.h>
#include <stdlib.h>
#include <unistd.h>
#include <sys/uio.h>

static ssize_t (*real)(int, const void *, size_t);
static long left = -1;
static int signalled;

ssize_t write(int file, const void *octets, size_t size) {
    if (!real) real = (ssize_t (*)(int, const void *, size_t))dlsym(RTLD_NEXT, "write");
    if (file != 1) return real(file, octets, size);
    if (left < 0) left = atol(getenv("TAKES"));
    if (getenv("SIGNALS") && !signalled) { signalled = 1; errno = EINTR; return -1; }
    signalled = 0;
    if (left == 0) { errno = EPIPE; return -1; }
    if (size == 0) return 0;
    left--;
    return real(file, octets, 1);
}

ssize_t writev(int file, const struct iovec *parts, int count) {
    for (int part = 0; part < count; part++)
        if (parts[part].iov_len) return write(file, parts[part].iov_base, parts[part].iov_len);
    return 0;
}
"""


def limited(octets):
    """What a process does before it runs: its files take so many octets."""

    def limit():
        signal.signal(signal.SIGXFSZ, signal.SIG_IGN)
        resource.setrlimit(resource.RLIMIT_FSIZE, (octets, octets))

    return limit


def ran(program, words, folder, out, **how):
    """The exit status, what was printed to a file, and what stands on standard error."""
    with open(os.path.join(folder, "out"), "w+b") as file:
        done = subprocess.run(
            [program, *words.split()], cwd=folder, stdin=subprocess.DEVNULL, stdout=out or file, stderr=subprocess.PIPE, timeout=60, **how
        )
        file.seek(0)
        return done.returncode, file.read().decode(), frame.bare(done.stderr.decode())


def wanted(lines, octets):
    """What has to come of an output that takes so many octets."""
    return (0, lines, "") if octets >= len(lines) else (3, lines[:octets], "device failed\n")


def cases(program, folder, library):
    """A name, what came, and what is wanted."""
    for words, lines in COMMANDS:
        for octets in range(len(lines) + 2):
            came = ran(program, words, folder, None, preexec_fn=limited(octets))
            yield f"{words}, a file of {octets} octets", came, wanted(lines, octets)
            for signals in ({}, {"SIGNALS": "1"}):
                environment = dict(os.environ, LD_PRELOAD=library, TAKES=str(octets), **signals)
                came = ran(program, words, folder, None, env=environment)
                yield f"{words}, {octets} writes of one octet {signals}", came, wanted(lines, octets)
        with open("/dev/full", "wb") as full:
            yield f"{words}, a full device", ran(program, words, folder, full), (3, "", "device failed\n")
        reader, writer = os.pipe()
        os.close(reader)
        came = ran(program, words, folder, writer, preexec_fn=lambda: signal.signal(signal.SIGPIPE, signal.SIG_IGN))
        yield f"{words}, a pipe without a reader", came, (3, "", "device failed\n")
        os.close(writer)
    for words, lines in (("replay config.toml long.trace", LONG_LINES), ("sim config.toml long.script", SIMULATED_LINES)):
        for octets in (0, 1, 1000, 30_000, 60_000, 100_000, len(lines) - 1, len(lines)):
            came = ran(program, words, folder, None, preexec_fn=limited(octets))
            yield f"{words}, a file of {octets} octets", came, wanted(lines, octets)
    wrong = (1, "", f"trace: line {TESTS + 2}\n")
    yield "a trace whose last line is wrong", ran(program, "replay config.toml wrong.trace", folder, None), wrong
    yield "a script whose last line is wrong", ran(program, "sim config.toml wrong.script", folder, None), (1, "", "script: line 2\n")
    # A fault that can't be told keeps its status; the text of wrong words is an output that fails.
    for words, status in (("check empty", 1), ("check nowhere", 3), ("check", 3)):
        with open("/dev/full", "wb") as full:
            done = subprocess.run([program, *words.split()], cwd=folder, stdin=subprocess.DEVNULL, stdout=subprocess.PIPE, stderr=full)
        yield f"{words}, no standard error", (done.returncode, done.stdout), (status, b"")


def outputs(count, program, folder):
    """What got out of each output, and which fault was printed then."""
    for name, text in FILES.items():
        with open(os.path.join(folder, name), "w") as file:
            file.write(text)
    for name, came, want in cases(program, folder, ends.library(folder, "outputs", LIBRARY)):
        count.compare(name, came, want)


if __name__ == "__main__":
    frame.main(outputs)
