#!/usr/bin/env python3
"""Runs `telegate` with each of its requests for memory refused in turn, and judges what it answers.

    checks/refusals.py [--program FILE] [--only NAME]

This is done for `check`, `replay` and `sim` over the examples, and for a simulated command. The Nth
request for memory is refused, for N from 1 until a run makes fewer requests than N. Each run has to
end in one of three ways:

- The exit status is 4, standard error is `no memory`, and standard output is a beginning of what
  the run with ample memory prints.
- All three are those of the run with ample memory.
- For the simulated command alone: they are those of a station that answers it busy, for want of
  memory.

A library in front of the C library's refuses the requests; `cc` makes it in a folder of its own.
The script prints a line for each command, and a line for each run that ended otherwise.
"""
import os
import subprocess

import ends
import frame

# A single command to a station that has one report.
SEND = """turns 12
report 1 2 01010301640001
send 4 2D010600010064000001
"""

# What is printed where the station has no memory for the command: it answers busy (10 01 01 02 16), so at the next call the control
# centre gets the negative confirmation (cause 7 with P/N, octet 47), as its first I frame, which acknowledges the command.
BUSY = b"""1 > S 1049014A16
2 > T 68040B000000
3 > S 1040014116
5 > S 6809096873012D0106016400010E16
6 > S 105B015C16
6 > T 680E000002002D014700010064000001
8 > S 107B017C16
8 > T 680E0200020001010300010064000001
10 > S 105B015C16
11 > S 107B017C16
12 > S 105B015C16
station 1 reports 1 given 1 accepted 0
connection 1 objects 1
"""

COMMANDS = [
    ("check", "one-station/config.toml"),
    ("check", "two-stations/config.toml"),
    ("replay", "one-station/config.toml", "one-station/first.trace"),
    ("replay", "one-station/config.toml", "one-station/first.trace", "--left", "--counts"),
    ("replay", "two-stations/config.toml", "two-stations/turns.trace"),
    ("replay", "two-stations/config.toml", "two-stations/turns.trace", "--left", "--counts"),
    ("replay", "commands/config.toml", "commands/select.trace"),
    ("replay", "commands/config.toml", "commands/select.trace", "--left", "--counts"),
    ("sim", "sim/config.toml", "sim/first.script"),
    ("sim", "sim/config.toml", SEND),
]

# The request whose number is REFUSED gets none. At the end the number of requests goes to the file that REQUESTS names.
LIBRARY = r"""
#define _GNU_SOURCE
#include <dlfcn.h>
#include <errno.h>
#include <stdio.h>
#include <stdlib.h>

static long requests, refused = -1;

static int refuse(void) {
    if (refused < 0) {
        const char *text = getenv("REFUSED");
        refused = text ? atol(text) : 0;
    }
    return ++requests == refused;
}

void *malloc(size_t size) {
    static void *(*real)(size_t);
    if (!real) real = dlsym(RTLD_NEXT, "malloc");
    if (refuse()) { errno = ENOMEM; return NULL; }
    return real(size);
}

void *realloc(void *old, size_t size) {
    static void *(*real)(void *, size_t);
    if (!real) real = dlsym(RTLD_NEXT, "realloc");
    if (refuse()) { errno = ENOMEM; return NULL; }
    return real(old, size);
}

void *aligned_alloc(size_t alignment, size_t size) {
    static void *(*real)(size_t, size_t);
    if (!real) real = dlsym(RTLD_NEXT, "aligned_alloc");
    if (refuse()) { errno = ENOMEM; return NULL; }
    return real(alignment, size);
}

int posix_memalign(void **place, size_t alignment, size_t size) {
    static int (*real)(void **, size_t, size_t);
    if (!real) real = dlsym(RTLD_NEXT, "posix_memalign");
    if (refuse()) return ENOMEM;
    return real(place, alignment, size);
}

__attribute__((destructor)) static void tell(void) {
    long all = requests;
    refused = 0;
    const char *name = getenv("REQUESTS");
    FILE *file = name ? fopen(name, "w") : NULL;
    if (file) { fprintf(file, "%ld", all); fclose(file); }
}
"""


def run(words, library, folder, refused):
    """The exit status, what was printed, and how many requests for memory there were. None is refused at 0."""
    told = os.path.join(folder, "requests")
    if os.path.exists(told):
        os.remove(told)
    with_library = dict(os.environ, LD_PRELOAD=library, REFUSED=str(refused), REQUESTS=told)
    done = subprocess.run(words, capture_output=True, env=with_library, timeout=60)
    if not os.path.exists(told):
        # Killed: it didn't come to its end.
        return done, None
    with open(told) as file:
        return done, int(file.read())


def refuses(words, library, folder, busy):
    """How many requests an ample run makes, how many refusals were answered by `no memory`, how many changed nothing, how many made
    a station busy, and the wrong."""
    ample, requests = run(words, library, folder, 0)
    if ample.returncode != 0 or not requests:
        raise RuntimeError(f"{words}: exit status {ample.returncode}: {ample.stderr}")
    refused, same, as_busy, wrong = 0, 0, 0, []
    number = 1
    while True:
        done, made_then = run(words, library, folder, number)
        if made_then is not None and made_then < number:
            return requests, refused, same, as_busy, wrong
        if (done.returncode, done.stdout, done.stderr) == (ample.returncode, ample.stdout, ample.stderr):
            same += 1
        elif done.returncode == 4 and done.stderr == b"no memory\n" and ample.stdout.startswith(done.stdout):
            refused += 1
        elif busy and (done.returncode, done.stdout, done.stderr) == (0, BUSY, b""):
            as_busy += 1
        else:
            wrong.append((number, done.returncode, done.stdout, done.stderr))
        number += 1


def placed(word, folder):
    """A word of a command: a flag, the name of an example, or the text of a script."""
    if word.startswith("--"):
        return word
    if word.endswith("\n"):
        path = os.path.join(folder, "send.script")
        with open(path, "w") as file:
            file.write(word)
        return path
    return os.path.join(frame.TOP, "examples", word)


def commands(count, program, folder):
    """Each request of each command, refused in turn."""
    print(f"{'requests':>8} {'no memory':>9} {'as ample':>8} {'busy':>5} {'wrong':>5}  command")
    library = ends.library(folder, "refusals", LIBRARY)
    for command in COMMANDS:
        words = [placed(word, folder) for word in command[1:]]
        is_send = SEND in command
        named = " ".join("a command" if word == SEND else word for word in command)
        if not count.wants(named):
            continue
        requests, refused, same, busy, wrong = refuses([program, command[0], *words], library, folder, is_send)
        print(f"{requests:8} {refused:9} {same:8} {busy:5} {len(wrong):5}  {named}", flush=True)
        for number, status, out, err in wrong:
            print(f"    request {number} refused: exit status {status}, {len(out)} octets out, {err!r}")
        # Some refusal makes the station busy: else the case isn't looked at.
        count.add(named, refused + same + busy, len(wrong) + (is_send and busy == 0))


if __name__ == "__main__":
    frame.main(commands)
