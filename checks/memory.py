#!/usr/bin/env python3
"""Counts the requests for memory of `telegate run` once it runs: there must be none.

    checks/memory.py [--program FILE] [--only NAME]

The run has 32 stations, the largest queue and the largest window. The line loses an answer now and
then and sends noise in its place. The control centre acknowledges, tests, sends commands, goes
without a close, comes again, and sends octets that begin no APDU.

Between the 5th poll and the 3,000th the C library isn't asked for memory once (malloc, calloc,
realloc, aligned_alloc, posix_memalign, mmap, mremap, brk, sbrk). A library in front of the C
library's counts the requests; `cc` makes it in a folder of its own. The run is judged once plain,
and once with `--state`, `--log`, `--status` and somebody who looks at its pages.
"""
import mmap
import os
import socket
import sys
import tempfile

import ends
import frame

STATIONS = 32
FIRST, LAST = 5, 3000

SETTINGS = "[line]\nlink = 1\ncause = 1\nca = 1\nioa = 2\nqueue = 65535\nanswer_ms = 20\n[tcp]\nk = 32767\nw = 1\n" + "".join(
    f"[[station]]\naddress = {n}\nca = {n}\nselect = {'true' if n % 2 == 0 else 'false'}\n" for n in range(1, STATIONS + 1)
)

# Counted at the process: the queue and the session's ring take `Global`, so no test can pass in an
# allocator that counts (docs/DECISIONS.md, "Requests for memory").
# The number of requests stands in the file that REQUESTS names, for another process to read at any moment.
LIBRARY = r"""
#define _GNU_SOURCE
#include <dlfcn.h>
#include <fcntl.h>
#include <stdarg.h>
#include <stddef.h>
#include <stdlib.h>
#include <sys/mman.h>
#include <sys/syscall.h>
#include <sys/types.h>
#include <unistd.h>

static long before, *requests = &before;

__attribute__((constructor)) static void begin(void) {
    const char *name = getenv("REQUESTS");
    int file = name ? open(name, O_RDWR) : -1;
    if (file < 0) return;
    void *place = (void *)syscall(SYS_mmap, NULL, sizeof(long), PROT_READ | PROT_WRITE, MAP_SHARED, file, 0);
    if (place == MAP_FAILED) return;
    *(long *)place = before;
    requests = place;
}

#define COUNTED(type, name, parameters, arguments) \
    type name parameters { \
        static type (*real) parameters; \
        if (!real) real = dlsym(RTLD_NEXT, #name); \
        __atomic_add_fetch(requests, 1, __ATOMIC_SEQ_CST); \
        return real arguments; \
    }

COUNTED(void *, malloc, (size_t size), (size))
COUNTED(void *, realloc, (void *old, size_t size), (old, size))
COUNTED(void *, aligned_alloc, (size_t alignment, size_t size), (alignment, size))
COUNTED(int, posix_memalign, (void **place, size_t alignment, size_t size), (place, alignment, size))
COUNTED(void *, mmap, (void *at, size_t size, int may, int how, int file, off_t from), (at, size, may, how, file, from))
COUNTED(void *, mmap64, (void *at, size_t size, int may, int how, int file, off64_t from), (at, size, may, how, file, from))
COUNTED(int, brk, (void *end), (end))
COUNTED(void *, sbrk, (intptr_t more), (more))

void *mremap(void *old, size_t size, size_t wanted, int how, ...) {
    __atomic_add_fetch(requests, 1, __ATOMIC_SEQ_CST);
    va_list rest;
    va_start(rest, how);
    void *at = va_arg(rest, void *);
    va_end(rest);
    return (void *)syscall(SYS_mremap, old, size, wanted, how, at);
}

// dlsym itself may call calloc, so there is nothing to ask it for.
extern void *__libc_calloc(size_t count, size_t size);
void *calloc(size_t count, size_t size) {
    __atomic_add_fetch(requests, 1, __ATOMIC_SEQ_CST);
    return __libc_calloc(count, size);
}
"""


class Outstations:
    """What the stations answer: reports, ACD, silence and noise by the number of the request."""

    def __init__(self):
        self.requests = 0
        self.polls = 0
        self.commands = 0

    def answer(self, function, address, frame):
        self.requests += 1
        if function in (10, 11):
            self.polls += 1
        if self.requests % 97 == 0:
            return b""
        if self.requests % 101 == 0:
            return bytes.fromhex("68FF0068")
        if function == 9:
            return ends.fixed(0x0B, address)
        if function == 3:
            self.commands += 1
            return b"\xE5"
        if function == 0 or self.requests % 3 == 0:
            return b"\xE5"
        control = 0x28 if self.requests % 5 == 0 else 0x08
        objects = b"".join(bytes([100 + n, 0, n % 2]) for n in range(self.requests % 20 + 1))
        return ends.data(control, address, bytes([1, len(objects) // 3, 3, address]) + objects)


class Visits:
    """What the control centre does at each poll."""

    def __init__(self, run):
        self.run = run
        self.centre = None
        self.frames = 0
        self.connections = 0
        self.begin()

    def begin(self):
        self.centre = self.run.centre()
        self.connections += 1
        self.centre.send(ends.START)

    def at(self, poll):
        if poll in (1000, 1700):
            # Gone without a word for a hundred polls; reports wait.
            self.centre.stream.close()
            self.centre = None
        elif poll in (1100, 1800):
            self.begin()
        elif poll == 2000:
            # A second one takes the place of the first.
            self.begin()
        elif poll == 2400:
            self.centre.send(b"\x69")
        elif poll == 2500:
            self.begin()
        if self.centre is None:
            return
        apdus = self.centre.heard()
        if apdus is None:
            self.centre = None
            return
        self.frames += sum(1 for apdu in apdus if apdu[2] % 2 == 0)
        if poll % 8 == 0:
            self.centre.acknowledge()
        if poll % 100 == 50:
            self.centre.send(ends.TEST)
        if poll % 40 == 20:
            station = poll // 40 % STATIONS + 1
            self.centre.command(bytes([45, 1, 6, 0, station, 0, 200, 0, 0, 0x01 | poll // 40 % 2 * 0x80]))


def count_of(shared):
    return int.from_bytes(shared[:8], sys.byteorder)


class Looks:
    """A visitor of the status pages, now and then."""

    PATHS = ("/", "/status.json", "/metrics", "/status.txt", "/nowhere")

    def __init__(self, port):
        self.port, self.answers = port, []

    def at(self, poll):
        """Asks for a page at each fiftieth poll, and takes the answer some polls later, so that the line goes on meanwhile."""
        if self.port and poll % 50 == 25:
            self.stream = socket.create_connection(("127.0.0.1", self.port), timeout=ends.PATIENCE)
            self.stream.sendall(f"GET {self.PATHS[poll // 50 % 5]} HTTP/1.1\r\n\r\n".encode())
        elif self.port and poll % 50 == 45:
            with self.stream:
                self.answers.append(self.stream.recv(12))


def measured(program, is_whole):
    """The requests at the start and at the end, and what was done between. A whole run keeps a state, logs and shows itself."""
    port = ends.free_port() if is_whole else None
    with tempfile.TemporaryDirectory() as folder, open(os.path.join(folder, "log"), "wb") as log:
        counts = os.path.join(folder, "requests")
        with open(counts, "wb") as file:
            file.write(bytes(8))
        environment = dict(os.environ, LD_PRELOAD=ends.library(folder, "memory", LIBRARY), REQUESTS=counts)
        with open(counts, "rb") as file, mmap.mmap(file.fileno(), 8, prot=mmap.PROT_READ) as shared:
            words = ["--log", "--state", os.path.join(folder, "state"), "--status", f"127.0.0.1:{port}"] if is_whole else []
            with ends.Run(program, SETTINGS, environment, words=words, log=log) as run:
                visits, looks = Visits(run), Looks(port)
                if ends.STARTED not in (visits.centre.heard(ends.PATIENCE) or []):
                    raise RuntimeError("STARTDT act isn't confirmed")
                stations, first = Outstations(), None
                while stations.polls < LAST:
                    asked = run.line.request()
                    before = stations.polls
                    answer = stations.answer(*asked)
                    if first is None and stations.polls == FIRST:
                        first = count_of(shared)
                    if answer:
                        run.line.answer(answer)
                    if stations.polls > before:
                        visits.at(stations.polls)
                        looks.at(stations.polls)
                last = count_of(shared)
                status = run.ended()[0]
        with open(log.name) as file:
            return first, last, stations, visits, looks, status, file.read()


def requests(count, program, is_whole):
    """None comes between the first polls and the last."""
    first, last, stations, visits, looks, status, said = measured(program, is_whole)
    print(
        f"requests for memory: {first} at poll {FIRST}, {last} at poll {LAST}; {stations.requests} requests on the line, "
        f"{stations.commands} commands, {visits.connections} connections, {visits.frames} I frames"
    )
    count.judge("requests are counted", first > 0, first)
    count.judge("none between", last == first, (first, last))
    count.judge("commands went down", stations.commands > 20, stations.commands)
    count.judge("reports went up", visits.frames > 1000, visits.frames)
    count.judge("the line's end ends it", status == 3 and said.endswith("device failed\n"), (status, said[-300:]))
    if is_whole:
        found = [answer[:12] for answer in looks.answers]
        count.judge("pages were looked at", found.count(b"HTTP/1.1 200") > 40 and found.count(b"HTTP/1.1 404") > 8, found)
        count.judge("the state was kept", "isn't kept" not in said, said[-2000:])


if __name__ == "__main__":
    frame.main(
        ("plain run", lambda count, program, _folder: requests(count, program, False)),
        ("disk run with a state, a log and visitors", lambda count, program, _folder: requests(count, program, True)),
    )
