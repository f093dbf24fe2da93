"""Has the prover judge texts that differ from a crate's own, over the libraries that are built."""
import contextlib
import os
import re
import shutil
import subprocess
import tempfile
import threading

import tables

TOP = tables.TOP
KIT = os.path.dirname(os.path.dirname(os.path.realpath(shutil.which("rt") or "/opt/rattle/bin/rt")))
# The longest that one check may take, in seconds.
LIMIT = 1800
# What the prover says of functions, one line or several for each.
FUNCTION = re.compile(r"^fn (?:\w+::)(\S+): (.*)$", re.M)


def libraries():
    """The libraries that each crate names, by crates.txt."""
    named = {}
    with open(os.path.join(TOP, "crates.txt"), encoding="utf-8") as file:
        for line in file:
            head, colon, tail = line.partition("#")[0].partition(":")
            if colon:
                named[head.split()[0]] = tail.split()
    return named


def below(crate, named):
    """The crate and all crates of the repository that it stands on."""
    found = [crate]
    for it in found:
        found += [name for name in named[it] if name in named and name not in found]
    return found


def library(crate):
    """Where the built library of a crate stands."""
    return os.path.join(TOP, "crates", crate, "out", "rlib", f"{crate}.rlib")


def root(here):
    """The first file of a crate: of a program or of a library."""
    is_program = os.path.isfile(os.path.join(here, "src", "main.rt"))
    return "src/main.rt" if is_program else "src/lib.rt"


class Said:
    """What a check said."""

    def __init__(self, text, status):
        self.text, self.status = text, status
        self.lines = {}
        for name, line in FUNCTION.findall(text):
            self.lines.setdefault(name, []).append(line)

    def of(self, wanted):
        """The lines of the function whose path ends so."""
        names = [name for name in self.lines if f"::{name}".endswith(f"::{wanted}")]
        return [line for name in names for line in self.lines[name]]

    def reached(self):
        """Whether the check came as far as the proofs, and ended there."""
        return self.status in (0, 1) and bool(self.lines)


# The checks that run now. Once they are to stop, none begins.
RUNNING, STOPPED = set(), threading.Event()


def started(words, here, out):
    """Begins a check, unless all are to stop."""
    if STOPPED.is_set():
        raise SystemExit("edits: stopped")
    how = {"stdin": subprocess.DEVNULL, "stdout": out, "stderr": subprocess.STDOUT}
    process = subprocess.Popen(words, cwd=here, **how)
    RUNNING.add(process)
    return process


def stop():
    """Ends all checks."""
    STOPPED.set()
    for process in list(RUNNING):
        process.kill()


class Room:
    """A copy of a crate's text, and of those below it that are turned too. It keeps what its checks
    prove."""

    def __init__(self, crate, named, folder, turned=()):
        self.crate, self.named, self.seconds = crate, named, 0.0
        self.folder = tempfile.mkdtemp(prefix=f"{crate}-", dir=folder)
        self.here = os.path.join(self.folder, crate)
        ours = below(crate, named)
        # What stands over a turned crate is read as source, too: its library is over the other.
        self.sources = [name for name in ours[1:] if set(below(name, named)) & set(turned)]
        for name in [crate, *self.sources]:
            for part in tables.PARTS:
                whole = os.path.join(TOP, "crates", name, part)
                if os.path.isdir(whole):
                    shutil.copytree(whole, os.path.join(self.folder, name, part))
        self.seed, self.holes = os.path.join(self.folder, "seed"), []
        os.mkdir(self.seed)
        for name in [*self.sources, crate]:
            kept = os.path.join(TOP, "crates", name, "out", "incremental")
            if os.path.isdir(kept):
                shutil.copytree(kept, self.seed, copy_function=linked, dirs_exist_ok=True)

    def given(self):
        """The prover's words for the libraries of the crate, and for those of its sources."""
        readers, ours = [self.crate, *self.sources], below(self.crate, self.named)[1:]
        named = {name for reader in readers for name in self.named[reader]} | {"std"}
        words = ["-L", f"dependency={KIT}/rlibs"]
        for name in sorted(named - set(self.sources)):
            built = library(name) if name in ours else f"{KIT}/rlibs/{name}.rlib"
            words += ["--extern", f"{name}={built}"]
        for name in ours:
            if name in self.sources:
                uses = ",".join(["std", *self.named[name]])
                words += ["--lib", f"{name}:{uses}={self.folder}/{name}/src/lib.rt"]
            else:
                words += ["-L", f"dependency={os.path.dirname(library(name))}"]
        return words

    def words(self):
        """The prover's words for a check of the crate."""
        words = [f"{KIT}/bin/rattle", "check", "--crate-name", self.crate, root(self.here)]
        words += [*self.given(), "--antt-project", f"{KIT}/rattle/logic/antt-project.json"]
        words += ["--logic-built", f"{KIT}/logic_built", "--links", f"{self.crate}="]
        words += ["--allow-holes"] if self.holes else []
        return [*words, "--jobs", "1", "--incremental", self.seed]

    def is_new(self):
        """Whether no check has kept work there yet."""
        return not os.listdir(self.seed)

    @contextlib.contextmanager
    def taken(self, functions):
        """Has functions taken by their contracts, with a hole in place of each proof."""
        self.holes = [os.path.join("proofs", *name.split("::")) for name in functions]
        try:
            for hole, name in zip(self.holes, functions):
                self.put_hole(os.path.join(self.here, hole), name)
            yield
        finally:
            for hole in self.holes:
                shutil.rmtree(os.path.join(self.here, hole), ignore_errors=True)
                whole = os.path.join(TOP, "crates", self.crate, hole)
                if os.path.isdir(whole):
                    shutil.copytree(whole, os.path.join(self.here, hole))
            self.holes = []

    def put_hole(self, folder, name):
        """Writes the proof of a function as a hole."""
        shutil.rmtree(folder, ignore_errors=True)
        os.makedirs(folder)
        module, last = name.replace("::", "."), name.split("::")[-1]
        with open(os.path.join(folder, "Proof.antt"), "w", encoding="utf-8") as file:
            file.write(f"use Rattle.{self.crate}.proofs.{module}.Statement as stated\n\n")
            file.write(f"pub {last}_spec : {{M : Type 1}} → stated.statement M\n{last}_spec = ?\n")

    def check(self, only=()):
        """Has the crate checked as it stands, or these functions alone."""
        words = [*self.words(), *(word for name in only for word in ("--only", name))]
        with tempfile.TemporaryFile("w+", errors="replace") as out:
            process = started(words, self.here, out)
            clock = threading.Timer(LIMIT, process.kill)
            clock.start()
            _, status, used = os.wait4(process.pid, 0)
            clock.cancel()
            process.returncode = os.waitstatus_to_exitcode(status)
            RUNNING.discard(process)
            out.seek(0)
            text = out.read()
        self.seconds += used.ru_utime + used.ru_stime
        return Said(text, process.returncode)


def prove(crate):
    """Has a crate proved as it stands, and its library built. That takes a second where it is."""
    here = os.path.join(TOP, "crates", crate)
    words = ["rt", "check" if root(here) == "src/main.rt" else "lib", "--jobs", "1"]
    how = {"stdin": subprocess.DEVNULL, "capture_output": True, "text": True}
    done = subprocess.run(words, cwd=here, **how)
    if done.returncode:
        raise SystemExit(f"edits: {crate} itself isn't proved:\n{done.stdout[-1500:]}")


def ready(crate, named, is_gate=False):
    """Has the crate and what it stands on proved. Behind `rt ci` they are: there libraries have no
    stamp."""
    if not is_gate:
        prove(crate)
        return
    built = {it: library(it) for it in below(crate, named)[:0:-1]}
    stamps = [os.path.join(os.path.dirname(it), "stamp") for it in built.values()]
    if any(map(os.path.isfile, stamps)) or not all(map(os.path.isdir, built.values())):
        for it in built:
            prove(it)


def linked(one, other):
    """Copies a file of kept work, and what was proved by a link: a check replaces such a file, and
    changes none."""
    with contextlib.suppress(OSError):
        os.remove(other)
    with contextlib.suppress(OSError):
        if one.endswith(".oantt"):
            return os.link(one, other)
    return shutil.copy2(one, other)
