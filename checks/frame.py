"""The frame of the scripts that judge the built program: the words that they take, how they count,
and how they end.

A script passes its parts to `main`. Each part is a function of a count, of the program's path and
of a folder of its own. It reports by `count.judge` for each case whether the case holds. Every
script takes these words:

    --program FILE   judges this program, in place of the one that ./build makes
    --only NAME      runs the parts whose name has NAME in it; if no part has, it runs them all and
                     judges the cases whose name has it

A part that ends by an error counts as one more failure, and the parts behind it are run. The last
line is `N passed, M failed`, or `skipped: WHY` if nothing could be judged. The exit status is 0 if
nothing failed and something was judged or skipped. Otherwise it is 1.
"""
import argparse
import errno
import hashlib
import os
import re
import sys
import tempfile
import threading
import traceback

HERE = os.path.dirname(os.path.abspath(__file__))
TOP = os.path.dirname(HERE)
PROGRAM = os.path.join(TOP, "crates", "telegate", "out", "telegate")

# Scripts stand here, those with other programs as peers in peers/, and what measures in bench/.
sys.path += [HERE, os.path.join(TOP, "bench")]
# No script leaves anything in the repository.
sys.dont_write_bytecode = True


class Skipped(Exception):
    """A part can't be judged here, for want of a tool. The text says which."""


class Count:
    """How many cases passed and failed. One that failed is printed at once. Parts may run side by
    side."""

    def __init__(self, options):
        # What the script was called with: its own words too.
        self.options = options
        self.passed = self.failed = 0
        self.only = ""
        self.lock = threading.Lock()

    def wants(self, name):
        """Whether a case of this name has to be judged. A case that costs a run of the program asks
        before."""
        return self.only in name

    def judge(self, name, holds, seen=""):
        """Judges whether the case of this name holds; `seen` is what was seen if it doesn't."""
        if not self.wants(name):
            return
        with self.lock:
            self.passed += bool(holds)
            self.failed += not holds
            if not holds:
                print(f"FAILED {name}: {seen}" if seen != "" else f"FAILED {name}", flush=True)

    def case(self, holds, told):
        """Judges a case that has no name; `told` is what to print if it doesn't hold."""
        self.judge(told, holds)

    def compare(self, name, seen, wanted):
        """The case of this name, in which one value is wanted."""
        self.judge(name, seen == wanted, f"{seen}, and not {wanted}")

    def add(self, name, passed, failed):
        """Adds many cases of one name, which the part has counted and printed itself."""
        if self.wants(name):
            with self.lock:
                self.passed += passed
                self.failed += failed


def reason(what, place, number):
    """The line that says why the system refused something, by the number of its error."""
    return f"error: {what} {place}: {os.strerror(number)} (os error {number})\n"


def bare(said):
    """Standard error without the lines that say where a file is wrong or odd, and why (checks/faults.py has those)."""
    return re.sub(r"^[^:\n]+:\d+:\d+: .*\r?\n", "", said, flags=re.M)


def unread(name, number=errno.ENOENT, what="file"):
    """What is told of a file or a directory that can't be read."""
    return reason(what, name, number) + f"cannot read {name}\n"


def unanswered(what, place, number=errno.ECONNREFUSED):
    """What is told of a place at which nobody answers."""
    return reason(what, place, number) + f"no reply from {place}\n"


def note_origin(program, told, *lines):
    """Writes a record beside a program, as ./build and tools/unproved.py do (tools/origin)."""
    with open(program, "rb") as file:
        lines = [told, *lines, f"sha256 {hashlib.sha256(file.read()).hexdigest()}"]
    with open(f"{program}.{re.match('[a-z]+', told)[0]}", "w", encoding="utf-8") as file:
        file.write("".join(f"{line}\n" for line in lines))


def listed():
    """The scripts of the gate, in their order: by name what each judges. checks/list.txt has them.
    """
    with open(os.path.join(HERE, "list.txt"), encoding="utf-8") as file:
        rows = [line.split(None, 1) for line in file if line.strip() and not line.startswith("#")]
    return {name: told.strip() for name, told in rows}


def name_of(part):
    """A part's name: it may be given one, or has that of its function."""
    return part[0] if isinstance(part, tuple) else part.__name__.replace("_", " ")


def run(part, count, program, skipped):
    """Runs one part in a folder of its own."""
    name, function = name_of(part), part[1] if isinstance(part, tuple) else part
    try:
        # What a killed program still writes is no reason to fail.
        with tempfile.TemporaryDirectory(ignore_cleanup_errors=True) as folder:
            function(count, program, folder)
    except Skipped as why:
        print(f"{name}: skipped: {why}", flush=True)
        skipped.append(str(why))
    except Exception:
        with count.lock:
            count.failed += 1
            print(f"FAILED {name}: {traceback.format_exc()}", flush=True)


def run_all(parts, count, program, side_by_side):
    """Runs the parts that are wanted, and answers why some were skipped."""
    only, skipped = count.options.only, []
    chosen = [part for part in parts if only in name_of(part)]
    if not chosen:
        chosen, count.only = parts, only
    if not side_by_side:
        for part in chosen:
            run(part, count, program, skipped)
        return skipped
    threads = [
        threading.Thread(target=run, args=(part, count, program, skipped)) for part in chosen
    ]
    for thread in threads:
        thread.start()
    for thread in threads:
        thread.join()
    return skipped


def main(*parts, words=None, needs_program=True, side_by_side=False):
    """Runs the parts of the script that calls it, and ends it. `words` are the script's own, as
    argparse takes them."""
    parser = argparse.ArgumentParser(
        description=sys.modules["__main__"].__doc__,
        formatter_class=argparse.RawDescriptionHelpFormatter,
    )
    parser.add_argument("--program", metavar="FILE", help="by default the one that ./build makes")
    parser.add_argument("--only", default="", metavar="NAME", help="parts, or else cases, by name")
    for word, more in (words or {}).items():
        parser.add_argument(word, **more)
    count = Count(parser.parse_args())
    program = os.path.abspath(count.options.program or PROGRAM)
    if needs_program and not os.access(program, os.X_OK):
        count.judge("the program", False, f"{program} can't be run: ./build makes it")
        skipped = []
    else:
        skipped = run_all(parts, count, program, side_by_side)
    if skipped and not count.passed and not count.failed:
        print(f"skipped: {', '.join(skipped)}")
        sys.exit(0)
    if not count.passed and not count.failed:
        count.only = ""
        count.judge("the script", False, "nothing was judged")
    print(f"{count.passed} passed, {count.failed} failed")
    sys.exit(1 if count.failed else 0)
