#!/usr/bin/env python3
"""Runs the tests of the libraries, which stand in tests/ and which no proof reads.

    tools/library_tests.py [--only NAME | --mend]

Each folder of tests/ is a suite. One that tests/suites.txt names is a crate of its own over the
libraries that stand there. Another has the name of a crate, and its files are laid among those of
the crate: `tests/live/port/tests.rs` becomes a module of `port`, and sees what is private there. So
a suite is laid out in a folder of its own, with the sources of all crates that it stands on, and
`rt try --test` compiles it with checks in place of proofs and runs it. No library needs to be built
or proved before. Suites run side by side where memory allows.

`--only NAME` runs the suites whose name has NAME in it, or else all, and counts the tests whose
name has it.

A suite that isn't compiled or doesn't end is a failure, and so is a file that `rt fmt` would lay out
otherwise; `--mend` lays it out and runs nothing. The last line is `N passed, M failed`, and the status is 1 where one failed.
"""
import functools
import glob
import os
import re
import shutil
import subprocess
import sys
import threading

TOP = os.path.dirname(os.path.dirname(os.path.abspath(__file__)))
sys.path.append(os.path.join(TOP, "checks"))
sys.dont_write_bytecode = True
import frame  # noqa: E402

SUITES = os.path.join(TOP, "tests")
# What the compiler, its check of names and the program take at most, in bytes.
MEMORY = 3 << 30
# How long one test may take, in seconds. On a busy machine the longest took more than the 60 of rt.
SECONDS = "600"
TESTED = re.compile(r"^test (\S+) \.\.\. (\w+)\n((?: .*\n)*)", re.M)
ENDED = re.compile(r"^test result: \w+\. (\d+) passed; (\d+) failed", re.M)


def libraries(name):
    """The libraries that each crate of a list names."""
    with open(os.path.join(TOP, name), encoding="utf-8") as file:
        rows = [line.split(":", 1) for line in file if ":" in line.partition("#")[0]]
    return {crate.split()[0]: used.split() for crate, used in rows}


def laid_out(suite, room):
    """Lays a suite out in this folder. Answers the crate's folder, and by its files those of tests/."""
    named, own = libraries("crates.txt"), libraries("tests/suites.txt")
    named.update({suite: own[suite]} if suite in own else {})
    below = [suite]
    for crate in below:
        below += [name for name in named[crate] if name in named and name not in below]
    with open(os.path.join(room, "crates.txt"), "w", encoding="utf-8") as file:
        file.writelines(f"{crate}: {' '.join(named[crate])}\n" for crate in below)
    for crate in below:
        if crate not in own:
            source = os.path.join(TOP, "crates", crate, "src")
            shutil.copytree(source, os.path.join(room, "crates", crate, "src"))
    crate, files = os.path.join(room, "crates", suite), {}
    for path in sorted(glob.glob(os.path.join(SUITES, suite, "**", "*.rs"), recursive=True)):
        inner = os.path.relpath(path, os.path.join(SUITES, suite)).removesuffix(".rs")
        files[os.path.join(crate, "src", inner + ".rt")] = path
        os.makedirs(os.path.dirname(os.path.join(crate, "src", inner)), exist_ok=True)
        shutil.copy(path, os.path.join(crate, "src", inner + ".rt"))
        if suite not in own:
            folder, module = os.path.split(inner)
            with open(os.path.join(crate, "src", (folder or "lib") + ".rt"), "a", encoding="utf-8") as file:
                file.write(f"\n#[cfg(test)]\nmod {module};\n")
    return crate, files


def rt(folder, *words):
    """What rt prints in a folder."""
    how = {"stdin": subprocess.DEVNULL, "stdout": subprocess.PIPE, "stderr": subprocess.STDOUT}
    return subprocess.run(["rt", *words], cwd=folder, text=True, errors="replace", **how).stdout


def judge_tests(count, suite, said):
    """Each test by its line, and behind it what is indented: why it failed."""
    passed = failed = 0
    for name, how, why in TESTED.findall(said):
        passed, failed = passed + (how == "ok"), failed + (how != "ok")
        count.judge(f"{suite}: {name}", how == "ok", why.rstrip())
    ended = ENDED.search(said)
    is_whole = ended is not None and (int(ended[1]), int(ended[2])) == (passed, failed)
    if not is_whole or passed + failed == 0 or not failed and "\nrun=ended status=0 " not in said:
        count.judge(f"{suite}: {count.only}", False, TESTED.sub("", said).strip() or "rt said nothing")


def judge_layout(count, suite, files):
    """Each file is as rt fmt has just laid it out in the copy. With `--mend` it is made so."""
    for laid, path in files.items():
        with open(laid, encoding="utf-8") as new, open(path, encoding="utf-8") as old:
            is_right = new.read() == old.read()
        if count.options.mend:
            shutil.copyfile(laid, path)
            count.judge(f"{suite}: {path}", True)
        elif not is_right:
            told = f"{os.path.relpath(path, TOP)} isn't as rt fmt lays it out: --mend"
            count.judge(f"{suite}: {count.only}", False, told)


def judge(suite, turns, count, _program, room):
    """One suite: each of its tests, and its layout."""
    crate, files = laid_out(suite, room)
    if not count.options.mend:
        with turns:
            judge_tests(count, suite, rt(crate, "try", "--test", "--seconds", SECONDS))
    rt(crate, "fmt")
    judge_layout(count, suite, files)


def side_by_side():
    """How many suites run at a time: as memory allows, two processors each."""
    free = os.sysconf("SC_AVPHYS_PAGES") * os.sysconf("SC_PAGE_SIZE")
    return max(1, min(free // MEMORY, len(os.sched_getaffinity(0)) // 2))


if __name__ == "__main__":
    turns = threading.Semaphore(side_by_side())
    names = sorted(it.name for it in os.scandir(SUITES) if it.is_dir())
    parts = [(name, functools.partial(judge, name, turns)) for name in names]
    mend = {"action": "store_true", "help": "lay the files out as rt fmt does, and run nothing"}
    frame.main(*parts, words={"--mend": mend}, needs_program=False, side_by_side=True)
