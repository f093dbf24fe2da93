#!/usr/bin/env python3
"""Tries must-fail edits, wrong bodies that the prover has to refuse, and tells why it refuses each.

    tools/edits.py [--jobs N] [--log FOLDER] CRATE | CRATE/EDIT ..
    tools/edits.py [--jobs N] [--log FOLDER] --all
    tools/edits.py [--jobs N] [--log FOLDER] [--date YYYY-MM-DD] --gate
    tools/edits.py --texts

The edits of a crate stand in a table, edits/CRATE.toml (CONTRIBUTING.md, "A table of edits"). Edits
of distinct functions are put into one copy of the crate, and one check judges each by what it says
of that edit's function. One that isn't refused there, or that can't be compiled beside the others,
is tried again alone, and then over the whole crate. One that turns a definition is tried alone, by
the laws that were seen to refuse it, or over the whole crate if none was. A word tells why it is
refused:

    values   there are values at which a goal is false, and the prover names them
    goal     a goal of the contract isn't proved, and no values are named (the prover seldom finds
             those that break an equation of lists)
    proof    a proof written by hand no longer fits, and nothing else
    names    a proof names what the edit took away, so the contract wasn't tried
    law      the edit turns a definition together with the body, and a law isn't proved
    PROVED   it isn't refused

`bad edit` says that its text can't be read, and `not tried` that the check came to no end. An edit
may have a harmless twin, a change of the same shape that changes no answer. The twin is tried too,
and is to be proved. An edit that is refused by a proof alone needs one.

The last line is `N passed, M failed`. An edit fails that isn't refused, that is refused for names,
that has a twin which isn't proved, that is refused by a proof alone and has no twin, or that turns
a definition and is refused by no law. How each is refused is noted in the table. First each crate
is proved as it stands, and so are its libraries.

`--all` tries the edits of all crates. `--gate` works behind `rt ci`, over the libraries that it
left. It tries each wrong body that the specification names; a sample of the others, drawn by the
date (`--date` draws that of another day); and of crates that changed since all of their edits were
tried, those that were seen refused. Each name of the specification needs an edit that is refused.
An edit that was never seen refused fails no gate. Of what the specification doesn't name only one
fails of which the table has what refuses it, if that is proved now. The gate ends within a bound, and tells what it
left out. `--texts` tries nothing. It tells each old text that doesn't stand once in its file, and
each wrong body of the specification that has no edit.

`--jobs` is the number of checks side by side, each of 1 to 4 GB. `--log` keeps what each said.
"""
import argparse
import concurrent.futures
import datetime
import os
import random
import shutil
import signal
import sys
import tempfile
import threading

import judging
import prover
import tables
import trying

# What the gate spends at most on edits that the specification doesn't name, and for how much of it
# edits are drawn, in processor seconds.
BOUND, DRAWN = 900, 600
# The most edits that are drawn of a crate.
MOST = 10
# The memory that a check takes, in bytes.
MEMORY = 4_000_000_000


def jobs():
    """How many checks processors and memory allow side by side."""
    with open("/proc/meminfo", encoding="ascii") as file:
        told = dict(line.split(":") for line in file)
    free = int(told["MemAvailable"].split()[0]) * 1024
    return max(1, min(len(os.sched_getaffinity(0)), free // MEMORY))


def wanted_edits(words):
    """The edits that these words name, and the crates that are named whole."""
    found, whole = [], []
    for word in words:
        crate, _, name = word.partition("/")
        edits = tables.read(crate).edits
        if not edits or name and name not in edits:
            sys.exit(f"edits: there is no {word} (edits/{crate}.toml)")
        found += [edits[name]] if name else edits.values()
        whole += [] if name else [crate]
    return list({edit.label: edit for edit in found}.values()), whole


def compared(_given):
    """Tells of each old text that doesn't stand exactly once, and of the specification's names that
    no edit has. Answers how many edits are in place, and how many faults there are."""
    passed, faults, edits = 0, [], []
    for crate in tables.crates():
        for edit in tables.read(crate).edits.values():
            found = tables.misplaced(edit)
            edits.append(edit)
            passed, faults = passed + (not found), faults + found
    faults += tables.missing(edits)
    for fault in faults:
        print(f"FAILED {fault}")
    return passed, len(faults)


def tried(edits, given, tell, may=None):
    """Tries edits, crates side by side, and calls `tell` with each verdict as it comes. The gate
    asks `may` whether there is time for some edits."""
    named, lock, groups = prover.libraries(), threading.Lock(), trying.by_room(edits)
    folder = tempfile.mkdtemp(prefix="edits-")

    def of_room(key):
        crate, far = key
        room = prover.Room(crate, named, folder, far)
        for verdict in trying.Trier(room, given.log, may).tried(groups[key]):
            with lock:
                tell(verdict)
        shutil.rmtree(room.folder, ignore_errors=True)

    try:
        for crate in dict.fromkeys(crate for crate, _ in groups):
            prover.ready(crate, named, given.gate)
        side_by_side(of_room, sorted(groups, key=lambda it: -len(groups[it])), given.jobs or jobs())
    finally:
        shutil.rmtree(folder, ignore_errors=True)


def side_by_side(call, keys, number):
    """Calls it with each key, so many at once. Where one ends badly all checks end."""
    with concurrent.futures.ThreadPoolExecutor(number) as pool:
        try:
            for done in [pool.submit(call, key) for key in keys]:
                done.result()
        except BaseException:
            pool.shutdown(wait=False, cancel_futures=True)
            prover.stop()
            raise


def shown(verdict, mark=""):
    """Prints a line on what a try came to."""
    twin = {None: "", True: "twin proved", False: "TWIN REFUSED"}[verdict.twin]
    told = f"{verdict.seconds:4.0f} s {mark}{verdict.word:7}{twin:13} {verdict.edit.label}"
    print(f"{told}: {verdict.line[:160]}", flush=True)


def noted(verdict):
    """Notes in its table how an edit is refused, if it is as it should be."""
    if verdict.is_good():
        edit = verdict.edit
        edit.seen, edit.tried = verdict.word, datetime.date.today()
        edit.refused_by = verdict.refused_by
        tables.note(edit.crate, [edit], {})


def noted_whole(crate, verdicts):
    """Notes in a crate's table at which text all of its edits were tried, if none that was seen
    refused is let through now."""
    found = [it for it in verdicts if it.edit.crate == crate]
    is_whole = len(found) == len(tables.read(crate).edits)
    if is_whole and all(it.is_good() or not it.edit.seen for it in found):
        each = round(sum(it.seconds for it in found) / len(found))
        tables.note(crate, [], {"text": f'"{tables.text_of(crate)}"', "seconds": each})


def by_hand(given):
    """Tries what the words name, or all. Answers how many are refused as they should be, and how
    many aren't."""
    edits, whole = wanted_edits(tables.crates() if given.all else given.wanted)
    verdicts = []

    def tell(verdict):
        verdicts.append(verdict)
        shown(verdict, "" if verdict.is_good() else "FAILED ")
        noted(verdict)

    tried(edits, given, tell)
    for crate in whole:
        noted_whole(crate, verdicts)
    good = sum(it.is_good() for it in verdicts)
    return good, len(edits) - good


def planned(date):
    """The edits that a gate of this day tries: the specification's, those that are drawn, and those
    of crates that changed."""
    asked, changed, others, each = [], [], {}, {}
    for crate in tables.crates():
        table = tables.read(crate)
        each[crate], has_changed = table.seconds, table.text != tables.text_of(crate)
        for edit in table.edits.values():
            if edit.specification:
                asked.append(edit)
            elif has_changed and edit.seen:
                changed.append(edit)
            elif edit.refused_by or edit.crates() == {crate}:
                others.setdefault(crate, []).append(edit)
    drawn, seconds, draw = [], 0, random.Random(str(date))
    for crate in draw.sample(sorted(others), len(others)):
        count = min(MOST, len(others[crate]), max(0, DRAWN - seconds) // each[crate])
        drawn += draw.sample(others[crate], count)
        seconds += count * each[crate]
    changed.sort(key=lambda it: (it.tried or datetime.date.min, it.label))
    return asked, drawn, changed


def passes(verdict):
    """Whether an edit passes a gate, or None if it counts for neither."""
    if verdict.is_good():
        return True
    if verdict.edit.specification:
        return False if verdict.edit.seen else None
    # What was killed, or can't be read any more, is no wrong body that is let through. Nor need one
    # be of which it isn't known what refuses it: the gate checks no whole crate for it.
    known = verdict.edit.seen and verdict.edit.refused_by
    return False if known and verdict.word == judging.PROVED else None


def unrefused(asked, good):
    """Tells of each wrong body of the specification no edit of which was refused. Answers how many."""
    names = {edit.specification for edit in asked} - {edit.specification for edit in good}
    for name in sorted(names):
        print(f"FAILED specification/{name}: no edit of it was refused", flush=True)
    return len(names)


def gate(given):
    """Tries what a gate of this day tries. Answers how many passed and failed."""
    asked, drawn, changed = planned(given.date)
    told = f"{len(asked)} of the specification, {len(drawn)} drawn by --date {given.date}"
    print(f"edits: {told}, {len(changed)} of changed crates", flush=True)
    counts, spent = {True: 0, False: 0, None: 0, judging.LEFT: 0}, {True: 0.0, False: 0.0}
    good = []

    def may(edits):
        return any(edit.specification for edit in edits) or spent[False] < BOUND

    def tell(verdict):
        if verdict.word == judging.LEFT:
            counts[judging.LEFT] += 1
            return
        is_passed = passes(verdict)
        counts[is_passed] += 1
        good.extend([verdict.edit] if is_passed else [])
        spent[bool(verdict.edit.specification)] += verdict.seconds
        if is_passed is None and verdict.word == judging.PROVED:
            verdict.word = "not refused by its own function"
        shown(verdict, "FAILED " if is_passed is False else "")

    tried([*asked, *drawn, *changed], given, tell, may)
    told = f"{spent[True]:.0f} s for the specification's, {spent[False]:.0f} s for the others"
    left = f"{counts[judging.LEFT]} left out, {counts[None]} that count for nothing"
    print(f"edits: {told}; {left}")
    return counts[True], counts[False] + unrefused(asked, good)


def main():
    how = argparse.RawDescriptionHelpFormatter
    words = argparse.ArgumentParser(description=__doc__, formatter_class=how)
    words.add_argument("--texts", action="store_true")
    words.add_argument("--all", action="store_true")
    words.add_argument("--gate", action="store_true")
    words.add_argument("--date", type=datetime.date.fromisoformat, default=datetime.date.today())
    words.add_argument("--jobs", type=int)
    words.add_argument("--log")
    words.add_argument("wanted", nargs="*", metavar="CRATE | CRATE/EDIT")
    given = words.parse_args()
    if sum(map(bool, (given.texts, given.all, given.gate, given.wanted))) != 1:
        words.error("give one of CRATE.., CRATE/EDIT.., --all, --gate, --texts")
    signal.signal(signal.SIGTERM, lambda *_: sys.exit(1))
    passed, failed = (compared if given.texts else gate if given.gate else by_hand)(given)
    print(f"{passed} passed, {failed} failed")
    return 1 if failed else 0


if __name__ == "__main__":
    sys.exit(main())
