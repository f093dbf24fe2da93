#!/usr/bin/env python3
"""Turns definitions of specs/, one at a time, and tells which turns no law of the crate refuses.

    tools/turns.py [--seed N] [--count N] [--files PATTERN] [--law MODULE ..] [--list] CRATE ..

A definition that mirrors the code may be misread together with it. Then each function is proved, and a law alone can refuse it. So one
definition at a time is turned in a copy of the repository, its function is left as it is, and `rt check` proves the laws alone. A turn is
a small misreading, such as programmers make: a number is one greater, two cases change places, a case is that of the one before, a
bound or a branch is the other one, a condition is left out, a value isn't there, one is left out of a list, a list stands in another order.

    refused     laws or their proofs break, and are named; read them, since a proof may fail by its text alone
    BY EXAMPLE  so, but each law that breaks has that word in its name
    STAYS       no law of the crate breaks
    no turn     what was put in place is no definition

A turn that stays is a hole, unless one of these refuses it: a clause of a public call that says the same in words of its own, a law of a
crate above, or a row of checks/ with a value from the specification. Definitions that say what is promised and not how (those of types)
aren't turned. Nor are those of a state as a checkpoint keeps it, which a law on the way back holds.

`--count` (20) turns are drawn at random for each crate, by `--seed` (today's date). Each definition is turned in one way of a kind at most.
`--files` takes only definitions of files whose name it matches. `--law` names the modules of laws that are to be proved in place of all.
`--list` tries nothing: it shows the turns. A turn takes 12 to 40 s, behind a first check of minutes. The last line is `N refused, M by
example, K stay`.
"""
import argparse
import datetime
import glob
import os
import random
import re
import tempfile

import judging
import prover

# Worked examples, what a checkpoint keeps of a state, and what is only in another place.
PASSED_OVER = re.compile(r"Examples|Lib|Restored|Saved|Borrowed")
SIGNATURE = re.compile(r"(?:unfolding )?(?:abbrev )?(?:pub )?(\S+) : ")
NAMED = r"(?<![\w.]){}(?![\w.])"
OPERAND = r"(\w+|\([^()]*\))"
# What is turned on the right side of a clause: the kind, the pattern, and what stands in its place.
KINDS = [
    ("number", NAMED.format(r"(\d+)"), lambda m: str(int(m[1]) + 1)),
    ("bool", NAMED.format("(true|false)"), lambda m: "false" if m[1] == "true" else "true"),
    ("branches", r"then (.+) else (.+)$", lambda m: f"then {m[2]} else {m[1]}"),
    ("bound", NAMED.format("nat_(lt|le)"), lambda m: "nat_le" if m[1] == "lt" else "nat_lt"),
    ("successor", r"\(suc (\w+)\)", lambda m: m[1]),
    ("negation", NAMED.format("not ") + OPERAND, lambda m: m[1]),
    ("first alone", r"^([^(∷]+?) (?:&&|\|\|) ([^(∷]+)$", lambda m: m[1]),
    ("second alone", r"^([^(∷]+?) (?:&&|\|\|) ([^(∷]+)$", lambda m: m[2]),
    ("none", rf"^Some {OPERAND}$", lambda m: "None"),
    ("left out", rf"^{OPERAND} ∷ (?!\[\])(.+)$", lambda m: m[2]),
    ("order", r"^(.+?) \+\+ (.+)$", lambda m: f"{m[2]} ++ {m[1]}"),
]


def code(line):
    """A line without its comment."""
    return re.split(r"(?:^|\s)--", line)[0]


def clauses_of(lines):
    """For each definition whose value is no type: the lines of each of its clauses, as numbers from 0."""
    found, name, number = {}, None, 0
    while number < len(lines):
        line = code(lines[number])
        following = number + 1
        signature = SIGNATURE.match(line)
        if signature and not re.match(r"(pub )?(data|record) ", line):
            while following < len(lines) and lines[following].startswith(" "):
                line += code(lines[following])
                following += 1
            name = None if re.search(r"Type( \d+)?\s*$", line) else signature[1]
        elif re.match(r"(pub )?(use|data|record) ", line):
            name = None
        elif name and line.strip():
            if not line.startswith(" "):
                found.setdefault(name, []).append([number])
            elif name in found:
                found[name][-1].append(number)
        number = following
    return found


def fits(value, left, other):
    """Whether a value names nothing that its own left side binds and the other one doesn't."""
    word = re.compile(r"[\w'-]+")
    return not set(word.findall(value)) & (set(word.findall(left)) - set(word.findall(other)))


def exchanged(lines, clauses):
    """The turns by which a case is the next one, or the one before it, of those that stand on a line."""
    alone = [clause[0] for clause in clauses if len(clause) == 1 and " = " in code(lines[clause[0]])]
    for one, other in zip(alone, alone[1:]):
        (left, value), (next_left, next_value) = lines[one].split(" = ", 1), lines[other].split(" = ", 1)
        if value != next_value and fits(value, left, next_left):
            yield "as before", {other: f"{next_left} = {value}"}
            if fits(next_value, next_left, left):
                yield "exchanged", {one: f"{left} = {next_value}", other: f"{next_left} = {value}"}


def turns_within(lines, clauses):
    """The turns of one line."""
    for clause in clauses:
        for number in clause:
            left, sign, right = lines[number].partition(" = ") if number == clause[0] else ("", "", lines[number])
            if number == clause[0] and not sign:
                continue
            for kind, pattern, put in KINDS:
                for it in re.finditer(pattern, right):
                    turned = left + sign + right[: it.start()] + put(it) + right[it.end() :]
                    if turned != lines[number]:
                        yield kind, {number: turned}


def turns_of(here, files):
    """All turns of a crate: the file, the definition, the kind, and the lines that are put in place of others."""
    found = []
    for path in sorted(glob.glob(os.path.join(here, "specs", "**", "*.antt"), recursive=True)):
        if PASSED_OVER.search(os.path.basename(path)) or not re.search(files, os.path.basename(path)):
            continue
        with open(path) as text:
            lines = text.read().split("\n")
        for name, clauses in clauses_of(lines).items():
            for kind, changed in [*exchanged(lines, clauses), *turns_within(lines, clauses)]:
                found.append((path, name, kind, changed))
    return found


def drawn(turns, seed, count):
    """So many of the turns, and of each definition one of a kind at most."""
    random.Random(seed).shuffle(turns)
    return list({turn[:3]: turn for turn in reversed(turns)}.values())[::-1][:count]


def modules_of(here):
    """The modules of a crate that have laws, as `rt check --only` names them."""
    source, found = os.path.join(here, "src"), []
    for path in sorted(glob.glob(os.path.join(source, "**", "*.rt"), recursive=True)):
        with open(path) as file:
            if judging.LAW.search(file.read()):
                found.append(os.path.relpath(path, source)[:-3].replace(os.sep, "::"))
    return found


def tried(turn, check):
    """What a check says of the crate with this turn. The file is as before then."""
    path, _, _, changed = turn
    with open(path) as file:
        before = file.read()
    lines = before.split("\n")
    for number, line in changed.items():
        lines[number] = line
    try:
        put(path, "\n".join(lines))
        return check()
    finally:
        put(path, before)


def put(path, text):
    """Writes a file."""
    with open(path, "w") as file:
        file.write(text)


def shown(turn, here):
    """A turn in two lines or three."""
    path, name, kind, changed = turn
    place = f"{os.path.relpath(path, here)}:{min(changed) + 1}"
    return "\n    ".join([f"{place} {name} ({kind})", *(line.strip() for line in changed.values())])


def verdict(turn, here, said):
    """The word of a turn, and the laws that it breaks."""
    file = re.escape(os.path.relpath(turn[0], here))
    if re.search(rf"^(\./)?{file}:\S+ error: ", said.text, re.M):
        return "no turn", []
    laws = sorted(name.split("::")[-1] for name, lines in said.lines.items() if lines != ["proved"])
    if said.status == 0:
        return "STAYS", laws
    return "refused" if not laws or any("example" not in law for law in laws) else "BY EXAMPLE", laws


def of_crate(crate, given, named):
    """Tries turns of a crate and tells of each. Answers the word of each."""
    told = []
    prover.ready(crate, named)
    with tempfile.TemporaryDirectory() as folder:
        room = prover.Room(crate, named, folder)
        laws = given.law or modules_of(room.here)
        for turn in drawn(turns_of(room.here, given.files), given.seed, given.count):
            word, refused = verdict(turn, room.here, tried(turn, lambda: room.check(laws)))
            told.append(word)
            print("\n    > ".join([f"{word} {crate}/{shown(turn, room.here)}", *filter(None, [" ".join(refused)])]), flush=True)
    return told


def main():
    words = argparse.ArgumentParser()
    words.add_argument("--seed", type=int, default=int(datetime.date.today().strftime("%Y%m%d")))
    words.add_argument("--count", type=int, default=20)
    words.add_argument("--files", default="")
    words.add_argument("--law", nargs="*", default=[])
    words.add_argument("--list", action="store_true")
    words.add_argument("crate", nargs="+", metavar="CRATE")
    given = words.parse_args()
    named = prover.libraries()
    told = []
    for crate in given.crate:
        here = os.path.join(prover.TOP, "crates", crate)
        if given.list:
            for turn in drawn(turns_of(here, given.files), given.seed, given.count):
                print(f"{crate}/{shown(turn, here)}")
        else:
            told += of_crate(crate, given, named)
    if not given.list:
        print(f"{told.count('refused')} refused, {told.count('BY EXAMPLE')} by example, {told.count('STAYS')} stay")


if __name__ == "__main__":
    main()
