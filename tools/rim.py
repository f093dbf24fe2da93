#!/usr/bin/env python3
"""Lists the bodies of the program's rim that no clause judges.

    tools/rim.py [CRATE ..]

A trait's ghost member says what passed at an end: octets of a socket, calls of a clock, names in a
directory. At the ends of the process itself such a member says nothing (`None`, or `Unit`), since
no clause can say what a real socket, clock or disk does. So any body of that implementation is
proved, and somebody has to read it. The same holds of a function that has no `ensures` and is
handed a handle of the process. Each line has the file, the line, and the bodies' names; the last
line counts them.
"""
import argparse
import os
import re

TOP = os.path.dirname(os.path.dirname(os.path.abspath(__file__)))
# Crates of tests and examples.
TRIED = ("noted_ends", "library_example")
# Members whose nothing is the whole truth: no command waits, nothing is fixed.
TRUE = ("waiting", "Fixed")
BLOCK = re.compile(r"^(impl\b[^{;]*)\{\n(.*?)^\}", re.M | re.S)
SILENT = re.compile(r"^    ghost (\w+) = \{ (?:λ [^.]*\. ?)*(?:None|Unit(?: \{0\})?) \};", re.M)
METHOD = re.compile(r"^    (?:pub(?:\(crate\))? )?fn (\w+)([^;]*?)\{$", re.M)
# A clause of a method, but for those that repeat the trait's at a member that says nothing.
CLAUSE = re.compile(r"ensures(?: \w+)? \{ (?!None ≡|Some There ≡|FitsBuffer|IfOk result \(λ \w+\. Unit)")
FUNCTION = re.compile(r"^(?:    )?(?:pub(?:\(crate\))? )?fn (\w+)([^;]*?)\{$", re.M)
HANDLE = re.compile(r"HostRuntime|\b(?:Net|Files|Clock|Env|Print|Eprint)\b")


def sources(crates):
    """The source files of these crates, or of all."""
    for crate in sorted(os.listdir(f"{TOP}/crates")):
        if crate in TRIED or crates and crate not in crates:
            continue
        for folder, _, files in sorted(os.walk(f"{TOP}/crates/{crate}/src")):
            for file in sorted(files):
                if file.endswith(".rt"):
                    yield f"{folder}/{file}"


def silent_of(text):
    """Of each implementation with a ghost member that says nothing: its place, its head, and its
    methods that have no clause of their own."""
    for block in BLOCK.finditer(text):
        members = [it for it in SILENT.findall(block[2]) if it not in TRUE]
        methods = [name for name, head in METHOD.findall(block[2]) if not CLAUSE.search(head)]
        if members and methods:
            yield block.start(), " ".join(block[1].split()), methods


def handed_of(text):
    """Each function with a handle of the process and no clause: its place and its name. A method of
    a trait has the trait's clauses."""
    of_traits = [block.span() for block in BLOCK.finditer(text) if " for " in block[1]]
    for found in FUNCTION.finditer(text):
        at = found.start()
        if "ensures" in found[2] or not HANDLE.search(found[2]):
            continue
        if not any(begin < at < end for begin, end in of_traits):
            yield at, found[1]


def main():
    words = argparse.ArgumentParser(description=__doc__.split("\n")[0])
    words.add_argument("crates", nargs="*", metavar="CRATE", help="only these crates")
    count = 0
    for path in sources(words.parse_args().crates):
        with open(path, encoding="utf-8") as file:
            text = file.read()
        place = os.path.relpath(path, TOP)
        found = [
            (at, f"{head}: {', '.join(methods)}", len(methods))
            for at, head, methods in silent_of(text)
        ]
        found += [(at, f"fn {name}", 1) for at, name in handed_of(text)]
        for at, what, bodies in sorted(found):
            line = text.count("\n", 0, at) + 1
            print(f"{place}:{line}: {what}")
            count += bodies
    print(f"{count} bodies")


if __name__ == "__main__":
    main()
