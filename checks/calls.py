#!/usr/bin/env python3
"""Compares docs/CALLS.md with the tests that make its calls.

    checks/calls.py [--program FILE] [--only NAME]

The folder tests/libraries/specified has a file for each heading of the page, whose first line names
the crate. The file calls each call of that part, in the order of the page. `tools/library_tests.py`
runs these files. That the sources have each call, with that signature, is for checks/documents.py.
"""
import glob
import os
import re
import sys

import frame

sys.path.append(os.path.join(frame.TOP, "tools"))
import laws

# Where each call of the page is made once.
SPECIFIED = os.path.join(frame.TOP, "tests", "libraries", "specified", "*.rs")


def specified_calls():
    """By crate the text in which its calls are made: that of the file whose first line names the
    crate. What is called stands in tests, so imports, comments and what the file implements don't
    count."""
    texts = {}
    for name in sorted(glob.glob(SPECIFIED)):
        with open(name, encoding="utf-8") as file:
            text = file.read()
        crate = re.match(r"//! [^\n]*the crate `(\w+)`", text)
        if crate:
            text = re.sub(r"^(?:pub )?(?:ghost )?use .*?;", "", laws.without_comments(text), flags=re.M | re.S)
            texts[crate.group(1)] = re.sub(r"\bfn \w+", "", text)
    return texts


def place_behind(name, signature, text, place):
    """Where the next call of that name ends, on a value or by its path. None if there is none."""
    *owner, call = name.split("::")
    takes_self = re.search(r"\(\s*(?:&|&mut |mut )?self\b", signature)
    # A trait's function is called by the type that implements it.
    path = rf"\b{owner[0]}(?:::<[^(]*>)?::" if owner and call == "new" else "::"
    before = r"\." if takes_self else path if owner else r"(?<![\w.:])"
    found = re.compile(rf"{before}{call}\(").search(text, place)
    return found and found.end()


def crates(count, _program, _folder):
    """The calls of each crate, in the order of the page."""
    texts, places = specified_calls(), {}
    rows = list(laws.calls_on(laws.read(laws.CALLS)))
    count.judge("docs/CALLS.md", rows, "it has no call")
    for crate, name, written in rows:
        behind = place_behind(name, written, texts.get(crate, ""), places.get(crate, 0))
        count.judge(f"{crate}: {name}", behind is not None, "tests/libraries/specified doesn't call it, or out of the order of the page")
        places[crate] = behind or places.get(crate, 0)


if __name__ == "__main__":
    frame.main(crates, needs_program=False)
