#!/usr/bin/env python3
"""Runs `telegate show101` and `show104` over the octets in checks/shows.txt and checks/words.txt,
and judges what they print.

    checks/shows.py [--program FILE] [--only NAME]

The first lines of the files say what a row is. checks/shows.txt has each text that can be printed,
and frames of each type. Wrong words are a fault, and so are more than 1,024 octets.
"""
import os
import re
import subprocess

import frame


ROW = re.compile(r"^\$ (.*)\n((?:(?![$=#]).+\n)*)(?:= (\d+)\n)?", re.M)

# Sizes and octets that are wrong, and the fault.
WRONG = [
    *(
        (sizes, "E5", "bad sizes\n")
        for sizes in ("", "111", "11122", "0112", "3112", "1012", "1312", "1102", "1132", "1110", "1114", "111a")
    ),
    ("1114", "", "bad sizes\n"),
    ("2124", "E5", "bad sizes\n"),
    ("1112", "", "bad octets\n"),
    ("1112", "E", "bad octets\n"),
    ("1112", "E5E", "bad octets\n"),
    ("1112", "EG", "bad octets\n"),
    ("1112", "E5" * 1025, "bad octets\n"),
]


def rows():
    """The words, standard output, standard error and the exit status of each row."""
    text = ""
    for name in ("shows.txt", "words.txt"):
        with open(os.path.join(os.path.dirname(os.path.abspath(__file__)), name)) as file:
            text += file.read() + "\n"
    found = [(words.split(), out, "", int(status or 0)) for words, out, status in ROW.findall(text)]
    # None is left out that isn't understood.
    assert len(found) == len(re.findall(r"^\$ ", text, re.M))
    yield from found
    for sizes, octets, fault in WRONG:
        yield ["show101", sizes, octets], "", fault, 1
    for octets in ("68 04", "", "6", "6G", "68 "):
        yield ["show104", octets], "", "bad octets\n", 1
    yield ["show101", "1112", "E5" * 1024], "single\nrest 1023\n", "", 1


def texts(count, program, _folder):
    """Each row."""
    for given, *want in rows():
        name = " ".join(given)[:100]
        if not count.wants(name):
            continue
        done = subprocess.run([program, *given], capture_output=True, text=True, timeout=60)
        holds = [done.stdout, done.stderr, done.returncode] == want
        count.judge(name, holds, f"status {done.returncode}, {done.stderr}\n{done.stdout}")


if __name__ == "__main__":
    frame.main(texts)
