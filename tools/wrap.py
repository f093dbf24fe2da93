#!/usr/bin/env python3
"""Breaks the lines of .antt and .rt files that have more than 100 columns. No token changes.

    tools/wrap.py [--try] [CRATE | FILE ..]

- An import is split into several imports of the same module.
- A comment of its own line goes on in a comment of the same indentation.
- Any other line of an .antt file is broken at a space, where as few brackets as can be stand open:
  before an operator or an arrow if there is one, else at the last space that fits. The rest stands
  where `rt fmt` puts it: four columns deeper than what it continues, which is a line at the column
  of the file, of a `where`, of a record's fields or of the cases between brackets.

Of an .rt file only imports are split: `rt fmt` has laid out the rest. Without words the files of
all crates are broken. Each file that can't be broken to its end is told, with the lines that stay
too long; so is one that has more than 800 lines then. `--try` writes nothing. The last line is `N
lines broken, M stay in K files`; the exit status is 1 where a line stays.
"""
import argparse
import glob
import os
import re
import sys

TOP = os.path.dirname(os.path.dirname(os.path.abspath(__file__)))
COLUMNS, LINES, DEEPER = 100, 800, 4
OPENING, CLOSING = "([{", ")]}"
IMPORT = re.compile(r"(\s*(?:pub |ghost )*use [^{]*\{)(.*)(\};?)$")
# What stands best at the beginning of a line: arrows and steps before relations, and these before
# what binds more tightly.
LEADING = dict.fromkeys("→ ↔ ∙ else".split(), 18) | dict.fromkeys("× ⊎ ≡ ≢ ≤ < then".split(), 14)
LEADING |= dict.fromkeys("++ ∷ && || ∘ + - *".split(), 8)
# What stands well at the end of a line, and what doesn't stand at a beginning or at an end: it
# belongs to its neighbour.
ENDING = {"in": 20, "=": 14, "↦": 14}
BOUND, OPEN = {"=", ":", "in", "where", "↦"}, {"λ", ":", "let", "if", "(", "rw", "{"}


def places(line):
    """Each space at which the line can be broken: its column, and how many brackets stand open
    there."""
    depth, is_text = 0, False
    begin = len(line) - len(line.lstrip())
    for column in range(begin, len(line)):
        mark = line[column]
        if mark == '"' and (column == 0 or line[column - 1] != "\\"):
            is_text = not is_text
        elif is_text:
            continue
        elif mark in OPENING:
            depth += 1
        elif mark in CLOSING:
            depth -= 1
        elif line.startswith("-- ", column):
            # A comment behind code: it can't be carried over to a line of its own.
            return
        elif mark == " ":
            yield column, depth


def cost(line, column, depth):
    """How bad it is to break here: brackets that stand open, then a short line, then the wrong side
    of a word."""
    before, behind = line[:column].split()[-1], line[column:].split()[0]
    begin = len(line) - len(line.lstrip())
    bad = 14 * depth + (COLUMNS - column) * 30 // (COLUMNS - begin)
    bad -= LEADING.get(behind, 0) + ENDING.get(before, 0)
    if behind in BOUND or before in OPEN or before in LEADING:
        bad += 50
    return bad


def depths(lines):
    """For each line of an .antt file the column at which a line that continues it stands."""
    blocks, opens = [0], False
    for line in lines:
        column = len(line) - len(line.lstrip())
        if line.strip() and not line.lstrip().startswith("--"):
            while column < blocks[-1]:
                blocks.pop()
            if opens and column > blocks[-1]:
                blocks.append(column)
            # A bracket that ends a line opens a block of cases or of fields, but `(` holds no lines.
            opens = line.endswith((" where", " {", " [")) or line.strip() == "where"
        yield blocks[-1] + DEEPER


def broken(line, column):
    """The lines that an .antt line becomes, continued at this column; the last may still be long."""
    lines, deeper = [], " " * column
    while len(line) > COLUMNS:
        fits = [(cost(line, *place), -place[0]) for place in places(line) if place[0] <= COLUMNS]
        # What is put on the next line has to be shorter than what it was.
        fits = [it for it in fits if -it[1] > len(deeper)]
        if not fits:
            break
        column = -min(fits)[1]
        lines.append(line[:column])
        line = deeper + line[column + 1 :]
    return [*lines, line]


def split_items(text):
    """The names between the braces of an import, where braces inside stay together."""
    items, depth, begin = [], 0, 0
    for at, mark in enumerate(text):
        depth += (mark in OPENING) - (mark in CLOSING)
        if mark == "," and depth == 0:
            items.append(text[begin:at].strip())
            begin = at + 1
    return [item for item in [*items, text[begin:].strip()] if item]


def imports(line):
    """The imports that one import becomes."""
    found = IMPORT.match(line)
    if not found:
        return [line]
    head, names, tail = found.groups()
    lines, held = [], []
    for name in split_items(names):
        if held and len(head + ", ".join([*held, name]) + tail) > COLUMNS:
            lines.append(head + ", ".join(held) + tail)
            held = []
        held.append(name)
    return [*lines, head + ", ".join(held) + tail]


def comment(line):
    """The comments that one comment becomes."""
    indent = line[: len(line) - len(line.lstrip())]
    mark, words = line.split(maxsplit=1)
    lines = [indent + mark]
    for word in words.split():
        if len(lines[-1]) + 1 + len(word) > COLUMNS:
            lines.append(indent + mark)
        lines[-1] += " " + word
    return lines


def wrapped(line, is_code, column):
    """The lines that a line becomes; code goes on at this column."""
    if len(line) <= COLUMNS:
        return [line]
    if re.match(r"\s*(?:pub |ghost )*use ", line):
        return imports(line)
    if not is_code:
        return [line]
    return comment(line) if re.match(r"\s*-- ", line) else broken(line, column)


def tokens(text):
    """The text without its layout: no import or comment is compared by its line."""
    found = []
    for line in text.split("\n"):
        parts = IMPORT.match(line)
        if parts:
            found += [(parts[1].split(), item) for item in split_items(parts[2])]
        elif re.match(r"\s*-- ", line):
            found += line.split()[1:]
        else:
            found += line.split()
    return found


def files_of(words):
    """The files that the words name."""
    names = []
    for word in words or sorted(os.listdir(os.path.join(TOP, "crates"))):
        folder = os.path.join(TOP, "crates", word)
        if not os.path.isdir(folder):
            if not os.path.isfile(word):
                sys.exit(f"wrap: there is no crate and no file {word}")
            names.append(word)
            continue
        for ending in ("antt", "rt"):
            names += sorted(glob.glob(f"{folder}/**/*.{ending}", recursive=True))
    return [name for name in names if "/out/" not in name]


def main():
    words = argparse.ArgumentParser(
        description=__doc__, formatter_class=argparse.RawDescriptionHelpFormatter
    )
    words.add_argument("--try", action="store_true", dest="is_trial", help="write nothing")
    words.add_argument("wanted", nargs="*", metavar="CRATE | FILE")
    given = words.parse_args()
    done, left, stuck = 0, 0, 0
    for name in files_of(given.wanted):
        with open(name, encoding="utf-8") as file:
            text = file.read()
        lines = text.split("\n")
        is_code = name.endswith(".antt")
        parts = [wrapped(line, is_code, column) for line, column in zip(lines, depths(lines))]
        new = "\n".join(line for part in parts for line in part)
        shown = os.path.relpath(name, TOP)
        if tokens(new) != tokens(text):
            sys.exit(f"wrap: {shown} would have other tokens")
        long = [(at, part) for at, part in enumerate(parts, 1) if max(map(len, part)) > COLUMNS]
        done += sum(len(part) > 1 for part in parts)
        left, stuck = left + len(long), stuck + bool(long)
        for at, part in long:
            print(f"{shown}:{at}: stays too long: {max(part, key=len).strip()[:60]} ..")
        if new.count("\n") > LINES >= text.count("\n"):
            print(f"{shown}: {new.count(chr(10))} lines, {text.count(chr(10))} before")
        if new != text and not given.is_trial:
            with open(name, "w", encoding="utf-8") as file:
                file.write(new)
    print(f"{done} lines broken, {left} stay in {stuck} files")
    sys.exit(1 if left else 0)


if __name__ == "__main__":
    main()
