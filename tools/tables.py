"""The tables of must-fail edits, edits/CRATE.toml: reading, comparing with the crates, and noting.

A table has the pairs of texts of each edit, one behind the other. The first pair of an edit says
what else is known of it; CONTRIBUTING.md, "How to add", has the words.
"""
import dataclasses
import datetime
import glob
import hashlib
import os
import re
import tomllib

TOP = os.path.dirname(os.path.dirname(os.path.abspath(__file__)))
FOLDER = os.path.join(TOP, "edits")
# The names of the wrong bodies that the specification asks for, one a line.
ASKED = os.path.join(FOLDER, "specification.txt")
PARTS = ("src", "specs", "proofs")
# What stands at the head of a table, and what it says of an edit in its first pair, in this order.
HEAD = ("text", "seconds")
WORDS = ("specification", "refused_by", "seen", "tried")


@dataclasses.dataclass
class Edit:
    """A wrong body: the texts that it puts in place of others, and what is known of it."""

    crate: str
    name: str
    pairs: list = dataclasses.field(default_factory=list)
    # The pairs of a change of the same shape that changes no answer.
    twin: list = dataclasses.field(default_factory=list)
    # The wrong body of the specification that it is, if it is one.
    specification: str = ""
    # The functions and laws that were seen to refuse it, by their paths below the crate.
    refused_by: list = dataclasses.field(default_factory=list)
    # Why it was refused when it was last tried, or "" if it was never seen refused.
    seen: str = ""
    tried: datetime.date | None = None

    @property
    def label(self):
        return f"{self.crate}/{self.name}"

    def turns_a_definition(self):
        return any("specs/" in file for file, _, _ in self.pairs)

    def crates(self):
        """The crates whose files it turns."""
        return {crate_of(self.crate, file) for file, _, _ in self.pairs}


def crate_of(crate, file):
    """The crate that a pair's file belongs to: another one's path begins with ../."""
    return file.split("/")[1] if file.startswith("../") else crate


def place(crate):
    """The file of a crate's table."""
    return os.path.join(FOLDER, f"{crate}.toml")


def crates():
    """The crates that have a table."""
    return sorted(os.path.basename(path)[:-5] for path in glob.glob(os.path.join(FOLDER, "*.toml")))


@dataclasses.dataclass
class Table:
    """The edits of a crate."""

    edits: dict
    # The sum of the crate's text at which all that were seen refused were last tried, or "".
    text: str = ""
    # What the try of an edit costs in the mean, in processor seconds.
    seconds: int = 40


def read(crate):
    """A crate's table, which is empty if it has none."""
    if not os.path.isfile(place(crate)):
        return Table({})
    with open(place(crate), "rb") as file:
        table = tomllib.load(file)
    head = {word: table.pop(word) for word in HEAD if word in table}
    return Table({name: edit_of(crate, name, rows) for name, rows in table.items()}, **head)


def edit_of(crate, name, rows):
    """An edit, from its rows of a table."""
    edit = Edit(crate, name, **{word: rows[0][word] for word in WORDS if word in rows[0]})
    for pairs, is_twin in ((edit.pairs, False), (edit.twin, True)):
        file = None
        for row in rows:
            if row.get("twin", False) == is_twin:
                file = row.get("file", file)
                pairs.append((file, row["old"], row["new"]))
    return edit


def turned(edit, here, pairs=None, before=None):
    """The texts of the files that an edit turns, by their paths below the crate's folder `here`.
    With `before` it is put on top of what others have turned."""
    after = dict(before or {})
    for file, old, new in edit.pairs if pairs is None else pairs:
        if file not in after:
            with open(os.path.join(here, file), encoding="utf-8") as it:
                after[file] = it.read()
        if after[file].count(old) != 1:
            line, count = old.strip().split("\n")[0], after[file].count(old)
            raise ValueError(f"{edit.label}: {file} has its old text {count} times: {line}")
        after[file] = after[file].replace(old, new)
    return after


def misplaced(edit):
    """What is wrong with the old texts of an edit and of its twin."""
    here, faults = os.path.join(TOP, "crates", edit.crate), []
    for pairs in (edit.pairs, edit.twin):
        after = {}
        for pair in pairs:
            try:
                after = turned(edit, here, [pair], after)
            except (ValueError, OSError) as fault:
                faults.append(str(fault))
    return faults


def asked():
    """The names of the wrong bodies that the specification asks for."""
    with open(ASKED, encoding="utf-8") as file:
        return [line.strip() for line in file if line.strip() and not line.startswith("#")]


def missing(edits):
    """What is wrong between the specification's names and the edits that bear one."""
    names, borne = asked(), {edit.specification for edit in edits} - {""}
    without = [name for name in names if name not in borne]
    faults = [f"{name}: no edit bears this name of the specification" for name in without]
    others = sorted(borne - set(names))
    return faults + [f"{name}: the specification has no such wrong body" for name in others]


def text_of(crate):
    """The sum of all that a crate's proof is made from, but what stands below it."""
    total, here = hashlib.sha256(), os.path.join(TOP, "crates", crate)
    for part in PARTS:
        for path in sorted(glob.glob(os.path.join(here, part, "**", "*.*t"), recursive=True)):
            with open(path, "rb") as file:
                total.update(repr((os.path.relpath(path, TOP), file.read())).encode())
    return total.hexdigest()[:16]


def noted(text, edit):
    """The text of a table, with what is known of an edit now."""
    lines = text.split("\n")
    head = lines.index(f"[[{edit.name}]]") + 1
    end = head
    while re.match(rf"({'|'.join(WORDS)}) = ", lines[end]):
        end += 1
    said = []
    if edit.specification:
        said.append(f'specification = "{edit.specification}"')
    if edit.refused_by:
        said.append(f"refused_by = [{', '.join(quoted(it) for it in edit.refused_by)}]")
    if edit.seen:
        said.append(f'seen = "{edit.seen}"')
    if edit.tried:
        said.append(f"tried = {edit.tried}")
    return "\n".join([*lines[:head], *said, *lines[end:]])


def quoted(text):
    return f"'{text}'" if '"' in text else f'"{text}"'


def note(crate, edits, head):
    """Writes into a crate's table what is known of these edits now, and the words of its head."""
    with open(place(crate), encoding="utf-8") as file:
        table = file.read()
    for edit in edits:
        table = noted(table, edit)
    if head:
        begin, edits_begin, rest = table.partition("\n[[")
        said = [line for line in begin.split("\n") if line.startswith("#")]
        said += [f"{word} = {value}" for word, value in head.items()]
        table = "\n".join([*said, ""]) + edits_begin + rest
    tomllib.loads(table)
    with open(place(crate), "w", encoding="utf-8") as file:
        file.write(table)
