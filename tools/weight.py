#!/usr/bin/env python3
"""Prints what each law weighs, and who would miss it.

    tools/weight.py [CRATE ..]

A row has the lines of proofs and of specs/ that this law alone needs, beside all that the code and
the other laws need, and then who needs the law: `README` (it is named there), `code` (a function or
a test calls it), `laws` (another law calls it), `edits` (a must-fail edit was seen refused by it).
The heaviest come first. A law that nobody needs may go, with its lemmas.

What an item needs is read off its text: the names in it that its file has or imports. So a row may
say too little, never too much, of what would go.
"""
import argparse
import collections
import glob
import os
import re
import sys

TOP = os.path.dirname(os.path.dirname(os.path.abspath(__file__)))
sys.path.append(os.path.dirname(os.path.abspath(__file__)))
import tables

NAME = r"[A-Za-z_][A-Za-z0-9_'\-]*"
LAW = re.compile(r"^(?:///.*\n|#\[.*\n)*pub fn (\w+)\(\)\n(?:(?!\{|\}).*\n)*?(?:\{\}|\{\n(.*\n)*?\})$", re.M)
USE = re.compile(r"^\s*(?:pub )?(?:ghost )?use (Rattle\.[^\s;{]+?)(?:\.\{([^}]*)\})?;?$", re.M)
PATH = re.compile(rf"Rattle(?:\.[A-Za-z_][\w\-+']*)+")
WORDS = "pub|abbrev|unfoldable|opaque|inline|data|record|lemma"
BEGIN = re.compile(rf"(?:(?:{WORDS}) )*({NAME})(?= :|\s|$)")
NO_ITEM = ("use ", "--", "pub use ", "pub mod ", "mod ", "unfolding", "infix")


def names_in(text):
    return set(re.findall(r"[A-Za-z_][A-Za-z0-9_'\-◌]*", text))


def file_of(path):
    """The file of a module, by its path."""
    _, crate, *rest = path.split(".")
    return os.path.join(TOP, "crates", crate, *rest) + ".antt"


class Graph:
    """What each item of the proofs and specs needs. An item is a file and a name; what stands in
    the answers to a function's goals is one, by the name `*`."""

    def __init__(self):
        self.texts = {}
        for kind in ("rt", "antt"):
            for place in glob.glob(os.path.join(TOP, "crates", "*", "s*", "**", f"*.{kind}"), recursive=True) \
                    + glob.glob(os.path.join(TOP, "crates", "*", "proofs", "**", f"*.{kind}"), recursive=True):
                with open(place, encoding="utf-8") as file:
                    self.texts[place] = file.read()
        self.lines, self.words, self.inner = collections.Counter(), collections.defaultdict(set), {}
        for place in self.texts:
            if place.endswith(".antt") and os.path.basename(place) not in ("Lib.antt", "Goals.antt"):
                self.read(place)
        self.files = {place for place, _ in self.lines}
        self.imports = {place: self.imports_of(text) for place, text in self.texts.items()}
        self.needs = {item: self.found(item[0], words) for item, words in self.words.items()}

    def read(self, place):
        """The items of a file."""
        text = self.texts[place]
        if os.path.basename(place) in ("Answers.antt", "Invariants.antt", "Proof.antt"):
            self.add((place, "*"), text.split("\n"))
            return
        lines = text.split("\n")
        found = [(number, BEGIN.match(line)) for number, line in enumerate(lines) if not line.startswith(NO_ITEM)]
        begins = [(number, match[1]) for number, match in found if match]
        for (number, name), (end, _) in zip(begins, [*begins[1:], (len(lines), "")]):
            self.add((place, name), lines[number:end])

    def add(self, item, lines):
        self.lines[item] += len(lines)
        self.words[item] |= names_in(USE.sub("", re.sub(r"--.*", "", "\n".join(lines))))
        # Constructors, fields, and what a module with parameters has.
        for name in re.findall(rf"^  +(?:(?:{WORDS}) )*({NAME})(?= :|\s)", "\n".join(lines), re.M):
            if re.match(rf"(?:(?:{WORDS}) )*(?:data|record|module) ", lines[0]):
                self.inner[item[0], name] = item

    def imports_of(self, text):
        found, modules = collections.defaultdict(set), set()
        for path, names in USE.findall(text):
            for name in filter(None, names.split(",")):
                source, *local = name.strip().split(" as ")
                found[(local or [source])[0]].add((file_of(path), source))
        for path in PATH.findall(text):
            parts = path.split(".")
            modules |= {file_of(".".join(parts[:end])) for end in range(4, len(parts) + 1)}
        return found, modules & self.files

    def item(self, place, name):
        return (place, name) if (place, name) in self.lines else self.inner.get((place, name))

    def found(self, place, words):
        """The items that these words of a file mean."""
        names, modules = self.imports[place]
        items = set()
        for word in words:
            asked = [(place, word), *names.get(word, ()), *((module, word) for module in modules)]
            items |= {self.item(*it) or self.item(it[0], "module") for it in asked if it[0] in self.files}
        return items - {None}

    def reach(self, items):
        seen, wait = set(), list(items)
        while wait:
            item = wait.pop()
            if item not in seen:
                seen.add(item)
                wait += self.needs[item] - seen
        return seen


class Law:
    def __init__(self, graph, place, match):
        self.place, self.name, self.text = place, match[1], match[0]
        self.crate = os.path.relpath(place, os.path.join(TOP, "crates")).split(os.sep)[0]
        module = os.path.relpath(place, os.path.join(TOP, "crates", self.crate, "src"))[:-3]
        folder = os.path.join(TOP, "crates", self.crate, "proofs", module, self.name)
        self.answers = [item for item in graph.lines if item[0].startswith(folder + os.sep)]
        self.calls = set(re.findall(r"\b(\w+)\(\)", self.text.partition("\n{\n")[2]))
        named = re.findall(r"proofs::(?:\w+::)*(\w+)", self.text)
        self.items = graph.found(place, names_in(self.text) | set(named)) | set(self.answers)


def without_comments(text):
    return re.sub(r"^\s*//.*$", "", text, flags=re.M)


def code_of(graph, laws):
    """All code but laws, and the items that it needs."""
    code, items, answers = "", set(), {item for law in laws for item in law.answers}
    for place, text in graph.texts.items():
        if place.endswith(".rt"):
            rest = without_comments(LAW.sub("", text))
            named = {word for path in re.findall(r"proofs::[\w:']+", rest) for word in path.split("::")}
            items |= graph.found(place, names_in(rest))
            items |= {item for item in graph.lines if item[1] in named}
            code += rest
    return code, items | {item for item in graph.lines if item[1] == "*" and item not in answers}


def needed_by(law, laws, code, readme, refusing):
    said = []
    if re.search(rf"\b{law.name}\b", readme):
        said.append("README")
    if re.search(rf"\b{law.name}\(\)", code):
        said.append("code")
    if any(law.name in other.calls for other in laws):
        said.append("laws")
    if law.name in refusing:
        said.append("edits")
    return ", ".join(said) or "nobody"


def main():
    parser = argparse.ArgumentParser(usage="tools/weight.py [CRATE ..]")
    parser.add_argument("crates", nargs="*")
    wanted = parser.parse_args().crates
    graph = Graph()
    laws = [Law(graph, place, match) for place, text in graph.texts.items() if place.endswith(".rt")
            for match in LAW.finditer(text) if "ensures" in match[0]]
    code, items = code_of(graph, laws)
    for place in glob.glob(os.path.join(TOP, "tests", "**", "*.rt"), recursive=True):
        with open(place, encoding="utf-8") as file:
            code += without_comments(file.read())
    with open(os.path.join(TOP, "README.md"), encoding="utf-8") as file:
        readme = file.read()
    refusing = {path.split("::")[-1] for crate in tables.crates()
                for edit in tables.read(crate).edits.values() for path in edit.refused_by}
    base, users = graph.reach(items), collections.Counter()
    reached = {law: graph.reach(law.items) - base for law in laws}
    for found in reached.values():
        users.update(found)
    rows = []
    for law in laws:
        alone = [item for item in reached[law] if users[item] == 1]
        weight = {part: sum(graph.lines[item] for item in alone if f"/{part}/" in item[0]) for part in ("proofs", "specs")}
        rows.append((weight["proofs"], weight["specs"], f"{law.crate} {law.name}", needed_by(law, laws, code, readme, refusing)))
    print("proofs specs law: needed by")
    for proofs, specs, name, said in sorted(rows, reverse=True):
        if not wanted or name.split()[0] in wanted:
            print(f"{proofs:6} {specs:5} {name}: {said}")
    print(f"{len(laws)} laws")


if __name__ == "__main__":
    main()
