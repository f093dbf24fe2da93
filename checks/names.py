#!/usr/bin/env python3
"""Checks that the names that comments and documents give in backticks exist.

    checks/names.py [--program FILE] [--only NAME] [--all]

Prose is what stands behind `//` in src/ of a crate and in tests/, and README.md, CONTRIBUTING.md, SECURITY.md,
docs/*.md, packaging/*.md and crates/*/README.md outside of their blocks. A name is what one can write in code:

- `Owner::member` has to be a function, variant, field or constant of that type, trait or crate,
  here or in the toolchain's libraries.
- A word with a capital letter or with `_` inside, such as `Owner` or `drive_on`, has to stand
  somewhere outside of comments: in a crate, in the toolchain's libraries, in a script, in settings
  or in packaging/.
- A file of the repository, such as `checks/rows.py`, has to be there. The contracts that README
  links have to be in the file that it links.

Octets, settings' values, texts that the program prints and names of the standard (`M_SP_NA_1`) are
no such names. CHANGELOG.md isn't judged, since it says what was.

Each crate and each document is a case. The script prints each name that is gone, with its place;
with `--all` it also prints what it found. A comment of a crate is corrected when the crate is
proved anew for another reason. Until then checks/names.txt has the names that are known to be gone,
a file and a name a line. A line of it that isn't needed any more is a fault too.
"""
import collections
import functools
import glob
import os
import re
import subprocess

import frame

TOP = frame.TOP
# Sources of crates, and those of their tests.
SOURCE = (".rt", ".rs")
WORD = re.compile(r"[A-Za-z_][A-Za-z0-9_]*")
SPAN = re.compile(r"``?([^`\n]+?)``?(?!`)")
PATH = re.compile(r"(?:[A-Za-z_][A-Za-z0-9_]*::)+[A-Za-z_][A-Za-z0-9_]*(?:\(\))?")
NAME = re.compile(r"[A-Za-z][A-Za-z0-9_]*(?:\(\))?")
FILE = re.compile(r"(?:bench|checks|crates|docs|edits|examples|packaging|specs|src|tests|tools)/[\w./-]+\.\w+")
# A type of the standard (IEC 60870-5-101, 7.2.1), or an octet or a digit in hexadecimal.
STANDARD = re.compile(r"[MCPF]_[A-Z]{2}_[A-Z]{2}_\d|[0-9A-F]{2}|[A-Z]\w?")
# Where prose stands beside the crates, and where names stand that are no Rust.
PAGES = ["README.md", "CONTRIBUTING.md", "SECURITY.md", "docs/*.md", "packaging/*.md", "crates/*/README.md"]
PAGES += ["docs/pictures/make.py"]
BESIDE = ["checks/**/*.py", "bench/**/*", "tools/*.py", "examples/**/*"]
BESIDE += ["packaging/**/*", "crates.txt", "test", "build", "telegate"]
# What others have: systemd's keys, and what Rust's numbers and texts bring.
OTHERS = re.compile(r"Limit[A-Z]+|(?:[ui](?:8|16|32|64|128|size)|bool|str|char|f64)::\w+")
# What stands at the beginning of a line owns what is indented below it, up to its closing brace.
PUBLIC = r"(?:pub(?:\(\w+\))? |ghost |const |final |unsafe |default )*"
OWNER = re.compile(PUBLIC + r"(impl|trait|enum|struct|mod|macro_rules!)\b(.*)")
MEMBER = re.compile(rf"\s+{PUBLIC}(?:(?:fn|const|type) (\w+)|(\w+)(?:[,({{:]| {{| =|$))")
ITEM = re.compile(rf"\s*{PUBLIC}(?:fn|struct|enum|trait|type|const|static|mod|union) (\w+)")


def read(name):
    with open(name, encoding="utf-8", errors="replace") as file:
        return file.read()


def toolchain():
    """The folder of the toolchain's libraries, or None."""
    try:
        said = subprocess.run(["rt", "doc"], capture_output=True, text=True, timeout=60).stdout
    except OSError:
        return None
    folder = os.path.join(os.path.dirname(said.strip()), "rattle")
    return folder if os.path.isdir(folder) else None


def code_of(text, mark):
    """The text without what stands behind this mark of a comment."""
    return re.sub(rf"(^|\s){mark}.*$", r"\1", text, flags=re.M)


def owner_of(line):
    """The type, trait or module that a line begins to describe."""
    found = OWNER.match(line)
    if not found:
        return None
    rest = re.sub(r"^<[^>]*>", "", found[2].strip())
    if found[1] == "impl" and " for " in rest:
        rest = rest.split(" for ", 1)[1]
    rest = re.sub(r"^&(?:mut )?", "", rest.strip())
    name = re.search(r"([A-Za-z_]\w*)\s*(?:<|\{|\(|where|;|:|$)", rest)
    return name and name[1]


class Names:
    """What is defined: words, and the members of each owner."""

    def __init__(self):
        self.words, self.members = set(), collections.defaultdict(set)
        # The names that an owner has elsewhere, by those that it is imported as.
        self.imported = collections.defaultdict(set)

    def add_rust(self, text, crate):
        owner = None
        # The parameters of an `impl` may stand in lines of their own.
        text = re.sub(r"^impl<\n(?: .*\n)*?> ", "impl<> ", code_of(text, "//"), flags=re.M)
        for line in text.splitlines():
            if line[:1] not in (" ", "}", "", "#"):
                owner = owner_of(line)
            item = ITEM.match(line)
            if item:
                self.members[crate].add(item[1])
            member = owner and MEMBER.match(line)
            if member:
                self.members[owner].add(member[1] or member[2])
            self.words.update(WORD.findall(line))
            for name, new in re.findall(r"\b(\w+) as (\w+)", line):
                self.imported[new].add(name)

    def add_words(self, text):
        self.words.update(WORD.findall(text))

    def has(self, owner, member):
        """Whether an owner of this name has this member."""
        return any(member in self.members[name] for name in (owner, *self.imported.get(owner, ())))


@functools.cache
def ours():
    """The names of the crates, and of what stands beside them."""
    names = Names()
    for path in glob.glob(os.path.join(TOP, "crates/*/src/**/*.rt"), recursive=True):
        names.add_rust(read(path), os.path.relpath(path, TOP).split("/")[1])
    for path in glob.glob(os.path.join(TOP, "tests/**/*.rs"), recursive=True):
        names.add_rust(read(path), "tests")
    for path in glob.glob(os.path.join(TOP, "crates/**/*.antt"), recursive=True):
        names.add_words(code_of(read(path), "--"))
    # Of what isn't Rust each word counts, in comments too: a script names its parts as it likes.
    for pattern in BESIDE:
        for path in glob.glob(os.path.join(TOP, pattern), recursive=True):
            if os.path.isfile(path) and not path.endswith((".md", ".png")):
                names.add_words(read(path))
    names.add_words(" ".join(glob.glob("*", root_dir=os.path.join(TOP, "crates"))))
    return names


@functools.cache
def theirs():
    """The names of the toolchain's libraries. They are many, so they are read only if a name isn't
    ours."""
    names, folder = Names(), toolchain()
    for path in glob.glob(f"{folder}/*/src/**/*.rt", recursive=True) if folder else []:
        names.add_rust(read(path), os.path.relpath(path, folder).split("/")[0])
    for path in glob.glob(f"{folder}/*/specs/**/*.antt", recursive=True) if folder else []:
        names.add_words(read(path))
    return names


def fault_of(span, names):
    """What is wrong with a name in backticks, or None."""
    if OTHERS.fullmatch(span):
        return None
    path = PATH.fullmatch(span)
    if path:
        parts = span.removesuffix("()").split("::")
        owner, member = parts[-2], parts[-1]
        if owner in ("Self", "self", "crate", "super"):
            return None if member in names.words else "no such name"
        if owner not in names.words:
            return f"there is no {owner}"
        return None if names.has(owner, member) else f"{owner} has no {member}"
    if FILE.fullmatch(span):
        places = [span, os.path.join("crates/*", span)]
        return None if any(glob.glob(place, root_dir=TOP) for place in places) else "no such file"
    name = span.removesuffix("()")
    is_name = NAME.fullmatch(span) and not STANDARD.fullmatch(name)
    if is_name and (re.search(r"[A-Z]", name) and re.search(r"[a-z]", name) or "_" in name):
        return None if name in names.words else "no such name"
    return None


@functools.cache
def known_gone():
    """The names that are known to be gone, each with its file."""
    lines = read(os.path.join(frame.HERE, "names.txt")).splitlines()
    rows = [line.split(maxsplit=1) for line in lines if line and not line.startswith("#")]
    return [(file, name.strip()) for file, name in rows]


def prose_of(path):
    """The lines of prose of a file, with their numbers."""
    text = read(path)
    if path.endswith(SOURCE):
        for number, line in enumerate(text.splitlines(), 1):
            found = re.search(r"(?:^|\s)//[/!]?(.*)", line)
            if found:
                yield number, found[1]
        return
    is_block = False
    for number, line in enumerate(text.splitlines(), 1):
        if line.startswith("```"):
            is_block = not is_block
        elif not is_block:
            yield number, line


def names_in(path):
    """The names in backticks of a file, and the files that it names without, each with the number
    of its line."""
    for number, line in prose_of(path):
        for span in SPAN.findall(line):
            yield number, span
        if path.endswith(SOURCE):
            for file in FILE.findall(re.sub(SPAN, "", line)):
                yield number, file


def is_below(name, path):
    return name == path or name.startswith(path + "/")


def judge_files(count, case, top, paths):
    """All names of these files are there, but for those that are known to be gone."""
    known, gone = {row for row in known_gone() if is_below(row[0], top)}, []
    needed = set()
    for path in paths:
        name = os.path.relpath(path, TOP)
        for number, span in names_in(path):
            fault = fault_of(span, ours())
            if fault and not fault_of(span, theirs()):
                fault = None
            if fault and (name, span) in known:
                needed.add((name, span))
            elif fault:
                gone.append(f"{name}:{number}: `{span}`: {fault}")
            elif count.options.all:
                print(f"{name}:{number}: `{span}`")
    for name, span in sorted(known - needed):
        gone.append(f"checks/names.txt: {name} has no `{span}` that is gone")
    count.judge(case, not gone, "\n    " + "\n    ".join(gone))


def comments(count, _program, _folder):
    for crate in sorted(os.listdir(os.path.join(TOP, "crates"))):
        paths = sorted(glob.glob(os.path.join(TOP, "crates", crate, "src/**/*.rt"), recursive=True))
        judge_files(count, crate, f"crates/{crate}", paths)
    paths = sorted(glob.glob(os.path.join(TOP, "tests/**/*.rs"), recursive=True))
    judge_files(count, "tests", "tests", paths)


def documents(count, _program, _folder):
    for page in sorted(page for pattern in PAGES for page in glob.glob(pattern, root_dir=TOP)):
        judge_files(count, page, page, [os.path.join(TOP, page)])


def contracts(count, _program, _folder):
    """Each contract that README names: the file that it links has a function of this name."""
    link = re.compile(r"\[`([\w:]+)`\]\((crates/\w+/src/[\w/]+\.rt)\)")
    named = link.findall(read(os.path.join(TOP, "README.md")))
    for call, file in named:
        holds = re.search(rf"\bfn {call.split('::')[-1]}\b", read(os.path.join(TOP, file)))
        count.judge(f"README.md: {call}", holds, f"{file} hasn't it")
    # A README that names none would pass for want of any.
    count.judge("README.md names contracts", len(named) > 5, named)


if __name__ == "__main__":
    words = {"--all": {"action": "store_true", "help": "print each name that was found, too"}}
    frame.main(comments, documents, contracts, needs_program=False, words=words)
