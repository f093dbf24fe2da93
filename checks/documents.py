#!/usr/bin/env python3
"""Compares the documents with the built program and with the repository.

    checks/documents.py [--program FILE] [--only NAME]

- The script runs each block of docs/*.md and packaging/*.md that begins with ```console. A line
  with `$` in front has a command of `telegate`. Below it stands what the command prints (standard
  output, then standard error), and `(status N)` if its exit status isn't 0.
- The table of docs/ARCHITECTURE.md has the crates of crates.txt, each below the crates that it
  uses.
- Lines of README.md and of the documents have at most 100 columns, but for rows that begin with a
  line of the log. All pages together have at most 45,000 words, a crate's README.md at most 30 lines. No sentence of the documents has 30 words or
  more, but for CHANGELOG.md and for what is printed from the sources. Each file that a document
  names is there.
- docs/PROOFS.md and docs/CALLS.md say of each function what the sources say (tools/laws.py).
- The repository stands alone: no line of a document, of an example or of a crate cites a demand by
  a letter and a number.
- The program, the man page, CHANGELOG.md and each document that names a version name the same one.
- Lines of src/, specs/ and tests/ have at most 100 columns, except imports and attributes.
- An entry of a document that a comment or a document names, as `docs/NAME.md, "HEADING"`, is there.
- The table of docs/TESTS.md has the scripts of checks/list.txt as those of the gate. What begins
  with `#!` is executable.
- docs/LOG.md has each line that the log may have, once, in its words and with its severity, each
  reason of a line, and for each error and warning what to do (checks/lines.py).
- The pictures are those that docs/pictures/make.py makes, and the log's lines on them are lines.
"""
import glob
import os
import re
import shlex
import subprocess
import sys

import frame
import lines

TOP = frame.TOP
sys.path.append(os.path.join(TOP, "tools"))
import laws

COLUMNS = 100
# A row of a table is one line, and one of docs/LOG.md has a line of the log whole.
ROW = 165
SENTENCE = 30
# How many words all documents may have, and how many lines the README.md of a crate.
WORDS, LINES = 45000, 30
# What a sentence names as a file: a path with one of these endings, or in one of these folders.
NAMED = re.compile(r"`?(?<![\w/])((?:bench|checks|crates|docs|edits|examples|packaging|tests|tools|specs|src|\.ci)/[\w./*-]*\w|[\w-]+\.(?:md|txt|py))`?")

# The page of the log, and a row of it: a line, its severity, what it means, and what to do.
LOG = "docs/LOG.md"
LOGGED = re.compile(r"^\| `(.*?)` \| (\d) \| (.*?) \| (.*)\|$", re.M)
# What cites a demand of another paper: a capital letter with a number (R32 is a type of the
# standard), or a section or row of a paper that isn't here.
CITED = re.compile(r"\b(?!R32)[DTRWPQ]\d{1,2}\b|\b(?:our|the|this) papers?\b|\brow \d+\b|\b0[1-4]-[a-z]+\.md\b")


def read(name):
    with open(os.path.join(TOP, name), encoding="utf-8") as file:
        return file.read()


def crate_pages():
    return sorted(glob.glob("crates/*/README.md", root_dir=TOP))


def documents():
    names = [*sorted(glob.glob("*.md", root_dir=TOP)), *sorted(glob.glob("docs/*.md", root_dir=TOP)), *sorted(glob.glob("packaging/*.md", root_dir=TOP)), *crate_pages()]
    return {name: read(name) for name in names}


def blocks(text):
    """Commands and what is written under each, of the blocks for a console."""
    for block in re.findall(r"^```console\n(.*?)^```$", text, re.M | re.S):
        for part in re.split(r"^\$ ", block, flags=re.M)[1:]:
            command, _, printed = part.partition("\n")
            yield command, printed


def judge_commands(judge, program, name, text):
    for command, printed in blocks(text):
        words = shlex.split(command)
        if words[0] != "telegate":
            continue
        ran = subprocess.run([program, *words[1:]], cwd=TOP, capture_output=True, text=True, timeout=60, stdin=subprocess.DEVNULL)
        got = ran.stdout + ran.stderr + (f"(status {ran.returncode})\n" if ran.returncode else "")
        judge.case(got == printed, f"{name}: {command}\n-- printed:\n{got}-- written:\n{printed}")


def judge_crates(judge, text):
    """The table of crates has those of crates.txt, each below all that it stands on."""
    stands_on = {}
    for line in read("crates.txt").splitlines():
        if line and not line.startswith("#"):
            crate, _, others = line.partition(":")
            stands_on[crate] = set(others.split())
    told = re.findall(r"^\| `(\w+)` \|.*\|$", text, re.M)
    judge.case(sorted(told) == sorted(stands_on), f"ARCHITECTURE.md has the crates {told}, crates.txt {list(stands_on)}")
    for place, crate in enumerate(told):
        early = stands_on.get(crate, set()) & set(told[place:])
        judge.case(not early, f"ARCHITECTURE.md tells {crate} before {early}, which it stands on")


def judge_layout(judge, name, text):
    for number, line in enumerate(text.splitlines(), 1):
        if len(line) > (ROW if name == LOG and LOGGED.match(line) else COLUMNS):
            judge.case(False, f"{name}:{number} has {len(line)} columns")
    judge.case(text.endswith("\n"), f"{name}: the last line isn't ended")


def prose(text):
    """The text without blocks, tables, headings and what is printed from the sources."""
    text = laws.ITEM.sub("", re.sub(r"^```.*?^```$", "", text, flags=re.M | re.S))
    return "\n".join(line for line in text.splitlines() if not line.startswith(("|", "#")))


def judge_sentences(judge, name, text):
    for paragraph in re.split(r"\n\s*\n|\n\s*[-*] |\n\s*\d+\. ", prose(text)):
        for sentence in re.split(r"[.:;?!](?:\*\*)?\s", paragraph.replace("\n", " ") + " "):
            count = len([word for word in sentence.split() if re.search(r"\w", word)])
            judge.case(count < SENTENCE, f"{name}: {count} words in: {sentence.strip()}")


def judge_alone(judge, name, text):
    """No line cites a demand of a paper that isn't part of the repository."""
    for number, line in enumerate(text.splitlines(), 1):
        if CITED.search(line):
            judge.case(False, f"{name}:{number} cites {CITED.search(line)[0]}")


def judge_version(judge, program, texts):
    """The program, the man page and the newest numbered part of CHANGELOG.md have one version, and
    so has what a document names."""
    ran = subprocess.run([program, "--version"], capture_output=True, text=True, timeout=60, stdin=subprocess.DEVNULL)
    version = ran.stdout.split()[1]
    page = re.findall(r'^\.TH .*"telegate ([^"]*)"', read("packaging/telegate.1"), re.M)
    judge.case(page == [version], f"packaging/telegate.1 is of {page}, the program of {version}")
    newest = re.findall(r"^## (\d\S*)", texts["CHANGELOG.md"], re.M)[:1]
    judge.case(newest == [version], f"CHANGELOG.md has {newest} as its newest version, the program is {version}")
    for name, text in texts.items():
        named = set(re.findall(r"\btelegate[ _](\d+\.\d+\.\d+)", text))
        judge.case(name == "CHANGELOG.md" or named <= {version}, f"{name} names telegate {sorted(named)}, the program is {version}")


def is_one_line(line):
    """An import or an attribute, which the formatter keeps in one line."""
    return re.match(r"\s*((pub |ghost |pub ghost )?use |#\[)", line) is not None


def judge_sources(judge):
    """What people read of the crates and of their tests: its lines are short, and cite no paper."""
    files = {crate: (f"crates/{crate}/src/**/*.rt", f"crates/{crate}/specs/**/*.antt") for crate in sorted(os.listdir(os.path.join(TOP, "crates")))}
    files["tests"] = ("tests/**/*.rs",)
    for crate, patterns in files.items():
        wide = []
        for name in sorted(found for pattern in patterns for found in glob.glob(pattern, root_dir=TOP, recursive=True)):
            text = read(name)
            judge_alone(judge, name, text)
            wide += [f"{name}:{number}" for number, line in enumerate(text.splitlines(), 1) if len(line) > COLUMNS and not is_one_line(line)]
        judge.case(not wide, f"{crate}: more than {COLUMNS} columns in {len(wide)} lines, the first {wide[:1]}")


def judge_entries(judge):
    """Each heading of a document that a comment or a document names is there: a heading of a part,
    or the bold words that a point begins with."""
    patterns = ("crates/*/src/**/*.rt", "crates/*/specs/**/*.antt", "crates/*/proofs/**/*.antt", "tests/**/*.rs", "edits/*.toml", "tools/*.py", "packaging/**/*", "*.md", "docs/*.md")
    headings = {name: re.findall(r"^(?:- \*\*(.*?)\.\*\*|#+ (.*))", text, re.M) for name, text in documents().items()}
    for name in sorted(found for pattern in patterns for found in glob.glob(pattern, root_dir=TOP, recursive=True)):
        if os.path.isfile(os.path.join(TOP, name)):
            comments = re.sub(r"\n\s*(?:(?://[/!]?|--|#) )?", " ", read(name))
            for document, heading in re.findall(r'\b((?:docs/\w+|[A-Z]+)\.md), "([^"]*)"', comments):
                there = any(heading in found for found in headings.get(document, []))
                judge.case(there, f'{name} names {document}, "{heading}", which isn\'t there')


def judge_names(judge, name, text):
    """Each file that a document names is there: from the top, beside the document, or in some
    crate."""
    bare = re.sub(r"^```.*?^```$", "", text, flags=re.M | re.S)
    for path in sorted(set(NAMED.findall(bare))):
        if path.startswith("crates/telegate/out/"):
            continue
        places = [path, os.path.join(os.path.dirname(name), path), os.path.join("docs", path), os.path.join("crates/*", path), os.path.join("crates/*", path + ".*")]
        judge.case(any(glob.glob(place, root_dir=TOP) for place in places), f"{name} names {path}, which isn't there")


def judge_list(judge, text):
    """docs/TESTS.md has the scripts of checks/list.txt, in its order and words, as those of the
    gate."""
    told = re.findall(r"^\| `checks/(\w+)\.py` \| yes \| (.*?) \|$", text, re.M)
    wanted = list(frame.listed().items())
    judge.case(told == wanted, f"docs/TESTS.md has {told}, checks/list.txt {wanted}")
    scripts = [name for name in glob.glob("checks/**/*.py", root_dir=TOP, recursive=True) if "frame.main(" in read(name)]
    unnamed = [name for name in scripts if name != "checks/frame.py" and f"`{name}`" not in text]
    judge.case(not unnamed, f"docs/TESTS.md doesn't name {unnamed}")


def is_line(shown, row):
    """Whether a picture shows this line of the log, or its beginning."""
    shown = re.sub(r"^\.\. ", "command .. ", shown)
    cut = re.sub(r"(CAUSE|WHY|\.\.)?$", "", shown).rstrip(": ")
    return row.startswith(cut) or row.endswith("WHY") and shown.startswith(row.removesuffix("WHY"))


def pictures(count, _program, _folder):
    """Each picture is what docs/pictures/make.py makes now, and the lines of the log on it are
    those of docs/LOG.md."""
    sys.path.append(os.path.join(TOP, "docs/pictures"))
    import make

    rows = [row[0] for row in LOGGED.findall(read(LOG))]
    for name, text in make.pictures().items():
        path = f"docs/pictures/{name}.svg"
        count.judge(path, os.path.exists(os.path.join(TOP, path)) and read(path) == text, "docs/pictures/make.py makes another one")
    for shown in sorted(set(re.findall(r"`((?:station A|queue|connection|state|waiting|command without|\.\.) [^`]*)`", read("docs/pictures/make.py")))):
        count.judge(f"docs/pictures: {shown}", any(is_line(shown, row) for row in rows), f"{LOG} has no such line")


def judge_log(count, rows):
    """The rows are the log's lines, each once and with its severity."""
    known = lines.lines()
    for pattern, severity in known:
        found = [row for row in rows if re.fullmatch(pattern, row[0])]
        shown = pattern.replace(lines.OPEN, "..").replace("\\", "")
        count.judge(f"{LOG}: {shown}", [int(row[1]) for row in found] == [severity], f"{found}, and not once with {severity}")
    for line, severity, means, advice in rows:
        count.judge(f"{LOG}: {line} is a line", sum(bool(re.fullmatch(pattern, line)) for pattern, _ in known) == 1, "the program has no such line")
        count.judge(f"{LOG}: {line} is told", means.strip() and (advice.strip() or int(severity) > 4), "it lacks what it means, or what to do")


def log(count, _program, _folder):
    """docs/LOG.md has what the log may have."""
    text = read(LOG)
    judge_log(count, LOGGED.findall(text))
    for heading, name in (("Stations", "skip_words"), ("Commands", "reason_words")):
        [part] = re.findall(rf"^## {heading}\n(.*?)(?=^## |\Z)", text, re.M | re.S)
        told = re.findall(r"^\| `(.*?)` \| [^|]+ \| [^|]+ \|$", part, re.M)
        wanted = lines.texts(name)
        holds = len(told) == len(wanted) and all(re.fullmatch(*both) for both in zip(wanted, told))
        count.judge(f"{LOG}, {heading}: each WHY", holds, f"{told}, and not {wanted}")
    spans = re.findall(r"`([^`\n]+)`", text)
    for old, new in re.findall(r"^\| `(.*)` \| `(.*)` \|$", read("docs/GLOSSARY.md"), re.M):
        told = [any(words in span for span in spans) for words in (old, new)]
        count.judge(f"docs/GLOSSARY.md: {old}", told == [False, True], f"{LOG} has {told}")
    for name in ("act_words", "value_words", "left_out_words"):
        for pattern in (text.removeprefix("\\ ") for text in lines.texts(name) if re.search("[a-z]", text)):
            shown = any(re.fullmatch(pattern, span) for span in spans)
            count.judge(f"{LOG}: {pattern}", shown, "isn't there")


def pages(count, program, _folder):
    """Each document: its layout, its commands, the files that it names, and what it may not cite.
    """
    for name, text in documents().items():
        judge_layout(count, name, text)
        judge_commands(count, program, name, text)
        judge_names(count, name, text)
        judge_alone(count, name, text)


def sources(count, _program, _folder):
    for name in sorted(glob.glob("examples/**/*.*", root_dir=TOP, recursive=True)):
        judge_alone(count, name, read(name))
    judge_sources(count)
    judge_entries(count)


def lists(count, program, _folder):
    """What stands in two places: the version, the crates, and the scripts of the gate."""
    texts = documents()
    judge_version(count, program, texts)
    judge_crates(count, texts["docs/ARCHITECTURE.md"])
    judge_list(count, texts["docs/TESTS.md"])
    for name in sorted(glob.glob("**/*.py", root_dir=TOP, recursive=True)):
        if read(name).startswith("#!"):
            count.judge(f"{name} can be called", os.access(os.path.join(TOP, name), os.X_OK), "it isn't executable")


def printed(count, _program, _folder):
    """What docs/PROOFS.md and docs/CALLS.md say of functions is what the sources say."""
    for name, text in laws.pages().items():
        written = read(name)
        wrong = [line for line in text.splitlines() if line not in written.splitlines()]
        count.judge(name, text == written, f"tools/laws.py --write has other lines, the first {wrong[:1]}")
    found = laws.items_of(read(laws.PROOFS))
    count.judge("docs/PROOFS.md has each item once", found and len(found) == len(set(found)), f"{len(found)} items")
    for call, crate in re.findall(r"\[`([\w:]+)`\]\(crates/(\w+)/src/", read("README.md")):
        count.judge(f"README.md: {call}", (crate, call) in found, f"{laws.PROOFS} hasn't it")


def words(count, _program, _folder):
    """How much there is to read, page by page and in all."""
    texts = documents()
    for name, text in texts.items():
        if name != "CHANGELOG.md":
            judge_sentences(count, name, text)
    for name in crate_pages():
        count.judge(f"{name}: lines", texts[name].count("\n") <= LINES, f"{texts[name].count(chr(10))}, and not {LINES}")
    number = sum(len(text.split()) for text in texts.values())
    count.judge("the words of all documents", number <= WORDS, f"{number}, and not {WORDS}")


if __name__ == "__main__":
    frame.main(pages, log, pictures, sources, lists, printed, words)
