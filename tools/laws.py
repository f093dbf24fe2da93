#!/usr/bin/env python3
"""Prints what the sources say of laws and calls, and writes it into docs/PROOFS.md and docs/CALLS.md.

    tools/laws.py [CRATE ..]          prints the laws of these crates, or of all
    tools/laws.py --calls CRATE ..    prints their public calls, with what each needs and answers
    tools/laws.py --write             writes the sentences and signatures of both pages anew

A law is a public function without parameters and result: its contract is the statement, and its body may call other laws. What is printed
of a function is the first sentence of its doc comment; of a law a short one has the next with it.

Which functions stand on a page, and in which order, is said by the page itself:

- An item of docs/PROOFS.md begins with the crate and the function: - `crate` `function`: the sentence. Of a function that is no law the page
  has its own words, since the promise stands in clauses and not in the comment.
- A block of docs/CALLS.md has calls with their signatures, each below its sentence. A new call needs only its name and a bracket.

Behind a change of a page or of a doc comment call --write. checks/documents.py fails if a page says anything else.
"""
import argparse
import collections
import functools
import glob
import os
import re
import sys
import textwrap

TOP = os.path.dirname(os.path.dirname(os.path.abspath(__file__)))
COLUMNS = 100
# A first sentence of fewer words has the next one with it.
SHORT = 10
PROOFS, CALLS = "docs/PROOFS.md", "docs/CALLS.md"
SECTION = re.compile(r"^## [^\n]*`(\w+)`\n(.*?)(?=^## |\Z)", re.M | re.S)
BLOCK = re.compile(r"^```rust\n(.*?)^```$", re.M | re.S)
ITEM = re.compile(r"^- `(\w+)` `([\w:]+)`:.*\n(?:  .*\n)*", re.M)
# A function up to its clauses or its body, with what stands before it on its line.
FUNCTION = re.compile(r"^([ ]*)(pub(?:\(\w+\))? )?(?:const )?(?:final )?fn (\w+)(.*?)(?=\n\s*(?:requires|ensures|ghost)\b|\s*\{\n|\s*\{\}|;\n)", re.M | re.S)
OWNER = re.compile(r"^(?:pub )?(impl|trait)\b(.*?)\{$", re.M | re.S)

Function = collections.namedtuple("Function", "name file is_public is_law signature sentences")


def read(name):
    with open(os.path.join(TOP, name), encoding="utf-8") as file:
        return file.read()


def crates():
    return sorted(os.listdir(os.path.join(TOP, "crates")))


def without_comments(text):
    """The text with an empty line in place of each comment, so that places stay on their lines."""
    return re.sub(r"^[ \t]*//.*$", "", text, flags=re.M)


def sentences_above(lines, number):
    """Those of the doc comment above this line, of its first paragraph."""
    above = []
    while number > 0 and lines[number - 1].lstrip().startswith(("//", "#[")):
        number -= 1
        above.insert(0, lines[number].strip())
    text = "\n".join(line[3:].strip() for line in above if line.startswith("///"))
    text = re.sub(r"\[(`[^`\]]+`)\](?:\([^)]*\))?", r"\1", " ".join(text.split("\n\n")[0].split()))
    return re.split(r"(?<=[.!?])\s", re.sub(r"`(?:crate|Self)::", "`", text))


def beginning(function):
    """Its first sentence. A short one has the next with it."""
    first, *others = function.sentences
    return " ".join([first, *others[:len(first.split()) < SHORT]])


def plain(signature, text):
    """On one line, without the comma behind the last parameter, and with the numbers of constants."""
    signature = re.sub(r"\s+", " ", signature).replace("( ", "(").replace(", )", ")").strip()
    for name, number in re.findall(r"const (\w+): usize = (\d+);", text):
        signature = re.sub(rf"\b{name}\b", number, signature)
    return signature


def name_behind(head):
    """The first name behind the parameters in front."""
    depth = 0
    for place, sign in enumerate(head):
        depth += (sign == "<") - (sign == ">")
        if depth == 0 and sign not in "> &":
            return re.match(r"\w+", head[place:]).group()
    return None


def owner_at(text, place):
    """The type or trait whose block a place stands in, whether that is a trait's own, and whether a
    trait is implemented there."""
    last = None
    for block in OWNER.finditer(text, 0, place):
        last = block
    if last is None or re.search(r"^\}", text[last.end():place], re.M):
        return None, False, False
    is_implemented = last.group(1) == "impl" and " for " in last.group(2)
    return name_behind(last.group(2).split(" for ", 1)[-1] if is_implemented else last.group(2)), last.group(1) == "trait", is_implemented


def exported(lib):
    """The names that a crate passes on, each with the name that it has inside."""
    names = {}
    for group in re.findall(r"^pub use (.*?);", lib, re.M | re.S):
        for item in re.findall(r"(\w+)(?: as (\w+))?(?=\s*[,}]|\s*$)", group):
            names[item[1] or item[0]] = item[0]
    names.update({name: name for name in re.findall(r"^pub (?:fn|struct|enum|trait) (\w+)", lib, re.M)})
    return names


@functools.cache
def functions_of(crate):
    """All functions of a crate, private ones too, by the name that a user writes."""
    root = f"crates/{crate}/src"
    files = sorted(glob.glob(f"{root}/**/*.rt", root_dir=TOP, recursive=True))
    texts = {file: read(file) for file in files}
    library = f"{root}/lib.rt"
    # A program passes nothing on: what is public in it is meant.
    names = exported(without_comments(texts[library] if library in texts else "\n".join(texts.values())))
    outside = {inner: outer for outer, inner in names.items()}
    found = {}
    for file, text in texts.items():
        lines, bare = text.splitlines(), without_comments(text)
        for match in FUNCTION.finditer(bare):
            indent, visible, call, rest = match.groups()
            owner, is_trait, is_implemented = owner_at(bare, match.start()) if indent else (None, False, False)
            is_law = not indent and visible == "pub " and re.fullmatch(r"(?:<.*>)?\(\)", rest.strip(), re.S) is not None
            is_public = (owner or call) in outside and (visible == "pub " or is_trait) and not is_implemented and not is_law
            inner = outside.get(owner or call, owner or call)
            name = f"{inner}::{call}" if owner else inner
            sentences = sentences_above(lines, bare.count("\n", 0, match.start()))
            function = Function(name, file[len(root) + 1:], is_public, is_law, plain(name + rest, bare), sentences)
            if name not in found or (function.is_public, not is_implemented) > (found[name].is_public, False):
                found[name] = function
    return found


def items_of(page):
    """What docs/PROOFS.md has: crates and functions."""
    return ITEM.findall(page)


def calls_on(page):
    """What docs/CALLS.md has: crates, calls, and what stands there of each."""
    for crate, text in SECTION.findall(page):
        for block in BLOCK.findall(text):
            for part in block.strip().split("\n\n"):
                signature = re.sub(r"^/// .*\n", "", part, flags=re.M)
                yield crate, re.match(r"[\w:]+", signature).group(), part


def spelled(signature):
    """A signature in at most so many columns: else each parameter has a line."""
    if len(signature) <= COLUMNS:
        return signature
    head, inner, tail = re.fullmatch(r"(.*?)\((.*)\)( -> .*)?", signature).groups()
    parameters = re.split(r", (?![^<]*>)", inner)
    return "\n".join([f"{head}(", *(f"    {parameter}," for parameter in parameters), f"){tail or ''}"])


def wrapped(text, first, next):
    lines = textwrap.wrap(text, COLUMNS, initial_indent=first, subsequent_indent=next, break_on_hyphens=False, break_long_words=False)
    return "\n".join(lines)


def proofs(page):
    """docs/PROOFS.md with the sentences that the sources have of laws. Of other functions the page
    has its own words."""

    def item(found):
        function = functions_of(found[1]).get(found[2])
        if function and not function.is_law:
            return found[0]
        said = beginning(function) if function else "The sources have no such function."
        return wrapped(f"`{found[1]}` `{found[2]}`: {said}", "- ", "  ") + "\n"

    return ITEM.sub(item, page)


def calls(page):
    """docs/CALLS.md with the sentences and signatures of the sources."""

    def section(found):
        functions = functions_of(found[1])

        def block(text):
            parts = []
            for name in re.findall(r"^([A-Za-z][\w:]*)[(<]", text[1], re.M):
                function = functions.get(name)
                if function is None or not function.is_public:
                    parts.append(f"/// The sources have no such call.\n{name}()")
                else:
                    parts.append(f"{wrapped(function.sentences[0], '/// ', '/// ')}\n{spelled(function.signature)}")
            return "```rust\n" + "\n\n".join(parts) + "\n```"

        return found[0].replace(found[2], BLOCK.sub(block, found[2]))

    return SECTION.sub(section, page)


def pages():
    """Each page with its text as it has to be."""
    return {name: write(read(name)) for name, write in ((PROOFS, proofs), (CALLS, calls))}


def main():
    parser = argparse.ArgumentParser(description=__doc__.splitlines()[0])
    parser.add_argument("crates", nargs="*", metavar="CRATE", help="crates in place of all")
    parser.add_argument("--calls", action="store_true", help="print public calls in place of laws")
    parser.add_argument("--write", action="store_true", help="write the sentences of both pages anew")
    options = parser.parse_args()
    unknown = set(options.crates) - set(crates())
    if unknown:
        parser.error(f"no such crate: {', '.join(sorted(unknown))}")
    if options.write:
        for name, text in pages().items():
            with open(os.path.join(TOP, name), "w", encoding="utf-8") as file:
                file.write(text)
        return
    count = 0
    for crate in options.crates or crates():
        for function in functions_of(crate).values():
            if function.is_public if options.calls else function.is_law:
                count += 1
                print(f"{crate}, {function.file}: {function.signature if options.calls else function.name}")
                print(wrapped(function.sentences[0] if options.calls else beginning(function), "    ", "    "))
    print(f"{count} {'calls' if options.calls else 'laws'}", file=sys.stderr)


if __name__ == "__main__":
    main()
