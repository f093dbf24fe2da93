#!/usr/bin/env python3
"""Compares what the specification names with the sources and with docs/CALLS.md.

    checks/specified.py [--only NAME]

checks/specified_calls.txt has the calls and types that the specification names, one a line: the
crate, the name, and its form as far as the specification gives it.

- The crate has to have it in public, under its name and in that form. Or a row of docs/CALLS.md,
  below "Calls of the specification that have another form", has to name it, and say what does it
  and why. So the script tells what both the sources and the page have lost.
- A row of that table names only what is on the list and differs. Each name in its third cell is
  there: a call or type of any crate, or a variant of one.
- Each crate of others that the specification names is used by the program: by a crate that stands
  below `telegate` in crates.txt, in its src/. With no fault the lines say in which of them.

No program is needed. An allocator that a call takes is no part of its form, nor are receivers,
names of parameters and lifetimes.
"""
import glob
import os
import re
import sys

import frame

sys.path.append(os.path.join(frame.TOP, "tools"))
from laws import exported, functions_of, without_comments

PAGE = os.path.join(frame.TOP, "docs", "CALLS.md")
LIST = os.path.join(frame.HERE, "specified_calls.txt")
HEADING = "Calls of the specification that have another form"
# The crates of others that the specification names.
OTHERS = ["arrayvec", "byteorder", "circular_buffer", "jiff", "thiserror", "toml", "hex", "clap"]
TYPE = re.compile(r"^pub (?:enum|struct|trait|type) (\w+)([^\n{(=;]*)(.*?)(?=^\}|;\n)", re.M | re.S)


def read(name):
    with open(name, encoding="utf-8") as file:
        return file.read()


def wanted():
    """The list: crate, name and form of each."""
    for line in read(LIST).splitlines():
        if line and not line.startswith("#"):
            yield tuple(cell.strip() for cell in line.split("|"))


def calls_of(crate):
    """The public calls of a crate: by name the signature."""
    return {name: function.signature for name, function in functions_of(crate).items() if function.is_public}


def crates():
    return sorted(os.listdir(os.path.join(frame.TOP, "crates")))


def parted(text):
    """The parts between commas, of which none stands in brackets."""
    parts, depth = [""], 0
    for sign in re.sub(r"->", "→", text):
        depth += (sign in "([{<") - (sign in ")]}>")
        if sign == "," and depth == 0:
            parts.append("")
        else:
            parts[-1] += sign
    return [part.strip().replace("→", "->") for part in parts if part.strip()]


def bare(text):
    """Without lifetimes, spaces that don't count, and the comma behind the last part."""
    text = re.sub(r"<'\w+>|'\w+,? ", "", text)
    text = re.sub(r"([\[({]) *", r"\1", re.sub(r"\s+", " ", text))
    return re.sub(r",? *([\])}])", r"\1", text).strip()


def form_of_call(signature):
    """Types of the parameters, and the result, of `(a: A, &B) -> C`; a parameter that is only named
    is open."""
    generics, inner, result = re.fullmatch(r"(<.*?>)?\((.*?)\)(?: -> (.*))?", bare(signature)).groups()
    types = [part.split(": ", 1)[-1] for part in parted(inner) if not re.fullmatch(r"(?:&|&mut |mut )*self", part)]
    types = ["_" if re.fullmatch(r"(?!u\d+$)[a-z]\w*", kind) else kind for kind in types if kind != "Global"]
    return types, result or "()", generics


def fits(form, found):
    """Whether what was found is of this form, which may leave places open."""
    pattern = re.escape(bare(form)).replace(r"\ ", " ")
    return re.fullmatch(re.sub(r"(?<!\w)_(?!\w)", ".*", pattern), bare(found)) is not None


def is_of_form(form, signature):
    types, result, generics = form_of_call(form)
    others, other, has = form_of_call(signature)
    alike = len(types) == len(others) and all(map(fits, types, others)) and fits(result, other)
    return alike and generics in (None, has)


def types_of(crate):
    """The public types of a crate, by name: what stands behind the name."""
    root = os.path.join(frame.TOP, "crates", crate, "src")
    texts = {name: without_comments(read(name)) for name in glob.glob(f"{root}/**/*.rt", recursive=True)}
    library = os.path.join(root, "lib.rt")
    public = exported(texts[library]) if library in texts else None
    found = {}
    for text in texts.values():
        for match in TYPE.finditer(text):
            body = re.sub(r"\s*#\[.*?\]\n|\bpub(?:\(crate\))? ", " ", match[3])
            if public is None or match[1] in public.values():
                found[match[1]] = body + ("}" if "{" in body else "")
        for owner, body in re.findall(r"^impl (\w+) \{\n(.*?)^\}", text, re.M | re.S):
            found |= {f"{owner}::{name}": "" for name in re.findall(r"^    pub const (\w+):", body, re.M)}
    # A name for a type says no more than that type.
    others = {name: body[2:] for name, body in found.items() if body.startswith("= ")}
    for name, body in others.items():
        found[name] = re.sub(r"\w+", lambda word: others.get(word[0], word[0]), found[name])
    return found


def fault_of(name, form, calls, types):
    """What is wrong with a call or type of the list, if it is."""
    if form.startswith(("(", "<")) and name in calls:
        signature = calls[name][len(name):]
        return None if is_of_form(form, signature) else f"the sources have {name}{signature}"
    if name in types:
        alike = not form or fits(form, types[name].lstrip())
        return None if alike else f"the sources have {name} {bare(types[name])}"
    return "the crate has no such call or type"


def rows_of(page):
    """The rows of the table: crate, names, what does it, and why."""
    _, _, part = page.partition(f"## {HEADING}\n")
    for line in part.partition("\n## ")[0].splitlines():
        cells = [cell.strip() for cell in line.strip("|").split("|")]
        if line.startswith("| `") and len(cells) == 4:
            yield cells[0].strip("`"), re.findall(r"`([^`]+)`", cells[1]), cells[2], cells[3]


def is_there(name, all_calls, all_types):
    """Whether a name in backticks is a call, a type, or a variant of one."""
    name = re.match(r"[\w:]*", name)[0]
    owner, _, last = name.rpartition("::")
    if name in all_calls or name in all_types or any(call.endswith(f"::{name}") for call in all_calls):
        return True
    return owner in all_types and re.search(rf"\b{last}\b", all_types[owner]) is not None


def below(crate, table):
    """A crate of this repository, and all of them that it stands on."""
    return {crate}.union(*(below(name, table) for name in table[crate] if name in table))


def uses(other):
    """What the program's crates import of a crate of others: by crate, the names."""
    rows = (line.split(":") for line in read(os.path.join(frame.TOP, "crates.txt")).splitlines() if ":" in line)
    table, found = {name: words.split() for name, words in rows}, {}
    # jiff's dates and times stand in a crate of their own.
    names = "jiff(?:_core)?" if other == "jiff" else other
    for crate in sorted(below("telegate", table)):
        files = glob.glob(os.path.join(frame.TOP, "crates", crate, "src", "**", "*.rt"), recursive=True)
        text = "\n".join(without_comments(read(name)) for name in files)
        imports = re.findall(rf"^use {names}::([^;]*);", text, re.M)
        if imports:
            found[crate] = sorted(set(re.findall(r"\w+", " ".join(imports))))
    return found


def crates_of_others(count):
    """Where the program uses each crate of others that the specification names."""
    for other in OTHERS:
        found = uses(other)
        count.judge(f"the crate {other}", found, "the program uses it nowhere")
        for crate, names in found.items():
            print(f"  {other} in {crate}: {', '.join(names)}")


def specification(count, _program, _folder):
    """Each call and type of the list, each row of the page, and each crate of others."""
    crates_of_others(count)
    calls = {crate: calls_of(crate) for crate in crates()}
    types = {crate: types_of(crate) for crate in crates()}
    rows = list(rows_of(read(PAGE)))
    told = {(crate, name) for crate, names, _, _ in rows for name in names}
    listed = set()
    for crate, name, form in wanted():
        listed.add((crate, name))
        fault = fault_of(name, form, calls[crate], types[crate])
        is_told = (crate, name) in told
        said = f"{fault}, and docs/CALLS.md doesn't say what does it"
        if not fault:
            said = "it is as the specification has it, and docs/CALLS.md says otherwise"
        count.judge(f"{crate}: {name}", bool(fault) == is_told, said)
    for crate, name in sorted(told - listed):
        count.judge(f"{crate}: {name}", False, "docs/CALLS.md has a row for it, and the list hasn't")
    all_calls = {name for found in calls.values() for name in found}
    all_types = {name: body for found in types.values() for name, body in found.items()}
    for crate, names, does, why in rows:
        named = [name for name in re.findall(r"`([^`]+)`", does) if name not in types]
        lost = [name for name in named if not is_there(name, all_calls, all_types)]
        count.judge(f"the row of {crate}: {', '.join(names)}", does and why and not lost, f"not in the sources: {lost}")


if __name__ == "__main__":
    frame.main(specification, needs_program=False)
