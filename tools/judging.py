"""Judges must-fail edits: which functions an edit turns, which edits fit into one check, and why
the prover refuses one."""
import glob
import os
import re

import tables

# The head of a function, with what is indented before it, and that of an impl or of a trait.
HEAD = re.compile(r"^( *)(?:pub(?:\(\w+\))? )?(?:const |unsafe )*fn (\w+)", re.M)
OWNER = re.compile(
    r"^impl\b(?:<\n(?: .*\n)*?>|<.*?>(?= ))? ?"
    r"(?:([A-Z]\w*)(?:<(.*)>)? for )?&?(?:'\w+ )?(?:mut )?([A-Z]\w*)"
    r"|^(?:pub )?trait (\w+)",
    re.M,
)
# A law: a public function without parameters and result. Its body is empty, or calls other laws.
LAW = re.compile(r"^pub fn (\w+)(?:<[^>]*>)?\(\)$", re.M)
# What stands in front of the arguments of a call: of a method, and of another function.
METHOD = re.compile(r"\.(\w+)(?=\(|::<)")
CALLED = re.compile(r"(?<![.\w])(?:(\w+)(?:::<[^()]*>)?::)?(\w+)(?=\(|::<)")
# What the prover says where a goal isn't proved, where it knows values at which one is false, and
# where a proof by hand doesn't fit, or names what is gone.
GOAL = re.compile(r"^note: (?:\./)?src/\S+: it is not proved.*|^.*`search` did not prove.*", re.M)
VALUES = re.compile(
    r"^note: .*(?:allow values at which|may be false: the known facts|the goal fails,? at).*", re.M
)
PROOF = re.compile(r"^(?:\./)?proofs/\S+: error.*$", re.M)
NAMES = re.compile(r"has no field|is not in scope|has no `")
# An error in a text of src/ or specs/, and what it says where the text can't be read.
WRONG = re.compile(
    r"^(?:\./)?(?:src|specs)/\S+?:\d+:\d+: error(?:\[[\w-]+\])?: (?:(`[^`]*`): )?(.*)", re.M
)
UNREADABLE = re.compile(
    r"is not in scope|has no field|is no name|operand is missing|expected the end|cannot continue"
)
# A function that a line names behind 'it calls', by its path below the crate.
CALLEE = re.compile(r"\w+::([\w:+]+)`")
# The most edits of one check: each costs memory.
MOST = 10
# Words that say that the prover refuses an edit, that it doesn't, and that nothing is known.
REFUSED = ("values", "goal", "proof", "names", "law")
PROVED, BAD, UNKNOWN, LEFT = "PROVED", "bad edit", "not tried", "left out"


def within(file, name):
    """The path of what stands in a file of src/ under a name."""
    module = re.sub(r"^src/|(?:/mod)?\.rt$", "", file).replace("/", "::")
    return name if module in ("lib", "main") else f"{module}::{name}"


def function_at(file, text, place):
    """The function whose body or contract has this place, as `--only` names it, or None."""
    heads = [head for head in HEAD.finditer(text, 0, place + 1) if head.start() <= place]
    if not heads:
        return None
    head = heads[-1]
    end = re.compile(rf"^{head[1]}(?:}}|[^\s}}].*;)$", re.M).search(text, head.end())
    if end and end.end() <= place:
        return None
    if not head[1]:
        return within(file, head[2])
    owners = list(OWNER.finditer(text, 0, head.start()))
    return f"{owner_name(owners[-1])}::{head[2]}" if owners else None


def owner_name(owner):
    """The prover's name for what an impl or a trait has: the type, and behind it the trait."""
    trait, given, name, declared = owner.groups()
    return declared or name + (trait or "") + re.sub(r"\W", "", given or "")


def functions_of(edit, here):
    """The functions whose bodies an edit turns, or None if it turns something else of src/ too."""
    found = set()
    for file, old, _ in edit.pairs:
        if file.startswith("src/"):
            with open(os.path.join(here, file), encoding="utf-8") as it:
                text = it.read()
            # An old text may begin with the indentation of its line.
            start = text.index(old) + len(old) - len(old.lstrip())
            name = function_at(file, text, start)
            if name is None:
                return None
            found.add(name)
    return found


def sources_of(here):
    """The texts of a crate's files of src/, by their paths below the crate."""
    found = {}
    for path in sorted(glob.glob(os.path.join(here, "src", "**", "*.rt"), recursive=True)):
        with open(path, encoding="utf-8") as it:
            found[os.path.relpath(path, here)] = it.read()
    return found


def laws_of(here):
    """The paths of the crate's laws."""
    texts = sources_of(here)
    return {within(file, law) for file, text in texts.items() for law in LAW.findall(text)}


def bodies_of(here):
    """The text of each function of a crate, without comments, by its path."""
    found = {}
    for file, text in sources_of(here).items():
        heads = list(HEAD.finditer(text))
        for head, end in zip(heads, [*(it.start() for it in heads[1:]), len(text)]):
            name = function_at(file, text, head.end()) or within(file, head[2])
            body = re.sub(r"//.*", "", text[head.end() : end])
            found[name] = body.replace("Self::", f"{owner_of(name)}::")
    return found


def owner_of(name):
    """The type of a method's path, or "" of another function's."""
    owner = name.split("::")[-2] if "::" in name else ""
    return owner if owner[:1].isupper() else ""


def calls_of(here):
    """The functions that each function of a crate may call, also by way of others. A method that
    is called may be any of its name."""
    bodies, named = bodies_of(here), {}
    for name in bodies:
        named.setdefault(name.split("::")[-1], set()).add(name)
    found = {}
    for name, body in bodies.items():
        methods = [it for word in METHOD.findall(body) for it in named.get(word, ())]
        found[name] = {it for it in methods if owner_of(it)}
        for owner, word in CALLED.findall(body):
            owner = owner if owner[:1].isupper() else ""
            found[name] |= {it for it in named.get(word, ()) if is_of(owner, it)}
    for through in found:
        for names in found.values():
            if through in names:
                names |= found[through]
    return found


def places_of(here):
    """The module of each type of a crate, by its name."""
    found = {}
    for file, text in sources_of(here).items():
        for name in re.findall(r"^(?:pub(?:\(\w+\))? )?(?:struct|enum|trait) (\w+)", text, re.M):
            found[name] = within(file, name)
    return found


def whole_path(name, places):
    """The path of a function below its crate, as its proof's folder has it, or None."""
    owner = owner_of(name)
    if not owner:
        return name
    types = [it for it in places if owner.startswith(it)]
    if not types:
        return None
    of = max(types, key=len)
    return f"{places[of]}{owner[len(of):]}::{name.split('::')[-1]}"


def is_of(owner, name):
    """Whether a function is one of this type's, or none of a type if that is ""."""
    return owner_of(name).startswith(owner) if owner else not owner_of(name)


class Round:
    """Edits of distinct functions, none of which calls another one's, that one check judges."""

    def __init__(self, calls):
        self.calls, self.edits, self.texts = calls, [], {}
        self.turned, self.judged = set(), set()

    def takes(self, edit, turned, judged, here):
        """Adds an edit if it fits, and tells whether it did."""
        if len(self.edits) == MOST or self.meets(turned, judged):
            return False
        try:
            self.texts = tables.turned(edit, here, before=self.texts)
        except ValueError:
            return False
        self.edits.append((edit, judged))
        self.turned |= turned
        self.judged |= judged
        return True

    def meets(self, turned, judged):
        """Whether one of the functions is one of the round's, calls one, or is called by one."""
        if (turned | judged) & (self.turned | self.judged):
            return True
        return self.may_call(judged, self.turned) or self.may_call(self.judged, turned)

    def may_call(self, callers, called):
        return any(called & self.calls.get(name, set()) for name in callers)


def rounds_of(edits, here):
    """The rounds for edits that turn bodies, and the edits that are to be tried alone."""
    rounds, alone, calls = [], [], calls_of(here)
    for edit in edits:
        turned = None if edit.turns_a_definition() else functions_of(edit, here)
        judged = set(edit.refused_by) or turned
        if not turned:
            # What turns a definition or a constant may have other functions refused too.
            alone.append(edit)
        elif not any(it.takes(edit, turned, judged, here) for it in rounds):
            rounds.append(Round(calls))
            rounds[-1].takes(edit, turned, judged, here)
    return rounds, alone


def unreadable(said):
    """What says that a text of src/ or specs/ can't be read, so that no contract was tried."""
    for found in WRONG.finditer(said.text):
        if not found[1] or UNREADABLE.search(found[2]):
            return found[0]
    return ""


def told_of(said, function):
    """What is said of a function: what stands between the line of the one before it and its own,
    and the lines that name a file of its proof."""
    blocks, told = re.split(r"^(?=fn )", said.text, flags=re.M), []
    for before, block in zip(blocks, blocks[1:]):
        name = re.match(r"fn \w+::(\S+):", block)
        if name and f"::{name[1]}".endswith(f"::{function}"):
            # The block before begins with the line of the function before.
            told += [*before.split("\n")[1:], block.split("\n")[0]]
            folder = f"proofs/{name[1].replace('::', '/')}/"
            lines = [line for line in said.text.split("\n") if folder in line]
            told += [line for line in lines if VALUES.match(line) or PROOF.match(line)]
    return "\n".join(told)


def why(said, function):
    """Why a function isn't proved, in a word and with the line that says it best. None if it is,
    or if it calls one that isn't: its own goals may then be left for that alone."""
    lines = [line for line in said.of(function) if is_unproved(line)]
    called = [name for line in lines for name in CALLEE.findall(line.partition("it calls `")[2])]
    # One that has a hole in place of its proof is named there, too.
    if not lines or any(map(is_unproved, (it for name in called for it in said.of(name)))):
        return None
    told = told_of(said, function)
    refused = PROOF.findall(told)
    names = [line for line in refused if NAMES.search(line)]
    reasons = (("values", VALUES.findall(told)), ("names", names), ("goal", GOAL.findall(told)))
    for word, found in (*reasons, ("proof", refused or lines)):
        if found:
            return word, found[0].strip()


def is_unproved(line):
    return line.startswith(("not proved", "no proof"))


def is_proved(line):
    """Whether a function is proved, or would be but for a hole in the proof of what it calls."""
    return line in ("proved", "no holes") or line.startswith("depends on a hole")


def best(found):
    """The strongest of some reasons."""
    return min(found, key=lambda it: REFUSED.index(it[0]))


def by_functions(said, functions):
    """The word of an edit that these functions have to refuse, the line that says it best, and
    those that refuse it."""
    if unreadable(said):
        return BAD, unreadable(said), []
    if not said.reached():
        return UNKNOWN, said.text.strip().split("\n")[-1], []
    found = {name: why(said, name) for name in functions}
    refused = sorted(name for name, reason in found.items() if reason)
    if refused:
        return *best(found[name] for name in refused), refused
    lines = [said.of(name) for name in functions]
    if all(it and all(map(is_proved, it)) for it in lines):
        return PROVED, "", []
    return UNKNOWN, "no line says that its function is proved", []


def by_laws(said, laws):
    """The same of an edit that turns a definition, and that one of these laws has to refuse."""
    word, line, refused = by_functions(said, laws)
    if word not in REFUSED:
        return word, line, refused
    return "law", f"{', '.join(refused)}: {line}", refused


def by_all(said, edit, laws):
    """The same of any edit, by a check of the whole crate."""
    if unreadable(said):
        return BAD, unreadable(said), []
    if not said.reached():
        return UNKNOWN, said.text.strip().split("\n")[-1], []
    if said.status == 0:
        return PROVED, "", []
    found = {name: why(said, name) for name in said.lines}
    own = sorted(name for name, reason in found.items() if reason)
    if not own:
        return UNKNOWN, "no function is refused by itself", []
    if edit.turns_a_definition() and set(own) <= laws:
        return "law", ", ".join(own), own
    return *best(found[name] for name in own), own


def is_good(edit, word, is_twin_proved):
    """Whether an edit is refused as it should be: at a goal, by a proof where its twin is proved,
    or by laws if it turns a definition."""
    if edit.turns_a_definition():
        return word == "law"
    return word in ("values", "goal") or word == "proof" and bool(is_twin_proved)
