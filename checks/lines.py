"""The lines that the log may have, with their severities, by the specification of runlog.

The program's words for a note are proved to be those of crates/runlog/specs. `lines` reads these
definitions and gives a regular expression for each line. What a definition leaves open (a number, a
name, a cause) stands there as OPEN: a word in capitals, or `..`, as a document has it.
"""
import functools
import itertools
import os
import re

import frame

SPECS = os.path.join(frame.TOP, "crates/runlog/specs")
FILES = ("Notes", "OrderWords", "Spoilings", "Severities")
OPEN = r"(?:[A-Z]+(?:[:/][A-Z]+)*|\.\.)"
# Definitions whose texts stand in tables of their own, or before a table, and those of octets.
APART = {"reason_words", "skip_words", "cause_words", "line_cause_words"}
APART |= {"hex_text", "letters"}
TOKEN = re.compile(r'"(?:\\.|[^"\\])*"|\+\+|[()]|[^\s()"]+')


def tree(text):
    """The tokens of a text; what stands between parentheses is a list of its own."""
    levels = [[]]
    for token in TOKEN.findall(text):
        if token == "(":
            levels.append([])
        elif token == ")":
            inner = levels.pop()
            levels[-1].append(inner)
        else:
            levels[-1].append(token)
    return levels[0]


@functools.cache
def definitions():
    """The clauses of each definition: its patterns and its body."""
    found = {}
    for name in FILES:
        with open(os.path.join(SPECS, f"{name}.antt"), encoding="utf-8") as file:
            text = re.sub(r"^--.*\n", "", file.read(), flags=re.M)
        for head, body in re.findall(r"^(?!abbrev|use)(\w[^=\n]*?) =((?:.|\n(?=[ \t]))*)", text, re.M):
            name, *patterns = tree(head)
            found.setdefault(name, []).append((patterns, tree(body)))
    return found


def case_of(pattern):
    """The case that a pattern picks, or None if it is a variable."""
    word = pattern[0] if isinstance(pattern, list) else pattern
    return None if re.fullmatch("[a-z_]+", word) else word


def written(words, given):
    """What an expression writes: each regular expression, with the cases that lead to it. `given`
    has what its variables write."""
    if "if" in words:
        words = words[words.index("else") + 1 :]
    ways = [("", ())]
    for is_joint, part in itertools.groupby(words, lambda word: word == "++"):
        if not is_joint:
            more = written_part(list(part), given)
            ways = [(a + b, cases + others) for (a, cases), (b, others) in itertools.product(ways, more)]
    return ways


def written_part(words, given):
    head, *arguments = words
    if isinstance(head, list):
        return written(head, given)
    if head == "codes":
        return [(re.escape(arguments[0][1:-1].replace('\\"', '"')), ())]
    if head in given:
        return given[head]
    if head == "type_name":
        return [(" " + OPEN, ())]
    if head == "order_words":
        [(_, [codes, name, *_])] = definitions()[head]
        return [(written_part([codes, name], {})[0][0] + OPEN, ())]
    if head in APART or head not in definitions():
        return [(OPEN, ())]
    values = [written(argument if isinstance(argument, list) else [argument], given) for argument in arguments]
    return [way for patterns, body in definitions()[head] for way in written_clause(patterns, body, values)]


def written_clause(patterns, body, values):
    """What a clause writes of these arguments. What may be missing is there."""
    if "None" in patterns:
        return []
    given = {pattern: value for pattern, value in zip(patterns, values) if not case_of(pattern)} if values else {}
    cases = tuple(case for case in map(case_of, patterns) if case)
    return [(line, cases + more) for line, more in written(body, given)]


def severity(note, cases):
    """The number of the severity of a note, for the cases that lead to one of its lines."""
    [body] = [body for patterns, body in definitions()["severity_of"] if case_of(patterns[0]) == note]
    if body[0] in definitions():
        [body] = [body for patterns, body in definitions()[body[0]] if case_of(patterns[0]) in cases]
    [number] = [int(number) for [name], [number] in definitions()["number_of"] if name == body[0]]
    return number


def lines():
    """The regular expression of each line, with its severity."""
    found = []
    for patterns, body in definitions()["words"]:
        ways = written(body, {})
        found += [(line, severity(case_of(patterns[0]), cases)) for line, cases in ways]
    return found


def texts(name):
    """The regular expression of each text that this definition writes."""
    return [line for patterns, body in definitions()[name] for line, _ in written(body, {})]
