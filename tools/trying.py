"""Tries must-fail edits: many at once where one check can judge them, and what that doesn't refuse
alone."""
import contextlib
import dataclasses
import os

import judging
import prover
import tables


@dataclasses.dataclass
class Verdict:
    """What the try of an edit came to."""

    edit: tables.Edit
    # Why it is refused, or that it isn't, or that nothing is known (judging.REFUSED and its like).
    word: str
    # The line that says it best, and the functions and laws that refuse it.
    line: str = ""
    refused_by: list = dataclasses.field(default_factory=list)
    # Whether its twin is proved, or None if it has none or that wasn't tried.
    twin: bool | None = None
    seconds: float = 0.0

    def is_good(self):
        return self.twin is not False and judging.is_good(self.edit, self.word, self.twin)


class Trier:
    """Tries edits of one crate that turn the same crates below it, over one room."""

    def __init__(self, room, log=None, may=None):
        # Of the gate: whether there is time left for these edits.
        self.room, self.log, self.may, self.is_gate = room, log, may, may is not None
        self.has_work = not room.is_new()

    @contextlib.contextmanager
    def put(self, texts):
        """Has these texts stand in the room in place of the crate's own."""
        before = {}
        for file, text in texts.items():
            path = os.path.join(self.room.here, file)
            with open(path, encoding="utf-8") as it:
                before[path] = it.read()
            with open(path, "w", encoding="utf-8") as it:
                it.write(text)
        try:
            yield
        finally:
            for path, text in before.items():
                with open(path, "w", encoding="utf-8") as it:
                    it.write(text)

    def checked(self, name, texts, only=()):
        """What the prover says of these texts, tried once more if the check was killed."""
        with self.put(texts):
            said = self.room.check(only)
            if said.status < 0:
                said = self.room.check(only)
        if self.log:
            os.makedirs(os.path.join(self.log, self.room.crate), exist_ok=True)
            path = os.path.join(self.log, self.room.crate, f"{name}.txt")
            with open(path, "a", encoding="utf-8") as file:
                file.write(f"only: {' '.join(only)}\n{said.text}\n")
        return said

    def tried(self, edits):
        """Yields the verdicts of edits."""
        rounds, alone = judging.rounds_of(edits, self.room.here)
        again = []
        for number, one in enumerate(rounds):
            if self.is_gate and not self.may([edit for edit, _ in one.edits]):
                yield from (Verdict(edit, judging.LEFT) for edit, _ in one.edits)
                continue
            before = self.room.seconds
            only = sorted(one.judged)
            with self.room.taken(self.called(one)):
                said = self.checked(f"round-{number}", one.texts, only)
            share = (self.room.seconds - before) / len(one.edits)
            for edit, judged in one.edits:
                word, line, refused = judging.by_functions(said, judged)
                if word in ("values", "goal"):
                    yield self.with_twin(Verdict(edit, word, line, refused, seconds=share))
                else:
                    again.append((edit, judged, len(one.edits) > 1))
        for edit, judged, is_new in again:
            yield self.alone(edit, judged if is_new else ())
        for edit in alone:
            yield self.alone(edit, edit.refused_by)

    def called(self, one):
        """The functions that a round's functions call. Behind `rt ci` they were proved just now,
        but nothing of that is kept: so their contracts are taken for granted."""
        if not self.is_gate or self.has_work:
            return []
        reached = set().union(*(one.calls.get(name, set()) for name in one.judged)) - one.judged
        places = judging.places_of(self.room.here)
        return sorted(filter(None, (judging.whole_path(name, places) for name in reached)))

    def alone(self, edit, judged):
        """The verdict of an edit that is tried alone: by these functions, and if they don't refuse
        it by all of the crate."""
        if self.is_gate and not self.may([edit]):
            return Verdict(edit, judging.LEFT)
        before = self.room.seconds
        texts = tables.turned(edit, self.room.here)
        found = judging.UNKNOWN, "", []
        if self.is_gate and edit.turns_a_definition():
            # A check of all of the crate would prove each body that rests on the definition.
            judged = judged or judging.laws_of(self.room.here)
        if judged:
            by = judging.by_laws if edit.turns_a_definition() else judging.by_functions
            found = by(self.checked(edit.name, texts, sorted(judged)), judged)
        if found[0] not in judging.REFUSED and not (self.is_gate and self.is_dear(edit)):
            laws = judging.laws_of(self.room.here)
            found = judging.by_all(self.checked(edit.name, texts), edit, laws)
        return self.with_twin(Verdict(edit, *found, seconds=self.room.seconds - before))

    def is_dear(self, edit):
        """Whether the gate leaves out a check of the whole crate, which may take half an hour: only
        an edit of the specification that was seen refused is worth it."""
        return not (edit.specification and edit.seen)

    def with_twin(self, verdict):
        """The verdict, with whether the edit's twin is proved. The gate asks if that decides."""
        edit, is_asked = verdict.edit, verdict.word == "proof" or not self.is_gate
        if edit.twin and verdict.word in judging.REFUSED and is_asked:
            before = self.room.seconds
            texts = tables.turned(edit, self.room.here, edit.twin)
            said = self.checked(f"{edit.name}-twin", texts, verdict.refused_by)
            verdict.twin = said.status == 0
            verdict.seconds += self.room.seconds - before
        return verdict


def by_room(edits):
    """Edits that one room can try, by the crate and the crates below it that they turn."""
    found = {}
    for edit in edits:
        far = tuple(sorted(edit.crates() - {edit.crate}))
        found.setdefault((edit.crate, far), []).append(edit)
    return found
