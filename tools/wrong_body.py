"""A wrong body: its place in its crate, in combination with others, and the verdict of a check."""

from __future__ import annotations

import pathlib
import re
from collections.abc import Iterator

from edits import Change, Edit, Texts, blocks_in
from items import functions

# The word in a sum for the mark of a line.
SUMMED = {"in": "file", "-": "old", "+": "new"}
# Errors of a proof that names a removed thing, or rests on an unproved one.
OF_NAMES = re.compile(r"has no field|is not in scope|has no `|was not admitted")
# Weaker evidence than a false goal.
LIMIT = "a limit of the prover, which is weaker evidence"
LOST_NAME = "a name that the edit removed, which is weaker evidence"


class WrongBody(Edit):
    """An edit of a function's body, which the prover must refuse."""

    def __init__(self, crate: str, block: str) -> None:
        super().__init__(block)
        self.crate, self.function = crate, self.of
        # The text over which a sum is noted: another form would have every body tried again.
        self.summed = f"fn: {self.function}\n"
        for mark, _, text in (line.partition(" ") for line in self.lines):
            self.summed += f"{SUMMED[mark]}: {text}\n"

    def __str__(self) -> str:
        return f"{self.crate}/{self.name}"

    def is_local(self, texts: Texts) -> bool:
        """Whether the edit changes only its function, and therefore no other plant."""
        return all(self.is_inside(it, texts) for it in self.changes)

    def is_inside(self, change: Change, texts: Texts) -> bool:
        """Whether the edit's function has the text of a change."""
        file, name = change.place(texts), self.function.split("::")[-1]
        if not file.endswith(".rt"):
            return False
        start = texts[file].index(change.old)
        end = start + len(change.old)
        named = [it for it in functions(texts[file]) if it.name == name]
        return any(it.start < start and end <= it.end for it in named)

    def judge(self, output: str) -> str | bool | None:
        """Returns the goal at which a check refuses the edit's function. Returns False if the
        function is proved, or None if the function waits for the proof of another."""
        name = re.escape(f"{self.crate}::{self.function}")
        # the lines above its own, up to another function's, and the check's words about it
        line = re.search(rf"((?:^(?!fn ).*\n)*)^fn {name}: (.*)", output, re.M)
        if line is None:
            return None
        above, said = line.groups()
        if said.startswith("proved"):
            return False
        goal = re.search(r"did not prove (`[^`]*`)|could not tell", said)
        goal = goal or re.search(r"it is not proved that .*\((`[^`]*`)\)", above)
        if goal:
            return goal[1] or LIMIT
        if error := self.error_of_answer(output):
            return f"{error}, at its written answer"
        if lemma := self.false_lemma(output):
            return f"{lemma}, a lemma of its proof"
        return None if "it calls" in said else LOST_NAME

    def error_of_answer(self, output: str) -> str:
        """Returns the first error in the function's written answers other than a lost name: the
        goal at its beginning, or the first letters."""
        folder = self.function.replace("::", "/")
        form = rf"^\./proofs/{folder}/\w+\.antt:\d+:\d+: error: (.*)"
        errors: Iterator[str] = (it[1] for it in re.finditer(form, output, re.M))
        error = next((it for it in errors if not OF_NAMES.search(it)), "")
        goal = re.match(r"`[^`]*`", error)
        return goal[0] if goal else error[:80]

    def false_lemma(self, output: str) -> str:
        """Returns the lemma that the edit makes false, if the function's written answers use
        one."""
        folder = self.function.replace("::", "/")
        form = rf"^\./proofs/{folder}/\w+\.antt:\d+:\d+: error: .* which was not admitted"
        if not re.search(form, output, re.M):
            return ""
        form = r"^\./proofs/[A-Z]\w*\.antt:\d+:\d+: error: (`[^`]*`): (.*)"
        lemmas = re.findall(form, output, re.M)
        return next((name for name, said in lemmas if not OF_NAMES.search(said)), "")


def wrong_bodies_of(crate: pathlib.Path) -> list[WrongBody]:
    """Returns the wrong bodies in a crate's folder."""
    return [WrongBody(crate.name, it) for it in blocks_in(crate / "wrong-bodies.edits")]


def groups(edits: list[WrongBody], texts: Texts) -> Iterator[tuple[list[WrongBody], Texts]]:
    """Returns edits that the script can plant together, each in a different function, with the
    resulting texts."""
    while edits:
        group, planted, later = list[WrongBody](), texts, list[WrongBody]()
        for edit in edits:
            more = edit.planted(planted) if fits(edit, group, texts) else None
            if more is None:
                later.append(edit)
            else:
                group.append(edit)
                planted = more
        yield group, planted
        edits = later


def fits(edit: WrongBody, group: list[WrongBody], texts: Texts) -> bool:
    """Whether an edit can join a group."""
    if not group:
        return True
    is_own = edit.function not in [it.function for it in group]
    return is_own and edit.is_local(texts) and group[0].is_local(texts)
