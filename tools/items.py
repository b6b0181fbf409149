"""The items in a file of Rattle, with their contracts, and the clauses that functions share."""

from __future__ import annotations

import collections
import dataclasses
import functools
import itertools
import re
from collections.abc import Iterable, Iterator

from tree import CRATES, is_test_or_example, source

# A string, a character, a lifetime, a name (of antt too), or a sign.
TOKEN = re.compile(
    r"""//[^\n]* | /\*.*?\*/ | b?"(?:\\.|[^"\\])*" | b?'(?:\\[^']*|[^'\\])' | '\w+
    | «[^»]*» | \w[\w']* | :: | -> | => | \S""",
    re.X | re.S,
)
COMMENT = re.compile(r"//[^\n]*|/\*.*?\*/", re.S)
CLOSES = {"(": ")", "[": "]", "{": "}"}
KINDS = {"fn", "struct", "enum", "trait", "impl", "mod", "use", "ghost", "const", "static", "type"}
CLAUSES = {"requires", "ensures", "ghost"}
WITHOUT_BODY = {"use", "const", "static", "type"}
# The words that end an item's head, before its contract and braces.
ENDS_HEAD = {kind: {"{", ";"} for kind in KINDS}
ENDS_HEAD["fn"] |= CLAUSES
# Attributes that only concern the prover, the compiler or a reader.
UNSEEN = {"tactic", "cycle", "inline", "allow", "doc"}
# The attributes that hide nothing, and the one that omits an item from all but tests.
KNOWN = {"derive", "error", "repr", "test", "unsafe"} | UNSEEN
FOR_TESTS = "cfg ( test )"


@dataclasses.dataclass
class Token:
    text: str
    start: int
    end: int


@dataclasses.dataclass
class Clause:
    """A clause of a contract, or a ghost item, in antt; a single clause has no name."""

    kind: str
    name: str
    text: str
    # The place of a contract's clause in the text.
    start: int = 0


@dataclasses.dataclass
class Item:
    """An item: the words before its braces, and those inside."""

    kind: str
    name: str
    is_public: bool
    # The places in the text at which the item begins, and behind its end.
    start: int = 0
    end: int = 0
    attributes: list[str] = dataclasses.field(default_factory=list)
    head: list[str] = dataclasses.field(default_factory=list)
    clauses: list[Clause] = dataclasses.field(default_factory=list)
    # The words between the item's braces, if it has braces.
    body: list[str] | None = None
    inner: list[Item] = dataclasses.field(default_factory=list)


class File:
    """The tokens of a file."""

    def __init__(self, text: str) -> None:
        self.text = text
        found = (Token(it[0], it.start(), it.end()) for it in TOKEN.finditer(text))
        self.tokens = [it for it in found if not COMMENT.fullmatch(it.text)]
        self.closing = self.brackets()

    def brackets(self) -> dict[int, int]:
        """Finds the place where each bracket closes."""
        found, opened = {}, []
        for at, token in enumerate(self.tokens):
            if token.text in CLOSES:
                opened.append(at)
            elif token.text in CLOSES.values():
                start = opened.pop()
                if CLOSES[self.tokens[start].text] != token.text:
                    raise ValueError(f"brackets: {self.text[self.tokens[start].start : token.end]}")
                found[start] = at
        return found

    def words(self, start: int, end: int) -> list[str]:
        """Returns some words, without a comma before a bracket, which is only layout."""
        found = [it.text for it in self.tokens[start:end]]
        behind = [*found[1:], ""]
        return [it for it, after in zip(found, behind) if it != "," or after not in (")", "}", "]")]

    def text_of(self, start: int, end: int) -> str:
        """Returns the text of some words, without comments."""
        if start == end:
            return ""
        return COMMENT.sub("", self.text[self.tokens[start].start : self.tokens[end - 1].end])

    def between(self, start: int) -> str:
        """Returns the text between a brace and the one that closes it."""
        return self.text_of(start + 1, self.closing[start])

    def until(self, start: int, end: int, stops: set[str]) -> int:
        """Finds the first of some words after a place, outside brackets."""
        at = start
        while at < end and self.tokens[at].text not in stops:
            at = self.closing.get(at, at) + 1
        return at

    def items(self) -> list[Item]:
        return self.items_in(0, len(self.tokens))

    def items_in(self, at: int, end: int) -> list[Item]:
        """Returns the items between two places."""
        found = []
        while at < end:
            at, attributes = self.attributes(at, end)
            if at < end:
                item, at = self.item(at, end)
                item.attributes = attributes
                found.append(item)
        return [it for it in found if it.kind != ";"]

    def attributes(self, at: int, end: int) -> tuple[int, list[str]]:
        """Returns the place after some attributes, and the attributes that change the meaning of an
        item."""
        found = []
        while at < end and self.tokens[at].text == "#":
            opens = self.until(at, end, {"["})
            found.append(self.words(opens + 1, self.closing[opens]))
            if found[-1][0] not in KNOWN and " ".join(found[-1]) != FOR_TESTS:
                raise ValueError(f"an attribute that may hide items: {' '.join(found[-1])}")
            at = self.closing[opens] + 1
        return at, [" ".join(it) for it in found if it[0] not in UNSEEN]

    def item(self, at: int, end: int) -> tuple[Item, int]:
        """Returns the item at a place, and the place after it."""
        kind_at = self.until(at, end, KINDS | {";"})
        kind = self.tokens[kind_at].text if kind_at < end else ";"
        words = self.words(at, min(kind_at + 1, end))
        if "!" in words[:2]:
            raise ValueError(f"a macro among items, which hides its items: {words[0]}!")
        if kind == "const" and self.tokens[kind_at + 1].text == "fn":
            kind, kind_at = "fn", kind_at + 1
        name = self.tokens[kind_at + 1].text if kind_at + 1 < end else ""
        item = Item(kind, name, self.is_public(at))
        if kind in WITHOUT_BODY:
            stop = self.until(at, end, {";"})
            item.head = self.words(at, stop)
        elif kind == "ghost":
            stop = self.until(at, end, {";"})
            item.kind = "ghost use" if name == "use" else kind
            item.clauses = [Clause(item.kind, name, self.text_of(kind_at + 2, stop))]
        elif kind == ";":
            stop = kind_at
        else:
            stop = self.with_body(item, kind_at, end)
            item.head = self.words(at, self.until(kind_at, end, ENDS_HEAD[kind]))
        item.start = self.tokens[at].start
        item.end = self.tokens[min(stop, len(self.tokens) - 1)].end
        return item, stop + 1

    def is_public(self, at: int) -> bool:
        """Whether an item or a field is public."""
        return self.tokens[at].text == "pub" and self.tokens[at + 1].text != "("

    def with_body(self, item: Item, at: int, end: int) -> int:
        """Reads the contract and the body of an item, and returns the end of the body."""
        stop = self.until(at, end, ENDS_HEAD[item.kind])
        while stop < end and self.tokens[stop].text in CLAUSES:
            opens = self.until(stop, end, {"{"})
            name = "".join(it for it in self.words(stop + 1, opens) if it not in ("*", ":"))
            word = self.tokens[stop]
            item.clauses.append(Clause(word.text, name, self.between(opens), word.start))
            stop = self.closing[opens] + 1
            stop += stop < end and self.tokens[stop].text == ","
        if stop < end and self.tokens[stop].text == "{":
            item.body = self.words(stop + 1, self.closing[stop])
            if item.kind in ("impl", "trait", "mod"):
                item.inner = self.items_in(stop + 1, self.closing[stop])
            elif item.kind == "struct":
                item.inner = self.fields(stop + 1, self.closing[stop])
            stop = self.closing[stop]
        return stop

    def fields(self, at: int, end: int) -> list[Item]:
        """Returns the fields of a struct, and the facts that the struct keeps about them."""
        found = []
        while at < end:
            at, attributes = self.attributes(at, end)
            stop, depth = at, 0
            while stop < end and (depth or self.tokens[stop].text != ","):
                depth += {"<": 1, ">": -1}.get(self.tokens[stop].text, 0)
                stop = self.closing.get(stop, stop) + 1
            words = self.words(at, stop)
            field = Item("field", "", bool(words) and self.is_public(at))
            field.attributes, field.head = attributes, words
            if "ghost" in words[:2]:
                name_at = at + words.index("ghost") + 1
                name, text = self.tokens[name_at].text, self.text_of(name_at + 1, stop)
                field.clauses = [Clause("ghost", name, text)]
            if words:
                found.append(field)
            at = stop + 1
        return found


def all_items(found: Iterable[Item]) -> Iterator[Item]:
    """Yields items, and those inside their braces."""
    for item in found:
        yield item
        yield from all_items(item.inner)


@functools.cache
def functions(text: str) -> list[Item]:
    """Returns the functions of a file, also those of its impls, traits and modules."""
    return [it for it in all_items(File(text).items()) if it.kind == "fn"]


def shared_clauses() -> dict[str, int]:
    """Counts, in the crates but tests and examples, the clauses that the two most similar functions
    share word for word, and the lines of longer clauses behind the first function that has them."""
    files = sorted(CRATES.glob("*/src/**/*.rt"))
    read = [it for it in files if not is_test_or_example(it.relative_to(CRATES).parts[0])]
    of_clause = collections.defaultdict(set)
    for number, function in enumerate(it for file in read for it in functions(source(file))):
        for clause in function.clauses:
            of_clause[f"{clause.kind} {clause.name} {{{clause.text}}}"].add(number)
    pairs: collections.Counter[tuple[int, int]] = collections.Counter()
    again = 0
    for text, numbers in of_clause.items():
        pairs.update(itertools.combinations(sorted(numbers), 2))
        lines = text.count("\n") + 1
        again += (len(numbers) - 1) * lines if lines > 1 else 0
    return {
        "clauses that two functions share": max(pairs.values()),
        "lines of longer clauses that stand again": again,
    }
