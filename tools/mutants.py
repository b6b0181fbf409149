"""The standard mutations of a file in Python, C or Rust, one at a time, for tools/mutate.py."""

import re
from typing import NamedTuple


class Mutant(NamedTuple):
    """A mutation replaces the bytes from start to end by new."""

    start: int
    end: int
    operator: str
    new: str


class Language(NamedTuple):
    """The tokens of a language, and the forms that replace others in it."""

    gap: str
    text: str
    negation: str
    constants: list
    value: str
    statement: str
    lists: str


C_GAP = r"\s+|//[^\n]*|/\*.*?\*/|^[ \t]*#(?:\\\n|[^\n])*"
C_TEXT = r"\w?\"(?:\\.|[^\"\\])*\"|b?'(?:\\[^']+|[^'\\])'"
PYTHON_GAP = r"[ \t]+|\\\n|\#[^\n]*"
PYTHON_TEXT = r"\w{0,2}(?:\"{3}.*?\"{3}|'{3}.*?'{3}|\"(?:\\.|[^\"\\\n])*\"|'(?:\\.|[^'\\\n])*')"
C = Language(C_GAP, C_TEXT, "(!{})", ["(0)", "(1)"], "0", "", "{")
RUST = Language(C_GAP, C_TEXT, "!({})", ["false", "true"], "Default::default()", "", "[")
PYTHON = Language(PYTHON_GAP, PYTHON_TEXT, "not ({})", ["False", "True"], "None", "pass", "([{")
LANGUAGES = {".c": C, ".h": C, ".rs": RUST, ".py": PYTHON}

SIGN = r"<<=|>>=|\*\*|\.\.=|->|=>|::|&&|\|\||<<|>>|[-+*/%&|^=<>!:]=|//|\n\s*|."
SWAPPED = dict(zip("< > == && and + * << &".split(), "<= >= != || or - / >> |".split()))
SWAPPED |= {new: old for old, new in SWAPPED.items()}
LOGIC = {*"&& || and or".split()}
NEGATED = {"in": "not in", "is": "is not"}
FLIPPED = {"true": "false", "false": "true", "True": "False", "False": "True"}
OPENING = {")": "(", "]": "[", "}": "{"}
TESTED = {*"if while elif assert".split()}
AFTER_A_TEST = {*"{ : else for if ,".split(), "\n"}
ENDS = LOGIC | TESTED | AFTER_A_TEST | {*"; ? } = => return let not in is += -= *= |=".split()}
NO_STATEMENT = {*"let use typedef static extern pub struct const type else import from".split()}
NO_CALL = TESTED | {*"for switch sizeof return match pub in import except".split()}


class Tokens:
    """The tokens of a file and, for each token, the bracket around it."""

    def __init__(self, source, language):
        self.source, self.language = source.decode("latin-1"), language
        kinds = {"gap": language.gap, "text": language.text, "number": r"\d\w*"}
        kinds |= {"logic": r"\b(?:and|or|not)\b", "word": r"[A-Za-z_]\w*", "sign": SIGN}
        form = "|".join(f"(?P<{kind}>{it})" for kind, it in kinds.items())
        self.found, self.texts, self.within = [], [], []
        self.pair, opened = {}, []
        for token in re.finditer(form, self.source, re.S | re.M):
            at, text = len(self.found), token.group()
            # the end of a line has a meaning only outside of brackets
            if token.lastgroup == "gap" or text[0] == "\n" and opened:
                continue
            if text in OPENING and opened:
                self.pair[at] = opened.pop()
                self.pair[self.pair[at]] = at
            self.found.append(token)
            self.texts.append("\n" if text[0] == "\n" else text)
            self.within.append(opened[-1] if opened else -1)
            if text in OPENING.values():
                opened.append(at)

    def mutant(self, operator, first, last, new):
        return Mutant(self.found[first].start(), self.found[last].end(), operator, new)

    def constant(self, first, last, new=None):
        new = self.language.value if new is None else new
        return self.mutant("expression made a constant", first, last, new)

    def text(self, first, last):
        return self.source[self.found[first].start() : self.found[last].end()]

    def edge(self, at, step, ends):
        """Finds the last token, in one direction, of the operand beside the token at a place."""
        while 0 <= at + step < len(self.texts):
            beside = at + step
            text = self.texts[beside]
            begins_group = text in (OPENING if step < 0 else OPENING.values())
            if text in ends or not begins_group and self.within[beside] != self.within[at]:
                break
            at = self.pair.get(beside, beside) if begins_group else beside
        return at

    def parts(self, opening):
        """Yields the first and last token of each part between commas inside a bracket."""
        closing = self.pair.get(opening, opening)
        inside = range(opening, closing)
        commas = [at for at in inside if self.texts[at] == "," and self.within[at] == opening]
        edges = [opening, *commas, closing]
        return [(low + 1, high - 1) for low, high in zip(edges, edges[1:]) if low + 1 < high]

    def mutants(self):
        made = {"number": self.of_number, "text": self.of_text, "word": self.of_word}
        for at, token in enumerate(self.found):
            yield from made.get(token.lastgroup, self.of_sign)(at, token.group())

    def of_number(self, at, text):
        digits = re.match(r"0[xX][0-9a-fA-F]+|\d+", text)[0]
        more = hex(int(digits, 16) + 1) if "x" in digits.lower() else str(int(digits) + 1)
        yield self.mutant("constant changed", at, at, more + text[len(digits) :])

    def of_text(self, at, text):
        front = text[: text.index(text[-1])]
        new = '"x"' if len(text) == len(front) + 2 else '""'
        beside = {*self.texts[max(at - 1, 0) : at], *self.texts[at + 1 : at + 2]}
        if self.language is not PYTHON or not beside <= {"\n"}:  # it is no docstring
            is_letter = text[-1] == "'" and self.language is not PYTHON
            yield self.mutant("constant changed", at, at, front + ("'~'" if is_letter else new))

    def of_word(self, at, text):
        if text in FLIPPED:
            yield self.mutant("constant changed", at, at, FLIPPED[text])
        if text in TESTED and self.texts[at + 1] != "let":
            last = self.pair[at + 1] if self.language is C else self.edge(at, 1, AFTER_A_TEST)
            negated = self.language.negation.format(self.text(at + 1, last))
            yield self.mutant("condition negated", at + 1, last, negated)
            for constant in self.language.constants[: 1 if text == "while" else 2]:
                yield self.constant(at + 1, last, constant)
        if text == "return" and self.texts[at + 1] not in ";\n":
            yield self.constant(at + 1, self.edge(at, 1, {";", "}", "\n"}))
        if text in NEGATED and self.language is PYTHON and "not" not in self.texts[at - 1 : at + 2]:
            if self.texts[self.edge(at, -1, ENDS - {","}) - 1] != "for":
                yield self.mutant("comparison swapped", at, at, NEGATED[text])
            else:
                yield self.constant(at + 1, self.edge(at, 1, AFTER_A_TEST), "()")

    def of_sign(self, at, text):
        above, below = self.found[at - 1].end(), self.found[at].end()
        around = self.source[above : self.found[at].start()], self.source[below : below + 1]
        is_name = self.found[at - 1].lastgroup == "word" and self.texts[at - 1] not in NO_CALL
        if text in SWAPPED and all(map(str.isspace, around)):
            yield from self.of_operator(at, text)
        if text in ("!", "not") and not is_name:
            yield self.mutant("condition negated", at, at, "")
        is_end = text == ";" and self.texts[self.within[at]] == "{"
        if is_end or text[0] == "\n" and self.texts[at - 1] != ":":
            first = self.edge(at, -1, {*";{}\n:"})
            is_statement = self.texts[first] not in NO_STATEMENT
            if first < at and is_statement and self.found[first].lastgroup != "text":
                yield self.mutant("statement dropped", first, at - 1, self.language.statement)
        if text == "[" and is_name and ":" in self.texts[at : self.pair.get(at, at)]:
            yield self.mutant("operand dropped", at, self.pair[at], "")
        if text == "(" and is_name and self.texts[at - 2] not in ("fn", "def", "class"):
            # outside of all brackets, C and Rust have parameters
            if self.language is PYTHON or self.within[at] >= 0:
                yield from self.of_call(self.parts(at))
        elif text in self.language.lists and not is_name and len(self.parts(at)) > 1:
            for first, last in self.parts(at):
                if ";" not in self.texts[first:last]:
                    yield self.without("element dropped", first, last)

    def without(self, operator, first, last):
        return self.mutant(operator, first, last + (self.texts[last + 1] == ","), "")

    def of_operator(self, at, text):
        kind = "comparison" if text in "<= >= == !=" else "operator"
        yield self.mutant(f"{kind} swapped", at, at, SWAPPED[text])
        ends = ENDS if text in LOGIC else ENDS | SWAPPED.keys()
        first, last = self.edge(at, -1, ends), self.edge(at, 1, ends)
        if first < at < last:
            left, right = self.text(first, at - 1), self.text(at + 1, last)
            yield self.mutant("operand dropped", first, last, left)
            yield self.mutant("operand dropped", first, last, right)
            if text in ("-", "/", "<<", ">>"):
                yield self.mutant("operands swapped", first, last, f"{right} {text} {left}")

    def of_call(self, arguments):
        # the order of named arguments has no effect
        plain = [(first, last) for first, last in arguments if "=" not in self.texts[first:last]]
        for (first, end), (second, last) in zip(plain, plain[1:]):
            swapped = f"{self.text(second, last)}, {self.text(first, end)}"
            yield self.mutant("operands swapped", first, last, swapped)
        for first, last in arguments:
            if self.language is PYTHON:
                yield self.without("argument dropped", first, last)
            else:
                yield self.constant(first, last)


def mutants_of(path):
    """Returns the mutants of a file, each only once, and none equal to the file."""
    source = path.read_bytes()
    found = Tokens(source, LANGUAGES[path.suffix]).mutants()
    places = {(it.start, it.end, it.new): it for it in found}
    return sorted(it for it in places.values() if it.new.encode() != source[it.start : it.end])
