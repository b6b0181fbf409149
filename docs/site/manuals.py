"""The directive `manual:: FILE`, for a manual page with the macros of man(7) that our manuals
use."""

import pathlib
import re

from docutils import nodes
from docutils.parsers.rst import Directive

FONTS = {"B": nodes.strong, "I": nodes.emphasis}
MARKS = {r"\-": "-", r"\e": "\\", r"\\": "\\", r"\(cq": "'", r"\(aq": "'", r"\&": ""}
MARK = re.compile("|".join(map(re.escape, MARKS)))


def plain(text):
    return MARK.sub(lambda found: MARKS[found[0]], text)


def inline(text):
    """Returns the nodes of a line with fonts. A name before a section number is a link."""
    found = []
    for font, words in re.findall(r"(?:\\f(.)|\A)((?:\\[^f]|[^\\])+)", text):
        words = plain(words)
        section = re.match(r"\((\d)\)", words)
        if section and found and isinstance(found[-1], nodes.strong):
            name = found[-1].astext()
            if (Manual.folder / f"{name}.{section[1]}").is_file():
                found[-1] = nodes.reference("", "", found[-1], refuri=f"{name}.{section[1]}.html")
        found.append(FONTS[font]("", words) if font in FONTS else nodes.Text(words))
    return found


def arguments(text):
    """Returns the words of a macro. A quoted text is one word."""
    return [quoted or word for quoted, word in re.findall(r'"([^"]*)"|(\S+)', text)]


class Manual(Directive):
    """A section for each `.SH`, a list for `.IP` and `.TP`, and code for `.nf`."""

    required_arguments = 1
    folder = pathlib.Path()

    def run(self):
        file = pathlib.Path(self.arguments[0])
        Manual.folder = file.parent
        self.state.document.settings.record_dependencies.add(str(file))
        self.top = nodes.section()
        self.section = self.at = self.top
        self.text = self.code = self.term = None
        for line in file.read_text().splitlines():
            if line.startswith('.\\"'):
                continue  # a comment
            macro, _, words = line.partition(" ") if line.startswith(".") else ("", "", line)
            if macro in self.FONTED:
                self.add(self.FONTED[macro](arguments(words)))
            elif macro:
                self.MACROS[macro](self, words)
            else:
                self.add(line)
        return self.top.children

    def add(self, line):
        """Adds a line of text to a term, to code, or to the paragraph."""
        found = inline(line)
        if self.term:
            self.term.extend(found)
            self.term = None
        elif self.code:
            self.code.extend([*found, nodes.Text("\n")])
        else:
            if self.text is None:
                self.text = nodes.paragraph()
                self.at.append(self.text)
            self.text.extend([*found, nodes.Text("\n")])

    def begin_section(self, words, above):
        title = " ".join(arguments(words))
        self.section = nodes.section(ids=[nodes.make_id(title)], names=[title])
        self.section.append(nodes.title(title, plain(title)))
        above.append(self.section)
        self.end_list("")

    def end_list(self, _):
        """Begins a paragraph in the section, or adds an empty line inside code."""
        if self.code:
            self.add("")
        else:
            self.at, self.text = self.section, None

    def end_line(self, _):
        self.text = None

    def begin_item(self, words):
        """Begins an item, whose term is on this line or the next."""
        if not (self.section.children and isinstance(self.section[-1], nodes.definition_list)):
            self.section.append(nodes.definition_list())
        self.term, self.at, self.text = nodes.term(), nodes.definition(), None
        self.section[-1].append(nodes.definition_list_item("", self.term, self.at))
        if words:
            self.add(arguments(words)[0])

    def begin_code(self, _):
        self.code, self.text = nodes.literal_block(language="none"), None
        self.at.append(self.code)

    def end_code(self, _):
        self.code = None

    FONTED = {
        ".B": lambda words: rf"\fB{' '.join(words)}\fP",
        ".BI": lambda words: "".join(rf"\f{'BI'[at % 2]}{it}\fP" for at, it in enumerate(words)),
        ".BR": lambda words: "".join(rf"\f{'BR'[at % 2]}{it}\fP" for at, it in enumerate(words)),
    }
    MACROS = {
        ".TH": lambda self, words: None,
        ".SH": lambda self, words: self.begin_section(words, self.top),
        ".SS": lambda self, words: self.begin_section(words, self.top[-1]),
        ".PP": end_list,
        ".br": end_line,
        ".IP": begin_item,
        ".TP": lambda self, words: self.begin_item(""),
        ".nf": begin_code,
        ".EX": begin_code,
        ".fi": end_code,
        ".EE": end_code,
    }


def setup(app):
    app.add_directive("manual", Manual)
    return {"parallel_read_safe": True}
