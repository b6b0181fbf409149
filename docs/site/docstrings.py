"""Marks the samples in docstrings as code: lines indented by four spaces after an empty line. A
colon follows the name of a parameter."""

from docutils import nodes


def samples(_, kind, name, thing, options, lines):
    """Writes `::` before each sample. Samples follow an empty line; the parts of `Args:` don't."""
    found, is_before = [], True
    for line, last in zip(lines, ["", *lines]):
        is_set_in = line.startswith("    ")
        if is_set_in and is_before and not last:
            found += ["::", ""]
        if line:
            is_before = not is_set_in and not line.endswith(":")
        found.append(line)
    lines.clear()  # Sphinx reads the same list afterwards
    lines.extend(found)


def colons(app, doctree):
    """Replaces the two hyphens that Sphinx writes between a name and its text by a colon."""
    for text in [*doctree.findall(nodes.Text)]:
        if text == " -- ":
            text.parent.replace(text, nodes.Text(": "))


def setup(app):
    app.connect("doctree-read", colons)
    app.connect("autodoc-process-docstring", samples, priority=100)  # before napoleon
    return {"parallel_read_safe": True}
