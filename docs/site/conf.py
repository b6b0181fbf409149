"""Sphinx's settings for the site of the pages; docs/site/build.py lays out its input."""

import pathlib
import sys

HERE = pathlib.Path(__file__).resolve().parent
TOP = HERE.parent.parent
sys.path = [str(HERE), str(TOP / "python"), *sys.path]

project = html_title = "Rigzumal"
version = release = (TOP / "VERSION").read_text().strip()
html_theme, html_theme_path = "theme", [str(HERE)]
html_show_copyright = html_show_sphinx = html_copy_source = False
# The search also works without a server, when a page can't fetch other pages.
html_show_search_summary = False
# The pages keep the two hyphens that begin an option.
smartquotes = False
extensions = ["myst_parser", "sphinx.ext.autodoc", "sphinx.ext.napoleon"]
extensions += ["docstrings", "manuals", "sources"]
source_suffix = {".md": "markdown", ".rst": "restructuredtext"}

# Anchors in the form of forges, and links to a line of a source.
myst_heading_anchors = 4
myst_url_schemes = ("http", "https", "source")
# No lexer accepts the lines of a console, or the two dots of a sample.
suppress_warnings = ["misc.highlighting_failure"]

# In docstrings `this` is code.
default_role = "code"
autodoc_member_order = "bysource"
autodoc_typehints_format = "short"
add_module_names = False
napoleon_use_rtype = False
napoleon_custom_sections = [("Every operation may raise", "params_style")]
