#!/usr/bin/env python3
"""Writes the parts of other files that are generated from the server's table of answers.

    python3 tools/protocol.py [--write]

The table is in python/rigzumal/server/daemon/protocol.py. The script generates the header of the
PAM module (all of c/pam/answers.h) and, between two marks, the replies of the Python clients, the
table in docs/ERRORS.md and the section ANSWERS of credkeep-server(8). Without --write it lists the
files with a different text, and the status is 1 if there are any.
"""

import argparse
import re
import sys
import textwrap

from tree import TOP

sys.path.insert(0, str(TOP / "python/rigzumal/server"))
from daemon.protocol import ANSWERS, OPERATIONS, TO_NEW_PASSWORDS  # noqa: E402

# Answers that have another meaning for each operation of the PAM module, or let nobody in.
OF_AN_OPERATION = ("absent", "expired")
ELSE = ("SUCCESS", "AUTHINFO_UNAVAIL")
COLUMNS = 140  # columns of a page's line

HEADER = """/* The meanings for PAM of answers to a password, except those that differ by operation.
 * Any other answer is PAM_AUTHINFO_UNAVAIL. tools/protocol.py writes this file. */
#ifndef RIGZUMAL_PAM_ANSWERS_H
#define RIGZUMAL_PAM_ANSWERS_H

#include <security/pam_modules.h>
#include <stddef.h>

struct answer {
    const char *word;
    int result;
    const char *text; /* the text for the user, or NULL */
};

static const struct answer ANSWERS[] = {
%s
};

#endif
"""


def header():
    """Returns the header of the PAM module."""
    rows = []
    for word, answer in ANSWERS.items():
        if answer.pam in ELSE or word in OF_AN_OPERATION:
            continue
        text = f'"{answer.text}"' if answer.text else "NULL"
        rows.append(f'    {{"{word}", PAM_{answer.pam}, {text}}},')
    return HEADER % "\n".join(rows)


def replies():
    """Returns the members of the clients' enumeration."""
    rows = [f'    {it.reply} = "{word}"' for word, it in ANSWERS.items() if it.reply]
    return "\n".join(rows)


def rows_of_page():
    """Returns the table in docs/ERRORS.md."""
    rows = ["| Answer | What it means | HTTP | `credkeep-ask` ends with |", "|---|---|--:|--:|"]
    of_others = set(TO_NEW_PASSWORDS)
    for operation in OPERATIONS.values():
        of_others.update(operation.answers)
    of_others -= set(OPERATIONS[b"verify"].answers)
    for word, answer in ANSWERS.items():
        http = "" if word in of_others else answer.http
        rows.append(f"| `{word}` | {answer.meaning} | {http} | {answer.ask} |")
    return "\n".join(rows)


def section():
    """Returns the section in the manual."""
    lines = []
    for word, answer in ANSWERS.items():
        text = re.sub(r"`([^`]*)`", r"\\fB\1\\fP", answer.meaning).replace("-", "\\-")
        lines.append(f'.IP "\\fB{word}\\fP"')
        lines += textwrap.wrap(f"{text[0].upper()}{text[1:]}.", COLUMNS - 20)
    return "\n".join(lines)


# For each file, the lines before and after the generated part.
PARTS = {
    "python/rigzumal/server/_client.py": (
        replies,
        "    # tools/protocol.py writes these lines",
        "    # up to here.",
    ),
    "docs/ERRORS.md": (
        rows_of_page,
        "<!-- tools/protocol.py writes this table -->",
        "<!-- up to here -->",
    ),
    "man/credkeep-server.8": (
        section,
        '.\\" tools/protocol.py writes this section',
        '.\\" up to here',
    ),
}


def written(text, made, begin, end):
    """Returns a file's text, with the generated part between two of its lines."""
    before, found, rest = text.partition(f"{begin}\n")
    _, found_end, after = rest.partition(f"{end}\n")
    if not found or not found_end:
        raise SystemExit(f"protocol.py: the lines {begin!r} and {end!r} aren't there")
    return f"{before}{begin}\n{made}\n{end}\n{after}"


def texts():
    """Yields each file, and the text that it should have."""
    yield TOP / "c/pam/answers.h", header()
    for name, (make, begin, end) in PARTS.items():
        path = TOP / name
        yield path, written(path.read_text(), make(), begin, end)


def main():
    parser = argparse.ArgumentParser(description=__doc__.partition("\n")[0])
    parser.add_argument("--write", action="store_true", help="write the files")
    options, status = parser.parse_args(), 0
    for path, text in texts():
        if path.exists() and path.read_text() == text:
            continue
        if options.write:
            path.write_text(text)
        else:
            print(f"{path.relative_to(TOP)} differs from the table: run tools/protocol.py --write")
            status = 1
    return status


if __name__ == "__main__":
    sys.exit(main())
