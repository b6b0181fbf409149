"""The completions of each shell, over programs with clap's help, and the server's own."""

import contextlib
import os
import pty
import re
import shlex
import shutil
import unittest

from tests.helpers import TOP, Case, ended, write_files

CREDKEEP = r"""#!/bin/sh
case "$*" in
--help) cat <<'TEXT'
Keeps records

Usage: credkeep [--wait <SECONDS>] <FILE> <COMMAND>

Commands:
  init     Begins a book: an empty one
  add      Adds one
  check    Says whether it's right
  backup   Writes a copy
  restore  Puts it back

Options:
      --wait <SECONDS>  Tries for so many seconds [default: 0]
  -h, --help            Print help
TEXT
;;
'- init --help') printf 'Usage: credkeep <FILE> init\n\nOptions:\n  -h, --help  Print help\n' ;;
'- check --help') printf 'Usage: credkeep <FILE> check [OPTIONS] <NAME>\n\nOptions:\n'
    printf '      --echo  Asks at a terminal\n' ;;
'- add --help') printf 'Usage: credkeep <FILE> add <NAME>\n\nOptions:\n'
    printf '  -h, --help  Print help\n' ;;
'- restore --help') printf 'Usage: credkeep <FILE> restore <FROM>\n' ;;
'- backup --help') printf 'Usage: credkeep <FILE> backup <TO>\n\nOptions:\n'
    printf '      --most <SIZE>\n          At most this\n' ;;
'users.db list') printf 'ada\nann\n' ;;
*) exit 1 ;;
esac
"""
CREDBOOK = r"""#!/bin/sh
exec >&2
case "$*" in
--help) printf 'Usage: credbook <COMMAND>\n\nCommands:\n  run    Runs\n  help   Print this\n'
    printf '\nOptions:\n  -h, --help  Print help\n' ;;
*) printf 'Usage: credbook run [OPTIONS]\n\nOptions:\n      --workers <N>  Threads\n' ;;
esac
exit 1
"""
# ^G shows the line as it is then, and ends.
ZSHRC = """fpath=({} $fpath)
autoload -U compinit
compinit -u -D
finish() {{
    print -r -- "END $BUFFER"
    exit
}}
zle -N finish
bindkey '^G' finish
PS1='READY> '
"""
# The line before the cursor, and what is offered there.
CASES = [
    ("credkeep ", {"users.db"}),
    ("credkeep users.db ", {"init", "add", "check", "backup", "restore"}),
    ("credkeep users.db ch", {"check"}),
    ("credkeep --wait 5 users.db ch", {"check"}),
    ("credkeep --wait=5 users.db ch", {"check"}),
    ("credkeep --wait ", set()),
    ("credkeep-ask users.db ch", {"check"}),
    ("credkeep-ask --server imp", {"import"}),
    ("credkeep-ask --server mail ren", {"rename"}),
    ("credkeep users.db check a", {"ada", "ann"}),
    ("credkeep users.db check ada ", set()),
    ("credkeep users.db add a", set()),
    ("credkeep users.db restore u", {"users.db"}),
    ("credkeep users.db check --", {"--echo"}),
    ("credkeep users.db backup u", {"users.db"}),
    ("credkeep users.db backup --", {"--most"}),
    ("credkeep --w", {"--wait"}),
    ("credbook ", {"run"}),
    ("credbook run --", {"--workers"}),
    ("credbook ch", set()),
    ("credkeep-server ", {"users.db"}),
    ("credkeep-server --au", {"--audit", "--audit-tries"}),
    ("credkeep-server --wait 5 u", {"users.db"}),
]


class Completions(Case):
    def setUp(self):
        super().setUp()
        self.top, self.at = self.room(), self.room()
        write_files(self.top, {"bin/credkeep": CREDKEEP, "bin/credbook": CREDBOOK}, 0o755)
        texts = {it: (TOP / "completions" / it).read_text() for it in ("bash", "zsh", "fish")}
        texts = {it: text.replace("@BASH@", f"{self.top}/bash") for it, text in texts.items()}
        write_files(self.top, texts | {"_credkeep": texts["zsh"]})
        write_files(self.at, {f"users.db{end}": "" for end in ("", "-wal", "-locks")})
        path = f"{self.top}/bin:{TOP}/bin:{os.environ['PATH']}"
        self.env = {**os.environ, "PATH": path, "HOME": str(self.at)}

    def shell(self, *words):
        done = ended([*words], cwd=self.at, env=self.env)
        self.assertEqual(done.faults, "")
        return {it.split("\t")[0] for it in done.written.splitlines() if it}

    def test_bash(self):
        for line, offered in CASES:
            # bash parts words at `=` too
            words = [*line.replace("=", " = ").split(), *([""] if line.endswith(" ") else [])]
            quoted = " ".join(map(shlex.quote, words))
            script = f"source {self.top}/bash; COMP_WORDS=({quoted}); COMP_CWORD={len(words) - 1}"
            script += '; f=$(complete -p "${COMP_WORDS[0]}"); f=${f#*-F }; ${f%% *}'
            script += '; printf "%s\\n" "${COMPREPLY[@]}"'
            with self.subTest(line=line):
                self.assertEqual(self.shell("bash", "--norc", "-c", script), offered)

    @unittest.skipUnless(shutil.which("fish"), "needs the program fish")
    def test_fish(self):
        sourced = f"source {self.top}/fish"
        for line, offered in CASES:
            with self.subTest(line=line):
                found = self.shell(
                    "fish", "--no-config", "-c", f"{sourced}; complete -C {shlex.quote(line)}"
                )
                self.assertEqual(found - {"--help", "-h"}, offered)

    @unittest.skipUnless(shutil.which("zsh"), "needs the program zsh")
    def test_zsh(self):
        """zsh completes accounts, whatever precedes them, and none in the place of a new name; a
        list describes each word."""
        for line, completed, listed in (
            ("credkeep users.db check a", "credkeep users.db check ada", "ada ann"),
            ("credkeep-ask users.db check an", "credkeep-ask users.db check ann", ""),
            ("credkeep 'users.db' check an", "credkeep 'users.db' check ann", ""),
            ("credkeep --wait 5 users.db check an", "credkeep --wait 5 users.db check ann", ""),
            ("credkeep users.db ch", "credkeep users.db check a", ""),
            ("credkeep users.db add a", "credkeep users.db add a", ""),
            ("credkeep users.db add u", "credkeep users.db add u", ""),
            ("credkeep u", "credkeep users.db", "add -- Adds one"),
            ("credkeep users.db i", "credkeep users.db init", ""),
            ("credkeep users.db restore u", "credkeep users.db restore users.db", ""),
            (
                "credkeep users.db ",
                "credkeep users.db add",
                "check -- Says whether it's right init -- Begins a book",
            ),
            (
                "credkeep -",
                "credkeep --",
                "--help -- Print help --wait -- Tries for so many seconds",
            ),
            ("credkeep --wait ", "credkeep --wait", ""),
            ("credkeep-server u", "credkeep-server users.db", ""),
            ("credbook run --w", "credbook run --workers", ""),
        ):
            with self.subTest(line=line):
                shown, _, ended = self.typed_to_zsh(line).partition("END ")
                self.assertEqual(ended.splitlines()[0].rstrip(), completed)
                self.assertIn(listed, " ".join(re.sub(r"\x1b\[\w+|[^ -~]", " ", shown).split()))
                if not listed:
                    self.assertNotRegex(shown, r"\badd\b|\bada\b.*\bann\b")

    def typed_to_zsh(self, line):
        """The lines of zsh after a line and the key Tab, twice."""
        (self.at / ".zshrc").write_text(ZSHRC.format(self.top))
        pid, terminal = pty.fork()
        if pid == 0:
            os.chdir(self.at)
            os.execvpe(
                "zsh", ["zsh", "-di"], {**self.env, "ZDOTDIR": str(self.at), "TERM": "vt100"}
            )
        shown, typed = b"", f"{line}\t\t\a".encode()
        with contextlib.suppress(OSError):  # the terminal's end
            while more := os.read(terminal, 4096):
                shown += more
                if b"READY" in shown and typed:
                    os.write(terminal, typed)
                    shown, typed = b"", b""
        os.waitpid(pid, 0)
        os.close(terminal)
        return shown.decode().partition(line)[2]
