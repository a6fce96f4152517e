#!/usr/bin/env python3
"""Types words into a real bash and a real zsh with the completions of tools/completions, and reads what the shell makes of them.

usage: tools/tests/test_completions.py
"""
import os
import pty
import re
import select
import shutil
import signal
import sys
import tempfile
import time
import unittest

here = os.path.dirname(os.path.abspath(__file__))
sys.dont_write_bytecode = True
completions = os.path.join(os.path.dirname(here), "completions")

COMMANDS = "plan succ run simulate duel check best rate explain graph migrate demo".split()
OPTIONS = "--help -h --version --prove --install --progress".split()
SECONDS = 10
# Keys: one prints the line as the shell has it now, and one inserts all that completes the word before the cursor.
SHOW, ALL, TAB, CLEAR = "\x18l", "\x18a", "\t", "\x15"

BASH = f"""
PS1=; unset PROMPT_COMMAND
bind 'set bell-style none'; bind 'set enable-bracketed-paste off'
bind '"\\C-xa": insert-completions'
show_line() {{ printf '<<%s>>\\n' "$READLINE_LINE"; }}
bind -x '"\\C-xl": show_line'
. '{completions}/dualfond.bash'
"""
ZSH = f"""
PS1=; unsetopt prompt_cr prompt_sp zle_bracketed_paste 2>/dev/null; unset zle_bracketed_paste
fpath=('{completions}' $fpath)
autoload -Uz compinit; compinit -u -D
zstyle ':completion:*' list-prompt ''; setopt no_auto_menu no_list_beep
show-line() {{ print -r -- "<<$BUFFER>>"; }}
zle -N show-line; bindkey -e; bindkey '^Xl' show-line
zle -C all-matches complete-word _generic; bindkey '^Xa' all-matches
zstyle ':completion:all-matches:*' insert yes
zstyle ':completion:all-matches::::' completer _all_matches _complete
"""


class Shell:
    """A shell at a terminal of its own, in the folder `folder`."""

    def __init__(self, words, setup, folder):
        self.pid, self.terminal = pty.fork()
        if self.pid == 0:
            os.chdir(folder)
            environment = {"PATH": os.environ["PATH"], "TERM": "dumb", "HOME": folder, "INPUTRC": "/dev/null", "COLUMNS": "1000"}
            os.execvpe(words[0], words, environment)
        self.type(setup + "\nstty -echo columns 1000; echo rea''dy\n")
        self.read_to(r"ready")

    def type(self, text):
        os.write(self.terminal, text.encode())

    def read_to(self, pattern):
        """What the terminal shows up to the first match of the pattern, as a match."""
        shown, end = "", time.monotonic() + SECONDS
        while time.monotonic() < end:
            if select.select([self.terminal], [], [], 0.1)[0]:
                shown += os.read(self.terminal, 65536).decode(errors="replace")
                found = re.search(pattern, shown, re.S)
                if found:
                    return found
        raise AssertionError(f"the terminal shows no {pattern}: {shown!r}")

    def line_after(self, *keys):
        """The line after these keys, with the rest of the terminal's output passed over."""
        self.type("".join(keys) + SHOW)
        line = self.read_to(r"<<(.*?)>>")[1]
        self.type(CLEAR)
        return line

    def completed(self, text):
        return self.line_after(text, TAB)

    def offered(self, text):
        """All that the shell offers for the last word of the text, sorted."""
        return sorted(self.line_after(text, ALL)[text.rindex(" ") + 1:].split())

    def close(self):
        os.kill(self.pid, signal.SIGKILL)
        os.waitpid(self.pid, 0)
        os.close(self.terminal)


class Cases:
    """What both shells do."""

    def setUp(self):
        if not shutil.which(self.words[0]):
            self.skipTest(f"no {self.words[0]}")
        self.folder = tempfile.TemporaryDirectory()
        for name in ("robot.d", "robot.p", "robot.unfair", "robot.cert", "with blank.d"):
            with open(os.path.join(self.folder.name, name), "w", encoding="ascii"):
                pass
        os.mkdir(os.path.join(self.folder.name, "prefix"))
        self.shell = Shell(self.words, self.setup, self.folder.name)

    def tearDown(self):
        if hasattr(self, "shell"):
            self.shell.close()
        self.folder.cleanup()

    def test_first_words(self):
        self.assertEqual(self.shell.offered("dualfond "), sorted([*COMMANDS, "help"]))
        self.assertEqual(self.shell.offered("dualfond -"), sorted(OPTIONS))
        self.assertEqual(self.shell.completed("dualfond pl"), "dualfond plan ")
        self.assertEqual(self.shell.completed("./dualfond mig"), "./dualfond migrate ")
        self.assertEqual(self.shell.completed("dualfond --ver"), "dualfond --version ")

    def test_each_command_is_completed(self):
        for command in COMMANDS:
            self.assertEqual(self.shell.completed("dualfond " + command[:3]).rstrip(), "dualfond " + command)

    def test_files(self):
        for words in ("plan", "plan a", "plan a b", "best a b", "check a b c", "rate a b c", "run a b c d", "simulate a b c", "migrate a b c", "explain a b c", "graph a b c", "duel a b c"):
            self.assertEqual(self.shell.completed(f"dualfond {words} robot.u"), f"dualfond {words} robot.unfair ")
        self.assertEqual(self.shell.completed("dualfond succ with"), "dualfond succ with\\ blank.d ")

    def test_words_that_are_no_files(self):
        for words in ("succ a b", "simulate a b c d", "simulate a b c d 1", "demo", "check a b c d"):
            self.assertEqual(self.shell.completed(f"dualfond {words} robot.u"), f"dualfond {words} robot.u")
        self.assertEqual(self.shell.completed("dualfond plan a b c 10"), "dualfond plan a b c 1000000 ")

    def test_launcher(self):
        self.assertEqual(self.shell.offered("dualfond help "), sorted(COMMANDS))
        self.assertEqual(self.shell.completed("dualfond help su"), "dualfond help succ ")
        self.assertEqual(self.shell.offered("dualfond --progress "), sorted(COMMANDS))
        self.assertEqual(self.shell.completed("dualfond --progress run a b c robot.c"), "dualfond --progress run a b c robot.cert ")
        self.assertEqual(self.shell.completed("dualfond --install p"), "dualfond --install prefix/")


class Bash(Cases, unittest.TestCase):
    words, setup = ["bash", "--norc", "--noprofile", "-i"], BASH


class Zsh(Cases, unittest.TestCase):
    words, setup = ["zsh", "-f", "-i"], ZSH


if __name__ == "__main__":
    unittest.main()
