#!/usr/bin/env python3
"""Takes the commands out of the documents, runs them in a copy of examples/, and compares what they print with what is shown.

usage: tools/tests/test_documents.py

A command stands in a fenced block of which each line begins with `./dualfond ` or `tools/`. If the text after it says 'prints' and
the next block is no command, that block is the output. A block after the words `examples/NAME`: is that file. The commands of one
document run in order in one folder, so that a file which one writes can be read by the next.
"""
import glob
import os
import re
import shutil
import subprocess
import sys
import tempfile
import unittest

here = os.path.dirname(os.path.abspath(__file__))
sys.dont_write_bytecode = True
sys.path.insert(0, os.path.dirname(here))
from fond import program  # noqa: E402

TOP = program.TOP
SECONDS = 60
# Statuses of a run that was asked for the wrong thing, or that the machine let down.
FAILURES = {4, 5, 6, 9, 11, 126, 127}
# Commands that are not run here, each with the reason.
NOT_RUN = (
    (r"\b(DOMAIN|PROBLEM|SIDE|CERT|COMMAND|PREFIX|NAME|FILE)\b", "the form of a command, with words for what is to be put in"),
    (r"\./dualfond --prove\b", "builds the program"),
    (r"\./dualfond .*--install\b", "writes outside the folder"),
    (r"tools/(release|budget|refuse-memory|test)\b", "works on a build, or runs these tests"),
)


def documents():
    names = ["README.md", "CONTRIBUTING.md", "CHANGELOG.md", "examples/README.md", *glob.glob("docs/*.md", root_dir=TOP)]
    return sorted(it for it in names if os.path.exists(os.path.join(TOP, it)))


def content(name):
    with open(os.path.join(TOP, name), encoding="utf-8") as file:
        return file.read()


def blocks(text):
    """The fenced blocks of a document: for each the text between it and the block before, and its own text."""
    parts = re.split(r"^ *```.*\n", text, flags=re.M)
    return list(zip(parts[0::2], parts[1::2]))


def is_command(block):
    return all(line.startswith(("./dualfond ", "tools/")) for line in block.splitlines()) and block.strip() != ""


def commands(text):
    """The blocks of commands of a document, each with the output that is shown for it, or None."""
    found = blocks(text)
    for at, (_, block) in enumerate(found):
        if is_command(block):
            between, after = found[at + 1] if at + 1 < len(found) else ("", "")
            is_shown = re.search(r"\bprints\b", between) and not re.search(r"^#", between, re.M) and not is_command(after)
            yield block.splitlines(), after if is_shown else None


def reason_not_to_run(command):
    if re.match(r"tools/draw .*\.(svg|html)\b", command) and not shutil.which("dot"):
        return "no Graphviz"
    tool = re.match(r"tools/\S+", command)
    if tool and not os.path.exists(os.path.join(TOP, tool[0])):
        return f"there is no {tool[0]}"
    return next((reason for pattern, reason in NOT_RUN if re.search(pattern, command)), None)


def make_folder(folder):
    """Puts a copy of examples/, the program as ./dualfond, and the tools into a folder."""
    shutil.copytree(os.path.join(TOP, "examples"), os.path.join(folder, "examples"))
    os.symlink(os.path.join(TOP, "tools"), os.path.join(folder, "tools"))
    os.symlink(program.path(), os.path.join(folder, "dualfond"))


class Documents(unittest.TestCase):
    def test_commands(self):
        ran = shown = 0
        for name in documents():
            with self.subTest(document=name), tempfile.TemporaryDirectory() as folder:
                make_folder(folder)
                for lines, output in commands(content(name)):
                    ran, shown = ran + len(lines), shown + (output is not None)
                    self.run_block(lines, output, folder)
        print(f"documents: {ran} commands, {shown} outputs that are shown")

    def run_block(self, lines, output, folder):
        printed = ""
        for line in lines:
            if reason_not_to_run(line):
                return
            done = subprocess.run(line, shell=True, cwd=folder, timeout=SECONDS, check=False, stdin=subprocess.DEVNULL,
                                  stdout=subprocess.PIPE)
            self.assertNotIn(done.returncode, FAILURES, line)
            if line.startswith("tools/"):
                self.assertLessEqual(done.returncode, line.startswith("tools/lint"), line)
            printed += done.stdout.decode()
        if output is not None:
            self.assertEqual(printed, output, lines)

    def test_answers_in_tables(self):
        """A row with a command, its status and its answer, as 'policy: 9 rules, 10 items': the certificate has as many lines of each."""
        count = 0
        for name in documents():
            for command, status, answer in re.findall(r"^\| `\./dualfond (plan [^`]*)` \| (\d) \| (\w+: [^|]*) \|", content(name), re.M):
                with self.subTest(document=name, command=command):
                    found, printed = program.run(*command.split(), cwd=TOP)
                    heads = [line.split()[0] for line in printed.decode().splitlines()]
                    self.assertEqual(found, int(status))
                    self.assertIn(answer.split(":")[0], printed.decode().split("\n")[0])
                    for number, part in re.findall(r"(\d+) (rule|item|pair|cube|layer)s?", answer):
                        self.assertEqual(heads.count(part), int(number), part)
                count += 1
        print(f"documents: {count} answers in tables")

    def test_files_that_are_shown(self):
        count = 0
        for name in documents():
            for before, block in blocks(content(name)):
                file = re.search(r"`(examples/[^`]+)`:\s*\Z", before)
                if file:
                    count += 1
                    with self.subTest(document=name, file=file[1]):
                        self.assertEqual(block, content(file[1]))
        print(f"documents: {count} files that are shown")

    def test_documents_that_are_named(self):
        for name in documents():
            for other in re.findall(r"\b(?:docs|examples)/[\w./-]*\w", content(name)):
                with self.subTest(document=name):
                    self.assertTrue(os.path.exists(os.path.join(TOP, other)), other)

    def test_certificates(self):
        """NAME.cert beside NAME.p is what `plan` prints with the side list beside it, and `check` accepts it."""
        count = 0
        for problem in sorted(glob.glob("examples/*/*.p", root_dir=TOP)):
            folder = os.path.dirname(problem)
            name = os.path.join(folder, os.path.basename(folder))
            domain, side, cert = name + ".d", name + ".unfair", problem[:-2] + ".cert"
            with self.subTest(problem=problem):
                status, printed = program.run("plan", domain, problem, side, "1000000", cwd=TOP)
                self.assertIn(status, (0, 1))
                checked = program.run("check", domain, problem, side, cert, cwd=TOP)
                self.assertEqual(checked, (0, b"accepted policy lean\n" if status == 0 else b"accepted refusal\n"))
                # (the certificate of coin has version 1, as an example of that)
                shown = cert if content(cert).split()[1] == "2" or status == 1 else problem[:-2] + ".cover"
                self.assertEqual(printed.decode(), content(shown))
                count += 1
        print(f"documents: {count} certificates of the examples")

    def test_version(self):
        """The documents name the version that the launcher prints."""
        version = re.search(r"^version=(.*)$", content("dualfond"), re.M)[1]
        for name, said in (
            ("README.md", r"This is version (\S+)"),
            ("CHANGELOG.md", r"^## (\S+)"),
            ("CITATION.cff", r"^version: (.*)$"),
            ("docs/dualfond.1", r'"dualfond (\S+)"'),
        ):
            with self.subTest(document=name):
                self.assertEqual(re.search(said, content(name), re.M)[1], version)

    def test_man_page(self):
        if not shutil.which("man"):
            self.skipTest("no man")
        page = os.path.join(TOP, "docs", "dualfond.1")
        done = subprocess.run(["man", "--warnings", "-l", page], stdout=subprocess.PIPE, stderr=subprocess.PIPE, check=False)
        self.assertEqual((done.returncode, done.stderr), (0, b""))


if __name__ == "__main__":
    unittest.main()
