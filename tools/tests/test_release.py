#!/usr/bin/env python3
"""Tries tools/release on copies of what it reads: a dist/ that is current, stale, tampered with, or of another kit."""
import os
import shutil
import subprocess
import sys
import tempfile
import unittest

here = os.path.dirname(os.path.abspath(__file__))
sys.dont_write_bytecode = True
sys.path[:0] = [os.path.dirname(here), here]
from checkout import change, copy  # noqa: E402
from fond.program import TOP  # noqa: E402

PROGRAM, LIST = "dist/dualfond-x86_64-linux", "dist/SOURCES.sha256"
COMPARED = "release: dist/ is of these sources, and its program is the one that was built here, byte for byte\n"


@unittest.skipUnless(os.path.exists(os.path.join(TOP, PROGRAM)), "there is no dist/")
class Release(unittest.TestCase):
    def setUp(self):
        held = tempfile.TemporaryDirectory()
        self.addCleanup(held.cleanup)
        self.top = held.name
        copy(TOP, self.top, ("crates", "crates.txt", "dist", "tools"))

    def path(self, name):
        return os.path.join(self.top, name)

    def change(self, name):
        change(self.path(name))

    def release(self, *words):
        ran = subprocess.run([self.path("tools/release"), *words], capture_output=True, text=True, check=False)
        return ran.returncode, ran.stdout + ran.stderr

    def build(self):
        """Leaves what a gate leaves: the program, here the shipped one, and the list of its sources."""
        os.mkdir(self.path("out"))
        shutil.copy2(self.path(PROGRAM), self.path("out/dualfond"))
        shutil.copy2(self.path(LIST), self.path("out/SOURCES.sha256"))

    def test_current(self):
        status, said = self.release("--check")
        self.assertEqual(status, 0, said)
        self.assertIn("nothing was built here", said)
        self.build()
        self.assertEqual(self.release("--check"), (0, COMPARED))

    def test_stale(self):
        self.change("crates/fond_text/src/lib.rt")
        status, said = self.release("--check")
        self.assertEqual(status, 1)
        self.assertIn("1 of the files differ, the first is crates/fond_text/src/lib.rt", said)
        self.assertEqual(self.release()[0], 1)

    def test_new_source(self):
        self.change("crates/fond_text/specs/More.antt")
        self.assertEqual(self.release("--check")[0], 1)

    def test_other_program(self):
        self.change(PROGRAM)
        self.assertEqual(self.release("--check")[0], 1)

    def test_another_build(self):
        self.build()
        self.change("out/dualfond")
        status, said = self.release("--check")
        self.assertEqual(status, 1)
        self.assertIn("is not the shipped one", said)
        with open(self.path("out/SOURCES.sha256"), "r+", encoding="ascii") as file:
            lines = file.readlines()
            file.seek(0)
            file.writelines(["# kit another\n", *lines[1:]])
            file.truncate()
        status, said = self.release("--check")
        self.assertEqual(status, 0)
        self.assertIn("built with another kit", said)

    def test_release(self):
        self.build()
        shutil.rmtree(self.path("dist"))
        self.assertEqual(self.release(), (0, COMPARED))
        with open(self.path(LIST), "rb") as new, open(os.path.join(TOP, LIST), "rb") as old:
            self.assertEqual(new.read(), old.read())


if __name__ == "__main__":
    unittest.main()
