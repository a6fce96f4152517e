#!/usr/bin/env python3
"""Runs the script `dualfond` in copies of the checkout: through links, with stale sources, read-only, and with its own options."""
import os
import shutil
import subprocess
import sys
import tempfile
import time
import unittest

here = os.path.dirname(os.path.abspath(__file__))
sys.dont_write_bytecode = True
sys.path[:0] = [os.path.dirname(here), here]
from checkout import change, copy  # noqa: E402
from fond.program import TOP  # noqa: E402

PLAN = ["plan", "examples/coin/coin.d", "examples/coin/coin.p", "/dev/null", "10"]
POLICY = "dualfond 2 policy\nrule (flip) fair 0 goal :\nitem 0 1 0 :\nitem goal : +(heads)\nstart 0\nend\n"
# A path without the command rt.
BARE = {"PATH": "/usr/bin:/bin", "HOME": "/nonexistent", "XDG_CACHE_HOME": "/nonexistent"}
SOURCES = ("crates", "crates.txt", "HANDLES", "dist", "docs", "dualfond", "examples", "tools")


# A stand-in for the kit's command: it proves nothing, and notes that it was asked to build.
RT = """#!/bin/sh
case $1 in
version) echo "$KIT" ;;
ci) echo built >>"$ROOM/builds"; sleep 1; mkdir -p crates/dualfond/out && cp "$BUILT" crates/dualfond/out/dualfond && echo 'rt: dualfond proved' ;;
try) shift; while [ "$1" != -- ]; do shift; done; shift; echo "tried $*" ;;
esac
"""


@unittest.skipUnless(os.path.exists(os.path.join(TOP, "dist")), "there is no dist/")
class Launcher(unittest.TestCase):
    @classmethod
    def setUpClass(cls):
        held = tempfile.TemporaryDirectory()
        cls.addClassCleanup(held.cleanup)
        cls.top = held.name
        copy(TOP, cls.top, SOURCES)

    def own_copy(self):
        """Another copy of the checkout, for a test that changes it."""
        held = tempfile.TemporaryDirectory()
        self.addCleanup(held.cleanup)
        copy(TOP, held.name, SOURCES)
        self.top = held.name

    def run_in(self, folder, *words, env=None):
        return subprocess.run(words, cwd=folder, env=env or BARE, stdin=subprocess.DEVNULL, capture_output=True, text=True, check=False)

    def test_first_answer_needs_no_kit(self):
        started = time.monotonic()
        ran = self.run_in(self.top, "./dualfond", *PLAN)
        self.assertEqual((ran.returncode, ran.stdout, ran.stderr), (0, POLICY, ""))
        self.assertLess(time.monotonic() - started, 1)

    def test_link_from_another_folder(self):
        with tempfile.TemporaryDirectory() as folder:
            os.symlink(os.path.join(self.top, "dualfond"), os.path.join(folder, "plan-fond"))
            words = [f"{self.top}/{it}" if "/coin" in it else it for it in PLAN]
            ran = self.run_in(folder, "./plan-fond", *words)
            self.assertEqual((ran.returncode, ran.stdout), (0, POLICY))

    def test_touched_sources_need_no_build(self):
        self.run_in(self.top, "./dualfond", *PLAN)
        change(os.path.join(self.top, "crates/fond_text/src/lib.rt"), b"")
        self.assertEqual(self.run_in(self.top, "./dualfond", *PLAN).stdout, POLICY)

    def test_changed_sources_are_noticed(self):
        self.own_copy()
        self.assertEqual(self.run_in(self.top, "./dualfond", *PLAN).stdout, POLICY)
        self.change_sources()
        ran = self.run_in(self.top, "./dualfond", *PLAN)
        self.assertEqual((ran.returncode, ran.stdout), (102, ""))
        self.assertIn("the sources are not those of dist/", ran.stderr)
        self.assertIn("the command rt", ran.stderr)
        self.assertIn("not built", self.run_in(self.top, "./dualfond", "--version").stdout)

    def test_read_only_checkout(self):
        self.own_copy()
        for at, _, _ in os.walk(self.top):
            os.chmod(at, 0o555)
        try:
            ran = self.run_in(self.top, *self.as_nobody(), "./dualfond", *PLAN)
            self.assertEqual((ran.returncode, ran.stdout), (0, POLICY))
        finally:
            for at, _, _ in os.walk(self.top):
                os.chmod(at, 0o755)

    def as_nobody(self):
        """The words that start a command without the leave to write everywhere."""
        return ["setpriv", "--reuid=65534", "--regid=65534", "--clear-groups"] if os.geteuid() == 0 else []

    def with_kit(self, built, kit="rattle-kit-13b logic dac8208d650f15bf"):
        """A folder, and an environment in which the command rt is the stand-in, which gives the file `built` as the program."""
        held = tempfile.TemporaryDirectory()
        self.addCleanup(held.cleanup)
        with open(os.path.join(held.name, "rt"), "w", encoding="ascii") as file:
            file.write(RT)
        os.chmod(os.path.join(held.name, "rt"), 0o755)
        return held.name, {"PATH": f"{held.name}:/usr/bin:/bin", "HOME": held.name, "ROOM": held.name, "BUILT": built, "KIT": kit}

    def change_sources(self):
        change(os.path.join(self.top, "crates/fond_text/src/lib.rt"))

    def test_prove_compares_the_programs(self):
        self.own_copy()
        shipped = os.path.join(self.top, "dist/dualfond-x86_64-linux")
        with open(os.path.join(self.top, "dist/SOURCES.sha256"), encoding="ascii") as file:
            kit = file.readline()[len("# kit ") :].strip()
        _, env = self.with_kit(shipped, kit)
        ran = self.run_in(self.top, "./dualfond", "--prove", env=env)
        self.assertEqual(ran.returncode, 0, ran.stderr)
        self.assertIn("the program is the shipped one, byte for byte", ran.stdout)
        _, env = self.with_kit("/bin/true", kit)
        ran = self.run_in(self.top, "./dualfond", "--prove", env=env)
        self.assertEqual(ran.returncode, 105)
        _, env = self.with_kit("/bin/true", "another kit")
        ran = self.run_in(self.top, "./dualfond", "--prove", env=env)
        self.assertEqual(ran.returncode, 0)
        self.assertIn("another kit", ran.stdout)

    def test_changed_sources_are_built_once(self):
        self.own_copy()
        self.change_sources()
        room, env = self.with_kit("/bin/echo")
        words = ["./dualfond", *PLAN]
        runs = [subprocess.Popen(words, cwd=self.top, env=env, stdout=subprocess.PIPE, stderr=subprocess.PIPE, text=True) for _ in range(3)]
        told = [run.communicate() for run in runs]
        self.assertEqual([run.returncode for run in runs], [0, 0, 0])
        self.assertEqual({out for out, _ in told}, {" ".join(PLAN) + "\n"})
        with open(os.path.join(room, "builds"), encoding="ascii") as file:
            self.assertEqual(file.read(), "built\n")
        self.assertIn("not proved yet:\ntried plan file1 file2", "".join(err for _, err in told))
        self.assertIn("proved here", self.run_in(self.top, "./dualfond", "--version", env=env).stdout)

    def test_failed_build_says_where_to_look(self):
        self.own_copy()
        self.change_sources()
        _, env = self.with_kit("/nonexistent/program")
        ran = self.run_in(self.top, "./dualfond", *PLAN, env=env)
        self.assertEqual((ran.returncode, ran.stdout), (104, ""))
        self.assertIn("build.log", ran.stderr)

    def test_other_program(self):
        ran = self.run_in(self.top, "./dualfond", "--version", env={**BARE, "DUALFOND_PROGRAM": "/bin/echo"})
        self.assertIn("/bin/echo", ran.stdout)
        ran = self.run_in(self.top, "./dualfond", "a", "b", env={**BARE, "DUALFOND_PROGRAM": "/bin/echo"})
        self.assertEqual(ran.stdout, "a b\n")
        ran = self.run_in(self.top, "./dualfond", "a", env={**BARE, "DUALFOND_PROGRAM": "/nonexistent/program"})
        self.assertEqual(ran.returncode, 101)
        self.assertIn("set DUALFOND_PROGRAM", ran.stderr)

    def test_help(self):
        for words in (["--help"], ["-h"], ["help"]):
            started = time.monotonic()
            ran = self.run_in(self.top, "./dualfond", *words)
            self.assertEqual(ran.returncode, 0)
            self.assertLess(time.monotonic() - started, 0.1)
        listed = [line.split()[1] for line in ran.stdout.replace("usage:", "").splitlines() if line.split()[:1] == ["dualfond"]]
        commands = [it for it in listed if it.isalpha() and it != "help"]
        self.assertEqual(len(commands), 12)
        for command in commands:
            self.assertIn(f"usage: dualfond {command}", self.run_in(self.top, "./dualfond", "help", command).stdout)
        self.assertEqual(self.run_in(self.top, "./dualfond", "help", "fly").returncode, 4)

    def test_version(self):
        ran = self.run_in(self.top, "./dualfond", "--version")
        self.assertRegex(ran.stdout, r"\Adualfond \d+\.\d+\.\d+\nprogram .*, SHA-256 [0-9a-f]{64}\nkit rattle-kit-.*\nshipped\n\Z")

    def test_install(self):
        self.own_copy()
        with tempfile.TemporaryDirectory() as prefix:
            self.assertEqual(self.run_in(self.top, "./dualfond", "--install", prefix).returncode, 0)
            shutil.rmtree(os.path.join(self.top, "crates"))
            ran = self.run_in(self.top, f"{prefix}/bin/dualfond", *PLAN)
            self.assertEqual((ran.returncode, ran.stdout), (0, POLICY))
            self.assertIn("shipped", self.run_in("/", f"{prefix}/bin/dualfond", "--version").stdout)
            for name in ("man/man1/dualfond.1", "bash-completion/completions/dualfond", "zsh/site-functions/_dualfond"):
                self.assertTrue(os.path.getsize(f"{prefix}/share/{name}"))

    def test_progress_prints_nothing_without_a_terminal(self):
        ran = self.run_in(self.top, "./dualfond", "--progress", *PLAN)
        self.assertEqual((ran.returncode, ran.stdout, ran.stderr), (0, POLICY, ""))


if __name__ == "__main__":
    unittest.main()
