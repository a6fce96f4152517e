#!/usr/bin/env python3
"""Checks the files of bench/hostile, and how it tells the growth of their cost."""
import importlib.machinery
import importlib.util
import math
import os
import subprocess
import sys
import tempfile
import unittest

here = os.path.dirname(os.path.abspath(__file__))
sys.dont_write_bytecode = True
top = os.path.dirname(os.path.dirname(here))
sys.path[:0] = [os.path.dirname(here), os.path.join(top, "bench")]
from fond import program  # noqa: E402
import hostile_tasks  # noqa: E402
import measured  # noqa: E402

PATH = os.path.join(top, "bench", "hostile")
# A size of each family that is small enough for any program.
SMALL = {"cubes": 3, "cubes-by-actions": 1, "rules": 3, "either": 3, "twins": 2, "forall-outcomes": 2, "layers": 3, "partial-run": 64,
         "partial-check": 64, "clear-effect": 9, "clear-precondition": 9, "product": 9, "nested": 2, "counter": 4, "parity": 4,
         "static-or": 2, "pairs": 3, "steps": 6, "held": 6, "table": 3, "count-up": 8}


def loaded():
    """The program bench/hostile as a module."""
    loader = importlib.machinery.SourceFileLoader("hostile", PATH)
    module = importlib.util.module_from_spec(importlib.util.spec_from_loader("hostile", loader))
    loader.exec_module(module)
    return module


hostile = loaded()


def has_program():
    told = subprocess.run([program.path(), "--version"], stdout=subprocess.PIPE, check=False, text=True)
    return bool(os.environ.get("DUALFOND_PROGRAM")) or "SHA-256" in told.stdout


def bench(*words):
    return subprocess.run([PATH, *words], stdin=subprocess.DEVNULL, stdout=subprocess.PIPE, check=True, text=True).stdout


def ran(status, seconds, megabytes=2.0, stopped=""):
    return measured.Run(status, stopped, seconds, megabytes)


class Growth(unittest.TestCase):
    FAMILY = hostile_tasks.Family("made-up", hostile_tasks.PLAN, 0, dict, (10, 20, 40))

    def told(self, *runs):
        return hostile.growth(self.FAMILY, dict(zip(self.FAMILY.sizes, runs)))

    def test_exponent(self):
        for power in (0, 1, 1.7, 3):
            self.assertTrue(math.isclose(hostile.exponent((10, 0.5), (40, 0.5 * 4 ** power), 0.01), power, abs_tol=1e-9))

    def test_exponent_of_what_hardly_shows(self):
        """From 0.002 s to 0.08 s is as from 0.01 s on: 8 times as much for 4 times the size."""
        self.assertTrue(math.isclose(hostile.exponent((10, 0.002), (40, 0.08), 0.01), 1.5))
        self.assertEqual(hostile.exponent((10, 0), (40, 0.009), 0.01), 0)

    def test_words(self):
        self.assertEqual(self.told(ran(0, 1), ran(0, 2), ran(0, 4)), ["1.00", "0.00", "linear"])
        self.assertEqual(self.told(ran(0, 1), ran(0, 4), ran(0, 16)), ["2.00", "0.00", "steep"])
        self.assertEqual(self.told(ran(0, 1, 10), ran(0, 2, 40), ran(0, 4, 160)), ["1.00", "2.00", "steep"])

    def test_failures(self):
        stopped = ran(None, 60, stopped="out of time")
        self.assertEqual(self.told(ran(0, 1), ran(0, 2), ran(9, 9)), ["1.00", "0.00", "linear, fails at 40: 9"])
        self.assertEqual(self.told(ran(0, 1), ran(0, 8), stopped), ["3.00", "0.00", "steep, fails at 40: out of time"])
        self.assertEqual(self.told(ran(0, 1), ran(2, 8), stopped), ["", "", "fails at 20: 2, fails at 40: out of time"])


class Files(unittest.TestCase):
    def test_same_files_each_time(self):
        for family in hostile_tasks.FAMILIES:
            self.assertEqual(family.make(SMALL[family.name]), family.make(SMALL[family.name]), family.name)

    def test_sizes(self):
        self.assertEqual(list(SMALL), [family.name for family in hostile_tasks.FAMILIES])
        for family in hostile_tasks.FAMILIES:
            self.assertEqual((len(family.sizes), sorted(set(family.sizes))), (3, list(family.sizes)), family.name)

    def test_write(self):
        with tempfile.TemporaryDirectory() as folder:
            told = bench("--write", folder, "--only", "either", "layers")
            names = [f"either-{size}" for size in (200, 400, 800)] + [f"layers-{size}" for size in (10000, 20000, 40000)]
            self.assertEqual(sorted(os.listdir(folder)), sorted(names))
            words = ["plan d p u 1000000"] * 3 + ["check d p u cert"] * 3
            self.assertEqual(told.splitlines(), [f"{name}: {it}" for name, it in zip(names, words)])
            with open(os.path.join(folder, "layers-10000", "cert"), encoding="ascii") as file:
                self.assertEqual(file.read(), hostile_tasks.layers(10000)["cert"])

    def test_unknown_name(self):
        done = subprocess.run([PATH, "--only", "none"], stdout=subprocess.PIPE, stderr=subprocess.PIPE, check=False, text=True)
        self.assertEqual((done.returncode, done.stderr), (1, "hostile: there are no families none\n"))


@unittest.skipUnless(has_program(), "no program")
class Runs(unittest.TestCase):
    # What the answer of a command, or of a family, begins with.
    SAID = {"plan": "dualfond ", "check": "accepted ", "run": "rule ", "explain": "solution\n", "graph": '{"edges":[{"from":0,',
            "forall-outcomes": "refused domain ", "held": "lasso\n"}

    def answer(self, family, size):
        """The status of a command, and what it printed."""
        with tempfile.TemporaryDirectory() as folder:
            family.write(folder, size)
            status, text = program.run(*family.words, cwd=folder, timeout=60)
            return status, text.decode("ascii")

    def test_small_sizes(self):
        """No file has a fault but those that are meant to: an action of too many outcomes."""
        for family in hostile_tasks.FAMILIES:
            with self.subTest(family=family.name):
                status, text = self.answer(family, SMALL[family.name])
                self.assertEqual(status, family.status, text)
                self.assertTrue(text.startswith(self.SAID.get(family.name, self.SAID[family.words[0]])), text)

    def test_forall_outcomes(self):
        family = next(it for it in hostile_tasks.FAMILIES if it.name == "forall-outcomes")
        self.assertEqual(self.answer(family, 2)[1], "refused domain 1 51 F23\n")

    def test_all_states_are_told(self):
        """The way has a rank for each place but the last one, and the counter as many nodes as states."""
        family = next(it for it in hostile_tasks.FAMILIES if it.name == "steps")
        self.assertEqual(self.answer(family, 6)[1].count("rank "), 5)
        family = next(it for it in hostile_tasks.FAMILIES if it.name == "count-up")
        self.assertEqual(self.answer(family, 8)[1].count('"atoms"'), 8)

    def test_runs_take_all_steps(self):
        """Each step takes the last rule of partial conditions, since no drawn one holds, and the first of the equal ones."""
        for name, rule, steps in (("partial-run", 64, 64), ("rules", 0, 3)):
            family = next(it for it in hostile_tasks.FAMILIES if it.name == name)
            lines = self.answer(family, SMALL[name])[1].splitlines()
            taken = [line for line in lines if line.startswith("rule ")]
            self.assertEqual({line.split()[1] for line in taken}, {str(rule)})
            self.assertEqual((len(taken), lines[steps]), (steps, "ended"))

    def test_table(self):
        rows = [line.split(" | ") for line in bench("--only", "rules").splitlines()]
        self.assertEqual([row[:3] for row in rows[2:]], [["| rules", str(size), "8"] for size in (10000, 20000, 40000)])
        self.assertRegex(rows[4][-1], r"^(linear|steep) \|$")
        self.assertGreater(float(rows[4][3]), 0)

    def test_limit(self):
        """A task of 129,600 actions takes more than a thousandth of a second."""
        rows = bench("--only", "cubes-by-actions", "--seconds", "0.001").splitlines()
        self.assertTrue(all("| out of time |" in row for row in rows[2:]), rows)
        self.assertTrue(rows[4].endswith("| fails at 50: out of time, fails at 100: out of time, fails at 200: out of time |"), rows)


if __name__ == "__main__":
    unittest.main()
