#!/usr/bin/env python3
"""Checks what bench/ measures, writes, prints and draws."""
import csv
import os
import re
import stat
import subprocess
import sys
import tempfile
import unittest
import xml.etree.ElementTree

here = os.path.dirname(os.path.abspath(__file__))
sys.dont_write_bytecode = True
top = os.path.dirname(os.path.dirname(here))
sys.path[:0] = [os.path.dirname(here), os.path.join(top, "bench")]
from fond import program  # noqa: E402
import measured  # noqa: E402
import tasks  # noqa: E402

LIMITS = measured.Limits(5, 400)
# Planners in the place of peers: what they print is read by bench/compare.
PRP = "#!/bin/sh\necho status=solvable policy=3 check=ok\n"
GROUND = "import sys\nopen(sys.argv[4], 'w').write('ground')\n"


def has_program():
    told = subprocess.run([program.path(), "--version"], stdout=subprocess.PIPE, check=False, text=True)
    return bool(os.environ.get("DUALFOND_PROGRAM")) or "SHA-256" in told.stdout


def has_matplotlib():
    try:
        tried = subprocess.run(["/usr/bin/python3", "-c", "import matplotlib"], stderr=subprocess.DEVNULL, check=False)
    except OSError:
        return False
    return tried.returncode == 0


def bench(name, *words):
    return subprocess.run([os.path.join(top, "bench", name), *words], stdin=subprocess.DEVNULL, stdout=subprocess.PIPE,
                          stderr=subprocess.DEVNULL, check=True, text=True).stdout


def rows_of(path):
    with open(path, encoding="utf-8", newline="") as file:
        return list(csv.DictReader(file))


class Folder(unittest.TestCase):
    def setUp(self):
        held = tempfile.TemporaryDirectory()
        self.addCleanup(held.cleanup)
        self.folder = held.name

    def path(self, name, text=None, is_program=False):
        """The path of a file in the folder, which is written if there is a text."""
        path = os.path.join(self.folder, name)
        if text is not None:
            with open(path, "w", encoding="utf-8") as file:
                file.write(text)
        if is_program:
            os.chmod(path, stat.S_IRWXU)
        return path


class Measured(Folder):
    def run_words(self, *words, limits=LIMITS):
        return measured.run(words, self.folder, self.path("out"), limits)

    def test_memory_is_the_program_s_own(self):
        """A small program shows a few MB, however large the process that starts it."""
        large = bytearray(os.urandom(1)) * 100_000_000
        ran = self.run_words("true")
        self.assertEqual((ran.status, ran.stopped), (0, ""))
        self.assertLess(ran.megabytes, 4)
        self.assertEqual(len(large), 100_000_000)

    def test_memory_of_a_larger_program(self):
        for size in (50, 200):
            ran = self.run_words(sys.executable, "-c", f"held = b'x' * {size}_000_000")
            self.assertEqual(ran.status, 0)
            self.assertTrue(size < ran.megabytes < size + 40, ran)

    def test_seconds(self):
        ran = self.run_words(sys.executable, "-c", "import os\nwhile os.times().user < 0.5: pass")
        self.assertTrue(0.4 < ran.seconds < 0.8, ran)

    def test_status_and_output(self):
        self.assertEqual(self.run_words("sh", "-c", "echo said; exit 7").status, 7)
        self.assertEqual(measured.first_line(self.path("out")), "said")
        self.assertEqual(self.run_words("sh", "-c", "kill -11 $$").status, -11)
        self.assertEqual(self.run_words("no-such-program").status, 127)

    def test_limits(self):
        for words, limits, stopped in ((("sh", "-c", "while :; do :; done"), measured.Limits(0.2), "out of time"),
                                       (("sleep", "9"), measured.Limits(0.05), "out of time"),
                                       ((sys.executable, "-c", "held = b'x' * 10 ** 9"), measured.Limits(5, 100), "out of memory")):
            with self.subTest(words=words):
                ran = self.run_words(*words, limits=limits)
                self.assertEqual((ran.status, ran.stopped), (None, stopped))


class Tasks(Folder):
    def test_written_tasks(self):
        bench("tasks.py", "--write", self.folder)
        self.assertEqual(sorted(os.listdir(self.folder)), sorted(task.file_name for task in tasks.TASKS))
        for task in tasks.TASKS:
            name = task.file_name
            for end, text in zip(("d", "p", "unfair"), task.texts()):
                with open(self.path(f"{name}/{name}.{end}"), encoding="ascii") as file:
                    self.assertEqual(file.read(), text)

    def test_words(self):
        bench("tasks.py", "--write", self.folder, "doors 12", "bridge 4")
        self.assertEqual(sorted(os.listdir(self.folder)), ["bridge-4", "bridge-40", "doors-12", "doors-12-unfair"])

    def test_batch_takes_them(self):
        bench("tasks.py", "--write", self.path("tasks"))
        words = [self.path("tasks"), "--out", self.path("out"), "--program", "/bin/true", "--list"]
        ran = subprocess.run([os.path.join(top, "tools", "batch"), *words], stdout=subprocess.PIPE, check=True, text=True)
        self.assertEqual(ran.stdout.split("\n")[0], f"{len(tasks.TASKS)} tasks")


@unittest.skipUnless(has_program(), "no program")
class Runs(Folder):
    def test_run(self):
        """doors 12 has a policy: each room is entered, or its door knocked open first. Nobody crosses a bridge that may fall."""
        table = bench("run", "--csv", self.path("csv"), "doors 12", "bridge 4")
        answers = {line.split(" | ")[0][2:]: line.split(" | ")[1] for line in table.splitlines()[2:]}
        doors = dict.fromkeys(("doors 12", "doors 12, unfair"), "policy")
        bridges = dict.fromkeys(("bridge 4", "bridge 40"), "refusal")
        self.assertEqual(answers, doors | bridges)
        rows = rows_of(self.path("csv"))
        self.assertEqual(list(rows[0]), list(measured.COLUMNS))
        for row in rows:
            self.assertEqual(row["check"], "accepted policy lean" if "doors" in row["name"] else "accepted refusal")
            self.assertLess(float(row["megabytes"]), 5)

    def test_run_that_is_stopped(self):
        table = bench("run", "--seconds", "0.1", "counter 16")
        self.assertEqual([line.split(" | ")[1] for line in table.splitlines()[2:]], ["out of time", "refusal"])

    def test_compare(self):
        os.mkdir(self.path("peers"))
        self.path("peers/prp", PRP, is_program=True)
        words = ["--peers", self.path("peers"), "--ground", self.path("ground", GROUND), "--keep", self.path("keep")]
        table = bench("compare", *words, "--tables", self.path("tables"), "doors 12")
        self.assertIn("| Kind | Tasks | plan | PRP-like |\n", table)
        self.assertIn("| all | 2 | 2 | 2 |\n", table)
        peer = rows_of(self.path("tables/prp.csv"))
        self.assertEqual([(row["name"], row["answer"]) for row in peer], [("doors-12", "policy"), ("doors-12-unfair", "policy")])
        self.assertEqual([row["answer"] for row in rows_of(self.path("tables/plan.csv"))], ["policy", "policy"])
        self.assertEqual(bench("compare", *words, "doors 12"), table)
        self.assertIn("| doors 12, unfair | PRP-like | 0.02 | 1.0 |\n\nplan takes 1.00 times as long as the best peer", table)

    def test_compare_with_a_task_that_is_lost(self):
        """The other planner decides both tasks at once, and the program is stopped at the first."""
        os.mkdir(self.path("peers"))
        self.path("peers/prp", PRP, is_program=True)
        words = ["--peers", self.path("peers"), "--ground", self.path("ground", GROUND), "--seconds", "0.1"]
        table = bench("compare", *words, "counter 16", "doors 40, unfair")
        self.assertIn("|---|---|---|---|\n| counter 16 | PRP-like | 0.02 | lost |\n", table)
        self.assertIn("(geometric mean of 2 tasks, 0.02 s at least), on 0 of them more than 3 times; 1 that a peer decides are lost\n", table)

    def agree(self, new, *words):
        """The lines that bench/agree prints for the example coin, and its status."""
        words = [os.path.join(top, "bench", "agree"), measured.built_program(), new, *words, os.path.join(top, "examples", "coin")]
        ran = subprocess.run(words, stdout=subprocess.PIPE, check=False, text=True)
        return ran.stdout.splitlines(), ran.returncode

    def test_agree(self):
        lines, status = self.agree(measured.built_program(), "--least", "5")
        self.assertEqual((len(lines), status), (4, 0))
        self.assertRegex(lines[-1], r"^9 runs are the same, 0 differ, 0 were stopped; OLD took \d+\.\d\d s and NEW \d+\.\d\d s$")
        lines, _ = self.agree(measured.built_program(), "--least", "0")
        commands = ["plan", "check", "migrate", "simulate", "duel", "graph", "explain", "best", "rate"]
        self.assertEqual([line.split(" | ")[1:4] for line in lines[2:-2]], [[f"`{it}`", "same", "0"] for it in commands])

    def test_agree_with_another_program(self):
        """A program that prints other bytes, one that ends with another status, and one that does not end."""
        cases = 'check) echo "accepted policy  " ;; graph) "$program" "$@"; exit 7 ;; rate) exec sleep 9 ;; *) exec "$program" "$@" ;;'
        text = f"#!/bin/sh\nprogram='{measured.built_program()}'\ncase $1 in {cases} esac\n"
        lines, status = self.agree(self.path("other", text, is_program=True), "--seconds", "0.1", "--least", "5")
        rows = [line.split(" | ")[1:5] for line in lines[2:-2]]
        self.assertEqual([row[:3] for row in rows], [["`check`", "differs", "0"], ["`graph`", "differs", "0, 7"],
                                                     ["`rate`", "stopped", "0, out of time"]])
        self.assertTrue(lines[-1].startswith("6 runs are the same, 2 differ, 1 were stopped;"))
        self.assertEqual(status, 1)


@unittest.skipUnless(has_matplotlib(), "no matplotlib")
class Figures(Folder):
    TABLE = "name,answer,seconds\nrooms-4,policy,0.01\nrooms-8,policy,0.2\nmachines-3,refusal,0\nmachines-5,out of time,60\n"
    PEER = "name,answer,seconds\nrooms-4,policy,0.02\nrooms-8,stopped,60\nmachines-3,refusal,1.5\nother,policy,1\n"

    def draw(self, out):
        peer = f"PRP-like={self.path('peer', self.PEER)}"
        return bench("figures", self.path("table", self.TABLE), "--out", self.path(out), "--peer", peer).splitlines()

    def test_figures(self):
        drawn = self.draw("figures")
        self.assertEqual([os.path.basename(it) for it in drawn], ["coverage.svg", "growth.svg", "peer-PRP-like.svg"])
        texts = {os.path.basename(path): self.texts(path) for path in drawn}
        self.assertLessEqual({"dualfond: 3 of 4", "PRP-like: 3 of 4", "user seconds", "tasks decided"}, texts["coverage.svg"])
        self.assertLessEqual({"rooms", "4", "8", "size of the task"}, texts["growth.svg"])
        self.assertNotIn("machines", texts["growth.svg"])
        self.assertIn("user seconds of PRP-like (dotted: not decided)", texts["peer-PRP-like.svg"])
        self.assertEqual(self.dots(drawn[2]), 3)

    def texts(self, path):
        """The texts of a figure, all of which are black and of 10 pixels at least; whatever is drawn is black or white."""
        with open(path, encoding="utf-8") as file:
            text = file.read()
        self.assertLessEqual({it.lower() for it in re.findall(r"#[0-9a-fA-F]{6}\b(?=[;\"])", text)}, {"#000000", "#ffffff"})
        found = [it for it in xml.etree.ElementTree.fromstring(text).iter() if it.tag.endswith("}text")]
        for it in found:
            self.assertGreaterEqual(float(re.search(r"font: ([\d.]+)px", it.get("style"))[1]), 10)
            self.assertNotIn("fill", it.get("style"))
        return {"".join(it.itertext()) for it in found}

    def dots(self, path):
        """How many tasks have a dot."""
        with open(path, encoding="utf-8") as file:
            return re.search(r"<g id=\"tasks\">(.*?)\n   </g>", file.read(), re.S)[1].count("<use ")

    def test_same_table_same_figure(self):
        for first, second in zip(self.draw("first"), self.draw("second")):
            with open(first, "rb") as one, open(second, "rb") as other:
                self.assertEqual(one.read(), other.read())


if __name__ == "__main__":
    unittest.main()
