#!/usr/bin/env python3
"""Runs tools/batch: on the examples, with limits and faulty files, and after it was killed in the middle."""
import contextlib
import csv
import json
import os
import re
import shutil
import signal
import subprocess
import sys
import tempfile
import time
import unittest

here = os.path.dirname(os.path.abspath(__file__))
sys.dont_write_bytecode = True
top = os.path.dirname(os.path.dirname(here))
sys.path[:0] = [os.path.dirname(here), os.path.join(top, "bench")]
from fond import program  # noqa: E402
import tasks  # noqa: E402

BATCH = os.path.join(top, "tools", "batch")
# What another run of the same task may change.
MEASURED = ("seconds", "megabytes", "check_seconds", "check_megabytes")
# A stand-in for ssh, which runs the command here with as little of the environment as another machine has.
SSH = """#!/bin/sh
while [ "${1#-}" != "$1" ]; do shift; done
shift
[ "$1" != -- ] || shift
cd / && exec env -i PATH="$PATH" HOME=/nonexistent sh -c "$*"
"""
# A stand-in for sbatch, which runs the elements of the array one after the other.
SBATCH = """#!/bin/sh
last=${1#--array=1-}
shift
for number in $(seq "$last"); do SLURM_ARRAY_TASK_ID=$number bash "$@"; done
"""


def has_program():
    told = subprocess.run([program.path(), "--version"], stdout=subprocess.PIPE, check=False, text=True)
    return bool(os.environ.get("DUALFOND_PROGRAM")) or "SHA-256" in told.stdout


def table(folder):
    with open(os.path.join(folder, "results.csv"), encoding="utf-8", newline="") as file:
        return list(csv.DictReader(file))


def unmeasured(rows):
    return [{key: value for key, value in row.items() if key not in MEASURED} for row in rows]


def logged(folder):
    """The numbers of the tasks in the job log, in order."""
    path = os.path.join(folder, "joblog")
    if not os.path.exists(path):
        return []
    with open(path, encoding="utf-8") as lines:
        return [int(line.split("\t")[0]) for line in list(lines)[1:]]


@unittest.skipUnless(shutil.which("parallel"), "no parallel")
@unittest.skipUnless(has_program(), "no program")
class Batch(unittest.TestCase):
    def setUp(self):
        held = tempfile.TemporaryDirectory()
        self.addCleanup(held.cleanup)
        self.folder = held.name
        self.out = os.path.join(self.folder, "results")

    def words(self, *words):
        return [BATCH, *words, "--out", self.out, "--jobs", "2"]

    def batch(self, *words, status=0, **how):
        ran = subprocess.run(self.words(*words), stdin=subprocess.DEVNULL, capture_output=True, text=True, check=False, **how)
        self.assertEqual(ran.returncode, status, ran.stderr)
        return ran

    def write_task(self, name, texts):
        """Writes a task in the layout of examples/."""
        os.makedirs(os.path.join(self.folder, "tasks", name))
        for end, text in zip(("d", "p", "unfair"), texts):
            with open(os.path.join(self.folder, "tasks", name, f"{name}.{end}"), "w", encoding="ascii") as file:
                file.write(text)
        return os.path.join(self.folder, "tasks")

    def stand_ins(self):
        """The environment with ssh and sbatch that run everything here."""
        folder = os.path.join(self.folder, "bin")
        os.makedirs(folder)
        for name, text in (("ssh", SSH), ("sbatch", SBATCH)):
            with open(os.path.join(folder, name), "w", encoding="ascii") as file:
                file.write(text)
            os.chmod(os.path.join(folder, name), 0o755)
        return {**os.environ, "PATH": f"{folder}:{os.environ['PATH']}", "PARALLEL_SSH": f"{folder}/ssh"}

    def answers(self):
        return {row["name"]: (row["status"], row["answer"]) for row in table(self.out)}


class Examples(Batch):
    def test_answers(self):
        """The answers are those of the table of examples/README.md, and `check` accepts each certificate."""
        self.batch(os.path.join(top, "examples"))
        found = {row["name"]: row for row in table(self.out)}
        with open(os.path.join(top, "examples", "README.md"), encoding="utf-8") as file:
            told = re.findall(r"^\| ([\w-]+) (?:\| [\d,]+ ){4}\| (yes|no) \|$", file.read(), re.M)
        self.assertGreaterEqual(len(told), 15)
        for name, is_solvable in told:
            with self.subTest(task=name):
                row = found[name]
                expected = ("0", "policy", "accepted policy lean") if is_solvable == "yes" else ("1", "refusal", "accepted refusal")
                self.assertEqual((row["status"], row["answer"], row["check"]), expected)
                self.assert_counted(row)
                self.assertLess(float(row["megabytes"]), 10)

    def assert_counted(self, row):
        """The row tells what its certificate has."""
        with open(os.path.join(self.out, f"{row['name']}.cert"), encoding="ascii") as file:
            text = file.read()
        heads = [line.split()[0] for line in text.splitlines()]
        for part in ("rule", "pair", "item", "cube"):
            self.assertEqual(int(row[f"{part}s"]), heads.count(part))
        self.assertEqual(int(row["bytes"]), len(text))

    def test_sum(self):
        ran = self.batch(os.path.join(top, "examples", "coin"), os.path.join(top, "examples", "islands"))
        self.assertEqual(ran.stdout, f"3 of 3 tasks: 2 policy, 1 refusal\n{self.out}/results.csv\n")

    def test_other_machines(self):
        self.batch(os.path.join(top, "examples", "islands"), "--sshlogin", "one", "--sshlogin", "two", env=self.stand_ins())
        self.assertEqual(self.answers(), {"islands": ("0", "policy"), "islands-2": ("1", "refusal")})

    def test_slurm(self):
        """The elements of an array, one after the other, give the table that parallel gives."""
        island = os.path.join(top, "examples", "islands")
        self.batch(island)
        expected = unmeasured(table(self.out))
        self.out = os.path.join(self.folder, "array")
        self.assertEqual(self.batch(island, "--list").stdout.split("\n")[0], "2 tasks")
        self.assertEqual(self.batch(island, "--table", status=1).stdout.split("\n")[0], "0 of 2 tasks: none ran")
        for number in ("1", "2"):
            script = ["bash", "tools/batch.sbatch", self.out, "--seconds", "1800"]
            subprocess.run(script, cwd=top, env={**os.environ, "SLURM_ARRAY_TASK_ID": number}, check=True)
        self.batch(island, "--table")
        self.assertEqual(unmeasured(table(self.out)), expected)


    def test_document(self):
        """The commands of docs/BATCH.md run as they stand, with stand-ins for other machines, and print what is shown."""
        for name in ("examples", "tools", "bench"):
            os.symlink(os.path.join(top, name), os.path.join(self.folder, name))
        with open(os.path.join(top, "docs", "BATCH.md"), encoding="utf-8") as file:
            blocks = [it.removeprefix("\n") for it in file.read().split("```")[1::2]]
        environment, printed = self.stand_ins(), []
        for block in blocks:
            if "tools/batch" in block:
                ran = subprocess.run(["sh", "-e", "-c", block], cwd=self.folder, env=environment, stdin=subprocess.DEVNULL,
                                     capture_output=True, text=True, check=False)
                self.assertEqual((ran.returncode, ran.stderr), (0, ""), block)
                printed.append(ran.stdout)
                shutil.rmtree(os.path.join(self.folder, "results"), ignore_errors=True)
        self.assertEqual(len(printed), 3)
        self.assertEqual(printed[0], blocks[1])
        self.assertEqual(printed[1].split(": ")[1], printed[2].split(": ")[1].replace("array/", "results/"))


class Answers(Batch):
    def test_limits(self):
        folder = self.write_task("counter", tasks.counter(14))
        self.batch(folder, "--seconds", "0.1")
        self.assertEqual(self.answers(), {"counter": ("", "out of time")})
        self.out += "-2"
        self.batch(folder, "--megabytes", "10")
        self.assertEqual(self.answers(), {"counter": ("", "out of memory")})
        self.assertFalse(os.path.exists(os.path.join(self.out, "counter.cert")))

    def test_faulty_file(self):
        """The row of docs/FAULTS.md for F15; the other task is run all the same."""
        domain, problem = "(define (domain x) (:action a :effect (q)))", "(define (problem y) (:domain x) (:goal ()))"
        self.write_task("faulty", (domain, problem, ""))
        self.batch(self.write_task("doors", tasks.doors(3)))
        self.assertEqual(self.answers(), {"doors": ("0", "policy"), "faulty": ("3", "faulty: refused domain 1 40 F15")})

    def test_undecided(self):
        """More than one state is reachable (125 of them, by examples/README.md), and one may be opened."""
        self.batch(os.path.join(top, "examples", "blocks"), "--budget", "1")
        self.assertEqual(self.answers(), {"blocks": ("2", "undecided")})

    def test_list(self):
        folder = self.write_task("doors", tasks.doors(3))
        path = os.path.join(folder, "list")
        with open(path, "w", encoding="ascii") as file:
            file.write("# two tasks\n\nfirst doors/doors.d doors/doors.p doors/doors.unfair\n")
            file.write(f"second\tdoors/doors.d\tdoors/doors.p\t{os.devnull}\n")
        self.batch(path)
        self.assertEqual(self.answers(), {"first": ("0", "policy"), "second": ("0", "policy")})

    def test_wrong_lists(self):
        folder = self.write_task("doors", tasks.doors(3))
        path = os.path.join(folder, "list")
        line = "doors/doors.d doors/doors.p doors/doors.unfair\n"
        for text, told in ((f"a {line}b c\n", f"{path}:2: "), (f"a {line}a {line}", "two tasks"), (f"../a {line}", "the name ../a"),
                           ("a d p u\n", "cannot read"), ("", "no task")):
            with open(path, "w", encoding="ascii") as file:
                file.write(text)
            with self.subTest(text=text):
                self.assertIn(told, self.batch(path, status=2).stderr)


class Cut(Batch):
    def setUp(self):
        super().setUp()
        names = ("coin", "faults", "islands", "miner", "spiky-tire", "tire")
        self.examples = [os.path.join(top, "examples", name) for name in names]

    def whole(self):
        """The table of a run that nothing cuts."""
        out, self.out = self.out, os.path.join(self.folder, "whole")
        self.batch(*self.examples)
        rows, self.out = table(self.out), out
        return unmeasured(rows)

    def cut_by(self, number):
        """Sends a signal to a batch of the examples, as a terminal does, once some tasks are done. Returns the exit status."""
        running = subprocess.Popen(self.words(*self.examples), start_new_session=True, stdin=subprocess.DEVNULL,
                                   stdout=subprocess.DEVNULL, stderr=subprocess.DEVNULL,
                                   preexec_fn=lambda: signal.signal(signal.SIGINT, signal.SIG_DFL))
        while len(logged(self.out)) < 3:
            self.assertIsNone(running.poll())
            time.sleep(0.01)
        os.killpg(running.pid, number)
        return running.wait()

    def test_interrupted_and_continued(self):
        self.assertEqual(self.cut_by(signal.SIGINT), 130)
        self.batch(*self.examples)
        self.assertEqual(unmeasured(table(self.out)), self.whole())

    def test_killed_and_continued(self):
        """After kill -9 half way, the same command ends with the table of a whole run. No task that was logged runs again."""
        self.cut_by(signal.SIGKILL)
        before = logged(self.out)
        self.assertFalse(os.path.exists(os.path.join(self.out, "results.csv")))
        self.batch(*self.examples)
        self.assertEqual(logged(self.out)[:len(before)], before)
        self.assertEqual(sorted(logged(self.out)), list(range(1, len(table(self.out)) + 1)))
        self.assertEqual(unmeasured(table(self.out)), self.whole())
        self.assertEqual([name for name in os.listdir(self.out) if name.startswith(".")], [])

    def test_task_that_was_killed(self):
        """A task that was killed has no row, and is run again by the same command."""
        folder = self.write_task("counter", tasks.counter(14))
        running = subprocess.Popen(self.words(folder), stdin=subprocess.DEVNULL, stdout=subprocess.PIPE, stderr=subprocess.PIPE,
                                   text=True)
        os.kill(self.measuring(running), signal.SIGKILL)
        self.assertEqual((running.communicate()[0].split("\n")[0], running.returncode), ("0 of 1 tasks: none ran", 1))
        self.batch(folder)
        self.assertEqual(self.answers(), {"counter": ("0", "policy")})

    def measuring(self, running):
        """The process that runs the task of a batch, once it is there."""
        while running.poll() is None:
            for name in filter(str.isdigit, os.listdir("/proc")):
                with contextlib.suppress(OSError), open(f"/proc/{name}/cmdline", encoding="utf-8", errors="replace") as words:
                    found = words.read().split("\0")
                    if "--one" in found and self.out in found:
                        return int(name)
            time.sleep(0.01)
        raise AssertionError("the batch ended before its task")

    def test_log_that_was_cut(self):
        expected = self.whole()
        self.out = os.path.join(self.folder, "whole")
        path = os.path.join(self.out, "joblog")
        with open(path, "r+b") as file:
            text = file.read()
            file.truncate(text.rindex(b"\n", 0, -1) + 16)
        self.batch(*self.examples)
        self.assertEqual(unmeasured(table(self.out)), expected)
        self.assertEqual(sorted(logged(self.out)), list(range(1, len(expected) + 1)))

    def test_other_settings(self):
        """The results of one folder have the same limits, program and files."""
        folder = self.write_task("doors", tasks.doors(3))
        self.batch(folder)
        self.assertIn("another seconds", self.batch(folder, "--seconds", "7", status=2).stderr)
        self.assertIn("another budget", self.batch(folder, "--budget", "7", status=2).stderr)
        with open(os.path.join(folder, "doors", "doors.p"), "a", encoding="ascii") as file:
            file.write("; changed\n")
        self.assertIn("another contents", self.batch(folder, status=2).stderr)
        with open(os.path.join(self.out, "settings.json"), encoding="utf-8") as file:
            self.assertEqual(json.load(file)["budget"], 1000000)


if __name__ == "__main__":
    unittest.main()
