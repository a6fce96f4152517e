#!/usr/bin/env python3
"""Tests of tools/table: its three forms, what it reports, and that `explain` judges what it makes."""
import glob
import os
import subprocess
import sys
import tempfile
import unittest

here = os.path.dirname(os.path.abspath(__file__))
sys.dont_write_bytecode = True
sys.path.insert(0, os.path.dirname(here))
from fond import program  # noqa: E402

TOOL = os.path.join(program.TOP, "tools", "table")
DOMAIN = b"""(define (domain d) (:types thing) (:predicates (on ?x ?y - thing) (still ?x - thing) (red ?x - thing))
(:action move :parameters (?x ?y - thing) :precondition (and (red ?x) (not (= ?x ?y)))
 :effect (oneof (on ?x ?y) (still ?x))))
"""
PROBLEM = b"(define (problem p) (:domain d) (:objects a b - thing) (:init (red a)) (:goal (on a b)))\n"


class Table(unittest.TestCase):
    def setUp(self):
        folder = tempfile.TemporaryDirectory()
        self.addCleanup(folder.cleanup)
        self.folder = folder.name
        for name, content in (("domain", DOMAIN), ("problem", PROBLEM)):
            with open(os.path.join(self.folder, name), "wb") as file:
                file.write(content)

    def table(self, policy, *options):
        """The exit status of the tool, what it printed, and the line that it said."""
        with open(os.path.join(self.folder, "policy"), "wb") as file:
            file.write(policy.encode())
        ran = subprocess.run([TOOL, *options, "domain", "problem", "policy"], cwd=self.folder, capture_output=True, check=False)
        return ran.returncode, ran.stdout.decode(), ran.stderr.decode()

    def test_json(self):
        rows = '[{"if": ["not (still a)", "(ON a b)"], "do": "(move  a b)"}, {"do": "(move a b)"}]'
        self.assertEqual(self.table(rows), (0, "table 1\ndo (move a b) : +(on a b) -(still a)\ndo (move a b) :\nend\n", ""))

    def test_csv_with_a_column_for_each_atom(self):
        rows = 'do,(still a),(on a b)\n(move a b),1,\n(move a b),false,true\n'
        self.assertEqual(self.table(rows), (0, "table 1\ndo (move a b) : +(still a)\ndo (move a b) : +(on a b) -(still a)\nend\n", ""))

    def test_csv_of_full_states(self):
        rows = 'state,do\n(still b) (on a a),(move a b)\n'
        text = "table 1\ndo (move a b) : +(on a a) -(on a b) -(on b a) -(on b b) -(still a) +(still b)\nend\n"
        self.assertEqual(self.table(rows, "--csv"), (0, text, ""))

    def test_static_atoms_are_not_written(self):
        self.assertEqual(self.table('[{"if": ["(red a)", "not (red b)"], "do": "(move a b)"}]'), (0, "table 1\ndo (move a b) :\nend\n", ""))

    def test_rows_that_never_hold_are_left_out(self):
        rows = '[{"if": ["(red b)"], "do": "(move a b)"}, {"if": ["(still a)", "not (still a)"], "do": "(move a b)"}]'
        said = "policy: row 0 never holds and is left out\npolicy: row 1 never holds and is left out\n"
        self.assertEqual(self.table(rows), (0, "table 1\nend\n", said))

    def test_what_the_task_does_not_have_is_reported_with_its_row(self):
        cases = (
            ('[{"do": "(move a b)"}, {"if": ["(gone a)"], "do": "(move a b)"}]', "row 1: the task has no atom (gone a)"),
            ('[{"if": ["(on a c)"], "do": "(move a b)"}]', "row 0: the task has no atom (on a c)"),
            ('[{"do": "(drop a)"}]', "row 0: the task has no action (drop a)"),
            ('[{"do": "(move b a)"}]', "row 0: the action (move b a) is never applicable, so no table can name it"),
            ('[{"do": "move a b"}]', "row 0: 'move a b' is not of the form (name object ..)"),
            ('[{"if": "(on a b)", "do": "(move a b)"}]', 'row 0: "if" is a list of texts such as "(on a b)" or "not (clear c)"'),
            ('{"do": "(move a b)"}', "the JSON text is no array of rows"),
            ("a,b\n1,2\n", "the first line of a CSV file names its columns, each once, one of them `do`"),
            ("do,(on a b)\n(move a b),maybe\n", "row 0: (on a b) is 'maybe', and not 1 or 0, true or false, or empty"),
            ("do,(on a b)\n(move a b)\n", "row 0: it has not as many values as there are columns"),
        )
        for policy, said in cases:
            with self.subTest(said):
                self.assertEqual(self.table(policy), (1, "", f"policy: {said}\n"))

    def test_a_refusal_has_no_rules(self):
        self.assertEqual(self.table("dualfond 1 refusal\nend\n"), (1, "", "policy: a refusal has no rules\n"))

    def test_words(self):
        ran = subprocess.run([TOOL, "only-one"], capture_output=True, check=False)
        self.assertEqual(ran.returncode, 2)

    def test_the_policies_of_the_examples_are_judged(self):
        """The rules of each example's policy are a solution, if they reach at most 1,000 states."""
        seen = 0
        for cert in sorted(glob.glob(os.path.join(program.TOP, "examples", "*", "*.c[eo][rv]*"))):
            problem = os.path.splitext(cert)[0]
            domain = problem.removesuffix("-2")
            with open(cert, "rb") as file:
                text = file.read()
            if b"policy" not in text.partition(b"\n")[0]:
                continue
            with self.subTest(cert):
                ran = subprocess.run([TOOL, f"{domain}.d", f"{problem}.p", cert], capture_output=True, check=True)
                status, head = self.judged(domain, problem, ran.stdout)
                self.assertIn((status, head), ((0, "solution"), (2, "undecided 1000")))
                seen += status == 0
        self.assertGreater(seen, 4)

    def judged(self, domain, problem, table):
        with tempfile.NamedTemporaryFile() as file:
            file.write(table)
            file.flush()
            status, printed = program.run("explain", f"{domain}.d", f"{problem}.p", f"{domain}.unfair", file.name, "1000")
        return status, printed.decode("latin-1").partition("\n")[0]


if __name__ == "__main__":
    unittest.main()
