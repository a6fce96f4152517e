#!/usr/bin/env python3
"""Tests of `explain`, `graph` and `duel` on changed policies of the examples, against a second program that reads the definitions plainly."""
import collections
import glob
import os
import random
import sys
import tempfile
import unittest

here = os.path.dirname(os.path.abspath(__file__))
sys.dont_write_bytecode = True
sys.path.insert(0, os.path.dirname(here))
from fond import program  # noqa: E402
from fond.certificate import read_certificate  # noqa: E402
from fond.judge import Judge, Rules, unfairness  # noqa: E402
from fond.task import Task  # noqa: E402

LIMIT = 400


def content(path):
    with open(path, "rb") as file:
        return file.read()


def changed(rules, draw):
    """The rules with up to three changes: one is left out, moved, or lacks a literal, or has the action of another."""
    rules = list(rules)
    for _ in range(draw.randrange(4)):
        at, other = draw.randrange(len(rules)), draw.randrange(len(rules))
        kind = draw.randrange(4)
        if kind == 0 and len(rules) > 1:
            rules.pop(at)
        elif kind == 1:
            rules.insert(other, rules.pop(at))
        elif kind == 2 and rules[at][1]:
            lost = draw.randrange(len(rules[at][1]))
            rules[at] = (rules[at][0], rules[at][1][:lost] + rules[at][1][lost + 1 :])
        elif kind == 3:
            rules[at] = (rules[other][0], rules[at][1])
    return rules


def literals_of(rule):
    return "".join(f" {literal}" for literal in rule[1])


class Example:
    """An example with a policy: its files, its task, and the rules of the policy, each an action and literals."""

    def __init__(self, cert):
        problem = os.path.splitext(cert)[0]
        self.files = [problem.removesuffix("-2") + ".d", problem + ".p"]
        self.side = content(problem.removesuffix("-2") + ".unfair")
        self.task = Task(*map(content, self.files))
        self.rules = [(rule.action, rule.literals) for rule in read_certificate(content(cert)).rules]

    def sides(self):
        """Side lists: its own, none, and each action of the policy."""
        return self.side, b"", "\n".join(dict.fromkeys(action for action, _ in self.rules)).encode()

    def certificate(self, rules, side, draw):
        """A certificate with these rules, which name outcomes that their actions may not have."""
        is_unfair = unfairness(side)
        lines = ["dualfond 1 policy"]
        for rule in rules:
            count = len(self.task.outcomes(rule[0]))
            is_told_unfair = is_unfair(rule[0]) != (draw.random() < 0.1)
            kind = "unfair" + " goal" * count if is_told_unfair else f"fair {draw.randrange(count + 1)} goal"
            lines.append(f"rule {rule[0]} {kind} :{literals_of(rule)}")
        return "\n".join([*lines, "reach 1", "end", ""])


def examples():
    found = []
    for cert in sorted(glob.glob(os.path.join(program.TOP, "examples", "*", "*.cert"))):
        if b"policy" in content(cert).partition(b"\n")[0]:
            found.append(Example(cert))
    return found


class Judged(unittest.TestCase):
    def setUp(self):
        folder = tempfile.TemporaryDirectory()
        self.addCleanup(folder.cleanup)
        self.folder = folder.name

    def answer(self, command, example, side, text, number):
        """The status and the text of a command on an example with this side list and this policy."""
        for name, bytes_of_file in (("side", side), ("policy", text.encode("latin-1"))):
            with open(os.path.join(self.folder, name), "wb") as file:
                file.write(bytes_of_file)
        status, printed = program.run(command, *example.files, "side", "policy", str(number), cwd=self.folder)
        return status, printed.decode("latin-1")

    def test_explain(self):
        """What is told of a table is true, and each of the four answers occurs."""
        draw, seen = random.Random(7), collections.Counter()
        for example in examples():
            for side in example.sides():
                for _ in range(3):
                    rules = changed(example.rules, draw)
                    lines = [f"do {rule[0]} :{literals_of(rule)}\n" for rule in rules]
                    judge = Judge(example.task, unfairness(side), [([(it.is_true, it.atom) for it in rule[1]], rule[0]) for rule in rules])
                    status, text = self.answer("explain", example, side, "table 1\n" + "".join(lines) + "end\n", LIMIT)
                    with self.subTest(files=example.files, side=side, rules=lines):
                        seen[judge.check(status, text, LIMIT)] += 1
        for kind in ("solution", "stuck", "lasso", "undecided"):
            self.assertGreater(seen[kind], 2, seen)

    def test_graph_and_duel(self):
        draw, seen = random.Random(8), collections.Counter()
        for example in examples():
            for side in example.sides():
                rules = changed(example.rules, draw)
                text = example.certificate(rules, side, draw)
                follow = Rules(example.task, unfairness(side), read_certificate(text.encode("latin-1")).rules)
                for command, number in (("graph", draw.choice((8, LIMIT))), ("duel", draw.randint(1, 40))):
                    answer = self.answer(command, example, side, text, number)
                    with self.subTest(command=command, files=example.files, side=side, text=text):
                        self.assertEqual(answer, getattr(follow, command)(number))
                    seen[command, answer[0]] += 1
        for kind in (("graph", 0), ("graph", 2), ("duel", 0), ("duel", 8)):
            self.assertGreater(seen[kind], 2, seen)


if __name__ == "__main__":
    unittest.main()
