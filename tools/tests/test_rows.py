#!/usr/bin/env python3
"""Runs the worked examples of crates/fond_rows/data against the program over real files.

crates/fond_rows/data/README.md says what a row holds. Rows in which a read or a write fails need a shelf or a sink that fails on
demand, so they are left to the gate.
"""
import os
import sys
import tempfile
import tomllib
import unittest

here = os.path.dirname(os.path.abspath(__file__))
sys.dont_write_bytecode = True
sys.path.insert(0, os.path.dirname(here))
from fond import program  # noqa: E402

DATA = os.path.join(program.TOP, "crates", "fond_rows", "data")
OUTSIDE = ("bad_read", "bad_write", "room")


def table(name):
    with open(os.path.join(DATA, name), "rb") as file:
        return tomllib.load(file)


class Row:
    """A row of a topic. What the row does not say, its topic says."""

    def __init__(self, tasks, topic, own):
        self.tasks, self.topic, self.own = tasks, topic, own

    def get(self, key, default=None):
        return self.own.get(key, self.topic.get(key, default))

    @property
    def needs_faults(self):
        return any(self.get(key) is not None for key in OUTSIDE)

    def files(self):
        """The files by their names. One of the row comes before one of the topic, and that before one of the task."""
        found = dict(self.tasks.get(self.get("task"), {}))
        found.update(self.topic.get("files", {}))
        found.update(self.own.get("files", {}))
        if self.get("opened") is not None:
            found["domain"] = self.get("front", "") + "(" * self.get("opened")
        return found


def write(folder, name, text):
    with open(os.path.join(folder, name), "wb") as out:
        out.write(text if isinstance(text, bytes) else text.encode())


class Rows(unittest.TestCase):
    def ask(self, row):
        with tempfile.TemporaryDirectory() as folder:
            for name, text in row.files().items():
                write(folder, name, text)
            status, text = program.run(*row.get("words"), cwd=folder)
            self.assertEqual(status, row.get("status"))
            if row.get("head") is not None:
                self.assertEqual(text[: len(row.get("head"))], row.get("head").encode())
                return
            if row.get("checked") is None:
                self.assertEqual(text, row.get("text", "").encode())
                return
            write(folder, "cert", text)
            status, verdict = program.run(row.get("judge", "check"), "domain", "problem", "side", "cert", cwd=folder)
            self.assertEqual((status, verdict), (0, row.get("checked").encode()))

    def run_file(self, name):
        tasks, count = table("tasks.toml"), 0
        for topic in table(name)["topic"]:
            for own in topic["row"]:
                row = Row(tasks, topic, own)
                if not row.needs_faults:
                    count += 1
                    with self.subTest(topic=topic["topic"], row=own.get("name")):
                        self.ask(row)
        self.assertGreater(count, 0)


def add_tests():
    for name in sorted(os.listdir(DATA)):
        if name.endswith(".toml") and name not in ("tasks.toml", "outside.toml"):
            setattr(Rows, f"test_{name[:-5]}", lambda self, name=name: self.run_file(name))


add_tests()

if __name__ == "__main__":
    unittest.main()
