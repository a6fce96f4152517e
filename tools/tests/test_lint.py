#!/usr/bin/env python3
"""Tests tools/lint.

usage: tools/tests/test_lint.py

What the program answers comes from the program itself, which DUALFOND_PROGRAM names, or from the tables of docs/FAULTS.md and the
rows of crates/fond_rows/data. With DUALFOND_SWEEP=N, N mutated files are tried in place of 500.
"""
import collections
import contextlib
import glob
import importlib.machinery
import importlib.util
import itertools
import json
import os
import random
import re
import subprocess
import sys
import tempfile
import unittest

here = os.path.dirname(os.path.abspath(__file__))
tools = os.path.dirname(here)
top = os.path.dirname(tools)
sys.dont_write_bytecode = True
sys.path.insert(0, tools)
from fond import faults, lint_ground, lint_model, program  # noqa: E402
from fond.lint_files import KINDS, Files  # noqa: E402
from fond.tree import read_tree  # noqa: E402

for built in ("out/dualfond", "dist/dualfond-x86_64-linux"):
    if "DUALFOND_PROGRAM" not in os.environ and os.path.exists(os.path.join(top, built)):
        os.environ["DUALFOND_PROGRAM"] = os.path.join(top, built)
needs_program = unittest.skipUnless("DUALFOND_PROGRAM" in os.environ, "program")

MUTATIONS = int(os.environ.get("DUALFOND_SWEEP", "500"))
SEED = 7
PATHS = {"domain": "D", "problem": "P", "side": "U"}
PROBLEM = "(define (problem y) (:domain x) (:goal ()))"
NO_NAME = ("F1", "F3", "F6", "F21", "F22")


def load_lint():
    """tools/lint as a module."""
    loader = importlib.machinery.SourceFileLoader("lint", os.path.join(tools, "lint"))
    module = importlib.util.module_from_spec(importlib.util.spec_from_loader("lint", loader))
    loader.exec_module(module)
    return module


lint = load_lint()


def files_of(domain="(define (domain x))", problem=PROBLEM, side=""):
    """Files by their texts, which may be bytes."""
    texts = [text if isinstance(text, bytes) else text.encode("utf-8") for text in (domain, problem, side)]
    return Files(PATHS, dict(zip(KINDS, texts)))


def answer_of(files):
    """What the program itself answers to `check` with an empty certificate."""
    with tempfile.TemporaryDirectory() as folder:
        for name, text in (*files.texts.items(), ("certificate", b"")):
            with open(os.path.join(folder, name), "wb") as file:
                file.write(text)
        words = [os.path.join(folder, name) for name in (*KINDS, "certificate")]
        return program.run("check", *words)


def explained(files, answer):
    """The finding for a line `refused FILE LINE COLUMN CODE`."""
    _, file, line, column, code = answer.split()
    return lint.explain(files, file, (int(line), int(column)), code)


def name_at(text, line, column, code):
    """The name at a place of a text: a leaf, or the head of the node that begins there; in a text without trees, the token."""
    rest = text.split(b"\n", line - 1)[line - 1][column - 1:]
    if code == "F2":
        for length in (2, 3, 4):
            with contextlib.suppress(UnicodeDecodeError):
                character = rest[:length].decode("utf-8")
                if len(character) == 1 and character.isprintable():
                    return character
        return "" if rest.startswith(b"\xef\xbb\xbf") else f"byte {rest[0]}"
    if code in ("F4", "F5"):
        return re.match(rb"[()]|[!-~]+?(?=[();]|[^!-~]|$)", rest)[0].decode().lower()
    rest = re.sub(rb";[^\n]*", b" ", rest)
    return re.match(rb"\(?\s*([^()\s]*)", rest)[1].decode().lower()


def missing_section(text):
    """The first section whose absence is F10."""
    heads = [getattr(member, "head", "") for member in read_tree(text).members[2:]]
    return next(name for name in (":domain", ":goal") if name not in heads)


def expected_name(files, file, line, column, code):
    if code in NO_NAME:
        return ""
    if code == "F10":
        return missing_section(files.texts[file])
    return name_at(files.texts[file], line, column, code)


def document(name):
    with open(os.path.join(top, "docs", name), encoding="utf-8") as file:
        return file.read().split("\n")


def document_rows():
    """The rows of the tables of docs/FAULTS.md that have answers: the section, the first head of the table, and the two cells."""
    section = head = ""
    for line in document("FAULTS.md"):
        if line.startswith("## "):
            section = line[3:]
        cells = [cell.strip() for cell in line.strip().strip("|").split("|")]
        if not line.startswith("|"):
            head = ""
        elif len(cells) == 2 and cells[1] == "Answer":
            head = cells[0]
        elif head and not set(cells[0]) <= {"-"}:
            yield section, head, *cells


# Texts that docs/FAULTS.md describes instead of writing them down.
DESCRIBED = {"the byte 127": "\x7f", "the empty text": "", "129 times `(`": "(" * 129}
SIDE_DOMAINS = {
    "Faults of form": "(define (domain x))",
    "Faults of names": "(define (domain x) (:action flip :parameters (?x)))",
}
TASKS = {
    "129 objects": files_of(
        "(define (domain x) (:predicates (p ?x ?y)) (:action a :parameters (?x ?y) :effect (p ?x ?y)))",
        f"(define (problem y) (:domain x) (:objects {' '.join(f'o{i}' for i in range(129))}) (:goal ()))"),
    "200 objects": files_of(
        "(define (domain x) (:predicates (p)) (:action a :parameters (?a ?b ?c ?d ?e) :effect (p)) (:action b))",
        f"(define (problem y) (:domain x) (:objects {' '.join(f'o{i}' for i in range(200))}) (:goal ()))"),
    "a schema": files_of(
        f"(define (domain x) (:predicates (p))\n(:action a :effect (oneof {'(p) ' * 257})))"),
}


def files_of_row(section, head, cell):
    """The files of a row of docs/FAULTS.md."""
    if head == "Task":
        return next(files for start, files in TASKS.items() if cell.startswith(start))
    text = DESCRIBED[cell] if cell in DESCRIBED else cell.strip("`")
    if head == "Side list":
        return files_of(SIDE_DOMAINS[section], side=text)
    if text.startswith("(define (problem"):
        return files_of(problem=text)
    return files_of(text)


class Document(unittest.TestCase):
    """docs/FAULTS.md: its table is that of the messages, and each of its rows is explained."""

    def test_table(self):
        ran = subprocess.run([os.path.join(tools, "lint"), "--table"], stdout=subprocess.PIPE, check=True)
        table, lines = ran.stdout.decode().rstrip("\n").split("\n"), document("FAULTS.md")
        start = lines.index(table[0])
        self.assertEqual(lines[start:start + len(table) + 1], [*table, ""])

    def test_every_code_has_a_row(self):
        answers = " ".join(answer for *_, answer in document_rows())
        self.assertEqual({code for code in faults.FAULTS if not re.search(rf"\b{code}\b", answers)}, {"F1"})

    def answers(self):
        """The rows with their files and the line that the program prints."""
        for section, head, cell, answer in document_rows():
            files = files_of_row(section, head, cell)
            answer = "refused domain 2 10 F23" if answer.startswith("F23") else answer.strip("`")
            yield files, answer

    def test_rows_are_explained(self):
        for files, answer in self.answers():
            with self.subTest(answer=answer, texts=files.texts):
                _, file, line, column, code = answer.split()
                found = explained(files, answer)
                self.assertEqual((found.file, found.line, found.column, found.code), (file, int(line), int(column), code))
                self.assertEqual(found.name, expected_name(files, file, int(line), int(column), code))
                self.assertNotEqual(found.message, faults.FAULTS[code].fault)

    @needs_program
    def test_rows_are_found(self):
        for files, answer in self.answers():
            with self.subTest(answer=answer, texts=files.texts):
                (found,) = lint.findings(files)
                self.assertEqual(f"refused {found.file} {found.line} {found.column} {found.code}", answer)

    @needs_program
    def test_too_long(self):
        files = files_of(b" " * (faults.MOST_BYTES + 1))
        (found,) = lint.findings(files)
        self.assertEqual(lint.line_of(lint.as_object(files, found)),
                         "D:1:1: error F1: the text has 16,777,217 bytes, more than 16,777,216")


def rows_of_data():
    """The rows of crates/fond_rows/data that are answered with a fault: their texts and the line of the program."""
    try:
        import tomllib
    except ImportError:
        raise unittest.SkipTest("tomllib") from None
    data = {}
    for path in glob.glob(os.path.join(top, "crates", "fond_rows", "data", "*.toml")):
        with open(path, "rb") as file:
            data[os.path.basename(path)] = tomllib.load(file)
    tasks = data.pop("tasks.toml")
    for topic in itertools.chain.from_iterable(it["topic"] for it in data.values()):
        for row in topic["row"]:
            said = {**topic, **row}
            answer = said.get("text", "")
            if answer.startswith("refused ") and said["words"][0] != "demo":
                yield texts_of_row(tasks, topic, row, said), answer


def texts_of_row(tasks, topic, row, said):
    """The files of a row; `succ` has no side list."""
    texts = {**tasks.get(said.get("task"), {}), **topic.get("files", {}), **row.get("files", {})}
    if "front" in said:
        texts["domain"] = said["front"] + "(" * said["opened"]
    names = said["words"][1:3] if said["words"][0] == "succ" else said["words"][1:4]
    return files_of(*(texts.get(name, "") for name in names))


class Rows(unittest.TestCase):
    """The worked examples of the tool, whose answers need no program."""

    def test_rows(self):
        count = collections.Counter()
        for files, answer in rows_of_data():
            _, file, line, column, code = answer.split()
            with self.subTest(answer=answer, texts={kind: text[:200] for kind, text in files.texts.items()}):
                found = explained(files, answer)
                self.assertEqual(found.name, expected_name(files, file, int(line), int(column), code))
                self.assertNotEqual(found.message, faults.FAULTS[code].fault)
                count[code] += 1
        self.assertEqual(set(count), set(faults.FAULTS))


def typed_domain(rest=""):
    return f"""(define (domain x)
(:types t u v)
(:predicates (p ?x - t) (q))
(:action flip :parameters (?y - t) :effect (q))
{rest})"""


# Files with a fault, the answer of the program, and what the message has to say, by the definitions of docs/LANGUAGE.md.
SAID = [
    (files_of(b"\xef\xbb\xbf(define (domain x))"), "refused domain 1 1 F2", "the byte order mark may occur only in comments"),
    (files_of("(a é"), "refused domain 1 4 F2", "the character 'é' may occur only in comments"),
    (files_of(b"(a \xe9"), "refused domain 1 4 F2", "the byte 233 may occur only in comments"),
    (files_of("(a\n (b"), "refused domain 2 4 F3", "the text ends while 2 parentheses are open; the last of them is at 2:2"),
    (files_of("(a)\n(b"), "refused domain 2 1 F4", "'(' follows the first whole tree, which begins at 1:1"),
    (files_of("; é"), "refused domain 1 5 F6", "the text of the domain has only blanks and comments"),
    (files_of("((a))"), "refused domain 1 1 F7", "the node has 1 member; the form is (define (domain NAME) SECTION ..)"),
    (files_of("(define (domain))"), "refused domain 1 9 F7", "the node of 'domain' has 1 member; the form is (domain NAME)"),
    (files_of("(define (domain x y))"), "refused domain 1 9 F7", "the node of 'domain' has 3 members; the form is (domain NAME)"),
    (files_of("(define x)"), "refused domain 1 9 F7", "the name 'x' occurs where (domain NAME) is expected"),
    (files_of("(define (domain x) (:types ((a))))"), "refused domain 1 28 F7", "a node occurs where a name is expected"),
    (files_of("(define (domain x) (:types - t))"), "refused domain 1 28 F7", "'-' has no name before it"),
    (files_of("(define (domain x) (:types t -))"), "refused domain 1 30 F7", "'-' has no type after it"),
    (files_of("(define (domain x) (:action a :effect))"), "refused domain 1 20 F7",
     "the key ':effect' has no value; the form is (:action NAME KEY VALUE ..)"),
    (files_of("(define (domain x) (:action a :parameters (- t)))"), "refused domain 1 44 F7", "'-' has no variable before it"),
    (files_of("(define (domain x) (:objects))"), "refused domain 1 20 F8",
     "a domain has no section ':objects', which is a section of a problem"),
    (files_of("(define (domain x) (:types t) (:types u))"), "refused domain 1 31 F9",
     "the section ':types' occurs a second time; the first is at 1:20"),
    (files_of("(define (domain x) (:action a :effect () :effect ()))"), "refused domain 1 42 F9",
     "the key ':effect' occurs a second time; the first is at 1:31"),
    (files_of(problem="(define (problem y))"), "refused problem 1 1 F10",
     "the problem has no section ':domain' and no section ':goal'"),
    (files_of("(define (domain x) (:action a :effect (or)))"), "refused domain 1 39 F11", "'or' is no operator of an effect"),
    (files_of("(define (domain x) (:types a - b b - c c - a))"), "refused domain 1 28 F14",
     "the type 'a' is its own ancestor: a - b - c - a"),
    (files_of(typed_domain("(:action b :effect (p))")), "refused domain 5 20 F16",
     "the atom of 'p' has no terms, but the predicate is declared at 3:15 with 1 parameter"),
    (files_of(typed_domain(), side="(flip ?x\n ?y)"), "refused side 1 1 F16",
     "the pattern of 'flip' has 2 terms, but the schema is declared at D:4:10 with 1 parameter"),
    (files_of(typed_domain("(:action b :parameters (?z - (either t u)) :effect (p ?z))")), "refused domain 5 55 F17",
     "'?z' has the type (either t u), but parameter 1 of 'p', declared at 3:15, has the type 't'"),
    (files_of(typed_domain("(:constants c)"), "(define (problem y) (:domain x) (:objects c - u) (:goal ()))"),
     "refused problem 1 43 F19", "'c' is declared again with the type 'u'; its type at D:5:13 is 'object'"),
    (files_of("(define (domain x) (:predicates (p ?x) (p)))"), "refused domain 1 41 F19",
     "the predicate 'p' is declared again with no parameters; at 1:34 it has 1 parameter of type 'object'"),
    (TASKS["129 objects"], "refused domain 1 1 F21", "the task has 16,641 fluent atoms, more than 16,384: p 16,641"),
    (TASKS["200 objects"], "refused domain 1 1 F22", "the task keeps more than 131,072 ground actions: a 320,000,000,000, b 1"),
    (TASKS["a schema"], "refused domain 2 10 F23", "the schema 'a' has 257 outcomes, more than 256"),
]


class Messages(unittest.TestCase):
    """What messages say."""

    def test_said(self):
        for files, answer, message in SAID:
            with self.subTest(answer=answer, message=message):
                self.assertEqual(explained(files, answer).message, message)

    @needs_program
    def test_answers(self):
        for files, answer, _ in SAID:
            self.assertEqual(answer_of(files), (3, answer.encode() + b"\n"))

    def test_every_message_is_used(self):
        used, fault = set(), faults.fault

        def recorded(file, place, code, name="", variant="", **fields):
            used.add((code, variant))
            return fault(file, place, code, name, variant, **fields)

        faults.fault = recorded
        try:
            for files, answer in [*rows_of_data(), *((files, answer) for files, answer, _ in SAID)]:
                explained(files, answer)
        finally:
            faults.fault = fault
        self.assertEqual({(code, variant) for code, row in faults.FAULTS.items() for variant in row.messages} - used, set())

    def test_long_names_are_cut(self):
        name = "n" * 1000
        found = explained(files_of(f"(define (domain x) (:action a :effect ({name})))"), "refused domain 1 40 F15")
        self.assertEqual((found.name, found.message), (name, f"no predicate '{'n' * faults.LONGEST_SHOWN}..' is declared"))

    def test_an_unknown_code_is_passed_on(self):
        found = explained(files_of(), "refused domain 1 1 F99")
        self.assertEqual((found.code, found.message), ("F99", "a fault that docs/FAULTS.md does not have"))


class Columns(unittest.TestCase):
    """Columns are counted in characters."""

    def test_columns(self):
        for text, column, expected in [
            (b"(a ; \xc3\xa9", 8, 7),
            (b"(a ; \xf0\x9f\x98\x80", 10, 7),
            (b"(a ; \xe9\xe8", 8, 8),
            (b"(a ; \xc3\xa9\xff\xe2\x82\xac", 12, 9),
            (b"(a\t;\t", 6, 6),
            (b"; \xc3\xa9\n(a", 3, 3),
        ]:
            with self.subTest(text=text):
                files = files_of(text)
                self.assertEqual(files.column("domain", text.count(b"\n") + 1, column), expected)

    @needs_program
    def test_end_in_a_comment(self):
        files = files_of("(a ; é")
        (found,) = lint.findings(files)
        self.assertEqual(found.column, 8)
        self.assertEqual(lint.as_object(files, found)["column"], 7)


def example(path):
    with open(path, "rb") as file:
        return file.read()


def examples():
    """The files of each example: every problem with every side list of its folder, and the name of the problem."""
    for path in sorted(glob.glob(os.path.join(top, "examples", "*", "*.d"))):
        folder = os.path.dirname(path)
        sides = [it for name in ("*.unfair", "*.patterns", "none") for it in glob.glob(os.path.join(folder, name))]
        for problem, side in itertools.product(sorted(glob.glob(os.path.join(folder, "*.p"))), sorted(sides)):
            yield os.path.basename(problem)[:-2], files_of(example(path), example(problem), example(side))


WORDS = "and or not imply forall exists when oneof either = - object ?x ?y :effect :types :init :goal x () ; é €".encode().split()
WORDS.append(b"\xff")
TOKEN = re.compile(rb"[()]|[^()\s;]+")


def mutated(chance, text):
    """A text in which a token, a parenthesis or a byte is deleted, inserted or replaced."""
    what, edit = chance.choice(["token", "token", "parenthesis", "byte"]), chance.choice(["delete", "insert", "replace"])
    spans = [match.span() for match in TOKEN.finditer(text)]
    if what == "byte":
        start = chance.randrange(len(text) + 1)
        end, new = min(start + 1, len(text)), bytes([chance.choice([chance.randrange(256), chance.randrange(33, 127)])])
    else:
        chosen = [it for it in spans if (text[it[0]:it[1]] in b"()") == (what == "parenthesis")]
        start, end = chance.choice(chosen or [(len(text), len(text))])
        new = chance.choice([b"(", b")"] if what == "parenthesis" else [*WORDS, *(text[it[0]:it[1]] for it in spans)])
    if edit == "delete":
        return text[:start] + text[end:]
    new = b" " + new + b" " if what == "token" else new
    return text[:start] + new + text[start if edit == "insert" else end:]


def mutants(count):
    """Files of examples, one of which is mutated once or twice."""
    chance = random.Random(SEED)
    sources = [files for _, files in examples()]
    for _ in range(count):
        files = chance.choice(sources)
        kind = chance.choice(["domain", "domain", "problem", "problem", "side"])
        text = mutated(chance, files.texts[kind])
        if chance.random() < 0.2:
            text = mutated(chance, text)
        yield Files(PATHS, {**files.texts, kind: text})


@needs_program
class Mutants(unittest.TestCase):
    """Examples with one or two changes: the line is the program's, the column is the program's in characters, the name is there."""

    def test_mutants(self):
        codes = collections.Counter()
        for files in mutants(MUTATIONS):
            status, answer = answer_of(files)
            with self.subTest(answer=answer, texts=files.texts):
                found = lint.findings(files)
                if status != 3:
                    self.assertEqual([it for it in found if it.severity != "warning"], [])
                    continue
                codes[self.check_fault(files, answer.decode().split(), found)] += 1
        self.assertGreater(sum(codes.values()), MUTATIONS // 3)

    def check_fault(self, files, answer, found):
        _, file, line, column, code = answer
        (found,) = found
        told = lint.as_object(files, found)
        before = files.texts[file].split(b"\n")[int(line) - 1][:int(column) - 1]
        with contextlib.suppress(UnicodeDecodeError):
            self.assertEqual(told["column"], len(before.decode("utf-8")) + 1)
        self.assertEqual((told["path"], told["line"], told["code"]), (PATHS[file], int(line), code))
        self.assertEqual(told["name"], expected_name(files, file, int(line), int(column), code))
        self.assertNotEqual(told["message"], faults.FAULTS[code].fault)
        return code


DECLARED = "(:predicates (p))"


def small(actions, problem=PROBLEM, side="", declared=DECLARED):
    return files_of(f"(define (domain x)\n{declared}\n{actions})", problem, side)


PROBLEM_OF = "(define (problem y) (:domain x)\n{}\n(:goal ()))"
MOVE = "(:action m :parameters (?a ?b - t) :precondition (r ?a ?b) :effect (p))"
MOVES = "(:types t) (:constants a b - t c) (:predicates (p) (r ?a ?b - t))"
INIT = PROBLEM_OF.format("(:init (r a b))")

# The smallest files with each warning, and its line.
WARNED = {
    "predicate": (small("(:action a :effect (p))", declared="(:predicates (p) (q))"),
                  "D:2:19: warning: no condition and no effect mentions the predicate 'q'"),
    "parameter": (small("(:action a :parameters (?x ?y) :effect (and (p) (forall (?y) (when (= ?x ?y) (p)))))",
                        PROBLEM_OF.format("(:objects o)")),
                  "D:3:28: warning: nothing uses the parameter '?y' of 'a'"),
    "again": (small("(:action a :effect (p))", PROBLEM_OF.format("(:objects k k)")),
              "P:2:13: warning: 'k' is declared again; the first declaration is at 2:11"),
    "again from the domain": (small("(:action a :effect (p))", PROBLEM_OF.format("(:objects k)"), "", f"(:constants k) {DECLARED}"),
                              "P:2:11: warning: 'k' is declared again; the first declaration is at D:2:13"),
    "predicate again": (small("(:action a :effect (p))", declared="(:predicates (p) (p))"),
                        "D:2:19: warning: 'p' is declared again; the first declaration is at 2:15"),
    "domain": (small("(:action a :effect (p))", "(define (problem y) (:domain z) (:goal ()))"),
               "P:1:30: warning: the problem is for the domain 'z', but the domain at D:1:17 has the name 'x'"),
    "metric": (small("(:action a :effect (p))", PROBLEM_OF.format("(:metric minimize (cost))")),
               "P:2:1: warning: the section ':metric' is passed over"),
    "length": (small("(:action a :effect (p))", PROBLEM_OF.format("(:length 3)")),
               "P:2:1: warning: the section ':length' is passed over"),
    "goal-reward": (small("(:action a :effect (p))", PROBLEM_OF.format("(:goal-reward 3)")),
                    "P:2:1: warning: the section ':goal-reward' is passed over"),
    "schema": (small("(:action a :precondition (or) :effect (p))"),
               "D:3:10: warning: the schema 'a' has no kept action: its precondition is surely false"),
    "empty range": (small("(:action a :parameters (?x) :effect (when (= ?x ?x) (p)))"),
                    "D:3:10: warning: the schema 'a' has no kept action: no object is in the range of '?x'"),
    "pattern": (small(MOVE, INIT, "(m ?x ?y)\n(m ?x ?x)", MOVES), "U:2:1: warning: the pattern of 'm' fits no kept action"),
    "pattern of an object": (small(MOVE, INIT, "(m a ?x)\n(m b ?x)", MOVES),
                             "U:2:1: warning: the pattern of 'm' fits no kept action"),
    "pattern out of range": (small(MOVE, INIT, " (m ?x c)", MOVES),
                             "U:1:2: warning: the pattern of 'm' fits no kept action: 'c' is not in the range of '?b'"),
}


def lines_of(files, found):
    return [lint.line_of(lint.as_object(files, it)) for it in found]


class Warnings(unittest.TestCase):
    """What is legal and odd."""

    def test_smallest_examples(self):
        for name, (files, line) in WARNED.items():
            with self.subTest(name=name):
                self.assertEqual(lines_of(files, lint.lint_warnings.warnings(files, lint_model.read(files.texts))), [line])

    @needs_program
    def test_smallest_examples_have_no_fault(self):
        for name, (files, line) in WARNED.items():
            with self.subTest(name=name):
                self.assertEqual(lines_of(files, lint.findings(files)), [line])

    def test_all_warnings_are_tried(self):
        codes = {it.code for files, _ in WARNED.values() for it in lint.lint_warnings.warnings(files, lint_model.read(files.texts))}
        self.assertEqual(codes, set(faults.WARNINGS))

    def test_examples_have_none(self):
        for name, files in examples():
            with self.subTest(name=name):
                self.assertEqual(lint.lint_warnings.warnings(files, lint_model.read(files.texts)), [])

    def test_a_long_search_warns_of_nothing(self):
        files, _ = WARNED["pattern"]
        steps, lint_ground.WARNING_STEPS = lint_ground.WARNING_STEPS, 1
        try:
            self.assertEqual(lint.lint_warnings.useless(lint_model.read(files.texts)), [])
        finally:
            lint_ground.WARNING_STEPS = steps


KEPT_DOMAIN = """(define (domain k) (:types t - s u - s)
(:constants a b - t c - u)
(:predicates (f ?x) (r ?x ?y - s) (e ?x - t) (z))
(:action plain :parameters (?x ?y) :effect (f ?x))
(:action joined :parameters (?x ?y ?z - s) :precondition (and (r ?x ?y) (r ?y ?z) (f ?x)) :effect (f ?y))
(:action apart :parameters (?x ?y - s) :precondition (and (not (= ?x ?y)) (or (r ?x ?y) (r ?y ?x))) :effect (f ?y))
(:action self :parameters (?x - s) :precondition (r ?x ?x))
(:action implied :parameters (?x - t ?y - u) :precondition (imply (e ?x) (r ?x ?y)))
(:action every :parameters (?x - s) :precondition (forall (?y - t) (or (r ?x ?y) (= ?x ?y) (f ?y))))
(:action some :parameters (?x - s) :precondition (exists (?y - t ?x - u) (and (r ?y ?x) (not (e ?y)))))
(:action both :parameters (?x - (either t u) ?y) :precondition (and (exists (?z - s) (r ?x ?z)) (not (f ?y))))
(:action never :parameters (?x) :precondition (z))
(:action unless :parameters (?x - t) :precondition (and (not (z)) (not (and (e ?x) (f ?x)))))
(:action bound :parameters (?x - s ?y) :precondition (and (r a ?x) (= ?y c))))
"""
KEPT_PROBLEM = """(define (problem k) (:domain k) (:objects d e - u o)
(:init (r a b) (r b c) (r c c) (r d a) (e a) (not (z))) (:goal ()))
"""


class Counts(unittest.TestCase):
    """Counts of fluent atoms, kept actions and outcomes."""

    def test_examples(self):
        with open(os.path.join(top, "examples", "README.md"), encoding="utf-8") as file:
            rows = re.findall(r"^\| ([a-z0-9-]+) \| (\d+) \| (\d+) \|", file.read(), re.M)
        expected = {name: (int(atoms), int(actions)) for name, atoms, actions in rows}
        self.assertGreater(len(expected), 14)
        for name, files in examples():
            task = lint_ground.Task(lint_model.read(files.texts))
            atoms, actions = lint_ground.atom_counts(task), lint_ground.action_counts(task)
            self.assertTrue(all(is_exact for *_, is_exact in actions))
            counts = sum(count for _, count, _ in atoms), sum(count for _, count, _ in actions)
            self.assertEqual(counts, expected.get(name, (1, 1)), name)

    @needs_program
    def test_kept_actions(self):
        """A rule of an action that is not kept is rejected with C3."""
        files = files_of(KEPT_DOMAIN, KEPT_PROBLEM)
        task = lint_ground.Task(lint_model.read(files.texts))
        for schema in task.model.schemas:
            ranges = [task.range_of(declared) for declared in schema.parameters]
            kept = [objects for objects in itertools.product(*ranges) if self.is_kept(files, schema, objects)]
            with self.subTest(schema=schema.name):
                self.assertEqual(lint_ground.kept_count(task, schema), len(kept))
                for objects in itertools.product(task.objects, repeat=len(schema.parameters)):
                    self.assertEqual(lint_ground.kept_count(task, schema, list(objects)), int(objects in kept))

    def is_kept(self, files, schema, objects):
        with tempfile.TemporaryDirectory() as folder:
            rule = f"dualfond 1 policy\nrule ({' '.join([schema.name, *objects])}) fair 0 goal :\nreach 1\nend\n"
            for name, text in (*files.texts.items(), ("certificate", rule.encode())):
                with open(os.path.join(folder, name), "wb") as file:
                    file.write(text)
            status, answer = program.run("check", *(os.path.join(folder, name) for name in (*KINDS, "certificate")))
        return not (status == 7 and answer.startswith(b"rejected C3"))

    def test_patterns(self):
        task = lint_ground.Task(lint_model.read(files_of(KEPT_DOMAIN, KEPT_PROBLEM).texts))
        joined = lint_model.first_of(task.model.schemas, "joined")
        for terms, count in [("?x ?y ?z", 4), ("?x ?x ?y", 1), ("a ?y ?z", 1), ("?z ?y c", 3), ("d ?x ?x", 0), ("o ?x ?y", 0)]:
            with self.subTest(terms=terms):
                self.assertEqual(lint_ground.kept_count(task, joined, terms.split()), count)

    def test_outcomes(self):
        """`and` multiplies, `oneof` adds, and a `forall` is an `and` over its lists."""
        task = lint_ground.Task(lint_model.read(files_of(KEPT_DOMAIN, KEPT_PROBLEM).texts))
        for effect, count in [
            ("()", 1), ("(and)", 1), ("(z)", 1), ("(not (z))", 1), ("(oneof (z))", 1),
            ("(oneof (z) (and (z) (oneof (z) ())))", 3), ("(and (oneof (z) ()) (oneof (z) () (z)))", 6),
            ("(forall (?x - t) (oneof (z) ()))", 4), ("(forall (?x - u ?y - t) (when (z) (oneof (z) ())))", 64),
            ("(forall (?x ?y ?z) (oneof (z) ()))", lint_ground.MOST_TOLD + 1),
        ]:
            with self.subTest(effect=effect):
                self.assertEqual(lint_ground.outcome_count(task, lint.read_forest(effect.encode())[0]), count)

    def test_up_to(self):
        """A search that takes too long leaves the number of all actions."""
        steps, lint_ground.STEPS = lint_ground.STEPS, 5
        try:
            task = lint_ground.Task(lint_model.read(files_of(KEPT_DOMAIN, KEPT_PROBLEM).texts))
            counts = {name: (count, is_exact) for name, count, is_exact in lint_ground.action_counts(task)}
        finally:
            lint_ground.STEPS = steps
        self.assertEqual((counts["plain"], counts["joined"], counts["never"]), ((36, True), (125, False), (0, True)))


def write(folder, name, text):
    """Writes a file, and returns its path."""
    path = os.path.join(folder, name)
    with open(path, "w", encoding="ascii") as file:
        file.write(text)
    return path


class CommandLine(unittest.TestCase):
    """Words, output and exit statuses."""

    def lint(self, *words, **env):
        ran = subprocess.run([os.path.join(tools, "lint"), *words], env={**os.environ, **env}, capture_output=True, check=False)
        return ran.returncode, ran.stdout.decode("utf-8", "surrogateescape")

    def test_words(self):
        for words in [(), ("D",), ("D", "P", "U", "V"), ("--wrong", "D", "P")]:
            self.assertEqual(self.lint(*words)[0], 2)

    def test_unreadable(self):
        self.assertEqual(self.lint(os.path.join(here, "missing"), here), (3, ""))

    def test_no_program(self):
        coin = os.path.join(top, "examples", "coin", "coin")
        self.assertEqual(self.lint(coin + ".d", coin + ".p", DUALFOND_PROGRAM=os.path.join(here, "missing")), (3, ""))
        self.assertEqual(self.lint(coin + ".d", coin + ".p", DUALFOND_PROGRAM="/bin/false"), (3, ""))

    @needs_program
    def test_nothing(self):
        coin = os.path.join(top, "examples", "coin", "coin")
        self.assertEqual(self.lint(coin + ".d", coin + ".p"), (0, ""))
        self.assertEqual(self.lint("--json", coin + ".d", coin + ".p"), (0, "[]\n"))

    @needs_program
    def test_a_fault(self):
        with tempfile.TemporaryDirectory() as folder:
            domain = write(folder, "d", "(define (domain x)\n (:action a :effect (Q)))")
            problem = write(folder, "p", PROBLEM)
            self.assertEqual(self.lint(domain, problem), (1, f"{domain}:2:22: error F15: no predicate 'q' is declared\n"))
            status, text = self.lint("--json", domain, problem)
            self.assertEqual((status, json.loads(text)), (1, [{
                "path": domain, "line": 2, "column": 22, "severity": "error", "code": "F15", "name": "q",
                "message": "no predicate 'q' is declared",
            }]))

    @needs_program
    def test_warnings_are_no_fault(self):
        with tempfile.TemporaryDirectory() as folder:
            domain = write(folder, "d", "(define (domain x) (:predicates (p) (q)) (:action a :effect (p)))")
            problem, side = write(folder, "p", PROBLEM.replace(":domain x", ":domain y")), write(folder, "u", "a\n")
            status, text = self.lint(domain, problem, side)
            self.assertEqual(status, 0)
            self.assertEqual(text.splitlines(), [
                f"{domain}:1:38: warning: no condition and no effect mentions the predicate 'q'",
                f"{problem}:1:30: warning: the problem is for the domain 'y', but the domain at {domain}:1:17 has the name 'x'",
            ])


# Vim writes its list of places and the place to which it goes; Emacs prints the place of the first error.
VIM = """
silent make!
let places = map(getqflist(), '[v:val.lnum, v:val.col, v:val.type, v:val.text]')
cc 1
call writefile([json_encode(places), json_encode([line('.'), col('.')])], 'RESULT')
qall!
"""
EMACS = """
(require 'compile)
(compile "COMMAND")
(let ((process (get-buffer-process "*compilation*")))
  (while (process-live-p process) (accept-process-output process 1))
  (accept-process-output nil 0.3))
(next-error 1 t)
(with-current-buffer "d.d" (princ (list (line-number-at-pos) (1+ (- (point) (line-beginning-position))))))
"""
BROKEN = "(define (domain x) (:predicates (p))\n\t(:action a :effect (Q)))"


class Editors(unittest.TestCase):
    """The settings of docs/EDITORS.md, in the editors that the machine has."""

    def setUp(self):
        """A task, and in place of the program one that knows its fault."""
        room = tempfile.TemporaryDirectory()
        self.addCleanup(room.cleanup)
        self.folder = room.name
        self.files = [write(self.folder, "d.d", BROKEN), write(self.folder, "d.p", PROBLEM), write(self.folder, "d.unfair", "a\n")]
        known = write(self.folder, "known", "#!/bin/sh\necho refused domain 2 22 F15\nexit 3\n")
        os.chmod(known, 0o755)
        self.env = {**os.environ, "DUALFOND_PROGRAM": known}

    def block(self, language):
        """The settings for an editor."""
        return re.search(rf"^```{language}\n(.*?)^```$", "\n".join(document("EDITORS.md")), re.M | re.S)[1]

    def run_editor(self, *words):
        with contextlib.suppress(FileNotFoundError):
            return subprocess.run(words, cwd=top, env=self.env, stdin=subprocess.DEVNULL, capture_output=True, timeout=30)
        return self.skipTest(words[0])

    def test_code(self):
        pattern = json.loads(self.block("json"))["tasks"][0]["problemMatcher"]["pattern"]
        for line, groups in [
            ("/a b/d.d:2:22: error F15: no predicate 'q' is declared",
             ("/a b/d.d", "2", "22", "error", "F15", "no predicate 'q' is declared")),
            *((line, (*re.match(r"([DPU]):(\d+):(\d+)", line).groups(), "warning", None, line.split(": ", 2)[2]))
              for _, line in WARNED.values()),
        ]:
            match = re.match(pattern["regexp"], line)
            found = tuple(match[pattern[key]] for key in ("file", "line", "column", "severity", "code", "message"))
            self.assertEqual(found, groups)

    def test_vim(self):
        result = os.path.join(self.folder, "result")
        script = write(self.folder, "script", self.block("vim") + VIM.replace("RESULT", result))
        self.run_editor("vim", "-es", "-N", "-u", "NONE", "-i", "NONE", self.files[0], "-S", script)
        with open(result, encoding="utf-8") as file:
            places, place = map(json.loads, file)
        self.assertEqual((places, place), ([[2, 22, "e", "no predicate 'q' is declared"]], [2, 22]))

    def test_emacs(self):
        command = " ".join([os.path.join(tools, "lint"), *self.files])
        script = write(self.folder, "script.el", self.block("elisp") + EMACS.replace("COMMAND", command))
        ran = self.run_editor("emacs", "--batch", "-Q", "-l", script)
        self.assertTrue(ran.stdout.endswith(b"(2 22)"), ran)


if __name__ == "__main__":
    unittest.main()
