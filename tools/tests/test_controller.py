#!/usr/bin/env python3
"""Compares generated controllers with the program's `run` on random scripts, and `fond.task` with the worked examples.

usage: tools/tests/test_controller.py     DUALFOND_SWEEP=10000 tries that many scripts, and each compiler on each file

The world of a script is `fond.task`; each decision comes from the JSON file, the Python module or the C file, which is compiled
with sanitizers. The trace has to be that of `run`, byte for byte.
"""
import contextlib
import functools
import importlib.machinery
import importlib.util
import io
import itertools
import json
import os
import random
import re
import shutil
import subprocess
import sys
import tempfile
import unittest
from unittest import mock

here = os.path.dirname(os.path.abspath(__file__))
sys.dont_write_bytecode = True
sys.path.insert(0, os.path.dirname(here))
from fond import program  # noqa: E402
from fond.certificate import CertificateError, read_certificate  # noqa: E402
from fond.task import Task, ground_text, holds  # noqa: E402

TOP = program.TOP
CONTROLLER = os.path.join(TOP, "tools", "controller")
EXAMPLES = os.path.join(TOP, "examples")
SCRIPTS = int(os.environ.get("DUALFOND_SWEEP", "300"))
LONGEST = 40
HAS_PROGRAM = "DUALFOND_PROGRAM" in os.environ or any(os.path.exists(os.path.join(TOP, it)) for it in ("out/dualfond", "dist"))
IS_SWEEP = SCRIPTS >= 5000
COMPILERS = [it for it in ("gcc", "clang") if shutil.which(it)]
TURNS = itertools.cycle(COMPILERS)
WARNINGS = ["-std=c99", "-Wall", "-Wextra", "-pedantic", "-Werror"]
SANITIZERS = ["-g", "-fsanitize=address,undefined", "-fno-sanitize-recover=all"]

COIN = [os.path.join(EXAMPLES, "coin", it) for it in ("coin.d", "coin.p", "coin.unfair")]

# Answers each state, which is a line of the count of its atoms and their numbers, with the decision and the number of the rule.
STATE_MAIN = """
#define CONTROLLER_INTERFACE_ONLY
#include "controller.c"
#include <stdio.h>
int main(void)
{
    controller_state state;
    int count, atom;
    int32_t rule, answer;
    controller_initial(&state);
    for (atom = 0; atom < CONTROLLER_ATOMS; atom++)
        if (controller_get(&state, atom))
            printf("%s ", controller_atom_names[atom]);
    printf("\\n");
    fflush(stdout);
    while (scanf("%d", &count) == 1) {
        controller_clear(&state);
        while (count-- > 0 && scanf("%d", &atom) == 1)
            controller_set(&state, atom, true);
        answer = controller_step(&state, &rule);
        if (answer != controller_step(&state, 0))
            return 1;
        printf("%d ", (int)rule);
        printf("%s\\n", answer >= 0 ? controller_action_names[answer] : answer == CONTROLLER_GOAL ? "goal" : "stuck");
        fflush(stdout);
    }
    return 0;
}
"""

# Answers each script, which is a line of the count of its outcomes and their numbers, with a line for each step.
AUTOMATON_MAIN = """
#define CONTROLLER_INTERFACE_ONLY
#include "controller.c"
#include <stdio.h>
int main(void)
{
    int count, outcome;
    while (scanf("%d", &count) == 1) {
        int32_t item = CONTROLLER_START, action;
        while (count-- > 0 && scanf("%d", &outcome) == 1) {
            action = controller_action(item);
            if (action >= 0)
                printf("rule %d %s outcome %d\\n", (int)controller_rule(item), controller_action_names[action], outcome);
            item = controller_next(item, outcome);
        }
        action = controller_action(item);
        printf("%s\\n", action == CONTROLLER_GOAL ? "goal" : action == CONTROLLER_NONE ? "none" : "on");
    }
    return 0;
}
"""


def compilers():
    """The compilers that compile a file: all of them in a sweep, and otherwise one, in turn."""
    return COMPILERS if IS_SWEEP else [next(TURNS)] if COMPILERS else []


def read(name):
    with open(name, "rb") as file:
        return file.read()


def write(name, text):
    with open(name, "wb") as file:
        file.write(text if isinstance(text, bytes) else text.encode("ascii"))
    return name


@functools.lru_cache(maxsize=None)
def program_at(path):
    """The module of a program without an extension."""
    loader = importlib.machinery.SourceFileLoader(os.path.basename(path), path)
    module = importlib.util.module_from_spec(importlib.util.spec_from_loader(loader.name, loader))
    loader.exec_module(module)
    return module


def generate(words, files, output):
    """Runs tools/controller in this process; its status, and what it wrote on standard error."""
    error = io.StringIO()
    with mock.patch.object(sys, "argv", [CONTROLLER, *words, "-o", output, *files]), contextlib.redirect_stderr(error):
        try:
            status = program_at(CONTROLLER).main()
        except SystemExit as ended:
            status = ended.code
    return status, error.getvalue()


def compiled(folder, main, compiler):
    """The program of controller.c in a folder and of a main file. Both are compiled without a warning."""
    write(os.path.join(folder, "main.c"), main)
    words = [compiler, *WARNINGS, *SANITIZERS, "-o", "harness", "main.c", "controller.c"]
    ran = subprocess.run(words, cwd=folder, capture_output=True, text=True, check=False)
    if ran.returncode:
        raise AssertionError(ran.stderr)
    return os.path.join(folder, "harness")


def module_of(text):
    """The names that a generated module defines."""
    names = {}
    exec(compile(text, "controller.py", "exec"), names)
    return names


class Case:
    """A task with a policy: its files, and the task."""

    def __init__(self, name, files, certificate):
        self.name = name
        self.task_files = files
        self.files = [*files, certificate]
        self.task = Task(read(files[0]), read(files[1]))


class JsonDecider:
    """Decides by the JSON file, as docs/EMBEDDING.md describes it."""

    def __init__(self, name):
        self.value = json.loads(read(name))
        self.initial = frozenset(self.value["initial"])
        self.preconditions = {it["action"]: it["precondition"] for it in self.value["actions"]}

    def is_true(self, formula, state):
        if isinstance(formula, bool):
            return formula
        if isinstance(formula, str):
            return formula in state
        ((key, parts),) = formula.items()
        if key == "not":
            return not self.is_true(parts, state)
        return (all if key == "and" else any)(self.is_true(part, state) for part in parts)

    def __call__(self, state):
        if self.is_true(self.value["goal"], state):
            return "goal", None
        for number, rule in enumerate(self.value["rules"]):
            if all((atom in state) == is_true for atom, is_true in rule["condition"].items()):
                is_applicable = self.is_true(self.preconditions[rule["action"]], state)
                return rule["action"] if is_applicable else "stuck", number
        return "stuck", None


class PythonDecider:
    """Decides by the Python module."""

    def __init__(self, name):
        self.controller = module_of(read(name))["Controller"]()
        self.initial = frozenset(self.controller.state)

    def __call__(self, state):
        for atom in self.controller.state - state:
            self.controller.set(atom, False)
        for atom in state - self.controller.state:
            self.controller.set(atom, True)
        return self.controller.step(), self.controller.rule


class CDecider:
    """Decides by a process of the compiled C file."""

    def __init__(self, harness, task):
        self.number_of = task.number_of
        self.known = {}
        self.process = subprocess.Popen([harness], stdin=subprocess.PIPE, stdout=subprocess.PIPE, text=True)
        self.initial = frozenset(re.findall(r"\([^)]*\)", self.process.stdout.readline()))

    def __call__(self, state):
        if state not in self.known:
            print(len(state), *(self.number_of[atom] for atom in state), file=self.process.stdin, flush=True)
            rule, _, answer = self.process.stdout.readline().rstrip("\n").partition(" ")
            self.known[state] = answer, None if rule == "-1" else int(rule)
        return self.known[state]

    def close(self):
        """Ends the process; its status is not 0 if a sanitizer found a fault."""
        self.process.stdin.close()
        self.process.stdout.close()
        return self.process.wait()


def trace(task, decide, numbers):
    """The status and the text of `run` over these numbers, by the decisions of a controller (docs/COMMANDS.md)."""
    lines, state, status = [], decide.initial, 8
    for read_count in itertools.count():
        answer, rule = decide(state)
        if answer == "goal":
            status, last = 0, f"goal left {len(numbers) - read_count}"
            break
        if read_count == len(numbers) or answer == "stuck":
            last = "ended" if read_count == len(numbers) else "stuck"
            break
        number, count = numbers[read_count], len(task.outcomes(answer))
        if number >= count:
            last = f"outcome {number} of {count}"
            break
        lines.append(f"rule {rule} {answer} outcome {number}")
        state = task.next_state(state, answer, number)
    return status, "\n".join([*lines, last, *task.printed(state), ""])


def random_script(task, decide, drawn):
    """Numbers that mostly are outcomes of the actions that a controller chooses."""
    numbers, state = [], task.initial
    length = drawn.choice((0, 1, 2, 5, 10, LONGEST, LONGEST))
    while len(numbers) < length:
        answer, _ = decide(state)
        if answer in ("goal", "stuck"):
            numbers += [drawn.randrange(5) for _ in range(drawn.randrange(3))]
            break
        count = len(task.outcomes(answer))
        number = drawn.randrange(count) if drawn.random() < 0.98 else drawn.randrange(count + 3)
        numbers.append(number)
        if number >= count:
            break
        state = task.next_state(state, answer, number)
    return numbers


def with_a_wrong_rule(text, drawn):
    """A certificate in which a rule is dropped, changes places with another rule, or has the action of that one."""
    lines = text.splitlines(keepends=True)
    rules = [at for at, line in enumerate(lines) if line.startswith(b"rule ")]
    one, other = drawn.choice(rules), drawn.choice(rules)
    change = drawn.choice(("drop", "drop", "swap", "action", "action"))
    if change == "drop":
        lines.pop(one)
    elif change == "swap":
        lines[one], lines[other] = lines[other], lines[one]
    else:
        action = re.search(rb"\([^)]*\)", lines[other])[0]
        lines[one] = re.sub(rb"\([^)]*\)", lambda _: action, lines[one], count=1)
    return b"".join(lines)


def example_tasks():
    """Yields the name and the domain, problem and side list of each task of the examples, with each of its side lists."""
    for name in sorted(os.listdir(EXAMPLES)):
        folder = os.path.join(EXAMPLES, name)
        if not os.path.isdir(folder):
            continue
        files = sorted(os.listdir(folder))
        sides = [it for it in files if it in ("none", f"{name}.unfair")]
        for problem, side in itertools.product([it for it in files if it.endswith(".p")], sides):
            yield f"{problem} {side}", [os.path.join(folder, it) for it in (f"{name}.d", problem, side)]
        if f"{name}.patterns" in files:
            yield f"{name}.p patterns", [os.path.join(folder, it) for it in (f"{name}.d", f"{name}.p", f"{name}.patterns")]


@functools.lru_cache(maxsize=None)
def planned_cases():
    """A case for each task of the examples that has a policy, planned once."""
    cases = []
    for number, (name, files) in enumerate(example_tasks()):
        status, text = program.run("plan", *files, "1000000")
        if status == 0:
            cases.append(Case(name, files, write(os.path.join(FOLDER.name, f"{number}.cert"), text)))
    return cases


def setUpModule():
    global FOLDER
    FOLDER = tempfile.TemporaryDirectory()
    unittest.addModuleCleanup(FOLDER.cleanup)


class Sweep(unittest.TestCase):
    """Random scripts over the policies of the examples."""

    def deciders(self, case, certificate, folder, has_c):
        """A decider of each form for a certificate, and of each C program."""
        files = [*case.task_files, certificate]
        words = [] if certificate == case.files[3] else ["--unchecked"]
        for form, name in (("--json", "controller.json"), ("--python", "controller.py"), ("--c", "controller.c"))[: 2 + has_c]:
            self.assertEqual(generate([form, *words], files, os.path.join(folder, name)), (0, ""), case.name)
        found = [JsonDecider(os.path.join(folder, "controller.json")), PythonDecider(os.path.join(folder, "controller.py"))]
        if has_c:
            found += [CDecider(compiled(folder, STATE_MAIN, compiler), case.task) for compiler in compilers()]
        return found

    def compare(self, case, certificate, scripts, drawn, has_c):
        """Compares a certificate's controllers with `run` on so many scripts."""
        seen = set()
        with tempfile.TemporaryDirectory(dir=FOLDER.name) as folder:
            deciders = self.deciders(case, certificate, folder, has_c)
            for _ in range(scripts):
                numbers = random_script(case.task, deciders[1], drawn)
                script = write(os.path.join(folder, "script"), " ".join(map(str, numbers)))
                status, text = program.run("run", *case.task_files, certificate, script)
                for decider in deciders:
                    traced = trace(case.task, decider, numbers)
                    self.assertEqual(traced, (status, text.decode("ascii")), (case.name, decider, numbers))
                seen |= set(re.findall(r"^(goal|ended|stuck|outcome)", text.decode("ascii"), re.MULTILINE))
            for decider in deciders[2:]:
                self.assertEqual(decider.close(), 0, case.name)
        return seen

    @unittest.skipUnless(HAS_PROGRAM, "program")
    def test_policies(self):
        cases, drawn, seen = planned_cases(), random.Random(1), set()
        for number, case in enumerate(cases):
            has_c = IS_SWEEP or number % 2 == 0
            seen |= self.compare(case, case.files[3], SCRIPTS * 2 // 3 // len(cases) + 1, drawn, has_c)
        self.assertEqual(seen, {"goal", "ended", "outcome"})

    @unittest.skipUnless(HAS_PROGRAM, "program")
    def test_wrong_policies(self):
        cases = [it for it in planned_cases() if read(it.files[3]).count(b"\nrule ") > 1]
        rounds = 6 if IS_SWEEP else 1
        drawn, seen = random.Random(2), set()
        for number, case in itertools.product(range(rounds), cases):
            certificate = write(os.path.join(FOLDER.name, "wrong.cert"), with_a_wrong_rule(read(case.files[3]), drawn))
            has_c = IS_SWEEP or drawn.random() < 0.2
            with self.subTest(round=number, case=case.name):
                seen |= self.compare(case, certificate, SCRIPTS // 3 // rounds // len(cases) + 1, drawn, has_c)
        self.assertIn("stuck", seen)


class Automata(unittest.TestCase):
    """Automata against `run`: equal steps until `run` ends."""

    def scripts_of(self, case, automaton, drawn, count):
        """Scripts that go on until the automaton is at an item of goals, or that have a wrong number at the end."""
        scripts = []
        for _ in range(count):
            machine, numbers = automaton["Automaton"](), []
            length = drawn.choice((1, 5, LONGEST, LONGEST))
            while len(numbers) < length and machine.action() != "goal":
                outcomes = len(case.task.outcomes(machine.action()))
                numbers.append(drawn.randrange(outcomes) if drawn.random() < 0.99 else outcomes + drawn.randrange(2))
                if numbers[-1] >= outcomes:
                    break
                machine.advance(numbers[-1])
            scripts.append(numbers)
        return scripts

    def steps(self, automaton, numbers):
        """The lines of an automaton's steps, and how it ends: at an item of goals, with a wrong number, or going on."""
        machine, lines = automaton["Automaton"](), []
        for number in numbers:
            line = f"rule {machine.rule} {machine.action()} outcome {number}"
            try:
                machine.advance(number)
            except ValueError:
                return lines, "none"
            lines.append(line)
        return lines, "goal" if machine.action() == "goal" else "on"

    def compare_with_run(self, case, numbers, lines, end):
        """Compares the steps of an automaton with those of `run`, and an item of goals with the state in it."""
        script = write(os.path.join(FOLDER.name, "script"), " ".join(map(str, numbers)))
        status, text = program.run("run", *case.files, script)
        printed = text.decode("ascii").split("\nstate")[0].split("\n")
        self.assertEqual(lines[: len(printed) - 1], printed[:-1], (case.name, numbers))
        if status == 0:
            self.assertLessEqual(len(printed) - 1, len(lines), (case.name, numbers))
        else:
            self.assertEqual(len(printed) - 1, len(lines), (case.name, numbers))
            self.assertEqual(end, "none" if printed[-1].startswith("outcome") else "on", (case.name, numbers))
        state = case.task.initial
        for line in lines:
            action, number = line.split(" ", 2)[2].split(" outcome ")
            self.assertTrue(case.task.applicable(state, action), (case.name, numbers))
            state = case.task.next_state(state, action, int(number))
        self.assertTrue(end != "goal" or case.task.goal(state), (case.name, numbers))

    def run_in_c(self, folder, compiler, scripts):
        """What the C automaton prints for each script."""
        harness = compiled(folder, AUTOMATON_MAIN, compiler)
        given = "".join(" ".join(map(str, [len(it), *it])) + "\n" for it in scripts)
        ran = subprocess.run([harness], input=given, capture_output=True, text=True, check=False)
        self.assertEqual((ran.returncode, ran.stderr), (0, ""))
        return re.findall(r"((?:rule .*\n)*)(goal|none|on)\n", ran.stdout)

    @unittest.skipUnless(HAS_PROGRAM, "program")
    def test_automata(self):
        drawn = random.Random(3)
        for number, case in enumerate(planned_cases()):
            with self.subTest(case.name), tempfile.TemporaryDirectory(dir=FOLDER.name) as folder:
                name = os.path.join(folder, "controller.")
                self.assertEqual(generate(["--python", "--automaton"], case.files, name + "py"), (0, ""))
                automaton = module_of(read(name + "py"))
                scripts = self.scripts_of(case, automaton, drawn, SCRIPTS // 3 // len(planned_cases()) + 1)
                told = [self.steps(automaton, numbers) for numbers in scripts]
                for numbers, (lines, end) in zip(scripts, told):
                    self.compare_with_run(case, numbers, lines, end)
                if not IS_SWEEP and number % 3:
                    continue
                self.assertEqual(generate(["--c", "--automaton"], case.files, name + "c"), (0, ""))
                for compiler in compilers():
                    in_c = self.run_in_c(folder, compiler, scripts)
                    # The C harness prints a step before it learns that the action has no such outcome.
                    in_c = [(text.splitlines()[: -1 if end == "none" else None], end) for text, end in in_c]
                    self.assertEqual(told, in_c)

    @unittest.skipUnless(HAS_PROGRAM, "program")
    def test_steps(self):
        """While fair actions show an outcome that leads nearer and an opponent picks, the number of steps is as the file says."""
        drawn = random.Random(4)
        for case in planned_cases():
            name = os.path.join(FOLDER.name, "steps.json")
            self.assertEqual(generate(["--json", "--automaton"], case.files, name), (0, ""))
            value = json.loads(read(name))
            items, steps = value["automaton"]["items"], value["automaton"]["steps"]
            ranks = item_ranks(value)
            self.assertEqual(ranks[value["automaton"]["start"]], steps, case.name)
            for _ in range(20):
                at = value["automaton"]["start"]
                for _ in range(steps):
                    if "goal" in items[at]:
                        break
                    nexts = items[at]["next"]
                    lower = [it for it in nexts if ranks[it] < ranks[at]]
                    at = drawn.choice(nexts if not is_fair(value, items[at]) else lower)
                self.assertIn("goal", items[at], case.name)

    def test_a_cover_that_never_ends(self):
        """`item 0 0 0 :` is a correct cover of the coin, from which no item of goals is reached."""
        text = "dualfond 2 policy\nrule (flip) fair 0 goal :\nitem 0 0 0 :\nstart 0\nend\n"
        files = [*COIN, write(os.path.join(FOLDER.name, "loop.cert"), text)]
        output = os.path.join(FOLDER.name, "loop.py")
        status, error = generate(["--python", "--automaton", "--unchecked"], files, output)
        self.assertEqual((status, error), (1, f"{files[3]}: the automaton may never come from item 0 to an item of goals\n"))
        self.assertFalse(os.path.exists(output))
        self.assertEqual(generate(["--python", "--unchecked"], files, output), (0, ""))
        if HAS_PROGRAM:
            self.assertEqual(program.run("check", *files), (0, b"accepted policy lean\n"))

    def test_items_that_do_not_exist(self):
        head = "dualfond 2 policy\nrule (flip) fair 0 goal :\n"
        for items, message in (
            ("item 0 1 0 :\nitem goal : +(heads)\nstart 2\n", "there is no item 2, which is the start"),
            ("item 0 2 0 :\nitem goal : +(heads)\nstart 0\n", "item 0 names a rule or an item that does not exist"),
            ("item 1 1 0 :\nitem goal : +(heads)\nstart 0\n", "item 0 names a rule or an item that does not exist"),
            ("item 0 1 :\nitem goal : +(heads)\nstart 0\n", "item 0 has another number of items than its action has outcomes"),
        ):
            files = [*COIN, write(os.path.join(FOLDER.name, "items.cert"), head + items + "end\n")]
            given = generate(["--c", "--automaton", "--unchecked"], files, os.path.join(FOLDER.name, "items.c"))
            self.assertEqual(given, (1, f"{files[3]}: {message}\n"))


def is_fair(value, item):
    action = value["rules"][item["rule"]]["action"]
    return next(it["fair"] for it in value["actions"] if it["action"] == action)


def item_ranks(value):
    """The steps from each item to an item of goals, as a least fixed point: one more than the least of the next items for a fair
    action, and one more than the greatest for an unfair one."""
    items = value["automaton"]["items"]
    ranks = [0 if "goal" in it else float("inf") for it in items]
    is_stable = False
    while not is_stable:
        is_stable = True
        for number, item in enumerate(items):
            if "goal" not in item:
                rank = 1 + (min if is_fair(value, item) else max)(ranks[it] for it in item["next"])
                if rank < ranks[number]:
                    ranks[number], is_stable = rank, False
    return ranks


def is_valid(value, schema, whole):
    """Whether a value fits a schema of JSON Schema, as far as docs/controller.schema.json uses that language."""
    if "$ref" in schema:
        return is_valid(value, whole["$defs"][schema["$ref"].rpartition("/")[2]], whole)
    if "oneOf" in schema:
        return sum(is_valid(value, it, whole) for it in schema["oneOf"]) == 1
    if "const" in schema or "enum" in schema:
        return value in schema.get("enum", [schema.get("const")])
    kinds = {"object": dict, "array": list, "string": str, "boolean": bool, "integer": int, "null": type(None)}
    types = schema["type"] if isinstance(schema["type"], list) else [schema["type"]]
    if type(value) not in [kinds[it] for it in types]:
        return False
    if isinstance(value, dict):
        inner, rest = schema.get("properties", {}), schema["additionalProperties"]
        schemas = {key: inner.get(key, rest) for key in value}
        fits = [schemas[key] and is_valid(it, schemas[key], whole) for key, it in value.items()]
        return all(fits) and set(schema.get("required", ())) <= value.keys()
    if isinstance(value, list):
        return len(value) >= schema.get("minItems", 0) and all(is_valid(it, schema["items"], whole) for it in value)
    if isinstance(value, str):
        return re.search(schema.get("pattern", ""), value) is not None
    return not isinstance(value, int) or value >= schema.get("minimum", value)


class Files(unittest.TestCase):
    """The generated files, for tasks of all kinds of names and sizes."""

    def generated(self, domain, problem, certificate, words=()):
        """The folder of all forms of the controller of these texts."""
        folder = tempfile.mkdtemp(dir=FOLDER.name)
        texts = (("d", domain), ("p", problem), ("u", ""), ("cert", certificate))
        files = [write(os.path.join(folder, name), text) for name, text in texts]
        for form in ("json", "python", "c"):
            output = os.path.join(folder, "controller." + form.replace("python", "py"))
            self.assertEqual(generate([f"--{form}", "--unchecked", *words], files, output), (0, ""))
        return folder

    def decisions(self, folder, *states):
        """The decisions of all forms in each of these states."""
        task = Task(read(os.path.join(folder, "d")), read(os.path.join(folder, "p")))
        found = [JsonDecider(os.path.join(folder, "controller.json")), PythonDecider(os.path.join(folder, "controller.py"))]
        found += [CDecider(compiled(folder, STATE_MAIN, it), task) for it in compilers()]
        told = [[decide(frozenset(state)) for decide in found] for state in states]
        for decider in found[2:]:
            self.assertEqual(decider.close(), 0)
        return [set(it) for it in told]

    def test_names(self):
        """Names that end comments and strings, or that become one name of C."""
        words = ["*/", "/*", "y??/", 'a"', "a'", "\\", "//", "%s", "a-b", "a_b", "a.b", "int", "@name@", "{0}", "#", "s"]
        predicates = " ".join(f"({it}) ({it}p ?x)" for it in words)
        atoms = " ".join(f"({it}) ({it}p x??/) ({it}p \\)" for it in words)
        action = "a*/??/\\"
        domain = f"(define (domain x) (:constants x??/ \\) (:predicates {predicates}) (:action {action} :effect (and {atoms})))"
        problem = f"(define (problem y) (:domain x) (:goal (and {atoms})))"
        task = Task(domain.encode(), problem.encode())
        rule = f"rule ({action}) fair 0 goal : " + " ".join(f"-{it}" for it in task.atoms)
        folder = self.generated(domain, problem, f"dualfond 1 policy\n{rule}\nreach 2\nend\n")
        self.assertEqual(len(task.atoms), 3 * len(words))
        told = self.decisions(folder, (), task.atoms, task.atoms[:1])
        self.assertEqual(told, [{(f"({action})", 0)}, {("goal", None)}, {("stuck", None)}])

    def test_empty(self):
        """No atom, no action, no rule."""
        domain = "(define (domain x) (:predicates (s)))"
        policy = "dualfond 2 policy\nitem goal :\nstart 0\nend\n"
        for goal, answer in (("()", "goal"), ("(s)", "stuck")):
            problem = f"(define (problem y) (:domain x) (:goal {goal}))"
            folder = self.generated(domain, problem, policy)
            self.assertEqual(self.decisions(folder, ()), [{(answer, None)}])
            folder = self.generated(domain, problem, policy, ["--automaton"])
            for compiler in compilers():
                compiled(folder, AUTOMATON_MAIN, compiler)

    def test_deep_and_long_formulas(self):
        """A goal as deep as a file may have it, and one with as many members as a task may have atoms."""
        deep = "(p a0)"
        for number in range(1, 120):
            deep = f"({'and' if number % 2 else 'or'} (p a{number % 7}) {deep})"
        long = "(forall (?x) (p ?x))"
        for count, goal in ((7, deep), (3000 if IS_SWEEP else 300, long)):
            names = " ".join(f"a{it}" for it in range(count))
            domain = "(define (domain x) (:predicates (p ?x)) (:action a :parameters (?x) :effect (p ?x)))"
            problem = f"(define (problem y) (:domain x) (:objects {names}) (:goal {goal}))"
            folder = self.generated(domain, problem, "dualfond 1 policy\nrule (a a0) fair 0 goal : -(p a6)\nreach 2\nend\n")
            task = Task(domain.encode(), problem.encode())
            states = [frozenset(task.atoms) - {f"(p a{missing})"} for missing in (0, 1, 6, count - 1)] + [frozenset(task.atoms)]
            for state, told in zip(states, self.decisions(folder, *states)):
                answer = "goal" if holds(task.goal_formula, state) else "stuck" if "(p a6)" in state else "(a a0)"
                self.assertEqual({it[0] for it in told}, {answer})

    def test_standard_output(self):
        output = os.path.join(FOLDER.name, "coin.out")
        files = [*COIN, os.path.join(EXAMPLES, "coin", "coin.cover")]
        for words in ([], ["--c"], ["--python", "--automaton"]):
            self.assertEqual(generate(["--unchecked", *words], files, output), (0, ""))
            ran = subprocess.run([CONTROLLER, "--unchecked", *words, *files], capture_output=True, check=False)
            self.assertEqual((ran.returncode, ran.stdout, ran.stderr), (0, read(output), b""))

    def test_two_controllers_in_one_program(self):
        if not COMPILERS:
            self.skipTest("compiler")
        with tempfile.TemporaryDirectory(dir=FOLDER.name) as folder:
            files = [*COIN, os.path.join(EXAMPLES, "coin", "coin.cover")]
            for name, words in (("one", []), ("two", ["--automaton"])):
                given = generate(["--c", "--unchecked", "--name", name, *words], files, os.path.join(folder, f"{name}.c"))
                self.assertEqual(given, (0, ""))
            main = '#include "one.c"\n#include "two.c"\n#include "one.c"\nint main(void)\n{\n    return ONE_GOAL + 1;\n}\n'
            main = main.replace('#include "one.c"\nint', '#define ONE_INTERFACE_ONLY\n#include "one.c"\nint')
            write(os.path.join(folder, "main.c"), main)
            ran = subprocess.run([COMPILERS[0], *WARNINGS, "main.c"], cwd=folder, capture_output=True, text=True, check=False)
            self.assertEqual((ran.returncode, ran.stderr), (0, ""))

    def test_schema(self):
        schema = json.loads(read(os.path.join(TOP, "docs", "controller.schema.json")))
        for words, certificate in itertools.product(([], ["--automaton"]), ("coin.cover", "coin.cert")):
            output = os.path.join(FOLDER.name, "coin.json")
            files = [*COIN, os.path.join(EXAMPLES, "coin", certificate)]
            status, _ = generate(["--unchecked", *words], files, output)
            self.assertEqual(status, 1 if words and certificate == "coin.cert" else 0)
            value = json.loads(read(output))
            self.assertTrue(is_valid(value, schema, schema))
            self.assertFalse(is_valid({**value, "goal": 1}, schema, schema))
            self.assertFalse(is_valid({**value, "more": 1}, schema, schema))
        if HAS_PROGRAM:
            for case in planned_cases():
                self.assertEqual(generate(["--json"], case.files, output), (0, ""))
                self.assertTrue(is_valid(json.loads(read(output)), schema, schema), case.name)

    def test_python_3_8(self):
        """The modules need no newer Python than they say."""
        old = shutil.which("python3.8")
        if not old or subprocess.run([old, "-c", ""], capture_output=True, check=False).returncode:
            self.skipTest("python3.8")
        uses = (([], "c = Controller()\nc.step()\nc.set('(heads)', True)"), (["--automaton"], "Automaton().advance(0)"))
        for words, use in uses:
            name = os.path.join(FOLDER.name, "old.py")
            files = [*COIN, os.path.join(EXAMPLES, "coin", "coin.cover")]
            self.assertEqual(generate(["--python", "--unchecked", *words], files, name), (0, ""))
            write(name, read(name) + use.encode())
            ran = subprocess.run([old, name], capture_output=True, text=True, check=False)
            self.assertEqual((ran.returncode, ran.stderr), (0, ""))


class Refusals(unittest.TestCase):
    """What no controller is made of."""

    def refused(self, text, words=("--unchecked",), side=""):
        files = [*COIN[:2], write(os.path.join(FOLDER.name, "side"), side), write(os.path.join(FOLDER.name, "refused.cert"), text)]
        output = os.path.join(FOLDER.name, "refused.json")
        status, error = generate(words, files, output)
        self.assertFalse(os.path.exists(output))
        return status, error.replace(files[3] + ": ", "")

    def test_unchecked(self):
        refusal = "dualfond 1 refusal\nlayer\ncube -(heads)\nend\n"
        self.assertEqual(self.refused(refusal), (1, "the certificate is a refusal, which has no rules\n"))
        for rule, message in (
            ("rule (spin) fair 0 goal :", "the task does not have the action (spin)"),
            ("rule (flip) fair 0 goal : +(tails)", "the task does not have the atom (tails)"),
            ("rule (flip) fair 00 goal :", "line 2: no line of a certificate, or not at its place"),
        ):
            self.assertEqual(self.refused(f"dualfond 1 policy\n{rule}\nreach 2\nend\n"), (1, message + "\n"))

    @unittest.skipUnless(HAS_PROGRAM, "program")
    def test_checked(self):
        policy = "dualfond 1 policy\nrule (flip) fair 0 {} :\nreach {}\nend\n"
        self.assertEqual(self.refused(policy.format("0", 2), []), (1, "rejected V1 rule 0\n"))
        self.assertEqual(self.refused(policy.format("goal", 3), []), (1, "rejected V5 fewer\n"))
        self.assertEqual(self.refused(policy.format("goal", 2), [], "spin"), (1, "refused side 1 1 F20\n"))
        refusal = "dualfond 1 refusal\nlayer\ncube -(heads)\nend\n"
        self.assertEqual(self.refused(refusal, [], "flip"), (1, "the certificate is a refusal, which has no rules\n"))

    def test_words(self):
        for words in (["--json", "--c"], ["--name", "A"], ["--name", "1"]):
            self.assertEqual(self.refused("", words)[0], 2)
        files = [*COIN, os.path.join(FOLDER.name, "gone")]
        self.assertEqual(generate(["--unchecked"], files, os.path.join(FOLDER.name, "gone.json"))[0], 2)


class Certificates(unittest.TestCase):
    def test_forms(self):
        text = b"""dualfond 1 policy
layer
cube -(g) +(pit) -(near)
pair (jump) 1 0 0 : -(g) -(near)
rule (enter) fair 0 goal : +(near)
rule (go a b) unfair goal 0 :
reach 3
end
"""
        certificate = read_certificate(text)
        self.assertEqual((certificate.version, certificate.is_policy, certificate.reach, certificate.start), (1, True, 3, None))
        self.assertEqual([[list(map(str, it)) for it in layer] for layer in certificate.layers], [[["-(g)", "+(pit)", "-(near)"]]])
        (pair,) = certificate.pairs
        self.assertEqual((pair.action, pair.outcome, pair.layer, pair.cube, len(pair.literals)), ("(jump)", 1, 0, 0, 2))
        enter, go = certificate.rules
        self.assertEqual((enter.action, enter.is_fair, enter.outcome, enter.targets), ("(enter)", True, 0, (None,)))
        self.assertEqual((go.action, go.is_fair, go.outcome, go.targets, go.literals), ("(go a b)", False, None, (None, 0), ()))

    def test_faults(self):
        head = "dualfond 2 policy\n"
        for text, line in (
            *(("", 1), ("dualfond 3 policy\n", 1), ("dualfond 1 refusal\nrule (a) fair 0 goal :\n", 2)),
            *((head + "start 0\nstart 0\n", 3), (head + "item goal :\nrule (a) fair 0 goal :\n", 3)),
            *((head + "start 0\nend\n\n", 4), (head + "start 0\nend", 3)),
            *((head + it, 2) for it in ("cube +(a)\n", "end\n", "reach 1\n", "item 0 goal :\n", "rule (A) fair 0 goal :\n")),
            *((head + it, 2) for it in ("rule (a) unfair :\n", "rule (a) fair 0 goal goal :\n")),
        ):
            with self.assertRaisesRegex(CertificateError, f"line {line}:", msg=text):
                read_certificate(text.encode())


class Rows(unittest.TestCase):
    """`fond.task` answers the worked examples of `succ` and `run` (crates/fond_rows/data)."""

    def successors(self, task, action):
        """What `succ` prints."""
        if task.binding_of(action) is None:
            return "rejected C3 at 0\n"
        if not task.applicable(task.initial, action):
            return "applicable no\n"
        count = len(task.outcomes(action))
        states = dict.fromkeys(task.next_state(task.initial, action, number) for number in range(count))
        return "\n".join(["applicable yes", *(line for state in states for line in task.printed(state)), ""])

    def traced(self, task, files, words):
        """What `run` prints, by the rules as they are written."""
        rules = read_certificate(files[words[4]].encode()).rules

        def decide(state):
            if task.goal(state):
                return "goal", None
            for number, rule in enumerate(rules):
                if all((it.atom in state) == it.is_true for it in rule.literals):
                    return rule.action if task.applicable(state, rule.action) else "stuck", number
            return "stuck", None

        decide.initial = task.initial
        return trace(task, decide, list(map(int, files[words[5]].split())))[1]

    @unittest.skipUnless(HAS_PROGRAM, "program")
    def test_successors(self):
        """Random actions in random states of the examples, as `succ` prints them."""
        drawn = random.Random(5)
        for name, files in example_tasks():
            task, problem = Task(read(files[0]), read(files[1])), os.path.join(FOLDER.name, "succ.p")
            ranges = {it.name: [task.objects_of(types) for _, types in it.parameters] for it in task.schemas.values()}
            actions = [ground_text((it, *objects)) for it in ranges for objects in itertools.product(*ranges[it])]
            for _ in range(SCRIPTS // 60 + 1):
                state = frozenset(it for it in task.atoms if drawn.random() < drawn.choice((0.1, 0.5)))
                init = f"(:init {' '.join(sorted(task.static | state))}) (:goal"
                write(problem, re.sub(r"(\(:init.*\)\s*)?\(:goal", lambda _: init, read(files[1]).decode("ascii"), flags=re.DOTALL))
                started = Task(read(files[0]), read(problem))
                applicable = [it for it in actions if task.is_kept(it) and task.applicable(state, it)]
                for action in (drawn.choice(actions), drawn.choice(applicable or actions)):
                    told = program.run("succ", files[0], problem, action)
                    self.assertEqual((0, self.successors(started, action)), (told[0], told[1].decode("ascii")), (name, action))

    def test_rows(self):
        try:
            import tomllib
        except ImportError:
            self.skipTest("tomllib")
        data, count = os.path.join(TOP, "crates", "fond_rows", "data"), 0
        names = [it for it in os.listdir(data) if it.endswith(".toml")]
        tables = {it: tomllib.loads(read(os.path.join(data, it)).decode()) for it in names}
        for name, table in tables.items():
            for topic, row in ((topic, row) for topic in table.get("topic", ()) for row in topic["row"]):
                said = {**topic, **row}
                files = {**tables["tasks.toml"].get(said.get("task"), {}), **topic.get("files", {}), **row.get("files", {})}
                words, text = said["words"], said.get("text", "")
                # Rows about faults of the files, the words, the certificate, the script and the sink are not about the task.
                is_fault = re.match("refused|rejected|read|bad", text) and (words[0], text[:11]) != ("succ", "rejected C3")
                if words[0] not in ("succ", "run") or is_fault or "bad_write" in said:
                    continue
                task = Task(files[words[1]].encode(), files[words[2]].encode())
                action = re.sub(r"\s+", " ", words[3].lower()).replace("( ", "(").replace(" )", ")").strip()
                answer = self.successors(task, action) if words[0] == "succ" else self.traced(task, files, words)
                self.assertEqual(answer, text, (name, topic["topic"], row))
                count += 1
        self.assertGreater(count, 30)


if __name__ == "__main__":
    unittest.main()
