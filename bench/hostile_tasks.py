"""Files that are small or plain and may cost a planner far more than their length: each function makes those of one size.

Each returns the texts of its files by name: the domain `d`, the problem `p`, the side list `u`, and where the command takes them the
certificate `cert`, the script `script` and the table `table`. A family says which command reads them, and how it is meant to end.
"""
import dataclasses
import os
import random
import typing

BUDGET = "1000000"
PLAN = ("plan", "d", "p", "u", BUDGET)
CHECK = ("check", "d", "p", "u", "cert")
RUN = ("run", "d", "p", "u", "cert", "script")
EXPLAIN = ("explain", "d", "p", "u", "table", "1000")
GRAPH = ("graph", "d", "p", "u", "cert", BUDGET)


def texts(domain, problem, **more):
    """The files of a task whose actions are all fair, with more files beside them."""
    return {"d": f"(define (domain x) {domain})\n", "p": f"(define (problem y) (:domain x) {problem})\n", "u": "", **more}


def certificate(*lines):
    return "".join(f"{line}\n" for line in lines)


def named(letter, count, before="", join=" "):
    """Names of a letter and a number."""
    return join.join(f"{before}{letter}{i}" for i in range(count))


def coins(count):
    """A product of so many choices between nothing and an atom, so 2 ^ count outcomes."""
    return "(and " + " ".join(f"(oneof () (c{i}))" for i in range(count)) + ")"


def cubes(count):
    """Equal cubes of one layer, with an action of 256 outcomes, each of which stays in all of them."""
    domain = f"(:predicates (h) {named('(c', 8, join=') ')})) (:action toss :effect {coins(8)}) (:action shut :effect (not (h)))"
    lines = ["dualfond 1 refusal", "layer", *["cube -(h)"] * count, "end"]
    return texts(domain, "(:goal (h))", cert=certificate(*lines))


def cubes_by_actions(count):
    """Equal cubes of one layer, with 129,600 actions."""
    domain = "(:predicates (h)) (:action move :parameters (?x ?y) :effect (not (h)))"
    lines = ["dualfond 1 refusal", "layer", *["cube -(h)"] * count, "end"]
    return texts(domain, f"(:objects {named('o', 360)}) (:goal (h))", cert=certificate(*lines))


def rules(count):
    """Equal rules that all hold in each of as many steps."""
    lines = ["dualfond 1 policy", *["rule (flip) fair 0 goal : -(h)"] * count, "reach 2", "end"]
    return texts("(:predicates (h)) (:action flip :effect (oneof (h) ()))", "(:goal (h))", cert=certificate(*lines), script="1 " * count)


def either(count):
    """A variable of many types, used as often for a parameter with the same types in the opposite order."""
    types = [f"t{i}" for i in range(count)]
    domain = f"(:types {' '.join(types)}) (:predicates (p ?y - (either {' '.join(reversed(types))})))\n" \
        f"(:action use :parameters (?x - (either {' '.join(types)})) :effect (and {'(p ?x) ' * count}))"
    return texts(domain, "(:objects o - t0) (:goal ())")


def twins(count, bits=12):
    """Pairs of bits that are flipped at once, by as many equal actions as there are values of a parameter without a use."""
    flip = "(when (b {0}) (not (b {0}))) (when (not (b {0})) (b {0}))"
    domain = "(:types bit idle) (:predicates (b ?i - bit))\n" \
        "(:action flip :parameters (?i ?j - bit ?d - idle) :precondition (not (= ?i ?j))\n" \
        f" :effect (and {flip.format('?i')} {flip.format('?j')}))"
    names = named("b", bits)
    goal = "(and (b b0) (forall (?i - bit) (or (= ?i b0) (not (b ?i)))))"
    return texts(domain, f"(:objects {names} - bit {named('d', count)} - idle) (:goal {goal})")


def forall_outcomes(count):
    """A choice for each list of six objects, which is far more outcomes than an action may have."""
    domain = "(:predicates (h) (g)) (:action all :effect (forall (?x ?y ?z ?w ?v ?u) (oneof (h) (g))))"
    return texts(domain, f"(:objects {named('o', count)}) (:goal (g))")


def layers(count):
    """Layers without a cube, and then as many of one cube."""
    domain = "(:predicates (h)) (:action shut :effect (not (h)))"
    lines = ["dualfond 1 refusal", *["layer"] * count, *["layer", "cube -(h)"] * count, "end"]
    return texts(domain, "(:goal (h))", cert=certificate(*lines))


def partial(count, atoms=400, literals=20):
    """Rules with conditions drawn at random, none of which holds, before one that holds in each of as many states: a power of 2."""
    bits = count.bit_length() - 1
    drawn = random.Random(bits)
    turns = "\n  ".join(f"(and (when (p x{i}) (not (p x{i}))) (when (not (p x{i})) (p x{i})))" for i in range(bits))
    domain = f"(:predicates (g) (p ?x)) (:constants {named('x', atoms)})\n(:action win :effect (g)) " \
        f"(:action mark :parameters (?x) :effect (p ?x))\n(:action turn :effect (oneof (g)\n  {turns}))"
    lines = ["dualfond 1 policy"]
    for _ in range(count):
        chosen = sorted(drawn.sample(range(atoms), literals))
        lines.append("rule (win) fair 0 goal :" + "".join(f" {drawn.choice('+-')}(p x{i})" for i in chosen))
    lines += ["rule (turn) fair 0 goal :", f"reach {2 * count}", "end"]
    init = " ".join(f"(p x{i})" for i in range(atoms) if drawn.random() < 0.5)
    script = " ".join(str(drawn.randint(1, bits)) for _ in range(count))
    return texts(domain, f"(:init {init}) (:goal (g))", cert=certificate(*lines), script=script)


def clearing(key, side):
    """An action for each pair of objects, whose precondition or effect speaks of each pair of objects."""
    domain = f"(:predicates (p ?x ?y)) (:action clear :parameters (?x ?y) {key} (forall (?z ?w) (not (p ?z ?w))))"
    more = "" if key == ":effect" else " (:action mark :parameters (?x) :effect (p ?x ?x))"
    return texts(domain + more, f"(:objects {named('o', side)}) (:goal ())")


def clear_effect(actions):
    return clearing(":effect", round(actions ** 0.5))


def clear_precondition(actions):
    return clearing(":precondition", round(actions ** 0.5))


def product(actions):
    """An action of 256 outcomes for each pair of objects."""
    domain = f"(:predicates {named('(c', 8, join=') ')})) (:action toss :parameters (?x ?y) :effect {coins(8)})"
    return texts(domain, f"(:objects {named('o', round(actions ** 0.5))}) (:goal ())")


def nested(count):
    """Ten quantifiers below each other, of which the innermost says nothing."""
    condition = "".join(f"(forall (?x{i}) " for i in range(10)) + "()" + ")" * 10
    return texts(f"(:predicates (h)) (:action go :precondition {condition} :effect (h))", f"(:objects {named('o', count)}) (:goal ())")


def counter(bits):
    """A binary counter: a chain of 2 ^ bits states."""
    actions = []
    for bit in range(bits):
        low, clear = named("(b", bit, join=") ") + ")" * (bit > 0), " ".join(f"(not (b{i}))" for i in range(bit))
        actions.append(f"(:action inc{bit} :precondition (and {low} (not (b{bit}))) :effect (oneof (and {clear} (b{bit})) ()))")
    atoms = named("(b", bits, join=") ") + ")"
    return texts(f"(:predicates {atoms})\n" + "\n".join(actions), f"(:goal (and {atoms}))")


def parity(bits):
    """Pairs of bits that are flipped at once, and a goal with an odd number of bits."""
    return twins(1, bits)


def static_or(count):
    """Seven parameters, of which one should have a property that nothing has."""
    names = [f"?x{i}" for i in range(7)]
    domain = f"(:predicates (s ?x) (h)) (:action go :parameters ({' '.join(names)})\n" \
        f" :precondition (or {' '.join(f'(s {name})' for name in names)}) :effect (h))"
    return texts(domain, f"(:objects {named('o', count)}) (:goal ())")


def pairs(count):
    """Rules of one action with as many pairs of it, each of which contradicts each rule."""
    domain = "(:predicates (g) (pit)) (:action jump :precondition (not (pit)) :effect (oneof (g) (pit)))"
    lines = ["dualfond 1 policy", "layer", "cube -(g) +(pit)", *["pair (jump) 1 0 0 : -(g) +(pit)"] * count,
             *["rule (jump) fair 0 goal : -(pit)"] * count, "reach 1", "end"]
    return texts(domain, "(:init (g)) (:goal (g))", cert=certificate(*lines))


def steps(count):
    """A way of so many places, from each of which an action leads to the next one or to nine others, and the policy that goes on."""
    draw = random.Random(count)
    lines, rows = [f"(:predicates {named('(p', count, join=') ')}))"], []
    for place in range(count - 1):
        ends = [place + 1, *(draw.randrange(count) for _ in range(9))]
        moves = " ".join(f"(and (not (p{place})) (p{end}))" if end != place else "()" for end in ends)
        lines.append(f"(:action go{place} :precondition (p{place}) :effect (oneof {moves}))")
        rows.append(f"do (go{place}) : +(p{place})")
    return texts("\n".join(lines), f"(:init (p0)) (:goal (p{count - 1}))", table=certificate("table 1", *rows, "end"))


def held(count):
    """The same, where an opponent picks the outcomes in the second half, and can stay there for ever."""
    return steps(count) | {"u": "\n".join(f"go{place}" for place in range(count // 2, count - 1))}


def table(count):
    """A table of so many rows with 50 literals each on 1,000 atoms, before one that always holds."""
    draw = random.Random(count)
    rows = []
    for _ in range(count):
        atoms = sorted(draw.sample(range(1000), 50))
        rows.append("do (go) :" + "".join(f" {draw.choice('+-')}(p{atom})" for atom in atoms))
    domain = f"(:predicates (g) {named('(p', 1000, join=') ')})) (:action go :effect (oneof (g) ()))"
    domain += f" (:action set :precondition (g) :effect (and {named('(p', 1000, join=') ')})))"
    return texts(domain, "(:goal (g))", table=certificate("table 1", *rows, "do (go) :", "end"))


def count_up(count):
    """A binary counter over so many states, a power of two, and the policy of its one action."""
    bits = count.bit_length() - 1
    ups = []
    for bit in range(bits):
        lower = f"(and {named('(b', bit, join=') ')}))" if bit else "()"
        ups.append(f"(when (and {lower} (not (b{bit}))) (b{bit})) (when (and {lower} (b{bit})) (not (b{bit})))")
    domain = f"(:predicates {named('(b', bits, join=') ')})) (:action up :effect (and {' '.join(ups)}))"
    return texts(domain, f"(:goal (and {named('(b', bits, join=') ')})))", cert=certificate("dualfond 1 policy", "rule (up) fair 0 goal :", "reach 2", "end"))


@dataclasses.dataclass(frozen=True)
class Family:
    """Files of one kind, the command that reads them, and the status with which it is meant to end."""

    name: str
    words: tuple[str, ...]
    status: int
    make: typing.Callable[[int], dict[str, str]]
    sizes: tuple[int, ...]

    def write(self, folder, size):
        """Writes the files of a size into a folder."""
        for file, text in self.make(size).items():
            with open(os.path.join(folder, file), "w", encoding="ascii") as out:
                out.write(text)


FAMILIES = [
    Family("cubes", CHECK, 0, cubes, (1500, 3000, 6000)),
    Family("cubes-by-actions", CHECK, 0, cubes_by_actions, (50, 100, 200)),
    Family("rules", RUN, 8, rules, (10000, 20000, 40000)),
    Family("either", PLAN, 0, either, (200, 400, 800)),
    Family("twins", PLAN, 1, twins, (10, 20, 40)),
    Family("forall-outcomes", PLAN, 3, forall_outcomes, (16, 32, 64)),
    Family("layers", CHECK, 0, layers, (10000, 20000, 40000)),
    Family("partial-run", RUN, 8, partial, (4096, 8192, 16384)),
    Family("partial-check", CHECK, 0, partial, (4096, 8192, 16384)),
    Family("clear-effect", PLAN, 0, clear_effect, (1024, 2116, 4096)),
    Family("clear-precondition", PLAN, 0, clear_precondition, (1024, 2116, 4096)),
    Family("product", PLAN, 0, product, (5184, 10404, 20736)),
    Family("nested", PLAN, 0, nested, (16, 64, 256)),
    Family("counter", PLAN, 0, counter, (12, 16, 20)),
    Family("parity", PLAN, 1, parity, (12, 14, 16)),
    Family("static-or", PLAN, 0, static_or, (6, 8, 12)),
    Family("pairs", CHECK, 0, pairs, (8000, 16000, 32000)),
    Family("steps", EXPLAIN, 0, steps, (250, 500, 1000)),
    Family("held", EXPLAIN, 10, held, (250, 500, 1000)),
    Family("table", EXPLAIN, 0, table, (25000, 50000, 100000)),
    Family("count-up", GRAPH, 0, count_up, (16384, 65536, 262144)),
]
