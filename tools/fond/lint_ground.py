"""Counts what a task would have once it is ground: fluent atoms, kept actions and outcomes, by predicate and by schema.

docs/LANGUAGE.md, 'Grounding', says which actions are kept: those whose precondition is not surely false while nothing is known of
the fluent atoms. Such a count may take long, so a search ends after a number of steps, and what it looked for is then not known.
"""
import dataclasses
import itertools
import math

from fond import faults, lint_model
from fond.lint_files import place_of
from fond.lint_model import ROOT, firsts, parent_of

FALSE, UNKNOWN, TRUE = 0, 1, 2
# The steps that the kept actions of one schema may take, and those of all searches for warnings.
STEPS, WARNING_STEPS = 300_000, 3_000_000
# A greater number of outcomes is not told.
MOST_TOLD = 1_000_000_000
LONGEST_LIST = 8


class Costly(Exception):
    """A search took all its steps."""


@dataclasses.dataclass(frozen=True)
class Test:
    """A condition whose value depends on the objects of some variables; if it is a static atom, its predicate and its terms."""

    names: frozenset
    value: object
    atom: tuple = ()


class Task:
    """The objects, the ranges, the fluent predicates and the static atoms of a model whose names are right."""

    def __init__(self, model):
        self.model = model
        self.steps = STEPS
        self.objects = {}
        for declared in model.all_objects:
            self.objects.setdefault(declared.name, declared.type_names[0])
        self.above = {name: self.ancestors(name) for name in set(self.objects.values())}
        self.ranges = {}
        effects = (it for schema in model.schemas for it in lint_model.occurrences(schema.effect, (), "effect"))
        self.fluent = {it.node.head for it in effects if it.part == "effect"}
        self.initial = {}
        for node in model.init:
            if node.head != "not":
                self.initial.setdefault(node.head, set()).add(tuple(leaf.text for leaf in node.members[1:]))
        self.indexes = {}

    def ancestors(self, name):
        """A type with all types above it."""
        found = {name, ROOT}
        while name != ROOT:
            name = parent_of(self.model.types, name)
            found.add(name)
        return found

    def range_of(self, declared):
        """The objects over which a variable ranges, in order."""
        types = declared.type_names
        if types not in self.ranges:
            self.ranges[types] = tuple(it for it, name in self.objects.items() if not self.above[name].isdisjoint(types))
        return self.ranges[types]

    def lists_of(self, parameters):
        """The number of lists of objects for some parameters."""
        return math.prod(len(self.range_of(it)) for it in parameters)

    def step(self):
        self.steps -= 1
        if self.steps < 0:
            raise Costly

    def values_at(self, predicate, known, at):
        """The objects at one position of the static atoms of a predicate, by the objects at some known positions."""
        key = predicate, known, at
        if key not in self.indexes:
            index = self.indexes[key] = {}
            for objects in self.initial.get(predicate, ()):
                index.setdefault(tuple(objects[it] for it in known), set()).add(objects[at])
        return self.indexes[key]


def objects_of(terms, objects):
    """The objects of terms, where these are those of the variables."""
    return tuple(objects[term] if term.startswith("?") else term for term in terms)


def variables_in(terms):
    return frozenset(term for term in terms if term.startswith("?"))


def fold_equality(task, terms):
    names = variables_in(terms)
    if not names or terms[0] == terms[1]:
        return TRUE if terms[0] == terms[1] else FALSE

    def value(objects):
        task.step()
        one, other = objects_of(terms, objects)
        return TRUE if one == other else FALSE

    return Test(names, value)


def fold_atom(task, predicate, terms):
    if predicate in task.fluent:
        return UNKNOWN
    held = task.initial.get(predicate, frozenset())
    if not variables_in(terms):
        return TRUE if terms in held else FALSE

    def value(objects):
        task.step()
        return TRUE if objects_of(terms, objects) in held else FALSE

    return Test(variables_in(terms), value, (predicate, terms))


def fold_not(part):
    if not isinstance(part, Test):
        return TRUE - part
    return Test(part.names, lambda objects: TRUE - part.value(objects))


def fold_junction(parts, worst, best):
    """The least value of parts if FALSE is the worst, or the greatest if TRUE is."""
    tests = [part for part in parts if isinstance(part, Test)]
    known = [part for part in parts if not isinstance(part, Test)]
    choose = min if worst == FALSE else max
    least = choose(known, default=best)
    if least == worst or not tests:
        return least
    if len(tests) == 1 and least == best:
        return tests[0]

    def value(objects):
        found = least
        for test in tests:
            found = choose(found, test.value(objects))
            if found == worst:
                break
        return found

    return Test(frozenset().union(*(test.names for test in tests)), value)


def fold_quantifier(task, names, part, worst, best):
    """The least value of a part over the lists of objects of a quantifier, or the greatest."""
    ranges = [task.range_of(it) for it in names]
    if not all(ranges):
        return best
    bound = [it.name for it in names]
    if not isinstance(part, Test) or part.names.isdisjoint(bound):
        return part

    def value(objects):
        found = best
        for inner in itertools.product(*ranges):
            here = part.value({**objects, **dict(zip(bound, inner))})
            found = min(found, here) if worst == FALSE else max(found, here)
            if found == worst:
                break
        return found

    return Test(part.names - frozenset(bound), value)


def fold(task, node):
    """The value of a condition while nothing is known of the fluent atoms, or a test if it depends on objects."""
    if node is None or not node.members:
        return TRUE
    head, terms = node.head, tuple(getattr(member, "text", "") for member in node.members[1:])
    if head in ("and", "or"):
        parts = [fold(task, member) for member in node.members[1:]]
        return fold_junction(parts, FALSE, TRUE) if head == "and" else fold_junction(parts, TRUE, FALSE)
    if head == "not":
        return fold_not(fold(task, node.members[1]))
    if head == "imply":
        return fold_junction([fold_not(fold(task, node.members[1])), fold(task, node.members[2])], TRUE, FALSE)
    if head in ("forall", "exists"):
        names, part = lint_model.typed_list(node.members[1].members), fold(task, node.members[2])
        worst, best = (FALSE, TRUE) if head == "forall" else (TRUE, FALSE)
        return fold_quantifier(task, names, part, worst, best)
    return fold_equality(task, terms) if head == "=" else fold_atom(task, head, terms)


def conjuncts(node):
    """The parts of a condition that all have to hold."""
    if node is not None and node.head == "and":
        for member in node.members[1:]:
            yield from conjuncts(member)
    else:
        yield node


class Groups:
    """The parameters of a schema in groups of equal objects, as the terms of a pattern make them; each group is named by its first
    parameter and has the objects that all its parameters may have."""

    def __init__(self, task, schema, terms=None):
        terms = terms or [it.name for it in schema.parameters]
        first, self.of, self.objects = {}, {}, {}
        for declared, term in zip(schema.parameters, terms):
            name = first.setdefault(term, declared.name) if term.startswith("?") else declared.name
            self.of[declared.name] = name
            objects = task.range_of(declared)
            if not term.startswith("?"):
                objects = tuple(it for it in objects if it == term)
            if name in self.objects:
                allowed = frozenset(objects)
                objects = tuple(it for it in self.objects[name] if it in allowed)
            self.objects[name] = objects

    def members(self, group):
        return [name for name, of in self.of.items() if of == group]


def components(groups, tests):
    """The groups that tests tie together, with these tests."""
    of = {group: {group} for group in groups.objects}
    for test in tests:
        joined = set().union(*(of[groups.of[name]] for name in test.names))
        for group in joined:
            of[group] = joined
    seen = []
    for joined in of.values():
        if joined not in seen:
            seen.append(joined)
            yield joined, [test for test in tests if groups.of[next(iter(test.names))] in joined]


class Search:
    """Counts the lists of objects for some groups for which no test is surely false."""

    def __init__(self, task, groups, joined, tests, most):
        self.task, self.groups, self.most = task, groups, most
        self.order = []
        while len(self.order) < len(joined):
            self.order.append(self.next_group(joined, tests))
        self.objects = [frozenset(groups.objects[group]) for group in self.order]
        self.tests = [[] for _ in self.order]
        self.atoms = [[] for _ in self.order]
        for test in tests:
            levels = [self.order.index(groups.of[name]) for name in test.names]
            self.tests[max(levels)].append(test)
            for level in set(levels) if test.atom else ():
                self.atoms[level].append(self.lookup(test.atom, level))

    def next_group(self, joined, tests):
        """The group with the most static atoms shared with those before it, and then with the fewest objects."""
        def rank(group):
            ties = [{self.groups.of[name] for name in test.names} for test in tests if test.atom]
            shared = sum(group in tie and not tie.isdisjoint(self.order) for tie in ties)
            return -shared, len(self.groups.objects[group]), group

        return min(joined.difference(self.order), key=rank)

    def lookup(self, atom, level):
        """An index of static atoms: the terms that are known before a level, and the objects of the level's group by these."""
        predicate, terms = atom
        before = set(self.order[:level])
        known = tuple(at for at, term in enumerate(terms) if not term.startswith("?") or self.groups.of[term] in before)
        here = next(at for at, term in enumerate(terms) if self.groups.of.get(term) == self.order[level])
        return self.task.values_at(predicate, known, here), tuple(terms[at] for at in known)

    def candidates(self, level, objects):
        """The objects of a level's group that its static atoms leave, where these are the objects of the levels before."""
        allowed = [index.get(objects_of(terms, objects), frozenset()) for index, terms in self.atoms[level]]
        allowed.append(self.objects[level])
        smallest, *others = sorted(allowed, key=len)
        return smallest.intersection(*others)

    def count(self, level=0, objects=None):
        if level == len(self.order):
            return 1
        objects, found = objects or {}, 0
        names = self.groups.members(self.order[level])
        for candidate in self.candidates(level, objects):
            self.task.step()
            inner = {**objects, **dict.fromkeys(names, candidate)}
            if all(test.value(inner) != FALSE for test in self.tests[level]):
                found += self.count(level + 1, inner)
                if found >= self.most:
                    break
        return found


def kept_count(task, schema, terms=None, most=math.inf):
    """The number of kept actions of a schema that the terms of a pattern fit; a search for more than `most` ends there. Raises
    Costly if that takes too long."""
    groups = Groups(task, schema, terms)
    if not all(groups.objects.values()):
        return 0
    folded = [fold(task, node) for node in conjuncts(schema.precondition)]
    tests = [it for it in folded if isinstance(it, Test)]
    closed = [test.value({}) for test in tests if not test.names]
    if FALSE in closed or FALSE in folded:
        return 0
    count = 1
    for joined, some in components(groups, [test for test in tests if test.names]):
        if not some:
            count *= math.prod(len(groups.objects[group]) for group in joined)
        else:
            count *= Search(task, groups, joined, some, most).count()
        if not count:
            break
    return count


def outcome_count(task, node):
    """The number of outcomes of an effect, which no more than MOST_TOLD + 1 are counted."""
    if node is None or not node.members:
        return 1
    if node.head == "when":
        return outcome_count(task, node.members[2])
    if node.head == "forall":
        inner = outcome_count(task, node.members[2])
        lists = task.lists_of(lint_model.typed_list(node.members[1].members))
        return 1 if inner == 1 else min(inner ** min(lists, MOST_TOLD.bit_length()), MOST_TOLD + 1)
    counts = [outcome_count(task, member) for member in node.members[1:]] if node.head in ("and", "oneof") else [1]
    return min(sum(counts) if node.head == "oneof" else math.prod(counts), MOST_TOLD + 1)


def parts_text(counts):
    """Counts by name, the greatest first; each is a name, a number and whether the number is exact."""
    counts = sorted((it for it in counts if it[1]), key=lambda it: -it[1])
    listed = [f"{faults.shown(name)} {'' if is_exact else 'up to '}{count:,}" for name, count, is_exact in counts[:LONGEST_LIST]]
    rest = counts[LONGEST_LIST:]
    if rest:
        is_exact = all(it[2] for it in rest)
        listed.append(f"{len(rest)} more {'' if is_exact else 'up to '}{sum(it[1] for it in rest):,}")
    return ", ".join(listed)


def atom_counts(task):
    """The fluent predicates with the number of their atoms."""
    predicates = [it for it in firsts(task.model.predicates).values() if it.name in task.fluent]
    return [(it.name, task.lists_of(it.parameters), True) for it in predicates]


def action_counts(task):
    """The schemas with the number of their kept actions, or with that of all their actions if the former takes long to find."""
    counts = []
    for schema in task.model.schemas:
        task.steps = STEPS
        try:
            counts.append((schema.name, kept_count(task, schema), True))
        except Costly:
            counts.append((schema.name, task.lists_of(schema.parameters), False))
    return counts


def explain(file, place, code, model):
    """The finding of a fault of size, or None if the code is none of these."""
    task = Task(model)
    if code == "F21":
        counts = atom_counts(task)
        total = f"{sum(count for _, count, _ in counts):,}"
        return faults.fault(file, place, code, count=total, limit=faults.MOST_ATOMS, parts=parts_text(counts))
    if code == "F22":
        return faults.fault(file, place, code, limit=faults.MOST_ACTIONS, parts=parts_text(action_counts(task)))
    schema = next((it for it in model.schemas if place_of(it.leaf) == place), None)
    if code != "F23" or schema is None:
        return None
    count = outcome_count(task, schema.effect)
    told = f"{count:,}" if count <= MOST_TOLD else f"more than {MOST_TOLD:,}"
    return faults.fault(file, place, code, schema.name, count=told, limit=faults.MOST_OUTCOMES)
