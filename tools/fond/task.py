"""Reads a task and says what it means: a plain reading of docs/LANGUAGE.md, for programs beside the planner.

A state is a frozenset of fluent atoms. An atom and an action are texts, written as the program prints them: `(on a b)`. Ground
actions are made when they are asked for. The files are expected to be free of faults; ask the program first (`fond.program`).

A condition without variables is a formula: True, False, ("atom", ATOM), ("not", FORMULA), ("and", FORMULAS) or ("or", FORMULAS).
Quantifiers are expanded in it, and static atoms and `=` are folded, so True and False occur only as whole formulas.
"""
import functools
import itertools

from fond.tree import Leaf, read_tree


def conjunction(formulas):
    kept = []
    for formula in formulas:
        if formula is False:
            return False
        if formula is not True:
            kept.append(formula)
    return ("and", tuple(kept)) if len(kept) > 1 else kept[0] if kept else True


def negation(formula):
    if isinstance(formula, bool):
        return not formula
    return formula[1] if formula[0] == "not" else ("not", formula)


def disjunction(formulas):
    kept = []
    for formula in formulas:
        if formula is True:
            return True
        if formula is not False:
            kept.append(formula)
    return ("or", tuple(kept)) if len(kept) > 1 else kept[0] if kept else False


def holds(formula, state):
    """Whether a formula holds in a state."""
    if isinstance(formula, bool):
        return formula
    kind, parts = formula
    if kind == "atom":
        return parts in state
    if kind == "not":
        return not holds(parts, state)
    return (all if kind == "and" else any)(holds(part, state) for part in parts)


def ground_text(words):
    """The text of an atom or an action."""
    return "(" + " ".join(words) + ")"


def read_typed_list(members):
    """The names of a typed list, each with its types."""
    found, group, members = [], [], iter(members)
    for member in members:
        if member.text != "-":
            group.append(member.text)
            continue
        kind = next(members)
        types = (kind.text,) if isinstance(kind, Leaf) else tuple(leaf.text for leaf in kind.members[1:])
        found += [(name, types) for name in group]
        group = []
    return found + [(name, ("object",)) for name in group]


def changed_predicates(effect):
    """Yields the predicate of each literal of an effect."""
    parts = effect.members[1:]
    if effect.head in ("and", "oneof"):
        for part in parts:
            yield from changed_predicates(part)
    elif effect.head in ("forall", "when"):
        yield from changed_predicates(parts[1])
    elif effect.members:
        yield parts[0].head if effect.head == "not" else effect.head


def concatenations(lists):
    """All concatenations of one outcome of each list, the last list varying fastest."""
    return tuple(tuple(itertools.chain(*choice)) for choice in itertools.product(*lists))


class Schema:
    """A schema: its parameters with their types, and the trees of its precondition and its effect, or None."""

    def __init__(self, node):
        self.name = node.members[1].text
        values = {key.text: tree for key, tree in zip(node.members[2::2], node.members[3::2])}
        self.parameters = read_typed_list(values[":parameters"].members) if ":parameters" in values else []
        self.precondition = values.get(":precondition")
        self.effect = values.get(":effect")


class Task:
    """A task, made from the bytes of a domain and of a problem."""

    def __init__(self, domain, problem):
        sections = {}
        for tree in (read_tree(domain), read_tree(problem)):
            for node in tree.members[2:]:
                sections.setdefault(node.head, []).append(node)

        def members(head):
            return [member for node in sections.get(head, ()) for member in node.members[1:]]

        self.parents, self.objects, self.predicates = {}, {}, {}
        for name, (parent,) in read_typed_list(members(":types")):
            self.parents.setdefault(name, parent)
        # The two lists are read apart, so that untyped names at the end of the constants do not take a type of the objects.
        for name, (kind,) in read_typed_list(members(":constants")) + read_typed_list(members(":objects")):
            self.objects.setdefault(name, kind)
        for node in members(":predicates"):
            types = [types for _, types in read_typed_list(node.members[1:])]
            self.predicates.setdefault(node.head, types)
        self.schemas = {schema.name: schema for schema in map(Schema, sections.get(":action", ()))}
        effects = [schema.effect for schema in self.schemas.values() if schema.effect]
        self.fluents = {name for effect in effects for name in changed_predicates(effect)}
        facts = {self.atom(node, {}): node.head for node in members(":init") if node.head != "not"}
        self.static = frozenset(atom for atom, name in facts.items() if name not in self.fluents)
        self.initial = frozenset(atom for atom, name in facts.items() if name in self.fluents)
        (goal,) = members(":goal")
        self.goal_formula = self.ground(goal, {})

    def is_subtype(self, kind, other):
        while kind not in (other, "object"):
            kind = self.parents.get(kind, "object")
        return other in (kind, "object")

    @functools.lru_cache(maxsize=None)
    def objects_of(self, types):
        """The range of a variable or a parameter: the objects of these types, in order."""
        return tuple(name for name, kind in self.objects.items() if any(self.is_subtype(kind, it) for it in types))

    @functools.cached_property
    def atoms(self):
        """The fluent atoms in the order of their numbers."""
        return tuple(
            ground_text((name, *objects))
            for name, parameters in self.predicates.items()
            if name in self.fluents
            for objects in itertools.product(*map(self.objects_of, parameters))
        )

    @functools.cached_property
    def number_of(self):
        """The number of each fluent atom."""
        return {atom: number for number, atom in enumerate(self.atoms)}

    def bindings(self, variables, binding):
        """Yields the binding with each list of objects for these variables, which hide outer ones of the same names."""
        typed = read_typed_list(variables.members)
        names = [name for name, _ in typed]
        for objects in itertools.product(*(self.objects_of(types) for _, types in typed)):
            yield {**binding, **dict(zip(names, objects))}

    def atom(self, node, binding):
        return ground_text((node.head, *(binding.get(term.text, term.text) for term in node.members[1:])))

    def ground(self, condition, binding):
        """The formula of a condition, with the objects of the binding for its variables."""
        head, parts = condition.head, condition.members[1:]
        if not condition.members:
            return True
        if head in ("and", "or"):
            return (conjunction if head == "and" else disjunction)(self.ground(part, binding) for part in parts)
        if head == "not":
            return negation(self.ground(parts[0], binding))
        if head == "imply":
            return disjunction((negation(self.ground(parts[0], binding)), self.ground(parts[1], binding)))
        if head in ("forall", "exists"):
            join = conjunction if head == "forall" else disjunction
            return join(self.ground(parts[1], inner) for inner in self.bindings(parts[0], binding))
        if head == "=":
            left, right = (binding.get(term.text, term.text) for term in parts)
            return left == right
        atom = self.atom(condition, binding)
        return ("atom", atom) if head in self.fluents else atom in self.static

    def ground_outcomes(self, effect, binding, condition):
        """The outcomes of an effect below a condition, in order. An outcome is a tuple of literals under conditions: each a
        formula, whether the atom is added, and the atom."""
        head, parts = effect.head, effect.members[1:]
        if not effect.members:
            return ((),)
        if head == "and":
            return concatenations(self.ground_outcomes(part, binding, condition) for part in parts)
        if head == "forall":
            return concatenations(self.ground_outcomes(parts[1], inner, condition) for inner in self.bindings(parts[0], binding))
        if head == "oneof":
            return tuple(outcome for part in parts for outcome in self.ground_outcomes(part, binding, condition))
        if head == "when":
            return self.ground_outcomes(parts[1], binding, conjunction((condition, self.ground(parts[0], binding))))
        is_added = head != "not"
        return (((condition, is_added, self.atom(effect if is_added else parts[0], binding)),),)

    def binding_of(self, action):
        """The schema of an action and its objects by parameters, or None if it is no ground action."""
        name, *objects = action[1:-1].split(" ")
        schema = self.schemas.get(name)
        if not schema or len(objects) != len(schema.parameters):
            return None
        if any(it not in self.objects_of(types) for it, (_, types) in zip(objects, schema.parameters)):
            return None
        return schema, {variable: it for it, (variable, _) in zip(objects, schema.parameters)}

    def is_kept(self, action):
        """Whether a text is a ground action whose precondition is not surely false while nothing is known of the fluent atoms."""
        return self.binding_of(action) is not None and self.precondition(action) is not False

    @functools.lru_cache(maxsize=None)
    def precondition(self, action):
        """The formula of an action's precondition."""
        schema, binding = self.binding_of(action)
        return True if schema.precondition is None else self.ground(schema.precondition, binding)

    @functools.lru_cache(maxsize=None)
    def outcomes(self, action):
        """The outcomes of an action in order, as `ground_outcomes` describes them."""
        schema, binding = self.binding_of(action)
        return ((),) if schema.effect is None else self.ground_outcomes(schema.effect, binding, True)

    def applicable(self, state, action):
        return holds(self.precondition(action), state)

    def goal(self, state):
        return holds(self.goal_formula, state)

    def next_state(self, state, action, outcome):
        """The state to which the outcome of this number leads. An add wins over a delete of the same atom."""
        literals = [literal for literal in self.outcomes(action)[outcome] if holds(literal[0], state)]
        deleted = {atom for _, is_added, atom in literals if not is_added}
        added = {atom for _, is_added, atom in literals if is_added}
        return (state - deleted) | added

    def printed(self, state):
        """The lines of a state as the program prints it."""
        return ["state", *sorted(state, key=self.number_of.__getitem__)]
