"""The declarations of a domain and a problem whose form is right, and the places where names occur in them.

Nothing is checked here; a name may be declared twice or not at all. docs/LANGUAGE.md has the syntax and what the names mean.
"""
import dataclasses

from fond.tree import Leaf, Node, read_forest, read_tree

ROOT = "object"


@dataclasses.dataclass(frozen=True)
class Typed:
    """A leaf of a typed list, and the types that are written for it."""

    leaf: Leaf
    types: tuple

    @property
    def name(self):
        return self.leaf.text

    @property
    def type_names(self):
        """The names of its types: `object` if none is written."""
        return tuple(leaf.text for leaf in self.types) or (ROOT,)


@dataclasses.dataclass(frozen=True)
class Predicate:
    leaf: Leaf
    parameters: tuple

    @property
    def name(self):
        return self.leaf.text


@dataclasses.dataclass(frozen=True)
class Schema:
    """A schema; a part that is not written is None."""

    leaf: Leaf
    parameters: tuple
    precondition: object
    effect: object

    @property
    def name(self):
        return self.leaf.text


@dataclasses.dataclass(frozen=True)
class Occurrence:
    """An atom or an equality with the lists of variables around it, the innermost first, and where it is: in a condition, an
    effect or the initial state."""

    node: Node
    scope: tuple
    part: str

    @property
    def terms(self):
        return self.node.members[1:]


@dataclasses.dataclass(frozen=True)
class Model:
    """What the files declare, in the order of their text."""

    domain: Node
    problem: Node
    side: list
    types: tuple
    constants: tuple
    predicates: tuple
    schemas: tuple
    domain_name: Leaf
    objects: tuple
    init: tuple
    goal: Node

    @property
    def all_objects(self):
        return self.constants + self.objects

    @property
    def patterns(self):
        return [tree for tree in self.side if isinstance(tree, Node)]


def typed_list(trees):
    """The leaves of a typed list with their types."""
    found, untyped, trees = [], [], iter(trees)
    for tree in trees:
        if isinstance(tree, Leaf) and tree.text == "-":
            types = types_of(next(trees))
            found += [Typed(leaf, types) for leaf in untyped]
            untyped = []
        else:
            untyped.append(tree)
    return tuple(found + [Typed(leaf, ()) for leaf in untyped])


def types_of(tree):
    """The types that a type consists of: those of an `either`, or itself."""
    return tree.members[1:] if isinstance(tree, Node) else (tree,)


def first_of(declarations, name):
    """The first declaration of a name, or None."""
    return next((it for it in declarations if it.name == name), None)


def firsts(declarations):
    """The first declaration of each name, by the name."""
    return {it.name: it for it in reversed(declarations)}


def parent_of(types, name):
    """The parent of a type by its first declaration; `object` without a written parent declares nothing."""
    declared = next((it for it in types if it.name == name and (name != ROOT or it.types)), None)
    return declared.type_names[0] if declared else ROOT


def section(tree, head):
    """The members of a section after its head, or nothing if there is no such section."""
    return next((node.members[1:] for node in tree.members[2:] if node.head == head), ())


def schema_of(node):
    keys = {key.text: value for key, value in zip(node.members[2::2], node.members[3::2])}
    parameters = keys[":parameters"].members if ":parameters" in keys else ()
    return Schema(node.members[1], typed_list(parameters), keys.get(":precondition"), keys.get(":effect"))


def read(texts):
    """The model of the three texts."""
    domain, problem = read_tree(texts["domain"]), read_tree(texts["problem"])
    predicates = (Predicate(node.members[0], typed_list(node.members[1:])) for node in section(domain, ":predicates"))
    return Model(
        domain=domain,
        problem=problem,
        side=read_forest(texts["side"]),
        types=typed_list(section(domain, ":types")),
        constants=typed_list(section(domain, ":constants")),
        predicates=tuple(predicates),
        schemas=tuple(schema_of(node) for node in domain.members[2:] if node.head == ":action"),
        domain_name=domain.members[1].members[1],
        objects=typed_list(section(problem, ":objects")),
        init=section(problem, ":init"),
        goal=section(problem, ":goal")[0],
    )


def occurrences(node, scope, part):
    """The atoms and equalities of a condition or an effect, which is None if it is not written."""
    if node is None or not node.members:
        return
    if node.head in ("forall", "exists"):
        yield from occurrences(node.members[2], (typed_list(node.members[1].members), *scope), part)
    elif node.head == "when":
        yield from occurrences(node.members[1], scope, "condition")
        yield from occurrences(node.members[2], scope, part)
    elif node.head in ("and", "or", "not", "imply", "oneof"):
        for member in node.members[1:]:
            yield from occurrences(member, scope, part)
    else:
        yield Occurrence(node, scope, part)


def variable_lists(node):
    """The lists of variables of the quantifiers in a condition or an effect, each by its node."""
    if node is None or not node.members:
        return
    if node.head in ("forall", "exists"):
        yield node.members[1]
    for member in node.members[1:]:
        if isinstance(member, Node):
            yield from variable_lists(member)


def schema_occurrences(schema):
    yield from occurrences(schema.precondition, (schema.parameters,), "condition")
    yield from occurrences(schema.effect, (schema.parameters,), "effect")


def problem_occurrences(model):
    for node in model.init:
        yield from occurrences(node, (), "init")
    yield from occurrences(model.goal, (), "condition")


def declared_lists(model, file):
    """The typed lists of a file in which types of objects, parameters and variables occur."""
    if file == "problem":
        yield model.objects
        yield from (typed_list(node.members) for node in variable_lists(model.goal))
        return
    yield model.constants
    yield from (predicate.parameters for predicate in model.predicates)
    yield from variables_of(model)


def variables_of(model):
    """The lists of variables of the schemas of a domain: of parameters and of quantifiers."""
    for schema in model.schemas:
        yield schema.parameters
        for part in (schema.precondition, schema.effect):
            yield from (typed_list(node.members) for node in variable_lists(part))
