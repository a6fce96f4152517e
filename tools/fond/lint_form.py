"""Explains the faults of form, F7 to F12: what is expected at a place of a domain, a problem or a side list.

A role says what is expected of a tree, as the table of docs/LANGUAGE.md has it. The program found the fault; here the tree at
its place is looked up with its role, and the message says in which way the tree does not fit.
"""
import dataclasses
import itertools

from fond import faults
from fond.lint_files import place_of
from fond.tree import Leaf, Node

RESERVED = frozenset("and or not imply forall exists when oneof either = -".split())
KEYS = {":parameters": "variables", ":precondition": "condition", ":effect": "effect"}
SECTIONS = {
    "domain": ":requirements :types :constants :predicates :action".split(),
    "problem": ":requirements :domain :objects :init :goal :metric :goal-reward :length".split(),
}

# What a message calls a role.
EXPECTED = {
    "define": "'define'", "domain": "'domain'", "problem": "'problem'", "either": "'either'",
    "domain file": "a domain", "problem file": "a problem",
    "domain header": "(domain NAME)", "problem header": "(problem NAME)",
    "domain section": "a section", "problem section": "a section",
    "name": "a name", "variable": "a variable", "term": "a name or a variable", "key": "a key",
    "predicate": "(NAME VARIABLE ..)", "variables": "a node of variables",
    "type": "a type",
    "condition": "a condition", "effect": "an effect", "initial": "an initial atom",
    "atom": "an atom", "pattern": "a pattern",
}


@dataclasses.dataclass(frozen=True)
class Shape:
    """The members of a node: the roles of the first of them, that of the rest, and the form as a message has it.

    The rest is a role, `typed name`, `typed variable`, `pairs`, `unread`, or nothing if no further member may follow.
    """

    first: tuple
    rest: str
    form: str


SECTION_SHAPES = {
    ":requirements": Shape(("head",), "unread", ""),
    ":types": Shape(("head",), "typed name", ""),
    ":constants": Shape(("head",), "typed name", ""),
    ":objects": Shape(("head",), "typed name", ""),
    ":predicates": Shape(("head",), "predicate", ""),
    ":action": Shape(("head", "name"), "pairs", "(:action NAME KEY VALUE ..)"),
    ":domain": Shape(("head", "name"), "", "(:domain NAME)"),
    ":init": Shape(("head",), "initial", ""),
    ":goal": Shape(("head", "condition"), "", "(:goal CONDITION)"),
    ":metric": Shape(("head",), "unread", ""),
    ":goal-reward": Shape(("head",), "unread", ""),
    ":length": Shape(("head",), "unread", ""),
}
ATOM = Shape(("name",), "term", "(NAME TERM ..)")
NEGATED_ATOM = Shape(("head", "atom"), "", "(not ATOM)")
OPERATORS = {
    "condition": {
        "and": Shape(("head",), "condition", ""),
        "or": Shape(("head",), "condition", ""),
        "not": Shape(("head", "condition"), "", "(not CONDITION)"),
        "imply": Shape(("head", "condition", "condition"), "", "(imply CONDITION CONDITION)"),
        "forall": Shape(("head", "variables", "condition"), "", "(forall (VARIABLE ..) CONDITION)"),
        "exists": Shape(("head", "variables", "condition"), "", "(exists (VARIABLE ..) CONDITION)"),
        "=": Shape(("head", "term", "term"), "", "(= TERM TERM)"),
    },
    "effect": {
        "and": Shape(("head",), "effect", ""),
        "not": NEGATED_ATOM,
        "forall": Shape(("head", "variables", "effect"), "", "(forall (VARIABLE ..) EFFECT)"),
        "when": Shape(("head", "condition", "effect"), "", "(when CONDITION EFFECT)"),
        "oneof": Shape(("head",), "effect", ""),
    },
    "initial": {"not": NEGATED_ATOM},
}
SHAPES = {
    "domain file": Shape(("define", "domain header"), "domain section", "(define (domain NAME) SECTION ..)"),
    "problem file": Shape(("define", "problem header"), "problem section", "(define (problem NAME) SECTION ..)"),
    "domain header": Shape(("domain", "name"), "", "(domain NAME)"),
    "problem header": Shape(("problem", "name"), "", "(problem NAME)"),
    "predicate": Shape(("name",), "typed variable", "(NAME VARIABLE ..)"),
    "variables": Shape((), "typed variable", "(VARIABLE ..)"),
    "type": Shape(("either", "name"), "name", "(either NAME ..)"),
    "atom": ATOM,
    "pattern": ATOM,
}


@dataclasses.dataclass(frozen=True)
class Part:
    """A tree with its role and the node of which it is a member. A `-` that does not fit has no name `before` it or no type
    `after` it."""

    role: str
    tree: object
    parent: object = None
    lacks: str = ""


def shape_of(role, node):
    """What is expected of the members of a node, or None if the node itself is refused."""
    if role in ("domain section", "problem section"):
        sections = SECTIONS[role.split()[0]]
        if not node.head:
            return Shape(("name",), "unread", "(:SECTION ..)")
        return SECTION_SHAPES[node.head] if node.head in sections else None
    if role in OPERATORS:
        if not node.members and role != "initial":
            return Shape((), "", "()")
        return OPERATORS[role].get(node.head, ATOM)
    return SHAPES.get(role)


def typed_parts(node, members, leaf):
    """The members of a typed list: its leaves, and the type after each `-` that follows a leaf without a type."""
    is_untyped, trees = False, iter([*members, None])
    tree = next(trees)
    while tree is not None:
        following = next(trees)
        is_dash = isinstance(tree, Leaf) and tree.text == "-"
        if is_untyped and is_dash and following is not None:
            yield Part("type" if leaf == "variable" else "name", following, node)
            is_untyped, following = False, next(trees)
        else:
            lacks = "after" if is_untyped else "before"
            yield Part(leaf, tree, node, lacks if is_dash else "")
            is_untyped = not is_dash
        tree = following


def pair_parts(node, members):
    """The keys of an action, and the values of those that are known."""
    for key, value in itertools.zip_longest(members[::2], members[1::2]):
        yield Part("key", key, node)
        role = KEYS.get(key.text) if isinstance(key, Leaf) else None
        if value is not None and role:
            yield Part(role, value, node)


def member_parts(part):
    """The members of a node with their roles, as far as they are read."""
    node = part.tree
    shape = shape_of(part.role, node) if isinstance(node, Node) else None
    if shape is None:
        return
    for role, tree in zip(shape.first, node.members):
        yield Part(role, tree, node)
    rest = node.members[len(shape.first):]
    if shape.rest.startswith("typed "):
        yield from typed_parts(node, rest, shape.rest.split()[1])
    elif shape.rest == "pairs":
        yield from pair_parts(node, rest)
    elif shape.rest not in ("", "unread"):
        yield from (Part(shape.rest, tree, node) for tree in rest)


def part_at(part, place):
    """The part of a tree that begins at a place, or None."""
    if place_of(part.tree) == place:
        return part
    found = None
    for member in member_parts(part):
        if place_of(member.tree) > place:
            break
        found = member
    return part_at(found, place) if found else None


def root_parts(file, forest):
    """The roots of a file with their roles; the leaves of a side list have none."""
    if file != "side":
        return [Part(f"{file} file", tree) for tree in forest]
    return [Part("pattern", tree) for tree in forest if isinstance(tree, Node)]


def kind_of(text):
    """What a leaf is."""
    if text.startswith("?"):
        return "variable"
    if text.startswith(":"):
        return "keyword"
    return "reserved word" if text in RESERVED else "name"


def misfit_leaf(file, part):
    """A leaf in place of a node or of another leaf."""
    name = part.tree.text
    if part.lacks:
        return faults.fault(file, place_of(part.tree), "F7", name, part.lacks, expected=part.role)
    return faults.fault(file, place_of(part.tree), "F7", name, kind=kind_of(name), expected=EXPECTED[part.role])


def misfit_node(file, part):
    """A node in place of a leaf, or one with too few or too many members."""
    node, place, name = part.tree, place_of(part.tree), part.tree.head
    shape = shape_of(part.role, node)
    if not node.members:
        return faults.fault(file, place, "F7", name, "empty", expected=EXPECTED[part.role])
    if shape is None:
        return faults.fault(file, place, "F7", name, "node" if name else "headless", expected=EXPECTED[part.role])
    last = node.members[-1]
    if shape.rest == "pairs" and len(node.members) > 2 and isinstance(last, Leaf) and last.text in KEYS:
        return faults.fault(file, place, "F7", name, "value", key=last.text, form=shape.form)
    count = faults.number_of(len(node.members), "member")
    return faults.fault(file, place, "F7", name, "count" if name else "headless count", count=count, form=shape.form)


def explain_unknown(file, part):
    """A section that the file does not have, or a key that an action does not have."""
    place = place_of(part.tree)
    if part.role == "key":
        return faults.fault(file, place, "F8", part.tree.text, "key", known=listed(KEYS))
    name, other = part.tree.head, "problem" if file == "domain" else "domain"
    if name in SECTIONS[other]:
        return faults.fault(file, place, "F8", name, "other", owner=file, other=other)
    return faults.fault(file, place, "F8", name, owner=file, known=listed(SECTIONS[file]))


def listed(words):
    *front, last = words
    return f"{', '.join(front)} and {last}"


def label(tree):
    """The text of a leaf, or the head of a node."""
    return tree.text if isinstance(tree, Leaf) else tree.head


def explain_repeated(files, file, part):
    """A section or a key that occurs a second time."""
    is_key = part.role == "key"
    name = label(part.tree)
    first = next(tree for tree in part.parent.members[2::2 if is_key else 1] if label(tree) == name)
    where = files.where(file, place_of(first), file)
    return faults.fault(file, place_of(part.tree), "F9", name, "key" if is_key else "", where=where)


def explain_missing(file, part):
    """A problem without `:domain` or `:goal`."""
    heads = [tree.head for tree in part.tree.members[2:] if isinstance(tree, Node)]
    missing = [name for name in (":domain", ":goal") if name not in heads]
    return faults.fault(file, place_of(part.tree), "F10", missing[0], "both" if len(missing) > 1 else "")


def explain_operator(files, file, part):
    """A reserved word that is no operator here, or an atom with a node among its terms."""
    name, place = part.tree.head, place_of(part.tree)
    if name in RESERVED:
        return faults.fault(file, place, "F11", name, expected=EXPECTED[part.role])
    inner = next(tree for tree in part.tree.members[1:] if isinstance(tree, Node))
    return faults.fault(file, place, "F11", name, "node", where=files.where(file, place_of(inner), file))


def explain(files, file, place, code, forest):
    """The finding of a fault of form, or None if the tree at the place has no such fault."""
    before = [root for root in root_parts(file, forest) if place_of(root.tree) <= place]
    part = part_at(before[-1], place) if before else None
    if part is None:
        return None
    if code == "F7":
        return misfit_leaf(file, part) if isinstance(part.tree, Leaf) else misfit_node(file, part)
    if code == "F8":
        return explain_unknown(file, part)
    if code == "F9":
        return explain_repeated(files, file, part)
    if code == "F10":
        return explain_missing(file, part)
    if code == "F11":
        return explain_operator(files, file, part)
    return faults.fault(file, place, code, part.tree.head) if code == "F12" else None
