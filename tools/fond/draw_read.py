"""Reads what `tools/draw` can draw, and makes a picture of it. The first line says what a text is.

The texts are certificates (docs/CERTIFICATES.md), the states and edges that `graph` prints as JSON, and the answers of `explain`.
"""
import json
import re

from .certificate import GROUND, HEADS, CertificateError, read_certificate
from .draw_model import Edge, Level, Node, Picture, PictureError, count, merged, set_distances

ATOM = re.compile(GROUND)
# At most so many pairs are drawn, and a pair or a losing cube beside a cover says all its literals if they are so few.
MOST_PAIRS, FEW = 20, 4


def atoms(literals, is_true):
    return tuple(literal.atom for literal in literals if literal.is_true == is_true)


def rule_at(certificate, number, where):
    if number >= len(certificate.rules):
        raise PictureError(f"{where}: there is no rule {number}")
    return certificate.rules[number]


def kind_of(rule):
    return "fair" if rule.is_fair else "unfair"


def cover(certificate):
    """A node an item, an edge an outcome; and beside them the pairs, if there are few."""
    items = certificate.items
    parts = [(len(certificate.rules), "rule"), (len(items), "item"), (len(certificate.pairs), "pair")]
    picture = Picture("item", ", ".join(count(*it) for it in parts if it[0]), start=certificate.start)
    for number, item in enumerate(items):
        parts = {"true": atoms(item.literals, True), "false": atoms(item.literals, False)}
        if item.rule is None:
            picture.nodes.append(Node(str(number), f"item {number}", "goal", **parts))
            continue
        rule = rule_at(certificate, item.rule, f"item {number}")
        wrong = next((it for it in item.items if it >= len(items)), None)
        if wrong is not None:
            raise PictureError(f"item {number}: there is no item {wrong}")
        picture.nodes.append(Node(str(number), f"item {number}", kind_of(rule), rule=item.rule, action=rule.action, **parts))
        picture.edges += merged(number, item.items, kind_of(rule), rule.outcome)
    if certificate.start >= len(items):
        raise PictureError(f"the line `start`: there is no item {certificate.start}")
    if len(certificate.pairs) <= MOST_PAIRS:
        add_pairs(picture, certificate)
    return picture


def add_pairs(picture, certificate):
    """Adds a node for each pair, a node for each losing cube that a pair names, and an edge from the one to the other."""
    places = {}
    for number, pair in enumerate(certificate.pairs):
        picture.avoided.append(len(picture.nodes))
        picture.nodes.append(Node(f"pair_{number}", f"pair {number}", "pair", atoms(pair.literals, True), atoms(pair.literals, False),
                                  is_full=len(pair.literals) <= FEW, action=pair.action))
        place = pair.layer, pair.cube
        if place not in places:
            places[place] = len(picture.nodes)
            picture.nodes.append(cube_node(certificate, place, f"pair {number}"))
        picture.edges.append(Edge(picture.avoided[-1], places[place], "barred", (pair.outcome,)))
    picture.avoided += places.values()


def cube_node(certificate, place, where):
    layer, cube = place
    if layer >= len(certificate.layers) or cube >= len(certificate.layers[layer]):
        raise PictureError(f"{where}: there is no cube {cube} of layer {layer}")
    literals = certificate.layers[layer][cube]
    title = f"layer {layer}, cube {cube}"
    return Node(f"lost_{layer}_{cube}", title, "lost", atoms(literals, True), atoms(literals, False), is_full=len(literals) <= FEW)


def rules(certificate):
    """A node a rule, an edge an outcome with its target. Of a fair rule, only the outcome that it counts on is known."""
    goal = len(certificate.rules)
    picture = Picture("rule", count(goal, "rule"))
    for number, rule in enumerate(certificate.rules):
        targets = [goal if it is None else it for it in rule.targets]
        wrong = next((it for it in targets if it > goal or it == goal and None not in rule.targets), None)
        if wrong is not None:
            raise PictureError(f"rule {number}: there is no rule {wrong}")
        picture.nodes.append(Node(str(number), f"rule {number}", kind_of(rule), atoms(rule.literals, True), atoms(rule.literals, False),
                                  rule=number, action=rule.action))
        if rule.is_fair:
            picture.edges.append(Edge(number, targets[0], "fair", (rule.outcome,), rule.outcome))
        else:
            picture.edges += merged(number, targets, "unfair")
    picture.nodes.append(Node("goal", "goal", "goal"))
    return picture


def layer_note(number):
    """What a layer claims of its states."""
    if number == 0:
        return "each action may keep\na run in this layer"
    return f"each action may keep a run in this\nlayer, or lead it into {'layer 0' if number == 1 else 'an earlier one'}"


def refusal(certificate):
    """A node a cube, a level a layer. What the cubes of a layer have in common is said once."""
    picture = Picture("cube", f"{count(len(certificate.layers), 'layer')}, {count(sum(map(len, certificate.layers)), 'cube')}")
    for number, cubes in enumerate(certificate.layers):
        common = frozenset.intersection(*map(frozenset, cubes)) if len(cubes) > 1 else frozenset()
        places = []
        for cube in range(len(cubes)):
            node = cube_node(certificate, (number, cube), "")
            node.caption, node.is_full, node.distance = f"cube {cube}", True, number
            node.common = frozenset((it.is_true, it.atom) for it in common)
            places.append(len(picture.nodes))
            picture.nodes.append(node)
        ordered = tuple((it.is_true, it.atom) for it in (cubes[0] if cubes else ()) if it in common)
        picture.levels.append(Level("layer", number, places, layer_note(number), ordered))
    return picture


def of_certificate(certificate):
    if not certificate.is_policy:
        return refusal(certificate)
    picture = cover(certificate) if certificate.version == 2 else rules(certificate)
    set_distances(picture)
    return picture


def checked_node(value, number, node_count):
    """A node of `graph`, whose form is looked at."""
    is_right = (isinstance(value, dict) and isinstance(value.get("goal"), bool) and isinstance(value.get("atoms"), list)
                and all(isinstance(it, str) for it in value["atoms"]) and "rule" in value
                and (value["rule"] is None or type(value["rule"]) is int and value["rule"] >= 0))
    if not is_right:
        raise PictureError(f"node {number}: it has no `atoms`, `goal` and `rule` of the right form")
    return value


def checked_edge(value, number, node_count):
    """An edge of `graph`, whose form is looked at."""
    numbers = [value.get(it) for it in ("from", "outcome", "to")] if isinstance(value, dict) else [None]
    if not all(type(it) is int and it >= 0 for it in numbers):
        raise PictureError(f"edge {number}: `from`, `outcome` and `to` have to be numbers")
    if numbers[0] >= node_count or numbers[2] >= node_count:
        raise PictureError(f"edge {number}: there is no node {max(numbers[0], numbers[2])}")
    return numbers


def states(text, certificate):
    """A node a state, as `graph` prints them; with the policy beside it, each node has its rule's action."""
    try:
        value = json.loads(text.decode("utf-8"))
    except ValueError as error:
        raise PictureError(f"no JSON: {error}") from error
    if not all(isinstance(value.get(it), list) for it in ("nodes", "edges")):
        raise PictureError("no graph: it has no lists `nodes` and `edges`")
    nodes = [checked_node(it, number, len(value["nodes"])) for number, it in enumerate(value["nodes"])]
    edges = [checked_edge(it, number, len(nodes)) for number, it in enumerate(value["edges"])]
    picture = Picture("state", f"{count(len(nodes), 'state')}, {count(len(edges), 'edge')}", start=0 if nodes else None)
    for number, node in enumerate(nodes):
        picture.nodes.append(state_node(number, node, certificate))
    targets = [{} for _ in nodes]
    for source, outcome, target in edges:
        targets[source][outcome] = target
    for source, of_outcome in enumerate(targets):
        picture.edges += edges_of_state(picture.nodes[source], source, of_outcome, certificate)
    set_distances(picture)
    return picture


def state_node(number, value, certificate):
    node = Node(str(number), f"state {number}", "plain", tuple(value["atoms"]), is_state=True, rule=value["rule"])
    if value["goal"]:
        node.kind = "goal"
    elif value["rule"] is None:
        node.kind = "stuck"
    elif certificate:
        rule = rule_at(certificate, value["rule"], f"node {number}")
        node.kind, node.action = kind_of(rule), rule.action
    return node


def edges_of_state(node, source, of_outcome, certificate):
    """The edges of a state, merged by where they lead."""
    rule = certificate.rules[node.rule] if certificate and node.rule is not None else None
    outcomes = sorted(of_outcome)
    found = merged(source, [of_outcome[it] for it in outcomes], kind_of(rule) if rule else "plain")
    for edge in found:
        edge.outcomes = tuple(outcomes[it] for it in edge.outcomes)
        if rule and rule.outcome in edge.outcomes:
            edge.counted = rule.outcome
    return found


class Lines:
    """The lines of an answer, which are read one by one."""

    def __init__(self, text):
        self.lines = text.decode("latin-1").split("\n")
        self.at = 0

    def next(self):
        """The next line; past the end it is empty."""
        return self.lines[self.at] if self.at < len(self.lines) else ""

    def take(self, pattern, what):
        found = re.fullmatch(pattern, self.next())
        if not found:
            raise PictureError(f"line {self.at + 1}: no {what}")
        self.at += 1
        return found

    def state(self):
        """The atoms of a state: the line `state`, and a line for each of them."""
        self.take("state", "line `state`")
        found = []
        while ATOM.fullmatch(self.next()):
            found.append(self.next())
            self.at += 1
        return tuple(found)

    def end(self):
        self.take("", "line that belongs here")
        if self.at < len(self.lines):
            raise PictureError(f"line {self.at + 1}: text after the end")


def solution(lines):
    """The states of a policy by their ranks: a level a rank."""
    picture, of_rank = Picture("state", ""), {}
    while lines.next().startswith("rank "):
        rank = int(lines.take("rank (0|[1-9][0-9]*)", "rank")[1])
        number = len(picture.nodes)
        kind = "goal" if rank == 0 else "plain"
        picture.nodes.append(Node(str(number), f"state {number}", kind, lines.state(), is_state=True, distance=rank))
        of_rank.setdefault(rank, []).append(number)
    lines.end()
    picture.heading = f"a solution: {count(len(picture.nodes), 'state')}, {count(len(of_rank), 'rank')}"
    if not picture.nodes:
        picture.heading = "a solution: the initial state is a goal"
        picture.nodes.append(Node("0", "the initial state", "goal"))
        of_rank[0] = [0]
    picture.levels = [Level("rank", rank, of_rank[rank]) for rank in sorted(of_rank)]
    return picture


def walk(lines, word, picture):
    """Adds the edges of a line such as `stem 0 1 2`; the states on it."""
    numbers = [int(it) for it in lines.take(rf"{word}((?: (?:0|[1-9][0-9]*))+)", f"line `{word}`")[1].split()]
    if max(numbers) >= len(picture.nodes):
        raise PictureError(f"line {lines.at}: there is no state {max(numbers)}")
    known = {(edge.source, edge.target) for edge in picture.edges}
    for source, target in zip(numbers, numbers[1:]):
        if (source, target) not in known:
            known.add((source, target))
            picture.edges.append(Edge(source, target, word))
    return numbers


def failure(lines, what):
    """The states of a stem, and of a cycle if there is one."""
    picture = Picture("state", "", start=0)
    while lines.next() == "state":
        number = len(picture.nodes)
        picture.nodes.append(Node(str(number), f"state {number}", "plain", lines.state(), is_state=True))
    if what == "lasso":
        # The cycle is read second and drawn first, so that an edge on both is one of the cycle.
        stem, cycle = lines.at, lines.at + 1
        lines.at = cycle
        turns = walk(lines, "cycle", picture)
        lines.at = stem
        picture.start = walk(lines, "stem", picture)[0]
        lines.at = cycle + 1
        picture.heading = f"no solution: a policy that may stay in a cycle of {count(len(turns) - 1, 'state')} for ever"
    else:
        steps = walk(lines, "stem", picture)
        picture.start, picture.nodes[steps[-1]].kind = steps[0], "stuck"
        picture.heading = f"no solution: stuck after {count(len(steps) - 1, 'step')}"
    lines.end()
    return picture


def picture_of(text, policy=None):
    """The picture of a text; `policy` is the certificate of the policy whose states it has, or None."""
    head = text.partition(b"\n")[0].decode("latin-1")
    is_graph = text.lstrip()[:1] == b"{"
    certificate = read_certificate(policy) if policy is not None else None
    if certificate and not (is_graph and certificate.is_policy):
        raise PictureError("a policy beside it goes with the JSON of `graph` alone")
    if is_graph:
        return states(text, certificate)
    if head in HEADS:
        return of_certificate(read_certificate(text))
    lines = Lines(text)
    lines.at = 1
    if head == "solution":
        return solution(lines)
    if head in ("stuck", "lasso"):
        return failure(lines, head)
    raise PictureError("line 1: no certificate, no JSON of `graph` and no answer of `explain`")


__all__ = ["CertificateError", "picture_of"]
