"""Reads a trace of `run` or `simulate` (docs/COMMANDS.md) and follows it over a picture, node by node."""
import dataclasses
import re

from .certificate import GROUND, NUMBER
from .draw_model import PictureError

STEP = re.compile(rf"rule ({NUMBER}) ({GROUND}) outcome ({NUMBER})")
LAST = re.compile(rf"goal left {NUMBER}|ended|stuck|outcome {NUMBER} of {NUMBER}")


@dataclasses.dataclass(frozen=True)
class Step:
    """A step: its line, the nodes between which it goes, its outcome, and whether the opponent picked that."""

    text: str
    source: int
    target: int
    outcome: int
    is_unfair: bool


@dataclasses.dataclass(frozen=True)
class Trace:
    """Steps, the node after the last of them, and the line that ends the trace."""

    steps: tuple
    last: int
    end: str


def read_lines(text):
    """The steps of a trace as pairs of a line's number and its match, and the line that ends them."""
    lines, steps = text.decode("latin-1").split("\n"), []
    for number, line in enumerate(lines, 1):
        found = STEP.fullmatch(line)
        if found:
            steps.append((number, found))
        elif LAST.fullmatch(line):
            return steps, line
        else:
            raise PictureError(f"line {number}: no step of a trace, and no line that ends one")
    raise PictureError(f"line {len(lines)}: the trace has no last line")


def read_trace(text, picture):
    """The trace over a picture of items, rules or states."""
    if picture.noun not in ("item", "rule", "state") or any(edge.kind in ("stem", "cycle") for edge in picture.edges) or picture.levels:
        raise PictureError("a trace goes with a policy or with the JSON of `graph`")
    found, end = read_lines(text)
    follow = over_rules if picture.noun == "rule" else over_edges
    return follow(found, end, picture)


def checked(number, found, picture, place):
    """The rule and the outcome of a step, which has to be one of the node."""
    node, rule, outcome = picture.nodes[place], int(found[1]), int(found[3])
    if node.rule != rule or node.action not in (None, found[2]):
        known = f"rule {node.rule}" + (f" {node.action}" if node.action else "") if node.rule is not None else "no rule"
        raise PictureError(f"line {number}: {node.title} has {known}, not rule {rule} {found[2]}")
    return outcome


def over_edges(found, end, picture):
    """Follows a trace from the start along the edge of each outcome."""
    targets = {(edge.source, outcome): edge.target
               for edge in picture.edges if edge.kind != "barred" for outcome in edge.outcomes}
    steps, place = [], picture.start
    for number, match in found:
        outcome = checked(number, match, picture, place)
        target = targets.get((place, outcome))
        if target is None:
            raise PictureError(f"line {number}: {picture.nodes[place].title} has no outcome {outcome}")
        steps.append(Step(match[0], place, target, outcome, picture.nodes[place].kind == "unfair"))
        place = target
    return Trace(tuple(steps), place, end)


def over_rules(found, end, picture):
    """Follows a trace by the numbers of its rules; the goal is the node after the rules. A trace that ends elsewhere ends in its last
    rule, since which rule holds then is not known."""
    goal, steps, places = len(picture.nodes) - 1, [], []
    for number, match in found:
        if int(match[1]) >= goal:
            raise PictureError(f"line {number}: there is no rule {match[1]}")
        places.append(int(match[1]))
        checked(number, match, picture, places[-1])
    places.append(goal if end.startswith("goal") else places[-1] if places else 0)
    for (_, match), source, target in zip(found, places, places[1:]):
        steps.append(Step(match[0], source, target, int(match[3]), picture.nodes[source].kind == "unfair"))
    return Trace(tuple(steps), places[-1], end)


def marks(trace):
    """The attributes of Graphviz that mark the nodes and edges of a trace."""
    found = {place: 'color="#1a56b0" penwidth=2.4' for step in trace.steps for place in (step.source, step.target)}
    found[trace.last] = 'color="#1a56b0" penwidth=2.4'
    for step in trace.steps:
        if not (step.source, step.target) in found or step.is_unfair:
            found[step.source, step.target] = f'color="{"#b3161d" if step.is_unfair else "#1a56b0"}"'
    return found
