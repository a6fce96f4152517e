"""What a picture shows: nodes, edges and levels, and the groups into which a large picture is folded."""
import collections
import dataclasses

# Above so many nodes a picture is folded into groups, of which there are at most so many.
MOST_NODES = 300
MOST_GROUPS = 16


class PictureError(ValueError):
    """A text of which no picture can be made."""


@dataclasses.dataclass
class Node:
    """A node. `name` identifies it in DOT and in the page, and `title` is what the picture calls it.

    Its kind is `fair` or `unfair`, as its action is, `goal`, `stuck`, `plain` (nothing is known of an action), `lost` (a cube of
    losing states) or `pair`. `true` and `false` have the atoms of its literals; in a state (`is_state`), all other atoms are false. The
    label says all literals if `is_full`, except those in `common`, which all nodes of a level have, and `caption` if the title would
    repeat what the level says.
    """

    name: str
    title: str
    kind: str
    true: tuple = ()
    false: tuple = ()
    is_state: bool = False
    rule: int = None
    action: str = None
    is_full: bool = False
    common: frozenset = frozenset()
    caption: str = ""
    distance: int = None


@dataclasses.dataclass
class Edge:
    """An edge for all outcomes of a node that lead to one node, by the places of both in the list of nodes.

    Its kind is `fair`, `unfair` or `plain`, or `barred`, `stem` or `cycle`. `counted` is the one among its outcomes that a fair rule
    counts on, or None. `is_only` says that the action has no other outcome.
    """

    source: int
    target: int
    kind: str
    outcomes: tuple = ()
    counted: int = None
    is_only: bool = False


@dataclasses.dataclass
class Level:
    """Nodes that are drawn in a column: the cubes of a layer, or the states of a rank. `word` is `layer` or `rank`."""

    word: str
    number: int
    nodes: list
    note: str = ""
    common: tuple = ()


@dataclasses.dataclass
class Picture:
    """Nodes and edges; or nodes in levels, of which the last is drawn first. `noun` is what a node is, and `heading` sums up.

    `avoided` has the nodes of pairs and of the losing cubes that these name.
    """

    noun: str
    heading: str
    nodes: list = dataclasses.field(default_factory=list)
    edges: list = dataclasses.field(default_factory=list)
    start: int = None
    levels: list = dataclasses.field(default_factory=list)
    avoided: list = dataclasses.field(default_factory=list)


@dataclasses.dataclass
class Group:
    """Nodes that a folded picture shows as one."""

    title: str
    nodes: list


def count(number, noun):
    """`1 item`, `2 items`."""
    return f"{number:,} {noun}{'' if number == 1 else 's'}"


def ranges(numbers):
    """The first and the last number of each run in increasing numbers."""
    found = []
    for number in numbers:
        if found and found[-1][1] == number - 1:
            found[-1][1] = number
        else:
            found.append([number, number])
    return [tuple(it) for it in found]


def range_text(first, last):
    """`3`, `3, 4` or `3 to 5`."""
    return f"{first}" if first == last else f"{first}, {last}" if last == first + 1 else f"{first} to {last}"


def merged(source, targets, kind, counted=None):
    """The edges of a node of which each outcome has a target: one edge for each distinct target."""
    outcomes = collections.defaultdict(list)
    for outcome, target in enumerate(targets):
        outcomes[target].append(outcome)
    return [Edge(source, target, kind, tuple(numbers), counted if counted in numbers else None, len(targets) == 1)
            for target, numbers in outcomes.items()]


def set_distances(picture):
    """Gives each node the least number of edges from it to a goal; a node that reaches no goal keeps None."""
    sources = collections.defaultdict(list)
    for edge in picture.edges:
        if edge.kind != "barred":
            sources[edge.target].append(edge.source)
    found = [number for number, node in enumerate(picture.nodes) if node.kind == "goal"]
    for number in found:
        picture.nodes[number].distance = 0
    for number in found:
        for source in sources[number]:
            if picture.nodes[source].distance is None:
                picture.nodes[source].distance = picture.nodes[number].distance + 1
                found.append(source)


def bands(parts, name):
    """Groups of successive parts, which are pairs of a number and nodes; `name` gives the title for the first and last number."""
    size = -(-len(parts) // MOST_GROUPS)
    found = []
    for at in range(0, len(parts), max(size, 1)):
        band = parts[at:at + size]
        found.append(Group(name(band[0][0], band[-1][0]), [node for _, nodes in band for node in nodes]))
    return found


def distance_title(first, last):
    if (first, last) == (0, 0):
        return "goals"
    return f"{range_text(first, last)} {'step' if last == 1 else 'steps'} to a goal"


def groups(picture):
    """The groups of a folded picture: by levels, or by distance to a goal, with the nodes that reach none at the end."""
    if picture.levels:
        word, parts = picture.levels[0].word, [(level.number, level.nodes) for level in picture.levels]
        return bands(parts, lambda first, last: f"{word}{'s' if last > first else ''} {range_text(first, last)}")
    of_distance = collections.defaultdict(list)
    for number, node in enumerate(picture.nodes):
        of_distance[node.distance].append(number)
    avoided = set(picture.avoided)
    far = [number for number in of_distance.pop(None, []) if number not in avoided]
    found = bands(sorted(of_distance.items()), distance_title)
    others = (("no way to a goal", far), ("barred", picture.avoided))
    return found + [Group(title, nodes) for title, nodes in others if nodes]
