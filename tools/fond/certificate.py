"""Reads a certificate: both versions of policies, and refusals, as docs/CERTIFICATES.md describes their text.

It reads what a correct text says and nothing about the task; ask the program first (`check`). A line that has no form allowed at
its place is reported with its number.
"""
import dataclasses
import re

LEAF = r"[!-'*-:<-@\[-~]+"
GROUND = rf"\({LEAF}(?: {LEAF})*\)"
NUMBER = r"(?:0|[1-9][0-9]*)"
TARGET = f"(?:goal|{NUMBER})"
LITERALS = rf"(?: [+-]{GROUND})*"

# The forms of lines by their first word. The rank of a form is its place in the order of parts.
FORMS = {
    "layer": (0, re.compile("layer")),
    "cube": (0, re.compile(rf"cube({LITERALS})")),
    "pair": (1, re.compile(rf"pair ({GROUND}) ({NUMBER}) ({NUMBER}) ({NUMBER}) :({LITERALS})")),
    "rule": (2, re.compile(rf"rule ({GROUND}) (?:fair ({NUMBER}) ({TARGET})|unfair((?: {TARGET})+)) :({LITERALS})")),
    "item": (3, re.compile(rf"item (?:goal|({NUMBER})((?: {NUMBER})+)) :({LITERALS})")),
    "start": (4, re.compile(rf"start ({NUMBER})")),
    "reach": (4, re.compile(rf"reach ({NUMBER})")),
    "end": (5, re.compile("end")),
}
HEADS = {
    "dualfond 2 policy": (2, ("layer", "cube", "pair", "rule", "item", "start", "end")),
    "dualfond 1 policy": (1, ("layer", "cube", "pair", "rule", "reach", "end")),
    "dualfond 1 refusal": (1, ("layer", "cube", "end")),
}


class CertificateError(ValueError):
    """A text that is no certificate."""


@dataclasses.dataclass(frozen=True)
class Literal:
    """A literal: its atom, and whether the atom is true."""

    is_true: bool
    atom: str

    def __str__(self):
        return "-+"[self.is_true] + self.atom


@dataclasses.dataclass(frozen=True)
class Pair:
    """A pair: it forbids the action where the literals hold, since the outcome leads into the cube of the layer."""

    action: str
    outcome: int
    layer: int
    cube: int
    literals: tuple


@dataclasses.dataclass(frozen=True)
class Rule:
    """A rule. A fair one names an outcome and has one target; an unfair one has a target for each outcome, and `outcome` is None.
    A target is the number of a rule, or None for `goal`."""

    action: str
    is_fair: bool
    outcome: int
    targets: tuple
    literals: tuple


@dataclasses.dataclass(frozen=True)
class Item:
    """An item: the number of its rule and the item into which each outcome leads. For an item of goals, `rule` is None."""

    rule: int
    items: tuple
    literals: tuple


@dataclasses.dataclass
class Certificate:
    """A certificate. A layer is a list of cubes, and a cube is a tuple of literals. A policy of version 1 has `reach`, and one of
    version 2 has `items` and `start`; what a certificate does not have is empty or None."""

    version: int
    is_policy: bool
    layers: list = dataclasses.field(default_factory=list)
    pairs: list = dataclasses.field(default_factory=list)
    rules: list = dataclasses.field(default_factory=list)
    items: list = dataclasses.field(default_factory=list)
    reach: int = None
    start: int = None

    def add(self, word, found):
        """Adds what a line with this first word says, which is the match of its form."""
        if word == "layer":
            self.layers.append([])
        elif word == "cube":
            self.layers[-1].append(read_literals(found[1]))
        elif word == "pair":
            self.pairs.append(Pair(found[1], int(found[2]), int(found[3]), int(found[4]), read_literals(found[5])))
        elif word == "rule":
            self.rules.append(read_rule(found))
        elif word == "item":
            is_goal = found[1] is None
            items = () if is_goal else tuple(map(int, found[2].split()))
            self.items.append(Item(None if is_goal else int(found[1]), items, read_literals(found[3])))
        elif word == "reach":
            self.reach = int(found[1])
        elif word == "start":
            self.start = int(found[1])


def read_literals(text):
    """The literals of ` +(a) -(b c)`."""
    return tuple(Literal(sign == "+", atom) for sign, atom in re.findall(rf" ([+-])({GROUND})", text))


def read_rule(found):
    def target(word):
        return None if word == "goal" else int(word)

    action, outcome, fair_target, targets, literals = found.groups()
    if outcome is not None:
        return Rule(action, True, int(outcome), (target(fair_target),), read_literals(literals))
    return Rule(action, False, None, tuple(map(target, targets.split())), read_literals(literals))


def is_at_place(word, rank, last, certificate):
    """Whether a line may follow one of the rank `last`."""
    if word == "cube":
        return last == 0 and bool(certificate.layers)
    if word == "end":
        return last == rank - 1 or not certificate.is_policy
    return rank > last or rank == last and word not in ("start", "reach")


def read_certificate(text):
    """The certificate in the bytes `text`."""
    lines = text.decode("latin-1").split("\n")
    if lines[0] not in HEADS:
        raise CertificateError("line 1: no head of a certificate")
    version, words = HEADS[lines[0]]
    certificate = Certificate(version, lines[0].endswith("policy"))
    last = 0
    for number, line in enumerate(lines[1:], 2):
        if last == FORMS["end"][0]:
            if number != len(lines) or line:
                raise CertificateError(f"line {number}: text after the line `end`")
            return certificate
        word = line.partition(" ")[0]
        rank, form = FORMS[word] if word in words else (0, None)
        found = form.fullmatch(line) if form else None
        if not found or not is_at_place(word, rank, last, certificate):
            raise CertificateError(f"line {number}: no line of a certificate, or not at its place")
        last = rank
        certificate.add(word, found)
    raise CertificateError(f"line {len(lines)}: the text ends before a whole line `end`")
