"""What a controller is made from: a policy and its task, with atoms, actions and rules by number."""
import dataclasses

# What each generated file says of a controller that looks at states.
SEMANTICS = """In each state, the first case that applies decides:
1. If the state is a goal, the answer is 'goal'.
2. If no rule holds, the answer is 'stuck'.
3. If the action of the first rule that holds is not applicable, the answer is 'stuck'.
4. Otherwise the answer is the action of the first rule that holds.
The `run` command of the planner decides in the same way.
The caller observes the world and sets the atoms; an atom that is not set keeps its value."""

# What each generated file says of an automaton, with its number of steps.
AUTOMATON = """The automaton knows no state. It is driven by the numbers of the outcomes that its actions show: each item
but those of goals has an action, and each outcome of the action leads to the next item.
What it may miss: an item is a partial state, so the goal may hold in a state of an item that has an action. The automaton
does not notice that: it goes on acting, where `run` stops, until it comes to an item of goals. There the goal holds.
Steps from the start to an item of goals, if fair actions show the outcomes that lead there: at most {steps}, whatever the
opponent picks.
All of this holds if the world starts in the initial state of the task and behaves as the domain says, and if each outcome
is reported. After a wrong report, the state may lie outside the current item."""


class ModelError(ValueError):
    """A certificate of which no controller can be made."""


@dataclasses.dataclass(frozen=True)
class Rule:
    """A rule: the number of its action, its literals as (atom number, is true), and its text."""

    action: int
    literals: tuple
    text: str


@dataclasses.dataclass
class Model:
    """A policy of a task. Atoms are numbered as the planner numbers them, and actions in the order of the first rule that has them.
    The formulas are those of `fond.task`. An item is the one of the certificate."""

    sources: list
    verdict: str
    atoms: tuple
    initial: list
    goal: object
    actions: list
    are_fair: list
    outcomes: list
    preconditions: list
    rules: list
    items: list
    start: int


def make_model(task, certificate, sources, verdict):
    """The model of a policy. `verdict` is the line of `check`, or None if it was not asked."""
    if not certificate.is_policy:
        raise ModelError("the certificate is a refusal, which has no rules")
    actions = list(dict.fromkeys(rule.action for rule in certificate.rules))
    for action in actions:
        if not task.is_kept(action):
            raise ModelError(f"the task does not have the action {action}")
    number_of = {action: number for number, action in enumerate(actions)}
    fair = {rule.action: rule.is_fair for rule in certificate.rules}
    return Model(
        sources=sources,
        verdict=verdict,
        atoms=task.atoms,
        initial=sorted(task.number_of[atom] for atom in task.initial),
        goal=task.goal_formula,
        actions=actions,
        are_fair=[fair[action] for action in actions],
        outcomes=[len(task.outcomes(action)) for action in actions],
        preconditions=[task.precondition(action) for action in actions],
        rules=[make_rule(task, number_of, rule) for rule in certificate.rules],
        items=certificate.items,
        start=certificate.start,
    )


def make_rule(task, number_of, rule):
    for literal in rule.literals:
        if literal.atom not in task.number_of:
            raise ModelError(f"the task does not have the atom {literal.atom}")
    literals = tuple((task.number_of[it.atom], it.is_true) for it in rule.literals)
    return Rule(number_of[rule.action], literals, " ".join([f"{rule.action} :", *map(str, rule.literals)]))


def check_items(model):
    """Reports what no automaton can be made of: version 1, rules and items that do not exist, and wrong numbers of items."""
    if model.start is None:
        raise ModelError("the certificate has no items: `migrate` gives it some")
    if model.start >= len(model.items):
        raise ModelError(f"there is no item {model.start}, which is the start")
    for number, item in enumerate(model.items):
        if item.rule is None:
            continue
        if item.rule >= len(model.rules) or any(it >= len(model.items) for it in item.items):
            raise ModelError(f"item {number} names a rule or an item that does not exist")
        if len(item.items) != model.outcomes[model.rules[item.rule].action]:
            raise ModelError(f"item {number} has another number of items than its action has outcomes")


def automaton_steps(model):
    """The number of steps after which an automaton comes from the start to an item of goals if its fair actions show the right
    outcomes, whatever the opponent picks.

    A correct cover may keep the automaton away from items of goals for ever: `item 0 0 0 :` covers each state of the coin. So the
    items are ranked, goals first. An item with a fair action follows one item that it leads into, and one with an unfair action
    follows all of them. An item that the start leads to and that gets no rank is reported.
    """
    check_items(model)
    reached, stack = {model.start}, [model.start]
    while stack:
        for it in model.items[stack.pop()].items:
            if it not in reached:
                reached.add(it)
                stack.append(it)
    before = {it: set() for it in reached}
    for number in reached:
        for it in model.items[number].items:
            before[it].add(number)
    missing = {it: len(set(model.items[it].items)) for it in reached}
    steps = {it: 0 for it in reached if model.items[it].rule is None}
    queue = list(steps)
    for it in queue:
        for number in before[it]:
            missing[number] -= 1
            is_fair = model.are_fair[model.rules[model.items[number].rule].action]
            if number not in steps and (is_fair or not missing[number]):
                steps[number] = steps[it] + 1
                queue.append(number)
    lost = reached - steps.keys()
    if lost:
        raise ModelError(f"the automaton may never come from item {min(lost)} to an item of goals")
    return steps[model.start]


class Expressions:
    """Writes formulas as expressions of a language, with its words. A part that lies too deep becomes a function of its own, and a
    long list of parts is put into groups, since compilers have bounds on both."""

    DEPTH, GROUP = 30, 32

    def __init__(self, words):
        self.words = words
        # The bodies of the functions of parts, each after those that it calls.
        self.functions = []

    def write(self, formula, depth=0):
        """The expression of a formula. It needs no parentheses around it as an operand."""
        words = self.words
        if isinstance(formula, bool):
            return words.constant(formula)
        kind, parts = formula
        if kind == "atom":
            return words.atom(parts)
        if depth >= self.DEPTH:
            self.functions.append(self.write(formula))
            return words.call(len(self.functions) - 1)
        if kind == "not":
            return words.negation(self.write(parts, depth + 1))
        operands = [self.write(part, depth + 1) for part in parts]
        while len(operands) > self.GROUP:
            operands = [words.join(kind, operands[at : at + self.GROUP]) for at in range(0, len(operands), self.GROUP)]
        return words.join(kind, operands)


def head_lines(model, text):
    """The lines of a generated file's head: what it was made from, and the semantics."""
    made = ["Made by tools/controller of dualfond from"]
    made += [f"  {what}: {name}, SHA-256 {digest}" for what, name, digest in model.sources]
    checked = f"The certificate was checked: {model.verdict}."
    if not model.verdict:
        checked = "The certificate was NOT checked, so the rules and items may be wrong."
    return [*made, checked, "", *text.splitlines()]


def printable(text):
    """The text with bytes other than those from space to `~` written as escapes."""
    return "".join(it if " " <= it <= "~" else ascii(it)[1:-1] for it in text)
