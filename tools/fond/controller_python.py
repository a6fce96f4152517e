"""Writes a controller as a Python module, which needs Python 3.8 and imports nothing."""
from fond.controller_model import AUTOMATON, SEMANTICS, Expressions, head_lines, printable


class PythonWords:
    """The words of Python for formulas over the set `state` of true atoms."""

    @staticmethod
    def constant(value):
        return str(value)

    @staticmethod
    def atom(atom):
        return f"{atom!r} in state"

    @staticmethod
    def negation(operand):
        return f"not ({operand})"

    @staticmethod
    def join(kind, operands):
        return "(" + f" {kind} ".join(operands) + ")"

    @staticmethod
    def call(number):
        return f"_part_{number}(state)"


STATE_CLASS = '''

class Controller:
    """A controller in the initial state of the task. `state` is the set of the atoms that are true."""

    def __init__(self):
        self.state = {ATOMS[number] for number in INITIAL}
        self.rule = None

    def set(self, atom, value):
        """Makes an atom true or false."""
        if atom not in _KNOWN:
            raise ValueError("the task does not have the atom " + atom)
        if value:
            self.state.add(atom)
        else:
            self.state.discard(atom)

    def step(self):
        """The action in this state, or GOAL, or STUCK. Then `rule` is the number of the first rule that holds; it is None in a goal
        and if no rule holds. It is a number beside STUCK if the action of that rule is not applicable."""
        self.rule = None
        if _is_goal(self.state):
            return GOAL
        for number, (action, atoms, absent) in enumerate(RULES):
            if self.state.issuperset(atoms) and self.state.isdisjoint(absent):
                self.rule = number
                return ACTIONS[action] if _APPLICABLE[action](self.state) else STUCK
        return STUCK
'''

AUTOMATON_CLASS = '''

class Automaton:
    """An automaton in its start item. `item` is the number of the current item."""

    def __init__(self):
        self.item = START

    @property
    def rule(self):
        """The number of the current item's rule, or None for an item of goals."""
        return ITEMS[self.item][0]

    def action(self):
        """The action of the current item, or GOAL."""
        return GOAL if self.rule is None else ACTIONS[RULE_ACTIONS[self.rule]]

    def advance(self, outcome):
        """Goes on to the item to which this outcome of the action leads."""
        following = ITEMS[self.item][1]
        if not 0 <= outcome < len(following):
            raise ValueError("the action has no outcome " + str(outcome))
        self.item = following[outcome]
'''


def head(model, text):
    return "".join(f"# {printable(line)}".rstrip() + "\n" for line in head_lines(model, text))


def listed(name, values):
    """A tuple of this name, with one value on each line."""
    return f"{name} = (\n" + "".join(f"    {value},\n" for value in values) + ")\n"


def rule_value(model, rule):
    atoms = tuple(model.atoms[atom] for atom, is_true in rule.literals if is_true)
    absent = tuple(model.atoms[atom] for atom, is_true in rule.literals if not is_true)
    return repr((rule.action, atoms, absent))


def state_text(model):
    """The module of a controller that looks at states."""
    expressions = Expressions(PythonWords)
    goal = expressions.write(model.goal)
    preconditions = [expressions.write(formula) for formula in model.preconditions]
    lines = [head(model, SEMANTICS), 'GOAL, STUCK = "goal", "stuck"\n']
    lines.append(listed("ATOMS", map(repr, model.atoms)))
    lines.append(listed("ACTIONS", map(repr, model.actions)))
    lines.append("# The atoms that are true in the initial state, by their places in ATOMS.\n")
    lines.append(f"INITIAL = {tuple(model.initial)!r}\n")
    lines.append("# Each rule: its action's place in ACTIONS, the atoms that it needs true, and those that it needs false.\n")
    lines.append(listed("RULES", (rule_value(model, rule) for rule in model.rules)))
    lines.append("_KNOWN = frozenset(ATOMS)\n")
    for number, body in enumerate(expressions.functions):
        lines.append(f"\n\ndef _part_{number}(state):\n    return {body}\n")
    lines.append(f"\n\ndef _is_goal(state):\n    return {goal}\n")
    lines.append("\n\n# The precondition of each action.\n")
    lines.append(listed("_APPLICABLE", (f"lambda state: {formula}" for formula in preconditions)))
    return "".join(lines) + STATE_CLASS


def automaton_text(model, steps):
    """The module of an automaton."""
    lines = [head(model, AUTOMATON.format(steps=steps)), 'GOAL = "goal"\n']
    lines.append(listed("ACTIONS", map(repr, model.actions)))
    lines.append("# The place in ACTIONS of each rule's action.\n")
    lines.append(f"RULE_ACTIONS = {tuple(rule.action for rule in model.rules)!r}\n")
    lines.append("# Each item: its rule, and the item to which each outcome leads. An item of goals has None and no items.\n")
    lines.append(listed("ITEMS", (repr((item.rule, item.items)) for item in model.items)))
    lines.append(f"START = {model.start}\n")
    return "".join(lines) + AUTOMATON_CLASS
