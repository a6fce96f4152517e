"""Judges policies and what `explain`, `graph` and `duel` print by the definitions, for the tests: a plain reading of docs/EXPLAIN.md and
docs/COMMANDS.md over states as sets of atoms, which shares nothing with the program."""
import dataclasses
import json
import re

STATE = "state"


class JudgeError(AssertionError):
    """A text of `explain` that the definitions do not allow."""


@dataclasses.dataclass
class Reached:
    """The states that a policy reaches, and for each that is no goal its action and next states by outcome, or None where it is stuck."""

    states: list
    moves: dict


class Judge:
    """Judges the policy of a table, a list of pairs of literals (truth value, atom) and an action, in a task. `is_unfair` tells of an
    action whether the opponent picks its outcome."""

    def __init__(self, task, is_unfair, rows):
        self.task, self.is_unfair, self.rows = task, is_unfair, rows

    def choice(self, state):
        for literals, action in self.rows:
            if all((atom in state) == is_true for is_true, atom in literals):
                return action if self.task.applicable(state, action) else None
        return None

    def reach(self, limit):
        """What is reached, or None if that is more states than the limit."""
        states, moves, at = [self.task.initial], {}, 0
        known = set(states)
        while at < len(states):
            state = states[at]
            at += 1
            if self.task.goal(state):
                continue
            action = self.choice(state)
            moves[state] = None
            if action is not None:
                nexts = [self.task.next_state(state, action, k) for k in range(len(self.task.outcomes(action)))]
                moves[state] = (action, nexts)
                for after in nexts:
                    if after not in known:
                        known.add(after)
                        states.append(after)
            if len(states) > limit:
                return None
        return Reached(states, moves)

    def ranks(self, reached):
        """The least ranking, by rounds; a state of a trap has none."""
        ranks, bound = {}, 0
        while True:
            bound += 1

            def is_nearer(state):
                return state not in reached.moves or ranks.get(state, bound) < bound

            new = [
                state
                for state, move in reached.moves.items()
                if state not in ranks and move and (all if self.is_unfair(move[0]) else any)(map(is_nearer, move[1]))
            ]
            if not new:
                return ranks
            ranks.update(dict.fromkeys(new, bound))

    def verdict(self, limit):
        """The first word of the text: `solution`, `stuck`, `lasso` or `undecided`."""
        reached = self.reach(limit)
        if reached is None:
            return "undecided"
        if None in reached.moves.values():
            return "stuck"
        return "solution" if len(self.ranks(reached)) == len(reached.moves) else "lasso"

    def check(self, status, text, limit):
        """Checks a text of `explain` and its status against the definitions."""
        kind = self.verdict(limit)
        expect(text.endswith("\n"), "the text ends with a line feed")
        lines = text[:-1].split("\n")
        expect(status == {"solution": 0, "undecided": 2}.get(kind, 10), f"status {status} for {kind}")
        if kind == "undecided":
            expect(lines == [f"undecided {limit}"], "the line of undecided")
            return kind
        expect(lines[0] == kind, f"{lines[0]} for {kind}")
        reached = self.reach(limit)
        if kind == "solution":
            self.check_ranks(lines[1:], reached)
        else:
            self.check_run(kind, lines[1:], reached)
        return kind

    def check_ranks(self, lines, reached):
        ranks, told = self.ranks(reached), {}
        while lines:
            found = re.fullmatch("rank ([1-9][0-9]*)", lines[0])
            expect(found, f"{lines[0]!r} is no rank")
            state, lines = self.take_state(lines[1:])
            expect(state not in told, "a state is told once")
            told[state] = int(found[1])
        expect(told == ranks, "the ranks are the least")

    def take_state(self, lines):
        """The state with which lines begin, and the other lines."""
        expect(lines and lines[0] == STATE, "a state begins with its line")
        end = 1
        while end < len(lines) and lines[end].startswith("("):
            end += 1
        state = frozenset(lines[1:end])
        expect(self.task.printed(state) == lines[:end], "a state is printed as succ prints it")
        return state, lines[end:]

    def check_run(self, kind, lines, reached):
        states = []
        while lines and lines[0] == STATE:
            state, lines = self.take_state(lines)
            states.append(state)
        expect(len(set(states)) == len(states), "each state is told once")
        words = ["stem"] if kind == "stuck" else ["stem", "cycle"]
        expect([line.partition(" ")[0] for line in lines] == words, f"the lines after the states are those of {words}")
        walks = [[int(number) for number in line.split(" ")[1:]] for line in lines]
        used = list(dict.fromkeys(number for walk in walks for number in walk))
        expect(used == list(range(len(states))), "numbers are first used in rising order, and all are used")
        stem = [states[number] for number in walks[0]]
        expect(stem and stem[0] == self.task.initial, "the stem starts in the initial state")
        self.check_walk(stem, reached)
        if kind == "stuck":
            expect(reached.moves.get(stem[-1], "goal") is None, "the stem ends where the policy is stuck")
        else:
            self.check_cycle([states[number] for number in walks[1]], stem[-1], reached)

    def check_walk(self, walk, reached):
        for state, after in zip(walk, walk[1:]):
            expect(reached.moves.get(state), "a walk leaves no goal, and no state where the policy is stuck")
            expect(after in reached.moves[state][1], "a walk takes outcomes of the chosen action")

    def check_cycle(self, cycle, knot, reached):
        expect(len(cycle) > 1 and cycle[0] == knot and cycle[-1] == knot, "the cycle begins and ends with the last state of the stem")
        self.check_walk(cycle, reached)
        steps = set(zip(cycle, cycle[1:]))
        for state in cycle:
            action, nexts = reached.moves[state]
            if not self.is_unfair(action):
                expect(all((state, after) in steps for after in nexts), "each outcome of a fair choice follows it in the cycle")


class Rules:
    """The rules of a certificate in a task, as `graph` and `duel` follow them."""

    def __init__(self, task, is_unfair, rules):
        self.task, self.is_unfair, self.rules = task, is_unfair, rules

    def first(self, state):
        """The number of the first rule that holds."""
        for number, rule in enumerate(self.rules):
            if all((literal.atom in state) == literal.is_true for literal in rule.literals):
                return number
        return None

    def step(self, state):
        """The number of the rule that is followed, and the next states by outcome, or None at a goal and where the rules are stuck."""
        number = None if self.task.goal(state) else self.first(state)
        if number is None or not self.task.applicable(state, self.rules[number].action):
            return None
        action = self.rules[number].action
        return number, [self.task.next_state(state, action, outcome) for outcome in range(len(self.task.outcomes(action)))]

    def graph(self, limit):
        """What `graph` answers: its status and its text."""
        states, edges, at = {self.task.initial: 0}, [], 0
        order, numbers = [self.task.initial], []
        while at < len(order):
            step = self.step(order[at])
            numbers.append(step and step[0])
            for outcome, after in enumerate(step[1] if step else []):
                if after not in states:
                    states[after] = len(order)
                    order.append(after)
                edges.append({"from": at, "outcome": outcome, "to": states[after]})
            if len(order) > limit:
                return 2, f"undecided {limit}\n"
            at += 1
        nodes = [
            {"atoms": self.task.printed(state)[1:], "goal": self.task.goal(state), "rule": number} for state, number in zip(order, numbers)
        ]
        return 0, json.dumps({"edges": edges, "nodes": nodes}, separators=(",", ":"), ensure_ascii=False) + "\n"

    def weight(self, state):
        if self.task.goal(state):
            return 0
        number = self.first(state)
        return 2**32 if number is None else number + 1

    def pick(self, number, nexts):
        rule = self.rules[number]
        if self.is_unfair(rule.action):
            weights = [self.weight(after) for after in nexts]
            return weights.index(max(weights))
        return rule.outcome if rule.is_fair and rule.outcome < len(nexts) else 0

    def duel(self, steps):
        """What `duel` answers: its status and its text."""
        state, lines, left = self.task.initial, [], steps
        step = self.step(state)
        while step and left:
            outcome = self.pick(*step)
            lines.append(f"rule {step[0]} {self.rules[step[0]].action} outcome {outcome}")
            state, left = step[1][outcome], left - 1
            step = self.step(state)
        is_goal = self.task.goal(state)
        lines.append(f"goal left {left}" if is_goal else "stuck" if left else "ended")
        return (0 if is_goal else 8), "".join(line + "\n" for line in lines + self.task.printed(state))


def expect(is_so, what):
    if not is_so:
        raise JudgeError(what)


def read_table(text):
    """The rows of the text of a table."""
    lines = text.split("\n")
    expect(lines[0] == "table 1" and lines[-2:] == ["end", ""], "the text of a table")
    rows = []
    for line in lines[1:-2]:
        action, literals = re.fullmatch(r"do (\(.*?\)) :(.*)", line).groups()
        rows.append(([(sign == "+", atom) for sign, atom in re.findall(r" ([+-])(\([^()]*\))", literals)], action))
    return rows


def unfairness(side):
    """A test of actions by the bytes of a side list: names, and patterns whose variables take any object, one variable one."""
    words = re.findall(r"\([^()]*\)|[^\s()]+", re.sub(r";[^\n]*", "", side.decode("latin-1")).lower())

    def fits(pattern, action):
        if not pattern.startswith("("):
            return action[1:-1].split(" ")[0] == pattern
        wanted, given, bound = pattern[1:-1].split(), action[1:-1].split(" "), {}
        return len(wanted) == len(given) and all(
            bound.setdefault(want, word) == word if want.startswith("?") else want == word for want, word in zip(wanted, given)
        )

    return lambda action: any(fits(word, action) for word in words)
