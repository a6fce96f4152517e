"""Writes a controller as one file of C99, which allocates nothing and needs <stdbool.h> and <stdint.h> alone."""
from fond.controller_model import AUTOMATON, SEMANTICS, Expressions, head_lines, printable

STATE_INTERFACE = """
/* A state: a bit for each atom. It has no other parts, so it may be copied. */
typedef struct {
    uint32_t words[@WORDS@];
} @name@_state;

extern const char *const @name@_atom_names[@ATOM_ROOM@];
extern const char *const @name@_action_names[@ACTION_ROOM@];

/* Makes a state the initial state of the task. */
void @name@_initial(@name@_state *state);

/* Makes all atoms of a state false. */
void @name@_clear(@name@_state *state);

/* Makes an atom true or false. A number that is no atom changes nothing. */
void @name@_set(@name@_state *state, int32_t atom, bool value);

/* Tells whether an atom is true. A number that is no atom is false. */
bool @name@_get(const @name@_state *state, int32_t atom);

bool @name@_is_goal(const @name@_state *state);
bool @name@_is_applicable(const @name@_state *state, int32_t action);

/* Returns the action in this state, or @NAME@_GOAL, or @NAME@_STUCK. If `rule` is not a null pointer, it is set
   to the first rule that holds, or to -1 in a goal and if no rule holds. So a rule beside @NAME@_STUCK is one whose
   action is not applicable. */
int32_t @name@_step(const @name@_state *state, int32_t *rule);
"""

STATE_BODY = """
void @name@_clear(@name@_state *state)
{
    int32_t word;
    for (word = 0; word < @WORDS@; word++)
        state->words[word] = 0;
}

void @name@_set(@name@_state *state, int32_t atom, bool value)
{
    uint32_t bit;
    if (atom < 0 || atom >= @NAME@_ATOMS)
        return;
    bit = (uint32_t)1 << (atom % 32);
    if (value)
        state->words[atom / 32] |= bit;
    else
        state->words[atom / 32] &= ~bit;
}

bool @name@_get(const @name@_state *state, int32_t atom)
{
    if (atom < 0 || atom >= @NAME@_ATOMS)
        return false;
    return ((state->words[atom / 32] >> (atom % 32)) & 1) != 0;
}
"""

STATE_STEP = """
static bool @name@_rule_holds(const @name@_state *state, int32_t rule)
{
    uint32_t at;
    for (at = @name@_starts[rule]; at < @name@_starts[rule + 1]; at++)
        if (@name@_get(state, @name@_literals[at] / 2) != (@name@_literals[at] % 2 != 0))
            return false;
    return true;
}

int32_t @name@_step(const @name@_state *state, int32_t *rule)
{
    int32_t first;
    if (rule)
        *rule = -1;
    if (@name@_is_goal(state))
        return @NAME@_GOAL;
    for (first = 0; first < @NAME@_RULES; first++)
        if (@name@_rule_holds(state, first)) {
            if (rule)
                *rule = first;
            return @name@_is_applicable(state, @name@_rule_actions[first]) ? @name@_rule_actions[first] : @NAME@_STUCK;
        }
    return @NAME@_STUCK;
}
"""

AUTOMATON_INTERFACE = """
extern const char *const @name@_action_names[@ACTION_ROOM@];

/* Returns the action of an item, or @NAME@_GOAL for an item of goals, or @NAME@_NONE for a number that is no item. */
int32_t @name@_action(int32_t item);

/* Returns the rule of an item, or -1. */
int32_t @name@_rule(int32_t item);

/* Returns the item to which an outcome of an item's action leads, or @NAME@_NONE if the action has no such outcome. */
int32_t @name@_next(int32_t item, int32_t outcome);
"""

AUTOMATON_BODY = """
int32_t @name@_rule(int32_t item)
{
    return item < 0 || item >= @NAME@_ITEMS ? -1 : @name@_rules[item];
}

int32_t @name@_action(int32_t item)
{
    if (item < 0 || item >= @NAME@_ITEMS)
        return @NAME@_NONE;
    return @name@_rules[item] < 0 ? @NAME@_GOAL : @name@_rule_actions[@name@_rules[item]];
}

int32_t @name@_next(int32_t item, int32_t outcome)
{
    if (item < 0 || item >= @NAME@_ITEMS || outcome < 0 || outcome >= @name@_starts[item + 1] - @name@_starts[item])
        return @NAME@_NONE;
    return @name@_following[@name@_starts[item] + outcome];
}
"""


def quoted(text):
    """A string of C. Question marks are escaped, since two of them may start a trigraph."""
    return '"' + "".join("\\" + it if it in '"\\?' else it for it in text) + '"'


def comment(text):
    """The text as it may occur in a comment of C."""
    return printable(text).replace("/*", "/ *").replace("*/", "* /").replace("??", "? ?")


def enumerators(prefix, texts):
    """An enumerator for each text: the prefix and the text's letters and digits. Equal ones are told apart by a number."""
    used, found = set(), []
    for text in texts:
        plain = prefix + "".join(it.upper() if it.isalnum() else "_" for it in text[1:-1])
        name, count = plain, 1
        while name in used:
            count += 1
            name = f"{plain}_{count}"
        used.add(name)
        found.append(name)
    return found


def enumeration(tag, names, texts, last):
    """An enumeration from 0 whose last enumerator is the count of the others."""
    rows = [f"    {name} = {number}, /* {comment(text)} */\n" for number, (name, text) in enumerate(zip(names, texts))]
    return f"\nenum {tag} {{\n" + "".join(rows) + f"    {last} = {len(names)}\n}};\n"


def table(declaration, rows):
    """A table with one row on each line. A table without rows has a 0, since C has no empty arrays."""
    return f"\n{declaration} = {{\n" + "".join(f"    {row}\n" for row in rows or ["0"]) + "};\n"


def names_table(prefix, what, texts):
    return table(f"const char *const {prefix}_{what}_names[{max(1, len(texts))}]", [quoted(text) + "," for text in texts])


class CWords:
    """The words of C for formulas over `state`."""

    def __init__(self, name, atoms, names):
        self.name = name
        self.enumerator_of = dict(zip(atoms, names))

    @staticmethod
    def constant(value):
        return "true" if value else "false"

    def atom(self, atom):
        return f"{self.name}_get(state, {self.enumerator_of[atom]})"

    @staticmethod
    def negation(operand):
        return f"!{operand}"

    @staticmethod
    def join(kind, operands):
        return "(" + (" && " if kind == "and" else " || ").join(operands) + ")"

    def call(self, number):
        return f"{self.name}_part_{number}(state)"


def head(model, text):
    return "/* " + "\n".join(f"   {comment(line)}".rstrip() for line in head_lines(model, text))[3:] + "\n*/\n"


def whole_file(name, top, interface, body):
    """The file: an interface that may be included many times, and a body that a definition leaves out."""
    upper = name.upper()
    return (
        top
        + f"\n/* Compile this file once. Where else its interface is needed, define {upper}_INTERFACE_ONLY and include it. */\n"
        + f"#ifndef {upper}_INTERFACE\n#define {upper}_INTERFACE\n\n#include <stdbool.h>\n#include <stdint.h>\n"
        + interface
        + f"\n#endif\n\n#ifndef {upper}_INTERFACE_ONLY\n"
        + body
        + "\n#endif\n"
    )


def filled(text, name, model):
    """A text with the names and sizes of the model put in."""
    sizes = {"WORDS": (len(model.atoms) + 31) // 32, "ATOM_ROOM": len(model.atoms), "ACTION_ROOM": len(model.actions)}
    for key, size in sizes.items():
        text = text.replace(f"@{key}@", str(max(1, size)))
    return text.replace("@name@", name).replace("@NAME@", name.upper())


def rule_tables(model, name):
    """The rules: the literals of all of them, where those of each start, and the action of each."""
    literals, starts, count = [], [], 0
    for number, rule in enumerate(model.rules):
        starts.append(f"{count},")
        count += len(rule.literals)
        row = " ".join(f"{2 * atom + is_true}," for atom, is_true in rule.literals)
        literals.append(f"{row} /* rule {number}: {comment(rule.text)} */".lstrip())
    literals = literals if count else []
    return (
        "\n/* The literals of the rules, rule by rule: twice the number of an atom, plus one if the atom has to be true. */"
        + table(f"static const uint16_t {name}_literals[{max(1, count)}]", literals)
        + table(f"static const uint32_t {name}_starts[{len(starts) + 1}]", [*starts, str(count)])
        + rule_action_table(model, name)
    )


def rule_action_table(model, name):
    rows = [f"{rule.action}, /* {comment(model.actions[rule.action])} */" for rule in model.rules]
    return table(f"static const int32_t {name}_rule_actions[{max(1, len(rows))}]", rows)


def test_functions(model, name, atom_names, action_names):
    """The functions that tell goals and applicable actions."""
    expressions = Expressions(CWords(name, model.atoms, atom_names))
    goal = expressions.write(model.goal)
    cases = [
        f"    case {action}:\n        return {expressions.write(formula)};\n"
        for action, formula in zip(action_names, model.preconditions)
    ]
    parts = [
        f"\nstatic bool {name}_part_{number}(const {name}_state *state)\n{{\n    return {body};\n}}\n"
        for number, body in enumerate(expressions.functions)
    ]
    return "".join(parts) + (
        f"\nbool {name}_is_goal(const {name}_state *state)\n{{\n    (void)state;\n    return {goal};\n}}\n"
        f"\nbool {name}_is_applicable(const {name}_state *state, int32_t action)\n{{\n    (void)state;\n    switch (action) {{\n"
        + "".join(cases)
        + "    default:\n        return false;\n    }\n}\n"
    )


def state_text(model, name):
    """The file of a controller that looks at states."""
    upper = name.upper()
    atom_names = enumerators(f"{upper}_ATOM_", model.atoms)
    action_names = enumerators(f"{upper}_ACTION_", model.actions)
    interface = (
        f"\nenum {{ {upper}_GOAL = -1, {upper}_STUCK = -2, {upper}_RULES = {len(model.rules)} }};\n"
        + enumeration(f"{name}_atom", atom_names, model.atoms, f"{upper}_ATOMS")
        + enumeration(f"{name}_action", action_names, model.actions, f"{upper}_ACTIONS")
        + filled(STATE_INTERFACE, name, model)
    )
    sets = "".join(f"    {name}_set(state, {atom_names[number]}, true);\n" for number in model.initial)
    initial = f"\nvoid {name}_initial({name}_state *state)\n{{\n    {name}_clear(state);\n{sets}}}\n"
    body = (
        names_table(name, "atom", model.atoms)
        + names_table(name, "action", model.actions)
        + rule_tables(model, name)
        + filled(STATE_BODY, name, model)
        + initial
        + test_functions(model, name, atom_names, action_names)
        + filled(STATE_STEP, name, model)
    )
    return whole_file(name, head(model, SEMANTICS), interface, body)


def automaton_text(model, steps, name):
    """The file of an automaton."""
    upper = name.upper()
    action_names = enumerators(f"{upper}_ACTION_", model.actions)
    interface = (
        f"\nenum {{ {upper}_GOAL = -1, {upper}_NONE = -2 }};\n"
        f"enum {{ {upper}_START = {model.start}, {upper}_ITEMS = {len(model.items)} }};\n"
        + enumeration(f"{name}_action", action_names, model.actions, f"{upper}_ACTIONS")
        + filled(AUTOMATON_INTERFACE, name, model)
    )
    starts, count = [], 0
    for item in model.items:
        starts.append(f"{count},")
        count += len(item.items)
    rules = [f"{-1 if item.rule is None else item.rule}," for item in model.items]
    following = [f"{', '.join(map(str, item.items))}, /* item {number} */" for number, item in enumerate(model.items) if item.items]
    body = (
        names_table(name, "action", model.actions)
        + rule_action_table(model, name)
        + "\n/* The rule of each item, or -1 for an item of goals. */"
        + table(f"static const int32_t {name}_rules[{len(rules)}]", rules)
        + "\n/* The items to which the outcomes of each item lead, item by item. */"
        + table(f"static const int32_t {name}_following[{max(1, count)}]", following)
        + table(f"static const int32_t {name}_starts[{len(starts) + 1}]", [*starts, str(count)])
        + filled(AUTOMATON_BODY, name, model)
    )
    return whole_file(name, head(model, AUTOMATON.format(steps=steps)), interface, body)
