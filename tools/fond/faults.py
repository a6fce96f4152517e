"""The faults of docs/FAULTS.md and the warnings of tools/lint: one table for that document and for the messages.

A row of FAULTS has the words of the document's table, and a message for each way in which the fault occurs. The fields of
a message are filled in by the modules lint_text, lint_form, lint_names and lint_ground.
"""
import dataclasses

MOST_BYTES, MOST_OPEN = 16_777_216, 128
MOST_ATOMS, MOST_ACTIONS, MOST_OUTCOMES = 16_384, 131_072, 256
# A name that is longer is cut in a message.
LONGEST_SHOWN = 60


@dataclasses.dataclass(frozen=True)
class Fault:
    """A row: the phase, the fault and its place as docs/FAULTS.md has them, and the messages by their variants."""

    phase: str
    fault: str
    place: str
    messages: dict


@dataclasses.dataclass(frozen=True)
class Finding:
    """A fault or a warning: its file (`domain`, `problem` or `side`), its line and its column in bytes, and what to print."""

    file: str
    line: int
    column: int
    severity: str
    code: str
    name: str
    message: str


FAULTS = {
    "F1": Fault("text", f"the text has more than {MOST_BYTES:,} bytes", "line 1, column 1", {
        "": "the text has {count:,} bytes, more than {limit:,}",
    }),
    "F2": Fault("text", "a byte outside comments is neither a blank nor one of the bytes 33 to 126", "the byte", {
        "": "the byte {byte} may occur only in comments",
        "character": "the character '{name}' may occur only in comments",
        "mark": "the byte order mark may occur only in comments",
    }),
    "F3": Fault("text", "the text ends while a parenthesis is open", "after the last byte", {
        "": "the text ends while the parenthesis at {where} is open",
        "many": "the text ends while {count} parentheses are open; the last of them is at {where}",
    }),
    "F4": Fault(
        "text",
        "a `)` has no matching `(`, or, in a domain or a problem, a leaf or parenthesis follows the first whole tree",
        "that byte", {
            "": "')' has no matching '('",
            "after": "'{name}' follows the first whole tree, which begins at {where}",
        }),
    "F5": Fault("text", f"a parenthesis opens inside {MOST_OPEN} open ones", "the parenthesis", {
        "": "a parenthesis opens inside {limit} open ones; the first of them is at {where}",
    }),
    "F6": Fault("text", "a domain or a problem has no leaf and no parenthesis", "after the last byte", {
        "": "the text of the {owner} is empty",
        "blank": "the text of the {owner} has only blanks and comments",
    }),
    "F7": Fault(
        "form",
        "a tree does not have the form expected at its place (docs/LANGUAGE.md); in a side list, a node without members, a first"
        " member that is no name, or a further member that is neither a name nor a variable",
        "the tree; in a side list, the node without members, or the member", {
            "": "the {kind} '{name}' occurs where {expected} is expected",
            "node": "the node of '{name}' occurs where {expected} is expected",
            "headless": "a node occurs where {expected} is expected",
            "empty": "a node without members occurs where {expected} is expected",
            "count": "the node of '{name}' has {count}; the form is {form}",
            "headless count": "the node has {count}; the form is {form}",
            "value": "the key '{key}' has no value; the form is {form}",
            "before": "'-' has no {expected} before it",
            "after": "'-' has no type after it",
        }),
    "F8": Fault("form", "an unknown section, or an unknown key of an action", "the section's node; the key", {
        "": "a {owner} has no section '{name}'; its sections are {known}",
        "other": "a {owner} has no section '{name}', which is a section of a {other}",
        "key": "an action has no key '{name}'; its keys are {known}",
    }),
    "F9": Fault(
        "form",
        "a section or a key of an action occurs a second time (except `:action`, `:metric`, `:goal-reward` and `:length`)",
        "the second node; the second key", {
            "": "the section '{name}' occurs a second time; the first is at {where}",
            "key": "the key '{name}' occurs a second time; the first is at {where}",
        }),
    "F10": Fault("form", "a problem has no `:domain` or no `:goal`", "the root", {
        "": "the problem has no section '{name}'",
        "both": "the problem has no section ':domain' and no section ':goal'",
    }),
    "F11": Fault(
        "form",
        "the head of a condition, an effect or an initial atom is a reserved word that is no operator there, or an atom has a"
        " node among its terms",
        "the node", {
            "": "'{name}' is no operator of {expected}",
            "node": "the atom of '{name}' has a node among its terms, at {where}",
        }),
    "F12": Fault("form", "`(oneof)` as an effect", "the node", {
        "": "'oneof' has no effects to choose from",
    }),
    "F13": Fault("names", "a type of a constant, an object, a variable or a parameter is not declared", "the type", {
        "": "no type '{name}' is declared",
    }),
    "F14": Fault(
        "names",
        "a type other than `object` is its own ancestor; or `object` is declared with another parent than `object`",
        "the first declaration of the type; that of `object`", {
            "": "the type '{name}' is its own ancestor: {cycle}",
            "object": "'object' is declared with the parent '{parent}', but it is the root of all types",
        }),
    "F15": Fault("names", "the predicate of an atom is not declared", "the head", {
        "": "no predicate '{name}' is declared",
    }),
    "F16": Fault(
        "names",
        "an atom has another number of terms than its predicate has parameters, or a pattern than its schema",
        "the atom; the pattern", {
            "": "the atom of '{name}' has {count}, but the predicate is declared at {where} with {declared}",
            "pattern": "the pattern of '{name}' has {count}, but the schema is declared at {where} with {declared}",
        }),
    "F17": Fault("names", "an argument does not fit the parameter at its position", "the argument", {
        "": "'{name}' has the type {given}, but parameter {number} of '{predicate}', declared at {where}, has the type {declared}",
    }),
    "F18": Fault(
        "names",
        "a name among the terms of an atom, of `=` or of a pattern is not an object; a variable in an atom or in `=` is declared"
        " by no list around it",
        "the term", {
            "": "no object '{name}' is declared",
            "variable": "no list around it declares the variable '{name}'",
        }),
    "F19": Fault(
        "names",
        "a type is declared again with another parent, a constant or an object with another type, or a predicate with other types"
        " of parameters; a schema has the name of an earlier one; a variable occurs twice in one list",
        "the later name", {
            "type": "the type '{name}' is declared again with the parent {given}; its parent at {where} is {declared}",
            "object": "'{name}' is declared again with the type {given}; its type at {where} is {declared}",
            "predicate": "the predicate '{name}' is declared again with {given}; at {where} it has {declared}",
            "schema": "a schema '{name}' is already declared, at {where}",
            "variable": "the variable '{name}' already occurs in this list, at {where}",
        }),
    "F20": Fault(
        "names",
        "a leaf of the side list outside parentheses, or the first member of a pattern, is not the name of a schema",
        "the leaf", {
            "": "no schema '{name}' is declared",
        }),
    "F21": Fault("size", f"the task has more than {MOST_ATOMS:,} fluent atoms", "the root of the domain", {
        "": "the task has {count} fluent atoms, more than {limit:,}: {parts}",
    }),
    "F22": Fault("size", f"the task keeps more than {MOST_ACTIONS:,} ground actions", "the root of the domain", {
        "": "the task keeps more than {limit:,} ground actions: {parts}",
    }),
    "F23": Fault("size", f"a schema with a kept ground action has more than {MOST_OUTCOMES} outcomes", "the name of the schema", {
        "": "the schema '{name}' has {count} outcomes, more than {limit}",
    }),
}

WARNINGS = {
    "pattern": "the pattern of '{name}' fits no kept action{why}",
    "schema": "the schema '{name}' has no kept action{why}",
    "predicate": "no condition and no effect mentions the predicate '{name}'",
    "domain": "the problem is for the domain '{name}', but the domain at {where} has the name '{declared}'",
    "section": "the section '{name}' is passed over",
    "again": "'{name}' is declared again; the first declaration is at {where}",
    "parameter": "nothing uses the parameter '{name}' of '{schema}'",
}


def shown(name):
    """A name as a message has it: cut if it is long."""
    return name if len(name) <= LONGEST_SHOWN else name[:LONGEST_SHOWN] + ".."


def number_of(count, noun):
    """A count with its noun: `no terms`, `1 term`, `2 terms`."""
    return f"{count or 'no'} {noun}" + ("" if count == 1 else "s")


def fault(file, place, code, name="", variant="", **fields):
    """The finding of a fault at a place, which is a pair of a line and a column, with one of the messages of its row."""
    return Finding(file, *place, "error", code, name, FAULTS[code].messages[variant].format(name=shown(name), **fields))


def unexplained(file, place, code):
    """The finding of a fault of which nothing more is known than its row."""
    known = FAULTS.get(code)
    return Finding(file, *place, "error", code, "", known.fault if known else "a fault that docs/FAULTS.md does not have")


def warning(file, leaf, code, name=None, **fields):
    """The finding of a warning at a leaf or a node."""
    name = leaf.text if name is None else name
    return Finding(file, leaf.line, leaf.column, "warning", code, name, WARNINGS[code].format(name=shown(name), **fields))


def table():
    """The lines of the table of docs/FAULTS.md."""
    rows = [f"| {code} | {row.phase} | {row.fault} | {row.place} |" for code, row in FAULTS.items()]
    return ["| Code | Phase | Fault | Place |", "|---|---|---|---|", *rows]
