"""Writes a controller as JSON. docs/controller.schema.json is the schema of the text."""
import json

from fond.controller_model import SEMANTICS


def formula_value(formula):
    """True, False, the text of an atom, or an object with one of the keys `not`, `and` and `or`."""
    if isinstance(formula, bool):
        return formula
    kind, parts = formula
    if kind == "atom":
        return parts
    return {kind: formula_value(parts) if kind == "not" else [formula_value(part) for part in parts]}


def item_value(item):
    condition = {literal.atom: literal.is_true for literal in item.literals}
    if item.rule is None:
        return {"goal": True, "condition": condition}
    return {"rule": item.rule, "next": list(item.items), "condition": condition}


def json_text(model, steps=None):
    """The text of a controller. `steps` are those of its automaton, if they were asked for."""
    actions = zip(model.actions, model.are_fair, model.outcomes, model.preconditions)
    value = {
        "format": "dualfond controller 1",
        "sources": [{"what": what, "name": name, "sha256": digest} for what, name, digest in model.sources],
        "verdict": model.verdict,
        "semantics": SEMANTICS,
        "atoms": list(model.atoms),
        "initial": [model.atoms[number] for number in model.initial],
        "goal": formula_value(model.goal),
        "actions": [
            {"action": action, "fair": is_fair, "outcomes": count, "precondition": formula_value(precondition)}
            for action, is_fair, count, precondition in actions
        ],
        "rules": [
            {"action": model.actions[rule.action], "condition": {model.atoms[atom]: is_true for atom, is_true in rule.literals}}
            for rule in model.rules
        ],
    }
    if model.start is not None:
        value["automaton"] = {"start": model.start, "items": [item_value(item) for item in model.items]}
        if steps is not None:
            value["automaton"]["steps"] = steps
    return json.dumps(value, indent=1) + "\n"
