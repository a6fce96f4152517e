"""Explains the faults of names, F13 to F20: what is declared of the name at a place, and what is not."""
from fond import faults, lint_model
from fond.faults import number_of, shown
from fond.lint_files import place_of
from fond.lint_model import ROOT, first_of, parent_of
from fond.tree import Leaf


def types_text(types):
    """Types as a message has them."""
    quoted = [f"'{shown(name)}'" for name in types]
    return quoted[0] if len(quoted) == 1 else f"(either {' '.join(shown(name) for name in types)})"


def parameters_text(parameters):
    """The number of some parameters with their types."""
    types = ", ".join(types_text(it.type_names) for it in parameters)
    return number_of(len(parameters), "parameter") + (f" of type {types}" if parameters else "")


def occurrences_in(model, file):
    if file == "problem":
        return lint_model.problem_occurrences(model)
    return (it for schema in model.schemas for it in lint_model.schema_occurrences(schema))


def leaf_at(trees, place):
    """The leaf at a place among trees, or None."""
    return next((tree for tree in trees if isinstance(tree, Leaf) and place_of(tree) == place), None)


def explain_type(file, place, model):
    """F13: the type at the place."""
    for names in lint_model.declared_lists(model, file):
        for declared in names:
            leaf = leaf_at(declared.types, place)
            if leaf:
                return faults.fault(file, place, "F13", leaf.text)
    return None


def explain_cycle(file, place, model):
    """F14: the way from the type at the place through its ancestors back to itself, or another parent of `object`."""
    declared = next((it for it in model.types if place_of(it.leaf) == place), None)
    if declared is None:
        return None
    name = declared.name
    if name == ROOT:
        return faults.fault(file, place, "F14", name, "object", parent=shown(declared.type_names[0]))
    way = [name, parent_of(model.types, name)]
    while way[-1] != name and len(way) <= len(model.types) + 1:
        way.append(parent_of(model.types, way[-1]))
    shortened = way if len(way) <= 10 else [*way[:8], "..", way[-1]]
    return faults.fault(file, place, "F14", name, cycle=" - ".join(shown(it) for it in shortened))


def explain_predicate(file, place, model):
    """F15: the head of an atom."""
    for it in occurrences_in(model, file):
        if place_of(it.node.members[0]) == place:
            return faults.fault(file, place, "F15", it.node.head)
    return None


def explain_arity(files, file, place, model):
    """F16: an atom or a pattern with its terms, and the declaration with its parameters."""
    nodes = model.patterns if file == "side" else [it.node for it in occurrences_in(model, file)]
    node = next((node for node in nodes if place_of(node) == place), None)
    declared = node and first_of(model.schemas if file == "side" else model.predicates, node.head)
    if not declared:
        return None
    fields = {
        "count": number_of(len(node.members) - 1, "term"),
        "declared": number_of(len(declared.parameters), "parameter"),
        "where": files.where("domain", place_of(declared.leaf), file),
    }
    return faults.fault(file, place, "F16", node.head, "pattern" if file == "side" else "", **fields)


def declaration_of(model, scope, leaf):
    """The declaration of a term: that of a variable in the innermost list that has it, or of an object."""
    if not leaf.is_variable:
        return first_of(model.all_objects, leaf.text)
    return first_of([it for names in scope for it in names], leaf.text)


def explain_mismatch(files, file, place, model):
    """F17: an argument with its types, and the parameter at its position with its own."""
    for it in occurrences_in(model, file):
        leaf = leaf_at(it.terms, place)
        if leaf:
            predicate, given = first_of(model.predicates, it.node.head), declaration_of(model, it.scope, leaf)
            number = it.terms.index(leaf)
            fields = {
                "given": types_text(given.type_names),
                "number": number + 1,
                "predicate": shown(predicate.name),
                "where": files.where("domain", place_of(predicate.leaf), file),
                "declared": types_text(predicate.parameters[number].type_names),
            }
            return faults.fault(file, place, "F17", leaf.text, **fields)
    return None


def explain_term(file, place, model):
    """F18: a term of an atom, of `=` or of a pattern."""
    lists = (node.members[1:] for node in model.patterns) if file == "side" else (it.terms for it in occurrences_in(model, file))
    leaf = next(filter(None, (leaf_at(terms, place) for terms in lists)), None)
    return leaf and faults.fault(file, place, "F18", leaf.text, "variable" if leaf.is_variable else "")


def explain_type_again(files, file, place, model):
    """F19: a type with two parents."""
    declared = next((it for it in model.types if place_of(it.leaf) == place), None)
    if declared is None:
        return None
    first = next(it for it in model.types if it.name == declared.name and (it.name != ROOT or it.types))
    fields = {
        "given": types_text(declared.type_names),
        "declared": types_text(first.type_names),
        "where": files.where(file, place_of(first.leaf), file),
    }
    return faults.fault(file, place, "F19", declared.name, "type", **fields)


def explain_object_again(files, file, place, model):
    """F19: a constant or an object with two types."""
    declared = next((it for it in (model.objects if file == "problem" else model.constants) if place_of(it.leaf) == place), None)
    if declared is None:
        return None
    first = first_of(model.all_objects, declared.name)
    fields = {
        "given": types_text(declared.type_names),
        "declared": types_text(first.type_names),
        "where": files.where("domain" if first in model.constants else "problem", place_of(first.leaf), file),
    }
    return faults.fault(file, place, "F19", declared.name, "object", **fields)


def explain_predicate_again(files, file, place, model):
    """F19: a predicate with other types of parameters."""
    declared = next((it for it in model.predicates if place_of(it.leaf) == place), None)
    if declared is None:
        return None
    first = first_of(model.predicates, declared.name)
    fields = {
        "given": parameters_text(declared.parameters),
        "declared": parameters_text(first.parameters),
        "where": files.where(file, place_of(first.leaf), file),
    }
    return faults.fault(file, place, "F19", declared.name, "predicate", **fields)


def explain_schema_again(files, file, place, model):
    """F19: a schema with the name of an earlier one."""
    schema = next((it for it in model.schemas if place_of(it.leaf) == place), None)
    if schema is None:
        return None
    where = files.where(file, place_of(first_of(model.schemas, schema.name).leaf), file)
    return faults.fault(file, place, "F19", schema.name, "schema", where=where)


def explain_variable_again(files, file, place, model):
    """F19: a variable that occurs twice in one list."""
    for names in lint_model.declared_lists(model, file):
        leaf = leaf_at([it.leaf for it in names], place)
        if leaf:
            where = files.where(file, place_of(first_of(names, leaf.text).leaf), file)
            return faults.fault(file, place, "F19", leaf.text, "variable", where=where)
    return None


def explain_again(files, file, place, model):
    """F19: the later declaration of a name, whatever it names."""
    explainers = [explain_object_again, explain_variable_again]
    if file == "domain":
        explainers = [explain_type_again, explain_predicate_again, explain_schema_again, *explainers]
    return next(filter(None, (explain(files, file, place, model) for explain in explainers)), None)


def explain_schema(file, place, model):
    """F20: a leaf of the side list that should name a schema."""
    leaf = leaf_at([tree if isinstance(tree, Leaf) else tree.members[0] for tree in model.side], place)
    return leaf and faults.fault(file, place, "F20", leaf.text)


def explain(files, file, place, code, model):
    """The finding of a fault of names, or None if the place has no such fault."""
    if code == "F13":
        return explain_type(file, place, model)
    if code == "F14":
        return explain_cycle(file, place, model)
    if code == "F15":
        return explain_predicate(file, place, model)
    if code == "F16":
        return explain_arity(files, file, place, model)
    if code == "F17":
        return explain_mismatch(files, file, place, model)
    if code == "F18":
        return explain_term(file, place, model)
    if code == "F19":
        return explain_again(files, file, place, model)
    return explain_schema(file, place, model) if code == "F20" else None
