"""Warnings about files without a fault: what is legal there, and odd."""
from fond import faults, lint_ground, lint_model
from fond.lint_files import place_of
from fond.lint_ground import Costly, kept_count
from fond.lint_model import firsts

PASSED_OVER = (":metric", ":goal-reward", ":length")


def unmentioned_predicates(model):
    """Predicates that no condition and no effect mentions; an initial atom is no mention."""
    mentioned = {it.node.head for schema in model.schemas for it in lint_model.schema_occurrences(schema)}
    mentioned.update(it.node.head for it in lint_model.occurrences(model.goal, (), "condition"))
    for predicate in firsts(model.predicates).values():
        if predicate.name not in mentioned:
            yield faults.warning("domain", predicate.leaf, "predicate")


def unused_parameters(model):
    """Parameters of schemas that occur in no atom and no equality, except where an inner list hides them."""
    for schema in model.schemas:
        used = set()
        for it in lint_model.schema_occurrences(schema):
            hidden = {declared.name for names in it.scope[:-1] for declared in names}
            used.update(leaf.text for leaf in it.terms if leaf.text not in hidden)
        for declared in schema.parameters:
            if declared.name not in used:
                yield faults.warning("domain", declared.leaf, "parameter", schema=faults.shown(schema.name))


def repeated_declarations(files, model):
    """Constants, objects and predicates that are declared again."""
    declarations = [("domain", it) for it in model.constants] + [("problem", it) for it in model.objects]
    for group in (declarations, [("domain", it) for it in model.predicates]):
        first = {}
        for file, declared in group:
            earlier = first.setdefault(declared.name, (file, place_of(declared.leaf)))
            if earlier != (file, place_of(declared.leaf)):
                yield faults.warning(file, declared.leaf, "again", where=files.where(*earlier, file))


def problem_sections(files, model):
    """A `:domain` of another name, and sections that have no effect."""
    for node in model.problem.members[2:]:
        if node.head in PASSED_OVER:
            yield faults.warning("problem", node, "section", node.head)
        if node.head == ":domain" and node.members[1].text != model.domain_name.text:
            where = files.where("domain", place_of(model.domain_name), "problem")
            yield faults.warning("problem", node.members[1], "domain", where=where, declared=faults.shown(model.domain_name.text))


def why_no_action(task, schema):
    """A reason why a schema has no kept action."""
    empty = next((it for it in schema.parameters if not task.range_of(it)), None)
    return f": no object is in the range of '{faults.shown(empty.name)}'" if empty else ": its precondition is surely false"


def why_no_fit(task, schema, terms):
    """A reason why a pattern fits no action, if it is a simple one."""
    for declared, term in zip(schema.parameters, terms):
        if not term.startswith("?") and term not in task.range_of(declared):
            return f": '{faults.shown(term)}' is not in the range of '{faults.shown(declared.name)}'"
    return ""


def useless_schemas(task):
    """Schemas without a kept action."""
    for schema in task.model.schemas:
        if not kept_count(task, schema, most=1):
            yield schema.name, faults.warning("domain", schema.leaf, "schema", why=why_no_action(task, schema))


def useless_patterns(task, useless):
    """Patterns that fit no kept action, of schemas that have some."""
    schemas = firsts(task.model.schemas)
    for node in task.model.patterns:
        schema, terms = schemas[node.head], [leaf.text for leaf in node.members[1:]]
        if node.head not in useless and not kept_count(task, schema, terms, most=1):
            yield faults.warning("side", node, "pattern", node.head, why=why_no_fit(task, schema, terms))


def useless(model):
    """Schemas and patterns without a kept action, as far as that is found in time."""
    task = lint_ground.Task(model)
    task.steps = lint_ground.WARNING_STEPS
    schemas, found = set(), []
    try:
        for name, finding in useless_schemas(task):
            schemas.add(name)
            found.append(finding)
        found.extend(useless_patterns(task, schemas))
    except Costly:
        pass
    return found


def warnings(files, model):
    """The warnings, by file and by place."""
    found = [
        *unmentioned_predicates(model),
        *unused_parameters(model),
        *repeated_declarations(files, model),
        *problem_sections(files, model),
        *useless(model),
    ]
    return sorted(found, key=lambda it: (("domain", "problem", "side").index(it.file), it.line, it.column))
