"""Makes tables, policies as `explain` reads them, from certificates, from JSON and from CSV; docs/EXPLAIN.md describes the three.

A row is a condition and an action. Atoms are put in the task's order. What a table cannot say, such as an atom that the task does not
have, is reported with the number of its row.
"""
import csv
import dataclasses
import io
import json
import re

from fond.certificate import HEADS, CertificateError, read_certificate

LEAF = re.compile(r"[^\s();]+")
TRUE, FALSE = ("1", "true"), ("0", "false")


class TableError(ValueError):
    """What cannot be made a table, with the row."""


@dataclasses.dataclass(frozen=True)
class Row:
    """A row: its number, the literals of its condition (pairs of a truth value and an atom) and its action."""

    number: int
    literals: tuple
    action: str


def ground(text, number):
    """An atom or an action as the program writes it, from a text that may have more blanks and capital letters."""
    inner = text.strip()
    if not (inner.startswith("(") and inner.endswith(")")):
        raise TableError(f"row {number}: {text!r} is not of the form (name object ..)")
    leaves = inner[1:-1].split()
    if not leaves or not all(LEAF.fullmatch(leaf) for leaf in leaves):
        raise TableError(f"row {number}: {text!r} is not of the form (name object ..)")
    return "(" + " ".join(leaf.lower() for leaf in leaves) + ")"


def literal(text, number):
    """The literal of `(on a b)` or `not (on a b)`."""
    found = re.fullmatch(r"\s*not\s*(\(.*\))\s*", text, re.DOTALL | re.IGNORECASE)
    return (False, ground(found[1], number)) if found else (True, ground(text, number))


def rows_of_certificate(text):
    """The rules of a certificate, without their targets."""
    certificate = read_certificate(text)
    if not certificate.is_policy:
        raise TableError("a refusal has no rules")
    return [
        Row(number, tuple((it.is_true, it.atom) for it in rule.literals), rule.action) for number, rule in enumerate(certificate.rules)
    ]


def rows_of_json(text):
    """The rows of a JSON array of objects with the members `if`, a list of literals, and `do`, an action."""
    try:
        found = json.loads(text)
    except ValueError as error:
        raise TableError(f"no JSON: {error}") from error
    if not isinstance(found, list):
        raise TableError("the JSON text is no array of rows")
    rows = []
    for number, row in enumerate(found):
        if not isinstance(row, dict) or not set(row) <= {"if", "do"} or not isinstance(row.get("do"), str):
            raise TableError(f'row {number}: a row is an object with "do", an action, and "if", a list of literals')
        condition = row.get("if", [])
        if not isinstance(condition, list) or not all(isinstance(it, str) for it in condition):
            raise TableError(f'row {number}: "if" is a list of texts such as "(on a b)" or "not (clear c)"')
        rows.append(Row(number, tuple(literal(it, number) for it in condition), ground(row["do"], number)))
    return rows


def truth(value, atom, number):
    word = value.strip().lower()
    if word not in TRUE + FALSE:
        raise TableError(f"row {number}: {atom} is {value!r}, and not 1 or 0, true or false, or empty")
    return word in TRUE


def full_state(text, task, number):
    """The literals of a full state, from the list of its true atoms."""
    rest = re.sub(r"\([^()]*\)", "", text).strip()
    if rest:
        raise TableError(f"row {number}: {rest!r} in a state is no atom")
    true = {ground(it, number) for it in re.findall(r"\([^()]*\)", text)}
    return tuple((True, atom) for atom in sorted(true)) + tuple((False, atom) for atom in task.atoms if atom not in true)


def rows_of_csv(text, task):
    """The rows of a CSV file with a column `do`, and either a column `state`, the true atoms of a full state, or a column for each atom
    with 1 or 0, or nothing if the row leaves it open."""
    reader = csv.DictReader(io.StringIO(text))
    columns = reader.fieldnames or []
    if columns.count("do") != 1 or len(set(columns)) != len(columns):
        raise TableError("the first line of a CSV file names its columns, each once, one of them `do`")
    rows = []
    for number, row in enumerate(reader):
        if None in row or None in row.values():
            raise TableError(f"row {number}: it has not as many values as there are columns")
        literals = []
        for column in columns:
            if column == "state":
                literals += full_state(row[column], task, number)
            elif column != "do" and row[column].strip():
                atom = ground(column, number)
                literals.append((truth(row[column], atom, number), atom))
        rows.append(Row(number, tuple(literals), ground(row["do"], number)))
    return rows


def rows_of(text, kind, task):
    """The rows of a policy in bytes, whose kind is "cert", "json", "csv" or None: then it is recognised."""
    first = text.partition(b"\n")[0].decode("latin-1")
    if kind == "cert" or kind is None and first in HEADS:
        try:
            return rows_of_certificate(text)
        except CertificateError as error:
            raise TableError(str(error)) from error
    try:
        words = text.decode("utf-8-sig")
    except UnicodeDecodeError as error:
        raise TableError("the file is no text in UTF-8") from error
    if kind == "json" or kind is None and words.lstrip().startswith(("[", "{")):
        return rows_of_json(words)
    return rows_of_csv(words, task)


def condition(row, task):
    """The literals of a row on fluent atoms, in the task's order; None if they never hold together."""
    found = {}
    for is_true, atom in row.literals:
        if atom in task.number_of:
            if found.setdefault(atom, is_true) != is_true:
                return None
            continue
        name, *objects = atom[1:-1].split(" ")
        if name not in task.predicates or len(objects) != len(task.predicates[name]) or not set(objects) <= set(task.objects):
            raise TableError(f"row {row.number}: the task has no atom {atom}")
        if (atom in task.static) != is_true:
            return None
    return [(found[atom], atom) for atom in sorted(found, key=task.number_of.__getitem__)]


def table_text(rows, task):
    """The text of a table, and the numbers of rows that were left out since they never hold."""
    lines, never = ["table 1"], []
    for row in rows:
        if task.binding_of(row.action) is None:
            raise TableError(f"row {row.number}: the task has no action {row.action}")
        if not task.is_kept(row.action):
            raise TableError(f"row {row.number}: the action {row.action} is never applicable, so no table can name it")
        literals = condition(row, task)
        if literals is None:
            never.append(row.number)
        else:
            lines.append(f"do {row.action} :" + "".join(f" {'+' if is_true else '-'}{atom}" for is_true, atom in literals))
    return "\n".join([*lines, "end"]) + "\n", never
