"""Writes a picture as one page for a browser, which needs no network: the SVG, the nodes and edges as JSON, and the script."""
import html
import json
import os

HERE = os.path.dirname(os.path.abspath(__file__))


def part(name):
    with open(os.path.join(HERE, name), encoding="utf-8") as file:
        return file.read()


def json_in_page(value):
    """JSON that may stand in an element of HTML: no text of it can end the element."""
    text = json.dumps(value, separators=(",", ":"))
    return text.replace("&", "\\u0026").replace("<", "\\u003c").replace(">", "\\u003e")


class Numbers(dict):
    """Numbers texts in the order in which they are first asked for."""

    def __missing__(self, text):
        self[text] = len(self)
        return self[text]


def node_data(node, atoms, actions):
    """A node: its name, title, kind, rule, action, and literals; a literal is twice the number of its atom, and one more if it is true."""
    literals = sorted([2 * atoms[it] + 1 for it in node.true] + [2 * atoms[it] for it in node.false], key=lambda it: -(it % 2))
    action = None if node.action is None else actions[node.action]
    return [node.name, node.title, node.kind, node.rule, action, literals, node.distance]


def trace_data(trace):
    if trace is None:
        return None
    steps = [[it.source, it.target, it.outcome, it.is_unfair, it.text] for it in trace.steps]
    return {"steps": steps, "last": trace.last, "end": trace.end}


def data(picture, groups, trace):
    """All that the script reads."""
    atoms, actions = Numbers(), Numbers()
    nodes = [node_data(it, atoms, actions) for it in picture.nodes]
    edges = [[it.source, it.target, it.kind, list(it.outcomes), it.counted] for it in picture.edges]
    return {
        "noun": picture.noun,
        "levelled": bool(picture.levels),
        "start": picture.start,
        "states": any(it.is_state for it in picture.nodes),
        "atoms": list(atoms),
        "actions": list(actions),
        "nodes": nodes,
        "edges": edges,
        "groups": [[it.title, it.nodes] for it in groups] if groups else None,
        "trace": trace_data(trace),
    }


def svg_element(svg):
    """The element of an SVG file, without what comes before it."""
    return svg[svg.index("<svg"):]


def page_text(picture, groups, svg, trace, name):
    """The page; `groups` are those of a folded picture, or None."""
    parts = {
        "TITLE": html.escape(name),
        "HEADING": html.escape(picture.heading),
        "STYLE": part("draw_page.css"),
        "SCRIPT": part("draw_page.js"),
        "DATA": json_in_page(data(picture, groups, trace)),
        "SVG": svg_element(svg),
    }
    pieces = part("draw_page.html").split("@@")
    return "".join(parts[it] if at % 2 else it for at, it in enumerate(pieces))
