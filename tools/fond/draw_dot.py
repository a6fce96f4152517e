"""Writes a picture in the language of Graphviz, and lets Graphviz draw it.

A label lists the atoms that hold and sums up the others, with the action below. Graphviz places everything.
"""
import collections
import html
import math
import re
import subprocess

from .draw_model import MOST_NODES, PictureError, count, groups, range_text, ranges

# At most so many characters in a line of a label, atoms in a node, ranges of outcomes at an edge, and literals of a title.
LINE, ATOMS, RANGES, LITERALS = 30, 12, 6, 60
FONT = 'fontname="Helvetica,Arial,sans-serif"'
UNFAIR, LOST, STEM, CYCLE = "#fbe3c4", "#d9d9d9", "#1a56b0", "#b3161d"
# The line across a node, with room below it.
RULE = '<hr/><tr><td height="3" cellpadding="0"></td></tr>'

HEAD = f"""digraph picture {{
 graph [rankdir=LR nodesep=0.22 ranksep=0.38 {FONT} fontsize=10 bgcolor="white"]
 node [shape=box style=filled fillcolor="white" penwidth=0.8 margin="0.1,0.04" height=0.2 width=0.3 {FONT} fontsize=10]
 edge [arrowsize=0.6 penwidth=0.8 {FONT} fontsize=9]
"""
# So long may Graphviz take before a picture is folded.
SECONDS = 20
# How each kind of node and of edge is drawn.
NODES = {
    "fair": "",
    "plain": "",
    "unfair": f'fillcolor="{UNFAIR}"',
    "goal": "peripheries=2",
    "stuck": f'penwidth=2 color="{CYCLE}"',
    "lost": f'fillcolor="{LOST}"',
    "pair": 'style="filled,dashed"',
}
EDGES = {
    "fair": "",
    "plain": "",
    "unfair": "style=dashed",
    "barred": "style=dotted penwidth=1.2",
    "stem": f'color="{STEM}" penwidth=2',
    "cycle": f'color="{CYCLE}" penwidth=2',
}


def wrapped(text):
    """The lines of an atom or an action that is too long for one."""
    lines = []
    for word in text.split(" "):
        if lines and len(lines[-1]) + 1 + len(word) <= LINE:
            lines[-1] += " " + word
        else:
            lines.append("    " + word if lines else word)
    return lines


def escaped(text):
    """Text of a label that looks like HTML. Graphviz reads two backslashes as one, and takes two blanks for one."""
    return html.escape(text).replace("\\", "\\\\").replace("  ", "&#160;&#160;")


def row(text, form="{}"):
    """Rows of a label: the text, with its own marks escaped, in the form."""
    shown = [form.format(escaped(line)) for line in wrapped(text)]
    return "".join(f'<tr><td align="left">{line}</td></tr>' for line in shown)


def small(text):
    """A row in small letters."""
    return f'<tr><td align="left"><font point-size="8" color="#444444">{escaped(text)}</font></td></tr>'


def literal_text(is_true, atom):
    return atom if is_true else f"not {atom}"


def known_rows(node):
    """The rows of what holds in a node: the atoms that are true, and how many are not."""
    true, false = list(node.true), list(node.false)
    if node.is_full or len(false) == 1:
        literals = [(True, it) for it in true] + [(False, it) for it in false]
        shown = [literal_text(*it) for it in literals if it not in node.common]
        false = []
    else:
        shown = true
    more = len(shown) - ATOMS if len(shown) > ATOMS + 1 else 0
    rows = "".join(row(it) for it in (shown[:ATOMS] if more else shown))
    if more:
        rows += small(f"and {more} more")
    if false:
        rows += small(f"and {len(false)} not" if true else f"none of {len(false)} atoms")
    if not rows and node.name != "goal":
        rows = small("no atom" if node.is_state else "nothing else" if node.common else "any state")
    return rows


def action_rows(node):
    """The rows below the line: the action and its rule."""
    if node.kind == "stuck":
        return RULE + row("stuck", "<b>{}</b>")
    if node.kind == "pair":
        return RULE + row(node.action, "<s>{}</s>") + small("barred")
    if node.rule is None:
        return ""
    said = [f"rule {node.rule}"] if node.title != f"rule {node.rule}" else []
    said += ["the opponent picks"] if node.kind == "unfair" else []
    return RULE + (row(node.action, "<b>{}</b>") if node.action else "") + (small(", ".join(said)) if said else "")


def label(node):
    """The label of a node: its number, what holds in it, and its action."""
    title = row(node.title, "<b>{}</b>") if node.name == "goal" else small(node.caption or node.title)
    rows = title + known_rows(node) + action_rows(node)
    return f'<<table border="0" cellborder="0" cellspacing="0" cellpadding="1">{rows}</table>>'


def title_of(node):
    """All that is known of a node, which a browser shows if the pointer rests on it."""
    literals = [*node.true, *(literal_text(False, it) for it in node.false)]
    more = [f"and {len(literals) - LITERALS} more"] if len(literals) > LITERALS else []
    return "\n".join([node.title, *literals[:LITERALS], *more])


def node_line(node, marks):
    more = f"{NODES[node.kind]} {marks}".strip()
    return f' {node.name} [id="node-{node.name}" class="{node.kind}" label={label(node)} {more}]\n'


def outcome_text(edge):
    """The outcomes of an edge by ranges, the one that a fair rule counts on first and bold."""
    others = [it for it in edge.outcomes if it != edge.counted]
    shown = [range_text(*it) for it in ranges(others)]
    if len(shown) > RANGES:
        shown = shown[:RANGES] + [".."]
    if edge.counted is not None:
        shown.insert(0, f"<b>{edge.counted}</b>")
    return ", ".join(shown)


def edge_line(source, target, edge, marks, is_beside_other):
    """The line of an edge. One that goes beside an edge the other way has a label, as Graphviz would draw one on the other."""
    words = [f'id="edge-{source}-{target}" class="{edge.kind}"', EDGES[edge.kind]]
    if edge.counted is not None:
        words.append("penwidth=2.2")
    if edge.kind == "barred":
        words.append(f'label="outcome {edge.outcomes[0]}"')
    elif edge.outcomes and not edge.is_only:
        words.append(f"label=<{outcome_text(edge)}>")
    elif is_beside_other:
        words.append('label=" "')
    return f" {source} -> {target} [{' '.join(it for it in [*words, marks] if it)}]\n"


def start_lines(name):
    node = 'start [id="start" class="start" shape=plaintext fillcolor="none" label=<<b>start</b>>]'
    return f' {node}\n start -> {name} [id="edge-start" class="start" penwidth=1.4]\n'


def level_label(level):
    rows = f'<tr><td align="left"><b>{level.word} {level.number}</b></td></tr>'
    rows += "".join(small(it) for it in level.note.splitlines())
    if level.common:
        rows += small("in each of these cubes:") + "".join(row(literal_text(*it)) for it in level.common[:ATOMS])
        rows += small(f"and {len(level.common) - ATOMS} more") if len(level.common) > ATOMS else ""
    return f'<<table border="0" cellborder="0" cellspacing="0" cellpadding="1">{rows}</table>>'


def level_lines(picture):
    """A box for each level, the last one to the left. Edges that are not drawn keep columns and levels in their order."""
    lines, before = [], None
    for number, level in reversed(list(enumerate(picture.levels))):
        names = [picture.nodes[it].name for it in level.nodes] or [f"empty_{number}"]
        if not level.nodes:
            lines.append(f' {names[0]} [id="{names[0]}" shape=plaintext fillcolor="none" label="no cube"]\n')
        height = max(6, math.ceil(math.sqrt(len(names))))
        columns = [names[at:at + height] for at in range(0, len(names), height)]
        lines.append(f' subgraph cluster_{number} {{ id="level-{number}" label={level_label(level)} labeljust=l color="#777777"\n')
        lines.append("  " + "; ".join(names) + "\n }\n")
        for left, right in zip([before, *columns], columns):
            if left:
                lines.append("".join(f" {one} -> {other} [style=invis]\n" for one, other in zip(left, right)))
        before = columns[-1]
    return lines


def avoided_lines(picture):
    """A box around the pairs and the losing cubes to which they point."""
    if not picture.avoided:
        return []
    names = "; ".join(picture.nodes[it].name for it in picture.avoided)
    look = 'label=<<b>what the policy avoids</b>> labeljust=l color="#777777"'
    return [f' subgraph cluster_avoided {{ id="avoided" {look}\n  {names}\n }}\n']


def dot_text(picture, marks=None):
    """The text in the language of Graphviz. `marks` gives more attributes for nodes, by place, and for edges, by both places."""
    marks = marks or {}
    lines = [HEAD]
    lines += [node_line(node, marks.get(number, "")) for number, node in enumerate(picture.nodes)]
    if picture.start is not None:
        lines.append(start_lines(picture.nodes[picture.start].name))
    names = [node.name for node in picture.nodes]
    places = {(edge.source, edge.target) for edge in picture.edges}
    for edge in picture.edges:
        mark, is_beside_other = marks.get((edge.source, edge.target), ""), (edge.target, edge.source) in places
        lines.append(edge_line(names[edge.source], names[edge.target], edge, mark, is_beside_other))
    return "".join([*lines, *level_lines(picture), *avoided_lines(picture), "}\n"])


def group_line(number, group, picture, inside, back):
    """The node of a group: how many nodes it has, and how many edges stay in it or lead back from it."""
    rows = row(group.title, "<b>{}</b>") + row(count(len(group.nodes), picture.noun))
    rows += small(f"{count(inside, 'edge')} within") if inside else ""
    rows += small(f"{count(back, 'edge')} back") if back else ""
    look = NODES["goal"] if all(picture.nodes[it].kind == "goal" for it in group.nodes) else ""
    words = f'id="group-{number}" class="group" {look}'
    return f' group_{number} [{words} label=<<table border="0" cellborder="0" cellspacing="0" cellpadding="1">{rows}</table>>]\n'


def folded_dot_text(picture, groups):
    """The groups of a folded picture in a row, and how many edges lead from one to the next, and to nodes that reach no goal."""
    group_of = {node: number for number, group in enumerate(groups) for node in group.nodes}
    counts = collections.Counter((group_of[edge.source], group_of[edge.target]) for edge in picture.edges)
    is_last = [all(picture.nodes[it].distance is None for it in group.nodes) for group in groups]
    lines = [HEAD]
    for number, group in enumerate(groups):
        back = sum(many for (source, target), many in counts.items() if source == number < target and not is_last[target])
        lines.append(group_line(number, group, picture, counts[number, number], back))
    if picture.start is not None:
        lines.append(start_lines(f"group_{group_of[picture.start]}"))
    for number in range(len(groups) - 1):
        if not is_last[number + 1] and not counts[number + 1, number]:
            lines.append(f" group_{number + 1} -> group_{number} [style=invis]\n")
    for (source, target), number in sorted(counts.items()):
        if source == target + 1 or is_last[target] and source != target:
            lines.append(f' group_{source} -> group_{target} [id="edge-group-{source}-{target}" label="{number:,}"]\n')
    return "".join([*lines, "}\n"])


def drawn(text, seconds=None):
    """The SVG that Graphviz makes of a text in its language, in at most so many seconds."""
    pipe = subprocess.PIPE
    try:
        ran = subprocess.run(["dot", "-Tsvg"], input=text.encode("utf-8"), stdout=pipe, stderr=pipe, timeout=seconds, check=False)
    except FileNotFoundError as error:
        raise PictureError("there is no program `dot`: install Graphviz, or write DOT with --dot") from error
    if ran.returncode:
        raise PictureError(f"dot: {ran.stderr.decode(errors='replace').splitlines()[0]}")
    return ran.stdout.decode("utf-8")


def folded_svg(picture):
    """The groups of a picture, and the SVG of these."""
    found = groups(picture)
    titles = {f"group_{number}": group.title for number, group in enumerate(found)}
    return found, with_titles(drawn(folded_dot_text(picture, found)), titles)


def whole_svg(picture, marks=None, seconds=None):
    """The SVG of all nodes of a picture. The titles of nodes and edges say all that is known of them."""
    titles = {node.name: title_of(node) for node in picture.nodes}
    return with_titles(drawn(dot_text(picture, marks), seconds), titles)


def svg_of(picture, marks=None):
    """The groups into which a picture has to be folded, or None, and the SVG of these or of all nodes."""
    if len(picture.nodes) > MOST_NODES:
        return folded_svg(picture)
    try:
        return None, whole_svg(picture, marks, SECONDS)
    except subprocess.TimeoutExpired:
        return folded_svg(picture)


def with_titles(svg, titles):
    """The SVG with these titles of nodes in place of their names."""
    def full(found):
        names = html.unescape(found[1]).split("->")
        known = [titles.get(it, it) for it in names]
        text = known[0] if len(names) == 1 else " to ".join(it.partition("\n")[0] for it in known)
        return f"<title>{html.escape(text, quote=False)}</title>"

    return re.sub("<title>(.*?)</title>", full, svg)
