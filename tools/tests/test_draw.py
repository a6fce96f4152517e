#!/usr/bin/env python3
"""Draws the examples and small texts with tools/draw, and compares the pictures with what the texts say.

usage: tools/tests/test_draw.py
"""
import glob
import json
import os
import re
import shutil
import subprocess
import sys
import tempfile
import unittest
import xml.etree.ElementTree
from unittest import mock

here = os.path.dirname(os.path.abspath(__file__))
sys.dont_write_bytecode = True
sys.path.insert(0, os.path.dirname(here))
from fond import draw_dot, draw_page, draw_trace, program  # noqa: E402
from fond.certificate import CertificateError, read_certificate  # noqa: E402
from fond.draw_model import MOST_GROUPS, PictureError, groups, ranges  # noqa: E402
from fond.draw_read import picture_of  # noqa: E402

TOP = program.TOP
DRAW = os.path.join(TOP, "tools", "draw")
EXAMPLES = os.path.join(TOP, "examples")
HAS_PROGRAM = "DUALFOND_PROGRAM" in os.environ or any(os.path.exists(os.path.join(TOP, it)) for it in ("out/dualfond", "dist"))
HAS_DOT = bool(shutil.which("dot"))
SVG = "{http://www.w3.org/2000/svg}"

COIN = b"dualfond 2 policy\nrule (flip) fair 0 goal :\nitem 0 1 0 :\nitem goal : +(heads)\nstart 0\nend\n"
FROST = b"""dualfond 2 policy
layer
cube +(pit) -(g)
pair (step) 1 0 0 : +(ice) -(g)
rule (step) fair 0 goal : -(ice) -(pit)
rule (salt) fair 0 0 : +(ice) -(pit)
item 0 1 2 : -(ice) -(pit)
item goal : +(g)
item 1 0 : +(ice) -(pit)
start 0
end
"""
# Names with what means something to DOT, SVG, HTML and scripts.
ODD = r"""(<b>&amp "\n" \\ ]]></script><!-- '$`{a}|b)"""
OTHER = ODD.replace("n", "g")
ODD_COIN = COIN.replace(b"(flip)", ODD.encode()).replace(b"(heads)", OTHER.encode())
GRAPH = {
    "edges": [{"from": 0, "outcome": 0, "to": 1}, {"from": 0, "outcome": 1, "to": 0}, {"from": 0, "outcome": 2, "to": 1},
              {"from": 1, "outcome": 0, "to": 2}, {"from": 1, "outcome": 1, "to": 3}],
    "nodes": [{"atoms": [], "goal": False, "rule": 1}, {"atoms": ["(a)"], "goal": False, "rule": 0},
              {"atoms": ["(a)", "(heads)"], "goal": True, "rule": None}, {"atoms": ["(b)"], "goal": False, "rule": None}],
}
POLICY = b"dualfond 1 policy\nrule (go a) unfair goal goal :\nrule (flip) fair 2 0 :\nreach 4\nend\n"
SOLUTION = b"solution\nrank 2\nstate\n(a)\nrank 2\nstate\nrank 1\nstate\n(a)\n(b)\n"
STUCK = b"stuck\nstate\n(a)\nstate\n(b)\nstate\nstem 0 1 2\n"
LASSO = b"lasso\nstate\n(a)\nstate\n(b)\nstate\nstem 0 1\ncycle 1 2 1\n"


def content(name):
    with open(name, "rb") as file:
        return file.read()


def graph_text(**changes):
    return json.dumps({**GRAPH, **changes}).encode()


def examples(version):
    """The certificates of the examples with this head, by name."""
    found = {name: content(name) for name in sorted(glob.glob(f"{EXAMPLES}/*/*.c*er*"))}
    return {name: text for name, text in found.items() if text.startswith(version)}


def dot_of(text, policy=None):
    return draw_dot.dot_text(picture_of(text, policy))


def edges(dot):
    """The edges between numbered nodes in DOT: the attributes by the two numbers."""
    return {(int(a), int(b)): more for a, b, more in re.findall(r"^ (\d+) -> (\d+) \[(.*)\]$", dot, re.M)}


def node(dot, name):
    return re.search(rf"^ {name} \[(.*)\]$", dot, re.M)[1]


def label_numbers(label):
    """The outcomes of a label such as `<b>0</b>, 3 to 5`."""
    found = []
    for part in re.sub("<.*?>", "", label).split(", "):
        first, _, last = part.partition(" to ")
        found += range(int(first), int(last or first) + 1)
    return sorted(found)


def run(*words, text=b"", **more):
    ran = subprocess.run([sys.executable, DRAW, *words], input=text, stdout=subprocess.PIPE, stderr=subprocess.PIPE, check=False, **more)
    return ran.returncode, ran.stdout.decode(), ran.stderr.decode()


class Covers(unittest.TestCase):
    """The pictures of policies with a cover."""

    def test_edges_are_the_numbers_of_item_lines(self):
        """An item line leads to the nodes of its numbers, each edge has the outcomes that lead there, and no other edge is drawn."""
        count = 0
        for name, text in examples(b"dualfond 2 policy").items():
            with self.subTest(example=name):
                dot, expected = dot_of(text), {}
                items = [line.split(" :")[0].split()[1:] for line in text.decode().splitlines() if line.startswith("item ")]
                for number, words in enumerate(items):
                    for outcome, target in enumerate(words[1:]):
                        expected.setdefault((number, int(target)), []).append(outcome)
                found = edges(dot)
                self.assertEqual(set(found), set(expected))
                for place, outcomes in expected.items():
                    label = re.search(r"label=<(.*?)>(?: |$)", found[place])
                    self.assertEqual(label_numbers(label[1]) if label else [0], outcomes, place)
                start = re.search(r"^start (\d+)$", text.decode(), re.M)[1]
                self.assertEqual(re.findall(r"^ start -> (\d+)", dot, re.M), [start])
                count += 1
        print(f"draw: the edges of {count} covers")

    def test_how_fair_and_unfair_look(self):
        for name, text in examples(b"dualfond 2 policy").items():
            with self.subTest(example=name):
                certificate, dot = read_certificate(text), dot_of(text)
                for number, item in enumerate(certificate.items):
                    rule, look = certificate.rules[item.rule] if item.rule is not None else None, node(dot, number)
                    self.assertEqual("peripheries=2" in look, rule is None)
                    self.assertEqual("#fbe3c4" in look, rule is not None and not rule.is_fair)
                    for target in item.items:
                        edge = edges(dot)[number, target]
                        self.assertEqual("style=dashed" in edge, not rule.is_fair)
                        is_counted = rule.is_fair and item.items[rule.outcome] == target
                        self.assertEqual("penwidth=2.2" in edge, is_counted)

    def test_merged_edges(self):
        dot = dot_of(content(os.path.join(EXAMPLES, "doors", "doors.cert")))
        self.assertIn("label=<0 to 242>", edges(dot)[2, 3])
        self.assertEqual(ranges([0, 1, 2, 3, 7, 9, 10]), [(0, 3), (7, 7), (9, 10)])

    def test_labels(self):
        """Atoms that hold are listed, several that do not are summed up, and the action is below."""
        dot = dot_of(content(os.path.join(EXAMPLES, "robot", "robot.cert")))
        rows = [re.sub("<.*?>", "", it) for it in re.findall(r"<td[^>]*>(.*?)</td>", node(dot, 2))]
        expected = ["item 2", "(at hall)", "(open front)", "(wedged front)", "and 4 not", "", "(go front hall office)",
                    "rule 4, the opponent picks"]
        self.assertEqual(rows, expected)
        self.assertIn("not (wedged back)", node(dot, 5))
        self.assertIn("any state", node(dot_of(COIN), 0))

    def test_pairs(self):
        dot = dot_of(FROST)
        self.assertIn("<s>(step)</s>", node(dot, "pair_0"))
        self.assertRegex(dot, r'(?m)^ pair_0 -> lost_0_0 \[.*label="outcome 1"')
        self.assertIn("cluster_avoided", dot)
        self.assertEqual(set(edges(dot)), {(0, 1), (0, 2), (2, 0)})
        # Graphviz would draw the two edges between items 0 and 2 on each other if one had no label.
        self.assertIn('label=" "', edges(dot)[2, 0])

    def test_rules(self):
        dot = dot_of(POLICY)
        self.assertEqual(set(edges(dot)), {(1, 0)})
        self.assertIn("<b>2</b>", edges(dot)[1, 0])
        self.assertRegex(dot, r"(?m)^ 0 -> goal \[.*label=<0, 1>")


class Refusals(unittest.TestCase):
    def test_cubes(self):
        """Each cube is in its layer's box, and says each literal that the layer does not say for all its cubes."""
        for name, text in examples(b"dualfond 1 refusal").items():
            with self.subTest(example=name):
                dot, certificate = dot_of(text), read_certificate(text)
                for number, cubes in enumerate(certificate.layers):
                    box = re.search(rf"subgraph cluster_{number} \{{ (.*)\n  (.*)\n \}}", dot)
                    self.assertEqual(box[2].split("; "), [f"lost_{number}_{cube}" for cube in range(len(cubes))])
                    for cube, literals in enumerate(cubes):
                        for literal in literals:
                            said = literal.atom if literal.is_true else f"not {literal.atom}"
                            self.assertIn(f">{said}<", node(dot, f"lost_{number}_{cube}") + box[1])

    def test_empty_layers(self):
        self.assertIn("no cube", dot_of(b"dualfond 1 refusal\nlayer\nend\n"))
        self.assertEqual(edges(dot_of(b"dualfond 1 refusal\nend\n")), {})


class States(unittest.TestCase):
    """The pictures of what `graph` and `explain` print."""

    def test_graph(self):
        dot = dot_of(graph_text())
        self.assertEqual(set(edges(dot)), {(0, 1), (0, 0), (1, 2), (1, 3)})
        self.assertIn("label=<0, 2>", edges(dot)[0, 1])
        self.assertIn("no atom", node(dot, 0))
        self.assertIn("peripheries=2", node(dot, 2))
        self.assertIn("<b>stuck</b>", node(dot, 3))
        self.assertNotIn("#fbe3c4", dot)

    def test_graph_with_its_policy(self):
        dot = dot_of(graph_text(), POLICY)
        self.assertIn("<b>(flip)</b>", node(dot, 0))
        self.assertIn("#fbe3c4", node(dot, 1))
        self.assertIn("label=<<b>2</b>, 0>", edges(dot)[0, 1])
        self.assertNotIn("penwidth", edges(dot)[0, 0])
        self.assertIn("style=dashed", edges(dot)[1, 3])

    def test_solution(self):
        dot = dot_of(SOLUTION)
        self.assertEqual(re.findall(r"<b>(rank \d)</b>.*\n  (.*)\n", dot), [("rank 2", "0; 1"), ("rank 1", "2")])
        self.assertIn(" 0 -> 2 [style=invis]", dot)
        self.assertIn("the initial state", dot_of(b"solution\n"))

    def test_stuck(self):
        dot = dot_of(STUCK)
        self.assertEqual({place: re.search('class="(.*?)"', it)[1] for place, it in edges(dot).items()}, {(0, 1): "stem", (1, 2): "stem"})
        self.assertIn("<b>stuck</b>", node(dot, 2))

    def test_lasso(self):
        found = {place: re.search('class="(.*?)"', it)[1] for place, it in edges(dot_of(LASSO)).items()}
        self.assertEqual(found, {(0, 1): "stem", (1, 2): "cycle", (2, 1): "cycle"})


class Faults(unittest.TestCase):
    """Texts of which no picture can be made, and traces that do not fit."""

    def test_texts(self):
        rows = (
            (b"", "line 1: no certificate, no JSON of `graph` and no answer of `explain`"),
            (b"undecided 10\n", "line 1: no certificate, no JSON of `graph` and no answer of `explain`"),
            (COIN[:-1], "line 6: the text ends before a whole line `end`"),
            (COIN.replace(b"item 0 1 0", b"item 0 1 9"), "item 0: there is no item 9"),
            (COIN.replace(b"item 0 1 0", b"item 7 1 0"), "item 0: there is no rule 7"),
            (COIN.replace(b"start 0", b"start 2"), "the line `start`: there is no item 2"),
            (FROST.replace(b"1 0 0 :", b"1 0 3 :"), "pair 0: there is no cube 3 of layer 0"),
            (POLICY.replace(b"fair 2 0", b"fair 2 2"), "rule 1: there is no rule 2"),
            (SOLUTION.replace(b"rank 1", b"rank x"), "line 7: no rank"),
            (SOLUTION + b"(A)\n", "line 11: no line that belongs here"),
            (STUCK.replace(b"0 1 2", b"0 1 3"), "line 7: there is no state 3"),
            (LASSO.replace(b"cycle 1 2 1\n", b""), "line 8: no line `cycle`"),
            (LASSO + b"more\n", "line 9: no line that belongs here"),
            (b"{", "no JSON: Expecting property name enclosed in double quotes: line 1 column 2 (char 1)"),
            (b"{}", "no graph: it has no lists `nodes` and `edges`"),
            (graph_text(nodes=[{"atoms": []}]), "node 0: it has no `atoms`, `goal` and `rule` of the right form"),
            (graph_text(edges=[{"from": 0, "outcome": 0, "to": 9}]), "edge 0: there is no node 9"),
            (graph_text(edges=[{"from": 0, "outcome": -1, "to": 1}]), "edge 0: `from`, `outcome` and `to` have to be numbers"),
        )
        for text, message in rows:
            with self.subTest(message=message), self.assertRaises((PictureError, CertificateError)) as found:
                picture_of(text)
            self.assertEqual(str(found.exception), message)
        with self.assertRaisesRegex(PictureError, "alone"):
            picture_of(COIN, POLICY)

    def test_traces(self):
        step = b"rule 0 (flip) outcome 0\n"
        rows = (
            (COIN, b"", "line 1: no step of a trace, and no line that ends one"),
            (COIN, step + step, "line 3: no step of a trace, and no line that ends one"),
            (COIN, step + step + b"goal left 0\n", "line 2: item 1 has no rule, not rule 0 (flip)"),
            (COIN, step.replace(b"flip", b"flop") + b"ended\n", "line 1: item 0 has rule 0 (flip), not rule 0 (flop)"),
            (COIN, step.replace(b"come 0", b"come 2") + b"ended\n", "line 1: item 0 has no outcome 2"),
            (POLICY, step.replace(b"rule 0", b"rule 5") + b"ended\n", "line 1: there is no rule 5"),
            (SOLUTION, step + b"ended\n", "a trace goes with a policy or with the JSON of `graph`"),
        )
        for text, trace, message in rows:
            with self.subTest(message=message), self.assertRaises(PictureError) as found:
                draw_trace.read_trace(trace, picture_of(text))
            self.assertEqual(str(found.exception), message)

    def test_words_and_files(self):
        with tempfile.TemporaryDirectory() as folder:
            name = os.path.join(folder, "bad")
            with open(name, "wb") as file:
                file.write(COIN[:-1])
            self.assertEqual(run(name), (1, "", f"draw: {name}: line 6: the text ends before a whole line `end`\n"))
            self.assertEqual(run("-", text=COIN[:-1])[2], "draw: standard input: line 6: the text ends before a whole line `end`\n")
            status, _, said = run(os.path.join(folder, "none"))
            self.assertEqual((status, said.count("\n")), (2, 1))
            for words in ((), ("--svg", "--dot", name), ("-o", "x.png", name)):
                self.assertEqual(run(*words)[0], 2)
            said = "draw: there is no program `dot`: install Graphviz, or write DOT with --dot\n"
            self.assertEqual(run("--svg", "-", text=COIN, env={"PATH": folder}), (1, "", said))
            self.assertEqual(run("-", text=COIN, env={"PATH": folder}), (0, dot_of(COIN), ""))


class Traces(unittest.TestCase):
    def test_steps(self):
        trace = draw_trace.read_trace(b"rule 0 (flip) outcome 1\nrule 0 (flip) outcome 0\ngoal left 3\nstate\n(heads)\n", picture_of(COIN))
        self.assertEqual([(it.source, it.target, it.is_unfair) for it in trace.steps], [(0, 0, False), (0, 1, False)])
        self.assertEqual((trace.last, trace.end), (1, "goal left 3"))
        picture = picture_of(graph_text(), POLICY)
        trace = draw_trace.read_trace(b"rule 1 (flip) outcome 2\nrule 0 (go a) outcome 1\nstuck\nstate\n(b)\n", picture)
        self.assertEqual([(it.target, it.is_unfair) for it in trace.steps], [(1, False), (3, True)])
        dot = draw_dot.dot_text(picture, draw_trace.marks(trace))
        self.assertIn("#1a56b0", edges(dot)[0, 1])
        self.assertIn("#b3161d", edges(dot)[1, 3])
        self.assertNotIn("color=", edges(dot)[1, 2])
        trace = draw_trace.read_trace(b"rule 1 (flip) outcome 2\nrule 0 (go a) outcome 1\ngoal left 0\n", picture_of(POLICY))
        self.assertEqual([(it.source, it.target) for it in trace.steps], [(1, 0), (0, 2)])

    @unittest.skipUnless(HAS_PROGRAM, "program")
    def test_simulations(self):
        """What `simulate` prints can be followed over the cover of each example, and ends in an item of goals if it says so."""
        count = 0
        for name, text in examples(b"dualfond 2 policy").items():
            problem, folder = os.path.splitext(name)[0] + ".p", os.path.dirname(name)
            task = [os.path.join(folder, os.path.basename(folder))]
            files = [f"{task[0]}.d", problem, f"{task[0]}.unfair", name]
            for seed in range(4):
                with self.subTest(example=name, seed=seed):
                    _, printed = program.run("simulate", *files, str(seed), "60")
                    picture = picture_of(text)
                    trace = draw_trace.read_trace(printed, picture)
                    self.assertEqual(len(trace.steps), printed.count(b" outcome "))
                    self.assertEqual(picture.nodes[trace.last].kind == "goal", trace.end.startswith("goal"))
                    count += 1
        print(f"draw: {count} simulations followed")


def policy_of_a_row(length):
    """A policy whose items lie in a row; each step may fail."""
    items = [f"item {it} {it - 1 if it else length - 1} {it} : +(at p{it})" for it in range(length - 1)]
    rules = [f"rule (step p{it}) fair 0 {it - 1 if it else 'goal'} : +(at p{it})" for it in range(length - 1)]
    lines = ["dualfond 2 policy", *rules, *items, "item goal : +(done)", f"start {length - 2}", "end", ""]
    return "\n".join(lines).encode()


class Folded(unittest.TestCase):
    def test_groups(self):
        picture = picture_of(policy_of_a_row(400))
        found = groups(picture)
        self.assertLessEqual(len(found), MOST_GROUPS + 2)
        self.assertEqual(sorted(it for group in found for it in group.nodes), list(range(400)))
        for one, other in zip(found, found[1:]):
            self.assertLess(max(picture.nodes[it].distance for it in one.nodes), min(picture.nodes[it].distance for it in other.nodes))
        self.assertIn("0 to 24 steps to a goal", draw_dot.folded_dot_text(picture, found))

    def test_levels(self):
        picture = picture_of(b"dualfond 1 refusal\n" + b"layer\ncube +(a)\ncube -(a)\n" * 200 + b"end\n")
        found = groups(picture)
        self.assertEqual(sum(len(it.nodes) for it in found), 400)
        self.assertTrue(found[0].title.startswith("layers 0 to "))
        self.assertIn(" group_1 -> group_0 [style=invis]", draw_dot.folded_dot_text(picture, found))
        picture = picture_of(b"solution\n" + b"".join(b"rank %d\nstate\n(a)\n" % rank for rank in range(400, 5, -1)))
        self.assertTrue(groups(picture)[0].title.startswith("ranks 6 to "))

    def test_nodes_that_reach_no_goal(self):
        picture = picture_of(graph_text())
        self.assertEqual([it.title for it in groups(picture)], ["goals", "1 step to a goal", "2 steps to a goal", "no way to a goal"])


class Svg(unittest.TestCase):
    """Pictures that Graphviz draws."""

    def setUp(self):
        if not HAS_DOT:
            self.skipTest("no Graphviz")

    def test_examples(self):
        """The picture of each example is made, with an element for each node, and each text in it."""
        count = 0
        for name, text in {**examples(b"dualfond 2"), **examples(b"dualfond 1")}.items():
            with self.subTest(example=name):
                picture = picture_of(text)
                root = xml.etree.ElementTree.fromstring(draw_dot.whole_svg(picture))
                drawn = {it.get("id"): it for it in root.iter(f"{SVG}g") if it.get("class", "").startswith("node")}
                self.assertEqual({it for it in drawn if it != "start"}, {f"node-{it.name}" for it in picture.nodes})
                for it in picture.nodes:
                    said = " ".join(text.text.strip() for text in drawn[f"node-{it.name}"].iter(f"{SVG}text"))
                    self.assertIn((it.action or "").replace(" ", ""), said.replace("\xa0", "").replace(" ", ""))
                count += 1
        print(f"draw: {count} examples drawn")

    def test_names(self):
        """Names are shown as they are, whatever their characters mean elsewhere."""
        root = xml.etree.ElementTree.fromstring(draw_dot.whole_svg(picture_of(ODD_COIN)))
        said = [it.text for it in root.iter(f"{SVG}text")]
        shown = "".join(said).replace("\xa0", "").replace(" ", "")
        self.assertIn(ODD.replace(" ", ""), shown)
        titles = [it.text for it in root.iter(f"{SVG}title")]
        self.assertEqual(titles, ["picture", "item 0", "item 0 to item 0", "item 1\n" + OTHER, "item 0 to item 1", "start", "start to item 0"])

    def test_page(self):
        """The page has no element but its own, and its data have the names as they are."""
        picture = picture_of(ODD_COIN)
        page = draw_page.page_text(picture, None, draw_dot.whole_svg(picture), None, "<script>&")
        self.assertEqual((page.count("<script"), page.count("</script"), page.count("<!--</")), (2, 2, 0))
        self.assertIn("<title>&lt;script&gt;&amp;</title>", page)
        data = json.loads(re.search(r'<script id="data" type="application/json">(.*?)</script>', page, re.S)[1])
        self.assertEqual((data["atoms"], data["actions"]), ([OTHER], [ODD]))
        self.assertFalse(re.findall(r'(?:src|href)="(?!#|data:)', page))

    def test_forms(self):
        with tempfile.TemporaryDirectory() as folder:
            for ending, start in ((".dot", "digraph"), (".svg", "<?xml"), (".html", "<!DOCTYPE html>")):
                name = os.path.join(folder, "x" + ending)
                self.assertEqual(run("-", "-o", name, text=COIN), (0, "", ""))
                self.assertTrue(content(name).decode().startswith(start))
            self.assertTrue(run("--svg", "-", text=COIN)[1].startswith("<?xml"))

    def test_more_nodes_than_are_drawn(self):
        with tempfile.TemporaryDirectory() as folder:
            name = os.path.join(folder, "row.svg")
            self.assertEqual(run("-", "-o", name, text=policy_of_a_row(400))[0], 0)
            self.assertIn(b'id="group&#45;0"', content(name))
            self.assertEqual(run("--all", "-", "-o", name, text=policy_of_a_row(400))[0], 0)
            self.assertIn(b'id="node&#45;399"', content(name))

    def test_more_seconds_than_are_taken(self):
        """A picture for which Graphviz takes too long is folded."""
        picture = picture_of(policy_of_a_row(290))
        with mock.patch.object(draw_dot, "SECONDS", 0.001):
            found, svg = draw_dot.svg_of(picture)
        self.assertEqual((found, "node&#45;" in svg), (groups(picture), False))
        self.assertIsNone(draw_dot.svg_of(picture_of(COIN))[0])


if __name__ == "__main__":
    unittest.main()
