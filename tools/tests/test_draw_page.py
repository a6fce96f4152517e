#!/usr/bin/env python3
"""Opens the pages of tools/draw in a headless Chromium: clicks, searches, steps along traces, and measures what is drawn.

usage: tools/tests/test_draw_page.py
"""
import os
import pathlib
import sys
import tempfile
import unittest

here = os.path.dirname(os.path.abspath(__file__))
sys.dont_write_bytecode = True
sys.path[:0] = [here, os.path.dirname(here)]
import browser  # noqa: E402
import test_draw  # noqa: E402
from test_draw import COIN, EXAMPLES, FROST, HAS_DOT, LASSO, ODD, ODD_COIN, OTHER, SOLUTION, content, examples, policy_of_a_row, run  # noqa: E402

ROBOT = os.path.join(EXAMPLES, "robot", "robot.cert")
# What `run` prints for examples/robot/robot.script (docs/TUTORIAL.md).
TRACE = b"""rule 6 (open-door front hall) outcome 1
rule 6 (open-door front hall) outcome 0
rule 5 (wedge front hall) outcome 0
rule 4 (go front hall office) outcome 1
rule 3 (take front office) outcome 0
rule 2 (open-door back office) outcome 0
rule 1 (wedge back office) outcome 0
rule 0 (go back office lab) outcome 1
goal left 1
state
(at lab)
"""
MOST_SECONDS = 5
# Texts that reach out of their nodes, and pairs of nodes of which one is on the other.
MISPLACED = """(() => {
    const nodes = [...document.querySelectorAll("#view g.node")], found = [];
    const boxes = nodes.map((it) => it.querySelector("polygon").getBoundingClientRect());
    nodes.forEach((node, number) => {
        const box = boxes[number];
        for (const text of node.querySelectorAll("text")) {
            const inner = text.getBoundingClientRect();
            if (inner.left < box.left - 1 || inner.right > box.right + 1 || inner.top < box.top - 1 || inner.bottom > box.bottom + 1)
                found.push(`${node.id}: ${text.textContent}`);
        }
        boxes.slice(0, number).forEach((other, at) => {
            if (box.left < other.right && other.left < box.right && box.top < other.bottom && other.top < box.bottom)
                found.push(`${node.id} and ${nodes[at].id}`);
        });
    });
    return found;
})()"""


def large_policy(bits):
    """A policy with 2^bits items, each of which says each atom, and whose rules count down. Fair and unfair rules take turns."""
    last = 2 ** bits - 1

    def literals(number):
        return "".join(f" {'-+'[number >> bit & 1]}(bit b{bit})" for bit in range(bits))

    rules = [f"rule (count c{it % 97}) {'fair 0' if it % 2 else 'unfair'} {it - 1 if it else 'goal'} :{literals(it)}" for it in range(last)]
    items = [f"item {it} {it // 2 - 1 if it > 1 else last} {it - 1 if it else last} :{literals(it)}" for it in range(last)]
    lines = ["dualfond 2 policy", *rules, *items, f"item goal :{literals(last)}", f"start {last - 1}", "end", ""]
    return "\n".join(lines).encode()


def setUpModule():
    if not HAS_DOT:
        raise unittest.SkipTest("no Graphviz")
    if not browser.PROGRAM:
        raise unittest.SkipTest("no Chromium")
    global BROWSER
    BROWSER = browser.Browser()
    unittest.addModuleCleanup(BROWSER.close)


class Page(unittest.TestCase):
    def open(self, text, *words):
        """Makes a page of a text and opens it; the seconds that opening took."""
        folder = tempfile.TemporaryDirectory()
        self.addCleanup(folder.cleanup)
        name, trace = os.path.join(folder.name, "page.html"), os.path.join(folder.name, "trace")
        with open(trace, "wb") as file:
            file.write(TRACE)
        words = [trace if it == "TRACE" else it for it in words]
        self.assertEqual(run("-", "-o", name, *words, text=text), (0, "", ""))
        self.url = pathlib.Path(name).as_uri()
        BROWSER.errors.clear()
        return BROWSER.open(self.url)

    def tearDown(self):
        self.assertEqual(BROWSER.errors, [])

    def panel(self):
        return BROWSER.value("document.getElementById('panel').textContent")

    def classed(self, name):
        """The elements of the picture with this class."""
        return sorted(BROWSER.value(f"[...document.querySelectorAll('#view .{name}')].map((it) => it.id)"))

    def text_of(self, name):
        return BROWSER.value(f"document.getElementById('{name}').textContent")

    def view_box(self):
        return [float(it) for it in BROWSER.value("document.querySelector('#view svg').getAttribute('viewBox')").split()]

    def click_node(self, name):
        BROWSER.click(f"document.getElementById('{name}').querySelector('polygon')")

    def test_click(self):
        self.open(content(ROBOT))
        self.click_node("node-2")
        self.assertEqual(self.classed("selected"), ["node-2"])
        for said in ("item 2", "rule 4 (go front hall office)", "the opponent picks", "(wedged front)", "not (open back)", "outcomes 0, 1"):
            self.assertIn(said, self.panel())
        self.assertEqual(self.classed("out"), ["edge-2-3"])
        BROWSER.click("[...document.querySelectorAll('#panel button')].find((it) => it.textContent === 'item 3')")
        self.assertEqual(self.classed("selected"), ["node-3"])
        self.assertTrue(BROWSER.value("location.hash") == "#3")
        BROWSER.key("Escape")
        self.assertEqual(self.classed("selected"), [])
        BROWSER.value("document.getElementById('node-5').focus()")
        BROWSER.key("Enter")
        self.assertEqual(self.classed("selected"), ["node-5"])

    def test_link_to_a_node(self):
        self.open(content(ROBOT))
        BROWSER.open(self.url + "#4")
        self.assertEqual(self.classed("selected"), ["node-4"])

    def test_search(self):
        self.open(content(ROBOT))
        BROWSER.key("/")
        BROWSER.type("wedged front")
        self.assertEqual((self.classed("match"), self.text_of("found")), (["node-2", "node-3"], "2 of 8"))
        BROWSER.key("Enter")
        BROWSER.key("Enter")
        self.assertEqual(self.classed("selected"), ["node-3"])
        BROWSER.key("Enter")
        self.assertEqual(self.classed("selected"), ["node-2"])
        BROWSER.type(" that is nowhere")
        self.assertEqual(self.classed("match"), [])
        self.assertIn("Nothing matches.", self.panel())
        BROWSER.key("Escape")
        self.assertEqual(self.text_of("found"), "")

    def test_trace(self):
        self.open(content(ROBOT), "--trace", "TRACE")
        self.assertEqual((self.classed("current"), self.classed("visited")), (["node-0"], []))
        for _ in range(4):
            BROWSER.key("ArrowRight")
        self.assertEqual(self.text_of("step"), "step 4 of 8: rule 4 (go front hall office) outcome 1 picked by the opponent")
        self.assertEqual((self.classed("current"), self.classed("taken"), self.classed("picked")), (["node-3"], ["edge-2-3"], ["edge-2-3"]))
        self.assertEqual([it for it in self.classed("visited") if it.startswith("edge")], ["edge-0-0", "edge-0-1", "edge-1-2", "edge-2-3"])
        BROWSER.key("ArrowLeft")
        self.assertEqual(self.classed("current"), ["node-2"])
        BROWSER.click("document.getElementById('last')")
        self.assertEqual(self.classed("current"), ["node-7"])
        self.assertTrue(self.text_of("step").startswith("step 8 of 8: rule 0 (go back office lab) outcome 1; goal left 1"))
        BROWSER.key("Home")
        BROWSER.click("document.getElementById('on')")
        self.assertEqual(self.classed("taken"), ["edge-0-0"])
        self.assertEqual(self.panel().count(" picked"), 2)

    def test_moving(self):
        self.open(content(ROBOT))
        before = self.view_box()
        BROWSER.click("document.getElementById('fit')")
        self.assertEqual(self.view_box(), before)
        BROWSER.wheel((500, 400), -300)
        nearer = self.view_box()
        self.assertLess(nearer[2], before[2])
        BROWSER.drag((500, 700), (400, 650))
        moved = self.view_box()
        self.assertEqual(moved[2:], nearer[2:])
        self.assertGreater(moved[0], nearer[0])
        BROWSER.key("-")
        self.assertGreater(self.view_box()[2], moved[2])
        BROWSER.key("0")
        self.assertEqual(self.view_box(), before)

    def test_first_view(self):
        """A picture that would be too small to read as a whole is shown from its start."""
        self.open(content(os.path.join(EXAMPLES, "elevators", "elevators.cert")))
        first = self.view_box()
        BROWSER.key("0")
        self.assertLess(first[2], self.view_box()[2])
        self.open(COIN)
        first = self.view_box()
        BROWSER.key("0")
        self.assertEqual(first, self.view_box())

    def test_help(self):
        self.open(COIN)
        BROWSER.key("?")
        self.assertTrue(BROWSER.value("document.getElementById('helping').open"))
        BROWSER.click("document.querySelector('#helping form button')")
        self.assertFalse(BROWSER.value("document.getElementById('helping').open"))

    def test_examples(self):
        """In the picture of each example, each text is in its node, and no node is on another."""
        count = 0
        for name, text in {**examples(b"dualfond 2"), **examples(b"dualfond 1"), "frost": FROST}.items():
            with self.subTest(example=name):
                self.open(text)
                self.assertEqual(BROWSER.value(MISPLACED), [])
                count += 1
        print(f"draw: {count} pages measured")

    def test_other_texts(self):
        for text in (SOLUTION, LASSO, b"solution\n", test_draw.STUCK, test_draw.POLICY, test_draw.graph_text()):
            with self.subTest(text=text):
                self.open(text)
                self.click_node("node-0")
                self.assertEqual(self.classed("selected"), ["node-0"])
                self.assertEqual(BROWSER.value(MISPLACED), [])

    def test_refusal(self):
        self.open(content(os.path.join(EXAMPLES, "islands", "islands-2.cert")))
        self.click_node("node-lost_2_3")
        self.assertIn("not (person-at pier)", self.panel())
        self.assertIn("Its states are lost.", self.panel())

    def test_names(self):
        """Names are shown as they are, and no element is made of them."""
        self.open(ODD_COIN)
        self.click_node("node-1")
        self.assertIn(OTHER, self.panel())
        self.click_node("node-0")
        self.assertIn(ODD, self.panel())
        self.assertEqual(BROWSER.value("[document.querySelectorAll('script').length, document.querySelectorAll('#panel b').length]"), [2, 0])

    def test_folded(self):
        self.open(policy_of_a_row(400))
        BROWSER.key("0")
        self.click_node("group-1")
        self.assertIn("25 to 49 steps to a goal: 25 items", self.panel())
        BROWSER.click("document.querySelector('#panel li button')")
        self.assertEqual(self.classed("selected"), ["group-1"])
        boxes = "[...document.querySelectorAll('#near .box')].map((it) => it.dataset.number)"
        self.assertEqual(BROWSER.value(boxes), ["25", "24", "23"])
        self.assertIn("outcome 1: stays here", self.text_of("near"))
        BROWSER.click("document.querySelector('#near .column:last-of-type .box')")
        self.assertEqual(BROWSER.value(boxes), ["24", "23", "22"])
        self.assertEqual(self.classed("selected"), ["group-0"])
        BROWSER.key("/")
        BROWSER.type("p399")
        self.assertEqual(self.classed("match"), [])
        BROWSER.key("Escape")
        BROWSER.key("/")
        BROWSER.type("p398")
        self.assertEqual(self.classed("match"), ["group-15"])
        BROWSER.key("Enter")
        self.assertIn("(step p398)", self.text_of("near"))

    def test_large(self):
        """A policy with 16,384 items is opened, searched and walked through in time."""
        seconds = self.open(large_policy(14))
        self.assertLess(seconds, MOST_SECONDS)
        self.assertIn("16,384 items", self.text_of("heading"))
        BROWSER.key("0")
        self.click_node("group-2")
        BROWSER.click("document.querySelector('#panel li button')")
        self.assertIn("(count c", self.text_of("near"))
        BROWSER.key("/")
        BROWSER.type("count c42")
        self.assertEqual(self.text_of("found"), "169 of 16,384")
        print(f"draw: a page of 16,384 items opened in {seconds:.2f} s")


if __name__ == "__main__":
    unittest.main()
