"use strict";
// The page of a picture. The picture itself was laid out before; this moves it, and shows what is known of a node.
const data = JSON.parse(document.getElementById("data").textContent);
const [NAME, TITLE, KIND, RULE, ACTION, LITERALS, DISTANCE] = [0, 1, 2, 3, 4, 5, 6];
const [SOURCE, TARGET, EDGE_KIND, OUTCOMES, COUNTED] = [0, 1, 2, 3, 4];
const [FROM, TO, OUTCOME, IS_UNFAIR, TEXT] = [0, 1, 2, 3, 4];
const MOST_LISTED = 200, MOST_NEAR = 30, MOST_ATOMS = 10, CLICK = 4;
// Pixels for a unit of the picture: below the first a label is too small to read, the second shows it well, and the third is large.
const SMALLEST = 0.55, FIRST = 1, LARGEST = 1.7;
const at = (id) => document.getElementById(id);
const view = at("view"), svg = view.querySelector("svg"), panel = at("panel"), near = at("near"), search = at("search");
const nodes = data.nodes, edges = data.edges, trace = data.trace, groups = data.groups;
const outgoing = nodes.map(() => []), incoming = nodes.map(() => []);
edges.forEach((edge, number) => { outgoing[edge[SOURCE]].push(number); incoming[edge[TARGET]].push(number); });
const groupOf = new Map();
if (groups) groups.forEach(([, members], number) => members.forEach((it) => groupOf.set(it, number)));
let selected = null, shownGroup = null, matches = [], matchAt = -1, stepAt = null;

// An element with a class, children and texts; a text is never read as HTML.
function make(tag, classes, ...parts) {
  const element = document.createElement(tag);
  if (classes) element.className = classes;
  parts.forEach((it) => element.append(it));
  return element;
}

// Texts

function ranges(numbers) {
  const found = [];
  for (const it of numbers) {
    const last = found[found.length - 1];
    if (last && last[1] === it - 1) last[1] = it; else found.push([it, it]);
  }
  return found.map(([a, b]) => a === b ? `${a}` : b === a + 1 ? `${a}, ${b}` : `${a} to ${b}`).join(", ");
}
const plural = (number, noun, nouns = `${noun}s`) => `${number.toLocaleString("en")} ${number === 1 ? noun : nouns}`;
const actionOf = (node) => node[ACTION] === null ? null : data.actions[node[ACTION]];
const atomOf = (literal) => data.atoms[literal >> 1];
const isTrue = (literal) => literal % 2 === 1;
function outcomeText(edge) {
  if (!edge[OUTCOMES].length) return "";
  const word = edge[OUTCOMES].length === 1 ? "outcome" : "outcomes";
  const counted = edge[COUNTED] === null ? "" : edge[OUTCOMES].length === 1 ? ", counted on" : `, counted on for ${edge[COUNTED]}`;
  return `${word} ${ranges(edge[OUTCOMES])}${counted}`;
}
function fairness(node) {
  if (node[KIND] === "unfair") return "unfair: the opponent picks the outcome";
  return node[KIND] === "fair" ? "fair: chance brings the outcome" : "";
}

// Moving the picture: the part of it that is shown

const whole = svg.viewBox.baseVal;
const all = { x: whole.x, y: whole.y, width: whole.width, height: whole.height };
let shown = all;
svg.removeAttribute("width");
svg.removeAttribute("height");

function show(part) {
  shown = part;
  svg.setAttribute("viewBox", `${part.x} ${part.y} ${part.width} ${part.height}`);
}
function scale(factor, x, y) {
  const frame = view.getBoundingClientRect(), most = 3 * Math.max(all.width, frame.width);
  const width = Math.min(Math.max(shown.width * factor, frame.width / 20), most), by = width / shown.width;
  show({ x: x - (x - shown.x) * by, y: y - (y - shown.y) * by, width, height: shown.height * by });
}
const scaleMiddle = (factor) => scale(factor, shown.x + shown.width / 2, shown.y + shown.height / 2);
function placeOf(event) {
  const point = new DOMPoint(event.clientX, event.clientY).matrixTransform(svg.getScreenCTM().inverse());
  return [point.x, point.y];
}
// Moves the picture if the element is not in what is shown.
function bringIntoView(element) {
  const box = element.getBoundingClientRect(), frame = view.getBoundingClientRect();
  if (box.left >= frame.left && box.right <= frame.right && box.top >= frame.top && box.bottom <= frame.bottom) return;
  const [x, y] = placeOf({ clientX: (box.left + box.right) / 2, clientY: (box.top + box.bottom) / 2 });
  show({ ...shown, x: x - shown.width / 2, y: y - shown.height / 2 });
}

let held = null, wasMoved = false;
view.addEventListener("pointerdown", (event) => {
  held = { x: event.clientX, y: event.clientY, part: { ...shown }, by: svg.getScreenCTM().a };
  wasMoved = false;
});
window.addEventListener("pointermove", (event) => {
  if (!held) return;
  const [dx, dy] = [event.clientX - held.x, event.clientY - held.y];
  if (!wasMoved && Math.hypot(dx, dy) < CLICK) return;
  wasMoved = true;
  view.classList.add("moving");
  show({ ...held.part, x: held.part.x - dx / held.by, y: held.part.y - dy / held.by });
});
window.addEventListener("pointerup", () => { held = null; view.classList.remove("moving"); });
view.addEventListener("wheel", (event) => {
  event.preventDefault();
  scale(Math.exp(event.deltaY / 500), ...placeOf(event));
}, { passive: false });

// Pixels for a unit of the picture if all of it is shown.
function scaleOfWhole() {
  const frame = view.getBoundingClientRect();
  return Math.min(frame.width / all.width, frame.height / all.height, LARGEST);
}
// Shows what is around a place, at a scale; `part` is how far from the left the place comes to be.
function showAround(x, y, by, part) {
  const frame = view.getBoundingClientRect(), width = frame.width / by, height = frame.height / by;
  show({ x: x - width * part, y: y - height / 2, width, height });
}
function showWhole() {
  showAround(all.x + all.width / 2, all.y + all.height / 2, scaleOfWhole(), 0.5);
}
// Shows the whole picture, or its start at the left if the whole would be too small to read.
function showFirst() {
  showWhole();
  if (scaleOfWhole() >= SMALLEST) return;
  const start = at("start"), box = (start || svg).getBoundingClientRect();
  const [left, y] = placeOf({ clientX: box.left, clientY: (box.top + box.bottom) / 2 });
  showAround(start ? left : all.x, y, FIRST, 0.03);
}

// The elements of the picture

const elementOf = (number) => document.getElementById(`node-${nodes[number][NAME]}`);
const groupElement = (number) => document.getElementById(`group-${number}`);
const edgeElement = (source, target) => document.getElementById(`edge-${nodes[source][NAME]}-${nodes[target][NAME]}`);
const byName = new Map(nodes.map((node, number) => [node[NAME], number]));

function numberOf(event) {
  const element = event.target.closest ? event.target.closest("g.node") : null;
  const [, word, name] = /^(node|group)-(.*)$/.exec(element ? element.id : "") || [];
  return word === "node" ? ["node", byName.get(name)] : word === "group" ? ["group", Number(name)] : [null, null];
}
function openAt(event) {
  const [word, number] = numberOf(event);
  if (word === "node") select(number);
  else if (word === "group") showGroup(number);
  else select(null);
}
view.addEventListener("click", (event) => { if (!wasMoved) openAt(event); });
svg.querySelectorAll("g.node").forEach((it) => {
  if (it.id === "start") return;
  it.setAttribute("tabindex", "0");
  it.addEventListener("keydown", (event) => { if (event.key === "Enter") { event.stopPropagation(); openAt(event); } });
});
function mark(elements, name) {
  svg.querySelectorAll(`.${name}`).forEach((it) => it.classList.remove(name));
  elements.forEach((it) => it && it.classList.add(name));
}

// What the panel says

function link(number, ...more) {
  const node = nodes[number], action = actionOf(node);
  const button = make("button", "link", node[TITLE]);
  button.addEventListener("click", () => select(number));
  return make("li", "", button, ...(action ? [` ${action}`] : []), ...more);
}
function list(numbers, row) {
  const found = make("ul", "", ...numbers.slice(0, MOST_LISTED).map(row));
  if (numbers.length > MOST_LISTED) found.append(make("li", "hint", `and ${(numbers.length - MOST_LISTED).toLocaleString("en")} more`));
  return found;
}
function section(title, numbers, row) {
  return numbers.length ? [make("h2", "", title), list(numbers, row)] : [];
}
function literalRow(literal) {
  const text = atomOf(literal), isFound = query() && text.includes(query());
  const shownText = isFound ? make("mark", "", text) : text;
  return make("li", isTrue(literal) ? "" : "off", ...(isTrue(literal) ? [] : ["not "]), shownText);
}
function describe(number) {
  const node = nodes[number], action = actionOf(node);
  const parts = [make("h2", "", node[TITLE])];
  if (number === data.start) parts.push(make("div", "", "The initial state lies here."));
  if (node[KIND] === "goal") parts.push(make("div", "", "goal"));
  if (node[KIND] === "stuck") parts.push(make("div", "picked", "stuck: no rule holds, or its action is not applicable"));
  if (node[KIND] === "lost") parts.push(make("div", "", "Its states are lost."));
  if (node[RULE] !== null && node[KIND] !== "goal") parts.push(make("div", "", `rule ${node[RULE]}${action ? ` ${action}` : ""}`));
  if (node[KIND] === "pair") parts.push(make("div", "", `${action} is barred`));
  if (fairness(node)) parts.push(make("div", node[KIND] === "unfair" ? "picked" : "", fairness(node)));
  if (node[DISTANCE] !== null && !data.levelled && node[KIND] !== "goal") {
    parts.push(make("div", "hint", `at least ${plural(node[DISTANCE], "step")} to a goal`));
  }
  const literals = node[LITERALS], on = literals.filter(isTrue), off = literals.filter((it) => !isTrue(it));
  if (!literals.length && node[NAME] !== "goal") parts.push(make("div", "hint", data.states ? "no atom is true" : "any state"));
  parts.push(...section("True", on, literalRow), ...section("False", off, literalRow));
  if (data.states) parts.push(make("div", "hint", "All other atoms are false."));
  const arrow = (end) => (it) => link(edges[it][end], make("div", "hint", outcomeText(edges[it])));
  parts.push(...section("Leads to", outgoing[number], arrow(TARGET)), ...section("Comes from", incoming[number], arrow(SOURCE)));
  return parts;
}
function render() {
  const parts = [];
  if (selected !== null) parts.push(...describe(selected));
  else if (shownGroup !== null) {
    const [title, members] = groups[shownGroup];
    parts.push(...section(`${title}: ${plural(members.length, data.noun)}`, members, (it) => link(it)));
  } else if (!query()) {
    const what = groups ? `There are too many ${data.noun}s to draw. Click a group to see them.` : "Click a node to see all its atoms.";
    parts.push(make("p", "hint", what));
    if (data.start !== null) parts.push(...section("Start", [data.start], (it) => link(it)));
  }
  if (query()) {
    parts.push(...section(plural(matches.length, "match", "matches"), matches, (it) => link(it)));
    if (!matches.length) parts.push(make("p", "hint", "Nothing matches."));
  }
  if (trace) parts.push(make("h2", "", "Trace"), traceList());
  panel.replaceChildren(...parts);
}

// Selecting

function select(number, isKept) {
  selected = number;
  if (number !== null) shownGroup = null;
  else if (!isKept) shownGroup = null;
  if (groups) {
    mark(number === null ? [] : [groupElement(groupOf.get(number))], "selected");
    showNear();
    if (number !== null) bringIntoView(groupElement(groupOf.get(number)));
  } else {
    mark(number === null ? [] : [elementOf(number)], "selected");
    mark(number === null ? [] : outgoing[number].map((it) => edgeElement(edges[it][SOURCE], edges[it][TARGET])), "out");
    if (number !== null && elementOf(number)) bringIntoView(elementOf(number));
  }
  history.replaceState(null, "", number === null ? location.pathname + location.search : `#${nodes[number][NAME]}`);
  render();
}
function showGroup(number) {
  selected = null;
  shownGroup = number;
  mark([groupElement(number)], "selected");
  showNear();
  render();
}

// A folded picture: the selected node with those before and after it, in three columns

function box(number) {
  const node = nodes[number], action = actionOf(node), on = node[LITERALS].filter(isTrue), off = node[LITERALS].length - on.length;
  const isMatch = query() && matchSet.has(number);
  const found = make("button", `box ${node[KIND]}${number === selected ? " selected" : ""}${isMatch ? " match" : ""}`, make("small", "", node[TITLE]));
  on.slice(0, MOST_ATOMS).forEach((it) => found.append(make("div", "", atomOf(it))));
  const more = [on.length > MOST_ATOMS ? `and ${on.length - MOST_ATOMS} more` : "", off ? `and ${off} not` : ""].filter((it) => it);
  if (more.length) found.append(make("small", "", more.join(", ")));
  if (action) found.append(make("b", "", action));
  found.dataset.number = number;
  found.addEventListener("click", () => select(number));
  return found;
}
function column(numbers) {
  const found = make("div", "column", ...numbers.slice(0, MOST_NEAR).map(box));
  if (numbers.length > MOST_NEAR) found.append(make("span", "hint", `and ${(numbers.length - MOST_NEAR).toLocaleString("en")} more, in the list`));
  return found;
}
function line(from, to, edge, frame) {
  const a = from.getBoundingClientRect(), b = to.getBoundingClientRect();
  const [x1, y1, x2, y2] = [a.right - frame.left, (a.top + a.bottom) / 2 - frame.top, b.left - frame.left, (b.top + b.bottom) / 2 - frame.top];
  const path = document.createElementNS(svg.namespaceURI, "path");
  const middle = (x1 + x2) / 2;
  path.setAttribute("d", `M${x1},${y1} C${middle},${y1} ${middle},${y2} ${x2},${y2}`);
  path.setAttribute("fill", "none");
  path.setAttribute("stroke", "#222");
  path.setAttribute("stroke-width", edge[COUNTED] === null ? "1" : "2.4");
  if (edge[EDGE_KIND] === "unfair") path.setAttribute("stroke-dasharray", "6 4");
  const text = document.createElementNS(svg.namespaceURI, "text");
  text.setAttribute("x", middle);
  text.setAttribute("y", (y1 + y2) / 2 - 4);
  text.textContent = ranges(edge[OUTCOMES]);
  return [path, text];
}
function showNear() {
  near.hidden = selected === null;
  if (selected === null) return;
  const before = incoming[selected].filter((it) => edges[it][SOURCE] !== selected);
  const after = outgoing[selected].filter((it) => edges[it][TARGET] !== selected);
  const loop = outgoing[selected].find((it) => edges[it][TARGET] === selected);
  const left = column(before.map((it) => edges[it][SOURCE])), right = column(after.map((it) => edges[it][TARGET]));
  const middle = column([selected]);
  if (loop !== undefined) middle.append(make("span", "hint", `${outcomeText(edges[loop])}: stays here`));
  const picture = document.createElementNS(svg.namespaceURI, "svg");
  const columns = make("div", "columns", left, middle, right);
  columns.append(picture);
  near.replaceChildren(columns);
  const frame = columns.getBoundingClientRect(), here = middle.firstChild;
  before.slice(0, MOST_NEAR).forEach((it, place) => picture.append(...line(left.children[place], here, edges[it], frame)));
  after.slice(0, MOST_NEAR).forEach((it, place) => picture.append(...line(here, right.children[place], edges[it], frame)));
  here.scrollIntoView({ block: "center", inline: "center" });
}

// Searching

let matchSet = new Set();
const query = () => search.value.trim();
function find() {
  const text = query();
  const hasAtom = data.atoms.map((it) => it.includes(text)), hasAction = data.actions.map((it) => it.includes(text));
  matches = [];
  if (text) {
    nodes.forEach((node, number) => {
      if (node[LITERALS].some((it) => isTrue(it) && hasAtom[it >> 1]) || node[ACTION] !== null && hasAction[node[ACTION]]) matches.push(number);
    });
  }
  matchSet = new Set(matches);
  matchAt = -1;
  at("found").textContent = text ? `${matches.length.toLocaleString("en")} of ${nodes.length.toLocaleString("en")}` : "";
  if (groups) mark([...new Set(matches.map((it) => groupOf.get(it)))].map(groupElement), "match");
  else mark(matches.map(elementOf), "match");
  if (groups) showNear();
  render();
}
function nextMatch(by) {
  if (!matches.length) return;
  matchAt = matchAt < 0 && by < 0 ? matches.length - 1 : (matchAt + by + matches.length) % matches.length;
  select(matches[matchAt]);
}
search.addEventListener("input", find);

// Going along a trace: at step K, the first K steps were taken

function traceList() {
  const rows = trace.steps.map((it, number) => {
    const button = make("button", "link", it[TEXT]);
    button.addEventListener("click", () => goTo(number + 1));
    return make("li", number + 1 === stepAt ? "here" : "", button, ...(it[IS_UNFAIR] ? [make("span", "picked", " picked")] : []));
  });
  const first = Math.max(0, Math.min((stepAt || 0) - MOST_LISTED / 2, rows.length - MOST_LISTED));
  const found = make("ol", "", ...rows.slice(first, first + MOST_LISTED));
  found.start = first + 1;
  return make("div", "", found, make("div", "hint", trace.end));
}
function goTo(number) {
  stepAt = Math.min(Math.max(number, 0), trace.steps.length);
  const taken = trace.steps.slice(0, stepAt), step = taken[stepAt - 1];
  const here = step ? step[TO] : trace.steps.length ? trace.steps[0][FROM] : trace.last;
  if (!groups) {
    const visited = [...new Set(taken.flatMap((it) => [it[FROM], it[TO]]))].map(elementOf);
    mark([...visited, ...taken.map((it) => edgeElement(it[FROM], it[TO]))], "visited");
    mark(taken.filter((it) => it[IS_UNFAIR]).map((it) => edgeElement(it[FROM], it[TO])), "picked");
    mark(step ? [edgeElement(step[FROM], step[TO])] : [], "taken");
    mark([elementOf(here)], "current");
  }
  select(here);
  const said = [`step ${stepAt} of ${trace.steps.length}`];
  if (step) said.push(`: ${step[TEXT]}`);
  if (stepAt === trace.steps.length) said.push(`${step ? "; " : ": "}${trace.end}`);
  at("step").replaceChildren(said.join(""), ...(step && step[IS_UNFAIR] ? [" ", make("span", "picked", "picked by the opponent")] : []));
}
function stepBy(by) { goTo((stepAt === null ? 0 : stepAt) + by); }
if (trace) {
  at("steps").hidden = false;
  at("first").addEventListener("click", () => goTo(0));
  at("back").addEventListener("click", () => stepBy(-1));
  at("on").addEventListener("click", () => stepBy(1));
  at("last").addEventListener("click", () => goTo(trace.steps.length));
}

// Buttons and keys

at("closer").addEventListener("click", () => scaleMiddle(0.8));
at("farther").addEventListener("click", () => scaleMiddle(1.25));
at("fit").addEventListener("click", showWhole);
at("help").addEventListener("click", () => at("helping").showModal());

const KEYS = {
  "/": () => search.focus(), "?": () => at("helping").showModal(),
  "+": () => scaleMiddle(0.8), "=": () => scaleMiddle(0.8), "-": () => scaleMiddle(1.25), "0": showWhole,
  "Escape": () => select(null),
};
const TRACE_KEYS = {
  "ArrowRight": () => stepBy(1), "ArrowLeft": () => stepBy(-1), "Home": () => goTo(0), "End": () => goTo(trace.steps.length),
};
document.addEventListener("keydown", (event) => {
  if (event.ctrlKey || event.metaKey || event.altKey || at("helping").open) return;
  if (event.target === search) {
    if (event.key === "Enter") nextMatch(event.shiftKey ? -1 : 1);
    if (event.key === "Escape") { search.value = ""; find(); search.blur(); }
    return;
  }
  const action = KEYS[event.key] || trace && TRACE_KEYS[event.key];
  if (action) { event.preventDefault(); action(); }
});

const named = byName.get(decodeURIComponent(location.hash.slice(1)));
showFirst();
if (trace) goTo(0);
else if (named !== undefined) select(named);
else render();
document.body.dataset.ready = "yes";
