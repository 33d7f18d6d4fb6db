"use strict";

// What is in force after each line was found when the page was made; here the chosen moment is only looked up and shown.
// All text goes into the page as text, never as markup.

const data = JSON.parse(document.getElementById("data").textContent);
const EQUATION = -1;
const FEW = 100; // so many items of a long list are shown at first
const NODES = 24; // so many nodes of a tree are open at first
const NAMES = 12; // so many symbols of a term stand in one line
const LONG = 120; // a longer text may be scrolled
const STRETCH = 100; // so many lines stand together

const byId = (id) => document.getElementById(id);
let moment = 0; // the chosen line: what is shown holds right after it

// ---- elements

function element(tag, name, ...children) {
  const made = document.createElement(tag);
  if (name) made.className = name;
  made.append(...children);
  return made;
}

function link(fragment, text, name) {
  const made = element("a", name, text);
  made.href = `#${fragment}`;
  return made;
}

const lineLink = (line) => link(`line-${line}`, `line ${line}`);

function termLink(term, line) {
  const made = link(`line-${line},term-${term}`, `t${term}`, "term");
  made.dataset.term = term;
  return made;
}

// The words of a line: terms become links, what stands between backticks code.
function linked(words, line) {
  const parts = words.split(/(`[^`]*`|\bt[0-9]+\b)/);
  return parts.map((part, place) => {
    if (place % 2 === 0) return part;
    return part[0] === "`" ? element("code", "", part.slice(1, -1)) : termLink(Number(part.slice(1)), line);
  });
}

const counted = (count, word) => `${count} ${word}${count === 1 ? "" : "s"}`;

function listAt(map, key) {
  if (!map.has(key)) map.set(key, []);
  return map.get(key);
}

// A list of which only the first items are built until the others are asked for.
function capped(items, build) {
  const list = element("ul", "", ...items.slice(0, FEW).map(build));
  if (items.length > FEW) {
    const more = element("button", "", `Show ${items.length - FEW} more`);
    more.type = "button";
    more.addEventListener("click", () => more.closest("li").replaceWith(...items.slice(FEW).map(build)));
    list.append(element("li", "", more));
  }
  return list;
}

// A list that only grows with the moment: its items are built once, and those to come are hidden.
function growing(container, build) {
  const built = [];
  let shown = 0;
  return (count) => {
    while (built.length < count) built.push(container.appendChild(build(built.length)));
    for (let place = shown; place < count; place += 1) built[place].hidden = false;
    for (let place = count; place < shown; place += 1) built[place].hidden = true;
    shown = count;
    return built;
  };
}

// ---- terms

const isKnown = (term) => data.terms[term] !== undefined && data.terms[term].args !== undefined;
const sortName = (sort) => (sort === 0 ? "Bool" : `sort ${sort}`);
const isEquation = (term) => isKnown(term) && data.terms[term].symbol === EQUATION;

function sortOf(term) {
  return isEquation(term) ? 0 : data.symbols[data.terms[term].symbol].result;
}

function isConstructor(term) {
  return isKnown(term) && !isEquation(term) && data.symbols[data.terms[term].symbol].role === "constructor";
}

function roleOf(number) {
  const { role, owner, index } = data.symbols[number];
  if (role === "tester") return `tester of constructor ${owner}`;
  return role === "selector" ? `selector of field ${index} of constructor ${owner}` : role;
}

// A term in one line; what is too much for it stands there by number.
function expression(term, room = { left: NAMES }) {
  if (!isKnown(term) || room.left === 0) return `t${term}`;
  room.left -= 1;
  const { symbol, args } = data.terms[term];
  const parts = args.map((arg) => (isEquation(arg) && room.left > 0 ? `(${expression(arg, room)})` : expression(arg, room)));
  if (symbol === EQUATION) return parts.join(" = ");
  return data.symbols[symbol].name + (parts.length > 0 ? `(${parts.join(", ")})` : "");
}

function origin(term) {
  const { line, rule } = data.terms[term];
  if (rule === undefined && !isKnown(term)) return ["made by a check, at ", lineLink(line), " at the latest"];
  if (rule === undefined) return [lineLink(line)];
  const why = isKnown(term) ? `: ${rule}` : "; for want of room the program could not be asked what it is";
  return ["made by the check of ", lineLink(line), why];
}

// A node says its term, symbol, role and sort.
function nodeLabel(term) {
  if (!isKnown(term)) return label(term, "?", origin(term));
  return label(term, isEquation(term) ? "=" : data.symbols[data.terms[term].symbol].name, [described(term)]);
}

// In the list of terms it has the whole term in one line, and where it comes from.
function itemLabel(term) {
  return isKnown(term) ? label(term, expression(term), [described(term), "; ", ...origin(term)]) : nodeLabel(term);
}

function described(term) {
  const { symbol } = data.terms[term];
  return isEquation(term) ? "equation, Bool" : `symbol ${symbol}, ${roleOf(symbol)}, ${sortName(sortOf(term))}`;
}

function label(term, code, role) {
  return [element("b", "", `t${term}`), " ", element("code", "", code), " ", element("span", "role", ...role)];
}

// A term as a tree. Terms share parts, so that a tree may be huge: what is closed is built only when it is opened.
function tree(term, room, labelled = nodeLabel) {
  const args = isKnown(term) ? data.terms[term].args : [];
  if (args.length === 0) return element("div", "node", ...labelled(term));
  const node = element("details", "node", element("summary", "", ...labelled(term)));
  const fill = (left) => {
    if (node.childElementCount === 1) node.append(element("div", "children", ...args.map((arg) => tree(arg, left))));
  };
  node.addEventListener("toggle", () => node.open && fill({ left: NODES }));
  if (room.left > 0) {
    room.left -= args.length;
    fill(room);
    node.open = true;
  }
  return node;
}

// ---- the sheet

const rowElements = [];
const stretches = []; // of neighbouring rows: one that is later as a whole is marked as a whole
const underLeaf = new Map(); // for each leaf the lines that name it, in force or not
const joins = []; // lines that join two terms
const takenBack = []; // lines that a `pop` takes back, by that `pop`

const rowOf = (line) => data.rows[line - 1];
const isGone = (line, at) => rowOf(line).until <= at;
const isInForce = (line, at) => line <= at && !isGone(line, at);
const leafLines = (leaf, at) => (underLeaf.get(leaf) || []).filter((line) => isInForce(line, at));

function answerParts(row, line) {
  if (row.leaves) return ["conflict=", ...parted(row.leaves.map((leaf) => leafLink(leaf, line)), ",")];
  if (row.answer === undefined) return ["no answer"];
  if (!row.answer.startsWith("split=")) return [row.answer];
  const rest = row.answer.slice(row.answer.indexOf(";"));
  return ["split=", ...parted(row.about.map((term) => withText(termLink(term, line), String(term))), ","), rest];
}

const parted = (items, comma) => items.flatMap((item, place) => (place === 0 ? [item] : [comma, item]));

function withText(made, text) {
  made.textContent = text;
  return made;
}

// A leaf leads to the first line in force under it; if there are more, they are named when it is pointed at, and beside the chosen line.
function leafLink([leaf, first, count], line) {
  if (count === 0) return leaf;
  const made = link(`line-${first}`, count > 1 ? `${leaf}⁺` : leaf, "leaf");
  made.dataset.leaf = leaf;
  made.dataset.line = line;
  return made;
}

function levelBars(level) {
  const bars = element("span", "bars");
  bars.style.setProperty("--level", Math.min(level, 16));
  bars.title = `level ${level}`;
  return bars;
}

function buildRow(row, place) {
  const line = place + 1;
  const kind = (row.answer || "none").split("=")[0];
  const bars = row.level > 0 ? [levelBars(row.level)] : [];
  const made = element(
    "div", "row",
    cell("number", "", link(`line-${line}`, String(line))),
    cell("script", row.text, ...bars, element("code", "", row.text)),
    cell(`answer is-${kind}`, row.answer || "", ...answerParts(row, line)),
    cell("words", "", ...linked(row.words || "the run stopped before it", line)),
  );
  made.id = `row-${line}`;
  made.dataset.line = line;
  made.setAttribute("role", "row");
  return made;
}

// What is too long for a few lines is scrolled in its cell.
function cell(name, text, ...children) {
  const made = element("div", text.length > LONG ? `${name} long` : name, ...children);
  made.setAttribute("role", "cell");
  return made;
}

function readRow(row, place) {
  const line = place + 1;
  if (row.leaf) listAt(underLeaf, row.leaf).push(line);
  if (row.join) joins.push(line);
  if (row.until) takenBack.push(line);
}

let goneCount = 0;

function markRows(before) {
  if (before > 0) {
    rowElements[before - 1].classList.remove("now");
    rowElements[before - 1].removeAttribute("aria-current");
  }
  stretches.forEach((stretch, place) => stretch.classList.toggle("later", place * STRETCH >= moment));
  while (goneCount < takenBack.length && isGone(takenBack[goneCount], moment)) {
    rowElements[takenBack[goneCount] - 1].classList.add("gone");
    goneCount += 1;
  }
  while (goneCount > 0 && !isGone(takenBack[goneCount - 1], moment)) {
    goneCount -= 1;
    rowElements[takenBack[goneCount] - 1].classList.remove("gone");
  }
  if (moment === 0) return;
  rowElements[moment - 1].classList.add("now");
  rowElements[moment - 1].setAttribute("aria-current", "true");
  rowElements[moment - 1].scrollIntoView({ block: "nearest" });
}

const highlighted = new Map(); // for each kind of highlight its lines

function highlight(name, lines) {
  for (const line of listAt(highlighted, name)) rowElements[line - 1].classList.remove(name);
  for (const line of lines) rowElements[line - 1].classList.add(name);
  highlighted.set(name, lines);
}

function citedLines() {
  const { leaves } = moment === 0 ? {} : rowOf(moment);
  return leaves ? leaves.flatMap(([leaf]) => leafLines(leaf, moment)) : [];
}

// ---- the chosen line

function literalWords(leaf) {
  const literal = Number(leaf.slice(1));
  const { atom } = data.variables.find((variable) => variable.number === Math.floor(literal / 2));
  const says = literal % 2 === 0 ? "is true" : "is false";
  return [`literal ${literal}: `, termLink(atom, moment), ` ${says}: `, element("code", "", expression(atom))];
}

function leafItem([leaf, , count]) {
  if (count === 0) return element("li", "leaf-item", element("b", "", leaf), " no line is known for it");
  const [theory, tag] = leaf.slice(1).split(".");
  const words = leaf[0] === "a" ? literalWords(leaf) : [`all equations in force under theory ${theory}, tag ${tag}`];
  const lines = leafLines(leaf, moment);
  const item = element("li", "leaf-item", element("b", "", leaf), " ", ...words);
  item.append(capped(lines, (line) => element("li", "", lineLink(line), " ", element("code", "", rowOf(line).text))));
  return item;
}

function drawLine() {
  const shown = byId("line");
  if (moment === 0) {
    shown.replaceChildren(element("h2", "", "Before the first line"));
    return;
  }
  const row = rowOf(moment);
  const parts = [element("h2", "", `After line ${moment}`)];
  parts.push(element("p", "exchange", element("code", "", row.text), " ", element("span", "arrow", "→"), " ",
    element("code", "", row.answer === undefined ? "no answer" : row.answer)));
  parts.push(element("p", "", ...linked(row.words || "the run stopped before it", moment)));
  if (row.until) parts.push(element("p", "", "Later taken back by ", lineLink(row.until), "."));
  if (row.leaves) parts.push(element("h3", "", "Cited"), capped(row.leaves, leafItem));
  if (row.about) parts.push(capped(row.about, (term) => element("li", "tree", tree(term, { left: NODES }))));
  shown.replaceChildren(...parts);
}

// ---- the moment

function titled(id, text) {
  byId(id).querySelector("summary").textContent = text;
  return byId(id).querySelector("summary + div");
}

function forceItem(line) {
  const row = rowOf(line);
  const bars = row.level > 0 ? [levelBars(row.level)] : [];
  return element("li", "", ...bars, lineLink(line), " ", element("code", "", row.text), " ", ...linked(row.words, moment));
}

function drawForce() {
  const lines = [];
  let level = 0;
  for (let line = 1; line <= moment; line += 1) {
    const row = rowOf(line);
    if (row.taken && !isGone(line, moment)) {
      if (row.kind === "push") level += 1;
      lines.push(line);
    }
  }
  const title = `In force: ${counted(lines.length - level, "line")}, ${counted(level, "open level")}`;
  titled("force", title).replaceChildren(capped(lines, forceItem));
}

function countMade(items) {
  let count = 0;
  while (count < items.length && items[count].line <= moment) count += 1;
  return count;
}

// Equal now: joined by the sides of lines in force. A class is named by its lowest term.
function classesNow(count) {
  const above = Array.from({ length: count }, (_, term) => term);
  const lowest = (term) => {
    let at = term;
    while (above[at] !== at) at = above[at];
    return at;
  };
  for (const line of joins) {
    if (isInForce(line, moment)) {
      const [one, other] = rowOf(line).join.map(lowest);
      above[Math.max(one, other)] = Math.min(one, other);
    }
  }
  const classes = new Map();
  for (let term = 0; term < count; term += 1) {
    above[term] = lowest(term);
    listAt(classes, above[term]).push(term);
  }
  return [...classes.values()];
}

function member(term) {
  const made = element("li", isConstructor(term) ? "member constructor" : "member", termLink(term, moment));
  if (isKnown(term)) made.append(" ", element("code", "", expression(term)));
  if (isConstructor(term)) made.append(" ", element("span", "badge", "constructor"));
  return made;
}

function classCard(terms) {
  const known = terms.find(isKnown);
  const title = `${terms.length} terms${known === undefined ? "" : `, ${sortName(sortOf(known))}`}`;
  return element("div", "class", element("h3", "", title), capped(terms, member));
}

function drawClasses(count) {
  const classes = classesNow(count);
  const several = classes.filter((terms) => terms.length > 1);
  const single = classes.filter((terms) => terms.length === 1).flat();
  const before = document.querySelector(".alone");
  const alone = element("details", "alone", element("summary", "", `${counted(single.length, "term")} alone in a class`));
  alone.addEventListener("toggle", () => alone.childElementCount === 1 && alone.append(capped(single, member)));
  alone.open = before !== null && before.open;
  const title = `Classes: ${several.length} of more than one term`;
  titled("classes", title).replaceChildren(...several.map(classCard), ...(single.length > 0 ? [alone] : []));
}

// ---- what only grows

function termItem(term) {
  const item = element("li", "", tree(term, { left: 0 }, itemLabel));
  item.id = `term-${term}`;
  return item;
}

function variableItem(place) {
  const { number, atom, line } = data.variables[place];
  const words = [`variable ${number}: `, termLink(atom, line), " ", element("code", "", expression(atom)), " "];
  return element("li", "", ...words, element("span", "role", lineLink(line)));
}

function sortRow(sort) {
  return element("li", "", element("b", "", sortName(sort)), ` ${sort === 0 ? "sort 0" : data.sorts[sort].kind}`);
}

function symbolRow(number) {
  const { name, params, result, role } = data.symbols[number];
  const of = role === "constructor" ? ` of sort ${result}` : "";
  const signature = `${params.map(sortName).join(", ")}${params.length > 0 ? " → " : ""}${sortName(result)}`;
  const said = `symbol ${number}, ${roleOf(number)}${of}: ${signature}`;
  return element("li", "", element("code", "", name), " ", element("span", "role", said));
}

function growingList(id, build) {
  const list = element("ul", "");
  byId(id).querySelector("summary + div").append(list);
  return growing(list, build);
}

let showTerms;
let showVariables;
let showSorts;
let showSymbols;

function drawGrown(terms) {
  titled("terms", `Terms: ${terms}`);
  showTerms(terms);
  const variables = countMade(data.variables);
  titled("variables", `Variables: ${variables}`);
  showVariables(variables);
  const sorts = countMade(data.sorts);
  const symbols = countMade(data.symbols);
  titled("declarations", `Declarations: ${counted(sorts, "sort")}, ${counted(symbols, "symbol")}`);
  showSorts(sorts);
  showSymbols(symbols);
}

// ---- choosing

function show(line) {
  const before = moment;
  moment = Math.max(0, Math.min(line, data.rows.length));
  markRows(before);
  highlight("cited", citedLines());
  byId("slider").value = moment;
  byId("moment").textContent = moment === 0 ? `before ${counted(data.total, "line")}` : `after line ${moment} of ${data.total}`;
  drawLine();
  drawForce();
  const terms = countMade(data.terms);
  drawClasses(terms);
  drawGrown(terms);
}

function showTerm(term) {
  const item = byId(`term-${term}`);
  if (!item || item.hidden) return;
  for (const other of document.querySelectorAll("#terms .chosen")) other.classList.remove("chosen");
  byId("terms").open = true;
  item.classList.add("chosen");
  const node = item.querySelector("details");
  if (node) node.open = true;
  item.scrollIntoView({ block: "center" });
}

function readFragment() {
  const found = /^#line[-=]([0-9]+)(?:,term[-=]([0-9]+))?$/.exec(location.hash);
  show(found ? Number(found[1]) : data.answered);
  if (found && found[2]) showTerm(Number(found[2]));
}

// Steps leave no trail in the browser's history; the address follows once they pause, since browsers limit how often it may change.
let settle = 0;

function step(line) {
  show(line);
  clearTimeout(settle);
  settle = setTimeout(() => history.replaceState(null, "", `#line-${moment}`), 150);
}

function jump(prefix) {
  const found = data.rows.findIndex((row, place) => place >= moment && (row.answer || "").startsWith(prefix));
  const again = found < 0 ? data.rows.findIndex((row) => (row.answer || "").startsWith(prefix)) : found;
  if (again >= 0) step(again + 1);
}

const STEPS = new Map([
  ["ArrowUp", () => moment - 1], ["ArrowDown", () => moment + 1], ["PageUp", () => moment - 20], ["PageDown", () => moment + 20],
  ["Home", () => 0], ["End", () => data.rows.length],
]);

function onKey(event) {
  if (!STEPS.has(event.key) || event.ctrlKey || event.altKey || event.metaKey || event.target.closest("#panel, input")) return;
  event.preventDefault();
  step(STEPS.get(event.key)());
}

function onRowClick(event) {
  const row = event.target.closest(".row");
  if (!event.target.closest("a") && row && String(getSelection()) === "") step(Number(row.dataset.line));
}

// A link to the very address that is shown changes nothing there, but leads back to what it names.
function onLinkClick(event) {
  const clicked = event.target.closest("a");
  if (clicked && clicked.hash === location.hash) readFragment();
}

// Pointing at a leaf shows its lines, at a term what it is.
function onPoint(event) {
  const pointed = event.target.closest("a.leaf, a.term");
  if (!pointed) return;
  if (pointed.classList.contains("term")) {
    pointed.title = expression(Number(pointed.dataset.term));
    return;
  }
  const lines = leafLines(pointed.dataset.leaf, Number(pointed.dataset.line));
  pointed.title = `in force by ${lines.length === 1 ? "line" : "lines"} ${lines.slice(0, FEW).join(", ")}`;
  highlight("pointed", lines);
}

function onLeave(event) {
  if (event.target.closest("a.leaf")) highlight("pointed", []);
}

function start() {
  data.rows.forEach(readRow);
  takenBack.sort((one, other) => rowOf(one).until - rowOf(other).until);
  for (const note of data.notes) byId("notes").append(element("p", "", note));
  data.rows.forEach((row, place) => rowElements.push(buildRow(row, place)));
  for (let first = 0; first < rowElements.length; first += STRETCH) {
    const stretch = element("div", "stretch", ...rowElements.slice(first, first + STRETCH));
    stretch.setAttribute("role", "rowgroup");
    stretches.push(stretch);
  }
  byId("rows").append(...stretches);
  byId("slider").max = data.rows.length;
  showTerms = growingList("terms", termItem);
  showVariables = growingList("variables", variableItem);
  showSorts = growingList("declarations", sortRow);
  showSymbols = growingList("declarations", symbolRow);

  byId("rows").addEventListener("click", onRowClick);
  byId("previous").addEventListener("click", () => step(moment - 1));
  byId("next").addEventListener("click", () => step(moment + 1));
  byId("slider").addEventListener("input", (event) => step(Number(event.target.value)));
  for (const button of document.querySelectorAll("[data-jump]")) button.addEventListener("click", () => jump(button.dataset.jump));
  document.addEventListener("click", onLinkClick);
  document.addEventListener("keydown", onKey);
  for (const name of ["mouseover", "focusin"]) document.addEventListener(name, onPoint);
  for (const name of ["mouseout", "focusout"]) document.addEventListener(name, onLeave);
  addEventListener("hashchange", readFragment);
  readFragment();
}

start();
