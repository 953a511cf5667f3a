// Runs the scripts of a page over a document of its own, instead of a browser's: it reads {"ids", "data", "scripts"} from
// standard input, opens each part that is folded, and writes what the scripts made, and what its tools make of the drawing. A
// property that a script sets, and an attribute, has to be one of the few below, by which no text becomes a script, an element,
// a style or a link.
"use strict";
const vm = require("vm");
const fs = require("fs");

const SETS = new Set(["textContent", "className", "type", "title", "id", "open"]);
const ATTRIBUTES = new Set(["scope", "role", "aria-label", "aria-live", "aria-hidden", "data-label", "tabindex", "id", "class",
  "x", "y", "x1", "y1", "x2", "y2", "width", "height"]);
const ELEMENTS = new Set([
  "section", "h2", "h3", "div", "dl", "dt", "dd", "p", "ul", "li", "table", "tbody", "thead", "tr", "td", "th", "details", "summary",
  "button", "span", "wbr", "svg", "rect", "line", "text",
]);
const places = {};
const document = { title: null, activeElement: null };

class Node {
  constructor(name, text) {
    this.name = name;
    this.text = text;
    this.children = [];
    this.attributes = {};
    this.listeners = {};
  }
  appendChild(child) {
    if (!(child instanceof Node)) throw new Error("no node is appended");
    this.children.push(child);
    return child;
  }
  removeChild(child) {
    const at = this.children.indexOf(child);
    if (at < 0) throw new Error("no child is removed");
    this.children.splice(at, 1);
  }
  replaceChildren(...children) {
    this.children.splice(0, this.children.length, ...children);
  }
  setAttribute(name, value) {
    if (!ATTRIBUTES.has(name)) throw new Error("the attribute " + name + " is set");
    this.attributes[name] = value;
    if (name === "id") places[value] = guards.get(this);
  }
  addEventListener(name, act) {
    this.listeners[name] = act;
  }
  focus() {
    document.activeElement = guards.get(this);
  }
  getBoundingClientRect() {
    return { left: 0, width: 1000 };
  }
  get textContent() {
    return this.text === undefined ? this.children.map((child) => child.textContent).join("") : this.text;
  }
}

const guards = new Map();

// Returns a node that refuses each property but those that are allowed.
function guarded(node) {
  const guard = new Proxy(node, {
    set(target, name, value) {
      if (!SETS.has(name)) throw new Error("the property " + String(name) + " is set");
      if (name === "textContent") target.children = [new Node("#text", String(value))];
      else target.setAttribute(name === "className" ? "class" : name, value);
      return true;
    },
    get(target, name) {
      if (/HTML|^on|^style$|^src|^href$/.test(String(name))) throw new Error("the property " + String(name) + " is read");
      const value = target[name];
      return typeof value === "function" ? value.bind(target) : value;
    },
  });
  for (const name of ["type", "open"]) ATTRIBUTES.add(name);
  guards.set(node, guard);
  return guard;
}

function made(name) {
  if (!ELEMENTS.has(name)) throw new Error("an element " + name + " is made");
  return guarded(new Node(name));
}

const given = JSON.parse(fs.readFileSync(0, "utf8"));
for (const id of given.ids) places[id] = guarded(new Node("#" + id));
places.crash.textContent = given.data;
Object.assign(document, {
  getElementById: (id) => places[id] ?? null,
  createElement: made,
  createElementNS: (space, name) => {
    if (space !== "http://www.w3.org/2000/svg") throw new Error("an element of " + space + " is made");
    return made(name);
  },
  createTextNode: (text) => new Node("#text", String(text)),
});
const context = vm.createContext({ document, window: { addEventListener() {} } });
for (const script of given.scripts) vm.runInContext(script, context);

function all(node) {
  return [node, ...node.children.flatMap(all)];
}

function named(name) {
  return all(places.page).filter((node) => node.name === name);
}

const opened = new Set();

// Opens each part that is folded, also those within another.
function openAll() {
  for (let closed = named("details"); closed.length > 0; closed = named("details").filter((node) => !opened.has(node))) {
    for (const node of closed) {
      opened.add(node);
      if (node.listeners.toggle) node.listeners.toggle();
    }
  }
}

openAll();

function labelOf(node) {
  return node.attributes["aria-label"] || node.textContent;
}

// Returns the shapes of the drawing: what each is, where, and the text within.
function shapes() {
  return places.space === undefined ? [] : places.space.children.map((node) => ({ name: node.name, ...node.attributes, text: node.textContent }));
}

// Chooses the last block, so that the rows about it take the place of the first ones, and then shows all of each list, which has
// to leave what is opened.
const start = shapes();
const block = (places.space?.children ?? []).filter((node) => node.attributes.role === "button").pop();
if (block !== undefined) places.space.listeners.click({ target: guards.get(block) ?? block });
const short = [];
for (const node of named("button").filter((node) => /^Show all \d/.test(labelOf(node)))) {
  const place = all(places.page).find((one) => one.children.includes(node));
  const count = Number(labelOf(node).replace(/\D/g, ""));
  node.listeners.click();
  const list = place.children.find((one) => one.name === "ul" || one.name === "div");
  const rows = list.attributes.class === "scroll" ? all(list).find((one) => one.name === "tbody") : list;
  if (rows.children.length !== count) short.push("of " + count + " rows there are " + rows.children.length);
}
const there = new Set(named("details"));
if ([...opened].some((node) => !there.has(node))) short.push("what was opened is gone");
openAll();

const buttons = new Map(named("button").map((node) => [labelOf(node), node]));

function press(label) {
  if (buttons.has(label)) buttons.get(label).listeners.click();
  return shapes();
}

function turn(deltaY, clientX) {
  if (places.space !== undefined) places.space.listeners.wheel({ deltaY, clientX, preventDefault() {} });
  return shapes();
}

// Chooses a block, and returns its words, those that the page says of it, and the rows that are marked.
function choose(target) {
  places.space.listeners.click({ target: guards.get(target) ?? target });
  const marked = named("tr").filter((node) => node.attributes.class === "marked");
  return [labelOf(target), places.choice.textContent, marked.map((node) => node.textContent)];
}

const answer = { start, short, title: document.title, labels: [...buttons.keys()] };
answer.texts = Object.fromEntries(Object.keys(places).filter((id) => id !== "crash").map((id) => [id, places[id].textContent]));
answer.nearer = press("Zoom in");
answer.farther = press("Zoom out");
answer.wheel = turn(-1, 250);
answer.whole = press("Show all");
answer.chosen = (places.space?.children ?? []).filter((node) => node.attributes.role === "button").slice(0, 20).map(choose);
const steps = Array.from({ length: 100 }, () => press("Zoom in"));
answer.nearest = steps.length > 0 && places.view !== undefined ? places.view.textContent : null;
answer.shown = {};
const rows = answer.labels.filter((label) => / at 0x[0-9a-f]+$/.test(label));
const step = Math.ceil(rows.length / 20);
for (const label of rows.filter((_, i) => i % step === 0)) answer.shown[label] = press(label);
process.stdout.write(JSON.stringify(answer));
