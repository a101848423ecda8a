"use strict";
// The stepping view. Every text goes into the page as text; nothing here makes HTML out of words.
const data = JSON.parse(document.getElementById("data").textContent);
const at = (identity) => document.getElementById(identity);

// An element with a class and children, which are elements or texts.
function make(name, kind, ...children) {
  const element = document.createElement(name);
  if (kind) element.className = kind;
  element.append(...children);
  return element;
}

const split = (text, sign) => (text ? text.split(sign) : []);

// A state out of its four parts, as vectors/README.md describes them.
function stateOf(index) {
  const [steps, ...parts] = data.states[index];
  const [frames, statics, marks, heap] = parts.map((number) => data.texts[number]);
  return {
    steps,
    frames: [...frames.matchAll(/\[(\d+),(\d+);([^;\]]*);([^;\]]*);([^;\]]*)\]/g)].map((found) => ({
      method: found[1], offset: found[2], arguments: split(found[3], ","), locals: split(found[4], ","), stack: split(found[5], ","),
    })),
    statics: new Map(split(statics, ",").map((item) => item.split(":"))),
    marks: new Set(split(marks, ",")),
    heap: [...heap.matchAll(/\((\d+);([^)]*)\)/g)].map((found) => ({ row: found[1], cells: split(found[2], ",") })),
  };
}

const TYPES = { i: "int32", l: "int64", f: "F" };

// The F whose bits these sixteen digits are.
function realOf(digits) {
  const view = new DataView(new ArrayBuffer(8));
  view.setBigUint64(0, BigInt("0x" + digits));
  return view.getFloat64(0);
}

// A cell's type and value in words.
function cellWords(cell, state) {
  if (cell === "n") return ["", "null"];
  const value = cell.slice(1);
  if (cell[0] === "o") {
    const made = state.heap[Number(value) - 1];
    return [made ? className(made.row) : "object", "object " + value];
  }
  return [TYPES[cell[0]], cell[0] === "f" ? realOf(value) + " (" + value + ")" : value];
}

const className = (row) => (data.classes[row] ? data.classes[row].name : "class " + row);
const methodOf = (frame) => data.methods[frame.method] || { name: "method " + frame.method, arguments: [], locals: [], rows: {} };

// A cell as a small box, with its name if it has one; what the last step changed says so.
function chip(cell, state, name, changed) {
  const [type, value] = cellWords(cell, state);
  const parts = [];
  if (name) parts.push(make("span", "name", name));
  if (type) parts.push(make("span", "type", type));
  parts.push(make("span", "value", value));
  if (changed) parts.push(make("span", "unseen", " (changed)"));
  return make("li", changed ? "chip changed" : "chip", ...parts.flatMap((part) => [part, " "]));
}

// A titled list of cells. `names` gives each its name, `before` has the cells one step earlier, or is null where there were none.
function cells(title, list, names, before, state) {
  const chips = list.map((cell, index) => chip(cell, state, names[index], before !== null && before[index] !== cell));
  const body = chips.length ? make("ul", "chips", ...chips) : make("span", "none", "none");
  return make("div", "cells", make("h5", "", title), body);
}

function instructionWords(frame) {
  const row = methodOf(frame).rows[frame.offset];
  if (!row) return "offset " + frame.offset + ", where no instruction of the list begins";
  return "offset " + frame.offset + (row[1] ? ", line " + row[1] : "") + ": " + row[0];
}

function frameBox(frame, before, state, running) {
  const method = methodOf(frame);
  const title = make("h4", "", method.name, make("span", "where", (running ? " at " : " waits at ") + instructionWords(frame)));
  const old = before && before.method === frame.method ? before : null;
  const lists = [["Stack, from its bottom", "stack", []], ["Locals", "locals", method.locals], ["Arguments", "arguments", method.arguments]];
  const told = lists.filter(([, part]) => frame[part].length || (running && part === "stack"));
  const boxes = told.map(([words, part, names]) => cells(words, frame[part], names, old && old[part], state));
  return make("article", running ? "frame running" : "frame", title, ...boxes);
}

function framesBox(state, before) {
  const boxes = state.frames.map((frame, index) => frameBox(frame, before && before.frames[index], state, index === state.frames.length - 1));
  const body = boxes.length ? boxes.reverse() : [make("p", "none", "No frame: the entry has returned.")];
  return make("section", "part frames", make("h3", "", "Frames, the running one first"), ...body);
}

function staticsBox(state, before) {
  const rows = [...state.statics.keys()];
  const list = cells("Static fields", rows.map((row) => state.statics.get(row)), rows.map((row) => data.statics[row] || "field " + row),
    before && rows.map((row) => before.statics.get(row)), state);
  return make("section", "part", list);
}

function marksBox(state, before) {
  const chips = [...state.marks].map((row) => {
    const added = before && !before.marks.has(row);
    return make("li", added ? "chip changed" : "chip", className(row), ...(added ? [make("span", "unseen", " (changed)")] : []));
  });
  return make("section", "part", make("div", "cells", make("h5", "", "Marks: classes started"), make("ul", "chips", ...chips)));
}

function objectsBox(state, before) {
  const boxes = state.heap.map((made, index) => {
    const known = data.classes[made.row];
    const old = before && before.heap[index];
    const names = made.cells.map((_, cell) => (known && known.fields[cell]) || String(cell));
    return cells("Object " + (index + 1) + ": " + className(made.row), made.cells, names, old ? old.cells : null, state);
  });
  const body = boxes.length ? boxes : [make("span", "none", "none")];
  return make("section", "part", make("h3", "", "Objects"), ...body);
}

// Marks an element as where the run stands, and brings it into view inside its own panel.
function mark(element, panel) {
  if (!element) return;
  element.classList.add("now");
  if (!panel) return;
  const inner = element.getBoundingClientRect();
  const outer = panel.getBoundingClientRect();
  if (inner.top < outer.top || inner.bottom > outer.bottom) panel.scrollTop += inner.top - outer.top - outer.height / 3;
}

function markPlaces(state) {
  document.querySelectorAll(".now").forEach((element) => element.classList.remove("now"));
  const frame = state.frames[state.frames.length - 1];
  if (!frame) return;
  mark(at("m" + frame.method + "-" + frame.offset), at("methods"));
  const row = methodOf(frame).rows[frame.offset];
  if (row && row[1]) mark(at("line-" + row[1]), document.querySelector(".text"));
}

function nowWords(state, isLast) {
  const done = "After " + state.steps.toLocaleString("en") + (state.steps === 1 ? " step. " : " steps. ");
  const frame = state.frames[state.frames.length - 1];
  const where = frame ? methodOf(frame).name + ", " + instructionWords(frame) + "." : "";
  return isLast ? done + data.ending + (where ? " It stands at " + where : "") : done + "Next: " + where;
}

let shown = 0;

function show(index) {
  const last = data.states.length - 1;
  shown = Math.min(Math.max(index, 0), last);
  const state = stateOf(shown);
  // The state before the last one shown may be many steps away; then nothing is called changed.
  const before = shown > 0 && data.states[shown - 1][0] === state.steps - 1 ? stateOf(shown - 1) : null;
  at("state").replaceChildren(framesBox(state, before), staticsBox(state, before), marksBox(state, before), objectsBox(state, before));
  const words = nowWords(state, shown === last);
  at("now").textContent = words;
  at("slider").value = String(shown);
  at("slider").setAttribute("aria-valuetext", words);
  for (const name of ["first", "back"]) at(name).setAttribute("aria-disabled", String(shown === 0));
  for (const name of ["next", "last"]) at(name).setAttribute("aria-disabled", String(shown === last));
  markPlaces(state);
}

function begin() {
  const last = data.states.length - 1;
  const moves = { first: () => 0, back: () => shown - 1, next: () => shown + 1, last: () => last };
  for (const [name, move] of Object.entries(moves)) at(name).addEventListener("click", () => show(move()));
  at("slider").addEventListener("input", (event) => show(Number(event.target.value)));
  const keys = { Home: "first", ArrowLeft: "back", ArrowRight: "next", End: "last" };
  at("run").addEventListener("keydown", (event) => {
    if (!(event.key in keys) || event.ctrlKey || event.altKey || event.metaKey) return;
    event.preventDefault();
    show(moves[keys[event.key]]());
  });
  const named = /^#step-(\d+)$/.exec(location.hash);
  const wanted = named ? data.states.findIndex((state) => state[0] === Number(named[1])) : 0;
  show(wanted < 0 ? 0 : wanted);
}

// The system's choice of light or dark counts until the button is pressed.
const dark = matchMedia("(prefers-color-scheme: dark)");
at("theme").hidden = false;
at("theme").addEventListener("click", () => {
  const root = document.documentElement;
  const isDark = root.dataset.theme ? root.dataset.theme === "dark" : dark.matches;
  root.dataset.theme = isDark ? "light" : "dark";
});
if (data.states.length) begin();
